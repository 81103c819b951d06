//! Settings: their names, ranges and blanks (docs/RULES.md, "The sheet").

use crate::arguments::number;
use crate::weights::{grouped, Committee};
use forgelilac::{layout, Engine, Member, Sheet, CEILING, MEMBERS};

/// A setting of the sheet.
#[derive(Clone, Copy, PartialEq, Eq, Debug)]
pub enum Setting {
    Lookback,
    Ceiling,
    Allowance,
    Weight(usize),
    Margin,
}

impl Setting {
    pub fn all() -> impl Iterator<Item = Setting> {
        let first = [Setting::Lookback, Setting::Ceiling, Setting::Allowance];
        first.into_iter().chain((0..MEMBERS).map(Setting::Weight)).chain([Setting::Margin])
    }

    pub fn name(self) -> String {
        match self {
            Setting::Lookback => "lookback".to_owned(),
            Setting::Ceiling => "ceiling".to_owned(),
            Setting::Allowance => "allowance".to_owned(),
            Setting::Weight(member) => format!("weight of member {member}"),
            Setting::Margin => "margin".to_owned(),
        }
    }

    pub fn range(self) -> (u32, u32) {
        match self {
            Setting::Lookback => (1, 1_000),
            Setting::Ceiling => (3, CEILING),
            Setting::Allowance => (0, 4),
            Setting::Weight(_) => (0, 1_000_000),
            Setting::Margin => (3, 5),
        }
    }

    /// What a blank one means.
    pub fn blank(self) -> u32 {
        match self {
            Setting::Lookback => 20,
            Setting::Ceiling => CEILING,
            Setting::Allowance => 4,
            Setting::Weight(member) => u32::from(member < 4),
            Setting::Margin => 3,
        }
    }

    pub fn of(self, sheet: &Sheet) -> Option<u32> {
        match self {
            Setting::Lookback => sheet.lookback,
            Setting::Ceiling => sheet.ceiling,
            Setting::Allowance => sheet.allowance,
            Setting::Weight(member) => sheet.weights[member],
            Setting::Margin => sheet.margin,
        }
    }

    pub fn filled(self, sheet: &Sheet) -> u32 {
        self.of(sheet).unwrap_or(self.blank())
    }

    fn place(self, sheet: &mut Sheet) -> &mut Option<u32> {
        match self {
            Setting::Lookback => &mut sheet.lookback,
            Setting::Ceiling => &mut sheet.ceiling,
            Setting::Allowance => &mut sheet.allowance,
            Setting::Weight(member) => &mut sheet.weights[member],
            Setting::Margin => &mut sheet.margin,
        }
    }
}

/// Writes what `NAME=NUMBER` says: a setting by its name, `weight.4=5` of one member, `weights=10,10,,5` of all.
pub fn write(sheet: &mut Sheet, words: &str) -> Result<(), String> {
    let Some((name, value)) = words.split_once('=') else {
        return Err(format!("'{words}' is no NAME=NUMBER"));
    };
    let (name, value) = (name.trim(), value.trim());
    if name == "weights" {
        return write_weights(sheet, value);
    }
    let of_member = name.strip_prefix("weight.").map(|member| number(member).filter(|member| *member < 16));
    let setting = match (name, of_member) {
        ("lookback", _) => Setting::Lookback,
        ("ceiling", _) => Setting::Ceiling,
        ("allowance", _) => Setting::Allowance,
        ("margin", _) => Setting::Margin,
        (_, Some(Some(member))) => Setting::Weight(member as usize),
        (_, Some(None)) => return Err(format!("'{name}': a member is 0 to 15")),
        _ => {
            let names = "lookback, ceiling, allowance, weights, weight.0 to weight.15, margin";
            return Err(format!("no setting has the name '{name}': they are {names}"));
        }
    };
    *setting.place(sheet) = blank_or_number(&setting.name(), value)?;
    Ok(())
}

fn write_weights(sheet: &mut Sheet, value: &str) -> Result<(), String> {
    let fields: Vec<_> = value.split(',').collect();
    if fields.len() > MEMBERS {
        return Err("there are sixteen weights at most".to_owned());
    }
    for (member, field) in fields.iter().enumerate() {
        sheet.weights[member] = blank_or_number(&Setting::Weight(member).name(), field.trim())?;
    }
    Ok(())
}

fn blank_or_number(name: &str, value: &str) -> Result<Option<u32>, String> {
    if value.is_empty() {
        return Ok(None);
    }
    match number(value) {
        Some(number) => Ok(Some(number)),
        None => Err(format!("the {name} is '{value}', no number")),
    }
}

/// Why an open refuses a sheet, in words: the first setting out of range, or the weights.
pub fn fault_of(sheet: &Sheet) -> Option<String> {
    for setting in Setting::all() {
        let (low, high) = setting.range();
        let value = setting.filled(sheet);
        if !(low..=high).contains(&value) {
            let range = format!("{} to {}", grouped(low), grouped(high));
            return Some(format!(
                "the {} is {}, and its range is {range} (refused with 2)",
                setting.name(),
                grouped(value)
            ));
        }
    }
    let none = (0..MEMBERS).all(|member| Setting::Weight(member).filled(sheet) == 0);
    none.then(|| "no starting weight is positive (refused with 3)".to_owned())
}

/// The committee of the start.
pub fn start_of(sheet: &Sheet) -> Committee {
    let weights = std::array::from_fn(|member| Setting::Weight(member).filled(sheet));
    Committee { weights, margin: Setting::Margin.filled(sheet) }
}

/// The record that opens a member by a sheet.
pub fn record_of(own: Member, sheet: &Sheet) -> String {
    let mut fields: Vec<_> =
        Setting::all().map(|setting| setting.of(sheet).map_or(String::new(), |value| value.to_string())).collect();
    if sheet.margin.is_none() {
        fields.pop();
    }
    format!("open,{own},{}", fields.join(","))
}

/// The settings of an open engine, all written.
pub fn sheet_of(engine: &Engine) -> Sheet {
    let (state, _) = engine.words();
    Sheet {
        lookback: Some(state[layout::STATE_LOOKBACK]),
        ceiling: Some(state[layout::STATE_CEILING]),
        allowance: Some(state[layout::STATE_ALLOWANCE]),
        weights: std::array::from_fn(|member| Some(state[layout::STATE_WEIGHTS + member])),
        margin: Some(state[layout::STATE_MARGIN]),
    }
}

/// Settings in a line.
pub fn told(sheet: &Sheet) -> String {
    let filled = |setting: Setting| setting.filled(sheet);
    format!(
        "lookback {}, ceiling {}, allowance {}, margin {}; weights {}",
        filled(Setting::Lookback),
        filled(Setting::Ceiling),
        filled(Setting::Allowance),
        filled(Setting::Margin),
        start_of(sheet).told()
    )
}
