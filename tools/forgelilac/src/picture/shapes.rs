//! What the drawings share: their colours and type, simple shapes, and the paper that they stand on.
//!
//! Each draws its own paper. Where the reader's browser is set to dark, the colours change. On either, letters have a
//! contrast of at least 4.5 to what they stand on; lines and signs of at least 3, those fainter that are told in words too.

/// Of a picture, at least; a page's.
pub const WIDTH: f64 = 830.0;
/// What stays free beside it.
pub const RIGHT: f64 = 16.0;
pub const LEGEND_ROW: f64 = 34.0;
pub const LEGEND_COLUMN: f64 = 268.0;
pub const INK: &str = "#2b2a33";
pub const QUIET: &str = "#605d6b";
pub const FAINT: &str = "#868194";
pub const LINK: &str = "#7a758c";
pub const PAPER: &str = "#fdfcfb";
/// Of each block: area, ink.
pub const COLOURS: [(&str, &str); 6] = [
    ("#e9e0f7", "#6a46a8"),
    ("#d8f0ea", "#1b7566"),
    ("#fcebcf", "#8f5808"),
    ("#dce9fb", "#2c5fa8"),
    ("#fbdfe5", "#ab3757"),
    ("#e6f2d5", "#4a7018"),
];
/// Each colour, and what it is on dark paper.
const DARK: [(&str, &str); 17] = [
    (INK, "#eceaf2"),
    (QUIET, "#b1adbd"),
    (FAINT, "#8b869b"),
    (LINK, "#8b869b"),
    (PAPER, "#1c1b22"),
    ("#e9e0f7", "#2f2547"),
    ("#6a46a8", "#b79cf0"),
    ("#d8f0ea", "#17352f"),
    ("#1b7566", "#5cc5b0"),
    ("#fcebcf", "#3b2c14"),
    ("#8f5808", "#e2a650"),
    ("#dce9fb", "#1d2c45"),
    ("#2c5fa8", "#86b3f2"),
    ("#fbdfe5", "#42202b"),
    ("#ab3757", "#ef8fa7"),
    ("#e6f2d5", "#26331a"),
    ("#4a7018", "#a0cc62"),
];

/// The style of all drawings, and a rule of the drawing's own behind it.
pub fn style_with(own: &str) -> String {
    format!(
        "
text {{ font-family: \"Helvetica Neue\", Arial, \"DejaVu Sans\", sans-serif; fill: {INK}; }}
.title {{ font-size: 20px; font-weight: 600; }}
.quiet {{ font-size: 13px; fill: {QUIET}; }}
.label {{ font-size: 14px; }}
.strong {{ font-size: 14px; font-weight: 600; }}
.small {{ font-size: 12.5px; }}
.code {{ font-family: \"DejaVu Sans Mono\", Menlo, Consolas, monospace; font-size: 12.5px; }}
{own}
"
    )
}

/// A number with at most six digits, as short as it may be.
pub fn g(number: f64) -> String {
    if number == 0.0 {
        return "0".to_owned();
    }
    let before = number.abs().log10().floor() as i32 + 1;
    let decimals = (6 - before).clamp(0, 12) as usize;
    let text = format!("{number:.decimals$}");
    if text.contains('.') {
        text.trim_end_matches('0').trim_end_matches('.').to_owned()
    } else {
        text
    }
}

pub fn escaped(words: &str) -> String {
    let named = |letter| match letter {
        '&' => "&amp;".to_owned(),
        '<' => "&lt;".to_owned(),
        '>' => "&gt;".to_owned(),
        '"' => "&quot;".to_owned(),
        '\'' => "&#x27;".to_owned(),
        other => other.to_string(),
    };
    words.chars().map(named).collect()
}

pub type Point = (f64, f64);

/// How words stand to their point.
#[derive(Clone, Copy)]
pub enum Anchor {
    Start,
    Middle,
    End,
}

pub fn text(at: Point, words: &str, kind: &str, anchor: Anchor, fill: Option<&str>) -> String {
    let colour = fill.map_or(String::new(), |fill| format!(" style=\"fill:{fill}\""));
    let anchor = match anchor {
        Anchor::Start => "start",
        Anchor::Middle => "middle",
        Anchor::End => "end",
    };
    let (x, y) = (g(at.0), g(at.1));
    format!("<text x=\"{x}\" y=\"{y}\" class=\"{kind}\" text-anchor=\"{anchor}\"{colour}>{}</text>", escaped(words))
}

pub fn line(start: Point, end: Point, colour: &str, width: f64, more: &str) -> String {
    let [x1, y1, x2, y2] = [start.0, start.1, end.0, end.1].map(g);
    let width = g(width);
    format!(
        "<line x1=\"{x1}\" y1=\"{y1}\" x2=\"{x2}\" y2=\"{y2}\" stroke=\"{colour}\" stroke-width=\"{width}\" stroke-linecap=\"round\"{more}/>"
    )
}

pub fn circle(at: Point, radius: f64, fill: &str, stroke: &str, width: f64, more: &str) -> String {
    let [x, y, radius, width] = [at.0, at.1, radius, width].map(g);
    format!("<circle cx=\"{x}\" cy=\"{y}\" r=\"{radius}\" fill=\"{fill}\" stroke=\"{stroke}\" stroke-width=\"{width}\"{more}/>")
}

/// A rectangle by its corner and its size.
pub struct Rectangle {
    pub at: Point,
    pub size: Point,
    pub radius: f64,
}

impl Rectangle {
    pub fn drawn(&self, fill: &str, stroke: &str, more: &str) -> String {
        let [x, y, width, height, radius] = [self.at.0, self.at.1, self.size.0, self.size.1, self.radius].map(g);
        format!(
            "<rect x=\"{x}\" y=\"{y}\" width=\"{width}\" height=\"{height}\" rx=\"{radius}\" fill=\"{fill}\" stroke=\"{stroke}\" stroke-width=\"1.4\"{more}/>"
        )
    }
}

/// What changes on dark paper: the colours of the style, and those that parts have of their own.
pub fn darkened(style: &str, parts: &[String]) -> String {
    let (drawn, mut style, mut rules) = (parts.concat(), style.to_owned(), Vec::new());
    for (light, dark) in DARK {
        style = style.replace(light, dark);
        for how in ["fill", "stroke"] {
            if drawn.contains(&format!("{how}=\"{light}\"")) {
                rules.push(format!("[{how}=\"{light}\"] {{ {how}: {dark}; }}"));
            }
        }
        if drawn.contains(&format!("style=\"fill:{light}\"")) {
            rules.push(format!("[style=\"fill:{light}\"] {{ fill: {dark} !important; }}"));
        }
    }
    let coloured = style.lines().filter(|rule| rule.contains('#')).map(str::to_owned);
    let first = "@media (prefers-color-scheme: dark) {".to_owned();
    let lines: Vec<_> =
        [first].into_iter().chain(coloured).chain(rules).chain(["}".to_owned(), String::new()]).collect();
    lines.join("\n")
}

/// A picture on its own paper, with a title and a description for readers who do not see it.
pub fn svg_of(size: Point, title: &str, description: &str, style: &str, parts: Vec<String>) -> String {
    let (width, height) = (g(size.0), g(size.1));
    let paper = format!("<rect width=\"{width}\" height=\"{height}\" fill=\"{PAPER}\"/>");
    let parts: Vec<_> = [paper].into_iter().chain(parts).collect();
    let head = format!(
        "<svg xmlns=\"http://www.w3.org/2000/svg\" width=\"{width}\" height=\"{height}\" viewBox=\"0 0 {width} {height}\" role=\"img\" aria-labelledby=\"title desc\">"
    );
    let lines = [
        head,
        format!("<title id=\"title\">{}</title>", escaped(title)),
        format!("<desc id=\"desc\">{}</desc>", escaped(description)),
        format!("<style>{style}{}</style>", darkened(style, &parts)),
    ];
    let end = ["</svg>".to_owned(), String::new()];
    lines.into_iter().chain(parts).chain(end).collect::<Vec<_>>().join("\n")
}
