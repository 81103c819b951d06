//! What a bond does to the shares of a committee, drawn as bars: members across, each share before the bond and after it.
//!
//! Members with 0 before and after are left out. Up to twelve are as wide as a page.

use super::shapes::{
    line, style_with, svg_of, text, Anchor, Point, Rectangle, COLOURS, FAINT, LEGEND_COLUMN, PAPER, QUIET, RIGHT, WIDTH,
};
use forgelilac::{Effect, MEMBERS};

const TITLE: &str = "How far a bond moves the shares";
/// Around the bars, and how high they are.
const LEFT: f64 = 104.0;
const TOP: f64 = 100.0;
const TALL: f64 = 220.0;
/// A member across, at least; one of its bars, at most.
const CELL: f64 = 56.0;
const BAR: f64 = 42.0;
/// Two members' bars, at least; a member's two.
const APART: f64 = 8.0;
const BETWEEN: f64 = 3.0;
/// Up to this share, a line at every so many.
const STEPS: [(i64, i64); 4] = [(100, 20), (250, 50), (500, 100), (1_000, 200)];

/// The picture of an effect.
pub fn drawn(effect: &Effect) -> String {
    Bars::of(effect).svg()
}

fn grouped(number: i64) -> String {
    crate::weights::grouped(number.unsigned_abs())
}

fn named(members: &[usize]) -> String {
    let numbers: Vec<_> = members.iter().map(ToString::to_string).collect();
    format!("member{} {}", if members.len() == 1 { "" } else { "s" }, numbers.join(", "))
}

/// Light with an outline before the bond, full after it.
fn bar(foot: Point, size: Point, after: bool) -> String {
    let (area, ink) = COLOURS[0];
    let bar = Rectangle { at: (foot.0, foot.1 - size.1), size, radius: 2.0 };
    bar.drawn(if after { ink } else { area }, ink, "")
}

struct Bars {
    before: [i64; MEMBERS],
    after: [i64; MEMBERS],
    largest: i64,
    members: Vec<usize>,
    cell: f64,
    end: f64,
    width: f64,
    foot: f64,
    step: i64,
    top: i64,
}

impl Bars {
    fn of(effect: &Effect) -> Bars {
        let before = effect.before.map(|share| i64::from(share.get()));
        let after = effect.after.map(|share| i64::from(share.get()));
        let members: Vec<_> = (0..MEMBERS).filter(|member| before[*member] > 0 || after[*member] > 0).collect();
        let cell = CELL.max(((WIDTH - LEFT - RIGHT) / members.len().max(1) as f64).floor());
        let end = LEFT + cell * members.len() as f64;
        let most = before.iter().chain(&after).copied().max().unwrap_or(0);
        let step = STEPS.iter().find(|(share, _)| most <= *share).map_or(200, |(_, step)| *step);
        Bars {
            before,
            after,
            largest: effect.largest.into(),
            members,
            cell,
            end,
            width: WIDTH.max(end + RIGHT),
            foot: TOP + TALL,
            step,
            top: (most + step - 1) / step * step,
        }
    }

    fn moved(&self, member: usize) -> i64 {
        self.after[member] - self.before[member]
    }

    /// The members whose shares differ most; none where no share moves.
    fn farthest(&self) -> Vec<usize> {
        (0..MEMBERS).filter(|member| self.largest > 0 && self.moved(*member).abs() == self.largest).collect()
    }

    fn of_largest(&self) -> String {
        if self.largest == 0 {
            return "No share moves".to_owned();
        }
        format!("The largest difference is {}, of {}", self.largest, named(&self.farthest()))
    }

    fn of_member(&self, member: usize) -> String {
        let by = self.moved(member);
        let how = match by {
            0 => "the same".to_owned(),
            more if more > 0 => format!("{more} more"),
            less => format!("{} less", less.abs()),
        };
        format!("Member {member} has {} before and {} after, {how}.", self.before[member], self.after[member])
    }

    fn tell(&self) -> String {
        let others: Vec<_> = (0..MEMBERS).filter(|member| !self.members.contains(member)).collect();
        let across = named(&self.members);
        let mut lines = vec![format!(
            "Across: {across}. Each has two bars: its share before a bond and after it, in thousandths of the committee's total."
        )];
        lines.extend(self.members.iter().map(|member| self.of_member(*member)));
        lines.push(format!("{}.", self.of_largest()));
        if !others.is_empty() {
            lines.push(format!("0 before and after, and not drawn: {}.", named(&others)));
        }
        lines.join("\n")
    }

    /// Of a share's bar, in pixels.
    fn height_of(&self, share: i64) -> f64 {
        TALL * share as f64 / self.top as f64
    }

    fn heading(&self) -> Vec<String> {
        let words = format!("Shares in thousandths of the committee's total. {}", self.of_largest());
        vec![
            text((24.0, 36.0), TITLE, "title", Anchor::Start, None),
            text((24.0, 60.0), &words, "quiet", Anchor::Start, None),
        ]
    }

    fn axis(&self) -> Vec<String> {
        let mut parts = Vec::new();
        for share in (0..=self.top).step_by(self.step as usize) {
            let y = self.foot - self.height_of(share);
            let (colour, width) = if share == 0 { (QUIET, 1.0) } else { (FAINT, 0.5) };
            parts.push(line((LEFT, y), (self.end, y), colour, width, ""));
            parts.push(text((LEFT - 12.0, y + 4.5), &grouped(share), "quiet", Anchor::End, None));
        }
        parts
    }

    fn bars(&self) -> Vec<String> {
        let width = BAR.min((self.cell - APART - BETWEEN) / 2.0);
        let mut parts = Vec::new();
        for (place, member) in self.members.iter().enumerate() {
            let x = LEFT + (place as f64 + 0.5) * self.cell - BETWEEN / 2.0 - width;
            for (after, share) in [(false, self.before[*member]), (true, self.after[*member])] {
                let height = self.height_of(share);
                let left = if after { x + width + BETWEEN } else { x };
                if share > 0 {
                    parts.push(bar((left, self.foot), (width, height), after));
                }
                let at = (left + width / 2.0, self.foot - height - 6.0);
                parts.push(text(at, &grouped(share), "number", Anchor::Middle, None));
            }
        }
        parts
    }

    /// Beneath the bars: the member, and by how much its share moves.
    fn labels(&self) -> Vec<String> {
        let far = self.farthest();
        let mut parts = vec![
            text((LEFT - 12.0, self.foot + 24.0), "member", "quiet", Anchor::End, None),
            text((LEFT - 12.0, self.foot + 46.0), "difference", "quiet", Anchor::End, None),
        ];
        for (place, member) in self.members.iter().enumerate() {
            let (x, by) = (LEFT + (place as f64 + 0.5) * self.cell, self.moved(*member));
            parts.push(text((x, self.foot + 24.0), &member.to_string(), "label", Anchor::Middle, None));
            let words = if by == 0 { "0".to_owned() } else { format!("{by:+}") };
            let kind = if far.contains(member) { "strong" } else { "label" };
            parts.push(text((x, self.foot + 46.0), &words, kind, Anchor::Middle, None));
        }
        parts
    }

    fn legend(&self) -> Vec<String> {
        let y = self.foot + 66.0;
        let mut parts = vec![line((24.0, y), (self.width - RIGHT, y), FAINT, 1.0, "")];
        for (column, (words, after)) in [("before the bond", false), ("after it", true)].into_iter().enumerate() {
            let x = 24.0 + LEGEND_COLUMN * column as f64;
            parts.push(bar((x, y + 34.0), (18.0, 20.0), after));
            parts.push(text((x + 30.0, y + 29.0), words, "quiet", Anchor::Start, None));
        }
        if self.members.len() < MEMBERS {
            let at = (24.0 + 2.0 * LEGEND_COLUMN, y + 29.0);
            parts.push(text(at, "0 before and after: not drawn", "quiet", Anchor::Start, None));
        }
        parts
    }

    fn svg(&self) -> String {
        // Numbers stand on lines and beside bars.
        let own = format!(".number {{ font-size: 12.5px; paint-order: stroke; stroke: {PAPER}; stroke-width: 2px; }}");
        let layers = [self.heading(), self.axis(), self.bars(), self.labels(), self.legend()];
        svg_of((self.width, self.foot + 118.0), TITLE, &self.tell(), &style_with(&own), layers.concat())
    }
}
