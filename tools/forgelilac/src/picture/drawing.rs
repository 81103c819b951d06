//! The picture of a run: rounds go across, members down, and the chain stands beneath.
//!
//! A run of up to 14 rounds is as wide as a page, so that its type is read at its own size. Of a preview, what a commit
//! would add is drawn dashed and light, and what it hangs on stands in a frame; or the number that refuses it is told.

use super::letters::wide;
use super::model::{Block, Place, Run};
use super::outline::{parts_of, path_of, Cell, Inset};
use super::shapes::{
    circle, g, line, style_with, svg_of, text, Anchor, Point, Rectangle, COLOURS, FAINT, INK, LEGEND_COLUMN,
    LEGEND_ROW, LINK, PAPER, QUIET, RIGHT, WIDTH,
};
use super::telling::{commit_of, count, of_preview, order_of, tell, transactions_of};
use std::collections::BTreeMap;

/// A round across, from and to; a member down.
const NARROW: f64 = 51.0;
const BROAD: f64 = 86.0;
const TALL: f64 = 72.0;
/// Around the grid; more where a member has two digits.
const LEFT: f64 = 100.0;
pub const TOP: f64 = 128.0;
const DOT: f64 = 8.5;
const RING: f64 = 13.5;
const FRAME: f64 = 18.0;
const INSET: Inset = Inset { by: 4.0, radius: 13.0 };
/// A block's number on its area.
const TAB: Point = (17.0, 15.0);
/// Grid to chain, one line of text.
const CHAIN_GAP: f64 = 30.0;
const CHAIN_LINE: f64 = 18.0;
/// Lines of certificates or transactions of a block.
const CHAIN_LINES: usize = 6;
/// Block, round, commit, certificates, transactions.
const COLUMNS: [f64; 5] = [24.0, 82.0, 136.0, 220.0, 548.0];
/// A letter of code, in pixels.
const CODE_WIDE: f64 = 7.6;
/// What is not made yet.
const LIGHT: &str = " fill-opacity=\"0.4\"";
const DASHED: &str = " stroke-dasharray=\"5 3.5\"";
/// From so many lines on, those of one kind are one path.
const MANY: usize = 4_096;

pub fn style() -> String {
    style_with(&format!(".tab {{ font-size: 12.5px; font-weight: 700; fill: {PAPER}; }}"))
}

// ---- the signs, as they stand in the grid and in the legend

fn held_sign(at: Point, ink: &str, planned: bool) -> String {
    if planned {
        circle(at, DOT - 0.5, PAPER, ink, 2.2, "")
    } else {
        circle(at, DOT, ink, PAPER, 1.5, "")
    }
}

/// Held, in no block.
fn loose_sign(at: Point) -> String {
    circle(at, DOT - 0.5, PAPER, QUIET, 2.2, "")
}

fn none_sign(at: Point) -> String {
    circle(at, 2.6, QUIET, "none", 0.0, "")
}

fn anchor_sign(at: Point, ink: &str, planned: bool) -> String {
    circle(at, RING, PAPER, ink, 2.8, if planned { DASHED } else { "" }) + &held_sign(at, ink, planned)
}

/// Around the place of a leader whose round has no block.
fn leader_ring(at: Point) -> String {
    circle(at, RING + 0.5, PAPER, QUIET, 2.0, " stroke-dasharray=\"4.5 3.2\"")
}

/// Around a certificate that a commit hangs on.
fn critical_frame(at: Point) -> String {
    let frame = Rectangle { at: (at.0 - FRAME, at.1 - FRAME), size: (2.0 * FRAME, 2.0 * FRAME), radius: 5.0 };
    frame.drawn("none", INK, " style=\"stroke-width:2.4\"")
}

fn tab_sign(at: Point, number: u32, ink: &str, planned: bool) -> String {
    let digits = number.to_string();
    let width = TAB.0 + 8.0 * (digits.len() as f64 - 1.0);
    let fill = if planned { format!("\"{PAPER}\" stroke=\"{ink}\"") } else { format!("\"{ink}\"") };
    let (x, y, width_g, height) = (g(at.0), g(at.1), g(width), g(TAB.1));
    let middle = (at.0 + width / 2.0, at.1 + TAB.1 - 2.4);
    format!("<rect x=\"{x}\" y=\"{y}\" width=\"{width_g}\" height=\"{height}\" rx=\"4\" fill={fill}/>")
        + &text(middle, &digits, "tab", Anchor::Middle, planned.then_some(ink))
}

/// The box of a block in the legend.
fn block_box(at: Point) -> Rectangle {
    Rectangle { at: (at.0 - 15.0, at.1 - 12.0), size: (30.0, 24.0), radius: 7.0 }
}

/// A block that a commit would add.
fn planned_sign(at: Point, (area, ink): (&str, &str)) -> String {
    let box_ = block_box(at).drawn(area, ink, &format!("{DASHED}{LIGHT}"));
    box_ + &tab_sign((at.0 - 10.0, at.1 - 7.5), 2, ink, true)
}

fn colours(block: &Block) -> (&'static str, &'static str) {
    COLOURS[(block.number as usize).saturating_sub(1) % COLOURS.len()]
}

pub struct Picture<'a> {
    run: &'a Run,
    members: Vec<u32>,
    first: u32,
    rounds: usize,
    block_of: BTreeMap<Place, &'a Block>,
    unblocked: BTreeMap<u32, u32>,
    critical: Vec<Place>,
    anchors: BTreeMap<Place, &'a Block>,
    pub left: f64,
    pub cell: Point,
    width: f64,
    pub bottom: f64,
}

impl<'a> Picture<'a> {
    pub fn of(run: &'a Run) -> Picture<'a> {
        let members = run.members();
        let rounds = run.rounds();
        let number = (rounds.end() + 1).saturating_sub(*rounds.start()) as usize;
        let widest = members.last().copied().unwrap_or(0);
        let left = LEFT.max(20.0 + wide(&format!("member {widest}"), 14.0).round());
        let fitting = ((WIDTH - left - RIGHT) / number.max(1) as f64).floor();
        let cell = (NARROW.max(BROAD.min(fitting)), TALL);
        let anchors = run.blocks.iter().map(|block| (block.anchor(), block)).collect();
        Picture {
            run,
            first: *rounds.start(),
            rounds: number,
            block_of: run.block_of(),
            unblocked: run.unblocked(),
            critical: run.critical(),
            anchors,
            left,
            cell,
            width: WIDTH.max(left + cell.0 * number as f64 + RIGHT),
            bottom: TOP + TALL * members.len() as f64,
            members,
        }
    }

    pub fn members(&self) -> &[u32] {
        &self.members
    }

    fn cell_of(&self, place: Place) -> Cell {
        let row = self.members.iter().position(|member| *member == place.1).unwrap_or(0);
        (place.0 as i32 - self.first as i32, row as i32)
    }

    fn corner(&self, cell: Cell) -> Point {
        (self.left + f64::from(cell.0) * self.cell.0, TOP + f64::from(cell.1) * self.cell.1)
    }

    /// The middle of a place, in pixels.
    fn at(&self, place: Place) -> Point {
        let (x, y) = self.corner(self.cell_of(place));
        (x + self.cell.0 / 2.0, y + self.cell.1 / 2.0)
    }

    fn shown_cells(&self, block: &Block) -> Vec<Cell> {
        block.places.iter().filter(|place| self.run.shows(**place)).map(|place| self.cell_of(*place)).collect()
    }

    // ---- the grid, from the back to the front

    pub fn title(&self) -> String {
        let what = if self.run.preview.is_some() { "what a commit would make" } else { "the chain it makes" };
        format!("What member {} holds, and {what} of it", self.run.own)
    }

    /// What stands beneath the title.
    pub fn summary(&self) -> String {
        let made = self.run.blocks.iter().filter(|block| !block.planned);
        let listed: Vec<_> = made.map(|block| block.round.to_string()).collect();
        let blocks = match listed.len() {
            0 => "block rounds none".to_owned(),
            1..=64 => format!("block rounds {}", listed.join(", ")),
            many => format!("{many} blocks, of rounds {} to {}", listed[0], listed[many - 1]),
        };
        let preview = of_preview(self.run).map_or(String::new(), |preview| format!(". {preview}"));
        let certificates = count(self.run.shown().count(), "certificate");
        let members = count(self.members.len(), "member");
        let rounds = match self.run.window {
            Some(_) => format!("rounds {} to {}", self.first, self.first as usize + self.rounds - 1),
            None => count(self.rounds, "round"),
        };
        format!("{certificates} of {members} in {rounds}; {blocks}{preview}")
    }

    fn heading(&self) -> Vec<String> {
        vec![
            text((COLUMNS[0], 36.0), &self.title(), "title", Anchor::Start, None),
            text((COLUMNS[0], 60.0), &self.summary(), "quiet", Anchor::Start, None),
        ]
    }

    fn axes(&self) -> Vec<String> {
        let mut parts = self.across();
        parts.push(text((self.left - 12.0, TOP - 28.0), "round", "quiet", Anchor::End, None));
        parts.extend(self.down());
        parts
    }

    /// The rounds, above the grid.
    pub fn across(&self) -> Vec<String> {
        let blocks: BTreeMap<u32, &Block> = self.run.blocks.iter().map(|block| (block.round, block)).collect();
        let newest = blocks.last_key_value().map_or(0, |(round, _)| *round);
        let mut parts = Vec::new();
        for round in self.run.rounds() {
            let x = self.at((round, self.members[0])).0;
            let block = blocks.get(&round);
            let (kind, fill) = if block.is_some() { ("strong", None) } else { ("label", Some(QUIET)) };
            parts.push(text((x, TOP - 28.0), &round.to_string(), kind, Anchor::Middle, fill));
            let (words, fill) = match block {
                Some(block) if block.planned => (format!("would be {}", block.number), colours(block).1),
                Some(block) => (format!("block {}", block.number), colours(block).1),
                None if round % 2 == 0 && round < newest => ("no block".to_owned(), QUIET),
                None if round % 2 == 0 => ("none yet".to_owned(), QUIET),
                None => continue,
            };
            parts.push(text((x, TOP - 9.0), &words, "small", Anchor::Middle, Some(fill)));
        }
        parts
    }

    /// The members, beside the grid.
    pub fn down(&self) -> Vec<String> {
        let mut parts = Vec::new();
        for member in &self.members {
            let y = self.at((self.first, *member)).1;
            let own = *member == self.run.own;
            let (kind, below) = if own { ("strong", 1.0) } else { ("label", 5.0) };
            parts.push(text((self.left - 12.0, y + below), &format!("member {member}"), kind, Anchor::End, None));
            if own {
                parts.push(text((self.left - 12.0, y + 18.0), "own", "quiet", Anchor::End, None));
            }
        }
        parts
    }

    pub fn areas(&self) -> Vec<String> {
        let mut parts = Vec::new();
        for block in &self.run.blocks {
            let cells = self.shown_cells(block);
            if cells.is_empty() {
                continue;
            }
            let (area, ink) = colours(block);
            let path = path_of(&cells, self.cell, (self.left, TOP), INSET);
            let more = if block.planned {
                format!(" stroke-width=\"1.6\"{DASHED}{LIGHT}")
            } else {
                " stroke-width=\"1.2\" stroke-opacity=\"0.7\"".to_owned()
            };
            parts.push(format!("<path d=\"{path}\" fill=\"{area}\" stroke=\"{ink}\"{more}/>"));
        }
        parts
    }

    /// Lines to what each certificate names as previous; those to an anchor last, as votes.
    pub fn links(&self) -> Vec<String> {
        let width = if self.members.len() <= 6 { 1.1 } else { 0.6 };
        let (mut plain, mut votes) = (Vec::new(), Vec::new());
        for (place, certificate) in self.run.shown() {
            for author in (0..16).filter(|author| certificate.previous >> author & 1 == 1) {
                let before = (place.0 - 1, author);
                if !self.run.shows(before) || !self.members.contains(&author) {
                    continue;
                }
                let ends = (self.at(before), self.at(place));
                match self.anchors.get(&before) {
                    Some(block) => votes.push((ends, *block)),
                    None => plain.push(ends),
                }
            }
        }
        let mut parts = if plain.len() < MANY {
            plain.into_iter().map(|(start, end)| line(start, end, LINK, width, "")).collect()
        } else {
            let lines: String = plain
                .iter()
                .map(|(start, end)| format!("M{} {}L{} {}", g(start.0), g(start.1), g(end.0), g(end.1)))
                .collect();
            vec![format!("<path d=\"{lines}\" fill=\"none\" stroke=\"{LINK}\" stroke-width=\"{}\"/>", g(width))]
        };
        let vote = |((start, end), block): ((Point, Point), &Block)| {
            line(start, end, colours(block).1, 2.4, if block.planned { DASHED } else { "" })
        };
        parts.extend(votes.into_iter().map(vote));
        parts
    }

    pub fn frames(&self) -> Vec<String> {
        let shown = self.critical.iter().filter(|place| self.run.shows(**place));
        shown.map(|place| critical_frame(self.at(*place))).collect()
    }

    /// A block's number on each part of its area.
    pub fn tabs(&self) -> Vec<String> {
        let mut parts = Vec::new();
        for block in &self.run.blocks {
            for part in parts_of(&self.shown_cells(block)) {
                if let Some(first) = part.iter().min_by_key(|cell| (cell.1, cell.0)) {
                    let (x, y) = self.corner(*first);
                    let at = (x + INSET.by + 3.0, y + INSET.by + 3.0);
                    parts.push(tab_sign(at, block.number, colours(block).1, block.planned));
                }
            }
        }
        parts
    }

    pub fn dots(&self) -> Vec<String> {
        let mut parts = Vec::new();
        for member in &self.members {
            for round in self.run.rounds() {
                let place = (round, *member);
                if self.unblocked.get(&round) == Some(member) {
                    parts.push(leader_ring(self.at(place)));
                }
                parts.push(self.dot(place));
            }
        }
        parts
    }

    fn dot(&self, place: Place) -> String {
        let at = self.at(place);
        match self.block_of.get(&place) {
            Some(block) if self.anchors.contains_key(&place) => anchor_sign(at, colours(block).1, block.planned),
            Some(block) => held_sign(at, colours(block).1, block.planned),
            None if self.run.held.contains_key(&place) => loose_sign(at),
            None => none_sign(at),
        }
    }

    // ---- the chain beneath

    fn chain(&self) -> Vec<String> {
        let (x, mut y) = (COLUMNS, self.bottom + CHAIN_GAP);
        let mut parts = vec![line((x[0], y), (self.width - RIGHT, y), FAINT, 1.0, "")];
        let heads = [
            "block",
            "round",
            "commit in",
            "certificates in their order, round: authors",
            "transactions in their order",
        ];
        let blocks: Vec<_> = self.run.shown_blocks().collect();
        let nothing = ["The chain has no block."];
        let heads = if blocks.is_empty() && self.run.blocks.is_empty() { &nothing[..] } else { &heads[..] };
        for (column, words) in x.iter().zip(heads) {
            parts.push(text((*column, y + 22.0), words, "small", Anchor::Start, Some(QUIET)));
        }
        y += 46.0;
        let mut before = None;
        for block in blocks {
            let ink = colours(block).1;
            if let Some(tall) = before {
                parts.push(line((x[0] + 15.0, y - tall + 7.0), (x[0] + 15.0, y - 15.0), QUIET, 2.4, ""));
            }
            let frame = Rectangle { at: (x[0], y - 15.0), size: (30.0, 20.0), radius: 6.0 };
            parts.push(frame.drawn(
                if block.planned { PAPER } else { ink },
                ink,
                if block.planned { DASHED } else { "" },
            ));
            let fill = if block.planned { ink } else { PAPER };
            parts.push(text((x[0] + 15.0, y), &block.number.to_string(), "strong", Anchor::Middle, Some(fill)));
            parts.push(text((x[1], y), &block.round.to_string(), "label", Anchor::Start, None));
            parts.push(text((x[2], y), &commit_of(block), "label", Anchor::Start, None));
            for (column, words) in x[3..].iter().zip(self.columns(block)) {
                for (index, one) in words.iter().enumerate() {
                    parts.push(text((*column, y + CHAIN_LINE * index as f64), one, "code", Anchor::Start, None));
                }
            }
            let tall = self.tall(block);
            before = Some(tall);
            y += tall;
        }
        parts
    }

    /// The lines of a block's certificates and of its transactions.
    fn columns(&self, block: &Block) -> [Vec<String>; 2] {
        let room = |pixels: f64| (pixels / CODE_WIDE) as usize;
        [
            wrapped(&order_of(block), "; ", room(COLUMNS[4] - COLUMNS[3] - 16.0)),
            wrapped(&transactions_of(self.run, block), ", ", room(self.width - RIGHT - COLUMNS[4])),
        ]
    }

    /// The height of a block's row.
    fn tall(&self, block: &Block) -> f64 {
        let lines = self.columns(block).iter().map(Vec::len).max().unwrap_or(1);
        14.0 + CHAIN_LINE * lines as f64
    }

    fn chain_height(&self) -> f64 {
        CHAIN_GAP + 46.0 + self.run.shown_blocks().map(|block| self.tall(block)).sum::<f64>()
    }

    // ---- the legend

    fn legend(&self) -> Vec<String> {
        let top = self.bottom + self.chain_height();
        let mut parts = vec![line((COLUMNS[0], top - 10.0), (self.width - RIGHT, top - 10.0), FAINT, 1.0, "")];
        parts.extend(self.legend_at(top + 20.0));
        parts
    }

    /// The legend's rows from this height on.
    pub fn legend_at(&self, top: f64) -> Vec<String> {
        let (area, ink) = COLOURS[0];
        let across = |at: Point| ((at.0 - 15.0, at.1), (at.0 + 15.0, at.1));
        type Sign<'s> = (&'static str, Box<dyn Fn(Point) -> String + 's>);
        let sign = |words, draw: Box<dyn Fn(Point) -> String>| -> Sign<'static> { (words, draw) };
        let mut columns = [
            vec![
                sign("certificate held, in a block", Box::new(move |at| held_sign(at, ink, false))),
                sign("held, in no block", Box::new(loose_sign)),
                sign("none held", Box::new(none_sign)),
            ],
            vec![
                sign("anchor of a block", Box::new(move |at| anchor_sign(at, ink, false))),
                sign("leader's place, no block", Box::new(|at| leader_ring(at) + &none_sign(at))),
            ],
            vec![
                sign(
                    "a block and its number",
                    Box::new(move |at| {
                        block_box(at).drawn(area, ink, "") + &tab_sign((at.0 - 10.0, at.1 - 7.5), 1, ink, false)
                    }),
                ),
                sign("names as previous", Box::new(move |at| line(across(at).0, across(at).1, LINK, 1.4, ""))),
                sign("names a block's anchor", Box::new(move |at| line(across(at).0, across(at).1, ink, 2.4, ""))),
            ],
        ];
        if self.run.preview.is_some() {
            columns[1].push(sign("a commit would add it", Box::new(|at| planned_sign(at, COLOURS[1]))));
        }
        if !self.critical.is_empty() {
            let framed = |at| loose_sign(at) + &critical_frame(at);
            columns[0].push(sign("the commit hangs on it", Box::new(framed)));
        }
        let mut parts = Vec::new();
        for (column, rows) in columns.iter().enumerate() {
            for (row, (words, sign)) in rows.iter().enumerate() {
                let x = COLUMNS[0] + 16.0 + LEGEND_COLUMN * column as f64;
                let y = top + LEGEND_ROW * row as f64;
                parts.push(sign((x, y)));
                parts.push(text((x + 26.0, y + 4.5), words, "quiet", Anchor::Start, None));
            }
        }
        let words = "E n: entry n.  B m a: bond, member m's weight rises by a.  U m: unbond, member m leaves.";
        let y = top + 4.5 + LEGEND_ROW * self.legend_rows();
        parts.push(text((COLUMNS[0], y), words, "quiet", Anchor::Start, None));
        parts
    }

    pub fn legend_rows(&self) -> f64 {
        if self.critical.is_empty() {
            3.0
        } else {
            4.0
        }
    }

    pub fn svg(&self) -> String {
        let height = self.bottom + self.chain_height() + (self.legend_rows() + 1.0) * LEGEND_ROW + 14.0;
        let layers = [
            self.heading(),
            self.axes(),
            self.areas(),
            self.links(),
            self.frames(),
            self.tabs(),
            self.dots(),
            self.chain(),
            self.legend(),
        ];
        svg_of((self.width, height), &self.title(), &tell(self.run), &style(), layers.concat())
    }
}

/// Words in lines of at most so many letters, `CHAIN_LINES` of them at most.
fn wrapped(words: &[String], between: &str, room: usize) -> Vec<String> {
    let mut lines = vec![String::new()];
    for word in words {
        let last = lines.last().cloned().unwrap_or_default();
        let longer = if last.is_empty() { word.clone() } else { format!("{last}{between}{word}") };
        lines.pop();
        if longer.len() < room || last.is_empty() {
            lines.push(longer);
        } else {
            lines.extend([last + between.trim_end(), word.clone()]);
        }
    }
    if lines.len() > CHAIN_LINES {
        lines.truncate(CHAIN_LINES - 1);
        lines.push("and more".to_owned());
    }
    lines
}
