//! The outline of a set of grid cells, drawn in a little and with round corners.

use super::shapes::{g, Point};
use std::collections::{BTreeSet, HashMap};

/// A column and a row.
pub type Cell = (i32, i32);

/// The way to the right of a way; y points down.
fn right_of(way: Cell) -> Cell {
    (-way.1, way.0)
}

/// The cells in parts that hang together by edges, by their first cells.
pub fn parts_of(cells: &[Cell]) -> Vec<BTreeSet<Cell>> {
    let mut left: BTreeSet<Cell> = cells.iter().copied().collect();
    let mut parts = Vec::new();
    while let Some(first) = left.pop_first() {
        let (mut part, mut new) = (BTreeSet::new(), vec![first]);
        while let Some((x, y)) = new.pop() {
            part.insert((x, y));
            new.extend(
                [(x + 1, y), (x - 1, y), (x, y + 1), (x, y - 1)].into_iter().filter(|beside| left.remove(beside)),
            );
        }
        parts.push(part);
    }
    parts
}

/// Border edges by their starts, in the order of the cells; cells lie to the right of each.
struct Edges {
    starts: Vec<Cell>,
    ends: HashMap<Cell, Vec<Cell>>,
}

impl Edges {
    fn of(cells: &BTreeSet<Cell>) -> Edges {
        let mut edges = Edges { starts: Vec::new(), ends: HashMap::new() };
        for &(x, y) in cells {
            for (beside, start, end) in [
                ((x, y - 1), (x, y), (x + 1, y)),
                ((x + 1, y), (x + 1, y), (x + 1, y + 1)),
                ((x, y + 1), (x + 1, y + 1), (x, y + 1)),
                ((x - 1, y), (x, y + 1), (x, y)),
            ] {
                if !cells.contains(&beside) {
                    edges.ends.entry(start).or_insert_with(|| {
                        edges.starts.push(start);
                        Vec::new()
                    });
                    edges.ends.entry(start).and_modify(|ends| ends.push(end));
                }
            }
        }
        edges.starts.reverse();
        edges
    }

    /// A corner that an edge still begins at.
    fn next(&mut self) -> Option<Cell> {
        while let Some(start) = self.starts.last().copied() {
            if self.ends.contains_key(&start) {
                return Some(start);
            }
            self.starts.pop();
        }
        None
    }

    /// The edge that goes on from a corner: to the right, where it came by a way and there are two.
    fn take(&mut self, at: Cell, way: Option<Cell>) -> Option<Cell> {
        let ends = self.ends.get_mut(&at)?;
        let turn = way.map(right_of).map(|turn| (at.0 + turn.0, at.1 + turn.1));
        let place = turn.and_then(|turn| ends.iter().position(|end| *end == turn)).unwrap_or(0);
        let end = ends.remove(place);
        if ends.is_empty() {
            self.ends.remove(&at);
        }
        Some(end)
    }
}

/// A corner, and the way on from it.
type Corner = (Cell, Cell);

/// Closed loops of corners; where two cells touch at a corner only, each keeps its own.
fn loops_of(cells: &BTreeSet<Cell>) -> Vec<Vec<Corner>> {
    let (mut edges, mut loops) = (Edges::of(cells), Vec::new());
    while let Some(start) = edges.next() {
        let (mut at, mut way, mut corners) = (start, None, Vec::new());
        while let Some(end) = edges.take(at, way) {
            let step = (end.0 - at.0, end.1 - at.1);
            if way != Some(step) {
                corners.push((at, step));
            }
            (way, at) = (Some(step), end);
            if at == start {
                break;
            }
        }
        if corners.len() > 1 && Some(corners[0].1) == way {
            corners.remove(0);
        }
        loops.push(corners);
    }
    loops
}

/// The corners in pixels, each edge moved inwards.
fn drawn_in(corners: &[Corner], cell: Point, by: f64) -> Vec<Point> {
    let before = |index: usize| corners[(index + corners.len() - 1) % corners.len()].1;
    let point = |(index, ((x, y), way)): (usize, &Corner)| {
        let (one, other) = (right_of(before(index)), right_of(*way));
        (
            f64::from(*x) * cell.0 + by * f64::from(one.0 + other.0),
            f64::from(*y) * cell.1 + by * f64::from(one.1 + other.1),
        )
    };
    corners.iter().enumerate().map(point).collect()
}

/// A point moved by some pixels towards another, along an axis.
fn towards(point: Point, other: Point, by: f64) -> Point {
    let moved = |a: f64, b: f64| {
        if b > a {
            a + by
        } else if b < a {
            a - by
        } else {
            a
        }
    };
    (moved(point.0, other.0), moved(point.1, other.1))
}

/// How far an outline is drawn in, and how round its corners are.
#[derive(Clone, Copy)]
pub struct Inset {
    pub by: f64,
    pub radius: f64,
}

/// An SVG path around the cells.
pub fn path_of(cells: &[Cell], cell: Point, origin: Point, inset: Inset) -> String {
    let mut path = String::new();
    for corners in loops_of(&cells.iter().copied().collect()) {
        let points = drawn_in(&corners, cell, inset.by);
        for (index, point) in points.iter().enumerate() {
            let before = points[(index + points.len() - 1) % points.len()];
            let after = points[(index + 1) % points.len()];
            let places = [towards(*point, before, inset.radius), *point, towards(*point, after, inset.radius)];
            let [a, b, c] = places.map(|(x, y)| format!("{} {}", g(x + origin.0), g(y + origin.1)));
            path.push_str(&format!("{}{a}Q{b} {c}", if index == 0 { "M" } else { "L" }));
        }
        path.push('Z');
    }
    path
}
