//! The page of a run, for a browser: one file of HTML with the grid to scroll through, what a certificate holds, and
//! the whole chain. It needs no network; without scripts the picture and the chain are there all the same.

use super::drawing::{style, Picture, TOP};
use super::model::Run;
use super::shapes::{darkened, escaped, g, INK, LEGEND_ROW, PAPER, QUIET, WIDTH};
use super::telling::{commit_of, order_of, tell, transactions_of};
use crate::records::short;
use std::fmt::Write;

/// What the page does where scripts run: it goes to a round, and tells of a certificate that is pressed.
const SCRIPT: &str = include_str!("page.js");

pub fn page_of(run: &Run) -> String {
    let picture = Picture::of(run);
    let (left, bottom) = (picture.left, picture.bottom + 8.0);
    let rounds = run.rounds();
    let count = f64::from(rounds.end() + 1 - rounds.start());
    let wide = picture.cell.0 * count + 16.0;
    let grid =
        [picture.across(), picture.areas(), picture.links(), picture.frames(), picture.tabs(), picture.dots()].concat();
    let names = picture.down();
    let legend = picture.legend_at(20.0);
    let own = style() + &own_style();
    let dark = darkened(&own, &[grid.concat(), names.concat(), legend.concat()]);
    let title = escaped(&picture.title());
    let mut page = format!(
        "<!DOCTYPE html>\n<html lang=\"en\">\n<head>\n<meta charset=\"utf-8\">\n<meta name=\"viewport\" content=\"width=device-width\">\n<title>{title}</title>\n<style>{own}{dark}</style>\n</head>\n<body>\n"
    );
    let _ = writeln!(page, "<h1>{title}</h1>\n<p>{}</p>", escaped(&picture.summary()));
    let (first, last) = (rounds.start(), rounds.end());
    let _ = writeln!(
        page,
        "<form id=\"go\"><label>go to round <input id=\"round\" type=\"number\" min=\"{first}\" max=\"{last}\" value=\"{first}\"></label> <button>go</button> <button type=\"button\" id=\"last\">the newest</button></form>"
    );
    let top = TOP - 52.0;
    let height = g(bottom - top);
    let _ = writeln!(page, "<div id=\"run\">");
    let _ = writeln!(
        page,
        "<svg id=\"names\" xmlns=\"http://www.w3.org/2000/svg\" width=\"{0}\" height=\"{height}\" viewBox=\"0 {top} {0} {height}\" aria-hidden=\"true\">\n<rect y=\"{top}\" width=\"{0}\" height=\"{height}\" fill=\"{PAPER}\"/>\n{1}\n</svg>",
        g(left),
        names.join("\n")
    );
    let _ = writeln!(
        page,
        "<svg id=\"grid\" xmlns=\"http://www.w3.org/2000/svg\" width=\"{0}\" height=\"{height}\" viewBox=\"{1} {top} {0} {height}\" role=\"img\" aria-labelledby=\"told\">\n{2}\n<rect id=\"chosen\" width=\"0\" height=\"0\" rx=\"10\" fill=\"none\" stroke=\"{INK}\" stroke-width=\"2\"/>\n</svg>\n</div>",
        g(wide),
        g(left),
        grid.join("\n")
    );
    let _ = writeln!(page, "<p id=\"certificate\" aria-live=\"polite\">Press a certificate to see what it holds.</p>");
    let legend_height = (picture.legend_rows() + 1.0) * LEGEND_ROW + 10.0;
    let _ = writeln!(
        page,
        "<svg xmlns=\"http://www.w3.org/2000/svg\" width=\"{0}\" height=\"{legend_height}\" viewBox=\"0 0 {0} {legend_height}\" role=\"img\" aria-label=\"what the signs mean\">\n{1}\n</svg>",
        g(WIDTH),
        legend.join("\n")
    );
    page.push_str(&chain(run));
    let _ = writeln!(
        page,
        "<details><summary>the picture in words</summary>\n<p id=\"told\">{}</p>\n</details>",
        escaped(&tell(run)).replace('\n', "<br>\n")
    );
    let _ = writeln!(
        page,
        "<script>\nconst run = {{\"first\": {first}, \"cell\": [{}, {}], \"top\": {}, \"left\": {}, \"members\": {:?}, \"held\": {{{}}}}};\n{SCRIPT}</script>\n</body>\n</html>",
        g(picture.cell.0),
        g(picture.cell.1),
        g(TOP),
        g(left),
        picture.members(),
        held(run)
    );
    page
}

fn own_style() -> String {
    format!(
        "body {{ margin: 24px; background: {PAPER}; color: {INK}; font: 14px \"Helvetica Neue\", Arial, \"DejaVu Sans\", sans-serif; }}\nh1 {{ font-size: 20px; font-weight: 600; }}\nth {{ color: {QUIET}; font-weight: 400; text-align: left; }}\n#run {{ display: flex; overflow-x: auto; }}\n#run svg {{ flex: none; }}\n#names {{ position: sticky; left: 0; }}\n#grid {{ cursor: pointer; }}\n#certificate {{ min-height: 3em; font-weight: 600; }}\ntable {{ border-spacing: 16px 4px; margin-left: -16px; }}\ntd {{ vertical-align: top; }}\ntd.code {{ max-width: 60em; }}\n"
    )
}

/// The chain as a table, its newest block first where it is long.
fn chain(run: &Run) -> String {
    if run.blocks.is_empty() {
        return "<p>The chain has no block.</p>\n".to_owned();
    }
    let mut rows = String::new();
    for block in run.shown_blocks() {
        let transactions = transactions_of(run, block);
        let _ = writeln!(
            rows,
            "<tr><td>{}</td><td>{}</td><td>{}</td><td class=\"code\">{}</td><td class=\"code\">{}</td></tr>",
            block.number,
            block.round,
            commit_of(block),
            order_of(block).join("; "),
            transactions.join(", ")
        );
    }
    let heads =
        ["block", "round", "commit in", "certificates in their order, round: authors", "transactions in their order"];
    let heads: String = heads.map(|head| format!("<th>{head}</th>")).concat();
    format!("<table>\n<thead><tr>{heads}</tr></thead>\n<tbody>\n{rows}</tbody>\n</table>\n")
}

/// What each certificate holds: previous set, endorsers, the number of its block, transactions.
fn held(run: &Run) -> String {
    let block_of = run.block_of();
    let mut all = Vec::new();
    for (place, certificate) in run.shown() {
        let transactions: Vec<_> = certificate.transactions.iter().map(|transaction| short(*transaction)).collect();
        let block = block_of.get(&place).map_or(0, |block| block.number);
        all.push(format!(
            "\"{}/{}\":[{},{},{block},\"{}\"]",
            place.0,
            place.1,
            certificate.previous,
            certificate.endorsers,
            transactions.join(", ")
        ));
    }
    all.join(",")
}
