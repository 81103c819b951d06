//! A run in words: what the picture's table shows, and the picture's description.

use super::model::{Block, Place, Preview, Run};
use crate::records::short;

/// `1 block`, `2 blocks`; the drawings write numbers without commas.
pub fn count(number: usize, what: &str) -> String {
    format!("{number} {what}{}", if number == 1 { "" } else { "s" })
}

/// A block's certificates in their order: for each round, its authors.
pub fn order_of(block: &Block) -> Vec<String> {
    let mut rounds: Vec<(u32, Vec<String>)> = Vec::new();
    for (round, author) in &block.places {
        match rounds.iter_mut().find(|(of, _)| of == round) {
            Some((_, authors)) => authors.push(author.to_string()),
            None => rounds.push((*round, vec![author.to_string()])),
        }
    }
    rounds.into_iter().map(|(round, authors)| format!("{round}: {}", authors.join(" "))).collect()
}

/// A block's transactions in their order.
pub fn transactions_of(run: &Run, block: &Block) -> Vec<String> {
    let held = block.places.iter().filter_map(|place| run.held.get(place));
    held.flat_map(|held| held.transactions.iter().map(|transaction| short(*transaction))).collect()
}

/// When it was made, or would be.
pub fn commit_of(block: &Block) -> String {
    match block.commit {
        _ if block.planned => "not yet".to_owned(),
        Some(round) => format!("round {round}"),
        None => "not told".to_owned(),
    }
}

fn of_block(run: &Run, block: &Block) -> String {
    let transactions = transactions_of(run, block);
    let transactions = if transactions.is_empty() { "none".to_owned() } else { transactions.join(", ") };
    let made = match block.commit {
        Some(round) if block.planned => format!("a commit in round {round} would add it"),
        Some(round) => format!("the commit in round {round} made it"),
        None => "stored words do not tell which commit made it".to_owned(),
    };
    format!(
        "Block {} has round {}; its anchor is the certificate of member {}; {made}. Its {} in their order, round: authors: {}. Its transactions in their order: {transactions}.",
        block.number,
        block.round,
        block.anchor().1,
        count(block.places.len(), "certificate"),
        order_of(block).join("; ")
    )
}

/// What a commit would do.
pub fn of_preview(run: &Run) -> Option<String> {
    let does = match run.preview? {
        Preview::Adds(blocks) => format!("add {}", count(blocks as usize, "block")),
        Preview::Refused(number) => format!("be refused with {number}"),
    };
    Some(format!("A commit in round {} would {does}", run.round))
}

fn named(places: &[Place]) -> String {
    places.iter().map(|(round, author)| format!("round {round}, member {author}")).collect::<Vec<_>>().join("; ")
}

/// A round without a block.
fn of_round(run: &Run, round: u32, leader: u32) -> String {
    let when = if run.blocks.last().is_some_and(|block| round < block.round) { "" } else { " yet" };
    let held = if run.held.contains_key(&(round, leader)) { "is held" } else { "is not held" };
    format!("Round {round} has no block{when}; the certificate of its leader, member {leader}, {held}.")
}

/// The description, a sentence or two to a line.
pub fn tell(run: &Run) -> String {
    let (rounds, members, block_of) = (run.rounds(), run.members(), run.block_of());
    let anchors: std::collections::BTreeSet<Place> = run.blocks.iter().map(Block::anchor).collect();
    let named_places = |(place, certificate): (Place, &super::model::Certificate)| {
        let previous = certificate.previous;
        (0..16).filter(move |author| previous >> author & 1 == 1).map(move |author| (place.0 - 1, author))
    };
    let links: Vec<Place> = run.shown().flat_map(named_places).collect();
    let to_anchors = links.iter().filter(|link| anchors.contains(link)).count();
    let loose: Vec<Place> = run.shown().map(|(place, _)| place).filter(|place| !block_of.contains_key(place)).collect();
    let planned = run.blocks.iter().any(|block| block.planned);
    let members = members.iter().map(ToString::to_string).collect::<Vec<_>>().join(", ");
    let mut lines = vec![
        format!(
            "Rounds {} to {} go across, members {members} down. Member {}, in round {}, holds {}.",
            rounds.start(),
            rounds.end(),
            run.own,
            run.round,
            count(run.held.len(), "certificate")
        ),
        format!(
            "A line joins a certificate to each that it names as previous: {}, {to_anchors} of them to the anchor of a block.",
            count(links.len(), "line")
        ),
    ];
    lines.extend(run.shown_blocks().map(|block| of_block(run, block)));
    if let Some(preview) = of_preview(run) {
        lines.push(format!("{preview}."));
        let critical = run.critical();
        if !critical.is_empty() {
            lines.push(format!("It hangs on {}: {}.", count(critical.len(), "certificate"), named(&critical)));
        }
    }
    lines.extend(run.unblocked().into_iter().map(|(round, leader)| of_round(run, round, leader)));
    let loose = if loose.is_empty() { "none".to_owned() } else { named(&loose) };
    let where_else = if planned { " and in none that would be added" } else { "" };
    lines.push(format!("Held, in no block{where_else}: {loose}."));
    lines.join("\n")
}
