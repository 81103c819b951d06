//! A chain as a listing shows it: its blocks, read from lines, and whether they are in an order that a chain has.

use crate::arguments::number;
use crate::failure::{input, Failure};
use forgelilac::{Member, Transaction};
use std::collections::HashMap;

/// A block of a listing.
#[derive(Clone, PartialEq, Eq, Debug)]
pub struct Listed {
    pub number: u32,
    pub round: u32,
    /// Round and author of each certificate, in their order.
    pub places: Vec<(u32, u32)>,
    /// All of its transactions, in their order.
    pub transactions: Vec<Transaction>,
}

fn ranged(field: &str, low: u32, high: u32, what: &str) -> Result<u32, String> {
    match number(field) {
        Some(number) if (low..=high).contains(&number) => Ok(number),
        _ => Err(format!("{what} is '{}', not a number from {low} to {high}", field.escape_debug())),
    }
}

fn transaction_of(fields: &[&str]) -> Result<Transaction, String> {
    let (kind, subject, amount) = (fields[0], fields[1], fields[2]);
    match kind {
        "B" => Ok(Transaction::Bond {
            member: Member::new(ranged(subject, 0, 15, "a bond's member")?),
            amount: ranged(amount, 1, 1_000, "a bond's amount")?,
        }),
        "U" => {
            ranged(amount, 0, 0, "an unbond's amount")?;
            Ok(Transaction::Unbond { member: Member::new(ranged(subject, 0, 15, "an unbond's member")?) })
        }
        "E" => {
            ranged(amount, 0, 0, "an entry's amount")?;
            Ok(Transaction::Entry { number: ranged(subject, 0, u32::MAX, "an entry")? })
        }
        _ => Err(format!("'{}' is neither B, U nor E", kind.escape_debug())),
    }
}

/// A line of a listing, onto the blocks before it; its round and author.
fn take_line(blocks: &mut Vec<Listed>, line: &str) -> Result<(u32, u32), String> {
    let fields: Vec<_> = line.split(',').collect();
    if fields.len() < 4 || fields.len() % 3 != 1 {
        return Err("not a certificate of a listing: block, block round, round, author, triples".to_owned());
    }
    if fields.len() > 16 {
        return Err("a certificate has four transactions at most".to_owned());
    }
    let number = ranged(fields[0], 1, 511, "the block")?;
    let round = ranged(fields[1], 2, 1_022, "the block's round")?;
    let place = (ranged(fields[2], 1, round, "the round")?, ranged(fields[3], 0, 15, "the author")?);
    let transactions = fields[4..].chunks_exact(3).map(transaction_of).collect::<Result<Vec<_>, _>>()?;
    let (last, before) = blocks.last().map_or((0, 0), |block| (block.number, block.round));
    if number == last + 1 {
        if round % 2 != 0 || round <= before {
            return Err(format!(
                "block {number} of round {round} after one of round {before}: block rounds are even and rise"
            ));
        }
        blocks.push(Listed { number, round, places: vec![place], transactions });
    } else if number != last || number == 0 {
        return Err(format!("block {number} after block {last}"));
    } else if round != before {
        return Err(format!("block {number} has round {before} and round {round}"));
    } else if let Some(block) = blocks.last_mut() {
        block.places.push(place);
        block.transactions.extend(transactions);
    }
    Ok(place)
}

/// Rounds rise, and within a round numbers rise from that of the anchor's author, with 0 after 15. The
/// anchor is the one certificate of the block's round.
fn see_order(block: &Listed) -> Result<(), String> {
    let anchors: Vec<_> = block.places.iter().filter(|(round, _)| *round == block.round).collect();
    let [(_, anchor)] = anchors[..] else {
        return Err(format!(
            "block {} has {} certificates of its own round, {}; one, the anchor, is right",
            block.number,
            anchors.len(),
            block.round
        ));
    };
    let turn = |(round, author): &(u32, u32)| (*round, (author + 16 - anchor) % 16);
    if !block.places.iter().map(turn).is_sorted() {
        return Err(format!("block {} is not in the order of a chain", block.number));
    }
    Ok(())
}

/// The blocks of a listing, each line with its number in the file.
pub fn blocks_of<'a>(lines: impl Iterator<Item = (usize, &'a str)>) -> Result<Vec<Listed>, Failure> {
    let (mut blocks, mut seen) = (Vec::new(), HashMap::new());
    for (at, line) in lines {
        let place = take_line(&mut blocks, line).or_else(|why| input(format!("line {at}: {why}")))?;
        if let Some(first) = seen.insert(place, at) {
            let (round, author) = place;
            return input(format!(
                "line {at}: author {author} has its certificate of round {round} in line {first} already"
            ));
        }
    }
    blocks.iter().try_for_each(see_order).or_else(input)?;
    Ok(blocks)
}

/// The lines of a text, with their numbers, whether they end in CRLF or in LF.
pub fn lines_of(text: &[u8]) -> Result<Vec<(usize, &str)>, Failure> {
    let Some(text) = std::str::from_utf8(text).ok().filter(|text| text.is_ascii()) else {
        return input("not a runner's lines: a byte that is not ASCII");
    };
    Ok((1..).zip(text.lines()).collect())
}
