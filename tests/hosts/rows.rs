//! Rows of certificates for batches, by chance: what a link may deliver to a
//! member that is behind, in any order, with copies, contested places, words
//! out of range and words that cannot be read.

use crate::calls::*;
use crate::words::*;
use reference::*;

/// The 17 words of a certificate.
pub type Words = [u32; 17];

pub fn seventeen(words: &[u32]) -> Words {
    words.try_into().expect("17 words")
}

/// A batch on a member's state: a row, and answers that are mostly long enough.
pub fn some_batch(rng: &mut Rng, member: &Member) -> Call {
    let row = some_row(rng, member);
    let room = match rng.below(20) {
        0 => rng.below(row.len() as u64 + 1) as usize,
        1 => row.len().saturating_sub(1),
        2..=7 => row.len() + rng.below(8) as usize,
        _ => row.len(),
    };
    Call::Batch { row, answers: (0..room).map(|_| rng.word()).collect() }
}

fn some_length(rng: &mut Rng) -> usize {
    let (low, high) = match rng.below(20) {
        0 => (0, 1),
        1..=6 => (2, 12),
        7..=11 => (13, 40),
        12..=15 => (41, 63),
        16..=18 => (64, 64),
        _ => (65, 70),
    };
    rng.between(low, high) as usize
}

pub fn some_row(rng: &mut Rng, member: &Member) -> Vec<Words> {
    let length = some_length(rng);
    let mut bundle = bundle(rng, member);
    // How many of a bundle do not come, so that what names them gets 11; and
    // how many come changed.
    let (lost, spoilt) = (rng.pick(&[0, 0, 20, 100, 400]), rng.pick(&[0, 20, 100, 300]));
    bundle.retain(|_| !rng.chance(lost));
    let mut row: Vec<Words> = Vec::new();
    while row.len() < length {
        let words = match bundle.pop() {
            Some(certificate) => seventeen(&certificate_words(&certificate)),
            None if row.is_empty() => any_words(rng, member),
            // Short bundles make short rows, but for the longest rows.
            None if length < 64 && rng.chance(300) => break,
            None => rng.pick(&row),
        };
        row.push(if rng.chance(spoilt) { changed(rng, member, words) } else { words });
    }
    put_in_some_order(rng, &mut row);
    row
}

/// Certificates that a member some rounds ahead of this one has: they fit one
/// another, and mostly this member. Newest first, so that the oldest is popped
/// first. In one bundle of three many places are contested.
fn bundle(rng: &mut Rng, member: &Member) -> Vec<Certificate> {
    let mut ahead = member.clone();
    let from = first_round(rng, member);
    let to = member.settings.ceiling.min(from + rng.between(1, 8));
    let rivals = rng.pick(&[0, 100, 500]);
    let mut all = Vec::new();
    for round in from..=to {
        for author in members_of(likely_authors(&ahead, round)) {
            let certificate = certificate_at(rng, &ahead, author, round);
            let _ = ahead.accept(&certificate);
            if rng.chance(rivals) {
                all.push(rival(rng, member, &certificate));
            }
            all.push(certificate);
        }
    }
    all.reverse();
    all
}

/// Where a bundle begins: mostly where the member's rounds are no longer full,
/// at times below it, now and then anywhere.
fn first_round(rng: &mut Rng, member: &Member) -> u32 {
    let ceiling = member.settings.ceiling;
    if rng.chance(100) {
        return rng.between(1, ceiling);
    }
    let lacks = |&round: &u32| likely_authors(member, round) & !member.held_authors(round) != 0;
    let from = (1..=ceiling).rev().take_while(lacks).last().unwrap_or(ceiling);
    from.saturating_sub(rng.pick(&[0, 0, 1, 2])).max(1)
}

fn likely_authors(member: &Member, round: u32) -> Set {
    member.committee_of(round).map_or(0b1111, members_in)
}

/// A certificate for a place; what is held there where there is something.
fn certificate_at(rng: &mut Rng, member: &Member, author: u32, round: u32) -> Certificate {
    if let Some(held) = member.held_at(author, round) {
        return held.certificate.clone();
    }
    let previous = match likely_previous(rng, member, round) {
        0 if round > 1 => 1,
        previous => previous,
    };
    let transactions = some_transactions(rng, member.settings.allowance);
    let endorsers = likely_endorsers(rng, member, author, round);
    Certificate { proposal: Proposal { author, round, previous, transactions }, endorsers }
}

/// Another certificate for the same place: it names one more, which mostly
/// nobody has, or fewer, or has other transactions.
fn rival(rng: &mut Rng, member: &Member, certificate: &Certificate) -> Certificate {
    let mut other = certificate.clone();
    let Proposal { round, previous, transactions, .. } = &mut other.proposal;
    let unnamed: Vec<u32> = members_of(!*previous).collect();
    match rng.below(4) {
        0 | 1 if *round > 1 && !unnamed.is_empty() => *previous |= single(rng.pick(&unnamed)),
        2 if *round > 1 => *previous = rng.thin(*previous, 500).max(1),
        _ => *transactions = some_transactions(rng, member.settings.allowance),
    }
    other
}

/// A record that came, changed: other endorsers, another certificate for its
/// place, words out of range, words that cannot be read, no certificate at all.
fn changed(rng: &mut Rng, member: &Member, words: Words) -> Words {
    let mut changed = words;
    let read = read_certificate(&words).filter(|c| c.proposal.transactions.len() <= 4);
    match (rng.below(10), read) {
        (0..=3, Some(certificate)) => {
            return seventeen(&certificate_words(&rival(rng, member, &certificate)));
        }
        (4 | 5, Some(certificate)) => {
            let Certificate { proposal: Proposal { author, round, .. }, .. } = certificate;
            let one = single(rng.between(0, 15));
            let endorsers = likely_endorsers(rng, member, author & 15, round);
            changed[16] = u32::from(endorsers ^ rng.pick(&[0, 0, 0, one]));
        }
        (6, _) => {
            changed[rng.below(2) as usize] = rng.pick(&[0, 1, 15, 16, u32::MAX - 1, u32::MAX])
        }
        (7, _) => changed[rng.pick(&[2, 16])] |= rng.pick(&[1 << 16, 1 << 31]),
        (8, _) => {
            let mut spoilt = spoil(rng, words.to_vec(), 2);
            spoilt.resize(17, rng.word());
            return seventeen(&spoilt);
        }
        _ => return any_words(rng, member),
    }
    changed
}

fn any_words(rng: &mut Rng, member: &Member) -> Words {
    match rng.below(4) {
        0 => seventeen(&noise(rng, 17)),
        1 => match copy_of_held(rng, member) {
            Some(copy) => seventeen(&certificate_words(&copy)),
            None => seventeen(&noise(rng, 17)),
        },
        _ => seventeen(&certificate_words(&likely_certificate(rng, member))),
    }
}

/// Newest first, as links deliver, most often; else shuffled, or as they are.
fn put_in_some_order(rng: &mut Rng, row: &mut [Words]) {
    let shuffle = |rng: &mut Rng, row: &mut [Words]| {
        (1..row.len()).rev().for_each(|i| row.swap(i, rng.below(i as u64 + 1) as usize));
    };
    match rng.below(8) {
        0..=3 => {
            shuffle(rng, row);
            row.sort_by_key(|words| std::cmp::Reverse(words[1]));
        }
        4 | 5 => shuffle(rng, row),
        6 => row.reverse(),
        _ => {}
    }
}
