//! State, table and argument words as values of the reference, and back.
//!
//! Written from docs/RULES.md ("A member's state", "Order inside a block", "Rights"),
//! docs/TABLES.md and the host's layouts. `None` stands for
//! "refused with 1": words that cannot be read, or a state that is not well formed.

use reference::*;
use std::collections::VecDeque;

pub const STATE_WORDS: usize = 39;
/// Where a state has its margin; one of before there was a margin has so many words.
pub const MARGIN: usize = 37;
/// Where it has its rights; one of before there were rights has so many words.
pub const RIGHTS: usize = 38;
/// Two for each of twenty settings.
pub const SHEET_WORDS: usize = 40;
pub const ROW: usize = 272;

pub fn table_words(ceiling: u32) -> usize {
    ROW * (ceiling as usize + 1)
}

/// Words of row 0: the guest served last and 1 more, 0 for none; how many wait
/// for a guest; a place of its queue, the oldest transaction in place 0.
pub const SERVED: usize = 0;

pub fn waiting_word(guest: u32) -> usize {
    1 + guest as usize
}

pub fn queue_place(guest: u32, place: usize) -> usize {
    24 + 32 * guest as usize + 3 * place
}

/// The eight words of a guest's port stand before its queue: the last byte that was
/// read, by the place of its certificate and which byte of that line it is, counted
/// from 1; both 0 for none; then six registers.
pub fn port_word(guest: u32, at: usize) -> usize {
    16 + 32 * guest as usize + at
}

/// The registers: enable, line control, modem control, scratch, divisor low and high.
pub const REGISTERS: std::ops::Range<usize> = 2..8;
/// The most that each of them holds.
pub const MOST_HELD: [u32; 6] = [1, 255, 31, 255, 255, 255];

/// The place of a certificate.
pub fn place_of(round: u32, author: u32) -> u32 {
    16 * round + author
}

// ------------------------------------------------------------- reading ---

pub fn read_set(word: u32) -> Option<Set> {
    Set::try_from(word).ok()
}

pub fn read_transaction(words: &[u32]) -> Option<Transaction> {
    match (words[0], words[1], words[2]) {
        (0, member, amount) => Some(Transaction::Bond { member, amount }),
        (1, member, 0) => Some(Transaction::Unbond { member }),
        (2, number, 0) => Some(Transaction::Entry { number }),
        _ => None,
    }
}

/// The transactions of a body. A count above four is over every allowance:
/// the four that stand there are read, and others stand in for the rest.
pub fn read_transactions(count: u32, words: &[u32]) -> Option<Vec<Transaction>> {
    let mut all = Vec::new();
    for k in 0..count.min(5) as usize {
        all.push(if k < 4 {
            read_transaction(&words[3 * k..3 * k + 3])?
        } else {
            Transaction::Entry { number: 0 }
        });
    }
    Some(all)
}

/// The previous set and the transactions of a body.
pub fn read_body(words: &[u32]) -> Option<(Set, Vec<Transaction>)> {
    let words = words.get(..14)?;
    Some((read_set(words[0])?, read_transactions(words[1], &words[2..])?))
}

pub fn read_proposal(words: &[u32]) -> Option<Proposal> {
    let words = words.get(..16)?;
    let (previous, transactions) = read_body(&words[2..])?;
    Some(Proposal { author: words[0], round: words[1], previous, transactions })
}

pub fn read_certificate(words: &[u32]) -> Option<Certificate> {
    let words = words.get(..17)?;
    Some(Certificate { proposal: read_proposal(words)?, endorsers: read_set(words[16])? })
}

pub fn read_sheet(words: &[u32]) -> Option<Sheet> {
    let words = words.get(..SHEET_WORDS)?;
    let mut settings = Vec::new();
    for pair in words.chunks(2) {
        settings.push(match pair[0] {
            0 => Setting::Blank,
            1 => Setting::Written(pair[1]),
            _ => return None,
        });
    }
    let (lookback, ceiling, allowance) = (settings[0], settings[1], settings[2]);
    let weights = settings[3..19].try_into().unwrap();
    Some(Sheet { lookback, ceiling, allowance, weights, margin: settings[19] })
}

/// Transactions in range and within the allowance, previous set empty exactly
/// in round 1.
fn proposal_fits(p: &Proposal, settings: &Settings) -> bool {
    p.transactions.len() <= settings.allowance as usize
        && p.transactions.iter().all(Transaction::in_range)
        && (p.previous == 0) == (p.round == 1)
}

fn read_settings(words: &[u32]) -> Option<Settings> {
    let written = |k: usize| Setting::Written(words[1 + k]);
    let weights: Vec<Setting> = (3..19).map(written).collect();
    let sheet = Sheet {
        lookback: written(0),
        ceiling: written(1),
        allowance: written(2),
        weights: weights.try_into().unwrap(),
        margin: Setting::Written(words[MARGIN]),
    };
    let settings = sheet.fill().ok()?;
    if total(&settings.weights) > 0 {
        Some(settings)
    } else {
        None
    }
}

/// Four bytes, each a set of callers: those that may propose, sign, drive, read.
pub fn read_rights(word: u32) -> Rights {
    let sets = word.to_le_bytes();
    std::array::from_fn(|caller| sets.map(|set| set & (1 << caller) != 0))
}

/// The rights in a stretch of words, whatever else they are; nobody has one where
/// it is too short.
pub fn rights_in(state: &[u32]) -> Rights {
    state.get(RIGHTS).map_or(NO_RIGHTS, |&word| read_rights(word))
}

/// The member whose state the words are.
pub fn read_member(state: &[u32], table: &[u32]) -> Option<Member> {
    let state = state.get(..STATE_WORDS)?;
    let settings = read_settings(state)?;
    let (own, round, blocks) = (state[0], state[20], state[22]);
    let ceiling = settings.ceiling;
    if own >= MEMBERS || round < 1 || round > ceiling || blocks > ceiling {
        return None;
    }
    let proposal = match state[21] {
        0 => None,
        1 => {
            let (previous, transactions) = read_body(&state[23..])?;
            Some(Proposal { author: own, round, previous, transactions })
        }
        _ => return None,
    };
    if !proposal.iter().all(|p| proposal_fits(p, &settings)) {
        return None;
    }
    let table = table.get(..table_words(ceiling))?;
    let (held, endorsed) = read_places(table, &settings, blocks)?;
    let chain = read_chain(table, &settings, blocks, &held)?;
    let (queues, served) = read_queues(&table[..ROW])?;
    let (rights, ports) = (rights_in(state), Default::default());
    let mut member =
        Member { own, settings, round, proposal, held, endorsed, chain, queues, served, rights, ports };
    member.ports = read_ports(&table[..ROW], &member)?;
    Some(member)
}

/// Each register holds no more than it can, and no port has read past the listing's
/// end: its pair is (0, 0), or names a byte of the listing.
fn read_ports(row: &[u32], member: &Member) -> Option<[Port; GUESTS as usize]> {
    let pair = |guest| (row[port_word(guest, 0)], row[port_word(guest, 1)]);
    let unused = (0..GUESTS).all(|guest| pair(guest) == (0, 0));
    let lines = if unused { Vec::new() } else { member.lines() };
    let mut ports = [Port::default(); GUESTS as usize];
    for (guest, port) in (0..).zip(&mut ports) {
        let mut held = [0; 6];
        for (at, most) in MOST_HELD.iter().enumerate() {
            let word = row[port_word(guest, REGISTERS.start + at)];
            held[at] = u8::try_from(word).ok().filter(|_| word <= *most)?;
        }
        let [enable, line, modem, scratch, low, high] = held;
        let (place, byte) = pair(guest);
        let read = bytes_to(&lines, place, byte)?;
        *port = Port { read, enable, line, modem, scratch, divisor: [low, high] };
    }
    Some(ports)
}

/// How many bytes of the listing there are up to and with this one of a line.
fn bytes_to(lines: &[Line], place: u32, byte: u32) -> Option<usize> {
    if (place, byte) == (0, 0) {
        return Some(0);
    }
    let at = lines.iter().position(|line| place_of(line.round, line.author) == place)?;
    let before: usize = lines[..at].iter().map(|line| line.bytes.len()).sum();
    let byte = byte as usize;
    Some(before + byte).filter(|_| (1..=lines[at].bytes.len()).contains(&byte))
}

/// The last of so many bytes of the listing: the place of its line, and which byte of
/// it; both 0 for none.
pub fn last_of(lines: &[Line], read: usize) -> [u32; 2] {
    let mut left = read;
    for line in lines {
        if (1..=line.bytes.len()).contains(&left) {
            return [place_of(line.round, line.author), left as u32];
        }
        left = left.saturating_sub(line.bytes.len());
    }
    assert_eq!(left, 0, "a port past the listing's end");
    [0, 0]
}

/// At most eight transactions in each queue, all in range, and a guest served
/// last of 0 to 7 or none.
fn read_queues(row: &[u32]) -> Option<(Queues, Option<u32>)> {
    let served = match row[SERVED] {
        0 => None,
        word if word <= GUESTS => Some(word - 1),
        _ => return None,
    };
    let mut queues = Queues::default();
    for (guest, queue) in (0..).zip(&mut queues) {
        let count = row[waiting_word(guest)];
        if count > QUEUE as u32 {
            return None;
        }
        let transaction = |place| {
            let words = &row[queue_place(guest, place)..][..3];
            read_transaction(words).filter(Transaction::in_range)
        };
        *queue = (0..count as usize).map(transaction).collect::<Option<VecDeque<_>>>()?;
    }
    Some((queues, served))
}

/// The endorsers in a held record: a set of members, its author not among
/// them. Outsiders and too few are well formed.
fn read_endorsers(word: u32, author: u32) -> Option<Set> {
    read_set(word).filter(|&endorsers| !in_set(endorsers, author))
}

/// Held certificates and endorsed places, by round, then author.
fn read_places(
    table: &[u32],
    settings: &Settings,
    blocks: u32,
) -> Option<(Vec<Option<Held>>, Vec<bool>)> {
    let (mut held, mut endorsed) = (Vec::new(), Vec::new());
    for (round, row) in (0..).zip(table.chunks(ROW)).skip(1) {
        let (here, marked) = (read_set(row[0])?, read_set(row[1])?);
        for author in 0..MEMBERS {
            endorsed.push(in_set(marked, author));
            if !in_set(here, author) {
                held.push(None);
                continue;
            }
            let record = &row[16 + 16 * author as usize..][..16];
            let previous = read_set(record[0])?;
            let transactions = read_transactions(record[1], &record[4..])?;
            let proposal = Proposal { author, round, previous, transactions };
            if !proposal_fits(&proposal, settings) || record[2] > blocks {
                return None;
            }
            let endorsers = read_endorsers(record[3], author)?;
            let certificate = Certificate { proposal, endorsers };
            held.push(Some(Held { certificate, block: record[2] }));
        }
    }
    Some((held, endorsed))
}

/// Block rounds are even, rising and below the ceiling; a block's certificates
/// are those marked with its number, in the order of the rules, whatever rows
/// they stand in and whether or not the leader of its round is among them.
fn read_chain(
    table: &[u32],
    settings: &Settings,
    blocks: u32,
    held: &[Option<Held>],
) -> Option<Vec<Block>> {
    let mut rounds = Vec::new();
    for number in 1..=blocks as usize {
        let round = table[ROW * number + 2];
        let last = rounds.last().copied().unwrap_or(0);
        if round % 2 == 1 || round <= last || round >= settings.ceiling {
            return None;
        }
        rounds.push(round);
    }
    let mut marked: Vec<Vec<(u32, u32)>> = vec![Vec::new(); blocks as usize];
    for (place, here) in (0..).zip(held) {
        if let Some(Held { block, .. }) = here {
            if *block > 0 {
                marked[*block as usize - 1].push((place / 16 + 1, place % 16));
            }
        }
    }
    let mut chain: Vec<Block> = Vec::new();
    for (round, certificates) in rounds.into_iter().zip(marked) {
        let block = Block::on(&chain, settings, round, certificates, held);
        chain.push(block);
    }
    Some(chain)
}

// ------------------------------------------------------------- writing ---

pub fn transaction_words(transaction: &Transaction) -> [u32; 3] {
    match *transaction {
        Transaction::Bond { member, amount } => [0, member, amount],
        Transaction::Unbond { member } => [1, member, 0],
        Transaction::Entry { number } => [2, number, 0],
    }
}

/// Previous set, count, four transactions, 0 beyond them.
pub fn body_words(p: &Proposal) -> [u32; 14] {
    let mut words = [0; 14];
    words[0] = u32::from(p.previous);
    words[1] = p.transactions.len() as u32;
    for (k, t) in p.transactions.iter().enumerate() {
        words[2 + 3 * k..5 + 3 * k].copy_from_slice(&transaction_words(t));
    }
    words
}

pub fn proposal_words(p: &Proposal) -> Vec<u32> {
    let mut words = vec![p.author, p.round];
    words.extend(body_words(p));
    words
}

pub fn certificate_words(c: &Certificate) -> Vec<u32> {
    let mut words = proposal_words(&c.proposal);
    words.push(u32::from(c.endorsers));
    words
}

pub fn rights_word(rights: &Rights) -> u32 {
    let mut sets = [0; 4];
    for (caller, of_caller) in rights.iter().enumerate() {
        sets.iter_mut().zip(of_caller).for_each(|(set, &has)| *set |= u8::from(has) << caller);
    }
    u32::from_le_bytes(sets)
}

pub fn state_words(member: &Member) -> [u32; STATE_WORDS] {
    let mut words = [0; STATE_WORDS];
    let settings = &member.settings;
    words[..4].copy_from_slice(&[
        member.own,
        settings.lookback,
        settings.ceiling,
        settings.allowance,
    ]);
    for (m, weight) in settings.weights.iter().enumerate() {
        words[4 + m] = *weight as u32;
    }
    words[20] = member.round;
    words[22] = member.chain.len() as u32;
    if let Some(p) = &member.proposal {
        words[21] = 1;
        words[23..MARGIN].copy_from_slice(&body_words(p));
    }
    words[MARGIN] = settings.margin;
    words[RIGHTS] = rights_word(&member.rights);
    words
}

/// Writes a member's queues over row 0. Where fewer wait than the row says, so
/// many have left: what stands at a place now stood so many places behind it,
/// as far as the last place.
fn write_queues(member: &Member, row: &mut [u32]) {
    row[SERVED] = member.served.map_or(0, |guest| guest + 1);
    for (guest, queue) in (0..).zip(&member.queues) {
        let left = (row[waiting_word(guest)] as usize).saturating_sub(queue.len());
        for place in 0..QUEUE {
            let from = queue_place(guest, (place + left).min(QUEUE - 1));
            row.copy_within(from..from + 3, queue_place(guest, place));
        }
        for (place, transaction) in queue.iter().enumerate() {
            row[queue_place(guest, place)..][..3].copy_from_slice(&transaction_words(transaction));
        }
        row[waiting_word(guest)] = queue.len() as u32;
    }
}

/// Writes a member's ports over row 0.
fn write_ports(member: &Member, row: &mut [u32]) {
    let unused = member.ports.iter().all(|port| port.read == 0);
    let lines = if unused { Vec::new() } else { member.lines() };
    for (guest, port) in (0..).zip(&member.ports) {
        let words = &mut row[port_word(guest, 0)..][..8];
        words[..2].copy_from_slice(&last_of(&lines, port.read));
        let [low, high] = port.divisor;
        let held = [port.enable, port.line, port.modem, port.scratch, low, high];
        words[REGISTERS].copy_from_slice(&held.map(u32::from));
    }
}

/// Writes a member's queues, ports, certificates, marks and blocks over a table. What
/// is no part of the state stays, except in records of certificates that the
/// table did not hold: all of their sixteen words are written.
pub fn write_table(member: &Member, table: &mut [u32]) {
    write_queues(member, &mut table[..ROW]);
    write_ports(member, &mut table[..ROW]);
    for (round, row) in
        (0..).zip(table.chunks_mut(ROW)).take(member.settings.ceiling as usize + 1).skip(1)
    {
        let before = row[0];
        row[0] = u32::from(member.held_authors(round));
        row[1] = 0;
        if let Some(block) = member.chain.get(round as usize - 1) {
            row[2] = block.round;
        }
        for author in 0..MEMBERS {
            row[1] |= u32::from(member.is_endorsed(author, round)) << author;
            let Some(held) = member.held_at(author, round) else { continue };
            let record = &mut row[16 + 16 * author as usize..][..16];
            let p = &held.certificate.proposal;
            if before >> author & 1 == 0 {
                record.fill(0);
            }
            record[0] = u32::from(p.previous);
            record[1] = p.transactions.len() as u32;
            record[2] = held.block;
            record[3] = u32::from(held.certificate.endorsers);
            for (k, t) in p.transactions.iter().enumerate() {
                record[4 + 3 * k..7 + 3 * k].copy_from_slice(&transaction_words(t));
            }
        }
    }
}
