//! Owner's calls in plain Rust: the rules of plain.rs on words that are known to be well formed, with whole
//! histories, and the committees of the rounds that the chain tells beside them. No survey, no walk: the
//! yardstick for owner's calls. Kept committees lie as the engine has them: one word, then sixteen for each
//! round from 0 on.
//!
//! A commit goes down from its anchors as far as certificates are in no block yet, and renews the committees
//! that its blocks add: what is in a block names what is in one.

use super::*;

/// Known words, and the committees of rounds up to `known`.
struct Owned<'a> {
    s: Survey<'a>,
    kept: &'a [u64],
    known: u32,
}

impl<'a> Owned<'a> {
    #[inline(always)]
    fn of(state: &'a [u32], table: &'a [u32], kept: &'a [u64]) -> Owned<'a> {
        let blocks = state[BLOCKS];
        let last = if blocks == 0 { 0 } else { table[ROW * blocks as usize + 2] };
        Owned { s: Survey::known(state, table, last), kept, known: last + 2 + state[1] }
    }
    /// The committee of a round; 8 where it is not known.
    #[inline(always)]
    fn committee(&self, round: u32) -> Result<Committee, u32> {
        if round > self.known {
            return Err(8);
        }
        Ok(self.kept_at(round))
    }
    #[inline(always)]
    fn kept_at(&self, round: u32) -> Committee {
        let words: &[u64; 16] = self.kept[at(round)..].first_chunk().unwrap();
        Committee { weights: words.map(|weight| weight as u32), margin: self.s.state[MARGIN] }
    }
}

fn at(round: u32) -> usize {
    1 + 16 * round as usize
}

/// Fills the committees of all known rounds, of words that are surveyed here.
pub fn resume(state: &[u32], table: &[u32], kept: &mut [u64]) -> u32 {
    let mut room = Links::new();
    let s = match survey(state, table, Weights::Of(state[2]), &mut room) {
        Ok(s) => s,
        Err(number) => return number,
    };
    let mut walk = Walk::new(&s);
    for round in 0..=(s.last + 2 + s.lookback()).min(s.ceiling()) {
        let weights = walk.committee(round).weights;
        kept[at(round)..][..16].iter_mut().zip(weights).for_each(|(to, weight)| *to = u64::from(weight));
    }
    0
}

// --------------------------------------------------------------- calls ---

pub fn propose(state: &mut [u32], table: &[u32], kept: &[u64], body: &[u32]) -> u32 {
    number(try_propose(state, table, kept, body))
}

fn try_propose(state: &mut [u32], table: &[u32], kept: &[u64], body: &[u32]) -> Result<(), u32> {
    let body: &Body = body.first_chunk().filter(|body| readable(body)).ok_or(1u32)?;
    check_propose(&Owned::of(state, table, kept), body)?;
    keep_proposal(state, body);
    Ok(())
}

#[inline(always)]
fn check_propose(o: &Owned, body: &Body) -> Result<(), u32> {
    let (s, r) = (&o.s, o.s.round());
    s.check_body(r, body)?;
    if s.state[PROPOSED] == 1 || s.has(s.own(), r) {
        return Err(10);
    }
    if o.committee(r)?.members() >> s.own() & 1 == 0 {
        return Err(9);
    }
    if r > 1 {
        s.check_previous(r, body[0], &o.kept_at(r - 1))?;
    }
    Ok(())
}

pub fn enqueue(state: &[u32], table: &mut [u32], _: &[u64], guest: u32, transaction: &[u32]) -> u32 {
    number(try_enqueue(state, table, guest, transaction))
}

fn try_enqueue(_: &[u32], table: &mut [u32], guest: u32, transaction: &[u32]) -> Result<(), u32> {
    let transaction: &[u32; 3] = transaction.first_chunk().ok_or(1u32)?;
    if transaction[0] > 2 || transaction[0] > 0 && transaction[2] > 0 {
        return Err(1);
    }
    if guest >= GUESTS {
        return Err(26);
    }
    if !in_range(transaction) {
        return Err(6);
    }
    let count = table[WAITING + guest as usize];
    if count >= MOST_WAITING {
        return Err(27);
    }
    let place = queue(guest) + 3 * count as usize;
    table[place..place + 3].copy_from_slice(transaction);
    table[WAITING + guest as usize] += 1;
    Ok(())
}

pub fn draw(state: &mut [u32], table: &mut [u32], kept: &[u64], previous: u32) -> u32 {
    number(try_draw(state, table, kept, previous))
}

fn try_draw(state: &mut [u32], table: &mut [u32], kept: &[u64], previous: u32) -> Result<(), u32> {
    if previous >= 1 << 16 {
        return Err(1);
    }
    let o = Owned::of(state, table, kept);
    let drawn = Drawn::of(&o.s.rows[0], o.s.allowance(), previous);
    check_propose(&o, &drawn.body)?;
    keep_proposal(state, &drawn.body);
    drawn.leave(table.first_chunk_mut().unwrap());
    Ok(())
}

pub fn endorse(state: &[u32], table: &mut [u32], kept: &[u64], proposal: &[u32]) -> u32 {
    number(try_endorse(state, table, kept, proposal))
}

fn try_endorse(state: &[u32], table: &mut [u32], kept: &[u64], proposal: &[u32]) -> Result<(), u32> {
    let proposal: &[u32; 16] = proposal.first_chunk().ok_or(1u32)?;
    let (author, round) = (proposal[0], proposal[1]);
    let body: &Body = proposal.last_chunk().filter(|body| readable(body)).ok_or(1u32)?;
    let o = Owned::of(state, table, kept);
    o.s.check_proposal(author, round, body)?;
    if author == o.s.own() {
        return Err(14);
    }
    let row = &o.s.rows[round as usize];
    if (row[0] | row[1]) >> author & 1 == 1 {
        return Err(10);
    }
    if round > 1 {
        o.s.check_previous(round, body[0], &o.committee(round - 1)?)?;
    }
    table[ROW * round as usize + 1] |= 1 << author;
    Ok(())
}

pub fn certify(state: &[u32], table: &mut [u32], kept: &[u64], endorsers: u32) -> u32 {
    number(try_certify(state, table, kept, endorsers))
}

fn try_certify(state: &[u32], table: &mut [u32], kept: &[u64], endorsers: u32) -> Result<(), u32> {
    if endorsers >= 1 << 16 {
        return Err(1);
    }
    let o = Owned::of(state, table, kept);
    let (own, r) = (o.s.own(), o.s.round());
    if o.s.state[PROPOSED] == 0 {
        return Err(15);
    }
    if o.s.has(own, r) {
        return Err(10);
    }
    if endorsers >> own & 1 == 1 {
        return Err(14);
    }
    check_signers(&o.committee(r)?, endorsers | 1 << own)?;
    write_record(table, own, r, state[BODY..].first_chunk().unwrap(), endorsers);
    Ok(())
}

pub fn accept(state: &[u32], table: &mut [u32], kept: &[u64], certificate: &[u32]) -> u32 {
    number(try_accept(state, table, kept, certificate.first_chunk()))
}

#[inline(always)]
fn try_accept(state: &[u32], table: &mut [u32], kept: &[u64], words: Option<&Words>) -> Result<(), u32> {
    let certificate = Certificate::read(words.ok_or(1u32)?)?;
    let o = Owned::of(state, table, kept);
    check_accept(&o.s, &certificate, || o.committee(certificate.round))?;
    hold(table, &certificate);
    Ok(())
}

pub fn batch(state: &[u32], table: &mut [u32], kept: &[u64], row: &[Words], answers: &mut [u32]) -> u32 {
    if row.len() > MOST_RECORDS || answers.len() < row.len() {
        return 25;
    }
    for turn in &turns_of(row)[..row.len()] {
        answers[turn.place] = number(try_accept(state, table, kept, Some(&row[turn.place])));
    }
    0
}

pub fn advance(state: &mut [u32], table: &[u32], kept: &[u64]) -> u32 {
    number(try_advance(state, table, kept))
}

fn try_advance(state: &mut [u32], table: &[u32], kept: &[u64]) -> Result<(), u32> {
    let o = Owned::of(state, table, kept);
    let r = o.s.round();
    if r == o.s.ceiling() {
        return Err(18);
    }
    if !o.committee(r)?.is_quorum(o.s.held(r)) {
        return Err(28);
    }
    state[ROUND] += 1;
    state[PROPOSED] = 0;
    state[BODY..MARGIN].fill(0);
    Ok(())
}

// -------------------------------------------------------------- commit ---

pub fn commit(state: &mut [u32], table: &mut [u32], kept: &mut [u64]) -> u64 {
    wide(try_commit(state, table, kept))
}

fn try_commit(state: &mut [u32], table: &mut [u32], kept: &mut [u64]) -> Result<u32, u32> {
    let o = Owned::of(state, table, kept);
    let known = o.known;
    let mut anchors = [(0, 0); MOST_BLOCKS];
    let taken = anchors_of(&o, &mut anchors)?;
    let (blocks, lookback, ceiling, margin) = (o.s.blocks(), o.s.lookback(), o.s.ceiling(), state[MARGIN]);
    let rows = &mut table.as_chunks_mut::<ROW>().0[..ceiling as usize + 1];
    // Above the rounds known so far the committee goes on from that of the last one, block by block.
    let mut round = known.min(ceiling);
    let words: &[u64; 16] = kept[at(round)..].first_chunk().unwrap();
    let mut committee = Committee { weights: words.map(|weight| weight as u32), margin };
    for (number, &(anchor, block_round)) in (blocks + 1..).zip(anchors[..taken].iter().rev()) {
        rows[number as usize][2] = block_round;
        let low = mark(rows, number, anchor, block_round);
        if round == ceiling {
            continue;
        }
        // Rounds up to this block's and the lookback are by what came before; the two above by this one too.
        keep(kept, &mut round, (block_round + lookback).min(ceiling), &committee);
        apply(rows, number, low, block_round, anchor, &mut committee);
        keep(kept, &mut round, (block_round + lookback + 2).min(ceiling), &committee);
    }
    state[BLOCKS] = blocks + taken as u32;
    match state[PROPOSED] {
        0 => state[BODY..MARGIN].fill(0),
        _ => clear_unused(&mut state[BODY..MARGIN]),
    }
    Ok(taken as u32)
}

#[inline(always)]
fn keep(kept: &mut [u64], round: &mut u32, to: u32, committee: &Committee) {
    while *round < to {
        *round += 1;
        let words: &mut [u64; 16] = kept[at(*round)..].first_chunk_mut().unwrap();
        *words = committee.weights.map(u64::from);
    }
}

/// The checks of a commit, and the anchors that it takes, newest first.
#[inline(always)]
fn anchors_of(o: &Owned, anchors: &mut [(u32, u32); MOST_BLOCKS]) -> Result<usize, u32> {
    check_time(&o.s)?;
    let anchor = check_votes(o)?.anchor;
    let mut leaders = [16; MOST_BLOCKS];
    for r in (o.s.last + 2..o.s.round() - 1).step_by(2) {
        leaders[r as usize / 2] = o.kept_at(r).leader(r);
    }
    Ok(take_anchors(&o.s, anchor, &leaders, anchors))
}

/// Checks 21 and 22 of a commit.
#[inline(always)]
fn check_votes(o: &Owned) -> Result<Support, u32> {
    let (s, r) = (&o.s, o.s.round());
    let anchor = u32::from(o.kept_at(r - 1).leader(r - 1));
    if s.held(r - 1) >> anchor & 1 == 0 {
        return Err(21);
    }
    let committee = o.kept_at(r);
    let votes = members(s.held(r)).filter(|&a| s.record(a as u32, r)[0] >> anchor & 1 == 1);
    let votes = votes.fold(0, |set, a| set | 1 << a);
    if committee.weight(votes) <= committee.bound() {
        return Err(22);
    }
    Ok(Support { anchor, votes, committee })
}

/// Marks what an anchor's history has in no block yet; the lowest round of it.
#[inline(always)]
fn mark(rows: &mut [Row], number: u32, anchor: u32, round: u32) -> u32 {
    let (mut named, mut r) = (1u32 << anchor, round as usize);
    while named != 0 && r > 0 {
        let row = &mut rows[r];
        let here = named & row[0];
        let records = &mut row.as_chunks_mut::<16>().0[1..];
        named = 0;
        for a in members(here) {
            let record = &mut records[a & 15];
            if record[2] == 0 {
                record[2] = number;
                named |= record[0];
            }
        }
        r -= 1;
    }
    r as u32 + 1
}

/// Applies a block that lies in these rounds to a committee, each row from the leader on.
#[inline(always)]
fn apply(rows: &[Row], number: u32, low: u32, top: u32, first: u32, committee: &mut Committee) {
    for row in &rows[low as usize..=top as usize] {
        let records = &row.as_chunks::<16>().0[1..];
        let turned = (row[0] | row[0] << 16) >> first & 0xffff;
        for step in members(turned) {
            let record = &records[(first as usize + step) & 15];
            if record[2] == number {
                committee.apply(record);
            }
        }
    }
}

pub fn preview(state: &[u32], table: &[u32], kept: &[u64], list: &mut [u32]) -> u64 {
    wide(try_preview(state, table, kept, list))
}

fn try_preview(state: &[u32], table: &[u32], kept: &[u64], list: &mut [u32]) -> Result<u32, u32> {
    let places = list.as_chunks_mut::<3>().0;
    if places.len() < 16 * state[2] as usize {
        return Err(25);
    }
    let o = Owned::of(state, table, kept);
    let mut anchors = [(0, 0); MOST_BLOCKS];
    let taken = anchors_of(&o, &mut anchors)?;
    // What is new in each round, for the rounds above those that an anchor before has reached.
    let (mut reached, mut fresh) = ([0u16; 1025], [0u16; 1025]);
    let mut count = 0;
    for (block, &(first, top)) in (o.s.blocks() + 1..).zip(anchors[..taken].iter().rev()) {
        let (mut named, mut r) = (1u32 << first, top as usize);
        while named != 0 && r > 0 {
            let here = named & o.s.rows[r][0] & !u32::from(reached[r]);
            let records = &o.s.rows[r].as_chunks::<16>().0[1..];
            let mut unmarked = 0;
            named = 0;
            for a in members(here) {
                let &[previous, _, mark, ..] = &records[a & 15];
                if mark == 0 {
                    unmarked |= 1 << a;
                    named |= previous;
                }
            }
            reached[r] |= unmarked;
            fresh[r] = unmarked;
            r -= 1;
        }
        for round in r as u32 + 1..=top {
            let set = u32::from(fresh[round as usize]);
            for step in members((set | set << 16) >> first & 0xffff) {
                places[count] = [block, round, (first + step as u32) & 15];
                count += 1;
            }
        }
    }
    Ok(count as u32)
}

pub fn critical(state: &[u32], table: &mut [u32], kept: &[u64], list: &mut [u32]) -> u64 {
    wide(try_critical(state, table, kept, list))
}

fn try_critical(state: &[u32], table: &[u32], kept: &[u64], list: &mut [u32]) -> Result<u32, u32> {
    let places = list.as_chunks_mut::<2>().0;
    if places.len() < PLACES {
        return Err(25);
    }
    let o = Owned::of(state, table, kept);
    check_time(&o.s)?;
    let support = check_votes(&o)?;
    let r = o.s.round();
    let mut count = 0;
    for (round, set) in [(r - 1, 1 << support.anchor), (r, support.pivotal())] {
        for author in members(set) {
            places[count] = [round, author as u32];
            count += 1;
        }
    }
    Ok(count as u32)
}

// --------------------------------------------------------------- reads ---

pub fn committee(state: &[u32], table: &[u32], kept: &[u64], round: u32, out: &mut [u32]) -> u32 {
    number(try_committee(&Owned::of(state, table, kept), round, out))
}

fn try_committee(o: &Owned, round: u32, out: &mut [u32]) -> Result<(), u32> {
    let out: &mut [u32; 16] = out.first_chunk_mut().ok_or(1u32)?;
    if !o.s.in_range(round) {
        return Err(5);
    }
    *out = o.committee(round)?.weights;
    Ok(())
}

pub fn share(state: &[u32], table: &[u32], kept: &[u64], member: u32, round: u32) -> u64 {
    wide(try_share(&Owned::of(state, table, kept), member, round))
}

fn try_share(o: &Owned, member: u32, round: u32) -> Result<u32, u32> {
    if member > 15 {
        return Err(4);
    }
    if !o.s.in_range(round) {
        return Err(5);
    }
    let committee = o.committee(round)?;
    let (weight, total) = (u64::from(committee.weights[member as usize]), u64::from(committee.total()));
    if weight == 0 {
        return Err(9);
    }
    let (share, rest) = (1_000 * weight / total, 1_000 * weight % total);
    let up = 2 * rest > total || 2 * rest == total && share % 2 == 1;
    Ok((share + u64::from(up)) as u32)
}

pub fn bond_effect(
    state: &[u32], table: &[u32], kept: &[u64], member: u32, round: u32, amount: u32, out: &mut [u32],
) -> u32 {
    number(try_effect(&Owned::of(state, table, kept), member, round, amount, out))
}

fn try_effect(o: &Owned, member: u32, round: u32, amount: u32, out: &mut [u32]) -> Result<(), u32> {
    let out: &mut [u32; EFFECT] = out.first_chunk_mut().ok_or(1u32)?;
    if member > 15 {
        return Err(4);
    }
    if !o.s.in_range(round) {
        return Err(5);
    }
    if amount.wrapping_sub(1) >= 1_000 {
        return Err(6);
    }
    let mut committee = o.committee(round)?;
    if committee.total() == 0 {
        return Err(30);
    }
    let before = committee.shares();
    committee.weights[member as usize] += amount;
    let after = committee.shares();
    out[32] = (0..16).map(|m| before[m].abs_diff(after[m])).fold(0, u32::max);
    out[..16].copy_from_slice(&before);
    out[16..32].copy_from_slice(&after);
    Ok(())
}

pub fn certificate(state: &[u32], table: &[u32], kept: &[u64], author: u32, round: u32, out: &mut [u32]) -> u32 {
    number(try_certificate(&Owned::of(state, table, kept).s, author, round, out))
}

fn try_certificate(s: &Survey, author: u32, round: u32, out: &mut [u32]) -> Result<(), u32> {
    let out: &mut [u32; 18] = out.first_chunk_mut().ok_or(1u32)?;
    if author > 15 {
        return Err(4);
    }
    if !s.in_range(round) {
        return Err(5);
    }
    if !s.has(author, round) {
        return Err(23);
    }
    let record = s.record(author, round);
    (out[0], out[1], out[2], out[3]) = (author, round, record[0], record[1]);
    out[4..16].copy_from_slice(&record[4..16]);
    clear_unused(&mut out[2..16]);
    (out[16], out[17]) = (record[3], record[2]);
    Ok(())
}

pub fn block(state: &[u32], table: &[u32], _: &[u64], number: u32) -> u64 {
    wide(match number == 0 || number > state[BLOCKS] {
        true => Err(23),
        false => Ok(table[ROW * number as usize + 2]),
    })
}

// --------------------------------------------------------------- ports ---

pub fn guest_port_read(guest: u32, state: &[u32], table: &mut [u32], kept: &[u64], offset: u32) -> u64 {
    wide(READ.check(state, guest).and_then(|()| try_port_read(state, table, kept, guest, offset)))
}

fn try_port_read(state: &[u32], table: &mut [u32], kept: &[u64], guest: u32, offset: u32) -> Result<u32, u32> {
    if offset >= OFFSETS {
        return Err(31);
    }
    let o = Owned::of(state, table, kept);
    let port = *port_of(&o.s.rows[0], guest);
    let is_divisor = port[LINE] & IS_DIVISOR != 0;
    let waits = || o.next_byte(table, &port).is_some();
    Ok(match offset {
        0 if is_divisor => port[DIVISOR_LOW],
        1 if is_divisor => port[DIVISOR_HIGH],
        0 => match o.next_byte(table, &port) {
            Some((place, byte)) => {
                let value = Listed::at(table, place).unwrap().byte(byte - 1);
                table[port_start(guest)..][..2].copy_from_slice(&[place, byte]);
                u32::from(value)
            }
            None => 0,
        },
        1 => port[ENABLE],
        2 if port[ENABLE] == 1 && waits() => 4,
        2 => 1,
        3 => port[LINE],
        4 => port[MODEM],
        5 => 0x60 + u32::from(waits()),
        6 => 0,
        _ => port[SCRATCH],
    })
}

pub fn guest_port_write(guest: u32, state: &[u32], table: &mut [u32], _: &[u64], offset: u32, value: u8) -> u32 {
    number(READ.check(state, guest).and_then(|()| try_port_write(table, guest, offset, value)))
}

fn try_port_write(table: &mut [u32], guest: u32, offset: u32, value: u8) -> Result<(), u32> {
    if offset >= OFFSETS {
        return Err(31);
    }
    let port = &mut table[port_start(guest)..][..8];
    let (value, is_divisor) = (u32::from(value), port[LINE] & IS_DIVISOR != 0);
    match offset {
        0 if is_divisor => port[DIVISOR_LOW] = value,
        1 if is_divisor => port[DIVISOR_HIGH] = value,
        1 => port[ENABLE] = value & 1,
        3 => port[LINE] = value,
        4 => port[MODEM] = value & 31,
        7 => port[SCRATCH] = value,
        _ => {}
    }
    Ok(())
}

impl Owned<'_> {
    fn next_byte(&self, table: &[u32], port: &Port) -> Option<(u32, u32)> {
        let (place, byte) = (port[PLACE], port[BYTE]);
        if place != 0 && byte < Listed::at(table, place)?.length() {
            return Some((place, byte + 1));
        }
        self.next_line(place).map(|place| (place, 1))
    }
    /// The place of the line after that of a place; of the first one after 0. A block's rounds are one span, and
    /// the next block begins in one of them or just above.
    fn next_line(&self, place: u32) -> Option<u32> {
        let s = &self.s;
        let mut block = 0;
        if place != 0 {
            let (author, round) = (place % 16, place / 16);
            block = s.record(author, round)[2];
            let first = u32::from(self.kept_at(s.block_round(block)).leader(s.block_round(block)));
            let steps = |member: u32| member.wrapping_sub(first) & 15;
            let later = members(s.in_block(block, round)).filter(|&member| steps(member as u32) > steps(author));
            if let Some(member) = later.min_by_key(|&member| steps(member as u32)) {
                return Some(16 * round + member as u32);
            }
            let above = (round + 1..=s.block_round(block)).find(|&round| s.in_block(block, round) != 0);
            if let Some(round) = above {
                return Some(self.first_of_row(block, round));
            }
        }
        if block == s.blocks() {
            return None;
        }
        let above = (1..=s.block_round(block + 1)).rev();
        let held = above.take_while(|&round| s.in_block(block + 1, round) != 0);
        held.last().map(|round| self.first_of_row(block + 1, round))
    }
    fn first_of_row(&self, block: u32, round: u32) -> u32 {
        let set = self.s.in_block(block, round);
        let first = u32::from(self.kept_at(self.s.block_round(block)).leader(self.s.block_round(block)));
        let turned = (set | set << 16) >> (first & 15) & 0xffff;
        16 * round + (first + turned.trailing_zeros()) % 16
    }
}
