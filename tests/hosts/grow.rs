//! What a stretch of calls starts from: a sheet, members grown by runs of the
//! reference, and changed words.

use crate::calls::*;
use crate::words::*;
use reference::*;

/// The shape of a stretch.
pub struct Plan {
    pub sheet: Sheet,
    pub ceiling: u32,
    /// The members that have engines.
    pub owns: Vec<u32>,
    /// The round up to which members are grown before; 0 for opened ones.
    pub grown: u32,
    pub calls: u32,
    /// In 1,000: how often words are changed, and the twin read again.
    pub changes: u32,
    pub rereads: u32,
    /// In 1,000: how often a grown member commits when it can, and how much
    /// of a previous set and of a round's authors it takes.
    commits: u32,
    thick: u32,
    full: u32,
    /// In 1,000: how often a grown member's transactions are about the
    /// contested, whom some authors of a round bond and others unbond.
    contests: u32,
    contested: u32,
    /// In 1,000: how often a guest of a grown member adds one more in a round, and
    /// how often it accesses its port.
    busy: u32,
    polls: u32,
}

fn any_lookback(rng: &mut Rng, ceiling: u32) -> u32 {
    match rng.below(8) {
        0 => 1,
        1 => 2,
        2 => 3,
        3 => rng.between(4, 8),
        4 => 20,
        5 => ceiling.min(1_000),
        6 => rng.between(1, ceiling.min(1_000)),
        _ => rng.pick(&[1, 5, 10, 1_000]),
    }
}

fn any_weights(rng: &mut Rng) -> [Setting; 16] {
    let most = rng.pick(&[1, 1, 2, 5, 1_000, 1_000_000]);
    let inside = rng.pick(&[200, 400, 600, 1_000]);
    let mut weights = [Setting::Blank; 16];
    for weight in &mut weights {
        if rng.chance(inside) {
            *weight = Setting::Written(rng.between(1, most));
        } else if rng.chance(500) {
            *weight = Setting::Written(0);
        }
    }
    if rng.chance(100) {
        weights = [Setting::Blank; 16];
    }
    weights[rng.below(16) as usize] = Setting::Written(1);
    weights
}

/// One margin for all members of a run.
fn any_margin(rng: &mut Rng) -> Setting {
    match rng.below(5) {
        0 => Setting::Blank,
        1 => Setting::Written(3),
        _ => Setting::Written(rng.between(4, 5)),
    }
}

/// Rights for nobody, all of them, one of one caller, all but one, or any.
pub fn any_rights(rng: &mut Rng) -> Rights {
    let one = 1 << rng.below(32);
    read_rights(match rng.below(10) {
        0 => 0,
        1..=3 => u32::MAX,
        4 => one,
        5 => !one,
        _ => rng.next() as u32,
    })
}

impl Plan {
    pub fn any(rng: &mut Rng) -> Plan {
        let ceiling = match rng.below(1_000) {
            0..=749 => rng.between(3, 16),
            750..=899 => rng.between(17, 40),
            900..=959 => 64,
            960..=984 => rng.pick(&[63, 128, 200, 255, 256]),
            _ => rng.pick(&[257, 512, 1_000, 1_023, 1_024, 1_024]),
        };
        let large = ceiling > 40;
        let sheet = Sheet {
            lookback: Setting::Written(any_lookback(rng, ceiling)),
            ceiling: if ceiling == 1_024 && rng.chance(500) {
                Setting::Blank
            } else {
                Setting::Written(ceiling)
            },
            allowance: if rng.chance(300) {
                Setting::Blank
            } else {
                Setting::Written(rng.between(0, 4))
            },
            weights: any_weights(rng),
            margin: any_margin(rng),
        };
        let weights = sheet.fill().expect("all in range").weights;
        let mut owns: Vec<u32> =
            (0..16).filter(|&m| weights[m as usize] > 0 || rng.chance(100)).collect();
        (1..owns.len()).rev().for_each(|i| owns.swap(i, rng.below(i as u64 + 1) as usize));
        owns.truncate(if large { 1 } else { rng.between(1, 4) as usize });
        let lookback = if rng.chance(100) { Setting::Blank } else { sheet.lookback };
        Plan {
            sheet: Sheet { lookback, ..sheet },
            ceiling,
            grown: if large || rng.chance(600) { rng.between(1, ceiling) } else { 0 },
            calls: if large { rng.between(50, 250) } else { rng.between(20, 60 + 20 * ceiling) },
            owns,
            changes: rng.pick(&[0, 50, 150, 300]),
            rereads: rng.pick(&[20, 100, 500]),
            commits: rng.pick(&[0, 50, 300, 700, 1_000]),
            thick: rng.pick(&[500, 800, 950, 1_000]),
            full: rng.pick(&[300, 700, 1_000, 1_000]),
            contests: rng.pick(&[0, 0, 300, 700]),
            contested: rng.between(0, 15),
            busy: rng.pick(&[0, 50, 200, 600]),
            // The listing of a large state is slow to tell.
            polls: if large { rng.pick(&[0, 0, 3]) } else { rng.pick(&[0, 20, 100, 400]) },
        }
    }

    /// An open of one of its members, with rights by chance: members of a run need
    /// not have the same.
    pub fn open(&self, rng: &mut Rng, own: u32) -> Member {
        let rights = any_rights(rng);
        Member::open_with(own, &self.sheet, &rights, self.ceiling).expect("a plan's sheet is fine")
    }

    fn transaction(&self, rng: &mut Rng) -> Transaction {
        if rng.chance(self.contests) {
            contest(rng, self.contested)
        } else {
            any_transaction(rng)
        }
    }
}

/// A bond or an unbond of a member.
fn contest(rng: &mut Rng, member: u32) -> Transaction {
    if rng.chance(500) {
        Transaction::Unbond { member }
    } else {
        Transaction::Bond { member, amount: rng.pick(&[1, 2, 5, 1_000]) }
    }
}

/// A propose, or a draw in its place; whether it was accepted.
fn proposes(rng: &mut Rng, member: &mut Member, p: &Proposal) -> bool {
    let answer = match rng.chance(500) {
        true => member.draw(p.previous),
        false => member.propose(p.previous, &p.transactions),
    };
    answer.is_ok()
}

/// Any queues and any guest served last: empty, full, or something between.
pub fn fill_queues(rng: &mut Rng, member: &mut Member) {
    let (some, most) = (rng.pick(&[200, 500, 1_000]), rng.pick(&[1, 2, 4, 7, 8, 8]));
    for queue in &mut member.queues {
        let least = if rng.chance(300) { most } else { 0 };
        let count = if rng.chance(some) { rng.between(least, most) } else { 0 };
        *queue = (0..count).map(|_| any_transaction(rng)).collect();
    }
    member.served = Some(rng.between(0, GUESTS)).filter(|&guest| guest < GUESTS);
}

/// Accesses of a guest that may read: writes to some registers, then bytes, one or
/// some of them, to the end of a line or to the end of all.
fn poll(rng: &mut Rng, member: &mut Member, guest: u32) {
    if may_ask(&member.rights, guest, Request::PortRead).is_err() {
        return;
    }
    let listing = member.listing();
    let port = &mut member.ports[guest as usize];
    for _ in 0..rng.below(4) {
        port.write_at(rng.between(0, OFFSETS - 1), some_value(rng));
    }
    if rng.chance(700) {
        port.write_at(3, port.line & !DIVISOR);
    }
    let rest = &listing[port.read..];
    let line = rest.iter().position(|&byte| byte == b'\n').map_or(0, |last| last + 1);
    let bytes = [1, rng.below(100) as usize, line, line + 1, rest.len()];
    for _ in 0..rng.pick(&bytes) {
        port.read_at(0, &listing);
    }
}

/// A certificate of the present round, made up to fit the member.
pub fn made_up(rng: &mut Rng, member: &Member, author: u32, plan: &Plan) -> Certificate {
    let round = member.round;
    let before = if round > 1 { member.held_authors(round - 1) } else { 0 };
    let thin = rng.thin(before, plan.thick);
    let previous = if thin == 0 { before } else { thin };
    let transactions = (0..rng.between(0, member.settings.allowance))
        .map(|_| plan.transaction(rng))
        .collect();
    let proposal = Proposal { author, round, previous, transactions };
    let committee = member.committee_of(round).expect("a grown member knows its round");
    Certificate { proposal, endorsers: some_quorum(rng, committee, author, member.settings.margin) }
}

/// Holds certificates of more authors of the present round until they are a
/// quorum: without one a member does not advance.
pub fn gather(rng: &mut Rng, member: &mut Member, committee: &Committee, plan: &Plan) {
    let mut authors: Vec<u32> = members_of(members_in(committee)).collect();
    while !member.is_quorum(member.held_authors(member.round), committee) {
        let author = authors.swap_remove(rng.below(authors.len() as u64) as usize);
        if !member.is_held(author, member.round) {
            let certificate = made_up(rng, member, author, plan);
            member.accept(&certificate).expect("it was made to fit");
        }
    }
}

/// Runs a member on to a round, with certificates made up to fit it.
pub fn grow(rng: &mut Rng, mut member: Member, to: u32, plan: &Plan) -> Member {
    loop {
        let round = member.round;
        let Some(&committee) = member.committee_of(round) else { break };
        let inside = members_in(&committee);
        if inside == 0 || round > 1 && member.held_authors(round - 1) == 0 {
            break;
        }
        for guest in 0..GUESTS {
            while rng.chance(plan.busy) && member.enqueue(guest, &plan.transaction(rng)).is_ok() {}
            if rng.chance(plan.polls) {
                poll(rng, &mut member, guest);
            }
        }
        for author in members_of(inside) {
            if !rng.chance(plan.full) {
                continue;
            }
            let Certificate { proposal, endorsers } = made_up(rng, &member, author, plan);
            // Its own goes the way of propose or draw and certify where it can.
            if author == member.own && rng.chance(800) && proposes(rng, &mut member, &proposal) {
                if rng.chance(900) {
                    member.certify(endorsers).expect("a quorum endorsed it");
                }
                continue;
            }
            if rng.chance(20) && member.endorse(&proposal).is_ok() {
                continue;
            }
            member.accept(&Certificate { proposal, endorsers }).expect("it was made to fit");
        }
        if rng.chance(plan.commits) {
            let _ = member.commit();
        }
        if round >= to {
            break;
        }
        gather(rng, &mut member, &committee, plan);
        if member.advance().is_err() {
            break;
        }
    }
    member
}

// --------------------------------------------------------------- changes ---

/// A place that is held, if there is one, near a place chosen by chance.
fn held_place(rng: &mut Rng, member: &Member) -> Option<(u32, u32)> {
    for _ in 0..20 {
        let round = rng.between(1, member.round.max(2).min(member.settings.ceiling));
        let held = member.held_authors(round);
        if held != 0 {
            let authors: Vec<u32> = members_of(held).collect();
            return Some((rng.pick(&authors), round));
        }
    }
    None
}

/// One bit, mostly a member's.
fn any_bit(rng: &mut Rng) -> u32 {
    let width = if rng.chance(900) { 16 } else { 32 };
    1 << rng.below(width)
}

/// Changes one word of a state or table, at a telling place or at any.
pub fn change_word(rng: &mut Rng, member: &Member, state: &mut [u32], table: &mut [u32]) {
    let (ceiling, blocks) = (member.settings.ceiling, member.chain.len() as u32);
    let near = if rng.chance(700) { member.round } else { ceiling };
    let row = ROW * rng.between(1, near) as usize;
    let record = held_place(rng, member).map(|(a, r)| ROW * r as usize + 16 + 16 * a as usize);
    let sort = rng.below(33);
    match (sort, record) {
        (0, _) => table[rng.below(table.len() as u64) as usize] = rng.word(),
        (1, _) => table[row] ^= 1 << rng.below(16),
        (2, _) => table[row] = rng.pick(&[0, 65_535, 65_536, 1 << 31, 0x1_0001]),
        (3, _) => table[row + 1] ^= any_bit(rng),
        (4, _) => table[row + 1] = rng.pick(&[0, 65_535, 65_536, u32::MAX]),
        (5, _) => {
            let word = &mut table[ROW * rng.between(1, (blocks + 1).min(ceiling)) as usize + 2];
            *word = match rng.below(6) {
                0 => word.wrapping_add(1),
                1 => word.wrapping_add(2),
                2 => word.wrapping_sub(2),
                3 => rng.pick(&[0, 1, ceiling, ceiling - 1, ceiling.wrapping_add(1)]),
                4 => 2 * rng.between(0, ceiling / 2 + 1),
                _ => rng.word(),
            };
        }
        (6, Some(at)) | (7, Some(at)) => table[at + 2] = rng.between(0, blocks + 1),
        (8, Some(at)) => table[at + 2] = rng.word(),
        (9, Some(at)) => table[at] ^= any_bit(rng),
        (10, Some(at)) => table[at] = rng.pick(&[0, 1, 65_535, 65_536]),
        (11, Some(at)) => table[at + 1] = rng.pick(&[0, 1, 2, 3, 4, 5, 6, u32::MAX]),
        (12, Some(at)) => table[at + 4 + 3 * rng.below(4) as usize] = rng.between(0, 3),
        (13, Some(at)) => {
            table[at + 5 + 3 * rng.below(4) as usize] = rng.pick(&[0, 3, 15, 16, u32::MAX])
        }
        (14, Some(at)) => {
            table[at + 6 + 3 * rng.below(4) as usize] = rng.pick(&[0, 1, 1_000, 1_001, u32::MAX])
        }
        (15, Some(at)) => table[at + 3] = rng.word(),
        (16, Some(at)) => table[at + 3] ^= any_bit(rng),
        (17, Some(at)) => {
            // All but the author, and at times one more.
            let author = 1 << ((at % ROW - 16) / 16);
            table[at + 3] = 0xffff & !author | rng.pick(&[0, 0, author, 1 << 16]);
        }
        (18, _) => table[row + 16 + 16 * rng.below(16) as usize + 3] = rng.word(),
        (19, _) => table[rng.below(ROW as u64) as usize] = rng.word(),
        (20, _) => table[row + 3 + rng.below(13) as usize] = rng.word(),
        (21..=25, _) => change_queue(rng, table),
        (26..=28, _) => change_port(rng, member, table),
        _ => change_state(rng, member, state),
    }
}

/// Changes words of a port: a register at its edges, or where it stands: a byte
/// beside, a certificate that is in a block, that is not, that is not held, that can
/// not be. Now and then any word.
pub fn change_port(rng: &mut Rng, member: &Member, table: &mut [u32]) {
    let ceiling = member.settings.ceiling;
    let words = &mut table[port_word(rng.between(0, GUESTS - 1), 0)..][..8];
    let (at, byte) = (rng.below(6) as usize, words[1]);
    let any_place = place_of(rng.between(1, ceiling), rng.between(0, 15));
    match rng.below(10) {
        0 | 1 => {
            let most = MOST_HELD[at];
            words[REGISTERS.start + at] = rng.pick(&[0, 1, most, most + 1, 256, u32::MAX]);
        }
        2 => words[1] = rng.pick(&[byte.wrapping_add(1), byte.wrapping_sub(1), 0, 1, 78, 79, u32::MAX]),
        3..=5 => {
            let lines = member.lines();
            let line = lines.get(rng.below(lines.len() as u64) as usize);
            let (place, length) =
                line.map_or((any_place, 9), |line| (place_of(line.round, line.author), line.bytes.len() as u32));
            let bytes = [1, rng.between(1, length), length, length, length + 1, 0];
            words[..2].copy_from_slice(&[place, rng.pick(&bytes)]);
        }
        6 => {
            let place = held_place(rng, member).map_or(any_place, |(author, round)| place_of(round, author));
            words[..2].copy_from_slice(&[place, rng.between(1, 9)]);
        }
        7 => words[..2].copy_from_slice(&[any_place, rng.pick(&[0, 1, 9])]),
        8 => {
            let above = place_of(ceiling + rng.between(1, 2), rng.between(0, 15));
            let places = [0, rng.between(1, 15), above, 1 << 16, 1 << 31, u32::MAX - 15, u32::MAX];
            words[..2].copy_from_slice(&[rng.pick(&places), rng.pick(&[0, 1, 9])]);
        }
        _ => words[rng.below(8) as usize] = rng.word(),
    }
}

/// No port has read anything.
pub fn start_over(table: &mut [u32]) {
    (0..GUESTS).for_each(|guest| table[port_word(guest, 0)..][..2].fill(0));
}

/// The last line of each block.
pub fn last_lines(member: &Member, lines: &[Line]) -> Vec<usize> {
    let block = |at: usize| {
        let line = lines.get(at)?;
        member.held_at(line.author, line.round).map(|held| held.block)
    };
    (0..lines.len()).filter(|&at| block(at) != block(at + 1)).collect()
}

/// Where the listing was changed: ports start over, and some are put at any byte of
/// what these words list now; at none where they are not well formed.
pub fn place_ports(rng: &mut Rng, state: &[u32], table: &mut [u32]) {
    start_over(table);
    let some = rng.pick(&[0, 0, 300, 1_000]);
    let Some(member) = read_member(state, table).filter(|_| some > 0) else { return };
    let lines = member.lines();
    if lines.is_empty() {
        return;
    }
    let last = last_lines(&member, &lines);
    for guest in 0..GUESTS {
        let any = rng.below(lines.len() as u64) as usize;
        let line = &lines[if rng.chance(500) { any } else { rng.pick(&last) }];
        let length = line.bytes.len() as u32;
        let bytes = [1, rng.between(1, length), length - 1, length, length];
        if rng.chance(some) {
            let words = [place_of(line.round, line.author), rng.pick(&bytes)];
            table[port_word(guest, 0)..][..2].copy_from_slice(&words);
        }
    }
}

/// Changes a word of row 0, at a telling place or at any.
pub fn change_queue(rng: &mut Rng, table: &mut [u32]) {
    let guest = rng.between(0, GUESTS - 1);
    let count = table[waiting_word(guest)];
    // Mostly a place of something that waits, at times any, or the one behind.
    let place = match rng.below(4) {
        0 => rng.below(QUEUE as u64) as usize,
        1 => count.min(7) as usize,
        _ => rng.below(u64::from(count.min(8))) as usize,
    };
    let at = queue_place(guest, place);
    let (at, value) = match rng.below(10) {
        0 | 1 => (SERVED, rng.pick(&[0, 1, 2, 7, 8, 8, 9, u32::MAX])),
        2 => (waiting_word(guest), rng.pick(&[0, 1, 7, 8, 9, u32::MAX])),
        3 => (waiting_word(guest), count.wrapping_add(1)),
        4 => (waiting_word(guest), count.wrapping_sub(1)),
        5 => (at, rng.between(0, 3)),
        6 => (at + 1, rng.pick(&[0, 15, 16, u32::MAX])),
        7 => (at + 2, rng.pick(&[0, 1, 1_000, 1_001, u32::MAX])),
        8 => (rng.below(ROW as u64) as usize, rng.word()),
        // Words that are kept for later.
        _ => (rng.between(9, 15) as usize, rng.word()),
    };
    table[at] = value;
}

/// A chain that no run makes, on the certificates that are held: any even,
/// rising block rounds; marks in any rows, far below a block or above it; few
/// members bonded and unbonded by many authors, so that committees are empty
/// now and then; a short lookback; any margin; ports at any byte of it. Such a
/// state is well formed.
pub fn make_up_chain(rng: &mut Rng, member: &Member, state: &mut [u32], table: &mut [u32]) {
    let settings = &member.settings;
    let ceiling = settings.ceiling;
    let round = rng.between(1, ceiling);
    let top = if rng.chance(700) { round.saturating_sub(2) } else { ceiling };
    let (some, mut blocks) = (rng.pick(&[100, 400, 900, 1_000]), 0);
    for block_round in (2..ceiling).step_by(2) {
        if block_round <= top && rng.chance(some) {
            blocks += 1;
            table[ROW * blocks + 2] = block_round;
        }
    }
    state[1] = rng.pick(&[1, 1, 2, 3, 4, 7, 20]);
    state[3] = settings.allowance.max(rng.between(1, 4));
    state[20] = round;
    state[21] = 0;
    state[22] = blocks as u32;
    state[MARGIN] = rng.between(3, 5);
    let few: Vec<u32> = (0..rng.pick(&[1, 1, 2, 3])).map(|_| rng.between(0, 15)).collect();
    if rng.chance(700) {
        state[4..20].fill(0);
        state[4 + rng.pick(&few) as usize] = 1;
    }
    let (marked, contests) = (rng.pick(&[300, 900, 1_000]), rng.pick(&[0, 300, 800, 1_000]));
    let spread = rng.below(3);
    for row in 1..=ceiling {
        for author in members_of(member.held_authors(row)) {
            let record = &mut table[ROW * row as usize + 16 + 16 * author as usize..][..16];
            record[2] = match spread {
                _ if blocks == 0 || !rng.chance(marked) => 0,
                0 => rng.between(1, blocks as u32),
                1 => (row / 2 + rng.between(0, 2)).clamp(1, blocks as u32),
                _ => rng.pick(&[1, blocks as u32]),
            };
            if rng.chance(contests) {
                record[1] = rng.between(1, state[3]);
                for k in 0..record[1] as usize {
                    let member = rng.pick(&few);
                    let transaction = contest(rng, member);
                    record[4 + 3 * k..7 + 3 * k].copy_from_slice(&transaction_words(&transaction));
                }
            }
        }
    }
    place_ports(rng, state, table);
}

fn change_state(rng: &mut Rng, member: &Member, state: &mut [u32]) {
    let settings = &member.settings;
    let (at, value) = match rng.below(22) {
        0 => (0, rng.between(0, 16)),
        1 => (1, rng.pick(&[0, 1, 2, 3, 1_000, 1_001])),
        2 => (1, rng.between(1, settings.ceiling.min(1_000))),
        3 => (2, rng.pick(&[2, 3, settings.ceiling - 1, settings.ceiling + 1, 1_024, 1_025])),
        4 => (3, rng.between(0, 5)),
        5 => (4 + rng.below(16) as usize, rng.pick(&[0, 1, 5, 1_000_000, 1_000_001, u32::MAX])),
        6 | 7 | 8 => (20, rng.between(1, settings.ceiling)),
        9 => (20, rng.pick(&[0, settings.ceiling, settings.ceiling + 1])),
        10 => (21, rng.between(0, 2)),
        11 => (22, (member.chain.len() as u32 + rng.between(0, 2)).saturating_sub(1)),
        12 => (22, rng.word()),
        13 => (23, rng.pick(&[0, 1, 65_535, 65_536])),
        14 => (24, rng.between(0, 5)),
        15 | 16 => (MARGIN, rng.between(3, 5)),
        17 => (MARGIN, rng.pick(&[0, 1, 2, 6, 7, 1 << 16 | 3, u32::MAX])),
        18 => (MARGIN, rng.word()),
        19 | 20 => (RIGHTS, rights_word(&any_rights(rng))),
        _ => (rng.below(state.len() as u64) as usize, rng.word()),
    };
    state[at] = value;
}
