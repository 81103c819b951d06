//! What each call and read costs: the engine (libhost.a), plain Rust
//! (plain.rs) and a floor. `bench [quick]` prints Markdown. Built with another
//! archive, that stands in plain's place (run.sh), and the tables by call show
//! the best time of each beside the median; where it is of before queues, previews,
//! lists of what a commit hangs on, guests' calls, what a bond does to the shares or
//! ports, these are left out, and a call that the two answer differently is not timed.
//!
//! States. Sixteen members; every certificate has four transactions (entries,
//! bonds, unbonds that are bonded again at once, so that all stay inside) and
//! names all certificates of the round before. They are made by a real run:
//! own certificates by propose and certify, others by accept, a commit in
//! each odd round. "Full" holds all rounds up to the ceiling, "half" up to
//! half of it. Two places of the present round are left free, one's own and
//! member 15's, for the calls that fill a place; the other fourteen are a
//! quorum, so that an advance is accepted. The present round is the one
//! before the last that is held, which is odd, so that a commit can be made;
//! in an empty state it is 1, and 3 for commit. The margin is 3.
//!
//! An advance on an empty state is refused with 28, since nothing is held.
//! "Advance, thin round" leaves three certificates in the present round, which
//! are no quorum: refused with 28 too, once the committee is worked out.
//!
//! Calls that change something are undone after each call by writing back the
//! few words that they changed; that is part of the time, and takes some
//! nanoseconds. An undone record stays written: no state has it any more.
//! A commit may change a mark in every record: its calls are timed one by
//! one, and undone between the times from a list of the words that it
//! changes. Nothing is copied within a time.
//!
//! Calls go round several states of the same shape with other transactions
//! (sixteen of ceiling 64, four of 256, one of 1,024), so that no small state
//! is learnt by heart by the processor.
//!
//! Every answer is compared with what is expected. Times are medians of
//! batches; engine, plain and floor take turns, batch by batch.
//!
//! A batch is compared with single accepts. Everything below the last four
//! rounds is held and nothing above, and the sixteen certificates of each of
//! the four come in: newest first in one batch, or by 64 accepts in order.
//!
//! Queues are empty but for enqueue, which adds a fourth transaction to a queue,
//! draw, which draws one of each of four guests, and the table of queues. The
//! places of a queue all have the same transaction, so that what moves up when
//! one leaves changes no word, and counts are all there is to undo.
//!
//! A preview of commit is asked for in the states of commit, into a list of 16
//! places for each round of the ceiling. "Copy, commit, list" is what a host does
//! without it: it copies state and table, commits on the copy, and lists the new
//! blocks there in one pass over the rows. There is nothing to undo after either.
//!
//! What a commit hangs on is asked for in the states of commit too. A commit's
//! checks alone are timed by "commit, a vote short": of the certificates of the
//! present round as many are taken away, the highest author first, as make the
//! votes too few. It is refused with 22, all checks made and nothing done.
//!
//! What a bond does to the shares is read of the present round, as committee and
//! share are: a bond of 7 by member 3.
//!
//! A port is read inside a line, behind its first byte; at a line's end, where the
//! next line is looked for; and polled, offset 5, at the very end of the listing. A
//! write is one to the scratch register. In all other rows no port is in use; the
//! table of ports has every other call with none and with eight in use, each
//! standing inside a line.
//!
//! A guest's call is asked for in the same states as the host's own, by a caller
//! who has its right: the two differ in the test of the right alone. A caller who
//! lacks it is refused with 29 before anything else is looked at.
//!
//! The floor is one pass that reads the state, the headers of all rows and
//! the records of held certificates, and adds them up. For open it is one
//! pass that writes 0 to the table.

#[path = "host.rs"]
#[cfg(not(plain))]
mod engine;
#[path = "plain.rs"]
#[cfg(plain)]
mod engine;
#[cfg(not(other))]
mod plain;
#[path = "../target/bench/other.rs"]
#[cfg(other)]
mod plain;

use std::hint::black_box;
use std::time::{Duration, Instant};

const ROW: usize = 272;
const STATE_WORDS: usize = 39;
/// The words of a state that have its margin and its rights.
const MARGIN: usize = 37;
const RIGHTS: usize = 38;

/// The functions of one implementation.
struct Functions {
    open: fn(&mut [u32], &mut [u32], u32, &[u32], u32) -> u32,
    propose: fn(&mut [u32], &[u32], &[u32]) -> u32,
    endorse: fn(&[u32], &mut [u32], &[u32]) -> u32,
    certify: fn(&[u32], &mut [u32], u32) -> u32,
    accept: fn(&[u32], &mut [u32], &[u32]) -> u32,
    advance: fn(&mut [u32], &[u32]) -> u32,
    commit: fn(&mut [u32], &mut [u32]) -> u64,
    preview: fn(&[u32], &[u32], &mut [u32]) -> u64,
    critical: fn(&[u32], &mut [u32], &mut [u32]) -> u64,
    batch: fn(&[u32], &mut [u32], &[[u32; 17]], &mut [u32]) -> u32,
    enqueue: fn(&[u32], &mut [u32], u32, &[u32]) -> u32,
    draw: fn(&mut [u32], &mut [u32], u32) -> u32,
    committee: fn(&[u32], &[u32], u32, &mut [u32]) -> u32,
    share: fn(&[u32], &[u32], u32, u32) -> u64,
    bond_effect: fn(&[u32], &[u32], u32, u32, u32, &mut [u32]) -> u32,
    certificate: fn(&[u32], &[u32], u32, u32, &mut [u32]) -> u32,
    block: fn(&[u32], &[u32], u32) -> u64,
    guest_advance: fn(u32, &mut [u32], &[u32]) -> u32,
    guest_commit: fn(u32, &mut [u32], &mut [u32]) -> u64,
    guest_block: fn(u32, &[u32], &[u32], u32) -> u64,
    guest_port_read: fn(u32, &[u32], &mut [u32], u32) -> u64,
    guest_port_write: fn(u32, &[u32], &mut [u32], u32, u8) -> u32,
}

macro_rules! functions {
    ($module:ident) => {
        Functions {
            open: $module::open,
            propose: $module::propose,
            endorse: $module::endorse,
            certify: $module::certify,
            accept: $module::accept,
            advance: $module::advance,
            commit: $module::commit,
            preview: $module::preview,
            critical: $module::critical,
            batch: $module::batch,
            enqueue: $module::enqueue,
            draw: $module::draw,
            committee: $module::committee,
            share: $module::share,
            bond_effect: $module::bond_effect,
            certificate: $module::certificate,
            block: $module::block,
            guest_advance: $module::guest_advance,
            guest_commit: $module::guest_commit,
            guest_block: $module::guest_block,
            guest_port_read: $module::guest_port_read,
            guest_port_write: $module::guest_port_write,
        }
    };
}

const ENGINE: Functions = functions!(engine);
const PLAIN: Functions = functions!(plain);

// ---------------------------------------------------------------- states ---

/// A table whose records start at cache lines.
#[derive(Clone, Copy)]
#[repr(C, align(64))]
struct Line([u32; 16]);

/// The words of lines.
fn words_of(lines: &mut [Line]) -> &mut [u32] {
    let words = lines.len() * 16;
    // SAFETY: a line is sixteen words and nothing else.
    unsafe { std::slice::from_raw_parts_mut(lines.as_mut_ptr().cast(), words) }
}

#[derive(Clone)]
struct Member {
    state: [u32; STATE_WORDS],
    lines: Vec<Line>,
    random: u64,
}

const OWN: u32 = 0;
const FREE: u32 = 15;

/// Whether both implementations have queues.
const QUEUES: bool = cfg!(not(before_queues));
/// Whether both implementations have previews.
const PREVIEWS: bool = cfg!(not(before_previews));
/// Whether both implementations tell what a commit hangs on.
const CRITICAL: bool = cfg!(not(before_critical));
/// Whether both implementations have guests' calls.
const GUESTS: bool = cfg!(not(before_guests));
/// Whether both implementations tell what a bond does to the shares.
const EFFECTS: bool = cfg!(not(before_effects));
/// Whether both implementations have ports.
const PORTS: bool = cfg!(not(before_ports));
/// All rights for callers 0 to 6, none for caller 7.
const GIVEN: u32 = 0x7f7f_7f7f;
const CALLER: u32 = 3;
const LACKING: u32 = 7;
/// How many wait for each guest: for most calls, for an enqueue to guest 2 and
/// for a draw of one of each of four guests.
const NOBODY: Waiting = [0; 8];
const THREE: Waiting = [0, 0, 3, 0, 0, 0, 0, 0];
const FOUR: Waiting = [0, 2, 0, 2, 2, 0, 0, 2];
type Waiting = [u32; 8];

impl Member {
    fn open(ceiling: u32, lookback: u32, seed: u64) -> Member {
        let lines = vec![Line([0; 16]); ROW * (ceiling as usize + 1) / 16];
        let mut member = Member { state: [0; STATE_WORDS], lines, random: seed };
        // An archive of before there was a margin leaves its word as it is, one of
        // before there were rights theirs.
        (member.state[MARGIN], member.state[RIGHTS]) = (3, GIVEN);
        let answer = with(&mut member, |s, t| plain::open(s, t, OWN, &sheet(ceiling, lookback), GIVEN));
        assert_eq!(answer, 0);
        member
    }

    fn table(&mut self) -> &mut [u32] {
        words_of(&mut self.lines)
    }

    fn below(&mut self, n: u32) -> u32 {
        self.random =
            self.random.wrapping_mul(0x5851_f42d_4c95_7f2d).wrapping_add(0x1405_7b7e_f767_814f);
        (self.random >> 33) as u32 % n
    }

    fn held(&mut self, round: u32) -> u32 {
        self.table()[ROW * round as usize]
    }

    /// Counts of waiting transactions; every place of a queue has the same one.
    fn wait(&mut self, waiting: &Waiting) {
        for guest in 0..8 {
            let places = &mut self.table()[24 + 32 * guest..48 + 32 * guest];
            places.chunks_exact_mut(3).for_each(|place| place.copy_from_slice(&[2, guest as u32, 0]));
        }
        self.table()[1..9].copy_from_slice(waiting);
    }

    fn held_in_all(&mut self) -> u32 {
        (1..=self.state[2]).map(|r| self.held(r).count_ones()).sum()
    }

    /// A proposal of a round: author, round, body.
    fn proposal(&mut self, author: u32, round: u32) -> [u32; 16] {
        let mut words = [0; 16];
        let previous = if round == 1 { 0 } else { self.held(round - 1) };
        words[..4].copy_from_slice(&[author, round, previous, 4]);
        for k in 0..4 {
            let transaction = match self.below(4) {
                0 => [0, self.below(16), 1 + self.below(10)],
                _ => [2, self.below(1 << 20), 0],
            };
            words[4 + 3 * k..7 + 3 * k].copy_from_slice(&transaction);
        }
        if self.below(8) == 0 {
            let m = self.below(16);
            words[10..16].copy_from_slice(&[1, m, 0, 0, m, 1 + self.below(10)]);
        }
        words
    }

    fn certificate(&mut self, author: u32, round: u32) -> [u32; 17] {
        let mut words = [0; 17];
        words[..16].copy_from_slice(&self.proposal(author, round));
        words[16] = 0xffff & !(1 << author);
        words
    }

    /// A certificate that names all of the round before, held or not.
    fn naming_all(&mut self, author: u32, round: u32) -> [u32; 17] {
        let mut words = self.certificate(author, round);
        words[2] = 0xffff;
        words
    }

    /// Holds the certificates of a round, but for those in `free`.
    fn fill(&mut self, round: u32, free: &[u32]) {
        for author in (0..16).filter(|a| !free.contains(a)) {
            let words = self.certificate(author, round);
            let own = author == OWN && self.state[20] == round;
            let answer = with(self, |s, t| match own {
                true => plain::propose(s, t, &words[2..]) + plain::certify(s, t, words[16]),
                false => plain::accept(s, t, &words),
            });
            assert_eq!(answer, 0);
        }
    }

    /// Takes certificates of the present round away, the highest author first, until
    /// a commit is refused for its votes. The answer is what it held just before.
    fn take_votes(&mut self) -> u32 {
        let row = ROW * self.state[20] as usize;
        loop {
            let held = self.table()[row];
            self.table()[row] = held & !(1 << held.ilog2());
            let answer = with(&mut self.clone(), |s, t| plain::commit(s, t));
            if answer >> 32 != 0 {
                assert_eq!(answer >> 32, 22);
                return held;
            }
        }
    }

    /// Puts the certificates of the present round and the one before into block 1,
    /// as no run does.
    fn mark_two_rounds(&mut self) {
        for r in [self.state[20] - 1, self.state[20]] {
            let row = &mut self.table()[ROW * r as usize..][..ROW];
            (0..16).for_each(|author| row[16 + 16 * author + 2] = 1);
        }
    }

    /// A guest's port stands at a byte of a certificate's line.
    fn stand(&mut self, guest: u32, place: u32, byte: u32) {
        self.table()[port(guest)..][..2].copy_from_slice(&[place, byte]);
    }

    /// The caller's port has read the line of a place to its end. The answer is
    /// whether a byte waits then.
    fn read_line(&mut self, place: u32) -> bool {
        self.stand(CALLER, place, 1);
        loop {
            let status = with(self, |s, t| plain::guest_port_read(CALLER, s, t, STATUS));
            let byte = self.table()[port(CALLER) + 1];
            with(self, |s, t| plain::guest_port_read(CALLER, s, t, DATA));
            if self.table()[port(CALLER)] != place || status & 1 == 0 {
                self.stand(CALLER, place, byte);
                return status & 1 == 1;
            }
        }
    }

    /// The place of the last line: the last block's only certificate of its own round.
    fn last_place(&mut self) -> u32 {
        let blocks = self.state[22];
        let round = self.table()[ROW * blocks as usize + 2];
        let row = &self.table()[ROW * round as usize..][..ROW];
        let last = (0..16).find(|a| row[0] >> a & 1 == 1 && row[16 + 16 * *a as usize + 2] == blocks);
        16 * round + last.unwrap()
    }

    /// All eight ports are in use, and stand inside lines of rounds that are spread
    /// over those in blocks.
    fn with_ports(mut self) -> Member {
        let last = self.last_place() / 16;
        for guest in 0..8 {
            self.stand(guest, 16 * (1 + guest * (last - 1) / 8) + guest + 3, 5);
            self.table()[port(guest) + 2..][..6].copy_from_slice(&[1, 3, 11, 0xa5, 12, 0]);
        }
        self
    }

    /// The next round, with a commit before where one can be made.
    fn go_on(&mut self, commit: bool) {
        if self.state[20] % 2 == 1 && self.state[20] > 1 && commit {
            assert!(with(self, |s, t| plain::commit(s, t)) >> 32 == 0);
        }
        assert_eq!(with(self, |s, t| plain::advance(s, t)), 0);
    }

    /// A run to the given number of rounds. `commits` says in which odd
    /// rounds a commit is made.
    fn run(
        ceiling: u32,
        lookback: u32,
        rounds: u32,
        seed: u64,
        commits: impl Fn(u32) -> bool,
    ) -> Member {
        let mut member = Member::open(ceiling, lookback, seed);
        for r in 1..rounds {
            let present = r == rounds - 1;
            member.fill(r, if present { &[OWN, FREE] } else { &[] });
            if present {
                member.fill(rounds, &[]);
                break;
            }
            member.go_on(commits(r));
        }
        member
    }
}

/// A use of state and table together.
fn with<T>(member: &mut Member, f: impl FnOnce(&mut [u32], &mut [u32]) -> T) -> T {
    let mut state = member.state;
    let answer = f(&mut state, member.table());
    member.state = state;
    answer
}

fn sheet(ceiling: u32, lookback: u32) -> [u32; 40] {
    let mut words = [1; 40];
    (words[1], words[3], words[5], words[39]) = (lookback, ceiling, 4, 3);
    (3..19).for_each(|k| words[2 * k + 1] = 100 + k as u32);
    words
}

// ----------------------------------------------------------------- floor ---

/// Reads what every call must read, and adds it up.
#[inline(never)]
fn floor(state: &[u32], table: &[u32]) -> u32 {
    let mut sums = [0u64; 8];
    let mut heads = state[..STATE_WORDS].iter().fold(0u32, |sum, w| sum.wrapping_add(*w));
    for row in table.as_chunks::<ROW>().0[..state[2] as usize + 1].iter().skip(1) {
        heads = heads.wrapping_add(row[0]).wrapping_add(row[1]).wrapping_add(row[2]);
        let records = &row.as_chunks::<16>().0[1..];
        let mut held = row[0];
        while held != 0 {
            let record = &records[held.trailing_zeros() as usize & 15];
            held &= held - 1;
            // SAFETY: a record is sixteen words, which are eight pairs.
            let pairs = unsafe { record.as_ptr().cast::<[u64; 8]>().read_unaligned() };
            (0..8).for_each(|k| sums[k] = sums[k].wrapping_add(pairs[k]));
        }
    }
    sums.iter().fold(heads, |sum, w| sum.wrapping_add(*w as u32))
}

#[inline(never)]
fn floor_of_open(table: &mut [u32]) {
    table.fill(0);
    black_box(table);
}

// --------------------------------------------------------------- listing ---

/// Of a block that is listed: where its next certificate goes, and the author of
/// its anchor.
#[derive(Clone, Copy, Default)]
struct Room {
    next: u32,
    first: u32,
}

/// The certificates of the blocks above a number as a host lists them, from the
/// words of a state that it knows to be well formed: block by block, rounds
/// rising, in each round from the author of the anchor. The answer is how many.
fn list_new_blocks(state: &[u32], table: &[u32], above: u32, list: &mut [[u32; 3]]) -> usize {
    let rows = &table.as_chunks::<ROW>().0[..state[2] as usize + 1];
    let blocks = state[22] as usize;
    let (mut rooms, mut found) = ([Room::default(); 513], Vec::with_capacity(2 * rows.len()));
    for (round, row) in (0..).zip(rows).take(rows[blocks][2] as usize + 1).skip(1) {
        let records = &row.as_chunks::<16>().0[1..];
        let those = |set: u32, is: &dyn Fn(u32) -> bool| {
            (0..16).filter(|a| set >> a & 1 == 1 && is(records[*a][2])).fold(0, |set, a| set | 1 << a)
        };
        let mut left: u32 = those(row[0], &|mark| mark > above);
        while left != 0 {
            let block = records[left.trailing_zeros() as usize & 15][2];
            let set = those(left, &|mark| mark == block);
            left &= !set;
            rooms[block as usize].next += set.count_ones();
            if rows[block as usize][2] == round {
                rooms[block as usize].first = set.trailing_zeros();
            }
            found.push((block, round, set));
        }
    }
    let mut count = 0;
    for room in &mut rooms[above as usize + 1..=blocks] {
        let certificates = std::mem::replace(&mut room.next, count);
        count += certificates;
    }
    for (block, round, set) in found {
        let room = &mut rooms[block as usize];
        let mut turned = (set | set << 16) >> room.first & 0xffff;
        while turned != 0 {
            let author = (room.first + turned.trailing_zeros()) & 15;
            turned &= turned - 1;
            list[room.next as usize] = [block, round, author];
            room.next += 1;
        }
    }
    count as usize
}

// ------------------------------------------------------------------ jobs ---

#[derive(Clone, Copy, PartialEq)]
enum Job {
    Open,
    Propose,
    Endorse,
    Certify,
    Accept,
    Advance,
    AdvanceThin,
    Commit,
    CommitMany,
    CommitShort,
    Preview,
    PreviewMany,
    Copy,
    CopyMany,
    Critical,
    Enqueue,
    Draw,
    Committee,
    Share,
    Effect,
    Certificate,
    Block,
    /// By this caller.
    GuestAdvance(u32),
    GuestCommit(u32),
    GuestBlock(u32),
    /// Inside a line, at a line's end.
    PortRead,
    PortReadEnd,
    /// At the end of the listing.
    PortPoll,
    PortWrite,
}

/// Jobs, and how many transactions wait for each guest in their states.
const JOBS: [(Job, &str, Waiting); 24] = [
    (Job::Open, "open", NOBODY),
    (Job::Propose, "propose", NOBODY),
    (Job::Endorse, "endorse", NOBODY),
    (Job::Certify, "certify", NOBODY),
    (Job::Accept, "accept", NOBODY),
    (Job::Advance, "advance", NOBODY),
    (Job::AdvanceThin, "advance, thin round", NOBODY),
    (Job::Commit, "commit, one block", NOBODY),
    (Job::CommitMany, "commit, many blocks", NOBODY),
    (Job::CommitShort, "commit, a vote short", NOBODY),
    (Job::Critical, "critical", NOBODY),
    (Job::Preview, "preview, one block", NOBODY),
    (Job::PreviewMany, "preview, many blocks", NOBODY),
    (Job::Enqueue, "enqueue", THREE),
    (Job::Draw, "draw of 4", FOUR),
    (Job::Committee, "read committee", NOBODY),
    (Job::Share, "read share", NOBODY),
    (Job::Effect, "bond effect", NOBODY),
    (Job::Certificate, "read certificate", NOBODY),
    (Job::Block, "read block", NOBODY),
    (Job::PortRead, "port read in a line", NOBODY),
    (Job::PortReadEnd, "port read at a line's end", NOBODY),
    (Job::PortPoll, "port poll at the end", NOBODY),
    (Job::PortWrite, "port write", NOBODY),
];

/// Those that both implementations have.
fn jobs() -> impl Iterator<Item = (Job, &'static str, Waiting)> {
    JOBS.into_iter().filter(|(job, ..)| match job {
        Job::Enqueue | Job::Draw => QUEUES,
        Job::Preview | Job::PreviewMany => PREVIEWS,
        Job::Critical => CRITICAL,
        Job::Effect => EFFECTS,
        job if job.is_access() => PORTS,
        _ => true,
    })
}

impl Job {
    fn is_access(self) -> bool {
        matches!(self, Job::PortRead | Job::PortReadEnd | Job::PortPoll | Job::PortWrite)
    }
}

/// The guest of an enqueue.
const GUEST: u32 = 2;
/// What a thin round holds of its sixteen.
const THIN: u32 = 0b1110;
/// Offsets of a port.
const DATA: u32 = 0;
const STATUS: u32 = 5;
const SCRATCH: u32 = 7;

/// Where the words of a guest's port begin.
fn port(guest: u32) -> usize {
    16 + 32 * guest as usize
}

/// A state and a call on it that can be made again and again.
struct Case {
    job: Job,
    member: Member,
    argument: [u32; 17],
    out: [u32; 33],
    /// The list of a preview or of what a commit hangs on, and room for a copy of
    /// the table.
    list: Vec<u32>,
    copy: Vec<Line>,
    waiting: Waiting,
    /// Words of the table that a commit or an access to a port changes, as they were.
    undo: Vec<(usize, u32)>,
    /// The answer: value below, refusal above.
    expected: u64,
}

impl Case {
    fn of(job: Job, mut member: Member, waiting: Waiting) -> Case {
        let r = member.state[20];
        let empty = member.held(1) == 0;
        let argument = match job {
            Job::Propose | Job::Certify => member.certificate(OWN, r),
            _ => member.certificate(FREE, r),
        };
        if waiting != NOBODY {
            member.wait(&waiting);
        }
        if job == Job::Certify {
            assert_eq!(with(&mut member, |s, t| plain::propose(s, t, &argument[2..])), 0);
        }
        if job == Job::AdvanceThin {
            member.table()[ROW * r as usize] &= THIN;
        }
        let is_commit = matches!(job, Job::Commit | Job::CommitMany | Job::CommitShort | Job::Critical | Job::GuestCommit(_));
        let (copies, previews) = (matches!(job, Job::Copy | Job::CopyMany), matches!(job, Job::Preview | Job::PreviewMany));
        if (is_commit || copies || previews) && empty {
            member.state[20] = 3;
        }
        if job == Job::CommitShort && !empty {
            member.take_votes();
        }
        // A certificate of a round in blocks, in the middle of the run.
        let place = 16 * (r / 2) + 7;
        match job {
            _ if empty => {}
            Job::PortRead => member.stand(CALLER, place, 1),
            Job::PortReadEnd => assert!(member.read_line(place)),
            Job::PortPoll => {
                let last = member.last_place();
                assert!(!member.read_line(last));
            }
            _ => {}
        }
        let (out, undo) = ([0; 33], Vec::new());
        let list = vec![0; match job {
            Job::Critical => 64,
            _ if copies || previews => 48 * member.state[2] as usize,
            _ => 0,
        }];
        let copy = if copies { member.lines.clone() } else { Vec::new() };
        let mut case = Case { job, member, argument, out, list, copy, waiting, undo, expected: 0 };
        let before = case.member.clone();
        case.expected = case.call(&PLAIN);
        if cfg!(not(other)) && matches!(job, Job::Advance | Job::AdvanceThin) {
            let thin = job == Job::AdvanceThin || empty;
            assert_eq!(case.expected >> 32, if thin { 28 } else { 0 });
        }
        let old = before.lines.iter().flat_map(|line| line.0).enumerate();
        let changed = old.zip(case.member.table().iter()).filter(|((_, old), new)| old != *new);
        case.undo = changed.map(|(old, _)| old).collect();
        case.member = before;
        case
    }

    /// The call alone.
    #[inline(always)]
    fn call(&mut self, f: &Functions) -> u64 {
        let r = self.member.state[20];
        let state = &mut self.member.state;
        let table = words_of(&mut self.member.lines);
        let refusal = |number: u32| u64::from(number) << 32;
        let argument = &self.argument;
        match self.job {
            Job::Open => {
                let sheet = sheet(state[2], state[1]);
                refusal((f.open)(state, table, OWN, &sheet, GIVEN))
            }
            Job::Propose => refusal((f.propose)(state, table, &argument[2..16])),
            Job::Endorse => refusal((f.endorse)(state, table, &argument[..16])),
            Job::Certify => refusal((f.certify)(state, table, 0xfffe)),
            Job::Accept => refusal((f.accept)(state, table, argument)),
            Job::Advance | Job::AdvanceThin => refusal((f.advance)(state, table)),
            Job::Commit | Job::CommitMany | Job::CommitShort => (f.commit)(state, table),
            Job::Critical => (f.critical)(state, table, &mut self.list),
            Job::Preview | Job::PreviewMany => (f.preview)(state, table, &mut self.list),
            Job::Copy | Job::CopyMany => {
                let (mut state_copy, copy) = (*state, words_of(&mut self.copy));
                copy.copy_from_slice(table);
                match (f.commit)(&mut state_copy, copy) {
                    refused if refused >> 32 > 0 => refused,
                    _ => list_new_blocks(&state_copy, copy, state[22], self.list.as_chunks_mut::<3>().0) as u64,
                }
            }
            Job::Enqueue => refusal((f.enqueue)(state, table, GUEST, &[2, GUEST, 0])),
            Job::Draw => refusal((f.draw)(state, table, argument[2])),
            Job::Committee => refusal((f.committee)(state, table, r, &mut self.out)),
            Job::Share => (f.share)(state, table, 3, r),
            Job::Effect => refusal((f.bond_effect)(state, table, 3, r, 7, &mut self.out)),
            Job::Certificate => refusal((f.certificate)(state, table, 7, r, &mut self.out)),
            Job::Block => (f.block)(state, table, state[22]),
            Job::GuestAdvance(caller) => refusal((f.guest_advance)(caller, state, table)),
            Job::GuestCommit(caller) => (f.guest_commit)(caller, state, table),
            Job::GuestBlock(caller) => (f.guest_block)(caller, state, table, state[22]),
            Job::PortRead | Job::PortReadEnd => (f.guest_port_read)(CALLER, state, table, DATA),
            Job::PortPoll => (f.guest_port_read)(CALLER, state, table, STATUS),
            Job::PortWrite => refusal((f.guest_port_write)(CALLER, state, table, SCRATCH, 0xa5)),
        }
    }

    /// Writes back what the call has changed.
    #[inline(always)]
    fn undo(&mut self) {
        let row = ROW * self.member.state[20] as usize;
        match self.job {
            Job::Propose | Job::Draw => {
                self.member.state[21] = 0;
                self.member.state[23..MARGIN].fill(0);
                if self.job == Job::Draw {
                    let waiting = self.waiting;
                    self.member.table()[0] = 0;
                    self.member.table()[1..9].copy_from_slice(&waiting);
                }
            }
            Job::Enqueue => self.member.table()[1 + GUEST as usize] -= 1,
            Job::Endorse => self.member.table()[row + 1] &= !(1 << FREE),
            Job::Certify => self.member.table()[row] &= !(1 << OWN),
            Job::Accept => self.member.table()[row] &= !(1 << FREE),
            Job::Advance | Job::GuestAdvance(_) if self.expected == 0 => self.member.state[20] -= 1,
            Job::Commit | Job::CommitMany | Job::GuestCommit(_) if self.expected >> 32 == 0 => {
                self.member.state[22] -= self.expected as u32;
                self.undo_words();
            }
            Job::PortRead | Job::PortReadEnd | Job::PortWrite => self.undo_words(),
            _ => {}
        }
    }

    /// Writes back what is in the list of words.
    #[inline(always)]
    fn undo_words(&mut self) {
        let undo = std::mem::take(&mut self.undo);
        let table = self.member.table();
        undo.iter().for_each(|&(at, word)| table[at] = word);
        self.undo = undo;
    }

    fn floor(&mut self) {
        if self.job == Job::Open {
            floor_of_open(self.member.table());
        } else {
            let state = self.member.state;
            black_box(floor(&state, black_box(self.member.table())));
        }
    }
}

/// Cases of the same shape, called in turn.
struct Cases(Vec<Case>);

impl Cases {
    /// The time of a batch of calls, undone.
    fn batch(&mut self, f: &Functions, calls: usize) -> Duration {
        let one_by_one = matches!(self.0[0].job, Job::Commit | Job::CommitMany | Job::GuestCommit(_));
        let (many, mut time) = (self.0.len(), Duration::ZERO);
        let start = Instant::now();
        for turn in 0..calls {
            let case = black_box(&mut self.0[turn % many]);
            let begin = if one_by_one { Some(Instant::now()) } else { None };
            let answer = case.call(f);
            if let Some(begin) = begin {
                time += begin.elapsed();
            }
            assert_eq!(answer, case.expected);
            case.undo();
        }
        if one_by_one {
            time
        } else {
            start.elapsed()
        }
    }

    fn floor_batch(&mut self, calls: usize) -> Duration {
        let (many, start) = (self.0.len(), Instant::now());
        (0..calls).for_each(|turn| self.0[turn % many].floor());
        start.elapsed()
    }

    /// Times of a call: engine, plain, floor.
    fn measure(&mut self, pace: &Pace) -> [Time; 3] {
        pace.times(self.0.len(), |which, calls| match which {
            0 => self.batch(&ENGINE, calls),
            1 => self.batch(&PLAIN, calls),
            _ => self.floor_batch(calls),
        })
    }

    fn held(&mut self) -> u32 {
        self.0[0].member.held_in_all()
    }

    /// Whether the engine answers as expected. Another archive, of before a
    /// change, may not have done so.
    fn alike(&mut self) -> bool {
        self.0.iter_mut().all(|case| {
            let before = case.member.clone();
            let answer = case.call(&ENGINE);
            case.member = before;
            answer == case.expected
        })
    }
}

/// Nanoseconds per call, of several batches.
#[derive(Clone, Copy)]
struct Time {
    median: f64,
    best: f64,
}

struct Pace {
    batches: u32,
    batch_nanoseconds: f64,
}

impl Pace {
    /// Times of a call of each of N that take turns; `run` makes some calls of
    /// one of them, always a multiple of `many`.
    fn times<const N: usize>(
        &self,
        many: usize,
        mut run: impl FnMut(usize, usize) -> Duration,
    ) -> [Time; N] {
        let mut one = |which, calls| run(which, calls).as_nanos() as f64 / calls as f64;
        let mut times = [(); N].map(|()| Vec::new());
        let mut sizes = [1; N];
        for (which, size) in sizes.iter_mut().enumerate() {
            one(which, many);
            let once = one(which, many).max(20.0);
            *size = ((self.batch_nanoseconds / once) as usize).next_multiple_of(many).max(many);
        }
        for _ in 0..self.batches {
            for which in 0..N {
                times[which].push(one(which, sizes[which]));
            }
        }
        times.map(|mut all| {
            all.sort_by(f64::total_cmp);
            Time { median: all[all.len() / 2], best: all[0] }
        })
    }
}

// --------------------------------------------------------------- bundles ---

/// A member that lacks the last four rounds, and their certificates: in order,
/// and newest first.
struct Bundle {
    member: Member,
    in_order: Vec<[u32; 17]>,
    newest_first: Vec<[u32; 17]>,
    answers: [u32; 64],
}

impl Bundle {
    fn of(ceiling: u32, rounds: u32, seed: u64) -> Bundle {
        let mut member = Member::open(ceiling, 20, seed);
        for r in 1..=rounds - 4 {
            member.fill(r, &[]);
            member.go_on(true);
        }
        let places = (rounds - 3..=rounds).flat_map(|r| (0..16).map(move |author| (author, r)));
        let in_order: Vec<_> = places.map(|(author, r)| member.naming_all(author, r)).collect();
        let newest_first = in_order.chunks(16).rev().flatten().copied().collect();
        Bundle { member, in_order, newest_first, answers: [1; 64] }
    }

    /// Takes the bundle in and leaves it out again: 64 certificates, and four
    /// words to undo it.
    #[inline(always)]
    fn run(&mut self, f: &Functions, in_one: bool) {
        let state = self.member.state;
        if in_one {
            let table = self.member.table();
            assert_eq!((f.batch)(&state, table, &self.newest_first, &mut self.answers), 0);
            assert!(self.answers.iter().all(|&answer| answer == 0));
        } else {
            for words in &self.in_order {
                assert_eq!((f.accept)(&state, self.member.table(), words), 0);
            }
        }
        let last = self.in_order[63][1];
        (last - 3..=last).for_each(|r| self.member.table()[ROW * r as usize] = 0);
    }
}

/// Nanoseconds of a bundle: in one batch and by 64 accepts, by the engine, then
/// by plain.
fn measure_bundles(bundles: &mut [Bundle], pace: &Pace) -> [f64; 4] {
    let times = pace.times(bundles.len(), |which, calls| {
        let f = if which < 2 { &ENGINE } else { &PLAIN };
        let (many, start) = (bundles.len(), Instant::now());
        (0..calls).for_each(|turn| black_box(&mut bundles[turn % many]).run(f, which % 2 == 0));
        start.elapsed()
    });
    times.map(|time| time.median)
}

// ---------------------------------------------------------------- tables ---

/// The states of a ceiling with the first `rounds` rounds held: those for most
/// calls, and those with (nearly) no blocks yet, for a commit that makes many.
struct States {
    usual: Vec<Member>,
    unblocked: Vec<Member>,
}

impl States {
    fn of(ceiling: u32, rounds: u32) -> States {
        let lookback = ceiling.min(1_000);
        // Rounds above the lookback are known only with some blocks.
        let early = |r| r + lookback < ceiling + 2;
        let seeds = 1..=u64::from(1_024 / ceiling);
        States {
            usual: seeds
                .clone()
                .map(|seed| Member::run(ceiling, 20, rounds, seed, |_| true))
                .collect(),
            unblocked: seeds
                .map(|seed| Member::run(ceiling, lookback, rounds, seed, early))
                .collect(),
        }
    }

    /// The same states, each changed.
    fn changed(&self, change: impl Fn(&mut Member)) -> States {
        let each = |members: &[Member]| -> Vec<Member> {
            let mut members = members.to_vec();
            members.iter_mut().for_each(&change);
            members
        };
        States { usual: each(&self.usual), unblocked: each(&self.unblocked) }
    }

    fn cases(&self, job: Job, waiting: Waiting) -> Cases {
        let many = matches!(job, Job::CommitMany | Job::PreviewMany | Job::CopyMany);
        let members = if many { &self.unblocked } else { &self.usual };
        Cases(members.iter().map(|member| Case::of(job, member.clone(), waiting)).collect())
    }
}

fn answer_text(case: &Case) -> String {
    let (value, refusal) = (case.expected as u32, case.expected >> 32);
    match case.job {
        _ if refusal > 0 => format!("refused, {refusal}"),
        Job::Commit | Job::CommitMany => format!("{value} added"),
        Job::Preview | Job::PreviewMany | Job::Critical => format!("{value} listed"),
        _ => "ok".to_string(),
    }
}

/// About three digits.
fn digits(value: f64) -> String {
    if value < 10.0 {
        format!("{value:.2}")
    } else if value < 100.0 {
        format!("{value:.1}")
    } else {
        format!("{value:.0}")
    }
}

fn print_ceiling(ceiling: u32, pace: &Pace) {
    println!("\n## Ceiling {ceiling}\n");
    print_columns();
    let states = [(0, "empty"), (ceiling / 2, "half"), (ceiling, "full")];
    let states = states.map(|(rounds, name)| (States::of(ceiling, rounds), name));
    for (job, call, waiting) in jobs() {
        // An empty state is thin as it is, and has no votes and no lines.
        let without = [Job::AdvanceThin, Job::CommitShort, Job::PortRead, Job::PortReadEnd];
        let from = usize::from(without.contains(&job));
        for (states, name) in &states[from..] {
            print_row(call, name, &mut states.cases(job, waiting), pace);
        }
    }
}

fn print_columns() {
    if cfg!(other) {
        println!("| call | state | held | answer | engine ns | other ns | best engine ns | best other ns | difference ns | engine / other |");
        println!("|---|---|---:|---|---:|---:|---:|---:|---:|---:|");
    } else {
        println!("| call | state | held | answer | engine ns | plain ns | floor ns | engine / plain | engine / floor |");
        println!("|---|---|---:|---|---:|---:|---:|---:|---:|");
    }
}

/// A row of a table by call. Of two archives the last two columns compare the
/// best times.
fn print_row(call: &str, state: &str, cases: &mut Cases, pace: &Pace) {
    let held = cases.held();
    if cfg!(other) && !cases.alike() {
        return println!("| {call} | {state} | {held} | answers differ | | | | | | |");
    }
    let [engine, plain, floor] = cases.measure(pace);
    let answer = answer_text(&cases.0[0]);
    print!("| {call} | {state} | {held} | {answer} | {:.0} | {:.0} ", engine.median, plain.median);
    if cfg!(other) {
        let (best, other) = (engine.best, plain.best);
        println!("| {best:.1} | {other:.1} | {:.1} | {:.3} |", best - other, best / other);
    } else {
        let (by_plain, by_floor) = (engine.median / plain.median, engine.median / floor.median);
        println!("| {:.0} | {} | {} |", floor.median, digits(by_plain), digits(by_floor));
    }
}

/// What queues cost: adding and drawing by how many wait, and what a call takes
/// longer that has nothing to do with them.
fn print_queues(pace: &Pace) {
    const ALL: Waiting = [8; 8];
    const ONE: Waiting = [0, 0, 0, 8, 0, 0, 0, 0];
    const SEVEN: Waiting = [0, 0, 7, 0, 0, 0, 0, 0];
    let rows = [
        (Job::Advance, "advance, nothing waits", NOBODY),
        (Job::Advance, "advance, 64 wait", ALL),
        (Job::Propose, "propose, nothing waits", NOBODY),
        (Job::Propose, "propose, 64 wait", ALL),
        (Job::Enqueue, "enqueue, the first", NOBODY),
        (Job::Enqueue, "enqueue, the eighth", SEVEN),
        (Job::Draw, "draw of nothing", NOBODY),
        (Job::Draw, "draw of 4, one guest", ONE),
        (Job::Draw, "draw of 4, four guests", FOUR),
        (Job::Draw, "draw of 4, 64 wait", ALL),
    ];
    for ceiling in [64, 1_024] {
        println!("\n## Queues, ceiling {ceiling}\n");
        print_columns();
        let states = [(0, "empty"), (ceiling, "full")];
        let states = states.map(|(rounds, name)| (States::of(ceiling, rounds), name));
        for (job, call, waiting) in rows {
            for (states, name) in &states {
                print_row(call, name, &mut states.cases(job, waiting), pace);
            }
        }
    }
}

fn print_growth(ceiling: u32, pace: &Pace) {
    println!("\n## Growth with held certificates, ceiling {ceiling}\n");
    println!("Nanoseconds per call; the last column is what one more certificate costs. At 0 % advance is refused with 28.\n");
    println!("| call | by | 0 % | 25 % | 50 % | 75 % | 100 % | per certificate |");
    println!("|---|---|---:|---:|---:|---:|---:|---:|");
    let states: Vec<States> =
        (0..5).map(|quarter| States::of(ceiling, ceiling * quarter / 4)).collect();
    let grows = |job: Job| !matches!(job, Job::AdvanceThin | Job::CommitShort) && !job.is_access();
    for (job, call, waiting) in jobs().filter(|(job, ..)| grows(*job)) {
        let mut cases: Vec<Cases> =
            states.iter().map(|states| states.cases(job, waiting)).collect();
        if cfg!(other) && !cases.iter_mut().all(Cases::alike) {
            continue;
        }
        let held = f64::from(cases[4].held());
        let medians = |cases: &mut Cases| cases.measure(pace).map(|time| time.median);
        let times: Vec<[f64; 3]> = cases.iter_mut().map(medians).collect();
        let second = if cfg!(other) { "other" } else { "plain" };
        for (which, by) in ["engine", second, "floor"].iter().enumerate() {
            let row: Vec<String> = times.iter().map(|time| format!("{:.0}", time[which])).collect();
            let slope = (times[4][which] - times[0][which]) / held;
            println!("| {call} | {by} | {} | {slope:.2} |", row.join(" | "));
        }
    }
}

fn print_batches(pace: &Pace) {
    println!("\n## 64 certificates, one batch or 64 accepts\n");
    println!("Microseconds: newest first in one batch, and in order by single accepts.\n");
    println!("| ceiling | state | held | by | one batch | 64 accepts | accepts / batch |");
    println!("|---:|---|---:|---|---:|---:|---:|");
    for ceiling in [64, 1_024] {
        for (rounds, name) in [(ceiling / 2, "half"), (ceiling, "full")] {
            let seeds = 1..=u64::from(1_024 / ceiling);
            let mut bundles: Vec<_> = seeds.map(|seed| Bundle::of(ceiling, rounds, seed)).collect();
            let held = bundles[0].member.held_in_all();
            let times = measure_bundles(&mut bundles, pace);
            let second = if cfg!(other) { "other" } else { "plain" };
            for (by, [batch, accepts]) in ["engine", second].iter().zip(times.as_chunks::<2>().0) {
                let (one, all) = (digits(batch / 1e3), digits(accepts / 1e3));
                let times = digits(accepts / batch);
                println!("| {ceiling} | {name} | {held} | {by} | {one} | {all} | {times} |");
            }
        }
    }
}

/// Previews beside commits, and beside what a host does without them.
fn print_previews(pace: &Pace) {
    println!("\n## Preview, commit, and commit on a copy\n");
    println!("Microseconds.\n");
    println!("| ceiling | state | blocks | entries | by | preview | commit | copy, commit, list | commit / preview | copy, commit, list / preview |");
    println!("|---:|---|---:|---:|---|---:|---:|---:|---:|---:|");
    for (ceiling, half) in [(64, true), (64, false), (1_024, true), (1_024, false)] {
        let states = States::of(ceiling, if half { ceiling / 2 } else { ceiling });
        for jobs in [[Job::Preview, Job::Commit, Job::Copy], [Job::PreviewMany, Job::CommitMany, Job::CopyMany]] {
            let mut cases = jobs.map(|job| states.cases(job, NOBODY));
            assert_same_entries(&mut cases);
            let many = cases[0].0.len();
            let times: [Time; 6] = pace.times(many, |which, calls| {
                let f = if which < 3 { &ENGINE } else { &PLAIN };
                cases[which % 3].batch(f, calls)
            });
            let (entries, blocks) = (cases[0].0[0].expected, cases[1].0[0].expected);
            let (state, second) = (if half { "half" } else { "full" }, if cfg!(other) { "other" } else { "plain" });
            for (by, row) in ["engine", second].iter().zip(times.map(|time| time.median).as_chunks::<3>().0) {
                let [preview, commit, copy] = row.map(|time| digits(time / 1e3));
                let (by_commit, by_copy) = (digits(row[1] / row[0]), digits(row[2] / row[0]));
                println!("| {ceiling} | {state} | {blocks} | {entries} | {by} | {preview} | {commit} | {copy} | {by_commit} | {by_copy} |");
            }
        }
    }
}

/// A preview and a listing after a commit on a copy write the same.
fn assert_same_entries(cases: &mut [Cases; 3]) {
    let [previews, _, copies] = cases;
    for (preview, copy) in previews.0.iter_mut().zip(&mut copies.0) {
        for f in [&ENGINE, &PLAIN] {
            assert_eq!((preview.call(f), copy.call(f)), (preview.expected, preview.expected));
            assert!(preview.list == copy.list, "entries and listing differ");
        }
    }
}

/// What a commit hangs on, beside a commit's checks and a commit.
fn print_critical(pace: &Pace) {
    println!("\n## What a commit hangs on, and a commit's checks\n");
    println!("Microseconds. \"A vote short\": the commit of the state with votes too few, refused with 22, an empty state's with 21. States: with all votes; with just enough; with many blocks to make; and, as no run leaves one, with all certificates of the two rounds in block 1, each of which is tried without.\n");
    println!("| ceiling | state | answer | by | critical | commit, a vote short | commit | critical / a vote short | critical / commit |");
    println!("|---:|---|---|---|---:|---:|---:|---:|---:|");
    for ceiling in [64, 256, 1_024] {
        print_critical_row(ceiling, "empty", &States::of(ceiling, 0), pace);
        for (rounds, name) in [(ceiling / 2, "half"), (ceiling, "full")] {
            let all = States::of(ceiling, rounds);
            let few = all.changed(|member| {
                let (held, row) = (member.take_votes(), ROW * member.state[20] as usize);
                member.table()[row] = held;
            });
            let unblocked = States { usual: all.unblocked.clone(), unblocked: Vec::new() };
            print_critical_row(ceiling, name, &all, pace);
            print_critical_row(ceiling, &format!("{name}, few votes"), &few, pace);
            print_critical_row(ceiling, &format!("{name}, many blocks"), &unblocked, pace);
            print_critical_row(ceiling, &format!("{name}, in blocks"), &all.changed(Member::mark_two_rounds), pace);
        }
    }
}

fn print_critical_row(ceiling: u32, state: &str, states: &States, pace: &Pace) {
    let mut cases = [Job::Critical, Job::CommitShort, Job::Commit].map(|job| states.cases(job, NOBODY));
    assert_same_places(&mut cases[0]);
    let many = cases[0].0.len();
    let times: [Time; 6] = pace.times(many, |which, calls| {
        let f = if which < 3 { &ENGINE } else { &PLAIN };
        cases[which % 3].batch(f, calls)
    });
    let (answer, second) = (answer_text(&cases[0].0[0]), if cfg!(other) { "other" } else { "plain" });
    for (by, row) in ["engine", second].iter().zip(times.map(|time| time.median).as_chunks::<3>().0) {
        let [critical, short, commit] = row.map(|time| digits(time / 1e3));
        let (by_short, by_commit) = (digits(row[0] / row[1]), digits(row[0] / row[2]));
        println!("| {ceiling} | {state} | {answer} | {by} | {critical} | {short} | {commit} | {by_short} | {by_commit} |");
    }
}

/// Both list the same, and leave the table as it was.
fn assert_same_places(cases: &mut Cases) {
    for case in &mut cases.0 {
        let before = case.member.clone();
        let lists = [&ENGINE, &PLAIN].map(|f| {
            case.list.fill(77);
            assert_eq!(case.call(f), case.expected);
            assert!(case.member.table() == before.clone().table(), "the table is not as it was");
            case.list.clone()
        });
        assert!(lists[0] == lists[1], "places differ");
    }
}

/// Guests' calls beside the host's own, with the right and without it.
fn print_guests(pace: &Pace) {
    type ByGuest = fn(u32) -> Job;
    const CALLS: [(&str, Job, ByGuest); 3] = [
        ("read block", Job::Block, Job::GuestBlock),
        ("advance", Job::Advance, Job::GuestAdvance),
        ("commit, one block", Job::Commit, Job::GuestCommit),
    ];
    println!("\n## Guests' calls and the host's own\n");
    println!("Nanoseconds, the best of {} batches. The difference is what the test of the right costs, and of a full state less than two measurements of one call differ by; without the right a call is refused with 29.\n", pace.batches);
    println!("| call | ceiling | state | answer | by | the host's | a guest's | difference | a guest's, without the right |");
    println!("|---|---:|---|---|---|---:|---:|---:|---:|");
    let states = [64, 1_024].into_iter().flat_map(|ceiling| [(ceiling, 0, "empty"), (ceiling, ceiling, "full")]);
    let states: Vec<_> = states.map(|(ceiling, rounds, name)| (States::of(ceiling, rounds), ceiling, name)).collect();
    for (call, host, guest) in CALLS {
        for (states, ceiling, name) in &states {
            let mut cases = [host, guest(CALLER), guest(LACKING)].map(|job| states.cases(job, NOBODY));
            let (answer, lacking) = (cases[0].0[0].expected, cases[2].0[0].expected);
            assert_eq!((cases[1].0[0].expected, lacking), (answer, 29 << 32));
            let answer = answer_text(&cases[0].0[0]);
            let times: [Time; 6] = pace.times(cases[0].0.len(), |which, calls| {
                let f = if which < 3 { &ENGINE } else { &PLAIN };
                cases[which % 3].batch(f, calls)
            });
            let second = if cfg!(other) { "other" } else { "plain" };
            for (by, [host, guest, lacking]) in ["engine", second].iter().zip(times.map(|time| time.best).as_chunks::<3>().0) {
                println!("| {call} | {ceiling} | {name} | {answer} | {by} | {host:.1} | {guest:.1} | {:.1} | {lacking:.1} |", guest - host);
            }
        }
    }
}

/// What ports in use cost a call that has nothing to do with them.
fn print_ports(pace: &Pace) {
    let second = if cfg!(other) { "other" } else { "plain" };
    println!("\n## Calls with ports in use\n");
    println!("Nanoseconds, the best of {} batches: with no port in use, and with eight, each standing inside a line. Of a full state two measurements of one call differ by more than ports cost; with eight rounds held they show.\n", pace.batches);
    println!("| call | ceiling | state | engine, none | engine, eight | difference | {second}, none | {second}, eight | difference |");
    println!("|---|---:|---|---:|---:|---:|---:|---:|---:|");
    let states = [64, 256, 1_024].into_iter().flat_map(|ceiling| [(ceiling, 8, "8 rounds"), (ceiling, ceiling, "full")]);
    let states: Vec<_> = states
        .map(|(ceiling, rounds, name)| {
            let none = States::of(ceiling, rounds);
            let in_use = none.usual.iter().cloned().map(Member::with_ports).collect();
            ([none, States { usual: in_use, unblocked: Vec::new() }], ceiling, name)
        })
        .collect();
    // An open leaves no port in use, and without blocks there are no lines.
    let skipped = [Job::Open, Job::CommitMany, Job::PreviewMany];
    for (job, call, waiting) in jobs().filter(|(job, ..)| !skipped.contains(job) && !job.is_access()) {
        for (states, ceiling, name) in &states {
            let mut cases = states.each_ref().map(|states| states.cases(job, waiting));
            assert_eq!(cases[0].0[0].expected, cases[1].0[0].expected);
            if cfg!(other) && !cases.iter_mut().all(Cases::alike) {
                continue;
            }
            let times: [Time; 4] = pace.times(cases[0].0.len(), |which, calls| {
                let f = if which < 2 { &ENGINE } else { &PLAIN };
                cases[which % 2].batch(f, calls)
            });
            let [none, eight, plain_none, plain_eight] = times.map(|time| time.best);
            print!("| {call} | {ceiling} | {name} | {none:.1} | {eight:.1} | {:.1} ", eight - none);
            println!("| {plain_none:.1} | {plain_eight:.1} | {:.1} |", plain_eight - plain_none);
        }
    }
}

fn main() {
    let quick = std::env::args().nth(1).as_deref() == Some("quick");
    let pace = if quick {
        Pace { batches: 3, batch_nanoseconds: 2e5 }
    } else {
        Pace { batches: 15, batch_nanoseconds: 5e6 }
    };
    println!("# Cost of calls\n");
    println!("Nanoseconds per call, median of {} batches.\n", pace.batches);
    if let Ok(toolchain) = std::env::var("TOOLCHAIN") {
        println!("Measured with the toolchain {toolchain}.\n");
    }
    println!("Advance needs a quorum of its present round: an empty state refuses it with 28, half and full ones have one but for \"thin round\".");
    for ceiling in [64, 256, 1_024] {
        print_ceiling(ceiling, &pace);
    }
    print_growth(1_024, &pace);
    print_batches(&pace);
    if PREVIEWS {
        print_previews(&pace);
    }
    if CRITICAL {
        print_critical(&pace);
    }
    if GUESTS {
        print_guests(&pace);
    }
    print_ports(&pace);
    if QUEUES {
        print_queues(&pace);
    }
}
