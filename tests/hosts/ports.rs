//! Ports: registers by hand, and every value of each; 26, 29, 31 and 1 in their order;
//! words of a port at their edges, with every other call; listings read to their end by
//! all eight at once, a full state. Then by chance: drivers on runs from an opening and on
//! grown states, between commits and all other calls, with resets; on changed and damaged
//! ones. What a driver has received since its port was reset is a prefix of the listing,
//! and all of it where none waits.

use crate::calls::*;
use crate::edges::*;
use crate::grow::*;
use crate::previews::*;
use crate::words::*;
use crate::{told, Node, Test};
use reference::*;

/// Where a port stands: place and byte of the last one that was read.
type Pair = [u32; 2];

const START: Pair = [0, 0];

fn pair(table: &[u32], port: u32) -> Pair {
    let words = &table[port_word(port, 0)..];
    [words[0], words[1]]
}

/// Where the port of an access or a reset stands; at the start where there is none.
pub fn stands(caller: Caller, call: &Call, table: &[u32]) -> Pair {
    let port = match (call, caller) {
        (Call::PortReset { port }, _) => *port,
        (_, Caller::Guest(guest)) if call.is_access() => guest,
        _ => return START,
    };
    if port < GUESTS && table.len() >= ROW { pair(table, port) } else { START }
}

// -------------------------------------------------------------- figures ---

/// An accepted access: what it answered, where its port stood and stands, and the words
/// after it.
struct Seen<'a> {
    call: &'a Call,
    value: u8,
    before: Pair,
    after: Pair,
    registers: &'a [u32],
    node: &'a Node,
}

impl Seen<'_> {
    fn reads(&self, of: u32) -> bool {
        matches!(self.call, Call::PortRead { offset } if *offset == of)
    }

    fn writes(&self, of: u32) -> bool {
        matches!(self.call, Call::PortWrite { offset, .. } if *offset == of)
    }

    fn is_byte(&self) -> bool {
        self.before != self.after
    }

    fn shows_divisor(&self) -> bool {
        self.registers[1] & u32::from(DIVISOR) != 0
    }

    fn is_enabled(&self) -> bool {
        self.registers[0] == 1
    }

    /// The block whose certificate a port stands at, 0 at the start.
    fn block_of(&self, at: Pair) -> u32 {
        let (round, author) = (at[0] as usize / 16, at[0] as usize % 16);
        if at == START { 0 } else { self.node.table[ROW * round + 16 + 16 * author + 2] }
    }

    /// How many blocks further the byte is than the one before.
    fn blocks_on(&self) -> u32 {
        self.block_of(self.after) - self.block_of(self.before)
    }

    /// A line that follows one of the same round and a higher number.
    fn is_turned(&self) -> bool {
        let (before, after) = (self.before[0], self.after[0]);
        before / 16 == after / 16 && after < before && self.blocks_on() == 0
    }
}

/// What is counted of accepted accesses: its name, and of how many accesses by chance
/// there must be one.
type Kind = (&'static str, u64, fn(&Seen) -> bool);

const KINDS: [Kind; 16] = [
    ("bytes", 15, |seen| seen.is_byte()),
    ("first ones of a line", 150, |seen| seen.is_byte() && seen.after[1] == 1),
    ("of another block than the line before", 1_000, |seen| seen.before != START && seen.blocks_on() > 0),
    ("beyond a block without a certificate", 10_000, |seen| seen.blocks_on() > 1),
    ("of a lower number than the line before in its round", 4_000, |seen| seen.is_turned()),
    ("reads of 0 with none waiting", 60, |seen| seen.reads(0) && !seen.is_byte() && !seen.shows_divisor()),
    ("reads of the divisor's low byte", 300, |seen| seen.reads(0) && seen.shows_divisor()),
    ("of its high byte", 1_500, |seen| seen.reads(1) && seen.shows_divisor()),
    ("writes of the low byte", 1_000, |seen| seen.writes(0) && seen.shows_divisor()),
    ("of the high byte", 1_000, |seen| seen.writes(1) && seen.shows_divisor()),
    ("dropped writes", 150, |seen| seen.writes(0) && !seen.shows_divisor()),
    ("reads of 4 at offset 2", 300, |seen| seen.reads(2) && seen.value == 4),
    ("of them with the divisor shown", 4_000, |seen| seen.reads(2) && seen.value == 4 && seen.shows_divisor()),
    ("of 1 there though it is enabled", 300, |seen| seen.reads(2) && seen.value == 1 && seen.is_enabled()),
    ("of 61 at offset 5", 20, |seen| seen.reads(5) && seen.value == 0x61),
    ("of 60 there", 80, |seen| seen.reads(5) && seen.value == 0x60),
];

/// Accesses by offset: those of 0 to 7, and all above.
type ByOffset = [u64; 9];

#[derive(Clone, Default)]
pub struct Figures {
    kinds: [u64; KINDS.len()],
    /// Made and accepted, reads and writes.
    reads: [ByOffset; 2],
    writes: [ByOffset; 2],
    /// Accepted resets of ports that had read something.
    resets: u64,
    /// Comparisons of what a driver has received with the listing; those of all of it; the
    /// longest of these; commits that were accepted with a driver inside the listing.
    compared: u64,
    whole: u64,
    longest: usize,
    amid: u64,
    /// Runs from an opening, and their commits.
    runs: [u64; 2],
    /// Calls on states that are not well formed for a port alone, by kind.
    malformed: [u64; Call::NAMES.len()],
}

impl Figures {
    /// A call was made; `before` is where its port stood.
    pub fn count(&mut self, caller: Caller, call: &Call, answer: Answer<u64>, before: Pair, node: &Node) {
        match call {
            Call::PortRead { offset } => count_offset(&mut self.reads, *offset, answer),
            Call::PortWrite { offset, .. } => count_offset(&mut self.writes, *offset, answer),
            Call::PortReset { .. } => self.resets += u64::from(answer.is_ok() && before != START),
            _ => {}
        }
        let (true, Ok(value), Caller::Guest(guest)) = (call.is_access(), answer, caller) else { return };
        let registers = &node.table[port_word(guest, REGISTERS.start)..][..6];
        let seen = Seen { call, value: value as u8, before, after: pair(&node.table, guest), registers, node };
        for (count, (_, _, is_one)) in self.kinds.iter_mut().zip(KINDS) {
            *count += u64::from(is_one(&seen));
        }
    }

    pub fn print(&self) {
        let list = |[made, accepted]: [ByOffset; 2]| {
            let of = |offset: usize| format!("{offset}: {} of {}", accepted[offset], made[offset]);
            let below: Vec<String> = (0..8).map(of).collect();
            format!("{}, above 7: {}", below.join(", "), made[8])
        };
        println!("port reads accepted by offset: {}", list(self.reads));
        println!("port writes accepted by offset: {}", list(self.writes));
        let kinds: Vec<String> = KINDS.iter().zip(self.kinds).map(|((name, ..), count)| format!("{count} {name}")).collect();
        println!("of them {}", kinds.join(", "));
        println!(
            "ports that had read reset: {}; received and listing compared: {} times, {} of them all of it, at most {} bytes; commits \
             with a driver inside the listing: {}; runs from an opening: {} with {} commits",
            self.resets, self.compared, self.whole, self.longest, self.amid, self.runs[0], self.runs[1]
        );
        let kinds: Vec<String> = Call::NAMES.iter().zip(self.malformed).map(|(name, calls)| format!("{name} {calls}")).collect();
        println!("calls on states not well formed for a port alone: {}", kinds.join(", "));
    }
}

fn count_offset([made, accepted]: &mut [ByOffset; 2], offset: u32, answer: Answer<u64>) {
    let offset = offset.min(8) as usize;
    made[offset] += 1;
    accepted[offset] += u64::from(answer.is_ok());
}

// ---------------------------------------------------------------- edges ---

/// A read that gives a value, or a write.
enum Step {
    R(u32, u8),
    W(u32, u8),
}
use Step::{R, W};

/// Of the listing `1,2,1,0,E,1,0` and so on.
#[rustfmt::skip]
const BY_HAND: &[Step] = &[
    // As a reset leaves it, with a byte waiting.
    R(1, 0), R(2, 1), R(3, 0), R(4, 0), R(5, 0x61), R(6, 0), R(7, 0),
    // The next byte; what is written is dropped.
    R(0, b'1'), R(5, 0x61), W(0, 0xff), R(0, b','), R(7, 0),
    // Bit 0 of offset 1 alone; 4 while it is set and a byte waits; writes to 2 are ignored.
    W(1, 0xfe), R(1, 0), R(2, 1), W(1, 0xff), R(1, 1), R(2, 4), R(2, 4), W(2, 0xff), R(2, 4), W(2, 0), R(2, 4), R(0, b'2'), R(2, 4),
    W(1, 0), R(2, 1), R(5, 0x61), W(1, 1),
    // Writes to 5 and 6 are ignored; 4 keeps five bits, 7 and 3 eight.
    W(5, 0), W(6, 0xff), R(5, 0x61), R(6, 0), W(4, 0xff), R(4, 0x1f), W(4, 0xf0), R(4, 0x10), W(7, 0xa5), R(7, 0xa5), W(3, 0x7f), R(3, 0x7f),
    R(0, b','),
    // The divisor: no byte is taken, offset 2 still tells of offset 1.
    W(3, 0x80), R(3, 0x80), R(0, 0), R(1, 0), W(0, 12), R(0, 12), R(1, 0), W(1, 0xff), R(0, 12), R(1, 0xff), R(2, 4), R(5, 0x61), R(4, 0x10),
    R(7, 0xa5), W(3, 0x03), R(1, 1), R(0, b'1'), W(0, 7), W(1, 0), R(1, 0), W(3, 0xff), R(3, 0xff), R(0, 12), R(1, 0xff), R(2, 1),
    W(3, 0), R(0, b','), R(0, b'0'), R(0, b','), R(0, b'E'), R(0, b','), R(0, b'1'), R(0, b','), R(0, b'0'), R(0, b'\r'), R(0, b'\n'),
    R(5, 0x61), R(0, b'1'),
];

/// What a register keeps of a byte, where it is no divisor byte.
const KEPT: [u8; 8] = [0, 1, 0, 0xff, 0x1f, 0, 0, 0xff];

/// Callers, ports and offsets below and above 7.
const NUMBERS: [u32; 15] = [0, 1, 2, 3, 4, 5, 6, 7, 8, 9, 15, 16, 256, 1 << 31, u32::MAX];

/// Members of weight 1, with some full rounds and blocks of them; all guests may do all.
fn listed(ceiling: u32, all: Set, rounds: u32) -> Node {
    // At the largest ceiling the last round is known by a block.
    let mut member = full_rounds(ceiling, 1_000, all, rounds, if rounds > 23 { 23 } else { 3 });
    let _ = member.commit();
    member.rights = [[true; 4]; 8];
    node_of(member)
}

/// Ways to spoil a state, and lengths of state and table that are too short.
fn unfit(node: &Node) -> Vec<(Node, (usize, usize))> {
    let whole = (node.state.len(), node.table.len());
    let needed = table_words(node.state[2]);
    let spoilt = |spoil: &dyn Fn(&mut Node)| {
        let mut copy = node.clone();
        spoil(&mut copy);
        copy.read_again();
        assert!(copy.twin.is_none());
        (copy, whole)
    };
    let mut all = vec![
        spoilt(&|node| node.state[0] = 16),
        spoilt(&|node| node.state[21] = 2),
        spoilt(&|node| node.state[..RIGHTS].fill(u32::MAX)),
        spoilt(&|node| node.table.fill(u32::MAX)),
        spoilt(&|node| node.table[waiting_word(4)] = 9),
        spoilt(&|node| node.table[port_word(5, 1)] = 1),
        spoilt(&|node| node.table[port_word(0, 2)] = 2),
    ];
    let short = [(whole.0, needed - 1), (whole.0, ROW), (whole.0, 0), (RIGHTS, whole.1), (MARGIN, whole.1), (0, whole.1), (0, 0)];
    all.extend(short.map(|lengths| (node.clone(), lengths)));
    all
}

impl Test {
    /// An access whose answer is known.
    fn try_access(&mut self, node: &mut Node, guest: u32, call: &Call, answer: u64) {
        let whole = (node.state.len(), node.table.len());
        let found = self.call_by(Caller::Guest(guest), node, call, whole);
        assert_eq!(found, answer, "{call:?} by guest {guest}");
    }

    fn try_read(&mut self, node: &mut Node, guest: u32, offset: u32, value: u8) {
        self.try_access(node, guest, &Call::PortRead { offset }, value.into());
    }

    fn try_write(&mut self, node: &mut Node, guest: u32, offset: u32, value: u8) {
        self.try_access(node, guest, &Call::PortWrite { offset, value }, 0);
    }

    fn ports_by_hand(&mut self) {
        let mut node = listed(5, 0b1, 5);
        // As tables of before there were ports have them.
        assert!((0..GUESTS).all(|port| node.table[port_word(port, 0)..][..8] == [0; 8]));
        for guest in [3, 0, 7] {
            for step in BY_HAND {
                match *step {
                    R(offset, value) => self.try_read(&mut node, guest, offset, value),
                    W(offset, value) => self.try_write(&mut node, guest, offset, value),
                }
            }
        }
        // After a reset the whole again, from the start.
        for port in 0..GUESTS {
            let whole = (node.state.len(), node.table.len());
            assert_eq!(self.call(&mut node, &Call::PortReset { port }, whole), 0);
            assert_eq!(node.table[port_word(port, 0)..][..8], [0; 8]);
            for &byte in b"1,2,1,0,E,1,0\r\n1,2,2,0,E,2,0\r\n2,4,3,0,E,3,0\r\n2,4,4,0,E,4,0\r\n" {
                self.try_read(&mut node, port, 0, byte);
            }
            [(0, 0), (5, 0x60), (0, 0), (2, 1)].into_iter().for_each(|(offset, value)| self.try_read(&mut node, port, offset, value));
        }
    }

    /// Every byte to every offset, with the divisor shown and without it.
    fn every_register(&mut self) {
        let mut node = listed(5, 0b1, 3);
        for (line, offset) in [0, 0x80].into_iter().flat_map(|line| (0..8).map(move |offset| (line, offset))) {
            for value in 0..=255 {
                self.try_write(&mut node, 5, 3, line);
                self.try_write(&mut node, 5, offset, value);
                let is_divisor = line == 0x80 && offset < 2;
                let kept = if is_divisor { value } else { value & KEPT[offset as usize] };
                if is_divisor || KEPT[offset as usize] != 0 {
                    self.try_read(&mut node, 5, offset, kept);
                }
                self.try_read(&mut node, 5, 5, 0x61);
            }
        }
    }

    /// 26 before 29 before 31 before 1; of a reset 26 before 1.
    fn port_refusals(&mut self) {
        let fine = listed(5, 0b11, 3);
        let whole = (fine.state.len(), fine.table.len());
        let mut all = unfit(&fine);
        all.push((fine, whole));
        let fits = all.len() - 1;
        for (nth, (node, lengths)) in all.into_iter().enumerate() {
            for port in NUMBERS {
                let refused = [(port > 7, 26), (nth < fits, 1)];
                let number = refused.iter().find(|(wrong, _)| *wrong).map_or(0, |(_, number)| *number);
                assert_eq!(self.call(&mut node.clone(), &Call::PortReset { port }, lengths), number << 32);
            }
            for word in [0, u32::MAX, 1 << 29, !(1 << 29)] {
                for (guest, offset) in NUMBERS.into_iter().flat_map(|guest| NUMBERS.map(|offset| (guest, offset))) {
                    let mut node = node.clone();
                    node.state[RIGHTS] = word;
                    node.read_again();
                    let may = guest < 8 && lengths.0 > RIGHTS && word >> (24 + guest) & 1 == 1;
                    let refused = [(guest > 7, 26), (!may, 29), (offset > 7, 31), (nth < fits, 1)];
                    let number = refused.iter().find(|(wrong, _)| *wrong).map_or(0, |(_, number)| *number);
                    for call in [Call::PortRead { offset }, Call::PortWrite { offset, value: 0x83 }] {
                        let found = self.call_by(Caller::Guest(guest), &mut node, &call, lengths);
                        assert_eq!(found >> 32, number, "{call:?} by guest {guest}, rights {word:#x}, {nth}");
                    }
                }
            }
        }
    }

    /// Calls of each kind on a copy of the node, which is well formed or is not for the
    /// words of a port: then every call but open, by the host and by guests, answers 1.
    fn try_port_words(&mut self, node: &Node, port: u32, words: &[(usize, u32)], fits: bool) {
        let mut changed = node.clone();
        words.iter().for_each(|&(at, word)| changed.table[port_word(port, at)] = word);
        changed.read_again();
        assert_eq!(changed.twin.is_some(), fits, "words of port {port}: {words:?}");
        let whole = (node.state.len(), node.table.len());
        let mut calls = each_call(node.twin.as_ref().expect("well formed to begin with"));
        calls.extend((0..8).map(|offset| Call::PortRead { offset }));
        calls.extend((0..8).map(|port| Call::PortReset { port }));
        calls.push(Call::Open { own: 0, sheet: vec![0; 1], rights: 0 });
        let mut sheet = vec![0; SHEET_WORDS];
        (sheet[2], sheet[3]) = (1, 3);
        calls.push(Call::Open { own: 0, sheet, rights: u32::MAX });
        for call in calls {
            let mut callers = vec![Caller::Guest(port), Caller::Guest(port ^ 1)];
            match call.request() {
                None => callers = vec![Caller::Host],
                Some(_) if call.is_access() => {}
                Some(_) => callers = vec![Caller::Host, Caller::Guest(port)],
            }
            for caller in callers {
                let mut copy = changed.clone();
                let found = self.call_by(caller, &mut copy, &call, whole);
                if !fits {
                    self.figures.ports.malformed[call.kind()] += 1;
                    let opened = matches!(&call, Call::Open { sheet, .. } if sheet.len() > 1);
                    assert_eq!(found, if opened { 0 } else { 1 << 32 }, "{call:?} by {caller:?} with port {port} at {words:?}");
                }
            }
        }
    }

    /// Registers at their limits; a port at the bytes of each line, beside it, and where no
    /// line is.
    fn port_words(&mut self) {
        let mut node = listed(6, 0b1111, 5);
        // A record of a block that is not held, and a row beyond the ceiling.
        node.table.resize(table_words(7), 7);
        node.table.copy_within(2 * ROW..3 * ROW, 7 * ROW);
        node.table.copy_within(2 * ROW + 32..2 * ROW + 48, 2 * ROW + 16 + 16 * 9);
        // Words of row 0 that would be a held record of block 1, if round 0 had any.
        node.table[SERVED] = 2;
        node.table[queue_place(0, 3)..][..2].copy_from_slice(&[0, 1]);
        node.read_again();
        let lines = node.twin.as_ref().expect("well formed").lines();
        assert_eq!(lines.len(), 13);
        for port in [0, 3, 7] {
            for (at, most) in MOST_HELD.iter().enumerate() {
                for word in [0, 1, most - 1, *most, most + 1, 255, 256, 1 << 16, u32::MAX] {
                    self.try_port_words(&node, port, &[(REGISTERS.start + at, word)], word <= *most);
                }
            }
            for line in &lines {
                let (place, length) = (place_of(line.round, line.author), line.bytes.len() as u32);
                assert_eq!(length, 15);
                for (byte, fits) in [(0, false), (1, true), (14, true), (15, true), (16, false), (256 + 15, false), (u32::MAX, false)] {
                    self.try_port_words(&node, port, &[(0, place), (1, byte)], fits);
                }
            }
            // Held and in no block, not held, of round 0, above the ceiling.
            let none = [place_of(4, 0), place_of(5, 3), place_of(2, 9), place_of(1, 15), place_of(6, 0), 0, 1, 15, place_of(7, 1), place_of(8, 0)];
            let far = [1 << 16 | place_of(1, 1), 1 << 28 | place_of(1, 1), 1 << 31, u32::MAX - 15, u32::MAX];
            for place in none.into_iter().chain(far) {
                for byte in [0, 1, 15] {
                    self.try_port_words(&node, port, &[(0, place), (1, byte)], place == 0 && byte == 0);
                }
            }
        }
        let malformed = self.figures.ports.malformed;
        assert!(malformed.iter().all(|&calls| calls > 0), "{malformed:?}");
    }

    /// An accepted open clears every port, a refused one none; other calls leave them.
    fn ports_of_opens(&mut self) {
        let mut node = listed(5, 0b1111, 3);
        for port in 0..GUESTS {
            let words = [place_of(1, port % 4), 1 + port, 1, 0x80 + port, 31, 255 - port, port, 255];
            node.table[port_word(port, 0)..][..8].copy_from_slice(&words);
        }
        node.read_again();
        let whole = (node.state.len(), node.table.len());
        let ports = |node: &Node| (0..GUESTS).flat_map(|port| node.table[port_word(port, 0)..][..8].to_vec()).collect::<Vec<_>>();
        let before = ports(&node);
        for call in each_call(node.twin.as_ref().expect("well formed")) {
            let mut copy = node.clone();
            if !call.is_access() && call.request().is_some() {
                self.call(&mut copy, &call, whole);
                assert_eq!(ports(&copy), before, "{call:?}");
            }
        }
        let mut sheet = vec![0; SHEET_WORDS];
        (sheet[2], sheet[3]) = (1, 5);
        for (own, refused) in [(16, true), (1, false)] {
            let call = Call::Open { own, sheet: sheet.clone(), rights: u32::MAX };
            assert_eq!(self.call(&mut node, &call, whole) >> 32 != 0, refused);
            assert_eq!(ports(&node), if refused { before.clone() } else { vec![0; 64] });
        }
    }
}

// ------------------------------------------------------------- listings ---

/// What the drivers of the eight ports have received since their ports were reset, as
/// the engine told it.
struct Drivers([Vec<u8>; GUESTS as usize]);

impl Drivers {
    /// Of ports that may have read already.
    fn of(member: &Member) -> Drivers {
        let listing = member.listing();
        Drivers(member.ports.map(|port| listing[..port.read].to_vec()))
    }
}

/// Chains that no run makes: a first block and one in the middle without a certificate,
/// rows far below a block and above it, a block that unbonds all, so that the next has no
/// leader, numbers that rise from 15 on.
fn odd_chains() -> Vec<Node> {
    let mut all = Vec::new();
    for (weights, blocks) in [
        (&[1, 1, 1, 1][..], &[2, 4, 6, 8][..]),
        (&[0, 0, 0, 1], &[2, 4, 6]),
        (&[1, 0, 0, 0, 0, 0, 0, 0, 0, 0, 0, 0, 0, 0, 0, 1], &[2, 6]),
        (&[1; 16], &[4, 6, 8]),
    ] {
        let mut node = in_round(weights, 9, 3);
        node.state[RIGHTS] = u32::MAX;
        node.state[22] = blocks.len() as u32;
        for (number, &round) in (1..).zip(blocks) {
            node.table[ROW * number + 2] = round;
        }
        for (round, author) in (1..=9).flat_map(|round| (0..16).map(move |author| (round, author))) {
            let mark = match (round * 7 + author * 5) % 6 {
                0 | 1 => blocks.len() as u32,
                2 => 2,
                3 => blocks.len() as u32 - 1,
                _ => 0,
            };
            hold(&mut node, round, single(author));
            let record = &mut node.table[ROW * round as usize + 16 + 16 * author as usize..][..16];
            (record[1], record[2]) = (author % 3, mark);
            record[4..10].copy_from_slice(&if mark == 2 { [1, 3, 0, 0, author, 1] } else { [2, u32::MAX >> author, 0, 0, 15, 1_000] });
        }
        node.read_again();
        all.push(node);
    }
    all
}

impl Test {
    /// A call by a driver or by anybody: what the engine has given is kept.
    fn driven(&mut self, node: &mut Node, drivers: &mut Drivers, caller: Caller, call: &Call, lengths: (usize, usize)) -> u64 {
        let before = stands(caller, call, &node.table);
        let answer = self.call_by(caller, node, call, lengths);
        match (call, answer >> 32) {
            (Call::PortRead { .. }, 0) if stands(caller, call, &node.table) != before => {
                drivers.0[caller.guest() as usize].push(self.last_answer as u8);
            }
            (Call::PortReset { port }, 0) => drivers.0[*port as usize].clear(),
            (Call::Open { .. }, 0) => drivers.0.iter_mut().for_each(Vec::clear),
            _ => {}
        }
        answer
    }

    /// A driver that polls and reads, some bytes at most; whether it came to the end.
    fn poll(&mut self, node: &mut Node, drivers: &mut Drivers, guest: u32, most: u32) -> bool {
        let whole = (node.state.len(), node.table.len());
        for _ in 0..most {
            let length = drivers.0[guest as usize].len();
            self.driven(node, drivers, Caller::Guest(guest), &Call::PortRead { offset: 5 }, whole);
            let waits = self.last_answer == 0x61;
            self.driven(node, drivers, Caller::Guest(guest), &Call::PortRead { offset: 0 }, whole);
            if waits != (drivers.0[guest as usize].len() > length) {
                self.differs("offset 5 does not tell whether a byte waits");
                return true;
            }
            if !waits {
                return true;
            }
        }
        false
    }

    /// What each driver has received is a prefix of the listing, so much as its port has
    /// read.
    fn compare_received(&mut self, node: &Node, drivers: &Drivers) {
        let member = node.twin.as_ref().expect("well formed");
        let listing = member.listing();
        for (received, port) in drivers.0.iter().zip(&member.ports) {
            if !listing.starts_with(received) || received.len() != port.read {
                self.differs("what a port has given is no prefix of the listing");
            }
            self.figures.ports.compared += 1;
            if !listing.is_empty() && *received == listing {
                self.figures.ports.whole += 1;
                self.figures.ports.longest = self.figures.ports.longest.max(listing.len());
            }
        }
    }

    /// All eight drivers read to the end, in turns of some bytes each; then all of them
    /// have the listing.
    fn read_to_the_end(&mut self, node: &mut Node) {
        let member = node.twin.as_ref().expect("well formed");
        let (listing, mut drivers) = (member.listing(), Drivers::of(member));
        let mut left: Vec<u32> = (0..GUESTS).collect();
        while !left.is_empty() {
            let at = self.rng.below(left.len() as u64) as usize;
            let bytes = self.rng.pick(&[1, 2, 7, 40]);
            if self.poll(node, &mut drivers, left[at], bytes) {
                left.swap_remove(at);
            }
        }
        self.compare_received(node, &drivers);
        assert!(drivers.0.iter().all(|received| *received == listing) || self.figures.differences > 0);
    }

    /// A full state of the largest ceiling: ports at line ends, at the ends of blocks and
    /// of all; the longest line, of 78 bytes.
    fn ports_of_a_full_state(&mut self) {
        let mut node = listed(1_024, 0xffff, 1_023);
        let record = &mut node.table[ROW * 1_022 + 16 + 16 * 15..][..16];
        record[1] = 4;
        record[4..].copy_from_slice(&[2, u32::MAX, 0].repeat(4));
        node.read_again();
        let lines = node.twin.as_ref().expect("well formed").lines();
        let end = lines.len() - 1;
        assert_eq!(lines[end].bytes, b"511,1022,1022,15,E,4294967295,0,E,4294967295,0,E,4294967295,0,E,4294967295,0\r\n");
        // The first line of a block in the middle, and the one before it.
        let middle = lines.iter().position(|line| line.bytes.starts_with(b"256,")).expect("a block 256");
        for (guest, (at, left)) in (0..).zip([(0, 3), (middle - 1, 2), (middle, 1), (end - 1, 1), (end, 20), (end, 1), (end, 0), (9, 0)]) {
            let line = &lines[at];
            let words = [place_of(line.round, line.author), line.bytes.len() as u32 - left];
            node.table[port_word(guest, 0)..][..2].copy_from_slice(&words);
        }
        node.read_again();
        let mut drivers = Drivers::of(node.twin.as_ref().expect("well formed"));
        for guest in 0..GUESTS {
            self.poll(&mut node, &mut drivers, guest, 22);
        }
        self.compare_received(&node, &drivers);
        let whole = (node.state.len(), node.table.len());
        for (byte, answer) in [(78, 0x60), (79, 1 << 32)] {
            node.table[port_word(5, 1)] = byte;
            node.read_again();
            assert_eq!(self.call_by(Caller::Guest(5), &mut node, &Call::PortRead { offset: 5 }, whole), answer);
        }
    }

    pub fn port_edges(&mut self) {
        self.ports_by_hand();
        self.every_register();
        self.port_refusals();
        self.port_words();
        self.ports_of_opens();
        for node in [listed(5, 0b1, 1), listed(5, 0b1, 5), listed(7, 0b1111, 7), listed(5, 0x8421, 5)].iter_mut().chain(&mut odd_chains()) {
            self.read_to_the_end(node);
        }
        self.ports_of_a_full_state();
        while self.figures.ports.runs[1] < 20 {
            let plan = Plan::any(&mut self.rng);
            if plan.ceiling <= 40 {
                self.read_along(&plan);
            }
        }
        let seen = |answers: &[u64; ANSWERS], its: &[usize]| {
            let all = (0..ANSWERS).all(|number| (answers[number] > 0) == its.contains(&number));
            assert!(all, "{}", told(answers));
        };
        seen(&self.figures.answers[Call::PORT_RESET], &[0, 1, 26]);
        seen(&self.figures.guests.answers[Call::PORT_READ], &[0, 1, 26, 29, 31]);
        seen(&self.figures.guests.answers[Call::PORT_WRITE], &[0, 1, 26, 29, 31]);
    }
}

// --------------------------------------------------------------- chance ---

/// Ports of guests that may read go on to the end of a line, of a block or of all, or to
/// some bytes before it.
fn read_on(rng: &mut Rng, member: &mut Member) {
    let lines = member.lines();
    let last = last_lines(member, &lines);
    for guest in 0..GUESTS {
        if lines.is_empty() || !rng.chance(600) || may_ask(&member.rights, guest, Request::PortRead).is_err() {
            continue;
        }
        let any = rng.below(lines.len() as u64) as usize;
        let line = if rng.chance(500) { any } else { rng.pick(&last) };
        let end: usize = lines[..=line].iter().map(|line| line.bytes.len()).sum();
        let port = &mut member.ports[guest as usize];
        port.read = port.read.max(end - rng.pick(&[0, 0, 1, 2, 4]));
    }
}

impl Test {
    fn accesses(&self) -> [u64; ANSWERS] {
        let of_guests = &self.figures.guests.answers;
        std::array::from_fn(|number| of_guests[Call::PORT_READ][number] + of_guests[Call::PORT_WRITE][number])
    }

    /// Accesses by chance, so many more. The answer is how many were accepted: half of
    /// them must be, and of each offset, each kind and each refusal there must be some.
    pub fn ports(&mut self, accesses: u64) -> u64 {
        let (before, figures) = (self.accesses(), self.figures.ports.clone());
        let enough = before.iter().sum::<u64>() + accesses;
        while self.accesses().iter().sum::<u64>() < enough {
            let mut plan = Plan::any(&mut self.rng);
            // A large listing is slow to tell.
            if plan.ceiling > 40 && !self.rng.chance(30) {
                continue;
            }
            // By a short lookback blocks decide who leads.
            if self.rng.chance(500) {
                plan.sheet.lookback = Setting::Written(self.rng.between(1, 4));
            }
            if plan.ceiling <= 40 && self.rng.chance(40) {
                self.read_along(&plan);
                continue;
            }
            let mut member = plan.open(&mut self.rng, plan.owns.first().copied().unwrap_or(0));
            if self.rng.chance(800) {
                member.rights.iter_mut().for_each(|rights| rights[Right::Read as usize] = self.rng.chance(900));
            }
            let to = self.rng.between(1, plan.ceiling);
            let member = grow(&mut self.rng, member, to, &plan);
            self.drive(member, &plan);
        }
        let of = |number: usize| self.accesses()[number] - before[number];
        let (accepted, now) = (of(0), &self.figures.ports);
        assert!(2 * accepted >= accesses, "{accepted} of {accesses} accesses to ports were accepted");
        for number in [1, 26, 29, 31] {
            assert!(500 * of(number) >= accesses, "{number} x {} of {accesses} accesses to ports", of(number));
        }
        for offset in 0..8 {
            let (reads, writes) = (now.reads[1][offset] - figures.reads[1][offset], now.writes[1][offset] - figures.writes[1][offset]);
            assert!(200 * reads >= accesses && 1_000 * writes >= accesses, "offset {offset}: {reads} reads, {writes} writes of {accesses}");
        }
        for (k, (name, least, _)) in KINDS.iter().enumerate() {
            let seen = now.kinds[k] - figures.kinds[k];
            assert!(least * seen >= accesses, "{seen} of {accesses} accesses to ports: {name}");
        }
        let (resets, amid) = (now.resets - figures.resets, now.amid - figures.amid);
        assert!(4_000 * resets >= accesses && 8_000 * amid >= accesses, "{resets} resets, {amid} commits of {accesses}");
        accepted
    }

    /// A run from an opening, all of it by the engine: certificates come in, blocks are made,
    /// the member goes on; between these calls all eight read, and now and then one is reset.
    fn read_along(&mut self, plan: &Plan) {
        let mut node = self.opened(plan, plan.owns.first().copied().unwrap_or(0));
        node.state[RIGHTS] = u32::MAX;
        node.read_again();
        let (whole, mut drivers) = ((node.state.len(), node.table.len()), Drivers(Default::default()));
        self.figures.ports.runs[0] += 1;
        loop {
            let member = node.twin.clone().expect("well formed");
            let Some(&committee) = member.committee_of(member.round) else { break };
            let mut authors: Vec<u32> = members_of(members_in(&committee)).collect();
            while !authors.is_empty() && (!may_go_on(node.twin.as_ref().expect("well formed")) || self.rng.chance(800)) {
                let author = authors.swap_remove(self.rng.below(authors.len() as u64) as usize);
                let certificate = certificate_words(&made_up(&mut self.rng, &member, author, plan));
                self.driven(&mut node, &mut drivers, Caller::Host, &Call::Accept { certificate }, whole);
                self.read_some(&mut node, &mut drivers);
            }
            if self.rng.chance(700) {
                let answer = self.driven(&mut node, &mut drivers, Caller::Host, &Call::Commit, whole);
                self.figures.ports.runs[1] += u64::from(answer >> 32 == 0);
                self.compare_received(&node, &drivers);
            }
            if self.driven(&mut node, &mut drivers, Caller::Host, &Call::Advance, whole) != 0 {
                break;
            }
        }
        (0..GUESTS).for_each(|guest| _ = self.poll(&mut node, &mut drivers, guest, 60));
        self.compare_received(&node, &drivers);
    }

    /// Some guest reads some bytes; at times its port is reset.
    fn read_some(&mut self, node: &mut Node, drivers: &mut Drivers) {
        let (port, bytes) = (self.rng.between(0, GUESTS - 1), self.rng.pick(&[0, 0, 0, 0, 1, 20]));
        self.poll(node, drivers, port, bytes);
        if self.rng.chance(10) {
            let whole = (node.state.len(), node.table.len());
            self.driven(node, drivers, Caller::Host, &Call::PortReset { port }, whole);
        }
    }

    /// Drivers on the ports of a member while it goes on.
    fn drive(&mut self, mut member: Member, plan: &Plan) {
        for _ in 0..self.rng.between(1, 5) {
            read_on(&mut self.rng, &mut member);
            let mut drivers = Drivers::of(&member);
            let mut node = Node::of(member, &mut self.rng);
            let mut pool = Pool::default();
            if self.rng.chance(700) {
                self.commit_amid(&mut node, &mut drivers);
            }
            for _ in 0..self.rng.between(5, 30) {
                self.drive_once(&mut node, &mut drivers, &mut pool);
            }
            self.compare_received(&node, &drivers);
            member = node.twin.expect("a node here is well formed");
            towards_commit(&mut self.rng, &mut member, plan);
        }
    }

    /// A driver reads some bytes, or another call is made: an access by anybody, a reset, a
    /// commit, or any; now and then on a copy with words changed.
    fn drive_once(&mut self, node: &mut Node, drivers: &mut Drivers, pool: &mut Pool) {
        let member = node.twin.as_ref().expect("a node here is well formed");
        let may: Vec<u32> = (0..GUESTS).filter(|&guest| may_ask(&member.rights, guest, Request::PortRead).is_ok()).collect();
        let rng = &mut self.rng;
        let (guest, any) = (if may.is_empty() { 0 } else { rng.pick(&may) }, any_guest(rng));
        let shown = member.ports[guest as usize].line & DIVISOR == 0;
        let (caller, call) = match rng.below(20) {
            0..=2 if shown && !may.is_empty() => {
                let bytes = rng.pick(&[1, 2, 5, 20]);
                self.poll(node, drivers, guest, bytes);
                return;
            }
            0..=10 => {
                for _ in 0..rng.between(1, 20) {
                    let (call, lengths) = (some_access(&mut self.rng), self.lengths(node));
                    self.driven(node, drivers, Caller::Guest(guest), &call, lengths);
                }
                return;
            }
            11..=13 => (Caller::Guest(any), some_access(rng)),
            14 => (Caller::Host, some_reset(rng)),
            15 => return self.commit_amid(node, drivers),
            16 | 17 => return self.ports_changed(node, pool),
            _ => {
                let call = any_call(rng, member, pool);
                (self.caller_of(&call), call)
            }
        };
        let lengths = self.lengths(node);
        self.driven(node, drivers, caller, &call, lengths);
    }

    fn commit_amid(&mut self, node: &mut Node, drivers: &mut Drivers) {
        let listed = node.twin.as_ref().expect("a node here is well formed").listing().len();
        let whole = (node.state.len(), node.table.len());
        let answer = self.driven(node, drivers, Caller::Host, &Call::Commit, whole);
        let amid = drivers.0.iter().any(|received| (1..=listed).contains(&received.len()));
        self.figures.ports.amid += u64::from(answer >> 32 == 0 && amid);
        self.compare_received(node, drivers);
    }

    /// Some calls on a copy of the node with words of ports changed, with any, or with a
    /// chain made up on which all may read.
    fn ports_changed(&mut self, node: &Node, pool: &mut Pool) {
        let member = node.twin.as_ref().expect("a node here is well formed");
        let mut copy = node.clone();
        let sort = self.rng.below(10);
        match sort {
            0..=3 => (0..self.rng.between(1, 2)).for_each(|_| change_port(&mut self.rng, member, &mut copy.table)),
            4 => change_word(&mut self.rng, member, &mut copy.state, &mut copy.table),
            _ => {
                make_up_chain(&mut self.rng, member, &mut copy.state, &mut copy.table);
                copy.state[RIGHTS] |= 0xff << 24;
            }
        }
        copy.read_again();
        self.figures.changed += 1;
        self.figures.malformed += u64::from(copy.twin.is_none());
        match &copy.twin {
            Some(twin) => {
                let drivers = Drivers::of(twin);
                self.drive_changed(copy, drivers, pool);
            }
            None => self.call_malformed(copy, member, sort < 4, pool),
        }
    }

    /// All that may read some bytes; then some calls, most of them accesses.
    fn drive_changed(&mut self, mut node: Node, mut drivers: Drivers, pool: &mut Pool) {
        for guest in 0..GUESTS {
            let twin = node.twin.as_ref().expect("well formed");
            let shown = twin.ports[guest as usize].line & DIVISOR == 0;
            if shown && may_ask(&twin.rights, guest, Request::PortRead).is_ok() {
                let bytes = self.rng.pick(&[0, 2, 2, 10]);
                self.poll(&mut node, &mut drivers, guest, bytes);
            }
        }
        for _ in 0..self.rng.between(1, 4) {
            let twin = node.twin.as_ref().expect("well formed");
            let call = if self.rng.chance(800) { some_access(&mut self.rng) } else { any_call(&mut self.rng, twin, pool) };
            let (caller, lengths) = (self.caller_of(&call), self.lengths(&node));
            self.driven(&mut node, &mut drivers, caller, &call, lengths);
        }
        self.compare_received(&node, &drivers);
    }

    /// Any calls, of which only an open may be accepted.
    fn call_malformed(&mut self, mut node: Node, hint: &Member, for_a_port: bool, pool: &mut Pool) {
        for _ in 0..self.rng.between(1, 3) {
            let call = if self.rng.chance(400) { some_access(&mut self.rng) } else { any_call(&mut self.rng, hint, pool) };
            let (caller, lengths) = (self.caller_of(&call), self.lengths(&node));
            self.figures.ports.malformed[call.kind()] += u64::from(for_a_port);
            self.call_by(caller, &mut node, &call, lengths);
            if node.twin.is_some() {
                return;
            }
        }
    }
}
