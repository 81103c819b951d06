//! The chain as header and package list it: `chains SEED STATES`.
//!
//! States are grown by runs, with words changed here and there and with chains made up on what they
//! hold. Each is listed by `Engine::chain`, by `lent::chain` and by `forgelilac_chain` of the header,
//! and must be as the reference has it; and by reads alone, one for each place and each block, which
//! is how chains were listed before. A state that is not well formed must be refused with 1 by all.
//! So must each without its rights, and without its margin too, as states were stored before; brought
//! along, it is well formed. Rights are told alike by header and package, and a guest lists what the host
//! does where it has the read right, else nothing. What a commit would add is told by `Engine::preview`, by
//! `lent::preview` and by the header's `forgelilac_preview`, and must be as the reference has it. So is what
//! a commit hangs on, by `Engine::critical`, `lent::critical` and `forgelilac_critical`, which leave the
//! table as it was; also where certificates of the present round and the one before are in blocks already,
//! as no run has them. So is what a bond does to the shares, by `Engine::bond_effect`, `lent::bond_effect`
//! and `forgelilac_bond_effect`; and what accesses to ports and a reset answer and leave in the table, by
//! `Guest::port_read`, `lent::guest_port_read`, `forgelilac_guest_port_read` and those beside them.
//! The archive has the version and the format of both, and a sheet that is written beyond its places is refused.
//! Then a full state of ceiling 1,024, with times.

#![allow(dead_code)]

mod calls;
mod grow;
mod nodes;
mod words;

use calls::Rng;
use forgelilac::lent::{self, CertificateRecord, Place};
use forgelilac::{layout, leader, Block, Certificate, Engine, Entry, Proposal, Refusal, Sheet, Transaction, MEMBERS};
use forgelilac::{Critical, Effect, Member, Right, Rights, Round, Words};
use grow::*;
use nodes::Node;
use std::ffi::{c_char, CStr};
use std::time::Instant;
use words::STATE_WORDS;

mod header {
    use super::c_char;
    extern "C" {
        pub fn header_chain(s: *const u32, sn: usize, t: *const u32, tn: usize, out: *mut u32, n: usize) -> u64;
        pub fn header_guest_chain(
            caller: u32, s: *const u32, sn: usize, t: *const u32, tn: usize, out: *mut u32, n: usize,
        ) -> u64;
        pub fn header_is_well_formed(s: *const u32, sn: usize, t: *const u32, tn: usize) -> i32;
        pub fn header_may(s: *const u32, sn: usize, caller: u32, right: u32) -> i32;
        pub fn header_rights(propose: u32, sign: u32, drive: u32, read: u32) -> u32;
        pub fn header_leader(round: u32, weights: *const u32) -> u32;
        pub fn header_refusal_text(number: u32) -> *const c_char;
        pub fn header_version() -> *const c_char;
        pub fn header_version_number() -> u32;
        pub fn header_answer_of(answer: u64, value: *mut u32) -> u32;
        pub fn header_write(sheet: *mut u32, by_member: i32, place: u32, value: u32) -> u32;
        pub fn header_record_of(words: *const u32, record: *mut super::CertificateRecord);
        pub fn header_waiting(t: *const u32, guest: u32) -> u32;
        pub fn header_preview(s: *const u32, sn: usize, t: *const u32, tn: usize, list: *mut u32, n: usize) -> u64;
        pub fn header_critical(s: *const u32, sn: usize, t: *mut u32, tn: usize, list: *mut u32, n: usize) -> u64;
        pub fn header_bond_effect(
            s: *const u32, sn: usize, t: *const u32, tn: usize, member: u32, round: u32, amount: u32, out: *mut u32, n: usize,
        ) -> u32;
        pub fn header_guest_port_read(caller: u32, s: *const u32, sn: usize, t: *mut u32, tn: usize, offset: u32) -> u64;
        pub fn header_guest_port_write(
            caller: u32, s: *const u32, sn: usize, t: *mut u32, tn: usize, offset: u32, value: u8,
        ) -> u32;
        pub fn header_port_reset(s: *const u32, sn: usize, t: *mut u32, tn: usize, port: u32) -> u32;
        pub fn header_number(which: u32) -> u32;
    }
}

/// Lengths and offsets of the package, in the order of header.c.
#[rustfmt::skip]
const NUMBERS: [usize; 88] = [
    layout::FORMAT as usize, MEMBERS, layout::TRANSACTIONS, layout::BLOCKS, layout::STACK_BYTES,
    layout::STATE_WORDS, layout::BODY_WORDS, layout::PROPOSAL_WORDS, layout::CERTIFICATE_WORDS,
    layout::HELD_WORDS, layout::SHEET_WORDS, layout::STATE_OWN, layout::STATE_LOOKBACK,
    layout::STATE_CEILING, layout::STATE_ALLOWANCE, layout::STATE_WEIGHTS, layout::STATE_ROUND,
    layout::STATE_PROPOSED, layout::STATE_BLOCKS, layout::STATE_BODY, layout::ROW_WORDS,
    layout::ROW_HELD, layout::ROW_ENDORSED, layout::ROW_BLOCK, layout::ROW_RECORDS,
    layout::RECORD_WORDS, layout::RECORD_PREVIOUS, layout::RECORD_COUNT, layout::RECORD_BLOCK,
    layout::RECORD_ENDORSERS, layout::RECORD_TRANSACTIONS, layout::row(7),
    layout::record(Member::new(5), Round::new(7)), forgelilac::table_words(64) as usize, layout::rows_words(64),
    layout::BATCH_RECORDS, size_of::<CertificateRecord>(), layout::GUESTS, layout::QUEUE_PLACES,
    layout::TRANSACTION_WORDS, layout::SERVED, layout::WAITING, layout::queue(0), layout::queue(7),
    layout::ENTRY_WORDS, layout::ENTRY_BLOCK, layout::ENTRY_ROUND, layout::ENTRY_AUTHOR, layout::preview_words(64),
    layout::STATE_MARGIN, layout::SHEET_WORDS, layout::PLACE_WORDS, layout::PLACE_ROUND, layout::PLACE_AUTHOR,
    layout::CRITICAL_WORDS, layout::STATE_RIGHTS, Rights::NONE.to_word() as usize, Right::Propose as usize,
    Right::Sign as usize, Right::Drive as usize, Right::Read as usize, Refusal::NoRight as usize,
    layout::EFFECT_WORDS, layout::EFFECT_BEFORE, layout::EFFECT_AFTER, layout::EFFECT_LARGEST,
    Refusal::EmptyCommittee as usize, layout::PORT_WORDS, layout::port(0), layout::port(7),
    layout::PORT_PLACE, layout::PORT_BYTE, layout::PORT_ENABLE, layout::PORT_LINE,
    layout::PORT_MODEM, layout::PORT_SCRATCH, layout::PORT_DIVISOR_LOW, layout::PORT_DIVISOR_HIGH,
    layout::OFFSETS as usize, layout::OFFSET_DATA as usize, layout::OFFSET_ENABLE as usize, layout::OFFSET_INTERRUPT as usize,
    layout::OFFSET_LINE as usize, layout::OFFSET_MODEM as usize, layout::OFFSET_STATUS as usize, layout::OFFSET_MODEM_STATUS as usize,
    layout::OFFSET_SCRATCH as usize, Refusal::OffsetRange as usize,
];

/// Accesses to a port, one after another: an offset, and the byte where it is a write.
const ACCESSES: [(u32, Option<u8>); 21] = [
    (5, None), (2, None), (0, None), (0, None), (1, Some(0xff)), (2, None), (0, Some(7)), (3, Some(0x83)), (0, Some(12)),
    (1, Some(1)), (0, None), (1, None), (3, Some(3)), (1, None), (0, None), (4, Some(0xff)), (7, Some(0xa5)), (7, None),
    (6, None), (8, None), (u32::MAX, Some(1)),
];

fn text(of: *const c_char) -> &'static str {
    // SAFETY: a literal of the header.
    unsafe { CStr::from_ptr(of) }.to_str().expect("plain text")
}

/// Header and package say the same: version, lengths, offsets, refusals, records of a row.
fn compare_header() {
    // SAFETY: numbers in, numbers and literals out; 17 words, and a record of as many.
    unsafe {
        assert_eq!(text(header::header_version()), forgelilac::ENGINE_VERSION);
        let (major, minor, patch) = forgelilac::archive_version();
        assert_eq!(header::header_version_number(), 1_000_000 * major + 1_000 * minor + patch);
        assert_eq!(format!("{major}.{minor}.{patch}"), forgelilac::ENGINE_VERSION);
        assert_eq!(forgelilac::archive_format(), layout::FORMAT);
        for (answer, parts) in [(0, (0, 0)), (7, (0, 7)), (9 << 32, (9, 0)), (u64::MAX, (u32::MAX, u32::MAX))] {
            let mut value = 77;
            assert_eq!((header::header_answer_of(answer, &mut value), value), parts);
        }
        for (which, number) in (0..).zip(NUMBERS) {
            assert_eq!(header::header_number(which) as usize, number, "number {which}");
        }
        assert_eq!(header::header_number(NUMBERS.len() as u32), u32::MAX);
        for number in (1..=23).chain(25..=31) {
            assert_eq!(text(header::header_refusal_text(number)), Refusal::of(number).unwrap().meaning());
        }
        assert_eq!(text(header::header_refusal_text(0)), "accepted");
        assert_eq!(text(header::header_refusal_text(24)), "record unreadable");
        for number in [32, u32::MAX] {
            assert_eq!(text(header::header_refusal_text(number)), "no refusal of this version");
        }
        let words = std::array::from_fn(|at| 100 + at as u32);
        let mut record = CertificateRecord::from([0; layout::CERTIFICATE_WORDS]);
        header::header_record_of(words.as_ptr(), &mut record);
        assert_eq!(record, words.into());
        // Of a set of callers more than eight bits are none.
        for [propose, sign, drive, read] in [[0; 4], [1, 2, 4, 8], [255; 4], [0x1a5, 0x5a, 0xff00, 0x80]] {
            let sets = [propose, sign, drive, read].map(|set| set as u8);
            let rights = Rights { propose: sets[0], sign: sets[1], drive: sets[2], read: sets[3] };
            assert_eq!(header::header_rights(propose, sign, drive, read), rights.to_word());
        }
    }
}

/// A sheet that the header writes is the package's; beyond the settings and the members it is refused, writes
/// nothing beyond its words, and the sheet opens nothing any more, whatever is written to it then.
fn compare_sheets() {
    let write = |sheet: &mut [u32], by_member, place, value| {
        // SAFETY: forty words and some more.
        unsafe { header::header_write(sheet.as_mut_ptr(), by_member, place, value) }
    };
    let opened = |sheet: &[u32]| {
        let (mut state, mut table) = ([0; STATE_WORDS], vec![0; words::table_words(64)]);
        lent::open(&mut state, &mut table, Member::new(0), &sheet[..layout::SHEET_WORDS], 0)
    };
    let mut by_header = [0; layout::SHEET_WORDS + 200];
    by_header[layout::SHEET_WORDS..].fill(77);
    let weights = std::array::from_fn(|member| Some(5 + member as u32));
    let by_package = Sheet { ceiling: Some(64), margin: Some(4), weights, lookback: None, allowance: Some(2) };
    for (by_member, place, value) in
        [(0, 1, 64), (0, 2, 2), (0, 19, 4)].into_iter().chain((0..16).map(|member| (1, member, 5 + member)))
    {
        assert_eq!(write(&mut by_header, by_member, place, value), 0);
    }
    assert_eq!(by_header[..layout::SHEET_WORDS], by_package.to_words());
    assert_eq!(opened(&by_header), Ok(()));
    for (by_member, place, refusal) in [(0, 20, 2), (0, 119, 2), (0, u32::MAX, 2), (1, 16, 4), (1, 19, 4), (1, u32::MAX, 4)] {
        let mut sheet = by_header;
        assert_eq!(write(&mut sheet, by_member, place, 4), refusal);
        assert_eq!(sheet[1..], by_header[1..]);
        assert_eq!(opened(&sheet), Err(Refusal::Malformed));
        // Told of no other place either.
        assert_eq!((write(&mut sheet, 0, 0, 20), write(&mut sheet, 1, 3, 1)), (2, 2));
        assert_eq!(sheet[1..], by_header[1..]);
        assert_eq!(opened(&sheet), Err(Refusal::Malformed));
    }
}

/// Leaders of rounds by weights at and about 0, as header, package and reference have them.
fn compare_leaders(rng: &mut Rng) {
    for turn in 0..1_000_000 {
        let weights: [u32; MEMBERS] = std::array::from_fn(|_| rng.pick(&[0, 0, 1, 2, 1_000, 81_536_000, u32::MAX]));
        let round = if turn % 50 == 0 { rng.pick(&[0, 1, 2, u32::MAX - 1, u32::MAX]) } else { rng.between(0, 1_100) };
        let committee: reference::Committee = weights.map(Into::into);
        // The reference is asked of even rounds alone.
        let expected = if round % 2 == 0 && round > 0 { reference::leader(round, &committee) } else { None };
        // SAFETY: sixteen weights.
        let found = unsafe { header::header_leader(round, weights.as_ptr()) };
        assert_eq!(found, expected.unwrap_or(MEMBERS as u32));
        assert_eq!(leader(Round::new(round), &weights).map(Member::get), expected);
    }
}

// -------------------------------------------------------------- listing ---

/// The chain by reads alone: one for each place up to the last block's round, one for each block, one
/// committee for each block.
fn by_reads<W: Words>(engine: &Engine<W>) -> Result<Vec<Block>, Refusal> {
    let rounds = (1..=engine.blocks()).map(|number| engine.block(number));
    let empty = |round| Block { round, certificates: Vec::new() };
    let mut chain = rounds.map(|round| round.map(empty)).collect::<Result<Vec<_>, _>>()?;
    let last = chain.last().map_or(0, |block| block.round.get());
    for (author, round) in (1..=last).flat_map(|r| Member::ALL.map(|a| (a, Round::new(r)))) {
        match engine.certificate(author, round) {
            Ok(held) => {
                if let Some(block) = held.block {
                    chain[block as usize - 1].certificates.push(Entry { block, author, round });
                }
            }
            Err(Refusal::NoneThere) => {}
            Err(refusal) => return Err(refusal),
        }
    }
    for block in &mut chain {
        let weights = engine.committee(block.round)?;
        let start = leader(block.round, &weights);
        // SAFETY: sixteen weights.
        let found = unsafe { header::header_leader(block.round.get(), weights.as_ptr()) };
        assert_eq!(found, start.map_or(MEMBERS as u32, Member::get));
        let (first, members) = (start.map_or(0, Member::get), MEMBERS as u32);
        block.certificates.sort_by_key(|one| (one.round, (one.author.get() + members - first) % members));
    }
    Ok(chain)
}

fn flat(chain: &[Block]) -> Vec<Place> {
    chain.iter().flat_map(|block| block.certificates.iter().copied()).collect()
}

/// By the header, as the host or as a guest, into a list of some words that were 77.
fn by_header(caller: Option<u32>, state: &[u32], table: &[u32], words: usize) -> Result<(usize, Vec<u32>), u32> {
    let mut out = vec![77; words];
    let (s, sn, t, tn) = (state.as_ptr(), state.len(), table.as_ptr(), table.len());
    // SAFETY: whole slices.
    let answer = unsafe {
        match caller {
            None => header::header_chain(s, sn, t, tn, out.as_mut_ptr(), out.len()),
            Some(caller) => header::header_guest_chain(caller, s, sn, t, tn, out.as_mut_ptr(), out.len()),
        }
    };
    match (answer >> 32) as u32 {
        0 => Ok((answer as u32 as usize, out)),
        number => {
            assert!(out.iter().all(|&word| word == 77) && answer as u32 == 0);
            Err(number)
        }
    }
}

#[derive(Default)]
struct Figures {
    states: u64,
    malformed: u64,
    without_blocks: u64,
    large: u64,
    blocks: u64,
    most: usize,
    certificates: u64,
    turned: u64,
    by_reads: u64,
    above: u64,
    waiting: u64,
    /// Previews that were accepted, and their entries.
    previewed: u64,
    entries: u64,
    /// Those that an engine could own.
    owned: u64,
    /// Lists of what a commit hangs on that were accepted, their places, and those of certificates that
    /// are in a block already; lists without the anchor, and with more than it and votes.
    criticals: u64,
    places: u64,
    marked: u64,
    without_anchor: u64,
    with_others: u64,
    /// Reads of what a bond does to the shares that were accepted, and those refused with 30.
    effects: [u64; 2],
    /// Accesses to ports that were accepted, bytes that they took, and those refused with 1, 26, 29 and 31.
    ports: [u64; 6],
    /// States of before there was a margin, and of before there were rights, that were brought along.
    brought: [u64; 2],
    /// Chains asked for by guests: listed, refused with 1 or 25, with 26 and with 29.
    guests: [u64; 4],
}

impl Figures {
    fn compare(&mut self, node: &Node) {
        let (state, table) = (&node.state[..], &node.table[..]);
        let words: [u32; STATE_WORDS] = state[..STATE_WORDS].try_into().unwrap();
        // Where no calls leave the words so, each call of the engine tests them.
        match Engine::try_restore(words, table.to_vec()) {
            Ok(engine) => {
                self.owned += 1;
                self.compare_engine(node, &engine);
            }
            Err(refusal) => {
                assert_eq!(refusal, Refusal::Malformed);
                self.compare_engine(node, &Engine::lent(words, table.to_vec()));
            }
        }
    }

    fn compare_engine<W: Words>(&mut self, node: &Node, engine: &Engine<W>) {
        let (state, table) = (&node.state[..], &node.table[..]);
        self.states += 1;
        self.large += u64::from(table.len() >= words::table_words(forgelilac::CEILING));
        // SAFETY: whole slices.
        let formed = unsafe { header::header_is_well_formed(state.as_ptr(), state.len(), table.as_ptr(), table.len()) };
        assert_eq!((formed == 1, engine.is_well_formed()), (node.twin.is_some(), node.twin.is_some()));
        self.compare_before(node);
        self.compare_rights(node, engine);
        self.compare_guest(node, engine);
        self.compare_waiting(node, engine);
        compare_held(node, engine);
        self.compare_previews(node, engine);
        self.compare_criticals(node, engine.clone());
        self.compare_effects(node, engine);
        self.compare_ports(node, engine.clone());
        let Some(twin) = &node.twin else {
            self.malformed += 1;
            self.without_blocks += u64::from(engine.blocks() == 0);
            assert_eq!(engine.chain(), Err(Refusal::Malformed));
            assert_eq!(lent::chain(state, table, &mut [0; 54]), Err(Refusal::Malformed));
            assert_eq!(by_header(None, state, table, 54), Err(1));
            return;
        };
        let of_twin = |(block, made): (u32, &reference::Block)| {
            let entry = |&(r, a): &(u32, u32)| Entry { block, author: Member::new(a), round: Round::new(r) };
            Block { round: Round::new(made.round), certificates: made.certificates.iter().map(entry).collect() }
        };
        let expected: Vec<Block> = (1..).zip(&twin.chain).map(of_twin).collect();
        assert_eq!(engine.chain().as_ref(), Ok(&expected));
        self.compare_lent(state, table, &flat(&expected));
        self.blocks += expected.len() as u64;
        self.most = self.most.max(expected.len());
        self.turned += twin.chain.iter().filter(|block| !block.certificates.is_sorted()).count() as u64;
        // By reads, certificates above the last block's round were not looked for.
        let last = twin.last_block_round();
        if expected.iter().any(|block| block.certificates.iter().any(|one| one.round > last)) {
            self.above += 1;
        } else {
            self.by_reads += 1;
            assert_eq!(by_reads(engine), Ok(expected));
        }
    }

    /// Without its rights, or its margin too, a state is one of before: refused. Brought along, it is well
    /// formed where it was with its own, whatever rights it is given.
    fn compare_before(&mut self, node: &Node) {
        let table = &node.table[..];
        for (format, words) in [(1, layout::STATE_MARGIN), (2, layout::STATE_RIGHTS)] {
            let stored = &node.state[..words];
            // SAFETY: whole slices.
            let formed =
                unsafe { header::header_is_well_formed(stored.as_ptr(), words, table.as_ptr(), table.len()) };
            assert!(formed == 0 && !lent::is_well_formed(stored, table));
            let rights = node.state[layout::STATE_RIGHTS].rotate_left(7);
            let brought = layout::brought_along(format, stored, rights).unwrap();
            assert_eq!((&brought[..words], brought[layout::STATE_RIGHTS]), (stored, rights));
            assert!(format == 2 || brought[layout::STATE_MARGIN] == 3);
            if node.twin.is_some() {
                assert!(lent::is_well_formed(&brought, table));
                self.brought[format as usize - 1] += 1;
            }
        }
        assert_eq!(layout::brought_along(3, &node.state, 5).unwrap(), node.state[..STATE_WORDS]);
    }

    /// Rights as header, package and reference tell them.
    fn compare_rights<W: Words>(&mut self, node: &Node, engine: &Engine<W>) {
        let (state, rights) = (&node.state[..], words::rights_in(&node.state));
        assert_eq!(lent::rights(state), engine.rights());
        assert_eq!(engine.rights().to_word(), state[layout::STATE_RIGHTS]);
        assert_eq!(lent::rights(&state[..layout::STATE_RIGHTS]), Rights::NONE);
        let callers = (0..10).chain([u32::MAX]);
        for (caller, right) in callers.flat_map(|caller| Right::ALL.map(|right| (caller, right))) {
            let may = rights.get(caller as usize).is_some_and(|of_caller| of_caller[right as usize]);
            assert_eq!(engine.rights().may(caller, right), may);
            for (words, expected) in [(state.len(), may), (39, may), (38, false), (0, false)] {
                // SAFETY: the beginning of a slice.
                let in_header = unsafe { header::header_may(state.as_ptr(), words, caller, right as u32) };
                assert_eq!(in_header, expected.into());
            }
            // SAFETY: a whole slice. There is no right 4.
            assert_eq!(unsafe { header::header_may(state.as_ptr(), state.len(), caller, 4) }, 0);
        }
    }

    /// The chain as a guest lists it: as the host does with the read right, else not at all. At times the
    /// list is short.
    fn compare_guest<W: Words>(&mut self, node: &Node, engine: &Engine<W>) {
        let (state, table) = (&node.state[..], &node.table[..]);
        let caller = (self.states % 10) as u32;
        let ceiling = node.twin.as_ref().map_or(3, |twin| twin.settings.ceiling as usize);
        let room = layout::HELD_WORDS * if self.states % 7 == 0 { 1 } else { MEMBERS * ceiling };
        let may = reference::may_ask(&words::rights_in(state), caller, reference::Request::Block);
        let expected = may.and_then(|()| engine.chain().map_err(Refusal::number));
        assert_eq!(engine.reader(caller).chain().map_err(Refusal::number), expected);
        let mut list = vec![77; room];
        let mut by_host = list.clone();
        let expected = may.and_then(|()| lent::chain(state, table, &mut by_host).map_err(Refusal::number));
        assert_eq!(lent::guest_chain(caller, state, table, &mut list).map_err(Refusal::number), expected);
        assert!(list == by_host);
        let by_host = may.and_then(|()| by_header(None, state, table, room));
        assert!(by_header(Some(caller), state, table, room) == by_host);
        self.guests[match expected { Ok(_) => 0, Err(1 | 25) => 1, Err(26) => 2, _ => 3 }] += 1;
    }

    /// What a commit would add, as package, header and reference have it, into a list that is just
    /// long enough, longer, and one word short.
    fn compare_previews<W: Words>(&mut self, node: &Node, engine: &Engine<W>) {
        let (state, table) = (&node.state[..], &node.table[..]);
        let needed = layout::preview_words(state[layout::STATE_CEILING].clamp(3, forgelilac::CEILING));
        for words in [needed, needed + 2, needed - 1] {
            let mut expected = vec![77; words];
            let answer = node.twin.as_ref().map_or(Err(1), |twin| twin.preview(&mut expected));
            let (mut lent_list, mut header_list) = (vec![77; words], vec![77; words]);
            let found = lent::preview(state, table, &mut lent_list).map_err(Refusal::number);
            // SAFETY: whole slices.
            let in_header = unsafe {
                let (list, n) = (header_list.as_mut_ptr(), header_list.len());
                header::header_preview(state.as_ptr(), state.len(), table.as_ptr(), table.len(), list, n)
            };
            assert_eq!(found, answer);
            assert_eq!(in_header, answer.map_or_else(|number| u64::from(number) << 32, u64::from));
            assert!(lent_list == expected && header_list == expected);
            if words == needed {
                let entry = |w: &[u32]| Entry { block: w[0], round: Round::new(w[1]), author: Member::new(w[2]) };
                let entries = answer.map(|count| expected.chunks(3).take(count as usize).map(entry).collect::<Vec<_>>());
                self.previewed += u64::from(entries.is_ok());
                self.entries += entries.as_ref().map_or(0, Vec::len) as u64;
                assert_eq!(engine.preview().map_err(Refusal::number), entries);
            }
        }
    }

    /// What a commit hangs on, as package, header and reference have it, into a list that is just long
    /// enough, longer, and one word short. The table is lent for writing, and is then as it was.
    fn compare_criticals<W: Words>(&mut self, node: &Node, mut engine: Engine<W>) {
        let state = &node.state[..];
        for words in [layout::CRITICAL_WORDS, layout::CRITICAL_WORDS + 1, layout::CRITICAL_WORDS - 1] {
            let mut expected = vec![77; words];
            let answer = node.twin.as_ref().map_or(Err(1), |twin| twin.critical(&mut expected));
            let (mut lent_list, mut header_list) = (vec![77; words], vec![77; words]);
            let (mut lent_table, mut header_table) = (node.table.clone(), node.table.clone());
            let found = lent::critical(state, &mut lent_table, &mut lent_list).map_err(Refusal::number);
            // SAFETY: whole slices.
            let in_header = unsafe {
                let (table, tn) = (header_table.as_mut_ptr(), header_table.len());
                let (list, n) = (header_list.as_mut_ptr(), header_list.len());
                header::header_critical(state.as_ptr(), state.len(), table, tn, list, n)
            };
            assert_eq!(found, answer);
            assert_eq!(in_header, answer.map_or_else(|number| u64::from(number) << 32, u64::from));
            assert!(lent_list == expected && header_list == expected);
            assert!(lent_table == node.table && header_table == node.table);
            if words == layout::CRITICAL_WORDS {
                let place = |w: &[u32]| Critical { round: Round::new(w[0]), author: Member::new(w[1]) };
                let places = answer.map(|count| expected.chunks(2).take(count as usize).map(place).collect::<Vec<_>>());
                let before = engine.clone();
                assert_eq!(engine.critical().map_err(Refusal::number), places);
                assert!(engine == before);
                if let (Ok(places), Some(twin)) = (places, &node.twin) {
                    self.count_places(twin, &places);
                }
            }
        }
    }

    /// What a bond does to the shares, as package, header and reference have it, into a stretch that is
    /// just long enough, longer, and one word short.
    fn compare_effects<W: Words>(&mut self, node: &Node, engine: &Engine<W>) {
        let (state, table) = (&node.state[..], &node.table[..]);
        let known = node.twin.as_ref().map_or(1, |twin| twin.settings.lookback + twin.last_block_round() + 2);
        let bonds = [(0, 1, 1), (5, known, 16), (15, known, 1_000), (15, known + 1, 7), (3, 1, 0), (3, 1, 1_001), (3, 0, 0), (16, 0, 0)];
        for (member, round, amount) in bonds {
            let answer = node.twin.as_ref().map_or(Err(1), |twin| twin.read_effect(member, round, amount));
            self.effects[0] += u64::from(answer.is_ok());
            self.effects[1] += u64::from(answer == Err(30));
            let effect = answer.map(|told| Effect::from_words(&told.words()));
            let (of, in_round) = (Member::new(member), Round::new(round));
            let found = lent::bond_effect(state, table, of, in_round, amount);
            assert_eq!(found.map_err(Refusal::number), effect);
            assert_eq!(engine.bond_effect(of, in_round, amount), found);
            for words in [layout::EFFECT_WORDS, layout::EFFECT_WORDS + 1, layout::EFFECT_WORDS - 1] {
                let (mut out, mut expected) = (vec![77; words], vec![77; words]);
                let answer = if words < layout::EFFECT_WORDS { Err(1) } else { answer };
                answer.iter().for_each(|told| expected[..layout::EFFECT_WORDS].copy_from_slice(&told.words()));
                // SAFETY: whole slices.
                let found = unsafe {
                    let (s, sn, t, tn) = (state.as_ptr(), state.len(), table.as_ptr(), table.len());
                    header::header_bond_effect(s, sn, t, tn, member, round, amount, out.as_mut_ptr(), out.len())
                };
                assert_eq!((found, out), (answer.err().unwrap_or(0), expected));
            }
        }
    }

    /// Accesses to a port and a reset of it, as package, header and reference have them: what they answer, and
    /// the table after them.
    fn compare_ports<W: Words>(&mut self, node: &Node, mut engine: Engine<W>) {
        let caller = (self.states % 9) as u32;
        let (state, mut twin) = (&node.state[..], node.twin.clone());
        let (mut lent_table, mut header_table) = (node.table.clone(), node.table.clone());
        let may = reference::may_ask(&words::rights_in(state), caller, reference::Request::PortRead);
        for (offset, value) in ACCESSES {
            let refused = may.and_then(|()| reference::may_access(offset));
            let expected = refused.and_then(|()| twin.as_mut().ok_or(1)).and_then(|twin| match value {
                None => twin.guest_port_read(caller, offset),
                Some(value) => twin.guest_port_write(caller, offset, value).map(|()| 0),
            });
            let (s, sn, t, tn) = (state.as_ptr(), state.len(), header_table.as_mut_ptr(), header_table.len());
            let stands = |table: &[u32]| table[layout::port(caller % 8)..][..2].to_vec();
            let before = stands(&lent_table);
            let (by_guest, by_words, in_header) = match value {
                None => (
                    engine.guest(caller).port_read(offset),
                    lent::guest_port_read(caller, state, &mut lent_table, offset),
                    // SAFETY: whole slices.
                    unsafe { header::header_guest_port_read(caller, s, sn, t, tn, offset) },
                ),
                Some(value) => (
                    engine.guest(caller).port_write(offset, value).map(|()| 0),
                    lent::guest_port_write(caller, state, &mut lent_table, offset, value).map(|()| 0),
                    // SAFETY: whole slices.
                    u64::from(unsafe { header::header_guest_port_write(caller, s, sn, t, tn, offset, value) }) << 32,
                ),
            };
            assert_eq!(by_guest.map_err(Refusal::number), expected, "offset {offset}");
            assert_eq!(by_words.map_err(Refusal::number), expected, "offset {offset}");
            assert_eq!(in_header, expected.map_or_else(|number| u64::from(number) << 32, u64::from));
            self.ports[1] += u64::from(stands(&lent_table) != before);
            self.ports[match expected { Ok(_) => 0, Err(1) => 2, Err(26) => 3, Err(29) => 4, Err(_) => 5 }] += 1;
        }
        let same = |engine: &Engine<W>, lent_table: &[u32], header_table: &[u32], twin: &Option<reference::Member>| {
            let mut table = node.table.clone();
            twin.iter().for_each(|twin| words::write_table(twin, &mut table));
            assert!(engine.words().1 == table && lent_table == table && header_table == table);
        };
        same(&engine, &lent_table, &header_table, &twin);
        let expected = reference::may_reset(caller).and_then(|()| twin.as_mut().ok_or(1u32)?.port_reset(caller));
        assert_eq!(engine.port_reset(caller).map_err(Refusal::number), expected);
        assert_eq!(lent::port_reset(state, &mut lent_table, caller).map_err(Refusal::number), expected);
        let (t, tn) = (header_table.as_mut_ptr(), header_table.len());
        // SAFETY: whole slices.
        let in_header = unsafe { header::header_port_reset(state.as_ptr(), state.len(), t, tn, caller) };
        assert_eq!(in_header, expected.err().unwrap_or(0));
        same(&engine, &lent_table, &header_table, &twin);
    }

    fn count_places(&mut self, twin: &reference::Member, places: &[Critical]) {
        let author = Member::new(twin.may_commit().expect("a commit would go"));
        let anchor = Critical { round: Round::new(twin.round - 1), author };
        let held = |place: &Critical| twin.held_at(place.author.get(), place.round.get()).expect("listed is held");
        let is_vote = |place: &Critical| {
            place.round == twin.round && held(place).certificate.proposal.previous & anchor.author.bit() != 0
        };
        self.criticals += 1;
        self.places += places.len() as u64;
        self.marked += places.iter().filter(|place| held(place).block > 0).count() as u64;
        self.without_anchor += u64::from(!places.contains(&anchor));
        self.with_others += u64::from(places.iter().any(|place| *place != anchor && !is_vote(place)));
    }

    /// How many wait, as package, header and reference have it; refused where the state is malformed.
    fn compare_waiting<W: Words>(&mut self, node: &Node, engine: &Engine<W>) {
        for guest in [0, 1, 2, 3, 4, 5, 6, 7, 8, 9, u32::MAX] {
            let found = (engine.waiting(guest), lent::waiting(&node.state, &node.table, guest));
            let expected = match &node.twin {
                None => Err(Refusal::Malformed),
                Some(_) if guest > 7 => Err(Refusal::GuestRange),
                Some(twin) => Ok(twin.waiting(guest) as u32),
            };
            assert_eq!(found, (expected, expected));
            // SAFETY: a whole table, which has a row 0.
            let in_header = unsafe { header::header_waiting(node.table.as_ptr(), guest) };
            assert_eq!(in_header, expected.unwrap_or_else(|_| if guest > 7 { 0 } else { node.table[1 + guest as usize] }));
            self.waiting += u64::from(expected.unwrap_or(0));
        }
    }

    /// The two that write to a list: one that is just long enough, longer, too short.
    fn compare_lent(&mut self, state: &[u32], table: &[u32], expected: &[Place]) {
        let (count, rows) = (expected.len(), layout::HELD_WORDS * expected.len());
        self.certificates += count as u64;
        for more in [0, 3] {
            let mut list = vec![77; rows + more];
            assert_eq!(lent::chain(state, table, &mut list), Ok(count as u32));
            assert!(lent::places(&list, count as u32).eq(expected.iter().copied()));
            assert!(list[rows..].iter().all(|&word| word == 77));
            let (found, out) = by_header(None, state, table, rows + more).unwrap();
            assert_eq!(found, count);
            let place = |w: &[u32]| Place { block: w[0], round: Round::new(w[1]), author: Member::new(w[2]) };
            let places = out.chunks_exact(3).map(place);
            assert!(places.take(count).eq(expected.iter().copied()));
            assert!(out[rows..].iter().all(|&word| word == 77));
        }
        if count > 0 {
            let mut list = vec![77; rows - 1];
            assert_eq!(lent::chain(state, table, &mut list), Err(Refusal::LengthRange));
            assert!(list.iter().all(|&word| word == 77));
            assert_eq!(by_header(None, state, table, rows - 1), Err(25));
        }
    }
}

// --------------------------------------------------------------- a full one ---

/// The held set of each round, as package and reference have it, and none out of range.
fn compare_held<W: Words>(node: &Node, engine: &Engine<W>) {
    let Some(twin) = &node.twin else { return };
    let ceiling = twin.settings.ceiling;
    for round in (0..=ceiling + 1).chain([u32::MAX]) {
        let held = |author: &Member| (1..=ceiling).contains(&round) && twin.is_held(author.get(), round);
        let expected = Member::ALL.into_iter().filter(held).map(Member::bit).sum();
        let round = Round::new(round);
        assert_eq!((engine.held(round), lent::held(&node.state, &node.table, round)), (expected, expected));
    }
}

/// A full state: sixteen members, every certificate of 1,024 rounds with four transactions, blocks
/// made as they can be.
fn full() -> Engine {
    let mut engine = Engine::open(Member::new(0), &Sheet { weights: [Some(5); MEMBERS], ..Sheet::default() }).unwrap();
    for round in 1..=forgelilac::CEILING {
        for author in 0..MEMBERS as u32 {
            let member = (author + round) % 16;
            let transactions = vec![
                Transaction::Entry { number: round },
                Transaction::Unbond { member: Member::new(member) },
                Transaction::Bond { member: Member::new(member), amount: 5 },
                Transaction::Entry { number: author },
            ];
            let previous = if round == 1 { 0 } else { 0xffff };
            let proposal = Proposal { author: Member::new(author), round: Round::new(round), previous, transactions };
            engine.accept(&Certificate { proposal, endorsers: 0xffff & !(1 << author) }).unwrap();
        }
        if round > 1 && round % 2 == 1 {
            engine.commit().unwrap();
        }
        if round < forgelilac::CEILING {
            engine.advance().unwrap();
        }
    }
    engine
}

/// The best of some turns, in microseconds.
fn best(turns: u32, mut run: impl FnMut()) -> f64 {
    let times = (0..turns).map(|_| {
        let start = Instant::now();
        run();
        start.elapsed().as_secs_f64() * 1e6
    });
    times.fold(f64::MAX, f64::min)
}

fn time_full() {
    let engine = full();
    let (state, table) = engine.words();
    let expected = engine.chain().unwrap();
    assert_eq!(by_reads(&engine).as_ref(), Ok(&expected));
    let count = flat(&expected).len();
    let mut list = vec![0; layout::HELD_WORDS * count];
    let validating = best(20, || assert_eq!(lent::block(state, table, 0), Err(Refusal::NoneThere)));
    let owned = best(20, || assert_eq!(engine.chain().unwrap().len(), expected.len()));
    let lent = best(20, || assert_eq!(lent::chain(state, table, &mut list), Ok(count as u32)));
    let header = best(20, || assert_eq!(by_header(None, state, table, layout::HELD_WORDS * count).unwrap().0, count));
    let reads = best(3, || assert_eq!(by_reads(&engine).unwrap().len(), expected.len()));
    println!("full state of ceiling 1,024: {} blocks of {count} certificates", expected.len());
    println!("by reads alone {:.0} ms; one read that tests the state {validating:.0} us", reads / 1e3);
    println!("Engine::chain {owned:.0} us, lent::chain {lent:.0} us, forgelilac_chain {header:.0} us");
}

/// Takes some certificates of the present round and the one before away, and puts some of the others into
/// a block, with bonds and unbonds of two members in them, so that committees and leaders hang on them; as
/// short a lookback as will do, or 1 more. Where there is no block, one is made up. No run reaches such a
/// state. The round is above 3.
fn mark_two_rounds(rng: &mut Rng, member: &reference::Member, node: &mut Node) {
    let round = member.round;
    let places = [round - 1, round].into_iter().flat_map(|r| (0..16).map(move |a| (a, r)));
    let held: Vec<_> = places.filter(|&(author, round)| member.is_held(author, round)).collect();
    let few = [rng.pick(&held).0, rng.pick(&held).0];
    if member.chain.is_empty() {
        node.table[layout::row(1) + layout::ROW_BLOCK] = round - 3;
        node.state[layout::STATE_BLOCKS] = 1;
    }
    let last = member.chain.last().map_or(round - 3, |block| block.round);
    node.state[layout::STATE_LOOKBACK] = round - last - 2 + rng.between(0, 1);
    node.state[layout::STATE_ALLOWANCE] = 4;
    let gone = rng.pick(&[0, 100, 300]);
    for (author, round) in held {
        if rng.chance(gone) {
            node.table[layout::row(round) + layout::ROW_HELD] &= !(1 << author);
        } else if rng.chance(400) {
            let at = layout::record(Member::new(author), Round::new(round));
            let record = &mut node.table[at..][..layout::RECORD_WORDS];
            let transactions = [[0, rng.pick(&few), rng.pick(&[1, 2, 10, 1_000])], [1, rng.pick(&few), 0]];
            record[layout::RECORD_BLOCK] = rng.between(1, node.state[layout::STATE_BLOCKS]);
            record[layout::RECORD_COUNT] = 1;
            record[layout::RECORD_TRANSACTIONS..][..3].copy_from_slice(&rng.pick(&transactions));
        }
    }
}

fn main() {
    let mut arguments = std::env::args().skip(1);
    let seed = arguments.next().map_or(1, |a| a.parse().expect("SEED is a number"));
    let states = arguments.next().map_or(2_000, |a| a.parse().expect("STATES is a number"));
    compare_header();
    compare_sheets();
    let (mut rng, mut figures) = (Rng::of(seed), Figures::default());
    compare_leaders(&mut rng);
    while figures.states < states {
        // One plan of fifty has a ceiling of 1,024.
        let mut plan = Plan::any(&mut rng);
        while figures.states % 200 == 0 && plan.ceiling < forgelilac::CEILING {
            plan = Plan::any(&mut rng);
        }
        let opened = plan.open(&mut rng, plan.owns.first().copied().unwrap_or(0));
        let to = rng.between(1, plan.ceiling);
        let member = grow(&mut rng, opened, to, &plan);
        let node = Node::of(member.clone(), &mut rng);
        let owned = figures.owned;
        figures.compare(&node);
        assert!(figures.owned > owned, "a state that calls lead to is resumed");
        for turn in 0..3 {
            let mut copy = node.clone();
            if rng.chance(200) {
                change_queue(&mut rng, &mut copy.table);
            }
            if turn == 0 {
                make_up_chain(&mut rng, &member, &mut copy.state, &mut copy.table);
            } else {
                change_word(&mut rng, &member, &mut copy.state, &mut copy.table);
            }
            copy.read_again();
            figures.compare(&copy);
        }
        for _ in 0..if member.round > 3 && member.may_commit().is_ok() { 8 } else { 0 } {
            let mut copy = node.clone();
            mark_two_rounds(&mut rng, &member, &mut copy);
            if rng.chance(900) {
                place_ports(&mut rng, &copy.state, &mut copy.table);
            }
            copy.read_again();
            figures.compare(&copy);
        }
    }
    let f = figures;
    println!("{} states, {} of ceiling 1,024; {} not well formed, {} of them without a block: refused with 1",
             f.states, f.large, f.malformed, f.without_blocks);
    println!("{} blocks of {} certificates, at most {} in a state, {} of them not by round, then author: as the reference has them",
             f.blocks, f.certificates, f.most, f.turned);
    println!("{} states listed by reads alone too: the same; {} have a mark above the last block's round", f.by_reads, f.above);
    println!("{} transactions waiting in queues: counted alike", f.waiting);
    println!("{} previews accepted, with {} entries: as the reference has them", f.previewed, f.entries);
    println!("{} lists of what a commit hangs on accepted, with {} places, {} of them in a block already; {} without the anchor, {} with more than it and votes: as the reference has them",
             f.criticals, f.places, f.marked, f.without_anchor, f.with_others);
    println!("{} reads of what a bond does to the shares accepted, {} refused with 30: as the reference has them",
             f.effects[0], f.effects[1]);
    let [accepted, bytes, malformed, above, without, offsets] = f.ports;
    println!("{accepted} accesses to ports accepted, {bytes} of them took a byte; refused: 1 x {malformed}, 26 x {above}, 29 x {without}, 31 x {offsets}: as the reference has them");
    println!("{} states owned by an engine, {} looked at in each call", f.owned, f.states - f.owned);
    println!("without their margins all are refused with 1; {} of them brought along, by margin 3", f.brought[0]);
    println!("without their rights all are refused with 1; {} of them brought along, with any rights", f.brought[1]);
    let [listed, malformed, above, without] = f.guests;
    println!("{listed} chains listed by guests as by the host, {malformed} refused with 1, {above} with 26, {without} with 29");
    time_full();
}
