//! Serial ports: registers, the listing as received bytes, resets, and what a port's words may be.

use super::*;
use crate::layout::{
    port, OFFSETS, OFFSET_DATA, OFFSET_ENABLE, OFFSET_INTERRUPT, OFFSET_LINE, OFFSET_MODEM, OFFSET_MODEM_STATUS,
    OFFSET_SCRATCH, OFFSET_STATUS, PORT_BYTE, PORT_DIVISOR_HIGH, PORT_DIVISOR_LOW, PORT_ENABLE, PORT_LINE, PORT_MODEM,
    PORT_PLACE, PORT_SCRATCH, PORT_WORDS, STATE_RIGHTS,
};
use alloc::format;

const CALLERS: core::ops::Range<u32> = 0..GUESTS as u32;

/// Member 0 of four, its guests with the right to read.
fn opened() -> Engine {
    changed(&of_four(0), |state, _| state[STATE_RIGHTS] = Rights { read: 0xff, ..Rights::NONE }.to_word())
}

/// Transactions of every kind, and numbers of one digit and of ten.
fn transactions(author: u32, round: u32) -> Vec<Transaction> {
    let all = [
        entry(u32::MAX - round),
        entry(0),
        Transaction::Bond { member: Member::new(15), amount: 1_000 },
        Transaction::Unbond { member: Member::new(15) },
    ];
    all[..(author + round) as usize % 5].to_vec()
}

/// A full round is held, and where a commit can be made it is; then the next round.
fn play(engine: &mut Engine) {
    let round = engine.round();
    let previous = if round == 1 { 0 } else { 0b1111 };
    for author in 0..4 {
        engine.accept(&of_all_four(author, round.get(), previous, &transactions(author, round.get()))).unwrap();
    }
    if round.get() % 2 == 1 && round > 1 {
        assert_eq!(engine.commit(), Ok(1));
    }
    engine.advance().unwrap();
}

/// Seven rounds, three blocks.
fn with_blocks() -> Engine {
    let mut engine = opened();
    (0..7).for_each(|_| play(&mut engine));
    assert_eq!(engine.blocks(), 3);
    engine
}

/// The listing, each line with the place of its certificate: by reads, as a runner shows it.
fn lines(engine: &Engine) -> Vec<(u32, String)> {
    let mut all = Vec::new();
    for (number, block) in (1..).zip(engine.chain().unwrap()) {
        for Entry { author, round, .. } in block.certificates {
            let mut line = format!("{number},{},{round},{author}", block.round);
            for transaction in engine.certificate(author, round).unwrap().proposal.transactions {
                let [kind, number, amount] = transaction.to_words();
                line += &format!(",{},{number},{amount}", ["B", "U", "E"][kind as usize]);
            }
            all.push((16 * round.get() + author.get(), line + "\r\n"));
        }
    }
    all
}

fn listing(engine: &Engine) -> Vec<u8> {
    lines(engine).into_iter().flat_map(|(_, line)| line.into_bytes()).collect()
}

/// The words of a guest's port.
fn words<W: Words>(engine: &Engine<W>, guest: u32) -> &[u32] {
    &engine.words().1[port(guest)..][..PORT_WORDS]
}

fn is_waiting(engine: &mut Engine, guest: u32) -> bool {
    engine.guest(guest).port_read(OFFSET_STATUS).unwrap() == 0x61
}

/// What a guest receives until nothing waits, at most so many bytes.
fn receive(engine: &mut Engine, guest: u32, most: usize) -> Vec<u8> {
    let mut received = Vec::new();
    while received.len() < most && is_waiting(engine, guest) {
        received.push(engine.guest(guest).port_read(OFFSET_DATA).unwrap());
        assert!(received.len() < 10_000, "these listings are shorter");
    }
    received
}

/// What each offset reads.
fn values(engine: &Engine, guest: u32) -> [u8; OFFSETS as usize] {
    core::array::from_fn(|offset| engine.clone().guest(guest).port_read(offset as u32).unwrap())
}

#[test]
fn a_fresh_port() {
    let mut engine = opened();
    for guest in CALLERS {
        assert_eq!(values(&engine, guest), [0, 0, 1, 0, 0, 0x60, 0, 0]);
        assert_eq!(receive(&mut engine, guest, 9), []);
    }
    let mut with_blocks = with_blocks();
    for guest in CALLERS {
        assert_eq!(values(&with_blocks, guest), [b'1', 0, 1, 0, 0, 0x61, 0, 0]);
        with_blocks.guest(guest).port_write(OFFSET_ENABLE, 1).unwrap();
        assert_eq!(values(&with_blocks, guest), [b'1', 1, 4, 0, 0, 0x61, 0, 0]);
    }
}

/// Every byte written to every offset, with bit 7 of offset 3 clear and set: what is kept, and which one
/// word of the table changes.
#[test]
fn what_a_write_keeps() {
    for line in [0x03, 0x83] {
        for (offset, value) in (0..OFFSETS).flat_map(|offset| (0..=u8::MAX).map(move |value| (offset, value))) {
            let mut engine = opened();
            engine.guest(5).port_write(OFFSET_LINE, line).unwrap();
            let before = engine.clone();
            engine.guest(5).port_write(offset, value).unwrap();
            let kept = match (offset, line) {
                (OFFSET_DATA, 0x83) => Some((PORT_DIVISOR_LOW, value)),
                (OFFSET_ENABLE, 0x83) => Some((PORT_DIVISOR_HIGH, value)),
                (OFFSET_ENABLE, _) => Some((PORT_ENABLE, value & 1)),
                (OFFSET_LINE, _) => Some((PORT_LINE, value)),
                (OFFSET_MODEM, _) => Some((PORT_MODEM, value & 0x1f)),
                (OFFSET_SCRATCH, _) => Some((PORT_SCRATCH, value)),
                (OFFSET_DATA | OFFSET_INTERRUPT | OFFSET_STATUS | OFFSET_MODEM_STATUS, _) => None,
                _ => unreachable!(),
            };
            let mut expected = before.clone();
            if let Some((word, value)) = kept {
                expected = changed(&before, |_, table| table[port(5) + word] = value.into());
                assert_eq!(engine.guest(5).port_read(offset), Ok(value));
            } else {
                assert_eq!(values(&engine, 5), values(&before, 5));
            }
            assert!(engine == expected, "offset {offset}, value {value}, line {line}");
        }
    }
}

/// While bit 7 of offset 3 is set, offsets 0 and 1 are the divisor; no byte is taken, and offset 2 still
/// tells of the enable bit.
#[test]
fn the_divisor() {
    let mut engine = with_blocks();
    let write = |engine: &mut Engine, offset, value| engine.guest(2).port_write(offset, value).unwrap();
    write(&mut engine, OFFSET_ENABLE, 1);
    assert_eq!(receive(&mut engine, 2, 3), b"1,2");
    let stands = words(&engine, 2)[..2].to_vec();
    write(&mut engine, OFFSET_LINE, 0x80);
    write(&mut engine, OFFSET_DATA, 0x34);
    write(&mut engine, OFFSET_ENABLE, 0x12);
    for _ in 0..3 {
        assert_eq!(values(&engine, 2), [0x34, 0x12, 4, 0x80, 0, 0x61, 0, 0]);
        assert_eq!(engine.guest(2).port_read(OFFSET_DATA), Ok(0x34));
    }
    assert_eq!(words(&engine, 2)[..2], stands);
    write(&mut engine, OFFSET_LINE, 0x7f);
    assert_eq!(values(&engine, 2), [b',', 1, 4, 0x7f, 0, 0x61, 0, 0]);
    write(&mut engine, OFFSET_LINE, 0xff);
    assert_eq!(values(&engine, 2)[..2], [0x34, 0x12]);
    assert_eq!(words(&engine, 2)[PORT_DIVISOR_LOW..], [0x34, 0x12]);
}

/// However commits and accesses alternate, what was received since reset is a prefix of the listing: whole
/// at once, some bytes between any two calls, each guest by its own pace.
#[test]
fn received_bytes_are_a_prefix_of_the_listing() {
    for pace in [0, 1, 2, 7, 30, 1_000] {
        let mut engine = opened();
        let mut received: [Vec<u8>; GUESTS] = Default::default();
        while engine.round() < 8 {
            play(&mut engine);
            let listing = listing(&engine);
            for guest in CALLERS {
                let more = receive(&mut engine, guest, pace * (guest as usize + 1));
                received[guest as usize].extend(more);
                assert!(listing.starts_with(&received[guest as usize]));
                let all = received[guest as usize].len() == listing.len();
                assert_eq!(is_waiting(&mut engine, guest), !all);
            }
        }
        for guest in CALLERS {
            received[guest as usize].extend(receive(&mut engine, guest, usize::MAX));
            assert_eq!(received[guest as usize], listing(&engine));
        }
    }
}

/// After each byte the port's two words name it, by the place of its line and which byte of that it is; no
/// other word changes. Behind the last one nothing does.
#[test]
fn where_a_port_stands() {
    let mut engine = with_blocks();
    let lines = lines(&engine);
    let bytes = |line: &str| (1..).zip(line.bytes()).collect::<Vec<_>>();
    for (place, byte, value) in
        lines.iter().flat_map(|(place, line)| bytes(line).into_iter().map(|(byte, value)| (*place, byte, value)))
    {
        let expected = changed(&engine, |_, table| {
            (table[port(6) + PORT_PLACE], table[port(6) + PORT_BYTE]) = (place, byte);
        });
        assert_eq!(engine.guest(6).port_read(OFFSET_DATA), Ok(value));
        assert!(engine == expected);
        assert_eq!(Engine::try_restore(*engine.words().0, engine.words().1.to_vec()).as_ref(), Ok(&engine));
    }
    let end = engine.clone();
    for _ in 0..3 {
        assert_eq!(values(&engine, 6), [0, 0, 1, 0, 0, 0x60, 0, 0]);
        assert_eq!(engine.guest(6).port_read(OFFSET_DATA), Ok(0));
    }
    assert!(engine == end);
    // What is in no block is not listed.
    engine.accept(&of_all_four(0, 8, 0b1111, &[entry(7)])).unwrap();
    assert!(!is_waiting(&mut engine, 6));
}

/// All registers are 0, reading resumes at the listing's start, and the other ports stay.
#[test]
fn a_reset() {
    let mut engine = with_blocks();
    for guest in CALLERS {
        for (offset, value) in [
            (OFFSET_ENABLE, 1),
            (OFFSET_LINE, 0x80),
            (OFFSET_DATA, 0xaa),
            (OFFSET_ENABLE, 0xbb),
            (OFFSET_LINE, 0x1b),
            (OFFSET_MODEM, 0x1f),
            (OFFSET_SCRATCH, 0xcc),
        ] {
            engine.guest(guest).port_write(offset, value).unwrap();
        }
        receive(&mut engine, guest, 20 * guest as usize + 1);
        assert!(words(&engine, guest).iter().all(|&word| word != 0));
    }
    for guest in CALLERS {
        let expected = changed(&engine, |_, table| table[port(guest)..][..PORT_WORDS].fill(0));
        engine.port_reset(guest).unwrap();
        assert!(engine == expected);
        assert_eq!(values(&engine, guest), [b'1', 0, 1, 0, 0, 0x61, 0, 0]);
    }
    assert_eq!(receive(&mut engine, 4, usize::MAX), listing(&engine));
    engine.port_reset(4).unwrap();
    assert_eq!(receive(&mut engine, 4, usize::MAX), listing(&engine));
}

/// 26 for a port above 7, before 1, also where the words of the state cannot be read. No right is asked for.
#[test]
fn a_reset_is_refused_in_its_order() {
    let mut damaged = lent(&with_blocks());
    damaged.words.state[0] = 16;
    for port in [8, 9, 31, u32::MAX] {
        refuses(&mut with_blocks(), 26, |e| e.port_reset(port));
        refuses(&mut damaged, 26, |e| e.port_reset(port));
        for length in 0..=STATE_WORDS {
            assert_eq!(lent::port_reset(&damaged.words().0[..length], &mut [], port), Err(Refusal::GuestRange));
        }
    }
    for port in CALLERS {
        refuses(&mut damaged, 1, |e| e.port_reset(port));
        for length in 0..=STATE_WORDS {
            assert_eq!(lent::port_reset(&damaged.words().0[..length], &mut [], port), Err(Refusal::Malformed));
        }
    }
    let mut without_rights = changed(&with_blocks(), |state, _| state[STATE_RIGHTS] = 0);
    without_rights.port_reset(7).unwrap();
}

/// 26 for a caller above 7, 29 without the right, 31 for an offset above 7, then 1; 31 also where the words
/// of the state cannot be read.
#[test]
fn an_access_is_refused_in_its_order() {
    let mut damaged = lent(&with_blocks());
    damaged.words.state[0] = 16;
    let mut without = damaged.clone();
    without.words.state[STATE_RIGHTS] = !Rights { read: 0xff, ..Rights::NONE }.to_word();
    for offset in (0..OFFSETS).chain([8, 9, 255, 256, u32::MAX]) {
        let is_wrong = offset >= OFFSETS;
        for (engine, caller, number) in [
            (&without, 8, 26),
            (&without, u32::MAX, 26),
            (&without, 7, 29),
            (&damaged, 8, 26),
            (&damaged, 0, if is_wrong { 31 } else { 1 }),
            (&lent(&with_blocks()), 3, if is_wrong { 31 } else { 0 }),
        ] {
            if number != 0 {
                let mut engine = engine.clone();
                refuses(&mut engine, number, |e| e.guest(caller).port_read(offset));
                refuses(&mut engine, number, |e| e.guest(caller).port_write(offset, 7));
            }
        }
        // The rights are word 38; behind it the table may be too short.
        let state = *damaged.words().0;
        for (words, number) in [(0, 29), (38, 29), (39, if is_wrong { 31 } else { 1 })] {
            let read = lent::guest_port_read(3, &state[..words], &mut [], offset);
            let written = lent::guest_port_write(3, &state[..words], &mut [], offset, 7);
            assert_eq!((read.unwrap_err().number(), written.unwrap_err().number()), (number, number));
        }
    }
}

/// An accepted open resets every port, a refused one leaves them; so does every other call.
#[test]
fn what_resets_a_port() {
    let mut engine = with_blocks();
    for guest in CALLERS {
        engine.guest(guest).port_write(OFFSET_SCRATCH, 0xcc).unwrap();
        receive(&mut engine, guest, 11 + guest as usize);
    }
    let ports = |engine: &Engine| CALLERS.flat_map(|guest| words(engine, guest).to_vec()).collect::<Vec<_>>();
    let before = ports(&engine);
    engine.enqueue(3, entry(7)).unwrap();
    engine.draw(0b1111).unwrap();
    engine.certify(0b1110).unwrap();
    engine.endorse(&of_all_four(1, 8, 0b1111, &[]).proposal).unwrap();
    assert_eq!(engine.batch(&newest_first(8)).unwrap().len(), 32);
    refuses(&mut engine, 18, Engine::advance);
    refuses(&mut engine, 19, Engine::critical);
    assert_eq!(ports(&engine), before);

    let sheet = Sheet { ceiling: Some(8), ..Sheet::default() }.to_words();
    let mut engine = lent(&engine);
    let ports = |engine: &Engine<Lent>| CALLERS.flat_map(|guest| words(engine, guest).to_vec()).collect::<Vec<_>>();
    assert_eq!(
        lent::open(&mut engine.words.state, &mut engine.words.table, Member::new(16), &sheet, 0),
        Err(Refusal::MemberRange)
    );
    assert_eq!(ports(&engine), before);
    lent::open(&mut engine.words.state, &mut engine.words.table, Member::new(0), &sheet, u32::MAX).unwrap();
    assert_eq!(ports(&engine), [0; GUESTS * PORT_WORDS]);
}

/// The pair is (0, 0) or names a byte of the listing, and registers hold no more than they can; else every
/// call answers 1.
#[test]
fn ports_that_are_not_well_formed() {
    let engine = with_blocks();
    let with = |guest: u32, changes: &[(usize, u32)]| {
        let mut changed = lent(&engine);
        changes.iter().for_each(|&(word, value)| changed.words.table[port(guest) + word] = value);
        changed
    };
    let is_fine = |fine: bool, guest: u32, changes: &[(usize, u32)]| {
        let mut changed = with(guest, changes);
        assert_eq!(changed.is_well_formed(), fine, "port {guest}, {changes:?}");
        if !fine {
            refuses(&mut changed, 1, |e| e.guest(guest).port_read(0));
            refuses(&mut changed, 1, |e| e.guest(guest ^ 1).port_write(7, 1));
            refuses(&mut changed, 1, |e| e.port_reset(guest));
            refuses(&mut changed, 1, Engine::advance);
            refuses(&mut changed, 1, |e| e.block(1));
            refuses(&mut changed, 1, |e| e.waiting(0));
        }
    };
    let limits = [
        (PORT_ENABLE, 1),
        (PORT_LINE, 255),
        (PORT_MODEM, 31),
        (PORT_SCRATCH, 255),
        (PORT_DIVISOR_LOW, 255),
        (PORT_DIVISOR_HIGH, 255),
    ];
    let listed = lines(&engine);
    for guest in CALLERS {
        limits.iter().for_each(|&(word, most)| is_fine(true, guest, &[(word, most)]));
        limits.iter().for_each(|&(word, most)| is_fine(false, guest, &[(word, most + 1)]));
        is_fine(false, guest, &[(PORT_LINE, u32::MAX)]);
        is_fine(false, guest, &[(PORT_BYTE, 1)]);
        // Each place of the table and some beyond it: byte 0, the first, the last, one more.
        for place in 1..16 * 10 + 3 {
            let length = listed.iter().find(|(at, _)| *at == place).map_or(0, |(_, line)| line.len() as u32);
            for byte in [0, 1, length, length + 1, u32::MAX] {
                is_fine((1..=length).contains(&byte), guest, &[(PORT_PLACE, place), (PORT_BYTE, byte)]);
            }
        }
        is_fine(false, guest, &[(PORT_PLACE, u32::MAX), (PORT_BYTE, 1)]);
    }
    // Held and in no block; then in one.
    let mut unmarked = with(2, &[(PORT_PLACE, 16 * 7), (PORT_BYTE, 1)]);
    assert!(engine.certificate(Member::new(0), Round::new(7)).unwrap().block.is_none() && !unmarked.is_well_formed());
    unmarked.words.table[record(Member::new(0), Round::new(7)) + RECORD_BLOCK] = 3;
    assert!(unmarked.is_well_formed());
}

/// What a commit hangs on does not count a 1 that comes of a port: one that stands at a certificate of the
/// two rounds, which is in a block as no run has it, changes nothing of the list.
#[test]
fn a_commit_does_not_hang_on_a_port() {
    let mut engine = lent(&in_round_5(3, Transaction::Bond { member: Member::new(0), amount: 10 }, &[0]));
    engine.words.table[record(Member::new(3), Round::new(4)) + RECORD_BLOCK] = 1;
    let expected = engine.critical();
    assert_eq!(expected.as_ref().map(Vec::len), Ok(3));
    let mut unlisted = lent(&in_round_5(3, entry(7), &[0, 1, 2]));
    unlisted.words.table[record(Member::new(3), Round::new(4)) + RECORD_BLOCK] = 1;
    assert_eq!(unlisted.critical(), hangs_on(2, 4, &[]));
    for guest in CALLERS {
        for engine in [&mut engine, &mut unlisted] {
            let before = engine.critical();
            let at = port(guest);
            (engine.words.table[at + PORT_PLACE], engine.words.table[at + PORT_BYTE]) = (16 * 4 + 3, 1);
            assert!(engine.is_well_formed());
            assert_eq!(engine.critical(), before);
            let mut without = engine.clone();
            without.words.table[row(4) + ROW_HELD] &= !(1 << 3);
            assert!(!without.is_well_formed());
        }
    }
    assert_eq!(engine.critical(), expected);
}

/// Tables of before have 0 there, as those whose ports nobody has used: all of them are reset.
#[test]
fn tables_of_before() {
    let engine = with_blocks();
    for guest in CALLERS {
        assert_eq!(words(&engine, guest), [0; PORT_WORDS]);
        assert_eq!(receive(&mut engine.clone(), guest, usize::MAX), listing(&engine));
    }
}

/// The numbers of the layout, and that ports and queues do not overlap.
#[test]
fn words_of_a_port() {
    assert_eq!(CALLERS.map(port).collect::<Vec<_>>(), [16, 48, 80, 112, 144, 176, 208, 240]);
    for guest in CALLERS {
        assert_eq!(port(guest) + PORT_WORDS, queue(guest));
    }
    let all =
        [PORT_PLACE, PORT_BYTE, PORT_ENABLE, PORT_LINE, PORT_MODEM, PORT_SCRATCH, PORT_DIVISOR_LOW, PORT_DIVISOR_HIGH];
    assert_eq!(all, [0, 1, 2, 3, 4, 5, 6, 7]);
    let offsets = [
        OFFSET_DATA,
        OFFSET_ENABLE,
        OFFSET_INTERRUPT,
        OFFSET_LINE,
        OFFSET_MODEM,
        OFFSET_STATUS,
        OFFSET_MODEM_STATUS,
        OFFSET_SCRATCH,
    ];
    assert_eq!(offsets, [0, 1, 2, 3, 4, 5, 6, 7]);
}
