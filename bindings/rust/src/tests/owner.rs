//! Words that an engine owns: what restoring asks of them, that their calls are those of lent ones, and their store.

use super::*;

/// What an engine of a full round each makes of a run, with a commit wherever one can be made.
fn run<W: Words>(engine: &mut Engine<W>) -> Vec<Result<u32, Refusal>> {
    let mut answers = Vec::new();
    let mut told = |answer: Result<(), Refusal>| answers.push(answer.map(|()| 0));
    for round in 1..=8 {
        let previous = if round == 1 { 0 } else { 0b1111 };
        let bond = Transaction::Bond { member: Member::new(round), amount: 10 * round };
        told(engine.enqueue(round % 8, entry(round)));
        told(engine.draw(previous));
        told(engine.endorse(&of_all_four(1, round, previous, &[]).proposal));
        told(engine.certify(0b1110));
        (0..5).for_each(|author| told(engine.accept(&of_all_four(author, round, previous, &[bond]))));
        told(engine.batch(&newest_first(round)).map(|_| ()));
        told(engine.preview().map(|_| ()));
        told(engine.critical().map(|_| ()));
        told(engine.commit().map(|_| ()));
        told(engine.advance());
        told(engine.guest(3).port_read(0).map(|_| ()));
        told(engine.guest(3).port_write(7, 9));
        told(engine.port_reset(round % 9));
    }
    answers
}

#[test]
fn calls_are_those_of_lent_words() {
    for lookback in [1, 2, 3, 20] {
        let sheet = Sheet { lookback: Some(lookback), ceiling: Some(8), ..Sheet::default() };
        let mut owned = Engine::open_with_rights(Member::new(0), &sheet, Rights::ALL).unwrap();
        let mut lent = lent(&owned);
        assert_eq!(run(&mut owned), run(&mut lent));
        assert_eq!(owned.words(), lent.words());
        assert_eq!((owned.blocks(), owned.chain()), (3, lent.chain()));
        for round in (0..=9).map(Round::new) {
            assert_eq!(owned.committee(round), lent.committee(round));
        }
        assert!(owned.is_well_formed());
    }
}

/// After each call the kept committees are those that a restore finds.
#[test]
fn kept_committees_stay_those_of_the_words() {
    let sheet = Sheet { lookback: Some(1), ceiling: Some(64), ..Sheet::default() };
    let mut engine = Engine::open(Member::new(0), &sheet).unwrap();
    for round in 1..=64 {
        let previous = if round == 1 { 0 } else { 0b1111 };
        let bonds = [Transaction::Bond { member: Member::new(round % 4), amount: round }];
        for author in 0..4 {
            engine.accept(&of_all_four(author, round, previous, &bonds)).unwrap();
        }
        assert_eq!(engine.commit().is_ok(), round % 2 == 1 && round > 1);
        assert!(engine.is_well_formed());
        let again = Engine::try_restore(*engine.words().0, engine.words().1.to_vec()).unwrap();
        assert!(again == engine);
        for known in 1..=64 {
            assert_eq!(again.committee(Round::new(known)), engine.committee(Round::new(known)));
        }
        if round < 64 {
            engine.advance().unwrap();
        }
    }
}

/// Well formed is not enough: what is held names what is held, and so does the proposal; what is in a block
/// names what is in one; and a block's certificates lie in rounds one after the other, from its own down.
#[test]
fn a_restore_asks_for_whole_histories_and_blocks_that_hang_together() {
    let mut engine = of_four(0);
    for round in 1..=3 {
        let previous = if round == 1 { 0 } else { 0b1111 };
        (1..4).for_each(|author| engine.accept(&of_all_four(author, round, previous & 0b1110, &[])).unwrap());
        engine.propose(previous & 0b1110, &[]).unwrap();
        if round < 3 {
            engine.advance().unwrap();
        }
    }
    assert_eq!(engine.commit(), Ok(1));
    let at = |author, round| record(Member::new(author), Round::new(round));
    let restored = |change: fn(&mut [u32; STATE_WORDS], &mut [u32], [usize; 3])| {
        let (mut state, mut table) = (*engine.words().0, engine.words().1.to_vec());
        change(&mut state, &mut table, [at(1, 1), at(1, 2), at(1, 3)]);
        assert!(lent::is_well_formed(&state, &table));
        Engine::try_restore(state, table)
    };
    assert!(restored(|_, _, _| {}).is_ok());
    let malformed = Err(Refusal::Malformed);
    // A certificate and the proposal name member 0's, which is not held.
    assert_eq!(restored(|_, table, [_, _, third]| table[third] = 0b1111), malformed);
    assert_eq!(restored(|state, _, _| state[STATE_BODY] = 0b1111), malformed);
    // The anchor of round 2 is in the block, and of round 1 one is taken out that it names.
    assert_eq!(restored(|_, table, [first, _, _]| table[first + RECORD_BLOCK] = 0), malformed);
    // Without the anchor the block has certificates of round 1 alone, and is of round 2.
    assert_eq!(restored(|_, table, [_, second, _]| table[second + RECORD_BLOCK] = 0), malformed);
    // One of round 3, above the block's own, is put into it, which names the anchor alone.
    let put_above = |_: &mut [u32; STATE_WORDS], table: &mut [u32], [_, _, third]: [usize; 3]| {
        (table[third], table[third + RECORD_BLOCK]) = (0b0010, 1);
    };
    assert_eq!(restored(put_above), malformed);
}

/// Equal by state and table, however their committees came to be kept.
#[test]
fn a_clone_is_an_engine_of_its_own() {
    let mut engine = of_four(0);
    let mut other = engine.clone();
    assert_eq!(engine, other);
    engine.propose(0, &[]).unwrap();
    assert_ne!(engine, other);
    other.propose(0, &[]).unwrap();
    assert_eq!(engine, other);
    assert_eq!(engine, Engine::from_bytes(&other.to_bytes()).unwrap());
}

/// A word of the table, without a look at the others.
#[test]
fn waiting_transactions_of_a_restored_engine() {
    let mut engine = of_four(0);
    engine.enqueue(3, entry(1)).unwrap();
    let again = Engine::try_restore(*engine.words().0, engine.words().1.to_vec()).unwrap();
    assert_eq!((again.waiting(3), again.waiting(0), again.waiting(8)), (Ok(1), Ok(0), Err(Refusal::GuestRange)));
}

/// The words of an engine, stored and loaded without it.
#[test]
fn owned_words_are_stored_and_loaded() {
    let mut engine = of_four(0);
    engine.enqueue(3, entry(5)).unwrap();
    engine.draw(0).unwrap();
    engine.certify(0b1110).unwrap();
    let bytes = engine.store(9).unwrap();
    let words = Owned::load(&bytes, Member::new(0), 9).unwrap();
    assert!(words == engine.words);
    assert_eq!(words.store(9), Ok(bytes.clone()));
    assert_eq!(words.store(10), engine.store(10));

    let refused = |bytes: &[u8], own, run| Owned::load(bytes, Member::new(own), run).err();
    assert_eq!(refused(&bytes, 1, 9), Some(StoringRefusal::OtherMember));
    assert_eq!(refused(&bytes, 0, 10), Some(StoringRefusal::OtherRun));
    assert_eq!(refused(&bytes[1..], 0, 9), Some(StoringRefusal::OtherMark));
    assert_eq!(refused(&bytes[..bytes.len() - 1], 0, 9), Some(StoringRefusal::Torn));

    // With a digest of theirs, but of no member: a set of endorsers with the author in it.
    let (state, mut table) = (*engine.words().0, engine.words().1.to_vec());
    table[record(Member::new(0), Round::FIRST) + RECORD_ENDORSERS] = 0b1111;
    let unlike = Engine::lent(state, table).store(9).unwrap();
    assert_eq!(refused(&unlike, 0, 9), Some(StoringRefusal::UnreadableWords));
}
