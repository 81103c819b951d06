//! Guests: rights, and each call with and without the one that it needs.

use super::*;
use crate::layout::STATE_RIGHTS;
use alloc::format;

/// What was answered, a value as it is shown.
type Answer = Result<String, Refusal>;

fn told<T: fmt::Debug>(answer: Result<T, Refusal>) -> Answer {
    answer.map(|value| format!("{value:?}"))
}

/// A call as the host's own, for enqueue with the guest, and as a guest's. Accesses to a port are
/// guests' alone.
struct Asked<W: Words = Owned> {
    name: &'static str,
    right: Right,
    host: Option<fn(&mut Engine<W>, u32) -> Answer>,
    guest: fn(&mut Engine<W>, u32) -> Answer,
}

macro_rules! asked {
    ($($right:ident: $call:ident($($argument:expr),*);)*) => {
        vec![$(Asked {
            name: stringify!($call),
            right: Right::$right,
            host: Some(|engine, _| told(engine.$call($($argument),*))),
            guest: |engine, caller| told(engine.guest(caller).$call($($argument),*)),
        }),*]
    };
}

/// Every call that a guest can make. Each is accepted in one of the scenes below.
fn all_calls<W: Words>() -> Vec<Asked<W>> {
    let mut all = asked! {
        Propose: propose(0, &[entry(7)]);
        Propose: draw(0);
        Sign: endorse(&of_all_four(1, 1, 0, &[]).proposal);
        Sign: certify(0b1110);
        Sign: accept(&of_all_four(2, 1, 0, &[]));
        Sign: batch(&newest_first(2));
        Drive: advance();
        Drive: commit();
        Read: committee(Round::new(3));
        Read: share(Member::new(1), Round::new(3));
        Read: bond_effect(Member::new(5), Round::new(3), 2);
        Read: certificate(Member::new(1), Round::new(1));
        Read: block(1);
        Read: block_rows(0, 1);
        Read: preview();
        Read: critical();
        Read: chain();
    };
    all.push(Asked {
        name: "enqueue",
        right: Right::Propose,
        host: Some(|engine, guest| told(engine.enqueue(guest, entry(9)))),
        guest: |engine, caller| told(engine.guest(caller).enqueue(entry(9))),
    });
    all.push(Asked {
        name: "port_read",
        right: Right::Read,
        host: None,
        guest: |engine, caller| told(engine.guest(caller).port_read(0)),
    });
    all.push(Asked {
        name: "port_write",
        right: Right::Read,
        host: None,
        guest: |engine, caller| told(engine.guest(caller).port_write(7, 0xa5)),
    });
    all
}

/// Member 0 of four: fresh, with its proposal, with a round to advance from, with a commit to make, and
/// with its block.
fn scenes() -> Vec<Engine> {
    let fresh = of_four(0);
    let mut proposed = fresh.clone();
    proposed.propose(0, &[entry(1)]).unwrap();
    let mut full = fresh.clone();
    assert!(full.batch(&newest_first(3)).unwrap().iter().all(Result::is_ok));
    let mut third = full.clone();
    (0..2).for_each(|_| third.advance().unwrap());
    let mut with_block = third.clone();
    assert_eq!(with_block.commit(), Ok(1));
    vec![fresh, proposed, full, third, with_block]
}

/// The scenes with a word out of range or a table too short.
fn damaged_scenes() -> Vec<Engine<Lent>> {
    let damage = |engine: Engine| {
        [(0, 16), (STATE_MARGIN, 0), (STATE_ROUND, 0)].map(|(at, word)| {
            let mut damaged = lent(&engine);
            damaged.words.state[at] = word;
            damaged
        })
    };
    let mut all: Vec<Engine<Lent>> = scenes().into_iter().flat_map(damage).collect();
    let short = scenes().into_iter().map(|engine| {
        let mut short = lent(&engine);
        short.words.table.pop();
        short
    });
    all.extend(short);
    all.push(Engine::lent([u32::MAX; STATE_WORDS], Vec::new()));
    assert!(all.iter().all(|engine| !engine.is_well_formed()));
    all
}

fn only(caller: u32, right: Right) -> Rights {
    Rights::NONE.allow(caller, right).unwrap()
}

/// All rights but this one.
fn all_but(caller: u32, right: Right) -> Rights {
    Rights::from_word(!only(caller, right).to_word())
}

fn with_rights(engine: &Engine, rights: Rights) -> Engine {
    changed(engine, |state, _| state[STATE_RIGHTS] = rights.to_word())
}

/// The same of words that are no member's.
fn damaged_with_rights(engine: &Engine<Lent>, rights: Rights) -> Engine<Lent> {
    let mut engine = engine.clone();
    engine.words.state[STATE_RIGHTS] = rights.to_word();
    engine
}

fn callers<W: Words>() -> impl Iterator<Item = (u32, Asked<W>)> {
    (0..GUESTS as u32).flat_map(|caller| all_calls().into_iter().map(move |call| (caller, call)))
}

#[test]
fn rights_as_a_word() {
    assert_eq!(Rights { propose: 1, sign: 2, drive: 4, read: 0x88 }.to_word(), 0x8804_0201);
    assert_eq!((Rights::NONE.to_word(), Rights::ALL.to_word()), (0, u32::MAX));
    assert_eq!((Rights::default(), Rights::ALL.sign), (Rights::NONE, 0xff));
    for (number, right) in (0..).zip(Right::ALL) {
        assert_eq!(right as u32, number);
        for caller in 0..8 {
            let one = only(caller, right);
            assert_eq!(one.to_word(), 1 << (8 * number + caller));
            assert_eq!(Rights::from_word(one.to_word()), one);
            assert_eq!(one.allow(caller, right), Ok(one));
            for other in 0..10 {
                for another in Right::ALL {
                    let it = (other, another) == (caller, right);
                    assert_eq!(one.may(other, another), it);
                    assert_eq!(all_but(caller, right).may(other, another), !it && other < 8);
                }
            }
        }
        for caller in [8, 9, 32, u32::MAX] {
            assert_eq!(Rights::NONE.allow(caller, right), Err(Refusal::GuestRange));
            assert!(!Rights::ALL.may(caller, right));
        }
    }
}

/// An accepted open writes them, any word; a refused one leaves what was there. They take part in what is
/// equal, and in nothing else.
#[test]
fn an_open_fixes_the_rights() {
    let sheet = Sheet { ceiling: Some(8), ..Sheet::default() };
    assert_eq!(of_four(0).rights(), Rights::NONE);
    assert_eq!(of_four(0).words().0[STATE_RIGHTS], 0);
    for word in [0, 1, 0x8000_0000, 0x0123_4567, u32::MAX] {
        let rights = Rights::from_word(word);
        let engine = Engine::open_with_rights(Member::new(0), &sheet, rights).unwrap();
        assert_eq!((engine.rights(), engine.words().0[STATE_RIGHTS]), (rights, word));
        assert_eq!(engine.words().0[..STATE_RIGHTS], of_four(0).words().0[..STATE_RIGHTS]);
        assert_eq!(engine.words().1, of_four(0).words().1);
        assert_eq!(engine == of_four(0), word == 0);
        let table = engine.words().1.to_vec();
        assert_eq!(Engine::open_on(table, Member::new(0), &sheet, rights).as_ref(), Ok(&engine));
        assert!(engine.is_well_formed());
        assert_eq!(Engine::try_restore(*engine.words().0, engine.words().1.to_vec()).as_ref(), Ok(&engine));
        // Again on the same words.
        let mut engine = lent(&engine);
        let open = |e: &mut Engine<Lent>, own| {
            lent::open(&mut e.words.state, &mut e.words.table, own, &sheet.to_words(), !word)
        };
        refuses(&mut engine, 4, |e| open(e, Member::new(16)));
        open(&mut engine, Member::new(1)).unwrap();
        assert_eq!(lent::rights(engine.words().0).to_word(), !word);
    }
}

/// With that right alone: answer, state and table are those of the host's own call on a copy, and the
/// rights stay.
#[test]
fn with_its_right_a_guest_does_what_the_host_does() {
    let (all, mut accepted) = (scenes(), Vec::new());
    for (caller, call) in callers::<Owned>() {
        for scene in &all {
            let rights = only(caller, call.right);
            let mut engine = with_rights(scene, rights);
            let mut copy = engine.clone();
            let answer = (call.guest)(&mut engine, caller);
            if let Some(host) = call.host {
                assert_eq!(answer, host(&mut copy, caller), "{} of {caller}", call.name);
                assert!(engine == copy, "{} of {caller}", call.name);
            }
            assert_eq!(engine.rights(), rights);
            if answer.is_ok() {
                accepted.push((caller, call.name));
            }
        }
    }
    for (caller, call) in callers::<Owned>() {
        assert!(accepted.contains(&(caller, call.name)), "{} of {caller} was never accepted", call.name);
    }
}

/// Without it, and be it with all others: 29, the same in all states with the same rights, also where the
/// host's own call would get 1, and no word changes.
#[test]
fn without_its_right_a_guest_gets_29() {
    fn refused<W: Words>(all: &[Engine<W>], with_rights: fn(&Engine<W>, Rights) -> Engine<W>) {
        for (caller, call) in callers::<W>() {
            for rights in [all_but(caller, call.right), Rights::NONE] {
                for scene in all {
                    refuses(&mut with_rights(scene, rights), 29, |e| (call.guest)(e, caller));
                }
            }
        }
    }
    refused(&scenes(), with_rights);
    refused(&damaged_scenes(), damaged_with_rights);
}

/// 26 above 7, whatever the rights, before 29 and before 1.
#[test]
fn no_caller_above_7() {
    fn refused<W: Words>(all: &[Engine<W>], with_rights: fn(&Engine<W>, Rights) -> Engine<W>) {
        let above = |scene| [8, 9, 16, 31, 32, u32::MAX].map(|caller| (scene, caller));
        for call in all_calls::<W>() {
            for (scene, caller) in all.iter().flat_map(above) {
                for rights in [Rights::NONE, Rights::ALL] {
                    refuses(&mut with_rights(scene, rights), 26, |e| (call.guest)(e, caller));
                }
            }
        }
    }
    refused(&scenes(), with_rights);
    refused(&damaged_scenes(), damaged_with_rights);
}

/// With the right it is the host's call, which first refuses a state not well formed.
#[test]
fn with_the_right_a_malformed_state_is_1() {
    for scene in damaged_scenes() {
        for (caller, call) in callers() {
            let mut engine = damaged_with_rights(&scene, only(caller, call.right));
            refuses(&mut engine, 1, |e| (call.guest)(e, caller));
        }
    }
}

/// The host's own calls do not look at rights.
#[test]
fn the_hosts_calls_pass_as_before() {
    for host in all_calls::<Owned>().into_iter().filter_map(|call| call.host) {
        for scene in scenes() {
            let (mut none, mut all) = (scene.clone(), with_rights(&scene, Rights::ALL));
            assert_eq!(host(&mut none, 3), host(&mut all, 3));
            assert!(with_rights(&none, Rights::ALL) == all);
        }
    }
}

/// A stretch that ends before the word of the rights gives nobody one; and what is refused with 26 or 29
/// writes to no list and no answers, whatever is handed in.
#[test]
fn stretches_without_the_word_of_rights() {
    let words = [u32::MAX; 45];
    let row = [CertificateRecord::from(of_all_four(1, 1, 0, &[]).to_words())];
    for length in 0..=words.len() {
        for caller in 0..=9 {
            let number = match (caller, length) {
                (8.., _) => 26,
                (_, ..39) => 29,
                // There all have every right, and the state is not well formed.
                _ => 1,
            };
            let (mut state, mut table) = (words[..length].to_vec(), vec![77; 9]);
            let mut list = [77; CRITICAL_WORDS];
            for answer in [
                lent::guest_propose(caller, &mut state, &table, &[]),
                lent::guest_draw(caller, &mut state, &mut table, 0),
                lent::guest_enqueue(caller, &state, &mut table, &[]),
                lent::guest_endorse(caller, &state, &mut table, &[]),
                lent::guest_certify(caller, &state, &mut table, 0),
                lent::guest_accept(caller, &state, &mut table, &[]),
                lent::guest_batch(caller, &state, &mut table, &row, &mut list),
                lent::guest_advance(caller, &mut state, &table),
                lent::guest_commit(caller, &mut state, &mut table).map(|_| ()),
                lent::guest_preview(caller, &state, &table, &mut list).map(|_| ()),
                lent::guest_critical(caller, &state, &mut table, &mut list).map(|_| ()),
                lent::guest_committee(caller, &state, &table, Round::new(1)).map(|_| ()),
                lent::guest_share(caller, &state, &table, Member::new(0), Round::new(1)).map(|_| ()),
                lent::guest_bond_effect(caller, &state, &table, Member::new(0), Round::new(1), 1).map(|_| ()),
                lent::guest_certificate(caller, &state, &table, Member::new(0), Round::new(1)).map(|_| ()),
                lent::guest_block(caller, &state, &table, 1).map(|_| ()),
                lent::guest_block_rows(caller, &state, &table, 0, 1, &mut list).map(|_| ()),
                lent::guest_chain(caller, &state, &table, &mut list).map(|_| ()),
                lent::guest_port_read(caller, &state, &mut table, 0).map(|_| ()),
                lent::guest_port_write(caller, &state, &mut table, 0, 0),
            ] {
                assert_eq!(answer.unwrap_err().number(), number, "{length} words, caller {caller}");
            }
            assert!(state == words[..length] && table == [77; 9]);
            assert!(list == [77; CRITICAL_WORDS]);
            assert_eq!(lent::rights(&state), if length < 39 { Rights::NONE } else { Rights::ALL });
        }
    }
}

/// Lists, answers and words that cannot be read: 29 comes before them, and with the right they are those
/// of the host's call.
#[test]
fn what_is_lent_and_handed_in_comes_after_29() {
    let third = lent(&with_rights(&scenes()[3], Rights { sign: 0b10, read: 0b10, propose: 0b10, drive: 0 }));
    let need = preview_words(8);
    for (caller, right) in [(0, false), (1, true), (2, false)] {
        let found = |answer: Result<u32, Refusal>, with_right: Result<u32, Refusal>| {
            assert_eq!(answer, if right { with_right } else { Err(Refusal::NoRight) });
        };
        let mut engine = third.clone();
        for length in [0, need - 1, need, need + 1] {
            let (mut list, mut by_host) = (vec![77; length], vec![77; length]);
            let expected = lent::preview(&engine.words.state, &engine.words.table, &mut by_host);
            found(lent::guest_preview(caller, &engine.words.state, &engine.words.table, &mut list), expected);
            assert!(if right { list == by_host } else { list.iter().all(|&word| word == 77) });
        }
        for length in [0, CRITICAL_WORDS - 1, CRITICAL_WORDS, CRITICAL_WORDS + 1] {
            let (mut list, mut by_host) = (vec![77; length], vec![77; length]);
            let expected = lent::critical(&engine.words.state, &mut engine.words.table, &mut by_host);
            found(lent::guest_critical(caller, &engine.words.state, &mut engine.words.table, &mut list), expected);
            assert!(if right { list == by_host } else { list.iter().all(|&word| word == 77) });
        }
        assert!(engine == third);
        let (unreadable, first) = ([3, 0, 0], of_all_four(1, 1, 0, &[]).to_words());
        let (state, table) = (&mut engine.words.state, &mut engine.words.table);
        for answer in [
            lent::guest_propose(caller, state, table, &unreadable),
            lent::guest_enqueue(caller, state, table, &unreadable),
            lent::guest_endorse(caller, state, table, &unreadable),
            lent::guest_accept(caller, state, table, &unreadable),
        ] {
            found(answer.map(|()| 0), Err(Refusal::Malformed));
        }
        let (row, mut answers) = ([CertificateRecord::from(first); BATCH_RECORDS + 1], [77; 3]);
        for (row, with_right) in [(&row[..], Err(Refusal::LengthRange)), (&row[..2], Ok(0))] {
            found(lent::guest_batch(caller, state, table, row, &mut answers).map(|()| 0), with_right);
        }
        assert_eq!(answers, if right { [16, 16, 77] } else { [77; 3] });
        assert!(engine == third);
    }
}

/// A guest adds to its own queue and to no other; what it draws is of all.
#[test]
fn a_guest_adds_to_its_own_queue() {
    let propose = Rights { propose: 0xff, ..Rights::NONE };
    let mut engine = with_rights(&alone(), propose);
    for caller in 0..8 {
        (0..=caller).for_each(|number| engine.guest(caller).enqueue(entry(10 * caller + number)).unwrap());
    }
    assert_eq!(waiting(&engine), [1, 2, 3, 4, 5, 6, 7, 8]);
    assert_eq!(engine.words().1[queue(7) + 1], 70);
    refuses(&mut engine, 27, |e| e.guest(7).enqueue(entry(1)));
    refuses(&mut engine, 6, |e| e.guest(0).enqueue(Transaction::Unbond { member: Member::new(16) }));
    engine.guest(4).draw(0).unwrap();
    assert_eq!(engine.proposal().unwrap().transactions, [0, 10, 20, 30].map(entry));
    assert_eq!(waiting(&engine), [0, 1, 2, 3, 5, 6, 7, 8]);
}

/// Several guests read at once, while nothing changes the engine.
#[test]
fn guests_read_together() {
    let mut engine = with_rights(&scenes()[4], Rights { read: 0b11, ..Rights::NONE });
    let (one, two, without) = (engine.reader(0), engine.reader(1), engine.reader(2));
    assert_eq!((one.caller(), two.caller(), without.caller()), (0, 1, 2));
    assert_eq!(one.chain(), engine.chain());
    assert_eq!(
        (one.block(1), two.block(1), without.block(1)),
        (Ok(Round::new(2)), Ok(Round::new(2)), Err(Refusal::NoRight))
    );
    assert_eq!(two.certificate(Member::new(1), Round::new(1)), engine.certificate(Member::new(1), Round::new(1)));
    assert_eq!(
        (one.bond_effect(Member::new(5), Round::new(3), 2), two.bond_effect(Member::new(5), Round::new(3), 0)),
        (engine.bond_effect(Member::new(5), Round::new(3), 2), Err(Refusal::TransactionsRange))
    );
    assert_eq!(without.bond_effect(Member::new(16), Round::new(0), 0), Err(Refusal::NoRight));
    let mut list = [0; 8 * 18];
    assert_eq!(lent::guest_chain(1, engine.words().0, engine.words().1, &mut list), Ok(5));
    assert!(lent::places(&list, 5).eq(engine.chain().unwrap().into_iter().flat_map(|block| block.certificates)));
    assert_eq!(lent::guest_chain(1, engine.words().0, engine.words().1, &mut list[..89]), Err(Refusal::LengthRange));
    assert_eq!(engine.guest(0).committee(Round::new(3)), engine.committee(Round::new(3)));
}
