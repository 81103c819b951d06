//! The bindings, mostly by small runs whose answers follow from the rules.

extern crate std;

use crate::layout::{
    brought_along, preview_words, queue, record, row, BATCH_RECORDS, CERTIFICATE_WORDS, CRITICAL_WORDS, EFFECT_WORDS,
    ENTRY_WORDS, GUESTS, HELD_WORDS, PLACE_WORDS, QUEUE_PLACES, RECORD_BLOCK, RECORD_ENDORSERS, ROW_BLOCK, ROW_HELD,
    SERVED, STATE_BLOCKS, STATE_BODY, STATE_CEILING, STATE_MARGIN, STATE_ROUND, TRANSACTIONS, TRANSACTION_WORDS,
    WAITING,
};
use crate::lent::{self, CertificateRecord};
use crate::*;
use alloc::format;
use alloc::string::{String, ToString};
use alloc::vec;
use alloc::vec::Vec;
use core::fmt;

mod guests;
mod owner;
mod ports;
mod ready;

fn entry(number: u32) -> Transaction {
    Transaction::Entry { number }
}

/// Member 0 alone: the sheet of the runner's example.
fn alone() -> Engine {
    let mut sheet = Sheet { ceiling: Some(64), ..Sheet::default() };
    sheet.weights[..4].copy_from_slice(&[Some(1), Some(0), Some(0), Some(0)]);
    Engine::open(Member::new(0), &sheet).unwrap()
}

/// A certificate of the chain.
fn place(block: u32, author: u32, round: u32) -> Entry {
    Entry { block, author: Member::new(author), round: Round::new(round) }
}

fn of_four(own: u32) -> Engine {
    Engine::open(Member::new(own), &Sheet { ceiling: Some(8), ..Sheet::default() }).unwrap()
}

/// Its words, as anything may write them.
fn lent(engine: &Engine) -> Engine<Lent> {
    Engine::lent(*engine.words().0, engine.words().1.to_vec())
}

/// Its words with something changed, still those of a member.
fn changed(engine: &Engine, change: impl FnOnce(&mut [u32; STATE_WORDS], &mut [u32])) -> Engine {
    let (mut state, mut table) = (*engine.words().0, engine.words().1.to_vec());
    change(&mut state, &mut table);
    Engine::try_restore(state, table).unwrap()
}

/// Calls that must be refused with a number and change nothing.
fn refuses<W: Words, T: fmt::Debug + PartialEq>(
    engine: &mut Engine<W>, number: u32, call: impl Fn(&mut Engine<W>) -> Result<T, Refusal>,
) {
    let before = engine.clone();
    assert_eq!(call(engine).unwrap_err().number(), number);
    assert!(*engine == before, "a refused call changed a word");
}

#[test]
fn the_example_of_the_records() {
    let mut engine = alone();
    engine.propose(0, &[entry(7)]).unwrap();
    engine.certify(0).unwrap();
    engine.advance().unwrap();
    engine.propose(1, &[]).unwrap();
    engine.certify(0).unwrap();
    engine.advance().unwrap();
    engine.propose(1, &[entry(9)]).unwrap();
    engine.certify(0).unwrap();
    assert_eq!(engine.commit(), Ok(1));
    assert_eq!(
        engine.chain(),
        Ok(vec![Block { round: Round::new(2), certificates: vec![place(1, 0, 1), place(1, 0, 2)] }])
    );
    assert_eq!(engine.certificate(Member::new(0), Round::new(1)).unwrap().proposal.transactions, [entry(7)]);
    assert_eq!(engine.certificate(Member::new(0), Round::new(3)).unwrap().block, None);
    refuses(&mut engine, 20, Engine::commit);
}

/// A certificate that the other three of four endorse.
fn of_all_four(author: u32, round: u32, previous: Set, transactions: &[Transaction]) -> Certificate {
    let proposal = Proposal {
        author: Member::new(author),
        round: Round::new(round),
        previous,
        transactions: transactions.to_vec(),
    };
    Certificate { proposal, endorsers: 0b1111 & !(1 << author) }
}

#[test]
fn a_full_round_reads_2_3_0_1() {
    let mut engine = of_four(0);
    for round in 1..=5 {
        for author in [3, 0, 2, 1] {
            let previous = if round == 1 { 0 } else { 0b1111 };
            engine.accept(&of_all_four(author, round, previous, &[])).unwrap();
        }
        if round < 5 {
            engine.advance().unwrap();
        }
    }
    assert_eq!(engine.commit(), Ok(2));
    let rounds = |block, numbers: &[(u32, &[u32])]| -> Vec<Entry> {
        numbers.iter().flat_map(|&(round, all)| all.iter().map(move |&author| place(block, author, round))).collect()
    };
    let first = Block { round: Round::new(2), certificates: rounds(1, &[(1, &[1, 2, 3, 0]), (2, &[1])]) };
    let second =
        Block { round: Round::new(4), certificates: rounds(2, &[(2, &[2, 3, 0]), (3, &[2, 3, 0, 1]), (4, &[2])]) };
    assert_eq!(engine.chain(), Ok(vec![first, second]));
}

#[test]
fn leaders_by_the_committee_read() {
    let weights = ones(&[0, 1, 14, 15]);
    let leaders: Vec<_> = [2, 4, 6, 8].map(|round| leader(Round::new(round), &weights)).into();
    assert_eq!(leaders, [1, 14, 15, 0].map(|member| Some(Member::new(member))));
    assert_eq!(leader(Round::new(2), &ones(&[])), None);
}

fn ones(members: &[usize]) -> [u32; MEMBERS] {
    let mut weights = [0; MEMBERS];
    members.iter().for_each(|&member| weights[member] = 1);
    weights
}

/// What is no state of a run, and well formed: records written into the table by hand.
fn write_record(engine: &mut Engine<Lent>, author: u32, round: u32, block: u32, transaction: [u32; 3]) {
    engine.words.table[row(round) + ROW_HELD] |= 1 << author;
    let record = &mut engine.words.table[record(Member::new(author), Round::new(round))..][..16];
    record.fill(0);
    record[..4].copy_from_slice(&[(round > 1).into(), 1, block, 0]);
    record[4..7].copy_from_slice(&transaction);
}

#[test]
fn where_a_round_has_no_leader_numbers_just_rise() {
    let mut sheet = Sheet { lookback: Some(1), ceiling: Some(8), ..Sheet::default() };
    sheet.weights[..4].copy_from_slice(&[Some(0), Some(0), Some(1), Some(0)]);
    let mut engine = lent(&Engine::open(Member::new(0), &sheet).unwrap());
    let (entry, unbond_2, bond_3) = ([2, 7, 0], [1, 2, 0], [0, 3, 1]);
    for author in 0..4 {
        write_record(&mut engine, author, 1, 1, if author == 1 { unbond_2 } else { entry });
        write_record(&mut engine, author, 3, 2, if author == 0 { bond_3 } else { entry });
        write_record(&mut engine, author, 5, 3, entry);
    }
    engine.words.state[STATE_BLOCKS] = 3;
    (1..=3).for_each(|number| engine.words.table[row(number) + ROW_BLOCK] = 2 * number);
    assert_eq!(engine.committee(Round::new(4)), Ok([0; MEMBERS]));
    assert_eq!(engine.committee(Round::new(6)), Ok(ones(&[3])));
    // Leaders 2, none and 3; no block has an anchor.
    let orders = [[2, 3, 0, 1], [0, 1, 2, 3], [3, 0, 1, 2]];
    let blocks = orders.iter().zip([1, 3, 5]).map(|(order, round)| Block {
        round: Round::new(round + 1),
        certificates: order.iter().map(|&author| place(round / 2 + 1, author, round)).collect(),
    });
    assert_eq!(engine.chain(), Ok(blocks.collect()));
}

/// Member 4 is bonded by 0 and unbonded by 1 in the same round; or the other way.
#[test]
fn order_decides_committees() {
    let weight_of_4 = |of_0, of_1| {
        let mut engine =
            Engine::open(Member::new(0), &Sheet { lookback: Some(1), ceiling: Some(8), ..Sheet::default() }).unwrap();
        // The anchor, 1 in round 2, names 0 and 1; the others are there for a quorum in each round.
        engine.accept(&of_all_four(0, 1, 0, &[of_0])).unwrap();
        engine.accept(&of_all_four(1, 1, 0, &[of_1])).unwrap();
        engine.accept(&of_all_four(2, 1, 0, &[])).unwrap();
        engine.advance().unwrap();
        for author in 0..3 {
            engine.accept(&of_all_four(author, 2, 0b0011, &[])).unwrap();
        }
        engine.advance().unwrap();
        engine.accept(&of_all_four(0, 3, 0b0010, &[])).unwrap();
        engine.accept(&of_all_four(2, 3, 0b0010, &[])).unwrap();
        assert_eq!(engine.commit(), Ok(1));
        assert_eq!(engine.chain().unwrap()[0].certificates, [place(1, 1, 1), place(1, 0, 1), place(1, 1, 2)]);
        engine.committee(Round::new(4)).unwrap()[4]
    };
    let (bond, unbond) =
        (Transaction::Bond { member: Member::new(4), amount: 5 }, Transaction::Unbond { member: Member::new(4) });
    assert_eq!(weight_of_4(bond, unbond), 5);
    assert_eq!(weight_of_4(unbond, bond), 0);
}

#[test]
fn members_and_sets() {
    assert_eq!(Member::ALL.map(Member::index), core::array::from_fn(|number| number));
    assert_eq!(Member::ALL.map(|member| member.bit()), core::array::from_fn(|number| 1 << number));
    assert_eq!([16, 17, u32::MAX].map(|number| Member::new(number).bit()), [0; 3]);
    for set in [0, 1, 0b1010, 0x8000, Set::MAX] {
        assert_eq!(Member::all_in(set).map(Member::bit).sum::<Set>(), set);
    }
}

#[test]
fn rounds_before_and_after() {
    let ends = [Round::new(0), Round::FIRST, Round::new(u32::MAX)];
    assert_eq!(ends.map(Round::before), [0, 0, u32::MAX - 1].map(Round::new));
    assert_eq!(ends.map(Round::next), [1, 2, u32::MAX].map(Round::new));
    assert_eq!(Round::new(3).through(Round::new(2)).count(), 0);
    assert!(Round::new(u32::MAX).through(Round::new(u32::MAX)).eq([Round::new(u32::MAX)]));
    assert!(Round::FIRST.through(Round::new(3)).rev().eq([3, 2, 1].map(Round::new)));
}

/// A number shows itself and compares with a bare one, and the engine alone says what is in range.
#[test]
fn any_number_is_a_member() {
    let member = Member::new(u32::MAX);
    assert_eq!((format!("{member}"), format!("{member:?}")), (u32::MAX.to_string(), u32::MAX.to_string()));
    assert!(member == u32::MAX && member > 15 && u32::from(member) == Member::from(u32::MAX).get());
    assert_eq!(of_four(0).certificate(member, Round::FIRST), Err(Refusal::MemberRange));
    assert_eq!(of_four(0).certificate(Member::new(0), Round::new(u32::MAX)), Err(Refusal::RoundRange));
}

#[test]
fn the_readme_names_the_engines_version() {
    assert!(include_str!("../README.md").contains(&format!("version {ENGINE_VERSION} (")));
}

#[test]
fn an_engine_shows_a_few_words() {
    let shown = "Engine { own: 2, round: 1, ceiling: 8, blocks: 0, table_words: 2448, .. }";
    assert_eq!(format!("{:?}", of_four(2)), shown);
    let closed = Engine::lent([u32::MAX; STATE_WORDS], Vec::new());
    assert!(format!("{:?} {:?}", closed, closed.reader(9)).len() < 300);
}

// ---- bytes

#[test]
fn bytes_go_both_ways() {
    let (engine, _) = endorsed_by_two();
    let longer = Engine::try_restore(*engine.words().0, [engine.words().1, &[77; 5]].concat()).unwrap();
    for engine in [engine, longer, alone()] {
        let bytes = engine.to_bytes();
        assert_eq!(bytes[..8], [3, 0, 0, 0, 39, 0, 0, 0]);
        assert_eq!(bytes[8..16], (engine.words().1.len() as u64).to_le_bytes());
        assert_eq!(bytes[16..20], engine.words().0[0].to_le_bytes());
        assert_eq!(bytes[16 + 4 * STATE_WORDS..][..4], engine.words().1[0].to_le_bytes());
        assert_eq!(Engine::from_bytes(&bytes), Ok(engine));
    }
}

/// Every length but the right one, every number in front but the right one, a state that is none.
#[test]
fn bytes_that_do_not_fit() {
    let bytes = of_four(0).to_bytes();
    for length in (0..bytes.len()).filter(|length| length % 101 == 0 || *length < 200) {
        assert_eq!(Engine::from_bytes(&bytes[..length]), Err(FromBytesError::Length), "{length}");
    }
    assert_eq!(Engine::from_bytes(&[&bytes[..], &[0]].concat()), Err(FromBytesError::Length));
    assert_eq!(Engine::from_bytes(&[&bytes[..], &[0; 4]].concat()), Err(FromBytesError::Length));
    for at in 0..16 {
        for value in (0..=255).filter(|value| *value != bytes[at]) {
            let mut other = bytes.clone();
            other[at] = value;
            let format = u32::from_le_bytes([other[0], other[1], other[2], other[3]]);
            let expected = if at < 4 { FromBytesError::Format(format) } else { FromBytesError::Length };
            assert_eq!(Engine::from_bytes(&other), Err(expected), "byte {at} is {value}");
        }
    }
    // A word more in the state and one less in the table.
    let mut other = bytes.clone();
    (other[4], other[8]) = (40, bytes[8] - 1);
    assert_eq!(Engine::from_bytes(&other), Err(FromBytesError::Length));
    // The largest lengths that there are.
    other[4..16].fill(255);
    assert_eq!(Engine::from_bytes(&other), Err(FromBytesError::Length));
    let mut damaged = lent(&of_four(0));
    damaged.words.state[0] = 16;
    assert_eq!(Engine::from_bytes(&damaged.to_bytes()), Err(FromBytesError::Malformed));
    assert_eq!(Engine::from_bytes(&Engine::lent([3; STATE_WORDS], vec![]).to_bytes()), Err(FromBytesError::Malformed));
}

#[test]
fn numbers_and_refusals_go_both_ways() {
    for number in (1..=23).chain(25..=31) {
        assert_eq!(Refusal::of(number).unwrap().number(), number);
    }
    assert_eq!([0, 24, 32].map(Refusal::of), [None; 3]);
    assert_eq!(Refusal::NoWeight.to_string(), "refused with 3: no positive weight");
}

#[test]
fn open_refuses_in_its_order() {
    let open = |own, sheet: &Sheet| Engine::open(own, sheet).unwrap_err().number();
    let none = Sheet { weights: [Some(0); MEMBERS], ..Sheet::default() };
    let wide = Sheet { ceiling: Some(1_025), ..none };
    assert_eq!(open(Member::new(16), &wide), 4);
    assert_eq!(open(Member::new(15), &wide), 2);
    assert_eq!(open(Member::new(15), &none), 3);
    let short = vec![0; table_words(8) as usize - 1];
    let sheet = Sheet { ceiling: Some(8), ..Sheet::default() };
    assert_eq!(Engine::open_on(short, Member::new(0), &sheet, Rights::NONE), Err(Refusal::Malformed));
}

#[test]
fn what_lies_beyond_the_table_stays() {
    let used = table_words(3) as usize;
    let sheet = Sheet { ceiling: Some(3), ..Sheet::default() };
    let mut engine = Engine::open_on(vec![77; used + 5], Member::new(0), &sheet, Rights::NONE).unwrap();
    engine.propose(0, &[]).unwrap();
    engine.certify(0b1110).unwrap();
    assert_eq!(engine.words().1[used..], [77; 5]);
}

#[test]
fn a_proposal_comes_back_as_it_was_made() {
    let all = [
        Transaction::Bond { member: Member::new(3), amount: 1_000 },
        Transaction::Unbond { member: Member::new(15) },
        entry(u32::MAX),
        entry(0),
    ];
    for count in 0..=4 {
        let mut author = of_four(2);
        author.propose(0, &all[..count]).unwrap();
        let proposal = author.proposal().unwrap();
        assert_eq!(
            proposal,
            Proposal { author: Member::new(2), round: Round::new(1), previous: 0, transactions: all[..count].to_vec() }
        );
        let mut other = of_four(1);
        other.endorse(&proposal).unwrap();
        other.accept(&Certificate { proposal: proposal.clone(), endorsers: 0b1011 }).unwrap();
        assert_eq!(
            other.certificate(Member::new(2), Round::new(1)),
            Ok(Held { proposal, endorsers: 0b1011, block: None })
        );
    }
}

/// Member 0 of four, its certificate of round 1 endorsed by 1 and 2; and that certificate.
fn endorsed_by_two() -> (Engine, Certificate) {
    let mut engine = of_four(0);
    engine.propose(0, &[entry(5)]).unwrap();
    engine.certify(0b0110).unwrap();
    let proposal = engine.proposal().unwrap();
    (engine, Certificate { proposal, endorsers: 0b0110 })
}

#[test]
fn endorsers_stay_those_first_stored() {
    let (author, certificate) = endorsed_by_two();
    assert_eq!(author.certificate(Member::new(0), Round::new(1)).unwrap().endorsers, 0b0110);
    assert_eq!(author.certificate(Member::new(0), Round::new(1)).unwrap().certificate(), certificate);

    // Another member has it with other endorsers: the same certificate.
    let copy = |endorsers| Certificate { endorsers, ..certificate.clone() };
    let mut other = of_four(1);
    other.accept(&copy(0b1100)).unwrap();
    assert_eq!(other.certificate(Member::new(0), Round::new(1)).unwrap().endorsers, 0b1100);
    for mut engine in [author, other] {
        // A quorum, too few, none, outsiders.
        for endorsers in [0b1110, 0b0110, 0b1100, 0b0010, 0, 0xfffe, 0x8000] {
            refuses(&mut engine, 16, |e| e.accept(&copy(endorsers)));
        }
        // With its author.
        for endorsers in [0b0001, 0b0111, 0xffff] {
            refuses(&mut engine, 14, |e| e.accept(&copy(endorsers)));
        }
        let mut another = copy(0b0110);
        another.proposal.transactions.clear();
        refuses(&mut engine, 17, |e| e.accept(&another));
    }
}

#[test]
fn a_held_certificate_is_passed_on_as_it_is() {
    let (author, certificate) = endorsed_by_two();
    let held = lent::certificate(author.words().0, author.words().1, Member::new(0), Round::new(1)).unwrap();
    assert_eq!(held[..CERTIFICATE_WORDS], certificate.to_words());
    assert_eq!(held[CERTIFICATE_WORDS..], [0]);
    let mut other = lent(&of_four(3));
    lent::accept(&other.words.state, &mut other.words.table, &held).unwrap();
    assert_eq!(other.certificate(Member::new(0), Round::new(1)), author.certificate(Member::new(0), Round::new(1)));
}

/// Word 3 of the record of an author in round 1.
fn endorsers_of(engine: &mut Engine<Lent>, author: u32) -> &mut u32 {
    &mut engine.words.table[record(Member::new(author), Round::new(1)) + RECORD_ENDORSERS]
}

#[test]
fn no_author_is_among_its_own_endorsers() {
    let (engine, certificate) = endorsed_by_two();
    for word in [1, 0xffff, 0x1_0000, 0x1_0006, u32::MAX] {
        let mut damaged = lent(&engine);
        *endorsers_of(&mut damaged, 0) = word;
        refuses(&mut damaged, 1, |e| e.certificate(Member::new(0), Round::new(1)));
        refuses(&mut damaged, 1, |e| e.accept(&certificate));
        refuses(&mut damaged, 1, Engine::advance);
        refuses(&mut damaged, 1, |e| e.block(1));
    }
    // Outsiders, too few, none: well formed.
    for word in [0xfffe, 0x8000, 2, 0] {
        let mut changed = lent(&engine);
        *endorsers_of(&mut changed, 0) = word;
        assert_eq!(u32::from(changed.certificate(Member::new(0), Round::new(1)).unwrap().endorsers), word);
        refuses(&mut changed, 16, |e| e.accept(&certificate));
        refuses(&mut changed, 28, Engine::advance);
    }
    // Of a place that is not held the word is not looked at, and a put writes over it.
    let mut free = lent(&engine);
    *endorsers_of(&mut free, 1) = u32::MAX;
    let proposal = Proposal { author: Member::new(1), round: Round::new(1), previous: 0, transactions: Vec::new() };
    free.accept(&Certificate { proposal, endorsers: 0b1001 }).unwrap();
    assert_eq!(*endorsers_of(&mut free, 1), 0b1001);
}

/// A table of before endorsers were kept has 0 in their word.
#[test]
fn certificates_stored_before_show_no_endorsers() {
    let (old, certificate) = endorsed_by_two();
    let mut old = lent(&old);
    *endorsers_of(&mut old, 0) = 0;
    let held = old.certificate(Member::new(0), Round::new(1)).unwrap();
    assert_eq!((held.endorsers, &held.proposal), (0, &certificate.proposal));
    refuses(&mut of_four(1), 13, |e| e.accept(&held.certificate()));
    refuses(&mut old, 16, |e| e.accept(&certificate));
    // Where the author alone is a quorum, none are needed.
    let mut author = alone();
    author.propose(0, &[]).unwrap();
    author.certify(0).unwrap();
    alone().accept(&author.certificate(Member::new(0), Round::new(1)).unwrap().certificate()).unwrap();
}

/// The held set of each round is the authors whose certificates can be read; there is none out of range.
#[test]
fn held_sets_are_of_what_is_held() {
    let mut engine = of_four(0);
    let certificate = |author: u32, round, previous| Certificate {
        proposal: Proposal { author: Member::new(author), round: Round::new(round), previous, transactions: vec![] },
        endorsers: 0b1111 & !(1 << author),
    };
    for one in [certificate(1, 1, 0), certificate(3, 1, 0), certificate(2, 1, 0), certificate(3, 2, 0b1110)] {
        engine.accept(&one).unwrap();
    }
    assert_eq!([0, 1, 2, 3].map(|round| engine.held(Round::new(round))), [0, 0b1110, 0b1000, 0]);
    for round in (0..70).chain([CEILING, u32::MAX]).map(Round::new) {
        let read = Member::ALL.into_iter().filter(|&author| engine.certificate(author, round).is_ok());
        assert_eq!(engine.held(round), read.map(Member::bit).sum());
        assert_eq!(lent::held(engine.words().0, engine.words().1, round), engine.held(round));
    }
    // What lies beyond the ceiling is no row, and words of row 0 are none either.
    let mut engine = lent(&engine);
    engine.words.table.extend([0b1111; 272]);
    engine.words.table[0] = 1;
    assert_eq!([0, 65].map(|round| engine.held(Round::new(round))), [0, 0]);
    // Words that end before, and a word that is no set.
    assert_eq!(lent::held(&engine.words().0[..2], engine.words().1, Round::FIRST), 0);
    assert_eq!(lent::held(engine.words().0, &engine.words().1[..272], Round::FIRST), 0);
    engine.words.table[row(1) + ROW_HELD] = 1 << 16;
    assert_eq!(engine.held(Round::FIRST), 0);
}

// ---- batches

/// Certificates of four members, rounds 1 to the given one, newest first; each names the whole round
/// before.
fn newest_first(rounds: u32) -> Vec<Certificate> {
    let previous = |round| if round == 1 { 0 } else { 0b1111 };
    let round = |round| (0..4).map(move |author| of_all_four(author, round, previous(round), &[]));
    (1..=rounds).rev().flat_map(round).collect()
}

/// As numbers, 0 for accepted.
fn numbers(answers: &[Result<(), Refusal>]) -> Vec<u32> {
    answers.iter().map(|one| one.map_or_else(Refusal::number, |()| 0)).collect()
}

#[test]
fn a_batch_is_accepted_newest_first() {
    let row = newest_first(3);
    let mut singly = of_four(0);
    let one_by_one: Vec<_> = row.iter().map(|certificate| singly.accept(certificate)).collect();
    assert_eq!(numbers(&one_by_one), [11, 11, 11, 11, 11, 11, 11, 11, 0, 0, 0, 0]);
    let mut engine = of_four(0);
    let answers = engine.batch(&row).unwrap();
    assert_eq!(numbers(&answers), [0; 12]);
    assert!((&answers).into_iter().eq(answers.iter()) && answers.clone().into_iter().eq(answers.iter().copied()));
    let mut in_order = of_four(0);
    row.iter().rev().for_each(|certificate| in_order.accept(certificate).unwrap());
    assert!(engine == in_order);
    // A link's duplicates.
    let before = engine.clone();
    assert_eq!(numbers(&engine.batch(&row).unwrap()), [16; 12]);
    assert!(engine == before);
}

/// Of equals the one that stands first in the row is tried first, and its endorsers are stored.
#[test]
fn of_equals_the_first_in_the_row() {
    let first = Certificate { endorsers: 0b0110, ..of_all_four(0, 1, 0, &[]) };
    let second = Certificate { endorsers: 0b1100, ..first.clone() };
    let other = of_all_four(0, 1, 0, &[entry(1)]);
    let mut engine = of_four(1);
    assert_eq!(numbers(&engine.batch(&[first.clone(), second.clone(), other.clone()]).unwrap()), [0, 16, 17]);
    assert_eq!(engine.certificate(Member::new(0), Round::new(1)).unwrap().endorsers, 0b0110);
    let mut engine = of_four(1);
    assert_eq!(numbers(&engine.batch(&[other, second, first]).unwrap()), [0, 17, 17]);
}

/// What got 11 gets 11 again, or 17 where the row has filled its place.
#[test]
fn what_got_11_is_offered_again() {
    // Author 3 of round 1 does not come. Of place (1, 2) the first names it, the second does not.
    let mut row = newest_first(1)[..3].to_vec();
    row.push(of_all_four(0, 2, 0b1000, &[]));
    row.push(of_all_four(1, 2, 0b1001, &[]));
    row.push(of_all_four(1, 2, 0b0111, &[]));
    row.reverse();
    row.swap(0, 1);
    let mut engine = of_four(2);
    assert_eq!(numbers(&engine.batch(&row).unwrap()), [11, 0, 11, 0, 0, 0]);
    refuses(&mut engine, 17, |e| e.accept(&row[0]));
    refuses(&mut engine, 11, |e| e.accept(&row[2]));
    engine.accept(&of_all_four(3, 1, 0, &[])).unwrap();
    engine.accept(&row[2]).unwrap();
}

#[test]
fn records_of_a_row_are_the_words_of_certificates() {
    let words = of_all_four(1, 1, 0, &[entry(5)]).to_words();
    let record = CertificateRecord::from(words);
    assert_eq!((record.author, record.round, record.endorsers), (1, 1, 0b1101));
    assert_eq!(record.body, body_words(0, &[entry(5)]));
    assert_eq!(size_of::<CertificateRecord>(), 4 * CERTIFICATE_WORDS);
    // One that cannot be read gets 1, one out of range its number; the others are tried.
    let spoilt = |at: usize, word: u32| {
        let mut words = words;
        words[at] = word;
        CertificateRecord::from(words)
    };
    let row = [
        spoilt(16, 65_536),
        spoilt(2, 65_536),
        spoilt(4, 3),
        spoilt(0, u32::MAX),
        spoilt(1, 0),
        spoilt(1, u32::MAX),
        spoilt(3, 5),
        record,
    ];
    let (mut engine, mut answers) = (lent(&of_four(0)), [77; 10]);
    lent::batch(&engine.words.state, &mut engine.words.table, &row, &mut answers).unwrap();
    assert_eq!(answers, [1, 1, 1, 4, 5, 5, 6, 0, 77, 77]);
}

#[test]
fn lengths_of_a_batch() {
    let words = of_all_four(1, 1, 0, &[]).to_words();
    let row = [CertificateRecord::from(words); BATCH_RECORDS + 1];
    for (records, room, answer) in [
        (0, 0, Ok(())),
        (1, 1, Ok(())),
        (1, 2, Ok(())),
        (64, 64, Ok(())),
        (64, 70, Ok(())),
        (1, 0, Err(Refusal::LengthRange)),
        (64, 63, Err(Refusal::LengthRange)),
        (65, 65, Err(Refusal::LengthRange)),
        (65, 80, Err(Refusal::LengthRange)),
    ] {
        let (mut engine, mut answers) = (lent(&of_four(0)), vec![77; room]);
        let found = lent::batch(&engine.words.state, &mut engine.words.table, &row[..records], &mut answers);
        assert_eq!(found, answer, "{records} records, {room} answers");
        let tried = if answer.is_ok() { records } else { 0 };
        assert!(answers[tried..].iter().all(|&word| word == 77));
        assert!((0..tried).all(|i| answers[i] == if i == 0 { 0 } else { 16 }));
        assert_eq!(engine.certificate(Member::new(1), Round::new(1)).is_ok(), tried > 0);
        // A malformed state comes first.
        let mut answers = vec![77; room];
        let found = lent::batch(&[0; STATE_WORDS], &mut engine.words.table, &row[..records], &mut answers);
        assert_eq!(found, Err(Refusal::Malformed));
        assert!(answers.iter().all(|&word| word == 77));
    }
    let mut engine = of_four(0);
    let long = vec![of_all_four(1, 1, 0, &[]); BATCH_RECORDS + 1];
    refuses(&mut engine, 25, |e| e.batch(&long));
    assert!(engine.batch(&[]).unwrap().is_empty());
}

// ---- queues

/// Pairs of a guest and the number of an entry, in the order of adding.
fn add(engine: &mut Engine, waiting: &[(u32, u32)]) {
    waiting.iter().for_each(|&(guest, number)| engine.enqueue(guest, entry(number)).unwrap());
}

/// Draws for a member alone, certifies and goes on: what was drawn.
fn draw<W: Words>(engine: &mut Engine<W>) -> Vec<Transaction> {
    engine.draw((engine.round() > 1).into()).unwrap();
    let drawn = engine.proposal().unwrap().transactions;
    engine.certify(0).unwrap();
    assert_eq!(engine.certificate(Member::new(0), engine.round()).unwrap().proposal.transactions, drawn);
    engine.advance().unwrap();
    drawn
}

fn waiting(engine: &Engine) -> [u32; GUESTS] {
    core::array::from_fn(|guest| engine.waiting(guest as u32).unwrap())
}

#[test]
fn guests_share_the_proposal() {
    let mut engine = alone();
    add(&mut engine, &[(2, 20), (2, 21), (2, 22), (2, 23), (7, 70), (0, 1)]);
    assert_eq!(waiting(&engine), [1, 0, 4, 0, 0, 0, 0, 1]);
    assert_eq!(draw(&mut engine), [1, 20, 70, 21].map(entry));
    assert_eq!(waiting(&engine), [0, 0, 2, 0, 0, 0, 0, 0]);
    // After guest 2: 3, then 0, then 2 twice.
    add(&mut engine, &[(3, 30), (0, 2)]);
    assert_eq!(draw(&mut engine), [30, 2, 22, 23].map(entry));
    // Nothing waits: a proposal without transactions, and guest 2 is still the one served last.
    assert_eq!(draw(&mut engine), []);
    assert_eq!((waiting(&engine), engine.words().1[SERVED]), ([0; GUESTS], 3));
    add(&mut engine, &[(1, 10), (2, 24), (3, 31)]);
    assert_eq!(draw(&mut engine), [31, 10, 24].map(entry));
}

/// The words of row 0 as docs/TABLES.md has them.
#[test]
fn words_of_a_queue() {
    let mut engine = alone();
    engine.enqueue(7, Transaction::Bond { member: Member::new(15), amount: 1_000 }).unwrap();
    engine.enqueue(7, Transaction::Unbond { member: Member::new(3) }).unwrap();
    add(&mut engine, &[(0, 5)]);
    let at = queue(7);
    assert_eq!((at, at + QUEUE_PLACES * TRANSACTION_WORDS), (248, 272));
    assert_eq!(engine.words().1[at..at + 6], [0, 15, 1_000, 1, 3, 0]);
    assert_eq!(engine.words().1[queue(0)..queue(0) + 3], [2, 5, 0]);
    assert_eq!(engine.words().1[SERVED..WAITING + GUESTS], [0, 1, 0, 0, 0, 0, 0, 0, 2]);
    // Words beyond what waits stay; what leaves moves the others up.
    let mut engine = changed(&engine, |_, table| table[at + 6..at + 24].fill(77));
    engine.draw(0).unwrap();
    assert_eq!(engine.words().1[at..at + 6], [77; 6]);
    assert_eq!(engine.words().1[SERVED..WAITING + GUESTS], [8, 0, 0, 0, 0, 0, 0, 0, 0]);
    let drawn = [
        entry(5),
        Transaction::Bond { member: Member::new(15), amount: 1_000 },
        Transaction::Unbond { member: Member::new(3) },
    ];
    assert_eq!(lent::own_proposal(engine.words().0), Some(proposal_words(Member::new(0), Round::new(1), 0, &drawn)));
    assert_eq!(lent::own_proposal(&engine.words().0[1..]), None);
    assert_eq!(lent::own_proposal(alone().words().0), None);
}

/// 26, then 6, then 27; a place that is freed serves again.
#[test]
fn adding_is_refused_in_its_order() {
    let mut engine = alone();
    let bad = [
        Transaction::Bond { member: Member::new(16), amount: 1 },
        Transaction::Bond { member: Member::new(0), amount: 0 },
        Transaction::Bond { member: Member::new(0), amount: 1_001 },
        Transaction::Unbond { member: Member::new(16) },
    ];
    for number in 0..8 {
        bad.iter().for_each(|&one| refuses(&mut engine, 6, |e| e.enqueue(7, one)));
        add(&mut engine, &[(7, number)]);
    }
    refuses(&mut engine, 27, |e| e.enqueue(7, entry(8)));
    for transaction in bad {
        refuses(&mut engine, 26, |e| e.enqueue(8, transaction));
        refuses(&mut engine, 6, |e| e.enqueue(7, transaction));
    }
    refuses(&mut engine, 26, |e| e.enqueue(u32::MAX, entry(8)));
    refuses(&mut engine, 26, |e| e.waiting(8));
    // Words that cannot be read come first, then a malformed state.
    for words in [&[][..], &[2, 7], &[3, 7, 0], &[2, 7, 1], &[1, 7, 1]] {
        let mut copy = lent(&engine);
        assert_eq!(lent::enqueue(&copy.words.state, &mut copy.words.table, 8, words), Err(Refusal::Malformed));
        assert!(copy == lent(&engine));
    }
    assert_eq!(draw(&mut engine), [0, 1, 2, 3].map(entry));
    add(&mut engine, &[(7, 8), (7, 9), (7, 10), (7, 11)]);
    refuses(&mut engine, 27, |e| e.enqueue(7, entry(12)));
    assert_eq!(draw(&mut engine), [4, 5, 6, 7].map(entry));
    assert_eq!(draw(&mut engine), [8, 9, 10, 11].map(entry));
}

/// A draw answers as a propose of what it draws, and refused it changes no word.
#[test]
fn a_draw_is_a_propose() {
    let some = [(0, 1), (4, 40), (4, 41), (6, 60), (7, 70)];
    let mut engine = alone();
    add(&mut engine, &some);
    refuses(&mut engine, 7, |e| e.draw(1));
    let mut other = engine.clone();
    other.propose(0, &[1, 40, 60, 70].map(entry)).unwrap();
    engine.draw(0).unwrap();
    assert_eq!(*engine.words().0, *other.words().0);
    assert_eq!((waiting(&engine), waiting(&other)), ([0, 0, 0, 0, 1, 0, 0, 0], [1, 0, 0, 0, 2, 0, 1, 1]));
    refuses(&mut engine, 10, |e| e.draw(0));
    engine.certify(0).unwrap();
    refuses(&mut engine, 10, |e| e.draw(0));
    engine.advance().unwrap();
    refuses(&mut engine, 7, |e| e.draw(0));
    refuses(&mut engine, 11, |e| e.draw(1 << 5));
    // Dropped by advance it does not come back: the others go on without it.
    let mut engine = of_four(0);
    add(&mut engine, &some);
    engine.draw(0).unwrap();
    (1..4).for_each(|author| engine.accept(&of_all_four(author, 1, 0, &[])).unwrap());
    engine.advance().unwrap();
    assert_eq!((engine.proposal(), waiting(&engine)), (None, [0, 0, 0, 0, 1, 0, 0, 0]));
    // 12, 9.
    refuses(&mut engine, 12, |e| e.draw(0b0010));
    let mut engine = of_four(9);
    add(&mut engine, &some);
    refuses(&mut engine, 9, |e| e.draw(0));
    // An open empties the queues.
    let sheet = Sheet { ceiling: Some(8), ..Sheet::default() };
    let again = Engine::open_on(engine.words().1.to_vec(), Member::new(9), &sheet, Rights::NONE).unwrap();
    assert_eq!((waiting(&again), again.words().1[SERVED]), ([0; GUESTS], 0));
}

/// Row 0 is part of the state, as far as it is used.
#[test]
fn queues_that_are_not_well_formed() {
    let mut engine = alone();
    add(&mut engine, &[(3, 30), (3, 31)]);
    let changed = |at: usize, word: u32| {
        let mut changed = lent(&engine);
        changed.words.table[at] = word;
        changed
    };
    let at = queue(3);
    for (at, word) in [
        (SERVED, 9),
        (SERVED, u32::MAX),
        (WAITING, 9),
        (WAITING + 7, u32::MAX),
        (WAITING, 1),
        (at, 3),
        (at + 3, 0),
        (at + 5, 1),
        (at + 2, 1),
    ] {
        // An empty queue with a count of 1 has a bond of nothing.
        let mut damaged = changed(at, word);
        refuses(&mut damaged, 1, |e| e.draw(0));
        refuses(&mut damaged, 1, |e| e.enqueue(8, entry(1)));
        refuses(&mut damaged, 1, |e| e.waiting(8));
        refuses(&mut damaged, 1, Engine::advance);
        assert!(!damaged.is_well_formed());
    }
    for (at, word) in [(SERVED, 8), (at + 6, 9), (at + 23, 9), (9, 9), (15, 9)] {
        assert_eq!(changed(at, word).waiting(3), Ok(2));
        assert_eq!(draw(&mut changed(at, word)), [30, 31].map(entry));
    }
}

// ---- advance

/// Of four of weight 1 three are a quorum. Endorsed places and other rounds do not count.
#[test]
fn no_advance_past_a_thin_round() {
    let mut engine = of_four(0);
    for round in 1..=3 {
        let previous = if round == 1 { 0 } else { 0b1110 };
        let of = |author| of_all_four(author, round, previous, &[]);
        engine.propose(previous, &[]).unwrap();
        refuses(&mut engine, 28, Engine::advance);
        (1..4).for_each(|author| engine.endorse(&of(author).proposal).unwrap());
        refuses(&mut engine, 28, Engine::advance);
        for author in [3, 1] {
            engine.accept(&of(author)).unwrap();
            refuses(&mut engine, 28, Engine::advance);
        }
        engine.accept(&of(2)).unwrap();
        let mut all = engine.clone();
        all.certify(0b1110).unwrap();
        for mut engine in [engine.clone(), all] {
            let before = engine.clone();
            engine.advance().unwrap();
            assert_eq!((engine.round(), engine.proposal()), (Round::new(round + 1), None));
            assert!(engine.words().1 == before.words().1);
        }
        engine.advance().unwrap();
    }
}

/// By weight and not by number: total 7, fault bound 2, quorum 5.
#[test]
fn a_quorum_is_told_by_weight() {
    let mut sheet = Sheet { ceiling: Some(8), ..Sheet::default() };
    sheet.weights[..4].copy_from_slice(&[Some(1), Some(1), Some(1), Some(4)]);
    let opened = Engine::open(Member::new(0), &sheet).unwrap();
    for (authors, refused) in [(&[3][..], true), (&[0, 1, 2], true), (&[3, 1], false), (&[0, 1, 2, 3], false)] {
        let mut engine = opened.clone();
        authors.iter().for_each(|&author| engine.accept(&of_all_four(author, 1, 0, &[])).unwrap());
        match refused {
            true => refuses(&mut engine, 28, Engine::advance),
            false => engine.advance().unwrap(),
        }
    }
}

/// No run holds an outsider's certificate; words written by hand may. A quorum lies inside.
#[test]
fn an_outsider_beside_a_quorum() {
    let mut engine = of_four(0);
    (0..4).for_each(|author| engine.accept(&of_all_four(author, 1, 0, &[])).unwrap());
    let mut damaged = lent(&engine);
    write_record(&mut damaged, 9, 1, 0, [2, 7, 0]);
    refuses(&mut damaged, 28, Engine::advance);
    engine.advance().unwrap();
}

/// Member 0 alone in round 4, with a transaction in the block of round 2. With a lookback of 1 it counts in
/// rounds 4 and 5, and round 6 is not known.
fn alone_with(transaction: Transaction) -> Engine {
    let mut sheet = Sheet { lookback: Some(1), ceiling: Some(8), ..Sheet::default() };
    sheet.weights[..4].copy_from_slice(&[Some(1), Some(0), Some(0), Some(0)]);
    let mut engine = Engine::open(Member::new(0), &sheet).unwrap();
    engine.propose(0, &[transaction]).unwrap();
    engine.certify(0).unwrap();
    for _ in 2..=3 {
        engine.advance().unwrap();
        engine.propose(1, &[]).unwrap();
        engine.certify(0).unwrap();
    }
    assert_eq!(engine.commit(), Ok(1));
    engine.advance().unwrap();
    engine
}

/// Nothing held is a quorum of an empty committee, and one certificate is not.
#[test]
fn an_empty_committee_lets_it_pass() {
    let mut engine = alone_with(Transaction::Unbond { member: Member::new(0) });
    assert_eq!(engine.committee(Round::new(4)), Ok([0; MEMBERS]));
    let mut damaged = lent(&engine);
    write_record(&mut damaged, 0, 4, 0, [2, 7, 0]);
    refuses(&mut damaged, 28, Engine::advance);
    engine.advance().unwrap();
    assert_eq!(engine.round(), 5);
}

/// With a lookback of 1 and no block round 4 is unknown: 18 at the ceiling, else 8, then 28.
#[test]
fn advance_is_refused_in_its_order() {
    for (ceiling, number) in [(3, 18), (4, 18), (5, 8)] {
        let mut sheet = Sheet { lookback: Some(1), ceiling: Some(ceiling), ..Sheet::default() };
        sheet.weights[1..4].fill(Some(0));
        let mut engine = Engine::open(Member::new(0), &sheet).unwrap();
        for round in 1..=ceiling.min(4) {
            if round < 4 {
                engine.propose((round > 1).into(), &[]).unwrap();
                engine.certify(0).unwrap();
            }
            if round < ceiling.min(4) {
                engine.advance().unwrap();
            }
        }
        refuses(&mut engine, number, Engine::advance);
        let mut damaged = lent(&engine);
        damaged.words.state[0] = 16;
        refuses(&mut damaged, 1, Engine::advance);
    }
}

// ---- block rows

/// What blocks hold, once it is the chain's, each as the certificate read gives it.
fn block_rows(engine: &Engine, known: u32, number: u32) -> Result<Vec<Held>, Refusal> {
    let found = engine.block_rows(known, number)?;
    let blocks = engine.chain().unwrap();
    let blocks = &blocks[known as usize..(known + number) as usize];
    let places = blocks.iter().flat_map(|block| block.certificates.iter().copied());
    assert!(found.iter().map(|one| (one.block, one.proposal.author, one.proposal.round)).eq(places.map(|entry| (
        Some(entry.block),
        entry.author,
        entry.round
    ))));
    let numbers = (known + 1..).zip(blocks).flat_map(|(number, block)| vec![number; block.certificates.len()]);
    assert!(found.iter().map(|one| one.block.unwrap()).eq(numbers));
    for held in &found {
        assert_eq!(engine.certificate(held.proposal.author, held.proposal.round).as_ref(), Ok(held));
    }
    Ok(found)
}

/// Two blocks of one commit, and one after them: what is new, the whole chain, and pieces of it.
#[test]
fn block_rows_are_certificates_of_the_chain() {
    let mut engine = of_four(0);
    for round in 1..=7 {
        let previous = if round == 1 { 0 } else { 0b1111 };
        for author in 0..4 {
            let one = of_all_four(author, round, previous, &[entry(10 * round + author)]);
            engine.accept(&one).unwrap();
        }
        if round == 5 {
            assert_eq!(engine.block_rows(0, 1), Err(Refusal::NoneThere));
            assert_eq!(engine.block_rows(0, 0), Ok(Vec::new()));
            assert_eq!(engine.commit(), Ok(2));
        }
        if round < 7 {
            engine.advance().unwrap();
        }
    }
    assert_eq!(engine.commit(), Ok(1));
    let pieces: Vec<Held> = (0..3).flat_map(|known| block_rows(&engine, known, 1).unwrap()).collect();
    let whole = block_rows(&engine, 0, 3).unwrap();
    assert_eq!((&whole, whole.len()), (&pieces, 21));
    assert_eq!(block_rows(&engine, 1, 2).unwrap(), whole[5..]);
    for (known, number) in [(0, 4), (3, 1), (4, 0), (u32::MAX, u32::MAX)] {
        assert_eq!(engine.block_rows(known, number), Err(Refusal::NoneThere));
    }
}

/// 1, 23, 25: a list with just enough room serves, and keeps what lies beyond; one word less does not.
#[test]
fn a_list_of_rows_is_lent() {
    let mut engine = of_four(0);
    assert!(engine.batch(&newest_first(3)).unwrap().iter().all(Result::is_ok));
    (0..2).for_each(|_| engine.advance().unwrap());
    assert_eq!(engine.commit(), Ok(1));
    let mut list = vec![77; 5 * HELD_WORDS + 1];
    for length in 0..5 * HELD_WORDS {
        let found = lent::block_rows(engine.words().0, engine.words().1, 0, 1, &mut list[..length]);
        assert_eq!(found, Err(Refusal::LengthRange));
        assert_eq!(
            lent::block_rows(engine.words().0, engine.words().1, 0, 2, &mut list[..length]),
            Err(Refusal::NoneThere)
        );
        assert_eq!(lent::block_rows(&[0; STATE_WORDS], engine.words().1, 0, 2, &mut list), Err(Refusal::Malformed));
    }
    assert!(list.iter().all(|&word| word == 77));
    assert_eq!(lent::block_rows(engine.words().0, engine.words().1, 0, 1, &mut list), Ok(5));
    assert_eq!(list[5 * HELD_WORDS], 77);
    let held: Result<Vec<_>, _> = lent::rows(&list, 5).map(|words| Held::from_words(&words)).collect();
    assert_eq!(held, block_rows(&engine, 0, 1));
}

// ---- previews

/// What a commit on a copy adds, read there: the refusal, or the certificates of the new blocks.
fn by_a_copy<W: Words>(engine: &Engine<W>) -> Result<Vec<Entry>, Refusal> {
    let mut copy = engine.clone();
    copy.commit()?;
    let mut list = vec![0; layout::rows_words(copy.words().0[STATE_CEILING])];
    let count = lent::chain(copy.words().0, copy.words().1, &mut list).unwrap();
    Ok(lent::places(&list, count).filter(|place| place.block > engine.blocks()).collect())
}

/// The preview, once it is what the copy tells and has changed nothing.
fn preview<W: Words>(engine: &Engine<W>) -> Result<Vec<Entry>, Refusal> {
    let before = engine.clone();
    let found = engine.preview();
    assert!(*engine == before, "a preview changed a word");
    assert_eq!(found, by_a_copy(engine));
    found
}

/// Entries of a block: rounds, each with its authors.
fn of_block(block: u32, rounds: &[(u32, &[u32])]) -> Vec<Entry> {
    let row = |&(round, authors): &(u32, &[u32])| -> Vec<Entry> {
        authors.iter().map(|&author| Entry { block, round: Round::new(round), author: Member::new(author) }).collect()
    };
    rounds.iter().flat_map(row).collect()
}

/// Two blocks at once, each from its own leader; then one whose number goes on; refusals between.
#[test]
fn a_preview_is_a_commit_on_a_copy() {
    let mut engine = of_four(0);
    for round in 1..=7 {
        let previous = if round == 1 { 0 } else { 0b1111 };
        for author in [3, 0, 2, 1] {
            preview(&engine).ok();
            engine.accept(&of_all_four(author, round, previous, &[])).unwrap();
        }
        if round == 3 {
            let first = of_block(1, &[(1, &[1, 2, 3, 0]), (2, &[1])]);
            assert_eq!(preview(&engine), Ok(first));
        }
        if round == 5 {
            let first = of_block(1, &[(1, &[1, 2, 3, 0]), (2, &[1])]);
            let second = of_block(2, &[(2, &[2, 3, 0]), (3, &[2, 3, 0, 1]), (4, &[2])]);
            assert_eq!(preview(&engine), Ok([first, second].concat()));
            assert_eq!(engine.commit(), Ok(2));
            assert_eq!(preview(&engine), Err(Refusal::BlockMade));
        }
        if round < 7 {
            engine.advance().unwrap();
        }
    }
    let third = of_block(3, &[(4, &[3, 0, 1]), (5, &[3, 0, 1, 2]), (6, &[3])]);
    assert_eq!(preview(&engine), Ok(third.clone()));
    // Again, and made.
    assert_eq!(preview(&engine), Ok(third));
    assert_eq!(engine.commit(), Ok(1));
}

/// 1, 25, then 19, 20, 8, 21, 22.
#[test]
fn a_preview_is_refused_in_its_order() {
    let short = preview_words(8) - 1;
    let refused = |engine: &Engine, number| {
        assert_eq!(preview(engine).unwrap_err().number(), number);
        let mut list = vec![77; short];
        assert_eq!(lent::preview(engine.words().0, engine.words().1, &mut list), Err(Refusal::LengthRange));
        let mut damaged = lent(engine);
        damaged.words.state[0] = 16;
        assert_eq!(lent::preview(damaged.words().0, damaged.words().1, &mut list), Err(Refusal::Malformed));
        assert_eq!(damaged.preview(), Err(Refusal::Malformed));
        assert!(list.iter().all(|&word| word == 77));
    };
    // No commit in round 1 and in even ones; no anchor; a vote of the weight of the bound.
    let mut engine =
        Engine::open(Member::new(0), &Sheet { lookback: Some(1), ceiling: Some(8), ..Sheet::default() }).unwrap();
    refused(&engine, 19);
    for author in 0..4 {
        engine.accept(&of_all_four(author, 1, 0, &[])).unwrap();
    }
    engine.advance().unwrap();
    refused(&engine, 19);
    for author in [0, 2, 3] {
        engine.accept(&of_all_four(author, 2, 0b1111, &[])).unwrap();
    }
    engine.advance().unwrap();
    refused(&engine, 21);
    engine.accept(&of_all_four(1, 2, 0b1111, &[])).unwrap();
    refused(&engine, 22);
    engine.accept(&of_all_four(0, 3, 0b1111, &[])).unwrap();
    refused(&engine, 22);
    engine.accept(&of_all_four(2, 3, 0b1101, &[])).unwrap();
    refused(&engine, 22);
    engine.accept(&of_all_four(3, 3, 0b1110, &[])).unwrap();
    // The same engine without its commit comes into round 5 by hand: not known.
    let late = changed(&engine, |state, _| state[STATE_ROUND] = 5);
    refused(&late, 8);
    assert_eq!(preview(&engine), Ok(of_block(1, &[(1, &[1, 2, 3, 0]), (2, &[1])])));
    engine.commit().unwrap();
    refused(&engine, 20);
}

/// Three words are a place, and a started one is none. What lies beyond the entries stays.
#[test]
fn lengths_of_a_list() {
    let mut engine = alone();
    engine.propose(0, &[]).unwrap();
    engine.certify(0).unwrap();
    for _ in 2..=3 {
        engine.advance().unwrap();
        engine.propose(1, &[]).unwrap();
        engine.certify(0).unwrap();
    }
    let need = preview_words(64);
    assert_eq!((need, preview_words(3), preview_words(CEILING)), (3_072, 144, 49_152));
    for length in [0, 1, 6, need - 3, need - 1, need, need + 1, need + 2, need + 3, 2 * need] {
        let mut list = vec![77; length];
        let found = lent::preview(engine.words().0, engine.words().1, &mut list);
        let count = if length < need { 0 } else { 2 };
        assert_eq!(found, if length < need { Err(Refusal::LengthRange) } else { Ok(2) }, "{length} words");
        assert!(list[..ENTRY_WORDS * count] == [1, 1, 0, 1, 2, 0][..ENTRY_WORDS * count]);
        assert!(list[ENTRY_WORDS * count..].iter().all(|&word| word == 77));
        assert_eq!(lent::entries(&list, count as u32).count(), count);
    }
    // A longer table and a longer state are fine.
    let table = [engine.words().1, &[77; 5]].concat();
    let state = [&engine.words().0[..], &[77; 5]].concat();
    let mut list = vec![77; need];
    assert_eq!(lent::preview(&state, &table, &mut list), Ok(2));
    assert_eq!(lent::preview(&state[1..], &table, &mut list), Err(Refusal::Malformed));
    assert_eq!(lent::preview(&state, &engine.words().1[1..], &mut list), Err(Refusal::Malformed));
}

/// No run marks an anchor before its block; words written by hand may. Its block has no entry.
#[test]
fn a_block_without_new_certificates_has_no_entry() {
    let mut engine = alone();
    engine.propose(0, &[]).unwrap();
    engine.certify(0).unwrap();
    for _ in 2..=7 {
        engine.advance().unwrap();
        engine.propose(1, &[]).unwrap();
        engine.certify(0).unwrap();
    }
    // As if block 1, of round 2, held rounds 1 to 4.
    let mut engine = lent(&engine);
    engine.words.state[STATE_BLOCKS] = 1;
    engine.words.table[row(1) + ROW_BLOCK] = 2;
    (1..=4).for_each(|round| engine.words.table[record(Member::new(0), Round::new(round)) + RECORD_BLOCK] = 1);
    assert_eq!(preview(&engine), Ok(of_block(3, &[(5, &[0]), (6, &[0])])));
    assert_eq!(engine.commit(), Ok(2));
}

// ---- what a commit hangs on

/// By absence alone: the refusal of a commit, or the held certificates of the two rounds without which
/// a commit on a copy is refused.
fn by_absence<W: Words>(engine: &Engine<W>) -> Result<Vec<Critical>, Refusal> {
    engine.clone().commit()?;
    let without = |place: &Critical| {
        let mut copy = Engine::lent(*engine.words().0, engine.words().1.to_vec());
        copy.words.table[row(place.round.get()) + ROW_HELD] &= !u32::from(place.author.bit());
        copy.commit()
    };
    let places = [engine.round().before(), engine.round()]
        .into_iter()
        .flat_map(|round| Member::ALL.map(|author| Critical { round, author }));
    let held = places.filter(|place| engine.certificate(place.author, place.round).is_ok());
    Ok(held.filter(|place| without(place).is_err()).collect())
}

/// The list, once it is what absence tells and no word has changed.
fn critical<W: Words>(engine: &mut Engine<W>) -> Result<Vec<Critical>, Refusal> {
    let before = engine.clone();
    let found = engine.critical();
    assert!(*engine == before, "a word is not as it was");
    assert_eq!(found, by_absence(engine));
    assert_eq!(found.as_ref().err(), engine.preview().err().as_ref());
    found
}

/// The anchor of a round, and votes of the next.
fn hangs_on(anchor: u32, round: u32, votes: &[u32]) -> Result<Vec<Critical>, Refusal> {
    let votes = votes.iter().map(|&author| Critical { round: Round::new(round + 1), author: Member::new(author) });
    Ok([Critical { round: Round::new(round), author: Member::new(anchor) }].into_iter().chain(votes).collect())
}

/// Of four of weight 1 the bound is 1: both of two votes, none of three or four. Then the next anchors.
#[test]
fn a_commit_hangs_on_its_anchor_and_on_few_votes() {
    let mut engine = of_four(0);
    for (round, anchor) in [(1, None), (2, None), (3, Some(1)), (4, None), (5, Some(2)), (6, None), (7, Some(3))] {
        let previous = if round == 1 { 0 } else { 0b1111 };
        for (votes, author) in (1..).zip([3, 0, 2, 1]) {
            engine.accept(&of_all_four(author, round, previous, &[])).unwrap();
            let expected = match (anchor, votes) {
                (None, _) => Err(Refusal::NoCommitRound),
                (Some(_), 1) => Err(Refusal::VotesShort),
                (Some(anchor), 2) => hangs_on(anchor, round - 1, &[0, 3]),
                (Some(anchor), _) => hangs_on(anchor, round - 1, &[]),
            };
            assert_eq!(critical(&mut engine), expected);
        }
        // Round 5 commits two anchors, round 7 goes on from there.
        if round == 5 {
            assert_eq!(engine.commit(), Ok(2));
            assert_eq!(critical(&mut engine), Err(Refusal::BlockMade));
        }
        if round < 7 {
            engine.advance().unwrap();
        }
    }
}

/// A vote is there exactly when the remaining ones weigh not more than the bound: total 7, bound 2.
#[test]
fn votes_are_told_by_what_remains() {
    let mut sheet = Sheet { ceiling: Some(8), ..Sheet::default() };
    sheet.weights[..4].copy_from_slice(&[Some(1), Some(1), Some(1), Some(4)]);
    let mut engine = Engine::open(Member::new(0), &sheet).unwrap();
    for round in 1..=2 {
        let previous = if round == 1 { 0 } else { 0b1111 };
        (0..4).for_each(|author| engine.accept(&of_all_four(author, round, previous, &[])).unwrap());
        engine.advance().unwrap();
    }
    // What does not name the anchor, 1, is no vote.
    for (votes, others, there) in [
        (&[3][..], &[][..], &[3][..]),
        (&[3], &[0, 1, 2], &[3]),
        (&[0, 3], &[], &[3]),
        (&[0, 1, 3], &[2], &[3]),
        (&[0, 1, 2], &[3], &[0, 1, 2]),
        (&[0, 1, 2, 3], &[], &[]),
    ] {
        let mut engine = engine.clone();
        votes.iter().for_each(|&author| engine.accept(&of_all_four(author, 3, 0b1111, &[])).unwrap());
        others.iter().for_each(|&author| engine.accept(&of_all_four(author, 3, 0b1101, &[])).unwrap());
        assert_eq!(critical(&mut engine), hangs_on(1, 2, there), "votes {votes:?}");
        // No run holds an outsider's certificate; it weighs nothing.
        let mut engine = lent(&engine);
        write_record(&mut engine, 9, 3, 0, [2, 7, 0]);
        engine.words.table[record(Member::new(9), Round::new(3))] = 0b1111;
        assert_eq!(critical(&mut engine), hangs_on(1, 2, there), "votes {votes:?}, and an outsider's");
    }
}

/// Member 0 of sixteen in round 3, with all of rounds 1 and 2.
fn in_round_3(margin: u32, weights: [u32; MEMBERS]) -> Engine {
    let mut engine = of_sixteen(margin, weights);
    for round in 1..=2 {
        let previous = if round == 1 { 0 } else { 0xffff };
        (0..16).for_each(|author| engine.accept(&signed_by(16, author, round, previous)).unwrap());
        engine.advance().unwrap();
    }
    engine
}

/// Sixteen of weight 1: bounds 5, 3 and 3. One vote more than the bound, and all are there; one more, and none.
#[test]
fn the_bound_is_that_of_the_margin() {
    for (margin, bound) in [(3, 5), (4, 3), (5, 3)] {
        let mut engine = in_round_3(margin, [1; MEMBERS]);
        for author in 0..16 {
            engine.accept(&signed_by(16, author, 3, 0xffff)).unwrap();
            let all: Vec<u32> = (0..=author).collect();
            match author {
                _ if author < bound => assert_eq!(critical(&mut engine), Err(Refusal::VotesShort)),
                _ if author == bound => assert_eq!(critical(&mut engine), hangs_on(1, 2, &all)),
                _ => assert_eq!(critical(&mut engine), hangs_on(1, 2, &[])),
            }
        }
    }
}

/// Fifteen of weight 1 and one of 30, who does not vote: total 45, bound 14, and no vote can be spared.
#[test]
fn a_commit_may_hang_on_fifteen_votes() {
    let weights = core::array::from_fn(|member| if member == 15 { 30 } else { 1 });
    let mut engine = in_round_3(3, weights);
    (0..15).for_each(|author| engine.accept(&signed_by(16, author, 3, 0xffff)).unwrap());
    let all: Vec<u32> = (0..15).collect();
    assert_eq!(critical(&mut engine), hangs_on(1, 2, &all));
    engine.accept(&signed_by(16, 15, 3, 0xffff)).unwrap();
    assert_eq!(critical(&mut engine), hangs_on(1, 2, &[]));
}

/// 1, 25, then 19, 20, 8, 21, 22.
#[test]
fn a_list_of_places_is_refused_in_its_order() {
    let refused = |engine: &mut Engine, number| {
        assert_eq!(critical(engine).unwrap_err().number(), number);
        let mut list = [77; CRITICAL_WORDS - 1];
        let mut copy = lent(engine);
        assert_eq!(lent::critical(&copy.words.state, &mut copy.words.table, &mut list), Err(Refusal::LengthRange));
        let mut damaged = lent(engine);
        damaged.words.state[0] = 16;
        assert_eq!(lent::critical(&damaged.words.state, &mut damaged.words.table, &mut list), Err(Refusal::Malformed));
        refuses(&mut damaged, 1, Engine::critical);
        assert!(list.iter().all(|&word| word == 77));
    };
    let mut engine =
        Engine::open(Member::new(0), &Sheet { lookback: Some(1), ceiling: Some(8), ..Sheet::default() }).unwrap();
    refused(&mut engine, 19);
    (0..4).for_each(|author| engine.accept(&of_all_four(author, 1, 0, &[])).unwrap());
    engine.advance().unwrap();
    refused(&mut engine, 19);
    [0, 2, 3].iter().for_each(|&author| engine.accept(&of_all_four(author, 2, 0b1111, &[])).unwrap());
    engine.advance().unwrap();
    refused(&mut engine, 21);
    engine.accept(&of_all_four(1, 2, 0b1111, &[])).unwrap();
    refused(&mut engine, 22);
    engine.accept(&of_all_four(0, 3, 0b1111, &[])).unwrap();
    refused(&mut engine, 22);
    engine.accept(&of_all_four(2, 3, 0b1101, &[])).unwrap();
    refused(&mut engine, 22);
    engine.accept(&of_all_four(3, 3, 0b1110, &[])).unwrap();
    let mut late = changed(&engine, |state, _| state[STATE_ROUND] = 5);
    refused(&mut late, 8);
    assert_eq!(critical(&mut engine), hangs_on(1, 2, &[0, 3]));
    engine.commit().unwrap();
    refused(&mut engine, 20);
}

/// Two words are a place, and a started one is none. What lies beyond the places stays.
#[test]
fn lengths_of_a_list_of_places() {
    let mut engine = alone();
    engine.propose(0, &[]).unwrap();
    engine.certify(0).unwrap();
    for _ in 2..=3 {
        engine.advance().unwrap();
        engine.propose(1, &[]).unwrap();
        engine.certify(0).unwrap();
    }
    assert_eq!(critical(&mut engine), hangs_on(0, 2, &[0]));
    assert_eq!(CRITICAL_WORDS, 32 * PLACE_WORDS);
    let mut engine = lent(&engine);
    let before = engine.clone();
    for length in [0, 1, 4, 31, 32, 62, 63, 64, 65, 66, 128] {
        let mut list = vec![77; length];
        let found = lent::critical(&engine.words.state, &mut engine.words.table, &mut list);
        let count = if length < 64 { 0 } else { 2 };
        assert_eq!(found, if length < 64 { Err(Refusal::LengthRange) } else { Ok(2) }, "{length} words");
        assert!(list[..PLACE_WORDS * count] == [2, 0, 3, 0][..PLACE_WORDS * count]);
        assert!(list[PLACE_WORDS * count..].iter().all(|&word| word == 77));
        assert_eq!(lent::criticals(&list, count as u32).count(), count);
        assert!(engine == before);
    }
    // A longer table and a longer state are fine.
    let mut table = [engine.words().1, &[77; 5]].concat();
    let state = [&engine.words().0[..], &[77; 5]].concat();
    let (mut list, before) = ([77; CRITICAL_WORDS], table.clone());
    assert_eq!(lent::critical(&state, &mut table, &mut list), Ok(2));
    assert_eq!(lent::critical(&state[1..], &mut table, &mut list), Err(Refusal::Malformed));
    assert_eq!(lent::critical(&state, &mut engine.words.table[1..], &mut list), Err(Refusal::Malformed));
    assert!(table == before);
}

/// Four of weight 1 in round 5, with the block of round 2, all of rounds 1 to 4, and votes of some. With
/// a lookback of 1 that block makes the committees of rounds 4 and 5.
fn in_round_5(author: u32, transaction: Transaction, votes: &[u32]) -> Engine {
    let mut engine =
        Engine::open(Member::new(0), &Sheet { lookback: Some(1), ceiling: Some(8), ..Sheet::default() }).unwrap();
    for round in 1..=4 {
        let previous = if round == 1 { 0 } else { 0b1111 };
        for one in 0..4 {
            let transactions = if (one, round) == (author, 4) { vec![transaction] } else { Vec::new() };
            engine.accept(&of_all_four(one, round, previous, &transactions)).unwrap();
        }
        if round == 3 {
            assert_eq!(engine.commit(), Ok(1));
        }
        engine.advance().unwrap();
    }
    votes.iter().for_each(|&one| engine.accept(&of_all_four(one, 5, 0b1111, &[])).unwrap());
    engine
}

/// No run marks a certificate of the two rounds; words written by hand may. Its absence changes the
/// chain, and with it committees, so that other certificates may be there, and the anchor not.
#[test]
fn a_certificate_of_a_block_is_tried_without() {
    let mark = |engine: &mut Engine<Lent>, author: u32, round: u32| {
        engine.words.table[record(Member::new(author), Round::new(round)) + RECORD_BLOCK] = 1
    };
    // A bond of 10 for member 0 gives its vote its weight: total 14, bound 4.
    let mut engine = lent(&in_round_5(3, Transaction::Bond { member: Member::new(0), amount: 10 }, &[0]));
    assert_eq!(critical(&mut engine), Err(Refusal::VotesShort));
    mark(&mut engine, 3, 4);
    let place = |round, author| Critical { round, author };
    assert_eq!(
        critical(&mut engine),
        Ok(vec![
            place(Round::new(4), Member::new(2)),
            place(Round::new(4), Member::new(3)),
            place(Round::new(5), Member::new(0))
        ])
    );
    // Without member 0 the leader of round 4 is 3, else 2, and both have a certificate and votes: the
    // commit goes without this anchor, by the other.
    let mut engine = lent(&in_round_5(3, Transaction::Unbond { member: Member::new(0) }, &[1, 2, 3]));
    assert_eq!(critical(&mut engine), hangs_on(2, 4, &[]));
    mark(&mut engine, 3, 4);
    assert_eq!(critical(&mut engine), Ok(Vec::new()));
    // Marked without a transaction that changes weights: as any other.
    let mut engine = lent(&in_round_5(3, entry(7), &[0, 1]));
    [(2, 4), (3, 4), (1, 5)].iter().for_each(|&(author, round)| mark(&mut engine, author, round));
    assert_eq!(critical(&mut engine), hangs_on(2, 4, &[0, 1]));
}

/// As many as there are places. Member 0's vote alone is there, of weight 1 and of 32 bonds that block 1
/// has of rounds 4 and 5: 33, and with 66 of the others the bound is 32, with or without one bond.
#[test]
fn a_commit_may_hang_on_all_that_is_held() {
    let weights = core::array::from_fn(|member| if member == 1 { 52 } else { 1 });
    let mut engine = lent(&of_sixteen(3, weights));
    engine.words.state[STATE_ROUND] = 5;
    engine.words.state[STATE_BLOCKS] = 1;
    engine.words.table[row(1) + ROW_BLOCK] = 2;
    let places: Vec<_> = (4..=5)
        .flat_map(|round| (0..16).map(move |author| Critical { round: Round::new(round), author: Member::new(author) }))
        .collect();
    places.iter().for_each(|place| write_record(&mut engine, place.author.get(), place.round.get(), 1, [0, 0, 1]));
    // The anchor is that of 2.
    engine.words.table[record(Member::new(0), Round::new(5))] = 0b0100;
    assert_eq!(critical(&mut engine), Ok(places));
    let mut list = [77; CRITICAL_WORDS + 1];
    assert_eq!(lent::critical(&engine.words.state, &mut engine.words.table, &mut list), Ok(32));
    assert_eq!((list[0], list[63], list[64]), (4, 15, 77));
}

// ---- margins

/// Member 0 of sixteen of these weights, by a margin. With lookback 1 rounds up to 3 are known.
fn of_sixteen(margin: u32, weights: [u32; MEMBERS]) -> Engine {
    let weights = weights.map(Some);
    let sheet = Sheet { lookback: Some(1), ceiling: Some(8), weights, margin: Some(margin), ..Sheet::default() };
    Engine::open(Member::new(0), &sheet).unwrap()
}

/// The members below a number.
fn below(number: u32) -> Set {
    ((1u32 << number) - 1) as Set
}

/// A certificate without transactions that its author and the first of the others sign, so many in all.
fn signed_by(signers: u32, author: u32, round: u32, previous: Set) -> Certificate {
    let endorsers = if author < signers { below(signers) & !(1 << author) } else { below(signers - 1) };
    Certificate {
        proposal: Proposal {
            author: Member::new(author),
            round: Round::new(round),
            previous,
            transactions: Vec::new(),
        },
        endorsers,
    }
}

#[test]
fn margins_of_a_sheet() {
    let sheet = |margin| Sheet { ceiling: Some(8), margin, ..Sheet::default() };
    for (margin, filled) in [(None, 3), (Some(3), 3), (Some(4), 4), (Some(5), 5)] {
        let engine = Engine::open(Member::new(0), &sheet(margin)).unwrap();
        assert_eq!(engine.words().0[STATE_MARGIN], filled);
        assert_eq!(sheet(margin).to_words()[38..], [margin.is_some().into(), margin.unwrap_or(0)]);
    }
    // 4, then 2, then 3, then 1.
    for margin in [0, 1, 2, 6, 7, u32::MAX] {
        let wrong = Sheet { weights: [Some(0); MEMBERS], ..sheet(Some(margin)) };
        assert_eq!(Engine::open(Member::new(16), &wrong), Err(Refusal::MemberRange));
        assert_eq!(Engine::open(Member::new(15), &wrong), Err(Refusal::SettingRange));
        assert_eq!(
            Engine::open_on(Vec::new(), Member::new(15), &sheet(Some(margin)), Rights::NONE),
            Err(Refusal::SettingRange)
        );
    }
    assert_eq!(Engine::open_on(Vec::new(), Member::new(15), &sheet(Some(5)), Rights::NONE), Err(Refusal::Malformed));
    // What a blank one has for its value is not looked at; a sheet of before is too short.
    let mut engine = lent(&of_four(0));
    let mut words = sheet(None).to_words();
    words[39] = 6;
    lent::open(&mut engine.words.state, &mut engine.words.table, Member::new(0), &words, 0).unwrap();
    assert_eq!(engine.words().0[STATE_MARGIN], 3);
    assert_eq!(
        lent::open(&mut engine.words.state, &mut engine.words.table, Member::new(0), &words[..38], 0),
        Err(Refusal::Malformed)
    );
    words[38] = 2;
    assert_eq!(
        lent::open(&mut engine.words.state, &mut engine.words.table, Member::new(0), &words, 0),
        Err(Refusal::Malformed)
    );
}

/// For total 16 margin 3 gives 5 and 11, margin 5 gives 3 and 13: 13, 28, 12, one short and just enough.
#[test]
fn quorums_of_sixteen() {
    for (margin, quorum) in [(3, 11), (4, 13), (5, 13)] {
        let mut engine = of_sixteen(margin, [1; MEMBERS]);
        engine.propose(0, &[]).unwrap();
        refuses(&mut engine, 13, |e| e.certify(below(quorum - 1) & !1));
        engine.certify(below(quorum) & !1).unwrap();
        for author in 1..quorum {
            refuses(&mut engine, 13, |e| e.accept(&signed_by(quorum - 1, author, 1, 0)));
            refuses(&mut engine, 28, Engine::advance);
            let row = [signed_by(quorum - 1, author, 1, 0), signed_by(quorum, author, 1, 0)];
            assert_eq!(numbers(&engine.batch(&row).unwrap()), [13, 0]);
        }
        engine.advance().unwrap();
        let (short, enough) = (below(quorum - 1), below(quorum));
        refuses(&mut engine, 12, |e| e.propose(short, &[]));
        refuses(&mut engine, 12, |e| e.draw(short));
        refuses(&mut engine, 12, |e| e.endorse(&signed_by(quorum, 15, 2, short).proposal));
        engine.endorse(&signed_by(quorum, 15, 2, enough).proposal).unwrap();
        engine.clone().propose(enough, &[]).unwrap();
        engine.draw(enough).unwrap();
        assert_eq!(engine.words().0[STATE_MARGIN], margin);
    }
}

/// Total 21, one of them with 6: bounds 6, 5 and 4. Votes of the weight of the bound are too few, one
/// more is enough.
#[test]
fn votes_by_the_margin() {
    for (margin, bound) in [(3, 6), (4, 5), (5, 4)] {
        let weights = core::array::from_fn(|member| if member == 15 { 6 } else { 1 });
        let mut engine = of_sixteen(margin, weights);
        for round in 1..=2 {
            let previous = if round == 1 { 0 } else { 0xffff };
            (0..16).for_each(|author| engine.accept(&signed_by(16, author, round, previous)).unwrap());
            engine.advance().unwrap();
        }
        for author in 0..=bound {
            assert_eq!(preview(&engine), Err(Refusal::VotesShort));
            refuses(&mut engine, 22, Engine::commit);
            engine.accept(&signed_by(16, author, 3, 0xffff)).unwrap();
        }
        assert_eq!(preview(&engine).unwrap().len(), 17);
        assert_eq!(engine.commit(), Ok(1));
        assert_eq!(engine.words().0[STATE_MARGIN], margin);
    }
}

/// Shares, committees and known rounds do not go by it.
#[test]
fn what_a_margin_leaves_alone() {
    for margin in 3..=5 {
        let engine = of_sixteen(margin, [1; MEMBERS]);
        assert_eq!(engine.committee(Round::new(3)), Ok([1; MEMBERS]));
        assert_eq!(engine.committee(Round::new(4)), Err(Refusal::CommitteeUnknown));
        assert_eq!(engine.share(Member::new(15), Round::new(3)), Ok(Share::new(62)));
        assert_eq!(engine.bond_effect(Member::new(15), Round::new(3), 64).unwrap().largest, 750);
        assert_eq!(leader(Round::new(2), &engine.committee(Round::new(2)).unwrap()), Some(Member::new(1)));
    }
}

/// The proposal ends where the margin stands, also with all its words in use; no call but open writes
/// the margin.
#[test]
fn a_proposal_beside_a_margin() {
    let all = [
        Transaction::Bond { member: Member::new(3), amount: 1_000 },
        Transaction::Unbond { member: Member::new(15) },
        entry(7),
        entry(u32::MAX),
    ];
    let mut sheet = Sheet { ceiling: Some(8), margin: Some(5), ..Sheet::default() };
    sheet.weights[1..4].fill(Some(0));
    let mut engine = Engine::open(Member::new(0), &sheet).unwrap();
    engine.propose(0, &all).unwrap();
    assert_eq!(lent::own_proposal(engine.words().0), Some(proposal_words(Member::new(0), Round::new(1), 0, &all)));
    assert_eq!(engine.proposal().unwrap().transactions, all);
    engine.certify(0).unwrap();
    for _ in 2..=3 {
        engine.advance().unwrap();
        assert_eq!((engine.proposal(), engine.words().0[STATE_MARGIN]), (None, 5));
        all.iter().for_each(|&one| engine.enqueue(0, one).unwrap());
        engine.draw(1).unwrap();
        assert_eq!((engine.proposal().unwrap().transactions, engine.words().0[STATE_MARGIN]), (all.to_vec(), 5));
        engine.certify(0).unwrap();
    }
    assert_eq!(engine.commit(), Ok(1));
    assert_eq!((engine.proposal().unwrap().transactions, engine.words().0[STATE_MARGIN]), (all.to_vec(), 5));
}

/// States of 37 and 38 words, as earlier versions stored them, are refused, and go on when they are brought
/// along.
#[test]
fn states_of_before() {
    let mut engine = of_four(0);
    engine.propose(0, &[entry(5); 4]).unwrap();
    for (format, words) in [(1, 37), (2, 38)] {
        let stored = engine.words().0[..words].to_vec();
        let (mut short, mut table) = (stored.clone(), engine.words().1.to_vec());
        assert_eq!(lent::certify(&short, &mut table, 0b1110), Err(Refusal::Malformed));
        assert_eq!(lent::advance(&mut short, &table), Err(Refusal::Malformed));
        assert_eq!(lent::commit(&mut short, &mut table), Err(Refusal::Malformed));
        assert_eq!(lent::committee(&short, &table, Round::new(1)), Err(Refusal::Malformed));
        assert_eq!(lent::chain(&short, &table, &mut []), Err(Refusal::Malformed));
        assert_eq!(lent::own_proposal(&short), None);
        assert!(!lent::is_well_formed(&short, &table) && short == stored && table == engine.words().1);
        for rights in [0, 0x8000_0001, u32::MAX] {
            let brought = brought_along(format, &stored, rights).unwrap();
            let mut again = Engine::try_restore(brought, table.clone()).unwrap();
            assert_eq!((again.rights().to_word(), again.words().0[STATE_MARGIN]), (rights, 3));
            assert!(again.words().0[..37] == engine.words().0[..37] && again.words().1 == engine.words().1);
            again.certify(0b0110).unwrap();
        }
        assert_eq!(brought_along(format, &stored, 0), Ok(*engine.words().0));
        assert_eq!(brought_along(format, &stored[1..], 0), Err(Refusal::Malformed));
    }
    // Another margin stays, and so does what a state of today has; more words are not looked at.
    let mut engine = lent(&engine);
    engine.words.state[STATE_MARGIN..].copy_from_slice(&[5, 7]);
    assert_eq!(brought_along(2, engine.words().0, 9).unwrap()[STATE_MARGIN..], [5, 9]);
    assert_eq!(brought_along(3, engine.words().0, 9), Ok(*engine.words().0));
    assert_eq!(brought_along(3, &engine.words().0[1..], 9), Err(Refusal::Malformed));
    for format in [0, 4, u32::MAX] {
        assert_eq!(brought_along(format, engine.words().0, 9), Err(Refusal::Malformed));
    }
}

/// 3 to 5, else the state is not well formed. Another margin is another state.
#[test]
fn a_margin_out_of_range() {
    let mut engine = lent(&of_four(0));
    let proposal = Proposal { author: Member::new(1), round: Round::new(1), previous: 0, transactions: Vec::new() };
    let of_three = Certificate { proposal, endorsers: 0b1001 };
    for margin in [0, 1, 2, 6, 7, 0x1_0003, u32::MAX] {
        engine.words.state[STATE_MARGIN] = margin;
        assert_eq!(Engine::try_restore(*engine.words().0, engine.words().1.to_vec()), Err(Refusal::Malformed));
        refuses(&mut engine, 1, |e| e.accept(&of_three));
        refuses(&mut engine, 1, |e| e.enqueue(8, entry(1)));
        refuses(&mut engine, 1, Engine::advance);
        refuses(&mut engine, 1, |e| e.share(Member::new(0), Round::new(1)));
        refuses(&mut engine, 1, |e| e.chain());
    }
    // Of four of weight 1 margins 4 and 5 ask for all.
    for margin in [4, 5] {
        engine.words.state[STATE_MARGIN] = margin;
        refuses(&mut engine, 13, |e| e.accept(&of_three));
    }
    engine.words.state[STATE_MARGIN] = 3;
    engine.accept(&of_three).unwrap();
}

#[test]
fn refused_calls_change_nothing() {
    let mut engine = of_four(0);
    let proposal =
        |author, round, previous, count| Proposal { author, round, previous, transactions: vec![entry(1); count] };
    refuses(&mut engine, 4, |e| e.endorse(&proposal(Member::new(16), Round::new(1), 0, 0)));
    refuses(&mut engine, 5, |e| e.endorse(&proposal(Member::new(1), Round::new(9), 1, 0)));
    refuses(&mut engine, 6, |e| e.endorse(&proposal(Member::new(1), Round::new(1), 0, 5)));
    refuses(&mut engine, 7, |e| e.endorse(&proposal(Member::new(1), Round::new(1), 1, 0)));
    refuses(&mut engine, 14, |e| e.endorse(&proposal(Member::new(0), Round::new(1), 0, 0)));
    refuses(&mut engine, 11, |e| e.endorse(&proposal(Member::new(1), Round::new(2), 7, 0)));
    refuses(&mut engine, 15, |e| e.certify(0b1110));
    refuses(&mut engine, 19, Engine::commit);
    refuses(&mut engine, 13, |e| {
        e.accept(&Certificate { proposal: proposal(Member::new(1), Round::new(1), 0, 0), endorsers: 1 })
    });
    engine.propose(0, &[]).unwrap();
    refuses(&mut engine, 10, |e| e.propose(0, &[]));
    refuses(&mut engine, 9, |e| e.certify(1 << 15));
    refuses(&mut engine, 23, |e| e.certificate(Member::new(0), Round::new(1)));
    refuses(&mut engine, 23, |e| e.block(0));
}

#[test]
fn reads_of_a_fresh_state() {
    let engine = of_four(0);
    let mut four = [0; MEMBERS];
    four[..4].fill(1);
    assert_eq!(engine.committee(Round::new(8)), Ok(four));
    assert_eq!(engine.committee(Round::new(9)), Err(Refusal::RoundRange));
    assert_eq!(engine.share(Member::new(3), Round::new(1)), Ok(Share::new(250)));
    assert_eq!(engine.share(Member::new(4), Round::new(1)), Err(Refusal::Outside));
    assert_eq!(engine.share(Member::new(16), Round::new(1)), Err(Refusal::MemberRange));
    assert_eq!((engine.own(), engine.round(), engine.blocks()), (Member::new(0), Round::FIRST, 0));
    assert_eq!(engine.chain(), Ok(Vec::new()));
}

#[test]
fn a_half_goes_to_the_even_thousandth() {
    let shares = |weights: &[u32]| -> Vec<Share> {
        let mut sheet = Sheet { ceiling: Some(8), weights: [Some(0); MEMBERS], ..Sheet::default() };
        for (setting, weight) in sheet.weights.iter_mut().zip(weights) {
            *setting = Some(*weight);
        }
        let engine = Engine::open(Member::new(0), &sheet).unwrap();
        (0..weights.len() as u32).map(|member| engine.share(Member::new(member), Round::new(1)).unwrap()).collect()
    };
    assert_eq!(shares(&[1; 16]), [62; 16]);
    assert_eq!(shares(&[1_000_000; 16]), [62; 16]);
    assert_eq!(shares(&[1, 3, 5, 7]), [62, 188, 312, 438]);
    assert_eq!(shares(&[1, 3, 5, 1_991]), [0, 2, 2, 996]);
    assert_eq!(shares(&[1, 2]), [333, 667]);
    assert_eq!(shares(&[7]), [1_000]);
}

// ---- how far a bond moves the shares

/// These, and 0 for the members behind them.
fn and_none(first: &[u32]) -> [u32; MEMBERS] {
    core::array::from_fn(|member| first.get(member).copied().unwrap_or(0))
}

/// The effect of a bond on a committee of these weights, once it is what shares tell: those of this
/// committee, and those of one that starts with the weights after the bond.
fn effect(weights: [u32; MEMBERS], member: u32, amount: u32) -> Effect {
    let shares = |weights| {
        let engine = of_sixteen(3, weights);
        let share = |member| {
            engine.share(member, Round::new(1)).or_else(|refusal| match refusal {
                Refusal::Outside => Ok(Share::new(0)),
                _ => Err(refusal),
            })
        };
        core::array::from_fn(|member| share(Member::new(member as u32)).unwrap())
    };
    let mut bonded = weights;
    bonded[member as usize] += amount;
    let found = of_sixteen(3, weights).bond_effect(Member::new(member), Round::new(1), amount).unwrap();
    assert_eq!((found.before, found.after), (shares(weights), shares(bonded)));
    let apart = found.before.iter().zip(found.after).map(|(before, after)| before.get().abs_diff(after.get()));
    assert_eq!(found.largest, apart.max().unwrap());
    let (total, amount) = (u64::from(bonded.iter().sum::<u32>()), u64::from(amount));
    assert!(u64::from(found.largest) <= 1 + 1_000 * amount / total);
    found
}

#[test]
fn a_bond_moves_the_shares() {
    for (weights, member, amount, before, after, largest) in [
        // A member joins, or adds to its weight.
        (&[1, 1, 1, 1][..], 5, 2, &[250, 250, 250, 250][..], &[167, 167, 167, 167, 0, 333][..], 333),
        (&[1, 1, 1, 1], 0, 2, &[250, 250, 250, 250], &[500, 167, 167, 167], 250),
        // Exact halves, before and after.
        (&[1, 3, 5, 7], 4, 64, &[62, 188, 312, 438], &[12, 38, 62, 88, 800], 800),
        (&[1, 3, 5, 7], 0, 64, &[62, 188, 312, 438], &[812, 38, 62, 88], 750),
        // As far as it can: 1 plus the whole part of 11,000 / 16, and of 1,000 / 2,001.
        (&[3, 1, 1], 3, 11, &[600, 200, 200], &[188, 62, 62, 688], 688),
        (&[1, 1_999], 0, 1, &[0, 1_000], &[1, 999], 1),
        // Another's falls by more than the member's own rises.
        (&[42, 1, 1], 1, 1, &[955, 23, 23], &[933, 44, 22], 22),
        // The only member; a light one beside a heavy one, and the other way.
        (&[7], 0, 1_000, &[1_000], &[1_000], 0),
        (&[999_999], 1, 1, &[1_000], &[1_000, 0], 0),
        (&[1], 15, 1_000, &[1_000], &[1, 0, 0, 0, 0, 0, 0, 0, 0, 0, 0, 0, 0, 0, 0, 999], 999),
    ] {
        let expected =
            Effect { before: and_none(before).map(Share::new), after: and_none(after).map(Share::new), largest };
        assert_eq!(effect(and_none(weights), member, amount), expected, "{weights:?}, {member} by {amount}");
    }
}

/// Every member and some amounts; the largest weights too, above which no sheet starts.
#[test]
fn a_bond_of_every_member() {
    for weights in [
        ones(&[0, 1, 2, 3]),
        [1; MEMBERS],
        [999_000; MEMBERS],
        core::array::from_fn(|member| 1 << member),
        core::array::from_fn(|member| if member % 3 == 1 { 0 } else { 7 * member as u32 }),
    ] {
        for member in 0..16 {
            for amount in [1, 2, 3, 16, 255, 999, 1_000] {
                effect(weights, member, amount);
            }
        }
    }
    let engine = of_sixteen(3, [1_000_000; MEMBERS]);
    for amount in [1, 1_000] {
        let mut after = [Share::new(62); MEMBERS];
        after[15] = Share::new(63);
        assert_eq!(
            engine.bond_effect(Member::new(15), Round::new(3), amount),
            Ok(Effect { before: [Share::new(62); MEMBERS], after, largest: 1 })
        );
    }
}

/// The committee of the round that is asked for. What a bond was told to do it does, once it counts.
#[test]
fn a_bond_effect_is_that_of_the_round() {
    let shares = |first: &[u32]| and_none(first).map(Share::new);
    let told = alone().bond_effect(Member::new(3), Round::new(1), 3).unwrap();
    assert_eq!(told, Effect { before: shares(&[1_000]), after: shares(&[250, 0, 0, 750]), largest: 750 });
    let engine = alone_with(Transaction::Bond { member: Member::new(3), amount: 3 });
    for round in 1..=3 {
        assert_eq!(engine.bond_effect(Member::new(3), Round::new(round), 3), Ok(told));
    }
    for round in 4..=5 {
        let next = engine.bond_effect(Member::new(0), Round::new(round), 4).unwrap();
        assert_eq!(next, Effect { before: told.after, after: shares(&[625, 0, 0, 375]), largest: 375 });
        assert_eq!(
            (engine.share(Member::new(0), Round::new(round)), engine.share(Member::new(3), Round::new(round))),
            (Ok(Share::new(250)), Ok(Share::new(750)))
        );
    }
}

/// 1, 4, 5, 6, 8, 30, whatever else is wrong.
#[test]
fn a_bond_effect_is_refused_in_its_order() {
    let engine = alone_with(Transaction::Unbond { member: Member::new(0) });
    let mut damaged = lent(&engine);
    damaged.words.state[STATE_MARGIN] = 6;
    for member in [0, 15, 16, u32::MAX] {
        for round in [0, 1, 3, 4, 5, 6, 8, 9, u32::MAX] {
            for amount in [0, 1, 1_000, 1_001, u32::MAX] {
                let number = match (member, round, amount) {
                    (16.., _, _) => 4,
                    (_, 0 | 9.., _) => 5,
                    (_, _, 0 | 1_001..) => 6,
                    (_, 6.., _) => 8,
                    (_, 4.., _) => 30,
                    _ => 0,
                };
                let found = engine
                    .bond_effect(Member::new(member), Round::new(round), amount)
                    .map_or_else(Refusal::number, |_| 0);
                assert_eq!(found, number, "member {member}, round {round}, amount {amount}");
                refuses(&mut damaged, 1, |e| e.bond_effect(Member::new(member), Round::new(round), amount));
            }
        }
    }
    assert_eq!(engine.bond_effect(Member::new(0), Round::new(4), 1), Err(Refusal::EmptyCommittee));
    assert_eq!(Refusal::EmptyCommittee.to_string(), "refused with 30: committee of the round empty");
}

#[test]
fn words_of_a_bond_effect() {
    let words: [u32; EFFECT_WORDS] = core::array::from_fn(|at| 100 + at as u32);
    let found = Effect::from_words(&words);
    assert!(found.before[..] == words[..16] && found.after[..] == words[16..32]);
    assert_eq!(found.largest, 132);
    // A longer table and a longer state are fine.
    let engine = of_four(0);
    let table = [engine.words().1, &[77; 5]].concat();
    let state = [&engine.words().0[..], &[77; 5]].concat();
    assert_eq!(
        lent::bond_effect(&state, &table, Member::new(5), Round::new(1), 2),
        engine.bond_effect(Member::new(5), Round::new(1), 2)
    );
    assert_eq!(lent::bond_effect(&state[1..], &table, Member::new(5), Round::new(1), 2), Err(Refusal::Malformed));
    assert_eq!(
        lent::bond_effect(&state, &engine.words().1[1..], Member::new(5), Round::new(1), 2),
        Err(Refusal::Malformed)
    );
}

#[test]
fn a_stored_engine_goes_on() {
    let mut engine = of_four(0);
    engine.propose(0, &[entry(5)]).unwrap();
    let stored = (*engine.words().0, engine.words().1.to_vec());
    let mut again = Engine::try_restore(stored.0, stored.1.clone()).unwrap();
    assert!(again == engine);
    again.certify(0b1110).unwrap();

    let mut damaged = Engine::lent([u32::MAX; STATE_WORDS], stored.1);
    refuses(&mut damaged, 1, |e| e.certify(0b1110));
    refuses(&mut damaged, 1, Engine::advance);
    refuses(&mut damaged, 1, |e| e.committee(Round::new(1)));
    refuses(&mut damaged, 1, |e| e.chain());
}

/// Every read refuses it, the chain too, whatever its number of blocks.
#[test]
fn a_malformed_state_is_refused_everywhere() {
    let mut short = of_four(0).words().1.to_vec();
    short.pop();
    for (state, table) in [
        ([0; STATE_WORDS], Vec::new()),
        ([u32::MAX; STATE_WORDS], Vec::new()),
        (*of_four(0).words().0, Vec::new()),
        (*of_four(0).words().0, short),
    ] {
        assert_eq!(Engine::try_restore(state, table.clone()), Err(Refusal::Malformed));
        let mut engine = Engine::lent(state, table);
        assert!(!engine.is_well_formed());
        refuses(&mut engine, 1, |e| e.chain());
        refuses(&mut engine, 1, |e| e.block(1));
        refuses(&mut engine, 1, |e| e.committee(Round::new(1)));
        refuses(&mut engine, 1, |e| e.bond_effect(Member::new(0), Round::new(1), 1));
        refuses(&mut engine, 1, Engine::commit);
        refuses(&mut engine, 1, |e| e.preview());
        refuses(&mut engine, 1, Engine::critical);
        assert_eq!(lent::chain(engine.words().0, engine.words().1, &mut []), Err(Refusal::Malformed));
        assert_eq!(lent::preview(engine.words().0, engine.words().1, &mut []), Err(Refusal::Malformed));
        assert_eq!(lent::critical(&engine.words.state, &mut engine.words.table, &mut []), Err(Refusal::Malformed));
    }
    let engine = of_four(0);
    assert_eq!(Engine::try_restore(*engine.words().0, engine.words().1.to_vec()), Ok(engine));
}

#[test]
fn a_list_for_the_chain_may_be_longer_and_not_shorter() {
    let mut engine = alone();
    engine.propose(0, &[]).unwrap();
    engine.certify(0).unwrap();
    for _ in 2..=3 {
        engine.advance().unwrap();
        engine.propose(1, &[]).unwrap();
        engine.certify(0).unwrap();
    }
    engine.commit().unwrap();
    let (mut exact, mut short, mut long) = ([9; 36], [9; 35], [9; 37]);
    assert_eq!(lent::chain(engine.words().0, engine.words().1, &mut short), Err(Refusal::LengthRange));
    assert_eq!(short, [9; 35]);
    assert_eq!(lent::chain(engine.words().0, engine.words().1, &mut exact), Ok(2));
    let expected = [1, 2].map(|round| lent::Place { block: 1, round: Round::new(round), author: Member::new(0) });
    assert!(lent::places(&exact, 2).eq(expected));
    assert_eq!(lent::chain(engine.words().0, engine.words().1, &mut long), Ok(2));
    assert_eq!((&long[..36], long[36]), (&exact[..], 9));
}

#[test]
fn words_of_proposals_and_certificates_go_both_ways() {
    let transactions = [
        Transaction::Bond { member: Member::new(3), amount: 1_000 },
        Transaction::Unbond { member: Member::new(15) },
        entry(u32::MAX),
        entry(0),
    ];
    for count in 0..=TRANSACTIONS {
        let proposal = Proposal {
            author: Member::new(2),
            round: Round::new(7),
            previous: 0xf00f,
            transactions: transactions[..count].to_vec(),
        };
        let certificate = Certificate { proposal: proposal.clone(), endorsers: 0x8001 };
        assert_eq!(Proposal::from_words(&proposal.to_words()), Ok(proposal.clone()));
        assert_eq!(Certificate::from_words(&certificate.to_words()), Ok(certificate.clone()));
        assert_eq!(Proposal::from_words(&certificate.to_words()), Ok(proposal));
        let words = certificate.to_words();
        assert_eq!(Certificate::from_words(&words[..16]), Err(Refusal::Malformed));
        assert_eq!(Proposal::from_words(&words[..15]), Err(Refusal::Malformed));
    }
}

/// Words that endorse and accept cannot read are not read here either.
#[test]
fn words_that_cannot_be_read() {
    let certificate = of_all_four(1, 1, 0, &[Transaction::Unbond { member: Member::new(2) }, entry(5)]).to_words();
    let spoilt = |at: usize, word: u32| {
        let mut words = certificate;
        words[at] = word;
        words
    };
    for (at, word) in [(2, 65_536), (4, 3), (6, 1), (7, 3), (9, 1), (16, 65_536)] {
        let words = spoilt(at, word);
        assert_eq!(Certificate::from_words(&words), Err(Refusal::Malformed), "word {at}");
        let mut engine = lent(&of_four(0));
        assert_eq!(lent::accept(&engine.words.state, &mut engine.words.table, &words), Err(Refusal::Malformed));
    }
    // Beyond the transactions nothing is looked at; more than four are over every allowance.
    assert!(Certificate::from_words(&spoilt(10, 9)).is_ok());
    let mut engine = lent(&of_four(0));
    assert_eq!(
        lent::accept(&engine.words.state, &mut engine.words.table, &spoilt(3, 5)),
        Err(Refusal::TransactionsRange)
    );
    assert_eq!(Certificate::from_words(&spoilt(3, 5)), Err(Refusal::TransactionsRange));
    assert_eq!(Proposal::from_words(&spoilt(3, u32::MAX)), Err(Refusal::TransactionsRange));
}

/// Lengths here and in the engine: a table one word shorter is refused.
#[test]
fn a_table_of_every_ceiling() {
    for ceiling in 3..=CEILING {
        let sheet = Sheet { ceiling: Some(ceiling), ..Sheet::default() };
        let words = table_words(ceiling) as usize;
        assert!(Engine::open_on(vec![0; words], Member::new(0), &sheet, Rights::NONE).is_ok());
        assert_eq!(Engine::open_on(vec![0; words - 1], Member::new(0), &sheet, Rights::NONE), Err(Refusal::Malformed));
    }
}

#[test]
fn engines_may_be_called_at_once() {
    let run = || {
        let mut engine = alone();
        engine.propose(0, &[]).unwrap();
        engine.certify(0).unwrap();
        for _ in 1..64 {
            engine.advance().unwrap();
            engine.propose(1, &[]).unwrap();
            engine.certify(0).unwrap();
            if engine.round().get() % 2 == 1 {
                engine.commit().unwrap();
            }
        }
        engine.blocks()
    };
    let threads: Vec<_> = (0..4).map(|_| std::thread::spawn(run)).collect();
    for thread in threads {
        assert_eq!(thread.join().unwrap(), 31);
    }
}

#[test]
fn stores_and_loads() {
    let mut engine = of_four(0);
    engine.propose(0, &[Transaction::Entry { number: 5 }]).unwrap();
    let bytes = engine.store(9).unwrap();
    assert_eq!(bytes.len() as u64, storing::stored_bytes(8));
    assert_eq!(&bytes[..8], b"FLS1\x03\0\0\0");
    assert_eq!(Engine::load(&bytes, Member::new(0), 9), Ok(engine.clone()));
    assert_eq!(Engine::load(&bytes, Member::new(1), 9), Err(StoringRefusal::OtherMember));
    assert_eq!(Engine::load(&bytes, Member::new(0), 10), Err(StoringRefusal::OtherRun));
    for length in [0, 1, 99, 1_291, 1_292, bytes.len() - 1] {
        assert_eq!(Engine::load(&bytes[..length], Member::new(0), 9), Err(StoringRefusal::Torn), "{length}");
    }
    assert_eq!(Engine::load(&[&bytes[..], &[0]].concat(), Member::new(0), 9), Err(StoringRefusal::Torn));
    for (at, expected) in [(0, StoringRefusal::OtherMark), (4, StoringRefusal::OtherFormat), (9, StoringRefusal::Torn)]
    {
        let mut other = bytes.clone();
        other[at] ^= 1;
        assert_eq!(Engine::load(&other, Member::new(0), 9), Err(expected), "byte {at}");
    }

    // A closed state is of ceiling 0, and a table that is too short is not stored.
    assert!(Engine::lent([0; STATE_WORDS], vec![0; 272]).store(0).is_ok());
    assert_eq!(Engine::lent([0; STATE_WORDS], vec![]).store(0), Err(StoringRefusal::UnreadableWords));
    let (state, table) = engine.words();
    assert_eq!(storing::store(state, table, 9, &mut []), Err(StoringRefusal::NoRoom));

    // Store writes the front of a longer stretch, and load takes that front alone.
    let mut longer = vec![7; bytes.len() + 9];
    storing::store(state, table, 9, &mut longer).unwrap();
    assert_eq!(longer, [&bytes[..], &[7; 9]].concat());
    assert_eq!(Engine::load(&longer, Member::new(0), 9), Err(StoringRefusal::Torn));
    assert_eq!(storing::load(&bytes, Member::new(0), 9, &mut [0; STATE_WORDS], &mut []), Err(StoringRefusal::NoRoom));
}

#[test]
fn signs_by_kinds() {
    let engine = of_four(0);
    let (state, _) = engine.words();
    let mut proposal = proposal_words(Member::new(1), Round::new(1), 0, &[Transaction::Entry { number: 7 }]);
    let signed = storing::proposal_bytes(state, 5, &proposal).unwrap();
    let endorsed = storing::endorsement_bytes(state, 5, &proposal).unwrap();
    assert_eq!((&signed[..4], &endorsed[..4]), (&b"FLP1"[..], &b"FLE1"[..]));
    assert_eq!(signed[4..], endorsed[4..]);
    assert_eq!(signed[36..44], [1, 0, 0, 0, 1, 0, 0, 0]);
    assert_ne!(storing::proposal_bytes(state, 6, &proposal).unwrap()[4..36], signed[4..36]);

    // What lies beyond the number of transactions is not signed.
    proposal[15] = 3;
    assert_eq!(storing::proposal_bytes(state, 5, &proposal), Ok(signed));
    proposal[2] = 65_536;
    assert_eq!(storing::proposal_bytes(state, 5, &proposal), Err(StoringRefusal::UnreadableWords));
    proposal[2] = 0;

    let mut certificate = [0; CERTIFICATE_WORDS];
    certificate[..16].copy_from_slice(&proposal);
    certificate[16] = 0b1101;
    let whole = storing::certificate_bytes(state, 5, &certificate).unwrap();
    assert_eq!((&whole[..4], &whole[4..100]), (&b"FLC1"[..], &signed[4..]));
    assert_eq!(whole[100..], [13, 0, 0, 0]);
    for number in 0..200 {
        assert_eq!(
            StoringRefusal::of(number).map(StoringRefusal::number),
            (101..=107).contains(&number).then_some(number)
        );
    }
}
