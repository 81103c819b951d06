//! Runs of each kind: none inside the bound fails, a fork is found beyond it, and a run is the same again from its
//! seed.

use forgelilac::ready::{Answer, Call, Calls, GuestCall};
use forgelilac::{Certificate, Engine, Member, Proposal, Refusal, Rights, Round, Sheet, Transaction};
use plant::calls::{self, Entry};
use plant::failure::Failure;
use plant::kind::Kind;
use plant::list::{List, Listed};
use plant::plan::{Plan, Wanted};
use plant::records;
use plant::run::{listed, play, recorded, Outcome};
use plant::shrink::shrink;
use plant::world::PlantParts;
use std::collections::BTreeSet;
use std::time::Duration;

fn played(kind: Kind, seed: u64, wanted: Wanted) -> (Plan, Outcome) {
    let plan = Plan::new(kind, seed, wanted);
    let outcome = play(&plan, &PlantParts).unwrap();
    (plan, outcome)
}

#[test]
fn no_run_inside_the_bound_fails() {
    for kind in Kind::ALL.into_iter().filter(|kind| *kind != Kind::Beyond) {
        for seed in 1..=15 {
            let (_, outcome) = played(kind, seed, Wanted::default());
            assert_eq!(outcome.failure, None, "{kind}, seed {seed}");
            assert!(outcome.blocks > 0, "{kind}, seed {seed}: no block in {} steps", outcome.steps);
        }
    }
}

/// What a kind is of does happen.
#[test]
fn faults_take_place() {
    let runs = |kind| (1..=15).map(move |seed| played(kind, seed, Wanted::default()).1);
    assert!(runs(Kind::Equivocation).map(|outcome| outcome.split).sum::<usize>() > 10);
    assert_eq!(runs(Kind::Crashes).map(|outcome| outcome.split).sum::<usize>(), 0);
    let failed = |outcome: Outcome| outcome.acts.iter().filter(|act| act.fails.is_some()).count();
    assert!(runs(Kind::Crashes).map(failed).sum::<usize>() > 100);
    assert_eq!(runs(Kind::Lossy).map(failed).sum::<usize>(), 0);
}

#[test]
fn sixteen_members_agree() {
    let wanted = Wanted { members: Some(16), ceiling: Some(8), steps: None };
    for kind in [Kind::Lossy, Kind::Equivocation, Kind::Weights] {
        let (_, outcome) = played(kind, 3, wanted);
        assert_eq!((outcome.failure, outcome.finished), (None, true), "{kind}");
    }
}

#[test]
fn beyond_the_bound_chains_part() {
    for seed in 1..=20 {
        let (plan, outcome) = played(Kind::Beyond, seed, Wanted::default());
        assert!(plan.weight(plan.faulty) > plan.bound(plan.total()));
        assert!(matches!(outcome.failure, Some(Failure::Fork { .. })), "seed {seed}: {:?}", outcome.failure);
    }
}

#[test]
fn the_same_seed_is_the_same_run() {
    for kind in Kind::ALL {
        let (_, one) = played(kind, 5, Wanted::default());
        let (_, other) = played(kind, 5, Wanted::default());
        assert!(one.acts == other.acts, "{kind}");
        assert_eq!(one.failure, other.failure);
        let (_, another) = played(kind, 6, Wanted::default());
        assert!(one.acts != another.acts, "{kind}");
    }
}

/// The list of calls that a run has come to, made again on fresh engines: the same chains.
#[test]
fn the_calls_of_a_run_made_again() {
    for (kind, seed) in [(Kind::All, 2), (Kind::Crashes, 4), (Kind::Guests, 1)] {
        let (plan, outcome) = played(kind, seed, Wanted::default());
        let entries = recorded(&plan, &PlantParts, &outcome.acts).unwrap();
        let members = (0..plan.computers).map(Member::new);
        let mut engines: Vec<_> =
            members.map(|own| Engine::open_with_rights(own, &plan.sheet, plan.rights).unwrap()).collect();
        calls::run(&mut engines, &entries);
        let chains: Vec<_> = engines.iter().map(|engine| engine.chain().unwrap()).collect();
        let longest = chains.iter().max_by_key(|chain| chain.len()).unwrap();
        assert_eq!(longest.len(), outcome.blocks, "{kind}");
        assert!(chains.iter().all(|chain| longest.starts_with(chain)), "{kind}");
    }
}

/// All calls, refused ones among them, made again in the order in which they were made: the answers of the run, and
/// its words.
#[test]
fn the_list_of_a_run_made_again() {
    for (kind, seed) in [(Kind::All, 2), (Kind::Crashes, 4), (Kind::Guests, 1), (Kind::Beyond, 5)] {
        let (plan, outcome) = played(kind, seed, Wanted::default());
        let list = listed(&plan, &PlantParts, &outcome.acts).unwrap();
        let members = (0..plan.computers).map(Member::new);
        let mut engines: Vec<_> =
            members.map(|own| Engine::open_with_rights(own, &plan.sheet, plan.rights).unwrap()).collect();
        for one in &list.calls {
            assert_eq!(engines[one.entry.who].make(&one.entry.call), one.answer, "{kind}");
        }
        assert!(engines == list.engines, "{kind}");
        assert!(list.calls.iter().any(|one| one.answer.is_err()), "{kind}");
        let bytes = list.bytes();
        assert_eq!(&bytes[..4], b"FLC1");
        assert_eq!(bytes[4..8], plan.computers.to_le_bytes());
        let words: usize = engines.iter().map(|engine| engine.words().0.len() + engine.words().1.len()).sum();
        assert_eq!(list.told().len(), 8 * list.calls.len() + 4 * words);
    }
}

/// A list's words, each call with what it is handed: docs/PLANT.md, "The calls of a run, made again".
#[test]
fn the_words_of_a_list() {
    let entry = Transaction::Entry { number: 7 };
    let proposal = Proposal { author: Member::new(1), round: Round::new(2), previous: 0b11, transactions: vec![entry] };
    let certificate = Certificate { proposal: proposal.clone(), endorsers: 0b101 };
    let body = [&[3, 1, 2, 7, 0][..], &[0; 9]].concat();
    let proposed = [&[1, 2][..], &body].concat();
    let certified = [&proposed[..], &[5]].concat();
    let row = [&[2][..], &certified, &certified].concat();
    let one_of_each: Vec<(Call, Vec<u32>)> = vec![
        (Call::Propose { previous: 3, transactions: vec![entry] }, [&[0][..], &body].concat()),
        (Call::Draw { previous: 3 }, vec![1, 3]),
        (Call::Enqueue { guest: 4, transaction: entry }, vec![2, 4, 2, 7, 0]),
        (Call::Endorse(proposal.clone()), [&[3][..], &proposed].concat()),
        (Call::Certify { endorsers: 6 }, vec![4, 6]),
        (Call::Accept(certificate.clone()), [&[5][..], &certified].concat()),
        (Call::Batch(vec![certificate.clone(), certificate.clone()]), [&[6][..], &row].concat()),
        (Call::Advance, vec![7]),
        (Call::Commit, vec![8]),
        (Call::PortReset { port: 5 }, vec![9, 5]),
    ];
    let of_guest: Vec<(GuestCall, Vec<u32>)> = vec![
        (GuestCall::Propose { previous: 3, transactions: vec![entry] }, [&[16, 6][..], &body].concat()),
        (GuestCall::Draw { previous: 3 }, vec![17, 6, 3]),
        (GuestCall::Enqueue(entry), vec![18, 6, 2, 7, 0]),
        (GuestCall::Endorse(proposal), [&[19, 6][..], &proposed].concat()),
        (GuestCall::Certify { endorsers: 6 }, vec![20, 6, 6]),
        (GuestCall::Accept(certificate.clone()), [&[21, 6][..], &certified].concat()),
        (GuestCall::Batch(vec![certificate.clone(), certificate]), [&[22, 6][..], &row].concat()),
        (GuestCall::Advance, vec![23, 6]),
        (GuestCall::Commit, vec![24, 6]),
        (GuestCall::PortRead { offset: 5 }, vec![25, 6, 5]),
        (GuestCall::PortWrite { offset: 3, value: 128 }, vec![26, 6, 3, 128]),
    ];
    let of_guest = of_guest.into_iter().map(|(call, words)| (Call::Guest { caller: 6, call }, words));
    let sheet = Sheet::default();
    let head = [&[0x3143_4c46, 0, Rights::ALL.to_word()][..], &sheet.to_words()].concat();
    for (call, words) in one_of_each.into_iter().chain(of_guest) {
        let calls = vec![Listed { entry: Entry { who: 2, call }, answer: Ok(Answer::Done) }];
        let list = List { sheet, rights: Rights::ALL, calls, engines: vec![] };
        let expected = [&head[..], &[2], &words].concat();
        assert_eq!(list.bytes(), expected.into_iter().flat_map(u32::to_le_bytes).collect::<Vec<_>>());
    }
}

/// Answers as the library gives them.
#[test]
fn the_answers_of_a_list() {
    let read = Call::Guest { caller: 1, call: GuestCall::PortRead { offset: 0 } };
    let commit = Call::Guest { caller: 1, call: GuestCall::Commit };
    let answers: Vec<(Call, Result<Answer, Refusal>, u64)> = vec![
        (Call::Advance, Ok(Answer::Done), 0),
        (Call::Advance, Err(Refusal::AtCeiling), 18),
        (Call::Commit, Ok(Answer::Blocks(3)), 3),
        (Call::Commit, Err(Refusal::AtCeiling), 18 << 32),
        (commit, Err(Refusal::NoRight), 29 << 32),
        (read.clone(), Ok(Answer::Byte(65)), 65),
        (read, Err(Refusal::NoRight), 29 << 32),
    ];
    for (call, answer, number) in answers {
        let calls = vec![Listed { entry: Entry { who: 0, call }, answer }];
        let list = List { sheet: Sheet::default(), rights: Rights::NONE, calls, engines: vec![] };
        assert_eq!(list.told(), number.to_le_bytes());
    }
}

#[test]
fn a_fork_made_short() {
    let (plan, outcome) = played(Kind::Beyond, 5, Wanted::default());
    let short = shrink(&plan, &PlantParts, &outcome.acts, Duration::from_secs(20)).unwrap();
    assert!(short.acts.len() < 60 && short.acts.len() < outcome.acts.len(), "{} steps", short.acts.len());
    let Failure::Fork { members: (one, other), .. } = short.failure else { panic!("{}", short.failure) };
    for member in [one, other] {
        let stream = records::stream(&plan, member, &short.entries).unwrap();
        assert!(stream.starts_with(&format!("open,{member},")) && stream.ends_with("commit\r\nchain\r\n"), "{stream}");
    }
    let streams = [one, other].map(|member| records::stream(&plan, member, &short.entries).unwrap());
    assert_ne!(streams[0], streams[1]);
    // What does not fail is not made short.
    let (plan, outcome) = played(Kind::Lossy, 1, Wanted::default());
    assert!(shrink(&plan, &PlantParts, &outcome.acts, Duration::from_secs(1)).is_none());
}

/// Members, ceilings, lookbacks and guests' rights go by the seed in each kind.
#[test]
fn sizes_go_by_the_seed() {
    for kind in Kind::ALL {
        let plans: Vec<_> = (1..=1_000).map(|seed| Plan::new(kind, seed, Wanted::default())).collect();
        let values = |size: fn(&Plan) -> u32| plans.iter().map(size).collect::<BTreeSet<_>>();
        assert_eq!(values(|plan| plan.members), (4..=16).collect(), "{kind}");
        assert_eq!(values(|plan| plan.sheet.ceiling.unwrap()), (8..=20).collect(), "{kind}");
        assert_eq!(values(|plan| plan.sheet.lookback.unwrap()), (3..=8).collect(), "{kind}");
        let rights: BTreeSet<_> = plans.iter().map(|plan| format!("{:?}", plan.rights)).collect();
        assert!(rights.len() > 900, "{kind}: {} rights", rights.len());
    }
}

#[test]
fn plans_keep_to_the_bound() {
    for seed in 0..2_000 {
        for kind in [Kind::Equivocation, Kind::Weights, Kind::All] {
            let plan = Plan::new(kind, seed, Wanted::default());
            let without = plan.total() - plan.weight(plan.movable);
            assert!(plan.weight(plan.faulty) <= plan.bound(without), "{kind}, seed {seed}");
            assert_eq!(plan.faulty & plan.movable, 0);
        }
    }
}
