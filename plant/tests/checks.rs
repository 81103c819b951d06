//! What the plant expects, against the run that docs/RULES.md works out by hand: order, committees, listing.

use forgelilac::ready::{Call, Calls};
use forgelilac::{Certificate, Engine, Member, Proposal, Round, Sheet, Transaction};
use plant::calls::{Entry, Watched};
use plant::checks::Chains;
use plant::failure::Failure;
use plant::plan::{Plan, Wanted};
use plant::{kind::Kind, records};

/// "A run, worked out": author, previous set and endorsers of each certificate, round by round.
const RUN: [&[(u32, u16, u16)]; 11] = [
    &[(0, 0, 14), (1, 0, 13), (2, 0, 11), (3, 0, 7)],
    &[(0, 7, 14), (1, 15, 13), (2, 15, 11), (3, 14, 7)],
    &[(0, 13, 14), (1, 7, 13), (2, 13, 11), (3, 13, 7)],
    &[(0, 13, 14), (1, 15, 13), (2, 7, 11), (3, 13, 7)],
    &[(0, 7, 14), (1, 7, 13), (2, 7, 11)],
    &[(0, 7, 30), (1, 7, 29), (2, 7, 27), (3, 7, 23), (4, 7, 15)],
    &[(0, 23, 30), (1, 23, 29), (2, 23, 27), (3, 27, 23), (4, 23, 15)],
    &[(1, 23, 28), (2, 30, 26), (3, 27, 22), (4, 23, 14)],
    &[(2, 22, 26), (3, 26, 22), (4, 22, 14)],
    &[(1, 28, 28), (2, 28, 26), (4, 28, 14)],
    &[(1, 22, 28), (4, 22, 14)],
];

/// Its listing on that page.
const LISTING: &str = "\
1,2,1,1\n1,2,1,2\n1,2,1,3,U,4,0\n1,2,1,0,B,4,2\n1,2,2,1\n2,4,2,2\n2,4,2,3\n2,4,2,0\n2,4,3,2,U,0,0\n2,4,3,0\n2,4,3,1\n\
2,4,4,2\n3,8,3,3\n3,8,4,1\n3,8,4,0\n3,8,5,1\n3,8,5,2\n3,8,5,0\n3,8,6,1\n3,8,6,2\n3,8,6,4\n3,8,6,0\n3,8,7,1\n3,8,7,2\n\
3,8,7,4\n3,8,7,0\n3,8,8,1\n4,10,6,3\n4,10,7,3\n4,10,8,2\n4,10,8,3\n4,10,8,4\n4,10,9,2\n4,10,9,3\n4,10,9,4\n4,10,10,2\n";

fn certificate(round: u32, &(author, previous, endorsers): &(u32, u16, u16)) -> Certificate {
    let transactions = match (author, round) {
        (0, 1) => vec![Transaction::Bond { member: Member::new(4), amount: 2 }],
        (3, 1) => vec![Transaction::Unbond { member: Member::new(4) }],
        (2, 3) => vec![Transaction::Unbond { member: Member::new(0) }],
        _ => vec![],
    };
    let proposal = Proposal { author: Member::new(author), round: Round::new(round), previous, transactions };
    Certificate { proposal, endorsers }
}

fn calls() -> Vec<Call> {
    let mut calls = Vec::new();
    for (round, row) in (1..).zip(RUN) {
        calls.extend(row.iter().map(|one| Call::Accept(certificate(round, one))));
        if [5, 9, 11].contains(&round) {
            calls.push(Call::Commit);
        }
        if round < 11 {
            calls.push(Call::Advance);
        }
    }
    calls
}

fn sheet() -> Sheet {
    Sheet { lookback: Some(3), ceiling: Some(64), ..Sheet::default() }
}

#[test]
fn the_run_worked_out_by_hand() {
    let fresh = Engine::open(Member::new(1), &sheet()).unwrap();
    let mut chains = Chains::new(&fresh);
    let mut engine = Watched::new(fresh);
    for call in calls() {
        engine.make(&call).unwrap();
        chains.look_at_chain(engine.engine()).unwrap();
        chains.look_at_committees(engine.engine(), 1).unwrap();
    }
    assert_eq!(engine.failure(), None);
    let committee = |round| chains.committee(Round::new(round))[..5].to_vec();
    assert_eq!(committee(5), [1, 1, 1, 1, 0]);
    assert_eq!([6, 7].map(committee), [[1, 1, 1, 1, 2], [1, 1, 1, 1, 2]]);
    assert_eq!([8, 9, 10, 11].map(committee), [[0, 1, 1, 1, 2]; 4]);
    assert_eq!(String::from_utf8_lossy(chains.listing(4)).replace("\r\n", "\n"), LISTING);
    assert_eq!((chains.len(), chains.widest()), (4, 4));
    // Rounds up to lookback + 2 and the last block's are known.
    assert_eq!(chains.look_at_committees(engine.engine(), 1), Ok(3 + 2 + 10 + 1));
}

#[test]
fn a_chain_that_parts_is_a_fork() {
    let fresh = Engine::open(Member::new(1), &sheet()).unwrap();
    let mut chains = Chains::new(&fresh);
    let other = Engine::open(Member::new(2), &sheet()).unwrap();
    let (mut one, mut other) = (fresh, other);
    for call in calls() {
        one.make(&call).unwrap();
        // The other holds a certificate of round 2 whose endorsers are others, and one with an entry more.
        let changed = match call {
            Call::Accept(mut one) if (one.proposal.round, one.proposal.author) == (Round::new(1), Member::new(2)) => {
                one.proposal.transactions.push(Transaction::Entry { number: 7 });
                Call::Accept(one)
            }
            call => call,
        };
        other.make(&changed).unwrap();
    }
    chains.look_at_chain(&one).unwrap();
    let members = (Member::new(1), Member::new(2));
    assert_eq!(chains.look_at_chain(&other), Err(Failure::Fork { members, block: 1 }));
}

#[test]
fn records_are_those_of_the_page() {
    let mut plan = Plan::new(Kind::Lossy, 1, Wanted::default());
    plan.sheet = sheet();
    let entries: Vec<_> = calls().into_iter().map(|call| Entry { who: 1, call }).collect();
    let stream = records::stream(&plan, Member::new(1), &entries).unwrap();
    let page = include_str!("../../docs/RULES.md");
    let (_, rest) = page.split_once("```sh\nsed 's/$/\\r/' <<'END'").unwrap();
    let (_, rest) = rest.split_once('\n').unwrap();
    let (page, _) = rest.split_once("END\n").unwrap();
    // Of the page those that are accepted, and behind the open's weights the margin's blank field.
    let refused = ["accept,0,6,7,14", "accept,1,8,23,29"];
    let mut page: Vec<_> = page.lines().filter(|line| !refused.contains(line)).map(str::to_owned).collect();
    page[0].push(',');
    let written: Vec<_> = stream.split_terminator("\r\n").map(str::to_owned).collect();
    // The page tries commits and an advance in vain, and certificates of round 6 before they are known.
    let mut page = page.into_iter();
    for line in &written {
        assert!(page.any(|one| one == *line), "{line} does not stand on the page in this place");
    }
    assert_eq!(page.next(), None);
}
