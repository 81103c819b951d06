//! The ready loop: what it asks of a host, and that nothing is released before it is stored.

use super::*;
use crate::ready::{Actions, Answer, GuestCall, Host, Input, Kept, Message, Pace, Record, RestoreError, Send, Store};

/// A store in memory, which may fail.
#[derive(Default)]
struct Memory {
    kept: Option<Kept>,
    stores: u32,
    fails: bool,
}

impl Store for Memory {
    type Error = ();

    fn store(&mut self, record: &Record<'_>) -> Result<(), ()> {
        if self.fails {
            return Err(());
        }
        self.kept = Some(record.kept());
        self.stores += 1;
        Ok(())
    }
}

fn sheet() -> Sheet {
    Sheet { ceiling: Some(8), lookback: Some(3), ..Sheet::default() }
}

fn host(own: u32) -> Host {
    Host::open(Member::new(own), &sheet(), Rights::NONE).unwrap()
}

/// A step that is stored and released.
fn done(host: &mut Host, memory: &mut Memory, input: Input) -> Actions {
    let ready = host.step(input);
    let stored = host.store(memory).unwrap();
    ready.release(&stored).unwrap()
}

fn proposal(author: u32, round: u32, previous: Set, number: u32) -> Proposal {
    let transactions = vec![entry(number)];
    Proposal { author: Member::new(author), round: Round::new(round), previous, transactions }
}

/// Signed by all four.
fn certificate(author: u32, round: u32, previous: Set) -> Certificate {
    let proposal = Proposal { transactions: vec![], ..proposal(author, round, previous, 0) };
    Certificate { proposal, endorsers: 0b1111 & !(1 << author) }
}

/// Rounds of four authors, or of these, each naming the whole round before.
fn rounds(last: u32, authors: &[u32]) -> Vec<Certificate> {
    let round = |round| (0..4).filter(move |author| round < last || authors.contains(author)).map(move |a| (a, round));
    let places = (1..=last).flat_map(round);
    places.map(|(author, round)| certificate(author, round, if round > 1 { 0b1111 } else { 0 })).collect()
}

fn endorsement(to: u32, proposal: Proposal) -> Send {
    Send { to: Some(Member::new(to)), message: Message::Endorsement(proposal) }
}

#[test]
fn what_is_not_stored_is_not_released() {
    let (mut host, mut memory) = (host(0), Memory::default());
    let ready = host.step(Input::Tick);
    memory.fails = true;
    assert!(host.store(&mut memory).is_err());
    memory.fails = false;
    let other = Host::open(Member::new(0), &sheet(), Rights::NONE).unwrap().store(&mut memory).unwrap();
    let ready = ready.release(&other).expect_err("another host's proof");
    let stored = host.store(&mut memory).unwrap();
    let actions = ready.release(&stored).unwrap();
    let own = Proposal { transactions: vec![], ..proposal(0, 1, 0, 0) };
    assert_eq!(actions.sends, [Send { to: None, message: Message::Proposal(own.clone()) }]);
    // Its words are the stored ones.
    let kept = memory.kept.take().unwrap();
    assert_eq!((kept.count, &kept.state, &kept.table[..]), (1, host.engine().words().0, host.engine().words().1));
    // The proof of an earlier store does not release what came after it.
    let ready = host.step(Input::Proposal(proposal(1, 1, 0, 7)));
    let ready = ready.release(&stored).unwrap_err();
    assert_eq!(ready.count(), 2);
    let stored = host.store(&mut memory).unwrap();
    assert_eq!(ready.release(&stored).unwrap().sends, [endorsement(1, proposal(1, 1, 0, 7))]);
}

#[test]
fn one_store_releases_many_and_what_changes_nothing_asks_for_none() {
    let (mut host, mut memory) = (host(0), Memory::default());
    let all: Vec<_> = (1..4).map(|author| host.step(Input::Proposal(proposal(author, 1, 0, author)))).collect();
    let stored = host.store(&mut memory).unwrap();
    for (author, ready) in (1..).zip(all) {
        let sends = ready.release(&stored).unwrap().sends;
        assert_eq!(sends.first(), Some(&endorsement(author, proposal(author, 1, 0, author))));
    }
    // A question and a certificate need no store.
    let ready = host.step(Input::Certificates(vec![certificate(2, 1, 0)]));
    assert!(ready.release(&stored).is_ok());
    let ready = host.step(Input::Question { from: Member::new(3), lowest: Round::FIRST });
    let row = vec![certificate(2, 1, 0)];
    let answer = Send { to: Some(Member::new(3)), message: Message::Certificates(row) };
    assert_eq!(ready.release(&stored).unwrap().sends, [answer]);
    assert_eq!(memory.stores, 1);
}

#[test]
fn an_endorsement_is_sent_again_for_its_proposal_alone_after_a_restart_too() {
    let (mut one, mut memory) = (host(0), Memory::default());
    done(&mut one, &mut memory, Input::Proposal(proposal(1, 1, 0, 7)));
    let kept = memory.kept.clone().unwrap();
    assert_eq!(kept.endorsed, [proposal(1, 1, 0, 7)]);
    let mut again = Host::restore(Member::new(0), &sheet(), kept).unwrap();
    let actions = done(&mut again, &mut memory, Input::Proposal(proposal(1, 1, 0, 8)));
    assert_eq!((actions.answer, actions.sends), (Err(Refusal::PlaceTaken), vec![]));
    let actions = done(&mut again, &mut memory, Input::Proposal(proposal(1, 1, 0, 7)));
    assert_eq!(actions.answer, Err(Refusal::PlaceTaken));
    assert_eq!(actions.sends, [endorsement(1, proposal(1, 1, 0, 7))]);
    // Once the certificate is held nobody asks for it again.
    done(&mut again, &mut memory, Input::Certificates(vec![certificate(1, 1, 0)]));
    let actions = done(&mut again, &mut memory, Input::Proposal(proposal(1, 1, 0, 7)));
    assert_eq!((actions.answer, actions.sends), (Err(Refusal::PlaceTaken), vec![]));
}

#[test]
fn endorsements_make_a_certificate() {
    let (mut host, mut memory) = (host(0), Memory::default());
    done(&mut host, &mut memory, Input::Tick);
    let own = Proposal { transactions: vec![], ..proposal(0, 1, 0, 0) };
    let by = |member, proposal: &Proposal| Input::Endorsement { by: Member::new(member), proposal: proposal.clone() };
    // Of four a quorum is three. One of another proposal does not count, nor one twice.
    for input in [by(1, &proposal(0, 1, 0, 9)), by(2, &own), by(2, &own)] {
        assert_eq!(done(&mut host, &mut memory, input).sends, []);
    }
    let certificate = Certificate { proposal: own.clone(), endorsers: 0b1100 };
    let sends = done(&mut host, &mut memory, by(3, &own)).sends;
    assert_eq!(sends, [Send { to: None, message: Message::Certificates(vec![certificate]) }]);
}

#[test]
fn certificates_come_newest_first_and_blocks_are_handed_over() {
    let (mut host, mut memory) = (host(0), Memory::default());
    done(&mut host, &mut memory, Input::Tick);
    let mut blocks = Vec::new();
    for one in rounds(3, &[1, 2, 3]).into_iter().rev() {
        blocks.extend(done(&mut host, &mut memory, Input::Certificates(vec![one])).blocks);
    }
    // Round 1 and the leader of round 2, in its order: docs/RULES.md, "Order inside a block".
    let places: Vec<_> = blocks.iter().map(|held| (held.proposal.round.get(), held.proposal.author.get())).collect();
    assert_eq!(places, [(1, 1), (1, 2), (1, 3), (1, 0), (2, 1)]);
    // It waits for its own certificate of round 3: nobody has left that round yet.
    assert_eq!((host.engine().round(), host.engine().blocks()), (Round::new(3), 1));
    // The store came before the blocks went out.
    assert_eq!(memory.kept.unwrap().state, *host.engine().words().0);
}

#[test]
fn a_round_is_left_without_the_leader_after_a_while_but_not_before_the_last_chance() {
    let (mut host, mut memory) = (host(0).with_pace(Pace { patience: 2, again: 100 }), Memory::default());
    // Lookback 3 and no block: the last chance is in round 5. Round 2 lacks its leader, 1.
    let mut row = rounds(2, &[0, 2, 3]);
    done(&mut host, &mut memory, Input::Certificates(row.clone()));
    assert_eq!(host.engine().round(), 2);
    done(&mut host, &mut memory, Input::Tick);
    assert_eq!(host.engine().round(), 2);
    done(&mut host, &mut memory, Input::Tick);
    assert_eq!(host.engine().round(), 3);
    // Round 3 has no block then. Round 4 lacks its leader, 2, and is not left: nobody would vote for it in round 5.
    let without = |round, authors: [u32; 3], previous| authors.map(|author| certificate(author, round, previous));
    row = without(3, [0, 2, 3], 0b1101).to_vec();
    row.extend(without(4, [0, 1, 3], 0b1101));
    row[3].proposal.author = Member::new(1);
    done(&mut host, &mut memory, Input::Certificates(row));
    let lacking = certificate(1, 3, 0b1101);
    done(&mut host, &mut memory, Input::Certificates(vec![lacking, certificate(0, 4, 0b1101)]));
    for _ in 0..20 {
        done(&mut host, &mut memory, Input::Tick);
    }
    assert_eq!(host.engine().round(), 4);
    done(&mut host, &mut memory, Input::Certificates(vec![certificate(2, 4, 0b1101)]));
    assert_eq!(host.engine().round(), 5);
    // Nor is round 5 without a block, whatever the clock says.
    for author in [0, 1, 3] {
        done(&mut host, &mut memory, Input::Certificates(vec![certificate(author, 5, 0b1011)]));
    }
    for _ in 0..20 {
        done(&mut host, &mut memory, Input::Tick);
    }
    assert_eq!((host.engine().round(), host.engine().blocks()), (Round::new(5), 0));
}

#[test]
fn what_a_dropped_proposal_had_drawn_comes_back() {
    let (mut host, mut memory) = (host(0).with_pace(Pace { patience: 1, again: 100 }), Memory::default());
    let sent = done(&mut host, &mut memory, Input::Enqueue { guest: 4, transaction: entry(7) }).sends;
    assert!(matches!(&sent[..], [Send { message: Message::Proposal(own), .. }] if own.transactions == [entry(7)]));
    let row = vec![certificate(1, 1, 0), certificate(2, 1, 0), certificate(3, 1, 0)];
    assert_eq!(done(&mut host, &mut memory, Input::Certificates(row)).dropped, []);
    assert_eq!(done(&mut host, &mut memory, Input::Tick).dropped, [entry(7)]);
    assert_eq!(host.engine().round(), 2);
}

#[test]
fn a_guests_call_counts_as_the_hosts_own() {
    let rights = Rights::NONE.allow(3, Right::Propose).unwrap();
    let mut host = Host::open(Member::new(0), &sheet(), rights).unwrap();
    let mut memory = Memory::default();
    let propose = GuestCall::Propose { previous: 0, transactions: vec![entry(9)] };
    let sends = done(&mut host, &mut memory, Input::Guest { caller: 3, call: propose.clone() }).sends;
    assert!(matches!(&sends[..], [Send { message: Message::Proposal(own), .. }] if own.transactions == [entry(9)]));
    let kept = memory.kept.as_ref().unwrap();
    assert_eq!(kept.state, *host.engine().words().0);
    let ready = host.step(Input::Guest { caller: 5, call: propose });
    let stored = host.store(&mut memory).unwrap();
    assert_eq!(ready.release(&stored).unwrap().answer, Err(Refusal::NoRight));
    // A guest is told that its transaction waits once that is stored.
    let ready = host.step(Input::Guest { caller: 3, call: GuestCall::Enqueue(entry(1)) });
    let ready = ready.release(&stored).unwrap_err();
    let stored = host.store(&mut memory).unwrap();
    assert_eq!(ready.release(&stored).unwrap().answer, Ok(Answer::Done));
}

#[test]
fn a_record_as_bytes_and_back() {
    let (mut host, mut memory) = (host(0), Memory::default());
    done(&mut host, &mut memory, Input::Proposal(proposal(1, 1, 0, 7)));
    let (kept, bytes) = (memory.kept.unwrap(), host.record().to_bytes());
    assert_eq!(Kept::from_bytes(&bytes), Ok(kept));
    for place in (0..bytes.len()).step_by(97) {
        let mut damaged = bytes.clone();
        damaged[place] ^= 4;
        assert_eq!(Kept::from_bytes(&damaged), Err(RestoreError::Torn));
        assert_eq!(Kept::from_bytes(&bytes[..place]), Err(RestoreError::Torn));
    }
    // CRC-32 of nine digits, as it is published.
    assert_eq!(crate::ready::sum(b"123456789"), 0xcbf4_3926);
}

#[test]
fn what_a_member_does_not_go_on_with() {
    let (mut host, mut memory) = (host(0), Memory::default());
    done(&mut host, &mut memory, Input::Tick);
    let kept = memory.kept.unwrap();
    let restored = |own, sheet: &Sheet, kept: &Kept| Host::restore(Member::new(own), sheet, kept.clone()).map(|_| ());
    assert_eq!(restored(0, &sheet(), &kept), Ok(()));
    assert_eq!(restored(1, &sheet(), &kept), Err(RestoreError::OtherMember(Member::new(0))));
    let margin = Sheet { margin: Some(4), ..sheet() };
    assert_eq!(restored(0, &margin, &kept), Err(RestoreError::OtherSettings));
    let longer = Sheet { ceiling: Some(9), ..sheet() };
    assert_eq!(restored(0, &longer, &kept), Err(RestoreError::OtherSettings));
    let short = Kept { table: vec![], ..kept };
    assert_eq!(restored(0, &sheet(), &short), Err(RestoreError::Malformed));
}

#[test]
fn ports_are_reset_where_a_member_goes_on() {
    let rights = Rights { read: 1 << 3, ..Rights::NONE };
    let mut host = Host::open(Member::new(0), &sheet(), rights).unwrap();
    let mut memory = Memory::default();
    let write = GuestCall::PortWrite { offset: 7, value: 9 };
    done(&mut host, &mut memory, Input::Guest { caller: 3, call: write });
    let read = || Input::Guest { caller: 3, call: GuestCall::PortRead { offset: 7 } };
    assert_eq!(done(&mut host, &mut memory, read()).answer, Ok(Answer::Byte(9)));
    let mut again = Host::restore(Member::new(0), &sheet(), memory.kept.clone().unwrap()).unwrap();
    assert_eq!(done(&mut again, &mut memory, read()).answer, Ok(Answer::Byte(0)));
}

#[test]
fn who_is_asked_answers_with_as_many_as_a_batch_takes() {
    let mut sheet = Sheet { ceiling: Some(64), ..Sheet::default() };
    sheet.weights.fill(Some(1));
    let mut host = Host::open(Member::new(0), &sheet, Rights::NONE).unwrap();
    let mut memory = Memory::default();
    let of = |author: u32, round: u32| {
        let previous = if round > 1 { Set::MAX } else { 0 };
        let proposal = Proposal { transactions: vec![], ..proposal(author, round, previous, 0) };
        Certificate { proposal, endorsers: !(1 << author) }
    };
    let all: Vec<_> = (1..=6).flat_map(|round| (0..16).map(move |author| of(author, round))).collect();
    done(&mut host, &mut memory, Input::Certificates(all.clone()));
    let sends = done(&mut host, &mut memory, Input::Question { from: Member::new(5), lowest: Round::new(2) }).sends;
    let message = Message::Certificates(all[16..16 + BATCH_RECORDS].to_vec());
    assert_eq!(sends, [Send { to: Some(Member::new(5)), message }]);
}
