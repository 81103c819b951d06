//! What a host does next, as types: store these words, then send this to those, hand over these blocks.
//!
//! A [`Host`] stands around one member's engine and follows docs/HOSTS.md, "A round, from the host's side". What
//! came goes in by [`Host::step`], and what is to be done comes back as a [`Ready`]. It is shut: what is to be
//! sent, the answer to a guest and new blocks come out by [`Ready::release`] alone, for a [`Stored`], and only
//! [`Host::store`] gives one, once the host's own [`Store`] has said that the words are there. So nothing is
//! sent before it is stored. One store may release many: those of all steps before it.
//!
//! Left to the host: signatures, network, clock and store. It checks signatures before a message goes in, and
//! looks at the bonds and unbonds of a proposal (docs/HOSTS.md, "What the promise asks of you").
//!
//! ```
//! use forgelilac::ready::{Host, Input, Kept, Record, Store};
//! use forgelilac::{Member, Refusal, Rights, Sheet};
//!
//! /// A store in memory.
//! struct Memory(Option<Kept>);
//!
//! impl Store for Memory {
//!     type Error = Refusal;
//!
//!     fn store(&mut self, record: &Record<'_>) -> Result<(), Refusal> {
//!         self.0 = Some(record.kept());
//!         Ok(())
//!     }
//! }
//!
//! let mut sheet = Sheet { ceiling: Some(3), ..Sheet::default() };
//! sheet.weights[1..4].fill(Some(0)); // member 0 is alone
//! let mut host = Host::open(Member::new(0), &sheet, Rights::NONE)?;
//! let mut memory = Memory(None);
//! let ready = host.step(Input::Tick);
//! let stored = host.store(&mut memory)?;
//! let actions = ready.release(&stored).expect("stored after the step");
//! assert_eq!(actions.blocks.len(), 2); // rounds 1 and 2, in the block of round 2
//! assert_eq!(memory.0.unwrap().count, 1);
//! # Ok::<(), Refusal>(())
//! ```
//!
//! What is not stored is not released:
//!
//! ```
//! # use forgelilac::ready::{Host, Input, Record, Store};
//! # use forgelilac::{Member, Refusal, Rights, Sheet, Transaction};
//! # struct Nowhere;
//! # impl Store for Nowhere {
//! #     type Error = Refusal;
//! #     fn store(&mut self, _: &Record<'_>) -> Result<(), Refusal> { Ok(()) }
//! # }
//! # let mut nowhere = Nowhere;
//! let mut host = Host::open(Member::new(0), &Sheet { ceiling: Some(8), ..Sheet::default() }, Rights::NONE)?;
//! let stored = host.store(&mut nowhere)?;
//! let ready = host.step(Input::Enqueue { guest: 3, transaction: Transaction::Entry { number: 7 } });
//! let ready = ready.release(&stored).expect_err("stored before the step");
//! let stored = host.store(&mut nowhere)?;
//! assert!(ready.release(&stored).is_ok());
//! # Ok::<(), Refusal>(())
//! ```

mod calls;
mod stores;

pub use calls::{Answer, Call, Calls, GuestCall, Message, Send};
#[cfg(test)]
pub(crate) use stores::sum;
pub use stores::{Kept, Record, RestoreError, Store, Stored};

use crate::layout::{port, BATCH_RECORDS, GUESTS, PORT_WORDS, STATE_CEILING, STATE_LOOKBACK, STATE_PROPOSED};
use crate::{leader, Answers, Certificate, Engine, Held, Member, Proposal, Refusal, Rights, Round, Set, Sheet};
use crate::{Transaction, CEILING, MEMBERS};
use alloc::vec;
use alloc::vec::Vec;
use core::sync::atomic::{AtomicUsize, Ordering};

/// The most certificates that wait for others.
const WAITING: usize = 128;

/// What has come to a host. Of messages the signatures are good, or they are not handed in.
#[derive(Clone, PartialEq, Eq, Debug)]
pub enum Input {
    /// A proposal, whose bonds and unbonds are ones that the plant agreed to.
    Proposal(Proposal),
    /// The endorsement of a proposal.
    Endorsement {
        /// By whose key it is signed.
        by: Member,
        /// What is signed.
        proposal: Proposal,
    },
    /// Certificates.
    Certificates(Vec<Certificate>),
    /// Which certificates are there from this round on?
    Question {
        /// Who asks.
        from: Member,
        /// The lowest round of which something is missing.
        lowest: Round,
    },
    /// A transaction that the host itself adds to a guest's queue.
    Enqueue {
        /// Whose queue.
        guest: u32,
        /// What is added.
        transaction: Transaction,
    },
    /// A guest's call.
    Guest {
        /// The number that the host knows itself.
        caller: u32,
        /// What it asks for.
        call: GuestCall,
    },
    /// A unit of time has passed, as the host sets it ([`Pace`]).
    Tick,
}

/// What a host is to do, once the words are stored.
#[derive(Clone, PartialEq, Eq, Debug)]
pub struct Actions {
    /// What the call that the input asked for has answered: to be told to the guest that made it. Of a message
    /// it tells what the engine said; [`Refusal::OtherHeld`] is evidence to be kept.
    pub answer: Result<Answer, Refusal>,
    /// What is to be sent, in this order.
    pub sends: Vec<Send>,
    /// What new blocks hold, in the order of the chain, for the guests.
    pub blocks: Vec<Held>,
    /// Transactions of a proposal that was dropped before it was certified: they are in no queue, and are to be
    /// added again.
    pub dropped: Vec<Transaction>,
}

/// What is to be done after a step, shut until the words are stored.
#[must_use = "what is to be sent is in it"]
#[derive(Clone, PartialEq, Eq, Debug)]
pub struct Ready {
    host: usize,
    count: u64,
    actions: Actions,
}

impl Ready {
    /// The count of the record that must be stored before.
    #[must_use]
    pub fn count(&self) -> u64 {
        self.count
    }

    /// What is to be done, for the proof that this host has stored its words after the step.
    ///
    /// # Errors
    /// Itself, where the proof is of an earlier store, or of another host.
    pub fn release(self, stored: &Stored) -> Result<Actions, Ready> {
        if stored.host == self.host && self.count <= stored.count {
            Ok(self.actions)
        } else {
            Err(self)
        }
    }
}

/// How long a host waits, in ticks.
#[derive(Clone, Copy, PartialEq, Eq, Debug)]
pub struct Pace {
    /// So long it waits in a round for its own certificate, the leader's, or the commit.
    pub patience: u32,
    /// After so long it sends again what it sent in this round, and asks for what it lacks.
    pub again: u32,
}

impl Default for Pace {
    fn default() -> Pace {
        Pace { patience: 8, again: 3 }
    }
}

/// What was tried in the present round, so that it is not tried again for nothing.
#[derive(Clone, Copy, PartialEq, Eq, Debug, Default)]
struct Tried {
    propose: bool,
    certify: Option<Set>,
    commit: Option<(Set, Set)>,
    advance: Option<Set>,
    /// A commit was accepted, or there is nothing to commit any more.
    committed: bool,
    weights: Option<[u32; MEMBERS]>,
}

/// One member's host: its engine, and what it knows beside it.
///
/// Its calls go by [`Calls`], so that somebody may look on.
#[derive(Debug)]
pub struct Host<C = Engine> {
    calls: C,
    id: usize,
    pace: Pace,
    count: u64,
    unstored: bool,
    endorsed: Vec<Proposal>,
    endorsers: Set,
    waiting: Vec<Certificate>,
    lowest: Option<(Round, Member)>,
    heard: Set,
    asked: u32,
    waited: u32,
    tried: Tried,
}

impl Host<Engine> {
    /// Opens a member, as [`Engine::open_with_rights`] does. It starts a new run.
    ///
    /// # Errors
    /// Those of the open.
    pub fn open(own: Member, sheet: &Sheet, rights: Rights) -> Result<Host, Refusal> {
        Ok(Host::of_opened(Engine::open_with_rights(own, sheet, rights)?))
    }

    /// Goes on with what was stored last. Anything older has forgotten signatures.
    ///
    /// # Errors
    /// As [`Host::of_kept`].
    pub fn restore(own: Member, sheet: &Sheet, kept: Kept) -> Result<Host, RestoreError> {
        Host::of_kept(own, sheet, kept, |engine| engine)
    }
}

impl<C: Calls> Host<C> {
    /// Around an engine that was just opened, or what makes its calls.
    #[must_use]
    pub fn of_opened(calls: C) -> Host<C> {
        static HOSTS: AtomicUsize = AtomicUsize::new(0);
        Host {
            calls,
            id: HOSTS.fetch_add(1, Ordering::Relaxed),
            pace: Pace::default(),
            count: 0,
            unstored: true,
            endorsed: Vec::new(),
            endorsers: 0,
            waiting: Vec::new(),
            lowest: None,
            heard: 0,
            asked: 0,
            waited: 0,
            tried: Tried::default(),
        }
    }

    /// Goes on with what was stored last, by what makes the engine's calls. Ports are reset, since guests start
    /// anew with their computer.
    ///
    /// # Errors
    /// In this order: [`RestoreError::Malformed`], [`RestoreError::OtherMember`],
    /// [`RestoreError::OtherSettings`], also for a sheet that is refused.
    pub fn of_kept(
        own: Member, sheet: &Sheet, kept: Kept, around: impl FnOnce(Engine) -> C,
    ) -> Result<Host<C>, RestoreError> {
        let engine = Engine::try_restore(kept.state, kept.table).map_err(|_| RestoreError::Malformed)?;
        if engine.own() != own {
            return Err(RestoreError::OtherMember(engine.own()));
        }
        let opened = Engine::open(own, sheet).map_err(|_| RestoreError::OtherSettings)?;
        if !stores::same_settings(engine.words().0, opened.words().0) {
            return Err(RestoreError::OtherSettings);
        }
        let used = (0..GUESTS as u32).filter(|&guest| engine.words().1[port(guest)..][..PORT_WORDS] != [0; PORT_WORDS]);
        let used: Vec<_> = used.collect();
        let heard = Round::FIRST.through(engine.round()).fold(0, |set, round| set | engine.held(round));
        let mut host = Host::of_opened(around(engine));
        for port in used {
            host.calls.make(&Call::PortReset { port }).map_err(|_| RestoreError::Malformed)?;
        }
        Ok(Host { count: kept.count, unstored: false, endorsed: kept.endorsed, heard, ..host })
    }

    /// The same host, with another pace.
    #[must_use]
    pub fn with_pace(self, pace: Pace) -> Host<C> {
        Host { pace, ..self }
    }

    /// The engine, for reads.
    #[must_use]
    pub fn engine(&self) -> &Engine {
        self.calls.engine()
    }

    /// What makes the engine's calls.
    #[must_use]
    pub fn calls(&self) -> &C {
        &self.calls
    }

    /// Takes what has come, makes the calls that follow, and says what to do.
    pub fn step(&mut self, input: Input) -> Ready {
        let mut actions = Actions { answer: Ok(Answer::Done), sends: vec![], blocks: vec![], dropped: vec![] };
        actions.answer = self.take(input, &mut actions);
        while self.go(&mut actions) {}
        Ready { host: self.id, count: self.count + u64::from(self.unstored), actions }
    }

    /// What is to be stored now.
    #[must_use]
    pub fn record(&self) -> Record<'_> {
        let (state, table) = self.engine().words();
        Record { count: self.count + u64::from(self.unstored), state, table, endorsed: &self.endorsed }
    }

    /// Stores the words, where there is something to store, and proves it.
    ///
    /// # Errors
    /// Those of the store: then nothing of the steps since the last store may be released.
    pub fn store<S: Store>(&mut self, store: &mut S) -> Result<Stored, S::Error> {
        if self.unstored {
            store.store(&self.record())?;
            self.count += 1;
            self.unstored = false;
        }
        Ok(Stored { host: self.id, count: self.count })
    }

    // ---- what came

    fn take(&mut self, input: Input, actions: &mut Actions) -> Result<Answer, Refusal> {
        match input {
            Input::Proposal(proposal) => self.take_proposal(proposal, actions),
            Input::Endorsement { by, proposal } => {
                self.heard |= by.bit();
                if self.engine().proposal().as_ref() == Some(&proposal) {
                    self.endorsers |= by.bit();
                }
                Ok(Answer::Done)
            }
            Input::Certificates(row) => self.take_certificates(row, actions),
            Input::Question { from, lowest } => {
                let row = self.certificates_from(lowest);
                if !row.is_empty() {
                    actions.send(Some(from), Message::Certificates(row));
                }
                Ok(Answer::Done)
            }
            Input::Enqueue { guest, transaction } => self.make(Call::Enqueue { guest, transaction }, actions),
            Input::Guest { caller, call } => self.make(Call::Guest { caller, call }, actions),
            Input::Tick => {
                self.waited = self.waited.saturating_add(1);
                if self.waited % self.pace.again.max(1) == 0 {
                    self.send_again(actions);
                }
                Ok(Answer::Done)
            }
        }
    }

    fn take_proposal(&mut self, proposal: Proposal, actions: &mut Actions) -> Result<Answer, Refusal> {
        self.heard |= proposal.author.bit();
        let (author, before) = (proposal.author, proposal.round.before());
        let answer = self.make(Call::Endorse(proposal.clone()), actions);
        match answer {
            Err(Refusal::PlaceTaken) if self.endorsed.contains(&proposal) => {
                actions.send(Some(author), Message::Endorsement(proposal));
            }
            Err(Refusal::PreviousMissing) => self.lacks(before, author),
            _ => {}
        }
        answer
    }

    /// Tries a row, and what waits as long as something new is held.
    fn take_certificates(&mut self, row: Vec<Certificate>, actions: &mut Actions) -> Result<Answer, Refusal> {
        row.iter().for_each(|certificate| self.heard |= certificate.proposal.author.bit());
        let mut answers = Vec::with_capacity(row.len());
        for part in row.chunks(BATCH_RECORDS) {
            answers.extend(self.accept(part.to_vec(), actions)?);
        }
        self.try_waiting(actions)?;
        match answers[..] {
            [one] => one.map(|()| Answer::Done),
            _ => Ok(Answer::Row(Answers(answers))),
        }
    }

    fn accept(&mut self, row: Vec<Certificate>, actions: &mut Actions) -> Result<Vec<Result<(), Refusal>>, Refusal> {
        let answers = match &row[..] {
            [one] => vec![self.make(Call::Accept(one.clone()), actions).map(|_| ())],
            _ => match self.make(Call::Batch(row.clone()), actions)? {
                Answer::Row(answers) => answers.0,
                _ => vec![],
            },
        };
        for (certificate, answer) in row.into_iter().zip(&answers) {
            match answer {
                Err(Refusal::PreviousMissing) => {
                    self.lacks(certificate.proposal.round.before(), certificate.proposal.author);
                    self.wait_with(certificate);
                }
                Err(Refusal::CommitteeUnknown) => self.wait_with(certificate),
                _ => {}
            }
        }
        Ok(answers)
    }

    fn try_waiting(&mut self, actions: &mut Actions) -> Result<(), Refusal> {
        loop {
            // What is held for good by now need not wait.
            let mut row = core::mem::take(&mut self.waiting);
            row.retain(|one| self.engine().held(one.proposal.round) & one.proposal.author.bit() == 0);
            row.sort_by_key(|one| one.proposal.round);
            let later = row.split_off(row.len().min(BATCH_RECORDS));
            if row.is_empty() {
                return Ok(());
            }
            let answers = self.accept(row, actions)?;
            later.into_iter().for_each(|one| self.wait_with(one));
            if answers.iter().all(Result::is_err) {
                return Ok(());
            }
        }
    }

    /// Keeps a certificate that names what is not held, or whose committee is not known: one for each place,
    /// the lowest rounds where there are too many.
    fn wait_with(&mut self, certificate: Certificate) {
        let place = |one: &Certificate| (one.proposal.round, one.proposal.author);
        self.waiting.retain(|one| place(one) != place(&certificate));
        self.waiting.push(certificate);
        if self.waiting.len() > WAITING {
            self.waiting.sort_by_key(place);
            self.waiting.pop();
        }
    }

    fn lacks(&mut self, round: Round, of: Member) {
        if self.lowest.is_none_or(|(lowest, _)| round < lowest) {
            self.lowest = Some((round, of));
        }
    }

    /// As many as a batch takes, the lowest rounds first.
    fn certificates_from(&self, lowest: Round) -> Vec<Certificate> {
        let engine = self.engine();
        let last = Round::new(engine.words().0[STATE_CEILING].min(CEILING));
        let rounds = lowest.max(Round::FIRST).through(last);
        let places = rounds.flat_map(|round| Member::all_in(engine.held(round)).map(move |author| (author, round)));
        let held = places.take(BATCH_RECORDS).filter_map(|(author, round)| engine.certificate(author, round).ok());
        held.map(|held| held.certificate()).collect()
    }

    /// One's own certificate of the present round, or the proposal; and a question to one that was heard of.
    fn send_again(&mut self, actions: &mut Actions) {
        let engine = self.engine();
        match engine.certificate(engine.own(), engine.round()) {
            Ok(held) => actions.send(None, Message::Certificates(vec![held.certificate()])),
            Err(_) => actions.sends.extend(engine.proposal().map(|own| Send::to_all(Message::Proposal(own)))),
        }
        let lowest = engine.round().before().max(Round::FIRST);
        let others: Vec<_> = Member::all_in(self.heard & !engine.own().bit()).collect();
        self.asked = self.asked.wrapping_add(1);
        let next = others.get(self.asked as usize % others.len().max(1)).copied();
        let (lowest, to) = match self.lowest.take() {
            // Who named it holds it, but may be away: every other time somebody else is asked.
            Some((round, of)) if round < lowest => (round, if self.asked % 2 == 0 { Some(of) } else { next }),
            _ => (lowest, next),
        };
        if let Some(to) = to.filter(|&to| to != self.engine().own()) {
            actions.send(Some(to), Message::Question { lowest });
        }
    }

    // ---- what a host does by itself

    /// One round's work; whether the round was left.
    fn go(&mut self, actions: &mut Actions) -> bool {
        self.propose(actions);
        self.certify(actions);
        let complete = self.is_complete(actions);
        self.leave(complete, actions)
    }

    fn propose(&mut self, actions: &mut Actions) {
        let engine = self.engine();
        let (round, own) = (engine.round(), engine.own());
        if self.tried.propose || self.has_proposed() || engine.held(round) & own.bit() != 0 {
            return;
        }
        let previous = engine.held(round.before());
        // Whoever is outside the committee proposes nothing, and does all the rest.
        self.tried.propose = self.make(Call::Draw { previous }, actions).is_err();
    }

    fn certify(&mut self, actions: &mut Actions) {
        if !self.is_pending() {
            return;
        }
        let Some(weights) = self.weights() else { return };
        let members = Member::ALL.into_iter().filter(|member| weights[member.index()] > 0);
        let endorsers = self.endorsers & members.fold(0, |set, member| set | member.bit());
        if self.tried.certify.replace(endorsers) != Some(endorsers) {
            // Refused where they are short of a quorum: more may come.
            let _short = self.make(Call::Certify { endorsers }, actions);
        }
    }

    /// Whether the present round has what a host waits for: an even one the leader's certificate, an odd one from
    /// 3 on a block.
    fn is_complete(&mut self, actions: &mut Actions) -> bool {
        let round = self.engine().round();
        if round == 1 {
            return true;
        }
        if round.get() % 2 == 1 {
            return self.tried.committed || self.commit(actions);
        }
        let leader = self.weights().and_then(|weights| leader(round, &weights));
        leader.is_none_or(|leader| self.engine().held(round) & leader.bit() != 0)
    }

    /// Whether a commit is done in this round.
    fn commit(&mut self, actions: &mut Actions) -> bool {
        let engine = self.engine();
        let sees = (engine.held(engine.round().before()), engine.held(engine.round()));
        if self.tried.commit.replace(sees) == Some(sees) {
            return false;
        }
        match self.make(Call::Commit, actions) {
            Ok(_) | Err(Refusal::BlockMade) => self.tried.committed = true,
            Err(_) => {}
        }
        self.tried.committed
    }

    /// Whether the round was left.
    fn leave(&mut self, complete: bool, actions: &mut Actions) -> bool {
        let engine = self.engine();
        let (round, pending) = (engine.round(), self.is_pending());
        // Nor is the even round before the last chance left without its leader: nobody would vote for it then.
        if round == engine.words().0[STATE_CEILING] || !complete && round.next() >= self.last_chance() {
            return false;
        }
        let others_left = engine.held(round.next()) != 0;
        let waits = if others_left { pending } else { (pending || !complete) && self.waited < self.pace.patience };
        let held = engine.held(round);
        if waits || self.tried.advance.replace(held) == Some(held) {
            return false;
        }
        self.make(Call::Advance, actions).is_ok()
    }

    /// The last odd round from which a block can be made: it is not left without one.
    fn last_chance(&self) -> Round {
        let engine = self.engine();
        let last = engine.block(engine.blocks()).map_or(0, Round::get);
        let known = engine.words().0[STATE_LOOKBACK].saturating_add(last.saturating_add(2));
        Round::new(known - u32::from(known % 2 == 0))
    }

    fn has_proposed(&self) -> bool {
        self.engine().words().0[STATE_PROPOSED] != 0
    }

    /// Whether there is a proposal that is not certified.
    fn is_pending(&self) -> bool {
        let engine = self.engine();
        self.has_proposed() && engine.held(engine.round()) & engine.own().bit() == 0
    }

    /// Those of the present round's committee; a known one never changes.
    fn weights(&mut self) -> Option<[u32; MEMBERS]> {
        if self.tried.weights.is_none() {
            self.tried.weights = self.engine().committee(self.engine().round()).ok();
        }
        self.tried.weights
    }

    // ---- the calls, and what follows from each

    /// The only place where calls are made, the host's own and guests'.
    fn make(&mut self, call: Call, actions: &mut Actions) -> Result<Answer, Refusal> {
        let pending = if self.is_pending() { self.engine().proposal() } else { None };
        let round = self.engine().round();
        let answer = self.calls.make(&call)?;
        self.follow(call, &answer, actions);
        if self.engine().round() != round {
            actions.dropped.extend(pending.into_iter().flat_map(|own| own.transactions));
            self.endorsers = 0;
            self.waited = 0;
            self.tried = Tried::default();
        }
        Ok(answer)
    }

    /// What an accepted call asks of a host: docs/HOSTS.md, "A round, from the host's side". A guest's call
    /// counts as the host's own.
    fn follow(&mut self, call: Call, answer: &Answer, actions: &mut Actions) {
        match call {
            Call::Propose { .. } | Call::Draw { .. } => self.follow_proposal(actions),
            Call::Enqueue { .. } | Call::PortReset { .. } => self.unstored = true,
            Call::Endorse(proposal) => self.follow_endorsement(proposal, actions),
            Call::Certify { .. } => self.follow_certificate(actions),
            Call::Accept(_) | Call::Batch(_) => self.forget_endorsed(),
            Call::Advance => {}
            Call::Commit => self.follow_blocks(answer, actions),
            Call::Guest { call, .. } => match call {
                GuestCall::Propose { .. } | GuestCall::Draw { .. } => self.follow_proposal(actions),
                GuestCall::Enqueue(_) => self.unstored = true,
                GuestCall::Endorse(proposal) => self.follow_endorsement(proposal, actions),
                GuestCall::Certify { .. } => self.follow_certificate(actions),
                GuestCall::Accept(_) | GuestCall::Batch(_) => self.forget_endorsed(),
                GuestCall::Commit => self.follow_blocks(answer, actions),
                GuestCall::Advance | GuestCall::PortRead { .. } | GuestCall::PortWrite { .. } => {}
            },
        }
    }

    fn follow_proposal(&mut self, actions: &mut Actions) {
        self.unstored = true;
        actions.sends.extend(self.engine().proposal().map(|own| Send::to_all(Message::Proposal(own))));
    }

    fn follow_endorsement(&mut self, proposal: Proposal, actions: &mut Actions) {
        self.unstored = true;
        self.endorsed.push(proposal.clone());
        actions.send(Some(proposal.author), Message::Endorsement(proposal));
    }

    fn follow_certificate(&mut self, actions: &mut Actions) {
        let engine = self.engine();
        let own = engine.certificate(engine.own(), engine.round());
        actions.sends.extend(own.map(|held| Send::to_all(Message::Certificates(vec![held.certificate()]))));
    }

    /// Who holds the certificate of a place does not ask for its endorsement again.
    fn forget_endorsed(&mut self) {
        let engine = self.calls.engine();
        self.endorsed.retain(|one| engine.held(one.round) & one.author.bit() == 0);
    }

    fn follow_blocks(&mut self, answer: &Answer, actions: &mut Actions) {
        self.unstored = true;
        if let Answer::Blocks(added) = *answer {
            let engine = self.engine();
            let rows = engine.block_rows(engine.blocks() - added, added);
            actions.blocks.extend(rows.into_iter().flatten());
        }
        // More committees are known now, and what waits for one is tried again.
        let _malformed = self.try_waiting(actions);
    }
}

impl Actions {
    fn send(&mut self, to: Option<Member>, message: Message) {
        self.sends.push(Send { to, message });
    }
}

impl Send {
    fn to_all(message: Message) -> Send {
        Send { to: None, message }
    }
}
