//! The computers of a plant, and what a step does to them: the same steps again lead to the same words again.

use crate::act::{Act, Event, Fails, Packet};
use crate::calls::{Entry, Made, Watched};
use crate::checks::Chains;
use crate::disk::Disk;
use crate::failure::{CameBack, Failure};
use crate::keys::Keys;
use crate::kind::Kind;
use crate::list::{List, Listed};
use crate::plan::Plan;
use crate::store::{Places, Store};
use crate::transport::{is_good, unsigned, Plain, Transport};
use forgelilac::layout::{GUESTS, OFFSET_DATA};
use forgelilac::ready::{self, Actions, Answer, Call, GuestCall, Host, Input, Kept, Message, Record};
use forgelilac::{Engine, Member, Refusal, Right, Rights, Transaction};
use std::collections::VecDeque;
use std::rc::Rc;

/// The parts of a host that the suite tries: those of each correct member are made by it.
pub trait Parts {
    /// The store of a member, with no memory of before.
    fn store(&self, own: Member) -> Box<dyn Store>;

    /// The transport of a member, with no memory of before.
    fn transport(&self, own: Member) -> Box<dyn Transport>;

    /// Whether stores are asked in runs too in which no power fails, so that nothing ever comes back from them.
    fn always_store(&self) -> bool {
        true
    }
}

/// The plant's own parts.
#[derive(Clone, Copy, Debug, Default)]
pub struct PlantParts;

impl Parts for PlantParts {
    fn store(&self, _: Member) -> Box<dyn Store> {
        Box::new(Places)
    }

    fn transport(&self, _: Member) -> Box<dyn Transport> {
        Box::new(Plain)
    }

    fn always_store(&self) -> bool {
        false
    }
}

/// A message that has left, to a member, or to all others where it is none.
pub type Sent = (Option<Member>, Rc<Packet>);

/// One computer. A faulty member has two: it plays two parts.
pub struct Computer {
    /// Whose it is.
    pub member: Member,
    /// Whether the member is faulty.
    pub faulty: bool,
    host: Option<Host<Watched>>,
    disk: Disk,
    /// None where nothing ever comes back from it.
    store: Option<Box<dyn Store>>,
    transport: Box<dyn Transport>,
    /// The record that the store said was done, and the one that was being stored since.
    said: Option<Kept>,
    tried: Option<Kept>,
    /// The first round whose committee was not looked at.
    looked: u32,
    /// What the port of each guest has given.
    received: [usize; GUESTS],
    /// The calls that its words are of, refused ones among them, each with its place in the order of all, and how
    /// many of them the two records hold.
    calls: Vec<(u64, Made)>,
    said_calls: usize,
    tried_calls: usize,
}

/// A plant.
pub struct World<'a> {
    plan: &'a Plan,
    parts: &'a dyn Parts,
    computers: Vec<Computer>,
    keys: Keys,
    chains: Chains,
    failure: Option<Failure>,
    recording: bool,
    /// How many calls were recorded.
    order: u64,
}

/// A store with the disk that it is handed.
struct OnDisk<'a> {
    store: Option<&'a mut Box<dyn Store>>,
    disk: &'a mut Disk,
}

impl ready::Store for OnDisk<'_> {
    type Error = String;

    fn store(&mut self, record: &Record<'_>) -> Result<(), String> {
        match &mut self.store {
            Some(store) => store.store(self.disk, record),
            None => Ok(()),
        }
    }
}

impl Computer {
    fn new(member: Member, plan: &Plan, parts: &dyn Parts) -> Result<Computer, Refusal> {
        let faulty = plan.faulty & member.bit() != 0;
        // Rights are no setting: nobody sees which guests a faulty member lets in.
        let rights = if faulty { Rights::ALL } else { plan.rights };
        let opened = Engine::open_with_rights(member, &plan.sheet, rights)?;
        // A faulty member speaks as the others do, and its power does not fail.
        let stores = !faulty && (plan.power > 0 || parts.always_store());
        let store = stores.then(|| parts.store(member));
        Ok(Computer {
            member,
            faulty,
            host: Some(Host::of_opened(Watched::new(opened))),
            disk: Disk::default(),
            store,
            transport: parts.transport(member),
            said: None,
            tried: None,
            looked: 1,
            received: [0; GUESTS],
            calls: Vec::new(),
            said_calls: 0,
            tried_calls: 0,
        })
    }

    /// The engine, while the computer has power.
    #[must_use]
    pub fn engine(&self) -> Option<&Engine> {
        self.host.as_ref().map(Host::engine)
    }
}

impl<'a> World<'a> {
    /// All members opened. Members without a weight at the start have no computer.
    ///
    /// # Errors
    /// What the open answers to a sheet that it refuses.
    pub fn new(plan: &'a Plan, parts: &'a dyn Parts) -> Result<World<'a>, Refusal> {
        let members = (0..plan.computers).map(Member::new);
        let second = Member::all_in(plan.faulty);
        let computers = members.chain(second).map(|member| Computer::new(member, plan, parts));
        let fresh = Engine::open(Member::new(0), &plan.sheet)?;
        Ok(World {
            plan,
            parts,
            computers: computers.collect::<Result<_, _>>()?,
            keys: Keys::new(plan.faulty),
            chains: Chains::new(&fresh),
            failure: None,
            recording: false,
            order: 0,
        })
    }

    /// Records the calls of correct members from now on.
    #[must_use]
    pub fn recording(self) -> World<'a> {
        World { recording: true, ..self }
    }

    /// The accepted calls that the words of correct members are of, where they are recorded, member by member: `who`
    /// is a member's number.
    #[must_use]
    pub fn recorded(&self) -> Vec<Entry> {
        let entries = self.computers.iter().flat_map(|computer| {
            let accepted = computer.calls.iter().filter(|(_, made)| made.answer.is_ok());
            accepted.map(|(_, made)| Entry { who: computer.member.index(), call: made.call.clone() })
        });
        entries.collect()
    }

    /// All calls that the words of correct members are of, where they are recorded, in the order in which they were
    /// made, and these words. Computers without power get it back before.
    ///
    /// # Errors
    /// What the open answers to a sheet that it refuses.
    pub fn listed(mut self) -> Result<List, Refusal> {
        for at in 0..self.computers.len() {
            // What is wrong with what comes back was told when the run was played.
            let _ = self.power_returns(at);
            self.record(at);
        }
        let mut calls: Vec<_> = self
            .computers
            .iter()
            .flat_map(|computer| computer.calls.iter().map(|(order, made)| (*order, computer.member, made)))
            .collect();
        calls.sort_by_key(|(order, ..)| *order);
        let calls = calls.into_iter().map(|(_, member, made)| Listed {
            entry: Entry { who: member.index(), call: made.call.clone() },
            answer: made.answer.clone(),
        });
        let first = &self.computers[..self.plan.computers as usize];
        let words = first.iter().map(|computer| match &computer.host {
            Some(host) if !computer.faulty => Ok(host.engine().clone()),
            // The list has no call of a faulty member.
            _ => Engine::open_with_rights(computer.member, &self.plan.sheet, self.plan.rights),
        });
        Ok(List {
            sheet: self.plan.sheet,
            rights: self.plan.rights,
            calls: calls.collect(),
            engines: words.collect::<Result<_, _>>()?,
        })
    }

    /// Records what a correct member's host has called since the last time.
    fn record(&mut self, at: usize) {
        let computer = &mut self.computers[at];
        let Some(host) = computer.host.as_ref().filter(|_| self.recording && !computer.faulty) else { return };
        for made in host.calls().take_made() {
            computer.calls.push((self.order, made));
            self.order += 1;
        }
    }

    /// The computers: first one of each member, then the second of each faulty one.
    #[must_use]
    pub fn computers(&self) -> &[Computer] {
        &self.computers
    }

    /// The longest chain.
    #[must_use]
    pub fn chains(&self) -> &Chains {
        &self.chains
    }

    /// Who has signed what.
    #[must_use]
    pub fn keys(&self) -> &Keys {
        &self.keys
    }

    /// What went wrong.
    #[must_use]
    pub fn failure(&self) -> Option<&Failure> {
        self.failure.as_ref()
    }

    /// What the transport of a computer makes of a message that is none of its member's.
    pub(crate) fn pack(&mut self, at: usize, own: Member, message: &Message) -> Vec<u8> {
        self.computers[at].transport.pack(own, message)
    }

    /// A step; what leaves by it. After a failure nothing is done any more.
    pub fn apply(&mut self, act: &Act) -> Vec<Sent> {
        if self.failure.is_some() || act.at >= self.computers.len() {
            return Vec::new();
        }
        self.step(act).unwrap_or_else(|failure| {
            self.failure = Some(failure);
            Vec::new()
        })
    }

    fn step(&mut self, act: &Act) -> Result<Vec<Sent>, Failure> {
        if act.event == Event::PowerReturns {
            return self.power_returns(act.at).map(|()| Vec::new());
        }
        let mut sent = Vec::new();
        let mut inputs: VecDeque<_> = self.input(act)?.into_iter().collect();
        if inputs.is_empty() && act.fails.is_some() {
            self.power_fails(act.at, act.fails);
        }
        while let Some(input) = inputs.pop_front() {
            let Some(actions) = self.take(act.at, input, act.fails)? else { break };
            let again = |transaction: &Transaction| Input::Enqueue { guest: 7, transaction: *transaction };
            // A faulty member tries something else.
            if !self.computers[act.at].faulty {
                inputs.extend(actions.dropped.iter().map(again));
            }
            self.send(act.at, actions, &mut sent)?;
        }
        Ok(sent)
    }

    /// What a computer that has power hands to its host.
    fn input(&mut self, act: &Act) -> Result<Option<Input>, Failure> {
        let computer = &mut self.computers[act.at];
        if computer.host.is_none() {
            return Ok(None);
        }
        match &act.event {
            Event::Tick => Ok(Some(Input::Tick)),
            Event::PowerReturns => Ok(None),
            Event::Guest { caller, call } => Ok(Some(Input::Guest { caller: *caller, call: call.clone() })),
            Event::Enqueue { guest, transaction } => {
                Ok(Some(Input::Enqueue { guest: *guest, transaction: *transaction }))
            }
            Event::Message(packet) => {
                let input = computer.transport.unpack(packet.from, &packet.bytes, &self.keys);
                if computer.faulty {
                    return Ok(input);
                }
                let Some(input) = input else {
                    let good = packet.sincere && is_good(&meant(packet), &self.keys);
                    let lost = Failure::NotHandedOver { member: computer.member, from: packet.from };
                    return if good { Err(lost) } else { Ok(None) };
                };
                if packet.sincere && input != meant(packet) {
                    return Err(Failure::Misread { member: computer.member, from: packet.from });
                }
                if let Some((signer, proposal)) = unsigned(&input, &self.keys) {
                    let (author, round) = (proposal.author, proposal.round);
                    return Err(Failure::Unchecked { member: computer.member, signer, author, round });
                }
                // Bonds and unbonds that the plant has not agreed to are not signed.
                let unwanted = matches!(&input, Input::Proposal(one) if !self.plan.wants(&one.transactions));
                Ok((!unwanted).then_some(input))
            }
        }
    }

    /// The calls, the store, and what the store releases; nothing where power fails meanwhile.
    fn take(&mut self, at: usize, input: Input, fails: Option<Fails>) -> Result<Option<Actions>, Failure> {
        let computer = &mut self.computers[at];
        let Some(host) = &mut computer.host else { return Ok(None) };
        let ready = host.step(input);
        self.look(at)?;
        let computer = &mut self.computers[at];
        let Some(host) = &mut computer.host else { return Ok(None) };
        if computer.store.is_some() && computer.said.as_ref().is_none_or(|said| said.count < ready.count()) {
            computer.tried = Some(host.record().kept());
            computer.tried_calls = computer.calls.len();
        }
        if let Some(fails) = fails {
            computer.disk.fail_after(fails.after);
        }
        let stored = host.store(&mut OnDisk { store: computer.store.as_mut(), disk: &mut computer.disk });
        if fails.is_some() {
            self.power_fails(at, fails);
            return Ok(None);
        }
        let computer = &mut self.computers[at];
        let Ok(stored) = stored else { return Ok(None) };
        if let Some(tried) = computer.tried.take() {
            computer.said = Some(tried);
            computer.said_calls = computer.tried_calls;
        }
        Ok(ready.release(&stored).ok())
    }

    fn send(&mut self, at: usize, actions: Actions, sent: &mut Vec<Sent>) -> Result<(), Failure> {
        let computer = &mut self.computers[at];
        for ready::Send { to, message } in actions.sends {
            if let (false, Message::Proposal(one) | Message::Endorsement(one)) = (computer.faulty, &message) {
                if !self.keys.sign(computer.member, one) {
                    let (member, author, round) = (computer.member, one.author, one.round);
                    return Err(Failure::SignedTwice { member, author, round });
                }
            }
            let bytes = computer.transport.pack(computer.member, &message);
            sent.push((to, Rc::new(Packet { from: computer.member, sincere: !computer.faulty, message, bytes })));
        }
        Ok(())
    }

    // ---- power

    fn power_fails(&mut self, at: usize, fails: Option<Fails>) {
        let computer = &mut self.computers[at];
        computer.host = None;
        computer.disk.fail(fails.map_or(0, |fails| fails.tear));
        computer.store = Some(self.parts.store(computer.member));
        computer.transport = self.parts.transport(computer.member);
    }

    fn power_returns(&mut self, at: usize) -> Result<(), Failure> {
        let computer = &mut self.computers[at];
        if computer.host.is_some() {
            return Ok(());
        }
        let loaded = computer.store.as_mut().map_or(Ok(None), |store| store.load(&computer.disk));
        let said = computer.said.take();
        let tried = computer.tried.take();
        if let Some(came) = came_back(&loaded, said.as_ref(), tried.as_ref()) {
            let said = said.map_or(0, |said| said.count);
            return Err(Failure::Restored { member: computer.member, said, came });
        }
        let host = match loaded {
            Ok(Some(kept)) => {
                let before = said.is_some_and(|said| said.count == kept.count);
                computer.said_calls = if before { computer.said_calls } else { computer.tried_calls };
                computer.calls.truncate(computer.said_calls);
                computer.said = Some(kept.clone());
                Host::of_kept(computer.member, &self.plan.sheet, kept, Watched::new).ok()
            }
            // Nothing had left yet, so a fresh state forgets nothing.
            _ => {
                computer.calls.clear();
                let opened = Engine::open_with_rights(computer.member, &self.plan.sheet, self.plan.rights);
                opened.ok().map(|opened| Host::of_opened(Watched::new(opened)))
            }
        };
        computer.host = host;
        computer.looked = 1;
        computer.received = [0; GUESTS];
        self.look_at_chain(at)
    }

    // ---- what is looked at

    /// The calls of a step.
    fn look(&mut self, at: usize) -> Result<(), Failure> {
        let computer = &mut self.computers[at];
        let Some(host) = &computer.host else { return Ok(()) };
        if let Some(failure) = host.calls().failure() {
            return Err(failure.clone());
        }
        let made = host.calls().take_made();
        if computer.faulty {
            return Ok(());
        }
        let mut grown = computer.looked == 1;
        for one in &made {
            let committed = matches!(one.call, Call::Commit | Call::Guest { call: GuestCall::Commit, .. });
            grown |= committed && one.answer.is_ok();
            if let Call::Guest { caller, call } = &one.call {
                self.look_at_guest(at, *caller, call, &one.answer)?;
            }
        }
        if self.recording {
            for one in made {
                self.computers[at].calls.push((self.order, one));
                self.order += 1;
            }
        }
        if grown {
            self.look_at_chain(at)?;
        }
        Ok(())
    }

    fn look_at_chain(&mut self, at: usize) -> Result<(), Failure> {
        let computer = &self.computers[at];
        let Some(host) = computer.host.as_ref().filter(|_| !computer.faulty) else { return Ok(()) };
        self.chains.look_at_chain(host.engine())?;
        if self.plan.kind != Kind::Beyond {
            self.look_at_bound()?;
        }
        let computer = &mut self.computers[at];
        let Some(host) = &computer.host else { return Ok(()) };
        computer.looked = self.chains.look_at_committees(host.engine(), computer.looked)?;
        Ok(())
    }

    /// Whether the faulty members are within the bound after the newest block: that is the plan's to see to.
    fn look_at_bound(&self) -> Result<(), Failure> {
        let weights = self.chains.newest_weights();
        let faulty: u32 = Member::all_in(self.plan.faulty).map(|member| weights[member.index()]).sum();
        let block = self.chains.len() as u32;
        if faulty > self.plan.bound(weights.iter().sum()) {
            Err(Failure::BeyondBound { block })
        } else {
            Ok(())
        }
    }

    /// Whether a guest got what its rights give, and its port the listing.
    fn look_at_guest(
        &mut self, at: usize, caller: u32, call: &GuestCall, answer: &Result<Answer, Refusal>,
    ) -> Result<(), Failure> {
        let computer = &mut self.computers[at];
        let member = computer.member;
        let may = self.plan.rights.may(caller, right_of(call));
        let outside = caller as usize >= GUESTS;
        let expected = match answer {
            Err(Refusal::GuestRange) => outside,
            Err(Refusal::NoRight) => !outside && !may,
            _ => !outside && may,
        };
        if !expected {
            return Err(Failure::Right { member, caller });
        }
        let (GuestCall::PortRead { offset: OFFSET_DATA }, Ok(Answer::Byte(byte))) = (call, answer) else {
            return Ok(());
        };
        let Some(host) = &computer.host else { return Ok(()) };
        let listing = self.chains.listing(host.engine().blocks());
        let received = &mut computer.received[caller as usize];
        let expected = listing.get(*received).copied();
        *received += usize::from(expected.is_some());
        let right = *byte == expected.unwrap_or(0);
        if right {
            Ok(())
        } else {
            Err(Failure::Port { member, guest: caller })
        }
    }
}

/// What a transport is to hand over.
fn meant(packet: &Packet) -> Input {
    match packet.message.clone() {
        Message::Proposal(proposal) => Input::Proposal(proposal),
        Message::Endorsement(proposal) => Input::Endorsement { by: packet.from, proposal },
        Message::Certificates(row) => Input::Certificates(row),
        Message::Question { lowest } => Input::Question { from: packet.from, lowest },
    }
}

fn right_of(call: &GuestCall) -> Right {
    match call {
        GuestCall::Propose { .. } | GuestCall::Draw { .. } | GuestCall::Enqueue(_) => Right::Propose,
        GuestCall::Endorse(_) | GuestCall::Certify { .. } | GuestCall::Accept(_) | GuestCall::Batch(_) => Right::Sign,
        GuestCall::Advance | GuestCall::Commit => Right::Drive,
        _ => Right::Read,
    }
}

/// What is wrong with what came back: it must be what the store said was done, or what was being stored when power
/// failed.
fn came_back(loaded: &Result<Option<Kept>, String>, said: Option<&Kept>, tried: Option<&Kept>) -> Option<CameBack> {
    let expected = [said, tried].into_iter().flatten();
    match loaded {
        Ok(Some(kept)) => {
            let same = |pick: fn(&Kept, &Kept) -> bool| expected.clone().any(|one| pick(one, kept));
            if same(|one, kept| one == kept) {
                return None;
            }
            Some(if said.is_some_and(|said| kept.count < said.count) {
                CameBack::Earlier(kept.count)
            } else if same(|one, kept| one.state == kept.state && one.table == kept.table) {
                CameBack::NoEndorsements
            } else if same(|one, kept| one.state == kept.state && one.count == kept.count) {
                CameBack::StateWithoutTable
            } else if same(|one, kept| one.table == kept.table && one.count == kept.count) {
                CameBack::TableWithoutState
            } else {
                CameBack::OtherWords
            })
        }
        Ok(None) => said.map(|_| CameBack::Nothing),
        Err(why) => said.map(|_| CameBack::Unreadable(why.clone())),
    }
}
