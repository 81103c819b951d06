//! A run: what comes to whom in which order, by chance, until the ceiling.

use crate::act::{Act, Event, Fails, Packet};
use crate::calls::Entry;
use crate::chance::{mixed, Chance};
use crate::failure::Failure;
use crate::kind::Kind;
use crate::list::List;
use crate::plan::Plan;
use crate::world::{Parts, Sent, World};
use forgelilac::layout::{GUESTS, OFFSETS, OFFSET_DATA, OFFSET_LINE};
use forgelilac::ready::{GuestCall, Message};
use forgelilac::{Member, Refusal, Round, Set, Transaction};
use std::cmp::Reverse;
use std::collections::BinaryHeap;
use std::rc::Rc;

/// Units of time between two ticks of a computer.
const TICK: u64 = 16;

/// What a run came to.
#[derive(Clone, Debug)]
pub struct Outcome {
    /// How many steps.
    pub steps: u32,
    /// What went wrong.
    pub failure: Option<Failure>,
    /// The lowest round in which a correct member is at the end.
    pub lowest: Round,
    /// Blocks of the longest chain.
    pub blocks: usize,
    /// The most rounds between two blocks.
    pub widest: u32,
    /// Of how many places correct members have signed different proposals.
    pub split: usize,
    /// Whether all correct members came to the ceiling.
    pub finished: bool,
    /// The steps, in order.
    pub acts: Vec<Act>,
}

/// Plays a run.
///
/// # Errors
/// What the open answers to a sheet that it refuses: no plan's.
pub fn play(plan: &Plan, parts: &dyn Parts) -> Result<Outcome, Refusal> {
    Ok(Run::new(plan, parts)?.play())
}

/// The accepted calls that the words of correct members are of after these steps.
///
/// # Errors
/// As [`play`].
pub fn recorded(plan: &Plan, parts: &dyn Parts, acts: &[Act]) -> Result<Vec<Entry>, Refusal> {
    let mut world = World::new(plan, parts)?.recording();
    acts.iter().for_each(|act| drop(world.apply(act)));
    Ok(world.recorded())
}

/// All calls that the words of correct members are of after these steps, what each answered, and these words.
///
/// # Errors
/// As [`play`].
pub fn listed(plan: &Plan, parts: &dyn Parts, acts: &[Act]) -> Result<List, Refusal> {
    let mut world = World::new(plan, parts)?.recording();
    acts.iter().for_each(|act| drop(world.apply(act)));
    world.listed()
}

/// What happens next, and when.
#[derive(Debug)]
enum Next {
    Tick(usize),
    Message(usize, Rc<Packet>),
    Power(usize),
    Parts,
}

struct Run<'a> {
    plan: &'a Plan,
    world: World<'a>,
    chance: Chance,
    /// What is to come by time and order; where it stands in `next`.
    queue: BinaryHeap<Reverse<(u64, u64, usize)>>,
    next: Vec<Option<Next>>,
    free: Vec<usize>,
    order: u64,
    now: u64,
    acts: Vec<Act>,
    /// Members of one part; the others are the other one. None while all hear one another.
    part: Option<Set>,
    /// A message that was sent lately, for lies.
    lately: Option<Rc<Packet>>,
    entries: u32,
}

impl<'a> Run<'a> {
    fn new(plan: &'a Plan, parts: &'a dyn Parts) -> Result<Run<'a>, Refusal> {
        let world = World::new(plan, parts)?;
        let chance = Chance::new(mixed(plan.seed.wrapping_add(0x51)));
        let mut run = Run {
            plan,
            world,
            chance,
            queue: BinaryHeap::new(),
            next: Vec::new(),
            free: Vec::new(),
            order: 0,
            now: 0,
            acts: Vec::new(),
            part: None,
            lately: None,
            entries: 0,
        };
        for at in 0..run.world.computers().len() {
            let first = u64::from(run.chance.below(TICK as u32));
            run.put(first, Next::Tick(at));
        }
        if plan.kind.has(Kind::Partitions) {
            run.put(TICK, Next::Parts);
        }
        if plan.kind == Kind::Beyond {
            run.part = Some(plan.sides);
        }
        Ok(run)
    }

    fn play(mut self) -> Outcome {
        while self.acts.len() < self.plan.steps as usize && self.world.failure().is_none() && !self.is_over() {
            let Some(Reverse((time, _, place))) = self.queue.pop() else { break };
            self.now = time;
            self.free.push(place);
            match self.next[place].take() {
                Some(Next::Tick(at)) => self.tick(at),
                Some(Next::Message(at, packet)) => self.act(at, Event::Message(packet)),
                Some(Next::Power(at)) => self.act(at, Event::PowerReturns),
                Some(Next::Parts) => self.fall_apart(),
                None => {}
            }
        }
        let lowest = self.correct().map(|at| self.round(at)).min().unwrap_or_default();
        Outcome {
            steps: self.acts.len() as u32,
            failure: self.world.failure().cloned(),
            lowest,
            blocks: self.world.chains().len(),
            widest: self.world.chains().widest(),
            split: self.world.keys().split(),
            finished: self.is_over(),
            acts: self.acts,
        }
    }

    fn put(&mut self, later: u64, next: Next) {
        let place = self.free.pop().unwrap_or_else(|| {
            self.next.push(None);
            self.next.len() - 1
        });
        self.next[place] = Some(next);
        self.order += 1;
        self.queue.push(Reverse((self.now + later, self.order, place)));
    }

    /// Whether nothing goes wrong any more.
    fn is_calm(&self) -> bool {
        self.acts.len() >= self.plan.calm as usize
    }

    fn correct(&self) -> impl Iterator<Item = usize> + '_ {
        let computers = self.world.computers().iter().enumerate();
        computers.filter(|(_, computer)| !computer.faulty).map(|(at, _)| at)
    }

    fn round(&self, at: usize) -> Round {
        self.world.computers()[at].engine().map_or(Round::new(0), |engine| engine.round())
    }

    /// Whether all correct members are at the ceiling.
    fn is_over(&self) -> bool {
        let ceiling = self.plan.sheet.ceiling.unwrap_or_default();
        self.acts.len() % 16 == 0 && self.correct().all(|at| self.round(at) == ceiling)
    }

    fn act(&mut self, at: usize, event: Event) {
        let failing = !self.is_calm() && !self.world.computers()[at].faulty && event != Event::PowerReturns;
        let fails = (failing && self.chance.in_thousand(self.plan.power))
            .then(|| Fails { after: self.chance.below(6), tear: self.chance.number() });
        let act = Act { at, event, fails };
        let sent = self.world.apply(&act);
        self.acts.push(act);
        if fails.is_some() {
            let later = TICK * u64::from(self.chance.between(1, 20));
            self.put(later, Next::Power(at));
        }
        sent.into_iter().for_each(|sent| self.send(at, sent));
    }

    fn tick(&mut self, at: usize) {
        let wait = TICK - 2 + u64::from(self.chance.below(5));
        if self.world.computers()[at].faulty {
            self.put(wait / 2, Next::Tick(at));
            self.play_a_part(at);
        } else {
            self.put(wait, Next::Tick(at));
        }
        self.act(at, Event::Tick);
        // Beyond the bound the two parts are enough.
        let lying = self.world.computers()[at].faulty && self.plan.kind != Kind::Beyond;
        if lying && self.chance.in_thousand(300) {
            self.lie(at);
        }
        let busy = if self.plan.kind.has(Kind::Guests) { 600 } else { 150 };
        if self.chance.in_thousand(busy) {
            self.guest_turn(at);
        }
        if self.plan.kind.has(Kind::Weights) && self.chance.in_thousand(200) {
            let guest = self.chance.below(GUESTS as u32);
            let transaction = self.plan.wanted(&mut self.chance);
            self.act(at, Event::Enqueue { guest, transaction });
        }
        // Of the two parts that a faulty member plays one wants itself in.
        if lying && self.chance.in_thousand(100) {
            let member = self.world.computers()[at].member;
            self.act(at, Event::Enqueue { guest: 0, transaction: Transaction::Bond { member, amount: 1_000 } });
        }
    }

    /// The two parts of a faulty member have something else to propose in each round, and neither waits for its own
    /// certificate, which the other keeps from it.
    fn play_a_part(&mut self, at: usize) {
        self.entries += 1;
        let transaction = Transaction::Entry { number: self.entries };
        self.act(at, Event::Enqueue { guest: 1, transaction });
        self.act(at, Event::Guest { caller: 0, call: GuestCall::Advance });
    }

    // ---- links

    fn send(&mut self, from: usize, (to, packet): Sent) {
        if self.chance.in_thousand(100) {
            self.lately = Some(packet.clone());
        }
        for at in 0..self.world.computers().len() {
            let member = self.world.computers()[at].member;
            // The parts of a faulty member hear of one another's certificates, so that neither waits for its own.
            let other = at != from && (member != packet.from || matches!(packet.message, Message::Certificates(_)));
            if other && to.is_none_or(|to| to == member) && self.is_linked(from, at) {
                self.post(at, &packet);
            }
        }
    }

    /// Whether a message goes from one computer to another.
    fn is_linked(&mut self, from: usize, to: usize) -> bool {
        let in_part = |run: &Run<'_>, at: usize, part: Set| {
            let computer = &run.world.computers()[at];
            if computer.faulty {
                // Each of its two parts is on one side.
                (at < run.plan.computers as usize) == (part & 1 == 1)
            } else {
                part & computer.member.bit() != 0
            }
        };
        let beyond = self.plan.kind == Kind::Beyond;
        if let Some(part) = self.part.filter(|_| beyond || !self.is_calm()) {
            if in_part(self, from, part) != in_part(self, to, part) {
                return false;
            }
        }
        let computers = self.world.computers();
        let (sender, receiver) = (&computers[from], &computers[to]);
        if beyond || !sender.faulty && !receiver.faulty {
            return true;
        }
        // Both parts of a faulty member hear all. The first talks mostly to the members of one side, the second to the
        // others.
        let first = from < self.plan.computers as usize;
        let on_side = self.plan.sides & receiver.member.bit() != 0;
        !sender.faulty || first == on_side || self.chance.in_thousand(250)
    }

    fn post(&mut self, at: usize, packet: &Rc<Packet>) {
        let calm = self.is_calm();
        if !calm && self.chance.in_thousand(self.plan.loss) {
            return;
        }
        let copies = if !calm && self.chance.in_thousand(self.plan.double) { 2 } else { 1 };
        for _ in 0..copies {
            let late = !calm && self.chance.in_thousand(self.plan.late);
            let delay =
                if late { self.chance.between(TICK as u32, 12 * TICK as u32) } else { self.chance.between(1, 6) };
            self.put(u64::from(delay), Next::Message(at, packet.clone()));
        }
    }

    /// The plant falls into two parts, or heals.
    fn fall_apart(&mut self) {
        let whole = self.part.is_some() || self.is_calm();
        self.part = if whole { None } else { Some(self.chance.number() as Set) };
        let ticks = self.chance.between(2, 40);
        self.put(TICK * u64::from(ticks), Next::Parts);
    }

    // ---- guests

    fn guest_turn(&mut self, at: usize) {
        let caller = self.chance.below(GUESTS as u32);
        self.entries += 1;
        let entry = Transaction::Entry { number: self.entries };
        if !self.plan.kind.has(Kind::Guests) {
            return self.act(at, Event::Enqueue { guest: caller, transaction: entry });
        }
        let caller = if self.chance.in_thousand(20) { 8 } else { caller };
        for _ in 0..self.chance.between(1, 12) {
            let call = self.guest_call(at, entry);
            self.act(at, Event::Guest { caller, call });
        }
    }

    fn guest_call(&mut self, at: usize, entry: Transaction) -> GuestCall {
        let engine = self.world.computers()[at].engine();
        let previous = engine.map_or(0, |engine| engine.held(engine.round().before()));
        match self.chance.below(20) {
            0..=3 => GuestCall::Enqueue(entry),
            4 => GuestCall::Draw { previous },
            5 => GuestCall::Propose { previous, transactions: vec![entry] },
            6 => GuestCall::Advance,
            7 => GuestCall::Commit,
            // Nobody has the right to sign: what a guest signs is its host's signature.
            8 => GuestCall::Certify { endorsers: Set::MAX },
            // The divisor is left alone, so that offset 0 is the listing's.
            9 => GuestCall::PortWrite { offset: OFFSET_LINE, value: self.chance.below(128) as u8 },
            10 => GuestCall::PortRead { offset: self.chance.below(OFFSETS + 2) },
            _ => GuestCall::PortRead { offset: OFFSET_DATA },
        }
    }

    // ---- lies

    /// A message that no correct member sends: another's words changed, or in another's name.
    fn lie(&mut self, at: usize) {
        let Some(packet) = self.lately.clone() else { return };
        let own = self.world.computers()[at].member;
        let mut message = packet.message.clone();
        let chance = &mut self.chance;
        match &mut message {
            Message::Proposal(one) | Message::Endorsement(one) => match chance.below(4) {
                0 => one.previous = chance.number() as Set,
                1 => one.round = Round::new(chance.below(20)),
                2 => one.author = Member::new(chance.below(17)),
                _ => one.transactions.push(Transaction::Entry { number: chance.below(1_000) }),
            },
            Message::Certificates(row) => {
                for one in row {
                    match chance.below(3) {
                        0 => one.proposal.transactions.push(Transaction::Entry { number: chance.below(1_000) }),
                        1 => one.proposal.previous ^= 1 << chance.below(16),
                        _ => one.endorsers = chance.number() as Set & !one.proposal.author.bit(),
                    }
                }
            }
            Message::Question { lowest } => *lowest = Round::new(chance.below(2_000)),
        }
        let signer = Member::new(chance.below(self.plan.members));
        let damaged = chance.in_thousand(200);
        let mut bytes = self.world.pack(at, signer, &message);
        if damaged && !bytes.is_empty() {
            let place = self.chance.below(bytes.len() as u32) as usize;
            bytes[place] = self.chance.below(256) as u8;
        }
        let lie = Rc::new(Packet { from: own, sincere: false, message, bytes });
        let to = self.chance.below(self.world.computers().len() as u32) as usize;
        self.post(to, &lie);
    }
}
