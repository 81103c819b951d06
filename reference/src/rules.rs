//! The rules of docs/RULES.md, without anything of the engine.
//!
//! Plain on purpose. A refusal is the rules' number, so `Err(12)` below is
//! their "12". Each call comes as a pair: `may_...` makes the checks in
//! the rules' order and changes nothing; the call itself makes them and then
//! does the change. A refused call therefore leaves the state as it was.

use crate::Port;
use std::cmp::Ordering;
use std::collections::VecDeque;

/// Refusal numbers are those of the rules.
pub type Answer<T> = Result<T, u32>;

// ---------------------------------------------------------------- terms ---

/// Members are 0 to 15.
pub const MEMBERS: u32 = 16;

/// The most certificate records of a batch (docs/RULES.md, "Batches").
pub const MOST_RECORDS: usize = 64;

/// The words of an entry of a preview: block number, certificate round and
/// author (docs/RULES.md, "Preview").
pub const ENTRY: usize = 3;

/// The words of a place in the list of what a commit hangs on: certificate round
/// and author; and how many places are asked for (docs/RULES.md, "What a commit hangs on").
pub const PAIR: usize = 2;
pub const PAIRS: usize = 32;

/// The words of what a bond does to the shares: sixteen before it, sixteen after it,
/// and the largest difference (docs/RULES.md, "How far a bond moves the shares").
pub const EFFECT: usize = 33;

/// Guests are 0 to 7, and each has a queue of eight transactions (docs/RULES.md, "Guests' queues").
pub const GUESTS: u32 = 8;
pub const QUEUE: usize = 8;

/// A set of members: member i counts 2 to the power i.
pub type Set = u16;

pub fn in_set(set: Set, member: u32) -> bool {
    member < MEMBERS && set >> member & 1 == 1
}

pub fn single(member: u32) -> Set {
    1 << member
}

/// The members of a set, by rising number.
pub fn members_of(set: Set) -> impl Iterator<Item = u32> {
    (0..MEMBERS).filter(move |&m| in_set(set, m))
}

#[derive(Clone, Copy, PartialEq, Eq, Debug)]
pub enum Transaction {
    Bond { member: u32, amount: u32 },
    Unbond { member: u32 },
    Entry { number: u32 },
}

impl Transaction {
    pub fn in_range(&self) -> bool {
        match *self {
            Transaction::Bond { member, amount } => {
                member < MEMBERS && (1..=1_000).contains(&amount)
            }
            Transaction::Unbond { member } => member < MEMBERS,
            Transaction::Entry { .. } => true,
        }
    }
}

#[derive(Clone, PartialEq, Eq, Debug)]
pub struct Proposal {
    pub author: u32,
    pub round: u32,
    /// Authors of certificates one round earlier.
    pub previous: Set,
    pub transactions: Vec<Transaction>,
}

/// Two certificates are the same when the proposals are equal.
#[derive(Clone, Debug)]
pub struct Certificate {
    pub proposal: Proposal,
    pub endorsers: Set,
}

impl Certificate {
    pub fn same_as(&self, other: &Certificate) -> bool {
        self.proposal == other.proposal
    }

    /// Author and endorsers. Only asked once the author is known to be 0 to 15.
    pub fn signers(&self) -> Set {
        self.endorsers | single(self.proposal.author)
    }
}

// ---------------------------------------------------------------- sheet ---

#[derive(Clone, Copy, PartialEq, Eq, Debug)]
pub enum Setting {
    Blank,
    Written(u32),
}

#[derive(Clone, Copy, PartialEq, Eq, Debug)]
pub struct Sheet {
    pub lookback: Setting,
    pub ceiling: Setting,
    pub allowance: Setting,
    pub weights: [Setting; 16],
    /// Of the fault bound.
    pub margin: Setting,
}

#[derive(Clone, PartialEq, Eq, Debug)]
pub struct Settings {
    pub lookback: u32,
    pub ceiling: u32,
    pub allowance: u32,
    pub weights: Committee,
    pub margin: u32,
}

impl Sheet {
    pub fn all_blank() -> Sheet {
        Sheet {
            lookback: Setting::Blank,
            ceiling: Setting::Blank,
            allowance: Setting::Blank,
            weights: [Setting::Blank; 16],
            margin: Setting::Blank,
        }
    }

    /// Fills the blanks; 2 for a setting out of range.
    pub fn fill(&self) -> Answer<Settings> {
        fn one(setting: Setting, low: u32, high: u32, blank: u32) -> Answer<u32> {
            match setting {
                Setting::Blank => Ok(blank),
                Setting::Written(n) if low <= n && n <= high => Ok(n),
                Setting::Written(_) => Err(2),
            }
        }
        let lookback = one(self.lookback, 1, 1_000, 20)?;
        let ceiling = one(self.ceiling, 3, 1_024, 1_024)?;
        let allowance = one(self.allowance, 0, 4, 4)?;
        let mut weights = [0; 16];
        for m in 0..16 {
            let blank = if m <= 3 { 1 } else { 0 };
            weights[m] = u64::from(one(self.weights[m], 0, 1_000_000, blank)?);
        }
        let margin = one(self.margin, 3, 5, 3)?;
        Ok(Settings { lookback, ceiling, allowance, weights, margin })
    }
}

// ----------------------------------------- committees, quorums, leaders ---

/// Sixteen weights, 0 for a non-member.
pub type Committee = [u64; 16];

pub fn total(committee: &Committee) -> u64 {
    committee.iter().sum()
}

/// Of total weight n, by a margin of 3 to 5 (docs/RULES.md, "Weights").
pub fn fault_bound(n: u64, margin: u32) -> u64 {
    if n == 0 { 0 } else { (n - 1) / u64::from(margin) }
}

pub fn quorum_weight(n: u64, margin: u32) -> u64 {
    n - fault_bound(n, margin)
}

/// What a set weighs in a committee; those outside weigh nothing.
pub fn weight_of(set: Set, committee: &Committee) -> u64 {
    members_of(set).map(|m| committee[m as usize]).sum()
}

pub fn inside(set: Set, committee: &Committee) -> bool {
    members_of(set).all(|m| committee[m as usize] > 0)
}

pub fn is_quorum(set: Set, committee: &Committee, margin: u32) -> bool {
    inside(set, committee) && weight_of(set, committee) >= quorum_weight(total(committee), margin)
}

/// The leader of an even round; an empty committee has none.
pub fn leader(round: u32, committee: &Committee) -> Option<u32> {
    let members: Vec<u32> = (0..MEMBERS).filter(|&m| committee[m as usize] > 0).collect();
    if members.is_empty() {
        return None;
    }
    Some(members[(round / 2) as usize % members.len()])
}

/// Weight in thousandths of the total (docs/RULES.md, "Shares"): the nearest; of two that are
/// equally near, the even one. Only asked of a committee with a member in it.
pub fn thousandths(weight: u64, n: u64) -> u64 {
    let (below, rest) = (1_000 * weight / n, 1_000 * weight % n);
    let above = below + 1;
    match (2 * rest).cmp(&n) {
        Ordering::Less => below,
        Ordering::Greater => above,
        Ordering::Equal => if below % 2 == 0 { below } else { above },
    }
}

/// The same once more, by search and without a division: of 0 to 1,000 the one of
/// which the weight is no further than half a thousandth of n, and at an exact half
/// the even one.
pub fn nearest_thousandth(weight: u64, n: u64) -> u64 {
    let n = u128::from(n);
    // Twice n times the distance.
    let off = |s: u64| (2_000 * u128::from(weight)).abs_diff(2 * u128::from(s) * n);
    let is_share = |s: &u64| off(*s) < n || off(*s) == n && s % 2 == 0;
    (0..=1_000).find(is_share).expect("a weight that is no more than the total")
}

/// What a bond does to the shares (docs/RULES.md, "How far a bond moves the shares"): all
/// sixteen before it and after it, 0 for a non-member, and the largest difference, of a rise or of a fall.
#[derive(Clone, Copy, PartialEq, Eq, Debug)]
pub struct Effect {
    pub before: [u64; 16],
    pub after: [u64; 16],
    pub largest: u64,
}

impl Effect {
    /// Of two committees that are not empty.
    pub fn between(before: &Committee, after: &Committee) -> Effect {
        let shares = |of: &Committee| of.map(|weight| nearest_thousandth(weight, total(of)));
        let (before, after) = (shares(before), shares(after));
        let moved = before.iter().zip(&after).map(|(one, other)| one.abs_diff(*other));
        Effect { before, after, largest: moved.max().expect("sixteen of them") }
    }

    pub fn words(&self) -> [u32; EFFECT] {
        let all = self.before.iter().chain(&self.after).chain([&self.largest]);
        let words: Vec<u32> = all.map(|&word| word as u32).collect();
        words.try_into().expect("sixteen, sixteen and one")
    }
}

/// What the largest difference never exceeds: of total n before a bond of k.
pub fn most_moved(n: u64, k: u32) -> u64 {
    1 + 1_000 * u64::from(k) / (n + u64::from(k))
}

/// What one transaction of a block does to the bonded committee.
pub fn change(committee: &mut Committee, transaction: &Transaction) {
    match *transaction {
        Transaction::Bond { member, amount } => committee[member as usize] += u64::from(amount),
        Transaction::Unbond { member } => committee[member as usize] = 0,
        Transaction::Entry { .. } => {}
    }
}

// ------------------------------------------------------ who may do what ---

/// The four rights (docs/RULES.md, "Rights").
#[derive(Clone, Copy, PartialEq, Eq, Debug)]
pub enum Right {
    Propose,
    Sign,
    Drive,
    Read,
}

/// Which rights each caller of 0 to 7 has, in the order of `Right`.
pub type Rights = [[bool; 4]; GUESTS as usize];

/// Nobody has one.
pub const NO_RIGHTS: Rights = [[false; 4]; GUESTS as usize];

/// What a guest can ask for. It never opens, and resets no port.
#[derive(Clone, Copy, PartialEq, Eq, Debug)]
pub enum Request {
    Propose,
    Draw,
    Enqueue,
    Endorse,
    Certify,
    Accept,
    Batch,
    Advance,
    Commit,
    Committee,
    Share,
    Certificate,
    Block,
    Preview,
    Critical,
    Effect,
    PortRead,
    PortWrite,
}

impl Request {
    /// The right that it needs.
    pub fn needs(self) -> Right {
        match self {
            Request::Propose | Request::Draw | Request::Enqueue => Right::Propose,
            Request::Endorse | Request::Certify | Request::Accept | Request::Batch => Right::Sign,
            Request::Advance | Request::Commit => Right::Drive,
            Request::Committee | Request::Share | Request::Certificate | Request::Block => Right::Read,
            Request::Preview | Request::Critical => Right::Read,
            Request::Effect => Right::Read,
            Request::PortRead | Request::PortWrite => Right::Read,
        }
    }
}

/// 26 for a caller above 7, then 29 for a missing right. Nothing but the rights is
/// looked at: it can be asked where no state is well formed.
pub fn may_ask(rights: &Rights, caller: u32, request: Request) -> Answer<()> {
    let of_caller = rights.get(caller as usize).ok_or(26u32)?;
    if !of_caller[request.needs() as usize] {
        return Err(29);
    }
    Ok(())
}

// ------------------------------------------------------- a member's state ---

#[derive(Clone, Debug)]
pub struct Held {
    /// With the endorsers it was first stored with.
    pub certificate: Certificate,
    /// The number of its block, 0 for none.
    pub block: u32,
}

#[derive(Clone, Debug)]
pub struct Block {
    /// The round of its anchor.
    pub round: u32,
    /// (round, author), in the order of `put_in_order`.
    pub certificates: Vec<(u32, u32)>,
    /// The starting committee changed by all blocks up to and with this one.
    pub after: Committee,
}

/// docs/RULES.md, "Order inside a block": rounds rise; within a round numbers
/// rise from that of the leader of the block's round, with 0 after 15. Where
/// that round has no leader, numbers just rise.
pub fn put_in_order(certificates: &mut [(u32, u32)], leader: Option<u32>) {
    let first = leader.unwrap_or(0);
    certificates.sort_by_key(|&(round, author)| (round, (author + MEMBERS - first) % MEMBERS));
}

/// The starting committee changed by all blocks of a chain of rounds below s.
pub fn bonded_by<'a>(settings: &'a Settings, chain: &'a [Block], s: u32) -> &'a Committee {
    let below = chain.partition_point(|b| b.round < s);
    if below == 0 { &settings.weights } else { &chain[below - 1].after }
}

/// The leader of a block's round, by the chain below the block. A block of its
/// round or a later one changes no committee of its round, so the whole chain
/// tells the same. Where the leader's certificate is held it is the anchor.
pub fn block_leader(settings: &Settings, below: &[Block], round: u32) -> Option<u32> {
    if round <= settings.lookback {
        leader(round, &settings.weights)
    } else {
        leader(round, bonded_by(settings, below, round - settings.lookback))
    }
}

impl Block {
    /// The block of these certificates on the chain below it: in order, and
    /// with what their transactions, applied in that order, make of the weights.
    pub fn on(
        below: &[Block],
        settings: &Settings,
        round: u32,
        mut certificates: Vec<(u32, u32)>,
        held: &[Option<Held>],
    ) -> Block {
        put_in_order(&mut certificates, block_leader(settings, below, round));
        let mut after = below.last().map_or(settings.weights, |b| b.after);
        for &(r, a) in &certificates {
            let there = held[place(a, r)].as_ref().expect("a block's certificates are held");
            for t in &there.certificate.proposal.transactions {
                change(&mut after, t);
            }
        }
        Block { round, certificates, after }
    }
}

/// What waits, by guest: the oldest transaction first (docs/RULES.md, "Guests' queues").
pub type Queues = [VecDeque<Transaction>; GUESTS as usize];

#[derive(Clone, Debug)]
pub struct Member {
    pub own: u32,
    pub settings: Settings,
    pub round: u32,
    pub proposal: Option<Proposal>,
    /// Certificates by place; see `place`.
    pub held: Vec<Option<Held>>,
    pub endorsed: Vec<bool>,
    pub chain: Vec<Block>,
    pub queues: Queues,
    /// The guest served last.
    pub served: Option<u32>,
    /// Fixed by the open (docs/RULES.md, "Rights").
    pub rights: Rights,
    /// By guest (docs/RULES.md, "Serial ports").
    pub ports: [Port; GUESTS as usize],
}

/// Places by round, then author: 16 to a round, the first round is 1.
fn place(author: u32, round: u32) -> usize {
    ((round - 1) * MEMBERS + author) as usize
}

/// Authors by round: `history[r]` is the set of authors of round r in it.
pub type History = Vec<Set>;

impl Member {
    /// Open, with a right for nobody.
    pub fn open(own: u32, sheet: &Sheet, serves: u32) -> Answer<Member> {
        Member::open_with(own, sheet, &NO_RIGHTS, serves)
    }

    /// Open. `serves` is the largest ceiling the lent tables have room for. Any
    /// rights will do.
    pub fn open_with(own: u32, sheet: &Sheet, rights: &Rights, serves: u32) -> Answer<Member> {
        if own >= MEMBERS {
            return Err(4);
        }
        let settings = sheet.fill()?; // 2
        if settings.weights.iter().all(|&w| w == 0) {
            return Err(3);
        }
        if settings.ceiling > serves {
            return Err(1);
        }
        let places = (settings.ceiling * MEMBERS) as usize;
        Ok(Member {
            own,
            settings,
            round: 1,
            proposal: None,
            held: vec![None; places],
            endorsed: vec![false; places],
            chain: Vec::new(),
            queues: Queues::default(),
            served: None,
            rights: *rights,
            ports: [Port::default(); GUESTS as usize],
        })
    }

    // ---- plain looks at the state

    pub fn own(&self) -> u32 {
        self.own
    }
    pub fn settings(&self) -> &Settings {
        &self.settings
    }
    pub fn round(&self) -> u32 {
        self.round
    }
    pub fn proposal(&self) -> Option<&Proposal> {
        self.proposal.as_ref()
    }
    pub fn chain(&self) -> &[Block] {
        &self.chain
    }

    /// How many transactions wait in the queue of a guest of 0 to 7.
    pub fn waiting(&self, guest: u32) -> usize {
        self.queues[guest as usize].len()
    }

    /// The certificate held at a place that is in range.
    pub fn held_at(&self, author: u32, round: u32) -> Option<&Held> {
        self.held[place(author, round)].as_ref()
    }
    pub fn is_held(&self, author: u32, round: u32) -> bool {
        self.held_at(author, round).is_some()
    }
    pub fn is_endorsed(&self, author: u32, round: u32) -> bool {
        self.endorsed[place(author, round)]
    }

    /// The authors whose certificates of a round are held; none in round 0.
    pub fn held_authors(&self, round: u32) -> Set {
        let mut set = 0;
        if (1..=self.settings.ceiling).contains(&round) {
            for a in 0..MEMBERS {
                if self.is_held(a, round) {
                    set |= single(a);
                }
            }
        }
        set
    }

    /// 0 for none.
    pub fn last_block_round(&self) -> u32 {
        self.chain.last().map_or(0, |b| b.round)
    }

    // ---- committees

    /// The starting committee changed by all blocks of rounds below s;
    /// nothing when it is not known.
    pub fn bonded_committee(&self, s: u32) -> Option<&Committee> {
        if s > self.last_block_round() + 2 {
            return None;
        }
        Some(bonded_by(&self.settings, &self.chain, s))
    }

    /// The committee of a round, nothing when it is not known.
    pub fn committee_of(&self, r: u32) -> Option<&Committee> {
        if r <= self.settings.lookback {
            Some(&self.settings.weights)
        } else {
            self.bonded_committee(r - self.settings.lookback)
        }
    }

    // ---- votes and signers, weighed by one's own margin (docs/RULES.md, "Weights")

    pub fn fault_bound(&self, committee: &Committee) -> u64 {
        fault_bound(total(committee), self.settings.margin)
    }

    pub fn is_quorum(&self, set: Set, committee: &Committee) -> bool {
        is_quorum(set, committee, self.settings.margin)
    }

    // ---- checks that several calls share

    fn round_in_range(&self, round: u32) -> bool {
        1 <= round && round <= self.settings.ceiling
    }

    fn transactions_fit(&self, transactions: &[Transaction]) -> bool {
        transactions.len() <= self.settings.allowance as usize
            && transactions.iter().all(|t| t.in_range())
    }

    fn all_held(&self, authors: Set, round: u32) -> bool {
        members_of(authors).all(|a| self.is_held(a, round))
    }

    // ---- propose

    pub fn may_propose(&self, previous: Set, transactions: &[Transaction]) -> Answer<()> {
        let r = self.round;
        if !self.transactions_fit(transactions) {
            return Err(6);
        }
        if (previous == 0) != (r == 1) {
            return Err(7);
        }
        if self.proposal.is_some() || self.is_held(self.own, r) {
            return Err(10);
        }
        let committee = self.committee_of(r).ok_or(8u32)?;
        if committee[self.own as usize] == 0 {
            return Err(9);
        }
        if r > 1 {
            if !self.all_held(previous, r - 1) {
                return Err(11);
            }
            // The round before is known whenever the round is.
            let before = self.committee_of(r - 1).ok_or(8u32)?;
            if !self.is_quorum(previous, before) {
                return Err(12);
            }
        }
        Ok(())
    }

    pub fn propose(&mut self, previous: Set, transactions: &[Transaction]) -> Answer<()> {
        self.may_propose(previous, transactions)?;
        self.proposal = Some(Proposal {
            author: self.own,
            round: self.round,
            previous,
            transactions: transactions.to_vec(),
        });
        Ok(())
    }

    // ---- queues (docs/RULES.md, "Guests' queues")

    pub fn may_enqueue(&self, guest: u32, transaction: &Transaction) -> Answer<()> {
        if guest >= GUESTS {
            return Err(26);
        }
        if !transaction.in_range() {
            return Err(6);
        }
        if self.waiting(guest) >= QUEUE {
            return Err(27);
        }
        Ok(())
    }

    /// Adds a transaction to a guest's queue, as its youngest.
    pub fn enqueue(&mut self, guest: u32, transaction: &Transaction) -> Answer<()> {
        self.may_enqueue(guest, transaction)?;
        self.queues[guest as usize].push_back(*transaction);
        Ok(())
    }

    /// The guests in the order of a lap: from the one after the guest served
    /// last, at first from 0, with 0 after 7.
    fn lap(&self) -> impl Iterator<Item = u32> + Clone {
        let first = self.served.map_or(0, |guest| guest + 1);
        (0..GUESTS).map(move |step| (first + step) % GUESTS)
    }

    /// What a draw takes, and from whom, in order. Lap by lap: in the first
    /// one the oldest transaction of each guest that has one, in the next the
    /// second oldest of each that has two, and so on, as far as the allowance
    /// goes.
    pub fn drawn(&self) -> Vec<(u32, Transaction)> {
        let mut drawn = Vec::new();
        for nth in 0..QUEUE {
            for guest in self.lap() {
                if let Some(transaction) = self.queues[guest as usize].get(nth) {
                    drawn.push((guest, *transaction));
                }
            }
        }
        drawn.truncate(self.settings.allowance as usize);
        drawn
    }

    /// A draw is a propose of what is drawn.
    pub fn may_draw(&self, previous: Set) -> Answer<()> {
        let transactions: Vec<_> = self.drawn().into_iter().map(|(_, drawn)| drawn).collect();
        self.may_propose(previous, &transactions)
    }

    /// Accepted, what was drawn leaves its queues, and the guest of the last
    /// one becomes the guest served last; with nothing drawn that stays.
    pub fn draw(&mut self, previous: Set) -> Answer<()> {
        self.may_draw(previous)?;
        let (guests, transactions): (Vec<_>, Vec<_>) = self.drawn().into_iter().unzip();
        self.propose(previous, &transactions)?;
        for guest in guests {
            self.queues[guest as usize].pop_front();
            self.served = Some(guest);
        }
        Ok(())
    }

    // ---- endorse

    pub fn may_endorse(&self, p: &Proposal) -> Answer<()> {
        if p.author >= MEMBERS {
            return Err(4);
        }
        if !self.round_in_range(p.round) {
            return Err(5);
        }
        if !self.transactions_fit(&p.transactions) {
            return Err(6);
        }
        if (p.previous == 0) != (p.round == 1) {
            return Err(7);
        }
        if p.author == self.own {
            return Err(14);
        }
        if self.is_held(p.author, p.round) || self.is_endorsed(p.author, p.round) {
            return Err(10);
        }
        if p.round > 1 {
            let before = self.committee_of(p.round - 1).ok_or(8u32)?;
            if !self.all_held(p.previous, p.round - 1) {
                return Err(11);
            }
            if !self.is_quorum(p.previous, before) {
                return Err(12);
            }
        }
        Ok(())
    }

    pub fn endorse(&mut self, p: &Proposal) -> Answer<()> {
        self.may_endorse(p)?;
        self.endorsed[place(p.author, p.round)] = true;
        Ok(())
    }

    // ---- certify

    pub fn may_certify(&self, endorsers: Set) -> Answer<Certificate> {
        let Some(proposal) = &self.proposal else {
            return Err(15);
        };
        if self.is_held(self.own, self.round) {
            return Err(10);
        }
        if in_set(endorsers, self.own) {
            return Err(14);
        }
        let certificate = Certificate { proposal: proposal.clone(), endorsers };
        let committee = self.committee_of(self.round).ok_or(8u32)?;
        if !inside(certificate.signers(), committee) {
            return Err(9);
        }
        if !self.is_quorum(certificate.signers(), committee) {
            return Err(13);
        }
        Ok(certificate)
    }

    pub fn certify(&mut self, endorsers: Set) -> Answer<()> {
        let certificate = self.may_certify(endorsers)?;
        self.held[place(self.own, self.round)] = Some(Held { certificate, block: 0 });
        Ok(())
    }

    // ---- accept

    pub fn may_accept(&self, c: &Certificate) -> Answer<()> {
        let p = &c.proposal;
        if p.author >= MEMBERS {
            return Err(4);
        }
        if !self.round_in_range(p.round) {
            return Err(5);
        }
        if !self.transactions_fit(&p.transactions) {
            return Err(6);
        }
        if (p.previous == 0) != (p.round == 1) {
            return Err(7);
        }
        if in_set(c.endorsers, p.author) {
            return Err(14);
        }
        if let Some(there) = self.held_at(p.author, p.round) {
            return Err(if there.certificate.same_as(c) { 16 } else { 17 });
        }
        let committee = self.committee_of(p.round).ok_or(8u32)?;
        if !inside(c.signers(), committee) {
            return Err(9);
        }
        if !self.is_quorum(c.signers(), committee) {
            return Err(13);
        }
        if p.round > 1 && !self.all_held(p.previous, p.round - 1) {
            return Err(11);
        }
        Ok(())
    }

    pub fn accept(&mut self, c: &Certificate) -> Answer<()> {
        self.may_accept(c)?;
        let here = place(c.proposal.author, c.proposal.round);
        self.held[here] = Some(Held { certificate: c.clone(), block: 0 });
        self.endorsed[here] = false;
        Ok(())
    }

    // ---- batch (docs/RULES.md, "Batches")

    pub fn may_batch(&self, records: usize, room: usize) -> Answer<()> {
        if records > MOST_RECORDS || room < records {
            return Err(25);
        }
        Ok(())
    }

    /// Tries a row of certificates by rising round, then author, then place in
    /// the row, and writes what accept answers to each at its place. To a
    /// record whose words cannot be read, `None`, it answers 1 whenever it is
    /// asked, and leaves all as it was: so its turn may as well come first.
    pub fn batch(&mut self, row: &[Option<Certificate>], answers: &mut [u32]) -> Answer<()> {
        self.may_batch(row.len(), answers.len())?;
        let mut turns: Vec<usize> = (0..row.len()).collect();
        // A stable sort: of equals the lower place stays first.
        turns.sort_by_key(|&i| row[i].as_ref().map(|c| (c.proposal.round, c.proposal.author)));
        for i in turns {
            let answer = row[i].as_ref().map_or(Err(1), |certificate| self.accept(certificate));
            answers[i] = answer.err().unwrap_or(0);
        }
        Ok(())
    }

    // ---- advance

    /// No advance past a thin round (docs/RULES.md, "Advance"): the authors of the certificates
    /// held in the present round must form a quorum of its committee.
    pub fn may_advance(&self) -> Answer<()> {
        let r = self.round;
        if r == self.settings.ceiling {
            return Err(18);
        }
        let committee = self.committee_of(r).ok_or(8u32)?;
        if !self.is_quorum(self.held_authors(r), committee) {
            return Err(28);
        }
        Ok(())
    }

    pub fn advance(&mut self) -> Answer<()> {
        self.may_advance()?;
        self.round += 1;
        self.proposal = None;
        Ok(())
    }

    // ---- commit

    /// The author of the anchor of an even round: the leader, if its
    /// certificate is held.
    pub fn anchor(&self, round: u32) -> Option<u32> {
        let leader = leader(round, self.committee_of(round)?)?;
        if self.is_held(leader, round) { Some(leader) } else { None }
    }

    /// The certificate and, repeatedly, held certificates named as previous.
    pub fn history(&self, author: u32, round: u32) -> History {
        let mut history = vec![0; round as usize + 1];
        history[round as usize] = single(author);
        for r in (2..=round).rev() {
            let mut named = 0;
            for a in members_of(history[r as usize]) {
                if let Some(held) = self.held_at(a, r) {
                    named |= held.certificate.proposal.previous;
                }
            }
            history[r as usize - 1] = named & self.held_authors(r - 1);
        }
        history
    }

    /// The author of the anchor of the round before, if a commit would go.
    pub fn may_commit(&self) -> Answer<u32> {
        let r = self.round;
        if r % 2 == 0 || r == 1 {
            return Err(19);
        }
        if self.last_block_round() >= r - 1 {
            return Err(20);
        }
        let committee = self.committee_of(r).ok_or(8u32)?;
        let anchor = self.anchor(r - 1).ok_or(21u32)?;
        let mut votes = 0;
        for a in 0..MEMBERS {
            if let Some(held) = self.held_at(a, r) {
                if in_set(held.certificate.proposal.previous, anchor) {
                    votes += committee[a as usize];
                }
            }
        }
        if votes <= self.fault_bound(committee) {
            return Err(22);
        }
        Ok(anchor)
    }

    /// The number of blocks added.
    pub fn commit(&mut self) -> Answer<u32> {
        let anchor = self.may_commit()?;
        let last = self.last_block_round();

        // From that anchor back over even rounds above the last block's.
        let mut round = self.round - 1;
        let mut history = self.history(anchor, round);
        let mut taken = vec![(round, history.clone())];
        while round > last + 2 {
            round -= 2;
            if let Some(a) = self.anchor(round) {
                if in_set(history[round as usize], a) {
                    history = self.history(a, round);
                    taken.push((round, history.clone()));
                }
            }
        }

        // Oldest first, each makes a block.
        let count = taken.len() as u32;
        for (round, history) in taken.into_iter().rev() {
            let number = self.chain.len() as u32 + 1;
            let mut certificates = Vec::new();
            for r in 1..=round {
                for a in members_of(history[r as usize]) {
                    let held = self.held[place(a, r)].as_mut().expect("a history is held");
                    if held.block == 0 {
                        held.block = number;
                        certificates.push((r, a));
                    }
                }
            }
            self.chain.push(Block::on(&self.chain, &self.settings, round, certificates, &self.held));
        }
        Ok(count)
    }

    // ---- preview of commit (docs/RULES.md, "Preview")

    /// A place of the list is three words; what is left over is no place.
    pub fn may_preview(&self, words: usize) -> Answer<()> {
        if words / ENTRY < (MEMBERS * self.settings.ceiling) as usize {
            return Err(25);
        }
        self.may_commit().map(|_| ())
    }

    /// Commits on a copy and reads the new blocks: block number, certificate
    /// round and author of each of their certificates, in order. The rest of
    /// the list is kept. The answer is how many there are.
    pub fn preview(&self, list: &mut [u32]) -> Answer<u32> {
        self.may_preview(list.len())?;
        let mut copy = self.clone();
        copy.commit()?;
        let mut places = list.chunks_exact_mut(ENTRY);
        let mut count = 0;
        for (number, block) in (1..).zip(&copy.chain).skip(self.chain.len()) {
            for &(round, author) in &block.certificates {
                let place = places.next().expect("a place for each certificate of the ceiling");
                place.copy_from_slice(&[number, round, author]);
                count += 1;
            }
        }
        Ok(count)
    }

    // ---- what a commit hangs on (docs/RULES.md, "What a commit hangs on")

    /// The state with one held certificate absent: not held, and so in no block
    /// either. What the blocks make of the weights, and with it the order inside
    /// them, is worked out again. A port may have read past the end of what is then
    /// listed: that does not count (docs/RULES.md, "Serial ports").
    pub fn without(&self, author: u32, round: u32) -> Member {
        let mut copy = Member { chain: Vec::new(), ..self.clone() };
        copy.held[place(author, round)] = None;
        for block in &self.chain {
            let mut certificates = block.certificates.clone();
            certificates.retain(|&one| one != (round, author));
            copy.chain.push(Block::on(&copy.chain, &copy.settings, block.round, certificates, &copy.held));
        }
        copy
    }

    /// A place of the list is two words; one left over is no place.
    pub fn may_critical(&self, words: usize) -> Answer<()> {
        if words / PAIR < PAIRS {
            return Err(25);
        }
        self.may_commit().map(|_| ())
    }

    /// Takes each held certificate of the round before and of the present one
    /// away by itself, by round, then author, and lists those without which the
    /// commit would be refused. The rest of the list is kept. The answer is how
    /// many there are.
    pub fn critical(&self, list: &mut [u32]) -> Answer<u32> {
        self.may_critical(list.len())?;
        let mut places = list.chunks_exact_mut(PAIR);
        let mut count = 0;
        for round in [self.round - 1, self.round] {
            for author in members_of(self.held_authors(round)) {
                if self.without(author, round).may_commit().is_err() {
                    let place = places.next().expect("a place for each certificate of two rounds");
                    place.copy_from_slice(&[round, author]);
                    count += 1;
                }
            }
        }
        Ok(count)
    }

    // ---- reads

    pub fn read_committee(&self, round: u32) -> Answer<Committee> {
        if !self.round_in_range(round) {
            return Err(5);
        }
        Ok(*self.committee_of(round).ok_or(8u32)?)
    }

    pub fn read_share(&self, member: u32, round: u32) -> Answer<u64> {
        if member >= MEMBERS {
            return Err(4);
        }
        let committee = self.read_committee(round)?; // 5, 8
        if committee[member as usize] == 0 {
            return Err(9);
        }
        Ok(thousandths(committee[member as usize], total(&committee)))
    }

    /// The committee of the round, for a bond by any member, inside or not; 30 where
    /// it is empty.
    pub fn may_effect(&self, member: u32, round: u32, amount: u32) -> Answer<&Committee> {
        if member >= MEMBERS {
            return Err(4);
        }
        if !self.round_in_range(round) {
            return Err(5);
        }
        if amount == 0 || amount > 1_000 {
            return Err(6);
        }
        let committee = self.committee_of(round).ok_or(8u32)?;
        if total(committee) == 0 {
            return Err(30);
        }
        Ok(committee)
    }

    /// How far that bond would move the shares: the round's committee as it is, and
    /// with the bond made in it.
    pub fn read_effect(&self, member: u32, round: u32, amount: u32) -> Answer<Effect> {
        let before = self.may_effect(member, round, amount)?;
        let mut after = *before;
        change(&mut after, &Transaction::Bond { member, amount });
        Ok(Effect::between(before, &after))
    }

    /// The proposal, the endorsers it was first stored with, and the number of
    /// its block, 0 for none.
    pub fn read_certificate(&self, author: u32, round: u32) -> Answer<(&Proposal, Set, u32)> {
        if author >= MEMBERS {
            return Err(4);
        }
        if !self.round_in_range(round) {
            return Err(5);
        }
        let held = self.held_at(author, round).ok_or(23u32)?;
        Ok((&held.certificate.proposal, held.certificate.endorsers, held.block))
    }

    /// The round of a block, by number from 1.
    pub fn read_block(&self, number: u32) -> Answer<u32> {
        if number == 0 {
            return Err(23);
        }
        self.chain.get(number as usize - 1).map(|b| b.round).ok_or(23)
    }

    // ---- guests' calls (docs/RULES.md, "Rights")

    /// A guest's call: its caller is asked for the right, before everything else;
    /// then it does and answers what the host's own call does.
    pub fn by_guest<T>(
        &mut self,
        caller: u32,
        request: Request,
        call: impl FnOnce(&mut Member) -> Answer<T>,
    ) -> Answer<T> {
        may_ask(&self.rights, caller, request)?;
        call(self)
    }

    /// A guest adds to its own queue, and to no other.
    pub fn guest_enqueue(&mut self, caller: u32, transaction: &Transaction) -> Answer<()> {
        self.by_guest(caller, Request::Enqueue, |member| member.enqueue(caller, transaction))
    }
}
