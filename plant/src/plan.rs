//! What a run is played with, from its kind and its seed: settings, faulty members, and how often things go wrong.

use crate::chance::{mixed, Chance};
use crate::kind::Kind;
use forgelilac::{Member, Rights, Set, Sheet, Transaction, MEMBERS};

/// A member's weight is at most this, and a bond's amount too.
const HEAVIEST: u32 = 3;

/// What a run is played with.
#[derive(Clone, Debug)]
pub struct Plan {
    /// Its kind.
    pub kind: Kind,
    /// Its seed.
    pub seed: u64,
    /// How many members have a weight at the start: those of the lowest numbers.
    pub members: u32,
    /// How many have a computer: where weights move, some more than have a weight at the start.
    pub computers: u32,
    /// The settings, the same for all.
    pub sheet: Sheet,
    /// Who is faulty.
    pub faulty: Set,
    /// Whom an unbond may put out: without them the faulty ones are within the bound still.
    pub movable: Set,
    /// The rights of guests.
    pub rights: Rights,
    /// So many messages in a thousand are lost.
    pub loss: u32,
    /// So many come twice.
    pub double: u32,
    /// So many are late.
    pub late: u32,
    /// In so many of a thousand steps power fails.
    pub power: u32,
    /// On which side each member stands, where faulty ones play two parts.
    pub sides: Set,
    /// After so many steps nothing goes wrong any more.
    pub calm: u32,
    /// The most steps.
    pub steps: u32,
}

/// What is wanted of a run beside its kind and seed.
#[derive(Clone, Copy, PartialEq, Eq, Debug, Default)]
pub struct Wanted {
    /// How many members; by the seed where it is none.
    pub members: Option<u32>,
    /// The ceiling; by the seed where it is none.
    pub ceiling: Option<u32>,
    /// The most steps; by the members and the ceiling where it is none.
    pub steps: Option<u32>,
}

impl Plan {
    /// The plan of a kind and a seed. More than sixteen members, or none, are taken as sixteen or one.
    #[must_use]
    pub fn new(kind: Kind, seed: u64, wanted: Wanted) -> Plan {
        let mut chance = Chance::new(mixed(seed) ^ kind as u64);
        let by_seed = match chance.below(8) {
            0 => chance.between(8, 16),
            1 | 2 => chance.between(5, 7),
            _ => 4,
        };
        let members = wanted.members.unwrap_or(by_seed).clamp(1, MEMBERS as u32);
        // Fewer than four have a fault bound of 0, and no two sides that make blocks.
        let members = if kind == Kind::Beyond { members.max(4) } else { members };
        let computers = (members + if kind.has(Kind::Weights) { chance.below(3) } else { 0 }).min(MEMBERS as u32);
        let longest = if members > 7 { 9 } else { 20 };
        let ceiling = wanted.ceiling.unwrap_or_else(|| chance.between(8, longest)).clamp(3, 1_024);
        let mut sheet = Sheet { ceiling: Some(ceiling), lookback: Some(chance.between(3, 8)), ..Sheet::default() };
        let margins = [None, None, Some(3), Some(4), Some(5)];
        sheet.margin = if kind == Kind::Beyond { None } else { *chance.one_of(&margins) };
        let equal = kind == Kind::Beyond || chance.in_thousand(500);
        for member in Member::ALL {
            let weight = if equal { 1 } else { chance.between(1, HEAVIEST) };
            sheet.weights[member.index()] = Some(if member.get() < members { weight } else { 0 });
        }
        let mut plan = Plan {
            kind,
            seed,
            members,
            computers,
            sheet,
            faulty: 0,
            movable: 0,
            rights: Rights::from_word(chance.number() as u32 & !0x0000_ff00),
            loss: 0,
            double: 0,
            late: 50,
            power: 0,
            sides: chance.number() as Set,
            calm: 0,
            steps: 0,
        };
        plan.disturb(&mut chance);
        let rounds = members * members * ceiling;
        plan.calm = rounds * 6;
        plan.steps = wanted.steps.unwrap_or(rounds * 20 + 2_000);
        plan
    }

    fn disturb(&mut self, chance: &mut Chance) {
        if self.kind.has(Kind::Lossy) {
            self.loss = chance.between(0, 200);
            self.double = chance.between(0, 150);
            self.late = chance.between(0, 300);
        }
        if self.kind.has(Kind::Crashes) {
            self.power = chance.between(1, 25);
        }
        if self.kind.has(Kind::Equivocation) {
            self.pick_faulty(chance);
            if self.faulty == 0 {
                // A larger margin had no room for a faulty member.
                self.sheet.margin = None;
                self.pick_faulty(chance);
            }
        }
        if self.kind == Kind::Beyond {
            self.pick_beyond();
        }
        if self.kind.has(Kind::Weights) {
            self.pick_movable(chance);
        }
    }

    /// Members by chance, as long as they are within the bound.
    fn pick_faulty(&mut self, chance: &mut Chance) {
        for _ in 0..self.members {
            let one = Member::new(chance.below(self.members)).bit();
            if self.weight(self.faulty | one) <= self.bound(self.total()) {
                self.faulty |= one;
            }
        }
    }

    /// As few as give each side a quorum: the faulty ones, who play two parts, and half of the correct ones. Two
    /// correct ones are left, since a quorum of four and more spares one.
    fn pick_beyond(&mut self) {
        let quorum = self.total() - self.bound(self.total());
        let faulty = (0..self.members - 2).find(|faulty| (self.members - faulty) / 2 + faulty >= quorum);
        let faulty = faulty.unwrap_or(self.members - 2);
        self.faulty = Member::ALL[..faulty as usize].iter().fold(0, |set, member| set | member.bit());
        // The correct ones stand on the two sides by turns.
        self.sides = 0x5555;
    }

    /// Members without whom the faulty ones are within the bound, one correct member of the start staying.
    fn pick_movable(&mut self, chance: &mut Chance) {
        let correct: Vec<_> = (0..self.members).map(Member::new).filter(|one| self.faulty & one.bit() == 0).collect();
        for _ in 0..2 {
            let one = chance.one_of(&correct).bit();
            let without = self.total() - self.weight(self.movable | one);
            let left = correct.iter().any(|member| (self.movable | one) & member.bit() == 0);
            if left && self.weight(self.faulty) <= self.bound(without) {
                self.movable |= one;
            }
        }
    }

    /// What the members of a set weigh at the start.
    #[must_use]
    pub fn weight(&self, set: Set) -> u32 {
        Member::all_in(set).filter_map(|member| self.sheet.weights[member.index()]).sum()
    }

    /// What all members weigh at the start.
    #[must_use]
    pub fn total(&self) -> u32 {
        self.weight(Set::MAX)
    }

    /// The fault bound of a total.
    #[must_use]
    pub fn bound(&self, total: u32) -> u32 {
        total.saturating_sub(1) / self.sheet.margin.unwrap_or(3)
    }

    /// Whether the plant has agreed to these bonds and unbonds: a correct member's bond, and an unbond of one that
    /// may go.
    #[must_use]
    pub fn wants(&self, transactions: &[Transaction]) -> bool {
        transactions.iter().all(|transaction| match *transaction {
            Transaction::Bond { member, amount } => self.faulty & member.bit() == 0 && amount <= HEAVIEST,
            Transaction::Unbond { member } => self.movable & member.bit() != 0,
            _ => true,
        })
    }

    /// A bond or an unbond that the plant has agreed to; an entry where there is nobody who may go.
    pub(crate) fn wanted(&self, chance: &mut Chance) -> Transaction {
        let correct = (0..self.computers).map(Member::new).filter(|one| self.faulty & one.bit() == 0);
        let correct: Vec<_> = correct.collect();
        let movable: Vec<_> = Member::all_in(self.movable).collect();
        match chance.below(3) {
            0 if !movable.is_empty() => Transaction::Unbond { member: *chance.one_of(&movable) },
            1 => Transaction::Bond { member: correct[0], amount: chance.between(1, HEAVIEST) },
            _ => Transaction::Bond { member: *chance.one_of(&correct), amount: chance.between(1, HEAVIEST) },
        }
    }
}
