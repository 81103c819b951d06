//! What a bond does to the shares: effects by hand, among them exact halves, members
//! who join and bonds that meet the bound; every argument at its edges together with
//! every other, on out stretches too short, just long enough and longer; full tables.
//! Then by chance: opens and tables of bonds with committees made for it, grown states,
//! and such with words changed or chains made up. On every accepted read the largest
//! difference is within its bound; and at times shares, committee and bond are read
//! again by the engine's other calls.

use crate::calls::*;
use crate::edges::*;
use crate::engine;
use crate::grow::*;
use crate::previews::*;
use crate::shares::*;
use crate::words::*;
use crate::{Node, Test};
use reference::*;

/// The largest bond.
const BOND: u32 = 1_000;

// -------------------------------------------------------------- figures ---

/// An accepted read: the committee before and after, who bonds, and what was read.
struct Seen<'a> {
    before: &'a Committee,
    after: Committee,
    member: usize,
    out: &'a [u32],
    bound: u64,
}

impl Seen<'_> {
    /// Whether a member has an exact half in a committee, and a share there that is
    /// above it, or below it.
    fn is_half(&self, m: usize, after: bool, up: bool) -> bool {
        let committee = if after { &self.after } else { self.before };
        let (weight, n, share) = (committee[m], total(committee), self.out[m + 16 * usize::from(after)]);
        is_half(weight, n) && up == (u64::from(share) * n > 1_000 * weight)
    }

    fn has_half(&self, after: bool, up: bool) -> bool {
        (0..16).any(|m| self.is_half(m, after, up))
    }

    fn moved(&self, m: usize) -> u32 {
        self.out[m].abs_diff(self.out[16 + m])
    }

    /// Whether one member has an exact half before and after.
    fn has_two_halves(&self, m: usize) -> bool {
        let at = |after| self.is_half(m, after, false) || self.is_half(m, after, true);
        at(false) && at(true)
    }
}

/// What is counted of accepted reads: its name, and of how many reads by chance there
/// must be one.
type Kind = (&'static str, u64, fn(&Seen) -> bool);

const KINDS: [Kind; 12] = [
    ("by one who joins", 20, |seen| seen.before[seen.member] == 0),
    ("by a sole member", 100, |seen| seen.before[seen.member] == total(seen.before)),
    ("with an exact half before it that goes down", 100, |seen| seen.has_half(false, false)),
    ("with one before it that goes up", 100, |seen| seen.has_half(false, true)),
    ("with one after it that goes down", 100, |seen| seen.has_half(true, false)),
    ("with one after it that goes up", 100, |seen| seen.has_half(true, true)),
    ("with one before it and one after it of one member", 400, |seen| (0..16).any(|m| seen.has_two_halves(m))),
    ("of the one who bonds among these", 2_000, |seen| seen.has_two_halves(seen.member)),
    ("that move nobody", 100, |seen| seen.out[32] == 0),
    ("whose largest difference is another's alone", 200, |seen| seen.moved(seen.member) < seen.out[32]),
    ("that meet the bound", 50, |seen| u64::from(seen.out[32]) == seen.bound),
    ("a bound of 1 among these", 200, |seen| u64::from(seen.out[32]) == seen.bound && seen.bound == 1),
];

#[derive(Clone, Copy, Default)]
pub struct Figures {
    kinds: [u64; KINDS.len()],
    /// By the words of the out stretch: just enough, more.
    stretches: [u64; 2],
    most_weight: u64,
    /// Of changed states; of them accepted.
    changed: [u64; 2],
    /// Those read again by other calls.
    again: u64,
}

impl Figures {
    /// A read was accepted; `out` are its words, of a stretch of so many.
    pub fn count(&mut self, before: &Committee, member: u32, amount: u32, out: &[u32], words: usize) {
        let mut after = *before;
        change(&mut after, &Transaction::Bond { member, amount });
        let (n, member) = (total(before), member as usize);
        let seen = Seen { before, after, member, out, bound: most_moved(n, amount) };
        for (count, (_, _, is_one)) in self.kinds.iter_mut().zip(KINDS) {
            *count += u64::from(is_one(&seen));
        }
        self.stretches[usize::from(words > EFFECT)] += 1;
        self.most_weight = self.most_weight.max(n);
    }

    /// Of so many reads, by the host and by guests.
    pub fn print(&self, reads: u64, accepted: u64) {
        let kinds: Vec<String> = KINDS.iter().zip(self.kinds).map(|((name, ..), count)| format!("{count} {name}")).collect();
        let ([just, more], [changed, of_them]) = (self.stretches, self.changed);
        println!("what a bond does to the shares: {reads} reads, {accepted} accepted: {}", kinds.join(", "));
        println!(
            "of them {just} into {EFFECT} words, {more} into more; largest total: {}; of changed states {changed} reads, {of_them} accepted; \
             read again by other calls: {}",
            self.most_weight, self.again
        );
    }

    /// Every number that a read may answer was seen, and no other.
    fn all_seen(answers: &[u64; ANSWERS]) {
        for (number, &times) in answers.iter().enumerate() {
            let is_its = [0, 1, 4, 5, 6, 8, 30].contains(&number);
            assert_eq!(times > 0, is_its, "reads of what a bond does answered with {number}");
        }
    }
}

/// Whether the largest difference that the words tell is that of the shares in them, and
/// within its bound.
pub fn within_bound(call: &Call, member: Option<&Member>, out: &[u32]) -> bool {
    let (Call::Effect { round, amount, .. }, Some(member)) = (call, member) else { return true };
    let Some(committee) = member.committee_of(*round) else { return true };
    let moved = (0..16).map(|m| out[m].abs_diff(out[16 + m])).max();
    moved == Some(out[32]) && u64::from(out[32]) <= most_moved(total(committee), *amount)
}

// ----------------------------------------------------------- committees ---

/// Whether a weight is an exact half of thousandths of a total.
fn is_half(weight: u64, n: u64) -> bool {
    2_000 * weight % (2 * n) == n
}

/// An amount that makes a total a multiple of 16, as those with exact halves are.
fn rounding(rng: &mut Rng, n: u64) -> u32 {
    let least = 16 - (n % 16) as u32;
    least + 16 * rng.between(0, 61)
}

/// A committee, who bonds, and an amount.
struct Made {
    weights: Committee,
    member: u32,
    amount: u32,
}

impl Made {
    /// One has this weight of the total, others the rest; `bonds` says whether it is the
    /// one who bonds.
    fn of(rng: &mut Rng, weight: u64, n: u64, amount: u32, bonds: bool) -> Option<Made> {
        let rest = n.checked_sub(weight).filter(|&rest| weight <= MOST && rest <= 15 * MOST)?;
        let one = rng.between(0, 15);
        let mut weights = [0; 16];
        spread(rng, &mut weights, EVERYONE & !single(one), rest, MOST);
        weights[one as usize] = weight;
        let member = if bonds { one } else { rng.between(0, 15) };
        Some(Made { weights, member, amount }).filter(|made| total(&made.weights) > 0)
    }

    /// One is an exact half before, or one beside it.
    fn before(rng: &mut Rng, most: u64) -> Option<Made> {
        let (weight, n) = telling(rng, 1, most);
        let (amount, bonds) = (rng.between(1, BOND), rng.chance(500));
        Made::of(rng, weight, n, amount, bonds)
    }

    /// One is an exact half after, or one beside it: who bonds, or another.
    fn after(rng: &mut Rng, most: u64) -> Option<Made> {
        let (weight, n) = telling(rng, 16, most);
        let (amount, bonds) = (rng.between(1, BOND.min(n as u32 - 1)), rng.chance(500));
        let weight = if bonds { weight.checked_sub(amount.into())? } else { weight };
        Made::of(rng, weight, n - u64::from(amount), amount, bonds)
    }

    /// One is an exact half before and after.
    fn both(rng: &mut Rng) -> Option<Made> {
        let (n, amount, bonds) = (16 * (1 + rng.below(40)), 16 * rng.between(1, 62), rng.chance(500));
        let added = if bonds { u64::from(amount) } else { 0 };
        let is_both = |w: &u64| is_half(*w, n) && is_half(w + added, n + u64::from(amount));
        let found: Vec<u64> = (1..=n).filter(is_both).collect();
        if found.is_empty() {
            return None;
        }
        let weight = rng.pick(&found);
        Made::of(rng, weight, n, amount, bonds)
    }

    /// A sole member bonds, or another joins it.
    fn alone(rng: &mut Rng) -> Option<Made> {
        let n = rng.pick(&[1, 1, 2, 16, 999, 1_000, MOST]);
        let (amount, bonds) = (rng.pick(&[1, 16, BOND]), rng.chance(500));
        Made::of(rng, n, n, amount, bonds)
    }

    fn any(rng: &mut Rng) -> Option<Made> {
        let most = rng.pick(&[20, 100, 3_000, 16 * MOST]);
        let n = 1 + rng.below(most);
        let amounts = [1, BOND, rng.between(1, BOND), rounding(rng, n)];
        let (weight, amount, bonds) = (rng.below(n + 1), rng.pick(&amounts), rng.chance(500));
        Made::of(rng, weight, n, amount, bonds)
    }

    fn some(rng: &mut Rng) -> Made {
        loop {
            let most = rng.pick(&[100, 3_000, 3_000, 100_000, MOST, 16 * MOST]);
            let made = match rng.below(10) {
                0..=2 => Made::before(rng, most),
                3..=5 => Made::after(rng, most),
                6 | 7 => Made::both(rng),
                8 => Made::alone(rng),
                _ => Made::any(rng),
            };
            if let Some(made) = made {
                return made;
            }
        }
    }
}

// ---------------------------------------------------------------- edges ---

/// Weights, member, amount; shares before and after, and the largest difference.
type Bonded = (&'static [u64], u32, u32, &'static [u32], &'static [u32], u32);

#[rustfmt::skip]
const BY_HAND: [Bonded; 15] = [
    // A sole member; one who joins it.
    (&[5], 0, 3, &[1_000], &[1_000], 0),
    (&[1], 0, 1_000, &[1_000], &[1_000], 0),
    (&[1], 1, 1_000, &[1_000], &[1, 999], 999),
    (&[1_000_000], 1, 1, &[1_000], &[1_000, 0], 0),
    // A fifth of four alike, one of the four, two who do not move.
    (&[1, 1, 1, 1], 5, 2, &[250, 250, 250, 250], &[167, 167, 167, 167, 0, 333], 333),
    (&[1, 1, 1, 1], 0, 2, &[250, 250, 250, 250], &[500, 167, 167, 167], 250),
    (&[1_000_000, 1_000_000], 2, 999, &[500, 500], &[500, 500], 0),
    // Exact halves before; after; on both sides: 187.5 and 62.5, 62.5 and 687.5.
    (&[1, 3, 5, 7], 0, 16, &[62, 188, 312, 438], &[531, 94, 156, 219], 469),
    (&[2, 6, 8], 2, 16, &[125, 375, 500], &[62, 188, 750], 250),
    (&[3, 1, 12], 1, 32, &[188, 62, 750], &[62, 688, 250], 626),
    // Of the one who bonds alone: 562.5, 437.5.
    (&[14], 1, 18, &[1_000], &[438, 562], 562),
    // The bound is met: by a rise alone, by a fall alone, of 1.
    (&[0, 1, 1], 0, 4, &[0, 500, 500], &[667, 167, 167], 667),
    (&[1, 68], 2, 1, &[14, 986], &[14, 971, 14], 15),
    (&[1, 79], 2, 1, &[12, 988], &[12, 975, 12], 13),
    (&[1, 1_999], 0, 1, &[0, 1_000], &[1, 999], 1),
];

fn sixteen<T: Copy + Default>(some: &[T]) -> [T; 16] {
    std::array::from_fn(|m| some.get(m).copied().unwrap_or_default())
}

const MEMBERS_TRIED: [u32; 8] = [0, 1, 7, 15, 16, 17, 31, u32::MAX];
const ROUNDS_TRIED: [u32; 11] = [0, 1, 2, 3, 4, 5, 6, 9, 10, 1_024, u32::MAX];
const AMOUNTS_TRIED: [u32; 9] = [0, 1, 2, 16, 999, 1_000, 1_001, 65_537, u32::MAX];
const WORDS_TRIED: [usize; 7] = [0, 1, 16, 32, 33, 34, 50];

/// What a read answers on a state of ceiling 9 in which rounds to 3 have members, 4
/// and 5 have some or nobody, and 6 is not known; 1 where it is not well formed.
fn expected(member: u32, round: u32, amount: u32, words: usize, empty: bool, unfit: bool) -> u64 {
    let checks = [
        (words < EFFECT || unfit, 1),
        (member > 15, 4),
        (round == 0 || round > 9, 5),
        (amount == 0 || amount > 1_000, 6),
        (round > 5, 8),
        (empty && round > 3, 30),
    ];
    checks.iter().find(|(wrong, _)| *wrong).map_or(0, |(_, number)| number << 32)
}

impl Test {
    /// By hand: every number that these weights may stand at is tried in turn.
    fn effects_by_hand(&mut self) {
        let mut node = Test::small_node();
        for (weights, member, amount, before, after, largest) in BY_HAND {
            let (mut weights, mut before, mut after) = (sixteen(weights), sixteen(before), sixteen(after));
            for turn in 0..16 {
                self.open_and_read(&mut node, &weights, 0);
                let call = Call::Effect { member: (member + turn) % 16, round: 1, amount, out: vec![7; EFFECT + 2] };
                let whole = (node.state.len(), node.table.len());
                assert_eq!(self.effect(Caller::Host, &mut node, &call, whole), 0);
                let words = [&before[..], &after, &[largest, 7, 7]].concat();
                if self.last_out != words {
                    self.differs("the effect is not the one by hand");
                }
                weights.rotate_right(1);
                before.rotate_right(1);
                after.rotate_right(1);
            }
        }
    }

    /// All arguments together with all others: on a state that holds members, on one
    /// that a block has emptied, on states and tables that are too short or not well
    /// formed.
    fn effect_arguments(&mut self) {
        let whole = (STATE_WORDS, table_words(9));
        for (transaction, empty) in [([1, 0, 0], true), ([0, 7, 16], false)] {
            let mut node = in_round(&[4], 9, 3);
            put_in_block(&mut node, transaction);
            node.read_again();
            for words in WORDS_TRIED {
                self.effect_combined(&mut node, whole, words, empty, false);
            }
            for lengths in [(RIGHTS, whole.1), (MARGIN, whole.1), (whole.0, whole.1 - 1), (0, 0)] {
                self.effect_combined(&mut node, lengths, EFFECT, empty, true);
            }
            node.state[MARGIN] = 6;
            node.read_again();
            for words in [EFFECT - 1, EFFECT] {
                self.effect_combined(&mut node, whole, words, empty, true);
            }
        }
    }

    fn effect_combined(&mut self, node: &mut Node, lengths: (usize, usize), words: usize, empty: bool, unfit: bool) {
        for member in MEMBERS_TRIED {
            for round in ROUNDS_TRIED {
                for amount in AMOUNTS_TRIED {
                    let call = Call::Effect { member, round, amount, out: vec![77; words] };
                    let found = self.effect(Caller::Host, node, &call, lengths);
                    assert_eq!(found, expected(member, round, amount, words, empty, unfit), "{call:?}, lengths {lengths:?}");
                }
            }
        }
    }

    /// Full tables: the largest total, of sixteen alike, 62.5 each; one with nearly all
    /// bonds, beside it 0.5 and 1.5 of 79,680,000.
    fn effects_of_full_tables(&mut self) {
        let mut heavy = [MOST; 16];
        (heavy[0], heavy[1], heavy[15]) = (39_840, 119_520, 66_520_640);
        for weights in [[MOST + 4 * u64::from(BOND) * 1_024; 16], heavy] {
            let mut node = bonded_node(&mut self.rng, &weights, 1_024).expect("the bonds just fit");
            let whole = (node.state.len(), node.table.len());
            for (member, amount) in [(0, 1), (0, BOND), (3, BOND), (15, 1), (15, 999)] {
                for round in [4, 5] {
                    let call = Call::Effect { member, round, amount, out: vec![7; EFFECT] };
                    assert_eq!(self.effect(Caller::Host, &mut node, &call, whole), 0);
                }
            }
        }
    }

    pub fn effect_edges(&mut self) {
        self.effects_by_hand();
        self.effect_arguments();
        self.effects_of_full_tables();
        Figures::all_seen(&self.figures.answers[Call::EFFECT]);
    }

    // ------------------------------------------------------------ chance ---

    /// A read; accepted, its words are at times told again by other calls.
    fn effect(&mut self, caller: Caller, node: &mut Node, call: &Call, lengths: (usize, usize)) -> u64 {
        let answer = self.call_by(caller, node, call, lengths);
        let small = node.table.len() < table_words(42);
        if answer == 0 && self.last_answer == 0 && small && self.rng.chance(30) {
            self.effect_again(node, call);
        }
        answer
    }

    /// The shares before are those that the engine reads one by one; those after are
    /// those of an opening with the weights of its committee and the bond.
    fn effect_again(&mut self, node: &Node, call: &Call) {
        let Call::Effect { member, round, amount, .. } = call else { unreachable!("an effect") };
        let read = |node: &Node, m: u32, round: u32| match engine::share(&node.state, &node.table, m, round) {
            answer if answer >> 32 == 9 => 0,
            answer => answer as u32,
        };
        let mut weights = [0; 16];
        let answer = engine::committee(&node.state, &node.table, *round, &mut weights);
        weights[*member as usize] += amount;
        let before: Vec<u32> = (0..MEMBERS).map(|m| read(node, m, *round)).collect();
        if answer != 0 || before != self.last_out[..16] {
            self.differs("shares before a bond are not those that are read");
        }
        // An open takes no more.
        if weights.iter().all(|&weight| u64::from(weight) <= MOST) {
            let mut with = Test::small_node();
            let sheet = Sheet { ceiling: Setting::Written(3), weights: weights.map(Setting::Written), ..Sheet::all_blank() };
            let answer = engine::open(&mut with.state, &mut with.table, 0, &sheet_words(&mut self.rng, &sheet), 0);
            let after: Vec<u32> = (0..MEMBERS).map(|m| read(&with, m, 1)).collect();
            if answer != 0 || after != self.last_out[16..32] {
                self.differs("shares after a bond are not those of an opening");
            }
        }
        self.figures.effects.again += 1;
    }

    /// Reads by chance, so many more. The answer is how many were accepted: a third of
    /// them must be, and of each kind and each refusal there must be some.
    pub fn effects(&mut self, effects: u64) -> u64 {
        let asked = |test: &Test| test.figures.answers[Call::EFFECT].iter().sum::<u64>();
        let (before, kinds) = (self.figures.answers[Call::EFFECT], self.figures.effects.kinds);
        let enough = asked(self) + effects;
        while asked(self) < enough {
            match self.rng.below(20) {
                0 => self.effects_of_bonds(),
                1..=6 => self.effects_of_runs(),
                _ => self.effects_of_opens(),
            }
        }
        let of = |number: usize| self.figures.answers[Call::EFFECT][number] - before[number];
        let accepted = of(0);
        assert!(3 * accepted >= effects, "{accepted} of {effects} reads of what a bond does were accepted");
        for number in [1, 4, 5, 6, 8, 30] {
            assert!(1_000 * of(number) >= effects, "{number} x {} of {effects} reads of what a bond does", of(number));
        }
        for ((name, least, _), (now, then)) in KINDS.iter().zip(self.figures.effects.kinds.iter().zip(kinds)) {
            assert!(least * (now - then) >= effects, "{} of {effects} reads of what a bond does {name}", now - then);
        }
        accepted
    }

    /// The bond that a committee was made for, the same beside it, and any.
    fn some_effects(&mut self, node: &mut Node, made: &Made, rounds: &[u32]) {
        for turn in 0..self.rng.between(4, 12) {
            let rng = &mut self.rng;
            let member = if turn == 0 || rng.chance(700) { made.member } else { rng.between(0, 15) };
            let amount = match rng.below(8) {
                _ if turn == 0 => made.amount,
                0 => made.amount + 1,
                1 => made.amount - 1,
                2 | 3 => some_amount(rng),
                4 => rounding(rng, total(&made.weights)),
                _ => made.amount,
            };
            let round = if rng.chance(950) { rng.pick(rounds) } else { rng.word() };
            let mut call = Call::Effect { member, round, amount, out: out_stretch(rng, EFFECT) };
            if rng.chance(100) {
                call = some_effect(rng, round);
            }
            let lengths = self.lengths(node);
            let caller = any_caller(&mut self.rng);
            self.effect(caller, node, &call, lengths);
        }
    }

    fn effects_of_opens(&mut self) {
        let mut node = Test::small_node();
        for _ in 0..self.rng.between(1, 4) {
            let made = Made::some(&mut self.rng);
            self.open_and_read(&mut node, &made.weights, 0);
            self.some_effects(&mut node, &made, &[1, 2, 3]);
        }
    }

    /// Totals above those of an open: all start with the largest weight, and have bonds.
    fn effects_of_bonds(&mut self) {
        let rng = &mut self.rng;
        let ceiling = rng.pick(&[4, 4, 5, 16, 16, 64]);
        let (weight, n) = telling(rng, 16 * MOST, 16 * MOST + 64 * u64::from(BOND) * u64::from(ceiling));
        let (one, amount, bonds) = (rng.between(0, 15), rng.pick(&[1, 16, BOND]), rng.chance(500));
        let (weight, n) = match rng.below(3) {
            0 => (weight, n),
            1 => (weight, n - u64::from(amount)),
            _ => (weight.saturating_sub(amount.into()), n - u64::from(amount)),
        };
        let Some(rest) = n.checked_sub(weight + 15 * MOST) else { return };
        let mut weights = [0; 16];
        spread(rng, &mut weights, EVERYONE & !single(one), rest, rest);
        weights = weights.map(|more| more + MOST);
        weights[one as usize] = weight;
        let member = if bonds { one } else { rng.between(0, 15) };
        if let Some(mut node) = bonded_node(rng, &weights, ceiling) {
            self.some_effects(&mut node, &Made { weights, member, amount }, &[4, 4, 4, 3]);
        }
    }

    /// Grown states, before commits and after them.
    fn effects_of_runs(&mut self) {
        let mut plan = Plan::any(&mut self.rng);
        // By a long lookback blocks count above the ceiling only.
        if self.rng.chance(700) {
            plan.sheet.lookback = Setting::Written(self.rng.between(1, 4));
        }
        // A large state is slow to read.
        if plan.ceiling > 40 && !self.rng.chance(50) {
            return;
        }
        let own = plan.owns.first().copied().unwrap_or(0);
        let opened = plan.open(&mut self.rng, own);
        let to = self.rng.between(1, plan.ceiling);
        let mut member = grow(&mut self.rng, opened, to, &plan);
        for _ in 0..self.rng.between(1, 3) {
            if self.rng.chance(600) {
                towards_commit(&mut self.rng, &mut member, &plan);
            }
            let mut node = Node::of(member, &mut self.rng);
            self.effects_of(&mut node);
            let whole = (node.state.len(), node.table.len());
            self.call(&mut node, &Call::Commit, whole);
            self.effects_of(&mut node);
            member = node.twin.expect("a node here is well formed");
        }
    }

    /// Some reads of a node, and of copies of it with words changed or a chain made up.
    fn effects_of(&mut self, node: &mut Node) {
        for _ in 0..self.rng.between(2, 6) {
            let mut copy = node.clone();
            let hint = node.twin.clone().expect("a node here is well formed");
            let sort = self.rng.below(8);
            match sort {
                0 | 1 => make_up_chain(&mut self.rng, &hint, &mut copy.state, &mut copy.table),
                2 => change_word(&mut self.rng, &hint, &mut copy.state, &mut copy.table),
                _ => {}
            }
            if sort < 3 {
                copy.read_again();
                self.figures.changed += 1;
                self.figures.malformed += u64::from(copy.twin.is_none());
            }
            for _ in 0..self.rng.between(1, 6) {
                let call = self.effect_of_some_round(copy.twin.as_ref().unwrap_or(&hint));
                let lengths = self.lengths(&copy);
                let caller = any_caller(&mut self.rng);
                let answer = self.effect(caller, &mut copy, &call, lengths);
                if sort < 3 {
                    self.figures.effects.changed[0] += 1;
                    self.figures.effects.changed[1] += u64::from(answer == 0);
                }
            }
        }
    }

    /// A round that is known, mostly the last one; at times the next, or any.
    fn effect_of_some_round(&mut self, member: &Member) -> Call {
        let rng = &mut self.rng;
        let ceiling = member.settings.ceiling;
        let known = member.settings.lookback + member.last_block_round() + 2;
        let round = match rng.below(20) {
            0 => rng.pick(&[0, ceiling, ceiling + 1, u32::MAX]),
            1 => known + 1,
            2 => rng.between(1, ceiling),
            3..=10 => rng.between(1, known.min(ceiling)),
            _ => known.min(ceiling),
        };
        let mut call = some_effect(rng, round);
        if let (Call::Effect { amount, .. }, Some(committee)) = (&mut call, member.committee_of(round)) {
            if rng.chance(400) {
                *amount = rounding(rng, total(committee));
            }
        }
        call
    }
}
