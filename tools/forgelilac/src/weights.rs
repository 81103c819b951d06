//! A committee by a margin: fault bound, quorum, votes, and how many of its members may be away (docs/RULES.md, "Weights").

use forgelilac::{Member, Set, MEMBERS};

#[derive(Clone, Copy, PartialEq, Eq, Debug)]
pub struct Committee {
    pub weights: [u32; MEMBERS],
    pub margin: u32,
}

impl Committee {
    pub fn total(&self) -> u32 {
        self.weights.iter().sum()
    }

    pub fn bound(&self) -> u32 {
        self.total().saturating_sub(1) / self.margin
    }

    pub fn quorum(&self) -> u32 {
        self.total() - self.bound()
    }

    /// What the votes for an anchor must weigh at least.
    pub fn votes(&self) -> u32 {
        self.bound() + 1
    }

    pub fn members(&self) -> impl Iterator<Item = Member> + '_ {
        Member::ALL.into_iter().filter(|member| self.weight(*member) > 0)
    }

    pub fn weight(&self, member: Member) -> u32 {
        self.weights[member.index()]
    }

    pub fn weight_of(&self, set: Set) -> u32 {
        Member::all_in(set).map(|member| self.weight(member)).sum()
    }

    pub fn is_quorum(&self, set: Set) -> bool {
        Member::all_in(set).all(|member| self.weight(member) > 0) && self.weight_of(set) >= self.quorum()
    }

    /// How many of its members weigh together no more than the fault bound: the lightest, and whoever they are.
    pub fn may_be_away(&self) -> (usize, usize) {
        let mut weights: Vec<_> = self.members().map(|member| self.weight(member)).collect();
        weights.sort_unstable();
        let lightest = fitting(weights.iter(), self.bound());
        let heaviest = fitting(weights.iter().rev(), self.bound());
        (lightest, heaviest)
    }

    /// Members without which nobody has a quorum.
    pub fn needed(&self) -> Vec<Member> {
        self.members().filter(|member| self.weight(*member) > self.bound()).collect()
    }

    /// As the tables show it: `0: 10, 1: 10, 4: 5`.
    pub fn told(&self) -> String {
        let members: Vec<_> =
            self.members().map(|member| format!("{member}: {}", grouped(self.weight(member)))).collect();
        if members.is_empty() {
            "nobody".to_owned()
        } else {
            members.join(", ")
        }
    }
}

fn fitting<'a>(weights: impl Iterator<Item = &'a u32>, bound: u32) -> usize {
    weights.scan(0, |sum, weight| (*sum + weight <= bound).then(|| *sum += weight)).count()
}

/// A number with a comma between thousands.
pub fn grouped(number: impl Into<u64>) -> String {
    let digits = number.into().to_string();
    let mut grouped = String::new();
    for (at, digit) in digits.chars().enumerate() {
        if at > 0 && (digits.len() - at) % 3 == 0 {
            grouped.push(',');
        }
        grouped.push(digit);
    }
    grouped
}

/// `1 block`, `2 blocks`.
pub fn count(number: usize, what: &str) -> String {
    format!("{} {what}{}", grouped(number as u64), if number == 1 { "" } else { "s" })
}
