//! `fair [RUNS [CALLS [SEED]]]`: what docs/RULES.md, "Guests' queues", promises, counted
//! over long runs of the reference: between two transactions drawn from one guest into
//! accepted proposals, every other guest that was waiting all that time has one
//! so drawn.
//!
//! A run is a member alone, from any queues, and calls by chance: adding to
//! queues, draws that are accepted and draws that are refused, proposes of a
//! list handed in, certify, advance, also where the round is thin still, commit,
//! and an open now and then. Each transaction is an entry that tells its guest
//! and its number among those that the guest added, so that what is counted here
//! is read from the proposals and not from the reference's queues.
//!
//! Time goes from moment to moment. An accepted draw has a moment for each
//! transaction in it, any other call one. Of each moment is kept whose
//! transaction was drawn in it, if any, and who has something waiting right after
//! it. All pairs of draws of one guest in a run are looked at, also those of one
//! proposal, as long as another guest waits.

use reference::chance::Rng;
use reference::*;

const ALL: u32 = GUESTS;

/// A moment: the guest drawn from in it, and the guests with something waiting
/// right after it, guest i counting 2 to the power i.
struct Moment {
    drew: Option<u32>,
    waits: u32,
}

#[derive(Default)]
struct Figures {
    calls: u64,
    added: u64,
    full: u64,
    draws: u64,
    empty: u64,
    refused: u64,
    drawn: u64,
    proposes: u64,
    opens: u64,
    /// Pairs of draws of one guest; those of one proposal; those with another
    /// guest waiting all that time, and how many such guests.
    pairs: u64,
    within: u64,
    gaps: u64,
    waited: u64,
    /// Guests that were waiting right before the second of a pair, not all that
    /// time, and had none drawn: the promise is not due to them.
    not_due: u64,
    faults: u64,
}

/// A member, and what it should have waiting by what was added and drawn.
struct Run<'a> {
    rng: Rng,
    member: Member,
    counts: [u32; ALL as usize],
    /// Of each guest: the number that its next added and its next drawn entry has.
    next: [(u32, u32); ALL as usize],
    /// In 1,000: how often each guest adds.
    rates: [u32; ALL as usize],
    moments: Vec<Moment>,
    /// Where the proposal of each moment began.
    proposals: Vec<usize>,
    figures: &'a mut Figures,
}

/// A member alone; all of its rounds are known and have the starting committee.
fn opened(rng: &mut Rng) -> Member {
    let mut sheet = Sheet::all_blank();
    sheet.lookback = Setting::Written(1_000);
    sheet.ceiling = Setting::Written(1_000);
    sheet.allowance = if rng.chance(500) { Setting::Blank } else { Setting::Written(rng.below(5) as u32) };
    sheet.weights[1..4].fill(Setting::Written(0));
    Member::open(0, &sheet, 1_024).expect("in range")
}

/// The entry of a guest with this number, and back.
fn entry(guest: u32, number: u32) -> Transaction {
    Transaction::Entry { number: number * ALL + guest }
}

impl Run<'_> {
    fn fault(&mut self, what: &str) {
        self.figures.faults += 1;
        if self.figures.faults <= 10 {
            println!("FAULT at call {}: {what}", self.figures.calls);
        }
    }

    fn moment(&mut self, drew: Option<u32>, proposal: usize) {
        let waits = (0..ALL).filter(|&g| self.counts[g as usize] > 0).map(|g| 1 << g).sum();
        self.moments.push(Moment { drew, waits });
        self.proposals.push(proposal);
    }

    /// A call that draws nothing.
    fn passes(&mut self) {
        let at = self.moments.len();
        self.moment(None, at);
    }

    fn add(&mut self, guest: u32) {
        let (number, _) = self.next[guest as usize];
        let full = self.counts[guest as usize] == 8;
        match self.member.enqueue(guest, &entry(guest, number)) {
            Ok(()) if !full => {
                self.next[guest as usize].0 += 1;
                self.counts[guest as usize] += 1;
                self.figures.added += 1;
            }
            Err(27) if full => self.figures.full += 1,
            answer => self.fault(&format!("adding for guest {guest} answers {answer:?}")),
        }
        self.passes();
    }

    fn draw(&mut self, previous: Set) {
        if self.member.draw(previous).is_err() {
            self.figures.refused += 1;
            return self.passes();
        }
        let list = self.member.proposal().expect("just drawn").transactions.clone();
        self.figures.draws += 1;
        self.figures.empty += u64::from(list.is_empty());
        let allowance = self.member.settings().allowance.min(self.counts.iter().sum());
        if list.len() != allowance as usize {
            self.fault(&format!("{} drawn where {allowance} could be", list.len()));
        }
        let at = self.moments.len();
        for transaction in &list {
            let Transaction::Entry { number } = *transaction else { unreachable!("entries alone") };
            let (guest, number) = (number % ALL, number / ALL);
            let next = &mut self.next[guest as usize];
            let in_turn = next.1 == number && next.1 < next.0;
            next.1 = number + 1;
            if !in_turn {
                self.fault(&format!("entry {number} of guest {guest} is not its oldest"));
                continue;
            }
            self.counts[guest as usize] -= 1;
            self.figures.drawn += 1;
            self.moment(Some(guest), at);
        }
        if list.is_empty() {
            self.passes();
        }
    }

    /// An open: all queues are empty, and nobody was served.
    fn open(&mut self) {
        self.member = opened(&mut self.rng);
        self.counts = [0; ALL as usize];
        self.next.iter_mut().for_each(|next| next.1 = next.0);
        self.figures.opens += 1;
        self.passes();
    }

    /// On to the next round, with one's own certificate of this one.
    fn go_on(&mut self) {
        if self.member.advance().is_ok() {
            self.fault("an advance past a round in which nothing is held");
        }
        self.passes();
        let _ = self.member.certify(0);
        self.passes();
        if self.member.round() % 2 == 1 && self.rng.chance(300) {
            let _ = self.member.commit();
            self.passes();
        }
        if self.member.advance().is_err() {
            return self.open();
        }
        self.passes();
    }

    fn call(&mut self) {
        let previous = Set::from(self.member.round() > 1);
        match self.rng.below(100) {
            0..=44 => {
                for guest in 0..ALL {
                    if self.rng.chance(self.rates[guest as usize]) {
                        self.add(guest);
                    }
                }
            }
            45..=69 => self.draw(previous),
            // Refused with 7, with 11 or 10, or with 7 or 12.
            70..=71 => self.draw(1 - previous),
            72..=73 => self.draw(1 << 5),
            74..=75 => {
                let _ = self.member.propose(previous, &[entry(0, u32::MAX / ALL)]);
                self.figures.proposes += 1;
                self.passes();
            }
            76..=97 if self.member.proposal().is_some() => self.go_on(),
            98 if self.rng.chance(100) => self.open(),
            99 if self.rng.chance(100) => self.new_rates(),
            _ => {}
        }
        self.figures.calls += 1;
        for guest in 0..ALL {
            if self.member.waiting(guest) != self.counts[guest as usize] as usize {
                self.fault(&format!("{} wait for guest {guest}", self.member.waiting(guest)));
            }
        }
    }

    /// Some guests are busy, some add now and then, some never.
    fn new_rates(&mut self) {
        for guest in 0..ALL as usize {
            self.rates[guest] = [0, 20, 100, 100, 300, 900][self.rng.below(6) as usize];
        }
    }

    /// Every two draws of one guest.
    fn look_at_pairs(&mut self) {
        for first in 0..self.moments.len() {
            let Some(guest) = self.moments[first].drew else { continue };
            let others = 0xff & !(1 << guest);
            // Who waits all the time, and who has had one drawn.
            let (mut all_along, mut drawn) = (self.moments[first].waits & others, 0u32);
            for second in first + 1..self.moments.len() {
                let Moment { drew, waits } = self.moments[second];
                if drew == Some(guest) {
                    let late = self.moments[second - 1].waits & others & !all_along & !drawn;
                    let figures = &mut *self.figures;
                    figures.pairs += 1;
                    figures.within += u64::from(self.proposals[first] == self.proposals[second]);
                    figures.gaps += u64::from(all_along != 0);
                    figures.waited += u64::from(all_along.count_ones());
                    figures.not_due += u64::from(late.count_ones());
                    if all_along & !drawn != 0 {
                        self.fault(&format!("between two of guest {guest}, none of {:#b}", all_along & !drawn));
                    }
                }
                drawn |= drew.map_or(0, |g| 1 << g);
                all_along &= waits;
                if all_along == 0 && drawn >> guest & 1 == 1 {
                    break;
                }
            }
        }
    }
}

/// A run from any queues and any guest served last.
fn run(rng: Rng, calls: u32, figures: &mut Figures) {
    let mut run = Run {
        rng,
        member: Member::open(0, &Sheet::all_blank(), 1_024).expect("in range"),
        counts: [0; ALL as usize],
        next: [(0, 0); ALL as usize],
        rates: [0; ALL as usize],
        moments: Vec::new(),
        proposals: Vec::new(),
        figures,
    };
    run.member = opened(&mut run.rng);
    run.new_rates();
    for guest in 0..ALL {
        for _ in 0..run.rng.below(9) {
            run.add(guest);
        }
    }
    run.member.served = Some(run.rng.below(u64::from(ALL) + 1) as u32).filter(|&guest| guest < ALL);
    (0..calls).for_each(|_| run.call());
    run.look_at_pairs();
}

fn main() {
    let mut arguments = std::env::args().skip(1).map(|a| a.parse().expect("a number"));
    let runs = arguments.next().unwrap_or(100);
    let calls = arguments.next().unwrap_or(5_000);
    let seed = arguments.next().unwrap_or(1);
    let mut f = Figures::default();
    for one in 0..runs {
        run(Rng(u64::from(seed) << 32 | u64::from(one)), calls, &mut f);
    }
    println!("{runs} runs of {calls} turns: {} transactions added, {} refused by a full queue", f.added, f.full);
    println!(
        "draws: {} accepted, {} of them of nothing, {} refused; {} transactions drawn; proposes {}, opens {}",
        f.draws, f.empty, f.refused, f.drawn, f.proposes, f.opens
    );
    println!("pairs of draws of one guest: {}, {} of them in one proposal", f.pairs, f.within);
    println!("with others waiting all that time: {}, {} guests in all", f.gaps, f.waited);
    println!("waiting at the second, not all that time, with none drawn: {} guests in all", f.not_due);
    println!("faults: {}", f.faults);
    std::process::exit(i32::from(f.faults > 0))
}
