//! `received [RUNS [TURNS [SEED]]]`: what docs/RULES.md, "Serial ports", promises, counted
//! over long runs of the reference: from one opening on, the listing bytes that a port has given since its
//! reset are a prefix of the listing, however commits and accesses alternate.
//!
//! A run is a member whose rounds are filled with certificates made up to fit it, with
//! bonds and unbonds, commits now and then, and an open at its end. Between these calls
//! eight drivers are at work, each on its port: one polls offset 5 and reads offset 0
//! while a byte waits, one goes by the interrupt, one just reads, one looks at the
//! divisor in between; the host resets a port now and then. What a driver has received
//! is compared with the lines that a runner shows for a chain, without their ok: after
//! each commit, before each reset and at the end. Where none waits any more it is all of
//! them.

use reference::chance::Rng;
use reference::runner::{Record, Runner, SERVES};
use reference::*;

#[derive(Default)]
struct Figures {
    opens: u64,
    /// Commits, and those with a driver in the middle of the listing or at its end.
    commits: u64,
    amid: u64,
    at_end: u64,
    bytes: u64,
    resets: u64,
    /// Comparisons, those of a whole listing, and the longest of those.
    compared: u64,
    whole: u64,
    longest: usize,
    faults: u64,
}

struct Run<'a> {
    rng: Rng,
    runner: Runner,
    /// What each driver has received since its port was reset.
    received: [Vec<u8>; GUESTS as usize],
    figures: &'a mut Figures,
}

/// A transaction whose line may be short or long; bonds and unbonds are of few members,
/// and member 0 stays.
fn transaction(rng: &mut Rng) -> Transaction {
    let (member, few) = (rng.below(15) as u32 + 1, rng.pick(&[1, 2, 15]));
    match rng.below(5) {
        0 => Transaction::Bond { member, amount: rng.pick(&[1, 9, 10, 1_000]) },
        1 => Transaction::Bond { member: few, amount: 2 },
        2 => Transaction::Unbond { member: few },
        3 => Transaction::Entry { number: rng.pick(&[0, 9, 10, 99, u32::MAX]) },
        _ => Transaction::Entry { number: rng.below(1_000_000) as u32 },
    }
}

impl Run<'_> {
    fn fault(&mut self, what: &str) {
        self.figures.faults += 1;
        if self.figures.faults <= 10 {
            println!("FAULT: {what}");
        }
    }

    fn member(&mut self) -> &mut Member {
        self.runner.member.as_mut().expect("opened")
    }

    fn open(&mut self) {
        self.compare_all();
        let rng = &mut self.rng;
        let mut sheet = Sheet::all_blank();
        sheet.lookback = Setting::Written(rng.pick(&[1, 2, 5, 64]));
        sheet.ceiling = Setting::Written(rng.pick(&[3, 4, 9, 20, 40]));
        for weight in &mut sheet.weights[1..] {
            *weight = Setting::Written(u32::from(rng.chance(150)));
        }
        let rights = [[false, false, false, true]; GUESTS as usize];
        self.runner.member = Member::open_with(0, &sheet, &rights, SERVES).ok();
        self.received = Default::default();
        self.figures.opens += 1;
    }

    /// The lines of a chain record without their ok.
    fn listing(&mut self) -> Vec<u8> {
        let mut lines = Vec::new();
        self.runner.answer(Some(&Record::Chain), &mut lines);
        lines.truncate(lines.len() - b"ok\r\n".len());
        lines
    }

    /// What a driver has received is a prefix of the listing; it is all of it exactly
    /// where none waits.
    fn compare(&mut self, port: u32) {
        let listing = self.listing();
        let status = self.read(port, 5);
        let received = &self.received[port as usize];
        let (prefix, whole) = (listing.starts_with(received), received.len() == listing.len());
        self.figures.compared += 1;
        self.figures.whole += u64::from(whole);
        self.figures.longest = self.figures.longest.max(received.len());
        if !prefix {
            self.fault(&format!("port {port} has given what is no prefix of the listing"));
        }
        if status != if whole { 0x60 } else { 0x61 } {
            self.fault(&format!("port {port} reads {status:#x} at offset 5"));
        }
    }

    fn compare_all(&mut self) {
        if self.runner.member.is_some() {
            (0..GUESTS).for_each(|port| self.compare(port));
        }
    }

    fn read(&mut self, port: u32, offset: u32) -> u8 {
        self.member().guest_port_read(port, offset).expect("a guest that may read")
    }

    fn write(&mut self, port: u32, offset: u32, value: u8) {
        self.member().guest_port_write(port, offset, value).expect("a guest that may read");
    }

    /// A byte of offset 0 that was told to wait.
    fn receive(&mut self, port: u32) {
        let byte = self.read(port, 0);
        self.received[port as usize].push(byte);
        self.figures.bytes += 1;
    }

    /// A driver reads some bytes, each in its own way.
    fn drive(&mut self, port: u32, most: u32) {
        for _ in 0..most {
            match port % 4 {
                0 if self.read(port, 5) == 0x61 => self.receive(port),
                1 => {
                    self.write(port, 1, 0xff);
                    if self.read(port, 2) != 4 {
                        return;
                    }
                    self.receive(port);
                }
                // No byte of a listing is 0.
                2 => match self.read(port, 0) {
                    0 => return,
                    byte => {
                        self.received[port as usize].push(byte);
                        self.figures.bytes += 1;
                    }
                },
                3 => {
                    let some = self.rng.below(256) as u8;
                    self.write(port, 3, DIVISOR | some);
                    self.write(port, 0, some);
                    let found = self.read(port, 0);
                    self.write(port, 3, some & !DIVISOR);
                    if found != some {
                        self.fault(&format!("port {port} has {found} for its divisor, not {some}"));
                    }
                    if self.read(port, 5) != 0x61 {
                        return;
                    }
                    self.receive(port);
                }
                _ => return,
            }
        }
    }

    fn reset(&mut self, port: u32) {
        self.compare(port);
        self.member().port_reset(port).expect("a port of 0 to 7");
        self.received[port as usize].clear();
        self.figures.resets += 1;
    }

    /// One certificate more of the present round, by an author who has none.
    fn accept(&mut self) {
        let Run { rng, runner, .. } = self;
        let member = runner.member.as_mut().expect("opened");
        let round = member.round();
        let Some(&committee) = member.committee_of(round) else { return };
        let inside: Vec<u32> = (0..MEMBERS).filter(|&m| committee[m as usize] > 0).collect();
        let free: Vec<u32> = inside.iter().copied().filter(|&a| !member.is_held(a, round)).collect();
        if free.is_empty() {
            return;
        }
        let (author, before) = (rng.pick(&free), member.held_authors(round - 1));
        let thin = members_of(before).filter(|_| rng.chance(800)).map(single).fold(0, |a, b| a | b);
        let previous = if thin == 0 { before } else { thin };
        let transactions = (0..rng.below(5)).map(|_| transaction(rng)).collect();
        let endorsers = inside.iter().filter(|&&m| m != author).map(|&m| single(m)).fold(0, |a, b| a | b);
        let proposal = Proposal { author, round, previous, transactions };
        let _ = member.accept(&Certificate { proposal, endorsers });
    }

    fn commit(&mut self) {
        let places: Vec<usize> = self.received.iter().map(Vec::len).collect();
        let before = self.listing().len();
        if self.member().commit().is_ok() {
            self.figures.commits += 1;
            self.figures.amid += u64::from(places.iter().any(|&read| 0 < read && read < before));
            self.figures.at_end += u64::from(before > 0 && places.contains(&before));
            self.compare_all();
        }
    }

    fn turn(&mut self) {
        let port = self.rng.below(u64::from(GUESTS)) as u32;
        match self.rng.below(100) {
            0..=54 => self.accept(),
            55..=64 => self.commit(),
            65..=84 => _ = self.member().advance(),
            85 if self.rng.chance(300) => self.reset(port),
            86..=94 => {
                let most = self.rng.pick(&[1, 3, 30, 100, 300]);
                self.drive(port, most);
            }
            _ => {
                let (offset, value) = (self.rng.pick(&[0, 1, 2, 4, 5, 6, 7]), self.rng.below(256) as u8);
                self.write(port, offset, value);
            }
        }
        // No more blocks will come.
        let member = self.member();
        let is_last = member.round() == member.settings().ceiling;
        if (is_last || member.committee_of(member.round()).is_none()) && self.rng.chance(20) {
            self.open();
        }
    }
}

fn main() {
    let mut arguments = std::env::args().skip(1).map(|a| a.parse().expect("a number"));
    let runs: u32 = arguments.next().unwrap_or(10);
    let turns = arguments.next().unwrap_or(5_000);
    let seed = arguments.next().unwrap_or(1);
    let mut f = Figures::default();
    for one in 0..runs {
        let rng = Rng(u64::from(seed) << 32 | u64::from(one));
        let mut run = Run { rng, runner: Runner::default(), received: Default::default(), figures: &mut f };
        run.open();
        (0..turns).for_each(|_| run.turn());
        run.compare_all();
    }
    println!(
        "{runs} runs of {turns} turns: {} opens, {} commits, {} of them with a driver inside the listing, {} with one at its end",
        f.opens, f.commits, f.amid, f.at_end
    );
    println!("{} bytes received, {} resets", f.bytes, f.resets);
    println!("compared with the listing: {} times, {} of them all of it; the longest {} bytes", f.compared, f.whole, f.longest);
    println!("faults: {}", f.faults);
    std::process::exit(i32::from(f.faults > 0))
}
