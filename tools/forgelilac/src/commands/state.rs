//! `state`: what stored words hold, in words; or the first place where they are not well formed.

use crate::arguments::{Arguments, Choice, Command};
use crate::failure::{Failure, Outcome};
use crate::formed::first_fault;
use crate::records::{listed, members_in};
use crate::settings::{sheet_of, told, Setting};
use crate::source::formed;
use crate::store::{words_of, AT};
use crate::weights::{count, grouped, Committee};
use forgelilac::layout::{self, GUESTS};
use forgelilac::{leader, Engine, Member, Refusal, Right, Round, Set, Transaction};
use std::fmt::Write;

pub const COMMAND: Command = Command {
    name: "state",
    forms: &["[--all] [--at BYTE] STORE", "[--all] STATE TABLE"],
    about: "what stored words hold: settings, round, chain, what a commit hangs on, ports, queues",
    details: "\
STORE is what Engine::to_bytes wrote. STATE and TABLE are the words of both as a host in C stores them, four
bytes each, the lowest first (docs/TABLES.md, \"Storing\"); what else a store has in it, as signatures and a
sum, is no part of them; where both stand in a file of a host's own, one behind the other, --at tells where.
Any ceiling will do. Words that are not well formed are told with the first place, what stands there and what
is asked of it, and status 1. Well formed says that the words can be a member's, not that they are those that
were stored (docs/HOSTS.md, \"Stored words\").",
    choices: &[Choice { name: "all", value: None, about: "every block and every round, not the newest alone" }, AT],
    run,
};

/// Blocks and rounds that are shown, where not all are.
const NEWEST: u32 = 8;

fn run(arguments: &Arguments) -> Result<Outcome, Failure> {
    arguments.count(1..=2, "STORE, or STATE and TABLE")?;
    let words = words_of(arguments)?;
    if let Some(fault) = first_fault(&words.state, &words.table) {
        let text = format!(
            "not well formed: {fault}\nEvery call but open answers 1 on these words. Go on from the latest store that is whole (docs/HOSTS.md, \"Stored words\").\n"
        );
        return Ok(Outcome { text, fine: false });
    }
    let mut view = View { engine: formed(&words)?, all: arguments.has("all") };
    let mut text = view.settings();
    for part in [View::committee, View::held, View::chain, View::commit] {
        text.push('\n');
        text.push_str(&part(&mut view)?);
    }
    text.push('\n');
    text.push_str(&view.guests());
    Ok(text.into())
}

struct View {
    engine: Engine,
    all: bool,
}

impl View {
    fn lookback(&self) -> u32 {
        Setting::Lookback.filled(&sheet_of(&self.engine))
    }

    fn ceiling(&self) -> u32 {
        Setting::Ceiling.filled(&sheet_of(&self.engine))
    }

    fn last(&self) -> Result<u32, Refusal> {
        if self.engine.blocks() == 0 {
            Ok(0)
        } else {
            Ok(self.engine.block(self.engine.blocks())?.get())
        }
    }

    fn known(&self) -> Result<u32, Refusal> {
        Ok((self.lookback() + 2 + self.last()?).min(self.ceiling()))
    }

    fn settings(&self) -> String {
        let (_, table) = self.engine.words();
        let beyond = table.len() as u64 - forgelilac::table_words(self.ceiling());
        let own = self.engine.own();
        let mut text = format!(
            "member {own} in round {} of {}, {}\n",
            self.engine.round(),
            grouped(self.ceiling()),
            count(self.engine.blocks() as usize, "block")
        );
        let _ = writeln!(text, "settings: {}", told(&sheet_of(&self.engine)));
        let _ = writeln!(
            text,
            "table: {} words, {} of them beyond what the ceiling uses",
            grouped(table.len() as u64),
            grouped(beyond)
        );
        text
    }

    /// The committee of a round, where it is known.
    fn of_round(&self, round: u32) -> Option<Committee> {
        let weights = self.engine.committee(Round::new(round)).ok()?;
        Some(Committee { weights, margin: Setting::Margin.filled(&sheet_of(&self.engine)) })
    }

    fn committee(&mut self) -> Result<String, Refusal> {
        let (round, known) = (self.engine.round().get(), self.known()?);
        let mut text = format!("rounds are known up to {known}");
        let last_chance = if known % 2 == 0 { known - 1 } else { known };
        let _ = writeln!(text, "; the next block must be made by a commit up to round {last_chance}");
        let Some(committee) = self.of_round(round) else {
            let _ = writeln!(text, "the committee of round {round} is not known: this round is never left (8)");
            return Ok(text);
        };
        let _ = writeln!(text, "committee of round {round}: {}", committee.told());
        let _ = writeln!(
            text,
            "total {}, fault bound {}, a quorum weighs {}, votes that commit weigh {} or more",
            grouped(committee.total()),
            grouped(committee.bound()),
            grouped(committee.quorum()),
            grouped(committee.votes())
        );
        let even = round + round % 2;
        if let Some(member) = self.of_round(even).and_then(|of| leader(Round::new(even), &of.weights)) {
            let _ = writeln!(text, "leader of round {even}: member {member}");
        }
        Ok(text)
    }

    fn held(&mut self) -> Result<String, Refusal> {
        let (engine, round) = (&self.engine, self.engine.round());
        let rounds: Vec<u32> = (1..=self.ceiling()).filter(|round| engine.held(Round::new(*round)) != 0).collect();
        let all: u32 = rounds.iter().map(|round| engine.held(Round::new(*round)).count_ones()).sum();
        let mut text = format!("held: {} of {}\n", count(all as usize, "certificate"), count(rounds.len(), "round"));
        let first = if self.all { 0 } else { rounds.len().saturating_sub(NEWEST as usize) };
        for of in &rounds[first..] {
            let _ = writeln!(text, "  round {of}: by {}", members_in(engine.held(Round::new(*of))));
        }
        let here = engine.held(round);
        if let Some(committee) = self.of_round(round.get()) {
            let missing: Set = committee.members().filter(|member| here & member.bit() == 0).map(Member::bit).sum();
            let _ = writeln!(text, "of round {round} missing: {}", members_in(missing));
            let leaves = if round.get() == self.ceiling() {
                "no: it is the ceiling (18)".to_owned()
            } else if committee.is_quorum(here) {
                "yes".to_owned()
            } else {
                format!(
                    "no: the authors held weigh {} of {} (28)",
                    grouped(committee.weight_of(here)),
                    grouped(committee.quorum())
                )
            };
            let _ = writeln!(text, "could it leave round {round}: {leaves}");
        }
        match engine.proposal() {
            Some(proposal) => {
                let _ = writeln!(
                    text,
                    "own proposal of round {round}: names {}; {}",
                    members_in(proposal.previous),
                    listed(&proposal.transactions)
                );
            }
            None => {
                let _ = writeln!(text, "no own proposal in round {round}");
            }
        }
        let (_, table) = engine.words();
        let endorsed = |round: u32| (table[layout::row(round) + layout::ROW_ENDORSED] & 0xffff) as Set;
        let places: Vec<_> = (1..=self.ceiling())
            .flat_map(|round| Member::all_in(endorsed(round)).map(move |author| format!("{round}/{author}")))
            .collect();
        let places = if places.is_empty() { "none".to_owned() } else { places.join(" ") };
        let _ = writeln!(text, "endorsed, and the certificate not held: {places}");
        Ok(text)
    }

    fn chain(&mut self) -> Result<String, Refusal> {
        let blocks = self.engine.chain()?;
        let mut text = format!("chain: {}\n", count(blocks.len(), "block"));
        let first = if self.all { 0 } else { blocks.len().saturating_sub(NEWEST as usize) };
        for (number, block) in (1..).zip(&blocks).skip(first) {
            let anchor = block.certificates.iter().find(|entry| entry.round == block.round);
            let anchor = anchor.map_or("none".to_owned(), |entry| format!("{}/{}", entry.round, entry.author));
            let counts = block.round.get() + self.lookback() + 1;
            let above = if counts > self.ceiling() { ", above the ceiling" } else { "" };
            let certificates = count(block.certificates.len(), "certificate");
            let _ = writeln!(
                text,
                "  block {number} of round {}: {certificates}, anchor {anchor}; counts from round {counts}{above}",
                block.round
            );
        }
        Ok(text)
    }

    fn commit(&mut self) -> Result<String, Refusal> {
        let round = self.engine.round();
        match self.engine.preview() {
            Err(refusal) => Ok(format!("a commit in round {round} would be {refusal}\n")),
            Ok(entries) => {
                let blocks: std::collections::BTreeSet<_> = entries.iter().map(|entry| entry.block).collect();
                let mut text = format!(
                    "a commit in round {round} would add {} with {}\n",
                    count(blocks.len(), "block"),
                    count(entries.len(), "certificate")
                );
                let hung = self.engine.critical()?;
                let places: Vec<_> = hung.iter().map(|place| format!("{}/{}", place.round, place.author)).collect();
                let _ = writeln!(text, "it hangs on: {}", places.join(" "));
                Ok(text)
            }
        }
    }

    fn guests(&self) -> String {
        let (_, table) = self.engine.words();
        let served = table[layout::SERVED].checked_sub(1).map_or("none".to_owned(), |guest| guest.to_string());
        let mut text = format!("guest served last: {served}\n");
        for guest in 0..GUESTS as u32 {
            let mut parts = Vec::new();
            let waiting = self.waiting(guest);
            if !waiting.is_empty() {
                parts.push(format!("waiting, the oldest first: {}", listed(&waiting)));
            }
            let rights: Vec<_> = Right::ALL
                .into_iter()
                .filter(|right| self.engine.rights().may(guest, *right))
                .map(|right| format!("{right:?}").to_lowercase())
                .collect();
            if !rights.is_empty() {
                parts.push(format!("may {}", rights.join(", ")));
            }
            parts.extend(self.port(guest));
            if !parts.is_empty() {
                let _ = writeln!(text, "guest {guest}: {}", parts.join("; "));
            }
        }
        let quiet = text.lines().count() == 1;
        if quiet {
            text.push_str("no guest has a right, something waiting, or a port that was used\n");
        }
        text
    }

    fn waiting(&self, guest: u32) -> Vec<Transaction> {
        let (_, table) = self.engine.words();
        let waiting = table[layout::WAITING + guest as usize] as usize;
        let words = table[layout::queue(guest)..].chunks_exact(3).take(waiting);
        words.filter_map(|words| Transaction::from_words([words[0], words[1], words[2]]).ok()).collect()
    }

    /// A port that is not as after a reset.
    fn port(&self, guest: u32) -> Option<String> {
        let (_, table) = self.engine.words();
        let words = &table[layout::port(guest)..][..layout::PORT_WORDS];
        if words.iter().all(|word| *word == 0) {
            return None;
        }
        let (place, byte) = (words[layout::PORT_PLACE], words[layout::PORT_BYTE]);
        let read = if byte == 0 {
            "nothing read".to_owned()
        } else {
            format!("read up to byte {byte} of the line of {}/{}", place / 16, place % 16)
        };
        let registers = [
            ("enable", layout::PORT_ENABLE),
            ("line control", layout::PORT_LINE),
            ("modem control", layout::PORT_MODEM),
            ("scratch", layout::PORT_SCRATCH),
            ("divisor low", layout::PORT_DIVISOR_LOW),
            ("divisor high", layout::PORT_DIVISOR_HIGH),
        ];
        let registers =
            registers.iter().filter(|(_, at)| words[*at] != 0).map(|(name, at)| format!(", {name} {}", words[*at]));
        Some(format!("port: {read}{}", registers.collect::<String>()))
    }
}
