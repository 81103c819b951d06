//! What a member holds and the chain that it makes of it, of any origin: records with a runner's answers, or stored words.
//!
//! What is held and what is in a block is taken from there; leaders of rounds without a block are worked out from
//! settings and chain, by docs/RULES.md.

use crate::answers::{bare, Said};
use crate::arguments::number;
use crate::failure::{input, Failure};
use crate::records::{read, Raw, Record};
use crate::settings::{fault_of, sheet_of, start_of, Setting};
use forgelilac::{layout, leader, Engine, Member, Refusal, Round, Set, Sheet, Transaction, CEILING, MEMBERS};
use std::collections::{BTreeMap, BTreeSet};

/// Round and author.
pub type Place = (u32, u32);

#[derive(Clone, Debug)]
pub struct Certificate {
    pub previous: Set,
    /// Where they are known.
    pub endorsers: Set,
    pub transactions: Vec<Transaction>,
}

#[derive(Clone, Debug)]
pub struct Block {
    pub number: u32,
    pub round: u32,
    pub places: Vec<Place>,
    /// The round of the commit that made it, where that is known.
    pub commit: Option<u32>,
    /// Not made: a commit would add it.
    pub planned: bool,
}

impl Block {
    /// Its one certificate of its own round.
    pub fn anchor(&self) -> Place {
        self.places.iter().copied().find(|place| place.0 == self.round).unwrap_or((self.round, 0))
    }
}

/// What a commit in the present round would be answered.
#[derive(Clone, Copy, Debug)]
pub enum Preview {
    Adds(u32),
    Refused(u32),
}

pub struct Run {
    pub own: u32,
    pub round: u32,
    lookback: u32,
    weights: [u32; MEMBERS],
    margin: u32,
    pub held: BTreeMap<Place, Certificate>,
    pub blocks: Vec<Block>,
    pub preview: Option<Preview>,
    /// The rounds that are shown; nothing for all.
    pub window: Option<(u32, u32)>,
}

impl Run {
    fn of_sheet(own: Member, sheet: &Sheet) -> Run {
        let start = start_of(sheet);
        Run {
            own: own.get(),
            round: 1,
            lookback: Setting::Lookback.filled(sheet),
            weights: start.weights,
            margin: start.margin,
            held: BTreeMap::new(),
            blocks: Vec::new(),
            preview: None,
            window: None,
        }
    }

    /// Of records and what a runner answered to them, which ends in an accepted chain. For a preview the last
    /// commit is one that would be made.
    pub fn of_answers(raws: &[Raw<'_>], said: &[Said], preview: bool) -> Result<Run, Failure> {
        if said.len() != raws.len() {
            let how = if said.len() < raws.len() { "fewer" } else { "more" };
            return input(format!("{how} answers than records: the answers are not those to this stream"));
        }
        let (mut taken, mut last): (Option<Taken>, _) = (None, None);
        for (raw, said) in raws.iter().zip(said) {
            let Ok(record) = read(raw) else { continue };
            last = Some((record.name(), said));
            if let (Record::Open { own, sheet }, true) = (&record, said.accepted()) {
                if let Some(fault) =
                    fault_of(sheet).or_else(|| (*own > 15).then(|| format!("there is no member {own}")))
                {
                    return input(format!("{} was accepted, and no member opens by it: {fault}", raw.place()));
                }
                taken =
                    Some(Taken { run: Run::of_sheet(*own, sheet), commits: Vec::new(), proposal: None, listed: false });
            } else if let (Some(taken), true) = (&mut taken, said.accepted()) {
                let why = |why: String| Failure::Input(format!("the answer to {}: {why}", raw.place()));
                taken.take(&record, said).map_err(why)?;
            }
        }
        let (Some(taken), Some(("chain", _))) = (taken.filter(|taken| taken.listed), last) else {
            return input("the stream must end in an accepted chain");
        };
        let mut run = taken.run;
        if preview {
            let commit = said.len().checked_sub(2).map(|at| (read(&raws[at]), said[at].closing()));
            let Some((Ok(Record::Commit), closing)) = commit else {
                return input("the stream of a preview must end in commit and chain");
            };
            let text = String::from_utf8_lossy(closing);
            let (name, value) = text.split_once(',').unwrap_or((&text, "0"));
            let value = number(value).unwrap_or(0);
            run.plan(if name == "ok" { Preview::Adds(value) } else { Preview::Refused(value) });
        }
        Ok(run)
    }

    /// Of an engine's words.
    pub fn of_engine(engine: &Engine, preview: bool) -> Result<Run, Refusal> {
        let mut engine = engine.clone();
        let mut run = Run::of_sheet(engine.own(), &sheet_of(&engine));
        run.round = engine.round().get();
        let told =
            preview.then(|| engine.commit().map_or_else(|refusal| Preview::Refused(refusal.number()), Preview::Adds));
        for (number, block) in (1..).zip(engine.chain()?) {
            let places = block.certificates.iter().map(|entry| (entry.round.get(), entry.author.get())).collect();
            run.blocks.push(Block { number, round: block.round.get(), places, commit: None, planned: false });
        }
        let ceiling = Setting::Ceiling.filled(&sheet_of(&engine));
        for round in 1..=ceiling {
            for author in Member::all_in(engine.held(Round::new(round))) {
                run.held.insert((round, author.get()), held_at(&engine, author, round));
            }
        }
        if let Some(told) = told {
            run.plan(told);
        }
        Ok(run)
    }

    /// The last commit is taken for one that would be made: its blocks are planned ones.
    fn plan(&mut self, told: Preview) {
        let added = if let Preview::Adds(blocks) = told { blocks as usize } else { 0 };
        let made = self.blocks.len().saturating_sub(added);
        self.blocks[made..].iter_mut().for_each(|block| (block.planned, block.commit) = (true, Some(self.round)));
        self.preview = Some(told);
    }

    /// The block at each place that is in one.
    pub fn block_of(&self) -> BTreeMap<Place, &Block> {
        self.blocks.iter().flat_map(|block| block.places.iter().map(move |place| (*place, block))).collect()
    }

    /// The weights of the bonded committee of a round.
    fn bonded(&self, round: u32) -> [u32; MEMBERS] {
        let mut weights = self.weights;
        let places = self.blocks.iter().filter(|block| block.round < round).flat_map(|block| &block.places);
        for transaction in places.filter_map(|place| self.held.get(place)).flat_map(|held| &held.transactions) {
            match *transaction {
                Transaction::Bond { member, amount } if member <= 15 => weights[member.index()] += amount,
                Transaction::Unbond { member } if member <= 15 => weights[member.index()] = 0,
                _ => {}
            }
        }
        weights
    }

    /// The weights of a round's committee.
    fn committee(&self, round: u32) -> [u32; MEMBERS] {
        if round <= self.lookback {
            self.weights
        } else {
            self.bonded(round - self.lookback)
        }
    }

    /// The leader of an even round; none where the committee is empty or not known.
    fn leader(&self, round: u32) -> Option<u32> {
        let last = self.blocks.iter().filter(|block| !block.planned).map(|block| block.round).max().unwrap_or(0);
        if round > self.lookback + last + 2 {
            return None;
        }
        leader(Round::new(round), &self.committee(round)).map(Member::get)
    }

    /// Even rounds without a block that have a leader, each with its leader.
    pub fn unblocked(&self) -> BTreeMap<u32, u32> {
        let blocked: BTreeSet<u32> = self.blocks.iter().map(|block| block.round).collect();
        let rounds = self.rounds().filter(|round| round % 2 == 0 && !blocked.contains(round));
        rounds.filter_map(|round| self.leader(round).map(|leader| (round, leader))).collect()
    }

    /// What a commit that would add blocks hangs on: the anchor, and each vote without which the others weigh not
    /// more than the fault bound.
    pub fn critical(&self) -> Vec<Place> {
        let Some(newest) = self.blocks.last().filter(|block| block.planned) else { return Vec::new() };
        let (anchor, weights) = (newest.anchor(), self.committee(self.round));
        let named = |certificate: &Certificate| certificate.previous >> anchor.1 & 1 == 1;
        let votes: Vec<_> = self
            .held
            .range((self.round, 0)..(self.round + 1, 0))
            .filter(|(_, certificate)| named(certificate))
            .map(|(place, _)| (*place, weights[place.1 as usize % MEMBERS]))
            .collect();
        let bound = weights.iter().sum::<u32>().saturating_sub(1) / self.margin;
        let all: u32 = votes.iter().map(|(_, weight)| weight).sum();
        let pivots = votes.iter().filter(|(_, weight)| all - weight <= bound).map(|(place, _)| *place);
        [anchor].into_iter().chain(pivots).collect()
    }

    /// The last round of which something is known.
    fn last_round(&self) -> u32 {
        self.held.last_key_value().map_or(self.round, |(place, _)| self.round.max(place.0))
    }

    /// The rounds that are shown.
    pub fn rounds(&self) -> std::ops::RangeInclusive<u32> {
        let (first, last) = self.window.unwrap_or((1, u32::MAX));
        first..=last.min(self.last_round())
    }

    pub fn shows(&self, place: Place) -> bool {
        self.rounds().contains(&place.0)
    }

    /// The certificates that are shown.
    pub fn shown(&self) -> impl Iterator<Item = (Place, &Certificate)> {
        self.held.iter().filter(|(place, _)| self.shows(**place)).map(|(place, certificate)| (*place, certificate))
    }

    /// The blocks of rounds that are shown.
    pub fn shown_blocks(&self) -> impl Iterator<Item = &Block> {
        self.blocks.iter().filter(|block| self.rounds().contains(&block.round))
    }

    pub fn members(&self) -> Vec<u32> {
        let authors = self.held.keys().map(|place| place.1);
        authors.chain([self.own]).chain(self.unblocked().into_values()).collect::<BTreeSet<_>>().into_iter().collect()
    }
}

/// A run while its records are taken.
struct Taken {
    run: Run,
    /// The round of the commit that made block 1, 2, ..
    commits: Vec<u32>,
    proposal: Option<(Set, Vec<Transaction>)>,
    listed: bool,
}

impl Taken {
    /// One accepted record.
    fn take(&mut self, record: &Record, said: &Said) -> Result<(), String> {
        self.listed = false;
        let round = self.run.round;
        match record {
            Record::Propose { previous, transactions } => self.proposal = Some((*previous, transactions.clone())),
            Record::Certify { endorsers } => {
                let Some((previous, transactions)) = self.proposal.clone() else {
                    return Err("a certify was accepted and no propose before it".to_owned());
                };
                in_range(&transactions)?;
                let certificate = Certificate { previous, endorsers: *endorsers, transactions };
                self.run.held.insert((round, self.run.own), certificate);
            }
            Record::Accept(one) => {
                let proposal = &one.proposal;
                if proposal.author > 15 || proposal.round == 0 || proposal.round > CEILING {
                    return Err(format!(
                        "{}/{} was accepted, and there is no such place",
                        proposal.round, proposal.author
                    ));
                }
                in_range(&proposal.transactions)?;
                let certificate = Certificate {
                    previous: proposal.previous,
                    endorsers: one.endorsers,
                    transactions: proposal.transactions.clone(),
                };
                self.run.held.insert((proposal.round.get(), proposal.author.get()), certificate);
            }
            Record::Advance if round == CEILING => return Err("an advance from the last round was accepted".to_owned()),
            Record::Advance => (self.run.round, self.proposal) = (round + 1, None),
            Record::Commit => {
                let closing = String::from_utf8_lossy(said.closing()).into_owned();
                let added = closing.strip_prefix("ok,").and_then(number).filter(|added| *added <= 511);
                let added = added.ok_or_else(|| format!("{closing} is no answer to a commit"))?;
                self.commits.extend(std::iter::repeat_n(round, added as usize));
            }
            Record::Chain => {
                self.run.blocks = self.blocks_of(said)?;
                self.listed = true;
            }
            Record::Open { .. } | Record::Endorse(_) => {}
        }
        Ok(())
    }

    fn blocks_of(&self, said: &Said) -> Result<Vec<Block>, String> {
        let mut blocks: Vec<Block> = Vec::new();
        for line in &said.lines[..said.lines.len() - 1] {
            let text = String::from_utf8_lossy(bare(line)).into_owned();
            let fields: Vec<_> = text.split(',').take(4).filter_map(number).collect();
            let [block, block_round, round, author] = fields[..] else {
                return Err(format!("'{}' is no line of a listing", text.escape_debug()));
            };
            let fresh = blocks.last().is_none_or(|last| last.number != block);
            if fresh {
                let commit = (block as usize).checked_sub(1).and_then(|at| self.commits.get(at)).copied();
                blocks.push(Block { number: block, round: block_round, places: Vec::new(), commit, planned: false });
            }
            if !self.run.held.contains_key(&(round, author)) {
                return Err(format!("{round}/{author} is listed and no record was accepted that holds it"));
            }
            if let Some(last) = blocks.last_mut() {
                last.places.push((round, author));
            }
        }
        Ok(blocks)
    }
}

/// That what was accepted is what the rules accept, so that weights can be reckoned.
fn in_range(transactions: &[Transaction]) -> Result<(), String> {
    let fine = |transaction: &Transaction| match *transaction {
        Transaction::Bond { member, amount } => member <= 15 && (1..=1_000).contains(&amount),
        Transaction::Unbond { member } => member <= 15,
        _ => true,
    };
    if transactions.iter().all(fine) {
        Ok(())
    } else {
        Err("a transaction out of range was accepted".to_owned())
    }
}

/// A held certificate, by the words of the table.
fn held_at(engine: &Engine, author: Member, round: u32) -> Certificate {
    let (_, table) = engine.words();
    let record = &table[layout::record(author, Round::new(round))..][..layout::RECORD_WORDS];
    let words = record[layout::RECORD_TRANSACTIONS..].chunks_exact(3).take(record[layout::RECORD_COUNT] as usize);
    Certificate {
        previous: record[layout::RECORD_PREVIOUS] as Set,
        endorsers: record[layout::RECORD_ENDORSERS] as Set,
        transactions: words.filter_map(|words| Transaction::from_words([words[0], words[1], words[2]]).ok()).collect(),
    }
}
