//! `committees < stream`: of the chain that a stream of records leaves in an engine of the package, a
//! line for each block: its number, its round, and the sixteen weights of the committee of the round
//! from which on it counts, lookback + block's round + 1, as read; no weights where that is above the
//! ceiling. reference/owners.py compares the register of plant owners with these lines.

use forgelilac::{table_words, Certificate, Engine, Member, Proposal, Refusal, Rights, Round, Sheet, Transaction};
use reference::runner::{for_each_record, read_record, Record, SERVES};
use reference::Setting;
use std::io::{stdin, stdout, BufWriter, Write};

fn sheet(sheet: &reference::Sheet) -> Sheet {
    let of = |setting| match setting {
        Setting::Blank => None,
        Setting::Written(number) => Some(number),
    };
    Sheet {
        lookback: of(sheet.lookback),
        ceiling: of(sheet.ceiling),
        allowance: of(sheet.allowance),
        weights: sheet.weights.map(of),
        margin: of(sheet.margin),
    }
}

fn transactions(all: &[reference::Transaction]) -> Vec<Transaction> {
    let of = |transaction: &reference::Transaction| match *transaction {
        reference::Transaction::Bond { member, amount } => Transaction::Bond { member: Member::new(member), amount },
        reference::Transaction::Unbond { member } => Transaction::Unbond { member: Member::new(member) },
        reference::Transaction::Entry { number } => Transaction::Entry { number },
    };
    all.iter().map(of).collect()
}

fn proposal(one: &reference::Proposal) -> Proposal {
    let (author, round) = (Member::new(one.author), Round::new(one.round));
    Proposal { author, round, previous: one.previous, transactions: transactions(&one.transactions) }
}

/// An engine, once an open was accepted, and the lookback that it was opened with.
struct Opened {
    engine: Option<Engine>,
    lookback: u32,
}

impl Opened {
    /// What a record does; a listing does nothing.
    fn take(&mut self, record: &Record) -> Result<(), Refusal> {
        if let Record::Open { own, sheet: written } = record {
            let table = vec![0; table_words(SERVES) as usize];
            self.engine = Some(Engine::open_on(table, Member::new(*own), &sheet(written), Rights::NONE)?);
            self.lookback = sheet(written).lookback.unwrap_or(20);
        }
        let engine = self.engine.as_mut().ok_or(Refusal::Malformed)?;
        match record {
            Record::Open { .. } => Ok(()),
            Record::Propose { previous, transactions: all } => engine.propose(*previous, &transactions(all)),
            Record::Endorse(one) => engine.endorse(&proposal(one)),
            Record::Certify { endorsers } => engine.certify(*endorsers),
            Record::Accept(one) => {
                engine.accept(&Certificate { proposal: proposal(&one.proposal), endorsers: one.endorsers })
            }
            Record::Advance => engine.advance(),
            Record::Commit => engine.commit().map(|_| ()),
            Record::Chain => Ok(()),
        }
    }
}

fn main() -> std::io::Result<()> {
    let mut opened = Opened { engine: None, lookback: 0 };
    for_each_record(&mut stdin().lock(), |text| {
        // A refused record changes nothing.
        text.and_then(read_record).map(|record| opened.take(&record).is_ok());
        Ok(())
    })?;
    let mut out = BufWriter::new(stdout().lock());
    // No open was accepted: no chain.
    let Some(engine) = opened.engine else { return Ok(()) };
    let chain = engine.chain().expect("an engine that was opened has one");
    for (number, block) in (1..).zip(chain) {
        write!(out, "{number},{}", block.round)?;
        match engine.committee(Round::new(opened.lookback + block.round.get() + 1)) {
            Ok(weights) => weights.iter().try_for_each(|weight| write!(out, ",{weight}"))?,
            Err(refusal) => assert_eq!(refusal.number(), 5, "a round from which on a block counts is known"),
        }
        writeln!(out)?;
    }
    out.flush()
}
