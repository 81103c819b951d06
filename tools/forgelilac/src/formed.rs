//! Where stored words are not well formed: the first place, what stands there, and what is asked of it
//! (docs/RULES.md, "A member's state"; docs/TABLES.md, word by word).

use crate::records::triples;
use forgelilac::layout::{
    port, queue, row, GUESTS, PORT_BYTE, PORT_DIVISOR_HIGH, PORT_DIVISOR_LOW, PORT_ENABLE, PORT_LINE, PORT_MODEM,
    PORT_PLACE, PORT_SCRATCH, QUEUE_PLACES, RECORD_BLOCK, RECORD_COUNT, RECORD_ENDORSERS, RECORD_PREVIOUS,
    RECORD_TRANSACTIONS, ROW_BLOCK, ROW_ENDORSED, ROW_HELD, SERVED, STATE_ALLOWANCE, STATE_BLOCKS, STATE_BODY,
    STATE_CEILING, STATE_LOOKBACK, STATE_MARGIN, STATE_OWN, STATE_PROPOSED, STATE_ROUND, STATE_WEIGHTS, STATE_WORDS,
    WAITING,
};
use forgelilac::{layout, table_words, Member, Round, Set, Transaction, MEMBERS};
use std::fmt;

/// The first place where words are not well formed.
#[derive(Clone, PartialEq, Eq, Debug)]
pub struct Fault {
    /// Which word it is, and what it is for.
    pub place: String,
    pub value: u64,
    /// What is asked of it.
    pub asked: String,
}

impl fmt::Display for Fault {
    fn fmt(&self, f: &mut fmt::Formatter<'_>) -> fmt::Result {
        write!(f, "{} is {}: {}", self.place, self.value, self.asked)
    }
}

type Check = Result<(), Fault>;

fn ask(holds: bool, value: u32, place: impl FnOnce() -> String, asked: impl FnOnce() -> String) -> Check {
    if holds {
        return Ok(());
    }
    Err(Fault { place: place(), value: value.into(), asked: asked() })
}

/// The first place that is not well formed, nothing where all is.
pub fn first_fault(state: &[u32; STATE_WORDS], table: &[u32]) -> Option<Fault> {
    let words = Stored { state, table };
    words.state_is_fine().and_then(|()| words.table_is_fine()).err()
}

struct Stored<'a> {
    state: &'a [u32; STATE_WORDS],
    table: &'a [u32],
}

impl Stored<'_> {
    fn ceiling(&self) -> u32 {
        self.state[STATE_CEILING]
    }

    fn blocks(&self) -> u32 {
        self.state[STATE_BLOCKS]
    }

    /// A word of the state within bounds.
    fn ranged(&self, at: usize, what: &str, low: u32, high: u32) -> Check {
        let value = self.state[at];
        let asked = || format!("it must be {low} to {high}");
        ask((low..=high).contains(&value), value, || format!("word {at} of the state, {what},"), asked)
    }

    fn state_is_fine(&self) -> Check {
        self.ranged(STATE_OWN, "the own number", 0, 15)?;
        self.ranged(STATE_LOOKBACK, "the lookback", 1, 1_000)?;
        self.ranged(STATE_CEILING, "the ceiling", 3, 1_024)?;
        self.ranged(STATE_ALLOWANCE, "the allowance", 0, 4)?;
        for member in 0..MEMBERS {
            self.ranged(STATE_WEIGHTS + member, &format!("the starting weight of member {member}"), 0, 1_000_000)?;
        }
        let weights = &self.state[STATE_WEIGHTS..STATE_WEIGHTS + MEMBERS];
        let all_zero = || "words 4 to 19 of the state, the starting weights, all of them,".to_owned();
        ask(weights.iter().any(|weight| *weight > 0), 0, all_zero, || "one must be positive".to_owned())?;
        self.ranged(STATE_ROUND, "the present round", 1, self.ceiling())?;
        self.ranged(STATE_PROPOSED, "whether there is a proposal", 0, 1)?;
        self.ranged(STATE_BLOCKS, "the number of blocks", 0, self.ceiling())?;
        self.ranged(STATE_MARGIN, "the margin", 3, 5)?;
        if self.state[STATE_PROPOSED] == 1 {
            let words = &self.state[STATE_BODY..STATE_MARGIN];
            let place =
                |word: usize, what: &str| format!("word {} of the state, {what} of the proposal,", STATE_BODY + word);
            self.body_is_fine(self.state[STATE_ROUND], words[0], words[1], &words[2..], |part| match part {
                Part::Previous => place(0, "the previous set"),
                Part::Count => place(1, "the number of transactions"),
                Part::Transaction(at) => place(2 + at, &word_of_transaction(at)),
            })?;
        }
        let needed = table_words(self.ceiling());
        if (self.table.len() as u64) < needed {
            let asked = format!("a ceiling of {} needs {needed} words", self.ceiling());
            return Err(Fault { place: "the length of the table".to_owned(), value: self.table.len() as u64, asked });
        }
        Ok(())
    }

    /// A previous set, a number of transactions and these: of a proposal or of a held certificate.
    fn body_is_fine(
        &self, round: u32, previous: u32, count: u32, transactions: &[u32], place: impl Fn(Part) -> String,
    ) -> Check {
        let is_set = || "a set is at most 65,535".to_owned();
        ask(Set::try_from(previous).is_ok(), previous, || place(Part::Previous), is_set)?;
        let empty = if round == 1 { "it must be 0 in round 1" } else { "it must not be 0 above round 1" };
        ask((previous == 0) == (round == 1), previous, || place(Part::Previous), || empty.to_owned())?;
        let allowance = self.state[STATE_ALLOWANCE];
        let most = || format!("the allowance is {allowance}");
        ask(count <= allowance, count, || place(Part::Count), most)?;
        transactions_are_fine(transactions, count, |at| place(Part::Transaction(at)))
    }

    fn table_is_fine(&self) -> Check {
        self.queues_are_fine()?;
        self.rows_are_fine()?;
        self.ports_are_fine()
    }

    fn queues_are_fine(&self) -> Check {
        let word = |at: usize, what: &str| format!("word {at} of the table, {what},");
        let served = self.table[SERVED];
        let of_served = || "it must be 0 for none, or the guest and 1, so 1 to 8".to_owned();
        ask(served <= GUESTS as u32, served, || word(SERVED, "the guest served last and 1"), of_served)?;
        for guest in 0..GUESTS {
            let waiting = self.table[WAITING + guest];
            let what = || word(WAITING + guest, &format!("how many of guest {guest} wait"));
            ask(waiting <= QUEUE_PLACES as u32, waiting, what, || "a queue has eight places".to_owned())?;
            let first = queue(guest as u32);
            transactions_are_fine(&self.table[first..first + 3 * QUEUE_PLACES], waiting, |at| {
                word(first + at, &format!("{} in the queue of guest {guest}", word_of_transaction(at)))
            })?;
        }
        Ok(())
    }

    fn rows_are_fine(&self) -> Check {
        let mut last = 0;
        for round in 1..=self.ceiling() {
            let at = row(round);
            if round <= self.blocks() {
                let block = self.table[at + ROW_BLOCK];
                let what = || format!("word {} of the table, the round of block {round},", at + ROW_BLOCK);
                ask(block % 2 == 0, block, what, || "it must be even".to_owned())?;
                ask(block > last, block, what, || format!("it must be above {last}, that of the block before"))?;
                ask(block < self.ceiling(), block, what, || {
                    format!("it must be below the ceiling, {}", self.ceiling())
                })?;
                last = block;
            }
            for (word, what) in [(ROW_HELD, "held"), (ROW_ENDORSED, "endorsed")] {
                let set = self.table[at + word];
                let place = || format!("word {} of the table, the {what} set of round {round},", at + word);
                ask(Set::try_from(set).is_ok(), set, place, || "a set is at most 65,535".to_owned())?;
            }
            for author in Member::all_in(self.table[at + ROW_HELD] as Set) {
                self.record_is_fine(author, round)?;
            }
        }
        Ok(())
    }

    fn record_is_fine(&self, author: Member, round: u32) -> Check {
        let at = layout::record(author, Round::new(round));
        let record = &self.table[at..at + layout::RECORD_WORDS];
        let place = |word: usize, what: &str| format!("word {} of the table, {what} of {round}/{author},", at + word);
        let (previous, count, transactions) =
            (record[RECORD_PREVIOUS], record[RECORD_COUNT], &record[RECORD_TRANSACTIONS..]);
        self.body_is_fine(round, previous, count, transactions, |part| match part {
            Part::Previous => place(RECORD_PREVIOUS, "the previous set"),
            Part::Count => place(RECORD_COUNT, "the number of transactions"),
            Part::Transaction(at) => place(RECORD_TRANSACTIONS + at, &word_of_transaction(at)),
        })?;
        let mark = record[RECORD_BLOCK];
        let of_mark = || format!("it must be 0, or a block, of which there are {}", self.blocks());
        ask(mark <= self.blocks(), mark, || place(RECORD_BLOCK, "the commit mark"), of_mark)?;
        let endorsers = record[RECORD_ENDORSERS];
        let what = || place(RECORD_ENDORSERS, "the endorsers");
        ask(Set::try_from(endorsers).is_ok(), endorsers, what, || "a set is at most 65,535".to_owned())?;
        let own = endorsers & u32::from(author.bit()) == 0;
        ask(own, endorsers, what, || format!("the author, member {author}, must not be among them"))
    }

    fn ports_are_fine(&self) -> Check {
        for guest in 0..GUESTS {
            let first = port(guest as u32);
            let words = &self.table[first..first + layout::PORT_WORDS];
            let place = |word: usize, what: &str| {
                format!("word {} of the table, {what} of the port of guest {guest},", first + word)
            };
            self.reading_is_fine(words[PORT_PLACE], words[PORT_BYTE], place)?;
            for (word, what, most) in [
                (PORT_ENABLE, "the interrupt enable", 1),
                (PORT_LINE, "the line control", 255),
                (PORT_MODEM, "the modem control", 31),
                (PORT_SCRATCH, "the scratch register", 255),
                (PORT_DIVISOR_LOW, "the divisor's low byte", 255),
                (PORT_DIVISOR_HIGH, "the divisor's high byte", 255),
            ] {
                ask(words[word] <= most, words[word], || place(word, what), || format!("it must be 0 to {most}"))?;
            }
        }
        Ok(())
    }

    /// Where a port has read to: nowhere, or a byte of the line of a certificate that is in a block.
    fn reading_is_fine(&self, at: u32, byte: u32, place: impl Fn(usize, &str) -> String) -> Check {
        if (at, byte) == (0, 0) {
            return Ok(());
        }
        let of_place = || place(PORT_PLACE, "the line that was read last");
        let held = || "it must be 16 × round + author of a held certificate that is in a block".to_owned();
        let (round, author) = (at / 16, Member::new(at % 16));
        let in_range = (1..=self.ceiling()).contains(&round);
        let line = in_range.then(|| self.line_of(author, round)).flatten();
        let Some(length) = line else { return ask(false, at, of_place, held) };
        let of_byte = || place(PORT_BYTE, "the byte that was read last");
        ask((1..=length).contains(&byte), byte, of_byte, || {
            format!("the line of {round}/{author} has the bytes 1 to {length}, CR and LF among them")
        })
    }

    /// How long the listing's line of a certificate is, where it is held and in a block.
    fn line_of(&self, author: Member, round: u32) -> Option<u32> {
        let held = self.table[row(round) + ROW_HELD] & u32::from(author.bit()) != 0;
        let at = layout::record(author, Round::new(round));
        let record = &self.table[at..at + layout::RECORD_WORDS];
        let mark = record[RECORD_BLOCK];
        if !held || mark == 0 || mark > self.blocks() {
            return None;
        }
        let block = self.table[row(mark) + ROW_BLOCK];
        let transactions: Vec<_> = record[RECORD_TRANSACTIONS..]
            .chunks_exact(3)
            .take(record[RECORD_COUNT] as usize)
            .filter_map(|words| Transaction::from_words([words[0], words[1], words[2]]).ok())
            .collect();
        let line = format!("{mark},{block},{round},{author}{}\r\n", triples(&transactions));
        u32::try_from(line.len()).ok()
    }
}

/// A part of a body that may be at fault.
enum Part {
    Previous,
    Count,
    /// A word of the transactions, from 0.
    Transaction(usize),
}

fn word_of_transaction(at: usize) -> String {
    format!("the {} of transaction {}", ["kind", "number", "amount"][at % 3], at / 3)
}

fn transactions_are_fine(words: &[u32], count: u32, place: impl Fn(usize) -> String) -> Check {
    for (index, words) in words.chunks_exact(3).take(count as usize).enumerate() {
        let at = |word: usize| move || 3 * index + word;
        let (kind, number, amount) = (words[0], words[1], words[2]);
        let word = |part: usize| place(at(part)());
        ask(kind <= 2, kind, || word(0), || "a kind is 0 (bond), 1 (unbond) or 2 (entry)".to_owned())?;
        ask(kind == 2 || number <= 15, number, || word(1), || "a member is 0 to 15".to_owned())?;
        let asked = || if kind == 0 { "a bond is by 1 to 1,000" } else { "an unbond and an entry have 0" }.to_owned();
        ask(if kind == 0 { (1..=1_000).contains(&amount) } else { amount == 0 }, amount, || word(2), asked)?;
    }
    Ok(())
}

#[cfg(test)]
mod tests {
    use super::*;
    use forgelilac::{Certificate, Engine, Proposal, Rights, Sheet};

    /// Numbers by chance, from a seed.
    struct Chance(u64);

    impl Chance {
        fn below(&mut self, most: usize) -> usize {
            self.0 = self.0.wrapping_mul(6_364_136_223_846_793_005).wrapping_add(1_442_695_040_888_963_407);
            (self.0 >> 33) as usize % most
        }
    }

    /// A member of four with full rounds, something in each kind of transaction, queue and port.
    fn grown(chance: &mut Chance) -> Engine {
        let sheet = Sheet { ceiling: Some(12), ..Sheet::default() };
        let mut engine = Engine::open_with_rights(Member::new(0), &sheet, Rights::ALL).unwrap();
        for round in 1..=2 + chance.below(9) as u32 {
            for author in 0..4 {
                let transactions = [
                    Transaction::Entry { number: chance.below(9_000) as u32 },
                    Transaction::Bond { member: Member::new(4), amount: 1 },
                    Transaction::Unbond { member: Member::new(4) },
                ];
                let proposal = Proposal {
                    author: Member::new(author),
                    round: Round::new(round),
                    previous: engine.held(Round::new(round).before()),
                    transactions: transactions[..chance.below(4)].to_vec(),
                };
                engine.accept(&Certificate { proposal, endorsers: 15 & !(1 << author) }).unwrap();
            }
            if round > 1 && round % 2 == 1 {
                engine.commit().unwrap();
            }
            engine.advance().unwrap();
        }
        engine.propose(engine.held(engine.round().before()), &[Transaction::Entry { number: 3 }]).unwrap();
        for guest in 0..3 {
            engine.enqueue(guest, Transaction::Entry { number: guest }).unwrap();
            for _ in 0..chance.below(40) {
                engine.guest(guest).port_read(0).unwrap();
            }
            engine.guest(guest).port_write(chance.below(8) as u32, chance.below(256) as u8).unwrap();
        }
        engine
    }

    /// What is told to be well formed, and what not, is what the engine tells: on grown words, and with up to three
    /// of them written over.
    #[test]
    fn as_the_engine_tells() {
        let mut chance = Chance(7);
        let (mut fine, mut faults) = (0, 0);
        for _ in 0..200 {
            let engine = grown(&mut chance);
            let (state, table) = engine.words();
            assert_eq!(first_fault(state, table), None);
            for _ in 0..200 {
                let (mut state, mut table) = (*state, table.to_vec());
                for _ in 0..1 + chance.below(3) {
                    let value = match chance.below(4) {
                        0 => chance.below(6) as u32,
                        1 => chance.below(300) as u32,
                        2 => 65_530 + chance.below(10) as u32,
                        _ => 1 << chance.below(32),
                    };
                    match chance.below(5) {
                        0 => state[chance.below(STATE_WORDS)] = value,
                        1 => table[chance.below(272)] = value,
                        2 => table[272 * chance.below(13) + chance.below(3)] = value,
                        3 => {
                            let at = chance.below(table.len());
                            table[at] = value;
                        }
                        _ => table.truncate(chance.below(table.len() * 40).clamp(1_000, 1_000_000)),
                    }
                    table.resize(table.len().max(3_300), 0);
                }
                let told = first_fault(&state, &table);
                let formed = Engine::lent(state, table).is_well_formed();
                assert_eq!(told.is_none(), formed, "{told:?}");
                if formed {
                    fine += 1
                } else {
                    faults += 1
                }
            }
        }
        assert!(fine > 5_000 && faults > 5_000, "{fine} {faults}");
    }
}
