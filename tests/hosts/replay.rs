//! `replay STREAM...`: plays streams of records to an engine through the bindings and to the
//! reference rules at once. Every answer must be the same, and at each chain record and at the
//! end of a stream every read, with arguments in and out of range; the chain that the bindings
//! read must be the reference's listing, to the byte. Of two proposes one goes by the queues: its
//! transactions are added, and it becomes a draw. After each record a preview says what a commit
//! would do, and what a commit then adds must be what the preview before it has said; and a list says
//! what that commit hangs on. Among the reads is what bonds do to the shares, by the host and by the guest
//! that may read. Four guests have one right each. Two records of three are answered through
//! the guest that may; before that all others are refused, with 29 or 26, and nothing changes. The guest
//! that may read polls its port after each record: what it has received since the last reset is a prefix of
//! that listing, and all of it where none waits.

use forgelilac::layout::{preview_words, CRITICAL_WORDS, OFFSET_DATA, OFFSET_STATUS};
use forgelilac::{table_words, Block, Certificate, Critical, Effect, Engine, Entry, Held, Member, Proposal, Refusal};
use forgelilac::{Right, Rights, Round, Sheet, Transaction, Words, MEMBERS, STATE_WORDS};
use reference::runner::{for_each_record, read_record, Outcome, Record, Runner, SERVES};
use reference::Setting;
use std::fmt::{Debug, Write};

fn sheet(sheet: &reference::Sheet) -> Sheet {
    let of = |setting| match setting {
        Setting::Blank => None,
        Setting::Written(number) => Some(number),
    };
    Sheet {
        lookback: of(sheet.lookback),
        ceiling: of(sheet.ceiling),
        allowance: of(sheet.allowance),
        weights: sheet.weights.map(of),
        margin: of(sheet.margin),
    }
}

fn transaction(transaction: &reference::Transaction) -> Transaction {
    match *transaction {
        reference::Transaction::Bond { member, amount } => Transaction::Bond { member: Member::new(member), amount },
        reference::Transaction::Unbond { member } => Transaction::Unbond { member: Member::new(member) },
        reference::Transaction::Entry { number } => Transaction::Entry { number },
    }
}

fn proposal(proposal: &reference::Proposal) -> Proposal {
    Proposal {
        author: Member::new(proposal.author),
        round: Round::new(proposal.round),
        previous: proposal.previous,
        transactions: proposal.transactions.iter().map(transaction).collect(),
    }
}

/// Guest 0 may propose, 1 sign, 2 drive, 3 read; the others have no right.
const RIGHTS: Rights = Rights { propose: 1 << 0, sign: 1 << 1, drive: 1 << 2, read: 1 << 3 };

/// The right that a guest needs for a record's call; nothing for open, which is the host's alone.
fn needs(record: &Record) -> Option<Right> {
    match record {
        Record::Open { .. } => None,
        Record::Propose { .. } => Some(Right::Propose),
        Record::Endorse(_) | Record::Certify { .. } | Record::Accept(_) => Some(Right::Sign),
        Record::Advance | Record::Commit => Some(Right::Drive),
        Record::Chain => Some(Right::Read),
    }
}

/// The answer of a commit.
fn counted(answer: Result<u32, Refusal>) -> Outcome {
    answer.map_or_else(|refusal| Outcome::Refused(refusal.number()), Outcome::Count)
}

/// The chain as a runner lists it, by reads of the bindings.
fn listing(engine: &Engine) -> Result<String, Refusal> {
    let mut lines = String::new();
    for (number, block) in (1..).zip(engine.chain()?) {
        for Entry { author, round, .. } in block.certificates {
            write!(lines, "{number},{},{round},{author}", block.round).unwrap();
            for transaction in engine.certificate(author, round)?.proposal.transactions {
                match transaction {
                    Transaction::Bond { member, amount } => write!(lines, ",B,{member},{amount}"),
                    Transaction::Unbond { member } => write!(lines, ",U,{member},0"),
                    Transaction::Entry { number } => write!(lines, ",E,{number},0"),
                    _ => unreachable!("a kind that the records do not have"),
                }
                .unwrap();
            }
            lines.push_str("\r\n");
        }
    }
    Ok(lines)
}

fn outcome(answer: Result<(), Refusal>) -> Outcome {
    answer.map_or_else(|refusal| Outcome::Refused(refusal.number()), |()| Outcome::Accepted)
}

/// What a preview of the reference says.
fn preview(member: &reference::Member) -> reference::Answer<Vec<Entry>> {
    let mut list = vec![0; preview_words(member.settings().ceiling)];
    let count = member.preview(&mut list)?;
    let entry = |words: &[u32]| Entry { block: words[0], round: Round::new(words[1]), author: Member::new(words[2]) };
    Ok(list.chunks(3).take(count as usize).map(entry).collect())
}

/// What a commit hangs on, as the reference has it.
fn critical(member: &reference::Member) -> reference::Answer<Vec<Critical>> {
    let mut list = [0; CRITICAL_WORDS];
    let count = member.critical(&mut list)?;
    let place = |words: &[u32]| Critical { round: Round::new(words[0]), author: Member::new(words[1]) };
    Ok(list.chunks(2).take(count as usize).map(place).collect())
}

/// What a bond does to the shares, as the reference has it.
fn effect(member: &reference::Member, of: u32, round: u32, amount: u32) -> reference::Answer<Effect> {
    Ok(Effect::from_words(&member.read_effect(of, round, amount)?.words()))
}

/// The certificates of the blocks above a number, in their order.
fn blocks_above(engine: &Engine, number: u32) -> Result<Vec<Entry>, Refusal> {
    Ok(engine.chain()?.into_iter().skip(number as usize).flat_map(|block| block.certificates).collect())
}

/// An engine's answer to a record that opens nothing.
fn answer_of<W: Words>(engine: &mut Engine<W>, record: &Record) -> Outcome {
    match record {
        Record::Open { .. } => unreachable!("an open makes an engine"),
        Record::Propose { previous, transactions } => {
            let all: Vec<_> = transactions.iter().map(transaction).collect();
            outcome(engine.propose(*previous, &all))
        }
        Record::Endorse(one) => outcome(engine.endorse(&proposal(one))),
        Record::Certify { endorsers } => outcome(engine.certify(*endorsers)),
        Record::Accept(one) => {
            let certificate = Certificate { proposal: proposal(&one.proposal), endorsers: one.endorsers };
            outcome(engine.accept(&certificate))
        }
        Record::Advance => outcome(engine.advance()),
        Record::Commit => counted(engine.commit()),
        Record::Chain => outcome(engine.chain().map(|_| ())),
    }
}

/// Both sides of a replay, and how much was compared.
struct Replay {
    /// Whether an open was accepted: before, the engine is any, and not asked.
    opened: bool,
    engine: Engine,
    runner: Runner,
    records: u64,
    reads: u64,
    /// Blocks listed, and those that do not go by round, then author.
    blocks: u64,
    turned: u64,
    /// Transactions added, and draws that were accepted.
    added: u64,
    drawn: u64,
    /// Previews, and commits that did what the preview before had said.
    previews: u64,
    foretold: u64,
    /// Lists of what a commit hangs on that were accepted, and their places.
    criticals: u64,
    places: u64,
    /// Reads of what a bond does to the shares that were accepted.
    effects: u64,
    /// What the port of guest 3 has given since its reset; bytes in all, comparisons with the listing, and
    /// those of all of it.
    received: Vec<u8>,
    bytes: u64,
    compared: u64,
    whole: u64,
    /// Calls made through the guest that may, and through others.
    guests: u64,
    refused: u64,
}

impl Replay {
    fn new() -> Replay {
        let engine = Engine::open(Member::new(0), &Sheet::default()).expect("a blank sheet is fine");
        let runner = Runner::default();
        Replay {
            opened: false,
            engine,
            runner,
            records: 0,
            reads: 0,
            blocks: 0,
            turned: 0,
            added: 0,
            drawn: 0,
            previews: 0,
            foretold: 0,
            criticals: 0,
            places: 0,
            effects: 0,
            received: Vec::new(),
            bytes: 0,
            compared: 0,
            whole: 0,
            guests: 0,
            refused: 0,
        }
    }

    fn open(&mut self, own: u32, settings: &reference::Sheet) -> Outcome {
        let table = vec![0; table_words(SERVES) as usize];
        outcome(Engine::open_on(table, Member::new(own), &sheet(settings), RIGHTS).map(|engine| {
            (self.engine, self.opened) = (engine, true);
            self.received.clear();
        }))
    }

    /// Guest 3 polls its port, for so many bytes at most.
    fn poll(&mut self, most: u64) {
        for _ in 0..most {
            match self.engine.guest(3).port_read(OFFSET_STATUS).expect("guest 3 may read") {
                0x61 => self.received.push(self.engine.guest(3).port_read(OFFSET_DATA).expect("a byte waits")),
                status => return assert_eq!((status, self.engine.guest(3).port_read(OFFSET_DATA)), (0x60, Ok(0))),
            }
            self.bytes += 1;
        }
    }

    /// What it has received is a prefix of the listing; at times the port is reset.
    fn compare_received(&mut self, listing: &[u8]) {
        assert!(listing.starts_with(&self.received), "no prefix of the listing after record {}", self.records);
        let status = self.engine.guest(3).port_read(OFFSET_STATUS).expect("guest 3 may read");
        assert_eq!(status == 0x60, self.received == listing, "offset 5 after record {}", self.records);
        self.compared += 1;
        self.whole += u64::from(self.received == listing);
        if self.records % 3 == 0 {
            self.engine.port_reset(3).expect("a port of 0 to 7");
            self.received.clear();
        }
    }

    /// The engine's answer to a readable record; before an accepted open that of words that are no member's.
    fn answer(&mut self, record: &Record) -> Outcome {
        match record {
            Record::Open { own, sheet } => self.open(*own, sheet),
            _ if !self.opened => answer_of(&mut Engine::lent([u32::MAX; STATE_WORDS], Vec::new()), record),
            _ => answer_of(&mut self.engine, record),
        }
    }

    /// The engine's answer to a readable record that a guest asks for; an open is the host's.
    fn answer_guest(&mut self, caller: u32, record: &Record) -> Outcome {
        let mut guest = self.engine.guest(caller);
        match record {
            Record::Open { own, sheet } => self.open(*own, sheet),
            Record::Propose { previous, transactions } => {
                let all: Vec<_> = transactions.iter().map(transaction).collect();
                outcome(guest.propose(*previous, &all))
            }
            Record::Endorse(one) => outcome(guest.endorse(&proposal(one))),
            Record::Certify { endorsers } => outcome(guest.certify(*endorsers)),
            Record::Accept(one) => {
                let certificate = Certificate { proposal: proposal(&one.proposal), endorsers: one.endorsers };
                outcome(guest.accept(&certificate))
            }
            Record::Advance => outcome(guest.advance()),
            Record::Commit => counted(guest.commit()),
            Record::Chain => outcome(guest.chain().map(|_| ())),
        }
    }

    /// By the host, or by the guest that may, once the others were refused.
    fn answer_by_some(&mut self, record: &Record) -> Outcome {
        let Some(right) = needs(record).filter(|_| self.records % 3 > 0 && self.runner.member.is_some()) else {
            return self.answer(record);
        };
        let before = self.engine.clone();
        for caller in (0..10).filter(|&caller| caller != right as u32) {
            let number = if caller < 8 { 29 } else { 26 };
            assert_eq!(self.answer_guest(caller, record), Outcome::Refused(number), "record {}", self.records);
            assert!(self.engine == before, "a refused guest changed a word at record {}", self.records);
            self.refused += 1;
        }
        self.guests += 1;
        self.answer_guest(right as u32, record)
    }

    /// The transactions of a propose go to queues, and what is drawn is proposed.
    fn by_queues(&mut self, member: &mut reference::Member, previous: u16, transactions: &[reference::Transaction]) {
        for (place, one) in transactions.iter().enumerate() {
            // Now and then a guest above 7.
            let guest = (self.records as u32 * 5 + place as u32 * 3) % 9;
            let answer = member.enqueue(guest, one);
            self.added += u64::from(answer.is_ok());
            // Guest 0 adds its own.
            let found = match guest {
                0 => self.engine.guest(0).enqueue(transaction(one)),
                _ => self.engine.enqueue(guest, transaction(one)),
            };
            self.guests += u64::from(guest == 0);
            self.same(found, answer);
        }
        let answer = member.draw(previous);
        self.drawn += u64::from(answer.is_ok());
        let by_guest = self.records % 4 == 0;
        let found = if by_guest { self.engine.guest(0).draw(previous) } else { self.engine.draw(previous) };
        self.guests += u64::from(by_guest);
        self.same(found, answer);
        for guest in 0..8 {
            self.same(self.engine.waiting(guest), Ok(member.waiting(guest) as u32));
        }
    }

    fn record(&mut self, record: &Record) {
        let (told, above) = (self.engine.preview(), self.engine.blocks());
        match (record, self.runner.member.take()) {
            (Record::Propose { previous, transactions }, Some(mut member)) if self.records % 2 == 0 => {
                self.by_queues(&mut member, *previous, transactions);
                self.runner.member = Some(member);
            }
            (_, member) => {
                self.runner.member = member;
                let expected = self.runner.answer(Some(record), &mut Vec::new());
                assert_eq!(self.answer_by_some(record), expected, "record {}", self.records);
            }
        }
        self.records += 1;
        if self.runner.member.is_some() {
            self.poll(self.records % 7);
        }
        if let Some(member) = &self.runner.member {
            assert_eq!(self.engine.round(), member.round());
            assert_eq!(self.engine.proposal(), member.proposal().map(proposal));
            let (expected, hangs_on) = (preview(member), critical(member));
            self.same(self.engine.reader(3).preview(), expected.clone());
            self.same(self.engine.preview(), expected);
            self.previews += 1;
            self.compare_critical(hangs_on);
        }
        if let (Record::Commit, Ok(entries)) = (record, told) {
            assert_eq!(blocks_above(&self.engine, above), Ok(entries), "commit of record {}", self.records);
            self.foretold += 1;
        }
        if matches!(record, Record::Chain) {
            self.read_all();
        }
    }

    /// What a commit hangs on; the engine is as it was.
    fn compare_critical(&mut self, expected: reference::Answer<Vec<Critical>>) {
        let before = self.engine.clone();
        let found = self.engine.guest(3).critical();
        self.same(found, expected.clone());
        let found = self.engine.critical();
        assert!(self.engine == before, "a list changed a word after record {}", self.records);
        self.criticals += u64::from(found.is_ok());
        self.places += found.as_ref().map_or(0, |places| places.len() as u64);
        self.same(found, expected);
    }

    fn same<T: Debug + PartialEq>(&mut self, found: Result<T, Refusal>, expected: reference::Answer<T>) {
        assert_eq!(found.map_err(Refusal::number), expected, "read after record {}", self.records);
        self.reads += 1;
    }

    /// Bonds of one member in one round, by amounts in and out of range; one of them by the guest that
    /// may read.
    fn compare_effects(&mut self, member: &reference::Member, of: u32, round: u32) {
        for amount in [0, 1 + (7 * of + round) % 1_000, 1_000, 1_001] {
            let expected = effect(member, of, round, amount);
            self.effects += u64::from(expected.is_ok());
            let found = match amount {
                1_000 => self.engine.reader(3).bond_effect(Member::new(of), Round::new(round), amount),
                _ => self.engine.bond_effect(Member::new(of), Round::new(round), amount),
            };
            self.same(found, expected);
        }
    }

    fn read_all(&mut self) {
        let Some(member) = self.runner.member.clone() else { return };
        for round in 0..=member.settings().ceiling + 1 {
            let weights = self.engine.committee(Round::new(round)).map(|weights| weights.map(u64::from));
            self.same(weights, member.read_committee(round));
            for author in 0..=MEMBERS as u32 {
                let share = self.engine.share(Member::new(author), Round::new(round)).map(|share| share.get().into());
                self.same(share, member.read_share(author, round));
                let held = member.read_certificate(author, round).map(|(one, endorsers, block)| {
                    (proposal(one), endorsers, Some(block).filter(|&number| number != 0))
                });
                let parts = |held: Held| (held.proposal, held.endorsers, held.block);
                self.same(self.engine.certificate(Member::new(author), Round::new(round)).map(parts), held);
                self.compare_effects(&member, author, round);
            }
        }
        for number in 0..=member.chain().len() as u32 + 1 {
            self.same(self.engine.block(number).map(Round::get), member.read_block(number));
        }
        let expected = (1..).zip(member.chain()).map(|(block, made)| {
            let entry = |&(r, a): &(u32, u32)| Entry { block, author: Member::new(a), round: Round::new(r) };
            Block { round: Round::new(made.round), certificates: made.certificates.iter().map(entry).collect() }
        });
        self.same(self.engine.chain(), Ok(expected.collect()));
        let mut listed = Vec::new();
        self.runner.answer(Some(&Record::Chain), &mut listed);
        let listed = String::from_utf8(listed).expect("a listing is plain text");
        let lines = listed.strip_suffix("ok\r\n").expect("a closing ok").as_bytes();
        if self.records % 2 == 0 {
            self.poll(u64::MAX);
        }
        self.compare_received(lines);
        self.same(listing(&self.engine).map(|lines| lines + "ok\r\n"), Ok(listed));
        self.blocks += member.chain().len() as u64;
        self.turned += member.chain().iter().filter(|block| !block.certificates.is_sorted()).count() as u64;
    }
}

fn main() -> std::io::Result<()> {
    let (mut streams, mut records, mut reads, mut blocks, mut turned, mut added, mut drawn) = (0, 0, 0, 0, 0, 0, 0);
    let (mut previews, mut foretold, mut criticals, mut places, mut guests, mut refused) = (0, 0, 0, 0, 0, 0);
    let (mut effects, mut bytes, mut compared, mut whole) = (0, 0, 0, 0);
    for path in std::env::args().skip(1) {
        let mut replay = Replay::new();
        let mut input = std::io::BufReader::new(std::fs::File::open(path)?);
        for_each_record(&mut input, |text| {
            if let Some(record) = text.and_then(read_record) {
                replay.record(&record);
            }
            Ok(())
        })?;
        replay.read_all();
        assert!(replay.engine.is_well_formed(), "kept committees are not those of the words after {} records", replay.records);
        streams += 1;
        records += replay.records;
        reads += replay.reads;
        blocks += replay.blocks;
        turned += replay.turned;
        added += replay.added;
        drawn += replay.drawn;
        previews += replay.previews;
        foretold += replay.foretold;
        criticals += replay.criticals;
        places += replay.places;
        effects += replay.effects;
        bytes += replay.bytes;
        compared += replay.compared;
        whole += replay.whole;
        guests += replay.guests;
        refused += replay.refused;
    }
    println!("{streams} streams, {records} records, {reads} reads: the same as the reference");
    println!("{blocks} blocks listed, {turned} of them not by round, then author");
    println!("{added} transactions added to queues, {drawn} draws accepted");
    println!("{previews} previews: the same as the reference; {foretold} commits did what the preview had said");
    println!("{criticals} lists of what a commit hangs on, with {places} places: the same as the reference");
    println!("{effects} reads of what a bond does to the shares accepted: the same as the reference");
    println!("{bytes} bytes received through a port, {compared} times compared with the listing, {whole} of them all of it");
    println!("{guests} of the calls through a guest that may; {refused} through others: refused with 26 or 29, and nothing changed");
    Ok(())
}
