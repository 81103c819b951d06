//! Shuffled runs: `shuffle SEED > stream` writes the records of one runner.
//!
//! Four sorts of stretch, chosen by the seed, one to three to a stream:
//! - network: up to 16 members with their own engines propose, endorse,
//!   certify and pass certificates in shuffled order, with delays and
//!   duplicates; some are faulty, slow or silent. The stream is what one
//!   correct member was called with.
//! - puppet: one engine only, all other certificates are made up to fit it,
//!   with free shapes of the named previous sets; thin rounds are filled.
//! - chaos: calls with random values, whatever the answer.
//! - malformed: mostly unreadable records between a few readable ones.
//!
//! In two of five network and puppet stretches one or two members are
//! contested: bonded by some authors and unbonded by others in the same round,
//! with a small lookback, so that the order inside a block decides committees.
//!
//! The members of a stretch have one margin, 3, 4 or 5; of a margin of 3 some
//! write it, some leave it blank and some leave out its field.
//!
//! Wrong and unreadable records are mixed into all of them. `shuffle SEED
//! agree` also compares, on standard error, the chains of the correct members
//! of network stretches. `shuffle SEED members DIRECTORY` writes there, of one
//! network stretch, the stream of each correct member.

use reference::chance::Rng;
use reference::runner::{for_each_record, read_record, Outcome, Record, Runner, SERVES};
use reference::*;
use std::collections::BTreeMap;
use std::io::Write;
use std::rc::Rc;

// -------------------------------------------------------------- records ---

fn put_setting(out: &mut Vec<u8>, setting: Setting) {
    match setting {
        Setting::Blank => out.push(b','),
        Setting::Written(n) => write!(out, ",{n}").unwrap(),
    }
}

fn text_of(record: &Record) -> Vec<u8> {
    let mut out = Vec::new();
    match record {
        Record::Open { own, sheet } => {
            write!(out, "open,{own}").unwrap();
            let mut put = |s: Setting| put_setting(&mut out, s);
            put(sheet.lookback);
            put(sheet.ceiling);
            put(sheet.allowance);
            sheet.weights.iter().for_each(|&w| put(w));
            // A blank margin: the field is empty or, of a record that has an
            // even length so far, left out.
            if sheet.margin != Setting::Blank || out.len() % 2 == 1 {
                put_setting(&mut out, sheet.margin);
            }
        }
        Record::Propose { previous, transactions } => {
            write!(out, "propose,{previous}").unwrap();
            write_triples(transactions, &mut out);
        }
        Record::Endorse(p) => {
            write!(out, "endorse,{},{},{}", p.author, p.round, p.previous).unwrap();
            write_triples(&p.transactions, &mut out);
        }
        Record::Certify { endorsers } => write!(out, "certify,{endorsers}").unwrap(),
        Record::Accept(c) => {
            let p = &c.proposal;
            write!(out, "accept,{},{},{},{}", p.author, p.round, p.previous, c.endorsers).unwrap();
            write_triples(&p.transactions, &mut out);
        }
        Record::Advance => out.extend_from_slice(b"advance"),
        Record::Commit => out.extend_from_slice(b"commit"),
        Record::Chain => out.extend_from_slice(b"chain"),
    }
    out
}

/// What the call would be answered, without making it.
fn verdict(member: &Member, record: &Record) -> Answer<()> {
    match record {
        Record::Open { own, sheet } => Member::open(*own, sheet, SERVES).map(|_| ()),
        Record::Propose { previous, transactions } => member.may_propose(*previous, transactions),
        Record::Endorse(p) => member.may_endorse(p),
        Record::Certify { endorsers } => member.may_certify(*endorsers).map(|_| ()),
        Record::Accept(c) => member.may_accept(c),
        Record::Advance => member.may_advance(),
        Record::Commit => member.may_commit().map(|_| ()),
        Record::Chain => Ok(()),
    }
}

/// The stream so far and the runner that has read it.
struct Stream {
    bytes: Vec<u8>,
    runner: Runner,
    answers: Vec<u8>,
}

impl Stream {
    fn member(&self) -> &Member {
        self.runner.member.as_ref().expect("an open was accepted")
    }

    fn call(&mut self, record: &Record) -> Outcome {
        let text = text_of(record);
        self.bytes.extend_from_slice(&text);
        self.bytes.extend_from_slice(b"\r\n");
        self.answers.clear();
        self.runner.answer(read_record(&text).as_ref(), &mut self.answers)
    }

    /// Whether some margins let a commit go and others do not.
    fn commit_hangs_on_margin(&mut self) -> bool {
        let member = self.runner.member.as_mut().expect("an open was accepted");
        let margin = member.settings.margin;
        let mut goes = [false; 3];
        for (another, goes) in (3..).zip(&mut goes) {
            member.settings.margin = another;
            *goes = member.may_commit().is_ok();
        }
        member.settings.margin = margin;
        goes.contains(&true) && goes.contains(&false)
    }

    /// Raw bytes that end in CRLF: one record or more.
    fn raw(&mut self, bytes: &[u8]) {
        assert!(bytes.ends_with(b"\r\n"));
        self.bytes.extend_from_slice(bytes);
        let (runner, answers) = (&mut self.runner, &mut self.answers);
        answers.clear();
        for_each_record(&mut &bytes[..], |text| {
            runner.answer(text.and_then(read_record).as_ref(), answers);
            Ok(())
        })
        .unwrap();
    }

    /// Raw bytes, but only if they leave the state as it is.
    fn harmless_raw(&mut self, bytes: &[u8]) {
        let mut harmless = true;
        for_each_record(&mut &bytes[..], |text| {
            if let Some(record) = text.and_then(read_record) {
                harmless &= match (&self.runner.member, &record) {
                    (_, Record::Chain) => true,
                    (Some(member), _) => verdict(member, &record).is_err(),
                    (None, Record::Open { .. }) => false,
                    (None, _) => true,
                };
            }
            Ok(())
        })
        .unwrap();
        if harmless {
            self.raw(bytes);
        }
    }
}

// --------------------------------------------------------------- sheets ---

/// Whether it shows by which margin votes and signers are weighed: the bounds
/// of 3 and 5 differ, and nobody is a quorum alone.
fn margin_shows(weights: &Committee) -> bool {
    let n = total(weights);
    let heaviest = weights.iter().copied().max().unwrap_or(0);
    fault_bound(n, 3) != fault_bound(n, 5) && heaviest < quorum_weight(n, 3)
}

/// The same settings when filled, a margin of 3 written in another way.
fn written_anew(rng: &mut Rng, sheet: &Sheet) -> Sheet {
    let mut anew = *sheet;
    if anew.fill().unwrap().margin == 3 {
        anew.margin = rng.pick(&[Setting::Blank, Setting::Blank, Setting::Written(3)]);
    }
    anew
}

fn random_sheet(rng: &mut Rng) -> Sheet {
    use Setting::{Blank, Written};
    let mut sheet = Sheet::all_blank();
    sheet.margin = rng.pick(&[Blank, Blank, Written(3), Written(4), Written(4), Written(5), Written(5), Written(5)]);
    sheet.lookback = match rng.below(10) {
        0 => Blank,
        1 => Written(1),
        2 => Written(2),
        3 => Written(rng.between(3, 4)),
        4 => Written(rng.between(5, 8)),
        5 => Written(rng.between(9, 20)),
        6 => Written(rng.between(1, 12)),
        7 => Written(rng.between(21, 64)),
        8 => Written(rng.pick(&[100, 999, 1_000])),
        _ => Written(rng.between(1, 6)),
    };
    sheet.ceiling = Written(match rng.below(8) {
        0 => rng.between(3, 9),
        1 | 2 => rng.between(10, 30),
        3 => 63,
        4 | 5 => 64,
        _ => rng.between(24, 64),
    });
    sheet.allowance = match rng.below(7) {
        0 | 1 => Blank,
        2 => Written(0),
        n => Written(n as u32 - 2),
    };
    match rng.below(9) {
        0 => {} // four members of weight 1
        1 | 2 => {
            let n = rng.between(1, 16) as usize;
            for m in 0..16 {
                sheet.weights[m] = Written(u32::from(m < n));
            }
        }
        3 | 4 => {
            for m in 0..16 {
                sheet.weights[m] = Written(rng.pick(&[0, 0, 1, 1, 2, 3, 5]));
            }
        }
        5 => {
            for m in 0..16 {
                sheet.weights[m] = Written(rng.pick(&[0, 1, 999_999, 1_000_000, 500_000, 333_333]));
            }
        }
        6 => {
            let heavy = rng.below(16) as usize;
            for m in 0..16 {
                sheet.weights[m] = Written(if m == heavy { rng.between(4, 60) } else { rng.between(0, 3) });
            }
        }
        7 => {
            let only = rng.below(16) as usize;
            for m in 0..16 {
                sheet.weights[m] = Written(if m == only { rng.between(1, 1_000) } else { 0 });
            }
        }
        _ => {
            for m in 0..16 {
                if rng.chance(300) {
                    sheet.weights[m] = Written(rng.between(0, 1_000));
                }
            }
        }
    }
    if sheet.fill().unwrap().weights.iter().all(|&w| w == 0) {
        sheet.weights[rng.below(16) as usize] = Written(1);
    }
    // Most margins above 3 should show.
    let settings = sheet.fill().unwrap();
    if settings.margin > 3 && !margin_shows(&settings.weights) && rng.chance(800) {
        let n = rng.between(5, 16) as usize;
        for m in 0..16 {
            sheet.weights[m] = Written(u32::from(m < n));
        }
    }
    sheet
}

/// A sheet for a stretch in which members contest: changed committees are due
/// soon, transactions are allowed, and there are several authors to a round.
fn contest_sheet(rng: &mut Rng) -> Sheet {
    use Setting::{Blank, Written};
    let mut sheet = random_sheet(rng);
    sheet.lookback = Written(rng.pick(&[1, 2, 2, 3, 3, 4, 5, 6, 8, 12]));
    sheet.ceiling = Written(rng.between(16, 64));
    sheet.allowance = rng.pick(&[Blank, Written(1), Written(2), Written(3)]);
    if sheet.fill().unwrap().weights.iter().filter(|&&w| w > 0).count() < 3 {
        for m in 0..16 {
            sheet.weights[m] = Written(rng.pick(&[0, 1, 1, 2]));
        }
        sheet.weights[rng.below(16) as usize] = Written(1);
    }
    sheet
}

fn bad_open(rng: &mut Rng) -> Record {
    use Setting::{Blank, Written};
    let mut sheet = random_sheet(rng);
    let mut own = rng.between(0, 15);
    for _ in 0..rng.between(1, 2) {
        match rng.below(10) {
            0 => own = rng.pick(&[16, 17, 255, 256, 65_536, u32::MAX]),
            1 => sheet.lookback = Written(rng.pick(&[0, 1_001, 1_024, u32::MAX])),
            2 => sheet.ceiling = Written(rng.pick(&[0, 1, 2, 1_025, 65_535, u32::MAX])),
            3 => sheet.allowance = Written(rng.pick(&[5, 6, 100, u32::MAX])),
            4 => sheet.weights[rng.below(16) as usize] = Written(rng.pick(&[1_000_001, 2_000_000, u32::MAX])),
            5 => sheet.weights = [Written(0); 16],
            6 => sheet.ceiling = Blank,
            7 => sheet.ceiling = Written(rng.pick(&[65, 66, 100, 1_023, 1_024])),
            _ => sheet.margin = Written(rng.pick(&[2, 2, 6, 6, 0, 1, 7, 16, 259, 65_539, u32::MAX])),
        }
    }
    Record::Open { own, sheet }
}

/// An open that cannot be read: its margin is no number, or it has a field more.
fn unreadable_open(rng: &mut Rng) -> Vec<u8> {
    let mut sheet = random_sheet(rng);
    sheet.margin = Setting::Written(3);
    let mut text = text_of(&Record::Open { own: rng.between(0, 15), sheet });
    text.truncate(text.len() - 2);
    text.extend_from_slice(rng.pick(&[
        &b",03"[..], b",00", b",+3", b",-3", b", 3", b",3 ", b", ", b",3.0", b",x", b",4294967296", b",4294967299",
        b",,", b",,3", b",3,", b",3,3", b",5,0", b",,,", b",4,E,1,0",
    ]));
    text
}

// --------------------------------------------------------- transactions ---

#[derive(Clone, Copy)]
struct Market {
    /// Of 1,000 transactions, how many bond and how many unbond.
    bonds: u32,
    unbonds: u32,
    /// The highest amount of a bond.
    amount: u32,
    /// Who may be bonded and who may be unbonded.
    joining: Set,
    leaving: Set,
    /// Of 1,000 possible transactions, how many are there.
    busy: u32,
    /// Who is bonded by some authors and unbonded by others in the same round,
    /// so that the order inside a block decides; of 1,000 transactions, how
    /// many do so.
    contested: Set,
    contests: u32,
}

/// A market where one or two members are contested, more often than not such
/// as started outside.
fn contest_market(rng: &mut Rng, present: Set, started: Set, keep: Set) -> Market {
    let among = if present & !started != 0 && rng.chance(600) { present & !started } else { present };
    let mut market = random_market(rng, present, keep);
    for _ in 0..rng.between(1, 2) {
        market.contested |= rng.member_of(among).map_or(0, single);
    }
    market.contests = rng.pick(&[300, 500, 800]);
    market.busy = market.busy.max(300);
    market
}

fn random_market(rng: &mut Rng, present: Set, keep: Set) -> Market {
    let wild = rng.chance(120);
    Market {
        contested: 0,
        contests: 0,
        bonds: rng.pick(&[0, 200, 400, 700]),
        unbonds: rng.pick(&[0, 0, 30, 150, 300]),
        amount: rng.pick(&[1, 2, 5, 20, 1_000]),
        joining: if wild || present == 0 { 0xffff } else { present },
        leaving: if wild { 0xffff } else { !keep },
        busy: rng.pick(&[100, 300, 600, 900]),
    }
}

fn random_transactions(rng: &mut Rng, market: &Market, allowance: u32) -> Vec<Transaction> {
    let mut all = Vec::new();
    for _ in 0..allowance {
        if !rng.chance(market.busy) {
            continue;
        }
        if market.contested != 0 && rng.chance(market.contests) {
            let member = rng.member_of(market.contested).unwrap();
            all.push(if rng.chance(500) {
                Transaction::Unbond { member }
            } else {
                Transaction::Bond { member, amount: rng.between(1, market.amount) }
            });
            continue;
        }
        let sort = rng.below(1_000) as u32;
        all.push(if sort < market.bonds {
            let amount = if rng.chance(50) { 1_000 } else { rng.between(1, market.amount) };
            Transaction::Bond { member: rng.member_of(market.joining).unwrap(), amount: amount.min(market.amount) }
        } else if sort < market.bonds + market.unbonds && market.leaving != 0 {
            Transaction::Unbond { member: rng.member_of(market.leaving).unwrap() }
        } else {
            let number = match rng.below(5) {
                0 => u32::MAX,
                1 => rng.word() as u32,
                _ => rng.between(0, 99),
            };
            Transaction::Entry { number }
        });
    }
    all
}

fn bad_transactions(rng: &mut Rng, allowance: u32) -> Vec<Transaction> {
    let bad = match rng.below(7) {
        0 => Transaction::Bond { member: rng.pick(&[16, 17, u32::MAX]), amount: 1 },
        1 => Transaction::Bond { member: rng.between(0, 15), amount: 0 },
        2 => Transaction::Bond { member: rng.between(0, 15), amount: rng.pick(&[1_001, 1_002, u32::MAX]) },
        3 => Transaction::Unbond { member: rng.pick(&[16, 31, 65_535, u32::MAX]) },
        _ => {
            // Too many, each in range.
            let n = allowance + rng.pick(&[1, 1, 1, 2, 5, 100]);
            return (0..n).map(|i| Transaction::Entry { number: i }).collect();
        }
    };
    let mut all = vec![bad];
    if allowance >= 2 && rng.chance(500) {
        all.insert(rng.below(2) as usize, Transaction::Entry { number: 5 });
    }
    all
}

// ---------------------------------------------------------- wrong calls ---

/// What was said so far: material for wrong calls.
#[derive(Default)]
struct Pool {
    proposals: Vec<Rc<Proposal>>,
    certificates: Vec<Rc<Certificate>>,
}

fn recent<T: Clone>(rng: &mut Rng, all: &[T]) -> Option<T> {
    if all.is_empty() {
        return None;
    }
    let window = if rng.chance(700) { all.len().min(40) } else { all.len() };
    Some(all[all.len() - 1 - rng.below(window as u64) as usize].clone())
}

fn some_proposal(rng: &mut Rng, member: &Member, pool: &Pool) -> Proposal {
    match recent(rng, &pool.proposals) {
        Some(p) if rng.chance(850) => (*p).clone(),
        _ => {
            let round = rng.between(1, member.settings().ceiling);
            Proposal {
                author: rng.between(0, 15),
                round,
                previous: if round == 1 { 0 } else { member.held_authors(round - 1).max(1) },
                transactions: Vec::new(),
            }
        }
    }
}

fn spoil_proposal(rng: &mut Rng, member: &Member, p: &mut Proposal) {
    let settings = member.settings();
    match rng.below(13) {
        0 => p.author = rng.pick(&[16, 17, 99, 65_536, u32::MAX]),
        1 => p.round = rng.pick(&[0, 0, settings.ceiling + 1, 1_024, 1_025, u32::MAX]),
        2 => p.transactions = bad_transactions(rng, settings.allowance),
        3 => p.previous = if p.round == 1 { rng.between(1, 65_535) as Set } else { 0 },
        4 => p.author = member.own(),
        5 => p.round = rng.between(1, settings.ceiling),
        6 => p.previous |= rng.word() as Set,
        7 => p.previous = rng.thin(p.previous, 400),
        8 => p.author = rng.between(0, 15),
        9 if settings.allowance > 0 => p.transactions = vec![Transaction::Entry { number: rng.between(0, 9) }],
        10 if !p.transactions.is_empty() => p.transactions.reverse(),
        11 => {
            p.round = settings.ceiling;
            p.previous = p.previous.max(1);
        }
        _ => {}
    }
}

/// Members leave the set, those kept excepted, until it is no quorum any more.
fn just_short(rng: &mut Rng, set: Set, kept: Set, committee: &Committee, margin: u32) -> Set {
    let mut leaving: Vec<u32> = members_of(set & !kept).collect();
    rng.shuffle(&mut leaving);
    let mut short = set;
    for m in leaving {
        if !is_quorum(short, committee, margin) {
            break;
        }
        short &= !single(m);
    }
    short
}

fn all_of(committee: &Committee) -> Set {
    (0..16).filter(|&m| committee[m as usize] > 0).map(single).fold(0, |a, b| a | b)
}

/// The present round or the next, and somebody whose place there is free.
fn free_place(rng: &mut Rng, member: &Member, among: Set) -> Option<(u32, u32)> {
    let round = (member.round() + rng.pick(&[0, 0, 1])).min(member.settings().ceiling);
    let free = members_of(among).filter(|&m| !member.is_held(m, round) && !member.is_endorsed(m, round));
    let author = rng.member_of(free.map(single).fold(0, |a, b| a | b))?;
    Some((author, round))
}

/// A proposal whose previous set is just short of a quorum.
fn short_proposal(rng: &mut Rng, member: &Member) -> Option<Proposal> {
    let (author, round) = free_place(rng, member, !single(member.own()))?;
    let before = if round > 1 { *member.committee_of(round - 1)? } else { return None };
    let previous = just_short(rng, member.held_authors(round - 1), 0, &before, member.settings().margin);
    Some(Proposal { author, round, previous, transactions: Vec::new() })
}

/// A certificate whose signers are just short of a quorum.
fn short_certificate(rng: &mut Rng, member: &Member) -> Option<Certificate> {
    let everybody = all_of(member.committee_of(member.round())?);
    let (author, round) = free_place(rng, member, everybody)?;
    let committee = *member.committee_of(round)?;
    let signers = just_short(rng, all_of(&committee), single(author), &committee, member.settings().margin);
    let previous = if round > 1 { member.held_authors(round - 1) } else { 0 };
    let proposal = Proposal { author, round, previous, transactions: Vec::new() };
    Some(Certificate { proposal, endorsers: signers & !single(author) })
}

/// A call with a set that is just short of a quorum; an advance where there
/// is none to make.
fn short_call(rng: &mut Rng, member: &Member) -> Record {
    let (own, r, margin) = (member.own(), member.round(), member.settings().margin);
    let short = match rng.below(4) {
        0 if r > 1 => member.committee_of(r - 1).map(|before| Record::Propose {
            previous: just_short(rng, member.held_authors(r - 1), 0, before, margin),
            transactions: Vec::new(),
        }),
        1 => member.committee_of(r).map(|committee| Record::Certify {
            endorsers: just_short(rng, all_of(committee), single(own), committee, margin) & !single(own),
        }),
        2 => short_proposal(rng, member).map(Record::Endorse),
        _ => short_certificate(rng, member).map(Record::Accept),
    };
    short.unwrap_or(Record::Advance)
}

/// A call that may well be refused.
fn wrong_call(rng: &mut Rng, member: &Member, pool: &Pool, market: &Market) -> Record {
    let settings = member.settings();
    let r = member.round();
    match rng.below(112) {
        100.. => short_call(rng, member),
        0..=19 => {
            let before = member.held_authors(r - 1);
            let mut previous = if r == 1 { 0 } else { before };
            let mut transactions = random_transactions(rng, market, settings.allowance);
            match rng.below(7) {
                0 => transactions = bad_transactions(rng, settings.allowance),
                1 => previous = if r == 1 { rng.between(1, 65_535) as Set } else { 0 },
                2 => previous |= rng.word() as Set,
                3 => previous = rng.thin(previous, 500),
                4 => previous = rng.member_of(before).map_or(0, single),
                _ => {}
            }
            Record::Propose { previous, transactions }
        }
        20..=44 => {
            let mut p = some_proposal(rng, member, pool);
            spoil_proposal(rng, member, &mut p);
            Record::Endorse(p)
        }
        45..=56 => {
            let endorsers = match rng.below(5) {
                0 => 0,
                1 => single(member.own()) | rng.word() as Set,
                2 => rng.word() as Set & !single(member.own()),
                3 => rng.member_of(0xffff).map_or(0, single),
                _ => member.committee_of(r).map_or(1, |c| rng.thin(all_of(c) & !single(member.own()), 300)),
            };
            Record::Certify { endorsers }
        }
        57..=86 => {
            let mut c = match recent(rng, &pool.certificates) {
                Some(c) if rng.chance(850) => (*c).clone(),
                _ => Certificate { proposal: some_proposal(rng, member, pool), endorsers: rng.word() as Set },
            };
            match rng.below(8) {
                0 => c.endorsers |= single(c.proposal.author),
                1 => c.endorsers |= rng.word() as Set,
                2 => c.endorsers = rng.thin(c.endorsers, 400),
                3 => c.endorsers = rng.word() as Set & !single(c.proposal.author),
                _ => spoil_proposal(rng, member, &mut c.proposal),
            }
            if c.proposal.author < 16 && rng.chance(800) {
                c.endorsers &= !single(c.proposal.author);
            }
            Record::Accept(c)
        }
        87..=88 => Record::Advance,
        89..=96 => Record::Commit,
        97 => Record::Chain,
        _ => bad_open(rng),
    }
}

// ---------------------------------------------------- unreadable records ---

fn replace_field(rng: &mut Rng, text: &[u8], with: &[u8]) -> Vec<u8> {
    let mut fields: Vec<&[u8]> = text.split(|&b| b == b',').collect();
    let i = if fields.len() > 1 && rng.chance(900) { 1 + rng.below(fields.len() as u64 - 1) as usize } else { 0 };
    fields[i] = with;
    fields.join(&b','.to_owned())
}

/// One readable record spoilt, with its CRLF; now and then still readable.
fn spoil(rng: &mut Rng, text: &[u8]) -> Vec<u8> {
    let mut t = text.to_vec();
    let n = t.len() as u64;
    match rng.below(34) {
        0 => t.insert(rng.below(n + 1) as usize, rng.word() as u8),
        1 => {
            t.remove(rng.below(n) as usize);
        }
        2 => t[rng.below(n) as usize] = rng.word() as u8,
        3 => t.insert(rng.below(n + 1) as usize, b','),
        4 => t.push(b','),
        5 => t.insert(0, b','),
        6 => {
            if let Some(i) = t.iter().rposition(|&b| b == b',') {
                t.truncate(i);
            }
        }
        7 => t.extend_from_slice(b",0"),
        8 => t.extend_from_slice(rng.pick(&[&b",E,1"[..], b",E", b",E,,0", b",E,1,", b",B,1,00", b",X,1,0", b",e,1,0", b",b,1,1", b",u,1,0", b",,1,0", b",EE,1,0", b",E,1,0,"])),
        9 => t.extend_from_slice(rng.pick(&[&b",U,1,1"[..], b",E,1,1", b",E,0,4294967295", b",U,0,1000", b",E,4294967296,0", b",B,1,4294967296", b",B,4294967296,1", b",U,99999999999999999999999,0"])),
        10 => t = replace_field(rng, text, b""),
        11 => t = replace_field(rng, text, b"00"),
        12 => t = replace_field(rng, text, b"01"),
        13 => t = replace_field(rng, text, b"+1"),
        14 => t = replace_field(rng, text, b"-1"),
        15 => t = replace_field(rng, text, b" 1"),
        16 => t = replace_field(rng, text, b"1 "),
        17 => t = replace_field(rng, text, b"4294967296"),
        18 => t = replace_field(rng, text, b"65536"),
        19 => t = replace_field(rng, text, b"\"1\""),
        20 => t.insert(rng.below(n + 1) as usize, b'"'),
        21 => t.insert(rng.below(n + 1) as usize, b'\r'),
        22 => t.insert(rng.below(n + 1) as usize, b'\n'),
        23 => t.insert(rng.below(n + 1) as usize, 0),
        24 => t.insert(rng.below(n + 1) as usize, rng.pick(&[0x80, 0xa0, 0xc3, 0xff, 0x7f, b'\t', b' ', 0xb2])),
        25 => t[0] = t[0].to_ascii_uppercase(),
        26 => {
            // Two records run together by a lone LF or CR.
            t.push(rng.pick(b"\n\r"));
            t.extend_from_slice(rng.pick(&[&b"advance"[..], b"commit", b"chain", b"certify,0", b""]));
        }
        27 => t.push(b'\r'),
        28 => t.extend_from_slice(b"\n\r"),
        29 => {
            // To a length near the longest one, or far over it.
            // Triples of six bytes, the last with more digits to fill it up.
            let length = rng.pick(&[1_021, 1_022, 1_022, 1_023, 1_023, 1_024, 2_000, 70_000]);
            let left = length - t.len().min(length - 6);
            t.extend_from_slice(&b",E,7,0".repeat(left / 6 - 1));
            t.extend_from_slice(b",E,7");
            t.extend_from_slice(&b"7".repeat(left % 6));
            t.extend_from_slice(b",0");
        }
        30 => t = rng.pick(&[&b""[..], b",", b",,,", b"\r", b"\n", b"\"\"", b" ", b"Open", b"ADVANCE", b"advance ", b"\xef\xbb\xbfadvance", b"advance,", b"commit,0", b"chain,", b"certify", b"certify,0,0", b"open", b"propose", b"endorse,1,1", b"accept,1,1,0"]).to_vec(),
        31 => {
            // A field's number with many digits.
            let mut digits = vec![b'1'];
            digits.resize(rng.pick(&[10, 11, 20, 40, 500]), b'0');
            t = replace_field(rng, text, &digits);
        }
        32 => {
            let length = rng.below(40) as usize;
            t = (0..length).map(|_| rng.word() as u8).collect();
        }
        _ => {
            let length = rng.below(60) as usize;
            t = (0..length).map(|_| rng.pick(b"0123456789,,,,BUEadvopncehirfytsm\r\n\" ")).collect();
        }
    }
    t.extend_from_slice(b"\r\n");
    t
}

fn some_text(rng: &mut Rng, member: Option<&Member>, pool: &Pool, market: &Market) -> Vec<u8> {
    match member {
        Some(member) if rng.chance(850) => text_of(&wrong_call(rng, member, pool, market)),
        _ => match rng.below(6) {
            0 => text_of(&Record::Open { own: rng.between(0, 15), sheet: random_sheet(rng) }),
            1 => text_of(&bad_open(rng)),
            2 => unreadable_open(rng),
            _ => rng
                .pick(&[&b"advance"[..], b"commit", b"chain", b"certify,0", b"certify,6", b"propose,0", b"propose,7,E,1,0", b"endorse,1,1,0", b"endorse,1,2,7,B,2,5", b"accept,1,1,0,14", b"accept,2,2,7,9,U,3,0,E,5,0"])
                .to_vec(),
        },
    }
}

/// Wrong calls and unreadable records that leave the state alone.
fn inject(rng: &mut Rng, stream: &mut Stream, pool: &Pool, market: &Market, unreadable: u32) {
    if rng.chance(unreadable) {
        let text = some_text(rng, stream.runner.member.as_ref(), pool, market);
        let bytes = spoil(rng, &text);
        stream.harmless_raw(&bytes);
    } else if rng.chance(10) {
        let mut bytes = unreadable_open(rng);
        bytes.extend_from_slice(b"\r\n");
        stream.harmless_raw(&bytes);
    } else {
        let record = wrong_call(rng, stream.member(), pool, market);
        if matches!(record, Record::Chain) || verdict(stream.member(), &record).is_err() {
            stream.call(&record);
        }
    }
}

// -------------------------------------------------------------- network ---

#[derive(Clone)]
enum Message {
    Proposal(Rc<Proposal>),
    Endorsement(Rc<Proposal>, u32),
    Certificate(Rc<Certificate>),
}

struct Node {
    correct: bool,
    /// The engine; the stream's own engine stands in for the chosen member.
    runner: Runner,
    /// What it was called with; kept where the streams of all are asked for.
    bytes: Vec<u8>,
    waiting_proposals: Vec<Rc<Proposal>>,
    waiting_certificates: Vec<Rc<Certificate>>,
    progress: bool,
    /// When to ask again for a certificate (author, round).
    asked: BTreeMap<(u32, u32), u64>,
    /// One's own proposals of the present round and who endorsed them: one
    /// for a correct member, more for a faulty one.
    offers: Vec<(Rc<Proposal>, Set)>,
    entered: u64,
    /// Goes through the present round without a commit.
    skips: bool,
    /// In 1,000.
    commits: u32,
    lazy: u32,
    early: u32,
    patience: u64,
}

struct Network<'a> {
    rng: &'a mut Rng,
    stream: &'a mut Stream,
    pool: Pool,
    nodes: Vec<Option<Node>>,
    chosen: u32,
    present: Set,
    correct: Set,
    /// The streams of all members are asked for.
    all: bool,
    forge: bool,
    equivocate: u32,
    market: Market,
    queue: BTreeMap<(u64, u64), (u32, Message)>,
    now: u64,
    delay: u64,
    late: u32,
    twice: u32,
    slow: Set,
    wrong: u32,
    /// Of 1,000 thinned previous sets of odd rounds, how many keep the leader.
    to_leader: u32,
    last_change: u64,
}

impl Network<'_> {
    fn member(&self, i: u32) -> &Member {
        if i == self.chosen {
            self.stream.member()
        } else {
            self.nodes[i as usize].as_ref().unwrap().runner.member.as_ref().unwrap()
        }
    }

    fn node(&mut self, i: u32) -> &mut Node {
        self.nodes[i as usize].as_mut().unwrap()
    }

    fn call(&mut self, i: u32, record: &Record) -> Outcome {
        let outcome = if i == self.chosen {
            self.stream.call(record)
        } else {
            if self.all {
                let text = text_of(record);
                self.node(i).bytes.extend_from_slice(&text);
                self.node(i).bytes.extend_from_slice(b"\r\n");
            }
            let mut lines = Vec::new();
            self.node(i).runner.answer(Some(record), &mut lines)
        };
        if !matches!(outcome, Outcome::Refused(_)) && !matches!(record, Record::Chain) {
            self.last_change = self.now;
            self.node(i).progress = true;
        }
        outcome
    }

    fn send(&mut self, from: u32, to: u32, message: Message) {
        let copies = if self.rng.chance(self.twice) { 2 } else { 1 };
        for _ in 0..copies {
            let mut wait = 1 + self.rng.below(self.delay);
            if in_set(self.slow, from) {
                wait += self.rng.below(3 * self.delay);
            }
            if self.rng.chance(self.late) {
                wait += 5 + self.rng.below(12 * self.delay);
            }
            let key = (self.now + wait, self.rng.word());
            self.queue.insert(key, (to, message.clone()));
        }
    }

    fn broadcast(&mut self, from: u32, to: Set, message: Message) {
        match &message {
            Message::Proposal(p) => self.pool.proposals.push(p.clone()),
            Message::Certificate(c) => self.pool.certificates.push(c.clone()),
            Message::Endorsement(..) => {}
        }
        for m in members_of(to & self.present) {
            if m != from || self.rng.chance(60) {
                self.send(from, m, message.clone());
            }
        }
    }

    fn deliver(&mut self, i: u32, message: Message) {
        let correct = self.node(i).correct;
        match message {
            Message::Proposal(p) => {
                if !correct {
                    if p.author < 16 && p.author != i {
                        self.send(i, p.author, Message::Endorsement(p.clone(), i));
                    }
                    return;
                }
                match self.call(i, &Record::Endorse((*p).clone())) {
                    Outcome::Accepted => {
                        self.send(i, p.author, Message::Endorsement(p, i));
                    }
                    Outcome::Refused(number @ (8 | 11)) => {
                        if number == 11 {
                            self.fetch(i, &p);
                        }
                        self.node(i).waiting_proposals.push(p);
                    }
                    _ => {}
                }
            }
            Message::Endorsement(p, from) => {
                for (offer, endorsers) in &mut self.node(i).offers {
                    if *offer == p {
                        *endorsers |= single(from);
                    }
                }
            }
            Message::Certificate(c) => {
                if let Outcome::Refused(number @ (8 | 11)) = self.call(i, &Record::Accept((*c).clone())) {
                    if number == 11 {
                        self.fetch(i, &c.proposal);
                    }
                    if !self.node(i).waiting_certificates.iter().any(|w| w.proposal == c.proposal) {
                        self.node(i).waiting_certificates.push(c);
                    }
                }
            }
        }
    }

    /// Asks the author of a proposal for the named certificates not held.
    fn fetch(&mut self, i: u32, p: &Proposal) {
        if p.round < 2 || p.author == i || !in_set(self.present, p.author) {
            return;
        }
        for a in members_of(p.previous & !self.member(i).held_authors(p.round - 1)) {
            let again = self.now + 40;
            let asked = self.node(i).asked.get(&(a, p.round - 1)).copied().unwrap_or(0);
            if let Some(held) = self.member(p.author).held_at(a, p.round - 1) {
                if asked <= self.now {
                    let c = Rc::new(held.certificate.clone());
                    self.send(p.author, i, Message::Certificate(c));
                    self.node(i).asked.insert((a, p.round - 1), again);
                }
            }
        }
    }

    /// Calls again with what had to wait, once something was accepted.
    fn retry(&mut self, i: u32) {
        if !self.node(i).progress {
            return;
        }
        while self.node(i).progress {
            self.node(i).progress = false;
            let mut certificates = std::mem::take(&mut self.node(i).waiting_certificates);
            self.rng.shuffle(&mut certificates);
            for c in certificates {
                if self.member(i).may_accept(&c) == Err(16) && self.rng.chance(600) {
                    continue;
                }
                let again = match self.member(i).may_accept(&c) {
                    Err(8) => 2,
                    Err(11) => 30,
                    _ => 1_000,
                };
                if !self.rng.chance(again) {
                    self.node(i).waiting_certificates.push(c);
                } else {
                    self.deliver(i, Message::Certificate(c));
                }
            }
        }
        let proposals = std::mem::take(&mut self.node(i).waiting_proposals);
        for p in proposals {
            let again = match self.member(i).may_endorse(&p) {
                Err(8) => 2,
                Err(11) => 10,
                _ => 1_000,
            };
            if !self.rng.chance(again) {
                self.node(i).waiting_proposals.push(p);
            } else {
                self.deliver(i, Message::Proposal(p));
            }
        }
    }

    /// Something was accepted not long ago.
    fn lively(&self) -> bool {
        self.now < self.last_change + 12
    }

    fn highest_held(&self, i: u32) -> u32 {
        let member = self.member(i);
        let mut r = member.round();
        while r < member.settings().ceiling && member.held_authors(r + 1) != 0 {
            r += 1;
        }
        r
    }

    /// A previous set for the present round: mostly all that is held.
    fn previous(&mut self, i: u32) -> Set {
        let r = self.member(i).round();
        if r == 1 {
            return 0;
        }
        let all = self.member(i).held_authors(r - 1);
        if self.rng.chance(250) {
            let mut fewer = self.rng.thin(all, 800);
            if r % 2 == 1 && self.rng.chance(self.to_leader) {
                fewer |= self.member(i).anchor(r - 1).map_or(0, single);
            }
            let member = self.member(i);
            if member.committee_of(r - 1).is_some_and(|c| member.is_quorum(fewer, c)) {
                return fewer;
            }
        }
        all
    }

    fn step(&mut self, i: u32) {
        let ceiling = self.member(i).settings().ceiling;
        let allowance = self.member(i).settings().allowance;
        self.retry(i);
        let r = self.member(i).round();
        let waited = self.now - self.node(i).entered;

        // Propose.
        let may_offer = self.member(i).proposal().is_none() && !self.member(i).is_held(i, r);
        if may_offer && self.rng.chance(800) {
            let previous = self.previous(i);
            let market = self.market;
            let transactions = random_transactions(self.rng, &market, allowance);
            if self.member(i).may_propose(previous, &transactions).is_ok() {
                let record = Record::Propose { previous, transactions: transactions.clone() };
                self.call(i, &record);
                let p = Rc::new(Proposal { author: i, round: r, previous, transactions });
                self.node(i).offers = vec![(p.clone(), 0)];
                if self.node(i).correct || !self.rng.chance(self.equivocate) {
                    self.broadcast(i, 0xffff, Message::Proposal(p));
                } else {
                    // Another proposal for the same place, to others or to all.
                    let mut other = (*p).clone();
                    other.previous = self.previous(i);
                    other.transactions = random_transactions(self.rng, &market, allowance);
                    if self.rng.chance(200) {
                        let member = self.stream.member().clone();
                        spoil_proposal(self.rng, &member, &mut other);
                        other.author = i;
                    }
                    let other = Rc::new(other);
                    let half = self.rng.word() as Set;
                    let both = self.rng.chance(400);
                    self.node(i).offers.push((other.clone(), 0));
                    self.broadcast(i, if both { 0xffff } else { half }, Message::Proposal(p));
                    self.broadcast(i, if both { 0xffff } else { !half }, Message::Proposal(other));
                }
            } else if i == self.chosen && self.lively() && self.rng.chance(100) {
                self.call(i, &Record::Propose { previous, transactions });
            }
        }

        // Certify.
        if self.node(i).correct {
            if let Some((_, endorsers)) = self.node(i).offers.first().cloned() {
                if self.member(i).proposal().is_some() && !self.member(i).is_held(i, r) {
                    let inside = self.member(i).committee_of(r).map_or(0, all_of);
                    let endorsers = if self.rng.chance(970) { endorsers & inside } else { endorsers };
                    if let Ok(c) = self.member(i).may_certify(endorsers) {
                        if self.rng.chance(600) {
                            self.call(i, &Record::Certify { endorsers });
                            self.broadcast(i, 0xffff, Message::Certificate(Rc::new(c)));
                        }
                    } else if i == self.chosen && self.lively() && self.rng.chance(60) {
                        self.call(i, &Record::Certify { endorsers });
                    }
                }
            }
        } else {
            let offers = std::mem::take(&mut self.node(i).offers);
            for (p, endorsers) in offers {
                let Some(committee) = self.member(i).committee_of(r).copied() else { continue };
                let inside = all_of(&committee);
                let mut signed = endorsers & inside & !single(i);
                if self.forge {
                    signed = inside & !single(i);
                }
                if p.round == r && self.member(i).is_quorum(signed | single(i), &committee) {
                    let c = Rc::new(Certificate { proposal: (*p).clone(), endorsers: signed });
                    self.call(i, &Record::Accept((*c).clone()));
                    let to = if self.rng.chance(300) { self.rng.word() as Set } else { 0xffff };
                    self.broadcast(i, to, Message::Certificate(c));
                } else {
                    self.node(i).offers.push((p, endorsers));
                }
            }
        }

        // Commit.
        let odd = r % 2 == 1 && r >= 3;
        if odd && self.member(i).may_commit().is_ok() {
            let needed = r < ceiling && self.member(i).committee_of(r + 1).is_none();
            let node = self.node(i);
            let likely = if needed { 700 } else if node.skips { 0 } else { node.commits };
            if self.rng.chance(likely) {
                self.call(i, &Record::Commit);
            }
        } else if i == self.chosen && self.lively() && self.rng.chance(if odd { 120 } else { 15 }) {
            self.call(i, &Record::Commit);
        }

        // Advance.
        if r == ceiling {
            return;
        }
        let enough = self.member(i).may_advance().is_ok();
        let behind = self.highest_held(i) > r + 1;
        let member = self.member(i);
        let content = if r % 2 == 0 {
            member.anchor(r).is_some()
        } else {
            r == 1 || member.last_block_round() >= r - 1 || self.nodes[i as usize].as_ref().unwrap().skips
        } && (member.is_held(i, r) || member.committee_of(r).is_some_and(|c| c[i as usize] == 0));
        let onward = member.committee_of(r + 1).is_some();
        let node = self.nodes[i as usize].as_ref().unwrap();
        let (early, patience) = (node.early, node.patience);
        let patient = if content { waited > self.rng.below(3) } else { waited > patience };
        let ready = enough && (patient || (behind && (content || waited > patience / 2)));
        // Too early: refused while the round is thin, and asked again later.
        let thin = i == self.chosen && !enough && self.lively() && self.rng.chance(25);
        if ((ready && onward) || thin || self.rng.chance(early))
            && self.call(i, &Record::Advance) == Outcome::Accepted
        {
            let now = self.now;
            let lazy = self.node(i).lazy;
            let skips = self.rng.chance(lazy);
            let node = self.node(i);
            node.entered = now;
            node.skips = skips;
            node.offers.clear();
        }
    }

    fn run(&mut self) {
        let ceiling = self.stream.member().settings().ceiling;
        let limit = u64::from(ceiling) * 400;
        let patience = self.nodes.iter().flatten().map(|n| n.patience).max().unwrap_or(0);
        while self.now < limit {
            self.now += 1;
            let mut due: Vec<(u32, Message)> = Vec::new();
            while let Some((&key, _)) = self.queue.first_key_value() {
                if key.0 > self.now {
                    break;
                }
                due.push(self.queue.remove(&key).unwrap());
            }
            for (to, message) in due {
                self.deliver(to, message);
                if to == self.chosen && self.lively() && self.rng.chance(self.wrong / 4) {
                    inject(self.rng, self.stream, &self.pool, &self.market, 200);
                }
            }
            let mut order: Vec<u32> = members_of(self.present).collect();
            self.rng.shuffle(&mut order);
            for i in order {
                if i == self.chosen {
                    if self.lively() && self.rng.chance(self.wrong) {
                        inject(self.rng, self.stream, &self.pool, &self.market, 200);
                    }
                    if self.lively() && self.rng.chance(8) {
                        self.call(i, &Record::Chain);
                    }
                }
                if self.rng.chance(850) {
                    self.step(i);
                }
            }
            let done = self.stream.member().round() == ceiling && self.queue.is_empty();
            if done || self.now > self.last_change + 200 + patience {
                break;
            }
        }
    }

    /// Whether the chains of correct members agree; nothing where the
    /// promise is not due (forged signatures, or too much faulty weight).
    fn agree(&self) -> Option<bool> {
        if self.forge {
            return None;
        }
        let correct: Vec<u32> = members_of(self.correct & self.present).collect();
        for &i in &correct {
            let member = self.member(i);
            for r in 1..=member.settings().ceiling {
                if let Some(c) = member.committee_of(r) {
                    if weight_of(!self.correct, c) > member.fault_bound(c) {
                        return None;
                    }
                }
            }
        }
        let chain = |i: u32| -> Vec<(u32, Vec<Proposal>)> {
            let member = self.member(i);
            let block = |b: &Block| {
                let all = b.certificates.iter();
                (b.round, all.map(|&(r, a)| member.held_at(a, r).unwrap().certificate.proposal.clone()).collect())
            };
            member.chain().iter().map(block).collect()
        };
        let chains: Vec<_> = correct.iter().map(|&i| chain(i)).collect();
        let longest = chains.iter().max_by_key(|c| c.len()).unwrap();
        Some(chains.iter().all(|c| longest.starts_with(c)))
    }
}

fn random_set(rng: &mut Rng) -> Set {
    rng.word() as Set
}

/// What is asked of a network stretch beside the chosen member's records.
#[derive(Clone, Copy)]
enum Asked {
    Nothing,
    /// Whether the chains agree, on standard error.
    Report,
    /// The streams of all correct members.
    All,
}

/// The streams of the correct members, where they are asked for and the
/// promise is due.
type Streams = Option<Vec<(u32, Vec<u8>)>>;

fn network(rng: &mut Rng, stream: &mut Stream, asked: Asked) -> Streams {
    let contest = rng.chance(400);
    let sheet = if contest { contest_sheet(rng) } else { random_sheet(rng) };
    let settings = sheet.fill().unwrap();
    let weights = settings.weights;
    let started = all_of(&weights);

    // Who runs at all, and who of them is correct.
    let mut present = started;
    present |= random_set(rng) & random_set(rng);
    let bound = fault_bound(total(&weights), settings.margin);
    let mut correct: Set = 0xffff;
    let too_many = rng.chance(150);
    let mut faulty_weight = 0;
    let mut numbers: Vec<u32> = (0..16).collect();
    rng.shuffle(&mut numbers);
    // Each anchor has to be committed, or should be.
    let close = settings.lookback <= 2 || contest && rng.chance(600);
    let want_faulty = rng.chance(if close { 250 } else { 650 });
    for m in numbers {
        let w = weights[m as usize];
        if want_faulty && (faulty_weight + w <= bound || too_many && rng.chance(300)) && rng.chance(600) {
            faulty_weight += w;
            correct &= !single(m);
            if rng.chance(250) {
                present &= !single(m);
            }
        }
    }
    if rng.chance(50) {
        present &= !rng.member_of(started).map_or(0, single);
    }
    let candidates = if rng.chance(900) { started } else { 0xffff };
    let chosen = rng.member_of(candidates & present).unwrap_or(rng.below(16) as u32);
    present |= single(chosen);
    correct |= single(chosen);

    let delay = rng.pick(&[1, 2, 3, 5, 8]);
    let forge = rng.chance(150);
    let mut nodes: Vec<Option<Node>> = Vec::new();
    let eager = rng.pick(&[1_000, 900, 600, 250]);
    // Who now and then goes on too early: few enough, or (rarely) anybody.
    let mut hasty: Set = 0;
    let mut missing = faulty_weight;
    let careless = rng.chance(60);
    for m in 0..16 {
        let w = weights[m as usize];
        if careless || (missing + w <= bound && rng.chance(if m == chosen { 500 } else { 100 })) {
            missing += w;
            hasty |= single(m);
        }
    }
    let early = rng.pick(&[0, 2, 10, 40]);
    let calm = if close { 40 } else { rng.pick(&[1, 1, 3, 8]) };
    for m in 0..16 {
        if !in_set(present, m) {
            nodes.push(None);
            continue;
        }
        let mut runner = Runner::default();
        let open = Record::Open { own: m, sheet: written_anew(rng, &sheet) };
        runner.answer(Some(&open), &mut Vec::new());
        let mut bytes = text_of(&open);
        bytes.extend_from_slice(b"\r\n");
        nodes.push(Some(Node {
            correct: in_set(correct, m),
            runner,
            bytes,
            waiting_proposals: Vec::new(),
            waiting_certificates: Vec::new(),
            progress: false,
            asked: BTreeMap::new(),
            offers: Vec::new(),
            entered: 0,
            skips: false,
            commits: if rng.chance(700) { eager } else { rng.pick(&[1_000, 500, 150, 60]) },
            lazy: if m == chosen { rng.pick(&[0, 300, 700]) } else { rng.pick(&[0, 0, 0, 400]) },
            early: if in_set(hasty, m) { early } else { 0 },
            patience: calm * delay * rng.pick(&[1, 2, 3, 5]),
        }));
    }
    stream.call(&Record::Open { own: chosen, sheet });
    let slow = if rng.chance(300) { random_set(rng) & random_set(rng) & random_set(rng) } else { 0 };
    let market = if contest {
        contest_market(rng, present, started, started & correct)
    } else {
        random_market(rng, present, started & correct)
    };
    let equivocate = rng.pick(&[0, 300, 800]);
    let late = rng.pick(&[0, 20, 60, 150]);
    let twice = rng.pick(&[0, 30, 150]);
    let wrong = rng.pick(&[50, 150, 400]);
    let to_leader = if close { 1_000 } else { rng.pick(&[300, 700, 1_000]) };
    let mut network = Network {
        rng,
        stream,
        pool: Pool::default(),
        nodes,
        chosen,
        present,
        correct: correct & present,
        all: matches!(asked, Asked::All),
        forge,
        equivocate,
        market,
        queue: BTreeMap::new(),
        now: 0,
        delay,
        late,
        twice,
        slow,
        wrong,
        to_leader,
        last_change: 0,
    };
    network.run();
    if let Asked::Report = asked {
        let blocks: Vec<usize> = members_of(network.correct).map(|i| network.member(i).chain().len()).collect();
        match network.agree() {
            None => eprintln!("agree void {blocks:?}"),
            Some(yes) => eprintln!("agree {yes} {blocks:?}"),
        }
    }
    let due = network.all && network.agree().is_some();
    let (rng, stream, pool, nodes) = (network.rng, network.stream, network.pool, network.nodes);
    finish(rng, stream, &pool, &market);
    if !due {
        return None;
    }
    let mut streams = Vec::new();
    for (m, node) in (0..).zip(nodes) {
        match node {
            _ if m == chosen => streams.push((m, stream.bytes.clone())),
            Some(mut node) if node.correct => {
                node.bytes.extend_from_slice(b"chain\r\n");
                streams.push((m, node.bytes));
            }
            _ => {}
        }
    }
    Some(streams)
}

/// The rest of the rounds, as far as certificates that were sent fill them,
/// with a commit now and then, and the chain.
fn finish(rng: &mut Rng, stream: &mut Stream, pool: &Pool, market: &Market) {
    while rng.chance(980) {
        if rng.chance(300) {
            inject(rng, stream, pool, market, 300);
        }
        if rng.chance(400) {
            stream.call(&Record::Commit);
        }
        match stream.call(&Record::Advance) {
            Outcome::Refused(28) if gather(rng, stream, pool) => {}
            // In a round that is not known: some calls more.
            Outcome::Refused(8) if rng.chance(700) => {
                let before = stream.member().held_authors(stream.member().round() - 1);
                stream.call(&Record::Propose { previous: before, transactions: Vec::new() });
                stream.call(&Record::Commit);
            }
            Outcome::Refused(_) => break,
            _ => {}
        }
    }
    stream.call(&Record::Commit);
    stream.call(&Record::Chain);
}

/// Late certificates of the present round and those before it, by chance one
/// or as many as make a quorum; whether there was any.
fn gather(rng: &mut Rng, stream: &mut Stream, pool: &Pool) -> bool {
    let (round, mut any) = (stream.member().round(), false);
    loop {
        let member = stream.member();
        let late = pool.certificates.iter().filter(|c| c.proposal.round <= round && member.may_accept(c).is_ok());
        let late: Vec<&Rc<Certificate>> = late.collect();
        if late.is_empty() {
            return any;
        }
        let certificate = (**rng.pick(&late)).clone();
        stream.call(&Record::Accept(certificate));
        any = true;
        if stream.member().may_advance().is_ok() || rng.chance(300) {
            return any;
        }
    }
}

// --------------------------------------------------------------- puppet ---

/// Endorsers that make a quorum of the committee with the author, if any do.
fn fitting_endorsers(rng: &mut Rng, author: u32, committee: &Committee, margin: u32) -> Set {
    let mut others: Vec<u32> = (0..16).filter(|&m| m != author && committee[m as usize] > 0).collect();
    rng.shuffle(&mut others);
    let mut set = 0;
    for m in others {
        if is_quorum(set | single(author), committee, margin) && !rng.chance(150) {
            break;
        }
        set |= single(m);
    }
    set
}

/// How the certificates of a puppet stretch are made up.
struct Shape {
    own: u32,
    links: u32,
    shun: u32,
    wrong: u32,
    endorsing: u32,
}

/// The certificate of an author in a round that is known, named previous by
/// chance; proposed and certified or accepted.
#[allow(clippy::too_many_arguments)]
fn make_up(
    rng: &mut Rng,
    stream: &mut Stream,
    pool: &mut Pool,
    market: &Market,
    shape: &Shape,
    author: u32,
    next: u32,
    votes: bool,
) {
    let member = stream.member();
    let (round, allowance, margin) = (member.round(), member.settings().allowance, member.settings().margin);
    let committee = *member.committee_of(next).expect("a known round");
    let before = if next > 1 { member.held_authors(next - 1) } else { 0 };
    let lead = if next > 1 && next % 2 == 1 { member.anchor(next - 1) } else { None };
    let mut previous = 0;
    if next > 1 {
        previous = rng.thin(before, shape.links);
        if let Some(l) = lead {
            if votes && rng.chance(900) {
                previous |= single(l);
            } else if !votes && rng.chance(shape.shun) {
                previous &= !single(l);
            }
        }
        if previous == 0 {
            previous = rng.member_of(before).map_or(1, single);
        }
    }
    let transactions = random_transactions(rng, market, allowance);
    let p = Proposal { author, round: next, previous, transactions };
    pool.proposals.push(Rc::new(p.clone()));
    if author == shape.own && next == round && rng.chance(700) {
        stream.call(&Record::Propose { previous, transactions: p.transactions.clone() });
        if rng.chance(300) {
            inject(rng, stream, pool, market, 100);
        }
        let endorsers = fitting_endorsers(rng, author, &committee, margin);
        stream.call(&Record::Certify { endorsers });
    } else {
        if rng.chance(shape.endorsing) {
            stream.call(&Record::Endorse(p.clone()));
            if rng.chance(100) {
                stream.call(&Record::Endorse(p.clone()));
            }
        }
        let endorsers = fitting_endorsers(rng, author, &committee, margin);
        let c = Certificate { proposal: p, endorsers };
        pool.certificates.push(Rc::new(c.clone()));
        stream.call(&Record::Accept(c));
    }
    if rng.chance(shape.wrong) {
        inject(rng, stream, pool, market, 200);
    }
    // More often while so many votes are there that the margin decides.
    let likely = if stream.commit_hangs_on_margin() { 100 } else { 20 };
    if rng.chance(likely) {
        stream.call(&Record::Commit);
    }
}

fn puppet(rng: &mut Rng, stream: &mut Stream) {
    let contest = rng.chance(400);
    let mut sheet = if contest { contest_sheet(rng) } else { random_sheet(rng) };
    // A braid: few members, each names one or two, few rounds vote.
    let braid = rng.chance(if contest { 100 } else { 400 });
    if braid {
        sheet.lookback = Setting::Written(rng.between(10, 70));
        sheet.ceiling = Setting::Written(rng.between(16, 64));
        let n = rng.between(4, 7) as usize;
        for m in 0..16 {
            sheet.weights[m] = Setting::Written(u32::from(m < n));
        }
    }
    let settings = sheet.fill().unwrap();
    let started = all_of(&settings.weights);
    let own = if rng.chance(850) { rng.member_of(started).unwrap() } else { rng.between(0, 15) };
    stream.call(&Record::Open { own, sheet });
    let market = if contest {
        contest_market(rng, 0xffff, started, started)
    } else {
        random_market(rng, 0xffff, started)
    };
    let mut pool = Pool::default();
    let density = rng.pick(&[400, 600, 800, 950]);
    let links = rng.pick(&[40, 100, 200, 400, 900]);
    // An anchor left out may end the run, and with it what is contested.
    let close = settings.lookback <= 3 || contest && rng.chance(700);
    let voting = if close { 1_000 } else { rng.pick(&[200, 500, 800]) }; // odd rounds that vote
    let shun = rng.pick(&[0, 500, 900]); // in the others, how many leave out the leader
    let leading = if close { 1_000 } else { rng.pick(&[300, 700, 900, 1_000]) };
    let eager = rng.pick(&[1_000, 700, 300, 120]);
    let wrong = rng.pick(&[50, 200, 500]);
    let endorsing = rng.pick(&[0, 200, 500]);
    let behind: u32 = rng.pick(&[0, 0, 3, 10]); // how far the present round may stay back
    let (density, links, voting, shun, leading, eager) =
        if braid { (1_000, 250, 250, 600, 1_000, 900) } else { (density, links, voting, shun, leading, eager) };
    let mut made = 0; // rounds whose certificates were made
    let ceiling = settings.ceiling;
    let mut votes: Vec<bool> = vec![true]; // by round: whether it votes
    let shape = Shape { own, links, shun, wrong, endorsing };

    while stream.member().round() < ceiling || made < ceiling {
        // The certificates of the next round, in any order, as far as known.
        let next = made + 1;
        let round = stream.member().round();
        let known = next <= ceiling && stream.member().committee_of(next).is_some();
        if known && (next <= round || next <= round + rng.below(u64::from(behind) + 1) as u32) {
            let committee = *stream.member().committee_of(next).unwrap();
            let mut authors: Vec<u32> = (0..16).filter(|&m| committee[m as usize] > 0).collect();
            rng.shuffle(&mut authors);
            let leads = if next % 2 == 0 { leader(next, &committee) } else { None };
            let sure = authors.first().copied(); // no round without a certificate
            votes.push(rng.chance(voting));
            for author in authors {
                let likely = if Some(author) == leads { leading } else { density };
                if Some(author) == sure || rng.chance(likely) {
                    make_up(rng, stream, &mut pool, &market, &shape, author, next, votes[next as usize]);
                }
            }
            made = next;
            continue;
        }
        if rng.chance(wrong) {
            inject(rng, stream, &pool, &market, 200);
        }
        let need = made < ceiling && stream.member().committee_of(made + 1).is_none();
        let odd = round % 2 == 1 && round > 1;
        if (odd && rng.chance(if need { 1_000 } else { eager })) || rng.chance(30) {
            stream.call(&Record::Commit);
            if rng.chance(100) {
                stream.call(&Record::Commit);
            }
            if rng.chance(60) {
                stream.call(&Record::Chain);
            }
        }
        if stream.member().round() == ceiling {
            break;
        }
        // A thin round: more is made up for it until it is a quorum, its
        // leader's certificate last. Mostly tried before, and now and then
        // between.
        let mut answer = stream.member().may_advance();
        if answer != Err(28) || rng.chance(600) {
            stream.call(&Record::Advance);
        }
        let nothing = round > 1 && stream.member().held_authors(round - 1) == 0;
        while answer == Err(28) && !nothing {
            let committee = *stream.member().committee_of(round).unwrap();
            let missing = (0..16).filter(|&m| committee[m as usize] > 0 && !stream.member().is_held(m, round));
            let leads = if round % 2 == 0 { leader(round, &committee) } else { None };
            let (mut others, last): (Vec<u32>, Vec<u32>) = missing.partition(|&m| Some(m) != leads);
            rng.shuffle(&mut others);
            let author = *others.iter().chain(&last).next().expect("all of a committee are a quorum");
            make_up(rng, stream, &mut pool, &market, &shape, author, round, votes[round as usize]);
            answer = stream.member().may_advance();
            if answer == Err(28) && rng.chance(200) {
                stream.call(&Record::Advance);
            }
        }
        // A round that is not known, or one after an empty committee: there is
        // nothing to name as previous. Nothing goes on from here.
        if answer.is_err() {
            break;
        }
    }
    finish(rng, stream, &pool, &market);
}

// ------------------------------------------------------ chaos, malformed ---

fn chaos(rng: &mut Rng, stream: &mut Stream) {
    let mut sheet = random_sheet(rng);
    let own = rng.between(0, 15);
    if rng.chance(700) {
        sheet.weights[own as usize] = Setting::Written(1_000_000);
    }
    stream.call(&Record::Open { own, sheet });
    let market = random_market(rng, 0xffff, 0);
    let mut pool = Pool::default();
    for _ in 0..rng.between(100, 1_500) {
        let member = stream.member();
        let r = member.round();
        let ceiling = member.settings().ceiling;
        let front = (1..=ceiling).rev().find(|&q| member.held_authors(q) != 0).unwrap_or(0);
        let record = match rng.below(12) {
            0 => Record::Propose {
                previous: match r {
                    1 => 0,
                    _ if rng.chance(150) => rng.thin(member.held_authors(r - 1), 400),
                    _ => member.held_authors(r - 1),
                },
                transactions: random_transactions(rng, &market, member.settings().allowance),
            },
            1 => Record::Certify { endorsers: rng.pick(&[0, 0, 1, 2, 4, 7, 14]) },
            2 if member.may_advance().is_ok() || rng.chance(150) => Record::Advance,
            3 => Record::Commit,
            4 if rng.chance(50) => Record::Chain,
            5 | 6 => {
                // Mostly acceptable, and often what the present round wants.
                let wanted = rng.chance(500);
                let round = if wanted { r } else { (front + rng.pick(&[0, 1, 1])).clamp(1, ceiling) };
                let committee = member.committee_of(round).copied().unwrap_or([1; 16]);
                let missing = (0..16).filter(|&m| committee[m as usize] > 0 && !member.is_held(m, round));
                let missing = missing.map(single).fold(0, |a, b| a | b);
                let author = rng.member_of(if wanted { missing } else { 0 }).unwrap_or(rng.between(0, 15));
                let before = member.held_authors(round - 1);
                let p = Proposal {
                    author,
                    round,
                    previous: rng.thin(before, 800) | rng.member_of(before).map_or(0, single),
                    transactions: random_transactions(rng, &market, member.settings().allowance),
                };
                let endorsers = fitting_endorsers(rng, author, &committee, member.settings().margin);
                if rng.chance(300) {
                    pool.proposals.push(Rc::new(p.clone()));
                    Record::Endorse(p)
                } else {
                    let c = Certificate { proposal: p, endorsers };
                    pool.certificates.push(Rc::new(c.clone()));
                    Record::Accept(c)
                }
            }
            _ => wrong_call(rng, member, &pool, &market),
        };
        if rng.chance(40) {
            let text = text_of(&record);
            let bytes = spoil(rng, &text);
            stream.raw(&bytes);
        } else {
            stream.call(&record);
        }
    }
    stream.call(&Record::Chain);
}

fn malformed(rng: &mut Rng, stream: &mut Stream) {
    let pool = Pool::default();
    let market = random_market(rng, 0xffff, 0);
    for _ in 0..rng.between(20, 600) {
        let text = some_text(rng, stream.runner.member.as_ref(), &pool, &market);
        if rng.chance(850) {
            let bytes = spoil(rng, &text);
            stream.raw(&bytes);
        } else {
            let mut bytes = text;
            bytes.extend_from_slice(b"\r\n");
            stream.raw(&bytes);
        }
    }
}

// ----------------------------------------------------------------- main ---

impl Stream {
    fn new() -> Stream {
        Stream { bytes: Vec::new(), runner: Runner::default(), answers: Vec::new() }
    }
}

fn generate(seed: u64, sort: Option<&str>, report: bool) -> Vec<u8> {
    let rng = &mut Rng::of(seed);
    let mut stream = Stream::new();
    let asked = if report { Asked::Report } else { Asked::Nothing };

    // Before an open.
    if rng.chance(300) {
        let market = random_market(rng, 0xffff, 0);
        for _ in 0..rng.between(1, 12) {
            let mut bytes = some_text(rng, None, &Pool::default(), &market);
            if rng.chance(300) {
                bytes = spoil(rng, &bytes);
            } else {
                bytes.extend_from_slice(b"\r\n");
            }
            stream.harmless_raw(&bytes);
        }
        if rng.chance(500) {
            stream.call(&bad_open(rng));
        }
    }
    let stretches = rng.pick(&[1, 1, 1, 2, 3]);
    for _ in 0..stretches {
        let drawn = rng.below(20);
        let drawn = match sort {
            Some("network") => 0,
            Some("puppet") => 9,
            Some("chaos") => 16,
            Some("malformed") => 18,
            _ => drawn,
        };
        match drawn {
            0..=8 => {
                network(rng, &mut stream, asked);
            }
            9..=15 => puppet(rng, &mut stream),
            16 | 17 => chaos(rng, &mut stream),
            _ => malformed(rng, &mut stream),
        }
    }
    // A last record without its CRLF.
    if rng.chance(250) {
        let last = rng.pick(&[&b"advance"[..], b"commit", b"chain", b"advance\r", b"\r", b"\n", b"chain\n", b"advance\n\r", b"propose,0\r\r", b",", b"\"", b"open,0,,64,,1,0,0,0,,,,,,,,,,,,", b"open,0,,64,,1,0,0,0,,,,,,,,,,,,,5"]);
        stream.bytes.extend_from_slice(last);
        if rng.chance(50) {
            let length = rng.pick(&[1_024, 1_025, 5_000]);
            stream.bytes.extend(std::iter::repeat_n(b'0', length));
        }
    }
    stream.bytes
}

/// One network stretch: the streams of its correct members, as N.stream.
fn write_members(seed: u64, directory: &str) -> std::io::Result<()> {
    match network(&mut Rng::of(seed), &mut Stream::new(), Asked::All) {
        None => println!("void"),
        Some(streams) => {
            for (member, bytes) in &streams {
                std::fs::write(format!("{directory}/{member}.stream"), bytes)?;
            }
            println!("due");
        }
    }
    Ok(())
}

fn main() {
    let mut args = std::env::args().skip(1);
    let seed = args.next().and_then(|s| s.parse::<u64>().ok());
    let Some(seed) = seed else {
        eprintln!("use: shuffle SEED [network | puppet | chaos | malformed] [agree] > stream");
        eprintln!("     shuffle SEED members DIRECTORY");
        std::process::exit(2);
    };
    let rest: Vec<String> = args.collect();
    if let [name, directory] = &rest[..] {
        if name == "members" {
            if let Err(e) = write_members(seed, directory) {
                eprintln!("{e}");
                std::process::exit(2);
            }
            return;
        }
    }
    let report = rest.iter().any(|s| s == "agree");
    let sort = rest.iter().map(String::as_str).find(|s| *s != "agree");
    let bytes = generate(seed, sort, report);
    if std::io::stdout().write_all(&bytes).is_err() {
        std::process::exit(2);
    }
}
