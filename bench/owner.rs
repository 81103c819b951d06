//! What owner's calls cost: `owner [quick] [CEILING..]` prints Markdown, of ceilings 64, 256 and 1,024 where none is
//! given, and then of whole runs. Four take turns, call by call:
//!
//! - owned: the engine's owner's call (libhost.a), on words that it owns;
//! - plain: the same rules in plain Rust by the same kept committees (plain_kept.rs);
//! - public: the engine's own call, which looks at all that is held first;
//! - resume, once for each state.
//!
//! States are as those of bench.rs: sixteen members; every certificate has four transactions and names all of
//! the round before; "full" holds all rounds up to the ceiling, "half" up to half of it, but for one's own place
//! and member 15's in the present round, which is the one before the last that is held; "empty" holds nothing, in
//! round 1. They are made by owner's calls, a commit in each odd round; those for many blocks by none, or by the first
//! twelve above round 1,000.
//!
//! Each call is made on the same state again and again: between two times the words that it changes are written
//! back. A time is that of one call, less what taking the time takes; shown is the median. So the words that a
//! call looks at are near the processor; the whole run shows what calls take that come one after another. After
//! the first call on each, owned, plain and public must have answered alike and left the same words, and owned
//! and plain the same kept committees of known rounds.

#[path = "host.rs"]
mod engine;
#[path = "owned.rs"]
mod owner;
#[path = "plain.rs"]
mod plain;

use plain::kept;
use std::hint::black_box;
use std::time::Instant;

const ROW: usize = 272;
const STATE_WORDS: usize = 39;
const OWN: u32 = 0;
const FREE: u32 = 15;
const CALLER: u32 = 3;

// ---------------------------------------------------------------- states ---

/// A member's words; the kept committees are those of owned and plain.
#[derive(Clone)]
struct Words {
    state: Vec<u32>,
    table: Vec<u32>,
    kept: Vec<u64>,
    random: u64,
}

impl Words {
    fn open(ceiling: u32, lookback: u32) -> Words {
        let mut sheet = [1; 40];
        (sheet[1], sheet[3], sheet[5], sheet[39]) = (lookback, ceiling, 4, 3);
        (3..19).for_each(|k| sheet[2 * k + 1] = 100 + k as u32);
        let table = vec![0; ROW * (ceiling as usize + 1)];
        let mut words = Words { state: vec![0; STATE_WORDS], table, kept: vec![0; owner::kept_words(ceiling)], random: 7 };
        assert_eq!(engine::open(&mut words.state, &mut words.table, OWN, &sheet, u32::MAX), 0);
        words.resume();
        words
    }

    fn resume(&mut self) {
        assert_eq!(owner::resume(&self.state, &self.table, &mut self.kept), 0);
    }

    fn below(&mut self, n: u32) -> u32 {
        self.random = self.random.wrapping_mul(0x5851_f42d_4c95_7f2d).wrapping_add(0x1405_7b7e_f767_814f);
        (self.random >> 33) as u32 % n
    }

    fn held(&self, round: u32) -> u32 {
        self.table[ROW * round as usize]
    }

    fn certificate(&mut self, author: u32, round: u32) -> [u32; 17] {
        let mut words = [0; 17];
        let previous = if round == 1 { 0 } else { self.held(round - 1) };
        words[..4].copy_from_slice(&[author, round, previous, 4]);
        for k in 0..4 {
            let transaction = match self.below(4) {
                0 => [0, self.below(16), 1 + self.below(10)],
                _ => [2, self.below(1 << 20), 0],
            };
            words[4 + 3 * k..7 + 3 * k].copy_from_slice(&transaction);
        }
        if self.below(8) == 0 {
            let m = self.below(16);
            words[10..16].copy_from_slice(&[1, m, 0, 0, m, 1 + self.below(10)]);
        }
        words[16] = 0xffff & !(1 << author);
        words
    }

    fn fill(&mut self, round: u32, free: &[u32]) {
        for author in (0..16).filter(|a| !free.contains(a)) {
            let words = self.certificate(author, round);
            assert_eq!(owner::accept(&self.state, &mut self.table, &self.kept, &words), 0);
        }
    }

    /// A run to so many rounds, with a commit in each odd one up to some round.
    fn run(ceiling: u32, lookback: u32, rounds: u32, commits: u32) -> Words {
        let mut words = Words::open(ceiling, lookback);
        for round in 1..rounds {
            let present = round == rounds - 1;
            words.fill(round, if present { &[OWN, FREE] } else { &[] });
            if present {
                words.fill(rounds, &[]);
                break;
            }
            if round % 2 == 1 && round > 1 && round <= commits {
                assert!(owner::commit(&mut words.state, &mut words.table, &mut words.kept) >> 32 == 0);
            }
            assert_eq!(owner::advance(&mut words.state, &words.table, &words.kept), 0);
        }
        words
    }

    fn held_in_all(&self) -> u32 {
        (1..=self.state[2]).map(|round| self.held(round).count_ones()).sum()
    }
}

/// The words of kept committees of rounds that are known.
fn known(words: &Words) -> usize {
    let last = match words.state[22] {
        0 => 0,
        number => words.table[ROW * number as usize + 2],
    };
    17 + 16 * (words.state[1] + last + 2).min(words.state[2]) as usize
}

// ---------------------------------------------------------------- timing ---

/// Words that a call changes, and what they were.
#[derive(Default)]
struct Undo {
    state: Vec<(usize, u32)>,
    table: Vec<(usize, u32)>,
    kept: Vec<(usize, u64)>,
}

fn changed<T: Copy + PartialEq>(before: &[T], after: &[T]) -> Vec<(usize, T)> {
    (0..before.len()).filter(|&i| before[i] != after[i]).map(|i| (i, before[i])).collect()
}

impl Undo {
    fn of(before: &Words, after: &Words) -> Undo {
        Undo {
            state: changed(&before.state, &after.state),
            table: changed(&before.table, &after.table),
            kept: changed(&before.kept, &after.kept),
        }
    }

    fn write(&self, words: &mut Words) {
        self.state.iter().for_each(|&(i, word)| words.state[i] = word);
        self.table.iter().for_each(|&(i, word)| words.table[i] = word);
        self.kept.iter().for_each(|&(i, word)| words.kept[i] = word);
    }
}

/// What taking a time takes, in nanoseconds.
fn overhead() -> f64 {
    median((0..20_001).map(|_| Instant::now().elapsed().as_nanos() as f64).collect())
}

fn median(mut times: Vec<f64>) -> f64 {
    times.sort_by(f64::total_cmp);
    times[times.len() / 2]
}

type Made<'a> = &'a dyn Fn(&mut Words, &mut [u32]) -> u64;

/// One call by each of the three, and how long its out stretch is.
struct Row<'a> {
    name: &'a str,
    owned: Made<'a>,
    plain: Option<Made<'a>>,
    public: Made<'a>,
    out: usize,
}

struct Pace {
    turns: usize,
    public: usize,
    overhead: f64,
}

impl Pace {
    /// Makes the call so many times, undone between; the median.
    fn time(&self, made: Made, words: &mut Words, undo: &Undo, out: &mut [u32], turns: usize) -> f64 {
        let once = |words: &mut Words, out: &mut [u32]| {
            let start = Instant::now();
            black_box(made(black_box(words), out));
            let time = start.elapsed().as_nanos() as f64;
            undo.write(words);
            time
        };
        let times = (0..turns).map(|_| once(words, out)).collect();
        (median(times) - self.overhead).max(0.0)
    }

    fn print(&self, state: &str, words: &Words, row: &Row) {
        let mut results = Vec::new();
        for made in [Some(row.owned), row.plain, Some(row.public)] {
            let Some(made) = made else {
                results.push(None);
                continue;
            };
            let (mut after, mut out) = (words.clone(), vec![77; row.out]);
            let answer = made(&mut after, &mut out);
            results.push(Some((made, answer, after, out)));
        }
        let (_, answer, owned, list) = results[0].as_ref().unwrap();
        let told = match (answer >> 32, *answer as u32) {
            (0, 0) => "ok".to_string(),
            (0, value) => format!("{value}"),
            (number, _) => format!("refused, {number}"),
        };
        for (who, result) in ["plain", "public"].iter().zip(&results[1..]) {
            let Some((_, other, after, out)) = result else { continue };
            assert_eq!(other, answer, "{} of {state}: {who} answers otherwise", row.name);
            assert!(after.state == owned.state && after.table == owned.table, "{} of {state}: {who} leaves other words", row.name);
            assert!(out == list, "{} of {state}: {who} writes another list", row.name);
            if *who == "plain" {
                assert_eq!(after.kept[1..known(after)], owned.kept[1..known(owned)], "{} of {state}: other kept committees", row.name);
            }
        }
        let turns = [self.turns, self.turns, self.public];
        let times: Vec<Option<f64>> = results.iter().zip(turns).map(|(result, turns)| {
            result.as_ref().map(|(made, _, after, _)| {
                let (mut copy, mut out) = (words.clone(), vec![77; row.out]);
                self.time(*made, &mut copy, &Undo::of(words, after), &mut out, turns)
            })
        }).collect();
        let cell = |time: Option<f64>| time.map_or("-".to_string(), |time| format!("{time:.0}"));
        let ratio = times[1].map_or("-".to_string(), |plain| format!("{:.2}", times[0].unwrap() / plain.max(1.0)));
        let spared = times[2].unwrap() / times[0].unwrap().max(1.0);
        println!("| {} | {state} | {told} | {} | {} | {} | {ratio} | {spared:.0} |", row.name, cell(times[0]), cell(times[1]), cell(times[2]));
    }
}

// ----------------------------------------------------------------- calls ---

fn plain_answer(number: u32) -> u64 {
    u64::from(number) << 32
}

/// The three forms of a call whose answer is a number: `$from` has what it is lent.
macro_rules! row {
    ($name:expr, $call:ident, $w:ident, $out:ident; $length:expr; $($lend:expr),*; $($argument:expr),*; $answer:expr) => {
        Row {
            name: $name,
            owned: &|$w: &mut Words, $out: &mut [u32]| { let _ = &$out; $answer(owner::$call($($lend),*, &$w.kept, $($argument),*)) },
            plain: Some(&|$w: &mut Words, $out: &mut [u32]| { let _ = &$out; $answer(kept::$call($($lend),*, &$w.kept, $($argument),*)) }),
            public: &|$w: &mut Words, $out: &mut [u32]| { let _ = &$out; $answer(engine::$call($($lend),*, $($argument),*)) },
            out: $length,
        }
    };
}

fn wide(answer: u64) -> u64 {
    answer
}

/// The table of a ceiling.
fn calls(ceiling: u32, pace: &Pace) {
    println!("\n### Ceiling {ceiling}\n");
    println!("| call | state | answer | owned ns | plain ns | public ns | owned / plain | public / owned |");
    println!("|---|---|---|---:|---:|---:|---:|---:|");
    let tops = [("empty", 0), ("half", ceiling / 2), ("full", ceiling)];
    let states: Vec<(&str, Words)> = tops
        .iter()
        .map(|&(name, top)| (name, if top == 0 { Words::open(ceiling, 20) } else { Words::run(ceiling, 20, top, ceiling) }))
        .collect();
    for (name, words) in &states {
        for_state(name, words, pace);
    }
    for &(name, top) in &tops[1..] {
        // Rounds above the lookback are known once there are some blocks.
        let words = Words::run(ceiling, 1_000, top, if top > 1_000 { 25 } else { 0 });
        many_blocks(name, &words, pace);
    }
    println!("\nHeld: {}.", states.iter().map(|(name, words)| format!("{name} {}", words.held_in_all())).collect::<Vec<_>>().join(", "));
    for (name, words) in &states {
        let mut copy = words.clone();
        let times = (0..pace.public).map(|_| {
            let start = Instant::now();
            copy.resume();
            start.elapsed().as_nanos() as f64
        });
        println!("Resume, {name}: {:.1} us.", median(times.collect()) / 1e3);
    }
}

fn for_state(name: &str, words: &Words, pace: &Pace) {
    let mut made = words.clone();
    let (round, last) = (words.state[20], words.state[22]);
    let previous = if round == 1 { 0 } else { words.held(round - 1) };
    let (own, free) = (made.certificate(OWN, round), made.certificate(FREE, round));
    let again = made.certificate(3, round.saturating_sub(1).max(1));
    let mut proposed = words.clone();
    assert_eq!(owner::propose(&mut proposed.state, &proposed.table, &proposed.kept, &own[2..]), 0);
    let mut queued = words.clone();
    for guest in [1, 3, 4, 7] {
        (0..2).for_each(|k| assert_eq!(owner::enqueue(&queued.state, &mut queued.table, &queued.kept, guest, &[2, k, 0]), 0));
    }
    let (body, proposal) = (&own[2..], &free[..16]);
    let show = |row: Row| pace.print(name, words, &row);
    show(row!("propose", propose, w, _o; 0; &mut w.state, &w.table; body; plain_answer));
    show(row!("endorse", endorse, w, _o; 0; &w.state, &mut w.table; proposal; plain_answer));
    pace.print(name, &proposed, &row!("certify", certify, w, _o; 0; &w.state, &mut w.table; own[16]; plain_answer));
    show(row!("accept", accept, w, _o; 0; &w.state, &mut w.table; &free; plain_answer));
    if round > 1 {
        show(row!("accept, held already", accept, w, _o; 0; &w.state, &mut w.table; &again; plain_answer));
    }
    show(row!("advance", advance, w, _o; 0; &mut w.state, &w.table; ; plain_answer));
    show(Row {
        name: "commit, one block",
        owned: &|w, _| owner::commit(&mut w.state, &mut w.table, &mut w.kept),
        plain: Some(&|w, _| kept::commit(&mut w.state, &mut w.table, &mut w.kept)),
        public: &|w, _| engine::commit(&mut w.state, &mut w.table),
        out: 0,
    });
    let room = 48 * words.state[2] as usize;
    show(row!("preview, one block", preview, w, o; room; &w.state, &w.table; o; wide));
    show(row!("critical", critical, w, o; 64; &w.state, &mut w.table; o; wide));
    show(row!("enqueue", enqueue, w, _o; 0; &w.state, &mut w.table; 2, &[2, 9, 0]; plain_answer));
    pace.print(name, &queued, &row!("draw of 4", draw, w, _o; 0; &mut w.state, &mut w.table; previous; plain_answer));
    show(row!("read committee", committee, w, o; 16; &w.state, &w.table; round, o; plain_answer));
    show(row!("read share", share, w, _o; 0; &w.state, &w.table; 3, round; wide));
    show(row!("bond effect", bond_effect, w, o; 33; &w.state, &w.table; 3, round, 7, o; plain_answer));
    show(row!("read certificate", certificate, w, o; 18; &w.state, &w.table; 3, round.saturating_sub(1).max(1), o; plain_answer));
    show(row!("read block", block, w, _o; 0; &w.state, &w.table; last; wide));
    show(Row {
        name: "block rows, the last block",
        owned: &|w, o| owner::block_rows(&w.state, &w.table, &w.kept, last.saturating_sub(1), 1, o),
        plain: None,
        public: &|w, o| engine::block_rows(&w.state, &w.table, last.saturating_sub(1), 1, o),
        out: 18 * 64,
    });
    if last > 0 {
        ports(name, words, pace);
    }
    // Fourteen of the present round are held, so the row brings what is there, newest first, and the two.
    let mut row: Vec<[u32; 17]> = Vec::new();
    for r in (round.saturating_sub(3).max(1)..=round).rev() {
        row.extend((0..16).map(|author| made.certificate(author, r)));
    }
    let row = &row[..];
    show(row!("batch of 64", batch, w, o; 64; &w.state, &mut w.table; row, o; plain_answer));
    let mut without = words.clone();
    let rounds = round.saturating_sub(3).max(1)..=round + 1;
    if last > 1 {
        // As somebody who was away: the last four rounds come, newest first.
        for r in rounds {
            without.table[ROW * r as usize] = 0;
        }
        let low = round.saturating_sub(3);
        (without.state[20], without.state[22]) = (low.max(1), words.state[22].min((low.saturating_sub(2)) / 2));
        without.resume_marks();
        pace.print(name, &without, &row!("batch of 64, four rounds to hold", batch, w, o; 64; &w.state, &mut w.table; row, o; plain_answer));
    }
}

impl Words {
    /// Takes marks of blocks that are no more away, and resumes.
    fn resume_marks(&mut self) {
        let blocks = self.state[22];
        for round in 1..=self.state[2] as usize {
            for author in 0..16 {
                let mark = &mut self.table[ROW * round + 16 + 16 * author + 2];
                *mark = if *mark > blocks { 0 } else { *mark };
            }
        }
        self.resume();
    }
}

/// With the caller's port behind the last line of the block before the last one: its next byte is the last block's first.
fn at_a_blocks_end(words: &Words) -> Option<Words> {
    let (blocks, port) = (words.state[22], 16 + 32 * CALLER as usize);
    if blocks < 2 {
        return None;
    }
    // That line is the anchor's, which is alone in its round.
    let round = words.table[ROW * (blocks - 1) as usize + 2];
    let row = ROW * round as usize;
    let author = (0..16).find(|author| words.table[row + 16 + 16 * author + 2] == blocks - 1)?;
    let mut end = words.clone();
    end.table[port] = 16 * round + author as u32;
    end.table[port + 1] = 1;
    let mut read = end.clone();
    while read.table[port] == end.table[port] {
        end = read.clone();
        owner::guest_port_read(CALLER, &read.state, &mut read.table, &read.kept, 0);
    }
    Some(end)
}

fn ports(name: &str, words: &Words, pace: &Pace) {
    let mut read = words.clone();
    let take = |read: &mut Words| owner::guest_port_read(CALLER, &read.state, &mut read.table, &read.kept, 0);
    take(&mut read);
    let reading = |title: &str, words: &Words, offset: u32| {
        pace.print(name, words, &row!(title, guest_port_read, w, _o; 0; CALLER, &w.state, &mut w.table; offset; wide));
    };
    reading("port read in a line", &read, 0);
    // To the end of the line that it is in.
    let place = read.table[16 + 32 * CALLER as usize];
    let mut end = read.clone();
    while read.table[16 + 32 * CALLER as usize] == place {
        end = read.clone();
        take(&mut read);
    }
    reading("port read at a line's end", &end, 0);
    if let Some(end) = at_a_blocks_end(words) {
        reading("port read at a block's end", &end, 0);
    }
    pace.print(name, words, &row!("port write", guest_port_write, w, _o; 0; CALLER, &w.state, &mut w.table; 7, 9; plain_answer));
}

fn many_blocks(name: &str, words: &Words, pace: &Pace) {
    let show = |row: Row| pace.print(name, words, &row);
    show(Row {
        name: "commit, many blocks",
        owned: &|w, _| owner::commit(&mut w.state, &mut w.table, &mut w.kept),
        plain: Some(&|w, _| kept::commit(&mut w.state, &mut w.table, &mut w.kept)),
        public: &|w, _| engine::commit(&mut w.state, &mut w.table),
        out: 0,
    });
    let room = 48 * words.state[2] as usize;
    show(row!("preview, many blocks", preview, w, o; room; &w.state, &w.table; o; wide));
    let blocks = {
        let mut after = words.clone();
        owner::commit(&mut after.state, &mut after.table, &mut after.kept);
        after
    };
    let number = blocks.state[22];
    pace.print(name, &blocks, &Row {
        name: "block rows, all blocks",
        owned: &|w, o| owner::block_rows(&w.state, &w.table, &w.kept, 0, number, o),
        plain: None,
        public: &|w, o| engine::block_rows(&w.state, &w.table, 0, number, o),
        out: 18 * 16 * (words.state[2] as usize + 1),
    });
}

// ------------------------------------------------------------- whole runs ---

/// The calls of a whole run, whose times are added up.
const KINDS: [&str; 5] = ["propose", "certify", "accept", "advance", "commit"];

/// A run from an opening to the ceiling, each call timed; the mean of each kind in so many spans of rounds.
fn whole_run(ceiling: u32, overhead: f64, spans: u32, by: &dyn Fn(usize, &mut Words, &[u32; 17]) -> u64) -> (Words, Vec<[f64; 5]>) {
    let mut words = Words::open(ceiling, 20);
    let mut sums = vec![[(0.0, 0u32); 5]; spans as usize];
    for round in 1..=ceiling {
        let span = &mut sums[((round - 1) * spans / ceiling) as usize];
        let mut call = |kind: usize, words: &mut Words, certificate: &[u32; 17]| {
            let start = Instant::now();
            let answer = black_box(by(kind, words, certificate));
            let time = start.elapsed().as_nanos() as f64 - overhead;
            assert_eq!(answer >> 32, 0, "{} in round {round}", KINDS[kind]);
            span[kind] = (span[kind].0 + time, span[kind].1 + 1);
        };
        let own = words.certificate(OWN, round);
        call(0, &mut words, &own);
        call(1, &mut words, &own);
        for author in 1..16 {
            let certificate = words.certificate(author, round);
            call(2, &mut words, &certificate);
        }
        if round % 2 == 1 && round > 1 {
            call(4, &mut words, &own);
        }
        if round < ceiling {
            call(3, &mut words, &own);
        }
    }
    let means = sums.iter().map(|span| span.map(|(sum, count)| sum / f64::from(count.max(1)))).collect();
    (words, means)
}

fn owned_call(kind: usize, w: &mut Words, certificate: &[u32; 17]) -> u64 {
    match kind {
        0 => plain_answer(owner::propose(&mut w.state, &w.table, &w.kept, &certificate[2..])),
        1 => plain_answer(owner::certify(&w.state, &mut w.table, &w.kept, certificate[16])),
        2 => plain_answer(owner::accept(&w.state, &mut w.table, &w.kept, certificate)),
        3 => plain_answer(owner::advance(&mut w.state, &w.table, &w.kept)),
        _ => owner::commit(&mut w.state, &mut w.table, &mut w.kept),
    }
}

fn plain_call(kind: usize, w: &mut Words, certificate: &[u32; 17]) -> u64 {
    match kind {
        0 => plain_answer(kept::propose(&mut w.state, &w.table, &w.kept, &certificate[2..])),
        1 => plain_answer(kept::certify(&w.state, &mut w.table, &w.kept, certificate[16])),
        2 => plain_answer(kept::accept(&w.state, &mut w.table, &w.kept, certificate)),
        3 => plain_answer(kept::advance(&mut w.state, &w.table, &w.kept)),
        _ => kept::commit(&mut w.state, &mut w.table, &mut w.kept),
    }
}

fn public_call(kind: usize, w: &mut Words, certificate: &[u32; 17]) -> u64 {
    match kind {
        0 => plain_answer(engine::propose(&mut w.state, &w.table, &certificate[2..])),
        1 => plain_answer(engine::certify(&w.state, &mut w.table, certificate[16])),
        2 => plain_answer(engine::accept(&w.state, &mut w.table, certificate)),
        3 => plain_answer(engine::advance(&mut w.state, &w.table)),
        _ => engine::commit(&mut w.state, &mut w.table),
    }
}

/// Several runs of each; of every mean the least.
fn runs(pace: &Pace, quick: bool) {
    const SPANS: u32 = 4;
    let times = if quick { 1 } else { 5 };
    let least = |by: &dyn Fn(usize, &mut Words, &[u32; 17]) -> u64, times: usize| {
        let mut all = (0..times).map(|_| whole_run(1_024, pace.overhead, SPANS, by));
        let (words, mut best) = all.next().unwrap();
        for (_, means) in all {
            best.iter_mut().zip(&means).for_each(|(best, means)| (0..5).for_each(|k| best[k] = best[k].min(means[k])));
        }
        (words, best)
    };
    let (owned, by_owner) = least(&owned_call, times);
    let (plain, by_plain) = least(&plain_call, times);
    let (public, by_public) = least(&public_call, 1);
    assert!(owned.state == plain.state && owned.table == plain.table && owned.kept[1..known(&owned)] == plain.kept[1..known(&plain)]);
    assert!(owned.state == public.state && owned.table == public.table);
    println!("\n### A whole run\n");
    println!("From an opening to round 1,024, sixteen members: in each round a propose, a certify, fifteen accepts and an advance, in each odd one from 3 on a commit of one block. Means in nanoseconds, of owned and plain the least of {times} runs, as what is held grows; all three end with the same words.\n");
    println!("| call | rounds | owned ns | plain ns | public ns | owned / plain | public / owned |");
    println!("|---|---|---:|---:|---:|---:|---:|");
    for (kind, name) in KINDS.iter().enumerate() {
        for span in 0..SPANS as usize {
            let (o, p, e) = (by_owner[span][kind], by_plain[span][kind], by_public[span][kind]);
            println!("| {name} | {} to {} | {o:.0} | {p:.0} | {e:.0} | {:.2} | {:.0} |", 256 * span + 1, 256 * (span + 1), o / p, e / o);
        }
    }
}

fn main() {
    let quick = std::env::args().any(|argument| argument == "quick");
    let pace = Pace { turns: if quick { 2_001 } else { 20_001 }, public: if quick { 11 } else { 101 }, overhead: overhead() };
    println!("## Owner's calls\n");
    println!("Nanoseconds per call, the median of {} of owned and plain and of {} of public, by turns; {:.0} for taking the time are taken off. Plain is plain_kept.rs: plain Rust by the same kept committees. \"Public / owned\" is how many times less the owner's call takes than the host's own.", pace.turns, pace.public, pace.overhead);
    let asked: Vec<u32> = std::env::args().filter_map(|argument| argument.parse().ok()).collect();
    for &ceiling in if asked.is_empty() { &[64, 256, 1_024] } else { &asked[..] } {
        calls(ceiling, &pace);
    }
    if asked.is_empty() {
        runs(&pace, quick);
    }
}
