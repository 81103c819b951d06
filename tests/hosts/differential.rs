//! Host functions against the reference:
//! `differential SEED [CALLS [TOTAL [CERTIFICATES [QUEUED [PREVIEWED [CRITICALS [GUESTED [LEDGERS [EFFECTS [PORTED]]]]]]]]]]`.
//!
//! Each call is made twice: by the engine on words, and by the reference on
//! the member that the words before the call stand for. Compared after each
//! call: the answer, every word of state, table and out stretch, also beyond
//! what the call may touch. A refused call must have changed nothing, and no call
//! but an accepted open the rights. Of the calls by chance some are a guest's.
//!
//! First come single words at the edges of their ranges (`edges.rs`), then
//! shares, among them every weight of every total up to TOTAL (`shares.rs`), then
//! batches, until CERTIFICATES were handed over in them (`batches.rs`), then
//! QUEUED calls on queues (`queues.rs`), then PREVIEWED previews of commit
//! (`previews.rs`), then CRITICALS lists of what a commit hangs on
//! (`criticals.rs`), then GUESTED calls of guests (`guests.rs`), then LEDGERS
//! ledgers of weights after commits (`ledgers.rs`), then EFFECTS reads of what a bond
//! does to the shares (`effects.rs`), then PORTED accesses to ports (`ports.rs`), then
//! calls by chance. Their stretches start from states grown by runs, from such states
//! with words changed here and there, and with chains made up on what they hold. Whether
//! a changed state is well formed is judged by `words.rs`, from docs/RULES.md.
//!
//! With `--cfg plain` the engine under test is bench/plain.rs.

mod answers;
mod batches;
mod calls;
mod criticals;
mod edges;
mod effects;
#[path = "../../bench/host.rs"]
#[cfg(not(plain))]
mod engine;
#[path = "../../bench/plain.rs"]
#[cfg(plain)]
mod engine;
mod grow;
mod guests;
mod ledgers;
mod margins;
mod nodes;
mod ports;
mod previews;
mod queues;
mod rows;
mod shares;
mod words;

use answers::*;
use calls::*;
use grow::*;
use nodes::*;
use queues::waiting_of;
use reference::*;
use rows::some_batch;
use words::*;

// --------------------------------------------------------------- figures ---

/// How many calls got each answer.
fn told(answers: &[u64; ANSWERS]) -> String {
    let refusals = (1..ANSWERS).filter(|&n| answers[n] > 0);
    let list: Vec<String> = refusals.map(|n| format!("{n} x {}", answers[n])).collect();
    let made: u64 = answers.iter().sum();
    format!("{made} calls, {} accepted; refused: {}", answers[0], list.join(", "))
}

#[derive(Default)]
struct Figures {
    answers: [[u64; ANSWERS]; Call::NAMES.len()],
    calls: u64,
    malformed: u64,
    changed: u64,
    differences: u64,
    blocks: u64,
    most_blocks: u64,
    /// Chains made up; their blocks, those whose round has no leader, those
    /// whose leader has no certificate of the block's round in them.
    chains: u64,
    made_up: u64,
    leaderless: u64,
    unanchored: u64,
    /// Committees read, and those that the same blocks would not give in the
    /// first order, by round, then author.
    committees: u64,
    other: u64,
    /// Shares read; of them exact halves that go down and that go up, reads
    /// of 0, and the largest total.
    shares: u64,
    halves: [u64; 2],
    zeros: u64,
    most_weight: u64,
    /// Advances refused with 28, and those of them with a quorum's weight inside
    /// and an outsider held.
    thin: u64,
    outsiders: u64,
    /// Calls by ceiling: up to 40, up to 255, larger.
    sizes: [u64; 3],
    batches: batches::Figures,
    queues: queues::Figures,
    previews: previews::Figures,
    criticals: criticals::Figures,
    guests: guests::Figures,
    ledgers: ledgers::Figures,
    effects: effects::Figures,
    ports: ports::Figures,
    margins: margins::Figures,
}

impl Figures {
    fn count(&mut self, caller: Caller, call: &Call, answer: u64) {
        self.calls += 1;
        let answers = match caller {
            Caller::Host => &mut self.answers,
            Caller::Guest(_) => &mut self.guests.answers,
        };
        let number = (answer >> 32) as usize;
        assert!(number < ANSWERS, "{number} is no number of this version: {call:?}");
        answers[call.kind()][number] += 1;
        if matches!(call, Call::Commit) && answer >> 32 == 0 {
            self.blocks += answer;
            self.most_blocks = self.most_blocks.max(answer);
        }
    }

    /// A committee was read: would it be another by round, then author?
    fn count_committee(&mut self, member: &Member, round: u32) {
        let settings = &member.settings;
        let mut before = settings.weights;
        let below = round.saturating_sub(settings.lookback);
        for block in member.chain.iter().filter(|b| b.round < below) {
            let mut certificates = block.certificates.clone();
            certificates.sort();
            for (r, a) in certificates {
                let held = member.held_at(a, r).expect("a block's certificates are held");
                held.certificate.proposal.transactions.iter().for_each(|t| change(&mut before, t));
            }
        }
        self.committees += 1;
        self.other += u64::from(member.committee_of(round) != Some(&before));
    }

    fn count_share(&mut self, weight: u64, n: u64, share: u64) {
        self.shares += 1;
        if 2_000 * weight % (2 * n) == n {
            self.halves[usize::from(n * share > 1_000 * weight)] += 1;
        }
        self.zeros += u64::from(share == 0);
        self.most_weight = self.most_weight.max(n);
    }

    /// An advance was refused with 28.
    fn count_thin(&mut self, member: &Member) {
        let committee = member.committee_of(member.round).expect("28 comes after 8");
        let held = member.held_authors(member.round);
        self.thin += 1;
        self.outsiders += u64::from(member.is_quorum(held & members_in(committee), committee));
    }

    fn count_chain(&mut self, member: &Member) {
        self.chains += 1;
        for (k, block) in member.chain.iter().enumerate() {
            self.made_up += 1;
            match block_leader(&member.settings, &member.chain[..k], block.round) {
                None => self.leaderless += 1,
                Some(a) if !block.certificates.contains(&(block.round, a)) => self.unanchored += 1,
                Some(_) => {}
            }
        }
    }

    /// What a call of a member has shown; `out` is its out stretch afterwards.
    fn count_of(&mut self, call: &Call, answer: Answer<u64>, member: &Member, out: &[u32]) {
        match (call, answer) {
            (Call::Advance, Err(28)) => self.count_thin(member),
            (Call::Critical { .. }, Ok(count)) => {
                self.criticals.count(member, &out.as_chunks::<2>().0[..count as usize])
            }
            (Call::Committee { round, .. }, Ok(_)) => self.count_committee(member, *round),
            (Call::Effect { member: m, round, amount, out: lent }, Ok(_)) => {
                let committee = member.committee_of(*round).expect("an effect was read");
                self.effects.count(committee, *m, *amount, &out[..EFFECT], lent.len());
            }
            (Call::Share { member: m, round }, Ok(share)) => {
                let committee = member.committee_of(*round).expect("a share was read");
                self.count_share(committee[*m as usize], total(committee), share);
            }
            _ => {}
        }
    }

    fn print(&self, seed: u64) {
        // The host has no accesses.
        for (name, answers) in Call::NAMES.iter().zip(&self.answers).filter(|(_, answers)| **answers != [0; ANSWERS]) {
            println!("{name}: {}", told(answers));
        }
        println!("blocks made: {}, at most {} at once", self.blocks, self.most_blocks);
        println!(
            "chains made up: {}, with {} blocks: {} of a round without a leader, {} without its leader's certificate",
            self.chains, self.made_up, self.leaderless, self.unanchored
        );
        println!(
            "committees read: {}, other than by round, then author: {}",
            self.committees, self.other
        );
        let [down, up] = self.halves;
        println!(
            "shares read: {}, of them exact halves: {down} down, {up} up; reads of 0: {}; largest total: {}",
            self.shares, self.zeros, self.most_weight
        );
        println!(
            "advances refused with 28: {}, with an outsider beside a quorum: {}",
            self.thin, self.outsiders
        );
        self.batches.print();
        self.queues.print();
        self.previews.print(&self.answers[Call::PREVIEW]);
        self.criticals.print(&self.answers[Call::CRITICAL]);
        self.guests.print();
        self.ledgers.print();
        let (by_host, by_guests) = (&self.answers[Call::EFFECT], &self.guests.answers[Call::EFFECT]);
        self.effects.print(by_host.iter().chain(by_guests).sum(), by_host[0] + by_guests[0]);
        self.ports.print();
        self.margins.print();
        let [small, middle, large] = self.sizes;
        println!("calls by ceiling: {small} up to 40, {middle} up to 255, {large} up to 1,024");
        println!("changed states: {}, of them not well formed: {}", self.changed, self.malformed);
        println!("seed {seed}: {} calls, {} differences", self.calls, self.differences);
    }
}

// ------------------------------------------------------------ comparison ---

/// Words on both sides of an out stretch, which are not lent.
const GUARD: [u32; 4] = [0x6a09_e667, 77, 0, u32::MAX];

pub struct Test {
    seed: u64,
    rng: Rng,
    figures: Figures,
    before_state: Vec<u32>,
    before_table: Vec<u32>,
    /// What the engine answered to the last call, and the out stretch after it.
    last_answer: u64,
    last_out: Vec<u32>,
}

fn first_difference(what: &str, expected: &[u32], found: &[u32]) {
    if let Some(at) = (0..expected.len()).find(|&i| expected[i] != found[i]) {
        println!("  {what} word {at}: expected {}, found {}", expected[at], found[at]);
    }
}

impl Test {
    /// Says what was seen; the status tells whether there was a difference.
    fn end(&self) -> ! {
        self.figures.print(self.seed);
        std::process::exit(i32::from(self.figures.differences > 0))
    }

    /// Two answers of the engine do not fit one another.
    fn differs(&mut self, how: &str) {
        self.figures.differences += 1;
        println!("DIFFERENCE after call {}: {how}", self.figures.calls);
    }

    /// A call of the host's own; an access, which it does not have, by some guest.
    pub fn call(&mut self, node: &mut Node, call: &Call, lengths: (usize, usize)) -> u64 {
        let caller = if call.is_access() { Caller::Guest(any_guest(&mut self.rng)) } else { Caller::Host };
        self.call_by(caller, node, call, lengths)
    }

    /// One call on a node, by both, compared. The tenth difference is the last.
    pub fn call_by(&mut self, caller: Caller, node: &mut Node, call: &Call, lengths: (usize, usize)) -> u64 {
        let (ns, nt) = lengths;
        let size = match node.table.len() / ROW {
            0..=42 => 0,
            43..=256 => 1,
            _ => 2,
        };
        let mut expected_out = call.out().to_vec();
        let mut guarded_out = [&GUARD, call.out(), &GUARD].concat();
        let lent_out = &mut guarded_out[GUARD.len()..][..expected_out.len()];
        let waited = waiting_of(call, node.twin.as_ref());
        let rights = rights_in(&node.state[..ns]);
        let may = asks(caller, call, &rights).is_ok();
        if may {
            self.figures.margins.count(call, node.twin.as_mut());
        }
        self.before_state.clone_from(&node.state);
        self.before_table.clone_from(&node.table);
        let (state, table) = (&mut node.state[..ns], &mut node.table[..nt]);
        let found = match caller {
            Caller::Host => by_engine(call, state, table, lent_out),
            Caller::Guest(guest) => by_guest(guest, call, state, table, lent_out),
        };
        let found_out = lent_out.to_vec();
        let guarded = guarded_out.starts_with(&GUARD) && guarded_out.ends_with(&GUARD);
        let answer = by_reference(caller, call, &rights, &mut node.twin, lengths, &mut expected_out);
        let expected = wide(answer);
        let opened = matches!(call, Call::Open { .. }) && answer.is_ok();
        let other_rights = !opened && self.before_state.get(RIGHTS) != node.state.get(RIGHTS);
        let (state, table) = (&mut self.before_state, &mut self.before_table);
        let stood = ports::stands(caller, call, table);
        if let (Ok(_), Some(member)) = (answer, &node.twin) {
            write_after(call, member, state, table);
        }
        let same = found == expected
            && *state == node.state
            && *table == node.table
            && found_out == expected_out
            && guarded
            && !other_rights;
        if !same {
            self.figures.differences += 1;
            println!("DIFFERENCE at call {}: {call:?} by {caller:?}, lengths {lengths:?}", self.figures.calls);
            println!("  answer: expected {expected:#x}, found {found:#x}");
            first_difference("state", state, &node.state);
            first_difference("table", table, &node.table);
            first_difference("out", &expected_out, &found_out);
            println!("  state now: {:?}", node.state);
            if self.figures.differences >= 10 {
                self.end();
            }
            // Go on from what was expected.
            node.state.clone_from(&self.before_state);
            node.table.clone_from(&self.before_table);
        }
        (self.last_answer, self.last_out) = (found, found_out);
        if found == 0 && !effects::within_bound(call, node.twin.as_ref(), &self.last_out) {
            self.differs("a bond moves a share further than its bound, or the largest difference is another");
        }
        self.figures.count(caller, call, expected);
        self.figures.ports.count(caller, call, answer, stood, node);
        self.figures.sizes[size] += 1;
        if !may {
            return expected;
        }
        if matches!(call, Call::Draw { .. }) {
            self.figures.queues.count_draw(answer, waited, waiting_of(call, node.twin.as_ref()));
        }
        if let Some(member) = &node.twin {
            self.figures.count_of(call, answer, member, &expected_out);
        }
        expected
    }

    /// The lengths handed over: mostly all of it, at times too little.
    fn lengths(&mut self, node: &Node) -> (usize, usize) {
        let (mut ns, mut nt) = (node.state.len(), node.table.len());
        if self.rng.chance(8) {
            // At times a state of before there was a margin, or of before there were rights.
            let any = self.rng.below(STATE_WORDS as u64 + 1) as usize;
            ns = if self.rng.chance(500) { self.rng.pick(&[MARGIN, RIGHTS]) } else { any };
        }
        if self.rng.chance(12) {
            let needed = node.twin.as_ref().map_or(nt, |m| table_words(m.settings.ceiling));
            nt = match self.rng.below(3) {
                0 => needed - 1,
                1 => needed,
                _ => self.rng.below(nt as u64 + 1) as usize,
            };
        }
        (ns, nt)
    }

    /// Some calls on a copy of a node with words changed. Where the changed
    /// state is well formed the copy may take the node's place.
    fn changed(&mut self, node: &mut Node, pool: &mut Pool) {
        let mut copy = node.clone();
        let Some(hint) = node.twin.clone() else { return };
        let made_up = self.rng.chance(250);
        if made_up {
            make_up_chain(&mut self.rng, &hint, &mut copy.state, &mut copy.table);
        } else {
            for _ in 0..1 + self.rng.below(3) {
                change_word(&mut self.rng, &hint, &mut copy.state, &mut copy.table);
            }
        }
        copy.read_again();
        self.figures.changed += 1;
        self.figures.malformed += u64::from(copy.twin.is_none());
        if made_up {
            self.figures.count_chain(copy.twin.as_ref().expect("a chain made up is well formed"));
        }
        let some = if copy.twin.is_none() { 2 } else { 6 };
        for _ in 0..1 + self.rng.below(some) {
            let hint = copy.twin.as_ref().unwrap_or(&hint);
            let call = if made_up {
                call_on_chain(&mut self.rng, hint, pool)
            } else {
                any_call(&mut self.rng, hint, pool)
            };
            let lengths = self.lengths(&copy);
            let caller = self.caller_of(&call);
            self.call_by(caller, &mut copy, &call, lengths);
        }
        if copy.twin.is_some() && self.rng.chance(if made_up { 10 } else { 100 }) {
            *node = copy;
        }
    }

    /// A stretch of calls on members with the same sheet.
    fn stretch(&mut self) {
        let plan = Plan::any(&mut self.rng);
        let mut pool = Pool::default();
        let mut nodes: Vec<Node> = Vec::new();
        for own in &plan.owns {
            let mut node = if plan.grown == 0 {
                self.opened(&plan, *own)
            } else {
                let opened = plan.open(&mut self.rng, *own);
                let grown = grow(&mut self.rng, opened, plan.grown, &plan);
                Node::of(grown, &mut self.rng)
            };
            if self.rng.chance(500) {
                node.read_again();
            }
            nodes.push(node);
        }
        for _ in 0..plan.calls {
            let node = &mut nodes[self.rng.below(plan.owns.len() as u64) as usize];
            if self.rng.chance(plan.changes) {
                self.changed(node, &mut pool);
                continue;
            }
            if self.rng.chance(plan.rereads) {
                node.read_again();
                assert!(node.twin.is_some(), "a state reached by calls is not well formed");
            }
            let Some(twin) = &node.twin else { unreachable!("a node in a stretch is well formed") };
            if self.rng.chance(5) {
                let call = some_batch(&mut self.rng, twin);
                let lengths = self.lengths(node);
                self.batch(node, &call, lengths);
                continue;
            }
            let call = likely_call(&mut self.rng, twin, &mut pool);
            let lengths = self.lengths(node);
            let caller = self.caller_of(&call);
            let answer = self.call_by(caller, node, &call, lengths);
            pool.note(&call, answer, node.twin.as_ref().unwrap());
        }
    }

    /// Who makes a call: the host, mostly, where it has it.
    fn caller_of(&mut self, call: &Call) -> Caller {
        match call.request() {
            None => Caller::Host,
            Some(_) if call.is_access() => Caller::Guest(any_guest(&mut self.rng)),
            Some(_) => any_caller(&mut self.rng),
        }
    }

    /// A node opened by the engine over noise.
    fn opened(&mut self, plan: &Plan, own: u32) -> Node {
        let rng = &mut self.rng;
        let length = table_words(plan.ceiling) + rng.below(30) as usize;
        let state = (0..STATE_WORDS + rng.below(4) as usize).map(|_| rng.word()).collect();
        let table = (0..length).map(|_| rng.word()).collect();
        let mut node = Node { state, table, twin: None };
        node.read_again();
        let rights = rights_word(&any_rights(rng));
        let call = Call::Open { own, sheet: sheet_words(rng, &plan.sheet), rights };
        let lengths = (node.state.len(), node.table.len());
        self.call(&mut node, &call, lengths);
        assert!(node.twin.is_some(), "a plan's open is accepted");
        node
    }
}

fn main() {
    let mut arguments = std::env::args().skip(1);
    let seed = arguments.next().map_or(1, |a| a.parse().expect("SEED is a number"));
    let calls = arguments.next().map_or(1_000_000, |a| a.parse().expect("CALLS is a number"));
    let most = arguments.next().map_or(80, |a| a.parse().expect("TOTAL is a number"));
    let certificates =
        arguments.next().map_or(50_000, |a| a.parse().expect("CERTIFICATES is a number"));
    let queued = arguments.next().map_or(50_000, |a| a.parse().expect("QUEUED is a number"));
    let previewed = arguments.next().map_or(20_000, |a| a.parse().expect("PREVIEWED is a number"));
    let criticals = arguments.next().map_or(20_000, |a| a.parse().expect("CRITICALS is a number"));
    let guested = arguments.next().map_or(50_000, |a| a.parse().expect("GUESTED is a number"));
    let ledgers = arguments.next().map_or(3_000, |a| a.parse().expect("LEDGERS is a number"));
    let effects = arguments.next().map_or(50_000, |a| a.parse().expect("EFFECTS is a number"));
    let ported = arguments.next().map_or(50_000, |a| a.parse().expect("PORTED is a number"));
    let mut test = Test {
        seed,
        rng: Rng::of(seed),
        figures: Figures::default(),
        before_state: Vec::new(),
        before_table: Vec::new(),
        last_answer: 0,
        last_out: Vec::new(),
    };
    for ceiling in (0..2_000).chain([65_535, u32::MAX]) {
        assert_eq!(engine::table_words(ceiling), 272 * u64::from(ceiling) + 272);
    }
    test.edges();
    println!("edges: {} calls", test.figures.calls);
    let before = test.figures.calls;
    test.shares(most);
    println!("shares, every pair up to total {most}: {} calls", test.figures.calls - before);
    let before = test.figures.calls;
    test.batches(certificates);
    let batches = test.figures.calls - before;
    println!("batches of {certificates} certificates and more: {batches} calls");
    let before = test.figures.calls;
    test.queues(queued);
    println!("queues: {} calls", test.figures.calls - before);
    let before = test.figures.calls;
    let accepted = test.previews(previewed);
    let calls_made = test.figures.calls - before;
    println!("{previewed} previews and more, {accepted} of them accepted, commits after them: {calls_made} calls");
    let before = test.figures.calls;
    let accepted = test.criticals(criticals);
    let calls_made = test.figures.calls - before;
    println!("{criticals} lists of what a commit hangs on and more, {accepted} of them accepted, commits after them: {calls_made} calls");
    let before = test.figures.calls;
    test.guests(guested);
    let calls_made = test.figures.calls - before;
    println!("{guested} calls of guests and more, the host's own beside them: {calls_made} calls");
    test.ledgers(ledgers);
    println!("{ledgers} ledgers of weights and more");
    let before = test.figures.calls;
    let accepted = test.effects(effects);
    let calls_made = test.figures.calls - before;
    println!("{effects} reads of what a bond does to the shares and more, {accepted} of them accepted: {calls_made} calls");
    let before = test.figures.calls;
    let accepted = test.ports(ported);
    let calls_made = test.figures.calls - before;
    println!("{ported} accesses to ports and more, {accepted} of them accepted, calls between them: {calls_made} calls");
    let enough = test.figures.calls + calls;
    while test.figures.calls < enough {
        test.stretch();
    }
    test.end()
}
