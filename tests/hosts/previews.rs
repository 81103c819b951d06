//! Previews of commit: lengths of the list at their edges and each refusal by
//! hand, a full state; then by chance on states just before a commit, grown,
//! changed and damaged ones. After each accepted preview a commit on a copy adds
//! the blocks, and they are read there: the entries must be their certificates.

use crate::calls::*;
use crate::grow::*;
use crate::words::*;
use crate::{Node, Test};
use reference::*;

/// What was seen of accepted previews.
#[derive(Default)]
pub struct Figures {
    /// By how many blocks have entries, five for more than four.
    blocks: [u64; 6],
    entries: u64,
    most: u64,
    /// Those not by block, then round, then author; those of a block of none.
    turned: u64,
    empty: u64,
    /// Previews of changed states; those of them that were accepted.
    changed: [u64; 2],
    /// Those whose new blocks were read place by place.
    by_reads: u64,
}

impl Figures {
    fn count(&mut self, entries: &[[u32; 3]], added: u64) {
        let mut numbers: Vec<u32> = entries.iter().map(|entry| entry[0]).collect();
        numbers.dedup();
        self.blocks[numbers.len().min(5)] += 1;
        self.entries += entries.len() as u64;
        self.most = self.most.max(entries.len() as u64);
        self.turned += u64::from(!entries.is_sorted());
        self.empty += u64::from((numbers.len() as u64) < added);
    }

    /// `answers` are those of all previews.
    pub fn print(&self, answers: &[u64; ANSWERS]) {
        let [none, one, two, three, four, more] = self.blocks;
        println!(
            "previews: {} asked, {} accepted; committed on a copy: of 1 to 4 blocks {one}, {two}, {three}, {four}, of more {more}, \
             of blocks without a new certificate alone {none}, with such a block {}; not by round, then author: {}",
            answers.iter().sum::<u64>(), answers[0], self.empty, self.turned
        );
        println!(
            "entries: {}, at most {} at once; of changed states {} previews, {} accepted; new blocks read place by place: {}",
            self.entries, self.most, self.changed[0], self.changed[1], self.by_reads
        );
    }

    /// Every number that a preview may answer was seen, and no other.
    fn all_seen(answers: &[u64; ANSWERS]) {
        for (number, &times) in answers.iter().enumerate() {
            let is_its = [0, 1, 8, 19, 20, 21, 22, 25].contains(&number);
            assert_eq!(times > 0, is_its, "previews answered with {number}");
        }
    }
}

/// The certificates of the blocks above a number, as the words tell them.
pub fn new_blocks(node: &Node, above: u32) -> Vec<[u32; 3]> {
    let member = read_member(&node.state, &node.table).expect("well formed after a commit");
    let of = |(number, block): (u32, &Block)| {
        block.certificates.iter().map(|&(round, author)| [number, round, author]).collect::<Vec<_>>()
    };
    (1..).zip(&member.chain).skip(above as usize).flat_map(of).collect()
}

/// A certificate of one of the members below `all`, endorsed by the others.
fn by_all(author: u32, round: u32, previous: Set, all: Set) -> Certificate {
    let transactions = vec![Transaction::Entry { number: round }];
    let proposal = Proposal { author, round, previous, transactions };
    Certificate { proposal, endorsers: all & !single(author) }
}

/// Member 0 of these members of weight 1, with so many full rounds: in the last
/// of them.
pub fn full_rounds(ceiling: u32, lookback: u32, all: Set, rounds: u32, commit_in: u32) -> Member {
    let mut sheet = Sheet::all_blank();
    (sheet.lookback, sheet.ceiling) = (Setting::Written(lookback), Setting::Written(ceiling));
    sheet.weights = std::array::from_fn(|m| Setting::Written(u32::from(in_set(all, m as u32))));
    let mut member = Member::open(0, &sheet, ceiling).expect("in range");
    for round in 1..=rounds {
        for author in members_of(all) {
            let previous = if round == 1 { 0 } else { all };
            member.accept(&by_all(author, round, previous, all)).expect("fits");
        }
        if round == commit_in {
            member.commit().expect("all are held");
        }
        if round < rounds {
            member.advance().expect("all are held, below the ceiling");
        }
    }
    member
}

/// Its words, with some beyond them.
pub fn node_of(member: Member) -> Node {
    let mut table = vec![0; table_words(member.settings.ceiling) + 5];
    write_table(&member, &mut table);
    Node { state: state_words(&member).to_vec(), table, twin: Some(member) }
}

/// Goes on to an odd round, the anchor of the round before held, mostly, and
/// votes for it, mostly.
pub fn towards_commit(rng: &mut Rng, member: &mut Member, plan: &Plan) {
    loop {
        let round = member.round;
        let Some(&committee) = member.committee_of(round) else { return };
        if members_in(&committee) == 0 || round > 1 && member.held_authors(round - 1) == 0 {
            return;
        }
        if round % 2 == 1 && round > member.last_block_round() + 1 && round > 1 {
            break;
        }
        let first = leader(round, &committee).expect("not empty");
        if round % 2 == 0 && !member.is_held(first, round) && rng.chance(900) {
            let anchor = made_up(rng, member, first, plan);
            member.accept(&anchor).expect("it was made to fit");
        }
        gather(rng, member, &committee, plan);
        if member.advance().is_err() {
            return;
        }
    }
    let round = member.round;
    let mut authors: Vec<u32> = (0..MEMBERS).filter(|&a| !member.is_held(a, round)).collect();
    while !authors.is_empty() && !rng.chance(60) {
        if member.may_commit().is_ok() && rng.chance(300) {
            return;
        }
        let author = authors.swap_remove(rng.below(authors.len() as u64) as usize);
        let Some(committee) = member.committee_of(round) else { return };
        if committee[author as usize] == 0 {
            continue;
        }
        let mut vote = made_up(rng, member, author, plan);
        if let Some(anchor) = member.anchor(round - 1).filter(|_| rng.chance(900)) {
            vote.proposal.previous |= single(anchor);
        }
        member.accept(&vote).expect("it was made to fit");
    }
}

/// Changes that a commit looks at and that leave a state well formed but for its ports:
/// marks of single certificates or of whole rounds, taken away or put there, and what
/// certificates name as previous, held or not.
pub fn change_marks(rng: &mut Rng, member: &Member, table: &mut [u32]) {
    let blocks = member.chain.len() as u32;
    let low = if rng.chance(500) { 1 } else { rng.between(1, member.round) };
    let high = if rng.chance(500) { member.round } else { rng.between(low, member.round) };
    let (some, sort) = (rng.pick(&[100, 500, 1_000]), rng.below(4));
    let one = rng.between(0, blocks);
    for round in low..=high {
        for author in members_of(member.held_authors(round)) {
            let record = &mut table[ROW * round as usize + 16 + 16 * author as usize..][..16];
            match sort {
                _ if !rng.chance(some) => {}
                0 => record[2] = 0,
                1 => record[2] = one,
                2 => record[2] = rng.between(0, blocks),
                _ if round > 1 => record[0] = (record[0] ^ 1 << rng.below(16)).max(1),
                _ => {}
            }
        }
    }
}

impl Test {
    /// A preview; accepted, also a commit on a copy, and its new blocks.
    pub fn preview(&mut self, node: &mut Node, call: &Call, lengths: (usize, usize)) -> u64 {
        let answer = self.call(node, call, lengths);
        if answer >> 32 != 0 {
            return answer;
        }
        let entries = self.last_out.as_chunks::<3>().0[..answer as usize].to_vec();
        let (mut copy, before) = (node.clone(), node.state[22]);
        let added = self.call(&mut copy, &Call::Commit, lengths);
        assert!(added >> 32 == 0 && added > 0, "a commit that was previewed");
        let listed = new_blocks(&copy, before);
        if listed != entries {
            self.differs("the preview is not what the commit added");
        }
        self.figures.previews.count(&entries, added);
        let small = node.table.len() < table_words(20);
        if small && self.rng.chance(10) && self.read_blocks(&mut copy, before) != entries {
            self.differs("the preview is not what reads tell");
        }
        answer
    }

    /// The certificates of the blocks above a number, by reads alone.
    fn read_blocks(&mut self, node: &mut Node, above: u32) -> Vec<[u32; 3]> {
        let whole = (node.state.len(), node.table.len());
        let (ceiling, blocks) = (node.state[2], node.state[22]);
        let mut firsts = vec![0; blocks as usize + 1];
        for number in above + 1..=blocks {
            let round = self.call(node, &Call::Block { number }, whole) as u32;
            self.call(node, &Call::Committee { round, out: vec![0; 16] }, whole);
            let weights = std::array::from_fn(|m| u64::from(self.last_out[m]));
            firsts[number as usize] = leader(round, &weights).unwrap_or(0);
        }
        let mut found = Vec::new();
        for (round, author) in (1..=ceiling).flat_map(|r| (0..MEMBERS).map(move |a| (r, a))) {
            let answer = self.call(node, &Call::Certificate { author, round, out: vec![0; 18] }, whole);
            let block = self.last_out[17];
            if answer == 0 && block > above {
                found.push([block, round, author]);
            }
        }
        found.sort_by_key(|&[block, round, author]| (block, round, (author + MEMBERS - firsts[block as usize]) % MEMBERS));
        self.figures.previews.by_reads += 1;
        found
    }

    /// A preview on a copy of the node, whose answer is known.
    fn try_preview(&mut self, node: &Node, words: usize, answer: Answer<u64>) {
        let mut copy = node.clone();
        copy.read_again();
        let call = Call::Preview { list: vec![77; words] };
        let found = self.preview(&mut copy, &call, (node.state.len(), node.table.len()));
        assert_eq!(found, answer.unwrap_or_else(|number| u64::from(number) << 32), "{words} words");
    }

    /// Lengths of the list, each alone and with state and table too short, not
    /// well formed, and where a commit would be refused.
    fn preview_lengths(&mut self, ceiling: u32, all: Set, entries: u64) {
        let node = node_of(full_rounds(ceiling, 20, all, 3, 0));
        let (c, needed) = (ceiling as usize, preview_words(ceiling));
        let short = [0, 1, 2, 3, 16 * c, 45 * c, needed - 48, needed - 3, needed - 2, needed - 1];
        let long = [needed, needed + 1, needed + 2, needed + 3, needed + 47, 2 * needed];
        for (words, enough) in short.map(|n| (n, false)).into_iter().chain(long.map(|n| (n, true))) {
            let or_short = |answer| if enough { answer } else { Err(25) };
            self.try_preview(&node, words, or_short(Ok(entries)));
            // 1 comes first: a state or a table too short, a number out of range.
            let call = Call::Preview { list: vec![77; words] };
            let table = table_words(ceiling);
            for lengths in [(RIGHTS, table), (MARGIN, table), (0, table), (STATE_WORDS, table - 1), (STATE_WORDS, 0), (0, 0)] {
                assert_eq!(self.preview(&mut node.clone(), &call, lengths), 1 << 32);
            }
            assert_eq!(self.preview(&mut node.clone(), &call, (STATE_WORDS, table)) >> 32 == 0, enough);
            let mut damaged = node.clone();
            damaged.state[0] = 16;
            self.try_preview(&damaged, words, Err(1));
            for (state, answer) in refusing(&node) {
                self.try_preview(&state, words, or_short(Err(answer)));
            }
        }
    }

    /// What a full state of the largest ceiling would commit: all of its
    /// certificates but those of the first block, and many blocks.
    fn preview_of_a_full_state(&mut self) {
        let member = full_rounds(1_024, 1_000, 0xffff, 1_023, 23);
        let before = member.chain.len();
        assert!(before >= 11);
        let held = 16 * 1_021 + 1;
        let earlier: usize = member.chain.iter().map(|block| block.certificates.len()).sum();
        let node = node_of(member);
        let needed = preview_words(1_024);
        self.try_preview(&node, needed, Ok((held - earlier) as u64));
        self.try_preview(&node, needed + 2, Ok((held - earlier) as u64));
        self.try_preview(&node, needed - 1, Err(25));
    }

    pub fn preview_edges(&mut self) {
        for ceiling in [3, 4, 5, 7, 16, 64] {
            self.preview_lengths(ceiling, 0b1111, 5);
        }
        self.preview_lengths(3, 0xffff, 17);
        self.preview_lengths(1_024, 0b1_0011, 4);
        self.preview_of_a_full_state();
        Figures::all_seen(&self.figures.answers[Call::PREVIEW]);
    }

    /// Previews by chance, so many more; at least a tenth of them must be
    /// accepted. The answer is how many were.
    pub fn previews(&mut self, previews: u64) -> u64 {
        let asked = |test: &Test| test.figures.answers[Call::PREVIEW].iter().sum::<u64>();
        let (enough, accepted) = (asked(self) + previews, self.figures.answers[Call::PREVIEW][0]);
        while asked(self) < enough {
            let plan = Plan::any(&mut self.rng);
            let own = plan.owns.first().copied().unwrap_or(0);
            let opened = plan.open(&mut self.rng, own);
            let to = self.rng.between(1, plan.ceiling);
            let mut member = grow(&mut self.rng, opened, to, &plan);
            for _ in 0..self.rng.between(1, 4) {
                towards_commit(&mut self.rng, &mut member, &plan);
                let mut node = Node::of(member, &mut self.rng);
                self.previews_of(&mut node, plan.changes);
                member = node.twin.expect("a node here is well formed");
            }
        }
        let accepted = self.figures.answers[Call::PREVIEW][0] - accepted;
        assert!(10 * accepted >= previews, "{accepted} of {previews} previews were accepted");
        accepted
    }

    /// Some previews of a node and of copies of it with words changed, and
    /// calls between; at the end a commit, mostly.
    fn previews_of(&mut self, node: &mut Node, changes: u32) {
        let mut pool = Pool::default();
        for _ in 0..self.rng.between(2, 8) {
            let member = node.twin.clone().expect("a node here is well formed");
            if self.rng.chance(changes + 100) {
                self.preview_changed(node, &member);
                continue;
            }
            let call = match self.rng.below(5) {
                0 => likely_call(&mut self.rng, &member, &mut pool),
                _ => some_preview(&mut self.rng, member.settings.ceiling),
            };
            let lengths = self.lengths(node);
            match call {
                Call::Preview { .. } => _ = self.preview(node, &call, lengths),
                _ => _ = self.call(node, &call, lengths),
            }
        }
        if self.rng.chance(600) {
            let whole = (node.state.len(), node.table.len());
            self.call(node, &Call::Commit, whole);
        }
    }

    fn preview_changed(&mut self, node: &Node, member: &Member) {
        let mut copy = node.clone();
        for _ in 0..self.rng.between(1, 3) {
            match self.rng.below(8) {
                0..=3 => change_marks(&mut self.rng, member, &mut copy.table),
                4 => make_up_chain(&mut self.rng, member, &mut copy.state, &mut copy.table),
                _ => change_word(&mut self.rng, member, &mut copy.state, &mut copy.table),
            }
        }
        if self.rng.chance(800) {
            place_ports(&mut self.rng, &copy.state, &mut copy.table);
        }
        copy.read_again();
        self.figures.changed += 1;
        self.figures.malformed += u64::from(copy.twin.is_none());
        let call = some_preview(&mut self.rng, copy.state[2].clamp(3, 1_024));
        let lengths = self.lengths(&copy);
        let answer = self.preview(&mut copy, &call, lengths);
        self.figures.previews.changed[0] += 1;
        self.figures.previews.changed[1] += u64::from(answer >> 32 == 0);
    }
}

/// From a node in round 3 with three full rounds: nodes where a commit is
/// refused, and with what.
pub fn refusing(node: &Node) -> Vec<(Node, u32)> {
    let with = |change: &dyn Fn(&mut Node)| {
        let mut copy = node.clone();
        change(&mut copy);
        copy
    };
    let members: Vec<u32> = (0..16).filter(|&m| node.state[4 + m as usize] > 0).collect();
    let anchor = 1 << members[1 % members.len()];
    let mut all = vec![
        (with(&|n| n.state[20] = 1), 19),
        (with(&|n| n.state[20] = 2), 19),
        // Block 1 of round 2, of one certificate.
        (with(&|n| (n.state[22], n.table[ROW + 2], n.table[ROW + 18]) = (1, 2, 1)), 20),
        (with(&|n| n.table[2 * ROW] &= !anchor), 21),
        (with(&|n| n.table[3 * ROW] = 0), 22),
    ];
    if members.len() > 3 {
        // One vote weighs no more than the bound.
        all.push((with(&|n| n.table[3 * ROW] = 1), 22));
    }
    if node.state[2] >= 5 {
        // Lookback 1: without a block round 5 is not known. An even round comes first.
        all.push((with(&|n| (n.state[1], n.state[20]) = (1, 5)), 8));
        all.push((with(&|n| (n.state[1], n.state[20]) = (1, 4)), 19));
    }
    all
}
