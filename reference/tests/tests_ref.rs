//! `cargo test`: the cases by numbers of docs/RULES.md, the slips
//! that it wants ruled out, the example, small runs worked out by hand, the order
//! inside a block, batches, queues, thin rounds, previews, margins, what a commit
//! hangs on, guests' calls, ledgers of weights, what a bond does to the shares, serial
//! ports, and the shortcuts of the reference compared with the plain definitions.

use reference::runner::{read_number, read_record, run, Runner};
use reference::*;
use std::collections::{BTreeSet, VecDeque};
use Setting::{Blank, Written};

fn sheet(lookback: Setting, ceiling: Setting, allowance: Setting, weights: &[u32]) -> Sheet {
    let mut sheet = Sheet { lookback, ceiling, allowance, weights: [Blank; 16], margin: Blank };
    for (m, &w) in weights.iter().enumerate() {
        sheet.weights[m] = Written(w);
    }
    sheet
}

/// The same sheet with a margin written.
fn by_margin(sheet: Sheet, margin: u32) -> Sheet {
    Sheet { margin: Written(margin), ..sheet }
}

fn ones(n: usize) -> Sheet {
    let mut s = sheet(Blank, Blank, Blank, &[0; 16]);
    for m in 0..n {
        s.weights[m] = Written(1);
    }
    s
}

fn proposal(author: u32, round: u32, previous: Set, transactions: &[Transaction]) -> Proposal {
    Proposal { author, round, previous, transactions: transactions.to_vec() }
}

fn certificate(author: u32, round: u32, previous: Set, endorsers: Set, transactions: &[Transaction]) -> Certificate {
    Certificate { proposal: proposal(author, round, previous, transactions), endorsers }
}

fn bond(member: u32, amount: u32) -> Transaction {
    Transaction::Bond { member, amount }
}
fn unbond(member: u32) -> Transaction {
    Transaction::Unbond { member }
}
fn entry(number: u32) -> Transaction {
    Transaction::Entry { number }
}

/// Member 0 alone, with one certificate in each round up to the given one;
/// the transactions stand in the first.
fn alone(sheet: &Sheet, rounds: u32, first: &[Transaction]) -> Member {
    let mut m = Member::open(0, sheet, 1_024).unwrap();
    for r in 1..=rounds {
        m.propose(u16::from(r > 1), if r == 1 { first } else { &[] }).unwrap();
        m.certify(0).unwrap();
        if r < rounds {
            m.advance().unwrap();
        }
    }
    m
}

// ------------------------------------------------------------ P: edges ---

#[test]
fn p_bounds_and_quorums() {
    let table = [(0, 0, 0), (1, 0, 1), (3, 0, 3), (4, 1, 3), (6, 1, 5), (7, 2, 5)];
    for (n, bound, quorum) in table {
        assert_eq!((fault_bound(n, 3), quorum_weight(n, 3)), (bound, quorum), "total {n}");
    }
}

#[test]
fn p_known_rounds_of_an_empty_chain() {
    let m = Member::open(0, &Sheet::all_blank(), 1_024).unwrap();
    assert!(m.read_committee(22).is_ok());
    assert_eq!(m.read_committee(23), Err(8));
}

#[test]
fn p_bond_out_at_22_in_at_23() {
    let s = sheet(Blank, Blank, Blank, &[1, 0, 0, 0]);
    let mut m = alone(&s, 3, &[bond(7, 9)]);
    assert_eq!(m.commit(), Ok(1));
    assert_eq!(m.read_block(1), Ok(2));
    assert_eq!(m.read_committee(22).unwrap()[7], 0);
    assert_eq!(m.read_committee(23).unwrap()[7], 9);
    assert!(m.read_committee(24).is_ok());
    assert_eq!(m.read_committee(25), Err(8));
}

#[test]
fn p_leaders() {
    let m = Member::open(0, &Sheet::all_blank(), 1_024).unwrap();
    let leaders: Vec<_> = [2, 4, 6, 8].iter().map(|&r| leader(r, &m.read_committee(r).unwrap())).collect();
    assert_eq!(leaders, [Some(1), Some(2), Some(3), Some(0)]);
    assert_eq!(leader(2, &[0; 16]), None);
}

#[test]
fn p_share() {
    let m = Member::open(0, &ones(16), 1_024).unwrap();
    for member in 0..16 {
        assert_eq!(m.read_share(member, 1), Ok(62));
    }
    let m = Member::open(0, &sheet(Blank, Blank, Blank, &[1, 3, 5, 7]), 1_024).unwrap();
    let shares: Vec<_> = (0..4).map(|member| m.read_share(member, 1).unwrap()).collect();
    assert_eq!(shares, [62, 188, 312, 438]);
}

#[test]
fn shares_by_hand() {
    // weight, total, share
    let table = [
        // 62.5, 187.5, 312.5, 437.5, 562.5, 937.5
        (1, 16, 62), (3, 16, 188), (5, 16, 312), (7, 16, 438), (9, 16, 562), (15, 16, 938),
        // whole numbers
        (1, 1, 1_000), (16, 16, 1_000), (8, 16, 500), (2, 16, 125), (2, 2_000, 1), (1, 1_000, 1),
        // 31.25, 93.75, 12.5, 37.5
        (1, 32, 31), (3, 32, 94), (1, 80, 12), (3, 80, 38),
        // 0.5, 1.5, 2.5, 998.5, 999.5
        (1, 2_000, 0), (3, 2_000, 2), (5, 2_000, 2), (1_997, 2_000, 998), (1_999, 2_000, 1_000),
        // just beside a half
        (1, 2_001, 0), (1, 1_999, 1), (3, 2_001, 1), (3, 1_999, 2), (1, 17, 59), (1, 15, 67),
        (1, 3, 333), (2, 3, 667), (1, 7, 143), (6, 7, 857),
        // the largest totals: 16 members alike; one with all the bonds, the others without
        (1_000_000, 16_000_000, 62), (5_096_000, 81_536_000, 62),
        (66_536_000, 81_536_000, 816), (1_000_000, 81_536_000, 12), (81_536_000, 81_536_000, 1_000),
        // of 81,536,000: 122,304 is 1.5, one less and one more are beside it; 40,768 is 0.5
        (122_304, 81_536_000, 2), (122_303, 81_536_000, 1), (122_305, 81_536_000, 2),
        (203_840, 81_536_000, 2), (203_839, 81_536_000, 2), (203_841, 81_536_000, 3),
        (40_768, 81_536_000, 0), (40_769, 81_536_000, 1),
    ];
    for (weight, n, share) in table {
        assert_eq!(thousandths(weight, n), share, "{weight} of {n}");
        assert_eq!(nearest_thousandth(weight, n), share, "{weight} of {n}");
    }
}

/// Every weight of every total to 2,000: by search, the one of 0 to 1,000 that
/// is nearest, and of two that are equally near the even one.
#[test]
fn shares_by_search() {
    for n in 1..=2_000u64 {
        let mut share = 0;
        for weight in 1..=n {
            // Twice n times the distance; shares of larger weights are not smaller.
            let off = |s: u64| (2_000 * weight).abs_diff(2 * n * s);
            while share < 1_000 && off(share + 1) < off(share) {
                share += 1;
            }
            let tie = share < 1_000 && off(share + 1) == off(share);
            let nearest = if tie && share % 2 == 1 { share + 1 } else { share };
            assert_eq!(thousandths(weight, n), nearest, "{weight} of {n}");
            // A half comes of multiples of 16 alone.
            assert!(!tie || n % 16 == 0);
        }
    }
}

/// The two ways to a share, of every weight of totals to 400 and of more that have
/// exact halves; a non-member's is 0.
#[test]
fn shares_by_cross_multiplication() {
    for n in (1..=400).chain((416..=2_000).step_by(16)) {
        assert_eq!(nearest_thousandth(0, n), 0);
        for weight in 1..=n {
            assert_eq!(nearest_thousandth(weight, n), thousandths(weight, n), "{weight} of {n}");
        }
    }
}

#[test]
fn a_share_of_0_is_a_members() {
    let m = Member::open(0, &sheet(Blank, Blank, Blank, &[1, 1_999, 0, 0]), 1_024).unwrap();
    assert_eq!(m.read_share(0, 1), Ok(0));
    assert_eq!(m.read_share(1, 1), Ok(1_000));
    assert_eq!(m.read_share(2, 1), Err(9));
    assert!(m.may_propose(0, &[]).is_ok());
}

#[test]
fn p_unbond_then_bond_and_the_reverse() {
    let mut c = [1u64; 16];
    change(&mut c, &unbond(2));
    change(&mut c, &bond(2, 5));
    assert_eq!(c[2], 5);
    let mut c = [1u64; 16];
    change(&mut c, &bond(2, 5));
    change(&mut c, &unbond(2));
    assert_eq!(c[2], 0);

    // The same through a block, lookback 1.
    let s = sheet(Written(1), Blank, Blank, &[1, 0, 0, 0]);
    let mut m = alone(&s, 3, &[bond(2, 7), unbond(2), bond(2, 5), unbond(9)]);
    m.commit().unwrap();
    assert_eq!(m.read_committee(4).unwrap()[2], 5);
    let mut m = alone(&s, 3, &[unbond(2), bond(2, 5), unbond(2)]);
    m.commit().unwrap();
    assert_eq!(m.read_committee(4).unwrap()[2], 0);
    assert_eq!(m.read_share(2, 4), Err(9));
}

#[test]
fn p_blank_weight_and_written_zero() {
    let m = Member::open(0, &Sheet::all_blank(), 1_024).unwrap();
    assert_eq!(m.read_committee(1).unwrap()[..5], [1, 1, 1, 1, 0]);
    let mut s = Sheet::all_blank();
    s.weights[3] = Written(0);
    let m = Member::open(0, &s, 1_024).unwrap();
    assert_eq!(m.read_committee(1).unwrap()[3], 0);
    assert_eq!(m.read_share(3, 1), Err(9));
    assert_eq!(Member::open(3, &s, 1_024).unwrap().propose(0, &[]), Err(9));
}

#[test]
fn unproved_ceilings() {
    let with = |c| sheet(Blank, Written(c), Blank, &[]);
    assert!(Member::open(0, &with(1_024), 1_024).is_ok());
    assert_eq!(Member::open(0, &with(1_025), 1_024).err(), Some(2));
    assert_eq!(Member::open(0, &with(2), 1_024).err(), Some(2));
    assert_eq!(Member::open(0, &with(65), 64).err(), Some(1));
    assert!(Member::open(0, &with(64), 64).is_ok());
}

// --------------------------------------------------------------- sheet ---

#[test]
fn sheet_ranges() {
    let filled = Sheet::all_blank().fill().unwrap();
    assert_eq!((filled.lookback, filled.ceiling, filled.allowance, filled.margin), (20, 1_024, 4, 3));
    let good = [(1, 3, 0, 0), (1_000, 1_024, 4, 1_000_000)];
    for (l, c, a, w) in good {
        assert!(sheet(Written(l), Written(c), Written(a), &[1, w]).fill().is_ok());
    }
    for (l, c, a, w) in [(0, 3, 0, 0), (1_001, 3, 0, 0), (1, 2, 0, 0), (1, 1_025, 0, 0), (1, 3, 5, 0), (1, 3, 0, 1_000_001)] {
        assert_eq!(sheet(Written(l), Written(c), Written(a), &[1, w]).fill(), Err(2));
    }
    assert_eq!(Member::open(0, &sheet(Blank, Blank, Blank, &[0; 4]), 1_024).err(), Some(3));
    assert_eq!(Member::open(16, &sheet(Written(0), Blank, Blank, &[0; 4]), 3).err(), Some(4));
    assert_eq!(Member::open(15, &sheet(Written(0), Blank, Blank, &[0; 4]), 3).err(), Some(2));
    assert_eq!(Member::open(15, &sheet(Blank, Blank, Blank, &[0; 4]), 3).err(), Some(3));
    assert_eq!(Member::open(15, &Sheet::all_blank(), 3).err(), Some(1));
}

// --------------------------------------------------------------- slips ---

/// Own 0, four members of weight 1, in round 3, the anchor of 2 held.
fn before_votes() -> Member {
    let mut m = Member::open(0, &Sheet::all_blank(), 1_024).unwrap();
    for a in 0..4 {
        m.accept(&certificate(a, 1, 0, 15 & !single(a), &[entry(a)])).unwrap();
    }
    for a in 0..4 {
        m.accept(&certificate(a, 2, 15, 15 & !single(a), &[])).unwrap();
    }
    m.advance().unwrap();
    m.advance().unwrap();
    m
}

#[test]
fn slip_voting_weight_equal_to_the_bound() {
    let mut m = before_votes();
    assert_eq!(m.commit(), Err(22));
    m.accept(&certificate(3, 3, 2, 7, &[])).unwrap();
    assert_eq!(m.commit(), Err(22)); // weight 1, bound 1
    m.accept(&certificate(2, 3, 13, 11, &[])).unwrap(); // names all but the anchor
    assert_eq!(m.commit(), Err(22));
    m.accept(&certificate(1, 3, 2, 13, &[])).unwrap();
    assert_eq!(m.commit(), Ok(1));
}

#[test]
fn slip_a_rounds_own_block_changing_its_committee() {
    // With lookback 1 the bonded committee of 2 leaves out the block of 2.
    let s = sheet(Written(1), Blank, Blank, &[1, 0, 0, 0]);
    let mut m = alone(&s, 3, &[bond(5, 3)]);
    m.commit().unwrap();
    assert_eq!(m.bonded_committee(2).unwrap()[5], 0);
    assert_eq!(m.bonded_committee(3).unwrap()[5], 3);
    assert_eq!(m.read_committee(3).unwrap()[5], 0);
    assert_eq!(m.read_committee(4).unwrap()[5], 3);
}

#[test]
fn slip_blocks_newest_first() {
    let s = sheet(Blank, Blank, Blank, &[1, 0, 0, 0]);
    let mut m = alone(&s, 9, &[]);
    assert_eq!(m.commit(), Ok(4));
    let rounds: Vec<_> = (1..=4).map(|n| m.read_block(n).unwrap()).collect();
    assert_eq!(rounds, [2, 4, 6, 8]);
    for r in 1..=8 {
        assert_eq!(m.read_certificate(0, r).unwrap().2, r.div_ceil(2));
    }
    assert_eq!(m.read_certificate(0, 9).unwrap().2, 0);
    assert_eq!(m.read_block(0), Err(23));
    assert_eq!(m.read_block(5), Err(23));
    assert_eq!(m.commit(), Err(20));
}

#[test]
fn slip_endorsement_forgotten() {
    let mut m = before_votes();
    let p = proposal(3, 3, 7, &[entry(1)]);
    m.endorse(&p).unwrap();
    assert_eq!(m.endorse(&p), Err(10));
    for a in 0..3 {
        m.accept(&certificate(a, 3, 15, 15 & !single(a), &[])).unwrap();
    }
    m.advance().unwrap();
    assert_eq!(m.endorse(&p), Err(10));
    assert_eq!(m.endorse(&proposal(3, 3, 7, &[])), Err(10));
    m.accept(&certificate(3, 3, 7, 7, &[])).unwrap(); // another than endorsed
    assert!(!m.is_endorsed(3, 3));
    assert_eq!(m.endorse(&p), Err(10)); // held now
}

#[test]
fn slip_endorsers_compared() {
    let mut m = before_votes();
    assert_eq!(m.accept(&certificate(1, 2, 15, 12, &[])), Err(16));
    assert_eq!(m.accept(&certificate(1, 2, 15, 0, &[])), Err(16));
    assert_eq!(m.accept(&certificate(1, 2, 7, 13, &[])), Err(17));
    assert_eq!(m.accept(&certificate(1, 2, 15, 13, &[entry(0)])), Err(17));
}

#[test]
fn endorsers_are_those_first_stored() {
    // By certify the set handed to it, the author not added; three of four are a quorum.
    let mut author = Member::open(0, &Sheet::all_blank(), 1_024).unwrap();
    author.propose(0, &[entry(1)]).unwrap();
    author.certify(6).unwrap();
    let p = proposal(0, 1, 0, &[entry(1)]);
    assert_eq!(author.read_certificate(0, 1), Ok((&p, 6, 0)));
    // By accept the certificate's, another set here.
    let mut other = Member::open(1, &Sheet::all_blank(), 1_024).unwrap();
    other.accept(&certificate(0, 1, 0, 12, &[entry(1)])).unwrap();
    assert_eq!(other.read_certificate(0, 1), Ok((&p, 12, 0)));
    // A later copy with others, a quorum or not, inside or not, changes nothing.
    for (m, first) in [(&mut author, 6), (&mut other, 12)] {
        for endorsers in [0, 2, 6, 12, 14, 0x8000, 0xfffe] {
            assert_eq!(m.accept(&certificate(0, 1, 0, endorsers, &[entry(1)])), Err(16));
        }
        for endorsers in [1, 7, 0xffff] {
            assert_eq!(m.accept(&certificate(0, 1, 0, endorsers, &[entry(1)])), Err(14));
        }
        assert_eq!(m.accept(&certificate(0, 1, 0, first, &[])), Err(17));
        assert_eq!(m.read_certificate(0, 1), Ok((&p, first, 0)));
    }
}

#[test]
fn a_block_leaves_endorsers_alone() {
    // The same certificates, stored with other endorsers: the same chain.
    let run = |endorsers: fn(u32) -> Set| {
        let mut m = Member::open(0, &Sheet::all_blank(), 1_024).unwrap();
        for r in 1..=3 {
            for a in 0..4 {
                let previous = if r == 1 { 0 } else { 15 };
                m.accept(&certificate(a, r, previous, endorsers(a), &[entry(a)])).unwrap();
            }
            if r < 3 {
                m.advance().unwrap();
            }
        }
        assert_eq!(m.commit(), Ok(1));
        for (r, a) in (1..=3).flat_map(|r| (0..4).map(move |a| (r, a))) {
            assert_eq!(m.read_certificate(a, r).unwrap().1, endorsers(a));
        }
        m.chain()[0].certificates.clone()
    };
    let all = run(|a| 15 & !single(a));
    assert_eq!(all, [(1, 1), (1, 2), (1, 3), (1, 0), (2, 1)]);
    assert_eq!(all, run(|a| 15 & !single(a) & !single((a + 1) % 4)));
}

// ------------------------------------------------------ small runs by hand ---

#[test]
fn order_within_a_block() {
    let mut m = before_votes();
    for a in [3, 1] {
        m.accept(&certificate(a, 3, 15, 15 & !single(a), &[])).unwrap();
    }
    assert_eq!(m.commit(), Ok(1));
    assert_eq!(m.chain()[0].certificates, [(1, 1), (1, 2), (1, 3), (1, 0), (2, 1)]);
    assert_eq!(m.read_certificate(0, 2), Ok((&proposal(0, 2, 15, &[]), 14, 0)));
    assert_eq!(m.read_certificate(2, 1), Ok((&proposal(2, 1, 0, &[entry(2)]), 11, 1)));
}

// ------------------------------------------------- order inside a block ---

#[test]
fn a_full_round_reads_2_3_0_1() {
    let order = |leader, members: &[u32]| {
        let mut all: Vec<(u32, u32)> = [3, 1, 2].iter().flat_map(|&r| members.iter().map(move |&m| (r, m))).collect();
        put_in_order(&mut all, leader);
        assert!(all.chunks(members.len()).zip(1..).all(|(row, r)| row.iter().all(|c| c.0 == r)), "rounds rise");
        let rows: Vec<Vec<u32>> = all.chunks(members.len()).map(|row| row.iter().map(|c| c.1).collect()).collect();
        assert!(rows.iter().all(|row| *row == rows[0]), "one leader for all rounds");
        rows[0].clone()
    };
    assert_eq!(order(Some(2), &[0, 1, 2, 3]), [2, 3, 0, 1]);
    assert_eq!(order(Some(0), &[0, 1, 2, 3]), [0, 1, 2, 3]);
    assert_eq!(order(None, &[0, 1, 2, 3]), [0, 1, 2, 3]);
    assert_eq!(order(Some(15), &[15, 14, 1, 0]), [15, 0, 1, 14]);
    assert_eq!(order(Some(14), &[15, 14, 1, 0]), [14, 15, 0, 1]);
    // The leader need not be there.
    assert_eq!(order(Some(2), &[0, 1, 3]), [3, 0, 1]);
    assert_eq!(order(Some(9), &[0, 1, 3]), [0, 1, 3]);
}

#[test]
fn order_decides_committees() {
    // The leader of 2 is member 1, so round 1 reads 1, 2, 3, 0.
    let after = |of_0: &[Transaction], of_1: &[Transaction]| {
        let mut m = Member::open(0, &sheet(Written(1), Blank, Blank, &[]), 1_024).unwrap();
        for a in 0..4 {
            let transactions = if a == 0 { of_0 } else if a == 1 { of_1 } else { &[] };
            m.accept(&certificate(a, 1, 0, 15 & !single(a), transactions)).unwrap();
        }
        for a in 1..4 {
            m.accept(&certificate(a, 2, 15, 15 & !single(a), &[])).unwrap();
        }
        for a in [0, 2] {
            m.accept(&certificate(a, 3, 2, 15 & !single(a), &[])).unwrap();
        }
        m.advance().unwrap();
        m.advance().unwrap();
        assert_eq!(m.commit(), Ok(1));
        m.read_committee(4).unwrap()
    };
    assert_eq!(after(&[bond(2, 5)], &[unbond(2)])[2], 5);
    assert_eq!(after(&[unbond(2)], &[bond(2, 5)])[2], 0);
    assert_eq!(after(&[unbond(2), bond(2, 7)], &[bond(2, 5)])[2], 7);
    assert_eq!(after(&[bond(2, 5)], &[bond(2, 7)])[2], 13);
}

/// A chain that no run makes: the block of round 2 unbonds everybody, so with
/// lookback 1 round 4 has no leader; certificates of any round may be marked.
#[test]
fn without_a_leader_numbers_just_rise() {
    let settings = sheet(Written(1), Written(8), Blank, &[0, 0, 1, 0]).fill().unwrap();
    let mut held: Vec<Option<Held>> = vec![None; 8 * 16];
    let mut hold = |a: u32, r: u32, transactions: Vec<Transaction>| {
        let certificate = certificate(a, r, u16::from(r > 1), 0, &transactions);
        held[((r - 1) * 16 + a) as usize] = Some(Held { certificate, block: 1 });
    };
    for a in 0..4 {
        hold(a, 1, if a == 1 { vec![unbond(2)] } else { vec![] });
        hold(a, 5, if a == 3 { vec![bond(3, 2)] } else { vec![] });
        hold(a, 7, vec![]);
    }
    let row = |r| (0..4).map(move |a| (r, a)).collect::<Vec<_>>();
    let mut chain: Vec<Block> = Vec::new();
    for (round, r) in [(2, 1), (4, 5), (6, 7)] {
        let block = Block::on(&chain, &settings, round, row(r), &held);
        chain.push(block);
    }
    assert_eq!(block_leader(&settings, &chain, 2), Some(2));
    assert_eq!(chain[0].certificates, [(1, 2), (1, 3), (1, 0), (1, 1)]);
    assert_eq!(total(&chain[0].after), 0);
    assert_eq!(block_leader(&settings, &chain, 4), None);
    assert_eq!(chain[1].certificates, [(5, 0), (5, 1), (5, 2), (5, 3)]);
    assert_eq!(block_leader(&settings, &chain, 6), Some(3));
    assert_eq!(chain[2].certificates, [(7, 3), (7, 0), (7, 1), (7, 2)]);
}

#[test]
fn reads_refuse() {
    let m = before_votes();
    assert_eq!(m.read_committee(0), Err(5));
    assert_eq!(m.read_committee(1_025), Err(5));
    assert_eq!(m.read_share(16, 0), Err(4));
    assert_eq!(m.read_share(15, 0), Err(5));
    assert_eq!(m.read_share(15, 23), Err(8));
    assert_eq!(m.read_share(15, 22), Err(9));
    assert_eq!(m.read_share(1, 22), Ok(250));
    assert_eq!(m.read_certificate(16, 0), Err(4));
    assert_eq!(m.read_certificate(0, 0), Err(5));
    assert_eq!(m.read_certificate(0, 1_025), Err(5));
    assert_eq!(m.read_certificate(0, 3), Err(23));
}

#[test]
fn weights_decide_not_heads() {
    // 5 of 6 is a quorum: member 0 of weight 5 is one alone, member 1 never.
    let s = sheet(Blank, Blank, Blank, &[5, 1, 0, 0]);
    let mut m = Member::open(0, &s, 1_024).unwrap();
    m.propose(0, &[]).unwrap();
    assert!(m.certify(0).is_ok());
    assert_eq!(m.accept(&certificate(1, 1, 0, 0, &[])), Err(13));
    assert!(m.accept(&certificate(1, 1, 0, 1, &[])).is_ok());
    m.advance().unwrap();
    assert_eq!(m.propose(2, &[]), Err(12));
    assert!(m.propose(1, &[]).is_ok());
}

#[test]
fn no_change_on_refusal() {
    let mut m = before_votes();
    let image = format!("{m:?}");
    let _ = m.propose(0, &[]);
    let _ = m.propose(65_535, &[bond(16, 1)]);
    let _ = m.endorse(&proposal(0, 3, 15, &[]));
    let _ = m.endorse(&proposal(1, 3, 16, &[]));
    let _ = m.certify(14);
    let _ = m.accept(&certificate(1, 3, 15, 0, &[]));
    let _ = m.advance();
    let _ = m.commit();
    assert_eq!(image, format!("{m:?}"));
}

// ---------------------------------------------------------------- batches ---

/// Four members of weight 1, own 0, nothing held.
fn of_four() -> Member {
    Member::open(0, &sheet(Blank, Written(8), Blank, &[]), 8).unwrap()
}

/// A certificate of one of four, endorsed by the other three.
fn by_all(author: u32, round: u32, previous: Set, transactions: &[Transaction]) -> Certificate {
    certificate(author, round, previous, 15 & !single(author & 3), transactions)
}

/// A batch with just enough room.
fn batch(m: &mut Member, row: &[Option<Certificate>]) -> Vec<u32> {
    let mut found = vec![77; row.len()];
    m.batch(row, &mut found).unwrap();
    found
}

#[test]
fn a_bundle_newest_first() {
    let newest_first: Vec<Certificate> = (1..=3)
        .rev()
        .flat_map(|r| (0..4).map(move |a| by_all(a, r, if r == 1 { 0 } else { 15 }, &[])))
        .collect();
    let mut one_by_one = of_four();
    let singly: Vec<_> = newest_first.iter().map(|c| one_by_one.accept(c)).collect();
    assert_eq!(singly[..8], [Err(11); 8]);
    assert_eq!(singly[8..], [Ok(()); 4]);
    let mut m = of_four();
    let row: Vec<_> = newest_first.into_iter().map(Some).collect();
    assert_eq!(batch(&mut m, &row), [0; 12]);
    assert_eq!((1..=3).map(|r| m.held_authors(r)).collect::<Vec<_>>(), [15; 3]);
    // Delivered again, all are held.
    assert_eq!(batch(&mut m, &row), [16; 12]);
}

/// By round before author before place; each answer where its record stands.
#[test]
fn order_of_a_batch() {
    // The round decides, not the author and not the place: author 3 of round 1
    // is tried before author 0 of round 2, which names it.
    let row = [Some(by_all(0, 2, 8, &[])), Some(by_all(3, 1, 0, &[]))];
    assert_eq!(batch(&mut of_four(), &row), [0, 0]);
    // Of one place the lower place in the row: its endorsers are stored.
    let copy = |endorsers| Some(certificate(1, 1, 0, endorsers, &[entry(1)]));
    let another = Some(by_all(1, 1, 0, &[]));
    let mut m = of_four();
    assert_eq!(batch(&mut m, &[copy(12), copy(13), another.clone(), copy(2)]), [0, 16, 17, 14]);
    assert_eq!(m.read_certificate(1, 1).unwrap().1, 12);
    assert_eq!(batch(&mut of_four(), &[another.clone(), copy(12), copy(13)]), [0, 17, 17]);
    // Of equals in between others.
    let last = Some(by_all(2, 1, 0, &[]));
    assert_eq!(batch(&mut of_four(), &[last, copy(4), copy(8), copy(12)]), [0, 13, 13, 0]);
}

#[test]
fn any_words_have_their_turn() {
    let most = u32::MAX;
    let row = [
        Some(by_all(3, most, 1, &[])),
        Some(by_all(most, 2, 2, &[])),
        None,
        Some(by_all(0, 2, 2, &[])),
        Some(by_all(1, 0, 1, &[])),
        Some(by_all(most, 0, 0, &[])),
        Some(by_all(1, 1, 0, &[])),
        None,
    ];
    assert_eq!(batch(&mut of_four(), &row), [5, 4, 1, 0, 5, 4, 0, 1]);
}

#[test]
fn lengths_of_a_batch() {
    let one = Some(by_all(1, 1, 0, &[]));
    for (records, room, answer) in
        [(0, 0, Ok(())), (1, 1, Ok(())), (64, 64, Ok(())), (64, 99, Ok(())), (1, 0, Err(25)), (64, 63, Err(25)), (65, 65, Err(25)), (65, 99, Err(25))]
    {
        let (mut m, row, mut found) = (of_four(), vec![one.clone(); records], vec![77; room]);
        assert_eq!(m.batch(&row, &mut found), answer, "{records} records, {room} answers");
        let tried = if answer.is_ok() { records } else { 0 };
        let expected = (0..room).map(|i| if i >= tried { 77 } else if i == 0 { 0 } else { 16 });
        assert!(expected.eq(found.iter().copied()));
        assert_eq!(m.is_held(1, 1), tried > 0);
    }
}

#[test]
fn offered_again_by_hand() {
    // Author 3 of round 1 is not in the row. Place (1, 2) is filled by the one that does without.
    let row: Vec<_> = [
        by_all(1, 2, 9, &[]),
        by_all(1, 2, 7, &[]),
        by_all(0, 2, 8, &[]),
        by_all(2, 2, 8, &[]),
        by_all(2, 2, 8, &[]),
        by_all(0, 1, 0, &[]),
        by_all(1, 1, 0, &[]),
        by_all(2, 1, 0, &[]),
    ]
    .map(Some)
    .into();
    let mut m = of_four();
    assert_eq!(batch(&mut m, &row), [11, 0, 11, 11, 11, 0, 0, 0]);
    let again: Vec<_> = row.iter().flatten().map(|c| m.may_accept(c).err()).collect();
    assert_eq!(again[..5], [Some(17), Some(16), Some(11), Some(11), Some(11)]);
}

/// At each turn the first of those that are left; accepted one by one.
fn plain_batch(m: &mut Member, row: &[Option<Certificate>]) -> Vec<u32> {
    let key = |i: usize| row[i].as_ref().map_or((0, 0), |c| (c.proposal.round, c.proposal.author));
    let (mut left, mut found) = (vec![true; row.len()], vec![0; row.len()]);
    for _ in 0..row.len() {
        let mut first = None;
        for i in 0..row.len() {
            if left[i] && first.is_none_or(|f| key(i) < key(f)) {
                first = Some(i);
            }
        }
        let i = first.unwrap();
        left[i] = false;
        found[i] = match &row[i] {
            None => 1,
            Some(c) => m.accept(c).map_or_else(|number| number, |()| 0),
        };
    }
    found
}

/// Rows by chance on members of some rounds: the order, and what is answered
/// to what got 11, straight afterwards.
#[test]
fn rows_by_chance() {
    let mut rng = Rng(0x0123_4567_89ab_cdef);
    let (mut accepted, mut again_11, mut again_17) = (0, 0, 0);
    for _ in 0..2_000 {
        let mut m = of_four();
        for _ in 0..3 {
            let row: Vec<_> = (0..rng.below(65)).map(|_| any_of_a_row(&mut rng)).collect();
            let mut copy = m.clone();
            let found = batch(&mut m, &row);
            assert_eq!(found, plain_batch(&mut copy, &row));
            assert_eq!(format!("{m:?}"), format!("{copy:?}"));
            accepted += found.iter().filter(|&&answer| answer == 0).count();
            for (c, _) in row.iter().zip(&found).filter(|(_, &answer)| answer == 11) {
                let c = c.as_ref().unwrap();
                let held = m.held_at(c.proposal.author, c.proposal.round);
                let expected = if held.is_some() { 17 } else { 11 };
                assert_eq!(m.may_accept(c), Err(expected));
                again_11 += u32::from(expected == 11);
                // Filled by the row, with another.
                if let Some(held) = held {
                    again_17 += 1;
                    let filled = |(other, &answer): (&Option<Certificate>, &u32)| {
                        answer == 0 && other.as_ref().unwrap().same_as(&held.certificate)
                    };
                    assert!(!held.certificate.same_as(c) && row.iter().zip(&found).any(filled));
                }
            }
        }
    }
    assert!(accepted > 10_000 && again_11 > 10_000 && again_17 > 1_000, "{accepted} {again_11} {again_17}");
}

/// Mostly of rounds 1 to 4, with any previous set and few transactions; now and
/// then endorsed by too few, or no certificate at all.
fn any_of_a_row(rng: &mut Rng) -> Option<Certificate> {
    if rng.below(40) == 0 {
        return None;
    }
    let (author, round) = (rng.below(4) as u32, 1 + rng.below(4) as u32);
    let previous = if round == 1 { 0 } else { 1 + rng.below(15) as Set };
    let transactions = vec![entry(7); rng.below(2) as usize];
    let mut c = by_all(author, round, previous, &transactions);
    if rng.below(10) == 0 {
        c.endorsers &= rng.below(16) as Set;
    }
    Some(c)
}

// -------------------------------------------------------------- queues ---

/// Member 0 alone with an allowance, and what waits: pairs of a guest and the
/// number of an entry, in the order of adding.
fn with_waiting(allowance: u32, waiting: &[(u32, u32)]) -> Member {
    let mut m = Member::open(0, &sheet(Blank, Written(64), Written(allowance), &[1, 0, 0, 0]), 64).unwrap();
    add_all(&mut m, waiting);
    m
}

fn add_all(m: &mut Member, waiting: &[(u32, u32)]) {
    waiting.iter().for_each(|&(guest, number)| m.enqueue(guest, &entry(number)).unwrap());
}

/// Draws, certifies and goes on; the numbers of the entries drawn.
fn draw(m: &mut Member) -> Vec<u32> {
    m.draw(u16::from(m.round() > 1)).unwrap();
    m.certify(0).unwrap();
    let numbers = m.proposal().unwrap().transactions.iter().map(|t| match t {
        Transaction::Entry { number } => *number,
        _ => unreachable!(),
    });
    let numbers = numbers.collect();
    m.advance().unwrap();
    numbers
}

fn counts(m: &Member) -> Vec<usize> {
    (0..GUESTS).map(|guest| m.waiting(guest)).collect()
}

/// The oldest of each, with 0 first; then lap after lap; then from the guest
/// after the one served last.
#[test]
fn a_draw_goes_round() {
    let mut m = with_waiting(4, &[(5, 50), (2, 20), (2, 21), (2, 22), (2, 23), (2, 24), (7, 70), (5, 51)]);
    assert_eq!(m.served, None);
    assert_eq!(draw(&mut m), [20, 50, 70, 21]);
    assert_eq!((counts(&m), m.served), (vec![0, 0, 3, 0, 0, 1, 0, 0], Some(2)));
    add_all(&mut m, &[(0, 1), (3, 30)]);
    // After 2: 3, 5, 0 and 2 again.
    assert_eq!(draw(&mut m), [30, 51, 1, 22]);
    assert_eq!((counts(&m), m.served), (vec![0, 0, 2, 0, 0, 0, 0, 0], Some(2)));
    // One guest alone may fill the proposal, and more than one lap is made.
    assert_eq!(draw(&mut m), [23, 24]);
    assert_eq!((counts(&m), m.served), (vec![0; 8], Some(2)));
    // Nothing drawn: proposed all the same, and the guest served last stays.
    assert_eq!(draw(&mut m), []);
    assert_eq!(m.served, Some(2));
    add_all(&mut m, &[(1, 10), (2, 25), (7, 71), (0, 2)]);
    assert_eq!(draw(&mut m), [71, 2, 10, 25]);
}

/// A busy guest does not fill every proposal: with 0 after 7.
#[test]
fn a_busy_guest_shares() {
    let mut m = with_waiting(2, &[]);
    let mut busy = 600;
    for round in 0..12 {
        while m.waiting(6) < 8 {
            add_all(&mut m, &[(6, busy)]);
            busy += 1;
        }
        add_all(&mut m, &[(1, 100 + round)]);
        assert_eq!(draw(&mut m), [100 + round, 600 + round]);
    }
    let mut m = with_waiting(1, &[(6, 60), (6, 61), (0, 1), (7, 70), (7, 71), (5, 50)]);
    let drawn: Vec<u32> = (0..7).flat_map(|_| draw(&mut m)).collect();
    assert_eq!(drawn, [1, 50, 60, 70, 61, 71]);
}

#[test]
fn allowances_of_a_draw() {
    for allowance in 0..=4 {
        let mut m = with_waiting(allowance, &[(0, 1), (0, 2), (4, 41), (4, 42), (4, 43)]);
        assert_eq!(draw(&mut m), [1, 41, 2, 42][..allowance as usize]);
        let served = [None, Some(0), Some(4), Some(0), Some(4)][allowance as usize];
        assert_eq!(m.served, served);
        assert_eq!(counts(&m).iter().sum::<usize>(), 5 - allowance as usize);
    }
}

/// 26, then 6, then 27; a refused one adds nothing. Freed places serve again.
#[test]
fn adding_is_refused_in_its_order() {
    let eight: Vec<(u32, u32)> = (0..8).map(|number| (3, number)).collect();
    let mut m = with_waiting(4, &eight);
    let bad = [bond(16, 1), bond(0, 0), bond(0, 1_001), unbond(16)];
    let good = [bond(15, 1_000), bond(0, 1), unbond(15), entry(u32::MAX)];
    for transaction in bad {
        for (guest, answer) in [(8, 26), (u32::MAX, 26), (3, 6), (7, 6)] {
            assert_eq!(m.enqueue(guest, &transaction), Err(answer));
        }
    }
    for transaction in good {
        assert_eq!(m.enqueue(8, &transaction), Err(26));
        assert_eq!(m.enqueue(3, &transaction), Err(27));
        assert_eq!(m.enqueue(7, &transaction), Ok(()));
    }
    assert_eq!(counts(&m), [0, 0, 0, 8, 0, 0, 0, 4]);
    assert_eq!(m.enqueue(7, &entry(7)), Ok(()));
    assert_eq!(m.draw(0), Ok(()));
    assert_eq!(m.proposal().unwrap().transactions, [entry(0), good[0], entry(1), good[1]]);
    assert_eq!(counts(&m), [0, 0, 0, 6, 0, 0, 0, 3]);
    for answer in [Ok(()), Ok(()), Err(27)] {
        assert_eq!(m.enqueue(3, &entry(9)), answer);
    }
}

/// A draw answers what a propose of the same list would, and refused changes
/// nothing; 6 is none of its answers.
#[test]
fn a_draw_is_a_propose() {
    let unchanged = |m: &mut Member, previous: Set, answer: u32| {
        let before = (counts(m), m.served, m.proposal().cloned());
        assert_eq!(m.draw(previous), Err(answer));
        assert_eq!((counts(m), m.served, m.proposal().cloned()), before);
    };
    let some = [(0, 1), (1, 10), (1, 11), (6, 60), (7, 70)];
    let mut m = with_waiting(2, &some);
    unchanged(&mut m, 1, 7);
    m.draw(0).unwrap();
    unchanged(&mut m, 0, 10);
    m.certify(0).unwrap();
    unchanged(&mut m, 0, 10);
    m.advance().unwrap();
    unchanged(&mut m, 0, 7);
    unchanged(&mut m, 2, 11);
    m.draw(1).unwrap();
    assert_eq!(m.proposal().unwrap().transactions, [entry(60), entry(70)]);
    // A list handed in touches no queue.
    let mut m = with_waiting(2, &some);
    m.propose(0, &[entry(99)]).unwrap();
    assert_eq!((counts(&m), m.served), (vec![1, 2, 0, 0, 0, 0, 1, 1], None));
    // What was drawn does not come back with advance, one's own place being
    // filled by another certificate.
    let mut m = with_waiting(2, &some);
    m.draw(0).unwrap();
    m.accept(&certificate(0, 1, 0, 0, &[])).unwrap();
    m.advance().unwrap();
    assert_eq!((counts(&m), m.proposal()), (vec![0, 1, 0, 0, 0, 0, 1, 1], None));
    // 12: half of two members; 9: outside; 8: not known.
    let open = |own, lookback| Member::open(own, &sheet(Written(lookback), Written(64), Blank, &[1, 1, 0, 0]), 64).unwrap();
    let mut m = open(0, 20);
    m.accept(&certificate(0, 1, 0, 2, &[])).unwrap();
    m.accept(&certificate(1, 1, 0, 1, &[])).unwrap();
    m.advance().unwrap();
    add_all(&mut m, &some);
    unchanged(&mut m, 1, 12);
    let mut m = open(5, 20);
    add_all(&mut m, &some);
    unchanged(&mut m, 0, 9);
    let mut m = open(0, 1);
    for r in 1..=3 {
        m.accept(&certificate(0, r, if r == 1 { 0 } else { 3 }, 2, &[])).unwrap();
        m.accept(&certificate(1, r, if r == 1 { 0 } else { 3 }, 1, &[])).unwrap();
        m.advance().unwrap();
    }
    add_all(&mut m, &some);
    unchanged(&mut m, 1, 8);
    let m = Member::open(0, &Sheet::all_blank(), 1_024).unwrap();
    assert_eq!((counts(&m), m.served), (vec![0; 8], None));
}

/// The next transaction of a draw, one by one: from the guest after the one
/// served last, the first with something waiting.
fn plain_drawn(m: &Member) -> Vec<(u32, Transaction)> {
    let (mut queues, mut at): (Vec<VecDeque<_>>, _) = (m.queues.to_vec(), m.served.map_or(0, |guest| guest + 1));
    let mut drawn = Vec::new();
    while drawn.len() < m.settings().allowance as usize && queues.iter().any(|queue| !queue.is_empty()) {
        if let Some(transaction) = queues[at as usize % 8].pop_front() {
            drawn.push((at % 8, transaction));
        }
        at += 1;
    }
    drawn
}

#[test]
fn draws_by_chance() {
    let mut rng = Rng(0x5eed_0f6e_57a9_1ac1);
    let mut by_length = [0; 5];
    for _ in 0..20_000 {
        let mut m = with_waiting(rng.below(5) as u32, &[]);
        m.served = Some(rng.below(9) as u32).filter(|&guest| guest < 8);
        let most = 1 + rng.below(8);
        for guest in 0..GUESTS {
            if rng.below(2) == 0 {
                (0..rng.below(most + 1)).for_each(|k| add_all(&mut m, &[(guest, 10 * guest + k as u32)]));
            }
        }
        let (before, expected) = (m.clone(), plain_drawn(&m));
        assert_eq!(m.drawn(), expected);
        by_length[expected.len()] += 1;
        m.draw(0).unwrap();
        let left = |guest: u32| expected.iter().filter(|(g, _)| *g == guest).count();
        for guest in 0..GUESTS {
            assert!(m.queues[guest as usize].iter().eq(before.queues[guest as usize].iter().skip(left(guest))));
        }
        assert_eq!(m.served, expected.last().map(|(guest, _)| *guest).or(before.served));
        assert!(m.proposal().unwrap().transactions.iter().eq(expected.iter().map(|(_, drawn)| drawn)));
    }
    assert!(by_length.iter().all(|&draws| draws > 1_000), "{by_length:?}");
}

// ---------------------------------------------------------------- advance ---

/// A certificate put where no call would put it, in a block of none.
fn put(m: &mut Member, author: u32, round: u32) {
    let certificate = certificate(author, round, Set::from(round > 1), 0, &[]);
    m.held[((round - 1) * 16 + author) as usize] = Some(Held { certificate, block: 0 });
}

fn image(m: &Member) -> String {
    format!("{m:?}")
}

/// Refused with this number, and nothing changes.
fn stays(m: &mut Member, answer: u32) {
    let before = image(m);
    assert_eq!(m.may_advance(), Err(answer));
    assert_eq!(m.advance(), Err(answer));
    assert_eq!(image(m), before);
}

#[test]
fn no_advance_past_a_thin_round() {
    let mut m = of_four();
    stays(&mut m, 28);
    m.propose(0, &[entry(1)]).unwrap();
    stays(&mut m, 28);
    for a in 1..4 {
        m.endorse(&proposal(a, 1, 0, &[])).unwrap();
    }
    stays(&mut m, 28); // endorsed places are no certificates
    for a in [3, 1] {
        m.accept(&by_all(a, 1, 0, &[])).unwrap();
        stays(&mut m, 28);
    }
    // Exactly a quorum, one's own not among them: the proposal is dropped.
    m.accept(&by_all(2, 1, 0, &[])).unwrap();
    let mut expected = m.clone();
    (expected.round, expected.proposal) = (2, None);
    m.advance().unwrap();
    assert_eq!(image(&m), image(&expected));
    // Another round's certificates do not count.
    stays(&mut m, 28);
    for a in 0..4 {
        m.accept(&by_all(a, 2, 14, &[])).unwrap();
    }
    m.advance().unwrap();
    stays(&mut m, 28);
}

/// Every set of authors of some committees: by weight and not by heads.
#[test]
fn every_set_of_authors() {
    for (weights, margin) in [[1, 1, 1, 1], [5, 2, 0, 0], [2, 2, 2, 0], [1, 1, 1, 0], [5, 1, 0, 0], [9, 3, 3, 1], [0, 1, 0, 1]]
        .into_iter()
        .flat_map(|weights| (3..=5).map(move |margin| (weights, margin)))
    {
        let opened = Member::open(0, &by_margin(sheet(Blank, Written(8), Blank, &weights), margin), 8).unwrap();
        for set in 0..64 as Set {
            let mut m = opened.clone();
            members_of(set).for_each(|a| put(&mut m, a, 1));
            let (total, outside): (u32, bool) = (weights.iter().sum(), members_of(set).any(|a| a > 3 || weights[a as usize] == 0));
            let held: u32 = members_of(set).filter(|&a| a < 4).map(|a| weights[a as usize]).sum();
            // At least n minus (n - 1) / margin, in whole numbers: less than n / margin is missing.
            let quorum = !outside && margin * (total - held) < total;
            assert_eq!(m.may_advance(), if quorum { Ok(()) } else { Err(28) }, "{weights:?} {set:#b} {margin}");
        }
    }
}

/// A quorum is a set inside the committee. No run holds an outsider.
#[test]
fn an_outsider_held() {
    let mut m = of_four();
    (0..4).for_each(|a| put(&mut m, a, 1));
    assert_eq!(m.may_advance(), Ok(()));
    put(&mut m, 9, 2); // in another round
    assert_eq!(m.may_advance(), Ok(()));
    put(&mut m, 9, 1);
    stays(&mut m, 28);
}

/// Nobody is a quorum of an empty committee: 0 of 0.
#[test]
fn an_empty_committee_passes() {
    let mut m = alone(&sheet(Written(1), Written(64), Blank, &[1, 0, 0, 0]), 3, &[unbond(0)]);
    m.commit().unwrap();
    m.advance().unwrap();
    for round in [4, 5] {
        assert_eq!((m.round(), m.read_committee(round).unwrap(), m.held_authors(round)), (round, [0; 16], 0));
        let mut outsider = m.clone();
        put(&mut outsider, 0, round);
        stays(&mut outsider, 28);
        m.advance().unwrap();
    }
    stays(&mut m, 8); // the committee of round 6 is not known
}

/// By the committee of the present round, not of those beside it.
#[test]
fn the_rounds_own_committee_decides() {
    let mut m = alone(&sheet(Written(1), Written(64), Blank, &[1, 0, 0, 0]), 3, &[bond(1, 5)]);
    m.commit().unwrap();
    assert_eq!((m.read_committee(3).unwrap()[..2].to_vec(), m.read_committee(4).unwrap()[..2].to_vec()), (vec![1, 0], vec![1, 5]));
    m.advance().unwrap(); // 1 of 1
    m.accept(&certificate(0, 4, 1, 2, &[])).unwrap();
    stays(&mut m, 28); // 1 of 6
    m.accept(&certificate(1, 4, 1, 0, &[])).unwrap();
    m.advance().unwrap();
    m.accept(&certificate(1, 5, 2, 0, &[])).unwrap();
    m.advance().unwrap(); // 5 of 6
}

/// 18, then 8, then 28, whatever else holds.
#[test]
fn advance_is_refused_in_its_order() {
    for (ceiling, known, full) in (0..8).map(|n| (n & 1 == 1, n & 2 == 2, n & 4 == 4)) {
        // With no block and lookback 1 round 4 is not known.
        let lookback = if known { 2 } else { 1 };
        let mut m = Member::open(0, &sheet(Written(lookback), Written(if ceiling { 4 } else { 5 }), Blank, &[]), 8).unwrap();
        m.round = 4;
        if full {
            (0..4).for_each(|a| put(&mut m, a, 4));
        }
        match (ceiling, known, full) {
            (true, _, _) => stays(&mut m, 18),
            (_, false, _) => stays(&mut m, 8),
            (_, _, false) => stays(&mut m, 28),
            _ => assert_eq!((m.advance(), m.round()), (Ok(()), 5)),
        }
    }
}

/// Any weights, lookbacks, rounds, held and endorsed places on an empty chain.
#[test]
fn advances_by_chance() {
    let mut rng = Rng(0x7717_0bad_cafe_f00d);
    let mut times = [0; 4];
    for _ in 0..20_000 {
        let weights: Vec<u32> = (0..16).map(|_| [0, 0, 1, 2, 7][rng.below(5) as usize]).collect();
        let (lookback, ceiling) = (1 + rng.below(10) as u32, 3 + rng.below(10) as u32);
        let margin = 3 + rng.below(3) as u32;
        let written = by_margin(sheet(Written(lookback), Written(ceiling), Blank, &weights), margin);
        let Ok(mut m) = Member::open(3, &written, 64) else { continue };
        let round = 1 + rng.below(u64::from(ceiling)) as u32;
        m.round = round;
        let dense = 1 + rng.below(12);
        let (mut held, mut outsider) = (0, false);
        for a in 0..16 {
            let weight = weights[a as usize];
            let there = if weight > 0 { rng.below(dense) > 0 } else { rng.below(40) == 0 };
            if there {
                put(&mut m, a, round);
                held += weight;
                outsider |= weight == 0;
            }
            m.endorsed[((round - 1) * 16 + a) as usize] = rng.below(2) == 0;
        }
        let total: u32 = weights.iter().sum();
        let expected = if round == ceiling {
            Err(18)
        } else if round > lookback + 2 {
            Err(8)
        } else if outsider || total - held > (total - 1) / margin {
            Err(28)
        } else {
            Ok(())
        };
        assert_eq!(m.may_advance(), expected);
        times[match expected { Ok(()) => 0, Err(18) => 1, Err(8) => 2, _ => 3 }] += 1;
    }
    assert!(times.iter().all(|&n| n > 1_000), "{times:?}");
}

// ------------------------------------------------------ preview of commit ---

/// A preview into so many words, all 77 before: the entries. The rest is kept,
/// a refused preview keeps all, and the state is untouched.
fn preview(m: &Member, words: usize) -> Answer<Vec<[u32; 3]>> {
    let (before, mut list) = (image(m), vec![77; words]);
    let answer = m.preview(&mut list);
    assert_eq!(m.may_preview(words), answer.map(|_| ()));
    assert_eq!(image(m), before);
    let written = 3 * answer.unwrap_or(0) as usize;
    assert!(list[written..].iter().all(|&word| word == 77));
    answer.map(|_| list[..written].chunks(3).map(|entry| [entry[0], entry[1], entry[2]]).collect())
}

/// The entries of the blocks that a commit adds to a copy, by the marks.
fn by_commit(m: &Member) -> Answer<Vec<[u32; 3]>> {
    let mut copy = m.clone();
    let count = copy.commit()? as usize;
    assert_eq!(copy.chain().len(), m.chain().len() + count);
    let of = |k: usize| plain_block(&copy, k).into_iter().map(move |(r, a)| [k as u32 + 1, r, a]);
    Ok((m.chain().len()..copy.chain().len()).flat_map(of).collect())
}

/// Entries of a block: of each round its authors in order.
fn entries(block: u32, rounds: &[(u32, &[u32])]) -> Vec<[u32; 3]> {
    rounds.iter().flat_map(|&(r, authors)| authors.iter().map(move |&a| [block, r, a])).collect()
}

/// A full round of four, but for those left out, that names these.
fn round_of_four(m: &mut Member, round: u32, previous: Set, left_out: &[u32]) {
    for a in (0..4).filter(|a| !left_out.contains(a)) {
        m.accept(&by_all(a, round, previous, &[])).unwrap();
    }
    if m.round() < round {
        m.advance().unwrap();
    }
}

#[test]
fn one_block_before_it_is_made() {
    let mut m = of_four();
    for (round, previous) in [(1, 0), (2, 15), (3, 15)] {
        round_of_four(&mut m, round, previous, &[]);
    }
    // The leader of 2 is member 1.
    let first = entries(1, &[(1, &[1, 2, 3, 0]), (2, &[1])]);
    assert_eq!(preview(&m, 384), Ok(first.clone()));
    assert_eq!(by_commit(&m), Ok(first));
    assert_eq!(m.commit(), Ok(1));
    assert_eq!(preview(&m, 384), Err(20));
    // Numbers go on. The leader of 4 is member 2; what a block has already is not there.
    for (round, previous) in [(4, 15), (5, 15)] {
        round_of_four(&mut m, round, previous, &[]);
    }
    let second = entries(2, &[(2, &[2, 3, 0]), (3, &[2, 3, 0, 1]), (4, &[2])]);
    assert_eq!(preview(&m, 384), Ok(second.clone()));
    assert_eq!(preview(&m, 384), Ok(second)); // and again
    assert_eq!(m.commit(), Ok(1));
}

#[test]
fn several_blocks_before_they_are_made() {
    let mut m = of_four();
    // Leaders of 2, 4, 6 are 1, 2, 3. Round 3 does not name 1: that anchor is passed by.
    for (round, previous) in [(1, 0), (2, 15), (3, 13), (4, 15), (5, 15), (6, 15), (7, 15)] {
        round_of_four(&mut m, round, previous, &[]);
    }
    let older = entries(1, &[(1, &[2, 3, 0, 1]), (2, &[2, 3, 0]), (3, &[2, 3, 0, 1]), (4, &[2])]);
    let newer = entries(2, &[(4, &[3, 0, 1]), (5, &[3, 0, 1, 2]), (6, &[3])]);
    assert_eq!(preview(&m, 384), Ok([older, newer].concat()));
    // With an anchor that is not held: the leader of 4 left out.
    let mut m = of_four();
    for (round, previous, left_out) in
        [(1, 0, &[][..]), (2, 15, &[]), (3, 15, &[]), (4, 15, &[2]), (5, 11, &[]), (6, 15, &[]), (7, 15, &[])]
    {
        round_of_four(&mut m, round, previous, left_out);
    }
    let older = entries(1, &[(1, &[1, 2, 3, 0]), (2, &[1])]);
    let newer = entries(2, &[(2, &[3, 0, 2]), (3, &[3, 0, 1, 2]), (4, &[3, 0, 1]), (5, &[3, 0, 1, 2]), (6, &[3])]);
    assert_eq!(preview(&m, 384), Ok([older, newer].concat()));
    assert_eq!(m.commit(), Ok(2));
}

/// A place is three words, and 16 of them are asked for in each round of the
/// ceiling, however few certificates there are. 25 comes before all of commit's.
#[test]
fn places_of_the_list() {
    let mut m = of_four();
    for (round, answer) in [(1, Err(19)), (2, Err(19)), (3, Ok(5))] {
        round_of_four(&mut m, round, if round == 1 { 0 } else { 15 }, &[]);
        for words in [0, 1, 15, 24, 128, 3 * 120, 381, 382, 383] {
            assert_eq!(preview(&m, words), Err(25), "{words} words in round {round}");
        }
        for words in [384, 385, 386, 387, 388, 1_000] {
            assert_eq!(preview(&m, words).map(|entries| entries.len()), answer, "{words} words");
        }
    }
    for ceiling in [3, 4, 5, 64, 1_023, 1_024] {
        let m = Member::open(0, &sheet(Blank, Written(ceiling), Blank, &[]), 1_024).unwrap();
        let just = 48 * ceiling as usize;
        for (words, answer) in [(just - 3, 25), (just - 1, 25), (just, 19), (just + 1, 19), (just + 2, 19)] {
            assert_eq!(preview(&m, words), Err(answer));
        }
    }
}

#[test]
fn a_preview_is_refused_as_commit_is() {
    let refused = |m: &Member, number: u32| {
        assert_eq!(preview(m, 384), Err(number));
        assert_eq!(preview(m, 383), Err(25));
        assert_eq!(by_commit(m), Err(number));
    };
    let mut m = of_four();
    refused(&m, 19);
    for (round, previous) in [(1, 0), (2, 15), (3, 15)] {
        round_of_four(&mut m, round, previous, &[]);
    }
    assert_eq!(preview(&m, 384).map(|entries| entries.len()), Ok(5));
    let mut even = m.clone();
    even.round = 4;
    refused(&even, 19);
    let mut done = m.clone();
    done.commit().unwrap();
    refused(&done, 20);
    // With lookback 1 and no block round 5 is not known, whatever is held.
    let mut unknown = m.clone();
    (unknown.round, unknown.settings.lookback) = (5, 1);
    refused(&unknown, 8);
    let mut no_anchor = m.clone();
    no_anchor.held[17] = None; // member 1 in round 2
    refused(&no_anchor, 21);
    for (round, author) in [(3, 0), (3, 1)] {
        m.held[(round - 1) * 16 + author] = None;
    }
    assert_eq!(preview(&m, 384).map(|entries| entries.len()), Ok(5)); // two of four, bound 1
    m.held[2 * 16 + 2] = None;
    refused(&m, 22);
}

/// A state that no run reaches: all that the anchor has is in a block already.
#[test]
fn a_block_of_nothing_has_no_entry() {
    let mut m = of_four();
    for (round, previous) in [(1, 0), (2, 15), (3, 15)] {
        round_of_four(&mut m, round, previous, &[]);
    }
    m.commit().unwrap();
    for (round, previous) in [(4, 15), (5, 15), (6, 15), (7, 15)] {
        round_of_four(&mut m, round, previous, &[]);
    }
    // Rounds 1 to 4 are all in block 1: the anchor of 4 makes a block of none.
    m.held[..4 * 16].iter_mut().flatten().for_each(|held| held.block = 1);
    assert_eq!(preview(&m, 384), Ok(entries(3, &[(5, &[3, 0, 1, 2]), (6, &[3])])));
    m.held[..7 * 16].iter_mut().flatten().for_each(|held| held.block = 1);
    assert_eq!(preview(&m, 384), Ok(vec![]));
    assert_eq!(by_commit(&m), Ok(vec![]));
    assert_eq!(m.commit(), Ok(2));
}

#[test]
fn previews_by_chance() {
    let mut rng = Rng(0x0b5e_7ed0_8a11_f00d);
    let (mut by_blocks, mut refused, mut turned) = ([0; 5], [0; 32], 0);
    for _ in 0..400 {
        let weights: Vec<u32> = (0..16).map(|_| rng.below(4) as u32).collect();
        let (lookback, ceiling) = (1 + rng.below(16) as u32, 3 + rng.below(22) as u32);
        let written = by_margin(sheet(Written(lookback), Written(ceiling), Blank, &weights), 3 + rng.below(3) as u32);
        let Ok(mut m) = Member::open(0, &written, 64) else { continue };
        let seldom = 1 + rng.below(5);
        loop {
            fill_round(&mut rng, &mut m);
            // Now and then the votes, or the anchor, are not there yet.
            let mut fewer = m.clone();
            for round in [m.round().max(2) - 1, m.round()] {
                for a in 0..16 {
                    if rng.below(3) == 0 {
                        fewer.held[((round - 1) * 16 + a) as usize] = None;
                    }
                }
            }
            for state in [&m, &fewer] {
                let words = 48 * ceiling as usize + rng.below(5) as usize;
                let found = preview(state, words);
                assert_eq!(found, by_commit(state));
                match found {
                    Ok(entries) => {
                        let blocks: BTreeSet<u32> = entries.iter().map(|entry| entry[0]).collect();
                        by_blocks[blocks.len().min(4)] += 1;
                        turned += u32::from(!entries.is_sorted());
                    }
                    Err(number) => refused[number as usize] += 1,
                }
                assert_eq!(preview(state, 48 * ceiling as usize - 1 - rng.below(60) as usize), Err(25));
            }
            if rng.below(seldom) == 0 && m.commit().is_ok() {
                assert_eq!(preview(&m, 48 * ceiling as usize), Err(20));
            }
            if m.advance().is_err() {
                break;
            }
        }
    }
    assert!(by_blocks[0] == 0 && by_blocks[1..].iter().all(|&n| n > 100) && turned > 500, "{by_blocks:?} {turned}");
    assert!([8, 19, 21, 22].iter().all(|&n: &usize| refused[n] > 50), "{refused:?}");
}

// ---------------------------------------------------------------- margins ---

/// The bound by search: the largest f whose margin times f is at most n - 1; 0
/// of nothing. A quorum is what is left of n.
#[test]
fn bounds_and_quorums_by_search() {
    for (margin, n) in (3..=5).flat_map(|margin| (0..=40).map(move |n| (margin, n))) {
        let search = (0..=n).rev().find(|f| n > 0 && u64::from(margin) * f < n).unwrap_or(0);
        assert_eq!(fault_bound(n, margin), search, "total {n}, margin {margin}");
        assert_eq!(quorum_weight(n, margin) + search, n, "total {n}, margin {margin}");
        // Any two quorums share more than the bound, so a correct member; a quorum
        // and votes above the bound share one.
        let (bound, quorum) = (fault_bound(n, margin), quorum_weight(n, margin));
        assert!(n == 0 || 2 * quorum > n + bound && quorum + bound + 1 > n);
    }
}

#[test]
fn bounds_and_quorums_by_hand() {
    // total, then bound and quorum by margins 3, 4 and 5
    let table = [
        (0, [(0, 0); 3]), (1, [(0, 1); 3]), (2, [(0, 2); 3]), (3, [(0, 3); 3]),
        (4, [(1, 3), (0, 4), (0, 4)]), (5, [(1, 4), (1, 4), (0, 5)]), (6, [(1, 5), (1, 5), (1, 5)]),
        (7, [(2, 5), (1, 6), (1, 6)]), (9, [(2, 7), (2, 7), (1, 8)]), (11, [(3, 8), (2, 9), (2, 9)]),
        (13, [(4, 9), (3, 10), (2, 11)]), (16, [(5, 11), (3, 13), (3, 13)]), (17, [(5, 12), (4, 13), (3, 14)]),
        (21, [(6, 15), (5, 16), (4, 17)]), (100, [(33, 67), (24, 76), (19, 81)]),
        (81_536_000, [(27_178_666, 54_357_334), (20_383_999, 61_152_001), (16_307_199, 65_228_801)]),
    ];
    for (n, by) in table {
        for (margin, (bound, quorum)) in (3..).zip(by) {
            assert_eq!((fault_bound(n, margin), quorum_weight(n, margin)), (bound, quorum), "total {n}, margin {margin}");
        }
    }
}

#[test]
fn margins_of_a_sheet() {
    let blank = Sheet::all_blank();
    assert_eq!((blank.margin, blank.fill().unwrap().margin), (Blank, 3));
    for margin in 3..=5 {
        assert_eq!(by_margin(blank, margin).fill().unwrap().margin, margin);
        // Blank and written 3 are the same settings; nothing else changes.
        let filled = by_margin(blank, margin).fill().unwrap();
        assert_eq!(filled == blank.fill().unwrap(), margin == 3);
        assert_eq!(Settings { margin: 3, ..filled }, blank.fill().unwrap());
    }
    for margin in [0, 1, 2, 6, 7, 259, u32::MAX] {
        assert_eq!(by_margin(blank, margin).fill(), Err(2));
        // 4, 2, 3, 1 in this order.
        let empty = by_margin(sheet(Blank, Blank, Blank, &[0; 4]), margin);
        assert_eq!(Member::open(16, &empty, 3).err(), Some(4));
        assert_eq!(Member::open(15, &empty, 3).err(), Some(2));
        assert_eq!(Member::open(15, &by_margin(blank, margin), 3).err(), Some(2));
    }
    let empty = sheet(Blank, Blank, Blank, &[0; 4]);
    assert_eq!(Member::open(15, &by_margin(empty, 5), 3).err(), Some(3));
    assert_eq!(Member::open(15, &by_margin(blank, 5), 3).err(), Some(1));
}

/// Twenty fields after the name or twenty-one, the last blank or a margin.
#[test]
fn margins_of_a_record() {
    let open = "open,0,,64,,1,0,0,0,,,,,,,,,,,,";
    let ends = [
        ("", "ok"), (",", "ok"), (",3", "ok"), (",4", "ok"), (",5", "ok"), (",2", "refused,2"), (",6", "refused,2"),
        (",0", "refused,2"), (",4294967295", "refused,2"), (",4294967296", "refused,24"), (",03", "refused,24"),
        (",x", "refused,24"), (", ", "refused,24"), (",,", "refused,24"), (",3,", "refused,24"), (",,3", "refused,24"),
        (",3,3", "refused,24"),
    ];
    for (end, answer) in ends {
        assert_eq!(answers(format!("{open}{end}\r\n").as_bytes()), format!("{answer}\r\n"), "{end}");
    }
    assert_eq!(answers(format!("{}\r\n", &open[..open.len() - 1]).as_bytes()), "refused,24\r\n");
    // In the last field and in no other: 4 members, 3 signers, 13 by margin 5 alone.
    for (end, answer) in [("", "ok"), (",", "ok"), (",3", "ok"), (",4", "refused,13"), (",5", "refused,13")] {
        let stream = format!("open,0,5,64,4,1,1,1,1,,,,,,,,,,,,{end}\r\npropose,0\r\ncertify,6\r\n");
        assert_eq!(answers(stream.as_bytes()), format!("ok\r\nok\r\n{answer}\r\n"), "{end}");
    }
}

/// Sixteen members of weight 1, own 0: the margin's bound and quorum in every
/// call that weighs, one short and exactly.
#[test]
fn everything_that_weighs_follows() {
    for (margin, bound, quorum) in [(3, 5, 11), (4, 3, 13), (5, 3, 13)] {
        let opened = Member::open(0, &by_margin(ones(16), margin), 1_024).unwrap();
        let first = |n: u32| (1u32 << n) as Set - 1;
        let others = |a: u32| !single(a);
        // 13: signers of certify, accept and batch.
        let mut m = opened.clone();
        m.propose(0, &[]).unwrap();
        assert_eq!(m.may_certify(first(quorum - 1) & others(0)).err(), Some(13));
        m.certify(first(quorum) & others(0)).unwrap();
        let signed = |n: u32| certificate(1, 1, 0, first(n) & others(1), &[]);
        assert_eq!(m.may_accept(&signed(quorum - 1)), Err(13));
        assert_eq!(batch(&mut m, &[Some(signed(quorum - 1)), Some(signed(quorum))]), [13, 0]);
        // 28: authors.
        for a in 2..16 {
            assert_eq!(m.may_advance(), if a < quorum { Err(28) } else { Ok(()) }, "{a} of 16, margin {margin}");
            m.accept(&certificate(a, 1, 0, others(a), &[])).unwrap();
        }
        m.advance().unwrap();
        // 12: previous sets of propose, draw and endorse.
        for n in 1..=16 {
            let answer = if n < quorum { Err(12) } else { Ok(()) };
            let previous = if n == 16 { !0 } else { first(n) };
            assert_eq!(m.may_propose(previous, &[]), answer);
            assert_eq!(m.may_draw(previous), answer);
            assert_eq!(m.may_endorse(&proposal(9, 2, previous, &[])), answer);
        }
        for a in 0..16 {
            m.accept(&certificate(a, 2, !0, others(a), &[])).unwrap();
        }
        m.advance().unwrap();
        // 22: votes, in commit and its preview. The anchor of 2 is member 1's.
        for votes in 0..16 {
            let answer = if votes <= bound { Err(22) } else { Ok(()) };
            assert_eq!(m.may_commit().map(|_| ()), answer, "{votes} votes, margin {margin}");
            assert_eq!(m.may_preview(48 * 1_024), answer);
            m.accept(&certificate(votes, 3, 2, others(votes), &[])).unwrap();
        }
        assert_eq!(preview(&m, 48 * 1_024).map(|entries| entries.len()), Ok(17));
        assert_eq!(m.commit(), Ok(1));
    }
}

/// Known rounds, committees, leaders, shares and the order inside a block are
/// the same by every margin.
#[test]
fn what_does_not_follow() {
    let run = |margin: u32| {
        let mut m = Member::open(0, &by_margin(sheet(Written(2), Written(64), Blank, &[3, 1, 2, 1]), margin), 64).unwrap();
        for r in 1..=3 {
            for a in 0..4 {
                m.accept(&by_all(a, r, if r == 1 { 0 } else { 15 }, &[bond(a, 5)])).unwrap();
            }
            if r < 3 {
                m.advance().unwrap();
            }
        }
        assert_eq!(m.commit(), Ok(1));
        let seen = (1..=64).map(|r| (m.read_committee(r), (0..16).map(|a| m.read_share(a, r)).collect::<Vec<_>>(), m.anchor(r)));
        (seen.collect::<Vec<_>>(), m.chain()[0].certificates.clone(), m.chain()[0].after)
    };
    assert_eq!(run(3), run(4));
    assert_eq!(run(3), run(5));
}

/// Any weights, margin and set: inside, and what is missing weighs at most the
/// bound found by search from below.
#[test]
fn quorums_by_chance() {
    let mut rng = Rng(0x9e37_79b9_0000_0009);
    let mut times = [[0; 2]; 3];
    for _ in 0..30_000 {
        let most = [2, 3, 6, 50][rng.below(4) as usize];
        let committee: Committee = std::array::from_fn(|_| rng.below(most));
        let (set, margin) = (!(rng.below(65_536) as Set & rng.below(65_536) as Set & rng.below(65_536) as Set), 3 + rng.below(3) as u32);
        let set = set & if rng.below(3) == 0 { !0 } else { members_of(!0).filter(|&m| committee[m as usize] > 0).map(single).fold(0, |a, b| a | b) };
        let (n, mut bound) = (total(&committee), 0);
        while u64::from(margin) * (bound + 1) < n {
            bound += 1;
        }
        let missing: u64 = members_of(!set).map(|m| committee[m as usize]).sum();
        let outside = members_of(set).any(|m| committee[m as usize] == 0);
        let quorum = !outside && missing <= bound;
        assert_eq!(is_quorum(set, &committee, margin), quorum, "{committee:?} {set:#b} {margin}");
        times[margin as usize - 3][usize::from(quorum)] += 1;
    }
    assert!(times.iter().flatten().all(|&n| n > 500), "{times:?}");
}

/// Four members of weight 1 and one vote: by margin 5 one is enough, and every
/// certificate wants all four.
#[test]
fn four_by_margin_5() {
    let open = |margin| Member::open(0, &by_margin(sheet(Blank, Written(8), Blank, &[]), margin), 8).unwrap();
    for (margin, by_three, by_one) in [(3, Ok(()), Err(22)), (4, Err(13), Ok(1)), (5, Err(13), Ok(1))] {
        let mut m = open(margin);
        assert_eq!(m.may_accept(&certificate(1, 1, 0, 12, &[])), by_three);
        for (round, previous) in [(1, 0), (2, 15)] {
            round_of_four(&mut m, round, previous, &[]);
        }
        m.advance().unwrap();
        assert_eq!(m.commit(), Err(22));
        m.accept(&by_all(3, 3, 2, &[])).unwrap();
        assert_eq!(m.commit(), by_one);
    }
}

// ------------------------------------------------- what a commit hangs on ---

/// A list of so many words, all 77 before: round and author of each place. The
/// rest is kept, a refused list keeps all, and the state is untouched.
fn critical(m: &Member, words: usize) -> Answer<Vec<(u32, u32)>> {
    let (before, mut list) = (image(m), vec![77; words]);
    let answer = m.critical(&mut list);
    assert_eq!(m.may_critical(words), answer.map(|_| ()));
    assert_eq!(image(m), before);
    let written = 2 * answer.unwrap_or(0) as usize;
    assert!(list[written..].iter().all(|&word| word == 77));
    answer.map(|_| list[..written].chunks(2).map(|pair| (pair[0], pair[1])).collect())
}

/// Members of these weights, rounds 1 and 2 full, in round 3: the anchor of 2 is
/// member 1's.
fn two_full_rounds(weights: &[u32], margin: u32) -> Member {
    let mut all = [0; 16];
    all[..weights.len()].copy_from_slice(weights);
    let mut m = Member::open(0, &by_margin(sheet(Blank, Written(8), Blank, &all), margin), 8).unwrap();
    let everybody = (0..16).filter(|&a| all[a as usize] > 0).map(single).fold(0, |x, y| x | y);
    for (round, previous) in [(1, 0), (2, everybody)] {
        for a in members_of(everybody) {
            m.accept(&certificate(a, round, previous, everybody & !single(a), &[])).unwrap();
        }
        m.advance().unwrap();
    }
    m
}

/// Votes of some members of round 3, the others naming member 0 alone: what the
/// commit hangs on, the anchor left out, which must be the first.
fn hanging(weights: &[u32], margin: u32, votes: Set) -> Answer<Vec<u32>> {
    let mut m = two_full_rounds(weights, margin);
    let everybody = m.held_authors(2);
    for a in members_of(everybody) {
        let previous = if in_set(votes, a) { 0b11 } else { 0b01 };
        m.accept(&certificate(a, 3, previous, everybody & !single(a), &[])).unwrap();
    }
    let list = critical(&m, 64)?;
    assert_eq!(m.without(1, 2).may_commit(), Err(21));
    assert!(list.iter().skip(1).all(|&(round, a)| m.without(a, round).may_commit() == Err(22)));
    assert_eq!(list[0], (2, 1));
    assert!(list[1..].iter().all(|&(round, _)| round == 3));
    Ok(list[1..].iter().map(|&(_, a)| a).collect())
}

/// Weights, margin, votes, and those without which the others weigh too little.
const DECIDING: [(&[u32], u32, Set, &[u32]); 31] = [
    // Bound 1. Of three votes two are left, of two one, which is the bound.
    (&[1, 1, 1, 1], 3, 0b1111, &[]),
    (&[1, 1, 1, 1], 3, 0b0111, &[]),
    (&[1, 1, 1, 1], 3, 0b1101, &[]),
    (&[1, 1, 1, 1], 3, 0b0011, &[0, 1]),
    (&[1, 1, 1, 1], 3, 0b1100, &[2, 3]),
    (&[1, 1, 1, 1], 3, 0b1010, &[1, 3]),
    // Bound 0: one vote is enough, and then all hangs on it.
    (&[1, 1, 1, 1], 4, 0b0100, &[2]),
    (&[1, 1, 1, 1], 4, 0b0101, &[]),
    (&[1, 1, 1, 1], 5, 0b0001, &[0]),
    (&[1, 1, 1, 1], 5, 0b0011, &[]),
    (&[1, 1, 1, 1, 1], 5, 0b1_0000, &[4]),
    // Six by margin 5: bound 1.
    (&[1, 1, 1, 1, 1, 1], 5, 0b10_0001, &[0, 5]),
    (&[1, 1, 1, 1, 1, 1], 5, 0b10_0011, &[]),
    // Total 7. By margin 3 the bound is 2, and without member 0 just that is left.
    (&[5, 1, 1], 3, 0b111, &[0]),
    (&[5, 1, 1], 3, 0b011, &[0]),
    (&[5, 1, 1], 3, 0b001, &[0]),
    // By margins 4 and 5 it is 1.
    (&[5, 1, 1], 4, 0b111, &[]),
    (&[5, 1, 1], 5, 0b111, &[]),
    (&[5, 1, 1], 5, 0b110, &[1, 2]),
    (&[5, 1, 1], 5, 0b101, &[0]),
    // Total 11: bounds 3, 2 and 2.
    (&[3, 2, 2, 4], 3, 0b1111, &[]),
    (&[3, 2, 2, 4], 3, 0b0110, &[1, 2]),
    (&[3, 2, 2, 4], 3, 0b0011, &[0, 1]),
    (&[3, 2, 2, 4], 3, 0b1001, &[3]),
    (&[3, 2, 2, 4], 3, 0b0111, &[]),
    (&[3, 2, 2, 4], 4, 0b1001, &[]),
    (&[3, 2, 2, 4], 5, 0b0001, &[0]),
    (&[3, 2, 2, 4], 5, 0b0011, &[0]),
    (&[3, 2, 2, 4], 5, 0b0110, &[1, 2]),
    // Total 1,500,001: bounds 500,000 and 300,000.
    (&[500_001, 500_000, 500_000], 3, 0b011, &[0]),
    (&[500_001, 500_000, 500_000], 5, 0b011, &[]),
];

#[test]
fn the_anchor_and_votes_that_decide() {
    for (weights, margin, votes, expected) in DECIDING {
        assert_eq!(hanging(weights, margin, votes), Ok(expected.to_vec()), "{weights:?} {margin} {votes:#b}");
    }
    for (weights, margin, votes) in [(&[1, 1, 1, 1][..], 3, 0b0010), (&[5, 1, 1], 3, 0b110), (&[3, 2, 2, 4], 3, 0b0001)] {
        assert_eq!(hanging(weights, margin, votes), Err(22));
    }
}

/// Sixteen of weight 1: one vote above the bound, and each of them decides; one
/// more, and none does.
#[test]
fn one_vote_to_spare() {
    for (margin, bound) in [(3, 5), (4, 3), (5, 3)] {
        for votes in 0..=16u32 {
            let set = ((1u32 << votes) - 1) as Set;
            let expected = match votes {
                n if n <= bound => Err(22),
                n if n == bound + 1 => Ok((0..n).collect()),
                _ => Ok(vec![]),
            };
            assert_eq!(hanging(&[1; 16], margin, set), expected, "{votes} votes, margin {margin}");
        }
    }
}

/// A place is two words, and 32 of them are asked for, whatever the ceiling. 25
/// comes before all of commit's.
#[test]
fn places_for_two_rounds() {
    for ceiling in [3, 8, 64, 1_024] {
        let mut m = Member::open(0, &sheet(Blank, Written(ceiling), Blank, &[]), 1_024).unwrap();
        for (round, answer) in [(1, Err(19)), (2, Err(19)), (3, Ok(vec![(2, 1)]))] {
            round_of_four(&mut m, round, if round == 1 { 0 } else { 15 }, &[]);
            for words in [0, 1, 2, 3, 31, 32, 33, 48, 61, 62, 63] {
                assert_eq!(critical(&m, words), Err(25), "{words} words in round {round}");
            }
            for words in [64, 65, 66, 67, 96, 1_000] {
                assert_eq!(critical(&m, words), answer, "{words} words");
            }
        }
    }
}

#[test]
fn a_list_is_refused_as_commit_is() {
    let refused = |m: &Member, number: u32| {
        assert_eq!(critical(m, 64), Err(number));
        assert_eq!(critical(m, 63), Err(25));
        assert_eq!(m.may_commit(), Err(number));
    };
    let mut m = of_four();
    refused(&m, 19);
    for (round, previous) in [(1, 0), (2, 15), (3, 15)] {
        round_of_four(&mut m, round, previous, &[]);
    }
    assert_eq!(critical(&m, 64), Ok(vec![(2, 1)]));
    let mut even = m.clone();
    even.round = 4;
    refused(&even, 19);
    let mut done = m.clone();
    done.commit().unwrap();
    refused(&done, 20);
    let mut unknown = m.clone();
    (unknown.round, unknown.settings.lookback) = (5, 1);
    refused(&unknown, 8);
    refused(&m.without(1, 2), 21);
    let two = m.without(0, 3).without(1, 3);
    assert_eq!(critical(&two, 64), Ok(vec![(2, 1), (3, 2), (3, 3)]));
    refused(&two.without(3, 3), 22);
}

/// The author of the anchor may be outside in the next round; its vote weighs
/// nothing there.
#[test]
fn an_anchor_that_has_left() {
    // Lookback 2: the block of round 2 unbonds member 2 from round 5 on, where the
    // bound is 0. The leader of 4 is member 2.
    let mut held: Vec<Place> = vec![(1, 1, 0, 1, vec![unbond(2)])];
    held.extend((4..=5).flat_map(|r| (0..4).map(move |a| (r, a, 0b1111, 0, vec![]))));
    let m = put_together(&[1, 1, 1, 1], 2, 3, 5, &[2], &held);
    assert_eq!(m.committee_of(4).unwrap()[..4], [1, 1, 1, 1]);
    assert_eq!(m.committee_of(5).unwrap()[..4], [1, 1, 0, 1]);
    assert_eq!(critical(&m, 64), Ok(vec![(4, 2)]));
    let one = m.without(0, 5).without(1, 5);
    assert_eq!(critical(&one, 64), Ok(vec![(4, 2), (5, 3)]));
}

/// Round, author, previous set, number of the block, transactions.
type Place = (u32, u32, Set, u32, Vec<Transaction>);

/// A state, also one that no run reaches: blocks of these rounds, and what is held.
fn put_together(weights: &[u32], lookback: u32, margin: u32, round: u32, blocks: &[u32], held: &[Place]) -> Member {
    let mut all = [0; 16];
    all[..weights.len()].copy_from_slice(weights);
    let mut m = Member::open(0, &by_margin(sheet(Written(lookback), Written(9), Blank, &all), margin), 9).unwrap();
    m.round = round;
    m.chain = blocks.iter().map(|&round| Block { round, certificates: Vec::new(), after: [0; 16] }).collect();
    for (r, a, previous, block, transactions) in held {
        let certificate = certificate(*a, *r, *previous, 0, transactions);
        m.held[((r - 1) * 16 + a) as usize] = Some(Held { certificate, block: *block });
    }
    tell_again(&mut m);
    m
}

/// Puts the blocks together again, by the marks.
fn tell_again(m: &mut Member) {
    for (k, before) in std::mem::take(&mut m.chain).into_iter().enumerate() {
        let mut marked = Vec::new();
        for (r, a) in (1..=m.settings.ceiling).flat_map(|r| (0..16).map(move |a| (r, a))) {
            if m.held_at(a, r).is_some_and(|held| held.block == k as u32 + 1) {
                marked.push((r, a));
            }
        }
        m.chain.push(Block::on(&m.chain, &m.settings, before.round, marked, &m.held));
    }
}

/// Lookback 1, block 1 of round 2, in round 5, by margin 3; certificates of rounds
/// 4 and 5: author, previous set, block, transactions.
fn marked(weights: &[u32], fourth: &[(u32, u32, Vec<Transaction>)], fifth: &[(u32, Set, u32, Vec<Transaction>)]) -> Member {
    let fourth = fourth.iter().map(|(a, block, list)| (4, *a, 0b1110, *block, list.clone()));
    let fifth = fifth.iter().map(|(a, previous, block, list)| (5, *a, *previous, *block, list.clone()));
    put_together(weights, 1, 3, 5, &[2], &fourth.chain(fifth).collect::<Vec<_>>())
}

/// A certificate of the round before that is in a block, in a state that no run
/// reaches. Member 0 is inside by its bond, and the leader of 4 is member 2;
/// without the bond it is member 3.
#[test]
fn in_a_block_and_of_the_round_before() {
    // Who has the bond, what the votes name, what the commit hangs on.
    let table: [(u32, Set, &[(u32, u32)]); 6] = [
        // Member 3 leads then, and has no votes; it has, with enough of them.
        (1, 0b0100, &[(4, 1), (4, 2)]),
        (1, 0b1100, &[(4, 2)]),
        // The anchor itself: another is in its place, with votes or without.
        (2, 0b1100, &[]),
        (2, 0b0100, &[(4, 2)]),
        // The one that would lead is the absent one.
        (3, 0b1100, &[(4, 2), (4, 3)]),
        (3, 0b0100, &[(4, 2), (4, 3)]),
    ];
    for (author, named, expected) in table {
        let fourth: Vec<_> = (1..4)
            .map(|a| if a == author { (a, 1, vec![bond(0, 1)]) } else { (a, 0, vec![]) })
            .collect();
        let fifth: Vec<_> = (1..4).map(|a| (a, named, 0, vec![])).collect();
        let m = marked(&[0, 1, 1, 1], &fourth, &fifth);
        assert_eq!(m.may_commit(), Ok(2));
        assert_eq!(critical(&m, 64), Ok(expected.to_vec()), "bond of {author}, votes name {named:#b}");
    }
}

/// A certificate of the present round that is in a block: the bound is another
/// without it. The leader of 4 is member 2, the starting weights are 1, 1, 1, 1.
#[test]
fn in_a_block_and_of_the_present_round() {
    let fourth = [(2, 0, vec![])];
    let vote = |a: u32| (a, 0b0100, 0, vec![]);
    // An unbond makes three of four, bound 0. Without it the bound is 1: of two
    // votes the other one is too little, though it is above 0.
    let by_vote = (0, 0b0100, 1, vec![unbond(3)]);
    let m = marked(&[1, 1, 1, 1], &fourth, &[by_vote.clone(), vote(1)]);
    assert_eq!(critical(&m, 64), Ok(vec![(4, 2), (5, 0)]));
    let m = marked(&[1, 1, 1, 1], &fourth, &[by_vote, vote(1), vote(2)]);
    assert_eq!(critical(&m, 64), Ok(vec![(4, 2)]));
    // The same where it is no vote at all.
    let m = marked(&[1, 1, 1, 1], &fourth, &[(0, 0b0010, 1, vec![unbond(3)]), vote(1)]);
    assert_eq!(critical(&m, 64), Ok(vec![(4, 2), (5, 0), (5, 1)]));
    // A bond makes 1, 1, 1, 4 of it, bound 2. Of three votes any two are too
    // little; but without the bond the bound is 1.
    let with_bond = (0, 0b0100, 1, vec![bond(3, 3)]);
    let votes = [with_bond, vote(1), vote(2)];
    let mut m = marked(&[1, 1, 1, 1], &fourth, &votes);
    assert_eq!(critical(&m, 64), Ok(vec![(4, 2), (5, 1), (5, 2)]));
    // A block of round 2 that counts no more in round 5.
    m.settings.lookback = 3;
    tell_again(&mut m);
    assert_eq!(critical(&m, 64), Ok(vec![(4, 2)]));
    // Its own weight comes from its own bond: without it the others are two of two.
    let m = marked(&[0, 1, 1], &[(2, 0, vec![]), (1, 0, vec![])], &[(0, 0b0111, 1, vec![bond(0, 7)]), vote(1), vote(2)]);
    assert_eq!((m.committee_of(5).unwrap()[0], m.may_commit()), (7, Ok(2)));
    assert_eq!(critical(&m, 64), Ok(vec![(4, 2), (5, 0)]));
}

/// What is absent decides who leads the round of a later block, and so the order
/// inside it: lookback 1, blocks of rounds 2 and 4, in round 7.
#[test]
fn order_without_it() {
    // With the bond of member 0 the leader of 4 is member 2: member 4 is bonded,
    // then unbonded. Without it member 3 is, and member 4 stays.
    let mut held: Vec<Place> = vec![(3, 2, 1, 2, vec![bond(4, 5)]), (3, 3, 1, 2, vec![unbond(4)])];
    held.extend([(6, 1, 1, 0, vec![]), (6, 2, 1, 1, vec![bond(0, 1)]), (6, 3, 1, 0, vec![])]);
    held.extend((1..4).map(|a| (7, a, 0b1010, 0, vec![])));
    let m = put_together(&[0, 1, 1, 1], 1, 3, 7, &[2, 4], &held);
    assert_eq!(m.chain()[1].certificates, [(3, 2), (3, 3)]);
    assert_eq!((m.committee_of(7).unwrap()[..5].to_vec(), m.may_commit()), (vec![1, 1, 1, 1, 0], Ok(3)));
    // Of members 1 to 4 the leader of 6 is member 4; of 1 to 3 it would be 1, whom all name.
    let absent = m.without(2, 6);
    assert_eq!(absent.chain()[1].certificates, [(3, 3), (3, 2)]);
    assert_eq!((absent.committee_of(7).unwrap()[..5].to_vec(), absent.may_commit()), (vec![0, 1, 1, 1, 5], Err(21)));
    assert_eq!(critical(&m, 64), Ok(vec![(6, 2), (6, 3)]));
}

/// What the rules say of states that a run reaches: the anchor, and each vote
/// where the remaining ones do not exceed the bound.
fn by_votes(m: &Member) -> Answer<Vec<(u32, u32)>> {
    let (r, anchor) = (m.round(), m.may_commit()?);
    let committee = *m.committee_of(r).unwrap();
    let votes: Vec<u32> = members_of(m.held_authors(r))
        .filter(|&a| in_set(m.held_at(a, r).unwrap().certificate.proposal.previous, anchor))
        .collect();
    let left = |a: u32| votes.iter().filter(|&&b| b != a).map(|&b| committee[b as usize]).sum::<u64>();
    let decides = votes.iter().filter(|&&a| left(a) <= m.fault_bound(&committee));
    Ok([(r - 1, anchor)].into_iter().chain(decides.map(|&a| (r, a))).collect())
}

/// What commit answers, by the marks: nothing that is kept with the blocks but
/// their rounds is looked at.
fn plain_commit(m: &Member) -> Answer<()> {
    let (r, last, lookback) = (m.round(), m.last_block_round(), m.settings().lookback);
    if r % 2 == 0 || r == 1 {
        return Err(19);
    }
    if last >= r - 1 {
        return Err(20);
    }
    if r.saturating_sub(lookback) > last + 2 {
        return Err(8);
    }
    let of = |r: u32| plain_bonded(m, m.chain().len(), r.saturating_sub(lookback));
    let anchor = leader(r - 1, &of(r - 1)).filter(|&a| m.is_held(a, r - 1)).ok_or(21u32)?;
    let names = |a: u32| m.held_at(a, r).is_some_and(|held| in_set(held.certificate.proposal.previous, anchor));
    let votes: u64 = (0..16).filter(|&a| names(a)).map(|a| of(r)[a as usize]).sum();
    if votes > m.fault_bound(&of(r)) { Ok(()) } else { Err(22) }
}

/// The definition, by the marks: places that are held no more, and what commit
/// answers then.
fn by_absence(m: &Member) -> Answer<Vec<(u32, u32)>> {
    plain_commit(m)?;
    let mut list = Vec::new();
    for (r, a) in [m.round() - 1, m.round()].into_iter().flat_map(|r| (0..16).map(move |a| (r, a))) {
        let mut copy = m.clone();
        if copy.held[((r - 1) * 16 + a) as usize].take().is_some() && plain_commit(&copy).is_err() {
            list.push((r, a));
        }
    }
    Ok(list)
}

/// A member of any weights, lookback, ceiling and margin.
fn any_member(rng: &mut Rng, most: u64) -> Option<Member> {
    let weights: Vec<u32> = (0..16).map(|_| rng.below(most) as u32).collect();
    let (lookback, ceiling) = (1 + rng.below(12) as u32, 3 + rng.below(30) as u32);
    let written = by_margin(sheet(Written(lookback), Written(ceiling), Blank, &weights), 3 + rng.below(3) as u32);
    Member::open(0, &written, 64).ok()
}

/// The certificates of the present round as fill_round makes them, in any order;
/// some name the anchor of the round before as well.
fn some_of_round(rng: &mut Rng, m: &Member, thick: u64) -> Vec<Certificate> {
    let (r, mut full) = (m.round(), m.clone());
    fill_round(rng, &mut full);
    let mut all: Vec<Certificate> =
        members_of(full.held_authors(r)).map(|a| full.held_at(a, r).unwrap().certificate.clone()).collect();
    (1..all.len()).for_each(|i| all.swap(i, rng.below(i as u64 + 1) as usize));
    for one in &mut all {
        if let (true, Some(anchor)) = (r > 1 && rng.below(4) < thick, m.anchor(r.max(2) - 1)) {
            one.proposal.previous |= single(anchor);
        }
    }
    all
}

/// Runs from an opening: a list after each certificate.
#[test]
fn reached_by_chance() {
    let mut rng = Rng(0x1010_1010_1010_1011);
    let (mut refused, mut by_margins, mut lengths) = ([0; 32], [[0; 2]; 3], [0; 4]);
    for _ in 0..200 {
        let most = 2 + rng.below(6);
        let Some(mut m) = any_member(&mut rng, most) else { continue };
        let (seldom, thick) = (1 + rng.below(4), rng.below(4));
        loop {
            for one in some_of_round(&mut rng, &m, thick) {
                m.accept(&one).unwrap();
                let list = critical(&m, 64);
                assert_eq!(list, by_votes(&m));
                let Ok(list) = list.map_err(|number| refused[number as usize] += 1) else { continue };
                // Nothing of the two rounds is in a block.
                assert!(m.held[(m.round() as usize - 2) * 16..].iter().flatten().all(|held| held.block == 0));
                by_margins[m.settings().margin as usize - 3][usize::from(list.len() > 1)] += 1;
                lengths[(list.len() - 1).min(3)] += 1;
            }
            if rng.below(seldom) == 0 && m.commit().is_ok() {
                assert_eq!(critical(&m, 64), Err(20));
            }
            if m.advance().is_err() {
                break;
            }
        }
    }
    assert!(by_margins.iter().flatten().all(|&n| n > 200) && lengths.iter().all(|&n| n > 200), "{by_margins:?} {lengths:?}");
    assert!([19, 21, 22].iter().all(|&n: &usize| refused[n] > 300), "{refused:?}");
}

/// States that no run reaches: blocks of any rounds, certificates of both rounds
/// in them, few members bonded and unbonded there.
#[test]
fn absences_by_chance() {
    let mut rng = Rng(0x0dd_ba11_cafe_f00d);
    let (mut accepted, mut otherwise, mut no_anchor, mut others) = (0, 0, 0, 0);
    for _ in 0..300 {
        let Some(mut m) = any_member(&mut rng, 4) else { continue };
        m.settings.lookback = 40;
        for _ in 0..2 * rng.below(u64::from(m.settings.ceiling) / 2) {
            fill_round(&mut rng, &mut m);
            let _ = m.advance();
        }
        fill_round(&mut rng, &mut m);
        for _ in 0..8 {
            let mut damaged = m.clone();
            damage(&mut rng, &mut damaged);
            let list = critical(&damaged, 64 + rng.below(3) as usize);
            assert_eq!(list, by_absence(&damaged));
            if let Ok(list) = list {
                let told = by_votes(&damaged).unwrap();
                accepted += 1;
                otherwise += u32::from(list != told);
                no_anchor += u32::from(!list.contains(&told[0]));
                others += u32::from(list.iter().any(|one| !told.contains(one)));
            }
        }
    }
    assert!(accepted > 500 && otherwise > 100 && no_anchor > 3 && others > 80, "{accepted} {otherwise} {no_anchor} {others}");
}

/// Block rounds below the round before, by which the present one is known; marks
/// in the two rounds, and bonds and unbonds of few members there, who have no
/// weight but by them; and some votes less.
fn damage(rng: &mut Rng, m: &mut Member) {
    let (r, few) = (m.round, [rng.below(16) as u32, rng.below(16) as u32]);
    m.settings.lookback = 1 + rng.below(3) as u32;
    few.iter().for_each(|&one| m.settings.weights[one as usize] = 0);
    let none = Block { round: 0, certificates: Vec::new(), after: [0; 16] };
    let rounds = (2..r.max(3) - 2).step_by(2).filter(|&round| rng.below(2) == 0 || round + 3 >= r);
    m.chain = rounds.map(|round| Block { round, ..none.clone() }).collect();
    let often = 2 + rng.below(6);
    for (round, a) in [r.max(2) - 1, r].into_iter().flat_map(|round| (0..16).map(move |a| (round, a))) {
        let place = &mut m.held[((round - 1) * 16 + a) as usize];
        if round == r && rng.below(2) == 0 {
            *place = None;
        }
        let Some(held) = place.as_mut().filter(|_| rng.below(often) == 0) else { continue };
        held.block = rng.below(m.chain.len() as u64 + 1) as u32;
        let one = few[rng.below(2) as usize];
        let list = [bond(one, 1 + rng.below(9) as u32), unbond(one)];
        held.certificate.proposal.transactions = vec![list[usize::from(rng.below(4) == 0)]];
    }
    tell_again(m);
    // The anchor itself, at times.
    if let (true, Some(anchor)) = (r > 1 && rng.below(2) == 0, m.anchor(r.max(2) - 1)) {
        let held = m.held[((r - 2) * 16 + anchor) as usize].as_mut().unwrap();
        held.block = u32::from(!m.chain.is_empty());
        held.certificate.proposal.transactions = vec![bond(few[0], 1)];
        tell_again(m);
    }
}

// -------------------------------------------------------- who may do what ---

/// The right that each call of a guest needs: of those that the host has too, then of
/// accesses to ports.
const NEEDS: [(Request, Right); 18] = [
    (Request::Propose, Right::Propose),
    (Request::Draw, Right::Propose),
    (Request::Enqueue, Right::Propose),
    (Request::Endorse, Right::Sign),
    (Request::Certify, Right::Sign),
    (Request::Accept, Right::Sign),
    (Request::Batch, Right::Sign),
    (Request::Advance, Right::Drive),
    (Request::Commit, Right::Drive),
    (Request::Committee, Right::Read),
    (Request::Share, Right::Read),
    (Request::Certificate, Right::Read),
    (Request::Block, Right::Read),
    (Request::Preview, Right::Read),
    (Request::Critical, Right::Read),
    (Request::Effect, Right::Read),
    (Request::PortRead, Right::Read),
    (Request::PortWrite, Right::Read),
];

/// How many of them the host has.
const HOSTS: usize = 16;

const ALL_RIGHTS: Rights = [[true; 4]; 8];

/// Those who may propose, sign, drive, read.
fn given(sets: [&[u32]; 4]) -> Rights {
    std::array::from_fn(|caller| sets.map(|set| set.contains(&(caller as u32))))
}

/// A call of the host's own with values that mostly fit, adding to the queue of a
/// guest: its answer with all that it gives.
fn host_asks(m: &mut Member, request: Request, guest: u32, author: u32) -> Answer<String> {
    let (r, mut list) = (m.round(), vec![77; 48 * 64 + 1]);
    let previous = if r == 1 { 0 } else { m.held_authors(r - 1) };
    let committee = m.committee_of(r).copied().unwrap_or([1; 16]);
    let inside = (0..16).filter(|&a| committee[a as usize] > 0).map(single).fold(0, |a, b| a | b);
    let one = certificate(author, r, previous, inside & !single(author), &[entry(author)]);
    let told = match request {
        Request::Propose => format!("{:?}", m.propose(previous, &[entry(5)])?),
        Request::Draw => format!("{:?}", m.draw(previous)?),
        Request::Enqueue => format!("{:?}", m.enqueue(guest, &entry(author))?),
        Request::Endorse => format!("{:?}", m.endorse(&one.proposal)?),
        Request::Certify => format!("{:?}", m.certify(inside & !single(m.own()))?),
        Request::Accept => format!("{:?}", m.accept(&one)?),
        Request::Batch => format!("{:?}", m.batch(&[None, Some(one)], &mut list)?),
        Request::Advance => format!("{:?}", m.advance()?),
        Request::Commit => format!("{:?}", m.commit()?),
        Request::Committee => format!("{:?}", m.read_committee(r)?),
        Request::Share => format!("{:?}", m.read_share(author, r)?),
        Request::Certificate => format!("{:?}", m.read_certificate(author, r)?),
        Request::Block => format!("{:?}", m.read_block(1)?),
        Request::Preview => format!("{:?}", m.preview(&mut list)?),
        Request::Critical => format!("{:?}", m.critical(&mut list)?),
        Request::Effect => format!("{:?}", m.read_effect(author, r, 1 + author)?),
        Request::PortRead | Request::PortWrite => unreachable!("a guest's alone"),
    };
    Ok(format!("{told} {list:?}"))
}

/// The same as a guest's call, which adds to its own queue.
fn guest_asks(m: &mut Member, caller: u32, request: Request, author: u32) -> Answer<String> {
    m.by_guest(caller, request, |m| host_asks(m, request, caller, author))
}

/// One right of one caller, and everything but it: only that caller's calls that
/// need it pass, or all others do. Above 7 nothing does.
#[test]
fn each_right_alone() {
    for (caller, right) in (0..8).flat_map(|caller| (0..4).map(move |right| (caller, right))) {
        let (mut alone, mut all_but) = (NO_RIGHTS, ALL_RIGHTS);
        (alone[caller][right], all_but[caller][right]) = (true, false);
        for (request, needed) in NEEDS {
            assert_eq!(request.needs(), needed);
            for other in 0..8 {
                let it = other == caller && needed as usize == right;
                let or_29 = |may| if may { Ok(()) } else { Err(29) };
                assert_eq!(may_ask(&alone, other as u32, request), or_29(it), "{request:?} by {other}");
                assert_eq!(may_ask(&all_but, other as u32, request), or_29(!it), "{request:?} by {other}");
            }
            for above in [8, 9, 16, 255, 256, u32::MAX] {
                for rights in [alone, all_but, NO_RIGHTS, ALL_RIGHTS] {
                    assert_eq!(may_ask(&rights, above, request), Err(26));
                }
            }
        }
    }
}

/// Guest 3 may propose and read, guest 5 may sign, guest 0 may drive.
#[test]
fn four_guests() {
    let rights = given([&[3], &[5], &[0], &[3, 7]]);
    let mut m = Member::open_with(0, &sheet(Blank, Written(8), Blank, &[]), &rights, 8).unwrap();
    assert_eq!(m.guest_enqueue(3, &entry(30)), Ok(()));
    assert_eq!(m.guest_enqueue(5, &entry(50)), Err(29));
    assert_eq!(m.guest_enqueue(8, &entry(80)), Err(26));
    assert_eq!(m.enqueue(5, &entry(50)), Ok(()));
    assert_eq!(counts(&m), [0, 0, 0, 1, 0, 1, 0, 0]);
    assert_eq!(m.by_guest(0, Request::Draw, |m| m.draw(0)), Err(29));
    assert_eq!(m.by_guest(3, Request::Draw, |m| m.draw(0)), Ok(()));
    // What the host has added for another goes with it.
    assert_eq!(m.proposal().unwrap().transactions, [entry(30), entry(50)]);
    assert_eq!(m.by_guest(3, Request::Certify, |m| m.certify(0b1110)), Err(29));
    assert_eq!(m.by_guest(5, Request::Certify, |m| m.certify(0b1110)), Ok(()));
    for author in 1..3 {
        let one = certificate(author, 1, 0, 0b1111 & !single(author), &[]);
        assert_eq!(m.by_guest(5, Request::Accept, |m| m.accept(&one)), Ok(()));
    }
    assert_eq!(m.by_guest(5, Request::Advance, |m| m.advance()), Err(29));
    assert_eq!(m.by_guest(0, Request::Advance, |m| m.advance()), Ok(()));
    assert_eq!(m.by_guest(0, Request::Advance, |m| m.advance()), Err(28));
    assert_eq!(m.by_guest(0, Request::Commit, |m| m.commit()), Err(19));
    assert_eq!(m.by_guest(0, Request::Committee, |m| m.read_committee(9)), Err(29));
    assert_eq!(m.by_guest(7, Request::Committee, |m| m.read_committee(9)), Err(5));
    assert_eq!(m.by_guest(7, Request::Share, |m| m.read_share(1, 2)), Ok(250));
    assert_eq!(m.by_guest(7, Request::Effect, |m| m.read_effect(1, 2, 2)).unwrap().largest, 250);
    assert_eq!(m.by_guest(7, Request::Effect, |m| m.read_effect(16, 9, 0)), Err(4));
    assert_eq!(m.by_guest(5, Request::Effect, |m| m.read_effect(16, 9, 0)), Err(29));
    assert_eq!(m.by_guest(8, Request::Effect, |m| m.read_effect(16, 9, 0)), Err(26));
    assert_eq!(m.rights, rights);
}

/// A guest adds to its own queue, and to no other.
#[test]
fn own_queues() {
    let mut m = Member::open_with(0, &Sheet::all_blank(), &ALL_RIGHTS, 1_024).unwrap();
    for (caller, times) in [(0, 3), (7, 8), (2, 1)] {
        (0..times).for_each(|k| assert_eq!(m.guest_enqueue(caller, &entry(10 * caller + k)), Ok(())));
    }
    assert_eq!(counts(&m), [3, 0, 1, 0, 0, 0, 0, 8]);
    assert_eq!(m.queues[7][7], entry(77));
    // 26 and 29 before 6 and 27.
    assert_eq!(m.guest_enqueue(7, &entry(1)), Err(27));
    assert_eq!(m.guest_enqueue(7, &bond(16, 1)), Err(6));
    assert_eq!(m.guest_enqueue(8, &bond(16, 1)), Err(26));
    m.rights = NO_RIGHTS;
    assert_eq!(m.guest_enqueue(7, &bond(16, 1)), Err(29));
    assert_eq!(m.enqueue(7, &bond(16, 1)), Err(6));
}

/// An open gives the rights that it is handed, whatever they are, and asks what it
/// asked before; a runner's gives none.
#[test]
fn rights_of_an_open() {
    let blank = Sheet::all_blank();
    for rights in [NO_RIGHTS, ALL_RIGHTS, given([&[0], &[1, 2], &[], &[7]])] {
        assert_eq!(Member::open_with(0, &blank, &rights, 1_024).unwrap().rights, rights);
        assert_eq!(Member::open_with(16, &sheet(Written(0), Blank, Blank, &[0; 4]), &rights, 3).err(), Some(4));
        assert_eq!(Member::open_with(15, &sheet(Written(0), Blank, Blank, &[0; 4]), &rights, 3).err(), Some(2));
        assert_eq!(Member::open_with(15, &sheet(Blank, Blank, Blank, &[0; 4]), &rights, 3).err(), Some(3));
        assert_eq!(Member::open_with(15, &blank, &rights, 3).err(), Some(1));
        // Equal settings and equal rights open equal states; else they differ in these alone.
        let written = by_margin(sheet(Written(20), Blank, Written(4), &[1, 1]), 3);
        let mut other = Member::open(0, &written, 1_024).unwrap();
        other.rights = rights;
        assert_eq!(image(&Member::open_with(0, &blank, &rights, 1_024).unwrap()), image(&other));
    }
    let mut runner = Runner::default();
    runner.answer(read_record(b"open,0,,64,,1,0,0,0,,,,,,,,,,,,").as_ref(), &mut Vec::new());
    assert_eq!(runner.member.unwrap().rights, NO_RIGHTS);
}

/// With the right a guest's call is the host's, without it every state with these
/// rights gives the same and stays as it is; rights never change.
#[test]
fn guests_by_chance() {
    let mut rng = Rng(0x11_1e57_0f9a_7e57);
    let (mut accepted, mut refused) = ([0; HOSTS], [0; 32]);
    let mut other = of_four();
    for _ in 0..60 {
        let Some(mut m) = any_member(&mut rng, 4) else { continue };
        m.rights = std::array::from_fn(|_| [(); 4].map(|()| rng.below(3) > 0));
        let rights = m.rights;
        for _ in 0..rng.below(6) {
            fill_round(&mut rng, &mut m);
            let _ = m.advance();
        }
        for _ in 0..150 {
            if rng.below(12) == 0 {
                fill_round(&mut rng, &mut m);
            }
            let which = rng.below(HOSTS as u64) as usize;
            let (request, caller, author) = (NEEDS[which].0, rng.below(10) as u32, rng.below(16) as u32);
            let (before, mut copy) = (image(&m), m.clone());
            let answer = guest_asks(&mut m, caller, request, author);
            assert_eq!(m.rights, rights);
            match may_ask(&rights, caller, request) {
                Ok(()) => {
                    assert_eq!(answer, host_asks(&mut copy, request, caller, author));
                    assert_eq!(image(&m), image(&copy));
                }
                Err(number) => {
                    other.rights = rights;
                    let others = image(&other);
                    assert_eq!((answer.clone(), guest_asks(&mut other, caller, request, author)), (Err(number), Err(number)));
                    assert_eq!((image(&m), image(&other)), (before, others));
                }
            }
            match answer {
                Ok(_) => accepted[which] += 1,
                Err(number) => refused[number as usize] += 1,
            }
        }
        other = m;
    }
    assert!(accepted.iter().all(|&n| n > 10) && refused[26] > 1_000 && refused[29] > 1_000, "{accepted:?} {refused:?}");
}

// -------------------------------------------------------------- runner ---

fn answers(input: &[u8]) -> String {
    let mut out = Vec::new();
    run(&mut &input[..], &mut out).unwrap();
    String::from_utf8(out).unwrap()
}

#[test]
fn the_example() {
    let input = "open,0,,64,,1,0,0,0,,,,,,,,,,,,\npropose,0,E,7,0\ncertify,0\nadvance\npropose,1\ncertify,0\nadvance\npropose,1,E,9,0\ncertify,0\ncommit\nchain\ncommit\n";
    let output = "ok\n".repeat(9) + "ok,1\n1,2,1,0,E,7,0\n1,2,2,0\nok\nrefused,20\n";
    assert_eq!(answers(input.replace('\n', "\r\n").as_bytes()), output.replace('\n', "\r\n"));
}

#[test]
fn numbers() {
    for (text, n) in [("0", 0), ("7", 7), ("10", 10), ("4294967295", u32::MAX)] {
        assert_eq!(read_number(text.as_bytes()), Some(n));
    }
    for text in ["", "00", "01", "+1", "-1", " 1", "1 ", "4294967296", "42949672950", "99999999999999999999", "1a", "\u{661}"] {
        assert_eq!(read_number(text.as_bytes()), None, "{text}");
    }
}

/// The records come out the same however the input is cut into pieces.
#[test]
fn pieces_of_input() {
    let mut input = Vec::new();
    for part in ["advance\r\n", "\r\n", "\n\r\n", "\r\r\n", "a\rb\r\n", "\r\n\n"] {
        input.extend_from_slice(part.as_bytes());
    }
    for length in [1_021, 1_022, 1_023, 1_024, 1_025, 3_000] {
        input.extend(std::iter::repeat_n(b'\r', length));
        input.extend_from_slice(b"\r\nchain\r\n");
        let long = format!("propose,0,E,{},0\r\n", "1".repeat(length));
        input.extend_from_slice(long.as_bytes());
    }
    input.extend_from_slice(b"advance\r");
    let whole = answers(&input);
    for size in [1, 2, 3, 7, 64, 1_023, 1_024, 1_025, 4_096] {
        let mut out = Vec::new();
        let mut pieces = std::io::BufReader::with_capacity(size, &input[..]);
        run(&mut pieces, &mut out).unwrap();
        assert_eq!(String::from_utf8(out).unwrap(), whole);
    }
    assert_eq!(whole.lines().count(), 6 + 6 * 3 + 1);
}

#[test]
fn longest_record() {
    let open = "open,0,,64,,1,0,0,0,,,,,,,,,,,,\r\n";
    for (digits, answer) in [(4, "6"), (5, "6"), (6, "6"), (7, "24"), (8, "24")] {
        let record = format!("propose,0,E,{},0{}\r\n", "1".repeat(digits), ",E,1,0".repeat(167));
        assert_eq!(record.len(), 1_018 + digits);
        let got = answers((open.to_owned() + &record).as_bytes());
        assert_eq!(got, format!("ok\r\nrefused,{answer}\r\n"));
    }
}

// ------------------------------- shortcuts against the plain definitions ---

struct Rng(u64);
impl Rng {
    fn below(&mut self, n: u64) -> u64 {
        self.0 ^= self.0 << 13;
        self.0 ^= self.0 >> 7;
        self.0 ^= self.0 << 17;
        self.0 % n
    }
}

/// The first `below` blocks, as far as their rounds are below s, each in its
/// own order; nothing is kept.
fn plain_bonded(m: &Member, below: usize, s: u32) -> Committee {
    let mut c = m.settings().weights;
    for k in (0..below).filter(|&k| m.chain()[k].round < s) {
        for (r, a) in plain_block(m, k) {
            for t in &m.held_at(a, r).unwrap().certificate.proposal.transactions {
                change(&mut c, t);
            }
        }
    }
    c
}

/// The certificates marked with the number of the block after the first k, by
/// keys that count up: of key q the round is q / 16 and the member
/// (q + first) mod 16, first being the leader's number and 16 for none.
fn plain_block(m: &Member, k: usize) -> Vec<(u32, u32)> {
    let (round, lookback) = (m.chain()[k].round, m.settings().lookback);
    let committee =
        if round <= lookback { m.settings().weights } else { plain_bonded(m, k, round - lookback) };
    let first = leader(round, &committee).unwrap_or(16);
    (16..=16 * m.settings().ceiling + 15)
        .map(|q| (q / 16, (q + first) % 16))
        .filter(|&(r, a)| m.held_at(a, r).is_some_and(|held| held.block == k as u32 + 1))
        .collect()
}

fn plain_history(m: &Member, author: u32, round: u32) -> BTreeSet<(u32, u32)> {
    let mut found = BTreeSet::new();
    let mut waiting = vec![(round, author)];
    while let Some((r, a)) = waiting.pop() {
        if let Some(held) = m.held_at(a, r) {
            if found.insert((r, a)) {
                waiting.extend(members_of(held.certificate.proposal.previous).map(|p| (r - 1, p)));
            }
        }
    }
    found
}

/// Certificates of the present round, where it is known: by chance, then of
/// those left out, until their authors are a quorum.
fn fill_round(rng: &mut Rng, m: &mut Member) {
    let r = m.round();
    if let Some(committee) = m.committee_of(r).copied() {
        let (some, rest): (Vec<u32>, Vec<u32>) = (0..16).partition(|_| rng.below(5) > 0);
        for a in some.iter().chain(&rest).copied() {
            if committee[a as usize] == 0 || rest.contains(&a) && m.may_advance().is_ok() {
                continue;
            }
            let before = m.held_authors(r - 1);
            let mut previous = before & !(rng.below(65_536) as Set & rng.below(65_536) as Set);
            if previous == 0 {
                previous = before;
            }
            let mut transactions = Vec::new();
            for _ in 0..rng.below(3) {
                transactions.push(match rng.below(4) {
                    0 => unbond(rng.below(16) as u32),
                    1 => entry(rng.below(100) as u32),
                    _ => bond(rng.below(16) as u32, 1 + rng.below(4) as u32),
                });
            }
            let all = (0..16).filter(|&m| committee[m as usize] > 0 && m != a).map(single).fold(0, |x, y| x | y);
            let _ = m.accept(&certificate(a, r, previous, all, &transactions));
        }
    }
}

#[test]
fn shortcuts() {
    let mut rng = Rng(0x1234_5678_9abc_def1);
    let (mut blocks, mut turned) = (0, 0);
    for _ in 0..300 {
        let weights: Vec<u32> = (0..16).map(|_| rng.below(4) as u32).collect();
        let lookback = 1 + rng.below(8) as u32;
        let written = by_margin(sheet(Written(lookback), Written(24), Blank, &weights), 3 + rng.below(3) as u32);
        let Ok(mut m) = Member::open(0, &written, 64) else { continue };
        loop {
            fill_round(&mut rng, &mut m);
            if rng.below(3) > 0 {
                let before = m.chain().len() as u32;
                if let Ok(n) = m.commit() {
                    assert_eq!(m.chain().len() as u32, before + n);
                    blocks += n;
                }
            }
            if m.advance().is_err() {
                break;
            }
        }
        // Committees, histories, marks and the well-formedness of the chain.
        for s in 0..=24 {
            let known = s <= m.last_block_round() + 2;
            assert_eq!(m.bonded_committee(s).is_some(), known);
            if known {
                assert_eq!(*m.bonded_committee(s).unwrap(), plain_bonded(&m, m.chain().len(), s));
            }
        }
        for r in 1..=24 {
            for a in members_of(m.held_authors(r)) {
                let history = m.history(a, r);
                let listed: BTreeSet<_> = (1..=r).flat_map(|q| members_of(history[q as usize]).map(move |b| (q, b))).collect();
                assert_eq!(listed, plain_history(&m, a, r));
            }
        }
        let mut last = 0;
        for (i, block) in m.chain().iter().enumerate() {
            assert!(block.round % 2 == 0 && block.round > last && block.round < 24);
            last = block.round;
            assert_eq!(plain_block(&m, i), block.certificates);
            // The anchor is its only certificate of its round, and the last.
            let (anchor, others) = block.certificates.split_last().unwrap();
            assert_eq!(anchor.0, block.round);
            assert!(others.iter().all(|c| c.0 < block.round));
            let first = block_leader(m.settings(), &m.chain()[..i], block.round);
            assert_eq!(first, Some(anchor.1));
            assert_eq!(first, leader(block.round, m.committee_of(block.round).unwrap()));
            let mut before = block.certificates.clone();
            before.sort();
            turned += u32::from(before != block.certificates);
        }
    }
    assert!(blocks > 300 && turned > 150, "{blocks} {turned}");
}

// ---------------------------------------------- weights that add up (12) ---

/// What each unbond releases, in a list of transactions written by hand.
#[test]
fn released_by_hand() {
    use Transaction::{Bond, Entry, Unbond};
    let mut weights = [0; 16];
    weights[0] = 5;
    let mut book = ledger::Ledger::of(&weights);
    let steps = [
        (Bond { member: 0, amount: 2 }, 0),
        (Entry { number: 1 }, 0),
        // Start and bond.
        (Unbond { member: 0 }, 7),
        (Bond { member: 0, amount: 4 }, 0),
        // Never a member.
        (Unbond { member: 1 }, 0),
        (Bond { member: 1, amount: 3 }, 0),
        // The bond since, and not the start once more; then nothing is left.
        (Unbond { member: 0 }, 4),
        (Unbond { member: 0 }, 0),
        // Bonds on both sides of another's unbond.
        (Bond { member: 1, amount: 1 }, 0),
        (Unbond { member: 1 }, 4),
        (Bond { member: 0, amount: 1_000 }, 0),
    ];
    for (transaction, released) in steps {
        let before = book.whole().2;
        book.enter(&transaction);
        assert_eq!(book.whole().2 - before, released, "{transaction:?}");
    }
    let of = |m: u32| (book.accounts[&m].start, book.accounts[&m].bonded, book.accounts[&m].released, book.accounts[&m].weight());
    assert_eq!((of(0), of(1), of(2)), ((5, 1_006, 11, 1_000), (0, 4, 4, 0), (0, 0, 0, 0)));
    assert_eq!(book.whole(), (5, 1_010, 15));
    assert_eq!((book.unbonds, book.of_start, book.of_bonds, book.of_nothing), (5, 1, 2, 2));
}

/// A run of one heavy member: two commits, and an open that starts afresh.
#[test]
fn weights_by_hand() {
    let run = "open,0,1,64,,100,0,0,0,,,,,,,,,,,,\npropose,0,B,1,5,U,2,0\ncertify,0\nadvance\npropose,1\ncertify,0\nadvance\n\
               propose,1,U,1,0,B,1,7,U,0,0,B,0,90\ncertify,0\ncommit\nadvance\npropose,1\ncertify,0\nadvance\npropose,1\ncertify,0\n\
               commit\ncommit\nopen,0,1,2,,,,,,,,,,,,,,,,,\nopen,0,,,,,,,,,,,,,,,,,,,\nopen,0,,64,,,,,,,,,,,,,,,,,\n";
    let mut figures = ledger::Figures::default();
    figures.stream(&mut run.replace('\n', "\r\n").as_bytes()).unwrap();
    // Two opens and two commits, each time anew: 5 bonded, then 102 bonded and 105 released.
    assert_eq!((figures.commits, figures.read, figures.above), (4, 4, 0));
    assert_eq!((figures.bonded, figures.released, figures.unbonds), (107, 105, [4, 1, 1, 2]));
    assert_eq!((figures.transactions, figures.most), (8, 105));
}

/// The most that a run can weigh: sixteen of the largest weight, each round full,
/// each certificate with four of the largest bonds.
#[test]
fn weights_at_most() {
    assert_eq!(ledger::MOST, 16 * 1_000_000 + 1_024 * 16 * 4 * 1_000);
    let mut written = Sheet::all_blank();
    written.weights = [Setting::Written(1_000_000); 16];
    let mut m = Member::open(0, &written, 1_024).unwrap();
    for round in 1..=1_023 {
        for author in 0..16 {
            let bonds = std::array::from_fn::<_, 4, _>(|k| Transaction::Bond { member: (author + k as u32) % 16, amount: 1_000 });
            let previous = if round == 1 { 0 } else { 0xffff };
            let proposal = Proposal { author, round, previous, transactions: bonds.to_vec() };
            m.accept(&Certificate { proposal, endorsers: !(1 << author) }).unwrap();
        }
        if round % 2 == 1 && round > 1 {
            m.commit().unwrap();
        }
        m.advance().unwrap();
    }
    let mut figures = ledger::Figures::default();
    figures.compare(&m).unwrap();
    // All of rounds up to 1,021, and the anchor of 1,022.
    assert_eq!(figures.most, 16_000_000 + (1_021 * 16 + 1) * 4_000);
    assert_eq!((figures.above, figures.bonded), (1, (1_021 * 16 + 1) * 4_000));
}

// ---------------------------------------- how far a bond moves the shares ---

/// An opened member with these weights.
fn weighing(weights: &[u32]) -> Member {
    let mut all = [0; 16];
    all[..weights.len()].copy_from_slice(weights);
    Member::open(0, &sheet(Written(1), Written(9), Blank, &all), 9).unwrap()
}

/// Sixteen of them, 0 where there is no more.
fn sixteen(some: &[u64]) -> [u64; 16] {
    std::array::from_fn(|m| some.get(m).copied().unwrap_or(0))
}

/// Weights, member, amount; shares before and after, the largest difference, and what
/// it never exceeds.
type Bonded = (&'static [u32], u32, u32, &'static [u64], &'static [u64], u64, u64);

#[rustfmt::skip]
const BONDED: [Bonded; 19] = [
    // A sole member has all before and after, whatever its number.
    (&[5], 0, 3, &[1_000], &[1_000], 0, 376),
    (&[1], 0, 1_000, &[1_000], &[1_000], 0, 1_000),
    (&[1_000_000], 0, 1, &[1_000], &[1_000], 0, 1),
    (&[0, 0, 7], 2, 7, &[0, 0, 1_000], &[0, 0, 1_000], 0, 501),
    // Joining: as a second one, as a fifth, as a sixth of six alike.
    (&[1], 1, 1_000, &[1_000], &[1, 999], 999, 1_000),
    (&[1, 1, 1, 1], 5, 2, &[250, 250, 250, 250], &[167, 167, 167, 167, 0, 333], 333, 334),
    (&[1, 1, 1, 1, 1], 5, 1, &[200; 5], &[167; 6], 167, 167),
    // Adding to what one has.
    (&[1, 1, 1, 1], 0, 2, &[250, 250, 250, 250], &[500, 167, 167, 167], 250, 334),
    (&[1, 999], 0, 1_000, &[1, 999], &[500, 500], 499, 501),
    // Exact halves before: 62.5, 187.5, 312.5, 437.5.
    (&[1, 3, 5, 7], 0, 16, &[62, 188, 312, 438], &[531, 94, 156, 219], 469, 501),
    // After: 62.5, 187.5.
    (&[2, 6, 8], 2, 16, &[125, 375, 500], &[62, 188, 750], 250, 501),
    // On both sides of one bond: 187.5 and 62.5; 62.5 and 687.5.
    (&[3, 1, 12], 1, 32, &[188, 62, 750], &[62, 688, 250], 626, 667),
    // The bonded one's alone: 0 and 562.5; 0 and 437.5.
    (&[14], 1, 18, &[1_000], &[438, 562], 562, 563),
    (&[18], 1, 14, &[1_000], &[562, 438], 438, 438),
    // The bound is met: by the bonded one's rise alone, 666.67; by a fall alone, 985.51 to
    // 971.43, and 987.5 to 975.31; with a bound of 1, by 0.5 to 1.0 and 999.5 to 999.0.
    (&[0, 1, 1], 0, 4, &[0, 500, 500], &[667, 167, 167], 667, 667),
    (&[1, 68], 2, 1, &[14, 986], &[14, 971, 14], 15, 15),
    (&[1, 79], 2, 1, &[12, 988], &[12, 975, 12], 13, 13),
    (&[1, 1_999], 0, 1, &[0, 1_000], &[1, 999], 1, 1),
    // Nobody moves by a thousandth.
    (&[1_000_000, 1_000_000], 2, 999, &[500, 500], &[500, 500], 0, 1),
];

#[test]
fn bonds_by_hand() {
    for (weights, member, amount, before, after, largest, bound) in BONDED {
        let (before, after) = (sixteen(before), sixteen(after));
        let found = weighing(weights).read_effect(member, 1, amount).unwrap();
        assert_eq!(found, Effect { before, after, largest }, "{weights:?}, {amount} by {member}");
        assert_eq!(most_moved(weights.iter().map(|&w| u64::from(w)).sum(), amount), bound);
        assert!(largest <= bound);
        let words = found.words();
        assert_eq!(words.map(u64::from), *[&before[..], &after, &[largest]].concat());
    }
}

/// The largest weights: a full table of bonds has total 81,536,000.
#[test]
fn bonds_to_the_largest_total() {
    let mut c = [5_096_000; 16];
    let mut with = c;
    change(&mut with, &bond(3, 1_000));
    // 62.5 each; 5,096,000 of 81,537,000 is 62.499, one thousand more 62.51.
    let expected = |m: usize| if m == 3 { 63 } else { 62 };
    let found = Effect::between(&c, &with);
    assert_eq!((found.before, found.after, found.largest), ([62; 16], std::array::from_fn(expected), 1));
    assert_eq!(most_moved(total(&c), 1_000), 1);
    c = [0; 16];
    (c[0], c[15]) = (40_768, 81_495_232);
    with = c;
    change(&mut with, &bond(0, 1));
    // 0.5 and 999.5; 0.500012 and 999.499988.
    let found = Effect::between(&c, &with);
    assert_eq!((found.before[0], found.before[15], found.after[0], found.after[15]), (0, 1_000, 1, 999));
    assert_eq!(found.largest, 1);
}

/// Member 0 alone leaves in the block of round 2: rounds up to 3 have it, 4 and 5
/// nobody, 6 is not known. Every combination of what can be wrong, and of what is not.
#[test]
fn an_effect_is_refused_in_its_order() {
    let written = sheet(Written(1), Written(9), Blank, &[4, 0, 0, 0]);
    let mut m = alone(&written, 3, &[unbond(0)]);
    m.commit().unwrap();
    let image = image(&m);
    for member in [0, 1, 15, 16, 17, u32::MAX] {
        for round in [0, 1, 2, 3, 4, 5, 6, 7, 9, 10, 1_024, u32::MAX] {
            for amount in [0, 1, 2, 999, 1_000, 1_001, 65_536, u32::MAX] {
                let refused = [
                    (member > 15, 4),
                    (round == 0 || round > 9, 5),
                    (amount == 0 || amount > 1_000, 6),
                    (round > 5, 8),
                    (round > 3, 30),
                ];
                let first = refused.iter().find(|(wrong, _)| *wrong).map(|&(_, number)| number);
                let found = m.read_effect(member, round, amount);
                assert_eq!(found.err(), first, "member {member}, round {round}, amount {amount}");
                assert_eq!(m.may_effect(member, round, amount).err(), first);
            }
        }
    }
    assert_eq!(format!("{m:?}"), image);
    // One of its block joins: the committee is no longer empty.
    let mut m = alone(&written, 3, &[unbond(0), bond(7, 16)]);
    m.commit().unwrap();
    assert_eq!(m.read_effect(0, 6, 1), Err(8));
    let found = m.read_effect(0, 5, 16).unwrap();
    assert_eq!((found.before[7], found.after[0], found.after[7], found.largest), (1_000, 500, 500, 500));
}

/// The committee is the round's: neither the starting one nor the present round's.
#[test]
fn an_effect_of_another_round() {
    let mut m = alone(&sheet(Written(1), Written(9), Blank, &[4, 0, 0, 0]), 3, &[bond(7, 4), bond(8, 8)]);
    m.commit().unwrap();
    let of = |round| m.read_effect(7, round, 16).unwrap();
    // 4 and 20; then 4, 4, 8 of 16 and 4, 20, 8 of 32.
    assert_eq!((m.round(), of(3).before[0], of(3).after[7], of(3).largest), (3, 1_000, 800, 800));
    for round in [4, 5] {
        let (before, after) = (of(round).before, of(round).after);
        assert_eq!([before[0], before[7], before[8]], [250, 250, 500]);
        assert_eq!([after[0], after[7], after[8]], [125, 625, 250]);
        assert_eq!(of(round).largest, 375);
    }
}

/// Grown members: shares before are those that are read, shares after those of an
/// opening with the weights that the bond leaves; and the bound.
#[test]
fn effects_by_chance() {
    let mut rng = Rng(0x13_b0d5_5eed);
    let (mut accepted, mut joined, mut met) = (0, 0, 0);
    for _ in 0..120 {
        let Some(mut m) = any_member(&mut rng, 4) else { continue };
        loop {
            fill_round(&mut rng, &mut m);
            let _ = m.commit();
            if m.advance().is_err() {
                break;
            }
        }
        for _ in 0..60 {
            let (member, round) = (rng.below(17) as u32, rng.below(u64::from(m.settings().ceiling) + 2) as u32);
            let amount = [1, 2, 16, 1_000, rng.below(1_002) as u32][rng.below(5) as usize];
            let Ok(found) = m.read_effect(member, round, amount) else { continue };
            let committee = m.read_committee(round).unwrap();
            let read = |m: &Member, round| std::array::from_fn(|member| m.read_share(member as u32, round).unwrap_or(0));
            assert_eq!(found.before, read(&m, round));
            let weights = committee.map(|weight| weight as u32);
            let mut with = weighing(&weights);
            with.settings.weights[member as usize] += u64::from(amount);
            assert_eq!(found.after, read(&with, 1));
            let moved = (0..16).map(|m| (found.before[m] as i64 - found.after[m] as i64).abs()).max();
            assert_eq!(moved, Some(found.largest as i64));
            let bound = 1 + (1_000 * u64::from(amount)) / (total(&committee) + u64::from(amount));
            assert!(found.largest <= bound && bound == most_moved(total(&committee), amount));
            accepted += 1;
            joined += u32::from(committee[member as usize] == 0);
            met += u32::from(found.largest == bound);
        }
    }
    assert!(accepted > 1_000 && joined > 100 && met > 10, "{accepted} {joined} {met}");
}

// ----------------------------------------------------------- serial ports ---

/// The example of the rules, and all guests may read.
fn example() -> Member {
    let mut runner = Runner::default();
    for record in EXAMPLE.lines().take(10) {
        runner.answer(read_record(record.as_bytes()).as_ref(), &mut Vec::new());
    }
    let mut m = runner.member.unwrap();
    m.rights = ALL_RIGHTS;
    m
}

const EXAMPLE: &str = include_str!("../example.stream");

/// Its listing without the ok.
const LISTED: &[u8] = b"1,2,1,0,E,7,0\r\n1,2,2,0\r\n";

fn port_read(m: &mut Member, port: u32, offset: u32) -> u8 {
    m.guest_port_read(port, offset).unwrap()
}

fn port_write(m: &mut Member, port: u32, offset: u32, value: u8) {
    m.guest_port_write(port, offset, value).unwrap();
}

/// What a driver receives that polls offset 5.
fn poll(m: &mut Member, port: u32) -> Vec<u8> {
    let mut received = Vec::new();
    while port_read(m, port, 5) & 1 == 1 {
        received.push(port_read(m, port, 0));
        assert!(received.len() < 100_000, "it never ends");
    }
    received
}

/// All eight registers but offset 0.
fn registers(m: &mut Member, port: u32) -> [u8; 7] {
    std::array::from_fn(|at| port_read(m, port, at as u32 + 1))
}

/// A fresh port; every byte in its turn, then 0, also again; a reset; another port.
#[test]
fn a_driver_reads_the_example() {
    let mut m = example();
    assert_eq!(m.listing(), LISTED);
    assert_eq!(registers(&mut m, 3), [0, 1, 0, 0, 0x61, 0, 0]);
    for (k, &byte) in LISTED.iter().enumerate() {
        assert_eq!((port_read(&mut m, 3, 5), port_read(&mut m, 3, 0)), (0x61, byte), "byte {k}");
        assert_eq!(m.ports[3].read, k + 1);
    }
    for _ in 0..3 {
        assert_eq!((port_read(&mut m, 3, 5), port_read(&mut m, 3, 0)), (0x60, 0));
    }
    assert_eq!(m.ports[3].read, LISTED.len());
    assert_eq!(poll(&mut m, 2), LISTED);
    assert_eq!(m.port_reset(3), Ok(()));
    assert_eq!((poll(&mut m, 3), poll(&mut m, 2)), (LISTED.to_vec(), Vec::new()));
}

/// The reader goes on where it stands when blocks come; what it has is a prefix.
#[test]
fn blocks_come_while_it_is_read() {
    let mut m = alone(&sheet(Blank, Written(9), Blank, &[1, 0, 0, 0]), 3, &[entry(7)]);
    m.rights = ALL_RIGHTS;
    assert_eq!(poll(&mut m, 0), b"");
    assert_eq!(m.commit(), Ok(1));
    let mut received: Vec<u8> = (0..5).map(|_| port_read(&mut m, 0, 0)).collect();
    assert_eq!((received.as_slice(), poll(&mut m, 7).as_slice()), (&b"1,2,1"[..], LISTED));
    for r in 4..=5 {
        m.advance().unwrap();
        m.propose(1, &[bond(15, 1_000), entry(u32::MAX)]).unwrap();
        m.certify(0).unwrap();
        assert_eq!(poll(&mut m, 7), b"", "round {r}");
    }
    assert_eq!(m.commit(), Ok(1));
    // Round 3 was not in the first block.
    let more = b"2,4,3,0\r\n2,4,4,0,B,15,1000,E,4294967295,0\r\n";
    received.extend(poll(&mut m, 0));
    assert_eq!(received, [LISTED, more].concat());
    assert_eq!(poll(&mut m, 7), more);
    assert_eq!(m.listing(), received);
}

/// What is written to each offset, and what each reads then.
#[test]
fn registers_by_hand() {
    let mut m = example();
    for value in 0..=255 {
        (0..8).filter(|&offset| offset != 3).for_each(|offset| port_write(&mut m, 6, offset, value));
        let interrupt = if value % 2 == 1 { 4 } else { 1 };
        let (enable, modem) = (value & 0b1, value & 0b1_1111);
        assert_eq!(registers(&mut m, 6), [enable, interrupt, 0, modem, 0x61, 0, value]);
        port_write(&mut m, 6, 3, value);
        assert_eq!(port_read(&mut m, 6, 3), value);
        port_write(&mut m, 6, 3, 0);
    }
    assert_eq!((m.ports[6].read, m.ports[6].divisor), (0, [0, 0]));
    // With bit 7 of offset 3 set: the divisor bytes, and no byte is taken.
    port_write(&mut m, 6, 1, 0xff);
    for value in (0..=255).rev() {
        port_write(&mut m, 6, 3, 0x80 | value);
        port_write(&mut m, 6, 0, value);
        port_write(&mut m, 6, 1, !value);
        assert_eq!((port_read(&mut m, 6, 0), port_read(&mut m, 6, 1)), (value, !value));
        // Offset 2 still tells of the bit that enables, and a byte still waits.
        assert_eq!((port_read(&mut m, 6, 2), port_read(&mut m, 6, 5)), (4, 0x61));
        port_write(&mut m, 6, 3, 0x7f & value);
        assert_eq!(port_read(&mut m, 6, 1), 1);
    }
    assert_eq!(m.ports[6], Port { read: 0, enable: 1, line: 0, modem: 0x1f, scratch: 255, divisor: [0, 255] });
    assert_eq!(poll(&mut m, 6), LISTED);
    // Enabled, and none waits.
    assert_eq!((port_read(&mut m, 6, 1), port_read(&mut m, 6, 2)), (1, 1));
    (0..8).filter(|&port| port != 6).for_each(|port| assert_eq!(m.ports[port], Port::default()));
}

/// A reset is of one port, and of all that it holds; an open is one of every port.
#[test]
fn resets_by_hand() {
    let used = Port { read: 9, enable: 1, line: 0x83, modem: 0x1f, scratch: 7, divisor: [12, 1] };
    let mut m = example();
    m.ports = [used; 8];
    for port in 0..8 {
        assert_eq!(m.port_reset(port), Ok(()));
        for other in 0..8 {
            assert_eq!(m.ports[other as usize], if other <= port { Port::default() } else { used });
        }
    }
    for port in [8, 9, 16, 255, 256, u32::MAX] {
        assert_eq!((may_reset(port), m.port_reset(port)), (Err(26), Err(26)));
    }
    m.ports = [used; 8];
    let mut runner = Runner { member: Some(m) };
    runner.answer(read_record(b"open,16,,64,,1,0,0,0,,,,,,,,,,,,").as_ref(), &mut Vec::new());
    assert_eq!(runner.member.as_ref().unwrap().ports, [used; 8]);
    runner.answer(read_record(b"open,0,,64,,1,0,0,0,,,,,,,,,,,,").as_ref(), &mut Vec::new());
    assert_eq!(runner.member.unwrap().ports, [Port::default(); 8]);
}

/// 26, 29, 31: every combination; a refused access changes nothing, one that is accepted
/// nothing but the caller's port.
#[test]
fn an_access_is_refused_in_its_order() {
    let mut m = example();
    m.rights = given([&[0, 1, 2, 3, 4, 5, 6], &[0], &[1, 7], &[2, 7]]);
    for caller in (0..10).chain([16, 255, 256, u32::MAX]) {
        for offset in (0..10).chain([16, 255, 256, u32::MAX]) {
            let refused = [(caller > 7, 26), (![2, 7].contains(&caller), 29), (offset > 7, 31)];
            let first = refused.iter().find(|(wrong, _)| *wrong).map(|&(_, number)| number);
            assert_eq!(may_access(offset).err(), if offset > 7 { Some(31) } else { None });
            for value in [0, 1, 0x80, 0xff] {
                let mut copy = m.clone();
                assert_eq!(copy.guest_port_read(caller, offset).err(), first, "offset {offset} by {caller}");
                assert_eq!(copy.guest_port_write(caller, offset, value).err(), first, "offset {offset} by {caller}");
                if first.is_none() {
                    copy.ports[caller as usize] = m.ports[caller as usize];
                }
                assert_eq!(image(&copy), image(&m));
            }
        }
    }
}

/// A certificate that is absent takes bytes from the listing that a port has read: that
/// does not count for what a commit hangs on.
#[test]
fn a_port_past_the_end_does_not_count() {
    let mut m = marked(&[0, 1, 1, 1], &[(1, 1, vec![bond(0, 1)]), (2, 1, vec![entry(9)]), (3, 0, vec![])],
                       &[(1, 0b1100, 0, vec![]), (2, 0b1100, 1, vec![]), (3, 0b1100, 0, vec![])]);
    let list = critical(&m, 64);
    assert_eq!(list, Ok(vec![(4, 2)]));
    m.ports[0].read = m.listing().len();
    m.ports[7].read = 1;
    for (author, round) in [(1, 4), (2, 4), (2, 5)] {
        assert!(m.ports[0].read > m.without(author, round).listing().len());
    }
    assert_eq!(critical(&m, 64), list);
}

/// What the registers of a port hold, told by everything that was written to it since
/// its reset, oldest first: the last write that was kept.
fn by_history(written: &[(u32, u8)]) -> Port {
    let mut port = Port::default();
    for (k, &(offset, value)) in written.iter().enumerate() {
        let latch = written[..k].iter().rev().find(|(offset, _)| *offset == 3).is_some_and(|(_, line)| *line > 127);
        match (offset, latch) {
            (0 | 1, true) => port.divisor[offset as usize] = value,
            (1, false) => port.enable = value % 2,
            (3, _) => port.line = value,
            (4, _) => port.modem = value % 32,
            (7, _) => port.scratch = value,
            _ => {}
        }
    }
    port
}

/// Eight ports at once, between all sorts of calls: what each has given is a prefix of
/// the listing, and all of it where none waits; its registers are told by its history;
/// no other call touches a port.
#[test]
fn ports_by_chance() {
    let mut rng = Rng(0x14_5e71_a1c0_ffee);
    let (mut given, mut at_end, mut refused, mut seen) = (0, 0, [0; 32], [[0; 8]; 2]);
    for _ in 0..200 {
        let weights: Vec<u32> = (0..16).map(|m| u32::from(m == 0 || rng.below(5) == 0)).collect();
        let (lookback, ceiling) = (1 + rng.below(6) as u32, 3 + rng.below(9) as u32);
        let mut m = Member::open(0, &sheet(Written(lookback), Written(ceiling), Blank, &weights), 64).unwrap();
        m.rights = std::array::from_fn(|_| [true, true, true, rng.below(6) > 0]);
        let (mut received, mut written) = (vec![Vec::new(); 8], vec![Vec::new(); 8]);
        loop {
            let ports = m.ports;
            fill_round(&mut rng, &mut m);
            let _ = m.commit();
            let over = m.advance().is_err();
            assert_eq!(m.ports, ports);
            for _ in 0..rng.below(150) {
                let (caller, mut offset) = (rng.below(9) as u32, rng.below(9) as u32);
                if rng.below(2) == 0 {
                    offset = [0, 0, 5][rng.below(3) as usize];
                }
                if rng.below(60) == 0 {
                    assert_eq!(m.port_reset(caller).is_ok(), caller < 8);
                    if caller < 8 {
                        (received[caller as usize], written[caller as usize]) = (Vec::new(), Vec::new());
                    }
                    continue;
                }
                // At times to the end.
                let port = caller as usize;
                if rng.below(30) == 0 && port < 8 && m.rights[port][3] && m.ports[port].line < 128 {
                    received[port].extend(poll(&mut m, caller));
                }
                let read = rng.below(4) > 0;
                let value = [0, 1, 0x80, 0xff, rng.below(256) as u8][rng.below(5) as usize];
                let before = m.ports;
                let answer = match read {
                    true => m.guest_port_read(caller, offset),
                    false => m.guest_port_write(caller, offset, value).map(|()| 0),
                };
                let Ok(byte) = answer else {
                    refused[answer.unwrap_err() as usize] += 1;
                    assert_eq!(m.ports, before);
                    continue;
                };
                seen[usize::from(read)][offset as usize] += 1;
                if !read {
                    written[port].push((offset, value));
                }
                if m.ports[port].read > before[port].read {
                    assert!(read && offset == 0);
                    received[port].push(byte);
                    given += 1;
                }
                let listing = m.listing();
                assert!(listing.starts_with(&received[port]));
                at_end += u32::from(received[port] == listing && !listing.is_empty());
                assert_eq!(m.ports[port], Port { read: received[port].len(), ..by_history(&written[port]) });
                assert_eq!(m.guest_port_read(caller, 5), Ok(if received[port] == listing { 0x60 } else { 0x61 }));
            }
            if over {
                break;
            }
        }
    }
    assert!(given > 5_000 && at_end > 100 && [26, 29, 31].iter().all(|&n| refused[n as usize] > 300), "{given} {at_end} {refused:?}");
    assert!(seen.iter().flatten().all(|&n| n > 300), "{seen:?}");
}
