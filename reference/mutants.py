#!/usr/bin/env python3
"""Spoils the reference in one place at a time, and says what tells: the
edge stream and the shuffled streams of seeds 1 to N. No record reads a
share, is a batch, adds to a queue, draws, is a preview, lists what a commit
hangs on, is a guest's, tells what a bond does or accesses a port: wrong rules
of these are given pairs of weight and total, rows of certificates, and streams
with draws, previews, lists, guests' calls, reads of effects and accesses, and
what they answer is compared with naive.py. Wrong ledgers, wrong registers and
committees that do not add up are given seeds 1 to N: it counts in how many the
ledger, and whether a register, is other than the committees, or whether a
register takes what it must refuse. Of queues it also says whether fair finds a
fault, of ports whether received does. Where none of these tells, the unit
tests are asked: no stream comes to hold an outsider, or to a state that no run
reaches.

    mutants.py N [SORT]        (build.sh first; works in the directory target/mutants)

With SORT only that one: share, batch, queue, preview, critical, right, effect, port,
ledger, advance, margin or rule. JOBS says how many are tried at a time.

Six of the changes cannot show in a runner's answers; they are marked same. Status 1
where another is told by nothing, where one of the six is told, and where one cannot
be tried.
"""
import json, os, shutil, subprocess, sys, threading
from concurrent.futures import ThreadPoolExecutor
base = os.path.dirname(os.path.abspath(__file__))
SAME = {4, 12, 45, 46, 49, 52}
M=[
('rules.rs','if votes <= self.fault_bound(committee)','if votes < self.fault_bound(committee)'),
('rules.rs','chain.partition_point(|b| b.round < s)','chain.partition_point(|b| b.round <= s)'),
('rules.rs','s > self.last_block_round() + 2','s > self.last_block_round() + 1'),
('rules.rs','s > self.last_block_round() + 2','s > self.last_block_round() + 3'),
('rules.rs','if r <= self.settings.lookback {','if r < self.settings.lookback {'),
('rules.rs','for (round, history) in taken.into_iter().rev()','for (round, history) in taken.into_iter()'),
('rules.rs','self.proposal == other.proposal','self.proposal == other.proposal && self.endorsers == other.endorsers'),
('rules.rs','members[(round / 2) as usize % members.len()]','members[(round / 2 - 1) as usize % members.len()]'),
('rules.rs','members[(round / 2) as usize % members.len()]','members[round as usize % members.len()]'),
('rules.rs','(n - 1) / u64::from(margin)','n / u64::from(margin)'),
('rules.rs','>= quorum_weight(total(committee), margin)','> quorum_weight(total(committee), margin)'),
('rules.rs','self.endorsed[place(p.author, p.round)] = true;',''),
('rules.rs','self.endorsed[here] = false;',''),
('rules.rs','        self.round += 1;\n        self.proposal = None;','        self.round += 1;'),
('rules.rs','        self.round += 1;\n        self.proposal = None;','        self.round += 1;\n        self.proposal = None;\n        self.endorsed.iter_mut().for_each(|e| *e = false);'),
('rules.rs','                    history = self.history(a, round);\n                    taken.push((round, history.clone()));','                    taken.push((round, self.history(a, round)));'),
('rules.rs','if in_set(history[round as usize], a) {','{'),
('rules.rs','while round > last + 2 {','while round > last + 4 {'),
('rules.rs','while round > last + 2 {','while round > last + 2 && round > 4 {'),
('rules.rs','committee[member as usize] += u64::from(amount)','committee[member as usize] = u64::from(amount)'),
('rules.rs','let committee = self.committee_of(r).ok_or(8u32)?;\n        let anchor','let committee = self.committee_of(r - 1).ok_or(8u32)?;\n        let anchor'),
('rules.rs','            let before = self.committee_of(p.round - 1).ok_or(8u32)?;','            let before = self.committee_of(p.round).ok_or(8u32)?;'),
('rules.rs','            let before = self.committee_of(r - 1).ok_or(8u32)?;','            let before = self.committee_of(r).ok_or(8u32)?;'),
('rules.rs','if self.proposal.is_some() || self.is_held(self.own, r)','if self.proposal.is_some()'),
('rules.rs','self.is_held(p.author, p.round) || self.is_endorsed(p.author, p.round)','self.is_endorsed(p.author, p.round)'),
('rules.rs','        if p.round > 1 && !self.all_held(p.previous, p.round - 1) {\n            return Err(11);\n        }',''),
('rules.rs','transactions.len() <= self.settings.allowance as usize','transactions.len() < self.settings.allowance as usize + 2'),
('rules.rs','Transaction::Unbond { member } => committee[member as usize] = 0,','Transaction::Unbond { .. } => {}'),
('rules.rs','                    if held.block == 0 {','                    if held.block == 0 || r == 1 {'),
('rules.rs','(round, (author + MEMBERS - first) % MEMBERS)','(round, (first + MEMBERS - author) % MEMBERS)'),
('rules.rs','votes += committee[a as usize];','votes += 1;'),
('rules.rs','members_of(set).map(|m| committee[m as usize]).sum()','members_of(set).map(|m| committee[m as usize].min(1)).sum()'),
('rules.rs','if in_set(held.certificate.proposal.previous, anchor) {','{'),
('rules.rs','self.last_block_round() >= r - 1','self.last_block_round() > r - 1'),
('rules.rs','        if settings.ceiling > serves {\n            return Err(1);\n        }',''),
('rules.rs','(1..=1_000).contains(&amount)','(0..=1_000).contains(&amount)'),
('rules.rs','(1..=1_000).contains(&amount)','(1..=1_001).contains(&amount)'),
('rules.rs','            Transaction::Unbond { member } => member < MEMBERS,','            Transaction::Unbond { .. } => true,'),
('rules.rs','below.last().map_or(settings.weights, |b| b.after)','settings.weights'),
('rules.rs','if self.is_held(leader, round) { Some(leader) } else { None }','Some(leader)'),
('runner.rs','text.len() + 2 > LONGEST','text.len() + 2 >= LONGEST'),
('runner.rs','kept.len() + part.len() > LONGEST','kept.len() + part.len() >= LONGEST'),
('runner.rs',"(b\"U\", 0) =>","(b\"U\", _) =>"),
('runner.rs',"(b\"E\", 0) =>","(b\"E\", _) =>"),
('runner.rs',"|| (field.len() > 1 && field[0] == b'0')",""),
('runner.rs',"b == b'\"' || ",""),
('runner.rs','            after_cr = false;\n',''),
('runner.rs','    if long || !kept.is_empty() {\n        handle(None)?;','    if long || !kept.is_empty() {\n        if long {handle(None)?} else {handle(Some(&kept))?}'),
('runner.rs','Err(number) => Outcome::Refused(number),\n            };\n        }\n        let Some(member)','Err(number) => { self.member = None; Outcome::Refused(number) }\n            };\n        }\n        let Some(member)'),
# order of checks
('rules.rs','''        if self.proposal.is_some() || self.is_held(self.own, r) {
            return Err(10);
        }
        let committee = self.committee_of(r).ok_or(8u32)?;''','''        let committee = self.committee_of(r).ok_or(8u32)?;
        if self.proposal.is_some() || self.is_held(self.own, r) {
            return Err(10);
        }'''),
('rules.rs','''        if !inside(c.signers(), committee) {
            return Err(9);
        }
        if !self.is_quorum(c.signers(), committee) {
            return Err(13);
        }
        if p.round > 1 && !self.all_held(p.previous, p.round - 1) {
            return Err(11);
        }''','''        if !inside(c.signers(), committee) {
            return Err(9);
        }
        if p.round > 1 && !self.all_held(p.previous, p.round - 1) {
            return Err(11);
        }
        if !self.is_quorum(c.signers(), committee) {
            return Err(13);
        }'''),
('rules.rs','''            let before = self.committee_of(p.round - 1).ok_or(8u32)?;
            if !self.all_held(p.previous, p.round - 1) {
                return Err(11);
            }''','''            if !self.all_held(p.previous, p.round - 1) {
                return Err(11);
            }
            let before = self.committee_of(p.round - 1).ok_or(8u32)?;'''),
('rules.rs','''        if r % 2 == 0 || r == 1 {
            return Err(19);
        }
        if self.last_block_round() >= r - 1 {
            return Err(20);
        }''','''        if r > 1 && self.last_block_round() >= r - 1 {
            return Err(20);
        }
        if r % 2 == 0 || r == 1 {
            return Err(19);
        }'''),
('rules.rs','''        if self.is_held(self.own, self.round) {
            return Err(10);
        }
        if in_set(endorsers, self.own) {
            return Err(14);
        }''','''        if in_set(endorsers, self.own) {
            return Err(14);
        }
        if self.is_held(self.own, self.round) {
            return Err(10);
        }'''),
('rules.rs','let Some(proposal) = &self.proposal else {\n            return Err(15);\n        };\n        if self.is_held(self.own, self.round) {\n            return Err(10);\n        }','if self.is_held(self.own, self.round) {\n            return Err(10);\n        }\n        let Some(proposal) = &self.proposal else {\n            return Err(15);\n        };'),
('rules.rs','''        let committee = self.committee_of(r).ok_or(8u32)?;
        let anchor = self.anchor(r - 1).ok_or(21u32)?;''','''        let anchor = self.anchor(r - 1).ok_or(21u32)?;
        let committee = self.committee_of(r).ok_or(8u32)?;'''),
('rules.rs','''        self.held[place(self.own, self.round)] = Some(Held { certificate, block: 0 });
        Ok(())''','''        self.held[place(self.own, self.round)] = Some(Held { certificate, block: 0 });
        self.proposal = None;
        Ok(())'''),
# order inside a block: that by round, then author; of it alone the committees, the listing
('rules.rs','let first = leader.unwrap_or(0);','let first = leader.map_or(0, |_| 0);'),
('rules.rs','for &(r, a) in &certificates {','let mut before = certificates.clone();\n        before.sort();\n        for &(r, a) in &before {'),
('rules.rs','        Block { round, certificates, after }\n','        certificates.sort();\n        Block { round, certificates, after }\n'),
# rounds fall; numbers before rounds; one after the leader; back down from 0
('rules.rs','(round, (author + MEMBERS - first) % MEMBERS)','(u32::MAX - round, (author + MEMBERS - first) % MEMBERS)'),
('rules.rs','(round, (author + MEMBERS - first) % MEMBERS)','((author + MEMBERS - first) % MEMBERS, round)'),
('rules.rs','let first = leader.unwrap_or(0);','let first = leader.map_or(0, |l| (l + 1) % MEMBERS);'),
('rules.rs','(round, (author + MEMBERS - first) % MEMBERS)','(round, if author < first { 2 * MEMBERS - author } else { author })'),
# another number for each round
('rules.rs','(round, (author + MEMBERS - first) % MEMBERS)','(round, (author + 65 * MEMBERS - first - round) % MEMBERS)'),
# by the chain so far, by that with the block, by the starting weights
('rules.rs','leader(round, bonded_by(settings, below, round - settings.lookback))','leader(round, bonded_by(settings, below, round))'),
('rules.rs','        put_in_order(&mut certificates, block_leader(settings, below, round));\n','''        let mut with = below.last().map_or(settings.weights, |b| b.after);
        for &(r, a) in certificates.iter() {
            for t in &held[place(a, r)].as_ref().unwrap().certificate.proposal.transactions {
                change(&mut with, t);
            }
        }
        put_in_order(&mut certificates, leader(round, &with));
'''),
('rules.rs','leader(round, bonded_by(settings, below, round - settings.lookback))','leader(round, &settings.weights)'),
# the leader of the next even round; the first member of the committee
('rules.rs','leader(round, bonded_by(settings, below, round - settings.lookback))','leader(round + 2, bonded_by(settings, below, round - settings.lookback))'),
('rules.rs','leader(round, bonded_by(settings, below, round - settings.lookback))','leader(0, bonded_by(settings, below, round - settings.lookback))'),
('rules.rs','        leader(round, &settings.weights)\n','        leader(0, &settings.weights)\n'),
]
# wrong rules of shares
S=[
# halves upward, downward, to the odd one
('Ordering::Equal => if below % 2 == 0 { below } else { above },','Ordering::Equal => above,'),
('Ordering::Equal => if below % 2 == 0 { below } else { above },','Ordering::Equal => below,'),
('if below % 2 == 0 { below }','if below % 2 == 1 { below }'),
# even by the weight, by the total's half, by the rest
('if below % 2 == 0 { below }','if weight % 2 == 0 { below }'),
('if below % 2 == 0 { below }','if n / 2 % 2 == 0 { below }'),
('if below % 2 == 0 { below }','if rest % 2 == 0 { below }'),
# a rest above the half dropped, any rest upward, all to the even one
('Ordering::Greater => above,','Ordering::Greater => below,'),
('Ordering::Less => below,','Ordering::Less => if rest == 0 { below } else { above },'),
('Ordering::Greater => above,','Ordering::Greater => if below % 2 == 0 { below } else { above },'),
# the half of n rounded down; halves of one rest beside, on both sides
('(2 * rest).cmp(&n)','rest.cmp(&(n / 2))'),
('(2 * rest).cmp(&n)','(2 * rest + 1).cmp(&n)'),
('(2 * rest).cmp(&n)','(2 * rest).cmp(&(n + 1))'),
# hundredths, 32 bits
('(1_000 * weight / n, 1_000 * weight % n)','(100 * weight / n, 100 * weight % n)'),
('(1_000 * weight / n, 1_000 * weight % n)','((1_000 * weight & 0xffff_ffff) / n, (1_000 * weight & 0xffff_ffff) % n)'),
]
# wrong rules of batches
B=[
# author before round, newest first, as they stand, the later of equals first
('(c.proposal.round, c.proposal.author)','(c.proposal.author, c.proposal.round)'),
('(c.proposal.round, c.proposal.author)','(u32::MAX - c.proposal.round, c.proposal.author)'),
('(c.proposal.round, c.proposal.author)','0'),
('        for i in turns {\n            let answer','        turns.reverse();\n        turns.sort_by_key(|&i| row[i].as_ref().map(|c| (c.proposal.round, c.proposal.author)));\n        for i in turns {\n            let answer'),
# answers in the order of the turns; accepted is 1; 65 let in, 64 refused
('        for i in turns {\n            let answer = row[i].as_ref()','        for (i, j) in turns.into_iter().enumerate() {\n            let answer = row[j].as_ref()'),
('answer.err().unwrap_or(0)','answer.err().unwrap_or(1)'),
('pub const MOST_RECORDS: usize = 64;','pub const MOST_RECORDS: usize = 65;'),
('pub const MOST_RECORDS: usize = 64;','pub const MOST_RECORDS: usize = 63;'),
# words that cannot be read
('map_or(Err(1), |certificate|','map_or(Ok(()), |certificate|'),
('map_or(Err(1), |certificate|','map_or(Err(24), |certificate|'),
# signers weighed by 3 whatever the margin
('self.accept(certificate));\n            answers[i]','''{
                let margin = std::mem::replace(&mut self.settings.margin, 3);
                let answer = self.accept(certificate);
                self.settings.margin = margin;
                answer
            });
            answers[i]'''),
]
# wrong rules of queues
Q=[
# the youngest; from the guest served last, from 0, downward; one lap, laps of two
('self.queues[guest as usize].get(nth)','self.queues[guest as usize].iter().nth_back(nth)'),
('self.served.map_or(0, |guest| guest + 1)','self.served.unwrap_or(0)'),
('self.served.map_or(0, |guest| guest + 1)','self.served.map_or(0, |_| 0)'),
('(first + step) % GUESTS','(first + GUESTS - step) % GUESTS'),
('for nth in 0..QUEUE {','for nth in 0..1 {'),
('                if let Some(transaction) = self.queues[guest as usize].get(nth) {\n                    drawn.push((guest, *transaction));\n',
 '                for transaction in self.queues[guest as usize].iter().skip(2 * nth).take(2) {\n                    drawn.push((guest, *transaction));\n'),
# at first with 1; over the allowance, one less
('self.served.map_or(0, |guest| guest + 1)','self.served.map_or(1, |guest| guest + 1)'),
('drawn.truncate(self.settings.allowance as usize)','drawn.truncate(self.settings.allowance as usize + 1)'),
('drawn.truncate(self.settings.allowance as usize)','drawn.truncate((self.settings.allowance as usize).saturating_sub(1))'),
# the first is served last; nobody; the last of a queue leaves; nothing leaves; with nothing drawn nobody was served
('        for guest in guests {\n','        for guest in guests.into_iter().rev() {\n'),
('            self.served = Some(guest);\n',''),
('self.queues[guest as usize].pop_front();','self.queues[guest as usize].pop_back();'),
('            self.queues[guest as usize].pop_front();\n',''),
('        for guest in guests {\n','        self.served = None;\n        for guest in guests {\n'),
# leaves before the checks
('        self.may_draw(previous)?;\n','''        if self.may_draw(previous).is_err() {
            self.drawn().into_iter().for_each(|(guest, _)| _ = self.queues[guest as usize].pop_front());
        }
        self.may_draw(previous)?;
'''),
('        self.may_draw(previous)?;\n','''        let last = self.drawn().last().map(|(guest, _)| *guest);
        let answer = self.may_draw(previous);
        self.served = last.filter(|_| answer.is_err()).or(self.served);
        answer?;
'''),
# a queue of nine, of seven; guests 0 to 8, to 6; 27 before 6, 6 before 26
('self.waiting(guest) >= QUEUE','self.waiting(guest) > QUEUE'),
('self.waiting(guest) >= QUEUE','self.waiting(guest) + 1 >= QUEUE'),
('if guest >= GUESTS {','if guest > GUESTS {'),
('if guest >= GUESTS {','if guest >= GUESTS - 1 {'),
('''        if !transaction.in_range() {
            return Err(6);
        }
        if self.waiting(guest) >= QUEUE {
            return Err(27);
        }''','''        if self.waiting(guest) >= QUEUE {
            return Err(27);
        }
        if !transaction.in_range() {
            return Err(6);
        }'''),
('''        if guest >= GUESTS {
            return Err(26);
        }
        if !transaction.in_range() {
            return Err(6);
        }''','''        if !transaction.in_range() {
            return Err(6);
        }
        if guest >= GUESTS {
            return Err(26);
        }'''),
# the previous set of a draw weighed by 3 whatever the margin
('''        self.may_draw(previous)?;
        let (guests, transactions): (Vec<_>, Vec<_>) = self.drawn().into_iter().unzip();
        self.propose(previous, &transactions)?;
''','''        let margin = std::mem::replace(&mut self.settings.margin, 3);
        let answer = self.may_draw(previous);
        let (guests, transactions): (Vec<_>, Vec<_>) = self.drawn().into_iter().unzip();
        let answer = answer.and_then(|()| self.propose(previous, &transactions));
        self.settings.margin = margin;
        answer?;
'''),
# the youngest first in the queue; a transaction out of range let in
('push_back(*transaction)','push_front(*transaction)'),
('        if !transaction.in_range() {\n            return Err(6);\n        }\n        if self.waiting','        if self.waiting'),
]
# wrong rules of advance
QUORUM = 'if !self.is_quorum(self.held_authors(r), committee) {\n            return Err(28);'
CEILING = '        if r == self.settings.ceiling {\n            return Err(18);\n        }\n'
KNOWN = '        let committee = self.committee_of(r).ok_or(8u32)?;\n'
THIN = '        if !self.is_quorum(self.held_authors(r), committee) {\n            return Err(28);\n        }\n'
A=[
# none; by weight alone, inside or not; more than a quorum's weight; more than the fault bound; by heads
(THIN, ''),
('!self.is_quorum(self.held_authors(r), committee)', 'weight_of(self.held_authors(r), committee) < quorum_weight(total(committee), self.settings.margin)'),
('!self.is_quorum(self.held_authors(r), committee)', '!inside(self.held_authors(r), committee) || weight_of(self.held_authors(r), committee) <= quorum_weight(total(committee), self.settings.margin)'),
('!self.is_quorum(self.held_authors(r), committee)', 'weight_of(self.held_authors(r), committee) <= self.fault_bound(committee)'),
('!self.is_quorum(self.held_authors(r), committee)', '!self.is_quorum(self.held_authors(r), &committee.map(|w| w.min(1)))'),
# the committee of the round before, of the round after, the starting one, that of the chain's end
(KNOWN + THIN, KNOWN + THIN.replace('committee)', 'self.committee_of(r.max(2) - 1).unwrap_or(committee))')),
(KNOWN + THIN, KNOWN + THIN.replace('committee)', 'self.committee_of(r + 1).unwrap_or(committee))')),
(KNOWN + THIN, KNOWN + THIN.replace('committee)', '&self.settings.weights)')),
(KNOWN + THIN, KNOWN + THIN.replace('committee)', 'self.chain.last().map_or(&self.settings.weights, |b| &b.after))')),
# 8 for the round before, for the round after
(KNOWN + THIN, KNOWN.replace('(r)', '(r.max(2) - 1)') + THIN),
(KNOWN + THIN, '        self.committee_of(r + 1).ok_or(8u32)?;\n' + KNOWN + THIN),
# the certificates of the round before, of the round after
('is_quorum(self.held_authors(r), committee)', 'is_quorum(self.held_authors(r.max(2) - 1), committee)'),
('is_quorum(self.held_authors(r), committee)', 'is_quorum(self.held_authors(r + 1), committee)'),
# endorsed places, held or endorsed ones, one's own proposal with them; all signers
('is_quorum(self.held_authors(r), committee)', 'is_quorum((0..MEMBERS).filter(|&a| self.is_endorsed(a, r)).map(single).fold(0, |x, y| x | y), committee)'),
('is_quorum(self.held_authors(r), committee)', 'is_quorum((0..MEMBERS).filter(|&a| committee[a as usize] > 0 && self.is_endorsed(a, r)).map(single).fold(self.held_authors(r), |x, y| x | y), committee)'),
('is_quorum(self.held_authors(r), committee)', 'is_quorum(self.held_authors(r) | self.proposal.as_ref().map_or(0, |p| single(p.author)), committee)'),
('is_quorum(self.held_authors(r), committee)', 'is_quorum(members_of(self.held_authors(r)).map(|a| self.held_at(a, r).unwrap().certificate.signers()).fold(0, |x, y| x | y), committee)'),
# one's own certificate asked for, that of the leader; nothing asked of one outside
(QUORUM, QUORUM.replace(' {', ' || !self.is_held(self.own, r) {', 1)),
(QUORUM, QUORUM.replace(' {', ' || r % 2 == 0 && self.anchor(r).is_none() {', 1)),
(QUORUM, QUORUM.replace('if ', 'if committee[self.own as usize] > 0 && ', 1)),
# an empty committee refused; even rounds alone, odd rounds alone, round 1 left out
(QUORUM, QUORUM.replace(' {', ' || total(committee) == 0 {', 1)),
(QUORUM, QUORUM.replace('if ', 'if r % 2 == 0 && ', 1)),
(QUORUM, QUORUM.replace('if ', 'if r % 2 == 1 && ', 1)),
(QUORUM, QUORUM.replace('if ', 'if r > 1 && ', 1)),
# 28 for an unknown round, 8 for a thin one, each for the other; an unknown round passed
(KNOWN + THIN, KNOWN.replace('8u32', '28u32') + THIN),
(KNOWN + THIN, KNOWN + THIN.replace('28', '8')),
(KNOWN + THIN, KNOWN.replace('8u32', '28u32') + THIN.replace('28', '8')),
(KNOWN + THIN, KNOWN.replace('let committee = self.committee_of(r).ok_or(8u32)?', 'let Some(committee) = self.committee_of(r) else { return Ok(()) }') + THIN),
# 8 before 18; 28 before 18; both
(CEILING + KNOWN, KNOWN + CEILING),
(CEILING + KNOWN + THIN, THIN.replace('!self.is_quorum(self.held_authors(r), committee)', 'self.committee_of(r).is_some_and(|c| !self.is_quorum(self.held_authors(r), c))') + CEILING + KNOWN),
(CEILING + KNOWN + THIN, KNOWN + THIN + CEILING),
# refused, the proposal dropped all the same; refused, the round left all the same; accepted, the proposal kept
('        self.may_advance()?;\n        self.round += 1;\n        self.proposal = None;', '        self.proposal = None;\n        self.may_advance()?;\n        self.round += 1;'),
('        self.may_advance()?;\n        self.round += 1;\n        self.proposal = None;', '        let answer = self.may_advance();\n        self.round += u32::from(answer != Err(18));\n        self.proposal = None;\n        answer?;'),
('        self.may_advance()?;\n        self.round += 1;\n        self.proposal = None;', '        self.may_advance()?;\n        self.round += 1;'),
]
# wrong rules of the margin
BOUND = 'fault_bound(total(committee), self.settings.margin)'
RANGE = 'let margin = one(self.margin, 3, 5, 3)?;'
BY_SHEET = '        let settings = sheet.fill()?; // 2\n'
FIRST = '        if own >= MEMBERS {\n            return Err(4);\n        }\n' + BY_SHEET
LATER = '        let later = Sheet { margin: Setting::Blank, ..*sheet }.fill()?;\n'
NO_WEIGHT = '        if later.weights.iter().all(|&w| w == 0) {\n            return Err(3);\n        }\n'
TOO_LARGE = '        if later.ceiling > serves {\n            return Err(1);\n        }\n'
FIELD = 'map_or(Some(Setting::Blank), |field| read_setting(field))?;'
OWN = '            let own = read_number(rest[0])?;\n'
OPENED = '            return match Member::open(*own, sheet, SERVES) {\n'
NOT_OPENED = 'Err(number) => Outcome::Refused(number),\n            };\n        }\n        let Some(member)'
G=[
# by 3 whatever the margin: votes; all quorums; both
('rules.rs', BOUND, BOUND.replace('self.settings.margin', '3')),
('rules.rs', 'is_quorum(set, committee, self.settings.margin)', 'is_quorum(set, committee, 3)'),
('rules.rs', RANGE, RANGE.replace('?;', '?.min(3);')),
# by 3: the signers of certify, of accept; the previous set of propose, of endorse; the authors of advance
('rules.rs', '!self.is_quorum(certificate.signers(), committee)', '!is_quorum(certificate.signers(), committee, 3)'),
('rules.rs', '!self.is_quorum(c.signers(), committee)', '!is_quorum(c.signers(), committee, 3)'),
('rules.rs', '!self.is_quorum(previous, before)', '!is_quorum(previous, before, 3)'),
('rules.rs', '!self.is_quorum(p.previous, before)', '!is_quorum(p.previous, before, 3)'),
('rules.rs', '!self.is_quorum(self.held_authors(r), committee)', '!is_quorum(self.held_authors(r), committee, 3)'),
# by 5 whatever the margin: votes, quorums; 4 taken as 5, 5 as 4
('rules.rs', BOUND, BOUND.replace('self.settings.margin', '5')),
('rules.rs', 'is_quorum(set, committee, self.settings.margin)', 'is_quorum(set, committee, 5)'),
('rules.rs', RANGE, RANGE + '\n        let margin = if margin == 4 { 5 } else { margin };'),
('rules.rs', RANGE, RANGE.replace('?;', '?.min(4);')),
# 2 let in, 6 let in, any number above 3; 3 refused, 5 refused
('rules.rs', RANGE, RANGE.replace('3, 5, 3', '2, 5, 3')),
('rules.rs', RANGE, RANGE.replace('3, 5, 3', '3, 6, 3')),
('rules.rs', RANGE, RANGE.replace('3, 5, 3', '3, u32::MAX, 3')),
('rules.rs', RANGE, RANGE.replace('3, 5, 3', '4, 5, 3')),
('rules.rs', RANGE, RANGE.replace('3, 5, 3', '3, 4, 3')),
# blank means 4, 5
('rules.rs', RANGE, RANGE.replace('3, 5, 3', '3, 5, 4')),
('rules.rs', RANGE, RANGE.replace('3, 5, 3', '3, 5, 5')),
# out of range: the nearest, blank
('rules.rs', RANGE, 'let margin = one(self.margin, 0, u32::MAX, 3)?.clamp(3, 5);'),
('rules.rs', RANGE, 'let margin = one(self.margin, 3, 5, 3).unwrap_or(3);'),
# the bound rounded up, to the nearest; of the starting total; quorums of n / margin, of 2 f + 1, of two thirds
('rules.rs', '(n - 1) / u64::from(margin)', '(n - 1).div_ceil(u64::from(margin))'),
('rules.rs', '(n - 1) / u64::from(margin)', '(n - 1 + u64::from(margin) / 2) / u64::from(margin)'),
('rules.rs', BOUND, BOUND.replace('committee', '&self.settings.weights')),
('rules.rs', 'n - fault_bound(n, margin)', 'n - n / u64::from(margin)'),
('rules.rs', 'n - fault_bound(n, margin)', '(2 * fault_bound(n, margin) + 1).min(n)'),
('rules.rs', 'n - fault_bound(n, margin)', '(2 * n / 3 + 1).min(n) + 0 * u64::from(margin)'),
# 2 of the margin before 4, after 3, after 1
('rules.rs', FIRST, '        if matches!(sheet.margin, Setting::Written(0..=2 | 6..)) {\n            return Err(2);\n        }\n' + FIRST),
('rules.rs', BY_SHEET, LATER + NO_WEIGHT + BY_SHEET),
('rules.rs', BY_SHEET, LATER + NO_WEIGHT + TOO_LARGE + BY_SHEET),
# the margin first; 22 fields let in, any number of them; 21 refused, 20 refused
('runner.rs', OWN, OWN + '            let mut turned = rest.to_vec();\n            turned[1..].rotate_left(usize::from(rest.len() == 21));\n            let rest = &turned[..];\n'),
('runner.rs', '(b"open", 20 | 21)', '(b"open", 20..=22)'),
('runner.rs', '(b"open", 20 | 21)', '(b"open", 20..)'),
('runner.rs', '(b"open", 20 | 21)', '(b"open", 20)'),
('runner.rs', '(b"open", 20 | 21)', '(b"open", 21)'),
# a blank field refused; no number taken as blank; read and left; 24 for one out of range; left out, the last weight is it
('runner.rs', FIELD, FIELD.replace('read_setting(field)', 'read_number(field).map(Setting::Written)')),
('runner.rs', FIELD, FIELD.replace('read_setting(field)', 'Some(read_setting(field).unwrap_or(Setting::Blank))')),
('runner.rs', FIELD, FIELD.replace('read_setting(field)', 'read_setting(field).map(|_| Setting::Blank)')),
('runner.rs', FIELD, FIELD.replace('read_setting(field)', 'read_setting(field).filter(|s| !matches!(s, Setting::Written(0..=2 | 6..)))')),
('runner.rs', FIELD, FIELD.replace('map_or', 'or(rest.get(19)).map_or')),
# a blank keeps the margin of the open before; a refused open changes it
('runner.rs', OPENED, '''            let mut sheet = *sheet;
            if let (Setting::Blank, Some(before)) = (sheet.margin, &self.member) {
                sheet.margin = Setting::Written(before.settings.margin);
            }
            let sheet = &sheet;
''' + OPENED),
('runner.rs', NOT_OPENED, NOT_OPENED.replace('Outcome::Refused(number),', '''{
                    if let (Some(member), Setting::Written(margin @ 3..=5)) = (&mut self.member, sheet.margin) {
                        member.settings.margin = margin;
                    }
                    Outcome::Refused(number)
                }''')),
]
# wrong previews
NUMBERED = '(1..).zip(&copy.chain).skip(self.chain.len())'
EACH = 'for &(round, author) in &block.certificates {\n                let place'
PLACES = 'words / ENTRY < (MEMBERS * self.settings.ceiling) as usize'
SHORT = '        if ' + PLACES + ' {\n            return Err(25);\n        }\n'
COUNT = '        Ok(count)\n    }\n\n    // ---- what a commit hangs on'
# The whole history of a block's anchor, as far as a condition goes.
WHOLE = '''let anchor = block.certificates[block.certificates.len() - 1];
            let history = self.history(anchor.1, anchor.0);
            let mut whole: Vec<(u32, u32)> =
                (1..=anchor.0).flat_map(|r| members_of(history[r as usize]).map(move |a| (r, a))).collect();
            whole.retain(|&(r, a)| %s);
            put_in_order(&mut whole, Some(anchor.1));
            for &(round, author) in &whole {
                let place'''
P=[
# newest block first; the newest alone, the oldest alone; the blocks of before as well
(NUMBERED, NUMBERED + '.collect::<Vec<_>>().into_iter().rev()'),
(NUMBERED, NUMBERED.replace('self.chain.len()', 'copy.chain.len() - 1')),
(NUMBERED, NUMBERED + '.take(1)'),
(NUMBERED, '(1..).zip(&copy.chain)'),
# the same block for every anchor; what older anchors of the commit have not left out; old marks not asked
(EACH, EACH.replace('block.', 'copy.chain[self.chain.len()].')),
(EACH, WHOLE % 'self.held_at(a, r).unwrap().block == 0'),
(EACH, WHOLE % 'copy.held_at(a, r).unwrap().block == number || self.held_at(a, r).unwrap().block > 0'),
# block numbers from 1, from 0, one too low, one too high, one for all
('&[number, round, author]', '&[number - self.chain.len() as u32, round, author]'),
('&[number, round, author]', '&[number - self.chain.len() as u32 - 1, round, author]'),
('&[number, round, author]', '&[number - 1, round, author]'),
('&[number, round, author]', '&[number + 1, round, author]'),
('&[number, round, author]', '&[self.chain.len() as u32 + 1, round, author]'),
# round and author swapped, the number last, the round of the block
('&[number, round, author]', '&[number, author, round]'),
('&[number, round, author]', '&[round, author, number]'),
('&[number, round, author]', '&[number, block.round, author]'),
# by round, then author; the anchor left out, the anchor first
(EACH, EACH.replace('for', 'let mut before = block.certificates.clone();\n            before.sort();\n            for')
 .replace('&block.certificates {', '&before {')),
(EACH, EACH.replace('block.certificates {', 'block.certificates[..block.certificates.len() - 1] {')),
(EACH, EACH.replace('for', 'let mut turned = block.certificates.clone();\n            turned.rotate_right(1);\n            for')
 .replace('&block.certificates {', '&turned {')),
# the count of words, of blocks, one more
(COUNT, COUNT.replace('Ok(count)', 'Ok(count * ENTRY as u32)')),
(COUNT, COUNT.replace('Ok(count)', 'Ok((copy.chain.len() - self.chain.len()) as u32)')),
(COUNT, COUNT.replace('Ok(count)', 'Ok(count + 1)')),
# one round short; 15 places a round, 17; words for places; a started place counted; one more asked for; by the present round
(PLACES, PLACES.replace('self.settings.ceiling', '(self.settings.ceiling - 1)')),
(PLACES, PLACES.replace('MEMBERS', '15')),
(PLACES, PLACES.replace('MEMBERS', '17')),
(PLACES, PLACES.replace('words / ENTRY', 'words')),
(PLACES, PLACES.replace('words / ENTRY', 'words.div_ceil(ENTRY)')),
(PLACES, PLACES.replace(' < ', ' <= ')),
(PLACES, PLACES.replace('self.settings.ceiling', 'self.round')),
# 25 after commit's; none; 1 in its place
(SHORT + '        self.may_commit().map(|_| ())\n', '        self.may_commit()?;\n' + SHORT + '        Ok(())\n'),
(SHORT, ''),
(SHORT, SHORT.replace('25', '1')),
# votes weighed by 3 whatever the margin
('        self.may_preview(list.len())?;\n        let mut copy = self.clone();\n',
 '        let mut copy = self.clone();\n        copy.settings.margin = 3;\n        copy.may_preview(list.len())?;\n'),
# the rest cleared; refused, a word written
(COUNT, '        places.for_each(|place| place.fill(0));\n' + COUNT),
('        self.may_preview(list.len())?;\n',
 '        list.iter_mut().take(1).for_each(|word| *word = 0);\n        self.may_preview(list.len())?;\n'),
]
# wrong lists of what a commit hangs on
FEW = '        if words / PAIR < PAIRS {\n            return Err(25);\n        }\n'
LIST = '        self.may_critical(list.len())?;\n'
ROUNDS = 'for round in [self.round - 1, self.round] {'
EACH_OF = 'for author in members_of(self.held_authors(round)) {\n                if self'
ABSENT = 'self.without(author, round).may_commit().is_err()'
LOOP = '        let mut count = 0;\n        ' + ROUNDS + '\n            ' + EACH_OF + ABSENT[len('self'):]
WRITTEN = 'place.copy_from_slice(&[round, author]);'
LISTED = '        Ok(count)\n    }\n\n    // ---- reads'
GONE = '        copy.held[place(author, round)] = None;\n'
AGAIN = '            copy.chain.push(Block::on(&copy.chain, &copy.settings, block.round, certificates, &copy.held));\n'
# By the votes where a certificate is in no block, with %s for the anchor, for a vote, and for what remains of them.
BY_VOTES = '''{
                    let (r, anchor) = (self.round, self.may_commit()?);
                    let committee = self.committee_of(r).unwrap();
                    let votes = |a: u32| self.held_at(a, r).is_some_and(|held| in_set(held.certificate.proposal.previous, anchor));
                    let left: u64 = (0..MEMBERS).filter(|&a| a != author && votes(a)).map(|a| committee[a as usize]).sum();
                    if in_block { absent } else if round < r { %s } else { %s && %s }
                }'''.replace('in_block', 'self.held_at(author, round).unwrap().block > 0').replace('absent', ABSENT)
DECIDES = 'left <= self.fault_bound(committee)'


def by_votes(anchor='author == anchor', vote='votes(author)', decides=DECIDES):
    return BY_VOTES % (anchor, vote, decides)


K=[
# by the votes alone, in a block or not: only the unit tests can tell
(ABSENT, by_votes().replace('.block > 0', '.block > u32::MAX - 1')),
# what remains is the bound and taken as enough; one above the bound; against a quorum; by 3; by heads; the bound without that member
(ABSENT, by_votes(decides=DECIDES.replace('<=', '<'))),
(ABSENT, by_votes(decides=DECIDES + ' + 1')),
(ABSENT, by_votes(decides='left < quorum_weight(total(committee), self.settings.margin)')),
(ABSENT, by_votes(decides='left <= fault_bound(total(committee), 3)')),
(ABSENT, by_votes(decides='(0..MEMBERS).filter(|&a| a != author && votes(a)).count() as u64 <= self.fault_bound(committee)')),
(ABSENT, by_votes(decides='left <= fault_bound(total(committee) - committee[author as usize], self.settings.margin)')),
# no anchor; all of its round; the anchor alone; every vote; all of the present round
(ABSENT, by_votes(anchor='false')),
(ABSENT, by_votes(anchor='true')),
(ABSENT, by_votes(vote='false')),
(ABSENT, by_votes(decides='true')),
(ABSENT, by_votes(vote='true', decides='true')),
# the anchor where its author is inside in the present round; both certificates of one author gone
(ABSENT, by_votes(anchor='author == anchor && committee[author as usize] > 0')),
(ABSENT, 'self.without(author, self.round - 1).without(author, self.round).may_commit().is_err()'),
# refused with 21 alone, with 22 alone; those that the commit can spare
(ABSENT, ABSENT.replace('.is_err()', ' == Err(21)')),
(ABSENT, ABSENT.replace('.is_err()', ' == Err(22)')),
(ABSENT, ABSENT.replace('is_err', 'is_ok')),
# absent and still in its block; its bonds gone and it is held; the chain of before; the order of before; weights of the starting
(GONE, '        let absent = copy.held[place(author, round)].take();\n        if absent.as_ref().is_some_and(|held| held.block > 0) {\n            copy.chain = self.chain.clone();\n            return copy;\n        }\n'),
(GONE, '        copy.held[place(author, round)].as_mut().unwrap().block = 0;\n'),
(AGAIN, AGAIN + '''            let (at, mut after) = (copy.chain.len() - 1, copy.chain.iter().rev().nth(1).map_or(copy.settings.weights, |b| b.after));
            for &(r, a) in block.certificates.iter().filter(|&&one| one != (round, author)) {
                copy.held_at(a, r).unwrap().certificate.proposal.transactions.iter().for_each(|t| change(&mut after, t));
            }
            copy.chain[at].after = after;
'''),
(AGAIN, AGAIN + '            copy.chain.last_mut().unwrap().after = block.after;\n'),
# one after another, not put back
(LOOP, '        let mut rest = self.clone();\n' + LOOP.replace(ABSENT, '{ rest = rest.without(author, round); rest.may_commit().is_err() }')),
# the present round alone, the round before alone, the present round first, one round more, one less
(ROUNDS, 'for round in [self.round] {'),
(ROUNDS, 'for round in [self.round - 1] {'),
(ROUNDS, 'for round in [self.round, self.round - 1] {'),
(ROUNDS, 'for round in [self.round, (self.round + 1).min(self.settings.ceiling)] {'),
(ROUNDS, 'for round in [self.round - 2, self.round - 1] {'),
# authors falling, from the one after the anchor, only one's own, not one's own
(EACH_OF, EACH_OF.replace('members_of(self.held_authors(round))', 'members_of(self.held_authors(round)).collect::<Vec<_>>().into_iter().rev()')),
(EACH_OF, EACH_OF.replace('members_of(self.held_authors(round))', '(0..MEMBERS).map(|step| (self.may_commit().unwrap() + step) % MEMBERS).filter(|&a| self.is_held(a, round))')),
(EACH_OF, EACH_OF.replace('if self', 'if author == self.own && self')),
(EACH_OF, EACH_OF.replace('if self', 'if author != self.own && self')),
# author, then round; the present round for both; counted from 1
(WRITTEN, WRITTEN.replace('round, author', 'author, round')),
(WRITTEN, WRITTEN.replace('round, author', 'self.round, author')),
(WRITTEN, WRITTEN.replace('author]', 'author + 1]')),
# the count of words, without the anchor, one more
(LISTED, LISTED.replace('Ok(count)', 'Ok(count * PAIR as u32)')),
(LISTED, LISTED.replace('Ok(count)', 'Ok(count - u32::from(count > 0))')),
(LISTED, LISTED.replace('Ok(count)', 'Ok(count + 1)')),
# 31 places, 33, 16; words for places; a started place counted; three words a place; 16 a round of the ceiling
(FEW, FEW.replace('PAIRS', 'PAIRS - 1')),
(FEW, FEW.replace(' < ', ' <= ')),
(FEW, FEW.replace('PAIRS', 'PAIRS / 2')),
(FEW, FEW.replace('words / PAIR ', 'words ')),
(FEW, FEW.replace('words / PAIR ', 'words.div_ceil(PAIR) ')),
(FEW, FEW.replace('words / PAIR ', 'words / ENTRY ')),
(FEW, FEW.replace('PAIRS', '(MEMBERS * self.settings.ceiling) as usize')),
# 25 after commit's; none; 1 in its place
(FEW + '        self.may_commit().map(|_| ())\n', '        self.may_commit()?;\n' + FEW + '        Ok(())\n'),
(FEW, ''),
(FEW, FEW.replace('25', '1')),
# weighed by 3 whatever the margin, in what is asked again
(ABSENT, '{ let mut copy = self.without(author, round); copy.settings.margin = 3; copy.may_commit().is_err() }'),
# the rest cleared; refused, a word written
(LISTED, '        places.for_each(|place| place.fill(0));\n' + LISTED),
(LIST, '        list.iter_mut().take(1).for_each(|word| *word = 0);\n' + LIST),
]
# wrong rights
ABOVE = "rights.get(caller as usize).ok_or(26u32)?"
HAS = "of_caller[request.needs() as usize]"
LACKS = "    if !" + HAS + " {\n        return Err(29);\n    }\n"
SIGN = "Request::Endorse | Request::Certify | Request::Accept | Request::Batch => Right::Sign"
READ = "Request::Committee | Request::Share | Request::Certificate | Request::Block => Right::Read"
ASK = "        may_ask(&self.rights, caller, request)?;\n        call(self)\n"
W=[
# the right of a neighbour, of the next, of anybody; callers above 7 taken as below, caller 8 as 0
(ABOVE, "rights.get((caller ^ 1) as usize).ok_or(26u32)?"),
(ABOVE, "{\n        rights.get(caller as usize).ok_or(26u32)?;\n        &rights[(caller as usize + 1) % 8]\n    }"),
(LACKS, "    let _ = of_caller;\n    if !rights.iter().any(|one| one[request.needs() as usize]) {\n        return Err(29);\n    }\n"),
(ABOVE, "&rights[caller as usize % 8]"),
(ABOVE, "rights.get(caller as usize % 9 % 8).ok_or(26u32)?"),
# 29 for 26, 26 for 29, 1 for 29; no right asked; any right of the caller, all four, none; the next right
(ABOVE, ABOVE.replace("26", "29")),
(LACKS, LACKS.replace("29", "26")),
(LACKS, LACKS.replace("29", "1")),
(LACKS, "    let _ = of_caller;\n"),
("!" + HAS, "!of_caller.contains(&true)"),
("!" + HAS, "of_caller.contains(&false)"),
("!" + HAS, HAS),
(HAS, "of_caller[(request.needs() as usize + 1) % 4]"),
(HAS, "of_caller[3 - request.needs() as usize]"),
# another right for a call
("Request::Propose | Request::Draw | Request::Enqueue => Right::Propose", "Request::Propose | Request::Draw | Request::Enqueue => Right::Sign"),
("Request::Propose | Request::Draw | Request::Enqueue => Right::Propose", "Request::Propose | Request::Draw => Right::Propose,\n            Request::Enqueue => Right::Sign"),
("Request::Propose | Request::Draw | Request::Enqueue => Right::Propose", "Request::Propose | Request::Enqueue => Right::Propose,\n            Request::Draw => Right::Drive"),
(SIGN, SIGN.replace("Sign", "Propose")),
(SIGN, SIGN.replace(" | Request::Batch", "") + ",\n            Request::Batch => Right::Drive"),
(SIGN, SIGN.replace(" | Request::Accept", "") + ",\n            Request::Accept => Right::Propose"),
(SIGN, SIGN.replace("Request::Endorse | ", "") + ",\n            Request::Endorse => Right::Propose"),
(SIGN, SIGN.replace(" | Request::Certify", "") + ",\n            Request::Certify => Right::Propose"),
("Request::Advance | Request::Commit => Right::Drive", "Request::Advance | Request::Commit => Right::Sign"),
("Request::Advance | Request::Commit => Right::Drive", "Request::Advance => Right::Drive,\n            Request::Commit => Right::Read"),
(READ, READ.replace("Right::Read", "Right::Drive")),
(READ, READ.replace(" | Request::Block", "") + ",\n            Request::Block => Right::Propose"),
("Request::Preview | Request::Critical => Right::Read", "Request::Preview | Request::Critical => Right::Drive"),
("Request::Preview | Request::Critical => Right::Read", "Request::Preview => Right::Drive,\n            Request::Critical => Right::Read"),
("Request::Effect => Right::Read", "Request::Effect => Right::Propose"),
("Request::PortRead | Request::PortWrite => Right::Read", "Request::PortRead | Request::PortWrite => Right::Drive"),
("Request::PortRead | Request::PortWrite => Right::Read", "Request::PortRead => Right::Read,\n            Request::PortWrite => Right::Propose"),
# the call before the right; refused all the same, it was made; by the host's own rights, by those of nobody
(ASK, "        let answer = call(self)?;\n        may_ask(&self.rights, caller, request)?;\n        Ok(answer)\n"),
(ASK, "        let may = may_ask(&self.rights, caller, request);\n        let answer = call(self);\n        may?;\n        answer\n"),
(ASK, "        let _ = (caller, request);\n        call(self)\n"),
(ASK, ASK.replace("&self.rights", "&NO_RIGHTS")),
# rights that change: used up, given by a call that is accepted, gone with the proposal, with a block
(ASK, "        may_ask(&self.rights, caller, request)?;\n        self.rights[caller as usize][request.needs() as usize] = false;\n        call(self)\n"),
(ASK, "        may_ask(&self.rights, caller, request)?;\n        self.rights[caller as usize] = [true; 4];\n        call(self)\n"),
("        self.round += 1;\n        self.proposal = None;", "        self.round += 1;\n        self.rights = NO_RIGHTS;\n        self.proposal = None;"),
("        let anchor = self.may_commit()?;\n        let last", "        let anchor = self.may_commit()?;\n        self.rights.rotate_left(1);\n        let last"),
# an open gives none, all
("            rights: *rights,\n", "            rights: if rights == &NO_RIGHTS { *rights } else { NO_RIGHTS },\n"),
("            rights: *rights,\n", "            rights: [[rights[0][0] || true; 4]; 8],\n"),
]
# wrong effects of a bond: the checks in their order, the bond, the shares, the largest difference, the words
MAY = "    pub fn may_effect(&self, member: u32, round: u32, amount: u32) -> Answer<&Committee> {\n"
OF_MEMBER = "        if member >= MEMBERS {\n            return Err(4);\n        }\n"
OF_ROUND = "        if !self.round_in_range(round) {\n            return Err(5);\n        }\n"
OF_AMOUNT = "        if amount == 0 || amount > 1_000 {\n            return Err(6);\n        }\n"
OF_KNOWN = "        let committee = self.committee_of(round).ok_or(8u32)?;\n"
OF_NOBODY = "        if total(committee) == 0 {\n            return Err(30);\n        }\n"
CHECKS = MAY + OF_MEMBER + OF_ROUND + OF_AMOUNT + OF_KNOWN + OF_NOBODY
OUTSIDE = "        if committee[member as usize] == 0 {\n            return Err(9);\n        }\n"
LEFT_EMPTY = "        if self.chain.last().is_some_and(|block| total(&block.after) == 0) && round > 3 {\n            return Err(30);\n        }\n"
BOND = "        change(&mut after, &Transaction::Bond { member, amount });\n"
BETWEEN = "        Ok(Effect::between(before, &after))\n"
OF_TOTAL = "        let shares = |of: &Committee| of.map(|weight| nearest_thousandth(weight, total(of)));\n"
TOLD = "Effect { before, after, largest: moved.max().expect(\"sixteen of them\") }"
SHARE = "off(*s) < n || off(*s) == n && s % 2 == 0"
WORDS = "self.before.iter().chain(&self.after).chain([&self.largest])"


def largest(what):
    """Another largest difference, told from the shares before and after."""
    return "        let effect = Effect::between(before, &after);\n        Ok(Effect { largest: " + what + ", ..effect })\n"


def checked(*checks):
    return CHECKS, MAY + "".join(checks)


E=[
# before and after exchanged; the total not raised, raised twice, that of the others alone
(TOLD, TOLD.replace("before, after,", "before: after, after: before,")),
(OF_TOTAL, "        let n = total(before);\n        let shares = |of: &Committee| of.map(|weight| nearest_thousandth(weight.min(n), n));\n"),
(OF_TOTAL, "        let twice = total(after) - total(before);\n        let shares = |of: &Committee| of.map(|weight| nearest_thousandth(weight, total(of) + if of == after { twice } else { 0 }));\n"),
(OF_TOTAL, "        let n = total(after);\n        let shares = |of: &Committee| of.map(|weight| nearest_thousandth(weight, n));\n"),
# no bond, twice, by another, in the place of the weight, to all, one more, one less
(BOND, ""),
(BOND, BOND + BOND),
(BOND, BOND.replace("{ member,", "{ member: member ^ 1,")),
(BOND, "        after[member as usize] = u64::from(amount);\n"),
(BOND, "        after.iter_mut().for_each(|weight| *weight += u64::from(amount));\n"),
(BOND, BOND.replace("amount }", "amount: amount + 1 }")),
(BOND, "        change(&mut after, &Transaction::Unbond { member });\n" + BOND),
# who joins stays outside; who is a member does not get more
(BOND, "        if after[member as usize] > 0 {\n    " + BOND + "        }\n"),
(BOND, "        if after[member as usize] == 0 {\n    " + BOND + "        }\n"),
# the bonded member's difference alone, that of the others, falls not seen, rises not seen
(BETWEEN, largest("effect.before[member as usize].abs_diff(effect.after[member as usize])")),
(BETWEEN, largest("(0..16).filter(|m| *m != member as usize).map(|m| effect.before[m].abs_diff(effect.after[m])).max().unwrap_or(0)")),
("one.abs_diff(*other)", "other.saturating_sub(*one)"),
("one.abs_diff(*other)", "one.saturating_sub(*other)"),
# the smallest, their sum, without member 15, without member 0, of sorted shares, what it never exceeds
("moved.max()", "moved.min()"),
("moved.max()", "moved.reduce(|all, one| all + one)"),
("moved.max()", "moved.take(15).max()"),
("moved.max()", "moved.skip(1).max()"),
(BETWEEN, largest("effect.before.iter().max().unwrap().abs_diff(*effect.after.iter().max().unwrap())")),
(BETWEEN, largest("most_moved(total(before), amount)")),
# halves upward, downward, to the odd one; cut, any rest upward; 0 for a share of 0.5 and less is 1; 999 at most
(SHARE, "off(*s) < n || off(*s) == n && u128::from(2 * s) * n > 2_000 * u128::from(weight)"),
(SHARE, "off(*s) <= n"),
(SHARE, "off(*s) < n || off(*s) == n && s % 2 == 1"),
(SHARE, "u128::from(*s + 1) * n > 1_000 * u128::from(weight)"),
(SHARE, "u128::from(*s) * n >= 1_000 * u128::from(weight)"),
("(0..=1_000).find(is_share)", "(u64::from(weight > 0)..=1_000).find(|s| *s == 1 && off(0) <= n || is_share(s))"),
("(0..=1_000).find(is_share)", "(0..=999).find(is_share).or(Some(999))"),
# an amount of 0, of 1,001, any; not 1, not 1,000
checked(OF_MEMBER, OF_ROUND, OF_AMOUNT.replace("amount == 0 || ", ""), OF_KNOWN, OF_NOBODY),
checked(OF_MEMBER, OF_ROUND, OF_AMOUNT.replace("1_000", "1_001"), OF_KNOWN, OF_NOBODY),
checked(OF_MEMBER, OF_ROUND, OF_KNOWN, OF_NOBODY),
checked(OF_MEMBER, OF_ROUND, OF_AMOUNT.replace("== 0", "<= 1"), OF_KNOWN, OF_NOBODY),
checked(OF_MEMBER, OF_ROUND, OF_AMOUNT.replace(">", ">="), OF_KNOWN, OF_NOBODY),
# 5 before 4; 6 before 5, before 4; 8 before 6, before 5; 30 before 6, before 8, and as 8
checked(OF_ROUND, OF_MEMBER, OF_AMOUNT, OF_KNOWN, OF_NOBODY),
checked(OF_MEMBER, OF_AMOUNT, OF_ROUND, OF_KNOWN, OF_NOBODY),
checked(OF_AMOUNT, OF_MEMBER, OF_ROUND, OF_KNOWN, OF_NOBODY),
checked(OF_MEMBER, OF_ROUND, OF_KNOWN, OF_AMOUNT, OF_NOBODY),
checked(OF_MEMBER, OF_KNOWN, OF_ROUND, OF_AMOUNT, OF_NOBODY),
checked(OF_MEMBER, OF_ROUND, OF_KNOWN, OF_NOBODY, OF_AMOUNT),
checked(OF_MEMBER, OF_ROUND, OF_AMOUNT, LEFT_EMPTY, OF_KNOWN, OF_NOBODY),
checked(OF_MEMBER, OF_ROUND, OF_AMOUNT, OF_KNOWN, OF_NOBODY.replace("30", "8")),
# an empty committee let in, refused with 9; a non-member refused with 9, before 30 and after it; with 30
checked(OF_MEMBER, OF_ROUND, OF_AMOUNT, OF_KNOWN),
checked(OF_MEMBER, OF_ROUND, OF_AMOUNT, OF_KNOWN, OF_NOBODY.replace("30", "9")),
checked(OF_MEMBER, OF_ROUND, OF_AMOUNT, OF_KNOWN, OUTSIDE, OF_NOBODY),
checked(OF_MEMBER, OF_ROUND, OF_AMOUNT, OF_KNOWN, OF_NOBODY, OUTSIDE),
checked(OF_MEMBER, OF_ROUND, OF_AMOUNT, OF_KNOWN, OUTSIDE.replace("9", "30")),
# member 15 refused, 16 let in; round 0 let in, the ceiling's refused
checked(OF_MEMBER.replace("MEMBERS", "MEMBERS - 1"), OF_ROUND, OF_AMOUNT, OF_KNOWN, OF_NOBODY),
checked(OF_MEMBER.replace(">=", ">"), OF_ROUND, OF_AMOUNT, OF_KNOWN, OF_NOBODY),
checked(OF_MEMBER, OF_ROUND.replace("(round)", "(round.max(1))"), OF_AMOUNT, OF_KNOWN, OF_NOBODY),
checked(OF_MEMBER, OF_ROUND.replace("(round)", "(round.saturating_add(1))"), OF_AMOUNT, OF_KNOWN, OF_NOBODY),
# another round's committee: the next one's, the one's before, the present one's, the starting one; that of all blocks
checked(OF_MEMBER, OF_ROUND, OF_AMOUNT, OF_KNOWN.replace("(round)", "(round + 1)"), OF_NOBODY),
checked(OF_MEMBER, OF_ROUND, OF_AMOUNT, OF_KNOWN, OF_KNOWN.replace("(round)", "(round - 1)"), OF_NOBODY),
checked(OF_MEMBER, OF_ROUND, OF_AMOUNT, OF_KNOWN, OF_KNOWN.replace("(round)", "(self.round)"), OF_NOBODY),
checked(OF_MEMBER, OF_ROUND, OF_AMOUNT, OF_KNOWN, OF_NOBODY, "        let committee = &self.settings.weights;\n"),
checked(OF_MEMBER, OF_ROUND, OF_AMOUNT, OF_KNOWN, OF_NOBODY, "        let committee = self.chain.last().map_or(committee, |block| &block.after);\n"),
# words: after first, the largest first, by member, members from behind, without the largest
(WORDS, "self.after.iter().chain(&self.before).chain([&self.largest])"),
(WORDS, "[&self.largest].into_iter().chain(&self.before).chain(&self.after)"),
(WORDS, "self.before.iter().zip(&self.after).flat_map(|(one, other)| [one, other]).chain([&self.largest])"),
(WORDS, "self.before.iter().rev().chain(self.after.iter().rev()).chain([&self.largest])"),
(WORDS, WORDS.replace("&self.largest", "&0")),
# what it never exceeds: without the 1, by the total before, by half the amount
("    1 + 1_000 * u64::from(k) /", "    1_000 * u64::from(k) /"),
("/ (n + u64::from(k))", "/ n"),
("    1 + 1_000 * u64::from(k) /", "    1 + 500 * u64::from(k) /"),
]
# wrong ports: the checks, what is read of the listing, the registers, the divisor, resets, the listing itself
ABOVE_7 = "    if offset >= OFFSETS {\n        return Err(31);\n    }\n"
NO_PORT = "    if port >= GUESTS {\n        return Err(26);\n    }\n"
SHOWN = "self.line & DIVISOR != 0"
TAKEN = "        self.read += usize::from(byte.is_some());\n"
WAITS = "let waits = self.waiting(listing).is_some();"
LATCHED = "0 | 1 if self.shows_divisor() => self.divisor[offset as usize],"
LATCHES = "0 | 1 if self.shows_divisor() => self.divisor[offset as usize] = value,"
CLEARED = "        self.ports[port as usize] = Port::default();\n"
OF_CALLER = "member.ports[caller as usize].read_at(offset, &listing)"
TO_CALLER = "member.ports[caller as usize].write_at(offset, value);"
FRESH = "            ports: [Port::default(); GUESTS as usize],\n"
U=[('ports.rs', *row) for row in [
# 31 for offset 7, 8 let in, 26 or 1 in its place, none; 26 of a reset for port 7, 8 taken as 0, 31 in its place
(ABOVE_7, ABOVE_7.replace("OFFSETS", "OFFSETS - 1")),
(ABOVE_7, ABOVE_7.replace(">=", ">")),
(ABOVE_7, ABOVE_7.replace("31", "26")),
(ABOVE_7, ABOVE_7.replace("31", "1")),
(ABOVE_7, ""),
(NO_PORT, NO_PORT.replace("GUESTS", "GUESTS - 1")),
(NO_PORT, NO_PORT.replace("26", "31")),
(NO_PORT + "    Ok(())\n}\n\nimpl Port", "    let _ = port;\n    Ok(())\n}\n\nimpl Port"),
# the byte stays, two go, the count goes on with none waiting; the byte before, the byte after
(TAKEN, ""),
(TAKEN, TAKEN.replace("usize::from(", "2 * usize::from(")),
(TAKEN, "        self.read += 1;\n"),
("listing.get(self.read).copied()", "listing.get(self.read.wrapping_sub(1)).copied()"),
("listing.get(self.read).copied()", "listing.get(self.read + 1).copied()"),
# the last byte never waits; nothing waits before a whole line, or in the first block alone
("listing.get(self.read).copied()", "listing[..listing.len().saturating_sub(1)].get(self.read).copied()"),
("listing.get(self.read).copied()", "listing[self.read.min(listing.len())..].first().copied().filter(|byte| *byte != b'\\r')"),
# at the end the last byte again, a line feed, from the start
("byte.unwrap_or(0)", "byte.unwrap_or(listing.last().copied().unwrap_or(0))"),
("byte.unwrap_or(0)", "byte.unwrap_or(b'\\n')"),
("byte.unwrap_or(0)", "byte.unwrap_or_else(|| { self.read = 0; 0 })"),
# with the divisor a byte is taken all the same; the divisor by another bit, by any, the other way; never
(LATCHED, "0 | 1 if self.shows_divisor() => { self.take(listing); self.divisor[offset as usize] }"),
(SHOWN, "self.line & 0x40 != 0"),
(SHOWN, "self.line != 0"),
(SHOWN, "self.line & DIVISOR == 0"),
(SHOWN, "false"),
# the two bytes exchanged, one byte, read where it is not shown, written where it is not
(LATCHED, LATCHED.replace("[offset as usize]", "[1 - offset as usize]")),
(LATCHES, LATCHES.replace("[offset as usize]", "[0]")),
(LATCHED, LATCHED.replace("0 | 1", "0") + "\n            1 => self.divisor[1],"),
(LATCHES, LATCHES.replace(" if self.shows_divisor()", "")),
(LATCHES, "0 if self.shows_divisor() => self.divisor[0] = value,"),
# the divisor bits go with a write to offset 3
("3 => self.line = value,", "3 => {\n                self.line = value;\n                self.divisor = [0; 2];\n            }"),
# a write to offset 0 resets, goes to the scratch register
("            1 => self.enable = value & 1,\n", "            0 => self.read = 0,\n            1 => self.enable = value & 1,\n"),
("            1 => self.enable = value & 1,\n", "            0 => self.scratch = value,\n            1 => self.enable = value & 1,\n"),
# enable: all bits, bit 1, set for good, four bits
("value & 1,", "value,"),
("value & 1,", "value >> 1 & 1,"),
("self.enable = value & 1,", "self.enable |= value & 1,"),
("value & 1,", "value & 15,"),
# offset 2: 4 whenever a byte waits, whenever enabled, 5, 0 for 1, 2 for 4; not while the divisor is shown; taken by a read
("self.enable == 1 && waits", "waits"),
("self.enable == 1 && waits", "self.enable == 1"),
("{ 4 } else { 1 }", "{ 5 } else { 1 }"),
("{ 4 } else { 1 }", "{ 4 } else { 0 }"),
("{ 4 } else { 1 }", "{ 2 } else { 1 }"),
("self.enable == 1 && waits", "self.enable == 1 && waits && !self.shows_divisor()"),
("2 => if self.enable == 1 && waits { 4 }", "2 => if self.enable == 1 && waits { self.enable = 0; 4 }"),
# offset 2 written: a register of its own in later chips
("3 => self.line = value,", "2 => self.modem = value & 0x1f,\n            3 => self.line = value,"),
# offset 3: seven bits; offset 4: eight, four; offset 7: seven, the one's complement
("3 => self.line = value,", "3 => self.line = value & 0x7f,"),
("value & 0x1f", "value"),
("value & 0x1f", "value & 0x0f"),
("7 => self.scratch = value,", "7 => self.scratch = value & 0x7f,"),
("7 => self.scratch = value,", "7 => {}"),
# offset 5: 0x20, 0x40, 0x60 without the bit, the bit the other way, 0 with none; takes a byte; written
("0x60 + u8::from(waits)", "0x20 + u8::from(waits)"),
("0x60 + u8::from(waits)", "0x40 + u8::from(waits)"),
("0x60 + u8::from(waits)", "0x60"),
("0x60 + u8::from(waits)", "0x60 + u8::from(!waits)"),
("0x60 + u8::from(waits)", "if waits { 0x61 } else { 0 }"),
("5 => 0x60 + u8::from(waits),", "5 => {\n                self.take(listing);\n                0x60 + u8::from(waits)\n            }"),
("7 => self.scratch = value,", "5..=7 => self.scratch = value,"),
# offset 6: that of a line that is there, what was written to 4; offsets 4 and 7 exchanged
("6 => 0,", "6 => 0xb0,"),
("6 => 0,", "6 => self.modem,"),
("4 => self.modem,", "4 => self.scratch,"),
# of another guest's port: the next, port 0
(OF_CALLER, OF_CALLER.replace("caller as usize", "caller as usize ^ 1")),
(OF_CALLER, OF_CALLER.replace("caller as usize", "0")),
(TO_CALLER, TO_CALLER.replace("caller as usize", "caller as usize ^ 1")),
(TO_CALLER, "member.ports.iter_mut().for_each(|port| port.write_at(offset, value));"),
# a reset keeps the place, the scratch register, the divisor, as the chip does; is of all ports; of another
(CLEARED, "        self.ports[port as usize] = Port { read: self.ports[port as usize].read, ..Port::default() };\n"),
(CLEARED, "        self.ports[port as usize] = Port { scratch: self.ports[port as usize].scratch, ..Port::default() };\n"),
(CLEARED, "        self.ports[port as usize] = Port { divisor: self.ports[port as usize].divisor, ..Port::default() };\n"),
(CLEARED, "        self.ports[port as usize].read = 0;\n"),
(CLEARED, "        self.ports = [Port::default(); GUESTS as usize];\n"),
(CLEARED, CLEARED.replace("port as usize", "port as usize ^ 1")),
(CLEARED, ""),
# 31 before the right
("            may_access(offset)?;\n            let listing", "            let listing"),
]] + [
# lines: LF alone, a header, without the block, the block's round twice, a closing ok
('listing.rs', 'b"\\r\\n"', 'b"\\n"'),
('listing.rs', '"{},{},{},{}", i + 1, block.round,', '"{},{},{},{}", i, block.round,'),
('listing.rs', 'block.round, round, author)', 'block.round, block.round, author)'),
('listing.rs', 'flat_map(|line| line.bytes).collect()', 'flat_map(|line| line.bytes).chain(*b"ok\\r\\n").collect()'),
('listing.rs', 'self.lines().into_iter()', 'self.lines().into_iter().rev()'),
('listing.rs', 'write!(out, ",U,{member},0")', 'write!(out, ",U,{member}")'),
# a commit, an advance resets; a commit sends readers to the end
('rules.rs', '        let anchor = self.may_commit()?;\n        let last', '        let anchor = self.may_commit()?;\n        self.ports.iter_mut().for_each(|port| port.read = 0);\n        let last'),
('rules.rs', '        self.round += 1;\n        self.proposal = None;', '        self.round += 1;\n        self.ports = [Port::default(); 8];\n        self.proposal = None;'),
('rules.rs', '        let anchor = self.may_commit()?;\n        let last', '        let anchor = self.may_commit()?;\n        let end = self.listing().len();\n        self.ports.iter_mut().for_each(|port| port.read = end);\n        let last'),
# an open that leaves a register set
('rules.rs', FRESH, '            ports: [Port { scratch: 1, ..Port::default() }; GUESTS as usize],\n'),
# old certificates go to a new block: what was read is no prefix
('rules.rs', '                    if held.block == 0 {', '                    if held.block == 0 || r == 1 {'),
# what a commit hangs on counts a port past the end
('rules.rs', 'self.without(author, round).may_commit().is_err()', '{ let copy = self.without(author, round); copy.may_commit().is_err() || copy.ports.iter().any(|port| port.read > copy.listing().len()) }'),
]
# wrong ledgers, wrong registers, committees that do not add up
RELEASED = "let released = account.since + start;"
ORDER = "(line.0, line.1, (line.2 + MEMBERS - firsts[line.0 as usize]) % MEMBERS)"
ANCHORS = "if len(anchors) != 1:"
SORTED = "if turns != sorted(turns):"
L=[
# starting weight not released; released by every unbond; bonds before the last unbond released again
('ledger.rs', "if account.unbonded { 0 } else { account.start }", "0"),
('ledger.rs', "if account.unbonded { 0 } else { account.start }", "account.start"),
('ledger.rs', "                account.since = 0;\n", ""),
# only the bonds since, of the last one alone; nothing for one who never was a member
('ledger.rs', "account.since += u64::from(amount);", "account.since = u64::from(amount);"),
('ledger.rs', RELEASED, "let released = if account.start == 0 { 0 } else { account.since + start };"),
# another member's unbond counts: of the next number, of anybody
('ledger.rs', "Transaction::Unbond { member } => {\n                let account = self.accounts.get_mut(&member)", "Transaction::Unbond { member } => {\n                let account = self.accounts.get_mut(&(member ^ 1))"),
('ledger.rs', "                account.unbonded = true;\n", "                self.accounts.values_mut().for_each(|one| one.unbonded = true);\n"),
('ledger.rs', "                account.since = 0;\n", "                account.since = 0;\n                let (since, before) = (0, member.wrapping_sub(1));\n                self.accounts.entry(before).and_modify(|one| one.since = since);\n                let account = self.accounts.get_mut(&member).expect(\"a member\");\n"),
# the last block not counted; rising order, falling order, from the first member's number
('ledger.rs', "            if number == 0 {", "            if number == 0 || number as usize == blocks.len() {"),
('ledger.rs', ORDER, "(line.0, line.1, line.2)"),
('ledger.rs', ORDER, "(line.0, line.1, MEMBERS - line.2)"),
('ledger.rs', ORDER, ORDER.replace("firsts[line.0 as usize]", "firsts[line.0 as usize] - 1 ")),
# by author, then round; the newest block first; the round of the block
('ledger.rs', ORDER, "(line.0, (line.2 + MEMBERS - firsts[line.0 as usize]) % MEMBERS, line.1)"),
('ledger.rs', ORDER, "(u32::MAX - line.0, line.1, (line.2 + MEMBERS - firsts[line.0 as usize]) % MEMBERS)"),
('ledger.rs', "settings.lookback + last + 1;", "settings.lookback + last;"),
# bonds that replace, unbonds that leave one or do nothing, blocks that forget the ones before
('rules.rs', 'committee[member as usize] += u64::from(amount)', 'committee[member as usize] = u64::from(amount)'),
('rules.rs', 'Transaction::Unbond { member } => committee[member as usize] = 0,', 'Transaction::Unbond { member } => committee[member as usize] = committee[member as usize].min(1),'),
('rules.rs', 'Transaction::Unbond { member } => committee[member as usize] = 0,', 'Transaction::Unbond { .. } => {}'),
('rules.rs', 'below.last().map_or(settings.weights, |b| b.after)', 'settings.weights'),
# registers
('register.py', "return self.starting[member] + self.bonds.get(member, 0)", "return self.bonds.get(member, 0)"),
('register.py', "            return self.since[member]\n", "            return self.starting[member] + self.since[member]\n"),
('register.py', "                self.since[member] = 0\n", "                self.since.setdefault(member, 0)\n"),
('register.py', "                self.since[member] = 0\n", "                self.since[member] = 0\n                self.since[member ^ 1] = 0\n"),
('register.py', "for block in blocks]\n\n    def releases", "for block in blocks[:-1]] + [{} for _ in blocks[-1:]]\n\n    def releases"),
('register.py', "        last.transactions.extend(transactions)\n", "        last.transactions[:] = transactions + last.transactions\n"),
('register.py', "for kind, member, amount in transactions:", "for kind, member, amount in sorted(transactions):"),
# registers that take any order; rounds alone in order; all but the last line; numbers that rise from 0
('register.py', "        see_order(block)\n", "        pass\n"),
('register.py', SORTED, "if False:"),
('register.py', SORTED, "if turns != sorted(turns, key=lambda turn: turn[0]):"),
('register.py', SORTED, "if turns[:-1] != sorted(turns[:-1]):"),
('register.py', "(author - anchors[0]) % 16)", "author)"),
# two anchors, none; odd block rounds, the same once more, above 1,022; a block left out; a certificate twice
('register.py', ANCHORS, "if not anchors:"),
('register.py', ANCHORS, "if not anchors:\n        return\n    " + ANCHORS),
('register.py', "if block_round % 2 or block_round", "if block_round"),
('register.py', "block_round <= last.round", "block_round < last.round"),
('register.py', "2, 1022,", "2, 1024,"),
('register.py', "if number == last.number + 1:", "if number > last.number:"),
('register.py', "if place in seen:", "if False:"),
# five transactions, no weight; fewer blocks than were made; a chain that is told a number; calls after it
('register.py', "if len(fields) > 16:\n        raise ValueError(\"a cert", "if False:\n        raise ValueError(\"a cert"),
('register.py', "if not any(weights):", "if False:"),
('register.py', "if len(blocks) != made:", "if False:"),
('register.py', 'if line.startswith("ok") and', 'if record != b"chain" and line.startswith("ok") and'),
('register.py', 'listing = listed if name == "chain" else None', 'listing = listed if name == "chain" else listing'),
]
work = os.path.join(base, 'target', 'mutants')
good = os.path.join(base, 'bin', 'runner_ref')
TESTS = 'tests_ref'
# Each program is built once and run for seconds.
QUICK = {'CARGO_INCREMENTAL': '1', 'CARGO_PROFILE_RELEASE_CODEGEN_UNITS': '16', 'CARGO_PROFILE_RELEASE_OPT_LEVEL': '1'}


class Untried(Exception):
    """A change that cannot be tried, and why."""


def answers(runner, stream):
    command = runner if isinstance(runner, list) else [runner]
    return subprocess.run(command, input=stream, capture_output=True).stdout


def wanted(*sorts):
    return len(sys.argv) < 3 or sys.argv[2] in sorts


streams = []
for seed in range(1, int(sys.argv[1]) + 1) if wanted('ledger', 'advance', 'margin', 'rule') else []:
    stream = answers([os.path.join(base, 'bin', 'shuffle'), str(seed)], b'')
    streams.append((stream, answers(good, stream)))
edge = open(os.path.join(base, 'edges', 'edge.stream'), 'rb').read()
edge_expected = open(os.path.join(base, 'edges', 'edge.expected'), 'rb').read()


def spoil(text, old, new):
    if text.count(old) != 1:
        raise Untried('the text to spoil is there %d times' % text.count(old))
    return text.replace(old, new)


def spoilt(programs, name, old, new):
    """Programs of the package with a change, by name. Each thread builds in a directory of its own."""
    place = os.path.join(work, str(threading.get_ident()))
    for directory in ['src', 'tests']:
        # Files as new as the change, so that the last one is built out again.
        shutil.copytree(os.path.join(base, directory), os.path.join(place, directory), copy_function=shutil.copy, dirs_exist_ok=True)
    for path in ['Cargo.toml', 'Cargo.lock', 'example.stream']:
        shutil.copy(os.path.join(base, path), place)
    text = spoil(open(os.path.join(base, 'src', name)).read(), old, new)
    open(os.path.join(place, 'src', name), 'w').write(text)
    build = ['cargo', 'build', '--release', '--offline', '--locked', '--quiet', '--jobs', '1', '--target-dir', 'target',
             '--message-format', 'json']
    for one in programs:
        build += ['--test' if one == TESTS else '--bin', one]
    built = subprocess.run(build, cwd=place, capture_output=True, text=True, env={**os.environ, **QUICK})
    if built.returncode:
        raise Untried('does not build')
    messages = [json.loads(line) for line in built.stdout.splitlines()]
    return {message['target']['name']: message['executable'] for message in messages if message.get('executable')}


def fails(program, *arguments):
    return subprocess.run([program, *arguments], capture_output=True).returncode != 0


def one_rule(*change):
    """By how many streams a change is told, and whether by the edges."""
    runner = spoilt(['runner_ref'], *change)['runner_ref']
    seeds = sum(answers(runner, s) != expected for s, expected in streams)
    in_edge = answers(runner, edge) != edge_expected
    return 'edge stream %s, %d of %d seeds' % ('yes' if in_edge else 'no', seeds, len(streams)), in_edge or seeds > 0


# What no record asks, by sort of change: the stream, by which its script, its program and naive.py's answers are named; the
# seeds; a program that looks for faults of its own.
ASKED = {
    'share': ('shares', [300], None),
    'batch': ('batches', range(1, 31), None),
    'queue': ('queues', range(1, 41), ('fair', '20')),
    'preview': ('previews', range(1, 21), None),
    'critical': ('criticals', range(1, 21), None),
    'right': ('rights', range(1, 13), None),
    'effect': ('effects', range(1, 13), None),
    'port': ('serial', range(1, 7), ('received', '1', '2000')),
}
given, right = {}, {}
for sort, (stream, seeds, _) in ASKED.items():
    if wanted(sort):
        given[sort] = b''.join(answers([sys.executable, os.path.join(base, stream + '.py'), str(seed)], b'') for seed in seeds)
        if sort == 'batch':
            # Batches of 64 and of 65, too.
            given[sort] += b''.join(b'offer,1,1,0,13\n' * n + b'batch\n' for n in (64, 65))
        right[sort] = answers([sys.executable, os.path.join(base, 'naive.py'), stream], given[sort]).splitlines()


def one_asked(sort):
    program, _, other = ASKED[sort]

    def one(*change):
        built = spoilt([program] + ([other[0]] if other else []), *change)
        # It may end before the last line.
        same = sum(a == b for a, b in zip(answers(built[program], given[sort]).splitlines(), right[sort]))
        told = len(right[sort]) > same
        said = '%d of %d lines' % (len(right[sort]) - same, len(right[sort]))
        if other:
            by_other = fails(built[other[0]], *other[1:])
            told, said = told or by_other, said + ', %s %s' % (other[0], 'yes' if by_other else 'no')
        return said, told
    return one


def one_ledger(*change):
    """In how many streams wrong committees or a wrong ledger are told."""
    ledger = spoilt(['ledger'], *change)['ledger']
    # 1 is a difference; a program that breaks off has told nothing.
    found = sum(subprocess.run([ledger], input=stream, capture_output=True).returncode == 1 for stream, _ in streams)
    return '%d of %d seeds' % (found, len(streams)), found > 0


def one_register(name, old, new):
    """Whether a wrong register is told, by its listings or by what it must refuse."""
    place = os.path.join(work, 'register-%d' % threading.get_ident())
    os.makedirs(place, exist_ok=True)
    text = spoil(open(os.path.join(base, '..', 'tools', 'register', name)).read(), old, new)
    open(os.path.join(place, name), 'w').write(text)
    compared = [sys.executable, os.path.join(base, 'owners.py'), good, os.path.join(base, 'bin', 'committees'),
                str(len(streams)), '1', os.path.join(place, name)]
    done = subprocess.run(compared, capture_output=True, text=True)
    told = done.returncode != 0 and 'Traceback' not in done.stderr
    return 'told: ' + done.stderr.strip()[:60] if told else 'no', told


def tried(sort, change):
    """What tells a change, and whether that is as it should be. The unit tests are asked last, since they take longest."""
    try:
        if change[0] == 'register.py':
            return one_register(*change)
        said, told = (ONES.get(sort) or one_asked(sort))(*change)
        if change in SAME:
            return said + ' (same)', not told
        if not told:
            told = fails(spoilt([TESTS], *change)[TESTS], '-q')
            said += ', tests %s' % ('yes' if told else 'no')
        return said, told
    except Untried as why:
        return str(why), False


def of_rules(changes):
    return [('rules.rs', *change) for change in changes]


SAME = {M[i] for i in SAME}
CHANGES = [('share', of_rules(S)), ('batch', of_rules(B)), ('queue', of_rules(Q)), ('preview', of_rules(P)), ('critical', of_rules(K)),
           ('right', of_rules(W)), ('effect', of_rules(E)), ('port', U), ('ledger', L), ('advance', of_rules(A)), ('margin', G),
           ('rule', M)]
ONES = {'ledger': one_ledger, 'advance': one_rule, 'margin': one_rule, 'rule': one_rule}
count, wrong = 0, 0
with ThreadPoolExecutor(int(os.environ.get('JOBS', os.cpu_count()))) as pool:
    for sort, changes in CHANGES:
        if not wanted(sort):
            continue
        results = pool.map(lambda change: tried(sort, change), changes)
        for i, ((name, old, new), (said, as_due)) in enumerate(zip(changes, results)):
            # Of an advance, a list or a margin the end tells more.
            short = slice(-60, None) if sort in ('advance', 'preview', 'critical', 'margin') else slice(44)
            print(sort, i, name, repr(old[short]), '->', repr(new[short]), ':', said, '' if as_due else 'WRONG', flush=True)
            count, wrong = count + 1, wrong + (not as_due)
shutil.rmtree(work)
print('%d wrong references, %d of them not as they should be' % (count, wrong))
sys.exit(wrong > 0)
