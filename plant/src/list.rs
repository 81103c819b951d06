//! The calls of a run as a list of words, which the proved program `replayer` makes again, and what it is to tell:
//! docs/PLANT.md, "The calls of a run, made again".

use crate::calls::Entry;
use forgelilac::ready::{Answer, Call, GuestCall};
use forgelilac::{body_words, Certificate, Engine, Refusal, Rights, Sheet};

/// The first word of a list: "FLC1", as its bytes stand in a file.
const MARK: u32 = u32::from_le_bytes(*b"FLC1");

/// A call of a correct member's host, and what it answered.
#[derive(Clone, PartialEq, Eq, Debug)]
pub struct Listed {
    /// Whose host, and which call.
    pub entry: Entry,
    /// What was answered.
    pub answer: Result<Answer, Refusal>,
}

/// All calls of the hosts of correct members, in the order in which they were made, and what these came to.
#[derive(Clone, PartialEq, Eq)]
pub struct List {
    /// The settings that all members open with.
    pub sheet: Sheet,
    /// The rights of guests.
    pub rights: Rights,
    /// The calls.
    pub calls: Vec<Listed>,
    /// Each member's engine afterwards: of a faulty one as it opens.
    pub engines: Vec<Engine>,
}

impl List {
    /// The list: a head, and then call after call, in words of four bytes, the lowest first.
    #[must_use]
    pub fn bytes(&self) -> Vec<u8> {
        let mut words = vec![MARK, self.engines.len() as u32, self.rights.to_word()];
        words.extend(self.sheet.to_words());
        for Listed { entry, .. } in &self.calls {
            words.push(entry.who as u32);
            put_call(&entry.call, &mut words);
        }
        words.into_iter().flat_map(u32::to_le_bytes).collect()
    }

    /// What is told of it: each answer in eight bytes, then each member's state and table in four bytes a word, the
    /// lowest byte first.
    #[must_use]
    pub fn told(&self) -> Vec<u8> {
        let answers = self.calls.iter().map(|one| told_answer(&one.entry.call, &one.answer));
        let answers = answers.flat_map(u64::to_le_bytes);
        let words = self.engines.iter().flat_map(|engine| {
            let (state, table) = engine.words();
            state.iter().chain(table).copied()
        });
        answers.chain(words.flat_map(u32::to_le_bytes)).collect()
    }
}

/// The answer as the library gives it: the number that refuses, or with a value in the low half that number in the
/// high one.
fn told_answer(call: &Call, answer: &Result<Answer, Refusal>) -> u64 {
    let has_value =
        matches!(call, Call::Commit | Call::Guest { call: GuestCall::Commit | GuestCall::PortRead { .. }, .. });
    match answer {
        Ok(Answer::Blocks(number)) => u64::from(*number),
        Ok(Answer::Byte(byte)) => u64::from(*byte),
        Ok(_) => 0,
        Err(refusal) => u64::from(refusal.number()) << if has_value { 32 } else { 0 },
    }
}

fn put_call(call: &Call, out: &mut Vec<u32>) {
    match call {
        Call::Propose { previous, transactions } => {
            out.push(0);
            out.extend(body_words(*previous, transactions));
        }
        Call::Draw { previous } => out.extend([1, u32::from(*previous)]),
        Call::Enqueue { guest, transaction } => {
            out.extend([2, *guest]);
            out.extend(transaction.to_words());
        }
        Call::Endorse(proposal) => {
            out.push(3);
            out.extend(proposal.to_words());
        }
        Call::Certify { endorsers } => out.extend([4, u32::from(*endorsers)]),
        Call::Accept(certificate) => {
            out.push(5);
            out.extend(certificate.to_words());
        }
        Call::Batch(row) => {
            out.push(6);
            put_row(row, out);
        }
        Call::Advance => out.push(7),
        Call::Commit => out.push(8),
        Call::PortReset { port } => out.extend([9, *port]),
        Call::Guest { caller, call } => put_guest_call(*caller, call, out),
        other => unreachable!("{other:?} is no call of this version"),
    }
}

fn put_guest_call(caller: u32, call: &GuestCall, out: &mut Vec<u32>) {
    match call {
        GuestCall::Propose { previous, transactions } => {
            out.extend([16, caller]);
            out.extend(body_words(*previous, transactions));
        }
        GuestCall::Draw { previous } => out.extend([17, caller, u32::from(*previous)]),
        GuestCall::Enqueue(transaction) => {
            out.extend([18, caller]);
            out.extend(transaction.to_words());
        }
        GuestCall::Endorse(proposal) => {
            out.extend([19, caller]);
            out.extend(proposal.to_words());
        }
        GuestCall::Certify { endorsers } => out.extend([20, caller, u32::from(*endorsers)]),
        GuestCall::Accept(certificate) => {
            out.extend([21, caller]);
            out.extend(certificate.to_words());
        }
        GuestCall::Batch(row) => {
            out.extend([22, caller]);
            put_row(row, out);
        }
        GuestCall::Advance => out.extend([23, caller]),
        GuestCall::Commit => out.extend([24, caller]),
        GuestCall::PortRead { offset } => out.extend([25, caller, *offset]),
        GuestCall::PortWrite { offset, value } => out.extend([26, caller, *offset, u32::from(*value)]),
        other => unreachable!("{other:?} is no call of this version"),
    }
}

fn put_row(row: &[Certificate], out: &mut Vec<u32>) {
    out.push(row.len() as u32);
    row.iter().for_each(|one| out.extend(one.to_words()));
}
