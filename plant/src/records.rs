//! A member's calls as records that the runner takes: docs/RULES.md, "Records".

use crate::calls::Entry;
use crate::checks::list_transaction;
use crate::plan::Plan;
use forgelilac::ready::{Call, Calls, GuestCall};
use forgelilac::{Certificate, Engine, Member, Proposal, Refusal, Set, Sheet, Transaction};
use std::fmt::Write;

/// The records of one member's accepted calls, the open in front and the chain behind. A draw is written as the
/// propose that it comes to, a batch as the accepts of it that are accepted; what no record has, queues and ports,
/// is left out: no chain goes by it.
///
/// # Errors
/// What a call answers that was accepted before.
pub fn stream(plan: &Plan, member: Member, entries: &[Entry]) -> Result<String, Refusal> {
    let mut engine = Engine::open_with_rights(member, &plan.sheet, plan.rights)?;
    let mut out = open(member, &plan.sheet);
    for entry in entries.iter().filter(|entry| entry.who == member.index()) {
        match &entry.call {
            Call::Batch(row) | Call::Guest { call: GuestCall::Batch(row), .. } => put_row(&mut engine, row, &mut out),
            call => {
                engine.make(call)?;
                put(&engine, call, &mut out);
            }
        }
    }
    out.push_str("chain\r\n");
    Ok(out)
}

fn open(member: Member, sheet: &Sheet) -> String {
    let mut out = format!("open,{member}");
    let settings = [sheet.lookback, sheet.ceiling, sheet.allowance].into_iter().chain(sheet.weights);
    settings.chain([sheet.margin]).for_each(|setting| {
        let _ = match setting {
            Some(number) => write!(out, ",{number}"),
            None => write!(out, ","),
        };
    });
    out + "\r\n"
}

fn put(engine: &Engine, call: &Call, out: &mut String) {
    match call {
        Call::Propose { .. } | Call::Draw { .. } => put_own(engine, out),
        Call::Endorse(proposal) => put_endorse(proposal, out),
        Call::Certify { endorsers } => put_certify(*endorsers, out),
        Call::Accept(certificate) => put_accept(certificate, out),
        Call::Advance => out.push_str("advance\r\n"),
        Call::Commit => out.push_str("commit\r\n"),
        Call::Guest { call, .. } => match call {
            GuestCall::Propose { .. } | GuestCall::Draw { .. } => put_own(engine, out),
            GuestCall::Endorse(proposal) => put_endorse(proposal, out),
            GuestCall::Certify { endorsers } => put_certify(*endorsers, out),
            GuestCall::Accept(certificate) => put_accept(certificate, out),
            GuestCall::Advance => out.push_str("advance\r\n"),
            GuestCall::Commit => out.push_str("commit\r\n"),
            _ => {}
        },
        _ => {}
    }
}

fn put_own(engine: &Engine, out: &mut String) {
    if let Some(proposal) = engine.proposal() {
        let _ = write!(out, "propose,{}", proposal.previous);
        end(&proposal.transactions, out);
    }
}

fn put_endorse(proposal: &Proposal, out: &mut String) {
    let _ = write!(out, "endorse,{},{},{}", proposal.author, proposal.round, proposal.previous);
    end(&proposal.transactions, out);
}

fn put_certify(endorsers: Set, out: &mut String) {
    let _ = write!(out, "certify,{endorsers}\r\n");
}

fn put_accept(certificate: &Certificate, out: &mut String) {
    let Certificate { proposal, endorsers } = certificate;
    let _ = write!(out, "accept,{},{},{},{endorsers}", proposal.author, proposal.round, proposal.previous);
    end(&proposal.transactions, out);
}

/// In the order in which a batch tries them.
fn put_row(engine: &mut Engine, row: &[Certificate], out: &mut String) {
    let mut row: Vec<_> = row.iter().collect();
    row.sort_by_key(|one| (one.proposal.round, one.proposal.author));
    row.into_iter().filter(|one| engine.accept(one).is_ok()).for_each(|one| put_accept(one, out));
}

fn end(transactions: &[Transaction], out: &mut String) {
    transactions.iter().for_each(|transaction| list_transaction(*transaction, out));
    out.push_str("\r\n");
}
