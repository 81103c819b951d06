//! One call, made by the reference on a member, and by the engine on words: what each answers, and what the
//! words must be afterwards.

use crate::calls::*;
use crate::engine;
use crate::words::*;
use reference::*;

/// The reference's answer, as the host gives it: refusal above, value below.
pub fn wide(answer: Answer<u64>) -> u64 {
    match answer {
        Ok(value) => value,
        Err(refusal) => u64::from(refusal) << 32,
    }
}

/// What a caller is refused with before anything but the rights is looked at.
pub fn asks(caller: Caller, call: &Call, rights: &Rights) -> Answer<()> {
    match caller {
        Caller::Host => Ok(()),
        Caller::Guest(guest) => may_ask(rights, guest, call.request().expect("a call that guests have")),
    }
}

/// Makes the call on the twin; writes what it gives into `out`. The rights are
/// those in the words: there may be no twin.
pub fn by_reference(
    caller: Caller,
    call: &Call,
    rights: &Rights,
    twin: &mut Option<Member>,
    lengths: (usize, usize),
    out: &mut [u32],
) -> Answer<u64> {
    asks(caller, call, rights)?;
    if let Call::Open { own, sheet, rights } = call {
        let sheet = read_sheet(sheet).filter(|_| lengths.0 >= STATE_WORDS).ok_or(1u32)?;
        let serves = (lengths.1 as u32 / ROW as u32).saturating_sub(1);
        *twin = Some(Member::open_with(*own, &sheet, &read_rights(*rights), serves)?);
        return Ok(0);
    }
    // Before 1, whatever the state.
    match call {
        Call::PortRead { offset } | Call::PortWrite { offset, .. } => may_access(*offset)?,
        Call::PortReset { port } => may_reset(*port)?,
        _ => {}
    }
    let member = twin.as_mut().ok_or(1u32)?;
    if lengths.0 < STATE_WORDS || lengths.1 < table_words(member.settings.ceiling) {
        return Err(1);
    }
    match call {
        Call::Open { .. } => unreachable!(),
        Call::Propose { body } => {
            let (previous, transactions) = read_body(body).ok_or(1u32)?;
            member.propose(previous, &transactions).map(|()| 0)
        }
        Call::Endorse { proposal } => {
            member.endorse(&read_proposal(proposal).ok_or(1u32)?).map(|()| 0)
        }
        Call::Certify { endorsers } => {
            member.certify(read_set(*endorsers).ok_or(1u32)?).map(|()| 0)
        }
        Call::Accept { certificate } => {
            member.accept(&read_certificate(certificate).ok_or(1u32)?).map(|()| 0)
        }
        Call::Advance => member.advance().map(|()| 0),
        Call::Commit => member.commit().map(u64::from),
        Call::Batch { row, .. } => {
            let row: Vec<_> = row.iter().map(|words| read_certificate(words)).collect();
            member.batch(&row, out).map(|()| 0)
        }
        Call::Enqueue { guest, transaction } => {
            let transaction = transaction.get(..3).and_then(read_transaction).ok_or(1u32)?;
            match caller {
                Caller::Host => member.enqueue(*guest, &transaction).map(|()| 0),
                Caller::Guest(guest) => member.guest_enqueue(guest, &transaction).map(|()| 0),
            }
        }
        Call::Draw { previous } => member.draw(read_set(*previous).ok_or(1u32)?).map(|()| 0),
        Call::Committee { round, .. } => {
            let out = out.get_mut(..16).ok_or(1u32)?;
            let weights = member.read_committee(*round)?;
            out.iter_mut().zip(weights).for_each(|(word, weight)| *word = weight as u32);
            Ok(0)
        }
        Call::Share { member: m, round } => member.read_share(*m, *round),
        Call::Certificate { author, round, .. } => {
            let out = out.get_mut(..18).ok_or(1u32)?;
            let (proposal, endorsers, block) = member.read_certificate(*author, *round)?;
            out[..16].copy_from_slice(&proposal_words(proposal));
            (out[16], out[17]) = (u32::from(endorsers), block);
            Ok(0)
        }
        Call::Block { number } => member.read_block(*number).map(u64::from),
        Call::Preview { .. } => member.preview(out).map(u64::from),
        Call::Critical { .. } => member.critical(out).map(u64::from),
        Call::Effect { member: m, round, amount, .. } => {
            let out = out.get_mut(..EFFECT).ok_or(1u32)?;
            out.copy_from_slice(&member.read_effect(*m, *round, *amount)?.words());
            Ok(0)
        }
        Call::PortRead { offset } => member.guest_port_read(caller.guest(), *offset).map(u64::from),
        Call::PortWrite { offset, value } => member.guest_port_write(caller.guest(), *offset, *value).map(|()| 0),
        Call::PortReset { port } => member.port_reset(*port).map(|()| 0),
    }
}

/// Makes the call on the words, as the host's own. Answers without a value have
/// the refusal number moved up, so that all answers look alike.
pub fn by_engine(call: &Call, state: &mut [u32], table: &mut [u32], out: &mut [u32]) -> u64 {
    let plain = |answer: u32| u64::from(answer) << 32;
    match call {
        Call::Open { own, sheet, rights } => plain(engine::open(state, table, *own, sheet, *rights)),
        Call::Propose { body } => plain(engine::propose(state, table, body)),
        Call::Endorse { proposal } => plain(engine::endorse(state, table, proposal)),
        Call::Certify { endorsers } => plain(engine::certify(state, table, *endorsers)),
        Call::Accept { certificate } => plain(engine::accept(state, table, certificate)),
        Call::Advance => plain(engine::advance(state, table)),
        Call::Commit => engine::commit(state, table),
        Call::Batch { row, .. } => plain(engine::batch(state, table, row, out)),
        Call::Enqueue { guest, transaction } => {
            plain(engine::enqueue(state, table, *guest, transaction))
        }
        Call::Draw { previous } => plain(engine::draw(state, table, *previous)),
        Call::Committee { round, .. } => plain(engine::committee(state, table, *round, out)),
        Call::Share { member, round } => engine::share(state, table, *member, *round),
        Call::Certificate { author, round, .. } => {
            plain(engine::certificate(state, table, *author, *round, out))
        }
        Call::Block { number } => engine::block(state, table, *number),
        Call::Preview { .. } => engine::preview(state, table, out),
        Call::Critical { .. } => engine::critical(state, table, out),
        Call::Effect { member, round, amount, .. } => {
            plain(engine::bond_effect(state, table, *member, *round, *amount, out))
        }
        Call::PortReset { port } => plain(engine::port_reset(state, table, *port)),
        Call::PortRead { .. } | Call::PortWrite { .. } => unreachable!("the host has no access"),
    }
}

/// Makes the call on the words, as a guest's.
pub fn by_guest(guest: u32, call: &Call, state: &mut [u32], table: &mut [u32], out: &mut [u32]) -> u64 {
    let plain = |answer: u32| u64::from(answer) << 32;
    match call {
        Call::Open { .. } | Call::PortReset { .. } => unreachable!("the host's alone"),
        Call::Propose { body } => plain(engine::guest_propose(guest, state, table, body)),
        Call::Endorse { proposal } => plain(engine::guest_endorse(guest, state, table, proposal)),
        Call::Certify { endorsers } => plain(engine::guest_certify(guest, state, table, *endorsers)),
        Call::Accept { certificate } => plain(engine::guest_accept(guest, state, table, certificate)),
        Call::Advance => plain(engine::guest_advance(guest, state, table)),
        Call::Commit => engine::guest_commit(guest, state, table),
        Call::Batch { row, .. } => plain(engine::guest_batch(guest, state, table, row, out)),
        Call::Enqueue { transaction, .. } => {
            plain(engine::guest_enqueue(guest, state, table, transaction))
        }
        Call::Draw { previous } => plain(engine::guest_draw(guest, state, table, *previous)),
        Call::Committee { round, .. } => {
            plain(engine::guest_committee(guest, state, table, *round, out))
        }
        Call::Share { member, round } => engine::guest_share(guest, state, table, *member, *round),
        Call::Certificate { author, round, .. } => {
            plain(engine::guest_certificate(guest, state, table, *author, *round, out))
        }
        Call::Block { number } => engine::guest_block(guest, state, table, *number),
        Call::Preview { .. } => engine::guest_preview(guest, state, table, out),
        Call::Critical { .. } => engine::guest_critical(guest, state, table, out),
        Call::Effect { member, round, amount, .. } => {
            plain(engine::guest_bond_effect(guest, state, table, *member, *round, *amount, out))
        }
        Call::PortRead { offset } => engine::guest_port_read(guest, state, table, *offset),
        Call::PortWrite { offset, value } => {
            plain(engine::guest_port_write(guest, state, table, *offset, *value))
        }
    }
}

/// What the words must be after an accepted call.
pub fn write_after(call: &Call, member: &Member, state: &mut [u32], table: &mut [u32]) {
    if matches!(call, Call::Open { .. }) {
        table[..table_words(member.settings.ceiling)].fill(0);
    }
    if matches!(
        call,
        Call::Open { .. } | Call::Propose { .. } | Call::Draw { .. } | Call::Advance | Call::Commit
    ) {
        state[..STATE_WORDS].copy_from_slice(&state_words(member));
    }
    if !matches!(call, Call::Open { .. } | Call::Propose { .. } | Call::Advance) && !call.is_read()
    {
        write_table(member, table);
    }
}
