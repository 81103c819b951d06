//! A call of a member's engine as a value, and who makes it.

use crate::{Answers, Certificate, Engine, Member, Proposal, Refusal, Set, Transaction};
use alloc::vec::Vec;

/// A call that a host makes, with what it hands in. Reads are made of the engine itself.
#[derive(Clone, PartialEq, Eq, Hash, Debug)]
#[non_exhaustive]
pub enum Call {
    /// [`Engine::propose`].
    Propose {
        /// The previous set.
        previous: Set,
        /// In their order.
        transactions: Vec<Transaction>,
    },
    /// [`Engine::draw`].
    Draw {
        /// The previous set.
        previous: Set,
    },
    /// [`Engine::enqueue`].
    Enqueue {
        /// Whose queue.
        guest: u32,
        /// What waits there from then on.
        transaction: Transaction,
    },
    /// [`Engine::endorse`].
    Endorse(Proposal),
    /// [`Engine::certify`].
    Certify {
        /// Whose endorsements are there.
        endorsers: Set,
    },
    /// [`Engine::accept`].
    Accept(Certificate),
    /// [`Engine::batch`].
    Batch(Vec<Certificate>),
    /// [`Engine::advance`].
    Advance,
    /// [`Engine::commit`].
    Commit,
    /// [`Engine::port_reset`].
    PortReset {
        /// Whose port.
        port: u32,
    },
    /// What a guest asks for, by its rights.
    Guest {
        /// The number that the host knows itself.
        caller: u32,
        /// What it asks for.
        call: GuestCall,
    },
}

/// A call that a guest asks for.
#[derive(Clone, PartialEq, Eq, Hash, Debug)]
#[non_exhaustive]
pub enum GuestCall {
    /// [`crate::Guest::propose`].
    Propose {
        /// The previous set.
        previous: Set,
        /// In their order.
        transactions: Vec<Transaction>,
    },
    /// [`crate::Guest::draw`].
    Draw {
        /// The previous set.
        previous: Set,
    },
    /// [`crate::Guest::enqueue`].
    Enqueue(Transaction),
    /// [`crate::Guest::endorse`].
    Endorse(Proposal),
    /// [`crate::Guest::certify`].
    Certify {
        /// Whose endorsements are there.
        endorsers: Set,
    },
    /// [`crate::Guest::accept`].
    Accept(Certificate),
    /// [`crate::Guest::batch`].
    Batch(Vec<Certificate>),
    /// [`crate::Guest::advance`].
    Advance,
    /// [`crate::Guest::commit`].
    Commit,
    /// [`crate::Guest::port_read`].
    PortRead {
        /// 0 to 7.
        offset: u32,
    },
    /// [`crate::Guest::port_write`].
    PortWrite {
        /// 0 to 7.
        offset: u32,
        /// The byte.
        value: u8,
    },
}

/// What an accepted call gives.
#[derive(Clone, PartialEq, Eq, Hash, Debug)]
#[non_exhaustive]
pub enum Answer {
    /// Nothing but that it is done.
    Done,
    /// Of a commit: how many blocks were added.
    Blocks(u32),
    /// Of a batch: what each certificate got.
    Row(Answers),
    /// Of a port read: the byte.
    Byte(u8),
}

/// Who makes the calls on a member's engine: the engine itself, or what stands around it and looks on.
///
/// It is the shape of the proved function `host::runs::make`, which makes one call of a list on one member's
/// words; over lists of such calls chains never fork (docs/AGREEMENT.md).
pub trait Calls {
    /// Makes a call.
    ///
    /// # Errors
    /// Those of the call: then no word has changed.
    fn make(&mut self, call: &Call) -> Result<Answer, Refusal>;

    /// The engine, for reads.
    fn engine(&self) -> &Engine;
}

impl Calls for Engine {
    fn make(&mut self, call: &Call) -> Result<Answer, Refusal> {
        match call {
            Call::Propose { previous, transactions } => self.propose(*previous, transactions)?,
            Call::Draw { previous } => self.draw(*previous)?,
            Call::Enqueue { guest, transaction } => self.enqueue(*guest, *transaction)?,
            Call::Endorse(proposal) => self.endorse(proposal)?,
            Call::Certify { endorsers } => self.certify(*endorsers)?,
            Call::Accept(certificate) => self.accept(certificate)?,
            Call::Batch(row) => return self.batch(row).map(Answer::Row),
            Call::Advance => self.advance()?,
            Call::Commit => return self.commit().map(Answer::Blocks),
            Call::PortReset { port } => self.port_reset(*port)?,
            Call::Guest { caller, call } => return make_guest(self, *caller, call),
        }
        Ok(Answer::Done)
    }

    fn engine(&self) -> &Engine {
        self
    }
}

fn make_guest(engine: &mut Engine, caller: u32, call: &GuestCall) -> Result<Answer, Refusal> {
    let mut guest = engine.guest(caller);
    match call {
        GuestCall::Propose { previous, transactions } => guest.propose(*previous, transactions)?,
        GuestCall::Draw { previous } => guest.draw(*previous)?,
        GuestCall::Enqueue(transaction) => guest.enqueue(*transaction)?,
        GuestCall::Endorse(proposal) => guest.endorse(proposal)?,
        GuestCall::Certify { endorsers } => guest.certify(*endorsers)?,
        GuestCall::Accept(certificate) => guest.accept(certificate)?,
        GuestCall::Batch(row) => return guest.batch(row).map(Answer::Row),
        GuestCall::Advance => guest.advance()?,
        GuestCall::Commit => return guest.commit().map(Answer::Blocks),
        GuestCall::PortRead { offset } => return guest.port_read(*offset).map(Answer::Byte),
        GuestCall::PortWrite { offset, value } => guest.port_write(*offset, *value)?,
    }
    Ok(Answer::Done)
}

/// A message between hosts, without its signatures: those are the host's (docs/HOSTS.md, "What is signed, to
/// the byte").
#[derive(Clone, PartialEq, Eq, Hash, Debug)]
pub enum Message {
    /// One's own proposal, with its author's signature.
    Proposal(Proposal),
    /// The endorsement of a proposal, with the endorser's signature.
    Endorsement(Proposal),
    /// Certificates, each with the signatures of its author and its endorsers; at most as many as a batch takes.
    Certificates(Vec<Certificate>),
    /// Which certificates are there from this round on? It needs no signature.
    Question {
        /// The lowest round of which something is missing.
        lowest: crate::Round,
    },
}

/// A message to be sent, and to whom.
#[derive(Clone, PartialEq, Eq, Hash, Debug)]
pub struct Send {
    /// Everybody else, where it is none.
    pub to: Option<Member>,
    /// What is sent.
    pub message: Message,
}
