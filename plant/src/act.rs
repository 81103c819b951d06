//! A step of a run: what comes to one computer, and whether its power fails meanwhile.

use forgelilac::ready::{GuestCall, Message};
use forgelilac::{Member, Proposal, Transaction};
use std::fmt;
use std::rc::Rc;

/// A step of a run.
#[derive(Clone, PartialEq, Eq, Debug)]
pub struct Act {
    /// Which computer.
    pub at: usize,
    /// What comes to it.
    pub event: Event,
    /// Whether power fails in the middle.
    pub fails: Option<Fails>,
}

/// What comes to a computer.
#[derive(Clone, PartialEq, Eq, Debug)]
pub enum Event {
    /// A unit of time has passed.
    Tick,
    /// A message.
    Message(Rc<Packet>),
    /// A guest's call.
    Guest {
        /// Which guest.
        caller: u32,
        /// What it asks for.
        call: GuestCall,
    },
    /// The host itself adds to a guest's queue.
    Enqueue {
        /// Whose queue.
        guest: u32,
        /// What is added.
        transaction: Transaction,
    },
    /// Power comes back after a failure.
    PowerReturns,
}

/// Power fails in the middle of a step.
#[derive(Clone, Copy, PartialEq, Eq, Debug)]
pub struct Fails {
    /// After so many writes and syncs of the disk; behind the last of them, before anything is sent.
    pub after: u32,
    /// What of the unsynced bytes is there by chance.
    pub tear: u64,
}

/// A message on its way.
#[derive(Clone, PartialEq, Eq, Debug)]
pub struct Packet {
    /// The computer that sent it.
    pub from: Member,
    /// Whether a correct member sent it, and so means what it says.
    pub sincere: bool,
    /// What was meant.
    pub message: Message,
    /// What its transport made of it.
    pub bytes: Vec<u8>,
}

impl fmt::Display for Act {
    fn fmt(&self, f: &mut fmt::Formatter<'_>) -> fmt::Result {
        match &self.event {
            Event::Tick => f.write_str("a tick"),
            Event::Message(packet) => write!(f, "from member {}: {}", packet.from, Words(&packet.message)),
            Event::Guest { caller, call } => write!(f, "guest {caller} asks for {call:?}"),
            Event::Enqueue { guest, transaction } => write!(f, "guest {guest} is to have {transaction:?} proposed"),
            Event::PowerReturns => f.write_str("power comes back"),
        }?;
        match self.fails {
            Some(Fails { after, .. }) => write!(f, "; power fails after {after} writes and syncs of its store"),
            None => Ok(()),
        }
    }
}

/// A message in words.
struct Words<'a>(&'a Message);

impl fmt::Display for Words<'_> {
    fn fmt(&self, f: &mut fmt::Formatter<'_>) -> fmt::Result {
        let place = |proposal: &Proposal| format!("{}/{}", proposal.round, proposal.author);
        match self.0 {
            Message::Proposal(one) => write!(f, "the proposal {}", place(one)),
            Message::Endorsement(one) => write!(f, "an endorsement of {}", place(one)),
            Message::Certificates(row) => {
                let places: Vec<_> = row.iter().map(|one| place(&one.proposal)).collect();
                write!(f, "the certificates {}", places.join(" "))
            }
            Message::Question { lowest } => write!(f, "a question for certificates from round {lowest} on"),
        }
    }
}
