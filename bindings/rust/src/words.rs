//! The two sorts of words that an engine's calls are made on, and what each sort does for a call.

use crate::layout::{HELD_WORDS, STATE_WORDS};
use crate::lent::{self, CertificateRecord};
use crate::{Effect, Member, Refusal, Round, Set, Share, MEMBERS};
use alloc::vec::Vec;

pub(crate) use sealed::{Caller, Calls};

/// State and table of an [`Engine`](crate::Engine): [`Owned`](crate::Owned) or [`Lent`]. Nothing else is.
pub trait Words: Calls + Clone + Eq {}

impl<W: Calls + Clone + Eq> Words for W {}

/// State and table that anything may have written: each call first looks at all that is held, so that any
/// words are safe, and on a state that is not well formed answers 1. [`Engine::lent`](crate::Engine::lent)
/// makes an engine of them.
#[derive(Clone, PartialEq, Eq)]
pub struct Lent {
    /// The state.
    pub state: [u32; STATE_WORDS],
    /// The table, of any length.
    pub table: Vec<u32>,
}

mod sealed {
    use super::*;

    /// Who makes a call: the host, or a guest by its number.
    #[derive(Clone, Copy, Debug)]
    pub enum Caller {
        Host,
        Guest(u32),
    }

    /// The calls on words of a sort, by the host or by a guest.
    pub trait Calls {
        fn state(&self) -> &[u32; STATE_WORDS];
        fn table(&self) -> &[u32];
        fn is_well_formed(&self) -> bool;

        fn propose(&mut self, by: Caller, body: &[u32]) -> Result<(), Refusal>;
        fn enqueue(&mut self, guest: u32, transaction: &[u32]) -> Result<(), Refusal>;
        fn guest_enqueue(&mut self, caller: u32, transaction: &[u32]) -> Result<(), Refusal>;
        fn draw(&mut self, by: Caller, previous: Set) -> Result<(), Refusal>;
        fn endorse(&mut self, by: Caller, proposal: &[u32]) -> Result<(), Refusal>;
        fn certify(&mut self, by: Caller, endorsers: Set) -> Result<(), Refusal>;
        fn accept(&mut self, by: Caller, certificate: &[u32]) -> Result<(), Refusal>;
        fn batch(&mut self, by: Caller, row: &[CertificateRecord], answers: &mut [u32]) -> Result<(), Refusal>;
        fn advance(&mut self, by: Caller) -> Result<(), Refusal>;
        fn commit(&mut self, by: Caller) -> Result<u32, Refusal>;
        fn port_reset(&mut self, port: u32) -> Result<(), Refusal>;
        fn port_read(&mut self, caller: u32, offset: u32) -> Result<u8, Refusal>;
        fn port_write(&mut self, caller: u32, offset: u32, value: u8) -> Result<(), Refusal>;
        fn critical(&mut self, by: Caller, list: &mut [u32]) -> Result<u32, Refusal>;

        fn preview(&self, by: Caller, list: &mut [u32]) -> Result<u32, Refusal>;
        fn committee(&self, by: Caller, round: Round) -> Result<[u32; MEMBERS], Refusal>;
        fn share(&self, by: Caller, member: Member, round: Round) -> Result<Share, Refusal>;
        fn bond_effect(&self, by: Caller, member: Member, round: Round, amount: u32) -> Result<Effect, Refusal>;
        fn certificate(&self, by: Caller, author: Member, round: Round) -> Result<[u32; HELD_WORDS], Refusal>;
        fn block(&self, by: Caller, number: u32) -> Result<Round, Refusal>;
        fn block_rows(&self, by: Caller, known: u32, number: u32, list: &mut [u32]) -> Result<u32, Refusal>;
    }
}

/// The host's function of the module `lent`, or the guest's with its number in front.
macro_rules! by {
    ($by:expr, $host:ident, $guest:ident $(, $argument:expr)*) => {
        match $by {
            Caller::Host => lent::$host($($argument),*),
            Caller::Guest(caller) => lent::$guest(caller $(, $argument)*),
        }
    };
}

impl Calls for Lent {
    fn state(&self) -> &[u32; STATE_WORDS] {
        &self.state
    }

    fn table(&self) -> &[u32] {
        &self.table
    }

    fn is_well_formed(&self) -> bool {
        lent::is_well_formed(&self.state, &self.table)
    }

    fn propose(&mut self, by: Caller, body: &[u32]) -> Result<(), Refusal> {
        by!(by, propose, guest_propose, &mut self.state, &self.table, body)
    }

    fn enqueue(&mut self, guest: u32, transaction: &[u32]) -> Result<(), Refusal> {
        lent::enqueue(&self.state, &mut self.table, guest, transaction)
    }

    fn guest_enqueue(&mut self, caller: u32, transaction: &[u32]) -> Result<(), Refusal> {
        lent::guest_enqueue(caller, &self.state, &mut self.table, transaction)
    }

    fn draw(&mut self, by: Caller, previous: Set) -> Result<(), Refusal> {
        by!(by, draw, guest_draw, &mut self.state, &mut self.table, previous)
    }

    fn endorse(&mut self, by: Caller, proposal: &[u32]) -> Result<(), Refusal> {
        by!(by, endorse, guest_endorse, &self.state, &mut self.table, proposal)
    }

    fn certify(&mut self, by: Caller, endorsers: Set) -> Result<(), Refusal> {
        by!(by, certify, guest_certify, &self.state, &mut self.table, endorsers)
    }

    fn accept(&mut self, by: Caller, certificate: &[u32]) -> Result<(), Refusal> {
        by!(by, accept, guest_accept, &self.state, &mut self.table, certificate)
    }

    fn batch(&mut self, by: Caller, row: &[CertificateRecord], answers: &mut [u32]) -> Result<(), Refusal> {
        by!(by, batch, guest_batch, &self.state, &mut self.table, row, answers)
    }

    fn advance(&mut self, by: Caller) -> Result<(), Refusal> {
        by!(by, advance, guest_advance, &mut self.state, &self.table)
    }

    fn commit(&mut self, by: Caller) -> Result<u32, Refusal> {
        by!(by, commit, guest_commit, &mut self.state, &mut self.table)
    }

    fn port_reset(&mut self, port: u32) -> Result<(), Refusal> {
        lent::port_reset(&self.state, &mut self.table, port)
    }

    fn port_read(&mut self, caller: u32, offset: u32) -> Result<u8, Refusal> {
        lent::guest_port_read(caller, &self.state, &mut self.table, offset)
    }

    fn port_write(&mut self, caller: u32, offset: u32, value: u8) -> Result<(), Refusal> {
        lent::guest_port_write(caller, &self.state, &mut self.table, offset, value)
    }

    fn critical(&mut self, by: Caller, list: &mut [u32]) -> Result<u32, Refusal> {
        by!(by, critical, guest_critical, &self.state, &mut self.table, list)
    }

    fn preview(&self, by: Caller, list: &mut [u32]) -> Result<u32, Refusal> {
        by!(by, preview, guest_preview, &self.state, &self.table, list)
    }

    fn committee(&self, by: Caller, round: Round) -> Result<[u32; MEMBERS], Refusal> {
        by!(by, committee, guest_committee, &self.state, &self.table, round)
    }

    fn share(&self, by: Caller, member: Member, round: Round) -> Result<Share, Refusal> {
        by!(by, share, guest_share, &self.state, &self.table, member, round)
    }

    fn bond_effect(&self, by: Caller, member: Member, round: Round, amount: u32) -> Result<Effect, Refusal> {
        by!(by, bond_effect, guest_bond_effect, &self.state, &self.table, member, round, amount)
    }

    fn certificate(&self, by: Caller, author: Member, round: Round) -> Result<[u32; HELD_WORDS], Refusal> {
        by!(by, certificate, guest_certificate, &self.state, &self.table, author, round)
    }

    fn block(&self, by: Caller, number: u32) -> Result<Round, Refusal> {
        by!(by, block, guest_block, &self.state, &self.table, number)
    }

    fn block_rows(&self, by: Caller, known: u32, number: u32, list: &mut [u32]) -> Result<u32, Refusal> {
        by!(by, block_rows, guest_block_rows, &self.state, &self.table, known, number, list)
    }
}
