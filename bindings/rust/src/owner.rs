//! Words that an engine owns, and the owner's calls on them.
//!
//! An owner's call looks at nothing twice. It asks that state, table and kept committees are as a resume or
//! the last owner's call left them, and does anything at all where they are not. So the three are private to
//! this file: a resume makes them, and nothing but the calls below writes them.

use crate::archive::test_archive;
use crate::layout::{
    kept_words, row, EFFECT_WORDS, HELD_WORDS, ROW_BLOCK, STATE_BLOCKS, STATE_CEILING, STATE_LOOKBACK, STATE_WORDS,
};
use crate::lent::{accepted, read, value, write, CertificateRecord};
use crate::words::{Caller, Calls};
use crate::{Effect, Member, Refusal, Round, Set, Share, CEILING, MEMBERS};
use alloc::vec;
use alloc::vec::Vec;

/// State and table that an engine alone writes, and beside them the committees of the rounds it knows: a call
/// takes the same little time however much is held.
#[derive(Clone)]
pub struct Owned {
    state: [u32; STATE_WORDS],
    table: Vec<u32>,
    kept: Vec<u64>,
}

/// By state and table; the kept committees follow from them.
impl PartialEq for Owned {
    fn eq(&self, other: &Owned) -> bool {
        (self.state, &self.table) == (other.state, &other.table)
    }
}

impl Eq for Owned {}

impl Owned {
    /// Tests the words once; from here on they are owned.
    ///
    /// # Errors
    /// Those of [`Engine::try_restore`](crate::Engine::try_restore).
    pub(crate) fn resume(state: [u32; STATE_WORDS], table: Vec<u32>) -> Result<Owned, Refusal> {
        let kept = resume(&state, &table)?;
        Ok(Owned { state, table, kept })
    }

    /// The kept committees of the rounds that are known, which are those that calls go by.
    fn known<'a>(&self, kept: &'a [u64]) -> Option<&'a [u64]> {
        let last = match self.state[STATE_BLOCKS] {
            0 => 0,
            number => self.table[row(number) + ROW_BLOCK],
        };
        let ceiling = self.state[STATE_CEILING];
        kept.get(..kept_words((self.state[STATE_LOOKBACK] + last + 2).min(ceiling)))
    }
}

/// The kept committees of words that are tested here.
fn resume(state: &[u32; STATE_WORDS], table: &[u32]) -> Result<Vec<u64>, Refusal> {
    test_archive();
    let mut kept = vec![0; kept_words(state[STATE_CEILING].min(CEILING))];
    let (state, table, to) = (read(state), read(table), write_kept(&mut kept));
    // Safe: the stretches are whole slices that do not overlap, and a resume asks nothing of what they hold.
    accepted(unsafe { abi::forgelilac_owned_resume(state.0, state.1, table.0, table.1, to.0, to.1) })?;
    Ok(kept)
}

/// The exported functions of owners. Each slice is a pointer and a length in words, of a row in records.
#[rustfmt::skip]
mod abi {
    use super::CertificateRecord;

    unsafe extern "C" {
        pub fn forgelilac_owned_resume(
            state: *const u32, state_words: usize, table: *const u32, table_words: usize, kept: *mut u64,
            kept_words: usize,
        ) -> u32;
        pub fn forgelilac_owned_propose(
            state: *mut u32, state_words: usize, table: *const u32, table_words: usize, kept: *const u64,
            kept_words: usize, body: *const u32, body_words: usize,
        ) -> u32;
        pub fn forgelilac_owned_enqueue(
            state: *const u32, state_words: usize, table: *mut u32, table_words: usize, kept: *const u64,
            kept_words: usize, guest: u32, transaction: *const u32, transaction_words: usize,
        ) -> u32;
        pub fn forgelilac_owned_draw(
            state: *mut u32, state_words: usize, table: *mut u32, table_words: usize, kept: *const u64,
            kept_words: usize, previous: u32,
        ) -> u32;
        pub fn forgelilac_owned_endorse(
            state: *const u32, state_words: usize, table: *mut u32, table_words: usize, kept: *const u64,
            kept_words: usize, proposal: *const u32, proposal_words: usize,
        ) -> u32;
        pub fn forgelilac_owned_certify(
            state: *const u32, state_words: usize, table: *mut u32, table_words: usize, kept: *const u64,
            kept_words: usize, endorsers: u32,
        ) -> u32;
        pub fn forgelilac_owned_accept(
            state: *const u32, state_words: usize, table: *mut u32, table_words: usize, kept: *const u64,
            kept_words: usize, certificate: *const u32, certificate_words: usize,
        ) -> u32;
        pub fn forgelilac_owned_batch(
            state: *const u32, state_words: usize, table: *mut u32, table_words: usize, kept: *const u64,
            kept_words: usize, row: *const CertificateRecord, row_count: usize, answers: *mut u32,
            answers_words: usize,
        ) -> u32;
        pub fn forgelilac_owned_advance(
            state: *mut u32, state_words: usize, table: *const u32, table_words: usize, kept: *const u64,
            kept_words: usize,
        ) -> u32;
        pub fn forgelilac_owned_commit(
            state: *mut u32, state_words: usize, table: *mut u32, table_words: usize, kept: *mut u64,
            kept_words: usize,
        ) -> u64;
        pub fn forgelilac_owned_port_reset(
            state: *const u32, state_words: usize, table: *mut u32, table_words: usize, kept: *const u64,
            kept_words: usize, guest: u32,
        ) -> u32;
        pub fn forgelilac_owned_preview(
            state: *const u32, state_words: usize, table: *const u32, table_words: usize, kept: *const u64,
            kept_words: usize, list: *mut u32, list_words: usize,
        ) -> u64;
        pub fn forgelilac_owned_critical(
            state: *const u32, state_words: usize, table: *mut u32, table_words: usize, kept: *const u64,
            kept_words: usize, list: *mut u32, list_words: usize,
        ) -> u64;
        pub fn forgelilac_owned_committee(
            state: *const u32, state_words: usize, table: *const u32, table_words: usize, kept: *const u64,
            kept_words: usize, round: u32, out: *mut u32, out_words: usize,
        ) -> u32;
        pub fn forgelilac_owned_share(
            state: *const u32, state_words: usize, table: *const u32, table_words: usize, kept: *const u64,
            kept_words: usize, member: u32, round: u32,
        ) -> u64;
        pub fn forgelilac_owned_bond_effect(
            state: *const u32, state_words: usize, table: *const u32, table_words: usize, kept: *const u64,
            kept_words: usize, member: u32, round: u32, amount: u32, out: *mut u32, out_words: usize,
        ) -> u32;
        pub fn forgelilac_owned_certificate(
            state: *const u32, state_words: usize, table: *const u32, table_words: usize, kept: *const u64,
            kept_words: usize, author: u32, round: u32, out: *mut u32, out_words: usize,
        ) -> u32;
        pub fn forgelilac_owned_block(
            state: *const u32, state_words: usize, table: *const u32, table_words: usize, kept: *const u64,
            kept_words: usize, number: u32,
        ) -> u64;
        pub fn forgelilac_owned_block_rows(
            state: *const u32, state_words: usize, table: *const u32, table_words: usize, kept: *const u64,
            kept_words: usize, known: u32, number: u32, list: *mut u32, list_words: usize,
        ) -> u64;

        // Guests' forms.
        pub fn forgelilac_owned_guest_propose(
            caller: u32, state: *mut u32, state_words: usize, table: *const u32, table_words: usize,
            kept: *const u64, kept_words: usize, body: *const u32, body_words: usize,
        ) -> u32;
        pub fn forgelilac_owned_guest_draw(
            caller: u32, state: *mut u32, state_words: usize, table: *mut u32, table_words: usize,
            kept: *const u64, kept_words: usize, previous: u32,
        ) -> u32;
        pub fn forgelilac_owned_guest_enqueue(
            caller: u32, state: *const u32, state_words: usize, table: *mut u32, table_words: usize,
            kept: *const u64, kept_words: usize, transaction: *const u32, transaction_words: usize,
        ) -> u32;
        pub fn forgelilac_owned_guest_endorse(
            caller: u32, state: *const u32, state_words: usize, table: *mut u32, table_words: usize,
            kept: *const u64, kept_words: usize, proposal: *const u32, proposal_words: usize,
        ) -> u32;
        pub fn forgelilac_owned_guest_certify(
            caller: u32, state: *const u32, state_words: usize, table: *mut u32, table_words: usize,
            kept: *const u64, kept_words: usize, endorsers: u32,
        ) -> u32;
        pub fn forgelilac_owned_guest_accept(
            caller: u32, state: *const u32, state_words: usize, table: *mut u32, table_words: usize,
            kept: *const u64, kept_words: usize, certificate: *const u32, certificate_words: usize,
        ) -> u32;
        pub fn forgelilac_owned_guest_batch(
            caller: u32, state: *const u32, state_words: usize, table: *mut u32, table_words: usize,
            kept: *const u64, kept_words: usize, row: *const CertificateRecord, row_count: usize,
            answers: *mut u32, answers_words: usize,
        ) -> u32;
        pub fn forgelilac_owned_guest_advance(
            caller: u32, state: *mut u32, state_words: usize, table: *const u32, table_words: usize,
            kept: *const u64, kept_words: usize,
        ) -> u32;
        pub fn forgelilac_owned_guest_commit(
            caller: u32, state: *mut u32, state_words: usize, table: *mut u32, table_words: usize,
            kept: *mut u64, kept_words: usize,
        ) -> u64;
        pub fn forgelilac_owned_guest_preview(
            caller: u32, state: *const u32, state_words: usize, table: *const u32, table_words: usize,
            kept: *const u64, kept_words: usize, list: *mut u32, list_words: usize,
        ) -> u64;
        pub fn forgelilac_owned_guest_critical(
            caller: u32, state: *const u32, state_words: usize, table: *mut u32, table_words: usize,
            kept: *const u64, kept_words: usize, list: *mut u32, list_words: usize,
        ) -> u64;
        pub fn forgelilac_owned_guest_committee(
            caller: u32, state: *const u32, state_words: usize, table: *const u32, table_words: usize,
            kept: *const u64, kept_words: usize, round: u32, out: *mut u32, out_words: usize,
        ) -> u32;
        pub fn forgelilac_owned_guest_share(
            caller: u32, state: *const u32, state_words: usize, table: *const u32, table_words: usize,
            kept: *const u64, kept_words: usize, member: u32, round: u32,
        ) -> u64;
        pub fn forgelilac_owned_guest_bond_effect(
            caller: u32, state: *const u32, state_words: usize, table: *const u32, table_words: usize,
            kept: *const u64, kept_words: usize, member: u32, round: u32, amount: u32, out: *mut u32,
            out_words: usize,
        ) -> u32;
        pub fn forgelilac_owned_guest_certificate(
            caller: u32, state: *const u32, state_words: usize, table: *const u32, table_words: usize,
            kept: *const u64, kept_words: usize, author: u32, round: u32, out: *mut u32, out_words: usize,
        ) -> u32;
        pub fn forgelilac_owned_guest_block(
            caller: u32, state: *const u32, state_words: usize, table: *const u32, table_words: usize,
            kept: *const u64, kept_words: usize, number: u32,
        ) -> u64;
        pub fn forgelilac_owned_guest_block_rows(
            caller: u32, state: *const u32, state_words: usize, table: *const u32, table_words: usize,
            kept: *const u64, kept_words: usize, known: u32, number: u32, list: *mut u32, list_words: usize,
        ) -> u64;
        pub fn forgelilac_owned_guest_port_read(
            caller: u32, state: *const u32, state_words: usize, table: *mut u32, table_words: usize,
            kept: *const u64, kept_words: usize, offset: u32,
        ) -> u64;
        pub fn forgelilac_owned_guest_port_write(
            caller: u32, state: *const u32, state_words: usize, table: *mut u32, table_words: usize,
            kept: *const u64, kept_words: usize, offset: u32, value: u8,
        ) -> u32;
    }
}

fn read_kept(kept: &[u64]) -> (*const u64, usize) {
    (kept.as_ptr(), kept.len())
}

fn write_kept(kept: &mut [u64]) -> (*mut u64, usize) {
    (kept.as_mut_ptr(), kept.len())
}

/// Calls an owner's function: state, table, kept committees, numbers, after a semicolon one more stretch, and
/// numbers after it.
/// Safe: the three are owned, and the stretches are whole slices that do not overlap and outlive the call.
macro_rules! call {
    ($function:ident $(($caller:expr))?, $words:expr $(, $number:expr)*) => {{
        let (state, table, kept) = $words;
        unsafe { abi::$function($($caller,)? state.0, state.1, table.0, table.1, kept.0, kept.1 $(, $number)*) }
    }};
    ($function:ident $(($caller:expr))?, $words:expr $(, $number:expr)*; $more:expr $(, $last:expr)*) => {{
        let ((state, table, kept), more) = ($words, $more);
        unsafe {
            abi::$function(
                $($caller,)? state.0, state.1, table.0, table.1, kept.0, kept.1 $(, $number)*, more.0, more.1 $(, $last)*
            )
        }
    }};
}

/// The host's function, or the guest's with its number in front.
macro_rules! by {
    ($by:expr, $host:ident, $guest:ident, $($rest:tt)*) => {
        match $by {
            Caller::Host => call!($host, $($rest)*),
            Caller::Guest(caller) => call!($guest(caller), $($rest)*),
        }
    };
}

/// State, table and kept committees as a call is lent them.
type Lending<S, T, K> = ((S, usize), (T, usize), (K, usize));

impl Owned {
    fn as_read(&self) -> Lending<*const u32, *const u32, *const u64> {
        (read(&self.state), read(&self.table), read_kept(&self.kept))
    }

    fn with_state(&mut self) -> Lending<*mut u32, *const u32, *const u64> {
        (write(&mut self.state), read(&self.table), read_kept(&self.kept))
    }

    fn with_table(&mut self) -> Lending<*const u32, *mut u32, *const u64> {
        (read(&self.state), write(&mut self.table), read_kept(&self.kept))
    }

    fn with_both(&mut self) -> Lending<*mut u32, *mut u32, *const u64> {
        (write(&mut self.state), write(&mut self.table), read_kept(&self.kept))
    }

    fn with_all(&mut self) -> Lending<*mut u32, *mut u32, *mut u64> {
        (write(&mut self.state), write(&mut self.table), write_kept(&mut self.kept))
    }
}

impl Calls for Owned {
    fn state(&self) -> &[u32; STATE_WORDS] {
        &self.state
    }

    fn table(&self) -> &[u32] {
        &self.table
    }

    fn is_well_formed(&self) -> bool {
        resume(&self.state, &self.table).is_ok_and(|kept| self.known(&kept) == self.known(&self.kept))
    }

    fn propose(&mut self, by: Caller, body: &[u32]) -> Result<(), Refusal> {
        accepted(by!(by, forgelilac_owned_propose, forgelilac_owned_guest_propose, self.with_state(); read(body)))
    }

    fn enqueue(&mut self, guest: u32, transaction: &[u32]) -> Result<(), Refusal> {
        accepted(call!(forgelilac_owned_enqueue, self.with_table(), guest; read(transaction)))
    }

    fn guest_enqueue(&mut self, caller: u32, transaction: &[u32]) -> Result<(), Refusal> {
        accepted(call!(forgelilac_owned_guest_enqueue(caller), self.with_table(); read(transaction)))
    }

    fn draw(&mut self, by: Caller, previous: Set) -> Result<(), Refusal> {
        accepted(by!(by, forgelilac_owned_draw, forgelilac_owned_guest_draw, self.with_both(), previous.into()))
    }

    fn endorse(&mut self, by: Caller, proposal: &[u32]) -> Result<(), Refusal> {
        accepted(by!(by, forgelilac_owned_endorse, forgelilac_owned_guest_endorse, self.with_table(); read(proposal)))
    }

    fn certify(&mut self, by: Caller, endorsers: Set) -> Result<(), Refusal> {
        let endorsers = endorsers.into();
        accepted(by!(by, forgelilac_owned_certify, forgelilac_owned_guest_certify, self.with_table(), endorsers))
    }

    fn accept(&mut self, by: Caller, certificate: &[u32]) -> Result<(), Refusal> {
        let more = read(certificate);
        accepted(by!(by, forgelilac_owned_accept, forgelilac_owned_guest_accept, self.with_table(); more))
    }

    fn batch(&mut self, by: Caller, row: &[CertificateRecord], answers: &mut [u32]) -> Result<(), Refusal> {
        let (records, count, more) = (row.as_ptr(), row.len(), write(answers));
        let words = self.with_table();
        accepted(by!(by, forgelilac_owned_batch, forgelilac_owned_guest_batch, words, records, count; more))
    }

    fn advance(&mut self, by: Caller) -> Result<(), Refusal> {
        accepted(by!(by, forgelilac_owned_advance, forgelilac_owned_guest_advance, self.with_state()))
    }

    fn commit(&mut self, by: Caller) -> Result<u32, Refusal> {
        value(by!(by, forgelilac_owned_commit, forgelilac_owned_guest_commit, self.with_all()))
    }

    fn port_reset(&mut self, port: u32) -> Result<(), Refusal> {
        accepted(call!(forgelilac_owned_port_reset, self.with_table(), port))
    }

    fn port_read(&mut self, caller: u32, offset: u32) -> Result<u8, Refusal> {
        // A byte, so the low half of the answer fits.
        value(call!(forgelilac_owned_guest_port_read(caller), self.with_table(), offset)).map(|byte| byte as u8)
    }

    fn port_write(&mut self, caller: u32, offset: u32, value: u8) -> Result<(), Refusal> {
        accepted(call!(forgelilac_owned_guest_port_write(caller), self.with_table(), offset, value))
    }

    fn critical(&mut self, by: Caller, list: &mut [u32]) -> Result<u32, Refusal> {
        value(by!(by, forgelilac_owned_critical, forgelilac_owned_guest_critical, self.with_table(); write(list)))
    }

    fn preview(&self, by: Caller, list: &mut [u32]) -> Result<u32, Refusal> {
        value(by!(by, forgelilac_owned_preview, forgelilac_owned_guest_preview, self.as_read(); write(list)))
    }

    fn committee(&self, by: Caller, round: Round) -> Result<[u32; MEMBERS], Refusal> {
        let mut out = [0; MEMBERS];
        let (round, more) = (round.get(), write(&mut out));
        accepted(by!(by, forgelilac_owned_committee, forgelilac_owned_guest_committee, self.as_read(), round; more))?;
        Ok(out)
    }

    fn share(&self, by: Caller, member: Member, round: Round) -> Result<Share, Refusal> {
        let (words, member, round) = (self.as_read(), member.get(), round.get());
        value(by!(by, forgelilac_owned_share, forgelilac_owned_guest_share, words, member, round)).map(Share::new)
    }

    fn bond_effect(&self, by: Caller, member: Member, round: Round, amount: u32) -> Result<Effect, Refusal> {
        let mut out = [0; EFFECT_WORDS];
        let (words, member, round, more) = (self.as_read(), member.get(), round.get(), write(&mut out));
        accepted(by!(
            by, forgelilac_owned_bond_effect, forgelilac_owned_guest_bond_effect, words, member, round, amount; more
        ))?;
        Ok(Effect::from_words(&out))
    }

    fn certificate(&self, by: Caller, author: Member, round: Round) -> Result<[u32; HELD_WORDS], Refusal> {
        let mut out = [0; HELD_WORDS];
        let (words, author, round, more) = (self.as_read(), author.get(), round.get(), write(&mut out));
        accepted(by!(
            by, forgelilac_owned_certificate, forgelilac_owned_guest_certificate, words, author, round; more
        ))?;
        Ok(out)
    }

    fn block(&self, by: Caller, number: u32) -> Result<Round, Refusal> {
        value(by!(by, forgelilac_owned_block, forgelilac_owned_guest_block, self.as_read(), number)).map(Round::new)
    }

    fn block_rows(&self, by: Caller, known: u32, number: u32, list: &mut [u32]) -> Result<u32, Refusal> {
        let (words, more) = (self.as_read(), write(list));
        value(by!(by, forgelilac_owned_block_rows, forgelilac_owned_guest_block_rows, words, known, number; more))
    }
}
