//! Calls and reads on words that the host lends: what a host without an allocator uses. The words
//! are those of docs/HOSTS.md; any length and any content is safe. A refused call changes no word.
//! What is listed under Errors stands in the order of the checks.
//!
//! What a guest asks for goes by the guest's form of the call, with the number of the caller first:
//! [`guest_commit`] and so on. The number is the one that the host knows itself, never one that the guest
//! wrote. A guest's form answers 26 for a caller above 7, then 29 where the caller lacks the right that
//! the call needs; both come before everything else, before 1 too, and no word changes. Else it does and
//! answers what the host's own call does. [`rights`] tells who may do what. Accesses to a serial port,
//! [`guest_port_read`] and [`guest_port_write`], are guests' alone; [`port_reset`] is the host's alone.
//!
//! ```
//! use forgelilac::{body_words, lent, table_words, Member, Round, Sheet, STATE_WORDS};
//!
//! let (mut state, mut table) = ([0; STATE_WORDS], [0; table_words(64) as usize]);
//! let sheet = Sheet { ceiling: Some(64), ..Sheet::default() };
//! lent::open(&mut state, &mut table, Member::new(0), &sheet.to_words(), 0)?;
//! lent::propose(&mut state, &table, &body_words(0, &[]))?;
//! lent::certify(&state, &mut table, 0b0110)?;
//! assert_eq!(lent::certificate(&state, &table, Member::new(0), Round::new(1))?[16], 0b0110);
//! # Ok::<(), forgelilac::Refusal>(())
//! ```

use crate::archive::test_archive;
use crate::layout::{
    BODY_WORDS, CERTIFICATE_WORDS, EFFECT_WORDS, ENTRY_AUTHOR, ENTRY_BLOCK, ENTRY_ROUND, ENTRY_WORDS, GUESTS,
    HELD_WORDS, PLACE_AUTHOR, PLACE_ROUND, PLACE_WORDS, PROPOSAL_WORDS, ROW_HELD, STATE_BLOCKS, STATE_BODY,
    STATE_CEILING, STATE_OWN, STATE_PROPOSED, STATE_RIGHTS, STATE_ROUND, STATE_WORDS, WAITING,
};
use crate::storing::{done, SIGNED_BYTES, SIGNED_CERTIFICATE_BYTES};
use crate::{layout, Effect, Member, Refusal, Rights, Round, Set, Share, StoringRefusal, MEMBERS};

/// The exported functions. Each slice is a pointer and a length in words, of a row in records. Any
/// length and any content is safe; pointers that come from slices are never null and do not overlap.
#[rustfmt::skip]
pub(crate) mod abi {
    use super::CertificateRecord;

    unsafe extern "C" {
        pub fn forgelilac_version() -> u32;
        pub fn forgelilac_format() -> u32;
        pub fn forgelilac_format_3() -> u32;
        pub fn forgelilac_leader_of(
            round: u32, weights: *const u32, weights_words: usize,
        ) -> u32;
        pub fn forgelilac_open(
            state: *mut u32, state_words: usize, table: *mut u32, table_words: usize,
            own: u32, sheet: *const u32, sheet_words: usize, rights: u32,
        ) -> u32;
        pub fn forgelilac_propose(
            state: *mut u32, state_words: usize, table: *const u32, table_words: usize,
            body: *const u32, body_words: usize,
        ) -> u32;
        pub fn forgelilac_enqueue(
            state: *const u32, state_words: usize, table: *mut u32, table_words: usize,
            guest: u32, transaction: *const u32, transaction_words: usize,
        ) -> u32;
        pub fn forgelilac_draw(
            state: *mut u32, state_words: usize, table: *mut u32, table_words: usize, previous: u32,
        ) -> u32;
        pub fn forgelilac_endorse(
            state: *const u32, state_words: usize, table: *mut u32, table_words: usize,
            proposal: *const u32, proposal_words: usize,
        ) -> u32;
        pub fn forgelilac_certify(
            state: *const u32, state_words: usize, table: *mut u32, table_words: usize,
            endorsers: u32,
        ) -> u32;
        pub fn forgelilac_accept(
            state: *const u32, state_words: usize, table: *mut u32, table_words: usize,
            certificate: *const u32, certificate_words: usize,
        ) -> u32;
        pub fn forgelilac_batch(
            state: *const u32, state_words: usize, table: *mut u32, table_words: usize,
            row: *const CertificateRecord, row_count: usize, answers: *mut u32, answers_words: usize,
        ) -> u32;
        pub fn forgelilac_advance(
            state: *mut u32, state_words: usize, table: *const u32, table_words: usize,
        ) -> u32;
        pub fn forgelilac_commit(
            state: *mut u32, state_words: usize, table: *mut u32, table_words: usize,
        ) -> u64;
        pub fn forgelilac_preview(
            state: *const u32, state_words: usize, table: *const u32, table_words: usize,
            list: *mut u32, list_words: usize,
        ) -> u64;
        pub fn forgelilac_critical(
            state: *const u32, state_words: usize, table: *mut u32, table_words: usize,
            list: *mut u32, list_words: usize,
        ) -> u64;
        pub fn forgelilac_committee(
            state: *const u32, state_words: usize, table: *const u32, table_words: usize,
            round: u32, out: *mut u32, out_words: usize,
        ) -> u32;
        pub fn forgelilac_share(
            state: *const u32, state_words: usize, table: *const u32, table_words: usize,
            member: u32, round: u32,
        ) -> u64;
        pub fn forgelilac_bond_effect(
            state: *const u32, state_words: usize, table: *const u32, table_words: usize,
            member: u32, round: u32, amount: u32, out: *mut u32, out_words: usize,
        ) -> u32;
        pub fn forgelilac_certificate(
            state: *const u32, state_words: usize, table: *const u32, table_words: usize,
            author: u32, round: u32, out: *mut u32, out_words: usize,
        ) -> u32;
        pub fn forgelilac_block(
            state: *const u32, state_words: usize, table: *const u32, table_words: usize,
            number: u32,
        ) -> u64;
        pub fn forgelilac_block_rows(
            state: *const u32, state_words: usize, table: *const u32, table_words: usize,
            known: u32, number: u32, list: *mut u32, list_words: usize,
        ) -> u64;
        pub fn forgelilac_port_reset(
            state: *const u32, state_words: usize, table: *mut u32, table_words: usize, guest: u32,
        ) -> u32;

        // Storing.
        pub fn forgelilac_store(
            state: *const u32, state_words: usize, table: *const u32, table_words: usize,
            run: u64, bytes: *mut u8, bytes_count: usize,
        ) -> u32;
        pub fn forgelilac_load(
            bytes: *const u8, bytes_count: usize, own: u32, run: u64,
            state: *mut u32, state_words: usize, table: *mut u32, table_words: usize,
        ) -> u32;
        pub fn forgelilac_proposal_bytes(
            state: *const u32, state_words: usize, run: u64,
            proposal: *const u32, proposal_words: usize, bytes: *mut u8, bytes_count: usize,
        ) -> u32;
        pub fn forgelilac_endorsement_bytes(
            state: *const u32, state_words: usize, run: u64,
            proposal: *const u32, proposal_words: usize, bytes: *mut u8, bytes_count: usize,
        ) -> u32;
        pub fn forgelilac_certificate_bytes(
            state: *const u32, state_words: usize, run: u64,
            certificate: *const u32, certificate_words: usize, bytes: *mut u8, bytes_count: usize,
        ) -> u32;

        // Guests' forms.
        pub fn forgelilac_guest_propose(
            caller: u32, state: *mut u32, state_words: usize, table: *const u32, table_words: usize,
            body: *const u32, body_words: usize,
        ) -> u32;
        pub fn forgelilac_guest_enqueue(
            caller: u32, state: *const u32, state_words: usize, table: *mut u32, table_words: usize,
            transaction: *const u32, transaction_words: usize,
        ) -> u32;
        pub fn forgelilac_guest_draw(
            caller: u32, state: *mut u32, state_words: usize, table: *mut u32, table_words: usize, previous: u32,
        ) -> u32;
        pub fn forgelilac_guest_endorse(
            caller: u32, state: *const u32, state_words: usize, table: *mut u32, table_words: usize,
            proposal: *const u32, proposal_words: usize,
        ) -> u32;
        pub fn forgelilac_guest_certify(
            caller: u32, state: *const u32, state_words: usize, table: *mut u32, table_words: usize,
            endorsers: u32,
        ) -> u32;
        pub fn forgelilac_guest_accept(
            caller: u32, state: *const u32, state_words: usize, table: *mut u32, table_words: usize,
            certificate: *const u32, certificate_words: usize,
        ) -> u32;
        pub fn forgelilac_guest_batch(
            caller: u32, state: *const u32, state_words: usize, table: *mut u32, table_words: usize,
            row: *const CertificateRecord, row_count: usize, answers: *mut u32, answers_words: usize,
        ) -> u32;
        pub fn forgelilac_guest_advance(
            caller: u32, state: *mut u32, state_words: usize, table: *const u32, table_words: usize,
        ) -> u32;
        pub fn forgelilac_guest_commit(
            caller: u32, state: *mut u32, state_words: usize, table: *mut u32, table_words: usize,
        ) -> u64;
        pub fn forgelilac_guest_preview(
            caller: u32, state: *const u32, state_words: usize, table: *const u32, table_words: usize,
            list: *mut u32, list_words: usize,
        ) -> u64;
        pub fn forgelilac_guest_critical(
            caller: u32, state: *const u32, state_words: usize, table: *mut u32, table_words: usize,
            list: *mut u32, list_words: usize,
        ) -> u64;
        pub fn forgelilac_guest_committee(
            caller: u32, state: *const u32, state_words: usize, table: *const u32, table_words: usize,
            round: u32, out: *mut u32, out_words: usize,
        ) -> u32;
        pub fn forgelilac_guest_share(
            caller: u32, state: *const u32, state_words: usize, table: *const u32, table_words: usize,
            member: u32, round: u32,
        ) -> u64;
        pub fn forgelilac_guest_bond_effect(
            caller: u32, state: *const u32, state_words: usize, table: *const u32, table_words: usize,
            member: u32, round: u32, amount: u32, out: *mut u32, out_words: usize,
        ) -> u32;
        pub fn forgelilac_guest_certificate(
            caller: u32, state: *const u32, state_words: usize, table: *const u32, table_words: usize,
            author: u32, round: u32, out: *mut u32, out_words: usize,
        ) -> u32;
        pub fn forgelilac_guest_block(
            caller: u32, state: *const u32, state_words: usize, table: *const u32, table_words: usize,
            number: u32,
        ) -> u64;
        pub fn forgelilac_guest_block_rows(
            caller: u32, state: *const u32, state_words: usize, table: *const u32, table_words: usize,
            known: u32, number: u32, list: *mut u32, list_words: usize,
        ) -> u64;
        pub fn forgelilac_guest_port_read(
            caller: u32, state: *const u32, state_words: usize, table: *mut u32, table_words: usize, offset: u32,
        ) -> u64;
        pub fn forgelilac_guest_port_write(
            caller: u32, state: *const u32, state_words: usize, table: *mut u32, table_words: usize,
            offset: u32, value: u8,
        ) -> u32;
    }
}

/// A number that the engine answers.
pub(crate) fn accepted(number: u32) -> Result<(), Refusal> {
    match number {
        0 => Ok(()),
        n => Err(Refusal::of(n).expect("the engine of this version answers 0 to 23 and 25 to 31")),
    }
}

/// Low half the value, high half the refusal number.
pub(crate) fn value(answer: u64) -> Result<u32, Refusal> {
    accepted((answer >> 32) as u32)?;
    Ok(answer as u32)
}

pub(crate) fn read(words: &[u32]) -> (*const u32, usize) {
    (words.as_ptr(), words.len())
}

pub(crate) fn write(words: &mut [u32]) -> (*mut u32, usize) {
    (words.as_mut_ptr(), words.len())
}

/// Calls an exported function, a guest's form with its caller in parentheses: state, table, numbers,
/// after a semicolon one more stretch, and numbers after it.
/// Safe: the stretches are whole slices that do not overlap and outlive the call.
macro_rules! call {
    ($function:ident $(($caller:expr))?, $state:expr, $table:expr $(, $number:expr)*) => {{
        let (state, table) = ($state, $table);
        unsafe { abi::$function($($caller,)? state.0, state.1, table.0, table.1 $(, $number)*) }
    }};
    ($function:ident $(($caller:expr))?, $state:expr, $table:expr $(, $number:expr)*; $more:expr $(, $last:expr)*) => {{
        let (state, table, more) = ($state, $table, $more);
        unsafe {
            abi::$function($($caller,)? state.0, state.1, table.0, table.1 $(, $number)*, more.0, more.1 $(, $last)*)
        }
    }};
}

/// A certificate of the chain, or of a block that a commit would add. One that a commit hangs on is a
/// [`crate::Critical`], which names no block.
#[derive(Clone, Copy, PartialEq, Eq, Hash, Debug, Default)]
pub struct Place {
    /// The number of its block, from 1.
    pub block: u32,
    /// Its author.
    pub author: Member,
    /// Its round.
    pub round: Round,
}

/// A certificate of a block that a commit would add, as [`chain`] lists it once it is there.
pub type Entry = Place;

/// A certificate of a row, for [`batch`]: its words in their order.
#[derive(Clone, Copy, PartialEq, Eq, Hash, Debug)]
#[repr(C)]
pub struct CertificateRecord {
    /// The member that proposed.
    pub author: u32,
    /// From 1.
    pub round: u32,
    /// Previous set, number of transactions, four transactions.
    pub body: [u32; BODY_WORDS],
    /// A set of members.
    pub endorsers: u32,
}

impl From<[u32; CERTIFICATE_WORDS]> for CertificateRecord {
    /// The record of a certificate's words, as [`accept`] takes them.
    fn from(words: [u32; CERTIFICATE_WORDS]) -> CertificateRecord {
        let mut body = [0; BODY_WORDS];
        body.copy_from_slice(&words[2..PROPOSAL_WORDS]);
        CertificateRecord { author: words[0], round: words[1], body, endorsers: words[PROPOSAL_WORDS] }
    }
}

// ---- calls

/// Opens a member: the state is written fresh, and the used part of the table cleared. The rights of
/// guests are a word ([`Rights::to_word`]), 0 for none; any word is some rights, and no later call
/// changes them.
///
/// # Errors
/// [`Refusal::Malformed`] for words that cannot be read, [`Refusal::MemberRange`], [`Refusal::SettingRange`],
/// [`Refusal::NoWeight`], [`Refusal::Malformed`] for a table that is too short.
pub fn open(state: &mut [u32], table: &mut [u32], own: Member, sheet: &[u32], rights: u32) -> Result<(), Refusal> {
    test_archive();
    accepted(call!(forgelilac_open, write(state), write(table), own.get(); read(sheet), rights))
}

/// Proposes a body for one's own place of the present round; the state keeps it until advance.
///
/// # Errors
/// [`Refusal::Malformed`], [`Refusal::TransactionsRange`], [`Refusal::PreviousEmpty`], [`Refusal::PlaceTaken`],
/// [`Refusal::CommitteeUnknown`], [`Refusal::Outside`], [`Refusal::PreviousMissing`],
/// [`Refusal::PreviousQuorum`].
pub fn propose(state: &mut [u32], table: &[u32], body: &[u32]) -> Result<(), Refusal> {
    accepted(call!(forgelilac_propose, write(state), read(table); read(body)))
}

/// Adds a transaction's words (kind, number, amount) to the queue of a guest, as its youngest. Only
/// the table changes.
///
/// A busy guest and two others share a proposal of four:
///
/// ```
/// use forgelilac::{lent, proposal_words, table_words, Member, Round, Sheet, Transaction, STATE_WORDS};
///
/// let (mut state, mut table) = ([0; STATE_WORDS], [0; table_words(64) as usize]);
/// lent::open(&mut state, &mut table, Member::new(0), &Sheet { ceiling: Some(64), ..Sheet::default() }.to_words(), 0)?;
/// let entry = |number| Transaction::Entry { number };
/// for (guest, number) in [(2, 20), (2, 21), (2, 22), (7, 70), (1, 10)] {
///     lent::enqueue(&state, &mut table, guest, &entry(number).to_words())?;
/// }
/// lent::draw(&mut state, &mut table, 0)?;
/// assert_eq!(
///     lent::own_proposal(&state),
///     Some(proposal_words(Member::new(0), Round::new(1), 0, &[10, 20, 70, 21].map(entry)))
/// );
/// assert_eq!(lent::waiting(&state, &table, 2), Ok(1));
/// # Ok::<(), forgelilac::Refusal>(())
/// ```
///
/// # Errors
/// [`Refusal::Malformed`], [`Refusal::GuestRange`], [`Refusal::TransactionsRange`], [`Refusal::QueueFull`].
pub fn enqueue(state: &[u32], table: &mut [u32], guest: u32, transaction: &[u32]) -> Result<(), Refusal> {
    accepted(call!(forgelilac_enqueue, read(state), write(table), guest; read(transaction)))
}

/// Proposes what it draws from the queues: the oldest transaction of each guest with something
/// waiting, starting after the guest served last, at first with 0, going round until the allowance is
/// met or the queues are empty. What was drawn leaves its queues, and the guest of the last one is the
/// guest served last; the state keeps the proposal until advance.
///
/// # Errors
/// [`Refusal::Malformed`], [`Refusal::PreviousEmpty`], [`Refusal::PlaceTaken`], [`Refusal::CommitteeUnknown`],
/// [`Refusal::Outside`], [`Refusal::PreviousMissing`], [`Refusal::PreviousQuorum`].
pub fn draw(state: &mut [u32], table: &mut [u32], previous: Set) -> Result<(), Refusal> {
    accepted(call!(forgelilac_draw, write(state), write(table), previous.into()))
}

/// Endorses another's proposal: its place is marked endorsed.
///
/// # Errors
/// [`Refusal::Malformed`], [`Refusal::MemberRange`], [`Refusal::RoundRange`], [`Refusal::TransactionsRange`],
/// [`Refusal::PreviousEmpty`], [`Refusal::SignedTwice`], [`Refusal::PlaceTaken`],
/// [`Refusal::CommitteeUnknown`], [`Refusal::PreviousMissing`], [`Refusal::PreviousQuorum`].
pub fn endorse(state: &[u32], table: &mut [u32], proposal: &[u32]) -> Result<(), Refusal> {
    accepted(call!(forgelilac_endorse, read(state), write(table); read(proposal)))
}

/// Makes a certificate of one's own proposal with these endorsers: it is held.
///
/// # Errors
/// [`Refusal::Malformed`], [`Refusal::NoProposal`], [`Refusal::PlaceTaken`], [`Refusal::SignedTwice`],
/// [`Refusal::CommitteeUnknown`], [`Refusal::Outside`], [`Refusal::SignersShort`].
pub fn certify(state: &[u32], table: &mut [u32], endorsers: Set) -> Result<(), Refusal> {
    accepted(call!(forgelilac_certify, read(state), write(table), endorsers.into()))
}

/// Takes a certificate: it is held with its endorsers, and its endorsed mark cleared.
///
/// # Errors
/// [`Refusal::Malformed`], [`Refusal::MemberRange`], [`Refusal::RoundRange`], [`Refusal::TransactionsRange`],
/// [`Refusal::PreviousEmpty`], [`Refusal::SignedTwice`], [`Refusal::SameHeld`], [`Refusal::OtherHeld`],
/// [`Refusal::CommitteeUnknown`], [`Refusal::Outside`], [`Refusal::SignersShort`],
/// [`Refusal::PreviousMissing`].
pub fn accept(state: &[u32], table: &mut [u32], certificate: &[u32]) -> Result<(), Refusal> {
    accepted(call!(forgelilac_accept, read(state), write(table); read(certificate)))
}

/// Takes a row of up to 64 certificates in any order. They are tried by rising round, then author,
/// then place in the row. Each gets what [`accept`] would have answered at its turn, as a number and
/// 0 where it was accepted, at its own place in the answers; a record that cannot be read gets 1, and
/// the others are tried. Answers beyond the row stay. What got 11 gets 11 again straight afterwards,
/// or 17 where the row has filled its place with another.
///
/// Rounds 2 and 1, newest first: one by one the first would get 11.
///
/// ```
/// use forgelilac::{certificate_words, lent, proposal_words, table_words, Member, Round, Sheet, STATE_WORDS};
///
/// let (mut state, mut table) = ([0; STATE_WORDS], [0; table_words(64) as usize]);
/// let sheet = Sheet { ceiling: Some(64), ..Sheet::default() };
/// lent::open(&mut state, &mut table, Member::new(0), &sheet.to_words(), 0)?;
/// let certificate =
///     |round, previous| certificate_words(&proposal_words(Member::new(3), round, previous, &[]), 0b0110);
/// let row = [certificate(Round::new(2), 0b1000), certificate(Round::new(1), 0)].map(Into::into);
/// let mut answers = [77; 3];
/// lent::batch(&state, &mut table, &row, &mut answers)?;
/// assert_eq!(answers, [0, 0, 77]);
/// # Ok::<(), forgelilac::Refusal>(())
/// ```
///
/// # Errors
/// [`Refusal::Malformed`], [`Refusal::LengthRange`]: then nothing is tried.
pub fn batch(state: &[u32], table: &mut [u32], row: &[CertificateRecord], answers: &mut [u32]) -> Result<(), Refusal> {
    let (records, count) = (row.as_ptr(), row.len());
    accepted(call!(forgelilac_batch, read(state), write(table), records, count; write(answers)))
}

/// Goes on to the next round, once the authors of the certificates held in the present round form a
/// quorum of its committee; the proposal is dropped. Only the state changes.
///
/// Of four members of weight 1 a quorum is three:
///
/// ```
/// use forgelilac::{
///     certificate_words, lent, proposal_words, table_words, Member, Refusal, Round, Sheet, STATE_WORDS,
/// };
///
/// let (mut state, mut table) = ([0; STATE_WORDS], [0; table_words(64) as usize]);
/// lent::open(&mut state, &mut table, Member::new(0), &Sheet { ceiling: Some(64), ..Sheet::default() }.to_words(), 0)?;
/// for author in 1..4 {
///     assert_eq!(lent::advance(&mut state, &table), Err(Refusal::ThinRound));
///     let certificate =
///         certificate_words(&proposal_words(Member::new(author), Round::new(1), 0, &[]), 0b1111 & !(1 << author));
///     lent::accept(&state, &mut table, &certificate)?;
/// }
/// lent::advance(&mut state, &table)?;
/// # Ok::<(), Refusal>(())
/// ```
///
/// # Errors
/// [`Refusal::Malformed`], [`Refusal::AtCeiling`], [`Refusal::CommitteeUnknown`] for that of the present round,
/// [`Refusal::ThinRound`].
pub fn advance(state: &mut [u32], table: &[u32]) -> Result<(), Refusal> {
    accepted(call!(forgelilac_advance, write(state), read(table)))
}

/// Makes blocks: the number of blocks added.
///
/// # Errors
/// [`Refusal::Malformed`], [`Refusal::NoCommitRound`], [`Refusal::BlockMade`], [`Refusal::CommitteeUnknown`],
/// [`Refusal::NoAnchor`], [`Refusal::VotesShort`].
pub fn commit(state: &mut [u32], table: &mut [u32]) -> Result<u32, Refusal> {
    value(call!(forgelilac_commit, write(state), write(table)))
}

/// Resets the port of a guest, as when the guest is started anew: all registers that it holds are 0, and
/// reading resumes at the listing's start. An accepted [`open`] resets every port; otherwise only this
/// does, and no guest has it. Only the table changes.
///
/// # Errors
/// [`Refusal::GuestRange`], also where the words of the state cannot be read; [`Refusal::Malformed`].
pub fn port_reset(state: &[u32], table: &mut [u32], port: u32) -> Result<(), Refusal> {
    accepted(call!(forgelilac_port_reset, read(state), write(table), port))
}

// ---- reads

/// What would a commit do? The words of the certificates of each block that it would add, in order:
/// block number, round, author. How many certificates there are; what the list has beyond their
/// words stays. It is what committing on a copy of state and table, and reading the new blocks
/// there, gives. [`entries`] reads the list.
///
/// Of the list three words are a place, and 16 places per round of the ceiling are asked for
/// ([`crate::layout::preview_words`]), however few there are to list.
///
/// One member alone, in round 3:
///
/// ```
/// use forgelilac::lent::{self, Entry};
/// use forgelilac::{body_words, layout, table_words, Member, Refusal, Round, Sheet, STATE_WORDS};
///
/// let (mut state, mut table) = ([0; STATE_WORDS], [0; table_words(64) as usize]);
/// let mut sheet = Sheet { ceiling: Some(64), ..Sheet::default() };
/// sheet.weights[1..4].fill(Some(0));
/// lent::open(&mut state, &mut table, Member::new(0), &sheet.to_words(), 0)?;
/// let mut list = [77; layout::preview_words(64)];
/// for round in 1..=3 {
///     lent::propose(&mut state, &table, &body_words((round > 1).into(), &[]))?;
///     lent::certify(&state, &mut table, 0)?;
///     if round < 3 {
///         assert_eq!(lent::preview(&state, &table, &mut list), Err(Refusal::NoCommitRound));
///         lent::advance(&mut state, &table)?;
///     }
/// }
/// assert_eq!(lent::preview(&state, &table, &mut list), Ok(2));
/// assert_eq!(list[..7], [1, 1, 0, 1, 2, 0, 77]);
/// assert!(lent::entries(&list, 2).eq([1, 2].map(|round| Entry {
///     block: 1,
///     round: Round::new(round),
///     author: Member::new(0)
/// })));
/// # Ok::<(), Refusal>(())
/// ```
///
/// # Errors
/// [`Refusal::Malformed`], [`Refusal::LengthRange`], then those of [`commit`]: [`Refusal::NoCommitRound`],
/// [`Refusal::BlockMade`], [`Refusal::CommitteeUnknown`], [`Refusal::NoAnchor`], [`Refusal::VotesShort`].
/// Nothing is written then.
pub fn preview(state: &[u32], table: &[u32], list: &mut [u32]) -> Result<u32, Refusal> {
    value(call!(forgelilac_preview, read(state), read(table); write(list)))
}

/// The first entries of a list that [`preview`] has written, as many as it has told.
pub fn entries(list: &[u32], count: u32) -> impl Iterator<Item = Entry> + '_ {
    let words = list.chunks_exact(ENTRY_WORDS).take(count as usize);
    words.map(|at| Entry {
        block: at[ENTRY_BLOCK],
        author: Member::new(at[ENTRY_AUTHOR]),
        round: Round::new(at[ENTRY_ROUND]),
    })
}

/// Which certificates does a commit hang on? The words of every held certificate of the present round
/// and the one before whose absence alone would turn that commit into a refusal, by round, then author:
/// round, author. How many certificates there are; what the list has beyond their words stays. In every
/// state that calls lead to from an opening it is the anchor, and each vote without which the remaining
/// votes weigh not more than the fault bound. [`criticals`] reads the list.
///
/// Of the list two words are a place, and 32 places are asked for ([`crate::layout::CRITICAL_WORDS`]),
/// however few there are to list.
///
/// The table is lent for writing, and is afterwards word for word as it was. Where a commit would be
/// accepted and a certificate of the two rounds already is in a block, as in no state that calls lead to
/// from an opening, the engine clears its held bit, makes the checks, and sets the bit again. So the table
/// must lie in memory that can be written, and no other call may run on it meanwhile, no read either.
/// There is nothing to store afterwards.
///
/// Of four members of weight 1 the bound is 1. The commit hangs on the anchor, on both of two votes, and
/// on none of three:
///
/// ```
/// use forgelilac::{certificate_words, lent, proposal_words, table_words, Member, Round};
/// use forgelilac::{layout::CRITICAL_WORDS, Critical, Refusal, Sheet, STATE_WORDS};
///
/// let (mut state, mut table) = ([0; STATE_WORDS], [0; table_words(64) as usize]);
/// lent::open(&mut state, &mut table, Member::new(0), &Sheet { ceiling: Some(64), ..Sheet::default() }.to_words(), 0)?;
/// let certificate = |author, round, previous| {
///     certificate_words(&proposal_words(author, round, previous, &[]), 0b1111 & !author.bit())
/// };
/// for (round, previous) in [(1, 0), (2, 0b0111)] {
///     for author in 0..3 {
///         lent::accept(&state, &mut table, &certificate(Member::new(author), Round::new(round), previous))?;
///     }
///     lent::advance(&mut state, &table)?;
/// }
/// let mut list = [77; CRITICAL_WORDS];
/// lent::accept(&state, &mut table, &certificate(Member::new(0), Round::new(3), 0b0111))?;
/// assert_eq!(lent::critical(&state, &mut table, &mut list), Err(Refusal::VotesShort));
/// lent::accept(&state, &mut table, &certificate(Member::new(2), Round::new(3), 0b0111))?;
/// assert_eq!(lent::critical(&state, &mut table, &mut list), Ok(3));
/// assert_eq!(list[..7], [2, 1, 3, 0, 3, 2, 77]);
/// lent::accept(&state, &mut table, &certificate(Member::new(3), Round::new(3), 0b0111))?;
/// assert_eq!(lent::critical(&state, &mut table, &mut list), Ok(1));
/// assert!(lent::criticals(&list, 1).eq([Critical { round: Round::new(2), author: Member::new(1) }]));
/// # Ok::<(), Refusal>(())
/// ```
///
/// # Errors
/// [`Refusal::Malformed`], [`Refusal::LengthRange`], then those of [`commit`]: [`Refusal::NoCommitRound`],
/// [`Refusal::BlockMade`], [`Refusal::CommitteeUnknown`], [`Refusal::NoAnchor`], [`Refusal::VotesShort`]. The
/// list is not written then.
pub fn critical(state: &[u32], table: &mut [u32], list: &mut [u32]) -> Result<u32, Refusal> {
    value(call!(forgelilac_critical, read(state), write(table); write(list)))
}

/// The first places of a list that [`critical`] has written, as many as it has told.
pub fn criticals(list: &[u32], count: u32) -> impl Iterator<Item = crate::Critical> + '_ {
    let words = list.chunks_exact(PLACE_WORDS).take(count as usize);
    words.map(|at| crate::Critical { round: Round::new(at[PLACE_ROUND]), author: Member::new(at[PLACE_AUTHOR]) })
}

/// Sixteen weights of a round's committee, 0 for a non-member.
///
/// # Errors
/// [`Refusal::Malformed`], [`Refusal::RoundRange`], [`Refusal::CommitteeUnknown`].
pub fn committee(state: &[u32], table: &[u32], round: Round) -> Result<[u32; MEMBERS], Refusal> {
    let mut out = [0; MEMBERS];
    accepted(call!(forgelilac_committee, read(state), read(table), round.get(); write(&mut out)))?;
    Ok(out)
}

/// A member's weight in thousandths of its committee's total, to the nearest; an exact half goes to
/// the even one. A member may have 0; a non-member is refused.
///
/// # Errors
/// [`Refusal::Malformed`], [`Refusal::MemberRange`], [`Refusal::RoundRange`], [`Refusal::CommitteeUnknown`],
/// [`Refusal::Outside`].
pub fn share(state: &[u32], table: &[u32], member: Member, round: Round) -> Result<Share, Refusal> {
    value(call!(forgelilac_share, read(state), read(table), member.get(), round.get())).map(Share::new)
}

/// How far does a bond move the shares? Those of a round's committee, those that it would have after a
/// bond of the member by the amount, and the largest difference of a member's two. Shares are those of
/// [`share`], and 0 for a non-member. The bond adds the amount to the member's weight; a non-member
/// joins. With total n before the bond and amount k the largest difference is never more than 1 plus the
/// whole part of 1,000 × k / (n + k). Nothing is bonded.
///
/// Four members of weight 1, and member 5 would join with 2:
///
/// ```
/// use forgelilac::{lent, table_words, Member, Refusal, Round, Sheet, STATE_WORDS};
///
/// let (mut state, mut table) = ([0; STATE_WORDS], [0; table_words(64) as usize]);
/// lent::open(&mut state, &mut table, Member::new(0), &Sheet { ceiling: Some(64), ..Sheet::default() }.to_words(), 0)?;
/// let effect = lent::bond_effect(&state, &table, Member::new(5), Round::new(1), 2)?;
/// assert_eq!(effect.before[..6], [250, 250, 250, 250, 0, 0]);
/// assert_eq!(effect.after[..6], [167, 167, 167, 167, 0, 333]);
/// assert_eq!(effect.largest, 333);
/// assert_eq!(
///     lent::bond_effect(&state, &table, Member::new(5), Round::new(1), 1_001),
///     Err(Refusal::TransactionsRange)
/// );
/// # Ok::<(), Refusal>(())
/// ```
///
/// # Errors
/// [`Refusal::Malformed`], [`Refusal::MemberRange`], [`Refusal::RoundRange`], [`Refusal::TransactionsRange`]
/// for an amount other than 1 to 1,000, [`Refusal::CommitteeUnknown`], [`Refusal::EmptyCommittee`].
pub fn bond_effect(state: &[u32], table: &[u32], member: Member, round: Round, amount: u32) -> Result<Effect, Refusal> {
    let mut out = [0; EFFECT_WORDS];
    accepted(
        call!(forgelilac_bond_effect, read(state), read(table), member.get(), round.get(), amount; write(&mut out)),
    )?;
    Ok(Effect::from_words(&out))
}

/// The words of a held certificate: proposal, endorsers, number of its block, 0 for none. The
/// first 17 are a certificate as [`accept`] takes it.
///
/// # Errors
/// [`Refusal::Malformed`], [`Refusal::MemberRange`], [`Refusal::RoundRange`], [`Refusal::NoneThere`].
pub fn certificate(state: &[u32], table: &[u32], author: Member, round: Round) -> Result<[u32; HELD_WORDS], Refusal> {
    let mut out = [0; HELD_WORDS];
    accepted(call!(forgelilac_certificate, read(state), read(table), author.get(), round.get(); write(&mut out)))?;
    Ok(out)
}

/// The round of a block; blocks count from 1.
///
/// # Errors
/// [`Refusal::Malformed`], [`Refusal::NoneThere`].
pub fn block(state: &[u32], table: &[u32], number: u32) -> Result<Round, Refusal> {
    value(call!(forgelilac_block, read(state), read(table), number)).map(Round::new)
}

/// What blocks hold: of `number` blocks after the first `known`, the words of every certificate, oldest
/// block first, each as [`certificate`] gives them. Inside a block rounds rise; within a round numbers
/// rise from that of the leader of the block's round, with 0 after 15. 0 and the number of blocks give the
/// whole chain; after a commit that added n, what is new are the n after those there were. How many
/// certificates there are; what the list has beyond their words stays. [`rows`] reads the list.
///
/// Any list with room for these certificates serves, and one of [`crate::layout::rows_words`] always does.
///
/// One member alone, after its first block:
///
/// ```
/// use forgelilac::{body_words, layout, lent, table_words, Member, Refusal, Round, Sheet, STATE_WORDS};
///
/// let (mut state, mut table) = ([0; STATE_WORDS], [0; table_words(64) as usize]);
/// let mut sheet = Sheet { ceiling: Some(64), ..Sheet::default() };
/// sheet.weights[1..4].fill(Some(0));
/// lent::open(&mut state, &mut table, Member::new(0), &sheet.to_words(), 0)?;
/// for round in 1..=3 {
///     lent::propose(&mut state, &table, &body_words((round > 1).into(), &[]))?;
///     lent::certify(&state, &mut table, 0)?;
///     if round < 3 {
///         lent::advance(&mut state, &table)?;
///     }
/// }
/// let mut list = vec![77; layout::rows_words(64)];
/// assert_eq!(lent::block_rows(&state, &table, 0, 1, &mut list), Err(Refusal::NoneThere));
/// lent::commit(&mut state, &mut table)?;
/// assert_eq!(lent::block_rows(&state, &table, 0, 1, &mut list), Ok(2));
/// assert_eq!(list[2 * layout::HELD_WORDS], 77);
/// let held = [1, 2].map(|round| lent::certificate(&state, &table, Member::new(0), Round::new(round)).unwrap());
/// assert!(lent::rows(&list, 2).eq(held));
/// assert_eq!(lent::block_rows(&state, &table, 0, 1, &mut list[..35]), Err(Refusal::LengthRange));
/// # Ok::<(), Refusal>(())
/// ```
///
/// # Errors
/// [`Refusal::Malformed`], [`Refusal::NoneThere`] where there are fewer blocks, [`Refusal::LengthRange`] where
/// the list has no room. Nothing is written then.
pub fn block_rows(state: &[u32], table: &[u32], known: u32, number: u32, list: &mut [u32]) -> Result<u32, Refusal> {
    value(call!(forgelilac_block_rows, read(state), read(table), known, number; write(list)))
}

/// The words of each certificate of a list that [`block_rows`] has written, as many as it has told.
pub fn rows(list: &[u32], count: u32) -> impl Iterator<Item = [u32; HELD_WORDS]> + '_ {
    list.chunks_exact(HELD_WORDS).take(count as usize).map(|at| {
        let mut words = [0; HELD_WORDS];
        words.copy_from_slice(at);
        words
    })
}

/// The chain: the rows of all blocks ([`block_rows`]), and how many certificates it has. [`places`] reads
/// block, author and round of each, [`rows`] all of its words.
///
/// # Errors
/// [`Refusal::Malformed`], [`Refusal::LengthRange`] where the list has no room for the rows of all blocks; one
/// of [`crate::layout::rows_words`] always has. Nothing is written then.
pub fn chain(state: &[u32], table: &[u32], list: &mut [u32]) -> Result<u32, Refusal> {
    block_rows(state, table, 0, blocks(state), list)
}

/// Block, author and round of each certificate of a list that [`block_rows`] or [`chain`] has written, as many
/// as it has told.
pub fn places(list: &[u32], count: u32) -> impl Iterator<Item = Place> + '_ {
    rows(list, count).map(|words| Place {
        block: words[CERTIFICATE_WORDS],
        author: Member::new(words[0]),
        round: Round::new(words[1]),
    })
}

/// The number of blocks: a word of the state, and no call is made. 0 where the words end before it.
#[must_use]
pub fn blocks(state: &[u32]) -> u32 {
    state.get(STATE_BLOCKS).copied().unwrap_or(0)
}

/// How many transactions wait in the queue of a guest: a word of the table, once a read of block 0 has
/// told that the state is well formed.
///
/// # Errors
/// [`Refusal::Malformed`], [`Refusal::GuestRange`].
pub fn waiting(state: &[u32], table: &[u32], guest: u32) -> Result<u32, Refusal> {
    if !is_well_formed(state, table) {
        return Err(Refusal::Malformed);
    }
    waiting_in(table, guest)
}

/// The same, of a state that is well formed.
pub(crate) fn waiting_in(table: &[u32], guest: u32) -> Result<u32, Refusal> {
    let counts = &table[WAITING..WAITING + GUESTS];
    counts.get(guest as usize).copied().ok_or(Refusal::GuestRange)
}

/// The authors whose certificates of a round are held: a word of the table, and no call is made. 0 for a
/// round out of range, so the held set of the round before the present one is the previous set to name.
#[must_use]
pub fn held(state: &[u32], table: &[u32], round: Round) -> Set {
    let in_range = round.get() > 0 && state.get(STATE_CEILING).is_some_and(|&ceiling| round <= Round::new(ceiling));
    let word = if in_range { table.get(layout::row(round.get()) + ROW_HELD) } else { None };
    word.and_then(|&word| Set::try_from(word).ok()).unwrap_or(0)
}

/// The words of one's own proposal for the present round, for sending; nothing where the state keeps
/// none. They are words of the state, and no call is made. [`crate::transactions_of`] has what a
/// [`draw`] has drawn.
#[must_use]
pub fn own_proposal(state: &[u32]) -> Option<[u32; PROPOSAL_WORDS]> {
    let state = state.get(..STATE_WORDS).filter(|state| state[STATE_PROPOSED] == 1)?;
    let mut words = [0; PROPOSAL_WORDS];
    words[0] = state[STATE_OWN];
    words[1] = state[STATE_ROUND];
    words[2..].copy_from_slice(&state[STATE_BODY..STATE_BODY + BODY_WORDS]);
    Some(words)
}

/// The rights of callers. They are a word of the state, and no call is made: they can be read in any state,
/// well formed or not. Nobody has a right where the words end before that one.
#[must_use]
pub fn rights(state: &[u32]) -> Rights {
    state.get(STATE_RIGHTS).map_or(Rights::NONE, |&word| Rights::from_word(word))
}

/// Whether the state is well formed, for words that come from storage: where it is not, every call
/// but open answers 1.
#[must_use]
pub fn is_well_formed(state: &[u32], table: &[u32]) -> bool {
    test_archive();
    // There is no block 0: 23, unless the state is not well formed.
    block(state, table, 0) == Err(Refusal::NoneThere)
}

// ---- guests' forms

/// A guest's [`propose`]. It needs the right to propose.
///
/// # Errors
/// [`Refusal::GuestRange`], [`Refusal::NoRight`], then those of [`propose`].
pub fn guest_propose(caller: u32, state: &mut [u32], table: &[u32], body: &[u32]) -> Result<(), Refusal> {
    accepted(call!(forgelilac_guest_propose(caller), write(state), read(table); read(body)))
}

/// A guest's [`draw`], which draws from the queues of all guests. It needs the right to propose.
///
/// # Errors
/// [`Refusal::GuestRange`], [`Refusal::NoRight`], then those of [`draw`].
pub fn guest_draw(caller: u32, state: &mut [u32], table: &mut [u32], previous: Set) -> Result<(), Refusal> {
    accepted(call!(forgelilac_guest_draw(caller), write(state), write(table), previous.into()))
}

/// A guest's [`enqueue`], to its own queue. It needs the right to propose.
///
/// Guest 3 may propose and do nothing else, guest 5 may do nothing:
///
/// ```
/// use forgelilac::{lent, table_words, Member, Refusal, Right, Rights, Sheet, Transaction, STATE_WORDS};
///
/// let (mut state, mut table) = ([0; STATE_WORDS], [0; table_words(64) as usize]);
/// let (sheet, rights) = (Sheet { ceiling: Some(64), ..Sheet::default() }, Rights::NONE.allow(3, Right::Propose)?);
/// lent::open(&mut state, &mut table, Member::new(0), &sheet.to_words(), rights.to_word())?;
/// let words = Transaction::Entry { number: 7 }.to_words();
/// lent::guest_enqueue(3, &state, &mut table, &words)?;
/// assert_eq!(lent::waiting(&state, &table, 3), Ok(1));
/// assert_eq!(lent::guest_enqueue(5, &state, &mut table, &words), Err(Refusal::NoRight));
/// assert_eq!(lent::guest_enqueue(8, &state, &mut table, &words), Err(Refusal::GuestRange));
/// assert_eq!(lent::guest_commit(3, &mut state, &mut table), Err(Refusal::NoRight));
/// # Ok::<(), Refusal>(())
/// ```
///
/// # Errors
/// [`Refusal::GuestRange`], [`Refusal::NoRight`], [`Refusal::Malformed`], [`Refusal::TransactionsRange`],
/// [`Refusal::QueueFull`].
pub fn guest_enqueue(caller: u32, state: &[u32], table: &mut [u32], transaction: &[u32]) -> Result<(), Refusal> {
    accepted(call!(forgelilac_guest_enqueue(caller), read(state), write(table); read(transaction)))
}

/// A guest's [`endorse`]. It needs the right to sign.
///
/// # Errors
/// [`Refusal::GuestRange`], [`Refusal::NoRight`], then those of [`endorse`].
pub fn guest_endorse(caller: u32, state: &[u32], table: &mut [u32], proposal: &[u32]) -> Result<(), Refusal> {
    accepted(call!(forgelilac_guest_endorse(caller), read(state), write(table); read(proposal)))
}

/// A guest's [`certify`]. It needs the right to sign.
///
/// # Errors
/// [`Refusal::GuestRange`], [`Refusal::NoRight`], then those of [`certify`].
pub fn guest_certify(caller: u32, state: &[u32], table: &mut [u32], endorsers: Set) -> Result<(), Refusal> {
    accepted(call!(forgelilac_guest_certify(caller), read(state), write(table), endorsers.into()))
}

/// A guest's [`accept`]. It needs the right to sign.
///
/// # Errors
/// [`Refusal::GuestRange`], [`Refusal::NoRight`], then those of [`accept`].
pub fn guest_accept(caller: u32, state: &[u32], table: &mut [u32], certificate: &[u32]) -> Result<(), Refusal> {
    accepted(call!(forgelilac_guest_accept(caller), read(state), write(table); read(certificate)))
}

/// A guest's [`batch`]. It needs the right to sign.
///
/// # Errors
/// [`Refusal::GuestRange`], [`Refusal::NoRight`], then those of [`batch`]: then nothing is tried.
pub fn guest_batch(
    caller: u32, state: &[u32], table: &mut [u32], row: &[CertificateRecord], answers: &mut [u32],
) -> Result<(), Refusal> {
    let (records, count) = (row.as_ptr(), row.len());
    accepted(call!(forgelilac_guest_batch(caller), read(state), write(table), records, count; write(answers)))
}

/// A guest's [`advance`]. It needs the right to drive.
///
/// # Errors
/// [`Refusal::GuestRange`], [`Refusal::NoRight`], then those of [`advance`].
pub fn guest_advance(caller: u32, state: &mut [u32], table: &[u32]) -> Result<(), Refusal> {
    accepted(call!(forgelilac_guest_advance(caller), write(state), read(table)))
}

/// A guest's [`commit`]. It needs the right to drive.
///
/// # Errors
/// [`Refusal::GuestRange`], [`Refusal::NoRight`], then those of [`commit`].
pub fn guest_commit(caller: u32, state: &mut [u32], table: &mut [u32]) -> Result<u32, Refusal> {
    value(call!(forgelilac_guest_commit(caller), write(state), write(table)))
}

/// A guest's [`preview`]. It needs the right to read.
///
/// # Errors
/// [`Refusal::GuestRange`], [`Refusal::NoRight`], then those of [`preview`]. Nothing is written then.
pub fn guest_preview(caller: u32, state: &[u32], table: &[u32], list: &mut [u32]) -> Result<u32, Refusal> {
    value(call!(forgelilac_guest_preview(caller), read(state), read(table); write(list)))
}

/// A guest's [`critical`]. It needs the right to read.
///
/// # Errors
/// [`Refusal::GuestRange`], [`Refusal::NoRight`], then those of [`critical`]. The list is not written then.
pub fn guest_critical(caller: u32, state: &[u32], table: &mut [u32], list: &mut [u32]) -> Result<u32, Refusal> {
    value(call!(forgelilac_guest_critical(caller), read(state), write(table); write(list)))
}

/// A guest's [`committee`]. It needs the right to read.
///
/// # Errors
/// [`Refusal::GuestRange`], [`Refusal::NoRight`], then those of [`committee`].
pub fn guest_committee(caller: u32, state: &[u32], table: &[u32], round: Round) -> Result<[u32; MEMBERS], Refusal> {
    let mut out = [0; MEMBERS];
    accepted(call!(forgelilac_guest_committee(caller), read(state), read(table), round.get(); write(&mut out)))?;
    Ok(out)
}

/// A guest's [`share`]. It needs the right to read.
///
/// # Errors
/// [`Refusal::GuestRange`], [`Refusal::NoRight`], then those of [`share`].
pub fn guest_share(caller: u32, state: &[u32], table: &[u32], member: Member, round: Round) -> Result<Share, Refusal> {
    value(call!(forgelilac_guest_share(caller), read(state), read(table), member.get(), round.get())).map(Share::new)
}

/// A guest's [`bond_effect`]. It needs the right to read.
///
/// # Errors
/// [`Refusal::GuestRange`], [`Refusal::NoRight`], then those of [`bond_effect`].
pub fn guest_bond_effect(
    caller: u32, state: &[u32], table: &[u32], member: Member, round: Round, amount: u32,
) -> Result<Effect, Refusal> {
    let mut out = [0; EFFECT_WORDS];
    let (state, table) = (read(state), read(table));
    accepted(
        call!(forgelilac_guest_bond_effect(caller), state, table, member.get(), round.get(), amount; write(&mut out)),
    )?;
    Ok(Effect::from_words(&out))
}

/// A guest's [`certificate`]. It needs the right to read.
///
/// # Errors
/// [`Refusal::GuestRange`], [`Refusal::NoRight`], then those of [`certificate`].
pub fn guest_certificate(
    caller: u32, state: &[u32], table: &[u32], author: Member, round: Round,
) -> Result<[u32; HELD_WORDS], Refusal> {
    let mut out = [0; HELD_WORDS];
    accepted(
        call!(forgelilac_guest_certificate(caller), read(state), read(table), author.get(), round.get(); write(&mut out)),
    )?;
    Ok(out)
}

/// A guest's [`block`]. It needs the right to read.
///
/// # Errors
/// [`Refusal::GuestRange`], [`Refusal::NoRight`], then those of [`block`].
pub fn guest_block(caller: u32, state: &[u32], table: &[u32], number: u32) -> Result<Round, Refusal> {
    value(call!(forgelilac_guest_block(caller), read(state), read(table), number)).map(Round::new)
}

/// A guest's [`block_rows`]. It needs the right to read.
///
/// # Errors
/// [`Refusal::GuestRange`], [`Refusal::NoRight`], then those of [`block_rows`]. Nothing is written then.
pub fn guest_block_rows(
    caller: u32, state: &[u32], table: &[u32], known: u32, number: u32, list: &mut [u32],
) -> Result<u32, Refusal> {
    let (state, table) = (read(state), read(table));
    value(call!(forgelilac_guest_block_rows(caller), state, table, known, number; write(list)))
}

/// A guest's [`chain`]. It needs the right to read.
///
/// # Errors
/// [`Refusal::GuestRange`], [`Refusal::NoRight`], then those of [`chain`]. Nothing is written then.
pub fn guest_chain(caller: u32, state: &[u32], table: &[u32], list: &mut [u32]) -> Result<u32, Refusal> {
    guest_block_rows(caller, state, table, 0, blocks(state), list)
}

// ---- a guest's serial port

/// Reads an offset of the caller's own port, one of the eight byte registers of the 16450
/// ([`crate::layout::OFFSET_DATA`] and so on). It needs the right to read.
///
/// Offset 0 reads the next byte of the chain listing, or 0 with none waiting. The listing is the runner's
/// without the closing `ok`: a line for each certificate in a block, in the order of [`chain`], each ended
/// by CR and LF. A byte waits exactly while the listing has bytes that this port has not read since reset.
/// A read of offset 0 that takes one changes the port's first two words of the table; no other read
/// changes a word. As the table is lent for writing, no other call may run on it meanwhile, no read either.
///
/// A member alone makes its first block, and guest 3 receives it:
///
/// ```
/// use forgelilac::layout::{OFFSET_DATA, OFFSET_STATUS};
/// use forgelilac::{body_words, lent, table_words, Member, Refusal, Rights, Sheet, Transaction, STATE_WORDS};
///
/// let (mut state, mut table) = ([0; STATE_WORDS], [0; table_words(64) as usize]);
/// let mut sheet = Sheet { ceiling: Some(64), ..Sheet::default() };
/// sheet.weights[1..4].fill(Some(0));
/// let rights = Rights { read: 1 << 3, ..Rights::NONE };
/// lent::open(&mut state, &mut table, Member::new(0), &sheet.to_words(), rights.to_word())?;
/// for round in 1..=3 {
///     let entry = Transaction::Entry { number: 10 * round };
///     lent::propose(&mut state, &table, &body_words((round > 1).into(), &[entry]))?;
///     lent::certify(&state, &mut table, 0)?;
///     if round < 3 {
///         lent::advance(&mut state, &table)?;
///     }
/// }
/// assert_eq!(lent::guest_port_read(3, &state, &mut table, OFFSET_STATUS), Ok(0x60));
/// lent::commit(&mut state, &mut table)?;
/// let mut received = Vec::new();
/// while lent::guest_port_read(3, &state, &mut table, OFFSET_STATUS)? & 1 == 1 {
///     received.push(lent::guest_port_read(3, &state, &mut table, OFFSET_DATA)?);
/// }
/// assert_eq!(received, b"1,2,1,0,E,10,0\r\n1,2,2,0,E,20,0\r\n");
/// assert_eq!(lent::guest_port_read(3, &state, &mut table, OFFSET_DATA), Ok(0));
/// lent::port_reset(&state, &mut table, 3)?;
/// assert_eq!(lent::guest_port_read(3, &state, &mut table, OFFSET_DATA), Ok(b'1'));
/// assert_eq!(lent::guest_port_read(5, &state, &mut table, 8), Err(Refusal::NoRight));
/// assert_eq!(lent::guest_port_read(3, &state, &mut table, 8), Err(Refusal::OffsetRange));
/// # Ok::<(), Refusal>(())
/// ```
///
/// # Errors
/// [`Refusal::GuestRange`], [`Refusal::NoRight`], [`Refusal::OffsetRange`], also where the words of the state
/// cannot be read; [`Refusal::Malformed`].
pub fn guest_port_read(caller: u32, state: &[u32], table: &mut [u32], offset: u32) -> Result<u8, Refusal> {
    // A byte, so the low half of the answer fits.
    value(call!(forgelilac_guest_port_read(caller), read(state), write(table), offset)).map(|byte| byte as u8)
}

/// Writes a byte to an offset of the caller's own port: at most one word of the table changes, that of the
/// register. It needs the right to read.
///
/// # Errors
/// As [`guest_port_read`].
pub fn guest_port_write(caller: u32, state: &[u32], table: &mut [u32], offset: u32, value: u8) -> Result<(), Refusal> {
    accepted(call!(forgelilac_guest_port_write(caller), read(state), write(table), offset, value))
}

// ---- storing, and what is signed (crate::storing)

/// Stores the state's words and the table's used words in the first [`stored_bytes`](crate::storing::stored_bytes) of `bytes`.
///
/// # Errors
/// [`StoringRefusal::UnreadableWords`], [`StoringRefusal::NoRoom`]. No byte is written then.
pub fn store(state: &[u32], table: &[u32], run: u64, bytes: &mut [u8]) -> Result<(), StoringRefusal> {
    // SAFETY: each pointer and length is that of a slice.
    done(unsafe {
        abi::forgelilac_store(
            state.as_ptr(),
            state.len(),
            table.as_ptr(),
            table.len(),
            run,
            bytes.as_mut_ptr(),
            bytes.len(),
        )
    })
}

/// Loads what member `own` stored in this run, exactly its bytes, into the first words of state and table.
///
/// # Errors
/// [`StoringRefusal::Torn`] for fewer bytes than any member is stored in, [`StoringRefusal::OtherMark`],
/// [`StoringRefusal::OtherFormat`], [`StoringRefusal::Torn`], [`StoringRefusal::OtherMember`],
/// [`StoringRefusal::OtherRun`], [`StoringRefusal::UnreadableWords`], [`StoringRefusal::NoRoom`]. No word is
/// written then.
pub fn load(bytes: &[u8], own: Member, run: u64, state: &mut [u32], table: &mut [u32]) -> Result<(), StoringRefusal> {
    // SAFETY: each pointer and length is that of a slice.
    done(unsafe {
        abi::forgelilac_load(
            bytes.as_ptr(),
            bytes.len(),
            own.get(),
            run,
            state.as_mut_ptr(),
            state.len(),
            table.as_mut_ptr(),
            table.len(),
        )
    })
}

/// What the author signs of a proposal. Of the state only the filled settings are looked at.
///
/// # Errors
/// [`StoringRefusal::UnreadableWords`].
pub fn proposal_bytes(
    state: &[u32], run: u64, proposal: &[u32; PROPOSAL_WORDS],
) -> Result<[u8; SIGNED_BYTES], StoringRefusal> {
    let mut bytes = [0; SIGNED_BYTES];
    // SAFETY: each pointer and length is that of a slice or an array.
    done(unsafe {
        abi::forgelilac_proposal_bytes(
            state.as_ptr(),
            state.len(),
            run,
            proposal.as_ptr(),
            proposal.len(),
            bytes.as_mut_ptr(),
            bytes.len(),
        )
    })?;
    Ok(bytes)
}

/// What an endorser signs of a proposal: as [`proposal_bytes`], with another mark.
///
/// # Errors
/// [`StoringRefusal::UnreadableWords`].
pub fn endorsement_bytes(
    state: &[u32], run: u64, proposal: &[u32; PROPOSAL_WORDS],
) -> Result<[u8; SIGNED_BYTES], StoringRefusal> {
    let mut bytes = [0; SIGNED_BYTES];
    // SAFETY: each pointer and length is that of a slice or an array.
    done(unsafe {
        abi::forgelilac_endorsement_bytes(
            state.as_ptr(),
            state.len(),
            run,
            proposal.as_ptr(),
            proposal.len(),
            bytes.as_mut_ptr(),
            bytes.len(),
        )
    })?;
    Ok(bytes)
}

/// What is signed where whole certificates are: the endorsers stand last.
///
/// # Errors
/// [`StoringRefusal::UnreadableWords`].
pub fn certificate_bytes(
    state: &[u32], run: u64, certificate: &[u32; CERTIFICATE_WORDS],
) -> Result<[u8; SIGNED_CERTIFICATE_BYTES], StoringRefusal> {
    let mut bytes = [0; SIGNED_CERTIFICATE_BYTES];
    // SAFETY: each pointer and length is that of a slice or an array.
    done(unsafe {
        abi::forgelilac_certificate_bytes(
            state.as_ptr(),
            state.len(),
            run,
            certificate.as_ptr(),
            certificate.len(),
            bytes.as_mut_ptr(),
            bytes.len(),
        )
    })?;
    Ok(bytes)
}
