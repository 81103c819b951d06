//! A guest of an engine: its calls, by its rights.

use crate::engine::{by_batch, by_chain, by_critical, by_preview, by_rows};
use crate::lent::Entry;
use crate::words::{Caller, Words};
use crate::{body_words, MEMBERS};
use crate::{
    Answers, Block, Certificate, Critical, Effect, Engine, Held, Member, Proposal, Refusal, Right, Round, Set, Share,
    Transaction,
};
use alloc::vec::Vec;
use core::ops::{Deref, DerefMut};

/// A guest that calls an engine: [`Engine::guest`] gives one that makes every call, as
/// `Guest<&mut Engine>`, [`Engine::reader`] one that reads alone, as `Guest<&Engine>`.
///
/// Each call answers 26, [`Refusal::GuestRange`], for a caller above 7, then 29, [`Refusal::NoRight`],
/// where the caller lacks the right that the call needs. Both come before everything else, before 1 too,
/// and no word changes. Else the call does and answers what the engine's own does, which has the same
/// name. [`Engine::rights`] tells who may do what; the engine's own calls do not ask. Accesses to the
/// caller's serial port, [`Guest::port_read`] and [`Guest::port_write`], are guests' alone.
///
/// Guest 3 may propose and read, guest 5 may drive; the host signs:
///
/// ```
/// use forgelilac::{Engine, Member, Refusal, Right, Rights, Sheet, Transaction};
///
/// let mut sheet = Sheet { ceiling: Some(64), ..Sheet::default() };
/// sheet.weights[1..4].fill(Some(0));
/// let rights = Rights::NONE.allow(3, Right::Propose)?.allow(3, Right::Read)?.allow(5, Right::Drive)?;
/// let mut engine = Engine::open_with_rights(Member::new(0), &sheet, rights)?;
/// for round in 1..=3 {
///     engine.guest(3).enqueue(Transaction::Entry { number: round })?;
///     engine.guest(3).draw((round > 1).into())?;
///     engine.certify(0)?;
///     if round < 3 {
///         assert_eq!(engine.guest(3).advance(), Err(Refusal::NoRight));
///         engine.guest(5).advance()?;
///     }
/// }
/// assert_eq!(engine.guest(3).commit(), Err(Refusal::NoRight));
/// assert_eq!(engine.guest(5).commit(), Ok(1));
/// assert_eq!(engine.reader(3).chain(), engine.chain());
/// assert_eq!(engine.reader(5).chain(), Err(Refusal::NoRight));
/// assert_eq!(engine.guest(8).commit(), Err(Refusal::GuestRange));
/// # Ok::<(), Refusal>(())
/// ```
#[derive(Clone, Copy, Debug)]
pub struct Guest<E> {
    engine: E,
    caller: u32,
}

impl<E> Guest<E> {
    pub(crate) fn of(engine: E, caller: u32) -> Guest<E> {
        Guest { engine, caller }
    }

    /// The caller's number.
    #[must_use]
    pub fn caller(&self) -> u32 {
        self.caller
    }
}

/// Calls that change the engine, accesses to its port among them, and critical, which is lent its table
/// for writing.
impl<W: Words, E: DerefMut<Target = Engine<W>>> Guest<E> {
    /// As [`Engine::propose`]. It needs the right to propose.
    ///
    /// # Errors
    /// [`Refusal::GuestRange`], [`Refusal::NoRight`], then those of [`Engine::propose`].
    pub fn propose(&mut self, previous: Set, transactions: &[Transaction]) -> Result<(), Refusal> {
        self.engine.words.propose(Caller::Guest(self.caller), &body_words(previous, transactions))
    }

    /// As [`Engine::enqueue`], to the caller's own queue. It needs the right to propose.
    ///
    /// # Errors
    /// [`Refusal::GuestRange`], [`Refusal::NoRight`], [`Refusal::Malformed`], [`Refusal::TransactionsRange`],
    /// [`Refusal::QueueFull`].
    pub fn enqueue(&mut self, transaction: Transaction) -> Result<(), Refusal> {
        self.engine.words.guest_enqueue(self.caller, &transaction.to_words())
    }

    /// As [`Engine::draw`], from the queues of all guests. It needs the right to propose.
    ///
    /// # Errors
    /// [`Refusal::GuestRange`], [`Refusal::NoRight`], then those of [`Engine::draw`].
    pub fn draw(&mut self, previous: Set) -> Result<(), Refusal> {
        self.engine.words.draw(Caller::Guest(self.caller), previous)
    }

    /// As [`Engine::endorse`]. It needs the right to sign.
    ///
    /// # Errors
    /// [`Refusal::GuestRange`], [`Refusal::NoRight`], then those of [`Engine::endorse`].
    pub fn endorse(&mut self, proposal: &Proposal) -> Result<(), Refusal> {
        self.engine.words.endorse(Caller::Guest(self.caller), &proposal.to_words())
    }

    /// As [`Engine::certify`]. It needs the right to sign.
    ///
    /// # Errors
    /// [`Refusal::GuestRange`], [`Refusal::NoRight`], then those of [`Engine::certify`].
    pub fn certify(&mut self, endorsers: Set) -> Result<(), Refusal> {
        self.engine.words.certify(Caller::Guest(self.caller), endorsers)
    }

    /// As [`Engine::accept`]. It needs the right to sign.
    ///
    /// # Errors
    /// [`Refusal::GuestRange`], [`Refusal::NoRight`], then those of [`Engine::accept`].
    pub fn accept(&mut self, certificate: &Certificate) -> Result<(), Refusal> {
        self.engine.words.accept(Caller::Guest(self.caller), &certificate.to_words())
    }

    /// As [`Engine::batch`]. It needs the right to sign.
    ///
    /// # Errors
    /// [`Refusal::GuestRange`], [`Refusal::NoRight`], then those of [`Engine::batch`]: then nothing is tried.
    pub fn batch(&mut self, row: &[Certificate]) -> Result<Answers, Refusal> {
        by_batch(row, |row, answers| self.engine.words.batch(Caller::Guest(self.caller), row, answers))
    }

    /// As [`Engine::advance`]. It needs the right to drive.
    ///
    /// # Errors
    /// [`Refusal::GuestRange`], [`Refusal::NoRight`], then those of [`Engine::advance`].
    pub fn advance(&mut self) -> Result<(), Refusal> {
        self.engine.words.advance(Caller::Guest(self.caller))
    }

    /// As [`Engine::commit`]. It needs the right to drive.
    ///
    /// # Errors
    /// [`Refusal::GuestRange`], [`Refusal::NoRight`], then those of [`Engine::commit`].
    pub fn commit(&mut self) -> Result<u32, Refusal> {
        self.engine.words.commit(Caller::Guest(self.caller))
    }

    /// As [`Engine::critical`]. It needs the right to read.
    ///
    /// # Errors
    /// [`Refusal::GuestRange`], [`Refusal::NoRight`], then those of [`Engine::critical`].
    pub fn critical(&mut self) -> Result<Vec<Critical>, Refusal> {
        by_critical(|list| self.engine.words.critical(Caller::Guest(self.caller), list))
    }

    /// Reads an offset of the caller's own serial port, 0 to 7: one of the eight byte registers of the
    /// 16450, over the chain listing as received bytes ([`crate::lent::guest_port_read`] says what each reads).
    /// It needs the right to read. A read of offset 0 that takes a byte changes the engine: store it, or
    /// after a restore the guest may be given bytes again.
    ///
    /// # Errors
    /// [`Refusal::GuestRange`], [`Refusal::NoRight`], [`Refusal::OffsetRange`], [`Refusal::Malformed`].
    pub fn port_read(&mut self, offset: u32) -> Result<u8, Refusal> {
        self.engine.words.port_read(self.caller, offset)
    }

    /// Writes a byte to an offset of the caller's own serial port. It needs the right to read.
    ///
    /// A driver sets the divisor and the line, and has 4 at offset 2 once a byte waits:
    ///
    /// ```
    /// use forgelilac::layout::{OFFSET_DATA, OFFSET_ENABLE, OFFSET_INTERRUPT, OFFSET_LINE};
    /// use forgelilac::{Engine, Member, Refusal, Rights, Sheet};
    ///
    /// let mut sheet = Sheet { ceiling: Some(64), ..Sheet::default() };
    /// sheet.weights[1..4].fill(Some(0));
    /// let mut engine = Engine::open_with_rights(Member::new(0), &sheet, Rights { read: 1 << 3, ..Rights::NONE })?;
    /// let set_up = [(OFFSET_LINE, 0x80), (OFFSET_DATA, 12), (OFFSET_ENABLE, 0), (OFFSET_LINE, 3), (OFFSET_ENABLE, 1)];
    /// set_up.iter().try_for_each(|&(offset, value)| engine.guest(3).port_write(offset, value))?;
    /// assert_eq!(engine.guest(3).port_read(OFFSET_INTERRUPT), Ok(1));
    /// for round in 1..=3 {
    ///     engine.propose((round > 1).into(), &[])?;
    ///     engine.certify(0)?;
    ///     if round < 3 {
    ///         engine.advance()?;
    ///     }
    /// }
    /// engine.commit()?;
    /// assert_eq!(engine.guest(3).port_read(OFFSET_INTERRUPT), Ok(4));
    /// assert_eq!(engine.guest(3).port_read(OFFSET_DATA), Ok(b'1'));
    /// engine.port_reset(3)?;
    /// assert_eq!(engine.guest(3).port_read(OFFSET_LINE), Ok(0));
    /// # Ok::<(), Refusal>(())
    /// ```
    ///
    /// # Errors
    /// [`Refusal::GuestRange`], [`Refusal::NoRight`], [`Refusal::OffsetRange`], [`Refusal::Malformed`].
    pub fn port_write(&mut self, offset: u32, value: u8) -> Result<(), Refusal> {
        self.engine.words.port_write(self.caller, offset, value)
    }
}

/// Reads that only read. Each needs the right to read.
impl<W: Words, E: Deref<Target = Engine<W>>> Guest<E> {
    /// As [`Engine::preview`].
    ///
    /// # Errors
    /// [`Refusal::GuestRange`], [`Refusal::NoRight`], then those of [`Engine::preview`].
    pub fn preview(&self) -> Result<Vec<Entry>, Refusal> {
        let engine = &*self.engine;
        // A caller without the right costs no list.
        let room = if engine.rights().may(self.caller, Right::Read) { engine.preview_room() } else { 0 };
        by_preview(room, |list| engine.words.preview(Caller::Guest(self.caller), list))
    }

    /// As [`Engine::committee`].
    ///
    /// # Errors
    /// [`Refusal::GuestRange`], [`Refusal::NoRight`], then those of [`Engine::committee`].
    pub fn committee(&self, round: Round) -> Result<[u32; MEMBERS], Refusal> {
        self.engine.words.committee(Caller::Guest(self.caller), round)
    }

    /// As [`Engine::share`].
    ///
    /// # Errors
    /// [`Refusal::GuestRange`], [`Refusal::NoRight`], then those of [`Engine::share`].
    pub fn share(&self, member: Member, round: Round) -> Result<Share, Refusal> {
        self.engine.words.share(Caller::Guest(self.caller), member, round)
    }

    /// As [`Engine::bond_effect`].
    ///
    /// # Errors
    /// [`Refusal::GuestRange`], [`Refusal::NoRight`], then those of [`Engine::bond_effect`].
    pub fn bond_effect(&self, member: Member, round: Round, amount: u32) -> Result<Effect, Refusal> {
        self.engine.words.bond_effect(Caller::Guest(self.caller), member, round, amount)
    }

    /// As [`Engine::certificate`].
    ///
    /// # Errors
    /// [`Refusal::GuestRange`], [`Refusal::NoRight`], then those of [`Engine::certificate`].
    pub fn certificate(&self, author: Member, round: Round) -> Result<Held, Refusal> {
        Held::from_words(&self.engine.words.certificate(Caller::Guest(self.caller), author, round)?)
    }

    /// As [`Engine::block`].
    ///
    /// # Errors
    /// [`Refusal::GuestRange`], [`Refusal::NoRight`], then those of [`Engine::block`].
    pub fn block(&self, number: u32) -> Result<Round, Refusal> {
        self.engine.words.block(Caller::Guest(self.caller), number)
    }

    /// As [`Engine::block_rows`].
    ///
    /// # Errors
    /// [`Refusal::GuestRange`], [`Refusal::NoRight`], then those of [`Engine::block_rows`].
    pub fn block_rows(&self, known: u32, number: u32) -> Result<Vec<Held>, Refusal> {
        let engine = &*self.engine;
        let caller = Caller::Guest(self.caller);
        by_rows(self.rows_room(), |list| engine.words.block_rows(caller, known, number, list))
    }

    /// As [`Engine::chain`].
    ///
    /// # Errors
    /// [`Refusal::GuestRange`], [`Refusal::NoRight`], then that of [`Engine::chain`].
    pub fn chain(&self) -> Result<Vec<Block>, Refusal> {
        let engine = &*self.engine;
        let caller = Caller::Guest(self.caller);
        by_chain(engine, self.rows_room(), |list| engine.words.block_rows(caller, 0, engine.blocks(), list))
    }

    /// The words of a list for rows: a caller without the right costs none.
    fn rows_room(&self) -> usize {
        if self.engine.rights().may(self.caller, Right::Read) {
            self.engine.rows_room()
        } else {
            0
        }
    }
}
