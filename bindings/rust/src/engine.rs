//! One member's engine: its calls and reads, typed.

use crate::layout::{
    preview_words, row, rows_words, CRITICAL_WORDS, ROW_BLOCK, STATE_CEILING, STATE_OWN, STATE_ROUND, STATE_WORDS,
};
use crate::lent::{self, CertificateRecord, Entry};
use crate::words::{Caller, Lent, Words};
use crate::{body_words, table_words, CEILING, MEMBERS};
use crate::{
    Answers, Block, Certificate, Critical, Effect, Guest, Held, Member, Owned, Proposal, Refusal, Rights, Round, Set,
    Share, Sheet, Transaction,
};
use alloc::vec;
use alloc::vec::Vec;
use core::fmt;

/// One member's engine: a state and the table that belongs to it. It has no part outside
/// itself, so engines may be called from several threads at once, each by one at a time.
///
/// An `Engine` owns its words, and nothing else writes them: they are tested once, when it is opened or
/// restored, and a call then takes the same little time however much is held: a chain, block rows and a port
/// read go by the blocks that they show. For that it keeps the committees of the rounds it knows too,
/// [`crate::layout::kept_words`] of them in words of 64 bits.
/// [`Engine::is_well_formed`] tests again, for a host that fears for its memory. An `Engine<Lent>` tests its
/// words in each call, as the calls of [`lent`] do, and so may have any: see [`Engine::lent`].
///
/// `Debug` shows a few words of it. What is listed under Errors stands in the order of the checks, and a
/// refused call changes no word. [`Refusal::Malformed`] comes of an `Engine<Lent>` alone, but for opening and
/// restoring.
#[derive(Clone, PartialEq, Eq)]
pub struct Engine<W = Owned> {
    pub(crate) words: W,
}

impl<W: Words> fmt::Debug for Engine<W> {
    fn fmt(&self, f: &mut fmt::Formatter<'_>) -> fmt::Result {
        f.debug_struct("Engine")
            .field("own", &self.own())
            .field("round", &self.round())
            .field("ceiling", &self.words.state()[STATE_CEILING])
            .field("blocks", &self.blocks())
            .field("table_words", &self.words.table().len())
            .finish_non_exhaustive()
    }
}

/// Opening and restoring.
impl Engine {
    /// Opens a member with a table of the length that the sheet's ceiling needs; no guest has a right.
    /// It starts a new run: go on with one by [`Engine::try_restore`].
    ///
    /// # Errors
    /// [`Refusal::MemberRange`], [`Refusal::SettingRange`], [`Refusal::NoWeight`].
    pub fn open(own: Member, sheet: &Sheet) -> Result<Engine, Refusal> {
        Engine::open_with_rights(own, sheet, Rights::NONE)
    }

    /// Opens a member as [`Engine::open`] does, with rights of callers. They cannot be changed later.
    ///
    /// # Errors
    /// As [`Engine::open`]; no rights are refused.
    pub fn open_with_rights(own: Member, sheet: &Sheet, rights: Rights) -> Result<Engine, Refusal> {
        let ceiling = sheet.ceiling.unwrap_or(CEILING).min(CEILING);
        Engine::open_on(vec![0; table_words(ceiling) as usize], own, sheet, rights)
    }

    /// Opens a member on a table of the host's; what lies beyond the used part never changes.
    ///
    /// # Errors
    /// As [`Engine::open`], and then [`Refusal::Malformed`] for a table that is too short.
    pub fn open_on(mut table: Vec<u32>, own: Member, sheet: &Sheet, rights: Rights) -> Result<Engine, Refusal> {
        let mut state = [0; STATE_WORDS];
        lent::open(&mut state, &mut table, own, &sheet.to_words(), rights.to_word())?;
        Engine::try_restore(state, table)
    }

    /// An engine as it was stored, after one look at all words: where they are a member's, as calls from an
    /// opening on leave them. They must be the latest that were stored: an older backup may have forgotten a
    /// signature. A state that versions up to 0.7.0 stored has 37 words, one of 0.8.0 or 0.9.0 has 38: bring
    /// it along first, by [`crate::layout::brought_along`].
    ///
    /// # Errors
    /// [`Refusal::Malformed`] where the state is not well formed, and where it is and no calls leave it so: a
    /// held certificate or the proposal names one that is not held, one in a block names one in none, or a block
    /// has a certificate above its own round, or one in a round below and none in the round after.
    pub fn try_restore(state: [u32; STATE_WORDS], table: Vec<u32>) -> Result<Engine, Refusal> {
        Owned::resume(state, table).map(Engine::from)
    }
}

impl Engine<Lent> {
    /// An engine on words that anything may have written, and may go on to write. Any words are safe: each
    /// call tests them, which takes the longer the more is held, and on a state that is not well formed every
    /// call answers 1.
    ///
    /// ```
    /// use forgelilac::{Engine, Member, Refusal, Sheet};
    ///
    /// let engine = Engine::open(Member::new(0), &Sheet { ceiling: Some(64), ..Sheet::default() })?;
    /// let (state, table) = engine.words();
    /// let mut lent = Engine::lent(*state, table.to_vec());
    /// lent.propose(0, &[])?;
    /// lent.words_mut().0[0] = 16; // no member has this number
    /// assert_eq!(lent.certify(0b1110), Err(Refusal::Malformed));
    /// # Ok::<(), Refusal>(())
    /// ```
    #[must_use]
    pub fn lent(state: [u32; STATE_WORDS], table: Vec<u32>) -> Engine<Lent> {
        Engine { words: Lent { state, table } }
    }

    /// State and table, to be written by something else than calls.
    #[must_use]
    pub fn words_mut(&mut self) -> (&mut [u32; STATE_WORDS], &mut Vec<u32>) {
        (&mut self.words.state, &mut self.words.table)
    }
}

/// Calls and reads.
impl<W: Words> Engine<W> {
    /// State and table, for storing; docs/TABLES.md has which words each call changes.
    #[must_use]
    pub fn words(&self) -> (&[u32; STATE_WORDS], &[u32]) {
        (self.words.state(), self.words.table())
    }

    /// Looks at all words: whether the state is well formed, and of an engine that owns its words whether no
    /// more is wrong with them than [`Engine::try_restore`] tells, and the kept committees are theirs. That
    /// always holds, unless memory itself has lost a bit: a host that fears that asks now and then, and where
    /// it is told so goes on from its store. It allocates kept committees.
    #[must_use]
    pub fn is_well_formed(&self) -> bool {
        self.words.is_well_formed()
    }

    // ---- guests

    /// A guest of this engine by its number, the one that the host knows itself, never one that the guest
    /// wrote. What the guest asks for goes through it, and is refused where it has not the right.
    #[must_use]
    pub fn guest(&mut self, caller: u32) -> Guest<&mut Engine<W>> {
        Guest::of(self, caller)
    }

    /// A guest that reads alone: several may read at once, while nothing changes the engine.
    #[must_use]
    pub fn reader(&self, caller: u32) -> Guest<&Engine<W>> {
        Guest::of(self, caller)
    }

    /// The rights of callers, as they were fixed at opening: a word of the state, in any state.
    #[must_use]
    pub fn rights(&self) -> Rights {
        lent::rights(self.words.state())
    }

    // ---- calls

    /// Proposes transactions for one's own place of the present round, and touches no queue. The
    /// proposal is kept until advance; store the engine before the signature leaves.
    ///
    /// # Errors
    /// [`Refusal::Malformed`], [`Refusal::TransactionsRange`], [`Refusal::PreviousEmpty`],
    /// [`Refusal::PlaceTaken`], [`Refusal::CommitteeUnknown`], [`Refusal::Outside`],
    /// [`Refusal::PreviousMissing`], [`Refusal::PreviousQuorum`].
    pub fn propose(&mut self, previous: Set, transactions: &[Transaction]) -> Result<(), Refusal> {
        self.words.propose(Caller::Host, &body_words(previous, transactions))
    }

    /// Adds a transaction to the queue of a guest, as its youngest. Store the engine, or the
    /// transaction may be lost.
    ///
    /// # Errors
    /// [`Refusal::Malformed`], [`Refusal::GuestRange`], [`Refusal::TransactionsRange`], [`Refusal::QueueFull`].
    pub fn enqueue(&mut self, guest: u32, transaction: Transaction) -> Result<(), Refusal> {
        self.words.enqueue(guest, &transaction.to_words())
    }

    /// Proposes what it draws from the queues: the oldest transaction of each guest with something
    /// waiting, starting after the guest served last, at first with 0, going round until the
    /// allowance is met or the queues are empty. What was drawn leaves its queues, and the guest of
    /// the last one is the guest served last; with nothing drawn the proposal has no transactions.
    /// [`Engine::proposal`] gives the proposal, which is kept until advance; store the engine before
    /// the signature leaves.
    ///
    /// # Errors
    /// [`Refusal::Malformed`], [`Refusal::PreviousEmpty`], [`Refusal::PlaceTaken`],
    /// [`Refusal::CommitteeUnknown`], [`Refusal::Outside`], [`Refusal::PreviousMissing`],
    /// [`Refusal::PreviousQuorum`].
    pub fn draw(&mut self, previous: Set) -> Result<(), Refusal> {
        self.words.draw(Caller::Host, previous)
    }

    /// Endorses another's proposal, once its signature is checked: its place is marked endorsed.
    /// Store the engine before the signature leaves.
    ///
    /// # Errors
    /// [`Refusal::Malformed`], [`Refusal::MemberRange`], [`Refusal::RoundRange`],
    /// [`Refusal::TransactionsRange`], [`Refusal::PreviousEmpty`], [`Refusal::SignedTwice`],
    /// [`Refusal::PlaceTaken`], [`Refusal::CommitteeUnknown`], [`Refusal::PreviousMissing`],
    /// [`Refusal::PreviousQuorum`].
    pub fn endorse(&mut self, proposal: &Proposal) -> Result<(), Refusal> {
        self.words.endorse(Caller::Host, &proposal.to_words())
    }

    /// Makes a certificate of one's own proposal with these endorsers, whose signatures are
    /// checked: it is held.
    ///
    /// # Errors
    /// [`Refusal::Malformed`], [`Refusal::NoProposal`], [`Refusal::PlaceTaken`], [`Refusal::SignedTwice`],
    /// [`Refusal::CommitteeUnknown`], [`Refusal::Outside`], [`Refusal::SignersShort`].
    pub fn certify(&mut self, endorsers: Set) -> Result<(), Refusal> {
        self.words.certify(Caller::Host, endorsers)
    }

    /// Takes a certificate, once its signatures are checked: it is held with its endorsers, and its
    /// endorsed mark cleared.
    ///
    /// # Errors
    /// [`Refusal::Malformed`], [`Refusal::MemberRange`], [`Refusal::RoundRange`],
    /// [`Refusal::TransactionsRange`], [`Refusal::PreviousEmpty`], [`Refusal::SignedTwice`],
    /// [`Refusal::SameHeld`], [`Refusal::OtherHeld`], [`Refusal::CommitteeUnknown`], [`Refusal::Outside`],
    /// [`Refusal::SignersShort`], [`Refusal::PreviousMissing`].
    pub fn accept(&mut self, certificate: &Certificate) -> Result<(), Refusal> {
        self.words.accept(Caller::Host, &certificate.to_words())
    }

    /// Takes a row of up to 64 certificates in any order, once their signatures are checked. They are
    /// tried by rising round, then author, then place in the row. The list has for each, at its own
    /// place, what [`Engine::accept`] would have answered at its turn. What got
    /// [`Refusal::PreviousMissing`] gets it again straight afterwards, or [`Refusal::OtherHeld`] where
    /// the row has filled its place with another.
    ///
    /// # Errors
    /// [`Refusal::Malformed`], [`Refusal::LengthRange`]: then nothing is tried.
    pub fn batch(&mut self, row: &[Certificate]) -> Result<Answers, Refusal> {
        by_batch(row, |row, answers| self.words.batch(Caller::Host, row, answers))
    }

    /// Goes on to the next round, once the authors of the certificates held in the present round form
    /// a quorum of its committee; the proposal is dropped. After [`Refusal::ThinRound`] accept more
    /// certificates of this round, and try again.
    ///
    /// # Errors
    /// [`Refusal::Malformed`], [`Refusal::AtCeiling`], [`Refusal::CommitteeUnknown`] for that of the present
    /// round, [`Refusal::ThinRound`].
    pub fn advance(&mut self) -> Result<(), Refusal> {
        self.words.advance(Caller::Host)
    }

    /// Makes blocks: the number of blocks added.
    ///
    /// # Errors
    /// [`Refusal::Malformed`], [`Refusal::NoCommitRound`], [`Refusal::BlockMade`],
    /// [`Refusal::CommitteeUnknown`], [`Refusal::NoAnchor`], [`Refusal::VotesShort`].
    pub fn commit(&mut self) -> Result<u32, Refusal> {
        self.words.commit(Caller::Host)
    }

    /// Resets the serial port of a guest, as when the guest is started anew: all registers that it holds
    /// are 0, and reading resumes at the listing's start. An accepted open resets every port; otherwise
    /// only this does, and no guest has it. [`Guest::port_read`] and [`Guest::port_write`] are the accesses.
    ///
    /// # Errors
    /// [`Refusal::GuestRange`], [`Refusal::Malformed`].
    pub fn port_reset(&mut self, port: u32) -> Result<(), Refusal> {
        self.words.port_reset(port)
    }

    // ---- reads

    /// What would a commit do? The certificates of each block that it would add, in order, or the
    /// refusal that it would get. It is what [`Engine::commit`] on a clone, and reading the new blocks
    /// there, gives: blocks oldest first, their numbers going on from those there are, each in its own
    /// order. Nothing changes.
    ///
    /// # Errors
    /// Those of [`Engine::commit`]: [`Refusal::Malformed`], [`Refusal::NoCommitRound`], [`Refusal::BlockMade`],
    /// [`Refusal::CommitteeUnknown`], [`Refusal::NoAnchor`], [`Refusal::VotesShort`].
    pub fn preview(&self) -> Result<Vec<Entry>, Refusal> {
        by_preview(self.preview_room(), |list| self.words.preview(Caller::Host, list))
    }

    /// The words of the list that a preview asks for.
    pub(crate) fn preview_room(&self) -> usize {
        preview_words(self.words.state()[STATE_CEILING].min(CEILING))
    }

    /// Which certificates does a commit hang on? Every held certificate of the present round and the one
    /// before whose absence alone would turn [`Engine::commit`] into a refusal, by round, then author; or
    /// the refusal that it would get. In every state that calls lead to from an opening it is the anchor,
    /// and each vote without which the remaining votes weigh not more than the fault bound.
    ///
    /// It takes the engine as a call that changes it does, since the table is lent for writing
    /// ([`lent::critical`] tells why); afterwards every word is as it was, and there is nothing to store.
    ///
    /// Two of four members of weight 1 have voted; without either of them there are not enough:
    ///
    /// ```
    /// use forgelilac::{Certificate, Critical, Engine, Member, Proposal, Refusal, Round, Sheet};
    ///
    /// let mut engine = Engine::open(Member::new(0), &Sheet { ceiling: Some(64), ..Sheet::default() })?;
    /// for (round, previous, authors) in [(1, 0, 0..4), (2, 0b1111, 0..4), (3, 0b1111, 0..2)] {
    ///     for author in authors {
    ///         let proposal = Proposal {
    ///             author: Member::new(author),
    ///             round: Round::new(round),
    ///             previous,
    ///             transactions: Vec::new(),
    ///         };
    ///         engine.accept(&Certificate { proposal, endorsers: 0b1111 & !(1 << author) })?;
    ///     }
    ///     if round < 3 {
    ///         assert_eq!(engine.critical(), Err(Refusal::NoCommitRound));
    ///         engine.advance()?;
    ///     }
    /// }
    /// let place = |round, author| Critical { round, author };
    /// assert_eq!(
    ///     engine.critical()?,
    ///     [
    ///         place(Round::new(2), Member::new(1)),
    ///         place(Round::new(3), Member::new(0)),
    ///         place(Round::new(3), Member::new(1))
    ///     ]
    /// );
    /// # Ok::<(), Refusal>(())
    /// ```
    ///
    /// # Errors
    /// Those of [`Engine::commit`]: [`Refusal::Malformed`], [`Refusal::NoCommitRound`], [`Refusal::BlockMade`],
    /// [`Refusal::CommitteeUnknown`], [`Refusal::NoAnchor`], [`Refusal::VotesShort`].
    pub fn critical(&mut self) -> Result<Vec<Critical>, Refusal> {
        by_critical(|list| self.words.critical(Caller::Host, list))
    }

    /// Sixteen weights of a round's committee, 0 for a non-member.
    ///
    /// # Errors
    /// [`Refusal::Malformed`], [`Refusal::RoundRange`], [`Refusal::CommitteeUnknown`].
    pub fn committee(&self, round: Round) -> Result<[u32; MEMBERS], Refusal> {
        self.words.committee(Caller::Host, round)
    }

    /// A member's weight in thousandths of its committee's total, to the nearest; an exact half
    /// goes to the even one: 1 of 16 (62.5) gives 62, 3 of 16 (187.5) gives 188. A member may
    /// have 0 (1 of 2,000); a non-member is refused.
    ///
    /// # Errors
    /// [`Refusal::Malformed`], [`Refusal::MemberRange`], [`Refusal::RoundRange`],
    /// [`Refusal::CommitteeUnknown`], [`Refusal::Outside`].
    pub fn share(&self, member: Member, round: Round) -> Result<Share, Refusal> {
        self.words.share(Caller::Host, member, round)
    }

    /// How far does a bond move the shares? Those of a round's committee, those that it would have after
    /// a bond of the member by the amount, and the largest difference of a member's two. Shares are those
    /// of [`Engine::share`], and 0 for a non-member. The bond adds the amount to the member's weight; a
    /// non-member joins. With total n before the bond and amount k the largest difference is never more
    /// than 1 plus the whole part of 1,000 × k / (n + k). Nothing is bonded, and nothing changes.
    ///
    /// A bond that a block holds counts in the committees of rounds above that block's plus the lookback,
    /// together with what else the chain changes until then.
    ///
    /// Four members of weight 1. Member 5 would join with 2, or member 0 add 2 to its 1:
    ///
    /// ```
    /// use forgelilac::{Engine, Member, Refusal, Round, Sheet};
    ///
    /// let engine = Engine::open(Member::new(0), &Sheet { ceiling: Some(64), ..Sheet::default() })?;
    /// let joining = engine.bond_effect(Member::new(5), Round::new(1), 2)?;
    /// assert_eq!(joining.before[..6], [250, 250, 250, 250, 0, 0]);
    /// assert_eq!(joining.after[..6], [167, 167, 167, 167, 0, 333]);
    /// assert_eq!(joining.largest, 333);
    /// let adding = engine.bond_effect(Member::new(0), Round::new(1), 2)?;
    /// assert_eq!(adding.after[..4], [500, 167, 167, 167]);
    /// assert_eq!(adding.largest, 250);
    /// # Ok::<(), Refusal>(())
    /// ```
    ///
    /// # Errors
    /// [`Refusal::Malformed`], [`Refusal::MemberRange`], [`Refusal::RoundRange`],
    /// [`Refusal::TransactionsRange`] for an amount other than 1 to 1,000, [`Refusal::CommitteeUnknown`],
    /// [`Refusal::EmptyCommittee`].
    pub fn bond_effect(&self, member: Member, round: Round, amount: u32) -> Result<Effect, Refusal> {
        self.words.bond_effect(Caller::Host, member, round, amount)
    }

    /// The certificate held at a place: proposal, endorsers, block.
    ///
    /// # Errors
    /// [`Refusal::Malformed`], [`Refusal::MemberRange`], [`Refusal::RoundRange`], [`Refusal::NoneThere`].
    pub fn certificate(&self, author: Member, round: Round) -> Result<Held, Refusal> {
        Held::from_words(&self.words.certificate(Caller::Host, author, round)?)
    }

    /// The round of a block; blocks count from 1.
    ///
    /// # Errors
    /// [`Refusal::Malformed`], [`Refusal::NoneThere`].
    pub fn block(&self, number: u32) -> Result<Round, Refusal> {
        self.words.block(Caller::Host, number)
    }

    /// What blocks hold: of `number` blocks after the first `known` every certificate, oldest block first, as
    /// [`Engine::certificate`] gives it. Inside a block they stand in the order of [`Engine::chain`]. What a
    /// commit that answered n has added are the n blocks after those there were.
    ///
    /// ```
    /// use forgelilac::{Certificate, Engine, Member, Proposal, Refusal, Round, Sheet};
    ///
    /// let mut engine = Engine::open(Member::new(0), &Sheet { ceiling: Some(64), ..Sheet::default() })?;
    /// for (round, previous) in [(1, 0), (2, 0b1111), (3, 0b1111)] {
    ///     for author in 0..4 {
    ///         let proposal = Proposal {
    ///             author: Member::new(author),
    ///             round: Round::new(round),
    ///             previous,
    ///             transactions: Vec::new(),
    ///         };
    ///         engine.accept(&Certificate { proposal, endorsers: 0b1111 & !(1 << author) })?;
    ///     }
    ///     if round < 3 {
    ///         engine.advance()?;
    ///     }
    /// }
    /// let known = engine.blocks();
    /// let added = engine.commit()?;
    /// let held = engine.block_rows(known, added)?;
    /// for (held, entry) in held.iter().zip(&engine.chain()?[0].certificates) {
    ///     assert_eq!(*held, engine.certificate(entry.author, entry.round)?);
    ///     assert_eq!(held.block, Some(entry.block));
    /// }
    /// assert_eq!(engine.block_rows(1, 1), Err(Refusal::NoneThere));
    /// # Ok::<(), Refusal>(())
    /// ```
    ///
    /// # Errors
    /// [`Refusal::Malformed`], [`Refusal::NoneThere`] where there are fewer blocks.
    pub fn block_rows(&self, known: u32, number: u32) -> Result<Vec<Held>, Refusal> {
        by_rows(self.rows_room(), |list| self.words.block_rows(Caller::Host, known, number, list))
    }

    /// The words of a list in which all blocks have room.
    pub(crate) fn rows_room(&self) -> usize {
        rows_words(self.words.state()[STATE_CEILING].min(CEILING))
    }

    /// How many transactions wait in the queue of a guest, 0 to 8: a word of the table, once a read of
    /// block 0 has told that the state is well formed.
    ///
    /// # Errors
    /// [`Refusal::Malformed`], [`Refusal::GuestRange`].
    pub fn waiting(&self, guest: u32) -> Result<u32, Refusal> {
        // There is no block 0: 23, unless the state is not well formed.
        match self.block(0) {
            Err(Refusal::NoneThere) => lent::waiting_in(self.words.table(), guest),
            other => Err(other.err().unwrap_or(Refusal::Malformed)),
        }
    }

    // ---- words of the state

    /// One's own number.
    #[must_use]
    pub fn own(&self) -> Member {
        Member::new(self.words.state()[STATE_OWN])
    }

    /// The present round.
    #[must_use]
    pub fn round(&self) -> Round {
        Round::new(self.words.state()[STATE_ROUND])
    }

    /// The number of blocks.
    #[must_use]
    pub fn blocks(&self) -> u32 {
        lent::blocks(self.words.state())
    }

    /// The authors whose certificates of a round are held: a word of the table. 0 for a round out of range,
    /// so `engine.held(engine.round().before())` is the previous set to name, in round 1 too.
    ///
    /// ```
    /// use forgelilac::{Engine, Member, Refusal, Round, Sheet};
    ///
    /// let mut engine = Engine::open(Member::new(1), &Sheet { ceiling: Some(64), ..Sheet::default() })?;
    /// engine.propose(engine.held(engine.round().before()), &[])?;
    /// engine.certify(0b1101)?;
    /// assert_eq!(engine.held(Round::FIRST), engine.own().bit());
    /// # Ok::<(), Refusal>(())
    /// ```
    #[must_use]
    pub fn held(&self, round: Round) -> Set {
        lent::held(self.words.state(), self.words.table(), round)
    }

    /// One's own proposal for the present round, for sending. After a [`Engine::draw`] its
    /// transactions are those drawn.
    #[must_use]
    pub fn proposal(&self) -> Option<Proposal> {
        Proposal::from_words(&lent::own_proposal(self.words.state())?).ok()
    }

    /// The chain, by one read: the places of the rows of all blocks ([`Engine::block_rows`]). Inside a block
    /// rounds rise; within a round numbers rise from that of the leader of the block's round, with 0 after 15.
    /// Where that round has no leader, numbers just rise.
    ///
    /// # Errors
    /// [`Refusal::Malformed`] where the state is not well formed.
    pub fn chain(&self) -> Result<Vec<Block>, Refusal> {
        by_chain(self, self.rows_room(), |list| self.words.block_rows(Caller::Host, 0, self.blocks(), list))
    }

    /// The round of a block of a well-formed state: a word of the table.
    fn round_of(&self, block: u32) -> Round {
        Round::new(self.words.table()[row(block) + ROW_BLOCK])
    }
}

// ---- what calls of the engine and of its guests share

/// The certificates as a row, and the answers to each, by a call that is lent both.
pub(crate) fn by_batch(
    row: &[Certificate], call: impl FnOnce(&[CertificateRecord], &mut [u32]) -> Result<(), Refusal>,
) -> Result<Answers, Refusal> {
    let records: Vec<_> = row.iter().map(|one| CertificateRecord::from(one.to_words())).collect();
    let mut answers = vec![0; row.len()];
    call(&records, &mut answers)?;
    Ok(Answers(answers.into_iter().map(lent::accepted).collect()))
}

/// The entries of a preview, by a call that is lent a list of so many words.
pub(crate) fn by_preview(
    room: usize, call: impl FnOnce(&mut [u32]) -> Result<u32, Refusal>,
) -> Result<Vec<Entry>, Refusal> {
    let mut list = vec![0; room];
    let count = call(&mut list)?;
    Ok(lent::entries(&list, count).collect())
}

/// The certificates of blocks, by a call that is lent a list of so many words.
pub(crate) fn by_rows(
    room: usize, call: impl FnOnce(&mut [u32]) -> Result<u32, Refusal>,
) -> Result<Vec<Held>, Refusal> {
    let mut list = vec![0; room];
    let count = call(&mut list)?;
    lent::rows(&list, count).map(|words| Held::from_words(&words)).collect()
}

/// What a commit hangs on, by a call that is lent its list.
pub(crate) fn by_critical(call: impl FnOnce(&mut [u32]) -> Result<u32, Refusal>) -> Result<Vec<Critical>, Refusal> {
    let mut list = [0; CRITICAL_WORDS];
    let count = call(&mut list)?;
    Ok(lent::criticals(&list, count).collect())
}

/// The chain, by a call that is lent a list of so many words and, accepted, has told that the state is well
/// formed.
pub(crate) fn by_chain<W: Words>(
    engine: &Engine<W>, room: usize, call: impl FnOnce(&mut [u32]) -> Result<u32, Refusal>,
) -> Result<Vec<Block>, Refusal> {
    let mut list = vec![0; room];
    let count = call(&mut list)?;
    let empty = |block| Block { round: engine.round_of(block), certificates: Vec::new() };
    let mut chain: Vec<Block> = (1..=engine.blocks()).map(empty).collect();
    lent::places(&list, count).for_each(|place| chain[place.block as usize - 1].certificates.push(place));
    Ok(chain)
}
