//! Where what stands in words, as `include/forgelilac.h` has it, and the offsets of a serial port.
//! docs/TABLES.md explains the words, docs/GUESTS.md the offsets.

use crate::{Member, Refusal, Round, MEMBERS};

/// The format of the words of state and table; no word of theirs has it. Store it beside them.
/// A state of format 1 or 2 becomes one of this format by [`brought_along`].
pub const FORMAT: u32 = 3;

/// Words of a state.
pub const STATE_WORDS: usize = 39;
/// Words of a transaction: kind, number, amount.
pub const TRANSACTION_WORDS: usize = 3;
/// Words of a body: previous set, number of transactions, four transactions.
pub const BODY_WORDS: usize = 14;
/// Words of a proposal: author, round, body.
pub const PROPOSAL_WORDS: usize = 16;
/// Words of a certificate as accept takes it: proposal, endorsers.
pub const CERTIFICATE_WORDS: usize = 17;
/// Words of a held certificate as it is read: certificate, number of its block.
pub const HELD_WORDS: usize = 18;
/// Words of a sheet: twenty pairs, 0 blank or 1 written, then the value.
pub const SHEET_WORDS: usize = 40;
/// Words of an entry of a preview, and of a place in its list: block, round, author.
pub const ENTRY_WORDS: usize = 3;
/// Words of a place, in the list of certificates that a commit hangs on: round, author.
pub const PLACE_WORDS: usize = 2;
/// The words of the list that [`crate::lent::critical`] asks for: 32 places.
pub const CRITICAL_WORDS: usize = 64;
/// Words of the effect of a bond: sixteen shares before it, sixteen after it, the largest difference.
pub const EFFECT_WORDS: usize = 33;
/// The most certificates of a batch.
pub const BATCH_RECORDS: usize = 64;
/// Words of a guest's port, in row 0 of a table.
pub const PORT_WORDS: usize = 8;
/// Transactions that a body has words for: the largest allowance.
pub const TRANSACTIONS: usize = 4;
/// Guests that have a queue and a port and may be callers, 0 to 7.
pub const GUESTS: usize = 8;
/// The most transactions that wait in a queue.
pub const QUEUE_PLACES: usize = 8;
/// The most blocks of a state, at ceiling 1,024.
pub const BLOCKS: usize = 511;
/// Bytes of stack that serve every call of `lent` and `storing` on x86-64; docs/HOSTS.md has what each uses.
pub const STACK_BYTES: usize = 49_152;
/// The same of an owner's calls, those of an `Engine`: opening and restoring one, block rows and the
/// chain use about 41 KB, a port read about 36 KB, each other one 11 KB or less.
pub const OWNED_STACK_BYTES: usize = 49_152;

/// Of a state: own number.
pub const STATE_OWN: usize = 0;
/// Of a state: lookback.
pub const STATE_LOOKBACK: usize = 1;
/// Of a state: ceiling.
pub const STATE_CEILING: usize = 2;
/// Of a state: allowance.
pub const STATE_ALLOWANCE: usize = 3;
/// Of a state: the first of sixteen starting weights.
pub const STATE_WEIGHTS: usize = 4;
/// Of a state: present round.
pub const STATE_ROUND: usize = 20;
/// Of a state: is there a proposal, 0 or 1.
pub const STATE_PROPOSED: usize = 21;
/// Of a state: number of blocks.
pub const STATE_BLOCKS: usize = 22;
/// Of a state: the body of its proposal.
pub const STATE_BODY: usize = 23;
/// Of a state: margin.
pub const STATE_MARGIN: usize = 37;
/// Of a state: rights of callers, any word ([`crate::Rights::to_word`]).
pub const STATE_RIGHTS: usize = 38;

/// Words of a row of a table.
pub const ROW_WORDS: usize = 272;
/// Of a row: held set.
pub const ROW_HELD: usize = 0;
/// Of a row: endorsed set.
pub const ROW_ENDORSED: usize = 1;
/// Of row k: the round of block k.
pub const ROW_BLOCK: usize = 2;
/// Of a row: the first of sixteen records.
pub const ROW_RECORDS: usize = 16;
/// Words of a record.
pub const RECORD_WORDS: usize = 16;
/// Of a record: previous set.
pub const RECORD_PREVIOUS: usize = 0;
/// Of a record: number of transactions.
pub const RECORD_COUNT: usize = 1;
/// Of a record: commit mark, the number of its block, 0 for none.
pub const RECORD_BLOCK: usize = 2;
/// Of a record: endorsers that it was first stored with.
pub const RECORD_ENDORSERS: usize = 3;
/// Of a record: the first of its transactions, each kind, number, amount.
pub const RECORD_TRANSACTIONS: usize = 4;

/// Of an entry: the number of the block that would hold it.
pub const ENTRY_BLOCK: usize = 0;
/// Of an entry: the certificate's round.
pub const ENTRY_ROUND: usize = 1;
/// Of an entry: its author.
pub const ENTRY_AUTHOR: usize = 2;

/// Of a place: the certificate's round.
pub const PLACE_ROUND: usize = 0;
/// Of a place: its author.
pub const PLACE_AUTHOR: usize = 1;

/// Of an effect: the first of sixteen shares before the bond.
pub const EFFECT_BEFORE: usize = 0;
/// Of an effect: the first of sixteen shares after it.
pub const EFFECT_AFTER: usize = 16;
/// Of an effect: the largest difference.
pub const EFFECT_LARGEST: usize = 32;

/// Of row 0: the guest served last and 1 more, 0 for none.
pub const SERVED: usize = 0;
/// Of row 0, plus the guest: how many of its transactions wait, 0 to 8.
pub const WAITING: usize = 1;

/// Of a port: the last byte of the listing that was read is of the line of member m's certificate of round
/// r, as 16 r + m; 0 where none was read since reset.
pub const PORT_PLACE: usize = 0;
/// Of a port: which byte of that line, counted from 1; 0 where none was read since reset.
pub const PORT_BYTE: usize = 1;
/// Of a port: the register of offset 1, 0 or 1.
pub const PORT_ENABLE: usize = 2;
/// Of a port: the register of offset 3, 0 to 255.
pub const PORT_LINE: usize = 3;
/// Of a port: the register of offset 4, 0 to 31.
pub const PORT_MODEM: usize = 4;
/// Of a port: the register of offset 7, 0 to 255.
pub const PORT_SCRATCH: usize = 5;
/// Of a port: the divisor's low byte, 0 to 255.
pub const PORT_DIVISOR_LOW: usize = 6;
/// Of a port: the divisor's high byte, 0 to 255.
pub const PORT_DIVISOR_HIGH: usize = 7;

/// Offsets of a port, the eight byte registers of the published 16450 UART. While bit 7 of offset 3 is
/// set, offsets 0 and 1 are the two divisor bytes, read and written as they are, and a read of offset 0
/// takes no byte.
pub const OFFSETS: u32 = 8;
/// Reads the next byte of the listing and takes it, or 0 with none waiting; what is written is dropped.
pub const OFFSET_DATA: u32 = 0;
/// Keeps bit 0, which enables the received data interrupt.
pub const OFFSET_ENABLE: u32 = 1;
/// Reads 4 while that is enabled and a byte waits, else 1; writes are ignored.
pub const OFFSET_INTERRUPT: u32 = 2;
/// Keeps all eight bits.
pub const OFFSET_LINE: u32 = 3;
/// Keeps the low five bits.
pub const OFFSET_MODEM: u32 = 4;
/// Reads hexadecimal 60, plus 1 while a byte waits; writes are ignored.
pub const OFFSET_STATUS: u32 = 5;
/// Reads 0; writes are ignored.
pub const OFFSET_MODEM_STATUS: u32 = 6;
/// Keeps all eight bits.
pub const OFFSET_SCRATCH: u32 = 7;

/// A stored state in today's format. The table stays as it is.
///
/// | format | stored by versions | words | what is written behind them |
/// |---|---|---|---|
/// | 1 | up to 0.7.0 | 37 | the margin by which it ran, 3, and the rights |
/// | 2 | 0.8.0 and 0.9.0 | 38 | the rights |
/// | 3 | of today | 39 | nothing: its rights were fixed at its opening and stay, whatever is handed in |
///
/// The rights are those that guests are to have, as a word; 0 gives nobody one. The format is the one
/// that you stored beside the words, and not told by their number: they may be a state of today that
/// lost its last word. What lies beyond the words of the format is not looked at.
///
/// ```
/// use forgelilac::{layout, lent, table_words, Member, Sheet, STATE_WORDS};
///
/// let (mut state, mut table) = ([0; STATE_WORDS], [0; table_words(64) as usize]);
/// lent::open(&mut state, &mut table, Member::new(0), &Sheet { ceiling: Some(64), ..Sheet::default() }.to_words(), 7)?;
/// for (format, words) in [(1, 37), (2, 38)] {
///     let stored = &state[..words];
///     assert!(!lent::is_well_formed(stored, &table));
///     assert_eq!(layout::brought_along(format, stored, 7)?, state);
/// }
/// # Ok::<(), forgelilac::Refusal>(())
/// ```
///
/// # Errors
/// [`Refusal::Malformed`] for a format that there is not, and for fewer words than it has.
pub fn brought_along(format: u32, stored: &[u32], rights: u32) -> Result<[u32; STATE_WORDS], Refusal> {
    let words = match format {
        1 => STATE_MARGIN,
        2 => STATE_RIGHTS,
        FORMAT => STATE_WORDS,
        _ => return Err(Refusal::Malformed),
    };
    let mut state = [0; STATE_WORDS];
    state[STATE_MARGIN] = 3;
    state[STATE_RIGHTS] = rights;
    state[..words].copy_from_slice(stored.get(..words).ok_or(Refusal::Malformed)?);
    Ok(state)
}

/// The words of the list that a preview of a state of this ceiling asks for: 16 places for each round.
#[must_use]
pub const fn preview_words(ceiling: u32) -> usize {
    ENTRY_WORDS * MEMBERS * ceiling as usize
}

/// The words of a list in which there is room for the rows of all blocks of a state of this ceiling.
#[must_use]
pub const fn rows_words(ceiling: u32) -> usize {
    HELD_WORDS * MEMBERS * (ceiling as usize + 1)
}

/// The words of 64 bits of an owner's kept committees, of a state of this ceiling: an `Engine` has
/// them beside its state and table, and never stores them.
#[must_use]
pub const fn kept_words(ceiling: u32) -> usize {
    MEMBERS * (ceiling as usize + 1) + 1
}

/// Where the queue of a guest begins in a table: eight places of a transaction's three words, the
/// oldest first.
#[must_use]
pub const fn queue(guest: u32) -> usize {
    24 + 32 * guest as usize
}

/// Where the port of a guest begins in a table, before its queue: two words tell the last byte of the
/// listing that was read, six are the registers that it holds.
#[must_use]
pub const fn port(guest: u32) -> usize {
    16 + 32 * guest as usize
}

/// Where a row begins in a table: that of a round, which is that of the block of this number too.
#[must_use]
pub const fn row(number: u32) -> usize {
    ROW_WORDS * number as usize
}

/// Where the record of an author and a round begins in a table.
#[must_use]
pub const fn record(author: Member, round: Round) -> usize {
    row(round.get()) + ROW_RECORDS + RECORD_WORDS * author.get() as usize
}
