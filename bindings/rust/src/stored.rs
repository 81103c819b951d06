//! An engine's words as bytes.

use crate::layout::{FORMAT, STATE_CEILING, STATE_WORDS};
use crate::storing::{self, stored_bytes};
use crate::words::{Calls, Words};
use crate::{table_words, Engine, Member, Owned, StoringRefusal};
use alloc::vec;
use alloc::vec::Vec;
use core::fmt;

/// Bytes in front of the words: the format, the words of the state, and in eight bytes those of the table.
const FRONT: usize = 16;

/// Why bytes are no stored engine. Later versions may have more.
#[derive(Clone, Copy, PartialEq, Eq, Hash, Debug)]
#[non_exhaustive]
pub enum FromBytesError {
    /// Words of another format than [`FORMAT`]: this one. [`crate::layout::brought_along`] takes those of
    /// 1 and 2.
    Format(u32),
    /// Fewer or more bytes than the lengths in front ask for, or a state of another length.
    Length,
    /// The words are no member's as calls leave them: the state is not well formed, histories are not
    /// whole, or blocks do not hang together.
    Malformed,
}

impl fmt::Display for FromBytesError {
    fn fmt(&self, f: &mut fmt::Formatter<'_>) -> fmt::Result {
        match self {
            FromBytesError::Format(format) => write!(f, "words of format {format}, not of {FORMAT}"),
            FromBytesError::Length => f.write_str("bytes of another length than those in front tell"),
            FromBytesError::Malformed => f.write_str("state not well formed"),
        }
    }
}

impl core::error::Error for FromBytesError {}

/// The number of the next four bytes, and what follows them.
fn number(bytes: &[u8]) -> Option<(u32, &[u8])> {
    let (four, rest) = bytes.split_first_chunk()?;
    Some((u32::from_le_bytes(*four), rest))
}

/// What [`Engine::to_bytes`] gives of these words.
pub(crate) fn to_bytes(state: &[u32; STATE_WORDS], table: &[u32]) -> Vec<u8> {
    let mut bytes = Vec::with_capacity(FRONT + 4 * (STATE_WORDS + table.len()));
    bytes.extend(FORMAT.to_le_bytes());
    bytes.extend((STATE_WORDS as u32).to_le_bytes());
    bytes.extend((table.len() as u64).to_le_bytes());
    bytes.extend(state.iter().chain(table).flat_map(|word| word.to_le_bytes()));
    bytes
}

/// What [`Engine::store`] gives of these words.
fn store(state: &[u32; STATE_WORDS], table: &[u32], run: u64) -> Result<Vec<u8>, StoringRefusal> {
    if (table.len() as u64) < table_words(state[STATE_CEILING]) {
        return Err(StoringRefusal::UnreadableWords);
    }
    let mut bytes = vec![0; stored_bytes(state[STATE_CEILING]) as usize];
    storing::store(state, table, run, &mut bytes)?;
    Ok(bytes)
}

/// Storing and loading.
impl Owned {
    /// State and table as bytes with a digest over them, as [`Engine::store`] gives them. The kept committees
    /// are not there: they follow from the words.
    ///
    /// # Errors
    /// None of words that are owned; the type is that of [`Engine::store`].
    ///
    /// ```
    /// use forgelilac::{Engine, Member, Owned, Sheet, StoringRefusal};
    ///
    /// let sheet = Sheet { ceiling: Some(64), ..Sheet::default() };
    /// let bytes = Engine::open(Member::new(2), &sheet).unwrap().store(7)?;
    /// let words = Owned::load(&bytes, Member::new(2), 7)?;
    /// assert_eq!(words.store(7)?, bytes);
    /// assert_ne!(words.store(8)?, bytes);
    /// assert_eq!(Engine::from(words).store(7)?, bytes);
    /// # Ok::<(), StoringRefusal>(())
    /// ```
    pub fn store(&self, run: u64) -> Result<Vec<u8>, StoringRefusal> {
        store(self.state(), self.table(), run)
    }

    /// The words that the member `own` stored in this run: exactly the bytes of [`Owned::store`]. They are
    /// tested as [`Engine::try_restore`] tests them, and owned from here on. Any bytes are safe, and none are
    /// allocated for that are not there.
    ///
    /// # Errors
    /// As [`storing::load`] has them, but for [`StoringRefusal::NoRoom`]; and
    /// [`StoringRefusal::UnreadableWords`] also where [`Engine::try_restore`] fails.
    ///
    /// ```
    /// use forgelilac::{Engine, Member, Owned, Sheet, StoringRefusal};
    ///
    /// let sheet = Sheet { ceiling: Some(64), ..Sheet::default() };
    /// let mut bytes = Engine::open(Member::new(2), &sheet).unwrap().store(7)?;
    /// assert!(Owned::load(&bytes, Member::new(2), 7).is_ok());
    /// assert_eq!(Owned::load(&bytes, Member::new(3), 7).err(), Some(StoringRefusal::OtherMember));
    /// bytes.push(0);
    /// assert_eq!(Owned::load(&bytes, Member::new(2), 7).err(), Some(StoringRefusal::Torn));
    /// # Ok::<(), StoringRefusal>(())
    /// ```
    pub fn load(bytes: &[u8], own: Member, run: u64) -> Result<Owned, StoringRefusal> {
        let words = (bytes.len() as u64).checked_sub(stored_bytes(0)).map_or(0, |more| more / 4 + table_words(0));
        let (mut state, mut table) = ([0; STATE_WORDS], vec![0; words as usize]);
        storing::load(bytes, own, run, &mut state, &mut table)?;
        Owned::resume(state, table).map_err(|_| StoringRefusal::UnreadableWords)
    }
}

/// The words were tested when they were loaded, and are not tested again.
impl From<Owned> for Engine {
    fn from(words: Owned) -> Engine {
        Engine { words }
    }
}

impl<W: Words> Engine<W> {
    /// The member as bytes with a digest over them, stored in the run of this number: what a host writes to a
    /// disk. What the table has beyond its used part is not there.
    ///
    /// A digest tells bytes that were torn or mixed; it is no signature, and an older store is as whole as the
    /// latest.
    ///
    /// # Errors
    /// [`StoringRefusal::UnreadableWords`], where the words are no state's.
    ///
    /// ```
    /// use forgelilac::{Engine, Member, Sheet, StoringRefusal};
    ///
    /// let sheet = Sheet { ceiling: Some(64), ..Sheet::default() };
    /// let engine = Engine::open(Member::new(2), &sheet).unwrap();
    /// let mut bytes = engine.store(7)?;
    /// assert_eq!(Engine::load(&bytes, Member::new(2), 7), Ok(engine));
    /// assert_eq!(Engine::load(&bytes, Member::new(3), 7), Err(StoringRefusal::OtherMember));
    /// assert_eq!(Engine::load(&bytes, Member::new(2), 8), Err(StoringRefusal::OtherRun));
    /// bytes[1000] ^= 1;
    /// assert_eq!(Engine::load(&bytes, Member::new(2), 7), Err(StoringRefusal::Torn));
    /// # Ok::<(), StoringRefusal>(())
    /// ```
    pub fn store(&self, run: u64) -> Result<Vec<u8>, StoringRefusal> {
        let (state, table) = self.words();
        store(state, table, run)
    }

    /// State and table as bytes, for storing: [`crate::layout::FORMAT`], the words of the state, in eight
    /// bytes the words of the table, then the words of both, each little-endian. What the table has beyond
    /// its used part is there too.
    ///
    /// They carry no digest, no count and no signature, so they do not tell whether they are the latest that
    /// were stored, nor whether they are what was stored: put both beside them (docs/HOSTS.md, "Stored
    /// words").
    ///
    /// ```
    /// use forgelilac::{Engine, FromBytesError, Member, Sheet, STATE_WORDS};
    ///
    /// let engine = Engine::open(Member::new(2), &Sheet { ceiling: Some(64), ..Sheet::default() }).unwrap();
    /// let bytes = engine.to_bytes();
    /// assert_eq!(bytes.len(), 16 + 4 * (STATE_WORDS + engine.words().1.len()));
    /// assert_eq!(Engine::from_bytes(&bytes), Ok(engine));
    /// assert_eq!(Engine::from_bytes(&bytes[1..]).unwrap_err(), FromBytesError::Format(0x2700_0000));
    /// assert_eq!(Engine::from_bytes(&bytes[..99]).unwrap_err(), FromBytesError::Length);
    /// ```
    #[must_use]
    pub fn to_bytes(&self) -> Vec<u8> {
        let (state, table) = self.words();
        to_bytes(state, table)
    }
}

impl Engine {
    /// The member `own` as it stored itself in this run: exactly the bytes of [`Engine::store`]. Any bytes are
    /// safe, and none are allocated for that are not there. The words are tested as [`Engine::try_restore`]
    /// tests them.
    ///
    /// # Errors
    /// As [`storing::load`] has them, but for [`StoringRefusal::NoRoom`]; and
    /// [`StoringRefusal::UnreadableWords`] also where [`Engine::try_restore`] fails.
    pub fn load(bytes: &[u8], own: Member, run: u64) -> Result<Engine, StoringRefusal> {
        Owned::load(bytes, own, run).map(Engine::from)
    }

    /// An engine of the bytes that [`Engine::to_bytes`] gave, as [`Engine::try_restore`] makes one. Any bytes are
    /// safe, and none are allocated for that are not there. As [`Engine::try_restore`] it cannot tell a
    /// damaged or an older store from the latest: check your digest and count first.
    ///
    /// # Errors
    /// In this order: [`FromBytesError::Format`], where there are four bytes to tell it;
    /// [`FromBytesError::Length`]; [`FromBytesError::Malformed`], by the engine's own test.
    pub fn from_bytes(bytes: &[u8]) -> Result<Engine, FromBytesError> {
        let (format, rest) = number(bytes).ok_or(FromBytesError::Length)?;
        if format != FORMAT {
            return Err(FromBytesError::Format(format));
        }
        let (state_words, rest) = number(rest).ok_or(FromBytesError::Length)?;
        let (table_words, words) = rest.split_first_chunk().ok_or(FromBytesError::Length)?;
        let fits = u64::from_le_bytes(*table_words)
            .checked_add(u64::from(state_words))
            .and_then(|words| words.checked_mul(4))
            .is_some_and(|length| length == words.len() as u64);
        if !fits || state_words as usize != STATE_WORDS {
            return Err(FromBytesError::Length);
        }
        let mut words = words.chunks_exact(4).map(|four| u32::from_le_bytes([four[0], four[1], four[2], four[3]]));
        let mut state = [0; STATE_WORDS];
        state.iter_mut().zip(&mut words).for_each(|(word, stored)| *word = stored);
        Engine::try_restore(state, words.collect()).map_err(|_| FromBytesError::Malformed)
    }
}
