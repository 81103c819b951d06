//! A host's own store, as the suite tries it, and the plant's own.

use crate::chance::mixed;
use crate::disk::Disk;
use forgelilac::layout::PROPOSAL_WORDS;
use forgelilac::ready::{Kept, Record};
use forgelilac::{Proposal, STATE_WORDS};

/// A host's own store, over the disk that it is handed. The store itself is memory: after a power failure
/// another one is made.
pub trait Store {
    /// Stores the record whole. Once it has returned without an error, what was signed leaves.
    ///
    /// # Errors
    /// In words, where the record may not be there; then nothing leaves.
    fn store(&mut self, disk: &mut Disk, record: &Record<'_>) -> Result<(), String>;

    /// The record of the store that was done last, or of the one that power failed in; nothing where there never
    /// was one.
    ///
    /// # Errors
    /// In words, where something was stored and cannot be read.
    fn load(&mut self, disk: &Disk) -> Result<Option<Kept>, String>;
}

/// The plant's own: two places in turns, each with its sum, and the count of the store that was done last in a
/// sector of its own (docs/HOSTS.md, "Stored words").
#[derive(Clone, Copy, Debug, Default)]
pub struct Places;

/// Words before those of state and table: count in two, number of endorsed proposals, words of the table.
const HEAD: usize = 4;
/// The file of the note. The two places are the files behind it.
pub const NOTE: u32 = 0;
/// More bytes than any record has, as one that a torn head tells.
const MOST: usize = 8 * 1024 * 1024;

impl Store for Places {
    fn store(&mut self, disk: &mut Disk, record: &Record<'_>) -> Result<(), String> {
        disk.write(place(record.count), 0, to_bytes(record));
        disk.sync();
        disk.write(NOTE, 0, record.count.to_le_bytes());
        disk.sync();
        Ok(())
    }

    fn load(&mut self, disk: &Disk) -> Result<Option<Kept>, String> {
        match noted(disk) {
            0 => Ok(None),
            count => kept_at(disk, place(count)).filter(|kept| kept.count == count).map(Some).ok_or("torn".into()),
        }
    }
}

/// The file in which the store of this count lies.
#[must_use]
pub fn place(count: u64) -> u32 {
    NOTE + 1 + (count % 2) as u32
}

/// The count of the store that was done last, 0 where none was.
#[must_use]
pub fn noted(disk: &Disk) -> u64 {
    disk.read(NOTE, 0, 8).try_into().map_or(0, u64::from_le_bytes)
}

/// A record as bytes, with a sum at their end.
#[must_use]
pub fn to_bytes(record: &Record<'_>) -> Vec<u8> {
    let endorsed: Vec<_> = record.endorsed.iter().flat_map(Proposal::to_words).collect();
    let (low, high) = (record.count as u32, (record.count >> 32) as u32);
    let head = [low, high, record.endorsed.len() as u32, record.table.len() as u32];
    let stretches = [&head[..], record.state, record.table, &endorsed];
    let length = stretches.iter().map(|words| 4 * words.len()).sum();
    let mut bytes = vec![0; length + 8];
    let mut rest = &mut bytes[..];
    for words in stretches {
        let (part, behind) = rest.split_at_mut(4 * words.len());
        part.chunks_exact_mut(4).zip(words).for_each(|(four, word)| four.copy_from_slice(&word.to_le_bytes()));
        rest = behind;
    }
    let sum = sum(&bytes[..length]);
    bytes[length..].copy_from_slice(&sum.to_le_bytes());
    bytes
}

/// What a file holds, where its sum is right.
#[must_use]
pub fn kept_at(disk: &Disk, file: u32) -> Option<Kept> {
    let bytes = bytes_at(disk, file)?;
    let (words, stored) = bytes.split_last_chunk()?;
    (u64::from_le_bytes(*stored) == sum(words)).then(|| unchecked(words)).flatten()
}

/// The bytes of a file, as many as its head tells, with those of the sum.
#[must_use]
pub fn bytes_at(disk: &Disk, file: u32) -> Option<Vec<u8>> {
    let head = words_of(&disk.read(file, 0, 4 * HEAD));
    let words = (head[3] as usize).saturating_add((head[2] as usize).saturating_mul(PROPOSAL_WORDS));
    let bytes = words.saturating_add(HEAD + STATE_WORDS).saturating_mul(4).saturating_add(8);
    (bytes <= MOST).then(|| disk.read(file, 0, bytes))
}

/// What these bytes say, whether or not their sum was right.
#[must_use]
pub fn unchecked(bytes: &[u8]) -> Option<Kept> {
    let words = words_of(bytes);
    let (head, words) = words.split_at_checked(HEAD)?;
    let (state, words) = words.split_first_chunk::<STATE_WORDS>()?;
    let (table, words) = words.split_at_checked(head[3] as usize)?;
    let endorsed = words.chunks_exact(PROPOSAL_WORDS).take(head[2] as usize).map(Proposal::from_words);
    Some(Kept {
        count: u64::from(head[0]) | u64::from(head[1]) << 32,
        state: *state,
        table: table.to_vec(),
        endorsed: endorsed.collect::<Result<_, _>>().ok()?,
    })
}

fn words_of(bytes: &[u8]) -> Vec<u32> {
    bytes.chunks_exact(4).map(|four| u32::from_le_bytes([four[0], four[1], four[2], four[3]])).collect()
}

/// Not against who wants to deceive, but against what is torn.
fn sum(bytes: &[u8]) -> u64 {
    let words = bytes.chunks(8).map(|eight| {
        let mut word = [0; 8];
        word[..eight.len()].copy_from_slice(eight);
        u64::from_le_bytes(word)
    });
    mixed(words.fold(bytes.len() as u64, |sum, word| (sum.rotate_left(23) ^ word).wrapping_mul(0x9e37_79b9_7f4a_7c15)))
}
