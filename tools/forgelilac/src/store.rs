//! Stored words: the bytes that a host wrote, as one file of the package's or as one of the state and one of the table.

use crate::arguments::{bytes_of, Arguments, Choice};
use crate::failure::{input, usage, Failure};
use forgelilac::layout::{brought_along, FORMAT, STATE_CEILING, STATE_WORDS};
use forgelilac::{table_words, Engine, Refusal, Rights};

/// Words that were read, of today's format.
pub struct Words {
    pub state: [u32; STATE_WORDS],
    pub table: Vec<u32>,
    /// What is to be said of how they were read.
    pub note: Option<String>,
}

/// Bytes in front of the words of a whole store: the format, the words of the state, in eight bytes those of the table.
const FRONT: usize = 16;

/// How what `forgelilac_store` and `Engine::store` write begins (docs/TABLES.md, "The stored form").
const STORED_MARK: &[u8] = b"FLS1";

/// What the operands of a command are.
pub enum Source {
    Stream(Vec<u8>),
    Words(Box<Words>),
}

/// By it the words stand somewhere in a host's own store.
pub const AT: Choice = Choice {
    name: "at",
    value: Some("BYTE"),
    about: "the state begins at this byte, and the table right behind it; 16 of what forgelilac_store wrote",
};

/// One operand is a whole store or a stream, two are state and table.
pub fn source_of(arguments: &Arguments) -> Result<Source, Failure> {
    if arguments.has(AT.name) {
        return Ok(Source::Words(Box::new(words_of(arguments)?)));
    }
    match arguments.operands.as_slice() {
        [state, table] => Ok(Source::Words(Box::new(two_files(state, table)?))),
        [path] => {
            let bytes = bytes_of(path)?;
            if holds_words(&bytes) {
                Ok(Source::Words(Box::new(whole(path, &bytes)?)))
            } else {
                Ok(Source::Stream(bytes))
            }
        }
        _ => input("wanted is one file or two"),
    }
}

/// One operand is a whole store, two are state and table.
pub fn words_of(arguments: &Arguments) -> Result<Words, Failure> {
    let at = arguments.number(AT.name, 0, u32::MAX)?;
    match (arguments.operands.as_slice(), at) {
        ([_, _], Some(_)) => usage("--at goes with one file, in which state and table stand"),
        ([state, table], None) => two_files(state, table),
        ([path], Some(at)) => within(path, &bytes_of(path)?, at as usize),
        ([path], None) => whole(path, &bytes_of(path)?),
        _ => input("wanted is one file or two"),
    }
}

/// Whether bytes begin as stored words of any form do; no record begins so, and no listing.
pub fn holds_words(bytes: &[u8]) -> bool {
    looks_stored(bytes) || bytes.starts_with(STORED_MARK)
}

/// Whether bytes begin as a whole store does.
fn looks_stored(bytes: &[u8]) -> bool {
    bytes.len() >= FRONT && word(bytes, 0) < 256 && word(bytes, 1) < 256 && word(bytes, 1) != 0
}

fn word(bytes: &[u8], at: usize) -> u32 {
    bytes.chunks_exact(4).nth(at).map_or(0, |four| u32::from_le_bytes([four[0], four[1], four[2], four[3]]))
}

fn words_in(path: &str, bytes: &[u8]) -> Result<Vec<u32>, Failure> {
    if bytes.len() % 4 != 0 {
        return input(format!("{path} has {} bytes: words are four bytes each", bytes.len()));
    }
    Ok(bytes.chunks_exact(4).map(|four| u32::from_le_bytes([four[0], four[1], four[2], four[3]])).collect())
}

/// A store as `Engine::to_bytes` writes it.
fn whole(path: &str, bytes: &[u8]) -> Result<Words, Failure> {
    if bytes.starts_with(STORED_MARK) {
        return input(format!(
            "{path} is what forgelilac_store or Engine::store wrote: its words are read with --at 16"
        ));
    }
    if !looks_stored(bytes) {
        return input(format!(
            "{path} is no store as Engine::to_bytes writes it; where state and table are two files, give both"
        ));
    }
    let (format, state_words) = (word(bytes, 0), word(bytes, 1) as usize);
    let table_words = u64::from(word(bytes, 2)) | u64::from(word(bytes, 3)) << 32;
    let words = words_in(path, &bytes[FRONT..])?;
    if state_words as u64 + table_words != words.len() as u64 {
        return input(format!(
            "{path} has {} words behind its front, which tells {state_words} of the state and {table_words} of the table",
            words.len()
        ));
    }
    let (state, table) = words.split_at(state_words);
    of_format(path, Some(format), state, table.to_vec())
}

/// State and table one behind the other, from a byte on; the ceiling tells how long the table is.
fn within(path: &str, bytes: &[u8], at: usize) -> Result<Words, Failure> {
    let rest = bytes.get(at..).unwrap_or(&[]);
    let words = words_in(path, &rest[..rest.len() / 4 * 4])?;
    let Some((state, table)) = words.split_first_chunk::<STATE_WORDS>() else {
        return input(format!("{path} has {} bytes, and no state at byte {at}", bytes.len()));
    };
    let ceiling = state[STATE_CEILING];
    let used = usize::try_from(table_words(ceiling)).unwrap_or(usize::MAX);
    Ok(Words { state: *state, table: table[..used.min(table.len())].to_vec(), note: None })
}

fn two_files(state: &str, table: &str) -> Result<Words, Failure> {
    let words = words_in(state, &bytes_of(state)?)?;
    of_format(state, None, &words, words_in(table, &bytes_of(table)?)?)
}

/// Words of an older format are brought along; where none is told, their number tells it.
fn of_format(path: &str, format: Option<u32>, stored: &[u32], table: Vec<u32>) -> Result<Words, Failure> {
    let told = format.or(match stored.len() {
        37 => Some(1),
        38 => Some(2),
        _ => None,
    });
    let today = stored.first_chunk().copied().filter(|_| stored.len() == STATE_WORDS);
    match (told, today) {
        (None | Some(FORMAT), Some(state)) => Ok(Words { state, table, note: None }),
        (Some(older), _) if older < FORMAT => {
            let state = brought_along(older, stored, Rights::NONE.to_word())
                .or_else(|_| input(format!("{path}: {} words are no state of format {older}", stored.len())))?;
            let note = format!(
                "a state of format {older}, brought along without rights (docs/TABLES.md, \"Bringing a store along\")"
            );
            Ok(Words { state, table, note: Some(note) })
        }
        (Some(other), _) if other != FORMAT => {
            input(format!("{path} is of format {other}; this tool reads up to {FORMAT}"))
        }
        _ => input(format!("{path}: a state has {STATE_WORDS} words, and here are {}", stored.len())),
    }
}

impl Words {
    pub fn engine(&self) -> Result<Engine, Refusal> {
        Engine::try_restore(self.state, self.table.clone())
    }
}
