//! The suite for hosts in C: include/forgelilac_suite.h has what it declares.
//!
//! A store and a transport are function pointers. What they are lent is theirs until they return.

use crate::disk::Disk;
use crate::keys::Keys;
use crate::store::{Places, Store};
use crate::suite;
use crate::transport::{Plain, Transport};
use crate::world::Parts;
use forgelilac::layout::{CERTIFICATE_WORDS, PROPOSAL_WORDS};
use forgelilac::ready::{Input, Kept, Message, Record};
use forgelilac::{Certificate, Member, Proposal, Round, STATE_WORDS};
use std::ffi::{c_char, c_int, c_void};
use std::slice;

/// The most bytes of a message that a transport makes.
pub const MESSAGE_BYTES: usize = 8_192;

/// What is to be stored, or what came back: stretches of words.
#[repr(C)]
pub struct SuiteRecord {
    /// It rises by one with every store.
    pub count: u64,
    /// The words of the state.
    pub state: *mut u32,
    /// How many.
    pub state_words: usize,
    /// The words of the table.
    pub table: *mut u32,
    /// How many.
    pub table_words: usize,
    /// The words of endorsed proposals, sixteen of each.
    pub endorsed: *mut u32,
    /// How many; of a load as many as there is room for, and then as many as there are.
    pub endorsed_words: usize,
}

/// A store in C. One that has no functions is the plant's own.
#[repr(C)]
#[derive(Clone, Copy, Default)]
pub struct SuiteStore {
    /// Makes the memory of a member's store; null is some memory too.
    pub begin: Option<unsafe extern "C" fn(member: u32) -> *mut c_void>,
    /// Drops that memory: power has failed.
    pub end: Option<unsafe extern "C" fn(memory: *mut c_void)>,
    /// Stores a record whole; 0 once it is there.
    pub store: Option<unsafe extern "C" fn(memory: *mut c_void, disk: *mut Disk, record: *const SuiteRecord) -> c_int>,
    /// Loads it into the stretches that are lent: 1 where there is one, 0 where nothing was ever stored, less than 0
    /// where it cannot be read.
    pub load: Option<unsafe extern "C" fn(memory: *mut c_void, disk: *mut Disk, record: *mut SuiteRecord) -> c_int>,
}

/// A message in C.
#[repr(C)]
pub struct SuiteMessage {
    /// 1 a proposal, 2 an endorsement, 3 certificates, 4 a question.
    pub kind: u32,
    /// Who sends it; of an endorsement the endorser.
    pub by: u32,
    /// Of a question the lowest round.
    pub round: u32,
    /// Sixteen words of a proposal, or of the one that is endorsed; seventeen of each certificate.
    pub words: *mut u32,
    /// How many; of an unpack as many as there is room for, and then as many as there are.
    pub words_count: usize,
}

/// A transport in C. One that has no functions is the plant's own.
#[repr(C)]
#[derive(Clone, Copy, Default)]
pub struct SuiteTransport {
    /// The bytes of a message: how many were written.
    pub pack: Option<unsafe extern "C" fn(message: *const SuiteMessage, bytes: *mut u8, room: usize) -> usize>,
    /// What came, once its signatures are checked by `forgelilac_suite_signed`: 1 where it is good, else 0.
    pub unpack: Option<
        unsafe extern "C" fn(
            from: u32,
            bytes: *const u8,
            length: usize,
            keys: *const Keys,
            message: *mut SuiteMessage,
        ) -> c_int,
    >,
}

/// The words of a certificates message of a whole batch.
const MOST_WORDS: usize = 64 * CERTIFICATE_WORDS;

struct CStore {
    calls: SuiteStore,
    memory: *mut c_void,
}

impl Drop for CStore {
    fn drop(&mut self) {
        if let Some(end) = self.calls.end {
            // Safe: the memory is the one that begin gave, and no call is made with it any more.
            unsafe { end(self.memory) };
        }
    }
}

impl Store for CStore {
    fn store(&mut self, disk: &mut Disk, record: &Record<'_>) -> Result<(), String> {
        let Some(store) = self.calls.store else { return Err("there is no function to store".into()) };
        let mut kept = record.kept();
        let mut endorsed: Vec<_> = kept.endorsed.iter().flat_map(Proposal::to_words).collect();
        let record = SuiteRecord {
            count: kept.count,
            state: kept.state.as_mut_ptr(),
            state_words: STATE_WORDS,
            table: kept.table.as_mut_ptr(),
            table_words: kept.table.len(),
            endorsed: endorsed.as_mut_ptr(),
            endorsed_words: endorsed.len(),
        };
        // Safe: the stretches outlive the call, and are as long as they say.
        match unsafe { store(self.memory, disk, &record) } {
            0 => Ok(()),
            number => Err(format!("the store answered {number}")),
        }
    }

    fn load(&mut self, disk: &Disk) -> Result<Option<Kept>, String> {
        let Some(load) = self.calls.load else { return Err("there is no function to load".into()) };
        let mut state = [0; STATE_WORDS];
        let mut table = vec![0; forgelilac::table_words(forgelilac::CEILING) as usize];
        let mut endorsed = vec![0; 1_024 * PROPOSAL_WORDS];
        let mut record = SuiteRecord {
            count: 0,
            state: state.as_mut_ptr(),
            state_words: STATE_WORDS,
            table: table.as_mut_ptr(),
            table_words: table.len(),
            endorsed: endorsed.as_mut_ptr(),
            endorsed_words: endorsed.len(),
        };
        // Reading leaves a disk as it is; the functions that C calls take one that can be written.
        let mut disk = disk.clone();
        // Safe: as above.
        match unsafe { load(self.memory, &mut disk, &mut record) } {
            0 => return Ok(None),
            1 => {}
            number => return Err(format!("the load answered {number}")),
        }
        let (count, words, endorsed_words) = (record.count, record.table_words, record.endorsed_words);
        table.truncate(words);
        endorsed.truncate(endorsed_words);
        let endorsed = endorsed.chunks_exact(PROPOSAL_WORDS).map(Proposal::from_words).collect::<Result<_, _>>();
        let endorsed = endorsed.map_err(|refusal| refusal.to_string())?;
        Ok(Some(Kept { count, state, table, endorsed }))
    }
}

struct CTransport(SuiteTransport);

impl Transport for CTransport {
    fn pack(&mut self, own: Member, message: &Message) -> Vec<u8> {
        let Some(pack) = self.0.pack else { return Plain.pack(own, message) };
        let (kind, round, mut words) = match message {
            Message::Proposal(one) => (1, 0, one.to_words().to_vec()),
            Message::Endorsement(one) => (2, 0, one.to_words().to_vec()),
            Message::Certificates(row) => (3, 0, row.iter().flat_map(Certificate::to_words).collect()),
            Message::Question { lowest } => (4, lowest.get(), Vec::new()),
        };
        let message = SuiteMessage { kind, by: own.get(), round, words: words.as_mut_ptr(), words_count: words.len() };
        let mut bytes = vec![0; MESSAGE_BYTES];
        // Safe: the stretches outlive the call, and are as long as they say.
        let length = unsafe { pack(&message, bytes.as_mut_ptr(), bytes.len()) };
        bytes.truncate(length);
        bytes
    }

    fn unpack(&mut self, from: Member, bytes: &[u8], keys: &Keys) -> Option<Input> {
        let Some(unpack) = self.0.unpack else { return Plain.unpack(from, bytes, keys) };
        let mut words = vec![0; MOST_WORDS];
        let mut message =
            SuiteMessage { kind: 0, by: 0, round: 0, words: words.as_mut_ptr(), words_count: words.len() };
        // Safe: as above.
        if unsafe { unpack(from.get(), bytes.as_ptr(), bytes.len(), keys, &mut message) } != 1 {
            return None;
        }
        let (kind, by, round, count) = (message.kind, message.by, message.round, message.words_count);
        words.truncate(count);
        let proposal = |words: &[u32]| Proposal::from_words(words.get(..PROPOSAL_WORDS)?).ok();
        match kind {
            1 => proposal(&words).map(Input::Proposal),
            2 => proposal(&words).map(|proposal| Input::Endorsement { by: Member::new(by), proposal }),
            3 => {
                let row = words.chunks_exact(CERTIFICATE_WORDS).map(Certificate::from_words);
                row.collect::<Result<Vec<_>, _>>().ok().map(Input::Certificates)
            }
            4 => Some(Input::Question { from, lowest: Round::new(round) }),
            _ => None,
        }
    }
}

struct CParts {
    store: SuiteStore,
    transport: SuiteTransport,
}

impl Parts for CParts {
    fn store(&self, own: Member) -> Box<dyn Store> {
        if self.store.store.is_none() {
            return Box::new(Places);
        }
        // Safe: it takes a number.
        let memory = self.store.begin.map_or(std::ptr::null_mut(), |begin| unsafe { begin(own.get()) });
        Box::new(CStore { calls: self.store, memory })
    }

    fn transport(&self, _: Member) -> Box<dyn Transport> {
        Box::new(CTransport(self.transport))
    }
}

/// Runs the suite over so many seeds: 0 where nothing was found, else the number of seeds that it took. What was
/// found is written as text that ends in 0, as much of it as there is room for.
///
/// # Safety
/// `store` and `transport` are null or point to one; `said` is null or has so many bytes.
#[no_mangle]
pub unsafe extern "C" fn forgelilac_suite_run(
    store: *const SuiteStore, transport: *const SuiteTransport, first: u64, count: u64, said: *mut c_char, room: usize,
) -> u64 {
    let parts = CParts {
        store: store.as_ref().copied().unwrap_or_default(),
        transport: transport.as_ref().copied().unwrap_or_default(),
    };
    let found = suite::run(&parts, first, count);
    let text = found.as_ref().map_or(String::new(), ToString::to_string);
    if !said.is_null() && room > 0 {
        let out = slice::from_raw_parts_mut(said.cast::<u8>(), room);
        let length = text.len().min(room - 1);
        out[..length].copy_from_slice(&text.as_bytes()[..length]);
        out[length] = 0;
    }
    found.map_or(0, |found| found.tried)
}

/// Writes bytes of a file from a place on: they are there after the next sync, and not before.
///
/// # Safety
/// `disk` is the one that the call was handed; `bytes` has so many.
#[no_mangle]
pub unsafe extern "C" fn forgelilac_suite_write(
    disk: *mut Disk, file: u32, at: usize, bytes: *const c_void, length: usize,
) {
    if let (Some(disk), false) = (disk.as_mut(), length == 0) {
        disk.write(file, at, slice::from_raw_parts(bytes.cast(), length));
    }
}

/// Makes all that was written safe.
///
/// # Safety
/// `disk` is the one that the call was handed.
#[no_mangle]
pub unsafe extern "C" fn forgelilac_suite_sync(disk: *mut Disk) {
    if let Some(disk) = disk.as_mut() {
        disk.sync();
    }
}

/// Reads bytes of a file from a place on, 0 where nothing was written.
///
/// # Safety
/// `disk` is the one that the call was handed; `bytes` has room for so many.
#[no_mangle]
pub unsafe extern "C" fn forgelilac_suite_read(
    disk: *const Disk, file: u32, at: usize, bytes: *mut c_void, length: usize,
) {
    if let (Some(disk), false) = (disk.as_ref(), length == 0) {
        slice::from_raw_parts_mut(bytes.cast::<u8>(), length).copy_from_slice(&disk.read(file, at, length));
    }
}

/// Whether a member has signed the proposal of these sixteen words, as its author or as one who endorses it: 1 or 0.
///
/// # Safety
/// `keys` are those that the call was handed; `proposal` has sixteen words.
#[no_mangle]
pub unsafe extern "C" fn forgelilac_suite_signed(keys: *const Keys, member: u32, proposal: *const u32) -> c_int {
    let proposal = Proposal::from_words(slice::from_raw_parts(proposal, PROPOSAL_WORDS));
    let signed = keys.as_ref().zip(proposal.ok());
    signed.is_some_and(|(keys, proposal)| keys.is_signed(Member::new(member), &proposal)).into()
}
