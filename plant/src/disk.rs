//! A disk that power may fail under: what was written and not yet synced may be there in part.

use crate::chance::Chance;
use std::collections::BTreeMap;

/// Bytes that are written whole or not at all.
pub const SECTOR: usize = 512;

/// A member's disk: files by number, 0 where nothing was written.
#[derive(Clone, Debug, Default)]
pub struct Disk {
    safe: BTreeMap<u32, Vec<u8>>,
    /// Written and not synced, in order.
    cached: Vec<Written>,
    /// How many more writes and syncs are done before power fails.
    until: Option<u32>,
    failed: bool,
}

#[derive(Clone, Debug)]
struct Written {
    file: u32,
    at: usize,
    bytes: Vec<u8>,
}

impl Disk {
    /// Writes bytes of a file from a place on. They are safe after the next [`Disk::sync`] and not before.
    pub fn write(&mut self, file: u32, at: usize, bytes: impl Into<Vec<u8>>) {
        if !self.failed {
            self.cached.push(Written { file, at, bytes: bytes.into() });
            self.count();
        }
    }

    /// Makes all that was written safe.
    pub fn sync(&mut self) {
        if !self.failed {
            for Written { file, at, bytes } in std::mem::take(&mut self.cached) {
                let safe = self.safe.entry(file).or_default();
                if at == 0 && bytes.len() >= safe.len() {
                    *safe = bytes;
                } else {
                    put(safe, at, &bytes);
                }
            }
            self.count();
        }
    }

    /// So many bytes of a file from a place on, as they were written last.
    #[must_use]
    pub fn read(&self, file: u32, at: usize, length: usize) -> Vec<u8> {
        let mut bytes = vec![0; length];
        if let Some(safe) = self.safe.get(&file) {
            let there = safe.len().saturating_sub(at).min(length);
            bytes[..there].copy_from_slice(&safe[safe.len().min(at)..][..there]);
        }
        for one in self.cached.iter().filter(|one| one.file == file) {
            let (first, last) = (at.max(one.at), (at + length).min(one.at + one.bytes.len()));
            if first < last {
                bytes[first - at..last - at].copy_from_slice(&one.bytes[first - one.at..last - one.at]);
            }
        }
        bytes
    }

    /// Power is to fail after so many more writes and syncs.
    pub(crate) fn fail_after(&mut self, operations: u32) {
        self.until = Some(operations);
        self.failed = operations == 0;
    }

    /// Power is gone: of what was not synced each sector is there or not, by chance.
    pub(crate) fn fail(&mut self, tear: u64) {
        let mut chance = Chance::new(tear);
        for Written { file, at, bytes } in std::mem::take(&mut self.cached) {
            let mut start = 0;
            while start < bytes.len() {
                let end = bytes.len().min((at + start) / SECTOR * SECTOR + SECTOR - at);
                if chance.in_thousand(500) {
                    put(self.safe.entry(file).or_default(), at + start, &bytes[start..end]);
                }
                start = end;
            }
        }
        self.until = None;
        self.failed = false;
    }

    fn count(&mut self) {
        if let Some(until) = &mut self.until {
            *until -= 1;
            self.failed = *until == 0;
        }
    }
}

fn put(safe: &mut Vec<u8>, at: usize, bytes: &[u8]) {
    if safe.len() < at + bytes.len() {
        safe.resize(at + bytes.len(), 0);
    }
    safe[at..at + bytes.len()].copy_from_slice(bytes);
}

#[cfg(test)]
mod tests {
    use super::*;

    #[test]
    fn of_what_was_not_synced_each_sector_is_there_or_not() {
        let mut seen = std::collections::BTreeSet::new();
        for tear in 0..64 {
            let mut disk = Disk::default();
            disk.write(1, 0, [1; 3 * SECTOR]);
            disk.sync();
            // From the middle of the first sector to the middle of the third.
            disk.write(1, SECTOR / 2, [2; 2 * SECTOR]);
            disk.fail(tear);
            let bytes = disk.read(1, 0, 3 * SECTOR);
            let parts = [SECTOR / 2..SECTOR, SECTOR..2 * SECTOR, 2 * SECTOR..2 * SECTOR + SECTOR / 2];
            let there = parts.map(|part| {
                let first = bytes[part.start];
                assert!(bytes[part].iter().all(|byte| *byte == first));
                first == 2
            });
            assert!(bytes[..SECTOR / 2].iter().chain(&bytes[2 * SECTOR + SECTOR / 2..]).all(|byte| *byte == 1));
            seen.insert(there);
        }
        assert_eq!(seen.len(), 8);
    }

    #[test]
    fn after_so_many_operations_nothing_is_done_any_more() {
        for operations in 0..5 {
            let mut disk = Disk::default();
            disk.fail_after(operations);
            for value in 1..=2 {
                disk.write(0, 0, [value]);
                disk.sync();
            }
            // Neither a write without its sync nor what comes after the failure.
            disk.cached.clear();
            disk.fail(0);
            assert_eq!(disk.read(0, 0, 1), [(operations / 2) as u8]);
        }
    }
}
