//! The disk: what was synced is there, what was not may be there by sectors.

use plant::disk::{Disk, SECTOR};

#[test]
fn what_was_written_is_read() {
    let mut disk = Disk::default();
    disk.write(3, 2, b"abc");
    assert_eq!(disk.read(3, 0, 7), *b"\0\0abc\0\0");
    disk.sync();
    disk.write(3, 4, b"xy");
    assert_eq!(disk.read(3, 1, 5), *b"\0abxy");
    assert_eq!(disk.read(2, 0, 2), [0, 0]);
    disk.write(3, 0, [7; 2 * SECTOR]);
    assert_eq!(disk.read(3, 2 * SECTOR - 1, 2), [7, 0]);
}
