//! Serial ports (docs/RULES.md has them under that name): the eight byte registers of a 16450
//! for each guest, with the chain listing as received bytes.

use crate::{Answer, Member, Request, GUESTS};

/// Offsets are 0 to 7.
pub const OFFSETS: u32 = 8;

/// Bit 7 of offset 3: while it is set, offsets 0 and 1 are the divisor.
pub const DIVISOR: u8 = 0x80;

/// What a port holds.
#[derive(Clone, Copy, PartialEq, Eq, Default, Debug)]
pub struct Port {
    /// How many bytes of the listing were read since the reset.
    pub read: usize,
    /// Of offset 1 bit 0, which enables the received data interrupt.
    pub enable: u8,
    /// Offset 3, the low five bits of offset 4, and offset 7.
    pub line: u8,
    pub modem: u8,
    pub scratch: u8,
    /// The two divisor bytes.
    pub divisor: [u8; 2],
}

/// 31 for an offset above 7. No state is looked at.
pub fn may_access(offset: u32) -> Answer<()> {
    if offset >= OFFSETS {
        return Err(31);
    }
    Ok(())
}

/// 26 for a port above 7. No state is looked at.
pub fn may_reset(port: u32) -> Answer<()> {
    if port >= GUESTS {
        return Err(26);
    }
    Ok(())
}

impl Port {
    fn shows_divisor(&self) -> bool {
        self.line & DIVISOR != 0
    }

    /// The byte that waits: the first of the listing that was not read.
    pub fn waiting(&self, listing: &[u8]) -> Option<u8> {
        listing.get(self.read).copied()
    }

    /// What offset 0 gives without the divisor: the byte that waits, which is read
    /// then; 0 where none does.
    fn take(&mut self, listing: &[u8]) -> u8 {
        let byte = self.waiting(listing);
        self.read += usize::from(byte.is_some());
        byte.unwrap_or(0)
    }

    /// A read of an offset of 0 to 7.
    pub fn read_at(&mut self, offset: u32, listing: &[u8]) -> u8 {
        let waits = self.waiting(listing).is_some();
        match offset {
            0 | 1 if self.shows_divisor() => self.divisor[offset as usize],
            0 => self.take(listing),
            1 => self.enable,
            2 => if self.enable == 1 && waits { 4 } else { 1 },
            3 => self.line,
            4 => self.modem,
            5 => 0x60 + u8::from(waits),
            6 => 0,
            _ => self.scratch,
        }
    }

    /// A write to an offset of 0 to 7; some are dropped or ignored.
    pub fn write_at(&mut self, offset: u32, value: u8) {
        match offset {
            0 | 1 if self.shows_divisor() => self.divisor[offset as usize] = value,
            1 => self.enable = value & 1,
            3 => self.line = value,
            4 => self.modem = value & 0x1f,
            7 => self.scratch = value,
            _ => {}
        }
    }
}

impl Member {
    /// A guest reads a register of its own port.
    pub fn guest_port_read(&mut self, caller: u32, offset: u32) -> Answer<u8> {
        self.by_guest(caller, Request::PortRead, |member| {
            may_access(offset)?;
            let listing = member.listing();
            Ok(member.ports[caller as usize].read_at(offset, &listing))
        })
    }

    /// A guest writes to a register of its own port.
    pub fn guest_port_write(&mut self, caller: u32, offset: u32, value: u8) -> Answer<()> {
        self.by_guest(caller, Request::PortWrite, |member| {
            may_access(offset)?;
            member.ports[caller as usize].write_at(offset, value);
            Ok(())
        })
    }

    /// The host's alone: all held registers are 0, and reading resumes at the
    /// listing's start.
    pub fn port_reset(&mut self, port: u32) -> Answer<()> {
        may_reset(port)?;
        self.ports[port as usize] = Port::default();
        Ok(())
    }
}
