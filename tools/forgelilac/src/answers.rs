//! What a runner wrote, as the answers to the records of a stream: which lines belong to which record.

use crate::runner::Answer;

/// The answer to one record, as it was written.
#[derive(Clone, PartialEq, Eq, Debug)]
pub struct Said {
    /// The lines, each with its end, and the closing one last.
    pub lines: Vec<Vec<u8>>,
}

impl Said {
    pub fn of(answer: &Answer) -> Said {
        Said { lines: answer.lines().into_iter().map(|line| format!("{line}\r\n").into_bytes()).collect() }
    }

    pub fn closing(&self) -> &[u8] {
        self.lines.last().map_or(&[], |line| bare(line))
    }

    /// The number that it was refused with.
    pub fn refused(&self) -> Option<u32> {
        let text = std::str::from_utf8(self.closing()).ok()?;
        crate::arguments::number(text.strip_prefix("refused,")?)
    }

    pub fn accepted(&self) -> bool {
        self.closing() == b"ok" || self.closing().starts_with(b"ok,")
    }
}

/// A line without its CRLF.
pub fn bare(line: &[u8]) -> &[u8] {
    line.strip_suffix(b"\r\n").unwrap_or(line)
}

/// The answers in what was written. A line that begins with `ok` or `refused` closes one; what comes
/// behind the last of them is one more, that is not closed.
pub fn said_in(written: &[u8]) -> Vec<Said> {
    let (mut said, mut open) = (Vec::new(), Vec::new());
    for line in written.split_inclusive(|byte| *byte == b'\n') {
        open.push(line.to_vec());
        if line.starts_with(b"ok") || line.starts_with(b"refused") {
            said.push(Said { lines: std::mem::take(&mut open) });
        }
    }
    if !open.is_empty() {
        said.push(Said { lines: open });
    }
    said
}
