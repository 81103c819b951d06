//! `serial < stream`: records of a runner, LF ended, and calls on ports, for which a
//! runner has no record. All guests may read. `read`, a caller and an offset, and
//! `write`, a caller, an offset and a byte are a guest's access; `reset` and a port is
//! the host's. Its line is the answer, and where that is ok the value of a read.
//! `naive.py serial` gives the same lines.

use reference::runner::{read_record, Runner};
use reference::*;
use std::io::{stdin, stdout, BufRead, BufWriter, Write};

const MAY_READ: Rights = [[false, false, false, true]; GUESTS as usize];

/// Before an open nobody has a right.
fn of_guest(member: Option<&mut Member>, caller: u32, request: Request) -> Answer<&mut Member> {
    member.ok_or_else(|| may_ask(&NO_RIGHTS, caller, request).expect_err("no right"))
}

/// The values that a call gives; nothing where the line is no call on ports.
fn call(member: Option<&mut Member>, name: &str, fields: &[u32]) -> Option<Answer<String>> {
    let answer = match (name, fields) {
        ("read", &[caller, offset]) => of_guest(member, caller, Request::PortRead)
            .and_then(|member| member.guest_port_read(caller, offset))
            .map(|value| format!(",{value}")),
        ("write", &[caller, offset, value]) => of_guest(member, caller, Request::PortWrite)
            .and_then(|member| member.guest_port_write(caller, offset, value as u8))
            .map(|()| String::new()),
        ("reset", &[port]) => may_reset(port)
            .and(member.ok_or(1))
            .and_then(|member| member.port_reset(port))
            .map(|()| String::new()),
        _ => return None,
    };
    Some(answer)
}

fn main() -> std::io::Result<()> {
    let mut out = BufWriter::new(stdout().lock());
    let mut runner = Runner::default();
    for line in stdin().lock().lines() {
        let line = line?;
        let (name, fields) = line.split_once(',').unwrap_or((&line, ""));
        let numbers: Vec<u32> = fields.split(',').map_while(|field| field.parse().ok()).collect();
        match call(runner.member.as_mut(), name, &numbers) {
            Some(Ok(values)) => writeln!(out, "ok{values}")?,
            Some(Err(number)) => writeln!(out, "refused,{number}")?,
            None => {
                let mut lines = Vec::new();
                runner.answer(read_record(line.as_bytes()).as_ref(), &mut lines);
                runner.member.iter_mut().for_each(|member| member.rights = MAY_READ);
                lines.retain(|&byte| byte != b'\r');
                out.write_all(&lines)?;
            }
        }
    }
    out.flush()
}
