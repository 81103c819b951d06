//! The engine's host functions (libhost.a) as Rust functions on slices: a
//! slice goes over as a pointer and a length in words, a row as a pointer and a
//! number of certificates, each 17 words.

#![allow(dead_code)]

extern "C" {
    fn forgelilac_open(
        s: *mut u32,
        sn: usize,
        t: *mut u32,
        tn: usize,
        own: u32,
        sheet: *const u32,
        n: usize,
        rights: u32,
    ) -> u32;
    fn forgelilac_propose(
        s: *mut u32,
        sn: usize,
        t: *const u32,
        tn: usize,
        body: *const u32,
        n: usize,
    ) -> u32;
    fn forgelilac_endorse(
        s: *const u32,
        sn: usize,
        t: *mut u32,
        tn: usize,
        proposal: *const u32,
        n: usize,
    ) -> u32;
    fn forgelilac_certify(s: *const u32, sn: usize, t: *mut u32, tn: usize, endorsers: u32) -> u32;
    fn forgelilac_accept(
        s: *const u32,
        sn: usize,
        t: *mut u32,
        tn: usize,
        certificate: *const u32,
        n: usize,
    ) -> u32;
    fn forgelilac_batch(
        s: *const u32,
        sn: usize,
        t: *mut u32,
        tn: usize,
        row: *const [u32; 17],
        records: usize,
        answers: *mut u32,
        n: usize,
    ) -> u32;
    fn forgelilac_advance(s: *mut u32, sn: usize, t: *const u32, tn: usize) -> u32;
    fn forgelilac_commit(s: *mut u32, sn: usize, t: *mut u32, tn: usize) -> u64;
    fn forgelilac_committee(
        s: *const u32,
        sn: usize,
        t: *const u32,
        tn: usize,
        round: u32,
        out: *mut u32,
        n: usize,
    ) -> u32;
    fn forgelilac_share(
        s: *const u32,
        sn: usize,
        t: *const u32,
        tn: usize,
        member: u32,
        round: u32,
    ) -> u64;
    fn forgelilac_certificate(
        s: *const u32,
        sn: usize,
        t: *const u32,
        tn: usize,
        author: u32,
        round: u32,
        out: *mut u32,
        n: usize,
    ) -> u32;
    fn forgelilac_block(s: *const u32, sn: usize, t: *const u32, tn: usize, number: u32) -> u64;
    fn forgelilac_table_words(ceiling: u32) -> u64;
}

// SAFETY, for all of them: the functions read and write only the stretches
// that they are handed, for any content and any length, and keep no pointer.

pub fn open(state: &mut [u32], table: &mut [u32], own: u32, sheet: &[u32], rights: u32) -> u32 {
    let (s, sn, t, tn) = (state.as_mut_ptr(), state.len(), table.as_mut_ptr(), table.len());
    unsafe { forgelilac_open(s, sn, t, tn, own, sheet.as_ptr(), sheet.len(), rights) }
}

pub fn propose(state: &mut [u32], table: &[u32], body: &[u32]) -> u32 {
    let (s, sn, t, tn) = (state.as_mut_ptr(), state.len(), table.as_ptr(), table.len());
    unsafe { forgelilac_propose(s, sn, t, tn, body.as_ptr(), body.len()) }
}

pub fn endorse(state: &[u32], table: &mut [u32], proposal: &[u32]) -> u32 {
    let (s, sn, t, tn) = (state.as_ptr(), state.len(), table.as_mut_ptr(), table.len());
    unsafe { forgelilac_endorse(s, sn, t, tn, proposal.as_ptr(), proposal.len()) }
}

pub fn certify(state: &[u32], table: &mut [u32], endorsers: u32) -> u32 {
    let (s, sn, t, tn) = (state.as_ptr(), state.len(), table.as_mut_ptr(), table.len());
    unsafe { forgelilac_certify(s, sn, t, tn, endorsers) }
}

pub fn accept(state: &[u32], table: &mut [u32], certificate: &[u32]) -> u32 {
    let (s, sn, t, tn) = (state.as_ptr(), state.len(), table.as_mut_ptr(), table.len());
    unsafe { forgelilac_accept(s, sn, t, tn, certificate.as_ptr(), certificate.len()) }
}

pub fn batch(state: &[u32], table: &mut [u32], row: &[[u32; 17]], answers: &mut [u32]) -> u32 {
    let (s, sn, t, tn) = (state.as_ptr(), state.len(), table.as_mut_ptr(), table.len());
    let (records, n) = (row.as_ptr(), row.len());
    unsafe { forgelilac_batch(s, sn, t, tn, records, n, answers.as_mut_ptr(), answers.len()) }
}

pub fn advance(state: &mut [u32], table: &[u32]) -> u32 {
    let (s, sn, t, tn) = (state.as_mut_ptr(), state.len(), table.as_ptr(), table.len());
    unsafe { forgelilac_advance(s, sn, t, tn) }
}

pub fn commit(state: &mut [u32], table: &mut [u32]) -> u64 {
    let (s, sn, t, tn) = (state.as_mut_ptr(), state.len(), table.as_mut_ptr(), table.len());
    unsafe { forgelilac_commit(s, sn, t, tn) }
}

pub fn committee(state: &[u32], table: &[u32], round: u32, out: &mut [u32]) -> u32 {
    let (s, sn, t, tn) = (state.as_ptr(), state.len(), table.as_ptr(), table.len());
    unsafe { forgelilac_committee(s, sn, t, tn, round, out.as_mut_ptr(), out.len()) }
}

pub fn share(state: &[u32], table: &[u32], member: u32, round: u32) -> u64 {
    let (s, sn, t, tn) = (state.as_ptr(), state.len(), table.as_ptr(), table.len());
    unsafe { forgelilac_share(s, sn, t, tn, member, round) }
}

pub fn certificate(state: &[u32], table: &[u32], author: u32, round: u32, out: &mut [u32]) -> u32 {
    let (s, sn, t, tn) = (state.as_ptr(), state.len(), table.as_ptr(), table.len());
    unsafe { forgelilac_certificate(s, sn, t, tn, author, round, out.as_mut_ptr(), out.len()) }
}

pub fn block(state: &[u32], table: &[u32], number: u32) -> u64 {
    let (s, sn, t, tn) = (state.as_ptr(), state.len(), table.as_ptr(), table.len());
    unsafe { forgelilac_block(s, sn, t, tn, number) }
}

pub fn table_words(ceiling: u32) -> u64 {
    unsafe { forgelilac_table_words(ceiling) }
}

// ---- queues: run.sh leaves this out of an archive that has none

extern "C" {
    fn forgelilac_enqueue(
        s: *const u32,
        sn: usize,
        t: *mut u32,
        tn: usize,
        guest: u32,
        transaction: *const u32,
        n: usize,
    ) -> u32;
    fn forgelilac_draw(s: *mut u32, sn: usize, t: *mut u32, tn: usize, previous: u32) -> u32;
}

pub fn enqueue(state: &[u32], table: &mut [u32], guest: u32, transaction: &[u32]) -> u32 {
    let (s, sn, t, tn) = (state.as_ptr(), state.len(), table.as_mut_ptr(), table.len());
    unsafe { forgelilac_enqueue(s, sn, t, tn, guest, transaction.as_ptr(), transaction.len()) }
}

pub fn draw(state: &mut [u32], table: &mut [u32], previous: u32) -> u32 {
    let (s, sn, t, tn) = (state.as_mut_ptr(), state.len(), table.as_mut_ptr(), table.len());
    unsafe { forgelilac_draw(s, sn, t, tn, previous) }
}

// ---- previews: run.sh leaves this out of an archive that has none

extern "C" {
    fn forgelilac_preview(
        s: *const u32,
        sn: usize,
        t: *const u32,
        tn: usize,
        list: *mut u32,
        n: usize,
    ) -> u64;
}

pub fn preview(state: &[u32], table: &[u32], list: &mut [u32]) -> u64 {
    let (s, sn, t, tn) = (state.as_ptr(), state.len(), table.as_ptr(), table.len());
    unsafe { forgelilac_preview(s, sn, t, tn, list.as_mut_ptr(), list.len()) }
}

// ---- critical: run.sh leaves this out of an archive that has none

extern "C" {
    fn forgelilac_critical(
        s: *const u32,
        sn: usize,
        t: *mut u32,
        tn: usize,
        list: *mut u32,
        n: usize,
    ) -> u64;
}

pub fn critical(state: &[u32], table: &mut [u32], list: &mut [u32]) -> u64 {
    let (s, sn, t, tn) = (state.as_ptr(), state.len(), table.as_mut_ptr(), table.len());
    unsafe { forgelilac_critical(s, sn, t, tn, list.as_mut_ptr(), list.len()) }
}

// ---- guests: run.sh leaves this out of an archive that has none

extern "C" {
    fn forgelilac_guest_propose(
        caller: u32,
        s: *mut u32,
        sn: usize,
        t: *const u32,
        tn: usize,
        body: *const u32,
        n: usize,
    ) -> u32;
    fn forgelilac_guest_draw(
        caller: u32,
        s: *mut u32,
        sn: usize,
        t: *mut u32,
        tn: usize,
        previous: u32,
    ) -> u32;
    fn forgelilac_guest_enqueue(
        caller: u32,
        s: *const u32,
        sn: usize,
        t: *mut u32,
        tn: usize,
        transaction: *const u32,
        n: usize,
    ) -> u32;
    fn forgelilac_guest_endorse(
        caller: u32,
        s: *const u32,
        sn: usize,
        t: *mut u32,
        tn: usize,
        proposal: *const u32,
        n: usize,
    ) -> u32;
    fn forgelilac_guest_certify(
        caller: u32,
        s: *const u32,
        sn: usize,
        t: *mut u32,
        tn: usize,
        endorsers: u32,
    ) -> u32;
    fn forgelilac_guest_accept(
        caller: u32,
        s: *const u32,
        sn: usize,
        t: *mut u32,
        tn: usize,
        certificate: *const u32,
        n: usize,
    ) -> u32;
    fn forgelilac_guest_batch(
        caller: u32,
        s: *const u32,
        sn: usize,
        t: *mut u32,
        tn: usize,
        row: *const [u32; 17],
        records: usize,
        answers: *mut u32,
        n: usize,
    ) -> u32;
    fn forgelilac_guest_advance(
        caller: u32,
        s: *mut u32,
        sn: usize,
        t: *const u32,
        tn: usize,
    ) -> u32;
    fn forgelilac_guest_commit(caller: u32, s: *mut u32, sn: usize, t: *mut u32, tn: usize) -> u64;
    fn forgelilac_guest_committee(
        caller: u32,
        s: *const u32,
        sn: usize,
        t: *const u32,
        tn: usize,
        round: u32,
        out: *mut u32,
        n: usize,
    ) -> u32;
    fn forgelilac_guest_share(
        caller: u32,
        s: *const u32,
        sn: usize,
        t: *const u32,
        tn: usize,
        member: u32,
        round: u32,
    ) -> u64;
    fn forgelilac_guest_certificate(
        caller: u32,
        s: *const u32,
        sn: usize,
        t: *const u32,
        tn: usize,
        author: u32,
        round: u32,
        out: *mut u32,
        n: usize,
    ) -> u32;
    fn forgelilac_guest_block(
        caller: u32,
        s: *const u32,
        sn: usize,
        t: *const u32,
        tn: usize,
        number: u32,
    ) -> u64;
    fn forgelilac_guest_preview(
        caller: u32,
        s: *const u32,
        sn: usize,
        t: *const u32,
        tn: usize,
        list: *mut u32,
        n: usize,
    ) -> u64;
    fn forgelilac_guest_critical(
        caller: u32,
        s: *const u32,
        sn: usize,
        t: *mut u32,
        tn: usize,
        list: *mut u32,
        n: usize,
    ) -> u64;
}

pub fn guest_propose(caller: u32, state: &mut [u32], table: &[u32], body: &[u32]) -> u32 {
    let (s, sn, t, tn) = (state.as_mut_ptr(), state.len(), table.as_ptr(), table.len());
    unsafe { forgelilac_guest_propose(caller, s, sn, t, tn, body.as_ptr(), body.len()) }
}

pub fn guest_draw(caller: u32, state: &mut [u32], table: &mut [u32], previous: u32) -> u32 {
    let (s, sn, t, tn) = (state.as_mut_ptr(), state.len(), table.as_mut_ptr(), table.len());
    unsafe { forgelilac_guest_draw(caller, s, sn, t, tn, previous) }
}

pub fn guest_enqueue(caller: u32, state: &[u32], table: &mut [u32], transaction: &[u32]) -> u32 {
    let (s, sn, t, tn) = (state.as_ptr(), state.len(), table.as_mut_ptr(), table.len());
    unsafe {
        forgelilac_guest_enqueue(caller, s, sn, t, tn, transaction.as_ptr(), transaction.len())
    }
}

pub fn guest_endorse(caller: u32, state: &[u32], table: &mut [u32], proposal: &[u32]) -> u32 {
    let (s, sn, t, tn) = (state.as_ptr(), state.len(), table.as_mut_ptr(), table.len());
    unsafe { forgelilac_guest_endorse(caller, s, sn, t, tn, proposal.as_ptr(), proposal.len()) }
}

pub fn guest_certify(caller: u32, state: &[u32], table: &mut [u32], endorsers: u32) -> u32 {
    let (s, sn, t, tn) = (state.as_ptr(), state.len(), table.as_mut_ptr(), table.len());
    unsafe { forgelilac_guest_certify(caller, s, sn, t, tn, endorsers) }
}

pub fn guest_accept(caller: u32, state: &[u32], table: &mut [u32], certificate: &[u32]) -> u32 {
    let (s, sn, t, tn) = (state.as_ptr(), state.len(), table.as_mut_ptr(), table.len());
    unsafe {
        forgelilac_guest_accept(caller, s, sn, t, tn, certificate.as_ptr(), certificate.len())
    }
}

pub fn guest_batch(
    caller: u32,
    state: &[u32],
    table: &mut [u32],
    row: &[[u32; 17]],
    answers: &mut [u32],
) -> u32 {
    let (s, sn, t, tn) = (state.as_ptr(), state.len(), table.as_mut_ptr(), table.len());
    let (records, n) = (row.as_ptr(), row.len());
    unsafe {
        forgelilac_guest_batch(caller, s, sn, t, tn, records, n, answers.as_mut_ptr(), answers.len())
    }
}

pub fn guest_advance(caller: u32, state: &mut [u32], table: &[u32]) -> u32 {
    let (s, sn, t, tn) = (state.as_mut_ptr(), state.len(), table.as_ptr(), table.len());
    unsafe { forgelilac_guest_advance(caller, s, sn, t, tn) }
}

pub fn guest_commit(caller: u32, state: &mut [u32], table: &mut [u32]) -> u64 {
    let (s, sn, t, tn) = (state.as_mut_ptr(), state.len(), table.as_mut_ptr(), table.len());
    unsafe { forgelilac_guest_commit(caller, s, sn, t, tn) }
}

pub fn guest_committee(
    caller: u32,
    state: &[u32],
    table: &[u32],
    round: u32,
    out: &mut [u32],
) -> u32 {
    let (s, sn, t, tn) = (state.as_ptr(), state.len(), table.as_ptr(), table.len());
    unsafe { forgelilac_guest_committee(caller, s, sn, t, tn, round, out.as_mut_ptr(), out.len()) }
}

pub fn guest_share(caller: u32, state: &[u32], table: &[u32], member: u32, round: u32) -> u64 {
    let (s, sn, t, tn) = (state.as_ptr(), state.len(), table.as_ptr(), table.len());
    unsafe { forgelilac_guest_share(caller, s, sn, t, tn, member, round) }
}

pub fn guest_certificate(
    caller: u32,
    state: &[u32],
    table: &[u32],
    author: u32,
    round: u32,
    out: &mut [u32],
) -> u32 {
    let (s, sn, t, tn) = (state.as_ptr(), state.len(), table.as_ptr(), table.len());
    unsafe {
        forgelilac_guest_certificate(caller, s, sn, t, tn, author, round, out.as_mut_ptr(), out.len())
    }
}

pub fn guest_block(caller: u32, state: &[u32], table: &[u32], number: u32) -> u64 {
    let (s, sn, t, tn) = (state.as_ptr(), state.len(), table.as_ptr(), table.len());
    unsafe { forgelilac_guest_block(caller, s, sn, t, tn, number) }
}

pub fn guest_preview(caller: u32, state: &[u32], table: &[u32], list: &mut [u32]) -> u64 {
    let (s, sn, t, tn) = (state.as_ptr(), state.len(), table.as_ptr(), table.len());
    unsafe { forgelilac_guest_preview(caller, s, sn, t, tn, list.as_mut_ptr(), list.len()) }
}

pub fn guest_critical(caller: u32, state: &[u32], table: &mut [u32], list: &mut [u32]) -> u64 {
    let (s, sn, t, tn) = (state.as_ptr(), state.len(), table.as_mut_ptr(), table.len());
    unsafe { forgelilac_guest_critical(caller, s, sn, t, tn, list.as_mut_ptr(), list.len()) }
}

// ---- effects: run.sh leaves this out of an archive that has none

extern "C" {
    fn forgelilac_bond_effect(
        s: *const u32,
        sn: usize,
        t: *const u32,
        tn: usize,
        member: u32,
        round: u32,
        amount: u32,
        out: *mut u32,
        n: usize,
    ) -> u32;
    fn forgelilac_guest_bond_effect(
        caller: u32,
        s: *const u32,
        sn: usize,
        t: *const u32,
        tn: usize,
        member: u32,
        round: u32,
        amount: u32,
        out: *mut u32,
        n: usize,
    ) -> u32;
}

pub fn bond_effect(
    state: &[u32],
    table: &[u32],
    member: u32,
    round: u32,
    amount: u32,
    out: &mut [u32],
) -> u32 {
    let (s, sn, t, tn) = (state.as_ptr(), state.len(), table.as_ptr(), table.len());
    let (out, n) = (out.as_mut_ptr(), out.len());
    unsafe { forgelilac_bond_effect(s, sn, t, tn, member, round, amount, out, n) }
}

pub fn guest_bond_effect(
    caller: u32,
    state: &[u32],
    table: &[u32],
    member: u32,
    round: u32,
    amount: u32,
    out: &mut [u32],
) -> u32 {
    let (s, sn, t, tn) = (state.as_ptr(), state.len(), table.as_ptr(), table.len());
    let (out, n) = (out.as_mut_ptr(), out.len());
    unsafe { forgelilac_guest_bond_effect(caller, s, sn, t, tn, member, round, amount, out, n) }
}

// ---- ports: run.sh leaves this out of an archive that has none

extern "C" {
    fn forgelilac_guest_port_read(
        caller: u32,
        s: *const u32,
        sn: usize,
        t: *mut u32,
        tn: usize,
        offset: u32,
    ) -> u64;
    fn forgelilac_guest_port_write(
        caller: u32,
        s: *const u32,
        sn: usize,
        t: *mut u32,
        tn: usize,
        offset: u32,
        value: u8,
    ) -> u32;
    fn forgelilac_port_reset(s: *const u32, sn: usize, t: *mut u32, tn: usize, port: u32) -> u32;
}

pub fn guest_port_read(caller: u32, state: &[u32], table: &mut [u32], offset: u32) -> u64 {
    let (s, sn, t, tn) = (state.as_ptr(), state.len(), table.as_mut_ptr(), table.len());
    unsafe { forgelilac_guest_port_read(caller, s, sn, t, tn, offset) }
}

pub fn guest_port_write(
    caller: u32,
    state: &[u32],
    table: &mut [u32],
    offset: u32,
    value: u8,
) -> u32 {
    let (s, sn, t, tn) = (state.as_ptr(), state.len(), table.as_mut_ptr(), table.len());
    unsafe { forgelilac_guest_port_write(caller, s, sn, t, tn, offset, value) }
}

pub fn port_reset(state: &[u32], table: &mut [u32], port: u32) -> u32 {
    let (s, sn, t, tn) = (state.as_ptr(), state.len(), table.as_mut_ptr(), table.len());
    unsafe { forgelilac_port_reset(s, sn, t, tn, port) }
}

// ---- block rows: at the end, so that run.sh leaves it out with what is before it

extern "C" {
    fn forgelilac_block_rows(
        s: *const u32,
        sn: usize,
        t: *const u32,
        tn: usize,
        known: u32,
        number: u32,
        list: *mut u32,
        n: usize,
    ) -> u64;
    fn forgelilac_guest_block_rows(
        caller: u32,
        s: *const u32,
        sn: usize,
        t: *const u32,
        tn: usize,
        known: u32,
        number: u32,
        list: *mut u32,
        n: usize,
    ) -> u64;
}

pub fn block_rows(state: &[u32], table: &[u32], known: u32, number: u32, list: &mut [u32]) -> u64 {
    let (s, sn, t, tn) = (state.as_ptr(), state.len(), table.as_ptr(), table.len());
    let (list, n) = (list.as_mut_ptr(), list.len());
    unsafe { forgelilac_block_rows(s, sn, t, tn, known, number, list, n) }
}

pub fn guest_block_rows(
    caller: u32,
    state: &[u32],
    table: &[u32],
    known: u32,
    number: u32,
    list: &mut [u32],
) -> u64 {
    let (s, sn, t, tn) = (state.as_ptr(), state.len(), table.as_ptr(), table.len());
    let (list, n) = (list.as_mut_ptr(), list.len());
    unsafe { forgelilac_guest_block_rows(caller, s, sn, t, tn, known, number, list, n) }
}
