//! The engine's owner's calls (libhost.a) as Rust functions on slices, beside host.rs: a slice goes over as a
//! pointer and a length in words, a row as a pointer and a number of certificates, each 17 words.
//!
//! They are safe to call in tests and benchmarks alone, whose words are owned: from a resume that answers 0 on,
//! nothing but these functions writes state, table and kept committees.

#![allow(dead_code, clippy::too_many_arguments)]

/// The words of 64 bits of the kept committees of a state of this ceiling.
pub fn kept_words(ceiling: u32) -> usize {
    17 + 16 * ceiling as usize
}

extern "C" {
    fn forgelilac_owned_resume(s: *const u32, sn: usize, t: *const u32, tn: usize, k: *mut u64, kn: usize) -> u32;
    fn forgelilac_owned_propose(
        s: *mut u32, sn: usize, t: *const u32, tn: usize, k: *const u64, kn: usize, body: *const u32, body_words: usize,
    ) -> u32;
    fn forgelilac_owned_enqueue(
        s: *const u32, sn: usize, t: *mut u32, tn: usize, k: *const u64, kn: usize, guest: u32,
        transaction: *const u32, transaction_words: usize,
    ) -> u32;
    fn forgelilac_owned_draw(
        s: *mut u32, sn: usize, t: *mut u32, tn: usize, k: *const u64, kn: usize, previous: u32,
    ) -> u32;
    fn forgelilac_owned_endorse(
        s: *const u32, sn: usize, t: *mut u32, tn: usize, k: *const u64, kn: usize, proposal: *const u32,
        proposal_words: usize,
    ) -> u32;
    fn forgelilac_owned_certify(
        s: *const u32, sn: usize, t: *mut u32, tn: usize, k: *const u64, kn: usize, endorsers: u32,
    ) -> u32;
    fn forgelilac_owned_accept(
        s: *const u32, sn: usize, t: *mut u32, tn: usize, k: *const u64, kn: usize, certificate: *const u32,
        certificate_words: usize,
    ) -> u32;
    fn forgelilac_owned_batch(
        s: *const u32, sn: usize, t: *mut u32, tn: usize, k: *const u64, kn: usize, row: *const [u32; 17],
        row_count: usize, answers: *mut u32, answers_words: usize,
    ) -> u32;
    fn forgelilac_owned_advance(s: *mut u32, sn: usize, t: *const u32, tn: usize, k: *const u64, kn: usize) -> u32;
    fn forgelilac_owned_commit(s: *mut u32, sn: usize, t: *mut u32, tn: usize, k: *mut u64, kn: usize) -> u64;
    fn forgelilac_owned_port_reset(
        s: *const u32, sn: usize, t: *mut u32, tn: usize, k: *const u64, kn: usize, guest: u32,
    ) -> u32;
    fn forgelilac_owned_preview(
        s: *const u32, sn: usize, t: *const u32, tn: usize, k: *const u64, kn: usize, list: *mut u32, list_words: usize,
    ) -> u64;
    fn forgelilac_owned_critical(
        s: *const u32, sn: usize, t: *mut u32, tn: usize, k: *const u64, kn: usize, list: *mut u32, list_words: usize,
    ) -> u64;
    fn forgelilac_owned_committee(
        s: *const u32, sn: usize, t: *const u32, tn: usize, k: *const u64, kn: usize, round: u32, out: *mut u32,
        out_words: usize,
    ) -> u32;
    fn forgelilac_owned_share(
        s: *const u32, sn: usize, t: *const u32, tn: usize, k: *const u64, kn: usize, member: u32, round: u32,
    ) -> u64;
    fn forgelilac_owned_bond_effect(
        s: *const u32, sn: usize, t: *const u32, tn: usize, k: *const u64, kn: usize, member: u32, round: u32,
        amount: u32, out: *mut u32, out_words: usize,
    ) -> u32;
    fn forgelilac_owned_certificate(
        s: *const u32, sn: usize, t: *const u32, tn: usize, k: *const u64, kn: usize, author: u32, round: u32,
        out: *mut u32, out_words: usize,
    ) -> u32;
    fn forgelilac_owned_block(
        s: *const u32, sn: usize, t: *const u32, tn: usize, k: *const u64, kn: usize, number: u32,
    ) -> u64;
    fn forgelilac_owned_block_rows(
        s: *const u32, sn: usize, t: *const u32, tn: usize, k: *const u64, kn: usize, known: u32, number: u32,
        list: *mut u32, list_words: usize,
    ) -> u64;
    fn forgelilac_owned_guest_propose(
        caller: u32, s: *mut u32, sn: usize, t: *const u32, tn: usize, k: *const u64, kn: usize, body: *const u32,
        body_words: usize,
    ) -> u32;
    fn forgelilac_owned_guest_draw(
        caller: u32, s: *mut u32, sn: usize, t: *mut u32, tn: usize, k: *const u64, kn: usize, previous: u32,
    ) -> u32;
    fn forgelilac_owned_guest_enqueue(
        caller: u32, s: *const u32, sn: usize, t: *mut u32, tn: usize, k: *const u64, kn: usize,
        transaction: *const u32, transaction_words: usize,
    ) -> u32;
    fn forgelilac_owned_guest_endorse(
        caller: u32, s: *const u32, sn: usize, t: *mut u32, tn: usize, k: *const u64, kn: usize, proposal: *const u32,
        proposal_words: usize,
    ) -> u32;
    fn forgelilac_owned_guest_certify(
        caller: u32, s: *const u32, sn: usize, t: *mut u32, tn: usize, k: *const u64, kn: usize, endorsers: u32,
    ) -> u32;
    fn forgelilac_owned_guest_accept(
        caller: u32, s: *const u32, sn: usize, t: *mut u32, tn: usize, k: *const u64, kn: usize,
        certificate: *const u32, certificate_words: usize,
    ) -> u32;
    fn forgelilac_owned_guest_batch(
        caller: u32, s: *const u32, sn: usize, t: *mut u32, tn: usize, k: *const u64, kn: usize, row: *const [u32; 17],
        row_count: usize, answers: *mut u32, answers_words: usize,
    ) -> u32;
    fn forgelilac_owned_guest_advance(
        caller: u32, s: *mut u32, sn: usize, t: *const u32, tn: usize, k: *const u64, kn: usize,
    ) -> u32;
    fn forgelilac_owned_guest_commit(
        caller: u32, s: *mut u32, sn: usize, t: *mut u32, tn: usize, k: *mut u64, kn: usize,
    ) -> u64;
    fn forgelilac_owned_guest_preview(
        caller: u32, s: *const u32, sn: usize, t: *const u32, tn: usize, k: *const u64, kn: usize, list: *mut u32,
        list_words: usize,
    ) -> u64;
    fn forgelilac_owned_guest_critical(
        caller: u32, s: *const u32, sn: usize, t: *mut u32, tn: usize, k: *const u64, kn: usize, list: *mut u32,
        list_words: usize,
    ) -> u64;
    fn forgelilac_owned_guest_committee(
        caller: u32, s: *const u32, sn: usize, t: *const u32, tn: usize, k: *const u64, kn: usize, round: u32,
        out: *mut u32, out_words: usize,
    ) -> u32;
    fn forgelilac_owned_guest_share(
        caller: u32, s: *const u32, sn: usize, t: *const u32, tn: usize, k: *const u64, kn: usize, member: u32,
        round: u32,
    ) -> u64;
    fn forgelilac_owned_guest_bond_effect(
        caller: u32, s: *const u32, sn: usize, t: *const u32, tn: usize, k: *const u64, kn: usize, member: u32,
        round: u32, amount: u32, out: *mut u32, out_words: usize,
    ) -> u32;
    fn forgelilac_owned_guest_certificate(
        caller: u32, s: *const u32, sn: usize, t: *const u32, tn: usize, k: *const u64, kn: usize, author: u32,
        round: u32, out: *mut u32, out_words: usize,
    ) -> u32;
    fn forgelilac_owned_guest_block(
        caller: u32, s: *const u32, sn: usize, t: *const u32, tn: usize, k: *const u64, kn: usize, number: u32,
    ) -> u64;
    fn forgelilac_owned_guest_block_rows(
        caller: u32, s: *const u32, sn: usize, t: *const u32, tn: usize, k: *const u64, kn: usize, known: u32,
        number: u32, list: *mut u32, list_words: usize,
    ) -> u64;
    fn forgelilac_owned_guest_port_read(
        caller: u32, s: *const u32, sn: usize, t: *mut u32, tn: usize, k: *const u64, kn: usize, offset: u32,
    ) -> u64;
    fn forgelilac_owned_guest_port_write(
        caller: u32, s: *const u32, sn: usize, t: *mut u32, tn: usize, k: *const u64, kn: usize, offset: u32, value: u8,
    ) -> u32;
}

// SAFETY, for all of them: the words are owned, and the functions keep no pointer.

pub fn resume(state: &[u32], table: &[u32], kept: &mut [u64]) -> u32 {
    unsafe {
        forgelilac_owned_resume(state.as_ptr(), state.len(), table.as_ptr(), table.len(), kept.as_mut_ptr(), kept.len())
    }
}

pub fn propose(state: &mut [u32], table: &[u32], kept: &[u64], body: &[u32]) -> u32 {
    unsafe {
        forgelilac_owned_propose(
            state.as_mut_ptr(),
            state.len(),
            table.as_ptr(),
            table.len(),
            kept.as_ptr(),
            kept.len(),
            body.as_ptr(),
            body.len(),
        )
    }
}

pub fn enqueue(state: &[u32], table: &mut [u32], kept: &[u64], guest: u32, transaction: &[u32]) -> u32 {
    unsafe {
        forgelilac_owned_enqueue(
            state.as_ptr(),
            state.len(),
            table.as_mut_ptr(),
            table.len(),
            kept.as_ptr(),
            kept.len(),
            guest,
            transaction.as_ptr(),
            transaction.len(),
        )
    }
}

pub fn draw(state: &mut [u32], table: &mut [u32], kept: &[u64], previous: u32) -> u32 {
    unsafe {
        forgelilac_owned_draw(
            state.as_mut_ptr(),
            state.len(),
            table.as_mut_ptr(),
            table.len(),
            kept.as_ptr(),
            kept.len(),
            previous,
        )
    }
}

pub fn endorse(state: &[u32], table: &mut [u32], kept: &[u64], proposal: &[u32]) -> u32 {
    unsafe {
        forgelilac_owned_endorse(
            state.as_ptr(),
            state.len(),
            table.as_mut_ptr(),
            table.len(),
            kept.as_ptr(),
            kept.len(),
            proposal.as_ptr(),
            proposal.len(),
        )
    }
}

pub fn certify(state: &[u32], table: &mut [u32], kept: &[u64], endorsers: u32) -> u32 {
    unsafe {
        forgelilac_owned_certify(
            state.as_ptr(),
            state.len(),
            table.as_mut_ptr(),
            table.len(),
            kept.as_ptr(),
            kept.len(),
            endorsers,
        )
    }
}

pub fn accept(state: &[u32], table: &mut [u32], kept: &[u64], certificate: &[u32]) -> u32 {
    unsafe {
        forgelilac_owned_accept(
            state.as_ptr(),
            state.len(),
            table.as_mut_ptr(),
            table.len(),
            kept.as_ptr(),
            kept.len(),
            certificate.as_ptr(),
            certificate.len(),
        )
    }
}

pub fn batch(state: &[u32], table: &mut [u32], kept: &[u64], row: &[[u32; 17]], answers: &mut [u32]) -> u32 {
    unsafe {
        forgelilac_owned_batch(
            state.as_ptr(),
            state.len(),
            table.as_mut_ptr(),
            table.len(),
            kept.as_ptr(),
            kept.len(),
            row.as_ptr(),
            row.len(),
            answers.as_mut_ptr(),
            answers.len(),
        )
    }
}

pub fn advance(state: &mut [u32], table: &[u32], kept: &[u64]) -> u32 {
    unsafe {
        forgelilac_owned_advance(
            state.as_mut_ptr(),
            state.len(),
            table.as_ptr(),
            table.len(),
            kept.as_ptr(),
            kept.len(),
        )
    }
}

pub fn commit(state: &mut [u32], table: &mut [u32], kept: &mut [u64]) -> u64 {
    unsafe {
        forgelilac_owned_commit(
            state.as_mut_ptr(),
            state.len(),
            table.as_mut_ptr(),
            table.len(),
            kept.as_mut_ptr(),
            kept.len(),
        )
    }
}

pub fn port_reset(state: &[u32], table: &mut [u32], kept: &[u64], guest: u32) -> u32 {
    unsafe {
        forgelilac_owned_port_reset(
            state.as_ptr(),
            state.len(),
            table.as_mut_ptr(),
            table.len(),
            kept.as_ptr(),
            kept.len(),
            guest,
        )
    }
}

pub fn preview(state: &[u32], table: &[u32], kept: &[u64], list: &mut [u32]) -> u64 {
    unsafe {
        forgelilac_owned_preview(
            state.as_ptr(),
            state.len(),
            table.as_ptr(),
            table.len(),
            kept.as_ptr(),
            kept.len(),
            list.as_mut_ptr(),
            list.len(),
        )
    }
}

pub fn critical(state: &[u32], table: &mut [u32], kept: &[u64], list: &mut [u32]) -> u64 {
    unsafe {
        forgelilac_owned_critical(
            state.as_ptr(),
            state.len(),
            table.as_mut_ptr(),
            table.len(),
            kept.as_ptr(),
            kept.len(),
            list.as_mut_ptr(),
            list.len(),
        )
    }
}

pub fn committee(state: &[u32], table: &[u32], kept: &[u64], round: u32, out: &mut [u32]) -> u32 {
    unsafe {
        forgelilac_owned_committee(
            state.as_ptr(),
            state.len(),
            table.as_ptr(),
            table.len(),
            kept.as_ptr(),
            kept.len(),
            round,
            out.as_mut_ptr(),
            out.len(),
        )
    }
}

pub fn share(state: &[u32], table: &[u32], kept: &[u64], member: u32, round: u32) -> u64 {
    unsafe {
        forgelilac_owned_share(
            state.as_ptr(),
            state.len(),
            table.as_ptr(),
            table.len(),
            kept.as_ptr(),
            kept.len(),
            member,
            round,
        )
    }
}

pub fn bond_effect(
    state: &[u32], table: &[u32], kept: &[u64], member: u32, round: u32, amount: u32, out: &mut [u32],
) -> u32 {
    unsafe {
        forgelilac_owned_bond_effect(
            state.as_ptr(),
            state.len(),
            table.as_ptr(),
            table.len(),
            kept.as_ptr(),
            kept.len(),
            member,
            round,
            amount,
            out.as_mut_ptr(),
            out.len(),
        )
    }
}

pub fn certificate(state: &[u32], table: &[u32], kept: &[u64], author: u32, round: u32, out: &mut [u32]) -> u32 {
    unsafe {
        forgelilac_owned_certificate(
            state.as_ptr(),
            state.len(),
            table.as_ptr(),
            table.len(),
            kept.as_ptr(),
            kept.len(),
            author,
            round,
            out.as_mut_ptr(),
            out.len(),
        )
    }
}

pub fn block(state: &[u32], table: &[u32], kept: &[u64], number: u32) -> u64 {
    unsafe {
        forgelilac_owned_block(
            state.as_ptr(),
            state.len(),
            table.as_ptr(),
            table.len(),
            kept.as_ptr(),
            kept.len(),
            number,
        )
    }
}

pub fn block_rows(state: &[u32], table: &[u32], kept: &[u64], known: u32, number: u32, list: &mut [u32]) -> u64 {
    unsafe {
        forgelilac_owned_block_rows(
            state.as_ptr(),
            state.len(),
            table.as_ptr(),
            table.len(),
            kept.as_ptr(),
            kept.len(),
            known,
            number,
            list.as_mut_ptr(),
            list.len(),
        )
    }
}

pub fn guest_propose(caller: u32, state: &mut [u32], table: &[u32], kept: &[u64], body: &[u32]) -> u32 {
    unsafe {
        forgelilac_owned_guest_propose(
            caller,
            state.as_mut_ptr(),
            state.len(),
            table.as_ptr(),
            table.len(),
            kept.as_ptr(),
            kept.len(),
            body.as_ptr(),
            body.len(),
        )
    }
}

pub fn guest_draw(caller: u32, state: &mut [u32], table: &mut [u32], kept: &[u64], previous: u32) -> u32 {
    unsafe {
        forgelilac_owned_guest_draw(
            caller,
            state.as_mut_ptr(),
            state.len(),
            table.as_mut_ptr(),
            table.len(),
            kept.as_ptr(),
            kept.len(),
            previous,
        )
    }
}

pub fn guest_enqueue(caller: u32, state: &[u32], table: &mut [u32], kept: &[u64], transaction: &[u32]) -> u32 {
    unsafe {
        forgelilac_owned_guest_enqueue(
            caller,
            state.as_ptr(),
            state.len(),
            table.as_mut_ptr(),
            table.len(),
            kept.as_ptr(),
            kept.len(),
            transaction.as_ptr(),
            transaction.len(),
        )
    }
}

pub fn guest_endorse(caller: u32, state: &[u32], table: &mut [u32], kept: &[u64], proposal: &[u32]) -> u32 {
    unsafe {
        forgelilac_owned_guest_endorse(
            caller,
            state.as_ptr(),
            state.len(),
            table.as_mut_ptr(),
            table.len(),
            kept.as_ptr(),
            kept.len(),
            proposal.as_ptr(),
            proposal.len(),
        )
    }
}

pub fn guest_certify(caller: u32, state: &[u32], table: &mut [u32], kept: &[u64], endorsers: u32) -> u32 {
    unsafe {
        forgelilac_owned_guest_certify(
            caller,
            state.as_ptr(),
            state.len(),
            table.as_mut_ptr(),
            table.len(),
            kept.as_ptr(),
            kept.len(),
            endorsers,
        )
    }
}

pub fn guest_accept(caller: u32, state: &[u32], table: &mut [u32], kept: &[u64], certificate: &[u32]) -> u32 {
    unsafe {
        forgelilac_owned_guest_accept(
            caller,
            state.as_ptr(),
            state.len(),
            table.as_mut_ptr(),
            table.len(),
            kept.as_ptr(),
            kept.len(),
            certificate.as_ptr(),
            certificate.len(),
        )
    }
}

pub fn guest_batch(
    caller: u32, state: &[u32], table: &mut [u32], kept: &[u64], row: &[[u32; 17]], answers: &mut [u32],
) -> u32 {
    unsafe {
        forgelilac_owned_guest_batch(
            caller,
            state.as_ptr(),
            state.len(),
            table.as_mut_ptr(),
            table.len(),
            kept.as_ptr(),
            kept.len(),
            row.as_ptr(),
            row.len(),
            answers.as_mut_ptr(),
            answers.len(),
        )
    }
}

pub fn guest_advance(caller: u32, state: &mut [u32], table: &[u32], kept: &[u64]) -> u32 {
    unsafe {
        forgelilac_owned_guest_advance(
            caller,
            state.as_mut_ptr(),
            state.len(),
            table.as_ptr(),
            table.len(),
            kept.as_ptr(),
            kept.len(),
        )
    }
}

pub fn guest_commit(caller: u32, state: &mut [u32], table: &mut [u32], kept: &mut [u64]) -> u64 {
    unsafe {
        forgelilac_owned_guest_commit(
            caller,
            state.as_mut_ptr(),
            state.len(),
            table.as_mut_ptr(),
            table.len(),
            kept.as_mut_ptr(),
            kept.len(),
        )
    }
}

pub fn guest_preview(caller: u32, state: &[u32], table: &[u32], kept: &[u64], list: &mut [u32]) -> u64 {
    unsafe {
        forgelilac_owned_guest_preview(
            caller,
            state.as_ptr(),
            state.len(),
            table.as_ptr(),
            table.len(),
            kept.as_ptr(),
            kept.len(),
            list.as_mut_ptr(),
            list.len(),
        )
    }
}

pub fn guest_critical(caller: u32, state: &[u32], table: &mut [u32], kept: &[u64], list: &mut [u32]) -> u64 {
    unsafe {
        forgelilac_owned_guest_critical(
            caller,
            state.as_ptr(),
            state.len(),
            table.as_mut_ptr(),
            table.len(),
            kept.as_ptr(),
            kept.len(),
            list.as_mut_ptr(),
            list.len(),
        )
    }
}

pub fn guest_committee(caller: u32, state: &[u32], table: &[u32], kept: &[u64], round: u32, out: &mut [u32]) -> u32 {
    unsafe {
        forgelilac_owned_guest_committee(
            caller,
            state.as_ptr(),
            state.len(),
            table.as_ptr(),
            table.len(),
            kept.as_ptr(),
            kept.len(),
            round,
            out.as_mut_ptr(),
            out.len(),
        )
    }
}

pub fn guest_share(caller: u32, state: &[u32], table: &[u32], kept: &[u64], member: u32, round: u32) -> u64 {
    unsafe {
        forgelilac_owned_guest_share(
            caller,
            state.as_ptr(),
            state.len(),
            table.as_ptr(),
            table.len(),
            kept.as_ptr(),
            kept.len(),
            member,
            round,
        )
    }
}

pub fn guest_bond_effect(
    caller: u32, state: &[u32], table: &[u32], kept: &[u64], member: u32, round: u32, amount: u32, out: &mut [u32],
) -> u32 {
    unsafe {
        forgelilac_owned_guest_bond_effect(
            caller,
            state.as_ptr(),
            state.len(),
            table.as_ptr(),
            table.len(),
            kept.as_ptr(),
            kept.len(),
            member,
            round,
            amount,
            out.as_mut_ptr(),
            out.len(),
        )
    }
}

pub fn guest_certificate(
    caller: u32, state: &[u32], table: &[u32], kept: &[u64], author: u32, round: u32, out: &mut [u32],
) -> u32 {
    unsafe {
        forgelilac_owned_guest_certificate(
            caller,
            state.as_ptr(),
            state.len(),
            table.as_ptr(),
            table.len(),
            kept.as_ptr(),
            kept.len(),
            author,
            round,
            out.as_mut_ptr(),
            out.len(),
        )
    }
}

pub fn guest_block(caller: u32, state: &[u32], table: &[u32], kept: &[u64], number: u32) -> u64 {
    unsafe {
        forgelilac_owned_guest_block(
            caller,
            state.as_ptr(),
            state.len(),
            table.as_ptr(),
            table.len(),
            kept.as_ptr(),
            kept.len(),
            number,
        )
    }
}

pub fn guest_block_rows(
    caller: u32, state: &[u32], table: &[u32], kept: &[u64], known: u32, number: u32, list: &mut [u32],
) -> u64 {
    unsafe {
        forgelilac_owned_guest_block_rows(
            caller,
            state.as_ptr(),
            state.len(),
            table.as_ptr(),
            table.len(),
            kept.as_ptr(),
            kept.len(),
            known,
            number,
            list.as_mut_ptr(),
            list.len(),
        )
    }
}

pub fn guest_port_read(caller: u32, state: &[u32], table: &mut [u32], kept: &[u64], offset: u32) -> u64 {
    unsafe {
        forgelilac_owned_guest_port_read(
            caller,
            state.as_ptr(),
            state.len(),
            table.as_mut_ptr(),
            table.len(),
            kept.as_ptr(),
            kept.len(),
            offset,
        )
    }
}

pub fn guest_port_write(caller: u32, state: &[u32], table: &mut [u32], kept: &[u64], offset: u32, value: u8) -> u32 {
    unsafe {
        forgelilac_owned_guest_port_write(
            caller,
            state.as_ptr(),
            state.len(),
            table.as_mut_ptr(),
            table.len(),
            kept.as_ptr(),
            kept.len(),
            offset,
            value,
        )
    }
}
