//! A host without the standard library and without an allocator: one member alone, three rounds, one
//! block, on words that it lends. Its guests' entries wait in queues, and each proposal is drawn from
//! them: guest 3 adds its own, and may do nothing but that, guest 5 may only read, and the host adds for
//! it. The block is previewed before it is made, and what the commit hangs on is listed; guest 5 reads how
//! far a bond would move the shares, and receives the listing by its serial port. The status is 0 where
//! preview, list, shares, chain, received bytes and what guests are refused are as they must be, else the
//! number of the refusal, or 100. A hypervisor has no main and no C library; this one has them to be run.

#![no_std]
#![no_main]

use forgelilac::layout::{preview_words, rows_words, CRITICAL_WORDS, OFFSET_DATA, OFFSET_STATUS};
use forgelilac::{lent, table_words, transactions_of, Critical, Entry, Member, Refusal, Rights, Round, Sheet};
use forgelilac::{Transaction, STATE_WORDS};

const OWN: Member = Member::new(0);
const CEILING: u32 = 64;
const RIGHTS: Rights = Rights { propose: 1 << 3, read: 1 << 5, ..Rights::NONE };
/// What guest 5 receives.
const LISTING: &[u8] = b"1,2,1,0,E,30,0,E,50,0,E,31,0,E,32,0\r\n1,2,2,0,E,33,0\r\n";

fn entry(number: u32) -> Transaction {
    Transaction::Entry { number }
}

fn sign_alone(state: &mut [u32], table: &mut [u32], previous: u16) -> Result<(), Refusal> {
    lent::draw(state, table, previous)?;
    lent::certify(state, table, 0)
}

/// Whether the certificate of a round holds these entries.
fn holds(state: &[u32], table: &[u32], round: u32, entries: &[u32]) -> Result<bool, Refusal> {
    let held = lent::certificate(state, table, OWN, Round::new(round))?;
    Ok(transactions_of(&held)?.eq(entries.iter().map(|&number| entry(number))))
}

/// Whether guests 3 and 5 and one that there is not are refused what they may not do.
fn is_refused(state: &mut [u32], table: &mut [u32]) -> bool {
    lent::guest_enqueue(5, state, table, &entry(51).to_words()) == Err(Refusal::NoRight)
        && lent::guest_commit(3, state, table) == Err(Refusal::NoRight)
        && lent::guest_block(3, state, table, 1) == Err(Refusal::NoRight)
        && lent::guest_bond_effect(3, state, table, Member::new(1), Round::new(3), 3) == Err(Refusal::NoRight)
        && lent::guest_port_read(3, state, table, OFFSET_DATA) == Err(Refusal::NoRight)
        && lent::guest_port_read(5, state, table, 8) == Err(Refusal::OffsetRange)
        && lent::guest_commit(8, state, table) == Err(Refusal::GuestRange)
}

/// Whether a guest receives these bytes, and then none waits.
fn receives(caller: u32, state: &[u32], table: &mut [u32], bytes: &[u8]) -> Result<bool, Refusal> {
    for byte in bytes {
        if lent::guest_port_read(caller, state, table, OFFSET_STATUS)? != 0x61
            || lent::guest_port_read(caller, state, table, OFFSET_DATA)? != *byte
        {
            return Ok(false);
        }
    }
    Ok(lent::guest_port_read(caller, state, table, OFFSET_STATUS)? == 0x60)
}

fn run() -> Result<bool, Refusal> {
    let (mut state, mut table) = ([0; STATE_WORDS], [0; table_words(CEILING) as usize]);
    let mut sheet = Sheet { ceiling: Some(CEILING), ..Sheet::default() };
    sheet.weights[1..4].fill(Some(0));
    lent::open(&mut state, &mut table, OWN, &sheet.to_words(), RIGHTS.to_word())?;
    for number in 30..=33 {
        lent::guest_enqueue(3, &state, &mut table, &entry(number).to_words())?;
    }
    lent::enqueue(&state, &mut table, 5, &entry(50).to_words())?;
    sign_alone(&mut state, &mut table, 0)?;
    for _ in 2..=3 {
        lent::advance(&mut state, &table)?;
        sign_alone(&mut state, &mut table, 1)?;
    }
    if lent::waiting(&state, &table, 3)? != 0
        || !holds(&state, &table, 1, &[30, 50, 31, 32])?
        || !holds(&state, &table, 2, &[33])?
        || !holds(&state, &table, 3, &[])?
    {
        return Ok(false);
    }
    let block = [1, 2].map(|round| Entry { block: 1, round: Round::new(round), author: OWN });
    let mut words = [0; preview_words(CEILING)];
    let count = lent::preview(&state, &table, &mut words)?;
    if !lent::entries(&words, count).eq(block) {
        return Ok(false);
    }
    let mut words = [0; CRITICAL_WORDS];
    let count = lent::critical(&state, &mut table, &mut words)?;
    let hangs_on = [2, 3].map(|round| Critical { round: Round::new(round), author: OWN });
    if !lent::criticals(&words, count).eq(hangs_on) {
        return Ok(false);
    }
    if !is_refused(&mut state, &mut table) || lent::rights(&state) != RIGHTS {
        return Ok(false);
    }
    // Member 1 would join with 3.
    let effect = lent::guest_bond_effect(5, &state, &table, Member::new(1), Round::new(3), 3)?;
    if effect.before[..2] != [1_000, 0] || effect.after[..2] != [250, 750] || effect.largest != 750 {
        return Ok(false);
    }
    lent::commit(&mut state, &mut table)?;
    let mut list = [0; rows_words(CEILING)];
    let count = lent::guest_chain(5, &state, &table, &mut list)?;
    if !lent::places(&list, count).eq(block) || !receives(5, &state, &mut table, LISTING)? {
        return Ok(false);
    }
    lent::port_reset(&state, &mut table, 5)?;
    receives(5, &state, &mut table, LISTING)
}

#[unsafe(no_mangle)]
extern "C" fn main() -> i32 {
    match run() {
        Ok(true) => 0,
        Ok(false) => 100,
        Err(refusal) => refusal.number() as i32,
    }
}

#[panic_handler]
fn panic(_: &core::panic::PanicInfo) -> ! {
    loop {}
}

/// Asked for by the core library of targets that unwind; never called.
#[unsafe(no_mangle)]
extern "C" fn rust_eh_personality() {}

#[link(name = "c")]
unsafe extern "C" {}
