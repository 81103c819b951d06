//! A whole host: members 0, 1 and 2 in one process make ten blocks from what their guests hand over, and one
//! of them is restored from its bytes on the way. What a real host adds: it signs what leaves and checks the
//! signatures of what comes, it stores an engine's bytes before a signature of its leaves, with a digest and a
//! count beside them, and a network carries what passes from member to member here (docs/HOSTS.md).
//!
//!     cargo run --example ten_blocks

use forgelilac::{Certificate, Engine, FromBytesError, Member, Refusal, Sheet, Transaction};
use std::error::Error;

/// The guest of each computer that has something for the chain.
const GUEST: u32 = 5;
const BLOCKS: u32 = 10;

/// Members 0, 1 and 2 of weight 1; member 3 has one where the sheet is blank.
fn sheet() -> Sheet {
    let mut sheet = Sheet { ceiling: Some(64), ..Sheet::default() };
    sheet.weights[3] = Some(0);
    sheet
}

/// A member's proposal goes to the others, comes back endorsed, and is a certificate.
fn certificate_of(engines: &mut [Engine], author: Member) -> Result<Certificate, Refusal> {
    let engine = &mut engines[author.index()];
    engine.draw(engine.held(engine.round().before()))?;
    let proposal = engine.proposal().ok_or(Refusal::NoProposal)?;
    let mut endorsers = 0;
    for other in engines.iter_mut().filter(|other| other.own() != author) {
        // Here the other checks the author's signature, and stores its engine before it sends its own.
        match other.endorse(&proposal) {
            Ok(()) => endorsers |= other.own().bit(),
            Err(refusal) => eprintln!("{} does not endorse {}/{author}: {refusal}", other.own(), proposal.round),
        }
    }
    engines[author.index()].certify(endorsers)?;
    Ok(Certificate { proposal, endorsers })
}

/// Each member's certificate of the present round reaches all others.
fn play(engines: &mut [Engine]) -> Result<(), Refusal> {
    for author in engines.iter().map(Engine::own).collect::<Vec<_>>() {
        let certificate = certificate_of(engines, author)?;
        for other in engines.iter_mut().filter(|other| other.own() != author) {
            other.accept(&certificate)?;
        }
    }
    Ok(())
}

/// A computer fails: what it goes on with are its bytes, and bytes that are cut off are refused.
fn restored(engine: Engine) -> Result<Engine, FromBytesError> {
    let stored = engine.to_bytes();
    drop(engine);
    println!("cut off: {}", Engine::from_bytes(&stored[..stored.len() / 2]).unwrap_err());
    let again = Engine::from_bytes(&stored)?;
    println!("restored: {again:?}");
    Ok(again)
}

/// The chain with what it holds, block by block: round/author and the entries of each certificate.
fn print_chain(engine: &Engine) -> Result<(), Refusal> {
    for (number, block) in (1..).zip(engine.chain()?) {
        print!("block {number} of round {}:", block.round);
        for held in engine.block_rows(number - 1, 1)? {
            print!(" {}/{}", held.proposal.round, held.proposal.author);
            for transaction in held.proposal.transactions {
                if let Transaction::Entry { number } = transaction {
                    print!(" [{number}]");
                }
            }
        }
        println!();
    }
    Ok(())
}

fn main() -> Result<(), Box<dyn Error>> {
    let mut engines = Member::ALL[..3].iter().map(|&own| Engine::open(own, &sheet())).collect::<Result<Vec<_>, _>>()?;
    while engines[0].blocks() < BLOCKS {
        for engine in &mut engines {
            // The guest adds an entry of its own in every third round.
            if engine.round().get() % 3 == 1 {
                let number = 100 * engine.round().get() + engine.own().get();
                engine.enqueue(GUEST, Transaction::Entry { number })?;
            }
        }
        play(&mut engines)?;
        for engine in &mut engines {
            match engine.commit() {
                // Nothing to commit in an even round or round 1, the block is made already, or its anchor or
                // votes are missing: no fault. A real host waits in its last chance (docs/HOSTS.md).
                Ok(_) | Err(Refusal::NoCommitRound | Refusal::BlockMade | Refusal::NoAnchor | Refusal::VotesShort) => {}
                Err(refusal) => return Err(refusal.into()),
            }
            engine.advance()?;
        }
        if engines[1].round() == 8 {
            let failed = engines.remove(1);
            engines.insert(1, restored(failed)?);
        }
    }
    print_chain(&engines[0])?;
    for engine in &engines[1..] {
        assert_eq!(engine.chain()?, engines[0].chain()?, "chains never fork");
    }
    println!("members 0, 1 and 2 have the same {} blocks", engines[0].blocks());
    Ok(())
}
