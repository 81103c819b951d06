//! A host of three members in one process: proposals are endorsed, certified and passed
//! around for some rounds, every member commits, and each prints its chain.
//! A real host signs what it sends, checks signatures before endorse, certify and accept,
//! and stores state and table before it sends an endorsement (docs/HOSTS.md).

use forgelilac::{Certificate, Engine, Member, Refusal, Right, Rights, Round, Sheet, Transaction};

const LAST_ROUND: Round = Round::new(9);

/// Members 0, 1 and 2 of weight 1, member 3 outside.
fn sheet() -> Sheet {
    let mut sheet = Sheet { lookback: Some(2), ceiling: Some(64), ..Sheet::default() };
    sheet.weights[3] = Some(0);
    sheet
}

/// The sheet of a fourth computer, which is alone.
fn alone() -> Sheet {
    let mut sheet = Sheet { ceiling: Some(64), ..Sheet::default() };
    sheet.weights[..4].copy_from_slice(&[Some(0), Some(0), Some(0), Some(1)]);
    sheet
}

/// What a member proposes: an entry that its guests sent; in round 1 member 0 also bonds 2.
fn transactions(member: Member, round: Round) -> Vec<Transaction> {
    let mut all = vec![Transaction::Entry { number: 100 * round.get() + member.get() }];
    if member == 0 && round == 1 {
        all.push(Transaction::Bond { member, amount: 2 });
    }
    all
}

/// One member's proposal goes out, comes back endorsed, and becomes a certificate.
fn certificate_of(engines: &mut [Engine], author: usize) -> Result<Certificate, Refusal> {
    let round = engines[author].round();
    let previous = engines[author].held(round.before());
    engines[author].propose(previous, &transactions(engines[author].own(), round))?;
    let proposal = engines[author].proposal().expect("just proposed");
    let mut endorsers = 0;
    for (member, engine) in engines.iter_mut().enumerate() {
        if member != author && engine.endorse(&proposal).is_ok() {
            endorsers |= 1 << member;
        }
    }
    engines[author].certify(endorsers)?;
    Ok(Certificate { proposal, endorsers })
}

/// Which computers must not be unplugged? The certificates that a commit hangs on, now that the one of
/// this author is there too.
fn print_critical(engine: &mut Engine, author: usize) -> Result<(), Refusal> {
    let places: String = engine.critical()?.iter().map(|one| format!(" {}/{}", one.round, one.author)).collect();
    println!("with {}/{author} a commit of member {} hangs on{places}", engine.round(), engine.own());
    Ok(())
}

/// A round: every member's certificate reaches every other member.
fn play(engines: &mut [Engine]) -> Result<(), Refusal> {
    for author in 0..engines.len() {
        let certificate = certificate_of(engines, author)?;
        for (member, engine) in engines.iter_mut().enumerate() {
            if member != author {
                engine.accept(&certificate)?;
            }
        }
        if engines[0].round() == LAST_ROUND {
            print_critical(&mut engines[0], author)?;
        }
    }
    Ok(())
}

/// What would a commit do? The blocks before they are made, or why there would be none.
fn print_preview(engine: &Engine) {
    println!("what a commit of member {} in round {} would add", engine.own(), engine.round());
    match engine.preview() {
        Ok(entries) => {
            for block in entries.chunk_by(|one, next| one.block == next.block) {
                let certificates: String = block.iter().map(|one| format!(" {}/{}", one.round, one.author)).collect();
                println!("  block {}:{certificates}", block[0].block);
            }
        }
        Err(refusal) => println!("  nothing: refused with {}, {}", refusal.number(), refusal.meaning()),
    }
}

fn print_chain(engine: &Engine) -> Result<(), Refusal> {
    println!("member {}", engine.own());
    for (number, block) in (1..).zip(engine.chain()?) {
        let certificates: Vec<String> =
            block.certificates.iter().map(|one| format!("{}/{}", one.round, one.author)).collect();
        println!("  block {number}, block round {}: {}", block.round, certificates.join(" "));
    }
    Ok(())
}

/// Who endorsed what: the certificates of a round as a member holds them.
fn print_endorsers(engine: &Engine, round: Round) -> Result<(), Refusal> {
    println!("endorsers in round {round}, as member {} holds them", engine.own());
    for author in Member::all_in(engine.held(round)) {
        let endorsers = Member::all_in(engine.certificate(author, round)?.endorsers);
        let list: String = endorsers.map(|member| format!(" {member}")).collect();
        println!("  {round}/{author}:{list}");
    }
    Ok(())
}

/// Before bonding: how far a bond would move everyone's share, of those that have one before or after it.
fn print_effect(engine: &Engine, member: Member, amount: u32) -> Result<(), Refusal> {
    let effect = engine.bond_effect(member, engine.round(), amount)?;
    println!("how far a bond of member {member} by {amount} would move the shares in round {}", engine.round());
    for (member, (before, after)) in effect.before.iter().zip(effect.after).enumerate() {
        if *before > 0 || after > 0 {
            println!("  member {member}: from {before} to {after}");
        }
    }
    println!("  largest difference: {}", effect.largest);
    Ok(())
}

fn print_answers(how: &str, answers: &[Result<(), Refusal>]) {
    let list: String = answers.iter().map(|one| format!(" {}", one.map_or_else(Refusal::number, |()| 0))).collect();
    println!("  {how}:{list}");
}

/// Goes on while the present round has a quorum, and commits before it leaves an odd one from 3 on.
/// A refused commit does not stop it: a real host waits in its last chance (docs/HOSTS.md).
fn print_catching_up(engine: &mut Engine) {
    let refusal = loop {
        if engine.round() >= 3 && engine.round().get() % 2 == 1 {
            let _ = engine.commit();
        }
        if let Err(refusal) = engine.advance() {
            break refusal;
        }
    };
    println!("    advances to round {}, then {}; blocks: {}", engine.round(), refusal.number(), engine.blocks());
}

/// A member that was away gets rounds 3, 2 and 1 as a link delivers them, newest first: one by one,
/// and, opened anew, in one batch.
fn print_batch(engine: &Engine) -> Result<(), Refusal> {
    let places = (1..=3).rev().flat_map(|round| (0..3).map(move |author| (author, round)));
    let held = places.map(|(author, round)| engine.certificate(Member::new(author), Round::new(round)));
    let row = held.map(|held| held.map(|one| one.certificate())).collect::<Result<Vec<_>, _>>()?;
    println!("rounds 3, 2, 1 to a member that was away");
    let mut away = Engine::open(Member::new(3), &sheet())?;
    let singly: Vec<_> = row.iter().map(|certificate| away.accept(certificate)).collect();
    print_answers("one by one", &singly);
    print_catching_up(&mut away);
    let mut away = Engine::open(Member::new(3), &sheet())?;
    print_answers("in one batch", &away.batch(&row)?);
    print_catching_up(&mut away);
    Ok(())
}

const BUSY: u32 = 2;

/// What the member proposes in this round, and how many wait for each guest.
fn print_drawn(engine: &Engine) -> Result<(), Refusal> {
    let proposal = engine.proposal().expect("just drawn");
    let number = |transaction: &Transaction| match *transaction {
        Transaction::Entry { number } => format!(" {number}"),
        _ => unreachable!("guests add entries alone"),
    };
    let drawn: String = proposal.transactions.iter().map(number).collect();
    let waiting = (0..8).map(|guest| engine.waiting(guest)).collect::<Result<Vec<_>, _>>()?;
    let waiting: String = waiting.iter().map(|count| format!(" {count}")).collect();
    println!("  round {}:{drawn}; wait:{waiting}", proposal.round);
    Ok(())
}

/// Guests of a computer that is alone share its proposals. Guest 2 is busy and fills its queue before
/// each; guests 5 and 0 have something now and then. An entry tells its guest.
fn print_queues() -> Result<(), Refusal> {
    let mut engine = Engine::open(Member::new(3), &alone())?;
    let mut busy = (100 * BUSY..).map(|number| Transaction::Entry { number });
    println!("guests share the proposals of a member alone");
    for round in 1..=4 {
        while engine.waiting(BUSY)? < 8 {
            engine.enqueue(BUSY, busy.next().expect("numbers enough"))?;
        }
        let others: &[(u32, u32)] = match round {
            1 => &[(5, 500), (5, 501)],
            2 => &[(0, 0)],
            _ => &[],
        };
        for &(guest, number) in others {
            engine.enqueue(guest, Transaction::Entry { number })?;
        }
        engine.draw(engine.held(engine.round().before()))?;
        print_drawn(&engine)?;
        engine.certify(0)?;
        engine.advance()?;
    }
    Ok(())
}

const LINE: u32 = 3;
const CLOCK: u32 = 5;

/// A guest's call: who, what, and the answer, 0 for accepted.
fn answered(guest: u32, call: &str, answer: Result<(), Refusal>) -> String {
    format!(", guest {guest} {call} {}", answer.map_or_else(Refusal::number, |()| 0))
}

/// What a guest was given, or why nothing.
fn given(answer: Result<String, Refusal>) -> String {
    answer.unwrap_or_else(|refusal| format!(" refused with {}, {}", refusal.number(), refusal.meaning()))
}

/// Guests of a computer that is alone call by themselves: one may propose and read, one may drive, and
/// the host signs. A hypervisor passes the number of the guest that was running, which it knows itself.
fn print_guests() -> Result<(), Refusal> {
    let rights = Rights::NONE.allow(LINE, Right::Propose)?.allow(LINE, Right::Read)?.allow(CLOCK, Right::Drive)?;
    let mut engine = Engine::open_with_rights(Member::new(3), &alone(), rights)?;
    println!("guests call by themselves: {LINE} may propose and read, {CLOCK} may drive");
    for round in 1..=3 {
        let entry = Transaction::Entry { number: 100 * LINE };
        let mut line = format!("  round {round}");
        line += &answered(LINE, "enqueue", engine.guest(LINE).enqueue(entry));
        line += &answered(CLOCK, "enqueue", engine.guest(CLOCK).enqueue(entry));
        let previous = engine.held(engine.round().before());
        line += &answered(LINE, "draw", engine.guest(LINE).draw(previous));
        engine.certify(0)?;
        if round < 3 {
            line += &answered(LINE, "advance", engine.guest(LINE).advance());
            line += &answered(CLOCK, "advance", engine.guest(CLOCK).advance());
        }
        println!("{line}");
    }
    for guest in [LINE, 8, CLOCK] {
        let added = engine.guest(guest).commit().map(|count| format!(" blocks added {count}"));
        println!("  guest {guest} commit:{}", given(added));
    }
    for guest in [LINE, CLOCK] {
        let places = engine.reader(guest).chain().map(|blocks| {
            let places = blocks.iter().flat_map(|block| &block.certificates);
            places.map(|one| format!(" {}/{}", one.round, one.author)).collect()
        });
        println!("  guest {guest} chain:{}", given(places));
    }
    Ok(())
}

fn main() -> Result<(), Refusal> {
    println!("certificates as round/author");
    let mut engines = (0..3).map(|own| Engine::open(Member::new(own), &sheet())).collect::<Result<Vec<_>, _>>()?;
    for round in Round::FIRST.through(LAST_ROUND) {
        play(&mut engines)?;
        if round.next() >= LAST_ROUND {
            print_preview(&engines[0]);
        }
        for engine in &mut engines {
            match engine.commit() {
                Ok(_) | Err(Refusal::NoCommitRound) => {}
                Err(refusal) => return Err(refusal),
            }
            if round < LAST_ROUND {
                engine.advance()?;
            }
        }
    }
    for engine in &engines {
        print_chain(engine)?;
    }
    print_endorsers(&engines[0], LAST_ROUND)?;
    let shares =
        Member::ALL[..3].iter().map(|&member| engines[0].share(member, LAST_ROUND)).collect::<Result<Vec<_>, _>>()?;
    println!("shares in round {LAST_ROUND}, in thousandths: {shares:?}");
    print_effect(&engines[0], Member::new(3), 11)?;
    print_batch(&engines[0])?;
    print_queues()?;
    print_guests()
}
