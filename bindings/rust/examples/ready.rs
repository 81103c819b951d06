//! A whole host, by the ready loop: four members in one process, each with a store of its own, until all have come to
//! the last round. Member 1 loses its memory on the way, in the middle of a store, and goes on from the store before.
//! Whatever leaves a host has come out of a `Ready` by the proof that the words were stored. What a real host adds:
//! signatures, which it checks before a message goes in, and a disk and a network in place of these.
//!
//!     cargo run --example ready

use forgelilac::ready::{Actions, Host, Input, Kept, Message, Record, RestoreError, Send, Store};
use forgelilac::{Member, Refusal, Rights, Sheet, Transaction};
use std::collections::VecDeque;
use std::error::Error;

const MEMBERS: usize = 4;
/// The guest of each computer that has something for the chain.
const GUEST: u32 = 5;

fn sheet() -> Sheet {
    Sheet { ceiling: Some(9), lookback: Some(6), ..Sheet::default() }
}

/// A disk with two places, written in turns, and the count of the store that was done last.
#[derive(Default)]
struct Disk {
    places: [Vec<u8>; 2],
    done: u64,
    /// The next store is cut off.
    fails: bool,
}

/// The power has failed.
#[derive(Debug)]
struct PowerFailed;

impl Store for Disk {
    type Error = PowerFailed;

    fn store(&mut self, record: &Record<'_>) -> Result<(), PowerFailed> {
        let bytes = record.to_bytes();
        let place = &mut self.places[record.count as usize % 2];
        if self.fails {
            *place = bytes[..bytes.len() / 2].to_vec();
            return Err(PowerFailed);
        }
        *place = bytes;
        self.done = record.count;
        Ok(())
    }
}

impl Disk {
    fn last(&self) -> Result<Kept, RestoreError> {
        Kept::from_bytes(&self.places[self.done as usize % 2])
    }
}

/// A computer of the plant: a host, its disk, and the messages that have come.
struct Computer {
    own: Member,
    host: Host,
    disk: Disk,
    came: VecDeque<Input>,
    blocks: u32,
}

impl Computer {
    fn new(own: Member) -> Result<Computer, Refusal> {
        let host = Host::open(own, &sheet(), Rights::NONE)?;
        Ok(Computer { own, host, disk: Disk::default(), came: VecDeque::new(), blocks: 0 })
    }

    /// Takes what came, stores, and only then has what is to be sent.
    fn step(&mut self, input: Input) -> Result<Vec<Send>, PowerFailed> {
        let ready = self.host.step(input);
        let stored = self.host.store(&mut self.disk)?;
        let Ok(Actions { sends, blocks, dropped, .. }) = ready.release(&stored) else { return Err(PowerFailed) };
        // The guests are handed the blocks. What was dropped is put into a queue again with the next input.
        self.blocks = blocks.last().and_then(|held| held.block).unwrap_or(self.blocks);
        self.came.extend(dropped.into_iter().map(|transaction| Input::Enqueue { guest: GUEST, transaction }));
        Ok(sends)
    }

    fn go_on(&mut self) -> Result<(), RestoreError> {
        self.host = Host::restore(self.own, &sheet(), self.disk.last()?)?;
        self.disk.fails = false;
        Ok(())
    }
}

/// What a message of a member is to the one that it comes to.
fn input(from: Member, message: Message) -> Input {
    match message {
        Message::Proposal(proposal) => Input::Proposal(proposal),
        Message::Endorsement(proposal) => Input::Endorsement { by: from, proposal },
        Message::Certificates(row) => Input::Certificates(row),
        Message::Question { lowest } => Input::Question { from, lowest },
    }
}

fn main() -> Result<(), Box<dyn Error>> {
    let mut plant = Member::ALL[..MEMBERS].iter().map(|&own| Computer::new(own)).collect::<Result<Vec<_>, _>>()?;
    for turn in 1.. {
        for at in 0..MEMBERS {
            let entry = Transaction::Entry { number: 100 * turn + at as u32 };
            plant[at].came.push_back(Input::Enqueue { guest: GUEST, transaction: entry });
            plant[at].came.push_back(Input::Tick);
            plant[at].disk.fails = (turn, at) == (3, 1);
            while let Some(next) = plant[at].came.pop_front() {
                let from = plant[at].own;
                match plant[at].step(next) {
                    Ok(sends) => {
                        for Send { to, message } in sends {
                            for other in plant.iter_mut().filter(|one| one.own != from) {
                                if to.is_none_or(|to| to == other.own) {
                                    other.came.push_back(input(from, message.clone()));
                                }
                            }
                        }
                    }
                    Err(PowerFailed) => {
                        println!("member 1 fails in round {} while it stores", plant[at].host.engine().round());
                        plant[at].go_on()?;
                        println!("member 1 goes on in round {}", plant[at].host.engine().round());
                    }
                }
            }
        }
        if plant.iter().all(|computer| computer.host.engine().round() == 9 && computer.came.is_empty()) {
            break;
        }
    }
    for computer in &plant {
        let engine = computer.host.engine();
        println!("member {}: round {}, {} blocks handed to its guests", computer.own, engine.round(), computer.blocks);
        assert_eq!(engine.chain()?, plant[0].host.engine().chain()?, "chains never fork");
    }
    Ok(())
}
