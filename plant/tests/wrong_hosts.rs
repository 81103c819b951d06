//! Hosts that are wrong, each in its own way: the suite finds every one within 1,000 seeds, and says what is wrong.

use forgelilac::ready::{Input, Kept, Message, Record};
use forgelilac::{Certificate, Member, Set};
use plant::disk::Disk;
use plant::failure::{CameBack, Failure};
use plant::keys::Keys;
use plant::store::{bytes_at, kept_at, noted, place, to_bytes, unchecked, Places, Store, NOTE};
use plant::suite::{self, Found};
use plant::transport::{is_good, pack, unpack, Plain, Transport};
use plant::world::{Parts, PlantParts};

/// Parts of which one is wrong.
struct With<S, T>(S, T);

impl<S: Fn() -> Box<dyn Store>, T: Fn() -> Box<dyn Transport>> Parts for With<S, T> {
    fn store(&self, _: Member) -> Box<dyn Store> {
        (self.0)()
    }

    fn transport(&self, _: Member) -> Box<dyn Transport> {
        (self.1)()
    }
}

fn found_with_store(store: fn() -> Box<dyn Store>) -> Found {
    suite::run(&With(store, || Box::new(Plain) as Box<dyn Transport>), 1, 1_000).expect("it is found")
}

fn found_with_transport(transport: fn() -> Box<dyn Transport>) -> Found {
    suite::run(&With(|| Box::new(Places) as Box<dyn Store>, transport), 1, 1_000).expect("it is found")
}

fn came_back(found: &Found) -> &CameBack {
    println!("{found}");
    match &found.failure {
        Failure::Restored { came, .. } => came,
        other => panic!("{other}"),
    }
}

/// The record before the last one is on the disk when it says that the last one is: what is signed leaves before it
/// is stored.
#[derive(Default)]
struct SignsFirst(Option<Kept>);

impl Store for SignsFirst {
    fn store(&mut self, disk: &mut Disk, record: &Record<'_>) -> Result<(), String> {
        match self.0.replace(record.kept()) {
            Some(last) => {
                let endorsed = &last.endorsed;
                Places.store(disk, &Record { count: last.count, state: &last.state, table: &last.table, endorsed })
            }
            None => Ok(()),
        }
    }

    fn load(&mut self, disk: &Disk) -> Result<Option<Kept>, String> {
        Places.load(disk)
    }
}

#[test]
fn signed_before_storing() {
    let found = found_with_store(|| Box::<SignsFirst>::default());
    assert!(matches!(came_back(&found), CameBack::Earlier(_) | CameBack::Nothing));
}

/// The state is stored, and the table of the first store stays.
struct StateAlone;

impl Store for StateAlone {
    fn store(&mut self, disk: &mut Disk, record: &Record<'_>) -> Result<(), String> {
        let first = Places.load(disk)?.map_or_else(|| record.table.to_vec(), |kept| kept.table);
        Places.store(disk, &Record { table: &first, ..*record })
    }

    fn load(&mut self, disk: &Disk) -> Result<Option<Kept>, String> {
        Places.load(disk)
    }
}

#[test]
fn stored_state_without_table() {
    let found = found_with_store(|| Box::new(StateAlone));
    assert_eq!(*came_back(&found), CameBack::StateWithoutTable);
}

/// After a power failure it goes on from the copy before the last one, as from a backup.
struct Backup;

impl Store for Backup {
    fn store(&mut self, disk: &mut Disk, record: &Record<'_>) -> Result<(), String> {
        Places.store(disk, record)
    }

    fn load(&mut self, disk: &Disk) -> Result<Option<Kept>, String> {
        let last = noted(disk);
        Ok(kept_at(disk, place(last.wrapping_sub(1))).filter(|kept| kept.count < last).or(Places.load(disk)?))
    }
}

#[test]
fn a_restored_copy() {
    let found = found_with_store(|| Box::new(Backup));
    assert!(matches!(came_back(&found), CameBack::Earlier(_)));
}

/// One place, overwritten each time, and no sum that is looked at.
struct OnePlace;

impl Store for OnePlace {
    fn store(&mut self, disk: &mut Disk, record: &Record<'_>) -> Result<(), String> {
        disk.write(NOTE, 0, to_bytes(record));
        disk.sync();
        Ok(())
    }

    fn load(&mut self, disk: &Disk) -> Result<Option<Kept>, String> {
        Ok(bytes_at(disk, NOTE).and_then(|bytes| unchecked(&bytes)).filter(|kept| kept.count > 0))
    }
}

#[test]
fn one_place_overwritten() {
    let found = found_with_store(|| Box::new(OnePlace));
    assert_ne!(*came_back(&found), CameBack::Nothing);
}

/// It writes, and never waits until what it wrote is there.
struct NeverSyncs;

impl Store for NeverSyncs {
    fn store(&mut self, disk: &mut Disk, record: &Record<'_>) -> Result<(), String> {
        disk.write(place(record.count), 0, to_bytes(record));
        disk.write(NOTE, 0, record.count.to_le_bytes());
        Ok(())
    }

    fn load(&mut self, disk: &Disk) -> Result<Option<Kept>, String> {
        Places.load(disk)
    }
}

#[test]
fn written_and_not_synced() {
    came_back(&found_with_store(|| Box::new(NeverSyncs)));
}

/// The note that a store is done goes to the disk together with the store.
struct NotesFirst;

impl Store for NotesFirst {
    fn store(&mut self, disk: &mut Disk, record: &Record<'_>) -> Result<(), String> {
        disk.write(NOTE, 0, record.count.to_le_bytes());
        disk.write(place(record.count), 0, to_bytes(record));
        disk.sync();
        Ok(())
    }

    fn load(&mut self, disk: &Disk) -> Result<Option<Kept>, String> {
        Places.load(disk)
    }
}

#[test]
fn noted_before_it_is_there() {
    let found = found_with_store(|| Box::new(NotesFirst));
    assert!(matches!(came_back(&found), CameBack::Unreadable(_)));
}

/// After a power failure it opens a new run.
struct OpensAgain;

impl Store for OpensAgain {
    fn store(&mut self, disk: &mut Disk, record: &Record<'_>) -> Result<(), String> {
        Places.store(disk, record)
    }

    fn load(&mut self, _: &Disk) -> Result<Option<Kept>, String> {
        Ok(None)
    }
}

#[test]
fn opened_again() {
    let found = found_with_store(|| Box::new(OpensAgain));
    assert_eq!(*came_back(&found), CameBack::Nothing);
}

/// State and table are stored, and which endorsements were given is not.
struct NoEndorsements;

impl Store for NoEndorsements {
    fn store(&mut self, disk: &mut Disk, record: &Record<'_>) -> Result<(), String> {
        Places.store(disk, &Record { endorsed: &[], ..*record })
    }

    fn load(&mut self, disk: &Disk) -> Result<Option<Kept>, String> {
        Places.load(disk)
    }
}

#[test]
fn endorsements_not_stored() {
    let found = found_with_store(|| Box::new(NoEndorsements));
    assert_eq!(*came_back(&found), CameBack::NoEndorsements);
}

/// It takes what comes over a link for what the link's member has signed.
struct TrustsLinks;

impl Transport for TrustsLinks {
    fn pack(&mut self, own: Member, message: &Message) -> Vec<u8> {
        pack(own, message)
    }

    fn unpack(&mut self, from: Member, bytes: &[u8], _: &Keys) -> Option<Input> {
        unpack(from, bytes)
    }
}

#[test]
fn signatures_not_checked() {
    let found = found_with_transport(|| Box::new(TrustsLinks));
    println!("{found}");
    assert!(matches!(found.failure, Failure::Unchecked { .. }));
}

/// It checks the author's signature of a certificate, and not those of its endorsers.
struct AuthorAlone;

impl Transport for AuthorAlone {
    fn pack(&mut self, own: Member, message: &Message) -> Vec<u8> {
        pack(own, message)
    }

    fn unpack(&mut self, from: Member, bytes: &[u8], keys: &Keys) -> Option<Input> {
        let input = unpack(from, bytes)?;
        let good = match &input {
            Input::Certificates(row) => row.iter().all(|one| keys.is_signed(one.proposal.author, &one.proposal)),
            other => is_good(other, keys),
        };
        good.then_some(input)
    }
}

#[test]
fn endorsers_not_checked() {
    let found = found_with_transport(|| Box::new(AuthorAlone));
    println!("{found}");
    assert!(matches!(found.failure, Failure::Unchecked { .. }));
}

/// It sends sets of members as one byte: members above 7 are lost.
struct SetsOfEight;

impl Transport for SetsOfEight {
    fn pack(&mut self, own: Member, message: &Message) -> Vec<u8> {
        let cut = |set: Set| set & 0xff;
        let mut message = message.clone();
        match &mut message {
            Message::Proposal(one) | Message::Endorsement(one) => one.previous = cut(one.previous),
            Message::Certificates(row) => row.iter_mut().for_each(|one: &mut Certificate| {
                one.proposal.previous = cut(one.proposal.previous);
                one.endorsers = cut(one.endorsers);
            }),
            Message::Question { .. } => {}
        }
        pack(own, &message)
    }

    fn unpack(&mut self, from: Member, bytes: &[u8], keys: &Keys) -> Option<Input> {
        unpack(from, bytes).filter(|input| is_good(input, keys))
    }
}

#[test]
fn members_above_seven_lost() {
    let found = found_with_transport(|| Box::new(SetsOfEight));
    println!("{found}");
    assert!(matches!(found.failure, Failure::NotHandedOver { .. } | Failure::Misread { .. }));
}

#[test]
fn the_plants_own_parts_are_right() {
    assert!(suite::run(&PlantParts, 1, 100).is_none());
}
