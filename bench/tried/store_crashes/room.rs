//! A full disk.
use std::alloc::AllocError;
use std::io;
use std::test::Fail;
use store_log::LogError;
use store_support::script::open_or_make;
use store_support::torn::{Machine, Torn};
use store_support::writes::Store;

/// How many pairs a batch has.
const KEYS: u64 = 50;

// Whether a commit was refused since there is no room.
fn is_full(answer: Result<(), LogError>) -> bool {
    match answer {
        Err(LogError::Io(error)) => error.kind() == io::ErrorKind::StorageFull,
        _ => false,
    }
}

// Commits batches until the disk is full. Returns how many pairs are durable then, or `None` if the
// last commit was refused otherwise.
fn fill(store: &mut Store<Torn<'_>>) -> Result<Option<u64>, AllocError> {
    for batch in 0..200 {
        for key in batch * KEYS..(batch + 1) * KEYS {
            store.upsert(key, key).map_err(|_| AllocError)?;
        }
        let answer = store.commit();
        if answer.is_err() {
            return Ok(is_full(answer).then_some(batch * KEYS));
        }
    }
    Ok(None)
}

// A disk that mixes is full when the file should grow, so the store goes on with the pairs of the
// last commit. Another has the store stop.
#[test]
fn a_full_disk_loses_nothing(rt: HostRuntime) -> Result<(), Fail> {
    let alloc = rt.alloc();
    for mixes in [true, false] {
        for room in [56, 100, 1000, 66_000, 70_000] {
            let machine = Machine::new(mixes);
            let mut files = machine.files(alloc, room as u64);
            files.first.room = room;
            let mut store = open_or_make(alloc, files).map_err(|_| AllocError)?;
            let Some(durable) = fill(&mut store)? else {
                assert!(rt; false);
                return Ok(());
            };
            assert!(rt; store.index().len() as u64 == durable + KEYS);
            assert!(rt; store.is_stopped() != mixes);
            if mixes {
                assert!(rt; is_full(store.commit()));
                assert!(rt; store.roll_back(alloc).is_ok());
                assert!(rt; store.index().len() as u64 == durable);
            }
            let mut files = store.into_files();
            machine.crash(&mut files);
            files.first.room = usize::MAX;
            let mut store = open_or_make(alloc, files).map_err(|_| AllocError)?;
            assert!(rt; store.index().len() as u64 == durable);
            store.upsert(99_999, 1).map_err(|_| AllocError)?;
            assert!(rt; store.commit().is_ok());
        }
    }
    Ok(())
}

#[test]
fn no_store_is_made_without_room(rt: HostRuntime) -> Result<(), Fail> {
    let alloc = rt.alloc();
    for room in 0..56 {
        let machine = Machine::new(true);
        let mut files = machine.files(alloc, room as u64 + 1);
        files.first.room = room;
        let Err((_, mut files)) = open_or_make(alloc, files) else {
            assert!(rt; false);
            return Ok(());
        };
        machine.crash(&mut files);
        files.first.room = usize::MAX;
        assert!(rt; open_or_make(alloc, files).is_ok());
    }
    Ok(())
}

// A compaction that has no room leaves the store as it was, and one that has room follows.
#[test]
fn a_compaction_without_room_loses_nothing(rt: HostRuntime) -> Result<(), Fail> {
    let alloc = rt.alloc();
    for mixes in [true, false] {
        for room in [0, 1, 2, 40, 60, 800] {
            let machine = Machine::new(mixes);
            let mut files = machine.files(alloc, room as u64);
            files.second.room = room;
            let mut store = open_or_make(alloc, files).map_err(|_| AllocError)?;
            for key in 0..KEYS {
                store.upsert(key, key).map_err(|_| AllocError)?;
            }
            assert!(rt; store.commit().is_ok());
            assert!(rt; is_full(store.compact(alloc)) && !store.is_stopped());
            store.upsert(KEYS, 1).map_err(|_| AllocError)?;
            assert!(rt; store.commit().is_ok());
            let mut files = store.into_files();
            machine.crash(&mut files);
            files.second.room = usize::MAX;
            let mut store = open_or_make(alloc, files).map_err(|_| AllocError)?;
            assert!(rt; store.index().len() as u64 == KEYS + 1);
            assert!(rt; store.compact(alloc).is_ok() && store.head().generation == 2);
        }
    }
    Ok(())
}
