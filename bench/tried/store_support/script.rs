//! A script of writes, commits, compactions, openings and batches that are forgotten.
use crate::writes::{Map, Store, Write, has_pairs, to_map, to_store};
use sqlite_disk::Disk;
use std::alloc::{AllocError, Global};
use std::collections::BTreeMap;
use tree_store::{Files, OpenError, TreeStore};

/// How many writes a batch has.
pub const WRITES: u64 = 3;

// The nth write.
fn nth(n: u64) -> Write {
    let key = n * 37 % 53;
    if n == 20 {
        return Write::Clear;
    }
    match n % 9 {
        4 => Write::Remove(n * 11 % 53),
        6 => Write::RemoveRange(key, key + 9),
        7 => Write::Insert(key, n),
        8 => Write::Take(key),
        _ => Write::Upsert(key, n),
    }
}

/// Returns the pairs after so many batches.
pub fn after(alloc: Global, batches: u64) -> Result<Map, AllocError> {
    let mut map = BTreeMap::new(alloc);
    for n in 0..batches * WRITES {
        to_map(&mut map, nth(n))?;
    }
    Ok(map)
}

/// Makes the writes of a batch.
pub fn write_batch<D: Disk + Drop>(store: &mut Store<D>, batch: u64) -> Result<(), AllocError> {
    for n in batch * WRITES..(batch + 1) * WRITES {
        to_store(store, nth(n))?;
    }
    Ok(())
}

/// Opens the store in files, or makes one in blank files.
pub fn open_or_make<D: Disk + Drop>(
    alloc: Global,
    files: Files<D>,
) -> Result<Store<D>, (OpenError, Files<D>)> {
    match TreeStore::open(alloc, files) {
        Ok(store) => Ok(store),
        Err((OpenError::Log(store_log::OpenError::Blank), files)) => {
            TreeStore::make(alloc, files, 7)
        }
        Err(refused) => Err(refused),
    }
}

/// What a run came to: its files, and how many batches are known to be durable.
#[derive(Drop)]
pub struct Ended<D: Disk> {
    pub files: Files<D>,
    pub committed: u64,
}

// Commits a batch: some by a compaction.
fn settles<D: Disk + Drop>(alloc: Global, store: &mut Store<D>, batch: u64) -> bool {
    let answer = if batch % 4 == 3 {
        store.compact(alloc)
    } else {
        store.commit()
    };
    answer.is_ok()
}

/// Opens files, and goes on with the batches from one on, up to another, until a call fails. Some
/// batches are written, forgotten and written again, some are committed by a compaction, and behind
/// some the store is opened again. A commit that fails and doesn't stop the store is made again.
pub fn run<D: Disk + Drop>(
    alloc: Global,
    files: Files<D>,
    from: u64,
    to: u64,
) -> Result<Ended<D>, AllocError> {
    let mut committed = from;
    let mut store = match open_or_make(alloc, files) {
        Ok(store) => store,
        Err((_, files)) => return Ok(Ended { files, committed }),
    };
    for batch in from..to {
        write_batch(&mut store, batch)?;
        if batch % 5 == 2 && store.roll_back(alloc).is_ok() {
            write_batch(&mut store, batch)?;
        }
        let was_kept = !settles(alloc, &mut store, batch) && !store.is_stopped();
        if store.is_stopped() || was_kept && store.commit().is_err() {
            break;
        }
        committed = batch + 1;
        if batch % 6 == 5 {
            store = match open_or_make(alloc, store.into_files()) {
                Ok(store) => store,
                Err((_, files)) => return Ok(Ended { files, committed }),
            };
        }
    }
    Ok(Ended {
        files: store.into_files(),
        committed,
    })
}

/// Returns the batch up to which the pairs of files go: so many, or as many more. `None` if they
/// are others, or if the files aren't opened.
pub fn front_of<D: Disk + Drop>(
    alloc: Global,
    files: Files<D>,
    committed: u64,
    more: u64,
) -> Result<Option<(u64, Files<D>)>, AllocError> {
    let Ok(store) = open_or_make(alloc, files) else {
        return Ok(None);
    };
    for batches in committed..=committed + more {
        if has_pairs(store.index(), &after(alloc, batches)?) {
            return Ok(Some((batches, store.into_files())));
        }
    }
    Ok(None)
}
