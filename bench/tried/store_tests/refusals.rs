//! Calls of a store in which an allocation fails. `bench/refusals` makes each fail in turn; in an
//! ordinary run of the tests none does.
use std::alloc::{AllocError, Global};
use std::process::Abort;
use store_log::{LogError, OpenError as LogRefusal};
use store_support::torn::{Machine, Torn};
use store_support::writes::{Map, Store, Write, has_pairs, to_map, to_store};
use test_support::refusals::{begins, ends, is_granted_again, succeeds};
use tree_store::{Files, OpenError, TreeStore};

const MAKE: &str = "TreeStore::make";

const OPEN: &str = "TreeStore::open";

const COMMIT: &str = "TreeStore::commit";

const ROLL_BACK: &str = "TreeStore::roll_back";

const COMPACT: &str = "TreeStore::compact";

const VERIFY: &str = "TreeStore::verify";

// Each is the first write of a store that was opened, so its record needs memory.
static WRITES: [Write; 8] = [
    Write::Insert(1, 10),
    Write::Upsert(2, 20),
    Write::Upsert(1, 11),
    Write::Insert(3, 30),
    Write::Remove(1),
    Write::Take(2),
    Write::RemoveRange(0, 5),
    Write::Clear,
];

fn name_of(write: Write) -> &'static str {
    match write {
        Write::Insert(..) => "TreeStore::insert",
        Write::Upsert(..) => "TreeStore::upsert",
        Write::Remove(_) => "TreeStore::remove",
        Write::Take(_) => "TreeStore::take",
        Write::RemoveRange(..) => "TreeStore::remove_range",
        Write::Clear => "TreeStore::clear",
    }
}

// Whether an opening failed for want of memory.
fn is_memory(error: &OpenError) -> bool {
    match error {
        OpenError::Memory => true,
        OpenError::Log(LogRefusal::Log(LogError::Memory)) => true,
        _ => false,
    }
}

// Opens or makes a store once, by the name of the call.
fn store_once<'m>(
    alloc: Global,
    files: Files<Torn<'m>>,
    call: &str,
) -> Result<Store<Torn<'m>>, (OpenError, Files<Torn<'m>>)> {
    begins(alloc, call);
    let answer = if call == MAKE {
        TreeStore::make(alloc, files, 7)
    } else {
        TreeStore::open(alloc, files)
    };
    ends(alloc);
    answer
}

// Opens or makes a store, at once or the second time. A refusal writes nothing.
fn store_twice<'m>(
    rt: &impl Abort,
    alloc: Global,
    files: Files<Torn<'m>>,
    call: &str,
) -> Result<Store<Torn<'m>>, AllocError> {
    let writes = files.first.writes + files.second.writes;
    let (error, files) = match store_once(alloc, files, call) {
        Ok(store) => return Ok(store),
        Err(refused) => refused,
    };
    assert!(rt; is_memory(&error) && files.first.writes + files.second.writes == writes);
    let second = store_once(alloc, files, call);
    assert!(rt; is_granted_again(alloc, call, second.is_ok())?);
    second.map_err(|_| AllocError)
}

// Makes a write, at once or the second time. One that is refused changes no pair.
fn write_twice<'m>(
    rt: &impl Abort,
    alloc: Global,
    store: &mut Store<Torn<'m>>,
    map: &Map,
    write: Write,
) -> Result<(), AllocError> {
    let call = name_of(write);
    begins(alloc, call);
    let first = to_store(store, write);
    ends(alloc);
    if first.is_ok() {
        return Ok(());
    }
    assert!(rt; has_pairs(store.index(), map));
    begins(alloc, call);
    let second = to_store(store, write);
    ends(alloc);
    assert!(rt; is_granted_again(alloc, call, second.is_ok())?);
    Ok(())
}

// Commits, compacts, verifies or rolls back once, by the name of the call.
fn settle_once<'m>(
    alloc: Global,
    store: &mut Store<Torn<'m>>,
    call: &str,
) -> Result<(), OpenError> {
    let failed = |error| OpenError::Log(LogRefusal::Log(error));
    begins(alloc, call);
    let answer = match call {
        COMMIT => store.commit().map_err(failed),
        COMPACT => store.compact(alloc).map_err(failed),
        VERIFY => store.verify().map(|_| ()),
        _ => store.roll_back(alloc),
    };
    ends(alloc);
    answer
}

// Does so at once or the second time. A refusal doesn't stop the store, and no pair changes.
fn settle_twice<'m>(
    rt: &impl Abort,
    alloc: Global,
    store: &mut Store<Torn<'m>>,
    map: &Map,
    call: &str,
) -> Result<(), AllocError> {
    let Err(error) = settle_once(alloc, store, call) else {
        return Ok(());
    };
    assert!(rt; is_memory(&error) && !store.is_stopped() && has_pairs(store.index(), map));
    let second = settle_once(alloc, store, call);
    assert!(rt; is_granted_again(alloc, call, second.is_ok())?);
    Ok(())
}

// Opens the files, makes a write and forgets it, makes it again and commits it.
fn changes_twice<'m>(
    rt: &impl Abort,
    alloc: Global,
    files: Files<Torn<'m>>,
    map: &mut Map,
    write: Write,
) -> Result<Files<Torn<'m>>, AllocError> {
    let mut store = store_twice(rt, alloc, files, OPEN)?;
    assert!(rt; has_pairs(store.index(), map));
    write_twice(rt, alloc, &mut store, map, write)?;
    store.roll_back(alloc).map_err(|_| AllocError)?;
    assert!(rt; has_pairs(store.index(), map));
    write_twice(rt, alloc, &mut store, map, write)?;
    to_map(map, write)?;
    assert!(rt; has_pairs(store.index(), map));
    settle_twice(rt, alloc, &mut store, map, COMMIT)?;
    for call in [ROLL_BACK, COMPACT, VERIFY, ROLL_BACK] {
        settle_twice(rt, alloc, &mut store, map, call)?;
        assert!(rt; has_pairs(store.index(), map));
    }
    Ok(store.into_files())
}

fn loses_nothing_steps(rt: &impl Abort, alloc: Global, mixes: bool) -> Result<(), AllocError> {
    let mut map = Map::new(alloc);
    let machine = Machine::new(mixes);
    let files = Files {
        first: Torn::with_capacity(alloc, &machine, 1 << 17)?,
        second: Torn::with_capacity(alloc, &machine, 1 << 17)?,
    };
    let mut files = store_twice(rt, alloc, files, MAKE)?.into_files();
    for write in &WRITES {
        files = changes_twice(rt, alloc, files, &mut map, *write)?;
    }
    Ok(())
}

#[test]
fn a_refused_call_loses_nothing(rt: HostRuntime) {
    assert!(rt; succeeds(rt.alloc(), || loses_nothing_steps(&rt, rt.alloc(), true)));
}

#[test]
fn a_refused_call_loses_nothing_with_two_syncs(rt: HostRuntime) {
    assert!(rt; succeeds(rt.alloc(), || loses_nothing_steps(&rt, rt.alloc(), false)));
}
