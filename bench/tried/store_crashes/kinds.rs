//! Files of something else are refused by name, and no byte of them changes.
use std::alloc::{AllocError, Global};
use std::test::Fail;
use store_codec::{Encode, StoreKey};
use store_log::OpenError as LogRefusal;
use store_support::script::open_or_make;
use store_support::torn::{Machine, Torn};
use store_support::writes::Store;
use test_support::chance::Chance;
use tree_store::{Files, OpenError, TreeStore};

// Files with these bytes.
fn files_of<'m>(
    alloc: Global,
    machine: &'m Machine,
    first: &[u8],
    second: &[u8],
) -> Result<Files<Torn<'m>>, AllocError> {
    Ok(Files {
        first: Torn::of(alloc, machine, first)?,
        second: Torn::of(alloc, machine, second)?,
    })
}

// Whether files have these bytes, and nothing was written.
fn are_untouched(files: &Files<Torn<'_>>, first: &[u8], second: &[u8]) -> bool {
    *files.first.bytes == *first
        && *files.second.bytes == *second
        && files.first.writes + files.second.writes == 0
}

// Opens files as a store of these keys and values. Whether they are refused as ones of something
// else, or of other kinds, and read as before.
fn are_refused<K: StoreKey, V: Encode>(
    alloc: Global,
    first: &[u8],
    second: &[u8],
    by_kind: bool,
) -> Result<bool, AllocError> {
    let machine = Machine::new(true);
    let files = files_of(alloc, &machine, first, second)?;
    let opened: Result<TreeStore<K, V, Torn<'_>>, (OpenError, Files<Torn<'_>>)> =
        TreeStore::open(alloc, files);
    let Err((OpenError::Log(error), files)) = opened else {
        return Ok(false);
    };
    let is_named = match error {
        LogRefusal::NoHead => !by_kind,
        LogRefusal::OtherKinds => by_kind,
        _ => false,
    };
    Ok(is_named && are_untouched(&files, first, second))
}

// Whether no store is made in files.
fn are_occupied(alloc: Global, first: &[u8], second: &[u8]) -> Result<bool, AllocError> {
    let machine = Machine::new(true);
    let files = files_of(alloc, &machine, first, second)?;
    let made: Result<Store<Torn<'_>>, (OpenError, Files<Torn<'_>>)> =
        TreeStore::make(alloc, files, 7);
    let Err((OpenError::Log(LogRefusal::Occupied), files)) = made else {
        return Ok(false);
    };
    Ok(are_untouched(&files, first, second))
}

#[test]
fn a_file_of_something_else_is_refused(rt: HostRuntime) -> Result<(), Fail> {
    let alloc = rt.alloc();
    let zeros = vec![in alloc; 0u8; 5000]?;
    let mut random = vec![in alloc; 0u8; 5000]?;
    let mut chance = Chance::new(4);
    for byte in &mut random {
        *byte = chance.below(256) as u8;
    }
    let others: [&[u8]; 7] = [
        b"\x7fELF\x02\x01\x01\0",
        b"SQLite format 3\0\x10\0\x01\x01\0\x40\x20\x20",
        b"a text",
        b"\xd7\x80",
        b"\0and then more than a head has, of which no crash while one is made leaves so much",
        &zeros,
        &random,
    ];
    for other in others {
        assert!(rt; are_refused::<u64, u64>(alloc, other, b"", false)?);
        assert!(rt; are_refused::<u64, u64>(alloc, b"", other, false)?);
        assert!(rt; are_occupied(alloc, other, b"")?);
        assert!(rt; are_occupied(alloc, b"", other)?);
    }
    Ok(())
}

// What a crash may leave of the other file has at most two bytes, a closed gate or a head.
#[test]
fn a_store_beside_a_file_of_something_else_is_refused(rt: HostRuntime) -> Result<(), Fail> {
    let alloc = rt.alloc();
    let store = store_with_a_pair(alloc, b"")?;
    let others: [&[u8]; 3] = [b"\x7fELF\x02\x01\x01\0", b"a text", b"\xd7\x80\x80"];
    for other in others {
        assert!(rt; are_refused::<u64, u64>(alloc, &store, other, false)?);
        assert!(rt; are_refused::<u64, u64>(alloc, other, &store, false)?);
        assert!(rt; are_occupied(alloc, other, &store)?);
    }
    Ok(())
}

// The bytes of a store with a pair.
fn store_with_a_pair(alloc: Global, made_in: &[u8]) -> Result<Vec<u8>, AllocError> {
    let machine = Machine::new(true);
    let files = files_of(alloc, &machine, made_in, b"")?;
    let mut store = open_or_make(alloc, files).map_err(|_| AllocError)?;
    store.upsert(1, 1).map_err(|_| AllocError)?;
    store.commit().map_err(|_| AllocError)?;
    store.into_files().first.bytes.clone()
}

#[test]
fn keys_and_values_of_another_type_are_refused(rt: HostRuntime) -> Result<(), Fail> {
    let alloc = rt.alloc();
    let bytes = store_with_a_pair(alloc, b"")?;
    assert!(rt; are_refused::<u32, u64>(alloc, &bytes, b"", true)?);
    assert!(rt; are_refused::<i64, u64>(alloc, &bytes, b"", true)?);
    assert!(rt; are_refused::<(u32, u32), u64>(alloc, &bytes, b"", true)?);
    assert!(rt; are_refused::<u64, bool>(alloc, &bytes, b"", true)?);
    assert!(rt; are_refused::<u64, Option<u64>>(alloc, &bytes, b"", true)?);
    assert!(rt; are_occupied(alloc, &bytes, b"")?);
    Ok(())
}

// A file that a crash may leave while a head is made: one byte, a closed gate and then anything, or
// a whole head whose gate isn't open.
#[test]
fn a_store_is_made_in_a_blank_file(rt: HostRuntime) -> Result<(), Fail> {
    let alloc = rt.alloc();
    let wanted = store_with_a_pair(alloc, b"")?;
    let mut shut = wanted[..55].to_vec(alloc)?;
    shut[0] = 9;
    let blanks: [&[u8]; 5] = [b"\0", b"\xd7", b"x", b"\0anything that is short", &shut];
    for blank in blanks {
        assert!(rt; store_with_a_pair(alloc, blank)? == wanted);
    }
    Ok(())
}
