//! A crash at every call of the disk, then one in the repair, and one in the repair of that.
use sqlite_disk::{Crash, Fuse, Memory};
use std::alloc::{AllocError, Global};
use std::test::Fail;
use store_support::script::{front_of, open_or_make, run};
use store_support::torn::{Machine, Torn};
use tree_store::Files;

/// How many batches a run commits.
const BATCHES: u64 = 6;

// Opens files, and crashes at a call of that or behind it.
fn crash_in_opening<'m>(
    alloc: Global,
    machine: &'m Machine,
    files: Files<Torn<'m>>,
    calls: u64,
) -> Files<Torn<'m>> {
    machine.stop_after(calls);
    let mut files = match open_or_make(alloc, files) {
        Ok(store) => store.into_files(),
        Err((_, files)) => files,
    };
    machine.crash(&mut files);
    files
}

// Crashes at a call, then at one of the calls of the opening, and at one of the next opening. Then
// goes on, and crashes again.
fn survives(
    alloc: Global,
    mixes: bool,
    calls: u64,
    again: u64,
    last: u64,
) -> Result<bool, AllocError> {
    let seed = calls * 1009 + again * 31 + last + 1;
    let machine = Machine::new(mixes);
    machine.stop_after(calls);
    let ended = run(alloc, machine.files(alloc, seed), 0, BATCHES)?;
    let (mut files, committed) = (ended.files, ended.committed);
    machine.crash(&mut files);
    let files = crash_in_opening(alloc, &machine, files, again);
    let files = crash_in_opening(alloc, &machine, files, last);
    let Some((batches, files)) = front_of(alloc, files, committed, 1)? else {
        return Ok(false);
    };
    machine.stop_after(seed % 40);
    let ended = run(alloc, files, batches, batches + 3)?;
    let (mut files, committed) = (ended.files, ended.committed);
    machine.crash(&mut files);
    Ok(front_of(alloc, files, committed, 1)?.is_some())
}

// How many calls a run makes that nothing stops, or 0 if it doesn't commit all.
fn calls_of_a_run(alloc: Global, mixes: bool) -> Result<u64, AllocError> {
    let machine = Machine::new(mixes);
    let ended = run(alloc, machine.files(alloc, 1), 0, BATCHES)?;
    Ok(if ended.committed == BATCHES { machine.calls_made() } else { 0 })
}

// Does so for each other call.
fn each_survives(alloc: Global, mixes: bool, from: u64) -> Result<bool, AllocError> {
    let all = calls_of_a_run(alloc, mixes)?;
    for calls in (from..all).step_by(2) {
        if !survives(alloc, mixes, calls, calls % 11, calls % 7)? {
            return Ok(false);
        }
    }
    Ok(all > 30)
}

#[test]
fn each_even_crash_leaves_a_front_if_writes_mix(rt: HostRuntime) -> Result<(), Fail> {
    assert!(rt; each_survives(rt.alloc(), true, 0)?);
    Ok(())
}

#[test]
fn each_odd_crash_leaves_a_front_if_writes_mix(rt: HostRuntime) -> Result<(), Fail> {
    assert!(rt; each_survives(rt.alloc(), true, 1)?);
    Ok(())
}

#[test]
fn each_even_crash_leaves_a_front_with_two_syncs(rt: HostRuntime) -> Result<(), Fail> {
    assert!(rt; each_survives(rt.alloc(), false, 0)?);
    Ok(())
}

#[test]
fn each_odd_crash_leaves_a_front_with_two_syncs(rt: HostRuntime) -> Result<(), Fail> {
    assert!(rt; each_survives(rt.alloc(), false, 1)?);
    Ok(())
}

// Lets each call fail alone. What was committed is there, and the store goes on.
fn each_may_fail(alloc: Global, mixes: bool) -> Result<bool, AllocError> {
    for calls in 0..calls_of_a_run(alloc, mixes)? {
        let machine = Machine::new(mixes);
        machine.fail_after(calls);
        let ended = run(alloc, machine.files(alloc, calls + 1), 0, BATCHES)?;
        let (mut files, committed) = (ended.files, ended.committed);
        machine.crash(&mut files);
        let Some((batches, files)) = front_of(alloc, files, committed, 1)? else {
            return Ok(false);
        };
        let ended = run(alloc, files, batches, batches + 1)?;
        if front_of(alloc, ended.files, batches + 1, 0)?.is_none() {
            return Ok(false);
        }
    }
    Ok(true)
}

#[test]
fn a_call_that_fails_alone_loses_nothing_if_writes_mix(rt: HostRuntime) -> Result<(), Fail> {
    assert!(rt; each_may_fail(rt.alloc(), true)?);
    Ok(())
}

#[test]
fn a_call_that_fails_alone_loses_nothing_with_two_syncs(rt: HostRuntime) -> Result<(), Fail> {
    assert!(rt; each_may_fail(rt.alloc(), false)?);
    Ok(())
}

// The toolchain's disk in memory loses all that wasn't synced. So exactly the batches are left
// whose commit returned, after a crash at a call of a file and then at one of the opening.
fn leaves_what_was_synced(
    alloc: Global,
    calls: (u64, u64),
    again: u64,
) -> Result<bool, AllocError> {
    let files = Files {
        first: Fuse::new(Memory::new(alloc), calls.0),
        second: Fuse::new(Memory::new(alloc), calls.1),
    };
    let ended = run(alloc, files, 0, BATCHES)?;
    let (mut files, committed) = (ended.files, ended.committed);
    files.first.crash();
    files.second.crash();
    let files = Files {
        first: Fuse::new(files.first, again),
        second: Fuse::new(files.second, again),
    };
    let mut files = match open_or_make(alloc, files) {
        Ok(store) => store.into_files(),
        Err((_, files)) => files,
    };
    files.first.crash();
    files.second.crash();
    Ok(front_of(alloc, files, committed, 0)?.is_some())
}

#[test]
fn a_crash_leaves_what_was_synced(rt: HostRuntime) -> Result<(), Fail> {
    let all = calls_of_a_run(rt.alloc(), false)?;
    for calls in 0..all {
        let others = [calls / 2, all];
        for other in others {
            for again in [calls % 3, 3 + calls % 5] {
                assert!(rt; leaves_what_was_synced(rt.alloc(), (calls, other), again)?);
                assert!(rt; leaves_what_was_synced(rt.alloc(), (other, calls), again)?);
            }
        }
    }
    Ok(())
}
