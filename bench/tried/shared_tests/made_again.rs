//! A shared index and a storm, each made again if an allocation or a thread fails.
use crate::closing::closes_without_calls;
use std::alloc::{AllocError, Global};
use std::marker::Brand;
use std::process::Abort;
use std::sync::Wait;
use std::thread::Threads;
use test_support::refusals::{begins, ends, is_granted_again, succeeds};
use tree_shared::{Blanks, Books, OpenGate, SharedOver, StormError, run_workers};

// The name of the call that makes a shared index, as `bench/refusals` lists it.
const NEW: &str = "SharedTreeIndex::new";

// Makes an index for two workers. Returns whether it has two passes and counts nothing.
fn is_new<B: Books>(alloc: Global, blanks: Blanks) -> Result<bool, AllocError> {
    begins(alloc, NEW);
    let made = SharedOver::<u64, u64, B, 15>::new(alloc, 2, blanks);
    ends(alloc);
    let (shared, passes) = made?;
    Ok(passes.len() == 2 && closes_without_calls(shared, passes))
}

// Makes such an index. Returns whether it could.
fn is_made<R: Abort>(rt: &R, alloc: Global) -> bool {
    match is_new::<Brand>(alloc, Blanks::new(2)) {
        Ok(holds) => {
            assert!(rt; holds);
            true
        }
        Err(_) => false,
    }
}

// Makes one, a second time if that is refused. `Err` if it was refused.
fn make_twice<R: Abort>(rt: &R, alloc: Global) -> Result<(), AllocError> {
    if is_made(rt, alloc) {
        return Ok(());
    }
    assert!(rt; is_granted_again(alloc, NEW, is_made(rt, alloc))?);
    Err(AllocError)
}

#[test]
fn an_index_is_made_again(rt: HostRuntime) {
    assert!(rt; succeeds(rt.alloc(), || make_twice(&rt, rt.alloc())));
}

// Runs a storm of two workers and three pairs. Returns whether each of its calls was answered.
fn is_answered<R: Threads + Wait + Abort + Sync>(rt: &R, alloc: Global) -> bool {
    begins(alloc, "run_workers");
    let ended = run_workers(rt, alloc, 2, 3, &OpenGate);
    ends(alloc);
    match ended {
        Ok(closed) => {
            let (calls, stored) = (closed.tally.calls, closed.tally.stored);
            assert!(rt; calls <= 6 && stored <= 3 && stored == closed.index.len() as u64);
            calls == 6
        }
        Err(told) => {
            assert!(rt; told == StormError::Refused);
            false
        }
    }
}

// Runs such a storm, a second time if something is refused. `Err` if something was.
fn run_twice<R: Threads + Wait + Abort + Sync>(rt: &R, alloc: Global) -> Result<(), AllocError> {
    if is_answered(rt, alloc) {
        return Ok(());
    }
    assert!(rt; is_granted_again(alloc, "run_workers", is_answered(rt, alloc))?);
    Err(AllocError)
}

#[test]
fn a_storm_is_run_again(rt: HostRuntime) {
    assert!(rt; succeeds(rt.alloc(), || run_twice(&rt, rt.alloc())));
}
