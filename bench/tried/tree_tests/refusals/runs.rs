//! Lists of commands in which an allocation fails, for the replies or for one of the commands.
use crate::refusals::writes::ascending;
use std::alloc::{AllocError, Global};
use std::process::Abort;
use test_support::refusals::{begins, ends, is_granted_again};
use tree_index::{Command, Reply, TreeIndexOf};
use tree_state::run;
use tree_support::{Numbers, OwnScenario, flaws, succeeds_by_own_calls};

// Whether an insert and a look-up of the key were answered. Else the insert was refused, and the
// look-up found none.
fn are_answered(rt: &impl Abort, replies: &[Reply<u64>], key: u64) -> bool {
    if replies == [Reply::Stored, Reply::Found(Some(key))].as_slice() {
        return true;
    }
    assert!(rt; replies == [Reply::Refused, Reply::Found(None)].as_slice());
    false
}

// An index of numbers that runs commands.
trait Runs: Numbers {
    // Calls `run`.
    fn run(&mut self, commands: Vec<Command<u64, u64>>) -> Result<Vec<Reply<u64>>, AllocError>;

    // Whether the index is whole and has these pairs.
    fn is_whole(&self, pairs: &[(u64, u64)]) -> bool;
}

impl<const LEN: usize> Runs for TreeIndexOf<u64, u64, LEN> {
    fn run(&mut self, commands: Vec<Command<u64, u64>>) -> Result<Vec<Reply<u64>>, AllocError> {
        run(self, commands)
    }

    fn is_whole(&self, pairs: &[(u64, u64)]) -> bool {
        flaws(self, pairs).is_ok()
    }
}

const RUN: &str = "run";

// Runs an insert and a look-up of an absent key over an index of these pairs. Returns whether the
// pair was stored. If the room for the replies can't be allocated, the run is refused; if the
// insert can't allocate, it alone is. The index stands then.
fn run_once(
    rt: &impl Abort,
    alloc: Global,
    index: &mut impl Runs,
    pairs: &[(u64, u64)],
    key: u64,
) -> Result<bool, AllocError> {
    let commands = vec![in alloc; Command::Insert(key, key), Command::Peek(key)]?;
    begins(alloc, RUN);
    let answer = index.run(commands);
    ends(alloc);
    let is_stored = match answer {
        Ok(replies) => are_answered(rt, &replies, key),
        Err(_) => false,
    };
    assert!(rt; is_stored || index.is_whole(pairs));
    Ok(is_stored)
}

// Runs both at once or the second time. `Err` if nothing can be allocated any more.
fn run_twice(
    rt: &impl Abort,
    alloc: Global,
    index: &mut impl Runs,
    pairs: &[(u64, u64)],
    key: u64,
) -> Result<(), AllocError> {
    if run_once(rt, alloc, index, pairs, key)? {
        return Ok(());
    }
    let is_stored = run_once(rt, alloc, index, pairs, key)?;
    assert!(rt; is_granted_again(alloc, RUN, is_stored)?);
    Ok(())
}

// So many ascending keys, at fifteen pairs a leaf and at seven, that the next one makes a leaf and
// a root, splits a leaf, splits a node over leaves, and splits a node over nodes.
static COUNTS: [(u64, u64); 4] = [(0, 0), (15, 7), (240, 56), (3615, 399)];

// Stores so many pairs in an empty index, and runs both commands over it.
fn run_over(
    rt: &impl Abort,
    alloc: Global,
    index: &mut impl Runs,
    count: u64,
) -> Result<(), AllocError> {
    let pairs = ascending(alloc, count)?;
    for (key, value) in &pairs {
        index.upsert(*key, *value).map_err(|_| AllocError)?;
    }
    run_twice(rt, alloc, index, &pairs, count.saturating_add(1))
}

// Runs both commands over so many pairs.
#[derive(Drop)]
struct Running<'r, R> {
    rt: &'r R,
    alloc: Global,
    counts: (u64, u64),
}

impl<R: Abort, I: Runs> OwnScenario<I> for Running<'_, R> {
    fn play(&self, index: &mut I) -> Result<(), AllocError> {
        let (at_fifteen, at_seven) = self.counts;
        let is_small = index.pairs_a_leaf() == 7;
        let count = if is_small { at_seven } else { at_fifteen };
        run_over(self.rt, self.alloc, index, count)
    }
}

#[test]
fn runs_again_what_was_refused(rt: HostRuntime) {
    for counts in &COUNTS {
        let scenario = Running {
            rt: &rt,
            alloc: rt.alloc(),
            counts: *counts,
        };
        assert!(rt; succeeds_by_own_calls(rt.alloc(), &scenario));
    }
}
