//! Worked comparisons of two indexes.
use crate::indexes::index_of;
use std::alloc::{AllocError, Global};
use std::process::Abort;
use test_support::refusals::succeeds;
use tree_index::TreeIndex;

// The pairs of an index.
type Pairs = &'static [(u64, u64)];

// Pairs of two indexes in the order in which they are inserted, and whether the indexes are equal.
static ROWS: [(Pairs, Pairs, bool); 7] = [
    (&[(1, 1), (2, 2)], &[(2, 2), (1, 1)], true),
    (&[(1, 10)], &[(1, 11)], false),
    (&[(1, 10)], &[(2, 10)], false),
    (&[(1, 10)], &[], false),
    (&[], &[], true),
    (&[(1, 1), (2, 2)], &[(1, 1)], false),
    (&[(1, 1), (2, 2)], &[(1, 1), (2, 3)], false),
];

// Whether two indexes are equal, one way round and the other, and whether the first one equals
// itself.
fn compared(first: &TreeIndex<u64, u64>, second: &TreeIndex<u64, u64>) -> (bool, bool, bool) {
    (first == second, second == first, first == first)
}

// Compares an index with that of these pairs.
fn expect_compared(
    rt: &impl Abort,
    alloc: Global,
    first: &TreeIndex<u64, u64>,
    pairs: Pairs,
    same: bool,
) -> Result<(), AllocError> {
    let second = index_of(alloc, pairs)?;
    assert!(rt; compared(first, &second) == (same, same, true));
    Ok(())
}

fn compares_steps(
    rt: &impl Abort,
    alloc: Global,
    (pairs, others, same): (Pairs, Pairs, bool),
) -> Result<(), AllocError> {
    let first = index_of(alloc, pairs)?;
    expect_compared(rt, alloc, &first, others, same)
}

#[test]
fn compares(rt: HostRuntime) {
    for row in &ROWS {
        assert!(rt; succeeds(rt.alloc(), || compares_steps(&rt, rt.alloc(), *row)));
    }
}
