//! Worked orders and hashes of two indexes.
use crate::indexes::{index_of, small_index_of};
use std::alloc::{AllocError, Global};
use std::cmp::Ordering;
use std::hash::{DefaultHasher, Hash, Hasher};
use std::process::Abort;
use test_support::refusals::succeeds;
use tree_index::{TreeIndex, TreeIndexOf};

// The pairs of an index.
type Pairs = &'static [(u64, u64)];

// Pairs of two indexes in the order in which they are inserted, and the order of the indexes.
type Row = (Pairs, Pairs, Ordering);

static ROWS: [Row; 8] = [
    (&[], &[], Ordering::Equal),
    (&[], &[(1, 1)], Ordering::Less),
    (&[(1, 1)], &[(2, 0)], Ordering::Less),
    (&[(1, 1)], &[(1, 2)], Ordering::Less),
    (&[(2, 0)], &[(1, 5), (2, 0)], Ordering::Greater),
    (&[(1, 1), (2, 2)], &[(1, 1)], Ordering::Greater),
    (&[(1, 1), (2, 2)], &[(2, 2), (1, 1)], Ordering::Equal),
    (&[(1, 1), (2, 2)], &[(1, 1), (2, 3)], Ordering::Less),
];

// What the hasher of the standard library makes of an index.
fn hashed<const LEN: usize>(index: &TreeIndexOf<u64, u64, LEN>) -> u64 {
    let mut hasher = DefaultHasher::new();
    index.hash(&mut hasher);
    hasher.finish()
}

// Returns whether two indexes have this order, both ways round, and equal hashes if they are
// equal, and only then.
fn are_ordered<const LEN: usize>(
    first: &TreeIndexOf<u64, u64, LEN>,
    second: &TreeIndexOf<u64, u64, LEN>,
    order: Ordering,
) -> bool {
    let answers = (
        first.cmp(second),
        second.cmp(first),
        first.partial_cmp(second),
        hashed(first) == hashed(second),
    );
    answers == (order, order.reverse(), Some(order), order.is_eq())
}

// Orders two indexes with fifteen pairs a leaf.
fn expect_order(
    rt: &impl Abort,
    first: &TreeIndex<u64, u64>,
    second: &TreeIndex<u64, u64>,
    order: Ordering,
) {
    assert!(rt; first.partial_cmp(second) == Some(order));
}

// Orders an index with that of these pairs, with fifteen pairs a leaf.
fn expect_beside(
    rt: &impl Abort,
    alloc: Global,
    first: &TreeIndexOf<u64, u64, 15>,
    pairs: Pairs,
    order: Ordering,
) -> Result<(), AllocError> {
    let second = index_of(alloc, pairs)?;
    assert!(rt; are_ordered(first, &second, order));
    expect_order(rt, first, &second, order);
    Ok(())
}

// The same with seven pairs a leaf.
fn expect_small_beside(
    rt: &impl Abort,
    alloc: Global,
    first: &TreeIndexOf<u64, u64, 7>,
    pairs: Pairs,
    order: Ordering,
) -> Result<(), AllocError> {
    let second = small_index_of(alloc, pairs)?;
    assert!(rt; are_ordered(first, &second, order));
    Ok(())
}

fn orders_steps(
    rt: &impl Abort,
    alloc: Global,
    (pairs, others, order): Row,
) -> Result<(), AllocError> {
    let first = index_of(alloc, pairs)?;
    expect_beside(rt, alloc, &first, others, order)
}

fn small_orders_steps(
    rt: &impl Abort,
    alloc: Global,
    (pairs, others, order): Row,
) -> Result<(), AllocError> {
    let first = small_index_of(alloc, pairs)?;
    expect_small_beside(rt, alloc, &first, others, order)
}

#[test]
fn orders_and_hashes(rt: HostRuntime) {
    for row in &ROWS {
        assert!(rt; succeeds(rt.alloc(), || orders_steps(&rt, rt.alloc(), *row)));
        assert!(rt; succeeds(rt.alloc(), || small_orders_steps(&rt, rt.alloc(), *row)));
    }
}
