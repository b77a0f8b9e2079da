//! Subsets, sets with nothing in common, and orders and hashes of two sets.
use std::alloc::{AllocError, Global};
use std::cmp::Ordering;
use std::hash::{DefaultHasher, Hash, Hasher};
use std::process::Abort;
use test_support::refusals::succeeds;
use tree_set::{SmallTreeSet, TreeSet, TreeSetOf};

// The first element, how many there are, and how far apart.
type Run = (u64, u64, u64);

// Makes the set one of a run.
fn refill<const LEN: usize>(set: &mut TreeSetOf<u64, LEN>, (from, count, step): Run) -> Result<(), AllocError> {
    set.clear();
    for number in 0..count {
        let element = number.wrapping_mul(step).wrapping_add(from);
        if set.insert(element).is_err() {
            return Err(AllocError);
        }
    }
    Ok(())
}

// What is of two sets: whether the first is a subset, a superset and disjoint, and their order.
type Told = (bool, bool, bool, Ordering);

// Both empty, one empty, equal, one in the other, apart, overlapping; and a few elements beside
// many, which are looked up, in them or not.
static ROWS: [(Run, Run, Told); 12] = [
    ((0, 0, 1), (0, 0, 1), (true, true, true, Ordering::Equal)),
    ((0, 0, 1), (5, 1, 1), (true, false, true, Ordering::Less)),
    ((0, 15, 2), (0, 15, 2), (true, true, false, Ordering::Equal)),
    ((2, 5, 2), (0, 15, 2), (true, false, false, Ordering::Greater)),
    ((1, 15, 2), (0, 15, 2), (false, false, true, Ordering::Greater)),
    ((0, 15, 1), (10, 15, 1), (false, false, false, Ordering::Less)),
    ((2, 2, 2), (0, 400, 2), (true, false, false, Ordering::Greater)),
    ((1, 2, 2), (0, 400, 2), (false, false, true, Ordering::Greater)),
    ((796, 3, 2), (0, 400, 2), (false, false, false, Ordering::Greater)),
    ((0, 400, 2), (2, 2, 2), (false, true, false, Ordering::Less)),
    ((0, 400, 2), (1, 2, 2), (false, false, true, Ordering::Less)),
    ((0, 3616, 1), (3616, 3616, 1), (false, false, true, Ordering::Less)),
];

fn hashed<const LEN: usize>(set: &TreeSetOf<u64, LEN>) -> u64 {
    let mut hasher = DefaultHasher::new();
    set.hash(&mut hasher);
    hasher.finish()
}

// What two sets say of each other, if it is the same both ways round.
fn told<const LEN: usize>(
    first: &TreeSetOf<u64, LEN>,
    second: &TreeSetOf<u64, LEN>,
) -> Option<Told> {
    let there = (
        first.is_subset(second),
        first.is_superset(second),
        first.is_disjoint(second),
        first.cmp(second),
    );
    let back = (
        second.is_superset(first),
        second.is_subset(first),
        second.is_disjoint(first),
        second.cmp(first).reverse(),
    );
    let is_same = first.partial_cmp(second) == Some(there.3)
        && (hashed(first) == hashed(second)) == there.3.is_eq();
    if there == back && is_same {
        Some(there)
    } else {
        None
    }
}

// Fills both sets with the runs of each row.
fn compares_rows<const LEN: usize>(
    rt: &impl Abort,
    first: &mut TreeSetOf<u64, LEN>,
    second: &mut TreeSetOf<u64, LEN>,
) -> Result<(), AllocError> {
    for (run, other, answers) in &ROWS {
        refill(first, *run)?;
        refill(second, *other)?;
        assert!(rt; told(first, second) == Some(*answers));
    }
    Ok(())
}

fn compares_steps(rt: &impl Abort, alloc: Global) -> Result<(), AllocError> {
    let mut first: TreeSet<u64> = TreeSetOf::new(alloc);
    let mut second: TreeSet<u64> = TreeSetOf::new(alloc);
    compares_rows(rt, &mut first, &mut second)
}

fn small_compares_steps(rt: &impl Abort, alloc: Global) -> Result<(), AllocError> {
    let mut first: SmallTreeSet<u64> = TreeSetOf::new(alloc);
    let mut second: SmallTreeSet<u64> = TreeSetOf::new(alloc);
    compares_rows(rt, &mut first, &mut second)
}

#[test]
fn compares_two_sets(rt: HostRuntime) {
    assert!(rt; succeeds(rt.alloc(), || compares_steps(&rt, rt.alloc())));
    assert!(rt; succeeds(rt.alloc(), || small_compares_steps(&rt, rt.alloc())));
}
