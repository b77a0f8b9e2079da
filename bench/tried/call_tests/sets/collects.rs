//! Elements of an iterator or of a vector.
use std::alloc::{AllocError, Global};
use std::iter::{Extend, FromIterator};
use std::process::Abort;
use test_support::refusals::succeeds;
use tree_set::{FromSortedError, SmallTreeSet, TreeSet, TreeSetOf};

// The elements 0, 2, 4 and so on, so many.
fn ascending(alloc: Global, count: u64) -> Result<Vec<u64>, AllocError> {
    let mut elements = Vec::new(alloc);
    for number in 0..count {
        elements.push(number.wrapping_mul(2))?;
    }
    Ok(elements)
}

// Whether a set has the elements 0, 2, 4 and so on, so many.
fn has_run<const LEN: usize>(set: &TreeSetOf<u64, LEN>, count: u64) -> bool {
    let mut next = 0u64;
    for element in set {
        if *element != next {
            return false;
        }
        next = next.wrapping_add(2);
    }
    next == count.wrapping_mul(2) && set.len() as u64 == count
}

// How many elements: none, one, a full leaf, two levels and three, at both sizes.
static COUNTS: [u64; 7] = [0, 1, 7, 15, 57, 241, 3616];

fn sorted<const LEN: usize>(
    built: Result<TreeSetOf<u64, LEN>, FromSortedError<u64>>,
) -> Result<TreeSetOf<u64, LEN>, AllocError> {
    match built {
        Ok(set) => Ok(set),
        Err(_) => Err(AllocError),
    }
}

fn builds_steps(rt: &impl Abort, alloc: Global, count: u64) -> Result<(), AllocError> {
    let set: TreeSet<u64> = sorted(TreeSetOf::from_sorted(alloc, ascending(alloc, count)?))?;
    assert!(rt; has_run(&set, count));
    Ok(())
}

fn small_builds_steps(rt: &impl Abort, alloc: Global, count: u64) -> Result<(), AllocError> {
    let set: SmallTreeSet<u64> = sorted(TreeSetOf::from_sorted(alloc, ascending(alloc, count)?))?;
    assert!(rt; has_run(&set, count));
    Ok(())
}

// Collects the elements in the other order.
fn collects_steps(rt: &impl Abort, alloc: Global, count: u64) -> Result<(), AllocError> {
    let mut elements = ascending(alloc, count)?;
    elements.reverse();
    let set: TreeSet<u64> = TreeSetOf::from_iter(alloc, elements)?;
    assert!(rt; has_run(&set, count));
    Ok(())
}

fn small_collects_steps(rt: &impl Abort, alloc: Global, count: u64) -> Result<(), AllocError> {
    let mut elements = ascending(alloc, count)?;
    elements.reverse();
    let mut set: SmallTreeSet<u64> = elements.into_iter().collect(alloc)?;
    set.extend(ascending(alloc, count)?)?;
    assert!(rt; has_run(&set, count));
    Ok(())
}

#[test]
fn makes_sets(rt: HostRuntime) {
    for count in &COUNTS {
        assert!(rt; succeeds(rt.alloc(), || builds_steps(&rt, rt.alloc(), *count)));
        assert!(rt; succeeds(rt.alloc(), || small_builds_steps(&rt, rt.alloc(), *count)));
        assert!(rt; succeeds(rt.alloc(), || collects_steps(&rt, rt.alloc(), *count)));
        assert!(rt; succeeds(rt.alloc(), || small_collects_steps(&rt, rt.alloc(), *count)));
    }
}

// Elements that don't ascend: equal ones, a smaller one, and equal ones behind another.
static UNSORTED: [&[u64]; 3] = [&[1, 1], &[2, 1], &[0, 5, 5]];

// Returns whether a copy of the elements comes back as it was.
fn comes_back(alloc: Global, elements: &[u64]) -> Result<bool, AllocError> {
    let built: Result<TreeSet<u64>, FromSortedError<u64>> = TreeSetOf::from_sorted(
        alloc,
        elements.to_vec(alloc)?,
    );
    match built {
        Err(FromSortedError::NotAscending(back)) => Ok(back.as_slice() == elements),
        Err(FromSortedError::OutOfMemory) => Err(AllocError),
        Ok(_) => Ok(false),
    }
}

fn hands_back_steps(rt: &impl Abort, alloc: Global) -> Result<(), AllocError> {
    for elements in &UNSORTED {
        assert!(rt; comes_back(alloc, *elements)?);
    }
    Ok(())
}

#[test]
fn hands_unsorted_elements_back(rt: HostRuntime) {
    assert!(rt; succeeds(rt.alloc(), || hands_back_steps(&rt, rt.alloc())));
}
