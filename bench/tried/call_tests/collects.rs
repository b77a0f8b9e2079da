//! Pairs of an iterator or of a vector, and copies.
use crate::{fills, refill};
use std::alloc::{AllocError, Global};
use std::iter::FromIterator;
use std::process::Abort;
use test_support::refusals::succeeds;
use tree_index::{FromSortedError, SmallTreeIndex, TreeIndex, TreeIndexOf};
use tree_support::{MoreCalls, Scenario, succeeds_at_both_sizes};

// Returns the pairs of 0, 2, 4 and so on, so many, each with its key as its value.
fn ascending(alloc: Global, count: u64) -> Result<Vec<(u64, u64)>, AllocError> {
    let mut pairs = Vec::new(alloc);
    for number in 0..count {
        let key = number.wrapping_mul(2);
        pairs.push((key, key))?;
    }
    Ok(pairs)
}

// Stores pairs of three keys, of which two come twice. Returns whether the later ones are there,
// and one more.
fn extends(alloc: Global, index: &mut impl MoreCalls) -> Result<bool, AllocError> {
    let length = index.len();
    let pairs = vec![in alloc; (1, 10), (3, 30), (1, 11), (5, 50), (3, 33)]?;
    index.extend(pairs)?;
    let answers = (index.len(), index.peek(1), index.peek(3));
    Ok(answers == (length.wrapping_add(3), Some(11), Some(33)))
}

// Extended an index of each fill.
#[derive(Drop)]
struct Extending<'r, R> {
    rt: &'r R,
    alloc: Global,
}

impl<R: Abort> Scenario for Extending<'_, R> {
    fn play<I: MoreCalls>(&self, index: &mut I) -> Result<(), AllocError> {
        for (count, is_emptied) in fills(index.pairs_a_leaf()) {
            refill(index, *count, *is_emptied)?;
            assert!(self.rt; extends(self.alloc, index)?);
        }
        Ok(())
    }
}

#[test]
fn stores_each_pair(rt: HostRuntime) {
    let scenario = Extending {
        rt: &rt,
        alloc: rt.alloc(),
    };
    assert!(rt; succeeds_at_both_sizes(rt.alloc(), &scenario));
}

// Returns the pairs in the other order.
fn descending(alloc: Global, count: u64) -> Result<Vec<(u64, u64)>, AllocError> {
    let mut pairs = ascending(alloc, count)?;
    pairs.reverse();
    Ok(pairs)
}

// Returns what was built, or that memory was refused.
fn sorted<const LEN: usize>(
    index: Result<TreeIndexOf<u64, u64, LEN>, FromSortedError<u64, u64>>,
) -> Result<TreeIndexOf<u64, u64, LEN>, AllocError> {
    match index {
        Ok(index) => Ok(index),
        Err(_) => Err(AllocError),
    }
}

// How many pairs that ascend make an index, and its depth.
static DEPTHS: [(u64, usize); 5] = [(0, 0), (1, 1), (15, 1), (241, 2), (3616, 3)];

// The same for leaves of seven pairs.
static SMALL_DEPTHS: [(u64, usize); 5] = [(0, 0), (1, 1), (7, 1), (57, 2), (400, 3)];

// Returns whether an index was built of so many pairs.
fn is_built(index: &impl MoreCalls, (count, depth): (u64, usize)) -> bool {
    let last = count.wrapping_sub(1).wrapping_mul(2);
    (index.len() as u64, index.depth()) == (count, depth)
        && (count == 0 || index.last() == Some((last, last)))
}

fn builds_steps(rt: &impl Abort, alloc: Global, row: (u64, usize)) -> Result<(), AllocError> {
    let pairs = ascending(alloc, row.0)?;
    let index: TreeIndex<u64, u64> = sorted(TreeIndexOf::from_sorted(alloc, pairs))?;
    assert!(rt; is_built(&index, row));
    Ok(())
}

#[test]
fn builds_from_sorted_pairs(rt: HostRuntime) {
    for row in &DEPTHS {
        assert!(rt; succeeds(rt.alloc(), || builds_steps(&rt, rt.alloc(), *row)));
    }
}

fn small_builds_steps(rt: &impl Abort, alloc: Global, row: (u64, usize)) -> Result<(), AllocError> {
    let pairs = ascending(alloc, row.0)?;
    let index: SmallTreeIndex<u64, u64> = sorted(TreeIndexOf::from_sorted(alloc, pairs))?;
    assert!(rt; is_built(&index, row));
    Ok(())
}

#[test]
fn builds_from_sorted_pairs_in_small_leaves(rt: HostRuntime) {
    for row in &SMALL_DEPTHS {
        assert!(rt; succeeds(rt.alloc(), || small_builds_steps(&rt, rt.alloc(), *row)));
    }
}

// Pairs that don't ascend: equal keys, a smaller one, and equal keys behind others.
static UNSORTED: [&[(u64, u64)]; 3] = [
    &[(1, 10), (1, 11)],
    &[(2, 20), (1, 10)],
    &[(0, 0), (5, 50), (5, 51)],
];

// Returns whether a copy of the pairs comes back as it was.
fn comes_back(
    alloc: Global,
    copy: Vec<(u64, u64)>,
    pairs: &[(u64, u64)],
) -> Result<bool, AllocError> {
    let built: Result<TreeIndex<u64, u64>, FromSortedError<u64, u64>> = TreeIndexOf::from_sorted(
        alloc, copy,
    );
    match built {
        Err(FromSortedError::NotAscending(back)) => Ok(back.as_slice() == pairs),
        Err(FromSortedError::OutOfMemory) => Err(AllocError),
        Ok(_) => Ok(false),
    }
}

fn hands_back_steps(rt: &impl Abort, alloc: Global) -> Result<(), AllocError> {
    for pairs in &UNSORTED {
        let copy = (*pairs).to_vec(alloc)?;
        assert!(rt; comes_back(alloc, copy, *pairs)?);
    }
    Ok(())
}

#[test]
fn hands_unsorted_pairs_back(rt: HostRuntime) {
    assert!(rt; succeeds(rt.alloc(), || hands_back_steps(&rt, rt.alloc())));
}

// Returns whether a clone equals the index.
fn is_cloned<const LEN: usize>(index: &TreeIndexOf<u64, u64, LEN>) -> Result<bool, AllocError> {
    let copy = index.clone()?;
    Ok(copy == *index)
}

// An index has so many pairs, and is cloned.
fn expect_cloned<const LEN: usize>(
    rt: &impl Abort,
    index: &TreeIndexOf<u64, u64, LEN>,
    count: u64,
) -> Result<(), AllocError> {
    assert!(rt; index.len() as u64 == count && is_cloned(index)?);
    Ok(())
}

fn collects_steps(rt: &impl Abort, alloc: Global, count: u64) -> Result<(), AllocError> {
    let pairs = descending(alloc, count)?;
    let index: TreeIndex<u64, u64> = TreeIndexOf::from_iter(alloc, pairs)?;
    expect_cloned(rt, &index, count)
}

#[test]
fn collects_and_clones(rt: HostRuntime) {
    for (count, _) in &DEPTHS {
        assert!(rt; succeeds(rt.alloc(), || collects_steps(&rt, rt.alloc(), *count)));
    }
}

fn small_collects_steps(rt: &impl Abort, alloc: Global, count: u64) -> Result<(), AllocError> {
    let pairs = descending(alloc, count)?;
    let index: SmallTreeIndex<u64, u64> = pairs.into_iter().collect(alloc)?;
    expect_cloned(rt, &index, count)
}

#[test]
fn collects_and_clones_in_small_leaves(rt: HostRuntime) {
    for (count, _) in &SMALL_DEPTHS {
        assert!(rt; succeeds(rt.alloc(), || small_collects_steps(&rt, rt.alloc(), *count)));
    }
}
