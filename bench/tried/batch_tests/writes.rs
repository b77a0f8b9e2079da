//! Writes of many pairs, compared with a plain rule. In an ordinary run no allocation fails;
//! `bench/refusals` makes each fail in turn.
use crate::stored::{fill, keys_of, stored_at};
use std::alloc::{AllocError, Global};
use std::process::Abort;
use test_support::refusals::{begins, ends, is_granted_again, succeeds};
use tree_batches::upsert_each;
use tree_index::{SmallTreeIndex, TreeIndex, TreeIndexOf};

// How many pairs are stored before: none, one, a full leaf and one more of either size, and three levels of seven pairs a leaf.
static STORED: [u64; 6] = [0, 1, 7, 8, 16, 70];

// How many pairs are written: none, about one batch, and two with one pair behind them.
static WRITTEN: [usize; 6] = [0, 1, 7, 8, 9, 17];

// Pairs of keys of which some are stored and some are there twice, each with its place and 1,000 as its value.
fn pairs_of(alloc: Global, count: usize, stored: u64) -> Result<Vec<(u64, u64)>, AllocError> {
    let mut pairs = Vec::with_capacity(alloc, count)?;
    let mut value = 1000u64;
    for key in &keys_of(alloc, count, stored)? {
        pairs.push((*key, value))?;
        value = value.wrapping_add(1);
    }
    Ok(pairs)
}

// Whether an index has the stored pairs and these, of which the last one with a key counts.
fn has_written<const LEN: usize>(
    index: &TreeIndexOf<u64, u64, LEN>,
    stored: u64,
    written: &[(u64, u64)],
) -> bool {
    let mut count = 0usize;
    for key in 0..stored.wrapping_mul(2).wrapping_add(4) {
        let mut expected = stored_at(key, stored);
        for (other, value) in written {
            if *other == key {
                expected = Some(*value);
            }
        }
        if index.peek(&key).copied() != expected {
            return false;
        }
        if expected.is_some() {
            count = count.wrapping_add(1);
        }
    }
    index.len() == count
}

// Writes pairs, and those that came back once more if an allocation failed.
fn writes_as_single<const LEN: usize>(
    alloc: Global,
    index: &mut TreeIndexOf<u64, u64, LEN>,
    stored: u64,
    pairs: &[(u64, u64)],
) -> Result<bool, AllocError> {
    let given = pairs.to_vec(alloc)?;
    begins(alloc, "upsert_each");
    let answer = upsert_each(index, given);
    ends(alloc);
    let Err(left) = answer else {
        return Ok(has_written(index, stored, pairs));
    };
    let count = pairs.len().wrapping_sub(left.len());
    let (Some(before), Some(behind)) = (pairs.get(..count), pairs.get(count..)) else {
        return Ok(false);
    };
    if behind.is_empty() || left.as_slice() != behind || !has_written(index, stored, before) {
        return Ok(false);
    }
    let again = upsert_each(index, left).is_ok();
    let granted = is_granted_again(alloc, "upsert_each", again)?;
    Ok(granted && has_written(index, stored, pairs))
}

fn expect_writes<const LEN: usize>(
    rt: &impl Abort,
    alloc: Global,
    index: &mut TreeIndexOf<u64, u64, LEN>,
) -> Result<(), AllocError> {
    for stored in &STORED {
        for count in &WRITTEN {
            fill(index, *stored)?;
            let pairs = pairs_of(alloc, *count, *stored)?;
            assert!(rt; writes_as_single(alloc, index, *stored, &pairs)?);
        }
    }
    Ok(())
}

fn large_steps(rt: &impl Abort, alloc: Global) -> Result<(), AllocError> {
    let mut index: TreeIndex<u64, u64> = TreeIndex::new(alloc);
    expect_writes(rt, alloc, &mut index)
}

#[test]
fn each_pair_is_written(rt: HostRuntime) {
    assert!(rt; succeeds(rt.alloc(), || large_steps(&rt, rt.alloc())));
}

fn small_steps(rt: &impl Abort, alloc: Global) -> Result<(), AllocError> {
    let mut index: SmallTreeIndex<u64, u64> = TreeIndexOf::new(alloc);
    expect_writes(rt, alloc, &mut index)
}

#[test]
fn each_pair_is_written_with_seven_pairs_a_leaf(rt: HostRuntime) {
    assert!(rt; succeeds(rt.alloc(), || small_steps(&rt, rt.alloc())));
}

// Writes to an index that is too large for the cache, whose keys are looked up first.
fn wide_steps(rt: &impl Abort, alloc: Global) -> Result<(), AllocError> {
    let mut pairs = Vec::with_capacity(alloc, 70_000)?;
    for number in 0..70_000u64 {
        let key = number.wrapping_mul(2);
        pairs.push((key, key.wrapping_add(1)))?;
    }
    let Ok(mut index) = TreeIndex::from_sorted(alloc, pairs) else {
        return Err(AllocError);
    };
    let written = pairs_of(alloc, 25, 70_000)?;
    let given = written.to_vec(alloc)?;
    if upsert_each(&mut index, given).is_err() {
        return Err(AllocError);
    }
    for (key, value) in &written {
        assert!(rt; index.peek(key) == Some(value));
    }
    Ok(())
}

#[test]
fn pairs_are_written_to_many(rt: HostRuntime) {
    assert!(rt; succeeds(rt.alloc(), || wide_steps(&rt, rt.alloc())));
}
