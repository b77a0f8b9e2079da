//! Copies of an index.
use crate::indexes::{are_equal, index_of, small_index_of};
use std::alloc::{AllocError, Global};
use std::process::Abort;
use test_support::refusals::{begins, ends, is_granted_again, succeeds};
use tree_index::{SmallTreeIndex, TreeIndex, TreeIndexOf};

// Removes a key of a copy of two pairs. Returns whether the copy was equal before and isn't now,
// and has a pair less.
fn changes_alone<const LEN: usize>(
    index: &TreeIndexOf<u64, u64, LEN>,
    copy: &mut TreeIndexOf<u64, u64, LEN>,
) -> bool {
    are_equal(index, copy) && removes_one(copy) && has_one_more(index, copy)
}

fn removes_one<const LEN: usize>(copy: &mut TreeIndexOf<u64, u64, LEN>) -> bool {
    copy.remove_sync(&1)
}

// Returns whether an index of two pairs isn't equal to a copy, which has one.
fn has_one_more<const LEN: usize>(
    index: &TreeIndexOf<u64, u64, LEN>,
    copy: &TreeIndexOf<u64, u64, LEN>,
) -> bool {
    !are_equal(index, copy) && (index.len(), copy.len()) == (2, 1)
}

// Copies the index and changes the copy. If an allocation fails, the index is as it was.
fn copies_alone(
    rt: &impl Abort,
    alloc: Global,
    index: &TreeIndex<u64, u64>,
) -> Result<(), AllocError> {
    let copied = index.try_clone(alloc);
    assert!(rt; index.peek(&1).copied() == Some(1) && index.len() == 2);
    let mut copy = copied?;
    assert!(rt; changes_alone(index, &mut copy));
    Ok(())
}

fn changes_the_copy_alone_steps(rt: &impl Abort, alloc: Global) -> Result<(), AllocError> {
    let index = index_of(alloc, &[(1, 1), (2, 2)])?;
    copies_alone(rt, alloc, &index)
}

#[test]
fn changes_the_copy_alone(rt: HostRuntime) {
    assert!(rt; succeeds(rt.alloc(), || changes_the_copy_alone_steps(&rt, rt.alloc())));
}

// Does what [`copies_alone`] does, with seven pairs a leaf.
fn copies_small_alone(
    rt: &impl Abort,
    alloc: Global,
    index: &SmallTreeIndex<u64, u64>,
) -> Result<(), AllocError> {
    let copied = index.try_clone(alloc);
    assert!(rt; index.peek(&1).copied() == Some(1) && index.len() == 2);
    let mut copy = copied?;
    assert!(rt; changes_alone(index, &mut copy));
    Ok(())
}

// Copies the index that this one is equal to.
fn compares_and_copies(
    rt: &impl Abort,
    alloc: Global,
    index: &SmallTreeIndex<u64, u64>,
) -> Result<(), AllocError> {
    let other = small_index_of(alloc, &[(2, 2), (1, 1)])?;
    assert!(rt; are_equal(index, &other) && are_equal(&other, index));
    copies_small_alone(rt, alloc, index)
}

fn changes_the_small_copy_alone_steps(rt: &impl Abort, alloc: Global) -> Result<(), AllocError> {
    let index = small_index_of(alloc, &[(1, 1), (2, 2)])?;
    compares_and_copies(rt, alloc, &index)
}

#[test]
fn changes_the_small_copy_alone(rt: HostRuntime) {
    assert!(rt;
        succeeds(
            rt.alloc(),
            || changes_the_small_copy_alone_steps(&rt, rt.alloc())
        )
    );
}

// An index of twenty texts, in two leaves.
fn index_of_texts(alloc: Global) -> Result<TreeIndex<String, String>, AllocError> {
    let mut index = TreeIndex::new(alloc);
    for number in 0..20u64 {
        let key = format!(in alloc; "key {number}")?;
        let value = format!(in alloc; "value {number}")?;
        if index.insert_sync(key, value).is_err() {
            return Err(AllocError);
        }
    }
    Ok(index)
}

const TRY_CLONE: &str = "TreeIndex::try_clone";

// Copies an index that is equal to another one. Returns `false` if an allocation fails. The index
// is then as it was.
fn is_copied(
    rt: &impl Abort,
    alloc: Global,
    index: &TreeIndex<String, String>,
    same: &TreeIndex<String, String>,
) -> bool {
    begins(alloc, TRY_CLONE);
    let copy = index.try_clone(alloc);
    ends(alloc);
    assert!(rt; are_equal(index, same));
    let Ok(copy) = copy else {
        return false;
    };
    are_equal(&copy, same)
}

// Copies an index at once or the second time.
fn copies_equal_texts(
    rt: &impl Abort,
    alloc: Global,
    index: &TreeIndex<String, String>,
) -> Result<(), AllocError> {
    let same = index_of_texts(alloc)?;
    if is_copied(rt, alloc, index, &same) {
        return Ok(());
    }
    let is_granted = is_copied(rt, alloc, index, &same);
    assert!(rt; is_granted_again(alloc, TRY_CLONE, is_granted)?);
    Ok(())
}

// Clones of keys and values that allocate can fail too.
fn copies_texts_steps(rt: &impl Abort, alloc: Global) -> Result<(), AllocError> {
    let index = index_of_texts(alloc)?;
    copies_equal_texts(rt, alloc, &index)
}

#[test]
fn copies_texts(rt: HostRuntime) {
    assert!(rt; succeeds(rt.alloc(), || copies_texts_steps(&rt, rt.alloc())));
}
