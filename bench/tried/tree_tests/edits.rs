//! Inserts and removals by key, and which of two equal keys stays.
use crate::keys::Tagged;
use std::alloc::{AllocError, Global};
use std::process::Abort;
use test_support::refusals::succeeds;
use tree_index::{InsertError, SmallTreeIndex, TreeIndex, TreeIndexOf};
use tree_support::{MoreCalls, Numbers, Scenario, put, succeeds_at_both_sizes};

// Whether an insert of a key that is present keeps the first pair.
fn keeps_the_first(index: &mut impl Numbers) -> Result<bool, AllocError> {
    put(index, 1, 10)?;
    let told = (index.insert(1, 11), index.peek(1));
    Ok(told == (Err(InsertError::Duplicate(1, 11)), Some(10)))
}

// Whether a removal says if the key was present.
fn says_whether_it_removed(index: &mut impl Numbers) -> Result<bool, AllocError> {
    if index.remove(1) {
        return Ok(false);
    }
    put(index, 1, 10)?;
    Ok(index.remove(1))
}

// Makes the calls, each time over an empty index. Returns whether each is answered as wanted.
fn answers_each_call(index: &mut impl Numbers) -> Result<bool, AllocError> {
    if !keeps_the_first(index)? {
        return Ok(false);
    }
    index.clear();
    says_whether_it_removed(index)
}

// Makes the calls.
#[derive(Drop)]
struct Calls<'r, R> {
    rt: &'r R,
}

impl<R: Abort> Scenario for Calls<'_, R> {
    fn play<I: MoreCalls>(&self, index: &mut I) -> Result<(), AllocError> {
        let rt = self.rt;
        assert!(rt; answers_each_call(index)?);
        Ok(())
    }
}

#[test]
fn answers_inserts_and_removals(rt: HostRuntime) {
    let scenario = Calls { rt: &rt };
    assert!(rt; succeeds_at_both_sizes(rt.alloc(), &scenario));
}

// The key 5 with a tag, which its order doesn't see.
fn five(tag: char) -> Tagged {
    Tagged { number: 5, tag }
}

// An index whose keys have tags.
trait TaggedKeys {
    // Stores a value at the key 5 with a tag by `upsert_sync`.
    fn upsert(&mut self, tag: char, value: u64) -> Result<(), AllocError>;

    // Replaces the value at the key 5 by `replace_sync`.
    fn replace(&mut self, tag: char, value: u64) -> Result<u64, u64>;

    // Adds 1 to the value at the key 5 by `modify_sync`.
    fn count_up(&mut self, tag: char) -> bool;

    // Returns the tag and the value that `peek_entry` finds at the key 5.
    fn entry(&self, tag: char) -> Option<(char, u64)>;
}

impl<const LEN: usize> TaggedKeys for TreeIndexOf<Tagged, u64, LEN> {
    fn upsert(&mut self, tag: char, value: u64) -> Result<(), AllocError> {
        match self.upsert_sync(five(tag), value) {
            Ok(()) => Ok(()),
            Err(_) => Err(AllocError),
        }
    }

    fn replace(&mut self, tag: char, value: u64) -> Result<u64, u64> {
        self.replace_sync(&five(tag), value)
    }

    fn count_up(&mut self, tag: char) -> bool {
        self.modify_sync(&five(tag), |value| value.wrapping_add(1))
    }

    fn entry(&self, tag: char) -> Option<(char, u64)> {
        self.peek_entry(&five(tag))
            .map(|(key, value)| (key.tag, *value))
    }
}

// Whether an upsert replaces the stored key as well as its value, and a value that is replaced, or
// changed, leaves the stored key.
fn replaces_the_key(index: &mut impl TaggedKeys) -> Result<bool, AllocError> {
    index.upsert('a', 1)?;
    index.upsert('b', 2)?;
    let stored = index.entry('c');
    let replaced = index.replace('d', 3);
    let counted = index.count_up('e');
    let told = (stored, replaced, counted, index.entry('f'));
    Ok(told == (Some(('b', 2)), Ok(2), true, Some(('b', 4))))
}

fn replaces_the_key_steps(rt: &impl Abort, alloc: Global) -> Result<(), AllocError> {
    let mut index: TreeIndex<Tagged, u64> = TreeIndex::new(alloc);
    assert!(rt; replaces_the_key(&mut index)?);
    Ok(())
}

fn replaces_a_small_key_steps(rt: &impl Abort, alloc: Global) -> Result<(), AllocError> {
    let mut index: SmallTreeIndex<Tagged, u64> = SmallTreeIndex::new(alloc);
    assert!(rt; replaces_the_key(&mut index)?);
    Ok(())
}

#[test]
fn replaces_the_stored_key(rt: HostRuntime) {
    assert!(rt;
        succeeds(rt.alloc(), || {
            replaces_the_key_steps(&rt, rt.alloc())?;
            replaces_a_small_key_steps(&rt, rt.alloc())
        })
    );
}
