//! Values that are changed where they stand.
use crate::{fills, refill};
use std::alloc::{AllocError, Global};
use std::process::Abort;
use test_support::refusals::succeeds;
use tree_index::TreeIndex;
use tree_support::{MoreCalls, Numbers, Scenario, succeeds_at_both_sizes};

// The length, the depth and the spare.
fn shape_of(index: &impl Numbers) -> (usize, usize, u8) {
    (index.len(), index.depth(), index.spare())
}

// Returns whether the value at a key, which is there or isn't, is replaced and changed.
fn is_changed(index: &mut impl MoreCalls, key: u64, there: bool) -> bool {
    let answers = (index.replace(key, 7), index.add(key, key), index.peek(key));
    let wanted = if there {
        (Ok(key), true, Some(key.wrapping_add(7)))
    } else {
        (Err(7), false, None)
    };
    answers == wanted
}

// Returns whether the value at each key up to one behind the last is changed, of which the even
// ones are present.
fn changes_all(index: &mut impl MoreCalls) -> bool {
    let shape = shape_of(index);
    let end = (shape.0 as u64).wrapping_mul(2);
    for key in 0..=end {
        if !is_changed(index, key, key < end && key % 2 == 0) {
            return false;
        }
    }
    shape_of(index) == shape
}

// Changes the values of an index of each fill.
#[derive(Drop)]
struct Changing<'r, R> {
    rt: &'r R,
}

impl<R: Abort> Scenario for Changing<'_, R> {
    fn play<I: MoreCalls>(&self, index: &mut I) -> Result<(), AllocError> {
        for (count, is_emptied) in fills(index.pairs_a_leaf()) {
            refill(index, *count, *is_emptied)?;
            assert!(self.rt; changes_all(index));
        }
        Ok(())
    }
}

#[test]
fn changes_values(rt: HostRuntime) {
    let scenario = Changing { rt: &rt };
    assert!(rt; succeeds_at_both_sizes(rt.alloc(), &scenario));
}

// An index of texts. Texts own memory, which must be given back once.
trait Names {
    // Calls `insert_sync`.
    fn put(&mut self, key: u64, name: String) -> Result<(), AllocError>;

    // Calls `replace_sync`.
    fn replace(&mut self, key: u64, name: String) -> Result<String, String>;

    // Calls `modify_sync` to put a name in place of the one at a key.
    fn change(&mut self, key: u64, name: String) -> bool;

    // Returns whether `peek` finds this name at a key.
    fn has(&self, key: u64, name: &str) -> bool;
}

impl Names for TreeIndex<u64, String> {
    fn put(&mut self, key: u64, name: String) -> Result<(), AllocError> {
        match self.insert_sync(key, name) {
            Ok(()) => Ok(()),
            Err(_) => Err(AllocError),
        }
    }

    fn replace(&mut self, key: u64, name: String) -> Result<String, String> {
        self.replace_sync(&key, name)
    }

    fn change(&mut self, key: u64, name: String) -> bool {
        self.modify_sync(&key, |_| name)
    }

    fn has(&self, key: u64, name: &str) -> bool {
        self.peek(&key).is_some_and(|found| found.as_str() == name)
    }
}

// Returns whether the name at a key, which is there, is replaced, and the one for a key that isn't
// comes back.
fn replaces_names(alloc: Global, names: &mut impl Names) -> Result<bool, AllocError> {
    let fig = String::from_str(alloc, "fig")?;
    if !names
        .replace(1, fig)
        .is_ok_and(|name| name.as_str() == "pear")
    {
        return Ok(false);
    }
    let plum = String::from_str(alloc, "plum")?;
    let replaced = names.replace(2, plum);
    Ok(replaced.is_err_and(|name| name.as_str() == "plum"))
}

// Returns whether the name at a key, which is there, is changed, and none at a key that isn't.
fn changes_names(alloc: Global, names: &mut impl Names) -> Result<bool, AllocError> {
    let quince = String::from_str(alloc, "quince")?;
    if !names.change(1, quince) {
        return Ok(false);
    }
    let melon = String::from_str(alloc, "melon")?;
    Ok([names.change(2, melon), names.has(1, "quince")] == [false, true])
}

// Returns whether a name that is stored is replaced and changed.
fn changes_texts_in(alloc: Global, names: &mut impl Names) -> Result<bool, AllocError> {
    let pear = String::from_str(alloc, "pear")?;
    names.put(1, pear)?;
    Ok(replaces_names(alloc, names)? && changes_names(alloc, names)?)
}

fn changes_texts_steps(rt: &impl Abort, alloc: Global) -> Result<(), AllocError> {
    let mut names: TreeIndex<u64, String> = TreeIndex::new(alloc);
    assert!(rt; changes_texts_in(alloc, &mut names)?);
    Ok(())
}

#[test]
fn changes_texts(rt: HostRuntime) {
    assert!(rt; succeeds(rt.alloc(), || changes_texts_steps(&rt, rt.alloc())));
}
