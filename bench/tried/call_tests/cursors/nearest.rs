//! The pairs at both ends of an index, and the nearest ones beside its keys.
use std::alloc::{AllocError, Global};
use std::process::Abort;
use tree_support::{MoreCalls, Scenario, ascend, succeeds_at_both_sizes};

// The key of a pair, if there is one.
fn key_of(pair: Option<(u64, u64)>) -> Option<u64> {
    let (key, _) = pair?;
    Some(key)
}

// The keys nearest to a key, from below and from above.
fn nearest(index: &impl MoreCalls, key: u64) -> (Option<u64>, Option<u64>) {
    (
        key_of(index.at_or_below(key)),
        key_of(index.at_or_above(key)),
    )
}

// The first and the last key.
fn ends(index: &impl MoreCalls) -> (Option<u64>, Option<u64>) {
    (key_of(index.first()), key_of(index.last()))
}

// The first and the last of so many even keys, and what is beside keys beyond them.
fn expect_ends(rt: &impl Abort, index: &impl MoreCalls, len: u32) {
    let top = 2 * u64::from(len);
    let (least, greatest) = if len > 0 {
        (Some(2), Some(top))
    } else {
        (None, None)
    };
    assert!(rt; ends(index) == (least, greatest));
    assert!(rt; nearest(index, 1) == (None, least));
    assert!(rt; nearest(index, top + 1) == (greatest, None));
}

// What is beside each of so many even keys but the last, and beside the odd key above it.
fn expect_beside(rt: &impl Abort, index: &impl MoreCalls, len: u32) {
    for number in 1..len {
        let key = 2 * u64::from(number);
        assert!(rt; nearest(index, key) == (Some(key), Some(key)));
        assert!(rt; nearest(index, key + 1) == (Some(key), Some(key + 2)));
    }
}

// Removes every pair, the last one first, so that leaves at the end are emptied one after another.
fn expect_emptied(rt: &impl Abort, index: &mut impl MoreCalls, len: u32) {
    for number in (1..=len).rev() {
        assert!(rt; index.remove(2 * u64::from(number)));
        expect_ends(rt, index, number - 1);
    }
}

// How many even keys are stored in an index of fifteen pairs a leaf, and in one of seven.
static LENGTHS: [(u32, u32); 5] = [(0, 0), (1, 1), (15, 7), (16, 8), (241, 57)];

// So many that the tree has three levels.
static DEEP_LENGTHS: [(u32, u32); 1] = [(3_616, 400)];

// Asks for the nearest pairs among so many.
#[derive(Drop)]
struct Seeking<'r, R> {
    rt: &'r R,
    lengths: (u32, u32),
}

impl<R: Abort> Scenario for Seeking<'_, R> {
    fn play<I: MoreCalls>(&self, index: &mut I) -> Result<(), AllocError> {
        let (at_fifteen, at_seven) = self.lengths;
        let len = if index.pairs_a_leaf() == 7 {
            at_seven
        } else {
            at_fifteen
        };
        ascend(index, 1, u64::from(len), 2)?;
        expect_ends(self.rt, index, len);
        expect_beside(self.rt, index, len);
        expect_emptied(self.rt, index, len);
        Ok(())
    }
}

// Asks for the nearest pairs among each of these numbers of keys.
fn seek_in_each(rt: &impl Abort, alloc: Global, lengths: &[(u32, u32)]) {
    for lengths in lengths {
        let scenario = Seeking {
            rt,
            lengths: *lengths,
        };
        assert!(rt; succeeds_at_both_sizes(alloc, &scenario));
    }
}

#[test]
fn finds_the_nearest(rt: HostRuntime) {
    seek_in_each(&rt, rt.alloc(), &LENGTHS);
}

#[test]
fn finds_the_nearest_in_three_levels(rt: HostRuntime) {
    seek_in_each(&rt, rt.alloc(), &DEEP_LENGTHS);
}
