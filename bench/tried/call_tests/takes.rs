//! Pairs taken out from either end, by key, by value and by a test.
use std::alloc::{AllocError, Global};
use std::process::Abort;
use test_support::refusals::succeeds;
use tree_index::TreeIndex;
use tree_support::{MoreCalls, Numbers, Scenario, ascend, succeeds_at_both_sizes};

// How many pairs an index has, at fifteen pairs a leaf and at seven: none, one, a full leaf, two
// leaves, and two levels.
static COUNTS: [(u64, u64); 5] = [(0, 0), (1, 1), (15, 7), (16, 8), (241, 57)];

// So many that the tree has three levels.
static DEEP_COUNTS: [(u64, u64); 1] = [(3_616, 400)];

// Empties an index and stores the pairs of 1 to `count`.
fn fill(index: &mut impl Numbers, count: u64) -> Result<(), AllocError> {
    index.clear();
    ascend(index, 1, count, 1)
}

// Takes the first pair, and then the last one.
fn pops(index: &mut impl MoreCalls) -> [Option<(u64, u64)>; 2] {
    [index.pop_first(), index.pop_last()]
}

// Returns whether the first pair and the last one come in turn, until none is left.
fn gives_both_ends(index: &mut impl MoreCalls, count: u64) -> bool {
    for low in 1..=count / 2 {
        let high = count.wrapping_add(1).wrapping_sub(low);
        if pops(index) != [Some((low, low)), Some((high, high))] {
            return false;
        }
    }
    gives_middle(index, count)
}

// Returns whether the pair in the middle comes, if there is one, and none behind it.
fn gives_middle(index: &mut impl MoreCalls, count: u64) -> bool {
    let middle = count / 2 + 1;
    if count % 2 == 1 && pops(index) != [Some((middle, middle)), None] {
        return false;
    }
    (pops(index), index.is_empty()) == ([None, None], true)
}

// Returns whether each pair comes by its key, the last one first, so that leaves at the end are
// emptied in turn.
fn gives_by_key(index: &mut impl MoreCalls, count: u64) -> bool {
    for key in (1..=count).rev() {
        if [index.take(key), index.take(key)] != [Some((key, key)), None] {
            return false;
        }
    }
    index.is_empty() && index.depth() <= 1
}

// Returns whether an index keeps the even keys, and then none.
fn keeps_even(index: &mut impl MoreCalls, count: u64) -> bool {
    index.keep_even();
    let is_kept = index.len() as u64 == count / 2 && (count < 2 || index.first() == Some((2, 2)));
    let odd = [index.take(1), index.take(3)];
    index.keep_larger(count);
    (is_kept, odd, index.is_empty()) == (true, [None, None], true)
}

// Returns whether so many pairs are taken out from both ends, by key and by a test, each time all
// of them.
fn gives_pairs(index: &mut impl MoreCalls, count: u64) -> Result<bool, AllocError> {
    fill(index, count)?;
    if !gives_both_ends(index, count) {
        return Ok(false);
    }
    fill(index, count)?;
    if !gives_by_key(index, count) {
        return Ok(false);
    }
    fill(index, count)?;
    Ok(keeps_even(index, count))
}

// Takes the pairs out of an index of so many.
#[derive(Drop)]
struct Taking<'r, R> {
    rt: &'r R,
    counts: (u64, u64),
}

impl<R: Abort> Scenario for Taking<'_, R> {
    fn play<I: MoreCalls>(&self, index: &mut I) -> Result<(), AllocError> {
        let (at_fifteen, at_seven) = self.counts;
        let is_small = index.pairs_a_leaf() == 7;
        let count = if is_small { at_seven } else { at_fifteen };
        assert!(self.rt; gives_pairs(index, count)?);
        Ok(())
    }
}

// Takes the pairs out of indexes of each of these numbers.
fn take_of_each(rt: &impl Abort, alloc: Global, counts: &[(u64, u64)]) {
    for counts in counts {
        let scenario = Taking {
            rt,
            counts: *counts,
        };
        assert!(rt; succeeds_at_both_sizes(alloc, &scenario));
    }
}

#[test]
fn takes_pairs_out(rt: HostRuntime) {
    take_of_each(&rt, rt.alloc(), &COUNTS);
}

#[test]
fn takes_pairs_out_of_three_levels(rt: HostRuntime) {
    take_of_each(&rt, rt.alloc(), &DEEP_COUNTS);
}

// Returns whether both ends give in turn the pairs of 1 to 241.
fn gives_by_value<I: DoubleEndedIterator<Item = (u64, u64)>>(pairs: I) -> bool
    requires first { (s : I) → I.can_next s }
    requires last { (s : I) → I.can_next_back s }
{
    let mut pairs = pairs;
    let given = [
        pairs.next(),
        pairs.next_back(),
        pairs.next_back(),
        pairs.next(),
    ];
    given
        == [
            Some((1, 1)),
            Some((241, 241)),
            Some((240, 240)),
            Some((2, 2)),
        ]
}

fn gives_by_value_steps(rt: &impl Abort, alloc: Global) -> Result<(), AllocError> {
    let mut index: TreeIndex<u64, u64> = TreeIndex::new(alloc);
    fill(&mut index, 241)?;
    assert!(rt; gives_by_value(index.into_iter()));
    Ok(())
}

#[test]
fn gives_pairs_by_value(rt: HostRuntime) {
    assert!(rt; succeeds(rt.alloc(), || gives_by_value_steps(&rt, rt.alloc())));
}
