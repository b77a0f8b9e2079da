//! What a test does with an index of either size.
use crate::numbers::MoreCalls;
use std::alloc::{AllocError, Global};
use test_support::refusals::succeeds;
use tree_index::{SmallTreeIndex, TreeIndex};

/// What a test does with an index of numbers.
pub trait Scenario {
    /// Plays it over an empty index. Returns `Err` if an allocation failed on the way.
    fn play<I: MoreCalls>(&self, index: &mut I) -> Result<(), AllocError>;
}

/// What a test does with an index by calls of its own, of a type of index.
pub trait OwnScenario<I> {
    /// Plays it over an empty index. Returns `Err` if an allocation failed on the way.
    fn play(&self, index: &mut I) -> Result<(), AllocError>;
}

/// Whether a scenario succeeds over an index of fifteen pairs a leaf and over one of seven, at once
/// or, if an allocation failed, the second time.
pub fn succeeds_at_both_sizes<S: Scenario>(alloc: Global, scenario: &S) -> bool {
    succeeds(alloc, || {
        at_fifteen(alloc, scenario)?;
        at_seven(alloc, scenario)
    })
}

// Plays a scenario over a new index.
fn at_fifteen<S: Scenario>(alloc: Global, scenario: &S) -> Result<(), AllocError> {
    let mut index: TreeIndex<u64, u64> = TreeIndex::new(alloc);
    scenario.play(&mut index)
}

fn at_seven<S: Scenario>(alloc: Global, scenario: &S) -> Result<(), AllocError> {
    let mut index: SmallTreeIndex<u64, u64> = SmallTreeIndex::new(alloc);
    scenario.play(&mut index)
}

/// Whether a scenario by calls of its own succeeds, as [`succeeds_at_both_sizes`] tells.
pub fn succeeds_by_own_calls<
    S: OwnScenario<TreeIndex<u64, u64>> + OwnScenario<SmallTreeIndex<u64, u64>>,
>(alloc: Global, scenario: &S) -> bool {
    succeeds(alloc, || {
        own_at_fifteen(alloc, scenario)?;
        own_at_seven(alloc, scenario)
    })
}

fn own_at_fifteen<S: OwnScenario<TreeIndex<u64, u64>>>(
    alloc: Global,
    scenario: &S,
) -> Result<(), AllocError> {
    let mut index = TreeIndex::new(alloc);
    scenario.play(&mut index)
}

fn own_at_seven<S: OwnScenario<SmallTreeIndex<u64, u64>>>(
    alloc: Global,
    scenario: &S,
) -> Result<(), AllocError> {
    let mut index = SmallTreeIndex::new(alloc);
    scenario.play(&mut index)
}
