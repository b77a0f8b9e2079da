//! Sets of several sizes, with seven elements a leaf.
use std::alloc::{AllocError, Global};
use std::process::Abort;
use test_support::refusals::succeeds;
use tree_set::{SmallTreeSet, TreeSetOf};

// Inserts the numbers below `count`, the largest first.
fn fill(set: &mut SmallTreeSet<u64>, count: u64) -> Result<(), AllocError> {
    for number in (0..count).rev() {
        if set.insert(number).is_err() {
            return Err(AllocError);
        }
    }
    Ok(())
}

// Whether the set has the numbers below `count`, and tells so.
fn has_run(set: &SmallTreeSet<u64>, count: u64) -> bool {
    let told = (set.len() as u64, set.is_empty(), set.contains(&count));
    told == (count, count == 0, false) && (0..count).all(|number| set.contains(&number))
}

// The numbers of elements: none, one, a full leaf, and so many that the tree has three levels.
static COUNTS: [u64; 4] = [0, 1, 7, 200];

fn fills_rows_steps(rt: &impl Abort, alloc: Global) -> Result<(), AllocError> {
    let mut set: SmallTreeSet<u64> = TreeSetOf::new(alloc);
    for count in &COUNTS {
        set.clear();
        fill(&mut set, *count)?;
        assert!(rt; has_run(&set, *count));
    }
    Ok(())
}

#[test]
fn fills_small_rows(rt: HostRuntime) {
    assert!(rt; succeeds(rt.alloc(), || fills_rows_steps(&rt, rt.alloc())));
}
