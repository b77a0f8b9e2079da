//! A value at a key, which is stored first if the key is absent.
use crate::{fills, refill};
use std::alloc::AllocError;
use std::process::Abort;
use tree_support::{MoreCalls, Scenario, succeeds_at_both_sizes};

// A key between the others and one behind them, each asked twice: the key, the value passed, and
// the one that stands.
static ASKED: [(u64, u64, u64); 4] = [(1, 7, 7), (u64::MAX, 8, 8), (1, 5, 7), (u64::MAX, 6, 8)];

// Returns whether each value that stands at a key is lent, and two keys are new.
fn lends_values(index: &mut impl MoreCalls) -> Result<bool, AllocError> {
    let length = index.len();
    for (key, value, stands) in &ASKED {
        let found = index.lent(*key, *value)?;
        if found != *stands {
            return Ok(false);
        }
    }
    Ok(index.len() == length.wrapping_add(2))
}

// Asks an index of each fill.
#[derive(Drop)]
struct Asking<'r, R> {
    rt: &'r R,
}

impl<R: Abort> Scenario for Asking<'_, R> {
    fn play<I: MoreCalls>(&self, index: &mut I) -> Result<(), AllocError> {
        for (count, is_emptied) in fills(index.pairs_a_leaf()) {
            refill(index, *count, *is_emptied)?;
            assert!(self.rt; lends_values(index)?);
        }
        Ok(())
    }
}

#[test]
fn lends_what_stands(rt: HostRuntime) {
    let scenario = Asking { rt: &rt };
    assert!(rt; succeeds_at_both_sizes(rt.alloc(), &scenario));
}
