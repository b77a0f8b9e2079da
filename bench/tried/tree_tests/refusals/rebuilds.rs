//! Leaves that are rebuilt in place, without an allocation.
use std::alloc::{AllocError, Global};
use std::process::Abort;
use test_support::refusals::succeeds;
use tree_index::TreeIndex;
use tree_support::{MoreCalls, Numbers, Scenario, ascend, succeeds_at_both_sizes};

// How often one key was upserted, and the spare then, with fifteen slots and with seven.
static SPARES: [(u64, u8); 9] = [
    (1, 14),
    (2, 13),
    (3, 12),
    (4, 11),
    (5, 14),
    (6, 14),
    (15, 14),
    (16, 13),
    (17, 12),
];

static SMALL_SPARES: [(u64, u8); 5] = [(1, 6), (2, 5), (3, 6), (7, 6), (8, 5)];

// Upserts the key 7 of an empty index again and again. Only the first upsert allocates.
#[derive(Drop)]
struct Rebuilding<'r, R> {
    rt: &'r R,
}

impl<R: Abort> Scenario for Rebuilding<'_, R> {
    fn play<I: MoreCalls>(&self, index: &mut I) -> Result<(), AllocError> {
        let is_small = index.pairs_a_leaf() == 7;
        let spares: &[(u64, u8)] = if is_small { &SMALL_SPARES } else { &SPARES };
        index.upsert(7, 1).map_err(|_| AllocError)?;
        let mut upserts: u64 = 1;
        for (count, spare) in spares {
            upsert_again(self.rt, index, upserts, *count);
            upserts = *count;
            expect_spare(self.rt, index, *spare, upserts);
        }
        Ok(())
    }
}

// Upserts the key, of which there were so many upserts, until there were `count`.
fn upsert_again(rt: &impl Abort, index: &mut impl Numbers, upserts: u64, count: u64) {
    for value in upserts.saturating_add(1)..=count {
        assert!(rt; index.upsert(7, value).is_ok());
    }
}

// Compares the spare, and the value of the last upsert.
fn expect_spare(rt: &impl Abort, index: &impl Numbers, spare: u8, value: u64) {
    assert!(rt; index.spare() == spare && index.peek(7) == Some(value));
}

#[test]
fn upserts_of_one_key_allocate_once(rt: HostRuntime) {
    let scenario = Rebuilding { rt: &rt };
    assert!(rt; succeeds_at_both_sizes(rt.alloc(), &scenario));
}

// Removes four of the keys from 1 to 12, and inserts seven others. Returns whether the spare is as
// wanted all along.
fn refills(index: &mut impl Numbers) -> bool {
    if index.spare() != 3 {
        return false;
    }
    for (key, spare) in [(1, 3), (2, 3), (3, 3), (4, 7)] {
        if !index.remove(key) || index.spare() != spare {
            return false;
        }
    }
    for key in 21..=27u64 {
        if index.insert(key, key).is_err() {
            return false;
        }
    }
    (index.spare(), index.len()) == (0, 15)
}

fn refills_steps(rt: &impl Abort, alloc: Global) -> Result<(), AllocError> {
    let mut index: TreeIndex<u64, u64> = TreeIndex::new(alloc);
    ascend(&mut index, 1, 12, 1)?;
    assert!(rt; refills(&mut index));
    Ok(())
}

#[test]
fn refills_a_leaf_without_memory(rt: HostRuntime) {
    assert!(rt; succeeds(rt.alloc(), || refills_steps(&rt, rt.alloc())));
}
