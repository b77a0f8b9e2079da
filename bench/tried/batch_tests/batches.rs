//! Look-ups of many keys, compared with a plain rule.
use std::alloc::{AllocError, Global};
use std::process::Abort;
use crate::stored::{fill, keys_of, stored_at};
use tree_batches::{
    at_or_above_each, at_or_below_each, contains_each, contains_each_lent, peek_each,
    peek_each_lent, peek_entry_each, peek_entry_each_lent,
};
use test_support::refusals::succeeds;
use tree_index::{SmallTreeIndex, TreeIndex, TreeIndexOf};
use tree_texts::{Bytes, Text};

// How many pairs are stored: none, one, a full leaf and one more of either size, and three levels of seven pairs a leaf.
static STORED: [u64; 7] = [0, 1, 7, 8, 15, 16, 400];

// How many keys are asked for: none, about one batch, two, and three with one key behind them.
static ASKED: [usize; 8] = [0, 1, 7, 8, 9, 16, 17, 25];

// Asks each of the three calls for the same keys.
fn answers_as_stored<const LEN: usize>(
    index: &TreeIndexOf<u64, u64, LEN>,
    keys: &[u64],
    stored: u64,
) -> bool {
    let mut values = peek_each(index, keys);
    let mut entries = peek_entry_each(index, keys);
    let mut presences = contains_each(index, keys);
    let mut left = keys.len();
    for key in keys {
        let expected = stored_at(*key, stored);
        let entry = expected.map(|value| (*key, value));
        let lengths = values.len() == left && entries.len() == left && presences.len() == left;
        let value = values.next().map(|found| found.copied());
        let pair = entries
            .next()
            .map(|found| found.map(|(stored, value)| (*stored, *value)));
        let present = presences.next();
        if !lengths || value != Some(expected) || pair != Some(entry) {
            return false;
        }
        if present != Some(expected.is_some()) {
            return false;
        }
        left = left.wrapping_sub(1);
    }
    values.next().is_none() && entries.next().is_none() && presences.next().is_none()
}

// The stored pair with the largest key up to this one.
fn stored_below(key: u64, stored: u64) -> Option<(u64, u64)> {
    let last = stored.checked_sub(1)?.wrapping_mul(2);
    let below = (key & !1).min(last);
    Some((below, below.wrapping_add(1)))
}

// The stored pair with the least key from this one on.
fn stored_above(key: u64, stored: u64) -> Option<(u64, u64)> {
    let above = key.wrapping_add(1) & !1;
    Some((above, stored_at(above, stored)?))
}

// Asks both calls for the nearest pairs of the same keys.
fn nearest_as_stored<const LEN: usize>(
    index: &TreeIndexOf<u64, u64, LEN>,
    keys: &[u64],
    stored: u64,
) -> bool {
    let mut below = at_or_below_each(index, keys);
    let mut above = at_or_above_each(index, keys);
    let mut left = keys.len();
    for key in keys {
        let lengths = below.len() == left && above.len() == left;
        let lower = below
            .next()
            .map(|found| found.map(|(stored, value)| (*stored, *value)));
        let upper = above
            .next()
            .map(|found| found.map(|(stored, value)| (*stored, *value)));
        if !lengths || lower != Some(stored_below(*key, stored)) {
            return false;
        }
        if upper != Some(stored_above(*key, stored)) {
            return false;
        }
        left = left.wrapping_sub(1);
    }
    below.next().is_none() && above.next().is_none()
}

fn expect_answers<const LEN: usize>(
    rt: &impl Abort,
    alloc: Global,
    index: &mut TreeIndexOf<u64, u64, LEN>,
) -> Result<(), AllocError> {
    for stored in &STORED {
        fill(index, *stored)?;
        for count in &ASKED {
            let keys = keys_of(alloc, *count, *stored)?;
            assert!(rt; answers_as_stored(index, &keys, *stored));
            assert!(rt; nearest_as_stored(index, &keys, *stored));
        }
    }
    Ok(())
}

fn large_steps(rt: &impl Abort, alloc: Global) -> Result<(), AllocError> {
    let mut index: TreeIndex<u64, u64> = TreeIndex::new(alloc);
    expect_answers(rt, alloc, &mut index)
}

#[test]
fn each_key_is_answered(rt: HostRuntime) {
    assert!(rt; succeeds(rt.alloc(), || large_steps(&rt, rt.alloc())));
}

fn small_steps(rt: &impl Abort, alloc: Global) -> Result<(), AllocError> {
    let mut index: SmallTreeIndex<u64, u64> = TreeIndexOf::new(alloc);
    expect_answers(rt, alloc, &mut index)
}

#[test]
fn each_key_is_answered_with_seven_pairs_a_leaf(rt: HostRuntime) {
    assert!(rt; succeeds(rt.alloc(), || small_steps(&rt, rt.alloc())));
}

fn emptied_steps(rt: &impl Abort, alloc: Global) -> Result<(), AllocError> {
    let mut index: TreeIndex<u64, u64> = TreeIndex::new(alloc);
    fill(&mut index, 226)?;
    index.retain_sync(|_, _| false);
    let keys = keys_of(alloc, 25, 226)?;
    assert!(rt; peek_each(&index, &keys).all(|found| found.is_none()));
    assert!(rt; at_or_below_each(&index, &keys).all(|found| found.is_none()));
    assert!(rt; at_or_above_each(&index, &keys).all(|found| found.is_none()));
    Ok(())
}

// Takes out the pairs of the middle leaves, so that the nearest ones are some leaves away.
fn gap_steps(rt: &impl Abort, alloc: Global) -> Result<(), AllocError> {
    let mut index: SmallTreeIndex<u64, u64> = TreeIndexOf::new(alloc);
    fill(&mut index, 226)?;
    index.retain_sync(|key, _| *key < 20 || *key > 400);
    let keys = [10u64, 19, 20, 21, 200, 399, 400, 401, 402];
    let mut below = at_or_below_each(&index, &keys);
    for expected in [10u64, 18, 18, 18, 18, 18, 18, 18, 402] {
        let found = below.next().map(|found| found.map(|(key, _)| *key));
        assert!(rt; found == Some(Some(expected)));
    }
    let mut above = at_or_above_each(&index, &keys);
    for expected in [10u64, 402, 402, 402, 402, 402, 402, 402, 402] {
        let found = above.next().map(|found| found.map(|(key, _)| *key));
        assert!(rt; found == Some(Some(expected)));
    }
    Ok(())
}

#[test]
fn the_nearest_pairs_are_beyond_a_gap(rt: HostRuntime) {
    assert!(rt; succeeds(rt.alloc(), || gap_steps(&rt, rt.alloc())));
}

#[test]
fn an_emptied_tree_has_no_key(rt: HostRuntime) {
    assert!(rt; succeeds(rt.alloc(), || emptied_steps(&rt, rt.alloc())));
}

// Stores every other text, and asks for all.
fn text_steps(rt: &impl Abort, alloc: Global) -> Result<(), AllocError> {
    let mut index: SmallTreeIndex<Text, u64> = TreeIndexOf::new(alloc);
    let mut keys = Vec::new(alloc);
    for number in 0..100u64 {
        if number & 1 == 0 {
            let text = Text::from(format!(in alloc; "item {number}")?);
            if index.insert_sync(text, number).is_err() {
                return Err(AllocError);
            }
        }
        keys.push(Text::from(format!(in alloc; "item {number}")?))?;
    }
    let mut number = 0u64;
    for found in peek_each(&index, &keys) {
        let expected = if number & 1 == 0 { Some(number) } else { None };
        assert!(rt; found.copied() == expected);
        number = number.wrapping_add(1);
    }
    assert!(rt; number == 100);
    Ok(())
}

#[test]
fn texts_are_keys(rt: HostRuntime) {
    assert!(rt; succeeds(rt.alloc(), || text_steps(&rt, rt.alloc())));
}

// Asks for words that are lent, some of them absent, by each of the three calls.
fn lent_steps(rt: &impl Abort, alloc: Global) -> Result<(), AllocError> {
    let mut index: SmallTreeIndex<Text, u64> = TreeIndexOf::new(alloc);
    let stored = ["pear", "fig", "a longer name of a fruit", "plum"];
    let mut number = 0u64;
    for word in stored {
        let text = Text::from(String::from_str(alloc, word)?);
        if index.insert_sync(text, number).is_err() {
            return Err(AllocError);
        }
        number = number.wrapping_add(1);
    }
    let asked = [
        "fig", "", "plum", "apple", "a longer name of a fruit", "a longer name", "pear", "fig", "figs",
    ];
    let expected = [
        Some(1), None, Some(3), None, Some(2), None, Some(0), Some(1), None,
    ];
    let mut values = peek_each_lent(&index, &asked);
    let mut entries = peek_entry_each_lent(&index, &asked);
    let mut presences = contains_each_lent(&index, &asked);
    for answer in expected {
        assert!(rt; values.next().map(|found| found.copied()) == Some(answer));
        let entry = entries.next().map(|found| found.map(|(_, value)| *value));
        assert!(rt; entry == Some(answer));
        assert!(rt; presences.next() == Some(answer.is_some()));
    }
    assert!(rt; values.len() == 0 && entries.next().is_none() && presences.next().is_none());
    Ok(())
}

#[test]
fn words_are_lent(rt: HostRuntime) {
    assert!(rt; succeeds(rt.alloc(), || lent_steps(&rt, rt.alloc())));
}

fn lent_bytes_steps(rt: &impl Abort, alloc: Global) -> Result<(), AllocError> {
    let mut index: TreeIndex<Bytes, u64> = TreeIndex::new(alloc);
    let key = Bytes::from([0u8, 255, 7].to_vec(alloc)?);
    if index.insert_sync(key, 5).is_err() {
        return Err(AllocError);
    }
    let stored = [0u8, 255, 7];
    let asked = [&stored[..2], &stored[..], &stored[1..]];
    let mut values = peek_each_lent(&index, &asked);
    assert!(rt; values.next().map(|found| found.copied()) == Some(None));
    assert!(rt; values.next().map(|found| found.copied()) == Some(Some(5)));
    assert!(rt; values.next().map(|found| found.copied()) == Some(None));
    assert!(rt; values.next().is_none());
    Ok(())
}

#[test]
fn bytes_are_lent(rt: HostRuntime) {
    assert!(rt; succeeds(rt.alloc(), || lent_bytes_steps(&rt, rt.alloc())));
}
