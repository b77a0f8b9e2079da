//! Four threads that read one frozen index at once, each by a view of its own.
use std::thread;

use tree_index::{ByteIndex, Frozen, FrozenView, TreeIndex};

const KEYS: u64 = 20_000;

/// Only even keys are present, each with three times itself.
fn even_keys() -> impl Iterator<Item = u64> {
    (0..KEYS).step_by(2)
}

fn word_of(key: u64) -> String {
    format!("{key:08}")
}

fn random_keys(seed: u64) -> impl Iterator<Item = u64> {
    let step = |it: &u64| Some(it.wrapping_mul(6_364_136_223_846_793_005).wrapping_add(1_442_695_040_888_963_407));
    std::iter::successors(Some(seed), step).skip(1).take(3_000).map(|it| (it >> 33) % KEYS)
}

fn value_at(key: u64) -> Option<u64> {
    (key % 2 == 0).then_some(3 * key)
}

fn is_shared<T: Send + Sync>(_: &T) {}

fn is_sent<T: Send>(_: &T) {}

#[test]
fn threads_read_numbers_at_once() {
    let index: TreeIndex = even_keys().map(|key| (key, 3 * key)).collect();
    let frozen: Frozen<TreeIndex> = index.freeze().expect("memory");
    is_shared(&frozen);
    thread::scope(|threads| {
        for seed in 0..4 {
            let frozen = &frozen;
            threads.spawn(move || {
                let view: FrozenView<TreeIndex> = frozen.view().expect("memory");
                for key in random_keys(seed) {
                    assert_eq!(view.peek(key), value_at(key));
                    assert_eq!(view.at_or_below(key), Some((key - key % 2, 3 * (key - key % 2))));
                    let next = view.range(key..).take(10).map(|(key, _)| key);
                    assert!(next.eq((key + key % 2..KEYS).step_by(2).take(10)));
                }
            });
        }
    });
    let view = frozen.view().expect("memory");
    is_sent(&view);
    let frozen = frozen.thaw().expect_err("a view is left");
    let mut copy = view.try_clone().expect("memory");
    copy.clear();
    assert_eq!((copy.len(), view.len()), (0, KEYS as usize / 2));
    drop(view);
    let mut index = frozen.thaw().expect("no view is left");
    index.insert(1, 1).expect("the key is absent");
    assert_eq!(index.len(), KEYS as usize / 2 + 1);
    println!("Rust: 4 threads that read one frozen index of {} pairs, each of its answers as it should be", KEYS / 2);
}

#[test]
fn threads_read_byte_strings_at_once() {
    let index: ByteIndex = even_keys().map(|key| (word_of(key), 3 * key)).collect();
    let frozen = index.freeze().expect("memory");
    is_shared(&frozen);
    thread::scope(|threads| {
        for seed in 0..4 {
            let view = frozen.view().expect("memory");
            threads.spawn(move || {
                for key in random_keys(seed) {
                    assert_eq!(view.peek(word_of(key)), value_at(key));
                }
            });
        }
    });
    let mut index = frozen.thaw().expect("no view is left");
    index.clear();
    assert!(index.is_empty());
}

#[test]
fn a_view_outlives_the_index_that_was_frozen() {
    let index: TreeIndex = even_keys().map(|key| (key, 3 * key)).collect();
    let frozen = index.freeze().expect("memory");
    let view = frozen.view().expect("memory");
    drop(frozen);
    assert_eq!(thread::spawn(move || view.last()).join().expect("an answer"), Some((KEYS - 2, 3 * (KEYS - 2))));
}
