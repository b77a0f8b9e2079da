//! Times an index beside `BTreeMap`: the least of several rounds, in nanoseconds of the thread's processor time for each
//! pair or call. Writes a line for each work and number of pairs: the map, the work, the pairs, the index's time and the map's.
//! The last row of each has bytes a pair.
use std::alloc::{GlobalAlloc, Layout, System};
use std::collections::BTreeMap;
use std::hint::black_box;
use std::ops::Bound;
use std::sync::atomic::{AtomicUsize, Ordering};

use tree_index::TreeIndex;

/// Counts the bytes that Rust allocates. What the library takes from `malloc` is asked of the C library.
struct Counting;

static HELD: AtomicUsize = AtomicUsize::new(0);

unsafe impl GlobalAlloc for Counting {
    unsafe fn alloc(&self, layout: Layout) -> *mut u8 {
        HELD.fetch_add(layout.size(), Ordering::Relaxed);
        unsafe { System.alloc(layout) }
    }

    unsafe fn dealloc(&self, block: *mut u8, layout: Layout) {
        HELD.fetch_sub(layout.size(), Ordering::Relaxed);
        unsafe { System.dealloc(block, layout) }
    }
}

#[global_allocator]
static ALLOCATOR: Counting = Counting;

#[repr(C)]
struct Timespec(i64, i64);

#[repr(C)]
#[derive(Default)]
struct Heap([usize; 10]);

unsafe extern "C" {
    fn clock_gettime(clock: i32, to: *mut Timespec) -> i32;
    fn mallinfo2() -> Heap;
}

/// The processor time of this thread, in nanoseconds.
fn now() -> f64 {
    let mut at = Timespec(0, 0);
    unsafe { clock_gettime(3, &mut at) };
    at.0 as f64 * 1e9 + at.1 as f64
}

/// The bytes that `malloc` has given out, large blocks too.
fn held() -> usize {
    let heap = unsafe { mallinfo2() };
    heap.0[7] + heap.0[4]
}

fn least(rounds: usize, mut run: impl FnMut() -> f64) -> f64 {
    (0..rounds).map(|_| run()).fold(f64::INFINITY, f64::min)
}

fn timed<T>(calls: usize, work: impl FnOnce() -> T) -> f64 {
    let at = now();
    black_box(work());
    (now() - at) / calls as f64
}

fn row(name: &str, n: usize, index: f64, map: f64) {
    println!("BTreeMap,{name},{n},{index:.1},{map:.1}");
}

fn main() {
    let mut state = 20261127u64;
    let mut draw = || {
        state = state.wrapping_add(0x9E37_79B9_7F4A_7C15);
        let x = (state ^ (state >> 30)).wrapping_mul(0xBF58_476D_1CE4_E5B9);
        let x = (x ^ (x >> 27)).wrapping_mul(0x94D0_49BB_1331_11EB);
        x ^ (x >> 31)
    };
    for (n, rounds) in [(1_000usize, 300), (100_000, 12), (1_000_000, 3)] {
        let keys: Vec<u64> = (0..n).map(|_| draw()).collect();
        let mut order = keys.clone();
        for at in (1..n).rev() {
            order.swap(at, (draw() % (at as u64 + 1)) as usize);
        }
        let before = held();
        let mut index = TreeIndex::new().unwrap();
        keys.iter().for_each(|key| _ = index.insert(*key, !*key));
        let index_bytes = (held() - before) as f64 / n as f64;
        let before = HELD.load(Ordering::Relaxed);
        let mut map: BTreeMap<u64, u64> = keys.iter().map(|key| (*key, !*key)).collect::<Vec<_>>().iter().fold(BTreeMap::new(), |mut map, (key, value)| {
            map.insert(*key, *value);
            map
        });
        let map_bytes = (HELD.load(Ordering::Relaxed) - before) as f64 / n as f64;

        row("insert ascending", n,
            least(rounds, || { let mut index = TreeIndex::new().unwrap(); let time = timed(n, || (0..n as u64).for_each(|key| _ = index.insert(key, key))); black_box(&index); time }),
            least(rounds, || { let mut map = BTreeMap::new(); let time = timed(n, || (0..n as u64).for_each(|key| _ = map.entry(key).or_insert(key))); black_box(&map); time }));
        row("insert random", n,
            least(rounds, || { let mut index = TreeIndex::new().unwrap(); let time = timed(n, || keys.iter().for_each(|key| _ = index.insert(*key, !*key))); black_box(&index); time }),
            least(rounds, || { let mut map = BTreeMap::new(); let time = timed(n, || keys.iter().for_each(|key| _ = map.entry(*key).or_insert(!*key))); black_box(&map); time }));
        row("upsert", n,
            least(rounds, || timed(n, || order.iter().for_each(|key| _ = index.upsert(*key, *key)))),
            least(rounds, || timed(n, || order.iter().for_each(|key| _ = map.insert(*key, *key)))));
        row("look up", n,
            least(rounds, || timed(n, || order.iter().fold(0u64, |sum, key| sum.wrapping_add(index.peek(*key).unwrap_or(0))))),
            least(rounds, || timed(n, || order.iter().fold(0u64, |sum, key| sum.wrapping_add(map.get(key).copied().unwrap_or(0))))));
        row("nearest above", n,
            least(rounds, || timed(n, || order.iter().fold(0u64, |sum, key| sum.wrapping_add(index.at_or_above(key + 1).map_or(0, |pair| pair.0))))),
            least(rounds, || timed(n, || order.iter().fold(0u64, |sum, key| sum.wrapping_add(map.range(key + 1..).next().map_or(0, |pair| *pair.0))))));
        row("walk of all", n,
            least(rounds, || timed(n, || index.iter().fold(0u64, |sum, (key, value)| sum.wrapping_add(key ^ value)))),
            least(rounds, || timed(n, || map.iter().fold(0u64, |sum, (key, value)| sum.wrapping_add(key ^ value)))));
        let walks = n.min(20_000);
        row("walks of 100", n,
            least(rounds, || timed(walks * 100, || order[..walks].iter().fold(0u64, |sum, key| index.range(*key..).take(100).fold(sum, |sum, (key, _)| sum.wrapping_add(key))))),
            least(rounds, || timed(walks * 100, || order[..walks].iter().fold(0u64, |sum, key| map.range(*key..).take(100).fold(sum, |sum, (key, _)| sum.wrapping_add(*key))))));
        let (low, high) = (u64::MAX / 4, u64::MAX / 4 * 3);
        row("cut of the middle half", n,
            least(rounds.min(10), || { let mut index = index.try_clone().unwrap(); timed(n / 2, || index.remove_range(low..high)) }),
            least(rounds.min(10), || { let mut map = map.clone(); timed(n / 2, || map.retain(|key, _| !(Bound::Included(low), Bound::Excluded(high)).contains_key(key))) }));
        row("remove", n,
            least(rounds.min(10), || { let mut index = index.try_clone().unwrap(); timed(n, || order.iter().for_each(|key| _ = index.remove(*key))) }),
            least(rounds.min(10), || { let mut map = map.clone(); timed(n, || order.iter().for_each(|key| _ = map.remove(key))) }));
        row("bytes a pair", n, index_bytes, map_bytes);
    }
}

trait ContainsKey {
    fn contains_key(&self, key: &u64) -> bool;
}

impl ContainsKey for (Bound<u64>, Bound<u64>) {
    fn contains_key(&self, key: &u64) -> bool {
        std::ops::RangeBounds::contains(self, key)
    }
}
