//! The loads of `bench/readbench` over a `Mutex` and a `RwLock` of `BTreeMap`: the same keys, the same arguments, the same
//! lines of output.
use crate::shared::Numbers;
use std::collections::BTreeMap;
use std::sync::atomic::{AtomicU64, Ordering};
use std::sync::{Mutex, RwLock};
use std::thread;
use std::time::Instant;

type Map = BTreeMap<u64, u64>;

/// A map that threads share.
trait Shared: Sync {
    fn contains(&self, key: u64) -> bool;

    fn replace(&self, key: u64, value: u64);
}

impl Shared for Mutex<Map> {
    fn contains(&self, key: u64) -> bool {
        self.lock().unwrap().contains_key(&key)
    }

    fn replace(&self, key: u64, value: u64) {
        self.lock().unwrap().insert(key, value);
    }
}

impl Shared for RwLock<Map> {
    fn contains(&self, key: u64) -> bool {
        self.read().unwrap().contains_key(&key)
    }

    fn replace(&self, key: u64, value: u64) {
        self.write().unwrap().insert(key, value);
    }
}

/// How many keys there are, how many threads look up, and how many calls each makes.
#[derive(Clone, Copy)]
struct Load {
    keys: u64,
    threads: u64,
    calls: u64,
    is_written: bool,
}

fn look_up(shared: &dyn Shared, thread: u64, load: Load, left: &AtomicU64) -> u64 {
    let mut source = Numbers::new(thread);
    let found = (0..load.calls).filter(|_| shared.contains(source.draw() % load.keys)).count();
    left.fetch_sub(1, Ordering::SeqCst);
    found as u64
}

fn write_on(shared: &dyn Shared, load: Load, left: &AtomicU64) {
    let mut source = Numbers::new(load.threads);
    for value in 0.. {
        if left.load(Ordering::SeqCst) == 0 {
            return;
        }
        shared.replace(source.draw() % load.keys, value);
    }
}

fn show_rate(shared: &dyn Shared, load: Load) {
    let left = AtomicU64::new(load.threads);
    let start = Instant::now();
    let found: u64 = thread::scope(|scope| {
        let left = &left;
        let handles: Vec<_> = (0..load.threads)
            .map(|thread| scope.spawn(move || look_up(shared, thread, load, left)))
            .collect();
        if load.is_written {
            write_on(shared, load, left);
        }
        handles.into_iter().map(|handle| handle.join().unwrap()).sum()
    });
    let hundredths = u128::from(found) * 100_000 / start.elapsed().as_nanos().max(1);
    let written = if load.is_written { "_written" } else { "" };
    println!("reads_{}{written} {}.{:02} {found:016x}", load.threads, hundredths / 100, hundredths % 100);
}

/// Prints the rates of 1, 2, 3 and 4 threads, without a writer and then beside one. False if there is no such kind.
pub fn show_rates(kind: &str, keys: u64, calls: u64) -> bool {
    let map: Map = (0..keys).map(|key| (key, key)).collect();
    let shared: Box<dyn Shared> = match kind {
        "mutex" => Box::new(Mutex::new(map)),
        "rwlock" => Box::new(RwLock::new(map)),
        _ => return false,
    };
    for is_written in [false, true] {
        for threads in 1..=4 {
            show_rate(shared.as_ref(), Load { keys, threads, calls, is_written });
        }
    }
    true
}
