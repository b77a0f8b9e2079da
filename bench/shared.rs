//! The calls of `bench/sharebench` over a `Mutex` of `BTreeMap` that keeps the same history: the same keys, the same
//! arguments, the same lines of output.
use std::collections::BTreeMap;
use std::collections::btree_map::Entry;
use std::ops::Bound;
use std::sync::Mutex;
use std::thread;
use std::time::{Duration, Instant};

const FEW_KEYS: u64 = 1000;
const FEW_CALLS: u64 = 4000;

#[allow(dead_code)]
enum Command {
    Insert(u64, u64),
    Upsert(u64, u64),
    Remove(u64),
    RemoveRange(Bound<u64>, Bound<u64>),
    Clear,
    Peek(u64),
}

#[allow(dead_code)]
enum Reply {
    Stored,
    Duplicate,
    Removed(bool),
    Done,
    Found(Option<u64>),
    Refused,
}

#[allow(dead_code)]
struct Record {
    command: Command,
    reply: Reply,
}

/// What the lock guards.
struct Locked {
    map: BTreeMap<u64, u64>,
    history: Vec<Record>,
}

impl Locked {
    fn record(&mut self, command: Command, reply: Reply) {
        self.history.push(Record { command, reply });
    }
}

/// A map behind one lock. Each call takes it once, and leaves a record under it.
struct Shared {
    locked: Mutex<Locked>,
}

impl Shared {
    fn new() -> Self {
        let locked = Mutex::new(Locked {
            map: BTreeMap::new(),
            history: Vec::new(),
        });
        Shared { locked }
    }

    /// Stores a pair if its key is absent. Hands it back otherwise.
    fn insert(&self, key: u64, value: u64) -> Result<(), (u64, u64)> {
        let mut locked = self.locked.lock().unwrap();
        match locked.map.entry(key) {
            Entry::Vacant(place) => {
                place.insert(value);
                locked.record(Command::Insert(key, value), Reply::Stored);
                Ok(())
            }
            Entry::Occupied(_) => {
                locked.record(Command::Insert(key, value), Reply::Duplicate);
                Err((key, value))
            }
        }
    }

    fn remove(&self, key: &u64) -> bool {
        let mut locked = self.locked.lock().unwrap();
        let was = locked.map.remove(key).is_some();
        locked.record(Command::Remove(*key), Reply::Removed(was));
        was
    }

    fn peek(&self, key: &u64) -> Option<u64> {
        let mut locked = self.locked.lock().unwrap();
        let found = locked.map.get(key).copied();
        locked.record(Command::Peek(*key), Reply::Found(found));
        found
    }
}

/// What the calls of one worker came to.
#[derive(Default)]
struct Tally {
    calls: u64,
    stored: u64,
    removed: u64,
    found: u64,
}

/// How many threads there are, and how many keys and calls each of them has.
#[derive(Clone, Copy)]
pub struct Load {
    threads: u64,
    keys: u64,
    calls: u64,
}

impl Load {
    pub fn new(keys: u64, threads: u64, calls: u64) -> Option<Load> {
        (1..=64).contains(&threads).then(|| Load {
            threads,
            keys: (keys / threads).max(1),
            calls: calls / threads,
        })
    }

    fn all_calls(&self) -> u64 {
        self.calls * self.threads
    }

    fn key(&self, thread: u64, place: u64) -> u64 {
        (place % self.keys).wrapping_mul(self.threads).wrapping_add(thread)
    }
}

pub struct Numbers {
    last: u64,
}

impl Numbers {
    pub fn new(thread: u64) -> Self {
        Numbers {
            last: (thread + 1).wrapping_mul(0x9e37_79b9_7f4a_7c15) | 1,
        }
    }

    pub fn draw(&mut self) -> u64 {
        self.last ^= self.last << 13;
        self.last ^= self.last >> 7;
        self.last ^= self.last << 17;
        self.last
    }

    fn shuffle(&mut self, keys: &mut [u64]) {
        for place in 1..keys.len() {
            let other = self.draw() % (place as u64 + 1);
            keys.swap(place, other as usize);
        }
    }
}

fn call(shared: &Shared, tally: &mut Tally, key: u64, number: u64) {
    match number % 4 {
        0 => tally.stored += u64::from(shared.insert(key, number).is_ok()),
        1 => tally.removed += u64::from(shared.remove(&key)),
        _ => tally.found += u64::from(shared.peek(&key).is_some()),
    }
    tally.calls += 1;
}

fn work(shared: &Shared, thread: u64, load: Load) -> Tally {
    let mut source = Numbers::new(thread);
    let mut tally = Tally::default();
    for _ in 0..load.calls {
        let number = source.draw();
        call(shared, &mut tally, load.key(thread, number / 4), number);
    }
    tally
}

/// Inserts every other key of each thread in random order.
fn fill(shared: &Shared, load: Load) -> Tally {
    let places = |thread| (0..load.keys).step_by(2).map(move |place| load.key(thread, place));
    let mut keys: Vec<u64> = (0..load.threads).flat_map(places).collect();
    Numbers::new(load.threads).shuffle(&mut keys);
    let mut tally = Tally::default();
    for key in keys {
        tally.stored += u64::from(shared.insert(key, key).is_ok());
        tally.calls += 1;
    }
    tally
}

fn run_all(shared: &Shared, load: Load) -> Vec<Tally> {
    thread::scope(|scope| {
        let handles: Vec<_> = (0..load.threads)
            .map(|thread| scope.spawn(move || work(shared, thread, load)))
            .collect();
        handles.into_iter().map(|handle| handle.join().unwrap()).collect()
    })
}

struct Measured {
    time: Duration,
    locked: Locked,
    tallies: Vec<Tally>,
}

fn measure(load: Load) -> Measured {
    let shared = Shared::new();
    let filled = fill(&shared, load);
    let start = Instant::now();
    let mut tallies = run_all(&shared, load);
    let time = start.elapsed();
    tallies.push(filled);
    Measured {
        time,
        locked: shared.locked.into_inner().unwrap(),
        tallies,
    }
}

fn summed(sum: u64, number: u64) -> u64 {
    sum.wrapping_mul(31).wrapping_add(number).wrapping_add(1)
}

impl Measured {
    fn total(&self, of: impl Fn(&Tally) -> u64) -> u64 {
        self.tallies.iter().map(of).sum()
    }

    fn checksum(&self) -> u64 {
        let tally = [
            self.total(|tally| tally.calls),
            self.total(|tally| tally.stored),
            self.total(|tally| tally.removed),
            self.total(|tally| tally.found),
        ];
        let pairs = self.locked.map.iter().flat_map(|(key, value)| [*key, *value]);
        tally.into_iter().chain(pairs).fold(0, summed)
    }
}

pub fn show_few() {
    for load in [1, 2, 4, 8].into_iter().filter_map(|threads| Load::new(FEW_KEYS, threads, FEW_CALLS)) {
        let measured = measure(load);
        println!(
            "threads {} calls {} history {} length {} {:016x}",
            load.threads,
            load.all_calls(),
            measured.locked.history.len(),
            measured.locked.map.len(),
            measured.checksum()
        );
    }
}

pub fn show_time(load: Load) {
    let measured = measure(load);
    let tenths = (measured.time.as_nanos() * 10).checked_div(load.all_calls().into()).unwrap_or(0);
    println!("threads_{} {}.{} {:016x}", load.threads, tenths / 10, tenths % 10, measured.checksum());
}
