//! A writer and two readers at once. Command n, from 1 on, stores n at the key n % KEYS. Three of
//! them with a mark, which stores n at the last key, are a batch. So the mark that a reader finds
//! gives all pairs that it must find.
use crate::support::kept;
use std::alloc::{AllocError, Global};
use std::process::Abort;
use std::sync::Wait;
use std::sync::atomic::{AtomicU64, Ordering};
use std::thread;
use std::thread::{Threads, join};
use std::time::{Clock, Duration};
use test_support::refusals::succeeds;
use tree_index::TreeIndex;
use tree_readers::{Reader, Writer};

const KEYS: u64 = 40;

const BATCH: u64 = 3;

const MARK: u64 = u64::MAX;

// How many different marks each reader finds before the writer ends.
const MARKS: u64 = 3;

// So often a reader looks, and so many batches the writer shows, at most.
const MOST: u64 = 3_000;

// What the threads tell one another: how many readers have found enough marks, and whether the
// writer has ended.
#[derive(Drop)]
struct Watch {
    readers: AtomicU64,
    ended: AtomicU64,
}

// What a reader found: the last mark, how many different ones, and whether each look was right.
#[derive(Clone, Copy, Drop)]
struct Found {
    last: u64,
    marks: u64,
    is_right: bool,
}

// The value at a key after n commands, the largest number up to n that leaves the key.
fn value_at(key: u64, n: u64) -> u64 {
    n.wrapping_sub(n.wrapping_add(KEYS).wrapping_sub(key) % KEYS)
}

// How many pairs there are after n commands.
fn count_at(n: u64) -> u64 {
    if n == 0 { 0 } else { n.min(KEYS) + 1 }
}

// Whether an index has the pairs after n commands, which are whole batches.
fn is_at(index: &TreeIndex<u64, u64>, n: u64) -> bool {
    for (key, value) in index {
        if *key != MARK && *value != value_at(*key, n) {
            return false;
        }
    }
    n % BATCH == 0 && index.len() as u64 == count_at(n)
}

// Looks at an index once.
fn look(index: &TreeIndex<u64, u64>, found: Found) -> Found {
    let mark = index.peek(&MARK).copied().unwrap_or(0);
    let is_new = mark != found.last;
    Found {
        last: mark,
        marks: if is_new {
            found.marks.saturating_add(1)
        } else {
            found.marks
        },
        is_right: found.is_right && mark >= found.last && is_at(index, mark),
    }
}

// Looks until the writer has ended, and once more. One that doesn't see the end has found no marks.
fn read_all<R: Clock>(rt: &R, mut reader: Reader<u64, u64>, watch: &Watch) -> Found {
    let mut found = Found {
        last: 0,
        marks: 0,
        is_right: true,
    };
    for _ in 0..MOST {
        let has_ended = watch.ended.load(Ordering::SeqCst) == 1;
        let Ok(reading) = reader.enter() else {
            break;
        };
        let before = found;
        found = look(reading.index(), found);
        reader = reading.leave();
        if found.marks == MARKS && before.marks != MARKS {
            watch.readers.fetch_add(1, Ordering::SeqCst);
        }
        if has_ended {
            return found;
        }
        if found.last == before.last {
            thread::sleep(rt, Duration::from_millis(1));
        }
    }
    Found { marks: 0, ..found }
}

// Shows one batch, whose last command is number n.
fn show_batch<R: Wait + Drop>(writer: &mut Writer<u64, u64, R>, n: u64) -> Result<(), AllocError> {
    for back in (0..BATCH).rev() {
        let number = n.saturating_sub(back);
        kept(writer.upsert(number % KEYS, number))?;
    }
    kept(writer.upsert(MARK, n))?;
    writer.publish()
}

// Shows batches until both readers have found enough marks. Returns the last mark.
fn write_all<R: Wait + Clock>(
    rt: &R,
    writer: &mut Writer<u64, u64, &R>,
    watch: &Watch,
) -> Result<u64, AllocError> {
    let mut last = 0;
    for batch in 0..MOST {
        last = (batch + 1) * BATCH;
        show_batch(writer, last)?;
        if watch.readers.load(Ordering::SeqCst) == 2 {
            break;
        }
        thread::sleep(rt, Duration::from_millis(1));
    }
    Ok(last)
}

// The same, and tells the readers that it has ended.
fn write_and_end<R: Wait + Clock>(
    rt: &R,
    writer: &mut Writer<u64, u64, &R>,
    watch: &Watch,
) -> Result<u64, AllocError> {
    let last = write_all(rt, writer, watch);
    watch.ended.store(1, Ordering::SeqCst);
    last
}

// Whether both readers found what they must, by the last mark. Returns `Err` if they didn't meet the
// writer, since a thread could not be started.
fn are_right(one: Found, two: Found, last: u64) -> Result<bool, AllocError> {
    if one.marks < MARKS || two.marks < MARKS {
        return Err(AllocError);
    }
    Ok(one.is_right && two.is_right && one.last == last && two.last == last)
}

fn meets_steps<R: Threads + Wait + Clock + Abort + Sync>(
    rt: &R,
    alloc: Global,
) -> Result<(), AllocError> {
    let mut writer: Writer<u64, u64, &R> = Writer::new(alloc, rt, 2)?;
    let one = writer.reader().map_err(|_| AllocError)?;
    let two = writer.reader().map_err(|_| AllocError)?;
    let watch = Watch {
        readers: AtomicU64::new(0),
        ended: AtomicU64::new(0),
    };
    let (one, (two, last)) = join(
        rt,
        || read_all(rt, one, &watch),
        || join(
            rt,
            || read_all(rt, two, &watch),
            || write_and_end(rt, &mut writer, &watch),
        ),
    );
    assert!(rt; are_right(one, two, last?)?);
    Ok(())
}

#[test]
fn readers_see_whole_batches_in_order(rt: HostRuntime) {
    assert!(rt; succeeds(rt.alloc(), || meets_steps(&rt, rt.alloc())));
}
