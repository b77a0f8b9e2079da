//! Tests of the exports of `tree_index_c`, in Rattle. bench/refusals puts them into its copy of that crate and refuses each
//! request for memory in turn.
//!
//! Each call is compared with a sorted vector. If an allocation fails, the call must answer `NO_MEMORY` and change neither
//! the pairs nor the places that it is passed. It is then made again, and must answer as the vector does.
use crate::bytes::lookups::{tree_index_bytes_at_or_above, tree_index_bytes_at_or_below};
use crate::bytes::prefixes::{tree_index_bytes_prefix_end, tree_index_bytes_remove_prefix};
use crate::bytes::ranges::{
    tree_index_bytes_fill, tree_index_bytes_fill_back, tree_index_bytes_remove_range,
};
use crate::bytes::sorted::tree_index_bytes_from_sorted;
use crate::bytes::writes::{
    tree_index_bytes_insert, tree_index_bytes_new, tree_index_bytes_pop_first,
    tree_index_bytes_pop_last, tree_index_bytes_remove, tree_index_bytes_take,
    tree_index_bytes_upsert,
};
use crate::copies::tree_index_copy;
use crate::entry::Entry;
use crate::frozen::{tree_index_freeze, tree_index_share, tree_index_thaw};
use crate::handle::Handle;
use crate::handles::{tree_index_depth, tree_index_free, tree_index_len};
use crate::numbers::ranges::{tree_index_fill, tree_index_fill_back};
use crate::numbers::sorted::tree_index_from_sorted;
use crate::numbers::writes::{tree_index_insert, tree_index_new, tree_index_upsert};
use crate::pair::Pair;
use crate::status::{NO, NO_MEMORY, YES};
use std::alloc::{AllocError, Global};
use std::process::Abort;
use test_support::refusals::{answers_again, begins, ends, is_out_of_memory, succeeds};

/// What a place holds before a call.
const BLANK: u64 = 77;

/// The kinds of bounds.
const UNBOUNDED: u8 = 0;

const INCLUDED: u8 = 1;

const EXCLUDED: u8 = 2;

/// The most bytes that a key has.
const LONGEST: usize = 12;

/// How many bytes the keys of 256 numbers have in common.
const COMMON: usize = 7;

/// How many places a fill has.
const PLACES: usize = 4;

/// The most pairs that a test stores.
const MOST: usize = 4000;

/// A call of an export that may allocate. Those of an index of byte strings are said of the keys of these numbers.
#[derive(Clone, Copy)]
enum Call {
    New,
    Insert(u64, u64),
    Upsert(u64, u64),
    Remove(u64),
    Take(u64),
    PopFirst,
    PopLast,
    AtOrBelow(u64),
    AtOrAbove(u64),
    Fill(u64, u64),
    FillBack(u64, u64),
    RemoveRange(u64, u64),
    PrefixEnd(u64),
    RemovePrefix(u64),
    FromSorted(u64),
    Copy,
    Freeze,
    Share,
}

/// The places that a call may write to.
#[derive(Clone, Copy)]
struct Places {
    value: u64,
    key: [u8; LONGEST],
    entry: Entry,
    count: usize,
    keys: [u8; 48],
    entries: [Entry; PLACES],
}

/// An index, and the pairs that it should have. A value is the number of its key unless it was replaced.
#[derive(Drop)]
struct Subject<'r, R: Abort> {
    rt: &'r R,
    alloc: Global,
    is_bytes: bool,
    handle: Handle,
    other: Handle,
    pairs: Vec<(u64, u64)>,
    ascending: Vec<(u64, u64)>,
    places: Places,
    room: Room,
}

/// Places for all pairs of an index.
#[derive(Drop)]
struct Room {
    keys: Vec<u8>,
    entries: Vec<Entry>,
    pairs: Vec<Pair>,
}

/// The bytes of a number, highest first, and up to four more, so that keys differ in length. Returns their count too.
fn bytes_of(number: u64) -> ([u8; LONGEST], usize) {
    let mut bytes = [b'x'; LONGEST];
    let mut rest = number;
    for at in 0..8usize {
        bytes[7 - at] = (rest % 256) as u8;
        rest = rest / 256;
    }
    (bytes, 8 + (number % 5) as usize)
}

/// Whether these bytes are those of a number.
fn are_of(bytes: &[u8], number: u64) -> bool {
    let (wanted, length) = bytes_of(number);
    bytes == &wanted[..length]
}

/// The name of the export of a call.
fn name_of(call: Call, is_bytes: bool) -> &'static str {
    match call {
        Call::New if is_bytes => "tree_index_bytes_new",
        Call::New => "tree_index_new",
        Call::Insert(_, _) if is_bytes => "tree_index_bytes_insert",
        Call::Insert(_, _) => "tree_index_insert",
        Call::Upsert(_, _) if is_bytes => "tree_index_bytes_upsert",
        Call::Upsert(_, _) => "tree_index_upsert",
        Call::Remove(_) => "tree_index_bytes_remove",
        Call::Take(_) => "tree_index_bytes_take",
        Call::PopFirst => "tree_index_bytes_pop_first",
        Call::PopLast => "tree_index_bytes_pop_last",
        Call::AtOrBelow(_) => "tree_index_bytes_at_or_below",
        Call::AtOrAbove(_) => "tree_index_bytes_at_or_above",
        Call::Fill(_, _) => "tree_index_bytes_fill",
        Call::FillBack(_, _) => "tree_index_bytes_fill_back",
        Call::RemoveRange(_, _) => "tree_index_bytes_remove_range",
        Call::PrefixEnd(_) => "tree_index_bytes_prefix_end",
        Call::RemovePrefix(_) => "tree_index_bytes_remove_prefix",
        Call::FromSorted(_) if is_bytes => "tree_index_bytes_from_sorted",
        Call::FromSorted(_) => "tree_index_from_sorted",
        Call::Copy => "tree_index_copy",
        Call::Freeze => "tree_index_freeze",
        Call::Share => "tree_index_share",
    }
}

impl Places {
    fn blank() -> Places {
        let entry = Entry {
            length: BLANK as usize,
            value: BLANK,
        };
        Places {
            value: BLANK,
            key: [BLANK as u8; LONGEST],
            entry,
            count: BLANK as usize,
            keys: [BLANK as u8; 48],
            entries: [entry; PLACES],
        }
    }

    /// Whether no call wrote to them.
    fn are_blank(&self) -> bool {
        self.value == BLANK
            && self.key.iter().all(|byte| *byte == BLANK as u8)
            && is_blank(self.entry)
            && self.count == BLANK as usize
            && self.keys.iter().all(|byte| *byte == BLANK as u8)
            && self.entries.iter().all(|entry| is_blank(*entry))
    }

    /// Whether this pair was written to the entry.
    fn have(&self, pair: (u64, u64)) -> bool {
        let (number, value) = pair;
        let Some(bytes) = self.key.get(..self.entry.length) else {
            return false;
        };
        are_of(bytes, number) && self.entry.value == value
    }
}

fn is_blank(entry: Entry) -> bool {
    entry.length == BLANK as usize && entry.value == BLANK
}

impl<R: Abort> Subject<'_, R> {
    /// Makes a call and returns its answer.
    fn made(&mut self, call: Call) -> i32 {
        self.places = Places::blank();
        begins(self.alloc, name_of(call, self.is_bytes));
        let answer = if self.is_bytes {
            self.made_of_bytes(call)
        } else {
            self.made_of_numbers(call)
        };
        ends(self.alloc);
        answer
    }

    fn made_of_numbers(&mut self, call: Call) -> i32 {
        let alloc = self.alloc;
        match call {
            Call::New => tree_index_new(alloc, &mut self.handle),
            Call::Insert(key, value) => tree_index_insert(alloc, &mut self.handle, key, value),
            Call::Upsert(key, value) => tree_index_upsert(alloc, &mut self.handle, key, value),
            Call::FromSorted(count) => {
                for at in 0..count {
                    self.room.pairs[at as usize] = Pair { key: at, value: at };
                }
                let opened = if self.handle.is_open {
                    &mut self.other
                } else {
                    &mut self.handle
                };
                tree_index_from_sorted(alloc, opened, &self.room.pairs[..count as usize])
            }
            Call::Freeze => tree_index_freeze(alloc, &mut self.handle),
            Call::Share => tree_index_share(alloc, &mut self.handle, &mut self.other),
            _ => tree_index_copy(alloc, &mut self.handle, &mut self.other),
        }
    }

    fn made_of_bytes(&mut self, call: Call) -> i32 {
        let alloc = self.alloc;
        let handle = &mut self.handle;
        let places = &mut self.places;
        match call {
            Call::New => tree_index_bytes_new(alloc, handle),
            Call::Insert(number, value) => {
                let (key, length) = bytes_of(number);
                tree_index_bytes_insert(alloc, handle, &key[..length], value)
            }
            Call::Upsert(number, value) => {
                let (key, length) = bytes_of(number);
                tree_index_bytes_upsert(alloc, handle, &key[..length], value)
            }
            Call::Remove(number) => {
                let (key, length) = bytes_of(number);
                tree_index_bytes_remove(alloc, handle, &key[..length])
            }
            Call::Take(number) => {
                let (key, length) = bytes_of(number);
                tree_index_bytes_take(alloc, handle, &key[..length], &mut places.value)
            }
            Call::PopFirst => {
                tree_index_bytes_pop_first(alloc, handle, &mut places.key, &mut places.entry)
            }
            Call::PopLast => {
                tree_index_bytes_pop_last(alloc, handle, &mut places.key, &mut places.entry)
            }
            Call::AtOrBelow(number) => {
                let (key, length) = bytes_of(number);
                tree_index_bytes_at_or_below(
                    alloc,
                    handle,
                    &key[..length],
                    &mut places.key,
                    &mut places.entry,
                )
            }
            Call::AtOrAbove(number) => {
                let (key, length) = bytes_of(number);
                tree_index_bytes_at_or_above(
                    alloc,
                    handle,
                    &key[..length],
                    &mut places.key,
                    &mut places.entry,
                )
            }
            Call::Fill(low, high) => {
                let (low, low_length) = bytes_of(low);
                let (high, high_length) = bytes_of(high);
                tree_index_bytes_fill(
                    alloc,
                    handle,
                    INCLUDED,
                    &low[..low_length],
                    EXCLUDED,
                    &high[..high_length],
                    &mut places.keys,
                    &mut places.entries,
                    &mut places.count,
                )
            }
            Call::FillBack(low, high) => {
                let (low, low_length) = bytes_of(low);
                let (high, high_length) = bytes_of(high);
                tree_index_bytes_fill_back(
                    alloc,
                    handle,
                    INCLUDED,
                    &low[..low_length],
                    EXCLUDED,
                    &high[..high_length],
                    &mut places.keys,
                    &mut places.entries,
                    &mut places.count,
                )
            }
            Call::RemoveRange(low, high) => {
                let (low, low_length) = bytes_of(low);
                let (high, high_length) = bytes_of(high);
                tree_index_bytes_remove_range(
                    alloc,
                    handle,
                    INCLUDED,
                    &low[..low_length],
                    EXCLUDED,
                    &high[..high_length],
                )
            }
            Call::PrefixEnd(number) => {
                let (key, _) = bytes_of(number);
                let prefix = &key[..COMMON];
                tree_index_bytes_prefix_end(alloc, prefix, &mut places.key, &mut places.count)
            }
            Call::RemovePrefix(number) => {
                let (key, _) = bytes_of(number);
                tree_index_bytes_remove_prefix(alloc, handle, &key[..COMMON], &mut places.count)
            }
            Call::FromSorted(count) => {
                let mut used = 0;
                for at in 0..count {
                    let (key, length) = bytes_of(at);
                    self.room.keys[used..used + length].copy_from_slice(&key[..length]);
                    self.room.entries[at as usize] = Entry { length, value: at };
                    used += length;
                }
                let opened = if handle.is_open {
                    &mut self.other
                } else {
                    handle
                };
                tree_index_bytes_from_sorted(
                    alloc,
                    opened,
                    &self.room.keys[..used],
                    &self.room.entries[..count as usize],
                )
            }
            Call::Copy => tree_index_copy(alloc, handle, &mut self.other),
            Call::Freeze => tree_index_freeze(alloc, handle),
            Call::Share => tree_index_share(alloc, handle, &mut self.other),
        }
    }

    /// The place of the first pair whose key isn't smaller.
    fn place(&self, key: u64) -> usize {
        self.pairs.partition_point(|pair| pair.0 < key)
    }

    /// The pair of a key, if it is stored.
    fn pair_at(&self, key: u64) -> Option<(u64, u64)> {
        let pair = *self.pairs.get(self.place(key))?;
        if pair.0 == key { Some(pair) } else { None }
    }

    /// Removes the pair of a key from the vector.
    fn forget(&mut self, pair: Option<(u64, u64)>) {
        if let Some((key, _)) = pair {
            let at = self.place(key);
            self.pairs.remove(at);
        }
    }

    /// Stores a pair in the vector, which has room.
    fn note(&mut self, key: u64, value: u64) {
        let at = self.place(key);
        if self.pair_at(key).is_some() {
            self.pairs[at].1 = value;
        } else {
            self.pairs.insert(at, (key, value)).unwrap();
        }
    }

    /// Whether an answer is that of the vector, which then changes as the index did.
    fn accepts(&mut self, call: Call, answer: i32) -> bool {
        match call {
            Call::New => answer == YES,
            Call::Insert(key, value) => {
                if self.pair_at(key).is_some() {
                    return answer == NO;
                }
                self.note(key, value);
                answer == YES
            }
            Call::Upsert(key, value) => {
                self.note(key, value);
                answer == YES
            }
            Call::Remove(key) => {
                let found = self.pair_at(key);
                self.forget(found);
                answer == if found.is_some() { YES } else { NO }
            }
            Call::Take(key) => {
                let found = self.pair_at(key);
                self.forget(found);
                match found {
                    Some((_, value)) => answer == YES && self.places.value == value,
                    None => answer == NO && self.places.are_blank(),
                }
            }
            Call::PopFirst => {
                let found = self.pairs.first().copied();
                self.forget(found);
                self.found(answer, found)
            }
            Call::PopLast => {
                let found = self.pairs.last().copied();
                self.forget(found);
                self.found(answer, found)
            }
            Call::AtOrBelow(key) => {
                let before = self.place(key).checked_sub(1);
                let below = before.and_then(|at| self.pairs.get(at).copied());
                let at = self.pair_at(key);
                self.found(answer, if at.is_some() { at } else { below })
            }
            Call::AtOrAbove(key) => {
                let above = self.pairs.get(self.place(key)).copied();
                self.found(answer, above)
            }
            Call::Fill(low, high) => answer == YES && self.filled(low, high, false),
            Call::FillBack(low, high) => answer == YES && self.filled(low, high, true),
            Call::RemoveRange(low, high) => {
                let (from, to) = (self.place(low), self.place(high));
                for _ in from..to {
                    self.pairs.remove(from);
                }
                answer == YES
            }
            Call::PrefixEnd(number) => {
                let (end, _) = bytes_of(number / 256 * 256 + 256);
                answer == YES
                    && self.places.count == COMMON
                    && self.places.key[..COMMON] == end[..COMMON]
            }
            Call::RemovePrefix(number) => {
                let low = number / 256 * 256;
                let (from, to) = (self.place(low), self.place(low + 256));
                for _ in from..to {
                    self.pairs.remove(from);
                }
                answer == YES && self.places.count == to - from
            }
            Call::FromSorted(count) if self.other.is_open => {
                answer == YES && self.other_is_ascending(count)
            }
            Call::FromSorted(count) => {
                for key in 0..count {
                    self.note(key, key);
                }
                answer == YES
            }
            Call::Copy | Call::Share => answer == YES && self.other_is_a_copy(),
            Call::Freeze => answer == YES,
        }
    }

    /// Whether a call found this pair.
    fn found(&self, answer: i32, pair: Option<(u64, u64)>) -> bool {
        match pair {
            Some(pair) => answer == YES && self.places.have(pair),
            None => answer == NO && self.places.are_blank(),
        }
    }

    /// Whether a fill wrote the first pairs between two keys, or the last ones.
    fn filled(&self, low: u64, high: u64, backwards: bool) -> bool {
        let (from, to) = (self.place(low), self.place(high));
        let count = (to - from).min(PLACES);
        let mut used = 0;
        for at in 0..count {
            let pair = self.pairs[if backwards { to - 1 - at } else { from + at }];
            let entry = self.places.entries[at];
            if !are_of(&self.places.keys[used..used + entry.length], pair.0)
                || entry.value != pair.1
            {
                return false;
            }
            used += entry.length;
        }
        self.places.count == count
    }

    /// Whether the other handle has the pairs of the numbers below this one. Frees it.
    fn other_is_ascending(&mut self, count: u64) -> bool {
        let pairs = &self.ascending[..count as usize];
        let are = have(self.alloc, &mut self.other, self.is_bytes, &mut self.room, pairs);
        tree_index_free(self.alloc, &mut self.other);
        are
    }

    /// Whether the other handle has the pairs of the index. Frees it.
    fn other_is_a_copy(&mut self) -> bool {
        let are = have(self.alloc, &mut self.other, self.is_bytes, &mut self.room, &self.pairs);
        tree_index_free(self.alloc, &mut self.other);
        are
    }

    /// Whether the index has its pairs, walked both ways, and the other handle is closed.
    fn stands(&mut self) -> bool {
        have(self.alloc, &mut self.handle, self.is_bytes, &mut self.room, &self.pairs)
            && !self.other.is_open
    }

    /// Makes a call, and makes it again if an allocation failed. Returns `Err` if one fails again, so that there is no memory.
    fn step(&mut self, call: Call) -> Result<(), AllocError> {
        let name = name_of(call, self.is_bytes);
        let was_open = self.handle.is_open;
        let depth = tree_index_depth(self.alloc, &mut self.handle);
        let mut answer = self.made(call);
        if answer == NO_MEMORY {
            self.is_unchanged(call, was_open, depth);
            answer = self.made(call);
            if answer == NO_MEMORY {
                self.is_unchanged(call, was_open, depth);
                assert!(self.rt; is_out_of_memory(self.alloc));
                return Err(AllocError);
            }
            assert!(self.rt; self.accepts(call, answer));
            assert!(self.rt; self.stands());
            answers_again(self.alloc, name);
            return Ok(());
        }
        assert!(self.rt; self.accepts(call, answer));
        Ok(())
    }

    /// Asserts that a call which couldn't allocate changed nothing. An insert may have made the tree deeper.
    fn is_unchanged(&mut self, call: Call, was_open: bool, depth: usize) {
        let after = tree_index_depth(self.alloc, &mut self.handle);
        let may_climb = matches!(call, Call::Insert(_, _)) || matches!(call, Call::Upsert(_, _));
        assert!(self.rt; after == depth || may_climb && after == depth + 1);
        assert!(self.rt; self.places.are_blank());
        assert!(self.rt; self.handle.is_open == was_open && !self.other.is_open);
        assert!(self.rt; !was_open || self.stands());
    }
}

/// Whether the index of a handle has these pairs, walked both ways.
fn have(
    alloc: Global,
    handle: &mut Handle,
    is_bytes: bool,
    room: &mut Room,
    pairs: &[(u64, u64)],
) -> bool {
    if !handle.is_open || tree_index_len(alloc, handle) != pairs.len() {
        return false;
    }
    if is_bytes {
        return walks_bytes(alloc, handle, room, pairs, false)
            && walks_bytes(alloc, handle, room, pairs, true);
    }
    walks(alloc, handle, room, pairs, false) && walks(alloc, handle, room, pairs, true)
}

/// Whether a walk over numbers gives these pairs, or the same backwards.
fn walks(
    alloc: Global,
    handle: &mut Handle,
    room: &mut Room,
    pairs: &[(u64, u64)],
    backwards: bool,
) -> bool {
    let places = &mut room.pairs;
    let count = if backwards {
        tree_index_fill_back(alloc, handle, UNBOUNDED, 0, UNBOUNDED, 0, places)
    } else {
        tree_index_fill(alloc, handle, UNBOUNDED, 0, UNBOUNDED, 0, places)
    };
    for at in 0..pairs.len() {
        let pair = pairs[if backwards { pairs.len() - 1 - at } else { at }];
        if (places[at].key, places[at].value) != pair {
            return false;
        }
    }
    count == pairs.len()
}

/// The same of byte strings.
fn walks_bytes(
    alloc: Global,
    handle: &mut Handle,
    room: &mut Room,
    pairs: &[(u64, u64)],
    backwards: bool,
) -> bool {
    let mut count = 0;
    let Room { keys, entries, .. } = room;
    let none: [u8; 0] = [];
    let answer = if backwards {
        tree_index_bytes_fill_back(
            alloc, handle, UNBOUNDED, &none, UNBOUNDED, &none, keys, entries, &mut count,
        )
    } else {
        tree_index_bytes_fill(
            alloc, handle, UNBOUNDED, &none, UNBOUNDED, &none, keys, entries, &mut count,
        )
    };
    let mut used = 0;
    for at in 0..pairs.len() {
        let (key, value) = pairs[if backwards { pairs.len() - 1 - at } else { at }];
        let entry = entries[at];
        if entry.value != value || !are_of(&keys[used..used + entry.length], key) {
            return false;
        }
        used += entry.length;
    }
    answer == YES && count == pairs.len()
}

/// Makes a test's calls on a closed handle, and frees it.
fn play<R: Abort>(
    rt: &R,
    alloc: Global,
    is_bytes: bool,
    calls: impl Fn(&mut Subject<'_, R>) -> Result<(), AllocError>,
) -> Result<(), AllocError> {
    let blank = Places::blank();
    let mut subject = Subject {
        rt,
        alloc,
        is_bytes,
        handle: Handle::closed(alloc),
        other: Handle::closed(alloc),
        pairs: Vec::with_capacity(alloc, MOST)?,
        ascending: (0..MOST as u64).map(|key| (key, key)).collect(alloc)?,
        places: blank,
        room: Room {
            keys: Vec::from_elem(alloc, 0u8, MOST * LONGEST)?,
            entries: Vec::from_elem(alloc, blank.entry, MOST)?,
            pairs: Vec::from_elem(alloc, Pair { key: 0, value: 0 }, MOST)?,
        },
    };
    let outcome = calls(&mut subject);
    if outcome.is_ok() {
        assert!(rt; subject.stands());
    }
    tree_index_free(alloc, &mut subject.handle);
    tree_index_free(alloc, &mut subject.other);
    assert!(rt; !subject.handle.is_open && !subject.other.is_open);
    outcome
}

/// Stores pairs in no order of their keys.
fn scatter<R: Abort>(subject: &mut Subject<'_, R>, count: u64) -> Result<(), AllocError> {
    for at in 0..count {
        let key = at * 7 % count;
        subject.step(Call::Insert(key, key))?;
    }
    Ok(())
}

/// Makes a call on an index of these many pairs, which is as full as can be.
fn full<R: Abort>(
    rt: &R,
    alloc: Global,
    is_bytes: bool,
    count: u64,
    call: Call,
) -> Result<(), AllocError> {
    play(rt, alloc, is_bytes, |subject| {
        subject.step(Call::FromSorted(count))?;
        subject.step(call)
    })
}

/// The calls that an index of either kind takes, from a closed handle on.
fn of_either<R: Abort>(subject: &mut Subject<'_, R>) -> Result<(), AllocError> {
    subject.step(Call::New)?;
    subject.step(Call::FromSorted(0))?;
    subject.step(Call::Copy)?;
    subject.step(Call::Upsert(5, 5))?;
    subject.step(Call::FromSorted(1))?;
    scatter(subject, 40)?;
    subject.step(Call::Insert(5, 6))?;
    subject.step(Call::Upsert(5, 6))?;
    subject.step(Call::Upsert(50, 6))?;
    subject.step(Call::Copy)?;
    subject.step(Call::Freeze)?;
    subject.step(Call::Share)?;
    subject.step(Call::Copy)?;
    assert!(subject.rt; tree_index_thaw(subject.alloc, &mut subject.handle) == YES);
    subject.step(Call::FromSorted(40))
}

#[test]
fn exports_of_numbers(rt: HostRuntime) {
    let alloc = rt.alloc();
    assert!(rt; succeeds(alloc, || play(&rt, alloc, false, |subject| {
        of_either(subject)?;
        subject.step(Call::FromSorted(300))
    })));
}

#[test]
fn exports_of_bytes(rt: HostRuntime) {
    let alloc = rt.alloc();
    assert!(rt; succeeds(alloc, || play(&rt, alloc, true, |subject| {
        of_either(subject)?;
        for key in [7, 45, 60] {
            subject.step(Call::AtOrBelow(key))?;
            subject.step(Call::AtOrAbove(key))?;
            subject.step(Call::Fill(key, key + 3))?;
            subject.step(Call::FillBack(key, key + 30))?;
            subject.step(Call::Take(key))?;
            subject.step(Call::Remove(key + 1))?;
            subject.step(Call::PopFirst)?;
            subject.step(Call::PopLast)?;
            subject.step(Call::RemoveRange(key + 2, key + 6))?;
        }
        for key in [200, 256, 300, 511, 512] {
            subject.step(Call::Upsert(key, key))?;
        }
        subject.step(Call::PrefixEnd(300))?;
        subject.step(Call::RemovePrefix(300))?;
        subject.step(Call::RemovePrefix(300))?;
        subject.step(Call::RemoveRange(0, 1000))?;
        subject.step(Call::PopFirst)?;
        subject.step(Call::PopLast)
    })));
}

/// The numbers of pairs that fill a leaf, a node over leaves, and a node over nodes.
const FULL: [u64; 3] = [15, 240, 3615];

#[test]
fn inserts_into_full_arrays(rt: HostRuntime) {
    let alloc = rt.alloc();
    for count in FULL {
        assert!(rt; succeeds(alloc, || full(&rt, alloc, false, count, Call::Insert(count, 0))));
    }
}

#[test]
fn upserts_into_full_arrays(rt: HostRuntime) {
    let alloc = rt.alloc();
    for count in FULL {
        assert!(rt; succeeds(alloc, || full(&rt, alloc, false, count, Call::Upsert(count, 0))));
    }
}

#[test]
fn inserts_bytes_into_full_arrays(rt: HostRuntime) {
    let alloc = rt.alloc();
    assert!(rt; succeeds(alloc, || full(&rt, alloc, true, 240, Call::Insert(240, 0))));
}

#[test]
fn upserts_bytes_into_a_full_leaf(rt: HostRuntime) {
    let alloc = rt.alloc();
    assert!(rt; succeeds(alloc, || full(&rt, alloc, true, 15, Call::Upsert(15, 0))));
}
