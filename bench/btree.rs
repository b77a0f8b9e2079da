//! The workloads of `bench/treebench` over `std::collections::BTreeMap`: the same keys, the same arguments, the same
//! lines of output. With `shared` first, those of `bench/sharebench`; with `reads`, those of `bench/readbench`.
mod reads;
mod shared;

use shared::Load;
use std::collections::BTreeMap;
use std::env::args;
use std::fs::read_to_string;
use std::mem::take;
use std::process::exit;
use std::time::{Duration, Instant};

const FEW: usize = 1000;

#[derive(Clone, Copy)]
enum Workload {
    InsertAscending,
    AppendAscending,
    InsertRandom,
    UpsertRandom,
    ReplaceRandom,
    ModifyRandom,
    PeekHit,
    PeekMiss,
    RemoveRandom,
    RemoveMiddle,
    CutByRetain,
    CutBySplitOff,
    BuildAndDrop,
    WalkAscending,
    WalkBackAscending,
    WalkRandom,
    WalkBackRandom,
    RangesOf100,
    Nearest,
    CloneAndDrop,
    InsertText(Spelling),
    PeekText(Spelling),
    WalkText(Spelling),
}

/// How random keys that are texts are spelled.
#[derive(Clone, Copy)]
enum Spelling {
    Digits,
    Path,
    Word,
}

use Spelling::{Digits, Path, Word};

// The rows of strings, of keys of text and of keys of bytes are the same here, and so are those of batches.
const ALL: [(Workload, &str); 40] = [
    (Workload::InsertAscending, "insert_ascending"),
    (Workload::AppendAscending, "append_ascending"),
    (Workload::InsertRandom, "insert_random"),
    (Workload::UpsertRandom, "upsert_random"),
    (Workload::UpsertRandom, "upsert_batch"),
    (Workload::ReplaceRandom, "replace_random"),
    (Workload::ModifyRandom, "modify_random"),
    (Workload::PeekHit, "peek_hit"),
    (Workload::PeekMiss, "peek_miss"),
    (Workload::PeekHit, "peek_batch"),
    (Workload::PeekMiss, "peek_batch_miss"),
    (Workload::RemoveRandom, "remove_random"),
    (Workload::RemoveMiddle, "remove_middle"),
    (Workload::CutByRetain, "cut_beside_retain"),
    (Workload::CutBySplitOff, "cut_beside_split_off"),
    (Workload::BuildAndDrop, "build_and_drop"),
    (Workload::WalkAscending, "walk_ascending"),
    (Workload::WalkBackAscending, "walk_back_ascending"),
    (Workload::WalkRandom, "walk_random"),
    (Workload::WalkBackRandom, "walk_back_random"),
    (Workload::RangesOf100, "ranges_of_100"),
    (Workload::Nearest, "nearest"),
    (Workload::Nearest, "nearest_batch"),
    (Workload::CloneAndDrop, "clone_and_drop"),
    (Workload::InsertText(Digits), "insert_string"),
    (Workload::PeekText(Digits), "peek_string"),
    (Workload::InsertText(Digits), "insert_text"),
    (Workload::PeekText(Digits), "peek_text"),
    (Workload::PeekText(Digits), "peek_batch_text"),
    (Workload::WalkText(Digits), "walk_text"),
    (Workload::InsertText(Digits), "insert_bytes"),
    (Workload::PeekText(Digits), "peek_bytes"),
    (Workload::InsertText(Path), "insert_string_paths"),
    (Workload::PeekText(Path), "peek_string_paths"),
    (Workload::InsertText(Path), "insert_text_paths"),
    (Workload::PeekText(Path), "peek_text_paths"),
    (Workload::InsertText(Word), "insert_string_words"),
    (Workload::PeekText(Word), "peek_string_words"),
    (Workload::InsertText(Word), "insert_text_words"),
    (Workload::PeekText(Word), "peek_text_words"),
];

struct Numbers {
    last: u64,
}

impl Numbers {
    fn new() -> Self {
        Numbers {
            last: 0x9e37_79b9_7f4a_7c15,
        }
    }

    fn draw(&mut self) -> u64 {
        self.last ^= self.last << 13;
        self.last ^= self.last >> 7;
        self.last ^= self.last << 17;
        self.last
    }

    fn list(&mut self, count: usize) -> Vec<u64> {
        (0..count).map(|_| self.draw()).collect()
    }

    fn shuffle<T>(&mut self, items: &mut [T]) {
        for place in 1..items.len() {
            let other = self.draw() % (place as u64 + 1);
            items.swap(place, other as usize);
        }
    }
}

fn ascending(first: usize, end: usize) -> Vec<u64> {
    (first..end).map(|number| number as u64).collect()
}

/// Spells random numbers, each with its place.
fn texts(spelling: Spelling, numbers: &[(u64, u64)]) -> Vec<String> {
    numbers
        .iter()
        .map(|&(number, place)| match spelling {
            Spelling::Digits => format!("{number:016x}"),
            Spelling::Path => format!("/srv/data/customers/{number:016x}"),
            Spelling::Word => {
                let front = letters(place.wrapping_mul(0x9e37_79b1), 4);
                front + &letters(number / 9, number % 9)
            }
        })
        .collect()
}

/// So many letters and digits, five bits of the number each.
fn letters(number: u64, count: u64) -> String {
    (0..count)
        .scan(number, |rest, _| {
            let letter = char::from_digit((*rest % 32) as u32, 36);
            *rest /= 32;
            letter
        })
        .collect()
}

fn insert_all<K: Ord>(map: &mut BTreeMap<K, u64>, keys: Vec<K>) -> u64 {
    let mut stored = 0u64;
    for key in keys {
        map.insert(key, stored);
        stored += 1;
    }
    stored
}

fn peek_all<K: Ord>(map: &BTreeMap<K, u64>, keys: &[K]) -> u64 {
    let mut sum = 0u64;
    for key in keys {
        if let Some(value) = map.get(key) {
            sum = summed(sum, *value);
        }
    }
    sum
}

/// Adds one to the value of each key.
fn modify_all<K: Ord>(map: &mut BTreeMap<K, u64>, keys: &[K]) -> u64 {
    let mut modified = 0u64;
    for key in keys {
        if let Some(value) = map.get_mut(key) {
            *value += 1;
            modified += 1;
        }
    }
    modified
}

fn summed(sum: u64, value: u64) -> u64 {
    sum.wrapping_mul(31).wrapping_add(value).wrapping_add(1)
}

fn walk<'m>(values: impl Iterator<Item = &'m u64>) -> u64 {
    values.fold(0, |sum, value| summed(sum, *value))
}

fn walk_ranges<K: Ord>(map: &BTreeMap<K, u64>, keys: &[K]) -> u64 {
    walk(keys.iter().flat_map(|key| map.range(key..).take(100).map(|(_, value)| value)))
}

/// The values of the nearest smaller key and of the nearest larger one, no key being there.
fn locate_all<K: Ord>(map: &BTreeMap<K, u64>, keys: &[K]) -> u64 {
    walk(keys.iter().flat_map(|key| {
        let smaller = map.range(..key).next_back();
        let larger = map.range(key..).next();
        smaller.into_iter().chain(larger).map(|(_, value)| value)
    }))
}

fn remove_all<K: Ord>(map: &mut BTreeMap<K, u64>, keys: &[K]) -> u64 {
    let mut removed = 0u64;
    for key in keys {
        if map.remove(key).is_some() {
            removed += 1;
        }
    }
    removed
}

/// Removes the keys from the first of the list to the last, each key being looked at.
fn retain_others<K: Ord>(map: &mut BTreeMap<K, u64>, keys: &[K]) -> u64 {
    let (Some(first), Some(last)) = (keys.first(), keys.last()) else {
        return 0;
    };
    let before = map.len();
    map.retain(|key, _| key < first || key > last);
    (before - map.len()) as u64
}

/// Removes them by two divisions of the map, and joins the outer parts.
fn split_off_middle<K: Ord>(map: &mut BTreeMap<K, u64>, keys: &[K]) -> u64 {
    let (Some(first), Some(last)) = (keys.first(), keys.last()) else {
        return 0;
    };
    let before = map.len();
    let mut middle = map.split_off(first);
    let mut behind = middle.split_off(last);
    behind.remove(last);
    map.append(&mut behind);
    (before - map.len()) as u64
}

struct Scene<K> {
    map: BTreeMap<K, u64>,
    coming: Vec<K>,
    asked: Vec<K>,
}

impl<K: Ord + Clone> Scene<K> {
    fn empty(coming: Vec<K>, asked: Vec<K>) -> Self {
        Scene {
            map: BTreeMap::new(),
            coming,
            asked,
        }
    }

    fn filled(keys: Vec<K>, coming: Vec<K>, asked: Vec<K>) -> Self {
        let mut map = BTreeMap::new();
        insert_all(&mut map, keys);
        Scene { map, coming, asked }
    }

    fn run(&mut self, workload: Workload) -> u64 {
        let coming = take(&mut self.coming);
        match workload {
            Workload::PeekHit | Workload::PeekMiss | Workload::PeekText(_) => {
                peek_all(&self.map, &self.asked)
            }
            Workload::ModifyRandom => modify_all(&mut self.map, &self.asked),
            Workload::RemoveRandom | Workload::RemoveMiddle => {
                remove_all(&mut self.map, &self.asked)
            }
            Workload::CutByRetain => retain_others(&mut self.map, &self.asked),
            Workload::CutBySplitOff => split_off_middle(&mut self.map, &self.asked),
            Workload::BuildAndDrop => insert_all(&mut BTreeMap::new(), coming),
            Workload::WalkAscending | Workload::WalkRandom | Workload::WalkText(_) => {
                walk(self.map.values())
            }
            Workload::WalkBackAscending | Workload::WalkBackRandom => walk(self.map.values().rev()),
            Workload::RangesOf100 => walk_ranges(&self.map, &self.asked),
            Workload::Nearest => locate_all(&self.map, &self.asked),
            Workload::CloneAndDrop => self.map.clone().len() as u64,
            _ => insert_all(&mut self.map, coming),
        }
    }

    fn sum(&self) -> u64 {
        peek_all(&self.map, &self.asked).wrapping_add((self.map.len() as u64) << 32)
    }

    fn measure(mut self, workload: Workload) -> (Duration, usize, u64) {
        let start = Instant::now();
        let answers = self.run(workload);
        let time = start.elapsed();
        (time, self.asked.len(), answers.rotate_left(16) ^ self.sum())
    }
}

fn scene_of_numbers(workload: Workload, size: usize) -> Scene<u64> {
    let mut source = Numbers::new();
    let keys = source.list(size);
    let mut order = keys.clone();
    source.shuffle(&mut order);
    match workload {
        Workload::InsertAscending | Workload::AppendAscending => {
            Scene::empty(ascending(0, size), ascending(0, size))
        }
        Workload::UpsertRandom | Workload::ReplaceRandom => {
            Scene::filled(keys, order.clone(), order)
        }
        Workload::WalkAscending | Workload::WalkBackAscending => {
            Scene::filled(ascending(0, size), Vec::new(), ascending(0, size))
        }
        Workload::RangesOf100 => {
            order.truncate(size.div_ceil(100));
            Scene::filled(keys, Vec::new(), order)
        }
        Workload::PeekMiss | Workload::Nearest => {
            Scene::filled(keys, Vec::new(), source.list(size))
        }
        Workload::ModifyRandom
        | Workload::PeekHit
        | Workload::RemoveRandom
        | Workload::WalkRandom
        | Workload::WalkBackRandom
        | Workload::CloneAndDrop => Scene::filled(keys, Vec::new(), order),
        Workload::RemoveMiddle | Workload::CutByRetain | Workload::CutBySplitOff => {
            let mut all = ascending(0, size);
            Numbers::new().shuffle(&mut all);
            Scene::filled(all, Vec::new(), ascending(size / 4, size - size / 4))
        }
        _ => Scene::empty(keys, order),
    }
}

fn scene_of_texts(workload: Workload, spelling: Spelling, size: usize) -> Scene<String> {
    let mut source = Numbers::new();
    let mut numbers: Vec<(u64, u64)> = source.list(size).into_iter().zip(0..).collect();
    let keys = texts(spelling, &numbers);
    source.shuffle(&mut numbers);
    let order = texts(spelling, &numbers);
    match workload {
        Workload::InsertText(_) => Scene::empty(keys, order),
        _ => Scene::filled(keys, Vec::new(), order),
    }
}

fn measure(workload: Workload, size: usize) -> (Duration, usize, u64) {
    match workload {
        Workload::InsertText(spelling) | Workload::PeekText(spelling) | Workload::WalkText(spelling) => {
            scene_of_texts(workload, spelling, size).measure(workload)
        }
        _ => scene_of_numbers(workload, size).measure(workload),
    }
}

fn show_checksums() {
    for (workload, name) in ALL {
        let (_, _, checksum) = measure(workload, FEW);
        println!("{name} {checksum:016x}");
    }
}

fn show_times(workloads: &[(Workload, &str)], size: usize, repeats: usize) {
    for &(workload, name) in workloads {
        let (mut least, calls, checksum) = measure(workload, size);
        for _ in 1..repeats {
            least = least.min(measure(workload, size).0);
        }
        let tenths = (least.as_nanos() * 10).checked_div(calls as u128).unwrap_or(0);
        println!("{name} {}.{} {checksum:016x}", tenths / 10, tenths % 10);
    }
}

fn greatest_resident() -> usize {
    let status = read_to_string("/proc/self/status").expect("/proc/self/status can be read");
    status
        .lines()
        .find_map(|line| line.strip_prefix("VmHWM:")?.trim().strip_suffix(" kB")?.parse().ok())
        .expect("/proc/self/status tells the greatest resident size")
}

fn show_memory(size: usize) {
    let before = greatest_resident();
    let mut source = Numbers::new();
    let mut map = BTreeMap::new();
    for _ in 0..size {
        let key = source.draw();
        map.insert(key, key);
    }
    let grown = greatest_resident().saturating_sub(before);
    println!("memory {} {}", (grown * 1024).checked_div(size).unwrap_or(0), map.len());
}

fn load_of(keys: &str, threads: &str, calls: &str) -> Option<Load> {
    Load::new(keys.parse().ok()?, threads.parse().ok()?, calls.parse().ok()?)
}

fn main() {
    let words: Vec<String> = args().skip(1).collect();
    let number = |word: &String| word.parse().ok();
    match words.as_slice() {
        [] => return show_checksums(),
        [first, keys] if first == "memory" => {
            if let Some(keys) = number(keys) {
                return show_memory(keys);
            }
        }
        [keys, repeats] => {
            if let (Some(keys), Some(repeats)) = (number(keys), number(repeats)) {
                return show_times(&ALL, keys, repeats);
            }
        }
        [name, keys, repeats] => {
            let named = ALL.iter().find(|(_, other)| other == name);
            if let (Some(&named), Some(keys), Some(repeats)) = (named, number(keys), number(repeats)) {
                return show_times(&[named], keys, repeats);
            }
        }
        [first] if first == "shared" => return shared::show_few(),
        [first, keys, threads, calls] if first == "shared" => {
            if let Some(load) = load_of(keys, threads, calls) {
                return shared::show_time(load);
            }
        }
        [first, kind, keys, calls] if first == "reads" => {
            if let (Some(keys), Some(calls)) = (number(keys), number(calls)) {
                if reads::show_rates(kind, keys as u64, calls as u64) {
                    return;
                }
            }
        }
        _ => {}
    }
    eprintln!("usage: btree [[WORKLOAD] KEYS REPEATS | memory KEYS | shared | shared KEYS THREADS CALLS | reads KIND KEYS CALLS]");
    exit(1);
}
