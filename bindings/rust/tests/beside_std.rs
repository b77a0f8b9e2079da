//! Random calls on both indexes, each beside `BTreeMap`, and threads that share one behind a lock.
use std::collections::BTreeMap;
use std::ops::Bound;
use std::sync::{Arc, Mutex};
use std::thread;
use tree_index::{ByteIndex, InsertError, TreeIndex};

/// Random numbers, by the steps of SplitMix64.
struct Chance(u64);

impl Chance {
    fn draw(&mut self) -> u64 {
        self.0 = self.0.wrapping_add(0x9E37_79B9_7F4A_7C15);
        let x = (self.0 ^ (self.0 >> 30)).wrapping_mul(0xBF58_476D_1CE4_E5B9);
        let x = (x ^ (x >> 27)).wrapping_mul(0x94D0_49BB_1331_11EB);
        x ^ (x >> 31)
    }

    fn below(&mut self, limit: u64) -> u64 {
        self.draw() % limit
    }

    fn bounds<K: Ord>(&mut self, a: K, b: K) -> (Bound<K>, Bound<K>) {
        let (low, high) = if a <= b { (a, b) } else { (b, a) };
        let low = match self.below(3) {
            0 => Bound::Unbounded,
            1 => Bound::Included(low),
            _ => Bound::Excluded(low),
        };
        let high = match self.below(3) {
            0 => Bound::Unbounded,
            _ => Bound::Included(high),
        };
        (low, high)
    }
}

/// The first and the last of some pairs, by turns drawn at random from both ends.
fn ends<T>(chance: &mut Chance, mut pairs: impl DoubleEndedIterator<Item = T>, most: usize) -> Vec<T> {
    let mut taken = Vec::new();
    let mut turns = Chance(chance.draw());
    while taken.len() < most {
        let Some(pair) = (if turns.below(2) == 0 { pairs.next() } else { pairs.next_back() }) else { break };
        taken.push(pair);
    }
    if turns.below(4) == 0 {
        pairs.for_each(|pair| taken.push(pair));
    }
    taken
}

fn numbers(keys: u64, calls: usize) {
    let (mut chance, mut index, mut map) = (Chance(keys), TreeIndex::new().unwrap(), BTreeMap::new());
    for _ in 0..calls {
        let (key, value) = (chance.below(keys), chance.draw());
        match chance.below(14) {
            13 => assert_eq!(index.replace(key, value), map.get_mut(&key).map(|old| std::mem::replace(old, value))),
            0..=3 => match map.entry(key) {
                std::collections::btree_map::Entry::Occupied(_) => assert_eq!(index.insert(key, value), Err(InsertError::Duplicate)),
                std::collections::btree_map::Entry::Vacant(place) => {
                    place.insert(value);
                    assert_eq!(index.insert(key, value), Ok(()));
                }
            },
            4 => {
                map.insert(key, value);
                index.upsert(key, value).unwrap();
            }
            5 | 6 => assert_eq!(index.remove(key), map.remove(&key)),
            7 => {
                assert_eq!((index.peek(key), index.contains(key)), (map.get(&key).copied(), map.contains_key(&key)));
                let sought: Vec<u64> = (0..chance.below(40)).map(|_| chance.below(keys)).collect();
                assert_eq!(index.peek_many(&sought), sought.iter().map(|key| map.get(key).copied()).collect::<Vec<_>>());
            }
            8 => {
                assert_eq!(index.at_or_above(key), map.range(key..).next().map(|(k, v)| (*k, *v)));
                assert_eq!(index.at_or_below(key), map.range(..=key).next_back().map(|(k, v)| (*k, *v)));
            }
            9 => assert_eq!((index.pop_first(), index.pop_last()), (map.pop_first(), map.pop_last())),
            10 | 11 => {
                let bounds = chance.bounds(key, key + 1 + chance.0 % (keys / 3 + 1));
                let (most, seed) = (chance.below(300) as usize, chance.0);
                let told = ends(&mut Chance(seed), index.range(bounds), most);
                let want = ends(&mut Chance(seed), map.range(bounds).map(|(k, v)| (*k, *v)), most);
                assert_eq!(told, want);
                let (mut into, mut values) = (vec![7; most.min(90)], vec![7; seed as usize % 90]);
                let room = into.len().min(values.len());
                let count = index.fill(bounds, &mut into, &mut values);
                assert!(map.range(bounds).take(room).eq(into[..count].iter().zip(&values)));
                let count = index.fill_back(bounds, &mut into, &mut values);
                assert!(map.range(bounds).rev().take(room).eq(into[..count].iter().zip(&values)));
            }
            _ if chance.below(30) == 0 => {
                let (low, high) = (key, key + chance.below(keys / 5 + 1));
                index.remove_range(low..high);
                map.retain(|k, _| !(low..high).contains(k));
            }
            _ => assert_eq!((index.len(), index.first(), index.last()), (map.len(), map.first_key_value().map(|(k, v)| (*k, *v)), map.last_key_value().map(|(k, v)| (*k, *v)))),
        }
    }
    assert!(index.iter().eq(map.iter().map(|(k, v)| (*k, *v))));
    assert!(index.try_clone().unwrap().iter().rev().eq(map.iter().rev().map(|(k, v)| (*k, *v))));
    println!("Rust, numbers below {keys}: {calls} calls, all answers as BTreeMap's, {} pairs at the end", map.len());
}

fn byte_strings(longest: u64, letters: u64, calls: usize) {
    let (mut chance, mut index, mut map) = (Chance(longest), ByteIndex::new().unwrap(), BTreeMap::<Vec<u8>, u64>::new());
    let word = |chance: &mut Chance| -> Vec<u8> { (0..chance.below(longest + 1)).map(|_| (chance.below(letters) * 255 / (letters - 1)) as u8).collect() };
    for _ in 0..calls {
        let (key, other, value) = (word(&mut chance), word(&mut chance), chance.draw());
        match chance.below(10) {
            0..=2 => {
                let want = if map.contains_key(&key) { Err(InsertError::Duplicate) } else { Ok(()) };
                assert_eq!(index.insert(&key, value), want);
                map.entry(key).or_insert(value);
            }
            3 => {
                index.upsert(&key, value).unwrap();
                map.insert(key, value);
            }
            4 => assert_eq!(index.remove(&key), Ok(map.remove(&key))),
            5 => assert_eq!((index.peek(&key), index.contains(&key)), (map.get(&key).copied(), map.contains_key(&key))),
            6 => {
                assert_eq!(index.at_or_above(&key), map.range(key.clone()..).next().map(|(k, v)| (k.clone(), *v)));
                assert_eq!(index.at_or_below(&key), map.range(..=key).next_back().map(|(k, v)| (k.clone(), *v)));
            }
            7 => {
                let bounds = chance.bounds(key, other);
                let (most, seed) = (chance.below(200) as usize, chance.0);
                let told = ends(&mut Chance(seed), index.range::<Vec<u8>>(bounds.clone()), most);
                let want = ends(&mut Chance(seed), map.range::<Vec<u8>, _>(bounds).map(|(k, v)| (k.clone(), *v)), most);
                assert_eq!(told, want);
            }
            8 => {
                let begins = |k: &Vec<u8>| k.starts_with(&key);
                let seed = chance.0;
                let told = ends(&mut Chance(seed), index.prefix(&key), usize::MAX);
                let want = ends(&mut Chance(seed), map.iter().filter(|(k, _)| begins(k)).map(|(k, v)| (k.clone(), *v)), usize::MAX);
                assert_eq!(told, want);
                if chance.below(30) == 0 {
                    assert_eq!(index.remove_prefix(&key), Ok(want.len()));
                    map.retain(|k, _| !begins(k));
                }
            }
            _ if chance.below(30) == 0 => {
                index.remove_range::<&Vec<u8>>(&key..&other).unwrap();
                map.retain(|k, _| !(&key..&other).contains(&k));
            }
            _ => assert_eq!((index.len(), index.first()), (map.len(), map.first_key_value().map(|(k, v)| (k.clone(), *v)))),
        }
    }
    assert!(index.iter().eq(map.iter().map(|(k, v)| (k.clone(), *v))));
    let mut copy = ByteIndex::new().unwrap();
    copy.try_extend(map.iter().map(|(k, v)| (k, *v))).unwrap();
    for _ in 0..100 {
        assert_eq!((copy.pop_first(), copy.pop_last()), (map.pop_first(), map.pop_last()));
    }
    println!("Rust, keys of at most {longest} bytes: {calls} calls, all answers as BTreeMap's, {} pairs at the end", map.len());
}

#[test]
fn answers_as_btree_map() {
    for keys in [30, 3_000, 300_000] {
        numbers(keys, 100_000);
    }
}

#[test]
fn answers_as_btree_map_over_bytes() {
    byte_strings(3, 3, 50_000);
    byte_strings(12, 15, 50_000);
    byte_strings(3_000, 2, 2_000);
}

#[test]
fn is_used_as_a_standard_map_is() {
    let pairs = || (0..200).map(|key| (key * 7 % 200, key));
    let mut index: TreeIndex = pairs().collect();
    let mut map: BTreeMap<u64, u64> = pairs().collect();
    index.extend([(5, 1), (500, 2)]);
    map.extend([(5, 1), (500, 2)]);
    let mut copy = index.clone();
    copy.clear();
    assert_eq!(format!("{index:?} {copy:?}"), format!("{map:?} {{}}"));
    let mut walked = Vec::new();
    for (key, value) in &index {
        walked.push((key, value));
    }
    assert_eq!(walked, map.into_iter().collect::<Vec<_>>());
}

#[test]
fn of_bytes_is_used_as_a_standard_map_is() {
    let words = || (0..200).map(|key| (format!("{:03}", key * 7 % 200), key));
    let mut index: ByteIndex = words().collect();
    let mut map: BTreeMap<String, u64> = words().collect();
    index.extend([("005", 1), ("more", 2)]);
    map.extend([("005".to_owned(), 1), ("more".to_owned(), 2)]);
    let mut copy = index.clone();
    copy.clear();
    assert_eq!(format!("{index:?} {copy:?}"), format!("{map:?} {{}}"));
    let mut walked = Vec::new();
    for (key, value) in &index {
        walked.push((String::from_utf8(key).unwrap(), value));
    }
    assert_eq!(walked, map.into_iter().collect::<Vec<_>>());
}

#[test]
fn is_shared_behind_a_lock() {
    let shared = Arc::new(Mutex::new(TreeIndex::new().unwrap()));
    let workers: Vec<_> = (0..4)
        .map(|worker| {
            let shared = shared.clone();
            thread::spawn(move || (0..50_000).filter(|key| shared.lock().unwrap().insert(*key, worker).is_ok()).count())
        })
        .collect();
    let stored: usize = workers.into_iter().map(|worker| worker.join().unwrap()).sum();
    let index = Arc::into_inner(shared).unwrap().into_inner().unwrap();
    assert_eq!((stored, index.len()), (50_000, 50_000));
    assert!(index.iter().map(|(key, _)| key).eq(0..50_000));
    println!("Rust: four threads around a lock stored each of 50,000 keys once");
}
