//! The pairs that calls leave, worked out on a row of ten places.
use crate::numbers::Row;
use crate::texts::is_text;
use std::ops::RangeBounds;
use tree_index::{Command, TreeIndexOf};

// The value at each key below 10.
pub(crate) type Places = [Option<u64>; 10];

// Answers a command on the places.
fn answer(places: &mut Places, command: &Command<u64, u64>) {
    match command {
        Command::Insert(key, value) => {
            if let Some(place) = places.get_mut(*key as usize) {
                *place = place.or(Some(*value));
            }
        }
        Command::Upsert(key, value) => {
            if let Some(place) = places.get_mut(*key as usize) {
                *place = Some(*value);
            }
        }
        Command::Remove(key) => {
            if let Some(place) = places.get_mut(*key as usize) {
                *place = None;
            }
        }
        Command::RemoveRange(low, high) => {
            for (key, place) in places.iter_mut().enumerate() {
                if (*low, *high).contains(&(key as u64)) {
                    *place = None;
                }
            }
        }
        Command::Clear => *places = [None; 10],
        Command::Peek(_) => {}
    }
}

// Returns the pairs that calls over keys below 10 leave.
pub(crate) fn pairs_after(rows: &[Row]) -> Places {
    let mut places = [None; 10];
    for (command, _) in rows {
        answer(&mut places, command);
    }
    places
}

// Returns how many places have a value.
fn stored_in(places: &Places) -> usize {
    places.iter().filter(|place| place.is_some()).count()
}

// Returns whether an index has these pairs and no others.
#[tactic(auto, using(tree_node::proofs::Common::fits))]
pub(crate) fn has_pairs<const LEN: usize>(
    index: &TreeIndexOf<String, String, LEN>,
    places: &Places,
) -> bool {
    let mut walk = index.iter();
    for (number, place) in places.iter().enumerate() {
        if let Some(value) = place {
            let Some((key, stored)) = walk.next() else {
                return false;
            };
            if !is_text(key, number as u64) || !is_text(stored, *value) {
                return false;
            }
        }
    }
    walk.next().is_none() && index.len() == stored_in(places)
}
