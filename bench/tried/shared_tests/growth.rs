//! Inserts into a shared index that gains levels.
use crate::calls::Outcome;
use crate::numbers::reply_to;
use crate::one_worker::{Scenario, ample, play};
use std::alloc::{AllocError, Global};
use std::process::Abort;
use std::sync::Wait;
use test_support::refusals::{answers_again, begins, ends, is_out_of_memory, succeeds};
use tree_index::{Command, Record, Reply};
use tree_shared::{Books, PassOf, SharedOver, Tally};
use tree_support::flaws;

const INSERT: &str = "SharedTreeIndex::insert";

// Inserts an absent number, a second time if an allocation fails.
fn insert_twice<B: Books, R: Wait + Abort, const LEN: usize>(
    rt: &R,
    alloc: Global,
    shared: &SharedOver<u64, u64, B, LEN>,
    pass: &mut PassOf<B>,
    number: u64,
) -> Outcome {
    let insert = Command::Insert(number, number);
    begins(alloc, INSERT);
    let told = reply_to(rt, shared, pass, &insert);
    ends(alloc);
    match told {
        Ok(Reply::Stored) => return Outcome::Answered,
        Ok(_) => return Outcome::Wrong,
        Err(_) => {}
    }
    begins(alloc, INSERT);
    let told = reply_to(rt, shared, pass, &insert);
    ends(alloc);
    match told {
        Ok(Reply::Stored) => {
            answers_again(alloc, INSERT);
            Outcome::AnsweredAgain
        }
        Err(_) if is_out_of_memory(alloc) => Outcome::OutOfMemory,
        _ => Outcome::Wrong,
    }
}

// Inserts the numbers from 1 on, so many, up to one that is refused both times or goes wrong.
fn insert_all<B: Books, R: Wait + Abort, const LEN: usize>(
    rt: &R,
    alloc: Global,
    shared: &SharedOver<u64, u64, B, LEN>,
    pass: &mut PassOf<B>,
    count: u64,
) -> Outcome {
    let mut outcome = Outcome::Answered;
    for number in 1..=count {
        match insert_twice(rt, alloc, shared, pass, number) {
            Outcome::Answered => {}
            Outcome::AnsweredAgain => outcome = Outcome::AnsweredAgain,
            ended => return ended,
        }
    }
    outcome
}

// Returns whether a history has the inserts of the numbers from 1 on, in turn.
fn are_inserts(history: &[Record<u64, u64>]) -> bool {
    let mut number = 0u64;
    for record in history {
        number = number.saturating_add(1);
        if record.command != Command::Insert(number, number) || record.reply != Reply::Stored {
            return false;
        }
    }
    true
}

// Returns the pairs of the numbers from 1 on, so many.
fn ascending(alloc: Global, count: u64) -> Result<Vec<(u64, u64)>, AllocError> {
    let mut pairs = Vec::new(alloc);
    for number in 1..=count {
        pairs.push((number, number))?;
    }
    Ok(pairs)
}

// Returns the pairs whose inserts a history and its tally have, or `None` if these have others.
fn inserted<'p>(
    history: &[Record<u64, u64>],
    tally: Tally,
    outcome: Outcome,
    pairs: &'p [(u64, u64)],
) -> Option<&'p [(u64, u64)]> {
    let made = pairs.get(..history.len())?;
    let wanted = Tally {
        calls: made.len() as u64,
        stored: made.len() as u64,
        ..Tally::default()
    };
    let fits = match outcome {
        Outcome::Answered | Outcome::AnsweredAgain => made.len() == pairs.len(),
        Outcome::OutOfMemory => made.len() < pairs.len(),
        Outcome::Wrong => false,
    };
    if fits && tally == wanted && are_inserts(history) {
        Some(made)
    } else {
        None
    }
}

// Inserts so many numbers in ascending order by the first pass, closes the index and walks its
// tree. Returns whether each is answered and stored. `Err` if one was refused.
pub(crate) fn grows<B: Books, R: Wait + Abort>(
    rt: &R,
    alloc: Global,
    shared: SharedOver<u64, u64, B, 15>,
    mut passes: Vec<PassOf<B>>,
    count: u64,
) -> Result<bool, AllocError> {
    let pairs = ascending(alloc, count)?;
    let Some(pass) = passes.get_mut(0) else {
        return Ok(false);
    };
    let outcome = insert_all(rt, alloc, &shared, pass, count);
    let Ok(closed) = shared.close(passes) else {
        return Ok(false);
    };
    let holds = match inserted(&closed.history, closed.tally, outcome, &pairs) {
        Some(made) => flaws(&closed.index, made).is_ok(),
        None => false,
    };
    ample(holds, outcome)
}

// The same over an index of seven pairs a leaf.
pub(crate) fn grows_small<B: Books, R: Wait + Abort>(
    rt: &R,
    alloc: Global,
    shared: SharedOver<u64, u64, B, 7>,
    mut passes: Vec<PassOf<B>>,
    count: u64,
) -> Result<bool, AllocError> {
    let pairs = ascending(alloc, count)?;
    let Some(pass) = passes.get_mut(0) else {
        return Ok(false);
    };
    let outcome = insert_all(rt, alloc, &shared, pass, count);
    let Ok(closed) = shared.close(passes) else {
        return Ok(false);
    };
    let holds = match inserted(&closed.history, closed.tally, outcome, &pairs) {
        Some(made) => flaws(&closed.index, made).is_ok(),
        None => false,
    };
    ample(holds, outcome)
}

// The last pair makes a second level at fifteen pairs a leaf, and a third at seven.
#[test]
fn inserts_into_a_growing_tree_are_made_again(rt: HostRuntime) {
    for scenario in [Scenario::Grows(241), Scenario::SmallGrows(400)] {
        assert!(rt; succeeds(rt.alloc(), || play(&rt, rt.alloc(), scenario)));
    }
}
