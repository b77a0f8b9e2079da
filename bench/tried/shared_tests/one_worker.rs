//! The calls of one worker, in which an allocation fails.
ghost use Rattle.std.specs.Prelude.{◌≡◌, All};
ghost use Rattle.tree_state.specs.Tallies.{none};

use crate::calls::{Outcome, make_calls};
use crate::closed::closed_with;
use crate::growth::{grows, grows_small};
use crate::numbers::{Row, reply_to};
use crate::pairs::{has_pairs, pairs_after};
use crate::refusals::{looks_a_text_up, refused_calls};
use crate::texts::has_calls;
use std::alloc::{AllocError, Global};
use std::marker::Brand;
use std::ops::Bound;
use std::process::Abort;
use std::sync::Wait;
use test_support::refusals::succeeds;
use tree_index::{Command, Reply};
use tree_shared::{Blanks, Books, ClosedOf, PassOf, SharedOver, Tally};

// What a test does with a shared index.
#[derive(Clone, Copy)]
pub(crate) enum Scenario {
    Calls(&'static [Row]),
    SmallCalls(&'static [Row]),
    Grows(u64),
    SmallGrows(u64),
    InsertAndRemove,
    Clones,
    LookUpOfText,
}

// Plays a scenario for one worker, with ledgers of its own, and sees that it is answered as it
// should be.
pub(crate) fn play<R: Wait + Abort>(
    rt: &R,
    alloc: Global,
    scenario: Scenario,
) -> Result<(), AllocError> {
    assert!(rt; is_answered::<Brand, R>(rt, alloc, scenario, Blanks::new(1))?);
    Ok(())
}

// Whether a scenario is answered as it should be.
fn is_answered<B: Books, R: Wait + Abort>(
    rt: &R,
    alloc: Global,
    scenario: Scenario,
    blanks: Blanks,
) -> Result<bool, AllocError> {
    match scenario {
        Scenario::Calls(rows) => {
            let (shared, passes) = SharedOver::<String, String, B, 15>::new(alloc, 1, blanks)?;
            each_call(rt, alloc, shared, passes, rows)
        }
        Scenario::SmallCalls(rows) => {
            let (shared, passes) = SharedOver::<String, String, B, 7>::new(alloc, 1, blanks)?;
            each_small_call(rt, alloc, shared, passes, rows)
        }
        Scenario::Grows(count) => {
            let (shared, passes) = SharedOver::<u64, u64, B, 15>::new(alloc, 1, blanks)?;
            grows(rt, alloc, shared, passes, count)
        }
        Scenario::SmallGrows(count) => {
            let (shared, passes) = SharedOver::<u64, u64, B, 7>::new(alloc, 1, blanks)?;
            grows_small(rt, alloc, shared, passes, count)
        }
        Scenario::InsertAndRemove => {
            let (shared, passes) = SharedOver::<u64, u64, B, 15>::new(alloc, 1, blanks)?;
            insert_and_remove(rt, shared, passes)
        }
        Scenario::Clones => refused_calls::<B, R>(rt, alloc, 1, blanks),
        Scenario::LookUpOfText => looks_a_text_up::<B, R>(rt, alloc, 1, blanks),
    }
}

static CALLS: [Row; 10] = [
    (Command::Insert(1, 4), Reply::Stored),
    (Command::Insert(2, 5), Reply::Stored),
    (Command::Insert(3, 6), Reply::Stored),
    (Command::Upsert(1, 7), Reply::Stored),
    (Command::Remove(2), Reply::Removed(true)),
    (Command::Remove(2), Reply::Removed(false)),
    (
        Command::RemoveRange(Bound::Included(3), Bound::Unbounded),
        Reply::Done,
    ),
    (Command::Peek(1), Reply::Found(Some(7))),
    (Command::Clear, Reply::Done),
    (Command::Peek(1), Reply::Found(None)),
];

const FIRST: Row = (Command::Insert(1, 6), Reply::Stored);

const SECOND: Row = (Command::Insert(2, 7), Reply::Stored);

const THIRD: Row = (Command::Insert(3, 8), Reply::Stored);

const FOURTH: Row = (Command::Insert(4, 9), Reply::Stored);

const MIDDLE: Command<u64, u64> = Command::RemoveRange(Bound::Included(2), Bound::Excluded(4));

// Each call behind four others, where the history has to grow.
static LAST_CALLS: [[Row; 5]; 7] = [
    [
        FIRST,
        SECOND,
        THIRD,
        FOURTH,
        (Command::Insert(5, 1), Reply::Stored),
    ],
    [
        FIRST,
        SECOND,
        THIRD,
        FOURTH,
        (Command::Insert(4, 2), Reply::Duplicate),
    ],
    [
        FIRST,
        SECOND,
        THIRD,
        FOURTH,
        (Command::Upsert(2, 3), Reply::Stored),
    ],
    [
        FIRST,
        SECOND,
        THIRD,
        FOURTH,
        (Command::Remove(3), Reply::Removed(true)),
    ],
    [FIRST, SECOND, THIRD, FOURTH, (MIDDLE, Reply::Done)],
    [FIRST, SECOND, THIRD, FOURTH, (Command::Clear, Reply::Done)],
    [
        FIRST,
        SECOND,
        THIRD,
        FOURTH,
        (Command::Peek(2), Reply::Found(Some(7))),
    ],
];

// The tally of calls that are answered so.
fn tally_of(rows: &[Row]) -> Tally {
    let mut tally = Tally {
        calls: rows.len() as u64,
        ..Tally::default()
    };
    for (_, reply) in rows {
        match reply {
            Reply::Stored => tally.stored = tally.stored.saturating_add(1),
            Reply::Removed(true) => tally.removed = tally.removed.saturating_add(1),
            Reply::Found(Some(_)) => tally.found = tally.found.saturating_add(1),
            Reply::Done => tally.done = tally.done.saturating_add(1),
            _ => {}
        }
    }
    tally
}

// Returns the calls that were answered: those that the history and its tally have, or `None` if
// these have others.
fn answered<'r, const LEN: usize>(
    closed: &ClosedOf<String, String, LEN>,
    outcome: Outcome,
    rows: &'r [Row],
) -> Option<&'r [Row]> {
    let made = rows.get(..closed.history.len())?;
    let fits = match outcome {
        Outcome::Answered | Outcome::AnsweredAgain => made.len() == rows.len(),
        Outcome::OutOfMemory => made.len() < rows.len(),
        Outcome::Wrong => false,
    };
    if fits && closed.tally == tally_of(made) && has_calls(&closed.history, made) {
        Some(made)
    } else {
        None
    }
}

// `Ok` with this if nothing was refused. So a test makes its steps again otherwise.
pub(crate) fn ample(holds: bool, outcome: Outcome) -> Result<bool, AllocError> {
    if holds && outcome != Outcome::Answered {
        return Err(AllocError);
    }
    Ok(holds)
}

// Makes these calls over texts of numbers below 10. Returns whether they are answered as they
// should be, and leave the pairs that they should. `Err` if one was refused.
pub(crate) fn each_call<B: Books, R: Wait>(
    rt: &R,
    alloc: Global,
    shared: SharedOver<String, String, B, 15>,
    mut passes: Vec<PassOf<B>>,
    rows: &[Row],
) -> Result<bool, AllocError> {
    let Some(pass) = passes.get_mut(0) else {
        return Ok(false);
    };
    let outcome = make_calls(rt, alloc, &shared, pass, rows);
    let Ok(closed) = shared.close(passes) else {
        return Ok(false);
    };
    let outcome = outcome?;
    let holds = match answered(&closed, outcome, rows) {
        Some(made) => has_pairs(&closed.index, &pairs_after(made)),
        None => false,
    };
    ample(holds, outcome)
}

// The same over an index of seven pairs a leaf.
pub(crate) fn each_small_call<B: Books, R: Wait>(
    rt: &R,
    alloc: Global,
    shared: SharedOver<String, String, B, 7>,
    mut passes: Vec<PassOf<B>>,
    rows: &[Row],
) -> Result<bool, AllocError> {
    let Some(pass) = passes.get_mut(0) else {
        return Ok(false);
    };
    let outcome = make_calls(rt, alloc, &shared, pass, rows);
    let Ok(closed) = shared.close(passes) else {
        return Ok(false);
    };
    let outcome = outcome?;
    let holds = match answered(&closed, outcome, rows) {
        Some(made) => has_pairs(&closed.index, &pairs_after(made)),
        None => false,
    };
    ample(holds, outcome)
}

#[test]
fn each_call_is_recorded(rt: HostRuntime) {
    for scenario in [Scenario::Calls(&CALLS), Scenario::SmallCalls(&CALLS)] {
        assert!(rt; succeeds(rt.alloc(), || play(&rt, rt.alloc(), scenario)));
    }
}

#[test]
fn each_call_is_made_again(rt: HostRuntime) {
    for rows in &LAST_CALLS {
        for scenario in [Scenario::Calls(rows), Scenario::SmallCalls(rows)] {
            assert!(rt; succeeds(rt.alloc(), || play(&rt, rt.alloc(), scenario)));
        }
    }
}

// Whether an insert, which may be refused, and the removal of its key are told as they were
// answered. `Err` if the insert was refused.
pub(crate) fn insert_and_remove<B: Books, R: Wait + Abort>(
    rt: &R,
    shared: SharedOver<u64, u64, B, 15>,
    mut passes: Vec<PassOf<B>>,
) -> Result<bool, AllocError>
    requires { All (λ pass. pass ≡ none) passes.items }
{
    let Some(pass) = passes.get_mut(0) else {
        return Ok(false);
    };
    let inserted = reply_to(rt, &shared, pass, &Command::Insert(1, 10));
    let calls = u64::from(inserted.is_ok());
    if pass.tally().calls != calls {
        return Ok(false);
    }
    let removed = reply_to(rt, &shared, pass, &Command::Remove(1))?;
    let Some(closed) = closed_with(shared, passes) else {
        return Ok(false);
    };
    let told = (
        closed.tally.calls,
        closed.history.len() as u64,
        closed.index.is_empty(),
    );
    if removed != Reply::Removed(inserted.is_ok()) || told != (calls + 1, calls + 1, true) {
        return Ok(false);
    }
    Ok(inserted? == Reply::Stored)
}

#[test]
fn a_refused_insert_leaves_no_trace(rt: HostRuntime) {
    assert!(rt;
        succeeds(
            rt.alloc(),
            || play(&rt, rt.alloc(), Scenario::InsertAndRemove)
        )
    );
}
