//! Calls that are refused, before the lock is taken and under it.
ghost use Rattle.std.specs.Prelude.{◌≡◌, ◌≤◌, ℕ};
ghost use Rattle.std.proofs.Common.{rules, sym};
ghost use Rattle.tree_model.specs.Keys.{equal_numbers};
ghost use Rattle.tree_state.specs.Ledgers.{IsBlankFor};

use crate::one_worker::{Scenario, play};
use std::alloc::{AllocError, Global};
use std::cell::Cell;
use std::ops::Bound;
use std::sync::Wait;
use test_support::refusals::succeeds;
use tree_index::{IndexKey, InsertError, SameClone};
use tree_shared::{Blanks, Books, PassOf, SharedOver, Tally};

// A number that refuses one of its clones, after so many that it gives.
#[derive(Drop)]
#[derive_where(PartialEq, Eq, PartialOrd, Ord)]
struct Brittle {
    number: u64,
    #[derive_where(skip(EqHashOrd))]
    gives: Cell<u64>,
}

impl Brittle {
    fn new(number: u64, gives: u64) -> Self
        ensures { result.number ≡ number }
    {
        Brittle {
            number,
            gives: Cell::new(gives),
        }
    }

    // One that gives clones enough.
    fn firm(number: u64) -> Self
        ensures { result.number ≡ number }
    {
        Brittle::new(number, u64::MAX)
    }
}

impl Clone for Brittle {
    ghost is_clone = { λ value clone. clone.number ≡ value.number };

    ghost is_infallible = { λ _. ⊥ };

    fn clone(&self) -> Result<Self, AllocError> {
        let gives = self.gives.get();
        self.gives.set(gives.wrapping_sub(1));
        if gives == 0 {
            return Err(AllocError);
        }
        Ok(Brittle::firm(self.number))
    }
}

impl IndexKey for Brittle {
    ghost clone_equal = { λ x y h. equal_numbers x.number y.number h };
}

impl SameClone for Brittle {
    ghost Seen = { ℕ };

    ghost seen = { λ x. x.number };

    ghost clone_seen = { λ x y h. sym h };
}

// Whether an insert that is refused a clone hands its pair back and leaves the tally, and is
// answered later.
fn hands_an_insert_back<B: Books, R: Wait>(
    rt: &R,
    shared: &SharedOver<Brittle, Brittle, B, 15>,
    pass: &mut PassOf<B>,
) -> Result<bool, AllocError>
    requires { pass.old.calls ≤ 9 }
{
    let Err(InsertError::OutOfMemory(key, value)) = shared.insert(
        rt,
        pass,
        Brittle::new(1, 0),
        Brittle::firm(10),
    ) else {
        return Ok(false);
    };
    if (key.number, value.number, pass.tally().calls) != (1, 10, 0) {
        return Ok(false);
    }
    let removed = shared.remove(rt, pass, &key)?;
    shared
        .insert(rt, pass, key, Brittle::new(10, 1))
        .map_err(|_| AllocError)?;
    Ok(!removed)
}

// Whether other calls that are refused a clone leave the tally of two calls, and hand a pair back.
// A look-up is answered then.
fn leaves_the_tally<B: Books, R: Wait>(
    rt: &R,
    shared: &SharedOver<Brittle, Brittle, B, 15>,
    pass: &mut PassOf<B>,
) -> Result<bool, AllocError> {
    let before = pass.tally();
    if before.calls != 2 {
        return Ok(false);
    }
    let Err((key, value)) = shared.upsert(rt, pass, Brittle::firm(1), Brittle::new(11, 0)) else {
        return Ok(false);
    };
    let (firm, brittle) = (Brittle::firm(1), Brittle::new(1, 0));
    let refused = [
        shared.remove(rt, pass, &Brittle::new(1, 0)).is_err(),
        shared
            .remove_range(
                rt,
                pass,
                (Bound::Included(&Brittle::new(1, 0)), Bound::Included(&firm)),
            )
            .is_err(),
        shared
            .remove_range(
                rt,
                pass,
                (Bound::Included(&firm), Bound::Included(&brittle)),
            )
            .is_err(),
        shared.peek(rt, pass, &Brittle::new(1, 0)).is_err(),
        shared.peek(rt, pass, &key).is_err(),
    ];
    let told = (key.number, value.number, pass.tally() == before);
    if refused != [true; 5] || told != (1, 11, true) {
        return Ok(false);
    }
    Ok(shared.peek(rt, pass, &key)? == Some(Brittle::firm(10)))
}

// Whether such calls are answered so, and the closed index then has their one pair, and its
// history the answered calls.
pub(crate) fn refused_calls<B: Books, R: Wait>(
    rt: &R,
    alloc: Global,
    workers: usize,
    blanks: Blanks,
) -> Result<bool, AllocError>
    requires calls { IsBlankFor workers blanks.calls B.calls.name B.calls.parts }
    requires stored { IsBlankFor workers blanks.stored B.stored.name B.stored.parts }
    requires removed { IsBlankFor workers blanks.removed B.removed.name B.removed.parts }
    requires found { IsBlankFor workers blanks.found B.found.name B.found.parts }
    requires done { IsBlankFor workers blanks.done B.done.name B.done.parts }
{
    let (shared, mut passes) = SharedOver::<Brittle, Brittle, B, 15>::new(alloc, workers, blanks)?;
    let Some(pass) = passes.get_mut(0) else {
        return Ok(false);
    };
    let answered = hands_an_insert_back(rt, &shared, pass)? && leaves_the_tally(rt, &shared, pass)?;
    let Ok(closed) = shared.close(passes) else {
        return Ok(false);
    };
    let wanted = Tally {
        calls: 3,
        stored: 1,
        removed: 0,
        found: 1,
        done: 0,
    };
    Ok(answered && closed.tally == wanted && closed.history.len() == 3 && closed.index.len() == 1)
}

#[test]
fn refusals_leave_no_trace(rt: HostRuntime) {
    assert!(rt; succeeds(rt.alloc(), || play(&rt, rt.alloc(), Scenario::Clones)));
}

// Whether a look-up of a text is told as it was answered. Where it is refused, the next one finds
// the value. `Err` if it was refused.
pub(crate) fn looks_a_text_up<B: Books, R: Wait>(
    rt: &R,
    alloc: Global,
    workers: usize,
    blanks: Blanks,
) -> Result<bool, AllocError>
    requires calls { IsBlankFor workers blanks.calls B.calls.name B.calls.parts }
    requires stored { IsBlankFor workers blanks.stored B.stored.name B.stored.parts }
    requires removed { IsBlankFor workers blanks.removed B.removed.name B.removed.parts }
    requires found { IsBlankFor workers blanks.found B.found.name B.found.parts }
    requires done { IsBlankFor workers blanks.done B.done.name B.done.parts }
{
    let (shared, mut passes) = SharedOver::<String, String, B, 15>::new(alloc, workers, blanks)?;
    let Some(pass) = passes.get_mut(0) else {
        return Ok(false);
    };
    let (key, value) = (String::from_str(alloc, "k")?, String::from_str(alloc, "v")?);
    shared.insert(rt, pass, key, value).map_err(|_| AllocError)?;
    find_text(rt, &shared, pass, &String::from_str(alloc, "k")?)
}

// Looks a text up, a second time where that is refused.
fn find_text<B: Books, R: Wait>(
    rt: &R,
    shared: &SharedOver<String, String, B, 15>,
    pass: &mut PassOf<B>,
    key: &String,
) -> Result<bool, AllocError>
    requires { pass.old.calls ≤ 1 }
{
    let first = shared.peek(rt, pass, key);
    let is_refused = first.is_err();
    if pass.tally().found != u64::from(!is_refused) {
        return Ok(false);
    }
    let told = if is_refused {
        shared.peek(rt, pass, key)?
    } else {
        first?
    };
    let tally = pass.tally();
    if told.as_deref() != Some("v") || (tally.found, tally.calls) != (1, 2) {
        return Ok(false);
    }
    if is_refused {
        Err(AllocError)
    } else {
        Ok(true)
    }
}

#[test]
fn a_refused_look_up_finds_nothing(rt: HostRuntime) {
    assert!(rt;
        succeeds(
            rt.alloc(),
            || play(&rt, rt.alloc(), Scenario::LookUpOfText)
        )
    );
}
