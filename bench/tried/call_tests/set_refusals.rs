//! Calls of a set of texts in which an allocation fails.
use std::alloc::{AllocError, Global};
use std::iter::Extend;
use std::process::Abort;
use test_support::refusals::{begins, ends, is_granted_again, succeeds};
use tree_set::{SmallTreeSet, TreeSetOf};

// Ascending texts, so many.
fn ascending(alloc: Global, count: u64) -> Result<Vec<String>, AllocError> {
    let mut texts = Vec::with_capacity(alloc, count as usize)?;
    for number in 0..count {
        texts.push(format!(in alloc; "{}", number.saturating_add(100))?)?;
    }
    Ok(texts)
}

// Whether a set has these elements.
fn has(set: &SmallTreeSet<String>, texts: &[String]) -> bool {
    let mut walk = set.iter();
    for text in texts {
        if walk.next() != Some(text) {
            return false;
        }
    }
    walk.next().is_none()
}

const INSERT: &str = "TreeSet::insert";

// Inserts the last text into a set of the others. Returns `false` if an allocation fails: the text
// came back then, and the set is as it was.
fn insert_once(
    rt: &impl Abort,
    alloc: Global,
    set: &mut SmallTreeSet<String>,
    texts: &[String],
) -> Result<bool, AllocError> {
    let Some((last, others)) = texts.split_last() else {
        return Ok(true);
    };
    let element = last.clone()?;
    begins(alloc, INSERT);
    let answer = set.insert(element);
    ends(alloc);
    match answer {
        Ok(is_new) => {
            assert!(rt; is_new && has(set, texts));
            Ok(true)
        }
        Err(back) => {
            assert!(rt; back == *last && has(set, others));
            Ok(false)
        }
    }
}

// Inserts a text at once or the second time.
fn insert_twice(
    rt: &impl Abort,
    alloc: Global,
    set: &mut SmallTreeSet<String>,
    texts: &[String],
) -> Result<(), AllocError> {
    if insert_once(rt, alloc, set, texts)? {
        return Ok(());
    }
    let is_granted = insert_once(rt, alloc, set, texts)?;
    assert!(rt; is_granted_again(alloc, INSERT, is_granted)?);
    Ok(())
}

// Inserts clones of all texts but the last.
fn fill(set: &mut SmallTreeSet<String>, texts: &[String]) -> Result<(), AllocError> {
    let Some((_, others)) = texts.split_last() else {
        return Ok(());
    };
    for text in others {
        if set.insert(text.clone()?).is_err() {
            return Err(AllocError);
        }
    }
    Ok(())
}

// How many elements a set has before an insert: none, a full leaf, full leaves where the arena of
// leaves is full too, and a full node where the arena of nodes is.
static COUNTS: [u64; 4] = [0, 7, 28, 154];

fn inserts_steps(rt: &impl Abort, alloc: Global, count: u64) -> Result<(), AllocError> {
    let texts = ascending(alloc, count.saturating_add(1))?;
    let mut set: SmallTreeSet<String> = TreeSetOf::new(alloc);
    fill(&mut set, &texts)?;
    insert_twice(rt, alloc, &mut set, &texts)
}

#[test]
fn inserts_again(rt: HostRuntime) {
    for count in &COUNTS {
        assert!(rt; succeeds(rt.alloc(), || inserts_steps(&rt, rt.alloc(), *count)));
    }
}

// The calls that copy a set.
static COPIES: [&str; 2] = ["TreeSet::try_clone", "TreeSet::clone"];

// Copies a set of these texts by the call of this name. Returns `false` if an allocation fails.
// The set is then as it was.
fn is_copied(
    rt: &impl Abort,
    alloc: Global,
    set: &SmallTreeSet<String>,
    texts: &[String],
    call: &str,
) -> bool {
    begins(alloc, call);
    let copy: Result<_, _> = if call == "TreeSet::clone" {
        let clone: Result<_, _> = set.clone();
        clone
    } else {
        set.try_clone(alloc)
    };
    ends(alloc);
    assert!(rt; has(set, texts));
    let Ok(copy) = copy else {
        return false;
    };
    has(&copy, texts)
}

// Copies a set at once or the second time.
fn copy_twice(
    rt: &impl Abort,
    alloc: Global,
    set: &SmallTreeSet<String>,
    texts: &[String],
    call: &str,
) -> Result<(), AllocError> {
    if is_copied(rt, alloc, set, texts, call) {
        return Ok(());
    }
    let is_granted = is_copied(rt, alloc, set, texts, call);
    assert!(rt; is_granted_again(alloc, call, is_granted)?);
    Ok(())
}

fn copies_steps(rt: &impl Abort, alloc: Global, call: &str) -> Result<(), AllocError> {
    let texts = ascending(alloc, 15)?;
    let mut set: SmallTreeSet<String> = TreeSetOf::new(alloc);
    for text in &texts {
        if set.insert(text.clone()?).is_err() {
            return Err(AllocError);
        }
    }
    copy_twice(rt, alloc, &set, &texts, call)
}

#[test]
fn copies_again(rt: HostRuntime) {
    for call in &COPIES {
        assert!(rt; succeeds(rt.alloc(), || copies_steps(&rt, rt.alloc(), *call)));
    }
}

// The calls that store several elements.
static BUILDS: [&str; 4] = [
    "TreeSet::try_extend",
    "TreeSet::extend",
    "TreeSet::from_sorted",
    "TreeSet::collect",
];

// How many elements these calls store: a full leaf, two leaves, and three levels.
static LENGTHS: [u64; 3] = [7, 15, 60];

// Returns clones of texts.
fn clones(alloc: Global, texts: &[String]) -> Result<Vec<String>, AllocError> {
    let mut clones = Vec::with_capacity(alloc, texts.len())?;
    for text in texts {
        clones.push(text.clone()?)?;
    }
    Ok(clones)
}

// Extends an empty set by the call of this name. Returns `None` if an allocation fails: the texts
// before the one that it was for are stored then, and `try_extend` gives that one back.
fn extended(
    rt: &impl Abort,
    alloc: Global,
    elements: Vec<String>,
    texts: &[String],
    call: &str,
) -> Option<SmallTreeSet<String>> {
    let mut set: SmallTreeSet<String> = TreeSetOf::new(alloc);
    let refused = if call == "TreeSet::extend" {
        set.extend(elements).is_err()
    } else {
        match set.try_extend(elements) {
            Ok(()) => false,
            Err(back) => {
                assert!(rt; texts.get(set.len()) == Some(&back));
                true
            }
        }
    };
    let stored = texts.get(..set.len()).unwrap_or(&[]);
    assert!(rt; has(&set, stored) && (refused || stored.len() == texts.len()));
    if refused { None } else { Some(set) }
}

// Makes a set of these texts by the call of this name. Returns `false` if an allocation fails.
fn is_built(
    rt: &impl Abort,
    alloc: Global,
    texts: &[String],
    call: &str,
) -> Result<bool, AllocError> {
    let elements = clones(alloc, texts)?;
    begins(alloc, call);
    let built: Option<SmallTreeSet<String>> = if call == "TreeSet::from_sorted" {
        TreeSetOf::from_sorted(alloc, elements).ok()
    } else if call == "TreeSet::collect" {
        elements.into_iter().collect(alloc).ok()
    } else {
        extended(rt, alloc, elements, texts, call)
    };
    ends(alloc);
    let Some(set) = built else {
        return Ok(false);
    };
    assert!(rt; has(&set, texts));
    Ok(true)
}

// Makes a set at once or the second time.
fn builds_steps(
    rt: &impl Abort,
    alloc: Global,
    count: u64,
    call: &str,
) -> Result<(), AllocError> {
    let texts = ascending(alloc, count)?;
    if is_built(rt, alloc, &texts, call)? {
        return Ok(());
    }
    let is_granted = is_built(rt, alloc, &texts, call)?;
    assert!(rt; is_granted_again(alloc, call, is_granted)?);
    Ok(())
}

#[test]
fn builds_again(rt: HostRuntime) {
    for call in &BUILDS {
        for count in &LENGTHS {
            assert!(rt; succeeds(rt.alloc(), || builds_steps(&rt, rt.alloc(), *count, *call)));
        }
    }
}
