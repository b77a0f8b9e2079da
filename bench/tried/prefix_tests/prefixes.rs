//! Calls on a prefix of texts and of bytes in which an allocation fails. They change nothing then, and do their work when they are made again.
use std::alloc::{AllocError, Global};
use std::process::Abort;
use test_support::refusals::{begins, ends, is_granted_again, succeeds};
use tree_index::TreeIndex;
use tree_set::TreeSet;
use tree_texts::{
    Bytes, Text, peek_bytes, peek_text, prefix_bounds, prefix_range, remove_prefix,
    remove_text_prefix, text_prefix_bounds, text_prefix_range,
};

// Words, of which all but the last begin with the prefix.
static WORDS: [&str; 4] = ["fig", "figs", "file", "pear"];

static PREFIX: &str = "fi";

fn texts(alloc: Global) -> Result<TreeIndex<Text, usize>, AllocError> {
    let mut index = TreeIndex::new(alloc);
    for word in &WORDS {
        let key = Text::from(String::from_str(alloc, *word)?);
        if index.insert_sync(key, word.len()).is_err() {
            return Err(AllocError);
        }
    }
    Ok(index)
}

fn bytes(alloc: Global) -> Result<TreeIndex<Bytes, usize>, AllocError> {
    let mut index = TreeIndex::new(alloc);
    for word in &WORDS {
        let key = Bytes::from(word.as_bytes().to_vec(alloc)?);
        if index.insert_sync(key, word.len()).is_err() {
            return Err(AllocError);
        }
    }
    Ok(index)
}

fn set_of_texts(alloc: Global) -> Result<TreeSet<Text>, AllocError> {
    let mut set = TreeSet::new(alloc);
    for word in &WORDS {
        let key = Text::from(String::from_str(alloc, *word)?);
        if set.insert(key).is_err() {
            return Err(AllocError);
        }
    }
    Ok(set)
}

fn set_of_bytes(alloc: Global) -> Result<TreeSet<Bytes>, AllocError> {
    let mut set = TreeSet::new(alloc);
    for word in &WORDS {
        let key = Bytes::from(word.as_bytes().to_vec(alloc)?);
        if set.insert(key).is_err() {
            return Err(AllocError);
        }
    }
    Ok(set)
}

// How many words a call leaves, and whether it found one.
fn has_removed(answer: Result<bool, AllocError>, rt: &impl Abort, left: usize) -> bool {
    match answer {
        Ok(found) => {
            assert!(rt; found && left == 1);
            true
        }
        Err(_) => {
            assert!(rt; left == WORDS.len());
            false
        }
    }
}

const OF_TEXTS: &str = "remove_text_prefix";

fn texts_once(rt: &impl Abort, alloc: Global, index: &mut TreeIndex<Text, usize>) -> bool {
    begins(alloc, OF_TEXTS);
    let answer = remove_text_prefix(alloc, index, PREFIX);
    ends(alloc);
    assert!(rt; peek_text(index, "pear").is_some());
    has_removed(answer, rt, index.len())
}

fn texts_go(rt: &impl Abort, alloc: Global) -> Result<(), AllocError> {
    let mut index = texts(alloc)?;
    if !texts_once(rt, alloc, &mut index) {
        let again = texts_once(rt, alloc, &mut index);
        assert!(rt; is_granted_again(alloc, OF_TEXTS, again)?);
    }
    Ok(())
}

const OF_BYTES: &str = "remove_prefix";

fn bytes_once(rt: &impl Abort, alloc: Global, index: &mut TreeIndex<Bytes, usize>) -> bool {
    begins(alloc, OF_BYTES);
    let answer = remove_prefix(alloc, index, PREFIX.as_bytes());
    ends(alloc);
    assert!(rt; peek_bytes(index, "pear".as_bytes()).is_some());
    has_removed(answer, rt, index.len())
}

fn bytes_go(rt: &impl Abort, alloc: Global) -> Result<(), AllocError> {
    let mut index = bytes(alloc)?;
    if !bytes_once(rt, alloc, &mut index) {
        let again = bytes_once(rt, alloc, &mut index);
        assert!(rt; is_granted_again(alloc, OF_BYTES, again)?);
    }
    Ok(())
}

const OF_SET_OF_TEXTS: &str = "TreeSet::remove_text_prefix";

fn set_of_texts_once(rt: &impl Abort, alloc: Global, set: &mut TreeSet<Text>) -> bool {
    begins(alloc, OF_SET_OF_TEXTS);
    let answer = set.remove_text_prefix(alloc, PREFIX);
    ends(alloc);
    has_removed(answer, rt, set.len())
}

fn set_of_texts_goes(rt: &impl Abort, alloc: Global) -> Result<(), AllocError> {
    let mut set = set_of_texts(alloc)?;
    if !set_of_texts_once(rt, alloc, &mut set) {
        let again = set_of_texts_once(rt, alloc, &mut set);
        assert!(rt; is_granted_again(alloc, OF_SET_OF_TEXTS, again)?);
    }
    Ok(())
}

const OF_SET_OF_BYTES: &str = "TreeSet::remove_prefix";

fn set_of_bytes_once(rt: &impl Abort, alloc: Global, set: &mut TreeSet<Bytes>) -> bool {
    begins(alloc, OF_SET_OF_BYTES);
    let answer = set.remove_prefix(alloc, PREFIX.as_bytes());
    ends(alloc);
    has_removed(answer, rt, set.len())
}

fn set_of_bytes_goes(rt: &impl Abort, alloc: Global) -> Result<(), AllocError> {
    let mut set = set_of_bytes(alloc)?;
    if !set_of_bytes_once(rt, alloc, &mut set) {
        let again = set_of_bytes_once(rt, alloc, &mut set);
        assert!(rt; is_granted_again(alloc, OF_SET_OF_BYTES, again)?);
    }
    Ok(())
}

const TEXT_BOUNDS: &str = "text_prefix_bounds";

fn text_bounds_once(rt: &impl Abort, alloc: Global, index: &TreeIndex<Text, usize>) -> bool {
    begins(alloc, TEXT_BOUNDS);
    let answer = text_prefix_bounds(alloc, PREFIX);
    ends(alloc);
    let Ok(bounds) = answer else {
        return false;
    };
    assert!(rt; text_prefix_range(index, &bounds).count() == 3);
    true
}

fn bounds_texts(rt: &impl Abort, alloc: Global) -> Result<(), AllocError> {
    let index = texts(alloc)?;
    if !text_bounds_once(rt, alloc, &index) {
        let again = text_bounds_once(rt, alloc, &index);
        assert!(rt; is_granted_again(alloc, TEXT_BOUNDS, again)?);
    }
    Ok(())
}

const BOUNDS: &str = "prefix_bounds";

fn bounds_once(rt: &impl Abort, alloc: Global, index: &TreeIndex<Bytes, usize>) -> bool {
    begins(alloc, BOUNDS);
    let answer = prefix_bounds(alloc, PREFIX.as_bytes());
    ends(alloc);
    let Ok(bounds) = answer else {
        return false;
    };
    assert!(rt; prefix_range(index, &bounds).count() == 3);
    true
}

fn bounds_bytes(rt: &impl Abort, alloc: Global) -> Result<(), AllocError> {
    let index = bytes(alloc)?;
    if !bounds_once(rt, alloc, &index) {
        let again = bounds_once(rt, alloc, &index);
        assert!(rt; is_granted_again(alloc, BOUNDS, again)?);
    }
    Ok(())
}

#[test]
fn removes_again(rt: HostRuntime) {
    assert!(rt; succeeds(rt.alloc(), || texts_go(&rt, rt.alloc())));
    assert!(rt; succeeds(rt.alloc(), || bytes_go(&rt, rt.alloc())));
}

#[test]
fn removes_again_from_a_set(rt: HostRuntime) {
    assert!(rt; succeeds(rt.alloc(), || set_of_texts_goes(&rt, rt.alloc())));
    assert!(rt; succeeds(rt.alloc(), || set_of_bytes_goes(&rt, rt.alloc())));
}

#[test]
fn bounds_again(rt: HostRuntime) {
    assert!(rt; succeeds(rt.alloc(), || bounds_texts(&rt, rt.alloc())));
    assert!(rt; succeeds(rt.alloc(), || bounds_bytes(&rt, rt.alloc())));
}
