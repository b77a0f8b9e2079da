//! Look-ups of texts and bytes that are lent.
use std::alloc::{AllocError, Global};
use std::process::Abort;
use test_support::refusals::{begins, ends, is_granted_again, succeeds};
use tree_index::TreeIndex;
use tree_texts::{Bytes, Text, peek_bytes, peek_text};

// Words in no order, and two that aren't stored.
static WORDS: [&str; 4] = ["pear", "fig", "", "figs"];

static OTHERS: [&str; 2] = ["fi", "apple"];

// Stores the words, each with its length.
fn store_words(alloc: Global, lengths: &mut TreeIndex<Text, usize>) -> Result<(), AllocError> {
    for word in &WORDS {
        let key = Text::from(String::from_str(alloc, *word)?);
        if lengths.insert_sync(key, word.len()).is_err() {
            return Err(AllocError);
        }
    }
    Ok(())
}

// Returns the length that is stored with a word.
fn length_of(lengths: &TreeIndex<Text, usize>, word: &str) -> Option<usize> {
    peek_text(lengths, word).map(|(_, length)| *length)
}

// Returns whether each word is found with its length, and no other one.
fn has_words(lengths: &TreeIndex<Text, usize>) -> bool {
    for word in &WORDS {
        if length_of(lengths, *word) != Some(word.len()) {
            return false;
        }
    }
    for word in &OTHERS {
        if length_of(lengths, *word).is_some() {
            return false;
        }
    }
    true
}

fn counts_words(rt: &impl Abort, alloc: Global) -> Result<(), AllocError> {
    let mut lengths: TreeIndex<Text, usize> = TreeIndex::new(alloc);
    store_words(alloc, &mut lengths)?;
    assert!(rt; has_words(&lengths));
    Ok(())
}

#[test]
fn finds_texts(rt: HostRuntime) {
    assert!(rt; succeeds(rt.alloc(), || counts_words(&rt, rt.alloc())));
}

// Bytes in no order, and two that aren't stored.
static BYTES: [&[u8]; 4] = [&[7, 0], &[], &[7], &[255]];

static OTHER_BYTES: [&[u8]; 2] = [&[0], &[7, 0, 0]];

// Stores the bytes, each with their number.
fn store_bytes(alloc: Global, lengths: &mut TreeIndex<Bytes, usize>) -> Result<(), AllocError> {
    for bytes in &BYTES {
        let key = Bytes::from((*bytes).to_vec(alloc)?);
        if lengths.insert_sync(key, bytes.len()).is_err() {
            return Err(AllocError);
        }
    }
    Ok(())
}

// Returns the number that is stored with bytes.
fn number_of(lengths: &TreeIndex<Bytes, usize>, bytes: &[u8]) -> Option<usize> {
    peek_bytes(lengths, bytes).map(|(_, length)| *length)
}

// Returns whether all bytes are found with their number, and no others.
fn has_bytes(lengths: &TreeIndex<Bytes, usize>) -> bool {
    for bytes in &BYTES {
        if number_of(lengths, *bytes) != Some(bytes.len()) {
            return false;
        }
    }
    for bytes in &OTHER_BYTES {
        if number_of(lengths, *bytes).is_some() {
            return false;
        }
    }
    true
}

fn counts_bytes(rt: &impl Abort, alloc: Global) -> Result<(), AllocError> {
    let mut lengths: TreeIndex<Bytes, usize> = TreeIndex::new(alloc);
    store_bytes(alloc, &mut lengths)?;
    assert!(rt; has_bytes(&lengths));
    Ok(())
}

#[test]
fn finds_bytes(rt: HostRuntime) {
    assert!(rt; succeeds(rt.alloc(), || counts_bytes(&rt, rt.alloc())));
}

// Whether a clone of a text, which is stored, is equal to it. Returns `false` if an allocation
// fails.
fn is_text_cloned(alloc: Global, text: &Text) -> bool {
    begins(alloc, "Text::clone");
    let clone: Result<_, _> = text.clone();
    ends(alloc);
    let Ok(clone) = clone else {
        return false;
    };
    clone == *text && text.as_str() == WORDS[0]
}

// Clones a text at once or the second time.
fn clones_text(rt: &impl Abort, alloc: Global) -> Result<(), AllocError> {
    let text = Text::from(String::from_str(alloc, WORDS[0])?);
    if is_text_cloned(alloc, &text) {
        return Ok(());
    }
    assert!(rt; is_granted_again(alloc, "Text::clone", is_text_cloned(alloc, &text))?);
    Ok(())
}

// Whether a clone of bytes is equal to them. Returns `false` if an allocation fails.
fn are_bytes_cloned(alloc: Global, bytes: &Bytes) -> bool {
    begins(alloc, "Bytes::clone");
    let clone: Result<_, _> = bytes.clone();
    ends(alloc);
    let Ok(clone) = clone else {
        return false;
    };
    clone == *bytes && bytes.as_slice() == BYTES[0]
}

// Clones bytes at once or the second time.
fn clones_bytes(rt: &impl Abort, alloc: Global) -> Result<(), AllocError> {
    let bytes = Bytes::from(BYTES[0].to_vec(alloc)?);
    if are_bytes_cloned(alloc, &bytes) {
        return Ok(());
    }
    assert!(rt; is_granted_again(alloc, "Bytes::clone", are_bytes_cloned(alloc, &bytes))?);
    Ok(())
}

#[test]
fn clones_again(rt: HostRuntime) {
    assert!(rt;
        succeeds(rt.alloc(), || {
            clones_text(&rt, rt.alloc())?;
            clones_bytes(&rt, rt.alloc())
        })
    );
}
