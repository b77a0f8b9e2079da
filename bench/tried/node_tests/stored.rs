//! What a test keeps beside a tree.
use std::alloc::{AllocError, Global};
use std::process::Abort;
use test_support::refusals::{begins, ends, is_granted_again};

// The pairs that a tree should have, in the order of their keys, and whether memory was refused.
#[derive(Drop)]
pub(crate) struct Stored {
    pairs: Vec<(u64, u64)>,
    refused: bool,
    alloc: Global,
}

impl Stored {
    // No pairs, and room for so many.
    pub(crate) fn new(alloc: Global, count: usize) -> Result<Self, AllocError> {
        let pairs = Vec::with_capacity(alloc, count)?;
        Ok(Stored {
            pairs,
            refused: false,
            alloc,
        })
    }

    // The pairs.
    pub(crate) fn pairs(&self) -> &[(u64, u64)] {
        &self.pairs
    }

    // Stores a pair, in place of one with an equal key.
    pub(crate) fn put(&mut self, key: u64, val: u64) -> Result<(), AllocError> {
        let place = self.pairs.partition_point(|pair| pair.0 < key);
        if let Some(pair) = self.pairs.get_mut(place) {
            if pair.0 == key {
                pair.1 = val;
                return Ok(());
            }
        }
        self.pairs.insert(place, (key, val))?;
        Ok(())
    }

    // Removes the pair with a key.
    pub(crate) fn remove(&mut self, key: u64) {
        self.pairs.retain(|pair| pair.0 != key);
    }

    // The requests that follow are those of this call.
    pub(crate) fn begins(&self, call: &str) {
        begins(self.alloc, call);
    }

    // The requests that follow are the test's own.
    pub(crate) fn ends(&self) {
        ends(self.alloc);
    }

    // A call was made again, since it was refused, and was granted or refused again. `Err` if
    // there is no memory.
    pub(crate) fn made_again(
        &mut self,
        rt: &impl Abort,
        call: &str,
        is_granted: bool,
    ) -> Result<(), AllocError> {
        self.refused = true;
        assert!(rt; is_granted_again(self.alloc, call, is_granted)?);
        Ok(())
    }

    // `Err` if memory was refused.
    pub(crate) fn outcome(&self) -> Result<(), AllocError> {
        if self.refused {
            Err(AllocError)
        } else {
            Ok(())
        }
    }
}
