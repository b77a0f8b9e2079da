//! What can be wrong with an index.

/// What was found wrong.
#[derive(Clone, Copy, Debug, PartialEq, Eq)]
pub enum Flaw {
    /// A key is no larger than one before it, or a separator is smaller than a key before it.
    Order,
    /// A keyed child has no pair.
    EmptyChild,
    /// A leaf isn't linked behind the one before it.
    Link,
    /// The level of a leaf node isn't 1.
    Level,
    /// So many pairs, leaves or nodes were not met.
    Count,
    /// The leaves in a row don't have the pairs.
    Pairs,
}

// Returns the flaw unless this holds.
pub(crate) fn expect(holds: bool, flaw: Flaw) -> Result<(), Flaw> {
    if holds { Ok(()) } else { Err(flaw) }
}
