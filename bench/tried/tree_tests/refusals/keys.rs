//! A key type of the tests' own.
ghost use Rattle.std.specs.Prelude.{◌≡◌};
ghost use Rattle.tree_model.specs.Keys.{equal_numbers};

use std::alloc::{AllocError, Global};
use tree_model::IndexKey;

/// A key with a name, which tells it from an equal one. It compares by its number alone.
#[derive(Drop)]
#[derive_where(PartialEq, Eq, PartialOrd, Ord)]
pub struct Named {
    pub number: u64,
    #[derive_where(skip(EqHashOrd))]
    pub name: String,
    /// Whether a clone has a name of its own, for which it allocates. Else it has none.
    #[derive_where(skip(EqHashOrd))]
    pub names_clones: bool,
}

impl Named {
    // The key of a number, without a name. Allocates nothing.
    pub(crate) fn bare(alloc: Global, number: u64) -> Self {
        Named {
            number,
            name: String::new(alloc),
            names_clones: false,
        }
    }
}

impl Clone for Named {
    ghost is_clone = { λ key clone. clone.number ≡ key.number };

    ghost is_infallible = { λ _. ⊥ };

    fn clone(&self) -> Result<Self, AllocError> {
        let alloc = *self.name.allocator();
        let text = if self.names_clones { "clone" } else { "" };
        Ok(Named {
            number: self.number,
            name: String::from_str(alloc, text)?,
            names_clones: self.names_clones,
        })
    }
}

impl IndexKey for Named {
    ghost clone_equal = { λ x y h. equal_numbers x.number y.number h };
}
