//! What the searches of a tree find by a key.
ghost use Rattle.std.specs.Prelude.{◌≡◌, ◌<◌, ℕ};

use std::marker::Brand;
use std::sync::ledger::{Blank, Ledger};
use tree_array::array::{Judge, KeyJudge, Steps};
use tree_leaf::arena::NodeId;

// Arenas whose trees are searched through the type `T`.
pub(crate) trait Searched<T> {
    // A tree stands under the number.
    ghost Stands: { Self → ℕ → Type 0 };

    // The pair at the judge's key, and its value.
    fn search<J: Judge<u64>>(
        &self,
        root: NodeId,
        judge: &mut J,
    ) -> (Option<(u64, u64)>, Option<u64>)
        requires { Stands self.now root };
}

// Whether both searches find this value at the key.
pub(crate) fn finds<T, S: Searched<T>>(
    searched: &S,
    root: NodeId,
    key: u64,
    val: Option<u64>,
) -> bool
    requires { S.Stands searched.now root }
{
    finds_by::<T, S, Brand>(searched, root, (key, val), Blank::new(1))
}

fn finds_by<T, S: Searched<T>, L: Ledger>(
    searched: &S,
    root: NodeId,
    pair: (u64, Option<u64>),
    blank: Blank,
) -> bool
    requires stands { S.Stands searched.now root }
    requires name { blank.name ≡ L.name }
    requires parts { blank.parts ≡ L.parts }
    requires some { 0 < L.parts }
{
    let (key, val) = pair;
    let mut judge: KeyJudge<u64, L> = KeyJudge::new(&key, Steps::new(blank));
    let wanted = match val {
        Some(val) => Some((key, val)),
        None => None,
    };
    searched.search(root, &mut judge) == (wanted, val)
}
