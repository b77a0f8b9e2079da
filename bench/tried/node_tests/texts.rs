//! A leaf node of texts.
ghost use Rattle.std.specs.Prelude.{string_cmp};
ghost use Rattle.node_tests.specs.Planted.{IsPlanted};

use crate::planted::{first_root, insert, remove_if};
use std::alloc::{AllocError, Global};
use std::process::Abort;
use test_support::refusals::succeeds;
use tree_array::array::{InsertResult, RemoveResult};
use tree_leaf::arena::NodeId;
use tree_node::branch::LeafNode;
use tree_node::node::Arenas;

// Arenas of texts, whose leaf nodes are called.
type Texts = Arenas<String, String>;

// A call on a key, and what it should answer.
enum Step {
    // Stores a value.
    Stores(&'static str, &'static str),
    // Hands the pair back, as the node is full.
    IsFull(&'static str, &'static str),
    // Removes the key if it has this value. With none, whatever it has.
    Removes(&'static str, Option<&'static str>, RemoveResult),
}

static STEPS: [Step; 6] = [
    Step::Stores("MY GOODNESS!", "OH MY GOD!!"),
    Step::Stores("GOOD DAY", "OH MY GOD!!"),
    Step::Removes("GOOD DAY", Some("OH MY"), RemoveResult::Fail),
    Step::Removes("GOOD DAY", Some("OH MY GOD!!"), RemoveResult::Success),
    Step::Removes("MY GOODNESS!", None, RemoveResult::Retired),
    Step::IsFull("HI", "HO"),
];

// What an insert answers. `Err` if memory is refused.
fn inserted(
    texts: &mut Texts,
    root: NodeId,
    alloc: Global,
    key: &str,
    val: &str,
) -> Result<InsertResult<String, String>, AllocError>
    requires { IsPlanted string_cmp 1 texts.old root }
    ensures { IsPlanted string_cmp 1 texts.new root }
{
    let key = String::from_str(alloc, key)?;
    let val = String::from_str(alloc, val)?;
    let answer = insert::<LeafNode<String>, String, String, false, 1, 15>(texts, root, key, val);
    answer.map_err(|_| AllocError)
}

// What a removal answers, on the condition that the value is this one.
fn removed(
    texts: &mut Texts,
    root: NodeId,
    alloc: Global,
    key: &str,
    val: Option<&str>,
) -> Result<RemoveResult, AllocError>
    requires { IsPlanted string_cmp 1 texts.old root }
    ensures { IsPlanted string_cmp 1 texts.new root }
{
    let key = String::from_str(alloc, key)?;
    Ok(remove_if::<LeafNode<String>, String, String, _, 1, 15>(
        texts,
        root,
        &key,
        |at_key| match val {
            Some(val) => at_key.as_str() == val,
            None => true,
        },
    ))
}

// Whether the leaf node answers the step so.
fn answers(texts: &mut Texts, root: NodeId, alloc: Global, step: &Step) -> Result<bool, AllocError>
    requires { IsPlanted string_cmp 1 texts.old root }
    ensures { IsPlanted string_cmp 1 texts.new root }
{
    match step {
        Step::Stores(key, val) => {
            Ok(matches!(
                inserted(texts, root, alloc, key, val)?,
                InsertResult::Success
            ))
        }
        Step::IsFull(key, val) => match inserted(texts, root, alloc, key, val)? {
            InsertResult::Full(full_key, full_val) => {
                Ok(full_key.as_str() == *key && full_val.as_str() == *val)
            }
            _ => Ok(false),
        },
        Step::Removes(key, val, told) => Ok(removed(texts, root, alloc, key, *val)? == *told),
    }
}

fn takes_steps(
    rt: &impl Abort,
    texts: &mut Texts,
    root: NodeId,
    alloc: Global,
) -> Result<(), AllocError>
    requires { IsPlanted string_cmp 1 texts.old root }
{
    for step in &STEPS {
        assert!(rt; answers(texts, root, alloc, step)?);
    }
    Ok(())
}

fn leaf_node(rt: &impl Abort, alloc: Global) -> Result<(), AllocError> {
    let mut texts = Texts::new(alloc);
    let root = first_root(&mut texts)?;
    takes_steps(rt, &mut texts, root, alloc)
}

#[test]
fn a_leaf_node_of_texts_answers(rt: HostRuntime) {
    assert!(rt; succeeds(rt.alloc(), || leaf_node(&rt, rt.alloc())));
}
