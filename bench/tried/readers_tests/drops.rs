//! Which copies hold a value, counted by its owners.
ghost use Rattle.std.proofs.Common.{refl};

use std::alloc::{AllocError, Global};
use std::process::Abort;
use std::rc::Rc;
use std::sync::Wait;
use test_support::refusals::succeeds;
use tree_index::SameClone;
use tree_readers::Writer;

// A value whose clones are owners of one number.
#[derive(Drop)]
struct Token(Rc<u64>);

impl Clone for Token {
    fn clone(&self) -> Result<Self, AllocError> {
        Ok(Token(self.0.clone()?))
    }
}

impl SameClone for Token {
    ghost Seen = { Unit {0} };

    ghost seen = { λ _. tt };

    ghost clone_seen = { λ x y h. refl };
}

// Whether a flush puts a value into both copies, and takes it out of both.
fn flushes<R: Wait + Drop>(
    writer: &mut Writer<u64, Token, R>,
    value: &Rc<u64>,
) -> Result<bool, AllocError> {
    writer.upsert(1, Token(value.clone()?)).map_err(|_| AllocError)?;
    writer.flush()?;
    let is_in_both = Rc::strong_count(value) == 3;
    writer.remove(1).map_err(|_| AllocError)?;
    writer.flush()?;
    Ok(is_in_both && Rc::strong_count(value) == 1)
}

fn drops_steps<R: Wait + Abort>(rt: &R, alloc: Global) -> Result<(), AllocError> {
    let value = Rc::new(alloc, 7)?;
    let mut writer: Writer<u64, Token, &R> = Writer::new(alloc, rt, 1)?;
    assert!(rt; flushes(&mut writer, &value)?);
    writer.insert(2, Token(value.clone()?)).map_err(|_| AllocError)?;
    writer.publish()?;
    drop(writer);
    assert!(rt; Rc::strong_count(&value) == 1);
    Ok(())
}

#[test]
fn both_copies_drop_what_was_removed(rt: HostRuntime) {
    assert!(rt; succeeds(rt.alloc(), || drops_steps(&rt, rt.alloc())));
}
