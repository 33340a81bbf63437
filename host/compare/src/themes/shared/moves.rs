//! What the themes do with conversions.

use crate::call::Call;
use crate::cases::shape::{Form, Shape};
use crate::world::{Round, World};

/// The call that wants this form.
pub fn to(form: Form) -> Call {
    match form {
        Form::Old => Call::ToOld,
        Form::Current => Call::ToCurrent,
    }
}

/// The bytes of bootstrap and index.
fn right(shape: &Shape) -> u64 {
    shape.n * shape.l
}

/// Lends a second buffer of random bytes: just long enough, one byte too short, longer, or of any length.
pub fn lend(world: &mut World, shape: &Shape) {
    let (rng, right) = (&mut world.rng, right(shape));
    let len = match rng.below(8) {
        0..=2 => right,
        3 | 4 => right - 1,
        5 => right + 1,
        6 => right + rng.below(900),
        _ => rng.below(right + 1),
    };
    let second = rng.bytes(len as usize);
    world.set_second(second);
}

/// Lends one that is long enough.
pub fn lend_enough(world: &mut World, shape: &Shape) {
    let more = world.rng.pick(&[0, 0, 1, 7, 512]);
    let second = world.rng.bytes(right(shape) as usize + more);
    world.set_second(second);
}

/// Both conversions, of which one at least is refused; now and then into the same buffer.
pub fn ask(world: &mut World, shape: &Shape) -> Round {
    let forms = world.rng.pick(&[[Form::Old, Form::Current], [Form::Current, Form::Old]]);
    lend(world, shape);
    for form in forms {
        world.call(to(form))?;
        if world.rng.percent(70) {
            lend(world, shape);
        }
    }
    Ok(())
}

/// The bootstrap and index that a conversion to this form writes; none where it is refused.
pub fn converted(world: &mut World, shape: &Shape, form: Form) -> Round<Option<Vec<u8>>> {
    lend_enough(world, shape);
    let answer = world.call(to(form))?;
    let records = world.second[..right(shape) as usize].to_vec();
    Ok((answer.why().number == 0).then_some(records))
}
