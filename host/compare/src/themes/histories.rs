//! Whole histories of saves, keeps and clears, each cut off anywhere.

use super::shared::{jobs, searches, slots};
use crate::call::Call;
use crate::cases::make;
use crate::cases::shape::Shape;
use crate::world::{Round, World};
use face::Job;

pub fn round(world: &mut World) -> Round {
    let shape = begin_on_blank(world)?;
    for _ in 0..world.rng.between(4, 14) {
        jobs::new_scan(world);
        let call = any_job(world, &shape);
        if let Some(job) = world.begin(call)? {
            jobs::lend_for(world, call);
            some_steps(world, job)?;
        }
        look(world, &shape)?;
    }
    Ok(())
}

/// A blank file with old bytes in its data records and a counter that is about to wrap, sometimes.
fn begin_on_blank(world: &mut World) -> Round<Shape> {
    let rng = &mut world.rng;
    let shape = make::small_shape(rng);
    let records = shape.n + rng.between(3, 16);
    let tail = rng.below(shape.l);
    let file = rng.bytes((records * shape.l + tail) as usize);
    world.set_file(file);
    world.call(Call::Blank { n: shape.n, l: shape.l, m: shape.m })?;
    if world.rng.percent(30) {
        world.patch(20, &(u32::MAX - 1).to_be_bytes());
    }
    Ok(shape)
}

fn any_job(world: &mut World, shape: &Shape) -> Call {
    let slot = slots::any(world, shape);
    match world.rng.below(10) {
        0..=4 => Call::Save { slot },
        5..=6 => Call::Keep,
        _ => Call::Clear { slot },
    }
}

/// Steps a job to its end, past it, or until it is cut.
fn some_steps(world: &mut World, mut job: Job) -> Round {
    let whole = jobs::writes_of(world, &job) + 1;
    let steps = if world.rng.percent(60) { whole + world.rng.below(2) } else { world.rng.below(whole) };
    for _ in 0..steps {
        world.step(&mut job)?;
    }
    Ok(())
}

/// What a reader would ask of the file then.
pub fn look(world: &mut World, shape: &Shape) -> Round {
    world.call(Call::Open)?;
    world.call(Call::GapsZero)?;
    searches::one(world)?;
    world.call(Call::List { out_len: 3 * shape.capacity() as usize })?;
    for _ in 0..2 {
        let slot = slots::any(world, shape);
        world.call(Call::Show { slot })?;
        world.call(Call::Entry { slot })?;
    }
    Ok(())
}
