//! Files, right and damaged, asked everything.

use super::shared::{jobs, moves, searches, slots};
use crate::call::Call;
use crate::cases::shape::Shape;
use crate::cases::{damage, make};
use crate::world::{Round, World};

pub fn round(world: &mut World) -> Round {
    let rng = &mut world.rng;
    let form = make::any_form(rng);
    let (shape, mut file) = make::small_file(rng, form);
    for _ in 0..rng.pick(&[0, 0, 1, 1, 2, 3]) {
        damage::file(rng, &mut file, &shape);
    }
    world.set_file_of(shape.form, file);
    ask_everything(world, &shape)
}

/// Every call that looks, converts or begins a job; some jobs are also run.
pub fn ask_everything(world: &mut World, shape: &Shape) -> Round {
    world.call(Call::Open)?;
    world.call(Call::GapsZero)?;
    list(world, shape)?;
    searches::one(world)?;
    for _ in 0..3 {
        let slot = slots::any(world, shape);
        world.call(Call::Entry { slot })?;
        let slot = slots::any(world, shape);
        world.call(Call::Show { slot })?;
        let slot = slots::any(world, shape);
        world.call(Call::Read { slot })?;
    }
    moves::ask(world, shape)?;
    jobs::new_scan(world);
    let slot = slots::any(world, shape);
    let call = world.rng.pick(&[Call::Save { slot }, Call::Keep, Call::Clear { slot }]);
    if let Some(job) = world.begin(call)?
        && world.rng.percent(40)
    {
        jobs::run(world, job, call)?;
    }
    Ok(())
}

/// A listing with room to spare, with just enough, or with too little.
pub fn list(world: &mut World, shape: &Shape) -> Round {
    let scans = model::list(&world.file, usize::MAX).map_or(0, |out| out.len());
    let out_len = match world.rng.below(6) {
        0 => scans,
        1 => scans + 1,
        2 => scans.saturating_sub(1),
        3 => 0,
        4 => scans + 7,
        _ => 3 * shape.capacity() as usize,
    };
    world.call(Call::List { out_len }).map(|_| ())
}
