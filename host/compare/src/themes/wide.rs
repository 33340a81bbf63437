//! Files with up to 4,096 slots.

use super::files;
use super::shared::{jobs, links, moves};
use crate::call::Call;
use crate::cases::{damage, make};
use crate::world::{Round, World};

pub fn round(world: &mut World) -> Round {
    let rng = &mut world.rng;
    let shape = make::wide_shape(rng);
    let d = rng.pick(&[0, 40, 400, 2_000, 5_000]);
    let fill = rng.pick(&[10, 60, 100]);
    let tail = rng.below(4 * shape.l) as usize;
    let mut file = make::file(rng, &shape, d, tail, fill);
    if rng.percent(50) {
        make::movable(rng, &mut file, &shape);
    }
    for _ in 0..rng.pick(&[0, 0, 1, 2]) {
        damage::file(rng, &mut file, &shape);
    }
    world.set_file_of(shape.form, file);
    links::one(world)?;
    moves::converted(world, &shape, shape.other().form)?;
    files::ask_everything(world, &shape)?;
    jobs::new_scan(world);
    if let Some(job) = world.begin(Call::Keep)? {
        jobs::run(world, job, Call::Keep)?;
    }
    world.call(Call::Open)?;
    jobs::clear_highest(world)?;
    world.call(Call::Open)?;
    world.call(Call::GapsZero)?;
    Ok(())
}
