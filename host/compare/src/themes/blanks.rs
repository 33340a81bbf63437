//! Blank files.

use crate::call::Call;
use crate::cases::make::small_shape;
use crate::world::{Round, World};

pub fn round(world: &mut World) -> Round {
    let rng = &mut world.rng;
    let mut shape = small_shape(rng);
    match rng.below(8) {
        0 => shape.n = rng.pick(&[0, 1, 2, 513, 514, u64::MAX, 1 << 32]),
        1 => shape.l = rng.pick(&[0, 511, 512, 4_096, 4_097, 1 << 32, u64::MAX]),
        2 => shape.m = rng.pick(&[0, 1, 63, 64, 65, shape.l, shape.l + 1, u64::MAX]),
        3 => shape.n += 1 << 32,
        4 => shape.l += 1 << 32,
        5 => shape.m += 1 << 32,
        _ => (),
    }
    let wanted = shape.n.saturating_mul(shape.l);
    let len = match rng.below(5) {
        _ if wanted > 4 << 20 => rng.below(9_000),
        0 => wanted,
        1 => wanted.saturating_sub(1),
        2 => wanted + 1,
        3 => rng.below(wanted + 1),
        _ => wanted + rng.below(5_000),
    };
    let file = rng.bytes(len as usize);
    world.set_file(file);
    world.call(Call::Blank { n: shape.n, l: shape.l, m: shape.m })?;
    world.call(Call::Open)?;
    world.call(Call::List { out_len: 0 })?;
    Ok(())
}
