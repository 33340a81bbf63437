//! Slots to ask about.

use crate::cases::shape::Shape;
use crate::rng::Rng;
use crate::world::World;

/// The slots with a scan, in order; none where the file does not open.
pub fn filled(world: &World) -> Vec<u64> {
    match model::open(&world.file) {
        Ok(sizes) => model::listed(&world.file, &sizes).iter().map(|(slot, _)| *slot).collect(),
        Err(_) => Vec::new(),
    }
}

/// A slot with a scan, an empty one, or none at all.
pub fn any(world: &mut World, shape: &Shape) -> u64 {
    let capacity = shape.capacity();
    let filled = filled(world);
    let rng = &mut world.rng;
    match rng.below(8) {
        0..=3 if !filled.is_empty() => rng.pick(&filled),
        4 => odd(rng, capacity),
        _ => rng.between(1, capacity),
    }
}

fn odd(rng: &mut Rng, capacity: u64) -> u64 {
    rng.pick(&[0, 1, capacity, capacity + 1, 1 << 32, (1 << 32) + 1, u64::MAX, 1 << 63])
}
