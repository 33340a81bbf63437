//! What the themes do with searches for scans.

use crate::call::Call;
use crate::rng::Rng;
use crate::world::{Round, World};

/// How many elements the finds fill; 0 where the search is refused for the file.
fn filled(world: &World) -> usize {
    model::find(&world.file, usize::MAX).map_or(0, |out| out.len())
}

/// A search with room to spare, with just enough, or with too little.
pub fn one(world: &mut World) -> Round {
    let filled = filled(world);
    let out_len = any_row(&mut world.rng, filled);
    world.call(Call::Find { out_len }).map(|_| ())
}

fn any_row(rng: &mut Rng, filled: usize) -> usize {
    match rng.below(6) {
        0 | 1 => filled,
        2 => filled + 1,
        3 => filled.saturating_sub(1),
        4 => 0,
        _ => filled + 3 + rng.below(9) as usize,
    }
}

/// The same with each of the rows at its edge: none, one element too few, just enough, one more; and any.
pub fn rows(world: &mut World) -> Round {
    let filled = filled(world);
    let fewer = world.rng.below(filled as u64 + 1) as usize;
    for out_len in [0, filled.saturating_sub(1), filled, filled + 1, fewer] {
        world.call(Call::Find { out_len })?;
    }
    Ok(())
}
