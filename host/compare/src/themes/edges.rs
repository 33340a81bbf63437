//! Sizes at the very edge of their ranges, with all else as it should be.

use super::files;
use super::shared::{moves, searches};
use crate::call::Call;
use crate::cases::make;
use crate::cases::shape::{Form, Shape};
use crate::rng::Rng;
use crate::world::{Round, World};

/// N, L and M just inside or just outside.
const EDGES: [(u64, u64, u64); 16] = [
    (2, 512, 64),
    (2, 512, 512),
    (3, 511, 73),
    (3, 511, 511),
    (3, 512, 63),
    (3, 567, 63),
    (3, 4_097, 241),
    (2, 4_097, 4_097),
    (2, 4_096, 4_096),
    (3, 4_096, 64),
    (3, 512, 96),
    (242, 1_088, 64),
    (241, 1_088, 64),
    (514, 512, 512),
    (513, 512, 512),
    (514, 512, 64),
];

pub fn round(world: &mut World) -> Round {
    let shape = set_file(world);
    ask(world, &shape)
}

/// Takes a new file with a number at its edge.
pub fn set_file(world: &mut World) -> Shape {
    let rng = &mut world.rng;
    let shape = if rng.percent(40) {
        let (n, l, m) = rng.pick(&EDGES);
        Shape { n, l, m, form: make::any_form(rng) }
    } else {
        Shape { form: make::any_form(rng), ..make::small_shape(rng) }
    };
    let d = rng.below(6);
    let tail = rng.below(3 * shape.l) as usize;
    let mut file = make::file(rng, &shape, d, tail, 50);
    if rng.percent(80) {
        one_number(rng, &mut file, &shape, d);
    }
    world.set_file_of(shape.form, file);
    shape
}

/// Puts one number, or the length, at or just past its edge.
fn one_number(rng: &mut Rng, file: &mut Vec<u8>, shape: &Shape, d: u64) {
    let lent = file.len() as u64 / shape.l;
    let in_use = ((shape.n + d) * shape.l) as usize;
    match rng.below(12) {
        0 => shape.put_word(file, 1, rng.pick(&[1, 514])),
        1 => shape.put_word(file, 5, shape.capacity() + rng.below(2)),
        2 => shape.put_word(file, 7, rng.between(1, 2)),
        3 => shape.put_word(file, 8, rng.pick(&[0, 1, 2])),
        4 => shape.put_word(file, 2, most_data(shape) + rng.below(2)),
        5 => shape.put_word(file, 2, lent - shape.n + rng.below(2)),
        6 => file.truncate(in_use - rng.below(2) as usize),
        7 => file.truncate(rng.pick(&[511, 512, 511, 0])),
        8 => {
            shape.put_word(file, 1, 1);
            shape.put_word(file, 5, 0);
        }
        9 => two_faults(rng, file, shape),
        _ => one_run(rng, file, shape, d),
    }
}

/// The most data records that the form can say.
fn most_data(shape: &Shape) -> u64 {
    match shape.form {
        Form::Old => 32_767,
        Form::Current => 1_000_000 - shape.n,
    }
}

/// Two of the refusals 6 to 8 at once: which one is answered follows from their order.
fn two_faults(rng: &mut Rng, file: &mut [u8], shape: &Shape) {
    if shape.capacity() < 3 {
        return;
    }
    let (low, high) = (shape.n + 1, shape.n + shape.word(file, 2));
    shape.put_word(file, 5, 2);
    for slot in [1, 2, shape.capacity()] {
        shape.put_run(file, slot, low, if rng.percent(20) { high + 1 } else { high.max(low) });
    }
}

/// Puts one end of slot 1's run at or just past its edge.
fn one_run(rng: &mut Rng, file: &mut [u8], shape: &Shape, d: u64) {
    let (low, high) = (shape.n + 1, shape.n + d);
    let (first, last) =
        rng.pick(&[(low, low), (low - 1, low), (low, high), (low, high + 1), (high, low), (0, low), (low, 0), (0, 0)]);
    shape.put_word(file, 5, shape.word(file, 5).max(1));
    shape.put_run(file, 1, first, last);
}

/// What a reader asks of a file, what it is in the other form, and what a blank makes of it.
pub fn ask(world: &mut World, shape: &Shape) -> Round {
    world.call(Call::Open)?;
    files::list(world, shape)?;
    searches::one(world)?;
    for slot in [0, 1, shape.capacity(), shape.capacity() + 1] {
        world.call(Call::Entry { slot })?;
    }
    moves::ask(world, shape)?;
    world.call(Call::Blank { n: shape.n, l: shape.l, m: shape.m })?;
    world.call(Call::Open)?;
    Ok(())
}
