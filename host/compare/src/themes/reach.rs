//! Current files at the edge of what the old form can say: D, a first or a last of 32,767, and one more. Such a file has
//! 16 MiB, most of which is never touched.

use super::moved;
use super::shared::moves;
use crate::call::Call;
use crate::cases::shape::{Form, Shape, put32};
use crate::world::{Round, World};

/// The highest Integer*2.
const LAST: u64 = 32_767;

/// D, and the run of the farthest scan.
const FAR: [(u64, u64, u64); 9] = [
    (LAST, LAST, LAST),
    (LAST, LAST - 1, LAST),
    (LAST, LAST, LAST + 1),
    (LAST, LAST + 1, LAST + 1),
    (LAST, LAST - 1, LAST - 1),
    (LAST + 1, LAST, LAST),
    (LAST + 1, LAST - 2, LAST - 1),
    (LAST + 1, LAST + 1, LAST + 2),
    (LAST - 1, LAST, LAST),
];

pub fn round(world: &mut World) -> Round {
    let rng = &mut world.rng;
    let shape = Shape { n: rng.pick(&[2, 3, 129]), l: 512, m: rng.pick(&[64, 128]), form: Form::Current };
    let records = shape.n + LAST + 1 + rng.pick(&[0, 1, 300]);
    world.set_zeros(Form::Current, (records * shape.l) as usize);
    for far in FAR {
        let counter = put_index(world, &shape, far);
        moves::ask(world, &shape)?;
        let (d, _, last) = far;
        if d <= LAST && last <= LAST && counter <= 65_535 {
            moved::there_and_home(world, &shape, false)?;
        } else {
            moves::lend_enough(world, &shape);
            world.call(Call::ToOld)?;
        }
    }
    world.whole_file()
}

/// Puts an index of few scans, of which one is at the edge, in slot 1, in slot U or in between; answers the counter.
fn put_index(world: &mut World, shape: &Shape, (d, first, last): (u64, u64, u64)) -> u64 {
    let rng = &mut world.rng;
    let mut records = rng.bytes((shape.n * shape.l) as usize);
    (1..=shape.capacity()).for_each(|slot| shape.put_run(&mut records, slot, 0, 0));
    let u = rng.between(2, shape.capacity());
    let far = rng.pick(&[1, u, u.div_ceil(2)]);
    let near = if far == 1 { u } else { 1 };
    shape.put_run(&mut records, near, shape.n + 1, shape.n + 2);
    shape.put_run(&mut records, far, first, last);
    // mostly one that the old form can say, so that what is asked for stands by itself
    let counter = if rng.percent(85) { rng.pick(&[0, 7, 32_768, 65_535]) } else { rng.pick(&[65_536, 1 << 31]) };
    for (i, number) in [shape.n, d, shape.l, shape.m, u, counter, 0, 1].into_iter().enumerate() {
        put32(&mut records, 4 * i, number);
    }
    world.put_index(Form::Current, &records);
    counter
}
