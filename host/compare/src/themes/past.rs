//! Old files whose records go on past 32,767, the last one that an old entry can name.

use super::shared::{links, moves, searches};
use super::{files, older};
use crate::call::Call;
use crate::cases::make;
use crate::cases::shape::{Form, Shape, home, put16};
use crate::world::{Round, World};

/// The last record that an Integer*2 can name.
const LAST: u64 = 32_767;

pub fn round(world: &mut World) -> Round {
    let rng = &mut world.rng;
    let shape = Shape { n: rng.pick(&[2, 129, 513]), l: 512, m: 64, form: Form::Old };
    let d = rng.pick(&[LAST, LAST, LAST, LAST - shape.n, LAST + 1 - shape.n]);
    let records = shape.n + d + rng.pick(&[0, 1, 300]);
    // one byte too few, now and then
    let len = records * shape.l - u64::from(rng.percent(10));
    world.set_zeros(Form::Old, len as usize);
    put_boot(world, &shape, d);
    for _ in 0..3 {
        put_runs(world, &shape);
        ask(world, &shape)?;
    }
    links::one(world)?;
    found_at_the_end(world, &shape, d)?;
    older::changes(world, &shape)?;
    older::steps(world, &shape)?;
    world.whole_file()
}

/// A scan in the last data record, which no entry can name where it is past 32,767.
fn found_at_the_end(world: &mut World, shape: &Shape, d: u64) -> Round {
    let scan = make::scan(&mut world.rng, 500);
    world.patch(((shape.n + d - 1) * shape.l) as usize, &scan);
    world.call(Call::Find { out_len: 3 * 5 })?;
    searches::one(world)
}

fn put_boot(world: &mut World, shape: &Shape, d: u64) {
    let mut boot = world.file[..32].to_vec();
    let u = world.rng.between(2, shape.capacity().min(9));
    let counter = world.rng.pick(&[0, 0x7fff, 0x8000, 0xffff]);
    for (i, number) in [shape.n, d, shape.l, shape.m, u, counter].into_iter().enumerate() {
        shape.put_word(&mut boot, i + 1, number);
    }
    world.patch(0, &boot);
}

/// Gives slots 1, 2 and the last one runs at the edge of what the form can say, or beyond, or none.
fn put_runs(world: &mut World, shape: &Shape) {
    let low = shape.n + 1;
    let good = [(low, low), (low, LAST), (LAST, LAST), (LAST - 1, LAST), (LAST - 1, LAST - 1), (0, 0)];
    let negative =
        [(LAST + 1, LAST + 1), (LAST, LAST + 1), (LAST + 1, 0), (low, LAST + 1), (LAST + 1, LAST), (0, 0xffff)];
    let mut index = world.file[shape.l as usize..(shape.n * shape.l) as usize].to_vec();
    for (slot, odds) in [(1, 20), (2, 30), (shape.capacity(), 15)] {
        let rng = &mut world.rng;
        let last_slot = slot == shape.capacity();
        let (first, last) = match rng.percent(odds) {
            true => rng.pick(&negative),
            false if last_slot => (0, 0),
            false => rng.pick(&good),
        };
        let magic = rng.pick(&[1, 2, 2, 2, 3]);
        // the index by itself: a slot's place in it is its home less record 1
        let at = home(shape, slot) - shape.l as usize;
        put16(&mut index, at, first);
        put16(&mut index, at + 2, last);
        put16(&mut index, at + 4, magic);
    }
    world.patch(shape.l as usize, &index);
}

fn ask(world: &mut World, shape: &Shape) -> Round {
    // less than a record, which the last one may lack a byte of
    let scan = make::scan(&mut world.rng, 500);
    let record = world.rng.pick(&[shape.n + 1, LAST - 1, LAST]);
    world.patch(((record - 1) * shape.l) as usize, &scan);
    world.call(Call::Open)?;
    files::list(world, shape)?;
    searches::one(world)?;
    moves::ask(world, shape)?;
    for slot in [1, 2, 3, shape.capacity()] {
        world.call(Call::Entry { slot })?;
        world.call(Call::Show { slot })?;
        world.call(Call::Read { slot })?;
    }
    Ok(())
}
