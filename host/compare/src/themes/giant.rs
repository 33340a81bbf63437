//! A file with room for more than 1,000,000 records: memory that is there only where it is touched.

use super::files;
use super::shared::{jobs, links, searches};
use crate::call::Call;
use crate::cases::make;
use crate::cases::shape::{Form, Shape, put32};
use crate::world::{Round, World};
use face::Job;

const MOST: u64 = 1_000_000;

pub fn round(world: &mut World) -> Round {
    let shape = Shape { n: world.rng.between(2, 4), l: 512, m: 64, form: Form::Current };
    let records = MOST + world.rng.pick(&[1, 2, 5]);
    let extra = world.rng.below(shape.l);
    world.set_zeros(shape.form, (records * shape.l + extra) as usize);
    world.call(Call::Blank { n: shape.n, l: shape.l, m: shape.m })?;
    nearly_full(world, &shape);
    world.call(Call::Open)?;
    links::one(world)?;
    files::list(world, &shape)?;
    // from the place that is left: one that fits exactly or nearly, and one record too many
    for most in [1_024, 512, 1_536] {
        let scan = make::scan(&mut world.rng, most);
        world.set_scan(scan);
        if let Some(job) = world.begin(Call::Keep)? {
            jobs::run(world, job, Call::Keep)?;
        }
    }
    world.call(Call::GapsZero)?;
    old_runs(world)?;
    world.call(Call::Show { slot: 1 })?;
    world.call(Call::Read { slot: 2 })?;
    files::list(world, &shape)?;
    found_at_the_end(world, &shape)?;
    one_more(world, &shape)?;
    world.whole_file()
}

/// Gives almost all records to slot 1, so that the free place is at the end of the room.
fn nearly_full(world: &mut World, shape: &Shape) {
    let left = world.rng.below(4);
    let last = MOST - left;
    let mut boot = world.file[..32].to_vec();
    put32(&mut boot, 4, last - shape.n);
    put32(&mut boot, 16, 1);
    world.patch(0, &boot);
    let mut run = [0; 8];
    put32(&mut run, 0, shape.n + 1);
    put32(&mut run, 4, last);
    world.patch(shape.l as usize, &run);
}

/// A clear whose old run ends at the last record of the room, and one past it, though the bytes are there.
fn old_runs(world: &mut World) -> Round {
    let Some(begun) = world.begin(Call::Clear { slot: 1 })? else { return Ok(()) };
    let (file, scan) = (world.file[..4_096].to_vec(), world.scan.clone());
    world.set_scan(Vec::new());
    for (old_first, old_count) in [(MOST + 1, 1), (MOST, 2), (MOST - 1, 3), (MOST, 1)] {
        let mut job = Job { old_first, old_count, ..begun };
        for _ in 0..=jobs::writes_of(world, &job) {
            world.step(&mut job)?;
        }
        world.patch(0, &file);
    }
    world.set_scan(scan);
    Ok(())
}

/// A scan that ends with the last record that a file can have, and one that would end past it, though the bytes are there.
fn found_at_the_end(world: &mut World, shape: &Shape) -> Round {
    put_end(world, shape, MOST);
    // nothing begins before it that goes on into it
    world.patch(((MOST - 6) * shape.l) as usize, &vec![0; 6 * shape.l as usize]);
    for len in [1_024, 1_028] {
        let scan = make::scan_of(&mut world.rng, len);
        world.patch(((MOST - 2) * shape.l) as usize, &scan);
        searches::one(world)?;
        world.call(Call::Find { out_len: 9 })?;
    }
    Ok(())
}

/// N+D one above what it may be, though the bytes are there.
fn one_more(world: &mut World, shape: &Shape) -> Round {
    put_end(world, shape, MOST + 1);
    world.call(Call::Open)?;
    searches::one(world)
}

/// Lets the data section end with this record.
fn put_end(world: &mut World, shape: &Shape, last: u64) {
    let mut d = [0; 4];
    put32(&mut d, 0, last - shape.n);
    world.patch(4, &d);
}
