//! Files and scans changed between the steps of a job, most of all before the confirming one.

use super::shared::{jobs, slots};
use crate::call::Call;
use crate::cases::damage;
use crate::cases::shape::{Shape, home};
use crate::world::{Round, World};
use face::Job;

pub fn round(world: &mut World) -> Round {
    let Some((shape, call, mut job)) = jobs::begin_any(world)? else { return Ok(()) };
    jobs::lend_for(world, call);
    let writes = jobs::writes_of(world, &job);
    for _ in 0..writes {
        world.step(&mut job)?;
    }
    world.step(&mut job)?;
    for _ in 0..8 {
        spoil_and_undo(world, &shape, job)?;
    }
    if !world.scan.is_empty() {
        other_scan(world, job)?;
    }
    world.step(&mut job)?;
    interleaved(world, &shape)
}

/// Changes the file in one place, has the job judged, and puts the file back.
fn spoil_and_undo(world: &mut World, shape: &Shape, mut job: Job) -> Round {
    let before = world.file.clone();
    let at = match world.rng.below(8) {
        0 => home(shape, job.slot) as u64 + world.rng.below(shape.m),
        1 => home(shape, job.slot) as u64 + world.rng.between(62, shape.m - 1),
        2 | 3 => in_data(world, shape, &job),
        4 => in_padding(world, shape, &job),
        5 => world.rng.below(shape.l),
        6 => world.rng.below(before.len() as u64),
        _ => {
            let mut spoilt = before.clone();
            damage::file(&mut world.rng, &mut spoilt, shape);
            spoilt.resize(before.len(), 0);
            world.patch(0, &spoilt);
            world.step(&mut job)?;
            world.patch(0, &before);
            return Ok(());
        }
    } as usize;
    let byte = world.file[at] ^ (1 << world.rng.below(8));
    world.patch(at, &[byte]);
    world.step(&mut job)?;
    world.patch(at, &before[at..=at]);
    Ok(())
}

/// Somewhere in the scan's records, or in record 1 for a clear.
fn in_data(world: &mut World, shape: &Shape, job: &Job) -> u64 {
    if job.scan_len == 0 {
        return world.rng.below(shape.l);
    }
    (job.first - 1) * shape.l + world.rng.below(job.scan_len)
}

/// Somewhere in the padding of the last record; its last byte where there is none.
fn in_padding(world: &mut World, shape: &Shape, job: &Job) -> u64 {
    if job.scan_len == 0 {
        return home(shape, job.slot) as u64 + world.rng.between(8, shape.m - 1);
    }
    let padding = job.scan_len.next_multiple_of(shape.l) - job.scan_len;
    let from_end = 1 + world.rng.below(padding.max(1));
    (job.first - 1) * shape.l + job.scan_len.next_multiple_of(shape.l) - from_end
}

/// The same length with other bytes, then another length.
fn other_scan(world: &mut World, job: Job) -> Round {
    let right = world.scan.clone();
    let mut changed = right.clone();
    changed[world.rng.below(right.len() as u64) as usize] ^= 1;
    for scan in [changed, right[1..].to_vec(), right] {
        world.set_scan(scan);
        world.step(&mut { job })?;
    }
    Ok(())
}

/// Two jobs begun on the same file: the second is run, then the first is stepped.
fn interleaved(world: &mut World, shape: &Shape) -> Round {
    let slot = slots::any(world, shape);
    let Some(mut one) = world.begin(Call::Clear { slot })? else { return Ok(()) };
    let slot = slots::any(world, shape);
    let Some(mut two) = world.begin(Call::Clear { slot })? else { return Ok(()) };
    world.set_scan(Vec::new());
    if world.rng.percent(50) {
        world.step(&mut one)?;
    }
    for _ in 0..4 {
        world.step(&mut two)?;
        world.step(&mut one)?;
    }
    Ok(())
}
