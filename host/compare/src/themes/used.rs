//! U: clears from the top down with gaps below, a U that is too high, entries that change between the steps of a job,
//! and jobs that say other things of lowering U than they were begun with. Beside the comparison this holds U to the
//! request: after jobs that ran one after the other it is the highest slot with a scan.

use super::shared::{jobs, slots};
use crate::call::{Answer, Call};
use crate::cases::make;
use crate::cases::shape::{Form, Shape, home};
use crate::world::{Disagreement, Round, World};
use face::Job;

/// What a job may say of lowering U that is neither yes nor no.
const NEITHER: [u64; 7] = [2, 3, 256, 1 << 32, (1 << 32) + 1, 1 << 63, u64::MAX];

pub fn round(world: &mut World) -> Round {
    let part = world.rng.pick(&[emptied, changed_under, changed_under, said_otherwise, made_by_hand]);
    for _ in 0..2 {
        let shape = new_file(world);
        part(world, &shape)?;
    }
    Ok(())
}

/// A small file with few scans, and gaps among them.
fn new_file(world: &mut World) -> Shape {
    let rng = &mut world.rng;
    let shape = make::small_shape(rng);
    let d = rng.between(1, 7);
    let tail = rng.below(6 * shape.l) as usize;
    let file = make::file(rng, &shape, d, tail, 80);
    world.set_file_of(Form::Current, file);
    let scan = make::scan(&mut world.rng, 600);
    world.set_scan(scan);
    let about = make::about(&mut world.rng);
    world.set_about(about);
    shape
}

/// Puts U anywhere from the highest slot with a scan on, as a cut may leave it.
fn raise_u(world: &mut World, shape: &Shape) {
    let highest = slots::filled(world).last().copied().unwrap_or(0);
    let u = world.rng.between(highest, shape.capacity()) as u32;
    world.patch(16, &u.to_be_bytes());
}

/// A clear, of the highest slot with a scan more often than not; none where there is no scan.
fn a_clear(world: &mut World) -> Option<Call> {
    let filled = slots::filled(world);
    let highest = *filled.last()?;
    let any = world.rng.pick(&filled);
    Some(Call::Clear { slot: if world.rng.percent(70) { highest } else { any } })
}

/// A save to any slot, or mostly a clear.
fn any_job(world: &mut World, shape: &Shape) -> Call {
    let slot = world.rng.between(1, shape.capacity());
    let clear = if world.rng.percent(55) { a_clear(world) } else { None };
    clear.unwrap_or(Call::Save { slot })
}

/// Clears slot after slot until nothing is left, with a save now and then. Before some of them U is too high: it is put
/// so, or the job before was cut.
fn emptied(world: &mut World, shape: &Shape) -> Round {
    let scan = world.scan.clone();
    while let Some(clear) = a_clear(world) {
        if world.rng.percent(30) {
            raise_u(world, shape);
        }
        world.set_scan(scan.clone());
        let slot = world.rng.between(1, shape.capacity());
        let call = if world.rng.percent(20) { Call::Save { slot } } else { clear };
        let Some(mut job) = world.begin(call)? else { continue };
        jobs::lend_for(world, call);
        let writes = jobs::writes_of(world, &job);
        let cut = world.rng.percent(25);
        for _ in 0..if cut { world.rng.below(writes) } else { writes + 1 } {
            world.step(&mut job)?;
        }
        if !cut {
            u_is_the_highest(world)?;
        }
    }
    Ok(())
}

fn u_is_the_highest(world: &mut World) -> Round {
    let Answer::Opened(opened) = world.call(Call::Open)? else { unreachable!("open answers sizes") };
    let highest = slots::filled(world).last().copied().unwrap_or(0);
    if opened.why.number == 0 && opened.u == highest {
        return Ok(());
    }
    let what = format!("2026-04: the highest slot with a scan is {highest}, and a job has left U at {}", opened.u);
    Err(Disagreement { what })
}

/// A job between whose steps entries come and go, which a step before the confirming one does not judge.
fn changed_under(world: &mut World, shape: &Shape) -> Round {
    if world.rng.percent(50) {
        raise_u(world, shape);
    }
    let call = any_job(world, shape);
    let Some(mut job) = world.begin(call)? else { return Ok(()) };
    jobs::lend_for(world, call);
    for _ in 0..=jobs::writes_of(world, &job) {
        if world.rng.percent(70) {
            change_an_entry(world, shape);
        }
        world.step(&mut job)?;
    }
    world.call(Call::Open)?;
    Ok(())
}

/// Fills or empties an entry: the highest filled one, one above U, or any.
fn change_an_entry(world: &mut World, shape: &Shape) {
    let (capacity, u) = (shape.capacity(), shape.word(&world.file, 5));
    let filled = |slot: &u64| shape.run(&world.file, *slot) != (0, 0);
    let highest = (1..=capacity).rev().find(filled).unwrap_or(1);
    let rng = &mut world.rng;
    let slot = match rng.below(4) {
        0 => highest,
        1 if u < capacity => rng.between(u + 1, capacity),
        2 => (highest + 1).min(capacity),
        _ => rng.between(1, capacity),
    };
    let record = shape.n + 1 + rng.below(8);
    let far = rng.pick(&[1 << 31, u64::MAX]);
    let run = rng.pick(&[(0, 0), (record, record), (0, record), (record, 0), (1, 0), (0, 1), (far, far)]);
    let mut entry = world.file[home(shape, slot)..][..8].to_vec();
    entry[..4].copy_from_slice(&(run.0 as u32).to_be_bytes());
    entry[4..].copy_from_slice(&(run.1 as u32).to_be_bytes());
    world.patch(home(shape, slot), &entry);
}

/// A job run to its end that mostly says the opposite of lowering U; then each other thing is said, and at last U is put
/// too high.
fn said_otherwise(world: &mut World, shape: &Shape) -> Round {
    let call = any_job(world, shape);
    let Some(begun) = world.begin(call)? else { return Ok(()) };
    jobs::lend_for(world, call);
    let mut job = Job { lowers: if world.rng.percent(60) { 1 - begun.lowers } else { begun.lowers }, ..begun };
    for _ in 0..=jobs::writes_of(world, &job) {
        world.step(&mut job)?;
    }
    let neither = world.rng.pick(&NEITHER);
    for lowers in [0, 1, neither] {
        for written in [job.written, job.written - 1, job.written + 1] {
            tried(world, Job { lowers, written, ..job })?;
        }
    }
    raise_u(world, shape);
    job.boot.copy_from_slice(&world.file[..32]);
    tried(world, job)
}

/// Clears and saves made by hand, which say each thing of lowering U at each count of records, on a file whose entries
/// may be anything.
fn made_by_hand(world: &mut World, shape: &Shape) -> Round {
    for _ in 0..world.rng.below(5) {
        change_an_entry(world, shape);
    }
    for call in [Call::Save { slot: 0 }, Call::Clear { slot: 0 }] {
        jobs::lend_for(world, call);
        let job = by_hand(world, shape);
        let writes = jobs::writes_of(world, &job);
        let neither = world.rng.pick(&NEITHER);
        for lowers in [0, 1, neither] {
            for written in 0..=writes + 2 {
                tried(world, Job { lowers, written, ..job })?;
            }
        }
    }
    Ok(())
}

/// A job that is right in all but where it came from: a clear where the scan that is lent is empty, else a save.
fn by_hand(world: &mut World, shape: &Shape) -> Job {
    let (file_len, scan_len) = (world.file.len() as u64, world.scan.len() as u64);
    let saves = u64::from(scan_len > 0);
    let last = (file_len / shape.l + 1).saturating_sub(scan_len.div_ceil(shape.l)).max(shape.n + 1);
    let boot = world.file[..32].try_into().unwrap();
    let rng = &mut world.rng;
    let (slot, first) = (rng.between(1, shape.capacity()), rng.between(shape.n + 1, last));
    Job { saves, slot, scan_len, file_len, first, boot, about: make::about(rng), ..Job::ZEROS }
}

/// Steps a job once, then puts bootstrap, index and data back.
fn tried(world: &mut World, mut job: Job) -> Round {
    let before = world.file.clone();
    world.step(&mut job)?;
    if world.file != before {
        world.patch(0, &before);
    }
    Ok(())
}
