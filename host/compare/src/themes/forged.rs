//! Jobs forged in every field, at every stage.

use super::shared::jobs;
use crate::cases::shape::get32;
use crate::world::{Round, World};
use face::Job;

pub fn round(world: &mut World) -> Round {
    let Some((_, call, mut job)) = jobs::begin_any(world)? else { return Ok(()) };
    if world.rng.percent(80) {
        jobs::lend_for(world, call);
    }
    for _ in 0..world.rng.below(jobs::writes_of(world, &job) + 1) {
        world.step(&mut job)?;
    }
    for _ in 0..2 {
        for field in 0..8 {
            let forged = forge(world, job, field);
            try_and_undo(world, forged)?;
        }
        for field in [Beside::First, Beside::Lowers] {
            let forged = forge_count(world, job, field);
            try_and_undo(world, forged)?;
        }
    }
    empty_scan(world, job)?;
    foreign_file(world, job)
}

/// Steps a forged job, then puts the file back.
fn try_and_undo(world: &mut World, forged: Job) -> Round {
    let before = world.file.clone();
    let mut job = forged;
    for _ in 0..2 {
        world.step(&mut job)?;
    }
    if world.file != before {
        world.patch(0, &before);
    }
    Ok(())
}

/// The job with one field changed, to an edge more often than not.
fn forge(world: &mut World, job: Job, field: u64) -> Job {
    let (n, l) = (get32(&world.file, 0), get32(&world.file, 8));
    let capacity = (n - 1) * l / get32(&world.file, 12);
    let room = job.file_len / l;
    let k = job.scan_len.div_ceil(l);
    let rng = &mut world.rng;
    let random = rng.next();
    let far = rng.pick(&[0, 1, 2, 1 << 32, 1 << 63, u64::MAX, random]);
    let near = |rng: &mut crate::rng::Rng, edges: &[u64]| if rng.percent(80) { rng.pick(edges) } else { far };
    let mut forged = job;
    match field {
        0 => forged.saves = near(rng, &[0, 1, 2, 256, (1 << 32) + 1]),
        1 => forged.slot = near(rng, &[0, 1, capacity, capacity + 1, (1 << 32) + job.slot]),
        2 => forged.scan_len = near(rng, &[job.scan_len + 1, job.scan_len.wrapping_sub(1), (1 << 32) + job.scan_len]),
        3 => forged.file_len = near(rng, &[job.file_len + 1, job.file_len - 1, job.file_len + l]),
        4 => {
            let edge = [
                n,
                n + 1,
                room,
                room + 1,
                room.saturating_sub(k) + 1,
                room.saturating_sub(k) + 2,
                0,
                (1 << 32) + job.first,
            ];
            forged.first = near(rng, &edge);
        }
        5 => {
            let total = k + 2 + job.old_count + u64::from(job.saves == 0 && job.lowers == 1);
            forged.written = near(rng, &[0, k, k + 1, k + 2, k + 3, 2, 3, job.written + 1, total, total + 1]);
        }
        6 => {
            let at = if rng.percent(50) { rng.between(20, 31) } else { rng.below(32) } as usize;
            forged.boot[at] ^= 1 << rng.below(8);
        }
        _ => forged.about[rng.below(54) as usize] ^= 1 << rng.below(8),
    }
    forged
}

/// What is forged beside the count of records written.
#[derive(Clone, Copy)]
enum Beside {
    First,
    Lowers,
}

/// The job with another count of records written and, beside it, another first record or another word on lowering U.
fn forge_count(world: &mut World, job: Job, beside: Beside) -> Job {
    let (n, l) = (get32(&world.file, 0), get32(&world.file, 8));
    let (room, k) = (job.file_len / l, job.scan_len.div_ceil(l));
    let rng = &mut world.rng;
    let mut forged = job;
    match beside {
        Beside::First => {
            forged.first = rng.pick(&[n, n + 1, room + 1, room.saturating_sub(k) + 1, u64::MAX]);
            forged.written = rng.pick(&[0, k, k + 1, k + 2, u64::MAX]);
        }
        Beside::Lowers => {
            forged.lowers = rng.pick(&[0, 1, 1, 2, 256, 1 << 32, (1 << 32) + 1, u64::MAX]);
            forged.written = rng.pick(&[job.written, job.written, k, k + 1, k + 2, k + 3, k + 4]);
        }
    }
    forged
}

/// A save (or a clear) that says its scan is empty, and is lent an empty one.
fn empty_scan(world: &mut World, job: Job) -> Round {
    world.set_scan(Vec::new());
    for saves in [0, 1] {
        for written in [0, 1, 2] {
            let lowers = world.rng.below(2);
            try_and_undo(world, Job { saves, scan_len: 0, written, lowers, ..job })?;
        }
    }
    Ok(())
}

/// The job on a file that is longer, shorter, or too short to have a bootstrap.
fn foreign_file(world: &mut World, job: Job) -> Round {
    let len = world.file.len();
    let new = world.rng.pick(&[len + 1, len - 1, 511, 512, 31, 0]);
    let mut file = world.file.clone();
    file.resize(new, 0);
    world.set_file(file);
    for file_len in [job.file_len, new as u64] {
        let mut forged = Job { file_len, ..job };
        world.step(&mut forged)?;
    }
    Ok(())
}
