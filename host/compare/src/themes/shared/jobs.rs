//! What the themes do with jobs.

use super::slots;
use crate::call::Call;
use crate::cases::shape::{Form, Shape};
use crate::cases::{damage, make};
use crate::world::{Round, World};
use face::Job;

/// A new scan and new bytes for its entry. Most scans obey the rules and are small;
/// some are damaged, and a few are as long as they may be or longer.
pub fn new_scan(world: &mut World) {
    let rng = &mut world.rng;
    let most = match rng.below(20) {
        0 => rng.pick(&[65_536, 70_000]),
        1..=4 => 4_200,
        _ => rng.pick(&[272, 512, 700, 1_024, 1_100, 1_600, 2_048]),
    };
    let mut scan = make::scan(rng, most);
    if rng.percent(15) {
        damage::scan_numbers(rng, &mut scan);
    }
    if rng.percent(10) {
        damage::scan_length(rng, &mut scan);
    }
    let about = make::about(rng);
    world.set_scan(scan);
    world.set_about(about);
}

/// Sets a small file up that can be changed, with a right scan, and begins a job on them; none where it is refused.
pub fn begin_any(world: &mut World) -> Round<Option<(Shape, Call, Job)>> {
    let (shape, file) = make::small_file(&mut world.rng, Form::Current);
    world.set_file(file);
    let most = world.rng.pick(&[272, 600, 700, 1_200, 1_500, 2_500]);
    let scan = make::scan(&mut world.rng, most);
    world.set_scan(scan);
    let about = make::about(&mut world.rng);
    world.set_about(about);
    let slot = slots::any(world, &shape);
    let call = world.rng.pick(&[Call::Save { slot }, Call::Save { slot }, Call::Keep, Call::Clear { slot }]);
    Ok(world.begin(call)?.map(|job| (shape, call, job)))
}

/// Lends the scan that a job wants: a clear wants an empty one.
pub fn lend_for(world: &mut World, call: Call) {
    if matches!(call, Call::Clear { .. }) {
        world.set_scan(Vec::new());
    }
}

/// Runs a job to its end and once more.
pub fn run(world: &mut World, mut job: Job, call: Call) -> Round {
    lend_for(world, call);
    for _ in 0..=writes_of(world, &job) + 1 {
        world.step(&mut job)?;
    }
    Ok(())
}

/// Clears the highest slot with a scan, if there is one.
pub fn clear_highest(world: &mut World) -> Round {
    let Some(slot) = slots::filled(world).last().copied() else { return Ok(()) };
    let call = Call::Clear { slot };
    match world.begin(call)? {
        Some(job) => run(world, job, call),
        None => Ok(()),
    }
}

/// How many records a job has written once its index record is: the scan's, record 1 and that one.
pub fn writes_to_index(world: &World, job: &Job) -> u64 {
    let l = u64::from(u32::from_be_bytes(world.file[8..12].try_into().unwrap()));
    job.scan_len.div_ceil(l) + 2
}

/// How many records a job has to write, whose old run is one.
pub fn writes_of(world: &World, job: &Job) -> u64 {
    writes_to_index(world, job) + u64::from(job.saves == 0 && job.lowers == 1) + job.old_count
}
