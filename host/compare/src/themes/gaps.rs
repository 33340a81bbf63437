//! The gaps: scans replaced and cleared to the end and cut after every record, with the question after each; old runs
//! that jobs were not begun with; old records that are spoilt before the confirming step; and files of both forms with
//! a byte in a gap. Beside the comparison this holds the answer to the request: after confirmed jobs alone a yes stays
//! a yes.

use super::shared::{jobs, slots};
use crate::call::{Answer, Call};
use crate::cases::shape::{Form, Shape, home};
use crate::cases::{damage, make};
use crate::world::{Disagreement, Round, World};
use face::Job;

pub fn round(world: &mut World) -> Round {
    let part =
        world.rng.pick(&[one_after_another, cut_everywhere, other_runs, other_runs, spoilt, spoilt, asked, asked]);
    part(world)
}

/// A small file with few scans whose gaps are zeros; past its data stands anything.
fn new_file(world: &mut World, form: Form) -> Shape {
    let rng = &mut world.rng;
    let shape = Shape { form, ..make::small_shape(rng) };
    let d = rng.between(1, 9);
    let tail = rng.below(6 * shape.l) as usize;
    let fill = rng.pick(&[0, 30, 60, 60, 80]);
    let mut file = make::file(rng, &shape, d, tail, fill);
    make::zero_gaps(&mut file, &shape);
    world.set_file_of(form, file);
    new_scan(world);
    shape
}

fn new_scan(world: &mut World) {
    let most = world.rng.pick(&[272, 600, 1_200, 2_500]);
    let scan = make::scan(&mut world.rng, most);
    world.set_scan(scan);
    let about = make::about(&mut world.rng);
    world.set_about(about);
}

/// A save over a scan, a clear, or a job on an empty slot.
fn a_job(world: &mut World, shape: &Shape) -> Call {
    let filled = slots::filled(world);
    let rng = &mut world.rng;
    let empty = rng.between(1, shape.capacity());
    if filled.is_empty() {
        return Call::Save { slot: empty };
    }
    let slot = rng.pick(&filled);
    let highest = filled[filled.len() - 1];
    let clears = [Call::Clear { slot }, Call::Clear { slot: highest }];
    rng.pick(&[Call::Save { slot }, Call::Save { slot }, clears[0], clears[1], Call::Keep, Call::Save { slot: empty }])
}

/// Begins a job and lends it the scan that it wants; none where it is refused.
fn begin(world: &mut World, shape: &Shape) -> Round<Option<Job>> {
    let call = a_job(world, shape);
    let job = world.begin(call)?;
    jobs::lend_for(world, call);
    Ok(job)
}

fn steps(world: &mut World, job: &mut Job, count: u64) -> Round {
    for _ in 0..count {
        world.step(job)?;
    }
    Ok(())
}

/// Whether the gaps are zeros; none where the file does not open.
fn ask(world: &mut World) -> Round<Option<bool>> {
    match world.call(Call::GapsZero)? {
        Answer::YesNo(answer) => Ok((answer.why.number == 0).then_some(answer.yes == 1)),
        _ => unreachable!("the question is answered yes or no"),
    }
}

/// Jobs that run to their confirmation, one after the other. The one before is stepped again meanwhile.
fn one_after_another(world: &mut World) -> Round {
    let shape = new_file(world, Form::Current);
    let mut before: Option<(Job, Vec<u8>)> = None;
    for _ in 0..world.rng.between(2, 7) {
        new_scan(world);
        let Some(mut job) = begin(world, &shape)? else { continue };
        for _ in 0..jobs::writes_of(world, &job) {
            world.step(&mut job)?;
            if world.rng.percent(40) {
                again(world, &before)?;
                ask(world)?;
            }
        }
        let confirmed = world.step(&mut job)?.done > 0;
        if !confirmed || ask(world)? != Some(true) {
            let what = "2026-05: after confirmed jobs alone, a record that belongs to no scan is not zeros".to_string();
            return Err(Disagreement { what });
        }
        before = Some((job, world.scan.clone()));
    }
    Ok(())
}

/// Steps a job that was confirmed before this one was begun: into its zeroed records a later save may have put data.
fn again(world: &mut World, before: &Option<(Job, Vec<u8>)>) -> Round {
    let Some((job, scan)) = before else { return Ok(()) };
    let own = world.scan.clone();
    world.set_scan(scan.clone());
    world.step(&mut { *job })?;
    // a job that knows the file's record 1 as it is now finds what has become of its own records
    let boot = world.file[..32].try_into().unwrap();
    world.step(&mut Job { boot, ..*job })?;
    world.set_scan(own);
    Ok(())
}

/// A job cut after every record in turn; then another one, which zeroes nothing of what the cut has left.
fn cut_everywhere(world: &mut World) -> Round {
    let shape = new_file(world, Form::Current);
    let Some(job) = begin(world, &shape)? else { return Ok(()) };
    let (file, scan) = (world.file.clone(), world.scan.clone());
    for cut in 0..=jobs::writes_of(world, &job) {
        world.set_file(file.clone());
        world.set_scan(scan.clone());
        let mut stepped = job;
        steps(world, &mut stepped, cut)?;
        ask(world)?;
        if world.rng.percent(30) {
            new_scan(world);
            if let Some(mut later) = begin(world, &shape)? {
                let writes = jobs::writes_of(world, &later);
                steps(world, &mut later, writes + 1)?;
                ask(world)?;
            }
        }
    }
    Ok(())
}

/// A job with old runs that it was not begun with, each run to its end.
fn other_runs(world: &mut World) -> Round {
    let shape = new_file(world, Form::Current);
    let Some(begun) = begin(world, &shape)? else { return Ok(()) };
    let (file, room) = (world.file.clone(), begun.file_len / shape.l);
    for (old_first, old_count) in some_runs(world, &shape, &begun) {
        let mut job = Job { old_first, old_count, ..begun };
        let in_room = old_count <= room;
        let writes = if in_room { jobs::writes_of(world, &job) } else { 1 };
        steps(world, &mut job, writes + 1)?;
        ask(world)?;
        let slot = slots::any(world, &shape);
        world.call(Call::Show { slot })?;
        for written in [writes + 1, u64::MAX] {
            world.step(&mut Job { written, ..job })?;
        }
        world.patch(0, &file);
    }
    Ok(())
}

/// Runs that do not lie where a step may zero them, runs just inside, the job's own new records, a listed scan's, and
/// none.
fn some_runs(world: &mut World, shape: &Shape, job: &Job) -> Vec<(u64, u64)> {
    let (n, room, most) = (shape.n, job.file_len / shape.l, u64::MAX);
    let k = job.scan_len.div_ceil(shape.l).max(1);
    let mut runs = vec![(n + 1, 1)];
    runs.extend(slots::filled(world).iter().map(|slot| shape.run(&world.file, *slot)));
    let rng = &mut world.rng;
    let back = rng.below(room + 2);
    let (first, last) = rng.pick(&runs[usize::from(runs.len() > 1)..]);
    let listed = (first, last.max(first) - first + 1);
    let outside = [(n, 1), (n, 2), (0, 1), (1, 1), (room + 1, 1), (room, 2), (n + 1, room - n + 1), (room + 2, 1)];
    let wrapping =
        [(most, 1), (most, most), (most, 2), (n + 1, most), (n + 2, most - n), (0, most), (most - back, n + 2 + back)];
    let far = [((1 << 32) + n + 1, 1), (n + 1, (1 << 32) + 1), (1 << 63, 1 << 63), (n + 1, 1 << 63)];
    let inside =
        [(n + 1, 1), (room, 1), (n + 1, room - n), (room.max(n + 2) - 1, 2), (job.old_first, job.old_count.max(1) - 1)];
    let own = [(job.first, k), (job.first + k - 1, 1), (job.first, 1)];
    let none = [(0, 0), (most, 0), (room + 1, 0), (n, 0), (1, 0), (job.first, 0), (job.old_first, 0)];
    vec![
        rng.pick(&outside),
        rng.pick(&wrapping),
        rng.pick(&far),
        rng.pick(&inside),
        rng.pick(&own),
        rng.pick(&none),
        listed,
    ]
}

/// Two jobs, each on a file of its own, whose records are spoilt before the confirming step.
fn spoilt(world: &mut World) -> Round {
    for _ in 0..2 {
        let shape = new_file(world, Form::Current);
        if let Some(job) = begin(world, &shape)? {
            spoil(world, &shape, job)?;
        }
    }
    Ok(())
}

/// A job whose old records are spoilt, each at its edges; and then what is not its own.
fn spoil(world: &mut World, shape: &Shape, mut job: Job) -> Round {
    let writes = jobs::writes_of(world, &job);
    steps(world, &mut job, writes)?;
    let old: Vec<u64> = (0..job.old_count).map(|i| job.old_first + i).collect();
    for record in old {
        let at = (record - 1) * shape.l;
        let any = world.rng.below(shape.l);
        for at in [at, at + shape.l - 1, at + any] {
            with_byte(world, at as usize, |world| world.step(&mut { job }).map(|_| ()))?;
        }
        with_byte(world, at as usize, |world| damaged_too(world, shape, job))?;
    }
    let elsewhere = world.rng.below(world.file.len() as u64) as usize;
    with_byte(world, elsewhere, |world| world.step(&mut { job }).map(|_| ()))?;
    if let Some(gap) = a_gap(world, shape, &job) {
        with_byte(world, gap, |world| world.step(&mut { job }).map(|_| ()))?;
    }
    steps(world, &mut job, 2)
}

/// The first byte of a record that belongs to no scan and not to the job.
fn a_gap(world: &mut World, shape: &Shape, job: &Job) -> Option<usize> {
    let mut gaps = make::gaps(&world.file, shape);
    gaps.retain(|record| !(job.old_first..job.old_first + job.old_count).contains(record));
    if gaps.is_empty() {
        return None;
    }
    Some(((world.rng.pick(&gaps) - 1) * shape.l) as usize)
}

/// The confirming step on a file whose index is damaged as well, which is looked at first.
fn damaged_too(world: &mut World, shape: &Shape, job: Job) -> Round {
    let slot = world.rng.between(1, shape.capacity());
    let entry = world.file[home(shape, slot)..][..8].to_vec();
    world.patch(home(shape, slot), &[0, 0, 0, 1, 0, 0, 0, 1]);
    world.step(&mut { job })?;
    world.patch(home(shape, slot), &entry);
    Ok(())
}

/// Does something while a byte is another than it was: a zero is none.
fn with_byte(world: &mut World, at: usize, mut ask: impl FnMut(&mut World) -> Round) -> Round {
    let was = world.file[at];
    let bit = 1 << world.rng.below(8);
    world.patch(at, &[was ^ bit]);
    ask(world)?;
    world.patch(at, &[was]);
    Ok(())
}

/// The question of a file of either form whose gaps are zeros, then with one byte at an edge, then with anything there.
fn asked(world: &mut World) -> Round {
    let form = world.rng.pick(&[Form::Old, Form::Current]);
    let shape = new_file(world, form);
    ask(world)?;
    for at in edges(world, &shape) {
        with_byte(world, at, |world| ask(world).map(|_| ()))?;
    }
    let mut file = world.file.clone();
    damage::file(&mut world.rng, &mut file, &shape);
    world.set_file_of(form, file);
    ask(world)?;
    let file = make::small_file(&mut world.rng, form).1;
    world.set_file_of(form, file);
    ask(world).map(|_| ())
}

/// The first and the last byte of every gap's record, others in it, and bytes that are in no gap.
fn edges(world: &mut World, shape: &Shape) -> Vec<usize> {
    let l = shape.l as usize;
    let data = (shape.n + shape.word(&world.file, 2)) as usize * l;
    let mut at = vec![shape.n as usize * l - 1, shape.n as usize * l, data - 1];
    at.extend((data < world.file.len()).then_some(data));
    for record in make::gaps(&world.file, shape) {
        let from = (record as usize - 1) * l;
        let any = world.rng.below(shape.l) as usize;
        at.extend([from, from + l - 1, from + any]);
    }
    at
}
