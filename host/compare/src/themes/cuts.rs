//! A job cut after every record in turn. Beside the comparison this holds the
//! answers to demand 3: the slot is as before until the index record is
//! written, and from then on it is as the job leaves it.

use super::histories;
use super::shared::jobs;
use crate::call::{Answer, Call};
use crate::cases::shape::Shape;
use crate::world::{Disagreement, Round, World};
use face::Job;

pub fn round(world: &mut World) -> Round {
    let Some((shape, call, job)) = jobs::begin_any(world)? else { return Ok(()) };
    let file = world.file.clone();
    jobs::lend_for(world, call);
    let before = shown(world, &shape)?;
    let writes = jobs::writes_of(world, &job);
    let to_index = jobs::writes_to_index(world, &job);
    for cut in 0..=writes + 2 {
        world.set_file(file.clone());
        let mut stepped = job;
        for _ in 0..cut {
            world.step(&mut stepped)?;
        }
        let now = shown(world, &shape)?;
        demand_three(&job, cut < to_index, &before, &now)?;
        if world.call(Call::Open)?.why().number != 0 {
            return Err(Disagreement { what: format!("demand 3: a file that opened does not after {cut} records") });
        }
        histories::look(world, &shape)?;
    }
    Ok(())
}

/// What each slot shows.
fn shown(world: &mut World, shape: &Shape) -> Round<Vec<Option<Vec<u8>>>> {
    let mut all = Vec::new();
    for slot in 1..=shape.capacity().min(40) {
        let Answer::Span(span) = world.call(Call::Show { slot })? else { unreachable!("show answers a span") };
        let part = world.file[span.from as usize..span.to as usize].to_vec();
        all.push((span.why.number == 0).then_some(part));
    }
    Ok(all)
}

/// Every other slot shows what it did, and so does this one until the index record is written.
fn demand_three(job: &Job, as_before: bool, before: &[Option<Vec<u8>>], now: &[Option<Vec<u8>>]) -> Round {
    for (i, (was, is)) in before.iter().zip(now).enumerate() {
        let own = i as u64 + 1 == job.slot;
        let right = if own && !as_before { is.is_some() == (job.saves == 1) } else { was == is };
        if !right {
            return Err(Disagreement { what: format!("demand 3: slot {} shows something else after a cut", i + 1) });
        }
    }
    Ok(())
}
