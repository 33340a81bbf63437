//! Runs of bytes: the rules, the classes and the data.

use crate::call::Call;
use crate::cases::shape::Form;
use crate::cases::{damage, make};
use crate::world::{Round, World};

pub fn round(world: &mut World) -> Round {
    let rng = &mut world.rng;
    let (_, file) = make::small_file(rng, Form::Current);
    world.set_file(file);
    for _ in 0..4 {
        match world.rng.below(10) {
            0..=5 => any_run(world),
            6..=8 => small_edge(world),
            _ => large_edge(world),
        }
        ask(world)?;
    }
    Ok(())
}

/// A run that is right or damaged; some are longer than any scan that can be saved.
fn any_run(world: &mut World) {
    let rng = &mut world.rng;
    let most = match rng.below(16) {
        0 => 140_000,
        1 => 65_536,
        2 => 65_600,
        _ => rng.between(272, 1_600),
    };
    let mut run = make::scan(rng, most as usize);
    for _ in 0..rng.pick(&[0, 1, 1, 1, 2]) {
        damage::scan_numbers(rng, &mut run);
    }
    if rng.percent(35) {
        damage::scan_length(rng, &mut run);
    }
    if most > 65_536 {
        run.resize(run.len().max(most as usize), 7);
    }
    world.set_scan(run);
}

/// A small scan with one number at or just past its edge and all else right.
fn small_edge(world: &mut World) {
    let rng = &mut world.rng;
    let mut starts: Vec<u64> = (20..33 + rng.below(3)).collect();
    starts[0] = 5;
    let least = 8.0 * starts[starts.len() - 1] as f64;
    let (mut head, mut data) = (least + 8.0, 16.0);
    let mut len = (head + data) as usize;
    match rng.below(9) {
        0 => starts[1] = 20,
        1 => starts[0] = rng.pick(&[4, 6]),
        2 => *starts.last_mut().unwrap() -= rng.between(1, 2),
        3 => starts.truncate(12),
        4 => head = rng.pick(&[least, least - 8.0, least + 4.0, least + 8.5, len as f64, len as f64 + 8.0]),
        5 => data = rng.pick(&[0.0, -0.0, 14.0, 12.0, 16.25, 18.0, 20.0, -4.0]),
        6 => len = rng.pick(&[len - 1, len + 1, 255, 256]),
        7 => *starts.last_mut().unwrap() = rng.pick(&[0x7fff, 0x8000, 0xffff]),
        _ => (),
    }
    let mut run = rng.bytes(len);
    make::put_preamble(&mut run, &starts);
    make::put_lengths(&mut run, head, data);
    world.set_scan(run);
}

/// A run with HEADLEN, DATALEN or its length at or just past 65,536.
fn large_edge(world: &mut World) {
    let rng = &mut world.rng;
    let head = rng.pick(&[280, 65_528, 65_536, 65_540, 65_544]);
    let data = rng.pick(&[0, 65_528, 65_532, 65_534, 65_536, 65_540]);
    let len = match rng.below(4) {
        0 => 65_536,
        1 => 65_537,
        _ => head + data + rng.pick(&[0, 1, 4]),
    };
    let head = if len == 65_536 || len == 65_537 { head.min(65_536) } else { head };
    let data = if len == 65_536 || len == 65_537 { 65_536 - head } else { data };
    let mut starts: Vec<u64> = (20..33).collect();
    starts[0] = 5;
    let mut run = rng.bytes(len);
    make::put_preamble(&mut run, &starts);
    make::put_lengths(&mut run, head as f64, data as f64);
    world.set_scan(run);
}

fn ask(world: &mut World) -> Round {
    world.call(Call::Data)?;
    for _ in 0..5 {
        let number = match world.rng.below(5) {
            0 => world.rng.pick(&[0, 16, 1 << 32, (1 << 32) + 1, u64::MAX]),
            1 => world.rng.between(12, 16),
            _ => world.rng.between(1, 15),
        };
        world.call(Call::Class { number })?;
    }
    world.call(Call::Save { slot: 1 })?;
    world.call(Call::Keep)?;
    Ok(())
}
