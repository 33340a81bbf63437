//! Old files: every slot is looked at, every change and every step is refused.

use super::shared::{jobs, searches, slots};
use super::{edges, files};
use crate::call::Call;
use crate::cases::shape::{Form, Shape, put32};
use crate::cases::{damage, make};
use crate::world::{Round, World};
use face::Job;

pub fn round(world: &mut World) -> Round {
    let (shape, file) = make::small_file(&mut world.rng, Form::Old);
    world.set_file_of(Form::Old, file);
    look(world, &shape)?;
    changes(world, &shape)?;
    steps(world, &shape)?;
    not_judged(world, &shape)?;
    spoilt(world, &shape)
}

/// What can be asked of each slot, those that hold nothing too: an empty entry has a magic number as well.
fn look(world: &mut World, shape: &Shape) -> Round {
    world.call(Call::Open)?;
    files::list(world, shape)?;
    searches::one(world)?;
    for slot in (1..=shape.capacity().min(12)).chain([0, shape.capacity() + 1]) {
        world.call(Call::Entry { slot })?;
        world.call(Call::Show { slot })?;
        world.call(Call::Read { slot })?;
    }
    Ok(())
}

/// A save, a keep and a clear, with a scan that is right or not.
pub fn changes(world: &mut World, shape: &Shape) -> Round {
    jobs::new_scan(world);
    let slot = slots::any(world, shape);
    world.begin(Call::Save { slot })?;
    world.begin(Call::Keep)?;
    let slot = slots::any(world, shape);
    world.begin(Call::Clear { slot })?;
    Ok(())
}

/// Jobs that are right in all but the file's form, at every stage and with every kind of first 32 bytes.
pub fn steps(world: &mut World, shape: &Shape) -> Round {
    let scan = make::scan(&mut world.rng, 600);
    world.set_scan(scan);
    let boot = boots(world, shape);
    for written in 0..=world.scan.len() as u64 / shape.l + 3 {
        let mut job = Job { boot: world.rng.pick(&boot), written, ..a_save(world, shape) };
        world.step(&mut job)?;
    }
    world.set_scan(Vec::new());
    for written in 0..=3 {
        let save = a_save(world, shape);
        let mut job = Job { saves: 0, first: 0, about: [0; 54], boot: world.rng.pick(&boot), written, ..save };
        job.lowers = world.rng.below(2);
        world.step(&mut job)?;
    }
    Ok(())
}

/// A save of the world's scan somewhere in the room.
fn a_save(world: &mut World, shape: &Shape) -> Job {
    let (file_len, scan_len) = (world.file.len() as u64, world.scan.len() as u64);
    let last = (file_len / shape.l + 1).saturating_sub(scan_len.div_ceil(shape.l)).max(shape.n + 1);
    let rng = &mut world.rng;
    let slot = rng.between(1, shape.capacity());
    let first = rng.between(shape.n + 1, last);
    Job { saves: 1, slot, scan_len, file_len, first, about: make::about(rng), ..Job::ZEROS }
}

/// What a job may say of the first 32 bytes: mostly what they are; or with word 8 as in the current form, or all
/// words so, or nothing.
fn boots(world: &mut World, shape: &Shape) -> [[u8; 32]; 6] {
    let own: [u8; 32] = world.file[..32].try_into().unwrap();
    let mut renamed = own;
    put32(&mut renamed, 28, 1);
    let mut current = [0; 32];
    for word in 1..=6 {
        put32(&mut current, 4 * (word - 1), shape.word(&own, word));
    }
    put32(&mut current, 28, 1);
    [own, own, own, renamed, current, [0; 32]]
}

/// Changes what is not judged in record 1, and looks whether that makes a difference.
fn not_judged(world: &mut World, shape: &Shape) -> Round {
    for (from, to) in [(12, 28), (24, 28), (32, shape.l)] {
        let junk = if world.rng.percent(50) {
            world.rng.bytes((to - from) as usize)
        } else {
            let mut junk = vec![0; (to - from) as usize];
            *junk.last_mut().unwrap() = world.rng.between(1, 2) as u8;
            junk
        };
        world.patch(from as usize, &junk);
        world.call(Call::Open)?;
        files::list(world, shape)?;
    }
    Ok(())
}

/// The same file with something wrong: what a look answers then, and that a change answers 1, 2 or 3 and nothing later.
fn spoilt(world: &mut World, shape: &Shape) -> Round {
    let right = world.file.clone();
    for _ in 0..4 {
        let mut file = right.clone();
        let rng = &mut world.rng;
        match rng.below(4) {
            0 => shape.put_word(&mut file, 8, rng.pick(&[2, 0x0001_0000, 0x0100_0000, 0x8000_0000])),
            1 => negative(world, &mut file, shape),
            _ => damage::file(rng, &mut file, shape),
        }
        world.set_file_of(Form::Old, file);
        changes(world, shape)?;
        edges::ask(world, shape)?;
    }
    Ok(())
}

/// Makes one of the numbers negative: of the bootstrap, or of an entry.
fn negative(world: &mut World, file: &mut [u8], shape: &Shape) {
    let rng = &mut world.rng;
    let any = rng.between(0x8000, 0xffff);
    let number = rng.pick(&[0x8000, 0x8001, 0xffff, any]);
    if rng.percent(50) {
        return shape.put_word(file, rng.between(1, 6) as usize, number);
    }
    let slot = rng.between(1, shape.capacity());
    let (first, last) = shape.run(file, slot);
    let (first, last) = rng.pick(&[(number, last), (first, number), (number, number), (number, 0), (0, number)]);
    shape.put_run(file, slot, first, last);
}
