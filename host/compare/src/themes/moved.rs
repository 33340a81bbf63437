//! Files moved to the other form and home again, and the causes for which they are not. Beside the comparison this holds
//! the answers to what the request promises: the same list, entries and scans, and the same bytes where they can be. A
//! search finds the same too.

use super::shared::{moves, slots};
use crate::call::{Answer, Call};
use crate::cases::shape::{Form, Shape, home, put16};
use crate::cases::{damage, make};
use crate::rng::Rng;
use crate::world::{Disagreement, Round, World};
use face::{Entry, Opened};

pub fn round(world: &mut World) -> Round {
    let rng = &mut world.rng;
    let form = rng.pick(&[Form::Old, Form::Current]);
    let (shape, mut file) = make::small_file(rng, form);
    make::movable(rng, &mut file, &shape);
    let tidy = rng.percent(50);
    if tidy {
        make::tidy(&mut file, &shape);
    }
    world.set_file_of(form, file.clone());
    there_and_home(world, &shape, tidy)?;
    for _ in 0..6 {
        let mut file = file.clone();
        spoil(&mut world.rng, &mut file, &shape);
        world.set_file_of(form, file);
        moves::ask(world, &shape)?;
        moves::lend_enough(world, &shape);
        world.call(moves::to(shape.other().form))?;
    }
    Ok(())
}

/// One cause of 19, or what is nearly one; or damage that open refuses.
fn spoil(rng: &mut Rng, file: &mut Vec<u8>, shape: &Shape) {
    let which = rng.below(8);
    match (shape.form, which) {
        (_, 0) => damage::file(rng, file, shape),
        (Form::Current, 1..=3) => shape.put_word(file, 7, 1),
        (Form::Current, _) => shape.put_word(file, 6, rng.pick(&[65_535, 65_536, 65_537, 0x8000_0000, 0xffff_ffff])),
        (Form::Old, _) => {
            let filled = filled(file, shape);
            let any = rng.between(1, shape.capacity());
            let slot = if which < 6 && !filled.is_empty() { rng.pick(&filled) } else { any };
            let magic = rng.pick(&[0, 1, 1, 2, 3, 3, 0x0102, 0x0200, 0x8002, 0xffff]);
            put16(file, home(shape, slot) + 4, magic);
        }
    }
}

/// Converts the file, joins what was written with the file's own data, and asks what it shows; then home again.
/// Where padding and empty entries are zeros (`tidy`) the bytes at home are those that set out. Where they are not, they
/// are from the first way home on, so that the second way there and home gives what the first one gave.
pub fn there_and_home(world: &mut World, shape: &Shape, tidy: bool) -> Round {
    let own = world.file[..(shape.n * shape.l) as usize].to_vec();
    let slots = asked(world, shape);
    let before = shown(world, &slots)?;
    let there = go(world, shape, shape.other().form)?;
    hold(shown(world, &slots)? == before, "a file in the other form does not show what it showed")?;
    let back = go(world, shape, shape.form)?;
    hold(shown(world, &slots)? == before, "a file that came home does not show what it showed")?;
    hold(!tidy || back == own, "a file with nothing but zeros between came home with other bytes")?;
    let again = [go(world, shape, shape.other().form)?, go(world, shape, shape.form)?];
    hold(again == [there, back], "the second way there and home gives other bytes than the first")?;
    world.tally.moves.count_way(!shape.is_old(), tidy);
    Ok(())
}

/// Converts the file to this form, which has to be accepted, and puts what was written in the place of its own.
fn go(world: &mut World, shape: &Shape, form: Form) -> Round<Vec<u8>> {
    let Some(records) = moves::converted(world, shape, form)? else {
        return Err(Disagreement { what: format!("a file that can be said in the form {form:?} is not converted") });
    };
    world.put_index(form, &records);
    Ok(records)
}

fn hold(right: bool, what: &str) -> Round {
    if right { Ok(()) } else { Err(Disagreement { what: format!("there and home: {what}") }) }
}

/// The slots that are asked about: all that have a scan, and one more. The list says which are empty.
fn asked(world: &mut World, shape: &Shape) -> Vec<u64> {
    let mut slots = filled(&world.file, shape);
    slots.push(slots::any(world, shape));
    slots
}

/// The slots with a scan.
fn filled(file: &[u8], shape: &Shape) -> Vec<u64> {
    (1..=shape.capacity()).filter(|slot| shape.run(file, *slot) != (0, 0)).collect()
}

/// What a file shows but for its form: sizes, list, what a search finds, and for each slot its entry, its records and its scan.
fn shown(world: &mut World, slots: &[u64]) -> Round<Vec<Vec<u8>>> {
    let mut all = Vec::new();
    let Answer::Opened(opened) = world.call(Call::Open)? else { unreachable!("open answers sizes") };
    all.push(Answer::Opened(Opened { version: 0, ..opened }).bytes());
    world.call(Call::List { out_len: 3 * opened.capacity as usize })?;
    all.push(model::list(&world.file, usize::MAX).map_or(Vec::new(), |list| format!("{list:?}").into_bytes()));
    let found = model::find(&world.file, usize::MAX).unwrap_or_default();
    world.call(Call::Find { out_len: found.len() })?;
    all.push(format!("{found:?}").into_bytes());
    for slot in slots {
        let Answer::Entry(entry) = world.call(Call::Entry { slot: *slot })? else { unreachable!("an entry") };
        all.push(Answer::Entry(Entry { magic: 0, ..entry }).bytes());
        let Answer::Span(span) = world.call(Call::Show { slot: *slot })? else { unreachable!("show answers a span") };
        all.push(Answer::Span(span).bytes());
        all.push(world.file[span.from as usize..span.to as usize].to_vec());
        all.push(world.call(Call::Read { slot: *slot })?.bytes());
    }
    Ok(all)
}
