//! What the themes do with verdicts over the link.

use crate::call::{Answer, Call, opened};
use crate::rng::Rng;
use crate::world::{Disagreement, Round, World};
use face::Link;
use model::ROW;

/// So many bytes of a file come in full; of a longer one those of bootstrap and index, and some more.
const MOST: usize = 1 << 16;

/// Random numbers for a working row.
pub fn row(rng: &mut Rng, len: usize) -> Vec<u32> {
    (0..len).map(|_| rng.next() as u32).collect()
}

/// Lends a working row of random numbers, which is just long enough or longer.
pub fn lend(world: &mut World) {
    let more = world.rng.pick(&[0, 0, 1, 9]);
    let row = row(&mut world.rng, ROW + more);
    world.set_working(row);
}

/// Takes the row back.
pub fn unlend(world: &mut World) {
    world.set_working(Vec::new());
}

/// Bytes of the file come.
pub fn come(world: &mut World, link: &mut Link, from: usize, to: usize) -> Round {
    let piece = world.file[from..to].to_vec();
    world.link_take(link, &piece)
}

/// Finish, once the first `came` bytes of the file have come: it has to be what the request says of them.
pub fn finish(world: &mut World, link: &Link, came: usize) -> Round<Answer> {
    let said = world.call(Call::LinkFinish { link: *link })?;
    let wanted = opened(model::verdict(&world.file, came), world.file.len() as u64);
    if said.bytes() == wanted.bytes() { Ok(said) } else { Err(otherwise(came, &said, &wanted)) }
}

fn otherwise(came: usize, said: &Answer, wanted: &Answer) -> Disagreement {
    Disagreement { what: format!("2026-07: after {came} bytes finish is {said:?}, and the request says {wanted:?}") }
}

/// The file over the link, in pieces that end at these places and at its end; in so many of a hundred finish is asked
/// after a piece. At the end it has to be what open answered.
pub fn cut(world: &mut World, open: &Answer, places: &[usize], asked: u64) -> Round {
    let end = end(world);
    let mut link = world.link_begin(world.file.len() as u64)?;
    let mut from = 0;
    for to in places.iter().copied().filter(|place| *place <= end).chain([end]) {
        come(world, &mut link, from, to)?;
        if to < end && world.rng.percent(asked) {
            finish(world, &link, to)?;
        }
        from = to;
    }
    let said = finish(world, &link, end)?;
    if said.bytes() == open.bytes() { Ok(()) } else { Err(otherwise(end, &said, open)) }
}

/// How many bytes of the file come: all that is judged in any case.
fn end(world: &World) -> usize {
    let judged = model::bootstrap(&world.file).map_or(512, |sizes| sizes.n * sizes.l) as usize;
    if world.file.len() <= MOST { world.file.len() } else { world.file.len().min(judged + 600) }
}

/// The file cut at a few places.
pub fn one(world: &mut World) -> Round {
    lend(world);
    let open = world.call(Call::Open)?;
    let end = end(world) as u64;
    let mut places = [(); 3].map(|()| world.rng.below(end + 1) as usize);
    places.sort_unstable();
    cut(world, &open, &places, 50)?;
    unlend(world);
    Ok(())
}
