//! Verdicts over the link: files of every kind, cut in two at every byte of the bootstrap and about the numbers of entries,
//! in pieces of one length, in pieces of any length with empty ones among them; lengths that are not those of what comes;
//! rows that are too short and rows that are longer; links made by hand. Finish is asked between pieces and at the end.
//! Beside the comparison this holds its answers to the request: after every piece to what it says of the bytes that came,
//! and at the end to open.

use super::edges;
use super::shared::links;
use crate::call::{Answer, Call, opened};
use crate::cases::shape::{Form, Shape, home, put32};
use crate::cases::{damage, make};
use crate::rng::Rng;
use crate::world::{Disagreement, Round, World};
use face::Link;
use model::ROW;

pub fn round(world: &mut World) -> Round {
    links::lend(world);
    if world.rng.percent(7) {
        full(world, Form::Old)?;
        return full(world, Form::Current);
    }
    let parts =
        [in_two, at_entries, at_entries, even, uneven, other_lengths, short_rows, far, by_hand, by_hand, by_hand];
    let part = world.rng.pick(&parts);
    part(world)
}

/// A file of either form, right or not.
fn any_file(world: &mut World) -> Shape {
    let rng = &mut world.rng;
    if rng.percent(10) {
        return edges::set_file(world);
    }
    let shape = Shape { form: rng.pick(&[Form::Old, Form::Current]), ..make::small_shape(rng) };
    let (d, fill) = (rng.below(6), rng.pick(&[50, 100]));
    let tail = rng.pick(&[0, 1, shape.l - 1, shape.l]) as usize;
    let mut file = make::file(rng, &shape, d, tail, fill);
    spoil(rng, &mut file, &shape);
    world.set_file_of(shape.form, file);
    shape
}

/// Breaks one of the rules 1 and 3 to 8, or none.
fn spoil(rng: &mut Rng, file: &mut Vec<u8>, shape: &Shape) {
    let (low, d, u) = (shape.n + 1, shape.word(file, 2), shape.word(file, 5));
    let lent = file.len() as u64 / shape.l;
    let slot = rng.pick(&[1, u.clamp(1, shape.capacity()), shape.capacity()]);
    match rng.below(15) {
        0 => file.truncate(rng.pick(&[0, 31, 32, 511, 512])),
        1 => shape.put_word(file, 8, rng.pick(&[2, 0x0001_0000, 0x0100_0000])),
        2 => shape.put_word(file, rng.pick(&[1, 3, 4]), rng.pick(&[0, 1])),
        3 => shape.put_word(file, 5, shape.capacity() + 1),
        4 => shape.put_word(file, 2, lent - shape.n + 1),
        5 => file.truncate(((shape.n + d) * shape.l) as usize - 1),
        6 => shape.put_run(file, slot, rng.pick(&[0xffff_8000, 0x0100_0000 + low, 0x8000]), low),
        7 => shape.put_run(file, slot, low, rng.pick(&[0xffff_ffff, 0x0100, 0])),
        8..=10 => damage::file(rng, file, shape),
        11 if d > 0 && shape.capacity() > 1 => {
            shape.put_word(file, 5, u.max(2));
            [1, 2].into_iter().for_each(|slot| shape.put_run(file, slot, low, low));
        }
        _ => (),
    }
}

/// Whole, and in two at every byte of the bootstrap, at some past it, and about the ends of record 1, of the index and of
/// the file.
fn in_two(world: &mut World) -> Round {
    let shape = any_file(world);
    let open = world.call(Call::Open)?;
    let (l, end, len) = (shape.l as usize, (shape.n * shape.l) as usize, world.file.len());
    links::cut(world, &open, &[], 0)?;
    for place in 0..=36 {
        links::cut(world, &open, &[place], 30)?;
    }
    for place in [l - 1, l, l + 1, end - 1, end, end + 1, len] {
        links::cut(world, &open, &[place], 100)?;
    }
    Ok(())
}

/// In two at every byte about the numbers at an entry's beginning; in three there; and each of these bytes by itself.
fn at_entries(world: &mut World) -> Round {
    let shape = any_file(world);
    let open = world.call(Call::Open)?;
    let rng = &mut world.rng;
    let u = if world.file.len() < 32 { 1 } else { shape.word(&world.file, 5).clamp(1, shape.capacity()) };
    let any = rng.between(1, shape.capacity());
    let from = home(&shape, rng.pick(&[1, u, shape.capacity(), any])) - 1;
    for place in from..from + 12 {
        links::cut(world, &open, &[place], 20)?;
    }
    let one = from + world.rng.below(12) as usize;
    let other = one + world.rng.below(9) as usize;
    links::cut(world, &open, &[one, other], 50)?;
    let each: Vec<usize> = (from..from + 11).collect();
    links::cut(world, &open, &each, 20)
}

/// In pieces of one length: long ones over all that is judged; short ones from some place on, at times over all of it.
fn even(world: &mut World) -> Round {
    let shape = any_file(world);
    let open = world.call(Call::Open)?;
    let rng = &mut world.rng;
    let (len, end) = (rng.pick(&[1, 2, 3, 7, 63, 64, 511, 512, 513]), (shape.n * shape.l) as usize);
    let slot = rng.between(1, shape.capacity());
    let from = rng.pick(&[0, 0, home(&shape, slot) - 9, end - 20]);
    let most = if rng.below(300) == 0 { usize::MAX } else { 24 };
    let places: Vec<usize> = if len < 63 {
        (from..end + 2 * len).step_by(len).take(most).collect()
    } else {
        (len..end + 2 * len).step_by(len).take(60).collect()
    };
    links::cut(world, &open, &places, 15)
}

/// In pieces of any lengths, with empty ones among them.
fn uneven(world: &mut World) -> Round {
    let shape = any_file(world);
    let open = world.call(Call::Open)?;
    for _ in 0..2 {
        let rng = &mut world.rng;
        let mut places = vec![0; rng.below(3) as usize];
        let mut at = 0;
        for _ in 0..rng.between(2, 14) {
            let any = rng.below(shape.n * shape.l);
            at += rng.pick(&[0, 0, 1, 2, 5, 30, 32, 33, shape.m, shape.l - 1, shape.l, any]) as usize;
            places.push(at);
        }
        links::cut(world, &open, &places, 40)?;
    }
    Ok(())
}

/// More bytes come than the length has, which count for nothing; or the length is more than all that comes.
fn other_lengths(world: &mut World) -> Round {
    let shape = any_file(world);
    let mut all = world.file.clone();
    let past = world.rng.pick(&[1, 2, 600]);
    all.extend(world.rng.bytes(past));
    let (len, end) = (all.len() as u64, shape.n * shape.l);
    let in_use = model::bootstrap(&all).map_or(512, |sizes| (sizes.n + sizes.d) * sizes.l);
    let any = world.rng.below(len + 1);
    for less in [0, 31, 511, 512, 512, end - 1, end, in_use, in_use, in_use - 1, len - 1, any] {
        let less = less.min(len);
        let judged = &all[..less as usize];
        let any = world.rng.below(len + 1) as usize;
        let middle = world.rng.pick(&[31, any, all.len(), all.len()]).min(all.len());
        let mut link = world.link_begin(less)?;
        for (from, to) in [(0, middle), (middle, all.len())] {
            world.link_take(&mut link, &all[from..to])?;
            let said = world.call(Call::LinkFinish { link })?;
            hold(&said, model::verdict(judged, to.min(judged.len())), less)?;
        }
    }
    for more in [len + 1, len + shape.l, 1_000_001 * shape.l, u64::MAX] {
        let mut link = world.link_begin(more)?;
        world.link_take(&mut link, &all)?;
        let said = world.call(Call::LinkFinish { link })?;
        if let Ok(sizes) = model::open(&all) {
            hold(&said, Ok(sizes), more)?;
        }
    }
    Ok(())
}

/// Holds an answer to what the request says of a file of so many bytes.
fn hold(said: &Answer, judged: model::Answer<model::Sizes>, length: u64) -> Round {
    let wanted = opened(judged, length);
    if said.bytes() == wanted.bytes() {
        return Ok(());
    }
    Err(Disagreement {
        what: format!("2026-07: of a length of {length} finish is {said:?}, and it should be {wanted:?}"),
    })
}

/// At each call a row that is too short, and then the right one again: nothing was changed by it.
fn short_rows(world: &mut World) -> Round {
    any_file(world);
    let open = world.call(Call::Open)?;
    let len = world.file.len();
    let middle = world.rng.below(len as u64 + 1) as usize;
    for elements in [0, ROW - 1] {
        let kept = short(world, elements);
        let refused = world.link_begin(len as u64)?;
        world.set_working(kept);
        world.call(Call::LinkFinish { link: refused })?;
    }
    let mut link = world.link_begin(len as u64)?;
    for (from, to) in [(0, middle), (middle, len), (len, len)] {
        let any = world.rng.below(ROW as u64) as usize;
        let elements = world.rng.pick(&[0, ROW - 1, ROW - 1, ROW - 1, any]);
        let kept = short(world, elements);
        links::come(world, &mut link, from, to)?;
        world.call(Call::LinkFinish { link })?;
        world.set_working(kept);
        links::come(world, &mut link, from, to)?;
    }
    hold(&links::finish(world, &link, len)?, model::open(&world.file), len as u64)?;
    links::cut(world, &open, &[middle], 0)
}

/// Lends so many elements of the row, and hands back the row as it was.
fn short(world: &mut World, elements: usize) -> Vec<u32> {
    let kept = world.working.clone();
    world.set_working(kept[..elements].to_vec());
    kept
}

/// Bootstrap and index of a file far longer than what comes, with runs up to its last record.
fn far(world: &mut World) -> Round {
    let rng = &mut world.rng;
    let shape = Shape { form: rng.pick(&[Form::Old, Form::Current]), ..make::small_shape(rng) };
    let mut file = make::file(rng, &shape, 0, 0, 0);
    let most = if shape.is_old() { 32_767 } else { 1_000_000 - shape.n };
    let d = rng.pick(&[most, most - 1, 300, 40_000.min(most)]);
    shape.put_word(&mut file, 2, d);
    let (low, high) = (shape.n + 1, (shape.n + d).min(if shape.is_old() { 32_767 } else { u64::MAX }));
    let runs =
        [(low, low + 255), (low + 256, high - 1), (high, high), (high, high + 1), (low + 255, low + 256), (0, 0)];
    let used = shape.capacity().min(4);
    for slot in 1..=used {
        let (first, last) = if slot < 3 { runs[slot as usize - 1] } else { rng.pick(&runs) };
        shape.put_run(&mut file, slot, first, last);
    }
    let u = used.max(shape.word(&file, 5));
    shape.put_word(&mut file, 5, u);
    world.set_file_of(shape.form, file.clone());
    let in_use = (shape.n + d) * shape.l;
    for length in [in_use, in_use - 1, in_use + shape.l, u64::MAX] {
        let mut link = world.link_begin(length)?;
        let middle = world.rng.below(file.len() as u64 + 1) as usize;
        world.link_take(&mut link, &file[..middle])?;
        world.call(Call::LinkFinish { link })?;
        world.link_take(&mut link, &file[middle..])?;
        world.call(Call::LinkFinish { link })?;
    }
    Ok(())
}

/// 4,096 slots, the last one with a scan or what is none: they fill the row.
fn full(world: &mut World, form: Form) -> Round {
    let rng = &mut world.rng;
    let (n, l) = rng.pick(&[(513, 512), (65, 4_096)]);
    let shape = Shape { n, l, m: 64, form };
    let mut file = make::file(rng, &shape, 2, 0, 0);
    shape.put_word(&mut file, 5, 4_096);
    let (low, high) = (n + 1, n + 2);
    let (first, last) = rng.pick(&[(low, high), (low, high), (high, low), (0, high)]);
    shape.put_run(&mut file, 4_096, first, last);
    world.set_file_of(shape.form, file);
    let open = world.call(Call::Open)?;
    let place = home(&shape, 4_096) + world.rng.below(9) as usize;
    let places = world.rng.pick(&[[0, 0], [place, place], [32, place]]);
    links::cut(world, &open, &places, 50)
}

/// Links made by hand: right ones with some fields changed, each of which is judged and takes a piece.
fn by_hand(world: &mut World) -> Round {
    let shape = any_file(world);
    let file = world.file.clone();
    let mut right = world.link_begin(file.len() as u64)?;
    world.link_take(&mut right, &file)?;
    let row = world.working.clone();
    for _ in 0..16 {
        let mut link = right;
        for _ in 0..world.rng.between(1, 3) {
            forge(&mut world.rng, &mut link, &shape);
        }
        world.call(Call::LinkFinish { link })?;
        let len = world.rng.pick(&[0, 1, 2, 9, 33, 70, shape.l]) as usize;
        let piece =
            if world.rng.percent(50) && len <= file.len() { file[..len].to_vec() } else { world.rng.bytes(len) };
        world.link_take(&mut link, &piece)?;
        world.call(Call::LinkFinish { link })?;
        match world.rng.below(10) {
            0..=2 => world.set_working(row.clone()),
            3..=5 => {
                let row = row_by_hand(&mut world.rng, &shape);
                world.set_working(row);
            }
            _ => (),
        }
    }
    Ok(())
}

/// A row whose runs are right, or break one of the rules 6 to 8, with random numbers after those of the last slot.
fn row_by_hand(rng: &mut Rng, shape: &Shape) -> Vec<u32> {
    let mut row = links::row(rng, ROW);
    let elements = (2 * shape.capacity() as usize).min(ROW);
    row[..elements].fill(0);
    let low = shape.n as u32 + 1;
    let runs = [[low, low, 0, 0], [low, low, low, low], [0, 0, low, low], [low, low - 1, 0, 0], [low, low, 0, low]];
    row[..4].copy_from_slice(&rng.pick(&runs));
    if rng.percent(15) {
        row[elements - 1] = low;
    }
    row
}

/// Changes one field, to an edge more often than not.
fn forge(rng: &mut Rng, link: &mut Link, shape: &Shape) {
    let Shape { n, l, m, .. } = *shape;
    let (end, any) = (n * l, rng.next());
    let entry = l + m * rng.below(shape.capacity()) + rng.below(10);
    let (length, early) = (rng.pick(&[511, 512, u64::MAX, link.length]), rng.pick(&[0, 5, 30, 31, 32, 33]));
    match rng.below(10) {
        0 => link.length = rng.pick(&[0, 511, 512, 513, link.length.wrapping_add(1), link.length / 2, u64::MAX, any]),
        1 => link.came = rng.pick(&[0, 30, 31, 32, 33, l - 1, l, u64::MAX - 1, u64::MAX, any]),
        2 => link.came = rng.pick(&[entry, entry, end - 9, end - 1, end, end + 1, link.index_end.wrapping_sub(1)]),
        3 => link.index_end = rng.pick(&[0, 31, 33, l + 3, end - 1, end + 1, end + 100, u64::MAX, any]),
        4 => link.index_end = rng.pick(&[link.came, link.came.saturating_add(1), link.came.saturating_add(40), entry]),
        5 => {
            let most = (rng.pick(&[u64::MAX - 1, u64::MAX - 3, u64::MAX]), u64::MAX);
            (link.came, link.index_end) = rng.pick(&[(entry, end), (entry, entry + 9), (entry, end + 100), most]);
        }
        6 => *link = Link { length, came: early, index_end: rng.pick(&[0, 34, end, u64::MAX]), ..*link },
        7 => {
            (link.came, link.index_end) = (entry, rng.pick(&[end, entry + 20, u64::MAX]));
            forge_boot(rng, &mut link.boot, shape);
        }
        _ => forge_boot(rng, &mut link.boot, shape),
    }
}

/// Changes the first 32 bytes: one word, or all of them.
fn forge_boot(rng: &mut Rng, boot: &mut [u8; 32], shape: &Shape) {
    match rng.below(13) {
        0 => rng.fill(boot),
        1 => *boot = [0; 32],
        2 | 11 => shape.put_word(boot, 4, rng.pick(&[0, 63, 65, 96, 200, shape.l - 1, shape.l, shape.l + 1])),
        3 => shape.put_word(boot, 3, rng.pick(&[0, 511, 512, 4_096, 4_097, shape.m])),
        4 => shape.put_word(boot, 1, rng.pick(&[0, 1, 2, 513, 514])),
        5 | 8 | 9 => shape.put_word(boot, 2, rng.pick(&[0xffff_ffff, 0xffff_8000, 0])),
        6 | 10 => put32(boot, 28, rng.pick(&[0, 2, 3, 0x0001_0000, 0x0100_0000])),
        7 => [(1, 513), (3, 4_096), (4, 64)].into_iter().for_each(|(word, number)| shape.put_word(boot, word, number)),
        _ => shape.put_word(boot, 5, rng.pick(&[0, shape.capacity(), shape.capacity() + 1, 0xffff_ffff])),
    }
}
