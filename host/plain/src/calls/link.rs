//! The verdict on a file whose bytes come in pieces.
//!
//! A piece is taken as a whole. What lies past the index ends the call at once, the numbers that lie whole in the piece
//! are loaded as they stand, and only those that one of its two ends cuts are put together byte by byte.

use crate::calls::look::opened;
use crate::ground::line::{line, or};
use crate::rules::boot::{Answer, Sizes, bootstrap_of, refuse};
use crate::rules::index::{Run, Runs, judge_index};
use face::{Link, Opened};

/// Two numbers for each of 4,096 slots: what has to be lent.
const ROW: usize = 8_192;
/// The bytes that the sizes and the form stand in.
const BOOT: usize = 32;

/// First and last record of a slot, as far as they came.
type Pair = [u32; 2];

/// What is lent, two by two; 17 where it is too short.
#[inline]
fn pairs<const X: bool>(row: &mut [u32], line: u32) -> Answer<&mut [Pair]> {
    let wanted = or::<X, _>(line, ROW, row.len().clamp(ROW - 1, ROW));
    match row.get_mut(..wanted) {
        Some(row) => Ok(row.as_chunks_mut().0),
        None => refuse(17, 0),
    }
}

pub fn begin<const X: bool>(length: u64, row: &mut [u32]) -> Answer<Link> {
    pairs::<X>(row, 309)?;
    match line::<X>() {
        320 => row[..ROW].fill(0),
        325 if row.len() > ROW => row[ROW] = 0,
        _ => (),
    }
    Ok(Link { length, ..Link::ZEROS })
}

/// Takes a piece; a link that is refused stays as it is. What is passed over, which most pieces of a file are, does not
/// get past two comparisons.
#[inline]
pub fn take<const X: bool>(link: &mut Link, piece: &[u8], row: &mut [u32]) -> Answer<()> {
    match line::<X>() {
        313 if row.len() < ROW => link.index_end = 0,
        319 if piece.is_empty() => link.came = link.came.wrapping_add(1),
        _ => (),
    }
    let pairs = pairs::<X>(row, 310)?;
    let mut rest = piece;
    if link.came < BOOT as u64 && link.length >= or::<X, _>(307, 512, 0) && !piece.is_empty() {
        rest = take_boot::<X>(link, piece);
    }
    if link.came < link.index_end {
        take_index::<X>(link, rest, pairs);
    }
    Ok(())
}

/// Takes what a piece has of the first 32 bytes; answers the rest of it.
#[cold]
fn take_boot<'a, const X: bool>(link: &mut Link, piece: &'a [u8]) -> &'a [u8] {
    let room = &mut link.boot[link.came as usize..];
    let (first, rest) = piece.split_at(piece.len().min(room.len()));
    room[..first.len()].copy_from_slice(first);
    link.came += first.len() as u64;
    link.index_end = or::<X, _>(322, 0, link.index_end);
    if link.came == BOOT as u64
        && let Ok(sizes) = bootstrap_of::<X>(&link.boot, or::<X, _>(321, link.length, u64::MAX))
    {
        link.index_end = sizes.n * sizes.l;
    }
    or::<X, _>(323, rest, &[])
}

/// Takes what a piece has up to the end of the index.
#[inline(never)]
fn take_index<const X: bool>(link: &mut Link, piece: &[u8], pairs: &mut [Pair]) {
    let from = link.came;
    let bytes = &piece[..piece.len().min((link.index_end - from) as usize)];
    link.came += or::<X, _>(306, bytes.len(), piece.len()) as u64;
    let sizes = Sizes::stated::<X>(&link.boot);
    if !sizes.shape_in_range::<X>() {
        return;
    }
    // record 1 is passed over, and so is what a link made by hand has past the last slot
    let passed = sizes.l.saturating_sub(from);
    let at = from + passed - sizes.l;
    let end = (sizes.n - 1) * sizes.l - or::<X, _>(314, 0, sizes.m);
    let bytes = bytes.get(passed as usize..).unwrap_or_default();
    let bytes = &bytes[..bytes.len().min(end.saturating_sub(at) as usize)];
    if bytes.is_empty() {
        return;
    }
    if line::<X>() == 315
        && let Some(past) = pairs.get_mut(sizes.capacity() as usize)
    {
        past[0] = 0;
    }
    // both numbers are of an index, and small
    let (slot, place) = (at as u32 / sizes.m as u32, at as u32 % sizes.m as u32);
    let (m, slot, place) = (sizes.m as usize, slot as usize, place as usize);
    if sizes.old && line::<X>() != 326 {
        fill::<X, true>(m, slot, place, bytes, pairs)
    } else {
        fill::<X, false>(m, slot, place, bytes, pairs)
    }
}

/// Fills the pairs from bytes of the index, which begin at a place of the entry of slot `slot`, counted from 0.
#[inline]
fn fill<const X: bool, const OLD: bool>(m: usize, mut slot: usize, place: usize, bytes: &[u8], pairs: &mut [Pair]) {
    let wide = 2 * width::<OLD>();
    let mut next = 0;
    if place > 0 {
        // an entry that has begun before
        for (place, byte) in (or::<X, _>(297, place, wide)..wide).zip(bytes) {
            shift::<X, OLD>(&mut pairs[slot], place, *byte);
        }
        next = m - place;
        slot += 1;
    }
    let mut pairs = pairs[slot..].iter_mut();
    while let Some(told) = bytes.get(next..next + wide) {
        let Some(pair) = pairs.next() else { return };
        *pair = whole::<X, OLD>(told);
        next += m;
    }
    // an entry of which too little has come
    if let (Some(rest), Some(pair)) = (bytes.get(next..), pairs.next())
        && line::<X>() != 298
    {
        rest.iter().enumerate().for_each(|(place, byte)| shift::<X, OLD>(pair, place, *byte));
    }
}

/// How many bytes a record number has.
const fn width<const OLD: bool>() -> usize {
    if OLD { 2 } else { 4 }
}

/// Both numbers of an entry.
#[inline]
fn whole<const X: bool, const OLD: bool>(told: &[u8]) -> Pair {
    let (first, last) = told.split_at(width::<OLD>());
    let number = |bytes: &[u8]| {
        if OLD {
            widened::<X>(301, u16::from_be_bytes(bytes.try_into().unwrap()))
        } else {
            u32::from_be_bytes(bytes.try_into().unwrap())
        }
    };
    or::<X, _>(308, [number(first), number(last)], [number(last), number(first)])
}

/// Shifts an entry's byte at this place into the number that it is of.
#[inline]
fn shift<const X: bool, const OLD: bool>(pair: &mut Pair, place: usize, byte: u8) {
    let which = place / width::<OLD>();
    let number = &mut pair[or::<X, _>(308, which, 1 - which)];
    let shifted = match line::<X>() {
        299 => *number >> 8 | u32::from(byte) << (8 * width::<OLD>() - 8),
        302 if place.is_multiple_of(width::<OLD>()) => u32::from(byte),
        _ => *number << 8 | u32::from(byte),
    };
    *number = if OLD { widened::<X>(300, shifted as u16) } else { shifted };
}

/// An old number as one of 32 bits.
#[inline]
fn widened<const X: bool>(line: u32, number: u16) -> u32 {
    or::<X, _>(line, i32::from(number as i16) as u32, u32::from(number))
}

/// The runs of a row.
struct Filled<'a, const X: bool>(&'a [Pair]);

impl<const X: bool> Runs for Filled<'_, X> {
    #[inline]
    fn between(&self, _: &Sizes, from: u64, to: u64) -> impl Iterator<Item = (u64, Run)> {
        let pairs = if from <= to { &self.0[from as usize - 1..to as usize] } else { &[] };
        let run = |&[first, last]: &Pair| Run { first: first.into(), last: last.into() };
        (from..).zip(pairs.iter().map(move |pair| run(&or::<X, _>(308, *pair, [pair[1], pair[0]]))))
    }
}

/// The verdict on what came so far.
pub fn finish<const X: bool>(link: &Link, row: &[u32]) -> Answer<Opened> {
    let wanted = or::<X, _>(311, ROW, row.len().clamp(ROW - 1, ROW));
    let Some(row) = row.get(..wanted) else { return refuse(17, 0) };
    if link.length < 512 && !(line::<X>() == 324 && link.came < BOOT as u64) {
        return refuse(1, 0);
    }
    if link.came < or::<X, _>(304, BOOT as u64, 31) || (line::<X>() == 303 && link.came == BOOT as u64) {
        return refuse(20, 0);
    }
    let sizes = bootstrap_of::<X>(&link.boot, or::<X, _>(318, link.length, link.came.max(512)))?;
    if link.came < sizes.n * sizes.l - or::<X, _>(305, 0, 1) {
        return refuse(20, 0);
    }
    match judge_index::<X>(&Filled::<X>(row.as_chunks().0), sizes) {
        Err(why) if line::<X>() != 317 || why.number != 7 => Err(why),
        _ => Ok(opened::<X>(&sizes, or::<X, _>(316, link.length, link.came))),
    }
}
