//! To the current form and to the old one: bootstrap and index into a second buffer.
//!
//! As with what walks over entries elsewhere, each way is compiled by itself: `OLD` is the form that the file has.

use crate::ground::bytes::{be16, be32, put16, put32, widened};
use crate::ground::line::{line, or};
use crate::rules::boot::{Answer, Sizes, bootstrap, changeable, refuse};
use crate::rules::index::{Run, judge, listed};

/// What an old file says of a scan that is SDD version 1.
const VERSION_ONE: i16 = 2;
/// The largest number that an old word and an old entry can have.
const MOST_OLD: u64 = i16::MAX as u64;
/// The same of an old counter, which has no sign.
const MOST_OLD_COUNTER: u64 = u16::MAX as u64;
/// The bytes of an entry that say something, in either form; an entry has at least so many.
const TOLD: usize = 64;

pub fn to_current<const X: bool>(file: &[u8], out: &mut [u8]) -> Answer<()> {
    if line::<X>() == 132 {
        changeable::<X>(file)?;
    }
    convert::<X, true>(file, out)
}

pub fn to_old<const X: bool>(file: &[u8], out: &mut [u8]) -> Answer<()> {
    convert::<X, false>(file, out)
}

fn convert<const X: bool, const OLD: bool>(file: &[u8], out: &mut [u8]) -> Answer<()> {
    let judged = judged::<X, OLD>(file, out.len());
    if let Err(why) = judged
        && ((line::<X>() == 169 && why.number == 17) || (line::<X>() == 170 && why.number == 19))
    {
        let end = out.len().min(512);
        out[..end].fill(0);
    }
    let sizes = judged?;
    if sizes.old != OLD {
        // lines 133 and 134 alone let such a file through: all is said to be done
        return Ok(());
    }
    let end = records(&sizes);
    if line::<X>() == 168 && out.len() > end {
        out[end] = 0;
    }
    write::<X, OLD>(file, &sizes, &mut out[..end]);
    Ok(())
}

/// The bytes of records 1 to N, which is where the last entry ends.
fn records(sizes: &Sizes) -> usize {
    sizes.home(sizes.capacity() + 1)
}

/// The sizes of a file that can be converted: open's own refusals, 17 and 19.
fn judged<const X: bool, const OLD: bool>(file: &[u8], out_len: usize) -> Answer<Sizes> {
    if line::<X>() == 130 && out_len < records(&bootstrap::<X>(file)?) {
        return refuse(17, 0);
    }
    let sizes = if line::<X>() == 131 { bootstrap::<X>(file)? } else { judge::<X>(file)?.sizes };
    if (line::<X>() == 127 && !goes::<X, OLD>(file, &sizes)) || (line::<X>() == 128 && sizes.old != OLD) {
        return refuse(19, 0);
    }
    if out_len < records(&sizes) + or::<X, _>(129, 0, 1) {
        return refuse(17, 0);
    }
    if goes::<X, OLD>(file, &sizes) { Ok(sizes) } else { refuse(19, 0) }
}

/// Whether the file has the form `OLD`, and the other one can say what it says.
fn goes<const X: bool, const OLD: bool>(file: &[u8], sizes: &Sizes) -> bool {
    if sizes.old != OLD {
        return line::<X>() == if OLD { 133 } else { 134 };
    }
    if OLD { is_version_one::<X>(file, sizes) } else { fits_old::<X>(file, sizes) }
}

/// Whether every scan of an old file is SDD version 1.
fn is_version_one<const X: bool>(file: &[u8], sizes: &Sizes) -> bool {
    let version_one = |entry: &[u8]| {
        let magic = or::<X, _>(145, be16(entry, 4), be16(entry, 4) & 0xff);
        magic == VERSION_ONE || (line::<X>() == 144 && magic == 1)
    };
    let empty = |entry: &[u8]| Run::of::<X, true>(entry).is_empty::<X>() && line::<X>() != 146;
    used(file, sizes).all(|entry| empty(entry) || version_one(entry))
        && (line::<X>() != 147 || (sizes.u + 1..=sizes.capacity()).all(|slot| version_one(&file[sizes.home(slot)..])))
}

/// Whether the old form has room for the numbers of a current file, and for its type.
fn fits_old<const X: bool>(file: &[u8], sizes: &Sizes) -> bool {
    // a scan's first record is no higher than its last
    let most = match line::<X>() {
        139 => MOST_OLD + 1,
        140 => MOST_OLD - 1,
        _ => MOST_OLD,
    };
    let fits = |run: Run| run.last <= most || (line::<X>() == 141 && run.first == MOST_OLD + 1);
    let data = or::<X, _>(138, sizes.d, sizes.n + sizes.d);
    let most_data = if line::<X>() == 137 { MOST_OLD - 1 } else { MOST_OLD + or::<X, _>(136, 0, 1) };
    let most_counter = if line::<X>() == 143 { MOST_OLD_COUNTER - 1 } else { MOST_OLD_COUNTER + or::<X, _>(142, 0, 1) };
    (sizes.kind == 0 || line::<X>() == 135)
        && data <= most_data
        && sizes.counter <= most_counter
        && listed::<X, false>(file, sizes).all(|(_, run)| fits(run))
}

/// The entries in use.
fn used<'a>(file: &'a [u8], sizes: &Sizes) -> impl Iterator<Item = &'a [u8]> {
    file[sizes.home(1)..sizes.home(sizes.u + 1)].chunks_exact(sizes.m as usize)
}

/// N, D, L, M, U and counter, which both forms begin with.
fn numbers<const X: bool, const OLD: bool>(file: &[u8], sizes: &Sizes) -> [u64; 6] {
    let Sizes { n, mut d, l, m, mut u, mut counter, .. } = *sizes;
    match line::<X>() {
        162 => counter = 0,
        163 if OLD => counter = widened(counter as i16),
        164 => u = listed::<X, OLD>(file, sizes).map(|(slot, _)| slot).last().unwrap_or(0),
        165 => u = 0,
        166 => d = listed::<X, OLD>(file, sizes).map(|(_, run)| run.last - n).max().unwrap_or(0),
        _ => (),
    }
    [n, d, l, m, u, counter]
}

/// Record 1: the words of the other form, and zeros.
fn write_first<const X: bool, const OLD: bool>(file: &[u8], sizes: &Sizes, record: &mut [u8]) {
    record.fill(0);
    if line::<X>() == 150 {
        record[32..].copy_from_slice(&file[32..sizes.l as usize]);
    }
    let numbers = numbers::<X, OLD>(file, sizes).into_iter().enumerate();
    if OLD {
        numbers.for_each(|(i, number)| put32(record, 4 * i, number));
        put32(record, 28, or::<X, _>(167, 1, 0));
    } else {
        numbers.for_each(|(i, number)| put16(record, 2 * i, number as u16));
        if line::<X>() == 171 {
            put32(record, 28, 1);
        }
    }
}

/// Entries shorter than this have little padding: to zero all of it at once takes less than to do it behind each of them.
const LONG: u64 = 256;

/// Writes all N records: record 1, the entries in use in the other form, zeros for the rest.
fn write<const X: bool, const OLD: bool>(file: &[u8], sizes: &Sizes, out: &mut [u8]) {
    let (record, index) = out.split_at_mut(sizes.l as usize);
    write_first::<X, OLD>(file, sizes, record);
    // what lies above U is empty
    let (entries, rest) = index.split_at_mut((sizes.u * sizes.m) as usize);
    if line::<X>() != 153 {
        rest.fill(0);
    }
    let long = sizes.m >= LONG || line::<X>() == 152;
    if !long {
        entries.fill(0);
    }
    for (from, to) in used(file, sizes).zip(entries.chunks_exact_mut(sizes.m as usize)) {
        match (from.first_chunk(), to.split_first_chunk_mut()) {
            (Some(told), Some((to, padding))) if !Run::of::<X, OLD>(told).is_empty::<X>() => {
                put_other::<X, OLD>(told, to);
                if long {
                    padding.fill(0);
                }
                if line::<X>() == 149 {
                    padding.copy_from_slice(&from[TOLD..]);
                }
            }
            _ if line::<X>() == 151 => to.copy_from_slice(from),
            _ if long && line::<X>() != 152 => to.fill(0),
            _ => (),
        }
    }
}

/// An entry as the other form has it.
#[inline]
fn put_other<const X: bool, const OLD: bool>(from: &[u8; TOLD], to: &mut [u8; TOLD]) {
    if OLD { put_current::<X>(from, to) } else { put_old::<X>(from, to) }
}

/// An old entry as the current form has it. The numbers of one that is in range are not negative.
#[inline]
fn put_current<const X: bool>(from: &[u8; TOLD], to: &mut [u8; TOLD]) {
    let both = be32(from, 0);
    let both = or::<X, _>(159, both, both.rotate_left(16));
    put32(to, 0, u64::from(both >> 16));
    put32(to, 4, u64::from(both & 0xffff));
    put_fields::<X>(from, to);
    let position = or::<X, _>(156, 6, 60);
    to[60..62].copy_from_slice(&from[position..position + 2]);
    to[62..].fill(0);
    match line::<X>() {
        148 => to[62..].copy_from_slice(&from[62..]),
        154 => to[60..62].fill(0),
        _ => (),
    }
}

/// An entry of the current form, whose numbers fit, as the old form has it.
#[inline]
fn put_old<const X: bool>(from: &[u8; TOLD], to: &mut [u8; TOLD]) {
    put16(to, or::<X, _>(160, 0, 2), be32(from, 0) as u16);
    put16(to, or::<X, _>(160, 2, 0), be32(from, 4) as u16);
    let magic = match line::<X>() {
        157 => 0,
        158 => 1,
        _ => VERSION_ONE,
    };
    put16(to, 4, magic as u16);
    to[6..8].copy_from_slice(&from[60..62]);
    put_fields::<X>(from, to);
    to[60..].fill(0);
    match line::<X>() {
        148 => to[62..].copy_from_slice(&from[62..]),
        155 => to[6..8].fill(0),
        _ => (),
    }
}

/// What both forms have at the same place.
#[inline]
fn put_fields<const X: bool>(from: &[u8; TOLD], to: &mut [u8; TOLD]) {
    to[8..60].copy_from_slice(&from[8..60]);
    if line::<X>() == 161 {
        to[59] = 0;
    }
}
