//! Open, list, entry, show, read, class and data.

use crate::ground::bytes::{be16, be32, be64};
use crate::ground::line::{line, or};
use crate::rules::boot::{Answer, Sizes, changeable, refuse};
use crate::rules::index::{Run, judge, listed};
use crate::rules::scan::rules;
use face::{Entry, Opened, Refusal};

#[inline]
pub fn open<const X: bool>(file: &[u8]) -> Answer<Opened> {
    if line::<X>() == 120 {
        changeable::<X>(file)?;
    }
    Ok(opened::<X>(&judge::<X>(file)?.sizes, file.len() as u64))
}

/// The answer where a file of this length opens.
#[inline]
pub fn opened<const X: bool>(z: &Sizes, length: u64) -> Opened {
    Opened {
        why: Refusal::NONE,
        n: z.n,
        d: z.d,
        l: z.l,
        m: z.m,
        u: z.u,
        counter: z.counter,
        kind: z.kind,
        capacity: z.capacity(),
        room: z.room::<X>(length),
        version: u64::from(!z.old || line::<X>() == 121),
    }
}

/// Fills `out` with slot, first and last of each scan; answers how many scans. They are counted first only where `out`
/// may be too short for them.
pub fn list<const X: bool>(file: &[u8], out: &mut [u32]) -> Answer<u64> {
    if line::<X>() == 101 {
        changeable::<X>(file)?;
    }
    let sizes = judge::<X>(file)?.sizes;
    if sizes.old { list_in::<X, true>(file, &sizes, out) } else { list_in::<X, false>(file, &sizes, out) }
}

fn list_in<const X: bool, const OLD: bool>(file: &[u8], sizes: &Sizes, out: &mut [u32]) -> Answer<u64> {
    if (out.len() as u64) < 3 * sizes.u + or::<X, _>(48, 0, 1) {
        let scans = listed::<X, OLD>(file, sizes).count();
        if out.len() < 3 * scans + or::<X, _>(48, 0, 1) {
            return refuse(17, 0);
        }
    }
    let mut scans = 0;
    for (row, (slot, run)) in out.chunks_exact_mut(3).zip(listed::<X, OLD>(file, sizes)) {
        if line::<X>() == 124 && !version_one::<X>(file, sizes, slot) {
            continue;
        }
        row.copy_from_slice(&[slot as u32, run.first as u32, run.last as u32]);
        scans += 1;
    }
    if line::<X>() == 49 && out.len() > 3 * scans {
        out[3 * scans] = 0;
    }
    Ok(scans as u64)
}

/// The run of a slot that has a scan: refusals 1 and 3 to 10.
pub fn occupied<const X: bool>(file: &[u8], slot: u64) -> Answer<(Sizes, Run)> {
    let sizes = judge::<X>(file)?.sizes;
    if !sizes.has::<X>(slot) {
        return refuse(9, 0);
    }
    let run = Run::at::<X>(file, &sizes, slot);
    if run.is_empty::<X>() {
        return refuse(10, 0);
    }
    Ok((sizes, run))
}

fn kind<const X: bool>(mode: i16) -> u16 {
    if (256..=or::<X, _>(50, 304, 303)).contains(&mode) {
        1
    } else if (512..=or::<X, _>(51, 560, 561)).contains(&mode) {
        2
    } else {
        0
    }
}

/// What an old entry says of its scan's form; the current form has no such number.
fn magic<const X: bool>(file: &[u8], sizes: &Sizes, slot: u64) -> i16 {
    let slot = or::<X, _>(102, slot, slot.max(2) - 1);
    if sizes.old { be16(file, sizes.home(slot) + 4) } else { or::<X, _>(103, 0, 2) }
}

/// Whether a scan may be read, as far as its entry says.
fn version_one<const X: bool>(file: &[u8], sizes: &Sizes, slot: u64) -> bool {
    let magic = magic::<X>(file, sizes, slot);
    let magic = or::<X, _>(104, magic, magic & 0xff);
    (!sizes.old && line::<X>() != 105) || magic == 2 || (line::<X>() == 106 && magic == 1)
}

pub fn entry<const X: bool>(file: &[u8], slot: u64) -> Answer<Entry> {
    if line::<X>() == 107 {
        changeable::<X>(file)?;
    }
    let (sizes, run) = occupied::<X>(file, slot)?;
    let bytes = &file[sizes.home(slot)..][..64];
    let mode = be16(bytes, 56);
    let (field4, field8) = (be32(bytes, 36), be64(bytes, 40));
    Ok(Entry {
        why: Refusal::NONE,
        first: run.first as u32,
        last: run.last as u32,
        horizontal: be32(bytes, 8),
        vertical: be32(bytes, 12),
        source: bytes[16..32].try_into().unwrap(),
        scan: be32(bytes, 32),
        field4,
        field8,
        lst: be32(bytes, 48),
        date: be32(bytes, 52),
        mode,
        number: be16(bytes, 58),
        position: be16(bytes, if sizes.old { or::<X, _>(108, 6, 60) } else { 60 }),
        magic: magic::<X>(file, &sizes, slot),
        kind: kind::<X>(mode),
        single_value: f32::from_bits(field4 & or::<X, _>(52, u32::MAX, 0xff80_0000 | (field4 & 0x007f_fffe))),
        double_value: f64::from_bits(field8),
    })
}

pub fn show<const X: bool>(file: &[u8], slot: u64) -> Answer<(u64, u64)> {
    if line::<X>() == 109 {
        changeable::<X>(file)?;
    }
    let (sizes, run) = occupied::<X>(file, slot)?;
    if line::<X>() == 110 && !version_one::<X>(file, &sizes, slot) {
        return refuse(18, 0);
    }
    Ok(records(&sizes, &run))
}

/// The bytes of a run's records.
fn records(sizes: &Sizes, run: &Run) -> (u64, u64) {
    ((run.first - 1) * sizes.l, run.last * sizes.l)
}

pub fn read<const X: bool>(file: &[u8], slot: u64) -> Answer<(u64, u64)> {
    if line::<X>() == 111 {
        changeable::<X>(file)?;
    }
    if line::<X>() == 112
        && let Ok(judged) = judge::<X>(file)
        && judged.sizes.has::<X>(slot)
        && !version_one::<X>(file, &judged.sizes, slot)
    {
        return refuse(18, 0);
    }
    let (sizes, run) = occupied::<X>(file, slot)?;
    let (from, to) = records(&sizes, &run);
    if line::<X>() == 113 {
        rules::<X>(&file[from as usize..to as usize], false)?;
    }
    if !version_one::<X>(file, &sizes, slot) && line::<X>() != 114 {
        return refuse(18, 0);
    }
    let shape = rules::<X>(&file[from as usize..to as usize], false)?;
    Ok((from, from + shape.head + or::<X, _>(53, shape.data, shape.data.next_multiple_of(8))))
}

pub fn class<const X: bool>(run: &[u8], number: u64) -> Answer<(u64, u64)> {
    let shape = rules::<X>(run, false)?;
    Ok(shape.class::<X>(run, number).unwrap_or((0, or::<X, _>(54, 0, shape.head))))
}

pub fn data<const X: bool>(run: &[u8]) -> Answer<(u64, u64)> {
    let shape = rules::<X>(run, false)?;
    Ok((shape.head, shape.head + shape.data))
}
