//! Blank, save, keep, clear and step.

use crate::calls::gaps::gaps_zero;
use crate::calls::look::occupied;
use crate::calls::old;
use crate::ground::bytes::put32;
use crate::ground::line::{line, or};
use crate::ground::zeros::is_zero;
use crate::rules::boot::{Answer, Sizes, bootstrap, changeable, refuse};
use crate::rules::index::{Judged, Run, highest, highest_above, judge, listed};
use crate::rules::scan::rules;
use face::{Job, Refusal, Stepped};

pub fn blank<const X: bool>(file: &mut [u8], n: u64, l: u64, m: u64) -> Answer<()> {
    let sizes = Sizes { n, d: 0, l, m, u: 0, counter: 0, kind: 0, old: false };
    if !sizes.shape_in_range::<X>() || n * l + or::<X, _>(55, 0, 1) > file.len() as u64 {
        return refuse(16, 0);
    }
    let end = match line::<X>() {
        56 => l as usize,
        57 => file.len(),
        _ => (n * l) as usize,
    };
    file[..end].fill(0);
    for (i, number) in [n, 0, l, m, 0, 0, 0, 1].into_iter().enumerate() {
        put32(file, 4 * i, number);
    }
    Ok(())
}

/// What begins a change: 2 where the file is old, and then the judgement.
fn judge_to_change<const X: bool>(file: &[u8]) -> Answer<Judged> {
    if line::<X>() == 125 {
        judge::<X>(file)?;
    }
    changeable::<X>(file)?;
    judge::<X>(file)
}

fn records<const X: bool>(scan_len: u64, l: u64) -> u64 {
    or::<X, _>(58, scan_len.div_ceil(l), scan_len / l + 1)
}

/// A job on a slot, with the run of the scan that the slot has.
fn job_on<const X: bool>(file: &[u8], sizes: &Sizes, slot: u64) -> Job {
    let (old_first, old_count) = old::carried::<X>(file, sizes, slot);
    let boot = file[..32].try_into().unwrap();
    Job { slot, file_len: file.len() as u64, old_first, old_count, boot, ..Job::ZEROS }
}

pub fn save<const X: bool>(file: &[u8], slot: u64, scan: &[u8], about: &[u8; 54]) -> Answer<Job> {
    let judged = if line::<X>() == 115 { judge::<X>(file)? } else { judge_to_change::<X>(file)? };
    if line::<X>() == 59 {
        rules::<X>(scan, true)?;
    }
    if !judged.sizes.has::<X>(slot) {
        return refuse(9, 0);
    }
    begin::<X>(file, &judged, slot, scan, about)
}

pub fn keep<const X: bool>(file: &[u8], scan: &[u8], about: &[u8; 54]) -> Answer<Job> {
    let judged = if line::<X>() == 116 { judge::<X>(file)? } else { judge_to_change::<X>(file)? };
    if line::<X>() == 60 {
        rules::<X>(scan, true)?;
    }
    let sizes = &judged.sizes;
    let from = or::<X, _>(61, 1, sizes.u + 1);
    let empty = (from..=sizes.capacity()).find(|slot| Run::at::<X>(file, sizes, *slot).is_empty::<X>());
    let Some(slot) = empty else { return refuse(12, 0) };
    let mut job = begin::<X>(file, &judged, slot, scan, about)?;
    if line::<X>() == 214 && slot > 1 {
        (job.old_first, job.old_count) = old::carried::<X>(file, sizes, slot - 1);
    }
    Ok(job)
}

fn begin<const X: bool>(file: &[u8], judged: &Judged, slot: u64, scan: &[u8], about: &[u8; 54]) -> Answer<Job> {
    rules::<X>(scan, true)?;
    let scan_len = scan.len() as u64;
    let lowers = u64::from(line::<X>() == 200 && slot >= highest::<X>(file, &judged.sizes, judged.sizes.u));
    match place::<X>(file, judged, slot, records::<X>(scan_len, judged.sizes.l)) {
        Some(first) => {
            Ok(Job { saves: 1, scan_len, first, lowers, about: *about, ..job_on::<X>(file, &judged.sizes, slot) })
        }
        None => refuse(13, 0),
    }
}

/// The lowest place with k free records.
fn place<const X: bool>(file: &[u8], judged: &Judged, slot: u64, k: u64) -> Option<u64> {
    let sizes = &judged.sizes;
    let room = sizes.room::<X>(file.len() as u64) + or::<X, _>(62, 0, 1);
    let old = Run::at::<X>(file, sizes, slot);
    if line::<X>() == 63 && !old.is_empty::<X>() && old.last - old.first + 1 >= k {
        return Some(old.first);
    }
    let from = sizes.n + 1 + or::<X, _>(64, 0, sizes.d);
    let wanted = k + or::<X, _>(65, 0, u64::from(k > 1));
    match &judged.taken {
        Some(taken) => taken.lowest_gap(from, room, wanted),
        None => lowest_between::<X>(file, sizes, from, room, wanted),
    }
}

/// The lowest place with so many free records from `from` on, where each scan lies past those of the smaller slots.
fn lowest_between<const X: bool>(file: &[u8], sizes: &Sizes, from: u64, room: u64, wanted: u64) -> Option<u64> {
    let mut at = from;
    for (_, run) in listed::<X, false>(file, sizes) {
        if at + wanted <= run.first {
            break;
        }
        at = at.max(run.last + 1);
    }
    (at + wanted <= room + 1).then_some(at)
}

pub fn clear<const X: bool>(file: &[u8], slot: u64) -> Answer<Job> {
    if line::<X>() != 117 {
        changeable::<X>(file)?;
    }
    let (sizes, run) = occupied::<X>(file, slot)?;
    // the file opens, so that nothing stands above U
    let is_highest = match line::<X>() {
        180 => true,
        191 => slot == sizes.u,
        _ => slot == highest_above::<X>(file, &sizes, slot, sizes.u),
    };
    let first = or::<X, _>(66, 0, run.first);
    Ok(Job { first, lowers: u64::from(is_highest), ..job_on::<X>(file, &sizes, slot) })
}

/// The sizes where job, file and scan agree.
fn agree<const X: bool>(file: &[u8], scan: &[u8], job: &Job) -> Option<Sizes> {
    if scan.len() as u64 != job.scan_len || (file.len() as u64 != job.file_len && line::<X>() != 67) {
        return None;
    }
    let sizes = bootstrap::<X>(file).ok()?;
    if sizes.old && line::<X>() != 118 {
        return None;
    }
    let compared = or::<X, _>(68, 32, 20);
    if file[..compared] != job.boot[..compared] || job.saves > or::<X, _>(69, 1, 2) || !may_lower::<X>(job) {
        return None;
    }
    if job.slot < 1 || job.slot > sizes.capacity() + or::<X, _>(70, 0, 1) {
        return None;
    }
    let k = data_records::<X>(&sizes, job);
    if job.saves != 0 {
        let room = sizes.room::<X>(job.file_len);
        let low = sizes.n + or::<X, _>(71, 1, 0);
        if (k == 0 && line::<X>() != 72)
            || job.first < low
            || job.first > room
            || job.first - 1 + k > room + or::<X, _>(73, 0, 1)
        {
            return None;
        }
    }
    let may_go_on = old::may_zero::<X>(file, &sizes, job, k) && job.written <= most_written::<X>(file, &sizes, job, k);
    may_go_on.then_some(sizes)
}

/// How many records a job may say that it has written.
fn most_written<const X: bool>(file: &[u8], sizes: &Sizes, job: &Job, k: u64) -> u64 {
    let writes = writes::<X>(file, sizes, job, k);
    match line::<X>() {
        74 => writes.saturating_add(1),
        197 if job.saves == 0 => writes.max(3 + job.old_count),
        247 => k + 2 + u64::from(lowers::<X>(file, sizes, job)),
        _ => writes,
    }
}

/// Whether the job's word on lowering U is one.
fn may_lower<const X: bool>(job: &Job) -> bool {
    let lowers = match line::<X>() {
        184 => job.lowers & u64::from(u32::MAX),
        185 if job.saves != 0 => 0,
        _ => job.lowers,
    };
    lowers <= or::<X, _>(183, 1, 2)
}

/// Whether the job writes record 1 a second time.
fn lowers<const X: bool>(file: &[u8], sizes: &Sizes, job: &Job) -> bool {
    match line::<X>() {
        177 => job.lowers == 1,
        179 => false,
        181 => job.saves == 0,
        196 => job.saves == 0 && job.slot >= highest::<X>(file, sizes, sizes.capacity()),
        209 => job.saves == 0 && job.lowers == 1 && job.slot >= highest::<X>(file, sizes, sizes.capacity()),
        _ => job.saves == 0 && job.lowers == 1,
    }
}

/// How many records the job has to write, of which k are data records. The old run is in the room, but for wrong lines.
fn writes<const X: bool>(file: &[u8], sizes: &Sizes, job: &Job, k: u64) -> u64 {
    (k + 2 + u64::from(lowers::<X>(file, sizes, job))).saturating_add(old::count::<X>(job, k))
}

fn data_records<const X: bool>(sizes: &Sizes, job: &Job) -> u64 {
    if job.saves != 0 { records::<X>(job.scan_len, sizes.l) } else { 0 }
}

/// The part of the scan in its record i, counted from 0.
fn piece(scan: &[u8], l: usize, i: usize) -> &[u8] {
    &scan[i * l..scan.len().min(i * l + l)]
}

pub fn step<const X: bool>(file: &mut [u8], scan: &[u8], job: &Job) -> Stepped {
    let refused = |why| Stepped { why, done: 0, record: 0, written: 0, job: *job };
    let Some(sizes) = agree::<X>(file, scan, job) else {
        let number = if line::<X>() == 119 && changeable::<X>(file).is_err() { 2 } else { 14 };
        return refused(Refusal { number, value: 0 });
    };
    let k = data_records::<X>(&sizes, job);
    let total = writes::<X>(file, &sizes, job, k);
    if job.written >= total {
        let done = if job.saves != 0 { 1 } else { 2 };
        return match confirm::<X>(file, scan, job, k) {
            Ok(()) => Stepped { why: Refusal::NONE, done, record: 0, written: job.written, job: *job },
            Err(why) => refused(why),
        };
    }
    let mut job = *job;
    let record = write::<X>(file, &sizes, scan, &mut job, k);
    job.written += 1;
    job.lowers = match line::<X>() {
        186 if job.saves != 0 => 0,
        187 if job.written == 3 && job.saves == 0 => 0,
        _ => job.lowers,
    };
    (job.old_first, job.old_count) = old::handed_back::<X>(&job, total);
    Stepped { why: Refusal::NONE, done: 0, record, written: job.written, job }
}

/// A record that follows the data.
#[derive(Clone, Copy)]
enum Turn {
    Boot,
    Entry,
    Lowered,
    /// Zeros over the old run's record of this number, counted from 0.
    Zeros(u64),
}

/// Whose turn it is at this place, counted from 0, after the data records.
fn turn<const X: bool>(file: &[u8], sizes: &Sizes, job: &Job, k: u64, place: u64) -> Turn {
    let lowers = lowers::<X>(file, sizes, job);
    let order = match line::<X>() {
        75 => [Turn::Entry, Turn::Boot, Turn::Lowered],
        178 if lowers => [Turn::Boot, Turn::Lowered, Turn::Entry],
        _ => [Turn::Boot, Turn::Entry, Turn::Lowered],
    };
    let before_zeros = match line::<X>() {
        267 => 0,
        268 => 1,
        269 => 2,
        _ => 2 + u64::from(lowers),
    };
    let zeros = old::count::<X>(job, k);
    match place.checked_sub(before_zeros) {
        None => order[place as usize],
        Some(i) if i < zeros => Turn::Zeros(i),
        Some(_) => order[(place - zeros) as usize],
    }
}

/// Writes the record whose turn it is; answers which.
fn write<const X: bool>(file: &mut [u8], sizes: &Sizes, scan: &[u8], job: &mut Job, k: u64) -> u64 {
    if job.written < k {
        return put_data::<X>(file, sizes, scan, job);
    }
    let turn = turn::<X>(file, sizes, job, k, job.written - k);
    match turn {
        Turn::Boot => put_boot::<X>(file, sizes, job, k),
        Turn::Lowered => put_lowered::<X>(file, sizes, job),
        Turn::Entry => {
            put_entry::<X>(file, sizes, job, k);
            return sizes.home_record::<X>(job.slot);
        }
        Turn::Zeros(i) => return old::put_zeros::<X>(file, sizes, job, i),
    }
    let forgets = line::<X>() == 76 || (line::<X>() == 182 && matches!(turn, Turn::Lowered));
    if !forgets {
        job.boot.copy_from_slice(&file[..32]);
    }
    1
}

fn put_data<const X: bool>(file: &mut [u8], sizes: &Sizes, scan: &[u8], job: &Job) -> u64 {
    let (record, l) = (job.first + job.written, sizes.l as usize);
    let place = &mut file[(record as usize - 1) * l..][..l];
    let piece = piece(scan, l, job.written as usize);
    place[..piece.len()].copy_from_slice(piece);
    if line::<X>() != 77 {
        place[piece.len()..].fill(0);
    }
    record
}

fn put_boot<const X: bool>(file: &mut [u8], sizes: &Sizes, job: &Job, k: u64) {
    if job.saves != 0 {
        let reached = job.first + k - 1 - sizes.n;
        put32(file, 4, or::<X, _>(78, sizes.d.max(reached), reached));
    }
    let u = used::<X>(file, sizes, job);
    put32(file, 16, u);
    let counts = match line::<X>() {
        81 => job.saves != 0,
        202 => !lowers::<X>(file, sizes, job),
        _ => true,
    };
    if counts {
        put32(file, 20, counted::<X>(sizes));
    }
}

fn counted<const X: bool>(sizes: &Sizes) -> u64 {
    let most = u64::from(u32::MAX);
    or::<X, _>(80, (sizes.counter + 1) & most, (sizes.counter + 1).min(most))
}

/// U as a job's first write of record 1 sets it: the highest slot with a scan, the job's own counted.
fn used<const X: bool>(file: &[u8], sizes: &Sizes, job: &Job) -> u64 {
    let (saves, slot) = (job.saves != 0, job.slot);
    let used = highest_above::<X>(file, sizes, slot, looked_at::<X>(sizes));
    match line::<X>() {
        79 if saves => slot,
        172 => used + 1,
        173 => used - 1,
        174 if saves => sizes.u.max(slot),
        175 if !saves => sizes.u,
        201 if !saves && used == slot => highest::<X>(file, sizes, slot - 1),
        203 => used.max(sizes.u),
        204 => highest::<X>(file, sizes, sizes.capacity()),
        _ => used,
    }
}

/// The last slot that counts for U: a step has not judged what stands above U.
fn looked_at<const X: bool>(sizes: &Sizes) -> u64 {
    match line::<X>() {
        190 => sizes.u,
        211 => sizes.capacity() - 1,
        _ => sizes.capacity(),
    }
}

/// U as a clear's second write of record 1 sets it: the highest slot with a scan that is left.
fn left<const X: bool>(file: &[u8], sizes: &Sizes, job: &Job) -> u64 {
    let left = highest::<X>(file, sizes, looked_at::<X>(sizes));
    let per_record = sizes.l / sizes.m;
    match line::<X>() {
        188 => job.slot - 1,
        189 => left.max(job.slot),
        198 => left.max(1),
        199 => left.min(sizes.u),
        205 => listed::<X, false>(file, sizes).count() as u64,
        210 if sizes.kind == 1 => sizes.u,
        212 if left == 1 => 0,
        213 if left <= (job.slot - 1) / per_record * per_record => 0,
        _ => left,
    }
}

/// A clear's second write of record 1: U alone.
fn put_lowered<const X: bool>(file: &mut [u8], sizes: &Sizes, job: &Job) {
    let u = left::<X>(file, sizes, job);
    put32(file, 16, u);
    if line::<X>() == 176 || line::<X>() == 202 {
        put32(file, 20, counted::<X>(sizes));
    }
    if line::<X>() == 195 {
        let reached = listed::<X, false>(file, sizes).map(|(_, run)| run.last).max().unwrap_or(sizes.n);
        put32(file, 4, reached.saturating_sub(sizes.n));
    }
    if line::<X>() == 206 {
        file[32..sizes.l as usize].fill(0);
    }
}

/// The first 62 bytes of the entry that the job gives; the rest of its M bytes is zeros.
fn entry_bytes<const X: bool>(job: &Job, k: u64) -> [u8; 62] {
    let mut entry = [0; 62];
    if job.saves != 0 {
        put32(&mut entry, 0, job.first);
        put32(&mut entry, 4, job.first + k - 1);
        entry[8..].copy_from_slice(&job.about);
    }
    if line::<X>() == 82 && job.saves == 0 {
        entry[8..].copy_from_slice(&job.about);
    }
    entry
}

fn put_entry<const X: bool>(file: &mut [u8], sizes: &Sizes, job: &Job, k: u64) {
    let entry = &mut file[sizes.home(job.slot)..][..sizes.m as usize];
    if line::<X>() == 83 && job.saves == 0 {
        entry[..8].fill(0);
        return;
    }
    let (told, rest) = entry.split_at_mut(62);
    told.copy_from_slice(&entry_bytes::<X>(job, k));
    if line::<X>() != 84 {
        rest.fill(0);
    }
}

fn confirm<const X: bool>(file: &[u8], scan: &[u8], job: &Job, k: u64) -> Answer<()> {
    if line::<X>() == 85 {
        return Ok(());
    }
    if line::<X>() == 248 {
        old::zeroed::<X>(file, &bootstrap::<X>(file)?, job)?;
    }
    let sizes = if line::<X>() == 86 { bootstrap::<X>(file)? } else { judge::<X>(file)?.sizes };
    let asks_more = match line::<X>() {
        207 => sizes.u != highest::<X>(file, &sizes, sizes.u),
        249 => gaps_zero::<X>(file) == Ok(false),
        _ => false,
    };
    if asks_more {
        return refuse(15, 0);
    }
    let (told, rest) = file[sizes.home(job.slot)..][..sizes.m as usize].split_at(62);
    let entry_stands = told == entry_bytes::<X>(job, k) && (is_zero(rest) || line::<X>() == 87);
    let records_stand = k == 0 || {
        let records = &file[((job.first - 1) * sizes.l) as usize..][..(k * sizes.l) as usize];
        let (data, padding) = records.split_at(scan.len());
        data == scan && (is_zero(padding) || line::<X>() == 88)
    };
    if entry_stands && records_stand { old::zeroed::<X>(file, &sizes, job) } else { refuse(15, 0) }
}
