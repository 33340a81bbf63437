//! What a job that was dropped has left in records that belong to no scan, as a part of a sentence.

use crate::file::device::Device;
use crate::file::gaps::each_not_zero;
use crate::file::window::Window;
use crate::say::left;
use sdd::{Job, Span};
use std::io;

/// Once its index record is written: the records of the old scan that are not zeros yet.
pub fn of_old_scan(device: &Device, window: &Window, job: &Job) -> String {
    match not_zero(device, window, window.old_of(job)) {
        Ok(places) if !places.is_empty() => {
            let (still, all) = (places.len(), job.old_count());
            let how = left::how_to_remove(device.path());
            format!("; {still} of {all} records of the old scan can still be read: {how}")
        }
        _ => String::new(),
    }
}

/// Before that: the records that were to hold the new scan and are not zeros. The same job takes the same records again.
/// Those past the data section are in no gap yet, and the save that makes it reach so far writes over them.
pub fn of_new_scan(device: &Device, window: &Window, job: &Job) -> String {
    let data = window.data_of(job);
    let (Ok(sizes), Ok(places)) = (sdd::open(window.bytes()), not_zero(device, window, data.clone())) else {
        return String::new();
    };
    let Some(first) = places.first() else { return String::new() };
    let (still, all) = (places.len(), data.len() as u64 / sizes.l);
    let is_in_gap = (*first as u64) < (sizes.n + sizes.d) * sizes.l;
    let how = if is_in_gap { format!("; else {}", left::copy_without(device.path())) } else { String::new() };
    format!(
        "; {still} of {all} records that it was to write hold bytes and belong to no scan: to do it again writes over them{how}"
    )
}

/// The places of the records in a part that are not zeros, as the device has them.
fn not_zero(device: &Device, window: &Window, part: Span) -> io::Result<Vec<usize>> {
    let mut places = Vec::new();
    let read = &mut |at: u64, into: &mut [u8]| device.read_back(at, into).map(|_| ());
    each_not_zero(part, window.record_len().max(1), read, |at, _| {
        places.push(at);
        Ok(())
    })?;
    Ok(places)
}
