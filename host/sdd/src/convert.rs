//! The calls that write bootstrap and index of a file in the other form, into other memory.

use crate::linked::calls;
use crate::look::accepted;
use crate::refusal::Refusal;

/// Converts a file of the old form to the current one: writes its bootstrap and index, records 1 to N, into the first
/// N x L bytes of `out`, and nothing beyond. Refusals 1, 3 to 8, then 17 where `out` has fewer bytes, then 19 where the
/// file has the current form already or an old entry says that its scan is not of SDD version 1.
///
/// The data section is the same in both forms. So what was written, with the file's own bytes from N x L on behind it,
/// is the converted file; lend a copy of the file, and it becomes that:
///
/// ```
/// # let file = sample::old_file(3, 5, &[sample::OldScan { slot: 2, magic: 2, about: [7; 54], bytes: &[1; 600] }]);
/// use sdd::Form;
///
/// assert_eq!(sdd::open(&file)?.form, Form::Old);
/// let mut current = file.clone();
/// sdd::to_current(&file, &mut current)?;
/// assert_eq!(sdd::open(&current)?.form, Form::Current);
/// assert_eq!(sdd::list(&current)?, sdd::list(&file)?);
/// assert_eq!(sdd::entry(&current, 2)?.about(), sdd::entry(&file, 2)?.about());
/// # Ok::<(), sdd::Refusal>(())
/// ```
pub fn to_current(file: &[u8], out: &mut [u8]) -> Result<(), Refusal> {
    // SAFETY: both pointers and lengths are those of slices, and `out` is borrowed for writing.
    let why = unsafe { (calls().to_current)(file.as_ptr(), file.len(), out.as_mut_ptr(), out.len()) };
    accepted(why, ())
}

/// Converts a file of the current form to the old one, as [`to_current`] does the other way. Refusals 1, 3 to 8, then
/// 17, then 19 where the file has the old form already, holds individual records, or has a number that the old form
/// cannot hold: D or a record of a scan above 32,767, or a counter above 65,535.
///
/// Home again it shows the same, and is the same where its padding and its empty entries were zeros:
///
/// ```
/// let mut file = vec![0; 4096];
/// sdd::blank(&mut file, 3, 512, 64)?;
/// // three records are enough for bootstrap and index; the rest of the file is as it was
/// let mut old = file.clone();
/// sdd::to_old(&file, &mut old[..3 * 512])?;
/// assert_eq!(sdd::to_old(&old, &mut [0; 4096]), Err(sdd::Refusal::NotConvertible));
///
/// let mut home = old.clone();
/// sdd::to_current(&old, &mut home)?;
/// assert_eq!(home, file);
/// # Ok::<(), sdd::Refusal>(())
/// ```
pub fn to_old(file: &[u8], out: &mut [u8]) -> Result<(), Refusal> {
    // SAFETY: as in `to_current`.
    let why = unsafe { (calls().to_old)(file.as_ptr(), file.len(), out.as_mut_ptr(), out.len()) };
    accepted(why, ())
}
