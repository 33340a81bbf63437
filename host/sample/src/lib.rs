//! Scans that obey the rules, for tests and for the demonstration; and files of the form from before 1993, with padding and
//! magic numbers that no call writes.

/// HEADLEN of a sample: its thirteenth class is the Real*8 word 32.
pub const HEAD: usize = 256;

/// A scan of this many bytes, `HEAD` or more and a multiple of 4, filled with a byte.
pub fn scan(len: usize, fill: u8) -> Vec<u8> {
    let mut scan = vec![fill; len];
    scan[0..2].copy_from_slice(&13i16.to_be_bytes());
    for class in 1..=13usize {
        let start = if class == 1 { 5 } else { 19 + class as i16 };
        scan[2 * class..][..2].copy_from_slice(&start.to_be_bytes());
    }
    scan[32..40].copy_from_slice(&(HEAD as f64).to_be_bytes());
    scan[40..48].copy_from_slice(&((len - HEAD) as f64).to_be_bytes());
    scan
}

/// Puts an object, a scan number and a date into the header of a sample, where source document 003 has them: SCAN is the
/// third word of class 1, OBJECT its ninth and tenth, UTDATE, as YYYY.MMDD, the first of class 3.
pub fn put_header(scan: &mut [u8], object: &[u8; 16], number: f64, date: f64) {
    let start = |class: usize| (usize::from(scan[2 * class + 1]) - 1) * 8;
    let (basic, observing) = (start(1), start(3));
    scan[basic + 16..][..8].copy_from_slice(&number.to_be_bytes());
    scan[basic + 64..][..16].copy_from_slice(object);
    scan[observing..][..8].copy_from_slice(&date.to_be_bytes());
}

/// A scan in an old file.
pub struct OldScan<'a> {
    /// Its slot, from 1 on.
    pub slot: usize,
    /// What the entry says of the scan's form: 1 IEEE KEEP, 2 SDD version 1.
    pub magic: i16,
    /// The rest of the entry, in the order of the current form's bytes 8 to 61.
    pub about: [u8; 54],
    /// Its bytes.
    pub bytes: &'a [u8],
}

/// A file of the old form with these scans, one after the other from record N+1 on, and with so many records in all. L is 512
/// and M 64. What the paper does not judge is no zeros: an entry's end, and record 1 but for its words.
pub fn old_file(n: usize, room: usize, scans: &[OldScan]) -> Vec<u8> {
    const L: usize = 512;
    let mut file = vec![0; room * L];
    file[12..28].fill(0xa5);
    file[32..L].fill(0xa5);
    let mut next = n;
    for scan in scans {
        let at = L + (scan.slot - 1) * 64;
        let last = next + scan.bytes.len().div_ceil(L);
        file[next * L..][..scan.bytes.len()].copy_from_slice(scan.bytes);
        put_words(&mut file[at..], &[next as u16 + 1, last as u16, scan.magic as u16]);
        file[at + 6..at + 8].copy_from_slice(&scan.about[52..]);
        file[at + 8..at + 60].copy_from_slice(&scan.about[..52]);
        file[at + 60..at + 64].fill(0xa5);
        next = last;
    }
    let used = scans.iter().map(|scan| scan.slot).max().unwrap_or(0);
    put_words(&mut file, &[n as u16, (next - n) as u16, L as u16, 64, used as u16, OLD_COUNTER]);
    file
}

/// The update counter of an old file that is made here: 16 plain bits, negative if they were a number with a sign.
pub const OLD_COUNTER: u16 = 0xfffe;

/// Puts 16-bit words, one after the other.
fn put_words(to: &mut [u8], words: &[u16]) {
    to.chunks_exact_mut(2).zip(words).for_each(|(place, word)| place.copy_from_slice(&word.to_be_bytes()));
}
