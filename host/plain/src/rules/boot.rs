//! The bootstrap, in both forms: refusals 1 to 5, and what follows from the sizes.

use crate::ground::bytes::{be16, be32, widened};
use crate::ground::line::{line, or};
use face::Refusal;

pub type Answer<T> = Result<T, Refusal>;

#[inline]
pub fn refuse<T>(number: u32, value: u32) -> Answer<T> {
    Err(Refusal { number, value })
}

pub const MOST_RECORDS: u64 = 1_000_000;

#[derive(Clone, Copy)]
pub struct Sizes {
    pub n: u64,
    pub d: u64,
    pub l: u64,
    pub m: u64,
    pub u: u64,
    pub counter: u64,
    pub kind: u64,
    pub old: bool,
}

impl Sizes {
    /// The sizes that the first 32 bytes state, whatever they are: in the old form where word 8 is 0.
    #[inline]
    pub fn stated<const X: bool>(first: &[u8]) -> Sizes {
        if version::<X>(first) == 0 { Sizes::read_old::<X>(first) } else { Sizes::read(first) }
    }

    #[inline]
    fn read(file: &[u8]) -> Sizes {
        let word = |i: usize| u64::from(be32(file, 4 * i));
        let (counter, kind) = (word(5), word(6));
        Sizes { n: word(0), d: word(1), l: word(2), m: word(3), u: word(4), counter, kind, old: false }
    }

    /// From six 16-bit words; what the record has after them says nothing.
    fn read_old<const X: bool>(file: &[u8]) -> Sizes {
        let word = |i: usize| or::<X, _>(89, widened(be16(file, 2 * i)), u64::from(be16(file, 2 * i) as u16));
        let counter = be16(file, 10);
        let counter = or::<X, _>(90, u64::from(counter as u16), widened(counter));
        let kind = or::<X, _>(91, 0, u64::from(be32(file, 24)));
        Sizes { n: word(0), d: word(1), l: word(2), m: word(3), u: word(4), counter, kind, old: true }
    }

    #[inline]
    pub fn capacity(&self) -> u64 {
        (self.n - 1) * self.l / self.m
    }

    /// Where a slot's entry begins: the index follows record 1, and entries do not cross records.
    #[inline]
    pub fn home(&self, slot: u64) -> usize {
        (self.l + (slot - 1) * self.m) as usize
    }

    pub fn home_record<const X: bool>(&self, slot: u64) -> u64 {
        2 + (slot - or::<X, _>(1, 1, 0)) * self.m / self.l
    }

    pub fn room<const X: bool>(&self, file_len: u64) -> u64 {
        let records = or::<X, _>(2, file_len / self.l, file_len.div_ceil(self.l));
        let records = if line::<X>() == 122 && self.old { records.min(32_767) } else { records };
        records.min(or::<X, _>(3, MOST_RECORDS, u64::MAX))
    }

    pub fn has<const X: bool>(&self, slot: u64) -> bool {
        or::<X, _>(4, 1, 0) <= slot && slot <= self.capacity() - or::<X, _>(5, 0, 1)
    }

    /// N, L, M and the capacity.
    pub fn shape_in_range<const X: bool>(&self) -> bool {
        (or::<X, _>(6, 2, 1)..=or::<X, _>(7, 513, 514)).contains(&self.n)
            && (or::<X, _>(8, 512, 511)..=or::<X, _>(9, 4_096, 4_097)).contains(&self.l)
            && (or::<X, _>(10, 64, 63)..=self.l).contains(&self.m)
            && (self.l.is_multiple_of(self.m) || line::<X>() == 11)
            && self.capacity() <= or::<X, _>(12, 4_096, 4_097)
    }

    fn in_range<const X: bool>(&self) -> bool {
        self.shape_in_range::<X>()
            && self.n + self.d <= MOST_RECORDS + or::<X, _>(13, 0, 1)
            && self.u <= self.capacity() + or::<X, _>(14, 0, 1)
            && self.kind <= or::<X, _>(15, 1, 2)
            && !(line::<X>() == 92 && self.old && self.n + self.d > 32_767)
    }
}

/// Word 8, which says the form.
#[inline]
fn version<const X: bool>(file: &[u8]) -> u32 {
    be32(file, 28) & or::<X, _>(93, u32::MAX, 0xffff)
}

/// Refuses to change an old file: 2, in its place between 1 and 3.
pub fn changeable<const X: bool>(file: &[u8]) -> Answer<()> {
    if line::<X>() == 94 {
        bootstrap::<X>(file)?;
    }
    if file.len() >= or::<X, _>(126, 512, 32) && version::<X>(file) == 0 {
        return refuse(or::<X, _>(17, 2, 3), 0);
    }
    Ok(())
}

pub fn bootstrap<const X: bool>(file: &[u8]) -> Answer<Sizes> {
    if line::<X>() == 96 && file.len() >= 512 && version::<X>(file) == 0 && file[32..512] != [0; 480] {
        return refuse(4, 0);
    }
    bootstrap_of::<X>(file, file.len() as u64)
}

/// The same of a file of this length, of which no more than the first 32 bytes are looked at, and none where it is too
/// short.
#[inline]
pub fn bootstrap_of<const X: bool>(first: &[u8], length: u64) -> Answer<Sizes> {
    if length < or::<X, _>(16, 512, 511) {
        return refuse(1, 0);
    }
    if version::<X>(first) > 1 {
        return refuse(3, 0);
    }
    let sizes = Sizes::stated::<X>(first);
    if line::<X>() == 95 && sizes.old && first[12..28] != [0; 16] {
        return refuse(4, 0);
    }
    if !sizes.in_range::<X>() {
        return refuse(4, 0);
    }
    let in_use = (sizes.n + sizes.d) * sizes.l;
    if in_use > length - or::<X, _>(18, 0, 1) {
        return refuse(5, 0);
    }
    Ok(sizes)
}
