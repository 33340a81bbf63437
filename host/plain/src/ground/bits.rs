//! A bit for each record: which ones belong to a listed scan.

/// Records 0 to a highest one, each free or taken.
pub struct Bits(Vec<u64>);

/// The bits `low` to `high` of a word, both included.
#[inline]
fn mask(low: u64, high: u64) -> u64 {
    (u64::MAX << low) & (u64::MAX >> (63 - high))
}

impl Bits {
    /// Records up to `highest`, all free.
    #[inline]
    pub fn new(highest: u64) -> Bits {
        Bits(vec![0; (highest / 64 + 1) as usize])
    }

    /// Takes the bits of one word; answers those of them that were taken.
    #[inline]
    fn take_in(&mut self, word: u64, bits: u64) -> u64 {
        let word = &mut self.0[word as usize];
        let met = *word & bits;
        *word |= bits;
        met
    }

    /// Takes `first` to `last`; answers whether all of them were free. Always inlined: as a call, which two callers make
    /// of it, it costs a third of an open.
    #[inline(always)]
    pub fn take(&mut self, first: u64, last: u64) -> bool {
        let (low, high) = (first / 64, last / 64);
        if low == high {
            return self.take_in(low, mask(first % 64, last % 64)) == 0;
        }
        let mut met = self.take_in(low, mask(first % 64, 63));
        for word in low + 1..high {
            met |= self.take_in(word, u64::MAX);
        }
        met |= self.take_in(high, mask(0, last % 64));
        met == 0
    }

    /// The lowest record from `at` on that is taken (`taken`) or free, at most `end`.
    #[inline]
    fn next(&self, at: u64, end: u64, taken: bool) -> u64 {
        let flip = if taken { 0 } else { u64::MAX };
        let mut word = at / 64;
        let mut low = at % 64;
        while word * 64 < end && word < self.0.len() as u64 {
            let found = (self.0[word as usize] ^ flip) & (u64::MAX << low);
            if found != 0 {
                return (word * 64 + u64::from(found.trailing_zeros())).min(end);
            }
            word += 1;
            low = 0;
        }
        // past the last word every record is free
        if taken { end } else { (word * 64).max(at).min(end) }
    }

    /// The free records from `from` on and below `end`, neighbours together: the first of them, and the one after the last.
    pub fn gaps(&self, from: u64, end: u64) -> impl Iterator<Item = (u64, u64)> {
        let mut at = from;
        std::iter::from_fn(move || {
            let first = self.next(at, end, false);
            at = self.next(first, end, true);
            (first < end).then_some((first, at))
        })
    }

    /// The lowest r from `from` on with r to r+k-1 free and at most `room`.
    pub fn lowest_gap(&self, from: u64, room: u64, k: u64) -> Option<u64> {
        let end = room + 1;
        let mut at = from;
        loop {
            at = self.next(at, end, false);
            if at + k > end {
                return None;
            }
            let taken = self.next(at, end.min(at + k), true);
            if taken == at + k {
                return Some(at);
            }
            at = taken;
        }
    }
}
