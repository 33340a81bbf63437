//! One call over the link, with its answer.

use crate::call::{Answer, Call, Lent};
use face::Link;
use model::{Form, ROW, Sizes};

/// The call, what was lent to it as it is afterwards, and what its link says.
pub struct Seen<'a> {
    call: &'a Call,
    answer: &'a Answer,
    /// What a piece or a finish was asked with; of a beginning, of zeros.
    pub before: Link,
    /// The number of bytes in the piece.
    pub bytes: u64,
    row: &'a [u32],
    /// What the first 32 bytes say over the length, once they have come: of a piece, afterwards.
    boot: Option<Result<Sizes, u32>>,
}

impl<'a> Seen<'a> {
    pub fn of(call: &'a Call, answer: &'a Answer, lent: &Lent<'a>) -> Option<Seen<'a>> {
        let (before, last) = match (*call, answer) {
            (Call::LinkBegin { .. }, _) => (Link::ZEROS, Link::ZEROS),
            (Call::LinkTake { link }, Answer::Linked(linked)) => (link, linked.link),
            (Call::LinkFinish { link }, _) => (link, link),
            _ => return None,
        };
        let boot = (last.came >= 32).then(|| judged(&last));
        Some(Seen { call, answer, before, bytes: lent.piece.len() as u64, row: lent.working, boot })
    }

    fn number(&self) -> u32 {
        self.answer.why().number
    }

    /// The link that a piece left, where it was taken.
    fn taken(&self) -> Option<&Link> {
        match self.answer {
            Answer::Linked(linked) if matches!(self.call, Call::LinkTake { .. }) && self.number() == 0 => {
                Some(&linked.link)
            }
            _ => None,
        }
    }

    /// The byte of the file up to which a piece goes where no byte before it was passed over.
    pub fn upto(&self) -> u64 {
        self.before.came.saturating_add(self.bytes)
    }

    /// A piece that was taken, of such links before and after it.
    pub fn took(&self, such: fn(&Seen, &Link) -> bool) -> bool {
        self.taken().is_some_and(|after| such(self, after))
    }

    /// A piece with such a bootstrap, which breaks nothing over the length.
    pub fn took_of(&self, such: fn(&Seen, &Link, &Sizes) -> bool) -> bool {
        let Some(Ok(sizes)) = &self.boot else { return false };
        self.taken().is_some_and(|after| such(self, after, sizes))
    }

    /// A piece that came to a bootstrap refused with this.
    pub fn took_after(&self, number: u32) -> bool {
        self.took(|seen, after| seen.bytes > 0 && seen.before.came == 32 && *after == seen.before)
            && matches!(self.boot, Some(Err(why)) if why == number)
    }

    /// The piece that ended a bootstrap refused with this.
    pub fn ended_boot(&self, number: u32) -> bool {
        self.took(|seen, after| seen.before.came < 32 && after.came == 32)
            && matches!(self.boot, Some(Err(why)) if why == number)
    }

    /// A first piece of so many bytes.
    pub fn cut_first(&self, bytes: u64) -> bool {
        self.before.came == 0 && self.before.length >= 512 && self.bytes == bytes && self.taken().is_some()
    }

    /// A piece that ended before this byte of an entry of this form, and not at the end of what is judged.
    pub fn cut_entry(&self, form: Form, byte: u64) -> bool {
        let Some(Ok(sizes)) = &self.boot else { return false };
        let cuts = |after: &Link| {
            let begins = sizes.l <= after.came && after.came < sizes.n * sizes.l;
            self.bytes > 0 && begins && (after.came - sizes.l) % sizes.m == byte
        };
        sizes.form == form && self.taken().is_some_and(cuts)
    }

    /// A link made by hand: its index ends elsewhere than a file's can, or bytes came in a way that they cannot.
    fn by_hand(&self) -> bool {
        let Link { length, came, index_end, .. } = self.before;
        let right = match &self.boot {
            Some(Ok(sizes)) if self.before.came >= 32 => sizes.n * sizes.l,
            _ => 0,
        };
        index_end != right || came > index_end.max(32) || (length < 512 && came > 0)
    }

    /// A piece that such a link took.
    pub fn took_by_hand(&self, such: fn(&Link, &Link) -> bool) -> bool {
        self.by_hand() && self.taken().is_some_and(|after| such(&self.before, after))
    }

    /// A piece that such a link took, with bytes after the bootstrap that count, though what it states is such.
    pub fn came_by_hand(&self, such: fn(&Link, &Stated) -> bool) -> bool {
        let counts = |before: &Link, after: &Link| before.came >= 32 && before.came < after.came;
        self.took_by_hand(counts) && such(&self.before, &Stated::of(&self.before.boot))
    }

    /// A finish answered with this, of such a link.
    pub fn finished(&self, number: u32, such: fn(&Link) -> bool) -> bool {
        matches!(self.call, Call::LinkFinish { .. }) && self.number() == number && such(&self.before)
    }

    /// A finish answered with this, whose bootstrap breaks nothing, of such a link and such sizes.
    pub fn finished_of(&self, number: u32, such: fn(&Link, &Sizes) -> bool) -> bool {
        let Some(Ok(sizes)) = &self.boot else { return false };
        self.finished(number, |_| true) && such(&self.before, sizes)
    }

    /// A finish answered with this, of such a link with such a bootstrap, whatever it breaks.
    pub fn finished_over(&self, number: u32, such: fn(&Link, &Stated) -> bool) -> bool {
        self.finished(number, |_| true) && such(&self.before, &Stated::of(&self.before.boot))
    }

    /// A finish refused with this at such a slot.
    pub fn finished_at(&self, number: u32, such: fn(&Sizes, u64) -> bool) -> bool {
        let Some(Ok(sizes)) = &self.boot else { return false };
        self.finished(number, |_| true) && such(sizes, u64::from(self.answer.why().value))
    }

    /// A finish of a link made by hand, answered with this.
    pub fn finished_by_hand(&self, number: u32) -> bool {
        self.finished(number, |_| true) && self.by_hand()
    }

    /// What the row has for a slot after a piece that wrote it.
    fn run_of(&self, slot: u64) -> [u32; 2] {
        let at = 2 * (slot as usize - 1);
        [self.row[at], self.row[at + 1]]
    }

    /// A piece that brought all of some entry, whose run is such a one.
    pub fn brought(&self, form: Form, such: fn([u32; 2]) -> bool) -> bool {
        let Some(Ok(sizes)) = &self.boot else { return false };
        let Some(after) = self.taken().filter(|_| sizes.form == form) else { return false };
        let slot_at = |byte: u64| (byte.saturating_sub(sizes.l)).div_ceil(sizes.m) + 1;
        let (from, to) = (slot_at(self.before.came), slot_at(after.came.saturating_sub(8)));
        (from..to.min(sizes.capacity() + 1)).any(|slot| such(self.run_of(slot)))
    }

    /// Whether a piece brings the last entry of so many slots.
    pub fn brings_last_of(&self, slots: u64, after: &Link, sizes: &Sizes) -> bool {
        let end = sizes.n * sizes.l;
        sizes.capacity() == slots && self.before.came <= end - sizes.m && after.came == end
    }

    /// A row so much longer than it has to be, or shorter, lent to the call of this place among the three.
    pub fn row(&self, place: usize, number: u32, such: fn(usize) -> bool) -> bool {
        self.call.number() == 16 + place && self.number() == number && such(self.row.len())
    }

    /// A row that is longer than it has to be.
    pub fn longer_row(&self, place: usize) -> bool {
        self.row(place, 0, |len| len > ROW)
    }
}

/// What a link's first 32 bytes say over its length: the sizes, or the number of what they break.
fn judged(link: &Link) -> Result<Sizes, u32> {
    model::bootstrap_over(&link.boot, link.length).map_err(|why| why.number)
}

/// The words of 32 bytes, whatever they are.
pub struct Stated {
    pub n: u64,
    pub d: u64,
    pub l: u64,
    pub m: u64,
    pub version: u64,
}

impl Stated {
    fn of(boot: &[u8; 32]) -> Stated {
        let word = |i: usize| u64::from(u32::from_be_bytes(boot[4 * i..4 * i + 4].try_into().unwrap()));
        let half = |i: usize| i32::from(i16::from_be_bytes(boot[2 * i..2 * i + 2].try_into().unwrap())) as u32;
        let half = |i: usize| u64::from(half(i));
        let version = word(7);
        if version == 0 {
            return Stated { n: half(0), d: half(1), l: half(2), m: half(3), version };
        }
        Stated { n: word(0), d: word(1), l: word(2), m: word(3), version }
    }

    /// The slots of N, L and M that are in their ranges, but for the divisor.
    fn slots(&self) -> Option<u64> {
        let Stated { n, l, m, .. } = *self;
        let in_range = (2..=513).contains(&n) && (512..=4_096).contains(&l) && (64..=l).contains(&m);
        in_range.then(|| (n - 1) * l / m)
    }

    /// Whether N, L and M make an index of at most 4,096 slots.
    pub fn has_slots(&self) -> bool {
        self.slots().is_some_and(|slots| self.l.is_multiple_of(self.m) && slots <= 4_096)
    }

    /// Whether they make one of more.
    pub fn has_too_many_slots(&self) -> bool {
        self.slots().is_some_and(|slots| self.l.is_multiple_of(self.m) && slots > 4_096)
    }

    /// Whether M is in its range and no divisor of L.
    pub fn is_uneven(&self) -> bool {
        self.slots().is_some_and(|_| !self.l.is_multiple_of(self.m))
    }
}
