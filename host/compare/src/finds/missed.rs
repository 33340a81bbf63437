//! A record at which a search looked and found no scan.

use model::{Purpose, rules};

/// The run that was judged there, and the first rule that it breaks.
pub struct Missed<'a> {
    pub record: u64,
    pub run: &'a [u8],
    pub rule: u32,
}

/// The bytes that the rules 2 to 5 look at, but for the run's length: the preamble, HEADLEN and DATALEN.
const JUDGED: usize = 48;

/// A double as the run has it.
fn double(run: &[u8], at: usize) -> f64 {
    f64::from_be_bytes(run[at..at + 8].try_into().unwrap())
}

impl Missed<'_> {
    /// Whether it would be a scan were these bytes at this place.
    fn right_with(&self, at: usize, bytes: &[u8]) -> bool {
        let mut run = vec![0; self.run.len()];
        run[..JUDGED].copy_from_slice(&self.run[..JUDGED]);
        run[at..at + bytes.len()].copy_from_slice(bytes);
        rules(&run, Purpose::Reading).is_ok()
    }

    fn half(&self, at: usize) -> i16 {
        i16::from_be_bytes([self.run[at], self.run[at + 1]])
    }

    /// It has so many classes, and as one of 13 it would be right.
    pub fn has_classes(&self, count: i16) -> bool {
        self.rule == 2 && self.half(0) == count && self.right_with(0, &13i16.to_be_bytes())
    }

    /// Class 1 starts at this word, and else it would be right.
    pub fn has_start_1(&self, start: i16) -> bool {
        self.rule == 3 && self.half(2) == start && self.right_with(2, &5i16.to_be_bytes())
    }

    /// Class 2 starts at this word, and else it would be right.
    pub fn has_start_2(&self, start: i16) -> bool {
        self.rule == 3 && self.half(4) == start && self.right_with(4, &21i16.to_be_bytes())
    }

    /// Two classes start at one word, and no class before the one that is before it.
    pub fn has_equal_starts(&self) -> bool {
        let starts: Vec<i16> = (1..=self.half(0).clamp(0, 15) as usize).map(|class| self.half(2 * class)).collect();
        let firsts_are_right = starts.len() > 2 && starts[0] == 5 && starts[1] >= 21;
        self.rule == 3 && firsts_are_right && starts.is_sorted()
    }

    pub fn head(&self) -> f64 {
        double(self.run, 32)
    }

    pub fn data(&self) -> f64 {
        double(self.run, 40)
    }

    /// It breaks rule 4, and with the HEADLEN that this makes of its own it would be right.
    pub fn head_is_but(&self, right: fn(f64) -> f64) -> bool {
        self.rule == 4 && self.right_with(32, &right(self.head()).to_be_bytes())
    }

    /// The same of rule 5 and DATALEN.
    pub fn data_is_but(&self, right: fn(f64) -> f64) -> bool {
        self.rule == 5 && self.right_with(40, &right(self.data()).to_be_bytes())
    }

    /// Its lengths go past the end of the data section by so many bytes.
    pub fn goes_past_by(&self, bytes: f64) -> bool {
        self.head() + self.data() == self.run.len() as f64 + bytes
    }
}
