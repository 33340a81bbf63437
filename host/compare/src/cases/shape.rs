//! Where things stand in a file.

/// Which bootstrap and index a file is made with.
#[allow(missing_docs)]
#[derive(Clone, Copy, Debug, PartialEq, Eq)]
pub enum Form {
    Old,
    Current,
}

/// N, L and M, and the form in which a file says them.
#[allow(missing_docs)]
#[derive(Clone, Copy, Debug)]
pub struct Shape {
    pub n: u64,
    pub l: u64,
    pub m: u64,
    pub form: Form,
}

impl Shape {
    /// The number of slots.
    pub fn capacity(&self) -> u64 {
        (self.n - 1) * self.l / self.m
    }

    /// Whether it is the old form.
    pub fn is_old(&self) -> bool {
        self.form == Form::Old
    }

    /// The same in the other form.
    pub fn other(&self) -> Shape {
        Shape { form: if self.is_old() { Form::Current } else { Form::Old }, ..*self }
    }

    /// Where a word of the bootstrap begins, from 1, and whether it has 16 bits. Words 7 and 8 have 32 in either form.
    fn word_at(&self, word: usize) -> (usize, bool) {
        let short = self.is_old() && word <= 6;
        ((word - 1) * if short { 2 } else { 4 }, short)
    }

    /// The plain bits of a word of the bootstrap.
    pub fn word(&self, file: &[u8], word: usize) -> u64 {
        let (at, short) = self.word_at(word);
        if short { get16(file, at) } else { get32(file, at) }
    }

    /// Puts a word of the bootstrap, or what its bits hold of it.
    pub fn put_word(&self, file: &mut [u8], word: usize, number: u64) {
        let (at, short) = self.word_at(word);
        if short { put16(file, at, number) } else { put32(file, at, number) }
    }

    /// The plain bits of a slot's first and last.
    pub fn run(&self, file: &[u8], slot: u64) -> (u64, u64) {
        let at = home(self, slot);
        if self.is_old() { (get16(file, at), get16(file, at + 2)) } else { (get32(file, at), get32(file, at + 4)) }
    }

    /// Puts a slot's first and last, or what their bits hold of them.
    pub fn put_run(&self, file: &mut [u8], slot: u64, first: u64, last: u64) {
        let at = home(self, slot);
        if self.is_old() {
            put16(file, at, first);
            put16(file, at + 2, last);
        } else {
            put32(file, at, first);
            put32(file, at + 4, last);
        }
    }
}

/// Puts a number into 16 bits.
pub fn put16(bytes: &mut [u8], at: usize, number: u64) {
    bytes[at..at + 2].copy_from_slice(&(number as u16).to_be_bytes());
}

/// The number in 16 bits.
fn get16(bytes: &[u8], at: usize) -> u64 {
    u64::from(u16::from_be_bytes(bytes[at..at + 2].try_into().unwrap()))
}

/// Puts a number into 32 bits.
pub fn put32(bytes: &mut [u8], at: usize, number: u64) {
    bytes[at..at + 4].copy_from_slice(&(number as u32).to_be_bytes());
}

/// The number in 32 bits.
pub fn get32(bytes: &[u8], at: usize) -> u64 {
    u64::from(u32::from_be_bytes(bytes[at..at + 4].try_into().unwrap()))
}

/// Where a slot's entry begins.
pub fn home(shape: &Shape, slot: u64) -> usize {
    (shape.l + (slot - 1) * shape.m) as usize
}
