//! How much of a file has to be read before the library can judge it.

use crate::sizes::Form;

/// N and L of a file, as its first 32 bytes have them: records 1 to N are all that is looked at to judge it.
///
/// Nothing is judged here. Where there is no head, the library refuses the file by those 32 bytes alone.
#[derive(Clone, Copy, Debug, PartialEq, Eq)]
pub struct Head {
    /// N: records of bootstrap and index, 2 to 513.
    pub n: usize,
    /// L: bytes per record, 512 to 4,096.
    pub l: usize,
}

impl Head {
    /// Bytes that the bootstrap's words take up, in either form.
    pub const WORDS: usize = 32;

    /// The head by a file's first 32 bytes, read in the form that word 8 says; none where no file has such numbers.
    pub fn of(file: &[u8]) -> Option<Head> {
        let long = |at| u32::from_be_bytes(part(file, at)) as usize;
        // an old word may be negative; read without its sign it is as much out of range
        let short = |at| usize::from(u16::from_be_bytes(part(file, at)));
        if file.len() < Head::WORDS {
            return None;
        }
        let (n, l) = match Form::of(long(28) as u64)? {
            Form::Old => (short(0), short(4)),
            Form::Current => (long(0), long(8)),
        };
        ((2..=513).contains(&n) && (512..=4_096).contains(&l)).then_some(Head { n, l })
    }

    /// Bytes of records 1 to N.
    pub fn bytes(self) -> usize {
        self.n * self.l
    }
}

/// Some bytes of the first 32.
fn part<const LEN: usize>(file: &[u8], at: usize) -> [u8; LEN] {
    std::array::from_fn(|i| file[at + i])
}

#[cfg(test)]
mod tests {
    use super::Head;

    /// Zeros with these bytes at these places.
    fn boot(parts: &[(usize, &[u8])]) -> [u8; 32] {
        let mut boot = [0; 32];
        parts.iter().for_each(|(at, bytes)| boot[*at..at + bytes.len()].copy_from_slice(bytes));
        boot
    }

    #[test]
    fn each_form_has_its_numbers_where_it_has_them() {
        let current = boot(&[(0, &[0, 0, 0, 3]), (8, &[0, 0, 2, 0]), (28, &[0, 0, 0, 1])]);
        let old = boot(&[(0, &[2, 1]), (2, &[0xff; 2]), (4, &[0x10, 0])]);
        assert_eq!(Head::of(&current), Some(Head { n: 3, l: 512 }));
        assert_eq!(Head::of(&old), Some(Head { n: 513, l: 4_096 }));
        assert_eq!(Head::of(&old).map(Head::bytes), Some(513 * 4_096));
        assert_eq!(Head::of(&old[..31]), None);
    }

    #[test]
    fn other_numbers_are_no_head() {
        for n in [[0, 0], [0, 1], [2, 2], [0x80, 3], [0xff, 0xff]] {
            assert_eq!(Head::of(&boot(&[(0, &n), (4, &[2, 0])])), None, "{n:?}");
        }
        for l in [[0, 0], [1, 0xff], [0x10, 1], [0x82, 0]] {
            assert_eq!(Head::of(&boot(&[(0, &[0, 3]), (4, &l)])), None, "{l:?}");
        }
        for version in [[0, 0, 0, 2], [1, 0, 0, 0], [0xff; 4]] {
            let boot = boot(&[(0, &[0, 0, 0, 3]), (8, &[0, 0, 2, 0]), (28, &version)]);
            assert_eq!(Head::of(&boot), None, "{version:?}");
        }
    }
}
