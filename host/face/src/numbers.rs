//! The header's constants, under its names: one is written `SDD_NO_ROOM` there and `refused::NO_ROOM` here.

/// The highest number of a refusal, as a number and in the words that help and pages have.
macro_rules! highest {
    ($number:literal) => {
        pub const HIGHEST: u32 = $number;
        pub const RANGE: &str = concat!("1 to ", $number);
    };
}

/// Why a call was refused: the paper's numbers.
#[allow(missing_docs)] // the names say it, and the header says more
pub mod refused {
    pub const TOO_SHORT: u32 = 1;
    pub const OLD_FORM: u32 = 2;
    pub const UNKNOWN_VERSION: u32 = 3;
    pub const BAD_BOOTSTRAP: u32 = 4;
    pub const CUT_SHORT: u32 = 5;
    pub const BAD_ENTRY: u32 = 6;
    pub const ENTRY_ABOVE_USED: u32 = 7;
    pub const SHARED_RECORD: u32 = 8;
    pub const NO_SUCH_SLOT: u32 = 9;
    pub const EMPTY_SLOT: u32 = 10;
    pub const BAD_SCAN: u32 = 11;
    pub const NO_EMPTY_SLOT: u32 = 12;
    pub const NO_ROOM: u32 = 13;
    pub const JOB_DISAGREES: u32 = 14;
    pub const NOT_CONFIRMED: u32 = 15;
    pub const BAD_SIZES: u32 = 16;
    pub const ANSWER_TOO_LONG: u32 = 17;
    pub const NOT_VERSION_ONE: u32 = 18;
    pub const NOT_CONVERTIBLE: u32 = 19;
    pub const NOT_ALL_CAME: u32 = 20;
    highest!(20);
}

/// What a step did.
pub mod done {
    /// It wrote a record.
    pub const WROTE: u64 = 0;
    /// It confirmed a save or a keep.
    pub const SAVED: u64 = 1;
    /// It confirmed a clear.
    pub const CLEARED: u64 = 2;
}

/// Which form a file has.
pub mod version {
    /// From before 1993; such a file is looked at and not changed.
    pub const OLD: u64 = 0;
    /// Today's.
    pub const CURRENT: u64 = 1;
}

/// What an entry's mode says.
pub mod kind {
    /// Neither of the two.
    pub const OTHER: u16 = 0;
    /// Mode 256 to 304.
    pub const CONTINUUM: u16 = 1;
    /// Mode 512 to 560.
    pub const SPECTRAL_LINE: u16 = 2;
}
