//! An index entry.

use crate::about::About;
use crate::real::{Real4, Real8};
use face::kind;

/// What the mode says the two measured fields are.
#[derive(Clone, Copy, Debug, PartialEq, Eq)]
pub enum Kind {
    /// Mode 512 to 560.
    SpectralLine {
        /// Frequency resolution.
        resolution: Real4,
        /// Rest frequency in MHz.
        rest_frequency: Real8,
    },
    /// Mode 256 to 304.
    Continuum {
        /// Slew rate.
        slew_rate: Real4,
        /// Integration time.
        integration_time: Real8,
    },
    /// Any other mode gives the two fields unnamed.
    Other {
        /// Bytes 36 to 39.
        single: Real4,
        /// Bytes 40 to 47.
        double: Real8,
    },
}

impl Kind {
    /// The two fields as they stand in the file, whatever they are called.
    fn fields(self) -> (Real4, Real8) {
        match self {
            Kind::SpectralLine { resolution, rest_frequency } => (resolution, rest_frequency),
            Kind::Continuum { slew_rate, integration_time } => (slew_rate, integration_time),
            Kind::Other { single, double } => (single, double),
        }
    }
}

/// The index entry of a slot that has a scan.
#[derive(Clone, Copy, Debug, PartialEq, Eq)]
pub struct Entry {
    /// First record of the scan.
    pub first: u32,
    /// Last record of the scan.
    pub last: u32,
    /// Horizontal coordinate.
    pub horizontal: Real4,
    /// Vertical coordinate.
    pub vertical: Real4,
    /// Source name, as it stands in the file.
    pub source: [u8; 16],
    /// Scan number.
    pub scan: Real4,
    /// What the scan measures, by its mode.
    pub kind: Kind,
    /// LST.
    pub lst: Real4,
    /// UT date.
    pub date: Real4,
    /// Observing mode.
    pub mode: i16,
    /// Record x 64 + phase.
    pub number: i16,
    /// Position code.
    pub position: i16,
    /// What an old file says of the scan's own form: 1 IEEE KEEP, 2 SDD version 1, which alone is read. 0 in a file of the
    /// current form, which says nothing ([`Sizes::form`](crate::Sizes::form) tells the two apart).
    pub magic: i16,
}

impl Entry {
    /// What the entry says beside its records: lend it to a save, and the scan is kept under the same entry. Of an old
    /// file's entry too, whose position code stands elsewhere; its magic number has no place in the current form.
    pub fn about(&self) -> About {
        let (field4, field8) = self.kind.fields();
        About {
            horizontal: self.horizontal,
            vertical: self.vertical,
            source: self.source,
            scan: self.scan,
            field4,
            field8,
            lst: self.lst,
            date: self.date,
            mode: self.mode,
            number: self.number,
            position: self.position,
        }
    }

    pub(crate) fn of(entry: face::Entry) -> Entry {
        let (single, double) = (Real4::from_bits(entry.field4), Real8::from_bits(entry.field8));
        Entry {
            first: entry.first,
            last: entry.last,
            horizontal: Real4::from_bits(entry.horizontal),
            vertical: Real4::from_bits(entry.vertical),
            source: entry.source,
            scan: Real4::from_bits(entry.scan),
            kind: match entry.kind {
                kind::SPECTRAL_LINE => Kind::SpectralLine { resolution: single, rest_frequency: double },
                kind::CONTINUUM => Kind::Continuum { slew_rate: single, integration_time: double },
                _ => Kind::Other { single, double },
            },
            lst: Real4::from_bits(entry.lst),
            date: Real4::from_bits(entry.date),
            mode: entry.mode,
            number: entry.number,
            position: entry.position,
            magic: entry.magic,
        }
    }
}
