//! What a save puts into the index beside the scan's records: the entry's bytes 8 to 61, field by field.

use crate::real::{Real4, Real8};

/// The entry's bytes 8 to 61 by field, as the current form has them ([`Entry::about`](crate::Entry::about) gives an old
/// entry's too). Every bit of the 54 bytes belongs to a field, so nothing is lost either way.
///
/// ```
/// # use sdd::About;
/// let about = About { mode: 513, scan: 7.0.into(), ..About::spectral_line(0.025, 1420.4) }.named("ORION A")?;
/// assert_eq!(About::of(&about.bytes()), about);
/// # Ok::<(), sdd::NameTooLong>(())
/// ```
#[derive(Clone, Copy, Debug, Default, PartialEq, Eq)]
pub struct About {
    /// Horizontal coordinate, degrees.
    pub horizontal: Real4,
    /// Vertical coordinate, degrees.
    pub vertical: Real4,
    /// Source name: 16 bytes, by custom with blanks at the end ([`About::named`] puts them there).
    pub source: [u8; 16],
    /// Scan number.
    pub scan: Real4,
    /// Frequency resolution in MHz (spectral line) or slew rate in degrees a second (continuum).
    pub field4: Real4,
    /// Rest frequency in MHz (spectral line) or integration time per point (continuum).
    pub field8: Real8,
    /// LST in hours.
    pub lst: Real4,
    /// UT date as YYYY.MMDD.
    pub date: Real4,
    /// Observing mode: 256 to 304 continuum, 512 to 560 spectral line.
    pub mode: i16,
    /// Record x 64 + phase; -1 in files that hold no individual records.
    pub number: i16,
    /// Position code.
    pub position: i16,
}

/// A source name has 16 bytes at most.
#[derive(Clone, Copy, Debug, PartialEq, Eq)]
pub struct NameTooLong {
    /// How many it had.
    pub bytes: usize,
}

impl About {
    /// The entry of a spectral line, mode 512 (no type code), all else zeros.
    pub fn spectral_line(resolution: f32, rest_frequency: f64) -> About {
        About { field4: resolution.into(), field8: rest_frequency.into(), mode: 512, ..About::default() }
    }

    /// The entry of a continuum scan, mode 256 (no type code), all else zeros.
    pub fn continuum(slew_rate: f32, integration_time: f64) -> About {
        About { field4: slew_rate.into(), field8: integration_time.into(), mode: 256, ..About::default() }
    }

    /// The same with this source name, blanks after it.
    pub fn named(self, name: impl AsRef<[u8]>) -> Result<About, NameTooLong> {
        let name = name.as_ref();
        let mut source = [b' '; 16];
        source.get_mut(..name.len()).ok_or(NameTooLong { bytes: name.len() })?.copy_from_slice(name);
        Ok(About { source, ..self })
    }

    /// The 54 bytes, as they stand in the file.
    pub fn bytes(&self) -> [u8; 54] {
        let mut bytes = [0; 54];
        let mut put = |at: usize, field: &[u8]| bytes[at..at + field.len()].copy_from_slice(field);
        put(0, &self.horizontal.bits().to_be_bytes());
        put(4, &self.vertical.bits().to_be_bytes());
        put(8, &self.source);
        put(24, &self.scan.bits().to_be_bytes());
        put(28, &self.field4.bits().to_be_bytes());
        put(32, &self.field8.bits().to_be_bytes());
        put(40, &self.lst.bits().to_be_bytes());
        put(44, &self.date.bits().to_be_bytes());
        put(48, &self.mode.to_be_bytes());
        put(50, &self.number.to_be_bytes());
        put(52, &self.position.to_be_bytes());
        bytes
    }

    /// The fields of 54 bytes.
    pub fn of(bytes: &[u8; 54]) -> About {
        let real4 = |at| Real4::from_bits(u32::from_be_bytes(part(bytes, at)));
        About {
            horizontal: real4(0),
            vertical: real4(4),
            source: part(bytes, 8),
            scan: real4(24),
            field4: real4(28),
            field8: Real8::from_bits(u64::from_be_bytes(part(bytes, 32))),
            lst: real4(40),
            date: real4(44),
            mode: i16::from_be_bytes(part(bytes, 48)),
            number: i16::from_be_bytes(part(bytes, 50)),
            position: i16::from_be_bytes(part(bytes, 52)),
        }
    }
}

/// Some bytes of the 54.
fn part<const LEN: usize>(bytes: &[u8; 54], at: usize) -> [u8; LEN] {
    std::array::from_fn(|i| bytes[at + i])
}

impl std::fmt::Display for NameTooLong {
    fn fmt(&self, f: &mut std::fmt::Formatter) -> std::fmt::Result {
        write!(f, "a source name has at most 16 bytes, and this one has {}", self.bytes)
    }
}

impl std::error::Error for NameTooLong {}
