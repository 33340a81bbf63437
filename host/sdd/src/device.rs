//! What a job needs of the place where a file lies.

/// A file on a device. [`drive`](crate::drive) runs jobs on it; `host/rinzo` has one over a file of the system.
///
/// Saved and Cleared are worth what these functions are worth: a flush that returns early, or a `read_back` that
/// answers from memory, makes them an answer about memory.
pub trait Device {
    /// What can go wrong with it.
    type Error;

    /// The file's length in bytes, as it is now.
    fn length(&mut self) -> Result<u64, Self::Error>;

    /// Fills `into` with the file's bytes from byte `at` on. They may come from a cache.
    fn read(&mut self, at: u64, into: &mut [u8]) -> Result<(), Self::Error>;

    /// Writes one record, whole, from byte `at` on. A write that takes less is an error and is not continued:
    /// half a record is no record.
    fn write(&mut self, at: u64, record: &[u8]) -> Result<(), Self::Error>;

    /// Returns once everything written survives a power cut.
    fn flush(&mut self) -> Result<(), Self::Error>;

    /// Fills `into` as `read` does, with what the device itself holds: past every cache.
    fn read_back(&mut self, at: u64, into: &mut [u8]) -> Result<(), Self::Error>;
}
