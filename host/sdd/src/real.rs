//! Floats as the file has them, bit for bit.

/// A Real*4 bit for bit, not-a-numbers too.
#[derive(Clone, Copy, Debug, Default, PartialEq, Eq)]
pub struct Real4(u32);

/// A Real*8 bit for bit, not-a-numbers too.
#[derive(Clone, Copy, Debug, Default, PartialEq, Eq)]
pub struct Real8(u64);

impl Real4 {
    /// The float of these 32 bits.
    pub fn from_bits(bits: u32) -> Real4 {
        Real4(bits)
    }

    /// The 32 bits as the file has them.
    pub fn bits(self) -> u32 {
        self.0
    }

    /// The value of these bits.
    pub fn value(self) -> f32 {
        f32::from_bits(self.0)
    }
}

impl Real8 {
    /// The float of these 64 bits.
    pub fn from_bits(bits: u64) -> Real8 {
        Real8(bits)
    }

    /// The 64 bits as the file has them.
    pub fn bits(self) -> u64 {
        self.0
    }

    /// The value of these bits.
    pub fn value(self) -> f64 {
        f64::from_bits(self.0)
    }
}

impl From<f32> for Real4 {
    fn from(value: f32) -> Real4 {
        Real4(value.to_bits())
    }
}

impl From<f64> for Real8 {
    fn from(value: f64) -> Real8 {
        Real8(value.to_bits())
    }
}
