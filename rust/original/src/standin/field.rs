//! Stands in for the field element and the word of `miden_crypto`.

use core::fmt;

use crate::serde::{ByteReader, ByteWriter, Deserializable, DeserializationError, Serializable};

/// The order of the field: document 01's 2^64 - 2^32 + 1.
const ORDER: u64 = 18_446_744_069_414_584_321;

/// Stands in for the field element: a number under the field's order, kept as it is.
///
/// Only what the files use is here, and no arithmetic. Two elements are equal if their numbers
/// are; what the real one does with numbers at or over the order can't be had.
#[derive(Clone, Copy, Debug, PartialEq, Eq)]
pub struct Felt(pub(crate) u64);

pub const ZERO: Felt = Felt(0);

impl Felt {
    /// Stands in for the constructor that does not test its number.
    #[inline]
    pub const fn new_unchecked(value: u64) -> Self {
        Self(value)
    }

    /// Stands in for the constructor from 32 bits.
    #[inline]
    pub const fn from_u32(value: u32) -> Self {
        Self(value as u64)
    }

    /// Stands in for the accessor of the number.
    #[inline]
    pub const fn as_canonical_u64(&self) -> u64 {
        self.0
    }
}

impl fmt::Display for Felt {
    fn fmt(&self, f: &mut fmt::Formatter<'_>) -> fmt::Result {
        self.0.fmt(f)
    }
}

/// Eight bytes, little-endian (document 01, block bytes, item 2).
impl Serializable for Felt {
    #[inline]
    fn write_into<W: ByteWriter>(&self, target: &mut W) {
        target.write_bytes(&self.0.to_le_bytes());
    }

    fn get_size_hint(&self) -> usize {
        8
    }
}

/// Eight bytes, little-endian; a number at or over the order is refused (M-101, 17).
impl Deserializable for Felt {
    #[inline]
    fn read_from<R: ByteReader>(source: &mut R) -> Result<Self, DeserializationError> {
        let value = u64::from_le_bytes(source.read_array()?);
        if value >= ORDER {
            return Err(DeserializationError::NotInField);
        }
        Ok(Self(value))
    }
}

/// Stands in for the word of four elements (a block's digest).
#[derive(Clone, Copy, Debug, PartialEq, Eq)]
pub struct Word([Felt; 4]);

impl Word {
    pub(crate) const ZERO: Self = Self([ZERO; 4]);

    /// Stands in for the accessor of the elements.
    pub fn as_elements(&self) -> &[Felt] {
        &self.0
    }
}
