//! Stands in for `miden_serde_utils`: the traits and readers that the files name, with what they
//! use of them and no more.
//!
//! The real text can't be had. Where the bytes are concerned, document 01 decides (the form of a
//! count, little-endian numbers, the order of refusals); where only speed is, plain Rust.

/// Stands in for the error of all reading. `InvalidValue` and `UnexpectedEOF` are names of the
/// original; the other two are the stand-in's own refusals, kept apart from the original's.
#[derive(Clone, Debug, PartialEq, Eq)]
pub enum DeserializationError {
    /// The original's files say in words what is wrong.
    InvalidValue(String),
    /// The bytes end inside an item.
    UnexpectedEOF,
    /// Stand-in: the form of a count is not one that document 01 takes.
    CountForm,
    /// Stand-in: a value is not under the order of the field.
    NotInField,
}

// WRITING
// ================================================================================================

/// Stands in for the target of writing.
pub trait ByteWriter {
    fn write_u8(&mut self, value: u8);

    fn write_bytes(&mut self, values: &[u8]);

    /// A count, as document 01 has it: t trailing zeros in the first byte, t + 1 bytes,
    /// little-endian, the number above a one and the zeros; the shortest form. (Over three bytes
    /// document 01 says nothing; the same rule goes on to eight.)
    fn write_usize(&mut self, value: usize) {
        let length = count_length(value);
        let word = ((value as u64) << length) | (1 << (length - 1));
        self.write_bytes(&word.to_le_bytes()[..length]);
    }
}

impl ByteWriter for Vec<u8> {
    #[inline]
    fn write_u8(&mut self, value: u8) {
        self.push(value);
    }

    #[inline]
    fn write_bytes(&mut self, values: &[u8]) {
        self.extend_from_slice(values);
    }
}

/// The bytes of a count in its shortest form: seven bits of the number to a byte.
fn count_length(value: usize) -> usize {
    let bits = (usize::BITS - value.leading_zeros()).max(1);
    let length = bits.div_ceil(7) as usize;
    assert!(length <= 8, "the stand-in writes counts under 2^56");
    length
}

/// Stands in for the trait of what can be written.
pub trait Serializable {
    fn write_into<W: ByteWriter>(&self, target: &mut W);

    /// The length in bytes, where it is asked for: of counts, values and elements.
    fn get_size_hint(&self) -> usize {
        0
    }
}

impl Serializable for u8 {
    #[inline]
    fn write_into<W: ByteWriter>(&self, target: &mut W) {
        target.write_u8(*self);
    }
}

impl Serializable for u32 {
    #[inline]
    fn write_into<W: ByteWriter>(&self, target: &mut W) {
        target.write_bytes(&self.to_le_bytes());
    }
}

impl Serializable for u64 {
    #[inline]
    fn write_into<W: ByteWriter>(&self, target: &mut W) {
        target.write_bytes(&self.to_le_bytes());
    }

    fn get_size_hint(&self) -> usize {
        8
    }
}

/// A `usize` is written as a count.
impl Serializable for usize {
    fn write_into<W: ByteWriter>(&self, target: &mut W) {
        target.write_usize(*self);
    }

    fn get_size_hint(&self) -> usize {
        count_length(*self)
    }
}

impl<const N: usize> Serializable for [u8; N] {
    #[inline]
    fn write_into<W: ByteWriter>(&self, target: &mut W) {
        target.write_bytes(self);
    }
}

/// A list is its count, then its items.
impl<T: Serializable> Serializable for Vec<T> {
    fn write_into<W: ByteWriter>(&self, target: &mut W) {
        target.write_usize(self.len());
        for item in self {
            item.write_into(target);
        }
    }
}

// READING
// ================================================================================================

/// Stands in for the source of reading.
pub trait ByteReader: Sized {
    fn read_u8(&mut self) -> Result<u8, DeserializationError>;

    fn read_array<const N: usize>(&mut self) -> Result<[u8; N], DeserializationError>;

    /// How many items of a size the reader can still give; without bound if it does not know.
    fn max_alloc(&self, _element_size: usize) -> usize {
        usize::MAX
    }

    /// A count, as document 01 has it: only one, two or three bytes and the shortest form are
    /// taken, and the length is looked at before the other bytes.
    fn read_usize(&mut self) -> Result<usize, DeserializationError> {
        let first = self.read_u8()?;
        let zeros = first.trailing_zeros();
        if zeros > 2 {
            return Err(DeserializationError::CountForm);
        }
        let mut word = usize::from(first);
        for place in 1..=zeros {
            word |= usize::from(self.read_u8()?) << (8 * place);
        }
        let count = word >> (zeros + 1);
        if zeros > 0 && count >> (7 * zeros) == 0 {
            return Err(DeserializationError::CountForm);
        }
        Ok(count)
    }

    #[inline]
    fn read<D: Deserializable>(&mut self) -> Result<D, DeserializationError> {
        D::read_from(self)
    }
}

/// Stands in for the reader over lent bytes.
pub struct SliceReader<'a> {
    source: &'a [u8],
    at: usize,
}

impl<'a> SliceReader<'a> {
    pub fn new(source: &'a [u8]) -> Self {
        Self { source, at: 0 }
    }

    /// The bytes read so far (used to find out which operations carry a value).
    pub(crate) fn used(&self) -> usize {
        self.at
    }
}

impl ByteReader for SliceReader<'_> {
    #[inline]
    fn read_u8(&mut self) -> Result<u8, DeserializationError> {
        let byte = *self
            .source
            .get(self.at)
            .ok_or(DeserializationError::UnexpectedEOF)?;
        self.at += 1;
        Ok(byte)
    }

    #[inline]
    fn read_array<const N: usize>(&mut self) -> Result<[u8; N], DeserializationError> {
        let bytes = self
            .source
            .get(self.at..)
            .and_then(|rest| rest.first_chunk::<N>())
            .ok_or(DeserializationError::UnexpectedEOF)?;
        self.at += N;
        Ok(*bytes)
    }
}

/// Stands in for the reader with a budget of bytes: what goes over it is an end of the bytes, and
/// it answers how many items of a size the budget still holds, rounded down (document 01, 5).
pub struct BudgetedReader<R> {
    inner: R,
    left: usize,
}

impl<R: ByteReader> BudgetedReader<R> {
    pub fn new(inner: R, budget: usize) -> Self {
        Self {
            inner,
            left: budget,
        }
    }

    #[inline]
    fn spend(&mut self, bytes: usize) -> Result<(), DeserializationError> {
        self.left = self
            .left
            .checked_sub(bytes)
            .ok_or(DeserializationError::UnexpectedEOF)?;
        Ok(())
    }
}

impl<R: ByteReader> ByteReader for BudgetedReader<R> {
    #[inline]
    fn read_u8(&mut self) -> Result<u8, DeserializationError> {
        self.spend(1)?;
        self.inner.read_u8()
    }

    #[inline]
    fn read_array<const N: usize>(&mut self) -> Result<[u8; N], DeserializationError> {
        self.spend(N)?;
        self.inner.read_array()
    }

    fn max_alloc(&self, element_size: usize) -> usize {
        self.left.checked_div(element_size).unwrap_or(usize::MAX)
    }
}

/// Stands in for the trait of what can be read.
pub trait Deserializable: Sized {
    fn read_from<R: ByteReader>(source: &mut R) -> Result<Self, DeserializationError>;

    /// The least length in bytes, where it is asked for: of an item of a list.
    fn min_serialized_size() -> usize {
        1
    }
}

impl Deserializable for u8 {
    #[inline]
    fn read_from<R: ByteReader>(source: &mut R) -> Result<Self, DeserializationError> {
        source.read_u8()
    }
}

impl Deserializable for u32 {
    #[inline]
    fn read_from<R: ByteReader>(source: &mut R) -> Result<Self, DeserializationError> {
        Ok(u32::from_le_bytes(source.read_array()?))
    }
}

impl<const N: usize> Deserializable for [u8; N] {
    #[inline]
    fn read_from<R: ByteReader>(source: &mut R) -> Result<Self, DeserializationError> {
        source.read_array()
    }
}

/// A list is its count, then its items in order (document 01's order: no item is refused before
/// its turn). The room is asked for at once, as far as the bytes left can fill it.
impl<T: Deserializable> Deserializable for Vec<T> {
    fn read_from<R: ByteReader>(source: &mut R) -> Result<Self, DeserializationError> {
        let count = source.read_usize()?;
        let mut items = Vec::with_capacity(count.min(source.max_alloc(T::min_serialized_size())));
        for _ in 0..count {
            items.push(T::read_from(source)?);
        }
        Ok(items)
    }
}
