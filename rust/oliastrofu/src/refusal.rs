//! Refusals: number, place, and what they mean.

use core::{error, fmt};

/// Why a call was refused: document 01's numbers, 17 of M-101 and 18 of M-107.
///
/// ```
/// use oliastrofu::Cause;
/// assert_eq!(Cause::of_number(6), Cause::Nibble);
/// assert_eq!(Cause::Nibble.number(), 6);
/// ```
#[derive(Clone, Copy, Debug, PartialEq, Eq, Hash)]
pub enum Cause {
    /// 1: the offset or write position is past the buffer's end.
    PastEnd,
    /// 2: the bytes end inside the count, an operation or the batch count.
    BytesEnd,
    /// 3: over a limit; lists of unequal length; the count's form is wrong.
    Limit,
    /// 4: an operation's opcode is unassigned: 128 or more, or of kind 3.
    Opcode,
    /// 5: more batches than the bytes that are left can hold.
    BatchCount,
    /// 6: a nibble is over 9.
    Nibble,
    /// 7: a batch runs past the operations.
    PastOperations,
    /// 8: an immediate's slot is not under 8 or, in a check, not under the group count.
    SlotPastEnd,
    /// 9: an immediate's slot is a group of operations.
    SlotTaken,
    /// 10: the padding check fails: a flagged group under the count is empty or does not end in Noop.
    Padding,
    /// 11: operations are left over.
    LeftOver,
    /// 12: the list to batch is empty.
    EmptyList,
    /// 13: a lent output is smaller than the result needs.
    Room,
    /// 14: the table is not 128 bytes or not good.
    Table,
    /// 15: the structure check fails.
    Structure,
    /// 16: the commitment check fails: a group number, an immediate or an empty group's 0 differs.
    Commitment,
    /// 17: an operation's opcode is assigned, and its value is not below the field's size, or not 0
    /// where its kind has none.
    Value,
    /// 18: read strictly, the block is not one that batching makes: batching its own operations, its
    /// padding left out, makes another; or they are none, or over 16,384.
    Unfinished,
    /// A number that stands for nothing.
    Other(u8),
}

impl Cause {
    /// The cause that a number names.
    pub const fn of_number(number: u8) -> Self {
        match number {
            1 => Self::PastEnd,
            2 => Self::BytesEnd,
            3 => Self::Limit,
            4 => Self::Opcode,
            5 => Self::BatchCount,
            6 => Self::Nibble,
            7 => Self::PastOperations,
            8 => Self::SlotPastEnd,
            9 => Self::SlotTaken,
            10 => Self::Padding,
            11 => Self::LeftOver,
            12 => Self::EmptyList,
            13 => Self::Room,
            14 => Self::Table,
            15 => Self::Structure,
            16 => Self::Commitment,
            17 => Self::Value,
            18 => Self::Unfinished,
            other => Self::Other(other),
        }
    }

    /// The number.
    pub const fn number(self) -> u8 {
        match self {
            Self::PastEnd => 1,
            Self::BytesEnd => 2,
            Self::Limit => 3,
            Self::Opcode => 4,
            Self::BatchCount => 5,
            Self::Nibble => 6,
            Self::PastOperations => 7,
            Self::SlotPastEnd => 8,
            Self::SlotTaken => 9,
            Self::Padding => 10,
            Self::LeftOver => 11,
            Self::EmptyList => 12,
            Self::Room => 13,
            Self::Table => 14,
            Self::Structure => 15,
            Self::Commitment => 16,
            Self::Value => 17,
            Self::Unfinished => 18,
            Self::Other(number) => number,
        }
    }

    /// The one place of these sentences in Rust. The programs print the same (crates/refusal).
    const fn words(self) -> &'static str {
        match self {
            Self::PastEnd => "the place to begin at is past the end of the bytes",
            Self::BytesEnd => "the bytes end inside the count, an operation or the batch count",
            Self::Limit => "a count has a wrong form or is over a limit, or lengths do not match",
            Self::Opcode => "an operation's opcode is unassigned: 128 or more, or of kind 3",
            Self::BatchCount => "more batches than the bytes that are left can hold",
            Self::Nibble => "a group's length is over 9",
            Self::PastOperations => "a batch runs past the operations",
            Self::SlotPastEnd => "an immediate's slot is past the groups",
            Self::SlotTaken => "an immediate's slot is a group of operations",
            Self::Padding => "a padding flag stands where no padding is",
            Self::LeftOver => "operations are left over after the last batch",
            Self::EmptyList => "the list to batch is empty",
            Self::Room => "a lent output is smaller than the result needs",
            Self::Table => "the table is not 128 bytes or not good",
            Self::Structure => "the batches' structure does not hold",
            Self::Commitment => "a group number, an immediate or an empty group's 0 differs",
            Self::Value => {
                "an operation's value is not below the field's size, or not 0 where its kind has none"
            }
            Self::Unfinished => {
                "the block is not finished: batching its own operations does not make it"
            }
            Self::Other(_) => "a number without a meaning",
        }
    }
}

/// A refusal: why, and where.
///
/// ```
/// use oliastrofu::{Cause, Refusal};
/// let refusal = Refusal { cause: Cause::Nibble, place: 2 };
/// assert_eq!(refusal.number(), 6);
/// assert_eq!(refusal.to_string(), "refusal 6: a group's length is over 9, in batch 2");
/// ```
///
/// A block that can be read, and is not one that batching makes, is refused only by strict reading:
///
/// ```
/// use oliastrofu::{VM_TABLE, decode, decode_strict};
/// // One operation, and a batch without any after its own.
/// let bytes = [3, 1, 2, 0, 0, 0, 1, 0, 0, 0, 0, 0, 0, 0, 0, 0];
/// assert!(decode(&VM_TABLE, &bytes, 0).is_ok());
/// let refusal = decode_strict(&VM_TABLE, &bytes, 0).unwrap_err();
/// assert_eq!(
///     refusal.to_string(),
///     "refusal 18: the block is not finished: batching its own operations does not make it, in \
///      batch 1"
/// );
/// ```
///
/// An opcode and a value at fault are two causes:
///
/// ```
/// use oliastrofu::{Cause, VM_TABLE, build};
/// let cause = |code, value| build(&VM_TABLE, &[code], &[value]).unwrap_err().cause;
/// assert_eq!(cause(200, 0), Cause::Opcode);
/// assert_eq!(cause(91, u64::MAX), Cause::Value);
/// // In one operation the opcode is looked at first.
/// assert_eq!(cause(200, u64::MAX), Cause::Opcode);
/// ```
#[derive(Clone, Copy, Debug, PartialEq, Eq, Hash)]
pub struct Refusal {
    pub cause: Cause,
    /// Counted from 0, the first at fault: a byte of the buffer for 2, an operation for 4 and 17, a
    /// batch for 6 to 10, 15, 16 and 18, otherwise 0. For 15 it is the number of batches if only
    /// their sum is wrong; for 18 it is 0, too, if the block has no operations of its own, or over
    /// 16,384 of them.
    pub place: usize,
}

impl Refusal {
    /// The cause's number.
    pub const fn number(&self) -> u8 {
        self.cause.number()
    }

    /// What a reply's number and place say.
    pub(crate) const fn check(number: u8, place: usize) -> Result<(), Self> {
        if number == 0 {
            return Ok(());
        }
        Err(Self {
            cause: Cause::of_number(number),
            place,
        })
    }
}

impl fmt::Display for Refusal {
    fn fmt(&self, f: &mut fmt::Formatter<'_>) -> fmt::Result {
        write!(f, "refusal {}: {}", self.number(), self.cause.words())?;
        let place = self.place;
        match self.cause {
            Cause::BytesEnd => write!(f, ", in the item that starts at byte {place} of the buffer"),
            Cause::Opcode | Cause::Value => write!(f, ", operation {place}"),
            Cause::Nibble
            | Cause::PastOperations
            | Cause::SlotPastEnd
            | Cause::SlotTaken
            | Cause::Padding
            | Cause::Commitment => write!(f, ", in batch {place}"),
            Cause::Structure => write!(
                f,
                ", in batch {place} (or, if there are {place} batches, in how many operations they \
                 cover)"
            ),
            Cause::Unfinished if place == 0 => {
                write!(
                    f,
                    ", in batch 0 (or these operations are none, or over 16,384)"
                )
            }
            Cause::Unfinished => write!(f, ", in batch {place}"),
            _ => Ok(()),
        }
    }
}

impl error::Error for Refusal {}
