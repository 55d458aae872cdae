//! How two blocks differ: typed differences, and refusals that say whose they are.

use core::{error, fmt, iter::FusedIterator, slice};

use crate::Refusal;

/// The numbers of one entry of a report: its kind, the batch, the place, the difference.
pub const ENTRY: usize = 4;

/// The most entries that a report has: no two blocks have more differences.
///
/// A batch that both have makes five entries at most, one that only one has makes one, and the four
/// totals make one each; but with 16,384 batches in both their number does not differ.
///
/// ```
/// use oliastrofu::{ENTRY, LONGEST_REPORT};
/// assert_eq!(LONGEST_REPORT, 5 * 16_384 + 3);
/// // Room for every report there can be.
/// let report = vec![0; LONGEST_REPORT * ENTRY];
/// # let _: Vec<i32> = report;
/// ```
pub const LONGEST_REPORT: usize = 81_923;

/// Where a block is read: under which table, in which bytes, and from which of them on.
#[derive(Clone, Copy, Debug, PartialEq, Eq)]
pub struct Source<'a> {
    pub table: &'a [u8],
    pub bytes: &'a [u8],
    pub at: usize,
}

/// One of two blocks that are compared.
#[derive(Clone, Copy, Debug, PartialEq, Eq, PartialOrd, Ord, Hash)]
pub enum Side {
    First,
    Second,
}

impl fmt::Display for Side {
    fn fmt(&self, f: &mut fmt::Formatter<'_>) -> fmt::Result {
        f.write_str(match self {
            Self::First => "the first block",
            Self::Second => "the second block",
        })
    }
}

/// One difference of two blocks. Batches, groups and places count from 0; the place of an operation
/// is counted in its batch, padding included.
///
/// ```
/// use oliastrofu::{Difference, Side};
/// let words = |difference: Difference| difference.to_string();
/// let number = Difference::Number { batch: 3, group: 2 };
/// assert_eq!(words(number), "batch 3, group 2: the numbers differ");
/// let missing = Difference::Missing { batch: 1, side: Side::Second };
/// assert_eq!(words(missing), "batch 1: missing in the second block");
/// let raw = Difference::Raw(-2);
/// assert_eq!(words(raw), "operations without paddings: -2 (second minus first)");
/// ```
#[derive(Clone, Copy, Debug, PartialEq, Eq, Hash)]
pub enum Difference {
    /// The first group of the batch whose number differs.
    Number { batch: usize, group: usize },
    /// The first group of the batch whose flag differs, also at or above the group count.
    Flag { batch: usize, group: usize },
    /// The first group of the batch whose length differs.
    Length { batch: usize, group: usize },
    /// The first operation of the batch, at a place both have, whose opcode or value differs.
    Operation { batch: usize, place: usize },
    /// The group count of the batch differs.
    Count { batch: usize },
    /// This side has no such batch; the other has.
    Missing { batch: usize, side: Side },
    /// How many batches the second block has more; negative if it has fewer, and never 0 in a report.
    Batches(i32),
    /// The same for its operations, padding included.
    Padded(i32),
    /// The same for its operations without padding.
    Raw(i32),
    /// The same for its paddings: flags under the group count.
    Paddings(i32),
    /// An entry that stands for nothing. No report has one.
    Other([i32; ENTRY]),
}

impl Difference {
    /// What an entry of a report says.
    ///
    /// ```
    /// use oliastrofu::{Difference, Side};
    /// let said = Difference::of_entry;
    /// assert_eq!(said([4, 7, 2, 0]), Difference::Operation { batch: 7, place: 2 });
    /// assert_eq!(said([6, 7, 1, 0]), Difference::Missing { batch: 7, side: Side::First });
    /// assert_eq!(said([8, 0, 0, -1]), Difference::Padded(-1));
    /// assert_eq!(said([6, 7, 3, 0]), Difference::Other([6, 7, 3, 0]));
    /// ```
    pub fn of_entry(entry: [i32; ENTRY]) -> Self {
        Self::known(entry).unwrap_or(Self::Other(entry))
    }

    fn known([kind, batch, place, difference]: [i32; ENTRY]) -> Option<Self> {
        let batch = usize::try_from(batch).ok()?;
        let place = usize::try_from(place).ok()?;
        let missing = |side| Self::Missing { batch, side };
        match (kind, batch, place, difference) {
            (1, _, group, 0) => Some(Self::Number { batch, group }),
            (2, _, group, 0) => Some(Self::Flag { batch, group }),
            (3, _, group, 0) => Some(Self::Length { batch, group }),
            (4, _, _, 0) => Some(Self::Operation { batch, place }),
            (5, _, 0, 0) => Some(Self::Count { batch }),
            (6, _, 1, 0) => Some(missing(Side::First)),
            (6, _, 2, 0) => Some(missing(Side::Second)),
            (7, 0, 0, _) => Some(Self::Batches(difference)),
            (8, 0, 0, _) => Some(Self::Padded(difference)),
            (9, 0, 0, _) => Some(Self::Raw(difference)),
            (10, 0, 0, _) => Some(Self::Paddings(difference)),
            _ => None,
        }
    }
}

impl fmt::Display for Difference {
    fn fmt(&self, f: &mut fmt::Formatter<'_>) -> fmt::Result {
        let total = |f: &mut fmt::Formatter<'_>, what, difference| {
            write!(f, "{what}: {difference:+} (second minus first)")
        };
        match self {
            Self::Number { batch, group } => {
                write!(f, "batch {batch}, group {group}: the numbers differ")
            }
            Self::Flag { batch, group } => {
                write!(f, "batch {batch}, group {group}: the padding flags differ")
            }
            Self::Length { batch, group } => {
                write!(
                    f,
                    "batch {batch}, group {group}: the counts of operations differ"
                )
            }
            Self::Operation { batch, place } => {
                write!(
                    f,
                    "batch {batch}, its operation {place}: the operations differ"
                )
            }
            Self::Count { batch } => write!(f, "batch {batch}: the counts of groups differ"),
            Self::Missing { batch, side } => write!(f, "batch {batch}: missing in {side}"),
            Self::Batches(difference) => total(f, "batches", *difference),
            Self::Padded(difference) => total(f, "operations, paddings among them", *difference),
            Self::Raw(difference) => total(f, "operations without paddings", *difference),
            Self::Paddings(difference) => total(f, "paddings", *difference),
            Self::Other(entry) => write!(f, "an entry without a meaning: {entry:?}"),
        }
    }
}

/// The differences of a report, in its order: batch by batch, then the totals.
#[derive(Clone, Debug)]
pub struct Differences<'a>(slice::Iter<'a, [i32; ENTRY]>);

impl<'a> Differences<'a> {
    /// Those of the first so many entries.
    pub(crate) fn in_front(report: &'a [i32], entries: usize) -> Self {
        let (all, _) = report.as_chunks::<ENTRY>();
        Self(all.get(..entries).unwrap_or_default().iter())
    }
}

impl Iterator for Differences<'_> {
    type Item = Difference;

    fn next(&mut self) -> Option<Difference> {
        self.0.next().copied().map(Difference::of_entry)
    }

    fn size_hint(&self) -> (usize, Option<usize>) {
        self.0.size_hint()
    }
}

impl DoubleEndedIterator for Differences<'_> {
    fn next_back(&mut self) -> Option<Difference> {
        self.0.next_back().copied().map(Difference::of_entry)
    }
}

impl ExactSizeIterator for Differences<'_> {}
impl FusedIterator for Differences<'_> {}

/// How two blocks differ.
///
/// ```
/// use oliastrofu::{Difference, Source, VM_TABLE};
/// // One operation each, 1 and 2.
/// let one = [3, 1, 1, 0, 0, 0, 1, 0, 0, 0, 0];
/// let two = [3, 2, 1, 0, 0, 0, 1, 0, 0, 0, 0];
/// let source = |bytes| Source { table: &VM_TABLE, bytes, at: 0 };
/// let report = oliastrofu::compare(source(&one), source(&two))?;
/// assert_eq!((report.is_empty(), report.len()), (false, 2));
/// for difference in &report {
///     println!("{difference}");
/// }
/// assert_eq!(report.differences().next(), Some(Difference::Number { batch: 0, group: 0 }));
/// # Ok::<(), oliastrofu::CompareRefusal>(())
/// ```
#[derive(Clone, Debug, Default, PartialEq, Eq, Hash)]
pub struct Report(Vec<i32>);

impl Report {
    /// The numbers are those of whole entries.
    pub(crate) const fn owned(numbers: Vec<i32>) -> Self {
        Self(numbers)
    }

    /// The differences, in the report's order.
    pub fn differences(&self) -> Differences<'_> {
        Differences::in_front(&self.0, self.len())
    }

    /// How many they are.
    pub const fn len(&self) -> usize {
        self.0.len() / ENTRY
    }

    /// Nothing is reported: the blocks are the same, in every start, flag, number and count and in
    /// every operation.
    pub const fn is_empty(&self) -> bool {
        self.0.is_empty()
    }

    /// The entries as they were filled in, [`ENTRY`] numbers to each.
    pub fn numbers(&self) -> &[i32] {
        &self.0
    }
}

impl<'a> IntoIterator for &'a Report {
    type Item = Difference;
    type IntoIter = Differences<'a>;

    fn into_iter(self) -> Differences<'a> {
        self.differences()
    }
}

/// Why two blocks could not be compared.
///
/// ```
/// use oliastrofu::{Cause, Side, Source, VM_TABLE};
/// let good = Source { table: &VM_TABLE, bytes: &[1, 0, 0, 0, 0], at: 0 };
/// let past = Source { at: 6, ..good };
/// let refused = oliastrofu::compare(good, past).unwrap_err();
/// assert_eq!((refused.side, refused.refusal.cause), (Some(Side::Second), Cause::PastEnd));
/// assert_eq!(
///     refused.to_string(),
///     "the second block: refusal 1: the place to begin at is past the end of the bytes"
/// );
/// // Where both are refused, the first's is given.
/// assert_eq!(oliastrofu::compare(past, past).unwrap_err().side, Some(Side::First));
/// ```
#[derive(Clone, Copy, Debug, PartialEq, Eq, Hash)]
pub struct CompareRefusal {
    /// The block that is refused; none where the lent report is too short, which is
    /// [`Cause::Room`](crate::Cause::Room), too.
    pub side: Option<Side>,
    /// What [`decode`](crate::decode) says of that block, in its room.
    pub refusal: Refusal,
}

impl CompareRefusal {
    /// What a reply's mark, number and place say.
    pub(crate) const fn check(mark: u8, number: u8, place: usize) -> Result<(), Self> {
        let side = match mark {
            1 => Some(Side::First),
            2 => Some(Side::Second),
            _ => None,
        };
        match Refusal::check(number, place) {
            Ok(()) => Ok(()),
            Err(refusal) => Err(Self { side, refusal }),
        }
    }
}

impl fmt::Display for CompareRefusal {
    fn fmt(&self, f: &mut fmt::Formatter<'_>) -> fmt::Result {
        match self.side {
            Some(side) => write!(f, "{side}: {}", self.refusal),
            None => write!(f, "the report: {}", self.refusal),
        }
    }
}

impl error::Error for CompareRefusal {
    fn source(&self) -> Option<&(dyn error::Error + 'static)> {
        Some(&self.refusal)
    }
}
