//! The differences between the original and document 01 that are known: docs/DIFFERENCES.md, as
//! predicates. Anything else stops the run.

use model::{Arena, Batch, Function, batches_of, record_holds};

use crate::theirs::Did;

/// What is the matter with an input, where the original and document 01 part.
#[derive(Clone, Copy, Debug, PartialEq, Eq, PartialOrd, Ord)]
pub enum Fault {
    // Structure: the only clause that fails, in the only batch that fails.
    CountOver8,
    StartsNotFrom0,
    FallingStarts,
    GroupOver9,
    GroupOver9PastCount,
    OperationsPastCount,
    WrongSum,
    /// More than one clause or batch fails.
    SeveralOfStructure,
    // Padding.
    FlaggedEmptyGroup,
    FlaggedGroupWithoutNoop,
    SeveralOfPadding,
    // Limits.
    ListOverLimit,
    OperationsOverLimit,
    BatchesOverLimit,
    BytesOverLimit,
    // Lookups.
    IndexPastEnd,
    LargestGroup,
}

impl Fault {
    pub fn words(self) -> &'static str {
        match self {
            Self::CountOver8 => "a count over 8",
            Self::StartsNotFrom0 => "starts that do not begin at 0",
            Self::FallingStarts => "falling starts",
            Self::GroupOver9 => "a group over 9",
            Self::GroupOver9PastCount => "a group over 9 past the count",
            Self::OperationsPastCount => "operations past the count",
            Self::WrongSum => "operations that no start covers, or too few",
            Self::SeveralOfStructure => "several faults of structure",
            Self::FlaggedEmptyGroup => "a flagged empty group",
            Self::FlaggedGroupWithoutNoop => "a flagged group that does not end in Noop",
            Self::SeveralOfPadding => "several faults of padding",
            Self::ListOverLimit => "over 16,384 operations",
            Self::OperationsOverLimit => "over 65,535 operations",
            Self::BatchesOverLimit => "over 16,384 batches",
            Self::BytesOverLimit => "over 1,048,576 bytes",
            Self::IndexPastEnd => "an index past the last entry",
            Self::LargestGroup => "the largest g",
        }
    }
}

/// The clauses of structure that a record fails.
fn clauses(batch: &Batch) -> Vec<Fault> {
    let starts = batch.starts;
    let count = usize::from(batch.count.min(8));
    let over =
        |group: usize| starts[group + 1] > starts[group] && starts[group + 1] - starts[group] > 9;
    let mut all = Vec::new();
    if batch.count > 8 {
        all.push(Fault::CountOver8);
    }
    if starts[0] != 0 {
        all.push(Fault::StartsNotFrom0);
    }
    if (0..8).any(|i| starts[i] > starts[i + 1]) {
        all.push(Fault::FallingStarts);
    }
    if (0..count).any(over) {
        all.push(Fault::GroupOver9);
    }
    if (count..8).any(over) {
        // It also lies past the count.
        all.push(Fault::GroupOver9PastCount);
    } else if batch.count <= 8 && starts[count] != starts[8] {
        all.push(Fault::OperationsPastCount);
    }
    all
}

/// The fault of structure of a block; none if there is none.
pub fn of_structure(arena: Arena<'_>) -> Option<Fault> {
    let records = batches_of(arena.records);
    let mut all: Vec<Fault> = records
        .iter()
        .filter(|batch| !record_holds(batch))
        .flat_map(clauses)
        .collect();
    let sum: usize = records.iter().map(Batch::total).sum();
    if sum != arena.codes.len() {
        all.push(Fault::WrongSum);
    }
    match all[..] {
        [] => None,
        [one] => Some(one),
        _ => Some(Fault::SeveralOfStructure),
    }
}

/// What the original's structure check sees of one record whose operations are all there.
pub fn seen(batch: &Batch) -> bool {
    clauses(batch).iter().any(|clause| {
        matches!(
            clause,
            Fault::CountOver8 | Fault::FallingStarts | Fault::GroupOver9
        )
    })
}

/// The faults of padding in each batch; structure holds. Flags at or above the count are none.
fn paddings(batch: &Batch, codes: &[u8]) -> Vec<Fault> {
    (0..usize::from(batch.count))
        .filter(|&group| batch.flags[group] == 1)
        .filter_map(|group| {
            let (from, to) = (batch.starts[group], batch.starts[group + 1]);
            if from == to {
                Some(Fault::FlaggedEmptyGroup)
            } else if codes[usize::from(to) - 1] != 0 {
                Some(Fault::FlaggedGroupWithoutNoop)
            } else {
                None
            }
        })
        .collect()
}

/// The fault of padding of a block whose structure holds.
pub fn of_padding(arena: Arena<'_>) -> Option<Fault> {
    let mut all = Vec::new();
    let mut at = 0;
    for batch in batches_of(arena.records) {
        all.extend(paddings(&batch, &arena.codes[at..at + batch.total()]));
        at += batch.total();
    }
    match all[..] {
        [] => None,
        [one] => Some(one),
        _ => Some(Fault::SeveralOfPadding),
    }
}

/// Is it known that the original does this where document 01 refuses with this number?
///
/// The rows are those of docs/DIFFERENCES.md.
pub fn known(function: Function, fault: Fault, number: u8, did: Did) -> bool {
    use Did::{Answers, NotCalled, Panics, Refuses};
    use Fault::*;
    let structural = matches!(
        fault,
        CountOver8
            | StartsNotFrom0
            | FallingStarts
            | GroupOver9
            | GroupOver9PastCount
            | OperationsPastCount
            | WrongSum
            | SeveralOfStructure
    );
    match function {
        Function::Build => (fault, number, did) == (ListOverLimit, 3, Answers),
        Function::Encode => match fault {
            // It checks nothing and writes.
            _ if structural => (number, did) == (15, Answers),
            OperationsOverLimit | BatchesOverLimit => (number, did) == (3, Answers),
            _ => false,
        },
        // Compare reads as decode does.
        Function::Decode | Function::Compare => match fault {
            // It has no limits, and goes on to what comes later.
            OperationsOverLimit | BytesOverLimit => number == 3 && did != Panics,
            BatchesOverLimit => number == 3 && (did == Answers || matches!(did, Refuses(6..=11))),
            _ => false,
        },
        // The original has no strict decoder.
        Function::Strict => false,
        Function::Structure => match fault {
            StartsNotFrom0 | OperationsPastCount | GroupOver9PastCount => {
                (number, did) == (15, Answers)
            }
            // It accepts, or sees only a later batch.
            SeveralOfStructure => number == 15 && matches!(did, Answers | Refuses(15)),
            OperationsOverLimit | BatchesOverLimit => {
                number == 3 && matches!(did, Answers | Refuses(15))
            }
            _ => false,
        },
        Function::Padding => match fault {
            // It looks at the count and at flagged groups only, and calls what it finds padding.
            CountOver8 => (number, did) == (15, Refuses(10)),
            _ if structural => number == 15 && matches!(did, Answers | Refuses(10)),
            OperationsOverLimit | BatchesOverLimit => {
                number == 3 && matches!(did, Answers | Refuses(10))
            }
            _ => false,
        },
        Function::Commitment => match fault {
            _ if structural => {
                number == 15 && matches!(did, Answers | Panics | Refuses(8 | 9 | 16))
            }
            OperationsOverLimit | BatchesOverLimit => {
                number == 3 && matches!(did, Answers | Panics | Refuses(8 | 9 | 16))
            }
            _ => false,
        },
        Function::RawTable | Function::PaddedTable => match fault {
            CountOver8 => (number, did) == (15, Panics),
            _ if structural => number == 15 && matches!(did, Answers | Panics | NotCalled),
            FlaggedGroupWithoutNoop => (number, did) == (10, Answers),
            FlaggedEmptyGroup => (number, did) == (10, Panics),
            SeveralOfPadding => number == 10 && matches!(did, Answers | Panics),
            OperationsOverLimit | BatchesOverLimit => {
                number == 3 && matches!(did, Answers | Panics | NotCalled)
            }
            _ => false,
        },
        Function::PaddedIndex | Function::RawIndex => {
            (fault, number, did) == (IndexPastEnd, 0, Panics)
        }
        Function::Group => structural && number == 15 && matches!(did, Answers | Panics),
        Function::NextGroup => match fault {
            LargestGroup => (number, did) == (0, Answers),
            _ if structural => number == 15 && matches!(did, Answers | Panics),
            _ => false,
        },
    }
}
