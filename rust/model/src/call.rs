//! A call with all that it is lent, and an answer with all that it gives back.

use crate::data::Refusal;

/// The operations and records of a block, as they are lent.
#[derive(Clone, Copy, Debug, PartialEq, Eq)]
pub struct Arena<'a> {
    pub codes: &'a [u8],
    pub values: &'a [u64],
    pub records: &'a [u8],
}

/// The lengths of the runs that build and decode fill: opcodes, values, bytes of records.
#[derive(Clone, Copy, Debug, PartialEq, Eq)]
pub struct Room {
    pub codes: usize,
    pub values: usize,
    pub records: usize,
}

/// Where compare reads a block, and its working room.
#[derive(Clone, Copy, Debug, PartialEq, Eq)]
pub struct Source<'a> {
    pub table: &'a [u8],
    pub bytes: &'a [u8],
    pub at: usize,
    pub room: Room,
}

#[derive(Clone, Copy, Debug)]
pub enum Call<'a> {
    Build {
        table: &'a [u8],
        codes: &'a [u8],
        values: &'a [u64],
        room: Room,
    },
    Encode {
        table: &'a [u8],
        arena: Arena<'a>,
        buffer: &'a [u8],
        at: usize,
    },
    Decode {
        table: &'a [u8],
        bytes: &'a [u8],
        at: usize,
        room: Room,
    },
    Structure {
        arena: Arena<'a>,
    },
    Padding {
        arena: Arena<'a>,
    },
    Commitment {
        table: &'a [u8],
        arena: Arena<'a>,
    },
    RawTable {
        arena: Arena<'a>,
        room: usize,
    },
    PaddedTable {
        arena: Arena<'a>,
        room: usize,
    },
    PaddedIndex {
        table: &'a [u64],
        raw: usize,
    },
    RawIndex {
        table: &'a [u64],
        padded: usize,
    },
    Group {
        record: &'a [u8],
        index: usize,
    },
    NextGroup {
        record: &'a [u8],
        group: usize,
    },
    /// Decode, strictly (M-107).
    Strict {
        table: &'a [u8],
        bytes: &'a [u8],
        at: usize,
        room: Room,
    },
    /// Compare (M-105); the report is lent as so many numbers.
    Compare {
        first: Source<'a>,
        second: Source<'a>,
        report: usize,
    },
}

#[derive(Clone, Copy, Debug, PartialEq, Eq, PartialOrd, Ord)]
pub enum Function {
    Build,
    Encode,
    Decode,
    Structure,
    Padding,
    Commitment,
    RawTable,
    PaddedTable,
    PaddedIndex,
    RawIndex,
    Group,
    NextGroup,
    Strict,
    Compare,
}

impl Function {
    pub const ALL: [Self; 14] = [
        Self::Build,
        Self::Encode,
        Self::Decode,
        Self::Structure,
        Self::Padding,
        Self::Commitment,
        Self::RawTable,
        Self::PaddedTable,
        Self::PaddedIndex,
        Self::RawIndex,
        Self::Group,
        Self::NextGroup,
        Self::Strict,
        Self::Compare,
    ];

    pub fn name(self) -> &'static str {
        match self {
            Self::Build => "build",
            Self::Encode => "encode",
            Self::Decode => "decode",
            Self::Structure => "structure",
            Self::Padding => "padding",
            Self::Commitment => "commitment",
            Self::RawTable => "raw table",
            Self::PaddedTable => "padded table",
            Self::PaddedIndex => "padded index",
            Self::RawIndex => "raw index",
            Self::Group => "group",
            Self::NextGroup => "next group",
            Self::Strict => "decode strict",
            Self::Compare => "compare",
        }
    }
}

impl Call<'_> {
    pub fn function(&self) -> Function {
        match self {
            Self::Build { .. } => Function::Build,
            Self::Encode { .. } => Function::Encode,
            Self::Decode { .. } => Function::Decode,
            Self::Structure { .. } => Function::Structure,
            Self::Padding { .. } => Function::Padding,
            Self::Commitment { .. } => Function::Commitment,
            Self::RawTable { .. } => Function::RawTable,
            Self::PaddedTable { .. } => Function::PaddedTable,
            Self::PaddedIndex { .. } => Function::PaddedIndex,
            Self::RawIndex { .. } => Function::RawIndex,
            Self::Group { .. } => Function::Group,
            Self::NextGroup { .. } => Function::NextGroup,
            Self::Strict { .. } => Function::Strict,
            Self::Compare { .. } => Function::Compare,
        }
    }
}

/// The whole answer of a call. What a function does not give is empty or 0.
#[derive(Clone, Debug, Default, PartialEq, Eq)]
pub struct Answer {
    /// The number of refusal, 0 if there is none.
    pub number: u8,
    pub place: usize,
    /// Compare: whose refusal it is, 1 the first block's, 2 the second's, 0 of neither.
    pub mark: u8,
    /// The other numbers of the reply in its order: build has batches and operations; encode the
    /// length; decode, strict or not, batches, operations and bytes used; tables their entries; index lookups
    /// found (0 or 1) and index; group found, group and position; next group found and group; compare
    /// the report's entries.
    pub rest: [usize; 3],
    /// Build and decode: the three outputs in their lent lengths. Compare: its working room, each
    /// run of the first block with that of the second after it.
    pub codes: Vec<u8>,
    pub values: Vec<u64>,
    pub records: Vec<u8>,
    /// Encode: the whole buffer.
    pub buffer: Vec<u8>,
    /// Tables: the output in its lent length.
    pub entries: Vec<u64>,
    /// Compare: the report in its lent length, four numbers to an entry.
    pub report: Vec<i32>,
}

impl Answer {
    pub(crate) fn refused(refusal: Refusal) -> Self {
        Self {
            number: refusal.number,
            place: refusal.place,
            ..Self::default()
        }
    }
}

/// The model's answer.
pub fn answer(call: Call<'_>) -> Answer {
    match call {
        Call::Build {
            table,
            codes,
            values,
            room,
        } => crate::build(table, codes, values, room),
        Call::Encode {
            table,
            arena,
            buffer,
            at,
        } => crate::encode(table, arena, buffer, at),
        Call::Decode {
            table,
            bytes,
            at,
            room,
        } => crate::decode(table, bytes, at, room),
        Call::Structure { arena } => crate::structure(arena),
        Call::Padding { arena } => crate::padding(arena),
        Call::Commitment { table, arena } => crate::commitment(table, arena),
        Call::RawTable { arena, room } => crate::raw_table(arena, room),
        Call::PaddedTable { arena, room } => crate::padded_table(arena, room),
        Call::PaddedIndex { table, raw } => crate::padded_index(table, raw),
        Call::RawIndex { table, padded } => crate::raw_index(table, padded),
        Call::Group { record, index } => crate::group(record, index),
        Call::NextGroup { record, group } => crate::next_group(record, group),
        Call::Strict {
            table,
            bytes,
            at,
            room,
        } => crate::decode_strict(table, bytes, at, room),
        Call::Compare {
            first,
            second,
            report,
        } => crate::compare(first, second, report),
    }
}
