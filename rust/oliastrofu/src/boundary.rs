//! The boundary: the library's C exports, each behind a safe function that lends it slices and
//! hands its reply on as it is. This is the only module with `unsafe`.
//!
//! A slice crosses as two arguments, pointer then length in elements. The library keeps nothing of
//! what it is lent, writes only to what it is lent to write, and within the lengths; it is proved
//! to answer on every input. The functions of [`le`] take runs of 64-bit numbers as bytes.
//!
//! ```
//! use oliastrofu::boundary::{self, IndexReply};
//! assert_eq!(boundary::padded_index(&[0, 1], 1), IndexReply { found: 1, index: 2 });
//! ```

#![allow(unsafe_code)]

use crate::{Source, lent::Outputs};

// With the feature `model-shim` (tests only) the names below are the shim's.
#[cfg(feature = "model-shim")]
use model_shim as _;

// Numbers cross in 64 bits.
const _: () = assert!(size_of::<usize>() == 8);

/// What `oli_build` replies.
#[repr(C)]
#[derive(Clone, Copy, Debug, Default, PartialEq, Eq)]
pub struct BuildReply {
    pub number: u8,
    pub place: usize,
    pub batches: usize,
    pub operations: usize,
}

/// What `oli_encode` replies.
#[repr(C)]
#[derive(Clone, Copy, Debug, Default, PartialEq, Eq)]
pub struct EncodeReply {
    pub number: u8,
    pub place: usize,
    pub length: usize,
}

/// What `oli_decode` and `oli_decode_strict` reply.
#[repr(C)]
#[derive(Clone, Copy, Debug, Default, PartialEq, Eq)]
pub struct DecodeReply {
    pub number: u8,
    pub place: usize,
    pub batches: usize,
    pub operations: usize,
    pub used: usize,
}

/// What `oli_head` replies.
#[repr(C)]
#[derive(Clone, Copy, Debug, Default, PartialEq, Eq)]
pub struct HeadReply {
    pub number: u8,
    pub place: usize,
    pub batches: usize,
    pub operations: usize,
}

/// What the three checks reply; number 0 if passed.
#[repr(C)]
#[derive(Clone, Copy, Debug, Default, PartialEq, Eq)]
pub struct CheckReply {
    pub number: u8,
    pub place: usize,
}

/// What the two builders of tables reply.
#[repr(C)]
#[derive(Clone, Copy, Debug, Default, PartialEq, Eq)]
pub struct TableReply {
    pub number: u8,
    pub place: usize,
    pub entries: usize,
}

/// What the two index lookups reply.
#[repr(C)]
#[derive(Clone, Copy, Debug, Default, PartialEq, Eq)]
pub struct IndexReply {
    pub found: u8,
    pub index: usize,
}

/// What `oli_group` replies.
#[repr(C)]
#[derive(Clone, Copy, Debug, Default, PartialEq, Eq)]
pub struct GroupReply {
    pub number: u8,
    pub place: usize,
    pub found: u8,
    pub group: usize,
    pub position: usize,
}

/// What `oli_next_group` replies.
#[repr(C)]
#[derive(Clone, Copy, Debug, Default, PartialEq, Eq)]
pub struct NextReply {
    pub number: u8,
    pub place: usize,
    pub found: u8,
    pub group: usize,
}

/// What `oli_compare` replies. The mark is 1 for a refusal of the first block, 2 for one of the
/// second, else 0.
#[repr(C)]
#[derive(Clone, Copy, Debug, Default, PartialEq, Eq)]
pub struct CompareReply {
    pub mark: u8,
    pub number: u8,
    pub place: usize,
    pub entries: usize,
}

/// Declares exports, each with a safe function over it: slices that are read, a number, slices that
/// are written, a number.
macro_rules! exports {
    ($(
        $(#[$doc:meta])*
        $name:ident = $export:ident($($run:ident: $item:ty),*; $($first:ident)?; $($out:ident: $to:ty),*; $($last:ident)?) -> $reply:ty;
    )*) => {
        unsafe extern "C" {
            $(fn $export($(_: *const $item, _: usize,)* $($first: usize,)? $(_: *mut $to, _: usize,)* $($last: usize,)?) -> $reply;)*
        }

        $(
            $(#[$doc])*
            #[inline]
            pub fn $name($($run: &[$item],)* $($first: usize,)? $($out: &mut [$to],)* $($last: usize,)?) -> $reply {
                // SAFETY: each pair is a slice that lives through the call; no one else has the
                // mutable ones.
                unsafe { $export($($run.as_ptr(), $run.len(),)* $($first,)? $($out.as_mut_ptr(), $out.len(),)* $($last,)?) }
            }
        )*
    };
}

exports! {
    /// `oli_build` on lent slices.
    build = oli_build(table: u8, codes: u8, values: u64;; out_codes: u8, out_values: u64, records: u8;) -> BuildReply;
    /// `oli_encode` on lent slices.
    encode = oli_encode(table: u8, codes: u8, values: u64, records: u8;; out: u8; at) -> EncodeReply;
    /// `oli_decode` on lent slices.
    decode = oli_decode(table: u8, bytes: u8; at; out_codes: u8, out_values: u64, records: u8;) -> DecodeReply;
    /// `oli_decode_strict` on lent slices.
    decode_strict = oli_decode_strict(table: u8, bytes: u8; at; out_codes: u8, out_values: u64, records: u8;) -> DecodeReply;
    /// `oli_head` on lent slices.
    head = oli_head(table: u8, bytes: u8; at;;) -> HeadReply;
    /// `oli_structure` on lent slices.
    structure = oli_structure(codes: u8, values: u64, records: u8;;;) -> CheckReply;
    /// `oli_padding` on lent slices.
    padding = oli_padding(codes: u8, values: u64, records: u8;;;) -> CheckReply;
    /// `oli_commitment` on lent slices.
    commitment = oli_commitment(table: u8, codes: u8, values: u64, records: u8;;;) -> CheckReply;
    /// `oli_raw_table` on lent slices.
    raw_table = oli_raw_table(codes: u8, values: u64, records: u8;; out: u64;) -> TableReply;
    /// `oli_padded_table` on lent slices.
    padded_table = oli_padded_table(codes: u8, values: u64, records: u8;; out: u64;) -> TableReply;
    /// `oli_padded_index` on a lent slice.
    padded_index = oli_padded_index(table: u64; raw;;) -> IndexReply;
    /// `oli_raw_index` on a lent slice.
    raw_index = oli_raw_index(table: u64; padded;;) -> IndexReply;
    /// `oli_group` on a lent slice, which should be one record.
    group = oli_group(record: u8; index;;) -> GroupReply;
    /// `oli_next_group` on a lent slice, which should be one record.
    next_group = oli_next_group(record: u8; group;;) -> NextReply;
}

/// What compare is lent: a pointer and a length each.
type Bytes = (*const u8, usize);
type Runs = ((*mut u8, usize), (*mut u64, usize), (*mut u8, usize));

unsafe extern "C" {
    fn oli_compare(
        _: *const u8,
        _: usize,
        _: *const u8,
        _: usize,
        first_at: usize,
        _: *const u8,
        _: usize,
        _: *const u8,
        _: usize,
        second_at: usize,
        _: *mut u8,
        _: usize,
        _: *mut u64,
        _: usize,
        _: *mut u8,
        _: usize,
        _: *mut u8,
        _: usize,
        _: *mut u64,
        _: usize,
        _: *mut u8,
        _: usize,
        report: *mut i32,
        _: usize,
    ) -> CompareReply;
}

/// # Safety
/// Each pointer and length of the room and of the report is a run that lives through the call, and
/// nobody else's.
unsafe fn compare_in(
    first: Source<'_>,
    second: Source<'_>,
    rooms: [Runs; 2],
    report: (*mut i32, usize),
) -> CompareReply {
    let of = |run: &[u8]| -> Bytes { (run.as_ptr(), run.len()) };
    let (first_table, first_bytes) = (of(first.table), of(first.bytes));
    let (second_table, second_bytes) = (of(second.table), of(second.bytes));
    let [one, two] = rooms;
    // SAFETY: the slices live through the call; for the rest, the caller's.
    unsafe {
        oli_compare(
            first_table.0,
            first_table.1,
            first_bytes.0,
            first_bytes.1,
            first.at,
            second_table.0,
            second_table.1,
            second_bytes.0,
            second_bytes.1,
            second.at,
            one.0.0,
            one.0.1,
            one.1.0,
            one.1.1,
            one.2.0,
            one.2.1,
            two.0.0,
            two.0.1,
            two.1.0,
            two.1.1,
            two.2.0,
            two.2.1,
            report.0,
            report.1,
        )
    }
}

/// `oli_compare` on lent slices: two blocks, working room for each, and a report of
/// [`ENTRY`](crate::ENTRY) numbers to an entry.
///
/// ```
/// use oliastrofu::{Source, VM_TABLE, boundary, lent::Outputs};
/// let nothing = Source { table: &VM_TABLE, bytes: &[1, 0, 0, 0, 0], at: 0 };
/// let empty = || Outputs { codes: &mut [], values: &mut [], records: &mut [] };
/// let mut report = [9; 5];
/// let reply = boundary::compare(nothing, nothing, empty(), empty(), &mut report);
/// assert_eq!((reply.number, reply.entries, report), (0, 0, [0; 5]));
/// ```
#[inline]
pub fn compare(
    first: Source<'_>,
    second: Source<'_>,
    first_room: Outputs<'_>,
    second_room: Outputs<'_>,
    report: &mut [i32],
) -> CompareReply {
    fn runs(room: &mut Outputs<'_>) -> Runs {
        (
            (room.codes.as_mut_ptr(), room.codes.len()),
            (room.values.as_mut_ptr(), room.values.len()),
            (room.records.as_mut_ptr(), room.records.len()),
        )
    }
    let (mut first_room, mut second_room) = (first_room, second_room);
    let rooms = [runs(&mut first_room), runs(&mut second_room)];
    // SAFETY: each pair is a mutable slice that lives through the call; no one else has it.
    unsafe { compare_in(first, second, rooms, (report.as_mut_ptr(), report.len())) }
}

/// The runs that build and decode fill, made for the call, of exactly these lengths: opcodes and
/// values, and bytes of records. Nothing is zeroed beforehand.
///
/// ```
/// use oliastrofu::boundary::New;
/// let mut table = [3; 128];
/// table[..4].copy_from_slice(&[0, 1, 0, 2]);
/// let (reply, new) = New::build(&table, &[1], &[5], 3, 82);
/// assert_eq!((reply.number, new.codes, new.values), (0, vec![1, 0, 0], vec![5, 0, 0]));
/// ```
#[derive(Clone, Debug, Default, PartialEq, Eq)]
pub struct New {
    pub codes: Vec<u8>,
    pub values: Vec<u64>,
    pub records: Vec<u8>,
}

impl New {
    fn with(operations: usize, records: usize) -> Self {
        Self {
            codes: Vec::with_capacity(operations),
            values: Vec::with_capacity(operations),
            records: Vec::with_capacity(records),
        }
    }

    /// # Safety
    /// The library has filled the runs to these lengths, which they were made for.
    unsafe fn filled(mut self, operations: usize, records: usize) -> Self {
        // SAFETY: the caller's.
        unsafe {
            self.codes.set_len(operations);
            self.values.set_len(operations);
            self.records.set_len(records);
        }
        self
    }

    /// `oli_build` on lent slices and new runs.
    pub fn build(
        table: &[u8],
        codes: &[u8],
        values: &[u64],
        operations: usize,
        records: usize,
    ) -> (BuildReply, Self) {
        let mut new = Self::with(operations, records);
        // SAFETY: each pair is a slice that lives through the call, or room of that length that no
        // one else has. Every element of an output is stored, refused or not: what is left in it
        // is proved to be content and zeros to its end, whatever was there.
        unsafe {
            let reply = oli_build(
                table.as_ptr(),
                table.len(),
                codes.as_ptr(),
                codes.len(),
                values.as_ptr(),
                values.len(),
                new.codes.as_mut_ptr(),
                operations,
                new.values.as_mut_ptr(),
                operations,
                new.records.as_mut_ptr(),
                records,
            );
            (reply, new.filled(operations, records))
        }
    }

    /// `oli_decode` on lent slices and new runs.
    pub fn decode(
        table: &[u8],
        bytes: &[u8],
        at: usize,
        operations: usize,
        records: usize,
    ) -> (DecodeReply, Self) {
        let mut new = Self::with(operations, records);
        // SAFETY: as above.
        unsafe {
            let reply = oli_decode(
                table.as_ptr(),
                table.len(),
                bytes.as_ptr(),
                bytes.len(),
                at,
                new.codes.as_mut_ptr(),
                operations,
                new.values.as_mut_ptr(),
                operations,
                new.records.as_mut_ptr(),
                records,
            );
            (reply, new.filled(operations, records))
        }
    }

    /// `oli_decode_strict` on lent slices and new runs.
    pub fn decode_strict(
        table: &[u8],
        bytes: &[u8],
        at: usize,
        operations: usize,
        records: usize,
    ) -> (DecodeReply, Self) {
        let mut new = Self::with(operations, records);
        // SAFETY: as above.
        unsafe {
            let reply = oli_decode_strict(
                table.as_ptr(),
                table.len(),
                bytes.as_ptr(),
                bytes.len(),
                at,
                new.codes.as_mut_ptr(),
                operations,
                new.values.as_mut_ptr(),
                operations,
                new.records.as_mut_ptr(),
                records,
            );
            (reply, new.filled(operations, records))
        }
    }

    /// `oli_compare` on lent slices, working room and a report that are made for the call: for so
    /// many operations and bytes of records of each block, and so many numbers of the report.
    ///
    /// ```
    /// use oliastrofu::{Source, VM_TABLE, boundary::New};
    /// let source = |bytes| Source { table: &VM_TABLE, bytes, at: 0 };
    /// let (nothing, batch) = ([1, 0, 0, 0, 0], [1, 1, 0, 0, 0, 0, 0, 0, 0, 0]);
    /// let (reply, report) = New::compare(source(&nothing), source(&batch), (0, 0), (0, 82), 9);
    /// assert_eq!((reply.number, reply.entries), (0, 2));
    /// assert_eq!(report, [6, 0, 1, 0, 7, 0, 0, 1, 0]);
    /// ```
    pub fn compare(
        first: Source<'_>,
        second: Source<'_>,
        first_room: (usize, usize),
        second_room: (usize, usize),
        report: usize,
    ) -> (CompareReply, Vec<i32>) {
        let mut one = Self::with(first_room.0, first_room.1);
        let mut two = Self::with(second_room.0, second_room.1);
        let mut numbers = Vec::with_capacity(report);
        let rooms = [
            one.runs(first_room.0, first_room.1),
            two.runs(second_room.0, second_room.1),
        ];
        // SAFETY: as above.
        unsafe {
            let reply = compare_in(first, second, rooms, (numbers.as_mut_ptr(), report));
            numbers.set_len(report);
            (reply, numbers)
        }
    }

    fn runs(&mut self, operations: usize, records: usize) -> Runs {
        (
            (self.codes.as_mut_ptr(), operations),
            (self.values.as_mut_ptr(), operations),
            (self.records.as_mut_ptr(), records),
        )
    }
}

/// The same with runs of 64-bit numbers as little-endian bytes, eight to a number.
///
/// An input that is not whole numbers is refused with 3, and an index lookup in one finds nothing.
/// Of an output only whole numbers are room; bytes left over are zeroed too. Numbers go through work
/// space on the stack, as [`le`](crate::le) says.
///
/// ```
/// use oliastrofu::boundary::{IndexReply, le};
/// let table = [0, 0, 0, 0, 0, 0, 0, 0, 1, 0, 0, 0, 0, 0, 0, 0];
/// assert_eq!(le::padded_index(&table, 1), IndexReply { found: 1, index: 2 });
/// assert_eq!(le::padded_index(&table[1..], 0), IndexReply { found: 0, index: 0 });
/// ```
pub mod le {
    use super::{BuildReply, CheckReply, DecodeReply, EncodeReply, IndexReply, TableReply};

    exports! {
        /// `oli_build_le` on lent slices.
        build = oli_build_le(table: u8, codes: u8, values: u8;; out_codes: u8, out_values: u8, records: u8;) -> BuildReply;
        /// `oli_encode_le` on lent slices.
        encode = oli_encode_le(table: u8, codes: u8, values: u8, records: u8;; out: u8; at) -> EncodeReply;
        /// `oli_decode_le` on lent slices.
        decode = oli_decode_le(table: u8, bytes: u8; at; out_codes: u8, out_values: u8, records: u8;) -> DecodeReply;
        /// `oli_decode_strict_le` on lent slices.
        decode_strict = oli_decode_strict_le(table: u8, bytes: u8; at; out_codes: u8, out_values: u8, records: u8;) -> DecodeReply;
        /// `oli_structure_le` on lent slices.
        structure = oli_structure_le(codes: u8, values: u8, records: u8;;;) -> CheckReply;
        /// `oli_padding_le` on lent slices.
        padding = oli_padding_le(codes: u8, values: u8, records: u8;;;) -> CheckReply;
        /// `oli_commitment_le` on lent slices.
        commitment = oli_commitment_le(table: u8, codes: u8, values: u8, records: u8;;;) -> CheckReply;
        /// `oli_raw_table_le` on lent slices.
        raw_table = oli_raw_table_le(codes: u8, values: u8, records: u8;; out: u8;) -> TableReply;
        /// `oli_padded_table_le` on lent slices.
        padded_table = oli_padded_table_le(codes: u8, values: u8, records: u8;; out: u8;) -> TableReply;
        /// `oli_padded_index_le` on a lent slice.
        padded_index = oli_padded_index_le(table: u8; raw;;) -> IndexReply;
        /// `oli_raw_index_le` on a lent slice.
        raw_index = oli_raw_index_le(table: u8; padded;;) -> IndexReply;
    }
}
