//! For tests only: the C names of the port's exports, answered by the model.
//!
//! The crate `oliastrofu` links this instead of the static library if its feature `model-shim` is
//! on, so that the wrapper and the comparison can be tried without the port. Nothing that is
//! shipped depends on it.

mod le;

use core::slice;

use model::{Answer, Arena, Room, Source};

#[repr(C)]
pub struct BuildReply {
    number: u8,
    place: usize,
    batches: usize,
    operations: usize,
}

#[repr(C)]
pub struct EncodeReply {
    number: u8,
    place: usize,
    length: usize,
}

#[repr(C)]
pub struct DecodeReply {
    number: u8,
    place: usize,
    batches: usize,
    operations: usize,
    used: usize,
}

#[repr(C)]
pub struct HeadReply {
    number: u8,
    place: usize,
    batches: usize,
    operations: usize,
}

#[repr(C)]
pub struct CheckReply {
    number: u8,
    place: usize,
}

#[repr(C)]
pub struct TableReply {
    number: u8,
    place: usize,
    entries: usize,
}

#[repr(C)]
pub struct IndexReply {
    found: u8,
    index: usize,
}

#[repr(C)]
pub struct GroupReply {
    number: u8,
    place: usize,
    found: u8,
    group: usize,
    position: usize,
}

#[repr(C)]
pub struct NextReply {
    number: u8,
    place: usize,
    found: u8,
    group: usize,
}

#[repr(C)]
pub struct CompareReply {
    mark: u8,
    number: u8,
    place: usize,
    entries: usize,
}

/// # Safety
/// Pointer and length are those of a run that lives through the call.
unsafe fn run<'a, T>(at: *const T, length: usize) -> &'a [T] {
    // SAFETY: the caller's.
    unsafe { slice::from_raw_parts(at, length) }
}

/// # Safety
/// As above, and nobody else uses the run during the call.
unsafe fn put<T: Copy>(at: *mut T, length: usize, contents: &[T]) {
    // SAFETY: the caller's.
    unsafe { slice::from_raw_parts_mut(at, length) }.copy_from_slice(contents);
}

fn check(answer: &Answer) -> CheckReply {
    CheckReply {
        number: answer.number,
        place: answer.place,
    }
}

/// # Safety
/// Each pointer and length is a run that lives through the call; outputs are nobody else's.
#[unsafe(no_mangle)]
pub unsafe extern "C" fn oli_build(
    table: *const u8,
    table_len: usize,
    codes: *const u8,
    codes_len: usize,
    values: *const u64,
    values_len: usize,
    out_codes: *mut u8,
    out_codes_len: usize,
    out_values: *mut u64,
    out_values_len: usize,
    records: *mut u8,
    records_len: usize,
) -> BuildReply {
    let room = Room {
        codes: out_codes_len,
        values: out_values_len,
        records: records_len,
    };
    // SAFETY: the caller's.
    unsafe {
        let answer = model::build(
            run(table, table_len),
            run(codes, codes_len),
            run(values, values_len),
            room,
        );
        put(out_codes, out_codes_len, &answer.codes);
        put(out_values, out_values_len, &answer.values);
        put(records, records_len, &answer.records);
        BuildReply {
            number: answer.number,
            place: answer.place,
            batches: answer.rest[0],
            operations: answer.rest[1],
        }
    }
}

/// # Safety
/// As for [`oli_build`].
#[unsafe(no_mangle)]
pub unsafe extern "C" fn oli_encode(
    table: *const u8,
    table_len: usize,
    codes: *const u8,
    codes_len: usize,
    values: *const u64,
    values_len: usize,
    records: *const u8,
    records_len: usize,
    out: *mut u8,
    out_len: usize,
    at: usize,
) -> EncodeReply {
    // SAFETY: the caller's.
    unsafe {
        let arena = Arena {
            codes: run(codes, codes_len),
            values: run(values, values_len),
            records: run(records, records_len),
        };
        let before = run(out, out_len).to_vec();
        let answer = model::encode(run(table, table_len), arena, &before, at);
        put(out, out_len, &answer.buffer);
        EncodeReply {
            number: answer.number,
            place: answer.place,
            length: answer.rest[0],
        }
    }
}

/// # Safety
/// As for [`oli_build`].
#[unsafe(no_mangle)]
pub unsafe extern "C" fn oli_decode(
    table: *const u8,
    table_len: usize,
    bytes: *const u8,
    bytes_len: usize,
    at: usize,
    out_codes: *mut u8,
    out_codes_len: usize,
    out_values: *mut u64,
    out_values_len: usize,
    records: *mut u8,
    records_len: usize,
) -> DecodeReply {
    let room = Room {
        codes: out_codes_len,
        values: out_values_len,
        records: records_len,
    };
    // SAFETY: the caller's.
    unsafe {
        let answer = model::decode(run(table, table_len), run(bytes, bytes_len), at, room);
        put(out_codes, out_codes_len, &answer.codes);
        put(out_values, out_values_len, &answer.values);
        put(records, records_len, &answer.records);
        DecodeReply {
            number: answer.number,
            place: answer.place,
            batches: answer.rest[0],
            operations: answer.rest[1],
            used: answer.rest[2],
        }
    }
}

/// # Safety
/// As for [`oli_build`].
#[unsafe(no_mangle)]
pub unsafe extern "C" fn oli_decode_strict(
    table: *const u8,
    table_len: usize,
    bytes: *const u8,
    bytes_len: usize,
    at: usize,
    out_codes: *mut u8,
    out_codes_len: usize,
    out_values: *mut u64,
    out_values_len: usize,
    records: *mut u8,
    records_len: usize,
) -> DecodeReply {
    let room = Room {
        codes: out_codes_len,
        values: out_values_len,
        records: records_len,
    };
    // SAFETY: the caller's.
    unsafe {
        let answer = model::decode_strict(run(table, table_len), run(bytes, bytes_len), at, room);
        put(out_codes, out_codes_len, &answer.codes);
        put(out_values, out_values_len, &answer.values);
        put(records, records_len, &answer.records);
        DecodeReply {
            number: answer.number,
            place: answer.place,
            batches: answer.rest[0],
            operations: answer.rest[1],
            used: answer.rest[2],
        }
    }
}

/// # Safety
/// As for [`oli_build`].
#[unsafe(no_mangle)]
pub unsafe extern "C" fn oli_head(
    table: *const u8,
    table_len: usize,
    bytes: *const u8,
    bytes_len: usize,
    at: usize,
) -> HeadReply {
    // SAFETY: the caller's.
    let head = unsafe { model::head(run(table, table_len), run(bytes, bytes_len), at) };
    match head {
        Ok((batches, operations)) => HeadReply {
            number: 0,
            place: 0,
            batches,
            operations,
        },
        Err(refusal) => HeadReply {
            number: refusal.number,
            place: refusal.place,
            batches: 0,
            operations: 0,
        },
    }
}

/// # Safety
/// As for [`oli_build`].
#[unsafe(no_mangle)]
pub unsafe extern "C" fn oli_structure(
    codes: *const u8,
    codes_len: usize,
    values: *const u64,
    values_len: usize,
    records: *const u8,
    records_len: usize,
) -> CheckReply {
    // SAFETY: the caller's.
    unsafe {
        check(&model::structure(Arena {
            codes: run(codes, codes_len),
            values: run(values, values_len),
            records: run(records, records_len),
        }))
    }
}

/// # Safety
/// As for [`oli_build`].
#[unsafe(no_mangle)]
pub unsafe extern "C" fn oli_padding(
    codes: *const u8,
    codes_len: usize,
    values: *const u64,
    values_len: usize,
    records: *const u8,
    records_len: usize,
) -> CheckReply {
    // SAFETY: the caller's.
    unsafe {
        check(&model::padding(Arena {
            codes: run(codes, codes_len),
            values: run(values, values_len),
            records: run(records, records_len),
        }))
    }
}

/// # Safety
/// As for [`oli_build`].
#[unsafe(no_mangle)]
pub unsafe extern "C" fn oli_commitment(
    table: *const u8,
    table_len: usize,
    codes: *const u8,
    codes_len: usize,
    values: *const u64,
    values_len: usize,
    records: *const u8,
    records_len: usize,
) -> CheckReply {
    // SAFETY: the caller's.
    unsafe {
        let arena = Arena {
            codes: run(codes, codes_len),
            values: run(values, values_len),
            records: run(records, records_len),
        };
        check(&model::commitment(run(table, table_len), arena))
    }
}

/// # Safety
/// As for [`oli_build`].
#[unsafe(no_mangle)]
pub unsafe extern "C" fn oli_raw_table(
    codes: *const u8,
    codes_len: usize,
    values: *const u64,
    values_len: usize,
    records: *const u8,
    records_len: usize,
    out: *mut u64,
    out_len: usize,
) -> TableReply {
    // SAFETY: the caller's.
    unsafe {
        let arena = Arena {
            codes: run(codes, codes_len),
            values: run(values, values_len),
            records: run(records, records_len),
        };
        let answer = model::raw_table(arena, out_len);
        put(out, out_len, &answer.entries);
        TableReply {
            number: answer.number,
            place: answer.place,
            entries: answer.rest[0],
        }
    }
}

/// # Safety
/// As for [`oli_build`].
#[unsafe(no_mangle)]
pub unsafe extern "C" fn oli_padded_table(
    codes: *const u8,
    codes_len: usize,
    values: *const u64,
    values_len: usize,
    records: *const u8,
    records_len: usize,
    out: *mut u64,
    out_len: usize,
) -> TableReply {
    // SAFETY: the caller's.
    unsafe {
        let arena = Arena {
            codes: run(codes, codes_len),
            values: run(values, values_len),
            records: run(records, records_len),
        };
        let answer = model::padded_table(arena, out_len);
        put(out, out_len, &answer.entries);
        TableReply {
            number: answer.number,
            place: answer.place,
            entries: answer.rest[0],
        }
    }
}

/// # Safety
/// As for [`oli_build`].
#[unsafe(no_mangle)]
pub unsafe extern "C" fn oli_padded_index(
    table: *const u64,
    table_len: usize,
    raw: usize,
) -> IndexReply {
    // SAFETY: the caller's.
    let answer = unsafe { model::padded_index(run(table, table_len), raw) };
    IndexReply {
        found: answer.rest[0] as u8,
        index: answer.rest[1],
    }
}

/// # Safety
/// As for [`oli_build`].
#[unsafe(no_mangle)]
pub unsafe extern "C" fn oli_raw_index(
    table: *const u64,
    table_len: usize,
    padded: usize,
) -> IndexReply {
    // SAFETY: the caller's.
    let answer = unsafe { model::raw_index(run(table, table_len), padded) };
    IndexReply {
        found: answer.rest[0] as u8,
        index: answer.rest[1],
    }
}

/// # Safety
/// As for [`oli_build`].
#[unsafe(no_mangle)]
pub unsafe extern "C" fn oli_group(
    record: *const u8,
    record_len: usize,
    index: usize,
) -> GroupReply {
    // SAFETY: the caller's.
    let answer = unsafe { model::group(run(record, record_len), index) };
    GroupReply {
        number: answer.number,
        place: answer.place,
        found: answer.rest[0] as u8,
        group: answer.rest[1],
        position: answer.rest[2],
    }
}

/// # Safety
/// As for [`oli_build`].
#[unsafe(no_mangle)]
pub unsafe extern "C" fn oli_next_group(
    record: *const u8,
    record_len: usize,
    group: usize,
) -> NextReply {
    // SAFETY: the caller's.
    let answer = unsafe { model::next_group(run(record, record_len), group) };
    NextReply {
        number: answer.number,
        place: answer.place,
        found: answer.rest[0] as u8,
        group: answer.rest[1],
    }
}

/// # Safety
/// As for [`oli_build`].
#[unsafe(no_mangle)]
pub unsafe extern "C" fn oli_compare(
    first_table: *const u8,
    first_table_len: usize,
    first: *const u8,
    first_len: usize,
    first_at: usize,
    second_table: *const u8,
    second_table_len: usize,
    second: *const u8,
    second_len: usize,
    second_at: usize,
    first_codes: *mut u8,
    first_codes_len: usize,
    first_values: *mut u64,
    first_values_len: usize,
    first_records: *mut u8,
    first_records_len: usize,
    second_codes: *mut u8,
    second_codes_len: usize,
    second_values: *mut u64,
    second_values_len: usize,
    second_records: *mut u8,
    second_records_len: usize,
    report: *mut i32,
    report_len: usize,
) -> CompareReply {
    // SAFETY: the caller's.
    unsafe {
        let one = Source {
            table: run(first_table, first_table_len),
            bytes: run(first, first_len),
            at: first_at,
            room: Room {
                codes: first_codes_len,
                values: first_values_len,
                records: first_records_len,
            },
        };
        let other = Source {
            table: run(second_table, second_table_len),
            bytes: run(second, second_len),
            at: second_at,
            room: Room {
                codes: second_codes_len,
                values: second_values_len,
                records: second_records_len,
            },
        };
        let answer = model::compare(one, other, report_len);
        let (codes, values, records) = (&answer.codes, &answer.values, &answer.records);
        put(first_codes, first_codes_len, &codes[..first_codes_len]);
        put(second_codes, second_codes_len, &codes[first_codes_len..]);
        put(first_values, first_values_len, &values[..first_values_len]);
        put(
            second_values,
            second_values_len,
            &values[first_values_len..],
        );
        let (one_of, other_of) = records.split_at(first_records_len);
        put(first_records, first_records_len, one_of);
        put(second_records, second_records_len, other_of);
        put(report, report_len, &answer.report);
        CompareReply {
            mark: answer.mark,
            number: answer.number,
            place: answer.place,
            entries: answer.rest[0],
        }
    }
}
