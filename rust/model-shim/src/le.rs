//! The names of the functions over bytes: each is the function over numbers on the numbers that the
//! bytes say.

use crate::{
    BuildReply, CheckReply, DecodeReply, EncodeReply, IndexReply, TableReply, oli_build,
    oli_commitment, oli_decode, oli_decode_strict, oli_encode, oli_padded_index, oli_padded_table,
    oli_padding, oli_raw_index, oli_raw_table, oli_structure, put, run,
};

/// More values than any function takes: refused with 3.
const TOO_MANY: usize = 65_536;

fn whole(bytes: &[u8]) -> Option<Vec<u64>> {
    let (numbers, left) = bytes.as_chunks();
    let numbers = numbers.iter().map(|n| u64::from_le_bytes(*n)).collect();
    left.is_empty().then_some(numbers)
}

fn values_of(bytes: &[u8]) -> Vec<u64> {
    whole(bytes).unwrap_or_else(|| vec![0; TOO_MANY])
}

fn entries(bytes: &[u8]) -> Vec<u64> {
    whole(bytes).unwrap_or_default()
}

/// # Safety
/// As for [`put`].
unsafe fn put_bytes(at: *mut u8, length: usize, numbers: &[u64]) {
    let mut bytes: Vec<u8> = numbers.iter().flat_map(|n| n.to_le_bytes()).collect();
    bytes.resize(length, 0);
    // SAFETY: the caller's.
    unsafe { put(at, length, &bytes) }
}

/// # Safety
/// As for [`oli_build`].
#[unsafe(no_mangle)]
pub unsafe extern "C" fn oli_build_le(
    table: *const u8,
    table_len: usize,
    codes: *const u8,
    codes_len: usize,
    values: *const u8,
    values_len: usize,
    out_codes: *mut u8,
    out_codes_len: usize,
    out_values: *mut u8,
    out_values_len: usize,
    records: *mut u8,
    records_len: usize,
) -> BuildReply {
    // SAFETY: the caller's.
    unsafe {
        let values = values_of(run(values, values_len));
        let mut numbers = vec![0; out_values_len / 8];
        let reply = oli_build(
            table,
            table_len,
            codes,
            codes_len,
            values.as_ptr(),
            values.len(),
            out_codes,
            out_codes_len,
            numbers.as_mut_ptr(),
            numbers.len(),
            records,
            records_len,
        );
        put_bytes(out_values, out_values_len, &numbers);
        reply
    }
}

/// # Safety
/// As for [`oli_build`].
#[unsafe(no_mangle)]
pub unsafe extern "C" fn oli_encode_le(
    table: *const u8,
    table_len: usize,
    codes: *const u8,
    codes_len: usize,
    values: *const u8,
    values_len: usize,
    records: *const u8,
    records_len: usize,
    out: *mut u8,
    out_len: usize,
    at: usize,
) -> EncodeReply {
    // SAFETY: the caller's.
    unsafe {
        let values = values_of(run(values, values_len));
        oli_encode(
            table,
            table_len,
            codes,
            codes_len,
            values.as_ptr(),
            values.len(),
            records,
            records_len,
            out,
            out_len,
            at,
        )
    }
}

/// # Safety
/// As for [`oli_build`].
#[unsafe(no_mangle)]
pub unsafe extern "C" fn oli_decode_le(
    table: *const u8,
    table_len: usize,
    bytes: *const u8,
    bytes_len: usize,
    at: usize,
    out_codes: *mut u8,
    out_codes_len: usize,
    out_values: *mut u8,
    out_values_len: usize,
    records: *mut u8,
    records_len: usize,
) -> DecodeReply {
    // SAFETY: the caller's.
    unsafe {
        let mut numbers = vec![0; out_values_len / 8];
        let reply = oli_decode(
            table,
            table_len,
            bytes,
            bytes_len,
            at,
            out_codes,
            out_codes_len,
            numbers.as_mut_ptr(),
            numbers.len(),
            records,
            records_len,
        );
        put_bytes(out_values, out_values_len, &numbers);
        reply
    }
}

/// # Safety
/// As for [`oli_build`].
#[unsafe(no_mangle)]
pub unsafe extern "C" fn oli_decode_strict_le(
    table: *const u8,
    table_len: usize,
    bytes: *const u8,
    bytes_len: usize,
    at: usize,
    out_codes: *mut u8,
    out_codes_len: usize,
    out_values: *mut u8,
    out_values_len: usize,
    records: *mut u8,
    records_len: usize,
) -> DecodeReply {
    // SAFETY: the caller's.
    unsafe {
        let mut numbers = vec![0; out_values_len / 8];
        let reply = oli_decode_strict(
            table,
            table_len,
            bytes,
            bytes_len,
            at,
            out_codes,
            out_codes_len,
            numbers.as_mut_ptr(),
            numbers.len(),
            records,
            records_len,
        );
        put_bytes(out_values, out_values_len, &numbers);
        reply
    }
}

/// # Safety
/// As for [`oli_build`].
#[unsafe(no_mangle)]
pub unsafe extern "C" fn oli_structure_le(
    codes: *const u8,
    codes_len: usize,
    values: *const u8,
    values_len: usize,
    records: *const u8,
    records_len: usize,
) -> CheckReply {
    // SAFETY: the caller's.
    unsafe {
        let values = values_of(run(values, values_len));
        oli_structure(
            codes,
            codes_len,
            values.as_ptr(),
            values.len(),
            records,
            records_len,
        )
    }
}

/// # Safety
/// As for [`oli_build`].
#[unsafe(no_mangle)]
pub unsafe extern "C" fn oli_padding_le(
    codes: *const u8,
    codes_len: usize,
    values: *const u8,
    values_len: usize,
    records: *const u8,
    records_len: usize,
) -> CheckReply {
    // SAFETY: the caller's.
    unsafe {
        let values = values_of(run(values, values_len));
        oli_padding(
            codes,
            codes_len,
            values.as_ptr(),
            values.len(),
            records,
            records_len,
        )
    }
}

/// # Safety
/// As for [`oli_build`].
#[unsafe(no_mangle)]
pub unsafe extern "C" fn oli_commitment_le(
    table: *const u8,
    table_len: usize,
    codes: *const u8,
    codes_len: usize,
    values: *const u8,
    values_len: usize,
    records: *const u8,
    records_len: usize,
) -> CheckReply {
    // SAFETY: the caller's.
    unsafe {
        let values = values_of(run(values, values_len));
        oli_commitment(
            table,
            table_len,
            codes,
            codes_len,
            values.as_ptr(),
            values.len(),
            records,
            records_len,
        )
    }
}

/// # Safety
/// As for [`oli_build`].
#[unsafe(no_mangle)]
pub unsafe extern "C" fn oli_raw_table_le(
    codes: *const u8,
    codes_len: usize,
    values: *const u8,
    values_len: usize,
    records: *const u8,
    records_len: usize,
    out: *mut u8,
    out_len: usize,
) -> TableReply {
    // SAFETY: the caller's.
    unsafe {
        let values = values_of(run(values, values_len));
        let mut numbers = vec![0; out_len / 8];
        let reply = oli_raw_table(
            codes,
            codes_len,
            values.as_ptr(),
            values.len(),
            records,
            records_len,
            numbers.as_mut_ptr(),
            numbers.len(),
        );
        put_bytes(out, out_len, &numbers);
        reply
    }
}

/// # Safety
/// As for [`oli_build`].
#[unsafe(no_mangle)]
pub unsafe extern "C" fn oli_padded_table_le(
    codes: *const u8,
    codes_len: usize,
    values: *const u8,
    values_len: usize,
    records: *const u8,
    records_len: usize,
    out: *mut u8,
    out_len: usize,
) -> TableReply {
    // SAFETY: the caller's.
    unsafe {
        let values = values_of(run(values, values_len));
        let mut numbers = vec![0; out_len / 8];
        let reply = oli_padded_table(
            codes,
            codes_len,
            values.as_ptr(),
            values.len(),
            records,
            records_len,
            numbers.as_mut_ptr(),
            numbers.len(),
        );
        put_bytes(out, out_len, &numbers);
        reply
    }
}

/// # Safety
/// As for [`oli_build`].
#[unsafe(no_mangle)]
pub unsafe extern "C" fn oli_padded_index_le(
    table: *const u8,
    table_len: usize,
    raw: usize,
) -> IndexReply {
    // SAFETY: the caller's.
    unsafe {
        let table = entries(run(table, table_len));
        oli_padded_index(table.as_ptr(), table.len(), raw)
    }
}

/// # Safety
/// As for [`oli_build`].
#[unsafe(no_mangle)]
pub unsafe extern "C" fn oli_raw_index_le(
    table: *const u8,
    table_len: usize,
    padded: usize,
) -> IndexReply {
    // SAFETY: the caller's.
    unsafe {
        let table = entries(run(table, table_len));
        oli_raw_index(table.as_ptr(), table.len(), padded)
    }
}
