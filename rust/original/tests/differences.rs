//! Where the original parts from document 01: it panics, wraps or takes what 01 refuses. Each
//! with a smallest input. All of them lie outside what the original's own batcher makes.
//!
//! `CHECKED` is true in a build with debug assertions (`cargo test --profile checked`): there the
//! original panics where a released one wraps.

use original::{
    Batch, batch, commitment, decode, encode, next_op_group_index, op_idx_in_batch_to_group,
    padded_table, padded_to_raw, padding, raw_operations, raw_table, raw_to_padded, structure,
};

const CHECKED: bool = cfg!(debug_assertions);
const PLAIN: (u8, u64) = (2, 0);
const PUSH: (u8, u64) = (91, 5);
const NOOP: (u8, u64) = (0, 0);

/// A batch of these operations, all in the first group.
fn one_group(ops: &[(u8, u64)], count: usize) -> Batch {
    let mut starts = [ops.len(); 9];
    starts[0] = 0;
    let number = ops.iter().rev().fold(0, |n, op| (n << 7) | u64::from(op.0));
    let mut numbers = [0; 8];
    numbers[0] = number;
    Batch {
        ops: ops.to_vec(),
        starts,
        numbers,
        count,
        ..Batch::default()
    }
}

fn panicked<T: std::fmt::Debug>(answer: Result<T, original::Refused>) -> bool {
    answer.is_err_and(|refused| refused.panicked)
}

// STRUCTURE: taken by the original, 15 in document 01.
// ================================================================================================

#[test]
fn starts_need_not_begin_at_0() {
    let batch = Batch {
        ops: vec![PLAIN],
        starts: [1; 9],
        ..Batch::default()
    };
    assert_eq!(structure(&[batch]), Ok(()));
}

#[test]
fn operations_may_lie_past_the_count() {
    let batch = one_group(&[PLAIN], 0);
    assert_eq!(structure(&[batch]), Ok(()));
}

#[test]
fn a_group_past_the_count_may_hold_ten() {
    let batch = one_group(&[PLAIN; 10], 0);
    assert_eq!(structure(&[batch]), Ok(()));
    assert_eq!(
        structure(&[one_group(&[PLAIN; 10], 1)]).unwrap_err().number,
        15
    );
}

// PADDING
// ================================================================================================

/// The check alone does not look at structure (15 in document 01), beyond the count and the
/// bounds of flagged groups, which it then calls a fault of padding.
#[test]
fn padding_looks_at_little_structure() {
    let mut batch = Batch {
        count: 1,
        ..Batch::default()
    };
    batch.starts[1] = 1;
    assert_eq!(padding(std::slice::from_ref(&batch)), Ok(()));
    batch.flags[0] = true;
    assert_eq!(
        padding(std::slice::from_ref(&batch)).unwrap_err().number,
        10
    );
    batch.count = 9;
    assert_eq!(padding(&[batch]).unwrap_err().number, 10);
}

// COMMITMENT: the check alone does not look at structure (15 in document 01).
// ================================================================================================

#[test]
fn commitment_panics_without_structure() {
    let nine = Batch {
        count: 9,
        ..Batch::default()
    };
    assert!(panicked(commitment(&[nine])));
    let mut long = Batch {
        count: 1,
        ..Batch::default()
    };
    long.starts[1] = 1;
    assert!(panicked(commitment(&[long])));
    let mut falling = Batch {
        ops: vec![PLAIN],
        count: 1,
        ..Batch::default()
    };
    falling.starts[0] = 1;
    assert!(panicked(commitment(&[falling])));
}

#[test]
fn commitment_takes_what_structure_refuses() {
    assert_eq!(commitment(&[one_group(&[PLAIN], 0)]), Ok(()));
    assert_eq!(
        commitment(&[Batch {
            ops: vec![PLAIN],
            starts: [1; 9],
            ..Batch::default()
        }]),
        Ok(())
    );
    // The operations lent are more than the starts cover.
    assert_eq!(
        commitment(&[Batch {
            ops: vec![PLAIN],
            ..Batch::default()
        }]),
        Ok(())
    );
}

/// The tenth place is shifted by 63, so only one bit of an opcode is left; the eleventh by 70,
/// which a released build takes as 6.
#[test]
fn a_group_over_nine_wraps_its_number() {
    let mut batch = one_group(&[NOOP; 10], 1);
    batch.ops[9] = PLAIN;
    assert_eq!(commitment(&[batch]), Ok(()));

    let mut batch = one_group(&[NOOP; 11], 1);
    batch.ops[10] = (1, 0);
    batch.numbers[0] = 1 << 6;
    let answer = commitment(&[batch]);
    assert_eq!(panicked(answer.clone()), CHECKED);
    assert_eq!(answer.is_ok(), !CHECKED);
}

// ENCODING: the original checks nothing; 15 in document 01.
// ================================================================================================

#[test]
fn a_group_of_ten_is_written() {
    let answer = encode(&[one_group(&[PLAIN; 10], 1)]);
    assert_eq!(panicked(answer.clone()), CHECKED);
    if !CHECKED {
        let bytes = answer.unwrap();
        assert_eq!(bytes[15..], [10, 0, 0, 0, 0]);
        assert_eq!(decode(&bytes, 0).unwrap_err().number, 6);
    }
}

/// Sixteen spill into the next group's nibble: the bytes are those of another block.
#[test]
fn a_group_of_sixteen_spills() {
    let answer = encode(&[one_group(&[PLAIN; 16], 1)]);
    assert_eq!(panicked(answer.clone()), CHECKED);
    if !CHECKED {
        assert_eq!(answer.unwrap()[21..], [0x10, 0, 0, 0, 0]);
    }
}

/// A difference below 0 wraps, and its low bits are written.
#[test]
fn falling_starts_wrap() {
    let mut batch = Batch {
        ops: vec![PLAIN],
        starts: [1; 9],
        count: 1,
        ..Batch::default()
    };
    batch.starts[0] = 0;
    batch.starts[8] = 0;
    let answer = encode(&[batch]);
    assert_eq!(panicked(answer.clone()), CHECKED);
    if !CHECKED {
        // 1, 0, 0, 0, 0, 0, 0 and 2^64 - 1, of which the low byte shifted by four is left.
        assert_eq!(answer.unwrap()[6..], [1, 0, 0, 0xf0, 0]);
    }
}

/// The first start is not written: the block does not read back.
#[test]
fn starts_from_1_are_written_as_from_0() {
    let answer = encode(&[Batch {
        ops: vec![PLAIN],
        starts: [1; 9],
        ..Batch::default()
    }]);
    assert_eq!(panicked(answer.clone()), CHECKED);
    if !CHECKED {
        let bytes = answer.unwrap();
        assert_eq!(bytes, [3, 2, 1, 0, 0, 0, 0, 0, 0, 0, 0]);
        assert_eq!(decode(&bytes, 0).unwrap_err().number, 11);
    }
}

#[test]
fn the_operations_lent_need_not_be_covered() {
    let bytes = encode(&[Batch {
        ops: vec![PLAIN],
        ..Batch::default()
    }])
    .unwrap();
    assert_eq!(bytes, [3, 2, 1, 0, 0, 0, 0, 0, 0, 0, 0]);
    assert_eq!(decode(&bytes, 0).unwrap_err().number, 11);
}

/// No operations and no batches can be written, but the original's builder makes no such node.
#[test]
fn the_empty_block_can_only_be_read() {
    assert_eq!(decode(&[1, 0, 0, 0, 0], 0).unwrap(), (vec![], 5));
    assert_eq!(batch(&[]).unwrap_err().number, 12);
}

// LIMITS: 3 in document 01; the original has none.
// ================================================================================================

#[test]
fn no_limit_on_lists_batches_operations_or_bytes() {
    assert_eq!(batch(&vec![PLAIN; 16_385]).unwrap().len(), 228);

    let mut bytes = vec![1];
    bytes.extend(16_385u32.to_le_bytes());
    bytes.extend(vec![0; 5 * 16_385]);
    assert_eq!(decode(&bytes, 0).unwrap().0.len(), 16_385);

    let batches = batch(&vec![PLAIN; 65_536]).unwrap();
    let bytes = encode(&batches).unwrap();
    assert!(batches.iter().map(|b| b.ops.len()).sum::<usize>() > 65_535);
    assert_eq!(decode(&bytes, 0).unwrap().0, batches);

    let mut bytes = vec![1, 0, 0, 0, 0];
    bytes.resize(1_048_577, 0);
    assert_eq!(decode(&bytes, 0).unwrap(), (vec![], 5));
}

// TABLES: the original checks nothing; 15 or 10 in document 01.
// ================================================================================================

/// An empty group with a flag: none minus one.
#[test]
fn tables_panic_on_a_flagged_empty_group() {
    let mut batch = Batch {
        count: 1,
        ..Batch::default()
    };
    batch.flags[0] = true;
    let batches = [batch];
    assert!(panicked(raw_table(&batches)));
    assert!(panicked(padded_table(&batches)));
    assert!(panicked(raw_operations(&batches)));
}

#[test]
fn tables_panic_on_falling_starts() {
    let mut batch = Batch {
        ops: vec![PLAIN],
        count: 1,
        ..Batch::default()
    };
    batch.starts[0] = 1;
    assert!(panicked(raw_table(std::slice::from_ref(&batch))));
    assert!(panicked(padded_table(&[batch])));
    let nine = Batch {
        count: 9,
        ..Batch::default()
    };
    assert!(panicked(raw_table(std::slice::from_ref(&nine))));
    assert!(panicked(padded_table(&[nine])));
}

/// Entries for operations that are not there, and none for operations past the count.
#[test]
fn tables_do_not_look_at_the_operations() {
    let mut batch = Batch {
        count: 1,
        ..Batch::default()
    };
    batch.starts[1] = 2;
    batch.flags[0] = true;
    assert_eq!(raw_table(std::slice::from_ref(&batch)).unwrap(), [0, 1]);
    assert_eq!(padded_table(&[batch]).unwrap(), [0, 0, 1]);
    assert_eq!(raw_table(&[one_group(&[PLAIN], 0)]).unwrap(), [0]);
    // A flagged group that ends in another operation than Noop.
    let mut batch = one_group(&[PLAIN], 1);
    batch.flags[0] = true;
    assert_eq!(raw_table(&[batch]).unwrap(), [1]);
}

/// A start that is large but does not wrap asks for that much memory and ends the process. This
/// crate does not make the call.
#[test]
fn tables_ask_for_any_memory() {
    let mut batch = Batch {
        count: 1,
        ..Batch::default()
    };
    batch.starts[1] = 1 << 50;
    let not_called = |answer: Result<Vec<usize>, original::Refused>| {
        answer.is_err_and(|refused| !refused.panicked && refused.number == 0)
    };
    assert!(not_called(raw_table(std::slice::from_ref(&batch))));
    assert!(not_called(padded_table(std::slice::from_ref(&batch))));
    // Behind a group on which the raw table panics.
    let mut first = Batch {
        count: 1,
        ..Batch::default()
    };
    first.flags[0] = true;
    let batches = [first, batch];
    assert!(panicked(raw_table(&batches)));
    assert!(not_called(padded_table(&batches)));
}

/// None in document 01.
#[test]
fn index_lookups_panic_past_the_last_entry() {
    let batches = batch(&[PUSH]).unwrap();
    assert!(panicked(raw_to_padded(&batches, &[2])));
    assert!(panicked(padded_to_raw(&batches, &[3])));
    assert!(panicked(raw_to_padded(&[], &[1])));
    assert_eq!(raw_to_padded(&[], &[0]).unwrap(), [0]);
}

// LOOKUPS IN ONE BATCH
// ================================================================================================

/// None in document 01; the original counts on from the largest number to 0.
#[test]
fn the_group_after_the_largest_number() {
    let batches = batch(&[PUSH]).unwrap();
    let answer = next_op_group_index(&batches[0], usize::MAX);
    assert_eq!(panicked(answer.clone()), CHECKED);
    if !CHECKED {
        assert_eq!(answer, Ok(Some(0)));
    }
    assert_eq!(next_op_group_index(&batches[0], usize::MAX - 1), Ok(None));
}

/// 15 in document 01.
#[test]
fn lookups_do_not_look_at_structure() {
    // An operation past the count is found in a group that is not there.
    let answer = op_idx_in_batch_to_group(&one_group(&[PLAIN], 0), 0);
    assert_eq!(panicked(answer.clone()), CHECKED);
    if !CHECKED {
        assert_eq!(answer, Ok(Some((0, 0))));
    }
    // Starts from 1: no group has passed operation 0, and 0 - 1 wraps.
    let batch = Batch {
        ops: vec![PLAIN],
        starts: [1; 9],
        count: 1,
        ..Batch::default()
    };
    let answer = op_idx_in_batch_to_group(&batch, 0);
    assert_eq!(panicked(answer.clone()), CHECKED);
    if !CHECKED {
        assert_eq!(answer, Ok(Some((0, usize::MAX))));
    }
    // A count over eight.
    let nine = Batch {
        ops: vec![PLAIN],
        count: 9,
        ..Batch::default()
    };
    assert!(panicked(op_idx_in_batch_to_group(&nine, 0)));
    assert!(panicked(next_op_group_index(&nine, 0)));
    // The operations lent, not the ninth start, are the end.
    let short = Batch {
        starts: one_group(&[PLAIN], 1).starts,
        count: 1,
        ..Batch::default()
    };
    assert_eq!(op_idx_in_batch_to_group(&short, 0), Ok(None));
    // Falling starts make a group of operations.
    let mut falling = Batch {
        count: 2,
        ..Batch::default()
    };
    falling.starts[1] = 1;
    assert_eq!(next_op_group_index(&falling, 0), Ok(Some(1)));
}

// STRICT READING: the original takes what 02's M-107 refuses with 18.
// ================================================================================================

/// Blocks that can be read and that no batching makes: read, and batched again without padding, they
/// are other blocks.
#[test]
fn blocks_that_no_batching_makes_are_taken() {
    let again = |bytes: &[u8]| {
        let (read, used) = decode(bytes, 0).unwrap();
        assert_eq!(used, bytes.len());
        let list = raw_operations(&read).unwrap();
        let made = batch(&list);
        assert_ne!(made.as_ref().ok(), Some(&read));
        if let Ok(made) = &made {
            assert_ne!(encode(made).unwrap(), bytes);
        }
        (list, made.map_err(|refused| refused.number))
    };
    // Nothing of its own: no batch, an empty one, a flagged Noop.
    let nothing: [&[u8]; 3] = [
        &[1, 0, 0, 0, 0],
        &[1, 1, 0, 0, 0, 0, 0, 0, 0, 0],
        &[3, 0, 1, 0, 0, 0, 1, 0, 0, 0, 1],
    ];
    for bytes in nothing {
        assert_eq!(again(bytes), (vec![], Err(12)));
    }
    let one: [&[u8]; 4] = [
        // An empty batch after it; before it; in group 1; a flag above the count.
        &[3, 2, 2, 0, 0, 0, 1, 0, 0, 0, 0, 0, 0, 0, 0, 0],
        &[3, 2, 2, 0, 0, 0, 0, 0, 0, 0, 1, 0, 0, 0, 0, 0],
        &[3, 2, 1, 0, 0, 0, 0x10, 0, 0, 0, 0],
        &[3, 2, 1, 0, 0, 0, 1, 0, 0, 0, 2],
    ];
    for bytes in one {
        assert_eq!(again(bytes).0, [PLAIN]);
    }
    // Two batches; two groups; a Noop of its own flagged.
    let two: [&[u8]; 2] = [
        &[5, 2, 2, 2, 0, 0, 0, 1, 0, 0, 0, 1, 0, 0, 0, 0, 0],
        &[5, 2, 2, 1, 0, 0, 0, 0x11, 0, 0, 0, 0],
    ];
    for bytes in two {
        assert_eq!(again(bytes).0, [PLAIN; 2]);
    }
    let flagged = [5, 2, 0, 1, 0, 0, 0, 2, 0, 0, 0, 1];
    assert_eq!(again(&flagged).0, [PLAIN]);
    // An immediate without its padding; three groups.
    let unpadded = [3, 91, 5, 0, 0, 0, 0, 0, 0, 0, 1, 0, 0, 0, 1, 0, 0, 0, 0];
    assert_eq!(again(&unpadded).0, [PUSH]);
    let three = [&[39][..], &[2; 19], &[1, 0, 0, 0, 0x99, 1, 0, 0, 0]].concat();
    assert_eq!(again(&three).0, [PLAIN; 19]);
}

/// Over 16,384 operations: read and batched, and the same block.
#[test]
fn a_long_list_is_read_and_batched() {
    let made = batch(&vec![PLAIN; 16_385]).unwrap();
    let bytes = encode(&made).unwrap();
    let (read, _) = decode(&bytes, 0).unwrap();
    assert_eq!(read, made);
    assert_eq!(raw_operations(&read).unwrap().len(), 16_385);
}
