//! Every refusal of every function, alone and with every later one that can be had beside it.

use std::collections::BTreeSet;

use model::{Arena, Call, Function, RECORD, answer, cases, encode};

/// What document 01 promises of every refusal: totals 0, outputs zero, encode's buffer as it was.
fn nothing_left(call: Call<'_>, answer: &model::Answer) {
    assert_eq!(answer.rest, [0; 3]);
    assert!(answer.codes.iter().all(|&b| b == 0));
    assert!(answer.values.iter().all(|&b| b == 0));
    assert!(answer.records.iter().all(|&b| b == 0));
    assert!(answer.entries.iter().all(|&b| b == 0));
    assert!(answer.report.iter().all(|&number| number == 0));
    if let Call::Encode { buffer, .. } = call {
        assert_eq!(answer.buffer, buffer);
    }
}

#[test]
fn each_number_and_place() {
    let mut total = 0;
    cases::all(&mut |case| {
        let answer = answer(case.call);
        assert_eq!(
            (answer.number, answer.place),
            (case.number, case.place),
            "{}",
            case.name
        );
        if answer.number != 0 {
            nothing_left(case.call, &answer);
        }
        total += 1;
    });
    assert!(total > 1_000, "{total}");
}

/// The orders of refusal in document 01; 17 stands where 4 does (M-101).
const ORDERS: [(Function, &[u8]); 12] = [
    (Function::Build, &[3, 14, 12, 4, 13]),
    (Function::Build, &[3, 14, 12, 17, 13]),
    (Function::Encode, &[3, 14, 1, 15, 4, 13]),
    (Function::Encode, &[3, 14, 1, 15, 17, 13]),
    (
        Function::Decode,
        &[3, 14, 1, 2, 3, 13, 4, 2, 5, 3, 13, 6, 7, 8, 9, 10, 11],
    ),
    (
        Function::Decode,
        &[3, 14, 1, 2, 3, 13, 17, 2, 5, 3, 13, 6, 7, 8, 9, 10, 11],
    ),
    (Function::Structure, &[3, 15]),
    (Function::Padding, &[3, 15, 10]),
    (Function::Commitment, &[3, 14, 15, 4, 16, 8, 16, 9, 16]),
    (Function::Commitment, &[3, 14, 15, 17, 16, 8, 16, 9, 16]),
    (Function::RawTable, &[3, 15, 10, 13]),
    (Function::PaddedTable, &[3, 15, 10, 13]),
];

/// Neighbours that no input can have at once.
const APART: [(Function, u8, u8); 4] = [
    // An empty list has no operation.
    (Function::Build, 12, 4),
    (Function::Build, 12, 17),
    // An offset past the end is 1; only up to the end do bytes end inside anything.
    (Function::Decode, 1, 2),
    // The batch count is not there, so it can't be too large.
    (Function::Decode, 2, 5),
];

#[test]
fn no_number_and_no_pair_is_left_out() {
    let mut alone = BTreeSet::new();
    let mut pairs = BTreeSet::new();
    cases::all(&mut |case| {
        let function = case.call.function();
        match case.pair {
            None => {
                alone.insert((function, case.number));
            }
            Some((first, second)) => {
                pairs.insert((function, first, second));
            }
        }
    });
    for (function, order) in ORDERS {
        assert!(alone.contains(&(function, 0)), "{function:?}");
        for &number in order {
            assert!(alone.contains(&(function, number)), "{function:?} {number}");
        }
        for two in order.windows(2) {
            let pair = (function, two[0], two[1]);
            assert!(pairs.contains(&pair) || APART.contains(&pair), "{pair:?}");
        }
    }
    for function in [Function::Group, Function::NextGroup] {
        for number in [0, 3, 15] {
            assert!(alone.contains(&(function, number)), "{function:?} {number}");
        }
    }
    // Operation by operation.
    for function in [
        Function::Build,
        Function::Encode,
        Function::Decode,
        Function::Commitment,
    ] {
        for (first, second) in [(4, 17), (17, 4), (17, 17)] {
            let pair = (function, first, second);
            assert!(pairs.contains(&pair), "{pair:?}");
        }
    }
    // Strict reading (M-107): all that decode refuses comes before 18.
    for number in [0, 18] {
        let one = (Function::Strict, number);
        assert!(alone.contains(&one), "{one:?}");
    }
    for number in [1, 2, 3, 4, 5, 6, 7, 8, 9, 10, 11, 13, 14, 17] {
        assert!(alone.contains(&(Function::Decode, number)), "{number}");
        let pair = (Function::Strict, number, 18);
        assert!(pairs.contains(&pair), "{pair:?}");
    }
    // Compare (M-105): all that decode refuses, in both blocks, before 13 of the report.
    for number in [0, 1, 2, 3, 4, 5, 6, 7, 8, 9, 10, 11, 13, 14, 17] {
        let one = (Function::Compare, number);
        assert!(alone.contains(&one), "{one:?}");
        let pair = (Function::Compare, number, 13);
        assert!(number == 0 || pairs.contains(&pair), "{pair:?}");
    }
    // Where both are refused the first's comes, whichever number is less.
    for (first, second) in [(14, 1), (1, 14), (6, 7), (7, 6), (10, 11), (11, 10)] {
        let pair = (Function::Compare, first, second);
        assert!(pairs.contains(&pair), "{pair:?}");
    }
    // Decode's finer orders.
    for (first, second) in [
        (3, 2),
        (2, 3),
        (3, 13),
        (13, 2),
        (4, 2),
        (2, 17),
        (17, 2),
        (4, 5),
        (17, 5),
        (5, 13),
        (13, 7),
        (6, 8),
        (7, 10),
        (8, 10),
        (9, 10),
        (9, 8),
        (10, 7),
        (8, 11),
        (9, 11),
    ] {
        assert!(
            pairs.contains(&(Function::Decode, first, second)),
            "{first} {second}"
        );
    }
}

/// The records without the flags at or above their counts; none if they have no such flag.
fn cleared(records: &[u8]) -> Option<Vec<u8>> {
    let mut clear = records.to_vec();
    for record in clear.chunks_exact_mut(RECORD) {
        let count = usize::from(record[81]);
        record[9..17]
            .iter_mut()
            .skip(count)
            .for_each(|flag| *flag = 0);
    }
    (clear != records).then_some(clear)
}

/// The flags of every block that is read are those of its bytes, at or above the counts too, and it
/// is written back byte for byte.
#[test]
fn what_is_read_is_written_back() {
    let mut kept = 0;
    cases::all(&mut |case| {
        let Call::Decode {
            table, bytes, at, ..
        } = case.call
        else {
            return;
        };
        let read = answer(case.call);
        if read.number != 0 {
            return;
        }
        let [batches, operations, used] = read.rest;
        let records = &read.records[..batches * RECORD];
        let arena = Arena {
            codes: &read.codes[..operations],
            values: &read.values[..operations],
            records,
        };
        let block = &bytes[at..at + used];
        let flags = &block[used - batches..];
        for (record, byte) in records.chunks_exact(RECORD).zip(flags) {
            for group in 0..8 {
                assert_eq!(record[9 + group], byte >> group & 1, "{}", case.name);
            }
        }
        assert_eq!(
            encode(table, arena, &vec![0; used], 0).buffer,
            block,
            "{}",
            case.name
        );
        kept += usize::from(cleared(records).is_some());
    });
    assert!(kept >= 6, "{kept}");
}

/// Checks and tables answer as they do without the flags at or above the counts.
#[test]
fn flags_above_the_count_change_no_answer() {
    let mut kept = BTreeSet::new();
    cases::all(&mut |case| {
        let (Call::Structure { arena }
        | Call::Padding { arena }
        | Call::Commitment { arena, .. }
        | Call::RawTable { arena, .. }
        | Call::PaddedTable { arena, .. }) = case.call
        else {
            return;
        };
        let Some(clear) = cleared(arena.records) else {
            return;
        };
        // A flag of 2 is a fault wherever it is.
        if case.number == 15 {
            return;
        }
        let arena = Arena {
            records: &clear,
            ..arena
        };
        let other = match case.call {
            Call::Structure { .. } => Call::Structure { arena },
            Call::Padding { .. } => Call::Padding { arena },
            Call::Commitment { table, .. } => Call::Commitment { table, arena },
            Call::RawTable { room, .. } => Call::RawTable { arena, room },
            Call::PaddedTable { room, .. } => Call::PaddedTable { arena, room },
            _ => return,
        };
        assert!(answer(case.call) == answer(other), "{}", case.name);
        kept.insert((case.call.function(), case.number));
    });
    for want in [
        (Function::Structure, 0),
        (Function::Padding, 0),
        (Function::Padding, 10),
        (Function::Commitment, 0),
        (Function::RawTable, 0),
        (Function::RawTable, 10),
        (Function::PaddedTable, 0),
        (Function::PaddedTable, 10),
    ] {
        assert!(kept.contains(&want), "{want:?}");
    }
}
