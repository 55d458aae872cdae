//! Two blocks beside each other (M-105): the request's edges, entry by entry, and its laws on all small
//! blocks.

use model::{Answer, RECORD, Room, Source, cases::table_t, compare, decode};

/// P1: an immediate and its padding.
const P1: [u8; 20] = [5, 1, 5, 0, 0, 0, 0, 0, 0, 0, 0, 1, 0, 0, 0, 2, 0, 0, 0, 1];
/// One plain operation.
const ONE: [u8; 11] = [3, 2, 1, 0, 0, 0, 1, 0, 0, 0, 0];
/// Nothing, and one empty batch.
const NOTHING: [u8; 5] = [1, 0, 0, 0, 0];
const EMPTY: [u8; 10] = [1, 1, 0, 0, 0, 0, 0, 0, 0, 0];

const WIDE: Room = Room {
    codes: 9,
    values: 9,
    records: 3 * RECORD,
};

fn source<'a>(table: &'a [u8], bytes: &'a [u8]) -> Source<'a> {
    Source {
        table,
        bytes,
        at: 0,
        room: WIDE,
    }
}

/// P1 with another byte at a place.
fn p1(at: usize, byte: u8) -> Vec<u8> {
    let mut bytes = P1.to_vec();
    bytes[at] = byte;
    bytes
}

fn entries(answer: &Answer) -> Vec<[i32; 4]> {
    assert_eq!((answer.mark, answer.number, answer.place), (0, 0, 0));
    let (all, _) = answer.report.as_chunks();
    assert!(all[answer.rest[0]..].iter().all(|entry| *entry == [0; 4]));
    all[..answer.rest[0]].to_vec()
}

fn said(first: &[u8], second: &[u8]) -> Vec<[i32; 4]> {
    let table = table_t();
    entries(&compare(source(&table, first), source(&table, second), 100))
}

#[test]
fn what_is_reported() {
    assert!(said(&P1, &P1).is_empty());
    // Value 6: the number of group 1, and operation 0.
    assert_eq!(said(&P1, &p1(2, 6)), [[1, 0, 1, 0], [4, 0, 0, 0]]);
    // Its Noop unflagged: an operation of its own more, a padding less.
    let unflagged = [[2, 0, 0, 0], [9, 0, 0, 1], [10, 0, 0, -1]];
    assert_eq!(said(&P1, &p1(19, 0)), unflagged);
    // A flag at or above the count is compared, and no padding.
    assert_eq!(said(&P1, &p1(19, 0x81)), [[2, 0, 7, 0]]);
    // A batch more on either side.
    assert_eq!(said(&NOTHING, &EMPTY), [[6, 0, 1, 0], [7, 0, 0, 1]]);
    assert_eq!(said(&EMPTY, &NOTHING), [[6, 0, 2, 0], [7, 0, 0, -1]]);
    let all = [
        [6, 0, 2, 0],
        [7, 0, 0, -1],
        [8, 0, 0, -2],
        [9, 0, 0, -1],
        [10, 0, 0, -1],
    ];
    assert_eq!(said(&P1, &NOTHING), all);
    // An empty batch beside one with an operation.
    let batch = [
        [1, 0, 0, 0],
        [3, 0, 0, 0],
        [5, 0, 0, 0],
        [8, 0, 0, 1],
        [9, 0, 0, 1],
    ];
    assert_eq!(said(&EMPTY, &ONE), batch);
}

/// Places are counted in the batch: the second batch's operation 0 is the block's operation 2.
#[test]
fn places_are_those_of_the_batch() {
    let two = |code| {
        let mut bytes = vec![7, 2, 2, code, 2, 0, 0, 0];
        bytes.extend([2, 0, 0, 0, 1, 0, 0, 0, 0, 0]);
        bytes
    };
    assert_eq!(said(&two(2), &two(0)), [[1, 1, 0, 0], [4, 1, 0, 0]]);
}

#[test]
fn two_tables_read_the_same_bytes() {
    let table = table_t();
    let mut carried = table.clone();
    carried[1] = 2;
    // For the second its value is only carried: it has no group of its own.
    let answer = compare(source(&table, &P1), source(&carried, &P1), 8);
    assert_eq!(entries(&answer), [[1, 0, 1, 0], [5, 0, 0, 0]]);
}

#[test]
fn whose_refusal_it_is() {
    let table = table_t();
    let good = source(&table, &P1);
    let nibble = p1(15, 10);
    let left = p1(15, 1);
    let (nibble, left) = (source(&table, &nibble), source(&table, &left));
    let past = Source { at: 21, ..good };
    let small = Source {
        room: Room { codes: 1, ..WIDE },
        ..good
    };
    let marked = |first, second, report| {
        let answer = compare(first, second, report);
        assert_eq!(answer.rest, [0; 3]);
        assert!(answer.report == vec![0; report]);
        (answer.mark, answer.number)
    };
    assert_eq!(marked(nibble, good, 40), (1, 6));
    assert_eq!(marked(good, nibble, 40), (2, 6));
    assert_eq!(marked(nibble, past, 40), (1, 6));
    assert_eq!(marked(past, nibble, 0), (1, 1));
    assert_eq!(marked(good, small, 40), (2, 13));
    assert_eq!(marked(small, past, 40), (1, 13));
    // Before a report too short.
    assert_eq!(marked(good, past, 0), (2, 1));
    // Its padding is not there: 10.
    assert_eq!(marked(left, good, 0), (1, 10));
    let other = p1(2, 6);
    assert_eq!(marked(good, source(&table, &other), 7), (0, 13));
}

/// Every small block: three operations at most, in two batches of two groups, with every flag of these.
fn small_blocks() -> Vec<Vec<u8>> {
    let mut all = Vec::new();
    for lengths in [[0, 0], [1, 0], [0, 1], [1, 1], [2, 0]] {
        for more in [None, Some([0, 0]), Some([1, 0])] {
            let operations: u8 = lengths.iter().chain(more.iter().flatten()).sum();
            let batches = 1 + u8::from(more.is_some());
            for codes in 0..1u32 << operations {
                for flags in 0..1u8 << (2 * batches) {
                    let mut bytes = vec![2 * operations + 1];
                    bytes.extend((0..operations).map(|i| 2 * (codes >> i & 1) as u8));
                    bytes.extend([batches, 0, 0, 0]);
                    for [low, high] in [Some(lengths), more].into_iter().flatten() {
                        bytes.extend([low + 16 * high, 0, 0, 0]);
                    }
                    bytes.extend((0..batches).map(|batch| flags >> (2 * batch) & 3));
                    all.push(bytes);
                }
            }
        }
    }
    all
}

/// The laws of the request on all pairs of small blocks.
#[test]
fn the_laws_hold() {
    let table = table_t();
    let good: Vec<Vec<u8>> = small_blocks()
        .into_iter()
        .filter(|bytes| decode(&table, bytes, 0, WIDE).number == 0)
        .collect();
    assert!(good.len() > 150, "{}", good.len());
    for one in &good {
        for other in &good {
            let report = said(one, other);
            assert_eq!(report.is_empty(), one == other);
            let turned: Vec<[i32; 4]> = said(other, one)
                .into_iter()
                .map(|[kind, batch, place, difference]| {
                    let place = if kind == 6 { 3 - place } else { place };
                    [kind, batch, place, -difference]
                })
                .collect();
            assert_eq!(report, turned);
            // Padded operations are the raw ones and the paddings.
            let total = |kind| report.iter().find(|e| e[0] == kind).map_or(0, |e| e[3]);
            assert_eq!(total(8), total(9) + total(10));
            assert!(report.is_sorted_by_key(|entry| match entry[0] {
                kind @ 7.. => (i32::MAX, kind),
                kind => (entry[1], kind),
            }));
        }
    }
}
