//! Document 01's "Numbers to check", and the offset cases.

use std::collections::BTreeSet;

use model::{
    Arena, Batch, FIELD, Operation, RECORD, Refusal, Room, batches_of, build, cases::table_t,
    commitment, count_bytes, decode, decode_strict, encode, group, next_group, padded_index,
    padded_table, padding, raw_index, raw_table, read_count, read_operation, structure,
};

/// Room for anything in these tests.
const WIDE: Room = Room {
    codes: 70_000,
    values: 70_000,
    records: 3_000 * RECORD,
};

/// What build makes of a list, cut at its totals.
struct Block {
    codes: Vec<u8>,
    values: Vec<u64>,
    records: Vec<u8>,
    batches: Vec<Batch>,
}

impl Block {
    fn arena(&self) -> Arena<'_> {
        Arena {
            codes: &self.codes,
            values: &self.values,
            records: &self.records,
        }
    }

    fn bytes(&self) -> Vec<u8> {
        let answer = encode(&table_t(), self.arena(), &[0; 700_000], 0);
        assert_eq!(answer.number, 0);
        answer.buffer[..answer.rest[0]].to_vec()
    }
}

fn block(list: &[(u8, u64)]) -> Block {
    let codes: Vec<u8> = list.iter().map(|op| op.0).collect();
    let values: Vec<u64> = list.iter().map(|op| op.1).collect();
    let answer = build(&table_t(), &codes, &values, WIDE);
    assert_eq!(answer.number, 0);
    let [batches, operations, _] = answer.rest;
    let records = answer.records[..batches * RECORD].to_vec();
    Block {
        codes: answer.codes[..operations].to_vec(),
        values: answer.values[..operations].to_vec(),
        batches: batches_of(&records),
        records,
    }
}

fn plain(n: usize) -> Vec<(u8, u64)> {
    vec![(2, 0); n]
}

fn push(n: usize) -> Vec<(u8, u64)> {
    vec![(1, 5); n]
}

#[test]
fn p1_to_p3() {
    let p1 = block(&[(1, 5)]);
    assert_eq!(p1.codes, [1, 0]);
    assert_eq!(p1.values, [5, 0]);
    assert_eq!(
        p1.batches,
        [Batch {
            starts: [0, 2, 2, 2, 2, 2, 2, 2, 2],
            flags: [1, 0, 0, 0, 0, 0, 0, 0],
            numbers: [1, 5, 0, 0, 0, 0, 0, 0],
            count: 2,
        }]
    );
    let bytes = [5, 1, 5, 0, 0, 0, 0, 0, 0, 0, 0, 1, 0, 0, 0, 2, 0, 0, 0, 1];
    assert_eq!(p1.bytes(), bytes);
    let read = decode(&table_t(), &bytes, 0, WIDE);
    assert_eq!((read.number, read.rest), (0, [1, 2, 20]));
    assert_eq!(read.records[..RECORD], p1.records);
    let raw = raw_table(p1.arena(), 4);
    assert_eq!(
        (raw.number, raw.rest[0], raw.entries),
        (0, 2, vec![0, 1, 0, 0])
    );
    let padded = padded_table(p1.arena(), 3);
    assert_eq!(
        (padded.number, padded.rest[0], padded.entries),
        (0, 3, vec![0, 0, 1])
    );
}

#[test]
fn p4_to_p7() {
    let p4 = block(&plain(9));
    assert_eq!(p4.batches.len(), 1);
    assert_eq!(p4.batches[0].count, 1);
    assert_eq!(p4.batches[0].numbers[0], 145_249_953_336_295_682);
    assert_eq!(p4.batches[0].flags, [0; 8]);

    let p5 = block(&plain(19));
    assert_eq!(p5.batches.len(), 1);
    assert_eq!(p5.batches[0].starts, [0, 9, 18, 19, 20, 20, 20, 20, 20]);
    assert_eq!(p5.batches[0].flags, [0, 0, 0, 1, 0, 0, 0, 0]);
    assert_eq!(p5.batches[0].numbers[3], 0);
    assert_eq!(p5.batches[0].count, 4);

    let p6 = block(&[plain(8), push(1)].concat());
    assert_eq!(p6.batches.len(), 1);
    assert_eq!(p6.batches[0].starts, [0, 8, 10, 10, 11, 11, 11, 11, 11]);
    assert_eq!(p6.batches[0].flags, [0, 1, 0, 1, 0, 0, 0, 0]);
    assert_eq!(
        p6.batches[0].numbers,
        [1_134_765_260_439_810, 1, 5, 0, 0, 0, 0, 0]
    );

    let p7 = block(&push(7));
    assert_eq!(p7.batches.len(), 1);
    assert_eq!(p7.batches[0].count, 8);
    assert_eq!(p7.codes.len(), 8);
    assert_eq!(p7.batches[0].numbers[0], 4_432_676_798_593);
    assert_eq!(block(&push(8)).batches.len(), 2);
}

#[test]
fn p8() {
    for (count, form) in [
        (127, vec![0xff]),
        (128, vec![2, 2]),
        (16_383, vec![0xfe, 0xff]),
        (16_384, vec![4, 0, 2]),
    ] {
        assert_eq!(count_bytes(count), form);
        assert_eq!(read_count(&form, 0), Ok((count, form.len())));
    }
    for count in 0..=65_535 {
        let form = count_bytes(count);
        assert_eq!(read_count(&form, 0), Ok((count, form.len())));
    }
    assert_eq!(read_count(&[4, 0, 8], 0).unwrap_err().number, 3);
}

/// A block of plain operations with one batch of these nibbles.
fn with_nibbles(ops: usize, nibbles: [u8; 4]) -> Vec<u8> {
    let mut bytes = count_bytes(ops);
    bytes.extend(vec![2; ops]);
    bytes.extend([1, 0, 0, 0]);
    bytes.extend(nibbles);
    bytes.push(0);
    bytes
}

#[test]
fn p9_p10_and_offsets() {
    let table = table_t();
    let number = |bytes: &[u8], at| {
        let answer = decode(&table, bytes, at, WIDE);
        (answer.number, answer.place)
    };
    assert_eq!(number(&with_nibbles(9, [9, 0, 0, 0]), 0), (0, 0));
    assert_eq!(number(&with_nibbles(10, [10, 0, 0, 0]), 0), (6, 0));

    let empty = decode(&table, &with_nibbles(0, [0; 4]), 0, WIDE);
    assert_eq!((empty.number, empty.rest), (0, [1, 0, 10]));
    assert_eq!(empty.records[RECORD - 1], 0);
    assert_eq!(number(&with_nibbles(1, [0; 4]), 0), (11, 0));

    let bytes = with_nibbles(9, [9, 0, 0, 0]);
    assert_eq!(number(&bytes, bytes.len()), (2, bytes.len()));
    assert_eq!(number(&bytes, bytes.len() + 1), (1, 0));
    assert_eq!(number(&[1, 1, 0, 0, 0, 0, 0, 0, 0], 0), (5, 0));
    assert_eq!(number(&[1, 0, 0, 0, 0], 0), (0, 0));
}

/// What the numbers above leave open (the list of readings, C-12).
#[test]
fn the_greedy_fit() {
    let full = block(&plain(72));
    assert_eq!(full.batches.len(), 1);
    assert_eq!(full.batches[0].starts, [0, 9, 18, 27, 36, 45, 54, 63, 72]);
    assert_eq!(full.batches[0].flags, [0; 8]);
    assert_eq!(block(&plain(73)).batches.len(), 2);
    assert_eq!(block(&[push(7), plain(2)].concat()).batches.len(), 1);
    assert_eq!(block(&[push(7), plain(3)].concat()).batches.len(), 2);
    // Two batches: all nibbles, then all flags.
    let bytes = block(&[push(7), plain(2), push(1)].concat()).bytes();
    assert_eq!(
        bytes[bytes.len() - 14..],
        [2, 0, 0, 0, 9, 0, 0, 0, 2, 0, 0, 0, 0, 1]
    );
}

/// "Errors the rules must catch".
#[test]
fn errors_to_catch() {
    // A kind 2 value is not placed.
    let carried = block(&[(3, 9)]);
    assert_eq!(carried.batches[0].count, 1);
    assert_eq!(carried.batches[0].numbers, [3, 0, 0, 0, 0, 0, 0, 0]);
    assert_eq!(carried.bytes()[..10], [3, 3, 9, 0, 0, 0, 0, 0, 0, 0]);
    // An immediate is not the ninth of a group.
    assert_eq!(block(&[plain(8), push(1)].concat()).batches[0].starts[1], 8);
    // A caller's own last Noop carries no flag and stays.
    let own = block(&[(2, 0), (0, 0)]);
    assert_eq!(own.batches[0].flags, [0; 8]);
    assert_eq!(raw_table(own.arena(), 3).rest[0], 3);
    // An empty batch in the middle of a block.
    let mut bytes = vec![5, 2, 2, 3, 0, 0, 0];
    bytes.extend([1, 0, 0, 0, 0, 0, 0, 0, 1, 0, 0, 0, 0, 0, 0]);
    assert_eq!(decode(&table_t(), &bytes, 0, WIDE).rest, [3, 2, 22]);
}

/// M-100: a flag at or above the count is kept as it is read, written back, and no padding.
#[test]
fn flags_above_the_count() {
    let table = table_t();
    let bare = |flags| vec![1, 1, 0, 0, 0, 0, 0, 0, 0, flags];
    let plain = |flags| vec![3, 2, 1, 0, 0, 0, 1, 0, 0, 0, flags];
    let p1 = |flags| {
        vec![
            5, 1, 5, 0, 0, 0, 0, 0, 0, 0, 0, 1, 0, 0, 0, 2, 0, 0, 0, flags,
        ]
    };
    for (bytes, flags, count, raw, padded) in [
        (bare(1), [1, 0, 0, 0, 0, 0, 0, 0], 0, vec![0], vec![0]),
        (bare(0xff), [1; 8], 0, vec![0], vec![0]),
        (
            plain(2),
            [0, 1, 0, 0, 0, 0, 0, 0],
            1,
            vec![0, 0],
            vec![0, 0],
        ),
        (
            plain(0x80),
            [0, 0, 0, 0, 0, 0, 0, 1],
            1,
            vec![0, 0],
            vec![0, 0],
        ),
        (
            plain(0xfe),
            [0, 1, 1, 1, 1, 1, 1, 1],
            1,
            vec![0, 0],
            vec![0, 0],
        ),
        (
            p1(5),
            [1, 0, 1, 0, 0, 0, 0, 0],
            2,
            vec![0, 1],
            vec![0, 0, 1],
        ),
        (
            p1(0xfc),
            [0, 0, 1, 1, 1, 1, 1, 1],
            2,
            vec![0, 0, 0],
            vec![0, 0, 0],
        ),
        (
            p1(0xfd),
            [1, 0, 1, 1, 1, 1, 1, 1],
            2,
            vec![0, 1],
            vec![0, 0, 1],
        ),
    ] {
        let read = decode(&table, &bytes, 0, WIDE);
        assert_eq!((read.number, read.rest[2]), (0, bytes.len()));
        let operations = read.rest[1];
        let block = Block {
            codes: read.codes[..operations].to_vec(),
            values: read.values[..operations].to_vec(),
            records: read.records[..RECORD].to_vec(),
            batches: batches_of(&read.records[..RECORD]),
        };
        assert_eq!(block.batches[0].count, count);
        assert_eq!(block.batches[0].flags, flags);
        assert_eq!(block.bytes(), bytes);
        let arena = block.arena();
        assert_eq!(structure(arena).number, 0);
        assert_eq!(padding(arena).number, 0);
        assert_eq!(commitment(&table, arena).number, 0);
        assert_eq!(raw_table(arena, raw.len()).entries, raw);
        assert_eq!(padded_table(arena, padded.len()).entries, padded);
    }
    // What comes later is looked for; flags under the count too.
    for (bytes, number, place) in [
        (vec![3, 2, 1, 0, 0, 0, 0, 0, 0, 0, 1], 11, 0),
        (plain(3), 10, 0),
        (p1(0xff), 10, 0),
        (vec![3, 2, 2, 0, 0, 0, 1, 0, 0, 0, 1, 0, 0, 0, 2, 0], 7, 1),
        (
            vec![5, 2, 2, 2, 0, 0, 0, 1, 0, 0, 0, 1, 0, 0, 0, 2, 1],
            10,
            1,
        ),
        // An empty group under the count, and one above it.
        (vec![3, 2, 1, 0, 0, 0, 0x10, 0, 0, 0, 0xfd], 10, 0),
    ] {
        let answer = decode(&table, &bytes, 0, WIDE);
        assert_eq!((answer.number, answer.place), (number, place), "{bytes:?}");
    }
}

/// M-101: one operation read.
#[test]
fn opcode_then_missing_bytes_then_value() {
    let table = table_t();
    let read = |bytes: &[u8]| read_operation(&table, bytes, 1, 7);
    let valued = |code: u8, value: u64, cut: usize| {
        let bytes = [&[9, code][..], &value.to_le_bytes()].concat();
        bytes[..bytes.len() - cut].to_vec()
    };
    let refused = |number, place| Err(Refusal { number, place });
    // The bytes end before the opcode.
    assert_eq!(read(&[9]), refused(2, 1));
    assert_eq!(read(&[]), refused(2, 1));
    for code in [0, 2] {
        let op = Operation { code, value: 0 };
        assert_eq!(read(&[9, code]), Ok((op, 1)));
        assert_eq!(read(&valued(code, FIELD, 0)), Ok((op, 1)));
    }
    for code in [4, 127, 128, 255] {
        for value in [0, FIELD - 1, FIELD, u64::MAX] {
            for cut in 0..=8 {
                assert_eq!(read(&valued(code, value, cut)), refused(4, 7));
            }
        }
    }
    for code in [1, 3] {
        for value in [0, 5, FIELD - 1] {
            assert_eq!(
                read(&valued(code, value, 0)),
                Ok((Operation { code, value }, 9))
            );
        }
        for value in [FIELD, FIELD + 1, u64::MAX] {
            assert_eq!(read(&valued(code, value, 0)), refused(17, 7));
        }
        for cut in 1..=8 {
            assert_eq!(read(&valued(code, u64::MAX, cut)), refused(2, 1));
        }
    }
}

/// M-101: the first operation at fault, with its own number, in everything that looks at a list.
#[test]
fn two_faults_told_apart() {
    let table = table_t();
    // All lists of three, each operation of them good or at fault.
    let letters = [
        (2, 0, 0),
        (3, FIELD - 1, 0),
        (128, FIELD, 4),
        (4, 1, 4),
        (0, 1, 17),
        (1, FIELD, 17),
        (3, u64::MAX, 17),
    ];
    let mut seen = [0; 18];
    for word in 0..letters.len().pow(3) {
        let list = [0, 1, 2].map(|i| letters[word / letters.len().pow(i) % letters.len()]);
        let codes = list.map(|op| op.0);
        let values = list.map(|op| op.1);
        let fault = list.iter().position(|op| op.2 != 0);
        let want = fault.map_or((0, 0), |place| (list[place].2, place));
        let batch = Batch {
            starts: [0, 3, 3, 3, 3, 3, 3, 3, 3],
            numbers: core::array::from_fn(|group| match group {
                0 => (0..3).map(|i| u64::from(codes[i]) << (7 * i)).sum(),
                _ => 0,
            }),
            count: 1,
            ..Batch::default()
        };
        let records = batch.record();
        let arena = Arena {
            codes: &codes,
            values: &values,
            records: &records,
        };
        let number = |answer: model::Answer| (answer.number, answer.place);
        assert_eq!(number(build(&table, &codes, &values, WIDE)), want);
        assert_eq!(number(encode(&table, arena, &[0; 50], 0)), want);
        assert_eq!(number(commitment(&table, arena)), want);
        seen[usize::from(want.0)] += 1;
    }
    // Each of the five letters at fault is the first one in 67 lists.
    assert_eq!((seen[0], seen[4], seen[17]), (8, 2 * 67, 3 * 67));
}

#[test]
fn lookups() {
    let p6 = block(&[plain(8), push(1)].concat());
    // Starts 0 8 10 10 11: group 2 is the immediate, group 3 is padding.
    let found = |index| group(&p6.records, index).rest;
    assert_eq!(found(0), [1, 0, 0]);
    assert_eq!(found(7), [1, 0, 7]);
    assert_eq!(found(8), [1, 1, 0]);
    assert_eq!(found(10), [1, 3, 0]);
    assert_eq!(found(11), [0; 3]);
    assert_eq!(found(usize::MAX), [0; 3]);
    let next = |group| next_group(&p6.records, group).rest;
    assert_eq!(next(0), [1, 1, 0]);
    assert_eq!(next(1), [1, 3, 0]);
    assert_eq!(next(3), [0; 3]);
    assert_eq!(next(usize::MAX), [0; 3]);
    assert_eq!(group(&p6.records[1..], 0).number, 3);

    let table = [0, 1, u64::MAX];
    assert_eq!(padded_index(&table, 1).rest, [1, 2, 0]);
    assert_eq!(padded_index(&table, 2).rest, [0; 3]);
    assert_eq!(padded_index(&[0, u64::MAX - 1], 1).rest, [1, usize::MAX, 0]);
    assert_eq!(padded_index(&table, 3).rest, [0; 3]);
    assert_eq!(raw_index(&table, 1).rest, [1, 0, 0]);
    assert_eq!(raw_index(&table, 2).rest, [0; 3]);
    assert_eq!(raw_index(&[], 0).rest, [0; 3]);
}

/// A small generator, for lists that are the same each time.
struct Seed(u64);

impl Seed {
    fn under(&mut self, bound: u64) -> u64 {
        self.0 ^= self.0 << 13;
        self.0 ^= self.0 >> 7;
        self.0 ^= self.0 << 17;
        self.0 % bound
    }
}

/// Demand 3 on lists of all kinds.
#[test]
fn lists_there_and_back() {
    let table = table_t();
    let mut seed = Seed(0x9e37_79b9_7f4a_7c15);
    for turn in 0..400 {
        let n = 1 + seed.under(if turn % 20 == 0 { 1_000 } else { 60 }) as usize;
        let immediates = seed.under(11);
        let list: Vec<(u8, u64)> = (0..n)
            .map(|_| match seed.under(10) {
                k if k < immediates => (1, seed.under(FIELD)),
                9 => (3, seed.under(FIELD)),
                8 => (0, 0),
                _ => (2, 0),
            })
            .collect();
        let block = block(&list);
        let arena = block.arena();
        assert_eq!(structure(arena).number, 0);
        assert_eq!(padding(arena).number, 0);
        assert_eq!(commitment(&table, arena).number, 0);

        let last = block.batches.len() - 1;
        let mut at = 0;
        let mut kept = Vec::new();
        for (i, batch) in block.batches.iter().enumerate() {
            assert!([1, 2, 4, 8].contains(&batch.count));
            assert!(i == last || batch.count == 8);
            for group in 0..8 {
                let (from, to) = (batch.starts[group], batch.starts[group + 1]);
                assert!(to - from <= 9);
                for op in from..to {
                    let op = at + op as usize;
                    let ends = op + 1 == at + to as usize;
                    assert!(!(ends && block.codes[op] == 1));
                    if !(ends && batch.flags[group] == 1) {
                        kept.push((block.codes[op], block.values[op]));
                    }
                }
            }
            at += batch.total();
        }
        assert_eq!(kept, list);

        let bytes = block.bytes();
        let read = decode(&table, &bytes, 0, WIDE);
        assert_eq!(read.rest, [last + 1, block.codes.len(), bytes.len()]);
        assert_eq!(read.records[..block.records.len()], block.records);
        assert_eq!(read.codes[..block.codes.len()], block.codes);
        assert_eq!(read.values[..block.values.len()], block.values);
        assert_eq!(decode_strict(&table, &bytes, 0, WIDE), read);
        assert_ne!(decode(&table, &bytes[..bytes.len() - 1], 0, WIDE).number, 0);

        let raw = raw_table(arena, n + 1);
        let padded = padded_table(arena, block.codes.len() + 1);
        assert_eq!((raw.number, padded.number), (0, 0));
        for index in 0..=n {
            let [found, there, _] = padded_index(&raw.entries, index).rest;
            assert_eq!(found, 1);
            assert_eq!(raw_index(&padded.entries, there).rest, [1, index, 0]);
        }
    }
}

/// All words over some letters, of a length.
fn words(letters: usize, length: u32) -> impl Iterator<Item = Vec<usize>> {
    (0..letters.pow(length)).map(move |word| {
        let letter = |at| word / letters.pow(at) % letters;
        (0..length).map(letter).collect()
    })
}

/// M-107: "passes exactly if some non-empty list .., batched by document 01, writes those very bytes".
/// All lists of up to three operations are written; all blocks of up to three operations and two
/// batches, in their first three groups with every flag, are read.
#[test]
fn finished_exactly_if_some_list_writes_it() {
    let table = table_t();
    let letters = [(0, 0), (2, 0), (1, 5), (3, 6)];
    let list_of =
        |word: &[usize]| -> Vec<(u8, u64)> { word.iter().map(|&at| letters[at]).collect() };
    let mut written = BTreeSet::new();
    for length in 1..=3 {
        for word in words(4, length) {
            written.insert(block(&list_of(&word)).bytes());
        }
    }
    let room = Room {
        codes: 3,
        values: 3,
        records: 2 * RECORD,
    };
    let (mut finished, mut unfinished) = (BTreeSet::new(), 0);
    for operations in 0..=3 {
        for word in words(4, operations) {
            let mut front = count_bytes(word.len());
            for (code, value) in list_of(&word) {
                front.push(code);
                if value > 0 {
                    front.extend(value.to_le_bytes());
                }
            }
            for batches in 0..=2 {
                // The lengths of three groups to a batch.
                for lengths in words(4, 3 * batches) {
                    if lengths.iter().sum::<usize>() != word.len() {
                        continue;
                    }
                    let mut start = front.clone();
                    start.extend(batches.to_le_bytes());
                    for groups in lengths.chunks_exact(3) {
                        let low = (groups[0] + 16 * groups[1]) as u8;
                        start.extend([low, groups[2] as u8, 0, 0]);
                    }
                    for flags in words(8, batches) {
                        let mut bytes = start.clone();
                        bytes.extend(flags.iter().map(|&flags| flags as u8));
                        let read = decode(&table, &bytes, 0, room);
                        let strict = decode_strict(&table, &bytes, 0, room);
                        if read.number != 0 || written.contains(&bytes) {
                            assert_eq!(strict, read);
                            if read.number == 0 {
                                finished.insert(bytes);
                            }
                            continue;
                        }
                        assert_eq!((strict.number, strict.rest), (18, [0; 3]));
                        assert!(strict.place <= read.rest[0]);
                        assert!(strict.records.iter().all(|&byte| byte == 0));
                        unfinished += 1;
                    }
                }
            }
        }
    }
    // All that have no more than three operations with their padding.
    assert!(finished.len() > 60 && finished.is_subset(&written));
    assert!(unfinished > 10_000, "{unfinished}");
}
