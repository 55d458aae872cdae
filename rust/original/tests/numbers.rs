//! Document 01's "Numbers to check", on the original.
//!
//! The original's table is its own: opcode 2 is a plain operation there as in table T, opcode 1 is
//! plain too. For T's opcode 1 stands the original's only operation with an immediate (91), and
//! the group numbers and bytes that name it change with it; for T's opcode 3, 32.

use original::{
    Batch, batch, commitment, decode, encode, invariants, length, op_idx_in_batch_to_group,
    operation, padded_table, padded_to_raw, padding, raw_operations, raw_table, raw_to_padded,
    structure, table,
};

const PLAIN: u8 = 2;
const PUSH: u8 = 91;
const CARRIED: u8 = 32;

fn plain(n: usize) -> Vec<(u8, u64)> {
    vec![(PLAIN, 0); n]
}

fn push(n: usize) -> Vec<(u8, u64)> {
    vec![(PUSH, 5); n]
}

fn flags(set: &[usize]) -> [bool; 8] {
    core::array::from_fn(|group| set.contains(&group))
}

fn numbers(first: &[u64]) -> [u64; 8] {
    core::array::from_fn(|group| first.get(group).copied().unwrap_or(0))
}

/// A block of empty batches.
fn empty_batches(n: u32) -> Vec<u8> {
    let mut bytes = vec![1];
    bytes.extend(n.to_le_bytes());
    bytes.extend(vec![0; 5 * n as usize]);
    bytes
}

#[test]
fn the_table_is_good() {
    let kinds = table();
    let of = |kind| (0..128).filter(|&op| kinds[op] == kind).collect::<Vec<_>>();
    assert_eq!(kinds[0], 0);
    assert_eq!(kinds[PLAIN as usize], 0);
    assert_eq!(of(1), [PUSH as usize]);
    assert_eq!(of(2), [32, 74, 81]);
    assert_eq!(of(0).len() + of(1).len() + of(2).len() + of(3).len(), 128);
    assert_eq!(of(0).len(), 77);
    assert_eq!(of(3).len(), 47);
    assert!((128..=255).all(|opcode| operation(opcode, 0).is_none()));
    for opcode in 0..128u8 {
        let kind = kinds[opcode as usize];
        assert_eq!(operation(opcode, 0).is_some(), kind != 3);
        assert_eq!(operation(opcode, 7).is_some(), kind == 1 || kind == 2);
        assert!(operation(opcode, 18_446_744_069_414_584_321).is_none());
    }
}

/// What the original does not have, by this crate: 4 for an opcode, 17 for a value; the first of them.
#[test]
fn operations_that_it_does_not_have() {
    const FIELD: u64 = 18_446_744_069_414_584_321;
    let refused = |list: &[(u8, u64)]| {
        let refused = batch(list).unwrap_err();
        (refused.number, refused.place)
    };
    let kinds = table();
    for opcode in 0..=255u8 {
        let kind = kinds.get(usize::from(opcode)).copied().unwrap_or(3);
        let number = if kind == 3 { 4 } else { 17 };
        assert_eq!(
            refused(&[(PUSH, FIELD - 1), (opcode, FIELD)]),
            (number, Some(1))
        );
        if kind == 0 {
            assert_eq!(refused(&[(opcode, 1)]), (17, Some(0)));
        }
    }
    assert_eq!(refused(&[(PUSH, FIELD), (200, 0)]), (17, Some(0)));
    assert_eq!(refused(&[(200, 0), (PUSH, FIELD)]), (4, Some(0)));
}

#[test]
fn p1_p2_p3() {
    let batches = batch(&[(PUSH, 5)]).unwrap();
    let p1 = Batch {
        ops: vec![(PUSH, 5), (0, 0)],
        starts: [0, 2, 2, 2, 2, 2, 2, 2, 2],
        flags: flags(&[0]),
        numbers: numbers(&[91, 5]),
        count: 2,
    };
    assert_eq!(batches, [p1]);
    let bytes = encode(&batches).unwrap();
    let p2 = [
        5, PUSH, 5, 0, 0, 0, 0, 0, 0, 0, 0, 1, 0, 0, 0, 2, 0, 0, 0, 1,
    ];
    assert_eq!(bytes, p2);
    assert_eq!(decode(&bytes, 0).unwrap(), (batches.clone(), 20));
    assert_eq!(raw_table(&batches).unwrap(), [0, 1]);
    assert_eq!(padded_table(&batches).unwrap(), [0, 0, 1]);
    assert_eq!(raw_to_padded(&batches, &[0, 1]).unwrap(), [0, 2]);
    assert_eq!(padded_to_raw(&batches, &[0, 1, 2]).unwrap(), [0, 1, 1]);
}

#[test]
fn p4_p5() {
    let batches = batch(&plain(9)).unwrap();
    assert_eq!(batches.len(), 1);
    assert_eq!(batches[0].count, 1);
    assert_eq!(batches[0].numbers, numbers(&[145_249_953_336_295_682]));
    assert_eq!(batches[0].flags, flags(&[]));

    let batches = batch(&plain(19)).unwrap();
    assert_eq!(batches.len(), 1);
    assert_eq!(batches[0].starts, [0, 9, 18, 19, 20, 20, 20, 20, 20]);
    assert_eq!(batches[0].flags, flags(&[3]));
    assert_eq!(batches[0].numbers[3], 0);
    assert_eq!(batches[0].count, 4);
}

#[test]
fn p6_p7() {
    let batches = batch(&[plain(8), push(1)].concat()).unwrap();
    assert_eq!(batches.len(), 1);
    assert_eq!(batches[0].starts, [0, 8, 10, 10, 11, 11, 11, 11, 11]);
    assert_eq!(batches[0].flags, flags(&[1, 3]));
    assert_eq!(
        batches[0].numbers,
        numbers(&[1_134_765_260_439_810, 91, 5, 0])
    );

    let batches = batch(&push(7)).unwrap();
    assert_eq!(batches.len(), 1);
    assert_eq!(batches[0].count, 8);
    assert_eq!(batches[0].ops.len(), 8);
    assert_eq!(batches[0].numbers[0], 91 * 4_432_676_798_593);
    assert_eq!(batch(&push(8)).unwrap().len(), 2);
}

#[test]
fn p8() {
    // A block of that many plain operations, read and written back.
    for (count, form) in [
        (127, vec![0xff]),
        (128, vec![2, 2]),
        (16_383, vec![0xfe, 0xff]),
        (16_384, vec![4, 0, 2]),
    ] {
        let mut bytes = form.clone();
        bytes.extend(vec![PLAIN; count]);
        let batches = count.div_ceil(72);
        bytes.extend((batches as u32).to_le_bytes());
        for batch in 0..batches {
            let ops = (count - 72 * batch).min(72);
            let nibble = |g: usize| ops.saturating_sub(9 * g).min(9) as u8;
            bytes.extend((0..4).map(|i| nibble(2 * i) | (nibble(2 * i + 1) << 4)));
        }
        bytes.extend(vec![0; batches]);
        let (read, used) = decode(&bytes, 0).unwrap();
        assert_eq!(used, bytes.len());
        assert_eq!(read.iter().map(|b| b.ops.len()).sum::<usize>(), count);
        assert_eq!(
            encode(&read).unwrap(),
            bytes,
            "the count {form:?} is written as it was read"
        );
    }
}

#[test]
fn p9_p10_and_offsets() {
    let block = |ops: u8, nibbles: [u8; 4]| {
        let mut bytes = vec![2 * ops + 1];
        bytes.extend(vec![PLAIN; ops as usize]);
        bytes.extend([1, 0, 0, 0]);
        bytes.extend(nibbles);
        bytes.push(0);
        bytes
    };
    assert_eq!(decode(&block(9, [9, 0, 0, 0]), 0).unwrap().0[0].count, 1);
    assert_eq!(decode(&block(10, [10, 0, 0, 0]), 0).unwrap_err().number, 6);

    let (batches, used) = decode(&block(0, [0; 4]), 0).unwrap();
    assert_eq!((batches.len(), batches[0].count, used), (1, 0, 10));
    assert_eq!(decode(&block(1, [0; 4]), 0).unwrap_err().number, 11);

    let bytes = block(9, [9, 0, 0, 0]);
    let end = bytes.len() as u32;
    assert_eq!(decode(&bytes, end).unwrap_err().number, 2);
    assert_eq!(decode(&bytes, end + 1).unwrap_err().number, 1);
    assert_eq!(
        decode(&[1, 1, 0, 0, 0, 0, 0, 0, 0], 0).unwrap_err().number,
        5
    );

    // No operations and no batches: five bytes.
    assert_eq!(encode(&[]).unwrap(), [1, 0, 0, 0, 0]);
    assert_eq!(decode(&[1, 0, 0, 0, 0], 0).unwrap(), (vec![], 5));
}

#[test]
fn every_refusal_of_the_decoder() {
    let number = |bytes: &[u8]| decode(bytes, 0).unwrap_err().number;
    assert_eq!(number(&[]), 2);
    assert_eq!(number(&[5, 2]), 2); // inside the operations
    assert_eq!(number(&[3, PUSH, 5, 0]), 2); // inside a value
    assert_eq!(number(&[1, 0, 0]), 2); // inside the batch count
    assert_eq!(number(&[8]), 3); // four bytes of count
    assert_eq!(number(&[0]), 3);
    assert_eq!(number(&[2, 0]), 3); // not the shortest
    assert_eq!(number(&[4]), 2);
    assert_eq!(number(&[3, 6]), 4); // unassigned
    assert_eq!(number(&[3, 200]), 4);
    assert_eq!(number(&[3, PUSH, 1, 0, 0, 0, 255, 255, 255, 255]), 17); // not in the field
    assert_eq!(number(&[3, PUSH, 255, 255, 255, 255, 255, 255, 255]), 2); // nor all there
    assert_eq!(number(&[3, 200, 255, 255]), 4); // unassigned, before all that
    assert_eq!(number(&[1, 1, 0, 0, 0, 0, 0, 0, 0]), 5);
    assert_eq!(number(&[1, 1, 0, 0, 0, 0xa0, 0, 0, 0, 0]), 6);
    assert_eq!(number(&[1, 1, 0, 0, 0, 1, 0, 0, 0, 0]), 7);
    // One immediate in the eighth group: no slot.
    let mut bytes = vec![3, PUSH];
    bytes.extend([0; 8]);
    bytes.extend([1, 0, 0, 0, 0, 0, 0, 0x10, 0]);
    assert_eq!(number(&bytes), 8);
    // An immediate whose slot is a group of operations.
    let mut bytes = vec![5, PUSH];
    bytes.extend([0; 8]);
    bytes.extend([PLAIN, 1, 0, 0, 0, 0x11, 0, 0, 0, 0]);
    assert_eq!(number(&bytes), 9);
    // A flagged group that ends in another operation; it names the batch.
    let refused = decode(&[3, PLAIN, 1, 0, 0, 0, 1, 0, 0, 0, 1], 0).unwrap_err();
    assert_eq!((refused.number, refused.place), (10, Some(0)));
    // A flagged group without operations, under the count.
    assert_eq!(number(&[3, PLAIN, 1, 0, 0, 0, 0x10, 0, 0, 0, 1]), 10);
    assert_eq!(number(&[3, PLAIN, 0, 0, 0, 0]), 11);
}

/// A flag at or above the count is kept as it is read, written back, and no padding.
#[test]
fn flags_above_the_count() {
    let bare = |flags| vec![1, 1, 0, 0, 0, 0, 0, 0, 0, flags];
    let plain = |flags| vec![3, PLAIN, 1, 0, 0, 0, 1, 0, 0, 0, flags];
    let push = |flags| {
        vec![
            5, PUSH, 5, 0, 0, 0, 0, 0, 0, 0, 0, 1, 0, 0, 0, 2, 0, 0, 0, flags,
        ]
    };
    for (bytes, count, set, raw, padded) in [
        (bare(1), 0, &[0][..], &[0][..], &[0][..]),
        (bare(0xff), 0, &[0, 1, 2, 3, 4, 5, 6, 7], &[0], &[0]),
        (plain(2), 1, &[1], &[0, 0], &[0, 0]),
        (plain(0x80), 1, &[7], &[0, 0], &[0, 0]),
        (push(5), 2, &[0, 2], &[0, 1], &[0, 0, 1]),
        (push(0xfd), 2, &[0, 2, 3, 4, 5, 6, 7], &[0, 1], &[0, 0, 1]),
    ] {
        let (batches, used) = decode(&bytes, 0).unwrap();
        assert_eq!((batches[0].count, used), (count, bytes.len()));
        assert_eq!(batches[0].flags, flags(set));
        structure(&batches).unwrap();
        padding(&batches).unwrap();
        commitment(&batches).unwrap();
        assert_eq!(raw_table(&batches).unwrap(), raw);
        assert_eq!(padded_table(&batches).unwrap(), padded);
        assert_eq!(encode(&batches).unwrap(), bytes);
    }
    // What comes later is looked for; flags under the count too.
    let refused = |bytes: &[u8]| {
        let refused = decode(bytes, 0).unwrap_err();
        (refused.number, refused.place)
    };
    assert_eq!(refused(&[3, PLAIN, 1, 0, 0, 0, 0, 0, 0, 0, 1]).0, 11);
    assert_eq!(refused(&plain(3)), (10, Some(0)));
    assert_eq!(refused(&push(0xff)), (10, Some(0)));
    let two = [5, PLAIN, PLAIN, 2, 0, 0, 0, 1, 0, 0, 0, 1, 0, 0, 0, 2, 1];
    assert_eq!(refused(&two), (10, Some(1)));
}

#[test]
fn a_value_that_is_only_carried() {
    let batches = batch(&[(CARRIED, 5)]).unwrap();
    assert_eq!(batches[0].numbers, numbers(&[32]));
    assert_eq!(batches[0].count, 1);
    assert_eq!(batches[0].flags, flags(&[]));
    let bytes = encode(&batches).unwrap();
    assert_eq!(bytes[..10], [3, 32, 5, 0, 0, 0, 0, 0, 0, 0]);
    assert_eq!(decode(&bytes, 0).unwrap().0, batches);
}

#[test]
fn the_greedy_fit() {
    let batches = batch(&plain(72)).unwrap();
    assert_eq!(batches.len(), 1);
    assert_eq!(batches[0].starts, [0, 9, 18, 27, 36, 45, 54, 63, 72]);
    assert_eq!(batches[0].flags, flags(&[]));
    assert_eq!(batch(&plain(73)).unwrap().len(), 2);
    assert_eq!(batch(&[push(7), plain(2)].concat()).unwrap().len(), 1);
    assert_eq!(batch(&[push(7), plain(3)].concat()).unwrap().len(), 2);
    // A caller's own last Noop stays and carries no flag.
    let batches = batch(&[(PLAIN, 0), (0, 0)]).unwrap();
    assert_eq!(batches[0].flags, flags(&[]));
    assert_eq!(batch(&[]).unwrap_err().number, 12);
}

/// A small generator, for lists that are the same each time.
struct Seed(u64);

impl Seed {
    fn next(&mut self, under: u64) -> u64 {
        self.0 ^= self.0 << 13;
        self.0 ^= self.0 >> 7;
        self.0 ^= self.0 << 17;
        self.0 % under
    }
}

/// On lists of all kinds: the checks pass, the padding can be dropped, the bytes read back, and
/// the reckoned length is the shortest front that can be read.
#[test]
fn lists_there_and_back() {
    let mut seed = Seed(0x9e37_79b9_7f4a_7c15);
    for turn in 0..600 {
        let n = 1 + seed.next(if turn % 10 == 0 { 400 } else { 40 }) as usize;
        let immediates = seed.next(11);
        let list: Vec<(u8, u64)> = (0..n)
            .map(|_| match seed.next(10) {
                k if k < immediates => (PUSH, seed.next(1 << 63)),
                9 => (CARRIED, seed.next(1 << 40)),
                8 => (0, 0),
                k => (k as u8 / 2 + 1, 0),
            })
            .collect();
        let batches = batch(&list).unwrap();
        structure(&batches).unwrap();
        padding(&batches).unwrap();
        commitment(&batches).unwrap();
        invariants(&batches).unwrap();
        assert_eq!(raw_operations(&batches).unwrap(), list);

        let mut bytes = encode(&batches).unwrap();
        let whole = bytes.len();
        assert_eq!(length(&batches).unwrap(), whole);
        bytes.extend([0xff; 3]);
        assert_eq!(decode(&bytes, 0).unwrap(), (batches.clone(), whole));
        assert_eq!(
            decode(&bytes[..whole], 0).unwrap(),
            (batches.clone(), whole)
        );
        assert!(decode(&bytes[..whole - 1], 0).is_err());

        let padded: usize = batches.iter().map(|b| b.ops.len()).sum();
        assert_eq!(raw_table(&batches).unwrap().len(), n + 1);
        assert_eq!(padded_table(&batches).unwrap().len(), padded + 1);
        let there = raw_to_padded(&batches, &(0..=n).collect::<Vec<_>>()).unwrap();
        assert_eq!(there[n], padded);
        assert_eq!(
            padded_to_raw(&batches, &there).unwrap(),
            (0..=n).collect::<Vec<_>>()
        );
        for batch in &batches {
            for index in 0..=batch.ops.len() {
                let at = op_idx_in_batch_to_group(batch, index).unwrap();
                assert_eq!(at.is_some(), index < batch.ops.len());
            }
        }
    }
}

#[test]
fn an_empty_batch_in_the_middle() {
    assert_eq!(decode(&empty_batches(3), 0).unwrap().0.len(), 3);
    let bytes = [
        5, PLAIN, PLAIN, 3, 0, 0, 0, 1, 0, 0, 0, 0, 0, 0, 0, 1, 0, 0, 0, 0, 0, 0,
    ];
    let (batches, used) = decode(&bytes, 0).unwrap();
    assert_eq!(
        batches.iter().map(|b| b.count).collect::<Vec<_>>(),
        [1, 0, 1]
    );
    assert_eq!(used, bytes.len());
}
