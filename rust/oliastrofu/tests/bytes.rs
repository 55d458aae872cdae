//! The functions over bytes: they answer as those over numbers do, in the stack that they are said
//! to want.

use std::thread;

use oliastrofu::{
    Arena, Block, Cause, PaddedIndex, RECORD, RawIndex, Refusal, VM_TABLE, build, decode_strict,
    encode, le,
    lent::{self, Built, Decoded},
};

fn bytes(numbers: &[u64]) -> Vec<u8> {
    numbers.iter().flat_map(|n| n.to_le_bytes()).collect()
}

/// A block of some batches, with values in it.
fn block() -> Block {
    let codes: Vec<u8> = (0..200).map(|i| if i % 3 == 0 { 91 } else { 1 }).collect();
    let values: Vec<u64> = (0..200)
        .map(|i| {
            if i % 3 == 0 {
                0x0102_0304_0506_0708 + i
            } else {
                0
            }
        })
        .collect();
    build(&VM_TABLE, &codes, &values).expect("a good list")
}

/// The runs that build and decode fill, full of other bytes: room for so many values and more bytes.
struct Filled {
    codes: Vec<u8>,
    values: Vec<u64>,
    bytes: Vec<u8>,
    records: Vec<u8>,
}

impl Filled {
    fn new(room: usize, left: usize) -> Self {
        Self {
            codes: vec![9; room],
            values: vec![9; room],
            bytes: vec![9; 8 * room + left],
            records: vec![9; 60 * RECORD],
        }
    }

    fn numbers(&mut self) -> lent::Outputs<'_> {
        lent::Outputs {
            codes: &mut self.codes,
            values: &mut self.values,
            records: &mut self.records,
        }
    }

    fn bytes(&mut self) -> le::Outputs<'_> {
        le::Outputs {
            codes: &mut self.codes,
            values: &mut self.bytes,
            records: &mut self.records,
        }
    }

    /// The bytes are the numbers', and zeros after them.
    fn same(&self) -> bool {
        let whole = bytes(&self.values);
        let (front, left) = self.bytes.split_at(whole.len());
        front == whole && left.iter().all(|&byte| byte == 0)
    }
}

/// Rooms from nothing to more than the work space has, and every number of bytes left over.
#[test]
fn any_room() {
    let block = block();
    let coded = encode(&VM_TABLE, &block).expect("a good block");
    let values = bytes(&block.values);
    let arena = Arena {
        codes: &block.codes,
        values: &block.values,
        records: &block.records,
    };
    let lent = le::Arena {
        codes: &block.codes,
        values: &values,
        records: &block.records,
    };
    // Not finished: the last batch has a flag above its count.
    let mut other = coded.clone();
    *other.last_mut().expect("a flag") |= 0x80;
    let refusal = decode_strict(&VM_TABLE, &other, 0).expect_err("a flag above the count");
    assert_eq!(refusal.cause, Cause::Unfinished);
    let need = block.codes.len();
    for room in [
        0,
        1,
        need - 1,
        need,
        need + 1,
        65_535,
        65_536,
        65_537,
        70_000,
    ] {
        for left in 0..8 {
            let mut out = Filled::new(room, left);
            let numbers = lent::decode(&VM_TABLE, &coded, 0, out.numbers());
            assert_eq!(le::decode(&VM_TABLE, &coded, 0, out.bytes()), numbers);
            assert!(out.same());

            let mut out = Filled::new(room, left);
            let numbers = lent::decode_strict(&VM_TABLE, &coded, 0, out.numbers());
            let numbers = numbers.map(|read| (read.listed(), read.used()));
            let strict = le::decode_strict(&VM_TABLE, &coded, 0, out.bytes());
            assert_eq!(strict.map(|read| (read.listed(), read.used())), numbers);
            assert!(out.same());

            let mut out = Filled::new(room, left);
            let numbers = lent::decode_strict(&VM_TABLE, &other, 0, out.numbers());
            let numbers = numbers.map(|read| read.used());
            let strict = le::decode_strict(&VM_TABLE, &other, 0, out.bytes());
            assert_eq!(strict.map(|read| read.used()), numbers);
            assert!(out.same());

            let mut out = Filled::new(room, left);
            let numbers = lent::build(&VM_TABLE, arena.codes, arena.values, out.numbers());
            let built = le::build(&VM_TABLE, lent.codes, lent.values, out.bytes());
            assert_eq!(built, numbers);
            assert!(out.same());

            let mut out = Filled::new(room, left);
            let numbers = lent::raw_table(arena, &mut out.values);
            assert_eq!(le::raw_table(lent, &mut out.bytes), numbers);
            assert!(out.same());
            let numbers = lent::padded_table(arena, &mut out.values);
            assert_eq!(le::padded_table(lent, &mut out.bytes), numbers);
            assert!(out.same());
        }
    }
}

/// Values that are not whole, and more of them than there is work space.
#[test]
fn values_that_are_refused() {
    let block = block();
    let values = bytes(&block.values);
    let long = vec![0; 8 * 65_537];
    let broken = [&values[1..], &values[..values.len() - 7], &long, &long[1..]];
    for values in broken {
        let lent = le::Arena {
            codes: &block.codes,
            values,
            records: &block.records,
        };
        let mut buffer = [9; 40];
        let mut out = Filled::new(300, 5);
        let refused = [
            le::structure(lent),
            le::padding(lent),
            le::commitment(&VM_TABLE, lent),
            le::encode(&VM_TABLE, lent, &mut buffer, 0).map(|_| ()),
            le::build(&VM_TABLE, lent.codes, values, out.bytes()).map(|_| ()),
        ];
        let limit = Err(Refusal {
            cause: Cause::Limit,
            place: 0,
        });
        assert_eq!(refused, [limit; 5]);
        assert_eq!(buffer, [9; 40]);
        let runs = [&out.codes, &out.bytes, &out.records];
        assert!(runs.iter().all(|run| run.iter().all(|&byte| byte == 0)));
        for table in [le::raw_table, le::padded_table] {
            out.bytes.fill(9);
            assert_eq!(table(lent, &mut out.bytes).map(|_| ()), limit);
            assert!(out.bytes.iter().all(|&byte| byte == 0));
        }
    }
}

#[test]
fn indices() {
    let entries = bytes(&[0, 3, u64::MAX - 1, 5]);
    let there = |run, raw| le::padded_index(run, RawIndex(raw));
    let back = |run, padded| le::raw_index(run, PaddedIndex(padded));
    assert_eq!(there(&entries, 1), Some(PaddedIndex(4)));
    assert_eq!(there(&entries, 2), None);
    assert_eq!(there(&entries, 4), None);
    assert_eq!(back(&entries, 0), Some(RawIndex(0)));
    assert_eq!(back(&entries, 1), None);
    for cut in 1..8 {
        assert_eq!(there(&entries[cut..], 0), None);
        assert_eq!(back(&entries[cut..], 0), None);
    }
    assert_eq!(there(&[], 0), None);
    assert_eq!(back(&[], usize::MAX), None);
}

/// Runs a function in a thread with so much stack for the library and 32 KiB more.
fn within<T: Send>(stack: usize, call: impl FnOnce() -> T + Send) -> T {
    thread::scope(|scope| {
        let thread = thread::Builder::new().stack_size(stack + 32_768);
        let running = thread.spawn_scoped(scope, call).expect("a thread");
        running.join().expect("an answer")
    })
}

#[test]
fn stack() {
    // For a run of any length, and for one that is not long.
    const ANY: usize = 532 * 1_024;
    const FEW: usize = 36 * 1_024;
    let block = block();
    let coded = encode(&VM_TABLE, &block).expect("a good block");
    let values = bytes(&block.values);
    let lent = le::Arena {
        codes: &block.codes,
        values: &values,
        records: &block.records,
    };
    let operations = block.codes.len();
    let batches = block.records.len() / RECORD;
    let mut out = Filled::new(operations, 0);
    let mut built = Filled::new(operations + 200, 0);
    let mut buffer = vec![0; coded.len()];
    let used = coded.len();
    let read = Decoded {
        batches,
        operations,
        used,
    };
    assert_eq!(
        within(FEW, || le::decode(&VM_TABLE, &coded, 0, out.bytes())),
        Ok(read)
    );
    assert_eq!(
        within(FEW, || le::decode_strict(&VM_TABLE, &coded, 0, out.bytes())
            .map(|finished| finished.used())),
        Ok(used)
    );
    assert_eq!(
        within(FEW, || le::encode(&VM_TABLE, lent, &mut buffer, 0)),
        Ok(used)
    );
    assert_eq!(buffer, coded);
    assert_eq!(within(0, || le::padding(lent)), Ok(()));
    assert_eq!(within(FEW, || le::commitment(&VM_TABLE, lent)), Ok(()));
    let made = within(2 * FEW, || {
        le::build(&VM_TABLE, lent.codes, lent.values, built.bytes())
    });
    assert!(matches!(made, Ok(Built { .. })));
    for table in [le::raw_table, le::padded_table] {
        assert!(within(2 * FEW, || table(lent, &mut built.bytes)).is_ok());
    }
    let mut long = Filled::new(65_535, 0);
    assert_eq!(
        within(ANY, || le::decode(&VM_TABLE, &coded, 0, long.bytes())),
        Ok(read)
    );
    assert_eq!(
        within(ANY, || le::decode_strict(
            &VM_TABLE,
            &coded,
            0,
            long.bytes()
        )
        .map(|finished| finished.used())),
        Ok(used)
    );
    let made = within(2 * ANY, || {
        le::build(&VM_TABLE, lent.codes, lent.values, long.bytes())
    });
    assert!(matches!(made, Ok(Built { .. })));
    for table in [le::raw_table, le::padded_table] {
        assert!(within(2 * ANY, || table(lent, &mut long.bytes)).is_ok());
    }
    assert_eq!(within(0, || le::structure(lent)), Ok(()));
    assert_eq!(
        within(0, || le::raw_index(&values[..8], PaddedIndex(0))),
        None
    );
}
