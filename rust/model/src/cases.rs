//! Inputs for every refusal of every function, and for pairs of faults.
//!
//! For each function there is a good input and a list of faults, in document 01's order. Each
//! fault alone must give its number and place; any two together must give those of the earlier
//! one. Faults that can't be had together are left out (two of them want the same bytes to be
//! different things); where such a pair matters, there is a case of its own for it.
//!
//! Flags at or above a batch's count are no fault (M-100): there are cases of blocks that have them,
//! alone and before each fault that comes later. Where an operation is at fault, opcode and value
//! have numbers of their own (M-101): there are cases of both in one operation, and of one operation
//! before another. Strict reading (M-107) has every fault of decode before its 18, blocks that
//! batching makes, and blocks that it does not. Compare (M-105) has every fault of decode in the first
//! block, in the second and in both, before its own 13, and two blocks for every kind of difference.

use crate::{Arena, Batch, Call, FIELD, Operation, RECORD, Room, Source, count_bytes};

/// A case: what it shows, the call, and the number and place that document 01 gives.
pub struct Case<'a> {
    pub name: String,
    /// The numbers of the two faults, if the input has two.
    pub pair: Option<(u8, u8)>,
    pub call: Call<'a>,
    pub number: u8,
    pub place: usize,
}

type Visit<'v> = dyn FnMut(Case<'_>) + 'v;

/// One way to spoil a good input.
struct Fault<I> {
    number: u8,
    place: usize,
    name: &'static str,
    spoil: fn(&mut I),
    /// Faults with a letter in common can't be had together.
    excludes: &'static str,
}

fn fault<I>(
    number: u8,
    place: usize,
    name: &'static str,
    excludes: &'static str,
    spoil: fn(&mut I),
) -> Fault<I> {
    Fault {
        number,
        place,
        name,
        spoil,
        excludes,
    }
}

/// The good input, each fault alone, and every two that can be had together.
fn combine<I: Clone>(
    function: &str,
    good: &I,
    faults: &[Fault<I>],
    visit: &mut Visit<'_>,
    call: impl Fn(&I, &mut dyn FnMut(Call<'_>)),
) {
    call(good, &mut |call| {
        visit(Case {
            name: format!("{function}: good"),
            pair: None,
            call,
            number: 0,
            place: 0,
        })
    });
    for (i, first) in faults.iter().enumerate() {
        let mut input = good.clone();
        (first.spoil)(&mut input);
        call(&input, &mut |call| {
            visit(Case {
                name: format!("{function}: {} ({})", first.name, first.number),
                pair: None,
                call,
                number: first.number,
                place: first.place,
            })
        });
        for second in &faults[i + 1..] {
            if first.excludes.chars().any(|c| second.excludes.contains(c)) {
                continue;
            }
            let mut input = good.clone();
            (second.spoil)(&mut input);
            (first.spoil)(&mut input);
            call(&input, &mut |call| {
                visit(Case {
                    name: format!(
                        "{function}: {} ({}) before {} ({})",
                        first.name, first.number, second.name, second.number
                    ),
                    pair: Some((first.number, second.number)),
                    call,
                    number: first.number,
                    place: first.place,
                })
            });
        }
    }
}

// INPUTS
// ================================================================================================

/// Table T: opcodes 0 and 2 have no value, 1 an immediate, 3 a value that is only carried.
pub fn table_t() -> Vec<u8> {
    let mut table = vec![3; 128];
    table[..4].copy_from_slice(&[0, 1, 0, 2]);
    table
}

fn op(code: u8, value: u64) -> Operation {
    Operation { code, value }
}

#[derive(Clone)]
struct Block {
    table: Vec<u8>,
    codes: Vec<u8>,
    values: Vec<u64>,
    records: Vec<u8>,
    /// Bytes of records that make the run no whole number of them.
    crumbs: usize,
    lent: usize,
    at: usize,
    room: usize,
}

impl Block {
    fn new(list: &[Operation], batches: &[Batch]) -> Self {
        Self {
            table: table_t(),
            codes: list.iter().map(|op| op.code).collect(),
            values: list.iter().map(|op| op.value).collect(),
            records: batches.iter().flat_map(Batch::record).collect(),
            crumbs: 0,
            lent: 0,
            at: 0,
            room: 0,
        }
    }

    fn arena<'a>(&'a self, records: &'a [u8]) -> Arena<'a> {
        Arena {
            codes: &self.codes,
            values: &self.values,
            records,
        }
    }

    /// The records with the crumbs.
    fn run(&self) -> Vec<u8> {
        let mut run = self.records.clone();
        run.extend(vec![0; self.crumbs]);
        run
    }
}

const START: usize = 0;
const FLAG: usize = 9;
const NUMBER: usize = 17;
const COUNT: usize = 81;

/// Two batches. The first: seven immediates and two plain operations in group 0, the other groups
/// hold the immediates. The second: an immediate and a flagged Noop.
fn two_batches() -> Block {
    let mut list: Vec<Operation> = (1..8).map(|value| op(1, value)).collect();
    list.extend([op(2, 0), op(2, 0), op(1, 9), op(0, 0)]);
    // Seven times opcode 1, twice opcode 2.
    let group: u64 = (0..7).map(|i| 1u64 << (7 * i)).sum::<u64>() + (2 << 49) + (2 << 56);
    let first = Batch {
        starts: [0, 9, 9, 9, 9, 9, 9, 9, 9],
        flags: [0; 8],
        numbers: [group, 1, 2, 3, 4, 5, 6, 7],
        count: 8,
    };
    let second = Batch {
        starts: [0, 2, 2, 2, 2, 2, 2, 2, 2],
        flags: [1, 0, 0, 0, 0, 0, 0, 0],
        numbers: [1, 9, 0, 0, 0, 0, 0, 0],
        count: 2,
    };
    Block::new(&list, &[first, second])
}

/// Two batches with flags at or above a count: in the second, whose count is 2, or in one without
/// groups between the two. Such a flag is kept, is no padding and no fault.
fn kept() -> Vec<(&'static str, Block)> {
    let second = |flags: core::ops::Range<usize>| {
        let mut block = two_batches();
        block.records[RECORD + FLAG..][flags].fill(1);
        block
    };
    let bare = |flags| {
        let mut block = two_batches();
        let batch = Batch {
            flags,
            ..Batch::default()
        };
        block.records.splice(RECORD..RECORD, batch.record());
        block
    };
    vec![
        ("the flag at the count", second(2..3)),
        ("flag 7", second(7..8)),
        ("all flags above the count", second(2..8)),
        (
            "flag 0 of a batch without groups",
            bare([1, 0, 0, 0, 0, 0, 0, 0]),
        ),
        ("all flags of a batch without groups", bare([1; 8])),
    ]
}

/// The same with a fault of padding: the immediate's slot of the last batch is flagged, too. That
/// is the last group under its count.
fn kept_and_slot() -> Vec<(String, Block)> {
    let spoilt = |(name, mut block): (&str, Block)| {
        let last = block.records.len() - RECORD;
        block.records[last + FLAG + 1] = 1;
        (format!("{name}, and the last slot's"), block)
    };
    kept().into_iter().map(spoilt).collect()
}

/// Operations to put at places of a list.
type Places = Vec<(usize, Operation)>;

fn put(places: &Places, codes: &mut [u8], values: &mut [u64]) {
    for &(at, op) in places {
        codes[at] = op.code;
        values[at] = op.value;
    }
}

/// M-101, for a list of four operations or more: what is put into it, and the number and place.
fn faulty() -> Vec<(&'static str, Places, u8, usize)> {
    let last = u64::MAX;
    vec![
        ("opcode 127, unassigned", vec![(0, op(127, 0))], 4, 0),
        (
            "opcode 128 with a value at the field's order",
            vec![(2, op(128, FIELD))],
            4,
            2,
        ),
        (
            "an unassigned opcode with the largest value",
            vec![(3, op(4, last))],
            4,
            3,
        ),
        ("a Noop with a value", vec![(2, op(0, 1))], 17, 2),
        (
            "a plain operation with a value at the field's order",
            vec![(1, op(2, FIELD))],
            17,
            1,
        ),
        (
            "an immediate with the largest value",
            vec![(2, op(1, last))],
            17,
            2,
        ),
        (
            "a carried value at the field's order",
            vec![(3, op(3, FIELD))],
            17,
            3,
        ),
        (
            "an opcode before a value",
            vec![(0, op(255, 0)), (1, op(3, FIELD))],
            4,
            0,
        ),
        (
            "a value before an opcode",
            vec![(0, op(1, FIELD)), (3, op(4, 0))],
            17,
            0,
        ),
        (
            "a value before an opcode with a value",
            vec![(1, op(2, last)), (2, op(128, last)), (3, op(1, FIELD))],
            17,
            1,
        ),
        (
            "values one below the field's order",
            vec![(0, op(1, FIELD - 1)), (1, op(3, FIELD - 1))],
            0,
            0,
        ),
    ]
}

// BUILD
// ================================================================================================

#[derive(Clone)]
struct List {
    table: Vec<u8>,
    codes: Vec<u8>,
    values: Vec<u64>,
    room: Room,
}

fn build(visit: &mut Visit<'_>) {
    // One batch of four groups: the list in group 0, two immediates, and a flagged Noop in each of
    // groups 0 and 3.
    let good = List {
        table: table_t(),
        codes: vec![1, 3, 2, 1],
        values: vec![5, 6, 0, 7],
        room: Room {
            codes: 6,
            values: 6,
            records: RECORD,
        },
    };
    let faults = [
        fault(3, 0, "a value too many", "e", |i: &mut List| {
            i.values.push(0)
        }),
        fault(3, 0, "an opcode too many", "e", |i| i.codes.push(2)),
        fault(3, 0, "over 16,384 operations", "e", |i| {
            i.codes.resize(16_385, 2);
            i.values.resize(16_385, 0);
        }),
        fault(14, 0, "a table of 127 bytes", "t", |i| {
            i.table.pop();
        }),
        fault(14, 0, "a table of 129 bytes", "t", |i| i.table.push(3)),
        fault(14, 0, "no table", "t", |i| i.table.clear()),
        fault(14, 0, "kind 4", "t", |i| i.table[127] = 4),
        fault(14, 0, "Noop with a value", "t", |i| i.table[0] = 2),
        fault(12, 0, "an empty list", "eabcdfm", |i| {
            i.codes.clear();
            i.values.clear();
        }),
        fault(17, 0, "an immediate at the field's order", "a", |i| {
            i.values[0] = FIELD
        }),
        fault(17, 1, "a carried value at the field's order", "b", |i| {
            i.values[1] = FIELD
        }),
        fault(4, 2, "opcode 128", "c", |i| i.codes[2] = 128),
        fault(17, 2, "a value without need", "d", |i| i.values[2] = 1),
        fault(4, 3, "an unassigned opcode", "f", |i| i.codes[3] = 4),
        fault(13, 0, "an opcode too few lent", "m", |i| i.room.codes = 5),
        fault(13, 0, "a value too few lent", "m", |i| i.room.values = 5),
        fault(13, 0, "a record's byte too few lent", "m", |i| {
            i.room.records = RECORD - 1
        }),
    ];
    // An empty list has no operation at fault and needs no room.
    combine("build", &good, &faults, visit, |i, take| {
        take(Call::Build {
            table: &i.table,
            codes: &i.codes,
            values: &i.values,
            room: i.room,
        })
    });
    for (name, places, number, place) in faulty() {
        let mut input = good.clone();
        put(&places, &mut input.codes, &mut input.values);
        visit(Case {
            name: format!("build: {name} ({number})"),
            pair: None,
            call: Call::Build {
                table: &input.table,
                codes: &input.codes,
                values: &input.values,
                room: input.room,
            },
            number,
            place,
        });
    }
}

// ENCODE
// ================================================================================================

fn encode(visit: &mut Visit<'_>) {
    let mut good = two_batches();
    // 1 for the count, 8 immediates, 3 plain, 4, and 5 for each batch.
    good.lent = 2 + 90 + 3;
    good.at = 2;
    let faults = [
        fault(3, 0, "a value too many", "e", |i: &mut Block| {
            i.values.push(0)
        }),
        fault(3, 0, "a byte over two records", "r", |i| i.crumbs = 1),
        fault(3, 0, "over 65,535 operations", "e", |i| {
            i.codes.resize(65_536, 2);
            i.values.resize(65_536, 0);
        }),
        fault(3, 0, "over 16,384 records", "r", |i| {
            i.records.resize(16_385 * RECORD, 0)
        }),
        fault(3, 0, "a buffer over 1,048,576 bytes", "b", |i| {
            i.lent = 1_048_577
        }),
        fault(14, 0, "a table of 127 bytes", "t", |i| {
            i.table.pop();
        }),
        fault(14, 0, "kind 255", "t", |i| i.table[60] = 255),
        fault(1, 0, "a position past the end", "b", |i| i.at = i.lent + 1),
        fault(15, 0, "a flag of 2", "", |i| i.records[FLAG + 7] = 2),
        fault(15, 1, "a count of 9", "", |i| i.records[RECORD + COUNT] = 9),
        fault(15, 2, "an operation that no batch covers", "e", |i| {
            i.codes.push(2);
            i.values.push(0);
        }),
        fault(17, 6, "an immediate at the field's order", "", |i| {
            i.values[6] = FIELD
        }),
        fault(4, 7, "opcode 255", "", |i| i.codes[7] = 255),
        fault(17, 10, "a Noop with a value", "", |i| i.values[10] = 1),
        fault(13, 0, "a byte too few lent", "b", |i| i.lent = 91),
        fault(13, 0, "nothing lent after the position", "b", |i| {
            i.lent = 2
        }),
    ];
    combine("encode", &good, &faults, visit, |i, take| {
        let run = i.run();
        let buffer: Vec<u8> = (0..i.lent)
            .map(|at| if at < 96 { 0xa0 } else { 0 })
            .collect();
        take(Call::Encode {
            table: &i.table,
            arena: i.arena(&run),
            buffer: &buffer,
            at: i.at,
        })
    });
    for (name, block) in kept() {
        visit(Case {
            name: format!("encode: {name}"),
            pair: None,
            call: Call::Encode {
                table: &block.table,
                arena: block.arena(&block.records),
                buffer: &[0xa0; 100],
                at: 2,
            },
            number: 0,
            place: 0,
        });
    }
    for (name, places, number, place) in faulty() {
        let mut block = two_batches();
        put(&places, &mut block.codes, &mut block.values);
        visit(Case {
            name: format!("encode: {name} ({number})"),
            pair: None,
            call: Call::Encode {
                table: &block.table,
                arena: block.arena(&block.records),
                buffer: &[0xa0; 100],
                at: 2,
            },
            number,
            place,
        });
    }
}

// DECODE
// ================================================================================================

/// The parts of a block's bytes.
#[derive(Clone)]
struct Bytes {
    table: Vec<u8>,
    count: Vec<u8>,
    ops: Vec<Vec<u8>>,
    batch_count: Vec<u8>,
    nibbles: Vec<[u8; 4]>,
    flags: Vec<u8>,
    /// Where the buffer ends, if not after the block and four bytes more.
    end: Option<End>,
    past_end: bool,
    room: Room,
    longer: usize,
}

#[derive(Clone, Copy, PartialEq)]
enum End {
    BeforeCount,
    InCount,
    InOp(usize),
    InBatchCount,
    AfterBatchCount(usize),
}

/// The block begins here in its buffer.
const AT: usize = 2;

impl Bytes {
    fn buffer(&self) -> (Vec<u8>, usize) {
        let mut bytes = vec![0xee; AT];
        bytes.extend(&self.count);
        let mut end = None;
        if self.end == Some(End::BeforeCount) {
            end = Some(AT);
        }
        if self.end == Some(End::InCount) {
            end = Some(AT + 1);
        }
        for (i, op) in self.ops.iter().enumerate() {
            if self.end == Some(End::InOp(i)) {
                end = Some(bytes.len() + op.len() - 1);
            }
            bytes.extend(op);
        }
        if self.end == Some(End::InBatchCount) {
            end = Some(bytes.len() + 3);
        }
        bytes.extend(&self.batch_count);
        if let Some(End::AfterBatchCount(more)) = self.end {
            end = Some(bytes.len() + more);
        }
        for nibbles in &self.nibbles {
            bytes.extend(nibbles);
        }
        bytes.extend(&self.flags);
        bytes.extend([0xee; 4]);
        bytes.resize(bytes.len() + self.longer, 0);
        if let Some(end) = end {
            bytes.resize(end, 0);
        }
        let at = if self.past_end { bytes.len() + 1 } else { AT };
        (bytes, at)
    }
}

/// The bytes of an operation with a value.
fn valued(code: u8, value: u64) -> Vec<u8> {
    let mut bytes = vec![code];
    bytes.extend(value.to_le_bytes());
    bytes
}

fn immediate(value: u64) -> Vec<u8> {
    valued(1, value)
}

fn carried(value: u64) -> Vec<u8> {
    valued(3, value)
}

/// Two batches: an immediate and a flagged Noop; a plain operation.
fn good_bytes() -> Bytes {
    Bytes {
        table: table_t(),
        count: count_bytes(3),
        ops: vec![immediate(5), vec![0], vec![2]],
        batch_count: vec![2, 0, 0, 0],
        nibbles: vec![[2, 0, 0, 0], [1, 0, 0, 0]],
        flags: vec![1, 0],
        end: None,
        past_end: false,
        room: Room {
            codes: 4,
            values: 4,
            records: 2 * RECORD + 1,
        },
        longer: 0,
    }
}

/// The faults of a block's bytes, in decode's order.
fn byte_faults() -> Vec<Fault<Bytes>> {
    // Letters: e the end of the buffer, a the offset, t the table, c the count's bytes, o the last
    // operation, x where the operations end, y how many there are, b the batch count, 0 and 1 what those batches
    // are, s what the first batch's slot is.
    vec![
        fault(
            3,
            0,
            "a buffer over 1,048,576 bytes",
            "e",
            |i: &mut Bytes| i.longer = 1_048_576,
        ),
        fault(14, 0, "a table of 129 bytes", "t", |i| i.table.push(0)),
        fault(14, 0, "kind 4", "t", |i| i.table[4] = 4),
        fault(14, 0, "Noop unassigned", "t", |i| i.table[0] = 3),
        fault(1, 0, "an offset past the end", "a", |i| i.past_end = true),
        fault(2, 2, "an offset at the end", "ae", |i| {
            i.end = Some(End::BeforeCount)
        }),
        fault(3, 0, "a count of four bytes", "c", |i| i.count = vec![8]),
        fault(3, 0, "a count that begins with 0", "c", |i| {
            i.count = vec![0]
        }),
        fault(2, 2, "bytes end inside the count", "ce", |i| {
            i.count = vec![4];
            i.end = Some(End::InCount);
        }),
        fault(3, 0, "a count of two bytes for one", "c", |i| {
            i.count = vec![3 * 4 + 2, 0]
        }),
        fault(3, 0, "a count of three bytes for two", "c", |i| {
            i.count = vec![4, 2, 0]
        }),
        fault(3, 0, "a count of 65,536", "c", |i| i.count = vec![4, 0, 8]),
        fault(13, 0, "an opcode too few lent", "", |i| i.room.codes = 2),
        fault(13, 0, "a value too few lent", "", |i| i.room.values = 2),
        fault(17, 0, "a value at the field's order", "0", |i| {
            i.ops[0] = immediate(FIELD)
        }),
        fault(4, 1, "an unassigned opcode", "0", |i| i.ops[1] = vec![4]),
        fault(4, 2, "opcode 128", "o", |i| i.ops[2] = vec![128]),
        fault(2, 13, "bytes end inside an operation", "eo", |i| {
            i.ops[2] = immediate(6);
            i.end = Some(End::InOp(2));
        }),
        fault(2, 13, "bytes end before an operation", "eo", |i| {
            i.end = Some(End::InOp(2));
        }),
        fault(2, 14, "bytes end inside the batch count", "ex", |i| {
            i.end = Some(End::InBatchCount);
        }),
        fault(5, 0, "a batch and four bytes", "eb", |i| {
            i.batch_count = vec![1, 0, 0, 0];
            i.end = Some(End::AfterBatchCount(4));
        }),
        fault(5, 0, "more batches than bytes", "b", |i| {
            i.batch_count = vec![1, 0x40, 0, 1]
        }),
        fault(3, 0, "16,385 batches", "eb", |i| {
            i.batch_count = vec![1, 0x40, 0, 0];
            i.longer = 5 * 16_385;
        }),
        fault(13, 0, "a record's byte too few lent", "", |i| {
            i.room.records = 2 * RECORD - 1
        }),
        fault(6, 0, "a low nibble of 10", "0", |i| i.nibbles[0][0] = 10),
        fault(6, 1, "a high nibble of 15", "", |i| i.nibbles[1][3] = 0xf0),
        fault(7, 0, "a batch that runs past the operations", "0y", |i| {
            i.nibbles[0] = [2, 2, 0, 0]
        }),
        fault(
            8,
            0,
            "an immediate of the eighth group",
            "0",
            |i: &mut Bytes| {
                i.nibbles[0] = [0, 0, 0, 0x20];
                i.flags[0] |= 0x80;
                i.flags[0] &= 0xfe;
            },
        ),
        fault(
            9,
            0,
            "a slot that holds operations",
            "0s",
            |i: &mut Bytes| {
                i.nibbles[0] = [0x11, 0, 0, 0];
                i.flags[0] &= 0xfe;
            },
        ),
        fault(10, 0, "an immediate's slot flagged", "s", |i| {
            i.flags[0] |= 2
        }),
        fault(7, 1, "a later batch that runs past", "1", |i| {
            i.nibbles[1] = [0, 9, 0, 0]
        }),
        fault(10, 1, "a flagged group without Noop", "1", |i| {
            i.flags[1] |= 1
        }),
        fault(10, 1, "an empty group flagged", "1", |i| {
            i.nibbles[1] = [0x10, 0, 0, 0];
            i.flags[1] |= 1;
        }),
        fault(11, 0, "operations left over", "1oxy", |i| {
            i.ops.push(vec![2]);
            i.count = count_bytes(4);
        }),
    ]
}

fn decode(visit: &mut Visit<'_>) {
    let good = good_bytes();
    let faults = byte_faults();
    let take_bytes = |i: &Bytes, take: &mut dyn FnMut(Call<'_>)| {
        let (bytes, at) = i.buffer();
        take(Call::Decode {
            table: &i.table,
            bytes: &bytes,
            at,
            room: i.room,
        })
    };
    combine("decode", &good, &faults, visit, take_bytes);

    // Pairs that want the same bytes, by hand.
    let mut by_hand = |name: &str, pair, number, place, spoil: &dyn Fn(&mut Bytes)| {
        let mut input = good.clone();
        spoil(&mut input);
        take_bytes(&input, &mut |call| {
            visit(Case {
                name: format!("decode: {name}"),
                pair: Some(pair),
                call,
                number,
                place,
            })
        });
    };
    by_hand("form of the count before its end", (3, 2), 3, 0, &|i| {
        i.count = vec![8];
        i.end = Some(End::InCount);
    });
    by_hand("end of the count before its form", (2, 3), 2, 2, &|i| {
        i.count = vec![4, 0];
        i.ops.clear();
        i.end = Some(End::InCount);
    });
    by_hand("a long count before the room", (3, 13), 3, 0, &|i| {
        i.count = vec![4, 0, 8];
        i.room.codes = 0;
    });
    by_hand("unassigned before missing bytes", (4, 2), 4, 2, &|i| {
        i.ops[2] = vec![4, 0];
        i.end = Some(End::InOp(2));
    });
    by_hand("missing bytes before the value", (2, 17), 2, 13, &|i| {
        // Whole, its value would not be in the field.
        i.ops[2] = immediate(u64::MAX);
        i.end = Some(End::InOp(2));
    });
    by_hand("an opcode before a later value", (4, 17), 4, 1, &|i| {
        i.ops[1] = vec![128];
        i.ops[2] = immediate(FIELD);
    });
    by_hand("a value before a later opcode", (17, 4), 17, 0, &|i| {
        i.ops[0] = carried(u64::MAX);
        i.ops[1] = vec![4];
    });
    by_hand("a value before a later value", (17, 17), 17, 0, &|i| {
        i.ops[0] = immediate(FIELD);
        i.ops[2] = immediate(FIELD);
    });
    by_hand("5 before 3 of the batch count", (5, 3), 5, 0, &|i| {
        i.batch_count = vec![1, 0x40, 0, 0];
        i.end = Some(End::AfterBatchCount(9));
    });
    by_hand(
        "3 of the batch count before the room",
        (3, 13),
        3,
        0,
        &|i| {
            i.batch_count = vec![1, 0x40, 0, 0];
            i.longer = 5 * 16_385;
            i.room.records = 0;
        },
    );
    by_hand(
        "a later nibble before an earlier batch",
        (6, 7),
        6,
        1,
        &|i| {
            i.nibbles[0] = [0x99, 0, 0, 0];
            i.nibbles[1][0] = 10;
        },
    );
    by_hand("past the operations before a slot", (7, 8), 7, 0, &|i| {
        i.nibbles[0] = [0, 0, 0, 0x90];
    });
    by_hand("past the operations before padding", (7, 10), 7, 0, &|i| {
        i.nibbles[0] = [2, 9, 0, 0];
        i.flags[0] = 2;
    });
    by_hand("slots in order: taken before past 7", (9, 8), 9, 0, &|i| {
        // Group 6 has three immediates, group 7 a plain operation.
        i.ops = vec![immediate(5), immediate(6), immediate(7), vec![2]];
        i.count = count_bytes(4);
        i.nibbles = vec![[0, 0, 0, 0x13], [0; 4]];
        i.flags = vec![0, 0];
    });
    by_hand(
        "slots in order: past 7 in an earlier group",
        (8, 9),
        9,
        0,
        &|i| {
            // Group 0 has two immediates, and group 2 holds operations; group 7 has an immediate.
            i.ops = vec![immediate(5), immediate(6), vec![2], immediate(7)];
            i.count = count_bytes(4);
            i.nibbles = vec![[2, 1, 0, 0x10], [0; 4]];
            i.flags = vec![0, 0];
        },
    );
    by_hand("a slot before padding", (9, 10), 9, 0, &|i| {
        i.nibbles[0] = [0x11, 0, 0, 0];
        i.flags[0] = 1;
    });
    by_hand(
        "padding before operations left over",
        (10, 11),
        10,
        1,
        &|i| {
            i.ops.push(vec![2]);
            i.count = count_bytes(4);
            i.flags[1] = 1;
        },
    );
    by_hand(
        "a batch's padding before the next's end",
        (10, 7),
        10,
        0,
        &|i| {
            i.flags[0] = 2;
            i.nibbles[1] = [9, 0, 0, 0];
        },
    );

    let mut single = |name: &str, number, place, spoil: &dyn Fn(&mut Bytes)| {
        let mut input = good.clone();
        spoil(&mut input);
        take_bytes(&input, &mut |call| {
            visit(Case {
                name: format!("decode: {name}"),
                pair: None,
                call,
                number,
                place,
            })
        });
    };
    // M-101: the opcode, then missing bytes, then the value. The last operation is at byte 13.
    let ends = |i: &mut Bytes, op: Vec<u8>| {
        i.ops[2] = op;
        i.end = Some(End::InOp(2));
    };
    single("opcode 127, unassigned", 4, 2, &|i| i.ops[2] = vec![127]);
    single("opcode 128 with a bad value", 4, 2, &|i| {
        i.ops[2] = valued(128, FIELD)
    });
    single("an unassigned opcode with a bad value", 4, 2, &|i| {
        i.ops[2] = valued(4, u64::MAX)
    });
    single("opcode 128, cut", 4, 2, &|i| ends(i, valued(128, FIELD)));
    single("an unassigned opcode, cut", 4, 2, &|i| {
        ends(i, valued(4, FIELD))
    });
    single("an immediate, cut", 2, 13, &|i| ends(i, immediate(5)));
    single("a carried value, cut", 2, 13, &|i| ends(i, carried(5)));
    single("a bad carried value, cut", 2, 13, &|i| {
        ends(i, carried(u64::MAX))
    });
    single("a carried value at the field's order", 17, 2, &|i| {
        i.ops[2] = carried(FIELD)
    });
    single("the largest immediate", 17, 2, &|i| {
        i.ops[2] = immediate(u64::MAX)
    });
    single("values one below the field's order", 0, 0, &|i| {
        i.ops[0] = immediate(FIELD - 1);
        i.ops[2] = carried(FIELD - 1);
    });
    // Flags at or above the count, which is 2 in the first batch and 1 in the second.
    single("the flag at the count", 0, 0, &|i| i.flags[0] = 5);
    single("flag 7", 0, 0, &|i| i.flags[0] = 0x81);
    single("all flags above the counts", 0, 0, &|i| {
        i.flags = vec![0xfd, 0xfe]
    });
    for flags in [1, 0xff] {
        single(
            &format!("flags {flags:x} of a batch without groups"),
            0,
            0,
            &|i| {
                i.batch_count = vec![3, 0, 0, 0];
                i.nibbles.insert(1, [0; 4]);
                i.flags.insert(1, flags);
                i.room.records = 3 * RECORD;
            },
        );
    }
    single(
        "a group that ends in an immediate's operation",
        0,
        0,
        &|i| {
            // The count is 2 here, too.
            i.ops = vec![immediate(5), vec![2]];
            i.count = count_bytes(2);
            i.nibbles[0] = [1, 0, 0, 0];
            i.flags[0] = 0xfc;
        },
    );
    // What comes later is looked for.
    single("a kept flag, then past the operations", 7, 1, &|i| {
        i.flags[0] = 5;
        i.nibbles[1] = [9, 0, 0, 0];
    });
    single("a kept flag, then a slot past 7", 8, 1, &|i| {
        i.flags[0] = 5;
        i.ops[2] = immediate(6);
        i.nibbles[1] = [0, 0, 0, 0x10];
    });
    single(
        "a kept flag, then a slot that holds operations",
        9,
        1,
        &|i| {
            i.flags[0] = 5;
            i.ops[2] = immediate(6);
            i.ops.push(vec![2]);
            i.count = count_bytes(4);
            i.nibbles[1] = [0x11, 0, 0, 0];
        },
    );
    single(
        "a kept flag, then a flagged group without Noop",
        10,
        1,
        &|i| i.flags = vec![5, 1],
    );
    single("kept flags and the slot's", 10, 0, &|i| i.flags[0] = 0xff);
    single(
        "a kept flag and a flagged group without Noop",
        10,
        1,
        &|i| i.flags[1] = 3,
    );
    single("kept flags, then operations left over", 11, 0, &|i| {
        i.ops.push(vec![2]);
        i.count = count_bytes(4);
        i.flags = vec![0xfd, 0xfe];
    });
    single(
        "a batch without groups, then operations left over",
        11,
        0,
        &|i| {
            i.nibbles[1] = [0; 4];
            i.flags[1] = 1;
        },
    );
}

// STRICT READING
// ================================================================================================

const P: Operation = Operation { code: 2, value: 0 };
const NOOP: Operation = Operation { code: 0, value: 0 };

/// An immediate.
fn push(value: u64) -> Operation {
    op(1, value)
}

/// The bytes of a block: operations and, for each batch, the lengths of its groups and its flags.
fn bytes_of(list: &[Operation], batches: &[(&[u8], u8)]) -> Bytes {
    let table = table_t();
    let written = |op: &Operation| match table[usize::from(op.code)] {
        0 => vec![op.code],
        _ => valued(op.code, op.value),
    };
    let nibbles = |lengths: &[u8]| {
        let length = |group: usize| lengths.get(group).copied().unwrap_or(0);
        core::array::from_fn(|pair| length(2 * pair) + 16 * length(2 * pair + 1))
    };
    Bytes {
        count: count_bytes(list.len()),
        ops: list.iter().map(written).collect(),
        batch_count: (batches.len() as u32).to_le_bytes().to_vec(),
        nibbles: batches.iter().map(|batch| nibbles(batch.0)).collect(),
        flags: batches.iter().map(|batch| batch.1).collect(),
        room: Room {
            codes: list.len(),
            values: list.len() + 1,
            records: batches.len() * RECORD + 1,
        },
        ..good_bytes()
    }
}

/// M-107: what decode refuses, before 18; blocks that batching makes, and blocks that it does not.
fn strict(visit: &mut Visit<'_>) {
    let mut take = |name: &str, pair, input: &Bytes, number, place| {
        let (bytes, at) = input.buffer();
        visit(Case {
            name: format!("decode strict: {name} ({number})"),
            pair,
            call: Call::Strict {
                table: &input.table,
                bytes: &bytes,
                at,
                room: input.room,
            },
            number,
            place,
        });
    };
    // Two batches where batching makes one: 18, and all that is refused before it.
    let unfinished = good_bytes();
    take("two batches for one", None, &unfinished, 18, 0);
    for fault in byte_faults() {
        let mut input = unfinished.clone();
        (fault.spoil)(&mut input);
        let name = format!("{} before 18", fault.name);
        let pair = Some((fault.number, 18));
        take(&name, pair, &input, fault.number, fault.place);
    }
    // And nothing but what decode refuses.
    let p1 = || bytes_of(&[push(5), NOOP], &[(&[2], 1)]);
    for (name, number, place, spoil) in [
        ("P1 without its last byte", 5, 0, |i: &mut Bytes| {
            i.end = Some(End::AfterBatchCount(4))
        }),
        ("P1 cut inside its operation", 2, 3, |i| {
            i.end = Some(End::InOp(0))
        }),
        ("P1, an opcode too few lent", 13, 0, |i| i.room.codes = 1),
        ("P1, a value too few lent", 13, 0, |i| i.room.values = 1),
        ("P1, a record's byte too few lent", 13, 0, |i| {
            i.room.records = 81
        }),
        ("P1 with a flagged slot", 10, 0, |i| i.flags[0] = 3),
        ("P1 without its batch", 11, 0, |i| {
            i.batch_count = vec![0; 4];
            i.nibbles.clear();
            i.flags.clear();
        }),
    ] as [(&str, u8, usize, fn(&mut Bytes)); 7]
    {
        let mut input = p1();
        spoil(&mut input);
        take(name, None, &input, number, place);
    }

    let many = |times: usize, op: Operation| vec![op; times];
    let pushes = |times: u64| (1..=times).map(push).collect::<Vec<_>>();
    let full: &[u8] = &[9; 8];
    // Seven immediates and their padding, then one and its padding.
    let eight = [pushes(7), vec![NOOP, push(8), NOOP]].concat();
    let mut both = |name: &str, list: &[Operation], batches: &[(&[u8], u8)], number, place| {
        take(name, None, &bytes_of(list, batches), number, place)
    };
    // Batching makes these.
    both("P1", &[push(5), NOOP], &[(&[2], 1)], 0, 0);
    both("one operation", &[P], &[(&[1], 0)], 0, 0);
    both("carried values", &[op(3, 6), op(3, 7)], &[(&[2], 0)], 0, 0);
    both("a Noop of its own", &[NOOP], &[(&[1], 0)], 0, 0);
    both(
        "a Noop of its own after an immediate",
        &[push(5), NOOP],
        &[(&[2], 0)],
        0,
        0,
    );
    both("two groups", &many(10, P), &[(&[9, 1], 0)], 0, 0);
    let nineteen = [many(19, P), vec![NOOP]].concat();
    both(
        "four groups, one of them padding",
        &nineteen,
        &[(&[9, 9, 1, 1], 8)],
        0,
        0,
    );
    let p6 = [many(8, P), vec![push(1), NOOP, NOOP]].concat();
    both(
        "an immediate that begins a group",
        &p6,
        &[(&[8, 2, 0, 1], 10)],
        0,
        0,
    );
    both(
        "two batches of immediates",
        &eight,
        &[(&[8], 1), (&[2], 1)],
        0,
        0,
    );
    both(
        "two batches of plain operations",
        &many(73, P),
        &[(full, 0), (&[1], 0)],
        0,
        0,
    );
    // Nothing of its own.
    both("no batches", &[], &[], 18, 0);
    both("an empty batch", &[], &[(&[], 0)], 18, 0);
    both(
        "empty batches with flags",
        &[],
        &[(&[], 1), (&[], 0xff)],
        18,
        0,
    );
    both("padding alone", &[NOOP], &[(&[1], 1)], 18, 0);
    both(
        "padding alone, in groups and batches",
        &many(4, NOOP),
        &[(&[1, 0, 1], 5), (&[], 0), (&[1, 1], 3)],
        18,
        0,
    );
    // Empty batches.
    both(
        "an empty batch, then P1",
        &[push(5), NOOP],
        &[(&[], 0), (&[2], 1)],
        18,
        0,
    );
    both(
        "P1, then an empty batch",
        &[push(5), NOOP],
        &[(&[2], 1), (&[], 0)],
        18,
        1,
    );
    both(
        "an empty batch in the middle",
        &eight,
        &[(&[8], 1), (&[], 0), (&[2], 1)],
        18,
        1,
    );
    both(
        "two empty batches at the end",
        &eight,
        &[(&[8], 1), (&[2], 1), (&[], 0), (&[], 4)],
        18,
        2,
    );
    // Flags at or above the count.
    both(
        "P1 with the flag at the count",
        &[push(5), NOOP],
        &[(&[2], 5)],
        18,
        0,
    );
    both("P1 with flag 7", &[push(5), NOOP], &[(&[2], 0x81)], 18, 0);
    both(
        "a kept flag in the last batch",
        &eight,
        &[(&[8], 1), (&[2], 0x41)],
        18,
        1,
    );
    // Empty groups.
    both(
        "an empty group before the first",
        &[P],
        &[(&[0, 1], 0)],
        18,
        0,
    );
    both(
        "an empty group between two",
        &many(10, P),
        &[(&[9, 0, 1], 0)],
        18,
        0,
    );
    both(
        "an empty group after an immediate's slot",
        &p6,
        &[(&[8, 2, 0, 0, 1], 18)],
        18,
        0,
    );
    both(
        "an empty group in the last batch",
        &many(73, P),
        &[(full, 0), (&[0, 0, 0, 1], 0)],
        18,
        1,
    );
    // Paddings.
    both("three groups", &many(19, P), &[(&[9, 9, 1], 0)], 18, 0);
    both(
        "an immediate without padding",
        &[push(5)],
        &[(&[1], 0)],
        18,
        0,
    );
    both("a Noop of its own flagged", &[P, NOOP], &[(&[2], 1)], 18, 0);
    both(
        "a Noop of its own and a padding",
        &[push(5), NOOP, NOOP],
        &[(&[3], 1)],
        18,
        0,
    );
    both(
        "the padding of the last batch missing",
        &eight[..9],
        &[(&[8], 1), (&[1], 0)],
        18,
        1,
    );
    // Groups and batches closed early, or late.
    both("a group closed early", &many(10, P), &[(&[8, 2], 0)], 18, 0);
    both(
        "a group closed early by padding",
        &[P, NOOP, P],
        &[(&[2, 1], 1)],
        18,
        0,
    );
    both(
        "a batch closed early",
        &[P, P],
        &[(&[1], 0), (&[1], 0)],
        18,
        0,
    );
    both(
        "a batch of immediates closed early",
        &[pushes(6), vec![NOOP, push(7), push(8), NOOP]].concat(),
        &[(&[7], 1), (&[3], 1)],
        18,
        0,
    );
    both(
        "the second batch closed early",
        &many(74, P),
        &[(full, 0), (&[1], 0), (&[1], 0)],
        18,
        1,
    );
    both(
        "an immediate as the ninth",
        &[many(8, P), vec![push(1)]].concat(),
        &[(&[9], 0)],
        18,
        0,
    );
    // 16,384 operations, and one more with a batch too many: the length is looked at first.
    // Their last batch has five groups, and three of padding. (Noops, for short records.)
    let mut batches = vec![(full, 0); 227];
    batches.push((&[9, 9, 9, 9, 4, 1, 1, 1], 0xe0));
    both("16,384 operations", &many(16_387, NOOP), &batches, 0, 0);
    batches[227].0 = &[9, 9, 9, 9, 5, 1, 1, 1];
    batches.push((&[], 0));
    both(
        "16,385 operations, and an empty batch",
        &[many(16_385, P), many(3, NOOP)].concat(),
        &batches,
        18,
        0,
    );
}

// TWO BLOCKS
// ================================================================================================

/// M-105: two blocks, and a report of so many numbers.
struct Pair<'a> {
    name: String,
    pair: Option<(u8, u8)>,
    first: &'a Bytes,
    second: &'a Bytes,
    report: usize,
    number: u8,
    place: usize,
}

impl Bytes {
    /// Where compare reads it, in a buffer of its own.
    fn source<'a>(&'a self, (bytes, at): &'a (Vec<u8>, usize)) -> Source<'a> {
        Source {
            table: &self.table,
            bytes,
            at: *at,
            room: self.room,
        }
    }
}

fn take_pair(visit: &mut Visit<'_>, two: Pair<'_>) {
    let [one, other] = [two.first, two.second].map(Bytes::buffer);
    visit(Case {
        name: format!("compare: {} ({})", two.name, two.number),
        pair: two.pair,
        call: Call::Compare {
            first: two.first.source(&one),
            second: two.second.source(&other),
            report: two.report,
        },
        number: two.number,
        place: two.place,
    });
}

fn compare(visit: &mut Visit<'_>) {
    refused_pairs(visit);
    reported_pairs(visit);
    lent_reports(visit);
    two_tables(visit);
    long_pairs(visit);
}

/// Every fault of decode in the first block, in the second, and in both, each time with a report that is
/// too short besides.
fn refused_pairs(visit: &mut Visit<'_>) {
    let good = good_bytes();
    let other = bytes_of(&[P], &[(&[1], 0)]);
    let faults = byte_faults();
    for (i, fault) in faults.iter().enumerate() {
        let mut bad = good.clone();
        (fault.spoil)(&mut bad);
        let mut take = |side: &str, pair, first: &Bytes, second: &Bytes, report| {
            let name = format!("{side}: {}", fault.name);
            let (number, place) = (fault.number, fault.place);
            take_pair(
                visit,
                Pair {
                    name,
                    pair,
                    first,
                    second,
                    report,
                    number,
                    place,
                },
            )
        };
        let short = Some((fault.number, 13));
        take("the first", None, &bad, &other, 40);
        take("the first, a short report", short, &bad, &other, 3);
        take("the second", None, &other, &bad, 41);
        take("the second, a short report", short, &other, &bad, 0);
        // The fault before it, and the one after it: whichever comes first.
        for near in [i.wrapping_sub(1), i + 1] {
            if let Some(near) = faults.get(near) {
                let mut second = good.clone();
                (near.spoil)(&mut second);
                let pair = Some((fault.number, near.number));
                take("both", pair, &bad, &second, 40);
            }
        }
    }
}

type Parts<'a> = (&'a [Operation], &'a [(&'a [u8], u8)]);

/// Two blocks for every kind of difference, either of them first.
fn reported_pairs(visit: &mut Visit<'_>) {
    let p1: Parts<'_> = (&[push(5), NOOP], &[(&[2], 1)]);
    let eight: Vec<Operation> = [(1..=7).map(push).collect(), vec![NOOP, push(8), NOOP]].concat();
    let batches: &[(&[u8], u8)] = &[(&[8], 1), (&[2], 1)];
    let mut other = eight.clone();
    other[8] = push(9);
    let kept: &[(&[u8], u8)] = &[(&[8], 1), (&[2], 0x85)];
    let more = [eight.clone(), vec![P]].concat();
    let with_empty: &[(&[u8], u8)] = &[(&[8], 1), (&[], 0), (&[2], 1)];
    let pairs: [(&str, Parts<'_>, Parts<'_>); 18] = [
        ("P1 and itself", p1, p1),
        ("P1 and another value", p1, (&[push(6), NOOP], &[(&[2], 1)])),
        (
            "P1 and its Noop unflagged",
            p1,
            (&[push(5), NOOP], &[(&[2], 0)]),
        ),
        (
            "P1 and a kept flag",
            p1,
            (&[push(5), NOOP], &[(&[2], 0x81)]),
        ),
        ("P1 and nothing", p1, (&[], &[])),
        ("P1 and an empty batch", p1, (&[], &[(&[], 0)])),
        (
            "P1 and an empty batch after it",
            p1,
            (&[push(5), NOOP], &[(&[2], 1), (&[], 0)]),
        ),
        (
            "nothing and empty batches",
            (&[], &[]),
            (&[], &[(&[], 0), (&[], 3)]),
        ),
        (
            "an empty batch and its flags",
            (&[], &[(&[], 1)]),
            (&[], &[(&[], 0x80)]),
        ),
        (
            "an operation and a Noop",
            (&[P], &[(&[1], 0)]),
            (&[NOOP], &[(&[1], 0)]),
        ),
        (
            "a Noop and a padding",
            (&[NOOP], &[(&[1], 0)]),
            (&[NOOP], &[(&[1], 1)]),
        ),
        (
            "carried values",
            (&[op(3, 6)], &[(&[1], 0)]),
            (&[op(3, 7)], &[(&[1], 0)]),
        ),
        (
            "one group and two",
            (&[P, P, P], &[(&[3], 0)]),
            (&[P, P, P], &[(&[1, 2], 0)]),
        ),
        (
            "an operation more, at a place only one has",
            (&[P, P], &[(&[2], 0)]),
            (&[P, P, op(3, 1)], &[(&[3], 0)]),
        ),
        (
            "all five of one batch",
            (&[P], &[(&[1], 0)]),
            (&[NOOP, P, NOOP], &[(&[2, 1], 2)]),
        ),
        (
            "another value in the second batch",
            (&eight, batches),
            (&other, batches),
        ),
        (
            "kept flags in the second batch",
            (&eight, batches),
            (&more, &[(&[8], 1), (&[3], 0x80)]),
        ),
        (
            "an empty batch between two",
            (&eight, with_empty),
            (&eight, kept),
        ),
    ];
    for (name, one, other) in pairs {
        let [one, other] = [one, other].map(|(list, batches)| bytes_of(list, batches));
        for (name, first, second) in [
            (name.to_string(), &one, &other),
            (format!("{name}, turned"), &other, &one),
        ] {
            let (pair, report) = (None, 60);
            let (number, place) = (0, 0);
            take_pair(
                visit,
                Pair {
                    name,
                    pair,
                    first,
                    second,
                    report,
                    number,
                    place,
                },
            );
        }
    }
}

/// Reports of every length around the need of two blocks with three differences.
fn lent_reports(visit: &mut Visit<'_>) {
    let one = bytes_of(&[push(5), NOOP], &[(&[2], 1)]);
    let other = bytes_of(&[push(5), NOOP], &[(&[2], 0)]);
    for report in [0, 1, 3, 4, 7, 8, 11, 12, 13, 14, 15, 16, 17] {
        let number = if report < 12 { 13 } else { 0 };
        take_pair(
            visit,
            Pair {
                name: format!("three differences in {report} numbers"),
                pair: None,
                first: &one,
                second: &other,
                report,
                number,
                place: 0,
            },
        );
    }
}

/// The same bytes under two tables.
fn two_tables(visit: &mut Visit<'_>) {
    let one = bytes_of(&[push(5), NOOP], &[(&[2], 1)]);
    for (name, kind, number) in [
        ("an immediate that is only carried for the second", 2, 0),
        ("an opcode that is unassigned for the second", 3, 4),
    ] {
        let mut other = one.clone();
        other.table[1] = kind;
        take_pair(
            visit,
            Pair {
                name: name.into(),
                pair: None,
                first: &one,
                second: &other,
                report: 16,
                number,
                place: 0,
            },
        );
    }
}

/// 16,384 batches without operations, beside the same and beside one: all others are missing.
fn long_pairs(visit: &mut Visit<'_>) {
    let table = table_t();
    let mut long = vec![1, 0, 0x40, 0, 0];
    long.resize(5 + 5 * 16_384, 0);
    let source = |bytes| Source {
        table: &table,
        bytes,
        at: 0,
        room: Room {
            codes: 1,
            values: 0,
            records: 16_384 * RECORD,
        },
    };
    let one = &[1, 1, 0, 0, 0, 0, 0, 0, 0, 0][..];
    for (name, first, second, report, number) in [
        ("16,384 batches and the same", &long[..], &long[..], 9, 0),
        ("16,384 differences, a number short", &long, one, 65_535, 13),
        ("the same turned, an entry short", one, &long, 65_532, 13),
    ] {
        visit(Case {
            name: format!("compare: {name} ({number})"),
            pair: None,
            call: Call::Compare {
                first: source(first),
                second: source(second),
                report,
            },
            number,
            place: 0,
        });
    }
}

// CHECKS
// ================================================================================================

type Spoil = Fault<Block>;

/// 3, for all functions on a block.
fn limits() -> Vec<Spoil> {
    vec![
        fault(3, 0, "a value too many", "e", |i: &mut Block| {
            i.values.push(0)
        }),
        fault(3, 0, "a byte over two records", "r", |i| i.crumbs = 1),
        fault(3, 0, "81 bytes over two records", "r", |i| i.crumbs = 81),
        fault(3, 0, "over 65,535 operations", "e", |i| {
            i.codes.resize(65_536, 2);
            i.values.resize(65_536, 0);
        }),
        fault(3, 0, "over 16,384 records", "r", |i| {
            i.records.resize(16_385 * RECORD, 0)
        }),
    ]
}

/// 15, all clauses.
fn structures() -> Vec<Spoil> {
    vec![
        fault(15, 0, "a count of 9", "", |i| i.records[COUNT] = 9),
        fault(15, 0, "a flag of 2", "", |i| i.records[FLAG + 3] = 2),
        fault(15, 0, "starts from 1", "", |i| i.records[START] = 1),
        fault(15, 0, "falling starts", "", |i| i.records[START + 8] = 8),
        fault(15, 1, "a group of ten", "er", |i| {
            for start in 1..9 {
                i.records[RECORD + START + start] = 10;
            }
            i.codes.resize(19, 0);
            i.values.resize(19, 0);
        }),
        fault(15, 1, "operations past the count", "", |i| {
            i.records[RECORD + COUNT] = 0
        }),
        fault(15, 1, "a flag of 2 at the count", "", |i| {
            i.records[RECORD + FLAG + 2] = 2
        }),
        fault(15, 2, "an operation that no batch covers", "e", |i| {
            i.codes.push(2);
            i.values.push(0);
        }),
        fault(15, 2, "a batch that covers too many", "r", |i| {
            let more = Batch {
                starts: [0, 1, 1, 1, 1, 1, 1, 1, 1],
                count: 1,
                ..Batch::default()
            };
            i.records.truncate(RECORD);
            i.records.extend(more.record());
        }),
    ]
}

/// 10.
fn paddings() -> Vec<Spoil> {
    vec![
        fault(10, 0, "a flagged group that ends in another", "", |i| {
            i.records[FLAG] = 1
        }),
        fault(10, 0, "an empty group flagged", "", |i| {
            i.records[FLAG + 7] = 1
        }),
        fault(10, 1, "an immediate's slot flagged", "r", |i| {
            i.records[RECORD + FLAG + 1] = 1
        }),
        fault(10, 1, "a flagged group without Noop", "", |i| {
            i.codes[10] = 200
        }),
    ]
}

fn checks(visit: &mut Visit<'_>) {
    let good = two_batches();
    let mut faults = limits();
    faults.extend(structures());
    combine("structure", &good, &faults, visit, |i, take| {
        let run = i.run();
        take(Call::Structure {
            arena: i.arena(&run),
        })
    });
    faults.extend(paddings());
    combine("padding", &good, &faults, visit, |i, take| {
        let run = i.run();
        take(Call::Padding {
            arena: i.arena(&run),
        })
    });

    let mut faults = limits();
    faults.push(fault(14, 0, "a table of 127 bytes", "t", |i| {
        i.table.pop();
    }));
    faults.push(fault(14, 0, "Noop with an immediate", "t", |i| {
        i.table[0] = 1
    }));
    faults.extend(structures());
    faults.extend([
        fault(
            17,
            3,
            "an immediate at the field's order",
            "",
            |i: &mut Block| i.values[3] = FIELD,
        ),
        fault(4, 7, "an unassigned opcode", "", |i| i.codes[7] = 4),
        fault(17, 10, "a Noop with a value", "", |i| i.values[10] = 1),
        fault(16, 0, "a wrong group number", "", |i| {
            i.records[NUMBER] ^= 1
        }),
        fault(8, 0, "a slot that is not under the count", "", |i| {
            i.records[COUNT] = 7
        }),
        fault(16, 0, "a wrong immediate", "", |i| {
            i.records[NUMBER + 8] ^= 1
        }),
        fault(9, 1, "a slot that holds operations", "r1", |i| {
            i.records[RECORD + START + 1] = 1
        }),
        fault(16, 1, "a wrong immediate in a later batch", "r1", |i| {
            i.records[RECORD + NUMBER + 15] = 1
        }),
        fault(16, 1, "an empty group that is not 0", "r", |i| {
            i.records[RECORD + COUNT] = 3;
            i.records[RECORD + NUMBER + 16] = 1;
        }),
    ]);
    combine("commitment", &good, &faults, visit, |i, take| {
        let run = i.run();
        take(Call::Commitment {
            table: &i.table,
            arena: i.arena(&run),
        })
    });

    for (name, block) in kept() {
        let arena = block.arena(&block.records);
        for call in [
            Call::Structure { arena },
            Call::Padding { arena },
            Call::Commitment {
                table: &block.table,
                arena,
            },
        ] {
            visit(Case {
                name: format!("{}: {name}", call.function().name()),
                pair: None,
                call,
                number: 0,
                place: 0,
            });
        }
    }
    for (name, places, number, place) in faulty() {
        let mut block = two_batches();
        put(&places, &mut block.codes, &mut block.values);
        if number == 0 {
            // Records that go with it: the second batch's one immediate.
            block = two_batches();
            block.values[9] = FIELD - 1;
            block.records[RECORD + NUMBER + 8..][..8].copy_from_slice(&(FIELD - 1).to_le_bytes());
        }
        visit(Case {
            name: format!("commitment: {name} ({number})"),
            pair: None,
            call: Call::Commitment {
                table: &block.table,
                arena: block.arena(&block.records),
            },
            number,
            place,
        });
    }
    for (name, block) in kept_and_slot() {
        visit(Case {
            name: format!("padding: {name} (10)"),
            pair: None,
            call: Call::Padding {
                arena: block.arena(&block.records),
            },
            number: 10,
            place: block.records.len() / RECORD - 1,
        });
    }

    // The order inside a group, by hand: two immediates in group 0 of three groups.
    let list = [op(1, 5), op(1, 6), op(2, 0)];
    let batch = Batch {
        starts: [0, 2, 2, 3, 3, 3, 3, 3, 3],
        flags: [0; 8],
        numbers: [129, 5, 2, 0, 0, 0, 0, 0],
        count: 3,
    };
    let mut by_hand = |name: &str, pair, number, spoil: &dyn Fn(&mut Batch)| {
        let mut batch = batch.clone();
        spoil(&mut batch);
        let block = Block::new(&list, &[batch]);
        visit(Case {
            name: format!("commitment: {name}"),
            pair: Some(pair),
            call: Call::Commitment {
                table: &block.table,
                arena: block.arena(&block.records),
            },
            number,
            place: 0,
        });
    };
    by_hand("a slot before an earlier value", (9, 16), 9, &|b| {
        b.numbers[1] = 6
    });
    by_hand("a slot past the count before a value", (8, 16), 8, &|b| {
        b.starts = [0, 3, 3, 3, 3, 3, 3, 3, 3];
        b.numbers[0] = 129 + (2 << 14);
        b.numbers[1] = 6;
        b.count = 2;
    });
    by_hand("a number before its slots", (16, 9), 16, &|b| {
        b.numbers[0] = 128
    });
    by_hand("a group's slot before a later number", (9, 16), 9, &|b| {
        b.numbers[2] = 3
    });
    by_hand("a slot at 8 before nothing is under it", (8, 8), 8, &|b| {
        b.starts = [0, 0, 0, 0, 0, 0, 0, 0, 3];
        b.numbers = [0, 0, 0, 0, 0, 0, 0, 129 + (2 << 14)];
        b.count = 8;
    });
    by_hand("a value before an empty group", (16, 16), 16, &|b| {
        b.starts = [0, 3, 3, 3, 3, 3, 3, 3, 3];
        b.numbers = [129 + (2 << 14), 5, 7, 1, 0, 0, 0, 0];
        b.count = 4;
    });
}

// TABLES AND LOOKUPS
// ================================================================================================

fn tables(visit: &mut Visit<'_>) {
    for (raw, need) in [(true, 11), (false, 12)] {
        let mut good = two_batches();
        good.room = need;
        let mut faults = limits();
        faults.extend(structures());
        faults.extend(paddings());
        faults.push(fault(13, 0, "an entry too few lent", "m", |i| i.room -= 1));
        faults.push(fault(13, 0, "nothing lent", "m", |i| i.room = 0));
        let name = if raw { "raw table" } else { "padded table" };
        combine(name, &good, &faults, visit, |i, take| {
            let run = i.run();
            let arena = i.arena(&run);
            take(if raw {
                Call::RawTable {
                    arena,
                    room: i.room,
                }
            } else {
                Call::PaddedTable {
                    arena,
                    room: i.room,
                }
            })
        });
    }
    let mut with_flags = |name: &str, block: &Block, number, place| {
        let arena = block.arena(&block.records);
        for call in [
            Call::RawTable { arena, room: 11 },
            Call::PaddedTable { arena, room: 12 },
        ] {
            visit(Case {
                name: format!("{}: {name} ({number})", call.function().name()),
                pair: None,
                call,
                number,
                place,
            });
        }
    };
    for (name, block) in kept() {
        with_flags(name, &block, 0, 0);
    }
    for (name, block) in kept_and_slot() {
        with_flags(&name, &block, 10, block.records.len() / RECORD - 1);
    }
    // No operations and no batches: one entry, and room for none.
    let empty = Arena {
        codes: &[],
        values: &[],
        records: &[],
    };
    for (room, number) in [(0, 13), (1, 0)] {
        for call in [
            Call::RawTable { arena: empty, room },
            Call::PaddedTable { arena: empty, room },
        ] {
            visit(Case {
                name: format!("{}: an empty block, {room} lent", call.function().name()),
                pair: None,
                call,
                number,
                place: 0,
            });
        }
    }
}

fn lookups(visit: &mut Visit<'_>) {
    // Only the clauses of one record.
    let faults = &structures()[..7];
    for batch in 0..2 {
        let mut good = two_batches();
        if batch == 1 {
            good.records.rotate_left(RECORD);
        }
        for asked in [0, 1, 2, 8, 9, usize::MAX] {
            for group in [true, false] {
                let name = if group { "group" } else { "next group" };
                let call = |i: &Block, take: &mut dyn FnMut(Call<'_>)| {
                    let record = &i.records[..RECORD];
                    take(if group {
                        Call::Group {
                            record,
                            index: asked,
                        }
                    } else {
                        Call::NextGroup {
                            record,
                            group: asked,
                        }
                    });
                };
                let mut one = |name: String, number, input: &Block| {
                    call(input, &mut |call| {
                        visit(Case {
                            name: name.clone(),
                            pair: None,
                            call,
                            number,
                            place: 0,
                        })
                    })
                };
                one(format!("{name}: {asked} of a good record"), 0, &good);
                if asked > 0 || batch > 0 {
                    continue;
                }
                for fault in faults {
                    let mut input = good.clone();
                    (fault.spoil)(&mut input);
                    if fault.place == 1 {
                        input.records.rotate_left(RECORD);
                    }
                    one(format!("{name}: {} (15)", fault.name), 15, &input);
                }
            }
        }
    }
    // A run that is not one record is not looked into (docs/DECISIONS.md, "Records").
    for length in [0, RECORD - 1, RECORD + 1, 2 * RECORD] {
        let run = vec![9; length];
        for call in [
            Call::Group {
                record: &run,
                index: 0,
            },
            Call::NextGroup {
                record: &run,
                group: 0,
            },
        ] {
            visit(Case {
                name: format!("{}: {length} bytes (3)", call.function().name()),
                pair: None,
                call,
                number: 3,
                place: 0,
            });
        }
    }
    // Index lookups never refuse.
    let entries = [0, 1, 1, 4, u64::MAX - 4, u64::MAX - 4];
    for at in [0, 1, 2, 3, 4, 5, 6, usize::MAX] {
        for call in [
            Call::PaddedIndex {
                table: &entries,
                raw: at,
            },
            Call::RawIndex {
                table: &entries,
                padded: at,
            },
            Call::PaddedIndex {
                table: &[],
                raw: at,
            },
            Call::RawIndex {
                table: &[],
                padded: at,
            },
        ] {
            visit(Case {
                name: format!("{}: {at}", call.function().name()),
                pair: None,
                call,
                number: 0,
                place: 0,
            });
        }
    }
}

/// All cases, function by function.
pub fn all(visit: &mut Visit<'_>) {
    build(visit);
    encode(visit);
    decode(visit);
    checks(visit);
    tables(visit);
    lookups(visit);
    strict(visit);
    compare(visit);
}
