//! Inputs: tables, lists, blocks, and ways to damage them.

use model::{Arena, Batch, FIELD, RECORD, Room, batches_of, count_bytes};

use crate::Seed;

/// Room enough for any list.
pub const WIDE: Room = Room {
    codes: 65_535,
    values: 65_535,
    records: 16_384 * RECORD,
};

/// A list of operations.
#[derive(Clone, Default)]
pub struct List {
    pub codes: Vec<u8>,
    pub values: Vec<u64>,
}

impl List {
    pub fn push(&mut self, code: u8, value: u64) {
        self.codes.push(code);
        self.values.push(value);
    }

    pub fn clear(&mut self) {
        self.codes.clear();
        self.values.clear();
    }

    /// Room that is enough for the list and not much more.
    pub fn room(&self) -> Room {
        let batches = self.codes.len() / 7 + 1;
        let padded = self.codes.len() + 8 * batches;
        Room {
            codes: padded,
            values: padded,
            records: batches * RECORD,
        }
    }
}

/// A block's runs.
#[derive(Clone, Default)]
pub struct Block {
    pub codes: Vec<u8>,
    pub values: Vec<u64>,
    pub records: Vec<u8>,
}

impl Block {
    pub fn arena(&self) -> Arena<'_> {
        Arena {
            codes: &self.codes,
            values: &self.values,
            records: &self.records,
        }
    }

    /// What build or decode gave, cut at its totals.
    pub fn of(answer: &model::Answer) -> Self {
        let [batches, operations, _] = answer.rest;
        Self {
            codes: answer.codes[..operations].to_vec(),
            values: answer.values[..operations].to_vec(),
            records: answer.records[..batches * RECORD].to_vec(),
        }
    }

    fn batches(&self) -> Vec<Batch> {
        batches_of(&self.records)
    }

    fn set(&mut self, batches: &[Batch]) {
        self.records = batches.iter().flat_map(Batch::record).collect();
    }
}

/// A list as one group of one batch. It may be none of a good block; structure holds.
pub fn one_group(list: &List) -> Block {
    let length = list.codes.len() as u8;
    let mut batch = Batch {
        count: 1,
        ..Batch::default()
    };
    batch.starts[1..].fill(length);
    batch.numbers[0] =
        (list.codes.iter().rev()).fold(0u64, |number, &code| number << 7 | u64::from(code & 127));
    Block {
        codes: list.codes.clone(),
        values: list.values.clone(),
        records: batch.record(),
    }
}

/// The opcodes of a table by kind, Noop apart.
pub struct Kinds {
    pub plain: Vec<u8>,
    pub immediate: Vec<u8>,
    pub carried: Vec<u8>,
    pub unassigned: Vec<u8>,
}

impl Kinds {
    pub fn of(table: &[u8]) -> Self {
        let of = |kind| {
            (1..128u8)
                .filter(|&code| table[usize::from(code)] == kind)
                .collect::<Vec<_>>()
        };
        Self {
            plain: of(0),
            immediate: of(1),
            carried: of(2),
            unassigned: of(3),
        }
    }
}

/// A good table with all kinds.
pub fn table(seed: &mut Seed) -> Vec<u8> {
    let mut table: Vec<u8> = (0..128).map(|_| seed.under(4) as u8).collect();
    table[..5].copy_from_slice(&[0, 1, 0, 2, 3]);
    table
}

/// A table that is not good.
pub fn bad_table(seed: &mut Seed, good: &[u8]) -> Vec<u8> {
    let mut table = good.to_vec();
    match seed.under(4) {
        0 => table.truncate(seed.under(128)),
        1 => table.resize(129 + seed.under(200), seed.under(4) as u8),
        2 => table[seed.under(128)] = 4 + seed.under(252) as u8,
        _ => table[0] = 1 + seed.under(3) as u8,
    }
    table
}

/// Operations of every kind: good ones with the least and the largest values, and with a fault of the
/// opcode, of the value, or of both.
pub fn letters(kinds: &Kinds) -> Vec<(u8, u64)> {
    let (plain, immediate, carried) = (kinds.plain[0], kinds.immediate[0], kinds.carried[0]);
    let unassigned = kinds.unassigned[0];
    vec![
        (plain, 0),
        (immediate, FIELD - 1),
        (carried, FIELD - 1),
        (0, 1),
        (plain, FIELD),
        (immediate, FIELD),
        (carried, FIELD),
        (immediate, u64::MAX),
        (unassigned, 0),
        (unassigned, u64::MAX),
        (128, 0),
        (255, FIELD),
    ]
}

/// A length of list: most of them small, many at the ends of groups and batches.
pub fn size(seed: &mut Seed) -> usize {
    match seed.under(400) {
        0 => 16_384 - seed.under(3),
        1 => 1 + seed.under(16_384),
        2..=5 => 1 + seed.under(3_000),
        6..=40 => 1 + seed.under(400),
        41..=80 => 60 + seed.under(16),
        81..=120 => 72 * (1 + seed.under(3)) - 2 + seed.under(5),
        121..=160 => 7 * (1 + seed.under(12)) + seed.under(3),
        161..=180 => 125 + seed.under(6),
        _ => 1 + seed.under(24),
    }
}

/// A list of admissible operations.
pub fn list(seed: &mut Seed, kinds: &Kinds, size: usize) -> List {
    let immediates = seed.of(&[0, 1, 1, 2, 3, 5, 8, 10]);
    // Stretches of one kind reach the ends of groups and batches more often.
    let stretches = seed.one_in(3);
    let mut list = List::default();
    let mut immediate = false;
    let mut left = 0;
    while list.codes.len() < size {
        if !stretches || left == 0 {
            immediate = seed.under(10) < immediates;
            left = 1 + seed.under(11);
        }
        left -= 1;
        if immediate {
            list.push(seed.of(&kinds.immediate), seed.value());
        } else {
            match seed.under(10) {
                0 => list.push(0, 0),
                1 => list.push(seed.of(&kinds.carried), seed.value()),
                _ => list.push(seed.of(&kinds.plain), 0),
            }
        }
    }
    list
}

/// The bytes of a block of any parts: operations and, for each batch, lengths and flags.
pub fn bytes_of(table: &[u8], list: &List, batches: &[([u8; 8], u8)]) -> Vec<u8> {
    let mut bytes = count_bytes(list.codes.len());
    for (&code, &value) in list.codes.iter().zip(&list.values) {
        bytes.push(code);
        if table.get(usize::from(code)).is_some_and(|&kind| kind != 0) {
            bytes.extend(value.to_le_bytes());
        }
    }
    bytes.extend((batches.len() as u32).to_le_bytes());
    for (lengths, _) in batches {
        bytes.extend((0..4).map(|i| (lengths[2 * i] & 15) | (lengths[2 * i + 1] << 4)));
    }
    bytes.extend(batches.iter().map(|batch| batch.1));
    bytes
}

/// A block that no batcher wrote, good more often than not: groups of any length, room for most
/// immediates, flags on most groups that end in Noop and on some that don't.
pub fn crafted(seed: &mut Seed, table: &[u8], kinds: &Kinds) -> Vec<u8> {
    let mut list = List::default();
    let mut batches = Vec::new();
    let wild = seed.one_in(3);
    for _ in 0..seed.under(5) {
        let mut lengths = [0u8; 8];
        let mut flags = 0u8;
        let mut group = 0;
        while group < 8 {
            if seed.one_in(4) {
                group += 1;
                continue;
            }
            let length = if seed.one_in(3) {
                9 - seed.under(2)
            } else {
                1 + seed.under(4)
            };
            let mut immediates = 0;
            for _ in 0..length {
                let fits = wild && seed.one_in(4) || group + 1 + immediates < 8;
                if fits && seed.one_in(4) {
                    list.push(seed.of(&kinds.immediate), seed.value());
                    immediates += 1;
                } else if seed.one_in(4) {
                    list.push(0, 0);
                } else if seed.one_in(8) {
                    list.push(seed.of(&kinds.carried), seed.value());
                } else {
                    list.push(seed.of(&kinds.plain), 0);
                }
            }
            lengths[group] = length as u8;
            let noop = list.codes.last() == Some(&0);
            if noop && seed.one_in(2) || wild && seed.one_in(12) {
                flags |= 1 << group;
            }
            group += if wild && seed.one_in(6) {
                1
            } else {
                1 + immediates
            };
        }
        if wild && seed.one_in(6) {
            flags |= 1 << seed.under(8);
        }
        if seed.one_in(12) {
            // An empty batch, and what was listed belongs to none.
            batches.push(([0; 8], 0));
        }
        batches.push((lengths, flags));
    }
    if wild && seed.one_in(6) {
        list.push(seed.of(&kinds.plain), 0);
    }
    if wild && seed.one_in(6) && !batches.is_empty() {
        let at = seed.under(batches.len());
        batches[at].0[seed.under(8)] = seed.under(16) as u8;
    }
    bytes_of(table, &list, &batches)
}

/// The bytes of a block, flags as they are in its records.
pub fn bytes_of_block(table: &[u8], block: &Block) -> Vec<u8> {
    let list = List {
        codes: block.codes.clone(),
        values: block.values.clone(),
    };
    let batches: Vec<([u8; 8], u8)> = block
        .batches()
        .iter()
        .map(|batch| {
            let lengths = core::array::from_fn(|i| batch.starts[i + 1] - batch.starts[i]);
            let flags = (0..8).fold(0, |byte, i| byte | batch.flags[i] << i);
            (lengths, flags)
        })
        .collect();
    bytes_of(table, &list, &batches)
}

/// Sets flags at or above the counts of a good block's batches, one at least: the first there, the
/// last, all, or any. A batch without groups comes in where no other has such a flag, and else at
/// times.
pub fn flag_above(seed: &mut Seed, block: &mut Block) {
    let mut batches = block.batches();
    if seed.one_in(4) || batches.iter().all(|batch| batch.count == 8) {
        batches.insert(seed.under(batches.len() + 1), Batch::default());
    }
    let open: Vec<usize> = (0..batches.len())
        .filter(|&i| batches[i].count < 8)
        .collect();
    let sure = seed.of(&open);
    for i in open {
        if i != sure && seed.one_in(2) {
            continue;
        }
        let first = usize::from(batches[i].count);
        let above = &mut batches[i].flags[first..];
        match seed.under(5) {
            0 => above[0] = 1,
            1 => above[7 - first] = 1,
            2 => above.fill(1),
            _ => {
                above[seed.under(8 - first)] = 1;
                above
                    .iter_mut()
                    .for_each(|flag| *flag |= u8::from(seed.one_in(3)));
            }
        }
    }
    block.set(&batches);
}

/// Damages bytes in one to three places. What comes after the operations is hit more often.
pub fn damage(seed: &mut Seed, bytes: &mut Vec<u8>) {
    for _ in 0..1 + seed.under(3) {
        if bytes.is_empty() {
            bytes.push(seed.word() as u8);
            continue;
        }
        let tail = bytes.len().min(24);
        let at = if seed.one_in(3) {
            seed.under(bytes.len())
        } else {
            bytes.len() - 1 - seed.under(tail)
        };
        match seed.under(12) {
            0..=3 => bytes[at] ^= 1 << seed.under(8),
            4 => bytes[at] = seed.word() as u8,
            5 => bytes[at] = seed.of(&[0, 1, 2, 4, 8, 9, 10, 0x10, 0x19, 0x91, 127, 128, 255]),
            6 => bytes.truncate(at),
            7 => bytes.insert(at, seed.word() as u8),
            8 => {
                bytes.remove(at);
            }
            9 => bytes[0] = bytes[0].wrapping_add(2),
            10 => bytes[0] = bytes[0].wrapping_sub(2),
            _ => {
                // Moves an operation from one group to another, as far as both are in this byte.
                bytes[at] = bytes[at].wrapping_add(seed.of(&[0x0f, 0xf1, 1, 0xff, 0x10, 0xf0]));
            }
        }
    }
}

/// Damages a block's runs in one place, or in two or three.
pub fn damage_block(seed: &mut Seed, block: &mut Block, kinds: &Kinds) {
    let times = if seed.one_in(4) { 2 + seed.under(2) } else { 1 };
    for _ in 0..times {
        damage_once(seed, block, kinds);
    }
}

fn damage_once(seed: &mut Seed, block: &mut Block, kinds: &Kinds) {
    let mut batches = block.batches();
    let ops = block.codes.len();
    if batches.is_empty() || seed.one_in(6) {
        // Operations.
        match seed.under(6) {
            0 => {
                block.codes.push(seed.of(&kinds.plain));
                block.values.push(0);
            }
            1 if ops > 0 => {
                let at = seed.under(ops);
                block.codes.remove(at);
                block.values.remove(at);
            }
            2 if ops > 0 => {
                let at = seed.under(ops);
                block.codes[at] = seed.of(&kinds.plain);
                block.values[at] = 0;
            }
            3 if ops > 0 => {
                let at = seed.under(ops);
                block.codes[at] = seed.of(&kinds.immediate);
                block.values[at] = seed.value();
            }
            4 if ops > 0 => {
                let at = seed.under(ops);
                block.values[at] = seed.of(&[1, FIELD, FIELD - 1, u64::MAX]);
            }
            5 if ops > 0 => {
                let at = seed.under(ops);
                block.codes[at] = if seed.one_in(2) {
                    seed.of(&kinds.unassigned)
                } else {
                    seed.word() as u8
                };
            }
            _ => batches.push(Batch::default()),
        }
        if batches.len() * RECORD != block.records.len() {
            block.set(&batches);
        }
        return;
    }
    let which = seed.under(batches.len());
    let count = usize::from(batches[which].count);
    let first = batches[..which].iter().map(Batch::total).sum::<usize>();
    let batch = &mut batches[which];
    match seed.under(18) {
        0 => batch.starts[seed.under(9)] = seed.word() as u8,
        1 => {
            let i = seed.under(9);
            batch.starts[i] = batch.starts[i].wrapping_add(1);
        }
        2 => {
            let i = seed.under(9);
            batch.starts[i] = batch.starts[i].wrapping_sub(1);
        }
        3 => batch.flags[seed.under(8)] ^= 1,
        4 => batch.flags[seed.under(8)] = seed.word() as u8,
        5 => batch.numbers[seed.under(8)] ^= 1 << seed.under(63),
        6 => batch.numbers[seed.under(8)] = seed.value(),
        7 => batch.numbers.swap(seed.under(8), seed.under(8)),
        8 => batch.count = batch.count.wrapping_add(1),
        9 => batch.count = batch.count.wrapping_sub(1),
        10 => batch.count = seed.under(11) as u8,
        // All starts up by one: they do not begin at 0, and the sum goes with it.
        11 => {
            batch.starts = batch.starts.map(|start| start.saturating_add(1));
            let at = first.min(block.codes.len());
            block.codes.insert(at, 0);
            block.values.insert(at, 0);
        }
        // The last group under the count, or the group after it, grows.
        12 | 13 => {
            let more = 1 + seed.under(12) as u8;
            let group = (count + seed.under(2)).clamp(1, 8);
            for i in group..9 {
                batch.starts[i] = batch.starts[i].saturating_add(more);
            }
            for _ in 0..more {
                let at = (first + usize::from(batch.starts[8] - more)).min(block.codes.len());
                let code = if seed.one_in(3) {
                    0
                } else {
                    seed.of(&kinds.plain)
                };
                block.codes.insert(at, code);
                block.values.insert(at, 0);
            }
        }
        14 => {
            let other = seed.under(batches.len());
            batches.swap(which, other);
        }
        15 => {
            batches.remove(which);
        }
        16 => batches.insert(which, Batch::default()),
        _ => {
            let other = batches[seed.under(batches.len())].clone();
            batches[which] = other;
        }
    }
    block.set(&batches);
}

/// A record of any bytes, near what can hold.
pub fn record(seed: &mut Seed) -> Vec<u8> {
    let mut batch = Batch::default();
    let mut start = 0u8;
    for i in 1..9 {
        start = start.saturating_add(match seed.under(12) {
            0..=4 => 0,
            11 => seed.under(30) as u8,
            k => k as u8 - 2,
        });
        batch.starts[i] = start;
    }
    batch.count = match seed.under(4) {
        0 => seed.under(10) as u8,
        _ => (0..8)
            .rev()
            .find(|&i| batch.starts[i] < batch.starts[i + 1])
            .map_or(0, |i| (i + 1 + seed.under(8 - i)) as u8),
    };
    for flag in &mut batch.flags {
        *flag = u8::from(seed.one_in(5));
    }
    for number in &mut batch.numbers {
        *number = seed.word() >> seed.under(64);
    }
    let mut record = batch.record();
    if seed.one_in(4) {
        let at = seed.of(&[0, 4, 12, 81]);
        record[at] = record[at].wrapping_add(seed.of(&[1, 255, 9, 2]));
    }
    record
}
