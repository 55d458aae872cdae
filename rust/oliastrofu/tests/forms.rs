//! The safe functions: both forms say the same, refusals have words, and nothing panics.

use oliastrofu::{
    Arena, Batch, Block, Cause, CompareRefusal, Difference, ENTRY, LONGEST_REPORT, PaddedIndex,
    RECORD, RawIndex, Refusal, Side, Source, VM_TABLE, boundary, build, commitment, compare,
    decode, decode_strict, encode, group_of, head,
    lent::{self, Outputs},
    next_group, padded_index, padded_table, padding, raw_index, raw_table, structure,
};

/// A small generator, for inputs that are the same each time.
struct Seed(u64);

impl Seed {
    fn next(&mut self) -> u64 {
        self.0 ^= self.0 << 13;
        self.0 ^= self.0 >> 7;
        self.0 ^= self.0 << 17;
        self.0
    }

    fn under(&mut self, bound: usize) -> usize {
        (self.next() % bound as u64) as usize
    }

    fn bytes(&mut self, most: usize) -> Vec<u8> {
        (0..self.under(most + 1))
            .map(|_| self.next() as u8)
            .collect()
    }

    fn small_bytes(&mut self, most: usize) -> Vec<u8> {
        (0..self.under(most + 1))
            .map(|_| self.under(12) as u8)
            .collect()
    }

    fn numbers(&mut self, most: usize) -> Vec<u64> {
        (0..self.under(most + 1))
            .map(|_| self.next() >> self.under(64))
            .collect()
    }
}

#[test]
fn every_number_has_words() {
    for number in 0..=255u8 {
        let cause = Cause::of_number(number);
        assert_eq!(cause.number(), number);
        let refusal = Refusal {
            cause,
            place: 9_876,
        };
        let words = refusal.to_string();
        assert!(words.starts_with(&format!("refusal {number}: ")));
        let placed = [2, 4, 6, 7, 8, 9, 10, 15, 16, 17, 18].contains(&number);
        assert_eq!(words.contains("9876"), placed, "{words}");
        assert_eq!(
            matches!(cause, Cause::Other(_)),
            !(1..=18).contains(&number)
        );
    }
}

/// The programs print the same sentences, each for its number (`number` and `Display` of `Refusal`,
/// crates/refusal).
#[test]
fn the_words_of_the_programs() {
    let refusal = include_str!("../../../crates/refusal/src/lib.rt");
    let (numbers, display) = refusal.split_once("impl fmt::Display for Refusal").unwrap();
    // A case's name, and what stands between it and the next.
    let cases = |text: &'static str| {
        let cases = text.split("            Refusal::").skip(1);
        cases.map(|case| case.split_once(|c: char| !c.is_alphanumeric()).unwrap())
    };
    for number in 1..=18 {
        let named: Vec<&str> = (cases(numbers))
            .filter(|(_, rest)| rest.contains(&format!("=> {number},")))
            .map(|(name, _)| name)
            .collect();
        assert_eq!(named.len(), 1, "{number}");
        let (_, arm) = cases(display).find(|(name, _)| *name == named[0]).unwrap();
        let (_, words) = arm.split_once('"').unwrap();
        let (words, _) = words.split_once('"').unwrap();
        let words = words.trim_end_matches(", in batch {batch}");
        let words = words.trim_end_matches(", operation {operation}");
        let cause = Cause::of_number(number);
        let ours = Refusal { cause, place: 0 }.to_string();
        let rest = ours.strip_prefix(&format!("refusal {number}: {words}"));
        assert!(
            rest.is_some_and(|place| place.is_empty() || place.starts_with(", ")),
            "{ours}"
        );
    }
}

#[test]
fn the_words_of_an_operation_at_fault() {
    let words = |number| {
        let cause = Cause::of_number(number);
        Refusal { cause, place: 3 }.to_string()
    };
    assert_eq!(
        words(4),
        "refusal 4: an operation's opcode is unassigned: 128 or more, or of kind 3, operation 3"
    );
    assert_eq!(
        words(17),
        "refusal 17: an operation's value is not below the field's size, or not 0 where its kind \
         has none, operation 3"
    );
}

#[test]
fn the_words_of_an_unfinished_block() {
    let words = |place| {
        let cause = Cause::Unfinished;
        Refusal { cause, place }.to_string()
    };
    let front =
        "refusal 18: the block is not finished: batching its own operations does not make it";
    assert_eq!(words(3), format!("{front}, in batch 3"));
    // 0 is also the place where there is no list to batch.
    let or = "(or these operations are none, or over 16,384)";
    assert_eq!(words(0), format!("{front}, in batch 0 {or}"));
}

/// The field's size.
const FIELD: u64 = 0xffff_ffff_0000_0001;

/// What is wrong with an operation of the virtual machine's, if anything; without the table.
fn fault(code: u8, value: u64) -> u8 {
    match code {
        200 | 6 => 4,
        91 | 32 if value >= FIELD => 17,
        1 | 0 if value != 0 => 17,
        _ => 0,
    }
}

/// An opcode and a value at fault, in any order, in every function that looks at operations, in
/// every form: the first operation at fault, with its own number.
#[test]
fn opcode_and_value_are_told_apart() {
    let mut seed = Seed(0xd1b5_4a32_d192_ed03);
    let mut seen = [0; 18];
    for _ in 0..20_000 {
        let size = 1 + seed.under(5);
        let mut pick = |of: &[u64]| of[seed.under(of.len())];
        let codes: Vec<u8> = (0..size)
            .map(|_| pick(&[91, 91, 32, 32, 1, 0, 6, 200]) as u8)
            .collect();
        let values: Vec<u64> = (codes.iter())
            .map(|code| match code {
                91 | 32 => pick(&[0, 5, FIELD - 1, FIELD - 1, FIELD, u64::MAX]),
                1 | 0 => pick(&[0, 0, 0, 1, FIELD]),
                _ => pick(&[0, FIELD]),
            })
            .collect();
        let faults = codes.iter().zip(&values).map(|(&c, &v)| fault(c, v));
        let first = faults.enumerate().find(|&(_, number)| number != 0);
        let want = first.map(|(place, number)| (number, place));
        seen[want.map_or(0, |(number, _)| usize::from(number))] += 1;
        let said = |refused: Option<Refusal>| refused.map(|r| (r.number(), r.place));

        assert_eq!(said(build(&VM_TABLE, &codes, &values).err()), want);
        // One group of them all: structure holds.
        let batch = Batch {
            starts: core::array::from_fn(|i| if i == 0 { 0 } else { size as u8 }),
            count: 1,
            ..Batch::default()
        };
        let block = Block::new(codes, values, &[batch]);
        assert_eq!(said(encode(&VM_TABLE, &block).err()), want);
        let checked = commitment(&VM_TABLE, &block).err();
        if want.is_some() {
            assert_eq!(said(checked), want);
        } else {
            assert_ne!(checked.map(|r| r.cause), Some(Cause::Opcode));
            assert_ne!(checked.map(|r| r.cause), Some(Cause::Value));
        }

        // In bytes an operation without a value has none.
        let mut bytes = vec![2 * size as u8 + 1];
        for (&code, &value) in block.codes.iter().zip(&block.values) {
            bytes.push(code);
            if [91, 32].contains(&code) {
                bytes.extend(value.to_le_bytes());
            }
        }
        bytes.extend([0; 4]);
        let read = (block.codes.iter().zip(&block.values))
            .map(|(&code, &value)| match code {
                0 | 1 => 0,
                _ => fault(code, value),
            })
            .enumerate()
            .find(|&(_, number)| number != 0)
            .map(|(place, number)| (number, place));
        assert_eq!(said(head(&VM_TABLE, &bytes, 0).err()), read);
        // Without batches the operations are left over.
        let left = Some(read.unwrap_or((11, 0)));
        assert_eq!(said(decode(&VM_TABLE, &bytes, 0).err()), left);
    }
    assert!(seen[0] > 1_000 && seen[4] > 1_000 && seen[17] > 1_000);
}

#[test]
fn there_and_back() -> Result<(), Refusal> {
    let mut seed = Seed(0x2545_f491_4f6c_dd1d);
    for size in (1..200).chain([16_383, 16_384]) {
        let mut codes = Vec::new();
        let mut values = Vec::new();
        for _ in 0..size {
            let (code, value) = match seed.under(4) {
                0 => (91, seed.next() >> 1),
                1 => (32, seed.next() >> 1),
                2 => (0, 0),
                _ => (1, 0),
            };
            codes.push(code);
            values.push(value);
        }
        let block = build(&VM_TABLE, &codes, &values)?;
        structure(&block)?;
        padding(&block)?;
        commitment(&VM_TABLE, &block)?;
        let bytes = encode(&VM_TABLE, &block)?;
        assert_eq!(decode(&VM_TABLE, &bytes, 0)?, (block.clone(), bytes.len()));
        let finished = decode_strict(&VM_TABLE, &bytes, 0)?;
        assert_eq!((finished.listed(), finished.used()), (size, bytes.len()));
        assert_eq!(finished.list(), (codes.clone(), values.clone()));
        assert_eq!(*finished.lent(), block.arena());
        assert_eq!(finished.lent().listed(), size);
        assert_eq!(finished.into_block(), block);
        let batches: Vec<Batch> = block.batches().collect();
        let same = Block::new(block.codes.clone(), block.values.clone(), &batches);
        assert_eq!(same, block);

        let raw = raw_table(&block)?;
        let padded = padded_table(&block)?;
        for index in 0..=size {
            let Some(there) = padded_index(&raw, RawIndex(index)) else {
                panic!("index {index} has a place");
            };
            assert_eq!(raw_index(&padded, there), Some(RawIndex(index)));
            if index < size {
                assert_eq!(block.codes[there.0], codes[index]);
            }
        }
        assert_eq!(padded_index(&raw, RawIndex(size + 1)), None);
        assert_eq!(raw_index(&padded, PaddedIndex(block.codes.len() + 1)), None);
        for batch in batches {
            for index in 0..batch.operations() {
                assert!(group_of(&batch, index)?.is_some());
            }
            assert_eq!(group_of(&batch, batch.operations())?, None);
            assert_eq!(next_group(&batch, 7)?, None);
        }
    }
    Ok(())
}

/// Flags at or above the count are kept as they were read and written back, and are no padding: the
/// tables are those without them.
#[test]
fn flags_above_the_count() -> Result<(), Refusal> {
    let mut seed = Seed(0x0123_4567_89ab_cdef);
    for size in 0..150 {
        let codes: Vec<u8> = (0..size).map(|_| [91, 1, 0][seed.under(3)]).collect();
        // A batch without groups, then those that are built.
        let mut block = Block::new(vec![], vec![], &[Batch::default()]);
        if size > 0 {
            let built = build(&VM_TABLE, &codes, &vec![0; size])?;
            assert!(built.batches().all(|batch| batch.kept().count() == 0));
            block.records.extend(built.records);
            (block.codes, block.values) = (built.codes, built.values);
        }
        let mut bytes = encode(&VM_TABLE, &block)?;
        let from = bytes.len() - block.batches().len();
        for (byte, batch) in bytes[from..].iter_mut().zip(block.batches()) {
            for group in usize::from(batch.count)..8 {
                *byte |= (seed.under(2) as u8) << group;
            }
        }
        // Flag 0, at the count of the batch without groups.
        bytes[from] |= 1;

        let (read, used) = decode(&VM_TABLE, &bytes, 0)?;
        assert_eq!(used, bytes.len());
        assert_ne!(read, block);
        assert_eq!(encode(&VM_TABLE, &read)?, bytes);
        structure(&read)?;
        padding(&read)?;
        commitment(&VM_TABLE, &read)?;
        assert_eq!(raw_table(&read)?, raw_table(&block)?);
        assert_eq!(padded_table(&read)?, padded_table(&block)?);
        let mut paddings = 0;
        for ((batch, clear), byte) in read.batches().zip(block.batches()).zip(&bytes[from..]) {
            let set = (0..8).filter(|group| byte >> group & 1 == 1);
            assert!(batch.paddings().chain(batch.kept()).eq(set));
            assert!(batch.paddings().eq(clear.paddings()));
            assert!(batch.kept().all(|group| group >= usize::from(batch.count)));
            paddings += batch.paddings().count();
        }
        assert_eq!(read.codes.len(), size + paddings);
        // The batch without groups is the first that no batching makes.
        let refusal = decode_strict(&VM_TABLE, &bytes, 0).unwrap_err();
        assert_eq!((refusal.cause, refusal.place), (Cause::Unfinished, 0));
    }
    // A flagged empty group under the count.
    let bytes = [3, 1, 1, 0, 0, 0, 0x10, 0, 0, 0, 0b1111_1101];
    let refusal = decode(&VM_TABLE, &bytes, 0).unwrap_err();
    assert_eq!((refusal.cause, refusal.place), (Cause::Padding, 0));
    Ok(())
}

/// What batching the own operations of a block makes, read without strictness.
fn made_again(block: &Block) -> Option<Block> {
    let mut own = (Vec::new(), Vec::new());
    let mut from = 0;
    for batch in block.batches() {
        let paddings: Vec<usize> = (batch.paddings())
            .map(|group| usize::from(batch.starts[group + 1]) - 1)
            .collect();
        for index in (0..batch.operations()).filter(|index| !paddings.contains(index)) {
            own.0.push(block.codes[from + index]);
            own.1.push(block.values[from + index]);
        }
        from += batch.operations();
    }
    build(&VM_TABLE, &own.0, &own.1).ok()
}

/// Strict reading takes a block exactly if batching its own operations makes it, and names the first
/// batch that differs; in every form.
#[test]
fn only_finished_blocks() -> Result<(), Refusal> {
    let mut seed = Seed(0x51ab_9c03_77d2_640f);
    let (mut finished, mut first, mut later, mut listless) = (0, 0, 0, 0);
    for turn in 0..6_000 {
        let size = seed.under(if turn % 50 == 0 { 300 } else { 24 });
        let codes: Vec<u8> = (0..size).map(|_| [91, 1, 0, 32][seed.under(4)]).collect();
        // One or two blocks' batches: two are one that no batching makes, but for a few.
        let cut = [size, seed.under(size + 1)][turn % 2];
        let mut block = Block::default();
        for part in [&codes[..cut], &codes[cut..]] {
            if !part.is_empty() {
                let more = build(&VM_TABLE, part, &vec![0; part.len()])?;
                block.codes.extend(more.codes);
                block.values.extend(more.values);
                block.records.extend(more.records);
            }
        }
        if seed.under(4) == 0 {
            let at = seed.under(block.batches().len() + 1) * RECORD;
            block.records.splice(at..at, Batch::default().record());
        }
        let mut bytes = vec![7; seed.under(3)];
        let at = bytes.len();
        bytes.extend(encode(&VM_TABLE, &block)?);
        if seed.under(3) == 0 && bytes.len() > at + 5 {
            // A flag, or a flag less.
            let last = bytes.len() - 1 - seed.under(block.batches().len());
            bytes[last] ^= 1 << seed.under(8);
        }
        let used = bytes.len() - at;
        bytes.extend(vec![7; seed.under(3)]);

        let want = decode(&VM_TABLE, &bytes, at).and_then(|(block, _)| {
            let made = made_again(&block);
            let batches = |block: &Block| block.batches().collect::<Vec<_>>();
            let made_batches = made.as_ref().map(batches);
            let place = match &made_batches {
                None => Some(0),
                Some(made) => (batches(&block).iter())
                    .enumerate()
                    .position(|(i, batch)| made.get(i) != Some(batch)),
            };
            match place {
                None => {
                    finished += 1;
                    assert_eq!(made.as_ref(), Some(&block));
                    Ok(block)
                }
                Some(place) => {
                    match (made, place) {
                        (None, _) => listless += 1,
                        (_, 0) => first += 1,
                        _ => later += 1,
                    }
                    let cause = Cause::Unfinished;
                    Err(Refusal { cause, place })
                }
            }
        });
        let got = decode_strict(&VM_TABLE, &bytes, at);
        assert!(got.iter().all(|read| read.used() == used));
        assert_eq!(got.map(|read| read.into_block()), want);

        let room = 2 * size + 40;
        let mut out = (vec![9; room], vec![9; room], vec![9; room * RECORD]);
        let lent = Outputs {
            codes: &mut out.0,
            values: &mut out.1,
            records: &mut out.2,
        };
        let got = lent::decode_strict(&VM_TABLE, &bytes, at, lent);
        assert_eq!(
            got.map(|read| *read),
            want.as_ref().map(Block::arena).map_err(|r| *r)
        );
        let filled = want.as_ref().map_or(0, |block| block.codes.len());
        assert!(out.0[filled..].iter().all(|&code| code == 0));
        assert!(out.1[filled..].iter().all(|&value| value == 0));
        let filled = want.as_ref().map_or(0, |block| block.records.len());
        assert!(out.2[filled..].iter().all(|&byte| byte == 0));
    }
    assert!(finished > 1_000 && first > 1_000 && later > 100 && listless > 100);
    Ok(())
}

/// 16,384 operations of its own, and not one more; whatever the batches.
#[test]
fn the_longest_finished_block() -> Result<(), Refusal> {
    for (whole, rest) in [(227, 39), (227, 40), (227, 41), (228, 0)] {
        let part = |size| build(&VM_TABLE, &vec![1; size], &vec![0; size]);
        let mut block = Block::default();
        for size in (0..whole).map(|_| 72).chain([rest]).filter(|&n| n > 0) {
            let more = part(size)?;
            block.codes.extend(more.codes);
            block.values.extend(more.values);
            block.records.extend(more.records);
        }
        let operations = whole * 72 + rest;
        let bytes = encode(&VM_TABLE, &block)?;
        let read = decode_strict(&VM_TABLE, &bytes, 0);
        if operations <= 16_384 {
            assert_eq!(read?.listed(), operations);
            continue;
        }
        assert!(decode(&VM_TABLE, &bytes, 0).is_ok());
        let refusal = read.unwrap_err();
        assert_eq!((refusal.number(), refusal.place), (18, 0));
    }
    Ok(())
}

#[test]
fn every_difference_has_words() {
    let words = |entry| Difference::of_entry(entry).to_string();
    for (entry, want) in [
        ([1, 3, 2, 0], "batch 3, group 2: the numbers differ"),
        ([2, 3, 7, 0], "batch 3, group 7: the padding flags differ"),
        (
            [3, 0, 0, 0],
            "batch 0, group 0: the counts of operations differ",
        ),
        (
            [4, 1, 70, 0],
            "batch 1, its operation 70: the operations differ",
        ),
        ([5, 9, 0, 0], "batch 9: the counts of groups differ"),
        ([6, 9, 1, 0], "batch 9: missing in the first block"),
        ([6, 9, 2, 0], "batch 9: missing in the second block"),
        ([7, 0, 0, 1], "batches: +1 (second minus first)"),
        (
            [8, 0, 0, -65_535],
            "operations, paddings among them: -65535 (second minus first)",
        ),
        (
            [9, 0, 0, 20],
            "operations without paddings: +20 (second minus first)",
        ),
        ([10, 0, 0, -1], "paddings: -1 (second minus first)"),
    ] {
        assert_eq!(words(entry), want);
    }
    // What is none stands for nothing, and nothing panics.
    for entry in [
        [0, 0, 0, 0],
        [11, 0, 0, 0],
        [-1, 0, 0, 0],
        [1, -1, 0, 0],
        [4, 0, i32::MIN, 0],
        [5, 1, 1, 0],
        [6, 0, 3, 0],
        [6, 0, 1, 1],
        [7, 1, 0, 1],
        [10, 0, 1, 1],
    ] {
        assert_eq!(Difference::of_entry(entry), Difference::Other(entry));
        assert!(words(entry).starts_with("an entry without a meaning: ["));
    }
}

#[test]
fn the_words_of_a_refused_pair() {
    let refusal = Refusal {
        cause: Cause::Nibble,
        place: 2,
    };
    let words = |side| CompareRefusal { side, refusal }.to_string();
    let rest = "refusal 6: a group's length is over 9, in batch 2";
    assert_eq!(words(Some(Side::First)), format!("the first block: {rest}"));
    assert_eq!(
        words(Some(Side::Second)),
        format!("the second block: {rest}")
    );
    assert_eq!(words(None), format!("the report: {rest}"));
}

/// How two blocks differ, from the blocks themselves.
fn apart(one: &Block, other: &Block) -> Vec<Difference> {
    let mut all = Vec::new();
    let (ones, others): (Vec<Batch>, Vec<Batch>) =
        (one.batches().collect(), other.batches().collect());
    let mut from = [0, 0];
    for batch in 0..ones.len().max(others.len()) {
        let (Some(a), Some(b)) = (ones.get(batch), others.get(batch)) else {
            let side = match ones.get(batch) {
                None => Side::First,
                Some(_) => Side::Second,
            };
            all.push(Difference::Missing { batch, side });
            continue;
        };
        let first = |differs: &dyn Fn(usize) -> bool| (0..8).find(|&group| differs(group));
        let length = |batch: &Batch, group: usize| batch.starts[group + 1] - batch.starts[group];
        let number = first(&|group| a.numbers[group] != b.numbers[group]);
        let flag = first(&|group| a.flags[group] != b.flags[group]);
        let lengths = first(&|group| length(a, group) != length(b, group));
        all.extend(number.map(|group| Difference::Number { batch, group }));
        all.extend(flag.map(|group| Difference::Flag { batch, group }));
        all.extend(lengths.map(|group| Difference::Length { batch, group }));
        let place = (0..a.operations().min(b.operations())).find(|place| {
            let (i, j) = (from[0] + place, from[1] + place);
            one.codes[i] != other.codes[j] || one.values[i] != other.values[j]
        });
        all.extend(place.map(|place| Difference::Operation { batch, place }));
        if a.count != b.count {
            all.push(Difference::Count { batch });
        }
        from = [from[0] + a.operations(), from[1] + b.operations()];
    }
    let paddings =
        |batches: &[Batch]| -> usize { batches.iter().map(|batch| batch.paddings().count()).sum() };
    let paddings = [paddings(&ones), paddings(&others)];
    let padded = [one.codes.len(), other.codes.len()];
    let more = |[one, other]: [usize; 2]| other as i32 - one as i32;
    let raw = more(padded) - more(paddings);
    all.extend([
        Difference::Batches(more([ones.len(), others.len()])),
        Difference::Padded(more(padded)),
        Difference::Raw(raw),
        Difference::Paddings(more(paddings)),
    ]);
    all.retain(|difference| {
        use Difference::{Batches, Padded, Paddings, Raw};
        !matches!(difference, Batches(0) | Padded(0) | Raw(0) | Paddings(0))
    });
    all
}

/// Room as lent, full of other bytes.
fn filled(operations: usize, batches: usize) -> Block {
    Block {
        codes: vec![9; operations],
        values: vec![9; operations],
        records: vec![9; batches * RECORD],
    }
}

fn outputs(block: &mut Block) -> Outputs<'_> {
    Outputs {
        codes: &mut block.codes,
        values: &mut block.values,
        records: &mut block.records,
    }
}

fn is_zero(block: &Block) -> bool {
    block
        .codes
        .iter()
        .chain(&block.records)
        .all(|&byte| byte == 0)
        && block.values.iter().all(|&value| value == 0)
}

/// A random block's bytes, good more often than not.
fn any_block(seed: &mut Seed, at: usize) -> Result<Vec<u8>, Refusal> {
    let size = seed.under(30);
    let codes: Vec<u8> = (0..size).map(|_| [91, 1, 0, 32][seed.under(4)]).collect();
    let values: Vec<u64> = (codes.iter())
        .map(|code| {
            if [91, 32].contains(code) {
                seed.next() >> 62
            } else {
                0
            }
        })
        .collect();
    let mut block = Block::default();
    if size > 0 {
        block = build(&VM_TABLE, &codes, &values)?;
    }
    if seed.under(4) == 0 {
        let at = seed.under(block.batches().len() + 1) * RECORD;
        block.records.splice(at..at, Batch::default().record());
    }
    let mut bytes = vec![7; at];
    bytes.extend(encode(&VM_TABLE, &block)?);
    if seed.under(3) == 0 {
        let last = bytes.len() - 1 - seed.under(block.batches().len().max(1));
        bytes[last] ^= 1 << seed.under(8);
    }
    Ok(bytes)
}

/// Both forms of compare say what the blocks themselves say; working room ends zeroed, and so does what
/// is left over of the report.
#[test]
fn two_blocks() -> Result<(), Refusal> {
    let mut seed = Seed(0x7c15_51ab_2545_f491);
    let (mut same, mut different, mut refused, mut short) = (0, 0, 0, 0);
    for turn in 0..6_000 {
        let (one_at, other_at) = (seed.under(3), seed.under(3));
        let one = any_block(&mut seed, one_at)?;
        let other = match turn % 3 {
            0 => [&vec![7; other_at][..], &one[one_at..]].concat(),
            _ => any_block(&mut seed, other_at)?,
        };
        let source = |bytes, at| Source {
            table: &VM_TABLE,
            bytes,
            at,
        };
        let (first, second) = (source(&one, one_at), source(&other, other_at));
        let read = |side, source: Source<'_>| {
            decode(source.table, source.bytes, source.at)
                .map(|(block, _)| block)
                .map_err(|refusal| CompareRefusal {
                    side: Some(side),
                    refusal,
                })
        };
        let want = read(Side::First, first).and_then(|one| {
            let other = read(Side::Second, second)?;
            let all = apart(&one, &other);
            assert_eq!(all.is_empty(), one == other);
            Ok(all)
        });
        let got = compare(first, second);
        let typed = |report: &oliastrofu::Report| report.differences().collect::<Vec<_>>();
        assert_eq!(got.as_ref().map(typed).map_err(|r| *r), want);
        if let Ok(report) = &got {
            assert_eq!(report.numbers().len(), ENTRY * report.len());
            assert!(report.into_iter().rev().eq(typed(report).into_iter().rev()));
            assert_eq!(report.differences().len(), report.len());
        }
        match &want {
            Ok(all) if all.is_empty() => same += 1,
            Ok(_) => different += 1,
            Err(_) => refused += 1,
        }

        // On lent room, with a report of any length.
        let mut rooms = (filled(99, 20), filled(98, 21));
        let mut report = vec![-9; seed.under(60)];
        let rest = report.len() / ENTRY;
        let lent = lent::compare(
            first,
            second,
            outputs(&mut rooms.0),
            outputs(&mut rooms.1),
            &mut report,
        );
        let lent = lent.map(|differences| differences.collect::<Vec<_>>());
        let entries = lent.as_ref().map_or(0, Vec::len);
        match want {
            Ok(all) if all.len() > rest => {
                short += 1;
                let cause = Cause::Room;
                let refusal = Refusal { cause, place: 0 };
                let side = None;
                assert_eq!(lent, Err(CompareRefusal { side, refusal }));
            }
            want => assert_eq!(lent, want),
        }
        assert!(is_zero(&rooms.0) && is_zero(&rooms.1));
        assert!(report[entries * ENTRY..].iter().all(|&number| number == 0));
        assert!(
            report[..entries * ENTRY]
                .chunks(ENTRY)
                .all(|entry| entry[0] > 0)
        );
    }
    assert!(same > 1_000 && different > 1_000 && refused > 100 && short > 1_000);
    Ok(())
}

/// Want of room in a block is the block's refusal, and each of its runs is looked at.
#[test]
fn whose_want_of_room() {
    let bytes = [5, 91, 5, 0, 0, 0, 0, 0, 0, 0, 0, 1, 0, 0, 0, 2, 0, 0, 0, 1];
    let source = Source {
        table: &VM_TABLE,
        bytes: &bytes,
        at: 0,
    };
    for (which, side) in [(0, Side::First), (1, Side::Second)] {
        for run in 0..4 {
            let mut rooms = [filled(2, 1), filled(2, 1)];
            match run {
                0 => rooms[which].codes.truncate(1),
                1 => rooms[which].values.truncate(1),
                2 => rooms[which].records.truncate(RECORD - 1),
                _ => {}
            }
            let [one, other] = &mut rooms;
            let mut report = [9; 3];
            let got = lent::compare(source, source, outputs(one), outputs(other), &mut report);
            let got = got.map(|differences| differences.len());
            let refusal = Refusal {
                cause: Cause::Room,
                place: 0,
            };
            let side = Some(side);
            match run {
                3 => assert_eq!(got, Ok(0)),
                _ => assert_eq!(got, Err(CompareRefusal { side, refusal })),
            }
            assert!(rooms.iter().all(is_zero) && report == [0; 3]);
        }
    }
}

/// The longest report there is, and no want of room for it.
#[test]
fn the_longest_report() -> Result<(), CompareRefusal> {
    let batches = 16_384u32;
    let block = |operations: u32, front: &[u8], codes: &[u8], nibbles: u8, flags: u8| {
        // A count of three bytes.
        let mut bytes = ((2 * operations + 1) << 2).to_le_bytes()[..3].to_vec();
        bytes.extend(front);
        bytes.extend(codes.repeat(batches as usize));
        bytes.extend(batches.to_le_bytes());
        for batch in 0..batches {
            let more = if batch == 0 { front.len() as u8 } else { 0 };
            bytes.extend([nibbles + more, 0, 0, 0]);
        }
        bytes.extend(vec![flags; batches as usize]);
        bytes
    };
    let one = block(batches, &[], &[1], 1, 0);
    let other = block(2 * batches + 1, &[3], &[2, 0], 0x11, 2);
    let source = |bytes| Source {
        table: &VM_TABLE,
        bytes,
        at: 0,
    };
    let report = compare(source(&one), source(&other))?;
    assert_eq!(report.len(), LONGEST_REPORT);
    assert!(report.differences().rev().take(3).eq([
        Difference::Paddings(16_384),
        Difference::Raw(1),
        Difference::Padded(16_385),
    ]));
    assert!(compare(source(&other), source(&other))?.is_empty());
    Ok(())
}

/// 13 is for lent outputs: the forms with room of their own never give it.
#[test]
fn no_want_of_room() {
    // A count of 100 and no operations.
    let refusal = decode(&VM_TABLE, &[201], 0).unwrap_err();
    assert_eq!((refusal.number(), refusal.place), (2, 1));
    let refusal = decode(&VM_TABLE, &[201, 6], 0).unwrap_err();
    assert_eq!((refusal.number(), refusal.place), (4, 0));
    let refusal = decode_strict(&VM_TABLE, &[201, 6], 0).unwrap_err();
    assert_eq!((refusal.number(), refusal.place), (4, 0));
    // Ten batches, nine of them empty: more than are likely.
    let bytes = [&[3, 1, 10, 0, 0, 0, 1][..], &[0; 49]].concat();
    let refusal = decode_strict(&VM_TABLE, &bytes, 0).unwrap_err();
    assert_eq!((refusal.number(), refusal.place), (18, 1));
    // So are they where it is compared, on either side.
    let source = |bytes| Source {
        table: &VM_TABLE,
        bytes,
        at: 0,
    };
    let empty = source(&[1, 0, 0, 0, 0]);
    assert_eq!(
        compare(source(&bytes), empty).map(|report| report.len()),
        Ok(13)
    );
    assert_eq!(
        compare(empty, source(&bytes)).map(|report| report.len()),
        Ok(13)
    );
    for bad in [&[201][..], &[201, 6]] {
        let refused = |first, second| compare(first, second).unwrap_err();
        let want = decode(&VM_TABLE, bad, 0).unwrap_err();
        let first = refused(source(bad), source(&bytes));
        assert_eq!((first.side, first.refusal), (Some(Side::First), want));
        let second = refused(source(&bytes), source(bad));
        assert_eq!((second.side, second.refusal), (Some(Side::Second), want));
    }
    let refusal = build(&VM_TABLE, &[1; 16_385], &[0; 16_385]).unwrap_err();
    assert_eq!(refusal.cause, Cause::Limit);
}

/// What is given back keeps no room beyond itself, wherever the block stands.
#[test]
fn no_room_is_kept() -> Result<(), Refusal> {
    for (plain, size) in [(1, 1), (1, 3), (7, 20), (9, 1_000), (100, 16_384)] {
        let codes: Vec<u8> = (0..size)
            .map(|i| if i % plain == 0 { 91 } else { 1 })
            .collect();
        let built = build(&VM_TABLE, &codes, &vec![0; size])?;
        let bytes = encode(&VM_TABLE, &built)?;
        let mut buffer = vec![221; 1_048_576];
        buffer[9_999..][..bytes.len()].copy_from_slice(&bytes);
        let (read, used) = decode(&VM_TABLE, &buffer, 9_999)?;
        assert_eq!((&read, used), (&built, bytes.len()));
        let finished = decode_strict(&VM_TABLE, &buffer, 9_999)?;
        assert_eq!(finished.used(), used);
        let head = head(&VM_TABLE, &buffer, 9_999)?;
        assert_eq!(head.operations, read.codes.len());
        assert_eq!(head.batches, read.batches().len());
        for block in [built, read, finished.into_block()] {
            assert_eq!(block.codes.capacity(), block.codes.len());
            assert_eq!(block.values.capacity(), block.values.len());
            assert_eq!(block.records.capacity(), block.records.len());
        }
    }
    Ok(())
}

/// Any bytes, any lists, any lent buffer: an answer, and on refusal outputs that are all zero.
#[test]
fn anything_is_answered() {
    let mut seed = Seed(0x9e37_79b9_7f4a_7c15);
    for turn in 0..20_000 {
        let table = if turn % 4 == 0 {
            seed.small_bytes(130)
        } else {
            VM_TABLE.to_vec()
        };
        let codes = seed.small_bytes(20);
        let mut values = vec![0; codes.len()];
        if turn % 5 == 0 {
            values = seed.numbers(20);
        }
        let mut records = seed.small_bytes(3 * RECORD);
        if turn % 3 == 0 {
            records.truncate(records.len() / RECORD * RECORD);
        }
        let bytes = if turn % 2 == 0 {
            seed.bytes(60)
        } else {
            seed.small_bytes(60)
        };
        let at = match seed.under(8) {
            0 => usize::MAX,
            1 => bytes.len(),
            _ => seed.under(4),
        };
        let mut out = Block {
            codes: seed.bytes(30),
            values: seed.numbers(30),
            records: seed.bytes(200),
        };
        for decoder in [2, 1, 0] {
            let lent = Outputs {
                codes: &mut out.codes,
                values: &mut out.values,
                records: &mut out.records,
            };
            let refused = match decoder {
                2 => lent::decode_strict(&table, &bytes, at, lent).is_err(),
                1 => lent::decode(&table, &bytes, at, lent).is_err(),
                _ => lent::build(&table, &codes, &values, lent).is_err(),
            };
            if refused {
                assert!(out.codes.iter().chain(&out.records).all(|&byte| byte == 0));
                assert!(out.values.iter().all(|&value| value == 0));
            }
        }
        let arena = Arena {
            codes: &codes,
            values: &values,
            records: &records,
        };
        let mut buffer = bytes.clone();
        if lent::encode(&table, arena, &mut buffer, at).is_err() {
            assert_eq!(buffer, bytes);
        }
        let mut entries = seed.numbers(30);
        if lent::raw_table(arena, &mut entries).is_err() {
            assert!(entries.iter().all(|&entry| entry == 0));
        }
        let _ = lent::padded_table(arena, &mut entries);
        let _ = lent::structure(arena);
        let _ = lent::padding(arena);
        let _ = lent::commitment(&table, arena);
        let table = seed.numbers(8);
        let _ = lent::padded_index(&table, RawIndex(at));
        let _ = lent::raw_index(&table, PaddedIndex(at));
        if let Some(record) = records.first_chunk::<RECORD>() {
            let _ = lent::group_of(record, at);
            let _ = lent::next_group(record, at);
        }

        // Two blocks, of any bytes, under any table.
        let (mut one, mut two) = (filled(seed.under(9), 1), filled(seed.under(9), 2));
        let mut report: Vec<i32> = (0..seed.under(30)).map(|_| seed.next() as i32).collect();
        let first = Source {
            table: if turn % 3 == 0 { &codes } else { &VM_TABLE },
            bytes: &bytes,
            at,
        };
        let second = Source { at: 0, ..first };
        let (one_out, two_out) = (outputs(&mut one), outputs(&mut two));
        if lent::compare(first, second, one_out, two_out, &mut report).is_err() {
            assert!(report.iter().all(|&number| number == 0));
        }
        assert!(is_zero(&one) && is_zero(&two));

        // The forms with room of their own.
        let _ = compare(second, first);
        let _ = build(&VM_TABLE, &codes, &values);
        let _ = decode(&VM_TABLE, &bytes, at);
        let _ = decode_strict(&VM_TABLE, &bytes, at);
        let block = Block {
            codes,
            values,
            records,
        };
        let _ = encode(&VM_TABLE, &block);
        let _ = structure(&block);
        let _ = padding(&block);
        let _ = commitment(&VM_TABLE, &block);
        let _ = raw_table(&block);
        let _ = padded_table(&block);
        for batch in block.batches() {
            let _ = group_of(&batch, at);
            let _ = next_group(&batch, at);
        }
    }
}

/// A reply that names no cause is no refusal, and a refusal's totals are 0.
#[test]
fn the_boundary_hands_replies_on() {
    let reply = boundary::build(&VM_TABLE, &[], &[], &mut [], &mut [], &mut []);
    assert_eq!((reply.number, reply.place), (12, 0));
    assert_eq!((reply.batches, reply.operations), (0, 0));
    let reply = boundary::structure(&[], &[], &[]);
    assert_eq!((reply.number, reply.place), (0, 0));
}
