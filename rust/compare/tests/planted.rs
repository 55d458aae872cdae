//! The comparison finds what is wrong: each of these answers like the model but for one thing.

use compare::{
    Run, Seed, Stopped,
    inputs::{Block, List},
    run::{Strict, Tally, own_list},
    sections,
};
use model::{Answer, Arena, Call, Function, RECORD};

type Who = fn(Call<'_>) -> Answer;

/// A small comparison with the original.
fn tried(who: Who) -> Result<Tally, Stopped> {
    let mut run = Run::new(who, false);
    sections::four_kinds(&mut run, 4, &mut |_| ())?;
    let mut seed = Seed::new(3);
    for _ in 0..400 {
        sections::turn(&mut run, &mut seed)?;
    }
    Ok(run.tally)
}

#[test]
fn the_model_is_not_stopped() {
    let tally = tried(model::answer).unwrap_or_else(|Stopped(words)| panic!("{words}"));
    let total = tally.total();
    assert!(total > 100_000, "{total}");
    // Among what was compared are blocks with flags at or above the count, those that are taken and
    // those that have another fault.
    for function in [
        Function::Encode,
        Function::Decode,
        Function::Structure,
        Function::Padding,
        Function::Commitment,
        Function::RawTable,
        Function::PaddedTable,
    ] {
        let all = tally.kept[function as usize];
        let taken = tally.kept_taken[function as usize];
        assert!(taken > 500, "{function:?}: {taken}");
        assert!(all > taken + 50, "{function:?}: {all}, {taken} taken");
    }
}

/// The flags at or above the count of a record.
fn above(record: &mut [u8]) -> &mut [u8] {
    let count = usize::from(record[81]).min(8);
    &mut record[9 + count..17]
}

/// The first of these records that has a flag at or above its count.
fn first_kept(records: &[u8]) -> Option<usize> {
    records
        .to_vec()
        .chunks_exact_mut(RECORD)
        .position(|record| above(record).contains(&1))
}

/// The records without such flags.
fn cleared(records: &[u8]) -> Vec<u8> {
    let mut clear = records.to_vec();
    for record in clear.chunks_exact_mut(RECORD) {
        above(record).fill(0);
    }
    clear
}

/// Refuses an answer with 10 if these records have such a flag.
fn refused(answer: Answer, records: &[u8]) -> Answer {
    match first_kept(records) {
        Some(place) if answer.number == 0 => Answer {
            number: 10,
            place,
            codes: vec![0; answer.codes.len()],
            values: vec![0; answer.values.len()],
            records: vec![0; answer.records.len()],
            entries: vec![0; answer.entries.len()],
            ..Answer::default()
        },
        _ => answer,
    }
}

/// Answers like the model, then changes something.
macro_rules! liar {
    ($call:ident, $answer:ident, $change:block) => {{
        fn who($call: Call<'_>) -> Answer {
            #[allow(unused_mut)]
            let mut $answer = model::answer($call);
            $change
            $answer
        }
        who
    }};
}

#[test]
fn each_of_these_is_stopped() {
    let liars: [(&str, Who); 25] = [
        (
            "build forgets a flag",
            liar!(call, answer, {
                if matches!(call, Call::Build { .. }) && answer.number == 0 {
                    answer.records[9] = 0;
                }
            }),
        ),
        (
            "build refuses everything",
            liar!(call, answer, {
                if let Call::Build { room, .. } = call {
                    answer = Answer {
                        number: 12,
                        codes: vec![0; room.codes],
                        ..Answer::default()
                    };
                }
            }),
        ),
        (
            "build opens a batch for each operation",
            liar!(call, answer, {
                if let Call::Build {
                    table,
                    codes,
                    values,
                    ..
                } = call
                    && answer.number == 0
                {
                    answer = Answer::default();
                    for i in 0..codes.len() {
                        let one = model::build(
                            table,
                            &codes[i..i + 1],
                            &values[i..i + 1],
                            model::Room {
                                codes: 2,
                                values: 2,
                                records: RECORD,
                            },
                        );
                        answer.codes.extend(&one.codes[..one.rest[1]]);
                        answer.values.extend(&one.values[..one.rest[1]]);
                        answer.records.extend(&one.records);
                        answer.rest[0] += 1;
                        answer.rest[1] += one.rest[1];
                    }
                }
            }),
        ),
        (
            "build places a value that is only carried",
            liar!(call, answer, {
                if let Call::Build {
                    table,
                    codes,
                    values,
                    room,
                } = call
                {
                    let other: Vec<u8> = table
                        .iter()
                        .map(|&kind| if kind == 2 { 1 } else { kind })
                        .collect();
                    answer = model::build(&other, codes, values, room);
                }
            }),
        ),
        (
            "build invents a total",
            liar!(call, answer, {
                if matches!(call, Call::Build { .. }) && answer.number == 0 {
                    answer.rest[1] -= 1;
                }
            }),
        ),
        (
            "encode writes nothing",
            liar!(call, answer, {
                if let Call::Encode { buffer, .. } = call {
                    answer.buffer = buffer.to_vec();
                }
            }),
        ),
        (
            "encode drops the flags",
            liar!(call, answer, {
                if matches!(call, Call::Encode { .. }) && answer.number == 0 {
                    let last = answer.rest[0] - 1;
                    answer.buffer[last] = 0;
                }
            }),
        ),
        (
            "decode takes the last group's index plus one as the count",
            liar!(call, answer, {
                if matches!(call, Call::Decode { .. }) && answer.number == 0 {
                    for record in answer.records.chunks_exact_mut(RECORD) {
                        let last = (0..8).rev().find(|&i| record[i] < record[i + 1]);
                        record[81] = last.map_or(0, |i| i as u8 + 1);
                    }
                }
            }),
        ),
        (
            "decode says one byte more",
            liar!(call, answer, {
                if matches!(call, Call::Decode { .. }) && answer.number == 0 {
                    answer.rest[2] += 1;
                }
            }),
        ),
        (
            "decode says 9 for 8",
            liar!(call, answer, {
                if matches!(call, Call::Decode { .. }) && answer.number == 8 {
                    answer.number = 9;
                }
            }),
        ),
        (
            "decode names another batch for 10",
            liar!(call, answer, {
                if matches!(call, Call::Decode { .. }) && answer.number == 10 {
                    answer.place += 1;
                }
            }),
        ),
        (
            "decode refuses a flag at or above the count",
            liar!(call, answer, {
                if matches!(call, Call::Decode { .. }) {
                    let records = answer.records.clone();
                    answer = refused(answer, &records);
                }
            }),
        ),
        (
            "decode clears a flag at or above the count",
            liar!(call, answer, {
                if matches!(call, Call::Decode { .. }) {
                    answer.records = cleared(&answer.records);
                }
            }),
        ),
        (
            "encode clears a flag at or above the count",
            liar!(call, answer, {
                if let Call::Encode {
                    table,
                    arena,
                    buffer,
                    at,
                } = call
                    && answer.number == 0
                {
                    let records = cleared(arena.records);
                    let arena = Arena {
                        records: &records,
                        ..arena
                    };
                    answer = model::encode(table, arena, buffer, at);
                }
            }),
        ),
        (
            "padding refuses a flag at or above the count",
            liar!(call, answer, {
                if let Call::Padding { arena } = call {
                    answer = refused(answer, arena.records);
                }
            }),
        ),
        (
            "the raw table refuses a flag at or above the count",
            liar!(call, answer, {
                if let Call::RawTable { arena, .. } = call {
                    answer = refused(answer, arena.records);
                }
            }),
        ),
        (
            "the padded table counts a flag at or above the count",
            liar!(call, answer, {
                if let Call::PaddedTable { arena, .. } = call
                    && answer.number == 0
                    && first_kept(arena.records).is_some()
                {
                    answer.entries[answer.rest[0] - 1] += 1;
                }
            }),
        ),
        (
            "structure accepts everything",
            liar!(call, answer, {
                if matches!(call, Call::Structure { .. }) {
                    answer = Answer::default();
                }
            }),
        ),
        (
            "padding accepts everything",
            liar!(call, answer, {
                if matches!(call, Call::Padding { .. }) {
                    answer = Answer::default();
                }
            }),
        ),
        (
            "commitment names the batch after",
            liar!(call, answer, {
                if matches!(call, Call::Commitment { .. }) && answer.number == 16 {
                    answer.place += 1;
                }
            }),
        ),
        (
            "commitment does not look at empty groups",
            liar!(call, answer, {
                if let Call::Commitment { arena, .. } = call
                    && answer.number == 16
                    && arena.records.len() == RECORD
                {
                    let batch = model::Batch::of_record(arena.records);
                    let wrong = (0..usize::from(batch.count)).all(|group| {
                        batch.starts[group] == batch.starts[group + 1] || batch.numbers[group] < 128
                    });
                    if wrong {
                        answer = Answer::default();
                    }
                }
            }),
        ),
        (
            "the raw table is one too high at its end",
            liar!(call, answer, {
                if matches!(call, Call::RawTable { .. }) && answer.number == 0 {
                    answer.entries[answer.rest[0] - 1] += 1;
                }
            }),
        ),
        (
            "the padded index is the raw one",
            liar!(call, answer, {
                if let Call::PaddedIndex { raw, .. } = call {
                    answer.rest = [1, raw, 0];
                }
            }),
        ),
        (
            "an operation at a group's end is in the group before",
            liar!(call, answer, {
                if matches!(call, Call::Group { .. }) && answer.rest[1] > 0 && answer.rest[2] == 0 {
                    answer.rest[1] -= 1;
                }
            }),
        ),
        (
            "the next group may be the group itself",
            liar!(call, answer, {
                if let Call::NextGroup { record, group } = call
                    && (1..8).contains(&group)
                    && answer.number == 0
                {
                    answer = model::next_group(record, group - 1);
                }
            }),
        ),
    ];
    for (what, who) in liars {
        assert!(tried(who).is_err(), "not found: {what}");
    }
}

/// All lists of up to two operations, good or at fault: beside the original or, in the port's place,
/// beside the model, which is asked about every list.
fn operations_tried(who: Who, in_ports_place: bool) -> Result<Tally, Stopped> {
    let mut run = Run::new(who, in_ports_place);
    sections::operations(&mut run, 2)?;
    Ok(run.tally)
}

#[test]
fn every_function_meets_opcodes_and_values_at_fault() {
    let tried = |in_ports_place| {
        operations_tried(model::answer, in_ports_place)
            .unwrap_or_else(|Stopped(words)| panic!("{words}"))
    };
    let beside_model = tried(true);
    let beside_original = tried(false);
    let lists = [Function::Build, Function::Encode, Function::Commitment];
    for function in lists.into_iter().chain([Function::Decode]) {
        let numbers = beside_model.numbers[function as usize];
        assert!(
            numbers[4] > 100 && numbers[17] > 100,
            "{function:?}: {numbers:?}"
        );
    }
    for function in [Function::Build, Function::Decode] {
        let numbers = beside_original.numbers[function as usize];
        assert!(
            numbers[4] > 50 && numbers[17] > 50,
            "{function:?}: {numbers:?}"
        );
    }
    if cfg!(feature = "port") {
        let heads = beside_model.heads;
        assert!(heads[4] > 100 && heads[17] > 100, "{heads:?}");
    }
}

/// What a rule says of an operation: its kind, opcode and value give a number, or 0.
type Rule = fn(u8, u8, u64) -> u8;

/// The lists of a call that looks at operations.
fn listed(call: Call<'_>) -> Option<(&[u8], &[u8], &[u64])> {
    match call {
        Call::Build {
            table,
            codes,
            values,
            ..
        } => Some((table, codes, values)),
        Call::Encode { table, arena, .. } | Call::Commitment { table, arena } => {
            Some((table, arena.codes, arena.values))
        }
        _ => None,
    }
}

/// Answers like the model, but an operation that is at fault is one by this rule, the first of them
/// that is.
fn by_rule(call: Call<'_>, rule: Rule) -> Answer {
    let mut answer = model::answer(call);
    let Some((table, codes, values)) = listed(call) else {
        return answer;
    };
    let numbers = codes
        .iter()
        .zip(values)
        .map(|(&code, &value)| rule(model::kind(table, code), code, value));
    let first = numbers.enumerate().find(|&(_, number)| number != 0);
    if [4, 17].contains(&answer.number)
        && let Some((place, number)) = first
    {
        answer.number = number;
        answer.place = place;
    }
    answer
}

fn out_of_range(kind: u8, value: u64) -> bool {
    if kind == 0 {
        value != 0
    } else {
        value >= model::FIELD
    }
}

fn value_first(kind: u8, _: u8, value: u64) -> u8 {
    match (out_of_range(kind, value), kind) {
        (true, _) => 17,
        (false, 3) => 4,
        _ => 0,
    }
}

fn value_for_kind_3(kind: u8, code: u8, value: u64) -> u8 {
    match kind {
        3 if code >= 128 => 4,
        3 => 17,
        _ if out_of_range(kind, value) => 17,
        _ => 0,
    }
}

fn opcode_for_a_value_without_need(kind: u8, _: u8, value: u64) -> u8 {
    match kind {
        3 => 4,
        0 if value != 0 => 4,
        _ if out_of_range(kind, value) => 17,
        _ => 0,
    }
}

fn opcode_for_all(kind: u8, _: u8, value: u64) -> u8 {
    if kind == 3 || out_of_range(kind, value) {
        4
    } else {
        0
    }
}

fn opcodes_alone(kind: u8, _: u8, _: u64) -> u8 {
    if kind == 3 { 4 } else { 0 }
}

/// Where the operations of a block's bytes begin, up to one that can't be read.
fn begins(table: &[u8], bytes: &[u8], at: usize) -> Vec<usize> {
    let mut all = Vec::new();
    if let Ok((count, length)) = model::read_count(bytes, at) {
        let mut here = at + length;
        for index in 0..count {
            all.push(here);
            match model::read_operation(table, bytes, here, index) {
                Ok((_, length)) => here += length,
                Err(_) => break,
            }
        }
    }
    all
}

/// Programs in which one function knows that an operation is at fault, but not in what.
macro_rules! mixed_up {
    ($function:expr) => {{
        fn there(call: Call<'_>, rule: Rule) -> Answer {
            if call.function() == $function {
                by_rule(call, rule)
            } else {
                model::answer(call)
            }
        }
        let all: [(&str, Who); 6] = [
            ("the value is looked at before the opcode", |call| {
                there(call, value_first)
            }),
            ("kind 3 is 17", |call| there(call, value_for_kind_3)),
            ("a value on kind 0 is 4", |call| {
                there(call, opcode_for_a_value_without_need)
            }),
            ("every value is 4", |call| there(call, opcode_for_all)),
            // Where no opcode is at fault the rule says nothing, and the model's answer stands.
            ("all 4s come before any 17", |call| {
                there(call, opcodes_alone)
            }),
            (
                "17 names the operation after",
                liar!(call, answer, {
                    if call.function() == $function && answer.number == 17 {
                        answer.place += 1;
                    }
                }),
            ),
        ];
        all
    }};
}

/// The same for the bytes of operations.
fn misread() -> [(&'static str, Who); 5] {
    [
        (
            "decode says 17 for kind 3",
            liar!(call, answer, {
                if let Call::Decode {
                    table, bytes, at, ..
                } = call
                    && answer.number == 4
                    && bytes[begins(table, bytes, at)[answer.place]] < 128
                {
                    answer.number = 17;
                }
            }),
        ),
        (
            "decode says 17 for an opcode of 128 or more",
            liar!(call, answer, {
                if let Call::Decode {
                    table, bytes, at, ..
                } = call
                    && answer.number == 4
                    && bytes[begins(table, bytes, at)[answer.place]] >= 128
                {
                    answer.number = 17;
                }
            }),
        ),
        (
            "decode says 4 for a value",
            liar!(call, answer, {
                if matches!(call, Call::Decode { .. }) && answer.number == 17 {
                    answer.number = 4;
                }
            }),
        ),
        (
            "decode looks at a value before its missing bytes",
            liar!(call, answer, {
                if let Call::Decode {
                    table, bytes, at, ..
                } = call
                    && answer.number == 2
                    && bytes.last() == Some(&255)
                    && let Some(index) = begins(table, bytes, at)
                        .iter()
                        .position(|&begin| begin == answer.place)
                {
                    answer.number = 17;
                    answer.place = index;
                }
            }),
        ),
        (
            "decode looks for missing bytes before the opcode",
            liar!(call, answer, {
                if let Call::Decode {
                    table, bytes, at, ..
                } = call
                    && answer.number == 4
                {
                    let begin = begins(table, bytes, at)[answer.place];
                    if bytes.len() - begin < 9 {
                        answer.number = 2;
                        answer.place = begin;
                    }
                }
            }),
        ),
    ]
}

#[test]
fn each_that_mixes_opcode_and_value_up_is_stopped() {
    // The original can be asked about lists to batch and bytes to read.
    for (what, who) in mixed_up!(Function::Build).into_iter().chain(misread()) {
        for in_ports_place in [false, true] {
            let found = operations_tried(who, in_ports_place).is_err();
            assert!(found, "not found: {what}, {in_ports_place}");
        }
    }
    for (what, who) in mixed_up!(Function::Encode) {
        assert!(operations_tried(who, true).is_err(), "encode: {what}");
    }
    for (what, who) in mixed_up!(Function::Commitment) {
        assert!(operations_tried(who, true).is_err(), "commitment: {what}");
    }
}

/// Blocks that no batching makes, and some turns of everything: beside the rule and the original or,
/// in the port's place, beside the model too.
fn strict_tried(who: Who, in_ports_place: bool) -> Result<Tally, Stopped> {
    let mut run = Run::new(who, in_ports_place);
    sections::unfinished(&mut run, 3, &mut |_| ())?;
    let mut seed = Seed::new(11);
    for _ in 0..100 {
        sections::unfinished_turn(&mut run, &mut seed)?;
        sections::turn(&mut run, &mut seed)?;
    }
    Ok(run.tally)
}

#[test]
fn strict_reading_meets_all_that_can_come() {
    for in_ports_place in [false, true] {
        let tally = strict_tried(model::answer, in_ports_place)
            .unwrap_or_else(|Stopped(words)| panic!("{words}"));
        for what in Strict::ALL {
            let times = tally.strict[what as usize];
            let least = if what == Strict::LongList { 40 } else { 150 };
            assert!(times >= least, "{what:?}: {times}");
        }
        let numbers = tally.numbers[Function::Strict as usize];
        assert_eq!(numbers.iter().sum::<u64>(), tally.strict.iter().sum());
        assert_eq!(numbers[0], tally.strict[Strict::Finished as usize]);
        let witnessed = tally.original[Function::Strict as usize];
        assert!(witnessed > 4_000, "{witnessed}");
    }
}

/// The same call of the ordinary decoder.
fn ordinary(call: Call<'_>) -> Call<'_> {
    match call {
        Call::Strict {
            table,
            bytes,
            at,
            room,
        } => Call::Decode {
            table,
            bytes,
            at,
            room,
        },
        other => other,
    }
}

/// What decode takes of a call of the strict decoder: its answer, the block, and the block's own list.
fn taken(call: Call<'_>) -> Option<(Answer, Block, List)> {
    let Call::Strict { .. } = call else {
        return None;
    };
    let read = model::answer(ordinary(call));
    (read.number == 0).then(|| {
        let block = Block::of(&read);
        let own = own_list(&block);
        (read, block, own)
    })
}

/// The records of batching a list of any length, by the original.
fn batched(list: &List) -> Vec<u8> {
    let list: Vec<(u8, u64)> = (list.codes.iter().copied())
        .zip(list.values.iter().copied())
        .collect();
    original::batch(&list).map_or(Vec::new(), |batches| {
        compare::theirs::flat(&batches).records
    })
}

/// Where the strict decoder says 18, this says something else.
macro_rules! on_18 {
    ($call:ident, $answer:ident, $read:ident, $block:ident, $own:ident, $change:block) => {
        liar!($call, $answer, {
            if let Some(($read, $block, $own)) = taken($call)
                && $answer.number == 18
            {
                let _ = (&$read, &$block, &$own);
                $change
            }
        })
    };
}

#[test]
fn each_that_reads_strictly_otherwise_is_stopped() {
    let liars: [(&str, Who); 18] = [
        (
            "every block is taken",
            on_18!(call, answer, read, block, own, { answer = read }),
        ),
        (
            "an extra batch at the end is taken",
            on_18!(call, answer, read, block, own, {
                if answer.place > 0 && block.records.starts_with(&batched(&own)) {
                    answer = read;
                }
            }),
        ),
        (
            "the place is one more",
            on_18!(call, answer, read, block, own, { answer.place += 1 }),
        ),
        (
            "the place is one less, but for the first",
            on_18!(call, answer, read, block, own, {
                answer.place = answer.place.saturating_sub(1);
            }),
        ),
        (
            "the last batch is named",
            on_18!(call, answer, read, block, own, {
                if answer.place > 0 {
                    answer.place = read.rest[0] - 1;
                }
            }),
        ),
        (
            "16,384 operations are refused",
            liar!(call, answer, {
                if let Some((read, _, own)) = taken(call)
                    && own.codes.len() == 16_384
                {
                    answer = Answer {
                        number: 18,
                        codes: vec![0; read.codes.len()],
                        values: vec![0; read.values.len()],
                        records: vec![0; read.records.len()],
                        ..Answer::default()
                    };
                }
            }),
        ),
        (
            "16,385 operations are taken",
            on_18!(call, answer, read, block, own, {
                if own.codes.len() == 16_385 && block.records == batched(&own) {
                    answer = read;
                }
            }),
        ),
        (
            "bits kept under M-100 are not looked at",
            on_18!(call, answer, read, block, own, {
                if cleared(&block.records) == batched(&own) {
                    answer = read;
                }
            }),
        ),
        (
            "18 is told as 10",
            on_18!(call, answer, read, block, own, { answer.number = 10 }),
        ),
        (
            "an empty list is taken",
            on_18!(call, answer, read, block, own, {
                if own.codes.is_empty() {
                    answer = read;
                }
            }),
        ),
        (
            "differences are looked for before the length",
            on_18!(call, answer, read, block, own, {
                if own.codes.len() > 16_384 {
                    let made = batched(&own);
                    let pairs = block.records.chunks_exact(RECORD).zip(
                        made.chunks_exact(RECORD)
                            .map(Some)
                            .chain(core::iter::repeat(None)),
                    );
                    let differs = |(ours, theirs): (_, Option<_>)| Some(ours) != theirs;
                    answer.place = pairs.into_iter().position(differs).unwrap_or(0);
                }
            }),
        ),
        (
            "18 leaves what was read",
            on_18!(call, answer, read, block, own, {
                answer.codes = read.codes;
                answer.values = read.values;
                answer.records = read.records;
            }),
        ),
        (
            "18 leaves the last byte of the records",
            on_18!(call, answer, read, block, own, {
                if let Some(last) = answer.records.last_mut() {
                    *last = 0xa5;
                }
            }),
        ),
        (
            "18 says how many bytes were used",
            on_18!(call, answer, read, block, own, {
                answer.rest[2] = read.rest[2];
            }),
        ),
        (
            "18 says how many batches were read",
            on_18!(call, answer, read, block, own, {
                answer.rest[0] = read.rest[0];
            }),
        ),
        (
            "only the padded operations are compared",
            on_18!(call, answer, read, block, own, {
                let made = compare::inputs::WIDE;
                if let Call::Strict { table, .. } = call {
                    let made = model::build(table, &own.codes, &own.values, made);
                    if made.number == 0 && made.codes[..made.rest[1]] == block.codes {
                        answer = read;
                    }
                }
            }),
        ),
        (
            "padding is not dropped from the list",
            liar!(call, answer, {
                if let Some((read, block, own)) = taken(call)
                    && answer.number == 0
                    && own.codes.len() < block.codes.len()
                {
                    answer = Answer {
                        number: 18,
                        codes: vec![0; read.codes.len()],
                        values: vec![0; read.values.len()],
                        records: vec![0; read.records.len()],
                        ..Answer::default()
                    };
                }
            }),
        ),
        (
            "an empty first batch is 18 before what decode refuses in a later one",
            liar!(call, answer, {
                if let Call::Strict {
                    table, bytes, at, ..
                } = call
                    && (7..=11).contains(&answer.number)
                    && let Some(&last) = begins(table, bytes, at).last()
                    && let Ok((_, length)) = model::read_operation(table, bytes, last, 0)
                    && bytes[last + length + 4..].starts_with(&[0; 4])
                {
                    answer.number = 18;
                    answer.place = 0;
                }
            }),
        ),
    ];
    for (what, who) in liars {
        for in_ports_place in [false, true] {
            let found = strict_tried(who, in_ports_place).is_err();
            assert!(found, "not found: {what}, {in_ports_place}");
        }
    }
    // Only the port is lent less room than it needs.
    let before_room = liar!(call, answer, {
        if let Call::Strict {
            table,
            bytes,
            at,
            room,
        } = call
            && answer.number == 13
        {
            let wide = model::decode_strict(table, bytes, at, compare::inputs::WIDE);
            if wide.number == 18 {
                answer = Answer {
                    number: 18,
                    place: wide.place,
                    codes: vec![0; room.codes],
                    values: vec![0; room.values],
                    records: vec![0; room.records],
                    ..Answer::default()
                };
            }
        }
    });
    assert!(strict_tried(before_room, true).is_err(), "18 before 13");
}
