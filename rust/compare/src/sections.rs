//! What is compared, part by part.

use model::{Answer, Arena, Call, Function, RECORD, Room};

use crate::{
    Run, Seed, Stopped,
    inputs::{self, Block, Kinds, List, WIDE},
    run::strictly,
    twists::{self, Part, Twist},
};

type Done = Result<(), Stopped>;

/// How much of a list's lookups is asked for.
#[derive(Clone, Copy, PartialEq)]
pub enum Depth {
    All,
    Some,
}

/// Everything about one list: batches, bytes there and back, checks, tables and lookups.
pub fn whole(run: &mut Run, table: &[u8], list: &List, depth: Depth) -> Done {
    let call = Call::Build {
        table,
        codes: &list.codes,
        values: &list.values,
        room: list.room(),
    };
    let built = run.check(call)?;
    if depth == Depth::Some {
        run.owned(call, &built)?;
    }
    if built.number != 0 {
        return Ok(());
    }
    block_of(run, table, &Block::of(&built), depth, Some(list))
}

/// Everything about one block.
pub fn block(run: &mut Run, table: &[u8], block: &Block, depth: Depth) -> Done {
    block_of(run, table, block, depth, None)
}

/// Everything about one block, and the list that it was built of: then it must be read strictly.
fn block_of(run: &mut Run, table: &[u8], block: &Block, depth: Depth, list: Option<&List>) -> Done {
    let arena = block.arena();
    let buffer = vec![0x5a; 7 + 9 * block.codes.len() + block.records.len() / 16];
    let call = Call::Encode {
        table,
        arena,
        buffer: &buffer,
        at: 0,
    };
    let encoded = run.check(call)?;
    if depth == Depth::Some {
        run.owned(call, &encoded)?;
    }
    if encoded.number == 0 {
        let bytes = &encoded.buffer[..encoded.rest[0]];
        let call = Call::Decode {
            table,
            bytes,
            at: 0,
            room: room_of(block),
        };
        let (decoded, strict) = run.read(call)?;
        if let Some(list) = list {
            run.built(call, &strict, list)?;
        }
        if depth == Depth::Some {
            run.owned(call, &decoded)?;
            run.owned(strictly(call), &strict)?;
        }
    }
    run.check(Call::Structure { arena })?;
    run.check(Call::Padding { arena })?;
    run.check(Call::Commitment { table, arena })?;
    let room = block.codes.len() + 1;
    let call = Call::RawTable { arena, room };
    let raw = run.check(call)?;
    if depth == Depth::Some {
        run.owned(call, &raw)?;
    }
    let call = Call::PaddedTable { arena, room };
    let padded = run.check(call)?;
    if depth == Depth::Some {
        run.owned(call, &padded)?;
    }
    if raw.number == 0 && padded.number == 0 {
        run.indices(
            arena,
            &raw.entries[..raw.rest[0]],
            &padded.entries[..padded.rest[0]],
            depth == Depth::Some,
        )?;
    }
    let records = block.records.len() / RECORD;
    for record in block
        .records
        .chunks_exact(RECORD)
        .take(if depth == Depth::All { records } else { 3 })
    {
        lookups(run, record)?;
    }
    Ok(())
}

/// Every lookup in one record.
pub fn lookups(run: &mut Run, record: &[u8]) -> Done {
    let total = usize::from(record[8]);
    for index in 0..=total.min(80) {
        run.check(Call::Group { record, index })?;
    }
    for group in 0..9 {
        run.check(Call::NextGroup { record, group })?;
    }
    Ok(())
}

fn room_of(block: &Block) -> Room {
    Room {
        codes: block.codes.len(),
        values: block.values.len(),
        records: block.records.len(),
    }
}

/// Goes through all sequences over some letters, up to a length.
pub(crate) fn sequences(
    letters: usize,
    most: usize,
    mut each: impl FnMut(&[usize]) -> Done,
) -> Done {
    for length in 0..=most {
        let mut word = vec![0; length];
        loop {
            each(&word)?;
            let Some(at) = word.iter().rposition(|&letter| letter + 1 < letters) else {
                break;
            };
            word[at] += 1;
            word[at + 1..].fill(0);
        }
    }
    Ok(())
}

/// All lists over the four kinds up to a length: Noop, plain, immediate, carried.
pub fn four_kinds(run: &mut Run, most: usize, tick: &mut dyn FnMut(&Run)) -> Done {
    let table = run.table;
    let kinds = Kinds::of(&table);
    let letters = [0, kinds.plain[0], kinds.immediate[0], kinds.carried[0]];
    let mut list = List::default();
    sequences(4, most, |word| {
        list.clear();
        for (i, &letter) in word.iter().enumerate() {
            let value = if letter > 1 { 5 + i as u64 } else { 0 };
            list.push(letters[letter], value);
        }
        tick(run);
        whole(run, &table, &list, Depth::All)
    })
}

/// All sequences of plain operations and immediates up to a length.
pub fn two_kinds(run: &mut Run, most: usize, tick: &mut dyn FnMut(&Run)) -> Done {
    let table = run.table;
    let kinds = Kinds::of(&table);
    let mut list = List::default();
    sequences(2, most, |word| {
        list.clear();
        for (i, &letter) in word.iter().enumerate() {
            if letter == 0 {
                list.push(kinds.plain[i % 3], 0);
            } else {
                list.push(kinds.immediate[0], 1 + i as u64);
            }
        }
        tick(run);
        whole(run, &table, &list, Depth::All)
    })
}

/// All lists over the four kinds up to a length, and a batch without groups, with every set of flags
/// at or above the count of the only batch.
pub fn flags_above(run: &mut Run, most: usize, tick: &mut dyn FnMut(&Run)) -> Done {
    let table = run.table;
    let kinds = Kinds::of(&table);
    let letters = [0, kinds.plain[0], kinds.immediate[0], kinds.carried[0]];
    sequences(4, most, |word| {
        let mut list = List::default();
        for &letter in word {
            list.push(letters[letter], if letter > 1 { 5 } else { 0 });
        }
        let good = if word.is_empty() {
            Block {
                records: model::Batch::default().record(),
                ..Block::default()
            }
        } else {
            Block::of(&model::build(
                &table,
                &list.codes,
                &list.values,
                list.room(),
            ))
        };
        let count = usize::from(good.records[81]);
        for set in 1..1u32 << (8 - count) {
            let mut flagged = good.clone();
            for group in count..8 {
                flagged.records[9 + group] = (set >> (group - count) & 1) as u8;
            }
            tick(run);
            kept_flags(run, &table, &flagged, Depth::All)?;
        }
        Ok(())
    })
}

/// A good block with flags at or above its counts: read from bytes that no encoder wrote, and
/// everything about it.
fn kept_flags(run: &mut Run, table: &[u8], flagged: &Block, depth: Depth) -> Done {
    let bytes = inputs::bytes_of_block(table, flagged);
    run.read(Call::Decode {
        table,
        bytes: &bytes,
        at: 0,
        room: room_of(flagged),
    })?;
    block(run, table, flagged, depth)
}

/// All lists of a few operations up to a length, each of them good or with a fault of opcode or value:
/// batched, everything about them as one group, and their bytes with every end.
pub fn operations(run: &mut Run, most: usize) -> Done {
    let mut tables = vec![run.table.to_vec()];
    if run.port {
        tables.push(model::cases::table_t());
    }
    for table in tables {
        let letters = inputs::letters(&Kinds::of(&table));
        sequences(letters.len(), most, |word| {
            let mut list = List::default();
            for &letter in word {
                let (code, value) = letters[letter];
                list.push(code, value);
            }
            operations_of(run, &table, &list)
        })?;
    }
    Ok(())
}

fn operations_of(run: &mut Run, table: &[u8], list: &List) -> Done {
    whole(run, table, list, Depth::Some)?;
    let group = inputs::one_group(list);
    block(run, table, &group, Depth::Some)?;
    let bytes = inputs::bytes_of_block(table, &group);
    for end in 0..=bytes.len() {
        decode(run, table, &bytes[..end], 0)?;
    }
    Ok(())
}

/// The block of a good list, by the model.
fn built(table: &[u8], list: &List) -> Block {
    Block::of(&model::build(table, &list.codes, &list.values, list.room()))
}

/// Reads bytes by both decoders. If a place is given, decode must take them, and the strict one must
/// refuse them with 18 and that place.
fn strict(run: &mut Run, table: &[u8], bytes: &[u8], place: Option<usize>) -> Done {
    let call = Call::Decode {
        table,
        bytes,
        at: 0,
        room: room_for(bytes, 0),
    };
    let (read, strict) = run.read(call)?;
    run.owned(call, &read)?;
    run.owned(strictly(call), &strict)?;
    let Some(place) = place else {
        return Ok(());
    };
    if read.number == 0 && (strict.number, strict.place) == (18, place) {
        return Ok(());
    }
    Err(Stopped(format!(
        "18 with place {place} is not said: {} {}, strictly {} {}\nbytes {bytes:x?}",
        read.number, read.place, strict.number, strict.place
    )))
}

fn twist(run: &mut Run, table: &[u8], good: &[Part], twist: Twist) -> Done {
    match twists::twisted(table, good, twist) {
        None => Ok(()),
        Some((parts, place)) => strict(run, table, &twists::bytes(table, &parts), place),
    }
}

/// A list's block with every twist; and the list in two blocks one after another, wherever it is cut.
fn every_twist(run: &mut Run, table: &[u8], list: &List) -> Done {
    let good = twists::parts(&built(table, list));
    for each in twists::all(&good) {
        twist(run, table, &good, each)?;
    }
    for at in 1..list.codes.len() {
        cut(run, table, list, at)?;
    }
    Ok(())
}

/// The batches of the list up to an operation, then those of what is left.
fn cut(run: &mut Run, table: &[u8], list: &List, at: usize) -> Done {
    let half = |codes: &[u8], values: &[u64]| {
        built(
            table,
            &List {
                codes: codes.to_vec(),
                values: values.to_vec(),
            },
        )
    };
    let two = twists::joined(&[
        half(&list.codes[..at], &list.values[..at]),
        half(&list.codes[at..], &list.values[at..]),
    ]);
    strict(run, table, &inputs::bytes_of_block(table, &two), None)
}

/// Blocks that can be read and that no batching makes: all lists over the four kinds up to a length,
/// and some at the ends of groups and batches, with every twist.
pub fn unfinished(run: &mut Run, most: usize, tick: &mut dyn FnMut(&Run)) -> Done {
    let table = run.table;
    let kinds = Kinds::of(&table);
    let (plain, immediate, carried) = (kinds.plain[0], kinds.immediate[0], kinds.carried[0]);
    let letters = [0, plain, immediate, carried];
    sequences(4, most, |word| {
        let mut list = List::default();
        for &letter in word {
            list.push(letters[letter], if letter > 1 { 5 } else { 0 });
        }
        tick(run);
        match word {
            [] => Ok(()),
            _ => every_twist(run, &table, &list),
        }
    })?;
    for runs in [
        &[(plain, 9)][..],
        &[(plain, 10)],
        &[(plain, 8), (0, 1), (plain, 1)],
        &[(plain, 8), (immediate, 1)],
        &[(plain, 9), (immediate, 1)],
        &[(plain, 19)],
        &[(plain, 28), (immediate, 1)],
        &[(immediate, 3), (plain, 30)],
        &[(immediate, 7)],
        &[(immediate, 8)],
        &[(immediate, 7), (plain, 3), (0, 1)],
        &[(0, 71), (immediate, 2)],
        &[(plain, 63), (immediate, 1)],
        &[(plain, 72)],
        &[(plain, 73)],
        &[(plain, 40), (immediate, 1), (plain, 100), (carried, 9)],
        &[(immediate, 30), (0, 40), (immediate, 2)],
    ] {
        let mut list = List::default();
        for &(code, times) in runs {
            for _ in 0..times {
                let valued = [immediate, carried].contains(&code);
                list.push(code, if valued { 7 } else { 0 });
            }
        }
        tick(run);
        every_twist(run, &table, &list)?;
    }
    nothing_listed(run, &table)?;
    longest_lists(run, &table, tick)
}

/// Blocks without operations of their own: nothing, empty batches, padding alone.
fn nothing_listed(run: &mut Run, table: &[u8]) -> Done {
    for batches in 0..4 {
        for flags in [0, 1, 0x80, 0xff] {
            let nothing = vec![([0; 8], flags); batches];
            let bytes = inputs::bytes_of(table, &List::default(), &nothing);
            strict(run, table, &bytes, Some(0))?;
        }
    }
    for groups in 1..=8 {
        for batches in 1..4 {
            let mut lengths = [0; 8];
            lengths[..groups].fill(1);
            let noops = groups * batches;
            let list = List {
                codes: vec![0; noops],
                values: vec![0; noops],
            };
            let all = ((1u32 << groups) - 1) as u8;
            let mut parts = vec![(lengths, all); batches];
            strict(run, table, &inputs::bytes_of(table, &list, &parts), Some(0))?;
            // One of them is the list's own.
            parts[batches - 1].1 &= !1;
            strict(run, table, &inputs::bytes_of(table, &list, &parts), None)?;
        }
    }
    Ok(())
}

/// Lists of their own around 16,384, batched by hand: a block of 72 operations without an immediate,
/// or of seven with one each, is one whole batch. As they are, and with an empty batch.
fn longest_lists(run: &mut Run, table: &[u8], tick: &mut dyn FnMut(&Run)) -> Done {
    let kinds = Kinds::of(table);
    for (code, in_batch) in [(kinds.plain[0], 72), (0, 72), (kinds.immediate[0], 7)] {
        let part = |size: usize| {
            built(
                table,
                &List {
                    codes: vec![code; size],
                    values: vec![0; size],
                },
            )
        };
        for size in [16_383, 16_384, 16_385, 16_386, 16_420] {
            tick(run);
            let mut blocks = vec![part(in_batch); size / in_batch];
            if size % in_batch > 0 {
                blocks.push(part(size % in_batch));
            }
            let good = twists::parts(&twists::joined(&blocks));
            let long = size > 16_384;
            let bytes = twists::bytes(table, &good);
            strict(run, table, &bytes, long.then_some(0))?;
            for batch in [0, 1, 100, good.len()] {
                let each = Twist::EmptyBatch(batch, 0);
                let Some((parts, place)) = twists::twisted(table, &good, each) else {
                    continue;
                };
                let place = if long { Some(0) } else { place };
                strict(run, table, &twists::bytes(table, &parts), place)?;
            }
        }
    }
    Ok(())
}

/// Random twists of a random list's block, one and two at once; the list cut; and damage besides.
pub fn unfinished_turn(run: &mut Run, seed: &mut Seed) -> Done {
    let table = if run.port && seed.one_in(4) {
        inputs::table(seed)
    } else {
        run.table.to_vec()
    };
    let kinds = Kinds::of(&table);
    let size = match seed.under(20) {
        0 => inputs::size(seed),
        _ => inputs::size(seed).min(400),
    };
    let list = inputs::list(seed, &kinds, size);
    let good = twists::parts(&built(&table, &list));
    for _ in 0..24 {
        let each = twists::any(seed, &good);
        twist(run, &table, &good, each)?;
        let Some((parts, _)) = twists::twisted(&table, &good, each) else {
            continue;
        };
        // Whatever is possible after that; what decode says of it is not known.
        let other = twists::any(seed, &good);
        if let Some((both, _)) = twists::twisted(&table, &parts, other) {
            strict(run, &table, &twists::bytes(&table, &both), None)?;
        }
        let mut bytes = twists::bytes(&table, &parts);
        if run.port && seed.one_in(4) {
            short_of_room(run, seed, &table, &bytes)?;
        }
        inputs::damage(seed, &mut bytes);
        strict(run, &table, &bytes, None)?;
    }
    if size > 1 {
        for _ in 0..4 {
            let at = 1 + seed.under(size - 1);
            cut(run, &table, &list, at)?;
        }
    }
    Ok(())
}

/// Bytes with one output shorter than the block needs, with all as long as it needs, and longer; at a
/// place of a buffer.
fn short_of_room(run: &mut Run, seed: &mut Seed, table: &[u8], block: &[u8]) -> Done {
    let Ok((batches, operations)) = model::head(table, block, 0) else {
        return Ok(());
    };
    let before = seed.under(3);
    let bytes = [&vec![0xee; before], block, &vec![0xee; seed.under(3)]].concat();
    let records = batches * RECORD;
    let less = |need: usize, by: usize| need.saturating_sub(by);
    let by = 1 + seed.under(3);
    for (codes, values, records) in [
        (less(operations, by), operations, records),
        (operations, less(operations, by), records),
        (operations, operations, less(records, by)),
        (operations, operations, less(records, RECORD)),
        (operations, operations, records),
        (operations + by, operations, records),
        (operations, operations + by, records + RECORD - by),
        (operations + by, operations + 1, records + RECORD),
    ] {
        run.read(Call::Decode {
            table,
            bytes: &bytes,
            at: before,
            room: Room {
                codes,
                values,
                records,
            },
        })?;
    }
    Ok(())
}

/// The cases of the model's own tests: every refusal and every pair.
pub fn cases(run: &mut Run) -> Done {
    let mut done = Ok(());
    model::cases::all(&mut |case| {
        if done.is_ok() {
            done = run.check(case.call).and_then(|answer| {
                let said = (answer.number, answer.place) == (case.number, case.place);
                if said || run.answers.is_some() {
                    Ok(())
                } else {
                    Err(Stopped(format!("{}: {answer:?}", case.name)))
                }
            });
            if done.is_ok() && case.call.function() == Function::Decode {
                done = run.check(strictly(case.call)).map(drop);
            }
        }
    });
    done
}

/// Limits: few and large.
pub fn limits(run: &mut Run) -> Done {
    let table = run.table;
    let kinds = Kinds::of(&table);
    let plain = kinds.plain[0];
    let immediate = kinds.immediate[0];
    for size in [16_383, 16_384, 16_385] {
        for code in [plain, immediate] {
            let list = List {
                codes: vec![code; size],
                values: vec![0; size],
            };
            whole(run, &table, &list, Depth::Some)?;
        }
    }
    // Blocks at and over the limits of operations and batches.
    for (ops, batches) in [
        (65_535, 911),
        (65_536, 911),
        (65_592, 911),
        (0, 16_384),
        (0, 16_385),
        (4, 16_384),
        (4, 16_385),
    ] {
        let mut left = ops;
        let mut records = Vec::new();
        let mut parts = Vec::new();
        for _ in 0..batches {
            let mut batch = model::Batch::default();
            let mut lengths = [0; 8];
            for (group, length) in lengths.iter_mut().enumerate() {
                *length = left.min(9) as u8;
                left -= usize::from(*length);
                batch.starts[group + 1] = batch.starts[group] + *length;
                if *length > 0 {
                    batch.count = group as u8 + 1;
                    batch.numbers[group] = (0..*length).map(|i| u64::from(plain) << (7 * i)).sum();
                }
            }
            records.extend(batch.record());
            parts.push((lengths, 0));
        }
        let list = List {
            codes: vec![plain; ops],
            values: vec![0; ops],
        };
        let bytes = if ops <= 65_535 {
            inputs::bytes_of(&table, &list, &parts)
        } else {
            let short = List::default();
            let mut bytes = (((2 * ops + 1) << 2) as u32).to_le_bytes()[..3].to_vec();
            bytes.extend(&list.codes);
            bytes.extend(&inputs::bytes_of(&table, &short, &parts)[1..]);
            bytes
        };
        run.read(Call::Decode {
            table: &table,
            bytes: &bytes,
            at: 0,
            room: WIDE,
        })?;
        let large = Block {
            codes: list.codes,
            values: list.values,
            records,
        };
        block(run, &table, &large, Depth::Some)?;
    }
    // A count over the limit before short or bad bytes.
    for bytes in [
        &[0x24, 1, 0xb1][..],
        &[4, 0, 8],
        &[4, 0, 8, 2, 2],
        &[0xfc, 255, 255, 6],
    ] {
        run.read(Call::Decode {
            table: &table,
            bytes,
            at: 0,
            room: WIDE,
        })?;
    }
    // Buffers at and over the limit.
    for length in [1_048_575, 1_048_576, 1_048_577] {
        let mut bytes = vec![1];
        bytes.resize(length, 0);
        for at in [0, 1, length - 5, length - 1, length, length + 1] {
            run.read(Call::Decode {
                table: &table,
                bytes: &bytes,
                at,
                room: WIDE,
            })?;
            run.check(Call::Encode {
                table: &table,
                arena: Arena {
                    codes: &[],
                    values: &[],
                    records: &[],
                },
                buffer: &bytes,
                at,
            })?;
        }
    }
    // The largest group.
    for code in [plain, immediate] {
        let record = run.check(Call::Build {
            table: &table,
            codes: &[code],
            values: &[0],
            room: WIDE,
        })?;
        for group in [usize::MAX, usize::MAX - 1] {
            run.check(Call::NextGroup {
                record: &record.records[..RECORD],
                group,
            })?;
        }
    }
    Ok(())
}

/// Small blocks whole: every front, every change of a single byte, and every offset up to one past the end.
pub fn changes(run: &mut Run) -> Done {
    let table = run.table.to_vec();
    let kinds = Kinds::of(&table);
    let mut seed = Seed::new(5);
    for size in [0, 1, 2, 8, 10] {
        let good = if size == 0 {
            vec![1, 0, 0, 0, 0]
        } else {
            let list = inputs::list(&mut seed, &kinds, size);
            let built = model::build(&table, &list.codes, &list.values, list.room());
            let block = Block::of(&built);
            let buffer = vec![0; 7 + 9 * block.codes.len() + block.records.len() / 16];
            let encoded = model::encode(&table, block.arena(), &buffer, 0);
            encoded.buffer[..encoded.rest[0]].to_vec()
        };
        for end in 0..=good.len() {
            decode(run, &table, &good[..end], 0)?;
        }
        for at in 0..=good.len() + 1 {
            decode(run, &table, &good, at)?;
        }
        for at in 0..good.len() {
            let mut bytes = good.clone();
            for byte in 0..=255 {
                bytes[at] = byte;
                decode(run, &table, &bytes, 0)?;
            }
        }
    }
    Ok(())
}

/// One turn of the random part.
pub fn turn(run: &mut Run, seed: &mut Seed) -> Done {
    let own = run.table;
    // The original's table, unless there is a port to be held against the model alone.
    let table = if run.port && seed.one_in(4) {
        if seed.one_in(2) {
            inputs::table(seed)
        } else {
            model::cases::table_t()
        }
    } else {
        own.to_vec()
    };
    let kinds = Kinds::of(&table);
    match seed.under(18) {
        0..=2 => {
            let size = inputs::size(seed);
            let list = inputs::list(seed, &kinds, size);
            whole(run, &table, &list, Depth::Some)
        }
        3..=5 => damaged_bytes(run, seed, &table, &kinds),
        6 | 7 => crafted(run, seed, &table, &kinds),
        8..=11 => damaged_block(run, seed, &table, &kinds),
        12 => {
            let record = inputs::record(seed);
            lookups(run, &record)?;
            run.check(Call::NextGroup {
                record: &record,
                group: usize::MAX - seed.under(2),
            })?;
            Ok(())
        }
        13 => offsets(run, seed, &table, &kinds),
        14 => bad_lists(run, seed, &table, &kinds),
        15 | 16 => flagged(run, seed, &table, &kinds),
        _ if run.port => lent(run, seed, &table, &kinds),
        _ => damaged_block(run, seed, &table, &kinds),
    }
}

/// A good block's bytes.
fn good_bytes(seed: &mut Seed, table: &[u8], kinds: &Kinds) -> Vec<u8> {
    let size = inputs::size(seed).min(200);
    let list = inputs::list(seed, kinds, size);
    let built = model::build(table, &list.codes, &list.values, list.room());
    let block = Block::of(&built);
    let buffer = vec![0; 7 + 9 * block.codes.len() + block.records.len() / 16];
    let encoded = model::encode(table, block.arena(), &buffer, 0);
    encoded.buffer[..encoded.rest[0]].to_vec()
}

/// Room for any block that begins there; for a count that is too large as well, so that what comes
/// after it is compared.
pub(crate) fn room_for(bytes: &[u8], at: usize) -> Room {
    let count = model::read_count(bytes, at).map_or(0, |(count, _)| count);
    let operations = bytes.len().max(count);
    Room {
        codes: operations,
        values: operations,
        records: bytes.len() / 5 * RECORD,
    }
}

fn decode(run: &mut Run, table: &[u8], bytes: &[u8], at: usize) -> Result<Answer, Stopped> {
    let call = Call::Decode {
        table,
        bytes,
        at,
        room: room_for(bytes, at),
    };
    let (answer, strict) = run.read(call)?;
    run.owned(call, &answer)?;
    run.owned(strictly(call), &strict)?;
    Ok(answer)
}

/// Damaged copies of one good block.
fn damaged_bytes(run: &mut Run, seed: &mut Seed, table: &[u8], kinds: &Kinds) -> Done {
    let good = if seed.one_in(2) {
        inputs::crafted(seed, table, kinds)
    } else {
        good_bytes(seed, table, kinds)
    };
    let before = seed.under(3);
    for _ in 0..40 {
        let mut bytes = good.clone();
        inputs::damage(seed, &mut bytes);
        bytes.splice(0..0, vec![0xee; before]);
        bytes.extend(vec![0; seed.of(&[0, 0, 1, 6])]);
        decode(run, table, &bytes, before)?;
    }
    // Bytes of nothing, large or small.
    for _ in 0..8 {
        let small = seed.one_in(2);
        let bytes: Vec<u8> = (0..seed.under(40))
            .map(|_| seed.word() as u8 & if small { 11 } else { 255 })
            .collect();
        decode(run, table, &bytes, 0)?;
    }
    // Every front of a short one, and every byte of it changed in one bit.
    if good.len() < 60 {
        for end in 0..good.len() {
            decode(run, table, &good[..end], 0)?;
        }
        for at in 0..good.len() {
            let mut bytes = good.clone();
            bytes[at] ^= 1 << seed.under(8);
            decode(run, table, &bytes, 0)?;
        }
    }
    Ok(())
}

/// Blocks that no batcher wrote, and what can be done with those that are read.
fn crafted(run: &mut Run, seed: &mut Seed, table: &[u8], kinds: &Kinds) -> Done {
    for _ in 0..12 {
        let bytes = inputs::crafted(seed, table, kinds);
        let read = decode(run, table, &bytes, 0)?;
        if read.number == 0 {
            block(run, table, &Block::of(&read), Depth::Some)?;
        }
    }
    Ok(())
}

/// A good block, whoever wrote it; none if what was made is none.
fn good_block(seed: &mut Seed, table: &[u8], kinds: &Kinds) -> Option<Block> {
    let bytes = if seed.one_in(2) {
        inputs::crafted(seed, table, kinds)
    } else {
        good_bytes(seed, table, kinds)
    };
    let read = model::decode(table, &bytes, 0, room_for(&bytes, 0));
    (read.number == 0).then(|| Block::of(&read))
}

/// Blocks with damaged records or operations.
fn damaged_block(run: &mut Run, seed: &mut Seed, table: &[u8], kinds: &Kinds) -> Done {
    let Some(good) = good_block(seed, table, kinds) else {
        return Ok(());
    };
    for _ in 0..12 {
        let mut bad = good.clone();
        inputs::damage_block(seed, &mut bad, kinds);
        block(run, table, &bad, Depth::Some)?;
    }
    if run.port {
        let mut bad = good.clone();
        bad.records.truncate(seed.under(bad.records.len() + 1));
        block(run, table, &bad, Depth::Some)?;
        let mut bad = good;
        bad.values.push(0);
        block(run, table, &bad, Depth::Some)?;
    }
    Ok(())
}

/// Blocks with flags at or above the counts: as they are, and damaged besides, in bytes and in
/// memory.
fn flagged(run: &mut Run, seed: &mut Seed, table: &[u8], kinds: &Kinds) -> Done {
    let Some(good) = good_block(seed, table, kinds) else {
        return Ok(());
    };
    for _ in 0..12 {
        let mut flagged = good.clone();
        inputs::flag_above(seed, &mut flagged);
        kept_flags(run, table, &flagged, Depth::Some)?;
        let bytes = inputs::bytes_of_block(table, &flagged);
        for _ in 0..4 {
            let mut bytes = bytes.clone();
            inputs::damage(seed, &mut bytes);
            decode(run, table, &bytes, 0)?;
        }
        inputs::damage_block(seed, &mut flagged, kinds);
        block(run, table, &flagged, Depth::Some)?;
    }
    Ok(())
}

/// Every offset into bytes that hold blocks one after another.
fn offsets(run: &mut Run, seed: &mut Seed, table: &[u8], kinds: &Kinds) -> Done {
    let mut bytes = Vec::new();
    for _ in 0..2 {
        let size = 1 + seed.under(12);
        let list = inputs::list(seed, kinds, size);
        let built = model::build(table, &list.codes, &list.values, list.room());
        let block = Block::of(&built);
        let buffer = vec![0; 200];
        let encoded = model::encode(table, block.arena(), &buffer, 0);
        bytes.extend(&encoded.buffer[..encoded.rest[0]]);
        if run.port {
            // Every position to write at, in a buffer with little room to spare.
            let buffer: Vec<u8> = (0..encoded.rest[0] + 3).map(|i| i as u8).collect();
            for at in 0..buffer.len() + 2 {
                run.check(Call::Encode {
                    table,
                    arena: block.arena(),
                    buffer: &buffer,
                    at,
                })?;
            }
            run.check(Call::Encode {
                table,
                arena: block.arena(),
                buffer: &buffer,
                at: usize::MAX,
            })?;
        }
    }
    for at in (0..bytes.len() + 3).chain([u32::MAX as usize]) {
        decode(run, table, &bytes, at)?;
    }
    if run.port {
        decode(run, table, &bytes, usize::MAX)?;
    }
    Ok(())
}

/// Lists with an operation that is not admissible; unequal lists and bad tables.
fn bad_lists(run: &mut Run, seed: &mut Seed, table: &[u8], kinds: &Kinds) -> Done {
    for _ in 0..8 {
        let size = seed.under(24);
        let mut list = inputs::list(seed, kinds, size);
        for _ in 0..seed.under(3) {
            if list.codes.is_empty() {
                break;
            }
            let at = seed.under(list.codes.len());
            match seed.under(4) {
                0 => list.codes[at] = seed.word() as u8,
                1 => list.codes[at] = seed.of(&kinds.unassigned),
                2 => list.values[at] = seed.of(&[1, model::FIELD, u64::MAX]),
                _ => list.codes[at] = seed.of(&kinds.plain),
            }
        }
        whole(run, table, &list, Depth::Some)?;
        if !run.port {
            continue;
        }
        let bad = inputs::bad_table(seed, table);
        whole(run, &bad, &list, Depth::Some)?;
        let read = good_bytes(seed, table, kinds);
        decode(run, &bad, &read, seed.under(3))?;
        let built = model::build(table, &list.codes, &list.values, list.room());
        if built.number == 0 {
            block(run, &bad, &Block::of(&built), Depth::Some)?;
        }
        list.values.push(0);
        whole(run, table, &list, Depth::Some)?;
    }
    Ok(())
}

/// Lent lengths around the need, each output for itself; index lookups in any table.
fn lent(run: &mut Run, seed: &mut Seed, table: &[u8], kinds: &Kinds) -> Done {
    let most = if seed.one_in(20) { 300 } else { 30 };
    let size = 1 + seed.under(most);
    let list = inputs::list(seed, kinds, size);
    let built = model::build(table, &list.codes, &list.values, list.room());
    let good = Block::of(&built);
    let [batches, padded, _] = built.rest;
    let arena = good.arena();
    let encoded = model::encode(table, arena, &vec![0; 7 + 14 * (padded + batches)], 0);
    let bytes = &encoded.buffer[..encoded.rest[0]];
    let around = |need: usize| {
        [
            0,
            1,
            need / 2,
            need.saturating_sub(1),
            need,
            need + 1,
            need + 9,
        ]
    };
    let run_of_records = batches * RECORD;
    let mut rooms = Vec::new();
    for codes in around(padded) {
        rooms.push((codes, padded, run_of_records));
        rooms.push((codes, padded + 5, run_of_records + 81));
    }
    for values in around(padded) {
        rooms.push((padded, values, run_of_records));
    }
    for records in around(run_of_records)
        .into_iter()
        .chain([run_of_records - RECORD, run_of_records + RECORD])
    {
        rooms.push((padded, padded, records));
        rooms.push((padded + 1, padded + 2, records));
    }
    // A fault of the bytes beside a short output.
    let mut damaged = bytes.to_vec();
    inputs::damage(seed, &mut damaged);
    for (codes, values, records) in rooms {
        let room = Room {
            codes,
            values,
            records,
        };
        run.check(Call::Build {
            table,
            codes: &list.codes,
            values: &list.values,
            room,
        })?;
        for bytes in [bytes, &damaged] {
            run.read(Call::Decode {
                table,
                bytes,
                at: 0,
                room,
            })?;
        }
    }
    for room in around(padded + 1).into_iter().chain(around(size + 1)) {
        run.check(Call::RawTable { arena, room })?;
        run.check(Call::PaddedTable { arena, room })?;
    }
    for length in around(bytes.len()) {
        for at in [0, 1, 2] {
            run.check(Call::Encode {
                table,
                arena,
                buffer: &vec![0x33; length],
                at,
            })?;
        }
    }
    let entries: Vec<u64> = (0..seed.under(12) as u64)
        .map(|i| match seed.under(4) {
            0 => u64::MAX - seed.under(16) as u64,
            1 => i,
            2 => i + 1,
            _ => seed.word() >> seed.under(64),
        })
        .collect();
    for at in (0..entries.len() + 2).chain([usize::MAX, usize::MAX - 1]) {
        run.check(Call::PaddedIndex {
            table: &entries,
            raw: at,
        })?;
        run.check(Call::RawIndex {
            table: &entries,
            padded: at,
        })?;
    }
    Ok(())
}
