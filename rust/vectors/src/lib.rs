//! Fixed cases with their answers, as text that a program without strings or heap can replay.
//!
//! # Format
//!
//! One case to a line; a line is numbers and nothing else. A number is in hex, small letters, no
//! leading zeros, under 2^64; between two numbers is one space, after the last a line feed. The
//! first number says what the line is:
//!
//! | first | what | lent | reply | outputs |
//! |---|---|---|---|---|
//! | 0 | the table for all lines after it | RUN | | |
//! | 1 | build | RUN opcodes, RUN values, room for opcodes, values, bytes of records | number, place, batches, operations | RUN opcodes, RUN values, RUN records |
//! | 2 | encode | RUN opcodes, RUN values, RUN records, RUN buffer, position | number, place, length | RUN buffer, whole |
//! | 3 | decode | RUN bytes, offset, room for opcodes, values, bytes of records | number, place, batches, operations, used | RUN opcodes, RUN values, RUN records |
//! | 4, 5, 6 | structure, padding, commitment | RUN opcodes, RUN values, RUN records | number, place | |
//! | 7, 8 | raw table, padded table | RUN opcodes, RUN values, RUN records, room for entries | number, place, entries | RUN entries |
//! | 9, a | padded index, raw index | RUN entries, index | found, index | |
//! | b | group | RUN record, index | number, place, found, group, position | |
//! | c | next group | RUN record, group | number, place, found, group | |
//! | d | decode strict | as decode | as decode | as decode |
//! | e | compare | for the first block as decode; RUN table of the second, then as decode; length of the report | mark, number, place, entries | for each block as decode, then RUN report |
//!
//! A RUN is its length, then how many of its items are given, then those items. The items after
//! them are all like the last one given, or 0 if none is. Build, encode, decode, decode strict,
//! commitment and the first block of compare work under the table of the last line with 0. Outputs are
//! whole, in the lent lengths. A number of a report is given as its 32 bits: -1 is ffffffff.
//!
//! In original.txt the numbers are the original's own, and a place of ffffffffffffffff says that
//! the original names none. That the totals are 0 and the outputs zero where it refuses is
//! document 01's: the original has no lent outputs. In model.txt and limits.txt everything is the
//! model's. limits.txt has the cases with a run of over 4,096 items.

use std::{collections::BTreeMap, fmt::Write as _};

use compare::{
    Seed,
    inputs::{self, Block, Kinds, List},
    theirs,
};
use model::{Answer, Arena, Call, Function, RECORD, Room, Source};
use original::Refused;

/// The place where the original names none.
pub const NO_PLACE: usize = usize::MAX;

/// Runs longer than this go to limits.txt.
const LONG: usize = 4_096;

// WRITING
// ================================================================================================

/// A file: lines, and the table that the last of them works under.
#[derive(Default)]
pub struct File {
    pub text: String,
    table: Option<Vec<u8>>,
}

struct Line(String);

impl Line {
    fn number(&mut self, number: u64) {
        let space = if self.0.is_empty() { "" } else { " " };
        let _ = write!(self.0, "{space}{number:x}");
    }

    fn size(&mut self, size: usize) {
        self.number(size as u64);
    }

    fn run<T: Copy + Into<u64>>(&mut self, run: &[T]) {
        let mut given = run.len();
        let item = |at: usize| -> u64 { run[at].into() };
        while given > 1 && item(given - 1) == item(given - 2) {
            given -= 1;
        }
        if given == 1 && item(0) == 0 {
            given = 0;
        }
        self.size(run.len());
        self.size(given);
        for at in 0..given {
            self.number(item(at));
        }
    }

    fn arena(&mut self, arena: Arena<'_>) {
        self.run(arena.codes);
        self.run(arena.values);
        self.run(arena.records);
    }

    /// A block's bytes, its offset and its room.
    fn source(&mut self, source: Source<'_>) {
        self.run(source.bytes);
        self.size(source.at);
        self.room(source.room);
    }

    fn report(&mut self, report: &[i32]) {
        let bits: Vec<u32> = report.iter().map(|n| n.cast_unsigned()).collect();
        self.run(&bits);
    }

    fn room(&mut self, room: Room) {
        self.size(room.codes);
        self.size(room.values);
        self.size(room.records);
    }
}

impl File {
    fn under(&mut self, table: &[u8]) {
        if self.table.as_deref() != Some(table) {
            self.table = Some(table.to_vec());
            let mut line = Line(String::new());
            line.number(0);
            line.run(table);
            self.line(line);
        }
    }

    fn line(&mut self, line: Line) {
        self.text.push_str(&line.0);
        self.text.push('\n');
    }

    /// Adds a case.
    pub fn put(&mut self, call: Call<'_>, answer: &Answer) {
        let mut line = Line(String::new());
        line.size(call.function() as usize + 1);
        match call {
            Call::Build {
                table,
                codes,
                values,
                room,
            } => {
                self.under(table);
                line.run(codes);
                line.run(values);
                line.room(room);
            }
            Call::Encode {
                table,
                arena,
                buffer,
                at,
            } => {
                self.under(table);
                line.arena(arena);
                line.run(buffer);
                line.size(at);
            }
            Call::Decode {
                table,
                bytes,
                at,
                room,
            }
            | Call::Strict {
                table,
                bytes,
                at,
                room,
            } => {
                self.under(table);
                line.run(bytes);
                line.size(at);
                line.room(room);
            }
            Call::Structure { arena } | Call::Padding { arena } => line.arena(arena),
            Call::Commitment { table, arena } => {
                self.under(table);
                line.arena(arena);
            }
            Call::RawTable { arena, room } | Call::PaddedTable { arena, room } => {
                line.arena(arena);
                line.size(room);
            }
            Call::PaddedIndex { table, raw: index }
            | Call::RawIndex {
                table,
                padded: index,
            } => {
                line.run(table);
                line.size(index);
            }
            Call::Group { record, index } => {
                line.run(record);
                line.size(index);
            }
            Call::NextGroup { record, group } => {
                line.run(record);
                line.size(group);
            }
            Call::Compare {
                first,
                second,
                report,
            } => {
                self.under(first.table);
                line.source(first);
                line.run(second.table);
                line.source(second);
                line.size(report);
            }
        }
        if call.function() == Function::Compare {
            line.number(answer.mark.into());
        }
        let refusal = !matches!(call, Call::PaddedIndex { .. } | Call::RawIndex { .. });
        if refusal {
            line.number(answer.number.into());
            line.size(answer.place);
        }
        for &number in &answer.rest[..rest(call.function())] {
            line.size(number);
        }
        match call.function() {
            Function::Build | Function::Decode | Function::Strict => {
                line.run(&answer.codes);
                line.run(&answer.values);
                line.run(&answer.records);
            }
            Function::Encode => line.run(&answer.buffer),
            Function::RawTable | Function::PaddedTable => line.run(&answer.entries),
            _ => {}
        }
        if let Call::Compare { first, .. } = call {
            let Room {
                codes,
                values,
                records,
            } = first.room;
            let (codes, values, records) = (
                answer.codes.split_at(codes),
                answer.values.split_at(values),
                answer.records.split_at(records),
            );
            line.arena(Arena {
                codes: codes.0,
                values: values.0,
                records: records.0,
            });
            line.arena(Arena {
                codes: codes.1,
                values: values.1,
                records: records.1,
            });
            line.report(&answer.report);
        }
        self.line(line);
    }
}

/// How many numbers a reply has after number and place.
pub fn rest(function: Function) -> usize {
    match function {
        Function::Structure | Function::Padding | Function::Commitment => 0,
        Function::Encode | Function::RawTable | Function::PaddedTable | Function::Compare => 1,
        Function::Build | Function::PaddedIndex | Function::RawIndex | Function::NextGroup => 2,
        Function::Decode | Function::Group | Function::Strict => 3,
    }
}

// THE MODEL'S CASES
// ================================================================================================

fn longest(call: Call<'_>) -> usize {
    let arena = |arena: Arena<'_>| {
        arena
            .codes
            .len()
            .max(arena.values.len())
            .max(arena.records.len())
    };
    match call {
        Call::Build { codes, values, .. } => codes.len().max(values.len()),
        Call::Encode {
            arena: lent,
            buffer,
            ..
        } => arena(lent).max(buffer.len()),
        Call::Decode { bytes, .. } | Call::Strict { bytes, .. } => bytes.len(),
        Call::Compare { first, second, .. } => first.bytes.len().max(second.bytes.len()),
        Call::Structure { arena: lent }
        | Call::Padding { arena: lent }
        | Call::Commitment { arena: lent, .. }
        | Call::RawTable { arena: lent, .. }
        | Call::PaddedTable { arena: lent, .. } => arena(lent),
        _ => 0,
    }
}

/// model.txt and limits.txt: every refusal of every function, and all that is taken; of the pairs of
/// faults, one for every two numbers of a function.
pub fn of_model() -> (String, String) {
    let mut small = File::default();
    let mut large = File::default();
    let mut pairs = BTreeMap::new();
    model::cases::all(&mut |case| {
        let long = longest(case.call) > LONG;
        if let Some(pair) = case.pair {
            let seen: &mut u32 = pairs.entry((case.call.function(), pair, long)).or_default();
            *seen += 1;
            if *seen > 1 {
                return;
            }
        }
        let answer = model::answer(case.call);
        assert_eq!((answer.number, answer.place), (case.number, case.place));
        let file = if long { &mut large } else { &mut small };
        file.put(case.call, &answer);
    });
    (small.text, large.text)
}

// THE ORIGINAL'S CASES
// ================================================================================================

/// What the original answers, in the form of a reply; none where it panics.
fn refused(refused: &Refused) -> Option<Answer> {
    (!refused.panicked && refused.number != 0).then(|| Answer {
        number: refused.number,
        place: refused.place.unwrap_or(NO_PLACE),
        ..Answer::default()
    })
}

/// The original's answer in lent outputs.
fn outputs(mut answer: Answer, batches: &[original::Batch], room: Room) -> Answer {
    let flat = theirs::flat(batches);
    if answer.number == 0 {
        answer.rest[0] = batches.len();
        answer.rest[1] = flat.codes.len();
    }
    answer.codes = flat.codes;
    answer.codes.resize(room.codes, 0);
    answer.values = flat.values;
    answer.values.resize(room.values, 0);
    answer.records = flat.records;
    answer.records.resize(room.records, 0);
    answer
}

/// Asks the original; none where it can't be asked.
fn ask(call: Call<'_>) -> Option<Answer> {
    let checked = |answer: Result<(), Refused>| match answer {
        Ok(()) => Some(Answer::default()),
        Err(error) => refused(&error),
    };
    match call {
        Call::Build {
            codes,
            values,
            room,
            ..
        } => {
            let list: Vec<_> = codes.iter().copied().zip(values.iter().copied()).collect();
            match original::batch(&list) {
                Ok(batches) => Some(outputs(Answer::default(), &batches, room)),
                Err(error) => Some(outputs(refused(&error)?, &[], room)),
            }
        }
        Call::Encode {
            arena, buffer, at, ..
        } => {
            let bytes = original::encode(&theirs::batches(arena)?).ok()?;
            let mut after = buffer.to_vec();
            after[at..at + bytes.len()].copy_from_slice(&bytes);
            Some(Answer {
                rest: [bytes.len(), 0, 0],
                buffer: after,
                ..Answer::default()
            })
        }
        Call::Decode {
            bytes, at, room, ..
        } => match original::decode(bytes, at as u32) {
            Ok((batches, used)) => {
                let answer = Answer {
                    rest: [0, 0, used],
                    ..Answer::default()
                };
                Some(outputs(answer, &batches, room))
            }
            Err(error) => Some(outputs(refused(&error)?, &[], room)),
        },
        Call::Structure { arena } => checked(original::structure(&theirs::batches(arena)?)),
        Call::Padding { arena } => checked(original::padding(&theirs::batches(arena)?)),
        Call::Commitment { arena, .. } => checked(original::commitment(&theirs::batches(arena)?)),
        Call::RawTable { arena, room } | Call::PaddedTable { arena, room } => {
            let batches = theirs::batches(arena)?;
            let entries = match call {
                Call::RawTable { .. } => original::raw_table(&batches),
                _ => original::padded_table(&batches),
            }
            .ok()?;
            let mut table: Vec<u64> = entries.iter().map(|&entry| entry as u64).collect();
            table.resize(room, 0);
            Some(Answer {
                rest: [entries.len(), 0, 0],
                entries: table,
                ..Answer::default()
            })
        }
        // They need a block: `lookups`.
        Call::PaddedIndex { .. } | Call::RawIndex { .. } => None,
        // The original has no strict decoder, and nothing that compares.
        Call::Strict { .. } | Call::Compare { .. } => None,
        Call::Group { record, index } => {
            let found = original::op_idx_in_batch_to_group(&one(record)?, index).ok()?;
            Some(match found {
                None => Answer::default(),
                Some((group, position)) => Answer {
                    rest: [1, group, position],
                    ..Answer::default()
                },
            })
        }
        Call::NextGroup { record, group } => {
            let found = original::next_op_group_index(&one(record)?, group).ok()?;
            Some(match found {
                None => Answer::default(),
                Some(next) => Answer {
                    rest: [1, next, 0],
                    ..Answer::default()
                },
            })
        }
    }
}

/// A batch of plain operations.
fn one(record: &[u8]) -> Option<original::Batch> {
    let batch = model::Batch::of_record(record);
    let ops = vec![(2, 0); batch.total()];
    theirs::batch(&batch, ops)
}

/// Do the two say the same, as far as the original says it?
pub fn agree(model: &Answer, original: &Answer) -> bool {
    let mut model = model.clone();
    if original.place == NO_PLACE {
        model.place = NO_PLACE;
    }
    model == *original
}

struct Original {
    file: File,
    table: Vec<u8>,
    kinds: Kinds,
}

impl Original {
    /// Adds the original's answer, if it is not one of the known differences.
    fn put(&mut self, call: Call<'_>) -> Option<Answer> {
        let answer = ask(call)?;
        if !agree(&model::answer(call), &answer) {
            return None;
        }
        self.file.put(call, &answer);
        Some(answer)
    }

    /// Everything about a list.
    fn list(&mut self, list: &List) {
        let table = self.table.clone();
        let mut room = list.room();
        room.records += 3;
        let Some(built) = self.put(Call::Build {
            table: &table,
            codes: &list.codes,
            values: &list.values,
            room,
        }) else {
            return;
        };
        if built.number == 0 {
            self.block(&Block::of(&built));
        }
    }

    fn block(&mut self, block: &Block) {
        if let Some((raw, padded)) = self.runs(block) {
            self.indices(block.arena(), &raw, &padded);
        }
        for record in block.records.chunks_exact(RECORD).take(2) {
            let total = usize::from(record[8]);
            for index in [0, total / 2, total.saturating_sub(1), total] {
                self.put(Call::Group { record, index });
            }
            for group in [0, 2, 6] {
                self.put(Call::NextGroup { record, group });
            }
        }
    }

    /// A block's bytes there and back, its checks and its two tables.
    fn runs(&mut self, block: &Block) -> Option<(Answer, Answer)> {
        let table = self.table.clone();
        let arena = block.arena();
        let length = original::length(&theirs::batches(arena)?).ok()?;
        if let Some(written) = self.put(Call::Encode {
            table: &table,
            arena,
            buffer: &vec![0xaa; length + 3],
            at: 2,
        }) {
            self.put(Call::Decode {
                table: &table,
                bytes: &written.buffer,
                at: 2,
                room: Room {
                    codes: block.codes.len(),
                    values: block.values.len() + 1,
                    records: block.records.len(),
                },
            });
        }
        self.checks(arena);
        let room = block.codes.len() + 1;
        let raw = self.put(Call::RawTable { arena, room });
        let padded = self.put(Call::PaddedTable { arena, room });
        raw.zip(padded)
    }

    /// A block whose batch has these flags at or above its count.
    fn kept(&mut self, list: &List, flags: &[usize]) {
        let built = model::build(&self.table, &list.codes, &list.values, list.room());
        let mut block = Block::of(&built);
        if list.codes.is_empty() {
            // A batch without groups.
            block.records = model::Batch::default().record();
        }
        for &group in flags {
            assert!(group >= usize::from(block.records[81]));
            block.records[9 + group] = 1;
        }
        self.runs(&block);
    }

    fn checks(&mut self, arena: Arena<'_>) {
        let table = self.table.clone();
        self.put(Call::Structure { arena });
        self.put(Call::Padding { arena });
        self.put(Call::Commitment {
            table: &table,
            arena,
        });
    }

    fn indices(&mut self, arena: Arena<'_>, raw: &Answer, padded: &Answer) {
        let Some(batches) = theirs::batches(arena) else {
            return;
        };
        for (entries, there) in [
            (&raw.entries[..raw.rest[0]], true),
            (&padded.entries[..padded.rest[0]], false),
        ] {
            for index in [0, entries.len() / 2, entries.len() - 1] {
                let (call, found) = if there {
                    (
                        Call::PaddedIndex {
                            table: entries,
                            raw: index,
                        },
                        original::raw_to_padded(&batches, &[index]),
                    )
                } else {
                    (
                        Call::RawIndex {
                            table: entries,
                            padded: index,
                        },
                        original::padded_to_raw(&batches, &[index]),
                    )
                };
                if let Ok(found) = found {
                    let answer = Answer {
                        rest: [1, found[0], 0],
                        ..Answer::default()
                    };
                    assert_eq!(answer, model::answer(call));
                    self.file.put(call, &answer);
                }
            }
        }
    }

    /// Damaged blocks and records, some for each number of refusal.
    fn refusals(&mut self) {
        let table = self.table.clone();
        let mut seed = Seed::new(36);
        let mut seen: BTreeMap<(Function, u8), u32> = BTreeMap::new();
        for _ in 0..40_000 {
            let mut bytes = inputs::crafted(&mut seed, &table, &self.kinds);
            if bytes.len() > 80 {
                continue;
            }
            let good = bytes.clone();
            inputs::damage(&mut seed, &mut bytes);
            let at = seed.under(2);
            let call = Call::Decode {
                table: &table,
                bytes: &bytes,
                at,
                room: Room {
                    codes: 80,
                    values: 80,
                    records: 16 * RECORD,
                },
            };
            let answer = model::answer(call);
            // What the stand-in decides is not the original's: the form and the end of a count, and
            // whether a value is in the field.
            let stand_in =
                [3, 17].contains(&answer.number) || (answer.number == 2 && answer.place == at);
            let times = seen.entry((Function::Decode, answer.number)).or_default();
            if !stand_in && *times < 6 && self.put(call).is_some() {
                *times += 1;
            }

            let read = model::decode(
                &table,
                &good,
                0,
                Room {
                    codes: 80,
                    values: 80,
                    records: 16 * RECORD,
                },
            );
            if read.number != 0 || read.rest[0] > 3 {
                continue;
            }
            let mut block = Block::of(&read);
            inputs::damage_block(&mut seed, &mut block, &self.kinds);
            let arena = block.arena();
            for call in [
                Call::Structure { arena },
                Call::Padding { arena },
                Call::Commitment {
                    table: &table,
                    arena,
                },
            ] {
                let number = model::answer(call).number;
                let times = seen.entry((call.function(), number)).or_default();
                if number != 0 && *times < 5 && self.put(call).is_some() {
                    *times += 1;
                }
            }
        }
        // A flag at or above the count, and what comes later: operations left over, a batch that
        // runs past the operations, a flagged group that does not end in Noop.
        for (bytes, number) in [
            (&[3, 2, 1, 0, 0, 0, 0, 0, 0, 0, 1][..], 11),
            (&[3, 2, 2, 0, 0, 0, 1, 0, 0, 0, 1, 0, 0, 0, 2, 0], 7),
            (&[5, 2, 2, 2, 0, 0, 0, 1, 0, 0, 0, 1, 0, 0, 0, 0xfe, 1], 10),
        ] {
            let refused = self.put(Call::Decode {
                table: &table,
                bytes,
                at: 0,
                room: Room {
                    codes: 2,
                    values: 2,
                    records: 2 * RECORD,
                },
            });
            assert_eq!(refused.map(|answer| answer.number), Some(number));
        }
        // Past the end, by one and by more.
        for at in [6, 7, 4_294_967_295] {
            self.put(Call::Decode {
                table: &table,
                bytes: &[1, 0, 0, 0, 0],
                at,
                room: Room {
                    codes: 1,
                    values: 1,
                    records: 1,
                },
            });
        }
    }
}

/// original.txt.
pub fn of_original() -> String {
    let table = original::table().to_vec();
    let kinds = Kinds::of(&table);
    let (plain, push, carried) = (2, kinds.immediate[0], kinds.carried[0]);
    let mut all = Original {
        file: File::default(),
        table,
        kinds,
    };
    let of = |parts: &[(u8, usize)]| {
        let mut list = List::default();
        for &(code, times) in parts {
            for i in 0..times {
                let value = if code == push || code == carried {
                    5 + i as u64
                } else {
                    0
                };
                list.push(code, value);
            }
        }
        list
    };
    for parts in [
        &[][..],
        &[(push, 1)],
        &[(plain, 9)],
        &[(plain, 10)],
        &[(plain, 19)],
        &[(plain, 8), (push, 1)],
        &[(plain, 9), (push, 1)],
        &[(push, 2)],
        &[(push, 7)],
        &[(push, 8)],
        &[(push, 7), (plain, 2)],
        &[(push, 7), (plain, 3)],
        &[(plain, 62), (push, 1)],
        &[(plain, 63), (push, 1)],
        &[(plain, 72)],
        &[(plain, 73)],
        &[(plain, 71), (push, 2)],
        &[(carried, 2)],
        &[(plain, 1), (0, 1)],
        &[(0, 1)],
        &[(0, 9), (push, 1), (0, 2)],
        // Not operations of the original: unassigned, past 127.
        &[(plain, 2), (6, 1)],
        &[(200, 1)],
    ] {
        all.list(&of(parts));
    }
    for (parts, flags) in [
        (&[][..], &[0][..]),
        (&[], &[0, 1, 2, 3, 4, 5, 6, 7]),
        (&[(plain, 2)], &[1]),
        (&[(push, 1)], &[2]),
        (&[(push, 1)], &[2, 3, 4, 5, 6, 7]),
        (&[(plain, 9), (push, 1)], &[7]),
        (&[(push, 2)], &[4, 6]),
    ] {
        all.kept(&of(parts), flags);
    }
    let mut seed = Seed::new(2024);
    for size in [3, 5, 8, 12, 17, 25, 40, 80] {
        let list = inputs::list(&mut seed, &all.kinds, size);
        all.list(&list);
    }
    all.refusals();
    all.file.text
}
