//! The port's answers. Outputs are lent full of other bytes, so that what is not zeroed shows.

use model::{Answer, Call, RECORD, Room, Source};
use oliastrofu::{Difference, ENTRY, Refusal, Side, boundary, lent::Outputs};

fn dirty(room: Room) -> Answer {
    Answer {
        codes: vec![0xa5; room.codes],
        values: vec![0xa5a5_a5a5_a5a5_a5a5; room.values],
        records: vec![0xa5; room.records],
        ..Answer::default()
    }
}

pub(crate) fn found(found: u8, first: usize, second: usize) -> Answer {
    Answer {
        rest: [usize::from(found), first, second],
        ..Answer::default()
    }
}

/// The port's whole answer, as it crosses the boundary.
pub fn answer(call: Call<'_>) -> Answer {
    match call {
        Call::Build {
            table,
            codes,
            values,
            room,
        } => {
            let mut answer = dirty(room);
            let reply = boundary::build(
                table,
                codes,
                values,
                &mut answer.codes,
                &mut answer.values,
                &mut answer.records,
            );
            answer.number = reply.number;
            answer.place = reply.place;
            answer.rest = [reply.batches, reply.operations, 0];
            answer
        }
        Call::Encode {
            table,
            arena,
            buffer,
            at,
        } => {
            let mut buffer = buffer.to_vec();
            let reply = boundary::encode(
                table,
                arena.codes,
                arena.values,
                arena.records,
                &mut buffer,
                at,
            );
            Answer {
                number: reply.number,
                place: reply.place,
                rest: [reply.length, 0, 0],
                buffer,
                ..Answer::default()
            }
        }
        Call::Decode {
            table,
            bytes,
            at,
            room,
        } => {
            let mut answer = dirty(room);
            let reply = boundary::decode(
                table,
                bytes,
                at,
                &mut answer.codes,
                &mut answer.values,
                &mut answer.records,
            );
            answer.number = reply.number;
            answer.place = reply.place;
            answer.rest = [reply.batches, reply.operations, reply.used];
            answer
        }
        Call::Strict {
            table,
            bytes,
            at,
            room,
        } => {
            let mut answer = dirty(room);
            let reply = boundary::decode_strict(
                table,
                bytes,
                at,
                &mut answer.codes,
                &mut answer.values,
                &mut answer.records,
            );
            answer.number = reply.number;
            answer.place = reply.place;
            answer.rest = [reply.batches, reply.operations, reply.used];
            answer
        }
        Call::Structure { arena } => {
            let reply = boundary::structure(arena.codes, arena.values, arena.records);
            check(reply)
        }
        Call::Padding { arena } => {
            let reply = boundary::padding(arena.codes, arena.values, arena.records);
            check(reply)
        }
        Call::Commitment { table, arena } => {
            let reply = boundary::commitment(table, arena.codes, arena.values, arena.records);
            check(reply)
        }
        Call::RawTable { arena, room } => {
            let mut entries = vec![0xa5a5; room];
            let reply = boundary::raw_table(arena.codes, arena.values, arena.records, &mut entries);
            table(reply, entries)
        }
        Call::PaddedTable { arena, room } => {
            let mut entries = vec![0xa5a5; room];
            let reply =
                boundary::padded_table(arena.codes, arena.values, arena.records, &mut entries);
            table(reply, entries)
        }
        Call::PaddedIndex { table, raw } => {
            let reply = boundary::padded_index(table, raw);
            found(reply.found, reply.index, 0)
        }
        Call::RawIndex { table, padded } => {
            let reply = boundary::raw_index(table, padded);
            found(reply.found, reply.index, 0)
        }
        Call::Group { record, index } => {
            let reply = boundary::group(record, index);
            Answer {
                number: reply.number,
                place: reply.place,
                ..found(reply.found, reply.group, reply.position)
            }
        }
        Call::NextGroup { record, group } => {
            let reply = boundary::next_group(record, group);
            Answer {
                number: reply.number,
                place: reply.place,
                ..found(reply.found, reply.group, 0)
            }
        }
        Call::Compare {
            first,
            second,
            report,
        } => compare(first, second, report),
    }
}

fn source(side: Source<'_>) -> oliastrofu::Source<'_> {
    oliastrofu::Source {
        table: side.table,
        bytes: side.bytes,
        at: side.at,
    }
}

/// Working room and report are lent full of other numbers.
fn compare(first: Source<'_>, second: Source<'_>, report: usize) -> Answer {
    let (mut one, mut two) = (dirty(first.room), dirty(second.room));
    let mut numbers = vec![-0x5a5a_5a5b; report];
    fn lent(room: &mut Answer) -> Outputs<'_> {
        Outputs {
            codes: &mut room.codes,
            values: &mut room.values,
            records: &mut room.records,
        }
    }
    let reply = boundary::compare(
        source(first),
        source(second),
        lent(&mut one),
        lent(&mut two),
        &mut numbers,
    );
    Answer {
        mark: reply.mark,
        number: reply.number,
        place: reply.place,
        rest: [reply.entries, 0, 0],
        codes: [one.codes, two.codes].concat(),
        values: [one.values, two.values].concat(),
        records: [one.records, two.records].concat(),
        report: numbers,
        ..Answer::default()
    }
}

pub(crate) fn check(reply: boundary::CheckReply) -> Answer {
    Answer {
        number: reply.number,
        place: reply.place,
        ..Answer::default()
    }
}

pub(crate) fn table(reply: boundary::TableReply, entries: Vec<u64>) -> Answer {
    Answer {
        number: reply.number,
        place: reply.place,
        rest: [reply.entries, 0, 0],
        entries,
        ..Answer::default()
    }
}

fn refusal(answer: &Answer) -> (u8, usize) {
    (answer.number, answer.place)
}

fn refused(refusal: Refusal) -> (u8, usize) {
    (refusal.number(), refusal.place)
}

/// What `oli_head` says: batches and operations.
pub fn head(table: &[u8], bytes: &[u8], at: usize) -> Answer {
    let reply = boundary::head(table, bytes, at);
    Answer {
        number: reply.number,
        place: reply.place,
        rest: [reply.batches, reply.operations, 0],
        ..Answer::default()
    }
}

/// Do the functions with room of their own say what the model's answer says? The answer is for
/// enough room.
pub fn owned_agrees(call: Call<'_>, answer: &Answer) -> bool {
    match call {
        Call::Build {
            table,
            codes,
            values,
            ..
        } => match oliastrofu::build(table, codes, values) {
            Ok(block) => {
                answer.number == 0
                    && block.codes == answer.codes[..answer.rest[1]]
                    && block.values == answer.values[..answer.rest[1]]
                    && block.records == answer.records[..answer.rest[0] * RECORD]
                    && block.batches().map(|b| b.operations()).sum::<usize>() == answer.rest[1]
            }
            Err(error) => refused(error) == refusal(answer),
        },
        Call::Decode {
            table, bytes, at, ..
        } => match oliastrofu::decode(table, bytes, at) {
            Ok((block, used)) => {
                answer.number == 0
                    && used == answer.rest[2]
                    && block.codes == answer.codes[..answer.rest[1]]
                    && block.values == answer.values[..answer.rest[1]]
                    && block.records == answer.records[..answer.rest[0] * RECORD]
            }
            Err(error) => refused(error) == refusal(answer),
        },
        Call::Strict {
            table, bytes, at, ..
        } => match oliastrofu::decode_strict(table, bytes, at) {
            Ok(read) => {
                let (codes, values) = read.list();
                answer.number == 0
                    && read.used() == answer.rest[2]
                    && read.codes == answer.codes[..answer.rest[1]]
                    && read.values == answer.values[..answer.rest[1]]
                    && read.records == answer.records[..answer.rest[0] * RECORD]
                    && read.listed() == codes.len()
                    && oliastrofu::build(table, &codes, &values).as_ref() == Ok(&*read)
            }
            Err(error) => refused(error) == refusal(answer),
        },
        Call::Encode {
            table, arena, at, ..
        } => match oliastrofu::encode(table, &block(arena)) {
            Ok(bytes) => answer.number == 0 && bytes == answer.buffer[at..at + answer.rest[0]],
            Err(error) => refused(error) == refusal(answer),
        },
        Call::RawTable { arena, .. } => match oliastrofu::raw_table(&block(arena)) {
            Ok(table) => answer.number == 0 && table.0 == answer.entries[..answer.rest[0]],
            Err(error) => refused(error) == refusal(answer),
        },
        Call::PaddedTable { arena, .. } => match oliastrofu::padded_table(&block(arena)) {
            Ok(table) => answer.number == 0 && table.0 == answer.entries[..answer.rest[0]],
            Err(error) => refused(error) == refusal(answer),
        },
        Call::Compare { first, second, .. } => {
            match oliastrofu::compare(source(first), source(second)) {
                Ok(report) => {
                    let (entries, _) = answer.report.as_chunks::<ENTRY>();
                    let said = entries[..answer.rest[0]].iter().copied();
                    answer.number == 0
                        && report.len() == answer.rest[0]
                        && report.differences().eq(said.map(Difference::of_entry))
                        && !report.differences().any(unknown)
                }
                Err(error) => {
                    let side = [None, Some(Side::First), Some(Side::Second)];
                    error.side == side[usize::from(answer.mark)]
                        && refused(error.refusal) == refusal(answer)
                }
            }
        }
        _ => true,
    }
}

fn unknown(difference: Difference) -> bool {
    matches!(difference, Difference::Other(_))
}

fn block(arena: model::Arena<'_>) -> oliastrofu::Block {
    oliastrofu::Block {
        codes: arena.codes.to_vec(),
        values: arena.values.to_vec(),
        records: arena.records.to_vec(),
    }
}
