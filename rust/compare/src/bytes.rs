//! The port's functions over bytes. Outputs are lent full of other bytes, so that what is not zeroed
//! shows.

use model::{Answer, Call, Room};
use oliastrofu::boundary::le;

use crate::port::{check, found, table};

/// Numbers as bytes, and some bytes more.
fn bytes(numbers: &[u64], more: usize) -> Vec<u8> {
    let mut bytes: Vec<u8> = numbers.iter().flat_map(|n| n.to_le_bytes()).collect();
    bytes.resize(bytes.len() + more, 0);
    bytes
}

/// The numbers of a filled output; none if a byte left over is not 0.
fn numbers(bytes: &[u8]) -> Option<Vec<u64>> {
    let (whole, left) = bytes.as_chunks();
    let clear = left.iter().all(|&byte| byte == 0);
    clear.then(|| whole.iter().map(|n| u64::from_le_bytes(*n)).collect())
}

/// The answer to a call whose numbers cross as bytes: `more` bytes after those of an input, `left`
/// after those of an output. None if the function has no numbers to cross, or if a byte left over
/// is not zeroed.
pub fn answer(call: Call<'_>, more: usize, left: usize) -> Option<Answer> {
    let answer = match call {
        Call::Build {
            table,
            codes,
            values,
            room,
        } => filled(room, left, |codes_out, values_out, records| {
            let values = bytes(values, more);
            let reply = le::build(table, codes, &values, codes_out, values_out, records);
            Answer {
                number: reply.number,
                place: reply.place,
                rest: [reply.batches, reply.operations, 0],
                ..Answer::default()
            }
        })?,
        Call::Decode {
            table,
            bytes,
            at,
            room,
        } => filled(room, left, |codes, values, records| {
            let reply = le::decode(table, bytes, at, codes, values, records);
            Answer {
                number: reply.number,
                place: reply.place,
                rest: [reply.batches, reply.operations, reply.used],
                ..Answer::default()
            }
        })?,
        Call::Strict {
            table,
            bytes,
            at,
            room,
        } => filled(room, left, |codes, values, records| {
            let reply = le::decode_strict(table, bytes, at, codes, values, records);
            Answer {
                number: reply.number,
                place: reply.place,
                rest: [reply.batches, reply.operations, reply.used],
                ..Answer::default()
            }
        })?,
        Call::Encode {
            table,
            arena,
            buffer,
            at,
        } => {
            let mut buffer = buffer.to_vec();
            let values = bytes(arena.values, more);
            let reply = le::encode(table, arena.codes, &values, arena.records, &mut buffer, at);
            Answer {
                number: reply.number,
                place: reply.place,
                rest: [reply.length, 0, 0],
                buffer,
                ..Answer::default()
            }
        }
        Call::Structure { arena } => {
            let values = bytes(arena.values, more);
            check(le::structure(arena.codes, &values, arena.records))
        }
        Call::Padding { arena } => {
            let values = bytes(arena.values, more);
            check(le::padding(arena.codes, &values, arena.records))
        }
        Call::Commitment { table, arena } => {
            let values = bytes(arena.values, more);
            check(le::commitment(table, arena.codes, &values, arena.records))
        }
        Call::RawTable { arena, room } => {
            let mut entries = vec![0xa5; 8 * room + left];
            let values = bytes(arena.values, more);
            let reply = le::raw_table(arena.codes, &values, arena.records, &mut entries);
            table(reply, numbers(&entries)?)
        }
        Call::PaddedTable { arena, room } => {
            let mut entries = vec![0xa5; 8 * room + left];
            let values = bytes(arena.values, more);
            let reply = le::padded_table(arena.codes, &values, arena.records, &mut entries);
            table(reply, numbers(&entries)?)
        }
        Call::PaddedIndex { table, raw } => {
            let reply = le::padded_index(&bytes(table, more), raw);
            found(reply.found, reply.index, 0)
        }
        Call::RawIndex { table, padded } => {
            let reply = le::raw_index(&bytes(table, more), padded);
            found(reply.found, reply.index, 0)
        }
        Call::Group { .. } | Call::NextGroup { .. } | Call::Compare { .. } => return None,
    };
    Some(answer)
}

/// Has outputs of this room filled, the values as bytes.
fn filled(
    room: Room,
    left: usize,
    call: impl FnOnce(&mut [u8], &mut [u8], &mut [u8]) -> Answer,
) -> Option<Answer> {
    let mut codes = vec![0xa5; room.codes];
    let mut values = vec![0xa5; 8 * room.values + left];
    let mut records = vec![0xa5; room.records];
    let answer = call(&mut codes, &mut values, &mut records);
    Some(Answer {
        codes,
        values: numbers(&values)?,
        records,
        ..answer
    })
}

/// What is to be answered where an input is not whole numbers; none where there is no such input.
pub fn broken(call: Call<'_>) -> Option<Answer> {
    let refused = Answer {
        number: 3,
        ..Answer::default()
    };
    match call {
        Call::Build { room, .. } => Some(Answer {
            codes: vec![0; room.codes],
            values: vec![0; room.values],
            records: vec![0; room.records],
            ..refused
        }),
        Call::Encode { buffer, .. } => Some(Answer {
            buffer: buffer.to_vec(),
            ..refused
        }),
        Call::Structure { .. } | Call::Padding { .. } | Call::Commitment { .. } => Some(refused),
        Call::RawTable { room, .. } | Call::PaddedTable { room, .. } => Some(Answer {
            entries: vec![0; room],
            ..refused
        }),
        Call::PaddedIndex { .. } | Call::RawIndex { .. } => Some(Answer::default()),
        Call::Decode { .. }
        | Call::Strict { .. }
        | Call::Group { .. }
        | Call::NextGroup { .. }
        | Call::Compare { .. } => None,
    }
}

/// Whether a call over bytes is worth its time: all that are refused, and of the others an eighth;
/// of lookups in long tables less.
pub fn worth(call: Call<'_>, answer: &Answer, turn: u64) -> bool {
    let every = match call {
        Call::Group { .. } | Call::NextGroup { .. } | Call::Compare { .. } => return false,
        Call::PaddedIndex { table, .. } | Call::RawIndex { table, .. } if table.len() > 64 => 512,
        _ => 8,
    };
    answer.number != 0 || turn.is_multiple_of(every)
}
