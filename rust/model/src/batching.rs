//! Batching a list (document 01, "Batching").

use crate::{
    call::{Answer, Room},
    data::{
        Batch, MOST_LISTED, NOOP, Operation, RECORD, Refusal, all_admissible, filled, good_table,
        has_immediate, number_of, operations, records_of, refuse,
    },
};

/// A group of an open batch.
enum Group {
    Operations { ops: Vec<Operation>, flag: bool },
    Immediate(u64),
}

/// A batch that is being filled. The next free group is the one after those it has.
struct Open<'a> {
    table: &'a [u8],
    groups: Vec<Group>,
    current: usize,
}

impl<'a> Open<'a> {
    fn new(table: &'a [u8]) -> Self {
        let first = Group::Operations {
            ops: Vec::new(),
            flag: false,
        };
        Self {
            table,
            groups: vec![first],
            current: 0,
        }
    }

    fn next_free(&self) -> usize {
        self.groups.len()
    }

    fn current(&mut self) -> (&mut Vec<Operation>, &mut bool) {
        match &mut self.groups[self.current] {
            Group::Operations { ops, flag } => (ops, flag),
            Group::Immediate(_) => unreachable!("the current group is one of operations"),
        }
    }

    fn fits(&mut self, op: Operation) -> bool {
        let next_free = self.next_free();
        let in_current = self.current().0.len();
        if !has_immediate(self.table, op) {
            in_current < 9 || next_free < 8
        } else if in_current < 8 {
            next_free < 8
        } else {
            next_free + 1 < 8
        }
    }

    fn add(&mut self, op: Operation) {
        let immediate = has_immediate(self.table, op);
        let in_current = self.current().0.len();
        if in_current == 9 || (in_current == 8 && immediate) {
            self.close();
            self.open();
        }
        if immediate {
            self.groups.push(Group::Immediate(op.value));
        }
        self.current().0.push(op);
    }

    fn close(&mut self) {
        let table = self.table;
        let (ops, flag) = self.current();
        let pad = match ops.last() {
            None => true,
            Some(&last) => has_immediate(table, last),
        };
        if pad {
            ops.push(NOOP);
            *flag = true;
        }
    }

    fn open(&mut self) {
        self.current = self.groups.len();
        self.groups.push(Group::Operations {
            ops: Vec::new(),
            flag: false,
        });
    }

    /// The padded operations and the record.
    fn end(mut self) -> (Vec<Operation>, Batch) {
        while !self.next_free().is_power_of_two() {
            self.close();
            self.open();
        }
        self.close();
        let mut all = Vec::new();
        let mut batch = Batch {
            count: self.groups.len() as u8,
            ..Batch::default()
        };
        for i in 0..9 {
            batch.starts[i] = all.len() as u8;
            if i == self.groups.len() {
                // The starts after the count repeat the total, which is what is in `all` now.
                for later in i..9 {
                    batch.starts[later] = all.len() as u8;
                }
                break;
            }
            match &self.groups[i] {
                Group::Operations { ops, flag } => {
                    batch.numbers[i] = number_of(ops);
                    batch.flags[i] = u8::from(*flag);
                    all.extend(ops);
                }
                Group::Immediate(value) => batch.numbers[i] = *value,
            }
        }
        (all, batch)
    }
}

/// The greedy driver: padded operations and batches of a list.
pub(crate) fn batched(table: &[u8], list: &[Operation]) -> (Vec<Operation>, Vec<Batch>) {
    let mut padded = Vec::new();
    let mut batches = Vec::new();
    let mut open = Open::new(table);
    for (i, &op) in list.iter().enumerate() {
        if !open.fits(op) {
            let (ops, batch) = open.end();
            padded.extend(ops);
            batches.push(batch);
            open = Open::new(table);
        }
        open.add(op);
        if i + 1 == list.len() {
            let (ops, batch) = open.end();
            padded.extend(ops);
            batches.push(batch);
            break;
        }
    }
    (padded, batches)
}

fn tried(
    table: &[u8],
    codes: &[u8],
    values: &[u64],
    room: Room,
) -> Result<(Vec<Operation>, Vec<Batch>), Refusal> {
    if codes.len() != values.len() || codes.len() > MOST_LISTED {
        return refuse(3, 0);
    }
    if !good_table(table) {
        return refuse(14, 0);
    }
    if codes.is_empty() {
        return refuse(12, 0);
    }
    let list = operations(codes, values);
    all_admissible(table, &list)?;
    let (padded, batches) = batched(table, &list);
    if room.codes < padded.len()
        || room.values < padded.len()
        || room.records / RECORD < batches.len()
    {
        return refuse(13, 0);
    }
    Ok((padded, batches))
}

/// Batches a list.
pub fn build(table: &[u8], codes: &[u8], values: &[u64], room: Room) -> Answer {
    with_outputs(tried(table, codes, values, room), 0, room)
}

/// The answer of build or decode: outputs with their contents then zeros, or all zero.
pub(crate) fn with_outputs(
    result: Result<(Vec<Operation>, Vec<Batch>), Refusal>,
    used: usize,
    room: Room,
) -> Answer {
    let (mut answer, padded, batches) = match result {
        Err(refusal) => (Answer::refused(refusal), Vec::new(), Vec::new()),
        Ok((padded, batches)) => {
            let answer = Answer {
                rest: [batches.len(), padded.len(), used],
                ..Answer::default()
            };
            (answer, padded, batches)
        }
    };
    answer.codes = filled(padded.iter().map(|op| op.code).collect(), room.codes);
    answer.values = filled(padded.iter().map(|op| op.value).collect(), room.values);
    answer.records = filled(records_of(&batches), room.records);
    answer
}
