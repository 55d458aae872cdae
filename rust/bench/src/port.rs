//! The port's functions: on room that is lent once and filled again by every call, with room of
//! their own, and over bytes alone.

use std::{hint::black_box, rc::Rc};

use oliastrofu::{
    Block, ENTRY, Source, le,
    lent::{self, Outputs},
};

use crate::{lists::List, timing::Task};

/// Room of a block's own lengths.
struct Room(Block);

impl Room {
    fn of(block: &Block) -> Self {
        Self(Block {
            codes: vec![0; block.codes.len()],
            values: vec![0; block.values.len()],
            records: vec![0; block.records.len()],
        })
    }

    fn lent(&mut self) -> Outputs<'_> {
        Outputs {
            codes: &mut self.0.codes,
            values: &mut self.0.values,
            records: &mut self.0.records,
        }
    }
}

/// A list, its block and the block's bytes.
struct Prepared {
    table: [u8; 128],
    codes: Vec<u8>,
    values: Vec<u64>,
    block: Rc<Block>,
    bytes: Vec<u8>,
    /// Of the other list.
    other: Vec<u8>,
}

/// The bytes of a list's block.
fn written(table: &[u8], list: &List) -> Vec<u8> {
    let (codes, values): (Vec<u8>, Vec<u64>) = list.ops.iter().copied().unzip();
    let block = oliastrofu::build(table, &codes, &values).expect("the list is good");
    oliastrofu::encode(table, &block).expect("the block is good")
}

fn source<'a>(table: &'a [u8], bytes: &'a [u8]) -> Source<'a> {
    Source {
        table,
        bytes,
        at: 0,
    }
}

impl Prepared {
    fn new(list: &List) -> Self {
        let table = original::table();
        let (codes, values): (Vec<u8>, Vec<u64>) = list.ops.iter().copied().unzip();
        let block = Rc::new(oliastrofu::build(&table, &codes, &values).expect("the list is good"));
        let bytes = oliastrofu::encode(&table, &block).expect("the block is good");
        let finished = oliastrofu::decode_strict(&table, &bytes, 0).expect("it was built");
        assert_eq!(finished.listed(), codes.len());
        let other = written(&table, &list.other());
        let report = oliastrofu::compare(source(&table, &bytes), source(&table, &other));
        let report = report.expect("both are good");
        // In each batch a number and an operation or two, and in nothing else.
        assert!((1..=2).contains(&(report.len() / block.batches().len())));
        Self {
            table,
            codes,
            values,
            block,
            bytes,
            other,
        }
    }

    /// The block's bytes, beside a copy and beside the other's.
    fn pairs(&self) -> [Two; 2] {
        let of = |names: [&'static str; 2], other: &[u8]| Two {
            names,
            table: self.table,
            one: self.bytes.clone(),
            other: other.to_vec(),
        };
        [
            of(["decodes same", "compare same"], &self.bytes),
            of(["decodes other", "compare other"], &self.other),
        ]
    }

    /// A large buffer with the block in it, and its place.
    fn among_others(&self) -> (Vec<u8>, usize) {
        let mut buffer = vec![221; 1_048_576];
        let at = 4_096;
        buffer[at..][..self.bytes.len()].copy_from_slice(&self.bytes);
        (buffer, at)
    }
}

/// Two blocks' bytes, and what their tasks are called: to read both, and to compare them.
#[derive(Clone)]
struct Two {
    names: [&'static str; 2],
    table: [u8; 128],
    one: Vec<u8>,
    other: Vec<u8>,
}

impl Two {
    fn sources(&self) -> [Source<'_>; 2] {
        [&self.one, &self.other].map(|bytes| source(&self.table, bytes))
    }

    /// On room that is lent once: of the blocks' own lengths, and for five entries to a batch and four.
    fn lent(self, block: &Block) -> [Task; 2] {
        let [decodes, compare] = self.names;
        let mut rooms = [Room::of(block), Room::of(block)];
        let mut work = [Room::of(block), Room::of(block)];
        let mut report = vec![0; ENTRY * (5 * block.batches().len() + 4)];
        let two = self.clone();
        [
            Task::new(decodes, move || {
                let [one, other] = black_box(&mut rooms);
                let [first, second] = black_box(&self).sources();
                [(first, one), (second, other)].map(|(source, room)| {
                    lent::decode(source.table, source.bytes, source.at, room.lent())
                })
            }),
            Task::new(compare, move || {
                let [one, other] = black_box(&mut work);
                let [first, second] = black_box(&two).sources();
                let report = black_box(&mut report);
                lent::compare(first, second, one.lent(), other.lent(), report)
                    .map(|differences| differences.len())
            }),
        ]
    }

    /// With room of their own.
    fn owned(self) -> [Task; 2] {
        let [decodes, compare] = self.names;
        let two = self.clone();
        [
            Task::new(decodes, move || {
                let sources = black_box(&self).sources();
                sources.map(|source| oliastrofu::decode(source.table, source.bytes, source.at))
            }),
            Task::new(compare, move || {
                let [first, second] = black_box(&two).sources();
                oliastrofu::compare(first, second)
            }),
        ]
    }
}

pub fn tasks(list: &List) -> Vec<Task> {
    let prepared = Prepared::new(list);
    let (buffer, at) = prepared.among_others();
    let pairs = prepared.pairs();
    let Prepared {
        table,
        codes,
        values,
        block,
        bytes,
        ..
    } = prepared;
    let mut built = Room::of(&block);
    let mut read = Room::of(&block);
    let mut finished = Room::of(&block);
    let strictly = bytes.clone();
    let mut found = Room::of(&block);
    let mut written = vec![0; bytes.len()];
    let on_block = |function, call: fn(&Block) -> Result<(), oliastrofu::Refusal>| {
        let block = block.clone();
        Task::new(function, move || call(black_box(&block)))
    };
    let mut raw = oliastrofu::raw_table(&block).expect("the block is good").0;
    let mut padded = oliastrofu::padded_table(&block)
        .expect("the block is good")
        .0;
    let mut tasks: Vec<Task> = pairs.into_iter().flat_map(|two| two.lent(&block)).collect();
    tasks.extend([
        Task::new("build", move || {
            lent::build(
                &table,
                black_box(&codes),
                black_box(&values),
                black_box(&mut built).lent(),
            )
        }),
        Task::new("encode", {
            let block = block.clone();
            move || {
                let out = black_box(&mut written);
                lent::encode(&table, black_box(&block).arena(), out, 0)
            }
        }),
        Task::new("decode", move || {
            lent::decode(&table, black_box(&bytes), 0, black_box(&mut read).lent())
        }),
        Task::new("strict", move || {
            let out = black_box(&mut finished).lent();
            lent::decode_strict(&table, black_box(&strictly), 0, out).map(|read| read.used())
        }),
        Task::new("decode, 1 MiB", move || {
            lent::decode(&table, black_box(&buffer), at, black_box(&mut found).lent())
        }),
        on_block("structure", oliastrofu::structure),
        on_block("padding", oliastrofu::padding),
        Task::new("commitment", {
            let block = block.clone();
            move || oliastrofu::commitment(&table, black_box(&block))
        }),
        Task::new("raw table", {
            let block = block.clone();
            move || lent::raw_table(black_box(&block).arena(), black_box(&mut raw))
        }),
        Task::new("padded table", {
            let block = block.clone();
            move || lent::padded_table(black_box(&block).arena(), black_box(&mut padded))
        }),
    ]);
    tasks
}

/// Where the port makes the room.
pub fn owned(list: &List) -> Vec<Task> {
    let prepared = Prepared::new(list);
    let (buffer, at) = prepared.among_others();
    let mut tasks: Vec<Task> = prepared.pairs().into_iter().flat_map(Two::owned).collect();
    let Prepared {
        table,
        codes,
        values,
        bytes,
        ..
    } = prepared;
    let strictly = bytes.clone();
    tasks.extend([
        Task::new("build", move || {
            oliastrofu::build(&table, black_box(&codes), black_box(&values))
        }),
        Task::new("decode", move || {
            oliastrofu::decode(&table, black_box(&bytes), 0)
        }),
        Task::new("strict", move || {
            oliastrofu::decode_strict(&table, black_box(&strictly), 0)
        }),
        Task::new("decode, 1 MiB", move || {
            oliastrofu::decode(&table, black_box(&buffer), at)
        }),
    ]);
    tasks
}

/// Over bytes alone, on room that is lent once.
pub fn bytes(list: &List) -> Vec<Task> {
    struct Bytes {
        codes: Vec<u8>,
        values: Vec<u8>,
        records: Vec<u8>,
    }
    impl Bytes {
        fn of(block: &Block) -> Self {
            Self {
                codes: block.codes.clone(),
                values: of(&block.values),
                records: block.records.clone(),
            }
        }
        fn lent(&mut self) -> le::Outputs<'_> {
            le::Outputs {
                codes: &mut self.codes,
                values: &mut self.values,
                records: &mut self.records,
            }
        }
        fn arena(&self) -> le::Arena<'_> {
            le::Arena {
                codes: &self.codes,
                values: &self.values,
                records: &self.records,
            }
        }
    }
    fn of(numbers: &[u64]) -> Vec<u8> {
        numbers.iter().flat_map(|n| n.to_le_bytes()).collect()
    }
    let Prepared {
        table,
        codes,
        values,
        block,
        bytes,
        ..
    } = Prepared::new(list);
    let values = of(&values);
    let lent = Rc::new(Bytes::of(&block));
    let mut built = Bytes::of(&block);
    let mut read = Bytes::of(&block);
    let mut finished = Bytes::of(&block);
    let strictly = bytes.clone();
    let mut written = vec![0; bytes.len()];
    let mut raw = of(&oliastrofu::raw_table(&block).expect("the block is good").0);
    let mut padded = of(&oliastrofu::padded_table(&block)
        .expect("the block is good")
        .0);
    let with = |function, mut call: Box<dyn FnMut(le::Arena<'_>) -> bool>| {
        let lent = lent.clone();
        Task::new(function, move || call(black_box(&lent).arena()))
    };
    vec![
        Task::new("build", move || {
            let out = black_box(&mut built).lent();
            le::build(&table, black_box(&codes), black_box(&values), out)
        }),
        with(
            "encode",
            Box::new(move |arena| le::encode(&table, arena, black_box(&mut written), 0).is_ok()),
        ),
        Task::new("decode", move || {
            le::decode(&table, black_box(&bytes), 0, black_box(&mut read).lent())
        }),
        Task::new("strict", move || {
            let out = black_box(&mut finished).lent();
            le::decode_strict(&table, black_box(&strictly), 0, out).map(|read| read.used())
        }),
        with("structure", Box::new(|arena| le::structure(arena).is_ok())),
        with("padding", Box::new(|arena| le::padding(arena).is_ok())),
        with(
            "commitment",
            Box::new(move |arena| le::commitment(&table, arena).is_ok()),
        ),
        with(
            "raw table",
            Box::new(move |arena| le::raw_table(arena, black_box(&mut raw)).is_ok()),
        ),
        with(
            "padded table",
            Box::new(move |arena| le::padded_table(arena, black_box(&mut padded)).is_ok()),
        ),
    ]
}
