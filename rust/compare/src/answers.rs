//! The port's answers as lines of a file, so that those of two libraries can be held together.
//!
//! A line is eight words with one space between two: the export, a digest of all that it was lent,
//! the number of refusal, the place, the three other numbers of the reply, and a digest of the
//! outputs. What a reply does not have is 0; compare has its entries and its mark. What is asked depends on whether an earlier answer was
//! a refusal, and never on its number.

use std::{
    fs::File,
    io::{self, BufWriter, Write as _},
    path::Path,
};

use model::{Answer, Arena, Call, Function, Room, Source};

/// A form of a function: on numbers, over bytes (with bytes left over in inputs and outputs), or
/// the head of a block to decode.
#[derive(Clone, Copy)]
pub enum Form {
    Numbers,
    Bytes { more: usize, left: usize },
    Head,
}

pub struct Answers {
    to: BufWriter<File>,
    pub lines: u64,
}

impl Answers {
    pub fn create(path: &Path) -> io::Result<Self> {
        let to = BufWriter::new(File::create(path)?);
        Ok(Self { to, lines: 0 })
    }

    /// Writes a line; no answer is one whose left over bytes are not zeroed.
    pub fn put(&mut self, form: Form, call: Call<'_>, answer: Option<&Answer>) -> io::Result<()> {
        self.lines += 1;
        let name = export(form, call.function());
        let lent = lent(form, call);
        let Some(answer) = answer else {
            return writeln!(self.to, "{name} {lent:016x} not zeroed");
        };
        let [first, mut second, third] = answer.rest;
        if call.function() == Function::Compare {
            second = answer.mark.into();
        }
        writeln!(
            self.to,
            "{name} {lent:016x} {} {} {first} {second} {third} {:016x}",
            answer.number,
            answer.place,
            outputs(answer)
        )
    }

    pub fn finish(mut self) -> io::Result<u64> {
        self.to.flush()?;
        Ok(self.lines)
    }
}

fn export(form: Form, function: Function) -> String {
    match form {
        Form::Numbers => function.name().replace(' ', "_"),
        Form::Bytes { .. } => function.name().replace(' ', "_") + "_le",
        Form::Head => "head".into(),
    }
}

/// FNV-1a over 64-bit numbers.
struct Digest(u64);

impl Digest {
    fn new() -> Self {
        Self(0xcbf2_9ce4_8422_2325)
    }

    fn number(&mut self, number: u64) {
        self.0 = (self.0 ^ number).wrapping_mul(0x0100_0000_01b3);
        // Its multiplication carries upwards only.
        self.0 ^= self.0 >> 32;
    }

    fn size(&mut self, size: usize) {
        self.number(size as u64);
    }

    /// A run, after its length.
    fn run<T: Copy + Into<u64>>(&mut self, run: &[T]) {
        self.size(run.len());
        for &item in run {
            self.number(item.into());
        }
    }

    fn arena(&mut self, arena: Arena<'_>) {
        self.run(arena.codes);
        self.run(arena.values);
        self.run(arena.records);
    }

    fn source(&mut self, source: Source<'_>) {
        self.run(source.table);
        self.run(source.bytes);
        self.size(source.at);
        self.room(source.room);
    }

    fn room(&mut self, room: Room) {
        self.size(room.codes);
        self.size(room.values);
        self.size(room.records);
    }
}

fn outputs(answer: &Answer) -> u64 {
    let mut digest = Digest::new();
    digest.run(&answer.codes);
    digest.run(&answer.values);
    digest.run(&answer.records);
    digest.run(&answer.buffer);
    digest.run(&answer.entries);
    // Only compare has one: without it the digest is that of the other outputs alone.
    if !answer.report.is_empty() {
        let numbers: Vec<u32> = answer.report.iter().map(|n| n.cast_unsigned()).collect();
        digest.run(&numbers);
    }
    digest.0
}

fn lent(form: Form, call: Call<'_>) -> u64 {
    let mut digest = Digest::new();
    if let Form::Bytes { more, left } = form {
        digest.size(more);
        digest.size(left);
    }
    match call {
        Call::Build {
            table,
            codes,
            values,
            room,
        } => {
            digest.run(table);
            digest.run(codes);
            digest.run(values);
            digest.room(room);
        }
        Call::Encode {
            table,
            arena,
            buffer,
            at,
        } => {
            digest.run(table);
            digest.arena(arena);
            digest.run(buffer);
            digest.size(at);
        }
        Call::Decode {
            table,
            bytes,
            at,
            room,
        }
        | Call::Strict {
            table,
            bytes,
            at,
            room,
        } => {
            digest.run(table);
            digest.run(bytes);
            digest.size(at);
            digest.room(room);
        }
        Call::Structure { arena } | Call::Padding { arena } => digest.arena(arena),
        Call::Commitment { table, arena } => {
            digest.run(table);
            digest.arena(arena);
        }
        Call::RawTable { arena, room } | Call::PaddedTable { arena, room } => {
            digest.arena(arena);
            digest.size(room);
        }
        Call::PaddedIndex { table, raw: index }
        | Call::RawIndex {
            table,
            padded: index,
        } => {
            digest.run(table);
            digest.size(index);
        }
        Call::Group { record, index: at } | Call::NextGroup { record, group: at } => {
            digest.run(record);
            digest.size(at);
        }
        Call::Compare {
            first,
            second,
            report,
        } => {
            digest.source(first);
            digest.source(second);
            digest.size(report);
        }
    }
    digest.0
}
