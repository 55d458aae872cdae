//! The files can be replayed from their text alone, and those that are kept are the ones that are
//! written today.

use std::{collections::BTreeMap, fs};

use compare::run::strictly;
use model::{Answer, Arena, Call, Function, RECORD, Room, Source, answer};
use vectors::{agree, rest};

/// The numbers of a line.
struct Numbers(Vec<u64>, usize);

impl Numbers {
    fn of(line: &str) -> Self {
        let numbers = line.split(' ').map(|word| {
            let number = u64::from_str_radix(word, 16).expect("a number in hex");
            assert_eq!(format!("{number:x}"), word);
            number
        });
        Self(numbers.collect(), 0)
    }

    fn next(&mut self) -> u64 {
        self.1 += 1;
        self.0[self.1 - 1]
    }

    fn size(&mut self) -> usize {
        self.next() as usize
    }

    fn run(&mut self) -> Vec<u64> {
        let length = self.size();
        let given = self.size();
        assert!(given <= length);
        let mut run: Vec<u64> = (0..given).map(|_| self.next()).collect();
        run.resize(length, run.last().copied().unwrap_or(0));
        run
    }

    fn bytes(&mut self) -> Vec<u8> {
        self.run()
            .into_iter()
            .map(|item| item.try_into().expect("a byte"))
            .collect()
    }

    fn room(&mut self) -> Room {
        Room {
            codes: self.size(),
            values: self.size(),
            records: self.size(),
        }
    }

    fn report(&mut self) -> Vec<i32> {
        let signed = |bits: u64| u32::try_from(bits).expect("32 bits").cast_signed();
        self.run().into_iter().map(signed).collect()
    }

    /// The reply and the outputs.
    fn answer(&mut self, function: Function) -> Answer {
        let mut answer = Answer::default();
        if function == Function::Compare {
            answer.mark = self.next() as u8;
        }
        if !matches!(function, Function::PaddedIndex | Function::RawIndex) {
            answer.number = self.next() as u8;
            answer.place = self.size();
        }
        for i in 0..rest(function) {
            answer.rest[i] = self.size();
        }
        match function {
            Function::Build | Function::Decode | Function::Strict => {
                answer.codes = self.bytes();
                answer.values = self.run();
                answer.records = self.bytes();
            }
            Function::Encode => answer.buffer = self.bytes(),
            Function::RawTable | Function::PaddedTable => answer.entries = self.run(),
            Function::Compare => {
                for _ in 0..2 {
                    answer.codes.extend(self.bytes());
                    answer.values.extend(self.run());
                    answer.records.extend(self.bytes());
                }
                answer.report = self.report();
            }
            _ => {}
        }
        assert_eq!(self.1, self.0.len(), "the line ends here");
        answer
    }
}

/// Have these records a flag at or above a count?
fn has_kept(records: &[u8]) -> bool {
    records.chunks_exact(RECORD).any(|record| {
        let count = usize::from(record[81]);
        record[9..17].iter().skip(count).any(|&flag| flag == 1)
    })
}

/// How many cases each function and number has.
type Seen = BTreeMap<(Function, u8), u32>;

/// Replays a file on the model: all cases, and those of blocks with a flag at or above a count.
fn replay(text: &str) -> (Seen, Seen) {
    let mut table = Vec::new();
    let mut seen = BTreeMap::new();
    let mut kept = BTreeMap::new();
    for line in text.lines() {
        let mut numbers = Numbers::of(line);
        let what = numbers.size();
        if what == 0 {
            table = numbers.bytes();
            continue;
        }
        let function = Function::ALL[what - 1];
        let mut lent_kept = false;
        let (ours, theirs) = match function {
            Function::Build => {
                let (codes, values) = (numbers.bytes(), numbers.run());
                let room = numbers.room();
                let call = Call::Build {
                    table: &table,
                    codes: &codes,
                    values: &values,
                    room,
                };
                (answer(call), numbers.answer(function))
            }
            Function::Decode | Function::Strict => {
                let bytes = numbers.bytes();
                let at = numbers.size();
                let room = numbers.room();
                let decode = Call::Decode {
                    table: &table,
                    bytes: &bytes,
                    at,
                    room,
                };
                let call = match function {
                    Function::Decode => decode,
                    _ => strictly(decode),
                };
                (answer(call), numbers.answer(function))
            }
            Function::Compare => {
                let (first, at) = (numbers.bytes(), numbers.size());
                let first = Source {
                    table: &table,
                    bytes: &first,
                    at,
                    room: numbers.room(),
                };
                let (table, second, at) = (numbers.bytes(), numbers.bytes(), numbers.size());
                let second = Source {
                    table: &table,
                    bytes: &second,
                    at,
                    room: numbers.room(),
                };
                let report = numbers.size();
                let ours = answer(Call::Compare {
                    first,
                    second,
                    report,
                });
                (ours, numbers.answer(function))
            }
            Function::PaddedIndex | Function::RawIndex => {
                let entries = numbers.run();
                let index = numbers.size();
                let call = if function == Function::PaddedIndex {
                    Call::PaddedIndex {
                        table: &entries,
                        raw: index,
                    }
                } else {
                    Call::RawIndex {
                        table: &entries,
                        padded: index,
                    }
                };
                (answer(call), numbers.answer(function))
            }
            Function::Group | Function::NextGroup => {
                let record = numbers.bytes();
                let asked = numbers.size();
                let call = if function == Function::Group {
                    Call::Group {
                        record: &record,
                        index: asked,
                    }
                } else {
                    Call::NextGroup {
                        record: &record,
                        group: asked,
                    }
                };
                (answer(call), numbers.answer(function))
            }
            _ => {
                let (codes, values, records) = (numbers.bytes(), numbers.run(), numbers.bytes());
                lent_kept = has_kept(&records);
                let arena = Arena {
                    codes: &codes,
                    values: &values,
                    records: &records,
                };
                let mut buffer = Vec::new();
                let call = match function {
                    Function::Encode => {
                        buffer = numbers.bytes();
                        Call::Encode {
                            table: &table,
                            arena,
                            buffer: &buffer,
                            at: numbers.size(),
                        }
                    }
                    Function::Structure => Call::Structure { arena },
                    Function::Padding => Call::Padding { arena },
                    Function::Commitment => Call::Commitment {
                        table: &table,
                        arena,
                    },
                    Function::RawTable => Call::RawTable {
                        arena,
                        room: numbers.size(),
                    },
                    _ => Call::PaddedTable {
                        arena,
                        room: numbers.size(),
                    },
                };
                let answers = (answer(call), numbers.answer(function));
                drop(buffer);
                answers
            }
        };
        assert!(agree(&ours, &theirs), "{line}\n{ours:?}\n{theirs:?}");
        *seen.entry((function, theirs.number)).or_default() += 1;
        if lent_kept || has_kept(&theirs.records) {
            *kept.entry((function, theirs.number)).or_default() += 1;
        }
    }
    (seen, kept)
}

/// Each function on a block takes some with a flag at or above a count.
fn each_takes_kept(kept: &Seen, least: u32) {
    for function in [
        Function::Encode,
        Function::Decode,
        Function::Structure,
        Function::Padding,
        Function::Commitment,
        Function::RawTable,
        Function::PaddedTable,
    ] {
        let taken = kept.get(&(function, 0)).copied().unwrap_or(0);
        assert!(taken >= least, "{function:?}: {taken}");
    }
}

fn files() -> [(&'static str, String); 3] {
    let (model, limits) = vectors::of_model();
    [
        ("original.txt", vectors::of_original()),
        ("model.txt", model),
        ("limits.txt", limits),
    ]
}

#[test]
fn each_file_is_small_and_kept_as_written() {
    let folder = concat!(env!("CARGO_MANIFEST_DIR"), "/../../crates/replay/data/");
    for (name, text) in files() {
        assert!(text.len() < 200_000, "{name}: {}", text.len());
        let kept = fs::read_to_string(format!("{folder}{name}")).unwrap_or_default();
        assert!(kept == text, "{name} is not the one that is kept");
    }
}

#[test]
fn each_file_can_be_replayed() {
    let [(_, original), (_, model), (_, limits)] = files();
    let (seen, kept) = replay(&original);
    each_takes_kept(&kept, 7);
    let want: [(Function, &[u8]); 8] = [
        (Function::Build, &[0, 4, 12]),
        (Function::Encode, &[0]),
        (Function::Decode, &[0, 1, 2, 4, 5, 6, 7, 8, 9, 10, 11]),
        (Function::Structure, &[0, 15]),
        (Function::Padding, &[0, 10]),
        (Function::Commitment, &[0, 8, 9, 16]),
        (Function::RawTable, &[0]),
        (Function::NextGroup, &[0]),
    ];
    for (function, numbers) in want {
        for &number in numbers {
            assert!(
                seen.contains_key(&(function, number)),
                "{function:?} {number}"
            );
        }
    }

    // Whether a value is in the field, the stand-in decides.
    assert!(seen.keys().all(|&(_, number)| number != 17));
    // It has no strict decoder, and nothing that compares.
    let ours = |&(function, _): &(Function, u8)| function >= Function::Strict;
    assert!(!seen.keys().any(ours));

    let (mut seen, kept) = replay(&model);
    each_takes_kept(&kept, 5);
    for function in [
        Function::Build,
        Function::Encode,
        Function::Decode,
        Function::Commitment,
    ] {
        for number in [4, 17] {
            let times = seen[&(function, number)];
            assert!(times >= 6, "{function:?} {number}: {times}");
        }
    }
    let times = seen[&(Function::Strict, 18)];
    assert!(times >= 25, "{times}");
    let limits = replay(&limits).0;
    for number in [0, 18] {
        assert!(limits.contains_key(&(Function::Strict, number)), "{number}");
    }
    for number in [0, 13] {
        assert!(
            limits.contains_key(&(Function::Compare, number)),
            "{number}"
        );
    }
    for (key, times) in limits {
        *seen.entry(key).or_default() += times;
    }
    let want: [(Function, &[u8]); 14] = [
        (Function::Build, &[0, 3, 4, 12, 13, 14, 17]),
        (Function::Encode, &[0, 1, 3, 4, 13, 14, 15, 17]),
        (
            Function::Decode,
            &[0, 1, 2, 3, 4, 5, 6, 7, 8, 9, 10, 11, 13, 14, 17],
        ),
        (Function::Structure, &[0, 3, 15]),
        (Function::Padding, &[0, 3, 10, 15]),
        (Function::Commitment, &[0, 3, 4, 8, 9, 14, 15, 16, 17]),
        (Function::RawTable, &[0, 3, 10, 13, 15]),
        (Function::PaddedTable, &[0, 3, 10, 13, 15]),
        (Function::PaddedIndex, &[0]),
        (Function::RawIndex, &[0]),
        (Function::Group, &[0, 3, 15]),
        (Function::NextGroup, &[0, 3, 15]),
        (
            Function::Strict,
            &[0, 1, 2, 3, 4, 5, 6, 7, 8, 9, 10, 11, 13, 14, 17, 18],
        ),
        (
            Function::Compare,
            &[0, 1, 2, 3, 4, 5, 6, 7, 8, 9, 10, 11, 13, 14, 17],
        ),
    ];
    for (function, numbers) in want {
        for &number in numbers {
            assert!(
                seen.contains_key(&(function, number)),
                "{function:?} {number}"
            );
        }
    }
}
