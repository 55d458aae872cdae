//! Files of answers: the same for the same answers, and nothing of an answer is left out.

use std::{fs, path::Path};

use compare::{
    Run, Seed, Stopped,
    answers::{Answers, Form},
    pairs,
    run::strictly,
    sections,
};
use model::{Answer, Call, Room, Source};

type Who = fn(Call<'_>) -> Answer;

/// The lines of a small run.
fn lines(name: &str, who: Who) -> Vec<String> {
    let path = Path::new(env!("CARGO_TARGET_TMPDIR")).join(name);
    let mut run = Run::new(who, true);
    run.answers = Some(Answers::create(&path).expect("a file"));
    let mut seed = Seed::new(7);
    let mut all = || {
        sections::cases(&mut run)?;
        sections::operations(&mut run, 2)?;
        (0..60).try_for_each(|_| sections::turn(&mut run, &mut seed))?;
        (0..2).try_for_each(|_| pairs::turn(&mut run, &mut seed))
    };
    all().unwrap_or_else(|Stopped(words)| panic!("{words}"));
    let written = run.answers.expect("they are written").finish();
    let text = fs::read_to_string(&path).expect("the file");
    fs::remove_file(&path).expect("the file is there");
    let lines: Vec<String> = text.lines().map(str::to_string).collect();
    assert_eq!(written.expect("all is written"), lines.len() as u64);
    lines
}

/// A line with 17 read as 4, where it is the number of refusal.
fn read_as_4(line: &str) -> String {
    let mut words: Vec<&str> = line.split(' ').collect();
    assert_eq!(words.len(), 8, "{line}");
    if words[2] == "17" {
        words[2] = "4";
    }
    words.join(" ")
}

fn with_4_for_17(call: Call<'_>) -> Answer {
    let mut answer = model::answer(call);
    if answer.number == 17 {
        answer.number = 4;
    }
    answer
}

#[test]
fn what_is_asked_does_not_depend_on_the_number() {
    let now = lines("now", model::answer);
    assert!(now == lines("again", model::answer));
    let before = lines("before", with_4_for_17);
    assert_eq!(now.len(), before.len());
    let mut read = 0;
    for (now, before) in now.iter().zip(&before) {
        assert_eq!(read_as_4(now), read_as_4(before));
        read += u32::from(now != before);
    }
    assert!(read > 500, "{read}");
}

/// The third word alone is the number: a place or a length of 17 stays.
#[test]
fn every_part_of_an_answer_has_its_word() {
    let call = Call::Decode {
        table: &[0; 128],
        bytes: &[17; 17],
        at: 17,
        room: Room {
            codes: 17,
            values: 17,
            records: 17,
        },
    };
    let good = Answer {
        number: 17,
        place: 17,
        rest: [17; 3],
        codes: vec![17; 17],
        values: vec![17; 17],
        records: vec![17; 17],
        buffer: vec![17; 17],
        entries: vec![17; 17],
        ..Answer::default()
    };
    let path = Path::new(env!("CARGO_TARGET_TMPDIR")).join("words");
    let line = |form, call: Call<'_>, answer: &Answer| {
        let mut answers = Answers::create(&path).expect("a file");
        answers.put(form, call, Some(answer)).expect("a line");
        assert_eq!(answers.finish().expect("the file's end"), 1);
        fs::read_to_string(&path).expect("the file")
    };
    let whole = line(Form::Numbers, call, &good);
    let words: Vec<&str> = whole.split_whitespace().collect();
    assert_eq!(words[2..7], ["17"; 5]);
    assert_eq!(read_as_4(whole.trim_end()).matches(" 17").count(), 4);

    let changes: [fn(&mut Answer); 12] = [
        |a| a.number = 4,
        |a| a.place = 4,
        |a| a.rest[0] = 4,
        |a| a.rest[1] = 4,
        |a| a.rest[2] = 4,
        |a| a.codes[16] = 16,
        |a| a.codes.push(17),
        |a| a.values[3] ^= 1 << 63,
        |a| a.records[0] = 0,
        |a| a.buffer[7] = 4,
        |a| a.buffer.clear(),
        |a| a.entries.truncate(16),
    ];
    for (i, change) in changes.iter().enumerate() {
        let mut other = good.clone();
        change(&mut other);
        assert_ne!(line(Form::Numbers, call, &other), whole, "{i}");
    }
    let other = Call::Decode {
        table: &[0; 128],
        bytes: &[17; 17],
        at: 16,
        room: Room {
            codes: 17,
            values: 17,
            records: 17,
        },
    };
    assert_ne!(line(Form::Numbers, other, &good), whole);
    assert!(line(Form::Head, call, &good).starts_with("head "));
    let form = Form::Bytes { more: 0, left: 3 };
    assert!(line(form, call, &good).starts_with("decode_le "));
    let strict = strictly(call);
    assert!(line(Form::Numbers, strict, &good).starts_with("decode_strict "));
    assert!(line(form, strict, &good).starts_with("decode_strict_le "));
    compare_has_its_words(|call, answer| line(Form::Numbers, call, answer));
    fs::remove_file(&path).expect("the file is there");
}

/// A line of compare has entries and mark, and nothing of its answer and of what it is lent is left
/// out.
fn compare_has_its_words(line: impl Fn(Call<'_>, &Answer) -> String) {
    let side = Source {
        table: &[0; 128],
        bytes: &[17; 17],
        at: 17,
        room: Room {
            codes: 17,
            values: 17,
            records: 17,
        },
    };
    let call = |first, second, report| Call::Compare {
        first,
        second,
        report,
    };
    let answer = Answer {
        number: 6,
        place: 5,
        mark: 2,
        rest: [3, 0, 0],
        report: vec![-1; 17],
        ..Answer::default()
    };
    let whole = line(call(side, side, 17), &answer);
    let words: Vec<&str> = whole.split_whitespace().collect();
    assert_eq!(words[0], "compare");
    assert_eq!(words[2..7], ["6", "5", "3", "2", "0"]);
    let changes: [fn(&mut Answer); 5] = [
        |a| a.mark = 1,
        |a| a.rest[0] = 4,
        |a| a.report[16] = 1,
        |a| a.report.truncate(16),
        |a| a.report.clear(),
    ];
    for (i, change) in changes.iter().enumerate() {
        let mut other = answer.clone();
        change(&mut other);
        assert_ne!(line(call(side, side, 17), &other), whole, "{i}");
    }
    let other = Source { at: 16, ..side };
    assert_ne!(line(call(other, side, 17), &answer), whole);
    assert_ne!(line(call(side, other, 17), &answer), whole);
    assert_ne!(line(call(side, side, 16), &answer), whole);
}
