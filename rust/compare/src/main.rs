//! Holds the port against the model on everything, and against the original where the original
//! can answer.
//!
//! `cargo run --release -p compare [-- SEED [COUNT]]`: COUNT is the number of random turns (each
//! of them some dozens of comparisons); the rest is always run whole. The same SEED and COUNT make
//! the same comparisons. Without the feature `port` the model takes the port's place.
//!
//! `cargo run --release -p compare -- answers FILE [SEED [COUNT]]` compares nothing: it writes the
//! port's answers to a file, one line each (see `answers`), on lists that are shorter.

use std::{
    env,
    io::Write as _,
    path::Path,
    process::exit,
    time::{Duration, Instant},
};

use compare::{
    Run, Seed, Stopped,
    answers::Answers,
    pairs,
    run::{Strict, Tally},
    sections,
    theirs::Did,
};
use model::Function;

const SEED: u64 = 1;
const COUNT: u64 = 300_000;
/// Turns whose answers are written.
const WRITTEN: u64 = 2_000;

#[cfg(feature = "port")]
const WHO: (&str, fn(model::Call<'_>) -> model::Answer, bool) =
    ("port", compare::port::answer, true);
#[cfg(not(feature = "port"))]
const WHO: (&str, fn(model::Call<'_>) -> model::Answer, bool) = ("model", model::answer, false);

fn main() {
    let mut args = env::args().skip(1).peekable();
    let file = args
        .next_if(|word| word == "answers")
        .map(|_| args.next().unwrap_or_else(|| fail("answers wants a FILE")));
    let mut number = |usual| match args.next() {
        None => usual,
        Some(word) => word
            .parse()
            .unwrap_or_else(|_| fail("SEED and COUNT are numbers")),
    };
    let seed = number(SEED);
    match file {
        None => compare(seed, number(COUNT)),
        Some(file) => write(Path::new(&file), seed, number(WRITTEN)),
    }
}

fn fail(words: &str) -> ! {
    eprintln!("compare: {words}");
    exit(2)
}

fn compare(seed: u64, count: u64) {
    let (name, answer, port) = WHO;
    let start = Instant::now();
    let mut run = Run::new(answer, port);
    let done = all(&mut run, seed, count, start);
    eprintln!();
    println!(
        "seed {seed}, {count} turns, {} s",
        start.elapsed().as_secs()
    );
    report(&run.tally, name);
    if let Err(Stopped(words)) = done {
        println!("\nUNEXPLAINED DIFFERENCE: {words}");
        exit(1);
    }
    println!(
        "\n{} comparisons, 0 unexplained differences",
        run.tally.total()
    );
}

fn write(file: &Path, seed: u64, count: u64) {
    let (name, answer, _) = WHO;
    let mut run = Run::new(answer, true);
    let unwritten = |error| -> ! { fail(&format!("{}: {error}", file.display())) };
    run.answers = Some(Answers::create(file).unwrap_or_else(|error| unwritten(error)));
    let done = all(&mut run, seed, count, Instant::now());
    eprintln!();
    if let Err(Stopped(words)) = done {
        fail(&words);
    }
    println!("seed {seed}, {count} turns");
    numbers(&run.tally, name);
    let lines = run.answers.map_or(Ok(0), Answers::finish);
    println!(
        "\n{} answers",
        lines.unwrap_or_else(|error| unwritten(error))
    );
}

fn all(run: &mut Run, seed: u64, count: u64, start: Instant) -> Result<(), Stopped> {
    let mut last = start;
    let mut line = |run: &Run, what: &str| {
        if last.elapsed() > Duration::from_millis(500) {
            last = Instant::now();
            eprint!(
                "\r{:>5} s  {:>12} comparisons  {what:<40}",
                start.elapsed().as_secs(),
                run.tally.total()
            );
            let _ = std::io::stderr().flush();
        }
    };
    // A file of answers would be too long with all lists.
    let [four, two, flags] = match run.answers {
        None => [7, 17, 4],
        Some(_) => [4, 9, 2],
    };
    if run.port {
        sections::cases(run)?;
    }
    sections::four_kinds(run, four, &mut |run| line(run, "all lists over four kinds"))?;
    sections::two_kinds(run, two, &mut |run| line(run, "all lists over two kinds"))?;
    sections::flags_above(run, flags, &mut |run| {
        line(run, "flags at or above the count")
    })?;
    if run.answers.is_none() {
        sections::unfinished(run, 4, &mut |run| {
            line(run, "blocks that no batching makes")
        })?;
    }
    line(run, "operations at fault");
    sections::operations(run, 3)?;
    line(run, "small blocks");
    sections::changes(run)?;
    line(run, "limits");
    sections::limits(run)?;
    let mut seed = Seed::new(seed);
    for turn in 0..count {
        line(run, &format!("turn {turn} of {count}"));
        sections::turn(run, &mut seed)?;
    }
    // Of their own, so that what is asked above stays as it was.
    for turn in 0..if run.answers.is_none() { count / 16 } else { 0 } {
        line(run, &format!("twist {turn} of {}", count / 16));
        sections::unfinished_turn(run, &mut seed)?;
    }
    let short = if run.answers.is_none() { 2 } else { 1 };
    pairs::pairs(run, short, &mut |run| line(run, "two blocks"))?;
    if run.answers.is_none() {
        line(run, "two blocks at the limits");
        pairs::limits(run)?;
    }
    for turn in 0..count / 32 {
        line(run, &format!("pair {turn} of {}", count / 32));
        pairs::turn(run, &mut seed)?;
    }
    Ok(())
}

fn report(tally: &Tally, name: &str) {
    println!("\nCOMPARISONS");
    println!(
        "{:<14}{:>14}{:>14}{:>16}",
        "function",
        "port, model",
        "bytes, model",
        &format!("{name}, original")
    );
    for function in Function::ALL {
        let at = function as usize;
        println!(
            "{:<14}{:>14}{:>14}{:>16}",
            function.name(),
            tally.model[at],
            tally.bytes[at],
            tally.original[at]
        );
    }
    let heads: u64 = tally.heads.iter().sum();
    println!("{:<14}{:>14}", "head", heads);
    println!(
        "{:<14}{:>14}{:>14}{:>16}",
        "all",
        tally.model.iter().sum::<u64>() + heads,
        tally.bytes.iter().sum::<u64>(),
        tally.original.iter().sum::<u64>()
    );

    numbers(tally, name);

    println!("\nKNOWN DIFFERENCES (docs/DIFFERENCES.md)");
    for ((function, fault, number, did), times) in &tally.known {
        let ours = match number {
            0 => "none".to_string(),
            number => number.to_string(),
        };
        let theirs = match did {
            Did::Answers => "answers".to_string(),
            Did::Refuses(number) => format!("refuses with {number}"),
            Did::Panics => "panics".to_string(),
            Did::NotCalled => "would ask for any memory, not called".to_string(),
        };
        println!(
            "{times:>10}  {}: {}: document 01 {ours}, original {theirs}",
            function.name(),
            fault.words()
        );
    }
    println!("\nBLOCKS WITH A FLAG AT OR ABOVE THE GROUP COUNT (compared with the original)");
    println!(
        "{:<14}{:>14}{:>16}",
        "function", "compared", "taken by both"
    );
    for function in Function::ALL {
        let at = function as usize;
        if tally.kept[at] > 0 {
            println!(
                "{:<14}{:>14}{:>16}",
                function.name(),
                tally.kept[at],
                tally.kept_taken[at]
            );
        }
    }
    println!(
        "\nSTRICT READING (by the request's words: the block's own list is batched and written again)"
    );
    for what in Strict::ALL {
        println!("{:>10}  {}", tally.strict[what as usize], what.words());
    }
    reported(tally);
    println!("\nNOT COMPARED WITH THE ORIGINAL");
    for (why, times) in &tally.not_asked {
        println!("{times:>10}  {why}");
    }
    println!(
        "{:>10}  place of a structure refusal whose sum is wrong (the number is compared)",
        tally.places
    );
}

/// What compare said of two blocks.
fn reported(tally: &Tally) {
    println!("\nCOMPARE (by the request's words, and by what the original shows of two blocks)");
    println!("{:>10}  pairs of blocks", tally.pairs);
    let kinds = [
        "reports of nothing",
        "entries: a number",
        "entries: a flag",
        "entries: a length",
        "entries: an operation",
        "entries: a group count",
        "entries: a missing batch",
        "entries: batches",
        "entries: padded operations",
        "entries: raw operations",
        "entries: paddings",
    ];
    for (times, what) in tally.reported.iter().zip(kinds) {
        println!("{times:>10}  {what}");
    }
    let whose = [
        "the report is too short",
        "the first block",
        "the second block",
    ];
    for (times, what) in tally.marked.iter().zip(whose) {
        println!("{times:>10}  refused: {what}");
    }
}

fn numbers(tally: &Tally, name: &str) {
    println!("\nANSWERS (of the {name}, by number of refusal; 0 is none)");
    let line = |name: &str, numbers: &[u64]| {
        let parts: Vec<String> = numbers
            .iter()
            .enumerate()
            .filter(|(_, times)| **times > 0)
            .map(|(number, times)| format!("{number}: {times}"))
            .collect();
        println!("{name:<14}{}", parts.join("  "));
    };
    for function in Function::ALL {
        line(function.name(), &tally.numbers[function as usize]);
    }
    line("head", &tally.heads);
}
