//! Times the original on lists of operations, and with the feature `port` the port beside it.
//!
//! `cargo run --release -p bench [-- SIZES [ROUNDS]]`, for example `-- 100,1000,16384 1000`.
//!
//! All contenders for one function on one list take turns in the same run. A turn is one sample:
//! as many calls as make about 16,384 operations, under one reading of the clock; what the calls
//! give back is freed after the clock has stopped. The table has the best and the median of the
//! samples, in nanoseconds per operation of the list.
//!
//! `strict` is the strict decoder on a finished block. The original has none: there it stands for
//! decode, the list without padding, its batches, and the comparison of the two. After each list
//! comes what strictness costs the port: (strict - decode) / build, of the best samples.
//!
//! `compare` is the comparison of two blocks, `decodes` that of reading both and no more: with a copy of
//! the same block (`same`), and with one of the same size that differs in each batch (`other`). The
//! original has none: there it stands for reading both and asking of each batch whether the two are
//! equal. After each list comes what comparing costs beside reading: (compare - decodes) / decodes.

mod floor;
mod lists;
mod original;
#[cfg(feature = "port")]
mod port;
mod timing;

use std::{collections::BTreeMap, env, process::exit};

use lists::{List, Mix};
use timing::{Task, compare};

/// One who is timed: a name, and what it does on a list, prepared and ready to be called.
struct Contender {
    name: &'static str,
    tasks: fn(&List) -> Vec<Task>,
}

/// The first is the one the others are held against; the port's own forms are held against the
/// port's too. `port` lends room, `own room` makes it, `bytes` lends runs of bytes alone.
const CONTENDERS: &[Contender] = &[
    Contender {
        name: "original",
        tasks: original::tasks,
    },
    #[cfg(feature = "port")]
    Contender {
        name: "port",
        tasks: port::tasks,
    },
    #[cfg(feature = "port")]
    Contender {
        name: "own room",
        tasks: port::owned,
    },
    #[cfg(feature = "port")]
    Contender {
        name: "bytes",
        tasks: port::bytes,
    },
    Contender {
        name: "copy",
        tasks: floor::tasks,
    },
];

const FUNCTIONS: [&str; 14] = [
    "build",
    "encode",
    "decode",
    "strict",
    "decodes same",
    "compare same",
    "decodes other",
    "compare other",
    "decode, 1 MiB",
    "structure",
    "padding",
    "commitment",
    "raw table",
    "padded table",
];

fn main() {
    let mut args = env::args().skip(1);
    let sizes = args.next().unwrap_or_else(|| "100,1000,16384".into());
    let Some(sizes) = sizes
        .split(',')
        .map(|n| n.parse().ok().filter(|n| (1..=16_384).contains(n)))
        .collect::<Option<Vec<usize>>>()
    else {
        stop("SIZES are numbers from 1 to 16384 with commas between");
    };
    let rounds = args.next().unwrap_or_else(|| "1000".into());
    let Some(rounds) = rounds.parse().ok().filter(|n| (1..=100_000).contains(n)) else {
        stop("ROUNDS is a number from 1 to 100000");
    };

    println!(
        "ns per operation: best, median (best held against the first's best, and against the port's)"
    );
    for size in sizes {
        for mix in Mix::ALL {
            let list = List::new(mix, size);
            println!("\n{size} operations, {}", mix.name());
            let mut all: Vec<(&str, Vec<Task>)> = CONTENDERS
                .iter()
                .map(|c| (c.name, (c.tasks)(&list)))
                .collect();
            let mut bests = BTreeMap::new();
            for function in FUNCTIONS {
                let mut taking_part: Vec<(&str, &mut Task)> = all
                    .iter_mut()
                    .filter_map(|(name, tasks)| {
                        Some((*name, tasks.iter_mut().find(|t| t.function == function)?))
                    })
                    .collect();
                let best = compare(function, size, rounds, &mut taking_part);
                bests.extend(
                    best.into_iter()
                        .map(|(name, best)| ((name, function), best)),
                );
            }
            shares(&bests);
        }
    }
}

/// What strictness costs beside build, and comparing beside two decodes.
fn shares(bests: &BTreeMap<(&str, &str), f64>) {
    let best = |name, function| bests.get(&(name, function)).copied();
    let names = || {
        CONTENDERS
            .iter()
            .map(|c| c.name)
            .filter(|&name| name != "copy")
    };
    for name in names() {
        if let (Some(build), Some(decode), Some(strict)) = (
            best(name, "build"),
            best(name, "decode"),
            best(name, "strict"),
        ) {
            let cost = (strict - decode) / build;
            println!("  (strict - decode) / build  {name:<10} {cost:5.2}");
        }
    }
    for (which, decodes, compare) in [
        ("same", "decodes same", "compare same"),
        ("other", "decodes other", "compare other"),
    ] {
        for name in names() {
            if let (Some(decodes), Some(compare)) = (best(name, decodes), best(name, compare)) {
                let cost = (compare - decodes) / decodes;
                println!("  (compare - decodes) / decodes, {which:<5}  {name:<10} {cost:5.2}");
            }
        }
    }
}

fn stop(line: &str) -> ! {
    eprintln!("bench: {line}");
    exit(2)
}
