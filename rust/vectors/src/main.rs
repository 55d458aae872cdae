//! `cargo run --release -p vectors [-- FOLDER]` writes original.txt, model.txt and limits.txt into
//! the folder (default: `../crates/replay/data`, where the program `replay` reads them).

use std::{env, fs, path::Path, process::exit};

fn main() {
    let folder = env::args()
        .nth(1)
        .unwrap_or_else(|| "../crates/replay/data".into());
    let folder = Path::new(&folder);
    let (model, limits) = vectors::of_model();
    let files = [
        ("original.txt", vectors::of_original()),
        ("model.txt", model),
        ("limits.txt", limits),
    ];
    for (name, text) in files {
        if fs::create_dir_all(folder).is_err() || fs::write(folder.join(name), &text).is_err() {
            eprintln!("vectors: the folder can't be written");
            exit(1);
        }
        println!(
            "{name}: {} lines, {} bytes",
            text.lines().count(),
            text.len()
        );
    }
}
