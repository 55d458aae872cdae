//! Lays out the original's files, byte for byte, beside the one file that they name as a child
//! module and that was not published, so that the compiler finds both in one folder.
//!
//! The folder is named by ORIGINAL_SRC (a relative name counts from the root of the repository).
//! Without it: `../shared/docs/src`, then `../../shared/docs/src`, from the root of the
//! repository.

use std::{
    env,
    fmt::Write as _,
    fs,
    path::{Path, PathBuf},
    process::exit,
};

/// The files of the original that are compiled.
const FILES: [&str; 4] = [
    "operations/mod.rs",
    "mast/node/basic_block_node/mod.rs",
    "mast/node/basic_block_node/op_batch.rs",
    "mast/serialization/basic_blocks.rs",
];

const DEFAULTS: [&str; 2] = ["../shared/docs/src", "../../shared/docs/src"];

fn main() {
    println!("cargo::rerun-if-env-changed=ORIGINAL_SRC");
    println!("cargo::rerun-if-changed=build.rs");
    println!("cargo::rerun-if-changed=src/standin/debug_metadata.rs");

    let out = PathBuf::from(env::var_os("OUT_DIR").expect("cargo sets OUT_DIR"));
    let source = folder();
    let mut texts = String::new();
    for name in FILES {
        let from = source.join(name);
        println!("cargo::rerun-if-changed={}", from.display());
        let text = fs::read(&from)
            .unwrap_or_else(|_| refuse(&format!("ORIGINAL_SRC has no readable file {name}")));
        put(&out.join(name), &text);
        let lines = text.iter().filter(|&&b| b == b'\n').count();
        writeln!(
            texts,
            "    ({name:?}, {lines}, {:#018x}),",
            fingerprint(&text)
        )
        .expect("a String takes all");
    }
    put(&out.join("texts.in"), format!("[\n{texts}]\n").as_bytes());

    // The child module of operations/mod.rs that was not published.
    let standin = fs::read("src/standin/debug_metadata.rs").expect("it is part of this crate");
    put(&out.join("operations/debug_metadata.rs"), &standin);

    // basic_blocks.rs begins with inner comments, so it can be a module but can't be included.
    put(
        &out.join("mast/serialization/modules.in"),
        b"pub(super) mod basic_blocks;\n",
    );
}

/// The folder with the original's files.
fn folder() -> PathBuf {
    let root =
        PathBuf::from(env::var_os("CARGO_MANIFEST_DIR").expect("cargo sets it")).join("../..");
    match env::var_os("ORIGINAL_SRC") {
        Some(named) => {
            let named = root.join(named);
            if !named.is_dir() {
                refuse("the folder that ORIGINAL_SRC names is not there");
            }
            named
        }
        None => DEFAULTS
            .iter()
            .map(|d| root.join(d))
            .find(|d| d.is_dir())
            .unwrap_or_else(|| {
                refuse(&format!(
                    "the original's files are not there: set ORIGINAL_SRC to the folder that holds \
                 operations/ and mast/ (looked in {}, from the root of the repository)",
                    DEFAULTS.join(" and ")
                ))
            }),
    }
}

fn put(to: &Path, text: &[u8]) {
    let folder = to.parent().expect("every file lies in a folder");
    fs::create_dir_all(folder).expect("OUT_DIR can be written");
    fs::write(to, text).expect("OUT_DIR can be written");
}

/// FNV-1a over 64 bits: tells one text from another, nothing more.
fn fingerprint(text: &[u8]) -> u64 {
    text.iter().fold(0xcbf2_9ce4_8422_2325, |h, &b| {
        (h ^ u64::from(b)).wrapping_mul(0x0100_0000_01b3)
    })
}

fn refuse(line: &str) -> ! {
    println!("cargo::error={line}");
    exit(0)
}
