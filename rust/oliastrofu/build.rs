//! Finds the static library, or has it made, and links it under this project's name.
//!
//! It is `libexports.a` in the folder that OLIASTROFU_LIB names (a relative name counts from the
//! root of the repository), or without that in `target/staticlib` of the repository. There
//! `tools/staticlib` makes it if it is not there, or is not of the sources as they are: beside
//! it stands `libexports.sum`, a sum of the library and one of the sources it was made of. Without
//! `rt` on the PATH an older library is linked, and a warning says so.

use std::{
    collections::BTreeSet,
    env, fs, io,
    path::{Path, PathBuf},
    process::{Command, Stdio, exit},
};

const LIBRARY: &str = "libexports.a";
const SUM: &str = "libexports.sum";
/// The name to link; two projects' `libexports.a` would be taken for each other.
const NAME: &str = "oliastrofu_exports";

fn main() {
    println!("cargo::rerun-if-changed=build.rs");
    println!("cargo::rerun-if-env-changed=OLIASTROFU_LIB");
    println!("cargo::rerun-if-env-changed=PATH");
    if env::var_os("CARGO_FEATURE_MODEL_SHIM").is_some() {
        return;
    }
    let root =
        PathBuf::from(env::var_os("CARGO_MANIFEST_DIR").expect("cargo sets it")).join("../..");
    let sources = sources(&root).unwrap_or_else(|line| stop(&line));
    let named = env::var_os("OLIASTROFU_LIB");
    let folder = match &named {
        Some(named) => root.join(named),
        None => root.join("target/staticlib"),
    };
    let library = folder.join(LIBRARY);
    println!("cargo::rerun-if-changed={}", library.display());
    println!("cargo::rerun-if-changed={}", folder.join(SUM).display());
    match (library.is_file(), named.is_some()) {
        (false, true) => stop("the folder that OLIASTROFU_LIB names has no libexports.a"),
        (true, true) => {
            if !is_of(&folder, &sources) {
                warn(
                    "the libexports.a that OLIASTROFU_LIB names is not of these sources, or has no libexports.sum that says so",
                );
            }
        }
        (there, false) => {
            if !there || !is_of(&folder, &sources) {
                make(&root, &folder, there, &sources);
            }
        }
    }

    let out = PathBuf::from(env::var_os("OUT_DIR").expect("cargo sets it"));
    if let Err(error) = fs::copy(&library, out.join(format!("lib{NAME}.a"))) {
        stop(&format!("libexports.a can't be copied: {error}"));
    }
    println!("cargo::rustc-link-search=native={}", out.display());
    println!("cargo::rustc-link-lib=static={NAME}");
}

/// Is the library in the folder the one that its sums were written for, and of these sources?
fn is_of(folder: &Path, sources: &str) -> bool {
    let written = fs::read_to_string(folder.join(SUM));
    let library = fs::read(folder.join(LIBRARY)).map(|bytes| line(&library_sum(&bytes), sources));
    matches!((written, library), (Ok(written), Ok(library)) if written == library)
}

fn library_sum(bytes: &[u8]) -> String {
    let mut sum = Sum::new();
    sum.add(bytes);
    sum.text()
}

fn line(library: &str, sources: &str) -> String {
    format!("library {library} sources {sources}\n")
}

/// Has the library made; `there` says whether there is an older one.
fn make(root: &Path, folder: &Path, there: bool, sources: &str) {
    let status = Command::new(root.join("tools/staticlib"))
        .current_dir(root)
        .stdin(Stdio::null())
        .stdout(Stdio::null())
        .status();
    // The script ends so where there is no rt.
    let status = status.map(|status| (status.code() != Some(127)).then_some(status));
    match status.ok().flatten() {
        None if there => warn(
            "target/staticlib/libexports.a is not of the sources as they are; there is no rt on the PATH, so it \
             is linked as it is (tools/staticlib makes it anew)",
        ),
        None => stop(
            "libexports.a is not in target/staticlib of the repository, and there is no rt on the \
             PATH to make it; name its folder in OLIASTROFU_LIB",
        ),
        Some(status) if !status.success() || !folder.join(LIBRARY).is_file() => stop(
            "tools/staticlib did not make libexports.a of the sources as they are; run it in \
             the root of the repository to see why",
        ),
        Some(_) => {
            let written = fs::read(folder.join(LIBRARY))
                .and_then(|bytes| fs::write(folder.join(SUM), line(&library_sum(&bytes), sources)));
            if let Err(error) = written {
                warn(&format!("libexports.sum can't be written: {error}"));
            }
            if there {
                warn("libexports.a was not of the sources as they are, and was made anew");
            }
        }
    }
}

/// A sum of what the library is made of: crates.txt, and the code and definitions of `exports_c` and
/// of all that it depends on. (A proof changes neither the library nor what it promises.)
fn sources(root: &Path) -> Result<String, String> {
    let list = root.join("crates.txt");
    println!("cargo::rerun-if-changed={}", list.display());
    let text = fs::read_to_string(&list).map_err(|error| format!("crates.txt: {error}"))?;
    let mut sum = Sum::new();
    sum.add(text.as_bytes());
    for name in with_dependencies(&text) {
        for part in ["src", "specs"] {
            let folder = root.join("crates").join(&name).join(part);
            if folder.is_dir() {
                println!("cargo::rerun-if-changed={}", folder.display());
                sum.folder(&folder)
                    .map_err(|error| format!("crates/{name}/{part}: {error}"))?;
            }
        }
    }
    Ok(sum.text())
}

/// `exports_c` and all that it depends on, by the lines `NAME: DEPENDENCIES` (`NAME staticlib: ..`).
fn with_dependencies(list: &str) -> BTreeSet<String> {
    let mut names = BTreeSet::new();
    let mut open = vec!["exports_c".to_string()];
    while let Some(name) = open.pop() {
        let line = list.lines().find_map(|line| {
            let (head, rest) = line.split_once(':')?;
            (head.split_whitespace().next() == Some(name.as_str())).then_some(rest)
        });
        // What has no line is of the toolchain.
        if let Some(line) = line
            && names.insert(name)
        {
            open.extend(line.split_whitespace().map(str::to_string));
        }
    }
    names
}

/// FNV-1a over 64 bits.
struct Sum(u64);

impl Sum {
    fn new() -> Self {
        Self(0xcbf2_9ce4_8422_2325)
    }

    /// Adds a text and its length.
    fn add(&mut self, bytes: &[u8]) {
        for &byte in bytes.iter().chain(&bytes.len().to_le_bytes()) {
            self.0 = (self.0 ^ u64::from(byte)).wrapping_mul(0x0100_0000_01b3);
        }
    }

    /// Adds all files of a folder, by name and contents, in the order of their names.
    fn folder(&mut self, folder: &Path) -> io::Result<()> {
        let mut paths = fs::read_dir(folder)?
            .map(|entry| entry.map(|entry| entry.path()))
            .collect::<io::Result<Vec<_>>>()?;
        paths.sort();
        for path in paths {
            if path.is_dir() {
                self.folder(&path)?;
            } else {
                self.add(path.file_name().unwrap_or_default().as_encoded_bytes());
                self.add(&fs::read(&path)?);
            }
        }
        Ok(())
    }

    fn text(&self) -> String {
        format!("{:016x}", self.0)
    }
}

fn warn(line: &str) {
    println!("cargo::warning={line}");
}

fn stop(line: &str) -> ! {
    println!("cargo::error={line}");
    exit(0)
}
