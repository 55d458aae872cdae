//! The floor: a plain copy of the same bytes, into room that is there already.

use std::hint::black_box;

use original::raw;

use crate::{lists::List, timing::Task};

pub fn tasks(list: &List) -> Vec<Task> {
    let ops: Vec<_> = list
        .ops
        .iter()
        .filter_map(|&(op, v)| original::operation(op, v))
        .collect();
    let batches = raw::build(&ops);
    let raw_table = raw::RawTable::new(&batches).entries().len();
    let padded_table = raw::PaddedTable::new(&batches).entries().len();
    let block = raw::encode(&raw::node(batches)).len();
    vec![
        copy("build", 9 * list.ops.len()), // opcodes and values
        copy("encode", block),
        copy("decode", block),
        copy("strict", block),
        copy("raw table", 8 * raw_table),
        copy("padded table", 8 * padded_table),
    ]
}

fn copy(function: &'static str, bytes: usize) -> Task {
    let from = vec![1u8; bytes];
    let mut to = vec![0u8; bytes];
    Task::new(function, move || {
        black_box(&mut to[..]).copy_from_slice(black_box(&from))
    })
}
