//! The original's functions on prepared values.

use std::{hint::black_box, rc::Rc};

use original::{operation, raw};

use crate::{lists::List, timing::Task};

fn operations(list: &List) -> Vec<original::Operation> {
    let known = |&(op, v): &(u8, u64)| operation(op, v).expect("the list is of its table");
    list.ops.iter().map(known).collect()
}

pub fn tasks(list: &List) -> Vec<Task> {
    let ops = operations(list);
    let node = Rc::new(raw::node(raw::build(&ops)));
    let bytes = raw::encode(&node);
    assert_eq!(raw::decode(&bytes, 0).as_deref(), Ok(node.op_batches()));
    assert_eq!(raw::list(&node), ops);
    let on_node = |function, call: fn(&original::BasicBlockNode) -> Result<(), String>| {
        let node = node.clone();
        Task::new(function, move || call(black_box(&node)))
    };
    let other = raw::encode(&raw::node(raw::build(&operations(&list.other()))));
    let mut tasks = pairs(&bytes, other);
    tasks.extend([
        Task::new("build", move || raw::build(black_box(&ops))),
        Task::new("encode", {
            let node = node.clone();
            move || raw::encode(black_box(&node))
        }),
        Task::new("decode", {
            let bytes = bytes.clone();
            move || raw::decode(black_box(&bytes), 0)
        }),
        Task::new("strict", move || {
            let read = raw::decode(black_box(&bytes), 0).ok()?;
            let node = raw::node(read);
            let list: Vec<_> = raw::list(&node);
            (raw::build(&list) == node.op_batches()).then_some(node)
        }),
        on_node("structure", raw::structure),
        on_node("padding", raw::padding),
        on_node("commitment", raw::commitment),
        Task::new("raw table", {
            let node = node.clone();
            move || raw::RawTable::new(black_box(node.op_batches()))
        }),
        Task::new("padded table", {
            let node = node.clone();
            move || raw::PaddedTable::new(black_box(node.op_batches()))
        }),
    ]);
    tasks
}

type Batches = Vec<original::OpBatch>;

fn read_both((one, other): &(Vec<u8>, Vec<u8>)) -> Option<(Batches, Batches)> {
    Some((raw::decode(one, 0).ok()?, raw::decode(other, 0).ok()?))
}

/// Two blocks read, and how many of their batches differ.
fn pairs(bytes: &[u8], other: Vec<u8>) -> Vec<Task> {
    let mut tasks = Vec::new();
    for (decodes, compare, other) in [
        ("decodes same", "compare same", bytes.to_vec()),
        ("decodes other", "compare other", other),
    ] {
        let two = Rc::new((bytes.to_vec(), other));
        let same = two.clone();
        tasks.push(Task::new(decodes, move || read_both(black_box(&same))));
        tasks.push(Task::new(compare, move || {
            let (one, other) = read_both(black_box(&two))?;
            let differ = one.iter().zip(&other).filter(|(one, other)| one != other);
            Some((differ.count(), one, other))
        }));
    }
    tasks
}
