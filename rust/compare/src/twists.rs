//! Blocks that can be read and that no batching makes, each made of a good one by a single twist.

use model::batches_of;

use crate::{
    Seed,
    inputs::{Block, List, bytes_of},
};

/// A batch's operations, the lengths of its groups, its flags and its count.
#[derive(Clone, Default)]
pub struct Part {
    list: List,
    lengths: [u8; 8],
    flags: [u8; 8],
    count: usize,
}

impl Part {
    fn length(&self, group: usize) -> usize {
        usize::from(self.lengths[group])
    }

    /// The operations before a group.
    fn before(&self, group: usize) -> usize {
        (0..group).map(|group| self.length(group)).sum()
    }

    fn insert(&mut self, at: usize, code: u8, value: u64) {
        self.list.codes.insert(at, code);
        self.list.values.insert(at, value);
    }

    fn remove(&mut self, at: usize) {
        self.list.codes.remove(at);
        self.list.values.remove(at);
    }

    /// The groups from one on move up by one; this one is empty then.
    fn shift(&mut self, from: usize) {
        self.lengths.copy_within(from..7, from + 1);
        self.flags.copy_within(from..7, from + 1);
        self.lengths[from] = 0;
        self.flags[from] = 0;
        self.count += 1;
    }
}

/// What is done to a good block, one that was built: in which batch and group, and to which operation
/// of the group.
#[derive(Clone, Copy, Debug)]
pub enum Twist {
    /// An empty batch before this one, or at the end; with these flags.
    EmptyBatch(usize, u8),
    /// A flag at or above the count (M-100).
    Kept(usize, usize),
    /// An empty group before this one.
    EmptyGroup(usize, usize),
    /// A padding left out, be it all of the group: the count may be no power of two then.
    Unpadded(usize, usize),
    /// A padding more.
    Padded(usize, usize),
    /// A Noop of the list's own is flagged.
    Flagged(usize, usize),
    /// A padding is not flagged.
    Unflagged(usize, usize),
    /// A group is closed before this operation of it; with a padding or without.
    Closed(usize, usize, usize, bool),
    /// Two batches change places.
    Swapped(usize, usize),
}

pub fn parts(block: &Block) -> Vec<Part> {
    let mut from = 0;
    batches_of(&block.records)
        .iter()
        .map(|batch| {
            let to = from + batch.total();
            let list = List {
                codes: block.codes[from..to].to_vec(),
                values: block.values[from..to].to_vec(),
            };
            from = to;
            Part {
                list,
                lengths: core::array::from_fn(|i| batch.starts[i + 1] - batch.starts[i]),
                flags: batch.flags,
                count: usize::from(batch.count),
            }
        })
        .collect()
}

/// The bytes of batches, whatever they are.
pub fn bytes(table: &[u8], parts: &[Part]) -> Vec<u8> {
    let mut list = List::default();
    let mut batches = Vec::new();
    for part in parts {
        list.codes.extend(&part.list.codes);
        list.values.extend(&part.list.values);
        let flags = (0..8).fold(0, |byte, i| byte | part.flags[i] << i);
        batches.push((part.lengths, flags));
    }
    bytes_of(table, &list, &batches)
}

/// The batches of blocks one after another.
pub fn joined(blocks: &[Block]) -> Block {
    let mut all = Block::default();
    for block in blocks {
        all.codes.extend(&block.codes);
        all.values.extend(&block.values);
        all.records.extend(&block.records);
    }
    all
}

/// Every twist of a block of few batches.
pub fn all(parts: &[Part]) -> Vec<Twist> {
    let mut all = Vec::new();
    for batch in 0..=parts.len() {
        all.extend([0, 1, 0x80, 0xff].map(|flags| Twist::EmptyBatch(batch, flags)));
    }
    for batch in 0..parts.len() {
        for group in 0..8 {
            all.extend([
                Twist::Kept(batch, group),
                Twist::EmptyGroup(batch, group),
                Twist::Unpadded(batch, group),
                Twist::Padded(batch, group),
                Twist::Flagged(batch, group),
                Twist::Unflagged(batch, group),
            ]);
            for at in 1..9 {
                all.push(Twist::Closed(batch, group, at, false));
                all.push(Twist::Closed(batch, group, at, true));
            }
        }
        all.extend((0..batch).map(|other| Twist::Swapped(other, batch)));
    }
    all
}

/// Any twist.
pub fn any(seed: &mut Seed, parts: &[Part]) -> Twist {
    // The ends more often.
    let last = parts.len() - 1;
    let batch = match seed.under(4) {
        0 => last,
        1 => 0,
        _ => seed.under(parts.len()),
    };
    let group = seed.under(8);
    match seed.under(9) {
        0 => Twist::EmptyBatch(batch + seed.under(2), seed.of(&[0, 0, 1, 0x42, 0xff])),
        1 => Twist::Kept(batch, group),
        2 => Twist::EmptyGroup(batch, group),
        3 => Twist::Unpadded(batch, group),
        4 => Twist::Padded(batch, group),
        5 => Twist::Flagged(batch, group),
        6 => Twist::Unflagged(batch, group),
        7 => Twist::Closed(batch, group, 1 + seed.under(8), seed.one_in(2)),
        _ => Twist::Swapped(seed.under(parts.len()), batch),
    }
}

/// The batches after a twist, and the first that differs from batching their own list, if it is known:
/// where the list stays as it was it is the twisted one. None if there is nothing to twist.
pub fn twisted(table: &[u8], good: &[Part], twist: Twist) -> Option<(Vec<Part>, Option<usize>)> {
    let mut parts = good.to_vec();
    let immediate = |code: u8| table[usize::from(code)] == 1;
    let last_of = |part: &Part, group: usize| {
        let length = part.length(group);
        (length > 0).then(|| part.before(group) + length - 1)
    };
    let place = match twist {
        Twist::EmptyBatch(batch, flags) => {
            let empty = Part {
                flags: core::array::from_fn(|i| flags >> i & 1),
                ..Part::default()
            };
            parts.insert(batch, empty);
            Some(batch)
        }
        Twist::Kept(batch, group) => {
            let part = &mut parts[batch];
            if group < part.count {
                return None;
            }
            part.flags[group] = 1;
            Some(batch)
        }
        Twist::EmptyGroup(batch, group) => {
            let part = &mut parts[batch];
            if part.count == 8 || part.length(group) == 0 {
                return None;
            }
            part.shift(group);
            Some(batch)
        }
        Twist::Unpadded(batch, group) => {
            let part = &mut parts[batch];
            if part.flags[group] == 0 {
                return None;
            }
            let at = last_of(part, group)?;
            part.flags[group] = 0;
            part.lengths[group] -= 1;
            part.remove(at);
            Some(batch)
        }
        Twist::Padded(batch, group) => {
            let part = &mut parts[batch];
            if part.flags[group] == 1 || part.length(group) == 9 {
                return None;
            }
            let at = last_of(part, group)? + 1;
            part.flags[group] = 1;
            part.lengths[group] += 1;
            part.insert(at, 0, 0);
            Some(batch)
        }
        Twist::Flagged(batch, group) => {
            let part = &mut parts[batch];
            let at = last_of(part, group)?;
            if part.flags[group] == 1 || part.list.codes[at] != 0 {
                return None;
            }
            part.flags[group] = 1;
            None
        }
        Twist::Unflagged(batch, group) => {
            let part = &mut parts[batch];
            if part.flags[group] == 0 {
                return None;
            }
            part.flags[group] = 0;
            None
        }
        Twist::Closed(batch, group, at, padded) => {
            let part = &mut parts[batch];
            let length = part.length(group);
            if part.count == 8 || at >= length || padded && at == 9 {
                return None;
            }
            let from = part.before(group);
            let first = part.list.codes[from..from + at].iter();
            let slots = first.filter(|&&code| immediate(code)).count();
            // What is after the slots of the first half moves up; the second half is before it.
            part.shift(group + 1 + slots);
            part.lengths[group + 1 + slots] = (length - at) as u8;
            part.flags[group + 1 + slots] = part.flags[group];
            part.lengths[group] = at as u8;
            part.flags[group] = 0;
            if padded {
                part.lengths[group] += 1;
                part.flags[group] = 1;
                part.insert(from + at, 0, 0);
            }
            Some(batch)
        }
        Twist::Swapped(one, other) => {
            if one == other {
                return None;
            }
            parts.swap(one, other);
            None
        }
    };
    Some((parts, place))
}
