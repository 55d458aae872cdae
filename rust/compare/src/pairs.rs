//! Two blocks beside each other (M-105): what is compared, and the laws of a report.

use model::{Answer, Call, FIELD, RECORD, Room, Source};

use crate::{
    Run, Seed, Stopped,
    apart::{self, Entry},
    inputs::{self, Block, Kinds, List},
    run::decode_of,
    sections::sequences,
    twists,
};

type Done = Result<(), Stopped>;

/// Numbers of a report that is long enough for two blocks of so many bytes: at most five entries for
/// five bytes of either, and four.
fn ample(sides: [Source<'_>; 2]) -> usize {
    let [one, other] = sides.map(|side| (side.bytes.len() / 5).min(side.room.records / RECORD));
    4 * (one.max(other) + 4 * one.min(other) + 4)
}

fn call<'a>([first, second]: [Source<'a>; 2], report: usize) -> Call<'a> {
    Call::Compare {
        first,
        second,
        report,
    }
}

/// The bytes of a block that begins at a place, with room for it.
fn at<'a>(table: &'a [u8], bytes: &'a [u8], at: usize) -> Source<'a> {
    Source {
        table,
        bytes,
        at,
        room: crate::sections::room_for(bytes, at),
    }
}

fn source<'a>(table: &'a [u8], bytes: &'a [u8]) -> Source<'a> {
    at(table, bytes, 0)
}

/// An entry as it is with the blocks in the other order.
fn turned([kind, batch, place, difference]: Entry) -> Entry {
    let place = if kind == 6 { 3 - place } else { place };
    [kind, batch, place, -difference]
}

impl Run {
    /// A law that is to hold of an answer.
    fn law(&self, why: &str, sides: [Source<'_>; 2], ours: &Answer, holds: bool) -> Done {
        if holds || self.answers.is_some() {
            return Ok(());
        }
        let asked = crate::run::describe(call(sides, ours.report.len()));
        Err(Stopped(format!("{why}\n{asked}\nours: {ours:?}")))
    }

    /// Two blocks: with a report that is long enough, with the other one first, with reports around
    /// the need, and each beside itself.
    pub fn pair(&mut self, first: Source<'_>, second: Source<'_>) -> Done {
        let sides = [first, second];
        self.tally.pairs += 1;
        let ours = self.beside_each_other(sides)?;
        self.turned(sides, &ours)?;
        for side in sides {
            self.itself(side)?;
        }
        self.same_exactly(sides, &ours)?;
        self.around(sides)
    }

    /// With a report that is long enough, and with room of the function's own.
    fn beside_each_other(&mut self, sides: [Source<'_>; 2]) -> Result<Answer, Stopped> {
        let call = call(sides, ample(sides));
        let ours = self.check(call)?;
        // A form with room of its own does not want for any.
        if ours.number != 13 {
            self.owned(call, &ours)?;
        }
        self.law(
            "a report that is long enough is refused",
            sides,
            &ours,
            ours.number != 13 || ours.mark != 0,
        )?;
        Ok(ours)
    }

    /// With the other one first it is the same report, differences negated and sides swapped.
    fn turned(&mut self, [first, second]: [Source<'_>; 2], ours: &Answer) -> Done {
        let swapped = [second, first];
        let theirs = self.beside_each_other(swapped)?;
        let holds = if ours.number != 0 || theirs.number != 0 {
            ours.number != 0 && theirs.number != 0
        } else {
            let want: Vec<Entry> = apart::entries(ours).iter().copied().map(turned).collect();
            want == apart::entries(&theirs)
        };
        let why = "the other one first, it is not the same report turned";
        self.law(why, swapped, &theirs, holds)
    }

    /// A block beside itself.
    fn itself(&mut self, side: Source<'_>) -> Done {
        let sides = [side; 2];
        let ours = self.check(call(sides, 0))?;
        let holds = ours.number == 0 || ours.mark == 1;
        self.law("a block differs from itself", sides, &ours, holds)
    }

    /// "Nothing is reported exactly when the decoded blocks agree in every start, flag, number and
    /// count and in every operation"; under one table exactly when their bytes are the same.
    fn same_exactly(&mut self, sides: [Source<'_>; 2], ours: &Answer) -> Done {
        if ours.number != 0 || self.answers.is_some() {
            return Ok(());
        }
        let read = sides.map(|side| (self.ours)(decode_of(side)));
        let [one, other] = [0, 1].map(|at| Block::of(&read[at]));
        let same = one.arena() == other.arena();
        let nothing = ours.rest[0] == 0;
        let why = "nothing is reported, but not exactly where the blocks are the same";
        self.law(why, sides, ours, nothing == same)?;
        if sides[0].table != sides[1].table {
            return Ok(());
        }
        let bytes = |at: usize| &sides[at].bytes[sides[at].at..][..read[at].rest[2]];
        let why = "nothing is reported, but not exactly where the bytes are the same";
        self.law(why, sides, ours, nothing == (bytes(0) == bytes(1)))
    }

    /// Reports just long enough, too short by one number and by one entry, and longer by one to five
    /// numbers in turn.
    fn around(&mut self, sides: [Source<'_>; 2]) -> Done {
        let need = 4 * model::compare(sides[0], sides[1], ample(sides)).rest[0];
        let more = 1 + self.tally.pairs as usize % 5;
        let short = [1, 4].map(|by| need.checked_sub(by));
        for report in short.into_iter().flatten().chain([need, need + more]) {
            self.check(call(sides, report))?;
        }
        Ok(())
    }
}

/// A list's block, by the model; that of nothing for the list of nothing.
fn built(table: &[u8], list: &List) -> Vec<u8> {
    if list.codes.is_empty() {
        return vec![1, 0, 0, 0, 0];
    }
    let block = Block::of(&model::build(table, &list.codes, &list.values, list.room()));
    inputs::bytes_of_block(table, &block)
}

/// All lists over the four kinds up to a length.
fn lists(table: &[u8], most: usize) -> Vec<List> {
    let kinds = Kinds::of(table);
    let letters = [0, kinds.plain[0], kinds.immediate[0], kinds.carried[0]];
    let mut all = Vec::new();
    let done = sequences(4, most, |word| {
        let mut list = List::default();
        for &letter in word {
            list.push(letters[letter], if letter > 1 { 5 } else { 0 });
        }
        all.push(list);
        Ok(())
    });
    debug_assert!(done.is_ok());
    all
}

/// Lists at the ends of groups and batches.
fn long_lists(table: &[u8]) -> Vec<List> {
    let kinds = Kinds::of(table);
    let (plain, immediate, carried) = (kinds.plain[0], kinds.immediate[0], kinds.carried[0]);
    let runs: [&[(u8, usize)]; 7] = [
        &[(plain, 9)],
        &[(plain, 8), (immediate, 1)],
        &[(plain, 19)],
        &[(immediate, 8)],
        &[(immediate, 7), (plain, 3), (0, 1)],
        &[(plain, 73)],
        &[(plain, 40), (immediate, 1), (plain, 60), (carried, 9)],
    ];
    let list = |runs: &[(u8, usize)]| {
        let mut list = List::default();
        for &(code, times) in runs {
            for _ in 0..times {
                let valued = [immediate, carried].contains(&code);
                list.push(code, if valued { 7 } else { 0 });
            }
        }
        list
    };
    runs.map(list).into()
}

/// A list with one operation changed, left out, or put in.
fn edits(table: &[u8], list: &List, at: usize) -> Vec<List> {
    let kinds = Kinds::of(table);
    let mut all = Vec::new();
    for (code, value) in [(kinds.plain[1], 0), (kinds.immediate[0], 8), (0, 0)] {
        let mut other = list.clone();
        (other.codes[at], other.values[at]) = (code, value);
        all.push(other);
        let mut longer = list.clone();
        longer.codes.insert(at, code);
        longer.values.insert(at, value);
        all.push(longer);
    }
    let mut shorter = list.clone();
    shorter.codes.remove(at);
    shorter.values.remove(at);
    all.push(shorter);
    all
}

/// Every part that is not random.
pub fn pairs(run: &mut Run, most: usize, tick: &mut dyn FnMut(&Run)) -> Done {
    short_lists(run, most, tick)?;
    one_edit(run, tick)?;
    every_twist(run, most, tick)?;
    flags(run)?;
    empty_batches(run)?;
    bits(run, tick)?;
    two_tables(run)?;
    two_offsets(run, tick)?;
    refused(run, tick)?;
    rooms(run)?;
    reports(run)
}

/// All short lists beside all.
fn short_lists(run: &mut Run, most: usize, tick: &mut dyn FnMut(&Run)) -> Done {
    let table = run.table;
    let all: Vec<Vec<u8>> = lists(&table, most)
        .iter()
        .map(|list| built(&table, list))
        .collect();
    for (i, one) in all.iter().enumerate() {
        tick(run);
        for other in &all[i..] {
            run.pair(source(&table, one), source(&table, other))?;
        }
    }
    Ok(())
}

/// Longer ones beside those with one operation changed, left out, or put in.
fn one_edit(run: &mut Run, tick: &mut dyn FnMut(&Run)) -> Done {
    let table = run.table;
    for list in long_lists(&table) {
        tick(run);
        let good = built(&table, &list);
        for at in 0..list.codes.len() {
            for other in edits(&table, &list, at) {
                run.pair(
                    source(&table, &good),
                    source(&table, &built(&table, &other)),
                )?;
            }
        }
    }
    Ok(())
}

/// Blocks beside those that no batching makes, one twist away.
fn every_twist(run: &mut Run, most: usize, tick: &mut dyn FnMut(&Run)) -> Done {
    let table = run.table;
    for list in lists(&table, most)
        .into_iter()
        .skip(1)
        .chain(long_lists(&table))
    {
        tick(run);
        let block = Block::of(&model::build(
            &table,
            &list.codes,
            &list.values,
            list.room(),
        ));
        let good = twists::parts(&block);
        let bytes = twists::bytes(&table, &good);
        for each in twists::all(&good) {
            if let Some((parts, _)) = twists::twisted(&table, &good, each) {
                let other = twists::bytes(&table, &parts);
                run.pair(source(&table, &bytes), source(&table, &other))?;
            }
        }
    }
    Ok(())
}

/// The same block with every two sets of flags in its last batch, also at or above the count.
fn flags(run: &mut Run) -> Done {
    let table = run.table;
    let immediate = Kinds::of(&table).immediate[0];
    let list = List {
        codes: vec![immediate; 8],
        values: vec![3; 8],
    };
    let good = built(&table, &list);
    let sets = [0, 1, 2, 4, 5, 0x80, 0x81, 0xfd, 0xfc];
    for one in sets {
        for other in sets {
            let [one, other] = [one, other].map(|flags| {
                let mut bytes = good.clone();
                if let Some(last) = bytes.last_mut() {
                    *last = flags;
                }
                bytes
            });
            run.pair(source(&table, &one), source(&table, &other))?;
        }
    }
    Ok(())
}

/// Empty batches beside none and beside each other; before and after an operation's.
fn empty_batches(run: &mut Run) -> Done {
    let table = run.table;
    let plain = Kinds::of(&table).plain[0];
    let mut all = Vec::new();
    for before in 0..3 {
        for flags in [0, 0x81] {
            let empty = vec![([0; 8], flags); before];
            all.push(inputs::bytes_of(&table, &List::default(), &empty));
            for after in 0..2 {
                let mut one = List::default();
                one.push(plain, 0);
                let parts = [
                    &empty[..],
                    &[([1, 0, 0, 0, 0, 0, 0, 0], 0)],
                    &vec![([0; 8], 0); after],
                ];
                all.push(inputs::bytes_of(&table, &one, &parts.concat()));
            }
        }
    }
    for one in &all {
        for other in &all {
            run.pair(source(&table, one), source(&table, other))?;
        }
    }
    Ok(())
}

/// Small blocks with every bit changed, and with every front.
fn bits(run: &mut Run, tick: &mut dyn FnMut(&Run)) -> Done {
    let table = run.table;
    let kinds = Kinds::of(&table);
    let mut seed = Seed::new(9);
    for size in [0, 1, 2, 8, 10, 75] {
        let good = built(&table, &inputs::list(&mut seed, &kinds, size));
        for at in 0..good.len() {
            tick(run);
            for bit in 0..8 {
                let mut bytes = good.clone();
                bytes[at] ^= 1 << bit;
                run.pair(source(&table, &good), source(&table, &bytes))?;
            }
            run.pair(source(&table, &good[..at]), source(&table, &good))?;
        }
    }
    Ok(())
}

/// The same bytes under two tables: an immediate for one is only carried for the other.
fn two_tables(run: &mut Run) -> Done {
    let mut tables = vec![model::cases::table_t()];
    for kinds in [[0, 2, 0, 2], [0, 2, 0, 1], [0, 1, 0, 3], [0, 0, 0, 0]] {
        let mut other = tables[0].clone();
        other[..4].copy_from_slice(&kinds);
        tables.push(other);
    }
    for one in &tables.clone() {
        let p1 = [5, 1, 5, 0, 0, 0, 0, 0, 0, 0, 0, 1, 0, 0, 0, 2, 0, 0, 0, 1];
        let carried = [5, 3, 5, 0, 0, 0, 0, 0, 0, 0, 0, 1, 0, 0, 0, 2, 0, 0, 0, 1];
        let plain = [3, 2, 1, 0, 0, 0, 1, 0, 0, 0, 0];
        for other in &tables {
            for bytes in [&p1[..], &carried, &plain] {
                run.pair(source(one, bytes), source(other, bytes))?;
                run.pair(source(one, bytes), source(other, &plain))?;
            }
        }
    }
    Ok(())
}

/// Every two offsets into one buffer.
fn two_offsets(run: &mut Run, tick: &mut dyn FnMut(&Run)) -> Done {
    let table = run.table;
    let kinds = Kinds::of(&table);
    let mut bytes = Vec::new();
    for list in [
        &[(kinds.immediate[0], 5)][..],
        &[(kinds.plain[0], 0)],
        &[(kinds.plain[0], 0), (kinds.plain[1], 0)],
        &[(kinds.plain[0], 0)],
    ] {
        let (codes, values) = list.iter().copied().unzip();
        bytes.extend(built(&table, &List { codes, values }));
    }
    for first in 0..bytes.len() + 3 {
        tick(run);
        for second in first..bytes.len() + 3 {
            run.pair(at(&table, &bytes, first), at(&table, &bytes, second))?;
        }
        run.pair(at(&table, &bytes, first), at(&table, &bytes, usize::MAX))?;
    }
    Ok(())
}

/// What decode refuses and takes in the model's cases, each beside each of another number and beside
/// itself.
fn refused(run: &mut Run, tick: &mut dyn FnMut(&Run)) -> Done {
    type Lent = (Vec<u8>, Vec<u8>, usize, Room);
    let mut all: Vec<(u8, Lent)> = Vec::new();
    model::cases::all(&mut |case| {
        let Call::Decode {
            table,
            bytes,
            at,
            room,
        } = case.call
        else {
            return;
        };
        // Three of a number will do; the long ones are among the limits.
        let seen = all.iter().filter(|one| one.0 == case.number).count();
        if case.pair.is_none() && seen < 3 && bytes.len() < 5_000 {
            all.push((case.number, (table.to_vec(), bytes.to_vec(), at, room)));
        }
    });
    for (_, one) in &all {
        tick(run);
        for (_, other) in &all {
            let [one, other] = [one, other].map(|(table, bytes, at, room)| Source {
                table,
                bytes,
                at: *at,
                room: *room,
            });
            run.pair(one, other)?;
        }
    }
    Ok(())
}

/// Working room just enough, and with each of the six runs one short, or longer.
fn rooms(run: &mut Run) -> Done {
    let table = run.table;
    let kinds = Kinds::of(&table);
    let mut seed = Seed::new(21);
    for (one, other) in [(0, 3), (1, 1), (9, 80), (80, 9), (75, 75)] {
        let [one, other] =
            [one, other].map(|size| built(&table, &inputs::list(&mut seed, &kinds, size)));
        let exact = |bytes: &[u8]| {
            let (batches, operations) = model::head(&table, bytes, 0).unwrap_or((0, 0));
            Room {
                codes: operations,
                values: operations,
                records: batches * RECORD,
            }
        };
        let needs = [exact(&one), exact(&other)];
        let ask = |run: &mut Run, rooms: [Room; 2]| {
            let mut sides = [source(&table, &one), source(&table, &other)];
            (sides[0].room, sides[1].room) = (rooms[0], rooms[1]);
            run.pair(sides[0], sides[1])
        };
        ask(run, needs)?;
        for by in [-(RECORD as isize), -81, -1, 1, 81, RECORD as isize] {
            for which in 0..6 {
                let mut rooms = needs;
                let room = &mut rooms[which / 3];
                let length = match which % 3 {
                    0 => &mut room.codes,
                    1 => &mut room.values,
                    _ => &mut room.records,
                };
                *length = length.saturating_add_signed(by);
                ask(run, rooms)?;
            }
        }
    }
    Ok(())
}

/// Reports of every length up to more than the need.
fn reports(run: &mut Run) -> Done {
    let table = run.table;
    let kinds = Kinds::of(&table);
    let mut seed = Seed::new(31);
    for (one, other) in [(0, 0), (1, 1), (1, 9), (30, 70), (80, 160)] {
        let [one, other] =
            [one, other].map(|size| built(&table, &inputs::list(&mut seed, &kinds, size)));
        let sides = [source(&table, &one), source(&table, &other)];
        let need = 4 * model::compare(sides[0], sides[1], ample(sides)).rest[0];
        for report in 0..need + 10 {
            run.check(call(sides, report))?;
        }
    }
    Ok(())
}

/// A block of so many batches, each with the same lengths, flags and operations.
fn batches_alike(
    table: &[u8],
    batches: usize,
    lengths: [u8; 8],
    flags: u8,
    codes: &[u8],
) -> Vec<u8> {
    let list = List {
        codes: codes.repeat(batches),
        values: vec![0; codes.len() * batches],
    };
    inputs::bytes_of(table, &list, &vec![(lengths, flags); batches])
}

/// The longest report there is: 16,384 batches in both blocks, which differ in all that can be
/// reported of each. And blocks at the limits beside nothing, and beside those over them.
pub fn limits(run: &mut Run) -> Done {
    let table = run.table;
    let plain = Kinds::of(&table).plain;
    let (one, other) = (plain[0], plain[1]);
    let first = batches_alike(&table, 16_384, [1, 0, 0, 0, 0, 0, 0, 0], 0, &[one]);
    // A padding more, in a group of its own; and in one batch two operations more.
    let lengths = [1, 1, 0, 0, 0, 0, 0, 0];
    let list = List {
        codes: [&[other, 0].repeat(16_383)[..], &[other, one, one, 0]].concat(),
        values: vec![0; 2 * 16_383 + 4],
    };
    let mut parts = vec![(lengths, 2); 16_383];
    parts.push(([3, 1, 0, 0, 0, 0, 0, 0], 2));
    let second = inputs::bytes_of(&table, &list, &parts);
    let [first, second] = [source(&table, &first), source(&table, &second)];
    let longest = run.check(call([first, second], 4 * 81_923))?;
    run.law(
        "this report is to have 81,923 entries",
        [first, second],
        &longest,
        longest.rest[0] == 81_923,
    )?;
    run.pair(first, second)?;

    let nothing = [1, 0, 0, 0, 0];
    let wide = |bytes| Source {
        room: inputs::WIDE,
        ..source(&table, bytes)
    };
    let most = inputs::bytes_of(&table, &List::default(), &vec![([0; 8], 0xff); 16_384]);
    let over = inputs::bytes_of(&table, &List::default(), &vec![([0; 8], 0xff); 16_385]);
    let long = batches_alike(&table, 910, [9; 8], 0, &[one; 72]);
    let padded = batches_alike(
        &table,
        7_281,
        [2, 7, 0, 0, 0, 0, 0, 0],
        3,
        &[one, 0, one, one, one, one, one, one, 0],
    );
    let mut buffer = vec![1];
    buffer.resize(1_048_577, 0);
    let all = [
        &nothing[..],
        &most,
        &over,
        &long,
        &padded,
        &buffer,
        &buffer[1..],
    ];
    for (i, &one) in all.iter().enumerate() {
        for &other in &all[i..] {
            run.pair(wide(one), wide(other))?;
        }
    }
    Ok(())
}

/// Another block, near a good one: one thing changed, or several.
fn near(seed: &mut Seed, table: &[u8], kinds: &Kinds, list: &List, good: &[u8]) -> Vec<u8> {
    let parts = |list: &List| {
        twists::parts(&Block::of(&model::build(
            table,
            &list.codes,
            &list.values,
            list.room(),
        )))
    };
    match seed.under(8) {
        0 => good.to_vec(),
        1 | 2 => {
            let at = seed.under(list.codes.len());
            let all = edits(table, list, at);
            built(table, &all[seed.under(all.len())])
        }
        3 => {
            // Another value, where there is one.
            let mut other = list.clone();
            let at = seed.under(list.codes.len());
            if table[usize::from(other.codes[at])] != 0 {
                other.values[at] = (other.values[at] + 1) % FIELD;
            }
            built(table, &other)
        }
        4 => {
            let good = parts(list);
            let twist = twists::any(seed, &good);
            let twisted = twists::twisted(table, &good, twist);
            twists::bytes(table, &twisted.map_or(good, |(parts, _)| parts))
        }
        5 => {
            let mut block = Block::of(&model::build(table, &list.codes, &list.values, list.room()));
            inputs::flag_above(seed, &mut block);
            inputs::bytes_of_block(table, &block)
        }
        6 => {
            let mut bytes = good.to_vec();
            inputs::damage(seed, &mut bytes);
            bytes
        }
        _ => inputs::crafted(seed, table, kinds),
    }
}

/// A random block beside some near it, and beside others; at any place, in any room.
pub fn turn(run: &mut Run, seed: &mut Seed) -> Done {
    let own = run.table.to_vec();
    let other_table = inputs::table(seed);
    let table = if seed.one_in(4) { &other_table } else { &own };
    let kinds = Kinds::of(table);
    let size = match seed.under(20) {
        0 => inputs::size(seed),
        _ => inputs::size(seed).min(300),
    };
    let list = inputs::list(seed, &kinds, size);
    let good = built(table, &list);
    let mut last = good.clone();
    for _ in 0..8 {
        let other = near(seed, table, &kinds, &list, &good);
        run.pair(source(table, &good), source(table, &other))?;
        run.pair(source(table, &last), source(table, &other))?;
        last = other;
    }
    let any = inputs::crafted(seed, table, &kinds);
    run.pair(source(table, &any), source(table, &last))?;
    in_one_buffer(run, seed, table, &good, &last)?;
    // Under another table, good or not.
    let bad = inputs::bad_table(seed, table);
    for other in [&own, &other_table, &bad] {
        run.pair(source(table, &good), source(other, &good))?;
        run.pair(source(table, &last), source(other, &good))?;
    }
    little_room(run, seed, table, &good, &last)
}

/// Two blocks in one buffer, with other bytes around them.
fn in_one_buffer(run: &mut Run, seed: &mut Seed, table: &[u8], one: &[u8], other: &[u8]) -> Done {
    let [before, between, after] = [0, 1, 2].map(|_| vec![0xee; seed.under(4)]);
    let bytes = [&before, one, &between, other, &after].concat();
    let first = before.len();
    let second = first + one.len() + between.len();
    run.pair(at(table, &bytes, first), at(table, &bytes, second))?;
    let any = seed.under(bytes.len() + 2);
    run.pair(at(table, &bytes, any), at(table, &bytes, second))
}

/// Working room around the need, in any of the six runs.
fn little_room(run: &mut Run, seed: &mut Seed, table: &[u8], one: &[u8], other: &[u8]) -> Done {
    for _ in 0..4 {
        let mut near = |bytes: &[u8]| {
            let (batches, operations) = model::head(table, bytes, 0).unwrap_or((1, 5));
            let mut around = |need: usize, by: usize| match seed.under(6) {
                0 => need.saturating_sub(1 + seed.under(by)),
                1 => need + seed.under(by),
                _ => need,
            };
            Room {
                codes: around(operations, 3),
                values: around(operations, 3),
                records: around(batches * RECORD, RECORD),
            }
        };
        let rooms = [near(one), near(other)];
        let mut sides = [source(table, one), source(table, other)];
        (sides[0].room, sides[1].room) = (rooms[0], rooms[1]);
        run.pair(sides[0], sides[1])?;
    }
    Ok(())
}
