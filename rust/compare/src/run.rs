//! Who answers, how two answers are held together, and what is counted.

use std::{collections::BTreeMap, fmt::Write as _};

use model::{
    Answer, Arena, Batch, Call, FIELD, Function, MOST_BATCHES, MOST_BYTES, MOST_LISTED,
    MOST_PADDED, RECORD, Room, Source, batches_of,
};
use original::Refused;

use crate::{
    answers::{Answers, Form},
    apart,
    inputs::{Block, List},
    known::{self, Fault},
    theirs::{self, Did, did},
};

/// An unexplained difference: the input and both answers, in words.
#[derive(Debug)]
pub struct Stopped(pub String);

/// What was compared and what came of it.
#[derive(Default)]
pub struct Tally {
    /// The port against the model, by function.
    pub model: [u64; 14],
    /// The port's functions over bytes against the model, by function.
    pub bytes: [u64; 14],
    /// The numbers of the port's `oli_head`, held against the model for every decode.
    pub heads: [u64; 19],
    /// The port (or the model in its place) against the original, by function.
    pub original: [u64; 14],
    /// The numbers of all answers that were compared, by function; 0 is no refusal.
    pub numbers: [[u64; 19]; 14],
    /// The differences that are known.
    pub known: BTreeMap<(Function, Fault, u8, Did), u64>,
    /// Answers that are the same but for a place that the original names otherwise or not at all.
    pub places: u64,
    /// Blocks with a flag at or above a batch's count, compared with the original, by function.
    pub kept: [u64; 14],
    /// Those of them that both sides take, with the same answer.
    pub kept_taken: [u64; 14],
    /// What strict reading is to say, by the request's own words.
    pub strict: [u64; 7],
    /// Two blocks that were held beside each other in all ways (M-105).
    pub pairs: u64,
    /// Reports without an entry, then the entries of each kind (M-105).
    pub reported: [u64; 11],
    /// Refusals of compare: of a report too short, of the first block, of the second.
    pub marked: [u64; 3],
    /// Calls that the original could not be given.
    pub not_asked: BTreeMap<&'static str, u64>,
}

impl Tally {
    pub fn total(&self) -> u64 {
        [&self.model, &self.bytes, &self.original]
            .iter()
            .flat_map(|counts| counts.iter())
            .chain(&self.heads)
            .sum()
    }
}

/// What becomes of bytes that are read strictly (M-107).
#[derive(Clone, Copy, Debug, PartialEq, Eq)]
pub enum Strict {
    /// Decode refuses them.
    Refused,
    /// Batching the block's own list makes them.
    Finished,
    /// Its own list is empty; the place is 0.
    NoList,
    /// Its own list is over 16,384; the place is 0.
    LongList,
    /// The first batch differs; the place is 0.
    First,
    /// A later batch differs.
    Later,
    /// The first batch that differs is one more than batching makes.
    Extra,
}

impl Strict {
    pub const ALL: [Self; 7] = [
        Self::Refused,
        Self::Finished,
        Self::NoList,
        Self::LongList,
        Self::First,
        Self::Later,
        Self::Extra,
    ];

    pub fn words(self) -> &'static str {
        match self {
            Self::Refused => "refused by decode, and in the same way",
            Self::Finished => "0, taken: batching its own list writes these bytes",
            Self::NoList => "18, place 0: its own list is empty",
            Self::LongList => "18, place 0: its own list is over 16,384",
            Self::First => "18, place 0: the first batch differs",
            Self::Later => "18, another place: a later batch differs",
            Self::Extra => "18, another place: a batch more than batching makes",
        }
    }
}

pub struct Run {
    pub(crate) ours: fn(Call<'_>) -> Answer,
    /// Those who answer are the port, and are held against the model too.
    pub port: bool,
    /// The original's own table.
    pub table: [u8; 128],
    pub tally: Tally,
    /// Where the port's answers are written. Then they are held against nothing.
    pub answers: Option<Answers>,
}

type Checked<T> = Result<T, Stopped>;

impl Run {
    pub fn new(ours: fn(Call<'_>) -> Answer, port: bool) -> Self {
        Self {
            ours,
            port,
            table: original::table(),
            tally: Tally::default(),
            answers: None,
        }
    }

    /// Writes an answer of the port down, if answers are written.
    fn written(&mut self, form: Form, call: Call<'_>, answer: Option<&Answer>) -> Checked<bool> {
        let Some(answers) = &mut self.answers else {
            return Ok(false);
        };
        match answers.put(form, call, answer) {
            Ok(()) => Ok(true),
            Err(error) => Err(Stopped(format!("an answer can't be written: {error}"))),
        }
    }

    /// Asks all who can answer.
    pub fn check(&mut self, call: Call<'_>) -> Checked<Answer> {
        let ours = (self.ours)(call);
        if self.port {
            self.tally.model[call.function() as usize] += 1;
            if !self.written(Form::Numbers, call, Some(&ours))? {
                beside_model(call, &ours)?;
            }
            self.count(call.function(), ours.number);
            self.over_bytes(call, &ours)?;
            self.head(call)?;
        }
        if self.answers.is_none() {
            self.beside(call, &ours)?;
        }
        Ok(ours)
    }

    /// Reads bytes by both decoders: the answer of each. The call is one of decode.
    pub fn read(&mut self, call: Call<'_>) -> Checked<(Answer, Answer)> {
        let read = self.check(call)?;
        let strict = self.check(strictly(call))?;
        Ok((read, strict))
    }

    /// A block that was built of this list must be taken, with the list as its own.
    pub fn built(&self, call: Call<'_>, strict: &Answer, list: &List) -> Checked<()> {
        let finished = || own_list(&Block::of(strict));
        if self.answers.is_some()
            || strict.number == 0 && {
                let own = finished();
                own.codes == list.codes && own.values == list.values
            }
        {
            return Ok(());
        }
        let why = "a block that was built is not read strictly";
        Err(stopped(why, strictly(call), strict, &"its own list"))
    }

    /// The function over bytes is to answer the same, however many bytes are left over in an output;
    /// and 3 (or nothing) where an input is not whole numbers.
    #[cfg(feature = "port")]
    fn over_bytes(&mut self, call: Call<'_>, answer: &Answer) -> Checked<()> {
        use crate::bytes;
        let turn = self.tally.model[call.function() as usize];
        if !bytes::worth(call, answer, turn) {
            return Ok(());
        }
        let counts = &mut self.tally.bytes[call.function() as usize];
        let left = (*counts % 8) as usize;
        *counts += 1;
        let more = 1 + (*counts % 7) as usize;
        self.bytes_say("over bytes", call, 0, left, answer)?;
        if let Some(refused) = bytes::broken(call) {
            self.tally.bytes[call.function() as usize] += 1;
            self.bytes_say("not whole numbers", call, more, left, &refused)?;
        }
        Ok(())
    }

    #[cfg(feature = "port")]
    fn bytes_say(
        &mut self,
        why: &str,
        call: Call<'_>,
        more: usize,
        left: usize,
        want: &Answer,
    ) -> Checked<()> {
        let ours = crate::bytes::answer(call, more, left);
        let form = Form::Bytes { more, left };
        if self.written(form, call, ours.as_ref())? || ours.as_ref() == Some(want) {
            return Ok(());
        }
        Err(stopped(why, call, want, &ours))
    }

    #[cfg(not(feature = "port"))]
    fn over_bytes(&mut self, _: Call<'_>, _: &Answer) -> Checked<()> {
        Ok(())
    }

    /// What a block needs room for.
    #[cfg(feature = "port")]
    fn head(&mut self, call: Call<'_>) -> Checked<()> {
        let Call::Decode {
            table, bytes, at, ..
        } = call
        else {
            return Ok(());
        };
        let ours = crate::port::head(table, bytes, at);
        self.tally.heads[counted(ours.number)] += 1;
        if self.written(Form::Head, call, Some(&ours))? {
            return Ok(());
        }
        let model = model_head(table, bytes, at);
        if ours == model {
            return Ok(());
        }
        Err(stopped("the head differs", call, &ours, &show(&model)))
    }

    #[cfg(not(feature = "port"))]
    fn head(&mut self, _: Call<'_>) -> Checked<()> {
        Ok(())
    }

    fn count(&mut self, function: Function, number: u8) {
        self.tally.numbers[function as usize][counted(number)] += 1;
    }

    fn skip(&mut self, why: &'static str) -> Checked<()> {
        *self.tally.not_asked.entry(why).or_default() += 1;
        Ok(())
    }

    /// Counts a comparison with the original; a difference must be known.
    fn settle<T: core::fmt::Debug>(
        &mut self,
        call: Call<'_>,
        ours: &Answer,
        theirs: &Result<T, Refused>,
        agree: bool,
        fault: impl FnOnce() -> Option<Fault>,
    ) -> Checked<()> {
        if self.answers.is_some() {
            return Ok(());
        }
        let function = call.function();
        self.tally.original[function as usize] += 1;
        if !self.port {
            self.count(function, ours.number);
        }
        if kept(call) {
            self.tally.kept[function as usize] += 1;
            self.tally.kept_taken[function as usize] += u64::from(agree && ours.number == 0);
        }
        if agree {
            return Ok(());
        }
        let did = did(theirs);
        match fault() {
            Some(fault) if known::known(function, fault, ours.number, did) => {
                *self
                    .tally
                    .known
                    .entry((function, fault, ours.number, did))
                    .or_default() += 1;
                Ok(())
            }
            fault => Err(stopped(
                &format!("not in the known differences (fault: {fault:?}, original: {did:?})"),
                call,
                ours,
                theirs,
            )),
        }
    }

    fn beside(&mut self, call: Call<'_>, ours: &Answer) -> Checked<()> {
        let other_table = |table: &[u8]| table != self.table;
        match call {
            Call::Strict {
                table,
                bytes,
                at,
                room,
            } => self.beside_rule(call, ours, table, bytes, at, room),
            Call::Compare {
                first,
                second,
                report,
            } => self.beside_compare(call, ours, [first, second], report),
            Call::Build { table, .. } | Call::Encode { table, .. } | Call::Decode { table, .. }
                if other_table(table) =>
            {
                self.skip("another table than the original's")
            }
            Call::Commitment { table, .. } if other_table(table) => {
                self.skip("another table than the original's")
            }
            _ if [13, 14].contains(&ours.number) => self.skip("refused with 13 or 14"),
            Call::Build { codes, values, .. } => self.beside_build(call, ours, codes, values),
            Call::Encode {
                arena, buffer, at, ..
            } => self.beside_encode(call, ours, arena, buffer, at),
            Call::Decode {
                table, bytes, at, ..
            } => self.beside_decode(call, ours, table, bytes, at),
            Call::Structure { arena } => self.beside_structure(call, ours, arena),
            Call::Padding { arena } => self.beside_padding(call, ours, arena),
            Call::Commitment { arena, .. } => self.beside_commitment(call, ours, arena),
            Call::RawTable { arena, .. } => {
                self.beside_table(call, ours, arena, original::raw_table)
            }
            Call::PaddedTable { arena, .. } => {
                self.beside_table(call, ours, arena, original::padded_table)
            }
            // With a block, by `indices`.
            Call::PaddedIndex { .. } | Call::RawIndex { .. } => Ok(()),
            Call::Group { record, index } => self.beside_group(call, ours, record, index),
            Call::NextGroup { record, group } => self.beside_next(call, ours, record, group),
        }
    }

    fn beside_build(
        &mut self,
        call: Call<'_>,
        ours: &Answer,
        codes: &[u8],
        values: &[u64],
    ) -> Checked<()> {
        if codes.len() != values.len() {
            return self.skip("lists of unequal length");
        }
        let list: Vec<(u8, u64)> = codes.iter().copied().zip(values.iter().copied()).collect();
        let over = list.len() > MOST_LISTED;
        if over
            && list
                .iter()
                .any(|op| original::operation(op.0, op.1).is_none())
        {
            return self.skip("an operation that the original does not have");
        }
        let theirs = original::batch(&list);
        let agree = match &theirs {
            Ok(batches) => same_block(ours, &theirs::flat(batches)),
            Err(refused) => same_refusal(ours, refused),
        };
        self.settle(call, ours, &theirs, agree, || {
            over.then_some(Fault::ListOverLimit)
        })
    }

    fn beside_encode(
        &mut self,
        call: Call<'_>,
        ours: &Answer,
        arena: Arena<'_>,
        buffer: &[u8],
        at: usize,
    ) -> Checked<()> {
        if ours.number == 1 || buffer.len() > MOST_BYTES {
            return self.skip("a buffer or a position in it, which the original does not have");
        }
        let Some(batches) = theirs::batches(arena) else {
            return self.skip("records or operations that the original can't have");
        };
        let theirs = original::encode(&batches);
        let agree = match &theirs {
            Ok(bytes) => {
                ours.number == 0
                    && ours.buffer[at..at + ours.rest[0]] == bytes[..]
                    && original::length(&batches).as_ref() == Ok(&bytes.len())
            }
            Err(refused) => same_refusal(ours, refused),
        };
        self.settle(call, ours, &theirs, agree, || {
            over_limit(arena).or_else(|| known::of_structure(arena))
        })
    }

    fn beside_decode(
        &mut self,
        call: Call<'_>,
        ours: &Answer,
        table: &[u8],
        bytes: &[u8],
        at: usize,
    ) -> Checked<()> {
        let Ok(offset) = u32::try_from(at) else {
            return self.skip("an offset over 32 bits");
        };
        let theirs = original::decode(bytes, offset);
        let agree = match &theirs {
            Ok((batches, used)) => {
                ours.rest[2] == *used && same_block(ours, &theirs::flat(batches))
            }
            Err(refused) => same_refusal(ours, refused),
        };
        self.settle(call, ours, &theirs, agree, || match ours.number {
            3 => decode_limit(table, bytes, at),
            _ => None,
        })
    }

    /// Strict reading beside the request's own words: what decode refuses is refused in the same way;
    /// a block is taken, as decode takes it, exactly if batching its own list by document 01 writes
    /// those very bytes; otherwise 18 names the first batch that differs. How a list is batched and
    /// written is asked of the model's `build`, and of the original; not of its strict decoder.
    fn beside_rule(
        &mut self,
        call: Call<'_>,
        ours: &Answer,
        table: &[u8],
        bytes: &[u8],
        at: usize,
        room: Room,
    ) -> Checked<()> {
        if !self.port {
            self.count(Function::Strict, ours.number);
        }
        let decoded = (self.ours)(Call::Decode {
            table,
            bytes,
            at,
            room,
        });
        if decoded.number != 0 {
            self.tally.strict[Strict::Refused as usize] += 1;
            return self.by_rule(call, ours, &decoded);
        }
        let read = Block::of(&decoded);
        let bytes = &bytes[at..at + decoded.rest[2]];
        let own = own_list(&read);
        let (what, place) = match made_of(table, &read, &own, bytes) {
            Ok(said) => said,
            Err(why) => return Err(stopped(why, call, ours, &"the model's build")),
        };
        if table == self.table && !matches!(what, Strict::NoList | Strict::LongList) {
            // The original's decode, its list without padding, its batches and its bytes.
            self.tally.original[Function::Strict as usize] += 1;
            let theirs = theirs_made(bytes);
            let agree = theirs.as_ref().is_ok_and(|theirs| {
                theirs
                    .own
                    .iter()
                    .map(|op| op.0)
                    .eq(own.codes.iter().copied())
                    && theirs
                        .own
                        .iter()
                        .map(|op| op.1)
                        .eq(own.values.iter().copied())
                    && theirs.differs == (what != Strict::Finished).then_some(place)
                    && theirs.same_bytes == (what == Strict::Finished)
            });
            if !agree {
                let why = "the original's batches of the block's own list say otherwise";
                return Err(stopped(why, call, ours, &theirs));
            }
        } else {
            self.skip("strict reading: another table, or a list that is empty or over 16,384")?;
        }
        self.tally.strict[what as usize] += 1;
        if what == Strict::Finished {
            return self.by_rule(call, ours, &decoded);
        }
        let refused = Answer {
            number: 18,
            place,
            codes: vec![0; room.codes],
            values: vec![0; room.values],
            records: vec![0; room.records],
            ..Answer::default()
        };
        self.by_rule(call, ours, &refused)
    }

    fn by_rule(&self, call: Call<'_>, ours: &Answer, want: &Answer) -> Checked<()> {
        if ours == want {
            return Ok(());
        }
        let why = "strict reading is not by the rule";
        Err(stopped(why, call, ours, &show(want)))
    }

    /// Compare beside the request's own words, over what decode says of the two blocks; and beside
    /// what the original shows of them.
    fn beside_compare(
        &mut self,
        call: Call<'_>,
        ours: &Answer,
        sides: [Source<'_>; 2],
        report: usize,
    ) -> Checked<()> {
        self.count_report(ours);
        let decoded = sides.map(|side| (self.ours)(decode_of(side)));
        let want = apart::by_rule(sides, &decoded, report);
        if *ours != want {
            let why = "compare is not by the rule";
            return Err(stopped(why, call, ours, &show(&want)));
        }
        self.beside_shown(call, ours, sides, report)
    }

    fn count_report(&mut self, ours: &Answer) {
        if ours.number != 0 {
            self.tally.marked[usize::from(ours.mark.min(2))] += 1;
            return;
        }
        let entries = apart::entries(ours);
        self.tally.reported[0] += u64::from(entries.is_empty());
        for &[kind, ..] in entries {
            self.tally.reported[kind.clamp(1, 10) as usize] += 1;
        }
    }

    /// Both blocks by the original's decoder, and what it shows of them side by side.
    fn beside_shown(
        &mut self,
        call: Call<'_>,
        ours: &Answer,
        sides: [Source<'_>; 2],
        report: usize,
    ) -> Checked<()> {
        if sides.iter().any(|side| side.table != self.table) {
            return self.skip("another table than the original's");
        }
        if ours.mark != 0 && [13, 14].contains(&ours.number) {
            return self.skip("refused with 13 or 14");
        }
        let [Ok(first), Ok(second)] = sides.map(|side| u32::try_from(side.at)) else {
            return self.skip("an offset over 32 bits");
        };
        let shown = |side: Source<'_>, at| original::decode(side.bytes, at).map(|read| read.0);
        let theirs = match (shown(sides[0], first), ours.mark) {
            (Ok(one), 0 | 2) => shown(sides[1], second).map(|two| [one, two]),
            (one, _) => one.map(|one| [one, Vec::new()]),
        };
        let agree = match &theirs {
            Ok(_) if ours.mark != 0 => false,
            Ok([one, two]) => match apart::shown(one, two) {
                Ok(entries) if ours.number == 13 => entries.len() > report / 4,
                Ok(entries) => entries == apart::entries(ours),
                Err(_) => false,
            },
            Err(refused) => same_refusal(ours, refused),
        };
        self.settle(call, ours, &theirs, agree, || {
            let side = sides[usize::from(ours.mark.clamp(1, 2)) - 1];
            match (ours.number, ours.mark) {
                (3, 1 | 2) => decode_limit(side.table, side.bytes, side.at),
                _ => None,
            }
        })
    }

    fn beside_structure(&mut self, call: Call<'_>, ours: &Answer, arena: Arena<'_>) -> Checked<()> {
        let Some(batches) = theirs::batches(arena) else {
            return self.skip("records or operations that the original can't have");
        };
        let theirs = original::structure(&batches);
        let records = batches_of(arena.records);
        let sum: usize = records.iter().map(Batch::total).sum();
        if sum != arena.codes.len() && ours.number == 15 {
            // In the original each batch has its own operations: it refuses at the batch that has
            // too many or too few, and can't say that only the sum is wrong.
            self.tally.places += 1;
            let agree = did(&theirs) == Did::Refuses(15);
            return self.settle(call, ours, &theirs, agree, || None);
        }
        let first_seen = records.iter().position(known::seen);
        let as_foreseen = named(&theirs) == first_seen.map(|batch| (15, Some(batch)));
        let agree = match &theirs {
            Ok(()) => ours.number == 0,
            Err(refused) => same_refusal(ours, refused),
        };
        self.settle(call, ours, &theirs, agree && as_foreseen, || {
            let fault = over_limit(arena).or_else(|| known::of_structure(arena));
            fault.filter(|_| as_foreseen)
        })
    }

    fn beside_padding(&mut self, call: Call<'_>, ours: &Answer, arena: Arena<'_>) -> Checked<()> {
        let Some(batches) = theirs::batches(arena) else {
            return self.skip("records or operations that the original can't have");
        };
        let theirs = original::padding(&batches);
        let agree = match &theirs {
            Ok(()) => ours.number == 0,
            Err(refused) => same_refusal(ours, refused),
        };
        self.settle(call, ours, &theirs, agree, || {
            over_limit(arena).or_else(|| known::of_structure(arena))
        })
    }

    fn beside_commitment(
        &mut self,
        call: Call<'_>,
        ours: &Answer,
        arena: Arena<'_>,
    ) -> Checked<()> {
        let Some(batches) = theirs::batches(arena) else {
            return self.skip("records or operations that the original can't have");
        };
        if batches
            .iter()
            .any(|batch| batch.numbers.iter().any(|&number| number >= FIELD))
        {
            return self.skip("a group number that is not in the field");
        }
        let theirs = original::commitment(&batches);
        let agree = match &theirs {
            Ok(()) => ours.number == 0,
            Err(refused) => same_refusal(ours, refused),
        };
        self.settle(call, ours, &theirs, agree, || {
            over_limit(arena).or_else(|| known::of_structure(arena))
        })
    }

    fn beside_table(
        &mut self,
        call: Call<'_>,
        ours: &Answer,
        arena: Arena<'_>,
        ask: fn(&[original::Batch]) -> Result<Vec<usize>, Refused>,
    ) -> Checked<()> {
        let Some(batches) = theirs::batches(arena) else {
            return self.skip("records or operations that the original can't have");
        };
        let theirs = ask(&batches);
        let agree = match &theirs {
            Ok(entries) => {
                ours.number == 0
                    && ours.rest[0] == entries.len()
                    && ours
                        .entries
                        .iter()
                        .zip(entries)
                        .all(|(&ours, &theirs)| ours == theirs as u64)
            }
            Err(refused) => same_refusal(ours, refused),
        };
        self.settle(call, ours, &theirs, agree, || match ours.number {
            10 => known::of_padding(arena),
            _ => over_limit(arena).or_else(|| known::of_structure(arena)),
        })
    }

    /// A batch of one record, with as many plain operations as it says.
    fn beside_one(record: &[u8]) -> (Option<original::Batch>, Option<Fault>) {
        if record.len() != RECORD {
            return (None, None);
        }
        let batch = Batch::of_record(record);
        let ops = vec![(2, 0); batch.total()];
        let codes = vec![2; batch.total()];
        let fault = known::of_structure(Arena {
            codes: &codes,
            values: &[],
            records: record,
        });
        (theirs::batch(&batch, ops), fault)
    }

    fn beside_group(
        &mut self,
        call: Call<'_>,
        ours: &Answer,
        record: &[u8],
        index: usize,
    ) -> Checked<()> {
        let (Some(batch), fault) = Self::beside_one(record) else {
            return self.skip("records or operations that the original can't have");
        };
        let theirs = original::op_idx_in_batch_to_group(&batch, index);
        let agree = match theirs {
            Ok(Some((group, position))) => ours.number == 0 && ours.rest == [1, group, position],
            Ok(None) => ours.number == 0 && ours.rest == [0; 3],
            Err(_) => false,
        };
        self.settle(call, ours, &theirs, agree, || fault)
    }

    fn beside_next(
        &mut self,
        call: Call<'_>,
        ours: &Answer,
        record: &[u8],
        group: usize,
    ) -> Checked<()> {
        let (Some(batch), fault) = Self::beside_one(record) else {
            return self.skip("records or operations that the original can't have");
        };
        let theirs = original::next_op_group_index(&batch, group);
        let agree = match theirs {
            Ok(Some(next)) => ours.number == 0 && ours.rest == [1, next, 0],
            Ok(None) => ours.number == 0 && ours.rest == [0; 3],
            Err(_) => false,
        };
        self.settle(call, ours, &theirs, agree, || {
            fault.or((group == usize::MAX).then_some(Fault::LargestGroup))
        })
    }

    /// Every index of a block that has its tables, both ways; and one past the end if asked.
    pub fn indices(
        &mut self,
        arena: Arena<'_>,
        raw_entries: &[u64],
        padded_entries: &[u64],
        past: bool,
    ) -> Checked<()> {
        let Some(batches) = theirs::batches(arena) else {
            return self.skip("records or operations that the original can't have");
        };
        type Ask = fn(&[original::Batch], &[usize]) -> Result<Vec<usize>, Refused>;
        let both: [(&[u64], Ask, bool); 2] = [
            (raw_entries, original::raw_to_padded, true),
            (padded_entries, original::padded_to_raw, false),
        ];
        for (entries, ask, raw) in both {
            let call = |index| {
                if raw {
                    Call::PaddedIndex {
                        table: entries,
                        raw: index,
                    }
                } else {
                    Call::RawIndex {
                        table: entries,
                        padded: index,
                    }
                }
            };
            let all: Vec<usize> = (0..entries.len()).collect();
            let theirs = ask(&batches, &all);
            for index in all {
                let ours = self.check(call(index))?;
                let agree = match &theirs {
                    Ok(answers) => ours.rest == [1, answers[index], 0],
                    Err(_) => false,
                };
                self.settle(call(index), &ours, &theirs, agree, || None)?;
            }
            if past {
                let index = entries.len();
                let ours = self.check(call(index))?;
                let theirs = ask(&batches, &[index]);
                let agree = theirs.is_ok();
                self.settle(call(index), &ours, &theirs, agree, || {
                    (ours.rest == [0; 3]).then_some(Fault::IndexPastEnd)
                })?;
            }
        }
        Ok(())
    }

    /// The functions with room of their own; the answer is for enough room.
    #[cfg(feature = "port")]
    pub fn owned(&mut self, call: Call<'_>, answer: &Answer) -> Checked<()> {
        // They are the same functions, in room that is made for them.
        if self.answers.is_some() {
            return Ok(());
        }
        self.tally.model[call.function() as usize] += 1;
        if crate::port::owned_agrees(call, answer) {
            return Ok(());
        }
        Err(stopped(
            "the form with room of its own differs",
            call,
            answer,
            &"another answer",
        ))
    }

    #[cfg(not(feature = "port"))]
    pub fn owned(&mut self, _: Call<'_>, _: &Answer) -> Checked<()> {
        Ok(())
    }
}

/// The call that reads one of two blocks that are compared.
pub fn decode_of(source: Source<'_>) -> Call<'_> {
    Call::Decode {
        table: source.table,
        bytes: source.bytes,
        at: source.at,
        room: source.room,
    }
}

/// The strict call of a call of decode.
pub fn strictly(call: Call<'_>) -> Call<'_> {
    match call {
        Call::Decode {
            table,
            bytes,
            at,
            room,
        } => Call::Strict {
            table,
            bytes,
            at,
            room,
        },
        other => other,
    }
}

/// The operations of a block that are no padding, by the places of its paddings.
pub fn own_list(block: &Block) -> List {
    let mut paddings = Vec::new();
    let mut from = 0;
    for batch in batches_of(&block.records) {
        for group in 0..usize::from(batch.count) {
            if batch.flags[group] == 1 {
                paddings.push(from + usize::from(batch.starts[group + 1]) - 1);
            }
        }
        from += batch.total();
    }
    let mut paddings = paddings.into_iter().peekable();
    let mut own = List::default();
    for (at, (&code, &value)) in block.codes.iter().zip(&block.values).enumerate() {
        if paddings.next_if_eq(&at).is_none() {
            own.push(code, value);
        }
    }
    own
}

/// The first record that one has and the other has not.
fn first_differing(ours: &[u8], theirs: &[u8]) -> Option<usize> {
    let mut ours = ours.chunks_exact(RECORD);
    let mut theirs = theirs.chunks_exact(RECORD);
    (0..).find_map(|i| match (ours.next(), theirs.next()) {
        (None, None) => Some(None),
        (ours, theirs) => (ours != theirs).then_some(Some(i)),
    })?
}

/// What is to be said of a block that decode takes, and the place: its own list is batched and
/// written again.
fn made_of(
    table: &[u8],
    read: &Block,
    own: &List,
    bytes: &[u8],
) -> Result<(Strict, usize), &'static str> {
    if own.codes.is_empty() {
        return Ok((Strict::NoList, 0));
    }
    if own.codes.len() > MOST_LISTED {
        return Ok((Strict::LongList, 0));
    }
    let built = model::build(table, &own.codes, &own.values, own.room());
    if built.number != 0 {
        return Err("a block's own list can't be batched");
    }
    let made = Block::of(&built);
    let same = crate::inputs::bytes_of_block(table, &made) == bytes;
    match first_differing(&read.records, &made.records) {
        None if same => Ok((Strict::Finished, 0)),
        Some(_) if same => Err("batches that differ have the same bytes"),
        None => Err("bytes that differ have the same batches"),
        Some(0) => Ok((Strict::First, 0)),
        Some(place) if place < built.rest[0] => Ok((Strict::Later, place)),
        Some(place) => Ok((Strict::Extra, place)),
    }
}

/// What the original makes of a block's own list.
#[derive(Debug)]
struct Made {
    own: Vec<(u8, u64)>,
    differs: Option<usize>,
    same_bytes: bool,
}

fn theirs_made(bytes: &[u8]) -> Result<Made, Refused> {
    let (read, _) = original::decode(bytes, 0)?;
    let own = original::raw_operations(&read)?;
    let made = original::batch(&own)?;
    let (ours, theirs) = (theirs::flat(&read), theirs::flat(&made));
    Ok(Made {
        own,
        differs: first_differing(&ours.records, &theirs.records),
        same_bytes: original::encode(&made)? == bytes,
    })
}

fn beside_model(call: Call<'_>, ours: &Answer) -> Checked<()> {
    let model = model::answer(call);
    if *ours == model {
        return Ok(());
    }
    Err(stopped("port and model differ", call, ours, &show(&model)))
}

#[cfg(feature = "port")]
fn model_head(table: &[u8], bytes: &[u8], at: usize) -> Answer {
    match model::head(table, bytes, at) {
        Ok((batches, operations)) => Answer {
            rest: [batches, operations, 0],
            ..Answer::default()
        },
        Err(refusal) => Answer {
            number: refusal.number,
            place: refusal.place,
            ..Answer::default()
        },
    }
}

/// Where a number is counted.
fn counted(number: u8) -> usize {
    usize::from(number.min(18))
}

fn same_refusal(ours: &Answer, theirs: &Refused) -> bool {
    !theirs.panicked
        && theirs.number != 0
        && theirs.number == ours.number
        && theirs.place.is_none_or(|place| place == ours.place)
}

/// The refusal's number and place; none for an answer.
fn named<T>(theirs: &Result<T, Refused>) -> Option<(u8, Option<usize>)> {
    theirs
        .as_ref()
        .err()
        .map(|refused| (refused.number, refused.place))
}

fn same_block(ours: &Answer, theirs: &theirs::Flat) -> bool {
    let [batches, operations, _] = ours.rest;
    ours.number == 0
        && ours.codes[..operations] == theirs.codes[..]
        && ours.values[..operations] == theirs.values[..]
        && ours.records[..batches * RECORD] == theirs.records[..]
}

fn over_limit(arena: Arena<'_>) -> Option<Fault> {
    if arena.codes.len() > MOST_PADDED {
        Some(Fault::OperationsOverLimit)
    } else if arena.records.len() / RECORD > MOST_BATCHES {
        Some(Fault::BatchesOverLimit)
    } else {
        None
    }
}

/// Where the parts of a block lie that can be read, by another way than the model's.
struct Layout {
    codes: Vec<u8>,
    batches: usize,
    nibbles: usize,
    flags: usize,
}

/// The count of a block in its three forms, limit or not, and where it ends.
fn wide_count(bytes: &[u8], at: usize) -> Option<(usize, usize)> {
    let first = *bytes.get(at)?;
    let length = first.trailing_zeros() as usize + 1;
    if length > 3 {
        return None;
    }
    let form = bytes.get(at..at + length)?;
    let word = form
        .iter()
        .rev()
        .fold(0usize, |word, &byte| (word << 8) | usize::from(byte));
    Some((word >> length, at + length))
}

fn layout(table: &[u8], bytes: &[u8], at: usize) -> Option<Layout> {
    let (count, mut here) = wide_count(bytes, at)?;
    let mut codes = Vec::new();
    for _ in 0..count {
        let code = *bytes.get(here)?;
        codes.push(code);
        here += match table.get(usize::from(code))? {
            0 => 1,
            1 | 2 => 9,
            _ => return None,
        };
    }
    let total = bytes.get(here..here + 4)?;
    let batches = u32::from_le_bytes(total.try_into().ok()?) as usize;
    let nibbles = here + 4;
    let flags = nibbles + 4 * batches;
    (flags + batches <= bytes.len()).then_some(Layout {
        codes,
        batches,
        nibbles,
        flags,
    })
}

fn decode_limit(table: &[u8], bytes: &[u8], at: usize) -> Option<Fault> {
    if bytes.len() > MOST_BYTES {
        return Some(Fault::BytesOverLimit);
    }
    if wide_count(bytes, at)?.0 > MOST_PADDED {
        return Some(Fault::OperationsOverLimit);
    }
    (layout(table, bytes, at)?.batches > MOST_BATCHES).then_some(Fault::BatchesOverLimit)
}

/// The lengths of a batch's groups and its count, as they are read; none if it runs past the
/// operations. The operations are those from the batch on.
fn lengths(table: &[u8], bytes: &[u8], codes: &[u8]) -> Option<([usize; 8], usize)> {
    let lengths: [usize; 8] =
        core::array::from_fn(|group| usize::from(bytes[group / 2] >> (4 * (group % 2)) & 15));
    let total: usize = lengths.iter().sum();
    let codes = codes.get(..total)?;
    let count = match lengths.iter().rposition(|&length| length > 0) {
        None => 0,
        Some(last) => {
            let immediates = codes[total - lengths[last]..]
                .iter()
                .filter(|&&code| table[usize::from(code)] == 1)
                .count();
            last + 1 + immediates
        }
    };
    Some((lengths, count))
}

/// Has a batch of these bytes a flag at or above its count? As far as the batches can be told.
fn kept_in_bytes(table: &[u8], bytes: &[u8], at: usize) -> bool {
    let Some(layout) = layout(table, bytes, at) else {
        return false;
    };
    let mut from = 0;
    for batch in 0..layout.batches {
        let nibbles = &bytes[layout.nibbles + 4 * batch..][..4];
        let Some((lengths, count)) = lengths(table, nibbles, &layout.codes[from..]) else {
            return false;
        };
        if count < 8 && bytes[layout.flags + batch] >> count != 0 {
            return true;
        }
        from += lengths.iter().sum::<usize>();
    }
    false
}

/// Has a call a block with a flag at or above a batch's count?
fn kept(call: Call<'_>) -> bool {
    match call {
        Call::Decode {
            table, bytes, at, ..
        } => kept_in_bytes(table, bytes, at),
        Call::Compare { first, second, .. } => [first, second]
            .iter()
            .any(|side| kept_in_bytes(side.table, side.bytes, side.at)),
        Call::Encode { arena, .. }
        | Call::Structure { arena }
        | Call::Padding { arena }
        | Call::Commitment { arena, .. }
        | Call::RawTable { arena, .. }
        | Call::PaddedTable { arena, .. } => arena.records.chunks_exact(RECORD).any(|record| {
            record[9..17]
                .iter()
                .skip(record[81].into())
                .any(|&flag| flag == 1)
        }),
        _ => false,
    }
}

/// A run of numbers in hex, cut where it is long.
fn hex<T: core::fmt::LowerHex>(run: &[T]) -> String {
    let mut text = format!("[{}]", run.len());
    for number in run.iter().take(600) {
        let _ = write!(text, " {number:x}");
    }
    if run.len() > 600 {
        text.push_str(" ..");
    }
    text
}

/// The input of a call, for a person.
pub fn describe(call: Call<'_>) -> String {
    let block = |arena: Arena<'_>| {
        format!(
            "codes {}\nvalues {}\nrecords {}",
            hex(arena.codes),
            hex(arena.values),
            hex(arena.records)
        )
    };
    let name = call.function().name();
    match call {
        Call::Build {
            table,
            codes,
            values,
            room,
        } => format!(
            "{name}\ntable {}\ncodes {}\nvalues {}\n{room:?}",
            hex(table),
            hex(codes),
            hex(values)
        ),
        Call::Encode {
            table,
            arena,
            buffer,
            at,
        } => format!(
            "{name}\ntable {}\n{}\nbuffer of {}, at {at}",
            hex(table),
            block(arena),
            buffer.len()
        ),
        Call::Decode {
            table,
            bytes,
            at,
            room,
        }
        | Call::Strict {
            table,
            bytes,
            at,
            room,
        } => format!(
            "{name}\ntable {}\nbytes {}\nat {at}, {room:?}",
            hex(table),
            hex(bytes)
        ),
        Call::Structure { arena } | Call::Padding { arena } => format!("{name}\n{}", block(arena)),
        Call::Commitment { table, arena } => {
            format!("{name}\ntable {}\n{}", hex(table), block(arena))
        }
        Call::RawTable { arena, room } | Call::PaddedTable { arena, room } => {
            format!("{name}\n{}\nroom {room}", block(arena))
        }
        Call::PaddedIndex { table, raw: index }
        | Call::RawIndex {
            table,
            padded: index,
        } => format!("{name}\nentries {}\nindex {index}", hex(table)),
        Call::Group { record, index } => format!("{name}\nrecord {}\nindex {index}", hex(record)),
        Call::NextGroup { record, group } => {
            format!("{name}\nrecord {}\ngroup {group}", hex(record))
        }
        Call::Compare {
            first,
            second,
            report,
        } => {
            let side = |side: Source<'_>| {
                format!(
                    "table {}\nbytes {}\nat {}, {:?}",
                    hex(side.table),
                    hex(side.bytes),
                    side.at,
                    side.room
                )
            };
            format!(
                "{name}\nfirst: {}\nsecond: {}\nreport of {report}",
                side(first),
                side(second)
            )
        }
    }
}

/// An answer for a person: outputs without the zeros at their end.
fn show(answer: &Answer) -> String {
    fn cut<T: core::fmt::LowerHex + PartialEq + Default>(run: &[T]) -> String {
        let end = run.iter().rposition(|item| *item != T::default());
        format!(
            "[{}] {}",
            run.len(),
            hex(&run[..end.map_or(0, |at| at + 1)])
        )
    }
    let filled = answer.report.iter().rposition(|&number| number != 0);
    let report = &answer.report[..filled.map_or(0, |at| at + 1).min(600)];
    format!(
        "mark {}, number {}, place {}, rest {:?}\n  report [{}] {report:?}\n  codes {}\n  values {}\n  records {}\n  buffer {}\n  entries {}",
        answer.mark,
        answer.number,
        answer.place,
        answer.rest,
        answer.report.len(),
        cut(&answer.codes),
        cut(&answer.values),
        cut(&answer.records),
        cut(&answer.buffer),
        cut(&answer.entries)
    )
}

fn stopped(why: &str, call: Call<'_>, ours: &Answer, theirs: &impl core::fmt::Debug) -> Stopped {
    let mut others = format!("{theirs:?}");
    others.truncate(4_000);
    Stopped(format!(
        "{why}\n{}\nours: {}\ntheirs: {others}",
        describe(call),
        show(ours)
    ))
}
