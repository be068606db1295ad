//! Call sequences: library and plain store beside each other, compared after every call.

use crate::settle::settle;
use crate::tally::Tally;
use hosts::plain::{self, Call, Refusal, Said, Store};
use hosts::random::calls::{any_sequence, Sequence, Step};
use hosts::random::Random;
use linked::library::{Answer, Memory};

const STEPS: usize = 100;

/// One step in that many is first tried with a top that does not fit 32 bits.
const WIDE_TOPS: usize = 16;

/// Each function with its ways to accept and its refusals; `function_of` numbers them as they stand here.
const FUNCTIONS: [(&str, &[&str], &[u64]); 12] = [
    ("put integer", &["accepted"], &[1, 7, 10]),
    ("put nil", &["accepted"], &[1, 7]),
    ("copy", &["accepted"], &[1, 7]),
    ("new record", &["accepted"], &[1, 7, 12, 11]),
    ("new raw", &["accepted"], &[1, 7, 12, 11]),
    ("read field", &["accepted"], &[1, 7, 13, 8, 9]),
    ("write field", &["accepted"], &[1, 7, 13, 8, 9]),
    ("read raw", &["accepted"], &[1, 7, 13, 8, 9]),
    ("write raw", &["accepted"], &[1, 7, 13, 8, 9]),
    ("ask", &["integer", "nil", "record", "raw"], &[1, 7, 13]),
    ("same", &["yes", "no"], &[1, 7]),
    ("store collection", &["accepted"], &[1, 2, 3, 4, 5, 6]),
];

pub struct Sequences {
    functions: [Tally; FUNCTIONS.len()],
    wide_tops: Tally,
}

impl Sequences {
    pub fn new() -> Sequences {
        Sequences {
            functions: FUNCTIONS.map(|(name, accepted, refused)| Tally::new(name, accepted, refused)),
            wide_tops: Tally::new("any of these twelve with a top over 32 bits", &[], &[1]),
        }
    }

    pub fn tallies(&self) -> impl Iterator<Item = &Tally> {
        self.functions.iter().chain([&self.wide_tops])
    }

    pub fn compare(&mut self, number: u64, random: &mut Random) {
        let sequence = any_sequence(random, STEPS);
        let mut run = Run::new(number, &sequence, random);
        for (position, step) in sequence.steps.iter().enumerate() {
            if random.below(WIDE_TOPS) == 0 {
                let expected = run.take_with_top(wide_top(random, run.due.record[0]), position);
                self.wide_tops.add(&expected, name);
            }
            let expected = run.take(position);
            self.functions[function_of(step)].add(&expected, name);
        }
    }
}

/// A sequence under way: the memory that is due, and the memory that the library left.
struct Run<'a> {
    number: u64,
    steps: &'a [Step],
    start: Memory,
    due: Memory,
    left: Memory,
}

impl Run<'_> {
    /// Words 2 to 7 of the record hold anything.
    fn new<'a>(number: u64, sequence: &'a Sequence, random: &mut Random) -> Run<'a> {
        let Sequence { start, steps } = sequence;
        let mut record = [0; 8].map(|_: u64| random.bits());
        record[0] = u64::from(start.store.top);
        record[1] = start.store.calls;
        let start = Memory {
            record,
            heap: start.heap.clone(),
            roots: start.roots.clone(),
        };
        Run {
            number,
            steps,
            due: start.clone(),
            left: start.clone(),
            start,
        }
    }

    /// One step by both, each on its own memory and with its own tables.
    fn take(&mut self, position: usize) -> plain::Answer {
        let top = self.due.record[0];
        let [mut due_step, mut left_step] = [0, 1].map(|_| self.steps[position].clone());
        let expected = by_reading(&mut self.due, &mut due_step);
        let answer = by_library(&mut self.left, &mut left_step);
        settle(
            || self.describe(position, top),
            (&expected, &(&self.due, &due_step)),
            (&answer, &(&self.left, &left_step)),
        );
        expected
    }

    /// The step with another top in the record, which is then put back.
    fn take_with_top(&mut self, top: u64, position: usize) -> plain::Answer {
        let right_top = self.due.record[0];
        self.due.record[0] = top;
        self.left.record[0] = top;
        let expected = self.take(position);
        self.due.record[0] = right_top;
        self.left.record[0] = right_top;
        expected
    }

    /// The memory before the step is what the reading leaves after those before it.
    fn describe(&self, position: usize, top: u64) -> String {
        let mut before = self.start.clone();
        for step in &self.steps[..position] {
            let _ = by_reading(&mut before, &mut step.clone());
        }
        before.record[0] = top;
        format!(
            "sequence {}, from {:?}\nstep {position}, on {before:?}\ncall: {:?}",
            self.number, self.start, self.steps[position]
        )
    }
}

/// The plain store on the record that C keeps. A top of more than 32 bits is above every heap's length.
fn by_reading(memory: &mut Memory, step: &mut Step) -> plain::Answer {
    let Memory { record, heap, roots } = memory;
    let Ok(top) = u32::try_from(record[0]) else {
        return Err(Refusal { number: 1, place: 0 });
    };
    let store = Store {
        top,
        calls: record[1],
    };
    let (after, said) = match step {
        Step::Call(call) => plain::answer(store, heap, roots, *call),
        Step::Collect(brought) => plain::collect_call(store, heap, roots, brought),
    };
    record[0] = u64::from(after.top);
    record[1] = after.calls;
    said
}

fn by_library(memory: &mut Memory, step: &mut Step) -> Answer {
    let call = match step {
        Step::Call(call) => *call,
        Step::Collect(brought) => return memory.collect(brought),
    };
    match call {
        Call::PutInt(slot, value) => memory.put_integer(slot, value),
        Call::PutNil(slot) => memory.put_nil(slot),
        Call::Copy(source, target) => memory.copy(source, target),
        Call::NewRecord(slot, k) => memory.new_record(slot, k),
        Call::NewRaw(slot, k) => memory.new_raw(slot, k),
        Call::ReadField(object, field, target) => memory.read_field(object, field, target),
        Call::WriteField(object, field, source) => memory.write_field(object, field, source),
        Call::ReadRaw(object, index) => memory.read_raw(object, index),
        Call::WriteRaw(object, index, word) => memory.write_raw(object, index, word),
        Call::Ask(slot) => memory.ask(slot),
        Call::Same(first, second) => memory.same(first, second),
    }
}

/// Mostly one whose low half alone would do.
fn wide_top(random: &mut Random, top: u64) -> u64 {
    let any = random.bits() | 1 << 32;
    let high = u64::from(random.word()) << 32 | 1 << 32;
    random.pick(&[top + (1 << 32), top + high, 1 << 32, 1 << 63, u64::MAX, any])
}

fn function_of(step: &Step) -> usize {
    match step {
        Step::Call(Call::PutInt(..)) => 0,
        Step::Call(Call::PutNil(..)) => 1,
        Step::Call(Call::Copy(..)) => 2,
        Step::Call(Call::NewRecord(..)) => 3,
        Step::Call(Call::NewRaw(..)) => 4,
        Step::Call(Call::ReadField(..)) => 5,
        Step::Call(Call::WriteField(..)) => 6,
        Step::Call(Call::ReadRaw(..)) => 7,
        Step::Call(Call::WriteRaw(..)) => 8,
        Step::Call(Call::Ask(..)) => 9,
        Step::Call(Call::Same(..)) => 10,
        Step::Collect(_) => 11,
    }
}

fn name(said: &Said) -> &'static str {
    match said {
        Said::Done | Said::Word(_) | Said::Collected(_) => "accepted",
        Said::Integer(_) => "integer",
        Said::Nil => "nil",
        Said::Record(_) => "record",
        Said::Raw(_) => "raw",
        Said::Same(true) => "yes",
        Said::Same(false) => "no",
    }
}
