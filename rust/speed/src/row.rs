//! What is timed: a call with a set of inputs.

use std::mem::swap;

use compare::buffers::plain_case;
use compare::calls::{Side, LIBRARY, REFERENCE};
use compare::case::{Call, Case, Lent};
use compare::compare::Outcome;
use compare::guarded::Guarded;

use crate::lists::Items;

/// The two that are compared: first the proved library, then plain Rust.
pub const SIDES: [Side; 2] = [LIBRARY, REFERENCE];

/// What one call reads: a file or a text to split, or items to write.
pub struct Input {
    text: Guarded<u8>,
    items: Guarded<u8>,
    ends: Guarded<usize>,
    /// The bytes that the time is divided by: those of the file or of the text, read or written.
    pub bytes: usize,
}

impl Input {
    /// A file, or a text to split.
    pub fn text(text: &[u8]) -> Input {
        Input {
            text: Guarded::new(text),
            items: Guarded::new(&[]),
            ends: Guarded::new(&[]),
            bytes: text.len(),
        }
    }

    /// Items to write.
    pub fn items(items: &Items) -> Input {
        Input {
            text: Guarded::new(&[]),
            items: Guarded::new(&items.bytes),
            ends: Guarded::new(&items.ends),
            bytes: items.length,
        }
    }
}

/// A line of a table: one call, made with each of the inputs.
pub struct Row {
    pub name: String,
    pub call: Call,
    pub inputs: Vec<Input>,
    /// What each call has to answer: 0, or the number of a refusal.
    pub number: usize,
}

impl Row {
    /// Calls that are all answered with this number.
    pub fn new(name: &str, call: Call, inputs: Vec<Input>, number: usize) -> Row {
        Row {
            name: name.to_string(),
            call,
            inputs,
            number,
        }
    }

    /// All bytes of the inputs.
    pub fn bytes(&self) -> usize {
        self.inputs.iter().map(|input| input.bytes).sum()
    }
}

/// The buffers that are lent to every call of a kind, the same for both sides.
pub struct Bench {
    lent: Lent,
}

impl Bench {
    /// Buffers of the stated sizes.
    pub fn new(call: Call) -> Bench {
        Bench {
            lent: plain_case(call, &[]).lend(),
        }
    }

    /// Clears the buffers and makes the call through `make`, which is given the side's function and the case.
    pub fn call(
        &mut self,
        side: Side,
        input: &mut Input,
        make: impl FnOnce(fn(&mut Lent) -> usize, &mut Lent) -> usize,
    ) -> Outcome {
        self.clear();
        self.exchange(input);
        let number = make(side.call, &mut self.lent);
        let after = self.lent.clone();
        self.exchange(input);
        Outcome {
            side: side.name,
            number: Some(number),
            after,
        }
    }

    fn clear(&mut self) {
        let Case {
            text, bytes, out, ..
        } = &mut self.lent;
        for buffer in [text, bytes, out] {
            buffer.fill(0);
        }
        let Case {
            sections,
            entries,
            ends,
            report,
            ..
        } = &mut self.lent;
        for buffer in [sections, entries, ends, report] {
            buffer.fill(0);
        }
    }

    /// Lends the input, or takes it back.
    fn exchange(&mut self, input: &mut Input) {
        swap(&mut self.lent.input, &mut input.text);
        if self.lent.call == Call::Write {
            swap(&mut self.lent.bytes, &mut input.items);
            swap(&mut self.lent.ends, &mut input.ends);
        }
    }
}
