//! One call with all that is lent to it.

use crate::guarded::Guarded;

/// The eleven calls.
#[derive(Clone, Copy, Debug, Default, PartialEq, Eq)]
#[allow(missing_docs)]
pub enum Call {
    #[default]
    WellFormedLength,
    CheckFile,
    Read,
    Find,
    Value,
    ValueCheck,
    NormalText,
    Split,
    Write,
    Boolean,
    Span,
}

impl Call {
    /// All of them, in the order of the interface.
    pub const ALL: [Call; 11] = [
        Call::WellFormedLength,
        Call::CheckFile,
        Call::Read,
        Call::Find,
        Call::Value,
        Call::ValueCheck,
        Call::NormalText,
        Call::Split,
        Call::Write,
        Call::Boolean,
        Call::Span,
    ];

    /// The name in the interface.
    pub fn name(self) -> &'static str {
        match self {
            Call::WellFormedLength => "well_formed_length",
            Call::CheckFile => "check_file",
            Call::Read => "read",
            Call::Find => "find",
            Call::Value => "value",
            Call::ValueCheck => "value_check",
            Call::NormalText => "normal_text",
            Call::Split => "split",
            Call::Write => "write",
            Call::Boolean => "boolean",
            Call::Span => "span",
        }
    }
}

/// A call and its arguments. What the call does not take is empty.
#[derive(Clone, Debug, Default, PartialEq, Eq)]
pub struct Case<B = Vec<u8>, N = Vec<usize>> {
    /// Which call.
    pub call: Call,
    /// The file; or the text to split or to judge.
    pub input: B,
    /// The section name to look up.
    pub section: B,
    /// The key to look up.
    pub key: B,
    /// 0 for the first entry, any other number for the last.
    pub which: usize,
    /// The index of the entry whose value is asked for.
    pub index: usize,
    /// The text buffer of a table.
    pub text: B,
    /// The sections of a table.
    pub sections: N,
    /// How many sections are stated.
    pub section_count: usize,
    /// The entries of a table.
    pub entries: N,
    /// How many entries are stated.
    pub entry_count: usize,
    /// The bytes of items.
    pub bytes: B,
    /// The ends of items.
    pub ends: N,
    /// The normal text, or the text of a list.
    pub out: B,
    /// The report.
    pub report: N,
}

/// A case whose arguments are all guarded, as they are before the call or after it.
pub type Lent = Case<Guarded<u8>, Guarded<usize>>;

/// A field of a case that holds bytes: its name, how it is read and how it is changed.
pub type Bytes = (
    &'static str,
    fn(&Case) -> &Vec<u8>,
    fn(&mut Case) -> &mut Vec<u8>,
);
/// A field of a case that holds numbers.
pub type Numbers = (
    &'static str,
    fn(&Case) -> &Vec<usize>,
    fn(&mut Case) -> &mut Vec<usize>,
);

macro_rules! field {
    ($name:ident) => {
        (
            stringify!($name),
            |case| &case.$name,
            |case| &mut case.$name,
        )
    };
}

impl Lent {
    /// All that holds bytes, with its name.
    pub fn all_bytes(&self) -> [(&'static str, &Guarded<u8>); 6] {
        [
            ("input", &self.input),
            ("section", &self.section),
            ("key", &self.key),
            ("text", &self.text),
            ("bytes", &self.bytes),
            ("out", &self.out),
        ]
    }

    /// All that holds numbers, but for the report.
    pub fn all_numbers(&self) -> [(&'static str, &Guarded<usize>); 3] {
        [
            ("sections", &self.sections),
            ("entries", &self.entries),
            ("ends", &self.ends),
        ]
    }

    /// The name of a buffer with a changed guard.
    pub fn broken_guard(&self) -> Option<&'static str> {
        let bytes = self.all_bytes().into_iter();
        let numbers = self.all_numbers().into_iter();
        bytes
            .map(|(name, bytes)| (name, bytes.intact()))
            .chain(numbers.map(|(name, numbers)| (name, numbers.intact())))
            .chain([("report", self.report.intact())])
            .find_map(|(name, intact)| (!intact).then_some(name))
    }
}

impl Case {
    /// A guarded copy.
    pub fn lend(&self) -> Lent {
        Case {
            call: self.call,
            input: Guarded::new(&self.input),
            section: Guarded::new(&self.section),
            key: Guarded::new(&self.key),
            which: self.which,
            index: self.index,
            text: Guarded::new(&self.text),
            sections: Guarded::new(&self.sections),
            section_count: self.section_count,
            entries: Guarded::new(&self.entries),
            entry_count: self.entry_count,
            bytes: Guarded::new(&self.bytes),
            ends: Guarded::new(&self.ends),
            out: Guarded::new(&self.out),
            report: Guarded::new(&self.report),
        }
    }

    /// The fields of bytes that the call only reads.
    pub fn lent_bytes(&self) -> &'static [Bytes] {
        const INPUT: [Bytes; 1] = [field!(input)];
        const TABLE: [Bytes; 3] = [field!(section), field!(key), field!(text)];
        const ITEMS: [Bytes; 1] = [field!(bytes)];
        match self.call {
            Call::Find | Call::Value | Call::ValueCheck => &TABLE,
            Call::Write => &ITEMS,
            Call::WellFormedLength | Call::CheckFile | Call::Boolean | Call::Span => &INPUT,
            Call::Read | Call::NormalText | Call::Split => &INPUT,
        }
    }

    /// The fields of numbers that the call only reads.
    pub fn lent_numbers(&self) -> &'static [Numbers] {
        const TABLE: [Numbers; 2] = [field!(entries), field!(sections)];
        const ITEMS: [Numbers; 1] = [field!(ends)];
        match self.call {
            Call::Find | Call::Value | Call::ValueCheck => &TABLE,
            Call::Write => &ITEMS,
            Call::WellFormedLength | Call::CheckFile | Call::Boolean | Call::Span => &[],
            Call::Read | Call::NormalText | Call::Split => &[],
        }
    }
}
