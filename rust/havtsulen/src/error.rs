//! The refusals: number, name, place and text of each, said once.

use std::fmt;

macro_rules! refusals {
    ($($number:literal $name:ident $({ $place:ident })? $text:literal,)*) => {
        /// Why a call was refused. A refused call has changed no buffer.
        ///
        /// ```
        /// use havtsulen::Error;
        ///
        /// let error = havtsulen::check_file(b"[A]\nK=\x01\n").unwrap_err();
        /// assert_eq!(error, Error::ControlByte { line: 2 });
        /// assert_eq!((error.number(), error.place()), (4, 2));
        /// assert_eq!(error.to_string(), "a control byte stands in the file, line 2");
        /// ```
        #[derive(Debug, Clone, Copy, PartialEq, Eq)]
        pub enum Error {
            $(
                #[doc = concat!("Refusal ", $number, ": ", $text, ".")]
                $name $({
                    #[doc = concat!("The ", stringify!($place), " of the fault.")]
                    $place: usize,
                })?,
            )*
        }

        impl Error {
            /// The refusal with this number and this place. None where there is no such number, or
            /// where there is a place that is not 0 for a refusal that has none.
            pub const fn new(number: usize, place: usize) -> Option<Error> {
                match number {
                    $($number => refusals!(@new $name, place $(, $place)?),)*
                    _ => None,
                }
            }

            /// The number of the refusal.
            pub const fn number(self) -> usize {
                match self {
                    $(Error::$name { .. } => $number,)*
                }
            }

            /// The line, from 1, or the offset, from 0; 0 where the refusal has no place.
            pub const fn place(self) -> usize {
                match self {
                    $(Error::$name $({ $place })? => refusals!(@place $($place)?),)*
                }
            }

            /// The refusal in words, without its place.
            pub const fn text(self) -> &'static str {
                match self {
                    $(Error::$name { .. } => $text,)*
                }
            }

            /// What the place is: `line` or `offset`.
            const fn place_name(self) -> Option<&'static str> {
                match self {
                    $(Error::$name { .. } => refusals!(@place_name $($place)?),)*
                }
            }
        }
    };
    (@new $name:ident, $given:ident) => {
        if $given == 0 { Some(Error::$name) } else { None }
    };
    (@new $name:ident, $given:ident, $place:ident) => { Some(Error::$name { $place: $given }) };
    (@place) => { 0 };
    (@place $place:ident) => { $place };
    (@place_name) => { None };
    (@place_name $place:ident) => { Some(stringify!($place)) };
}

refusals! {
    1 ShortBuffer "a buffer is shorter than stated",
    2 FileTooLong "the file is longer than 65,535 bytes, where a missing last line feed counts as one",
    3 NotUtf8 { line } "the file is not UTF-8",
    4 ControlByte { line } "a control byte stands in the file",
    5 LineTooLong { line } "a line, with those that continue it, is longer than 4,096 bytes",
    6 BadHeader { line } "a section header is malformed",
    7 NoEqualsSign { line } "a setting has no equals sign",
    8 BadKey { line } "a key is empty or has a byte that keys may not have",
    9 NoSection { line } "a setting stands before any section header",
    10 TooMany { line } "there are more than 64 sections or 512 settings",
    20 TextTooLong "the text is longer than 4,096 bytes",
    21 ForbiddenByte { offset } "a control byte stands in the text",
    22 MisplacedQuote { offset } "a quote inside a bare item, or no blank after a closing quote",
    23 OpenQuote { offset } "a quote is not closed",
    24 EscapeForm { offset } "an escape has none of the known forms",
    25 EscapeValue { offset } "an escape stands for a value that is not allowed",
    26 TooManyItems { offset } "there are more than 256 items",
    27 NulByte "an item to write has a NUL byte",
    28 BadEnds "the ends of the items fall or pass their bytes",
    30 NoBoolean "the text is no boolean",
    31 SpanForm "the text is no time span",
    32 SpanTooLarge "the time span is too large",
    40 NoEntry "there is no such setting",
    41 FaultyRecord "the table is faulty: a record points outside the text or past the section count, or a count passes its buffer",
}

impl fmt::Display for Error {
    /// The text, and the place where there is one. A list to write has no offsets: there
    /// `TooManyItems` has the offset 0, which no 257th item of a text has.
    fn fmt(&self, f: &mut fmt::Formatter<'_>) -> fmt::Result {
        f.write_str(self.text())?;
        match (self, self.place_name()) {
            (Error::TooManyItems { offset: 0 }, _) | (_, None) => Ok(()),
            (_, Some(name)) => write!(f, ", {name} {}", self.place()),
        }
    }
}

impl std::error::Error for Error {}
