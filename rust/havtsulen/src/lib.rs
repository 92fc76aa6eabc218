//! Settings files in the syntax of systemd.syntax(7), narrowed by the house rules: a safe wrapper over
//! the proved library.
//!
//! ```
//! let file = b"# bench 3
//! [Cell]
//! Serial=  A 17 \\
//! ; old tag
//!   rev 2
//! Zero=
//! [Link]
//! Wait=2min 200ms
//! [Cell]
//! Note=tail\\\x20
//! ";
//! let normal = b"[Cell]
//! Serial=A 17    rev 2
//! Zero=
//! Note=tail\\\x20
//! [Link]
//! Wait=2min 200ms
//! ";
//! assert_eq!(havtsulen::normal(file)?, normal);
//!
//! let table = havtsulen::Table::read(file)?;
//! assert_eq!(table.last(b"Cell", b"Note")?, b"tail\\");
//! let wait = table.last(b"Link", b"Wait")?;
//! assert_eq!(havtsulen::duration(wait)?.as_millis(), 120_200);
//! # Ok::<(), havtsulen::Error>(())
//! ```
//!
//! [`Table`], [`normal`], [`items`], [`list`] and [`duration`] take care of their buffers. The other
//! functions take lent ones, which may be used again from call to call; each is one call of the library,
//! which allocates nothing and keeps nothing. A buffer that is shorter than stated is
//! [`Error::ShortBuffer`], a longer one is fine. A refused call changes no buffer, and an accepted one
//! only the parts that its answer names.
//!
//! # What it needs
//!
//! Rust 1.82 or later, and the archive `libhavtsulen.a`, which has to be there before the crate is
//! built: `c/archive` in the root folder of the repository makes it, or HAVTSULEN_LIB_DIR
//! names the folder that has it. The archive is for x86-64 Linux, and so is every function here, [`items`]
//! and [`list`] too: each calls it.
//!
//! # Stack
//!
//! A call needs at most 128 KiB of stack ([`STACK_BYTES`]). The main thread and the threads of
//! [`std::thread`] have more; give a thread with a stack of your own choice at least that much on top of
//! its own need. The library touches its stack page by page, so that a call on one that is too small ends
//! the program at the guard page below it.
//!
//! # Threads
//!
//! There is no state and there are no locks: any number of threads may call at once.
#![deny(unsafe_op_in_unsafe_fn, missing_docs)]

mod calls;
mod error;
mod owned;
pub mod raw;
mod types;

pub use calls::{boolean, check_file, find, normal_text, read, span, split};
pub use calls::{value, value_check, well_formed_length, write};
pub use error::Error;
pub use owned::{duration, items, list, normal, Entry, Table};
pub use types::{Counts, Items, Part, Sizes, Which};
pub use types::{ENTRY_NUMBERS, FILE_BYTES, ITEM_BYTES, ITEM_ENDS, NORMAL_BYTES, REPORT_NUMBERS};
pub use types::{SECTION_NUMBERS, STACK_BYTES, TEXT_BYTES, WRITE_BYTES};
