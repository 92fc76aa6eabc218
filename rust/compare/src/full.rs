//! Files whose table is full, and one more line.

use crate::buffers::any_file_case;
use crate::case::Case;
use crate::faults::{fault, long_fault};
use crate::limits::{many_entries, many_sections, ENTRIES, SECTIONS};
use crate::placed::{idle_lines, Placed};
use crate::random::Random;

/// Headers of a section that no other header opens.
const NEW_SECTION: [&[u8]; 7] = [
    b"[new]\n",
    b" [new] \n",
    b"[n\\\new]\n",
    b"[new\\\n# x\n]\n",
    b"\\\n[new]\n",
    b"\\\n;\\\n\\\n [new\\\n]",
    b"[new]\\\n\n",
];
/// Entries.
const NEW_ENTRY: [&[u8]; 7] = [
    b"new=1\n",
    b" new = \n",
    b"new\\\n=1\n",
    b"new=\\\n#x\\\n;\n1\n",
    b"\\\n\\\nnew=1\n",
    b"new=1\\\n\n",
    b"new=1\\",
];

/// A table with all sections or with all entries, and nothing more yet.
fn full(random: &mut Random, sections: bool) -> Placed {
    let mut before = if sections {
        many_sections(random, SECTIONS)
    } else {
        many_entries(random, ENTRIES)
    };
    if random.one_in(4) {
        let count = random.between(1, 5000);
        before.extend(idle_lines(random, count));
    }
    Placed {
        before,
        line: Vec::new(),
        after: random.pick(&[&b""[..], b"", b"[s0]\n", b"K\n"]).to_vec(),
    }
}

/// A full table, and the 65th section or the 513th entry.
pub fn one_more(random: &mut Random) -> Placed {
    let sections = random.one_in(2);
    let lines = if sections { NEW_SECTION } else { NEW_ENTRY };
    let line = random.pick(&lines).to_vec();
    let ends = line.ends_with(b"\n");
    let placed = full(random, sections);
    let after = if ends { placed.after } else { Vec::new() };
    Placed {
        line,
        after,
        ..placed
    }
}

/// A full table, and a line with a fault of its own: this one, or 5 and this one.
pub fn faulty(random: &mut Random, number: usize, too_long: bool) -> Placed {
    let sections = random.one_in(2);
    let line = if too_long {
        long_fault(random, number)
    } else {
        fault(random, number)
    };
    Placed {
        line,
        ..full(random, sections)
    }
}

/// A full table, and a line that it has room for: the first header again, or what it is not full of.
fn fitting(random: &mut Random) -> Placed {
    let sections = random.one_in(2);
    let full = full(random, sections);
    let line = if random.one_in(3) {
        let first = full.before.split_inclusive(|&byte| byte == b'\n').next();
        [
            random.pick(&[&b""[..], b" ", b"\\\n"]),
            first.unwrap_or(b""),
        ]
        .concat()
    } else {
        let lines = if sections { NEW_ENTRY } else { NEW_SECTION };
        random.pick(&lines).to_vec()
    };
    Placed {
        line,
        after: Vec::new(),
        ..full
    }
}

/// A case with a full table and one more line.
pub fn drawn(random: &mut Random) -> Case {
    let number = random.between(6, 8);
    let placed = match random.below(6) {
        0 => one_more(random),
        1 => faulty(random, number, false),
        2 => faulty(random, number, true),
        3 => faulty(random, 5, false),
        _ => fitting(random),
    };
    any_file_case(random, placed.file())
}
