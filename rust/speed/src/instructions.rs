//! Counts of instructions, by callgrind.

use std::path::Path;
use std::process::{id, Command, Stdio};
use std::{env, fs, io};

use compare::case::Lent;

use crate::row::{Bench, SIDES};
use crate::tables::Table;

/// The argument of the run that is counted.
pub const COUNT: &str = "--count";

/// Makes a call whose instructions are counted: callgrind knows this function by its name.
#[no_mangle]
#[inline(never)]
fn speed_counted(call: fn(&mut Lent) -> usize, lent: &mut Lent) -> usize {
    call(lent)
}

/// Ends a count: callgrind writes it to a file.
#[no_mangle]
#[inline(never)]
fn speed_count_ends() {
    std::hint::black_box(());
}

/// Makes each call of each row once: for a row first those of the library, then those of the reference.
pub fn run_each_once(mut tables: Vec<Table>) {
    for row in tables.iter_mut().flat_map(|table| &mut table.rows) {
        let mut bench = Bench::new(row.call);
        for side in SIDES {
            for input in &mut row.inputs {
                bench.call(side, input, speed_counted);
            }
            speed_count_ends();
        }
    }
}

/// The counts of all rows, two for each; an error where callgrind is not there.
pub fn counts() -> io::Result<Vec<[u64; 2]>> {
    let folder = env::temp_dir().join(format!("speed-{}", id()));
    fs::create_dir(&folder)?;
    let counts = run(&folder).and_then(|()| read(&folder));
    fs::remove_dir_all(&folder)?;
    counts
}

/// Runs this program under callgrind, with a file for each count.
fn run(folder: &Path) -> io::Result<()> {
    let file = folder.join("counts");
    let status = Command::new("valgrind")
        .args(["--tool=callgrind", "--toggle-collect=speed_counted"])
        .arg("--dump-after=speed_count_ends")
        .arg(format!("--callgrind-out-file={}", file.display()))
        .arg(env::current_exe()?)
        .arg(COUNT)
        .stdout(Stdio::null())
        .stderr(Stdio::null())
        .status()?;
    if status.success() {
        Ok(())
    } else {
        Err(io::Error::other("valgrind has failed"))
    }
}

/// The files `counts.1`, `counts.2` .. by twos.
fn read(folder: &Path) -> io::Result<Vec<[u64; 2]>> {
    let mut counts = Vec::new();
    while let Ok(file) = fs::read_to_string(folder.join(format!("counts.{}", counts.len() + 1))) {
        let total = file.lines().find_map(|line| line.strip_prefix("totals: "));
        let total = total.and_then(|total| total.trim().parse().ok());
        counts.push(total.ok_or_else(|| io::Error::other("a count without a total"))?);
    }
    Ok(counts
        .chunks_exact(2)
        .map(|pair| [pair[0], pair[1]])
        .collect())
}
