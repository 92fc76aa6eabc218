//! `real_files FOLDER ..`: compares the proved library with the reference over the files of folders.
//!
//! Each regular file of at most a million bytes is checked, read and made normal. Each entry of an accepted
//! file is looked up, and its value is asked for, split, and taken as a boolean and as a time span. Lent
//! buffers hold random patterns. Exit status: 0 all alike, 1 a difference, 2 no folder given, or no file
//! in it.

use std::collections::{BTreeMap, HashSet};
use std::env;
use std::fs::{self, File, Metadata};
use std::io::{self, Read};
use std::os::unix::fs::MetadataExt;
use std::path::{Path, PathBuf};
use std::process::ExitCode;

use compare::buffers::{file_case, split_case, text_case};
use compare::calls::SIDES;
use compare::case::{Call, Case};
use compare::compare::compare;
use compare::random::Random;
use compare::run::shortened;
use havtsulen::Table;

/// Bytes of the longest file that is looked at. Those above 65,535 are refused.
const MOST: u64 = 1_000_000;

/// How the inputs of one call were answered, by number; 0 is accepted.
#[derive(Default)]
struct Numbers(BTreeMap<usize, usize>);

impl Numbers {
    fn print(&self, call: Call) {
        let accepted = self.0.get(&0).copied().unwrap_or(0);
        let refused = self.0.iter().filter(|(&number, _)| number != 0);
        let refused: Vec<String> = refused
            .map(|(number, times)| format!("{number}: {times}"))
            .collect();
        let inputs: usize = self.0.values().sum();
        let refused = if refused.is_empty() {
            "none".to_string()
        } else {
            refused.join(", ")
        };
        println!(
            "{:<12} {inputs:>8} inputs, {accepted:>8} accepted; refused: {refused}",
            call.name()
        );
    }
}

/// What was found so far.
#[derive(Default)]
struct Findings {
    files: usize,
    accepted: usize,
    too_long: usize,
    passed_over: usize,
    differences: usize,
    calls: BTreeMap<&'static str, Numbers>,
}

impl Findings {
    /// Compares one call, and prints a difference with its shortened input.
    fn compare(&mut self, path: &Path, case: Case) {
        match compare(&case, &SIDES) {
            Ok(outcome) => {
                let numbers = self.calls.entry(case.call.name()).or_default();
                let number = outcome
                    .number
                    .expect("an outcome without difference has a number");
                *numbers.0.entry(number).or_default() += 1;
            }
            Err(difference) => {
                self.differences += 1;
                println!("DIFFERENCE in {}", path.display());
                println!("{}", shortened(&case, &SIDES, difference));
            }
        }
    }

    fn examine(&mut self, path: &Path, file: &[u8]) {
        self.files += 1;
        let mut random = Random::new(self.files as u64);
        for call in [Call::CheckFile, Call::Read, Call::NormalText] {
            self.compare(path, file_case(&mut random, call, file.to_vec()));
        }
        let Ok(table) = Table::read(file) else {
            return;
        };
        self.accepted += 1;
        self.examine_entries(path, &table, &lent(&mut random, file));
        for entry in table.entries() {
            self.compare(path, split_case(&mut random, entry.value.to_vec()));
            for call in [Call::Boolean, Call::Span] {
                self.compare(path, text_case(&mut random, call, entry.value.to_vec()));
            }
        }
    }

    /// Asks for each entry of a table that stands in the buffers of a case.
    fn examine_entries(&mut self, path: &Path, table: &Table, lent: &Case) {
        for (index, entry) in table.entries().enumerate() {
            let (section, key) = (entry.section.to_vec(), entry.key.to_vec());
            let asked = |call, which| Case {
                call,
                which,
                index,
                section: section.clone(),
                key: key.clone(),
                ..lent.clone()
            };
            self.compare(path, asked(Call::Find, 0));
            self.compare(path, asked(Call::Find, 1));
            self.compare(path, asked(Call::Value, 0));
            self.compare(path, asked(Call::ValueCheck, 0));
        }
    }

    /// Tells why a file or a folder is not looked at.
    fn pass_over(&mut self, path: &Path, error: &io::Error) {
        eprintln!("{}: {error}", path.display());
        self.passed_over += 1;
    }

    fn print(&self) {
        println!("{} files, {} of them accepted", self.files, self.accepted);
        println!(
            "{} not looked at as they have over {MOST} bytes, {} that cannot be read",
            self.too_long, self.passed_over
        );
        println!("{} differences", self.differences);
        for call in Call::ALL {
            if let Some(numbers) = self.calls.get(call.name()) {
                numbers.print(call);
            }
        }
    }
}

/// A question to the table of an accepted file, as the reader leaves it.
fn lent(random: &mut Random, file: &[u8]) -> Case {
    let mut case = file_case(random, Call::Read, file.to_vec());
    let (text, sections, entries) = (&mut case.text, &mut case.sections, &mut case.entries);
    let counts = havtsulen::read(file, text, sections, entries).expect("it was read before");
    Case {
        input: Vec::new(),
        section_count: counts.sections,
        entry_count: counts.entries,
        ..case
    }
}

/// The bytes of a file, if they are not too many.
fn contents(path: &Path) -> io::Result<Option<Vec<u8>>> {
    let mut file = Vec::new();
    File::open(path)?.take(MOST + 1).read_to_end(&mut file)?;
    Ok((file.len() as u64 <= MOST).then_some(file))
}

/// The paths in a folder, by name.
fn inside(folder: &Path) -> io::Result<Vec<PathBuf>> {
    let paths: io::Result<Vec<PathBuf>> = fs::read_dir(folder)?
        .map(|entry| entry.map(|entry| entry.path()))
        .collect();
    paths.map(|mut paths| {
        paths.sort();
        paths
    })
}

/// Looks at a file, or answers what is in a folder.
fn visit(path: &Path, about: &Metadata, findings: &mut Findings) -> io::Result<Vec<PathBuf>> {
    if about.is_dir() {
        return inside(path);
    }
    if about.is_file() {
        match contents(path)? {
            Some(file) => findings.examine(path, &file),
            None => findings.too_long += 1,
        }
    }
    Ok(Vec::new())
}

/// Walks over files and folders, also behind symbolic links, each once however many paths it has.
fn walk(start: Vec<PathBuf>) -> Findings {
    let mut findings = Findings::default();
    let mut seen = HashSet::new();
    let mut left = start;
    left.reverse();
    while let Some(path) = left.pop() {
        let inside = fs::metadata(&path).and_then(|about| {
            if seen.insert((about.dev(), about.ino())) {
                visit(&path, &about, &mut findings)
            } else {
                Ok(Vec::new())
            }
        });
        match inside {
            Ok(paths) => left.extend(paths.into_iter().rev()),
            Err(error) => findings.pass_over(&path, &error),
        }
    }
    findings
}

fn main() -> ExitCode {
    let folders: Vec<PathBuf> = env::args_os().skip(1).map(PathBuf::from).collect();
    if folders.is_empty() {
        eprintln!("usage: real_files FOLDER ..");
        return ExitCode::from(2);
    }
    let findings = walk(folders);
    findings.print();
    if findings.files == 0 {
        eprintln!("no file was compared");
        return ExitCode::from(2);
    }
    ExitCode::from(u8::from(findings.differences > 0))
}
