//! The tables that are printed, as Markdown.

use std::fs;
use std::iter::repeat;

use crate::instructions;
use crate::measured::Measured;
use crate::tables::{Goal, Table};
use crate::timing::Timed;

/// The most that a time may be over that of plain Rust, and that of a hostile file over that of the hundred.
const MOST_OVER_PLAIN: f64 = 2.0;
const MOST_OVER_HUNDRED: f64 = 3.0;

/// What a table comes to, for the table that is printed last.
struct Figure {
    what: String,
    most: f64,
    /// The figure of the whole table, where it has a sum.
    whole: Option<f64>,
    /// The greatest of a row, and the row's name.
    greatest: (f64, String),
}

/// Measures and prints all tables.
pub fn print(mut tables: Vec<Table>, rounds: usize) -> Result<(), String> {
    let counts = instructions::counts().unwrap_or_else(|error| {
        eprintln!("instructions are not counted: {error}");
        Vec::new()
    });
    let times = time(&mut tables, rounds)?;
    if !counts.is_empty() && counts.len() != times.len() {
        return Err(format!("{} counts of {} rows", counts.len(), times.len()));
    }
    println!("{}, least of {rounds} rounds\n", processor());
    let mut figures = times
        .into_iter()
        .zip(counts.into_iter().map(Some).chain(repeat(None)));
    let mut measured: Vec<(Table, Vec<Measured>)> = Vec::new();
    for table in tables {
        let rows = table.rows.iter().zip(&mut figures);
        let rows: Vec<Measured> = rows
            .map(|(row, (times, counts))| Measured::new(row, times, counts))
            .collect();
        let against = match table.goal {
            Goal::Table(index) => Some(sum(&measured[index].1)),
            Goal::Plain | Goal::Nothing => None,
        };
        print_table(&table, &rows, against);
        measured.push((table, rows));
    }
    print_figures(&measured);
    Ok(())
}

/// Times all rows: in each round each input once, so that a slow while of the machine meets all of them.
fn time(tables: &mut [Table], rounds: usize) -> Result<Vec<[f64; 2]>, String> {
    let rows = tables.iter_mut().flat_map(|table| &mut table.rows);
    let mut timed: Vec<Timed> = rows.map(Timed::new).collect();
    for round in 0..rounds {
        for row in &mut timed {
            row.round(round)?;
        }
    }
    Ok(timed.iter().map(Timed::nanoseconds).collect())
}

/// The processor's name, as Linux gives it.
fn processor() -> String {
    let about = fs::read_to_string("/proc/cpuinfo").unwrap_or_default();
    let name = about
        .lines()
        .find_map(|line| line.strip_prefix("model name"));
    let name = name.and_then(|name| name.split_once(": "));
    name.map_or("an unknown processor", |(_, name)| name)
        .to_string()
}

fn sum(rows: &[Measured]) -> Measured {
    rows.iter()
        .fold(Measured::default(), |sum, &row| sum.plus(row))
}

fn print_table(table: &Table, rows: &[Measured], against: Option<Measured>) {
    print_head(table.title, against.is_some());
    for (row, measured) in table.rows.iter().zip(rows) {
        print_row(&row.name, *measured, against);
    }
    if let Some(name) = table.sum {
        print_row(name, sum(rows), against);
    }
    println!();
}

fn print_head(title: &str, against: bool) {
    println!("### {title}\n");
    print!("| Input | Inputs | Bytes | Library, ns/byte | Plain Rust, ns/byte | Ratio ");
    print!("| Library, instructions/byte | Plain Rust, instructions/byte | Ratio |");
    println!("{}", if against { " Over the hundred |" } else { "" });
    println!("{}|", "|---".repeat(if against { 10 } else { 9 }));
}

fn print_row(name: &str, measured: Measured, against: Option<Measured>) {
    let Measured { inputs, bytes, .. } = measured;
    let [library, plain] = measured.times_per_byte();
    print!("| {name} | {inputs} | {bytes} | {library:.2} | {plain:.2} | ");
    print!("{:.2} |", measured.over_plain());
    match measured.counts_per_byte() {
        Some([library, plain]) => print!(" {library:.1} | {plain:.1} | {:.2} |", library / plain),
        None => print!(" - | - | - |"),
    }
    match against {
        Some(other) => println!(" {:.2} |", measured.over(other)),
        None => println!(),
    }
}

/// What was to be reached, and what was.
fn print_figures(measured: &[(Table, Vec<Measured>)]) {
    println!("### What was to be reached\n");
    println!("| Figure | At most | Measured | Greatest of a row |");
    println!("{}|", "|---".repeat(4));
    for (table, rows) in measured {
        let figure = match table.goal {
            Goal::Plain => over_plain(table, rows),
            Goal::Table(index) => over_hundred(table, rows, sum(&measured[index].1)),
            Goal::Nothing => continue,
        };
        let whole = figure
            .whole
            .map_or("-".to_string(), |whole| format!("{whole:.2}"));
        let (greatest, name) = figure.greatest;
        let Figure { what, most, .. } = figure;
        println!("| {what} | {most:.1} | {whole} | {greatest:.2}, {name} |");
    }
}

fn over_plain(table: &Table, rows: &[Measured]) -> Figure {
    Figure {
        what: format!("{}, over plain Rust", table.title),
        most: MOST_OVER_PLAIN,
        whole: Some(sum(rows).over_plain()),
        greatest: greatest(table, rows, |row| row.over_plain()),
    }
}

fn over_hundred(table: &Table, rows: &[Measured], hundred: Measured) -> Figure {
    Figure {
        what: format!("{}, a byte's time over that of the hundred", table.title),
        most: MOST_OVER_HUNDRED,
        whole: None,
        greatest: greatest(table, rows, |row| row.over(hundred)),
    }
}

/// The greatest figure of a row, and the row's name.
fn greatest(table: &Table, rows: &[Measured], figure: impl Fn(&Measured) -> f64) -> (f64, String) {
    let figures = rows.iter().map(figure).zip(&table.rows);
    let greatest = figures.max_by(|(left, _), (right, _)| left.total_cmp(right));
    let (greatest, row) = greatest.expect("a table has rows");
    (greatest, row.name.clone())
}
