//! All that is measured.

use compare::case::Call;

use crate::row::{Input, Row};
use crate::{files, hostile, lists};

/// Rows under one title.
pub struct Table {
    pub title: &'static str,
    pub rows: Vec<Row>,
    /// What the sum of all rows is called, where there is one.
    pub sum: Option<&'static str>,
    pub goal: Goal,
}

/// What a table's times are held to.
#[derive(Clone, Copy)]
pub enum Goal {
    /// The time of plain Rust.
    Plain,
    /// The time for a byte that the table with this index takes in all.
    Table(usize),
    /// Nothing: it only tells where the time of another table goes.
    Nothing,
}

/// The tables, in the order in which they are printed; the hostile files are held to the first two.
pub fn tables() -> Vec<Table> {
    vec![
        mixed("read", Call::Read, Goal::Plain),
        mixed("normal_text", Call::NormalText, Goal::Plain),
        hostile("read of hostile files", Call::Read, Goal::Table(0)),
        hostile(
            "normal_text of hostile files",
            Call::NormalText,
            Goal::Table(1),
        ),
        lists("split", split_rows()),
        lists("write", write_rows()),
        mixed("check_file, a part of read", Call::CheckFile, Goal::Nothing),
        one_byte(),
    ]
}

fn mixed(title: &'static str, call: Call, goal: Goal) -> Table {
    let kinds = files::kinds().into_iter();
    let rows = kinds.map(|(name, files)| Row::new(name, call, texts(&files), 0));
    Table {
        title,
        rows: rows.collect(),
        sum: Some("all hundred"),
        goal,
    }
}

fn hostile(title: &'static str, call: Call, goal: Goal) -> Table {
    let shapes = hostile::shapes().into_iter();
    let rows = shapes.map(|shape| Row::new(&shape.name, call, texts(&[shape.file]), shape.number));
    Table {
        title,
        rows: rows.collect(),
        sum: None,
        goal,
    }
}

/// What a call costs, whatever it reads: most of it is the clearing of buffers.
fn one_byte() -> Table {
    let row = |call: Call| Row::new(call.name(), call, texts(&[b"\n".to_vec()]), 0);
    Table {
        title: "a file of one byte, LF",
        rows: [Call::CheckFile, Call::Read, Call::NormalText]
            .map(row)
            .into(),
        sum: None,
        goal: Goal::Nothing,
    }
}

fn lists(title: &'static str, rows: Vec<Row>) -> Table {
    Table {
        title,
        rows,
        sum: Some("all lists"),
        goal: Goal::Plain,
    }
}

fn split_rows() -> Vec<Row> {
    let kinds = lists::texts().into_iter();
    kinds
        .map(|(name, lists)| Row::new(name, Call::Split, texts(&lists), 0))
        .collect()
}

fn write_rows() -> Vec<Row> {
    let kinds = lists::items().into_iter();
    kinds
        .map(|(name, lists)| {
            let inputs = lists.iter().map(Input::items);
            Row::new(name, Call::Write, inputs.collect(), 0)
        })
        .collect()
}

fn texts(texts: &[Vec<u8>]) -> Vec<Input> {
    texts.iter().map(|text| Input::text(text)).collect()
}
