//! Sights: how they are named, counted, required and printed.

use crate::coverage::{subjects, Place};
use std::collections::BTreeMap;
use std::fmt::Write;

/// The names of a table's rows.
#[derive(Clone, Copy, Debug)]
pub enum Rows {
    Named(&'static [&'static str]),
    /// By their numbers, from 0 on.
    Numbered(usize),
}

impl Rows {
    pub fn count(self) -> usize {
        match self {
            Rows::Named(names) => names.len(),
            Rows::Numbered(count) => count,
        }
    }

    fn name(self, row: usize) -> String {
        match self {
            Rows::Named(names) => names[row].into(),
            Rows::Numbered(_) => row.to_string(),
        }
    }
}

/// What can be seen of a subject: a table with a row for each sight, and a column for each side, limit
/// or the like that it is counted by.
#[derive(Debug)]
pub struct Subject {
    pub name: &'static str,
    pub rows: Rows,
    /// One without a name where nothing tells a sight's counts apart.
    pub columns: &'static [&'static str],
    /// Whether a place must have seen a row in a column.
    pub needed: fn(Place, usize, usize) -> bool,
}

/// The columns of a subject that has one.
pub const ALONE: &[&str] = &[""];
/// The columns of a subject that is counted by sides.
pub const SIDES: &[&str] = &["side 0", "side 1"];

/// Something that can be seen: a row of its subject's table.
pub trait Sight: Copy {
    const SUBJECT: &'static Subject;

    fn row(self) -> usize;
}

/// Names the sights of a subject: an enum with the text of each row.
macro_rules! sights {
    (
        $(#[$about:meta])*
        pub enum $sight:ident of $subject:ident {
            $($(#[$of_row:meta])* $row:ident = $text:literal,)+
        }
    ) => {
        $(#[$about])*
        #[derive(Clone, Copy, Debug, PartialEq, Eq)]
        pub enum $sight {
            $($(#[$of_row])* $row,)+
        }

        impl $sight {
            pub const ALL: &'static [$sight] = &[$($sight::$row),+];
            pub const ROWS: $crate::coverage::Rows =
                $crate::coverage::Rows::Named(&[$($text),+]);
        }

        impl $crate::coverage::Sight for $sight {
            const SUBJECT: &'static $crate::coverage::Subject = &$subject;

            fn row(self) -> usize {
                self as usize
            }
        }
    };
}

/// How often each sight was seen, by the names of their subjects.
#[derive(Clone, Debug, Default, PartialEq, Eq)]
pub struct Seen {
    tables: BTreeMap<&'static str, Vec<u64>>,
}

impl Seen {
    /// Counts a row in a column so many times.
    pub fn count(&mut self, subject: &'static Subject, row: usize, column: usize, times: u64) {
        let columns = subject.columns.len();
        assert!(row < subject.rows.count() && column < columns, "{}: {row} {column}", subject.name);
        let empty = || {
            let registered = subjects().any(|other| std::ptr::eq(other, subject));
            assert!(registered, "{} is not registered", subject.name);
            vec![0; subject.rows.count() * columns]
        };
        self.tables.entry(subject.name).or_insert_with(empty)[row * columns + column] += times;
    }

    /// Counts each row of a subject so many times as is given.
    pub fn count_all(&mut self, subject: &'static Subject, times: &[u64]) {
        times.iter().enumerate().for_each(|(row, &times)| self.count(subject, row, 0, times));
    }

    pub fn see<S: Sight>(&mut self, sight: S) {
        self.see_in(sight, 0);
    }

    pub fn see_if<S: Sight>(&mut self, seen: bool, sight: S) {
        self.count(S::SUBJECT, sight.row(), 0, u64::from(seen));
    }

    pub fn see_in<S: Sight>(&mut self, sight: S, column: usize) {
        self.count(S::SUBJECT, sight.row(), column, 1);
    }

    /// How often a row was seen in a column.
    pub fn cell(&self, subject: &Subject, row: usize, column: usize) -> u64 {
        let table = self.tables.get(subject.name);
        table.map_or(0, |counts| counts[row * subject.columns.len() + column])
    }

    /// How often a sight was seen in each column.
    pub fn by_column<S: Sight>(&self, sight: S) -> Vec<u64> {
        let columns = 0..S::SUBJECT.columns.len();
        columns.map(|column| self.cell(S::SUBJECT, sight.row(), column)).collect()
    }

    /// How often a sight was seen.
    pub fn of<S: Sight>(&self, sight: S) -> u64 {
        self.by_column(sight).iter().sum()
    }

    pub fn add(&mut self, other: &Seen) {
        for (&name, counts) in &other.tables {
            let table = self.tables.entry(name).or_insert_with(|| vec![0; counts.len()]);
            table.iter_mut().zip(counts).for_each(|(to, from)| *to += from);
        }
    }

    /// What a place must show and was never seen.
    pub fn missing(&self, place: Place) -> Vec<String> {
        let mut missing = Vec::new();
        for subject in subjects() {
            for row in 0..subject.rows.count() {
                let never = |&column: &usize| {
                    (subject.needed)(place, row, column) && self.cell(subject, row, column) == 0
                };
                for column in (0..subject.columns.len()).filter(never) {
                    let (row, column) = (subject.rows.name(row), subject.columns[column]);
                    missing.push(format!("{}: {row} {column}", subject.name).trim_end().into());
                }
            }
        }
        missing
    }

    /// The tables, a line for each row that was seen.
    pub fn details(&self) -> String {
        let mut text = String::new();
        for subject in subjects().filter(|subject| self.tables.contains_key(subject.name)) {
            let columns = subject.columns.join(", ");
            writeln!(text, "  {}: {columns}", subject.name).expect("a string takes every line");
            for row in 0..subject.rows.count() {
                let cells =
                    (0..subject.columns.len()).map(|column| self.cell(subject, row, column));
                let cells: Vec<String> = cells.map(|count| count.to_string()).collect();
                if cells.iter().any(|count| count != "0") {
                    let name = subject.rows.name(row);
                    writeln!(text, "    {name}: {}", cells.join(", ")).expect("as above");
                }
            }
        }
        text
    }
}
