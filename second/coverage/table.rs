//! The table of what the cases must make happen: a row has a name, how often it must happen, and
//! when it counts.

use crate::coverage::seen::{Kind, Seen};
use crate::model::object::{BL, M0, M1, NAMES, P0, P1, PF};
use std::fmt::Display;

/// How often a thing must happen if nothing else is said.
pub const FEW: u32 = 5;

/// An object with its name.
const fn of(object: usize) -> (&'static str, usize) {
    (NAMES[object], object)
}

/// Objects with their names: the players, those that move, all.
pub const PLAYERS: [(&str, usize); 2] = [of(P0), of(P1)];
pub const MOVABLE: [(&str, usize); 5] = [of(P0), of(P1), of(M0), of(M1), of(BL)];
pub const OBJECTS: [(&str, usize); 6] = [of(P0), of(P1), of(M0), of(M1), of(BL), of(PF)];

/// Both values of a flag with their names.
pub const FLAGS: [(&str, bool); 2] = [("false", false), ("true", true)];

/// Values with themselves as names.
pub fn named<T: Copy + Display>(values: impl IntoIterator<Item = T>) -> Vec<(T, T)> {
    values.into_iter().map(|value| (value, value)).collect()
}

/// A row: its name, how often it must still happen, and when it counts.
struct Row {
    name: String,
    times: u32,
    counts: Box<dyn Fn(&Seen) -> bool>,
}

/// The rows that have not yet happened often enough, by the kind that they are asked of.
#[derive(Default)]
pub struct Table {
    rows: [Vec<Row>; 5],
}

impl Table {
    /// The rows of each kind, to add to: accepted clocks, refused clocks, lines, runs, tapes.
    pub fn by_kind(&mut self) -> [Rows<'_>; 5] {
        let [clock, refused_clock, line, run, tape] = &mut self.rows;
        [
            Rows(String::new(), clock),
            Rows(String::new(), refused_clock),
            Rows("line: ".to_string(), line),
            Rows("run: ".to_string(), run),
            Rows("tape: ".to_string(), tape),
        ]
    }

    /// Whether rows that are asked of a kind are left.
    pub fn asks(&self, kind: Kind) -> bool {
        !self.rows[kind as usize].is_empty()
    }

    /// Counts what is seen: a row that has happened often enough leaves the table.
    pub fn see(&mut self, seen: &Seen) {
        self.rows[seen.kind as usize].retain_mut(|row| {
            row.times -= u32::from((row.counts)(seen));
            row.times > 0
        });
    }

    /// A line for each row that is left, made of its name and how often it must still happen.
    pub fn text(&self, line: fn(&str, u32) -> String) -> String {
        let rows = self.rows.iter().flatten();
        rows.map(|row| line(&row.name, row.times)).collect()
    }
}

/// Rows to add to, and what the names of those that are added begin with.
pub struct Rows<'a>(String, &'a mut Vec<Row>);

impl Rows<'_> {
    /// The same rows; the names of those that are added then begin with this too.
    pub fn under(&mut self, beginning: &str) -> Rows<'_> {
        Rows(format!("{}{}", self.0, beginning), self.1)
    }

    /// A row that must happen so often; `when` adds it.
    pub fn row(&mut self, times: u32, name: &str) -> Named<'_> {
        Named(self.1, times, format!("{}{}", self.0, name))
    }

    /// A row for each of the values; `{}` in the name stands for the value's name. `when` adds
    /// them.
    pub fn each<T>(
        &mut self,
        times: u32,
        name: &str,
        values: impl IntoIterator<Item = (impl Display, T)>,
    ) -> Each<'_, T> {
        let name = format!("{}{}", self.0, name);
        let names = values
            .into_iter()
            .map(|(of, value)| (name.replace("{}", &of.to_string()), value));
        Each(self.1, times, names.collect())
    }
}

/// A row that lacks only when it counts: how often it must happen, and its name.
pub struct Named<'a>(&'a mut Vec<Row>, u32, String);

impl Named<'_> {
    /// Adds the row, with when it counts.
    pub fn when(self, counts: impl Fn(&Seen) -> bool + 'static) {
        let Named(rows, times, name) = self;
        rows.push(Row {
            name,
            times,
            counts: Box::new(counts),
        });
    }
}

/// Rows that lack only when they count: how often each must happen, and its name and value.
pub struct Each<'a, T>(&'a mut Vec<Row>, u32, Vec<(String, T)>);

impl<T: Copy + 'static> Each<'_, T> {
    /// Adds the rows, with when they count for a value.
    pub fn when(self, counts: impl Fn(&Seen, T) -> bool + Copy + 'static) {
        let Each(rows, times, names) = self;
        for (name, value) in names {
            Named(rows, times, name).when(move |seen| counts(seen, value));
        }
    }
}
