//! What a group comes to, in the terminal and in the cells of the page's tables.

use super::group::Part;
use super::returns::Told;
use crate::text::{count, money, percent};
use std::io::{self, Write};
use threshcoil::PartReturn;

/// A rate, or words where the doubles have no number for it, or none for its percent.
pub fn rate(x: f64) -> String {
    match (x.is_finite(), (x * 100.0).is_finite()) {
        (true, true) => percent(x),
        (true, false) => if x < 0.0 { "below -1e308%" } else { "above 1e308%" }.into(),
        (false, _) => "not finite".into(),
    }
}

pub const PARTS: [&str; 5] = ["Part", "Growth", "Change", "First sum", "Accounts"];

/// The parts, and last what they come to.
pub fn parts(told: &Told) -> Vec<[String; 5]> {
    let all = told.house.accounts.len();
    let row = |(part, came): (&Part, &PartReturn)| {
        let counted = format!("{} of {all}", part.counted());
        [part.label.clone(), rate(came.growth), money(came.change), money(came.first_sum), counted]
    };
    let mut rows: Vec<_> = told.house.parts.iter().zip(&told.parts).map(row).collect();
    rows.push(["All".into(), rate(told.figure), money(told.change), String::new(), String::new()]);
    rows
}

pub const ACCOUNTS: [&str; 4] = ["Account", "Own return", "Change", "Parts"];

/// The accounts, and last the group.
pub fn accounts(told: &Told) -> Vec<[String; 4]> {
    let all = told.house.parts.len();
    let row = |k: usize| {
        let counted = told.house.parts.iter().filter(|part| part.counts(k)).count();
        let own = told.own[k].map_or("none".into(), rate);
        [told.house.accounts[k].what.clone(), own, money(told.changes[k]), format!("{counted} of {all}")]
    };
    let mut rows: Vec<_> = told.house.all().map(row).collect();
    rows.push(["Group".into(), rate(told.figure), money(told.change), String::new()]);
    rows
}

pub fn average(told: &Told) -> String {
    told.average().map_or("none".into(), rate)
}

pub fn summary(out: &mut impl Write, told: &Told) -> io::Result<()> {
    let house = told.house;
    writeln!(out, "{}: {}, {}", house.name, count(house.accounts.len(), "account"), count(house.parts.len(), "part"))?;
    for (name, value, note) in [
        ("House return", rate(told.figure), format!("{}, each account weighing what it holds", told.figure)),
        (
            "Average of account returns",
            average(told),
            "as the page showed it before, each account weighing the same".into(),
        ),
    ] {
        writeln!(out, "  {name:<28}{value:>12}   {note}")?;
    }
    table(out, PARTS, &parts(told), &told.absent_at_one_end())?;
    table(out, ACCOUNTS, &accounts(told), &told.without_return())
}

/// The most that a cell can be padded to.
const WIDEST: usize = u16::MAX as usize;

/// The first column to the left, the others to the right, each as wide as its widest cell; then what is said of them.
fn table<const N: usize>(
    out: &mut impl Write,
    head: [&str; N],
    rows: &[[String; N]],
    notes: &[String],
) -> io::Result<()> {
    let head = head.map(String::from);
    let all = || std::iter::once(&head).chain(rows);
    let widest = |k: usize| all().map(|row| row[k].chars().count()).max().unwrap_or(0);
    let width: [usize; N] = std::array::from_fn(|k| widest(k).min(WIDEST));
    writeln!(out)?;
    for row in all() {
        let cells = row.iter().zip(width).enumerate();
        let line = cells.fold(String::from(" "), |line, (k, (cell, width))| match k {
            0 => format!("{line} {cell:<width$}"),
            _ => format!("{line}   {cell:>width$}"),
        });
        writeln!(out, "{}", line.trim_end())?;
    }
    notes.iter().try_for_each(|note| writeln!(out, "  {note}"))
}
