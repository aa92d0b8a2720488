//! The page of a group: its figure beside the average that it replaces, what each account changed by, and both as tables.

use super::returns::Told;
use super::text::{ACCOUNTS, PARTS, accounts, average, parts, rate};
use crate::html::{self, escaped};
use crate::text::{count, money, share};
use std::fmt::Write;

const FOOTER: &str = "The house return, sums, changes, growths and each account's own return come from code that is proved to \
     meet its definition; the average is taken of those returns, and the bars are drawn from the changes. Past returns promise \
     nothing.";

pub fn page(told: &Told) -> String {
    html::page(&told.house.name, FOOTER, |out| {
        head(out, told);
        changes(out, told);
        section(out, "Parts", PARTS, parts(told), &told.absent_at_one_end());
        section(out, "Accounts", ACCOUNTS, accounts(told), &told.without_return());
    })
}

fn head(out: &mut String, told: &Told) {
    let house = told.house;
    let span = match &house.parts[..] {
        [first, .., last] => format!("{} to {}", first.label, last.label),
        parts => parts.iter().map(|only| only.label.as_str()).collect(),
    };
    let _ = write!(
        out,
        "<header>\n<h1>{}</h1>\n<p class=\"span\">{}, {}, {}</p>\n<div class=\"pair\">\n\
         <div><span>House return</span><p class=\"equity\">{}</p><span>each account weighs what it holds</span></div>\n\
         <div class=\"before\"><span>Average of account returns</span><p class=\"equity\">{}</p>\
         <span>as this page showed it before: each account weighs the same</span></div>\n</div>\n</header>\n",
        escaped(&house.name),
        escaped(&span),
        count(house.parts.len(), "part"),
        count(house.accounts.len(), "account"),
        rate(told.figure),
        average(told)
    );
}

/// A bar for each account, to the right of a common zero line for a gain and to the left for a loss.
fn changes(out: &mut String, told: &Told) {
    let ends = told.changes.iter().map(|change| *change as f64);
    let (low, high) = ends.fold((0.0, 0.0), |(low, high): (f64, f64), change| (low.min(change), high.max(change)));
    let of_all = |change: f64| share(if high > low { 100.0 * change / (high - low) } else { 0.0 });
    let _ = writeln!(
        out,
        "<section>\n<h2>Change of each account</h2>\n<table class=\"changes\" style=\"--zero:{}\">",
        of_all(-low)
    );
    for (name, change) in told.house.accounts.iter().zip(&told.changes) {
        let (side, width) = (if *change < 0 { "loss" } else { "gain" }, of_all((*change as f64).abs()));
        let bar = format!("<i class=\"{side}\" style=\"width:{width}\"></i>");
        let _ = writeln!(
            out,
            "<tr><td>{}</td><td><div class=\"about-zero\">{}</div></td><td>{}</td></tr>",
            escaped(&name.what),
            if *change == 0 { "" } else { &bar },
            money(*change)
        );
    }
    out.push_str("</table>\n</section>\n");
}

/// A table whose last row sums it up, and what is said of its rows.
fn section<const N: usize>(out: &mut String, title: &str, head: [&str; N], rows: Vec<[String; N]>, notes: &[String]) {
    let _ = writeln!(out, "<section class=\"summed\">\n<h2>{title}</h2>");
    html::table(out, head, rows.into_iter().map(|row| row.map(|cell| escaped(&cell))));
    for note in notes {
        let _ = writeln!(out, "<p class=\"none\">{}</p>", escaped(note));
    }
    out.push_str("</section>\n");
}
