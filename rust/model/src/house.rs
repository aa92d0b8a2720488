//! The house return of a group of accounts from a text file, as text and as a page. README.md describes the file.

mod group;
mod page;
mod returns;
mod text;

use std::io::{self, Write};
use std::path::Path;

pub const EXAMPLE: &str = include_str!("../house-example.txt");

/// Whether there is a figure, and so a page.
pub fn run(out: &mut impl Write, page: &Path, name: &str, text: &str) -> io::Result<bool> {
    let (house, unread) = group::read(text);
    for said in &unread {
        eprintln!("{name}:{}: {}", said.line, said.what);
    }
    if !unread.is_empty() {
        return crate::nothing_written();
    }
    match returns::of(&house) {
        Ok(told) => {
            text::summary(out, &told)?;
            crate::write_page(out, page, &page::page(&told))?;
            Ok(true)
        }
        Err(refused) => {
            let place = refused.line.map_or(String::new(), |line| format!(":{line}"));
            eprintln!("{name}{place}: {refused}");
            crate::nothing_written()
        }
    }
}
