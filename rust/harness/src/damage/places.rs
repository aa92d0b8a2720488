//! Which places refused calls on accounts told, and among what else; a run must meet each.

use super::expected::{good_symbol, pairs};
use super::{Entry, Given};
use crate::place::{Answer, Pair, Place};
use std::collections::BTreeMap;

/// A refusal tells one of these kinds of place.
const KINDS: [&str; 7] =
    ["2 in targets", "2 in prices", "3 in targets", "3 in prices", "4 in prices", "2 of one symbol", "4 of one symbol"];

const SORTS: [&str; 8] = [
    "2 in both lists",
    "2 in prices and a pair in targets",
    "3 in both lists",
    "3 of a symbol that stands three times",
    "3 within another pair",
    "later entries as bad",
    "at the last of 64 targets",
    "at the last of 128 prices",
];

/// How often each was met.
#[derive(Default)]
pub struct Places(BTreeMap<&'static str, u64>);

impl Places {
    fn times(&self, name: &str) -> u64 {
        self.0.get(name).copied().unwrap_or(0)
    }

    fn met(&mut self, name: &'static str, holds: bool) {
        *self.0.entry(name).or_default() += u64::from(holds);
    }

    /// Refusals that told a place.
    pub fn told(&self) -> u64 {
        KINDS.iter().map(|kind| self.times(kind)).sum()
    }

    pub fn missed(&self) -> Vec<&'static str> {
        KINDS.into_iter().chain(SORTS).filter(|name| self.times(name) == 0).collect()
    }

    /// By the answer of the second program.
    pub fn add(&mut self, entry: Entry, given: &Given, answer: Answer) {
        let Answer { number, place: Some(place) } = answer else { return };
        let alone = matches!(entry, Entry::Position | Entry::Close);
        let rebalances = entry == Entry::Rebalance;
        let (targets, prices) = (if rebalances { pairs(&given.targets) } else { Vec::new() }, pairs(&given.prices));
        match (number, place) {
            (2, _) if alone => return self.met("2 of one symbol", true),
            (4, _) if alone => return self.met("4 of one symbol", true),
            (2, Place::Target(_)) => self.met("2 in targets", true),
            (2, _) => self.met("2 in prices", true),
            (3, Place::Target(_)) => self.met("3 in targets", true),
            (3, _) => self.met("3 in prices", true),
            _ => self.met("4 in prices", true),
        }
        let (list, index) = match place {
            Place::Target(index) => (&targets, index),
            Place::Price(index) | Place::Byte(index) => (&prices, index),
        };
        let [here, in_targets, in_prices] = [list, &targets, &prices].map(|list| offending(number, list));
        let both = in_targets > 0 && in_prices > 0;
        self.met("later entries as bad", here > 1);
        self.met("2 in both lists", number == 2 && both);
        self.met("3 in both lists", number == 3 && both);
        self.met("2 in prices and a pair in targets", number == 2 && in_targets == 0 && offending(3, &targets) > 0);
        self.met("at the last of 64 targets", place == Place::Target(63));
        self.met("at the last of 128 prices", place == Place::Price(127));
        let (symbol, first) = (list[index].0, first_of(list, index));
        let times = list.iter().filter(|(other, _)| *other == symbol).count();
        self.met("3 of a symbol that stands three times", number == 3 && times > 2);
        // As A B B A tells 2: the other pair begins before this one.
        let around = |before: &Pair| list[index + 1..].iter().any(|after| after.0 == before.0);
        self.met("3 within another pair", number == 3 && list[..first].iter().any(around));
    }
}

/// Where the symbol of an entry stands first.
fn first_of(list: &[Pair], index: usize) -> usize {
    list.iter().position(|(symbol, _)| *symbol == list[index].0).unwrap_or(index)
}

/// How many entries of a list a number may be told of.
fn offending(number: u64, list: &[Pair]) -> usize {
    let offends = |index: usize| match number {
        2 => !good_symbol(list[index].0),
        3 => first_of(list, index) < index,
        _ => (list[index].1 as i64) < 1,
    };
    (0..list.len()).filter(|index| offends(*index)).count()
}

impl std::fmt::Display for Places {
    fn fmt(&self, f: &mut std::fmt::Formatter<'_>) -> std::fmt::Result {
        let said: Vec<String> = KINDS.iter().chain(&SORTS).map(|name| format!("{name} {}", self.times(name))).collect();
        f.write_str(&said.join(", "))
    }
}
