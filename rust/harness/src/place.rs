//! Document 02's request 9 as a second program: the place that a refusal tells, and the word in which the C interface returns it with the
//! number. Nothing here calls the port.

use std::collections::BTreeSet;

/// "the list, targets or prices, and the first offending index", or "the byte place".
#[derive(Clone, Copy, Debug, PartialEq, Eq)]
pub enum Place {
    Target(usize),
    Price(usize),
    Byte(usize),
}

use Place::*;

/// A number, and the place that it tells where it tells one.
#[derive(Clone, Copy, Debug, PartialEq, Eq)]
pub struct Answer {
    pub number: u64,
    pub place: Option<Place>,
}

pub const DONE: Answer = Answer::plain(0);

impl Answer {
    pub const fn plain(number: u64) -> Answer {
        Answer { number, place: None }
    }

    pub const fn at(number: u64, place: Place) -> Answer {
        Answer { number, place: Some(place) }
    }

    /// "Calls with one symbol tell index 0": of prices.
    pub const fn alone(number: u64) -> Answer {
        Answer::at(number, Price(0))
    }

    /// The number in the lowest byte; above it twice the index, plus 1 for prices, or the byte as it is.
    pub fn word(self) -> u64 {
        let above = match self.place {
            None => 0,
            Some(Target(index)) => 2 * index,
            Some(Price(index)) => 2 * index + 1,
            Some(Byte(place)) => place,
        };
        self.number + 256 * above as u64
    }
}

/// An entry of a list: a symbol's number and a word.
pub type Pair = (u64, u64);

/// "Targets are examined before prices within each number": the first entry of either that offends, by its index in a list.
pub fn earliest(targets: &[Pair], prices: &[Pair], index: impl Fn(&[Pair]) -> Option<usize>) -> Option<Place> {
    index(targets).map(Target).or_else(|| index(prices).map(Price))
}

/// "the index of the second appearance whose index is smallest"
pub fn twice(list: &[Pair]) -> Option<usize> {
    let mut seen = BTreeSet::new();
    list.iter().position(|(symbol, _)| !seen.insert(symbol))
}
