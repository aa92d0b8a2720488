//! Which entry of its lists a call was refused for.

use crate::{Price, Spelling, Symbol, Target};
use std::fmt;
use threshcoil_sys::answer;

/// A list of a call.
#[derive(Clone, Copy, Debug, PartialEq, Eq, PartialOrd, Ord, Hash)]
pub enum List {
    /// The target weights of a rebalance.
    Targets,
    /// The prices.
    Prices,
}

/// The entry that a call was refused for, with its symbol as it was given.
///
/// It is shown as ``price 17 (`ACME!`)``, and where no list was given as the symbol alone.
#[derive(Clone, Copy, Debug, PartialEq, Eq, PartialOrd, Ord, Hash)]
pub enum Entry {
    /// One of the targets.
    Target {
        /// Its place among them, from 0.
        index: usize,
        /// Its symbol.
        symbol: Spelling,
    },
    /// One of the prices.
    Price {
        /// Its place among them, from 0.
        index: usize,
        /// Its symbol.
        symbol: Spelling,
    },
    /// The symbol of a call with one, or its price.
    Only {
        /// The symbol.
        symbol: Spelling,
    },
}

impl Entry {
    /// The list that it stands in. A call with one symbol tells the prices, as the C interface does.
    pub fn list(self) -> List {
        match self {
            Entry::Target { .. } => List::Targets,
            Entry::Price { .. } | Entry::Only { .. } => List::Prices,
        }
    }

    /// Its place in that list, from 0. A call with one symbol tells 0.
    pub fn index(self) -> usize {
        match self {
            Entry::Target { index, .. } | Entry::Price { index, .. } => index,
            Entry::Only { .. } => 0,
        }
    }

    /// Its symbol as it was given.
    pub fn symbol(self) -> Spelling {
        match self {
            Entry::Target { symbol, .. } | Entry::Price { symbol, .. } | Entry::Only { symbol } => symbol,
        }
    }
}

impl fmt::Display for Entry {
    fn fmt(&self, f: &mut fmt::Formatter<'_>) -> fmt::Result {
        match self {
            Entry::Target { index, symbol } => write!(f, "target {index} (`{symbol}`)"),
            Entry::Price { index, symbol } => write!(f, "price {index} (`{symbol}`)"),
            Entry::Only { symbol } => write!(f, "`{symbol}`"),
        }
    }
}

/// What was given to a call, in which the place of a refusal is looked up.
#[derive(Clone, Copy)]
pub(crate) enum Given<'a> {
    Lists(&'a [Target], &'a [Price]),
    Only(Symbol),
}

impl Given<'_> {
    /// The entry whose place is in what the C interface returned.
    pub(crate) fn entry(self, word: u64) -> Entry {
        let index = answer::index(word) as usize;
        // No place is past its list, and none is told of a call without lists.
        let spelled = |symbol: Option<Symbol>| symbol.map_or(Spelling::of_text(""), Spelling::from);
        match self {
            Given::Lists(_, prices) if answer::in_prices(word) => {
                Entry::Price { index, symbol: spelled(prices.get(index).map(|p| p.symbol)) }
            }
            Given::Lists(targets, _) => Entry::Target { index, symbol: spelled(targets.get(index).map(|t| t.symbol)) },
            Given::Only(symbol) => Entry::Only { symbol: symbol.into() },
        }
    }
}
