//! Symbols, and what lists pair them with.

use crate::bytes::{self, Word};
use crate::{Entry, Refusal, Spelling};
use std::fmt;
use threshcoil_sys::layout;

/// One to eight bytes from 33 to 126, padded with zeros; ordered by bytes.
#[derive(Clone, Copy, PartialEq, Eq, PartialOrd, Ord, Hash)]
pub struct Symbol([u8; 8]);

impl Symbol {
    /// The symbol of a text, or [`Refusal::BadSymbol`].
    pub fn new(text: &str) -> Result<Symbol, Refusal> {
        let bad = Refusal::BadSymbol(Entry::Only { symbol: Spelling::of_text(text) });
        let mut padded = [0; 8];
        let place = padded.get_mut(..text.len()).ok_or(bad)?;
        place.copy_from_slice(text.as_bytes());
        let symbol = Symbol(padded);
        if symbol.is_good() && symbol.as_bytes().len() == text.len() { Ok(symbol) } else { Err(bad) }
    }

    /// The symbol of eight padded bytes, good or not: calls refuse a bad one.
    pub const fn from_padded(bytes: [u8; 8]) -> Symbol {
        Symbol(bytes)
    }

    /// The eight bytes with their padding.
    pub const fn padded(self) -> [u8; 8] {
        self.0
    }

    /// Whether calls take it.
    pub fn is_good(self) -> bool {
        threshcoil_sys::tc_good_symbol(self.number())
    }

    /// The bytes without their padding. A bad one may have zeros before its last byte, and keeps them.
    pub fn as_bytes(&self) -> &[u8] {
        let length = self.0.iter().rposition(|byte| *byte != 0).map_or(0, |last| last + 1);
        &self.0[..length]
    }

    pub(crate) fn number(self) -> u64 {
        u64::from_be_bytes(self.0)
    }
}

/// As it is; of a bad one, what can't be shown is escaped.
impl fmt::Display for Symbol {
    fn fmt(&self, f: &mut fmt::Formatter<'_>) -> fmt::Result {
        Spelling::from(*self).fmt(f)
    }
}

impl fmt::Debug for Symbol {
    fn fmt(&self, f: &mut fmt::Formatter<'_>) -> fmt::Result {
        write!(f, "Symbol({self})")
    }
}

/// A share count in micro-shares: millionths of a share.
#[derive(Clone, Copy, Debug, Default, PartialEq, Eq, PartialOrd, Ord, Hash)]
pub struct Shares(pub i64);

impl Shares {
    /// Micro-shares of one share.
    pub const SCALE: i64 = 1_000_000;

    /// Whole shares, truncated toward zero.
    pub fn whole(self) -> i64 {
        self.0 / Shares::SCALE
    }
}

/// A symbol and the part of equity that it is to have.
#[derive(Clone, Copy, Debug, PartialEq)]
pub struct Target {
    /// Which one.
    pub symbol: Symbol,
    /// Any finite number; a negative one asks for a short.
    pub weight: f64,
}

/// A symbol and its price.
#[derive(Clone, Copy, Debug, PartialEq, Eq)]
pub struct Price {
    /// Which one.
    pub symbol: Symbol,
    /// In cents, at least 1.
    pub price: i64,
}

/// A symbol and the part of equity that it has.
#[derive(Clone, Copy, Debug, PartialEq)]
pub struct Weight {
    /// Which one.
    pub symbol: Symbol,
    /// Its value over equity.
    pub weight: f64,
}

/// The weights of open positions, in symbol order; read as a slice.
#[derive(Clone, Copy)]
pub struct Weights {
    count: usize,
    all: [Weight; layout::PLACES],
}

impl Weights {
    pub(crate) fn of_bytes(bytes: &[u8], count: usize) -> Weights {
        let none = Weight { symbol: Symbol([0; 8]), weight: 0.0 };
        let mut all = [none; layout::PLACES];
        for (place, entry) in all.iter_mut().take(count).zip(bytes.chunks_exact(layout::ENTRY_SIZE)) {
            let [symbol, weight] = bytes::take(entry);
            *place = Weight { symbol: Symbol(symbol), weight: f64::from_le_bytes(weight) };
        }
        Weights { count: count.min(layout::PLACES), all }
    }
}

impl std::ops::Deref for Weights {
    type Target = [Weight];

    fn deref(&self) -> &[Weight] {
        &self.all[..self.count]
    }
}

impl fmt::Debug for Weights {
    fn fmt(&self, f: &mut fmt::Formatter<'_>) -> fmt::Result {
        f.debug_list().entries(self.iter()).finish()
    }
}

/// A list as bytes, 16 an entry, on the caller's stack. A list over its bound is cut one entry past it, so that the call
/// still refuses it.
pub(crate) struct Entries<const N: usize> {
    bytes: [[Word; 2]; N],
    count: usize,
}

pub(crate) type Targets = Entries<65>;
pub(crate) type Prices = Entries<129>;

impl<const N: usize> Entries<N> {
    fn of(entries: impl Iterator<Item = [Word; 2]>) -> Entries<N> {
        let mut list = Entries { bytes: [[[0; 8]; 2]; N], count: 0 };
        for (place, entry) in list.bytes.iter_mut().zip(entries) {
            *place = entry;
            list.count += 1;
        }
        list
    }

    pub(crate) fn as_bytes(&self) -> &[u8] {
        self.bytes[..self.count].as_flattened().as_flattened()
    }
}

impl Targets {
    pub(crate) fn new(targets: &[Target]) -> Targets {
        Entries::of(targets.iter().map(|t| [t.symbol.0, t.weight.to_le_bytes()]))
    }
}

impl Prices {
    pub(crate) fn new(prices: &[Price]) -> Prices {
        Entries::of(prices.iter().map(|p| [p.symbol.0, p.price.to_le_bytes()]))
    }
}
