//! Random sound accounts, as bytes of the C interface: those of accounts that were played for a while, and any within their bounds.

use crate::port::Port;
use scenario::{Account, Random, Scenario, scenario};
use std::collections::BTreeSet;
use threshcoil_sys::layout::{self, ACCOUNT_SIZE, Column, Kind, PLACES, Word};

pub fn account(random: &mut Random) -> Vec<u8> {
    if random.one_in(8) { played(random) } else { any(random) }
}

/// The account of a scenario that was played for a while.
fn played(random: &mut Random) -> Vec<u8> {
    loop {
        let Scenario { opening, steps } = scenario(random);
        let (answer, mut account) = Port::open(&opening);
        if answer == 0 {
            let stop = random.below(steps.len() as u64 + 1) as usize;
            steps[..stop].iter().for_each(|step| _ = account.call(step));
            return account.bytes();
        }
    }
}

/// Every word drawn within its bounds, edges among them; now and then every number as long as it can be.
fn any(random: &mut Random) -> Vec<u8> {
    let fullest = random.one_in(64);
    let mut account = vec![0; ACCOUNT_SIZE];
    let mut draw = Draw { random, fullest };
    put(&mut account, layout::CASH, draw.amount(0) as u64);
    for (from, rows) in [
        (layout::SETTINGS_FROM, layout::SETTINGS),
        (layout::COUNTERS_FROM, layout::COUNTERS),
        (layout::SERIES_FROM, layout::SERIES),
    ] {
        let words = draw.words(rows);
        words.iter().enumerate().for_each(|(k, word)| put(&mut account, from + k, *word));
    }
    let symbols = draw.symbols();
    put(&mut account, layout::POSITIONS, symbols.len() as u64);
    for (k, symbol) in symbols.iter().enumerate() {
        let figures = draw.position();
        let columns = [Column::Quantity, Column::Average, Column::Realized, Column::TotalCost];
        put(&mut account, layout::column(Column::Symbol) + k, u64::from_le_bytes(*symbol));
        columns.iter().zip(figures).for_each(|(column, n)| put(&mut account, layout::column(*column) + k, n as u64));
    }
    account
}

fn put(account: &mut [u8], place: usize, word: u64) {
    account[layout::bytes_of(place, 1)].copy_from_slice(&word.to_le_bytes());
}

struct Draw<'a> {
    random: &'a mut Random,
    fullest: bool,
}

impl Draw<'_> {
    fn words(&mut self, rows: &[Word]) -> Vec<u64> {
        let mut words: Vec<u64> = Vec::new();
        for (k, row) in rows.iter().enumerate() {
            let unmarked = k > 0 && rows[k - 1].kind == Kind::Mark && words[k - 1] == 0;
            words.push(match row.kind {
                Kind::Rate(most) => self.rate(most).to_bits(),
                Kind::Amount(least) => self.amount(least) as u64,
                Kind::Count if unmarked => 0,
                Kind::Count => self.count(),
                Kind::Flag | Kind::Mark => u64::from(self.fullest || self.random.one_in(2)),
                Kind::Ceiling(_) if !self.fullest && self.random.one_in(2) => 0,
                Kind::Ceiling(floor) => self.amount(words[floor] as i64) as u64,
                Kind::Reserved => 0,
            });
        }
        words
    }

    fn amount(&mut self, least: i64) -> i64 {
        if self.fullest {
            return i64::MAX;
        }
        match self.random.below(8) {
            0 => least,
            1 => i64::MAX,
            _ => self.random.i64().max(least),
        }
    }

    fn count(&mut self) -> u64 {
        if self.fullest || self.random.one_in(8) { u64::MAX } else { self.random.u64() }
    }

    fn rate(&mut self, most: f64) -> f64 {
        if self.fullest {
            return most;
        }
        let drawn = self.random.f64().abs();
        match self.random.below(6) {
            0 => 0.0,
            1 => -0.0,
            2 => most,
            _ if drawn <= most => drawn,
            _ => 2.5,
        }
    }

    /// Good symbols, ascending.
    fn symbols(&mut self) -> Vec<[u8; 8]> {
        let count = match self.random.below(8) {
            _ if self.fullest => PLACES,
            0 => 0,
            1 => PLACES,
            2..=4 => self.random.below(PLACES as u64 + 1) as usize,
            _ => 1 + self.random.below(12) as usize,
        };
        let mut symbols = BTreeSet::new();
        while symbols.len() < count {
            let length = if self.fullest { 8 } else { 1 + self.random.below(8) as usize };
            let mut symbol = [0; 8];
            symbol[..length].fill_with(|| 33 + self.random.below(94) as u8);
            symbols.insert(symbol);
        }
        symbols.into_iter().collect()
    }

    /// Quantity, average, realized profit and total cost of a sound position.
    fn position(&mut self) -> [i64; 4] {
        if self.fullest {
            return [i64::MAX; 4];
        }
        let (quantity, realized) = (if self.random.one_in(6) { 0 } else { self.random.i64() }, self.random.i64());
        if quantity == 0 {
            return [0, 0, realized, 0];
        }
        let average = self.amount(0);
        let worth = i128::from(quantity) * i128::from(average) / 1_000_000;
        let worth = worth.clamp(i64::MIN.into(), i64::MAX.into()) as i64;
        let beyond = if self.random.one_in(2) { 0 } else { self.random.i64() & i64::MAX };
        let total = if quantity > 0 { worth.saturating_add(beyond) } else { worth.saturating_sub(beyond) };
        [quantity, average, realized, total]
    }
}
