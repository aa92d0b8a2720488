//! Lists of which several entries are bad, so that a refusal has to tell the first of them: document 02's request 9.

use crate::generate::symbol;
use crate::spoil::{bad_price, bad_symbol};
use crate::{Prices, Random, Symbol, Targets};
use std::collections::BTreeSet;

const MOST_TARGETS: usize = 64;
const MOST_PRICES: usize = 128;

/// Up to 64 targets and 128 prices, many of them of the same symbols. Each sort of fault is there or not, at one place or at a few.
pub fn bad_lists(random: &mut Random) -> (Targets, Prices) {
    let (t, p) = (length(random, MOST_TARGETS), length(random, MOST_PRICES));
    let mut pool = BTreeSet::new();
    while pool.len() < t.max(p) {
        pool.insert(symbol(random));
    }
    let pool: Vec<Symbol> = pool.into_iter().collect();
    let mut targets: Targets = drawn(random, &pool, t).into_iter().map(|s| (s, 0.01)).collect();
    let mut prices: Prices = drawn(random, &pool, p).into_iter().map(|s| (s, 1 + random.below(999) as i64)).collect();
    if random.one_in(4) {
        misname(random, &mut targets);
    }
    if random.one_in(4) {
        misname(random, &mut prices);
    }
    if random.one_in(3) {
        repeat(random, &mut targets);
    }
    if random.one_in(3) {
        repeat(random, &mut prices);
    }
    if random.one_in(8) {
        places(random, t).into_iter().for_each(|at| targets[at].1 = f64::NAN);
    }
    if random.one_in(2) {
        places(random, p).into_iter().for_each(|at| prices[at].1 = bad_price(random));
    }
    (targets, prices)
}

/// The bound, a few, or any; never 0.
fn length(random: &mut Random, bound: usize) -> usize {
    match random.below(5) {
        0 | 1 => bound,
        2 => 1 + random.below(8) as usize,
        _ => 1 + random.below(bound as u64) as usize,
    }
}

/// Some of the symbols: ascending, but for two that changed their places, descending, or in any order.
fn drawn(random: &mut Random, pool: &[Symbol], count: usize) -> Vec<Symbol> {
    let mut symbols = pool.to_vec();
    random.shuffle(&mut symbols);
    symbols.truncate(count);
    let order = random.below(5);
    if order < 4 {
        symbols.sort();
    }
    match order {
        0 => symbols.reverse(),
        1 => symbols.swap(random.below(count as u64) as usize, random.below(count as u64) as usize),
        _ => {}
    }
    symbols
}

/// One to three places of a list; a third of the time its last one alone.
fn places(random: &mut Random, length: usize) -> Vec<usize> {
    if random.one_in(3) {
        return vec![length - 1];
    }
    (0..1 + random.below(3)).map(|_| random.below(length as u64) as usize).collect()
}

fn misname<T>(random: &mut Random, list: &mut [(Symbol, T)]) {
    places(random, list.len()).into_iter().for_each(|at| list[at].0 = bad_symbol(random));
}

/// Entries under the symbol of another: all of them under one, or each under its neighbour's or any.
fn repeat<T>(random: &mut Random, list: &mut [(Symbol, T)]) {
    let count = list.len() as u64;
    let (one, sort) = (random.below(count) as usize, random.below(3));
    for at in places(random, list.len()) {
        let of = match sort {
            0 => one,
            1 => at.saturating_sub(1),
            _ => random.below(count) as usize,
        };
        list[at].0 = list[of].0;
    }
}
