//! What the checks of a call's lists cost: calls through the C interface with 128 prices, the most that one takes, good or bad at the last.
//! The account holds nothing, so that little else is timed.

use super::{BATCHES, CALLS, COSTS, batch, median, symbol};
use crate::port::{model, priced, weighed};
use scenario::{Prices, Random, Symbol, Targets};
use std::hint::black_box;
use threshcoil::{Account, Settings};
use threshcoil_sys as port;
use threshcoil_sys::layout;

const PRICES: usize = 128;
/// Feeds of a row take turns, so that the order of none is learnt by heart.
const FEEDS: usize = 32;
const SEED: u64 = 20261115;

#[derive(Clone, Copy)]
enum Call {
    Equity,
    Return,
    Rebalance,
}

/// What is done to a feed that is good and in symbol order.
type Change = fn(&mut Random, &mut Prices);

struct Row {
    name: &'static str,
    call: Call,
    change: Change,
    answer: u64,
}

const ROWS: [Row; 9] = [
    Row { name: "equity, in symbol order", call: Call::Equity, change: |_, _| {}, answer: 0 },
    Row { name: "equity, in any order", call: Call::Equity, change: any_order, answer: 0 },
    Row { name: "return, in symbol order", call: Call::Return, change: |_, _| {}, answer: 0 },
    Row { name: "return, in any order", call: Call::Return, change: any_order, answer: 0 },
    Row { name: "equity, the last price bad", call: Call::Equity, change: |_, p| p[PRICES - 1].1 = 0, answer: 4 },
    Row { name: "the same in any order", call: Call::Equity, change: last_price, answer: 4 },
    Row { name: "equity, the last symbol bad", call: Call::Equity, change: |_, p| p[PRICES - 1].0 = BAD, answer: 2 },
    Row { name: "equity, the last one twice", call: Call::Equity, change: last_twice, answer: 3 },
    Row { name: "rebalance, 64 targets, the last price bad", call: Call::Rebalance, change: last_price, answer: 4 },
];

const BAD: Symbol = Symbol(*b" \0\0\0\0\0\0\0");

fn any_order(random: &mut Random, prices: &mut Prices) {
    random.shuffle(prices);
}

fn last_price(random: &mut Random, prices: &mut Prices) {
    random.shuffle(prices);
    prices[PRICES - 1].1 = 0;
}

/// In any order, the last one under the symbol of another.
fn last_twice(random: &mut Random, prices: &mut Prices) {
    random.shuffle(prices);
    prices[PRICES - 1].0 = prices[random.below(PRICES as u64 - 1) as usize].0;
}

/// An account without positions, and what calls on it are lent.
struct Lent {
    account: Vec<u8>,
    targets: Vec<u8>,
    records: Vec<u8>,
    equities: Vec<i64>,
    returns: Vec<f64>,
}

fn lent() -> Lent {
    let mut equities = vec![0; CALLS + 8];
    let account = Account::open(1_000_000, &Settings::new(model(COSTS)), &mut equities).expect("good settings");
    let targets: Targets = (0..layout::PLACES).map(|k| (symbol(k), 0.01)).collect();
    let records = vec![0; layout::PLACES * layout::RECORD_SIZE];
    let account = account.as_bytes().to_vec();
    Lent { account, targets: weighed(&targets), records, equities, returns: vec![0.0; CALLS + 8] }
}

fn feeds(random: &mut Random, change: Change) -> Vec<Vec<u8>> {
    let mut feed = || {
        let mut prices: Prices = (0..PRICES).map(|k| (symbol(k), 1 + random.below(50_000) as i64)).collect();
        change(random, &mut prices);
        priced(&prices)
    };
    (0..FEEDS).map(|_| feed()).collect()
}

/// A batch of a row, each from the account as opened.
fn timed(row: &Row, feeds: &[Vec<u8>]) -> f64 {
    let mut lent = lent();
    let Lent { account, targets, records, equities, returns } = &mut lent;
    batch(|| {
        for k in 0..CALLS {
            let prices = black_box(&feeds[k % FEEDS][..]);
            let answer = match row.call {
                Call::Equity => port::tc_total_equity(account, prices, &mut [0; layout::WORD_SIZE]),
                Call::Return => port::tc_record_return(account, prices, equities, returns),
                Call::Rebalance => port::tc_rebalance_simple(account, targets, prices, 0, 0, records),
            };
            assert_eq!(answer % 256, row.answer);
        }
    })
}

/// Every row by turns, so that what else the machine does falls on all.
pub fn run() -> bool {
    println!(
        "checks: nanoseconds a call with {PRICES} prices, median of {BATCHES} batches of {CALLS} calls, and the least"
    );
    let mut random = Random::new(SEED);
    let feeds = ROWS.map(|row| feeds(&mut random, row.change));
    let mut times = [const { Vec::new() }; ROWS.len()];
    for _ in 0..BATCHES {
        times.iter_mut().zip(&ROWS).zip(&feeds).for_each(|((times, row), feeds)| times.push(timed(row, feeds)));
    }
    for (row, times) in ROWS.iter().zip(times) {
        let least = times.iter().copied().fold(f64::MAX, f64::min);
        println!("  {:<42} {:>6.0} {:>6.0}", row.name, median(times), least);
    }
    true
}
