//! Calls on accounts, timed beside the Rust's: through the C interface on bytes that are ready, by value within the proved code, and
//! through the safe crate.

mod checks;

pub use checks::run as run_checks;

use crate::direct::{direct_rebalance, direct_return, direct_snapshot};
use crate::port::model;
use oracle::Timed;
use scenario::{Costs, Prices, Setting, Symbol, Targets};
use std::hint::black_box;
use std::time::Instant;
use threshcoil::{Account, Context, ExecutionKind, ExecutionRecord, Price, Settings, Target};
use threshcoil_sys as port;
use threshcoil_sys::layout::{self, ENTRY_SIZE, PLACES, SNAPSHOT_SIZE, WEIGHTS_SIZE};

const CASH: i64 = 10_000_000_007;
const COSTS: Costs = Costs { commission_bps: 5.0, slippage_bps: 2.0, min_commission: 100, max_commission: 0 };
const CONTEXT: Context = Context { period_index: 0, kind: ExecutionKind::Rebalance };

/// Batches, of which the median is told, and calls of a batch.
pub const BATCHES: usize = 301;
pub const CALLS: usize = 50;

#[derive(Clone, Copy, PartialEq)]
enum Call {
    Rebalance,
    Return,
    Snapshot,
}

struct Row {
    name: &'static str,
    call: Call,
    /// Set before the first orders.
    opened: fn(usize) -> Option<Setting>,
    setting: fn(usize) -> Option<Setting>,
    /// Entries of the two target lists, each a symbol by its number and its weight: a call moves the account from one list to the other.
    entries: [fn(usize) -> (usize, f64); 2],
}

/// Parts of equity around a hundredth, the second list the other way round.
fn up(k: usize) -> (usize, f64) {
    (k, if k % 2 == 0 { 0.011 } else { 0.009 })
}

fn down(k: usize) -> (usize, f64) {
    (k, up(k + 1).1)
}

const FILLED: Row =
    Row { name: "all filled", call: Call::Rebalance, opened: |_| None, setting: |_| None, entries: [up, down] };

/// To nothing: the first of all orders took the cash.
const TRIMMED: Row = Row { name: "all trimmed", entries: [|k| (k, 10.0), |k| (k, 10.0)], ..FILLED };

const ROWS: [Row; 7] = [
    FILLED,
    Row { name: "filled and recorded", setting: |_| Some(Setting::Recording(true)), ..FILLED },
    Row { name: "under a cap", setting: |n| Some(Setting::MaxTrades(Some(n as u64 / 2))), ..FILLED },
    Row { name: "all skipped", setting: |_| Some(Setting::NoTradeBandBps(5_000.0)), ..FILLED },
    TRIMMED,
    Row { name: "return", call: Call::Return, ..FILLED },
    Row { name: "snapshot", call: Call::Snapshot, ..FILLED },
];

/// One of each pair sold whole, and the other bought for more than that brought, by turns.
const PARTS: Row = Row {
    name: "trimmed to a part",
    opened: |n| Some(Setting::MaxOrderValue(2 * CASH / n as i64)),
    entries: [sold_and_bought, |k| (k ^ 1, sold_and_bought(k).1)],
    ..FILLED
};

fn sold_and_bought(k: usize) -> (usize, f64) {
    (k, if k % 2 == 0 { 0.0 } else { 10.0 })
}

/// Trimmed rows with a ceiling that every fill of theirs reaches. Trims to nothing leave little cash, of which the floor alone is reached.
const CEILINGS: [(Row, i64); 2] = [(TRIMMED, COSTS.min_commission), (PARTS, 5_000)];

/// The port's account with its lists, as bytes and as the safe crate takes them.
#[derive(Clone)]
struct Ours {
    account: Account,
    bytes: Vec<u8>,
    targets: [Vec<Target>; 2],
    prices: Vec<Price>,
    target_bytes: [Vec<u8>; 2],
    price_bytes: Vec<u8>,
    records: Vec<ExecutionRecord>,
    record_bytes: Vec<u8>,
    equity: Vec<i64>,
    returns: Vec<f64>,
}

fn symbol(k: usize) -> Symbol {
    Symbol([b'S', b'0' + (k / 10) as u8, b'0' + (k % 10) as u8, 0, 0, 0, 0, 0])
}

impl Ours {
    fn new(costs: Costs, targets: &[Targets; 2], prices: &Prices) -> Ours {
        let settings = Settings::new(model(costs));
        let named = |s: &Symbol| threshcoil::Symbol::from_padded(s.0);
        let mut equity = vec![0; CALLS + 8];
        let account = Account::open(CASH, &settings, &mut equity).expect("good settings");
        let entry = |s: &Symbol, word: [u8; 8]| [s.0, word].concat();
        Ours {
            account,
            bytes: account.as_bytes().to_vec(),
            targets: targets.clone().map(|l| l.iter().map(|(s, w)| Target { symbol: named(s), weight: *w }).collect()),
            prices: prices.iter().map(|(s, p)| Price { symbol: named(s), price: *p }).collect(),
            target_bytes: targets.clone().map(|l| l.iter().flat_map(|(s, w)| entry(s, w.to_le_bytes())).collect()),
            price_bytes: prices.iter().flat_map(|(s, p)| entry(s, p.to_le_bytes())).collect(),
            records: vec![ExecutionRecord::EMPTY; 64],
            record_bytes: vec![0; PLACES * layout::RECORD_SIZE],
            equity,
            returns: vec![0.0; CALLS + 8],
        }
    }

    fn set(&mut self, setting: Setting) {
        let account = &mut self.account;
        let done = match setting {
            Setting::MaxOrderValue(n) => account.set_max_order_value(n),
            Setting::MaxTrades(cap) => account.set_max_trades_per_rebalance(cap),
            Setting::NoTradeBandBps(x) => account.set_no_trade_band_bps(x),
            Setting::Recording(on) => account.set_recording(on),
            Setting::CashFirst(on) => account.set_cash_first(on),
            _ => Ok(()),
        };
        assert!(done.is_ok());
        self.bytes = account.as_bytes().to_vec();
    }

    /// The k-th call on the bytes.
    fn on_bytes(&mut self, call: Call, k: usize) {
        let (account, prices) = (&mut self.bytes, &self.price_bytes);
        let answer = match call {
            Call::Rebalance => {
                port::tc_rebalance_simple(account, &self.target_bytes[k % 2], prices, 0, 0, &mut self.record_bytes)
            }
            Call::Return => port::tc_record_return(account, prices, &mut self.equity, &mut self.returns),
            Call::Snapshot => {
                let (figures, weights) = self.record_bytes.split_at_mut(SNAPSHOT_SIZE);
                port::tc_snapshot(account, prices, figures, &mut weights[..WEIGHTS_SIZE])
            }
        };
        assert_eq!(answer % 256, 0);
    }

    /// A batch of calls by value. Rebalances, which start from one account each, are half from the one that is found to the first
    /// list, and half from there to the second.
    fn directly(&self, call: Call) -> [[u8; layout::ACCOUNT_SIZE]; 2] {
        const HALF: u64 = CALLS as u64 / 2;
        let (found, prices) = (&self.bytes, &self.price_bytes);
        let mut after = [[0; layout::ACCOUNT_SIZE]; 2];
        let [first, second] = &mut after;
        let answers = match call {
            Call::Rebalance => {
                direct_rebalance(found, &self.target_bytes[0], prices, HALF, first)
                    + direct_rebalance(first, &self.target_bytes[1], prices, HALF, second)
            }
            Call::Return => direct_return(found, prices, 2 * HALF, first),
            Call::Snapshot => direct_snapshot(found, prices, 2 * HALF, &mut first[..32], &mut second[..WEIGHTS_SIZE]),
        };
        assert_eq!(answers, 0);
        after
    }

    /// What the last calls by value left is what the same calls on bytes leave.
    fn assert_same(&self, call: Call) {
        let [first, second] = self.directly(call);
        let mut called = self.clone();
        called.on_bytes(call, 0);
        match call {
            Call::Rebalance => {
                assert_eq!(first[..], called.bytes);
                called.on_bytes(call, 1);
                assert_eq!(second[..], called.bytes);
            }
            Call::Return => assert_eq!(first[..], called.bytes),
            Call::Snapshot => {
                let (figures, weights) = called.record_bytes.split_at(SNAPSHOT_SIZE);
                assert_eq!(first[..32], figures[..32]);
                assert_eq!(second[..ENTRY_SIZE * self.prices.len()], weights[..ENTRY_SIZE * self.prices.len()]);
            }
        }
    }

    /// The k-th call through the safe crate.
    fn on_account(&mut self, call: Call, k: usize) {
        let (account, prices) = (&mut self.account, &self.prices);
        let done = match call {
            Call::Rebalance => {
                account.rebalance_simple(&self.targets[k % 2], prices, CONTEXT, &mut self.records).is_ok()
            }
            Call::Return => account.record_return(prices, &mut self.equity, &mut self.returns).is_ok(),
            Call::Snapshot => black_box(account.snapshot(prices)).is_ok(),
        };
        assert!(done);
    }
}

fn theirs(rust: &mut Timed, call: Call, k: usize) {
    match call {
        Call::Rebalance => rust.rebalance(k),
        Call::Return => rust.record_return(),
        Call::Snapshot => _ = black_box(rust.snapshot()),
    }
}

/// Nanoseconds a call of one batch.
pub fn batch(calls: impl FnOnce()) -> f64 {
    let start = Instant::now();
    calls();
    start.elapsed().as_secs_f64() / CALLS as f64 * 1e9
}

pub fn median(mut times: Vec<f64>) -> f64 {
    times.sort_by(f64::total_cmp);
    times[times.len() / 2]
}

/// The target lists of a row, and its prices.
fn listed(row: &Row, n: usize) -> ([Targets; 2], Prices) {
    let targets = row.entries.map(|entry| (0..n).map(|k| (symbol(entry(k).0), entry(k).1)).collect());
    (targets, (0..n).map(|k| (symbol(k), 1_000 + 37 * k as i64)).collect())
}

/// The port's account of a row, with its lists, after a call to each.
fn port_ready(row: &Row, n: usize, costs: Costs) -> Ours {
    let (targets, prices) = listed(row, n);
    let mut ours = Ours::new(costs, &targets, &prices);
    (row.opened)(n).into_iter().for_each(|setting| ours.set(setting));
    for k in 0..2 {
        ours.on_bytes(Call::Rebalance, k);
        ours.on_account(Call::Rebalance, k);
    }
    assert_eq!(ours.bytes, ours.account.as_bytes());
    (row.setting)(n).into_iter().for_each(|setting| ours.set(setting));
    ours.assert_same(row.call);
    ours
}

/// Both accounts of a row, each with its lists.
fn ready(row: &Row, n: usize) -> Option<(Timed, Ours)> {
    let (targets, prices) = listed(row, n);
    let mut rust = Timed::new(CASH, COSTS, &targets, &prices)?;
    (row.opened)(n).into_iter().for_each(|setting| rust.set(setting));
    (0..2).for_each(|k| rust.rebalance(k));
    (row.setting)(n).into_iter().for_each(|setting| rust.set(setting));
    let ours = port_ready(row, n, COSTS);
    let a = &ours.account;
    let figures = [a.cash(), a.last_rebalance_order_count() as i64, a.trimmed_fill_count() as i64];
    assert_eq!(rust.figures(), figures, "both are the same account");
    Some((rust, ours))
}

/// An account that holds so many symbols, and the Rust's where that is at hand.
pub fn holding(n: usize) -> (Account, Option<Timed>) {
    (port_ready(&FILLED, n, COSTS).account, ready(&FILLED, n).map(|(rust, _)| rust))
}

/// A batch of the Rust's.
fn theirs_in(rust: &Timed, call: Call) -> f64 {
    let mut rust = rust.clone();
    batch(|| (0..CALLS).for_each(|k| theirs(&mut rust, call, k)))
}

/// A batch by value, one on bytes and one through the safe crate, and the account that the last two leave.
fn ours_in(ours: &Ours, call: Call) -> ([f64; 3], Account) {
    let mut ours = ours.clone();
    let directly = batch(|| _ = black_box(ours.directly(call)));
    let on_bytes = batch(|| (0..CALLS).for_each(|k| ours.on_bytes(call, k)));
    let on_account = batch(|| (0..CALLS).for_each(|k| ours.on_account(call, k)));
    assert_eq!(ours.bytes, ours.account.as_bytes());
    ([directly, on_bytes, on_account], ours.account)
}

/// Every batch starts from the same account; all take turns, so that what else the machine does falls on all.
fn timed(row: &Row, n: usize) -> Option<[f64; 4]> {
    let (rust, ours) = ready(row, n)?;
    let mut times = [const { Vec::new() }; 4];
    for _ in 0..BATCHES {
        times[0].push(theirs_in(&rust, row.call));
        let (now, _) = ours_in(&ours, row.call);
        now.iter().zip(&mut times[1..]).for_each(|(time, times)| times.push(*time));
    }
    Some(times.map(median))
}

/// Rebalances by the Rust, and by two of the port's accounts, in turn with each other; what the two leave is looked at.
fn in_turn(rust: &Timed, accounts: [&Ours; 2], left: impl Fn([Account; 2])) -> (f64, [[f64; 3]; 2]) {
    let (mut theirs, mut ours) = (Vec::new(), [const { [const { Vec::new() }; 3] }; 2]);
    for _ in 0..BATCHES {
        theirs.push(theirs_in(rust, Call::Rebalance));
        let batches = accounts.map(|ours| ours_in(ours, Call::Rebalance));
        left(batches.map(|(_, account)| account));
        for (times, (now, _)) in ours.iter_mut().zip(batches) {
            times.iter_mut().zip(now).for_each(|(times, time)| times.push(time));
        }
    }
    (median(theirs), ours.map(|times| times.map(median)))
}

/// The same rebalances of 64 symbols, by turns bought and sold, in plain order and in cash-first mode: the Rust's, which has plain order
/// alone, then the port's in either. Each order fills whole, so both leave the same.
fn cash_first() -> Option<(f64, [[f64; 3]; 2])> {
    let (rust, plain) = ready(&FILLED, PLACES)?;
    let mut mode = plain.clone();
    mode.set(Setting::CashFirst(true));
    mode.assert_same(Call::Rebalance);
    Some(in_turn(&rust, [&plain, &mode], |[left, mut other]| {
        assert_eq!((left.last_rebalance_order_count(), left.trimmed_fill_count()), (PLACES as u64, 0));
        assert!(other.set_cash_first(false).is_ok() && other == left, "both leave the same");
    }))
}

/// A row without a ceiling and with one.
fn ceiling(row: &Row, n: usize, max_commission: i64) -> Option<(f64, [[f64; 3]; 2])> {
    let (rust, plain) = ready(row, n)?;
    let capped = port_ready(row, n, Costs { max_commission, ..COSTS });
    assert_pays(&capped, max_commission);
    let trims = [&plain, &capped].map(|ours| ours.account.trimmed_fill_count());
    Some(in_turn(&rust, [&plain, &capped], |left| {
        let [free, capped] = [0, 1].map(|k| left[k].trimmed_fill_count() - trims[k]);
        assert_eq!(free, capped, "both trim as often");
        assert!(free >= (CALLS * n / 2) as u64, "every buy is trimmed");
    }))
}

/// Every fill of a rebalance, if there are any, costs the ceiling.
fn assert_pays(ours: &Ours, max_commission: i64) {
    let mut ours = ours.clone();
    ours.set(Setting::Recording(true));
    let before = ours.account.record_count();
    ours.on_account(Call::Rebalance, 0);
    let filled = (ours.account.record_count() - before) as usize;
    assert!(ours.records[..filled].iter().all(|record| record.cost == max_commission));
}

/// A row's times, the port's each with its ratio to the Rust's.
fn told(n: usize, name: &str, rust: f64, [direct, bytes, safe]: [f64; 3]) -> String {
    format!(
        "  {n:>2} symbols, {name:<20} Rust {rust:>6.0}, port directly {direct:>5.0} ({:.2}), on bytes {bytes:>5.0} ({:.2}), by the crate {safe:>5.0} ({:.2})",
        direct / rust,
        bytes / rust,
        safe / rust
    )
}

pub fn run() -> bool {
    println!("accounts: nanoseconds a call, median of {BATCHES} batches of {CALLS} calls;");
    println!("nanobook walks the ordered map of the differential runs, and under tools/hash-order its own hash map");
    for n in [8, 32, 64] {
        for row in &ROWS {
            let Some([rust, ours @ ..]) = timed(row, n) else {
                println!("accounts: SKIPPED, since nanobook's source is not at hand");
                return true;
            };
            println!("{}", told(n, row.name, rust, ours));
        }
    }
    run_cash_first() && run_ceiling() && run_checks()
}

/// Cash-first mode alone, beside plain order.
pub fn run_cash_first() -> bool {
    let Some((rust, [plain, mode])) = cash_first() else {
        println!("cash-first: SKIPPED, since nanobook's source is not at hand");
        return true;
    };
    println!("in turn with each other; the Rust has no cash-first mode, so its plain order stands beside both");
    println!("{}", told(PLACES, "plain order, filled", rust, plain));
    let [direct, bytes, safe] = ratios(mode, plain);
    let beside = format!("; to the port's plain order {direct:.2}, {bytes:.2}, {safe:.2}");
    println!("{}{beside}", told(PLACES, "cash-first, filled", rust, mode));
    true
}

fn ratios(times: [f64; 3], to: [f64; 3]) -> [f64; 3] {
    [0, 1, 2].map(|k| times[k] / to[k])
}

/// Trims alone, without a ceiling and with one.
pub fn run_ceiling() -> bool {
    println!("in turn with each other; the Rust has no ceiling, so its trims without one stand beside both");
    for n in [8, 32, PLACES] {
        for (row, max_commission) in &CEILINGS {
            let Some((rust, [plain, capped])) = ceiling(row, n, *max_commission) else {
                println!("ceiling: SKIPPED, since nanobook's source is not at hand");
                return true;
            };
            println!("{}", told(n, row.name, rust, plain));
            let [direct, bytes, safe] = ratios(capped, plain);
            let beside = format!("; to the port's without a ceiling {direct:.2}, {bytes:.2}, {safe:.2}");
            println!("{}{beside}", told(n, "with a ceiling", rust, capped));
        }
    }
    true
}
