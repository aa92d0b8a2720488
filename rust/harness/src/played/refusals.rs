//! Calls that document 01's table refuses, by hand, since the Rust refuses nothing: each on an account as the Rust left it, with the
//! number that the table gives it and the same account after it. Beside them calls at the bounds, which are done.

use super::points::{FREE, close, opened, prices, rebalance, recorded, set, symbol};
use super::{COUNT, Row, SCALARS_FROM, account, asked, rows};
use scenario::{Costs, Held, Scenario, Setting::*, Step, Symbol, View};

/// What a row calls that no step of a scenario does: lists of 64 targets and 128 prices, one target more, one price more; or nothing,
/// where it tells the account that the next one starts from.
const LONG: u64 = 13;
const LONGER_TARGETS: u64 = 14;
const LONGER_PRICES: u64 = 15;
/// The longer lists of no good symbol; a weight less than targets, and a price less than symbols.
const LONGER_BAD: u64 = 16;
const FEWER_WEIGHTS: u64 = 17;
const FEWER_PRICES: u64 = 18;
const STATE: u64 = 30;

pub fn refusals() -> Option<Vec<Row>> {
    (1..=3).map(of_account).chain((1..=3).map(asked_first)).collect::<Option<Vec<_>>>().map(|each| each.concat())
}

/// The Rust's rows of a scenario, and the account that they end with.
fn played(scenario: &Scenario) -> Option<(Vec<Row>, View)> {
    let played = oracle::play(scenario)?;
    let last = played.calls.last().map_or(&played.opened, |(_, view)| view).clone();
    Some((rows(scenario, &played), last))
}

fn row(call: u64, answer: u64, places: u64, after: &View) -> Row {
    let mut row = [0; super::WORDS];
    (row[0], row[1], row[13]) = (call, answer, places);
    account(&mut row, after).expect("few positions");
    row
}

/// A refused call: the account is as given.
fn refused(step: &Step, answer: u64, view: &View) -> Row {
    let mut row = row(0, answer, 0, view);
    asked(&mut row, step).expect("short lists");
    row
}

/// An account with a long, a short and a flat position, which records.
fn three_held(k: i64) -> Option<(Vec<Row>, View)> {
    let held = [set(Recording(true)), rebalance(&[(b'A', 0.5), (b'B', -0.1), (b'C', 0.1)], &AT), close(b'C', 100)];
    played(&opened(1_000_000 * k, FREE, held.to_vec()))
}

fn of_account(k: i64) -> Option<Vec<Row>> {
    let (mut all, view) = three_held(k)?;
    all.extend(listed(k).iter().map(|(answer, step)| refused(step, *answer, &view)));
    all.push(row(LONG, 8, 63, &view));
    all.extend(unsound(k, &view, &[Step::TotalEquity(prices(&AT))]));
    all.extend(at_bounds(k)?);
    all.extend(openings(k)?);
    Some(all)
}

const AT: [(u8, i64); 3] = [(b'A', 100), (b'B', 100), (b'C', 100)];
const NAN: f64 = f64::NAN;

fn bad_symbols() -> [Symbol; 4] {
    [b" \0\0\0\0\0\0\0", b"A\x7f\0\0\0\0\0\0", b"\0\0\0\0\0\0\0\0", b"A\0B\0\0\0\0\0"].map(|bytes| Symbol(*bytes))
}

/// A call that is lent so many places of records.
fn places(step: Step, room: u64) -> Step {
    match step {
        Step::Rebalance { targets, prices, context, .. } => Step::Rebalance { targets, prices, context, places: room },
        Step::Close { symbol, price, context, .. } => Step::Close { symbol, price, context, places: room },
        other => other,
    }
}

fn listed(k: i64) -> Vec<(u64, Step)> {
    let named = |s: Symbol, in_targets: bool| {
        let Step::Rebalance { mut targets, mut prices, context, places } = rebalance(&[(b'A', 0.1)], &AT) else {
            unreachable!("a rebalance")
        };
        if in_targets {
            targets[0].0 = s
        } else {
            prices[0].0 = s
        }
        Step::Rebalance { targets, prices, context, places }
    };
    let full = |equity_places, return_places| Step::RecordReturn { prices: prices(&AT), equity_places, return_places };
    let mut calls = vec![
        (1, set(QuantityStep(0))),
        (1, set(MinOrderValue(-1))),
        (1, set(MaxOrderValue(-1))),
        (1, set(MaxRebalanceNotional(-1))),
        (1, set(NoTradeBandBps(f64::INFINITY))),
        (1, set(NoTradeBandBps(-1.0))),
        (3, rebalance(&[(b'A', 0.1), (b'B', 0.1), (b'A', 0.2)], &AT)),
        (3, rebalance(&[(b'A', 0.1)], &[(b'A', k), (b'B', 1), (b'A', k)])),
        (3, Step::TotalEquity(prices(&[(b'B', k), (b'B', k)]))),
        (4, rebalance(&[(b'A', 0.1)], &[(b'A', 0)])),
        (4, Step::Snapshot(prices(&[(b'A', k), (b'B', 0)]))),
        (4, close(b'A', 0)),
        (5, rebalance(&[(b'A', NAN)], &AT)),
        (5, rebalance(&[(b'A', 0.1), (b'B', f64::INFINITY)], &AT)),
        (8, places(rebalance(&[(b'A', 0.1)], &AT), 63)),
        (8, places(close(b'A', 100), 0)),
        (9, close(b'D', 100)),
        (9, close(b'C', 100)),
        (10, full(1, 100)),
        (10, full(100, 0)),
        // Of two that apply the first in document 01's order is told.
        (3, rebalance(&[(b'A', NAN), (b'A', 0.1)], &AT)),
        (5, rebalance(&[(b'A', NAN)], &[(b'A', 0)])),
        (4, places(rebalance(&[(b'A', 0.1)], &[(b'A', -k)]), 63)),
        (4, close(b'D', 0)),
        (8, places(close(b'D', 100), 0)),
    ];
    for s in bad_symbols() {
        let twice = Step::TotalEquity(vec![(s, k), (s, k)]);
        calls.extend([(2, named(s, true)), (2, named(s, false)), (2, Step::Position(s)), (2, twice)]);
    }
    calls
}

/// What is asked before what else: closes, returns and setters as `listed` has rebalances, and whether the account is sound before all of it.
fn asked_first(k: i64) -> Option<Vec<Row>> {
    let (_, view) = three_held(k)?;
    let mut calls = vec![
        (4, places(close(b'A', 0), 0)),
        (4, places(close(b'A', -k), 0)),
        (4, Step::RecordReturn { prices: prices(&[(b'A', 0)]), equity_places: 1, return_places: 100 }),
    ];
    for symbol in bad_symbols() {
        for price in [100, 0] {
            let Step::Close { context, places, .. } = close(b'A', price) else { unreachable!("a close") };
            calls.push((2, Step::Close { symbol, price, context, places }));
        }
    }
    let mut all = vec![row(STATE, 0, 0, &view)];
    all.extend(calls.iter().map(|(answer, step)| refused(step, *answer, &view)));
    all.extend([LONGER_BAD, FEWER_WEIGHTS, FEWER_PRICES].map(|call| row(call, 6, 64, &view)));
    let any = [
        rebalance(&[(b'A', 0.1)], &AT),
        close(b'A', 100),
        recorded(&AT),
        set(QuantityStep(0)),
        set(MinOrderValue(k)),
        Step::Position(symbol(b'A')),
    ];
    all.extend(unsound(k, &view, &any));
    Some(all)
}

/// Accounts that are not sound, each asked for the calls.
fn unsound(k: i64, view: &View, calls: &[Step]) -> Vec<Row> {
    let position = |change: fn(&mut Held, i64)| {
        let mut spoiled = view.clone();
        change(&mut spoiled.positions[0], k);
        spoiled
    };
    let mut swapped = view.clone();
    swapped.positions.swap(0, 1);
    let mut flat = view.clone();
    flat.positions[2].total_cost = k;
    let mut short = view.clone();
    short.positions[1].total_cost += k;
    let views = [
        View { cash: -1, ..view.clone() },
        View { settings: scenario::Settings { quantity_step: 0, ..view.settings }, ..view.clone() },
        swapped,
        flat,
        short,
        position(|p, k| p.total_cost -= k),
        position(|p, _| p.avg_entry_price = -1),
    ];
    let told = |v: &View| -> Vec<Row> {
        std::iter::once(row(STATE, 0, 0, v)).chain(calls.iter().map(|step| refused(step, 11, v))).collect()
    };
    let mut all: Vec<Row> = views.iter().flat_map(told).collect();
    // A place past the last position that is not zero.
    let mut unused = told(view);
    for row in &mut unused {
        row[SCALARS_FROM + COUNT] -= 1;
        let last = SCALARS_FROM + COUNT + 1 + 5 * (view.positions.len() - 1);
        row[last..last + 5].copy_from_slice(&[0, 0, 0, 0, k as u64]);
    }
    all.extend(unused);
    all
}

/// An account without positions, and one with a flat one, before 64 targets; buffers with one free place.
fn at_bounds(k: i64) -> Option<Vec<Row>> {
    let (mut all, empty) = played(&opened(1_000 * k, FREE, vec![set(Recording(true))]))?;
    all.push(row(LONGER_TARGETS, 6, 64, &empty));
    all.push(row(LONGER_PRICES, 6, 64, &empty));
    all.push(row(LONG, 0, 64, &empty));
    let last = View { equity_count: 127, return_count: 127, ..empty.clone() };
    all.push(row(STATE, 0, 0, &last));
    let mut recorded = row(12, 0, 128, &View { equity_count: 128, return_count: 128, ..empty });
    (recorded[9], recorded[14]) = (last.cash as u64, 128);
    all.push(recorded);
    let held = [rebalance(&[(b'A', 0.5)], &AT), close(b'A', 100)];
    let (rows, flat) = played(&opened(1_000 * k, FREE, held.to_vec()))?;
    all.extend(rows);
    all.push(row(LONG, 7, 64, &flat));
    // Nothing is recorded, so no place is asked for.
    let Step::Rebalance { targets, prices, context, .. } = rebalance(&[(b'A', 0.5)], &AT) else { return None };
    let bare = Step::Rebalance { targets, prices, context, places: 0 };
    let Step::Close { symbol, price, context, .. } = close(b'A', 100) else { return None };
    let closed = Step::Close { symbol, price, context, places: 0 };
    all.extend(played(&opened(1_000 * k, FREE, vec![bare, closed]))?.0);
    // "`record_return` gives 10 when either buffer is full, even if no return is due"
    let (rows, poor) = played(&opened(0, FREE, vec![set(QuantityStep(k))]))?;
    all.extend(rows);
    let none = Step::RecordReturn { prices: Vec::new(), equity_places: 100, return_places: 0 };
    all.push(refused(&none, 10, &poor));
    Some(all)
}

/// Openings that are refused, "all zeros", and one at the bound of slippage.
fn openings(k: i64) -> Option<Vec<Row>> {
    let widest = Costs { commission_bps: 0.5, slippage_bps: 10_000.0, ..FREE };
    let steps = vec![rebalance(&[(b'A', 0.25), (b'B', -0.25)], &AT), Step::Position(symbol(b'B'))];
    let (mut all, _) = played(&opened(100_000 * k, widest, steps))?;
    let settings = scenario::Settings {
        costs: FREE,
        quantity_step: 0,
        min_order_value: 0,
        max_order_value: 0,
        no_trade_band_bps: 0.0,
        max_trades: None,
        max_rebalance_notional: 0,
        recording: false,
        cash_first: false,
    };
    let zeros = View {
        cash: 0,
        settings,
        last_order_count: 0,
        last_notional: 0,
        trimmed_count: 0,
        trimmed_shortfall: 0,
        record_count: 0,
        equity_count: 0,
        return_count: 0,
        previous_equity: 0,
        positions: Vec::new(),
    };
    let mut open = |answer: u64, cash: i64, costs: Costs, places: u64| {
        let mut row = row(0, answer, places, &zeros);
        row[2..6].copy_from_slice(&[
            cash as u64,
            costs.commission_bps.to_bits(),
            costs.slippage_bps.to_bits(),
            costs.min_commission as u64,
        ]);
        all.push(row);
    };
    open(1, -1, FREE, 1);
    open(1, k, Costs { commission_bps: -0.5, ..FREE }, 1);
    open(1, k, Costs { commission_bps: f64::INFINITY, ..FREE }, 1);
    open(1, k, Costs { slippage_bps: 10_000.000000000002, ..FREE }, 1);
    open(1, k, Costs { slippage_bps: -0.5, ..FREE }, 1);
    open(1, k, Costs { min_commission: -1, ..FREE }, 1);
    open(1, -1, FREE, 0);
    open(10, k, FREE, 0);
    Some(all)
}
