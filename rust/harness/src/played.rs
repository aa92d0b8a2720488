//! The stored sample of whole calls that the proved program `replay_accounts` replays: accounts of the Rust's, call by
//! call, each with the Rust's answer and the account after it. crates/replay_accounts/src/row.rt has the row.
//!
//! Random scenarios within eight symbols, kept while the file stays small; a call past the eighth symbol, or for which the
//! Rust is no oracle, ends a scenario. After them accounts by hand, and what document 01 refuses.

mod points;
mod refusals;

use scenario::{
    Held, Kind, Opening, Outcome, Played, Prices, Random, Record, Reply, Scenario, Setting, Step, Symbol, View,
};

const SEED: u64 = 7;
const SCENARIOS: usize = 60;
const MOST: usize = 8;

/// Where the account stands in a row, how many words it has but for positions, the last of them their count; and a row's words.
const SCALARS_FROM: usize = 144;
const SCALARS: usize = 21;
const COUNT: usize = SCALARS - 1;
const WORDS: usize = SCALARS_FROM + SCALARS + 5 * MOST;

type Row = [u64; WORDS];

fn number(s: &Symbol) -> u64 {
    u64::from_be_bytes(s.0)
}

/// A symbol as it stands in a list: its text.
fn text(s: &Symbol) -> u64 {
    u64::from_le_bytes(s.0)
}

fn kind(k: Kind) -> u64 {
    match k {
        Kind::Rebalance => 0,
        Kind::StopExit => 1,
    }
}

fn put(row: &mut Row, from: usize, words: &[u64]) {
    row[from..from + words.len()].copy_from_slice(words);
}

/// None where there is no room.
fn pairs(row: &mut Row, from: usize, pairs: impl ExactSizeIterator<Item = (u64, u64)>) -> Option<u64> {
    let count = pairs.len();
    pairs.enumerate().take(MOST).for_each(|(k, (a, b))| put(row, from + 2 * k, &[a, b]));
    (count <= MOST).then_some(count as u64)
}

fn prices(row: &mut Row, prices: &Prices) -> Option<()> {
    row[7] = pairs(row, 32, prices.iter().map(|(s, p)| (text(s), *p as u64)))?;
    Some(())
}

fn setting(s: &Setting) -> [u64; 3] {
    match *s {
        Setting::QuantityStep(n) => [1, n as u64, 0],
        Setting::MinOrderValue(n) => [2, n as u64, 0],
        Setting::MaxOrderValue(n) => [3, n as u64, 0],
        Setting::NoTradeBandBps(x) => [4, x.to_bits(), 0],
        Setting::MaxTrades(cap) => [5, u64::from(cap.is_some()), cap.unwrap_or(0)],
        Setting::MaxRebalanceNotional(n) => [6, n as u64, 0],
        Setting::Recording(on) => [7, u64::from(on), 0],
        // The Rust lacks it, and no scenario of its own asks for it.
        Setting::CashFirst(_) => unreachable!("no oracle for cash-first mode"),
    }
}

/// The call of a step, and what it is given.
fn asked(row: &mut Row, step: &Step) -> Option<()> {
    match step {
        Step::Set(s) => {
            let [call, a, b] = setting(s);
            (row[0], row[2], row[3]) = (call, a, b);
            Some(())
        }
        Step::Rebalance { targets, prices: at, context, places } => {
            (row[0], row[2], row[3]) = (10, context.period, kind(context.kind));
            row[13] = (*places).min(64);
            row[6] = pairs(row, 16, targets.iter().map(|(s, w)| (text(s), w.to_bits())))?;
            prices(row, at)
        }
        Step::Close { symbol, price, context, places } => {
            // A close that has its place makes one record, and the program lends it as many as a rebalance.
            (row[0], row[13]) = (11, if *places > 0 { 64 } else { 0 });
            put(row, 2, &[number(symbol), *price as u64, context.period, kind(context.kind)]);
            Some(())
        }
        Step::RecordReturn { prices: at, equity_places, return_places } => {
            (row[0], row[13], row[14]) = (12, *equity_places, *return_places);
            prices(row, at)
        }
        Step::Position(s) => {
            (row[0], row[2]) = (20, number(s));
            Some(())
        }
        Step::TotalEquity(at) => {
            row[0] = 21;
            prices(row, at)
        }
        Step::UnpricedHolding(at) => {
            row[0] = 22;
            prices(row, at)
        }
        // The weights stand in the snapshot.
        Step::Snapshot(at) => {
            row[0] = 23;
            prices(row, at)
        }
        Step::CurrentWeights(_) => None,
    }
}

fn record(r: &Record) -> [u64; 12] {
    let ints =
        [r.quantity, r.price, r.reference_price, r.notional, r.reference_notional, r.cost, r.cash_delta, r.cash_after];
    let mut words = [r.sequence, r.context.period, kind(r.context.kind), text(&r.symbol), 0, 0, 0, 0, 0, 0, 0, 0];
    words[4..].copy_from_slice(&ints.map(|n| n as u64));
    words
}

/// The Rust's answer.
fn told(row: &mut Row, outcome: &Outcome) -> Option<()> {
    row[1] = outcome.answer;
    match &outcome.reply {
        Reply::Nothing => {}
        Reply::Filled(records) => {
            row[8] = records.len() as u64;
            (records.len() <= MOST).then_some(())?;
            records.iter().enumerate().for_each(|(k, r)| put(row, 48 + 12 * k, &record(r)));
        }
        Reply::Recorded { equity, gain } => put(row, 9, &[*equity as u64, gain.unwrap_or(0.0).to_bits()]),
        Reply::Equity(equity) => row[9] = *equity as u64,
        Reply::Unpriced(first) => put(row, 9, &[u64::from(first.is_some()), first.as_ref().map_or(0, number)]),
        Reply::Position(held) => {
            row[8] = u64::from(held.is_some());
            let none = Held { symbol: Symbol([0; 8]), quantity: 0, avg_entry_price: 0, realized_pnl: 0, total_cost: 0 };
            let h = held.unwrap_or(none);
            put(row, 9, &[h.quantity, h.avg_entry_price, h.realized_pnl, h.total_cost].map(|n| n as u64));
        }
        Reply::Snapshot { cash, equity, weights, open, realized } => {
            put(row, 9, &[*cash as u64, *equity as u64, *open, *realized as u64]);
            row[8] = pairs(row, 48, weights.iter().map(|(s, w)| (text(s), w.to_bits())))?;
        }
        Reply::Weights(_) => return None,
    }
    Some(())
}

/// The account after the call: the Rust's fields.
fn account(row: &mut Row, v: &View) -> Option<()> {
    let s = &v.settings;
    let scalars: [u64; SCALARS] = [
        v.cash as u64,
        s.costs.commission_bps.to_bits(),
        s.costs.slippage_bps.to_bits(),
        s.costs.min_commission as u64,
        s.quantity_step as u64,
        s.min_order_value as u64,
        s.max_order_value as u64,
        s.no_trade_band_bps.to_bits(),
        u64::from(s.max_trades.is_some()),
        s.max_trades.unwrap_or(0),
        s.max_rebalance_notional as u64,
        u64::from(s.recording),
        v.last_order_count,
        v.last_notional as u64,
        v.trimmed_count,
        v.trimmed_shortfall as u64,
        v.record_count,
        v.equity_count,
        v.return_count,
        v.previous_equity as u64,
        v.positions.len() as u64,
    ];
    put(row, SCALARS_FROM, &scalars);
    (v.positions.len() <= MOST).then_some(())?;
    for (k, p) in v.positions.iter().enumerate() {
        let numbers = [p.quantity, p.avg_entry_price, p.realized_pnl, p.total_cost].map(|n| n as u64);
        put(row, SCALARS_FROM + SCALARS + 5 * k, &[text(&p.symbol)]);
        put(row, SCALARS_FROM + SCALARS + 5 * k + 1, &numbers);
    }
    Some(())
}

fn opening(o: &Opening, opened: &View) -> Option<Row> {
    let mut row = [0; WORDS];
    row[13] = o.equity_places;
    // "Opening writes the cash as the first equity".
    row[9] = o.cash as u64;
    put(
        &mut row,
        2,
        &[
            o.cash as u64,
            o.costs.commission_bps.to_bits(),
            o.costs.slippage_bps.to_bits(),
            o.costs.min_commission as u64,
        ],
    );
    account(&mut row, opened)?;
    Some(row)
}

fn call(step: &Step, (outcome, after): &(Outcome, View)) -> Option<Row> {
    let mut row = [0; WORDS];
    asked(&mut row, step)?;
    told(&mut row, outcome)?;
    account(&mut row, after)?;
    Some(row)
}

/// The rows of a scenario, up to the first that has no room.
fn rows(scenario: &Scenario, played: &Played) -> Vec<Row> {
    let calls = scenario.steps.iter().zip(&played.calls).map(|(step, told)| call(step, told));
    std::iter::once(opening(&scenario.opening, &played.opened)).chain(calls).map_while(|row| row).collect()
}

fn sample() -> Option<Vec<u8>> {
    let mut kept = Vec::new();
    let mut seed = SEED;
    while kept.len() < SCENARIOS {
        let scenario = scenario::ordinary(&mut Random::new(seed));
        let rows = rows(&scenario, &oracle::play(&scenario)?);
        seed += 1;
        // An opening alone, or with setters, tells little.
        if rows.iter().any(|row| row[0] == 10) && rows.len() > 3 {
            kept.push(rows);
        }
    }
    for scenario in points::points() {
        kept.push(rows(&scenario, &oracle::play(&scenario)?));
    }
    kept.push(refusals::refusals()?);
    for scenario in points::ranks() {
        kept.push(rows(&scenario, &oracle::play(&scenario)?));
    }
    Some(kept.iter().flatten().flatten().flat_map(|word| word.to_le_bytes()).collect())
}

/// Nothing is written where nanobook is not at hand: the sample is its answers and nobody else's.
pub fn write(path: &str) -> bool {
    let Some(bytes) = sample() else {
        println!("sample: nanobook's source is not at hand, so nothing is written");
        return false;
    };
    if let Err(error) = std::fs::write(path, &bytes) {
        println!("sample: {path}: {error}");
        return false;
    }
    println!("sample: {} calls to {path}", bytes.len() / size_of::<Row>());
    true
}

/// Whether the stored sample is what the Rust answers now. Skipped, and said so, where nanobook is not at hand.
pub fn check(path: &str) -> bool {
    let Some(bytes) = sample() else {
        println!("sample: SKIPPED, since nanobook's source is not at hand");
        return true;
    };
    let same = std::fs::read(path).is_ok_and(|stored| stored == bytes);
    println!("sample: {path} is {} what the Rust answers", if same { "just" } else { "NOT" });
    same
}
