//! A scenario and its answers as lines of text: a call after '>', what it gave and the account after it after '<'.
//! Doubles are written as their sixteen hexadecimal digits, so that nothing is lost.

use crate::{
    Context, Costs, Held, Kind, Opening, Played, Prices, Record, Reply, Scenario, Setting, Settings, Step, Symbol, View,
};
use std::fmt::{Display, Write};

/// A scenario as far as it was played.
pub fn written(scenario: &Scenario, played: &Played) -> String {
    let Played { answer, opened, .. } = played;
    let mut text = format!("> {}\n< answer {answer}\n{}", opening(&scenario.opening), account(opened));
    for (step, (outcome, view)) in scenario.steps.iter().zip(&played.calls) {
        text += &format!("> {}\n< answer {}\n{}{}", call(step), outcome.answer, reply(&outcome.reply), account(view));
    }
    text
}

/// A scenario's calls alone.
pub fn asked(scenario: &Scenario) -> String {
    let calls = scenario.steps.iter().map(|step| format!("> {}\n", call(step)));
    format!("> {}\n", opening(&scenario.opening)) + &calls.collect::<String>()
}

fn opening(o: &Opening) -> String {
    format!("open {} {} {}", o.cash, costs(&o.costs), o.equity_places)
}

fn call(step: &Step) -> String {
    match step {
        Step::Set(s) => format!("set {}", setting(s)),
        Step::Rebalance { targets, prices: p, context: c, places } => {
            format!("rebalance {} {places} | {} | {}", context(c), weights(targets), prices(p))
        }
        Step::Close { symbol, price, context: c, places } => {
            format!("close {} {places} {} {price}", context(c), name(symbol))
        }
        Step::RecordReturn { prices: p, equity_places, return_places } => {
            format!("record_return {equity_places} {return_places} {}", prices(p))
        }
        Step::TotalEquity(p) => format!("total_equity {}", prices(p)),
        Step::CurrentWeights(p) => format!("current_weights {}", prices(p)),
        Step::UnpricedHolding(p) => format!("unpriced_holding {}", prices(p)),
        Step::Position(symbol) => format!("position {}", name(symbol)),
        Step::Snapshot(p) => format!("snapshot {}", prices(p)),
    }
}

fn setting(s: &Setting) -> String {
    match s {
        Setting::QuantityStep(n) => format!("quantity_step {n}"),
        Setting::MinOrderValue(n) => format!("min_order_value {n}"),
        Setting::MaxOrderValue(n) => format!("max_order_value {n}"),
        Setting::NoTradeBandBps(x) => format!("no_trade_band_bps {}", bits(*x)),
        Setting::MaxTrades(cap) => format!("max_trades_per_rebalance {}", or_none(cap.map(|n| n.to_string()))),
        Setting::MaxRebalanceNotional(n) => format!("max_rebalance_notional {n}"),
        Setting::Recording(on) => format!("recording {}", u8::from(*on)),
        Setting::CashFirst(on) => format!("cash_first {}", u8::from(*on)),
    }
}

fn reply(r: &Reply) -> String {
    match r {
        Reply::Nothing => String::new(),
        Reply::Filled(records) => records.iter().map(record).collect(),
        Reply::Recorded { equity, gain } => format!("< recorded {equity} {}\n", or_none(gain.map(bits))),
        Reply::Equity(n) => format!("< equity {n}\n"),
        Reply::Weights(w) => format!("< weights {}\n", weights(w)),
        Reply::Unpriced(s) => format!("< unpriced {}\n", or_none(s.as_ref().map(name))),
        Reply::Position(p) => format!("< found {}\n", or_none(p.as_ref().map(held))),
        Reply::Snapshot { cash, equity, weights: w, open, realized } => {
            format!("< snapshot {cash} {equity} {open} {realized} {}\n", weights(w))
        }
    }
}

pub fn record(r: &Record) -> String {
    let figures = [r.quantity, r.price, r.reference_price, r.notional, r.reference_notional];
    let cash = [r.cost, r.cash_delta, r.cash_after];
    let numbers = spaced(figures.iter().chain(&cash));
    format!("< record {} {} {} {numbers}\n", r.sequence, context(&r.context), name(&r.symbol))
}

/// The lines of an account.
pub fn account(v: &View) -> String {
    let counters = format!("{} {} {} {}", v.last_order_count, v.last_notional, v.trimmed_count, v.trimmed_shortfall);
    let series = format!("{} {} {}", v.equity_count, v.return_count, v.previous_equity);
    let mut text = format!("< account {} {counters} {} {series}\n", v.cash, v.record_count);
    let _ = writeln!(text, "< settings {}", settings(&v.settings));
    for position in &v.positions {
        let _ = writeln!(text, "< position {}", held(position));
    }
    text
}

fn settings(s: &Settings) -> String {
    let limits = format!("{} {} {}", s.quantity_step, s.min_order_value, s.max_order_value);
    let caps = format!("{} {}", or_none(s.max_trades.map(|n| n.to_string())), s.max_rebalance_notional);
    let modes = format!("{} {}", u8::from(s.recording), u8::from(s.cash_first));
    format!("{} {limits} {} {caps} {modes}", costs(&s.costs), bits(s.no_trade_band_bps))
}

pub fn costs(c: &Costs) -> String {
    format!("{} {} {} {}", bits(c.commission_bps), bits(c.slippage_bps), c.min_commission, c.max_commission)
}

fn held(p: &Held) -> String {
    format!("{} {} {} {} {}", name(&p.symbol), p.quantity, p.avg_entry_price, p.realized_pnl, p.total_cost)
}

pub fn context(c: &Context) -> String {
    let kind = match c.kind {
        Kind::Rebalance => "rebalance",
        Kind::StopExit => "stop_exit",
    };
    format!("{} {kind}", c.period)
}

/// A symbol's bytes are 33 to 126 and may hold any mark, so they too are written as hexadecimal digits.
pub fn name(s: &Symbol) -> String {
    format!("{:016x}", u64::from_be_bytes(s.0))
}

pub fn bits(x: f64) -> String {
    format!("{:016x}", x.to_bits())
}

fn or_none(word: Option<String>) -> String {
    word.unwrap_or_else(|| "none".to_string())
}

pub fn spaced<T: Display>(words: impl Iterator<Item = T>) -> String {
    words.map(|word| word.to_string()).collect::<Vec<_>>().join(" ")
}

fn prices(p: &Prices) -> String {
    spaced(p.iter().map(|(symbol, price)| format!("{}={price}", name(symbol))))
}

fn weights(w: &[(Symbol, f64)]) -> String {
    spaced(w.iter().map(|(symbol, weight)| format!("{}={}", name(symbol), bits(*weight))))
}
