//! The Rust's account, answering a scenario's calls.

use crate::portfolio::{CostModel, ExecutionKind, ExecutionRecord, Portfolio, Position, Shares, probe};
use crate::single::{Ask, Filled, Single};
use crate::types::Symbol as Name;
use scenario::{
    Account, Context, Costs, Held, Kind, Opening, Outcome, Prices, Record, Reply, Setting, Settings, Step, Symbol, View,
};

pub struct Nanobook {
    account: Portfolio,
    /// Records written before recording was last turned on: the Rust restarts its count there, the port does not.
    recorded_before: u64,
}

/// The Rust has no ceiling, so it is asked of costs without one alone.
pub fn model(costs: Costs) -> CostModel {
    let Costs { commission_bps, slippage_bps, min_commission, max_commission } = costs;
    assert_eq!(max_commission, 0, "no oracle for a ceiling");
    CostModel { commission_bps, slippage_bps, min_commission }
}

impl Account for Nanobook {
    fn open(opening: &Opening) -> (u64, Nanobook) {
        (0, Nanobook { account: Portfolio::new(opening.cash, model(opening.costs)), recorded_before: 0 })
    }

    fn call(&mut self, step: &Step) -> Option<Outcome> {
        if self.never_returns(step) {
            return None;
        }
        let done = |reply| Some(Outcome { answer: 0, reply });
        match step {
            Step::Set(setting) => self.set(setting).and_then(|()| done(Reply::Nothing)),
            Step::Rebalance { targets, prices, context, .. } => {
                let targets: Vec<(Name, f64)> = targets.iter().map(|(s, w)| (name(s), *w)).collect();
                let prices = named(prices);
                done(self.filled(context, |account| account.rebalance_simple(&targets, &prices)))
            }
            Step::Close { symbol, price, context, .. } => Some(self.close(symbol, *price, context)),
            Step::RecordReturn { prices, .. } => done(self.record_return(prices)),
            Step::TotalEquity(prices) => done(Reply::Equity(self.account.total_equity(&named(prices)))),
            Step::CurrentWeights(prices) => done(Reply::Weights(weights(self.account.current_weights(&named(prices))))),
            Step::UnpricedHolding(prices) => {
                done(Reply::Unpriced(self.account.unpriced_holding(&named(prices)).map(|n| symbol(&n))))
            }
            Step::Position(s) => done(Reply::Position(self.account.position(&name(s)).map(held))),
            Step::Snapshot(prices) => done(self.snapshot(prices)),
        }
    }

    fn view(&self) -> View {
        let a = &self.account;
        View {
            cash: a.cash(),
            settings: self.settings(),
            last_order_count: a.last_rebalance_order_count() as u64,
            last_notional: a.last_rebalance_notional(),
            trimmed_count: a.trimmed_fill_count(),
            trimmed_shortfall: a.trimmed_shortfall_cents(),
            record_count: self.recorded_before + probe::executions(a).len() as u64,
            equity_count: a.equity_curve().len() as u64,
            return_count: a.returns().len() as u64,
            previous_equity: probe::previous_equity(a),
            positions: a.positions().map(|(_, p)| held(p)).collect(),
        }
    }
}

impl Nanobook {
    fn settings(&self) -> Settings {
        let a = &self.account;
        let CostModel { commission_bps, slippage_bps, min_commission } = *a.cost_model();
        Settings {
            costs: Costs { commission_bps, slippage_bps, min_commission, max_commission: 0 },
            quantity_step: a.quantity_step(),
            min_order_value: a.min_order_value(),
            max_order_value: a.max_order_value(),
            no_trade_band_bps: a.no_trade_band_bps(),
            max_trades: a.max_trades_per_rebalance().map(|n| n as u64),
            max_rebalance_notional: a.max_rebalance_notional(),
            recording: probe::is_recording(a),
            cash_first: false,
        }
    }

    /// None for cash-first mode, which the Rust lacks.
    fn set(&mut self, setting: &Setting) -> Option<()> {
        let account = &mut self.account;
        match *setting {
            Setting::QuantityStep(n) => account.set_quantity_step(n),
            Setting::MinOrderValue(n) => account.set_min_order_value(n),
            Setting::MaxOrderValue(n) => account.set_max_order_value(n),
            Setting::NoTradeBandBps(x) => account.set_no_trade_band_bps(x),
            Setting::MaxTrades(cap) => account.set_max_trades_per_rebalance(cap.map(|n| n as usize)),
            Setting::MaxRebalanceNotional(n) => account.set_max_rebalance_notional(n),
            Setting::Recording(on) if on != probe::is_recording(account) => {
                self.recorded_before += probe::executions(account).len() as u64;
                probe::set_recording(account, on);
            }
            Setting::Recording(_) | Setting::CashFirst(false) => {}
            Setting::CashFirst(true) => return None,
        }
        Some(())
    }

    /// A call that may fill, with the records that it added.
    fn filled(&mut self, context: &Context, call: impl FnOnce(&mut Portfolio)) -> Reply {
        let before = probe::executions(&self.account).len();
        let kind = match context.kind {
            Kind::Rebalance => ExecutionKind::Rebalance,
            Kind::StopExit => ExecutionKind::StopExit,
        };
        probe::set_context(&mut self.account, context.period, kind);
        call(&mut self.account);
        let added = probe::executions(&self.account).split_off(before);
        Reply::Filled(added.iter().map(|r| self.record(r)).collect())
    }

    /// The Rust says false where document 01 answers 9; prices below 1 are not asked here.
    fn close(&mut self, symbol: &Symbol, price: i64, context: &Context) -> Outcome {
        let mut closed = false;
        let reply = self.filled(context, |account| closed = account.close_position_at(name(symbol), price));
        Outcome { answer: if closed { 0 } else { 9 }, reply }
    }

    fn record_return(&mut self, prices: &Prices) -> Reply {
        let before = self.account.returns().len();
        self.account.record_return(&named(prices));
        let equity = *self.account.equity_curve().last().expect("opening writes one");
        Reply::Recorded { equity, gain: self.account.returns().get(before).copied() }
    }

    fn snapshot(&self, prices: &Prices) -> Reply {
        let s = self.account.snapshot(&named(prices));
        Reply::Snapshot {
            cash: s.cash,
            equity: s.equity,
            weights: weights(s.weights),
            open: s.num_positions as u64,
            realized: s.total_realized_pnl,
        }
    }

    fn record(&self, r: &ExecutionRecord) -> Record {
        let kind = match r.kind {
            ExecutionKind::Rebalance => Kind::Rebalance,
            ExecutionKind::StopExit => Kind::StopExit,
        };
        Record {
            sequence: self.recorded_before + r.sequence,
            context: Context { period: r.period_index as u64, kind },
            symbol: symbol(&r.symbol),
            quantity: r.quantity.raw(),
            price: r.price,
            reference_price: r.reference_price,
            notional: r.notional,
            reference_notional: r.reference_notional,
            cost: r.cost,
            cash_delta: r.cash_delta,
            cash_after: r.cash_after,
        }
    }

    /// "A trim with request 2^63-1 and step 1: the Rust's midpoint overflows", and its search then runs for ever. Said of
    /// some calls that would have needed no trim, too.
    fn never_returns(&self, step: &Step) -> bool {
        if self.account.quantity_step() != 1 {
            return false;
        }
        let covers_all = |p: &Position| p.quantity.raw() <= -i64::MAX;
        match step {
            Step::Close { .. } => self.account.positions().any(|(_, p)| covers_all(p)),
            Step::Rebalance { targets, prices, .. } => {
                let prices = named(prices);
                let equity = self.account.total_equity(&prices);
                let asks_all = |(s, weight): &(Symbol, f64)| {
                    let target = (equity as f64 * weight) as i64;
                    prices.iter().any(|(n, price)| {
                        let held = self.account.position(n).map_or(0, |p| p.market_value(*price));
                        *n == name(s) && probe::size_qty(target.saturating_sub(held), *price, 1) == i64::MAX
                    })
                };
                self.account.positions().any(|(_, p)| covers_all(p)) || targets.iter().any(asks_all)
            }
            _ => false,
        }
    }
}

/// One fill by the Rust's own `execute_fill`, on an account that holds nothing else; None where its search runs for ever,
/// and where it might.
pub fn fill_alone(ask: &Ask, found: &Single) -> Option<Filled> {
    if ask.quantity == i64::MAX && ask.quantity_step == 1 && found.cash > 0 {
        return None;
    }
    let symbol = name(&ask.symbol);
    let [quantity, avg_entry_price, realized_pnl, total_cost] = found.position;
    let position = (found.position != [0; 4]).then(|| Position {
        quantity: Shares::from_raw(quantity),
        avg_entry_price,
        realized_pnl,
        total_cost,
        ..Position::new(symbol)
    });
    let mut account = probe::holding(found.cash, model(ask.costs), position, found.trimmed, found.shortfall);
    account.set_quantity_step(ask.quantity_step);
    probe::set_recording(&mut account, true);
    let mut book = Nanobook { account, recorded_before: found.records };
    let reply = book.filled(&ask.context, |account| probe::execute_fill(account, symbol, ask.quantity, ask.price));
    let Reply::Filled(records) = reply else { return None };
    let p = book.account.position(&symbol).map(held);
    let after = Single {
        cash: book.account.cash(),
        shortfall: book.account.trimmed_shortfall_cents(),
        position: p.map_or([0; 4], |p| [p.quantity, p.avg_entry_price, p.realized_pnl, p.total_cost]),
        trimmed: book.account.trimmed_fill_count(),
        records: found.records.saturating_add(records.len() as u64),
    };
    Some(Filled { after, record: records.first().copied() })
}

pub fn name(s: &Symbol) -> Name {
    let length = s.0.iter().position(|b| *b == 0).unwrap_or(8);
    Name::new(std::str::from_utf8(&s.0[..length]).expect("a symbol's bytes are 33 to 126"))
}

fn symbol(n: &Name) -> Symbol {
    let mut bytes = [0; 8];
    bytes[..n.as_str().len()].copy_from_slice(n.as_str().as_bytes());
    Symbol(bytes)
}

pub fn named(prices: &Prices) -> Vec<(Name, i64)> {
    prices.iter().map(|(s, p)| (name(s), *p)).collect()
}

fn weights(named: Vec<(Name, f64)>) -> Vec<(Symbol, f64)> {
    named.iter().map(|(n, w)| (symbol(n), *w)).collect()
}

fn held(p: &Position) -> Held {
    Held {
        symbol: symbol(&p.symbol),
        quantity: p.quantity.raw(),
        avg_entry_price: p.avg_entry_price,
        realized_pnl: p.realized_pnl,
        total_cost: p.total_cost,
    }
}
