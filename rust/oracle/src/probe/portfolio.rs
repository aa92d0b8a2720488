//! The private functions of nanobook's portfolio/mod.rs, on plain numbers.

use super::{CostModel, ExecutionKind, ExecutionRecord, Portfolio, Position, Shares, Symbol};

pub fn notional_of(quantity: i64, price: i64) -> i64 {
    super::notional_of(Shares::from_raw(quantity), price)
}

pub fn size_qty(gap: i64, price: i64, step: i64) -> i64 {
    super::size_qty(gap, price, step).raw()
}

pub fn truncate_qty_to_max_value(quantity: i64, price: i64, step: i64, max_value: i64) -> i64 {
    super::truncate_qty_to_max_value(Shares::from_raw(quantity), price, step, max_value).raw()
}

pub fn drift_bps_of(value: i64, equity: i64) -> f64 {
    super::drift_bps_of(value, equity)
}

pub fn buy_cash_required(quantity: i64, price: i64, costs: &CostModel) -> i64 {
    super::buy_cash_required(quantity, price, costs)
}

pub fn largest_affordable_buy_qty(requested: i64, cash: i64, step: i64, price: i64, costs: &CostModel) -> i64 {
    super::largest_affordable_buy_qty(requested, cash, step, price, costs).raw()
}

/// What the account keeps and has no public query for.
pub fn previous_equity(account: &Portfolio) -> i64 {
    account.prev_equity
}

pub fn is_recording(account: &Portfolio) -> bool {
    account.executions.is_some()
}

pub fn set_recording(account: &mut Portfolio, on: bool) {
    if on {
        account.enable_execution_recording();
    } else {
        account.take_executions();
    }
}

pub fn set_context(account: &mut Portfolio, period: u64, kind: ExecutionKind) {
    account.set_execution_context(period as usize, kind);
}

/// The ledger so far, taken from a copy: taking it turns recording off.
pub fn executions(account: &Portfolio) -> Vec<ExecutionRecord> {
    account.clone().take_executions().unwrap_or_default()
}

/// An account with one position, or none, and the counters that fills change.
pub fn holding(cash: i64, costs: CostModel, position: Option<Position>, trimmed: u64, shortfall: i64) -> Portfolio {
    let mut account = Portfolio::new(cash, costs);
    account.positions.extend(position.map(|p| (p.symbol, p)));
    account.trimmed_fill_count = trimmed;
    account.trimmed_shortfall_cents = shortfall;
    account
}

pub fn execute_fill(account: &mut Portfolio, symbol: Symbol, quantity: i64, price: i64) {
    account.execute_fill(symbol, Shares::from_raw(quantity), price);
}
