//! The Rust's small functions, private ones too, on plain numbers.

use scenario::Costs;

/// Each function under its name in the Rust; share counts are raw micro-shares.
#[derive(Clone, Copy)]
pub struct Leaves {
    pub notional_cents: fn(quantity: i64, price: i64) -> i64,
    pub notional_of: fn(quantity: i64, price: i64) -> i64,
    pub avg_price: fn(total_cost: i64, quantity: i64) -> i64,
    pub size_qty: fn(gap: i64, price: i64, step: i64) -> i64,
    pub truncate_qty_to_max_value: fn(quantity: i64, price: i64, step: i64, max_value: i64) -> i64,
    pub drift_bps_of: fn(value: i64, equity: i64) -> f64,
    pub compute_cost: fn(costs: Costs, notional: i64) -> i64,
    pub buy_cash_required: fn(quantity: i64, price: i64, costs: Costs) -> i64,
    pub largest_affordable_buy_qty: fn(requested: i64, cash: i64, step: i64, price: i64, costs: Costs) -> i64,
    pub shares_add: fn(i64, i64) -> i64,
    pub shares_sub: fn(i64, i64) -> i64,
    pub shares_neg: fn(i64) -> i64,
    pub shares_abs: fn(i64) -> i64,
    pub shares_unsigned_abs: fn(i64) -> u64,
    pub shares_from_whole: fn(i64) -> i64,
    pub shares_whole: fn(i64) -> i64,
    pub shares_to_f64: fn(i64) -> f64,
    /// A position is its quantity, average, realized profit and total cost.
    pub apply_fill: fn(position: [i64; 4], quantity: i64, price: i64) -> [i64; 4],
    pub market_value: fn(position: [i64; 4], price: i64) -> i64,
    pub unrealized_pnl: fn(position: [i64; 4], price: i64) -> i64,
}

#[cfg(not(nanobook))]
pub fn leaves() -> Option<Leaves> {
    None
}

#[cfg(nanobook)]
pub fn leaves() -> Option<Leaves> {
    use crate::account::model;
    use crate::portfolio::position::probe as position;
    use crate::portfolio::{Shares, probe};

    Some(Leaves {
        notional_cents: position::notional_cents,
        notional_of: probe::notional_of,
        avg_price: position::avg_price,
        size_qty: probe::size_qty,
        truncate_qty_to_max_value: probe::truncate_qty_to_max_value,
        drift_bps_of: probe::drift_bps_of,
        compute_cost: |costs, notional| model(costs).compute_cost(notional),
        buy_cash_required: |quantity, price, costs| probe::buy_cash_required(quantity, price, &model(costs)),
        largest_affordable_buy_qty: |requested, cash, step, price, costs| {
            probe::largest_affordable_buy_qty(requested, cash, step, price, &model(costs))
        },
        shares_add: |a, b| (Shares::from_raw(a) + Shares::from_raw(b)).raw(),
        shares_sub: |a, b| (Shares::from_raw(a) - Shares::from_raw(b)).raw(),
        shares_neg: |a| (-Shares::from_raw(a)).raw(),
        shares_abs: |a| Shares::from_raw(a).abs().raw(),
        shares_unsigned_abs: |a| Shares::from_raw(a).unsigned_abs(),
        shares_from_whole: |n| Shares::from_whole(n).raw(),
        shares_whole: |a| Shares::from_raw(a).whole(),
        shares_to_f64: |a| Shares::from_raw(a).to_f64(),
        apply_fill: position::apply_fill,
        market_value: position::market_value,
        unrealized_pnl: position::unrealized_pnl,
    })
}
