//! The C interface of the proved crates. Each leaf takes and gives numbers, or slices of numbers as a pointer and
//! a count, is total, and touches nothing but the slices lent to it, so each is safe to call; nothing checks a declaration
//! here against its Rattle source but the differential runs.

mod accounts;
pub mod answer;
pub mod layout;
mod lent;
pub use accounts::*;
pub use lent::*;

unsafe extern "C" {
    pub safe fn tc_mul_high(a: u64, b: u64) -> u64;
    pub safe fn tc_mul_low(a: u64, b: u64) -> u64;
    pub safe fn tc_div_high(high: u64, low: u64, divisor: u64) -> u64;
    pub safe fn tc_div_low(high: u64, low: u64, divisor: u64) -> u64;
    pub safe fn tc_snap_high(high: u64, low: u64, step: u64) -> u64;
    pub safe fn tc_snap_low(high: u64, low: u64, step: u64) -> u64;
    pub safe fn tc_value(quantity: i64, price: i64) -> i64;
    pub safe fn tc_price_at(total_cost: i64, quantity: i64) -> i64;

    pub safe fn tc_is_finite(x: f64) -> bool;
    pub safe fn tc_to_i64(x: f64) -> i64;
    pub safe fn tc_i64_to_f64(n: i64) -> f64;
    pub safe fn tc_u64_to_f64(n: u64) -> f64;
    pub safe fn tc_round(x: f64) -> f64;
    pub safe fn tc_round_to_i64(x: f64) -> i64;

    pub safe fn tc_shares_add(a: i64, b: i64) -> i64;
    pub safe fn tc_shares_sub(a: i64, b: i64) -> i64;
    pub safe fn tc_shares_neg(a: i64) -> i64;
    pub safe fn tc_shares_abs(a: i64) -> i64;
    pub safe fn tc_shares_unsigned_abs(a: i64) -> u64;
    pub safe fn tc_shares_from_whole(n: i64) -> i64;
    pub safe fn tc_shares_whole(a: i64) -> i64;
    pub safe fn tc_shares_to_f64(a: i64) -> f64;

    pub safe fn tc_good_costs(commission_bps: f64, slippage_bps: f64, min_commission: i64) -> bool;
    pub safe fn tc_compute_cost(commission_bps: f64, slippage_bps: f64, min_commission: i64, notional: i64) -> i64;
    pub safe fn tc_effective_price(
        commission_bps: f64,
        slippage_bps: f64,
        min_commission: i64,
        quantity: i64,
        price: i64,
    ) -> i64;

    pub safe fn tc_good_costs_with_ceiling(
        commission_bps: f64,
        slippage_bps: f64,
        min_commission: i64,
        max_commission: i64,
    ) -> bool;
    pub safe fn tc_compute_cost_with_ceiling(
        commission_bps: f64,
        slippage_bps: f64,
        min_commission: i64,
        max_commission: i64,
        notional: i64,
    ) -> i64;

    pub safe fn tc_good_symbol(symbol: u64) -> bool;
    pub safe fn tc_sound_position(symbol: u64, quantity: i64, average: i64, realized: i64, total: i64) -> bool;
    pub safe fn tc_market_value(symbol: u64, quantity: i64, average: i64, realized: i64, total: i64, price: i64)
    -> i64;
    pub safe fn tc_unrealized_pnl(
        symbol: u64,
        quantity: i64,
        average: i64,
        realized: i64,
        total: i64,
        price: i64,
    ) -> i64;

    pub safe fn tc_notional_of(quantity: i64, price: i64) -> i64;
    pub safe fn tc_size_qty(gap: i64, price: i64, step: i64) -> i64;
    pub safe fn tc_truncate_qty_to_max_value(quantity: i64, price: i64, step: i64, max_value: i64) -> i64;
    pub safe fn tc_drift_bps_of(value: i64, equity: i64) -> f64;
    pub safe fn tc_buy_cash_required(
        quantity: i64,
        price: i64,
        commission_bps: f64,
        slippage_bps: f64,
        min_commission: i64,
    ) -> i64;
    pub safe fn tc_largest_affordable_buy_qty(
        requested: i64,
        cash: i64,
        step: i64,
        price: i64,
        commission_bps: f64,
        slippage_bps: f64,
        min_commission: i64,
    ) -> i64;
    pub safe fn tc_buy_cash_required_with_ceiling(
        quantity: i64,
        price: i64,
        commission_bps: f64,
        slippage_bps: f64,
        min_commission: i64,
        max_commission: i64,
    ) -> i64;
    pub safe fn tc_largest_affordable_buy_qty_with_ceiling(
        requested: i64,
        cash: i64,
        step: i64,
        price: i64,
        commission_bps: f64,
        slippage_bps: f64,
        min_commission: i64,
        max_commission: i64,
    ) -> i64;
}
