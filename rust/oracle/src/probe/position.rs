//! The functions of nanobook's position.rs, private ones too, on plain numbers. A position is its quantity, average,
//! realized profit and total cost; its symbol enters nothing.

use super::{Position, Shares};
use crate::types::Symbol;

pub fn notional_cents(quantity: i64, price: i64) -> i64 {
    super::notional_cents(quantity, price)
}

pub fn avg_price(total_cost: i64, quantity: i64) -> i64 {
    super::avg_price(total_cost, Shares::from_raw(quantity))
}

fn position([quantity, average, realized, total]: [i64; 4]) -> Position {
    Position {
        quantity: Shares::from_raw(quantity),
        avg_entry_price: average,
        realized_pnl: realized,
        total_cost: total,
        ..Position::new(Symbol::new("A"))
    }
}

pub fn apply_fill(numbers: [i64; 4], quantity: i64, price: i64) -> [i64; 4] {
    let mut p = position(numbers);
    p.apply_fill(Shares::from_raw(quantity), price);
    [p.quantity.raw(), p.avg_entry_price, p.realized_pnl, p.total_cost]
}

pub fn market_value(numbers: [i64; 4], price: i64) -> i64 {
    position(numbers).market_value(price)
}

pub fn unrealized_pnl(numbers: [i64; 4], price: i64) -> i64 {
    position(numbers).unrealized_pnl(price)
}
