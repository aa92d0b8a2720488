//! What nanobook's order-book code needs to compile. Nothing calls it: order-book execution is not ported.

use crate::Price;

#[derive(Clone, Copy, PartialEq, Eq)]
pub enum Side {
    Buy,
    Sell,
}

pub struct Trade {
    pub quantity: u64,
    pub price: Price,
}

pub struct Submitted {
    pub trades: Vec<Trade>,
}

#[derive(Clone, Debug, Default)]
pub struct Exchange;

impl Exchange {
    pub fn best_bid_ask(&self) -> (Option<Price>, Option<Price>) {
        (None, None)
    }

    pub fn submit_market(&mut self, _side: Side, _quantity: u64) -> Submitted {
        Submitted { trades: Vec::new() }
    }
}
