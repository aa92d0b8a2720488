//! One fill on an account of at most one position.

use scenario::{Context, Costs, Record, Symbol};

#[derive(Clone, Copy, Debug)]
pub struct Ask {
    pub costs: Costs,
    pub quantity_step: i64,
    pub context: Context,
    pub symbol: Symbol,
    pub quantity: i64,
    pub price: i64,
}

/// What a fill may change. The position is its quantity, average, realized profit and total cost; all zeros are none.
#[derive(Clone, Copy, Debug, Default, PartialEq, Eq)]
pub struct Single {
    pub cash: i64,
    pub shortfall: i64,
    pub position: [i64; 4],
    pub trimmed: u64,
    pub records: u64,
}

#[derive(Clone, Copy, Debug)]
pub struct Filled {
    pub after: Single,
    pub record: Option<Record>,
}

/// The Rust's answer; None where it is no oracle.
pub fn fill_alone(ask: &Ask, found: &Single) -> Option<Filled> {
    #[cfg(nanobook)]
    return crate::account::fill_alone(ask, found);
    #[cfg(not(nanobook))]
    return {
        let _ = (ask, found);
        None
    };
}
