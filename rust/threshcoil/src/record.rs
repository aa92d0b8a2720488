//! Records of fills.

use crate::bytes;
use crate::{Shares, Symbol};
use threshcoil_sys::layout;

/// Why a fill was made.
#[derive(Clone, Copy, Debug, PartialEq, Eq, Hash)]
pub enum ExecutionKind {
    /// While rebalancing to target weights.
    Rebalance,
    /// To close a position after a stop triggers.
    StopExit,
}

/// What the caller says of a call for its records.
#[derive(Clone, Copy, Debug, PartialEq, Eq)]
pub struct Context {
    /// The caller's count of periods.
    pub period_index: u64,
    /// Why the call is made.
    pub kind: ExecutionKind,
}

/// One fill.
#[derive(Clone, Copy, Debug, PartialEq, Eq)]
pub struct ExecutionRecord {
    /// Zero-based, across all recorded fills of the account.
    pub sequence: u64,
    /// As the call said.
    pub period_index: u64,
    /// As the call said.
    pub kind: ExecutionKind,
    /// What was traded.
    pub symbol: Symbol,
    /// What filled after any affordability trim; negative for a sale.
    pub quantity: Shares,
    /// Effective price, after slippage.
    pub price: i64,
    /// Listed price, before slippage.
    pub reference_price: i64,
    /// Value at the effective price, without sign.
    pub notional: i64,
    /// Value at the listed price, without sign.
    pub reference_notional: i64,
    /// Commission; excludes slippage.
    pub cost: i64,
    /// The actual change of cash, costs included.
    pub cash_delta: i64,
    /// The cash after the fill.
    pub cash_after: i64,
}

impl ExecutionRecord {
    /// What a buffer of records is made of before calls fill it.
    pub const EMPTY: ExecutionRecord = ExecutionRecord {
        sequence: 0,
        period_index: 0,
        kind: ExecutionKind::Rebalance,
        symbol: Symbol::from_padded([0; 8]),
        quantity: Shares(0),
        price: 0,
        reference_price: 0,
        notional: 0,
        reference_notional: 0,
        cost: 0,
        cash_delta: 0,
        cash_after: 0,
    };

    fn of_bytes(record: &[u8]) -> ExecutionRecord {
        let [sequence, period, kind, symbol, quantity, figures @ ..] = bytes::take::<12>(record);
        let [price, reference_price, notional, reference_notional, cost, cash_delta, cash_after] =
            figures.map(i64::from_le_bytes);
        ExecutionRecord {
            sequence: u64::from_le_bytes(sequence),
            period_index: u64::from_le_bytes(period),
            kind: if u64::from_le_bytes(kind) == 1 { ExecutionKind::StopExit } else { ExecutionKind::Rebalance },
            symbol: Symbol::from_padded(symbol),
            quantity: Shares(i64::from_le_bytes(quantity)),
            price,
            reference_price,
            notional,
            reference_notional,
            cost,
            cash_delta,
            cash_after,
        }
    }
}

impl ExecutionKind {
    pub(crate) fn number(self) -> u64 {
        match self {
            ExecutionKind::Rebalance => 0,
            ExecutionKind::StopExit => 1,
        }
    }
}

/// The first `count` records of bytes into the caller's places.
pub(crate) fn read(records: &mut [ExecutionRecord], count: usize, bytes: &[u8]) {
    for (place, record) in records.iter_mut().take(count).zip(bytes.chunks_exact(layout::RECORD_SIZE)) {
        *place = ExecutionRecord::of_bytes(record);
    }
}
