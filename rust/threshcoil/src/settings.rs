//! Costs and settings of an account.

use crate::Shares;
use crate::bytes;
use threshcoil_sys::layout::{self, Setting};

/// What a trade costs.
#[derive(Clone, Copy, Debug, Default, PartialEq)]
pub struct CostModel {
    /// Commission in basis points of notional, at least 0.
    pub commission_bps: f64,
    /// Price impact in basis points, from 0 to 10,000.
    pub slippage_bps: f64,
    /// The least commission of a fill, at least 0.
    pub min_commission: i64,
    /// The most commission of a fill, at least the least one; 0 is none.
    pub max_commission: i64,
}

/// All settings of an account. The costs are fixed at opening; the others have setters.
#[derive(Clone, Copy, Debug, PartialEq)]
pub struct Settings {
    /// What a trade costs.
    pub cost_model: CostModel,
    /// Order sizing granularity in micro-shares, at least 1.
    pub quantity_step: i64,
    /// Orders below this notional are skipped; 0 is off.
    pub min_order_value: i64,
    /// Orders above this notional are cut down to it; 0 is off.
    pub max_order_value: i64,
    /// A position is left alone until its drift exceeds this; 0 is off.
    pub no_trade_band_bps: f64,
    /// The most orders that one rebalance admits; 0 admits nothing.
    pub max_trades_per_rebalance: Option<u64>,
    /// The most notional that one rebalance trades; 0 is off.
    pub max_rebalance_notional: i64,
    /// Whether fills are recorded.
    pub recording: bool,
    /// Whether orders that would lower no cash run before the others.
    pub cash_first: bool,
}

/// Bytes of settings.
pub(crate) const SIZE: usize = layout::SETTINGS_SIZE;

impl Settings {
    /// Whole shares, no limits, no recording, orders as planned.
    pub fn new(cost_model: CostModel) -> Settings {
        Settings {
            cost_model,
            quantity_step: Shares::SCALE,
            min_order_value: 0,
            max_order_value: 0,
            no_trade_band_bps: 0.0,
            max_trades_per_rebalance: None,
            max_rebalance_notional: 0,
            recording: false,
            cash_first: false,
        }
    }

    pub(crate) fn to_bytes(self) -> [u8; SIZE] {
        let costs = self.cost_model;
        let cap = self.max_trades_per_rebalance;
        let mut bytes = [0; SIZE];
        for (setting, word) in [
            (Setting::CommissionBps, costs.commission_bps.to_le_bytes()),
            (Setting::SlippageBps, costs.slippage_bps.to_le_bytes()),
            (Setting::MinCommission, costs.min_commission.to_le_bytes()),
            (Setting::QuantityStep, self.quantity_step.to_le_bytes()),
            (Setting::MinOrderValue, self.min_order_value.to_le_bytes()),
            (Setting::MaxOrderValue, self.max_order_value.to_le_bytes()),
            (Setting::NoTradeBandBps, self.no_trade_band_bps.to_le_bytes()),
            (Setting::CapMark, u64::from(cap.is_some()).to_le_bytes()),
            (Setting::CapCount, cap.unwrap_or(0).to_le_bytes()),
            (Setting::MaxRebalanceNotional, self.max_rebalance_notional.to_le_bytes()),
            (Setting::Recording, u64::from(self.recording).to_le_bytes()),
            (Setting::CashFirst, u64::from(self.cash_first).to_le_bytes()),
            (Setting::MaxCommission, costs.max_commission.to_le_bytes()),
        ] {
            bytes::put(&mut bytes, setting as usize, word);
        }
        bytes
    }

    pub(crate) fn of_bytes(bytes: &[u8; SIZE]) -> Settings {
        let word = |setting: Setting| bytes::word(bytes, setting as usize);
        let rate = |setting| f64::from_le_bytes(word(setting));
        let amount = |setting| i64::from_le_bytes(word(setting));
        let count = |setting| u64::from_le_bytes(word(setting));
        let [commission_bps, slippage_bps] = [Setting::CommissionBps, Setting::SlippageBps].map(rate);
        let [min_commission, max_commission] = [Setting::MinCommission, Setting::MaxCommission].map(amount);
        Settings {
            cost_model: CostModel { commission_bps, slippage_bps, min_commission, max_commission },
            quantity_step: amount(Setting::QuantityStep),
            min_order_value: amount(Setting::MinOrderValue),
            max_order_value: amount(Setting::MaxOrderValue),
            no_trade_band_bps: rate(Setting::NoTradeBandBps),
            max_trades_per_rebalance: (count(Setting::CapMark) == 1).then_some(count(Setting::CapCount)),
            max_rebalance_notional: amount(Setting::MaxRebalanceNotional),
            recording: count(Setting::Recording) == 1,
            cash_first: count(Setting::CashFirst) == 1,
        }
    }
}
