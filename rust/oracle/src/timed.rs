//! The Rust's calls alone, on lists that are made ready beforehand, for timing.

#[cfg(nanobook)]
use crate::{Symbol, account, portfolio::Portfolio, portfolio::probe};
use scenario::{Costs, Prices, Setting, Targets};

/// An account with the lists that its calls take.
#[derive(Clone)]
#[cfg(nanobook)]
pub struct Timed {
    account: Portfolio,
    targets: Vec<Vec<(Symbol, f64)>>,
    prices: Vec<(Symbol, i64)>,
}

#[cfg(nanobook)]
impl Timed {
    /// None where nanobook is not at hand.
    pub fn new(cash: i64, costs: Costs, targets: &[Targets], prices: &Prices) -> Option<Timed> {
        let account = Portfolio::new(cash, account::model(costs));
        let targets = targets.iter().map(|list| list.iter().map(|(s, w)| (account::name(s), *w)).collect()).collect();
        Some(Timed { account, targets, prices: account::named(prices) })
    }

    /// A setting that is timed: the order maximum, the band, the trade cap or recording.
    pub fn set(&mut self, setting: Setting) {
        match setting {
            Setting::MaxOrderValue(n) => self.account.set_max_order_value(n),
            Setting::NoTradeBandBps(x) => self.account.set_no_trade_band_bps(x),
            Setting::MaxTrades(cap) => self.account.set_max_trades_per_rebalance(cap.map(|n| n as usize)),
            Setting::Recording(on) => probe::set_recording(&mut self.account, on),
            _ => {}
        }
    }

    /// To the k-th of the target lists, over and over.
    pub fn rebalance(&mut self, k: usize) {
        self.account.rebalance_simple(&self.targets[k % self.targets.len()], &self.prices);
    }

    pub fn record_return(&mut self) {
        self.account.record_return(&self.prices);
    }

    pub fn snapshot(&self) -> i64 {
        let snapshot = std::hint::black_box(self.account.snapshot(&self.prices));
        snapshot.equity
    }

    /// Cash, orders of the last rebalance, trims so far.
    pub fn figures(&self) -> [i64; 3] {
        let a = &self.account;
        [a.cash(), a.last_rebalance_order_count() as i64, a.trimmed_fill_count() as i64]
    }

    /// The account as the Rust itself saves it, in JSON, with its settings and series. None where this build has no serde: tools/json makes
    /// one that has.
    pub fn to_json(&self) -> Option<String> {
        #[cfg(feature = "serde")]
        return serde_json::to_string(&self.account).ok();
        #[cfg(not(feature = "serde"))]
        return None;
    }

    /// Reads the account from that text. Whether it could.
    pub fn load_json(&mut self, text: &str) -> bool {
        #[cfg(feature = "serde")]
        return serde_json::from_str(text).map(|account| self.account = account).is_ok();
        #[cfg(not(feature = "serde"))]
        return {
            let _ = text;
            false
        };
    }
}

#[cfg(not(nanobook))]
#[derive(Clone)]
pub enum Timed {}

#[cfg(not(nanobook))]
impl Timed {
    pub fn new(_: i64, _: Costs, _: &[Targets], _: &Prices) -> Option<Timed> {
        None
    }

    pub fn set(&mut self, _: Setting) {
        match *self {}
    }

    pub fn rebalance(&mut self, _: usize) {
        match *self {}
    }

    pub fn record_return(&mut self) {
        match *self {}
    }

    pub fn snapshot(&self) -> i64 {
        match *self {}
    }

    pub fn figures(&self) -> [i64; 3] {
        match *self {}
    }

    pub fn to_json(&self) -> Option<String> {
        match *self {}
    }

    pub fn load_json(&mut self, _: &str) -> bool {
        match *self {}
    }
}
