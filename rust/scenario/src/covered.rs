//! What a set of played scenarios met, counted, so that a run can say so.

use crate::{Played, Reply, Scenario, Setting, Step, View, plan};
use std::collections::BTreeMap;

/// Clauses that a run must meet ten times in 10,000 scenarios.
const AIMED: [&str; 18] = [
    "bands exactly met",
    "bands that tell drift divided first",
    "buys that leave cash 0",
    "drifts tied under a cap",
    "equities with no return",
    "notional caps spent before the last order",
    "order maxima exactly met",
    "order minima exactly met",
    "orders cut by the cap to nothing",
    "orders cut by the cap to the minimum",
    "orders of a saturated quantity",
    "orders of just the remaining notional",
    "orders worth nothing after a remainder of 0",
    "prices above 2^53 ordered at",
    "rebalances at equity 0 or below",
    "returns of 0.0 after an equity of 0 or below",
    "sales that leave cash 0",
    "saturated quantities",
];

#[derive(Default)]
pub struct Covered(BTreeMap<&'static str, u64>);

impl Covered {
    fn met(&mut self, what: &'static str, times: usize) {
        *self.0.entry(what).or_default() += times as u64;
    }

    /// The aimed clauses that were met less often than ten times in 10,000 scenarios.
    pub fn missed(&self) -> Vec<&'static str> {
        let times = |what: &str| self.0.get(what).copied().unwrap_or(0);
        AIMED.into_iter().filter(|what| times(what) < times("scenarios") / 1_000).collect()
    }

    pub fn add(&mut self, scenario: &Scenario, played: &Played) {
        self.met("scenarios", 1);
        self.met("cut short where the Rust is no oracle", usize::from(played.calls.len() < scenario.steps.len()));
        let mut before = &played.opened;
        for (step, (outcome, after)) in scenario.steps.iter().zip(&played.calls) {
            self.met("calls", 1);
            self.met("closes refused", usize::from(outcome.answer == 9));
            self.step(step, before, after);
            self.reply(&outcome.reply, before);
            before = after;
        }
    }

    fn step(&mut self, step: &Step, before: &View, after: &View) {
        match step {
            Step::Rebalance { targets, prices, .. } => {
                plan::met(before, targets, prices).into_iter().for_each(|what| self.met(what, 1));
                self.met("rebalances", 1);
                self.met("rebalances with no order", usize::from(after.last_order_count == 0));
                self.met("orders", after.last_order_count as usize);
            }
            Step::Close { .. } => self.met("closes", 1),
            Step::Set(Setting::MaxTrades(_) | Setting::MaxRebalanceNotional(_)) => self.met("caps set", 1),
            _ => {}
        }
        self.met("trims", after.trimmed_count.saturating_sub(before.trimmed_count) as usize);
        for now in &after.positions {
            let then = before.positions.iter().find(|p| p.symbol == now.symbol).map_or(0, |p| p.quantity);
            self.met("positions changed", usize::from(then != now.quantity));
            self.met("flips", usize::from(then.signum() * now.quantity.signum() == -1));
            self.met("shorts opened", usize::from(then == 0 && now.quantity < 0));
            self.met("closed whole", usize::from(then != 0 && now.quantity == 0));
            self.met("saturated quantities", usize::from(now.quantity == i64::MAX || now.quantity <= -i64::MAX));
        }
    }

    fn reply(&mut self, reply: &Reply, before: &View) {
        match reply {
            Reply::Filled(records) => {
                self.met("records", records.len());
                let left_none =
                    |buys: bool| records.iter().filter(|r| (r.quantity > 0) == buys && r.cash_after == 0).count();
                self.met("buys that leave cash 0", left_none(true));
                self.met("sales that leave cash 0", left_none(false));
            }
            Reply::Recorded { gain: None, .. } => self.met("equities with no return", 1),
            Reply::Recorded { gain: Some(_), .. } => {
                self.met("returns", 1);
                self.met("returns of 0.0 after an equity of 0 or below", usize::from(before.previous_equity < 1));
            }
            Reply::Equity(n) => {
                self.met("equities below 1", usize::from(*n < 1));
                self.met("saturated equities", usize::from(*n == i64::MAX || *n == i64::MIN));
            }
            Reply::Unpriced(Some(_)) => self.met("unpriced holdings", 1),
            Reply::Weights(w) => self.met("weights", w.len()),
            Reply::Position(Some(_)) => self.met("positions asked", 1),
            Reply::Snapshot { .. } => self.met("snapshots", 1),
            _ => {}
        }
    }
}

impl std::fmt::Display for Covered {
    fn fmt(&self, f: &mut std::fmt::Formatter<'_>) -> std::fmt::Result {
        let parts: Vec<String> = self.0.iter().map(|(what, times)| format!("{what} {times}")).collect();
        f.write_str(&parts.join(", "))
    }
}
