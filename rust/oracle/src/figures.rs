//! The ported figures of the Rust's `compute_metrics`: those without a root or power.

#[derive(Clone, Copy, Debug, Default, PartialEq)]
pub struct Figures {
    pub num_periods: u64,
    pub total_return: f64,
    pub max_drawdown: f64,
    pub winning_periods: u64,
    pub losing_periods: u64,
    pub win_rate: f64,
    pub profit_factor: f64,
    pub payoff_ratio: f64,
    pub kelly: f64,
}

#[cfg(not(nanobook))]
pub fn figures(_returns: &[f64]) -> Option<Figures> {
    None
}

/// None also for an empty series, which the Rust gives no figures for.
#[cfg(nanobook)]
pub fn figures(returns: &[f64]) -> Option<Figures> {
    // Neither the periods of a year nor the risk-free rate enters any of these figures.
    let m = crate::portfolio::compute_metrics(returns, 252.0, 0.0)?;
    Some(Figures {
        num_periods: m.num_periods as u64,
        total_return: m.total_return,
        max_drawdown: m.max_drawdown,
        winning_periods: m.winning_periods as u64,
        losing_periods: m.losing_periods as u64,
        win_rate: m.win_rate,
        profit_factor: m.profit_factor,
        payoff_ratio: m.payoff_ratio,
        kelly: m.kelly,
    })
}
