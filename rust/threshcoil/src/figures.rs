//! The figures of a return series.

use crate::Refusal;
use crate::refusal::told;

/// What a return series comes to.
#[derive(Clone, Copy, Debug, PartialEq)]
pub struct Figures {
    /// Compounded over all periods.
    pub total_return: f64,
    /// The deepest fall from a peak, as a part of the peak.
    pub max_drawdown: f64,
    /// Winning periods over all periods.
    pub win_rate: f64,
    /// Sum of gains over sum of losses; infinite without losses.
    pub profit_factor: f64,
    /// Mean gain over mean loss; infinite without losses.
    pub payoff_ratio: f64,
    /// The Kelly fraction.
    pub kelly: f64,
    /// How many returns there are.
    pub num_periods: u64,
    /// Those above 0.
    pub winning_periods: u64,
    /// Those below 0.
    pub losing_periods: u64,
}

/// The figures of 1 to 4,096 finite returns.
///
/// ```
/// let figures = threshcoil::figures(&[0.5, -0.5])?;
/// assert_eq!((figures.total_return, figures.max_drawdown, figures.win_rate), (-0.25, 0.5, 0.5));
/// assert_eq!(threshcoil::figures(&[]), Err(threshcoil::Refusal::BadSeries));
/// # Ok::<(), threshcoil::Refusal>(())
/// ```
pub fn figures(returns: &[f64]) -> Result<Figures, Refusal> {
    let (mut rates, mut counts) = ([0.0; 6], [0; 3]);
    told(threshcoil_sys::tc_figures(returns, &mut rates, &mut counts))?;
    let [total_return, max_drawdown, win_rate, profit_factor, payoff_ratio, kelly] = rates;
    let [num_periods, winning_periods, losing_periods] = counts;
    Ok(Figures {
        total_return,
        max_drawdown,
        win_rate,
        profit_factor,
        payoff_ratio,
        kelly,
        num_periods,
        winning_periods,
        losing_periods,
    })
}
