//! A plan run through the library, period by period.

use crate::kept::Kept;
use crate::lines::Said;
use crate::plan::{Close, Opening, Period, Plan};
use crate::saved::Start;
use crate::text::refused;
use std::fmt;
use threshcoil::{
    Account, Context, CostModel, ExecutionKind, ExecutionRecord, Figures, Position, Price, Refusal, Symbol, Target,
    Weight, figures,
};

/// Something that did not count, and its line.
#[derive(Clone, Debug)]
pub struct Refused {
    pub line: usize,
    pub what: String,
    pub why: Why,
}

#[derive(Clone, Copy, Debug)]
pub enum Why {
    Library(Refusal),
    /// Of an opening, whose number is that of any bad setting.
    CeilingBelowFloor(Refusal),
    /// Of a close: the library, asked at a price of 0, would blame the price.
    NoPrice,
    /// Of a holding, whose equity is then short by it.
    Unpriced,
}

impl fmt::Display for Refused {
    fn fmt(&self, f: &mut fmt::Formatter<'_>) -> fmt::Result {
        match self.why {
            Why::Library(refusal) => write!(f, "{}", refused(&self.what, refusal)),
            Why::CeilingBelowFloor(refusal) => {
                write!(f, "{}: max_commission is below min_commission", refused(&self.what, refusal))
            }
            Why::NoPrice => write!(f, "{} has no price: the period lists none, nor does the line give one", self.what),
            Why::Unpriced => write!(f, "{} is held and the period has no price of it: it counts 0", self.what),
        }
    }
}

#[derive(Clone, Debug, Default)]
pub struct Told {
    pub label: String,
    pub fills: Vec<ExecutionRecord>,
    /// Buys that the cash cut down in this period.
    pub trimmed: u64,
    /// None where the period's prices were refused.
    pub equity: Option<i64>,
    pub gain: Option<f64>,
    pub refused: Vec<Refused>,
}

pub struct History {
    pub account: Account,
    pub periods: Vec<Told>,
    /// How many equities and returns of a saved account came before those here; none of either in the history of an opening.
    pub unknown: Option<(u64, u64)>,
    /// The opening's cash or the saved account's last equity, then the equity of each period whose prices were accepted.
    pub equities: Vec<i64>,
    pub returns: Vec<f64>,
    pub figures: Result<Figures, Refusal>,
    /// As of the last period with prices.
    pub weights: Vec<Weight>,
    pub positions: Vec<Position>,
    /// What of files before the saved account did not count.
    pub left_out: Vec<String>,
    pub stopped: bool,
}

/// Places of series for which a saved account may ask before its first new ones: a count beyond that is no count of periods.
const MOST_BEFORE: u64 = 1 << 20;

/// Runs the plan. `told` hears each period as it ends; where `stop` is set, the first refusal ends the run.
pub fn run(start: Start, plan: &Plan, stop: bool, mut told: impl FnMut(usize, &Told)) -> History {
    let Start { mut account, kept } = start;
    let Kept { unknown, mut periods, mut equities, mut returns, mut weights, left_out, .. } = kept;
    let first = unknown.map_or(0, |(equities, _)| equities).wrapping_add(periods.len() as u64);
    let places = |count: u64| count.min(MOST_BEFORE) as usize + plan.periods.len() + 1;
    let mut equity_room = vec![0; places(account.equity_count())];
    let mut return_room = vec![0.0; places(account.return_count())];
    let mut stopped = false;
    for (k, period) in plan.periods.iter().enumerate() {
        let (trims, gains) = (account.trimmed_fill_count(), account.return_count());
        let mut now = Told { label: period.label.clone(), ..Told::default() };
        trade(&mut account, first.wrapping_add(k as u64), period, &mut now);
        let prices = period.all_prices();
        let recorded =
            (!period.prices_unread).then(|| account.record_return(&prices, &mut equity_room, &mut return_room));
        match recorded {
            None => {}
            Some(Ok(())) => {
                now.equity = Some(account.previous_equity());
                now.gain = (account.return_count() > gains).then(|| return_room[gains as usize]);
                equities.extend(now.equity);
                returns.extend(now.gain);
                weights = account.current_weights(&prices).map(|w| w.to_vec()).unwrap_or_default();
                now.refused.extend(unpriced(&account, period));
            }
            Some(Err(refusal)) => {
                let by_itself = || bad_prices(&account, period, refusal);
                let line = told_line(period, refusal).or_else(by_itself).unwrap_or(period.line);
                now.refused.push(Refused { line, what: "the period's return".into(), why: Why::Library(refusal) });
            }
        }
        now.trimmed = account.trimmed_fill_count() - trims;
        told(k, &now);
        stopped = stop && !now.refused.is_empty();
        periods.push(now);
        if stopped {
            break;
        }
    }
    let positions = account.positions().collect();
    let figures = figures(&returns);
    History { account, periods, unknown, equities, returns, figures, weights, positions, left_out, stopped }
}

/// Told at the line from which on the opening is bad, by what stands there: of two settings that are bad together, at the later one's.
pub fn bad_opening(plan: &Plan, refusal: Refusal) -> Refused {
    let good = |said: &Said<Opening>| Account::open(said.what.cash, &said.what.settings, &mut [0]).is_ok();
    let bad = plan.openings.iter().rposition(good).map_or(0, |last_good| last_good + 1);
    let (line, opening) = plan.openings.get(bad).map_or((1, plan.opening), |said| (said.line, said.what));
    let CostModel { min_commission, max_commission, .. } = opening.settings.cost_model;
    let below = max_commission != 0 && max_commission < min_commission;
    let why = if below { Why::CeilingBelowFloor(refusal) } else { Why::Library(refusal) };
    Refused { line, what: "the opening".into(), why }
}

/// The period's closes, as they stand in the file, then its rebalance.
fn trade(account: &mut Account, index: u64, period: &Period, now: &mut Told) {
    let prices = period.all_prices();
    let mut records = [ExecutionRecord::EMPTY; 64];
    for Said { line, what: Close { symbol, price } } in &period.closes {
        let listed = prices.iter().find(|p| p.symbol == *symbol).map(|p| p.price);
        let context = Context { period_index: index, kind: ExecutionKind::StopExit };
        let closed = match price.or(listed) {
            Some(price) => account.close_position_at(*symbol, price, context, &mut records).map_err(Why::Library),
            None => Err(Why::NoPrice),
        };
        match closed {
            Ok(filled) => now.fills.extend(&records[..filled]),
            Err(why) => now.refused.push(Refused { line: *line, what: format!("the close of {symbol}"), why }),
        }
    }
    let Some(lines) = &period.targets else { return };
    if period.prices_unread || period.targets_unread {
        return;
    }
    let context = Context { period_index: index, kind: ExecutionKind::Rebalance };
    match account.rebalance_simple(&period.all_targets(), &prices, context, &mut records) {
        Ok(filled) => now.fills.extend(&records[..filled]),
        Err(refusal) => {
            let first = lines.first().map_or(period.line, |said| said.line);
            let by_itself = || bad_targets(account, lines, refusal).or_else(|| bad_prices(account, period, refusal));
            let line = told_line(period, refusal).or_else(by_itself).unwrap_or(first);
            now.refused.push(Refused { line, what: "the rebalance".into(), why: Why::Library(refusal) });
        }
    }
}

/// The open holdings that the period has no price of.
fn unpriced(account: &Account, period: &Period) -> Vec<Refused> {
    let prices = period.all_prices();
    let open = account.positions().filter(|p| p.quantity.0 != 0);
    open.filter(|p| prices.iter().all(|q| q.symbol != p.symbol))
        .map(|p| Refused { line: period.line, what: p.symbol.to_string(), why: Why::Unpriced })
        .collect()
}

/// The line of the entry that a refusal tells.
fn told_line(period: &Period, refusal: Refusal) -> Option<usize> {
    refusal.entry().and_then(|entry| period.line_at(entry.list(), entry.index()))
}

/// Of a refusal that tells no entry, the first line whose prices are refused so by themselves; none where the fault is between lines.
/// A line that is refused for something else is not what the whole was refused for.
fn bad_prices(account: &Account, period: &Period, refusal: Refusal) -> Option<usize> {
    let refused = |prices: &[Price]| account.total_equity(prices).is_err_and(|told| told == refusal);
    period.prices.iter().find(|said| refused(&said.what)).map(|said| said.line)
}

/// The same of targets, asked of a copy of the account without prices, which plans nothing.
fn bad_targets(account: &Account, lines: &[Said<Vec<Target>>], refusal: Refusal) -> Option<usize> {
    let context = Context { period_index: 0, kind: ExecutionKind::Rebalance };
    let mut records = [ExecutionRecord::EMPTY; 64];
    let mut refused = |targets: &[Target]| {
        account.clone().rebalance_simple(targets, &[], context, &mut records).is_err_and(|told| told == refusal)
    };
    lines.iter().find(|said| refused(&said.what)).map(|said| said.line)
}

impl History {
    /// The drawdown at each equity: how far below the highest so far, as a share of it.
    pub fn drawdowns(&self) -> Vec<f64> {
        let mut peak = i64::MIN;
        let below = |peak: i64, e: i64| if peak > 0 { (peak as f64 - e as f64) / peak as f64 } else { 0.0 };
        self.equities
            .iter()
            .map(|e| {
                peak = peak.max(*e);
                below(peak, *e)
            })
            .collect()
    }

    /// The most commission of a fill, where there is one.
    pub fn ceiling(&self) -> Option<i64> {
        Some(self.account.cost_model().max_commission).filter(|ceiling| *ceiling != 0)
    }

    pub fn weight_of(&self, symbol: Symbol) -> Option<f64> {
        self.weights.iter().find(|w| w.symbol == symbol).map(|w| w.weight)
    }

    pub fn refusals(&self) -> impl Iterator<Item = (&str, &Refused)> {
        self.periods.iter().flat_map(|p| p.refused.iter().map(move |r| (p.label.as_str(), r)))
    }
}
