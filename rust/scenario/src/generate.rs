//! Random accounts inside document 01's domain: everyday ones, poor ones whose buys are trimmed, and ones at the ends of
//! the numbers.

use crate::aimed::aimed;
use crate::{Context, Costs, Kind, Opening, Prices, Random, Scenario, Setting, Step, Symbol};

#[derive(Clone, Copy, PartialEq, Eq)]
enum Temper {
    Everyday,
    Poor,
    Extreme,
}

/// Places of a series buffer: more than any scenario has periods.
const SERIES: u64 = 100;

/// What stays the same through one scenario.
struct World {
    temper: Temper,
    listed: Prices,
}

/// One in eight aims at a clause that the others seldom meet.
pub fn scenario(random: &mut Random) -> Scenario {
    if random.one_in(8) { aimed(random) } else { ordinary(random) }
}

pub fn ordinary(random: &mut Random) -> Scenario {
    let temper = random.pick(&[Temper::Everyday, Temper::Everyday, Temper::Poor, Temper::Extreme]);
    let world = World { temper, listed: listed(random, temper) };
    let opening = Opening { cash: money(random, temper), costs: costs(random, temper), equity_places: SERIES };
    let mut steps = Vec::new();
    for _ in 0..random.below(6) {
        steps.push(Step::Set(setting(random, temper)));
    }
    for period in 0..1 + random.below(10) {
        step(random, &world, period, &mut steps);
    }
    Scenario { opening, steps }
}

fn listed(random: &mut Random, temper: Temper) -> Prices {
    let count = random.pick(&[1, 2, 3, 4, 5, 8, 8, 12, 64]);
    let mut symbols: Vec<Symbol> = (0..count).map(|_| symbol(random)).collect();
    symbols.sort();
    symbols.dedup();
    // The list's own order is any order: only positions are kept by symbol.
    random.shuffle(&mut symbols);
    symbols.into_iter().map(|s| (s, price(random, temper))).collect()
}

pub fn symbol(random: &mut Random) -> Symbol {
    let mut bytes = [0; 8];
    for byte in bytes.iter_mut().take(1 + random.below(8) as usize) {
        *byte = if random.one_in(3) { 33 + random.below(94) as u8 } else { b'A' + random.below(3) as u8 };
    }
    Symbol(bytes)
}

fn price(random: &mut Random, temper: Temper) -> i64 {
    match temper {
        Temper::Extreme if random.one_in(2) => positive(random),
        _ if random.one_in(8) => 1 + random.below(3) as i64,
        _ => 1 + random.below(50_000) as i64,
    }
}

/// Any i64 from 1, of every length alike.
fn positive(random: &mut Random) -> i64 {
    (random.u64() >> 1).max(1) as i64
}

fn money(random: &mut Random, temper: Temper) -> i64 {
    match temper {
        Temper::Everyday => 1_000_000 + random.below(1_000_000_000) as i64,
        Temper::Poor => random.below(100_000) as i64,
        Temper::Extreme => (random.u64() >> 1) as i64,
    }
}

fn costs(random: &mut Random, temper: Temper) -> Costs {
    let rate = match random.below(6) {
        0 => random.f64().abs(),
        1 => random.below(20_001) as f64 / 2.0,
        _ => random.below(400) as f64 / 8.0,
    };
    let impact = match random.below(5) {
        0 => random.below(10_001) as f64,
        1 => random.f64().abs() % 10_000.0,
        _ => random.below(200) as f64 / 8.0,
    };
    let min_commission = match random.below(4) {
        0 => 0,
        1 => money(random, temper) / 50,
        _ => random.below(200) as i64,
    };
    let fair = |x: f64| if x.is_finite() { x } else { 0.0 };
    Costs { commission_bps: fair(rate), slippage_bps: fair(impact), min_commission, max_commission: 0 }
}

fn setting(random: &mut Random, temper: Temper) -> Setting {
    let limit =
        |random: &mut Random| if random.one_in(4) { 0 } else { money(random, temper) / (1 + random.below(40) as i64) };
    match random.below(8) {
        0 | 1 => Setting::QuantityStep(match random.below(6) {
            0 => positive(random),
            k => [1, 100, 1_000, 1_000_000, 1_000_000][k as usize - 1],
        }),
        2 => Setting::MinOrderValue(limit(random) / 20),
        3 => Setting::MaxOrderValue(limit(random)),
        4 => Setting::NoTradeBandBps(random.below(4_000) as f64 / 4.0),
        5 => Setting::MaxTrades(match random.below(5) {
            0 => None,
            1 => Some(random.u64()),
            _ => Some(random.below(6)),
        }),
        6 => Setting::MaxRebalanceNotional(limit(random)),
        _ => Setting::Recording(!random.one_in(4)),
    }
}

fn step(random: &mut Random, world: &World, period: u64, steps: &mut Vec<Step>) {
    let kind = if random.one_in(5) { Kind::StopExit } else { Kind::Rebalance };
    let context = Context { period: if random.one_in(9) { random.u64() } else { period }, kind };
    let prices = quoted(random, world);
    // A first period that rebalances leaves the later ones something to close.
    match if period == 0 && !random.one_in(5) { 0 } else { random.below(12) } {
        0..=5 => {
            let targets = targets(random, world);
            steps.push(Step::Rebalance { targets, prices: prices.clone(), context, places: 64 + random.below(3) });
        }
        6 | 7 => {
            let (symbol, price) = random.pick(&world.listed);
            let price = moved(random, world.temper, price);
            steps.push(Step::Close { symbol, price, context, places: 1 + random.below(3) });
        }
        8 => steps.push(Step::Set(setting(random, world.temper))),
        9 => steps.push(Step::UnpricedHolding(prices.clone())),
        10 => steps.push(Step::Position(random.pick(&world.listed).0)),
        _ => steps.push(Step::CurrentWeights(prices.clone())),
    }
    match random.below(3) {
        0 => steps.push(Step::RecordReturn { prices, equity_places: SERIES, return_places: SERIES }),
        1 => steps.push(Step::Snapshot(prices)),
        _ => steps.push(Step::TotalEquity(prices)),
    }
}

/// The day's prices: most symbols, each moved a little.
fn quoted(random: &mut Random, world: &World) -> Prices {
    let all = random.one_in(2);
    let mut quoted = Vec::new();
    for (symbol, price) in &world.listed {
        if all || !random.one_in(6) {
            quoted.push((*symbol, moved(random, world.temper, *price)));
        }
    }
    quoted
}

fn moved(random: &mut Random, temper: Temper, price: i64) -> i64 {
    if temper == Temper::Extreme && random.one_in(8) {
        return positive(random);
    }
    let span = price / 4 + 1;
    price.saturating_add(random.below(2 * span as u64) as i64 - span).max(1)
}

fn targets(random: &mut Random, world: &World) -> Vec<(Symbol, f64)> {
    let share = 1.0 / world.listed.len() as f64;
    let dropping = random.one_in(2);
    let mut targets = Vec::new();
    for (symbol, _) in &world.listed {
        if !(dropping && random.one_in(3)) {
            targets.push((*symbol, weight(random, world.temper, share)));
        }
    }
    targets
}

fn weight(random: &mut Random, temper: Temper, share: f64) -> f64 {
    let part = random.below(1_000) as f64 / 500.0;
    match random.below(12) {
        0 => 0.0,
        1 | 2 => -share * part,
        3 => 1.0 - part,
        4 if temper == Temper::Extreme => Some(random.f64()).filter(|x| x.is_finite()).unwrap_or(1.0),
        _ => share * part,
    }
}
