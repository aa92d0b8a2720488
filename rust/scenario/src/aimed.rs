//! Scenarios that aim at clauses which random accounts seldom meet: each sort of them at one, with random numbers.

use crate::{Context, Costs, Kind, Opening, Prices, Random, Scenario, Setting, Step, Symbol, Targets};

const FREE: Costs = Costs { commission_bps: 0.0, slippage_bps: 0.0, min_commission: 0, max_commission: 0 };
const AIMS: [fn(&mut Random) -> Scenario; 10] =
    [bands, drifts, limits, spent, cut, ties, high_prices, far_ends, worthless, floors];

pub fn aimed(random: &mut Random) -> Scenario {
    random.pick(&AIMS)(random)
}

fn letter(k: usize) -> Symbol {
    Symbol([b'A' + k as u8, 0, 0, 0, 0, 0, 0, 0])
}

fn rebalance(targets: &[(usize, f64)], prices: &[i64]) -> Step {
    let targets: Targets = targets.iter().map(|(k, weight)| (letter(*k), *weight)).collect();
    Step::Rebalance {
        targets,
        prices: listed(prices),
        context: Context { period: 1, kind: Kind::Rebalance },
        places: 64,
    }
}

fn listed(prices: &[i64]) -> Prices {
    prices.iter().enumerate().map(|(k, price)| (letter(k), *price)).collect()
}

/// Micro-shares, recorded, under settings.
fn opened(cash: i64, costs: Costs, settings: &[Setting], steps: Vec<Step>) -> Scenario {
    let set = [Setting::QuantityStep(1), Setting::Recording(true)];
    let steps = set.iter().chain(settings).map(|s| Step::Set(*s)).chain(steps).collect();
    Scenario { opening: Opening { cash, costs, equity_places: 100 }, steps }
}

/// The weight whose target is this value.
pub fn weight(value: i64, equity: i64) -> f64 {
    (value as f64 + 0.5) / equity as f64
}

fn money(random: &mut Random) -> i64 {
    1_000 + random.below(1_000_000_000) as i64
}

/// A drift at the band, or a cent beside it.
fn bands(random: &mut Random) -> Scenario {
    let equity = money(random);
    let value = 1 + random.below(equity as u64 - 1) as i64;
    let beside = value + random.below(3) as i64 - 1;
    let band = Setting::NoTradeBandBps(value as f64 / equity as f64 * 10_000.0);
    let price = 1 + random.below(999) as i64;
    opened(equity, FREE, &[band], vec![rebalance(&[(0, weight(beside, equity))], &[price]), rebalance(&[], &[price])])
}

/// A band between a drift as it is and as it would be multiplied first.
fn drifts(random: &mut Random) -> Scenario {
    let equity = money(random);
    let both = |v: i64| (v as f64 / equity as f64 * 10_000.0, v as f64 * 10_000.0 / equity as f64);
    let from = 1 + random.below(equity as u64 / 2) as i64;
    let value = (from..equity).find(|v| both(*v).0 != both(*v).1).unwrap_or(from);
    let band = Setting::NoTradeBandBps(both(value).0.min(both(value).1));
    opened(equity, FREE, &[band], vec![rebalance(&[(0, weight(value, equity))], &[1 + random.below(999) as i64])])
}

/// What a gap becomes at a price, and what that is worth: with a step of one micro-share often more than its value would buy.
fn sized(gap: i64, price: i64) -> i64 {
    let shares = i128::from(gap) * 1_000_000 / i128::from(price);
    (shares * i128::from(price) / 1_000_000) as i64
}

/// A notional at the order maximum or minimum or at the notional cap, or a cent beside it.
fn limits(random: &mut Random) -> Scenario {
    let (equity, price) = (money(random), 3 + random.below(2_000_000) as i64);
    let gap = 1 + random.below(equity as u64 - 1) as i64;
    let worth = (sized(gap, price) + random.below(3) as i64 - 1).max(1);
    let limit = random.pick(&[
        Setting::MaxOrderValue(worth),
        Setting::MinOrderValue(worth),
        Setting::MaxRebalanceNotional(worth),
    ]);
    opened(equity, FREE, &[limit], vec![rebalance(&[(0, weight(gap, equity))], &[price])])
}

/// A notional cap that an order takes whole, or nearly, and then one that is worth nothing or little.
fn spent(random: &mut Random) -> Scenario {
    let equity = 20_000 + money(random);
    let first = 100 + random.below(equity as u64 / 2) as i64;
    let cap = Setting::MaxRebalanceNotional(first + random.below(2) as i64);
    let targets = [(0, weight(first, equity)), (1, weight(1 + random.below(2) as i64, equity))];
    // One micro-share is worth nothing.
    let price = 500_001 + random.below(499_999) as i64;
    opened(equity, FREE, &[cap], vec![rebalance(&targets, &[1_000_000, price])])
}

/// An order that the notional cap cuts to the minimum, a cent beside it, or to less than its step.
fn cut(random: &mut Random) -> Scenario {
    let equity = 20_000 + money(random);
    let first = 1_000 + random.below(equity as u64 / 2) as i64;
    let left = 2 + random.below(900) as i64;
    let minimum = Setting::MinOrderValue(left + random.below(3) as i64 - 1);
    let step = Setting::QuantityStep(random.pick(&[1, 1, 1_000_000]));
    let targets = [(0, weight(first, equity)), (1, weight(950, equity))];
    let cap = Setting::MaxRebalanceNotional(first + left);
    opened(equity, FREE, &[cap, minimum, step], vec![rebalance(&targets, &[1, random.pick(&[1, 1_000_000])])])
}

/// Orders of one drift under a cap, in any order of the list.
fn ties(random: &mut Random) -> Scenario {
    let count = 2 + random.below(5) as usize;
    let each = 1 + random.below(10_000) as i64;
    let equity = each * 20;
    let mut targets: Vec<(usize, f64)> = (0..count).map(|k| (k, weight(each, equity))).collect();
    random.shuffle(&mut targets);
    let cap = match random.below(3) {
        0 => Setting::MaxRebalanceNotional(each * count as i64 / 2 + 1),
        1 => Setting::MaxTrades(Some(64)),
        _ => Setting::MaxTrades(Some(random.below(count as u64 + 1))),
    };
    opened(equity, FREE, &[cap], vec![rebalance(&targets, &vec![1 + random.below(50) as i64; count])])
}

/// Prices past 2^52 and 2^53, half of which are no double.
fn high_prices(random: &mut Random) -> Scenario {
    let mut price = || (1i64 << (52 + random.below(6))) + random.below(1 << 40) as i64;
    let prices = [price(), price()];
    let moved = prices.map(|p| p + random.below(1 << 20) as i64);
    let costs = Costs { commission_bps: random.below(40) as f64 / 8.0, ..FREE };
    let steps = vec![
        rebalance(&[(0, 0.4), (1, -0.3)], &prices),
        rebalance(&[(0, 0.2)], &moved),
        Step::Snapshot(listed(&moved)),
    ];
    opened(i64::MAX / (2 + random.below(9) as i64), costs, &[], steps)
}

/// Gaps past the ends of what a quantity may be, under a step that does not divide them.
fn far_ends(random: &mut Random) -> Scenario {
    let sign = random.pick(&[-1e30, 1e30]);
    let price = 1 + random.below(3) as i64;
    let step = Setting::QuantityStep(random.pick(&[2, 1_000, 1_000_000, 999_983]));
    let mut steps = vec![rebalance(&[(0, sign)], &[price])];
    let later = if random.one_in(2) { price } else { i64::MAX - random.below(99) as i64 };
    steps.push(Step::RecordReturn { prices: listed(&[later]), equity_places: 100, return_places: 100 });
    steps.push(rebalance(if random.one_in(2) { &[] } else { &[(0, 1e30)] }, &[price]));
    opened(i64::MAX / (2 + random.below(9) as i64), FREE, &[step], steps)
}

/// A short that costs all there is, or more: no orders, and returns of 0.0.
fn worthless(random: &mut Random) -> Scenario {
    let cash = 2_000 * (1 + random.below(100_000) as i64);
    let later = 3_000 + random.below(2) as i64 * (1 + random.below(900) as i64);
    let returned = |price: i64| Step::RecordReturn { prices: listed(&[price]), equity_places: 100, return_places: 100 };
    let steps = vec![
        rebalance(&[(0, -0.5)], &[1_000]),
        returned(1_000),
        returned(later),
        rebalance(&[(0, 0.5)], &[later]),
        returned(later + 1),
        Step::Snapshot(listed(&[later])),
        returned(900),
    ];
    opened(if random.one_in(8) { 0 } else { cash }, FREE, &[], steps)
}

/// Fills that leave cash 0, or would leave less, under a floor.
fn floors(random: &mut Random) -> Scenario {
    let floor = 2 + random.below(1_000) as i64;
    let beside = random.below(3) as i64 - 1;
    let sells = random.one_in(2);
    let worth = 1 + random.below(floor as u64 - 1) as i64;
    let cash = if sells { floor - worth + beside } else { floor + worth + beside }.max(1);
    let target = if sells { -weight(worth, cash) } else { weight(worth, cash) };
    let again = rebalance(&[(0, target), (1, 0.01)], &[1_000_000, 1]);
    let costs = Costs { min_commission: floor, ..FREE };
    opened(cash, costs, &[], vec![rebalance(&[(0, target)], &[1_000_000]), again])
}
