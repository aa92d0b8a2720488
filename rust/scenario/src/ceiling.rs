//! Scenarios with a commission ceiling: never reached, reached by all, equal to the floor, and crossed within one account's orders;
//! buys cut down about where it is reached, sales near the skip. The Rust has no ceiling, so it is no oracle for these; the model is.

use crate::aimed::weight;
use crate::cash_first::cash_first;
use crate::generate::scenario;
use crate::spoil::bad_ceiling;
use crate::{Context, Costs, Kind, Opening, Prices, Random, Scenario, Setting, Step, Symbol, Targets};

const AIMS: [fn(&mut Random) -> Scenario; 6] = [crossings, trims, trims, whole, sales, turned];

/// A quarter are any scenarios inside the domain, a quarter those of cash-first mode, under a ceiling. The mode is on in a third of the
/// others, and one opening in twenty-five is refused for its ceiling.
pub fn ceiling(random: &mut Random) -> Scenario {
    let mut played = match random.below(4) {
        0 => capped(random, scenario, |s| s.opening.cash),
        1 => capped(random, cash_first, |s| s.opening.cash / 4),
        _ => random.pick(&AIMS)(random),
    };
    if random.one_in(3) {
        played.steps.insert(0, Step::Set(Setting::CashFirst(true)));
    }
    if random.one_in(25) {
        played.opening.costs.max_commission = bad_ceiling(random, played.opening.costs.min_commission);
    }
    played
}

/// A scenario of another sort under a ceiling that its orders, worth up to so much, may reach.
fn capped(random: &mut Random, of: fn(&mut Random) -> Scenario, worth: fn(&Scenario) -> i64) -> Scenario {
    let mut scenario = of(random);
    let costs = scenario.opening.costs;
    scenario.opening.costs.max_commission = good_ceiling(random, costs, worth(&scenario));
    scenario
}

/// A ceiling at the floor or a little above, at the commission of a part of this worth, beyond all commissions, or any.
fn good_ceiling(random: &mut Random, costs: Costs, worth: i64) -> i64 {
    let above = match random.below(8) {
        0 => 0,
        1 => 1 + random.below(8) as i64,
        2..=5 => {
            let part = worth as f64 * random.below(1 << 20) as f64 / (1 << 20) as f64;
            commission(costs, part as i64).saturating_sub(costs.min_commission)
        }
        6 => i64::MAX >> random.below(20),
        _ => (random.u64() >> 1) as i64,
    };
    costs.min_commission.saturating_add(above).max(1)
}

/// The commission without a ceiling.
fn commission(costs: Costs, worth: i64) -> i64 {
    ((worth as f64 * costs.commission_bps / 10_000.0).round() as i64).max(costs.min_commission)
}

/// Each a cent at this price, so that a value is a count of micro-shares.
const MICRO: i64 = 1_000_000;

fn beside(random: &mut Random) -> i64 {
    random.below(5) as i64 - 2
}

/// A rate, a floor and a ceiling above it, and about what notional the ceiling is reached.
fn reached(random: &mut Random) -> (Costs, i64) {
    let commission_bps = 1.0 + random.below(4_000) as f64 / 8.0;
    let most = random.pick(&[20, 2_000]);
    let max_commission = 2 + random.below(most) as i64;
    let min_commission = random.pick(&[0, 0, 1, max_commission / 2, max_commission - 1, max_commission]);
    let slippage_bps = random.pick(&[0.0, 0.0, 2.5, 500.0]);
    let at = (max_commission as f64 * 10_000.0 / commission_bps) as i64;
    (Costs { commission_bps, slippage_bps, min_commission, max_commission }, at.max(4))
}

/// Orders of which some reach the ceiling and some do not, with cash for all; then closes of half of them.
fn crossings(random: &mut Random) -> Scenario {
    let (costs, at) = reached(random);
    let count = 1 + random.below(8) as usize;
    let cash = (at + costs.max_commission) * 4 * count as i64;
    let target = |random: &mut Random, k: usize| {
        let value = match random.below(4) {
            0 => at / 2,
            1 => at * 2,
            _ => (at + beside(random)).max(1),
        };
        (letter(k), weight(value, cash))
    };
    let prices = vec![MICRO; count];
    let first: Targets = (0..count).map(|k| target(random, k)).collect();
    let second = first.iter().filter(|_| random.one_in(2)).copied().collect();
    let steps = vec![rebalance(first, &prices), rebalance(second, &prices), closed(random, count, MICRO)];
    opened(random, cash, costs, 1, steps)
}

/// A buy for more than there is, cut down about where the ceiling is reached; a part of it sold; and the buy again.
fn trims(random: &mut Random) -> Scenario {
    let (costs, at) = reached(random);
    let cash = match random.below(4) {
        0 => at / 2 + random.below(at as u64) as i64,
        1 => at * (2 + random.below(8) as i64),
        _ => at + costs.max_commission + beside(random),
    };
    // Whole shares at such a price, so that the ceiling is reached between one step and the next.
    let (price, step) = match random.below(4) {
        0 => (MICRO, 1),
        1 => (1 + random.below(at as u64) as i64, random.pick(&[1, 1_000])),
        _ => (1 + random.below(at as u64) as i64, 1_000_000),
    };
    let over = 1.0 + random.below(200) as f64 / 100.0;
    let steps = vec![
        rebalance(vec![(letter(0), over)], &[price]),
        rebalance(vec![(letter(0), 0.3)], &[price + random.below(3) as i64]),
        rebalance(vec![(letter(1), over), (letter(0), over)], &[price, 1 + price / 2]),
        closed(random, 1, price),
    ];
    opened(random, cash.max(1), costs, step, steps)
}

/// A buy that takes all the cash under its ceiling, or a cent more or less: without one it would be cut down.
fn whole(random: &mut Random) -> Scenario {
    let (costs, at) = reached(random);
    let costs = Costs { slippage_bps: 0.0, ..costs };
    let worth = at + random.below(4 * at as u64) as i64;
    let cash = worth + costs.max_commission + beside(random);
    let steps = vec![rebalance(vec![(letter(0), weight(worth, cash))], &[MICRO]), closed(random, 1, MICRO / 2)];
    let step = random.pick(&[1, 1, 10]);
    opened(random, cash, costs, step, steps)
}

/// A sale that leaves cash 0 under its ceiling, or a cent beside it: without one, at a rate above all it brings, it would be skipped.
fn sales(random: &mut Random) -> Scenario {
    let max_commission = 3 + random.below(1_000) as i64;
    let worth = 1 + random.below(max_commission as u64 - 1) as i64;
    let min_commission = random.pick(&[0, 1, max_commission / 2, max_commission]);
    let commission_bps = 10_000.0 * (1 + random.below(4)) as f64 * max_commission as f64 / worth as f64;
    let costs = Costs { commission_bps, slippage_bps: 0.0, min_commission, max_commission };
    let cash = (max_commission - worth + beside(random)).max(1);
    let short = |k| (letter(k), -weight(worth, cash));
    let steps = vec![
        rebalance(vec![short(0)], &[MICRO]),
        rebalance(vec![short(0), short(1), (letter(2), 0.5)], &[MICRO, MICRO, 1]),
        closed(random, 3, MICRO),
    ];
    opened(random, cash, costs, 1, steps)
}

/// Holdings sold in cash-first mode at a rate that takes all they bring, or more: under the ceiling some raise cash, and run first.
fn turned(random: &mut Random) -> Scenario {
    let max_commission = 2 + random.below(500) as i64;
    let commission_bps = random.pick(&[10_000.0, 10_050.0, 20_000.0]);
    let min_commission = random.pick(&[0, 0, 1, max_commission / 2]);
    let costs = Costs { commission_bps, slippage_bps: 0.0, min_commission, max_commission };
    let lots: Vec<i64> = (0..2 + random.below(6))
        .map(|_| match random.below(3) {
            0 => (max_commission + beside(random)).max(1),
            _ => 1 + random.below(3 * max_commission as u64) as i64,
        })
        .collect();
    let spare = random.pick(&[0, 0, 1, max_commission]);
    let cash = spare + lots.iter().map(|worth| worth + max_commission).sum::<i64>();
    let bought = lots.iter().enumerate().map(|(k, worth)| (letter(k), weight(*worth, cash))).collect();
    let kept = if random.one_in(2) { Targets::new() } else { vec![(letter(lots.len()), 0.3)] };
    let steps = vec![
        Step::Set(Setting::CashFirst(true)),
        rebalance(bought, &vec![MICRO; lots.len()]),
        rebalance(kept, &vec![MICRO; lots.len() + 1]),
    ];
    opened(random, cash, costs, 1, steps)
}

fn letter(k: usize) -> Symbol {
    Symbol([b'A' + k as u8, 0, 0, 0, 0, 0, 0, 0])
}

fn rebalance(targets: Targets, prices: &[i64]) -> Step {
    let prices: Prices = prices.iter().enumerate().map(|(k, price)| (letter(k), *price)).collect();
    Step::Rebalance { targets, prices, context: Context { period: 1, kind: Kind::Rebalance }, places: 64 }
}

fn closed(random: &mut Random, count: usize, price: i64) -> Step {
    let symbol = letter(random.below(count as u64) as usize);
    Step::Close { symbol, price: price.max(1), context: Context { period: 2, kind: Kind::StopExit }, places: 1 }
}

fn opened(random: &mut Random, cash: i64, costs: Costs, step: i64, steps: Vec<Step>) -> Scenario {
    let set = [Setting::QuantityStep(step), Setting::Recording(!random.one_in(8))].map(Step::Set);
    Scenario { opening: Opening { cash, costs, equity_places: 1 }, steps: set.into_iter().chain(steps).collect() }
}
