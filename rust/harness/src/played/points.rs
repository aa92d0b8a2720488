//! Accounts by hand: clauses of document 01 that random accounts seldom tell, each told three times, with other numbers.

use scenario::{Context, Costs, Kind, Opening, Prices, Scenario, Setting, Setting::*, Step, Symbol};

pub fn symbol(letter: u8) -> Symbol {
    Symbol([letter, 0, 0, 0, 0, 0, 0, 0])
}

pub fn prices(list: &[(u8, i64)]) -> Prices {
    list.iter().map(|(s, price)| (symbol(*s), *price)).collect()
}

pub const FREE: Costs = Costs { commission_bps: 0.0, slippage_bps: 0.0, min_commission: 0, max_commission: 0 };
const CONTEXT: Context = Context { period: 1, kind: Kind::Rebalance };

/// A rebalance: symbols with their weights, and with their prices.
pub fn rebalance(targets: &[(u8, f64)], at: &[(u8, i64)]) -> Step {
    let targets = targets.iter().map(|(s, weight)| (symbol(*s), *weight)).collect();
    Step::Rebalance { targets, prices: prices(at), context: CONTEXT, places: 64 }
}

pub fn close(s: u8, price: i64) -> Step {
    Step::Close { symbol: symbol(s), price, context: Context { period: 2, kind: Kind::StopExit }, places: 1 }
}

pub fn recorded(at: &[(u8, i64)]) -> Step {
    Step::RecordReturn { prices: prices(at), equity_places: 100, return_places: 100 }
}

pub fn set(setting: Setting) -> Step {
    Step::Set(setting)
}

pub fn opened(cash: i64, costs: Costs, steps: Vec<Step>) -> Scenario {
    Scenario { opening: Opening { cash, costs, equity_places: 1 }, steps }
}

/// An account with no cost but a floor, whose step is one micro-share, and which records.
fn by_hand(cash: i64, min_commission: i64, steps: Vec<Step>) -> Scenario {
    let first = [set(QuantityStep(1)), set(Recording(true))];
    opened(cash, Costs { min_commission, ..FREE }, first.into_iter().chain(steps).collect())
}

pub fn points() -> Vec<Scenario> {
    (1..=3).flat_map(|k| [bands(k), limits(k), caps(k), fills(k), ends(k), returns(k)]).flatten().collect()
}

/// A value of an account's equity whose drift, divided first, is another than it would be multiplied first; and the smaller of both.
fn divided_first(equity: i64) -> (i64, f64) {
    let drifts = |v: i64| (v as f64 / equity as f64 * 10_000.0, v as f64 * 10_000.0 / equity as f64);
    let value = (equity / 4..equity).find(|v| drifts(*v).0 != drifts(*v).1).expect("one in many");
    (value, drifts(value).0.min(drifts(value).1))
}

fn bands(k: i64) -> Vec<Scenario> {
    let equity = 30_011 * k;
    let (value, band) = divided_first(equity);
    let weight = (value as f64 + 0.5) / equity as f64;
    vec![
        // A drift at the band, and just over it; a holding's at the band, and over it.
        by_hand(
            20_000 * k,
            0,
            vec![
                set(NoTradeBandBps(2_500.0)),
                rebalance(&[(b'A', 0.25)], &[(b'A', 100)]),
                rebalance(&[(b'A', 0.25005)], &[(b'A', 100)]),
                set(NoTradeBandBps(2_500.5)),
                rebalance(&[], &[(b'A', 100)]),
                set(NoTradeBandBps(2_500.0)),
                rebalance(&[], &[(b'A', 100)]),
            ],
        ),
        by_hand(equity, 0, vec![set(NoTradeBandBps(band)), rebalance(&[(b'A', weight)], &[(b'A', 7)])]),
        // A holding worth nothing, closed where the band is off; and a target whose gap is 0.
        by_hand(
            10 * k,
            0,
            vec![
                rebalance(&[(b'A', 0.1), (b'B', 0.0)], &[(b'A', 1_000_000), (b'B', 5)]),
                rebalance(&[], &[(b'A', 999_999 / k)]),
                rebalance(&[], &[(b'A', 1)]),
            ],
        ),
        // A holding that is sold down, whose gap is below 0: its drift is above 0.
        by_hand(
            10_000 * k,
            0,
            vec![
                rebalance(&[(b'A', 0.5), (b'B', 0.4)], &[(b'A', 100), (b'B', 100)]),
                set(NoTradeBandBps(500.0)),
                rebalance(&[(b'A', 0.25), (b'B', 0.38)], &[(b'A', 100), (b'B', 100)]),
            ],
        ),
    ]
}

fn limits(k: i64) -> Vec<Scenario> {
    // At a price of 7 the gap of 10 becomes 1,428,571 micro-shares, worth 9: more than 9 would buy.
    let (gap, worth) = (10 * k, 10 * k - 1);
    let weight = gap as f64 / 1_000.0;
    vec![
        by_hand(1_000, 0, vec![set(MaxOrderValue(worth)), rebalance(&[(b'A', weight)], &[(b'A', 7)])]),
        by_hand(1_000, 0, vec![set(MinOrderValue(worth)), rebalance(&[(b'A', weight)], &[(b'A', 7)])]),
        by_hand(1_000, 0, vec![set(MinOrderValue(worth + 1)), rebalance(&[(b'A', weight)], &[(b'A', 7)])]),
        // Over the order maximum, and cut to less than the minimum, to the minimum, and to nothing.
        by_hand(
            20_000,
            0,
            vec![
                set(MaxOrderValue(1_000 * k)),
                set(MinOrderValue(1_000 * k + 1)),
                rebalance(&[(b'A', 0.25)], &[(b'A', 100)]),
                set(MinOrderValue(1_000 * k)),
                rebalance(&[(b'A', 0.25)], &[(b'A', 100)]),
                set(QuantityStep(1_000_000_000)),
                rebalance(&[(b'A', 0.9)], &[(b'A', 100)]),
            ],
        ),
        // A sale over the maximum keeps its sign; a close over it is cut by the step, and one under it is whole without the step.
        by_hand(
            9_000 * k,
            0,
            vec![
                rebalance(&[(b'A', 0.3333), (b'B', 0.3333)], &[(b'A', 70), (b'B', 90)]),
                set(QuantityStep(1_000_000)),
                set(MaxOrderValue(1_000)),
                rebalance(&[(b'A', -0.3)], &[(b'A', 70), (b'B', 90)]),
                set(MaxOrderValue(0)),
                rebalance(&[], &[(b'A', 70), (b'B', 90)]),
            ],
        ),
        // Minimum and maximum between the listed price and the effective one.
        opened(
            100_000 * k,
            Costs { slippage_bps: 1_000.0, ..FREE },
            vec![
                set(MinOrderValue(10_500 * k)),
                rebalance(&[(b'A', 0.1)], &[(b'A', 100)]),
                set(MinOrderValue(0)),
                set(MaxOrderValue(10_500 * k)),
                rebalance(&[(b'A', 0.1)], &[(b'A', 100)]),
            ],
        ),
    ]
}

/// Of the same drift, listed against the order of their symbols.
const TIED: [(u8, f64); 3] = [(b'C', 0.2), (b'B', 0.2), (b'A', 0.2)];
const AT_100: [(u8, i64); 3] = [(b'A', 100), (b'B', 100), (b'C', 100)];

fn caps(k: i64) -> Vec<Scenario> {
    let cash = 10_000 * k;
    let tied = |cap: Setting| by_hand(cash, 0, vec![set(cap), rebalance(&TIED, &AT_100)]);
    let capped = |settings: &[Setting], targets: &[(u8, f64)], at: &[(u8, i64)]| {
        by_hand(cash, 0, settings.iter().map(|s| set(*s)).chain([rebalance(targets, at)]).collect())
    };
    let rising = [(b'A', 0.1), (b'B', 0.2), (b'C', 0.3)];
    vec![
        tied(MaxTrades(Some(1))),
        tied(MaxTrades(Some(2))),
        tied(MaxRebalanceNotional(2_000 * k)),
        tied(MaxTrades(Some(0))),
        tied(MaxTrades(None)),
        capped(&[MaxTrades(Some(2))], &rising, &AT_100),
        capped(&[MaxTrades(Some(64))], &rising, &AT_100),
        capped(&[], &rising, &AT_100),
        capped(&[MaxRebalanceNotional(3_000 * k)], &rising, &AT_100),
        capped(&[MaxRebalanceNotional(4_000 * k)], &rising, &AT_100),
        // Just what remains, at a price where the same value would buy less.
        capped(&[MaxRebalanceNotional(999 * k - 1)], &[(b'A', 0.0999)], &[(b'A', 1_000_003)]),
        capped(&[MaxRebalanceNotional(2_000 * k)], &[(b'A', 0.2), (b'B', 0.1)], &AT_100),
        // Nothing remains, and the next order is worth nothing: one micro-share at 700,000.
        capped(
            &[MaxRebalanceNotional(2_000 * k)],
            &[(b'A', 0.2), (b'B', 0.00015 / k as f64)],
            &[(b'A', 100), (b'B', 700_000)],
        ),
        // Cut to nothing by the step; cut to the minimum, and to less.
        capped(&[MaxRebalanceNotional(50), QuantityStep(1_000_000)], &rising, &AT_100),
        capped(&[MaxRebalanceNotional(3_500 * k), MinOrderValue(500 * k)], &rising, &AT_100),
        capped(&[MaxRebalanceNotional(3_500 * k), MinOrderValue(501 * k)], &rising, &AT_100),
    ]
}

/// Of two orders over the order maximum the one of the larger drift is drawn, though cut it is the smaller: 9,999 at a price of 300.
pub fn ranks() -> Vec<Scenario> {
    let settings = [MaxOrderValue(10_000), MaxTrades(Some(1))].map(set);
    let at = [(b'A', 100), (b'B', 300)];
    let of = |k: i64| {
        let both = rebalance(&[(b'A', 0.2), (b'B', 0.3)], &at);
        by_hand(100_000 * k, 0, settings.iter().cloned().chain([both]).collect())
    };
    (1..=3).map(of).collect()
}

fn fills(k: i64) -> Vec<Scenario> {
    let floor = |min_commission| Costs { min_commission, ..FREE };
    vec![
        // A buy at cash 0 of which 999,999 micro-shares would need nothing.
        by_hand(
            1_000 * k,
            0,
            vec![
                rebalance(&[(b'A', 1.0)], &[(b'A', 1_000)]),
                rebalance(&[(b'A', 1.0), (b'B', 0.002)], &[(b'A', 1_000), (b'B', 1)]),
            ],
        ),
        // A buy of which the floor leaves nothing; one that takes all the cash; one that is trimmed to what takes all of it.
        by_hand(50 * k, 100 * k, vec![rebalance(&[(b'A', 0.2)], &[(b'A', 10)])]),
        by_hand(1_000 * k, 100 * k, vec![rebalance(&[(b'A', 0.9)], &[(b'A', 10)])]),
        by_hand(1_000 * k, 100 * k, vec![rebalance(&[(b'A', 2.0)], &[(b'A', 10)])]),
        opened(100_000 * k, floor(1_000), vec![set(QuantityStep(3_000)), rebalance(&[(b'A', 1.0)], &[(b'A', 997)])]),
        // Sales under the floor: one leaves cash 0, one would leave less.
        opened(80 * k, floor(100 * k), vec![rebalance(&[(b'A', -0.25)], &[(b'A', 20 * k)])]),
        opened(79 * k, floor(100 * k), vec![rebalance(&[(b'A', -0.26)], &[(b'A', 20 * k)])]),
        // Half cents: commissions of 2.5 and 0.5, prices of 12.5 and 1.5 after slippage.
        opened(
            10_000 * k,
            Costs { commission_bps: 5.0, slippage_bps: 2_500.0, ..FREE },
            vec![
                set(Recording(true)),
                rebalance(&[(b'A', 0.5), (b'B', -0.1)], &[(b'A', 10 * k), (b'B', 2)]),
                rebalance(&[(b'B', 0.1)], &[(b'A', 10 * k), (b'B', 2)]),
            ],
        ),
        // Adds to a holding, sells a part, flips, covers a part, closes; and a rebalance that is not recorded.
        by_hand(
            1_000_000 * k,
            1,
            vec![
                rebalance(&[(b'A', 0.2)], &[(b'A', 100)]),
                rebalance(&[(b'A', 0.5)], &[(b'A', 131)]),
                rebalance(&[(b'A', 0.3)], &[(b'A', 147)]),
                rebalance(&[(b'A', -0.3)], &[(b'A', 90)]),
                rebalance(&[(b'A', -0.2)], &[(b'A', 77)]),
                close(b'A', 60 + k),
                Step::Snapshot(prices(&[(b'A', 77)])),
                Step::UnpricedHolding(prices(&[])),
                set(Recording(false)),
                rebalance(&[(b'A', 0.4), (b'B', 0.4)], &[(b'A', 80), (b'B', 50)]),
                Step::UnpricedHolding(prices(&[(b'A', 80)])),
                Step::UnpricedHolding(prices(&[])),
                rebalance(&[], &[(b'A', 81)]),
                rebalance(&[], &[(b'A', 81), (b'B', 49)]),
            ],
        ),
        // Closes before targets, in symbol order, and targets in the list's.
        by_hand(
            100_000 * k,
            7,
            vec![
                rebalance(&[(b'C', 0.3), (b'B', 0.2), (b'A', 0.1)], &AT_100),
                rebalance(&[(b'D', 0.5)], &[(b'D', 11), (b'C', 90), (b'B', 80), (b'A', 70)]),
            ],
        ),
    ]
}

fn ends(k: i64) -> Vec<Scenario> {
    let odd = 2 * k + 1;
    let (half, two_52, two_53) = (1i64 << 62, 1i64 << 52, 1i64 << 53);
    let short = |weight: f64, more: Vec<Step>| {
        let first = vec![set(Recording(true)), rebalance(&[(b'A', weight)], &[(b'A', k)])];
        opened(i64::MAX / 4, FREE, first.into_iter().chain(more).collect())
    };
    vec![
        // Odd prices from 2^52 on, and from 2^53 on, where every other one is halfway between doubles.
        by_hand(half, 0, vec![rebalance(&[(b'A', 0.5), (b'B', 0.25)], &[(b'A', two_52 + odd), (b'B', two_53 + odd)])]),
        by_hand(half, 0, vec![rebalance(&[(b'A', -0.5)], &[(b'A', two_53 + odd)]), close(b'A', two_52 + odd)]),
        // -2^63 micro-shares, covered but for one, by a close and by a rebalance; a gap past both ends is not snapped.
        short(-1e30, vec![close(b'A', 1), Step::Snapshot(prices(&[(b'A', 1)]))]),
        short(-1e30, vec![rebalance(&[], &[(b'A', k)])]),
        short(-1e30, vec![set(QuantityStep(1_000)), rebalance(&[(b'A', 1e30)], &[(b'A', 1)])]),
        short(1e30, vec![Step::TotalEquity(prices(&[(b'A', i64::MAX)])), recorded(&[(b'A', i64::MAX - k)])]),
        // Values past the ends, and a change of equity past them.
        opened(
            i64::MAX / 4,
            FREE,
            vec![
                set(Recording(true)),
                rebalance(&[(b'A', -1e30), (b'B', 0.2)], &[(b'A', k), (b'B', 100)]),
                recorded(&[(b'A', k), (b'B', 100)]),
                recorded(&[(b'A', i64::MAX - k)]),
                Step::Snapshot(prices(&[(b'A', i64::MAX - k)])),
                recorded(&[(b'A', k)]),
            ],
        ),
        short(
            1e30,
            vec![
                rebalance(&[(b'A', 1e30), (b'B', 1e30)], &[(b'A', i64::MAX), (b'B', k)]),
                Step::TotalEquity(prices(&[(b'A', i64::MAX), (b'B', i64::MAX)])),
            ],
        ),
        by_hand(
            half + odd,
            0,
            vec![
                rebalance(&[(b'A', 0.999), (b'B', -0.9)], &[(b'A', 1_000_003), (b'B', 999_983)]),
                Step::TotalEquity(prices(&[(b'A', 3_000_017)])),
                rebalance(&[(b'A', 0.5)], &[(b'A', 3_000_017), (b'B', 1_000_000)]),
            ],
        ),
    ]
}

fn returns(k: i64) -> Vec<Scenario> {
    let short = vec![rebalance(&[(b'A', -0.5)], &[(b'A', 1_000)])];
    vec![
        // A short that costs all there is, and then more: no orders, no weights, and returns of 0.0.
        opened(
            1_000_000 * k,
            FREE,
            short
                .into_iter()
                .chain([
                    recorded(&[(b'A', 1_000)]),
                    recorded(&[(b'A', 3_000)]),
                    Step::Snapshot(prices(&[(b'A', 3_000)])),
                    rebalance(&[(b'A', 1.0)], &[(b'A', 3_000)]),
                    rebalance(&[(b'A', -0.4)], &[(b'A', 1_000)]),
                    recorded(&[(b'A', 4_000)]),
                    recorded(&[(b'A', 4_100)]),
                    Step::Snapshot(prices(&[(b'A', 4_000)])),
                    rebalance(&[(b'A', 1.0)], &[(b'A', 4_000)]),
                    recorded(&[(b'A', 900)]),
                ])
                .collect(),
        ),
        // No cash, no return; and a holding that is worth nothing, as the account is.
        by_hand(0, 0, vec![recorded(&[]), recorded(&[]), rebalance(&[(b'A', 1.0)], &[(b'A', 10)])]),
        by_hand(
            k,
            0,
            vec![
                rebalance(&[(b'A', 1.0)], &[(b'A', 1_000_000)]),
                Step::Snapshot(prices(&[(b'A', 999_999 / k)])),
                Step::Snapshot(prices(&[])),
                recorded(&[]),
                recorded(&[]),
            ],
        ),
    ]
}
