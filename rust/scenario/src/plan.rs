//! What a rebalance meets of document 01's 'Planning', worked out from the account before it: no answer comes from here, only what
//! a run says that it met.

use crate::{Prices, Symbol, Targets, View};

/// An order as it is wanted, before its limits.
struct Wanted {
    symbol: Symbol,
    quantity: i64,
    price: i64,
    /// Its value or gap over equity in basis points, divided first and multiplied first.
    drift: f64,
    multiplied_first: f64,
}

fn value(quantity: i64, price: i64) -> i64 {
    let exact = i128::from(quantity) * i128::from(price) / 1_000_000;
    exact.clamp(i64::MIN.into(), i64::MAX.into()) as i64
}

fn notional(quantity: i64, price: i64) -> i64 {
    (i128::from(quantity).abs() * i128::from(price) / 1_000_000).min(i64::MAX.into()) as i64
}

fn sized(worth: i64, price: i64, step: i64) -> i64 {
    let shares = i128::from(worth) * 1_000_000 / i128::from(price);
    (shares / i128::from(step) * i128::from(step)).clamp(i64::MIN.into(), i64::MAX.into()) as i64
}

fn priced(prices: &Prices, symbol: Symbol) -> Option<i64> {
    prices.iter().find(|(s, _)| *s == symbol).map(|(_, price)| *price)
}

fn wanted(v: &View, targets: &Targets, prices: &Prices, equity: i64) -> Vec<Wanted> {
    let order = |symbol: Symbol, quantity: i64, price: i64, worth: i64| {
        let worth = worth.unsigned_abs() as f64;
        let (drift, multiplied_first) = (worth / equity as f64 * 10_000.0, worth * 10_000.0 / equity as f64);
        Wanted { symbol, quantity, price, drift, multiplied_first }
    };
    let closes = v.positions.iter().filter(|p| p.quantity != 0 && targets.iter().all(|(s, _)| *s != p.symbol));
    let closes = closes.filter_map(|p| {
        let price = priced(prices, p.symbol)?;
        Some(order(p.symbol, p.quantity.saturating_neg(), price, value(p.quantity, price)))
    });
    let moved = targets.iter().filter_map(|(symbol, weight)| {
        let price = priced(prices, *symbol)?;
        let held = v.positions.iter().find(|p| p.symbol == *symbol).map_or(0, |p| p.quantity);
        let gap = ((equity as f64 * weight) as i64).saturating_sub(value(held, price));
        Some(order(*symbol, sized(gap, price, v.settings.quantity_step), price, gap))
    });
    closes.chain(moved).collect()
}

/// The names of what is met, each as often as it is.
pub fn met(v: &View, targets: &Targets, prices: &Prices) -> Vec<&'static str> {
    let worth = v.positions.iter().filter_map(|p| Some(value(p.quantity, priced(prices, p.symbol)?)));
    let equity = v.cash.saturating_add(worth.fold(0, i64::saturating_add));
    if equity <= 0 {
        return vec!["rebalances at equity 0 or below"];
    }
    let s = &v.settings;
    let mut met = Vec::new();
    let mut plan = Vec::new();
    for mut o in wanted(v, targets, prices, equity) {
        let band = s.no_trade_band_bps;
        if band > 0.0 {
            met.extend((o.drift == band).then_some("bands exactly met"));
            met.extend(
                ((o.drift <= band) != (o.multiplied_first <= band)).then_some("bands that tell drift divided first"),
            );
        }
        if o.quantity == 0 || (band > 0.0 && o.drift <= band) {
            continue;
        }
        let at = notional(o.quantity, o.price);
        met.extend((s.max_order_value > 0 && at == s.max_order_value).then_some("order maxima exactly met"));
        if s.max_order_value > 0 && at > s.max_order_value {
            o.quantity = o.quantity.signum() * sized(s.max_order_value, o.price, s.quantity_step);
        }
        let left = notional(o.quantity, o.price);
        met.extend((s.min_order_value > 0 && left == s.min_order_value).then_some("order minima exactly met"));
        if o.quantity != 0 && (s.min_order_value == 0 || left >= s.min_order_value) {
            met.extend((o.price > 1 << 53).then_some("prices above 2^53 ordered at"));
            met.extend((o.quantity == i64::MAX || o.quantity == i64::MIN).then_some("orders of a saturated quantity"));
            plan.push(o);
        }
    }
    if s.max_trades.is_some() || s.max_rebalance_notional > 0 {
        met.extend(admitted(v, plan));
    }
    met
}

/// What is met while a plan under a cap is admitted.
fn admitted(v: &View, mut plan: Vec<Wanted>) -> Vec<&'static str> {
    let s = &v.settings;
    plan.sort_by(|a, b| b.drift.total_cmp(&a.drift).then(a.symbol.cmp(&b.symbol)));
    let mut met: Vec<&str> =
        plan.windows(2).filter(|pair| pair[0].drift == pair[1].drift).map(|_| "drifts tied under a cap").collect();
    let (cap, mut remaining) = (s.max_trades.unwrap_or(u64::MAX), s.max_rebalance_notional);
    for (o, admitted) in plan.iter().zip(0..) {
        if admitted >= cap || s.max_rebalance_notional == 0 {
            break;
        }
        let at = notional(o.quantity, o.price);
        if remaining <= 0 {
            met.push("notional caps spent before the last order");
            met.extend((at == 0).then_some("orders worth nothing after a remainder of 0"));
            break;
        }
        met.extend((at == remaining).then_some("orders of just the remaining notional"));
        if at > remaining {
            let cut = o.quantity.signum() * sized(remaining, o.price, s.quantity_step);
            met.extend((cut == 0).then_some("orders cut by the cap to nothing"));
            let kept = notional(cut, o.price);
            met.extend(
                (s.min_order_value > 0 && kept == s.min_order_value).then_some("orders cut by the cap to the minimum"),
            );
            break;
        }
        remaining -= at;
    }
    met
}
