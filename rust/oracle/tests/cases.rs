//! The frame answers as the Rust does: document 01's checked cases on the small functions. Ignored, and so not counted as
//! passed, where nanobook is not at hand.

use oracle::{Ask, Leaves, Single, fill_alone, leaves};
use scenario::{Context, Costs, Kind, Symbol};

fn nanobook() -> Leaves {
    leaves().expect("nanobook is at hand")
}

fn costs(commission_bps: f64, min_commission: i64) -> Costs {
    Costs { commission_bps, slippage_bps: 0.0, min_commission, max_commission: 0 }
}

#[test]
#[cfg_attr(not(nanobook), ignore = "nanobook's source is not at hand")]
fn a_values_truncate() {
    let n = nanobook();
    assert_eq!([(n.notional_cents)(1, 999_999), (n.notional_cents)(1, 1_000_000)], [0, 1]);
    assert_eq!((n.notional_cents)(-1, 999_999), 0);
}

#[test]
#[cfg_attr(not(nanobook), ignore = "nanobook's source is not at hand")]
fn b_and_c_commissions() {
    let n = nanobook();
    let b = costs(10.0, 100);
    assert_eq!([(n.compute_cost)(b, 1_000_000), (n.compute_cost)(b, 10_000)], [1_000, 100]);
    let c = costs(1_000.0, 0);
    assert_eq!([(n.compute_cost)(c, 5), (n.compute_cost)(c, 4)], [1, 0]);
}

#[test]
#[cfg_attr(not(nanobook), ignore = "nanobook's source is not at hand")]
fn d_to_f_affordable() {
    let n = nanobook();
    assert_eq!((n.largest_affordable_buy_qty)(100_000_000, 100_000, 1_000_000, 1_000, costs(10.0, 100)), 99_000_000);
    assert_eq!((n.largest_affordable_buy_qty)(1_000_000, 50, 1_000_000, 10, costs(0.0, 100)), 0);
    assert_eq!((n.largest_affordable_buy_qty)(2_000_000, 0, 1, 1, costs(0.0, 0)), 0);
}

/// A fill in whole shares on an account that holds this many, bought for nothing: what filled, and the account after it.
fn filled(cash: i64, costs: Costs, held: i64, shares: i64, price: i64) -> (i64, Single) {
    let found = Single { cash, position: [held * 1_000_000, 0, 0, 0], ..Single::default() };
    let ask = Ask {
        costs,
        quantity_step: 1_000_000,
        context: Context { period: 0, kind: Kind::Rebalance },
        symbol: Symbol(*b"A\0\0\0\0\0\0\0"),
        quantity: shares * 1_000_000,
        price,
    };
    let filled = fill_alone(&ask, &found).expect("nanobook is an oracle here");
    (filled.record.map_or(0, |r| r.quantity), filled.after)
}

#[test]
#[cfg_attr(not(nanobook), ignore = "nanobook's source is not at hand")]
fn d_e_and_g_fill() {
    let (quantity, d) = filled(100_000, costs(10.0, 100), 0, 100, 1_000);
    assert_eq!((quantity, d.shortfall, d.cash, d.trimmed, d.records), (99_000_000, 1_000, 900, 1, 1));
    let (quantity, e) = filled(50, costs(0.0, 100), 0, 1, 10);
    assert_eq!((quantity, e.shortfall, e.cash, e.trimmed, e.records), (0, 10, 50, 1, 0));
    let (quantity, g) = filled(5, costs(0.0, 100), 1, -1, 20);
    assert_eq!((quantity, g.cash, g.position[0], g.trimmed), (0, 5, 1_000_000, 0));
    let (quantity, g) = filled(80, costs(0.0, 100), 1, -1, 20);
    assert_eq!((quantity, g.cash, g.position[0], g.trimmed), (-1_000_000, 0, 0, 0));
}

#[test]
#[cfg_attr(not(nanobook), ignore = "nanobook's source is not at hand")]
fn h_gaps_become_shares() {
    let n = nanobook();
    assert_eq!((n.size_qty)(1_999, 1_000, 1_000_000), 1_000_000);
    assert_eq!((n.size_qty)(-1_999, 1_000, 1_000_000), -1_000_000);
    assert_eq!((n.size_qty)(1_999, 1_000, 1_000), 1_999_000);
}

#[test]
#[cfg_attr(not(nanobook), ignore = "nanobook's source is not at hand")]
fn k_drift() {
    let n = nanobook();
    assert_eq!((n.drift_bps_of)(5_000, 20_000), 2_500.0);
    assert!((n.drift_bps_of)(5_001, 20_000) > 2_500.0);
}
