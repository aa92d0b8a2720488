//! The commission ceiling, document 02's request 3: which one is good, and what follows from it in fills.

use threshcoil::{
    Account, Context, CostModel, ExecutionKind, ExecutionRecord, Price, Refusal, Settings, Shares, Symbol, Target,
};
use threshcoil_sys as port;
use threshcoil_sys::layout::{self, Setting};

const NOW: Context = Context { period_index: 0, kind: ExecutionKind::Rebalance };
/// 10 bps, and at least 50.
const TENTH: CostModel = CostModel { commission_bps: 10.0, slippage_bps: 0.0, min_commission: 50, max_commission: 0 };
/// 200 %, so that a sale may cost more than it brings.
const DOUBLE: CostModel =
    CostModel { commission_bps: 20_000.0, slippage_bps: 0.0, min_commission: 0, max_commission: 0 };

fn opened(cash: i64, costs: CostModel) -> Result<Account, Refusal> {
    Account::open(cash, &Settings { recording: true, ..Settings::new(costs) }, &mut [0])
}

/// An account of that cash after one target at that weight and price, and its records.
fn bought(cash: i64, costs: CostModel, weight: f64, price: i64) -> (Account, Vec<ExecutionRecord>) {
    let (mut account, mut records) = (opened(cash, costs).expect("good settings"), [ExecutionRecord::EMPTY; 64]);
    let (targets, prices) = ([Target { symbol: fund(), weight }], [Price { symbol: fund(), price }]);
    let filled = account.rebalance_simple(&targets, &prices, NOW, &mut records).expect("done");
    (account, records[..filled].to_vec())
}

fn fund() -> Symbol {
    Symbol::new("FUND").expect("a good symbol")
}

/// The whole shares held, the cash, how many buys were trimmed, and what they lost.
fn held(account: &Account) -> (i64, i64, u64, i64) {
    let position = account.position(fund()).expect("done").expect("a position");
    (position.quantity.whole(), account.cash(), account.trimmed_fill_count(), account.trimmed_shortfall_cents())
}

/// "0 meaning none"; "1 also when a non-zero ceiling is below `min_commission`". Equal to the floor it is a flat fee.
#[test]
fn a_ceiling_is_none_or_at_least_the_floor() {
    for (floor, ceiling, good) in [
        (50, 0, true),
        (50, 50, true),
        (50, 51, true),
        (50, i64::MAX, true),
        (50, 49, false),
        (50, 1, false),
        (50, -1, false),
        (50, i64::MIN, false),
        (0, 0, true),
        (0, 1, true),
        (0, -1, false),
        (i64::MAX, i64::MAX, true),
        (i64::MAX, i64::MAX - 1, false),
    ] {
        let costs = CostModel { min_commission: floor, max_commission: ceiling, ..TENTH };
        let account = opened(1_000, costs);
        assert_eq!(account.map(|a| a.cost_model()), if good { Ok(costs) } else { Err(Refusal::BadSetting) });
        assert_eq!(port::tc_good_costs_with_ceiling(10.0, 0.0, floor, ceiling), good, "{costs:?}");
    }
}

/// In an account's bytes the same pairs answer 11, whichever of the two words was changed.
#[test]
fn bytes_with_a_bad_ceiling_are_no_account() {
    let account = opened(1_000, CostModel { max_commission: 80, ..TENTH }).expect("good settings");
    let changed = |setting: Setting, value: i64| {
        let mut bytes = *account.as_bytes();
        bytes[layout::bytes_of(layout::setting(setting), 1)].copy_from_slice(&value.to_le_bytes());
        Account::from_bytes(&bytes).map(|a| (a.cost_model().min_commission, a.cost_model().max_commission))
    };
    for (ceiling, told) in [(0, Ok((50, 0))), (50, Ok((50, 50))), (49, Err(11)), (-1, Err(11)), (i64::MIN, Err(11))] {
        assert_eq!(changed(Setting::MaxCommission, ceiling).map_err(Refusal::number), told);
    }
    for (floor, told) in [(0, Ok((0, 80))), (80, Ok((80, 80))), (81, Err(11)), (i64::MAX, Err(11))] {
        assert_eq!(changed(Setting::MinCommission, floor).map_err(Refusal::number), told);
    }
}

/// "`compute_cost` answers the lesser of today's commission and the ceiling": case b's rate and floor, and each side of the ceiling.
#[test]
fn a_commission_is_the_lesser_of_the_two() {
    let cost = |ceiling, notional| port::tc_compute_cost_with_ceiling(10.0, 0.0, 100, ceiling, notional);
    assert_eq!([10_000, 499_499, 499_500, 1_000_000].map(|notional| cost(500, notional)), [100, 499, 500, 500]);
    assert_eq!([10_000, 1_000_000].map(|notional| cost(100, notional)), [100, 100], "a flat fee");
    assert_eq!([10_000, 1_000_000].map(|notional| cost(0, notional)), [100, 1_000], "none");
    assert_eq!([99, -7].map(|ceiling| cost(ceiling, 10_000)), [99, -7], "the lesser of a bad one too");
}

#[test]
fn a_buy_fits_whole_that_was_trimmed() {
    // Of 100,050 in all 100 shares at 1,000 are wanted. They need 100,000 + 100; 99 need 99,000 + 99, and 951 stays.
    let (account, records) = bought(100_050, TENTH, 1.0, 1_000);
    assert_eq!(held(&account), (99, 951, 1, 1_000));
    assert_eq!(records.iter().map(|r| (r.cost, r.cash_delta, r.cash_after)).collect::<Vec<_>>(), [(99, -99_099, 951)]);
    // Under a ceiling of 50 they need 100,000 + 50, which is all the cash.
    let (account, records) = bought(100_050, CostModel { max_commission: 50, ..TENTH }, 1.0, 1_000);
    assert_eq!(held(&account), (100, 0, 0, 0));
    assert_eq!(records.iter().map(|r| (r.cost, r.cash_delta, r.cash_after)).collect::<Vec<_>>(), [(50, -100_050, 0)]);
    // Under one of 51 they are a cent too dear, and 99 leave 100,050 - 99,000 - 51.
    let (account, _) = bought(100_050, CostModel { max_commission: 51, ..TENTH }, 1.0, 1_000);
    assert_eq!(held(&account), (99, 999, 1, 1_000));
}

/// "The trimmed fill is still the largest fitting step multiple".
#[test]
fn a_trim_takes_what_the_ceiling_leaves() {
    // 198 shares at 1,000 are wanted with 99,060. 99 need 99,000 + 99; 98 need 98,000 + 98, and 962 stays.
    let (account, _) = bought(99_060, TENTH, 2.0, 1_000);
    assert_eq!(held(&account), (98, 962, 1, 100_000));
    // Under a ceiling of 60 the 99 need all of it.
    let (account, _) = bought(99_060, CostModel { max_commission: 60, ..TENTH }, 2.0, 1_000);
    assert_eq!(held(&account), (99, 0, 1, 99_000));
}

/// "A sell whose cash afterwards would be below 0 is skipped": a share is bought, and 5 in cash stays beside it.
#[test]
fn a_sale_is_filled_that_was_skipped() {
    // At 20 the share costs 40 by the rate: 5 + 20 - 40 is below 0. A ceiling of 25 leaves 0, one of 26 is a cent too high.
    for (ceiling, cost, sold) in [(0, 40, false), (25, 25, true), (26, 26, false)] {
        let (mut account, _) = bought(5 + 20 + cost, CostModel { max_commission: ceiling, ..DOUBLE }, 0.5, 20);
        assert_eq!(held(&account), (1, 5, 0, 0));
        let mut records = [ExecutionRecord::EMPTY; 1];
        assert_eq!(account.close_position_at(fund(), 20, NOW, &mut records), Ok(usize::from(sold)));
        assert_eq!(held(&account), if sold { (0, 0, 0, 0) } else { (1, 5, 0, 0) });
        assert_eq!(
            (records[0].quantity, records[0].cost),
            if sold { (Shares(-1_000_000), cost) } else { (Shares(0), 0) }
        );
    }
}

/// Quantity, price and cash of orders that fill whole, are trimmed, saturate, or sell.
const ORDERS: [(i64, i64, i64); 5] =
    [(2_000_000, 1_000, 9_000), (100_000_000, 1_000, 100_050), (1, 1, 0), (i64::MAX, i64::MAX, i64::MAX), (-5, 7, 90)];

#[test]
fn a_leaf_without_a_ceiling_means_none() {
    for (quantity, price, cash) in ORDERS {
        assert_eq!(
            port::tc_buy_cash_required_with_ceiling(quantity, price, 10.0, 3.0, 50, 0),
            port::tc_buy_cash_required(quantity, price, 10.0, 3.0, 50)
        );
        assert_eq!(
            port::tc_largest_affordable_buy_qty_with_ceiling(quantity, cash, Shares::SCALE, price, 10.0, 3.0, 50, 0),
            port::tc_largest_affordable_buy_qty(quantity, cash, Shares::SCALE, price, 10.0, 3.0, 50)
        );
    }
}

#[test]
fn a_fill_without_a_ceiling_means_none() {
    let symbol = u64::from_be_bytes(fund().padded());
    for (quantity, price, cash) in ORDERS {
        let found = ([cash, 0, 0, 0, 0, 0], [0; 2], [7; 4], [7; 8]);
        let under = |ceiling: i64| {
            let (mut m, mut t, mut w, mut i) = found;
            let (step, money, tallies, words, ints) = (Shares::SCALE, &mut m, &mut t, &mut w, &mut i);
            let answer = port::tc_fill_with_ceiling(
                10.0, 3.0, 50, ceiling, step, 0, 0, symbol, quantity, price, money, tallies, words, ints,
            );
            (answer, (m, t, w, i))
        };
        let (mut m, mut t, mut w, mut i) = found;
        let (step, money, tallies, words, ints) = (Shares::SCALE, &mut m, &mut t, &mut w, &mut i);
        let answer = port::tc_fill(10.0, 3.0, 50, step, 0, 0, symbol, quantity, price, money, tallies, words, ints);
        assert_eq!(under(0), (answer, (m, t, w, i)));
        assert_eq!(under(49), (1, found), "below the floor, and all is as found");
    }
}
