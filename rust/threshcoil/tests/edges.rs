//! The edges that document 01 names beside its cases a to l, and each answer number for its first and its last reason.

use threshcoil::{
    Account, Context, CostModel, Entry, ExecutionKind, ExecutionRecord, Price, Refusal, Settings, Shares, Symbol,
    Target, figures,
};
use threshcoil_sys as port;
use threshcoil_sys::layout::{self, Column, Counter, Kind, Setting};

const FREE: CostModel = CostModel { commission_bps: 0.0, slippage_bps: 0.0, min_commission: 0, max_commission: 0 };
const NOW: Context = Context { period_index: 0, kind: ExecutionKind::Rebalance };
const EMPTY: ExecutionRecord = ExecutionRecord::EMPTY;

fn opened(cash: i64, change: impl FnOnce(&mut Settings)) -> Account {
    let mut settings = Settings::new(FREE);
    change(&mut settings);
    Account::open(cash, &settings, &mut [0]).expect("good settings")
}

fn symbol(text: &str) -> Symbol {
    Symbol::new(text).expect("a good symbol")
}

/// The k-th of many symbols.
fn nth(k: usize) -> Symbol {
    symbol(&format!("S{k:03}"))
}

fn targets(count: usize, weight: f64) -> Vec<Target> {
    (0..count).map(|k| Target { symbol: nth(k), weight }).collect()
}

fn prices(count: usize, price: i64) -> Vec<Price> {
    (0..count).map(|k| Price { symbol: nth(k), price }).collect()
}

/// A word of an account or of settings.
fn put(bytes: &mut [u8], word: usize, value: u64) {
    bytes[layout::bytes_of(word, 1)].copy_from_slice(&value.to_le_bytes());
}

/// A rebalance that must be refused, and must leave the account and every record place as found.
fn refused(account: &Account, targets: &[Target], prices: &[Price], places: usize) -> u64 {
    let mark = ExecutionRecord { sequence: 7, cash_after: -7, ..EMPTY };
    let (mut after, mut records) = (*account, vec![mark; places]);
    let refusal = after.rebalance_simple(targets, prices, NOW, &mut records).expect_err("a refusal");
    assert!(after == *account && records.iter().all(|r| *r == mark), "a refusal changes nothing");
    refusal.number()
}

fn rebalanced(account: &mut Account, targets: &[Target], prices: &[Price]) -> Vec<ExecutionRecord> {
    let mut records = [EMPTY; 64];
    let filled = account.rebalance_simple(targets, prices, NOW, &mut records).expect("done");
    records[..filled].to_vec()
}

#[test]
fn sixty_four_symbols_are_held_and_no_more() {
    let mut account = opened(64_000_000, |s| s.recording = true);
    let fills = rebalanced(&mut account, &targets(64, 0.01), &prices(64, 1_000));
    assert_eq!((fills.len(), account.positions().count()), (64, 64));
    assert_eq!(refused(&account, &targets(65, 0.01), &prices(65, 1_000), 64), 6, "65 targets are over the bound");
    let one_more = [Target { symbol: nth(64), weight: 0.01 }];
    assert_eq!(refused(&account, &one_more, &prices(65, 1_000), 64), 7, "65 symbols, held and targeted");
    // All 64 are sold; they are flat now, and still count.
    assert_eq!(rebalanced(&mut account, &[], &prices(64, 1_000)).len(), 64);
    assert_eq!(refused(&account, &one_more, &prices(65, 1_000), 64), 7, "flat ones too");
}

#[test]
fn sixty_three_record_places_are_too_few_and_sixty_four_are_enough() {
    let mut account = opened(1_000_000, |s| s.recording = true);
    let (one, at) = (targets(1, 0.5), prices(1, 1_000));
    assert_eq!(refused(&account, &one, &at, 63), 8);
    assert_eq!(account.rebalance_simple(&one, &at, NOW, &mut [EMPTY; 64]), Ok(1));
    assert_eq!(account.close_position_at(nth(0), 1_000, NOW, &mut []), Err(Refusal::NoRecordRoom));
    assert_eq!(account.close_position_at(nth(0), 1_000, NOW, &mut [EMPTY; 1]), Ok(1), "for closing, one place");
    account.set_recording(false).expect("done");
    assert_eq!(account.rebalance_simple(&one, &at, NOW, &mut []), Ok(0), "not recording, none is asked for");
}

/// "-2^63 micro-shares covered (one micro-share short remains)": the cover is 2^63 - 1, since negation saturates.
#[test]
fn the_greatest_short_is_covered_but_for_one_micro_share() {
    let mut account = opened(i64::MAX, |s| {
        s.quantity_step = 1;
        s.recording = true;
    });
    let mut bytes = *account.as_bytes();
    put(&mut bytes, layout::POSITIONS, 1);
    put(&mut bytes, layout::column(Column::Symbol), u64::from_le_bytes(symbol("S").padded()));
    put(&mut bytes, layout::column(Column::Quantity), i64::MIN as u64);
    account = Account::from_bytes(&bytes).expect("a short of 2^63 micro-shares at average 0 is sound");
    let mut records = [EMPTY; 1];
    assert_eq!(account.close_position_at(symbol("S"), 1, NOW, &mut records), Ok(1));
    assert_eq!(records[0].quantity, Shares(i64::MAX));
    assert_eq!(account.position(symbol("S")).expect("done").map(|p| p.quantity), Some(Shares(-1)));
}

#[test]
fn an_empty_list_of_targets_closes_what_is_priced() {
    let mut account = opened(1_000_000, |s| s.recording = true);
    rebalanced(&mut account, &targets(3, 0.2), &prices(3, 1_000));
    let fills = rebalanced(&mut account, &[], &prices(2, 1_000));
    assert_eq!(fills.iter().map(|r| r.symbol).collect::<Vec<_>>(), [nth(0), nth(1)], "in symbol order");
    assert!(account.position(nth(2)).expect("done").is_some_and(|p| p.quantity.0 > 0), "the unpriced one stays");
}

#[test]
fn at_equity_zero_and_below_nothing_is_ordered() {
    let mut account = opened(1_000_000, |s| s.recording = true);
    rebalanced(&mut account, &[Target { symbol: nth(0), weight: -0.5 }], &prices(1, 1_000));
    assert_eq!(account.last_rebalance_order_count(), 1);
    // The short of 500 shares now costs all there is, then more than that.
    for (price, equity) in [(3_000, 0), (3_001, -500)] {
        let mut poor = account;
        assert_eq!(poor.total_equity(&prices(1, price)), Ok(equity));
        assert_eq!(rebalanced(&mut poor, &targets(1, 1.0), &prices(1, price)), []);
        assert_eq!((poor.last_rebalance_order_count(), poor.last_rebalance_notional()), (0, 0));
        assert_eq!(poor.positions().collect::<Vec<_>>(), account.positions().collect::<Vec<_>>());
        let weights = poor.current_weights(&prices(1, price)).expect("done").len();
        assert_eq!(weights, usize::from(equity != 0), "none at equity 0");
    }
}

// ---- each answer number, for its first and its last reason

#[test]
fn one_is_a_bad_setting() {
    let settings = Settings::new(FREE);
    assert_eq!(Account::open(-1, &settings, &mut [0]), Err(Refusal::BadSetting));
    for bad in [f64::NAN, f64::INFINITY, -0.5] {
        let costs = CostModel { commission_bps: bad, ..FREE };
        assert_eq!(Account::open(1, &Settings::new(costs), &mut [0]), Err(Refusal::BadSetting));
    }
    for costs in [
        CostModel { slippage_bps: 10_000.1, ..FREE },
        CostModel { min_commission: 100, max_commission: 99, ..FREE },
        CostModel { max_commission: -1, ..FREE },
    ] {
        assert_eq!(Account::open(1, &Settings::new(costs), &mut [0]), Err(Refusal::BadSetting));
    }
    let mut account = opened(1, |_| ());
    assert_eq!(account.set_quantity_step(0), Err(Refusal::BadSetting));
    assert_eq!(account.set_max_rebalance_notional(-1), Err(Refusal::BadSetting));
    let mut bytes = *account.as_bytes();
    assert_eq!(port::tc_set_cash_first(&mut bytes, 2), 1, "a flag out of range");
    assert_eq!(port::tc_rebalance_simple(&mut bytes, &[], &[], 0, 2, &mut []), 1, "an unknown kind");
    assert_eq!(bytes, *account.as_bytes());
}

#[test]
fn two_is_a_bad_symbol() {
    let account = opened(1_000, |_| ());
    let bad = |bytes: &[u8; 8]| Symbol::from_padded(*bytes);
    for bytes in [
        b"\0\0\0\0\0\0\0\0",
        b" A\0\0\0\0\0\0",
        b"A\x7f\0\0\0\0\0\0",
        b"A\0B\0\0\0\0\0",
        b"\xff\xff\xff\xff\xff\xff\xff\xff",
    ] {
        assert_eq!(refused(&account, &[Target { symbol: bad(bytes), weight: 0.1 }], &[], 64), 2);
        let mut last = prices(128, 5);
        last[127].symbol = bad(bytes);
        assert_eq!(refused(&account, &targets(64, 0.0), &last, 64), 2);
    }
    let spaced = bad(b"a b\0\0\0\0\0");
    let only = Entry::Only { symbol: spaced.into() };
    assert_eq!(account.position(spaced), Err(Refusal::BadSymbol(only)));
}

#[test]
fn three_is_a_symbol_that_stands_twice() {
    let account = opened(1_000, |_| ());
    let twice = [targets(1, 0.1), targets(1, 0.1)].concat();
    assert_eq!(refused(&account, &twice, &[], 64), 3);
    let mut last = prices(128, 5);
    last[127].symbol = nth(0);
    assert_eq!(refused(&account, &targets(64, 0.0), &last, 64), 3);
}

#[test]
fn four_is_a_price_below_one() {
    let account = opened(1_000, |_| ());
    assert_eq!(refused(&account, &[], &prices(1, 0), 64), 4);
    let mut last = prices(128, 1);
    last[127].price = i64::MIN;
    assert_eq!(refused(&account, &[], &last, 64), 4);
    let mut held = opened(1_000, |_| ());
    let only = Entry::Only { symbol: nth(0).into() };
    assert_eq!(held.close_position_at(nth(0), 0, NOW, &mut [EMPTY; 1]), Err(Refusal::BadPrice(only)));
}

#[test]
fn five_is_a_weight_that_is_not_finite() {
    let account = opened(1_000, |_| ());
    assert_eq!(refused(&account, &targets(1, f64::NAN), &[], 64), 5);
    let mut last = targets(64, 0.0);
    last[63].weight = f64::NEG_INFINITY;
    assert_eq!(refused(&account, &last, &prices(1, 0), 64), 5, "before a price below 1");
}

#[test]
fn six_is_a_list_over_its_bound() {
    let account = opened(1_000, |_| ());
    assert_eq!(refused(&account, &targets(65, 0.0), &[], 64), 6);
    assert_eq!(refused(&account, &[], &prices(129, 1), 64), 6);
    assert_eq!(figures(&[0.0; 4_097]), Err(Refusal::TooLong));
    assert!(figures(&[0.0; 4_096]).is_ok());
    let mut bytes = *account.as_bytes();
    assert_eq!(port::tc_rebalance_simple(&mut bytes, &[0; 15], &[], 0, 0, &mut []), 6, "no whole number of entries");
    assert_eq!(port::tc_cash(&bytes, &mut [0; 9]), 6, "a place of another length");
}

#[test]
fn seven_counts_each_symbol_once() {
    let mut account = opened(64_000_000, |_| ());
    rebalanced(&mut account, &targets(63, 0.01), &prices(63, 1_000));
    assert_eq!(
        rebalanced(&mut account, &targets(64, 0.01), &prices(64, 1_000)),
        [],
        "63 held and the same with one more"
    );
    let mut account = opened(64_000_000, |_| ());
    rebalanced(&mut account, &targets(1, 0.01), &prices(1, 1_000));
    let others: Vec<Target> = (1..65).map(|k| Target { symbol: nth(k), weight: 0.0 }).collect();
    assert_eq!(refused(&account, &others, &[], 64), 7, "unpriced targets too");
}

#[test]
fn nine_is_a_close_of_what_is_absent_or_flat() {
    let mut account = opened(1_000_000, |_| ());
    assert_eq!(account.close_position_at(nth(0), 10, NOW, &mut []), Err(Refusal::NotHeld));
    rebalanced(&mut account, &targets(1, 0.5), &prices(1, 1_000));
    rebalanced(&mut account, &[], &prices(1, 1_000));
    assert!(account.position(nth(0)).expect("done").is_some(), "a flat position stays");
    assert_eq!(account.close_position_at(nth(0), 10, NOW, &mut []), Err(Refusal::NotHeld));
}

#[test]
fn ten_is_a_buffer_without_a_free_place() {
    assert_eq!(Account::open(1, &Settings::new(FREE), &mut []), Err(Refusal::BufferFull));
    let mut account = opened(1_000, |_| ());
    let (mut equity, mut returns) = ([1_000, -1], [-1.0]);
    assert_eq!(account.record_return(&[], &mut equity[..1], &mut returns), Err(Refusal::BufferFull));
    assert_eq!(account.record_return(&[], &mut equity, &mut []), Err(Refusal::BufferFull));
    assert_eq!((equity, returns), ([1_000, -1], [-1.0]));
    assert_eq!(account.record_return(&[], &mut equity, &mut returns), Ok(()));
    // At opening cash 0 no return is due, and the full return buffer is refused all the same.
    let mut account = opened(0, |_| ());
    assert_eq!(account.record_return(&[], &mut [0; 2], &mut []), Err(Refusal::BufferFull));
}

#[test]
fn eleven_is_an_account_that_is_not_sound() {
    let account = opened(1_000, |_| ());
    assert_eq!(Account::from_bytes(&account.as_bytes()[1..]), Err(Refusal::Unsound));
    let spoiled = |word: usize, value: u64| {
        let mut bytes = *account.as_bytes();
        put(&mut bytes, word, value);
        Account::from_bytes(&bytes)
    };
    let nan = f64::NAN.to_bits();
    let [symbols, totals] = [Column::Symbol, Column::TotalCost].map(layout::column);
    // Cash below 0, a rate that is none, marks and flags above 1, a cap without its mark, a ceiling below the floor, a count
    // without its position, an unused place that is not zero.
    for (word, value) in [
        (layout::CASH, 1 << 63),
        (layout::setting(Setting::CommissionBps), nan),
        (layout::setting(Setting::NoTradeBandBps), nan),
        (layout::setting(Setting::CapMark), 2),
        (layout::setting(Setting::CapCount), 1),
        (layout::setting(Setting::Recording), 2),
        (layout::setting(Setting::CashFirst), 1 << 8),
        (layout::setting(Setting::MaxCommission), u64::MAX),
        (layout::POSITIONS, 1),
        (layout::POSITIONS, 65),
        (symbols + 63, 1),
        (totals + 63, 1),
    ] {
        assert_eq!(spoiled(word, value), Err(Refusal::Unsound), "word {word}");
    }
    // Nothing is asked of a counter.
    assert!(spoiled(layout::counter(Counter::LastNotional), 1 << 63).is_ok());
    // It comes before all others, in an opening too.
    let mut short = [7; Account::SIZE - 1];
    assert_eq!(port::tc_open(-1, &[], &mut short, &mut []), 11);
    let mut bytes = [0xff; Account::SIZE];
    assert_eq!(port::tc_rebalance_simple(&mut bytes, &[0; 15], &[0; 15], 0, 9, &mut []), 11);
    assert_eq!(bytes, [0xff; Account::SIZE]);
}

/// A word that must be 0: 1 in settings, 11 in an account.
#[test]
fn reserved_words_are_refused() {
    let account = opened(1_000, |_| ());
    let settings = account.as_bytes()[layout::bytes_of(layout::SETTINGS_FROM, layout::SETTINGS.len())].to_vec();
    let rows = layout::SETTINGS.iter().chain(layout::COUNTERS).enumerate();
    for (k, row) in rows.filter(|(_, row)| row.kind == Kind::Reserved) {
        for value in [1, 2, 1 << 63, u64::MAX] {
            let mut bytes = *account.as_bytes();
            put(&mut bytes, layout::SETTINGS_FROM + k, value);
            assert_eq!(Account::from_bytes(&bytes), Err(Refusal::Unsound), "{}", row.name);
            if k < layout::SETTINGS.len() {
                let (mut settings, mut place, mut equity) = (settings.clone(), [7; Account::SIZE], [7]);
                put(&mut settings, k, value);
                assert_eq!(port::tc_open(1_000, &settings, &mut place, &mut equity), 1, "{}", row.name);
                assert!(place == [7; Account::SIZE] && equity == [7], "as found");
            }
        }
    }
}

#[test]
fn twelve_is_a_series_that_is_empty_or_not_finite() {
    assert_eq!(figures(&[]), Err(Refusal::BadSeries));
    let mut last = [0.0; 4_096];
    last[4_095] = f64::NAN;
    assert_eq!(figures(&last), Err(Refusal::BadSeries));
}
