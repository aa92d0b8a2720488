//! Cash-first mode: document 01's case l and document 02's case of request 1 with its like, asked of the C interface and of the safe crate.

use threshcoil::{
    Account, Context, CostModel, ExecutionKind, ExecutionRecord, Price, Settings, Shares, Symbol, Target,
};
use threshcoil_sys as port;
use threshcoil_sys::layout::{self, Column};

const FREE: CostModel = CostModel { commission_bps: 0.0, slippage_bps: 0.0, min_commission: 0, max_commission: 0 };
const FIFTEEN: CostModel = CostModel { min_commission: 15, ..FREE };
const NOW: Context = Context { period_index: 0, kind: ExecutionKind::Rebalance };

fn padded(letter: u8) -> [u8; 8] {
    [letter, 0, 0, 0, 0, 0, 0, 0]
}

fn symbol(letter: u8) -> Symbol {
    Symbol::from_padded(padded(letter))
}

fn put(bytes: &mut [u8], word: usize, value: [u8; 8]) {
    bytes[layout::bytes_of(word, 1)].copy_from_slice(&value);
}

/// An account that records in cash-first mode, and holds a share of each symbol, bought at its price.
fn holding(cash: i64, settings: Settings, held: &[(u8, i64)]) -> Account {
    let settings = Settings { recording: true, cash_first: true, ..settings };
    let mut bytes = *Account::open(cash, &settings, &mut [0]).expect("good settings").as_bytes();
    put(&mut bytes, layout::POSITIONS, (held.len() as u64).to_le_bytes());
    for (k, (letter, price)) in held.iter().enumerate() {
        put(&mut bytes, layout::column(Column::Symbol) + k, padded(*letter));
        put(&mut bytes, layout::column(Column::Quantity) + k, Shares::SCALE.to_le_bytes());
        put(&mut bytes, layout::column(Column::Average) + k, price.to_le_bytes());
        put(&mut bytes, layout::column(Column::TotalCost) + k, price.to_le_bytes());
    }
    Account::from_bytes(&bytes).expect("a sound account")
}

/// The symbols in the order filled, each with the cash after it. The C interface and the safe crate must answer alike.
fn rebalanced(account: Account, targets: &[(u8, f64)], prices: &[(u8, i64)]) -> Vec<(char, i64)> {
    let target_bytes: Vec<u8> = targets.iter().flat_map(|(s, w)| [padded(*s), w.to_le_bytes()].concat()).collect();
    let price_bytes: Vec<u8> = prices.iter().flat_map(|(s, p)| [padded(*s), p.to_le_bytes()].concat()).collect();
    let (mut bytes, mut record_bytes) = (*account.as_bytes(), [0; layout::PLACES * layout::RECORD_SIZE]);
    let answer = port::tc_rebalance_simple(&mut bytes, &target_bytes, &price_bytes, 0, 0, &mut record_bytes);
    assert_eq!(answer % 256, 0, "done");
    let word = |record: &[u8], k: usize| <[u8; 8]>::try_from(&record[layout::bytes_of(k, 1)]).expect("eight bytes");
    let records = record_bytes.chunks_exact(layout::RECORD_SIZE).take((answer / 256) as usize);
    let by_c: Vec<_> = records.map(|r| (Symbol::from_padded(word(r, 3)), i64::from_le_bytes(word(r, 11)))).collect();

    let (mut after, mut records) = (account, [ExecutionRecord::EMPTY; 64]);
    let targets: Vec<Target> =
        targets.iter().map(|(s, weight)| Target { symbol: symbol(*s), weight: *weight }).collect();
    let prices: Vec<Price> = prices.iter().map(|(s, price)| Price { symbol: symbol(*s), price: *price }).collect();
    let filled = after.rebalance_simple(&targets, &prices, NOW, &mut records).expect("done");
    let by_crate: Vec<_> = records[..filled].iter().map(|r| (r.symbol, r.cash_after)).collect();
    assert_eq!((by_c, &bytes), (by_crate.clone(), after.as_bytes()));
    by_crate.into_iter().map(|(symbol, cash)| (symbol.padded()[0] as char, cash)).collect()
}

/// "l. No costs, cash 50, buy worth 100, sale worth 80: sale first fills both, cash 30."
#[test]
fn l_a_sale_pays_for_a_buy() {
    let mut account = holding(50, Settings::new(FREE), &[(b'B', 80)]);
    // Of 130 in all, 100 and a half for A.
    let (targets, prices) = ([(b'A', 100.5 / 130.0)], [(b'A', 100), (b'B', 80)]);
    assert_eq!(rebalanced(account, &targets, &prices), [('B', 130), ('A', 30)]);
    // Document 01 has the close first in plain order too; with B a target behind A the buy runs short.
    let targets = [(b'A', 100.5 / 130.0), (b'B', 0.0)];
    assert_eq!(rebalanced(account, &targets, &prices), [('B', 130), ('A', 30)]);
    account.set_cash_first(false).expect("done");
    assert_eq!(rebalanced(account, &targets, &prices), [('B', 130)]);
}

/// "cash 0, floor 15, no other cost; A sold for 10, B sold for 25 .. fills B, then A, and ends at 5"
#[test]
fn a_sale_below_the_floor_waits_for_the_one_that_pays_for_it() {
    let mut account = holding(0, Settings::new(FIFTEEN), &[(b'A', 10), (b'B', 25)]);
    assert_eq!(rebalanced(account, &[], &[(b'A', 10), (b'B', 25)]), [('B', 10), ('A', 5)]);
    // By symbol it is skipped.
    account.set_cash_first(false).expect("done");
    assert_eq!(rebalanced(account, &[], &[(b'A', 10), (b'B', 25)]), [('B', 10)]);
}

/// 200 % and a ceiling of 15 charge 15 of each, as that floor does: the cash change that parts the orders has the ceiling in it.
/// Without one A costs 20 and B 50, and cash 0 skips both.
#[test]
fn the_ceiling_parts_the_orders_too() {
    let double = CostModel { commission_bps: 20_000.0, ..FREE };
    let ceiling = CostModel { max_commission: 15, ..double };
    let filled = |costs| {
        let account = holding(0, Settings::new(costs), &[(b'A', 10), (b'B', 25)]);
        rebalanced(account, &[], &[(b'A', 10), (b'B', 25)])
    };
    assert_eq!(filled(ceiling), [('B', 10), ('A', 5)]);
    assert_eq!(filled(double), []);
}

/// "those that lower no cash first": a sale for just its commission is one of them.
#[test]
fn a_sale_for_its_commission_is_in_the_first_group() {
    let account = holding(0, Settings::new(FIFTEEN), &[(b'A', 10), (b'B', 15), (b'C', 25)]);
    let prices = [(b'A', 10), (b'B', 15), (b'C', 25)];
    assert_eq!(rebalanced(account, &[], &prices), [('B', 0), ('C', 10), ('A', 5)]);
}

/// At a price of 7 a gap of 1 becomes 142,857 micro-shares, which are worth 0 and cost nothing: such a buy is in the first group, ahead
/// of a sale and behind it by its symbol alone.
#[test]
fn a_buy_worth_nothing_is_in_the_first_group() {
    let account = holding(20, Settings { quantity_step: 1, ..Settings::new(FREE) }, &[(b'B', 80)]);
    let targets = [(b'D', 0.01), (b'C', 0.3), (b'A', 0.01)];
    let prices = [(b'A', 7), (b'B', 80), (b'C', 30), (b'D', 7)];
    assert_eq!(rebalanced(account, &targets, &prices), [('A', 20), ('B', 100), ('D', 100), ('C', 70)]);
}

/// A floor makes that buy lower cash, so it waits for a sale that does not.
#[test]
fn a_buy_worth_nothing_under_a_floor_is_in_the_second() {
    let account = holding(85, Settings { quantity_step: 1, ..Settings::new(FIFTEEN) }, &[(b'B', 15)]);
    assert_eq!(rebalanced(account, &[(b'A', 0.01)], &[(b'A', 7), (b'B', 15)]), [('B', 85), ('A', 70)]);
}
