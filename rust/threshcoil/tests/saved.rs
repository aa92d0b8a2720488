//! Document 02's request 5: files of accounts, docs/SAVED.md's tables held to the library, and every refusal.

use threshcoil::{
    Account, Context, CostModel, ExecutionKind, ExecutionRecord, Price, Refusal, Settings, Shares, Symbol, Target,
};
use threshcoil_sys as port;
use threshcoil_sys::layout::{self, Column, Counter, Series, Setting};

const PAGE: &str = include_str!("../../../docs/SAVED.md");
const CONTEXT: Context = Context { period_index: 0, kind: ExecutionKind::Rebalance };

/// The cells of the rows of a section's table, its head and the line below it left out.
fn rows(title: &str) -> Vec<Vec<&'static str>> {
    let from = PAGE.find(&format!("## {title}")).expect("a section of that title");
    let section = PAGE[from + 3..].split("\n## ").next().unwrap_or("");
    let table = section.lines().filter(|line| line.starts_with('|')).skip(2);
    table.map(|line| line.trim_matches('|').split(" | ").map(str::trim).collect()).collect()
}

/// The first bytes in hex of a cell; none where it has none.
fn bytes(cell: &str) -> Vec<u8> {
    let quoted = cell.split('`').nth(1).unwrap_or("");
    quoted.split_whitespace().map(|b| u8::from_str_radix(b, 16).expect("a byte")).collect()
}

fn symbol(text: &str) -> Symbol {
    Symbol::new(text).expect("a good symbol")
}

/// The run of docs/LAYOUT.md: document 01's case d, recorded.
fn case_d() -> Account {
    let costs = CostModel { commission_bps: 10.0, min_commission: 100, ..CostModel::default() };
    let settings = Settings { recording: true, ..Settings::new(costs) };
    let mut account = Account::open(100_000, &settings, &mut [0]).expect("good settings");
    let (targets, prices) =
        ([Target { symbol: symbol("AAPL"), weight: 1.0 }], [Price { symbol: symbol("AAPL"), price: 1_000 }]);
    let mut records = [ExecutionRecord::EMPTY; 64];
    assert_eq!(account.rebalance_simple(&targets, &prices, CONTEXT, &mut records), Ok(1));
    account
}

/// An account whose every number is as long as it can be, 64 positions of symbols of eight bytes among them.
fn fullest() -> Account {
    let costs = CostModel {
        commission_bps: f64::MAX,
        slippage_bps: 9_999.9,
        min_commission: i64::MAX,
        max_commission: i64::MAX,
    };
    let settings = Settings {
        quantity_step: i64::MAX,
        min_order_value: i64::MAX,
        max_order_value: i64::MAX,
        no_trade_band_bps: f64::MAX,
        max_trades_per_rebalance: Some(u64::MAX),
        max_rebalance_notional: i64::MAX,
        recording: true,
        cash_first: true,
        ..Settings::new(costs)
    };
    let mut account = *Account::open(i64::MAX, &settings, &mut [0]).expect("good settings").as_bytes();
    let mut put = |word: usize, value: [u8; 8]| account[layout::bytes_of(word, 1)].copy_from_slice(&value);
    for counter in [Counter::LastOrderCount, Counter::TrimmedCount, Counter::RecordCount] {
        put(layout::counter(counter), u64::MAX.to_le_bytes());
    }
    for counter in [Counter::LastNotional, Counter::TrimmedShortfall] {
        put(layout::counter(counter), i64::MIN.to_le_bytes());
    }
    for series in [Series::EquityCount, Series::ReturnCount] {
        put(layout::series(series), u64::MAX.to_le_bytes());
    }
    put(layout::POSITIONS, 64u64.to_le_bytes());
    for k in 0..64 {
        put(layout::column(Column::Symbol) + k, *format!("SYMBOL{k:02}").as_bytes().first_chunk().unwrap());
        for column in [Column::Quantity, Column::Average, Column::Realized, Column::TotalCost] {
            put(layout::column(column) + k, i64::MAX.to_le_bytes());
        }
    }
    Account::from_bytes(&account).expect("a sound account")
}

#[test]
fn case_d_is_as_the_page_has_it() {
    let page: Vec<u8> = rows("Order").iter().flat_map(|cells| bytes(cells[2])).collect();
    assert_eq!(case_d().saved()[..], page);
    assert_eq!(Account::load(&page), Ok(case_d()));
    assert!(PAGE.contains(&format!("recorded, {} bytes.", page.len())));
}

/// Each example of a number, read where the file has a number of its kind.
#[test]
fn numbers_are_as_the_page_has_them() {
    let file = |part: usize, with: &[u8]| {
        let parts: Vec<Vec<u8>> = rows("Order").iter().map(|cells| bytes(cells[2])).collect();
        let whole: Vec<u8> =
            parts.iter().enumerate().flat_map(|(k, own)| if k == part { with } else { own }).copied().collect();
        Account::load(&whole).expect("a good file")
    };
    let kinds = rows("Numbers");
    let examples = |kind: &str| {
        let row = kinds.iter().find(|cells| cells[0] == kind).expect("a kind");
        let each = row[2].split("`, ").map(|example| example.split_once(" `").expect("a number and its bytes"));
        each.map(|(number, hex)| (number.to_owned(), bytes(&format!("`{}`", hex.trim_end_matches('`')))))
            .collect::<Vec<(String, Vec<u8>)>>()
    };
    let number = |text: &str| match text.replace(',', "").as_str() {
        "2^64 - 1" => i128::from(u64::MAX),
        "-2^63" => i128::from(i64::MIN),
        plain => plain.parse().expect("a number"),
    };
    let mut tried = 0;
    for (text, groups) in examples("count") {
        assert_eq!(i128::from(file(14, &groups).last_rebalance_order_count()), number(&text));
        tried += 1;
    }
    for (text, groups) in examples("signed") {
        assert_eq!(i128::from(file(15, &groups).last_rebalance_notional()), number(&text));
        tried += 1;
    }
    for (text, groups) in examples("rate") {
        assert_eq!(file(8, &groups).settings().no_trade_band_bps, text.parse::<f64>().expect("a rate"));
        tried += 1;
    }
    for (text, groups) in examples("flag") {
        assert_eq!(file(13, &groups).settings().cash_first, text == "on");
        tried += 1;
    }
    for (text, groups) in examples("cap") {
        let cap = text.strip_prefix("a cap of ").map(|count| count.parse().expect("a count"));
        assert_eq!(file(10, &groups).settings().max_trades_per_rebalance, cap);
        tried += 1;
    }
    for (text, groups) in examples("symbol") {
        assert_eq!(file(23, &groups).positions().next().expect("a position").symbol, symbol(&text));
        tried += 1;
    }
    assert_eq!(tried, 17);
}

/// The number that a file is answered, and the byte that is told.
fn told(file: &[u8]) -> (u64, Option<usize>) {
    Account::load(file).map_or_else(|refusal| (refusal.number(), refusal.byte()), |_| (0, None))
}

/// Each refusal of the page by its shortest file: whatever is shorter ends early, at its end, or is good where a byte is left over.
#[test]
fn refusals_are_as_the_page_has_them() {
    let table = rows("What is refused");
    assert_eq!(table.len(), 14);
    for cells in table {
        let file = bytes(cells[3]);
        assert_eq!(told(&file), (cells[0].parse().expect("an answer"), cells[2].parse().ok()), "{}", cells[1]);
        let shorter: Vec<_> = (0..file.len()).map(|n| told(&file[..n])).collect();
        let mut expected: Vec<_> = (0..file.len()).map(|n| (16, Some(n))).collect();
        if cells[0] == "18" {
            *expected.last_mut().expect("a byte") = (0, None);
        }
        assert_eq!(shorter, expected, "{}", cells[1]);
    }
    let good = bytes(PAGE.split("the shortest good file: ").nth(1).expect("the shortest good file"));
    assert_eq!((told(&good), good.len()), ((0, None), 23));
}

/// A file that was written while form 1 was the newest, no field of it as at opening.
#[test]
fn the_stored_file_of_form_1_is_read() {
    let stored = include_bytes!("files/form-1");
    let account = Account::load(stored).expect("a good file");
    let costs = CostModel { commission_bps: 7.5, slippage_bps: 2.0, min_commission: 3, max_commission: 900 };
    let settings = Settings {
        cost_model: costs,
        quantity_step: 1_000,
        min_order_value: 150,
        max_order_value: 90_000,
        no_trade_band_bps: 20.0,
        max_trades_per_rebalance: Some(5),
        max_rebalance_notional: 4_000_000,
        recording: true,
        cash_first: true,
    };
    assert_eq!((account.cash(), account.settings()), (12_345, settings));
    assert_eq!((account.last_rebalance_order_count(), account.last_rebalance_notional()), (3, 777));
    assert_eq!((account.trimmed_fill_count(), account.trimmed_shortfall_cents()), (2, 33));
    assert_eq!((account.record_count(), account.equity_count(), account.return_count()), (41, 9, 8));
    assert_eq!(account.previous_equity(), 12_000);
    let held = [
        ("A", 5_000_000, 100, -7, 500),
        ("BB", -3_000_000, 90, 40, -270),
        ("CCC", 0, 0, -99, 0),
        ("LONGNAME", 1, 0, 0, 0),
    ];
    let told = account.positions().map(|p| (p.symbol, p.quantity.0, p.avg_entry_price, p.realized_pnl, p.total_cost));
    assert!(told.eq(held.map(|(name, q, average, realized, total)| (symbol(name), q, average, realized, total))));
    assert_eq!(account.saved()[..], stored[..]);
}

#[test]
fn the_longest_file_is_as_long_as_it_is_said_to_be() {
    let account = fullest();
    let file = account.saved();
    assert_eq!((file.len(), Account::FILE_SIZE), (3_328, 3_328));
    assert_eq!(Account::load(&file), Ok(account));
    assert!((0..file.len()).all(|n| Account::load(&file[..n]) == Err(Refusal::EndsEarly(n))));
    let header = include_str!("../../../include/threshcoil.h");
    assert!(header.contains("#define TC_FILE_BYTES 3328 "));
}

#[test]
fn nineteen_is_a_room_that_is_too_short() {
    for account in [case_d(), fullest()] {
        let file = account.saved();
        let mut room = vec![0x5a; file.len() + 9];
        assert_eq!(account.save(&mut room[..file.len() - 1]), Err(Refusal::NoFileRoom));
        assert_eq!(account.save(&mut []), Err(Refusal::NoFileRoom));
        assert!(room.iter().all(|byte| *byte == 0x5a), "as found");
        assert_eq!(account.save(&mut room[..file.len()]), Ok(file.len()));
        assert_eq!(room[..file.len()], file[..]);
        room[..file.len()].fill(0);
        assert_eq!(account.save(&mut room), Ok(file.len()));
        assert_eq!(room[..file.len()], file[..]);
        assert!(room[file.len()..].iter().all(|byte| *byte == 0x5a), "bytes past the file are as found");
    }
    // 11 comes first.
    let mut unsound = *case_d().as_bytes();
    unsound[layout::bytes_of(layout::CASH, 1)].copy_from_slice(&(-1i64).to_le_bytes());
    assert_eq!(port::tc_save(&unsound, &mut []), 11);
    assert_eq!(port::tc_save(&unsound[1..], &mut [0; 9_000]), 11);
}

#[test]
fn eleven_for_another_length_comes_before_the_file() {
    let file = case_d().saved();
    for length in [0, Account::SIZE - 1, Account::SIZE + 1] {
        let mut account = vec![0x5a; length];
        assert_eq!(port::tc_load(&file, &mut account), 11);
        assert_eq!(port::tc_load(&[], &mut account), 11);
        assert!(account.iter().all(|byte| *byte == 0x5a), "as found");
    }
    let mut account = [0x5a; Account::SIZE];
    for (file, answer) in [(&file[..9], 16 + 256 * 9), (&[1, 0x80, 0][..], 17 + 256), (&[0][..], 11)] {
        assert_eq!(port::tc_load(file, &mut account), answer);
        assert_eq!(account, [0x5a; Account::SIZE], "as found");
    }
    assert_eq!(port::tc_load(&file, &mut account), 0);
    assert_eq!(account, *case_d().as_bytes());
}

/// What two different files would otherwise share: a symbol that is padded within its length, and a number in a longer form.
#[test]
fn no_two_files_give_one_account() {
    let file = case_d().saved().to_vec();
    let at = file.windows(5).position(|five| five == b"\x04AAPL").expect("the symbol");
    let padded = [&file[..at], b"\x05AAPL\0", &file[at + 5..]].concat();
    assert_eq!(Account::load(&padded), Err(Refusal::Unsound));
    for k in 0..at {
        if file[k] < 0x80 {
            let longer = [&file[..k], &[file[k] | 0x80, 0], &file[k + 1..]].concat();
            let first = (0..k).rev().find(|before| file[*before] < 0x80).map_or(0, |before| before + 1);
            assert_eq!(Account::load(&longer), Err(Refusal::BadNumber(first)), "at {k}");
        }
    }
}

#[test]
fn a_negative_zero_is_written_with_positive_sign() {
    let settings = |zero: f64| {
        let costs = CostModel { commission_bps: zero, slippage_bps: zero, ..CostModel::default() };
        Settings { no_trade_band_bps: zero, ..Settings::new(costs) }
    };
    let [plus, minus] = [0.0, -0.0].map(|zero| Account::open(7, &settings(zero), &mut [0]).expect("good settings"));
    assert_ne!(plus, minus);
    assert_eq!(plus.saved(), minus.saved());
    assert_eq!(Account::load(&minus.saved()), Ok(plus));
}

/// Whether saving and loading before every call changes what any call gives.
#[test]
fn saving_and_loading_between_calls_changes_no_later_answer() {
    let costs = CostModel { commission_bps: 7.5, slippage_bps: 2.0, min_commission: 3, max_commission: 900 };
    let settings = Settings {
        quantity_step: Shares::SCALE / 1_000,
        max_trades_per_rebalance: Some(5),
        max_rebalance_notional: 4_000_000,
        recording: true,
        cash_first: true,
        ..Settings::new(costs)
    };
    let names: Vec<Symbol> = (0..12).map(|k| symbol(&format!("S{k}"))).collect();
    let played = |between: fn(Account) -> Account| {
        let (mut equity, mut returns) = ([0; 64], [0.0; 64]);
        let mut account = Account::open(9_000_000, &settings, &mut equity).expect("good settings");
        let mut told = Vec::new();
        for period in 0..30i64 {
            let price = |k: usize| 1_000 + 37 * k as i64 + (period * (k as i64 + 3) * 71) % 400;
            let prices: Vec<Price> =
                names.iter().enumerate().map(|(k, s)| Price { symbol: *s, price: price(k) }).collect();
            let weight = |k: usize| if (k as i64 + period) % 4 == 0 { -0.05 } else { 0.1 };
            let targets: Vec<Target> =
                names.iter().enumerate().map(|(k, s)| Target { symbol: *s, weight: weight(k) }).collect();
            let mut records = [ExecutionRecord::EMPTY; 64];
            account = between(account);
            let context = Context { period_index: period as u64, ..CONTEXT };
            let filled = account.rebalance_simple(&targets[period as usize % 3..], &prices, context, &mut records);
            account = between(account);
            account.record_return(&prices, &mut equity, &mut returns).expect("room");
            told.push((filled, records, account, account.saved()));
        }
        (told, equity, returns.map(f64::to_bits))
    };
    assert!(played(|account| account) == played(|account| Account::load(&account.saved()).expect("its own file")));
}

/// Whatever bytes stand where, an answer comes, and only a file of its own account is taken.
#[test]
fn every_bit_flipped() {
    let good = case_d().saved().to_vec();
    for k in 0..8 * good.len() {
        let mut file = good.clone();
        file[k / 8] ^= 1 << (k % 8);
        match Account::load(&file) {
            Ok(account) => assert_eq!(account.saved()[..], file, "bit {k}"),
            Err(refusal) => assert!([11, 16, 17, 18].contains(&refusal.number()), "bit {k}: {refusal}"),
        }
    }
}

#[test]
fn settings_are_all_in_the_file() {
    let account = fullest();
    let loaded = Account::load(&account.saved()).expect("its own file");
    assert_eq!(loaded.settings(), account.settings());
    let places = [Setting::Recording, Setting::CashFirst].map(layout::setting);
    assert!(places.iter().all(|place| loaded.as_bytes()[8 * place] == 1));
}
