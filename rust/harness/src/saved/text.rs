//! Accounts and files with what the port gave for them, as lines of text for the model (tools/model/saved.py).

use super::{damage, draw, reference, room};
use scenario::{Costs, Held, Random, Settings, Symbol, View, text};
use std::io::Write;
use threshcoil_sys as port;
use threshcoil_sys::layout::{self, ACCOUNT_SIZE, Column, Counter, FILE_SIZE, Series, Setting};

/// What a refusal that left a place otherwise than as found gives, and nothing else.
const TOUCHED: u64 = 255;
const FOUND: u8 = 0x5a;

/// Writes `count` calls with the port's answers: saves of sound and of spoiled accounts, loads of good and of damaged files.
pub fn emit(seed: u64, count: u64, out: &mut dyn Write) -> bool {
    let mut random = Random::new(seed);
    (0..count).all(|_| {
        let account = draw::account(&mut random);
        let good = reference::save(&account).expect("a sound account");
        let line = match random.below(8) {
            0 => saved(&spoiled(&mut random, &account), FILE_SIZE),
            1 | 2 => saved(&account, room(&mut random, good.len())),
            3 => loaded(&good),
            _ => loaded(&damage::file(&mut random, &good)),
        };
        out.write_all(line.as_bytes()).is_ok()
    })
}

/// A word of a sound account that may make it unsound, among those that the text can say.
fn spoiled(random: &mut Random, account: &[u8]) -> Vec<u8> {
    let mut account = account.to_vec();
    const WORDS: [usize; 8] = [
        layout::CASH,
        layout::setting(Setting::MinCommission),
        layout::setting(Setting::QuantityStep),
        layout::setting(Setting::CommissionBps),
        layout::setting(Setting::SlippageBps),
        layout::setting(Setting::MaxCommission),
        layout::column(Column::Average),
        layout::column(Column::TotalCost),
    ];
    // Without a position the text has no place for the last two.
    let held = account[layout::bytes_of(layout::POSITIONS, 1)] != [0; 8];
    let word = random.pick(if held { &WORDS } else { &WORDS[..6] });
    let spoilt = random.pick(&[0, 1, u64::MAX, 1 << 63, 0x7ff8 << 48, 0x7ff0 << 48]);
    account[layout::bytes_of(word, 1)].copy_from_slice(&spoilt.to_le_bytes());
    account
}

fn saved(account: &[u8], room: usize) -> String {
    let mut file = vec![FOUND; room];
    let answer = port::tc_save(account, &mut file);
    let lines = text::account(&view(account));
    let lines: Vec<&str> = lines.lines().map(|line| line.trim_start_matches("< ")).collect();
    let length = if answer % 256 == 0 { (answer / 256) as usize } else { 0 };
    let kept = file[length..].iter().all(|byte| *byte == FOUND);
    let told = match (answer % 256, kept) {
        (0, true) => format!("< answer 0\n< file {}\n", hex(&file[..length])),
        (_, true) => format!("< answer {answer}\n"),
        (_, false) => format!("< answer {TOUCHED}\n"),
    };
    format!("> save {room}|{}\n{told}", lines.join("|"))
}

fn loaded(file: &[u8]) -> String {
    let mut account = vec![FOUND; ACCOUNT_SIZE];
    let answer = port::tc_load(file, &mut account);
    let told = match answer {
        0 => format!("< answer 0\n{}", text::account(&view(&account))),
        _ if account == [FOUND; ACCOUNT_SIZE] => format!("< answer {answer}\n"),
        _ => format!("< answer {TOUCHED}\n"),
    };
    format!("> load {}\n{told}", hex(file))
}

fn hex(bytes: &[u8]) -> String {
    bytes.iter().map(|byte| format!("{byte:02x}")).collect()
}

/// An account's bytes word by word, so that an unsound one is told too.
fn view(account: &[u8]) -> View {
    let word = |place: usize| u64::from_le_bytes(account[layout::bytes_of(place, 1)].try_into().unwrap());
    let (setting, signed) = (|s: Setting| word(layout::setting(s)), |s: Setting| word(layout::setting(s)) as i64);
    let rate = |s: Setting| f64::from_bits(setting(s));
    let counter = |c: Counter| word(layout::counter(c));
    let series = |s: Series| word(layout::series(s));
    let figure = |column: Column, k: usize| word(layout::column(column) + k) as i64;
    let held = |k: usize| Held {
        symbol: Symbol(word(layout::column(Column::Symbol) + k).to_le_bytes()),
        quantity: figure(Column::Quantity, k),
        avg_entry_price: figure(Column::Average, k),
        realized_pnl: figure(Column::Realized, k),
        total_cost: figure(Column::TotalCost, k),
    };
    View {
        cash: word(layout::CASH) as i64,
        settings: Settings {
            costs: Costs {
                commission_bps: rate(Setting::CommissionBps),
                slippage_bps: rate(Setting::SlippageBps),
                min_commission: signed(Setting::MinCommission),
                max_commission: signed(Setting::MaxCommission),
            },
            quantity_step: signed(Setting::QuantityStep),
            min_order_value: signed(Setting::MinOrderValue),
            max_order_value: signed(Setting::MaxOrderValue),
            no_trade_band_bps: rate(Setting::NoTradeBandBps),
            max_trades: (setting(Setting::CapMark) == 1).then(|| setting(Setting::CapCount)),
            max_rebalance_notional: signed(Setting::MaxRebalanceNotional),
            recording: setting(Setting::Recording) == 1,
            cash_first: setting(Setting::CashFirst) == 1,
        },
        last_order_count: counter(Counter::LastOrderCount),
        last_notional: counter(Counter::LastNotional) as i64,
        trimmed_count: counter(Counter::TrimmedCount),
        trimmed_shortfall: counter(Counter::TrimmedShortfall) as i64,
        record_count: counter(Counter::RecordCount),
        equity_count: series(Series::EquityCount),
        return_count: series(Series::ReturnCount),
        previous_equity: series(Series::PreviousEquity) as i64,
        positions: (0..word(layout::POSITIONS) as usize).map(held).collect(),
    }
}
