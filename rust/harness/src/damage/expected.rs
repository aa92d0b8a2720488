//! The answer that document 01's table gives, with the place of document 02's request 9, read from the bytes as they are lent: nothing here
//! calls the port.

use super::{Entry, Entry::*, Given};
use crate::place::{Answer, DONE, Pair, Place, earliest, twice};
use threshcoil_sys::layout::{self, Column, Kind, Setting, Word};

/// The first that holds of 11, 1, 6, 2, 3, 5, 4, 8, 7, 9, 10, 12.
pub fn expected(entry: Entry, g: &Given) -> Answer {
    match entry {
        Open => first(&[
            plain(11, g.account.len() != layout::ACCOUNT_SIZE),
            plain(1, g.settings.len() != layout::SETTINGS_SIZE || g.number < 0 || !good_settings(&words(&g.settings))),
            plain(10, g.equities.is_empty()),
        ]),
        Figures => first(&[
            plain(6, g.rates.len() != 6 || g.counts.len() != 3 || g.returns.len() > 4_096),
            plain(12, g.returns.is_empty() || g.returns.iter().any(|x| !x.is_finite())),
        ]),
        _ => Book::of(&g.account).map_or(Answer::plain(11), |book| of_account(entry, g, &book)),
    }
}

/// Whether bytes are a sound account.
pub fn sound(account: &[u8]) -> bool {
    Book::of(account).is_some()
}

/// What a check finds; None where it does not hold.
type Found = Option<Answer>;

fn first(checks: &[Found]) -> Answer {
    checks.iter().find_map(|found| *found).unwrap_or(DONE)
}

fn plain(number: u64, holds: bool) -> Found {
    holds.then_some(Answer::plain(number))
}

fn alone(number: u64, holds: bool) -> Found {
    holds.then_some(Answer::alone(number))
}

fn at(number: u64, place: Option<Place>) -> Found {
    place.map(|place| Answer::at(number, place))
}

fn of_account(entry: Entry, g: &Given, book: &Book) -> Answer {
    let priced = |lengths: bool| {
        let list = pairs(&g.prices);
        [
            plain(6, !whole(&g.prices, 128) || lengths),
            at(2, bad_symbol(&list).map(Place::Price)),
            at(3, twice(&list).map(Place::Price)),
            at(4, bad_price(&list).map(Place::Price)),
        ]
    };
    let set = |setting: Setting, words: &[u64]| {
        let rows = &layout::SETTINGS[setting as usize..][..words.len()];
        first(&[plain(1, !are_good(words, rows))])
    };
    let another = g.out.len() != entry.out_size();
    match entry {
        QuantityStep => set(Setting::QuantityStep, &[g.number as u64]),
        MinOrderValue => set(Setting::MinOrderValue, &[g.number as u64]),
        MaxOrderValue => set(Setting::MaxOrderValue, &[g.number as u64]),
        MaxRebalanceNotional => set(Setting::MaxRebalanceNotional, &[g.number as u64]),
        NoTradeBand => set(Setting::NoTradeBandBps, &[g.rate.to_bits()]),
        MaxTrades => set(Setting::CapMark, &[g.mark, g.count]),
        Recording => set(Setting::Recording, &[g.mark]),
        CashFirst => set(Setting::CashFirst, &[g.mark]),
        Cash | Settings | Counters | Series | PositionAt => first(&[plain(6, another)]),
        Position => first(&[plain(6, another), alone(2, !good_symbol(g.symbol))]),
        TotalEquity | UnpricedHolding => first(&priced(another)),
        CurrentWeights => first(&priced(g.weights.len() != layout::WEIGHTS_SIZE)),
        Snapshot => first(&priced(another || g.weights.len() != layout::WEIGHTS_SIZE)),
        Rebalance => rebalance(g, book),
        Close => first(&[
            plain(1, g.kind > 1),
            plain(6, g.records.len() % layout::RECORD_SIZE != 0),
            alone(2, !good_symbol(g.symbol)),
            alone(4, g.number < 1),
            plain(8, book.recording && g.records.len() < layout::RECORD_SIZE),
            plain(9, !book.held.iter().any(|(s, quantity)| *s == g.symbol && *quantity != 0)),
        ]),
        RecordReturn => {
            let full = g.equities.len() as u64 <= book.equities || g.returns.len() as u64 <= book.returns;
            first(&[&priced(false)[..], &[plain(10, full)]].concat())
        }
        Open | Figures => DONE,
    }
}

fn rebalance(g: &Given, book: &Book) -> Answer {
    let (targets, prices) = (pairs(&g.targets), pairs(&g.prices));
    let new = targets.iter().filter(|(s, _)| !book.held.iter().any(|(held, _)| held == s)).count();
    first(&[
        plain(1, g.kind > 1),
        plain(6, !whole(&g.targets, 64) || !whole(&g.prices, 128) || g.records.len() % layout::RECORD_SIZE != 0),
        at(2, earliest(&targets, &prices, bad_symbol)),
        at(3, earliest(&targets, &prices, twice)),
        plain(5, targets.iter().any(|(_, w)| !f64::from_bits(*w).is_finite())),
        at(4, bad_price(&prices).map(Place::Price)),
        plain(8, book.recording && g.records.len() < 64 * layout::RECORD_SIZE),
        plain(7, book.held.len() + new > 64),
    ])
}

/// What refusals ask of a sound account.
struct Book {
    recording: bool,
    equities: u64,
    returns: u64,
    held: Vec<(u64, i64)>,
}

impl Book {
    /// None where the bytes are no sound account.
    fn of(bytes: &[u8]) -> Option<Book> {
        let words = words(bytes);
        if bytes.len() != layout::ACCOUNT_SIZE
            || (words[layout::CASH] as i64) < 0
            || !good_settings(&words[layout::SETTINGS_FROM..])
            || !are_good(&words[layout::COUNTERS_FROM..], layout::COUNTERS)
            || words[layout::POSITIONS] > layout::PLACES as u64
        {
            return None;
        }
        let count = words[layout::POSITIONS] as usize;
        let column = |which: Column| &words[layout::column(which)..][..layout::PLACES];
        let symbols: Vec<u64> = column(Column::Symbol).iter().map(|w| w.swap_bytes()).collect();
        let signed = |which| column(which).iter().map(|w| *w as i64).collect::<Vec<i64>>();
        let [quantity, average, total] = [Column::Quantity, Column::Average, Column::TotalCost].map(signed);
        let ascend = symbols[..count].windows(2).all(|pair| pair[0] < pair[1]);
        let columns = words[layout::POSITIONS + 1..].chunks_exact(layout::PLACES);
        let unused = columns.into_iter().all(|column| column[count..].iter().all(|w| *w == 0));
        let each = (0..count).all(|i| good_symbol(symbols[i]) && sound_position(quantity[i], average[i], total[i]));
        let held = symbols.iter().zip(&quantity).take(count).map(|(s, q)| (*s, *q)).collect();
        let book = Book {
            recording: words[layout::setting(Setting::Recording)] == 1,
            equities: words[layout::series(layout::Series::EquityCount)],
            returns: words[layout::series(layout::Series::ReturnCount)],
            held,
        };
        (ascend && unused && each).then_some(book)
    }
}

fn sound_position(quantity: i64, average: i64, total: i64) -> bool {
    let worth = i128::from(quantity) * i128::from(average) / 1_000_000;
    let worth = worth.clamp(i64::MIN.into(), i64::MAX.into()) as i64;
    match quantity.signum() {
        0 => average == 0 && total == 0,
        1 => average >= 0 && total >= worth,
        _ => average >= 0 && total <= worth,
    }
}

fn good_settings(words: &[u64]) -> bool {
    are_good(words, layout::SETTINGS)
}

/// Whether each word is what its row of the table lets it be. A ceiling has no setter, so that its floor is among the words.
fn are_good(words: &[u64], rows: &[Word]) -> bool {
    rows.iter().enumerate().all(|(i, row)| match row.kind {
        Kind::Rate(most) => (0.0..=most).contains(&f64::from_bits(words[i])),
        Kind::Amount(least) => words[i] as i64 >= least,
        Kind::Count => true,
        Kind::Flag => words[i] < 2,
        Kind::Mark => words[i] == 1 || words[i..i + 2] == [0, 0],
        Kind::Ceiling(floor) => words[i] == 0 || words[i] as i64 >= words[floor] as i64,
        Kind::Reserved => words[i] == 0,
    })
}

pub fn good_symbol(symbol: u64) -> bool {
    let bytes = symbol.to_be_bytes();
    let length = bytes.iter().position(|b| *b == 0).unwrap_or(8);
    length > 0 && bytes[..length].iter().all(|b| (33..=126).contains(b)) && bytes[length..].iter().all(|b| *b == 0)
}

fn words(bytes: &[u8]) -> Vec<u64> {
    bytes.chunks_exact(8).map(|word| u64::from_le_bytes(word.try_into().unwrap())).collect()
}

fn whole(list: &[u8], bound: usize) -> bool {
    list.len() % 16 == 0 && list.len() / 16 <= bound
}

pub fn pairs(list: &[u8]) -> Vec<Pair> {
    words(list).chunks_exact(2).map(|pair| (pair[0].swap_bytes(), pair[1])).collect()
}

fn bad_symbol(list: &[Pair]) -> Option<usize> {
    list.iter().position(|(symbol, _)| !good_symbol(*symbol))
}

fn bad_price(list: &[Pair]) -> Option<usize> {
    list.iter().position(|(_, price)| (*price as i64) < 1)
}
