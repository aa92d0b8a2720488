//! Document 02's request 9: which entry was bad, in the word that C is told, in the safe crate's refusal and in its message.

use threshcoil::{
    Account, Context, CostModel, Entry, ExecutionKind, ExecutionRecord, List, Price, Refusal, Settings, Spelling,
    Symbol, Target,
};
use threshcoil_sys as port;
use threshcoil_sys::{answer, layout};

const NOW: Context = Context { period_index: 0, kind: ExecutionKind::Rebalance };
const EMPTY: ExecutionRecord = ExecutionRecord::EMPTY;
const BAD: &str = "A B";

fn opened() -> Account {
    Account::open(1_000, &Settings::new(CostModel::default()), &mut [0]).expect("good settings")
}

/// A symbol of at most eight bytes, good or not.
fn symbol(text: &str) -> Symbol {
    let mut padded = [0; 8];
    padded[..text.len()].copy_from_slice(text.as_bytes());
    Symbol::from_padded(padded)
}

fn targets(texts: &[&str]) -> Vec<Target> {
    texts.iter().map(|text| Target { symbol: symbol(text), weight: 0.0 }).collect()
}

fn prices(texts: &[&str]) -> Vec<Price> {
    texts.iter().map(|text| Price { symbol: symbol(text), price: 5 }).collect()
}

/// 128 prices of as many symbols.
fn feed() -> Vec<Price> {
    (0..128).map(|k| Price { symbol: symbol(&format!("S{k:03}")), price: 5 }).collect()
}

/// What a rebalance is refused for: number, list and index.
fn refused(targets: &[Target], prices: &[Price]) -> (u64, List, usize) {
    let refusal = opened().rebalance_simple(targets, prices, NOW, &mut []).expect_err("a refusal");
    let entry = refusal.entry().unwrap_or_else(|| panic!("{refusal} tells no entry"));
    let given = match entry.list() {
        List::Targets => targets[entry.index()].symbol,
        List::Prices => prices[entry.index()].symbol,
    };
    assert!(entry.symbol() == given, "{entry} is {given}");
    (refusal.number(), entry.list(), entry.index())
}

use List::{Prices, Targets};

#[test]
fn two_tells_the_first_bad_symbol() {
    assert_eq!(refused(&targets(&["A", "B", BAD, "C", BAD]), &prices(&[BAD])), (2, Targets, 2));
    assert_eq!(refused(&targets(&["A"]), &prices(&["A", BAD, ""])), (2, Prices, 1));
    assert_eq!(refused(&[], &prices(&["", BAD])), (2, Prices, 0));
    let mut last = feed();
    last[127].symbol = symbol(BAD);
    assert_eq!(refused(&[], &last), (2, Prices, 127));
    let mut last: Vec<Target> = feed().iter().take(64).map(|p| Target { symbol: p.symbol, weight: 0.0 }).collect();
    last[63].symbol = symbol(BAD);
    assert_eq!(refused(&last, &feed()), (2, Targets, 63));
}

#[test]
fn a_bad_symbol_among_prices_comes_before_one_twice_among_targets() {
    assert_eq!(refused(&targets(&["A", "A"]), &prices(&["A", "B", BAD])), (2, Prices, 2));
}

#[test]
fn three_tells_the_second_appearance_that_comes_first() {
    assert_eq!(refused(&targets(&["A", "B", "A", "A"]), &[]), (3, Targets, 2), "of three the second");
    assert_eq!(refused(&targets(&["A", "B", "B", "A"]), &[]), (3, Targets, 2), "of two pairs the one inside");
    assert_eq!(refused(&targets(&["A", "B", "A", "B"]), &[]), (3, Targets, 2), "of two pairs that cross");
    assert_eq!(refused(&targets(&["Z", "A", "A", "Z"]), &prices(&["A", "A"])), (3, Targets, 2), "targets first");
    assert_eq!(refused(&targets(&["A"]), &prices(&["C", "B", "A", "B", "C"])), (3, Prices, 3));
    let mut last = feed();
    last[127].symbol = last[126].symbol;
    assert_eq!(refused(&[], &last), (3, Prices, 127));
    last[127].symbol = last[0].symbol;
    assert_eq!(refused(&[], &last), (3, Prices, 127));
    last[1].symbol = last[127].symbol;
    assert_eq!(refused(&[], &last), (3, Prices, 1));
}

#[test]
fn four_tells_the_first_price_below_one() {
    for places in [&[0][..], &[127], &[63, 64, 127], &[5, 3]] {
        let mut low = feed();
        places.iter().for_each(|place| low[*place].price = -(*place as i64));
        assert_eq!(refused(&[], &low), (4, Prices, *places.iter().min().expect("a place")));
    }
    // The order of the list is told, not that of the symbols.
    let turned: Vec<Price> = feed().into_iter().rev().map(|p| Price { price: 0, ..p }).collect();
    assert_eq!(refused(&[], &turned), (4, Prices, 0));
}

/// Every call with prices, by the word that C is told and by the refusal.
#[test]
fn every_call_with_prices_tells_the_place() {
    let mut account = opened();
    for (spoil, number) in [("symbol", 2), ("twice", 3), ("price", 4)] {
        let mut feed = feed();
        match spoil {
            "symbol" => feed[17].symbol = symbol(BAD),
            "twice" => feed[17].symbol = feed[3].symbol,
            _ => feed[17].price = 0,
        }
        let entry = Entry::Price { index: 17, symbol: feed[17].symbol.into() };
        let told = match number {
            2 => Refusal::BadSymbol(entry),
            3 => Refusal::Twice(entry),
            _ => Refusal::BadPrice(entry),
        };
        assert_eq!(account.total_equity(&feed), Err(told));
        assert_eq!(account.unpriced_holding(&feed), Err(told));
        assert_eq!(account.current_weights(&feed).map(|w| w.len()), Err(told));
        assert_eq!(account.snapshot(&feed).map(|s| s.equity), Err(told));
        assert_eq!(account.rebalance_simple(&[], &feed, NOW, &mut []), Err(told));
        assert_eq!(account.record_return(&feed, &mut [0; 9], &mut [0.0; 9]), Err(told));

        let bytes: Vec<u8> = feed.iter().flat_map(|p| [p.symbol.padded(), p.price.to_le_bytes()].concat()).collect();
        let (mut account, mut weights) = (*account.as_bytes(), [0; layout::WEIGHTS_SIZE]);
        let word = number + 256 * (2 * 17 + 1);
        assert_eq!(port::tc_total_equity(&account, &bytes, &mut [0; 8]), word);
        assert_eq!(port::tc_unpriced_holding(&account, &bytes, &mut [0; 16]), word);
        assert_eq!(port::tc_current_weights(&account, &bytes, &mut weights), word);
        assert_eq!(port::tc_snapshot(&account, &bytes, &mut [0; layout::SNAPSHOT_SIZE], &mut weights), word);
        assert_eq!(port::tc_rebalance_simple(&mut account, &[], &bytes, 0, 0, &mut []), word);
        assert_eq!(port::tc_record_return(&mut account, &bytes, &mut [0; 9], &mut [0.0; 9]), word);
        assert_eq!((answer::number(word), answer::index(word), answer::in_prices(word)), (number, 17, true));
        assert_eq!((answer::place(word), answer::byte(word), answer::count(word)), (35, 35, 35));
        if number < 4 {
            // As targets, a price is a weight as small as none.
            let word = number + 256 * (2 * 17);
            assert_eq!(port::tc_rebalance_simple(&mut account, &bytes[..16 * 18], &bytes, 0, 0, &mut []), word);
            assert_eq!((answer::number(word), answer::index(word), answer::in_prices(word)), (number, 17, false));
        }
    }
}

/// "Calls with one symbol tell index 0", of the prices.
#[test]
fn a_call_with_one_symbol_tells_the_first_price() {
    let mut account = opened();
    let only = Entry::Only { symbol: symbol(BAD).into() };
    assert_eq!((only.list(), only.index(), only.symbol() == symbol(BAD)), (Prices, 0, true));
    assert_eq!(account.position(symbol(BAD)), Err(Refusal::BadSymbol(only)));
    assert_eq!(account.close_position_at(symbol(BAD), 0, NOW, &mut [EMPTY]), Err(Refusal::BadSymbol(only)));
    let good = Entry::Only { symbol: symbol("A").into() };
    assert_eq!(account.close_position_at(symbol("A"), 0, NOW, &mut [EMPTY]), Err(Refusal::BadPrice(good)));
    assert_eq!(Symbol::new(BAD), Err(Refusal::BadSymbol(only)));

    let (mut bytes, number) = (*account.as_bytes(), u64::from_be_bytes(symbol("A").padded()));
    assert_eq!(port::tc_position(&bytes, 0, &mut [0; layout::POSITION_SIZE]), 0x102);
    assert_eq!(port::tc_close_position_at(&mut bytes, 0, 0, 0, 0, &mut []), 0x102);
    assert_eq!(port::tc_close_position_at(&mut bytes, number, 0, 0, 0, &mut []), 0x104);
    assert_eq!(port::tc_apply_fill(number, &mut [0; 4], 1, -1), 0x104);
    let (money, tallies, words, ints) = (&mut [0; 6], &mut [0; 2], &mut [0; 4], &mut [0; 8]);
    assert_eq!(port::tc_fill(0.0, 0.0, 0, 1, 0, 0, number, 1, 0, money, tallies, words, ints), 0x104);
    assert_eq!(port::tc_fill_with_ceiling(0.0, 0.0, 0, 0, 1, 0, 0, number, 1, 0, money, tallies, words, ints), 0x104);
    assert!(answer::in_prices(0x102) && answer::index(0x102) == 0);
}

/// All other numbers stand alone in what C is told.
#[test]
fn no_other_refusal_tells_a_place() {
    let settings = Settings { recording: true, ..Settings::new(CostModel::default()) };
    let mut account = *Account::open(1_000, &settings, &mut [0]).expect("good settings").as_bytes();
    let entry = |text: &str, word: u64| [symbol(text).padded(), word.to_le_bytes()].concat();
    let nan = [entry("A", 0), entry("B", f64::NAN.to_bits())].concat();
    assert_eq!(port::tc_set_recording(&mut account, 2), 1);
    assert_eq!(port::tc_rebalance_simple(&mut account, &nan, &entry("A", 0), 0, 0, &mut []), 5);
    assert_eq!(port::tc_rebalance_simple(&mut account, &nan[1..], &[], 0, 0, &mut []), 6);
    assert_eq!(port::tc_rebalance_simple(&mut account, &[], &[], 0, 0, &mut [0; 96]), 8);
    let number = u64::from_be_bytes(symbol("A").padded());
    assert_eq!(port::tc_close_position_at(&mut account, number, 1, 0, 0, &mut [0; 96]), 9);
    assert_eq!(port::tc_record_return(&mut account, &[], &mut [], &mut []), 10);
    assert_eq!(port::tc_save(&account, &mut []), 19);
    assert_eq!(port::tc_load(&[0], &mut account), 11);
    assert_eq!(port::tc_figures(&[], &mut [0.0; 6], &mut [0; 3]), 12);
    for refusal in [Refusal::BadWeight, Refusal::Unsound, Refusal::NoFileRoom] {
        assert_eq!((refusal.entry(), refusal.byte()), (None, None));
        assert_eq!(refusal.to_string(), refusal.meaning());
    }
}

#[test]
fn a_message_names_list_index_and_symbol() {
    let told = |targets: &[Target], prices: &[Price]| {
        opened().rebalance_simple(targets, prices, NOW, &mut []).expect_err("a refusal").to_string()
    };
    assert_eq!(told(&targets(&["A", BAD]), &[]), "target 1 (`A B`): a symbol is bad");
    assert_eq!(told(&targets(&["A", "A"]), &[]), "target 1 (`A`): a symbol stands twice in one list");
    let mut feed = feed();
    feed[17] = Price { symbol: symbol("ACME!"), price: 0 };
    assert_eq!(told(&[], &feed), "price 17 (`ACME!`): a price is below 1");
    let refusal = opened().close_position_at(symbol("ACME!"), 0, NOW, &mut [EMPTY]).expect_err("a refusal");
    assert_eq!(refusal.to_string(), "`ACME!`: a price is below 1", "where no list was given none is named");
    let (file, long) = (opened().saved(), [1, 0x80, 0]);
    let loaded = |file: &[u8]| Account::load(file).expect_err("a refusal").to_string();
    assert_eq!(loaded(&file[..12]), "the file ends early, at byte 12");
    assert_eq!(loaded(&long), "a number of the file is not in its shortest form, or too large, at byte 1");
    let more = [&file[..], b"\n\n"].concat();
    assert_eq!(loaded(&more), format!("bytes of the file are left over, from byte {} on", file.len()));
}

#[test]
fn what_cannot_be_shown_is_escaped() {
    let shown = |bytes: &[u8; 8]| Symbol::from_padded(*bytes).to_string();
    assert_eq!(shown(b"ACME!\0\0\0"), "ACME!");
    assert_eq!(shown(b"\\\"'`<&>~"), "\\\"'`<&>~", "a good symbol is shown as it is");
    assert_eq!(shown(b"A\0B\0\0\0\0\0"), "A\\0B", "a zero that is no padding");
    assert_eq!(shown(b"\n\x1b[A\x7f\0\0\0"), "\\n\\u{1b}[A\\u{7f}");
    assert_eq!(shown(b"\xc3\x9cX\xff\0\0\0\0"), "\u{dc}X\\xff");
    assert_eq!(shown(b"A\xe2\x80\xaeB\0\0\0"), "A\\u{202e}B", "what turns the text round");
    assert_eq!(shown(&[0; 8]), "");
}

#[test]
fn a_text_is_told_as_it_was_given() {
    let told = |text: &str| Symbol::new(text).expect_err("no symbol").to_string();
    assert_eq!(told("ABCDEFGHI"), "`ABCDEFGH..`: a symbol is bad", "the first eight would be good");
    assert_eq!(told("A\0"), "`A\\0`: a symbol is bad", "and here the first one");
    assert_eq!(told(""), "``: a symbol is bad");
    let Err(Refusal::BadSymbol(entry)) = Symbol::new("ABCDEFGHIJ") else { panic!("no symbol") };
    assert_eq!((entry.symbol().as_bytes(), entry.symbol().length()), (&b"ABCDEFGH"[..], 10));
    assert!(entry.symbol() != symbol("ABCDEFGH"), "it was longer");
    assert!(Spelling::from(symbol("ABCDEFGH")) == symbol("ABCDEFGH"));
}
