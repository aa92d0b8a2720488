//! docs/LAYOUT.md's worked examples, held to what the library writes in the run that the document describes, and the header's places,
//! held to the table of words that the runs read and write by.

use threshcoil_sys as port;
use threshcoil_sys::layout;

const LAYOUT: &str = include_str!("../../../docs/LAYOUT.md");
const HEADER: &str = include_str!("../../../include/threshcoil.h");

fn section(title: &str) -> &'static str {
    let from = LAYOUT.find(&format!("## {title}")).expect("a section of that title");
    let rest = &LAYOUT[from + 3..];
    &rest[..rest.find("\n## ").unwrap_or(rest.len())]
}

/// The words in hex that stand in a text, in its order.
fn words(text: &str) -> Vec<[u8; 8]> {
    let word = |quoted: &str| {
        let bytes: Option<Vec<u8>> =
            quoted.split(' ').map(|b| u8::from_str_radix(b, 16).ok().filter(|_| b.len() == 2)).collect();
        bytes.and_then(|b| b.try_into().ok())
    };
    text.split('`').filter_map(word).collect()
}

/// The words of the row that begins so.
fn row(title: &str, begins: &str) -> Vec<u8> {
    let start = format!("| {begins}");
    let line = section(title).lines().find(|l| l.starts_with(&start)).unwrap_or_else(|| panic!("a row {begins}"));
    words(line).concat()
}

fn settings() -> Vec<u8> {
    words(section("Settings")).concat()
}

/// The rows of a section's table: the first word that each speaks of, the last, and the example, if it has one.
fn rows(title: &str) -> Vec<(usize, usize, Option<[u8; 8]>)> {
    let places = |line: &str| {
        let cell = line.strip_prefix("| ")?.split(" |").next()?;
        let (first, last) = cell.split_once(" to ").unwrap_or((cell, cell));
        Some((first.parse().ok()?, last.parse().ok()?, words(line).first().copied()))
    };
    section(title).lines().filter_map(places).collect()
}

/// Whether rows speak of that many words, one after the other.
fn tile(rows: &[(usize, usize, Option<[u8; 8]>)], count: usize) -> bool {
    let mut next = 0;
    rows.iter().all(|(first, last, _)| *first == std::mem::replace(&mut next, last + 1)) && next == count
}

/// The account opened, and after the rebalance, with its record.
fn run() -> (Vec<u8>, Vec<u8>) {
    let mut account = vec![0xaa; layout::ACCOUNT_SIZE];
    assert_eq!(port::tc_open(100_000, &settings(), &mut account, &mut [0]), 0);
    let mut records = vec![0xaa; layout::PLACES * layout::RECORD_SIZE];
    let (target, price) = (row("Lists", "target"), row("Lists", "price"));
    assert_eq!(port::tc_rebalance_simple(&mut account, &target, &price, 0, 0, &mut records), 0x100);
    let (record, rest) = records.split_at(layout::RECORD_SIZE);
    assert!(rest.iter().all(|b| *b == 0xaa), "the rest of the records is as found");
    (account, record.to_vec())
}

#[test]
fn the_document_has_the_words_of_the_table() {
    assert!(tile(&rows("Settings"), layout::SETTINGS.len()), "a row for each word of settings");
    assert!(tile(&rows("Account"), layout::ACCOUNT_WORDS), "rows for all words of an account");
    let snake = |name: &str| {
        name.chars().fold(String::new(), |text, c| {
            let parted = c.is_uppercase() && !text.is_empty();
            text + if parted { "_" } else { "" } + &c.to_lowercase().to_string()
        })
    };
    let cells: Vec<&str> =
        section("Settings").lines().filter_map(|l| l.strip_prefix("| ")?.split(" | ").nth(1)).skip(1).collect();
    for (row, cell) in layout::SETTINGS.iter().zip(cells) {
        let named = cell.starts_with(&snake(row.name)) || row.name.starts_with("Cap") && cell.starts_with("trade cap");
        assert!(named || row.kind == layout::Kind::Reserved, "{cell} is {}", row.name);
    }
    for (title, size) in [("Settings", layout::SETTINGS_SIZE), ("Account", layout::ACCOUNT_SIZE)] {
        let (heading, _) = section(title).split_once('\n').expect("a heading");
        let told: String = heading.chars().filter(|c| *c != ',').collect();
        assert!(told.ends_with(&format!("{} words {size} bytes", size / layout::WORD_SIZE)), "{heading}");
    }
}

/// The places and counts of words of one of the header's enums, in its order.
fn places(name: &str) -> Vec<(&'static str, usize)> {
    let from = HEADER.find(&format!("enum {name} {{")).unwrap_or_else(|| panic!("an enum {name}"));
    let body = &HEADER[HEADER[from..].find('{').expect("its names") + from + 1..];
    let entry = |text: &'static str| {
        let (name, place) = text.split_once('=')?;
        // A comment may stand before it.
        Some((name.split_whitespace().last()?, place.trim().parse().ok()?))
    };
    body[..body.find('}').expect("its end")].split(',').filter_map(entry).collect()
}

/// The names that a table's rows have in the header, each with its place, and how many words there are.
fn of_table(table: &[layout::Word], names: &[&'static str], count: &'static str) -> Vec<(&'static str, usize)> {
    assert_eq!(table.len(), names.len(), "a name for each word before {count}");
    names.iter().copied().enumerate().map(|(place, name)| (name, place)).chain([(count, table.len())]).collect()
}

#[test]
fn the_header_has_the_places_of_the_table() {
    let settings = [
        "TC_COMMISSION_AT",
        "TC_SLIPPAGE_AT",
        "TC_MIN_COMMISSION_AT",
        "TC_STEP_AT",
        "TC_MIN_ORDER_AT",
        "TC_MAX_ORDER_AT",
        "TC_BAND_AT",
        "TC_CAP_MARK_AT",
        "TC_CAP_COUNT_AT",
        "TC_MAX_NOTIONAL_AT",
        "TC_RECORDING_AT",
        "TC_CASH_FIRST_AT",
        "TC_MAX_COMMISSION_AT",
        "TC_COVER_RULE_AT",
        "TC_LONG_ONLY_AT",
    ];
    let mut settings = of_table(layout::SETTINGS, &settings, "TC_SETTINGS_WORDS");
    let ceiling = layout::Setting::MaxCommission as usize;
    settings.insert(ceiling + 1, ("TC_CEILING_AT", ceiling));
    assert_eq!(places("tc_settings_word"), settings);
    let counters = [
        "TC_ORDER_COUNT_AT",
        "TC_LAST_NOTIONAL_AT",
        "TC_TRIMMED_COUNT_AT",
        "TC_SHORTFALL_AT",
        "TC_RECORD_COUNT_AT",
        "TC_OPEN_COUNT_AT",
        "TC_CLOSED_TOTAL_AT",
    ];
    assert_eq!(places("tc_counters_word"), of_table(layout::COUNTERS, &counters, "TC_COUNTERS_WORDS"));
    let series = ["TC_EQUITY_COUNT_AT", "TC_RETURN_COUNT_AT", "TC_PREV_EQUITY_AT"];
    assert_eq!(places("tc_series_word"), of_table(layout::SERIES, &series, "TC_SERIES_WORDS"));
    use layout::{Column, column};
    let account = [
        ("TC_CASH_AT", layout::CASH),
        ("TC_SETTINGS_AT", layout::SETTINGS_FROM),
        ("TC_COUNTERS_AT", layout::COUNTERS_FROM),
        ("TC_SERIES_AT", layout::SERIES_FROM),
        ("TC_COUNT_AT", layout::POSITIONS),
        ("TC_SYMBOLS_AT", column(Column::Symbol)),
        ("TC_QUANTITIES_AT", column(Column::Quantity)),
        ("TC_AVERAGES_AT", column(Column::Average)),
        ("TC_REALIZED_AT", column(Column::Realized)),
        ("TC_TOTALS_AT", column(Column::TotalCost)),
        ("TC_ACCOUNT_WORDS", layout::ACCOUNT_WORDS),
    ];
    assert_eq!(places("tc_account_word"), account);
}

#[test]
fn the_header_has_the_sizes_of_the_table() {
    let sizes = [
        ("TARGET", layout::ENTRY_SIZE),
        ("PRICE", layout::ENTRY_SIZE),
        ("WEIGHT", layout::ENTRY_SIZE),
        ("RECORD", layout::RECORD_SIZE),
        ("POSITION", layout::POSITION_SIZE),
        ("SNAPSHOT", layout::SNAPSHOT_SIZE),
        ("UNPRICED", layout::ENTRY_SIZE),
        ("CENTS", layout::WORD_SIZE),
    ];
    for (name, size) in sizes {
        assert!(HEADER.contains(&format!("#define TC_{name}_BYTES {size}\n")), "TC_{name}_BYTES is {size}");
    }
    for name in ["ACCOUNT", "SETTINGS", "COUNTERS", "SERIES"] {
        assert!(
            HEADER.contains(&format!("#define TC_{name}_BYTES (8 * TC_{name}_WORDS)\n")),
            "TC_{name}_BYTES by its words"
        );
    }
}

#[test]
fn settings_stand_in_the_account_as_they_were_given() {
    let (account, _) = run();
    assert_eq!(settings().len(), layout::SETTINGS_SIZE);
    assert_eq!(account[layout::bytes_of(layout::SETTINGS_FROM, layout::SETTINGS.len())], settings());
    let mut told = [0; layout::SETTINGS_SIZE];
    assert_eq!(port::tc_settings(&account, &mut told), 0);
    assert_eq!(told[..], settings());
}

#[test]
fn the_account_is_as_the_document_has_it() {
    let (account, _) = run();
    let mut expected = vec![0; layout::ACCOUNT_SIZE];
    expected[layout::bytes_of(layout::SETTINGS_FROM, layout::SETTINGS.len())].copy_from_slice(&settings());
    for (first, _, example) in rows("Account") {
        if let Some(word) = example {
            expected[layout::bytes_of(first, 1)].copy_from_slice(&word);
        }
    }
    assert_eq!(account, expected);
}

#[test]
fn the_record_is_as_the_document_has_it() {
    assert_eq!(run().1, words(section("Execution record")).concat());
}

#[test]
fn queries_tell_what_the_document_has() {
    let (account, _) = run();
    let price = row("Lists", "price");
    let mut equity = [0; 8];
    assert_eq!(port::tc_total_equity(&account, &price, &mut equity), 0);
    assert_eq!(equity[..], row("What queries tell", "`tc_cash`"));
    let mut position = [0; layout::POSITION_SIZE];
    let symbol = u64::from_be_bytes(*b"AAPL\0\0\0\0");
    assert_eq!(port::tc_position(&account, symbol, &mut position), 0);
    assert_eq!(position[..], row("What queries tell", "`tc_position`"));
    let mut unpriced = [0; layout::ENTRY_SIZE];
    assert_eq!(port::tc_unpriced_holding(&account, &[], &mut unpriced), 0);
    assert_eq!(unpriced[..], row("What queries tell", "`tc_unpriced_holding`"));
    let (mut figures, mut weights) = ([0; layout::SNAPSHOT_SIZE], [0xaa; layout::WEIGHTS_SIZE]);
    assert_eq!(port::tc_snapshot(&account, &price, &mut figures, &mut weights), 0x100);
    assert_eq!(figures[..], row("What queries tell", "`tc_snapshot`"));
    let (weight, rest) = weights.split_at(layout::ENTRY_SIZE);
    assert_eq!(*weight, row("Lists", "weight"));
    assert!(rest.iter().all(|b| *b == 0xaa));
}

/// Each refusal of the page's table on answers, by what it says is returned.
#[test]
fn refusals_tell_their_place_as_the_page_has_it() {
    let cells =
        |line: &'static str| Some(line.strip_prefix("| ")?.strip_suffix(" |")?.split(" | ").collect::<Vec<_>>());
    let word = |cell: &str| u64::from_str_radix(cell.strip_prefix("`0x")?.split('`').next()?, 16).ok();
    let table: Vec<(&str, u64)> = section("Answers")
        .lines()
        .filter_map(cells)
        .filter_map(|cells| Some((*cells.get(2)?, word(cells.get(3)?)?)))
        .collect();
    let (mut account, _) = run();
    let mut file = vec![0; layout::FILE_SIZE];
    assert_eq!(port::tc_save(&account, &mut file), 55 << 8);
    file.truncate(55);
    assert_eq!(file[1..3], [0x88, 0x0e], "the cash");
    let longer = [&file[..1], &[0x88, 0x8e, 0], &file[3..]].concat();
    let (target, price) = (row("Lists", "target"), row("Lists", "price"));
    let prices: Vec<u8> = (0..18u8).flat_map(|k| [&[b'A' + k], &price[1..8], &[k ^ 17], &[0; 7]].concat()).collect();
    let mut other = account.clone();
    let returned = [
        (
            "a rebalance with that target twice",
            port::tc_rebalance_simple(&mut account, &[&target[..], &target].concat(), &price, 0, 0, &mut []),
        ),
        ("the equity at 18 prices, the last of them 0", port::tc_total_equity(&account, &prices, &mut [0; 8])),
        ("the position of the symbol 0", port::tc_position(&account, 0, &mut [0; layout::POSITION_SIZE])),
        ("the first 20 bytes of its file (SAVED.md)", port::tc_load(&file[..20], &mut other)),
        ("its file with the cash as `88 8e 00`", port::tc_load(&longer, &mut other)),
        ("its file and a byte more", port::tc_load(&[&file[..], &[0]].concat(), &mut other)),
        ("a rebalance of an unknown kind", port::tc_rebalance_simple(&mut account, &target, &price, 0, 2, &mut [])),
    ];
    assert_eq!(table, returned);
    assert_eq!(account, other, "as found");
}

/// The cells of a row of the group's table, 'any' as a number that must not matter.
fn group_row(begins: &str) -> Vec<i64> {
    let start = format!("| {begins} |");
    let line = section("A group").lines().find(|l| l.starts_with(&start)).unwrap_or_else(|| panic!("a row {begins}"));
    let number = |cell: &str| if cell == "any" { i64::MIN } else { cell.replace(',', "").parse().expect("a number") };
    line[start.len()..].trim_end_matches('|').split('|').map(|cell| number(cell.trim())).collect()
}

/// The numbers that the section gives for a slice.
fn group_told(slice: &str) -> Vec<f64> {
    let text = section("A group");
    let from = text.find("After 0:").expect("what is left");
    let told = text[from..].split(&format!("`{slice}`")).nth(1).expect("the slice");
    let numbers: String = told.chars().take_while(|c| "0123456789.,- ".contains(*c)).collect();
    let cells = numbers.trim().trim_end_matches('.').split(", ");
    cells.map(|n| n.replace(',', "").parse().expect("a number")).collect()
}

#[test]
fn a_group_comes_to_what_the_page_says() {
    let marks: Vec<u8> = group_row("mark").iter().map(|m| *m as u8).collect();
    let equities = group_row("equity");
    let (mut rates, mut changes, mut firsts, mut gains) = ([9.0; 3], [9; 3], [9; 2], [9; 2]);
    let answer = port::tc_house_return(2, 2, &marks, &equities, &mut rates, &mut changes, &mut firsts, &mut gains);
    let whole = |numbers: &[i64]| numbers.iter().map(|n| *n as f64).collect::<Vec<_>>();
    assert_eq!(answer, 0);
    assert_eq!(rates.to_vec(), group_told("rates"));
    assert_eq!(whole(&changes), group_told("changes"));
    assert_eq!(whole(&firsts), group_told("firsts"));
    assert_eq!(whole(&gains), group_told("gains"));
}
