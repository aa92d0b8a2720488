//! Random, truncated and damaged bytes at every entry of the C interface; house returns and saved accounts have runs of their own. The
//! answer, with its place, is held to `expected`, which reads the same bytes by the documents' tables; after a refusal every lent byte is as
//! found, and after 0 only those that were to be written differ.

mod expected;
mod places;

pub use expected::sound;

use crate::place::Answer;
use crate::port::{Port, priced, weighed};
use expected::expected;
use places::Places;
use scenario::{Account, Random, Scenario, Step, bad_lists, scenario};
use std::collections::BTreeMap;
use threshcoil_sys as port;
use threshcoil_sys::layout::{self, Column, Kind, Word};

/// All that the entries are lent and given; each takes its part. The slices' bytes, words and doubles alike.
#[derive(Clone, PartialEq)]
pub struct Given {
    pub account: Vec<u8>,
    pub settings: Vec<u8>,
    pub targets: Vec<u8>,
    pub prices: Vec<u8>,
    pub out: Vec<u8>,
    pub weights: Vec<u8>,
    pub records: Vec<u8>,
    pub equities: Vec<i64>,
    pub returns: Vec<f64>,
    pub rates: Vec<f64>,
    pub counts: Vec<u64>,
    pub number: i64,
    pub rate: f64,
    pub mark: u64,
    pub count: u64,
    pub symbol: u64,
    pub kind: u64,
}

#[derive(Clone, Copy, Debug, PartialEq, Eq)]
pub enum Entry {
    Open,
    QuantityStep,
    MinOrderValue,
    MaxOrderValue,
    NoTradeBand,
    MaxTrades,
    MaxRebalanceNotional,
    Recording,
    CashFirst,
    Cash,
    Settings,
    Counters,
    Series,
    Position,
    PositionAt,
    TotalEquity,
    UnpricedHolding,
    CurrentWeights,
    Snapshot,
    Rebalance,
    Close,
    RecordReturn,
    Figures,
}

use Entry::*;

const ENTRIES: [Entry; 23] = [
    Open,
    QuantityStep,
    MinOrderValue,
    MaxOrderValue,
    NoTradeBand,
    MaxTrades,
    MaxRebalanceNotional,
    Recording,
    CashFirst,
    Cash,
    Settings,
    Counters,
    Series,
    Position,
    PositionAt,
    TotalEquity,
    UnpricedHolding,
    CurrentWeights,
    Snapshot,
    Rebalance,
    Close,
    RecordReturn,
    Figures,
];

impl Entry {
    /// The length that its place for an answer has; 0 where it has none.
    pub fn out_size(self) -> usize {
        match self {
            Cash | TotalEquity => layout::WORD_SIZE,
            Settings => layout::SETTINGS_SIZE,
            Counters => layout::COUNTERS_SIZE,
            Series => layout::SERIES_SIZE,
            Position | PositionAt => layout::POSITION_SIZE,
            UnpricedHolding => layout::ENTRY_SIZE,
            Snapshot => layout::SNAPSHOT_SIZE,
            _ => 0,
        }
    }
}

fn call(entry: Entry, g: &mut Given) -> u64 {
    let (a, p) = (&mut g.account, &g.prices);
    match entry {
        Open => port::tc_open(g.number, &g.settings, a, &mut g.equities),
        QuantityStep => port::tc_set_quantity_step(a, g.number),
        MinOrderValue => port::tc_set_min_order_value(a, g.number),
        MaxOrderValue => port::tc_set_max_order_value(a, g.number),
        NoTradeBand => port::tc_set_no_trade_band_bps(a, g.rate),
        MaxTrades => port::tc_set_max_trades_per_rebalance(a, g.mark, g.count),
        MaxRebalanceNotional => port::tc_set_max_rebalance_notional(a, g.number),
        Recording => port::tc_set_recording(a, g.mark),
        CashFirst => port::tc_set_cash_first(a, g.mark),
        Cash => port::tc_cash(a, &mut g.out),
        Settings => port::tc_settings(a, &mut g.out),
        Counters => port::tc_counters(a, &mut g.out),
        Series => port::tc_series(a, &mut g.out),
        Position => port::tc_position(a, g.symbol, &mut g.out),
        PositionAt => port::tc_position_at(a, g.count, &mut g.out),
        TotalEquity => port::tc_total_equity(a, p, &mut g.out),
        UnpricedHolding => port::tc_unpriced_holding(a, p, &mut g.out),
        CurrentWeights => port::tc_current_weights(a, p, &mut g.weights),
        Snapshot => port::tc_snapshot(a, p, &mut g.out, &mut g.weights),
        Rebalance => port::tc_rebalance_simple(a, &g.targets, p, g.count, g.kind, &mut g.records),
        Close => port::tc_close_position_at(a, g.symbol, g.number, g.count, g.kind, &mut g.records),
        RecordReturn => port::tc_record_return(a, p, &mut g.equities, &mut g.returns),
        Figures => port::tc_figures(&g.returns, &mut g.rates, &mut g.counts),
    }
}

/// Whether what was lent is as it may be: all as found after a refusal; after 0 the account sound where it was lent to be
/// written, and the places past those filled as found.
fn kept(entry: Entry, before: &Given, after: &Given, answer: u64) -> bool {
    if answer % 256 != 0 {
        return same(before, after);
    }
    let count = (answer / 256) as usize;
    let mut allowed = before.clone();
    if matches!(entry, Open | QuantityStep | MinOrderValue | MaxOrderValue | NoTradeBand | MaxTrades)
        || matches!(entry, MaxRebalanceNotional | Recording | CashFirst | Rebalance | Close | RecordReturn)
    {
        allowed.account.clone_from(&after.account);
        if port::tc_cash(&after.account, &mut [0; 8]) != 0 {
            return false;
        }
    }
    let filled = |series| word(&before.account, layout::series(series)) as usize;
    match entry {
        Open => allowed.equities[0] = after.equities[0],
        CurrentWeights => written(&mut allowed.weights, &after.weights, layout::ENTRY_SIZE * count),
        Snapshot => {
            written(&mut allowed.weights, &after.weights, layout::ENTRY_SIZE * count);
            allowed.out.clone_from(&after.out);
        }
        Rebalance | Close => written(&mut allowed.records, &after.records, layout::RECORD_SIZE * count),
        RecordReturn => {
            let [e, r] = [layout::Series::EquityCount, layout::Series::ReturnCount].map(filled);
            (allowed.equities[e], allowed.returns[r]) = (after.equities[e], after.returns[r]);
        }
        Figures => (allowed.rates, allowed.counts) = (after.rates.clone(), after.counts.clone()),
        _ => allowed.out.clone_from(&after.out),
    }
    same(&allowed, after)
}

fn word(bytes: &[u8], place: usize) -> u64 {
    u64::from_le_bytes(bytes[layout::bytes_of(place, 1)].try_into().unwrap())
}

fn written(allowed: &mut [u8], after: &[u8], length: usize) {
    allowed[..length].copy_from_slice(&after[..length]);
}

/// Bit for bit, NaNs too.
fn same(a: &Given, b: &Given) -> bool {
    let bits = |list: &[f64]| list.iter().map(|x| x.to_bits()).collect::<Vec<u64>>();
    let doubles = |g: &Given| Given { returns: Vec::new(), rates: Vec::new(), rate: 0.0, ..g.clone() };
    bits(&a.returns) == bits(&b.returns) && bits(&a.rates) == bits(&b.rates) && doubles(a) == doubles(b)
}

/// What a run met.
#[derive(Default)]
struct Met {
    answers: BTreeMap<u64, u64>,
    /// Refusals where a spare word was not 0.
    reserved: u64,
    /// Openings refused with 1 and calls refused with 11 for the ceiling alone, and calls done under one.
    ceilings: [u64; 3],
    places: Places,
}

impl Met {
    /// A call and its answer, as expected.
    fn add(&mut self, entry: Entry, before: &Given, answer: Answer) {
        *self.answers.entry(answer.number).or_default() += 1;
        self.places.add(entry, before, answer);
        let (of, from) = if entry == Open { (&before.settings, 0) } else { (&before.account, layout::SETTINGS_FROM) };
        let hit = reserved(of, from).into_iter().any(|place| word(of, place) != 0);
        self.reserved += u64::from(hit && [1, 11].contains(&answer.number));
        if ceiling_of(of, from).is_none_or(|place| word(of, place) == 0) {
            return;
        }
        let alone = || expected(entry, &without_ceiling(before)) != answer;
        match answer.number {
            0 => self.ceilings[2] += 1,
            1 if entry == Open && alone() => self.ceilings[0] += 1,
            11 if alone() => self.ceilings[1] += 1,
            _ => {}
        }
    }

    fn all(&self) -> bool {
        let reserves = [layout::SETTINGS, layout::COUNTERS].concat().iter().any(|row| row.kind == Kind::Reserved);
        let answers = (0..=12).all(|number| self.answers.contains_key(&number));
        let ceilings = self.ceilings.iter().all(|times| *times > 0);
        answers && (self.reserved > 0 || !reserves) && ceilings && self.places.missed().is_empty()
    }
}

pub fn run(seed: u64, count: u64) -> bool {
    let mut random = Random::new(seed);
    let (mut met, mut wrong) = (Met::default(), 0u64);
    for _ in 0..count {
        let (mut good, rest) = played(&mut random);
        lists(&mut good, &rest);
        for _ in 0..8 {
            // Those that trade have the most to refuse.
            let entry = if random.one_in(4) { Rebalance } else { random.pick(&ENTRIES) };
            let mut given = good.clone();
            given.out = vec![0x5a; entry.out_size()];
            spoil(&mut random, &mut given);
            let before = given.clone();
            let (expected, answer) = (expected(entry, &before), call(entry, &mut given));
            met.add(entry, &before, expected);
            // A call that is done counts above its number.
            let told = if answer % 256 == 0 { 0 } else { answer };
            if told != expected.word() || !kept(entry, &before, &given, answer) {
                wrong += 1;
                if wrong <= 3 {
                    println!("WRONG: {entry:?} answers {answer}, expected {} of {expected:?}", expected.word());
                }
            }
        }
    }
    let told: Vec<String> = met.answers.iter().map(|(number, times)| format!("{number} {times} times")).collect();
    println!(
        "damage: seed {seed}, {} calls at {} entries, {wrong} wrong; answers {}; a reserved word refused {} times",
        count * 8,
        ENTRIES.len(),
        told.join(", "),
        met.reserved
    );
    let [openings, calls, done] = met.ceilings;
    println!(
        "damage: for the ceiling alone 1 of an opening {openings} times, 11 of an account {calls} times; done under one {done}"
    );
    println!("damage: {} refusals told a place: {}", met.places.told(), met.places);
    if !met.places.missed().is_empty() {
        println!("damage: not met: {}", met.places.missed().join(", "));
    }
    wrong == 0 && met.all()
}

/// The account of a scenario that was played for a while, and the call that comes next.
fn played(random: &mut Random) -> (Given, Step) {
    let Scenario { opening, steps } = scenario(random);
    let (_, mut account) = Port::open(&opening);
    let stop = random.below(steps.len() as u64) as usize;
    for step in &steps[..stop] {
        account.call(step);
    }
    let account = account.bytes();
    let settings = account.get(layout::bytes_of(layout::SETTINGS_FROM, layout::SETTINGS.len())).unwrap_or(&[]).to_vec();
    let returns = vec![0.25; random.below(30) as usize];
    let given = Given {
        account,
        settings,
        targets: Vec::new(),
        prices: Vec::new(),
        out: Vec::new(),
        weights: vec![0x5a; layout::WEIGHTS_SIZE],
        records: vec![0x5a; layout::RECORD_SIZE * (60 + random.below(8) as usize)],
        equities: vec![7; random.below(30) as usize],
        returns,
        rates: vec![7.0; 6],
        counts: vec![7; 3],
        number: random.i64() & i64::MAX,
        rate: random.below(1_000) as f64,
        mark: random.below(2),
        count: 0,
        symbol: 0,
        kind: random.below(2),
    };
    (given, steps[stop].clone())
}

/// The lists and the symbol of the next call, as far as it has them.
fn lists(given: &mut Given, step: &Step) {
    match step {
        Step::Rebalance { targets, prices, .. } => {
            (given.targets, given.prices) = (weighed(targets), priced(prices));
        }
        Step::RecordReturn { prices, .. } | Step::TotalEquity(prices) | Step::Snapshot(prices) => {
            given.prices = priced(prices);
        }
        Step::Close { symbol, .. } | Step::Position(symbol) => given.symbol = u64::from_be_bytes(symbol.0),
        _ => {}
    }
    if given.symbol == 0 && !given.account.is_empty() {
        given.symbol = word(&given.account, layout::column(Column::Symbol)).swap_bytes();
    }
}

/// Nothing, or one to three things; and a third of the time lists with several bad entries.
fn spoil(random: &mut Random, g: &mut Given) {
    if random.one_in(3) {
        let (targets, prices) = bad_lists(random);
        (g.targets, g.prices) = (weighed(&targets), priced(&prices));
    }
    for _ in 0..random.below(4) {
        match random.below(17) {
            0 | 1 => damage(random, &mut g.account),
            2 => damage(random, &mut g.settings),
            3 => damage(random, &mut g.targets),
            4 => damage(random, &mut g.prices),
            5 => lengthen(random, &mut g.targets),
            6 => lengthen(random, &mut g.prices),
            7 => cut(random, &mut g.out),
            8 => cut(random, &mut g.weights),
            9 => cut(random, &mut g.records),
            10 => {
                (g.number, g.rate, g.mark) = (random.i64(), random.f64(), random.u64());
                (g.count, g.symbol, g.kind) = (random.u64(), random.u64(), random.u64());
            }
            11 => {
                g.equities.truncate(random.below(4) as usize);
                g.returns.truncate(random.below(4) as usize);
            }
            12 => g.returns.push(random.f64()),
            13 if random.one_in(2) => reserve(random, &mut g.account, layout::SETTINGS_FROM),
            13 => reserve(random, &mut g.settings, 0),
            14 if random.one_in(2) => limit(random, &mut g.account, layout::SETTINGS_FROM),
            14 => limit(random, &mut g.settings, 0),
            15 => g.number = -(random.below(3) as i64),
            _ => g.counts.truncate(random.below(8) as usize),
        }
    }
}

/// A byte or a word changed, two words swapped, bytes cut off or added, or all of them any bytes.
pub fn damage(random: &mut Random, bytes: &mut Vec<u8>) {
    const WORDS: [u64; 9] =
        [0, 1, 2, u64::MAX, 1 << 63, (1 << 63) - 1, 0x7ff0 << 48, 0x7ff8 << 48, u64::from_be_bytes(*b"A\0B\0\0\0\0\0")];
    let words = bytes.len() / 8;
    if words == 0 || random.one_in(6) {
        return cut(random, bytes);
    }
    // Half of the time among the first words, where the scalars of an account are.
    let span = if random.one_in(2) { words } else { words.min(layout::column(Column::Symbol) + 2) };
    let at = 8 * random.below(span as u64) as usize;
    match random.below(8) {
        0 => bytes[at] ^= 1 << random.below(8),
        1 => bytes[at + 7] ^= 1 << random.below(8),
        2 => {
            let other = 8 * random.below(words as u64) as usize;
            for k in 0..8 {
                bytes.swap(at + k, other + k);
            }
        }
        3 => bytes[at..at + 8].copy_from_slice(&random.u64().to_le_bytes()),
        4 if random.one_in(4) => bytes.iter_mut().for_each(|byte| *byte = random.word() as u8),
        _ => bytes[at..at + 8].copy_from_slice(&random.pick(&WORDS).to_le_bytes()),
    }
}

/// The reserved words of an account, or of settings by themselves, which begin there.
fn reserved(bytes: &[u8], settings: usize) -> Vec<usize> {
    let is = |row: &Word| row.kind == Kind::Reserved;
    let of = |rows: &[Word], from: usize| {
        rows.iter().enumerate().filter(|(_, r)| is(r)).map(move |(k, _)| from + k).collect::<Vec<_>>()
    };
    let counters = layout::COUNTERS_FROM - layout::SETTINGS_FROM + settings;
    let all = [of(layout::SETTINGS, settings), of(layout::COUNTERS, counters)].concat();
    all.into_iter().filter(|place| layout::WORD_SIZE * (place + 1) <= bytes.len()).collect()
}

/// A word that must be 0 is not.
fn reserve(random: &mut Random, bytes: &mut [u8], settings: usize) {
    let places = reserved(bytes, settings);
    if !places.is_empty() {
        let at = layout::bytes_of(random.pick(&places), 1);
        bytes[at].copy_from_slice(&(1 + random.u64() % u64::MAX).to_le_bytes());
    }
}

/// The ceiling's place in an account, or in settings by themselves, which begin there.
fn ceiling_of(bytes: &[u8], settings: usize) -> Option<usize> {
    let place = settings + layout::Setting::MaxCommission as usize;
    (layout::WORD_SIZE * (place + 1) <= bytes.len()).then_some(place)
}

/// A ceiling at the floor, above or below it, or any; or a floor above the ceiling.
fn limit(random: &mut Random, bytes: &mut [u8], settings: usize) {
    let Some(place) = ceiling_of(bytes, settings) else { return };
    let floor = settings + layout::Setting::MinCommission as usize;
    let least = word(bytes, floor) as i64;
    let most = match random.below(6) {
        0 => least,
        1 => least.wrapping_sub(1),
        2 => random.i64(),
        3 => 1,
        _ => least.saturating_add(1 + random.below(1_000) as i64),
    };
    put(bytes, place, most);
    if random.one_in(6) {
        put(bytes, floor, most.wrapping_add(1));
    }
}

fn put(bytes: &mut [u8], place: usize, word: i64) {
    bytes[layout::bytes_of(place, 1)].copy_from_slice(&word.to_le_bytes());
}

fn without_ceiling(given: &Given) -> Given {
    let mut free = given.clone();
    for (bytes, settings) in [(&mut free.account, layout::SETTINGS_FROM), (&mut free.settings, 0)] {
        if let Some(place) = ceiling_of(bytes, settings) {
            put(bytes, place, 0);
        }
    }
    free
}

pub fn cut(random: &mut Random, bytes: &mut Vec<u8>) {
    let length = match random.below(4) {
        0 => random.below(bytes.len() as u64 + 1) as usize,
        1 => bytes.len().saturating_sub(1 + random.below(16) as usize),
        2 => bytes.len() + 1 + random.below(200) as usize,
        _ => layout::RECORD_SIZE * random.below(3) as usize,
    };
    bytes.resize(length, 0x41);
}

/// More entries, of symbols of their own: past the bound of a list, or past 64 symbols together.
fn lengthen(random: &mut Random, list: &mut Vec<u8>) {
    let to_bound = 64u64.saturating_sub(list.len() as u64 / 16);
    let more = if random.one_in(2) { to_bound } else { random.below(140) };
    for k in 0..more {
        let symbol = [b'z', b'0' + (k / 26) as u8, b'a' + (k % 26) as u8, 0, 0, 0, 0, 0];
        list.extend([symbol, 1u64.to_le_bytes()].concat());
    }
}
