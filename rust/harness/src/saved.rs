//! Saved accounts: files of random accounts beside those of a second program, files and accounts that are damaged, and calls with a save and a
//! load between them; and the same written as text for the model to play (tools/model/saved.py).

mod bench;
mod damage;
mod draw;
mod reference;
mod text;

pub use bench::bench;
pub use text::emit;

use crate::place::{Answer, Place};
use crate::port::Port;
use reference::Fault;
use scenario::{Outcome, Random, Scenario, Step, View, play, scenario, written};
use std::collections::BTreeMap;
use threshcoil::{Account, Refusal};
use threshcoil_sys as port;
use threshcoil_sys::layout::{self, ACCOUNT_SIZE, FILE_SIZE, Kind};

/// What stands in lent places before a call.
const FOUND: u8 = 0x5a;

/// Saves and loads `count` accounts. True where every file and every account is the second program's, every room is kept, and every sort was met.
pub fn run(seed: u64, count: u64) -> bool {
    let mut random = Random::new(seed);
    let (mut wrong, mut bytes, mut beginnings, mut met) = (Wrong::default(), 0, 0, [0u64; SORTS.len()]);
    for _ in 0..count {
        let account = draw::account(&mut random);
        let file = reference::save(&account).expect("a sound account");
        let room = room(&mut random, file.len());
        wrong.held(saved(&account, room) == expected_save(Ok(&file), room), || format!("a save into {room} bytes"));
        let positive = positive(&account);
        wrong.held(loaded(&file) == Ok(positive.clone()), || "a load".into());
        let theirs = reference::load(&file).map(|(account, _)| account);
        wrong.held(theirs == Ok(positive), || "the second program reads what it wrote".into());
        if random.one_in(256) {
            beginnings += file.len();
            let ends = |n: usize| Err(Answer::at(16, Place::Byte(n)).word());
            wrong.held((0..file.len()).all(|n| loaded(&file[..n]) == ends(n)), || "a beginning".into());
        }
        bytes += file.len();
        let seen = Seen { account: &account, file: &file, room };
        met.iter_mut().zip(SORTS).for_each(|(met, (_, sort))| *met += u64::from(sort(&seen)));
    }
    let said: Vec<String> = SORTS.iter().zip(met).map(|((name, _), n)| format!("{name} {n}")).collect();
    println!(
        "saved: seed {seed}, {count} accounts, {bytes} bytes, {beginnings} beginnings, {}; {}",
        wrong,
        said.join(", ")
    );
    let between = between(seed, 1 + count / 50);
    wrong.none() && between && met.iter().all(|n| *n > 0)
}

/// Loads `count` files and saves as many accounts, most of them damaged. True where every answer is the second program's, what is accepted is
/// what saving gives, every place is as found after a refusal, and every fault was met.
pub fn run_damage(seed: u64, count: u64) -> bool {
    let mut random = Random::new(seed);
    let (mut wrong, mut faults, mut answers) = (Wrong::default(), BTreeMap::new(), BTreeMap::new());
    for _ in 0..count {
        let mut account = draw::account(&mut random);
        let good = reference::save(&account).expect("a sound account");
        let file = if random.one_in(16) { good.clone() } else { damage::file(&mut random, &good) };
        let (ours, theirs) = (loaded(&file), reference::load(&file));
        *faults.entry(theirs.as_ref().err().map(|refused| refused.fault)).or_insert(0u64) += 1;
        let expected = theirs.map(|(account, _)| account).map_err(|refused| refused.answer.word());
        wrong
            .held(ours == expected, || format!("a load: {:?}, not {:?}", ours.as_ref().err(), expected.as_ref().err()));
        wrong.held(loaded_by_the_crate(&file) == expected, || "a load by the safe crate".into());
        if let Ok(account) = &ours {
            wrong.held(saved(account, FILE_SIZE) == expected_save(Ok(&file), FILE_SIZE), || "an accepted file".into());
        }
        if random.one_in(8) {
            let length = random.pick(&[0, 8, ACCOUNT_SIZE - 8, ACCOUNT_SIZE - 1, ACCOUNT_SIZE + 1, FILE_SIZE]);
            wrong.held(loaded_into(&file, length) == Err(11), || format!("an account of {length} bytes"));
        }
        damage::account(&mut random, &mut account);
        let room = room(&mut random, good.len());
        let expected = reference::save(&account);
        let told = expected_save(expected.as_deref().map_err(|number| *number), room);
        *answers.entry(told.0 % 256).or_insert(0u64) += 1;
        wrong.held(saved(&account, room) == told, || format!("a save: not {}", told.0));
    }
    let said: Vec<String> = faults.iter().map(|(fault, n)| format!("{} {n}", named(*fault))).collect();
    let given: Vec<String> = answers.iter().map(|(answer, n)| format!("{answer} {n}")).collect();
    println!(
        "saved-damage: seed {seed}, {count} files and {count} accounts, {wrong}; files {}; saves {}",
        said.join(", "),
        given.join(", ")
    );
    let of = |number: u64| faults.iter().filter(|(f, _)| f.is_some_and(|f| f.number() == number)).map(|(_, n)| n).sum();
    let told: [u64; 3] = [16, 17, 18].map(of);
    println!(
        "saved-damage: {} refusals told a place: 16 at the end {}, 17 at a number {}, 18 after the last {}",
        told.iter().sum::<u64>(),
        told[0],
        told[1],
        told[2]
    );
    let missed: Vec<String> = Fault::ALL
        .iter()
        .filter(|fault| !faults.contains_key(&Some(**fault)))
        .map(|fault| named(Some(*fault)))
        .collect();
    if !missed.is_empty() {
        println!("saved-damage: not met: {}", missed.join(", "));
    }
    wrong.none()
        && missed.is_empty()
        && faults.contains_key(&None)
        && [0, 11, 19].iter().all(|n| answers.contains_key(n))
}

fn named(fault: Option<Fault>) -> String {
    fault.map_or("accepted".into(), |fault| format!("{} {fault:?}", fault.number()))
}

/// How many differences there were; the first ones are told.
#[derive(Default)]
struct Wrong(u64);

impl Wrong {
    fn held(&mut self, holds: bool, what: impl FnOnce() -> String) {
        if !holds {
            self.0 += 1;
            if self.0 <= 3 {
                println!("WRONG: {}", what());
            }
        }
    }

    fn none(&self) -> bool {
        self.0 == 0
    }
}

impl std::fmt::Display for Wrong {
    fn fmt(&self, f: &mut std::fmt::Formatter<'_>) -> std::fmt::Result {
        write!(f, "{} wrong", self.0)
    }
}

/// Just enough, one too few, none, enough for the longest file, or any.
fn room(random: &mut Random, length: usize) -> usize {
    match random.below(8) {
        0 => length - 1,
        1 => 0,
        2 => random.below(FILE_SIZE as u64 + 100) as usize,
        3 | 4 => length,
        _ => FILE_SIZE,
    }
}

/// What a save answers, and what it leaves in its room.
fn saved(account: &[u8], room: usize) -> (u64, Vec<u8>) {
    let mut file = vec![FOUND; room];
    (port::tc_save(account, &mut file), file)
}

fn expected_save(file: Result<&[u8], u64>, room: usize) -> (u64, Vec<u8>) {
    let mut left = vec![FOUND; room];
    match file {
        Ok(file) if file.len() <= room => {
            left[..file.len()].copy_from_slice(file);
            (256 * file.len() as u64, left)
        }
        Ok(_) => (19, left),
        Err(number) => (number, left),
    }
}

fn loaded(file: &[u8]) -> Result<Vec<u8>, u64> {
    loaded_into(file, ACCOUNT_SIZE)
}

/// What a load gives; 255, which nothing else gives, where a refusal left a place otherwise than as found.
fn loaded_into(file: &[u8], length: usize) -> Result<Vec<u8>, u64> {
    // The file's bytes end where its allocation does, so that a byte read past it is seen under a sanitizer.
    let file: Box<[u8]> = file.into();
    let mut account = vec![FOUND; length];
    match port::tc_load(&file, &mut account) {
        0 => Ok(account),
        answer if account.iter().all(|byte| *byte == FOUND) => Err(answer),
        _ => Err(255),
    }
}

/// The same by the safe crate, whose refusal has the place that the C interface returns above its number.
fn loaded_by_the_crate(file: &[u8]) -> Result<Vec<u8>, u64> {
    let word = |refusal: Refusal| refusal.number() + 256 * refusal.byte().unwrap_or(0) as u64;
    Account::load(file).map(|account| account.as_bytes().to_vec()).map_err(word)
}

/// With zero rates of positive sign.
fn positive(account: &[u8]) -> Vec<u8> {
    let mut account = account.to_vec();
    for (k, row) in layout::SETTINGS.iter().enumerate() {
        let at = layout::bytes_of(layout::SETTINGS_FROM + k, 1);
        if matches!(row.kind, Kind::Rate(_)) && account[at.clone()] == (-0.0f64).to_le_bytes() {
            account[at].fill(0);
        }
    }
    account
}

/// An account with its file and the room that it was saved into.
struct Seen<'a> {
    account: &'a [u8],
    file: &'a [u8],
    room: usize,
}

impl Seen<'_> {
    fn word(&self, place: usize) -> u64 {
        u64::from_le_bytes(self.account[layout::bytes_of(place, 1)].try_into().unwrap())
    }

    fn any(&self, word: u64) -> bool {
        (0..layout::ACCOUNT_WORDS).any(|place| self.word(place) == word)
    }
}

type Sort = (&'static str, fn(&Seen) -> bool);

/// Each must be met.
const SORTS: [Sort; 11] = [
    ("without positions", |s| s.word(layout::POSITIONS) == 0),
    ("with 64", |s| s.word(layout::POSITIONS) == 64),
    ("with a negative zero", |s| positive(s.account) != s.account),
    ("with a cap of 0", |s| [0, 1].map(|k| s.word(layout::setting(layout::Setting::CapMark) + k)) == [1, 0]),
    ("without a cap", |s| s.word(layout::setting(layout::Setting::CapMark)) == 0),
    ("with the lowest number", |s| s.any(1 << 63)),
    ("with the highest", |s| s.any((1 << 63) - 1)),
    ("with the highest count", |s| s.any(u64::MAX)),
    ("with the longest file", |s| s.file.len() == FILE_SIZE),
    ("into just enough room", |s| s.file.len() == s.room),
    ("into a byte too few", |s| s.file.len() == s.room + 1),
];

/// The port's account, saved and loaded before every call.
struct Stored(Port);

impl scenario::Account for Stored {
    fn open(opening: &scenario::Opening) -> (u64, Stored) {
        let (answer, account) = Port::open(opening);
        (answer, Stored(account))
    }

    fn call(&mut self, step: &Step) -> Option<Outcome> {
        self.0.through_a_file();
        self.0.call(step)
    }

    fn view(&self) -> View {
        self.0.view()
    }
}

/// "Saving and loading between calls changes no later answer .., that sign apart."
fn between(seed: u64, count: u64) -> bool {
    let (mut differ, mut calls) = (0u64, 0);
    for k in 0..count {
        let scenario: Scenario = scenario(&mut Random::new(seed.wrapping_add(k)));
        let [plain, stored] = [play::<Port>(&scenario), play::<Stored>(&scenario)].map(|played| {
            calls += played.calls.len();
            unsigned_zeros(&written(&scenario, &played))
        });
        differ += u64::from(plain != stored);
    }
    println!(
        "saved: {count} scenarios, {calls} calls, with a save and a load before each and without; {differ} differ"
    );
    differ == 0
}

/// The lines of settings have their rates as patterns, and nothing else of sixteen digits.
fn unsigned_zeros(text: &str) -> String {
    let unsigned = |line: &str| match line.starts_with("< settings ") {
        true => line.replace("8000000000000000", "0000000000000000"),
        false => line.to_owned(),
    };
    text.lines().map(|line| unsigned(line) + "\n").collect()
}
