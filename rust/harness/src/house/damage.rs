//! Groups with counts, lengths and marks that must be refused. What is damaged says what is to be answered, by the order of the numbers
//! alone; after a refusal every lent place is as found.

use super::bench::in_rust;
use super::draw::draw;
use super::group::{Entry, Group, Places};
use super::reference::Sums;
use scenario::Random;
use threshcoil_sys as port;

/// Document 02's order, with 1 for a mark above 1 where the header has it.
const ORDER: [u64; 5] = [13, 6, 1, 15, 14];

/// What a call is given, and the lengths of the places that it is lent: rates, changes, firsts and gains.
struct Given {
    accounts: u64,
    parts: u64,
    marks: Vec<u8>,
    equities: Vec<i64>,
    places: [usize; 4],
}

/// What is damaged, the number that it makes apply, and how.
type Damage = (&'static str, u64, fn(&mut Random, &mut Given));

/// At most one of each table is made, in their order, so that none mends another. Twice 2^63 is 0 in a word of 64 bits.
const TABLES: [&[Damage]; 4] = [
    &[
        ("0 accounts", 13, |_, g| g.accounts = 0),
        ("33 accounts", 13, |_, g| g.accounts = 33),
        ("2^64 - 1 accounts", 13, |_, g| g.accounts = u64::MAX),
        ("2^63 accounts more", 13, |_, g| g.accounts += 1 << 63),
        ("0 accounts with their lists", 13, |_, g| g.of(0, g.parts)),
        ("33 accounts with their lists", 13, |_, g| g.of(33, g.parts)),
        ("accounts of another group", 6, |_, g| g.accounts = 1 + g.accounts % 32),
    ],
    &[
        ("0 parts", 6, |_, g| g.parts = 0),
        ("65 parts", 6, |_, g| g.parts = 65),
        ("2^64 - 1 parts", 6, |_, g| g.parts = u64::MAX),
        ("2^63 parts more", 6, |_, g| g.parts += 1 << 63),
        ("0 parts with their lists", 6, |_, g| g.of(g.accounts, 0)),
        ("65 parts with their lists", 6, |_, g| g.of(g.accounts, 65)),
        ("parts of another group", 6, |_, g| g.parts = 1 + g.parts % 64),
    ],
    &[
        ("a mark of 2", 1, |r, g| mark(r, g, [2])),
        ("a mark of 255", 1, |r, g| mark(r, g, [255])),
        ("a mark above 1", 1, |r, g| {
            let any = 2 + r.below(254) as u8;
            mark(r, g, [any])
        }),
        ("a mark above 1 behind an absent end", 1, |r, g| {
            let any = 2 + r.below(254) as u8;
            mark(r, g, [0, any])
        }),
    ],
    &[
        ("fewer marks", 6, |r, g| g.marks.truncate(fewer(r, g.marks.len()))),
        ("fewer equities", 6, |r, g| g.equities.truncate(fewer(r, g.equities.len()))),
        ("fewer rates", 6, |r, g| g.places[0] = fewer(r, g.places[0])),
        ("fewer changes", 6, |r, g| g.places[1] = fewer(r, g.places[1])),
        ("fewer firsts", 6, |r, g| g.places[2] = fewer(r, g.places[2])),
        ("fewer gains", 6, |r, g| g.places[3] = fewer(r, g.places[3])),
        ("more marks", 6, |r, g| g.marks.resize(more(r, g.marks.len()), 1)),
        ("more equities", 6, |r, g| g.equities.resize(more(r, g.equities.len()), 1)),
        ("more rates", 6, |r, g| g.places[0] = more(r, g.places[0])),
        ("more changes", 6, |r, g| g.places[1] = more(r, g.places[1])),
        ("more firsts", 6, |r, g| g.places[2] = more(r, g.places[2])),
        ("more gains", 6, |r, g| g.places[3] = more(r, g.places[3])),
    ],
];

/// By one, or by more.
fn fewer(random: &mut Random, length: usize) -> usize {
    let all = length.max(1) as u64;
    length.saturating_sub(if random.one_in(2) { 1 } else { 1 + random.below(all) as usize })
}

fn more(random: &mut Random, length: usize) -> usize {
    length + if random.one_in(2) { 1 } else { 1 + random.below(2 * length as u64 + 2) as usize }
}

/// Puts a mark, or an account's two, anywhere; in an empty list, which is refused anyway, at its beginning.
fn mark<const N: usize>(random: &mut Random, given: &mut Given, marks: [u8; N]) {
    let all = given.marks.len();
    let at = N * random.below((all / N).max(1) as u64) as usize;
    given.marks.splice(at..all.min(at + N), marks);
}

impl Given {
    /// A group that is lent as it should be, and which of 15 and 14 apply.
    fn draw(random: &mut Random) -> (Given, Vec<u64>) {
        let group = draw(random);
        let sums = Sums::of(&group);
        let Group { accounts, parts, marks, equities } = group;
        let mut given = Given { accounts: 0, parts: 0, marks, equities, places: [0; 4] };
        given.of(accounts as u64, parts as u64);
        let numbers = [(15, sums.leave()), (14, sums.no_first_sum())];
        (given, numbers.iter().filter(|(_, applies)| *applies).map(|(number, _)| *number).collect())
    }

    /// So many accounts and parts, and lists of lengths to match. Counts that no list can match are left with the lists that they have.
    fn of(&mut self, accounts: u64, parts: u64) {
        (self.accounts, self.parts) = (accounts, parts);
        if let [Ok(n @ 0..=33), Ok(m @ 0..=65)] = [accounts, parts].map(usize::try_from) {
            self.marks.resize(2 * n * m, 1);
            self.equities.resize(2 * n * m, 1_000);
            self.places = [1 + m, 1 + n, m, m];
        }
    }

    /// The answer, and whether a refusal left every place as found.
    fn call(&self, entry: Entry) -> (u64, bool) {
        let mut places = Places::found(self.places);
        let Places { rates, changes, firsts, gains } = &mut places;
        let answer = entry(self.accounts, self.parts, &self.marks, &self.equities, rates, changes, firsts, gains);
        (answer, answer == 0 || places.same(&Places::found(self.places)))
    }
}

/// How often each damage was made alone, and each number told before another that applied too.
struct Met {
    alone: [Vec<u64>; TABLES.len()],
    before: [[u64; ORDER.len()]; ORDER.len()],
}

impl Met {
    fn add(&mut self, made: &[(usize, usize)], numbers: &[u64]) {
        if let [(table, row)] = made {
            self.alone[*table][*row] += 1;
        }
        let applies = ORDER.map(|number| numbers.contains(&number));
        let told = applies.iter().position(|applies| *applies);
        for (told, later) in told.into_iter().flat_map(|told| (told + 1..ORDER.len()).map(move |later| (told, later))) {
            self.before[told][later] += u64::from(applies[later]);
        }
    }

    /// What was met how often, and whether all was.
    fn told(&self) -> (String, bool) {
        let alone = TABLES.iter().zip(&self.alone).flat_map(|(rows, met)| rows.iter().zip(met));
        let alone = alone.map(|((name, ..), n)| (name.to_string(), *n));
        let pairs = (0..ORDER.len()).flat_map(|a| (a + 1..ORDER.len()).map(move |b| (a, b)));
        let before = pairs.map(|(a, b)| (format!("{} before {}", ORDER[a], ORDER[b]), self.before[a][b]));
        let all: Vec<(String, u64)> = alone.chain(before).collect();
        let said: Vec<String> = all.iter().map(|(name, n)| format!("{name} {n}")).collect();
        (said.join(", "), all.iter().all(|(_, n)| *n > 0))
    }
}

/// Damages `count` groups. True where every answer was right, every place as found after a refusal, and every damage met.
pub fn run(random: &mut Random, count: u64) -> bool {
    let mut met = Met { alone: TABLES.map(|rows| vec![0; rows.len()]), before: Default::default() };
    let mut wrong = 0u64;
    for _ in 0..count {
        let (mut given, mut numbers) = Given::draw(random);
        let mut made = Vec::new();
        for (table, rows) in TABLES.iter().enumerate().filter(|_| random.one_in(2)).collect::<Vec<_>>() {
            let row = random.below(rows.len() as u64) as usize;
            let (_, number, damage) = rows[row];
            damage(random, &mut given);
            numbers.push(number);
            made.push((table, row));
        }
        met.add(&made, &numbers);
        let expected = ORDER.into_iter().find(|number| numbers.contains(number)).unwrap_or(0);
        let (answer, kept) = given.call(port::tc_house_return);
        assert_eq!(given.call(in_rust), (expected, true), "what is timed is the same function");
        if (answer, kept) != (expected, true) {
            wrong += 1;
            if wrong <= 3 {
                let what: Vec<&str> = made.iter().map(|(table, row)| TABLES[*table][*row].0).collect();
                println!("WRONG: {}: answers {answer}, expected {expected}, as found {kept}", what.join(", "));
            }
        }
    }
    let (said, all) = met.told();
    println!("house: damaged {count} groups, {wrong} wrong; alone {said}");
    wrong == 0 && all
}
