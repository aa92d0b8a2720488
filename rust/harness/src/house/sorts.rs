//! What groups a run met: each sort must be, or the run fails.

use super::draw::{BEYOND, ENDS, LOW_WORDS};
use super::group::Group;
use super::reference::{KINDS, Sums, fits};
use std::fmt;

/// A group, and the reference's numbers, answer and rates for it.
pub struct Seen<'a> {
    pub group: &'a Group,
    pub sums: &'a Sums,
    pub answer: u64,
    pub rates: &'a [f64],
}

type Sort = (&'static str, fn(&Seen) -> bool);

const SORTS: &[Sort] = &[
    ("done", |s| s.answer == 0),
    ("refused with 14", |s| s.answer == 14),
    ("refused with 15", |s| s.answer == 15),
    ("of one account in one part", |s| s.size() == [1, 1]),
    ("an account absent at its first end alone", |s| s.marked([0, 1])),
    ("at its last end alone", |s| s.marked([1, 0])),
    ("at both", |s| s.marked([0, 0])),
    ("a part with nobody", |s| s.nobody()),
    ("another first sum or answer were numbers behind marks read", |s| s.read_behind()),
    ("a first sum of 0", |s| s.sums.firsts.contains(&0)),
    ("of -1", |s| s.sums.firsts.contains(&-1)),
    ("14 for the last part alone", |s| s.answer == 14 && s.first_14() == Some(s.group.parts - 1)),
    ("15 in a later part than 14", |s| s.later_15()),
    ("15 though every amount is within -2^55 and 2^55 - 1", |s| s.answer == 15 && s.within()),
    ("15 for a finished change alone, and 14", |s| s.finished_leave() && s.first_14().is_some()),
];

/// Of those that are done.
const DONE: &[Sort] = &[
    ("of 32 accounts in 64 parts", |s| s.size() == [32, 64]),
    ("an account absent throughout", |s| s.throughout()),
    ("an account that begins a part as it ended the last", |s| s.goes_on(true)),
    ("after a deposit or withdrawal", |s| s.goes_on(false)),
    ("a first sum of 1", |s| s.sums.firsts.contains(&1)),
    ("every amount within -2^55 and 2^55 - 1, and some at either", |s| s.within() && s.at_both()),
    ("-2^55 - 1 alone beyond, at a first end", |s| s.alone_beyond(0, BEYOND[0])),
    ("at a last end", |s| s.alone_beyond(1, BEYOND[0])),
    ("2^55 alone beyond, at a first end", |s| s.alone_beyond(0, BEYOND[1])),
    ("at a last end", |s| s.alone_beyond(1, BEYOND[1])),
    ("-2^55 - 1 behind a mark alone beyond", |s| s.left_out_alone(0, BEYOND[0])),
    ("2^55", |s| s.left_out_alone(0, BEYOND[1])),
    ("-2^55 - 1 alone beyond, the other end absent", |s| s.left_out_alone(1, BEYOND[0])),
    ("2^55", |s| s.left_out_alone(1, BEYOND[1])),
    ("a first sum that leaves i64 on the way", |s| s.parts().any(|part| on_the_way(part, |[first, _]| first))),
    ("a part's change", |s| s.parts().any(|part| on_the_way(part, |[first, last]| last - first))),
    ("an account's change", |s| s.accounts().any(|parts| on_the_way(parts, |[first, last]| last - first))),
    ("the group's by accounts", |s| leaves(s.sums.own.iter().copied())),
    ("the group's by parts", |s| leaves(s.sums.gains.iter().copied())),
    ("a last sum that leaves i64", |s| {
        s.sums.firsts.iter().zip(&s.sums.gains).any(|(first, gain)| !fits(&(first + gain)))
    }),
    ("another growth were equities doubles before they are added", |s| s.rounds_early()),
    ("another figure in another order of parts", |s| !s.figure().is_nan() && s.figure_backwards() != s.figure()),
    ("a growth of -1", |s| s.rates[1..].contains(&-1.0)),
    ("below -1", |s| s.rates[1..].iter().any(|growth| *growth < -1.0)),
    ("a figure of -1 though no part lost all", |s| s.figure() == -1.0 && !s.rates[1..].contains(&-1.0)),
    ("a figure of a product that was subnormal", |s| s.subnormal()),
    ("a figure of infinity", |s| s.figure() == f64::INFINITY),
    ("of -infinity", |s| s.figure() == f64::NEG_INFINITY),
    ("a NaN", |s| s.figure().is_nan()),
];

/// Whether a sum leaves i64 on its way.
fn leaves(mut numbers: impl Iterator<Item = i128>) -> bool {
    let mut sum = 0;
    numbers.any(|n| {
        sum += n;
        !fits(&sum)
    })
}

fn on_the_way(ends: impl Iterator<Item = [i64; 2]>, number: fn([i128; 2]) -> i128) -> bool {
    leaves(ends.map(|ends| number(ends.map(i128::from))))
}

impl Seen<'_> {
    fn size(&self) -> [usize; 2] {
        [self.group.accounts, self.group.parts]
    }

    fn cells(&self) -> impl Iterator<Item = (usize, usize)> {
        let [accounts, parts] = self.size();
        (0..parts).flat_map(move |part| (0..accounts).map(move |account| (part, account)))
    }

    fn marked(&self, marks: [u8; 2]) -> bool {
        self.cells().any(|(part, account)| self.group.marked(part, account) == marks)
    }

    /// The ends of those who are there, part by part, and account by account.
    fn parts(&self) -> impl Iterator<Item = impl Iterator<Item = [i64; 2]>> {
        let group = self.group;
        (0..group.parts).map(move |part| (0..group.accounts).filter_map(move |account| group.ends(part, account)))
    }

    fn accounts(&self) -> impl Iterator<Item = impl Iterator<Item = [i64; 2]>> {
        let group = self.group;
        (0..group.accounts).map(move |account| (0..group.parts).filter_map(move |part| group.ends(part, account)))
    }

    /// The amounts that count, each with its end.
    fn amounts(&self) -> impl Iterator<Item = (usize, i64)> {
        self.parts().flatten().flat_map(|ends| (0..).zip(ends))
    }

    fn beyond(&self) -> impl Iterator<Item = (usize, i64)> {
        self.amounts().filter(|(_, equity)| !LOW_WORDS.contains(equity))
    }

    fn within(&self) -> bool {
        self.beyond().next().is_none()
    }

    fn at_both(&self) -> bool {
        [LOW_WORDS.start, LOW_WORDS.end - 1].iter().all(|end| self.amounts().any(|(_, equity)| equity == *end))
    }

    fn alone_beyond(&self, end: usize, equity: i64) -> bool {
        let mut beyond = self.beyond();
        beyond.next() == Some((end, equity)) && beyond.next().is_none()
    }

    /// It has this mark and does not count, and no other number is beyond, be it read or not.
    fn left_out_alone(&self, mark: u8, equity: i64) -> bool {
        let Group { marks, equities, .. } = self.group;
        let mut beyond = marks.iter().zip(equities).filter(|(_, equity)| !LOW_WORDS.contains(equity));
        beyond.next() == Some((&mark, &equity)) && beyond.next().is_none() && self.within()
    }

    fn throughout(&self) -> bool {
        self.accounts().any(|mut parts| parts.next().is_none())
    }

    fn nobody(&self) -> bool {
        self.parts().any(|mut accounts| accounts.next().is_none())
    }

    fn read_behind(&self) -> bool {
        let all = Group { marks: vec![1; self.group.marks.len()], ..self.group.clone() };
        let sums = Sums::of(&all);
        self.group.marks.contains(&0) && (sums.answer(&all) != self.answer || sums.firsts != self.sums.firsts)
    }

    fn goes_on(&self, unchanged: bool) -> bool {
        let ends = |part, account| self.group.ends(part, account);
        self.cells().any(|(part, account)| {
            part > 0
                && ends(part - 1, account).zip(ends(part, account)).is_some_and(|(a, b)| (a[1] == b[0]) == unchanged)
        })
    }

    /// The first part whose first sum is not positive.
    fn first_14(&self) -> Option<usize> {
        self.sums.firsts.iter().position(|sum| *sum <= 0)
    }

    /// Something within a part leaves i64, in a later part than the first of 14 and in none before.
    fn later_15(&self) -> bool {
        let mut parts = self.parts().zip(self.sums.firsts.iter().zip(&self.sums.gains));
        let leaves = parts.position(|(mut ends, (first, gain))| {
            !fits(first) || !fits(gain) || ends.any(|[first, last]| last.checked_sub(first).is_none())
        });
        leaves.zip(self.first_14()).is_some_and(|(leaves, bad)| bad < leaves)
    }

    /// Nothing within a part leaves i64, and an account's change or the group's does.
    fn finished_leave(&self) -> bool {
        let [changes, firsts, gains, own, group] = self.sums.kinds().map(|kind| kind.iter().all(fits));
        changes && firsts && gains && !(own && group)
    }

    fn rounds_early(&self) -> bool {
        let sum = |(sum, gain), [first, last]: [i64; 2]| (sum + first as f64, gain + (last as f64 - first as f64));
        self.parts()
            .map(|part| part.fold((0.0, 0.0), sum))
            .zip(&self.rates[1..])
            .any(|((sum, gain), growth)| gain / sum != *growth)
    }

    fn figure(&self) -> f64 {
        self.rates[0]
    }

    fn figure_backwards(&self) -> f64 {
        self.rates[1..].iter().rev().fold(1.0, |product, growth| product * (1.0 + growth)) - 1.0
    }

    /// The product is subnormal on its way, and the figure still tells of it.
    fn subnormal(&self) -> bool {
        let mut product = 1.0f64;
        let mut met = self.rates[1..].iter().map(|growth| {
            product *= 1.0 + growth;
            product.is_subnormal()
        });
        met.any(|subnormal| subnormal) && self.figure() != -1.0
    }

    /// A number of the kind is this end, and every other number of any kind is further inside i64 than its last ones.
    fn at(&self, kind: usize, end: i128) -> bool {
        let inside = |n: &i128| *n > i64::MIN.into() && *n < i64::MAX.into();
        let kinds = self.sums.kinds();
        let mut all = kinds.iter().enumerate().flat_map(|(k, numbers)| numbers.iter().map(move |n| (k, n)));
        kinds[kind].contains(&end) && all.all(|(k, n)| inside(n) || (k == kind && *n == end))
    }
}

/// How often each sort was met, and each kind of number alone at each end.
pub struct Met {
    sorts: Vec<u64>,
    done: Vec<u64>,
    ends: [[u64; ENDS.len()]; KINDS.len()],
}

impl Default for Met {
    fn default() -> Met {
        Met { sorts: vec![0; SORTS.len()], done: vec![0; DONE.len()], ends: Default::default() }
    }
}

impl Met {
    pub fn add(&mut self, seen: &Seen) {
        let count = |met: &mut [u64], sorts: &[Sort]| {
            met.iter_mut().zip(sorts).for_each(|(met, (_, sort))| *met += u64::from(sort(seen)));
        };
        count(&mut self.sorts, SORTS);
        if seen.answer == 0 {
            count(&mut self.done, DONE);
        }
        for (kind, met) in self.ends.iter_mut().enumerate() {
            met.iter_mut().zip(ENDS).for_each(|(met, end)| *met += u64::from(seen.at(kind, end)));
        }
    }

    pub fn all(&self) -> bool {
        self.sorts.iter().chain(&self.done).chain(self.ends.as_flattened()).all(|met| *met > 0)
    }
}

impl fmt::Display for Met {
    fn fmt(&self, f: &mut fmt::Formatter) -> fmt::Result {
        let said = |sorts: &[Sort], met: &[u64]| {
            sorts.iter().zip(met).map(|((name, _), n)| format!("{name} {n}")).collect::<Vec<_>>().join(", ")
        };
        let ends = KINDS.iter().zip(&self.ends).map(|(kind, [a, b, c, d])| format!("{kind} {a}, {b}, {c}, {d}"));
        writeln!(f, "{}; of those done: {}", said(SORTS, &self.sorts), said(DONE, &self.done))?;
        write!(f, "house: alone at 2^63 - 1, 2^63, -2^63 and -2^63 - 1: {}", ends.collect::<Vec<_>>().join("; "))
    }
}
