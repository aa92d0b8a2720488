//! A group as the C entry is lent it, and the places that are lent to be written.

/// Whatever answers for a group: the port, or the sums in Rust that are timed beside it.
pub type Entry = fn(u64, u64, &[u8], &[i64], &mut [f64], &mut [i64], &mut [i64], &mut [i64]) -> u64;

/// Marks and equities part by part, in a part account by account, first end and last.
#[derive(Clone)]
pub struct Group {
    pub accounts: usize,
    pub parts: usize,
    pub marks: Vec<u8>,
    pub equities: Vec<i64>,
}

impl Group {
    /// Every equity there, and 0.
    pub fn new(accounts: usize, parts: usize) -> Group {
        let length = 2 * accounts * parts;
        Group { accounts, parts, marks: vec![1; length], equities: vec![0; length] }
    }

    /// Where an account's first end stands; its last is the next.
    pub fn at(&self, part: usize, account: usize) -> usize {
        2 * (part * self.accounts + account)
    }

    pub fn marked(&self, part: usize, account: usize) -> [u8; 2] {
        let at = self.at(part, account);
        [self.marks[at], self.marks[at + 1]]
    }

    /// "An account missing at either end is left out of that part."
    pub fn ends(&self, part: usize, account: usize) -> Option<[i64; 2]> {
        let at = self.at(part, account);
        (self.marked(part, account) == [1, 1]).then(|| [self.equities[at], self.equities[at + 1]])
    }

    /// There at both ends.
    pub fn put(&mut self, part: usize, account: usize, ends: [i64; 2]) {
        let at = self.at(part, account);
        self.marks[at..at + 2].fill(1);
        self.equities[at..at + 2].copy_from_slice(&ends);
    }
}

/// The places that a call is lent to write.
#[derive(Clone)]
pub struct Places {
    pub rates: Vec<f64>,
    pub changes: Vec<i64>,
    pub firsts: Vec<i64>,
    pub gains: Vec<i64>,
}

/// What stands in every place before a call.
const INT: i64 = -0x5a5a_5a5a_5a5a_5a5a;
const RATE: f64 = f64::from_bits(0x5a5a_5a5a_5a5a_5a5a);

impl Places {
    /// As found, in such lengths.
    pub fn found([rates, changes, firsts, gains]: [usize; 4]) -> Places {
        let ints = |length| vec![INT; length];
        Places { rates: vec![RATE; rates], changes: ints(changes), firsts: ints(firsts), gains: ints(gains) }
    }

    pub fn of(accounts: usize, parts: usize) -> Places {
        Places::found([1 + parts, 1 + accounts, parts, parts])
    }

    /// Bit for bit, but that all NaNs are one.
    pub fn same(&self, other: &Places) -> bool {
        let rate = |(x, y): (&f64, &f64)| x.to_bits() == y.to_bits() || (x.is_nan() && y.is_nan());
        self.rates.len() == other.rates.len()
            && self.rates.iter().zip(&other.rates).all(rate)
            && (&self.changes, &self.firsts, &self.gains) == (&other.changes, &other.firsts, &other.gains)
    }
}

/// The answer to a call, and the places after it.
pub struct Gave {
    pub answer: u64,
    pub places: Places,
}

impl Gave {
    pub fn same(&self, other: &Gave) -> bool {
        self.answer == other.answer && self.places.same(&other.places)
    }
}

pub fn called(entry: Entry, group: &Group) -> Gave {
    let mut places = Places::of(group.accounts, group.parts);
    let Places { rates, changes, firsts, gains } = &mut places;
    let (accounts, parts) = (group.accounts as u64, group.parts as u64);
    let answer = entry(accounts, parts, &group.marks, &group.equities, rates, changes, firsts, gains);
    Gave { answer, places }
}
