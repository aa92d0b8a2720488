//! A group of accounts as a text file has it: who is in it, and what each was worth at both ends of each part.

use crate::lines::{Said, cents, lines, shown};
use std::ops::Range;

/// What an account was worth at the ends of a part, none where it was absent.
#[derive(Clone, Copy, Debug)]
pub struct Ends {
    /// Its place among the accounts.
    pub account: usize,
    pub first: Option<i64>,
    pub last: Option<i64>,
}

#[derive(Clone, Debug)]
pub struct Part {
    pub line: usize,
    pub label: String,
    /// Of the accounts that are named in it.
    pub ends: Vec<Said<Ends>>,
}

impl Ends {
    pub fn whole(&self) -> bool {
        self.first.is_some() && self.last.is_some()
    }
}

impl Part {
    pub fn of(&self, account: usize) -> Option<&Said<Ends>> {
        self.ends.iter().find(|said| said.what.account == account)
    }

    /// Whether the account is there at both ends.
    pub fn counts(&self, account: usize) -> bool {
        self.of(account).is_some_and(|said| said.what.whole())
    }

    /// How many accounts are.
    pub fn counted(&self) -> usize {
        self.ends.iter().filter(|said| said.what.whole()).count()
    }

    /// Of those that are; where it fits i64 it is exact, whatever it comes to on the way.
    pub fn first_sum(&self) -> i64 {
        let whole = self.ends.iter().filter(|said| said.what.whole());
        whole.filter_map(|said| said.what.first).fold(0, i64::wrapping_add)
    }
}

#[derive(Clone, Debug)]
pub struct House {
    pub name: String,
    /// Where it has its name from.
    named: Option<usize>,
    pub accounts: Vec<Said<String>>,
    pub parts: Vec<Part>,
}

impl House {
    /// The places of all accounts.
    pub fn all(&self) -> Range<usize> {
        0..self.accounts.len()
    }
}

/// The words that begin a line; each other one is an account's.
const WORDS: [&str; 3] = ["name", "accounts", "part"];

/// Reads the whole text. What can't be read stands in the second list, line by line.
pub fn read(text: &str) -> (House, Vec<Said<String>>) {
    let mut house = House { name: "House".into(), named: None, accounts: Vec::new(), parts: Vec::new() };
    let mut unread = Vec::new();
    for (line, word, rest) in lines(text) {
        // No word here is more than told or compared.
        let (word, rest) = (&shown(word), &shown(rest));
        unread.extend(take(&mut house, line, word, rest).err().map(|what| Said { line, what }));
    }
    (house, unread)
}

fn take(house: &mut House, line: usize, word: &str, rest: &str) -> Result<(), String> {
    match (word, house.parts.last_mut()) {
        ("part", _) => {
            house.parts.push(Part { line, label: rest.into(), ends: Vec::new() });
            if rest.is_empty() { Err("a part has a label".into()) } else { Ok(()) }
        }
        ("name" | "accounts", Some(_)) => Err(format!("'{word}' comes before the first part")),
        ("name", None) if rest.is_empty() => Err("'name' names nothing".into()),
        ("name", None) => match house.named.replace(line) {
            Some(first) => Err(format!("the house has a name already, on line {first}")),
            None => {
                house.name = rest.into();
                Ok(())
            }
        },
        ("accounts", None) => take_accounts(&mut house.accounts, line, rest),
        (_, Some(part)) => match house.accounts.iter().position(|said| said.what == word) {
            Some(account) => take_ends(part, line, account, word, rest),
            None => Err(format!("'{word}' is neither part nor one of the accounts")),
        },
        (_, None) => Err(format!("'{word}' is neither name, accounts nor part, and no part has begun")),
    }
}

/// Takes those that can be taken, so that their lines in parts are not told as well.
fn take_accounts(accounts: &mut Vec<Said<String>>, line: usize, rest: &str) -> Result<(), String> {
    let mut taken = if rest.is_empty() { Err("no account is named".into()) } else { Ok(()) };
    for name in rest.split_whitespace() {
        if accounts.iter().any(|said| said.what == name) {
            taken = Err(format!("'{name}' stands twice among the accounts"));
        } else if WORDS.contains(&name) {
            taken = Err(format!("'{name}' begins a line of another kind, so no account has that name"));
        } else {
            accounts.push(Said { line, what: name.into() });
        }
    }
    taken
}

fn take_ends(part: &mut Part, line: usize, account: usize, name: &str, rest: &str) -> Result<(), String> {
    if let Some(said) = part.of(account) {
        return Err(format!("'{name}' stands twice in the part, first on line {}", said.line));
    }
    let words: Vec<&str> = rest.split_whitespace().collect();
    let [first, last] = words[..] else {
        return Err(format!("'{name}' has a first and a last equity in a part, - where it is absent"));
    };
    let equity = |word| if word == "-" { Ok(None) } else { cents(word).map(Some) };
    let what = Ends { account, first: equity(first)?, last: equity(last)? };
    part.ends.push(Said { line, what });
    Ok(())
}

#[cfg(test)]
mod tests {
    use super::*;

    #[test]
    fn an_account_that_is_not_named_is_absent() {
        let (house, unread) = read("accounts A B\naccounts C\npart one\nC 1.00 2\nA - 0.5\npart two\n");
        assert!(unread.is_empty(), "{unread:?}");
        let ends = |account| house.parts[0].of(account).map(|said| (said.line, said.what.first, said.what.last));
        assert_eq!([ends(0), ends(1), ends(2)], [Some((5, None, Some(50))), None, Some((4, Some(100), Some(200)))]);
        assert_eq!([0, 1, 2].map(|account| house.parts[0].counts(account)), [false, false, true]);
        assert!(house.parts[1].ends.is_empty());
    }

    #[test]
    fn what_is_good_of_a_bad_line_is_not_told_twice() {
        let (house, unread) = read("accounts A part A B\npart\nA 1 2\nB 1 2\n");
        assert_eq!(unread.iter().map(|said| said.line).collect::<Vec<_>>(), [1, 2]);
        assert_eq!((house.accounts.len(), house.parts[0].ends.len()), (2, 2));
    }
}
