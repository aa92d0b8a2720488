//! Groups and what they gave as lines of text, as `scenario::text` writes calls; '-' for an equity that is absent.

use super::draw::draw;
use super::group::{Gave, Group, Places, called};
use scenario::{Random, text};
use std::io::Write;
use threshcoil_sys as port;

/// Writes `count` groups with the port's answers, some of them with too few or too many accounts or parts.
pub fn emit(seed: u64, count: u64, out: &mut dyn Write) -> bool {
    let mut random = Random::new(seed);
    (0..count).all(|_| {
        let mut group = draw(&mut random);
        if random.one_in(40) {
            let accounts = random.pick(&[0, 33, group.accounts]);
            let parts = random.pick(&[0, 65, group.parts]);
            group = Group::new(accounts, parts);
            group.equities.fill_with(|| random.i64());
        }
        write!(out, "> {}\n{}", asked(&group), told(&called(port::tc_house_return, &group))).is_ok()
    })
}

pub fn asked(group: &Group) -> String {
    let equity = |at: usize| match group.marks[at] {
        0 => "-".to_owned(),
        _ => group.equities[at].to_string(),
    };
    let part = |p: usize| text::spaced((group.at(p, 0)..group.at(p + 1, 0)).map(equity));
    let parts: String = (0..group.parts).map(|p| format!(" | {}", part(p))).collect();
    format!("house {}{parts}", group.accounts)
}

/// What a refusal that left a place otherwise than as found gives, and nothing else.
const TOUCHED: u64 = 255;

pub fn told(Gave { answer, places }: &Gave) -> String {
    if *answer != 0 {
        let found = Places::found([places.rates.len(), places.changes.len(), places.firsts.len(), places.gains.len()]);
        return format!("< answer {}\n", if places.same(&found) { *answer } else { TOUCHED });
    }
    let [figure, growths @ ..] = &places.rates[..] else { return String::new() };
    let parts = places.firsts.iter().zip(&places.gains).zip(growths);
    let parts: String =
        parts.map(|((first, gain), growth)| format!("< part {first} {gain} {}\n", double(*growth))).collect();
    let changes = text::spaced(places.changes.iter());
    format!("< answer 0\n< figure {}\n< changes {changes}\n{parts}", double(*figure))
}

/// All NaNs are one.
fn double(x: f64) -> String {
    text::bits(if x.is_nan() { f64::NAN } else { x })
}
