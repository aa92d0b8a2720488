//! Random groups, most of them small: everyday equities, and those at which marks, sums and doubles turn. What a group is meant for
//! is not told: a run counts what it finds.

use super::group::Group;
use super::reference::Sums;
use scenario::Random;
use std::ops::Range;

/// The last number of i64 and the first past it, at either end.
pub const ENDS: [i128; 4] = [i64::MAX as i128, i64::MAX as i128 + 1, i64::MIN as i128, i64::MIN as i128 - 1];

/// The amounts of which the library adds low words alone; beyond them it adds both.
pub const LOW_WORDS: Range<i64> = -(1 << 55)..1 << 55;

/// The first amounts beyond.
pub const BEYOND: [i64; 2] = [LOW_WORDS.start - 1, LOW_WORDS.end];

pub fn draw(random: &mut Random) -> Group {
    let shape = shape(random);
    match random.below(17) {
        0..=5 => everyday(random, shape),
        6 => far(random, shape),
        7..=9 => balanced(random, shape),
        10..=12 => at_an_end(random, shape),
        13 => {
            let mut group = everyday(random, shape);
            first_sum(random, &mut group);
            group
        }
        14 => low_words(random, shape),
        _ => steep(random),
    }
}

/// Accounts and parts.
fn shape(random: &mut Random) -> (usize, usize) {
    let mut up_to = |most: u64| 1 + random.below(most) as usize;
    match up_to(256) {
        1 => (32, 64),
        2..=6 => (up_to(32), up_to(64)),
        7..=20 => (1, 1),
        21..=40 => (1, up_to(8)),
        41..=60 => (up_to(8), 1),
        _ => (up_to(5), up_to(6)),
    }
}

fn amount(random: &mut Random) -> i64 {
    let digits = 3 + random.below(7) as u32;
    1_000 + random.below(10u64.pow(digits)) as i64
}

/// Up to a twentieth up or down; now and then all is lost, and more.
fn moved(random: &mut Random, equity: i64) -> i64 {
    if random.one_in(60) {
        return -(random.below(1 + equity.unsigned_abs()) as i64);
    }
    equity + equity / 1_000 * (random.below(101) as i64 - 50) + random.below(40) as i64 - 20
}

/// Accounts of any common size, with deposits and withdrawals between the parts, and some of them absent.
fn everyday(random: &mut Random, (accounts, parts): (usize, usize)) -> Group {
    let mut group = Group::new(accounts, parts);
    for account in 0..accounts {
        let mut equity = amount(random);
        for part in 0..parts {
            let last = moved(random, equity);
            group.put(part, account, [equity, last]);
            equity = match random.below(6) {
                0 => last + amount(random),
                1 => last - last / 4,
                _ => last,
            };
        }
    }
    leave_out(random, &mut group);
    group
}

/// Single ends, one in so many; now and then an account throughout, or all of a part.
fn leave_out(random: &mut Random, group: &mut Group) {
    let one_in = random.pick(&[0, 0, 3, 10, 10]);
    for at in 0..group.marks.len() {
        if one_in > 0 && random.one_in(one_in) {
            hide(random, group, at);
        }
    }
    if random.one_in(8) {
        let account = random.below(group.accounts as u64) as usize;
        (0..group.parts).for_each(|part| hide_either(random, group, part, account));
    }
    if random.one_in(16) {
        let part = random.below(group.parts as u64) as usize;
        (0..group.accounts).for_each(|account| hide_either(random, group, part, account));
    }
}

fn hide_either(random: &mut Random, group: &mut Group, part: usize, account: usize) {
    let at = group.at(part, account) + random.below(2) as usize;
    hide(random, group, at);
    if random.one_in(2) {
        hide(random, group, at ^ 1);
    }
}

/// Absent, with a number behind the mark that may be anything.
fn hide(random: &mut Random, group: &mut Group, at: usize) {
    group.marks[at] = 0;
    group.equities[at] = behind(random, group.equities[at]);
}

fn behind(random: &mut Random, found: i64) -> i64 {
    match random.below(4) {
        0 => random.pick(&[i64::MIN, i64::MAX, 0, -1]),
        1 => random.i64(),
        2 => amount(random),
        _ => found,
    }
}

/// Other numbers behind the marks of absence.
pub fn redrawn_behind(random: &mut Random, group: &Group) -> Group {
    let mut group = group.clone();
    for at in (0..group.marks.len()).filter(|at| group.marks[*at] == 0) {
        group.equities[at] = behind(random, group.equities[at]);
    }
    group
}

/// Equities of any length, or all about the ends of i64 and 0.
fn far(random: &mut Random, (accounts, parts): (usize, usize)) -> Group {
    let mut group = Group::new(accounts, parts);
    let sort = random.below(3);
    for equity in &mut group.equities {
        let near = random.below(9) as i64 - 4;
        *equity = match sort {
            0 => random.i64(),
            1 => random.i64() / (4 * accounts * parts) as i64,
            _ => random.pick(&[i64::MAX, i64::MIN, 0]).saturating_add(near),
        };
    }
    leave_out(random, &mut group);
    group
}

/// Amounts at the ends of `LOW_WORDS` or inside, the first ones mostly positive. In some groups one is just beyond, where it counts or
/// where either end is absent; some are large, and change by so much that the group's change alone leaves i64.
fn low_words(random: &mut Random, (accounts, parts): (usize, usize)) -> Group {
    let large = random.one_in(16);
    let mut group = if large { Group::new(32, 8) } else { Group::new(accounts.max(3), parts) };
    let (least, most) = (LOW_WORDS.start, LOW_WORDS.end - 1);
    let (inside, falls) = (random.one_in(2), random.one_in(2));
    for ends in group.equities.chunks_exact_mut(2) {
        let last = if large { falls } else { random.one_in(2) };
        for (equity, low) in ends.iter_mut().zip([!large && random.one_in(8), last]) {
            let end = if low { least } else { most };
            *equity = if inside && random.one_in(4) { end / (1 + random.below(9) as i64) } else { end };
        }
    }
    let at = random.below(group.marks.len() as u64) as usize;
    match random.below(3) {
        0 => {}
        1 => group.equities[at] = random.pick(&BEYOND),
        _ => {
            group.equities[at] = random.pick(&BEYOND);
            group.marks[at ^ random.below(2) as usize] = 0;
        }
    }
    group
}

/// As many 1 as -1, and a 0 where the count is odd: the 1 first, or in any order.
fn signs(random: &mut Random, count: usize) -> Vec<i128> {
    let half = count / 2;
    let mut signs: Vec<i128> = (0..count).map(|k| i128::from(k < half) - i128::from(k >= count - half)).collect();
    if random.one_in(2) {
        random.shuffle(&mut signs);
    }
    signs
}

/// Sums whose partial sums leave i64 and come back: of first equities; of changes, by accounts and by parts; of accounts' and of parts'
/// changes.
fn balanced(random: &mut Random, (accounts, parts): (usize, usize)) -> Group {
    let mut group = everyday(random, (accounts.max(4), parts.max(4)));
    let size = (1 << 62) + i128::from(random.below(1 << 61));
    let (by_account, by_part) = (signs(random, group.accounts), signs(random, group.parts));
    let sort = random.below(3);
    for (account, sign) in by_account.iter().enumerate() {
        for (part, other) in by_part.iter().enumerate() {
            let noise = i128::from(random.below(2_001)) - 1_000;
            match sort {
                0 => {
                    let first = (sign * size) as i64 + amount(random);
                    group.put(part, account, [first, first + noise as i64]);
                }
                1 => change(random, &mut group, part, account, sign * other * size + noise),
                _ if part == account % by_part.len() => change(random, &mut group, part, account, sign * size + noise),
                _ => {}
            }
        }
    }
    group
}

/// Puts an account whose equity changes by so much, from a small first one as far as that may be.
fn change(random: &mut Random, group: &mut Group, part: usize, account: usize, by: i128) {
    let (least, most) = (i128::from(i64::MIN), i128::from(i64::MAX));
    let first = i128::from(amount(random)).clamp(least.max(least - by), most.min(most - by));
    group.put(part, account, [first as i64, (first + by) as i64]);
}

/// Two different ones of so many.
fn two(random: &mut Random, count: usize) -> [usize; 2] {
    let one = random.below(count as u64) as usize;
    [one, (one + 1 + random.below(count as u64 - 1) as usize) % count]
}

/// How changes bring a number of one kind to an end: those of account i in parts p and q, then of j, in units of 2^60 towards that end;
/// which of the four comes last, as what is missing; and what the others come to.
type Decided = ([i128; 4], usize, fn(&Sums, usize, usize) -> i128);

const DECIDED: [Decided; 4] = [
    ([0, -1, -1, 0], 0, |_, _, _| 0),
    ([4, -1, 0, -1], 2, |sums, p, _| sums.gains[p]),
    ([4, 0, -1, -1], 1, |sums, _, i| sums.own[i]),
    ([4, 0, 0, 0], 3, |sums, _, _| sums.group),
];

/// A number of one kind that 15 asks of at an end of i64 or just past it, most often those of the other kinds inside.
fn at_an_end(random: &mut Random, (accounts, parts): (usize, usize)) -> Group {
    let mut group = everyday(random, (accounts.max(2), parts.max(2)));
    let end = random.pick(&ENDS);
    if random.one_in(5) {
        first_at(random, &mut group, end);
    } else {
        change_at(random, &mut group, end);
    }
    if random.one_in(4) {
        first_sum(random, &mut group);
    }
    group
}

fn change_at(random: &mut Random, group: &mut Group, end: i128) {
    let ([i, j], [p, q]) = (two(random, group.accounts), two(random, group.parts));
    let (units, last, others) = random.pick(&DECIDED);
    let cells = [(p, i), (q, i), (p, j), (q, j)];
    for ((part, account), units) in cells.into_iter().zip(units) {
        let noise = i128::from(random.below(1 << 20));
        change(random, group, part, account, end.signum() * units * ((1 << 60) + noise));
    }
    let (part, account) = cells[last];
    let rest = others(&Sums::of(group), p, i);
    change(random, group, part, account, end - rest);
}

/// The first sum of a part at an end, by two accounts.
fn first_at(random: &mut Random, group: &mut Group, end: i128) {
    let ([i, j], part) = (two(random, group.accounts), random.below(group.parts as u64) as usize);
    let towards = end.signum() as i64;
    let mut near = |first: i64| [first, first - towards * random.below(1_000) as i64];
    group.put(part, i, near(towards << 62));
    group.put(part, j, [0, 0]);
    let rest = Sums::of(group).firsts[part];
    group.put(part, j, near((end - rest) as i64));
}

/// A part's first sum about 0, by one account.
fn first_sum(random: &mut Random, group: &mut Group) {
    let part = random.below(group.parts as u64) as usize;
    let account = random.below(group.accounts as u64) as usize;
    group.put(part, account, [0, 0]);
    let wanted = random.pick(&[-1, 0, 1, 1, 2]) - Sums::of(group).firsts[part];
    if let Ok(first) = i64::try_from(wanted) {
        group.put(part, account, [first, first.saturating_add(random.below(1_000) as i64 - 300)]);
    }
}

/// Many parts that rise from next to nothing or lose nearly all, so that the product leaves the doubles at either end, and may come back;
/// some end with nothing, or below it.
fn steep(random: &mut Random) -> Group {
    let mut group = Group::new(1 + random.below(3) as usize, 20 + random.below(45) as usize);
    let (nothing, below) = (random.pick(&[0, 0, 12]), random.one_in(2));
    // Some 22 falls make the product subnormal, from where rises bring it back.
    let any = random.below(group.parts as u64) as usize;
    let (rises, turn) = (random.one_in(2), random.pick(&[21, 22, 23, any, group.parts, group.parts]));
    for part in 0..group.parts {
        let lost = nothing > 0 && random.one_in(nothing);
        for account in 0..group.accounts {
            let few = 1 + random.below(4) as i64;
            let many = (1 << (40 + random.below(14))) + random.below(1 << 40) as i64;
            let [first, last] = if rises == (part < turn) { [few, many] } else { [many, few] };
            let last = if below && random.one_in(3) { -last } else { last };
            group.put(part, account, [first, if lost { 0 } else { last }]);
        }
    }
    group
}

/// The same group with its accounts in another order: the place of each in the old one.
pub fn shuffled(random: &mut Random, group: &Group) -> (Group, Vec<usize>) {
    let mut places: Vec<usize> = (0..group.accounts).collect();
    random.shuffle(&mut places);
    let mut other = Group::new(group.accounts, group.parts);
    for part in 0..group.parts {
        for (account, place) in places.iter().enumerate() {
            let (to, from) = (other.at(part, account), group.at(part, *place));
            other.marks[to..to + 2].copy_from_slice(&group.marks[from..from + 2]);
            other.equities[to..to + 2].copy_from_slice(&group.equities[from..from + 2]);
        }
    }
    (other, places)
}
