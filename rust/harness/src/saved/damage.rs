//! Files and accounts that something happened to. What a file is meant for is not told: a run counts what it finds.

use super::reference::{Part, groups, load};
use crate::damage::{cut, damage};
use scenario::Random;
use std::ops::Range;

/// Damages a good file.
pub fn file(random: &mut Random, good: &[u8]) -> Vec<u8> {
    let (_, parts) = load(good).expect("a good file");
    let mut file = good.to_vec();
    match random.below(12) {
        0 => file.truncate(random.below(good.len() as u64 + 1) as usize),
        1 => file.truncate(ends(random, &parts)),
        2 => flip(random, &mut file),
        3 => file.extend((0..1 + random.below(4)).map(|_| random.word() as u8)),
        4 => any(random, &mut file),
        5 => {
            let at = random.below(file.len() as u64) as usize;
            file[at] = random.pick(&[0, 1, 2, 9, 0x20, 0x40, 0x41, 0x7f, 0x80, 0x81, 0xff]);
        }
        6 => symbol(random, &mut file, &parts),
        _ => number(random, &mut file, &parts),
    }
    // Some of them are hit again, or end after what happened to them.
    match random.below(10) {
        0 => flip(random, &mut file),
        1 => file.push(random.word() as u8),
        2 => file.truncate(random.below(file.len() as u64 + 1) as usize),
        _ => {}
    }
    file
}

fn flip(random: &mut Random, file: &mut [u8]) {
    for _ in 0..1 + random.below(3) {
        if !file.is_empty() {
            let at = random.below(file.len() as u64) as usize;
            file[at] ^= 1 << random.below(8);
        }
    }
}

/// Bytes that were never a file, but for their first one.
fn any(random: &mut Random, file: &mut [u8]) {
    file.iter_mut()
        .skip(1)
        .for_each(|byte| *byte = if random.one_in(2) { random.below(3) as u8 } else { random.word() as u8 });
}

/// The beginning of a part, the place after its first byte, or its end.
fn ends(random: &mut Random, parts: &[(Part, Range<usize>)]) -> usize {
    let (_, at) = part_of(random, parts);
    random.pick(&[at.start, at.end.min(at.start + 1), at.end])
}

/// A part of a kind, all kinds alike.
fn part_of(random: &mut Random, parts: &[(Part, Range<usize>)]) -> (Part, Range<usize>) {
    const KINDS: [Part; 8] =
        [Part::Form, Part::Signed, Part::Count, Part::Rate, Part::Flag, Part::CapMark, Part::Positions, Part::Length];
    let kind = random.pick(&KINDS);
    let those: Vec<_> = parts.iter().filter(|(part, _)| *part == kind).collect();
    if those.is_empty() { parts[0].clone() } else { those[random.below(those.len() as u64) as usize].clone() }
}

/// A number in a longer form, of ten groups and more, or another number; and now and then the file's end after it.
fn number(random: &mut Random, file: &mut Vec<u8>, parts: &[(Part, Range<usize>)]) {
    let (part, at) = part_of(random, parts);
    let found = file[at.clone()].to_vec();
    let new = match random.below(5) {
        0 => lengthened(random, &found),
        1 => tenth(random),
        _ => groups(bent(random, part)),
    };
    let end = at.start + new.len();
    file.splice(at, new);
    if random.one_in(4) {
        file.truncate(end);
    }
}

/// With groups of 0 after it.
fn lengthened(random: &mut Random, found: &[u8]) -> Vec<u8> {
    let mut longer = found.to_vec();
    for _ in 0..1 + random.below(3) {
        *longer.last_mut().expect("a group") |= 0x80;
        longer.push(0);
    }
    longer
}

/// Nine groups that continue, and a tenth of any kind or none.
fn tenth(random: &mut Random) -> Vec<u8> {
    let nine = if random.one_in(2) { [0x80; 9] } else { [0xff; 9] };
    let last = random.pick(&[0, 1, 2, 0x7f, 0x80, 0x81, 0xff]);
    [&nine[..], if random.one_in(4) { &[] } else { std::slice::from_ref(&last) }].concat()
}

/// A number beside the bounds of those that stand there, or any.
fn bent(random: &mut Random, part: Part) -> u64 {
    let edges: &[u64] = match part {
        Part::Form => &[0, 2, 3, 128, u64::MAX],
        Part::Flag | Part::CapMark => &[0, 1, 2, 127, 128, u64::MAX],
        Part::Rate => {
            &[0, 1 << 63, (1 << 63) + 1, 0x7ff << 52, 0x7ff8 << 48, 0x3ff0 << 48, 0xbff0 << 48, 0x40c3_8800 << 32]
        }
        Part::Positions => &[0, 1, 2, 63, 64, 65, 128, u64::MAX],
        Part::Length => &[0, 1, 2, 7, 8, 9, 10, 128, u64::MAX],
        Part::Signed | Part::Count | Part::Text => &[0, 1, 2, u64::MAX, u64::MAX - 1],
    };
    if random.one_in(4) { random.u64() } else { random.pick(edges) }
}

/// A symbol with a byte that none has, one padded within its length, one twice, or two in the other order.
fn symbol(random: &mut Random, file: &mut Vec<u8>, parts: &[(Part, Range<usize>)]) {
    let texts: Vec<_> = parts.iter().filter(|(part, _)| *part == Part::Text).map(|(_, at)| at.clone()).collect();
    if texts.is_empty() {
        return flip(random, file);
    }
    let at = texts[random.below(texts.len() as u64) as usize].clone();
    match random.below(3) {
        0 => {
            let place = at.start + random.below(at.len() as u64) as usize;
            file[place] = random.pick(&[0, 32, 127, 255, 33, 126]);
        }
        1 if at.len() < 8 => {
            file.insert(at.end, 0);
            file[at.start - 1] += 1;
        }
        _ => {
            let other = texts[random.below(texts.len() as u64) as usize].clone();
            let [one, two] = [&at, &other].map(|at| file[at.start - 1..at.end].to_vec());
            if at.start <= other.start {
                file.splice(other.start - 1..other.end, one);
                if random.one_in(2) {
                    file.splice(at.start - 1..at.end, two);
                }
            }
        }
    }
}

/// Damages an account's bytes: some keep their length, some don't.
pub fn account(random: &mut Random, bytes: &mut Vec<u8>) {
    for _ in 0..1 + random.below(2) {
        damage(random, bytes);
    }
    if random.one_in(16) {
        cut(random, bytes);
    }
}
