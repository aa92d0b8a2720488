//! What an entry returns, part by part, as the header's macros of these names have it. The documents' number is the lowest byte;
//! above it stands a count where the call was done, and where it was refused the place that the refusal tells.

/// The documents' number. 0 means done.
pub const fn number(word: u64) -> u64 {
    word & 0xff
}

/// After 0: how many records or weights were written, or how long a file is.
pub const fn count(word: u64) -> u64 {
    word >> 8
}

/// After a refusal: 56 bits of the place that it tells, 0 for one that tells none.
pub const fn place(word: u64) -> u64 {
    word >> 8
}

/// After 2, 3 or 4: the index of the entry in its list; 0 of a call with one symbol.
pub const fn index(word: u64) -> u64 {
    place(word) >> 1
}

/// After 2, 3 or 4: whether that list is the prices, as it is told of a call with one symbol too, and not the targets.
pub const fn in_prices(word: u64) -> bool {
    place(word) & 1 == 1
}

/// After 16, 17 or 18: the byte of the file.
pub const fn byte(word: u64) -> u64 {
    place(word)
}
