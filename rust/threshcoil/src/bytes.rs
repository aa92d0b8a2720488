//! Words in the bytes that the C interface takes and gives.

pub(crate) type Word = [u8; 8];

/// A word at its place; left out where the bytes end before it.
pub(crate) fn put(bytes: &mut [u8], place: usize, word: Word) {
    bytes.chunks_exact_mut(8).skip(place).take(1).for_each(|chunk| chunk.copy_from_slice(&word));
}

/// The word at a place, zeros where the bytes end before it.
pub(crate) fn word(bytes: &[u8], place: usize) -> Word {
    bytes.get(8 * place..8 * place + 8).and_then(|word| word.try_into().ok()).unwrap_or_default()
}

/// The first N words.
pub(crate) fn take<const N: usize>(bytes: &[u8]) -> [Word; N] {
    std::array::from_fn(|place| word(bytes, place))
}
