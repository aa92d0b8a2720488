//! Symbols as they were given.

use crate::Symbol;
use std::fmt::{self, Write};

/// A symbol as a caller spelled it, good or not: its bytes without padding, of more than eight the first eight.
///
/// It is shown as it is, with escapes for what can't be shown, and with two dots where there was more.
#[derive(Clone, Copy, PartialEq, Eq, PartialOrd, Ord, Hash)]
pub struct Spelling {
    kept: [u8; 8],
    length: usize,
}

impl Spelling {
    pub(crate) fn of_text(text: &str) -> Spelling {
        Spelling::of_bytes(text.as_bytes())
    }

    fn of_bytes(bytes: &[u8]) -> Spelling {
        let mut kept = [0; 8];
        kept.iter_mut().zip(bytes).for_each(|(place, byte)| *place = *byte);
        Spelling { kept, length: bytes.len() }
    }

    /// The bytes, of more than eight the first eight.
    pub fn as_bytes(&self) -> &[u8] {
        &self.kept[..self.length.min(8)]
    }

    /// How many bytes there were.
    pub fn length(self) -> usize {
        self.length
    }
}

impl From<Symbol> for Spelling {
    fn from(symbol: Symbol) -> Spelling {
        Spelling::of_bytes(symbol.as_bytes())
    }
}

/// Whether it is how that symbol is spelled.
impl PartialEq<Symbol> for Spelling {
    fn eq(&self, symbol: &Symbol) -> bool {
        *self == Spelling::from(*symbol)
    }
}

impl fmt::Display for Spelling {
    fn fmt(&self, f: &mut fmt::Formatter<'_>) -> fmt::Result {
        for part in self.as_bytes().utf8_chunks() {
            for c in part.valid().chars() {
                // A quote or a backslash can be shown, though it is escaped in a literal.
                if c.is_ascii_graphic() { f.write_char(c)? } else { write!(f, "{}", c.escape_debug())? }
            }
            write!(f, "{}", part.invalid().escape_ascii())?;
        }
        if self.length > self.kept.len() { f.write_str("..") } else { Ok(()) }
    }
}

impl fmt::Debug for Spelling {
    fn fmt(&self, f: &mut fmt::Formatter<'_>) -> fmt::Result {
        write!(f, "Spelling({self})")
    }
}
