//! Lines of a text file, and how amounts stand in them.

/// Something said on a line of the file.
#[derive(Clone, Debug)]
pub struct Said<T> {
    pub line: usize,
    pub what: T,
}

/// The lines that say something, each with its number, its first word and the rest. Words after # are passed over.
pub fn lines(text: &str) -> impl Iterator<Item = (usize, &str, &str)> {
    let said = text.lines().map(|raw| raw.split('#').next().unwrap_or("").trim());
    (1..).zip(said).filter(|(_, said)| !said.is_empty()).map(|(line, said)| {
        let (word, rest) = said.split_once(char::is_whitespace).unwrap_or((said, ""));
        (line, word, rest.trim())
    })
}

/// The text as it is, with escapes for what can't be shown, as a symbol has them: no word of a file is a command to the terminal or turns
/// round what a page says. Spaces, and what joins a letter, stay.
pub fn shown(text: &str) -> String {
    let space = |c: char| c == '\t' || c.is_whitespace() && !c.is_control();
    let joins = |c: char| matches!(c, '\u{200c}' | '\u{200d}');
    let mut out = String::new();
    for c in text.chars() {
        if c.is_ascii_graphic() || space(c) || joins(c) {
            out.push(c);
        } else {
            // An accent by itself would be escaped; after a letter it is not.
            out.extend(format!("a{c}").escape_debug().skip(1));
        }
    }
    out
}

pub fn cents(text: &str) -> Result<i64, String> {
    scaled(text, 2)
}

/// A decimal number as an integer of so many places.
pub fn scaled(text: &str, places: usize) -> Result<i64, String> {
    let digits = text.strip_prefix('-').unwrap_or(text);
    let (whole, part) = digits.split_once('.').unwrap_or((digits, ""));
    let plain = |s: &str| s.bytes().all(|b| b.is_ascii_digit());
    if whole.is_empty() || !plain(whole) || !plain(part) || part.len() > places {
        return Err(format!("'{text}' is no number of at most {places} decimals"));
    }
    // With its sign, for -2^63 has no magnitude in i64.
    let sign = &text[..text.len() - digits.len()];
    format!("{sign}{whole}{part:0<places$}").parse().map_err(|_| format!("'{text}' is out of range"))
}

#[cfg(test)]
mod tests {
    use super::*;

    #[test]
    fn amounts_are_exact() {
        assert_eq!(cents("182.45"), Ok(18_245));
        assert_eq!(cents("-0.5"), Ok(-50));
        assert_eq!(cents("92233720368547758.07"), Ok(i64::MAX));
        assert_eq!(cents("-92233720368547758.08"), Ok(i64::MIN));
        assert_eq!(cents("-0"), Ok(0));
        assert_eq!(scaled("0.000001", 6), Ok(1));
        for bad in ["", ".", "-", "+1", "1.234", "1,000", "1e3", "--1"] {
            assert_eq!(cents(bad), Err(format!("'{bad}' is no number of at most 2 decimals")));
        }
        for far in ["92233720368547758.08", "-92233720368547758.09", "100000000000000000000"] {
            assert_eq!(cents(far), Err(format!("'{far}' is out of range")));
        }
    }

    #[test]
    fn what_cannot_be_shown_is_escaped() {
        for plain in
            ["A&B\"'\\ <x>\t1", "Z\u{fc}rich", "e\u{301}", "1\u{a0}000", "\u{928}\u{93f}", "\u{645}\u{200c}\u{647}"]
        {
            assert_eq!(shown(plain), plain);
        }
        assert_eq!(shown("\u{1b}[1m\0\r\u{7f}\u{9b}1m"), "\\u{1b}[1m\\0\\r\\u{7f}\\u{9b}1m");
        for turned in ["\u{202a}", "\u{202e}", "\u{2066}", "\u{2069}", "\u{200e}", "\u{200f}", "\u{61c}", "\u{feff}"] {
            assert_eq!(shown(turned), turned.escape_unicode().to_string());
        }
        let once = shown("\u{1b}\u{202e}");
        assert_eq!(shown(&once), once);
    }

    #[test]
    fn a_line_is_a_word_and_its_rest() {
        let all: Vec<_> = lines("one\n\n  # only this\n two  2  3 # three\n").collect();
        assert_eq!(all, [(1, "one", ""), (4, "two", "2  3")]);
    }
}
