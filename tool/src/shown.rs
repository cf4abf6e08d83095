//! Bytes and names as a person reads them: what does not print is escaped, so that no capture and no name can look like a line of the tool's own.
use std::ffi::OsStr;
use std::os::unix::ffi::OsStrExt;

/// A file's name: text as it is, but for a backslash, which is doubled, and what does not print; a byte that is no text is \xNN.
pub fn name(name: &OsStr) -> String {
    let mut shown = String::new();
    for chunk in name.as_bytes().utf8_chunks() {
        for character in chunk.valid().chars() {
            match character {
                '\'' | '"' => shown.push(character),
                _ => shown.extend(character.escape_debug()),
            }
        }
        for byte in chunk.invalid() {
            shown.push_str(&format!("\\x{byte:02x}"));
        }
    }
    shown
}

/// A byte of a capture or a grammar, between no quotes.
pub fn byte(byte: u8) -> String {
    match byte {
        b'\'' | b'"' => char::from(byte).to_string(),
        _ => byte.escape_ascii().to_string(),
    }
}

/// A byte between quotes.
pub fn quoted(value: u8) -> String {
    match value {
        b'\'' => "'\\''".into(),
        _ => format!("'{}'", byte(value)),
    }
}

/// The bytes from one to another, both with it.
pub fn range(low: u8, high: u8) -> String {
    match (low, high) {
        (0, 255) => "any byte".into(),
        _ if low == high => quoted(low),
        _ => format!("{}-{}", quoted(low), quoted(high)),
    }
}

/// A place of a text: its line and column, both from 1, and the line with the place marked. A byte is a column.
#[derive(Clone, Debug, PartialEq, Eq)]
pub struct Place {
    pub line: usize,
    pub column: usize,
    pub before: String,
    pub at: String,
    pub after: String,
}

/// How many bytes of a line are shown before a place, and from it on.
const BEFORE: usize = 50;
const AFTER: usize = 60;

impl Place {
    /// The place of an offset, which is one of the text's or its length.
    pub fn of(text: &[u8], offset: usize) -> Place {
        let offset = offset.min(text.len());
        let start = text[..offset].iter().rposition(|&byte| byte == b'\n').map_or(0, |feed| feed + 1);
        let end = text[offset..].iter().position(|&byte| byte == b'\n').map_or(text.len(), |feed| offset + feed);
        let (from, to) = (start.max(offset.saturating_sub(BEFORE)), end.min(offset + AFTER));
        let bytes = |bytes: &[u8]| bytes.iter().map(|&value| byte(value)).collect::<String>();
        let cut = |is: bool| if is { "…" } else { "" };
        // A line feed that is marked itself, or the end of the text, has no byte to show.
        let marked = (offset + 1).min(end.max(offset));
        Place {
            line: text[..start].iter().filter(|&&byte| byte == b'\n').count() + 1,
            column: offset - start + 1,
            before: cut(from > start).to_string() + &bytes(&text[from..offset]),
            at: bytes(&text[offset..marked]),
            after: bytes(&text[marked..to.max(marked)]) + cut(to < end),
        }
    }

    /// The line, and below it a caret for each character of the byte.
    pub fn lines(&self) -> [String; 2] {
        let lead = self.before.chars().count();
        let carets = self.at.chars().count().max(1);
        [format!("{}{}{}", self.before, self.at, self.after), " ".repeat(lead) + &"^".repeat(carets)]
    }
}

/// Several things, one of which was expected.
pub fn list(things: &[String]) -> String {
    match things {
        [] => String::new(),
        [one] => one.clone(),
        [first @ .., last] => format!("{} or {last}", first.join(", ")),
    }
}

/// So many of a thing, by its name for one.
pub fn count(number: usize, name: &str) -> String {
    format!("{} {name}{}", grouped(number), if number == 1 { "" } else { "s" })
}

/// A number with its thousands apart.
pub fn grouped(number: usize) -> String {
    let digits = number.to_string();
    let mut shown = String::new();
    for (place, digit) in digits.chars().enumerate() {
        if place > 0 && (digits.len() - place).is_multiple_of(3) {
            shown.push(',');
        }
        shown.push(digit);
    }
    shown
}

#[cfg(test)]
mod tests {
    use super::*;

    #[test]
    fn names_are_one_line_and_print() {
        let shown = |bytes: &[u8]| name(OsStr::from_bytes(bytes));
        assert_eq!(shown(b"a b.capture"), "a b.capture");
        assert_eq!(shown("prüfung.capture".as_bytes()), "prüfung.capture");
        assert_eq!(shown(b"a\nb\t\\\x1b'\""), "a\\nb\\t\\\\\\u{1b}'\"");
        assert_eq!(shown(b"a\xff\xc3.b"), "a\\xff\\xc3.b");
        assert_eq!(shown("\u{202e}x".as_bytes()), "\\u{202e}x");
    }

    #[test]
    fn ranges() {
        assert_eq!(range(b'1', b'8'), "'1'-'8'");
        assert_eq!(range(b'-', b'-'), "'-'");
        assert_eq!(range(b'\n', b'\''), "'\\n'-'\\''");
        assert_eq!(range(0, 254), "'\\x00'-'\\xfe'");
        assert_eq!(range(0, 255), "any byte");
    }

    #[test]
    fn places() {
        let lines = |text: &[u8], offset| {
            let place = Place::of(text, offset);
            let [line, carets] = place.lines();
            (place.line, place.column, line, carets)
        };
        let at = |line, column, text: &str, carets: &str| (line, column, text.to_string(), carets.to_string());
        assert_eq!(lines(b"ab\ncd\n", 0), at(1, 1, "ab", "^"));
        assert_eq!(lines(b"ab\ncd\n", 4), at(2, 2, "cd", " ^"));
        // The line feed is the last column of its line, and the end the first of the next.
        assert_eq!(lines(b"ab\ncd\n", 5), at(2, 3, "cd", "  ^"));
        assert_eq!(lines(b"ab\ncd\n", 6), at(3, 1, "", "^"));
        assert_eq!(lines(b"", 0), at(1, 1, "", "^"));
        assert_eq!(lines(b"a\x1b[0mb", 1), at(1, 2, "a\\x1b[0mb", " ^^^^"));
        assert_eq!(lines(b"\xff\r\n", 1), at(1, 2, "\\xff\\r", "    ^^"));
        // Long lines are cut on both sides.
        let long = [b'x'; 200];
        let place = Place::of(&long, 100);
        assert_eq!((place.column, place.before.chars().count(), place.after.chars().count()), (101, 51, 60));
        assert!(place.before.starts_with('…') && place.after.ends_with('…'));
    }

    #[test]
    fn numbers_and_lists() {
        assert_eq!([0, 999, 1000, 65_535, 1_234_567].map(grouped), ["0", "999", "1,000", "65,535", "1,234,567"]);
        let words = ["a", "b", "c"].map(String::from);
        assert_eq!(
            (list(&words[..1]), list(&words[..2]), list(&words)),
            ("a".into(), "a or b".into(), "a, b or c".into())
        );
    }
}
