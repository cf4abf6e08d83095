//! Text in HTML: nothing of a capture, a name or a grammar can be taken for markup.
use crate::record;
use crate::shown;
use std::time::SystemTime;

/// Text to stand between tags, or in an attribute between quotes of either kind. What does not print is an escape.
pub fn escape(text: &str) -> String {
    let mut escaped = String::with_capacity(text.len());
    for character in text.chars() {
        match character {
            '&' => escaped.push_str("&amp;"),
            '<' => escaped.push_str("&lt;"),
            '>' => escaped.push_str("&gt;"),
            '"' => escaped.push_str("&quot;"),
            '\'' => escaped.push_str("&#39;"),
            _ if character.is_control() => escaped.extend(character.escape_debug()),
            _ => escaped.push(character),
        }
    }
    escaped
}

/// A name apart from the text around it, so that one that is written from right to left does not turn that round. A long
/// one is broken after a folder first.
pub fn name(name: &str) -> String {
    format!("<bdi>{}</bdi>", escape(name).replace('/', "/<wbr>"))
}

/// A number with its thousands apart.
pub fn number(number: u64) -> String {
    shown::grouped(usize::try_from(number).unwrap_or(usize::MAX))
}

/// A time for a person.
pub fn utc(time: SystemTime) -> String {
    record::time(time).replace('T', " ").replace('Z', " UTC")
}

/// A time for a person, and for a program beside it.
pub fn time(time: SystemTime) -> String {
    format!("<time datetime=\"{}\">{}</time>", record::time(time), utc(time))
}

#[cfg(test)]
mod tests {
    use super::*;

    #[test]
    fn markup_is_text() {
        assert_eq!(escape("a <b>&\"c\".capture"), "a &lt;b&gt;&amp;&quot;c&quot;.capture");
        assert_eq!(escape("it's &lt;"), "it&#39;s &amp;lt;");
        assert_eq!(escape("prüfung …"), "prüfung …");
        assert_eq!(escape("a\0b\n\u{1b}[0m\u{85}"), "a\\0b\\n\\u{1b}[0m\\u{85}");
        assert_eq!(name("<i>/a"), "<bdi>&lt;i&gt;/<wbr>a</bdi>");
    }

    #[test]
    fn times() {
        let told = time(SystemTime::UNIX_EPOCH);
        assert_eq!(told, "<time datetime=\"1970-01-01T00:00:00Z\">1970-01-01 00:00:00 UTC</time>");
    }
}
