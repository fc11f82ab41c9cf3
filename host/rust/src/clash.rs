//! What was expected at the place of a refusal, and what was found there. Both are read off the text and the place alone.

use crate::plain::is_name;
use crate::scan_refusal::printed;
use crate::{Keyword, ScanFault, ScanRefusal};
use std::fmt::{self, Display, Formatter};

/// What was expected, and what was found instead. `Display`: `expected { after import a, found ;`.
#[derive(Clone, Debug, PartialEq, Eq)]
pub struct Clash {
    /// What was expected.
    pub expected: String,
    /// What was found.
    pub found: String,
}

impl Display for Clash {
    fn fmt(&self, f: &mut Formatter<'_>) -> fmt::Result {
        write!(f, "expected {}, found {}", self.expected, self.found)
    }
}

/// So much of a value or a word is said.
const PART: usize = 40;
/// So many words are looked at for the one that a value belongs to: a value may hold the word itself.
const WORDS: usize = 64;

impl ScanRefusal {
    /// What was expected at the place, and what was found there, in the text that was scanned.
    ///
    /// ```
    /// let text = b"import a;";
    /// let refusal = nuvaleta::dependencies(text).unwrap_err();
    /// assert_eq!(refusal.clash(text).expect("a clash").to_string(), "expected { after import a, found ;");
    /// ```
    pub fn clash(&self, text: &[u8]) -> Option<Clash> {
        let at = self.position?.min(text.len());
        let keyword = self.keyword.map_or("", Keyword::word);
        let (expected, found) = match self.fault {
            ScanFault::HighByte => ("ASCII outside of strings and comments".to_string(), high(text, at)),
            ScanFault::NotUtf8 => ("UTF-8".to_string(), high(text, at)),
            ScanFault::NoValue => (format!("a name or a string after {keyword}"), value(text, keyword, at)),
            ScanFault::OtherByte | ScanFault::EndOfText => (format!("{} after {}", byte_after(self.keyword?), with_value(text, keyword, at)), byte(text, at)),
            ScanFault::NoPrefix => ("prefix NAME; before the end of the block".to_string(), "}".to_string()),
            ScanFault::OpenEnded => (format!("}} at the end of the block of the {keyword}"), byte(text, at)),
            ScanFault::NoName => ("module NAME { or submodule NAME {".to_string(), ended(text, at)),
            ScanFault::CutShort => ("the end of the string or of the statement".to_string(), byte(text, at)),
            ScanFault::TextTooLong | ScanFault::LentTooShort | ScanFault::TooMany => return None,
        };
        Some(Clash { expected, found })
    }
}

/// What must stand behind a keyword's value.
fn byte_after(keyword: Keyword) -> &'static str {
    match keyword {
        Keyword::Module | Keyword::Submodule | Keyword::Import => "{",
        Keyword::Include | Keyword::Revision => "; or {",
        _ => ";",
    }
}

fn cut(bytes: &[u8]) -> String {
    let whole = String::from_utf8_lossy(bytes);
    let part: String = whole.chars().take(PART).map(printed).collect();
    format!("{part}{}", if whole.chars().nth(PART).is_some() { ".." } else { "" })
}

/// The byte at a place, or the whole name that begins there.
fn byte(text: &[u8], at: usize) -> String {
    let rest = &text[at..];
    let name = rest.iter().take_while(|byte| is_name(**byte)).count();
    match rest.first() {
        None => "the end of the text".to_string(),
        Some(_) if name > 0 => cut(&rest[..name]),
        Some(byte @ 33..=126) => char::from(*byte).to_string(),
        Some(byte) => format!("byte 0x{byte:02x}"),
    }
}

/// The same where a value was due, and not even a string that is left open is one.
fn value(text: &[u8], keyword: &str, at: usize) -> String {
    let is_open = |piece: &[u8]| piece.first().map_or(false, |quote| b"\"'".contains(quote) && !piece[1..].contains(quote));
    match behind(text, keyword, at).any(is_open) {
        true => "a string that is not closed".to_string(),
        false => byte(text, at),
    }
}

/// A byte above 127, with the character that it begins, if it begins one.
fn high(text: &[u8], at: usize) -> String {
    let some = &text[at..text.len().min(at + 4)];
    let good = std::str::from_utf8(some).map_or_else(|e| e.valid_up_to(), str::len);
    let first = std::str::from_utf8(&some[..good]).ok().and_then(|good| good.chars().next());
    let named = |c: char| if c == '\u{feff}' { "a byte order mark, ".to_string() } else { format!("{}, ", c.escape_debug()) };
    format!("{}byte 0x{:02x}", first.map_or_else(String::new, named), text[at])
}

/// What ended the metadata scan: the end, or the word before the place.
fn ended(text: &[u8], at: usize) -> String {
    let word = text[..at].iter().rev().take_while(|byte| is_name(**byte)).count();
    if at == text.len() || word == 0 { "the end of the text".to_string() } else { cut(&text[at - word..at]) }
}

/// What stands between a keyword and a place, without blanks around it, for the last such words before the place, the last one first.
fn behind<'a>(text: &'a [u8], keyword: &'a str, at: usize) -> impl Iterator<Item = &'a [u8]> {
    let before = &text[..at];
    let in_name = move |byte: Option<&u8>| byte.map_or(false, |byte| is_name(*byte));
    let is_word = move |start: &usize| {
        let (head, rest) = before.split_at(*start);
        rest.starts_with(keyword.as_bytes()) && !in_name(head.last()) && !in_name(rest.get(keyword.len()))
    };
    (0..at).rev().filter(is_word).take(WORDS).map(move |start| trimmed(&before[start + keyword.len()..]))
}

/// The keyword with its value as it is written, where that can be seen.
fn with_value(text: &[u8], keyword: &str, at: usize) -> String {
    let last = behind(text, keyword, at).find(|piece| is_value(piece));
    last.map_or_else(|| format!("{keyword} and its value"), |value| format!("{keyword} {}", cut(value)))
}

fn trimmed(bytes: &[u8]) -> &[u8] {
    let white = |byte: &u8| byte.is_ascii_whitespace();
    let start = bytes.iter().position(|byte| !white(byte)).unwrap_or(bytes.len());
    let end = bytes.iter().rposition(|byte| !white(byte)).map_or(start, |i| i + 1);
    &bytes[start..end]
}

/// Whether this is a name alone, or strings alone, on one line.
fn is_value(bytes: &[u8]) -> bool {
    let quoted = |quote: u8| bytes.len() > 1 && bytes[0] == quote && bytes[bytes.len() - 1] == quote;
    let plain = !bytes.is_empty() && bytes.iter().copied().all(is_name);
    plain || ((quoted(b'"') || quoted(b'\'')) && bytes.iter().all(|byte| *byte >= 32 && *byte != 127))
}
