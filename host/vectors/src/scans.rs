//! A plain reading of document 01's two scans, of the whole-text mode of request 2026-07, and of the bytes above 127 of request 2026-01. It shares no code with
//! the port. A text is read as in the old mode, and it is noted whether something that was read broke off at the text's end: a string, or a skipped statement.
//! Then the whole-text mode answers 11, and else what the old one does.

use crate::answers::{Dependencies, Refusal, Scan, Value};
use crate::utf8::wrong_from;

const TEXT_MOST: usize = 1_048_576;
const ROWS_MOST: usize = 256;
pub const HIGH_BYTE: u32 = 3;
pub const CUT_SHORT: u32 = 11;
pub const NOT_UTF8: u32 = 12;

const MODULE: u32 = 1;
const SUBMODULE: u32 = 2;
const BELONGS_TO: u32 = 3;
const PREFIX: u32 = 5;
const YANG_VERSION: u32 = 6;
const REVISION: u32 = 7;
const IMPORT: u32 = 8;
const INCLUDE: u32 = 9;
const REVISION_DATE: u32 = 10;
/// By their numbers, from 1 on.
const KEYWORDS: [&str; 10] =
    ["module", "submodule", "belongs-to", "namespace", "prefix", "yang-version", "revision", "import", "include", "revision-date"];
const LAST_OF_DEPENDENCIES: [&str; 4] = ["organization", "contact", "description", "reference"];
const LAST_OF_METADATA: [&str; 9] = ["container", "list", "leaf", "grouping", "typedef", "identity", "augment", "rpc", "notification"];

type Read<T> = Result<T, Refusal>;

// ---- what is answered

/// A text's scan in both modes.
#[derive(Debug)]
pub struct Plain<T> {
    /// What the old mode keeps, or its refusal.
    pub old: Read<T>,
    /// Keyword and value of all that it stored, in order.
    pub stored: Vec<(u32, Vec<u8>)>,
    /// The whole-text mode's own refusal, where something that was read broke off.
    pub cut: Option<Refusal>,
    /// Whether the original panics: a gap ran into a block comment that never closes, and the text's last character, at which the original looks for two, is
    /// above 127.
    pub panics: bool,
}

impl<T> Plain<T> {
    /// Such an end leaves the scan at the text's end, where nothing but these is answered.
    fn new(reader: Reader, old: Read<T>) -> Plain<T> {
        let length = reader.text.len();
        let number = old.as_ref().map_or_else(|r| r.number, |_| 0);
        assert!(!reader.cut || (reader.at == length && matches!(number, 0 | 4 | 6 | 8 | 9)), "broken off, and then {number}");
        let cut = reader.cut.then_some(Refusal { number: CUT_SHORT, keyword: 0, position: length as u32 });
        let panics = reader.open && reader.text.last().map_or(false, |b| is_high(*b));
        Plain { old, stored: reader.stored, cut, panics }
    }

    pub fn refusal(&self, whole: bool) -> Option<Refusal> {
        self.cut.filter(|_| whole).or(self.old.as_ref().err().copied())
    }

    /// Whether the answer is 3, in either mode.
    pub fn is_high(&self) -> bool {
        self.old.as_ref().err().map_or(false, |refusal| refusal.number == HIGH_BYTE)
    }

    pub fn answer(self, whole: bool) -> Scan<T> {
        match self.refusal(whole) {
            Some(refusal) => Scan::Refused(refusal),
            None => Scan::Good(self.old.expect("no refusal")),
        }
    }
}

impl<T: PartialEq> Plain<T> {
    /// Whether the original says the same of this text, in the old mode. Of one that is refused with 3 it may say anything: it reads characters there.
    pub fn is_told(&self, text: &[u8], told: &Scan<T>) -> bool {
        match (&self.old, told) {
            _ if self.panics => matches!(told, Scan::Silent(line) if line == "panic"),
            _ if self.is_high() => true,
            (Ok(kept), Scan::Good(other)) => kept == other,
            (Err(refusal), Scan::Refused(other)) => *refusal == other.due(text),
            _ => false,
        }
    }
}

/// What both modes refuse before they read: an over-long text, too little lent, bytes that are no UTF-8.
pub fn first(text: &[u8], enough: bool) -> Option<Refusal> {
    let refusal = |number, position| Some(Refusal { number, keyword: 0, position });
    match wrong_from(text) {
        _ if text.len() > TEXT_MOST => refusal(1, 0),
        _ if !enough => refusal(2, 0),
        place if place < text.len() => refusal(NOT_UTF8, place as u32),
        _ => None,
    }
}

/// The answer to a text for which enough is lent.
pub fn answered<T>(text: &[u8], whole: bool, scan: fn(&[u8]) -> Plain<T>) -> Scan<T> {
    first(text, true).map_or_else(|| scan(text).answer(whole), Scan::Refused)
}

pub fn dependencies(text: &[u8]) -> Plain<Dependencies> {
    let mut reader = Reader::new(text);
    let old = reader.dependencies();
    Plain::new(reader, old)
}

/// Name, namespace, prefix, first revision, parent.
pub fn metadata(text: &[u8]) -> Plain<Vec<Value>> {
    let mut reader = Reader::new(text);
    let old = reader.metadata();
    Plain::new(reader, old)
}

/// Where a value lies: present, start, length.
pub type Span = [u32; 3];

const MISSING: Span = [0; 3];
/// The place in the record of the value of each keyword, from 1 on; the last one of a keyword wins.
const PLACES: [usize; 5] = [0, 0, 4, 1, 2];

/// The record and the store that all values of a metadata scan make: the first revision stays, and the newest is the first of the greatest ones.
pub fn described(values: &[(u32, Vec<u8>)]) -> ([Span; 6], Vec<u8>) {
    let mut record = [MISSING; 6];
    let mut store: Vec<u8> = Vec::new();
    let mut newest: Option<&[u8]> = None;
    for (keyword, value) in values {
        let span = [1, store.len() as u32, value.len() as u32];
        store.extend(value);
        if *keyword != REVISION {
            record[PLACES[*keyword as usize - 1]] = span;
            continue;
        }
        if record[3] == MISSING {
            record[3] = span;
        }
        if newest.map_or(true, |n| n < value.as_slice()) {
            newest = Some(value);
            record[5] = span;
        }
    }
    (record, store)
}

/// The five values of a record that the original has too.
pub fn five(record: &[Span; 6], store: &[u8]) -> Vec<Value> {
    let value = |x: &Span| (x[0] == 1).then(|| store[x[1] as usize..][..x[2] as usize].to_vec());
    record[..5].iter().map(value).collect()
}

fn page(imports: &[[Value; 3]], includes: &[[Value; 2]]) -> Vec<u8> {
    let text = |value: &Value| String::from_utf8(value.clone().expect("a value")).expect("UTF-8");
    let dated = |revision: &Value| revision.as_ref().map_or(String::new(), |_| format!(" @ {}", text(revision)));
    let mut out = format!("Imports ({}):\n", imports.len());
    for [name, prefix, revision] in imports {
        out += &format!("  - {} (prefix: {}){}\n", text(name), text(prefix), dated(revision));
    }
    out += &format!("\nIncludes ({}):\n", includes.len());
    for [name, revision] in includes {
        out += &format!("  - {}{}\n", text(name), dated(revision));
    }
    out.into_bytes()
}

// ---- how it is read

struct Reader<'a> {
    text: &'a [u8],
    at: usize,
    stored: Vec<(u32, Vec<u8>)>,
    /// Whether something broke off.
    cut: bool,
    /// Whether a gap ran into a block comment that never closes.
    open: bool,
}

/// Such a byte is part of no name and no keyword, ends none and is not white.
fn is_high(b: u8) -> bool {
    b > 127
}

fn is_white(b: u8) -> bool {
    matches!(b, 9..=13 | b' ')
}

fn begins_identifier(b: u8) -> bool {
    b.is_ascii_alphabetic() || b == b'_'
}

fn in_identifier(b: u8) -> bool {
    b.is_ascii_alphanumeric() || b"_-.".contains(&b)
}

impl<'a> Reader<'a> {
    fn new(text: &'a [u8]) -> Reader<'a> {
        Reader { text, at: 0, stored: Vec::new(), cut: false, open: false }
    }

    fn rest(&self) -> &'a [u8] {
        &self.text[self.at..]
    }

    fn peek(&self) -> Option<u8> {
        self.rest().first().copied()
    }

    /// The byte here, which is passed.
    fn next(&mut self) -> Option<u8> {
        let byte = self.peek()?;
        self.at += 1;
        Some(byte)
    }

    fn at_quote(&self) -> bool {
        matches!(self.peek(), Some(b'"' | b'\''))
    }

    fn refused<T>(&self, number: u32, keyword: u32) -> Read<T> {
        Err(Refusal { number, keyword, position: self.at as u32 })
    }

    /// A byte above 127 outside of strings and comments is refused where it is met.
    fn not_high(&self) -> Read<()> {
        if self.peek().map_or(false, is_high) { self.refused(HIGH_BYTE, 0) } else { Ok(()) }
    }

    /// White bytes and comments; a comment may go on to the end.
    fn gap(&mut self) {
        loop {
            let rest = self.rest();
            self.at += match rest {
                [b, ..] if is_white(*b) => 1,
                [b'/', b'/', ..] => rest.iter().position(|b| *b == b'\n').unwrap_or(rest.len()),
                [b'/', b'*', body @ ..] => body.windows(2).position(|w| w == b"*/").map_or_else(|| self.unclosed(), |i| i + 4),
                _ => return,
            }
        }
    }

    /// How long a block comment is that never closes.
    fn unclosed(&mut self) -> usize {
        self.open = true;
        self.rest().len()
    }

    /// Passes the word if it is the identifier here and a separator or the end follows.
    fn word(&mut self, word: &str) -> bool {
        let rest = self.rest();
        let size = rest.iter().take_while(|b| in_identifier(**b)).count();
        let matches = &rest[..size] == word.as_bytes() && rest.get(size).map_or(true, |b| is_white(*b) || b"{;\"'".contains(b));
        self.at += if matches { size } else { 0 };
        matches
    }

    fn keyword(&mut self, keyword: u32) -> bool {
        self.word(KEYWORDS[keyword as usize - 1])
    }

    /// The string whose quote stands here. One that never closes is none, and breaks off.
    fn string(&mut self) -> Value {
        let quote = self.next();
        let mut out = Vec::new();
        while let Some(byte) = self.next() {
            if Some(byte) == quote {
                return Some(out);
            }
            let escaped = if byte == b'\\' && quote == Some(b'"') { self.next() } else { Some(byte) };
            out.push(match escaped {
                Some(b'n') if byte == b'\\' => b'\n',
                Some(b't') if byte == b'\\' => b'\t',
                Some(other) => other,
                None => break,
            });
        }
        self.cut = true;
        None
    }

    /// Letters, digits and these. It may begin with a digit, and have no bytes at all.
    fn name(&mut self) -> &'a [u8] {
        let begins = self.peek().map_or(false, |b| begins_identifier(b) || b.is_ascii_digit());
        let size = self.rest().iter().take_while(|b| begins && (in_identifier(**b) || **b == b':')).count();
        let name = &self.rest()[..size];
        self.at += size;
        name
    }

    /// A name, or strings with `+` between them. An added one that never closes adds nothing.
    fn value(&mut self) -> Value {
        self.gap();
        if !self.at_quote() {
            let name = self.name();
            return (!name.is_empty()).then(|| name.to_vec());
        }
        let mut out = self.string()?;
        loop {
            self.gap();
            if self.peek() != Some(b'+') {
                return Some(out);
            }
            self.at += 1;
            self.gap();
            if !self.at_quote() {
                return Some(out);
            }
            out.extend(self.string().unwrap_or_default());
        }
    }

    /// A whole string, a whole name that begins with no digit, or one byte.
    fn token(&mut self) -> Read<()> {
        self.not_high()?;
        match self.peek() {
            Some(b'"' | b'\'') => _ = self.string(),
            Some(b) if begins_identifier(b) => _ = self.name(),
            _ => self.at += 1,
        }
        Ok(())
    }

    /// A statement that is not read. If the text ends before it does, it breaks off.
    fn statement(&mut self) -> Read<()> {
        let mut depth = 0;
        self.gap();
        while let Some(byte) = self.peek() {
            if byte == b'}' && depth == 0 {
                return Ok(());
            }
            self.not_high()?;
            self.at += 1;
            match byte {
                b'"' | b'\'' => self.skipped_string(byte),
                b'{' => depth += 1,
                b'}' => depth -= 1,
                _ => {}
            }
            if depth == 0 && (byte == b';' || byte == b'}') {
                return Ok(());
            }
            self.gap();
        }
        self.cut = true;
        Ok(())
    }

    /// In such a statement a string ends at its quote unless a backslash stands before that.
    fn skipped_string(&mut self, quote: u8) {
        while let Some(byte) = self.next() {
            if byte == quote && self.text[self.at - 2] != b'\\' {
                return;
            }
        }
    }

    /// The byte that is due after a gap.
    fn due(&mut self, byte: u8, keyword: u32) -> Read<()> {
        self.gap();
        self.not_high()?;
        match self.peek() {
            Some(b) if b == byte => self.at += 1,
            Some(_) => return self.refused(5, keyword),
            None => return self.refused(6, keyword),
        }
        Ok(())
    }

    /// The value that is due after a keyword.
    fn argument(&mut self, keyword: u32) -> Read<Value> {
        match self.value() {
            None => self.not_high().and(self.refused(4, keyword)),
            Some(value) => {
                self.stored.push((keyword, value.clone()));
                Ok(Some(value))
            }
        }
    }

    // ---- dependencies

    fn dependencies(&mut self) -> Read<Dependencies> {
        let (mut imports, mut includes) = (Vec::new(), Vec::new());
        loop {
            self.gap();
            if self.peek().is_none() || LAST_OF_DEPENDENCIES.iter().any(|word| self.word(word)) {
                let page = page(&imports, &includes);
                return Ok(Dependencies { imports, includes, page });
            } else if self.keyword(IMPORT) {
                imports.push(self.import(imports.len())?);
            } else if self.keyword(INCLUDE) {
                includes.push(self.include(includes.len())?);
            } else {
                self.token()?;
            }
        }
    }

    fn import(&mut self, before: usize) -> Read<[Value; 3]> {
        if before == ROWS_MOST {
            return self.refused(10, IMPORT);
        }
        let name = self.argument(IMPORT)?;
        self.due(b'{', IMPORT)?;
        match self.block(IMPORT)? {
            [None, _] => self.refused(7, IMPORT),
            [prefix, revision] => Ok([name, prefix, revision]),
        }
    }

    fn include(&mut self, before: usize) -> Read<[Value; 2]> {
        if before == ROWS_MOST {
            return self.refused(10, INCLUDE);
        }
        let name = self.argument(INCLUDE)?;
        self.gap();
        if self.peek() != Some(b'{') {
            self.due(b';', INCLUDE)?;
            return Ok([name, None]);
        }
        self.at += 1;
        let [_, revision] = self.block(INCLUDE)?;
        Ok([name, revision])
    }

    /// Up to its brace: the last prefix, which only an import has, and the last revision-date.
    fn block(&mut self, keyword: u32) -> Read<[Value; 2]> {
        let mut kept = [None, None];
        loop {
            self.gap();
            match self.peek() {
                None => return self.refused(8, keyword),
                Some(b'}') => {
                    self.at += 1;
                    return Ok(kept);
                }
                _ => {}
            }
            if keyword == IMPORT && self.keyword(PREFIX) {
                kept[0] = self.line(PREFIX)?;
            } else if self.keyword(REVISION_DATE) {
                kept[1] = self.line(REVISION_DATE)?;
            } else {
                self.statement()?;
            }
        }
    }

    fn line(&mut self, keyword: u32) -> Read<Value> {
        let value = self.argument(keyword)?;
        self.due(b';', keyword)?;
        Ok(value)
    }

    // ---- metadata

    fn metadata(&mut self) -> Read<Vec<Value>> {
        loop {
            self.gap();
            if self.peek().is_none() || LAST_OF_METADATA.iter().any(|word| self.word(word)) {
                break;
            }
            match (MODULE..=REVISION).find(|keyword| self.keyword(*keyword)) {
                Some(keyword) => self.field(keyword)?,
                None => self.token()?,
            }
        }
        let (record, store) = described(&self.stored);
        let five = five(&record, &store);
        if five[0].is_none() { self.refused(9, 0) } else { Ok(five) }
    }

    fn field(&mut self, keyword: u32) -> Read<()> {
        match keyword {
            PREFIX if self.stored.iter().any(|(before, _)| *before == PREFIX) => return self.statement(),
            YANG_VERSION => _ = self.value(),
            _ => _ = self.argument(keyword)?,
        }
        if keyword == REVISION {
            self.gap();
        }
        match keyword {
            MODULE | SUBMODULE => self.due(b'{', keyword)?,
            BELONGS_TO => self.statement()?,
            REVISION if self.peek() == Some(b'{') => self.statement()?,
            _ => self.due(b';', keyword)?,
        }
        Ok(())
    }
}
