//! Statements of a text, found by RFC 7950's rules for comments, strings and words (section 6.1) and no others: what the scans are held against. Where a
//! string or a comment never ends, the rules say nothing of the rest, and the whole text is searched for words.

/// A keyword and its argument.
pub(crate) struct Statement {
    /// Where the keyword begins, and the byte behind it.
    pub at: usize,
    pub end: usize,
    pub keyword: String,
    /// The argument; empty if there is none.
    pub argument: String,
    /// The keyword of the statement around it; empty if there is none, or none is known.
    pub inside: String,
}

/// What may make a scan pass over statements behind it.
#[derive(Clone, Copy, Debug, PartialEq, Eq)]
pub(crate) enum Snag {
    /// One of the words that end the scan.
    Stop(&'static str),
    /// A string that ends behind a backslash, in the block of an import or include.
    Backslash,
    /// A quote inside a word.
    Quote,
}

/// All that the search found, in the order of the text.
#[derive(Default)]
pub(crate) struct Found {
    pub statements: Vec<Statement>,
    pub snags: Vec<(usize, Snag)>,
    /// Where a string or comment begins that never ends, and which it is. Then the statements were found by a search for words.
    pub open: Option<(usize, &'static str)>,
    /// Whether the text ends inside a module of which nothing was seen that has its place behind the imports.
    pub cut: bool,
}

pub(crate) fn search(text: &[u8]) -> Found {
    let mut reader = Reader { text, at: 0, inside: Vec::new(), found: Found::default() };
    let read = reader.all();
    let cut = reader.is_cut();
    match read {
        Ok(()) => Found { cut, ..reader.found },
        Err(open) => Found { statements: by_words(text), snags: Vec::new(), open: Some(open), cut },
    }
}

/// The word behind the first gap; none if there is another thing.
pub(crate) fn first_word(text: &[u8]) -> &[u8] {
    let mut reader = Reader { text, at: 0, inside: Vec::new(), found: Found::default() };
    let start = reader.gap().map_or(text.len(), |()| reader.at);
    let length = text[start..].iter().position(|byte| !is_name(*byte)).unwrap_or(text.len() - start);
    &text[start..start + length]
}

const STOPS: [&str; 4] = ["organization", "contact", "description", "reference"];
/// What stands in a module before and among its imports, beside statements of extensions; all else has its place behind them (RFC 7950, section 14).
const HEAD: [&str; 6] = ["yang-version", "namespace", "prefix", "belongs-to", "import", "include"];
const MODULES: [&str; 2] = ["module", "submodule"];
/// The keywords that a search for words looks for.
const KEYWORDS: [&str; 4] = ["import", "include", "augment", "prefix"];

/// Where a string or comment opens that never ends, and which.
type Open = (usize, &'static str);

struct Reader<'a> {
    text: &'a [u8],
    at: usize,
    /// The keyword of each block around this place, and of how many of these blocks, up to this one, the scan skips the statements whole.
    inside: Vec<(String, usize)>,
    found: Found,
}

fn is_white(byte: u8) -> bool {
    matches!(byte, 9..=13 | 32)
}

fn is_quote(byte: u8) -> bool {
    matches!(byte, b'"' | b'\'')
}

/// Whether a name of the scans goes on with this byte.
pub(crate) fn is_name(byte: u8) -> bool {
    byte.is_ascii_alphanumeric() || b"_-.:".contains(&byte)
}

fn lossy(bytes: &[u8]) -> String {
    String::from_utf8_lossy(bytes).into_owned()
}

/// The word that ends the scan, if one ends so: it may stand behind a byte that no name has, or that no name begins with.
fn stop(word: &[u8]) -> Option<&'static str> {
    let start = word.iter().rposition(|byte| !is_name(*byte)).map_or(0, |i| i + 1);
    let begins = |byte: &u8| byte.is_ascii_alphabetic() || *byte == b'_';
    let name = &word[start..];
    let name = &name[name.iter().position(begins).unwrap_or(name.len())..];
    STOPS.into_iter().find(|stop| name == stop.as_bytes())
}

impl Reader<'_> {
    fn all(&mut self) -> Result<(), Open> {
        loop {
            self.gap()?;
            match self.text.get(self.at) {
                None => return Ok(()),
                Some(b'}') => drop(self.inside.pop()),
                Some(b'{') => self.open(String::new(), false),
                Some(b';') => {}
                Some(quote) if is_quote(*quote) => {
                    self.string()?;
                    continue;
                }
                Some(_) => {
                    self.statement()?;
                    continue;
                }
            }
            self.at += 1;
        }
    }

    /// Of a text that was read to its end, or to what never ends, whether it stopped in the head of a module.
    fn is_cut(&self) -> bool {
        let other = |s: &Statement| !s.keyword.contains(':') && !HEAD.contains(&s.keyword.as_str());
        // a word at the very end may be the beginning of another
        let behind = |s: &Statement| MODULES.contains(&s.inside.as_str()) && s.end < self.text.len() && other(s);
        let stop = |(_, snag): &(usize, Snag)| matches!(snag, Snag::Stop(_));
        let begun = self.inside.first().map_or(false, |(keyword, _)| MODULES.contains(&keyword.as_str()));
        begun && !self.found.statements.iter().any(behind) && !self.found.snags.iter().any(stop)
    }

    /// White bytes and comments.
    fn gap(&mut self) -> Result<(), Open> {
        loop {
            let rest = &self.text[self.at..];
            if rest.first().map_or(false, |byte| is_white(*byte)) {
                self.at += 1;
            } else if rest.starts_with(b"//") {
                self.at += rest.iter().position(|byte| *byte == b'\n').unwrap_or(rest.len());
            } else if rest.starts_with(b"/*") {
                let end = rest[2..].windows(2).position(|two| two == b"*/").ok_or((self.at, "comment"))?;
                self.at += end + 4;
            } else {
                return Ok(());
            }
        }
    }

    /// A keyword, its argument, and the brace that opens its block, if these are there.
    fn statement(&mut self) -> Result<(), Open> {
        let at = self.at;
        self.word(false);
        let (end, keyword) = (self.at, lossy(&self.text[at..self.at]));
        self.gap()?;
        let argument = match self.text.get(self.at) {
            None | Some(b'{' | b'}' | b';') => String::new(),
            Some(quote) if is_quote(*quote) => self.strings()?,
            Some(_) => {
                let start = self.at;
                self.word(true);
                lossy(&self.text[start..self.at])
            }
        };
        let inside = self.inside.last().map_or_else(String::new, |(keyword, _)| keyword.clone());
        self.found.statements.push(Statement { at, end, keyword: keyword.clone(), argument, inside });
        self.gap()?;
        if self.text.get(self.at) == Some(&b'{') {
            // behind a comment right behind the keyword the scan does not know the statement
            let skipped = (keyword == "import" || keyword == "include") && self.text[end] != b'/';
            self.open(keyword, skipped);
            self.at += 1;
        }
        Ok(())
    }

    /// A word. In an argument a quote may stand behind its first byte, as YANG 1 allows; in a keyword none stands.
    fn word(&mut self, argument: bool) {
        let start = self.at;
        while let Some(byte) = self.text.get(self.at) {
            let rest = &self.text[self.at..];
            let comment = self.at > start && (rest.starts_with(b"//") || rest.starts_with(b"/*"));
            if is_white(*byte) || b"{};".contains(byte) || comment || (is_quote(*byte) && !argument) {
                break;
            }
            if is_quote(*byte) {
                self.found.snags.push((self.at, Snag::Quote));
            }
            self.at += 1;
        }
        match stop(&self.text[start..self.at]) {
            Some(stop) if !self.in_block() => self.found.snags.push((start, Snag::Stop(stop))),
            _ => {}
        }
    }

    fn open(&mut self, keyword: String, skipped: bool) {
        let around = self.inside.last().map_or(0, |(_, count)| *count);
        self.inside.push((keyword, around + usize::from(skipped)));
    }

    /// Whether this is in the block of an import or include.
    fn in_block(&self) -> bool {
        self.inside.last().map_or(false, |(_, count)| *count > 0)
    }

    /// Strings with `+` between them, as one value.
    fn strings(&mut self) -> Result<String, Open> {
        let mut value = self.string()?;
        loop {
            self.gap()?;
            if self.text.get(self.at) != Some(&b'+') {
                return Ok(value);
            }
            self.at += 1;
            self.gap()?;
            if !self.text.get(self.at).map_or(false, |byte| is_quote(*byte)) {
                return Ok(value);
            }
            value += &self.string()?;
        }
    }

    /// One string. A backslash escapes in double quotes alone.
    fn string(&mut self) -> Result<String, Open> {
        let (start, quote) = (self.at, self.text[self.at]);
        let mut value = Vec::new();
        self.at += 1;
        loop {
            let byte = *self.text.get(self.at).ok_or((start, "string"))?;
            self.at += 1;
            match byte {
                _ if byte == quote => break,
                b'\\' if quote == b'"' => {
                    let escaped = *self.text.get(self.at).ok_or((start, "string"))?;
                    value.push(match escaped {
                        b'n' => b'\n',
                        b't' => b'\t',
                        other => other,
                    });
                    self.at += 1;
                }
                other => value.push(other),
            }
        }
        if self.in_block() && self.text[self.at - 2] == b'\\' && self.at - 2 > start {
            self.found.snags.push((start, Snag::Backslash));
        }
        Ok(lossy(&value))
    }
}

/// Keywords that stand as words of their own, with a value behind them and then a byte that can follow one.
fn by_words(text: &[u8]) -> Vec<Statement> {
    let mut out = Vec::new();
    let mut at = 0;
    while at < text.len() {
        let length = text[at..].iter().position(|byte| !is_name(*byte)).unwrap_or(text.len() - at);
        let keyword = lossy(&text[at..at + length]);
        if KEYWORDS.contains(&keyword.as_str()) {
            out.extend(value_behind(text, at + length).map(|argument| Statement { at, end: at + length, keyword, argument, inside: String::new() }));
        }
        at += length.max(1);
    }
    out
}

fn value_behind(text: &[u8], from: usize) -> Option<String> {
    let behind = |from: usize, skipped: fn(u8) -> bool| from + text[from..].iter().position(|byte| !skipped(*byte)).unwrap_or(text.len() - from);
    let start = behind(from, |byte| is_white(byte) || is_quote(byte));
    let end = behind(start, |byte| !is_white(byte) && !is_quote(byte) && !b"{};".contains(&byte));
    let next = behind(end, |byte| is_white(byte) || is_quote(byte));
    let fits = start > from && end > start && text.get(next).map_or(false, |byte| b"{;/+".contains(byte));
    fits.then(|| lossy(&text[start..end]))
}
