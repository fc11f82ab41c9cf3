//! Why a text is refused, and where that is as a person counts it.

use crate::meaning::{said, Meaning};
use std::fmt::{self, Display, Formatter};

/// Why a text is refused. `Display` says it in words, with the number and the place.
#[derive(Clone, Copy, Debug, PartialEq, Eq)]
pub struct ScanRefusal {
    /// What is wrong.
    pub fault: ScanFault,
    /// The keyword at which it came, if it is of interest.
    pub keyword: Option<Keyword>,
    /// A place in the text, counted in bytes from 0 on; the first two faults have none.
    pub position: Option<usize>,
}

/// What is wrong with a text, under the header's number. `Display` says it in words.
#[derive(Clone, Copy, Debug, PartialEq, Eq)]
#[repr(u32)]
pub enum ScanFault {
    /// The text is over [`crate::TEXT_MOST`].
    TextTooLong = 1,
    /// Store, table or page too short. With this crate's functions it does not come.
    LentTooShort = 2,
    /// A byte above 127 outside of strings and comments, where the scan meets it.
    HighByte = 3,
    /// No value after the keyword.
    NoValue = 4,
    /// Another byte than the one required after keyword and value.
    OtherByte = 5,
    /// The end instead of that byte.
    EndOfText = 6,
    /// An import closed without prefix.
    NoPrefix = 7,
    /// The end inside the block of an import or include.
    OpenEnded = 8,
    /// Metadata without a name.
    NoName = 9,
    /// A 257th import or include.
    TooMany = 10,
    /// The end inside a string, or inside a statement that is passed over. Of [`crate::dependencies_whole`] and [`crate::metadata_whole`] alone.
    CutShort = 11,
    /// The text is not UTF-8: where the first wrong sequence begins.
    NotUtf8 = 12,
}

/// A keyword that a refusal names, under the header's number.
#[derive(Clone, Copy, Debug, PartialEq, Eq)]
#[repr(u32)]
#[allow(missing_docs)] // each is its word
pub enum Keyword {
    Module = 1,
    Submodule = 2,
    BelongsTo = 3,
    Namespace = 4,
    Prefix = 5,
    YangVersion = 6,
    Revision = 7,
    Import = 8,
    Include = 9,
    RevisionDate = 10,
}

impl ScanFault {
    /// All of them, in the order of their numbers.
    pub const ALL: [ScanFault; 12] = [
        ScanFault::TextTooLong,
        ScanFault::LentTooShort,
        ScanFault::HighByte,
        ScanFault::NoValue,
        ScanFault::OtherByte,
        ScanFault::EndOfText,
        ScanFault::NoPrefix,
        ScanFault::OpenEnded,
        ScanFault::NoName,
        ScanFault::TooMany,
        ScanFault::CutShort,
        ScanFault::NotUtf8,
    ];

    /// The header's number, 1 to 12.
    pub fn number(self) -> u32 {
        self as u32
    }
}

impl Display for ScanFault {
    fn fmt(&self, f: &mut Formatter<'_>) -> fmt::Result {
        f.pad(&said(self.number(), None))
    }
}

impl Keyword {
    /// All of them, in the order of their numbers.
    pub const ALL: [Keyword; 10] = [
        Keyword::Module,
        Keyword::Submodule,
        Keyword::BelongsTo,
        Keyword::Namespace,
        Keyword::Prefix,
        Keyword::YangVersion,
        Keyword::Revision,
        Keyword::Import,
        Keyword::Include,
        Keyword::RevisionDate,
    ];

    /// The header's number, 1 to 10.
    pub fn number(self) -> u32 {
        self as u32
    }

    /// The keyword as it is written in a text.
    pub fn word(self) -> &'static str {
        match self {
            Keyword::Module => "module",
            Keyword::Submodule => "submodule",
            Keyword::BelongsTo => "belongs-to",
            Keyword::Namespace => "namespace",
            Keyword::Prefix => "prefix",
            Keyword::YangVersion => "yang-version",
            Keyword::Revision => "revision",
            Keyword::Import => "import",
            Keyword::Include => "include",
            Keyword::RevisionDate => "revision-date",
        }
    }
}

impl Display for Keyword {
    fn fmt(&self, f: &mut Formatter<'_>) -> fmt::Result {
        f.pad(self.word())
    }
}

impl ScanRefusal {
    /// What the number, keyword and position of a scan's answer say; none for a good scan.
    pub(crate) fn of([number, keyword, position]: [u32; 3]) -> Option<ScanRefusal> {
        if number == 0 {
            return None;
        }
        let fault = ScanFault::ALL.into_iter().find(|fault| fault.number() == number);
        let fault = fault.unwrap_or_else(|| panic!("the archive answers {number} to a scan, which the header does not have"));
        let keyword = Keyword::ALL.into_iter().find(|word| word.number() == keyword);
        Some(ScanRefusal { fault, keyword, position: (number > 2).then_some(position as usize) })
    }

    /// The header's number, 1 to 12.
    pub fn number(&self) -> u32 {
        self.fault.number()
    }

    /// What is wrong, without number and place.
    pub fn words(&self) -> String {
        said(self.number(), self.keyword.map(Keyword::word))
    }

    /// What can be done about it.
    pub fn advice(&self) -> &'static str {
        Meaning::of(self.number()).map_or("", |meaning| meaning.advice)
    }

    /// Where it is in the text that was scanned.
    pub fn line(&self, text: &[u8]) -> Option<Line> {
        self.position.map(|position| Line::at(text, position))
    }
}

impl std::error::Error for ScanRefusal {}

impl Display for ScanRefusal {
    fn fmt(&self, f: &mut Formatter<'_>) -> fmt::Result {
        write!(f, "{} (scan refusal {}", self.words(), self.number())?;
        if let Some(position) = self.position {
            write!(f, ", byte {position}")?;
        }
        write!(f, ")")
    }
}

/// A place in a text as a person counts it, lines and columns from 1 on. A column is a character, or a byte that is part of none. `Display` is the line with
/// a mark below the place; what cannot be printed is a question mark there.
#[derive(Clone, Debug, PartialEq, Eq)]
pub struct Line {
    /// The line's number.
    pub number: usize,
    /// The column.
    pub column: usize,
    /// So much of the line as is printed.
    pub part: String,
    /// Where in that part the place is.
    pub at: usize,
}

/// How many characters of a line are printed, and how many of them at most before the place.
const PART: usize = 72;
const BEFORE: usize = 56;

impl Line {
    /// The line of a place, which may be the text's end; one behind it counts as the end.
    pub fn at(text: &[u8], place: usize) -> Line {
        let (before, behind) = text.split_at(place.min(text.len()));
        let start = before.iter().rposition(|b| *b == b'\n').map_or(0, |i| i + 1);
        let end = behind.iter().position(|b| *b == b'\n').map_or(text.len(), |i| before.len() + i);
        let line = characters(&text[start..end]);
        let index = if before.len() == end { line.len() } else { line.partition_point(|(at, _)| start + at <= before.len()) - 1 };
        let from = index.saturating_sub(BEFORE);
        let part: String = line[from..line.len().min(from + PART)].iter().map(|(_, c)| *c).collect();
        let number = 1 + before.iter().filter(|b| **b == b'\n').count();
        Line { number, column: index + 1, part: part.trim_end().to_string(), at: index - from }
    }
}

/// The characters of a line, each with its place and as it is printed. A byte that is part of none counts as one.
fn characters(line: &[u8]) -> Vec<(usize, char)> {
    let mut out = Vec::new();
    let mut at = 0;
    while at < line.len() {
        let good = std::str::from_utf8(&line[at..]).map_or_else(|e| e.valid_up_to(), str::len);
        let part = std::str::from_utf8(&line[at..at + good]).unwrap_or_default();
        out.extend(part.char_indices().map(|(i, c)| (at + i, printed(c))));
        at += good;
        if at < line.len() {
            out.push((at, '?'));
            at += 1;
        }
    }
    out
}

/// How many columns this part of a line takes.
pub(crate) fn columns(part: &[u8]) -> usize {
    characters(part).len()
}

/// A character as it stands in a line on a terminal, where none may move the others or hide.
pub(crate) fn printed(c: char) -> char {
    match c {
        '\t'..='\r' => ' ',
        ' '..='~' => c,
        _ if c.escape_debug().count() == 1 => c,
        _ => '?',
    }
}

impl Display for Line {
    fn fmt(&self, f: &mut Formatter<'_>) -> fmt::Result {
        write!(f, "    {}\n    {}^", self.part, " ".repeat(self.at))
    }
}
