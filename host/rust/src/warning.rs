//! What may be lost without a refusal: imports and includes that the scan of a text passes over or that are cut off, and augmentations of a module that it
//! does not import.

use crate::plain::{self, Found, Snag, Statement};
use crate::scan_refusal::columns;
use crate::words::quoted;
use crate::{Dependencies, Line};
use std::collections::HashSet;
use std::fmt::{self, Display, Formatter};

/// What a plain search of a text found that the scan's answer does not have. It may be a false alarm: the words say what was seen.
#[derive(Clone, Debug, PartialEq, Eq)]
pub struct Warning {
    /// Which kind it is.
    pub kind: WarningKind,
    /// The line of the keyword, counted from 1.
    pub line: usize,
    /// Its column, in characters, counted from 1.
    pub column: usize,
    /// What was seen, and what seems to be the cause.
    pub words: String,
}

/// The kinds of warnings.
#[derive(Clone, Copy, Debug, PartialEq, Eq)]
pub enum WarningKind {
    /// An import or include that the scan passes over: its edge is missing.
    PassedOver,
    /// An augmentation under a prefix that no import has which was read: no edge comes of it but by the library's list of augmenting modules.
    Augments,
    /// The text ends inside its module, before anything that has its place behind the imports: some may be missing.
    CutOff,
}

impl WarningKind {
    /// The kind as a word: `passed_over`, `augments` or `cut_off`.
    pub fn word(self) -> &'static str {
        match self {
            WarningKind::PassedOver => "passed_over",
            WarningKind::Augments => "augments",
            WarningKind::CutOff => "cut_off",
        }
    }
}

impl Display for Warning {
    fn fmt(&self, f: &mut Formatter<'_>) -> fmt::Result {
        write!(f, "line {}, column {}: {}", self.line, self.column, self.words)
    }
}

/// The warnings of a text, of which the scan read these dependencies, in the order of the text.
pub(crate) fn warnings(text: &[u8], read: &Dependencies) -> Vec<Warning> {
    let found = plain::search(text);
    let (own, causes) = (own_prefixes(&found), Causes::of(text, &found));
    let words = |statement: &Statement| match statement.keyword.as_str() {
        "import" => passed_over(text, &causes, statement, read.imports().any(|import| import.name == statement.argument)),
        "include" => passed_over(text, &causes, statement, read.includes().any(|include| include.name == statement.argument)),
        "augment" => augments(statement, |prefix| own.contains(prefix) || read.imports().any(|import| import.prefix == prefix)),
        _ => None,
    };
    // statements stand in the order of the text, so its lines are counted once
    let (mut line, mut column, mut counted) = (1, 1, 0);
    let mut out = Vec::new();
    for statement in &found.statements {
        if let Some((kind, words)) = words(statement) {
            let lines: Vec<&[u8]> = text[counted..statement.at].split(|byte| *byte == b'\n').collect();
            line += lines.len() - 1;
            column = if lines.len() > 1 { 1 } else { column } + lines.last().map_or(0, |last| columns(last));
            counted = statement.at;
            out.push(Warning { kind, line, column, words });
        }
    }
    if found.cut && out.is_empty() {
        out.push(cut_off(text));
    }
    out
}

fn cut_off(text: &[u8]) -> Warning {
    let Line { number: line, column, .. } = Line::at(text, text.len());
    let words = "it ends inside its module, and nothing was seen that has its place behind the imports: if it is cut off, imports and includes are missing";
    Warning { kind: WarningKind::CutOff, line, column, words: words.to_string() }
}

/// The prefixes that a module or submodule gives to its own module.
fn own_prefixes(found: &Found) -> HashSet<&str> {
    let own = |s: &&Statement| s.keyword == "prefix" && ["module", "submodule", "belongs-to", ""].contains(&s.inside.as_str());
    found.statements.iter().filter(own).map(|s| s.argument.as_str()).collect()
}

fn passed_over(text: &[u8], causes: &Causes, statement: &Statement, was_read: bool) -> Option<(WarningKind, String)> {
    let Statement { keyword, argument, .. } = statement;
    let words = || format!("{keyword} {} is passed over: {}", quoted(argument), causes.of_one(text, statement));
    // without an argument it is no statement, or the scan has refused the text
    (!was_read && !argument.is_empty()).then(|| (WarningKind::PassedOver, words()))
}

/// What seems to keep the scan from statements of a text, in words; a snag with its place.
struct Causes {
    open: Option<String>,
    /// The first word that ends the scan, and the first snag of any kind.
    snags: [Option<(usize, String)>; 2],
}

impl Causes {
    fn of(text: &[u8], found: &Found) -> Causes {
        let line = |at: usize| Line::at(text, at).number;
        let words = |(at, snag): &(usize, Snag)| match snag {
            Snag::Stop(word) => (*at, format!("the scan ends at the word {word} in line {}", line(*at))),
            Snag::Backslash => (*at, format!("a string before it, in line {}, ends behind a backslash", line(*at))),
            Snag::Quote => (*at, format!("a quote before it, in line {}, stands inside a word", line(*at))),
        };
        let open = |(at, what)| format!("a {what} that opens in line {} does not end, and this was found by a search for words alone", line(at));
        let stop = found.snags.iter().find(|(_, snag)| matches!(snag, Snag::Stop(_)));
        Causes { open: found.open.map(open), snags: [stop.map(words), found.snags.first().map(words)] }
    }

    fn of_one(&self, text: &[u8], statement: &Statement) -> String {
        let snag = self.snags.iter().flatten().find(|(at, _)| *at < statement.at);
        match (&self.open, snag) {
            (Some(words), _) => words.clone(),
            _ if text.get(statement.end) == Some(&b'/') => format!("a comment stands right behind the word {}", statement.keyword),
            (_, Some((_, words))) => words.clone(),
            (_, None) => "why is not plain".to_string(),
        }
    }
}

/// An augmentation whose path begins with a prefix that is not known.
fn augments(statement: &Statement, known: impl Fn(&str) -> bool) -> Option<(WarningKind, String)> {
    let path = statement.argument.trim_start();
    let first = path.strip_prefix('/').unwrap_or(path).split('/').next().unwrap_or_default();
    let prefix = first.split_once(':')?.0.trim();
    let words = || format!("it augments {}, and no import that was read has the prefix {}", quoted(&statement.argument), quoted(prefix));
    (!known(prefix)).then(|| (WarningKind::Augments, words()))
}
