//! Refusals in words: what crate::meaning has for a number, with the names and places of this one.

use crate::meaning::said;
use crate::raw::NAME_MOST;
use crate::refusal::{By, Entry, Fault, Listed, Refusal, Spot, Why};
use std::fmt::{self, Display, Formatter};

impl std::error::Error for Refusal {}

impl Refusal {
    /// What is refused, in one line, without the number.
    pub fn words(&self) -> String {
        let known = match self {
            Refusal::ImageBroken { too_long: true, .. } => "has more than 65,536 bytes".to_string(),
            Refusal::BundleBroken { too_long: true, .. } => "has more than 16,777,216 bytes".to_string(),
            Refusal::ImageBroken { place, .. } | Refusal::BundleBroken { place, .. } => format!("breaks its form at byte {place}"),
            Refusal::Walk { entry, why } => return format!("{entry}: {why}"),
            Refusal::Ring(names) if names.len() == 1 => "a schema waits for itself".to_string(),
            Refusal::Ring(names) => format!("{} schemas wait for each other in a ring", names.len()),
            Refusal::ListWrong { place, fault } => format!(" at place {place}, counted from 0: {fault}"),
            Refusal::LentTooShort | Refusal::TooManyNodes | Refusal::OrderTooShort | Refusal::TablesUnfit => String::new(),
        };
        said(self.number(), Some(&known))
    }

    /// The number, the words, the line of a text or the edges of a ring, and what was expected and found: all but what can be done.
    pub fn told(&self) -> String {
        let shown = match self {
            Refusal::Walk { why: Why::Scan { spot: Some(spot), .. }, .. } => spot.shown(),
            Refusal::Ring(names) => ring(names),
            _ => self.clash().map_or_else(String::new, |clash| format!("\n{clash}")),
        };
        format!("refused {}: {}{shown}", self.number(), self.words())
    }
}

impl Display for Refusal {
    fn fmt(&self, f: &mut Formatter<'_>) -> fmt::Result {
        write!(f, "{}\nTo do: {}", self.told(), self.advice())
    }
}

/// Each edge of a ring on a line of its own.
fn ring(names: &[String]) -> String {
    names.iter().zip(names.iter().cycle().skip(1)).map(|(name, next)| format!("\n    {name} before {next}")).collect()
}

impl Display for Fault {
    fn fmt(&self, f: &mut Formatter<'_>) -> fmt::Result {
        match self {
            Fault::NoNode(number) => write!(f, "{number} is no node"),
            Fault::Again(name) => write!(f, "{name} is there already"),
            Fault::Early { name, first } if name == first => write!(f, "{name} waits for itself"),
            Fault::Early { name, first } => write!(f, "{name} must be registered after {first}"),
            Fault::Missing(name) => write!(f, "it ends without {name}"),
        }
    }
}

impl Display for Entry {
    fn fmt(&self, f: &mut Formatter<'_>) -> fmt::Result {
        let kind = if self.import_only { "import-only module" } else { "module" };
        write!(f, "{kind} {} (set {}, entry {})", self.name, self.set, self.number)
    }
}

impl Display for Why {
    fn fmt(&self, f: &mut Formatter<'_>) -> fmt::Result {
        let known = match self {
            Why::Scan { scan, spot: Some(spot) } => return write!(f, "the text of {spot}: {scan}"),
            Why::Scan { scan, spot: None } => return write!(f, "{}: {scan}", said(self.number(), None)),
            Why::NoIncludedText(listed) | Why::UnknownModule(listed) | Why::UnknownSubmodule(listed) => listed.as_ref().map(Listed::to_string),
            Why::NoText | Why::NoNode | Why::TooDeep | Why::TooManyEdges => None,
        };
        f.write_str(&said(self.number(), known.as_deref()))
    }
}

/// A name out of a text, which may be empty, of any length, and hold any character. Of a long one so much is said as an image's name can have.
pub(crate) fn quoted(name: &str) -> String {
    let said: String = name.chars().take(NAME_MOST).collect();
    format!("{said:?}{}", if said.len() < name.len() { ".." } else { "" })
}

impl Display for Listed {
    fn fmt(&self, f: &mut Formatter<'_>) -> fmt::Result {
        match &self.by {
            By::ImportIn(_) | By::IncludeIn(_) => write!(f, "{} {}", self.by, quoted(&self.name)),
            By::Augmenting | By::Deviation => write!(f, "{} {}", self.by, self.name),
        }
    }
}

/// The words before the name.
impl Display for By {
    fn fmt(&self, f: &mut Formatter<'_>) -> fmt::Result {
        match self {
            By::ImportIn(text) => write!(f, "the text of {text} imports"),
            By::IncludeIn(text) => write!(f, "the text of {text} includes"),
            By::Augmenting => f.write_str("its list of augmenting modules has"),
            By::Deviation => f.write_str("its list of deviations has"),
        }
    }
}

impl Display for Spot {
    fn fmt(&self, f: &mut Formatter<'_>) -> fmt::Result {
        match &self.line {
            Some(line) => write!(f, "{}, line {}, column {}", self.text, line.number, line.column),
            None => write!(f, "{}", self.text),
        }
    }
}
