//! nuvaleta explain NUMBER [--keyword K] [--at PLACE [FILE]]: what a number means, where its place is, and what to do about it.

use crate::args::Args;
use crate::io::{called, print, read};
use crate::{json, usage, Ended, Wrong};
use nuvaleta::{Keyword, Line, Meaning, Refusal, ScanFault, ScanRefusal};
use std::ffi::OsStr;

struct Asked {
    meaning: &'static Meaning,
    keyword: Option<Keyword>,
    /// A position in a text (3 to 12), a place in an image or a bundle (20, 21) or in a list (42).
    at: Option<usize>,
}

/// The last number of a scan: those from 1 to it are of a text.
const LAST_SCAN: u32 = ScanFault::ALL.len() as u32;

fn wrong<T>(why: String) -> Result<T, Wrong> {
    Err(Wrong::Usage(why))
}

/// A number as calls answer them, in a word of 32 bits; none if it is greater.
fn number(word: &OsStr) -> Result<Option<u32>, Wrong> {
    match word.to_str() {
        Some(digits) if !digits.is_empty() && digits.bytes().all(|byte| byte.is_ascii_digit()) => Ok(digits.parse().ok()),
        _ => wrong(format!("{} is no number", word.to_string_lossy())),
    }
}

/// A keyword by its word or number, of which 0 is none.
fn keyword(word: &OsStr) -> Result<Option<Keyword>, Wrong> {
    let named = |keyword: &Keyword| word == keyword.word() || word == keyword.number().to_string().as_str();
    match Keyword::ALL.into_iter().find(named) {
        None if word != "0" => wrong(format!("{} is no keyword's word or number", word.to_string_lossy())),
        found => Ok(found),
    }
}

/// Whether a scan answers this number with this keyword.
fn comes_with(number: u32, keyword: Keyword) -> bool {
    match number {
        4 => keyword != Keyword::YangVersion,
        5 | 6 => keyword != Keyword::BelongsTo,
        7 => keyword == Keyword::Import,
        8 | 10 => matches!(keyword, Keyword::Import | Keyword::Include),
        _ => false,
    }
}

impl Asked {
    fn read(args: &Args, word: &OsStr) -> Result<Asked, Wrong> {
        let meaning = match number(word)?.and_then(Meaning::of) {
            Some(meaning) => meaning,
            None => return wrong(format!("no call answers {}: the numbers are 0 to 12, 20 to 31 and 40 to 43", word.to_string_lossy())),
        };
        let keyword = args.value("--keyword").map_or(Ok(None), keyword)?;
        let at = match args.value("--at").map(|word| Ok((word, number(word)?))).transpose()? {
            Some((word, None)) => return wrong(format!("no call answers the place {}", word.to_string_lossy())),
            found => found.and_then(|(_, place)| place).map(|place| place as usize),
        };
        Asked { meaning, keyword, at }.checked()
    }

    /// Refuses a keyword or a place that does not come with the number.
    fn checked(self) -> Result<Asked, Wrong> {
        let number = self.meaning.number;
        match self.keyword {
            _ if number == 25 && (self.keyword.is_some() || self.at.is_some()) => {
                wrong("keyword and place beside 25 are those of the scan's number: explain that one".to_string())
            }
            Some(keyword) if !comes_with(number, keyword) => wrong(format!("{number} does not come with the keyword {keyword}")),
            _ if self.at.is_some() && !matches!(number, 3..=LAST_SCAN | 20 | 21 | 42) => wrong(format!("{number} has no place")),
            _ => Ok(self),
        }
    }

    /// In words, with what was told of it.
    fn words(&self) -> String {
        match (self.meaning.number, self.at) {
            (number @ 1..=LAST_SCAN, _) => {
                let fault = ScanFault::ALL[number as usize - 1];
                ScanRefusal { fault, keyword: self.keyword, position: None }.words()
            }
            (20, Some(place)) => Refusal::ImageBroken { place, too_long: false, looks: None }.words(),
            (21, Some(place)) => Refusal::BundleBroken { place, too_long: false, looks: None }.words(),
            (42, Some(place)) => format!("{} at place {place}, counted from 0", self.meaning.words()),
            _ => self.meaning.words(),
        }
    }

    fn heading(&self) -> String {
        let number = self.meaning.number;
        let of = match (number, self.at) {
            (0, _) => "0: ".to_string(),
            (1..=LAST_SCAN, Some(position)) => format!("scan refusal {number}, at byte {position} of a text: "),
            (1..=LAST_SCAN, None) => format!("scan refusal {number}, of a text: "),
            (23..=29 | 31, _) => format!("refusal {number}, of a module or import-only module of the library: "),
            _ => format!("refusal {number}: "),
        };
        format!("{of}{}\n", self.words())
    }
}

/// A place in a file.
enum Place {
    Text(String, Line),
    Bytes(String),
}

/// So many bytes before and behind a place are shown.
const AROUND: usize = 8;

/// The bytes around a place in hexadecimal, and a mark below the one there.
fn bytes(name: &str, form: &[u8], at: usize) -> String {
    let from = at.saturating_sub(AROUND);
    let shown: Vec<String> = form[from..form.len().min(at + AROUND)].iter().map(|byte| format!("{byte:02x}")).collect();
    format!("{name}, from byte {from} on:\n    {}\n    {}^^\n", shown.join(" "), " ".repeat(3 * (at - from)))
}

fn place(number: u32, file: &OsStr, at: usize) -> Result<Place, Wrong> {
    if number == 42 {
        return wrong("the place of 42 is one in a list, not in a FILE".to_string());
    }
    let name = called(file);
    let read = read(file, nuvaleta::BUNDLE_MOST).map_err(Wrong::File)?;
    if at > read.len() {
        return Err(Wrong::File(format!("{name}: there is no byte {at}, it has {}", read.len())));
    }
    Ok(if number <= LAST_SCAN { Place::Text(name, Line::at(&read, at)) } else { Place::Bytes(bytes(&name, &read, at)) })
}

fn as_json(asked: &Asked, place: &Option<Place>) -> String {
    let mut fields = vec![
        ("number", asked.meaning.number.to_string()),
        ("words", json::quoted(&asked.words())),
        ("advice", json::quoted(asked.meaning.advice)),
    ];
    fields.extend(asked.keyword.map(|keyword| ("keyword", json::quoted(keyword.word()))));
    fields.extend(asked.at.map(|at| (if asked.meaning.number <= LAST_SCAN { "position" } else { "place" }, at.to_string())));
    if let Some(Place::Text(_, line)) = place {
        fields.extend([("line", line.number.to_string()), ("column", line.column.to_string())]);
    }
    json::object(fields) + "\n"
}

fn plainly(asked: &Asked, place: &Option<Place>) -> String {
    let shown = match place {
        Some(Place::Text(name, line)) => format!("{name}, line {}, column {}:\n{line}\n", line.number, line.column),
        Some(Place::Bytes(shown)) => shown.clone(),
        None => String::new(),
    };
    format!("{}{shown}To do: {}\n", asked.heading(), asked.meaning.advice)
}

pub fn run(args: &Args) -> Ended {
    let (word, file) = match args.words.as_slice() {
        [word] => (word, None),
        [word, file] => (word, Some(file)),
        _ => return usage(),
    };
    let asked = Asked::read(args, word)?;
    let place = match (file, asked.at) {
        (Some(file), Some(at)) => Some(place(asked.meaning.number, file, at)?),
        (Some(_), None) => return wrong("a FILE needs --at".to_string()),
        (None, _) => None,
    };
    Ok(print(0, &if args.has("--json") { as_json(&asked, &place) } else { plainly(&asked, &place) }))
}

#[cfg(test)]
mod tests {
    use super::{comes_with, Keyword};
    use std::collections::BTreeSet;

    /// What the two scans, in both forms, answer to short texts of all keywords is what `comes_with` says, no less and no more.
    #[test]
    fn keywords() {
        let mut seen = BTreeSet::new();
        let mut scan = |text: String| {
            let deps = [nuvaleta::dependencies, nuvaleta::dependencies_whole].map(|scan| scan(text.as_bytes()).err());
            let meta = [nuvaleta::metadata, nuvaleta::metadata_whole].map(|scan| scan(text.as_bytes()).err());
            seen.extend(deps.iter().chain(&meta).flatten().filter_map(|r| Some((r.number(), r.keyword?.number()))));
        };
        for before in ["", "import a{", "include a{", "module a{", "submodule a{belongs-to b{", "revision a{"] {
            for keyword in Keyword::ALL {
                for behind in ["", " ", ";", "{", "}", " a", " a b", " a;", " a{", " a}", " a{}", " a{a", " \"", " 'a'", " 'a'+"] {
                    scan(format!("{before}{keyword}{behind}"));
                }
            }
        }
        scan("import a{prefix b;}".repeat(257));
        scan("include a;".repeat(257));
        let pairs = (0..=43).flat_map(|number| Keyword::ALL.into_iter().map(move |keyword| (number, keyword)));
        let due = pairs.filter(|(number, keyword)| comes_with(*number, *keyword)).map(|(number, keyword)| (number, keyword.number()));
        assert_eq!(seen, due.collect());
    }
}
