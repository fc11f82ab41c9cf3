//! JSON, of which only the writing is needed: strings, lists, objects, and a refusal with all that is known of it.

use nuvaleta::{About, By, Checked, Clash, Dependencies, Entry, Graph, Listed, Metadata, Order, Refusal, ScanRefusal, Spot, Warning, Why};

/// A string. Every control byte is escaped, so that a value stays on one line.
pub fn quoted(s: &str) -> String {
    let mut out = String::from("\"");
    for c in s.chars() {
        match c {
            '"' | '\\' => out.extend(['\\', c]),
            '\n' => out.push_str("\\n"),
            '\t' => out.push_str("\\t"),
            c if c.is_ascii_control() => out.push_str(&format!("\\u{:04x}", c as u32)),
            c => out.push(c),
        }
    }
    out.push('"');
    out
}

pub fn list<I: Iterator<Item = String>>(items: I) -> String {
    format!("[{}]", items.collect::<Vec<_>>().join(","))
}

/// Names, which are plain words, and values that are JSON already.
type Fields = Vec<(&'static str, String)>;

pub fn object(fields: Fields) -> String {
    let field = |(name, value): (&str, String)| format!("\"{name}\":{value}");
    format!("{{{}}}", fields.into_iter().map(field).collect::<Vec<_>>().join(","))
}

/// A string, or null where there is none.
fn optional(value: Option<&str>) -> String {
    value.map_or_else(|| "null".to_string(), quoted)
}

// ---- answers

pub fn dependencies(found: &Dependencies) -> String {
    let imports = found.imports().map(|i| object(vec![("name", quoted(i.name)), ("prefix", quoted(i.prefix)), ("revision", optional(i.revision))]));
    let includes = found.includes().map(|i| object(vec![("name", quoted(i.name)), ("revision", optional(i.revision))]));
    object(vec![("imports", list(imports)), ("includes", list(includes))])
}

pub fn metadata(about: &Metadata) -> String {
    object(vec![
        ("name", quoted(about.name())),
        ("parent", optional(about.parent())),
        ("namespace", optional(about.namespace())),
        ("prefix", optional(about.prefix())),
        ("first_revision", optional(about.first_revision())),
        ("newest_revision", optional(about.newest_revision())),
    ])
}

pub fn graph(graph: &Graph) -> String {
    let edges = graph.edges.iter().map(|edge| format!("[{},{}]", edge.from, edge.to));
    object(vec![("nodes", list(graph.nodes.iter().map(|name| quoted(name)))), ("edges", list(edges))])
}

pub fn order(order: &Order) -> String {
    object(vec![("order", list(order.names.iter().map(|name| quoted(name))))])
}

pub fn texts(texts: &[About]) -> String {
    object(vec![("texts", list(texts.iter().map(about)))])
}

fn about(about: &About) -> String {
    let refused = |scan: &ScanRefusal| object(vec![("refused", scan_refusal(scan, &Spot::of(about.name, scan, about.text)))]);
    object(vec![
        ("name", quoted(about.name)),
        ("bytes", about.text.len().to_string()),
        ("metadata", about.metadata.as_ref().map_or_else(refused, metadata)),
        ("dependencies", about.dependencies.as_ref().map_or_else(refused, dependencies)),
        ("warnings", list(about.warnings.iter().map(|warning| object(of_warning(warning))))),
    ])
}

fn of_warning(warning: &Warning) -> Fields {
    vec![
        ("kind", quoted(warning.kind.word())),
        ("line", warning.line.to_string()),
        ("column", warning.column.to_string()),
        ("words", quoted(&warning.words)),
    ]
}

pub fn checked(checked: &Checked) -> String {
    let warning = |(text, warning): &(String, Warning)| object([vec![("text", quoted(text))], of_warning(warning)].concat());
    object(vec![("faults", list(checked.faults.iter().map(refusal))), ("warnings", list(checked.warnings.iter().map(warning)))])
}

// ---- refusals

/// A refusal: its number and words, what else is known, and last what was expected and found, and what to do.
fn refused(number: u32, words: &str, known: Fields, clash: Option<Clash>, advice: &str) -> String {
    let mut fields = vec![("number", number.to_string()), ("words", quoted(words))];
    fields.extend(known);
    fields.extend(clash.into_iter().flat_map(|clash| [("expected", quoted(&clash.expected)), ("found", quoted(&clash.found))]));
    fields.push(("advice", quoted(advice)));
    object(fields)
}

/// What is known of a refusal, without the braces of `{"refused": ..}` around it.
pub fn refusal(r: &Refusal) -> String {
    let known = match r {
        Refusal::ImageBroken { place, .. } | Refusal::BundleBroken { place, .. } | Refusal::ListWrong { place, .. } => {
            vec![("place", place.to_string())]
        }
        Refusal::Walk { entry, why } => [of_entry(entry), of_why(why)].concat(),
        Refusal::Ring(names) => vec![("ring", list(names.iter().map(|name| quoted(name))))],
        _ => Vec::new(),
    };
    refused(r.number(), &r.words(), known, r.clash(), &r.advice())
}

fn of_entry(entry: &Entry) -> Fields {
    vec![
        ("entry", entry.number.to_string()),
        ("set", entry.set.to_string()),
        ("import_only", entry.import_only.to_string()),
        ("name", quoted(&entry.name)),
    ]
}

fn of_why(why: &Why) -> Fields {
    match why {
        Why::Scan { scan, spot } => {
            let mut fields = vec![("scan", scan.number().to_string())];
            fields.extend(of_scan(scan, spot.as_ref()));
            fields.extend(spot.as_ref().map(|spot| ("text", quoted(&spot.text))));
            fields
        }
        Why::NoIncludedText(Some(listed)) | Why::UnknownModule(Some(listed)) | Why::UnknownSubmodule(Some(listed)) => of_listed(listed),
        _ => Vec::new(),
    }
}

fn of_listed(listed: &Listed) -> Fields {
    let (by, text) = match &listed.by {
        By::ImportIn(text) => ("import", Some(text)),
        By::IncludeIn(text) => ("include", Some(text)),
        By::Augmenting => ("augmenting", None),
        By::Deviation => ("deviation", None),
    };
    let mut fields = vec![("by", quoted(by)), ("listed", quoted(&listed.name))];
    fields.extend(text.map(|text| ("text", quoted(text))));
    fields
}

/// The keyword and the place of a scan's refusal, as far as it has them.
fn of_scan(scan: &ScanRefusal, spot: Option<&Spot>) -> Fields {
    let mut fields = Vec::new();
    fields.extend(scan.keyword.map(|keyword| ("keyword", quoted(keyword.word()))));
    fields.extend(scan.position.map(|position| ("position", position.to_string())));
    let line = spot.and_then(|spot| spot.line.as_deref());
    fields.extend(line.into_iter().flat_map(|line| [("line", line.number.to_string()), ("column", line.column.to_string())]));
    fields
}

/// The refusal of a single text, as `refusal` has it.
pub fn scan_refusal(scan: &ScanRefusal, spot: &Spot) -> String {
    refused(scan.number(), &scan.words(), of_scan(scan, Some(spot)), spot.clash.clone(), scan.advice())
}

#[cfg(test)]
mod tests {
    use super::quoted;

    /// The string that a quoted one is read back as, by the rules of RFC 8259 for what `quoted` writes.
    fn read_back(json: &str) -> String {
        let mut chars = json.strip_prefix('"').and_then(|rest| rest.strip_suffix('"')).expect("quotes").chars();
        let mut out = String::new();
        while let Some(c) = chars.next() {
            assert!(c >= ' ' && c != '"', "{c:?} stands by itself");
            out.push(match (c, if c == '\\' { chars.next() } else { None }) {
                (_, Some('n')) => '\n',
                (_, Some('t')) => '\t',
                (_, Some('u')) => {
                    let code: String = chars.by_ref().take(4).collect();
                    char::from_u32(u32::from_str_radix(&code, 16).expect("four digits")).expect("a character")
                }
                (_, Some(escaped @ ('"' | '\\'))) => escaped,
                (c, None) if c != '\\' => c,
                other => panic!("{other:?}"),
            });
        }
        out
    }

    #[test]
    fn every_byte() {
        let all: String = (0u8..128).map(char::from).chain("é\u{2028}".chars()).collect();
        assert_eq!(read_back(&quoted(&all)), all);
        assert_eq!(quoted("\0a\"\\/\n\u{7f}"), r#""\u0000a\"\\/\n\u007f""#);
    }
}
