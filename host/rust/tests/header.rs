//! src/raw.rs beside include/nuvaleta.h, as they stand: every call with its parameters, every length, every number.

use nuvaleta::{raw, Keyword, Meaning, ScanFault};
use std::collections::BTreeMap;

const HEADER: &str = include_str!("../../../include/nuvaleta.h");
const RAW: &str = include_str!("../src/raw.rs");

/// The calls of a text, from the word before their names up to the next `)`, by name.
fn calls<'a>(text: &'a str, before: &str) -> BTreeMap<&'a str, &'a str> {
    let one = |piece: &'a str| {
        let (name, rest) = piece.split_once('(').expect("a parameter list");
        (name, rest.split_once(')').expect("its end").0.trim())
    };
    text.split(&format!("\n{before} nuvaleta_")).skip(1).map(one).collect()
}

/// `const uint8_t *text` as Rust writes it.
fn translated(parameter: &str) -> String {
    let (kind, name) = parameter.rsplit_once([' ', '*']).expect("a kind and a name");
    let pointer = match (parameter.contains('*'), kind.starts_with("const ")) {
        (false, _) => "",
        (true, true) => "*const ",
        (true, false) => "*mut ",
    };
    let of = match kind.trim_start_matches("const ").trim() {
        "uint8_t" => "u8",
        "uint32_t" => "u32",
        "size_t" => "usize",
        other => panic!("{other}"),
    };
    format!("{name}: {pointer}{of}")
}

/// Parameters, without the breaks and the last comma of a long list.
fn parameters(list: &str) -> Vec<String> {
    let words = |parameter: &str| parameter.split_whitespace().collect::<Vec<_>>().join(" ");
    list.split(',').map(words).filter(|parameter| !parameter.is_empty()).collect()
}

#[test]
fn the_calls() {
    let (declared, said) = (calls(HEADER, "uint32_t"), calls(RAW, "    pub fn"));
    assert_eq!(declared.len(), 14);
    assert!(declared.keys().eq(said.keys()));
    for (name, list) in &declared {
        let translated: Vec<String> = parameters(list).iter().map(|parameter| translated(parameter)).collect();
        assert_eq!(translated, parameters(said[name]), "{name}");
    }
    assert_eq!(RAW.matches(") -> u32;").count(), 14);
}

/// What the header gives a name in an enum.
fn given(name: &str) -> Option<u32> {
    let listed = format!("    NUVALETA_{name} = ");
    let rest = HEADER.lines().find_map(|line| line.strip_prefix(&listed))?;
    rest.split(|c: char| !c.is_ascii_digit()).next()?.parse().ok()
}

/// Every macro with a value, in the order of the header, as raw.rs writes it: a number, a name, or a sum of names.
fn macros() -> Vec<(String, String)> {
    let plain = |text: &str| text.replace("NUVALETA_", "").trim_matches(['(', ')', 'u'].as_slice()).to_string();
    let defined = HEADER.lines().filter_map(|line| line.strip_prefix("#define ")?.split_once(' '));
    defined.map(|(name, value)| (plain(name), plain(value))).collect()
}

#[test]
fn the_lengths() {
    let apart = |value: &str| if value.starts_with(|c: char| c.is_ascii_digit()) { value.replace('_', "") } else { value.to_string() };
    let constant = |line: &str| {
        let (name, value) = line.trim_end_matches(';').split_once(": usize = ").expect("a length");
        (name.to_string(), apart(value))
    };
    let constants: Vec<_> = RAW.lines().filter_map(|line| line.strip_prefix("pub const ")).map(constant).collect();
    assert_eq!(constants, macros());
    assert_eq!(constants.len(), 36);
    assert_eq!(raw::FIND_ANSWER, raw::TEXT_ANSWER); // src/sys.rs has one function for all look-ups
}

#[test]
fn the_numbers() {
    for keyword in Keyword::ALL {
        assert_eq!(given(&keyword.word().to_uppercase().replace('-', "_")), Some(keyword.number()));
    }
    for fault in ScanFault::ALL {
        let parted = |c: char| if c.is_uppercase() { format!("_{c}") } else { c.to_uppercase().to_string() };
        let name: String = format!("{fault:?}").chars().map(parted).collect();
        assert_eq!(given(&name[1..]), Some(fault.number()), "{name}");
    }
    let refusals = HEADER.split("enum nuvaleta_").filter(|part| part.split(' ').next().map_or(false, |name| name.ends_with("_refusal")));
    let numbers = refusals.flat_map(|part| part.split('}').next().unwrap_or("").lines().skip(1).filter_map(|line| line.strip_prefix("    NUVALETA_")));
    let numbers: Vec<u32> = numbers.map(|line| line.split([' ', ',']).nth(2).and_then(|n| n.parse().ok()).expect("a number")).collect();
    assert_eq!(numbers.len(), 28);
    assert!(numbers.iter().all(|number| Meaning::of(*number).is_some()), "{numbers:?}");
}
