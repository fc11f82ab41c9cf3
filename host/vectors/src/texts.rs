//! Texts: every short string over a small alphabet, rows of tokens, statements with and without faults, damaged copies of good modules. Every byte is below
//! 128, but for those of request 2026-01, with accents.

use crate::rng::Rng;
use crate::utf8::BOUNDS;

/// Words that a scan looks for, and some that only look like one.
const KEYWORDS: [&str; 30] = [
    "import", "include", "prefix", "revision-date", "organization", "contact", "description", "reference", "module",
    "submodule", "belongs-to", "namespace", "yang-version", "revision", "container", "list", "leaf", "grouping", "typedef",
    "identity", "augment", "rpc", "notification", "imports", "import-", "_import", "revision_date", "Prefix", "leaf-list",
    "x:include",
];
const NAMES: [&str; 12] = ["a", "b", "m", "base", "m-types", "_x", "x:y", "A.b", "2024-05-01", "1.1", "9", "import"];
const STRINGS: [&str; 22] = [
    "\"a\"", "'b'", "\"\"", "''", "\"a b\"", "\"2024-05-01\"", "\"\\n\\t\"", "\"\\\"\"", "\"\\\\\"", "\"\\x\"", "'\\'", "'a\\'",
    "'\"'", "\"'\"", "\"a;}\"", "'{'", "\"//\"", "\"/*\"", "\"a\nb\"", "\"a", "'a", "\"a\\\"",
];
const MARKS: [&str; 9] = ["{", "}", ";", "+", "{", "}", ";", "/", "*"];
const COMMENTS: [&str; 8] = ["//c\n", "/*c*/", "/**/", "/*/", "//", "/* ", "/*\n*/", "//\n//\n"];
const ODD: [&str; 10] = ["\u{b}", "\u{c}", "\r", "\u{1c}", "\u{0}", "\u{7f}", "$", "0", ":", "\\"];
const GAPS: [&str; 12] = [" ", " ", " ", " ", "", "", "\n", "\t", "  ", "\r\n", "/*c*/", " //c\n"];

fn gap(r: &mut Rng, out: &mut String) {
    let gap = r.pick(&GAPS);
    out.push_str(gap);
}

fn token(r: &mut Rng) -> &'static str {
    match r.below(16) {
        0..=4 => r.pick(&KEYWORDS),
        5..=6 => r.pick(&NAMES),
        7..=9 => r.pick(&STRINGS),
        10..=13 => r.pick(&MARKS),
        14 => r.pick(&COMMENTS),
        _ => r.pick(&ODD),
    }
}

/// A row of tokens with gaps between.
pub fn tokens(r: &mut Rng) -> String {
    let mut out = String::new();
    for _ in 0..1 + r.below(14) {
        out.push_str(token(r));
        gap(r, &mut out);
    }
    out
}

/// A value as its writer means it: a name, a string, or strings joined.
pub fn value(r: &mut Rng) -> String {
    if r.below(3) > 0 {
        return r.pick(&NAMES).to_string();
    }
    let mut out = r.pick(&STRINGS[..19]).to_string();
    while r.once_in(3) {
        gap(r, &mut out);
        out.push('+');
        gap(r, &mut out);
        out.push_str(r.pick(&STRINGS[..19]));
    }
    out
}

fn line(r: &mut Rng, keyword: &str, value: &str) -> String {
    let mut out = format!("{keyword} ");
    gap(r, &mut out);
    out.push_str(value);
    gap(r, &mut out);
    out + ";"
}

fn block(r: &mut Rng, keyword: &str, value: &str, body: &str) -> String {
    let mut out = format!("{keyword} {value}");
    gap(r, &mut out);
    out.push('{');
    gap(r, &mut out);
    out.push_str(body);
    gap(r, &mut out);
    out + "}"
}

fn dated(r: &mut Rng) -> String {
    let date = value(r);
    line(r, "revision-date", &date)
}

pub fn import(r: &mut Rng, name: &str) -> String {
    let mut body = String::new();
    for _ in 0..1 + r.below(3) {
        let inner = match r.below(6) {
            0..=2 => {
                let v = value(r);
                line(r, "prefix", &v)
            }
            3..=4 => dated(r),
            _ => r.pick(&["description \"a;b\";", "x { y { z; } }", "reference 'r';", "x;"]).to_string(),
        };
        body.push_str(&inner);
        gap(r, &mut body);
    }
    block(r, "import", name, &body)
}

pub fn include(r: &mut Rng, name: &str) -> String {
    if r.below(3) > 0 {
        return line(r, "include", name);
    }
    let body = dated(r);
    block(r, "include", name, &body)
}

/// A statement that one of the scans reads or skips.
pub fn statement(r: &mut Rng) -> String {
    let v = value(r);
    match r.below(15) {
        0..=2 => import(r, &v),
        3..=4 => include(r, &v),
        5 => line(r, "prefix", &v),
        6 => line(r, "namespace", &v),
        7 => line(r, "yang-version", &v),
        8 => line(r, "revision", &v),
        9 => block(r, "revision", &v, "description \"d;\"; x;"),
        10 => block(r, "belongs-to", &v, "prefix p;"),
        11 => format!("module {v} {{"),
        12 => format!("submodule {v} {{"),
        13 => {
            let stop = r.pick(&KEYWORDS[4..8]);
            line(r, stop, &v)
        }
        _ => r.pick(&["x:y z;", "feature f;", "}", "deviation /a:b { x; }"]).to_string(),
    }
}

/// Statements one after the other, some of them with a token too much or a byte too few.
pub fn statements(r: &mut Rng) -> String {
    let mut out = String::new();
    for _ in 0..1 + r.below(5) {
        let one = statement(r);
        out.push_str(&if r.once_in(4) { damaged(r, &one) } else { one });
        gap(r, &mut out);
    }
    out
}

/// The header of a module as it should be.
pub fn module(r: &mut Rng) -> String {
    let name = r.pick(&NAMES[..8]);
    let sub = r.once_in(3);
    let mut out = format!("{} {name} {{\n  yang-version 1.1;\n", if sub { "submodule" } else { "module" });
    out += &if sub {
        "  belongs-to m {\n    prefix p;\n  }\n".to_string()
    } else {
        format!("  namespace \"urn:{name}\";\n  prefix {name};\n")
    };
    for _ in 0..r.below(4) {
        let other = r.pick(&NAMES[..8]);
        let one = import(r, other);
        out += &format!("  {one}\n");
    }
    for _ in 0..r.below(3) {
        let other = r.pick(&NAMES[..8]);
        let one = include(r, other);
        out += &format!("  {one}\n");
    }
    out += "  organization \"o\";\n  contact 'c';\n  description\n    \"d { import x; }\";\n";
    for year in 0..r.below(3) {
        out += &format!("  revision 202{year}-01-0{} {{\n    description \"first;\";\n  }}\n", 1 + r.below(9));
    }
    out + "  container c {\n    leaf l { type string; }\n  }\n}\n"
}

/// A copy with one fault: a byte gone, doubled or another one, the end cut off, a piece gone, a token put in.
pub fn damaged(r: &mut Rng, text: &str) -> String {
    let n = text.len();
    if n == 0 {
        return r.pick(&MARKS).to_string();
    }
    let (a, b) = (r.below(n), r.below(n));
    let (a, b) = (a.min(b), a.max(b));
    match r.below(6) {
        0 => format!("{}{}", &text[..a], &text[a + 1..]),
        1 => format!("{}{}", &text[..=a], &text[a..]),
        2 => format!("{}{}{}", &text[..a], r.pick(&["\"", "'", "\\", "{", "}", ";", "+", "*", "a"]), &text[a + 1..]),
        3 => text[..a].to_string(),
        4 => format!("{}{}", &text[..a], &text[b..]),
        _ => format!("{}{}{}", &text[..a], token(r), &text[a..]),
    }
}

/// A text of the mixture that is recorded and compared.
pub fn any(r: &mut Rng) -> String {
    match r.below(8) {
        0..=2 => tokens(r),
        3..=5 => statements(r),
        6 => module(r),
        _ => {
            let good = module(r);
            damaged(r, &good)
        }
    }
}

const ALPHABET: [u8; 12] = *b"\"'\\+/*{};a \n";
const FRONTS: [&str; 6] = ["", "import ", "import a{", "import a{prefix ", "include ", "module m{prefix "];

/// Every string of `length` bytes of the alphabet.
fn words(length: u32) -> impl Iterator<Item = String> {
    (0..ALPHABET.len().pow(length)).map(move |k| {
        let byte = |i: u32| ALPHABET[k / ALPHABET.len().pow(i) % ALPHABET.len()] as char;
        (0..length).map(byte).collect()
    })
}

/// Document 01's examples of texts, and the telling inputs of docs/READINGS.md.
pub const EXAMPLES: [&str; 34] = [
    "",
    "import a{}",
    "module import {}",
    "import \"a\"+\"b",
    "submodule s{belongs-to m{prefix p;} import a{prefix b;}}",
    "module m {\n  import base { prefix b; revision-date 2024-05-01; }\n  include m-types;\n}\n",
    "import \"a",
    "import a b",
    "import //c",
    "import a{} x",
    "container x",
    "x  ",
    "import a{x",
    "import a{",
    "import a{prefix",
    "import a{prefix p",
    "include a}",
    "include a",
    "yang-version \"1",
    "yang-version {",
    "namespace \"a\" + b;",
    "import \"a\"+{prefix p;}",
    "import a+\"b\"{",
    "module z{belongs-to \"m\"+\"x",
    "import a{prefix \"\";}",
    "import a{prefix p;prefix q;}",
    "prefix \"\";prefix q;",
    "module m{prefix \"\";prefix q;",
    "\"\\\\\" include a;",
    "import a{x \\\";prefix p;}",
    "1include a;",
    "a:include b;",
    "include/**/a;",
    "import a{prefix/**/p;}",
];

/// Each of these behind each of these beginnings.
fn behind(fronts: &'static [&str], length: u32) -> impl Iterator<Item = String> {
    fronts.iter().flat_map(move |front| words(length).map(move |w| format!("{front}{w}")))
}

pub fn short(length: u32) -> impl Iterator<Item = String> {
    behind(&FRONTS, length)
}

// ---- texts that break off

/// What else a text may break off in: a value that goes on, yang-version's, and each statement that is skipped.
const BROKEN_FRONTS: [&str; 9] = [
    "import \"a\"", "import a{x", "include a{", "yang-version ", "module m{prefix p;prefix", "module m{belongs-to ", "module m{belongs-to p{",
    "module m{revision 1", "module m{namespace 'a'+",
];

pub fn short_broken(length: u32) -> impl Iterator<Item = String> {
    behind(&BROKEN_FRONTS, length)
}

/// The telling inputs of request 2026-07.
const BROKEN: [&str; 34] = [
    "module m{belongs-to p",
    "module m{prefix p;prefix",
    "module m{revision 2020-01-01{",
    "import a{x",
    "import a{x/*c",
    "x \"abc",
    "\"",
    "\"\\\"",
    "import \"a",
    "import \"a\"+\"b",
    "module m{belongs-to \"p\"+\"x",
    "yang-version \"1",
    "import a{",
    "import a{x;",
    "import a{/*c",
    "import a{prefix",
    "include a",
    "module m{revision 2020-01-01",
    "module m{/*cut",
    "module m{ description cut",
    "//cut",
    "description \"cut",
    "module m{belongs-to p}",
    "import a{} \"x",
    "import a b \"x",
    // the same ends elsewhere
    "include a{x",
    "include a{",
    "include a{revision-date \"1",
    "import a{prefix \"p",
    "import a{prefix \"p\"+\"q",
    "module m{prefix p;prefix }",
    "module m{belongs-to p{prefix \"q\\\";}",
    "module m{yang-version \"1\"+\"1",
    "module m{x \"container c",
];

/// These, and those that have quotes again in single ones.
pub fn broken() -> Vec<String> {
    let single = BROKEN.iter().filter(|t| t.contains('"')).map(|t| t.replace('"', "'"));
    BROKEN.iter().map(|t| t.to_string()).chain(single).collect()
}

/// Small good modules in which every statement that a scan reads or skips stands.
pub const SMALL: [&str; 3] = [
    r#"module m {
 yang-version "1" + '.1';
 namespace "urn:" + "m";
 prefix m;
 import a { description "x;"; prefix 'a'; revision-date 2024-05-01; }
 include s;
 include t { /*c*/ revision-date "2024"+"-05-02"; x { y 'z'; } }
 organization "o";
 revision 2024-05-03 {
  description "d \" }";
 }
 revision '2024-05-01';
 container c;
}
"#,
    r#"submodule s{belongs-to m{prefix 'p';}import a{prefix b;}prefix c;include t{x;}x "y" 'z';}"#,
    r#"//m
module "m"{prefix "p";prefix q{r "}";}import a{x{y{z;}}prefix "a\n";}belongs-to 'n' ;list l;}"#,
];

/// Every beginning of a text, itself too.
pub fn beginnings(text: &str) -> impl Iterator<Item = &str> {
    (0..=text.len()).map(move |n| &text[..n])
}

// ---- texts with bytes above 127

/// Characters of each length and around its bounds; such that are white, letters or digits to Rust; a byte order mark.
const ACCENTS: [&str; 20] = [
    "\u{e9}", "\u{fc}", "\u{e9}", "\u{df}", "\u{80}", "\u{85}", "\u{a0}", "\u{b2}", "\u{7ff}", "\u{800}", "\u{20ac}", "\u{2028}", "\u{3000}", "\u{8a9e}",
    "\u{d7ff}", "\u{e000}", "\u{feff}", "\u{10000}", "\u{1f600}", "\u{10ffff}",
];

/// The telling inputs of request 2026-01: of what stands in strings and comments, of what is met elsewhere and in whose place, and of the original's panics.
const ACCENTED: [&str; 76] = [
    // 2: behind an opening quote
    "import \"é\"{prefix 'ü';}",
    "import \"é",
    "import \"a\"+\"é",
    "import a{x 'é\\';prefix p;}",
    "import a{x 'é';prefix p;}",
    "import a{x \"é\\\";prefix p;}",
    "import a{x \"é",
    "import \"\\é\"{prefix p;}",
    "import '\\é'{prefix p;}",
    "import \"\\é",
    "x \"é\" include \"é\";",
    "include é\"é\";",
    "include \"s\"{revision-date \"é\"+'é';x \"é\";}",
    "module \"é\"{namespace \"urn:é\";prefix \"é\";prefix \"é\";revision \"é\"{x \"é\";}belongs-to \"é\"{x 'é';}}",
    "module m{yang-version \"é\";}",
    "module m{yang-version \"é",
    "module m{belongs-to p \"é",
    "module m{revision 1{\"é",
    // 3: in a comment
    "//é",
    "/*é",
    "/*é*/",
    "//é\nimport a{prefix p;}",
    "import/*é*/ a{prefix p;}",
    "import a/*é*/{/*é*/prefix/*é*/ p;/*é*/}/*é*/",
    "import a{prefix /*é*/p/*é*/;}//é",
    "import a{x/*é*/;prefix p;}",
    "import a{x //é\n;prefix p;}",
    "import \"a\"/*é*/+/*é*/\"b\"{prefix p;}",
    "module m{/*é",
    "module m{//é",
    "module m{belongs-to p/*é*/;}",
    "module m{revision 1/*é*/{/*é*/}}",
    "import a{x/*é",
    // 4: met as a token, in a skipped statement, or where a keyword would end
    "é",
    "x é",
    "fooé bar",
    "importé a{",
    "import a{x é;prefix p;}",
    "import a{é}",
    "import a{prefixé p;}",
    "import a{x{é}prefix p;}",
    "include a{é}",
    "include a{revision-dateé 1;}",
    "descriptioné",
    "module m{belongs-to p é;}",
    "module m{prefix p;prefix é;}",
    "module m{revision 1{é}}",
    "module m{containeré",
    "x\u{a0}y",
    "x\u{85}y",
    "x\u{2028}y",
    "import\u{a0}a{prefix p;}",
    "import a{prefix p;}\u{a0}",
    // 5: in the place of 4 and 5
    "import é{",
    "import aé{",
    "import aé{prefix p;}",
    "import a é{",
    "import \"a\" + é{",
    "import \"a\"é",
    "import a{prefix é;}",
    "import a{prefix pé;}",
    "import a{prefix p é",
    "include é;",
    "include a é;",
    "module m{yang-version é;}",
    "module é{",
    "module mé{",
    "module m{namespace \"a\"é;}",
    "module m{revision 1é;}",
    // 6: behind what is told, and behind what ends the scan
    "import a{}é",
    "description é",
    "module m{container é",
    // 7 and 8
    "\u{feff}module m{}",
    "x é \"cut",
    "\"cut é",
    // the original's own panic, and where it returns
    "import a/*é",
];

/// More of the last kind.
const PANICS: [&str; 6] = ["import a{/*é", "/*é*", "/*é ", "/*é/", "module m{/*\u{10ffff}", "import a{prefix p;}/*\u{20ac}"];

/// What is no UTF-8: the sequence that is wrong is read by no scan, or stands where it would be.
const NOT_UTF8: [&[u8]; 24] = [
    b"\x41\xc3",
    b"\xe2\x82\x41",
    b"\xc0\xaf",
    b"\xed\xa0\x80",
    b"\xf4\x90\x80\x80",
    b"\xc3\xa9\xc3",
    b"\x80",
    b"import a{x \"\xc3\"}",
    b"import a{prefix p;}//\xff",
    b"import a{} /*\xc3\xa9\xbf*/",
    b"description \"\xe9\";",
    b"module m{container \xe9",
    b"x \xc3\xa9 \xc3",
    b"\xfeff",
    b"\"\xe0\x9f\xbf\"",
    b"\"\xf0\x8f\xbf\xbf\"",
    b"\"\xc1\xbf\"",
    b"\"\xed\xbf\xbf\"",
    b"\"\xf5\x80\x80\x80\"",
    b"\"\xf0\x9f\x98\"",
    b"\"\xe2\x82\xac\xac\"",
    b"import \"\\\xc3\"{prefix p;}",
    b"import \"a\xc3",
    b"0123456789012345678901234567890 \xc3\xa9 0123456789012345678901234567890\xa9",
];

/// All of these, and those that have double quotes and no others again in single ones.
pub fn telling_accents() -> Vec<Vec<u8>> {
    let all = || ACCENTED.iter().chain(&PANICS);
    let single = all().filter(|t| t.contains('"') && !t.contains('\'')).map(|t| t.replace('"', "'").into_bytes());
    let plain = all().map(|t| t.as_bytes().to_vec());
    plain.chain(single).chain(NOT_UTF8.iter().map(|t| t.to_vec())).collect()
}

/// A small good module with accents in every string and comment. Of its beginnings, in bytes, some end inside a character.
pub const SMALL_ACCENTED: &str = r#"/*é*/module "mé" {//ü
 yang-version "1é" + '€1';
 namespace "urn:é" + "m";
 prefix 'é';
 import "é" { description "x;é"; prefix 'ü'; /*é*/ revision-date "2024é"; }
 include /*é*/ 'é';
 include t { x { y 'é';é'; } }
 revision "é" {
  description "é " }";
 }
 revision '😀';
 contact "Zoë";
 container c;
}
"#;

/// Strings of `length` letters, of the alphabet and é, in which é stands.
fn words_accented(length: u32) -> impl Iterator<Item = String> {
    let letters = ALPHABET.len() + 1;
    let word = move |k: usize| -> String {
        let letter = |i: u32| ALPHABET.get(k / letters.pow(i) % letters).map_or('é', |b| *b as char);
        (0..length).map(letter).collect()
    };
    (0..letters.pow(length)).map(word).filter(|w| w.contains('é'))
}

/// These behind each of the beginnings.
pub fn short_accented(length: u32) -> impl Iterator<Item = String> {
    FRONTS.iter().chain(&BROKEN_FRONTS).flat_map(move |front| words_accented(length).map(move |w| format!("{front}{w}")))
}

/// These behind a namespace keyword and a blank.
pub fn short_accented_values(length: u32) -> impl Iterator<Item = String> {
    words_accented(length).map(|w| format!("{NAMESPACE} {w}"))
}

/// Where a character stands, as far as that is seen from left to right.
#[derive(Clone, Copy, PartialEq)]
enum Inside {
    Nothing,
    String(char),
    Line,
    Block,
}

impl Inside {
    /// Behind the character `c`, before which `before` stands.
    fn behind(self, before: char, c: char) -> Inside {
        match (self, before, c) {
            (Inside::Nothing, _, '"' | '\'') => Inside::String(c),
            (Inside::Nothing, '/', '/') => Inside::Line,
            (Inside::Nothing, '/', '*') => Inside::Block,
            (Inside::String('"'), '\\', '"') => self,
            (Inside::String(quote), _, _) if quote == c => Inside::Nothing,
            (Inside::Line, _, '\n') | (Inside::Block, '*', '/') => Inside::Nothing,
            _ => self,
        }
    }
}

/// A copy with accents: many in strings and comments, few or none elsewhere.
pub fn accented(r: &mut Rng, text: &str) -> String {
    let (often, seldom) = (r.pick(&[2, 6, 20]), r.pick(&[0, 0, 30, 150]));
    let mut accent = |inside: Inside, out: &mut String| {
        if if inside == Inside::Nothing { seldom > 0 && r.once_in(seldom) } else { r.once_in(often) } {
            out.push_str(r.pick(&ACCENTS));
        }
    };
    let (mut out, mut inside, mut before) = (String::new(), Inside::Nothing, ' ');
    for c in text.chars() {
        accent(inside, &mut out);
        out.push(c);
        let next = inside.behind(before, c);
        before = if next == inside { c } else { ' ' };
        inside = next;
    }
    accent(inside, &mut out);
    out
}

/// A copy with a byte gone, another one or one more, of those around the bounds of UTF-8's sequences; or cut off.
pub fn torn(r: &mut Rng, text: &str) -> Vec<u8> {
    let mut bytes = text.as_bytes().to_vec();
    let high: Vec<usize> = (0..bytes.len()).filter(|i| bytes[*i] > 127).collect();
    let at = if high.is_empty() { r.below(bytes.len() + 1) } else { r.pick(&high) };
    match r.below(4) {
        0 if at < bytes.len() => _ = bytes.remove(at),
        1 if at < bytes.len() => bytes[at] = r.pick(&BOUNDS),
        2 => bytes.truncate(at),
        _ => bytes.insert(at, r.pick(&BOUNDS)),
    }
    bytes
}

// ---- one value, one statement, some tokens: what the text layer is asked alone

/// What may stand around one value. No keyword can be made of it.
const PIECES: [&str; 24] = [
    "\"", "\"", "'", "\\", "\\", "+", "+", " ", "\n", "\t", "\u{b}", "\u{1c}", "//", "/*", "*/", "/", ";", "{", "}", "a", "n", "t", "1", ":-._",
];

fn pieces(r: &mut Rng, most: usize) -> String {
    (0..1 + r.below(most)).map(|_| r.pick(&PIECES)).collect()
}

pub const NAMESPACE: &str = "module m{namespace";
pub const BELONGS: &str = "module m{belongs-to x";
pub const OPENED: &str = "module m{";

/// A namespace statement: the metadata scan reads its value and requires the semicolon.
pub fn one_value(r: &mut Rng) -> String {
    let gap = r.pick(&[" ", "\n", " /*c*/ "]);
    let strings: String = (0..r.below(3)).map(|_| r.pick(&STRINGS).to_string() + r.pick(&["+", " + ", "/**/+\n", " "])).collect();
    let last = if r.once_in(3) { pieces(r, 6) } else { value(r) };
    let end = if r.once_in(4) { pieces(r, 3) } else { ";".to_string() };
    format!("{NAMESPACE}{gap}{strings}{last}{end}")
}

/// Prefix statements with a value each, and other pieces between: the first one that the metadata scan meets as a statement tells where it stood.
fn prefixes(r: &mut Rng) -> String {
    (0..1 + r.below(6)).map(|i| format!("{}{}prefix p{i};", pieces(r, 5), r.pick(&["", " ", ";", "}", "\""]))).collect()
}

/// A belongs-to statement, whose rest the metadata scan skips as a statement.
pub fn one_statement(r: &mut Rng) -> String {
    format!("{BELONGS}{}{}", r.pick(&[" ", "{", "{{", ";", "\"", "'", " \"a\"{"]), prefixes(r))
}

/// Tokens up to a prefix statement.
pub fn some_tokens(r: &mut Rng) -> String {
    format!("{OPENED}{}", prefixes(r))
}

/// Every string of `length` bytes of the alphabet behind a namespace keyword and a blank.
pub fn short_values(length: u32) -> impl Iterator<Item = String> {
    words(length).map(|w| format!("{NAMESPACE} {w}"))
}
