//! Both scans through the crate: document 01's examples, every refusal in words, lines and columns; texts that are cut off.

use nuvaleta::{dependencies, dependencies_whole, metadata, metadata_whole, Dependencies, Keyword, Line, Meaning, Metadata, ScanFault, ScanRefusal};
use vectors::rng::Rng;
use vectors::texts;

fn found(text: &str) -> Dependencies {
    dependencies(text.as_bytes()).expect("a good scan")
}

fn about(text: &str) -> Metadata {
    metadata(text.as_bytes()).expect("a good scan")
}

fn refused(fault: ScanFault, keyword: Option<Keyword>, position: usize) -> ScanRefusal {
    ScanRefusal { fault, keyword, position: Some(position) }
}

// ---- document 01's examples

#[test]
fn dependency_examples() {
    assert_eq!(found("").to_string(), "Imports (0):\n\nIncludes (0):\n");
    assert_eq!(found("").imports().len() + found("").includes().len(), 0);
    assert_eq!(dependencies(b"import a{}"), Err(refused(ScanFault::NoPrefix, Some(Keyword::Import), 10)));
    assert_eq!(dependencies(b"module import {}"), Err(refused(ScanFault::NoValue, Some(Keyword::Import), 14)));
    assert_eq!(dependencies(b"import \"a\"+\"b"), Err(refused(ScanFault::EndOfText, Some(Keyword::Import), 13)));
}

#[test]
fn the_program_s_example() {
    let text = include_str!("../../../crates/deps/stdin");
    let found = found(text);
    assert_eq!(found.to_string(), include_str!("../../../crates/deps/stdout"));
    let imports: Vec<_> = found.imports().map(|i| (i.name, i.prefix, i.revision)).collect();
    assert_eq!(imports, [("base", "b", Some("2024-05-01"))]);
    assert_eq!(found.includes().map(|i| (i.name, i.revision)).collect::<Vec<_>>(), [("m-types", None)]);
}

#[test]
fn metadata_examples() {
    assert_eq!(metadata(b""), Err(refused(ScanFault::NoName, None, 0)));
    assert_eq!(about("module import {}").name(), "import");
    let about = about("submodule s{belongs-to m{prefix p;} import a{prefix b;}}");
    assert_eq!([Some(about.name()), about.parent(), about.prefix()], [Some("s"), Some("m"), Some("b")]);
    assert_eq!([about.namespace(), about.first_revision(), about.newest_revision()], [None; 3]);
    assert_eq!(about.to_string(), "name: s\nbelongs to: m\nprefix: b\n");
}

#[test]
fn the_other_program_s_example() {
    let about = about(include_str!("../../../crates/meta/stdin"));
    assert_eq!(about.to_string(), include_str!("../../../crates/meta/stdout"));
    assert_eq!([about.first_revision(), about.newest_revision()], [Some("2023-11-02"), Some("2024-05-01")]);
}

#[test]
fn values() {
    let all = about("module '' { namespace \"urn:\\\"x\\\"\"; prefix 'a b'; revision 2; revision 1; }");
    assert_eq!([Some(all.name()), all.namespace(), all.prefix()], [Some(""), Some("urn:\"x\""), Some("a b")]);
    assert_eq!(all.to_string(), "name: \nnamespace: urn:\"x\"\nprefix: a b\nfirst revision: 2\nnewest revision: 2\n");
    let both = found("include 'a'+\"\\n\" {revision-date '';} include b;");
    assert_eq!(both.includes().map(|i| (i.name, i.revision)).collect::<Vec<_>>(), [("a\n", Some("")), ("b", None)]);
}

/// Characters above 127 are in values and on the page as they are in the text, and a value is a `str` of its own.
#[test]
fn accents() {
    let text = "module \"m\u{e9}\" { import '\u{fc}' { prefix \"\\\u{20ac}\"+'\u{1f600}'; } /*\u{e9}*/ contact \u{e9}; //\u{e9}";
    let both = found(text);
    let import = both.imports().next().expect("an import");
    assert_eq!((import.name, import.prefix), ("\u{fc}", "\u{20ac}\u{1f600}"));
    assert_eq!(both.to_string(), "Imports (1):\n  - \u{fc} (prefix: \u{20ac}\u{1f600})\n\nIncludes (0):\n");
    let about = metadata("submodule '\u{e9}' { belongs-to \"\u{fc}\"; revision '\u{7ff}'; revision '\u{800}'; }".as_bytes()).expect("a good text");
    assert_eq!((about.name(), about.parent(), about.newest_revision()), ("\u{e9}", Some("\u{fc}"), Some("\u{800}")));
    assert_eq!(about.to_string(), "name: \u{e9}\nbelongs to: \u{fc}\nfirst revision: \u{7ff}\nnewest revision: \u{800}\n");
}

/// Of generated texts with accents, in both forms: values are `str`s that stand on the page; at 3 a byte above 127, at 12 what Rust's own check says.
#[test]
fn generated_accents() {
    let mut r = Rng::new(47);
    let mut seen = [0; 13];
    for i in 0..10_000 {
        let text = texts::any(&mut r);
        let text = texts::accented(&mut r, &text);
        let text = if i % 8 == 0 { texts::torn(&mut r, &text) } else { text.into_bytes() };
        let wrong = std::str::from_utf8(&text).err().map(|e| e.valid_up_to());
        let deps = [dependencies, dependencies_whole].map(|scan| scan(&text));
        let page = |found: &Dependencies| found.imports().all(|i| found.to_string().contains(&format!("  - {} (prefix: {})", i.name, i.prefix)));
        assert!(deps.iter().flatten().all(page));
        let meta = [metadata, metadata_whole].map(|scan| scan(&text).map(drop));
        for scan in deps.map(|d| d.map(drop)).iter().chain(&meta) {
            let refusal = scan.as_ref().err();
            seen[refusal.map_or(0, |refusal| refusal.number() as usize)] += 1;
            assert_eq!(refusal.filter(|refusal| refusal.fault == ScanFault::NotUtf8).and_then(|refusal| refusal.position), wrong);
            if let Some(refusal) = refusal.filter(|refusal| refusal.fault == ScanFault::HighByte) {
                assert!(refusal.keyword.is_none() && text[refusal.position.expect("a place")] > 127, "{:?}", String::from_utf8_lossy(&text));
                assert!(refusal.clash(&text).is_some() && refusal.line(&text).is_some());
            }
        }
    }
    assert!([0, 3, 4, 5, 6, 7, 8, 9, 11, 12].iter().all(|number| seen[*number] > 20), "{seen:?}");
}

// ---- refusals

/// Every refusal that a scan of the crate can give, with its keywords. 2 cannot: the crate lends enough.
#[test]
fn in_words() {
    let deps = |text: &[u8]| dependencies(text).expect_err("a refusal").to_string();
    let meta = |text: &[u8]| metadata(text).expect_err("a refusal").to_string();
    let long = vec![b' '; nuvaleta::TEXT_MOST + 1];
    assert_eq!([deps(&long), meta(&long)], ["more than 1,048,576 bytes (scan refusal 1)"; 2]);
    let high = "a \u{e9}".as_bytes();
    assert_eq!([deps(high), meta(high)], ["a byte above 127 outside of strings and comments (scan refusal 3, byte 2)"; 2]);
    assert_eq!([deps(b"a \x80\xff"), meta(b"a \x80\xff")], ["the text is not UTF-8 (scan refusal 12, byte 2)"; 2]);
    assert_eq!(deps(b"include"), "no value after include (scan refusal 4, byte 7)");
    assert_eq!(deps(b"import a{prefix ;"), "no value after prefix (scan refusal 4, byte 16)");
    assert_eq!(deps(b"include a{revision-date ;"), "no value after revision-date (scan refusal 4, byte 24)");
    assert_eq!(deps(b"include a}"), "another byte than the one required after include and its value (scan refusal 5, byte 9)");
    assert_eq!(deps(b"include a"), "the text ends before the byte required after include and its value (scan refusal 6, byte 9)");
    assert_eq!(deps(b"import a{}"), "an import is closed without prefix (scan refusal 7, byte 10)");
    assert_eq!(deps(b"import a{"), "the text ends inside the block of an import (scan refusal 8, byte 9)");
    assert_eq!(deps(b"include a{"), "the text ends inside the block of an include (scan refusal 8, byte 10)");
    assert_eq!(meta(b"container c;"), "no module or submodule with a name (scan refusal 9, byte 9)");
    let [imports, includes] = ["import a{prefix b;}", "include a;"].map(|one| one.repeat(257));
    assert_eq!(deps(imports.as_bytes()), "a 257th import (scan refusal 10, byte 4870)");
    assert_eq!(deps(includes.as_bytes()), "a 257th include (scan refusal 10, byte 2567)");
    for (text, keyword) in [
        ("module", Keyword::Module),
        ("submodule", Keyword::Submodule),
        ("belongs-to", Keyword::BelongsTo),
        ("namespace", Keyword::Namespace),
        ("prefix", Keyword::Prefix),
        ("revision", Keyword::Revision),
    ] {
        assert_eq!(metadata(text.as_bytes()), Err(refused(ScanFault::NoValue, Some(keyword), text.len())));
        assert_eq!(keyword.to_string(), text);
    }
    for refusal in [dependencies_whole(b"x 'y").map(|_| ()), metadata_whole(b"x 'y").map(|_| ())] {
        let words = "the text ends inside a string, or inside a statement that is passed over (scan refusal 11, byte 4)";
        assert_eq!(refusal.expect_err("a refusal").to_string(), words);
    }
    assert_eq!(meta(b"yang-version 1.1"), "the text ends before the byte required after yang-version and its value (scan refusal 6, byte 16)");
}

/// What was expected at the place of a refusal, and what was found there.
#[test]
fn expected_and_found() {
    let of = |refusal: ScanRefusal, text: &[u8]| refusal.clash(text).map_or_else(String::new, |clash| clash.to_string());
    let deps = |text: &str| of(dependencies(text.as_bytes()).expect_err("a refusal"), text.as_bytes());
    let meta = |text: &str| of(metadata(text.as_bytes()).expect_err("a refusal"), text.as_bytes());
    assert_eq!(deps("module m { import a; }"), "expected { after import a, found ;");
    assert_eq!(deps("import 'a' + 'b' ;"), "expected { after import 'a' + 'b', found ;");
    assert_eq!(deps("import a /* ; */ leaf"), "expected { after import and its value, found leaf", "no value is seen behind a comment");
    assert_eq!(deps("import import x"), "expected { after import import, found x");
    assert_eq!(deps("import \"an import b\";"), "expected { after import \"an import b\", found ;");
    assert_eq!(deps(&format!("import {}\u{1}", "n".repeat(41))), format!("expected {{ after import {}.., found byte 0x01", "n".repeat(40)));
    assert_eq!(deps("include a}"), "expected ; or { after include a, found }");
    assert_eq!(deps("include a // b"), "expected ; or { after include and its value, found the end of the text");
    assert_eq!(deps("import a{prefix b{}}"), "expected ; after prefix b, found {");
    assert_eq!(deps("import a{prefix b;revision-date c d}"), "expected ; after revision-date c, found d");
    assert_eq!(deps("module import {}"), "expected a name or a string after import, found {");
    assert_eq!(deps("import a{prefix ;"), "expected a name or a string after prefix, found ;");
    assert_eq!(deps("include 'a{prefix b;}"), "expected a name or a string after include, found a string that is not closed");
    assert_eq!(deps("import 'a'{prefix b;}import"), "expected a name or a string after import, found the end of the text");
    assert_eq!(deps("import a{}"), "expected prefix NAME; before the end of the block, found }");
    assert_eq!(deps("import a{prefix b;"), "expected } at the end of the block of the import, found the end of the text");
    assert_eq!(deps("leaf \u{2019}x"), "expected ASCII outside of strings and comments, found \u{2019}, byte 0xe2");
    assert_eq!(deps("\u{feff}module m {}"), "expected ASCII outside of strings and comments, found a byte order mark, byte 0xef");
    assert_eq!(of(dependencies(b"a\xff").expect_err("a refusal"), b"a\xff"), "expected UTF-8, found byte 0xff");
    assert_eq!(of(dependencies(b"'\xc3'").expect_err("a refusal"), b"'\xc3'"), "expected UTF-8, found byte 0xc3");
    assert_eq!(deps("import \"Zo\u{eb}\" ;"), "expected { after import \"Zo\u{eb}\", found ;");
    assert_eq!(deps(&format!("import '{}';", "\u{e9}".repeat(40))), format!("expected {{ after import '{}.., found ;", "\u{e9}".repeat(39)));
    assert_eq!(deps("import '\u{202e}\u{85}';"), "expected { after import '??', found ;", "nothing that moves what stands beside it");
    assert_eq!(deps(&"include a;".repeat(257)), "", "the words say it all");
    assert_eq!(deps(&" ".repeat(nuvaleta::TEXT_MOST + 1)), "");
    assert_eq!(meta("module m;"), "expected { after module m, found ;");
    assert_eq!(meta("module m{namespace urn:x/y;}"), "expected ; after namespace urn:x, found /");
    assert_eq!(meta("module m{revision 2024-01-01 x"), "expected ; or { after revision 2024-01-01, found x");
    assert_eq!(meta("<html>404</html>"), "expected module NAME { or submodule NAME {, found the end of the text");
    assert_eq!(meta("// none\ncontainer c;"), "expected module NAME { or submodule NAME {, found container");
    let cut = "import a{description \"c";
    assert_eq!(deps(cut), "expected } at the end of the block of the import, found the end of the text");
    let whole = of(dependencies_whole(cut.as_bytes()).expect_err("a refusal"), cut.as_bytes());
    assert_eq!(whole, "expected the end of the string or of the statement, found the end of the text");
}

/// Of a long text that holds the keyword everywhere the value is looked for in a short time.
#[test]
fn expected_in_a_long_text() {
    let text = format!("{}\u{1}\"", "import \"a".repeat(100_000));
    let refusal = ScanRefusal { fault: ScanFault::OtherByte, keyword: Some(Keyword::Import), position: Some(text.len()) };
    assert_eq!(refusal.clash(text.as_bytes()).expect("a clash").to_string(), "expected { after import and its value, found the end of the text");
}

#[test]
fn numbers_and_meanings() {
    assert!(ScanFault::ALL.iter().map(|fault| fault.number()).eq(1..=12));
    assert!(Keyword::ALL.iter().map(|keyword| keyword.number()).eq(1..=10));
    assert!((0..100).filter(|number| Meaning::of(*number).is_some()).eq((0..=12).chain(20..=31).chain(40..=43)));
    for number in (0..=12).chain(20..=31).chain(40..=43) {
        let meaning = Meaning::of(number).expect("a meaning");
        assert!(!meaning.words().is_empty() && !meaning.words().contains("{}") && !meaning.advice.is_empty(), "{meaning:?}");
    }
    let general = ScanRefusal { fault: ScanFault::LentTooShort, keyword: None, position: None };
    assert_eq!(general.to_string(), "store or table too short (scan refusal 2)");
    let error: Box<dyn std::error::Error> = Box::new(general);
    assert!(error.source().is_none());
}

#[test]
fn faults_in_words() {
    for fault in ScanFault::ALL {
        assert_eq!(Some(fault.to_string()), Meaning::of(fault.number()).map(Meaning::words));
    }
    assert_eq!(ScanFault::NoValue.to_string(), "no value after the keyword");
}

#[test]
fn lines() {
    let text = b"module m {\n  import a {\n\tprefix\n}\n";
    let line = dependencies(text).expect_err("a refusal").line(text).expect("a place");
    assert_eq!((line.number, line.column, line.part.as_str(), line.at), (4, 1, "}", 0));
    assert_eq!(line.to_string(), "    }\n    ^");
    let line = Line::at(b"a\n\x01\xff\tb", 99);
    assert_eq!((line.number, line.column, line.to_string().as_str()), (2, 5, "    ?? b\n        ^"));
    let long = ScanRefusal { fault: ScanFault::TextTooLong, keyword: None, position: None };
    assert_eq!(long.line(b""), None);
}

// ---- texts that are cut off

/// One scan of a text in both forms: the one that asks whether the text is cut off refuses at its end, in the place of an answer or of 4, 6, 8 or 9, or answers
/// the same. Whether it refused so, and the number of the other, 0 for an answer.
fn in_both<T: PartialEq + std::fmt::Debug>(scans: [fn(&[u8]) -> Result<T, ScanRefusal>; 2], text: &[u8]) -> (bool, u32) {
    let [usual, whole] = scans.map(|scan| scan(text));
    let number = usual.as_ref().err().map_or(0, ScanRefusal::number);
    let cut = whole == Err(refused(ScanFault::CutShort, None, text.len()));
    assert!(if cut { [0, 4, 6, 8, 9].contains(&number) } else { usual == whole }, "{:?}: {usual:?}, {whole:?}", String::from_utf8_lossy(text));
    assert_ne!(number, 11);
    (cut, number)
}

const DEPS: [fn(&[u8]) -> Result<Dependencies, ScanRefusal>; 2] = [dependencies, dependencies_whole];
const META: [fn(&[u8]) -> Result<Metadata, ScanRefusal>; 2] = [metadata, metadata_whole];

/// A text of each reading of request 2026-07, for imports and includes, then for metadata.
#[test]
fn cut_short() {
    let cut = ["import a{x", "import a{x/*c", "x \"abc", "\"\\\"", "import \"a", "import \"a\"+\"b"];
    assert_eq!(cut.map(|text| in_both(DEPS, text.as_bytes())), [8, 8, 0, 0, 4, 6].map(|number| (true, number)));
    let stays = ["import a{", "import a{x;", "import a{/*c", "import a{prefix", "include a", "//cut", "description \"cut", "import a{} \"x", "import a b \"x"];
    assert_eq!(stays.map(|text| in_both(DEPS, text.as_bytes())), [8, 8, 8, 4, 6, 0, 0, 7, 5].map(|number| (false, number)));
    let cut = ["module m{belongs-to p", "module m{prefix p;prefix", "module m{revision 2020-01-01{", "\"", "module m{belongs-to \"p\"+\"x", "yang-version \"1"];
    assert_eq!(cut.map(|text| in_both(META, text.as_bytes())), [0, 0, 0, 9, 0, 6].map(|number| (true, number)));
    let stays = ["module m{revision 2020-01-01", "module m{/*cut", "module m{ description cut", "module m{belongs-to p}"];
    assert_eq!(stays.map(|text| in_both(META, text.as_bytes())), [6, 0, 0, 0].map(|number| (false, number)));
}

/// Every beginning of a text, by its last byte: # if it is refused for being cut off.
fn beginnings<T: PartialEq + std::fmt::Debug>(scans: [fn(&[u8]) -> Result<T, ScanRefusal>; 2], text: &str) -> String {
    (1..=text.len()).map(|length| if in_both(scans, text[..length].as_bytes()).0 { '#' } else { '.' }).collect()
}

#[test]
fn every_beginning() {
    let text = "module m { namespace 'urn:m'; import a { prefix b; reference 'r'; } contact 'c'; include s; }";
    let seen = ".....................######..............#####.....#############.............................";
    assert_eq!(beginnings(DEPS, text), seen);
    let text = "submodule s { belongs-to m { prefix m; } prefix s; revision 1 { description 'a'; } contact 'c' /* d */; }";
    let seen = ".........................##############.......................###################..........##............";
    assert_eq!(beginnings(META, text), seen);
}

// ---- generated texts

/// The printed form, made once more of the items.
fn printed(found: &Dependencies) -> String {
    let at = |revision: Option<&str>| revision.map_or(String::new(), |revision| format!(" @ {revision}"));
    let imports: String = found.imports().map(|i| format!("  - {} (prefix: {}){}\n", i.name, i.prefix, at(i.revision))).collect();
    let includes: String = found.includes().map(|i| format!("  - {}{}\n", i.name, at(i.revision))).collect();
    format!("Imports ({}):\n{imports}\nIncludes ({}):\n{includes}", found.imports().len(), found.includes().len())
}

/// The two forms of a scan agree but where a text is cut off, of texts and of their beginnings.
#[test]
fn generated_in_both_forms() {
    let mut r = Rng::new(43);
    let mut seen = [[0; 11]; 2];
    for _ in 0..20_000 {
        let text = texts::any(&mut r).into_bytes();
        let length = if r.once_in(2) { text.len() } else { r.below(text.len() + 1) };
        for (cut, number) in [in_both(DEPS, &text[..length]), in_both(META, &text[..length])] {
            seen[usize::from(cut)][number as usize] += 1;
        }
    }
    assert!([0, 4, 6, 8, 9].iter().all(|number| seen[0][*number] > 20 && seen[1][*number] > 20), "{seen:?}");
}

/// Items and page agree, a refusal has a place inside its text, and the newest revision is not below the first.
#[test]
fn generated() {
    let mut r = Rng::new(41);
    let mut seen = [0; 4];
    for _ in 0..10_000 {
        let text = texts::any(&mut r);
        let place = |refusal: ScanRefusal| assert!(refusal.position.expect("a place") <= text.len() && refusal.line(text.as_bytes()).is_some());
        match dependencies(text.as_bytes()) {
            Ok(found) => assert_eq!(found.to_string(), printed(&found), "{text:?}"),
            Err(refusal) => {
                seen[0] += 1;
                place(refusal);
                assert_eq!(refusal.clash(text.as_bytes()).is_some(), refusal.number() != 10, "{text:?}");
            }
        }
        match metadata(text.as_bytes()) {
            Ok(about) => {
                seen[1] += 1;
                seen[2] += usize::from(about.newest_revision() > about.first_revision());
                assert!(about.first_revision() <= about.newest_revision(), "{text:?}");
                assert!(about.to_string().starts_with(&format!("name: {}\n", about.name())));
            }
            Err(refusal) => {
                seen[3] += 1;
                place(refusal);
            }
        }
    }
    assert!(seen.iter().all(|n| *n > 50), "{seen:?}");
}
