//! What may be lost without a refusal, told by warnings: every way of docs/DIFFERENCES.md in which a scan passes over imports, and generated modules.

use nuvaleta::{texts, WarningKind};
use std::collections::BTreeSet;
use vectors::libraries::of;
use vectors::rng::Rng;

/// The warnings of a text, each as its kind, line, column and words.
fn warned(text: &str) -> Vec<String> {
    let bundle = of(&[], &[("t", text)]).bundle();
    let about = texts(&bundle).expect("a bundle");
    about[0].warnings.iter().map(|warning| format!("{} {warning}", warning.kind.word())).collect()
}

fn passed(line: usize, column: usize, what: &str, cause: &str) -> Vec<String> {
    vec![format!("passed_over line {line}, column {column}: {what} is passed over: {cause}")]
}

// ---- the known ways

#[test]
fn a_stop_word_as_an_argument() {
    let text = "module m{prefix contact;\n  import a{prefix p;}}";
    assert_eq!(warned(text), passed(2, 3, "import \"a\"", "the scan ends at the word contact in line 1"));
    let text = "module organization\n{\n\tinclude a;}";
    assert_eq!(warned(text), passed(3, 2, "include \"a\"", "the scan ends at the word organization in line 1"));
    for stop in ["organization", "contact", "description", "reference"] {
        assert_eq!(warned(&format!("module m{{\nx:y {stop};import a{{prefix p;}}}}")).len(), 1);
        assert_eq!(warned(&format!("module m{{\nx:y {stop}s;import a{{prefix p;}}}}")).len(), 0);
        assert_eq!(warned(&format!("module m{{\nx:y '{stop}';import a{{prefix p;}}}}")).len(), 0);
    }
}

#[test]
fn an_argument_that_ends_in_one() {
    for argument in ["urn:x/contact", "urn:x?contact", "2contact", "-.:contact", "é/contact"] {
        let text = format!("module m{{namespace {argument};prefix m;\nimport 'a'+\"b\"{{prefix p;}}}}");
        let due = if argument.is_ascii() { passed(2, 1, "import \"ab\"", "the scan ends at the word contact in line 1") } else { Vec::new() };
        assert_eq!(warned(&text), due, "{argument}");
    }
    for argument in ["x:contact", "urn:contact", "a-contact", "contact:x", "contact/x"] {
        assert_eq!(warned(&format!("module m{{namespace {argument};prefix m;import a{{prefix p;}}}}")), [""; 0], "{argument}");
    }
}

/// Columns count characters, however many there are in a line before.
#[test]
fn behind_accents() {
    let cause = "the scan ends at the word contact in line 1";
    let text = "module m{contact '\u{e9}'; /*\u{20ac}*/ import '\u{e9}'{prefix p;} /*\u{1f600}*/ include b;\n/*\u{e9}*/include c;}";
    let due = [passed(1, 29, "import \"\u{e9}\"", cause), passed(1, 57, "include \"b\"", cause), passed(2, 6, "include \"c\"", cause)];
    assert_eq!(warned(text), due.concat());
}

#[test]
fn an_extension_before_the_imports() {
    let text = "module m{\nx:ext{\ndescription \"d\";}\nimport a{prefix p;}\ninclude b{revision-date 2024-01-01;}}";
    let cause = "the scan ends at the word description in line 3";
    assert_eq!(warned(text), [passed(4, 1, "import \"a\"", cause), passed(5, 1, "include \"b\"", cause)].concat());
}

#[test]
fn a_comment_behind_the_keyword() {
    let cause = |word: &str| format!("a comment stands right behind the word {word}");
    assert_eq!(warned("module m{import/**/ a{prefix p;}}"), passed(1, 10, "import \"a\"", &cause("import")));
    assert_eq!(warned("module m{include// x\n a;}"), passed(1, 10, "include \"a\"", &cause("include")));
    assert_eq!(warned("module m{import /**/ a{prefix p;}}"), [""; 0]);
    // read once under its name: no edge is lost
    assert_eq!(warned("module m{import/**/ a{prefix p;}import a{prefix p;}}"), [""; 0]);
}

#[test]
fn a_string_that_ends_behind_a_backslash() {
    let text = "module m{import a{prefix p;\ndescription '\\';}import b{prefix q;description \"x';}\";}import c{prefix r;}}";
    let found = warned(text);
    let cause = "a string before it, in line 2, ends behind a backslash";
    assert_eq!(found, [passed(2, 18, "import \"b\"", cause), passed(2, 56, "import \"c\"", cause)].concat());
    let text = "module m{import a{prefix p;\ndescription \"\\\\\";}import b{prefix q;description 'x\";}';}}";
    assert_eq!(warned(text), passed(2, 19, "import \"b\"", cause));
}

/// YANG 1 lets a quote stand inside a word; the scan takes it for a string's.
#[test]
fn a_quote_inside_a_word() {
    let text = "module m{\nx:by O'Neill;\nimport a{prefix p;}\nx:by O'Hara;}";
    assert_eq!(warned(text), passed(3, 1, "import \"a\"", "a quote before it, in line 2, stands inside a word"));
}

#[test]
fn what_does_not_end() {
    let cause = |what: &str, line: usize| format!("a {what} that opens in line {line} does not end, and this was found by a search for words alone");
    let text = "module m{\nx:y \"open;\nimport a{prefix p;}\nimport \t'b' /**/ {prefix p;}\nimport c\n}";
    assert_eq!(warned(text), [passed(3, 1, "import \"a\"", &cause("string", 2)), passed(4, 1, "import \"b\"", &cause("string", 2))].concat());
    let text = "module m{include s;\n/* open\nimport a{prefix p;}include s;include t;}";
    assert_eq!(warned(text), [passed(3, 1, "import \"a\"", &cause("comment", 2)), passed(3, 30, "include \"t\"", &cause("comment", 2))].concat());
    let text = "module m{prefix m;/*\naugment /m:a{}augment \"/x:b\" {}important x;}";
    assert_eq!(warned(text), ["augments line 2, column 15: it augments \"/x:b\", and no import that was read has the prefix \"x\""]);
}

/// A text that ends in the head of its module may have lost imports.
#[test]
fn what_is_cut_off() {
    let whole = "module m{namespace 'urn:m';\nprefix m;\nimport a{prefix p;}x:y z{}/* c */\ninclude s;\
                 organization \"o\";revision 2024-01-01;leaf l{type int8;}}";
    let head = whole.find("organization").expect("a head");
    for end in 9..whole.len() {
        let text = &whole[..end];
        let scanned = nuvaleta::dependencies(text.as_bytes()).is_ok();
        let due = scanned && end < head + "organization".len();
        let found = warned(text);
        assert_eq!(found.len(), usize::from(due), "{text}: {found:?}");
        let line = text.matches('\n').count() + 1;
        assert!(found.iter().all(|one| one.starts_with(&format!("cut_off line {line}, column ")) && one.contains("it ends inside its module")), "{found:?}");
    }
    assert_eq!(warned(whole), [""; 0]);
    let text = "submodule s{belongs-to m{prefix m;}";
    assert!(warned(text)[0].starts_with(&format!("cut_off line 1, column {}: ", text.len() + 1)));
    for silent in ["module m{}/* open", "module m{description \"open", "x{import a{prefix p;}", "module m{leaf l{type", "module m{}}"] {
        assert_eq!(warned(silent), [""; 0], "{silent}");
    }
}

// ---- no alarm

#[test]
fn silence() {
    for text in [
        "",
        "module m{prefix m;import a{prefix p;description 'import b{prefix q;}';}include s;description \"import c{prefix r;}\";}",
        "module m{/* import a{prefix p;} */// import b{prefix p;}\nprefix m;contact c;}",
        "module m{description d;leaf import{type string;}leaf include{type string;}x:y import;x:z include;}",
        "module m{description d;container c{x:importer y;importance z;}}",
        "submodule s{belongs-to m{prefix m;}include t;import a{prefix p;}organization o;augment /m:a/p:b{leaf c{type int8;}}}",
        "module m{import}", // refused: 4
        "module m{contact c;import}",
        "module m{contact c;import;include{}}",
        "x \u{e9}; import a{prefix p;}", // refused: 3
        "import a{prefix b;}import \"a\\tb\"{prefix c;}include 'a'+\"\\\"\";",
    ] {
        assert_eq!(warned(text), [""; 0], "{text}");
    }
}

#[test]
fn augmentations() {
    let text = |head: &str, path: &str| format!("module m{{prefix m;import a{{prefix p;}}{head}\n augment {path}{{}}}}");
    let due = |path: &str| vec![format!("augments line 2, column 2: it augments {path}, and no import that was read has the prefix \"x\"")];
    for path in ["/m:a/x:b", "/p:a/p:b", "/a/x:b", "a/b", "'m:a'", "\"/p:\" + 'a'"] {
        assert_eq!(warned(&text("", path)), [""; 0], "{path}");
    }
    assert_eq!(warned(&text("", "/x:a/m:b")), due("\"/x:a/m:b\""));
    assert_eq!(warned(&text("", "\"/x:\"\n+ 'a'")), due("\"/x:a\""));
    assert_eq!(warned(&text("", " ' /x:a/p:b'")), due("\" /x:a/p:b\""));
    assert_eq!(warned(&text("uses g{", "x:a}")), due("\"x:a\""));
    // a prefix inside another block is not the text's own
    assert_eq!(warned(&text("y:z{prefix x;}", "/x:a")), due("\"/x:a\""));
    // one of an import that is passed over counts for nothing
    let both = warned(&text("contact c;import b{prefix x;}", "/x:a"));
    assert_eq!((both.len(), &both[1..]), (2, &due("\"/x:a\"")[..]));
}

// ---- generated modules

/// A gap, with comments that hold what is looked for.
fn gap(r: &mut Rng) -> &'static str {
    r.pick(&[" ", " ", "\n", "\t ", " /* import no{prefix p;} \" */ ", " // it's include no;\n", "\n/**/ "])
}

/// A name as it may be written.
fn written(r: &mut Rng, name: &str) -> String {
    let (begin, end) = name.split_at(1);
    match r.below(5) {
        0 => format!("'{name}'"),
        1 => format!("\"{name}\""),
        2 => format!("\"{begin}\"{}+{}'{end}'", gap(r), gap(r)),
        _ => name.to_string(),
    }
}

/// A statement of an extension, that may keep the scan from all behind it, or from nothing.
fn snag(r: &mut Rng) -> String {
    let inside = r.pick(&["", "description 'd';", "reference r;", "y:z {contact c;}", "leaf no{}", "y:z \"import no{prefix p;}\";"]);
    let argument = r.pick(&["", "contact", "urn:x/reference", "organizations", "'description'", "\"a \\\" b\"", "'a \" b'", "O'Neill"]);
    format!("x:ext {argument}{}{{{inside}}}", gap(r))
}

/// An import, or an include if `kind` says so.
fn dependency(r: &mut Rng, name: &str, kind: &str) -> String {
    let before = if r.once_in(8) { "/**/ " } else { gap(r) };
    let strings = ["description \"d { ; \";", "description '\\';", "description \"\\\\\";", "reference 'import no{}';"];
    let more = if r.once_in(2) { r.pick(&["", "revision-date 2024-01-01;"]) } else { r.pick(&strings) };
    let prefix = if kind == "import" { "prefix p;" } else { "" };
    format!("{kind}{before}{}{}{{{prefix}{more}}}", written(r, name), gap(r))
}

/// Every import and include of a module is read or warned of, and no other is.
#[test]
fn generated() {
    let mut r = Rng::new(83);
    let mut seen = [0; 3];
    for _ in 0..20_000 {
        let mut text = format!("module{}m{}{{prefix m;", gap(&mut r), gap(&mut r));
        let mut due = [BTreeSet::new(), BTreeSet::new()];
        for i in 0..1 + r.below(5) {
            let of = r.below(2);
            let name = format!("n{i}");
            text += gap(&mut r);
            text += &if r.once_in(3) { snag(&mut r) } else { String::new() };
            text += &dependency(&mut r, &name, ["import", "include"][of]);
            due[of].insert(name);
        }
        text += r.pick(&["}", "\ndescription 'import is no{prefix p;}';}", "organization \"O\";leaf import {type int8;}}"]);
        let bundle = of(&[], &[("t", &text)]).bundle();
        let about = &texts(&bundle).expect("a bundle")[0];
        let read = match &about.dependencies {
            Ok(read) => {
                let imports: BTreeSet<_> = read.imports().map(|import| import.name.to_string()).collect();
                [imports, read.includes().map(|include| include.name.to_string()).collect()]
            }
            Err(_) => {
                seen[0] += 1;
                assert!(about.warnings.is_empty());
                continue;
            }
        };
        assert!(about.warnings.iter().all(|warning| warning.kind == WarningKind::PassedOver && !warning.words.contains("why is not plain")), "{text}");
        let name = |words: &str, kind: &str| Some(words.strip_prefix(kind)?.split('"').nth(1)?.to_string());
        let told = |kind: &str| about.warnings.iter().filter_map(|warning| name(&warning.words, kind)).collect::<BTreeSet<_>>();
        for (of, kind) in ["import ", "include "].into_iter().enumerate() {
            let warned: BTreeSet<_> = due[of].difference(&read[of]).cloned().collect();
            assert_eq!(told(kind), warned, "{text}");
        }
        seen[if about.warnings.is_empty() { 1 } else { 2 }] += 1;
    }
    assert!(seen.iter().all(|n| *n > 500), "{seen:?}");
}
