//! Request 2026-01: texts with bytes above 127, in both modes, beside a plain reading (`../../vectors/src/scans.rs`) and, if that is asked, beside the
//! original; and what is UTF-8, beside that reading and Rust's own check.

use crate::limits::{self, refused, scan};
use crate::port::{Scanned, enough};
use crate::whole::{Asked, GOOD, Of, Whole, read_by_hand};
use crate::{Run, edges};
use vectors::libraries::{module, of};
use vectors::rng::Rng;
use vectors::texts;
use vectors::utf8::{BOUNDS, wrong_from};

// ---- which texts

/// Most as `compare texts` has them, with accents; one in eight with bytes that are no UTF-8 or with other buffers lent.
fn generated(whole: &mut Whole, seed: u64, count: u64) {
    let mut r = Rng::new(seed);
    for _ in 0..count {
        let text = texts::any(&mut r);
        let text = texts::accented(&mut r, &text);
        match r.below(16) {
            0 => whole.text(&texts::torn(&mut r, &text)),
            1 => whole.around(&mut r, text.as_bytes()),
            _ => whole.text(text.as_bytes()),
        }
    }
}

pub fn texts(run: &mut Run, beside: bool, seed: u64, count: u64) {
    if !beside {
        utf8(run);
    }
    let mut whole = Whole::new(run, if beside { Asked::Always } else { Asked::Never });
    texts::telling_accents().iter().for_each(|t| whole.text(t));
    let small = texts::SMALL_ACCENTED.as_bytes();
    (0..=small.len()).for_each(|n| whole.text(&small[..n]));
    let longest = if beside { 2 } else { 3 }; // as for `whole`
    (1..=longest).flat_map(texts::short_accented).for_each(|t| whole.text(t.as_bytes()));
    generated(&mut whole, seed, count);
    let Whole { texts, high, not_utf8, panics, told, .. } = whole;
    println!("compare: {texts} texts, each scanned for dependencies and for metadata in both modes; in the old one {high} scans are 3 and {not_utf8} are 12");
    if beside {
        println!("compare: of the others the original is to answer {told} and to panic at {panics}");
    }
}

// ---- what is UTF-8

/// So many low bytes before and behind a string: the code passes low bytes in blocks of 256 and of 16.
const AROUND: [(usize, usize); 8] = [(0, 0), (0, 300), (15, 1), (16, 0), (13, 16), (255, 17), (256, 0), (253, 256)];

/// Every string of up to four of these bytes: 12, at the place that the plain reading and Rust's own check have, or another number.
fn utf8(run: &mut Run) {
    let (mut strings, before) = (0, run.inputs);
    let mut lent = enough(&[b' '; 1_024], 0);
    for length in 0..=4 {
        for k in 0..BOUNDS.len().pow(length) {
            let string: Vec<u8> = (0..length).map(|i| BOUNDS[k / BOUNDS.len().pow(i) % BOUNDS.len()]).collect();
            strings += 1;
            for (front, back) in AROUND {
                one_string(run, &mut lent, &[&b" ".repeat(front), &string[..], &b" ".repeat(back)].concat());
            }
        }
    }
    println!("compare: {strings} strings of bytes, {} times with low bytes around, are UTF-8 or not as is due", run.inputs - before);
}

fn one_string(run: &mut Run, lent: &mut Scanned, text: &[u8]) {
    let rust = std::str::from_utf8(text).map_or_else(|e| e.valid_up_to(), str::len);
    lent.dependencies(false, text);
    let told = if lent.answer[0] == 12 { lent.answer[2] as usize } else { text.len() };
    let due = (lent.answer[0] == 12) == (rust < text.len()) && lent.answer[1] == 0;
    run.count(due && told == rust && wrong_from(text) == rust, || {
        format!("{text:02x?}: {:?}, Rust's own check {rust}, the plain reading {}", &lent.answer[..3], wrong_from(text))
    });
}

// ---- by hand

/// The readings of request 2026-01: number, keyword and position of the old mode, and of the whole-text mode.
const READINGS: [(Of, &[u8], [u32; 3], [u32; 3]); 61] = [
    // 1: over the whole text, read or not
    (Of::D, b"\x41\xc3", [12, 0, 1], [12, 0, 1]),
    (Of::D, b"\xe2\x82\x41", [12, 0, 0], [12, 0, 0]),
    (Of::D, b"\xc0\xaf", [12, 0, 0], [12, 0, 0]),
    (Of::M, b"\xed\xa0\x80", [12, 0, 0], [12, 0, 0]),
    (Of::M, b"\xf4\x90\x80\x80", [12, 0, 0], [12, 0, 0]),
    (Of::M, b"\xc3\xa9\xc3", [12, 0, 2], [12, 0, 2]),
    (Of::M, b"\x80", [12, 0, 0], [12, 0, 0]),
    (Of::D, b"import a{x \"\xc3\"}", [12, 0, 12], [12, 0, 12]),
    (Of::D, b"description \"\xe9\";", [12, 0, 13], [12, 0, 13]),
    (Of::D, b"import a{}\xff", [12, 0, 10], [12, 0, 10]),
    // 2: behind an opening quote
    (Of::D, "import \"é\"{prefix 'ü';}".as_bytes(), GOOD, GOOD),
    (Of::D, "import \"é".as_bytes(), [4, 8, 10], [11, 0, 10]),
    (Of::D, "import \"a\"+\"é".as_bytes(), [6, 8, 14], [11, 0, 14]),
    (Of::D, "import a{x 'é\\';prefix p;}".as_bytes(), [8, 8, 27], [11, 0, 27]),
    (Of::D, "import a{x 'é';prefix p;}".as_bytes(), GOOD, GOOD),
    (Of::D, "import \"\\é\"{prefix p;}".as_bytes(), GOOD, GOOD),
    (Of::D, "x \"é\"".as_bytes(), GOOD, GOOD),
    (Of::M, "module \"é\"{belongs-to p 'é';revision 1{\"é\"}}".as_bytes(), GOOD, GOOD),
    // 3: in a comment
    (Of::D, "//é".as_bytes(), GOOD, GOOD),
    (Of::D, "/*é".as_bytes(), GOOD, GOOD),
    (Of::M, "/*é".as_bytes(), [9, 0, 4], [9, 0, 4]),
    (Of::D, "import/*é*/ a{}".as_bytes(), GOOD, GOOD),
    (Of::D, "import a/*é*/{/*é*/prefix p//é\n;}".as_bytes(), GOOD, GOOD),
    (Of::M, "module m{belongs-to p/*é*/;}".as_bytes(), GOOD, GOOD),
    // 4: elsewhere
    (Of::D, "x é".as_bytes(), [3, 0, 2], [3, 0, 2]),
    (Of::D, "fooé bar".as_bytes(), [3, 0, 3], [3, 0, 3]),
    (Of::D, "importé a{".as_bytes(), [3, 0, 6], [3, 0, 6]),
    (Of::D, "import a{x é;prefix p;}".as_bytes(), [3, 0, 11], [3, 0, 11]),
    (Of::D, "import a{é}".as_bytes(), [3, 0, 9], [3, 0, 9]),
    (Of::D, "import a{prefixé p;}".as_bytes(), [3, 0, 15], [3, 0, 15]),
    (Of::M, "module m{belongs-to p é;}".as_bytes(), [3, 0, 22], [3, 0, 22]),
    (Of::M, "module m{prefix p;prefix é;}".as_bytes(), [3, 0, 25], [3, 0, 25]),
    (Of::D, "x\u{a0}y".as_bytes(), [3, 0, 1], [3, 0, 1]),
    (Of::D, "import a\u{85}{".as_bytes(), [3, 0, 8], [3, 0, 8]),
    (Of::M, "module\u{2028}m{}".as_bytes(), [3, 0, 6], [3, 0, 6]),
    // 5: in the place of 4 and 5
    (Of::D, "import é{".as_bytes(), [3, 0, 7], [3, 0, 7]),
    (Of::D, "import aé{".as_bytes(), [3, 0, 8], [3, 0, 8]),
    (Of::D, "import a é{".as_bytes(), [3, 0, 9], [3, 0, 9]),
    (Of::D, "import \"a\" + é{".as_bytes(), [3, 0, 13], [3, 0, 13]),
    (Of::D, "import a{prefix é;}".as_bytes(), [3, 0, 16], [3, 0, 16]),
    (Of::D, "import a{prefix pé;}".as_bytes(), [3, 0, 17], [3, 0, 17]),
    (Of::D, "include é;".as_bytes(), [3, 0, 8], [3, 0, 8]),
    (Of::D, "include aé;".as_bytes(), [3, 0, 9], [3, 0, 9]),
    (Of::M, "module m{yang-version é;}".as_bytes(), [3, 0, 22], [3, 0, 22]),
    (Of::M, "module é{".as_bytes(), [3, 0, 7], [3, 0, 7]),
    (Of::M, "module m{revision 1é;}".as_bytes(), [3, 0, 19], [3, 0, 19]),
    // 6: what is told before, and what is not met
    (Of::D, "import a{}é".as_bytes(), [7, 8, 10], [7, 8, 10]),
    (Of::D, "description é".as_bytes(), GOOD, GOOD),
    (Of::M, "description é".as_bytes(), [3, 0, 12], [3, 0, 12]),
    (Of::M, "module m{container é".as_bytes(), GOOD, GOOD),
    (Of::M, "container é".as_bytes(), [9, 0, 9], [9, 0, 9]),
    // 7: a byte order mark
    (Of::D, "\u{feff}module m{}".as_bytes(), [3, 0, 0], [3, 0, 0]),
    (Of::M, "\u{feff}module m{}".as_bytes(), [3, 0, 0], [3, 0, 0]),
    // 8: in reading order
    (Of::D, "x é \"cut".as_bytes(), [3, 0, 2], [3, 0, 2]),
    (Of::D, "\"cut é".as_bytes(), GOOD, [11, 0, 7]),
    // where the original panics, and where it returns
    (Of::D, "import a/*é".as_bytes(), [6, 8, 12], [6, 8, 12]),
    (Of::D, "import a{/*é".as_bytes(), [8, 8, 13], [8, 8, 13]),
    (Of::D, "\"é".as_bytes(), GOOD, [11, 0, 3]),
    (Of::D, "/*é*".as_bytes(), GOOD, GOOD),
    (Of::D, "/*é ".as_bytes(), GOOD, GOOD),
    (Of::D, "import aé{prefix p;}".as_bytes(), [3, 0, 8], [3, 0, 8]),
];

pub fn edges(run: &mut Run) {
    for (of, text, old, whole) in READINGS {
        read_by_hand(run, of, text, [old, whole]);
    }
    values(run);
    rows(run);
    graphs(run);
}

/// Accents are copied as they are, a backslash before one is dropped, and the page has them.
fn values(run: &mut Run) {
    let text = "import \"\\é\"+'ü\\n'{prefix '€';revision-date \"\\n😀\";}include 'é';";
    let page = "Imports (1):\n  - éü\\n (prefix: €) @ \n😀\n\nIncludes (1):\n  - é\n";
    for whole in [false, true] {
        let mut got = edges::long(text.as_bytes());
        got.printed(whole, text.as_bytes());
        let store = "éü\\n€\n😀é".as_bytes();
        let same = got.answer == [0, 0, 0, 1, 1, store.len() as u32, page.len() as u32]
            && got.store.starts_with(store)
            && got.page.starts_with(page.as_bytes())
            && got.is_clean();
        run.count(same, || format!("values with accents: {:?}", got.answer));
    }
}

/// A 257th import or include is told before what stands behind its keyword, and the longest text with accents is read.
fn rows(run: &mut Run) {
    let rows = "import a{prefix b;}".repeat(256);
    let at = rows.len() as u32 + 6;
    let longest = format!("//{}", "é".repeat(524_287));
    for whole in [false, true] {
        let text = format!("{rows}import é");
        edges::expect_in(whole, run, "a 257th import before é", text.as_bytes(), edges::long(text.as_bytes()), [10, 8, at, 0, 0, 0]);
        edges::expect_in(whole, run, "the longest text with accents", longest.as_bytes(), edges::long(longest.as_bytes()), [0; 6]);
        let torn = &longest.as_bytes()[..1_048_575];
        edges::expect_in(whole, run, "one byte less", torn, edges::long(torn), [12, 0, 1_048_574, 0, 0, 0]);
    }
}

/// 9: a graph carries 3, as it does 12 (limits.rs), and no image has a name with an accent.
fn graphs(run: &mut Run) {
    let cases = [
        ("x é", scan(1, [3, 0, 2])),
        ("import a{}é", scan(1, [7, 8, 10])),
        ("import \"é\"{prefix p;}", refused(26, 1)),
        ("include \"é\";", refused(27, 1)),
        ("import b{prefix \"é\";}//é", limits::built(&["m".to_string(), "b".to_string()], vec![[1, 0]])),
        ("description é", limits::built(&["m".to_string(), "b".to_string()], Vec::new())),
    ];
    for (text, expected) in &cases {
        let library = of(&[(&[module("m", ""), module("b", "")], &[])], &[("m", text), ("b", "")]);
        limits::apart(run, text, &library, [expected; 2]);
    }
}
