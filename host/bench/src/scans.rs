//! Both scans, of real modules and of other texts; and how long an image and a bundle take to read, by a look-up.

use crate::timing::Row;
use crate::{port, yangparser};
use std::hint::black_box;
use vectors::rng::Rng;

/// Texts that are scanned one after the other, and what they are.
pub struct Input {
    what: String,
    texts: Vec<String>,
}

impl Input {
    fn one(what: &str, text: String) -> Input {
        Input { what: what.to_string(), texts: vec![text] }
    }

    fn bytes(&self) -> usize {
        self.texts.iter().map(|t| t.len()).sum()
    }

    fn longest(&self) -> usize {
        self.texts.iter().map(|t| t.len()).max().unwrap_or(0)
    }
}

// ---- texts

const MIB: usize = 1_048_576;

fn repeated(piece: &str) -> String {
    piece.repeat(MIB / piece.len())
}

/// 1 MiB, less what stands around it, of statements that are skipped.
fn statements() -> String {
    let text = repeated("x { y \"z\"; } ");
    text[..MIB - 1_024].trim_end_matches(|c| c != '}').to_string()
}

/// Those of these files that the Rust and the port are compared on, and what both scans read to the end.
fn for_both(files: &[String]) -> Vec<Input> {
    let read = |f: &String| String::from_utf8(std::fs::read(f).expect("a file")).ok().filter(|t| t.is_ascii());
    let real: Vec<String> = files.iter().filter_map(read).collect();
    vec![
        Input { what: format!("{} real modules", real.len()), texts: real },
        Input::one("1 MiB of one-letter words", repeated("a ")),
        Input::one("1 MiB of comments", repeated("/* a comment */ // and a line\n")),
        Input::one("1 MiB of white space", repeated("        \n")),
        Input::one("1 MiB of quoted strings", repeated("\"some text\" 'more of it' ")),
        Input::one("1 MiB of one-byte tokens", repeated("{;}=")),
    ]
}

pub fn for_dependencies(files: &[String]) -> Vec<Input> {
    let full = format!("{}{}", "import a{prefix b;revision-date 1;}".repeat(256), "include c{revision-date 2;}".repeat(256));
    let mut out = for_both(files);
    out.insert(1, Input::one("1 MiB of words", repeated("container ")));
    out.push(Input::one("1 MiB of skipped statements", format!("import a {{ {} prefix b; }}", statements())));
    out.push(Input::one("256 imports and 256 includes", full));
    out
}

pub fn for_metadata(files: &[String]) -> Vec<Input> {
    let mut out = for_both(files);
    out.insert(1, Input::one("1 MiB of words", repeated("statement "))); // a container ends this scan
    out.push(Input::one("1 MiB of skipped statements", format!("revision 1 {{ {} }}", statements())));
    out.push(Input::one("1 MiB of revisions", repeated("revision 2024-05-01;")));
    out
}

/// 1 MiB of comments in which one character in so many, by chance, is \u{e9}: where they come at equal distances a processor learns their places.
fn accented(one_in: usize) -> String {
    let (mut text, mut r) = (String::new(), Rng::new(1));
    while text.len() < MIB - 256 {
        let line: String = (0..80).map(|_| if r.once_in(one_in) { '\u{e9}' } else { 'c' }).collect();
        text += &format!("// {line}\n");
    }
    text
}

/// An archive from before request 2026-01, which ./beside may hand in, refuses them.
pub fn with_accents() -> Vec<Input> {
    let reads = port::enough("//\u{e9}".as_bytes(), 0).dependencies(false, "//\u{e9}".as_bytes()) == 0;
    let input = |(share, one_in): (&str, usize)| Input::one(&format!("1 MiB of comments, {share} of their characters \u{e9}"), accented(one_in));
    if reads { [("0.1 %", 1_000), ("2 %", 50), ("10 %", 10), ("50 %", 2)].map(input).into() } else { Vec::new() }
}

// ---- scans

/// The port's scans of all texts, one after the other. `whole`: in the whole-text mode.
fn linking(input: &Input, whole: bool) -> impl FnMut() + '_ {
    let mut lent = port::lent(input.longest(), port::IMPORT_WORDS, port::INCLUDE_WORDS, 0);
    move || {
        for t in &input.texts {
            black_box(lent.dependencies_within(whole, black_box(t.as_bytes()), t.len()));
        }
    }
}

fn describing(input: &Input, whole: bool) -> impl FnMut() + '_ {
    let mut lent = port::lent_store(input.longest());
    move || {
        for t in &input.texts {
            black_box(lent.metadata_within(whole, black_box(t.as_bytes()), t.len()));
        }
    }
}

pub fn dependencies(input: &Input) -> Row<'_> {
    let mut lent = port::lent(input.longest(), port::IMPORT_WORDS, port::INCLUDE_WORDS, 0);
    for t in &input.texts {
        let rust = yangparser::extract_yang_dependencies(t).map(|d| [d.imports.len(), d.includes.len()]);
        let number = lent.dependencies_within(false, t.as_bytes(), t.len());
        let ours = (number == 0).then_some([lent.answer[3] as usize, lent.answer[4] as usize]);
        assert_eq!(rust.ok(), ours, "{}: two answers", input.what);
    }
    let rust = || {
        for t in &input.texts {
            black_box(yangparser::extract_yang_dependencies(black_box(t)).ok());
        }
    };
    Row::new(&input.what, input.bytes(), rust, linking(input, false))
}

pub fn metadata(input: &Input) -> Row<'_> {
    let mut lent = port::lent_store(input.longest());
    for t in &input.texts {
        let rust = yangparser::extract_yang_metadata(t);
        assert_eq!(rust.is_ok(), lent.metadata_within(false, t.as_bytes(), t.len()) == 0, "{}: two answers", input.what);
    }
    let rust = || {
        for t in &input.texts {
            black_box(yangparser::extract_yang_metadata(black_box(t)).ok());
        }
    };
    Row::new(&input.what, input.bytes(), rust, describing(input, false))
}

/// The same in the whole-text mode, which the Rust does not have. None of these texts breaks off, so the answer is the old mode's.
pub fn dependencies_whole(input: &Input) -> Row<'_> {
    let mut lent = port::lent(input.longest(), port::IMPORT_WORDS, port::INCLUDE_WORDS, 0);
    for t in &input.texts {
        let [old, whole] = [false, true].map(|whole| (lent.dependencies_within(whole, t.as_bytes(), t.len()), lent.answer));
        assert_eq!(old, whole, "{}: two answers", input.what);
    }
    Row::alone(&input.what, input.bytes(), linking(input, true))
}

pub fn metadata_whole(input: &Input) -> Row<'_> {
    let mut lent = port::lent_store(input.longest());
    for t in &input.texts {
        let [old, whole] = [false, true].map(|whole| (lent.metadata_within(whole, t.as_bytes(), t.len()), lent.answer));
        assert_eq!(old, whole, "{}: two answers", input.what);
    }
    Row::alone(&input.what, input.bytes(), describing(input, true))
}

/// The check that a text is UTF-8, by a metadata scan that ends at its second word, and what it clears; beside Rust's own check and a store that is cleared.
pub fn checking(input: &Input) -> Row<'_> {
    let text = format!("module m{{container {}", input.texts[0]);
    let (mut lent, mut store) = (port::lent_store(text.len()), vec![0; text.len()]);
    assert_eq!(lent.metadata(false, text.as_bytes()), 0, "{}", input.what);
    let bytes = text.clone().into_bytes();
    let rust = move || {
        black_box(std::str::from_utf8(black_box(&bytes)).is_ok());
        black_box(&mut store).fill(0);
    };
    Row::new(&input.what, text.len(), rust, move || _ = black_box(lent.metadata(false, black_box(text.as_bytes()))))
}

// ---- look-ups

/// A name of 25 bytes behind its length.
fn name(i: usize) -> Vec<u8> {
    format!("\x19ietf-example-module-{i:05}").into_bytes()
}

/// A number from 128 to 16,383.
fn two(n: usize) -> [u8; 2] {
    [(n % 128 + 128) as u8, (n / 128) as u8]
}

/// 2,048 texts in 16,777,216 bytes; the last fills the rest.
fn bundle() -> Vec<u8> {
    let mut form = two(2_048).to_vec();
    for i in 0..2_048 {
        let size = if i < 2_047 { 8_163 } else { 16_777_216 - form.len() - 28 };
        form.extend([&name(i)[..], &two(size), &vec![b' '; size]].concat());
    }
    assert_eq!(form.len(), 16_777_216);
    form
}

/// 2,250 modules with no lists in 65,536 bytes, 450 a set; some of them have a submodule of one byte, which fills the rest.
fn image() -> Vec<u8> {
    let mut form = vec![5];
    for set in 0..5 {
        form.extend(two(450));
        for i in 450 * set..450 * (set + 1) {
            form.extend(name(i));
            form.extend(if i < 135 { &[1, 1, b's', 0, 0][..] } else { &[0, 0, 0] });
        }
        form.push(0);
    }
    assert_eq!(form.len(), 65_536);
    form
}

/// The whole form is read, and nothing is found in it.
fn look_up(what: &str, call: port::LookUp, form: Vec<u8>) -> Row<'static> {
    let absent = name(99_999).split_off(1);
    assert_eq!(port::look_up(call, &form, &absent), [0; 5]);
    Row::alone(what, form.len(), move || _ = black_box(port::look_up(call, black_box(&form), &absent)))
}

pub fn look_ups<'a>() -> impl Iterator<Item = Row<'a>> {
    let in_bundle = look_up("`nuvaleta_text`, a name that is not in a bundle of 2,048 texts", port::TEXT, bundle());
    let in_image = look_up("`nuvaleta_find_module`, a name that is not in an image of 2,250 modules in five sets", port::FINDS[0], image());
    [in_bundle, in_image].into_iter()
}
