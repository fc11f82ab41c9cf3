//! The whole-text mode of request 2026-07: its three calls beside those of the old mode, and all of them beside a plain reading
//! (`../../vectors/src/scans.rs`); where the answer is not 11 also beside the original, if that is asked. accents.rs has its texts compared so too.

use crate::port::{self, Described, IMPORT_WORDS, INCLUDE_WORDS, PAGE_MORE, Scanned, lent, lent_store};
use crate::{Run, edges, metadata};
use vectors::answers::{self, Dependencies, Refusal, Scan};
use vectors::oracle::Oracle;
use vectors::rng::Rng;
use vectors::scans::{self, CUT_SHORT, HIGH_BYTE, NOT_UTF8, Plain, described};
use vectors::texts;

/// What 11 may stand in the place of.
const INSTEAD: [u32; 5] = [0, 4, 6, 8, 9];

/// When the original is asked. It has the old mode alone, and where the answer is 11 that mode may be one at which it never ends.
#[derive(Clone, Copy, PartialEq)]
pub enum Asked {
    Never,
    NotAt11,
    Always,
}

pub struct Whole<'r> {
    run: &'r mut Run,
    asked: Asked,
    pub texts: usize,
    /// How often 11 came in the place of each.
    instead: [usize; 5],
    /// How many scans the old mode refuses with 3, and with 12.
    pub high: usize,
    pub not_utf8: usize,
    /// Of those of which the original was asked and which are not 3: at how many it is to panic, and how many it is to answer.
    pub panics: usize,
    pub told: usize,
}

/// What a mode refuses: before it reads, or as the plain reading does.
fn refusal<T>(first: Option<Refusal>, plain: &Option<Plain<T>>, whole: bool) -> Option<Refusal> {
    first.or_else(|| plain.as_ref().and_then(|p| p.refusal(whole)))
}

/// The plain reading of a text that is read at all.
fn read<T>(text: &[u8], scan: fn(&[u8]) -> Plain<T>) -> Option<Plain<T>> {
    scans::first(text, true).is_none().then(|| scan(text))
}

/// Of the old mode's number and the new one's: 11 stands in the place of these alone, and else every word is the same.
fn related(old: u32, whole: u32, same: bool) -> bool {
    if whole == CUT_SHORT { INSTEAD.contains(&old) } else { same }
}

// ---- dependencies

/// The call into a copy of what is lent; without a page none is lent.
fn linked(lent: &Scanned, whole: bool, paged: bool, text: &[u8]) -> Scanned {
    let mut got = lent.clone();
    let number = if paged {
        got.printed(whole, text)
    } else {
        got.page.clear();
        got.answer[6] = 0;
        got.dependencies(whole, text)
    };
    assert_eq!(number, got.answer[0], "the call's result");
    got
}

fn is_enough(lent: &Scanned, paged: bool, text: &[u8]) -> bool {
    lent.store.len() >= text.len()
        && lent.imports.len() >= IMPORT_WORDS
        && lent.includes.len() >= INCLUDE_WORDS
        && (!paged || lent.page.len() >= text.len() + PAGE_MORE)
}

/// All words, rows, stored bytes, the page, and zeros behind them.
fn holds(plain: &Plain<Dependencies>, got: &Scanned, paged: bool) -> bool {
    let kept = plain.old.as_ref().expect("a good scan");
    let store: Vec<u8> = plain.stored.iter().flat_map(|(_, value)| value).copied().collect();
    let page = if paged { &kept.page[..] } else { &[] };
    got.answer == [0, 0, 0, kept.imports.len(), kept.includes.len(), store.len(), page.len()].map(|n| n as u32)
        && got.store.starts_with(&store)
        && got.page.starts_with(page)
        && got.is_clean()
        && got.import_rows() == kept.imports
        && got.include_rows() == kept.includes
}

fn is_refused(r: &Refusal, got: &Scanned) -> bool {
    got.answer == [r.number, r.keyword, r.position, 0, 0, 0, 0] && got.is_clean()
}

fn described_by(mut lent: Described, whole: bool, text: &[u8]) -> Described {
    let number = lent.metadata(whole, text);
    assert_eq!(number, lent.answer[0], "the call's result");
    lent
}

impl<'r> Whole<'r> {
    pub fn new(run: &'r mut Run, asked: Asked) -> Whole<'r> {
        Whole { run, asked, texts: 0, instead: [0; 5], high: 0, not_utf8: 0, panics: 0, told: 0 }
    }

    fn dependencies(&mut self, text: &[u8], lent: &Scanned) {
        let plain = read(text, scans::dependencies);
        let (mut same, mut told) = (true, [[0; 7]; 2]);
        for paged in [false, true] {
            let first = scans::first(text, is_enough(lent, paged, text));
            let [old, whole] = [false, true].map(|whole| linked(lent, whole, paged, text));
            let agrees = |whole, got: &Scanned| match refusal(first, &plain, whole) {
                Some(r) => is_refused(&r, got),
                None => plain.as_ref().is_some_and(|plain| holds(plain, got, paged)),
            };
            same = same && agrees(false, &old) && agrees(true, &whole) && related(old.answer[0], whole.answer[0], old == whole);
            told = [old.answer, whole.answer];
        }
        same = same && self.is_told(text, told[1][0], &plain, answers::dependencies);
        self.count("D", text, same, &plain, [&told[0], &told[1]]);
    }

    fn metadata(&mut self, text: &[u8], lent: &Described) {
        let plain = read(text, scans::metadata);
        let first = scans::first(text, lent.store.len() >= text.len());
        let [old, whole] = [false, true].map(|whole| described_by(lent.clone(), whole, text));
        let agrees = |whole, got: &Described| match refusal(first, &plain, whole) {
            Some(r) => metadata::is_refused(text, &r, got),
            None => plain.as_ref().is_some_and(|plain| {
                let (record, store) = described(&plain.stored);
                metadata::holds(&record, &store, got)
            }),
        };
        let same = agrees(false, &old) && agrees(true, &whole) && related(old.answer[0], whole.answer[0], old == whole);
        let same = same && self.is_told(text, whole.answer[0], &plain, answers::metadata);
        self.count("M", text, same, &plain, [&old.answer, &whole.answer]);
    }

    /// What the original says, where it is asked. Of a text that is refused with 3 it may say anything.
    fn is_told<T: PartialEq>(&mut self, text: &[u8], whole: u32, plain: &Option<Plain<T>>, told: fn(&mut Oracle, &[u8]) -> Scan<T>) -> bool {
        let asked = self.asked == Asked::Always || (self.asked == Asked::NotAt11 && whole != CUT_SHORT);
        match plain {
            Some(plain) if asked && !plain.is_high() => {
                *(if plain.panics { &mut self.panics } else { &mut self.told }) += 1;
                plain.is_told(text, &told(self.run.oracle(), text))
            }
            _ => true,
        }
    }

    fn count<T>(&mut self, scan: &str, text: &[u8], same: bool, plain: &Option<Plain<T>>, [old, whole]: [&[u32]; 2]) {
        if let (CUT_SHORT, Some(place)) = (whole[0], INSTEAD.iter().position(|n| *n == old[0])) {
            self.instead[place] += 1;
        }
        self.high += usize::from(old[0] == HIGH_BYTE);
        self.not_utf8 += usize::from(old[0] == NOT_UTF8);
        self.run.count(same, || {
            let shown = String::from_utf8_lossy(&text[..text.len().min(2_000)]);
            let due = plain.as_ref().map(|plain| [false, true].map(|whole| plain.refusal(whole)));
            format!("{scan}, {} bytes, {shown:?}\n  the plain reading {due:?}\n  the port, old {old:?}\n  the port, whole {whole:?}", text.len())
        });
    }

    fn lent(&mut self, text: &[u8], rows: &Scanned, record: &Described) {
        self.texts += 1;
        self.dependencies(text, rows);
        self.metadata(text, record);
    }

    pub fn text(&mut self, text: &[u8]) {
        let more = self.texts % 3;
        self.lent(text, &port::enough(text, more), &lent_store(text.len() + more));
    }

    /// With buffers that are one short, just enough or one longer, and that held any of these before.
    pub fn around(&mut self, r: &mut Rng, text: &[u8]) {
        let mut around = |enough: usize| (enough + r.below(3)).saturating_sub(1);
        let mut rows = lent(around(text.len()), around(IMPORT_WORDS), around(INCLUDE_WORDS), around(text.len() + PAGE_MORE));
        let mut record = lent_store(around(text.len()));
        let byte = r.pick(b"\x00\x01\"\xff");
        let word = u32::from_le_bytes([byte; 4]);
        [&mut rows.store, &mut rows.page, &mut record.store].into_iter().for_each(|bytes| bytes.fill(byte));
        [&mut rows.imports, &mut rows.includes].into_iter().for_each(|words| words.fill(word));
        record.record.fill(word);
        self.lent(text, &rows, &record);
    }
}

// ---- which texts

/// Half of them beginnings of good modules; of the others most as `compare texts` has them, one in four damaged, with a high byte, which is no UTF-8, or with
/// other buffers lent.
fn generated(whole: &mut Whole, seed: u64, count: u64) {
    let mut r = Rng::new(seed);
    let end = whole.texts + count as usize;
    while whole.texts < end {
        let module = texts::module(&mut r);
        for beginning in texts::beginnings(&module).take(end - whole.texts) {
            whole.text(beginning.as_bytes());
        }
        for _ in 0..module.len().min(end - whole.texts) {
            let text = texts::any(&mut r);
            match r.below(12) {
                0 => whole.text(texts::damaged(&mut r, &text).as_bytes()),
                1 => whole.around(&mut r, text.as_bytes()),
                2 if !text.is_empty() => {
                    let mut bytes = text.into_bytes();
                    let place = r.below(bytes.len());
                    bytes[place] |= 128;
                    whole.around(&mut r, &bytes);
                }
                _ => whole.text(text.as_bytes()),
            }
        }
    }
}

pub fn texts(run: &mut Run, beside: bool, seed: u64, count: u64, files: &[&str]) {
    let mut whole = Whole::new(run, if beside { Asked::NotAt11 } else { Asked::Never });
    texts::EXAMPLES.iter().for_each(|t| whole.text(t.as_bytes()));
    texts::broken().iter().for_each(|t| whole.text(t.as_bytes()));
    texts::SMALL.iter().flat_map(|t| texts::beginnings(t)).for_each(|t| whole.text(t.as_bytes()));
    let longest = if beside { 2 } else { 3 }; // the original is not asked of so many that it never answers
    (0..=longest).flat_map(|n| texts::short(n).chain(texts::short_broken(n))).for_each(|t| whole.text(t.as_bytes()));
    generated(&mut whole, seed, count);
    for file in crate::ascii(files) {
        texts::beginnings(&file).for_each(|t| whole.text(t.as_bytes()));
    }
    let Whole { texts, instead: [good, no_value, end, open, no_name], .. } = whole;
    println!("compare: {texts} texts, each scanned for dependencies and for metadata in both modes; 11 in the place of");
    println!("compare: {good} good scans and of {no_value} that are 4, {end} that are 6, {open} that are 8 and {no_name} that are 9 in the old mode");
}

// ---- by hand

#[derive(Clone, Copy)]
pub enum Of {
    D,
    M,
}

pub const GOOD: [u32; 3] = [0; 3];

/// The readings of request 2026-07: number, keyword and position of the old mode, and of the whole-text mode.
const READINGS: [(Of, &str, [u32; 3], [u32; 3]); 40] = [
    // 1: a skipped statement that the text's end ends, also one of no bytes at all
    (Of::M, "module m{belongs-to p", GOOD, [11, 0, 21]),
    (Of::M, "module m{prefix p;prefix", GOOD, [11, 0, 24]),
    (Of::M, "module m{revision 2020-01-01{", GOOD, [11, 0, 29]),
    (Of::M, "module m{belongs-to p{prefix q;", GOOD, [11, 0, 31]),
    (Of::M, "belongs-to p", [9, 0, 12], [11, 0, 12]),
    (Of::D, "import a{x", [8, 8, 10], [11, 0, 10]),
    (Of::D, "include a{x", [8, 9, 11], [11, 0, 11]),
    (Of::D, "import a{x{y;", [8, 8, 13], [11, 0, 13]),
    (Of::D, "import a{x/*c", [8, 8, 13], [11, 0, 13]),
    (Of::D, "import a{x \"", [8, 8, 12], [11, 0, 12]),
    // 2: a token whose string never closes
    (Of::D, "x \"abc", GOOD, [11, 0, 6]),
    (Of::M, "\"", [9, 0, 1], [11, 0, 1]),
    (Of::D, "\"\\\"", GOOD, [11, 0, 3]),
    (Of::D, "'\\'", GOOD, GOOD),
    (Of::M, "module m{x \"container", GOOD, [11, 0, 21]),
    // 3: a part of a value that never closes, first or added
    (Of::D, "import \"a", [4, 8, 9], [11, 0, 9]),
    (Of::D, "import \"a\"+\"b", [6, 8, 13], [11, 0, 13]),
    (Of::D, "import a{prefix \"p", [4, 5, 18], [11, 0, 18]),
    (Of::D, "include a{revision-date \"1\"+\"", [6, 10, 29], [11, 0, 29]),
    (Of::M, "module m{belongs-to \"p\"+\"x", GOOD, [11, 0, 26]),
    (Of::M, "module m{namespace \"", [4, 4, 20], [11, 0, 20]),
    (Of::M, "yang-version \"1", [6, 6, 15], [11, 0, 15]),
    (Of::M, "yang-version \"1\"+\"1", [6, 6, 19], [11, 0, 19]),
    // 4: a block that ends where a statement or a brace is due
    (Of::D, "import a{", [8, 8, 9], [8, 8, 9]),
    (Of::D, "import a{x;", [8, 8, 11], [8, 8, 11]),
    (Of::D, "import a{/*c", [8, 8, 12], [8, 8, 12]),
    // 5: a value or a byte that is missing, with no string open
    (Of::D, "import a{prefix", [4, 5, 15], [4, 5, 15]),
    (Of::D, "include a", [6, 9, 9], [6, 9, 9]),
    (Of::D, "import \"a\"+", [6, 8, 11], [6, 8, 11]),
    (Of::M, "module m{revision 2020-01-01", [6, 7, 28], [6, 7, 28]),
    // 6: a comment between tokens, a module's own block
    (Of::M, "module m{/*cut", GOOD, GOOD),
    (Of::M, "module m{ description cut", GOOD, GOOD),
    (Of::D, "//cut", GOOD, GOOD),
    // 7: what is not read
    (Of::D, "description \"cut", GOOD, GOOD),
    (Of::M, "module m{container \"cut", GOOD, GOOD),
    // 8: before a brace
    (Of::M, "module m{belongs-to p}", GOOD, GOOD),
    (Of::M, "module m{prefix p;prefix }", GOOD, GOOD),
    // 9: in reading order
    (Of::D, "import a{} \"x", [7, 8, 10], [7, 8, 10]),
    (Of::D, "import a b \"x", [5, 8, 9], [5, 8, 9]),
    (Of::M, "yang-version { \"x", [5, 6, 13], [5, 6, 13]),
];

/// The port and the plain reading.
pub fn read_by_hand(run: &mut Run, of: Of, bytes: &[u8], due: [[u32; 3]; 2]) {
    for (whole, due) in [false, true].into_iter().zip(due) {
        let refusal = Some(Refusal { number: due[0], keyword: due[1], position: due[2] }).filter(|_| due != GOOD);
        let (plain, port, clean) = match of {
            Of::D => {
                let (due, got) = (scans::answered(bytes, whole, scans::dependencies), linked(&port::enough(bytes, 1), whole, true, bytes));
                (due.refusal(), got.answer[..3].to_vec(), refusal.is_none_or(|r| is_refused(&r, &got)))
            }
            Of::M => {
                let (due, got) = (scans::answered(bytes, whole, scans::metadata), described_by(lent_store(bytes.len() + 1), whole, bytes));
                (due.refusal(), got.answer[..3].to_vec(), refusal.is_none_or(|r| metadata::is_refused(bytes, &r, &got)))
            }
        };
        let same = port == due && clean && plain == refusal;
        let text = String::from_utf8_lossy(bytes);
        run.count(same, || format!("{text:?}, whole {whole}: {port:?}, the plain reading {plain:?}, expected {due:?}"));
    }
}

/// The readings, those with quotes and no backslash also in single quotes; and what comes before 11.
pub fn edges(run: &mut Run) {
    for (of, text, old, whole) in READINGS {
        read_by_hand(run, of, text.as_bytes(), [old, whole]);
        if text.contains('"') && !text.contains('\\') {
            read_by_hand(run, of, text.replace('"', "'").as_bytes(), [old, whole]);
        }
    }
    limits(run);
}

/// Around the longest text, with too little lent, with a byte that is no UTF-8, and behind as many rows as there may be.
fn limits(run: &mut Run) {
    let expect = edges::expect_in;
    let longest = format!("module m{{\"{}", "x".repeat(1_048_566));
    let (text, over) = (longest.as_bytes(), format!("{longest}x"));
    let cut = [11, 0, 1_048_576, 0, 0, 0];
    expect(false, run, "the longest text, broken off", text, edges::long(text), [0; 6]);
    expect(true, run, "the longest text, broken off", text, edges::long(text), cut);
    expect(true, run, "one byte more, broken off", over.as_bytes(), edges::long(over.as_bytes()), [1, 0, 0, 0, 0, 0]);
    metadata::expect_in(false, run, "metadata of the longest text, broken off", text, text.len(), [0, 0, 0, 1]);
    metadata::expect_in(true, run, "metadata of the longest text, broken off", text, text.len(), [11, 0, 1_048_576, 0]);
    metadata::expect_in(true, run, "metadata, one byte more, broken off", over.as_bytes(), over.len(), [1, 0, 0, 0]);
    expect(true, run, "broken off, the store too short", b"\"", lent(0, IMPORT_WORDS, INCLUDE_WORDS, 1 + PAGE_MORE), [2, 0, 0, 0, 0, 0]);
    expect(true, run, "broken off, the page too short", b"\"", lent(1, IMPORT_WORDS, INCLUDE_WORDS, PAGE_MORE), [2, 0, 0, 0, 0, 0]);
    metadata::expect_in(true, run, "metadata, broken off, the store too short", b"\"", 0, [2, 0, 0, 0]);
    expect(true, run, "broken off, no UTF-8", b"\"\x80", edges::long(b"\"\x80"), [12, 0, 1, 0, 0, 0]);
    metadata::expect_in(true, run, "metadata, broken off, no UTF-8", b"\"\x80", 2, [12, 0, 1, 0]);
    let rows = format!("{}{}", "import a{prefix b;}".repeat(256), "include c;".repeat(256));
    let at = rows.len() as u32;
    for (end, answer) in [("import \"x", [10, 8, at + 6]), ("include \"x", [10, 9, at + 7]), (" \"x", [11, 0, at + 3])] {
        let text = format!("{rows}{end}");
        expect(true, run, "256 of each, broken off", text.as_bytes(), edges::long(text.as_bytes()), [answer[0], answer[1], answer[2], 0, 0, 0]);
    }
}
