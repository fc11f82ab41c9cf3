//! The port and the original Rust on the same inputs: each text is scanned for dependencies and for metadata, which count as one input each.
//!
//! compare texts SEED COUNT: COUNT generated texts, and every short string over the generator's alphabet.
//! compare files SEED COUNT FILE..: real modules, and COUNT damaged copies of each.
//! compare changes SEED COUNT: COUNT small images and COUNT small bundles, with every beginning and every change of one byte.
//! compare whole SEED COUNT [FILE..]: COUNT generated texts, and every beginning of each FILE, in the old mode and in the whole-text mode, beside a plain
//! reading of request 2026-07. `whole-beside` for `whole`: where the answer is not 11, the original must say the same.
//! compare accents SEED COUNT: COUNT generated texts with accents, in both modes, beside a plain reading of request 2026-01; and every string of up to four of
//! 25 bytes, which is UTF-8 or not as Rust's own check says. `accents-beside` for `accents`: the original must say the same, or panic, where that is due.
//! compare finds SEED COUNT: COUNT generated libraries: the Rust's finds, and damaged copies.
//! compare graphs SEED COUNT: COUNT generated libraries, every other one with texts that include each other: nodes, edges in order, which refusal.
//! compare complete SEED COUNT: COUNT generated libraries, in most of which names come again: the graphs of both modes, beside a plain reading of
//! request 2026-02.
//! compare graph-of IMAGE BUNDLE: the same for the image and the bundle in these files.
//! compare orders SEED COUNT: COUNT generated graphs: the order or the ring, and lists, beside a plain reading of request 2026-08.
//! compare sorts SEED COUNT: COUNT generated graphs: the Rust's own order is accepted, or both say that there is none.
//! compare edges: lengths around each boundary and the limits of a graph and of an order, which the Rust does not have.
//!
//! Changes, whole, accents, complete, orders and edges ask the original nothing.

use std::path::Path;
use vectors::answers::{self, Dependencies, Refusal, Scan};
use vectors::oracle::Oracle;
use vectors::rng::Rng;
use vectors::texts;

mod accents;
mod complete;
mod complete_limits;
mod edges;
mod graph;
mod library;
mod limits;
mod metadata;
mod once;
mod order_limits;
mod orders;
mod port;
mod whole;

fn main() {
    let args: Vec<String> = std::env::args().collect();
    let words: Vec<&str> = args.iter().map(|a| a.as_str()).collect();
    let number = |w: &str| w.parse::<u64>().expect("a number");
    let mut run = Run { oracle: None, inputs: 0, different: 0 };
    match words[1..] {
        ["texts", seed, count] => {
            (0..4).flat_map(texts::short).for_each(|t| run.text(t.as_bytes()));
            let mut r = Rng::new(number(seed));
            (0..number(count)).for_each(|_| run.text(texts::any(&mut r).as_bytes()));
        }
        ["files", seed, count, ref files @ ..] => {
            let mut r = Rng::new(number(seed));
            for text in ascii(files) {
                run.text(text.as_bytes());
                (0..number(count)).for_each(|_| run.text(texts::damaged(&mut r, &text).as_bytes()));
            }
        }
        ["whole", seed, count, ref files @ ..] => whole::texts(&mut run, false, number(seed), number(count), files),
        ["whole-beside", seed, count, ref files @ ..] => whole::texts(&mut run, true, number(seed), number(count), files),
        ["accents", seed, count] => accents::texts(&mut run, false, number(seed), number(count)),
        ["accents-beside", seed, count] => accents::texts(&mut run, true, number(seed), number(count)),
        ["changes", seed, count] => library::changes(&mut run, number(seed), number(count) as usize),
        ["finds", seed, count] => library::finds(&mut run, number(seed), number(count)),
        ["graphs", seed, count] => graph::graphs(&mut run, number(seed), number(count)),
        ["complete", seed, count] => complete::graphs(&mut run, number(seed), number(count)),
        ["graph-of", image, bundle] => graph::of(&mut run, image, bundle),
        ["orders", seed, count] => orders::orders(&mut run, number(seed), number(count)),
        ["sorts", seed, count] => orders::sorts(&mut run, number(seed), number(count)),
        ["edges"] => {
            edges::run(&mut run);
            metadata::edges(&mut run);
            whole::edges(&mut run);
            accents::edges(&mut run);
            library::edges(&mut run);
            limits::run(&mut run);
            complete_limits::run(&mut run);
            once::run(&mut run);
            order_limits::run(&mut run);
        }
        _ => {
            eprintln!("compare: texts|accents|accents-beside|changes|finds|graphs|complete|orders|sorts SEED COUNT");
            eprintln!("         | files|whole|whole-beside SEED COUNT FILE.. | graph-of IMAGE BUNDLE | edges");
            std::process::exit(2);
        }
    }
    println!("compare: {} inputs, {} different", run.inputs, run.different);
    std::process::exit(i32::from(run.different != 0));
}

/// The contents of these files, but for those with bytes above 127.
fn ascii<'a>(files: &'a [&str]) -> impl Iterator<Item = String> + 'a {
    files.iter().filter_map(|file| String::from_utf8(std::fs::read(file).expect("a file")).ok().filter(|text| text.is_ascii()))
}

pub struct Run {
    oracle: Option<Oracle>,
    inputs: usize,
    different: usize,
}

impl Run {
    /// The original, started when it is first asked: where nothing is asked it need not be there.
    fn oracle(&mut self) -> &mut Oracle {
        let program = concat!(env!("CARGO_MANIFEST_DIR"), "/../oracle/build/oracle");
        self.oracle.get_or_insert_with(|| Oracle::start(Path::new(program)))
    }

    /// Counts an input, and says the first ten that differ.
    pub fn count(&mut self, same: bool, what: impl FnOnce() -> String) {
        self.inputs += 1;
        if !same {
            self.different += 1;
            if self.different <= 10 {
                println!("compare: {}", what());
            }
        }
    }

    fn text(&mut self, text: &[u8]) {
        let told = answers::dependencies(self.oracle(), text);
        let mut page = port::enough(text, self.inputs % 3);
        let number = page.printed(false, text);
        let mut plain = port::enough(text, self.inputs % 5);
        let again = plain.dependencies(false, text);
        let same = agrees(text, &told, &page, number) && plain_agrees(&page, number, &plain, again);
        self.count(same, || format!("{:?}\n  the Rust {told:?}\n  the port {:?}", String::from_utf8_lossy(text), page.answer));
        metadata::text(self, text);
    }
}

/// The same answer without a page.
fn plain_agrees(page: &port::Scanned, number: u32, plain: &port::Scanned, again: u32) -> bool {
    let [imports, includes, used] = [3, 4, 5].map(|i| plain.answer[i] as usize);
    number == again
        && page.answer[..6] == plain.answer[..6]
        && page.store[..used] == plain.store[..used]
        && page.import_rows() == plain.import_rows()
        && page.include_rows() == plain.include_rows()
        && plain.store[used..].iter().all(|b| *b == 0)
        && plain.imports[7 * imports..].iter().all(|w| *w == 0)
        && plain.includes[5 * includes..].iter().all(|w| *w == 0)
}

fn agrees(text: &[u8], told: &Scan<Dependencies>, port: &port::Scanned, number: u32) -> bool {
    if number != port.answer[0] || !port.is_clean() {
        return false;
    }
    match told {
        Scan::Good(d) => {
            port.answer[..3] == [0, 0, 0]
                && port.import_rows() == d.imports
                && port.include_rows() == d.includes
                && port.page[..port.answer[6] as usize] == d.page
        }
        Scan::Refused(r) => refused(text, r, &port.answer),
        Scan::Silent(_) => false,
    }
}

/// Number, keyword and position, and no counts behind them.
fn refused(text: &[u8], told: &Refusal, answer: &[u32]) -> bool {
    let Refusal { number, keyword, position } = told.due(text);
    answer[..3] == [number, keyword, position] && answer[3..].iter().all(|w| *w == 0)
}
