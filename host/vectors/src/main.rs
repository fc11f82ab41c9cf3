//! vectors tally SEED COUNT: asks the oracle for COUNT generated texts and a twentieth as many libraries, and counts its answers.
//! vectors real SEED COUNT FILE..: the same for real modules and COUNT damaged copies of each.
//! vectors record DIR: writes the recorded answers below DIR (the repository's crates folder).
//! vectors verify DIR: makes them anew and says which files there differ.
//! vectors routers DIR COUNT MODULES [SEED]: writes image and bundle of COUNT generated routers with so many modules each; the oracle is not asked.

use std::collections::BTreeMap;
use std::path::{Path, PathBuf};
use vectors::answers::{self, Graph, Scan};
use vectors::graphs::{self, Links, Mode, Texts};
use vectors::oracle::Oracle;
use vectors::rng::Rng;
use vectors::{form, libraries, orders, records, routers, scans, texts};

fn main() {
    let args: Vec<String> = std::env::args().collect();
    let words: Vec<&str> = args.iter().map(|a| a.as_str()).collect();
    let number = |w: &str| w.parse::<u64>().expect("a number");
    match words[1..] {
        ["tally", seed, count] => tally(number(seed), number(count) as usize),
        ["real", seed, count, ref files @ ..] => real(number(seed), number(count) as usize, files),
        ["record", dir] => all(&mut oracle()).iter().for_each(|f| f.write(Path::new(dir))),
        ["verify", dir] => verify(Path::new(dir)),
        ["routers", dir, count, modules] => some_routers(Path::new(dir), number(count), number(modules) as usize, 1),
        ["routers", dir, count, modules, seed] => some_routers(Path::new(dir), number(count), number(modules) as usize, number(seed)),
        _ => {
            eprintln!("vectors: tally SEED COUNT | real SEED COUNT FILE.. | record DIR | verify DIR | routers DIR COUNT MODULES [SEED]");
            std::process::exit(2);
        }
    }
}

/// The oracle that was built beside this folder.
fn oracle() -> Oracle {
    let host = PathBuf::from(env!("CARGO_MANIFEST_DIR"));
    Oracle::start(&host.join("../oracle/build/oracle"))
}

// ---- how often which answer comes

fn kind<T>(answer: &Scan<T>) -> String {
    match answer {
        Scan::Good(_) => "good".to_string(),
        Scan::Refused(r) if r.number == answers::FIVE_OR_SIX => "5 or 6".to_string(),
        Scan::Refused(r) => r.number.to_string(),
        Scan::Silent(line) => format!("silent: {line}"),
    }
}

#[derive(Default)]
struct Tally(BTreeMap<(&'static str, String), usize>);

impl Tally {
    fn count(&mut self, what: &'static str, answer: String) {
        *self.0.entry((what, answer)).or_default() += 1;
    }

    fn text(&mut self, oracle: &mut Oracle, text: &str) {
        self.count("dependencies", kind(&answers::dependencies(oracle, text.as_bytes())));
        self.count("metadata", kind(&answers::metadata(oracle, text.as_bytes())));
    }

    fn library(&mut self, oracle: &mut Oracle, library: &libraries::Library) {
        let answer = match answers::graph(oracle, &library.image(), &library.bundle()) {
            Graph::Built(..) => "built".to_string(),
            Graph::Refused(25, scan) => format!("25 by {}", kind::<()>(&Scan::Refused(scan))),
            Graph::Refused(n, _) => n.to_string(),
            Graph::Silent(line) => format!("silent: {line}"),
        };
        self.count("graph", answer);
    }

    fn print(&self) {
        for ((what, answer), n) in &self.0 {
            println!("{what:12} {answer:12} {n:8}");
        }
    }
}

fn tally(seed: u64, count: usize) {
    let (mut oracle, mut r, mut tally) = (oracle(), Rng::new(seed), Tally::default());
    for _ in 0..count {
        tally.text(&mut oracle, &texts::any(&mut r));
    }
    for _ in 0..count / 20 {
        tally.library(&mut oracle, &libraries::library(&mut r));
    }
    tally.print();
}

fn real(seed: u64, count: usize, files: &[&str]) {
    let (mut oracle, mut r, mut tally) = (oracle(), Rng::new(seed), Tally::default());
    for file in files {
        let text = match String::from_utf8(std::fs::read(file).expect("a file")) {
            Ok(text) => text,
            Err(_) => {
                tally.count("real", "no UTF-8".to_string());
                continue;
            }
        };
        if !text.is_ascii() {
            tally.count("real", "not below 128".to_string());
            continue;
        }
        tally.count("real", "asked".to_string());
        tally.text(&mut oracle, &text);
        for _ in 0..count {
            tally.text(&mut oracle, &texts::damaged(&mut r, &text));
        }
    }
    tally.print();
}

// ---- the recorded files

struct File {
    name: &'static str,
    bytes: Vec<u8>,
    records: usize,
}

impl File {
    fn new(name: &'static str) -> File {
        File { name, bytes: Vec::new(), records: 0 }
    }

    fn add(&mut self, record: Vec<u8>) {
        self.records += usize::from(!record.is_empty());
        self.bytes.extend(record);
    }

    fn write(&self, dir: &Path) {
        let path = dir.join(self.name);
        std::fs::create_dir_all(path.parent().expect("a folder")).expect("a folder");
        std::fs::write(&path, &self.bytes).expect("a file");
        println!("{}: {} records, {} bytes", self.name, self.records, self.bytes.len());
    }
}

/// Where these stand among metadata's values.
const NAMESPACE: usize = 1;
const PREFIX: usize = 2;

/// README.md says what is in each; the seeds are here.
fn all(oracle: &mut Oracle) -> Vec<File> {
    let mut dependencies = File::new("yangparser_run/data/dependencies.vec");
    let mut metadata = File::new("yangparser_run/data/metadata.vec");
    let mut r = Rng::new(1);
    let examples = texts::EXAMPLES.iter().map(|t| t.to_string());
    let short = (0..3).flat_map(texts::short);
    let generated = (0..2_000).map(|_| texts::any(&mut r));
    for text in examples.chain(short).chain(generated) {
        let text = text.as_bytes();
        dependencies.add(records::dependencies(text, &answers::dependencies(oracle, text)));
        metadata.add(records::metadata(text, &answers::metadata(oracle, text)));
    }
    let mut values = File::new("text_run/data/values.vec");
    let mut r = Rng::new(3);
    let short = (0..4).flat_map(texts::short_values);
    let generated = (0..1_000).map(|_| texts::one_value(&mut r));
    for text in short.chain(generated) {
        values.add(records::one_value(text.as_bytes(), &answers::metadata(oracle, text.as_bytes()), NAMESPACE));
    }
    let mut skips = File::new("text_run/data/skips.vec");
    let mut r = Rng::new(4);
    for i in 0..2_000 {
        let text = if i % 2 == 0 { texts::one_statement(&mut r) } else { texts::some_tokens(&mut r) };
        skips.add(records::one_value(text.as_bytes(), &answers::metadata(oracle, text.as_bytes()), PREFIX));
    }
    let mut finds = File::new("library_run/data/finds.vec");
    let mut graph = File::new("yanglib_run/data/graph.vec");
    let mut r = Rng::new(2);
    for i in 0..500 {
        let library = libraries::library(&mut r);
        let (image, bundle) = (library.image(), library.bundle());
        graph.add(records::graph(&image, &bundle, &answers::graph(oracle, &image, &bundle)));
        if i % 5 == 0 {
            for name in ["m", "x", "s", "types", "m-sub", "zz"] {
                let name = name.as_bytes();
                finds.add(records::finds(&image, name, &answers::finds(oracle, &image, name)));
            }
        }
    }
    for library in nested() {
        let (image, bundle) = (library.image(), library.bundle());
        graph.add(records::graph(&image, &bundle, &answers::graph(oracle, &image, &bundle)));
    }
    let mut files = vec![dependencies, metadata, values, skips, finds, graph, completed(oracle), ordered()];
    files.extend(whole(oracle));
    files.extend(accented(oracle));
    files.extend(accented_parts(oracle));
    files
}

/// Asks the original whether it says the same of a text as the plain reading in the old mode; of one that is no UTF-8 it is not asked.
fn must_agree(oracle: &mut Oracle, text: &[u8]) {
    let alike = scans::first(text, true).is_some()
        || scans::dependencies(text).is_told(text, &answers::dependencies(oracle, text))
            && scans::metadata(text).is_told(text, &answers::metadata(oracle, text));
    assert!(alike, "the plain reading: {:?}", String::from_utf8_lossy(text));
}

/// Texts with accents in both modes: the plain reading's. Where it is not 3 or 12 and no panic is due, it must have the original's answer in the old mode.
fn accented(oracle: &mut Oracle) -> [File; 4] {
    let mut dependencies = [File::new("yangparser_run/data/dependencies-accents.vec"), File::new("yangparser_run/data/dependencies-whole-accents.vec")];
    let mut metadata = [File::new("yangparser_run/data/metadata-accents.vec"), File::new("yangparser_run/data/metadata-whole-accents.vec")];
    let mut r = Rng::new(9);
    let mut all = texts::telling_accents();
    all.extend((0..=texts::SMALL_ACCENTED.len()).map(|n| texts::SMALL_ACCENTED.as_bytes()[..n].to_vec()));
    all.extend((1..3).flat_map(texts::short_accented).map(String::into_bytes));
    for i in 0..600 {
        let text = texts::any(&mut r);
        let text = texts::accented(&mut r, &text);
        all.push(if i % 10 == 0 { texts::torn(&mut r, &text) } else { text.into_bytes() });
    }
    for text in &all {
        must_agree(oracle, text);
        for whole in [false, true] {
            dependencies[usize::from(whole)].add(records::dependencies(text, &scans::answered(text, whole, scans::dependencies)));
            metadata[usize::from(whole)].add(records::metadata(text, &scans::answered(text, whole, scans::metadata)));
        }
    }
    let ([a, b], [c, d]) = (dependencies, metadata);
    [a, c, b, d]
}

/// Values with accents; statements and tokens with accents in their strings and comments, up to a value.
fn accented_parts(oracle: &mut Oracle) -> [File; 2] {
    let mut values = File::new("text_run/data/values-accents.vec");
    let mut skips = File::new("text_run/data/skips-accents.vec");
    let (mut r, mut accents) = (Rng::new(10), Rng::new(11));
    let mut add = |file: &mut File, text: String, which| {
        let answer = scans::metadata(text.as_bytes()).answer(false);
        if is_at_value(&text, &answer) {
            must_agree(oracle, text.as_bytes());
            file.add(records::one_value(text.as_bytes(), &answer, which));
        }
    };
    (1..4).flat_map(texts::short_accented_values).for_each(|text| add(&mut values, text, NAMESPACE));
    // What is asked begins behind these.
    let mut accented = |front: &str, text: String| front.to_string() + &texts::accented(&mut accents, &text[front.len()..]);
    for i in 0..500 {
        add(&mut values, accented(texts::NAMESPACE, texts::one_value(&mut r)), NAMESPACE);
        let skipped = if i % 2 == 0 { accented(texts::BELONGS, texts::one_statement(&mut r)) } else { accented(texts::OPENED, texts::some_tokens(&mut r)) };
        add(&mut skips, skipped, PREFIX);
    }
    [values, skips]
}

/// Whether a byte that is refused with 3 is met where the value or the semicolon behind it is due: a letter and the end in its place are 5 or 6. Elsewhere it
/// is met by the scan alone, and not by what the text layer is asked.
fn is_at_value(text: &str, answer: &Scan<Vec<answers::Value>>) -> bool {
    match answer {
        Scan::Refused(r) if r.number == scans::HIGH_BYTE => {
            let letter = format!("{}x", &text[..r.position as usize]);
            scans::metadata(letter.as_bytes()).refusal(false).map_or(false, |r| matches!(r.number, 5 | 6))
        }
        _ => true,
    }
}

/// Scans in the whole-text mode, which the original does not have: the plain reading's. In the old mode it must have the original's answer to the same text.
fn whole(oracle: &mut Oracle) -> [File; 2] {
    let mut dependencies = File::new("yangparser_run/data/dependencies-whole.vec");
    let mut metadata = File::new("yangparser_run/data/metadata-whole.vec");
    let mut r = Rng::new(8);
    let small = texts::SMALL.iter().flat_map(|t| texts::beginnings(t)).map(|t| t.to_string());
    let short = (0..2).flat_map(texts::short_broken);
    let generated = (0..600).map(|_| texts::any(&mut r));
    for text in texts::broken().into_iter().chain(small).chain(short).chain(generated) {
        let text = text.as_bytes();
        let (linked, described) = (scans::dependencies(text), scans::metadata(text));
        let alike = linked.is_told(text, &answers::dependencies(oracle, text)) && described.is_told(text, &answers::metadata(oracle, text));
        assert!(alike, "the plain reading: {:?}", String::from_utf8_lossy(text));
        dependencies.add(records::dependencies(text, &linked.answer(true)));
        metadata.add(records::metadata(text, &described.answer(true)));
    }
    [dependencies, metadata]
}

/// Texts that include each other: the telling inputs of request 2026-10, and generated ones, none of them deeper than eight includes without a circle.
fn nested() -> Vec<libraries::Library> {
    let mut r = Rng::new(7);
    let generated = (0..100).map(|_| libraries::nested(&mut r, 8));
    libraries::included().into_iter().chain(generated).collect()
}

/// Graphs with complete nodes, which the original does not have: the plain reading's, over the original's scans. In the present mode it must have the
/// original's graph of the same library.
fn completed(oracle: &mut Oracle) -> File {
    let mut file = File::new("yanglib_run/data/complete.vec");
    let mut r = Rng::new(6);
    let generated = (0..300).map(|_| libraries::repeated(&mut r));
    for library in libraries::telling().into_iter().chain(generated).chain(nested()) {
        let (image, bundle) = (library.image(), library.bundle());
        let sets = form::read_image(&image).expect("an image");
        let texts = scanned(oracle, &library);
        let rust = records::graph(&image, &bundle, &answers::graph(oracle, &image, &bundle));
        let plain = records::drawn(&image, &bundle, &graphs::draw(&sets, &texts, Mode::Present));
        assert!(rust == plain, "the plain reading: image {image:02x?}, {:?}", library.texts);
        file.add(records::drawn(&image, &bundle, &graphs::draw(&sets, &texts, Mode::Complete)));
    }
    file
}

/// What the original's scan of each text says.
fn scanned<'a>(oracle: &mut Oracle, library: &'a libraries::Library) -> Texts<'a> {
    let mut scan = |text: &str| match answers::dependencies(oracle, text.as_bytes()) {
        Scan::Good(d) => Ok(Links::of(&d.imports, &d.includes)),
        Scan::Refused(r) => Err(r),
        Scan::Silent(line) => panic!("{text:?}: {line}"),
    };
    library.texts.iter().map(|(name, text)| (name.as_str(), scan(text))).collect()
}

/// Orders and checks, as the plain reading of request 2026-08 has them: the original's sort takes any free node, and it checks no list.
fn ordered() -> File {
    let mut file = File::new("order_run/data/orders.vec");
    let mut r = Rng::new(5);
    while file.records < 400 {
        let given = orders::any(&mut r);
        if given.nodes <= 12 && given.edges.len() <= 40 {
            file.add(one_order(&mut r, &given));
        }
    }
    file
}

/// The order of a graph, and the check of a list. Some tables are one word short, or have an edge with a number that is no node.
fn one_order(r: &mut Rng, given: &orders::Given) -> Vec<u8> {
    let plain = orders::Plain::new(given);
    let (mut answer, mut words) = orders::due(given, &plain);
    let mut lists = orders::damaged(r, given.nodes, &words);
    lists.push(words.clone());
    let list = lists.swap_remove(r.below(lists.len()));
    let mut checked = plain.wrong(&list).map_or([0, 0], |place| [42, place as u32]);
    let (nodes, mut count) = (given.nodes as u32, given.edges.len() as u32);
    let (mut node_words, mut table) = (2 * nodes, given.nodes + r.below(3));
    let mut edges = given.edges.concat();
    match r.below(24) {
        0 | 1 if nodes > 0 => table = given.nodes - 1,
        2 if nodes > 0 => node_words -= 1,
        3 => count += 1,
        4 if count > 0 => edges[0] = nodes,
        5 if count > 0 => edges[1] = u32::MAX,
        _ => {}
    }
    let unfit = node_words < 2 * nodes || edges.len() < 2 * count as usize || edges.iter().any(|v| *v >= nodes);
    if unfit || table < given.nodes {
        (answer, words) = ([if unfit { 43 } else { 41 }, 0], Vec::new());
        checked = if unfit { [43, 0] } else { checked };
    }
    words.resize(table, 0);
    records::order([nodes, count, node_words], &edges, &words, answer, &list, checked)
}

fn verify(dir: &Path) {
    let mut wrong = 0;
    for file in all(&mut oracle()) {
        let there = std::fs::read(dir.join(file.name)).unwrap_or_default();
        if there != file.bytes {
            wrong += 1;
            println!("vectors: {} does not hold what is answered", file.name);
        } else {
            println!("vectors: {} holds what is answered ({} records)", file.name, file.records);
        }
    }
    std::process::exit(i32::from(wrong != 0));
}

// ---- routers

/// Writes router-001.image, router-001.bundle and so on; the next router's seed is the next number of the first seed's row.
fn some_routers(dir: &Path, count: u64, modules: usize, seed: u64) {
    if count > 999 || modules > routers::MODULES_MOST {
        eprintln!("vectors: up to 999 routers with up to {} modules each", routers::MODULES_MOST);
        std::process::exit(2);
    }
    std::fs::create_dir_all(dir).expect("a folder");
    let mut r = Rng::new(seed);
    let mut bytes = 0;
    for i in 1..=count {
        let library = routers::router(modules, r.below(usize::MAX) as u64);
        for (form, kind) in [(library.image(), "image"), (library.bundle(), "bundle")] {
            bytes += form.len();
            std::fs::write(dir.join(format!("router-{i:03}.{kind}")), form).expect("a file");
        }
    }
    println!("vectors: {count} routers in {}, {bytes} bytes", dir.display());
}
