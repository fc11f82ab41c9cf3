//! Images and bundles: the finds and the text under a name, beside a plain reader and beside the Rust.

use crate::Run;
use crate::port::{FINDS, TEXT, look_up};
use vectors::answers::{self, NOT_FOUND};
use vectors::form::{self, Name, Set, Text};
use vectors::libraries;
use vectors::rng::Rng;

const NOTHING: [u32; 5] = [0; 5];

fn hit(name: &Name, revisions: usize) -> [u32; 5] {
    [0, 0, 1, name.place as u32, revisions as u32]
}

fn broken(number: u32, place: usize) -> [u32; 5] {
    [number, place as u32, 0, 0, 0]
}

fn module(sets: &[Set], name: &[u8]) -> [u32; 5] {
    let mut all = sets.iter().flat_map(|s| &s.modules);
    all.find(|m| m.name.text.as_bytes() == name).map_or(NOTHING, |m| hit(&m.name, 0))
}

fn submodule(sets: &[Set], name: &[u8]) -> [u32; 5] {
    let mut all = sets.iter().flat_map(|s| &s.modules).flat_map(|m| &m.submodules);
    all.find(|n| n.text.as_bytes() == name).map_or(NOTHING, |n| hit(n, 0))
}

fn import_module(sets: &[Set], name: &[u8]) -> [u32; 5] {
    let mut all = sets.iter().flat_map(|s| &s.import_only);
    all.find(|m| m.name.text.as_bytes() == name).map_or(NOTHING, |m| hit(&m.name, m.revisions.len()))
}

fn text(texts: &[Text], name: &[u8]) -> [u32; 5] {
    let hit = texts.iter().find(|t| t.name.text.as_bytes() == name);
    hit.map_or(NOTHING, |t| [0, 0, 1, t.place as u32, t.bytes.len() as u32])
}

fn shown(form: &[u8]) -> String {
    form.iter().map(|b| format!("{b:02X} ")).collect()
}

/// The three finds of a name in what may be an image.
fn image(run: &mut Run, bytes: &[u8], name: &[u8]) {
    let read = form::read_image(bytes);
    let expected = match &read {
        Ok(sets) => [module(sets, name), submodule(sets, name), import_module(sets, name)],
        Err(place) => [broken(20, *place); 3],
    };
    let told = FINDS.map(|find| look_up(find, bytes, name));
    run.count(told == expected, || format!("image {}, {:?}: {told:?}, expected {expected:?}", shown(bytes), String::from_utf8_lossy(name)));
}

/// The text under a name in what may be a bundle.
fn bundle(run: &mut Run, bytes: &[u8], name: &[u8]) {
    let expected = form::read_bundle(bytes).map_or_else(|place| broken(21, place), |texts| text(&texts, name));
    let told = look_up(TEXT, bytes, name);
    run.count(told == expected, || format!("bundle {}, {:?}: {told:?}, expected {expected:?}", shown(bytes), String::from_utf8_lossy(name)));
}

/// A form, each of its beginnings, each one-byte change, each byte inserted at each place and each byte left out.
fn changed(form: &[u8], mut each: impl FnMut(&[u8])) {
    (0..=form.len()).for_each(|n| each(&form[..n]));
    for at in 0..form.len() {
        let mut copy = form.to_vec();
        for byte in 0..=255 {
            copy[at] = byte;
            each(&copy);
        }
        copy.remove(at);
        each(&copy);
    }
    for at in 0..=form.len() {
        let mut copy = form.to_vec();
        copy.insert(at, 0);
        for byte in 0..=255 {
            copy[at] = byte;
            each(&copy);
        }
    }
}

const NAMES: [&str; 8] = ["m", "s", "types", "x", "m-sub", "base", "", "zz"];

/// Small images and bundles, so many of each, and all that one byte can make of them.
pub fn changes(run: &mut Run, seed: u64, count: usize) {
    let mut r = Rng::new(seed);
    let mut turn = 0;
    let mut name = || {
        turn += 1;
        NAMES[turn % NAMES.len()].as_bytes()
    };
    let (mut images, mut bundles) = (0, 0);
    while images < count || bundles < count {
        let library = libraries::library(&mut r);
        let (i, b) = (library.image(), library.bundle());
        if images < count && (8..72).contains(&i.len()) {
            images += 1;
            changed(&i, |bytes| image(run, bytes, name()));
        }
        if bundles < count && (8..96).contains(&b.len()) {
            bundles += 1;
            changed(&b, |bytes| bundle(run, bytes, name()));
        }
    }
}

/// Generated libraries: the finds of the Rust, and the plain reader on damaged copies.
pub fn finds(run: &mut Run, seed: u64, count: u64) {
    let mut r = Rng::new(seed);
    for i in 0..count {
        let library = libraries::library(&mut r);
        let bytes = library.image();
        let name = NAMES[i as usize % NAMES.len()].as_bytes();
        let [m, s, o, revisions] = answers::finds(run.oracle(), &bytes, name);
        let expected = [(m, 0), (s, 0), (o, revisions)].map(|(p, r)| if p == NOT_FOUND { NOTHING } else { [0, 0, 1, p, r] });
        let told = FINDS.map(|find| look_up(find, &bytes, name));
        run.count(told == expected, || format!("image {}, {name:?}: {told:?}, the Rust {expected:?}", shown(&bytes)));
        image(run, &libraries::damaged(&mut r, &bytes), name);
        let texts = library.bundle();
        bundle(run, &texts, name);
        bundle(run, &libraries::damaged(&mut r, &texts), name);
    }
}

/// `count` names of the length given, which differ.
fn names(count: usize, length: usize) -> Vec<u8> {
    (0..count).flat_map(|i| [vec![length as u8], format!("{i:0length$}").into_bytes()].concat()).collect()
}

/// Lengths and counts around each limit.
pub fn edges(run: &mut Run) {
    let number = |n: usize| if n < 128 { vec![n as u8] } else { vec![(n % 128 + 128) as u8, (n / 128) as u8] };
    for sets in [15, 16, 17] {
        image(run, &[number(sets), vec![0; 2 * sets]].concat(), b"m");
    }
    for count in [63, 64, 65] {
        for (before, behind) in [(&b"\x01\x01\x01m"[..], &b"\0\0\0"[..]), (b"\x01\x01\x01m\0", b"\0\0"), (b"\x01\x01\x01m\0\0", b"\0")] {
            image(run, &[before, &number(count), &names(count, 2), behind].concat(), b"07");
        }
        image(run, &[b"\x01\0\x01\x01i\x01", &number(count)[..], &names(count, 2)].concat(), b"i");
    }
    for revisions in 0..10 {
        image(run, &[b"\x01\0\x01\x01i", &number(revisions)[..], &vec![0; revisions]].concat(), b"i");
    }
    for count in [511, 512, 513] {
        let module = |i: usize| [format!("\x03{i:03}").into_bytes(), vec![0; 3]].concat();
        let only = |i: usize| [format!("\x03{i:03}").into_bytes(), vec![1, 0]].concat();
        let modules: Vec<u8> = (0..count).flat_map(module).collect();
        let import_only: Vec<u8> = (0..count).flat_map(only).collect();
        image(run, &[b"\x01", &number(count)[..], &modules, b"\0"].concat(), b"510");
        image(run, &[b"\x01\0", &number(count)[..], &import_only].concat(), b"510");
        let again = [b"\x01\0", &number(count)[..], &import_only[..6 * (count - 1)], b"\x03000\x01\0"].concat();
        image(run, &again, b"510");
    }
    for length in [1, 127, 128, 129] {
        let name = vec![b'n'; length];
        image(run, &[b"\x01\x01", &number(length)[..], &name, b"\0\0\0\0"].concat(), &name);
        bundle(run, &[b"\x01", &number(length)[..], &name, b"\x02ab"].concat(), &name);
    }
    long(run);
}

/// A number in three bytes.
fn three(n: usize) -> [u8; 3] {
    [(n % 128 + 128) as u8, (n / 128 % 128 + 128) as u8, (n / 16_384 % 128) as u8]
}

/// The longest image and bundle, and one byte more.
fn long(run: &mut Run) {
    let mut longest: Vec<u8> = vec![16];
    for set in 0..16 {
        longest.push(1);
        longest.extend([1, b'm', 62]);
        longest.extend(names(62, 64));
        longest.extend([0, 0, 0]);
        assert_eq!(longest.len(), 1 + (set + 1) * 4_037);
    }
    // the last set's import-only modules fill the rest
    longest.pop();
    let only = |name: String| [&[name.len() as u8][..], name.as_bytes(), &[1, 0]].concat();
    let rest = 65_536 - longest.len() - 1;
    longest.push((rest / 100 + 1) as u8);
    (0..rest / 100).for_each(|i| longest.extend(only(format!("{i:097}"))));
    longest.extend(only("f".repeat(rest % 100 - 3)));
    assert_eq!(longest.len(), 65_536);
    image(run, &longest, b"m");
    image(run, &[&longest[..], b"\0"].concat(), b"m");

    for size in [2_097_151, 2_097_152] {
        bundle(run, &[&b"\x01\x01m"[..], &three(size), &vec![b' '; size]].concat(), b"m");
    }
    for size in [16_777_216, 16_777_217] {
        let mut all = vec![8];
        for i in 0..7 {
            all.extend([1, b'a' + i, 0xff, 0xff, 0x7f]);
            all.extend(vec![b' '; 2_097_151]);
        }
        let left: usize = size - all.len() - 5;
        all.extend([&[1, b'z'][..], &three(left), &vec![b' '; left]].concat());
        assert_eq!(all.len(), size);
        bundle(run, &all, b"z");
    }
    for count in [2_047, 2_048, 2_049] {
        let text = |i: usize| [format!("\x04{i:04}").into_bytes(), vec![1, b'x']].concat();
        let texts: Vec<u8> = (0..count).flat_map(text).collect();
        let number = [(count % 128 + 128) as u8, (count / 128) as u8];
        bundle(run, &[&number[..], &texts].concat(), b"2046");
        bundle(run, &[&number[..], &texts[..7 * (count - 1)], b"\x040000\x01x"].concat(), b"2046");
    }
}
