//! Names looked up through the crate, beside a plain search.

use nuvaleta::{find_import_module, find_module, find_submodule, text, ImportModule, Refusal};
use vectors::form;
use vectors::libraries::{self, module, of, only};
use vectors::rng::Rng;

#[test]
fn by_hand() {
    let sets: [(&[_], &[_]); 2] = [(&[module("m", "s t")], &[only("o", &["p", "q"])]), (&[module("o", "p")], &[only("m", &[""])])];
    let image = of(&sets, &[]).image();
    let name_at = |place: Option<usize>| place.map(|place| image[place] as char);
    assert_eq!(name_at(find_module(&image, "m").expect("an image")), Some('m'));
    assert_eq!(find_module(&image, "s"), Ok(None));
    assert_eq!(name_at(find_submodule(&image, b"t").expect("an image")), Some('t'));
    assert_eq!(find_submodule(&image, "q"), Ok(None), "an import-only module's submodule");
    let found = find_import_module(&image, String::from("o")).expect("an image").expect("a module");
    assert_eq!((image[found.place], found.revisions), (b'o', 2));
    for name in ["", " ", "\u{e9}", &"x".repeat(129)] {
        assert_eq!([find_module(&image, name), find_submodule(&image, name)], [Ok(None), Ok(None)]);
        assert_eq!((find_import_module(&image, name), text(b"\0", name)), (Ok(None), Ok(None)));
    }
}

#[test]
fn refused() {
    let broken = Refusal::ImageBroken { place: 1, too_long: false, looks: None };
    assert_eq!([find_module(b"\x01", "m"), find_submodule(b"\x01", "m")], [Err(broken.clone()), Err(broken.clone())]);
    assert_eq!(find_import_module(b"\x01", "m"), Err(broken));
    let long = find_module(&vec![0; nuvaleta::IMAGE_MOST + 1], "m").expect_err("a refusal");
    assert_eq!(long.told(), "refused 20: the image has more than 65,536 bytes");
    assert_eq!(text(b"\x01\x01m\x05", "m").expect_err("a refusal").told(), "refused 21: the bundle breaks its form at byte 3");
    let long = text(&vec![0; nuvaleta::BUNDLE_MOST + 1], "m").expect_err("a refusal");
    assert_eq!(long.words(), "the bundle has more than 16,777,216 bytes");
}

/// Every name of a generated library, damaged ones too, is found where the plain reader has it, and its text is handed back as a part of the bundle.
#[test]
fn generated() {
    let mut r = Rng::new(29);
    let mut seen = [0; 3];
    for _ in 0..300 {
        let library = libraries::library(&mut r);
        let (mut image, bundle) = (library.image(), library.bundle());
        if r.once_in(4) {
            image = libraries::damaged(&mut r, &image);
        }
        let sets = match form::read_image(&image) {
            Ok(sets) => sets,
            Err(place) => {
                let told = find_module(&image, "m").expect_err("a broken image");
                assert!(matches!(told, Refusal::ImageBroken { place: at, too_long: false, .. } if at == place), "{told}");
                seen[0] += 1;
                continue;
            }
        };
        let texts = form::read_bundle(&bundle).expect("a bundle");
        for name in form::candidates(&sets).iter().map(|name| name.text) {
            let modules = || sets.iter().flat_map(|set| &set.modules);
            let only = sets.iter().flat_map(|set| &set.import_only).find(|m| m.name.text == name);
            let submodule = modules().flat_map(|m| &m.submodules).find(|n| n.text == name);
            assert_eq!(find_module(&image, name), Ok(modules().find(|m| m.name.text == name).map(|m| m.name.place)));
            assert_eq!(find_submodule(&image, name), Ok(submodule.map(|n| n.place)));
            assert_eq!(find_import_module(&image, name), Ok(only.map(|m| ImportModule { place: m.name.place, revisions: m.revisions.len() })));
            let told = texts.iter().find(|text| text.name.text == name);
            let found = text(&bundle, name).expect("a bundle");
            assert_eq!(found.map(<[u8]>::as_ptr_range), told.map(|text| text.bytes.as_ptr_range()));
            seen[1] += usize::from(found.is_some());
            seen[2] += 1;
        }
    }
    assert!(seen.iter().all(|n| *n > 20), "{seen:?}");
}
