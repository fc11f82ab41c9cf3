//! The build script of host/rust: says where archive.sh puts the archive, and that a change of it is one of the crate, and so of all that is built on it.
//! NUVALETA_ARCHIVE names the folder of another one: host/bench/beside times two builds.

use std::path::Path;

fn main() {
    let told = |name: &str| std::env::var(name).expect("a word of cargo");
    let mut folder = Path::new(&told("CARGO_MANIFEST_DIR")).join("../../target/staticlib");
    let processor = told("CARGO_CFG_TARGET_ARCH");
    if processor != "x86_64" {
        folder.push(processor);
    }
    if let Ok(other) = std::env::var("NUVALETA_ARCHIVE") {
        folder = other.into();
    }
    println!("cargo:rerun-if-env-changed=NUVALETA_ARCHIVE");
    let archive = folder.join("libnuvaleta.a");
    if !archive.is_file() {
        println!("cargo:warning=no archive yet: host/build makes it");
    }
    println!("cargo:rustc-link-search=native={}", folder.display());
    println!("cargo:rerun-if-changed={}", archive.display());
}
