//! Links libbellacush.a: the proved one, or another that BELLACUSH_ARCHIVE names. And
//! libmeasured.a, the proved checks alone.
use std::env;
use std::path::{Path, PathBuf};

fn main() {
    println!("cargo:rerun-if-env-changed=BELLACUSH_ARCHIVE");
    let root = Path::new(env!("CARGO_MANIFEST_DIR")).join("..");
    let archive = env::var_os("BELLACUSH_ARCHIVE").map(PathBuf::from);
    let proved = root.join("build/libbellacush.a");
    link("bellacush", &archive.unwrap_or(proved));
    link("measured", &root.join("build/libmeasured.a"));
}

fn link(name: &str, archive: &Path) {
    println!("cargo:rerun-if-changed={}", archive.display());
    assert!(
        archive.is_file(),
        "no archive {}: make test-rust builds it",
        archive.display()
    );
    let folder = archive.parent().expect("an archive stands in a folder");
    println!("cargo:rustc-link-search=native={}", folder.display());
    println!("cargo:rustc-link-lib=static={name}");
}
