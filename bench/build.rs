//! Links, if BELLACUSH_BEFORE names it, an earlier archive whose slot call is `before_slot`, and, if
//! BELLACUSH_PLAIN_RULE does, one of the same sources in which the plain rule serves every slot.
use std::env;
use std::path::PathBuf;

fn main() {
    beside("BELLACUSH_BEFORE", "before");
    beside("BELLACUSH_PLAIN_RULE", "plain_rule");
}

/// The library and what it switches on have one name.
fn beside(variable: &str, name: &str) {
    println!("cargo:rustc-check-cfg=cfg({name})");
    println!("cargo:rerun-if-env-changed={variable}");
    if let Some(archive) = env::var_os(variable) {
        linked(PathBuf::from(archive), name);
    }
}

fn linked(archive: PathBuf, name: &str) {
    let folder = archive.parent().expect("an archive stands in a folder");
    println!("cargo:rustc-cfg={name}");
    println!("cargo:rerun-if-changed={}", archive.display());
    println!("cargo:rustc-link-search=native={}", folder.display());
    println!("cargo:rustc-link-lib=static={name}");
}
