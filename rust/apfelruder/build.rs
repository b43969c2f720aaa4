//! Tells cargo where libapfelruder.a lies: in the folder that APFELRUDER_LIB_DIR names, else in target/staticlib of the
//! repository, where `scripts/static-archive` writes it.
//!
//! `cargo check`, `cargo clippy` and `cargo doc` need no archive. So one that is missing from the repository is a warning
//! here, and rustc stops when it makes the library itself. A folder that somebody named is an error at once if it does
//! not serve.
use std::path::{Path, PathBuf};
use std::{env, process};

const NAMED: &str = "APFELRUDER_LIB_DIR";
const ARCHIVE: &str = "libapfelruder.a";

fn main() {
    println!("cargo:rerun-if-changed=build.rs");
    println!("cargo:rerun-if-env-changed={NAMED}");
    let dir = match env::var_os(NAMED) {
        Some(named) if !named.is_empty() => named_dir(PathBuf::from(named)),
        _ => repository_dir(),
    };
    println!("cargo:rerun-if-changed={}", dir.join(ARCHIVE).display());
    println!("cargo:rustc-link-search=native={}", dir.display());
    println!("cargo:rustc-link-lib=static=apfelruder");
}

/// The named folder. It must be absolute: cargo runs this script and rustc in folders that the user does not see, so a
/// relative one would not mean what was typed.
fn named_dir(dir: PathBuf) -> PathBuf {
    let shown = dir.display();
    if !dir.is_absolute() {
        stop(&format!("{NAMED} is {shown}: it must be an absolute path, such as \"$PWD/{shown}\""));
    }
    if !dir.join(ARCHIVE).is_file() {
        stop(&format!(
            "{NAMED} is {shown}, which has no {ARCHIVE}: run `scripts/static-archive` in the repository, which writes it \
             to target/staticlib, or unset the variable"
        ));
    }
    dir
}

/// The folder that rt writes to: the package is rust/apfelruder of the repository.
fn repository_dir() -> PathBuf {
    let package = env::var_os("CARGO_MANIFEST_DIR").expect("cargo names the package's folder");
    let root = Path::new(&package).ancestors().nth(2).expect("the package is two folders down in the repository");
    let dir = root.join("target").join("staticlib");
    let machine = env::var("CARGO_CFG_TARGET_ARCH").unwrap_or_default();
    if machine != "x86_64" {
        warn(&format!(
            "the archive that rt writes is for x86-64, and this build is for {machine}: let {NAMED} name a folder with an \
             {ARCHIVE} for it (`scripts/native-archive` makes one in target/native)"
        ));
    } else if !dir.join(ARCHIVE).is_file() {
        warn(&format!(
            "{} is missing: checking works, linking will not. Run `scripts/static-archive` in the repository, or let \
             {NAMED} name the folder that has it",
            dir.join(ARCHIVE).display()
        ));
    }
    dir
}

fn warn(what: &str) {
    println!("cargo:warning={what}");
}

fn stop(what: &str) -> ! {
    eprintln!("apfelruder: {what}");
    process::exit(1);
}
