//! Finds the archive: `SARRIDOK_ARCHIVE`, or where `bindings/archive` writes it.
use std::env;
use std::path::{Path, PathBuf};

fn main() {
    println!("cargo:rerun-if-env-changed=SARRIDOK_ARCHIVE");
    let target = |part: &str| env::var(format!("CARGO_CFG_TARGET_{part}")).expect("cargo says the target");
    let (arch, width) = (target("ARCH"), target("POINTER_WIDTH"));
    assert!(
        arch == "x86_64" && width == "64",
        "the archive links only into x86-64 programs, and this build is for {arch} with {width} bits: use bindings/rust/run-tests, or give cargo --target x86_64-unknown-linux-gnu"
    );
    let archive = match env::var_os("SARRIDOK_ARCHIVE") {
        Some(path) => PathBuf::from(path),
        None => Path::new(env!("CARGO_MANIFEST_DIR")).join("../../target/staticlib/libsarridok_c.a"),
    };
    assert!(archive.is_file(), "{} is missing: run bindings/archive", archive.display());
    println!("cargo:rerun-if-changed={}", archive.display());
    println!(
        "cargo:rustc-link-search=native={}",
        archive.parent().expect("a file stands in a folder").display()
    );
    let file = archive.file_name().and_then(|name| name.to_str()).unwrap_or_default();
    let name = file.strip_prefix("lib").and_then(|name| name.strip_suffix(".a"));
    println!("cargo:rustc-link-lib=static={}", name.expect("the archive's name is lib..a"));
}
