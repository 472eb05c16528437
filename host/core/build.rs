//! On x86-64 the proved archive is linked. Elsewhere its code cannot be, and a program over it (host/c/serve.c, built by host/x86) is called through
//! pipes instead, so that the tests run the proved code itself on every machine. YLHOVESKO_NATIVE names the folder of another libboundary.a that is
//! linked in its place, as host/native makes it to be timed.

use std::env::var;
use std::path::{Path, PathBuf};
use std::process::Command;

fn main() {
    println!("cargo:rustc-check-cfg=cfg(linked)");
    let host = Path::new(&var("CARGO_MANIFEST_DIR").unwrap()).join("..").canonicalize().unwrap();
    println!("cargo:rerun-if-env-changed=YLHOVESKO_NATIVE");
    let native = var("YLHOVESKO_NATIVE").ok();
    let archives = native.as_ref().map_or(host.join("../target/staticlib"), PathBuf::from);
    let archive = archives.join("libboundary.a");
    assert!(archive.exists(), "no {}: run `host/archive` first", archive.display());
    println!("cargo:rerun-if-changed={}", archive.display());
    if native.is_some() || var("CARGO_CFG_TARGET_ARCH").unwrap() == "x86_64" {
        println!("cargo:rustc-cfg=linked");
        println!("cargo:rustc-link-search=native={}", archives.display());
        println!("cargo:rustc-link-lib=static=boundary");
        return;
    }
    let builder = host.join("x86");
    let source = host.join("c/serve.c");
    let program = Path::new(&var("OUT_DIR").unwrap()).join("serve");
    let built = Command::new(&builder).arg(&source).arg(&program).status().unwrap();
    assert!(built.success(), "{} does not build", source.display());
    for read in [&builder, &source, &host.join("../include/ylhovesko.h")] {
        println!("cargo:rerun-if-changed={}", read.display());
    }
    println!("cargo:rustc-env=YLHOVESKO_SERVE={}", program.display());
}
