//! The comparison links the proved store: the archives that `tools/archive embed` and
//! `tools/archive public_calls` write. The second is left out without the feature `public_calls`. Between the
//! cases and the first of them lies the header for C: `src/header.c`, which calls its inline functions, is
//! compiled here.

use std::env;
use std::process::Command;

fn main() {
    let folder = concat!(env!("CARGO_MANIFEST_DIR"), "/../target/staticlib");
    header();
    println!("cargo:rustc-link-search=native={folder}");
    link(folder, "embed");
    if env::var_os("CARGO_FEATURE_PUBLIC_CALLS").is_some() {
        link(folder, "public_calls");
    }
}

fn link(folder: &str, archive: &str) {
    println!("cargo:rustc-link-lib=static={archive}");
    println!("cargo:rerun-if-changed={folder}/lib{archive}.a");
}

/// Compiles the C file, with no warning, and links it. It comes before the archive that it calls.
fn header() {
    let room = env::var("OUT_DIR").expect("cargo names a folder");
    let (object, archive) = (format!("{room}/header.o"), format!("{room}/libheader.a"));
    let compiler = env::var("CC").unwrap_or_else(|_| "cc".to_string());
    run(Command::new(compiler)
        .args(["-std=c99", "-Wall", "-Wextra", "-Wpedantic", "-Wconversion", "-Werror", "-O2", "-fPIC"])
        .args(["-I", "../include", "-c", "src/header.c", "-o", &object]));
    run(Command::new("ar").args(["crs", &archive, &object]));
    println!("cargo:rustc-link-search=native={room}");
    println!("cargo:rustc-link-lib=static=header");
    for file in ["../include/chart_store.h", "src/header.c", "build.rs"] {
        println!("cargo:rerun-if-changed={file}");
    }
    println!("cargo:rerun-if-env-changed=CC");
}

fn run(command: &mut Command) {
    let status = command.status();
    assert!(status.as_ref().is_ok_and(|status| status.success()), "{command:?}: {status:?}");
}
