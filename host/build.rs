//! Links the archive of C functions: target/libbench.a beside this file, which ./archive makes, or the one that BENCH_ARCHIVE names.
use std::path::PathBuf;
use std::{env, fs};

fn main() {
    let here = PathBuf::from(env::var("CARGO_MANIFEST_DIR").expect("cargo sets it"));
    let archive = env::var("BENCH_ARCHIVE").map_or(here.join("target/libbench.a"), PathBuf::from);
    println!("cargo:rerun-if-env-changed=BENCH_ARCHIVE");
    println!("cargo:rerun-if-changed={}", archive.display());
    let out = PathBuf::from(env::var("OUT_DIR").expect("cargo sets it"));
    if let Err(why) = fs::copy(&archive, out.join("libbench.a")) {
        panic!("{} cannot be read ({why}): host/archive makes it", archive.display());
    }
    println!("cargo:rustc-link-search=native={}", out.display());
    println!("cargo:rustc-link-lib=static=bench");
}
