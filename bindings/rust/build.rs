//! Links libpromql.a: that of the folder in PROMQL_LIB_DIR, or of the target's processor that of `lib/` beside this file, or in a checkout
//! that of its `dist/`.

use std::env;
use std::path::PathBuf;

/// The folder of the library for the processor that is built for.
fn released() -> PathBuf {
    let here = PathBuf::from(env::var_os("CARGO_MANIFEST_DIR").expect("cargo sets it"));
    let processor = env::var("CARGO_CFG_TARGET_ARCH").expect("cargo sets it");
    let own = here.join("lib");
    let top = if own.is_dir() { own } else { here.join("../../dist") };
    let folder = top.join(&processor);
    if !folder.join("libpromql.a").is_file() {
        println!("cargo:warning=no release of libpromql is for the processor {processor}: there is no {}/libpromql.a", folder.display());
        std::process::exit(1);
    }
    folder
}

fn main() {
    println!("cargo:rerun-if-env-changed=PROMQL_LIB_DIR");
    let folder = env::var_os("PROMQL_LIB_DIR").map_or_else(released, PathBuf::from);
    println!("cargo:rerun-if-changed={}", folder.join("libpromql.a").display());
    println!("cargo:rustc-link-search=native={}", folder.display());
    println!("cargo:rustc-link-lib=static=promql");
}
