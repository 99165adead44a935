//! Links libraspcream.a: the one in RASPCREAM_LIB_DIR, or else the one that `make` in `bindings/c` leaves in its `out`.
use std::env;

fn main() {
    let here = env::var("CARGO_MANIFEST_DIR").expect("cargo sets it");
    let folder = env::var("RASPCREAM_LIB_DIR").unwrap_or_else(|_| format!("{here}/../c/out"));
    println!("cargo:rustc-link-search=native={folder}");
    println!("cargo:rustc-link-lib=static=raspcream");
    println!("cargo:rerun-if-env-changed=RASPCREAM_LIB_DIR");
    println!("cargo:rerun-if-changed={folder}/libraspcream.a");
}
