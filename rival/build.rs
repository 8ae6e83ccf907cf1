//! Tells the linker where the product's archive lies, when the comparison with it is built.

use std::env;

fn main() {
    println!("cargo:rerun-if-changed=build.rs");
    println!("cargo:rerun-if-env-changed=PIO_LIB_DIR");
    if env::var_os("CARGO_FEATURE_LIBRARY").is_none() {
        return;
    }
    let directory =
        env::var("PIO_LIB_DIR").expect("PIO_LIB_DIR must name the directory that holds libpio.a");
    // The archive becomes a part of what is built here, so a newer archive means building again.
    println!("cargo:rerun-if-changed={directory}/libpio.a");
    println!("cargo:rustc-link-search=native={directory}");
    println!("cargo:rustc-link-lib=static=pio");
}
