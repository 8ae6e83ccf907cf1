//! Tells the linker where libpio.a lies.

use std::env;

fn main() {
    println!("cargo:rerun-if-changed=build.rs");
    println!("cargo:rerun-if-env-changed=PIO_LIB_DIR");
    let directory =
        env::var("PIO_LIB_DIR").expect("PIO_LIB_DIR must name the directory that holds libpio.a");
    println!("cargo:rerun-if-changed={directory}/libpio.a");
    println!("cargo:rustc-link-search=native={directory}");
    println!("cargo:rustc-link-lib=static=pio");
}
