//! Says where `librosopyat_c.a` is: in the folder that ROSOPYAT_LIBRARY names, or where `rt lib --cpu x86-64` in crates/rosopyat_c writes it.

use std::env;

fn main() {
    println!("cargo:rerun-if-env-changed=ROSOPYAT_LIBRARY");
    let folder = env::var("ROSOPYAT_LIBRARY").unwrap_or_else(|_| env::var("CARGO_MANIFEST_DIR").unwrap() + "/../crates/rosopyat_c/out");
    println!("cargo:rustc-link-search=native={}", folder);
    println!("cargo:rerun-if-changed={}/librosopyat_c.a", folder);
}
