//! Finds the port's library, which `rt lib` makes in `crates/driver_bench`, and links it anew where it changed.

fn main() {
    let home = std::env::var("CARGO_MANIFEST_DIR").expect("cargo sets it");
    println!("cargo::rustc-link-search=native={home}/../../crates/driver_bench/out");
    println!("cargo::rerun-if-changed={home}/../../crates/driver_bench/out/libdriver_bench.a");
    println!("cargo::rerun-if-changed=build.rs");
}
