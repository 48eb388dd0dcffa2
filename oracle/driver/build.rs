//! Copies the Rust driver into the build, with the repairs of request 2026-02, and opens it
//! to `probe.rs`.
//!
//! The repairs are `docs/2026-02.patch`; where it does not apply exactly, the build fails.
//! The copy of `rf233.rs` gets one line more at its end: a child module, which sees the
//! driver's private fields. With the feature `unpatched` the copy is the file as it stands
//! in `docs/src`, without the repairs. With the feature `planted` one value of the copy is
//! changed as well. Both are for the runs that show that the comparison finds such a
//! difference.

mod patch;

use std::path::{Path, PathBuf};
use std::{env, fs};

/// The repository's root, from here.
const ROOT: &str = "../..";
const DRIVER: &str = "docs/src/capsules/extra/src/rf233.rs";
const CONSTANTS: &str = "docs/src/capsules/extra/src/rf233_const.rs";
const PATCH: &str = "docs/2026-02.patch";

/// The planted mistake: the startup's write of CSMA_SEED_1 is made with another value.
const PLANTED: (&str, &str) = (
    "RF233Register::CSMA_SEED_1,\n                    CSMA_SEED_1,",
    "RF233Register::CSMA_SEED_1,\n                    CSMA_SEED_1 + 1,",
);

fn main() {
    let home = PathBuf::from(variable("CARGO_MANIFEST_DIR"));
    let out = PathBuf::from(variable("OUT_DIR"));
    let probe = home.join("src/probe.rs");
    let root = home.join(ROOT);
    println!("cargo::rerun-if-changed=build.rs");
    println!("cargo::rerun-if-changed=patch.rs");

    let constants = out.join("rf233_const.rs");
    write(&constants, &read(&root.join(CONSTANTS)));

    let mut driver = read(&root.join(DRIVER));
    if !feature("UNPATCHED") {
        driver = patched(&root, &driver);
    }
    if feature("PLANTED") {
        driver = planted(&driver);
    }
    let copy = out.join("rf233.rs");
    let opening = format!("#[path = {probe:?}] pub mod probe;\n");
    write(&copy, &(driver + &opening));

    // The names and the unused items of the copies are the driver's own affair.
    let modules = format!(
        "#[allow(dead_code, clippy::all)]\n#[path = {constants:?}]\nmod rf233_const;\n\
         #[allow(non_camel_case_types, clippy::all)]\n#[path = {copy:?}]\nmod rf233;\n"
    );
    write(&out.join("rf233_modules.rs"), &modules);
}

/// The driver with the repairs of request 2026-02.
fn patched(root: &Path, driver: &str) -> String {
    let repairs = read(&root.join(PATCH));
    patch::applied(&repairs, DRIVER, driver)
        .unwrap_or_else(|why| panic!("{PATCH} does not apply to {DRIVER}: {why}"))
}

/// The driver with its one planted mistake.
fn planted(driver: &str) -> String {
    let (right, wrong) = PLANTED;
    let found = driver.matches(right).count();
    assert_eq!(
        found, 1,
        "the text to change for the planted mistake is there {found} times"
    );
    driver.replace(right, wrong)
}

fn feature(name: &str) -> bool {
    env::var_os(format!("CARGO_FEATURE_{name}")).is_some()
}

fn variable(name: &str) -> String {
    env::var(name).unwrap_or_else(|error| panic!("cargo sets {name}: {error}"))
}

fn read(path: &Path) -> String {
    println!("cargo::rerun-if-changed={}", path.display());
    fs::read_to_string(path).unwrap_or_else(|error| panic!("{}: {error}", path.display()))
}

fn write(path: &Path, text: &str) {
    fs::write(path, text).unwrap_or_else(|error| panic!("{}: {error}", path.display()))
}
