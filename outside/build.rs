//! Links the static libraries that `bin/build-libs` has put into target/c. A library that is asked for and is not
//! there is an error.
use std::path::Path;

const LIBRARIES: [&str; 9] = [
    "table_kept",
    "small_machine",
    "sample_value",
    "call_log",
    "tally",
    "resolver",
    "tree_table",
    "signal_table",
    "alert_info",
];

fn main() {
    let folder = Path::new(env!("CARGO_MANIFEST_DIR")).join("../target/c/lib");
    println!("cargo:rerun-if-changed=build.rs");
    println!("cargo:rustc-link-search=native={}", folder.display());
    for name in LIBRARIES {
        let asked = format!("CARGO_FEATURE_{}", name.to_uppercase());
        println!("cargo:rerun-if-env-changed={asked}");
        if std::env::var_os(&asked).is_none() {
            continue;
        }
        let archive = folder.join(format!("lib{name}.a"));
        println!("cargo:rerun-if-changed={}", archive.display());
        if !archive.exists() {
            panic!("{} is missing: run bin/build-libs", archive.display());
        }
        println!("cargo:rustc-link-lib=static={name}");
    }
}
