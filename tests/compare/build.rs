//! Links the module's archive, from the folder LSH_ARCHIVE_DIR or from where rt writes it.

use std::env;
use std::path::PathBuf;

fn main() {
    let folder = match env::var_os("LSH_ARCHIVE_DIR") {
        Some(given) => PathBuf::from(given),
        None => PathBuf::from(env::var_os("CARGO_MANIFEST_DIR").unwrap()).join("../../target/staticlib"),
    };
    let archive = folder.join("liblsh_kiosk.a");
    assert!(archive.exists(), "there is no {}: ./test builds it", archive.display());
    println!("cargo::rerun-if-env-changed=LSH_ARCHIVE_DIR");
    println!("cargo::rerun-if-changed={}", archive.display());
    println!("cargo::rustc-env=LSH_ARCHIVE={}", archive.display()); // for the test that looks into it
    println!("cargo::rustc-link-search=native={}", folder.display());
    println!("cargo::rustc-link-lib=static=lsh_kiosk");
}
