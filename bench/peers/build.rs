//! Links Crypto++, if it is asked for.

use std::env;
use std::process::Command;

fn main() {
    if env::var_os("CARGO_FEATURE_CRYPTOPP").is_some() {
        link_cryptopp();
    }
}

fn link_cryptopp() {
    let source = "src/cryptopp.cpp";
    let built = env::var("OUT_DIR").unwrap();
    let object = format!("{built}/cryptopp.o");
    run("g++", &["-O3", "-Wall", "-Wextra", "-Werror", "-c", source, "-o", &object]);
    run("ar", &["rcs", &format!("{built}/libcryptopp_peer.a"), &object]);
    println!("cargo::rerun-if-changed={source}");
    println!("cargo::rustc-link-search=native={built}");
    for library in ["static=cryptopp_peer", "cryptopp", "stdc++"] {
        println!("cargo::rustc-link-lib={library}");
    }
}

fn run(program: &str, words: &[&str]) {
    let status = Command::new(program).args(words).status();
    assert!(status.is_ok_and(|status| status.success()), "{program} failed");
}
