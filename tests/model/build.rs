//! Takes every file of src/calls into the model, so that a new kind of calls is one file there and stands in no list.

use std::path::PathBuf;
use std::{env, fs};

fn main() {
    let folder = PathBuf::from(env::var_os("CARGO_MANIFEST_DIR").unwrap()).join("src/calls");
    println!("cargo::rerun-if-changed={}", folder.display());
    let files = fs::read_dir(&folder).unwrap().map(|entry| entry.unwrap().path());
    let mut names: Vec<String> = files.map(|file| file.file_stem().unwrap().to_str().unwrap().to_string()).collect();
    names.sort();

    let module = |name: &String| format!("#[path = {:?}]\npub mod {name};\n", folder.join(name).with_extension("rs"));
    let modules: String = names.iter().map(module).collect();
    let lines: String = names.iter().map(|name| format!("{name}::LINES, ")).collect();
    let text = format!("{modules}const LINES: &[&[crate::script::Line]] = &[{lines}];\n");
    fs::write(PathBuf::from(env::var_os("OUT_DIR").unwrap()).join("calls.rs"), text).unwrap();
}
