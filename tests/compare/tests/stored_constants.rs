//! Of the step constants the module stores the first row of each word size. None of the others stands in its sources, in
//! the archive or in the programs: neither as a table, nor in the code of the compiler, which could work them out too.
//!
//! A word of 32 bits may stand somewhere by chance. In files of this size that happens to one of the 200 constants in
//! about one of two hundred builds, and the message then says which bytes to look at.

use compare::program;
use lsh_ref::Word;
use std::fs;
use std::path::{Path, PathBuf};

const LANES: usize = 8;

/// The bytes of the step constants, lowest first: each row from the one before it by (14).
fn step_constants<W: Word>() -> Vec<[Vec<u8>; LANES]> {
    let mut row = W::SC0;
    let mut rows = Vec::new();
    for _ in 0..W::STEPS {
        rows.push(row.map(|constant| constant.to_u64().to_le_bytes()[..W::BITS / 8].to_vec()));
        row = row.map(|constant| constant.add(constant.rotl(8)));
    }
    rows
}

/// How the sources have a constant.
fn hexadecimal(constant: &[u8]) -> String {
    let digits: String = constant.iter().rev().map(|byte| format!("{byte:02x}")).collect();
    format!("0x{digits}")
}

fn stands_in(part: &[u8], whole: &[u8]) -> bool {
    whole.windows(part.len()).any(|window| window == part)
}

/// The first row must be found, so that the search is known to see constants, and no other constant may be.
fn assert_first_row_alone<W: Word>(place: &str, content: &[u8], written: fn(&[u8]) -> Vec<u8>) {
    for (j, row) in step_constants::<W>().iter().enumerate() {
        for (l, constant) in row.iter().enumerate() {
            let found = stands_in(&written(constant), content);
            let name = format!("SC_{j}[{l}] = {} of w = {}", hexadecimal(constant), W::BITS);
            assert!(found || j > 0, "{name} was not found in {place}");
            assert!(!found || j == 0, "{name} stands in {place}");
        }
    }
}

fn assert_built(file: &Path) {
    let place = file.display().to_string();
    let content = fs::read(file).unwrap_or_else(|error| panic!("{place}: {error}"));
    assert_first_row_alone::<u32>(&place, &content, <[u8]>::to_vec);
    assert_first_row_alone::<u64>(&place, &content, <[u8]>::to_vec);
}

#[test]
fn archive() {
    assert_built(Path::new(env!("LSH_ARCHIVE")));
}

#[test]
fn programs() {
    assert_built(&program("receipt"));
    assert_built(&program("replay"));
}

/// The Rattle files below a folder.
fn sources(folder: &Path) -> Vec<PathBuf> {
    let mut found = Vec::new();
    for entry in fs::read_dir(folder).unwrap() {
        let path = entry.unwrap().path();
        if path.is_dir() {
            found.extend(sources(&path));
        } else if path.extension().is_some_and(|extension| extension == "rt") {
            found.push(path);
        }
    }
    found
}

#[test]
fn code() {
    let crates = Path::new(env!("CARGO_MANIFEST_DIR")).join("../../crates");
    let content: Vec<u8> = sources(&crates).iter().flat_map(|path| fs::read(path).unwrap()).collect();
    let written: fn(&[u8]) -> Vec<u8> = |constant| hexadecimal(constant).into_bytes();
    assert_first_row_alone::<u32>("the sources", &content, written);
    assert_first_row_alone::<u64>("the sources", &content, written);
}
