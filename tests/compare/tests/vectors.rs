//! The receipts of lsh_whole against the vectors of Crypto++.

mod receipts;
mod vector_file;

use compare::Random;
use receipts::{assert_receipt, Arguments};
use vector_file::hexadecimal;

const FILES: [&str; 3] = ["lsh256.txt", "lsh512.txt", "lsh512_256.txt"];
const VECTORS: usize = 735;

struct Vector {
    w: u64,
    n: u64,
    message: Vec<u8>,
    digest: Vec<u8>,
}

/// The word size and the digest length of a variant, by the name that the files give it.
fn variant(name: &str) -> (u64, u64) {
    match name {
        "LSH-224" => (32, 224),
        "LSH-256" => (32, 256),
        "LSH-384" => (64, 384),
        "LSH-512" => (64, 512),
        "LSH-512-256" => (64, 256),
        _ => panic!("a variant {name:?}"),
    }
}

/// A message: hexadecimal digits, or `r`, how often to repeat, and what is repeated.
fn message(text: &str) -> Vec<u8> {
    match text.strip_prefix('r') {
        None => hexadecimal(text),
        Some(repeated) => {
            let (count, bytes) = repeated.split_once(' ').expect("what is repeated");
            hexadecimal(bytes).repeat(count.parse().expect("how often it is repeated"))
        }
    }
}

/// The vectors of a file's text. A name holds for all vectors up to the next name, and a message comes before its
/// digest. A line of no known kind fails the test, so that none is passed over by mistake.
fn vectors(text: &str) -> Vec<Vector> {
    let mut vectors = Vec::new();
    let mut name = None;
    let mut pending = None;
    for line in text.lines().filter(|line| !line.is_empty() && *line != "#") {
        let (kind, value) = line.split_once(':').unwrap_or_else(|| panic!("a line {line:?}"));
        let value = value.trim();
        match kind {
            "Name" => name = Some(variant(value)),
            "Message" => pending = Some(message(value)),
            "Digest" => {
                let (w, n) = name.expect("a name before the digest");
                let message = pending.take().expect("a message before the digest");
                vectors.push(Vector { w, n, message, digest: hexadecimal(value) });
            }
            "AlgorithmType" | "Source" | "Comment" | "Test" => (),
            _ => panic!("a line {line:?}"),
        }
    }
    vectors
}

#[test]
fn all_vectors() {
    let vectors: Vec<Vector> = FILES.into_iter().flat_map(|file| vectors(&vector_file::read(file))).collect();
    assert_eq!(vectors.len(), VECTORS);
    let mut random = Random::new(1);
    for Vector { w, n, message, digest } in &vectors {
        assert_receipt(&Arguments { w: *w, n: *n, message, last: 0, e: 0 }, digest, &mut random);
    }
}
