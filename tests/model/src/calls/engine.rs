//! The choice of an engine (document 02, W8). Both engines give the same chains, so that no other call has to know which one runs the blocks.

use crate::script::{Line, Program, Words};

/// The numbers of the words, which work word by word, and of the groups, which work on four words abreast.
pub const ENGINES: [u64; 2] = [1, 2];

fn engine_line(_: &mut Program, words: &mut Words) -> Option<String> {
    words.number().filter(|number| ENGINES.contains(number))?;
    Some(String::new())
}

pub const LINES: &[Line] = &[("engine", engine_line)];
