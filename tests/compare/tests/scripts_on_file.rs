//! The scripts on file: the answers that stand beside each are those of the model, and replay answers as the model where the engine changes
//! between their lines. tests/programs/run holds the program replay to the answers that stand there.

use compare::compare_on_engines;
use model::script::Program;
use std::fs;
use std::path::{Path, PathBuf};

/// Each script with the file of its answers.
fn scripts() -> Vec<(PathBuf, PathBuf)> {
    let replay = Path::new(env!("CARGO_MANIFEST_DIR")).join("../../crates/replay");
    let files = fs::read_dir(replay.join("scripts")).unwrap().map(|entry| entry.unwrap().path());
    let is_script = |file: &PathBuf| file.extension().is_some_and(|extension| extension == "in");
    let beside = files.filter(is_script).map(|script| (script.clone(), script.with_extension("out")));
    beside.chain([(replay.join("stdin"), replay.join("stdout"))]).collect()
}

#[test]
fn answers_are_those_of_the_model() {
    for (script, answers) in scripts() {
        let right = Program::answers(&fs::read(&script).unwrap());
        let stored = fs::read_to_string(&answers).unwrap_or_else(|error| panic!("{}: {error}", answers.display()));
        assert_eq!(stored.lines().collect::<Vec<_>>(), right, "{}", answers.display());
    }
}

#[test]
fn on_changing_engines() {
    for (script, _) in scripts() {
        compare_on_engines(&fs::read_to_string(&script).unwrap(), &script.display().to_string());
    }
}
