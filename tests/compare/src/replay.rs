//! The program replay, which makes the calls of a script, and the scripts that are compared with what the model answers.

use crate::{hex, places, Random, Record};
use model::script::{fields, Program};
use std::env;
use std::io::Write as _;
use std::ops::Range;
use std::path::PathBuf;
use std::process::{Command, Stdio};
use std::thread;

/// So much of a line is shown if its answer is wrong.
const FRONT: usize = 100;

/// Runs the program on a script and returns the lines that it prints.
fn replay(script: String) -> Vec<String> {
    let mut program = Command::new(program("replay"))
        .stdin(Stdio::piped())
        .stdout(Stdio::piped())
        .stderr(Stdio::null())
        .spawn()
        .expect("replay does not start: `rt check replay` builds it");
    let mut input = program.stdin.take().unwrap();
    // Both pipes hold little, so that the script is written while the answers are read.
    let writer = thread::spawn(move || input.write_all(script.as_bytes()).expect("replay takes no more of the script"));
    let output = program.wait_with_output().unwrap();
    writer.join().unwrap();
    assert!(output.status.success(), "replay ended with {}", output.status);
    String::from_utf8(output.stdout).unwrap().lines().map(str::to_string).collect()
}

/// A script as it is made, the model that answers it, and the answers that the program has to print, each with the front of its line.
#[derive(Default)]
pub struct Script {
    lines: String,
    model: Program,
    answers: Vec<(String, String)>,
}

impl Script {
    /// Lines of a text, which the model answers. Behind a line " => " may say what stands behind the name in the answer, and the model is
    /// held to it. `[a..b]` stands for the bytes of the sample order from place a to before b, and `[xx*count]` for a byte that is repeated.
    pub fn text(&mut self, text: &str) {
        for line in expanded(text).lines() {
            let (line, stated) = line.split_once(" => ").map_or((line, None), |(line, stated)| (line, Some(stated)));
            let answer = self.line(line);
            if let Some(stated) = stated {
                let said = answer.and_then(|answer| answer.split_once(' '));
                assert_eq!(said.map(|(_, said)| said), Some(stated), "what the model answers to {line}");
            }
        }
    }

    /// A line with its answer, to which the model is held.
    pub fn call(&mut self, line: impl AsRef<str>, answer: impl AsRef<str>) {
        let line = line.as_ref();
        assert_eq!(self.line(line), Some(answer.as_ref()), "what the model answers to {line}");
    }

    /// A line that chooses some engine for the calls after it.
    pub fn engine(&mut self, random: &mut Random) {
        self.call(format!("engine {}", random.engine()), "engine");
    }

    /// A line that is no call.
    pub fn no_call(&mut self, line: &str) {
        let answer = self.line(line).unwrap_or_default();
        assert!(answer.ends_with(": not a call"), "the model answers {answer} to {line}");
    }

    /// What the model answers to the next line.
    fn line(&mut self, line: &str) -> Option<&str> {
        self.lines += line;
        self.lines.push('\n');
        let answer = self.model.line(line.as_bytes())?;
        self.answers.push((line.chars().take(FRONT).collect(), answer));
        self.answers.last().map(|(_, answer)| answer.as_str())
    }

    /// Runs the program on the script, and compares what it prints.
    pub fn compare(self, what: &str) {
        let printed = replay(self.lines);
        assert_eq!(printed.len(), self.answers.len(), "lines printed, {what}");
        for (line, (front, answer)) in printed.iter().zip(&self.answers) {
            assert_eq!(line, answer, "what replay prints for {front}.., {what}");
        }
    }
}

/// Compares what the program prints for a text, as `Script::text` has it, with what the model prints: as it stands, and on changing engines.
pub fn compare_text(text: &str) {
    let mut script = Script::default();
    script.text(text);
    script.compare("a script by hand");

    let text = expanded(text);
    let lines: Vec<&str> = text.lines().map(|line| line.split(" => ").next().unwrap()).collect();
    compare_on_engines(&lines.join("\n"), "a script by hand");
}

/// The same for a script, with an engine at random before each of its lines. These lines are counted too, so that faults have other numbers.
pub fn compare_on_engines(lines: &str, what: &str) {
    let mut random = Random::new(lines.len() as u64);
    let mut script = Script::default();
    for line in lines.split('\n') {
        script.engine(&mut random);
        script.line(line);
    }
    script.compare(&format!("{what}, on changing engines"));
}

/// The text with the digits of what stands in brackets.
fn expanded(text: &str) -> String {
    let mut parts = text.split('[');
    let mut expanded = parts.next().unwrap().to_string();
    for part in parts {
        let (inside, after) = part.split_once(']').expect("an end of the brackets");
        let digits = match (inside.split_once(".."), inside.split_once('*')) {
            (Some((from, to)), _) => hex(&sample(from.parse().unwrap()..to.parse().unwrap())),
            (_, Some((byte, count))) => byte.repeat(count.parse().unwrap()),
            _ => panic!("[{inside}] in a script"),
        };
        expanded += &digits;
        expanded += after;
    }
    expanded
}

/// The bytes at these places of the sample order. None is 0, and its blocks differ.
pub fn sample(places: Range<u64>) -> Vec<u8> {
    places.map(|place| (1 + 7 * place % 251) as u8).collect()
}

/// A record of so many bytes of the sample order, but with the words 0 to 15 as its chain, to which no order may lead.
pub fn sample_record(w: u64, n: u64, total: u64) -> Record {
    let held = sample(total - total % (4 * w)..total);
    Record::none_begun(w, n, total, std::array::from_fn(|word| word as u64), places(&held))
}

/// Where a program of the module is.
pub fn program(name: &str) -> PathBuf {
    match env::var_os("LSH_PROGRAM_DIR") {
        Some(given) => PathBuf::from(given),
        None => PathBuf::from(env!("CARGO_MANIFEST_DIR")).join("../../target/bin"),
    }
    .join(name)
}

/// The line that shows a record.
pub fn record_line(r: &Record) -> String {
    format!("record {}", fields(r))
}

/// The line that makes a record the program's.
pub fn set_line(r: &Record) -> String {
    format!("set {}", fields(r))
}
