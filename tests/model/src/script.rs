//! Scripts: the lines that docs/REPLAY.md describes, and what is printed for them.

use crate::lsh::Chain;
use crate::record::{Outcome, Record};
use crate::Answer;

/// The most bytes of a line, its newline not counted.
const MOST_LINE: usize = 262_144;

/// The largest SIZE of an output.
pub const MOST_OUTPUT: u64 = 4096;

/// A byte of an output before a call.
const UNTOUCHED: u8 = 0xa5;

/// The name of a line, and the function that makes its call: it reads the words behind the name and gives what is printed behind the name, or
/// nothing if the words are not those of the call.
pub type Line = (&'static str, fn(&mut Program, &mut Words) -> Option<String>);

/// What the program keeps.
#[derive(Clone)]
pub struct Program {
    pub record: Record,
    pub roll: Vec<u8>,
    lines: usize,
}

impl Default for Program {
    fn default() -> Program {
        Program { record: Record::ZEROS, roll: Vec::new(), lines: 0 }
    }
}

impl Program {
    /// What is printed for the next line, if anything is.
    pub fn line(&mut self, line: &[u8]) -> Option<String> {
        self.lines += 1;
        let fault = |what| Some(format!("line {}: {what}", self.lines));
        if line.len() > MOST_LINE {
            return fault("too long");
        }
        if line.is_empty() || line[0] == b'#' {
            return None;
        }
        match std::str::from_utf8(line).ok().and_then(|line| self.clone().after_call(line)) {
            Some((after, printed)) => {
                *self = after;
                Some(printed)
            }
            None => fault("not a call"),
        }
    }

    /// The program after a call, and what is printed; nothing if the line is not a call, which changes nothing then.
    fn after_call(mut self, line: &str) -> Option<(Program, String)> {
        let mut words = Words { rest: line.split(' ') };
        let name = words.word()?;
        let (_, call) = crate::LINES.iter().copied().flatten().find(|(called, _)| *called == name)?;
        let printed = call(&mut self, &mut words)?;
        if words.word().is_some() {
            return None;
        }
        let printed = if printed.is_empty() { name.to_string() } else { format!("{name} {printed}") };
        Some((self, printed))
    }

    /// The lines that are printed for a script.
    pub fn answers(script: &[u8]) -> Vec<String> {
        let mut program = Program::default();
        let ended = script.strip_suffix(b"\n").unwrap_or(script);
        ended.split(|&byte| byte == b'\n').filter_map(|line| program.line(line)).collect()
    }

    /// Keeps the record of an outcome and prints its number and count.
    pub fn keep(&mut self, outcome: Outcome) -> String {
        self.record = outcome.next;
        format!("{} {}", outcome.number, outcome.count)
    }
}

/// The words of a line that are not yet read.
pub struct Words<'a> {
    rest: std::str::Split<'a, char>,
}

impl<'a> Words<'a> {
    /// The next word, of any kind.
    pub fn word(&mut self) -> Option<&'a str> {
        self.rest.next()
    }

    pub fn number(&mut self) -> Option<u64> {
        let digits = self.word()?;
        // A sign is no digit.
        digits.bytes().all(|digit| digit.is_ascii_digit()).then(|| digits.parse().ok())?
    }

    pub fn size(&mut self, most: u64) -> Option<usize> {
        self.number().filter(|&size| size <= most).map(|size| size as usize)
    }

    pub fn bytes(&mut self) -> Option<Vec<u8>> {
        match self.word()? {
            "" => None,
            "-" => Some(Vec::new()),
            digits => {
                let digit = |digit: u8| match digit {
                    b'0'..=b'9' => Some(digit - b'0'),
                    b'a'..=b'f' => Some(digit - b'a' + 10),
                    _ => None,
                };
                let pairs = digits.as_bytes().chunks(2);
                pairs.map(|pair| Some(digit(pair[0])? << 4 | digit(*pair.get(1)?)?)).collect()
            }
        }
    }

    pub fn array<const N: usize>(&mut self) -> Option<[u8; N]> {
        self.bytes()?.try_into().ok()
    }

    /// LAST.
    pub fn byte(&mut self) -> Option<u8> {
        self.array().map(|[byte]| byte)
    }

    /// A chain as `set` has it.
    pub fn chain(&mut self) -> Option<Chain> {
        let bytes: [u8; 128] = self.array()?;
        Some(std::array::from_fn(|l| u64::from_be_bytes(bytes[8 * l..][..8].try_into().unwrap())))
    }
}

/// Bytes as a script has them.
pub fn hex(bytes: &[u8]) -> String {
    if bytes.is_empty() {
        return "-".to_string();
    }
    let digit = |value: u8| char::from_digit(u32::from(value), 16).unwrap();
    bytes.iter().flat_map(|byte| [digit(byte >> 4), digit(byte & 15)]).collect()
}

/// The fields of a record, as `record` and `set` have them.
pub fn fields(r: &Record) -> String {
    let words = |chain: &Chain| hex(&chain.iter().flat_map(|word| word.to_be_bytes()).collect::<Vec<u8>>());
    let order = format!("{} {} {} {} {}", r.w, r.n, r.total, words(&r.chain), hex(&r.held));
    format!("{order} {} {} {} {}", r.mark, words(&r.second), hex(&r.back), r.blocks)
}

/// The number and an output of this size after a call that writes the bytes to its front.
pub fn output(written: Answer<Vec<u8>>, size: usize) -> String {
    let mut output = vec![UNTOUCHED; size];
    let number = match written {
        Ok(bytes) => {
            output[..bytes.len()].copy_from_slice(&bytes);
            0
        }
        Err(number) => number,
    };
    format!("{number} {}", hex(&output))
}

/// Yes, no or a number.
pub fn verdict(answer: Answer<bool>) -> String {
    match answer {
        Ok(true) => "0 yes".to_string(),
        Ok(false) => "0 no".to_string(),
        Err(number) => number.to_string(),
    }
}
