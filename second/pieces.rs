//! Cases of transcripts and of pages in lines `SIZE: PIECE PIECE ..`: the number of bytes that are lent for places, and the text in
//! pieces. A piece is bytes in hexadecimal, or `COUNT*HEX` for so many repetitions of them; no pieces are a text of no bytes.

use crate::days::Answer;
use std::fmt;
use std::fs;
use std::io::{BufRead, BufWriter, Write};
use std::process::ExitCode;

/// How often the bytes come, and the bytes.
pub type Piece = (usize, Vec<u8>);

pub struct Case {
    pub size: usize,
    pub pieces: Vec<Piece>,
}

impl fmt::Display for Case {
    fn fmt(&self, f: &mut fmt::Formatter) -> fmt::Result {
        write!(f, "{}:", self.size)?;
        for (count, bytes) in &self.pieces {
            let repeated = if *count == 1 { String::new() } else { format!("{count}*") };
            write!(f, " {repeated}{}", bytes.iter().map(|byte| format!("{byte:02x}")).collect::<String>())?;
        }
        Ok(())
    }
}

/// The bytes of pairs of hexadecimal digits.
fn bytes(digits: &str) -> Option<Vec<u8>> {
    let value = |digit: &u8| (*digit as char).to_digit(16);
    let byte = |pair: &[u8]| match pair {
        [high, low] => Some((16 * value(high)? + value(low)?) as u8),
        _ => None,
    };
    digits.as_bytes().chunks(2).map(byte).collect()
}

fn piece(word: &str) -> Option<Piece> {
    match word.split_once('*') {
        Some((count, digits)) => Some((count.parse().ok()?, bytes(digits)?)),
        None => Some((1, bytes(word)?)),
    }
}

impl Case {
    /// The case that a line says, or nothing where it says none.
    pub fn read(line: &str) -> Option<Case> {
        let (size, words) = line.split_once(':')?;
        let pieces = words.split_ascii_whitespace().map(piece).collect::<Option<_>>()?;
        Some(Case { size: size.parse().ok()?, pieces })
    }

    pub fn text(&self) -> Vec<u8> {
        self.pieces.iter().flat_map(|(count, bytes)| bytes.repeat(*count)).collect()
    }
}

/// The refusal's number or 0, the number of what a text has, and the numbers of each, where so many places are enough.
pub fn placed<T>(found: Answer<Vec<T>>, places: usize, numbers: impl Fn(&T) -> String) -> String {
    match found.and_then(|found| if places < found.len() { Err(2) } else { Ok(found) }) {
        Ok(found) => {
            let told: String = found.iter().map(|one| format!(" {}", numbers(one))).collect();
            format!("0 {}{told}", found.len())
        }
        Err(refusal) => format!("{refusal} 0"),
    }
}

fn case(line: std::io::Result<String>) -> Case {
    Case::read(&line.expect("the cases can be read")).expect("each line is a case")
}

/// Prints for each case what the two calls on its text answer.
pub fn answer(cases: impl BufRead, answered: fn(&Case) -> String) -> ExitCode {
    let mut output = BufWriter::new(std::io::stdout().lock());
    for line in cases.lines() {
        writeln!(output, "{}", answered(&case(line))).expect("the answers can be printed");
    }
    output.flush().expect("the answers can be printed");
    ExitCode::SUCCESS
}

/// Writes the text of each `step`th case, from the first on, to FOLDER/NUMBER, and what a program must print for it to
/// FOLDER/NUMBER.wanted.
pub fn write_files(step: &str, folder: &str, cases: impl BufRead, program_output: fn(&[u8]) -> String) -> ExitCode {
    let step = step.parse().expect("the step is a number");
    for (before, line) in cases.lines().enumerate().step_by(step) {
        let text = case(line).text();
        let file = format!("{folder}/{}", before + 1);
        fs::write(format!("{file}.wanted"), program_output(&text)).expect("the answers can be written");
        fs::write(file, text).expect("the text can be written");
    }
    ExitCode::SUCCESS
}
