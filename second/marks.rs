//! Marks in transcripts, found among characters: the transcript is decoded first, each run of equal brackets is cut into pairs, and
//! a mark is what stands between a pair `[[` and the next pair, where that is `]]`. A place in bytes is the sum of the lengths of
//! the characters before it.

use crate::days::Answer;
use crate::lines::{day_or_refusal, printed};
use crate::pieces::{Case, placed};
use std::io::{Read, Write};
use std::ops::Range;
use std::process::ExitCode;

/// The most bytes that a transcript has.
pub const LONGEST: usize = 65536;

/// The bytes of a place, which takes the five numbers of a mark.
pub const PLACE: usize = 20;

/// Where a mark's text stands.
pub struct Mark {
    bytes: Range<usize>,
    characters: Range<usize>,
}

/// The pairs of brackets, each with its place: a run of equal brackets has a pair for every two of them, from its start on.
fn pairs(characters: &[char]) -> Vec<(usize, char)> {
    let mut pairs = vec![];
    let mut place = 0;
    for run in characters.chunk_by(|one, next| one == next) {
        if ['[', ']'].contains(&run[0]) {
            pairs.extend((0..run.len() / 2).map(|pair| (place + 2 * pair, run[0])));
        }
        place += run.len();
    }
    pairs
}

/// The byte at which each character starts, and behind these the number of all bytes.
fn byte_places(characters: &[char]) -> Vec<usize> {
    let mut places = vec![0];
    for character in characters {
        places.push(places[places.len() - 1] + character.len_utf8());
    }
    places
}

/// The marks of a transcript in their order.
pub fn marks(transcript: &[u8]) -> Answer<Vec<Mark>> {
    if transcript.len() > LONGEST {
        return Err(2);
    }
    let characters: Vec<char> = std::str::from_utf8(transcript).map_err(|_| 9)?.chars().collect();
    let bytes = byte_places(&characters);
    let between = |two: &[(usize, char)]| match *two {
        [(open, '['), (close, ']')] => {
            Some(Mark { bytes: bytes[open + 2]..bytes[close], characters: open + 2..close })
        }
        _ => None,
    };
    Ok(pairs(&characters).windows(2).filter_map(between).collect())
}

/// The start and end of a mark in bytes and in characters.
fn ends(mark: &Mark) -> String {
    let Mark { bytes, characters } = mark;
    format!("{} {} {} {}", bytes.start, bytes.end, characters.start, characters.end)
}

/// The refusal's number or 0, the number of marks, and the five numbers of each.
pub fn answered(case: &Case) -> String {
    let transcript = case.text();
    let number = |mark: &Mark| day_or_refusal(&transcript[mark.bytes.clone()]);
    placed(marks(&transcript), case.size / PLACE, |mark| format!("{} {}", ends(mark), number(mark)))
}

/// What the program must print for a transcript: a line for each mark, or the refusal's number alone.
pub fn program_output(transcript: &[u8]) -> String {
    match marks(transcript) {
        Ok(marks) => {
            let line = |mark: &Mark| format!("{} {}\n", ends(mark), printed(&transcript[mark.bytes.clone()]));
            marks.iter().map(line).collect()
        }
        Err(refusal) => format!("{refusal}\n"),
    }
}

/// Prints what the program must print for the transcript that is read.
pub fn run(mut input: impl Read) -> ExitCode {
    let mut transcript = vec![];
    input.read_to_end(&mut transcript).expect("the transcript can be read");
    std::io::stdout().write_all(program_output(&transcript).as_bytes()).expect("the answers can be printed");
    ExitCode::SUCCESS
}
