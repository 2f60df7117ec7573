//! Cases of texts as they are gathered to be stored: each kind of text is a function that adds its cases, each with the number of
//! bytes that are lent for places, and a case that several kinds make is printed once.

use crate::kinds::{Inputs, Kind, quoted_case};
use crate::pieces::Case;
use std::collections::HashSet;
use std::process::ExitCode;

/// Bytes, and how often they come.
pub type Repeated<'a> = (usize, &'a [u8]);

/// The cases in the order in which they came first.
pub struct Stored {
    cases: Vec<String>,
    seen: HashSet<String>,
    /// How often enough bytes were lent, and how often too few.
    turns: (usize, usize),
    /// The bytes of places that a text needs.
    needed: fn(&[u8]) -> usize,
    /// The bytes of a place.
    place: usize,
    /// Bytes that are lent beyond those that a text needs, in turn.
    more: &'static [usize],
}

/// The case of these pieces, without those that have no bytes.
fn case(size: usize, pieces: &[Repeated]) -> Case {
    let pieces = pieces.iter().filter(|(count, bytes)| *count > 0 && !bytes.is_empty());
    Case { size, pieces: pieces.map(|(count, bytes)| (*count, bytes.to_vec())).collect() }
}

impl Stored {
    pub fn new(needed: fn(&[u8]) -> usize, place: usize, more: &'static [usize]) -> Stored {
        Stored { cases: vec![], seen: HashSet::new(), turns: (0, 0), needed, place, more }
    }

    pub fn add_pieces(&mut self, size: usize, pieces: &[Repeated]) {
        let text = case(size, pieces).to_string();
        if self.seen.insert(text.clone()) {
            self.cases.push(text);
        }
    }

    pub fn add(&mut self, size: usize, text: impl AsRef<[u8]>) {
        self.add_pieces(size, &[(1, text.as_ref())]);
    }

    /// The text with as many places as it needs, or more.
    pub fn enough_pieces(&mut self, pieces: &[Repeated]) {
        let more = self.more[self.turns.0 % self.more.len()];
        self.turns.0 += 1;
        self.add_pieces((self.needed)(&case(0, pieces).text()) + more, pieces);
    }

    /// The text, where it needs places, with fewer: a byte less, a place less, or none.
    pub fn few_pieces(&mut self, pieces: &[Repeated]) {
        let needed = (self.needed)(&case(0, pieces).text());
        if needed > 0 {
            let size = [needed - 1, needed - self.place, 0][self.turns.1 % 3];
            self.turns.1 += 1;
            self.add_pieces(size, pieces);
        }
    }

    pub fn enough(&mut self, text: impl AsRef<[u8]>) {
        self.enough_pieces(&[(1, text.as_ref())]);
    }

    pub fn few(&mut self, text: impl AsRef<[u8]>) {
        self.few_pieces(&[(1, text.as_ref())]);
    }

    /// Prints the cases of all these kinds, each in a line.
    pub fn print(mut self, kinds: &[Kind<Stored>]) -> ExitCode {
        kinds.iter().for_each(|(_, add)| add(&mut self));
        self.cases.iter().for_each(|case| println!("{case}"));
        ExitCode::SUCCESS
    }
}

impl Inputs for Stored {
    fn count(&self) -> usize {
        self.cases.len()
    }

    fn shown(&self, number: usize) -> String {
        quoted_case(&Case::read(&self.cases[number]).expect("each line is a case"))
    }
}

/// Every string of so many characters of a list.
pub fn strings(list: &[&str], length: usize) -> Vec<String> {
    let mut strings = vec![String::new()];
    for _ in 0..length {
        strings = strings.iter().flat_map(|begun| list.iter().map(move |next| format!("{begun}{next}"))).collect();
    }
    strings
}

/// A byte less than the most, the most, and a byte more.
pub fn lengths_about(most: usize) -> [usize; 3] {
    [most - 1, most, most + 1]
}

/// So many bytes: letters, and behind them the text as often as it goes.
pub fn filled(length: usize, text: &str) -> [Repeated<'_>; 2] {
    [(length % text.len(), b"a"), (length / text.len(), text.as_bytes())]
}
