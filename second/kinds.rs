//! Kinds of stored inputs. A kind is a function that adds its inputs to those of the kinds before it, and the function's name is its
//! name. The sample shows a few inputs of each kind in printable characters.

use crate::pieces::{Case, Piece};
use std::process::ExitCode;

pub type Kind<T> = (&'static str, fn(&mut T));

/// The functions, each with its name.
macro_rules! kinds {
    ($($kind:ident),* $(,)?) => {
        &[$((stringify!($kind), $kind)),*]
    };
}
pub(crate) use kinds;

/// The inputs that the kinds have added so far, numbered from 0 on.
pub trait Inputs {
    fn count(&self) -> usize;
    fn shown(&self, number: usize) -> String;
}

/// The most characters that the sample shows of a text.
const SHOWN: usize = 40;

/// The bytes in quotes with Rust's escapes; a longer text is cut, and followed by its length.
pub fn quoted(bytes: &[u8]) -> String {
    let mut shown = String::new();
    for &byte in bytes {
        let next = std::ascii::escape_default(byte).to_string();
        if shown.len() + next.len() > SHOWN {
            return format!("\"{shown}\".. of {} bytes", bytes.len());
        }
        shown += &next;
    }
    format!("\"{shown}\"")
}

/// The case as it is stored, but with its bytes in quotes and not in hexadecimal.
pub fn quoted_case(case: &Case) -> String {
    let piece = |(count, bytes): &Piece| match count {
        1 => quoted(bytes),
        _ => format!("{count}*{}", quoted(bytes)),
    };
    let pieces: Vec<String> = case.pieces.iter().map(piece).collect();
    format!("{}: {}", case.size, if pieces.is_empty() { quoted(b"") } else { pieces.join(" ") })
}

/// Prints how many inputs there are and what they are, and for each kind its name, how many it adds, and the first and the last of
/// these.
pub fn print_sample<T: Inputs>(kinds: &[Kind<T>], mut inputs: T, what: &str) -> ExitCode {
    let mut rows = vec![];
    for (name, add) in kinds {
        let before = inputs.count();
        add(&mut inputs);
        let count = inputs.count();
        assert!(count > before, "a kind adds an input");
        rows.push(format!("{name} ({}): {} to {}", count - before, inputs.shown(before), inputs.shown(count - 1)));
    }
    println!("{} {what}, of {} kinds; a row is KIND (COUNT): FIRST to LAST", inputs.count(), kinds.len());
    rows.iter().for_each(|row| println!("{row}"));
    ExitCode::SUCCESS
}
