//! Pages of dating lines, cut at every line feed: behind the last one stands a line only where it has bytes.

use crate::days::Answer;
use crate::lines::day_or_refusal;
use crate::pieces::{Case, placed};

/// The most bytes that a page has.
pub const LONGEST: usize = 65536;

/// The bytes of a place, which takes the number of a line.
pub const PLACE: usize = 4;

/// The lines of a page in their order.
pub fn lines_of(page: &[u8]) -> Answer<Vec<&[u8]>> {
    if page.len() > LONGEST {
        return Err(2);
    }
    let mut lines: Vec<&[u8]> = page.split(|&byte| byte == b'\n').collect();
    if lines.last().is_some_and(|last| last.is_empty()) {
        lines.pop();
    }
    Ok(lines)
}

/// The refusal's number or 0, the number of lines, and the day or refusal of each.
pub fn answered(case: &Case) -> String {
    let page = case.text();
    placed(lines_of(&page), case.size / PLACE, |line| day_or_refusal(line).to_string())
}
