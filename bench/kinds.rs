//! The kinds of lines that are measured, which are the same in every run; the program that has them tells the answer to a line.

use crate::answer;
use crate::random::Random;
use crate::reader::LONGEST_LINE;
use crate::words::{FIXED, HUNG, WEEKDAYS};

/// The least day; what is answered below it is a refusal.
const FIRST_DAY: u32 = 1721424;

/// The first and the last day of each style's span.
const SPAN_ENDS: [&str; 6] = ["1.1 1 J", "31.12 9999 J", "15.10 1582 G", "31.12 9999 G", "15.10 1582 O", "31.12 9999 O"];

/// Each kind with its name.
pub const KINDS: [(&str, fn(&mut Random) -> String); 7] = [
    ("as in printed sources", source),
    ("a mix of all kinds", mixed),
    ("plain dates", date),
    ("feast words alone", feast),
    ("long chains of wrappers", chain),
    ("refused", refused),
    ("chains with on or", chain_with_on_or),
];

fn feast_word(random: &mut Random) -> &'static str {
    match random.among(0, 47) as usize {
        i if i < HUNG.len() => HUNG[i].0,
        i if i < HUNG.len() + FIXED.len() => FIXED[i - HUNG.len()].0,
        _ => "advent",
    }
}

/// A day that its month has in every year.
fn day_month(random: &mut Random) -> String {
    let month = random.among(1, 12);
    let last = if month == 2 { 28 } else { 30 };
    format!("{}.{month}", random.among(1, last))
}

/// Any of the seventeen wrappers without "on or".
fn wrapper(random: &mut Random) -> String {
    match random.among(0, 16) {
        0 => "eve of".into(),
        1 => "morrow of".into(),
        2 => "octave of".into(),
        _ => format!("{} {}", random.one_of(&WEEKDAYS), random.one_of(&["after", "before"])),
    }
}

/// Any of the thirty-one wrappers.
fn any_wrapper(random: &mut Random) -> String {
    if random.among(0, 30) < 17 {
        wrapper(random)
    } else {
        format!("{} on or {}", random.one_of(&WEEKDAYS), random.one_of(&["after", "before"]))
    }
}

/// A wrapper as letters have them, mostly a weekday after.
fn common_wrapper(random: &mut Random) -> String {
    match random.among(0, 9) {
        0 | 1 => "eve of".into(),
        2 => "morrow of".into(),
        3 => "octave of".into(),
        4 => format!("{} before", random.one_of(&WEEKDAYS)),
        _ => format!("{} after", random.one_of(&WEEKDAYS)),
    }
}

/// A year of any style, and its letter; no chain of wrappers leads out of the span from there.
fn year(random: &mut Random) -> String {
    let (first, style) = random.one_of(&[(2, 'J'), (1584, 'G'), (1584, 'O')]);
    format!("{} {style}", random.among(first, 9998))
}

/// A year from 1200 to 1700, mostly J.
fn common_year(random: &mut Random) -> String {
    let year = random.among(1200, 1700);
    let style = if year > 1582 && random.percent(50) { "G" } else { "J" };
    format!("{year} {style}")
}

/// A feast word, alone or behind one wrapper, or seldom a date or a second wrapper.
fn source(random: &mut Random) -> String {
    let anchor = if random.percent(15) { day_month(random) } else { feast_word(random).into() };
    let line = format!("{anchor} {}", common_year(random));
    match random.among(1, 100) {
        1..=50 => line,
        51..=95 => format!("{} {line}", common_wrapper(random)),
        _ => format!("{} {} {line}", common_wrapper(random), common_wrapper(random)),
    }
}

fn date(random: &mut Random) -> String {
    format!("{} {}", day_month(random), year(random))
}

fn feast(random: &mut Random) -> String {
    format!("{} {}", feast_word(random), year(random))
}

/// As many wrappers of a kind as find room before a feast or date.
fn chain_of(wrapper: fn(&mut Random) -> String, random: &mut Random) -> String {
    let mut line = if random.percent(50) { date(random) } else { feast(random) };
    loop {
        let longer = format!("{} {line}", wrapper(random));
        if longer.len() > LONGEST_LINE {
            return line;
        }
        line = longer;
    }
}

fn chain(random: &mut Random) -> String {
    chain_of(wrapper, random)
}

fn chain_with_on_or(random: &mut Random) -> String {
    chain_of(any_wrapper, random)
}

fn mixed(random: &mut Random) -> String {
    let kind = random.one_of(&[source, date, feast, chain, refused]);
    kind(random)
}

/// A line with one byte changed, left out or put in.
fn misspelt(random: &mut Random) -> String {
    let mut line = source(random);
    let at = random.among(0, line.len() as u64 - 1) as usize;
    let other = random.one_of(b"abcdefghijklmnopqrstuvwxyz0123456789 .JGO") as char;
    match random.among(0, 2) {
        0 => line.replace_range(at..=at, other.encode_utf8(&mut [0])),
        1 => line.insert(at, other),
        _ => drop(line.remove(at)),
    }
    line
}

/// A line that may be refused for any of the reasons, mostly for its spelling.
fn doubtful(random: &mut Random) -> String {
    match random.among(0, 13) {
        0 => String::new(),
        1 => format!("{} {}", wrapper(random), chain(random)),
        2 => format!("{} {} {}", feast_word(random), random.among(1, 1600), random.one_of(&["G", "O"])),
        3 => format!("{}.{} {}", random.among(29, 32), random.one_of(&[2, 4, 6, 9, 11, 13]), year(random)),
        4 => format!("{} 1582 {}", feast_word(random), random.one_of(&["G", "O"])),
        5 => format!("{} {} {}", wrapper(random), random.among(1, 31), year(random)),
        6 => format!("{} {}", wrapper(random), random.one_of(&SPAN_ENDS)),
        _ => misspelt(random),
    }
}

/// A line that is refused.
fn refused(random: &mut Random) -> String {
    loop {
        let line = doubtful(random);
        if answer(line.as_bytes()) < FIRST_DAY {
            return line;
        }
    }
}
