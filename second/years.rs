//! The calls `year STYLE YEAR` of every served year, and lines of them with their answers.

use crate::cases::answered;
use std::io::BufRead;
use std::process::ExitCode;

/// The fields of a sheet, in the order in which a line has them.
pub const FIELDS: [&str; 9] =
    ["leap", "golden number", "epact", "Arabic 25", "first letter", "second letter", "limit", "key", "Easter"];

/// A line `year STYLE YEAR: SHEET; FEASTS`.
pub struct Line<'a> {
    pub style: i128,
    pub year: i128,
    pub sheet: Vec<&'a str>,
    pub feasts: Vec<&'a str>,
}

pub fn parts(line: &str) -> Option<Line<'_>> {
    let (call, answer) = line.split_once(": ")?;
    let (sheet, feasts) = answer.split_once("; ")?;
    match call.split(' ').collect::<Vec<_>>()[..] {
        ["year", style, year] => Some(Line {
            style: style.parse().ok()?,
            year: year.parse().ok()?,
            sheet: sheet.split(' ').collect(),
            feasts: feasts.split(' ').collect(),
        }),
        _ => None,
    }
}

/// The style and year of each call; 1582 has feasts and no sheet in G and in O.
fn calls() -> impl Iterator<Item = (i128, i128)> {
    let years = |style, first| (first..=9999).map(move |year| (style, year));
    years(1, 1).chain(years(2, 1582)).chain(years(3, 1582))
}

fn text(style: i128, year: i128) -> String {
    format!("year {style} {year}")
}

pub fn print() -> ExitCode {
    for (style, year) in calls() {
        println!("{}", text(style, year));
    }
    ExitCode::SUCCESS
}

/// Where two lines of the same call differ first.
fn difference(line: &str, own: &str) -> String {
    let place = |read: &Line, own: &Line| {
        if read.sheet.len() != own.sheet.len() {
            return Some("the sheet".to_string());
        }
        let field = read.sheet.iter().zip(&own.sheet).position(|(read, own)| read != own);
        let feast = read.feasts.iter().zip(&own.feasts).position(|(read, own)| read != own);
        field.map(|i| format!("field {} ({})", i + 1, FIELDS[i])).or_else(|| feast.map(|i| format!("feast {}", i + 1)))
    };
    let found = parts(line).and_then(|read| parts(own).and_then(|own| place(&read, &own)));
    found.unwrap_or_else(|| "the line's form".to_string())
}

/// Fails at the first line that is not the next call with this program's answer.
pub fn compare(lines: impl BufRead) -> ExitCode {
    let mut lines = lines.lines().map(|line| line.expect("the lines can be read"));
    let mut count = 0;
    for (style, year) in calls() {
        let call = text(style, year);
        let own = format!("{call}: {}", answered(&call));
        match lines.next() {
            Some(line) if line == own => count += 1,
            Some(line) => {
                let same_call = line.starts_with(&format!("{call}: "));
                let what = if same_call { difference(&line, &own) } else { "the call".to_string() };
                eprintln!("second: style {style}, year {year}: {what} differs");
                return ExitCode::FAILURE;
            }
            None => {
                eprintln!("second: style {style}, year {year}: the line is missing");
                return ExitCode::FAILURE;
            }
        }
    }
    if let Some(line) = lines.next() {
        eprintln!("second: a line too many after the last year: '{line}'");
        return ExitCode::FAILURE;
    }
    println!("second: {count} years agree");
    ExitCode::SUCCESS
}
