//! Lines `CALL NUMBERS: ANSWER`, each answered anew and compared.

use crate::days::{Answer, Date, date_of_day, day_of_date, distance_of_dates, style, weekday_of_day};
use crate::feasts::{COUNT, day_of_feast};
use crate::lines::STYLES;
use crate::sheets::sheet_of_year;
use std::io::BufRead;
use std::process::ExitCode;

/// The most bytes that a call of the writer is lent here.
const LENT: i128 = 16;

fn date(year: i128, month: i128, day: i128) -> Date {
    Date { year, month, day }
}

/// The value, or the refusal's number.
fn one<T>(answer: Answer<T>, show: impl Fn(T) -> String) -> String {
    match answer {
        Ok(value) => show(value),
        Err(refusal) => refusal.to_string(),
    }
}

/// The refusal's number or 0, and the value or 0.
fn two(answer: Answer<i128>) -> String {
    match answer {
        Ok(value) => format!("0 {value}"),
        Err(refusal) => format!("{refusal} 0"),
    }
}

fn feast(style: i128, feast: i128, year: i128) -> String {
    one(day_of_feast(style, feast, year), |n| n.to_string())
}

fn sheet(style: i128, year: i128) -> String {
    one(sheet_of_year(style, year), |sheet| sheet.to_string())
}

/// The sheet, and all feasts in the order of their numbers.
fn year(style: i128, year: i128) -> String {
    let feasts: Vec<String> = (1..=COUNT).map(|number| feast(style, number, year)).collect();
    format!("{}; {}", sheet(style, year), feasts.join(" "))
}

/// The date as it is written, where the buffer has room for the longest, 31.12 9999 J.
fn date_text(number: i128, day: i128, length: i128) -> Answer<String> {
    style(number)?;
    if length < 12 {
        return Err(2);
    }
    let Date { year, month, day } = date_of_day(number, day)?;
    Ok(format!("{day}.{month} {year} {}", STYLES[number as usize - 1]))
}

/// The number of bytes, or the refusal's, and the lent bytes, which were all `#` before.
fn write(style: i128, day: i128, length: i128) -> String {
    let (count, text) = match date_text(style, day, length) {
        Ok(text) => (text.len(), text),
        Err(refusal) => (usize::from(refusal), String::new()),
    };
    let lent = format!("{text:#<width$}", width = length as usize);
    format!("{count} {lent}").trim_end().to_string()
}

/// A number of a call: 1 to 20 digits, and at most 2^64 - 1.
fn number(word: &str) -> Option<i128> {
    let digits = (1..=20).contains(&word.len()) && word.bytes().all(|byte| byte.is_ascii_digit());
    if digits { word.parse::<u64>().ok().map(i128::from) } else { None }
}

/// The answer to a call, or nothing where there is no such call.
fn known(call: &str) -> Option<String> {
    let (name, rest) = call.split_once(' ')?;
    let numbers: Vec<i128> = rest.split(' ').map(number).collect::<Option<_>>()?;
    match (name, &numbers[..]) {
        ("day", &[s, y, m, d]) => Some(one(day_of_date(s, &date(y, m, d)), |n| n.to_string())),
        ("date", &[s, n]) => Some(one(date_of_day(s, n), |d| format!("{}.{} {}", d.day, d.month, d.year))),
        ("weekday", &[s, n]) => Some(two(weekday_of_day(s, n))),
        ("feast", &[s, f, y]) => Some(feast(s, f, y)),
        ("sheet", &[s, y]) => Some(sheet(s, y)),
        ("year", &[s, y]) => Some(year(s, y)),
        ("write", &[s, n, l]) if l <= LENT => Some(write(s, n, l)),
        ("distance", &[s, y, m, d, t, z, n, e]) => {
            Some(two(distance_of_dates(s, &date(y, m, d), t, &date(z, n, e))))
        }
        _ => None,
    }
}

pub fn answered(call: &str) -> String {
    known(call).unwrap_or_else(|| "no such call".to_string())
}

/// Prints each call with its answer.
pub fn answer(calls: impl BufRead) -> ExitCode {
    for call in calls.lines() {
        let call = call.expect("the calls can be read");
        println!("{call}: {}", answered(&call));
    }
    ExitCode::SUCCESS
}

/// Fails at the first line that this program answers otherwise, and where there is no line.
pub fn compare(lines: impl BufRead) -> ExitCode {
    let mut count = 0;
    for line in lines.lines() {
        let line = line.expect("the lines can be read");
        let call = line.split_once(": ").map_or(line.as_str(), |(call, _)| call);
        let own = format!("{call}: {}", answered(call));
        count += 1;
        if line != own {
            let place = line.split(' ').zip(own.split(' ')).take_while(|(read, own)| read == own).count();
            let word = |text: &str| text.split(' ').nth(place).unwrap_or("no word").to_string();
            eprintln!("second: line {count}, '{call}': word {} is '{}', and here '{}'", place + 1, word(&line), word(&own));
            return ExitCode::FAILURE;
        }
    }
    if count == 0 {
        eprintln!("second: there is no line to compare");
        return ExitCode::FAILURE;
    }
    println!("second: {count} answers agree");
    ExitCode::SUCCESS
}
