//! Dating lines, read from their end: the line is cut at its spaces; its last three words are anchor, year and style; and the
//! words before those are taken from the right, two for each wrapper, or four where it has "on or". So the innermost wrapper
//! comes first, and no phrase is read inside another. A weekday is looked for day by day.

use crate::days::{Answer, Date, date_of_day, day_of_date, in_span, style, weekday};
use crate::feasts::{day_of_feast, words};
use std::io::{BufRead, BufWriter, Write};
use std::process::ExitCode;

/// The most bytes that a dating line has.
const LONGEST: usize = 120;

/// The styles' letters, in the order of the styles' numbers.
pub const STYLES: [&str; 3] = ["J", "G", "O"];

/// The weekdays' words, Monday's first.
pub const WEEKDAYS: [&str; 7] = ["mon", "tue", "wed", "thu", "fri", "sat", "sun"];

/// The feast or the date that the wrappers stand before.
enum Anchor {
    Feast(i128),
    DayMonth(i128, i128),
}

/// A move by a number of days, or by single steps of a day up to a weekday, with none where the start counts and is of that weekday.
enum Wrapper {
    Days(i128),
    Weekday { step: i128, weekday: i128, start_counts: bool },
}

/// What a line of the right form says.
struct Parsed {
    /// The wrappers, the innermost first.
    wrappers: Vec<Wrapper>,
    anchor: Anchor,
    year: i128,
    style: i128,
    /// The anchor's first byte in the line, and the number of its bytes.
    part: (usize, usize),
}

/// A number from 1 to `most`, written in digits without leading zeros.
fn number(word: &[u8], most: i128) -> Option<i128> {
    let digits = word.iter().all(u8::is_ascii_digit);
    if !digits || word.is_empty() || word.len() > 4 || word[0] == b'0' {
        return None;
    }
    let value = word.iter().fold(0, |value, digit| 10 * value + i128::from(digit - b'0'));
    if value <= most { Some(value) } else { None }
}

/// The number, from 1 on, of a word in a list of words.
fn place(word: &[u8], mut list: impl Iterator<Item = &'static str>) -> Option<i128> {
    list.position(|listed| listed.as_bytes() == word).map(|before| before as i128 + 1)
}

/// A word with one point is a date or nothing.
fn anchor(word: &[u8]) -> Option<Anchor> {
    match word.split(|&byte| byte == b'.').collect::<Vec<_>>()[..] {
        [day, month] => Some(Anchor::DayMonth(number(day, 31)?, number(month, 12)?)),
        _ => place(word, words()).map(Anchor::Feast),
    }
}

/// The wrapper of a weekday's word and a side.
fn to_weekday(word: &[u8], side: &[u8], start_counts: bool) -> Option<Wrapper> {
    let weekday = place(word, WEEKDAYS.into_iter())?;
    match side {
        b"after" => Some(Wrapper::Weekday { step: 1, weekday, start_counts }),
        b"before" => Some(Wrapper::Weekday { step: -1, weekday, start_counts }),
        _ => None,
    }
}

/// The wrapper in which the words end, and the words before it.
fn last_wrapper<'a, 'b>(words: &'a [&'b [u8]]) -> Option<(Wrapper, &'a [&'b [u8]])> {
    match *words {
        [ref before @ .., b"eve", b"of"] => Some((Wrapper::Days(-1), before)),
        [ref before @ .., b"morrow", b"of"] => Some((Wrapper::Days(1), before)),
        [ref before @ .., b"octave", b"of"] => Some((Wrapper::Days(7), before)),
        [ref before @ .., word, b"on", b"or", side] => Some((to_weekday(word, side, true)?, before)),
        [ref before @ .., word, side] => Some((to_weekday(word, side, false)?, before)),
        _ => None,
    }
}

/// The wrappers that the words are, the innermost first.
fn wrappers(mut words: &[&[u8]]) -> Option<Vec<Wrapper>> {
    let mut wrappers = vec![];
    while !words.is_empty() {
        let (wrapper, before) = last_wrapper(words)?;
        wrappers.push(wrapper);
        words = before;
    }
    Some(wrappers)
}

/// The line's parts, or nothing where the grammar does not produce it.
fn parsed(line: &[u8]) -> Option<Parsed> {
    let cut: Vec<&[u8]> = line.split(|&byte| byte == b' ').collect();
    match &cut[..] {
        [before @ .., named, year, letter] => Some(Parsed {
            wrappers: wrappers(before)?,
            anchor: anchor(named)?,
            year: number(year, 9999)?,
            style: place(letter, STYLES.into_iter())?,
            part: (before.iter().map(|word| word.len() + 1).sum(), named.len()),
        }),
        _ => None,
    }
}

/// The day to which a wrapper moves.
fn moved(day: i128, wrapper: &Wrapper) -> i128 {
    match *wrapper {
        Wrapper::Days(days) => day + days,
        Wrapper::Weekday { step, weekday: wanted, start_counts } => {
            let mut found = if start_counts { day } else { day + step };
            while weekday(found) != wanted {
                found += step;
            }
            found
        }
    }
}

/// The day that the line names; every day on the way is held against the span.
fn day(parsed: &Parsed) -> Answer<i128> {
    let year = parsed.year;
    let first = match parsed.anchor {
        Anchor::Feast(feast) => day_of_feast(parsed.style, feast, year)?,
        Anchor::DayMonth(day, month) => day_of_date(parsed.style, &Date { year, month, day })?,
    };
    let style = style(parsed.style)?;
    parsed.wrappers.iter().try_fold(first, |day, wrapper| in_span(style, moved(day, wrapper)))
}

/// The day, and what the line says.
fn read(line: &[u8]) -> Answer<(i128, Parsed)> {
    if line.is_empty() || line.len() > LONGEST {
        return Err(2);
    }
    let parsed = parsed(line).ok_or(3)?;
    Ok((day(&parsed)?, parsed))
}

/// Prints for each line the day or the refusal's number, and the part's start and length.
pub fn answer(lines: impl BufRead) -> ExitCode {
    for line in lines.split(b'\n') {
        match read(&line.expect("the lines can be read")) {
            Ok((day, Parsed { part: (start, length), .. })) => println!("{day} {start} {length}"),
            Err(refusal) => println!("{refusal} 0 0"),
        }
    }
    ExitCode::SUCCESS
}

/// The day, or the refusal's number.
pub fn day_or_refusal(line: &[u8]) -> i128 {
    read(line).map_or_else(i128::from, |(day, _)| day)
}

/// The day, its weekday, and its date in the line's style.
fn told(line: &[u8]) -> Answer<String> {
    let (day, Parsed { style, .. }) = read(line)?;
    let Date { year, month, day: of_month } = date_of_day(style, day)?;
    Ok(format!("{day} {} {of_month}.{month} {year} {}", weekday(day), STYLES[style as usize - 1]))
}

/// What the program must print for a line: 0 and what is told, or the refusal's number alone.
pub fn printed(line: &[u8]) -> String {
    told(line).map_or_else(|refusal| refusal.to_string(), |told| format!("0 {told}"))
}

/// Prints for each line what the program must print.
pub fn run(lines: impl BufRead) -> ExitCode {
    let mut output = BufWriter::new(std::io::stdout().lock());
    for line in lines.split(b'\n') {
        let line = line.expect("the lines can be read");
        writeln!(output, "{}", printed(&line)).expect("the answers can be printed");
    }
    output.flush().expect("the answers can be printed");
    ExitCode::SUCCESS
}
