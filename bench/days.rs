//! Measures qv_day against the same in plain Rust; both are called through a pointer. First both must give the same answers to dates of many
//! years, good and bad, to calls with huge numbers, and to every date that is measured.

mod random;
mod times;

use random::Random;
use std::collections::HashSet;
use std::hint::black_box;
use std::process::ExitCode;
use std::time::Instant;
use times::{print_heading, print_times, times};

const DATES: usize = 300_000;
const PART: usize = 1000;
const ROUNDS: usize = 61;

/// The style with Julian dates; all others have the Gregorian ones.
const JULIAN: u64 = 1;

/// The styles' numbers go from 1 to this.
const LAST_STYLE: u64 = 3;

/// The refusals of a date.
const NAME: u32 = 1;
const YEAR: u32 = 4;
const DATE: u32 = 5;
const SPAN: u32 = 6;

/// The first day of the span of Julian dates and of Gregorian ones; no date of a served year is behind the last.
const FIRST_JULIAN: u32 = 1721424;
const FIRST_GREGORIAN: u32 = 2299161;

/// Days of each month in a common year, by its number.
static LENGTHS: [u64; 13] = [0, 31, 28, 31, 30, 31, 30, 31, 31, 30, 31, 30, 31];

/// Years about the bounds of the styles, and about years that only some have as leap years.
const BOUNDING: [u64; 18] = [0, 1, 2, 3, 4, 99, 100, 400, 1500, 1581, 1582, 1583, 1600, 1700, 9996, 9999, 10000, 10001];

unsafe extern "C" {
    fn qv_day(style: u64, year: u64, month: u64, day: u64) -> u32;
}

type Day = unsafe extern "C" fn(u64, u64, u64, u64) -> u32;

const WAYS: [(&str, Day); 2] = [("qv_day", qv_day), ("plain", plain)];

/// The day by the formulas of Neri and Schneider, 'Euclidean affine functions and their application to calendar algorithms', in years that
/// begin with March, so that January and February are the months 13 and 14 of the year before. Nothing branches by the style, which no
/// predictor foresees.
extern "C" fn plain(style: u64, year: u64, month: u64, day: u64) -> u32 {
    let gregorian = style != JULIAN;
    if style.wrapping_sub(1) >= LAST_STYLE {
        return NAME;
    }
    if year < if gregorian { 1582 } else { 1 } || year > 9999 {
        return YEAR;
    }
    if month.wrapping_sub(1) > 11 {
        return DATE;
    }
    let (year, month) = (year as u32, month as u32);
    let is_leap = || year & if gregorian && year % 100 == 0 { 15 } else { 3 } == 0;
    if day.wrapping_sub(1) >= LENGTHS[month as usize] && !(day == 29 && month == 2 && is_leap()) {
        return DATE;
    }
    let early = month < 3;
    let year = year - u32::from(early);
    let month = if early { month + 12 } else { month };
    let centuries = year / 100 * u32::from(gregorian);
    let before = 1721117 + 2 * u32::from(gregorian);
    let number = before + 1461 * year / 4 - centuries + centuries / 4 + ((979 * month - 2919) >> 5) + day as u32;
    if gregorian && number < FIRST_GREGORIAN { SPAN } else { number }
}

fn agreed([style, year, month, day]: [u64; 4]) -> Result<u32, String> {
    let [answer, other] = WAYS.map(|(_, way)| unsafe { way(style, year, month, day) });
    if answer != other {
        return Err(format!("{style} {year} {month} {day}: the plain function has {other}, and qv_day {answer}"));
    }
    Ok(answer)
}

/// The number, or by chance one that has the same low bits.
fn perhaps_huge(number: u64, random: &mut Random) -> u64 {
    if random.percent(25) { number.wrapping_add(random.next() << random.among(8, 63)) } else { number }
}

/// How many calls, good and bad, both answer alike.
fn compared(random: &mut Random) -> Result<usize, String> {
    let mut count = 0;
    let years: Vec<u64> = BOUNDING.into_iter().chain((0..300).map(|_| random.among(1, 9999))).collect();
    for year in years {
        for style in 0..=4 {
            for month in 0..=13 {
                for day in 0..=32 {
                    agreed([style, year, month, day])?;
                    count += 1;
                }
            }
        }
    }
    for _ in 0..1_000_000 {
        let call = [random.among(0, 4), random.among(0, 10001), random.among(0, 13), random.among(0, 32)];
        agreed(call.map(|number| perhaps_huge(number, random)))?;
        count += 1;
    }
    Ok(count)
}

/// Different dates of the styles.
fn dates(styles: &[u16], random: &mut Random) -> Result<Vec<[u16; 4]>, String> {
    let mut seen = HashSet::new();
    let mut dates = Vec::new();
    while dates.len() < DATES {
        let [year, month, day] = [9999, 12, 31].map(|most| random.among(1, most) as u16);
        let date = [random.one_of(styles), year, month, day];
        if agreed(date.map(u64::from))? >= FIRST_JULIAN && seen.insert(date) {
            dates.push(date);
        }
    }
    Ok(dates)
}

fn measure(name: &str, dates: &[[u16; 4]]) {
    let times: [_; 2] = times(ROUNDS, DATES / PART, |way, part| {
        let way = black_box(WAYS[way].1);
        let answered = |date: &[u16; 4]| {
            let [style, year, month, day] = date.map(u64::from);
            unsafe { way(style, year, month, day) }
        };
        let before = Instant::now();
        black_box(dates[part * PART..][..PART].iter().map(answered).fold(0, u32::wrapping_add));
        before.elapsed()
    });
    print_times(name, DATES, &times);
}

fn run() -> Result<(), String> {
    let mut random = Random(11);
    println!("{} calls are answered alike", compared(&mut random)?);
    println!("nanoseconds a call, the least and the median of {ROUNDS} rounds on each of {} parts of {PART} dates", DATES / PART);
    print_heading("dates", &WAYS.map(|(name, _)| name));
    for (name, styles) in [("J, G and O by chance", &[1, 2, 3][..]), ("J alone", &[1]), ("G alone", &[2])] {
        measure(name, &dates(styles, &mut random)?);
    }
    Ok(())
}

fn main() -> ExitCode {
    match run() {
        Ok(()) => ExitCode::SUCCESS,
        Err(message) => {
            eprintln!("days: {message}");
            ExitCode::FAILURE
        }
    }
}
