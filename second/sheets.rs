//! The year sheet, with nothing of the library's column or of its sum for the epact. Easter is found by the two algorithms
//! of Meeus (Astronomical Algorithms, 2nd edition, chapter 8; the one for G is Butcher's of 1876), and in O by Gauss's rule with 15
//! and 6 for the old calendar (Berechnung des Osterfestes, Monatliche Correspondenz, August 1800; proved in source document 001,
//! section XII), to which the days are added by which G is ahead. The limit is 21 March and Meeus's days to the moon, in G with
//! Oudin's correction of 1940 (as printed in the Explanatory Supplement to the Astronomical Almanac), and in O that of J. The J epact
//! is the moon's age on 22 March, Dionysius's epact, and eleven more, and O has it too. The G epacts are those of Lilius's cycle as
//! Clavius tells it (Romani calendarii a Gregorio XIII restituti explicatio, 1603): the epact of golden number 1 was I in 1582, and
//! the century years since then moved it by the sun's and the moon's equation, as those before would have. Letters are read off the
//! Sundays.

use crate::days::{Answer, Date, Style, style, unchecked_day, weekday};
use std::fmt;
use std::sync::OnceLock;

pub struct Sheet {
    leap: bool,
    golden: i128,
    epact: i128,
    arabic: bool,
    letters: [char; 2],
    limit: i128,
    pub key: i128,
    easter: i128,
}

impl Sheet {
    /// Whether both hold the same, but for Easter's day number.
    pub fn alike(&self, other: &Sheet) -> bool {
        let held = |sheet: &Sheet| {
            let Sheet { leap, golden, epact, arabic, letters, limit, key, easter: _ } = *sheet;
            (leap, golden, epact, arabic, letters, limit, key)
        };
        held(self) == held(other)
    }
}

impl fmt::Display for Sheet {
    fn fmt(&self, f: &mut fmt::Formatter) -> fmt::Result {
        let (leap, arabic) = (i32::from(self.leap), i32::from(self.arabic));
        let [first, second] = self.letters;
        let Sheet { golden, epact, limit, key, easter, .. } = self;
        write!(f, "{leap} {golden} {epact} {arabic} {first} {second} {limit} {key} {easter}")
    }
}

fn day(style: Style, year: i128, month: i128, day: i128) -> i128 {
    unchecked_day(style, &Date { year, month, day })
}

/// The year and one, its remainder by 19, and 19 where nothing remains.
fn golden(year: i128) -> i128 {
    match (year + 1) % 19 {
        0 => 19,
        rest => rest,
    }
}

/// Days from 21 March to the full moon, in G before Oudin's correction.
fn moon_days(style: Style, year: i128) -> i128 {
    let a = year % 19;
    match style {
        Style::J | Style::O => (19 * a + 15) % 30,
        Style::G => {
            let b = year / 100;
            let f = (b + 8) / 25;
            let g = (b - f + 1) / 3;
            (19 * a + b - b / 4 - g + 15) % 30
        }
    }
}

fn limit(style: Style, year: i128) -> i128 {
    let h = moon_days(style, year);
    match style {
        Style::J | Style::O => 21 + h,
        Style::G => 21 + h - h / 28 * (1 - h / 28 * (29 / (h + 1)) * ((21 - year % 19) / 11)),
    }
}

/// Easter in J as a day of March, by Gauss's rule.
fn old_easter(year: i128) -> i128 {
    let (a, b, c) = (year % 19, year % 4, year % 7);
    let d = (19 * a + 15) % 30;
    let e = (2 * b + 4 * c + 6 * d + 6) % 7;
    22 + d + e
}

/// By how many days G is ahead of J from 1 March on.
fn ahead(year: i128) -> i128 {
    year / 100 - year / 400 - 2
}

/// Easter's day number in any year from 1 on.
pub fn easter(style: Style, year: i128) -> i128 {
    let h = moon_days(style, year);
    let by_sum = |sum: i128| day(style, year, sum / 31, sum % 31 + 1);
    match style {
        Style::J => by_sum(h + (2 * (year % 4) + 4 * (year % 7) - h + 34).rem_euclid(7) + 114),
        Style::G => {
            let (e, i, k) = (year / 100 % 4, year % 100 / 4, year % 4);
            let l = (32 + 2 * e + 2 * i - h - k).rem_euclid(7);
            let m = (year % 19 + 11 * h + 22 * l) / 451;
            by_sum(h + l - 7 * m + 114)
        }
        Style::O => day(style, year, 3, old_easter(year) + ahead(year)),
    }
}

/// The last century whose epacts are told.
const LAST_CENTURY: usize = 120_000;

/// By how much the epacts of each century lie above those of century 0, before the remainder by 30.
fn moved() -> Vec<i128> {
    let mut moved = vec![0];
    // The moon's equation comes seven times after 300 years and the eighth time after 400, as to 1800; reckoned back from there it first
    // comes in 200, the fourth of its eight.
    let (mut moon, mut gaps) = (2, 3);
    for century in 1..=LAST_CENTURY {
        let mut epact = moved[century - 1];
        // The sun's equation goes with the three leap days of four that are left out.
        if century % 4 != 0 {
            epact -= 1;
        }
        if century == moon {
            epact += 1;
            gaps += 1;
            moon += if gaps % 8 == 0 { 4 } else { 3 };
        }
        moved.push(epact);
    }
    moved
}

/// The nineteen G epacts in use in the year, by golden number.
fn cycle(year: i128) -> Vec<i128> {
    static MOVED: OnceLock<Vec<i128>> = OnceLock::new();
    let moved = MOVED.get_or_init(moved);
    let first = 1 + moved[year as usize / 100] - moved[15];
    (0..19).map(|years: i128| (first + 11 * years).rem_euclid(30)).collect()
}

/// The epact, and whether it is the Arabic 25, which serves where the cycle has XXIV too.
fn epact(style: Style, year: i128) -> (i128, bool) {
    match style {
        Style::J | Style::O => {
            let age_on_22_march = 14 - (limit(style, year) - 22);
            ((age_on_22_march + 11).rem_euclid(30), false)
        }
        Style::G => {
            let cycle = cycle(year);
            let epact = cycle[(golden(year) - 1) as usize];
            (epact, epact == 25 && cycle.contains(&24))
        }
    }
}

/// 1 January has A and 1 March D in every year.
fn letter_from(first_day: i128, letter: usize) -> char {
    let sunday = (0..7).find(|days| weekday(first_day + days) == 7).expect("a week has a Sunday");
    b"ABCDEFG"[(letter + sunday as usize) % 7] as char
}

/// The sheet of any year from 1 on.
pub fn sheet(style: Style, year: i128) -> Sheet {
    let (epact, arabic) = epact(style, year);
    let (easter, march) = (easter(style, year), day(style, year, 3, 1));
    Sheet {
        leap: march - day(style, year, 2, 28) == 2,
        golden: golden(year),
        epact,
        arabic,
        letters: [letter_from(day(style, year, 1, 1), 0), letter_from(march, 3)],
        limit: limit(style, year),
        key: easter - day(style, year, 3, 21),
        easter,
    }
}

pub fn sheet_of_year(number: i128, year: i128) -> Answer<Sheet> {
    let style = style(number)?;
    let first = if style == Style::J { 1 } else { 1583 };
    if (first..=9999).contains(&year) { Ok(sheet(style, year)) } else { Err(4) }
}
