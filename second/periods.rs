//! How far the tables repeat: what years have, held against what the years have that come so many years later.

use crate::days::{Date, Style, unchecked_day};
use crate::feasts::{COUNT, unchecked_feast};
use crate::lines::STYLES;
use crate::sheets::sheet;
use std::process::ExitCode;

/// Years of a style, the first, how many and how far apart, and after how many years they are looked at again.
struct Run {
    style: Style,
    later: i128,
    first: i128,
    count: i128,
    step: i128,
}

const fn julian(later: i128, first: i128) -> Run {
    Run { style: Style::J, later, first, count: 532, step: 1 }
}

const fn gregorian(later: i128) -> Run {
    Run { style: Style::G, later, first: 1, count: 10_000, step: 569 }
}

/// After these years everything returns.
const PERIODS: [Run; 4] = [julian(532, 1), julian(532, 9999), julian(532, 1_000_000), gregorian(5_700_000)];

/// The periods divided by each of their primes, after which the key of the first year does not return.
const SHORTER: [Run; 7] = [
    julian(266, 1),
    julian(76, 1),
    julian(28, 1),
    gregorian(2_850_000),
    gregorian(1_900_000),
    gregorian(1_140_000),
    gregorian(300_000),
];

/// After these the keys of many years return, and everything of fewer, so that the two are seen to be counted apart.
const APART: [Run; 1] = [julian(95, 1)];

/// The days of the year on which the feasts are kept, 1 January being the first.
fn feast_days(style: Style, year: i128) -> Vec<i128> {
    let new_year = unchecked_day(style, &Date { year, month: 1, day: 1 });
    (1..=COUNT).map(|feast| unchecked_feast(style, feast, year) - new_year + 1).collect()
}

impl Run {
    fn years(&self) -> impl Iterator<Item = i128> {
        let Run { first, count, step, .. } = *self;
        (0..count).map(move |place| first + step * place)
    }

    fn key(&self, year: i128) -> i128 {
        sheet(self.style, year).key
    }

    fn key_returns(&self, year: i128) -> bool {
        self.key(year) == self.key(year + self.later)
    }

    /// Whether the sheet, but for Easter's day number, and every feast's day of the year are those of the later year.
    fn returns(&self, year: i128) -> bool {
        let later = year + self.later;
        let feasts = feast_days(self.style, year) == feast_days(self.style, later);
        feasts && sheet(self.style, year).alike(&sheet(self.style, later))
    }

    /// In how many years everything returns, and in how many the key does; and the keys of the first year and of its later one.
    fn print(&self) {
        let all = self.years().filter(|&year| self.returns(year)).count();
        let keys = self.years().filter(|&year| self.key_returns(year)).count();
        let letter = STYLES[self.style as usize];
        let Run { later, first, count, step, .. } = *self;
        let (before, after) = (self.key(first), self.key(first + later));
        println!("{letter} {later}: {count} years from {first} on by {step}: all {all}, key {keys}; first {before}, then {after}");
    }
}

/// Prints each run, and fails where a period leaves a year that does not return, or a shorter one the first key.
pub fn print() -> ExitCode {
    PERIODS.iter().chain(&SHORTER).chain(&APART).for_each(Run::print);
    let left = PERIODS.iter().find_map(|run| run.years().find(|&year| !run.returns(year)).map(|year| (run.later, year)));
    if let Some((later, year)) = left {
        eprintln!("second: the year {year} does not return after {later} years");
        return ExitCode::FAILURE;
    }
    if let Some(run) = SHORTER.iter().find(|run| run.key_returns(run.first)) {
        eprintln!("second: the key of the year {} returns after {} years", run.first, run.later);
        return ExitCode::FAILURE;
    }
    ExitCode::SUCCESS
}
