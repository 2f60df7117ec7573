//! The 48 feasts. A moving one is told as the church year does, by the week counted from Easter week and the weekday in it, with
//! Easter as on the sheet; a fixed one by its date, with Richards' algorithm for the day. Matthias is counted back from 1 March,
//! five days in every year, since the old leap day was put in before him, at 24 February (source document 003, "am 24. Februar als
//! Schalttag", and 002, where a leap year's second letter serves "vom 24. Februar ab"). The first Sunday of Advent is the fourth
//! before Christmas: the last Sunday before 25 December, and three weeks earlier.

use crate::days::{Answer, Date, Style, day_of_date, in_span, style, unchecked_day, weekday};
use crate::sheets::easter;

pub const COUNT: i128 = 48;

const SUN: i128 = 0;
const WED: i128 = 3;
const THU: i128 = 4;
const FRI: i128 = 5;

/// Word, weeks from Easter week, and the weekday from that week's Sunday on.
const MOVING: [(&str, i128, i128); 23] = [
    ("septuagesima", -9, SUN),
    ("sexagesima", -8, SUN),
    ("estomihi", -7, SUN),
    ("ashes", -7, WED),
    ("invocavit", -6, SUN),
    ("reminiscere", -5, SUN),
    ("oculi", -4, SUN),
    ("laetare", -3, SUN),
    ("judica", -2, SUN),
    ("palms", -1, SUN),
    ("cena", -1, THU),
    ("parasceve", -1, FRI),
    ("easter", 0, SUN),
    ("quasimodo", 1, SUN),
    ("misericordia", 2, SUN),
    ("jubilate", 3, SUN),
    ("cantate", 4, SUN),
    ("rogate", 5, SUN),
    ("ascension", 5, THU),
    ("exaudi", 6, SUN),
    ("pentecost", 7, SUN),
    ("trinity", 8, SUN),
    ("corpus", 8, THU),
];

/// Word, month and day of the month, where 0 is the day before the first.
const FIXED: [(&str, i128, i128); 24] = [
    ("circumcision", 1, 1),
    ("epiphany", 1, 6),
    ("candlemas", 2, 2),
    ("matthias", 3, 1 - 5),
    ("annunciation", 3, 25),
    ("mark", 4, 25),
    ("philip", 5, 1),
    ("baptist", 6, 24),
    ("peter", 6, 29),
    ("magdalene", 7, 22),
    ("james", 7, 25),
    ("laurence", 8, 10),
    ("assumption", 8, 15),
    ("bartholomew", 8, 24),
    ("matthew", 9, 21),
    ("michael", 9, 29),
    ("luke", 10, 18),
    ("simon", 10, 28),
    ("saints", 11, 1),
    ("martin", 11, 11),
    ("andrew", 11, 30),
    ("nicholas", 12, 6),
    ("thomas", 12, 21),
    ("christmas", 12, 25),
];

/// The 48 feast words in the order of the feast numbers.
pub fn words() -> impl Iterator<Item = &'static str> {
    let moving = MOVING.iter().map(|&(word, ..)| word);
    let fixed = FIXED.iter().map(|&(word, ..)| word);
    moving.chain(fixed).chain(std::iter::once("advent"))
}

/// The first Sunday of Advent.
fn advent(style: Style, year: i128) -> i128 {
    let christmas = unchecked_day(style, &Date { year, month: 12, day: 25 });
    let sunday = (1..=7).map(|days| christmas - days).find(|&day| weekday(day) == 7);
    sunday.expect("a week has a Sunday") - 21
}

/// The day number of a feast in any year from 1 on.
pub fn unchecked_feast(style: Style, feast: i128, year: i128) -> i128 {
    let place = feast as usize - 1;
    if let Some((_, week, weekday)) = MOVING.get(place) {
        return easter(style, year) + 7 * week + weekday;
    }
    match FIXED.get(place - MOVING.len()) {
        Some(&(_, month, day)) => unchecked_day(style, &Date { year, month, day }),
        None => advent(style, year),
    }
}

pub fn day_of_feast(number: i128, feast: i128, year: i128) -> Answer<i128> {
    let style = style(number)?;
    if !(1..=COUNT).contains(&feast) {
        return Err(1);
    }
    // A year is served where its Christmas has a day.
    day_of_date(number, &Date { year, month: 12, day: 25 })?;
    let moving = feast as usize <= MOVING.len();
    if moving && style != Style::J && year == 1582 {
        return Err(4);
    }
    in_span(style, unchecked_feast(style, feast, year))
}
