//! Days, dates, weekdays and distances by E. G. Richards' algorithm (Explanatory Supplement to the Astronomical
//! Almanac, 3rd edition, section 15.11), which reckons from a year that begins in March and has no table of months.

/// The styles in the order of their numbers; O has the dates of G and the Easter of J.
#[derive(Clone, Copy, PartialEq)]
pub enum Style {
    J,
    G,
    O,
}

pub type Answer<T> = Result<T, u8>;

pub struct Date {
    pub year: i128,
    pub month: i128,
    pub day: i128,
}

pub fn style(number: i128) -> Answer<Style> {
    match number {
        1 => Ok(Style::J),
        2 => Ok(Style::G),
        3 => Ok(Style::O),
        _ => Err(1),
    }
}

/// The day number of a date, also of one that no calendar has.
pub fn unchecked_day(style: Style, date: &Date) -> i128 {
    let h = date.month - 2;
    let g = date.year + 4716 - (12 - h).div_euclid(12);
    let f = (h - 1 + 12).rem_euclid(12);
    let e = (1461 * g).div_euclid(4) + date.day - 1 - 1401;
    let j = e + (153 * f + 2).div_euclid(5);
    match style {
        Style::J => j,
        Style::G | Style::O => j - (3 * (g + 184).div_euclid(100)).div_euclid(4) + 38,
    }
}

fn unchecked_date(style: Style, day: i128) -> Date {
    let f = match style {
        Style::J => day + 1401,
        Style::G | Style::O => day + 1401 + (3 * (4 * day + 274277).div_euclid(146097)).div_euclid(4) - 38,
    };
    let e = 4 * f + 3;
    let h = 5 * e.rem_euclid(1461).div_euclid(4) + 2;
    let month = (h.div_euclid(153) + 2).rem_euclid(12) + 1;
    Date {
        year: e.div_euclid(1461) - 4716 + (14 - month).div_euclid(12),
        month,
        day: h.rem_euclid(153).div_euclid(5) + 1,
    }
}

/// The first served year, the first day and the last.
fn limits(style: Style) -> (i128, i128, i128) {
    match style {
        Style::J => (1, 1721424, 5373557),
        Style::G | Style::O => (1582, 2299161, 5373484),
    }
}

pub fn in_span(style: Style, day: i128) -> Answer<i128> {
    let (_, first, last) = limits(style);
    if (first..=last).contains(&day) { Ok(day) } else { Err(6) }
}

/// A date is one that its own day gives back.
pub fn day_of_date(number: i128, date: &Date) -> Answer<i128> {
    let style = style(number)?;
    if !(limits(style).0..=9999).contains(&date.year) {
        return Err(4);
    }
    let plausible = (1..=12).contains(&date.month) && (1..=31).contains(&date.day);
    let day = unchecked_day(style, date);
    if !plausible || unchecked_date(style, day).month != date.month {
        return Err(5);
    }
    in_span(style, day)
}

pub fn date_of_day(number: i128, day: i128) -> Answer<Date> {
    let style = style(number)?;
    in_span(style, day)?;
    Ok(unchecked_date(style, day))
}

/// 1 January 2000 G, day 2451545, was a Saturday.
pub fn weekday(day: i128) -> i128 {
    (day - 2451545 + 5).rem_euclid(7) + 1
}

pub fn weekday_of_day(number: i128, day: i128) -> Answer<i128> {
    let style = style(number)?;
    in_span(style, day)?;
    Ok(weekday(day))
}

pub fn distance_of_dates(number1: i128, date1: &Date, number2: i128, date2: &Date) -> Answer<i128> {
    let first = day_of_date(number1, date1)?;
    let second = day_of_date(number2, date2)?;
    Ok(second - first)
}
