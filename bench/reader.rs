//! A plain reader of lines, written for speed, which the library is measured against. It goes once over a line, from left to right, and
//! looks for a line feed only where the line is refused. A wrapper or feast word is told by one look into the table of words: its first
//! bytes multiplied are its slot, and all of it is compared as one number, but for the space behind "mon on or before". A year too is read
//! as one number. Days come from closed forms, the same for every feast.

use crate::words::{Place, STAY, Step, WORDS, Word, back, place, slot};

/// The most bytes of a line.
pub const LONGEST_LINE: usize = 120;

/// The most wrappers of a line: the shortest has seven bytes, and so has the shortest line without one.
const MOST_WRAPPERS: usize = (LONGEST_LINE - 7) / 7;

/// The refusals of a line.
const LENGTH: u32 = 2;
const FORM: u32 = 3;
const YEAR: u32 = 4;
const DATE: u32 = 5;
const SPAN: u32 = 6;

/// The styles, which are told by their letters: all but the Julian have the Gregorian dates, and all but the Gregorian the Julian Easter.
pub const JULIAN: u8 = b'J';
const GREGORIAN: u8 = b'G';
const OLD_EASTER: u8 = b'O';

/// The first day of the span of Julian dates and of Gregorian ones, and how many follow it.
const JULIAN_SPAN: (u32, u32) = (1721424, 5373557 - 1721424);
const GREGORIAN_SPAN: (u32, u32) = (2299161, 5373484 - 2299161);

/// Days of each month in a common year, by its number.
static LENGTHS: [u32; 13] = [0, 31, 28, 31, 30, 31, 30, 31, 31, 30, 31, 30, 31];

/// How many bytes the wrappers have, each number at the place that the sum of a wrapper's sixth and seventh bytes tells; "on or before" has
/// that of "on or after".
const WRAPPER_LENGTHS: u32 =
    length_at(b"f ", 7) | length_at(b"w ", 10) | length_at(b"e ", 10) | length_at(b"ft", 10) | length_at(b"ef", 11) | length_at(b"n ", 16);

/// The length in four bits at its place; four is taken from each, since then the bits that two of them share are the same.
const fn length_at(told: &[u8; 2], length: u32) -> u32 {
    (length - 4) << ((told[0] + told[1]) % 32)
}

/// The day or the refusal of a line, the letter of its style, and its end.
type Told = (u32, u8, usize);

/// The feast or date of a line.
enum Anchor {
    Feast(&'static Word),
    Date(u32, u32),
}

/// The year at a line's end.
struct Ending {
    year: u32,
    style: u8,
    /// The bytes of year and style.
    length: usize,
}

/// The sixteen bytes at a place of the page, the first the lowest; behind the page's end there are line feeds.
fn sixteen(page: &[u8], at: usize) -> u128 {
    match page[at..].first_chunk() {
        Some(&bytes) => u128::from_le_bytes(bytes),
        None => last_bytes(&page[at..]),
    }
}

/// Fewer than sixteen bytes, and line feeds behind them.
#[cold]
fn last_bytes(rest: &[u8]) -> u128 {
    let mut bytes = [b'\n'; 16];
    bytes[..rest.len()].copy_from_slice(rest);
    u128::from_le_bytes(bytes)
}

/// How many of sixteen bytes stand before the first such byte.
fn before_first(byte: u8, text: u128) -> u32 {
    const ONES: u128 = u128::MAX / 255;
    let other = text ^ (ONES * u128::from(byte));
    (other.wrapping_sub(ONES) & !other & (ONES << 7)).trailing_zeros() / 8
}

/// How many bytes the wrapper at a text's start has, told by four of them, so that the next word need not wait for the table.
fn wrapper_length(text: u128) -> usize {
    let told = ((text >> 40) as u32).wrapping_add((text >> 48) as u32);
    4 + (WRAPPER_LENGTHS.wrapping_shr(told) & 15) as usize + back(text) as usize
}

/// A number of one or two digits at a text's start, the first not 0, and how many bits they have; 0 where there is none.
fn number(text: u64) -> (u32, u32) {
    let first = u32::from((text as u8).wrapping_sub(b'0'));
    let second = u32::from(((text >> 8) as u8).wrapping_sub(b'0'));
    let two = second < 10;
    let value = if two { 10 * first + second } else { first };
    (if first.wrapping_sub(1) < 9 { value } else { 0 }, 8 + 8 * u32::from(two))
}

/// The day and month at a text's start, and how many bytes they have with the space behind them.
fn date(text: u64) -> Option<(u32, u32, usize)> {
    let (day, day_bits) = number(text);
    let (month, month_bits) = number(text >> (day_bits + 8));
    let point = (text >> day_bits) as u8 == b'.';
    let space = (text >> (day_bits + 8 + month_bits)) as u8 == b' ';
    let good = point & space & (day.wrapping_sub(1) < 31) & (month.wrapping_sub(1) < 12);
    good.then_some((day, month, (day_bits + month_bits) as usize / 8 + 2))
}

/// The year and style that are all of a line's rest; the digits become the bytes of one number, and those the year in two steps. Four
/// digits, which most years have, are told without a search for the space.
fn ending(text: u64) -> Option<Ending> {
    let has_four = text & 0xff_f0f0_f0f0 == 0x20_3030_3030;
    let count = if has_four { 4 } else { before_first(b' ', text.into()) };
    let [style, feed] = (text.wrapping_shr(8 * count + 8) as u16).to_le_bytes();
    let digits = ((text ^ 0x3030_3030_3030_3030).wrapping_shl((8 * count).wrapping_neg()) >> 32) as u32;
    let good = ((digits.wrapping_add(0x7676_7676) | digits) & 0x8080_8080 == 0)
        & (text as u8 != b'0')
        & (count.wrapping_sub(1) < 4)
        & ((style == JULIAN) | (style == GREGORIAN) | (style == OLD_EASTER))
        & (feed == b'\n');
    let pairs = (digits.wrapping_mul((10 << 8) + 1) >> 8) & 0x00ff_00ff;
    let year = pairs.wrapping_mul((100 << 16) + 1) >> 16;
    good.then_some(Ending { year, style, length: count as usize + 2 })
}

/// The last day of a year, or of the year before the first.
fn last_day(year: u32, gregorian: bool) -> u32 {
    let julian = 1721423 + 365 * year + year / 4;
    if gregorian { julian + 2 + year / 400 - year / 100 } else { julian }
}

fn day_of_place(place: Place, year: u32, gregorian: bool) -> u32 {
    last_day(year - u32::from(place.early), gregorian).wrapping_add_signed(place.days.into())
}

/// Days from the style's 21 March to Easter's limit, which for the old Easter lies as much later as the Gregorian dates are ahead.
fn moon(year: u32, style: u8) -> u32 {
    let (years, century) = (year % 19, year / 100);
    if style != GREGORIAN {
        let ahead = if style == JULIAN { 0 } else { century - century / 4 - 2 };
        return (19 * years + 15) % 30 + ahead;
    }
    let days = (19 * years + century - century / 4 - (8 * century + 13) / 25 + 15) % 30;
    days - u32::from(days + u32::from(years > 10) > 28)
}

fn is_leap(year: u32, gregorian: bool) -> bool {
    year % 4 == 0 && (!gregorian || year % 100 != 0 || year % 400 == 0)
}

/// The day or the refusal of what a line says.
fn day(wrappers: &[u8], anchor: Anchor, year: u32, style: u8) -> u32 {
    let gregorian = style != JULIAN;
    if gregorian && year < 1582 {
        return YEAR;
    }
    let (mut day, step) = match anchor {
        Anchor::Feast(word) => {
            if gregorian && year == 1582 && word.hangs_on_easter {
                return YEAR;
            }
            let moon = moon(year, style) * u32::from(word.hangs_on_easter);
            (day_of_place(word.place, year, gregorian) + moon, &word.step)
        }
        Anchor::Date(day, month) => {
            if day > LENGTHS[month as usize] && !(day == 29 && is_leap(year, gregorian)) {
                return DATE;
            }
            (day_of_place(place(day as i32, month), year, gregorian), &STAY)
        }
    };
    let (first, more) = if gregorian { GREGORIAN_SPAN } else { JULIAN_SPAN };
    let mut weekday = (day % 7) as usize;
    let mut outside = false;
    let mut take = |step: &Step| {
        day = day.wrapping_add_signed(step.days[weekday % 8].into());
        weekday = step.reaches[weekday % 8].into();
        outside |= day.wrapping_sub(first) > more;
    };
    take(step);
    wrappers.iter().rev().for_each(|&slot| take(&WORDS[usize::from(slot)].step));
    if outside { SPAN } else { day }
}

/// What is told of a line that the grammar does not produce, of no style; before `at` it has no line feed.
fn refused(page: &[u8], start: usize, mut at: usize) -> Told {
    let end = loop {
        let count = before_first(b'\n', sixteen(page, at)) as usize;
        at += count;
        if count < 16 {
            break at;
        }
    };
    let answer = if (1..=LONGEST_LINE).contains(&(end - start)) { FORM } else { LENGTH };
    (answer, 0, end)
}

/// What is told of the line that starts at a place of the page.
pub fn line(page: &[u8], start: usize) -> Told {
    let mut wrappers = [0; MOST_WRAPPERS];
    let mut count = 0;
    let mut at = start;
    let anchor = loop {
        let text = sixteen(page, at);
        let slot = slot(text);
        let word = &WORDS[slot];
        if text & word.mask != word.text {
            let Some((day, month, length)) = date(text as u64) else {
                return refused(page, start, at);
            };
            at += length;
            break Anchor::Date(day, month);
        }
        if !word.is_wrapper {
            at += usize::from(word.length);
            break Anchor::Feast(word);
        }
        if count == MOST_WRAPPERS {
            return refused(page, start, at);
        }
        wrappers[count] = slot as u8;
        count += 1;
        at += wrapper_length(text);
        if page.get(at - 1) != Some(&b' ') {
            return refused(page, start, at - 1);
        }
    };
    let Some(Ending { year, style, length }) = ending(sixteen(page, at) as u64) else {
        return refused(page, start, at);
    };
    let end = at + length;
    let answer = if end - start > LONGEST_LINE { LENGTH } else { day(&wrappers[..count], anchor, year, style) };
    (answer, style, end)
}
