//! The words of the plain reader: every wrapper and feast word in one table, where its first bytes tell its slot, with what it means.

/// A move from a day; the day's remainder by 7 is its weekday, from 0 for Monday.
#[derive(Clone, Copy)]
pub struct Step {
    /// How many days it moves, by the weekday that it leaves.
    pub days: [i8; 8],
    /// The weekday that it reaches, by the one that it leaves.
    pub reaches: [u8; 8],
}

/// A day and month in any year, reckoned from the year's end, or with `early` from the end of the year before.
#[derive(Clone, Copy)]
pub struct Place {
    pub early: bool,
    pub days: i16,
}

/// A wrapper, which is a step, or a feast word, which is a step from a place.
#[derive(Clone, Copy)]
#[repr(align(64))]
pub struct Word {
    /// The bytes, with the space behind them, the first the lowest; of seventeen the last is left out.
    pub text: u128,
    pub mask: u128,
    pub length: u8,
    pub is_wrapper: bool,
    /// Whether the step is taken from Easter's limit, which lies the moon's days behind the place.
    pub hangs_on_easter: bool,
    pub place: Place,
    pub step: Step,
}

/// As many words as slots.
pub type Words = [Word; 256];

pub static WORDS: Words = words();

pub const STAY: Step = by_days(0);

/// What no text agrees with.
const NO_WORD: Word = Word {
    text: 1,
    mask: 0,
    length: 0,
    is_wrapper: false,
    hangs_on_easter: false,
    place: Place { early: false, days: 0 },
    step: STAY,
};

pub const WEEKDAYS: [&str; 7] = ["mon", "tue", "wed", "thu", "fri", "sat", "sun"];
const SUNDAY: i32 = 6;

/// Feasts that hang on Easter, and their days from it.
pub const HUNG: [(&str, i32); 23] = [
    ("septuagesima", -63),
    ("sexagesima", -56),
    ("estomihi", -49),
    ("ashes", -46),
    ("invocavit", -42),
    ("reminiscere", -35),
    ("oculi", -28),
    ("laetare", -21),
    ("judica", -14),
    ("palms", -7),
    ("cena", -3),
    ("parasceve", -2),
    ("easter", 0),
    ("quasimodo", 7),
    ("misericordia", 14),
    ("jubilate", 21),
    ("cantate", 28),
    ("rogate", 35),
    ("ascension", 39),
    ("exaudi", 42),
    ("pentecost", 49),
    ("trinity", 56),
    ("corpus", 60),
];

/// Feasts of a fixed day and month; matthias is kept five days before 1 March.
pub const FIXED: [(&str, i32, u32); 24] = [
    ("circumcision", 1, 1),
    ("epiphany", 6, 1),
    ("candlemas", 2, 2),
    ("matthias", 1 - 5, 3),
    ("annunciation", 25, 3),
    ("mark", 25, 4),
    ("philip", 1, 5),
    ("baptist", 24, 6),
    ("peter", 29, 6),
    ("magdalene", 22, 7),
    ("james", 25, 7),
    ("laurence", 10, 8),
    ("assumption", 15, 8),
    ("bartholomew", 24, 8),
    ("matthew", 21, 9),
    ("michael", 29, 9),
    ("luke", 18, 10),
    ("simon", 28, 10),
    ("saints", 1, 11),
    ("martin", 11, 11),
    ("andrew", 30, 11),
    ("nicholas", 6, 12),
    ("thomas", 21, 12),
    ("christmas", 25, 12),
];

/// So many days for every weekday.
const fn by_days(days: i32) -> Step {
    let mut step = Step { days: [days as i8; 8], reaches: [0; 8] };
    let mut weekday = 0;
    while weekday < 7 {
        step.reaches[weekday] = (weekday as i32 + days).rem_euclid(7) as u8;
        weekday += 1;
    }
    step
}

/// The first such weekday that is at least `least` days later, and `more` days.
const fn to_weekday(wanted: i32, least: i32, more: i32) -> Step {
    let mut step = Step { days: [0; 8], reaches: [(wanted + more).rem_euclid(7) as u8; 8] };
    let mut weekday = 0;
    while weekday < 7 {
        step.days[weekday] = (least + (wanted - weekday as i32 - least).rem_euclid(7) + more) as i8;
        weekday += 1;
    }
    step
}

/// The place of a date, by Zeller's (153 m + 2) / 5 for the days between 1 March and a month's first; 306 are those to the year's end.
pub const fn place(day: i32, month: u32) -> Place {
    let behind_february = ((153 * ((month + 9) % 12) + 2) / 5) as i32 + day;
    Place { early: month < 3, days: (behind_february - 306) as i16 }
}

/// 1 for a weekday and "on or before" at a text's start, 0 for every other word.
pub const fn back(text: u128) -> u64 {
    let is_on = (text >> 32) as u16 == u16::from_le_bytes(*b"on");
    is_on as u64 & (text >> 81) as u64
}

/// The slot of the word at a text's start. Five bytes tell it, and a bit of the sixth, for matthias and matthew; "on or before" has the one
/// beside that of "on or after". The factor was found by trial.
pub const fn slot(text: u128) -> usize {
    let key = text as u64 & 0x08ff_ffff_ffff;
    ((key.wrapping_mul(0x6566_14e8_05ec_13f9) >> 56) ^ back(text)) as usize
}

/// A word of two parts that means nothing yet.
const fn word(first: &str, second: &str) -> Word {
    let mut word = Word { text: 0, ..NO_WORD };
    let mut length = 0;
    while length < first.len() + second.len() {
        let byte = if length < first.len() { first.as_bytes()[length] } else { second.as_bytes()[length - first.len()] };
        if length < 16 {
            word.text |= (byte as u128) << (8 * length);
            word.mask |= 0xff << (8 * length);
        }
        length += 1;
    }
    word.length = length as u8;
    word
}

const fn wrapper(first: &str, second: &str, step: Step) -> Word {
    Word { is_wrapper: true, step, ..word(first, second) }
}

/// The words and one more, in a slot that no other has.
const fn with_slot(mut words: Words, slot: usize, word: Word) -> Words {
    assert!(words[slot].length == 0, "two words have one slot");
    words[slot] = word;
    words
}

/// The words and one more; one of four letters has two slots, since its sixth byte is a digit of the year.
const fn with(words: Words, word: Word) -> Words {
    let words = with_slot(words, slot(word.text), word);
    if word.length == 5 { with_slot(words, slot(word.text | (0x08 << 40)), word) } else { words }
}

const fn words() -> Words {
    let mut words = [NO_WORD; 256];
    words = with(words, wrapper("eve", " of ", by_days(-1)));
    words = with(words, wrapper("morrow", " of ", by_days(1)));
    words = with(words, wrapper("octave", " of ", by_days(7)));
    let mut i = 0;
    while i < WEEKDAYS.len() {
        words = with(words, wrapper(WEEKDAYS[i], " after ", to_weekday(i as i32, 1, 0)));
        words = with(words, wrapper(WEEKDAYS[i], " before ", to_weekday(i as i32, -7, 0)));
        words = with(words, wrapper(WEEKDAYS[i], " on or after ", to_weekday(i as i32, 0, 0)));
        words = with(words, wrapper(WEEKDAYS[i], " on or before ", to_weekday(i as i32, -6, 0)));
        i += 1;
    }
    i = 0;
    while i < HUNG.len() {
        let (name, days) = HUNG[i];
        let step = to_weekday(SUNDAY, 1, days);
        words = with(words, Word { hangs_on_easter: true, place: place(21, 3), step, ..word(name, " ") });
        i += 1;
    }
    i = 0;
    while i < FIXED.len() {
        let (name, day, month) = FIXED[i];
        words = with(words, Word { place: place(day, month), ..word(name, " ") });
        i += 1;
    }
    with(words, Word { place: place(26, 11), step: to_weekday(SUNDAY, 1, 0), ..word("advent", " ") })
}
