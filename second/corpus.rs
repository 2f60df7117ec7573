//! Dating lines, good and bad, for readers to be compared by. Each kind of line is a function here, and a line that several kinds
//! make is printed once. The answers are no part of it.

use crate::feasts::words;
use crate::kinds::{Inputs, Kind, kinds, print_sample, quoted};
use crate::lines::{STYLES, WEEKDAYS};
use std::collections::HashSet;
use std::io::Write;
use std::process::ExitCode;

pub type Line = Vec<u8>;

/// Years at the bounds of the styles, years with an Easter that is easily missed, and those of O's least and greatest key.
const YEARS: [i32; 19] =
    [1, 4, 1225, 1581, 1582, 1583, 1587, 1668, 1810, 1818, 1900, 1943, 1954, 1981, 2000, 2024, 2025, 9963, 9999];

/// Accepted lines, from which other kinds make bad ones; they hold every wrapper word.
pub const GOOD: [&str; 16] = [
    "easter 1225 J",
    "29.2 1900 J",
    "1.1 1 J",
    "31.12 9999 G",
    "tue after quasimodo 1587 G",
    "eve of christmas 2025 G",
    "morrow of 15.10 1582 G",
    "octave of corpus 1954 G",
    "wed before 24.2 304 J",
    "sat before thu after matthias 2000 G",
    "fri after morrow of mon before advent 1582 G",
    "sun before octave of eve of 7.4 25 J",
    "tue on or after martin 1587 J",
    "sun on or before 1.1 2025 G",
    "easter 2024 O",
    "mon before 29.2 2000 O",
];

/// The first and last days of the spans: the day at the end, the way into the span, and what follows the day.
const ENDS: [(i32, i32, &str); 6] = [
    (1, 1, ".1 1 J"),
    (31, -1, ".12 9999 J"),
    (15, 1, ".10 1582 G"),
    (31, -1, ".12 9999 G"),
    (15, 1, ".10 1582 O"),
    (31, -1, ".12 9999 O"),
];

/// Every kind of line, in the order of printing.
const KINDS: &[Kind<Corpus>] = kinds![
    good,
    feasts,
    wrapped_feasts,
    wrapped_dates,
    weekdays_from_each_weekday,
    span_ends,
    pairs_at_span_ends,
    out_and_back,
    pairs,
    repeated,
    lengths_about_the_longest,
    too_long,
    dates,
    date_forms,
    date_points,
    year_forms,
    several_refusals,
    lost_days,
    truncated,
    spaced,
    recased,
    foreign_bytes,
    bytes_as_style,
    letters_like_styles,
    bytes_as_line,
    line_ends,
    edited,
    misspelt_feasts,
    misspelt_wrappers,
    wrong_words,
    wrong_order,
    phrase_words_in_every_order,
    words_in_every_order,
    good_words_in_every_order,
    blanks,
    no_anchor,
    random,
    matthias,
    on_or_from_fixed_feasts,
    on_or_from_moving_feasts,
    on_or_from_dates,
    on_or_in_pairs,
    on_or_out_of_the_span,
    on_or_from_lost_days,
    on_or_about_the_longest,
    misspelt_on_or,
    wrong_words_with_on_or,
    on_or_words_in_every_order,
    random_with_on_or,
];

/// The lines in the order in which they came first.
#[derive(Default)]
struct Corpus {
    lines: Vec<Line>,
    seen: HashSet<Line>,
}

impl Corpus {
    fn add(&mut self, line: impl Into<Line>) {
        let line = line.into();
        assert!(!line.contains(&b'\n'), "a line holds no line feed");
        if self.seen.insert(line.clone()) {
            self.lines.push(line);
        }
    }
}

impl Inputs for Corpus {
    fn count(&self) -> usize {
        self.lines.len()
    }

    fn shown(&self, number: usize) -> String {
        quoted(&self.lines[number])
    }
}

/// The fourteen wrappers of a weekday for which the starting day does not count.
fn weekday_wrappers() -> impl Iterator<Item = String> {
    WEEKDAYS.iter().flat_map(|weekday| [format!("{weekday} after"), format!("{weekday} before")])
}

/// The fourteen wrappers of a weekday for which it counts.
fn on_or_wrappers() -> impl Iterator<Item = String> {
    WEEKDAYS.iter().flat_map(|weekday| [format!("{weekday} on or after"), format!("{weekday} on or before")])
}

/// The seventeen wrappers without "on or".
fn wrappers() -> Vec<String> {
    ["eve of", "morrow of", "octave of"].map(String::from).into_iter().chain(weekday_wrappers()).collect()
}

/// All thirty-one wrappers.
pub fn all_wrappers() -> Vec<String> {
    wrappers().into_iter().chain(on_or_wrappers()).collect()
}

/// The good lines themselves.
fn good(corpus: &mut Corpus) {
    GOOD.iter().for_each(|&line| corpus.add(line));
}

/// Every feast in several years of every style.
fn feasts(corpus: &mut Corpus) {
    for year in YEARS {
        for style in STYLES {
            words().for_each(|feast| corpus.add(format!("{feast} {year} {style}")));
        }
    }
}

/// Every wrapper without "on or" before every feast.
fn wrapped_feasts(corpus: &mut Corpus) {
    for wrapper in wrappers() {
        for feast in words() {
            for year in ["1225 J", "1582 G", "2025 G", "2024 O"] {
                corpus.add(format!("{wrapper} {feast} {year}"));
            }
        }
    }
}

/// Every wrapper without "on or" before dates at the ends of months, among them dates that are none.
fn wrapped_dates(corpus: &mut Corpus) {
    for wrapper in wrappers() {
        for date in ["1.1", "28.2", "29.2", "31.2", "1.3", "30.6", "31.12"] {
            for year in ["1900 J", "1900 G", "2000 G", "1582 G", "1900 O", "1582 O"] {
                corpus.add(format!("{wrapper} {date} {year}"));
            }
        }
    }
}

/// Every weekday after and before each day of a week, inside a month and at its end, where that day counts and where it does not.
fn weekdays_from_each_weekday(corpus: &mut Corpus) {
    for wrapper in weekday_wrappers().chain(on_or_wrappers()) {
        for style in STYLES {
            (10..17).for_each(|day| corpus.add(format!("{wrapper} {day}.3 2024 {style}")));
            (25..32).for_each(|day| corpus.add(format!("{wrapper} {day}.12 1999 {style}")));
        }
    }
}

/// The eight days at each end of the spans, bare and behind every wrapper, and feasts near the ends behind every wrapper.
fn span_ends(corpus: &mut Corpus) {
    for (end, way, rest) in ENDS {
        for day in (0..8).map(|days| end + way * days) {
            corpus.add(format!("{day}{rest}"));
            all_wrappers().iter().for_each(|wrapper| corpus.add(format!("{wrapper} {day}{rest}")));
        }
    }
    let feasts = "circumcision 1 J,epiphany 1 J,christmas 9999 J,christmas 9999 G,luke 1582 G,christmas 9999 O,luke 1582 O";
    for feast in feasts.split(',') {
        all_wrappers().iter().for_each(|wrapper| corpus.add(format!("{wrapper} {feast}")));
    }
}

/// Every pair of wrappers without "on or" on the outermost day at each end of the spans; many leave the span and come back.
fn pairs_at_span_ends(corpus: &mut Corpus) {
    for (end, _, rest) in ENDS {
        for outer in wrappers() {
            wrappers().iter().for_each(|inner| corpus.add(format!("{outer} {inner} {end}{rest}")));
        }
    }
}

/// One to five days towards the end of the span and as many back, from the six days nearest to it.
fn out_and_back(corpus: &mut Corpus) {
    for (end, way, rest) in ENDS {
        let (out, back) = if way > 0 { ("eve of ", "morrow of ") } else { ("morrow of ", "eve of ") };
        for count in 1..=5 {
            for day in (0..6).map(|days| end + way * days) {
                corpus.add(format!("{}{}{day}{rest}", back.repeat(count), out.repeat(count)));
            }
        }
    }
}

/// Every pair of wrappers without "on or" far from the ends of the spans.
fn pairs(corpus: &mut Corpus) {
    for outer in wrappers() {
        for inner in wrappers() {
            corpus.add(format!("{outer} {inner} ascension 1225 J"));
            corpus.add(format!("{outer} {inner} 29.2 2000 G"));
            corpus.add(format!("{outer} {inner} ascension 2024 O"));
        }
    }
}

/// Each wrapper said over and over, until the line is too long.
fn repeated(corpus: &mut Corpus) {
    for wrapper in all_wrappers() {
        for rest in ["easter 2025 G", "24.2 1900 J", "easter 2024 O"] {
            let most = 130 / wrapper.len();
            (1..=most).for_each(|count| corpus.add(format!("{}{rest}", format!("{wrapper} ").repeat(count))));
        }
    }
}

/// Chains of wrappers, each with the space behind it, of exactly so many bytes.
fn chains(length: usize) -> impl Iterator<Item = String> {
    let counts = (0..=length / 11).flat_map(move |before| (0..=length / 10).map(move |octave| (before, octave)));
    counts.filter_map(move |(before, octave)| {
        let rest = length.checked_sub(11 * before + 10 * octave)?;
        let chain = "sun before ".repeat(before) + &"octave of ".repeat(octave) + &"eve of ".repeat(rest / 7);
        if rest % 7 == 0 { Some(chain) } else { None }
    })
}

/// Lines of 118 to 122 bytes that the grammar produces.
fn lengths_about_the_longest(corpus: &mut Corpus) {
    for anchor in words().chain(["1.1", "28.2", "31.12"]) {
        for length in 118..=122 {
            let rest = length - anchor.len() - " 1225 J".len();
            for year in ["2025 G", "2024 O"] {
                chains(rest).take(1).for_each(|chain| corpus.add(format!("{chain}{anchor} {year}")));
            }
            chains(rest).last().into_iter().for_each(|chain| corpus.add(format!("{chain}{anchor} 1225 J")));
        }
    }
}

/// Lines of 122 to 400 bytes that the grammar produces, and single words of 110 to 130 bytes.
fn too_long(corpus: &mut Corpus) {
    for length in 122..=400 {
        let end = ["easter 2025 G", "easter 2024 O"][length % 2];
        chains(length - end.len()).take(1).for_each(|chain| corpus.add(chain + end));
    }
    (110..=130).for_each(|length| corpus.add("easter".repeat(30)[..length].to_string()));
}

/// Every day 1 to 31 of every month 1 to 12, in leap years and common ones, and in the year with the first day of G and O.
fn dates(corpus: &mut Corpus) {
    for year in ["1582", "1900", "2000", "2001"] {
        for style in STYLES {
            for month in 1..=12 {
                (1..=31).for_each(|day| corpus.add(format!("{day}.{month} {year} {style}")));
            }
        }
    }
}

/// Days and months that are too small, too large, or written otherwise, such as with an O for a 0.
fn date_forms(corpus: &mut Corpus) {
    let days = "0 00 01 1 001 9 09 29 31 031 32 40 99 100 257 18446744073709551617 +1 -1 x 2/ 2: 1O";
    let months = "0 00 01 1 2 02 001 12 012 13 20 99 112 257 18446744073709551617 +1 -1 i / 1: 1O";
    for day in days.split(' ').chain([""]) {
        for month in months.split(' ').chain([""]) {
            corpus.add(format!("{day}.{month} 2000 G"));
        }
    }
}

/// Other bytes in the point's place, more points, and spaces about the point.
fn date_points(corpus: &mut Corpus) {
    for point in
        ["", ",", ":", "/", "-", "..", "...", " ", ". ", " .", " . ", ".1.", "\0", "\t", "\u{b7}", "\u{ff0e}"]
    {
        corpus.add(format!("2{point}2 2000 G"));
        corpus.add(format!("eve of 24{point}12 1225 J"));
        corpus.add(format!("octave of 7{point}1 2024 O"));
    }
    for date in [".", ".2.2", "2.2.", "2.2.2000", "2.feb", "ii.ii", "easter.2", "2.easter", "easter.", ".easter"] {
        corpus.add(format!("{date} 2000 G"));
    }
}

/// Years at the bounds of each style and of the form, 2025 more than a power of 2, and years that are written otherwise.
fn year_forms(corpus: &mut Corpus) {
    let bounds = "0 00 000 0000 00000 1 9 01 001 0001 00001 10 99 010 100 999 1000 0999 1500 1581 1582 1583 01582 \
        9998 9999 10000 10001 15820 99999 100000 999999";
    let wraps = "67561 4294969321 18446744073709553641 340282366920938463463374607431768213481";
    let others = "+1 -1 +2025 -2025 2025. .2025 2.025 2,025 1e3 0x7e9 2025a a2025 MMXXV i 202/ 202: /025 :025 2O25 O025";
    let words = [bounds, wraps, others].into_iter().flat_map(|list| list.split(' '));
    for year in words.chain(["", " ", "20 25", "\u{662}\u{660}"]) {
        for phrase in ["easter", "michael", "christmas", "eve of 1.1", "15.10", "octave of 31.12"] {
            STYLES.iter().for_each(|style| corpus.add(format!("{phrase} {year} {style}")));
        }
    }
}

/// Lines for which several refusals hold, of which the lowest is given.
fn several_refusals(corpus: &mut Corpus) {
    for wrapper in ["", "eve of ", "octave of morrow of ", "eve off "] {
        for anchor in ["29.2", "31.2", "14.10", "1.1", "32.1", "easter", "epiphany"] {
            for year in ["0", "1", "1000", "1581", "1582", "10000"] {
                ["J", "G", "O", "g", "o"].iter().for_each(|style| corpus.add(format!("{wrapper}{anchor} {year} {style}")));
            }
        }
    }
}

/// 5 to 14 October 1582 behind every wrapper without "on or", in G and O before the span even where the wrapper ends in it.
fn lost_days(corpus: &mut Corpus) {
    for wrapper in wrappers() {
        for style in STYLES {
            (5..=14).for_each(|day| corpus.add(format!("{wrapper} {day}.10 1582 {style}")));
        }
    }
}

/// Every proper prefix and suffix of the good lines.
fn truncated(corpus: &mut Corpus) {
    for line in GOOD {
        for place in 0..line.len() {
            corpus.add(&line[..place]);
            corpus.add(&line[place + 1..]);
        }
    }
}

/// Each space of the good lines doubled, left out or made another byte, and spaces at the ends.
fn spaced(corpus: &mut Corpus) {
    for line in GOOD {
        for (place, _) in line.match_indices(' ') {
            for space in ["", "  ", "   ", "\t", " \t", "\r", "\u{b}", "_", "-", ",", "\u{a0}"] {
                corpus.add(format!("{}{space}{}", &line[..place], &line[place + 1..]));
            }
        }
        for space in [" ", "  ", "\t"] {
            corpus.add(format!("{space}{line}"));
            corpus.add(format!("{line}{space}"));
            corpus.add(format!("{space}{line}{space}"));
        }
    }
}

/// Each letter of the good lines in the other case, and all of them.
fn recased(corpus: &mut Corpus) {
    for line in GOOD {
        corpus.add(line.to_uppercase());
        corpus.add(line.to_lowercase());
        for place in 0..line.len() {
            let mut line: Line = line.into();
            line[place] ^= if line[place].is_ascii_alphabetic() { 0x20 } else { 0 };
            corpus.add(line);
        }
    }
}

/// NUL, DEL and bytes above 127 put before or in place of each byte of every second good line, and at its end; and each byte with 128 added.
fn foreign_bytes(corpus: &mut Corpus) {
    for line in GOOD.iter().step_by(2).map(|line| line.as_bytes()) {
        for byte in [0, 0x7f, 0x80, 0xa0, 0xff] {
            for place in 0..line.len() {
                corpus.add([&line[..place], &[byte], &line[place..]].concat());
                corpus.add([&line[..place], &[byte], &line[place + 1..]].concat());
            }
            corpus.add([line, &[byte]].concat());
        }
        for place in 0..line.len() {
            corpus.add([&line[..place], &[line[place] + 128], &line[place + 1..]].concat());
        }
    }
}

/// Every byte but the line feed.
fn bytes() -> impl Iterator<Item = u8> {
    (0..=255).filter(|&byte| byte != b'\n')
}

/// Every byte in the style letter's place.
fn bytes_as_style(corpus: &mut Corpus) {
    for before in ["easter 1225 ", "1.1 1600 ", "easter 2024 "] {
        bytes().for_each(|byte| corpus.add([before.as_bytes(), &[byte]].concat()));
    }
}

/// In the style letter's place the letters beside those of the styles, others that look like O, and several letters.
fn letters_like_styles(corpus: &mut Corpus) {
    let letters = "F H I K M N P Q C D j g o 0 3 JG GO OJ OO O. (O) \u{41e} \u{39f} \u{d6} \u{d8} \u{ff2f}";
    for letter in letters.split(' ') {
        for phrase in ["easter 2024", "15.10 1582", "29.2 1900", "eve of advent 9999"] {
            corpus.add(format!("{phrase} {letter}"));
        }
    }
}

/// Every byte as a whole line.
fn bytes_as_line(corpus: &mut Corpus) {
    bytes().for_each(|byte| corpus.add([byte]));
}

/// The good lines with what other systems end a line by.
fn line_ends(corpus: &mut Corpus) {
    for line in GOOD {
        for end in ["\r", "\r\r", " \r", "\u{b}", "\u{c}", "\u{85}", "\u{2028}", "\0", "\u{1a}", "\\n", ";", "."] {
            corpus.add(format!("{line}{end}"));
        }
    }
}

/// A text with each byte changed, left out, doubled, and exchanged with the next.
fn misspellings(text: &str) -> Vec<Line> {
    let mut misspelt = vec![];
    for place in 0..text.len() {
        let (before, rest) = text.as_bytes().split_at(place);
        let (first, after) = (rest[0], &rest[1..]);
        misspelt.push([before, &[first + 1], after].concat());
        misspelt.push([before, after].concat());
        misspelt.push([before, &[first, first], after].concat());
        if let [next, after @ ..] = after {
            misspelt.push([before, &[*next, first], after].concat());
        }
    }
    misspelt
}

/// The good lines misspelt, so that numbers and spaces are too.
fn edited(corpus: &mut Corpus) {
    GOOD.iter().flat_map(|line| misspellings(line)).for_each(|line| corpus.add(line));
}

/// Every feast word misspelt.
fn misspelt_feasts(corpus: &mut Corpus) {
    for feast in words() {
        misspellings(feast).into_iter().for_each(|word| corpus.add([&word[..], b" 2025 G"].concat()));
    }
}

/// Every wrapper without "on or" misspelt.
fn misspelt_wrappers(corpus: &mut Corpus) {
    for wrapper in wrappers() {
        misspellings(&wrapper).into_iter().for_each(|words| corpus.add([&words[..], b" easter 1225 J"].concat()));
    }
}

/// Phrases with a word too many or too few, or one that the grammar does not have.
fn wrong_words(corpus: &mut Corpus) {
    let phrases = "mon easter,after easter,before easter,eve easter,of easter,mon of easter,eve after easter,eve before easter,\
        octave after 1.1,eve of of easter,eve eve of easter,mon after after easter,mon mon after easter,mon tue after easter,\
        mon after of easter,eve of after easter,of eve easter,after mon easter,easter eve of,easter of eve,easter mon after,\
        easter easter,easter 1.1,1.1 easter,1.1 1.1,easter palms,easter sun,sun,of,after,before,eve,morrow,octave,eve of,\
        mon after,sun before,eve of mon,mon after eve,eve of morrow,on or after easter,\
        mon or after easter,mon on easter,ann,pasch,M,O,J,G,eve of ann,mon after pasch,M easter,O of easter,\
        eve of M,monday after easter,m after easter,moon after easter,day after easter,vigil of easter,the eve of easter,\
        eve of the easter,in octave of easter,octaves of easter,feast of easter,saint martin,st martin,all saints,\
        corpus christi,palm sun,good fri,ash wed,1 january,1st of 1,2 after easter,easter day,easter and palms,\
        advents,marks,maundy,trinityeve,eveof easter,monafter easter,mon afterbefore easter,eve.of.easter,eve-of easter";
    for phrase in phrases.split(',') {
        corpus.add(format!("{phrase} 2025 G"));
        corpus.add(format!("sun after {phrase} 1225 J"));
    }
}

/// Lines whose year and style are missing, doubled, exchanged or joined.
fn wrong_order(corpus: &mut Corpus) {
    for anchor in ["easter", "24.12", "eve of martin"] {
        for (year, style) in [("1225", "J"), ("2025", "G"), ("2024", "O")] {
            for end in [
                "Y", "S", "S Y", "Y S S", "Y Y S", "S Y S", "Y S Y", "YS", "Y SS", "Y S.", "Y (S)", "in Y S", "Y, S",
                "Y SO", "Y OS", "Y S O", "Y O S", "",
            ] {
                let end = end.replace('Y', year).replace('S', style);
                corpus.add(format!("{anchor} {end}"));
                corpus.add(format!("{anchor}{end}"));
                corpus.add(format!("{end} {anchor}"));
            }
            corpus.add(format!("{year} {anchor} {style}"));
            corpus.add(format!("{style} {anchor} {year}"));
        }
    }
}

/// Every sequence of so many words of a list, with a space between words.
fn sequences(list: &[&str], count: usize) -> Vec<String> {
    let mut sequences: Vec<String> = list.iter().map(|word| word.to_string()).collect();
    for _ in 1..count {
        sequences =
            sequences.iter().flat_map(|begun| list.iter().map(move |word| format!("{begun} {word}"))).collect();
    }
    sequences
}

/// Words of phrases in every order, up to three, before a good end.
fn phrase_words_in_every_order(corpus: &mut Corpus) {
    let list = ["eve", "morrow", "octave", "of", "mon", "after", "before", "laetare", "1.1"];
    let phrases = (1..=3).flat_map(|count| sequences(&list, count));
    phrases.for_each(|phrase| corpus.add(format!("{phrase} 1954 G")));
}

/// Words of every kind in every order, up to three.
fn words_in_every_order(corpus: &mut Corpus) {
    let list = ["eve", "of", "sun", "before", "judica", "1583", "G", "O"];
    (1..=3).flat_map(|count| sequences(&list, count)).for_each(|line| corpus.add(line));
}

/// All words of a good line in every order.
fn good_words_in_every_order(corpus: &mut Corpus) {
    for list in [
        ["sun", "before", "judica", "1583", "G"],
        ["eve", "of", "7.4", "304", "J"],
        ["tue", "after", "9.8", "2024", "O"],
    ] {
        for line in sequences(&list, list.len()) {
            if list.iter().all(|word| line.split(' ').any(|other| other == *word)) {
                corpus.add(line);
            }
        }
    }
}

/// The blank line, and lines of spaces.
fn blanks(corpus: &mut Corpus) {
    (0..=200).for_each(|count| corpus.add(" ".repeat(count)));
}

/// Chains of wrappers before a year and style, with no feast or date between, with and without a space for it.
fn no_anchor(corpus: &mut Corpus) {
    for wrapper in all_wrappers() {
        for count in 1..=3 {
            let chain = format!("{wrapper} ").repeat(count);
            corpus.add(format!("{chain}2025 G"));
            corpus.add(format!("{chain} 2025 G"));
        }
    }
}

/// Knuth's linear congruential generator for MMIX, of which the upper half is used.
pub struct Numbers(pub u64);

impl Numbers {
    /// A number from 0 up to the count, without it.
    pub fn below(&mut self, count: usize) -> usize {
        self.0 = self.0.wrapping_mul(6364136223846793005).wrapping_add(1442695040888963407);
        (self.0 >> 32) as usize % count
    }

    pub fn one_of<T: Clone>(&mut self, list: &[T]) -> T {
        list[self.below(list.len())].clone()
    }
}

/// A phrase of up to twelve of these wrappers, with a year and a style; one year in three is at a bound.
pub fn random_line(numbers: &mut Numbers, wrappers: &[String]) -> String {
    let count = numbers.below(13);
    let mut line: String = (0..count).map(|_| numbers.one_of(wrappers) + " ").collect();
    line += &match numbers.below(2) {
        0 => numbers.one_of(&words().collect::<Vec<_>>()).to_string(),
        _ => format!("{}.{}", 1 + numbers.below(31), 1 + numbers.below(12)),
    };
    let year = match numbers.below(3) {
        0 => numbers.one_of(&[1, 1581, 1582, 1583, 9999]),
        1 => 1 + numbers.below(9999),
        _ => 1583 + numbers.below(600),
    };
    format!("{line} {year} {}", numbers.one_of(&STYLES))
}

/// The line with one byte changed, put in or left out, or two neighbours exchanged.
pub fn random_edit(mut line: Line, numbers: &mut Numbers) -> Line {
    let place = numbers.below(line.len() - 1);
    let byte = match numbers.below(2) {
        0 => numbers.one_of(b" .0123456789abcdefghijklmnopqrstuvwxyzGJO"),
        _ => numbers.one_of(&bytes().collect::<Vec<_>>()),
    };
    match numbers.below(4) {
        0 => line[place] = byte,
        1 => line.insert(place, byte),
        2 => {
            line.remove(place);
        }
        _ => line.swap(place, place + 1),
    }
    line
}

/// So many lines by chance with these wrappers, one in four of them with an edit.
fn random_lines(corpus: &mut Corpus, mut numbers: Numbers, count: usize, wrappers: &[String]) {
    for _ in 0..count {
        let line: Line = random_line(&mut numbers, wrappers).into();
        let edit = numbers.below(4) == 0;
        corpus.add(if edit { random_edit(line, &mut numbers) } else { line });
    }
}

/// Lines by chance without "on or".
fn random(corpus: &mut Corpus) {
    random_lines(corpus, Numbers(1582), 4000, &wrappers());
}

/// Matthias and the dates about him, and wrappers before him and before 24.2, in years that are leap by both rules, by one and by none.
fn matthias(corpus: &mut Corpus) {
    for year in [3, 4, 100, 1500, 1582, 1583, 1584, 1600, 1700, 1900, 2000, 2100, 9996, 9999] {
        for style in STYLES {
            for anchor in ["matthias", "23.2", "24.2", "25.2", "26.2", "28.2", "29.2", "1.3"] {
                corpus.add(format!("{anchor} {year} {style}"));
            }
            for wrapper in wrappers() {
                ["matthias", "24.2"].iter().for_each(|anchor| corpus.add(format!("{wrapper} {anchor} {year} {style}")));
            }
        }
    }
}

/// Every wrapper with "on or" before Martin, in years in which he has each weekday in every style.
fn on_or_from_fixed_feasts(corpus: &mut Corpus) {
    for wrapper in on_or_wrappers() {
        for year in [1583, 1584, 1585, 1586, 1587, 1589, 1593] {
            STYLES.iter().for_each(|style| corpus.add(format!("{wrapper} martin {year} {style}")));
        }
    }
}

/// Every wrapper with "on or" before feasts that keep their weekday, in the styles by turns.
fn on_or_from_moving_feasts(corpus: &mut Corpus) {
    let feasts = "easter advent palms quasimodo pentecost trinity septuagesima ashes cena parasceve ascension corpus";
    for (turn, wrapper) in on_or_wrappers().enumerate() {
        for (place, feast) in feasts.split(' ').enumerate() {
            corpus.add(format!("{wrapper} {feast} {}", ["2025 G", "1225 J", "2024 O"][(turn / 2 + place) % 3]));
        }
    }
}

/// Every wrapper with "on or" before dates at the ends of months, and before Matthias, in a leap year and a common one.
fn on_or_from_dates(corpus: &mut Corpus) {
    for wrapper in on_or_wrappers() {
        for anchor in ["1.1", "24.2", "matthias", "29.2", "1.3", "31.12"] {
            ["1900 J", "1900 G", "1900 O"].iter().for_each(|year| corpus.add(format!("{wrapper} {anchor} {year}")));
        }
    }
}

/// Every pair of wrappers of which one or both have "on or", on feasts and on a date by turns.
fn on_or_in_pairs(corpus: &mut Corpus) {
    let wrappers = all_wrappers();
    let anchors = ["ascension 1225 J", "29.2 2000 G", "trinity 2024 O"];
    for (turn, outer) in wrappers.iter().enumerate() {
        for (place, inner) in wrappers.iter().enumerate() {
            let pair = format!("{outer} {inner}");
            if pair.contains(" on or ") {
                corpus.add(format!("{pair} {}", anchors[(turn + place) % 3]));
            }
        }
    }
}

/// Every weekday on the outermost day at each end of the spans or beyond it, twice, and before and behind a wrapper of days.
fn on_or_out_of_the_span(corpus: &mut Corpus) {
    for (end, way, rest) in ENDS {
        for weekday in WEEKDAYS {
            let out = format!("{weekday} on or {}", if way > 0 { "before" } else { "after" });
            corpus.add(format!("{out} {out} {end}{rest}"));
            for days in ["eve of", "morrow of", "octave of"] {
                corpus.add(format!("{out} {days} {end}{rest}"));
                corpus.add(format!("{days} {out} {end}{rest}"));
            }
        }
    }
}

/// Days before the span of G and O behind every wrapper with "on or", even where the wrapper ends in the span.
fn on_or_from_lost_days(corpus: &mut Corpus) {
    for wrapper in on_or_wrappers() {
        for style in ["G", "O"] {
            [8, 14].iter().for_each(|day| corpus.add(format!("{wrapper} {day}.10 1582 {style}")));
        }
    }
}

/// Lines of 118 to 122 bytes that the grammar produces, with one wrapper with "on or" to five.
fn on_or_about_the_longest(corpus: &mut Corpus) {
    for (anchor, wrapper) in [("easter", "sat on or after "), ("28.2", "thu on or before ")] {
        for (count, length) in (1..=5).flat_map(|count| (118..=122).map(move |length| (count, length))) {
            let repeated = wrapper.repeat(count);
            let rest = length - repeated.len() - anchor.len() - " 2025 G".len();
            for year in ["2025 G", "2024 O"] {
                chains(rest).take(1).for_each(|chain| corpus.add(format!("{repeated}{chain}{anchor} {year}")));
            }
            chains(rest).last().into_iter().for_each(|chain| corpus.add(format!("{chain}{repeated}{anchor} 1225 J")));
        }
    }
}

/// "on or after" and "on or before" behind several weekdays, misspelt.
fn misspelt_on_or(corpus: &mut Corpus) {
    for weekday in ["mon", "thu", "sun"] {
        for words in [" on or after ", " on or before "].into_iter().flat_map(misspellings) {
            corpus.add([weekday.as_bytes(), &words, b"luke 2025 G"].concat());
        }
    }
}

/// Phrases with words of "on or after" and "on or before" that are too many or too few, exchanged, joined, parted or in another place.
fn wrong_words_with_on_or(corpus: &mut Corpus) {
    let phrases = "on or before easter,mon on or easter,mon on after easter,mon or before easter,mon onor after easter,\
        mon on orafter easter,mon onorafter easter,monon or after easter,mononorafter easter,mon on or aftereaster,\
        mon or on after easter,mon on or or after easter,mon on on or after easter,mon on or on or after easter,\
        mon no or after easter,mon on ro after easter,mon on or after after easter,mon on or after before easter,\
        mon on or after on or before easter,mon on or after on or easter,mon after on or easter,mon after or on easter,\
        mon after or before easter,mon after on or before easter,mon on or of easter,mon on or eve of easter,\
        mon on or tue after easter,mon on or tue on or after easter,mon tue on or after easter,mon mon on or after easter,\
        mon on or after mon easter,on mon or after easter,on or mon after easter,mon on or after of easter,mon of on or after easter,\
        mon in or after easter,mon on and after easter,mon on or afterwards easter,mon on or since easter,mon on or by easter,\
        monday on or after easter,m on or after easter,day on or after easter,the mon on or after easter,mon on or after the easter,\
        eve on or of easter,eve on or after easter,eve on or before 1.1,eve of on or after easter,eve of on or easter,\
        on or eve of easter,on eve of easter,or eve of easter,morrow on or of easter,morrow on or after easter,\
        morrow of on or after easter,morrow of on or easter,octave on or of easter,octave on or before 1.1,\
        octave of on or before 1.1,easter on or after,easter on or after mon,easter mon on or after,1.1 on or before sun,\
        on,or,on or,or on,mon on,mon or,mon on or,mon on or after,mon on or before,mon on or after eve,mon on or after eve of,\
        On or after easter,mon On or after easter,mon on Or after easter,mon on or After easter,mon ON OR AFTER easter,\
        mon on or BEFORE 1.1,mon  on or after easter,mon on  or after easter,mon on or  after easter,mon on or after  easter,\
        mon\ton or after easter,mon on\tor after easter,mon on or\tafter easter,mon on or after\teaster, on or after easter,\
        mon on-or after easter,mon on/or after easter,mon on.or.after easter,mon.on or after easter,mon on or-after easter";
    for phrase in phrases.split(',') {
        corpus.add(format!("{phrase} 2025 G"));
        corpus.add(format!("sun on or after {phrase} 1225 J"));
    }
}

/// The words of "on or after" behind a weekday in every order, up to four, before a good end.
fn on_or_words_in_every_order(corpus: &mut Corpus) {
    let phrases = (1..=4).flat_map(|count| sequences(&["mon", "on", "or", "after"], count));
    phrases.for_each(|phrase| corpus.add(format!("{phrase} laetare 1954 G")));
}

/// Lines by chance with all wrappers.
fn random_with_on_or(corpus: &mut Corpus) {
    random_lines(corpus, Numbers(1590), 150, &all_wrappers());
}

/// The lines of all kinds.
pub fn lines() -> Vec<Line> {
    let mut corpus = Corpus::default();
    KINDS.iter().for_each(|(_, add)| add(&mut corpus));
    corpus.lines
}

/// Prints the lines, each ended by a line feed.
pub fn print() -> ExitCode {
    let text: Vec<u8> = lines().into_iter().flat_map(|line| [line, vec![b'\n']].concat()).collect();
    std::io::stdout().write_all(&text).expect("the lines can be printed");
    ExitCode::SUCCESS
}

/// Prints the sample of the lines.
pub fn sample() -> ExitCode {
    print_sample(KINDS, Corpus::default(), "lines")
}
