//! Transcripts, good and bad, for finders of marks to be compared by, each with the number of bytes that are lent for places.
//! Each kind of transcript is a function here, and a case that several kinds make is printed once. The answers are no part of it.

use crate::corpus::{GOOD, Numbers, all_wrappers, lines, random_line};
use crate::kinds::{Kind, kinds, print_sample};
use crate::marks::{LONGEST, PLACE, marks};
use crate::pieces::Case;
use crate::stored::{Stored, filled, lengths_about, strings};
use std::process::ExitCode;

/// Every kind of transcript, in the order of printing.
const KINDS: &[Kind<Stored>] = kinds![
    examples,
    bracket_strings,
    bracket_runs,
    characters,
    two_characters,
    bounds_of_first_bytes,
    brackets_among_characters,
    lines_in_prose,
    lengths_of_marks,
    line_ends,
    many_marks,
    stored_lines,
    sizes,
    bad_sequences,
    bad_sequences_and_few_places,
    second_bytes,
    first_bytes,
    last_bytes,
    lengths_about_the_longest,
    full_of_marks,
    one_long_mark,
    marks_at_the_ends,
    bad_ends,
    far_too_long,
    random_brackets,
    random_texts,
    random_long_texts,
];

/// Characters of every length: those at the bounds of a length and at the gap, and such as hold a bracket's number in theirs.
const CHARACTERS: &str = "\0\t x\u{7f}\u{80}\u{e9}\u{15b}\u{15d}\u{301}\u{7ff}\u{800}\u{20ac}\u{5b5b}\u{5b5d}\u{d7ff}\
    \u{e000}\u{feff}\u{fffd}\u{ff3b}\u{ffff}\u{10000}\u{1f4dc}\u{10ffff}";

/// Words that stand before a mark, in letters of one to four bytes and with combining marks.
const PROSE: [&str; 8] = [
    "Datum Romae ",
    "Donn\u{e9} \u{e0} Paris, \u{ab}le ",
    "Ge\u{301}ne\u{300}ve\u{327}: ",
    "\u{414}\u{430}\u{43d}\u{43e} ",
    "\u{1f10}\u{3b4}\u{3cc}\u{3b8}\u{3b7} \u{2014} ",
    "\u{65e5}\u{4ed8}\u{300c}",
    "\u{10332}\u{10339}\u{10331}\u{10330}\u{1033d} [sic] ",
    "\u{1f4dc}\u{fe0f}\u{200d}] ",
];

/// Texts for which no day is told, of every refusal.
pub const REFUSED: [&str; 19] = [
    "",
    "octave of octave of octave of octave of octave of octave of octave of octave of octave of octave of octave of easter 12 J",
    "no such line",
    " easter 1225 J",
    "easter 1225 J ",
    "[easter 1225 J",
    "easter 1225 J\n",
    "e\u{301}aster 1225 J",
    "easter 1582 G",
    "1.1 1581 G",
    "29.2 1900 G",
    "31.4 1225 J",
    "eve of 1.1 1 J",
    "14.10 1582 G",
    "easter 2024 o",
    "easter 1582 O",
    "29.2 1900 O",
    "14.10 1582 O",
    "morrow of 31.12 9999 O",
];

/// A mark with a day.
const DATED: &str = "[[easter 1225 J]]";

/// Bytes that are lent beyond those that the marks need, in turn.
const MORE: [usize; 7] = [0, 1, 19, 20, 21, 39, 40];

/// The bytes of a place for each mark, and none for a refused transcript.
fn needed(transcript: &[u8]) -> usize {
    PLACE * marks(transcript).map_or(0, |marks| marks.len())
}

/// Pairs that open, close, overlap or start afresh, with no place and with one or two.
fn examples(transcripts: &mut Stored) {
    let list = "[[[x]],[[a [[b]],[[]],]],[[,[[x,x]],[[x]],[x],[[x],[x]],[[x]]],[[x]]]],[[x]] ]],[[[[x]]]],[[a]b]],\
        [[a[b]],[[a[b]c]],[[a]][[b]],[[a]] [[b]],]][[a]][[,[[a]]]][[[[b]]";
    for transcript in list.split(',').chain(["", "x", DATED]) {
        [0, 19, 20, 40, 41].iter().for_each(|&size| transcripts.add(size, transcript));
    }
}

/// Every string of up to six brackets and letters, and of up to eight brackets; those with marks also with letters of two bytes.
fn bracket_strings(transcripts: &mut Stored) {
    let lettered = (0..=6).flat_map(|length| strings(&["[", "]", "x"], length));
    for string in lettered.chain((7..=8).flat_map(|length| strings(&["[", "]"], length))) {
        transcripts.enough(&string);
        transcripts.few(&string);
        if needed(string.as_bytes()) > 0 {
            transcripts.enough(string.replace('x', "\u{e9}"));
        }
    }
}

/// Runs of up to nine brackets before a letter, and of up to nine behind it; and longer ones with no letter between.
fn bracket_runs(transcripts: &mut Stored) {
    for opening in 0..=9 {
        for closing in 0..=9 {
            transcripts.enough(format!("\u{e9}{}\u{e9}{}", "[".repeat(opening), "]".repeat(closing)));
        }
    }
    for opening in 9..=17 {
        for closing in opening - 1..=opening + 1 {
            transcripts.enough(format!("{}{}", "[".repeat(opening), "]".repeat(closing)));
        }
    }
}

/// Each character alone, and before, in and behind marks and pairs.
fn characters(transcripts: &mut Stored) {
    for c in CHARACTERS.chars() {
        transcripts.enough(format!("{c}"));
        transcripts.enough(format!("{c}{DATED}"));
        transcripts.enough(format!("{DATED}{c}"));
        transcripts.enough(format!("[[{c}]]"));
        transcripts.enough(format!("[[{c}easter 1225 J]]"));
        transcripts.enough(format!("[[easter 1225 J{c}]]"));
        transcripts.enough(format!("[{c}[x]]"));
        transcripts.enough(format!("[[x]{c}]"));
        transcripts.enough(format!("[[{c}[[x]]{c}]]"));
        transcripts.enough(format!("{c}[[a]]{c}{DATED}{c}[[b]]{c}"));
        transcripts.few(format!("{c}[[a]]{c}{DATED}{c}[[b]]{c}"));
    }
}

/// Two characters at bounds of their lengths, before a mark and in it.
fn two_characters(transcripts: &mut Stored) {
    let bounds = ['\u{7f}', '\u{80}', '\u{7ff}', '\u{800}', '\u{ffff}', '\u{10000}', '\u{10ffff}'];
    for c in bounds {
        bounds.iter().for_each(|d| transcripts.enough(format!("{c}{d}[[{d}{c}]]{d}{DATED}")));
    }
}

/// The first and last characters of each first byte of a longer character.
fn bounds_of_first_bytes(transcripts: &mut Stored) {
    for first in 0xc2..=0xf4 {
        let (low, high): (&[u8], &[u8]) = match first {
            ..0xe0 => (&[0x80], &[0xbf]),
            0xe0 => (&[0xa0, 0x80], &[0xbf, 0xbf]),
            0xed => (&[0x80, 0x80], &[0x9f, 0xbf]),
            ..0xf0 => (&[0x80, 0x80], &[0xbf, 0xbf]),
            0xf0 => (&[0x90, 0x80, 0x80], &[0xbf, 0xbf, 0xbf]),
            ..0xf4 => (&[0x80, 0x80, 0x80], &[0xbf, 0xbf, 0xbf]),
            _ => (&[0x80, 0x80, 0x80], &[0x8f, 0xbf, 0xbf]),
        };
        transcripts.enough([&[first], low, b"[[", &[first], high, b"]]"].concat());
    }
}

/// Brackets of other kinds beside those that mark.
fn brackets_among_characters(transcripts: &mut Stored) {
    let ascii = "() {} Z\\ \\^ [\u{ff3d} \u{ff3b}]";
    let others = "\u{27e6}\u{27e7} \u{ff3b}\u{ff3d} \u{15b}\u{15d} \u{5b5b}\u{5d5d} \u{1055b}\u{1055d}";
    for pair in ascii.split(' ').chain(others.split(' ')) {
        let (open, close) = pair.split_at(pair.chars().next().map_or(0, char::len_utf8));
        transcripts.enough(format!("{open}{open}x{close}{close}"));
        transcripts.enough(format!("[{open}x{close}] [[{open}x{close}]]"));
        transcripts.enough(format!("{open}{DATED}{close} {open}[easter 1225 J]{close}"));
    }
}

/// Good and refused texts as marks behind every kind of prose.
fn lines_in_prose(transcripts: &mut Stored) {
    for text in GOOD.iter().chain(&REFUSED) {
        for prose in PROSE {
            transcripts.enough(format!("{prose}[[{text}]]."));
        }
    }
}

/// Texts of marks about the longest dating line, in characters of one to four bytes.
fn lengths_of_marks(transcripts: &mut Stored) {
    for character in ["e", " ", "[x", "]x", "\u{e9}", "\u{20ac}", "\u{1f4dc}"] {
        for count in [1, 2, 29, 30, 31, 39, 40, 41, 59, 60, 61, 118, 119, 120, 121, 122, 240] {
            transcripts.enough_pieces(&[(1, b"[["), (count, character.as_bytes()), (1, b"]]")]);
        }
    }
    for year in [1, 12, 123, 1234] {
        let end = format!("easter {year} J]]");
        transcripts.enough_pieces(&[(1, b"[["), (11, b"octave of "), (1, end.as_bytes())]);
    }
    for end in [b"easter 2024 O]]".as_slice(), b"trinity 2024 O]]"] {
        transcripts.enough_pieces(&[(1, b"[[eve of "), (10, b"octave of "), (1, end)]);
    }
}

/// Ends of lines about marks, in them and in pairs.
fn line_ends(transcripts: &mut Stored) {
    for end in ["\n", "\r\n", "\r", "\0", "\u{85}", "\u{2028}", "\n\n"] {
        transcripts.enough(end);
        transcripts.enough(format!("{end}{DATED}{end}[[1.1 1 J]]{end}"));
        transcripts.enough(format!("[[{end}]]"));
        transcripts.enough(format!("[[{end}easter 1225 J]]"));
        transcripts.enough(format!("[[easter 1225 J{end}]]"));
        transcripts.enough(format!("[[easter{end}1225 J]]"));
        transcripts.enough(format!("[{end}[easter 1225 J]{end}]"));
    }
}

/// So many marks, with all texts and all kinds of prose in turn.
fn marked(count: usize) -> String {
    let texts: Vec<&str> = GOOD.into_iter().chain(REFUSED).collect();
    (0..count).map(|i| format!("{}[[{}]]", PROSE[i % PROSE.len()], texts[i % texts.len()])).collect()
}

/// One to forty marks, with enough places and with too few.
fn many_marks(transcripts: &mut Stored) {
    for count in 1..=40 {
        transcripts.enough(marked(count));
        transcripts.few(marked(count));
    }
}

/// Some of the stored dating lines, twelve to a transcript.
fn stored_lines(transcripts: &mut Stored) {
    let lines: Vec<String> = lines().into_iter().filter_map(|line| String::from_utf8(line).ok()).collect();
    for twelve in lines.iter().step_by(19).collect::<Vec<_>>().chunks(12) {
        transcripts.enough(twelve.iter().map(|line| format!("\u{2192}[[{line}]]\n")).collect::<String>());
    }
}

/// No mark to seven with every number of bytes about places, and with far more than are filled.
fn sizes(transcripts: &mut Stored) {
    for count in [0, 1, 2, 3, 7] {
        for places in [0, 1, 2, 3, 7] {
            for size in [PLACE * places + 19, PLACE * places, PLACE * places + 1, PLACE * places + 18] {
                transcripts.add(size, marked(count));
            }
            transcripts.add((PLACE * places).saturating_sub(1), marked(count));
        }
        [4096, 65537, 400_000].iter().for_each(|&size| transcripts.add(size, marked(count)));
    }
}

/// Bytes that begin no character, characters that are cut, forms that are not the shortest, surrogates, and numbers above the last.
fn bad() -> Vec<Vec<u8>> {
    let single = (0x80..=0xff).map(|byte| vec![byte]);
    let cut = "e0a0 e180 ed9f efbf f090 f09080 f180 f18080 f48f f48fbf e282 f09f93";
    let cut_by_ascii = "c328 e228a1 e28228 f0289080 f09028bc f0908028 c35b5b e25b5b e2825b5b f09f935b5b c35d5d \
        f09f5d5d";
    let overlong = "c080 c0af c19b c19d c1bf e08080 e0819b e0819d e09fbf f0808080 f080819b f08f8080 f08fbfbf \
        f880808080 f8808080af fc8080808080 fc80808080af";
    let surrogates = "eda080 edadbf edaebf edafbf edb080 edbe80 edbfbf eda080edb080 edafbfedbfbf eda0bdedb39c";
    let above = "f4908080 f4bfbfbf f5808080 f7bfbfbf f888808080 fbbfbfbfbf fc8480808080 fdbfbfbfbfbf fefeffff";
    let longer = "c28080 e1808080 f180808080 418080 c3a9a9 e282acac f09f939c9c";
    let lists = [cut, cut_by_ascii, overlong, surrogates, above, longer];
    let bytes = |digits: &str| Case::read(&format!("0: {digits}")).expect("a list of bytes").text();
    single.chain(lists.into_iter().flat_map(|list| list.split(' ')).map(bytes)).collect()
}

/// Each of them at the start, in the middle, right before a pair, in a mark and at the very end.
fn bad_sequences(transcripts: &mut Stored) {
    for bad in bad() {
        transcripts.enough([&bad, b"a[[1.1 1 J]]".as_slice()].concat());
        transcripts.enough([b"\xc3\xa9", &bad[..], b"a[[1.1 1 J]]"].concat());
        transcripts.enough([b"a", &bad[..], b"[[1.1 1 J]]"].concat());
        transcripts.enough([b"[[1.1", &bad[..], b"1 J]]"].concat());
        transcripts.enough([b"[[1.1 1 J]]\xc3\xa9", &bad[..]].concat());
    }
}

/// Some of them with no place, one and two for two marks.
fn bad_sequences_and_few_places(transcripts: &mut Stored) {
    for bad in bad().iter().step_by(20) {
        for size in [0, 19, 20, 39, 40] {
            transcripts.add(size, [b"[[a]][[b]]", &bad[..]].concat());
            transcripts.add(size, [&bad[..], b"[[a]][[b]]"].concat());
        }
    }
}

/// The two bytes, the bytes that a character of this first byte has behind them, and a mark.
fn begun_by(first: u8, second: u8, last: u8) -> Vec<u8> {
    let rest = match first {
        ..0xe0 => 0,
        ..0xf0 => 1,
        ..0xf8 => 2,
        ..0xfc => 3,
        _ => 4,
    };
    [&[first, second], &[last; 4][..rest], b"[[x]]"].concat()
}

/// Every second byte behind first bytes of characters of two, three and four bytes.
fn second_bytes(transcripts: &mut Stored) {
    for first in [0xc2, 0xe0, 0xf4] {
        (0..=255).for_each(|second| transcripts.enough(begun_by(first, second, 0x80)));
    }
}

/// First bytes at the bounds of their kinds with second bytes at theirs.
fn first_bytes(transcripts: &mut Stored) {
    for first in
        [0x7f, 0xc0, 0xc1, 0xc3, 0xdf, 0xe1, 0xec, 0xed, 0xee, 0xef, 0xf0, 0xf1, 0xf3, 0xf5, 0xf7, 0xf8, 0xfc, 0xff]
    {
        for second in [0x7f, 0x80, 0x8f, 0x90, 0x9f, 0xa0, 0xbf, 0xc0] {
            transcripts.enough(begun_by(first, second, 0xbf));
        }
    }
}

/// Third and fourth bytes at their bounds, and brackets in their place.
fn last_bytes(transcripts: &mut Stored) {
    for byte in [0, b'[', b']', 0x7f, 0x80, 0xbf, 0xc0, 0xff] {
        for two in [b"\xe0\xa0", b"\xe1\x80", b"\xed\x9f", b"\xef\xbf", b"\xf0\x90", b"\xf1\x80", b"\xf4\x8f"] {
            let four = two[0] >= 0xf0;
            transcripts.enough([two, &[byte][..], &[0x80][..usize::from(four)], b"[[x]]"].concat());
            if four {
                transcripts.enough([two, &[0xbf, byte][..], b"[[x]]"].concat());
            }
        }
    }
}

/// Prose with marks, brackets and characters of one to four bytes over and over, with letters before or behind what goes in.
fn lengths_about_the_longest(transcripts: &mut Stored) {
    let prose = format!("{}{DATED}. ", PROSE[1]);
    let list = "a,[,],[[,]],[[]],[[x]],]][[,[],\u{e9},\u{20ac},\u{1f4dc},\u{e9}[[\u{20ac}]]\u{1f4dc}";
    for text in list.split(',').chain([prose.as_str()]) {
        for length in lengths_about(LONGEST) {
            let [rest, repeated] = filled(length, text);
            transcripts.enough_pieces(&[rest, repeated]);
            transcripts.few_pieces(&[rest, repeated]);
            transcripts.enough_pieces(&[repeated, rest]);
        }
    }
}

/// As many marks as a transcript can have, with places for all, or for all but one, or with more.
fn full_of_marks(transcripts: &mut Stored) {
    let count = LONGEST / 4;
    let all = PLACE * count;
    for size in [0, all - PLACE, all - 1, all, all + 1, all + 19, 400_000] {
        transcripts.add_pieces(size, &[(count, b"[[]]")]);
    }
}

/// One mark that fills the transcript, of several characters.
fn one_long_mark(transcripts: &mut Stored) {
    for text in ["a", "[a", "]a", "\u{e9}", "\u{20ac}", "\u{1f4dc}"] {
        for length in lengths_about(LONGEST) {
            let [rest, repeated] = filled(length - 4, text);
            transcripts.enough_pieces(&[(1, b"[["), rest, repeated, (1, b"]]")]);
            transcripts.few_pieces(&[(1, b"[["), repeated, rest, (1, b"]]")]);
        }
    }
}

/// A mark at the very end and at the very start, and pairs there that mark nothing.
fn marks_at_the_ends(transcripts: &mut Stored) {
    for text in ["a", "[[", "\u{e9}", "\u{20ac}", "\u{1f4dc}"] {
        for length in lengths_about(LONGEST) {
            for end in [DATED, "[[easter 2024 O]]", "[[", "]]", "]"] {
                let [rest, repeated] = filled(length - end.len(), text);
                transcripts.enough_pieces(&[rest, repeated, (1, end.as_bytes())]);
                transcripts.enough_pieces(&[(1, end.as_bytes()), rest, repeated]);
            }
        }
    }
}

/// Bad bytes at the very end and at the very start of long transcripts.
fn bad_ends(transcripts: &mut Stored) {
    for text in ["a", "\u{e9}", "[[x]]"] {
        for length in lengths_about(LONGEST) {
            for bad in [b"\xff".as_slice(), b"\x80", b"\xc3", b"\xe2\x82", b"\xf0\x9f\x93", b"\xed\xa0\x80"] {
                let [rest, repeated] = filled(length - bad.len(), text);
                transcripts.enough_pieces(&[rest, repeated, (1, bad)]);
                transcripts.add_pieces(PLACE * LONGEST / 4, &[(1, bad), rest, repeated]);
            }
        }
    }
}

/// Transcripts that would be taken if their length were cut to sixteen bits.
fn far_too_long(transcripts: &mut Stored) {
    for more in [LONGEST, 2 * LONGEST] {
        for text in ["a", "]]", DATED] {
            for size in [0, PLACE, 3 * PLACE] {
                transcripts.add_pieces(size, &[(1, text.as_bytes()), (more, b"a")]);
                transcripts.add_pieces(size, &[(1, text.as_bytes()), (1, b"\xff"), (more, b"a")]);
            }
        }
    }
}

/// Brackets and characters of every length by chance.
fn random_brackets(transcripts: &mut Stored) {
    let mut numbers = Numbers(1583);
    let list = ["[", "]", "[[", "]]", "[[", "]]", "x", " ", "\u{e9}", "\u{20ac}", "\u{1f4dc}"];
    for _ in 0..300 {
        let count = 4 + numbers.below(36);
        transcripts.enough((0..count).map(|_| numbers.one_of(&list)).collect::<String>());
    }
}

/// A part of a transcript by chance: prose, brackets, a character, or a mark with a good line, a refused one or a character.
fn random_part(numbers: &mut Numbers) -> String {
    let characters: Vec<char> = CHARACTERS.chars().collect();
    match numbers.below(8) {
        0 | 1 => numbers.one_of(&PROSE).to_string(),
        2 => numbers.one_of(&["[", "]", "[[", "]]"]).to_string(),
        3 => numbers.one_of(&characters).to_string(),
        4 | 5 => format!("[[{}]]", random_line(numbers, &all_wrappers())),
        6 => format!("[[{}]]", numbers.one_of(&REFUSED)),
        _ => format!("[[{}]]", numbers.one_of(&characters)),
    }
}

fn random_text(numbers: &mut Numbers, most: usize) -> String {
    let count = 1 + numbers.below(most);
    (0..count).map(|_| random_part(numbers)).collect()
}

/// Texts by chance, one in five also with too few places, and one in five with a byte changed, put in or left out.
fn random_texts(transcripts: &mut Stored) {
    let mut numbers = Numbers(1584);
    for _ in 0..500 {
        let mut text = random_text(&mut numbers, 10).into_bytes();
        let place = numbers.below(text.len());
        let byte = numbers.below(256) as u8;
        match numbers.below(15) {
            0..=2 => transcripts.few(&text),
            3 => text[place] = byte,
            4 => text.insert(place, byte),
            5 => {
                text.remove(place);
            }
            _ => {}
        }
        transcripts.enough(text);
    }
}

/// Long texts by chance.
fn random_long_texts(transcripts: &mut Stored) {
    let mut numbers = Numbers(1585);
    for _ in 0..12 {
        transcripts.enough(random_text(&mut numbers, 200));
    }
}

/// Prints the cases of all kinds, each in a line.
pub fn print() -> ExitCode {
    Stored::new(needed, PLACE, &MORE).print(KINDS)
}

/// Prints the sample of the cases.
pub fn sample() -> ExitCode {
    print_sample(KINDS, Stored::new(needed, PLACE, &MORE), "transcripts 'BYTES LENT FOR PLACES: PIECE PIECE ..'")
}
