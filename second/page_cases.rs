//! Pages of dating lines, good and bad, for readers of pages to be compared by, each with the number of bytes that are lent for
//! places. Each kind of page is a function here, and a case that several kinds make is printed once. The answers are no part of it.

use crate::corpus::{GOOD, Line, Numbers, all_wrappers, lines, random_edit, random_line};
use crate::kinds::{Kind, kinds, print_sample};
use crate::lines::day_or_refusal;
use crate::pages::{LONGEST, PLACE, lines_of};
use crate::stored::{Repeated, Stored, filled, lengths_about, strings};
use crate::transcripts::REFUSED;
use std::process::ExitCode;

/// Every kind of page, in the order of printing.
const KINDS: &[Kind<Stored>] = kinds![
    examples,
    short_pages,
    feeds_and_letters,
    single_lines,
    blank_lines,
    line_counts,
    sizes,
    many_lines,
    lengths_of_lines,
    good_lines_about_the_longest,
    long_lines,
    line_ends,
    every_byte,
    foreign_bytes,
    stored_lines,
    good_stored_lines,
    lengths_about_the_longest,
    full_of_lines,
    one_line_about_the_longest,
    lines_at_the_ends,
    far_too_long,
    random_bytes,
    random_pages,
    random_long_pages,
    random_full_pages,
];

/// Bytes that are lent beyond those that the lines need, in turn.
const MORE: [usize; 9] = [0, 1, 2, 3, 4, 5, 6, 7, 40];

/// A line with a day.
const DATED: &str = "easter 1225 J";

/// Ends of lines that have 118 to 123 bytes behind a chain of wrappers of 107.
const LONG: [&str; 8] = [
    "easter 12 J",
    "easter 122 J",
    "easter 1225 J",
    "pentecost 12 J",
    "pentecost 122 J",
    "pentecost 1225 J",
    "easter 2024 O",
    "trinity 2024 O",
];

/// The bytes of a place for each line, and none for a refused page.
fn needed(page: &[u8]) -> usize {
    PLACE * lines_of(page).map_or(0, |lines| lines.len())
}

/// Good lines, and refused ones of every refusal.
fn mixed() -> Vec<&'static str> {
    GOOD.into_iter().chain(REFUSED).filter(|line| !line.contains('\n')).collect()
}

/// So many lines, good and refused in turn, each ended by a line feed.
fn page_of(count: usize) -> String {
    mixed().iter().cycle().take(count).map(|line| format!("{line}\n")).collect()
}

/// The page with and without its last byte, each with enough places and with too few.
fn open_and_ended(pages: &mut Stored, page: &[u8]) {
    for page in [page, &page[..page.len().saturating_sub(1)]] {
        pages.enough(page);
        pages.few(page);
    }
}

/// Line feeds that end, open and part lines, with no place and with one to three.
fn examples(pages: &mut Stored) {
    let list = ",#,##,###,x,x#,#x,x##,##x,x#y,x#y#,x##y,x#y#z,@,@#,@##,#@,@#@,@#@#,@##@,@#x,x#@,@~#,@~#@~#,@#~,~#@,~";
    for page in list.split(',') {
        let page = page.replace('#', "\n").replace('~', "\r").replace('@', DATED);
        [0, 1, 3, 4, 5, 7, 8, 11, 12, 13].iter().for_each(|&size| pages.add(size, &page));
    }
}

/// Every page of up to five line feeds, carriage returns and letters.
fn short_pages(pages: &mut Stored) {
    for page in (0..=5).flat_map(|length| strings(&["\n", "\r", "x"], length)) {
        pages.enough(&page);
        pages.few(&page);
    }
}

/// Every page of six to eight line feeds and letters.
fn feeds_and_letters(pages: &mut Stored) {
    for page in (6..=8).flat_map(|length| strings(&["\n", "x"], length)) {
        pages.enough(page);
    }
}

/// Good and refused lines alone, without an end and with several.
fn single_lines(pages: &mut Stored) {
    for line in mixed() {
        for end in ["", "\n", "\r\n", "\n\n", "\r", "\n\r", "\0\n"] {
            pages.enough(format!("{line}{end}"));
        }
        pages.few(line);
    }
}

/// Up to three blank lines before, between and behind two lines, with and without the last line's end.
fn blank_lines(pages: &mut Stored) {
    for count in 0..64 {
        let [before, between, behind] = [1, 4, 16].map(|unit| "\n".repeat(count / unit % 4));
        let page = format!("{before}{DATED}\n{between}29.2 1900 G\n{behind}");
        open_and_ended(pages, page.as_bytes());
    }
}

/// One line to all that are good and refused in turn, with enough places and with too few.
fn line_counts(pages: &mut Stored) {
    (1..=mixed().len()).for_each(|count| open_and_ended(pages, page_of(count).as_bytes()));
}

/// No line to seven with every number of bytes about places, and with far more than are filled.
fn sizes(pages: &mut Stored) {
    for count in [0, 1, 2, 3, 7] {
        (0..=8 * PLACE + 1).for_each(|size| pages.add(size, page_of(count)));
        [4096, 65537, 262_143, 262_144, 262_145, 400_000].iter().for_each(|&size| pages.add(size, page_of(count)));
    }
}

/// Fifty to two thousand lines of several kinds, with exactly enough places, a place and a byte too few, and none.
fn many_lines(pages: &mut Stored) {
    for count in [50, 100, 255, 256, 257, 499, 500, 501, 999, 1000, 1001, 1024, 1999, 2000] {
        for line in ["", "x", "\r", "1.1 1 J", DATED, "29.2 1900 G", "31.12 9999 G", "easter 2024 O"] {
            let ended = format!("{line}\n");
            let pieces: [Repeated; 2] = [(count - 1, ended.as_bytes()), (1, line.as_bytes())];
            pages.enough_pieces(&pieces);
            for size in [PLACE * count, PLACE * (count - 1), PLACE * count - 1, 0] {
                pages.add_pieces(size, &[(count, ended.as_bytes())]);
            }
        }
    }
}

/// Lines about the longest dating line, of several bytes, before, between and behind good lines.
fn lengths_of_lines(pages: &mut Stored) {
    let dated = DATED.as_bytes();
    for byte in [b"e", b" ", b"\0", b"\r", b"\xff"] {
        for count in [1, 2, 118, 119, 120, 121, 122, 123, 240, 255, 256, 257] {
            pages.enough_pieces(&[(count, byte)]);
            pages.enough_pieces(&[(count, byte), (1, b"\n"), (1, dated)]);
            pages.enough_pieces(&[(1, dated), (1, b"\n"), (count, byte), (1, b"\n"), (1, dated), (1, b"\n")]);
        }
    }
}

/// Lines of 118 to 123 bytes that the grammar produces, alone, with a carriage return, and before and behind others.
fn good_lines_about_the_longest(pages: &mut Stored) {
    let chains =
        ["eve of ".to_string() + &"octave of ".repeat(10), "sun before ".repeat(2) + &"sun on or before ".repeat(5)];
    for line in chains.iter().flat_map(|chain| LONG.map(|anchor| format!("{chain}{anchor}"))) {
        for page in [
            line.clone(),
            format!("{line}\n"),
            format!("{line}\r\n{DATED}\r\n"),
            format!("{DATED}\n{line}\n{line}\n{DATED}"),
            format!("\n{line}\n\n{line}x\nx{line}"),
        ] {
            pages.enough(page);
        }
    }
}

/// Lines of thousands of bytes, alone and among good ones.
fn long_lines(pages: &mut Stored) {
    for count in [1000, 4095, 4096, 4097, 10_000, 30_000] {
        for byte in [b"e", b" ", b"\0", b"\xe9"] {
            pages.enough_pieces(&[(count, byte), (1, b"\n")]);
            pages.few_pieces(&[(1, b"1.1 1 J\n"), (count, byte), (1, b"\neve of 1.1 1 J\n")]);
            pages.enough_pieces(&[(1, b"1.1 1 J\n"), (count, byte), (1, b"\neve of 1.1 1 J\n"), (count, byte)]);
        }
    }
}

/// Line feeds with other bytes about them, and other ends of lines, which part none.
fn line_ends(pages: &mut Stored) {
    for end in ["\r\n", "\r", "\n\r", "\r\r\n", "\0", "\0\n", "\u{b}", "\u{c}", "\u{85}", "\u{2028}", " \n", "\n "] {
        pages.enough(end);
        pages.enough(format!("{DATED}{end}1.1 1 J"));
        pages.enough(format!("{DATED}{end}{end}1.1 1 J{end}"));
        pages.enough(format!("{end}{DATED}\n1.1 1 J{end}\n{end}"));
        pages.few(format!("{DATED}{end}easter 1582 G{end}"));
    }
}

/// Every byte as a line, and before and behind a good one.
fn every_byte(pages: &mut Stored) {
    for byte in 0..=255 {
        let page = [&[byte, b'\n', byte], DATED.as_bytes(), b"\n", DATED.as_bytes(), &[byte]].concat();
        pages.enough(page);
    }
}

/// High bytes and NUL about line feeds, bytes that hold a line feed's bits, and characters with its number in theirs.
fn foreign_bytes(pages: &mut Stored) {
    let bytes: [&[u8]; 9] =
        [b"\0", b"\x8a", b"\x4a", b"\x1a", b"\xff", b"\x80", b"\xc4\x8a", b"\xe0\xa8\x8a", b"\xf0\x90\x80\x8a"];
    for bytes in bytes {
        pages.enough([bytes, b"\n", bytes, b"\n"].concat());
        pages.enough([b"easter 1225 J", bytes, b"29.2 1900 J"].concat());
        pages.enough([b"easter 1225 J\n", bytes, b"\n29.2 1900 J\n\n", bytes].concat());
        pages.few([bytes, b"\neaster 1225 J\n"].concat());
    }
}

/// The lines joined by line feeds, the last with or without one.
fn joined(lines: &[&Line], ended: bool) -> Vec<u8> {
    let mut page = lines.iter().map(|line| line.as_slice()).collect::<Vec<_>>().join(&b'\n');
    if ended {
        page.push(b'\n');
    }
    page
}

/// Some of the stored dating lines, sixteen to a page.
fn stored_lines(pages: &mut Stored) {
    let lines = lines();
    for (number, page) in lines.iter().step_by(23).collect::<Vec<_>>().chunks(16).enumerate() {
        pages.enough(joined(page, number % 2 == 0));
    }
}

/// Some of those that have a day, from two to nine to a page.
fn good_stored_lines(pages: &mut Stored) {
    let lines = lines();
    let good: Vec<&Line> = lines.iter().filter(|line| day_or_refusal(line) > 9).step_by(29).collect();
    for (number, page) in good.chunks(9).enumerate() {
        pages.enough(joined(&page[..page.len().min(2 + number % 8)], number % 2 == 0));
    }
}

/// Pages about the longest of lines over and over, with letters before or behind what goes in.
fn lengths_about_the_longest(pages: &mut Stored) {
    let texts = "a,\n,\r\n,a\n,1.1 1 J\n,easter 1225 J\n,easter 2024 O\n,29.2 1900 G\n\n,\n\u{e9},x\0\n";
    for text in texts.split(',') {
        for length in lengths_about(LONGEST) {
            let [rest, repeated] = filled(length, text);
            pages.enough_pieces(&[rest, repeated]);
            pages.few_pieces(&[rest, repeated]);
            pages.enough_pieces(&[repeated, rest]);
        }
    }
}

/// As many lines as a page can have, with places for all, or for all but one, or with more.
fn full_of_lines(pages: &mut Stored) {
    let all = PLACE * LONGEST;
    for size in [0, PLACE, all - 2 * PLACE, all - PLACE, all - 1, all, all + 1, all + 2, all + 3, 400_000] {
        lengths_about(LONGEST).iter().for_each(|&count| pages.add_pieces(size, &[(count, b"\n")]));
        pages.add_pieces(size, &[(LONGEST - 1, b"\n"), (1, b"x")]);
    }
}

/// One line that fills the page, with and without its end, and in two parts.
fn one_line_about_the_longest(pages: &mut Stored) {
    for length in lengths_about(LONGEST) {
        for byte in [b"a", b" ", b"\0", b"\r", b"\xff"] {
            pages.enough_pieces(&[(length - 1, byte), (1, b"\n")]);
            pages.few_pieces(&[(length - 1, byte), (1, b"\n")]);
            pages.enough_pieces(&[(1, b"\n"), (length - 1, byte)]);
            pages.enough_pieces(&[(length / 2, byte), (1, b"\n"), (length - length / 2 - 1, byte)]);
        }
    }
}

/// A good line at the very end and at the very start of pages about the longest.
fn lines_at_the_ends(pages: &mut Stored) {
    for text in ["a", "\n", "easter 12 J\n", "\r"] {
        for length in lengths_about(LONGEST) {
            for end in ["1.1 1 J", "1.1 1 J\n", "1.1 1 J\n\n"] {
                let [rest, repeated] = filled(length - end.len() - 1, text);
                pages.enough_pieces(&[rest, repeated, (1, b"\n"), (1, end.as_bytes())]);
                pages.enough_pieces(&[(1, end.as_bytes()), (1, b"\n"), rest, repeated]);
            }
        }
    }
}

/// Pages that would be taken if their length were cut to sixteen bits.
fn far_too_long(pages: &mut Stored) {
    for more in [LONGEST, 2 * LONGEST, 3 * LONGEST] {
        for text in ["", "a", "\n", DATED, "easter 1225 J\n"] {
            for byte in [b"a", b"\n"] {
                for size in [0, PLACE, 3 * PLACE, PLACE * LONGEST] {
                    pages.add_pieces(size, &[(1, text.as_bytes()), (more, byte)]);
                }
            }
        }
    }
}

/// Bytes of lines and about them by chance.
fn random_bytes(pages: &mut Stored) {
    let mut numbers = Numbers(1586);
    let list = b"\n\n\n\n\r\0 1.J\xff\xe9x";
    for _ in 0..300 {
        let count = 1 + numbers.below(40);
        pages.enough((0..count).map(|_| numbers.one_of(list)).collect::<Vec<_>>());
    }
}

/// A line by chance: a good one, a refused one, a blank, or bytes.
fn random_page_line(numbers: &mut Numbers) -> Line {
    match numbers.below(10) {
        0..=4 => random_line(numbers, &all_wrappers()).into(),
        5 | 6 => numbers.one_of(&mixed()).into(),
        7 => vec![],
        8 => format!("{DATED}\r").into(),
        _ => (0..numbers.below(130)).map(|_| 11 + numbers.below(245) as u8).collect(),
    }
}

/// A page by chance of up to so many lines, of which the last may lack its end.
fn random_page(numbers: &mut Numbers, most: usize) -> Vec<u8> {
    let count = 1 + numbers.below(most);
    let lines: Vec<Line> = (0..count).map(|_| random_page_line(numbers)).collect();
    joined(&lines.iter().collect::<Vec<_>>(), numbers.below(2) == 0)
}

/// Pages by chance, one in five also with too few places, and one in five with an edit.
fn random_pages(pages: &mut Stored) {
    let mut numbers = Numbers(1587);
    for _ in 0..450 {
        let page = random_page(&mut numbers, 8);
        match numbers.below(5) {
            0 => pages.few(&page),
            1 if page.len() > 1 => pages.enough(random_edit(page.clone(), &mut numbers)),
            _ => {}
        }
        pages.enough(page);
    }
}

/// Long pages by chance.
fn random_long_pages(pages: &mut Stored) {
    let mut numbers = Numbers(1588);
    for _ in 0..12 {
        pages.enough(random_page(&mut numbers, 150));
    }
}

/// A page by chance over and over, as often as the longest page holds it, and once more.
fn random_full_pages(pages: &mut Stored) {
    let mut numbers = Numbers(1589);
    for _ in 0..20 {
        let page = [random_page(&mut numbers, 12), b"\n".to_vec()].concat();
        let count = LONGEST / page.len();
        pages.enough_pieces(&[(count, &page)]);
        pages.few_pieces(&[(count, &page)]);
        pages.enough_pieces(&[(count + 1, &page)]);
    }
}

/// Prints the cases of all kinds, each in a line.
pub fn print() -> ExitCode {
    Stored::new(needed, PLACE, &MORE).print(KINDS)
}

/// Prints the sample of the cases.
pub fn sample() -> ExitCode {
    print_sample(KINDS, Stored::new(needed, PLACE, &MORE), "pages 'BYTES LENT FOR PLACES: PIECE PIECE ..'")
}
