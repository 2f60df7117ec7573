//! Measures pages of lines through qv_page, through qv_line and through the plain reader. For qv_line a page is cut as a C program would
//! cut it, by memchr, which is part of the time. Before it is read each page is copied to the same buffer and the places are cleared,
//! which is no part of the time. First all three must give the same answers to the stored lines and to every page.

mod kinds;
mod random;
mod reader;
mod times;
mod words;

use kinds::KINDS;
use random::Random;
use std::ffi::{c_int, c_void};
use std::hint::black_box;
use std::process::ExitCode;
use std::time::Instant;
use times::{print_heading, print_times, times};

/// The most bytes of a page.
const LONGEST_PAGE: usize = 65536;

const LINES: usize = 500;
const PAGES: usize = 200;
const ROUNDS: usize = 61;

unsafe extern "C" {
    fn qv_line(line: *const u8, length: usize) -> u32;
    fn qv_page(page: *const u8, length: usize, places: *mut u8, size: usize) -> usize;
    fn qv_page_refusal(page: *const u8, length: usize, size: usize) -> u32;
    fn memchr(text: *const c_void, byte: c_int, length: usize) -> *const c_void;
}

/// Fills the places with the answers to a page's lines, and tells how many lines there are.
type Reader = fn(&[u8], &mut [u8]) -> usize;

const READERS: [(&str, Reader); 3] = [("qv_page", whole), ("qv_line", line_by_line), ("plain", plain)];

fn whole(page: &[u8], places: &mut [u8]) -> usize {
    unsafe { qv_page(page.as_ptr(), page.len(), places.as_mut_ptr(), places.len()) }
}

fn answer(line: &[u8]) -> u32 {
    unsafe { qv_line(line.as_ptr(), line.len()) }
}

/// The bytes before the first line feed, or all where there is none.
fn first_line(text: &[u8]) -> &[u8] {
    let start = text.as_ptr();
    let found = unsafe { memchr(start.cast(), c_int::from(b'\n'), text.len()) };
    if found.is_null() { text } else { &text[..found as usize - start as usize] }
}

fn line_by_line(page: &[u8], places: &mut [u8]) -> usize {
    let (mut rest, mut count) = (page, 0);
    for place in places.chunks_exact_mut(4) {
        if rest.is_empty() {
            break;
        }
        let line = first_line(rest);
        place.copy_from_slice(&answer(line).to_le_bytes());
        rest = rest.get(line.len() + 1..).unwrap_or_default();
        count += 1;
    }
    count
}

/// How many lines a page has; 255 line feeds are the most that a byte counts.
fn lines(page: &[u8]) -> usize {
    let feeds = |part: &[u8]| usize::from(part.iter().map(|&byte| u8::from(byte == b'\n')).sum::<u8>());
    page.chunks(255).map(feeds).sum::<usize>() + usize::from(page.last().is_some_and(|&last| last != b'\n'))
}

/// Answers as qv_page does: 0 for too long a page or too few places, which then stay as they are.
fn plain(page: &[u8], places: &mut [u8]) -> usize {
    if page.len() > LONGEST_PAGE || lines(page) > places.len() / 4 {
        return 0;
    }
    let (mut start, mut count) = (0, 0);
    for place in places.chunks_exact_mut(4) {
        if start >= page.len() {
            break;
        }
        let (answer, _, end) = reader::line(page, start);
        place.copy_from_slice(&answer.to_le_bytes());
        start = end + 1;
        count += 1;
    }
    count
}

/// Cuts a text behind line feeds into pages.
fn cut(mut text: &[u8]) -> Vec<&[u8]> {
    let mut pages = Vec::new();
    while text.len() > LONGEST_PAGE {
        let feed = text[..LONGEST_PAGE].iter().rposition(|&byte| byte == b'\n').expect("a page has a line feed");
        let (page, rest) = text.split_at(feed + 1);
        pages.push(page);
        text = rest;
    }
    pages.push(text);
    pages
}

/// How many lines a page has, to all of which the three readers give the same answers; where there is a place too few, the readers of
/// whole pages refuse it.
fn agreed(page: &[u8]) -> Result<usize, String> {
    let wanted: Vec<u32> = page.strip_suffix(b"\n").unwrap_or(page).split(|&byte| byte == b'\n').map(answer).collect();
    for (name, read) in READERS {
        let mut places = vec![0; 4 * wanted.len()];
        if read(page, &mut places) != wanted.len() {
            return Err(format!("{name} does not find all {} lines of a page", wanted.len()));
        }
        let got = places.chunks_exact(4).map(|place| u32::from_le_bytes(place.try_into().expect("a place has four bytes")));
        for ((line, &wanted), got) in page.split(|&byte| byte == b'\n').zip(&wanted).zip(got) {
            if got != wanted {
                return Err(format!("'{}': {name} has {got}, and qv_line {wanted}", line.escape_ascii()));
            }
        }
    }
    let mut few = vec![0; 4 * wanted.len() - 1];
    let refusals = [4 * wanted.len(), few.len()].map(|size| unsafe { qv_page_refusal(page.as_ptr(), page.len(), size) });
    if refusals != [0, 2] || whole(page, &mut few) != 0 || plain(page, &mut few) != 0 || few.iter().any(|&byte| byte != 0) {
        return Err("a page with a place too few is not refused alike".into());
    }
    Ok(wanted.len())
}

/// Pages of one kind, whose last line has a line feed too.
fn pages(line: fn(&mut Random) -> String, random: &mut Random) -> Vec<Vec<u8>> {
    let page = |_| (0..LINES).map(|_| line(random) + "\n").collect::<String>().into_bytes();
    (0..PAGES).map(page).collect()
}

fn measure(name: &str, pages: &[Vec<u8>]) {
    let mut buffer = Vec::with_capacity(LONGEST_PAGE);
    let mut places = vec![0; 4 * LINES];
    let times: [_; 3] = times(ROUNDS, PAGES, |way, page| {
        buffer.clone_from(&pages[page]);
        places.fill(0);
        let before = Instant::now();
        READERS[way].1(black_box(&buffer), black_box(&mut places));
        before.elapsed()
    });
    print_times(name, LINES * PAGES, &times);
}

fn run(stored: &[u8]) -> Result<(), String> {
    let counts = cut(stored).into_iter().map(agreed).collect::<Result<Vec<_>, _>>()?;
    println!("{} stored lines are answered alike", counts.iter().sum::<usize>());
    println!("nanoseconds a line, the least and the median of {ROUNDS} rounds on each of {PAGES} pages of {LINES} lines");
    print_heading("lines", &READERS.map(|(name, _)| name));
    let mut random = Random(11);
    for (name, line) in KINDS {
        let pages = pages(line, &mut random);
        for page in &pages {
            agreed(page)?;
            agreed(&page[..page.len() - 1])?;
        }
        measure(name, &pages);
    }
    Ok(())
}

fn main() -> ExitCode {
    let file = std::env::args().nth(1).expect("the file of the stored lines is named");
    let stored = std::fs::read(&file).expect("the stored lines can be read");
    match run(&stored) {
        Ok(()) => ExitCode::SUCCESS,
        Err(message) => {
            eprintln!("pages: {message}");
            ExitCode::FAILURE
        }
    }
}
