//! A plain program that prints what datelines prints, written for speed, which that is measured against. Digits are put together as the bytes
//! of one number, the first the lowest.

mod reader;
mod words;

use reader::{JULIAN, LONGEST_LINE};
use std::io::{self, Read, Write};

/// The bytes that are read at a time.
const BLOCK: usize = 65536;

/// The least day; what is answered below it is a refusal.
const FIRST_DAY: u32 = 1721424;

/// The numbers below 32 without zeros before them, and how many bits their digits have.
static SMALL: [(u64, u32); 32] = small();

const fn small() -> [(u64, u32); 32] {
    let mut texts = [(0, 0); 32];
    let mut number = 0;
    while number < 32 {
        let digits = digits(number as u32) >> 48;
        texts[number] = if number < 10 { (digits >> 8, 8) } else { (digits, 16) };
        number += 1;
    }
    texts
}

/// The eight last digits of a number, which is parted into numbers of four, of two and of one digit, all of a step at once.
const fn digits(number: u32) -> u64 {
    let fours = (number / 10000) as u64 | (((number % 10000) as u64) << 32);
    let high = ((fours * 5243) >> 19) & 0x7f_0000_007f;
    let twos = high | ((fours - 100 * high) << 16);
    let high = ((twos * 103) >> 10) & 0x000f_000f_000f_000f;
    high | ((twos - 10 * high) << 8) | 0x3030_3030_3030_3030
}

/// The date by the formulas of Neri and Schneider, 'Euclidean affine functions and their application to calendar algorithms', in years that
/// begin with March; the days that Gregorian dates leave out are put in before.
fn date(day: u32, gregorian: bool) -> (u32, u32, u32) {
    let behind = day - 1721118 - 2 * u32::from(gregorian);
    let centuries = (4 * behind + 3) / 146097 * u32::from(gregorian);
    let quarters = 4 * (behind + centuries - centuries / 4) + 3;
    let (year, rest) = (quarters / 1461, quarters % 1461 / 4);
    let months = 2141 * rest + 197913;
    let (month, day) = (months >> 16, (months & 0xffff) / 2141 + 1);
    let late = u32::from(rest >= 306);
    (day, month - 12 * late, year + late)
}

/// Puts a day and its date to the output, and tells how many bytes they have; first come twelve whose places are always the same.
fn put(number: u32, style: u8, output: &mut [u8]) -> usize {
    output[1..9].copy_from_slice(&digits(number).to_le_bytes());
    output[..2].copy_from_slice(b"0 ");
    output[9..12].copy_from_slice(&[b' ', b'1' + (number % 7) as u8, b' ']);
    let (day, month, year) = date(number, style != JULIAN);
    let ((day, day_bits), (month, month_bits)) = (SMALL[day as usize % 32], SMALL[month as usize % 32]);
    let month = (u64::from(b' ') << (month_bits + 8)) | (month << 8) | u64::from(b'.');
    let day_month = day | (month << day_bits);
    output[12..20].copy_from_slice(&day_month.to_le_bytes());
    let at = 14 + (day_bits + month_bits) as usize / 8;
    let zeros = (digits(year) & 0x0f0f_0f0f_0f0f_0f0f).trailing_zeros() & !7;
    let ending = u32::from_le_bytes([b' ', style, b'\n', 0]);
    let year_style = (digits(year) >> zeros) | (u64::from(ending) << (64 - zeros));
    output[at..at + 8].copy_from_slice(&year_style.to_le_bytes());
    at + 11 - zeros as usize / 8
}

/// Writes the answers to the lines of a page, and tells how many bytes they have; no line has an answer of more than four times its bytes.
fn answer(page: &[u8], output: &mut [u8]) -> usize {
    let (mut start, mut at) = (0, 0);
    while start < page.len() {
        let (answer, style, end) = reader::line(page, start);
        at += if answer < FIRST_DAY {
            output[at..at + 2].copy_from_slice(&[b'0' + answer as u8, b'\n']);
            2
        } else {
            put(answer, style, &mut output[at..at + 32])
        };
        start = end + 1;
    }
    at
}

/// Answers block by block; of a line that a block cuts, no more is kept than tells that it is too long.
fn main() -> io::Result<()> {
    let (mut input, mut output) = (io::stdin().lock(), io::stdout().lock());
    let mut block = vec![0; BLOCK];
    let mut answers = vec![0; 4 * BLOCK + 32];
    let mut kept = 0;
    loop {
        let got = input.read(&mut block[kept..])?;
        let filled = kept + got;
        let feed = block[..filled].iter().rposition(|&byte| byte == b'\n');
        let end = if got == 0 { filled } else { feed.map_or(0, |feed| feed + 1) };
        let written = answer(&block[..end], &mut answers);
        output.write_all(&answers[..written])?;
        if got == 0 {
            return Ok(());
        }
        kept = (filled - end).min(LONGEST_LINE + 1);
        block.copy_within(end..end + kept, 0);
    }
}
