//! Printed tables by other hands, in `outside/`, compared with lines `year STYLE YEAR: SHEET; FEASTS`. Each file's head says how a
//! year is looked up, and `expected` here does it. Nothing of this program's own sheets is used, only Richards' algorithm where a
//! date must be a day number.

use crate::days::{Date, Style, style, unchecked_day};
use crate::lines::STYLES;
use crate::tables::{Tables, Told, bare, date, epact, hundredths, march, number};
use crate::years::{FIELDS, Line, parts};
use std::io::BufRead;
use std::process::ExitCode;

/// The places of a line's fields; feast F stands at FEASTS + F.
const LEAP: usize = 0;
const GOLDEN: usize = 1;
const EPACT: usize = 2;
const ARABIC: usize = 3;
const FIRST_LETTER: usize = 4;
const SECOND_LETTER: usize = 5;
const LIMIT: usize = 6;
const KEY: usize = 7;
const EASTER: usize = 8;
const FEASTS: usize = 8;

/// The feasts of Schram's table, by number: septuagesima, ashes, easter, ascension, pentecost, corpus, advent.
const SCHRAM: [usize; 7] = [1, 4, 13, 19, 21, 23, 48];

/// The feasts of Donici's table: estomihi, palms, ascension, pentecost, trinity.
const DONICI: [usize; 5] = [3, 10, 19, 21, 22];

/// A year, and what the tables say of it: places and values.
struct Found {
    style: Style,
    year: i128,
    fields: Vec<(usize, String)>,
}

impl Found {
    fn tell(&mut self, place: usize, value: impl ToString) {
        self.fields.push((place, value.to_string()));
    }

    /// Two letters are a leap year's.
    fn letters(&mut self, letters: &str) {
        self.tell(LEAP, letters.len() - 1);
        self.tell(FIRST_LETTER, &letters[..1]);
        self.tell(SECOND_LETTER, &letters[letters.len() - 1..]);
    }

    /// The day number of a date that a table has; the feasts of O have there the dates of J.
    fn day(&self, date: &Date) -> i128 {
        let style = if self.style == Style::O { Style::J } else { self.style };
        unchecked_day(style, date)
    }

    /// Easter, a day of March, is the key, which counts from 21 March of the style, the sheet's day and feast 13.
    fn easter(&mut self, march: i128) {
        let in_march = |day: i128| Date { year: self.year, month: 3, day };
        let day = self.day(&in_march(march));
        let key = day - unchecked_day(self.style, &in_march(21));
        self.tell(KEY, key);
        self.tell(EASTER, day);
        self.tell(FEASTS + 13, day);
    }

    /// A date in parentheses is a day later in a leap year; feast 13 is the sheet's Easter too.
    fn feasts(&mut self, leap: bool, feasts: &[usize], words: &[String]) -> Told<()> {
        for (feast, word) in feasts.iter().zip(words).filter(|(_, word)| *word != "-") {
            let later = i128::from(leap && word.starts_with('('));
            let day = self.day(&date(self.year, bare(word))?) + later;
            self.tell(FEASTS + feast, day);
            if *feast == 13 {
                self.tell(EASTER, day);
            }
        }
        Ok(())
    }
}

/// The remainder, and the divisor where there is none.
fn rest(sum: i128, by: i128) -> i128 {
    (sum - 1).rem_euclid(by) + 1
}

/// What a file's tables say of a year.
fn expected(tables: &Tables, style: Style, year: i128) -> Told<Found> {
    let mut found = Found { style, year, fields: vec![] };
    if style == Style::J {
        circles(tables, &mut found)?;
    }
    if style != Style::G {
        great_circle(tables, &mut found)?;
    }
    if style != Style::O {
        sums(tables, &mut found)?;
        equations(tables, &mut found)?;
    }
    Ok(found)
}

/// Document 002: letters by the sun's circle, limits by the moon's, Easter by counting on from letter to letter.
fn circles(tables: &Tables, found: &mut Found) -> Told<()> {
    let letters = tables.keyed("letters", rest(found.year + 9, 28))?;
    let limit = tables.keyed("limit", rest(found.year + 1, 19))?;
    if let Some(row) = letters {
        found.letters(&row[1]);
    }
    if let Some(row) = limit {
        found.tell(GOLDEN, &row[0]);
        found.tell(LIMIT, march(&row[1])?);
    }
    if let (Some(letters), Some(limit)) = (letters, limit) {
        let place = |word: &str| word.bytes().last().map_or(0, i128::from);
        found.easter(march(&limit[1])? + rest(place(&letters[1]) - place(&limit[2]), 7));
    }
    Ok(())
}

/// Document 004: a row for each year of the circle, and one for each of its Easter dates; the letters are those of J alone.
fn great_circle(tables: &Tables, found: &mut Found) -> Told<()> {
    let year = found.year;
    if let Some(row) = tables.row("circle", |row| Ok((number(&row[0])? - year) % 532 == 0))? {
        if found.style == Style::J && row[1] != "-" {
            found.letters(&row[1]);
        }
        found.tell(GOLDEN, rest(number(&row[2])? - 17 + 1, 19));
        found.tell(EPACT, &row[3]);
        found.easter(march(&row[4])?);
        if let Some(feasts) = tables.row("by-easter", |feasts| Ok(feasts[0] == row[4]))? {
            found.feasts(year % 4 == 0, &DONICI, &feasts[1..])?;
        }
    }
    Ok(())
}

/// Document 000: the sum of the century's number and the year's, by the style's own table and by that of both styles.
fn sums(tables: &Tables, found: &mut Found) -> Told<()> {
    let j = found.style == Style::J;
    let (centuries, years) = if j { ("j-century", "j-year") } else { ("g-century", "g-year") };
    if let Some(century) = tables.keyed(centuries, found.year / 100 * 100)? {
        for table in [years, "year"] {
            let leap = if j { table == "year" } else { century[0].starts_with('(') };
            let short = found.year % 100;
            let key = if short == 0 && leap { "(00)".to_string() } else { format!("{short:02}") };
            if let Some(row) = tables.row(table, |row| Ok(row[0] == key))? {
                taken_apart(tables, hundredths(&century[1])? + hundredths(&row[1])?, found)?;
            }
        }
    }
    Ok(())
}

/// The hundreds of a sum tell the letters, its tens and units, less 30 or 60, the moon, and both together the feasts.
fn taken_apart(tables: &Tables, sum: i128, found: &mut Found) -> Told<()> {
    let (hundreds, tens) = (sum / 10000, sum % 10000 % 3000);
    if let Some(row) = tables.keyed("hundreds", hundreds * 100)? {
        found.letters(&row[1]);
    }
    if found.style == Style::J {
        moon_in_j(tables, tens, found)?;
    } else {
        moon_in_g(tables, tens, found)?;
    }
    key_and_feasts(tables, hundreds, tens, found)
}

/// Epact, golden number and limit in J stand on one row.
fn moon_in_j(tables: &Tables, tens: i128, found: &mut Found) -> Told<()> {
    if let Some(row) = tables.keyed("j-tens", tens / 100)? {
        found.tell(EPACT, epact(&row[1])?);
        found.tell(GOLDEN, &row[2]);
        found.tell(LIMIT, march(&row[3])?);
    }
    Ok(())
}

/// Golden number, epact and limit in G, where XXV is 25 with a golden number above 11, and unknown with none.
fn moon_in_g(tables: &Tables, tens: i128, found: &mut Found) -> Told<()> {
    let between = |row: &[String]| Ok((hundredths(&row[0])?..=hundredths(&row[1])?).contains(&(tens % 100)));
    let golden = tables.row("decimals", between)?;
    if let Some(row) = golden {
        found.tell(GOLDEN, &row[2]);
    }
    if let Some(row) = tables.keyed("g-tens", tens / 100)? {
        found.tell(EPACT, epact(&row[1])?);
        let name = match golden {
            Some(golden) if row[1] == "XXV" && number(&golden[2])? > 11 => "25",
            None if row[1] == "XXV" => return Ok(()),
            _ => row[1].as_str(),
        };
        found.tell(ARABIC, i32::from(name == "25"));
        if let Some(row) = tables.row("g-column", |row| Ok(row[1] == name))? {
            found.tell(LIMIT, march(&row[0])? + 13);
        }
    }
    Ok(())
}

/// Key and feasts are found by hundreds and tens, and hundreds from 15 on are a leap year's.
fn key_and_feasts(tables: &Tables, hundreds: i128, tens: i128, found: &mut Found) -> Told<()> {
    let letter = STYLES[found.style as usize];
    let row = tables.row("feasts", |row| {
        let last = hundredths(&row[3])? + if row[3].contains('.') { 0 } else { 99 };
        Ok(row[0].contains(letter)
            && row[1].split(',').any(|word| word == hundreds.to_string())
            && (hundredths(&row[2])?..=last).contains(&tens))
    })?;
    if let Some(row) = row {
        found.tell(KEY, &row[4]);
        found.feasts(hundreds >= 15, &SCHRAM, &row[5..])?;
    }
    Ok(())
}

/// Document 001: the limit by the century's equation and the golden number, and the Easters that fall on a day replaced as limit.
fn equations(tables: &Tables, found: &mut Found) -> Told<()> {
    let century = if found.style == Style::J { "J".to_string() } else { (found.year / 100).to_string() };
    let golden = (found.year % 19 + 1).to_string();
    if let Some(equation) = tables.row("equation", |row| Ok(row[0] == century))? {
        let fits = |row: &[String]| Ok(row[0] == equation[1] && row[1] == golden);
        if let Some(row) = tables.row("limits", fits)? {
            found.tell(LIMIT, number(bare(&row[2]))? - i128::from(row[2].starts_with('(')));
        }
        if let Some(row) = tables.row("replaced", fits)? {
            found.tell(LIMIT, number(&row[2])? - 1);
        }
    }
    let exception = if found.style == Style::J { None } else { tables.keyed("exception", found.year)? };
    if let Some(row) = exception {
        found.easter(number(&row[1])?);
    }
    Ok(())
}

/// How many fields agree, or the first that does not.
fn agreeing(tables: &Tables, line: &Line) -> Told<usize> {
    let style = style(line.style).map_err(|_| "no such style".to_string())?;
    // The sheet of 1582 is refused in G and in O.
    if style != Style::J && line.year == 1582 {
        return Ok(0);
    }
    if line.sheet.len() != FIELDS.len() || line.feasts.len() != 48 {
        return Err("the line has no sheet or not all feasts".to_string());
    }
    let found = expected(tables, style, line.year)?;
    for (place, value) in &found.fields {
        let (name, read) = if *place <= FEASTS {
            (FIELDS[*place].to_string(), line.sheet[*place])
        } else {
            (format!("feast {}", place - FEASTS), line.feasts[place - FEASTS - 1])
        };
        if read != value {
            return Err(format!("{name}: the line has '{read}', the table '{value}'"));
        }
    }
    Ok(found.fields.len())
}

/// What a file's tables agree in: as many years and fields as it states, by all its rows.
fn covered(file: &str, lines: &[String]) -> Told<String> {
    let text = std::fs::read_to_string(file).map_err(|error| error.to_string())?;
    let tables = Tables::read(&text)?;
    let (mut years, mut fields) = (0, 0);
    for line in lines {
        let call = line.split(':').next().unwrap_or_default();
        let parts = parts(line).ok_or_else(|| "no line of a year".to_string());
        let count = parts.and_then(|line| agreeing(&tables, &line)).map_err(|error| format!("{call}: {error}"))?;
        years += usize::from(count > 0);
        fields += count;
    }
    if tables.covers != format!("covers {years} {fields}") {
        return Err(format!("{years} years and {fields} fields are compared, and '{}' is stated", tables.covers));
    }
    match tables.unused() {
        Some(row) => Err(format!("no year uses the row '{row}'")),
        None => Ok(format!("{years} years agree in {fields} fields")),
    }
}

/// Fails at the first file that does not agree with the lines.
pub fn compare(files: &[&str], lines: impl BufRead) -> ExitCode {
    let lines: Vec<String> = lines.lines().map(|line| line.expect("the lines can be read")).collect();
    for file in files {
        match covered(file, &lines) {
            Ok(agreed) => println!("second: {file}: {agreed}"),
            Err(error) => {
                eprintln!("second: {file}: {error}");
                return ExitCode::FAILURE;
            }
        }
    }
    ExitCode::SUCCESS
}
