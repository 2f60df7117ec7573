//! The rows of a file of printed tables, and the words in them. A row is a table's name and its words; the last row of a file,
//! `covers YEARS FIELDS`, says how much is to be compared.

use crate::days::Date;
use std::cell::Cell;
use std::collections::BTreeMap;

/// The tables, and how many words their rows have.
const TABLES: [(&str, usize); 19] = [
    ("letters", 2),
    ("limit", 3),
    ("circle", 5),
    ("by-easter", 6),
    ("j-century", 2),
    ("j-year", 2),
    ("g-century", 2),
    ("g-year", 2),
    ("year", 2),
    ("hundreds", 2),
    ("decimals", 3),
    ("j-tens", 4),
    ("g-tens", 2),
    ("g-column", 2),
    ("feasts", 12),
    ("equation", 2),
    ("limits", 3),
    ("replaced", 3),
    ("exception", 2),
];

/// A value, or what is wrong.
pub type Told<T> = Result<T, String>;

pub fn number(word: &str) -> Told<i128> {
    word.parse().map_err(|_| format!("'{word}' is no number"))
}

/// A number with or without two decimals, in hundredths.
pub fn hundredths(word: &str) -> Told<i128> {
    match word.split_once('.') {
        Some((whole, decimals)) if decimals.len() == 2 => Ok(100 * number(whole)? + number(decimals)?),
        _ => Ok(100 * number(word)?),
    }
}

pub fn bare(word: &str) -> &str {
    word.trim_matches(|c| c == '(' || c == ')')
}

pub fn date(year: i128, word: &str) -> Told<Date> {
    let (day, month) = word.split_once('.').ok_or_else(|| format!("'{word}' is no date"))?;
    Ok(Date { year, month: number(month)?, day: number(day)? })
}

/// A date in March or April as a day of March.
pub fn march(word: &str) -> Told<i128> {
    let date = date(0, word)?;
    Ok(date.day + 31 * (date.month - 3))
}

/// An epact in Roman numerals, the star or 25.
pub fn epact(word: &str) -> Told<i128> {
    let mut sum = 0;
    for (i, c) in word.chars().enumerate() {
        sum += match (c, word.chars().nth(i + 1)) {
            ('I', Some('V' | 'X')) => -1,
            ('I', _) => 1,
            ('V', _) => 5,
            ('X', _) => 10,
            ('*', None) => 0,
            _ => return number(word),
        };
    }
    Ok(sum)
}

struct Row {
    words: Vec<String>,
    used: Cell<bool>,
}

pub struct Tables {
    tables: BTreeMap<String, Vec<Row>>,
    /// The last row.
    pub covers: String,
}

impl Tables {
    /// Rows of words, less comments.
    pub fn read(text: &str) -> Told<Tables> {
        let mut lines: Vec<&str> = text.lines().filter(|line| !line.starts_with('#')).collect();
        let covers = lines.pop().filter(|line| line.starts_with("covers "));
        let covers = covers.ok_or("the last row is not 'covers YEARS FIELDS'")?.to_string();
        let mut tables: BTreeMap<String, Vec<Row>> = BTreeMap::new();
        for line in lines {
            let (table, rest) = line.split_once(' ').unwrap_or((line, ""));
            let words: Vec<String> = rest.split(' ').map(str::to_string).collect();
            if !TABLES.contains(&(table, words.len())) {
                return Err(format!("'{line}' is no row of a table"));
            }
            tables.entry(table.to_string()).or_default().push(Row { words, used: Cell::new(false) });
        }
        Ok(Tables { tables, covers })
    }

    /// The only row of a table that fits, if there is one; it is then used.
    pub fn row(&self, table: &str, fits: impl Fn(&[String]) -> Told<bool>) -> Told<Option<&[String]>> {
        let mut found: Option<&Row> = None;
        for row in self.tables.get(table).into_iter().flatten() {
            let named = |error| format!("{table} {}: {error}", row.words.join(" "));
            if fits(&row.words).map_err(named)? {
                if found.is_some() {
                    return Err(named("another row has that key".to_string()));
                }
                found = Some(row);
            }
        }
        Ok(found.map(|row| {
            row.used.set(true);
            &row.words[..]
        }))
    }

    pub fn keyed(&self, table: &str, key: i128) -> Told<Option<&[String]>> {
        self.row(table, |row| Ok(number(bare(&row[0]))? == key))
    }

    /// The first row that no year has used.
    pub fn unused(&self) -> Option<String> {
        let rows = self.tables.iter().flat_map(|(table, rows)| rows.iter().map(move |row| (table, row)));
        let mut unused = rows.filter(|(_, row)| !row.used.get());
        unused.next().map(|(table, row)| format!("{table} {}", row.words.join(" ")))
    }
}
