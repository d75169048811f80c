//! A readable text form of a settlement file.
//!
//! ```text
//! header service water year 2021 property 0 roads 0 capacity 2000 standard 1000
//! band size 20 annual 365000 allowance 0 threshold 100
//! point number 7 connected 7000 disconnected none
//!   transfer day 7000 provider 3
//!   condition day 7800 vacant schedule3 0 section29e 2000 value 10000
//!   meter size 20 share 100 return 100 digits 5 installed 7000 removed none
//!     read day 7761 value 99900
//!     read day 8126 rollover value 265
//! ```
//!
//! One record a line: a keyword, then its fields in any order, each a name
//! and a value. Blank space is free; `#` starts a comment to the line's end.
//! A transfer, condition or meter belongs to the point above it, a read to
//! the meter above it; the counts in the file follow from the lines. A flag
//! stands alone: named is 1, unnamed is 0. Values are decimal, or hexadecimal
//! after `0x`; a day may be `none` (65535); the service is `water` or
//! `sewerage`. The mark and the version may be left out; the version is then 1.
//! Values must fit the width of their fields, but need not obey the documents, so
//! that most breaches can be written.

use crate::file::*;
use crate::layout::*;

/// A record as a line: the keyword and all fields but the counts.
pub fn line(record: &Record) -> String {
    let mut line = "  ".repeat(record.layout.depth.saturating_sub(1)) + record.layout.keyword;
    for (field, value) in record.layout.fields.iter().zip(&record.values) {
        let name = field.name;
        line += &match (field.kind, *value) {
            (Kind::Count, _) | (Kind::Flag, 0) => String::new(),
            (Kind::Flag, _) => format!(" {name}"),
            (Kind::Mark, mark) => format!(" {name} {mark:#06x}"),
            (Kind::Service, 0) => format!(" {name} water"),
            (Kind::Service, _) => format!(" {name} sewerage"),
            (Kind::Day, NONE) => format!(" {name} none"),
            (Kind::Number | Kind::Version | Kind::Day, value) => format!(" {name} {value}"),
        };
    }
    line
}

/// The text form of a file.
pub fn print(file: &File) -> String {
    file.records().iter().map(|record| line(record) + "\n").collect()
}

/// The file of a text, or what is wrong in which line.
pub fn parse(text: &str) -> Result<File, String> {
    let mut file = File::default();
    let mut headers = 0;
    for (index, line) in text.lines().enumerate() {
        let words = line.split('#').next().unwrap_or_default().split_whitespace();
        let words: Vec<&str> = words.collect();
        if let Some((keyword, words)) = words.split_first() {
            headers += usize::from(*keyword == HEADER_1.keyword);
            let added = add_record(&mut file, keyword, words);
            added.map_err(|error| format!("line {}: {keyword}: {error}", index + 1))?;
        }
    }
    if headers != 1 {
        return Err(format!("{headers} header lines, where one is needed"));
    }
    // only now is the version known, since the header may stand anywhere
    fits(file.points.len(), header_layout(file.header.version), "points")?;
    Ok(file)
}

fn add_record(file: &mut File, keyword: &str, words: &[&str]) -> Result<(), String> {
    match keyword {
        "header" => {
            // both versions have the same fields, and a text tells no count
            file.header = Header::of(&parse_record(&HEADER_1, words)?);
            Ok(())
        }
        "band" => push(&mut file.bands, Band::of(&parse_record(&BAND, words)?), &HEADER_1, "bands"),
        "point" => {
            file.points.push(Point::of(&parse_record(&POINT, words)?));
            Ok(())
        }
        "transfer" | "condition" | "meter" | "read" => {
            let point = file.points.last_mut().ok_or("no point above it")?;
            add_to_point(point, keyword, words)
        }
        _ => Err("no such record".into()),
    }
}

fn add_to_point(point: &mut Point, keyword: &str, words: &[&str]) -> Result<(), String> {
    match keyword {
        "transfer" => {
            let transfer = Transfer::of(&parse_record(&TRANSFER, words)?);
            push(&mut point.transfers, transfer, &POINT, "transfers")
        }
        "condition" => {
            let condition = Condition::of(&parse_record(&CONDITION, words)?);
            push(&mut point.conditions, condition, &POINT, "conditions")
        }
        "meter" => {
            let meter = Meter::of(&parse_record(&METER, words)?);
            push(&mut point.meters, meter, &POINT, "meters")
        }
        _ => {
            let meter = point.meters.last_mut().ok_or("no meter above it")?;
            push(&mut meter.reads, Read::of(&parse_record(&READ, words)?), &METER, "reads")
        }
    }
}

/// Adds to a list, whose length must fit its count in the record above.
fn push<T>(list: &mut Vec<T>, item: T, above: &Layout, count: &str) -> Result<(), String> {
    list.push(item);
    fits(list.len(), above, count)
}

/// Whether a count can tell that many.
fn fits(length: usize, above: &Layout, count: &str) -> Result<(), String> {
    let width = above.field(count).width;
    match length >> width {
        0 => Ok(()),
        _ => Err(format!("more {count} than a count of {width} bits can tell")),
    }
}

fn parse_record(layout: &'static Layout, words: &[&str]) -> Result<Record, String> {
    let mut given = vec![None; layout.fields.len()];
    let mut words = words.iter();
    while let Some(word) = words.next() {
        let place = layout.fields.iter().position(|field| field.name == *word);
        let place = place.ok_or_else(|| format!("no such field: {word}"))?;
        let field = &layout.fields[place];
        let value = match field.kind {
            Kind::Count => return Err(format!("{word} follows from the lines")),
            Kind::Flag => 1,
            _ => {
                let value = words.next().ok_or_else(|| format!("{word} has no value"))?;
                parse_value(field, value)?
            }
        };
        if given[place].replace(value).is_some() {
            return Err(format!("{word} is given twice"));
        }
    }
    let fields = layout.fields.iter().zip(given);
    let values = fields.map(|(field, value)| value.map_or_else(|| unsaid(field), Ok));
    Ok(Record::new(layout, values.collect::<Result<_, _>>()?))
}

/// The value of a field that the line does not give.
fn unsaid(field: &Field) -> Result<u64, String> {
    match field.kind {
        Kind::Mark => Ok(MARK),
        Kind::Version => Ok(VERSION_1),
        Kind::Count | Kind::Flag => Ok(0),
        _ => Err(format!("{} is missing", field.name)),
    }
}

fn parse_value(field: &Field, word: &str) -> Result<u64, String> {
    let value = match (field.kind, word) {
        (Kind::Day, "none") => NONE,
        (Kind::Service, "water") => 0,
        (Kind::Service, "sewerage") => 1,
        _ => parse_number(word)?,
    };
    match value >> field.width {
        0 => Ok(value),
        _ => Err(format!("{} {value} needs over {} bits", field.name, field.width)),
    }
}

fn parse_number(word: &str) -> Result<u64, String> {
    let (digits, radix) = match word.strip_prefix("0x") {
        Some(digits) => (digits, 16),
        None => (word, 10),
    };
    let number = u64::from_str_radix(digits, radix).ok();
    // a sign would be read too, and is no digit
    let number = number.filter(|_| digits.chars().all(|digit| digit.is_digit(radix)));
    number.ok_or_else(|| format!("not a number: {word}"))
}
