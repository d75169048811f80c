//! Batches of cases, and what the services do with each.
//!
//! A case is three 4-byte numbers, most significant first (the file's length,
//! entries of the table lent, bytes of report space lent), then the file.

use std::io::Read;

use crate::services;
use crate::settlement::{Row, Statement};

/// More entries than this are not lent: the batch is refused.
pub const MOST_ENTRIES: u32 = 100_000;
/// More bytes of report space than this are not lent either.
pub const MOST_SPACE: u32 = 10_000_000;

#[derive(Clone, Debug, PartialEq, Eq)]
pub struct Case {
    pub file: Vec<u8>,
    /// Entries of the table lent.
    pub entries: u32,
    /// Bytes of report space lent.
    pub space: u32,
}

/// The next case of a batch, none at its end, or what is wrong with it.
pub fn read_case(batch: &mut impl Read) -> Result<Option<Case>, String> {
    let header = read_up_to(batch, 12)?;
    let numbers: Vec<u32> = header.chunks_exact(4).map(number).collect();
    match (header.len(), &numbers[..]) {
        (0, _) => Ok(None),
        (12, [length, entries, space]) => {
            most("entries of the table", *entries, MOST_ENTRIES)?;
            most("bytes of report space", *space, MOST_SPACE)?;
            let file = read_up_to(batch, *length)?;
            match file.len() == *length as usize {
                true => Ok(Some(Case { file, entries: *entries, space: *space })),
                false => Err(format!("a file of {length} bytes is cut short at {}", file.len())),
            }
        }
        (some, _) => Err(format!("the three numbers take 12 bytes and are cut short at {some}")),
    }
}

fn number(four: &[u8]) -> u32 {
    u32::from_be_bytes([four[0], four[1], four[2], four[3]])
}

fn most(what: &str, lent: u32, most: u32) -> Result<(), String> {
    match lent > most {
        true => Err(format!("{lent} {what}, more than the {most} this program lends")),
        false => Ok(()),
    }
}

/// That many bytes, or what there is; memory is taken only for what there is.
fn read_up_to(batch: &mut impl Read, length: u32) -> Result<Vec<u8>, String> {
    let mut bytes = Vec::new();
    let read = batch.take(u64::from(length)).read_to_end(&mut bytes);
    read.map(|_| bytes).map_err(|error| error.to_string())
}

/// The bytes of a case in a batch.
pub fn write_case(case: &Case) -> Vec<u8> {
    let mut bytes = Vec::new();
    bytes.extend((case.file.len() as u32).to_be_bytes());
    bytes.extend(case.entries.to_be_bytes());
    bytes.extend(case.space.to_be_bytes());
    bytes.extend(&case.file);
    bytes
}

/// All that the services do with a case, in lines.
pub fn lines(place: usize, case: &Case) -> String {
    let mut lines = format!("case {place}\n");
    lines += &rows_lines(case);
    lines += &statement_lines(case);
    lines += &report_lines(case);
    lines
}

/// What the lent table holds before the call: no two entries alike, and no
/// entry as the service would write it.
fn entry_found(place: usize) -> Row {
    let place = place as u64;
    let litres = u128::MAX - u128::from(place);
    Row { provider: 1 << 32 | place, days: u64::MAX, litres, charges: [1, 2, 3, 4] }
}

/// What the lent report space holds before the call: no byte of a text, and
/// no two neighbours alike.
fn byte_found(place: usize) -> u8 {
    0x80 | (place % 127) as u8
}

/// How many of what was lent are as found, from a place on.
fn kept<T: PartialEq>(lent: &[T], from: usize, found: fn(usize) -> T) -> usize {
    (from..lent.len()).filter(|place| lent[*place] == found(*place)).count()
}

fn rows_lines(case: &Case) -> String {
    let mut table: Vec<Row> = (0..case.entries as usize).map(entry_found).collect();
    let (number, count) = services::rows(&case.file, &mut table);
    let kept = kept(&table, count, entry_found);
    let mut lines = format!("rows {number} {count} {kept}\n");
    for Row { provider, days, litres, charges } in &table[..count] {
        lines += &format!("row {provider} {days} {litres} {}\n", four(charges));
    }
    lines
}

/// "places from 0 up to and including the first whose NUMBER is not 0"
fn statement_lines(case: &Case) -> String {
    let mut lines = String::new();
    let file = services::accept(&case.file);
    for place in 0.. {
        let (number, statement) = services::statement_of(&file, place);
        let Statement { days, litres, disconnected, v, y, charges } = statement;
        lines += &format!("statement {place} {number} {days} {litres} {disconnected} {v} {y} ");
        lines += &format!("{}\n", four(&charges));
        if number != 0 {
            break;
        }
    }
    lines
}

fn report_lines(case: &Case) -> String {
    let mut space: Vec<u8> = (0..case.space as usize).map(byte_found).collect();
    let answer = services::report(&case.file, &mut space);
    let length = services::written(answer);
    let kept = kept(&space, length, byte_found);
    let text = String::from_utf8_lossy(&space[..length]);
    format!("report {answer} {kept}\n{text}")
}

fn four(charges: &[u128; 4]) -> String {
    charges.map(|charge| charge.to_string()).join(" ")
}

#[cfg(test)]
mod tests {
    use super::*;

    #[test]
    fn what_is_written_is_not_kept() {
        let mut table: Vec<Row> = (0..9).map(entry_found).collect();
        assert_eq!((kept(&table, 0, entry_found), kept(&table, 4, entry_found)), (9, 5));
        table[5].charges[3] += 1;
        table.swap(7, 8);
        table[2] = Row::default();
        assert_eq!((kept(&table, 0, entry_found), kept(&table, 4, entry_found)), (5, 2));
        let mut space: Vec<u8> = (0..300).map(byte_found).collect();
        assert_eq!(kept(&space, 100, byte_found), 200);
        space[150..160].fill(0);
        space.swap(200, 201);
        assert_eq!(kept(&space, 100, byte_found), 188);
    }
}
