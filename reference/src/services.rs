//! The three services, working in lent space, with the numbers 13, 14 and 15.
//!
//! "A refusal returns its number, a zero answer, and leaves everything lent
//! as found. An accepted call has number 0 beside its answer; the report
//! service alone returns one number for both." "Order: ... then 12, 13; then
//! 14 or 15."

use crate::check::decode;
use crate::file::File;
use crate::report;
use crate::settlement::{self, Row, Statement};

/// "The program lends 65,536 bytes of report space."
pub const REPORT_SPACE: usize = 65_536;
/// "No report is under 52 bytes, so the two don't collide."
pub const SHORTEST_REPORT: usize = 52;
/// Number 13: "over 64 providers with a charged day".
pub const MOST_PROVIDERS: usize = 64;

/// The contents of a file that breaks none of 1 to 13, or the first number it
/// breaks.
pub fn accept(bytes: &[u8]) -> Result<File, u32> {
    let file = decode(bytes).map_err(|breach| breach.number)?;
    if settlement::providers(&file).len() > MOST_PROVIDERS {
        return Err(13);
    }
    Ok(file)
}

/// Rows: the number, and how many rows of the lent table were used.
pub fn rows(bytes: &[u8], table: &mut [Row]) -> (u32, usize) {
    let file = match accept(bytes) {
        Ok(file) => file,
        Err(number) => return (number, 0),
    };
    let count = settlement::providers(&file).len();
    // 14: "table with fewer entries than rows"
    if table.len() < count {
        return (14, 0);
    }
    settlement::settle(&file, &mut table[..count]);
    (0, count)
}

/// "Statement: for a point's place in the file, from 0".
pub fn statement(bytes: &[u8], place: usize) -> (u32, Statement) {
    statement_of(&accept(bytes), place)
}

/// The same of a file that is read already: who asks for all its places reads
/// it once.
pub fn statement_of(file: &Result<File, u32>, place: usize) -> (u32, Statement) {
    let file = match file {
        Ok(file) => file,
        Err(number) => return (*number, Statement::default()),
    };
    match file.points.get(place) {
        Some(point) => (0, settlement::statement(file, point)),
        // 15: "no point at that place"
        None => (15, Statement::default()),
    }
}

/// "Report: writes the text below and returns its length", or the refusal.
pub fn report(bytes: &[u8], space: &mut [u8]) -> usize {
    let file = match accept(bytes) {
        Ok(file) => file,
        Err(number) => return number as usize,
    };
    let text = report::text(&file.header, &settlement::rows(&file));
    // 14: "report space shorter than the report"
    if space.len() < text.len() {
        return 14;
    }
    space[..text.len()].copy_from_slice(text.as_bytes());
    text.len()
}

/// How many bytes a report's answer says were written: none of a refusal.
pub fn written(answer: usize) -> usize {
    if answer < SHORTEST_REPORT {
        0
    } else {
        answer
    }
}

/// What the report program prints for its standard input.
pub fn report_program(bytes: &[u8]) -> Vec<u8> {
    let mut space = vec![0; REPORT_SPACE];
    let answer = report(bytes, &mut space);
    match written(answer) {
        0 => report::refused(answer).into_bytes(),
        length => space[..length].to_vec(),
    }
}
