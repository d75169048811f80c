//! The report service in Rust, written for speed: what the unit's time is
//! measured against. Nothing is allocated.
//!
//! One pass over the file. Where the records of a point have passed, it is
//! settled by spans: the charged days are cut at its transfers and conditions,
//! of which there are at most 72, and each sum is taken over spans and not over
//! days. Only at a cut within an advance is there a division. The report is
//! written when the whole file has passed, so that a refused call leaves the
//! space as found.

mod check;
mod records;
mod report;
mod settle;
mod table;
mod year;

use settle::Point;
use year::Year;

/// The length of the report written at the front of the space, or the number
/// of the first breach.
pub fn report(file: &[u8], space: &mut [u8]) -> u64 {
    let (header, records) = match check::header(file) {
        Ok(passed) => passed,
        Err(number) => return u64::from(number),
    };
    let mut point = Point::new(Year::new(&header));
    match check::records(&header, records, &mut point) {
        Err(number) => u64::from(number),
        Ok(()) if point.table.over => 13,
        Ok(()) => report::write(&header, &point.table, space),
    }
}
