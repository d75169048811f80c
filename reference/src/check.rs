//! Reading a file, with the check of 1 to 12.
//!
//! "Order: 1; then each record in file order, its own numbers ascending; then
//! 12". So a record is read, which may break 2, and is then judged alone,
//! before the record after it is read: the header by 3 and 4, a band by 4 and
//! 5, a point by 4, 5 and 8, a transfer by 4, 5 and 6, a condition by 4, 5 and
//! 7, a meter by 4 and 8, a read by 4, 5, 9, 10 and 11.

use crate::bits::Cursor;
use crate::file::*;
use crate::layout::*;

/// The first breach: its number, of which record, told at which bit.
#[derive(Clone, Debug, PartialEq, Eq)]
pub struct Breach {
    pub number: u32,
    pub record: String,
    pub bit: usize,
    pub words: String,
}

type Checked = Result<(), Breach>;

/// A record and the bit where it starts.
#[derive(Clone, Debug, PartialEq, Eq)]
pub struct Placed {
    pub bit: usize,
    pub record: Record,
}

/// What came of reading a file: the records up to and including one at fault,
/// and the contents or the first breach of 1 to 12.
pub struct Reading {
    pub records: Vec<Placed>,
    pub outcome: Result<File, Breach>,
}

pub fn read(bytes: &[u8]) -> Reading {
    if bytes.len() > MOST_BYTES {
        let breach = Breach {
            number: 1,
            record: "file".into(),
            bit: MOST_BYTES * 8,
            words: format!("a byte after the first {MOST_BYTES}"),
        };
        return Reading { records: Vec::new(), outcome: Err(breach) };
    }
    let mut reader = Reader { cursor: Cursor::new(bytes), records: Vec::new() };
    let outcome = reader.file();
    Reading { records: reader.records, outcome }
}

/// The file's contents, or its first breach of 1 to 12.
pub fn decode(bytes: &[u8]) -> Result<File, Breach> {
    read(bytes).outcome
}

/// The number of the first breach of 1 to 12, or 0.
pub fn check(bytes: &[u8]) -> u32 {
    decode(bytes).map_or_else(|breach| breach.number, |_| 0)
}

/// The place of the last of these records, as "point 2 meter 0 read 5": each
/// counted from 0 among its like under the same point or meter.
fn name(layouts: &[&Layout]) -> String {
    let (own, before) = layouts.split_last().expect("a record");
    if own.depth == 0 {
        return own.keyword.into();
    }
    let above = before.iter().rposition(|layout| layout.depth < own.depth).expect("a header");
    let place = before[above..].iter().filter(|layout| layout.keyword == own.keyword).count();
    match own.depth {
        1 => format!("{} {place}", own.keyword),
        _ => format!("{} {} {place}", name(&layouts[..=above]), own.keyword),
    }
}

struct Reader<'a> {
    cursor: Cursor<'a>,
    records: Vec<Placed>,
}

impl Reader<'_> {
    fn name_of_next(&self, layout: &'static Layout) -> String {
        let read = self.records.iter().map(|placed| placed.record.layout);
        name(&read.chain([layout]).collect::<Vec<_>>())
    }

    /// The next record. Number 2: "a record lacks bits".
    fn next(&mut self, layout: &'static Layout) -> Result<Record, Breach> {
        let bit = self.cursor.bit;
        match self.cursor.record(layout) {
            Some(record) => {
                self.records.push(Placed { bit, record: record.clone() });
                Ok(record)
            }
            None => {
                let (needed, left) = (layout.width(), self.cursor.bits_left());
                let words = format!("{needed} bits needed, {left} left");
                Err(Breach { number: 2, record: self.name_of_next(layout), bit, words })
            }
        }
    }

    /// A rule of the record read last, told at the named field.
    fn rule(&self, number: u32, field: &str, holds: bool, words: &str) -> Checked {
        if holds {
            return Ok(());
        }
        let layouts: Vec<&Layout> =
            self.records.iter().map(|placed| placed.record.layout).collect();
        let placed = self.records.last().expect("a record was read");
        Err(Breach {
            number,
            record: name(&layouts),
            bit: placed.bit + placed.record.layout.bits_before(field),
            words: format!("{field} {}: {words}", placed.record.get(field)),
        })
    }

    /// Number 4: "field outside its range".
    fn range(&self, record: &Record, field: &str, least: u64, most: u64) -> Checked {
        if (least..=most).contains(&record.get(field)) {
            return Ok(());
        }
        self.rule(4, field, false, &format!("outside its range, {least} to {most}"))
    }

    /// "A day is 0 to 65,534", unless it may be none.
    fn day(&self, record: &Record, field: &str) -> Checked {
        self.range(record, field, 0, LAST_DAY)
    }

    /// Number 5: "not strictly ascending".
    fn ascending(&self, record: &Record, field: &str, earlier: Option<u64>) -> Checked {
        match earlier {
            Some(earlier) if earlier >= record.get(field) => {
                let words = format!("not strictly ascending after {earlier}");
                self.rule(5, field, false, &words)
            }
            _ => Ok(()),
        }
    }

    fn file(&mut self) -> Result<File, Breach> {
        let record = self.header()?;
        let mut file = File { header: Header::of(&record), ..File::default() };
        for _ in 0..record.get("bands") {
            let band = self.band(file.bands.last())?;
            file.bands.push(band);
        }
        for _ in 0..record.get("points") {
            let point = self.point(file.points.last(), file.header.sewerage)?;
            file.points.push(point);
        }
        self.end()?;
        Ok(file)
    }

    fn header(&mut self) -> Result<Record, Breach> {
        // the version says how long the header is, so it is looked at first: it
        // follows the 16 bits of the mark in either
        let version = self.cursor.ahead(16, 4);
        let record = self.next(header_layout(version))?;
        self.rule(3, "mark", record.get("mark") == MARK, "not hexadecimal 5753, which is 22355")?;
        // "version 4-bit values other than 1 and 2 are still number 3"
        let known = [VERSION_1, VERSION_2].contains(&version);
        self.rule(3, "version", known, "neither 1 nor 2")?;
        self.range(&record, "year", 2020, 2098)?;
        self.range(&record, "bands", 1, 24)?;
        self.range(&record, "points", 1, most_points(version))?;
        // "cp per pound, 0 to 10,000; 0 in a water file"
        let most = if record.is_set("service") { 10_000 } else { 0 };
        self.range(&record, "property", 0, most)?;
        self.range(&record, "roads", 0, most)?;
        self.range(&record, "capacity", 0, 100_000)?;
        self.range(&record, "standard", 0, 100_000)?;
        Ok(record)
    }

    fn band(&mut self, earlier: Option<&Band>) -> Result<Band, Breach> {
        let record = self.next(&BAND)?;
        self.range(&record, "size", 1, 65_535)?;
        self.range(&record, "annual", 0, 1_000_000_000)?;
        self.range(&record, "allowance", 0, 1_000_000)?;
        // "to 10,000,000, not below the allowance"
        self.range(&record, "threshold", record.get("allowance"), 10_000_000)?;
        self.ascending(&record, "size", earlier.map(|band| band.size))?;
        Ok(Band::of(&record))
    }

    fn point(&mut self, earlier: Option<&Point>, sewerage: bool) -> Result<Point, Breach> {
        let record = self.next(&POINT)?;
        self.day(&record, "connected")?;
        self.range(&record, "transfers", 1, 24)?;
        self.range(&record, "conditions", 0, 48)?;
        self.range(&record, "meters", 0, 16)?;
        self.ascending(&record, "number", earlier.map(|point| point.number))?;
        let mut point = Point::of(&record);
        let holds = point.disconnected == NONE || point.disconnected >= point.connected;
        self.rule(8, "disconnected", holds, "disconnection before connection")?;
        for _ in 0..record.get("transfers") {
            let transfer = self.transfer(&point)?;
            point.transfers.push(transfer);
        }
        for _ in 0..record.get("conditions") {
            let condition = self.condition(point.conditions.last(), sewerage)?;
            point.conditions.push(condition);
        }
        for _ in 0..record.get("meters") {
            point.meters.push(self.meter(sewerage)?);
        }
        Ok(point)
    }

    fn transfer(&mut self, point: &Point) -> Result<Transfer, Breach> {
        let record = self.next(&TRANSFER)?;
        self.day(&record, "day")?;
        self.range(&record, "provider", 1, 65_535)?;
        let earlier = point.transfers.last();
        self.ascending(&record, "day", earlier.map(|transfer| transfer.day))?;
        let transfer = Transfer::of(&record);
        let holds = earlier.is_some() || transfer.day <= point.connected;
        self.rule(6, "day", holds, "first transfer after connection")?;
        Ok(transfer)
    }

    fn condition(
        &mut self,
        earlier: Option<&Condition>,
        sewerage: bool,
    ) -> Result<Condition, Breach> {
        let record = self.next(&CONDITION)?;
        self.day(&record, "day")?;
        // "the last two 0 in a water file"
        let most = u64::from(sewerage);
        self.range(&record, "property", 0, most)?;
        self.range(&record, "roads", 0, most)?;
        self.range(&record, "schedule3", 0, 10_000)?;
        self.range(&record, "section29e", 0, 10_000)?;
        self.range(&record, "value", 0, 10_000_000)?;
        self.ascending(&record, "day", earlier.map(|condition| condition.day))?;
        let condition = Condition::of(&record);
        let holds = condition.schedule3 + condition.section29e <= 10_000;
        self.rule(7, "section29e", holds, "with schedule3 above 10,000")?;
        Ok(condition)
    }

    fn meter(&mut self, sewerage: bool) -> Result<Meter, Breach> {
        let record = self.next(&METER)?;
        self.range(&record, "share", 0, 100)?;
        // "return is 100 in a water file"
        self.range(&record, "return", if sewerage { 0 } else { 100 }, 100)?;
        self.range(&record, "digits", 4, 8)?;
        self.day(&record, "installed")?;
        self.range(&record, "reads", 0, 40)?;
        let mut meter = Meter::of(&record);
        let holds = meter.removed == NONE || meter.removed >= meter.installed;
        self.rule(8, "removed", holds, "removal before installation")?;
        for _ in 0..record.get("reads") {
            let read = self.meter_read(&meter)?;
            meter.reads.push(read);
        }
        Ok(meter)
    }

    fn meter_read(&mut self, meter: &Meter) -> Result<Read, Breach> {
        let record = self.next(&READ)?;
        let read = Read::of(&record);
        let earlier = meter.reads.last();
        self.day(&record, "day")?;
        // "below 10 to the power digits"
        self.range(&record, "value", 0, 10_u64.pow(meter.digits as u32) - 1)?;
        self.ascending(&record, "day", earlier.map(|read| read.day))?;
        self.rule(9, "day", read.day >= meter.installed, "read before installation")?;
        let holds = meter.removed == NONE || read.day <= meter.removed;
        self.rule(9, "day", holds, "read after removal")?;
        match earlier {
            None => self.rule(10, "rollover", !read.rollover, "set on a first read")?,
            Some(earlier) => self.successive(earlier, &read)?,
        }
        Ok(read)
    }

    /// What a read may break together with the one before it.
    fn successive(&self, earlier: &Read, read: &Read) -> Checked {
        let falls = read.value < earlier.value;
        let words = "not set exactly when the value falls";
        self.rule(10, "rollover", read.rollover == falls, words)?;
        let days = read.day - earlier.day;
        self.rule(11, "day", days <= 3_660, "over 3,660 days after the read before")
    }

    /// Number 12. "Bits after the last record are zero to the end of that
    /// byte, and no byte follows."
    fn end(&mut self) -> Checked {
        let record = || "end of file".to_string();
        while !self.cursor.bit.is_multiple_of(8) {
            let bit = self.cursor.bit;
            if self.cursor.field(1) != 0 {
                let words = "padding bit set".into();
                return Err(Breach { number: 12, record: record(), bit, words });
            }
        }
        match self.cursor.bits_left() / 8 {
            0 => Ok(()),
            more => {
                let words = format!("bytes after the last record: {more}");
                Err(Breach { number: 12, record: record(), bit: self.cursor.bit, words })
            }
        }
    }
}
