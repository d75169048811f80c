//! A settlement file's contents. The counts in its records are the lengths
//! of the lists here.

use crate::bits;
use crate::layout::*;

/// "mark 16 (hexadecimal 5753)"
pub const MARK: u64 = 0x5753;
/// "version 4 (1)"
pub const VERSION_1: u64 = 1;
/// "Version 2 of the file widens the point count".
pub const VERSION_2: u64 = 2;
/// "65,535 means none and stands only for disconnection and removal."
pub const NONE: u64 = 65_535;
/// "A day is 0 to 65,534".
pub const LAST_DAY: u64 = 65_534;
/// Number 1: "over 65,536 bytes".
pub const MOST_BYTES: usize = 65_536;

#[derive(Clone, Debug, Default, PartialEq, Eq)]
pub struct File {
    pub header: Header,
    pub bands: Vec<Band>,
    pub points: Vec<Point>,
}

#[derive(Clone, Debug, PartialEq, Eq)]
pub struct Header {
    pub mark: u64,
    pub version: u64,
    pub sewerage: bool,
    pub year: u64,
    /// Property drainage price, cp per pound of rateable value.
    pub property: u64,
    /// Roads drainage price, cp per pound of rateable value.
    pub roads: u64,
    /// Capacity rate, cp per m³.
    pub capacity: u64,
    /// Standard rate, cp per m³.
    pub standard: u64,
}

impl Default for Header {
    /// A header without prices and rates.
    fn default() -> Header {
        let (mark, version) = (MARK, VERSION_1);
        let (sewerage, year) = (false, 2020);
        let (property, roads, capacity, standard) = (0, 0, 0, 0);
        Header { mark, version, sewerage, year, property, roads, capacity, standard }
    }
}

/// A band of the tariff.
#[derive(Clone, Debug, Default, PartialEq, Eq)]
pub struct Band {
    /// From this meter size on, mm.
    pub size: u64,
    /// Annual charge, cp.
    pub annual: u64,
    /// Free allowance, m³.
    pub allowance: u64,
    /// Threshold, m³.
    pub threshold: u64,
}

/// A supply point.
#[derive(Clone, Debug, Default, PartialEq, Eq)]
pub struct Point {
    pub number: u64,
    pub connected: u64,
    pub disconnected: u64,
    pub transfers: Vec<Transfer>,
    pub conditions: Vec<Condition>,
    pub meters: Vec<Meter>,
}

/// From its day on the point belongs to the provider.
#[derive(Clone, Debug, Default, PartialEq, Eq)]
pub struct Transfer {
    pub day: u64,
    pub provider: u64,
}

/// What holds at a point from its day on.
#[derive(Clone, Debug, Default, PartialEq, Eq)]
pub struct Condition {
    pub day: u64,
    pub vacant: bool,
    pub disconnected: bool,
    /// Property drainage is charged.
    pub property: bool,
    /// Roads drainage is charged.
    pub roads: bool,
    /// Schedule 3 discount, hundredths of a percent.
    pub schedule3: u64,
    /// Section 29E discount, hundredths of a percent.
    pub section29e: u64,
    /// Live rateable value, pounds.
    pub value: u64,
}

#[derive(Clone, Debug, Default, PartialEq, Eq)]
pub struct Meter {
    /// Tariff size, mm.
    pub size: u64,
    /// The point's share of the meter, percent.
    pub share: u64,
    /// Return to sewer, percent.
    pub return_to_sewer: u64,
    /// How many digits the meter shows.
    pub digits: u64,
    pub installed: u64,
    pub removed: u64,
    pub reads: Vec<Read>,
}

#[derive(Clone, Debug, Default, PartialEq, Eq)]
pub struct Read {
    pub day: u64,
    pub rollover: bool,
    /// m³.
    pub value: u64,
}

/// The header of a version. Of one that is neither 1 nor 2 only the length
/// counts, since 2 comes before 3: it is taken for version 1's, and either of
/// the two takes 14 bytes.
pub fn header_layout(version: u64) -> &'static Layout {
    match version {
        VERSION_2 => &HEADER_2,
        _ => &HEADER_1,
    }
}

/// The most points of a version: "points 7 (1 to 64)"; "9 bits (1 to 256)".
pub fn most_points(version: u64) -> u64 {
    match version {
        VERSION_2 => 256,
        _ => 64,
    }
}

fn count<T>(list: &[T]) -> u64 {
    list.len() as u64
}

impl File {
    /// "Fields are read in turn from the front: the header, all bands, all
    /// points."
    pub fn records(&self) -> Vec<Record> {
        let mut records = vec![self.header.record(&self.bands, &self.points)];
        records.extend(self.bands.iter().map(Band::record));
        for point in &self.points {
            records.extend(point.records());
        }
        records
    }

    pub fn to_bytes(&self) -> Vec<u8> {
        bits::to_bytes(&self.records())
    }

    /// How many bits the records take.
    pub fn bit_length(&self) -> usize {
        self.records().iter().map(|record| record.layout.width()).sum()
    }
}

impl Header {
    pub fn of(record: &Record) -> Header {
        Header {
            mark: record.get("mark"),
            version: record.get("version"),
            sewerage: record.is_set("service"),
            year: record.get("year"),
            property: record.get("property"),
            roads: record.get("roads"),
            capacity: record.get("capacity"),
            standard: record.get("standard"),
        }
    }

    fn record(&self, bands: &[Band], points: &[Point]) -> Record {
        let Header { mark, version, sewerage, year, property, roads, capacity, standard } = *self;
        let service = u64::from(sewerage);
        let (bands, points) = (count(bands), count(points));
        let values =
            vec![mark, version, service, year, bands, points, property, roads, capacity, standard];
        Record::new(header_layout(version), values)
    }
}

impl Band {
    pub fn of(record: &Record) -> Band {
        Band {
            size: record.get("size"),
            annual: record.get("annual"),
            allowance: record.get("allowance"),
            threshold: record.get("threshold"),
        }
    }

    fn record(&self) -> Record {
        Record::new(&BAND, vec![self.size, self.annual, self.allowance, self.threshold])
    }
}

impl Point {
    /// The point without its lists.
    pub fn of(record: &Record) -> Point {
        Point {
            number: record.get("number"),
            connected: record.get("connected"),
            disconnected: record.get("disconnected"),
            ..Point::default()
        }
    }

    /// "Then those records, in that order, each meter followed by its reads."
    fn records(&self) -> Vec<Record> {
        let transfers = count(&self.transfers);
        let conditions = count(&self.conditions);
        let meters = count(&self.meters);
        let values =
            vec![self.number, self.connected, self.disconnected, transfers, conditions, meters];
        let mut records = vec![Record::new(&POINT, values)];
        records.extend(self.transfers.iter().map(Transfer::record));
        records.extend(self.conditions.iter().map(Condition::record));
        for meter in &self.meters {
            records.push(meter.record());
            records.extend(meter.reads.iter().map(Read::record));
        }
        records
    }
}

impl Transfer {
    pub fn of(record: &Record) -> Transfer {
        Transfer { day: record.get("day"), provider: record.get("provider") }
    }

    fn record(&self) -> Record {
        Record::new(&TRANSFER, vec![self.day, self.provider])
    }
}

impl Condition {
    pub fn of(record: &Record) -> Condition {
        Condition {
            day: record.get("day"),
            vacant: record.is_set("vacant"),
            disconnected: record.is_set("disconnected"),
            property: record.is_set("property"),
            roads: record.is_set("roads"),
            schedule3: record.get("schedule3"),
            section29e: record.get("section29e"),
            value: record.get("value"),
        }
    }

    fn record(&self) -> Record {
        let [vacant, disconnected, property, roads] =
            [self.vacant, self.disconnected, self.property, self.roads].map(u64::from);
        let values = vec![
            self.day,
            vacant,
            disconnected,
            property,
            roads,
            self.schedule3,
            self.section29e,
            self.value,
        ];
        Record::new(&CONDITION, values)
    }
}

impl Meter {
    /// The meter without its reads.
    pub fn of(record: &Record) -> Meter {
        Meter {
            size: record.get("size"),
            share: record.get("share"),
            return_to_sewer: record.get("return"),
            digits: record.get("digits"),
            installed: record.get("installed"),
            removed: record.get("removed"),
            reads: Vec::new(),
        }
    }

    fn record(&self) -> Record {
        let values = vec![
            self.size,
            self.share,
            self.return_to_sewer,
            self.digits,
            self.installed,
            self.removed,
            count(&self.reads),
        ];
        Record::new(&METER, values)
    }
}

impl Read {
    pub fn of(record: &Record) -> Read {
        Read {
            day: record.get("day"),
            rollover: record.is_set("rollover"),
            value: record.get("value"),
        }
    }

    fn record(&self) -> Record {
        Record::new(&READ, vec![self.day, u64::from(self.rollover), self.value])
    }
}
