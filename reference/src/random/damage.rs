//! Damage to a valid file's records or bytes. A damage is aimed at a number;
//! what the file breaks first may still be another.

use super::Rng;
use crate::bits;
use crate::file::*;
use crate::layout::*;

/// The bytes of a file damaged in one way.
pub fn once(rng: &mut Rng, file: &File) -> Vec<u8> {
    let aim = rng.below(14);
    aimed(rng, file, aim)
}

/// The same, without the damage that takes over 65,536 bytes.
pub fn once_small(rng: &mut Rng, file: &File) -> Vec<u8> {
    let aim = *rng.pick(&[0, 2, 3, 4, 5, 6, 7, 8, 9, 10, 11, 12, 13]);
    aimed(rng, file, aim)
}

/// Damage aimed at a number of 1 to 12; 0 is a wrong count, 13 a flipped bit.
fn aimed(rng: &mut Rng, file: &File, aim: u64) -> Vec<u8> {
    let mut records = file.records();
    match aim {
        1 | 2 | 12 | 13 => {}
        _ => until_done(rng, &mut records, aim),
    }
    let mut bytes = bits::to_bytes(&records);
    match aim {
        1 => lengthen(rng, &mut bytes),
        2 => cut_short(rng, &mut bytes),
        12 => after_the_end(rng, &mut bytes),
        13 => flip(rng, &mut bytes),
        _ => {}
    }
    bytes
}

/// The bytes of a file damaged in several ways: several fields of one record,
/// and perhaps some more elsewhere, so that the order of numbers decides.
pub fn twice(rng: &mut Rng, file: &File) -> Vec<u8> {
    let mut records = file.records();
    let place = rng.below(records.len() as u64) as usize;
    scramble(rng, &mut records, place);
    if rng.one_in(3) {
        let aim = rng.below(14);
        until_done(rng, &mut records, aim);
    }
    let mut bytes = bits::to_bytes(&records);
    match rng.below(8) {
        0 => cut_short(rng, &mut bytes),
        1 => after_the_end(rng, &mut bytes),
        2 => {
            // a header that lacks bits, whatever its mark
            bytes.truncate(rng.between(0, 14) as usize);
        }
        _ => {}
    }
    bytes
}

/// Does the damage, or one aimed elsewhere where the file has no such record.
fn until_done(rng: &mut Rng, records: &mut [Record], aim: u64) {
    let mut aim = aim;
    while !damage(rng, records, aim) {
        aim = rng.between(3, 11);
    }
}

/// Whether the damage aimed at that number could be done.
fn damage(rng: &mut Rng, records: &mut [Record], aim: u64) -> bool {
    match aim {
        0 => wrong_count(rng, records),
        3 => mark_or_version(rng, records),
        4 => out_of_range(rng, records),
        5 => not_ascending(rng, records),
        6 => late_first_transfer(rng, records),
        7 => discounts(rng, records),
        8 => ends_before_start(rng, records),
        9 => read_outside(rng, records),
        10 => rollover(rng, records),
        11 => reads_far_apart(rng, records),
        _ => false,
    }
}

/// The place of the record that the one at `place` belongs to.
fn above(records: &[Record], place: usize) -> Option<usize> {
    let depth = records[place].layout.depth;
    records[..place].iter().rposition(|record| record.layout.depth < depth)
}

/// The place of the record before it in the same list.
fn before(records: &[Record], place: usize) -> Option<usize> {
    let least = above(records, place).unwrap_or(0);
    let like = |before: &usize| records[*before].layout == records[place].layout;
    (least..place).rev().find(like)
}

/// Any record that will do.
fn any(
    rng: &mut Rng,
    records: &[Record],
    will_do: impl Fn(usize, &Record) -> bool,
) -> Option<usize> {
    let places: Vec<usize> =
        (0..records.len()).filter(|place| will_do(*place, &records[*place])).collect();
    match places.len() {
        0 => None,
        _ => Some(*rng.pick(&places)),
    }
}

fn is_a(record: &Record, layout: &'static Layout) -> bool {
    record.layout == layout
}

/// A count that lies: by one, or by as much as its bits can tell; of four, one
/// time one of the header's.
fn wrong_count(rng: &mut Rng, records: &mut [Record]) -> bool {
    let has_count =
        |record: &Record| record.layout.fields.iter().any(|field| field.kind == Kind::Count);
    let place =
        if rng.one_in(4) { Some(0) } else { any(rng, records, |_, record| has_count(record)) };
    let Some(place) = place else { return false };
    let record = &mut records[place];
    let counts = record.layout.fields.iter().filter(|field| field.kind == Kind::Count);
    let counts: Vec<&Field> = counts.collect();
    let field = *rng.pick(&counts);
    let count = record.get(field.name);
    let wrong = match rng.below(3) {
        0 => count.saturating_sub(1),
        1 => (count + 1).min(field.widest()),
        _ => rng.field(0, field.widest()),
    };
    record.set(field.name, wrong);
    true
}

fn mark_or_version(rng: &mut Rng, records: &mut [Record]) -> bool {
    match rng.below(2) {
        0 => records[0].set("mark", MARK ^ 1 << rng.below(16)),
        _ => {
            let version = other_version(rng, records[0].get("version"));
            records[0].set("version", version);
        }
    }
    true
}

/// Another version over the same bits: one that there is not, or the other one,
/// whose later fields stand two bits further on or back.
fn other_version(rng: &mut Rng, version: u64) -> u64 {
    match rng.below(5) {
        0 => 0,
        1 => 3,
        2 => 15,
        3 => rng.between(4, 14),
        _ if version == VERSION_1 => VERSION_2,
        _ => VERSION_1,
    }
}

/// The range of a field, where it is narrower than its width.
fn range(records: &[Record], place: usize, name: &str) -> Option<(u64, u64)> {
    let record = &records[place];
    let sewerage = records[0].is_set("service");
    let version = records[0].get("version");
    let price = if sewerage { 10_000 } else { 0 };
    Some(match (record.layout.keyword, name) {
        ("header", "year") => (2020, 2098),
        ("header", "bands") => (1, 24),
        ("header", "points") => (1, most_points(version)),
        ("header", "property" | "roads") => (0, price),
        ("header", "capacity" | "standard") => (0, 100_000),
        ("band", "size") => (1, 65_535),
        ("band", "annual") => (0, 1_000_000_000),
        ("band", "allowance") => (0, record.get("threshold").min(1_000_000)),
        ("band", "threshold") => (record.get("allowance"), 10_000_000),
        ("point", "connected") | ("meter", "installed") => (0, LAST_DAY),
        ("transfer" | "condition" | "read", "day") => (0, LAST_DAY),
        ("point", "transfers") => (1, 24),
        ("point", "conditions") => (0, 48),
        ("point", "meters") => (0, 16),
        ("transfer", "provider") => (1, 65_535),
        ("condition", "property" | "roads") if !sewerage => (0, 0),
        ("condition", "schedule3" | "section29e") => (0, 10_000),
        ("condition", "value") => (0, 10_000_000),
        ("meter", "share") => (0, 100),
        ("meter", "return") => (if sewerage { 0 } else { 100 }, 100),
        ("meter", "digits") => (4, 8),
        ("meter", "reads") => (0, 40),
        ("read", "value") => {
            let digits = records[above(records, place)?].get("digits");
            (0, 10_u64.pow(digits.clamp(4, 8) as u32) - 1)
        }
        _ => return None,
    })
}

/// A value outside the field's range.
fn outside(rng: &mut Rng, records: &[Record], place: usize, field: &Field) -> Option<u64> {
    let (least, most) = range(records, place, field.name)?;
    let widest = field.widest();
    match (least > 0, most < widest) {
        (true, true) if rng.one_in(2) => Some(rng.field(0, least - 1)),
        (_, true) => Some(rng.field(most + 1, widest)),
        (true, false) => Some(rng.field(0, least - 1)),
        (false, false) => None,
    }
}

/// A field of any record, each kind of record as often, out of its range; of
/// four, one time the count of points, whose range is the version's.
fn out_of_range(rng: &mut Rng, records: &mut [Record]) -> bool {
    let header = records[0].layout;
    let layouts = [header, &BAND, &POINT, &TRANSFER, &CONDITION, &METER, &READ];
    let (layout, field) = if rng.one_in(4) {
        (header, header.field("points"))
    } else {
        let layout = *rng.pick(&layouts);
        (layout, rng.pick(layout.fields))
    };
    let Some(place) = any(rng, records, |_, record| is_a(record, layout)) else { return false };
    let Some(value) = outside(rng, records, place, field) else { return false };
    records[place].set(field.name, value);
    true
}

/// The field by which a list must ascend.
fn order_field(layout: &Layout) -> Option<&'static str> {
    match layout.keyword {
        "band" => Some("size"),
        "point" => Some("number"),
        "transfer" | "condition" | "read" => Some("day"),
        _ => None,
    }
}

/// An item of a list at its forerunner's place or before.
fn not_ascending(rng: &mut Rng, records: &mut [Record]) -> bool {
    let layouts = [&BAND, &POINT, &TRANSFER, &CONDITION, &READ];
    let layout = *rng.pick(&layouts);
    let second = |place: usize| before(records, place).is_some();
    let will_do = |place: usize, record: &Record| is_a(record, layout) && second(place);
    let Some(place) = any(rng, records, will_do) else { return false };
    let name = order_field(layout).expect("these have one");
    let forerunner = records[before(records, place).expect("a second")].get(name);
    let value = if rng.one_in(2) { forerunner } else { rng.field(0, forerunner) };
    records[place].set(name, value);
    true
}

fn late_first_transfer(rng: &mut Rng, records: &mut [Record]) -> bool {
    let first = |place: usize| before(records, place).is_none();
    let will_do = |place: usize, record: &Record| is_a(record, &TRANSFER) && first(place);
    let Some(place) = any(rng, records, will_do) else { return false };
    let point = above(records, place).expect("a transfer has a point");
    let (day, connected) = (records[place].get("day"), records[point].get("connected"));
    if rng.one_in(2) {
        records[place].set("day", rng.field(connected + 1, LAST_DAY).min(LAST_DAY));
    } else {
        records[point].set("connected", rng.field(0, day.saturating_sub(1)));
    }
    true
}

fn discounts(rng: &mut Rng, records: &mut [Record]) -> bool {
    let Some(place) = any(rng, records, |_, record| is_a(record, &CONDITION)) else {
        return false;
    };
    let condition = &mut records[place];
    if condition.get("schedule3") == 0 {
        condition.set("schedule3", rng.field(1, 10_000));
    }
    let least = 10_001 - condition.get("schedule3").min(10_000);
    condition.set("section29e", rng.field(least, 10_000));
    true
}

fn ends_before_start(rng: &mut Rng, records: &mut [Record]) -> bool {
    let ends = |record: &Record| is_a(record, &POINT) || is_a(record, &METER);
    let Some(place) = any(rng, records, |_, record| ends(record)) else { return false };
    let (start, end) = match records[place].layout.keyword {
        "point" => ("connected", "disconnected"),
        _ => ("installed", "removed"),
    };
    let record = &mut records[place];
    if record.get(end) < LAST_DAY && rng.one_in(2) {
        record.set(start, rng.field(record.get(end) + 1, LAST_DAY));
    } else {
        record.set(end, rng.field(0, record.get(start).saturating_sub(1)));
    }
    true
}

fn read_outside(rng: &mut Rng, records: &mut [Record]) -> bool {
    let Some(place) = any(rng, records, |_, record| is_a(record, &READ)) else { return false };
    let meter = above(records, place).expect("a read has a meter");
    let day = records[place].get("day");
    let installed = records[meter].get("installed");
    match rng.below(4) {
        0 => records[meter].set("installed", rng.field(day + 1, LAST_DAY).min(LAST_DAY)),
        1 => records[meter].set("removed", rng.field(installed, day.saturating_sub(1))),
        2 => records[place].set("day", rng.field(0, installed.saturating_sub(1))),
        _ => {
            let removed = records[meter].get("removed");
            let after = (removed + 1).min(LAST_DAY);
            records[place].set("day", rng.field(after, LAST_DAY));
        }
    }
    true
}

/// A rollover bit that is not as it was, or a value that makes it wrong.
fn rollover(rng: &mut Rng, records: &mut [Record]) -> bool {
    let Some(place) = any(rng, records, |_, record| is_a(record, &READ)) else { return false };
    let (rollover, value) = (records[place].get("rollover"), records[place].get("value"));
    match before(records, place).map(|before| records[before].get("value")) {
        Some(earlier) if rng.one_in(2) => {
            let least = if rollover == 1 { earlier } else { 0 };
            let most = if rollover == 1 { earlier + 3 } else { earlier.saturating_sub(1) };
            records[place].set("value", rng.field(least, most).min((1 << 27) - 1));
        }
        _ => records[place].set("rollover", u64::from(rollover == 0)),
    }
    // where the value is the same again, only the rollover can be wrong
    let same = (rollover, value) == (records[place].get("rollover"), records[place].get("value"));
    if same {
        records[place].set("rollover", u64::from(rollover == 0));
    }
    true
}

fn reads_far_apart(rng: &mut Rng, records: &mut [Record]) -> bool {
    let second = |place: usize| before(records, place).is_some();
    let will_do = |place: usize, record: &Record| is_a(record, &READ) && second(place);
    let Some(place) = any(rng, records, will_do) else { return false };
    let meter = above(records, place).expect("a read has a meter");
    let earlier = records[before(records, place).expect("a second")].get("day");
    records[place].set("day", rng.field(earlier + 3_661, LAST_DAY).min(LAST_DAY));
    records[meter].set("removed", NONE);
    true
}

/// Some fields of a record anew: out of range, or on, just before or just
/// after what the rules compare them with.
fn scramble(rng: &mut Rng, records: &mut [Record], place: usize) {
    for field in records[place].layout.fields {
        if rng.one_in(2) {
            let value = scrambled(rng, records, place, field);
            records[place].set(field.name, value);
        }
    }
}

fn scrambled(rng: &mut Rng, records: &[Record], place: usize, field: &Field) -> u64 {
    let widest = field.widest();
    let own = records[place].get(field.name);
    let compared = compared(records, place, field);
    match rng.below(5) {
        0 => outside(rng, records, place, field).unwrap_or(own),
        1 => rng.field(0, widest),
        2 => own,
        _ if compared.is_empty() => own,
        _ => {
            let near = *rng.pick(&compared) + rng.below(3);
            near.saturating_sub(1).min(widest)
        }
    }
}

/// The values that a field is compared with: the same field before it in the
/// list, days of its own record and of the record above, and the day too far.
fn compared(records: &[Record], place: usize, field: &Field) -> Vec<u64> {
    let mut values = Vec::new();
    if let Some(before) = before(records, place) {
        let earlier = records[before].get(field.name);
        values.push(earlier);
        if field.kind == Kind::Day {
            values.push(earlier + 3_661);
        }
    }
    if field.kind == Kind::Day {
        let near = [Some(place), above(records, place)];
        for record in near.into_iter().flatten().map(|near| &records[near]) {
            let fields = record.layout.fields.iter().filter(|field| field.kind == Kind::Day);
            values.extend(fields.map(|field| record.get(field.name)));
        }
    }
    values
}

/// Over 65,536 bytes, or as many and no more.
fn lengthen(rng: &mut Rng, bytes: &mut Vec<u8>) {
    bytes.resize(rng.field(65_536, 70_000) as usize, 0);
}

fn cut_short(rng: &mut Rng, bytes: &mut Vec<u8>) {
    bytes.truncate(rng.field(0, (bytes.len() as u64).saturating_sub(1)) as usize);
}

/// The last bit set, which is padding in seven files of eight, or bytes more.
fn after_the_end(rng: &mut Rng, bytes: &mut Vec<u8>) {
    if rng.one_in(2) {
        if let Some(last) = bytes.last_mut() {
            *last |= 1;
        }
    } else {
        let more = rng.field(1, 9) as usize;
        bytes.resize(bytes.len() + more, 0);
    }
}

fn flip(rng: &mut Rng, bytes: &mut [u8]) {
    let place = rng.below(bytes.len() as u64) as usize;
    bytes[place] ^= 1 << rng.below(8);
}
