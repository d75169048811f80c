//! Judging a file by 1 to 12, in one pass. Each record that has passed is
//! handed to the point that is settled.

use crate::records::*;
use crate::settle;

/// How many records of a width are left, at most as many as wanted.
#[inline(always)]
fn whole(cursor: &Cursor, width: usize, wanted: u64) -> u64 {
    wanted.min((cursor.left() / width) as u64)
}

#[inline(always)]
fn all(whole: u64, wanted: u64) -> Result<(), u32> {
    match whole == wanted {
        true => Ok(()),
        false => Err(2),
    }
}

/// Judges a file's length and header, and hands on where its bands begin.
#[inline(always)]
pub fn header(file: &[u8]) -> Result<(Header, Cursor<'_>), u32> {
    if file.len() > 65_536 {
        return Err(1);
    }
    if file.len() < HEADER_BYTES {
        return Err(2);
    }
    let mut cursor = Cursor { file, at: 0 };
    let (mark, version) = cursor.mark_and_version();
    if mark != 0x5753 {
        return Err(3);
    }
    let form = Form::of(version).ok_or(3_u32)?;
    let header = cursor.header(&form);
    let price = if header.sewerage { 10_000 } else { 0 };
    if !(2020..=2098).contains(&header.year)
        || !(1..=24).contains(&header.bands)
        || !(1..=form.most_points).contains(&header.points)
        || header.property > price
        || header.roads > price
        || header.capacity > 100_000
        || header.standard > 100_000
    {
        return Err(4);
    }
    Ok((header, cursor))
}

/// Judges all that follows a header that has passed.
#[inline(always)]
pub fn records(header: &Header, from: Cursor, settling: &mut settle::Point) -> Result<(), u32> {
    let mut cursor = from;
    bands(&mut cursor, header.bands, settling)?;
    let mut lowest = 0;
    for _ in 0..header.points {
        lowest = point(&mut cursor, header.sewerage, lowest, settling)?;
    }
    let left = cursor.left();
    if left >= 8 || left > 0 && field(cursor.bits(0), 0, left as u32) != 0 {
        return Err(12);
    }
    Ok(())
}

#[inline(always)]
fn bands(cursor: &mut Cursor, count: u64, settling: &mut settle::Point) -> Result<(), u32> {
    let mut least = 0;
    let whole = whole(cursor, BAND, count);
    for place in 0..whole {
        let band = cursor.band();
        if band.size == 0
            || band.annual > 1_000_000_000
            || band.allowance > 1_000_000
            || band.threshold > 10_000_000
            || band.threshold < band.allowance
        {
            return Err(4);
        }
        if band.size < least {
            return Err(5);
        }
        least = band.size + 1;
        settling.band(place as usize, &band);
    }
    all(whole, count)
}

/// Judges a point with its lists. Hands back the least number of the next.
#[inline(always)]
fn point(
    cursor: &mut Cursor,
    sewerage: bool,
    lowest: u64,
    settling: &mut settle::Point,
) -> Result<u64, u32> {
    if cursor.left() < POINT {
        return Err(2);
    }
    let point = cursor.point();
    if point.connected == NONE
        || point.transfers.wrapping_sub(1) >= 24
        || point.conditions > 48
        || point.meters > 16
    {
        return Err(4);
    }
    if point.number < lowest {
        return Err(5);
    }
    if point.disconnected < point.connected {
        return Err(8);
    }
    settling.point(&point);
    transfers(cursor, &point, settling)?;
    conditions(cursor, &point, sewerage, settling)?;
    settling.meters();
    for _ in 0..point.meters {
        meter(cursor, sewerage, settling)?;
    }
    settling.end();
    Ok(point.number + 1)
}

#[inline(always)]
fn transfers(cursor: &mut Cursor, point: &Point, settling: &mut settle::Point) -> Result<(), u32> {
    let mut least = 0;
    let mut most = point.connected;
    let whole = whole(cursor, TRANSFER, point.transfers);
    for _ in 0..whole {
        let transfer = cursor.transfer();
        if transfer.day == NONE || transfer.provider == 0 {
            return Err(4);
        }
        if transfer.day < least {
            return Err(5);
        }
        if transfer.day > most {
            return Err(6);
        }
        (least, most) = (transfer.day + 1, NONE);
        settling.transfer(&transfer);
    }
    all(whole, point.transfers)
}

#[inline(always)]
fn conditions(
    cursor: &mut Cursor,
    point: &Point,
    sewerage: bool,
    settling: &mut settle::Point,
) -> Result<(), u32> {
    let mut least = 0;
    let flags_allowed = if sewerage { 15 } else { VACANT | DISCONNECTED };
    let whole = whole(cursor, CONDITION, point.conditions);
    for _ in 0..whole {
        let condition = cursor.condition();
        if condition.day == NONE
            || condition.flags & !flags_allowed != 0
            || condition.schedule3 > 10_000
            || condition.section29e > 10_000
            || condition.value > 10_000_000
        {
            return Err(4);
        }
        if condition.day < least {
            return Err(5);
        }
        if condition.schedule3 + condition.section29e > 10_000 {
            return Err(7);
        }
        least = condition.day + 1;
        settling.condition(&condition);
    }
    all(whole, point.conditions)
}

#[inline(always)]
fn meter(cursor: &mut Cursor, sewerage: bool, settling: &mut settle::Point) -> Result<(), u32> {
    if cursor.left() < METER {
        return Err(2);
    }
    let meter = cursor.meter();
    let least_return = if sewerage { 0 } else { 100 };
    if meter.share > 100
        || meter.returned > 100
        || meter.returned < least_return
        || meter.digits.wrapping_sub(4) > 4
        || meter.installed == NONE
        || meter.reads > 40
    {
        return Err(4);
    }
    if meter.removed < meter.installed {
        return Err(8);
    }
    settling.meter(&meter);
    let turn = meter.turn();
    let mut least = 0;
    let mut earlier = Read::default();
    let whole = whole(cursor, READ, meter.reads);
    for place in 0..whole {
        let read = cursor.read();
        if read.day == NONE || read.value >= turn {
            return Err(4);
        }
        if read.day < least {
            return Err(5);
        }
        if read.day < meter.installed || read.day > meter.removed {
            return Err(9);
        }
        // a first read has no earlier value to fall from
        if read.rollover != u64::from(read.value < earlier.value) {
            return Err(10);
        }
        if place > 0 {
            if read.day - earlier.day > 3_660 {
                return Err(11);
            }
            settling.advance(&Advance::between(&meter, &earlier, &read));
        }
        least = read.day + 1;
        earlier = read;
    }
    all(whole, meter.reads)
}
