//! Files that break none of 1 to 12; some have over 64 providers.

use std::collections::BTreeSet;

use super::Rng;
use crate::calendar::first_april;
use crate::file::*;

/// A small file has at most this many bytes.
pub const SMALL: usize = 150;

/// The most records of each kind.
struct Most {
    bands: u64,
    points: u64,
    transfers: u64,
    conditions: u64,
    meters: u64,
    reads: u64,
}

/// What the parts of one file have in common.
struct Shape {
    /// First day of the settlement year.
    first: u64,
    /// First day of the next.
    next: u64,
    sewerage: bool,
    most: Most,
    /// The lists are as long as can be, or of any length.
    full: bool,
    /// Most points have few charged days, so that a slow machine can settle
    /// them.
    brief: bool,
}

/// The days of interest at a point: the whole year or a few days of it.
struct Window {
    from: u64,
    /// The day after the last.
    to: u64,
}

fn most(rng: &mut Rng, version: u64) -> Most {
    let bands = if rng.one_in(8) { 24 } else { 4 };
    let many = if version == VERSION_2 { many_points(rng) } else { 64 };
    let (points, transfers, conditions, meters, reads) = match rng.below(16) {
        0 => (many, 2, 2, 2, 4),
        1 => (many, 24, 4, 1, 4),
        2 => (2, 24, 48, 16, 40),
        3 => (16, 24, 48, 16, 40),
        4 | 5 => (1, 24, 48, 4, 10),
        6..=9 => (4, 5, 6, 3, 12),
        10 => (1, 1, 0, 1, 2),
        _ => (2, 3, 3, 2, 5),
    };
    Most { bands, points, transfers, conditions, meters, reads }
}

/// "9 bits (1 to 256)": the most of either version, one more or less, or any
/// number between.
fn many_points(rng: &mut Rng) -> u64 {
    match rng.below(8) {
        0 => 64,
        1 => 65,
        2 => 255,
        3..=5 => 256,
        _ => rng.between(66, 254),
    }
}

fn small_most(rng: &mut Rng) -> Most {
    let (bands, points, transfers, conditions, meters, reads) = match rng.below(4) {
        0 => (3, 1, 5, 3, 1, 3),
        1 => (1, 2, 3, 2, 1, 3),
        2 => (2, 1, 3, 2, 2, 5),
        _ => (2, 1, 3, 4, 2, 3),
    };
    Most { bands, points, transfers, conditions, meters, reads }
}

impl Shape {
    fn new(rng: &mut Rng, header: &Header, most: Most, brief: bool) -> Shape {
        Shape {
            first: first_april(header.year),
            next: first_april(header.year + 1),
            sewerage: header.sewerage,
            most,
            full: rng.one_in(3),
            brief,
        }
    }

    fn count(&self, rng: &mut Rng, least: u64, most: u64) -> u64 {
        if self.full {
            most
        } else {
            rng.between(least, most)
        }
    }

    /// The whole year, or up to 12 days at its start, its end or within.
    fn window(&self, rng: &mut Rng) -> Window {
        if !self.brief || rng.one_in(5) {
            return Window { from: self.first, to: self.next };
        }
        let days = rng.between(1, 12);
        let from = match rng.below(3) {
            0 => self.first,
            1 => self.next - days,
            _ => rng.between(self.first + 1, self.next - 1 - days),
        };
        Window { from, to: from + days }
    }
}

impl Window {
    /// A day, most often in the window or near it, and often at its ends.
    fn day(&self, rng: &mut Rng) -> u64 {
        match rng.below(12) {
            0 => self.from,
            1 => self.to,
            2 => self.from - 1,
            3 => self.to - 1,
            4 => rng.field(0, LAST_DAY),
            5 => rng.between(self.from - 3_000, self.from),
            6 => rng.between(self.to, self.to + 3_000),
            _ => rng.between(self.from, self.to),
        }
    }

    /// Up to `count` days ascending, from `least` on.
    fn days(&self, rng: &mut Rng, least: u64, count: u64) -> Vec<u64> {
        let mut days = BTreeSet::new();
        for _ in 0..count * 8 {
            let day = self.day(rng);
            if day >= least && (days.len() as u64) < count {
                days.insert(day);
            }
        }
        days.into_iter().collect()
    }
}

/// A valid file of at most 65,536 bytes.
pub fn valid(rng: &mut Rng) -> File {
    let header = header(rng);
    let most = most(rng, header.version);
    let shape = Shape::new(rng, &header, most, false);
    let bands = bands(rng, &shape);
    // 65 points of one provider each are more than version 1 has
    let least_apiece = if header.version == VERSION_2 { 1 } else { 2 };
    let mut file = File { header, bands, points: Vec::new() };
    if rng.one_in(10) {
        let (count, apiece) = (64 + rng.below(2), rng.between(least_apiece, 23));
        crowd(rng, &shape, &mut file.points, count, apiece);
    } else {
        points(rng, &shape, &mut file.points);
    }
    cut_to(&mut file, MOST_BYTES);
    if shape.most.points == 16 && file.points.len() <= 16 && rng.one_in(2) {
        fill_to_the_brim(&mut file);
    }
    number_points(rng, &mut file.points);
    file
}

/// A valid file of at most 150 bytes, most often with few charged days.
pub fn small(rng: &mut Rng) -> File {
    let (header, most) = (header(rng), small_most(rng));
    let mut file = brief(rng, header, most);
    cut_to(&mut file, SMALL);
    file
}

/// A file of version 2 with few records to a point, and up to 256 points.
pub fn wide(rng: &mut Rng) -> File {
    let header = Header { version: VERSION_2, ..header(rng) };
    let points = many_points(rng);
    let most = Most { bands: 1, points, transfers: 2, conditions: 1, meters: 1, reads: 2 };
    brief(rng, header, most)
}

/// A file whose points most often have few charged days.
fn brief(rng: &mut Rng, header: Header, most: Most) -> File {
    let shape = Shape::new(rng, &header, most, true);
    let bands = bands(rng, &shape);
    let mut file = File { header, bands, points: Vec::new() };
    points(rng, &shape, &mut file.points);
    number_points(rng, &mut file.points);
    file
}

/// A file of 65 providers with a charged day, and few records else.
pub fn crowded(rng: &mut Rng) -> File {
    let header = header(rng);
    let most = Most { bands: 1, points: 3, transfers: 24, conditions: 1, meters: 1, reads: 2 };
    let shape = Shape::new(rng, &header, most, false);
    let bands = bands(rng, &shape);
    let mut file = File { header, bands, points: Vec::new() };
    crowd(rng, &shape, &mut file.points, 65, 23);
    number_points(rng, &mut file.points);
    file
}

/// Drops what stands last until the file has at most so many bytes.
fn cut_to(file: &mut File, most: usize) {
    while file.bit_length() > most * 8 {
        if file.points.len() > 1 {
            file.points.pop();
            continue;
        }
        let point = &mut file.points[0];
        let reads: usize = point.meters.iter().map(|meter| meter.reads.len()).sum();
        if reads > 4 {
            let longest = point.meters.iter_mut().max_by_key(|meter| meter.reads.len());
            longest.expect("there are reads").reads.pop();
        } else if point.conditions.pop().is_none() {
            point.transfers.pop();
        }
    }
}

fn header(rng: &mut Rng) -> Header {
    let sewerage = rng.one_in(2);
    let price = if sewerage { 10_000 } else { 0 };
    Header {
        version: if rng.one_in(2) { VERSION_1 } else { VERSION_2 },
        sewerage,
        // 2023, 2027 ... have 366 days
        year: if rng.one_in(4) { 2023 + 4 * rng.below(19) } else { rng.field(2020, 2098) },
        property: rng.field(0, price),
        roads: rng.field(0, price),
        capacity: rng.field(0, 100_000),
        standard: rng.field(0, 100_000),
        ..Header::default()
    }
}

fn bands(rng: &mut Rng, shape: &Shape) -> Vec<Band> {
    let mut sizes = BTreeSet::new();
    let largest = if rng.one_in(8) { 65_535 } else { 200 };
    let count = shape.count(rng, 1, shape.most.bands) as usize;
    while sizes.len() < count {
        sizes.insert(rng.field(1, largest));
    }
    sizes.into_iter().map(|size| band(rng, size)).collect()
}

fn band(rng: &mut Rng, size: u64) -> Band {
    // of three, two low enough that most volumes pass them
    let (most_free, most) = if rng.one_in(3) { (1_000_000, 10_000_000) } else { (90, 900) };
    let allowance = rng.field(0, most_free);
    let threshold = rng.field(allowance, most);
    Band { size, annual: rng.field(0, 1_000_000_000), allowance, threshold }
}

pub(super) fn number_points(rng: &mut Rng, points: &mut [Point]) {
    let mut numbers = BTreeSet::new();
    while numbers.len() < points.len() {
        numbers.insert(rng.field(0, u64::from(u32::MAX)));
    }
    for (point, number) in points.iter_mut().zip(numbers) {
        point.number = number;
    }
}

fn points(rng: &mut Rng, shape: &Shape, points: &mut Vec<Point>) {
    // at most 40 providers, so that points share them
    let most = rng.between(1, 40);
    let most = if shape.brief { most.min(4) } else { most };
    let providers: Vec<u64> = (0..most).map(|_| rng.field(1, 65_535)).collect();
    for _ in 0..shape.count(rng, 1, shape.most.points) {
        points.push(point(rng, shape, &providers));
    }
}

fn point(rng: &mut Rng, shape: &Shape, providers: &[u64]) -> Point {
    let window = shape.window(rng);
    let connected = connection(rng, shape, &window);
    Point {
        number: 0,
        connected,
        disconnected: disconnection(rng, shape, &window, connected),
        transfers: transfers(rng, shape, &window, connected, providers),
        conditions: conditions(rng, shape, &window),
        meters: meters(rng, shape, &window),
    }
}

fn connection(rng: &mut Rng, shape: &Shape, window: &Window) -> u64 {
    if window.from > shape.first {
        return window.from;
    }
    match rng.below(if shape.brief { 12 } else { 4 }) {
        0 => window.day(rng),
        1 => rng.between(window.from, window.to),
        _ => rng.field(0, window.from),
    }
}

fn disconnection(rng: &mut Rng, shape: &Shape, window: &Window, connected: u64) -> u64 {
    match rng.below(if shape.brief { 30 } else { 12 }) {
        0 => connected,
        1 => rng.field(connected, LAST_DAY),
        2 | 3 => window.day(rng).max(connected),
        _ if window.to < shape.next => window.to.max(connected),
        _ => NONE,
    }
}

fn transfers(
    rng: &mut Rng,
    shape: &Shape,
    window: &Window,
    connected: u64,
    providers: &[u64],
) -> Vec<Transfer> {
    let first = if rng.one_in(3) { rng.field(0, connected) } else { connected };
    let count = shape.count(rng, 1, shape.most.transfers);
    let mut days = vec![first];
    days.extend(window.days(rng, first + 1, count - 1));
    let transfer = |day| Transfer { day, provider: *rng.pick(providers) };
    days.into_iter().map(transfer).collect()
}

/// The same file under other transfers: "alike except in transfers".
pub fn other_transfers(rng: &mut Rng, file: &File) -> File {
    let mut other = file.clone();
    let most = most(rng, file.header.version);
    let shape = Shape::new(rng, &file.header, most, false);
    let window = shape.window(rng);
    let providers: Vec<u64> = (0..9).map(|_| rng.field(1, 65_535)).collect();
    for point in &mut other.points {
        point.transfers = transfers(rng, &shape, &window, point.connected, &providers);
    }
    other
}

fn conditions(rng: &mut Rng, shape: &Shape, window: &Window) -> Vec<Condition> {
    let count = shape.count(rng, 0, shape.most.conditions);
    let days = window.days(rng, 0, count);
    days.into_iter().map(|day| condition(rng, shape, day)).collect()
}

fn condition(rng: &mut Rng, shape: &Shape, day: u64) -> Condition {
    let discounts = if rng.one_in(3) { 0 } else { rng.field(0, 10_000) };
    let schedule3 = rng.field(0, discounts);
    Condition {
        day,
        vacant: rng.one_in(4),
        disconnected: rng.one_in(4),
        property: shape.sewerage && !rng.one_in(3),
        roads: shape.sewerage && !rng.one_in(3),
        schedule3,
        section29e: discounts - schedule3,
        value: rng.field(0, 10_000_000),
    }
}

fn meters(rng: &mut Rng, shape: &Shape, window: &Window) -> Vec<Meter> {
    let mut meters: Vec<Meter> = Vec::new();
    let least = if rng.one_in(6) { 0 } else { 1 };
    for _ in 0..shape.count(rng, least, shape.most.meters) {
        // of three (or each, where few are made) one replaces the meter before
        // it, where that was removed
        let removed = meters.last().map(|meter| meter.removed).filter(|day| *day != NONE);
        let replaced = removed.filter(|_| rng.one_in(if shape.brief { 1 } else { 3 }));
        meters.push(meter(rng, shape, window, replaced));
    }
    meters
}

fn meter(rng: &mut Rng, shape: &Shape, window: &Window, replaced: Option<u64>) -> Meter {
    let installed = match (replaced, rng.below(if shape.brief { 6 } else { 3 })) {
        (Some(day), _) => day,
        (None, 0) => window.day(rng),
        (None, 1) if shape.brief => rng.between(window.from - 15, window.from),
        (None, _) => rng.between(window.from - 4_000, window.from),
    };
    let removed = match rng.below(if shape.brief { 20 } else { 12 }) {
        0 => installed,
        1 => rng.field(installed, LAST_DAY),
        2..=4 => window.day(rng).max(installed),
        _ => NONE,
    };
    let largest = if rng.one_in(8) { 65_535 } else { 220 };
    let mut meter = Meter {
        size: if rng.one_in(6) { 0 } else { rng.field(0, largest) },
        share: if rng.one_in(2) { 100 } else { rng.field(0, 100) },
        return_to_sewer: if shape.sewerage { rng.field(0, 100) } else { 100 },
        digits: rng.between(4, 8),
        installed,
        removed,
        reads: Vec::new(),
    };
    meter.reads = reads(rng, shape, window, &meter);
    meter
}

fn reads(rng: &mut Rng, shape: &Shape, window: &Window, meter: &Meter) -> Vec<Read> {
    let last = meter.removed.min(LAST_DAY);
    let least = if rng.one_in(6) { 0 } else { 2 };
    let count = shape.count(rng, least, shape.most.reads);
    let lengths = if shape.brief { BRIEF_LENGTHS } else { LENGTHS };
    let longest = *rng.pick(&lengths);
    let early = if shape.brief { 4 } else { 200 };
    // most often near the window, whenever the meter was installed
    let mut day = match rng.below(if shape.brief { 16 } else { 8 }) {
        0 => meter.installed,
        1 => rng.field(meter.installed, last),
        _ => rng.between(window.from - early, window.from + early / 4).clamp(meter.installed, last),
    };
    let mut days = Vec::new();
    while (days.len() as u64) < count && day <= last {
        days.push(day);
        let later = day + stretch(rng, longest);
        // rather on the removal day than after it
        day = if later > last && day < last && last - day <= 3_660 { last } else { later };
    }
    values(rng, meter.digits, &days)
}

/// How long the advances of a meter may be.
const LENGTHS: [u64; 7] = [3, 40, 120, 120, 400, 400, 3_660];
const BRIEF_LENGTHS: [u64; 7] = [3, 7, 12, 12, 40, 400, 3_660];

/// The days of an advance.
fn stretch(rng: &mut Rng, longest: u64) -> u64 {
    if rng.one_in(3) {
        rng.field(1, longest)
    } else {
        rng.between(1, longest)
    }
}

/// Reads on those days, with rollovers where the value falls.
fn values(rng: &mut Rng, digits: u64, days: &[u64]) -> Vec<Read> {
    let turn = 10_u64.pow(digits as u32);
    let mut reads = Vec::new();
    let mut value = rng.field(0, turn - 1);
    let mut rollover = false;
    for day in days {
        reads.push(Read { day: *day, rollover, value });
        let advance = rng.field(0, turn - 1);
        rollover = value + advance >= turn;
        value = (value + advance) % turn;
    }
    reads
}

/// Points that have `count` providers with a charged day together, up to
/// `apiece` each, and some more providers without.
fn crowd(rng: &mut Rng, shape: &Shape, points: &mut Vec<Point>, count: u64, apiece: u64) {
    let mut providers = BTreeSet::new();
    while (providers.len() as u64) < count {
        providers.insert(rng.field(1, 65_535));
    }
    let providers: Vec<u64> = providers.into_iter().collect();
    for own in providers.chunks(apiece as usize) {
        let mut point = point(rng, shape, own);
        point.connected = rng.between(0, shape.first);
        point.disconnected = NONE;
        let mut days = BTreeSet::from([point.connected]);
        while days.len() < own.len() {
            days.insert(rng.between(shape.first + 1, shape.next - 1));
        }
        let transfer = |(day, provider): (u64, &u64)| Transfer { day, provider: *provider };
        point.transfers = days.into_iter().zip(own).map(transfer).collect();
        // one more, past the year
        point.transfers.push(Transfer { day: shape.next, provider: rng.field(1, 65_535) });
        points.push(point);
    }
}

/// Adds points until the file has exactly 65,536 bytes, if the last can be
/// such.
fn fill_to_the_brim(file: &mut File) {
    let mut room = MOST_BYTES * 8 - file.bit_length();
    while room > 34_000 {
        file.points.push(filler(24, 48, 16, 640));
        room = MOST_BYTES * 8 - file.bit_length();
    }
    for meters in 0..=16 {
        for conditions in 0..=48 {
            for transfers in 1..=24 {
                let taken = 80 + 32 * transfers + 72 * (conditions + meters);
                let reads = room.saturating_sub(taken) / 44;
                let exact = taken + 44 * reads;
                if exact <= room && room < exact + 8 && reads <= 40 * meters {
                    file.points.push(filler(transfers, conditions, meters, reads));
                    return;
                }
            }
        }
    }
}

/// A point with that many records.
fn filler(transfers: usize, conditions: usize, meters: usize, reads: usize) -> Point {
    let transfer = |day| Transfer { day, provider: 1 };
    let condition = |day| Condition { day, ..Condition::default() };
    Point {
        number: 0,
        connected: 0,
        disconnected: NONE,
        transfers: (0..transfers as u64).map(transfer).collect(),
        conditions: (0..conditions as u64).map(condition).collect(),
        meters: (0..meters).map(|place| filler_meter(reads.saturating_sub(place * 40))).collect(),
    }
}

/// A meter with up to 40 of the reads still to be placed.
fn filler_meter(reads: usize) -> Meter {
    let read = |day| Read { day, rollover: false, value: day };
    Meter {
        size: 20,
        share: 100,
        return_to_sewer: 100,
        digits: 4,
        installed: 0,
        removed: NONE,
        reads: (0..reads.min(40) as u64).map(read).collect(),
    }
}
