//! The files that are measured. They are the same in every run: `irregular`
//! comes of a seed, and the others are made by hand.

use reference::calendar::first_april;
use reference::file::*;
use reference::random::Rng;

/// An estate: how many of each record, and of providers in the whole file.
#[derive(Clone, Copy)]
pub struct Estate {
    pub bands: u64,
    pub points: u64,
    /// Of each point.
    pub transfers: u64,
    pub conditions: u64,
    pub meters: u64,
    /// Of each meter.
    pub reads: u64,
    pub providers: u64,
}

/// 20 points with 2 meters each, read each month, and 5 transfers.
pub const TYPICAL: Estate = Estate {
    bands: 6,
    points: 20,
    transfers: 5,
    conditions: 2,
    meters: 2,
    reads: 13,
    providers: 8,
};

const YEAR: u64 = 2025;

fn point(estate: &Estate, place: u64) -> Point {
    let first = first_april(YEAR);
    let day = |part: u64, parts: u64| first + part * 365 / parts;
    let transfer = |at: u64| Transfer {
        day: if at == 0 { first - 500 } else { day(at, estate.transfers) },
        // neighbours at a point, and points, differ in their providers
        provider: 1 + (place * estate.transfers + at) % estate.providers * 97,
    };
    let condition = |at: u64| Condition {
        day: day(at, estate.conditions) + at % 3,
        vacant: at % 5 == 3,
        disconnected: at % 7 == 4,
        property: at % 4 != 2,
        roads: at % 3 != 2,
        schedule3: 250 * (at % 5),
        section29e: 100 * (at % 7),
        value: 12_000 + 500 * place,
    };
    Point {
        number: 1_000 + place,
        connected: first - 400,
        disconnected: NONE,
        transfers: (0..estate.transfers).map(transfer).collect(),
        conditions: (0..estate.conditions).map(condition).collect(),
        meters: (0..estate.meters).map(|at| meter(place, at, estate.reads)).collect(),
    }
}

/// Its reads are spread over the year; the dial turns over once.
fn meter(place: u64, at: u64, reads: u64) -> Meter {
    let first = first_april(YEAR);
    let value = |read: u64| (99_000 + 37 * place + 41 * at + (83 + place) * read) % 100_000;
    let read = |read: u64| Read {
        day: first + read * 365 / (reads.max(2) - 1),
        rollover: read > 0 && value(read) < value(read - 1),
        value: value(read),
    };
    Meter {
        size: 15 + 10 * (at + place) % 120,
        share: if at % 4 == 3 { 50 } else { 100 },
        return_to_sewer: 95,
        digits: 5,
        installed: first - 300,
        removed: NONE,
        reads: (0..reads).map(read).collect(),
    }
}

/// A header of the first version that can have so many points.
fn header(points: u64) -> Header {
    Header {
        version: if points <= most_points(1) { 1 } else { 2 },
        sewerage: true,
        year: YEAR,
        property: 280,
        roads: 150,
        capacity: 1_950,
        standard: 1_200,
        ..Header::default()
    }
}

fn band(at: u64) -> Band {
    let size = 15 + 8 * at;
    Band { size, annual: 365_000 + 50_000 * at, allowance: 25 + at, threshold: 100 + 10 * at }
}

pub fn estate(estate: &Estate) -> File {
    File {
        header: header(estate.points),
        bands: (0..estate.bands).map(band).collect(),
        points: (0..estate.points).map(|place| point(estate, place)).collect(),
    }
}

/// The estate with as many more reads as 65,536 bytes hold, shared out evenly
/// and up to 40 at a meter.
fn filled(some: &Estate) -> File {
    let mut file = estate(some);
    let room = (MOST_BYTES * 8 - file.bit_length()) as u64 / 44;
    let meters = some.points * some.meters;
    let (each, left) = (some.reads + room / meters, room % meters);
    for (place, point) in file.points.iter_mut().enumerate() {
        for (at, held) in point.meters.iter_mut().enumerate() {
            let (place, at) = (place as u64, at as u64);
            let more = u64::from(place * some.meters + at < left);
            *held = meter(place, at, (each + more).min(40));
        }
    }
    file
}

/// A day of the year.
fn day(rng: &mut Rng) -> u64 {
    first_april(YEAR) + rng.below(365)
}

/// So many days, ascending: one before the year, the others within it.
fn days(rng: &mut Rng, count: usize) -> Vec<u64> {
    let mut days = vec![first_april(YEAR) - rng.between(1, 300)];
    while days.len() < count {
        let day = day(rng);
        if !days.contains(&day) {
            days.push(day);
        }
    }
    days.sort_unstable();
    days
}

/// What the estates have alike differs here: the days between reads and the
/// slope of each advance, shares and returns, sizes and dials, and from when to
/// when a point or a meter is there.
fn irregular() -> File {
    let mut rng = Rng::new(1);
    let points = (0..32).map(|place| irregular_point(&mut rng, place)).collect();
    File { header: header(32), bands: (0..12).map(band).collect(), points }
}

fn irregular_point(rng: &mut Rng, place: u64) -> Point {
    let connected = if rng.one_in(4) { day(rng) } else { first_april(YEAR) - 1 };
    let removed = connected + rng.between(0, 365);
    let transfer = |day: u64, rng: &mut Rng| Transfer { day, provider: 1 + rng.below(16) * 97 };
    let condition = |day: u64, rng: &mut Rng| Condition {
        day,
        vacant: rng.one_in(6),
        disconnected: rng.one_in(6),
        property: !rng.one_in(3),
        roads: !rng.one_in(3),
        schedule3: rng.below(5_000),
        section29e: rng.below(5_000),
        value: rng.between(1_000, 100_000),
    };
    Point {
        number: 1_000 + place,
        connected,
        disconnected: if rng.one_in(8) { removed } else { NONE },
        transfers: days(rng, 6).into_iter().map(|day| transfer(day, rng)).collect(),
        conditions: days(rng, 6).into_iter().map(|day| condition(day, rng)).collect(),
        meters: (0..6).map(|_| irregular_meter(rng)).collect(),
    }
}

/// Its reads go on past the year, unless it is removed before that; the dial
/// may turn over.
fn irregular_meter(rng: &mut Rng) -> Meter {
    let digits = rng.between(4, 8);
    let dial = 10_u64.pow(digits as u32);
    let installed = if rng.one_in(4) { day(rng) } else { first_april(YEAR) - 60 };
    let removed = if rng.one_in(4) { installed + rng.between(30, 300) } else { NONE };
    let mut day = installed + rng.below(30);
    let mut value = dial - rng.between(1, 4_000);
    let mut reads = vec![Read { day, rollover: false, value }];
    while reads.len() < 20 {
        day += rng.between(1, 50);
        if day > removed {
            break;
        }
        let next = (value + rng.below(1_000)) % dial;
        reads.push(Read { day, rollover: next < value, value: next });
        value = next;
    }
    Meter {
        size: rng.below(120),
        share: rng.between(1, 100),
        return_to_sewer: rng.between(1, 100),
        digits,
        installed,
        removed,
        reads,
    }
}

/// The files by name, with what they are.
pub fn all() -> Vec<(&'static str, &'static str, Vec<u8>)> {
    let fullest = Estate {
        bands: 24,
        points: 64,
        transfers: 1,
        conditions: 0,
        meters: 16,
        reads: 2,
        providers: 64,
    };
    let longest = Estate { points: 17, reads: 40, ..fullest };
    let crowded = Estate { transfers: 24, conditions: 48, meters: 4, ..fullest };
    let park = Estate { points: 256, meters: 3, ..fullest };
    let typical = estate(&TYPICAL).to_bytes();
    let fullest = filled(&fullest).to_bytes();
    let mut refused = typical.clone();
    let length = refused.len();
    refused[length - 4..].fill(0xff);
    let mut refused_last = fullest.clone();
    *refused_last.last_mut().expect("bytes") |= 1;
    vec![
        ("typical", "20 points, 2 meters, monthly reads, 5 transfers, 8 providers", typical),
        ("fullest", "64 points, 16 meters, 11 or 12 reads, 64 providers", fullest),
        ("longest", "17 points, 16 meters, 40 reads, 17 providers", filled(&longest).to_bytes()),
        (
            "crowded",
            "64 points, 24 transfers, 48 conditions, 4 meters, 22 or 23 reads, 64 providers",
            filled(&crowded).to_bytes(),
        ),
        (
            "irregular",
            "32 points, 6 transfers, 6 conditions, 6 meters, up to 20 irregular reads, 16 providers",
            irregular().to_bytes(),
        ),
        (
            "park",
            "version 2, 256 points, 3 meters, 12 or 13 reads, 64 providers",
            filled(&park).to_bytes(),
        ),
        ("refused", "typical, the last read past its dial: 4", refused),
        ("refused-last", "fullest, a padding bit set: 12", refused_last),
    ]
}

/// Files of the typical estate but for one count, by what grows.
pub fn growth() -> Vec<(&'static str, u64, Vec<u8>)> {
    let mut files = Vec::new();
    let mut add = |what, count, some: Estate| files.push((what, count, estate(&some).to_bytes()));
    for points in [1, 2, 4, 8, 16, 24, 32, 48, 64, 128, 256] {
        add("points", points, Estate { points, ..TYPICAL });
    }
    for meters in [0, 1, 2, 4, 6, 8, 10, 12, 16] {
        add("meters", meters, Estate { meters, ..TYPICAL });
    }
    for reads in [0, 2, 4, 8, 13, 20, 26, 32, 40] {
        add("reads", reads, Estate { reads, ..TYPICAL });
    }
    // 24 transfers at each point, so that there are days for each provider
    for providers in [1, 2, 4, 8, 16, 24, 32, 48, 64] {
        add("providers", providers, Estate { providers, transfers: 24, ..TYPICAL });
    }
    files
}
