//! Reading records. Each is taken by one to four loads of 64 bits, and its
//! fields are split from them by shifts.

pub const NONE: u64 = 65_535;

/// The bits of a record; of a header, without its count of points.
const HEADER: usize = 100;
pub const BAND: usize = 90;
pub const POINT: usize = 80;
pub const TRANSFER: usize = 32;
pub const CONDITION: usize = 72;
pub const METER: usize = 72;
pub const READ: usize = 44;

/// The bytes of a header, whichever width its count has.
pub const HEADER_BYTES: usize = 14;

/// What a version says of the layout.
#[derive(Clone, Copy)]
pub struct Form {
    /// The bits of the count of points.
    pub width: u32,
    pub most_points: u64,
}

impl Form {
    /// None of a version that there is not.
    #[inline(always)]
    pub fn of(version: u64) -> Option<Form> {
        match version {
            1 => Some(Form { width: 7, most_points: 64 }),
            2 => Some(Form { width: 9, most_points: 256 }),
            _ => None,
        }
    }
}

/// A header without its mark and version.
#[derive(Clone, Copy)]
pub struct Header {
    pub sewerage: bool,
    pub year: u64,
    pub bands: u64,
    pub points: u64,
    pub property: u64,
    pub roads: u64,
    pub capacity: u64,
    pub standard: u64,
}

#[derive(Clone, Copy, Default)]
pub struct Band {
    pub size: u64,
    pub annual: u64,
    pub allowance: u64,
    pub threshold: u64,
}

/// A point without its lists.
#[derive(Clone, Copy)]
pub struct Point {
    pub number: u64,
    pub connected: u64,
    pub disconnected: u64,
    pub transfers: u64,
    pub conditions: u64,
    pub meters: u64,
}

#[derive(Clone, Copy)]
pub struct Transfer {
    pub day: u64,
    pub provider: u64,
}

/// The flags of a condition.
pub const VACANT: u64 = 8;
pub const DISCONNECTED: u64 = 4;
pub const PROPERTY: u64 = 2;
pub const ROADS: u64 = 1;

#[derive(Clone, Copy)]
pub struct Condition {
    pub day: u64,
    pub flags: u64,
    pub schedule3: u64,
    pub section29e: u64,
    pub value: u64,
}

impl Condition {
    /// k: 10,000 less both discounts.
    #[inline(always)]
    pub fn k(&self) -> u64 {
        10_000 - self.schedule3 - self.section29e
    }
}

/// A meter without its reads.
#[derive(Clone, Copy)]
pub struct Meter {
    pub size: u64,
    pub share: u64,
    pub returned: u64,
    pub digits: u64,
    pub installed: u64,
    pub removed: u64,
    pub reads: u64,
}

impl Meter {
    /// 10 to the power of its digits.
    #[inline(always)]
    pub fn turn(&self) -> u64 {
        TURN[self.digits as usize & 15]
    }
}

const TURN: [u64; 16] =
    [1, 10, 100, 1_000, 10_000, 100_000, 1_000_000, 10_000_000, 100_000_000, 0, 0, 0, 0, 0, 0, 0];

#[derive(Clone, Copy, Default)]
pub struct Read {
    pub day: u64,
    pub rollover: u64,
    pub value: u64,
}

/// Two successive reads: their days, and the litres between them × 10.
#[derive(Clone, Copy)]
pub struct Advance {
    pub from: u64,
    pub to: u64,
    pub tenths: u64,
}

impl Advance {
    #[inline(always)]
    pub fn between(meter: &Meter, earlier: &Read, later: &Read) -> Advance {
        let turned = later.value + later.rollover * meter.turn() - earlier.value;
        let tenths = turned * (meter.share * meter.returned);
        Advance { from: earlier.day, to: later.day, tenths }
    }
}

/// The file and the next bit.
#[derive(Clone, Copy)]
pub struct Cursor<'a> {
    pub file: &'a [u8],
    pub at: usize,
}

impl Cursor<'_> {
    /// 57 bits and more from so many bits ahead on, topmost first.
    #[inline(always)]
    pub fn bits(&self, ahead: usize) -> u64 {
        let at = self.at + ahead;
        let byte = at >> 3;
        let word = match self.file.get(byte..byte + 8) {
            Some(eight) => u64::from_be_bytes(eight.try_into().expect("eight bytes")),
            None => last_bytes(self.file, byte),
        };
        word << (at & 7)
    }

    /// The bits that are left.
    #[inline(always)]
    pub fn left(&self) -> usize {
        self.file.len() * 8 - self.at
    }

    /// The mark and the version, which are in front in every version.
    #[inline(always)]
    pub fn mark_and_version(&self) -> (u64, u64) {
        let bits = self.bits(0);
        (field(bits, 0, 16), field(bits, 16, 4))
    }

    /// Read once a file, and so kept out of the way of what is done with every
    /// record.
    #[inline(never)]
    pub fn header(&mut self, form: &Form) -> Header {
        let width = form.width as usize;
        let (one, two, three) = (self.bits(0), self.bits(38 + width), self.bits(66 + width));
        self.at += HEADER + width;
        Header {
            sewerage: field(one, 20, 1) == 1,
            year: field(one, 21, 12),
            bands: field(one, 33, 5),
            points: field(one, 38, form.width),
            property: field(two, 0, 14),
            roads: field(two, 14, 14),
            capacity: field(three, 0, 17),
            standard: field(three, 17, 17),
        }
    }

    #[inline(always)]
    pub fn band(&mut self) -> Band {
        let (one, two) = (self.bits(0), self.bits(46));
        self.at += BAND;
        Band {
            size: field(one, 0, 16),
            annual: field(one, 16, 30),
            allowance: field(two, 0, 20),
            threshold: field(two, 20, 24),
        }
    }

    #[inline(always)]
    pub fn point(&mut self) -> Point {
        let (one, two) = (self.bits(0), self.bits(48));
        self.at += POINT;
        Point {
            number: field(one, 0, 32),
            connected: field(one, 32, 16),
            disconnected: field(two, 0, 16),
            transfers: field(two, 16, 5),
            conditions: field(two, 21, 6),
            meters: field(two, 27, 5),
        }
    }

    #[inline(always)]
    pub fn transfer(&mut self) -> Transfer {
        let bits = self.bits(0);
        self.at += TRANSFER;
        Transfer { day: field(bits, 0, 16), provider: field(bits, 16, 16) }
    }

    #[inline(always)]
    pub fn condition(&mut self) -> Condition {
        let (one, two) = (self.bits(0), self.bits(48));
        self.at += CONDITION;
        Condition {
            day: field(one, 0, 16),
            flags: field(one, 16, 4),
            schedule3: field(one, 20, 14),
            section29e: field(one, 34, 14),
            value: field(two, 0, 24),
        }
    }

    #[inline(always)]
    pub fn meter(&mut self) -> Meter {
        let (one, two) = (self.bits(0), self.bits(50));
        self.at += METER;
        Meter {
            size: field(one, 0, 16),
            share: field(one, 16, 7),
            returned: field(one, 23, 7),
            digits: field(one, 30, 4),
            installed: field(one, 34, 16),
            removed: field(two, 0, 16),
            reads: field(two, 16, 6),
        }
    }

    #[inline(always)]
    pub fn read(&mut self) -> Read {
        let bits = self.bits(0);
        self.at += READ;
        Read { day: field(bits, 0, 16), rollover: field(bits, 16, 1), value: field(bits, 17, 27) }
    }
}

/// Eight bytes, of which some are past the end and 0.
#[cold]
#[inline(never)]
fn last_bytes(file: &[u8], from: usize) -> u64 {
    let mut eight = [0; 8];
    for (to, byte) in eight.iter_mut().zip(&file[from.min(file.len())..]) {
        *to = *byte;
    }
    u64::from_be_bytes(eight)
}

/// The field of a width at a place of what was loaded.
#[inline(always)]
pub fn field(bits: u64, place: u32, width: u32) -> u64 {
    (bits << place) >> (64 - width)
}
