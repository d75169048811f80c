//! The records of a settlement file: which fields each has, in which order,
//! how many bits wide.

/// What a field holds; the text form writes each kind its own way.
#[derive(Clone, Copy, Debug, PartialEq, Eq)]
pub enum Kind {
    Number,
    /// The header's mark, in hexadecimal.
    Mark,
    /// The header's version, which like the mark may be left unsaid in a text.
    Version,
    /// Water or sewerage.
    Service,
    /// A day, or the none mark.
    Day,
    /// A condition that holds or does not, or a rollover.
    Flag,
    /// How many records follow in a list.
    Count,
}

#[derive(Debug, PartialEq, Eq)]
pub struct Field {
    pub name: &'static str,
    pub width: u32,
    pub kind: Kind,
}

const fn field(name: &'static str, width: u32, kind: Kind) -> Field {
    Field { name, width, kind }
}

impl Field {
    /// The most that its bits can hold.
    pub fn widest(&self) -> u64 {
        (1 << self.width) - 1
    }
}

#[derive(Debug, PartialEq, Eq)]
pub struct Layout {
    pub keyword: &'static str,
    /// 0 for the header, 1 for what belongs to it, and so on down to reads.
    pub depth: usize,
    pub fields: &'static [Field],
}

/// "Header: mark 16 (hexadecimal 5753), version 4 (1), service 1 (0 water,
/// 1 sewerage), year 12, bands 5, points 7, property price 14 and roads price
/// 14, capacity rate 17 and standard rate 17". The count of points has the
/// given width.
const fn header_fields(points: u32) -> [Field; 10] {
    [
        field("mark", 16, Kind::Mark),
        field("version", 4, Kind::Version),
        field("service", 1, Kind::Service),
        field("year", 12, Kind::Number),
        field("bands", 5, Kind::Count),
        field("points", points, Kind::Count),
        field("property", 14, Kind::Number),
        field("roads", 14, Kind::Number),
        field("capacity", 17, Kind::Number),
        field("standard", 17, Kind::Number),
    ]
}

/// The header of version 1.
pub static HEADER_1: Layout = Layout { keyword: "header", depth: 0, fields: &header_fields(7) };

/// "Version 2 of the file widens the point count to 9 bits (1 to 256); later
/// fields move by two bits."
pub static HEADER_2: Layout = Layout { keyword: "header", depth: 0, fields: &header_fields(9) };

/// "Band: size 16 in mm, annual charge 30, free allowance 20, threshold 24"
pub static BAND: Layout = Layout {
    keyword: "band",
    depth: 1,
    fields: &[
        field("size", 16, Kind::Number),
        field("annual", 30, Kind::Number),
        field("allowance", 20, Kind::Number),
        field("threshold", 24, Kind::Number),
    ],
};

/// "Point: number 32, connection day 16, disconnection day 16, transfers 5,
/// conditions 6, meters 5"
pub static POINT: Layout = Layout {
    keyword: "point",
    depth: 1,
    fields: &[
        field("number", 32, Kind::Number),
        field("connected", 16, Kind::Day),
        field("disconnected", 16, Kind::Day),
        field("transfers", 5, Kind::Count),
        field("conditions", 6, Kind::Count),
        field("meters", 5, Kind::Count),
    ],
};

/// "Transfer: day 16, provider 16"
pub static TRANSFER: Layout = Layout {
    keyword: "transfer",
    depth: 2,
    fields: &[field("day", 16, Kind::Day), field("provider", 16, Kind::Number)],
};

/// "Condition: day 16; vacant, disconnected, property, roads, 1 bit each;
/// Schedule 3 and Section 29E discounts 14 each; live rateable value 24"
pub static CONDITION: Layout = Layout {
    keyword: "condition",
    depth: 2,
    fields: &[
        field("day", 16, Kind::Day),
        field("vacant", 1, Kind::Flag),
        field("disconnected", 1, Kind::Flag),
        field("property", 1, Kind::Flag),
        field("roads", 1, Kind::Flag),
        field("schedule3", 14, Kind::Number),
        field("section29e", 14, Kind::Number),
        field("value", 24, Kind::Number),
    ],
};

/// "Meter: tariff size 16, share 7 and return to sewer 7, digits 4,
/// installation day 16, removal day 16, reads 6"
pub static METER: Layout = Layout {
    keyword: "meter",
    depth: 2,
    fields: &[
        field("size", 16, Kind::Number),
        field("share", 7, Kind::Number),
        field("return", 7, Kind::Number),
        field("digits", 4, Kind::Number),
        field("installed", 16, Kind::Day),
        field("removed", 16, Kind::Day),
        field("reads", 6, Kind::Count),
    ],
};

/// "Read: day 16, rollover 1, value 27"
pub static READ: Layout = Layout {
    keyword: "read",
    depth: 3,
    fields: &[
        field("day", 16, Kind::Day),
        field("rollover", 1, Kind::Flag),
        field("value", 27, Kind::Number),
    ],
};

impl Layout {
    /// The width of the whole record in bits.
    pub fn width(&self) -> usize {
        self.fields.iter().map(|field| field.width as usize).sum()
    }

    pub fn place_of(&self, name: &str) -> usize {
        let place = self.fields.iter().position(|field| field.name == name);
        place.unwrap_or_else(|| panic!("a {} has no field {name}", self.keyword))
    }

    pub fn field(&self, name: &str) -> &Field {
        &self.fields[self.place_of(name)]
    }

    /// How many bits of the record stand before the named field.
    pub fn bits_before(&self, name: &str) -> usize {
        let before = &self.fields[..self.place_of(name)];
        before.iter().map(|field| field.width as usize).sum()
    }
}

/// A record with the values of its fields, in the layout's order.
#[derive(Clone, Debug, PartialEq, Eq)]
pub struct Record {
    pub layout: &'static Layout,
    pub values: Vec<u64>,
}

impl Record {
    pub fn new(layout: &'static Layout, values: Vec<u64>) -> Record {
        assert_eq!(layout.fields.len(), values.len(), "fields of a {}", layout.keyword);
        Record { layout, values }
    }

    pub fn get(&self, name: &str) -> u64 {
        self.values[self.layout.place_of(name)]
    }

    pub fn is_set(&self, name: &str) -> bool {
        self.get(name) == 1
    }

    pub fn set(&mut self, name: &str, value: u64) {
        let place = self.layout.place_of(name);
        self.values[place] = value;
    }
}
