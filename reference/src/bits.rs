//! "Fields are unsigned, bit-packed, most significant bit first, with no
//! gaps."

use crate::layout::{Layout, Record};

/// "Fields are read in turn from the front": the bytes and the next bit.
pub struct Cursor<'a> {
    bytes: &'a [u8],
    pub bit: usize,
}

impl<'a> Cursor<'a> {
    pub fn new(bytes: &'a [u8]) -> Cursor<'a> {
        Cursor { bytes, bit: 0 }
    }

    pub fn bits_left(&self) -> usize {
        self.bytes.len() * 8 - self.bit
    }

    /// A field further on, which is not yet read; 0 where it lacks bits.
    pub fn ahead(&self, bits: usize, width: u32) -> u64 {
        let mut ahead = Cursor { bytes: self.bytes, bit: self.bit + bits };
        match self.bits_left() < bits + width as usize {
            true => 0,
            false => ahead.field(width),
        }
    }

    pub fn field(&mut self, width: u32) -> u64 {
        let mut value = 0;
        for _ in 0..width {
            let byte = self.bytes[self.bit / 8];
            value = value * 2 + u64::from(byte >> (7 - self.bit % 8) & 1);
            self.bit += 1;
        }
        value
    }

    /// The next record, unless it lacks bits.
    pub fn record(&mut self, layout: &'static Layout) -> Option<Record> {
        if self.bits_left() < layout.width() {
            return None;
        }
        let values = layout.fields.iter().map(|field| self.field(field.width)).collect();
        Some(Record::new(layout, values))
    }
}

/// The records one after the other. "Bits after the last record are zero to
/// the end of that byte."
pub fn to_bytes(records: &[Record]) -> Vec<u8> {
    let mut bits = Vec::new();
    for record in records {
        for (field, value) in record.layout.fields.iter().zip(&record.values) {
            let Record { layout, .. } = record;
            assert!(value >> field.width == 0, "{} {}: {value}", layout.keyword, field.name);
            bits.extend((0..field.width).rev().map(|place| value >> place & 1 == 1));
        }
    }
    bits.chunks(8).map(byte).collect()
}

/// A byte of up to eight bits, the rest zero.
fn byte(bits: &[bool]) -> u8 {
    let bit = |place: usize| u8::from(bits.get(place) == Some(&true));
    (0..8).fold(0, |byte, place| byte * 2 + bit(place))
}
