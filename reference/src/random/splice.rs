//! Files spliced of two, and files cut or padded to any size.

use super::valid::{number_points, small, valid};
use super::Rng;
use crate::bits;
use crate::file::*;

/// The bytes of two files put together at points, records or bytes. Put
/// together at points with new numbers, or point by point, many are accepted.
pub fn spliced(rng: &mut Rng) -> Vec<u8> {
    let (one, other) = (some(rng), some(rng));
    match rng.below(6) {
        0 | 1 => points(rng, &one, &other).to_bytes(),
        2 | 3 => crossed(rng, &one, &other).to_bytes(),
        4 => records(rng, &one, &other),
        _ => bytes(rng, &one.to_bytes(), &other.to_bytes()),
    }
}

/// A file of any size, or one spliced, at a length that may be any up to
/// 65,537, and often is near its own or near the most.
pub fn cut(rng: &mut Rng) -> Vec<u8> {
    let mut file = if rng.one_in(4) { spliced(rng) } else { some(rng).to_bytes() };
    let own = file.len() as u64;
    let length = match rng.below(8) {
        0..=3 => rng.between(0, MOST_BYTES as u64 + 1),
        4 => rng.between(MOST_BYTES as u64 - 2, MOST_BYTES as u64 + 1),
        5 => rng.between(own.saturating_sub(3), own + 2),
        6 => rng.between(0, own),
        _ => rng.between(own, own + 300),
    };
    let (length, sort) = (length as usize, rng.below(3));
    for place in file.len()..length {
        file.push(match sort {
            0 => 0,
            1 => rng.draw() as u8,
            // its own bytes over again
            _ => file.get(place - own as usize).copied().unwrap_or(0),
        });
    }
    file.truncate(length);
    file
}

fn some(rng: &mut Rng) -> File {
    if rng.one_in(3) {
        small(rng)
    } else {
        valid(rng)
    }
}

/// Some first points of one and some last of the other, or all of both, under
/// one's header and bands; their numbers anew or as they were.
fn points(rng: &mut Rng, one: &File, other: &File) -> File {
    let mut file = one.clone();
    let mut from = 0;
    if !rng.one_in(4) {
        file.points.truncate(rng.between(0, one.points.len() as u64) as usize);
        from = rng.below(other.points.len() as u64) as usize;
    }
    file.points.extend_from_slice(&other.points[from..]);
    cut_to_count(&mut file);
    if !rng.one_in(3) {
        number_points(rng, &mut file.points);
    }
    file
}

/// Drops the points that the count cannot tell, in its 7 or 9 bits.
fn cut_to_count(file: &mut File) {
    let most = header_layout(file.header.version).field("points").widest();
    file.points.truncate(most as usize);
}

/// One's points with lists, or dates, of the other's points.
fn crossed(rng: &mut Rng, one: &File, other: &File) -> File {
    let mut file = one.clone();
    for (point, from) in file.points.iter_mut().zip(&other.points) {
        match rng.below(5) {
            0 => {
                point.connected = from.connected;
                point.disconnected = from.disconnected;
                point.transfers = from.transfers.clone();
            }
            1 => point.transfers = from.transfers.clone(),
            2 => point.conditions = from.conditions.clone(),
            3 => point.meters = from.meters.clone(),
            _ => {}
        }
    }
    if rng.one_in(2) {
        file.bands = other.bands.clone();
    }
    if rng.one_in(4) {
        file.header = other.header.clone();
        cut_to_count(&mut file);
    }
    file
}

/// Some first records of one and some last of the other.
fn records(rng: &mut Rng, one: &File, other: &File) -> Vec<u8> {
    let (mut records, mut more) = (one.records(), other.records());
    records.truncate(rng.between(1, records.len() as u64) as usize);
    let from = rng.below(more.len() as u64) as usize;
    records.extend(more.drain(from..));
    bits::to_bytes(&records)
}

/// Some first bytes of one, then the other's from there on or from anywhere.
fn bytes(rng: &mut Rng, one: &[u8], other: &[u8]) -> Vec<u8> {
    let at = rng.between(0, one.len() as u64) as usize;
    let from = match rng.one_in(2) {
        true => at.min(other.len()),
        false => rng.between(0, other.len() as u64) as usize,
    };
    [&one[..at], &other[from..]].concat()
}
