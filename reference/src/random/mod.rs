//! Random files and cases: valid files, and damaged, spliced and cut ones.

mod damage;
mod rng;
mod splice;
mod valid;

pub use rng::Rng;
pub use valid::{crowded, other_transfers, small, valid, wide, SMALL};

use crate::cases::Case;
use crate::report;
use crate::services::{accept, REPORT_SPACE};
use crate::settlement;

/// Which files to make.
#[derive(Clone, Copy, Debug, PartialEq, Eq)]
pub enum Sort {
    /// Of any size; of two, one is undamaged (and may yet have 65 providers),
    /// the other damaged in one way.
    Any,
    /// The same, at most about 150 bytes long, so that 1 and 13 do not come.
    Small,
    /// Damaged in several ways, often in one record, so that the order of
    /// numbers decides.
    Twice,
    /// Put together of two files.
    Spliced,
    /// Cut or padded to any size up to 65,537 bytes.
    Cut,
}

impl Sort {
    pub const ALL: [(&'static str, Sort); 5] = [
        ("any", Sort::Any),
        ("small", Sort::Small),
        ("twice", Sort::Twice),
        ("spliced", Sort::Spliced),
        ("cut", Sort::Cut),
    ];
}

pub fn file(sort: Sort, seed: u64) -> Vec<u8> {
    let mut rng = Rng::new(seed);
    let rng = &mut rng;
    match sort {
        Sort::Any => {
            let file = valid(rng);
            match rng.one_in(2) {
                true => file.to_bytes(),
                false => damage::once(rng, &file),
            }
        }
        Sort::Small => {
            let file = small(rng);
            match rng.one_in(2) {
                true => file.to_bytes(),
                false => damage::once_small(rng, &file),
            }
        }
        Sort::Twice => {
            let file = match rng.below(60) {
                0..=9 => crowded(rng),
                10 => wide(rng),
                _ => small(rng),
            };
            damage::twice(rng, &file)
        }
        Sort::Spliced => splice::spliced(rng),
        Sort::Cut => splice::cut(rng),
    }
}

/// The file of the seed. What is lent is often 64 entries and 65,536 bytes,
/// else about what is needed: one short, just enough, or some more.
pub fn case(sort: Sort, seed: u64) -> Case {
    let file = file(sort, seed);
    let mut rng = Rng::new(!seed);
    let (rows, length) = match accept(&file) {
        Ok(file) => {
            let rows = settlement::rows(&file);
            (rows.len() as u64, report::text(&file.header, &rows).len() as u64)
        }
        Err(_) => (rng.between(1, 64), rng.between(52, 9_000)),
    };
    let entries = match rng.below(8) {
        0..=2 => 64,
        3 => rows.saturating_sub(1),
        4 | 5 => rows,
        6 => *rng.pick(&[0, rows.saturating_sub(1)]),
        _ => rows + rng.between(1, 9),
    };
    let space = match rng.below(10) {
        0..=3 => REPORT_SPACE as u64,
        4 => *rng.pick(&[0, 51, 52]),
        5 => length - 1,
        6 | 7 => length,
        8 => rng.between(0, length),
        _ => length + rng.between(1, 99),
    };
    Case { file, entries: entries as u32, space: space as u32 }
}
