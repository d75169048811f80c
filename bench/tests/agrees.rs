//! The unit, the fast version and the second implementation on random files and
//! on every version: the same answer, and the same bytes in the lent space.

use bench::inputs::{estate, Estate, TYPICAL};
use bench::{call, SERVICES};
use reference::random::{case, wide, Rng, Sort};

/// The services on a file, each lent so many bytes.
fn agree(what: &str, file: &[u8], length: usize) {
    let found: Vec<u8> = (0..length).map(|place| 0x80 | (place % 127) as u8).collect();
    let mut wanted = found.clone();
    let answer = reference::services::report(file, &mut wanted) as u64;
    for (name, service) in SERVICES {
        let mut space = found.clone();
        let own = call(service, file, &mut space);
        assert_eq!(own, answer, "{name}: {what}, {length} bytes lent");
        assert!(space == wanted, "{name}: {what}, {length} bytes lent");
    }
}

fn agree_on_random(sort: Sort, count: u64) {
    for seed in 0..count {
        let case = case(sort, seed);
        for length in [case.space as usize, 65_536] {
            agree(&format!("{sort:?} {seed}"), &case.file, length);
        }
    }
}

#[test]
fn any() {
    agree_on_random(Sort::Any, 2_000);
}

#[test]
fn small() {
    agree_on_random(Sort::Small, 10_000);
}

#[test]
fn twice() {
    agree_on_random(Sort::Twice, 10_000);
}

#[test]
fn spliced() {
    agree_on_random(Sort::Spliced, 2_000);
}

#[test]
fn cut() {
    agree_on_random(Sort::Cut, 2_000);
}

/// Files of up to 256 points, which are few among the others.
#[test]
fn many_points() {
    for seed in 0..1_000 {
        let file = wide(&mut Rng::new(seed));
        agree(&format!("wide {seed}"), &file.to_bytes(), 65_536);
    }
}

/// Each version with each number of points that its count can tell.
#[test]
fn versions_and_counts() {
    let shops = Estate { transfers: 1, meters: 1, reads: 2, ..TYPICAL };
    for version in 0..16 {
        let most = if version == 2 { 511 } else { 127 };
        for points in 0..=most {
            let mut file = estate(&Estate { points, ..shops });
            file.header.version = version;
            agree(&format!("version {version}, {points} points"), &file.to_bytes(), 65_536);
        }
    }
}
