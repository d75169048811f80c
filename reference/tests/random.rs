//! Random files: what they bring up, that the library agrees on them with the
//! oracle, and demand 3.

mod oracle;

use std::collections::{BTreeMap, BTreeSet};

use reference::cases::{lines, read_case, write_case, Case};
use reference::check::{check, decode};
use reference::coverage::{Coverage, Headers};
use reference::explain::explain;
use reference::file::{File, Header, MOST_BYTES};
use reference::random::{self, other_transfers, small, valid, Rng, Sort, SMALL};
use reference::services::{self, accept};
use reference::settlement::{exact, figures, statement, Row, Statement};
use reference::text;

const SORTS: [Sort; 5] = [Sort::Any, Sort::Small, Sort::Twice, Sort::Spliced, Sort::Cut];

/// Accepted files, large and small, as bytes and contents.
fn accepted(large: u64, small: u64) -> Vec<(Vec<u8>, File)> {
    let large = (0..large).map(|seed| random::file(Sort::Any, seed));
    let small = (0..small).map(|seed| random::file(Sort::Small, seed));
    let files =
        large.chain(small).filter_map(|bytes| accept(&bytes).ok().map(|file| (bytes, file)));
    files.collect()
}

/// The number of 1 to 13 by the oracle, or 0.
fn by_oracle(bytes: &[u8]) -> u32 {
    match oracle::books(bytes) {
        Err(numbers) => *numbers.first().unwrap(),
        Ok(books) => {
            let owed = oracle::owed(&books);
            let providers: BTreeSet<&u64> =
                owed.iter().flat_map(|at| at.providers.keys()).collect();
            if providers.len() > 64 {
                13
            } else {
                0
            }
        }
    }
}

#[test]
fn oracle_agrees_on_numbers() {
    for (sort, seeds) in SORTS.into_iter().zip([600, 2_000, 5_000, 600, 600]) {
        let mut refused = 0;
        for seed in 0..seeds {
            let bytes = random::file(sort, seed);
            let number = accept(&bytes).err().unwrap_or(0);
            assert_eq!(number, by_oracle(&bytes), "{sort:?} {seed}");
            assert_eq!(check(&bytes), number % 13, "{sort:?} {seed}");
            refused += u64::from(number != 0);
        }
        assert!(refused > seeds / 3 && refused < seeds, "{sort:?}: {refused} of {seeds}");
    }
}

/// Files damaged in several ways bring up every two numbers that one record
/// can break at once, so that their order is tried.
#[test]
fn every_order_is_tried() {
    let mut pairs = BTreeSet::new();
    for seed in 0..12_000 {
        if let Err(numbers) = oracle::books(&random::file(Sort::Twice, seed)) {
            let numbers: Vec<u32> = numbers.into_iter().collect();
            pairs.extend(numbers.windows(2).map(|pair| (pair[0], pair[1])));
        }
    }
    for pair in [(3, 4), (4, 5), (4, 6), (4, 7), (4, 8), (4, 9), (4, 10), (4, 11)] {
        assert!(pairs.contains(&pair), "{pair:?}");
    }
    for pair in [(5, 7), (5, 8), (5, 9), (5, 10), (9, 10), (9, 11), (10, 11)] {
        assert!(pairs.contains(&pair), "{pair:?}");
    }
}

fn floor((number, divisor): oracle::Exact) -> u128 {
    number / divisor
}

/// Statement and figures of every point, from the oracle's exact fractions.
#[test]
fn oracle_agrees_on_settlement() {
    for (bytes, file) in accepted(300, 3_000) {
        let owed = oracle::owed(&oracle::books(&bytes).unwrap());
        assert_eq!(owed.len(), file.points.len());
        for (point, owed) in file.points.iter().zip(&owed) {
            let by_oracle = Statement {
                days: owed.days as u64,
                litres: owed.litres,
                disconnected: owed.disconnected,
                v: owed.v,
                y: owed.y,
                charges: owed.charges.map(floor),
            };
            assert_eq!(statement(&file, point), by_oracle);
            assert_eq!(figures(&file, point), running_floors(owed));
        }
    }
}

/// "the floor of the fractions summed up to and including it, less the floor
/// of the sum before it", providers ascending.
fn running_floors(owed: &oracle::Owed) -> Vec<Row> {
    let mut rows = Vec::new();
    let mut sums = [0; 4];
    for (provider, (days, litres, exact)) in &owed.providers {
        let mut charges = [0; 4];
        for charge in 0..4 {
            let (number, divisor) = exact[charge];
            let before = floor((sums[charge], divisor));
            sums[charge] += number;
            charges[charge] = floor((sums[charge], divisor)) - before;
        }
        rows.push(Row { provider: *provider, days: *days as u64, litres: *litres, charges });
    }
    rows
}

fn add(sum: &mut Row, row: &Row) {
    sum.days += row.days;
    sum.litres += row.litres;
    for charge in 0..4 {
        sum.charges[charge] += row.charges[charge];
    }
}

fn total<'a>(rows: impl IntoIterator<Item = &'a Row>) -> Row {
    let mut sum = Row::default();
    rows.into_iter().for_each(|row| add(&mut sum, row));
    sum
}

fn as_row(statement: Statement) -> Row {
    let Statement { days, litres, charges, .. } = statement;
    Row { provider: 0, days, litres, charges }
}

/// Demand 3: at every point the providers' days, litres and four charges add
/// up to the statement.
#[test]
fn providers_add_up_to_the_statement() {
    for (_, file) in accepted(300, 2_000) {
        for point in &file.points {
            let whole = as_row(statement(&file, point));
            assert_eq!(total(&figures(&file, point)), whole);
        }
    }
}

/// Demand 3: each charge is less than 1 cp from its exact fraction, "judged
/// after multiplying by the divisor".
#[test]
fn charges_are_near_their_fractions() {
    let near = |charge: u128, (number, divisor): oracle::Exact| {
        (charge * divisor).abs_diff(number) < divisor
    };
    let mut inexact = 0;
    for (bytes, file) in accepted(200, 2_000) {
        let owed = oracle::owed(&oracle::books(&bytes).unwrap());
        for (point, owed) in file.points.iter().zip(&owed) {
            let whole = statement(&file, point);
            let figures = figures(&file, point);
            let parts = figures.iter().map(|row| (row.charges, owed.providers[&row.provider].2));
            for (charges, exact) in parts.chain([(whole.charges, owed.charges)]) {
                for charge in 0..4 {
                    assert!(near(charges[charge], exact[charge]));
                    inexact += usize::from(exact[charge].0 % exact[charge].1 != 0);
                }
            }
        }
    }
    assert!(inexact > 1_000, "{inexact}");
}

/// Demand 3: the rows that the service writes are the providers' figures
/// summed over points, one for each provider with a charged day, ascending.
#[test]
fn rows_are_sums() {
    for (bytes, file) in accepted(300, 2_000) {
        let mut sums: BTreeMap<u64, Row> = BTreeMap::new();
        for point in &file.points {
            for figure in figures(&file, point) {
                let empty = Row { provider: figure.provider, ..Row::default() };
                add(sums.entry(figure.provider).or_insert(empty), &figure);
            }
        }
        let found = Row { provider: 7, days: 7, litres: 7, charges: [7; 4] };
        let mut table = vec![found.clone(); 66];
        let (number, count) = services::rows(&bytes, &mut table);
        assert_eq!((number, count), (0, sums.len()));
        assert!(table[..count].iter().eq(sums.values()));
        assert!(table[count..].iter().all(|row| *row == found));
        assert!(table[..count].iter().all(|row| row.days > 0));
        let statements = file.points.iter().map(|point| as_row(statement(&file, point)));
        assert_eq!(total(&table[..count]), total(&statements.collect::<Vec<_>>()));
    }
}

/// Demand 3: files alike except in transfers have the same statements.
#[test]
fn transfers_leave_statements_alone() {
    let mut differing = 0;
    for (seed, (_, file)) in accepted(300, 1_000).into_iter().enumerate() {
        let other = other_transfers(&mut Rng::new(seed as u64), &file);
        let other_bytes = other.to_bytes();
        if other_bytes.len() > MOST_BYTES {
            continue;
        }
        assert_eq!(accept(&other_bytes), Ok(other.clone()));
        for (one, two) in file.points.iter().zip(&other.points) {
            assert_eq!(statement(&file, one), statement(&other, two));
            differing += usize::from(figures(&file, one) != figures(&other, two));
        }
    }
    assert!(differing > 500, "{differing}");
}

/// "Version 1 files are read as before": what either version can hold settles
/// alike in both. One of more points is refused by 4 in version 1.
#[test]
fn versions_settle_alike() {
    let (mut alike, mut refused) = (0, 0);
    for (bytes, file) in accepted(400, 1_000) {
        let version = if file.header.version == 1 { 2 } else { 1 };
        let header = Header { version, ..file.header.clone() };
        let other = File { header, ..file.clone() };
        if file.points.len() > 127 || other.bit_length() > MOST_BYTES * 8 {
            continue;
        }
        let other_bytes = other.to_bytes();
        if file.points.len() > 64 {
            assert_eq!(check(&other_bytes), 4);
            refused += 1;
        } else {
            let case = |file: &[u8]| Case { file: file.to_vec(), entries: 65, space: 65_536 };
            assert_eq!(lines(0, &case(&other_bytes)), lines(0, &case(&bytes)));
            assert_eq!(decode(&other_bytes), Ok(other));
            alike += 1;
        }
    }
    assert!(alike > 600 && refused > 2, "{alike} {refused}");
}

/// No report is under 52 bytes, and its total lines are the rows'.
#[test]
fn reports_tell_the_rows() {
    let mut shortest = usize::MAX;
    for (bytes, file) in accepted(200, 1_000) {
        let text = String::from_utf8(services::report_program(&bytes)).unwrap();
        shortest = shortest.min(text.len());
        let heading = ["Type:,RF,,".to_string(), format!("Tariff Year:,{},,", file.header.year)];
        let lines: Vec<&str> = text.lines().collect();
        assert_eq!(lines[..2], heading);
        assert_eq!((lines.len() - 4) % 8, 0);
        let mut table = vec![Row::default(); 64];
        let (_, count) = services::rows(&bytes, &mut table);
        assert_eq!((lines.len() - 4) / 8, count);
        for (block, row) in lines[4..].chunks(8).zip(&table) {
            assert_eq!(block[0], format!("LP:,{},,", row.provider));
            let charge = row.charges[0] + row.charges[1] + row.charges[2] + row.charges[3];
            let totals = format!("Total Charge=,{charge},Total Volume=,{}", row.litres);
            assert_eq!(block[1], totals);
            assert_eq!(block[6], format!("Roads Drainage,{},,{}", row.days, row.charges[3]));
            assert_eq!(block[7], format!("END LP:,{},,", row.provider));
        }
    }
    assert_eq!(shortest, 52);
}

#[test]
fn round_trips() {
    for (bytes, file) in accepted(200, 1_000) {
        assert_eq!(file.to_bytes(), bytes);
        assert_eq!(text::parse(&text::print(&file)).unwrap(), file);
        assert_eq!(text::parse(&explain(&bytes)).unwrap().to_bytes(), bytes);
    }
    for seed in 0..200 {
        let file = valid(&mut Rng::new(seed));
        assert_eq!(decode(&file.to_bytes()), Ok(file));
    }
}

/// Of a refused file, explain tells the number, the record and the bit.
#[test]
fn refused_files_are_explained() {
    for (sort, seeds) in SORTS.into_iter().zip([400, 1_000, 1_000]) {
        for bytes in (0..seeds).map(|seed| random::file(sort, seed)) {
            let words = explain(&bytes);
            match accept(&bytes) {
                Ok(_) => assert!(words.contains("# accepted: ")),
                Err(13) => assert!(words.contains("# refused, number 13: ")),
                Err(number) => {
                    assert!(words.contains(&format!("# refused, number {number}: ")));
                    let last = words.lines().last().unwrap();
                    let (_, place) = last.split_once(" at bit ").expect(last);
                    let bit: usize = place.split(':').next().unwrap().parse().unwrap();
                    assert!(bit <= bytes.len() * 8);
                }
            }
        }
    }
}

fn coverage(sort: Sort, seeds: u64) -> Coverage {
    let mut coverage = Coverage::default();
    (0..seeds).for_each(|seed| coverage.note(&random::file(sort, seed)));
    coverage
}

/// The rules that only long lists bring up.
const LONG: [&str; 7] = [
    "16 meters",
    "24 bands",
    "24 transfers",
    "40 reads",
    "48 conditions",
    "64 rows",
    "65,536 bytes",
];

#[test]
fn every_number_rule_and_limit_comes_up() {
    let coverage = coverage(Sort::Any, 2_000);
    for number in 0..=13 {
        let files = coverage.numbers.get(&number).copied().unwrap_or(0);
        assert!(files >= 20, "number {number}: {files}");
    }
    for rule in include_str!("rules.txt").lines() {
        let files = coverage.rules.get(rule).copied().unwrap_or(0);
        assert!(files >= 20, "{rule}: {files}");
    }
    assert_eq!(coverage.rules.len(), include_str!("rules.txt").lines().count());
    assert_eq!(coverage.limits.lines(), include_str!("limits.txt"));
}

/// Half of the files of every sort are of version 2.
#[test]
fn both_versions_in_every_sort() {
    for sort in SORTS {
        let files = (0..1_000).map(|seed| random::file(sort, seed));
        let second = files.filter(|bytes| bytes.get(2).is_some_and(|byte| byte >> 4 == 2)).count();
        assert!((400..600).contains(&second), "{sort:?}: {second}");
    }
}

/// The limits of the points' count in both versions, and among the refused
/// files those past them, and the wrong versions over the bits of either.
#[test]
fn versions_and_counts_come_up() {
    let mut headers = Headers::default();
    for sort in [Sort::Any, Sort::Small, Sort::Twice, Sort::Spliced] {
        (0..3_000).for_each(|seed| headers.note(&random::file(sort, seed)));
    }
    let told = |name: &str| headers.told.get(name).copied().unwrap_or_default();
    for (version, counts) in [("1", "1 64"), ("2", "1 64 65 255 256")] {
        for count in counts.split(' ') {
            let (_, accepted) = told(&format!("version {version}, points {count}"));
            assert!(accepted >= 5, "version {version}, points {count}: {accepted}");
        }
    }
    for (version, counts) in [("1", "0 65 127"), ("2", "0 257 511")] {
        for count in counts.split(' ') {
            let (files, accepted) = told(&format!("version {version}, points {count}"));
            assert!(files >= 5 && accepted == 0, "version {version}, points {count}: {files}");
        }
    }
    for (right, wrong) in [(1, "0 2 3 15"), (2, "0 1 3 15")] {
        for version in wrong.split(' ').chain(["4 to 14"]) {
            let name = format!("version {version} in a file of version {right}");
            let files = headers.mistaken.get(&name).copied().unwrap_or_default();
            assert!(files >= 5, "{name}: {files}");
        }
    }
}

#[test]
fn small_files_bring_up_as_much() {
    let coverage = coverage(Sort::Small, 6_000);
    for number in (0..=12).filter(|number| *number != 1) {
        let files = coverage.numbers.get(&number).copied().unwrap_or(0);
        assert!(files >= 100, "number {number}: {files}");
    }
    for rule in include_str!("rules.txt").lines().filter(|rule| !LONG.contains(rule)) {
        let files = coverage.rules.get(rule).copied().unwrap_or(0);
        assert!(files >= 5, "{rule}: {files}");
    }
    let lengths = (0..3_000).map(|seed| small(&mut Rng::new(seed)).to_bytes().len());
    let longest = lengths.max().unwrap();
    assert!(longest > SMALL - 10 && longest <= SMALL, "{longest}");
    let damaged = (0..6_000).map(|seed| random::file(Sort::Small, seed).len());
    assert!(damaged.max().unwrap() <= SMALL + 9);
}

/// Of spliced files some are accepted and most numbers come up; cut files have
/// every size, also the first that is too long.
#[test]
fn spliced_and_cut_files() {
    let spliced = coverage(Sort::Spliced, 1_500);
    for number in [0, 1, 2, 4, 5, 6, 9, 12, 13] {
        let files = spliced.numbers.get(&number).copied().unwrap_or(0);
        assert!(files >= 5, "number {number}: {files}");
    }
    assert!(spliced.numbers[&0] > 400, "{}", spliced.numbers[&0]);
    let cut = coverage(Sort::Cut, 1_500);
    // one in 48 keeps its own length, and of those some were spliced
    for (number, least) in [(0, 10), (1, 20), (2, 20), (12, 20)] {
        let files = cut.numbers.get(&number).copied().unwrap_or(0);
        assert!(files >= least, "number {number}: {files}");
    }
    let lengths: Vec<usize> = (0..1_500).map(|seed| random::file(Sort::Cut, seed).len()).collect();
    for part in 0..16 {
        assert!(lengths.iter().any(|length| length / 4_096 == part), "{part}");
    }
    for length in MOST_BYTES - 2..=MOST_BYTES + 1 {
        assert!(lengths.contains(&length), "{length}");
    }
}

/// The words of a line of a case.
fn words(lines: &str, keyword: &str) -> Vec<usize> {
    let line = lines.lines().find(|line| line.split(' ').next() == Some(keyword)).unwrap();
    line.split(' ').skip(1).map(|word| word.parse().unwrap()).collect()
}

#[test]
fn cases_keep_what_they_must() {
    let mut numbers: BTreeMap<usize, usize> = BTreeMap::new();
    let (mut exact, mut short, mut written) = (0, 0, 0);
    for sort in SORTS {
        for seed in 0..400 {
            let case = random::case(sort, seed);
            let lines = lines(seed as usize, &case);
            assert_eq!(words(&lines, "case"), [seed as usize]);
            let rows = words(&lines, "rows");
            assert_eq!(rows[1] + rows[2], case.entries as usize);
            assert_eq!(lines.lines().filter(|line| line.starts_with("row ")).count(), rows[1]);
            let report = words(&lines, "report");
            let length = services::written(report[0]);
            assert_eq!(length + report[1], case.space as usize);
            *numbers.entry(rows[0]).or_default() += 1;
            exact += usize::from(rows[0] == 0 && rows[1] > 0 && rows[2] == 0);
            short += usize::from(report[0] == 14);
            written += usize::from(length > 0 && report[1] == 0);
        }
    }
    assert!(
        (0..=14).all(|number| numbers.get(&number).is_some_and(|cases| *cases > 5)),
        "{numbers:?}"
    );
    assert!(exact > 50 && short > 50 && written > 50, "{exact} {short} {written}");
}

#[test]
fn statements_run_to_the_first_refusal() {
    for seed in 0..200 {
        let case = random::case(Sort::Any, seed);
        let lines = lines(0, &case);
        let statements: Vec<Vec<&str>> = lines
            .lines()
            .filter_map(|line| line.strip_prefix("statement "))
            .map(|line| line.split(' ').collect())
            .collect();
        let (last, before) = statements.split_last().unwrap();
        match accept(&case.file) {
            Ok(file) => {
                assert_eq!(before.len(), file.points.len());
                assert_eq!(last[1], "15");
            }
            Err(number) => {
                assert_eq!(before.len(), 0);
                assert_eq!(last[1], number.to_string());
            }
        }
        assert!(before.iter().all(|statement| statement[1] == "0"));
        assert!(last[2..].iter().all(|figure| *figure == "0"));
        assert!(statements.iter().all(|statement| statement.len() == 11));
        assert!(statements
            .iter()
            .enumerate()
            .all(|(at, statement)| statement[0] == at.to_string()));
    }
}

#[test]
fn batches_round_trip() {
    let cases: Vec<Case> = (0..50).map(|seed| random::case(Sort::Twice, seed)).collect();
    let batch: Vec<u8> = cases.iter().flat_map(write_case).collect();
    let mut rest = &batch[..];
    let read = std::iter::from_fn(|| read_case(&mut rest).unwrap());
    assert!(read.eq(cases));
}

/// The exact fractions that explain shows are the oracle's.
#[test]
fn exact_fractions() {
    for (bytes, file) in accepted(60, 500) {
        let owed = oracle::owed(&oracle::books(&bytes).unwrap());
        for (point, owed) in file.points.iter().zip(&owed) {
            for own in exact(&file, point) {
                let (days, litres, fractions) = owed.providers[&own.provider];
                assert_eq!((u128::from(own.days), own.litres), (days, litres));
                let own = own.fractions.map(|fraction| (fraction.number, fraction.divisor));
                assert_eq!(own, fractions);
            }
        }
    }
}
