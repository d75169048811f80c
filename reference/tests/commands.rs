//! The command as a program: what it prints, its exit status, and that bad
//! input is told and never makes it panic (exit status 101).

use std::io::Write;
use std::process::{Command, Output, Stdio};

use reference::cases::{write_case, Case};
use reference::random::{self, Sort};
use reference::text;

const EXAMPLE: &str = include_str!("example.txt");
const REPORT: &str = include_str!("example.report");

fn run(arguments: &[&str], input: &[u8]) -> Output {
    let mut child = Command::new(env!("CARGO_BIN_EXE_reference"))
        .args(arguments)
        .stdin(Stdio::piped())
        .stdout(Stdio::piped())
        .stderr(Stdio::piped())
        .spawn()
        .unwrap();
    let mut stdin = child.stdin.take().unwrap();
    let input = input.to_vec();
    // a program that refuses its arguments may not read its input
    let writer = std::thread::spawn(move || stdin.write_all(&input).is_ok());
    let output = child.wait_with_output().unwrap();
    writer.join().unwrap();
    output
}

fn printed(arguments: &[&str], input: &[u8]) -> Vec<u8> {
    let output = run(arguments, input);
    let error = String::from_utf8_lossy(&output.stderr);
    assert_eq!((output.status.code(), &*error), (Some(0), ""), "{arguments:?}");
    output.stdout
}

/// What a run that fails with that status says.
fn told(status: i32, arguments: &[&str], input: &[u8]) -> String {
    let output = run(arguments, input);
    let error = String::from_utf8(output.stderr).unwrap();
    assert_eq!(output.status.code(), Some(status), "{arguments:?}: {error}");
    assert!(error.starts_with("reference: "), "{error}");
    assert!(!error.contains("panicked"), "{error}");
    error
}

fn example() -> Vec<u8> {
    text::parse(EXAMPLE).unwrap().to_bytes()
}

fn batch(cases: &[(&[u8], u32, u32)]) -> Vec<u8> {
    let case = |(file, entries, space): &(&[u8], u32, u32)| {
        write_case(&Case { file: file.to_vec(), entries: *entries, space: *space })
    };
    cases.iter().flat_map(case).collect()
}

#[test]
fn report() {
    assert_eq!(printed(&["report"], &example()), REPORT.as_bytes());
    assert_eq!(printed(&["report"], b""), b"Refused:,2,,\n");
    for length in [65_537, 1_000_000] {
        assert_eq!(printed(&["report"], &vec![0; length]), b"Refused:,1,,\n");
    }
}

#[test]
fn encode_and_explain() {
    assert_eq!(printed(&["encode"], EXAMPLE.as_bytes()), example());
    let words = printed(&["explain"], &example());
    assert_eq!(printed(&["encode"], &words), example());
}

#[test]
fn cases() {
    let damaged = [&example()[..], &[0]].concat();
    let input = batch(&[(&example(), 3, 500), (&example(), 1, 451), (&damaged, 4, 5), (&[], 0, 0)]);
    // the batch's numbers are four bytes each, most significant first
    assert_eq!(input[..12], [0, 0, 0, 63, 0, 0, 0, 3, 0, 0, 1, 244]);
    let expected = format!(
        "case 0
rows 0 2 1
row 2 265 265000 265000 337602 0 0
row 3 100 100000 100000 127398 0 0
statement 0 0 365 365000 0 365000 465000 365000 465000 0 0
statement 1 15 0 0 0 0 0 0 0 0 0
report 452 48
{REPORT}case 1
rows 14 0 1
statement 0 0 365 365000 0 365000 465000 365000 465000 0 0
statement 1 15 0 0 0 0 0 0 0 0 0
report 14 451
case 2
rows 12 0 4
statement 0 12 0 0 0 0 0 0 0 0 0
report 12 5
case 3
rows 2 0 0
statement 0 2 0 0 0 0 0 0 0 0 0
report 2 0
"
    );
    assert_eq!(String::from_utf8(printed(&["cases"], &input)).unwrap(), expected);
    assert_eq!(printed(&["check"], &input), b"0\n0\n12\n2\n");
    assert_eq!(printed(&["cases"], b""), b"");
}

#[test]
fn random_files_and_batches() {
    for (name, sort) in Sort::ALL {
        let batch = printed(&["random-batch", "5", "70", name], b"");
        let cases = (70..75).flat_map(|seed| write_case(&random::case(sort, seed)));
        assert_eq!(batch, cases.collect::<Vec<u8>>());
        for place in 0..5 {
            let picked = printed(&["pick", &place.to_string()], &batch);
            assert_eq!(picked, random::file(sort, 70 + place));
            assert_eq!(printed(&["random", &(70 + place).to_string(), name], b""), picked);
        }
    }
    assert_eq!(printed(&["random", "9"], b""), random::file(Sort::Any, 9));
    let coverage = String::from_utf8(printed(&["coverage", "200", "0", "small"], b"")).unwrap();
    assert!(coverage.contains("\nnumber 12: ") && coverage.contains("\nrule rollover: "));
}

#[test]
fn batches_of_files() {
    let folder = std::env::temp_dir().join(format!("reference-{}", std::process::id()));
    std::fs::create_dir_all(&folder).unwrap();
    let paths = ["one", "two"].map(|name| folder.join(name).to_str().unwrap().to_string());
    std::fs::write(&paths[0], example()).unwrap();
    std::fs::write(&paths[1], b"").unwrap();
    let made = printed(&["batch", "64", "65536", &paths[0], &paths[1]], b"");
    let missing = folder.join("three").to_str().unwrap().to_string();
    let error = told(1, &["batch", "64", "65536", &paths[0], &missing], b"");
    std::fs::remove_dir_all(&folder).unwrap();
    assert_eq!(made, batch(&[(&example(), 64, 65_536), (&[], 64, 65_536)]));
    assert!(error.contains("three: "), "{error}");
}

#[test]
fn bad_batches() {
    for command in ["cases", "check"] {
        let whole = batch(&[(&example(), 3, 500)]);
        let two = [&whole[..], &whole[..5]].concat();
        let told = |input: &[u8]| told(1, &[command], input);
        assert!(
            told(&two).contains("case 1: the three numbers take 12 bytes and are cut short at 5")
        );
        let cut = &whole[..whole.len() - 1];
        assert!(told(cut).contains("case 0: a file of 63 bytes is cut short at 62"));
        let lying = [&[255; 4][..], &[0; 8], b"abc"].concat();
        assert!(told(&lying).contains("a file of 4294967295 bytes is cut short at 3"));
        let table = [&[0; 4][..], &[255; 4], &[0; 4]].concat();
        assert!(told(&table).contains("case 0: 4294967295 entries of the table, more than the"));
        let space = [&[0; 8][..], &[255; 4]].concat();
        assert!(told(&space).contains("case 0: 4294967295 bytes of report space, more than the"));
    }
    assert!(told(1, &["pick", "1"], &batch(&[(b"", 0, 0)])).contains("no case 1 among 1"));
}

#[test]
fn every_cut_of_a_batch_is_told() {
    let whole = batch(&[(&example(), 3, 500), (b"abc", 1, 1)]);
    for length in (1..whole.len()).filter(|length| *length != 12 + 63) {
        told(1, &["check"], &whole[..length]);
    }
}

#[test]
fn bad_texts() {
    let bad = |from: &str, to: &str, words: &str| {
        assert_eq!(EXAMPLE.matches(from).count(), 1, "{from}");
        let error = told(1, &["encode"], EXAMPLE.replace(from, to).as_bytes());
        assert!(error.contains(words), "{error}");
    };
    bad("header", "heading", "line 2: heading: no such record");
    bad("year 2021", "year 4096", "line 2: header: year 4096 needs over 12 bits");
    bad("year 2021", "", "line 2: header: year is missing");
    bad("year 2021", "year", "not a number: property");
    bad("year 2021", "year 2021 year 2021", "year is given twice");
    bad("year 2021", "year -1", "not a number: -1");
    bad("year 2021", "year +1", "not a number: +1");
    bad("year 2021", "year 0x", "not a number: 0x");
    bad("year 2021", "year 99999999999999999999999", "not a number: 9999");
    bad("year 2021", "year none", "not a number: none");
    bad("service water", "service gas", "not a number: gas");
    bad("service water", "service 2", "service 2 needs over 1 bits");
    bad("standard 1000", "standard", "standard has no value");
    bad("standard 1000", "standard 1000 bands 3", "bands follows from the lines");
    bad("threshold 100", "threshold 100 colour 3", "line 3: band: no such field: colour");
    bad(
        "point number 7 connected 7000 disconnected none",
        "",
        "line 5: transfer: no point above it",
    );
    let meter = "  meter size 20 share 100 return 100 digits 5 installed 7000 removed none\n";
    bad(meter, "", "line 7: read: no meter above it");
    let band = "band size 20 annual 365000 allowance 0 threshold 100\n";
    bad(band, &band.repeat(32), "more bands than a count of 5 bits can tell");
    let text = [EXAMPLE, EXAMPLE].concat();
    assert!(told(1, &["encode"], text.as_bytes()).contains("2 header lines"));
    assert!(told(1, &["encode"], b"").contains("0 header lines"));
    assert!(told(1, &["encode"], &[0xff, 0xfe]).contains("UTF-8"));
}

/// The count of points has 9 bits in version 2, and 7 in any other.
#[test]
fn points_that_a_count_can_tell() {
    let text = |version: u64, count: usize| {
        let header = format!("header version {version}");
        let line = "point number 0 connected 0 disconnected none\n";
        EXAMPLE.replace("header", &header) + &line.repeat(count - 1)
    };
    for (version, bits) in [(0, 7), (1, 7), (2, 9), (3, 7)] {
        let most = (1 << bits) - 1;
        printed(&["encode"], text(version, most).as_bytes());
        let error = told(1, &["encode"], text(version, most + 1).as_bytes());
        assert!(error.contains(&format!("more points than a count of {bits} bits can tell")));
    }
}

#[test]
fn bad_commands() {
    for arguments in [
        &[][..],
        &["settle"],
        &["report", "now"],
        &["random"],
        &["random", "x"],
        &["random", "-1"],
        &["random", "1", "large"],
        &["random", "1", "small", "twice"],
        &["random-batch", "1"],
        &["random-batch", "1", "99999999999999999999"],
        &["batch", "64"],
        &["batch", "64", "4294967296"],
        &["pick"],
        &["coverage", "1"],
    ] {
        let error = told(2, arguments, b"");
        assert!(error.contains("usage:"), "{error}");
    }
}

/// Whatever the input, no command panics.
#[test]
fn no_input_makes_it_panic() {
    for seed in 0..12 {
        let input = random::file(Sort::Any, seed);
        for command in ["report", "cases", "check", "encode", "explain"] {
            let status = run(&[command], &input).status.code();
            assert!(status == Some(0) || status == Some(1), "{command} {seed} {status:?}");
        }
    }
}
