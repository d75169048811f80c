//! The worked example, the fifteen small inputs of the breach table, the
//! twelve marked examples and the other sentences of document 01, and of the
//! requests of document 02, that can be tried one by one.

use reference::bits;
use reference::calendar::{days_in_year, first_april};
use reference::cases::{self, Case};
use reference::charges::{band_serving, drainage, meter, shares, year_cost, Fraction};
use reference::check::{check, decode};
use reference::days::charged_days;
use reference::explain::explain;
use reference::file::{Band, File, Point, Read, Transfer};
use reference::layout::Record;
use reference::litres::{advance, carried};
use reference::services;
use reference::settlement::{figures, free_and_threshold, rows, statement, Row, Statement};
use reference::text;

const EXAMPLE: &str = include_str!("example.txt");
const REPORT: &str = include_str!("example.report");

fn file_of(text: &str) -> File {
    text::parse(text).unwrap()
}

fn example() -> File {
    file_of(EXAMPLE)
}

/// The example in version 2.
fn example_2() -> File {
    file_of(&changed("header", "header version 2"))
}

/// The example with a change in its text.
fn changed(from: &str, to: &str) -> String {
    assert_eq!(EXAMPLE.matches(from).count(), 1, "{from}");
    EXAMPLE.replace(from, to)
}

/// The first breach of 1 to 12 after a change in the example's text.
fn breach_after(from: &str, to: &str) -> u32 {
    check(&file_of(&changed(from, to)).to_bytes())
}

/// The number with which every service refuses the file, everything lent
/// being left as found.
fn refused(bytes: &[u8]) -> u32 {
    let number = services::accept(bytes).expect_err("a breach");
    let found = Row { provider: 9, days: 8, litres: 7, charges: [6, 5, 4, 3] };
    let mut table = vec![found.clone(); 70];
    assert_eq!(services::rows(bytes, &mut table), (number, 0));
    assert!(table.iter().all(|row| *row == found));
    assert_eq!(services::rows(bytes, &mut []), (number, 0));
    assert_eq!(services::statement(bytes, 0), (number, Statement::default()));
    assert_eq!(services::statement(bytes, 999), (number, Statement::default()));
    let mut space = vec![7; 65_536];
    assert_eq!(services::report(bytes, &mut space), number as usize);
    assert!(space.iter().all(|byte| *byte == 7));
    assert_eq!(services::report(bytes, &mut []), number as usize);
    let printed = services::report_program(bytes);
    assert_eq!(printed, format!("Refused:,{number},,\n").as_bytes());
    number
}

#[test]
fn whole_report() {
    let bytes = example().to_bytes();
    assert_eq!(services::report_program(&bytes), REPORT.as_bytes());
    let mut space = vec![7; REPORT.len() + 3];
    assert_eq!(services::report(&bytes, &mut space), REPORT.len());
    assert_eq!(space[..REPORT.len()], *REPORT.as_bytes());
    assert_eq!(space[REPORT.len()..], [7; 3]);
    let mut exact = vec![7; REPORT.len()];
    assert_eq!(services::report(&bytes, &mut exact), REPORT.len());
    let mut short = vec![7; REPORT.len() - 1];
    assert_eq!(services::report(&bytes, &mut short), 14);
    assert!(short.iter().all(|byte| *byte == 7));
}

#[test]
fn rows_and_statement_of_the_report() {
    let bytes = example().to_bytes();
    let found = Row { provider: 9, days: 8, litres: 7, charges: [6, 5, 4, 3] };
    let mut table = vec![found.clone(); 3];
    assert_eq!(services::rows(&bytes, &mut table), (0, 2));
    let second = Row { provider: 2, days: 265, litres: 265_000, charges: [265_000, 337_602, 0, 0] };
    let third = Row { provider: 3, days: 100, litres: 100_000, charges: [100_000, 127_398, 0, 0] };
    assert_eq!(table, [second, third, found]);
    let whole = Statement {
        days: 365,
        litres: 365_000,
        disconnected: 0,
        v: 365_000,
        y: 465_000,
        charges: [365_000, 465_000, 0, 0],
    };
    assert_eq!(services::statement(&bytes, 0), (0, whole));
}

#[test]
fn sewerage_is_named() {
    let report = services::report_program(&file_of(&changed("water", "sewerage")).to_bytes());
    let report = String::from_utf8(report).unwrap();
    assert_eq!(report, REPORT.replace("Service:,Water,,", "Service:,Sewerage,,"));
}

/// The bytes of the example, packed by hand from the list of fields, in both
/// versions.
#[test]
fn bytes_of_the_example() {
    assert_eq!(example().to_bytes(), packed("1:4 0:1 2021:12 1:5 1:7"));
    assert_eq!(example_2().to_bytes(), packed("2:4 0:1 2021:12 1:5 1:9"));
}

/// The example's fields, with those of the header from the version up to the
/// count of points as told.
fn packed(header: &str) -> Vec<u8> {
    // value and width of the header, the band, the point, two transfers, the
    // meter, two reads
    let fields = "22355:16 HEADER 0:14 0:14 2000:17 1000:17
        20:16 365000:30 0:20 100:24
        7:32 7000:16 65535:16 2:5 0:6 1:5
        7000:16 3:16
        7861:16 2:16
        20:16 100:7 100:7 5:4 7000:16 65535:16 2:6
        7761:16 0:1 99900:27
        8126:16 1:1 265:27"
        .replace("HEADER", header);
    let mut bits = String::new();
    for field in fields.split_whitespace() {
        let (value, width) = field.split_once(':').unwrap();
        let (value, width): (u64, usize) = (value.parse().unwrap(), width.parse().unwrap());
        bits += &format!("{value:0width$b}");
    }
    while !bits.len().is_multiple_of(8) {
        bits.push('0');
    }
    let bytes = (0..bits.len() / 8).map(|at| u8::from_str_radix(&bits[at * 8..at * 8 + 8], 2));
    bytes.map(Result::unwrap).collect()
}

/// "later fields move by two bits"
#[test]
fn later_fields_move_by_two_bits() {
    let bits = |file: &File| -> String {
        file.to_bytes().iter().map(|byte| format!("{byte:08b}")).collect()
    };
    let one = bits(&example());
    // the count of points comes after 38 bits, and the records take 501
    let moved = format!("{}0010{}00{}", &one[..16], &one[20..38], &one[38..501]);
    assert_eq!(bits(&example_2()), moved + "0");
}

/// A water file for 2021 with one point connected on day 100 or as told, and
/// a meter of four digits installed on day 0 or as told.
fn small_input(connected: &str, transfer: &str, condition: &str, meter: &str, reads: &str) -> u32 {
    let text = format!(
        "header service water year 2021 property 0 roads 0 capacity 0 standard 0
        band size 20 annual 0 allowance 0 threshold 0
        point number 0 {connected}
        transfer day {transfer} provider 1
        {condition}
        meter size 20 share 100 return 100 digits 4 {meter}
        {reads}"
    );
    let bytes = file_of(&text).to_bytes();
    match check(&bytes) {
        0 => 0,
        number => {
            assert_eq!(refused(&bytes), number);
            number
        }
    }
}

const POINT: &str = "connected 100 disconnected none";
const METER: &str = "installed 0 removed none";

#[test]
fn breach_1() {
    assert_eq!(refused(&vec![0; 65_537]), 1);
    let mut bytes = example().to_bytes();
    bytes.resize(65_537, 0);
    assert_eq!(refused(&bytes), 1);
    bytes.resize(65_536, 0);
    assert_eq!(refused(&bytes), 12);
}

#[test]
fn breach_2() {
    assert_eq!(refused(&[]), 2);
    let bytes = example().to_bytes();
    for length in 0..bytes.len() {
        assert_eq!(refused(&bytes[..length]), 2, "{length}");
    }
}

#[test]
fn breach_3() {
    let mut bytes = example().to_bytes();
    bytes[0] = 0x58;
    assert_eq!(refused(&bytes), 3);
    // a header of 107 bits takes 14 bytes, and lacking bits comes before
    assert_eq!(refused(&bytes[..13]), 2);
    assert_eq!(refused(&bytes[..14]), 3);
    for version in (0..16).filter(|version| ![1, 2].contains(version)) {
        let header = format!("header version {version}");
        assert_eq!(breach_after("header", &header), 3);
        // whatever follows, in the 14 bytes that a header of either version takes
        let unknown = [&[0x57, 0x53, version << 4 | 15][..], &[255; 11]].concat();
        assert_eq!((refused(&unknown[..13]), refused(&unknown)), (2, 3));
    }
}

/// The example with so many points, in a version.
fn with_points(version: u64, count: u64) -> File {
    let mut file = file_of(&changed("header", &format!("header version {version}")));
    let point = file.points.remove(0);
    file.points.extend((0..count).map(|number| Point { number, ..point.clone() }));
    file
}

/// "Version 2 of the file widens the point count to 9 bits (1 to 256)";
/// "Version 1 files are read as before".
#[test]
fn points_of_a_version() {
    for (version, most, countable) in [(1, 64, 127), (2, 256, 511)] {
        let number = |count: u64| check(&with_points(version, count).to_bytes());
        assert_eq!([0, 1, 64, most].map(number), [4, 0, 0, 0]);
        assert_eq!([most + 1, most + 2, countable].map(number), [4, 4, 4]);
    }
    assert_eq!(check(&with_points(2, 65).to_bytes()), 0);
}

/// Every point has its statement and its days in the rows, also after the 64th.
#[test]
fn a_park_of_256_points() {
    let file = with_points(2, 256);
    let bytes = file.to_bytes();
    let alone = services::statement(&example().to_bytes(), 0);
    for place in 0..256 {
        assert_eq!(services::statement(&bytes, place), alone);
    }
    assert_eq!(services::statement(&bytes, 256), (15, Statement::default()));
    let days: Vec<u64> = rows(&file).iter().map(|row| row.days).collect();
    assert_eq!(days, [256 * 265, 256 * 100]);
    let lines = cases::lines(0, &Case { file: bytes, entries: 2, space: 0 });
    assert_eq!(lines.lines().filter(|line| line.starts_with("statement ")).count(), 257);
}

/// A park of 65 shops, worked by hand. The nth of the first 64 has the last n
/// days of the year, 2,080 together, and no meter. The 65th has the last 65
/// days, 1,000 litres on each, and T = 100,000 × 65 / 365 = 17,808; so Y is
/// 2 × 17,808 + 47,192 = 82,808. Of these days 25 are provider 5's, for whom
/// 82,808 × 25 / 65 is 31,849.2.
fn park_of_65() -> File {
    let prices = "property 0 roads 0 capacity 2000 standard 1000";
    let mut text = format!("header version 2 service water year 2021 {prices}\n");
    text += "band size 20 annual 365000 allowance 0 threshold 100\n";
    for number in 1..=64 {
        let connected = 8_126 - number;
        text += &format!("point number {number} connected {connected} disconnected none\n");
        text += "transfer day 0 provider 5\n";
    }
    text += "point number 65 connected 8061 disconnected none
        transfer day 0 provider 5
        transfer day 8086 provider 6
        meter size 20 share 100 return 100 digits 5 installed 0 removed none
        read day 8061 value 7
        read day 8126 value 72";
    file_of(&text)
}

const REPORT_OF_65: &str = "Type:,RF,,
Tariff Year:,2021,,
Service:,Water,,
,,,
LP:,5,,
Total Charge=,56849,Total Volume=,25000
Service Element,Days,Volume / l,Charge / cp
Meter,2105,,25000
Volumetric,2105,25000,31849
Property Drainage,2105,,0
Roads Drainage,2105,,0
END LP:,5,,
LP:,6,,
Total Charge=,90959,Total Volume=,40000
Service Element,Days,Volume / l,Charge / cp
Meter,40,,40000
Volumetric,40,40000,50959
Property Drainage,40,,0
Roads Drainage,40,,0
END LP:,6,,
";

#[test]
fn a_park_of_65_points() {
    let bytes = park_of_65().to_bytes();
    assert_eq!(String::from_utf8(services::report_program(&bytes)).unwrap(), REPORT_OF_65);
    let days = |days: u64| (0, Statement { days, ..Statement::default() });
    let last = Statement {
        days: 65,
        litres: 65_000,
        disconnected: 0,
        v: 65_000,
        y: 82_808,
        charges: [65_000, 82_808, 0, 0],
    };
    assert_eq!(services::statement(&bytes, 0), days(1));
    assert_eq!(services::statement(&bytes, 63), days(64));
    assert_eq!(services::statement(&bytes, 64), (0, last));
    assert_eq!(services::statement(&bytes, 65), (15, Statement::default()));
}

/// "later fields move by two bits": each still has its range, and its value.
#[test]
fn a_file_of_version_2() {
    let bytes = example_2().to_bytes();
    assert_eq!(decode(&bytes), Ok(example_2()));
    assert_eq!(services::report_program(&bytes), REPORT.as_bytes());
    let of_version_1 = services::statement(&example().to_bytes(), 0);
    assert_eq!(services::statement(&bytes, 0), of_version_1);
    for length in 0..bytes.len() {
        assert_eq!(refused(&bytes[..length]), 2, "{length}");
    }
    // 503 bits are read; the one after them is padding
    assert_eq!(refused(&[&bytes[..62], &[bytes[62] | 1]].concat()), 12);
    assert_eq!(refused(&[&bytes[..], &[0]].concat()), 12);
    for (from, to) in [
        ("year 2021", "year 2019"),
        ("property 0", "property 1"),
        ("roads 0", "roads 1"),
        ("capacity 2000", "capacity 100001"),
        ("standard 1000", "standard 100001"),
        ("size 20 annual", "size 0 annual"),
        ("digits 5", "digits 3"),
    ] {
        let text = changed(from, to).replace("header", "header version 2");
        assert_eq!(refused(&file_of(&text).to_bytes()), 4, "{to}");
    }
}

#[test]
fn breach_4() {
    let band = "band size 20 annual 365000 allowance 0 threshold 100\n";
    assert_eq!(refused(&file_of(&changed(band, "")).to_bytes()), 4);
}

#[test]
fn breach_5() {
    let reads = |days: [u64; 2]| {
        let [first, second] = days;
        let reads = format!("read day {first} value 1\n read day {second} value 1");
        small_input(POINT, "100", "", METER, &reads)
    };
    assert_eq!([[9, 9], [9, 8], [9, 10]].map(reads), [5, 5, 0]);
}

#[test]
fn breach_6() {
    assert_eq!(small_input(POINT, "101", "", METER, ""), 6);
    assert_eq!(small_input(POINT, "100", "", METER, ""), 0);
}

#[test]
fn breach_7() {
    let discounts = |schedule3: u64, section29e: u64| {
        let condition =
            format!("condition day 0 schedule3 {schedule3} section29e {section29e} value 0");
        small_input(POINT, "100", &condition, METER, "")
    };
    assert_eq!(discounts(6_000, 4_001), 7);
    assert_eq!(discounts(6_000, 4_000), 0);
}

#[test]
fn breach_8() {
    let point = |days: &str| small_input(days, "0", "", METER, "");
    assert_eq!(point("connected 10 disconnected 9"), 8);
    assert_eq!(point("connected 10 disconnected 10"), 0);
    let meter = |days: &str| small_input(POINT, "0", "", days, "");
    assert_eq!(meter("installed 10 removed 9"), 8);
    assert_eq!(meter("installed 10 removed 10"), 0);
}

#[test]
fn breach_9() {
    let read = |day: u64| {
        let read = format!("read day {day} value 0");
        small_input(POINT, "100", "", "installed 10 removed 20", &read)
    };
    assert_eq!([9, 10, 20, 21].map(read), [9, 0, 0, 9]);
}

#[test]
fn breach_10() {
    let reads = |first: &str, second: &str| {
        let reads = format!("read day 0 {first}\n read day 1 {second}");
        small_input(POINT, "100", "", METER, &reads)
    };
    assert_eq!(reads("value 5", "value 4"), 10);
    assert_eq!(reads("value 5", "rollover value 4"), 0);
    assert_eq!(reads("value 5", "value 5"), 0);
    assert_eq!(reads("value 5", "rollover value 5"), 10);
    assert_eq!(reads("value 5", "rollover value 6"), 10);
    assert_eq!(reads("rollover value 5", "value 6"), 10);
}

#[test]
fn breach_11() {
    let reads = |day: u64| {
        let reads = format!("read day 0 value 0\n read day {day} value 0");
        small_input(POINT, "100", "", METER, &reads)
    };
    assert_eq!([3_660, 3_661].map(reads), [0, 11]);
}

#[test]
fn breach_12() {
    let mut bytes = example().to_bytes();
    bytes.push(0);
    assert_eq!(refused(&bytes), 12);
    bytes.pop();
    // 501 bits are read; the three after them are padding
    for bit in 0..3 {
        let mut padded = bytes.clone();
        *padded.last_mut().unwrap() |= 1 << bit;
        assert_eq!(refused(&padded), 12);
    }
}

/// The example with so many providers, each with a charged day.
fn with_providers(count: u64) -> File {
    let mut file = example();
    let point = file.points.remove(0);
    let providers: Vec<u64> = (1..=count).collect();
    for own in providers.chunks(24) {
        let mut point = point.clone();
        point.number = own[0];
        let day = |place: u64| if place == 0 { 7_000 } else { 7_761 + place };
        let transfer = |(place, provider)| Transfer { day: day(place), provider };
        point.transfers = (0..).zip(own.iter().copied()).map(transfer).collect();
        file.points.push(point);
    }
    file
}

#[test]
fn breach_13() {
    let crowd = with_providers(65).to_bytes();
    assert_eq!(refused(&crowd), 13);
    assert_eq!(check(&crowd), 0);
    let most = with_providers(64).to_bytes();
    assert_eq!(services::rows(&most, &mut vec![Row::default(); 64]), (0, 64));
    assert_eq!(services::rows(&most, &mut vec![Row::default(); 63]), (14, 0));
    // 12 comes before
    let mut longer = crowd.clone();
    longer.push(0);
    assert_eq!(refused(&longer), 12);
    // a provider without a charged day is not counted
    let mut file = with_providers(64);
    file.points[0].transfers.truncate(20);
    file.points[0].transfers.push(Transfer { day: 8_126, provider: 99 });
    assert_eq!(rows(&file).len(), 60);
}

#[test]
fn breach_14() {
    // nothing charged: no rows, and a report of 52 bytes
    let file = file_of(&changed("disconnected none", "disconnected 7000"));
    let bytes = file.to_bytes();
    assert_eq!(services::rows(&bytes, &mut []), (0, 0));
    let mut space = [7; 51];
    assert_eq!(services::report(&bytes, &mut space), 14);
    assert_eq!(space, [7; 51]);
    let mut space = [7; 53];
    assert_eq!(services::report(&bytes, &mut space), 52);
    let heading = "Type:,RF,,\nTariff Year:,2021,,\nService:,Water,,\n,,,\n";
    assert_eq!(space[..52], *heading.as_bytes());
    assert_eq!(space[52], 7);
    assert_eq!(services::report_program(&bytes), heading.as_bytes());
    let found = Row { provider: 9, ..Row::default() };
    let mut table = [found.clone()];
    assert_eq!(services::rows(&example().to_bytes(), &mut table), (14, 0));
    assert_eq!(table, [found]);
}

#[test]
fn breach_15() {
    let bytes = example().to_bytes();
    assert_eq!(services::statement(&bytes, 0).0, 0);
    assert_eq!(services::statement(&bytes, 1), (15, Statement::default()));
    assert_eq!(services::statement(&bytes, usize::MAX), (15, Statement::default()));
}

#[test]
fn marked_examples_1_and_2_calendar() {
    assert_eq!(first_april(2021), 7_761);
    assert_eq!(first_april(2024), 8_857);
    assert_eq!(days_in_year(2023), 366);
    let long: Vec<u64> = (2020..=2098).filter(|year| days_in_year(*year) != 365).collect();
    assert!(long.into_iter().eq((2023..=2095).step_by(4)));
}

#[test]
fn marked_examples_3_to_5_litres() {
    let read = |rollover, value| Read { day: 0, rollover, value };
    assert_eq!(advance(&read(false, 99_900), &read(true, 265), 5), 365);
    assert_eq!([0, 1, 2].map(|j| carried(1_000, 10_000, 3, j)), [333, 333, 334]);
    assert_eq!(carried(1_000, 100 * 95, 1, 0), 950);
}

#[test]
fn marked_example_6_bands() {
    let bands = [20, 40].map(|size| Band { size, ..Band::default() });
    let serving = |size| band_serving(&bands, size).map(|band| band.size);
    assert_eq!([43, 15].map(serving), [Some(40), Some(20)]);
    assert_eq!([0, 1, 19, 20].map(serving), [None, Some(20), Some(20), Some(20)]);
    assert_eq!([39, 40, 41, 65_535].map(serving), [Some(20), Some(40), Some(40), Some(40)]);
}

#[test]
fn marked_examples_7_to_10_shares() {
    let file = example();
    let point = &file.points[0];
    assert_eq!(statement(&file, point).y, 465_000);
    assert_eq!(free_and_threshold(&file, point), (0, 100_000));
    assert_eq!(year_cost(2_000, 1_000, 50_000, 60_000, 100_000), 0);
    let volumetric: Vec<u128> = figures(&file, point).iter().map(|row| row.charges[1]).collect();
    assert_eq!(volumetric, [337_602, 127_398]);
    assert_eq!(shares(&[Fraction { number: 1, divisor: 3 }; 3]), [0, 0, 1]);
}

#[test]
fn marked_examples_11_and_12_price_and_discount() {
    let file = example();
    let mut days = charged_days(&file, &file.points[0]);
    for day in &mut days {
        (day.property, day.value) = (true, 10_000);
    }
    assert_eq!(drainage(&days, |day| day.property, 280, 365).floor(), 2_800_000);
    assert_eq!(drainage(&days, |day| day.roads, 280, 365).floor(), 0);
    days.iter_mut().for_each(|day| day.k = 8_000);
    assert_eq!(meter(&days, 365).floor(), 292_000);
}

#[test]
fn marked_examples_11_and_12_through_a_file() {
    let conditions = "  condition day 0 property schedule3 0 section29e 2000 value 10000\n  meter";
    let text = EXAMPLE.replace("  meter", conditions).replace("service water", "service sewerage");
    let file = file_of(&text.replace("property 0", "property 350"));
    // 350 at 20 percent off is 280
    assert_eq!(statement(&file, &file.points[0]).charges, [292_000, 372_000, 2_800_000, 0]);
}

/// "Slips seen in such books", each against a figure that it would change.
#[test]
fn slips() {
    let with = |conditions: &str| {
        let meter = format!("  condition day 0 {conditions}\n  meter");
        let text = EXAMPLE.replace("  meter", &meter).replace("service water", "service sewerage");
        let file = file_of(&text.replace("property 0 roads 0", "property 100 roads 50"));
        statement(&file, &file.points[0])
    };
    // a disconnection leaves the meter charge, and drainage, alone
    let cut = with("disconnected property schedule3 0 section29e 0 value 10");
    assert_eq!((cut.litres, cut.disconnected, cut.v, cut.y), (0, 365_000, 0, 0));
    assert_eq!(cut.charges, [365_000, 0, 1_000, 0]);
    // a vacancy leaves drainage and litres alone
    let vacant = with("vacant property roads schedule3 0 section29e 0 value 10");
    assert_eq!((vacant.litres, vacant.disconnected, vacant.v, vacant.y), (365_000, 0, 0, 0));
    assert_eq!(vacant.charges, [0, 0, 1_000, 500]);
    let both = with("vacant disconnected schedule3 0 section29e 0 value 10");
    assert_eq!((both.litres, both.disconnected, both.v, both.y), (0, 365_000, 0, 0));
    // return to sewer scales litres, not the meter charge
    let text = changed("return 100", "return 50").replace("service water", "service sewerage");
    let file = file_of(&text);
    let half = statement(&file, &file.points[0]);
    assert_eq!((half.v, half.charges[0]), (182_500, 365_000));
}

/// "its own numbers ascending": records that break several, of a header 2, 3
/// and 4.
#[test]
fn numbers_of_a_header_ascend() {
    let header = |fields: &str, year: u64| {
        let text = changed("header", &format!("header {fields}"));
        file_of(&text.replace("year 2021", &format!("year {year}"))).to_bytes()
    };
    for version in [1, 2] {
        let (good, bad) = (format!("version {version}"), format!("mark 0 version {version}"));
        let number = |fields: &str, year: u64| check(&header(fields, year));
        assert_eq!((number(&good, 2019), number(&bad, 2021), number(&bad, 2019)), (4, 3, 3));
        assert_eq!((check(&header(&good, 2019)[..13]), check(&header(&bad, 2019)[..13])), (2, 2));
    }
    for fields in ["version 3", "mark 0 version 0"] {
        assert_eq!(check(&header(fields, 2019)), 3);
        assert_eq!(check(&header(fields, 2019)[..13]), 2);
    }
}

/// The same of a band, a point, a transfer, a condition and a meter.
#[test]
fn numbers_of_one_record_ascend() {
    let band = "threshold 100\nband size 20 annual 0 allowance 2 threshold";
    assert_eq!(breach_after("threshold 100", &format!("{band} 1")), 4);
    assert_eq!(breach_after("threshold 100", &format!("{band} 2")), 5);
    // of a second point: 4, then 5, then 8
    let second = |fields: &str| check(&file_of(&format!("{EXAMPLE}\npoint {fields}")).to_bytes());
    assert_eq!(second("number 7 connected 10 disconnected 9"), 4);
    let transfer = "\ntransfer day 11 provider 1";
    let second = |fields: &str| second(&format!("{fields}{transfer}"));
    assert_eq!(second("number 7 connected 10 disconnected 9"), 5);
    assert_eq!(second("number 8 connected 10 disconnected 9"), 8);
    assert_eq!(second("number 8 connected 10 disconnected 10"), 6);
    assert_eq!(second("number 8 connected 11 disconnected 11"), 0);
    assert_eq!(breach_after("7000 provider 3", "7001 provider 0"), 4);
    let condition = |day: u64, value: u64| {
        let fields = "schedule3 10000 section29e 0 value 0\n  condition";
        let second = format!("{day} schedule3 10000 section29e 1 value {value}\n  meter");
        breach_after("  meter", &format!("  condition day 5 {fields} day {second}"))
    };
    assert_eq!(condition(5, 10_000_001), 4);
    assert_eq!(condition(5, 0), 5);
    assert_eq!(condition(6, 0), 7);
    assert_eq!(
        breach_after("digits 5 installed 7000 removed none", "digits 3 installed 7000 removed 0"),
        4
    );
    assert_eq!(
        breach_after("digits 5 installed 7000 removed none", "digits 5 installed 7000 removed 0"),
        8
    );
}

/// The same of reads: 4, 5, 9, 10, 11.
#[test]
fn numbers_of_a_read_ascend() {
    let second = |fields: &str| breach_after("8126 rollover value 265", fields);
    assert_eq!(second("6999 value 100000"), 4);
    assert_eq!(second("6999 value 5"), 5);
    let removed = |fields: &str| {
        let text = changed("removed none", "removed 7800");
        let text = text.replace("read day 8126 rollover value 265", fields);
        check(&file_of(&text).to_bytes())
    };
    assert_eq!(removed("read day 7761 value 5"), 5);
    assert_eq!(removed("read day 12000 value 5"), 9);
    assert_eq!(second("12000 value 5"), 10);
    assert_eq!(second("12000 rollover value 5"), 11);
    assert_eq!(breach_after("7761 value 99900", "6999 rollover value 99900"), 9);
}

/// "each record in file order": a late number of an early record comes before
/// an early number of a late record.
#[test]
fn records_come_in_file_order() {
    let bytes = file_of(&changed("8126 rollover", "11422 rollover")).to_bytes();
    assert_eq!(check(&bytes), 11);
    // the point after it lacks bits
    let mut records = file_of(&changed("8126 rollover", "11422 rollover")).records();
    records[0].set("points", 2);
    assert_eq!(check(&bits::to_bytes(&records)), 11);
    let mut records = example().records();
    records[0].set("points", 2);
    assert_eq!(check(&bits::to_bytes(&records)), 2);
    // the first transfer's 6 comes before the second's 4
    let text = changed("7000 provider 3", "7001 provider 3");
    assert_eq!(check(&file_of(&text.replace("provider 2", "provider 0")).to_bytes()), 6);
    // a point's 8 comes before its transfers'
    let text = changed("disconnected none", "disconnected 6999");
    assert_eq!(check(&file_of(&text.replace("provider 3", "provider 0")).to_bytes()), 8);
}

/// A file in which every record stands, where fields can be set.
fn every_record(service: &str) -> Vec<Record> {
    let text = "header service SERVICE year 2021 property 0 roads 0 capacity 0 standard 0
        band size 20 annual 0 allowance 0 threshold 0
        point number 7 connected 7000 disconnected none
        transfer day 7000 provider 3
        condition day 7000 schedule3 0 section29e 0 value 0
        meter size 20 share 100 return 100 digits 8 installed 7000 removed none
        read day 7761 value 0";
    file_of(&text.replace("SERVICE", service)).records()
}

/// The file's bytes after one field is set.
fn with_field(service: &str, keyword: &str, field: &str, value: u64) -> Vec<u8> {
    let mut records = every_record(service);
    let record = records.iter_mut().find(|record| record.layout.keyword == keyword).unwrap();
    record.set(field, value);
    if (keyword, field) == ("band", "allowance") {
        record.set("threshold", 10_000_000);
    }
    bits::to_bytes(&records)
}

/// Whether it is that field, being set so, that breaks 4.
fn breaks_4(keyword: &str, field: &str, value: u64) -> bool {
    let breach = decode(&with_field("sewerage", keyword, field, value)).err();
    breach.is_some_and(|breach| {
        let words = format!("{field} {value}: outside its range");
        breach.number == 4 && breach.record.contains(keyword) && breach.words.starts_with(&words)
    })
}

/// "ranges in brackets": at its limits a field does not break 4, just outside
/// it does.
#[test]
fn ranges() {
    let ranges: [(&str, &str, u64, u64); 26] = [
        ("header", "year", 2020, 2098),
        ("header", "bands", 1, 24),
        ("header", "points", 1, 64),
        ("header", "property", 0, 10_000),
        ("header", "roads", 0, 10_000),
        ("header", "capacity", 0, 100_000),
        ("header", "standard", 0, 100_000),
        ("band", "size", 1, 65_535),
        ("band", "annual", 0, 1_000_000_000),
        ("band", "allowance", 0, 1_000_000),
        ("band", "threshold", 0, 10_000_000),
        ("point", "connected", 0, 65_534),
        ("point", "transfers", 1, 24),
        ("point", "conditions", 0, 48),
        ("point", "meters", 0, 16),
        ("transfer", "day", 0, 65_534),
        ("transfer", "provider", 1, 65_535),
        ("condition", "day", 0, 65_534),
        ("condition", "schedule3", 0, 10_000),
        ("condition", "section29e", 0, 10_000),
        ("condition", "value", 0, 10_000_000),
        ("meter", "share", 0, 100),
        ("meter", "return", 0, 100),
        ("meter", "installed", 0, 65_534),
        ("meter", "reads", 0, 40),
        ("read", "day", 0, 65_534),
    ];
    for (keyword, field, least, most) in ranges {
        let broken = |value| breaks_4(keyword, field, value);
        let widest = widest(keyword, field);
        assert!(!broken(least), "{keyword} {field} {least}");
        assert!(!broken(most), "{keyword} {field} {most}");
        assert!(least == 0 || broken(least - 1), "{keyword} {field} {least}");
        assert!(most == widest || broken(most + 1), "{keyword} {field} {most}");
        assert!(most == widest || broken(widest), "{keyword} {field} {widest}");
    }
}

/// The largest value a field can hold.
fn widest(keyword: &str, field: &str) -> u64 {
    let records = every_record("sewerage");
    let record = records.iter().find(|record| record.layout.keyword == keyword).unwrap();
    let field = record.layout.fields.iter().find(|other| other.name == field).unwrap();
    (1 << field.width) - 1
}

/// Fields of which every value of their width is a value.
#[test]
fn fields_without_a_range() {
    for (keyword, field, value) in [
        ("point", "number", u64::from(u32::MAX)),
        ("point", "number", 0),
        ("point", "disconnected", 65_535),
        ("point", "disconnected", 65_534),
        ("meter", "size", 0),
        ("meter", "size", 65_535),
        ("meter", "removed", 65_535),
        ("meter", "removed", 65_534),
        ("condition", "vacant", 1),
        ("condition", "disconnected", 1),
        ("condition", "property", 1),
        ("condition", "roads", 1),
    ] {
        assert_eq!(check(&with_field("sewerage", keyword, field, value)), 0, "{keyword} {field}");
    }
}

/// "0 in a water file", "the last two 0 in a water file", "return is 100 in a
/// water file".
#[test]
fn water_files() {
    for (keyword, field, value) in [
        ("header", "property", 1),
        ("header", "roads", 1),
        ("condition", "property", 1),
        ("condition", "roads", 1),
        ("meter", "return", 99),
        ("meter", "return", 0),
    ] {
        assert_eq!(check(&with_field("water", keyword, field, value)), 4, "{keyword} {field}");
        assert_eq!(check(&with_field("sewerage", keyword, field, value)), 0, "{keyword} {field}");
    }
    assert_eq!(check(&with_field("water", "condition", "value", 10_000_000)), 0);
    assert_eq!(check(&with_field("water", "condition", "schedule3", 10_000)), 0);
}

/// "digits 4 (4 to 8)", and "below 10 to the power digits".
#[test]
fn digits_and_values() {
    for digits in 0..16_u64 {
        let number = check(&with_field("water", "meter", "digits", digits));
        assert_eq!(number, if (4..=8).contains(&digits) { 0 } else { 4 });
    }
    for (digits, turn) in
        [(4, 10_000), (5, 100_000), (6, 1_000_000), (7, 10_000_000), (8, 100_000_000)]
    {
        let mut records = every_record("water");
        records[5].set("digits", digits);
        records[6].set("value", turn - 1);
        assert_eq!(check(&bits::to_bytes(&records)), 0);
        records[6].set("value", turn);
        assert_eq!(check(&bits::to_bytes(&records)), 4);
    }
}

/// "threshold ... not below the allowance"
#[test]
fn threshold_and_allowance() {
    let band = |allowance: u64, threshold: u64| {
        let to = format!("allowance {allowance} threshold {threshold}");
        breach_after("allowance 0 threshold 100", &to)
    };
    assert_eq!((band(100, 100), band(101, 100)), (0, 4));
}

/// Meters are no list of days: they may stand in any order, and together.
#[test]
fn meters_need_not_ascend() {
    let later =
        "size 20 share 100 return 100 digits 4 installed 9000 removed none\n  meter size 20";
    assert_eq!(breach_after("size 20 share", &format!("{later} share")), 0);
    let same = "size 20 share 50 return 100 digits 4 installed 7000 removed none\n  meter size 20";
    assert_eq!(breach_after("size 20 share", &format!("{same} share")), 0);
}

/// "Each belongs to the provider of the latest transfer on or before it", and
/// only those with such a day are the point's providers.
#[test]
fn transfers() {
    let text = changed("  transfer day 7861 provider 2\n", "");
    let with = |transfers: &str| {
        let transfer = "  transfer day 7000 provider 3\n";
        let text = text.replace(transfer, &format!("{transfer}{transfers}\n"));
        let file = file_of(&text);
        let days = |row: &Row| (row.provider, row.days);
        figures(&file, &file.points[0]).iter().map(days).collect::<Vec<_>>()
    };
    assert_eq!(with(""), [(3, 365)]);
    assert_eq!(with("transfer day 7761 provider 2"), [(2, 365)]);
    assert_eq!(with("transfer day 7762 provider 2"), [(2, 364), (3, 1)]);
    assert_eq!(with("transfer day 8125 provider 2"), [(2, 1), (3, 364)]);
    assert_eq!(with("transfer day 8126 provider 2"), [(3, 365)]);
    let back = "transfer day 7800 provider 2\n transfer day 7810 provider 3";
    assert_eq!(with(back), [(2, 10), (3, 355)]);
    let unused = "transfer day 7100 provider 9\n transfer day 7200 provider 4";
    assert_eq!(with(unused), [(4, 365)]);
}

/// "from its connection day, before its disconnection day"
#[test]
fn charged_days_of_a_point() {
    let days = |connected: u64, disconnected: &str| {
        let point = format!("connected {connected} disconnected {disconnected}");
        let text = changed("connected 7000 disconnected none", &point);
        let file = file_of(&text);
        statement(&file, &file.points[0]).days
    };
    assert_eq!((days(7_000, "none"), days(7_761, "8126"), days(7_000, "65534")), (365, 365, 365));
    assert_eq!((days(7_762, "none"), days(7_000, "8125")), (364, 364));
    assert_eq!((days(8_125, "none"), days(8_126, "none")), (1, 0));
    assert_eq!((days(7_000, "7762"), days(7_000, "7761"), days(7_900, "7900")), (1, 0, 0));
}

/// "Conditions hold from their day to the next record; before the first, all
/// are 0."
#[test]
fn conditions_hold_to_the_next() {
    let conditions = "  condition day 7861 vacant schedule3 0 section29e 0 value 0
        condition day 7961 schedule3 1000 section29e 500 value 0\n  meter";
    let file = file_of(&changed("  meter", conditions));
    let sum = statement(&file, &file.points[0]);
    // 100 days whole, 100 vacant, 165 at 85 percent
    assert_eq!((sum.litres, sum.v), (365_000, 265_000));
    assert_eq!(sum.charges[0], 100_000 + 165_000 * 85 / 100);
    // 265 of 365 days of a threshold of 100 m³
    assert_eq!(free_and_threshold(&file, &file.points[0]), (0, 100_000 * 265 / 365));
}

/// "over non-vacant meter days": a disconnection leaves F and T alone, and
/// discounts do too.
#[test]
fn allowance_under_disconnection() {
    let condition =
        "  condition day 7861 disconnected schedule3 5000 section29e 0 value 0\n  meter";
    let text = changed("  meter", condition).replace("allowance 0", "allowance 20");
    let file = file_of(&text);
    assert_eq!(free_and_threshold(&file, &file.points[0]), (20_000, 100_000));
    let sum = statement(&file, &file.points[0]);
    assert_eq!((sum.v, sum.y), (100_000, 160_000));
    assert_eq!(sum.charges, [100_000 + 265_000 / 2, 160_000, 0, 0]);
}

/// "from the meter's installation and before its removal"; "size 0 has no
/// band"; F and T "summed before dividing", over all meters.
#[test]
fn meter_days() {
    let band = changed("allowance 0 threshold 100", "allowance 7 threshold 11");
    let with = |meters: &str| {
        let from = "meter size 20 share 100 return 100 digits 5 installed 7000 removed none";
        assert!(band.contains(from));
        let text = band
            .replace(from, &format!("{meters}\n{from}"))
            .replace("annual 365000", "annual 3650000");
        let file = file_of(&text);
        let point = &file.points[0];
        (statement(&file, point).charges[0], free_and_threshold(&file, point))
    };
    let meter = |size: u64, share: u64, days: &str| {
        format!("meter size {size} share {share} return 100 digits 4 {days}")
    };
    assert_eq!(with(""), (3_650_000, (7_000, 11_000)));
    // five days more of allowance 7: 95.89, of threshold 11: 150.68
    let five = (3_700_000, (7_095, 11_150));
    assert_eq!(with(&meter(20, 100, "installed 7800 removed 7805")), five);
    assert_eq!(with(&meter(9, 100, "installed 8121 removed none")), five);
    assert_eq!(with(&meter(99, 100, "installed 0 removed 7766")), five);
    assert_eq!(with(&meter(0, 100, "installed 7800 removed 7805")), (3_650_000, (7_000, 11_000)));
    assert_eq!(with(&meter(20, 100, "installed 7800 removed 7800")), (3_650_000, (7_000, 11_000)));
    // two meters of 60 percent are 120: the remainders of both count together
    let two = meter(20, 60, "installed 7800 removed 7805")
        + "\n"
        + &meter(20, 60, "installed 7800 removed 7805");
    assert_eq!(with(&two), (3_710_000, (7_115, 11_180)));
}

/// The rates: below the allowance, up to the threshold, above it.
#[test]
fn year_costs() {
    let cost = |v: u128, f: u128, t: u128| year_cost(2_000, 1_000, v, f, t);
    assert_eq!(cost(0, 0, 0), 0);
    assert_eq!(cost(60_000, 60_000, 100_000), 0);
    assert_eq!(cost(60_001, 60_000, 100_000), 2);
    assert_eq!(cost(100_000, 60_000, 100_000), 80_000);
    assert_eq!(cost(100_001, 60_000, 100_000), 80_001);
    assert_eq!(cost(300, 0, 0), 300);
    // "− max(T,F)": no allowance is charged, even above the threshold
    assert_eq!(cost(70_000, 60_000, 50_000), 10_000);
    // one division: 1.5 and 1.5 are 3
    assert_eq!(year_cost(500, 500, 6, 0, 3), 3);
}

/// "The product of two 64-bit numbers may need more than 64 bits".
#[test]
fn large_products() {
    let file = file_of(
        "header service sewerage year 2021 property 10000 roads 9999 capacity 99999 standard 100000
        band size 1 annual 1000000000 allowance 0 threshold 0
        point number 1 connected 0 disconnected none
        transfer day 0 provider 1
        condition day 0 property roads schedule3 0 section29e 0 value 10000000
        meter size 1 share 100 return 100 digits 8 installed 0 removed none
        read day 7761 value 0
        read day 7762 value 99999999
        read day 7763 rollover value 99999998",
    );
    let sum = statement(&file, &file.points[0]);
    assert_eq!(sum.v, 2 * 99_999_999_000);
    assert_eq!(sum.y, 2 * 99_999_999_000 * 100);
    assert_eq!(sum.charges, [1_000_000_000, sum.y, 100_000_000_000, 99_990_000_000]);
}

#[test]
fn explain_names_record_bit_and_rule() {
    let bytes = file_of(&changed("read day 8126", "read day 7761")).to_bytes();
    let words = explain(&bytes);
    let lines: Vec<&str> = words.lines().collect();
    // header, band, point, two transfers, meter, read
    let bit = 107 + 90 + 80 + 2 * 32 + 72 + 44;
    let place = format!("# point 0 meter 0 read 1 at bit {bit}: day 7761: ");
    assert_eq!(lines[lines.len() - 1], place + "not strictly ascending after 7761");
    assert!(lines[lines.len() - 2].starts_with("# refused, number 5: band sizes, point numbers,"));
    let last = |bytes: &[u8]| explain(bytes).lines().last().unwrap().to_string();
    assert_eq!(last(&[0x57; 13]), "# header at bit 0: 107 bits needed, 104 left");
    assert_eq!(last(&[0x57, 0x53, 0x2f]), "# header at bit 0: 109 bits needed, 24 left");
    let header = [&[0x57, 0x53, 0x3f][..], &[0; 11]].concat();
    assert_eq!(last(&header), "# header at bit 16: version 3: neither 1 nor 2");
    let points = with_points(2, 257).to_bytes();
    assert_eq!(last(&points), "# header at bit 38: points 257: outside its range, 1 to 256");
    let bytes = example().to_bytes();
    assert_eq!(last(&bytes[..24]), "# band 0 at bit 107: 90 bits needed, 85 left");
    let transfer = "# point 0 transfer 1 at bit 309: 32 bits needed, 27 left";
    assert_eq!(last(&bytes[..42]), transfer);
    let provider = file_of(&changed("provider 2", "provider 0")).to_bytes();
    let words = "# point 0 transfer 1 at bit 325: provider 0: outside its range, 1 to 65535";
    assert_eq!(last(&provider), words);
    let longer = [&bytes[..], &[0]].concat();
    assert_eq!(last(&longer), "# end of file at bit 504: bytes after the last record: 1");
    let padded = [&bytes[..62], &[bytes[62] | 2]].concat();
    assert_eq!(last(&padded), "# end of file at bit 502: padding bit set");
    assert_eq!(last(&vec![0; 65_537]), "# file at bit 524288: a byte after the first 65536");
    let crowd = explain(&with_providers(65).to_bytes());
    assert!(crowd.ends_with(
        "number 13: over 64 providers with a charged day\n# the whole file: 65 of them\n"
    ));
}

#[test]
fn explain_shows_figures() {
    let words = explain(&example().to_bytes());
    let header = "header mark 0x5753 version 1 service water year 2021 property 0 roads 0 \
                  capacity 2000 standard 1000 # bit 0, bands 1, points 1\n";
    assert!(words.starts_with(header), "{words}");
    assert!(words.contains("\n    read day 8126 rollover value 265 # bit 457\n"));
    assert!(words.contains("\n# accepted: 2 rows, a report of 452 bytes\n"), "{words}");
    assert!(
        words.contains("V 365000, F 0, T 100000, Y 465000\n#   charges [365000, 465000, 0, 0]\n")
    );
    let wide = explain(&example_2().to_bytes());
    let header = "header mark 0x5753 version 2 service water year 2021 property 0 roads 0 \
                  capacity 2000 standard 1000 # bit 0, bands 1, points 1\n\
                  band size 20 annual 365000 allowance 0 threshold 100 # bit 109\n";
    assert!(wide.starts_with(header), "{wide}");
    let provider = "#   provider 2: days 265, litres 265000, charges [265000, 337602, 0, 0] of ";
    assert!(words.contains(provider));
}
