//! What files bring up: which versions and counts of points, which rules an
//! accepted file exercises, and which limits of the fields are reached.

use std::collections::{BTreeMap, BTreeSet};

use crate::bits::Cursor;
use crate::calendar::{days_in_year, first_april};
use crate::charges::{band_serving, Fraction};
use crate::days::{charged_days, is_meter_day, ChargedDay};
use crate::file::*;
use crate::litres::{advance, of_meter};
use crate::services::accept;
use crate::settlement::{exact, figures, free_and_threshold, providers, statement, Exact};

/// Names of what has come up.
#[derive(Default)]
struct Seen(BTreeSet<&'static str>);

impl Seen {
    fn note(&mut self, name: &'static str, comes_up: bool) {
        if comes_up {
            self.0.insert(name);
        }
    }
}

/// The rules that an accepted file exercises, by name.
pub fn exercised(file: &File) -> BTreeSet<&'static str> {
    let mut seen = Seen::default();
    note_file(&mut seen, file);
    for point in &file.points {
        let days = charged_days(file, point);
        note_span(&mut seen, file, point, &days);
        note_transfers(&mut seen, file, point, &days);
        note_conditions(&mut seen, point, &days);
        note_volume(&mut seen, file, point, &days);
        note_charges(&mut seen, file, point, &days);
        for meter in &point.meters {
            note_size(&mut seen, file, meter, &days);
            note_reads(&mut seen, meter, &days);
            note_advances(&mut seen, file, meter, &days);
        }
        note_meters_together(&mut seen, point, &days);
    }
    seen.0
}

fn note_file(seen: &mut Seen, file: &File) {
    let header = &file.header;
    let providers = providers(file).len();
    seen.note("water", !header.sewerage);
    seen.note("sewerage", header.sewerage);
    seen.note("year of 365 days", days_in_year(header.year) == 365);
    seen.note("year of 366 days", days_in_year(header.year) == 366);
    seen.note("24 bands", file.bands.len() == 24);
    seen.note("no rows", providers == 0);
    seen.note("64 rows", providers == 64);
    seen.note("a provider at two points", is_shared(file));
    seen.note("65,536 bytes", file.bit_length().div_ceil(8) == MOST_BYTES);
    seen.note("no padding", file.bit_length().is_multiple_of(8));
}

fn is_shared(file: &File) -> bool {
    let at_points: usize = file.points.iter().map(|point| figures(file, point).len()).sum();
    at_points > providers(file).len()
}

fn year(file: &File) -> (u64, u64) {
    (first_april(file.header.year), first_april(file.header.year + 1))
}

fn note_span(seen: &mut Seen, file: &File, point: &Point, days: &[ChargedDay]) {
    let (first, next) = year(file);
    let Point { connected, disconnected, .. } = *point;
    seen.note("no charged day", days.is_empty());
    seen.note("one charged day", days.len() == 1);
    seen.note("whole year charged", days.len() as u64 == next - first);
    seen.note("connected before the year", connected < first && !days.is_empty());
    seen.note("connected in the year", first < connected && connected < next);
    seen.note("connected on the first day", connected == first);
    seen.note("connected after the year", connected >= next);
    seen.note("never disconnected", disconnected == NONE);
    seen.note("disconnected in the year", first < disconnected && disconnected < next);
    seen.note("disconnected on the first day", disconnected == first);
    seen.note("disconnected on the next first day", disconnected == next);
    seen.note("disconnected on connection", disconnected == connected);
}

fn note_transfers(seen: &mut Seen, file: &File, point: &Point, days: &[ChargedDay]) {
    let rows = figures(file, point).len();
    let mut stays: Vec<u64> = days.iter().map(|day| day.provider).collect();
    stays.dedup();
    let early = point.transfers.iter().filter(|transfer| transfer.day <= point.connected);
    let mut named: Vec<u64> = point.transfers.iter().map(|transfer| transfer.provider).collect();
    named.sort();
    named.dedup();
    seen.note("24 transfers", point.transfers.len() == 24);
    seen.note("three providers at a point", rows > 2);
    seen.note("a provider that comes back", stays.len() > rows);
    seen.note("a provider without a charged day", rows > 0 && named.len() > rows);
    seen.note("two transfers up to connection", early.count() > 1);
    seen.note("transfer before connection", point.transfers[0].day < point.connected);
}

fn note_conditions(seen: &mut Seen, point: &Point, days: &[ChargedDay]) {
    let any = |holds: fn(&ChargedDay) -> bool| days.iter().any(holds);
    seen.note("48 conditions", point.conditions.len() == 48);
    if let (Some(condition), [first, .., last]) = (point.conditions.first(), days) {
        let within = first.day < condition.day && condition.day <= last.day;
        seen.note("charged days before the first condition", within);
        seen.note("condition from before the charged days", condition.day < first.day);
    }
    let changes = point.conditions.iter().filter(|condition| {
        days.first().is_some_and(|first| first.day < condition.day)
            && days.last().is_some_and(|last| condition.day <= last.day)
    });
    seen.note("two changes in the charged days", changes.count() > 1);
    seen.note("vacant litres", any(|day| day.vacant && !day.disconnected && day.litres > 0));
    seen.note("disconnected litres", any(|day| !day.vacant && day.disconnected && day.litres > 0));
    seen.note("both litres", any(|day| day.vacant && day.disconnected && day.litres > 0));
    seen.note("vacant meter days", any(|day| day.vacant && day.annual_by_share > 0));
    let metered = |day: &ChargedDay| !day.vacant && day.disconnected && day.annual_by_share > 0;
    seen.note("disconnected meter days", days.iter().any(metered));
    seen.note("meter days all discounted", any(|day| day.k == 0 && day.annual_by_share > 0));
    seen.note("litres all discounted", any(|day| day.k == 0 && day.litres > 0));
    seen.note("litres partly discounted", any(|day| 0 < day.k && day.k < 10_000 && day.litres > 0));
    let both = |condition: &Condition| condition.schedule3 > 0 && condition.section29e > 0;
    seen.note("two discounts", point.conditions.iter().any(both));
}

fn note_volume(seen: &mut Seen, file: &File, point: &Point, days: &[ChargedDay]) {
    let sum = statement(file, point);
    let (f, t) = free_and_threshold(file, point);
    let (v, y) = (sum.v, sum.y);
    seen.note("V 0 with litres", v == 0 && sum.litres > 0);
    seen.note("V 0 without litres", v == 0 && sum.litres == 0 && !days.is_empty());
    seen.note("V up to F", 0 < v && v <= f);
    seen.note("V from F to T", 0 < f && f < v && v <= t);
    seen.note("V above T", 0 < f && f < t && t < v);
    seen.note("V above T in both rates", t < v && f < t && file.header.capacity > 0 && y > 0);
    seen.note("F is T", 0 < f && f == t);
    seen.note("F with a remainder", has_remainder(file, days, |day| day.allowance_by_share));
    seen.note("T with a remainder", has_remainder(file, days, |day| day.threshold_by_share));
    let product = y.checked_mul(v).is_some_and(|product| product > u128::from(u64::MAX));
    seen.note("Y times V over 64 bits", product);
    let at_rates = |v: u128| u128::from(file.header.capacity) * v;
    let lost = f < v && v <= t && !at_rates(v - f).is_multiple_of(1_000);
    seen.note("Y with a remainder", lost);
}

fn has_remainder(file: &File, days: &[ChargedDay], amount: fn(&ChargedDay) -> u128) -> bool {
    let non_vacant = days.iter().filter(|day| !day.vacant);
    let sum: u128 = non_vacant.map(|day| amount(day) * 1_000).sum();
    !sum.is_multiple_of(100 * u128::from(days_in_year(file.header.year)))
}

fn note_charges(seen: &mut Seen, file: &File, point: &Point, days: &[ChargedDay]) {
    let sum = statement(file, point);
    let header = &file.header;
    let valued = |day: &&ChargedDay| day.value > 0 && day.k > 0;
    let property = |day: &&ChargedDay| day.property && header.property > 0 && valued(day);
    let roads = |day: &&ChargedDay| day.roads && header.roads > 0 && valued(day);
    seen.note("four charges", sum.charges.iter().all(|charge| *charge > 0));
    seen.note("discounted Y", sum.y > 0 && sum.charges[1] < sum.y);
    seen.note("undiscounted Y", sum.y > 0 && sum.charges[1] == sum.y);
    seen.note("property days", days.iter().any(|day| property(&day) && !roads(&day)));
    seen.note("roads days", days.iter().any(|day| roads(&day) && !property(&day)));
    seen.note("vacant property days", days.iter().any(|day| property(&day) && day.vacant));
    seen.note("vacant roads days", days.iter().any(|day| roads(&day) && day.vacant));
    seen.note(
        "disconnected property days",
        days.iter().any(|day| property(&day) && day.disconnected),
    );
    seen.note("disconnected roads days", days.iter().any(|day| roads(&day) && day.disconnected));
    let names = [
        "meter charge by running floor",
        "volumetric charge by running floor",
        "property charge by running floor",
        "roads charge by running floor",
    ];
    let (figures, exact) = (figures(file, point), exact(file, point));
    for (charge, name) in names.into_iter().enumerate() {
        let floor = |own: &Exact| Fraction::floor(own.fractions[charge]);
        let mut pairs = figures.iter().zip(&exact);
        seen.note(name, pairs.any(|(figure, own)| figure.charges[charge] != floor(own)));
    }
}

fn note_size(seen: &mut Seen, file: &File, meter: &Meter, days: &[ChargedDay]) {
    if !days.iter().any(|day| is_meter_day(meter, day.day) && !day.vacant) {
        return;
    }
    let size = meter.size;
    let (smallest, largest) = (file.bands[0].size, file.bands[file.bands.len() - 1].size);
    let serving = band_serving(&file.bands, size).map(|band| band.size);
    let between = smallest < size && size < largest && serving != Some(size);
    seen.note("size 0", size == 0);
    seen.note("size below the first band", 0 < size && size < smallest);
    seen.note("size of a band", serving == Some(size));
    seen.note("size between bands", between);
    seen.note("size above the last band", size > largest && file.bands.len() > 1);
    seen.note("share 0", meter.share == 0);
    seen.note("share in part", (1..100).contains(&meter.share));
    seen.note("no reads", meter.reads.is_empty());
    seen.note("one read", meter.reads.len() == 1);
}

fn note_reads(seen: &mut Seen, meter: &Meter, days: &[ChargedDay]) {
    let Meter { share, return_to_sewer, digits, installed, removed, .. } = *meter;
    let carries = days.iter().any(|day| of_meter(meter, day.day) > 0);
    let parted = (1..100).contains(&share) && (1..100).contains(&return_to_sewer);
    seen.note("share and return of litres", carries && parted);
    let in_advance = |day: &ChargedDay| in_advance(meter, day.day);
    seen.note("return 0", return_to_sewer == 0 && days.iter().any(in_advance));
    seen.note("4 digits", carries && digits == 4);
    seen.note("8 digits", carries && digits == 8);
    let within = |day: u64| days.iter().skip(1).any(|charged| charged.day == day);
    seen.note("installed in the charged days", within(installed));
    seen.note("removed in the charged days", within(removed));
    seen.note("removed on installation", installed == removed);
    seen.note("40 reads", meter.reads.len() == 40);
    let read_on = |day: u64| meter.reads.iter().any(|read| read.day == day);
    seen.note("read on installation", read_on(installed));
    seen.note("read on removal", read_on(removed));
    let unread = |day: &ChargedDay| is_meter_day(meter, day.day) && !in_advance(day);
    seen.note("meter day in no advance", meter.reads.len() > 1 && days.iter().any(unread));
}

fn in_advance(meter: &Meter, day: u64) -> bool {
    meter.reads.windows(2).any(|pair| pair[0].day <= day && day < pair[1].day)
}

fn note_advances(seen: &mut Seen, file: &File, meter: &Meter, days: &[ChargedDay]) {
    let (first, next) = year(file);
    for pair in meter.reads.windows(2) {
        let (a, b) = (pair[0].day, pair[1].day);
        let charged = days.iter().filter(|day| a <= day.day && day.day < b);
        let litres: Vec<u128> = charged.map(|day| of_meter(meter, day.day)).collect();
        let carries = litres.iter().any(|litres| *litres > 0);
        seen.note("rollover", carries && pair[1].rollover);
        seen.note("no rollover", carries && !pair[1].rollover);
        seen.note("advance across the start", carries && a < first);
        seen.note("advance across the end", carries && b > next);
        seen.note("advance across the year", carries && a < first && b > next);
        seen.note("advance outside the year", b <= first || a >= next);
        seen.note("advance of one day", carries && b - a == 1);
        seen.note("advance of 3,660 days", carries && b - a == 3_660);
        seen.note(
            "advance of 0",
            !litres.is_empty() && advance(&pair[0], &pair[1], meter.digits) == 0,
        );
        seen.note("uneven days", litres.windows(2).any(|pair| pair[0] != pair[1]));
        let part = !litres.is_empty() && (litres.len() as u64) < b.min(next) - a.max(first);
        seen.note("advance partly charged", part);
    }
}

fn note_meters_together(seen: &mut Seen, point: &Point, days: &[ChargedDay]) {
    seen.note("16 meters", point.meters.len() == 16);
    seen.note("no meter", point.meters.is_empty() && !days.is_empty());
    let at_once = |day: &ChargedDay| {
        point.meters.iter().filter(|meter| of_meter(meter, day.day) > 0).count() > 1
    };
    seen.note("two meters with litres at once", days.iter().any(at_once));
    let replaced = |pair: &[Meter]| {
        let handover = |day: &&ChargedDay| day.day + 1 == pair[1].installed;
        pair[0].removed == pair[1].installed
            && days.iter().filter(handover).any(|day| is_meter_day(&pair[0], day.day))
            && days.iter().any(|day| is_meter_day(&pair[1], day.day))
    };
    seen.note("meter replaced", point.meters.windows(2).any(replaced));
}

/// The least and the most seen of every field, by record and name.
#[derive(Default)]
pub struct Limits(BTreeMap<(&'static str, &'static str), (u64, u64)>);

impl Limits {
    pub fn note(&mut self, file: &File) {
        for record in file.records() {
            for (field, value) in record.layout.fields.iter().zip(record.values) {
                let seen = self.0.entry((record.layout.keyword, field.name));
                let (least, most) = seen.or_insert((value, value));
                (*least, *most) = (value.min(*least), value.max(*most));
            }
        }
    }

    /// A line for every field.
    pub fn lines(&self) -> String {
        let line = |((record, field), (least, most)): (&(&str, &str), &(u64, u64))| {
            format!("{record} {field} {least} {most}\n")
        };
        self.0.iter().map(line).collect()
    }
}

/// What the headers of files tell, of accepted and refused ones.
#[derive(Default)]
pub struct Headers {
    /// How many files have each version and count of points, and how many of
    /// those are accepted.
    pub told: BTreeMap<String, (usize, usize)>,
    /// How many files are refused under their version and not under another.
    pub mistaken: BTreeMap<String, usize>,
}

impl Headers {
    pub fn note(&mut self, bytes: &[u8]) {
        let is_accepted = accept(bytes).is_ok();
        if let Some(name) = version_and_points(bytes) {
            let (files, accepted) = self.told.entry(name).or_default();
            *files += 1;
            *accepted += usize::from(is_accepted);
        }
        if is_accepted {
            return;
        }
        if let Some(name) = mistaken_version(bytes) {
            *self.mistaken.entry(name).or_default() += 1;
        }
    }

    pub fn lines(&self) -> String {
        let told = self.told.iter().map(|(name, (files, accepted))| {
            format!("header {name}: {files}, accepted {accepted}\n")
        });
        let mistaken =
            self.mistaken.iter().map(|(name, files)| format!("header {name}: {files}\n"));
        told.chain(mistaken).collect()
    }
}

/// The version and the count of points; none where the header lacks bits or has
/// another mark.
fn version_and_points(bytes: &[u8]) -> Option<String> {
    let mut cursor = Cursor::new(bytes);
    let record = cursor.record(header_layout(cursor.ahead(16, 4)))?;
    let version = record.get("version");
    let limits: &[u64] = match version {
        _ if record.get("mark") != MARK => return None,
        VERSION_1 => &[0, 1, 64, 65, 127],
        VERSION_2 => &[0, 1, 64, 65, 255, 256, 257, 511],
        _ => return Some(version_part(version)),
    };
    Some(format!("{}, points {}", version_part(version), part(limits, record.get("points"))))
}

/// The version, and another one under which the file breaks none of 1 to 13.
fn mistaken_version(bytes: &[u8]) -> Option<String> {
    // its four bits come after the mark's two bytes
    let (version, rest) = (bytes.get(2)? >> 4, bytes[2] & 15);
    let is_right = |other: &u8| {
        let under_other = [&bytes[..2], &[other << 4 | rest], &bytes[3..]].concat();
        *other != version && accept(&under_other).is_ok()
    };
    let right = [1, 2].into_iter().find(is_right)?;
    Some(format!("{} in a file of version {right}", version_part(u64::from(version))))
}

fn version_part(version: u64) -> String {
    format!("version {}", part(&[0, 1, 2, 3, 15], version))
}

/// A value that is one of the limits, or the gap between two where it lies.
fn part(limits: &[u64], value: u64) -> String {
    let below = limits.iter().rfind(|limit| **limit <= value).expect("the least is 0");
    match limits.iter().find(|limit| **limit > value) {
        Some(above) if *below != value => format!("{} to {}", below + 1, above - 1),
        _ => value.to_string(),
    }
}

/// What many files bring up together.
#[derive(Default)]
pub struct Coverage {
    /// How many files have each first breach of 0 to 13.
    pub numbers: BTreeMap<u32, usize>,
    /// The versions and counts of points.
    pub headers: Headers,
    /// How many accepted files exercise each rule.
    pub rules: BTreeMap<&'static str, usize>,
    /// The limits of fields reached by accepted files.
    pub limits: Limits,
}

impl Coverage {
    pub fn note(&mut self, bytes: &[u8]) {
        self.headers.note(bytes);
        match accept(bytes) {
            Err(number) => *self.numbers.entry(number).or_default() += 1,
            Ok(file) => {
                *self.numbers.entry(0).or_default() += 1;
                for rule in exercised(&file) {
                    *self.rules.entry(rule).or_default() += 1;
                }
                self.limits.note(&file);
            }
        }
    }

    pub fn lines(&self) -> String {
        let mut lines = String::new();
        for (number, files) in &self.numbers {
            lines += &format!("number {number}: {files}\n");
        }
        lines += &self.headers.lines();
        for (rule, files) in &self.rules {
            lines += &format!("rule {rule}: {files}\n");
        }
        for limits in self.limits.lines().lines() {
            lines += &format!("limits {limits}\n");
        }
        lines
    }
}
