//! A file in words: its records in the text form, each with its bit and its
//! counts in a comment, then as comments what became of it.

use crate::charges::Fraction;
use crate::check::{read, Breach, Placed};
use crate::file::File;
use crate::layout::Kind;
use crate::report;
use crate::services::MOST_PROVIDERS;
use crate::settlement::{self, Exact, Statement};
use crate::text;

/// "Numbers of a breach", in the paper's words; the place is the number.
pub const CONDITIONS: [&str; 16] = [
    "none",
    "over 65,536 bytes",
    "a record lacks bits",
    "mark or version",
    "field outside its range",
    "band sizes, point numbers, or a list's days not strictly ascending",
    "first transfer after connection",
    "discounts together above 10,000",
    "disconnection before connection, or removal before installation",
    "read before installation or after removal",
    "rollover set on a first read, or not set exactly when the value falls",
    "over 3,660 days between reads",
    "padding bit set, or a byte more",
    "over 64 providers with a charged day",
    "table with fewer entries than rows, or report space shorter than the report",
    "no point at that place",
];

/// The records up to and including one at fault, then the verdict. The text
/// of a file that breaks none of 1 to 12 encodes to that file again.
pub fn explain(bytes: &[u8]) -> String {
    let reading = read(bytes);
    let mut words: String = reading.records.iter().map(line).collect();
    words += &match reading.outcome {
        Err(breach) => refusal(&breach),
        Ok(file) if settlement::providers(&file).len() > MOST_PROVIDERS => crowd(&file),
        Ok(file) => accepted(&file),
    };
    words
}

fn line(placed: &Placed) -> String {
    let mut line = format!("{} # bit {}", text::line(&placed.record), placed.bit);
    for (field, value) in placed.record.layout.fields.iter().zip(&placed.record.values) {
        if field.kind == Kind::Count {
            line += &format!(", {} {value}", field.name);
        }
    }
    line + "\n"
}

fn refusal(breach: &Breach) -> String {
    let Breach { number, record, bit, words } = breach;
    let condition = CONDITIONS[*number as usize];
    format!("# refused, number {number}: {condition}\n# {record} at bit {bit}: {words}\n")
}

/// Number 13 is broken by no record alone.
fn crowd(file: &File) -> String {
    let providers = settlement::providers(file).len();
    let condition = CONDITIONS[13];
    format!("# refused, number 13: {condition}\n# the whole file: {providers} of them\n")
}

/// The figures of an accepted file, point by point.
fn accepted(file: &File) -> String {
    let rows = settlement::rows(file);
    let length = report::text(&file.header, &rows).len();
    let mut words = format!("# accepted: {} rows, a report of {length} bytes\n", rows.len());
    for (place, point) in file.points.iter().enumerate() {
        let Statement { days, litres, disconnected, v, y, charges } =
            settlement::statement(file, point);
        let (f, t) = settlement::free_and_threshold(file, point);
        words += &format!("# place {place}: days {days}, litres {litres}, ");
        words += &format!("disconnected litres {disconnected}, V {v}, F {f}, T {t}, Y {y}\n");
        words += &format!("#   charges {charges:?}\n");
        let figures = settlement::figures(file, point);
        for (exact, figure) in settlement::exact(file, point).iter().zip(figures) {
            let Exact { provider, days, litres, fractions } = exact;
            words += &format!("#   provider {provider}: days {days}, litres {litres}, ");
            words += &format!("charges {:?} of {}\n", figure.charges, exactly(fractions));
        }
    }
    words
}

fn exactly(fractions: &[Fraction; 4]) -> String {
    fractions.map(|fraction| format!("{}/{}", fraction.number, fraction.divisor)).join(" ")
}
