//! A point's charged days, each with all that the charges need of it.

use crate::calendar::first_april;
use crate::charges::band_serving;
use crate::file::{Condition, File, Meter, Point, NONE};
use crate::litres;

#[derive(Clone, Debug, PartialEq, Eq)]
pub struct ChargedDay {
    pub day: u64,
    pub provider: u64,
    pub vacant: bool,
    pub disconnected: bool,
    pub property: bool,
    pub roads: bool,
    /// Live rateable value, pounds.
    pub value: u128,
    /// "Let k be 10,000 less both discounts of the day."
    pub k: u128,
    /// All the litres that the day carries, disconnected or not.
    pub litres: u128,
    /// Annual charge × share, over the meters for which this is a meter day.
    pub annual_by_share: u128,
    /// The same of the free allowance.
    pub allowance_by_share: u128,
    /// The same of the threshold.
    pub threshold_by_share: u128,
}

/// From a day on and before another, which may be none.
fn is_within(day: u64, from: u64, before: u64) -> bool {
    from <= day && (before == NONE || day < before)
}

/// "A point's charged days are those of the year from its connection day,
/// before its disconnection day. They may be empty."
pub fn charged_day_numbers(year: u64, point: &Point) -> Vec<u64> {
    (first_april(year)..first_april(year + 1))
        .filter(|day| is_within(*day, point.connected, point.disconnected))
        .collect()
}

/// "Each belongs to the provider of the latest transfer on or before it."
/// There is one, since the first transfer is not after connection (6).
pub fn provider_on(point: &Point, day: u64) -> u64 {
    let latest = point.transfers.iter().rev().find(|transfer| transfer.day <= day);
    latest.expect("the first transfer is not after connection").provider
}

/// "Conditions hold from their day to the next record; before the first, all
/// are 0."
pub fn condition_on(point: &Point, day: u64) -> Condition {
    let latest = point.conditions.iter().rev().find(|condition| condition.day <= day);
    latest.cloned().unwrap_or_default()
}

/// "A meter day is a charged day of the point from the meter's installation
/// and before its removal."
pub fn is_meter_day(meter: &Meter, charged_day: u64) -> bool {
    is_within(charged_day, meter.installed, meter.removed)
}

/// The point's charged days, ascending.
pub fn charged_days(file: &File, point: &Point) -> Vec<ChargedDay> {
    let numbers = charged_day_numbers(file.header.year, point);
    numbers.into_iter().map(|day| charged_day(file, point, day)).collect()
}

fn charged_day(file: &File, point: &Point, day: u64) -> ChargedDay {
    let condition = condition_on(point, day);
    let mut charged = ChargedDay {
        day,
        provider: provider_on(point, day),
        vacant: condition.vacant,
        disconnected: condition.disconnected,
        property: condition.property,
        roads: condition.roads,
        value: u128::from(condition.value),
        k: u128::from(10_000 - condition.schedule3 - condition.section29e),
        litres: litres::of_point(point, day),
        annual_by_share: 0,
        allowance_by_share: 0,
        threshold_by_share: 0,
    };
    for meter in point.meters.iter().filter(|meter| is_meter_day(meter, day)) {
        // "size 0 has no band, and its allowance, threshold and annual charge
        // are 0"
        if let Some(band) = band_serving(&file.bands, meter.size) {
            charged.annual_by_share += u128::from(band.annual * meter.share);
            charged.allowance_by_share += u128::from(band.allowance * meter.share);
            charged.threshold_by_share += u128::from(band.threshold * meter.share);
        }
    }
    charged
}
