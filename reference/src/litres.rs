//! The litres that days carry.

use crate::file::{Meter, Point, Read};

/// "Two successive reads of a meter, on days a and b, make an advance: the
/// later value less the earlier, plus 10 to the power digits when rollover is
/// set." In m³.
pub fn advance(earlier: &Read, later: &Read, digits: u64) -> u64 {
    let turn = if later.rollover { 10_u64.pow(digits as u32) } else { 0 };
    later.value + turn - earlier.value
}

/// "With A the advance in litres, n = b − a, and s the product of share and
/// return, day a + j (0 ≤ j < n) carries floor(A × s × (j+1) / (10,000 × n)) −
/// floor(A × s × j / (10,000 × n)) litres."
pub fn carried(a: u128, s: u128, n: u128, j: u128) -> u128 {
    let before_day = |j: u128| a * s * j / (10_000 * n);
    before_day(j + 1) - before_day(j)
}

/// A meter's litres on a day. "A day in no advance carries none."
pub fn of_meter(meter: &Meter, day: u64) -> u128 {
    for pair in meter.reads.windows(2) {
        let (earlier, later) = (&pair[0], &pair[1]);
        if earlier.day <= day && day < later.day {
            let a = u128::from(advance(earlier, later, meter.digits)) * 1_000;
            let s = u128::from(meter.share * meter.return_to_sewer);
            let n = u128::from(later.day - earlier.day);
            return carried(a, s, n, u128::from(day - earlier.day));
        }
    }
    0
}

/// "A point's day has the sum over its meters."
pub fn of_point(point: &Point, day: u64) -> u128 {
    point.meters.iter().map(|meter| of_meter(meter, day)).sum()
}
