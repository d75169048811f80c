//! The calendar. "Day 0 is 1 January 2000."

fn is_leap(year: u64) -> bool {
    year.is_multiple_of(4) && (!year.is_multiple_of(100) || year.is_multiple_of(400))
}

fn days_of_calendar_year(year: u64) -> u64 {
    if is_leap(year) {
        366
    } else {
        365
    }
}

/// "The calendar supplies the day number of 1 April of a year, 2020 to 2099":
/// the whole years since 2000, then January, February and March.
pub fn first_april(year: u64) -> u64 {
    let whole_years: u64 = (2000..year).map(days_of_calendar_year).sum();
    let february = if is_leap(year) { 29 } else { 28 };
    whole_years + 31 + february + 31
}

/// "A settlement year runs from its 1 April up to, not including, the next
/// 1 April. DIY is its number of days."
pub fn days_in_year(year: u64) -> u64 {
    first_april(year + 1) - first_april(year)
}
