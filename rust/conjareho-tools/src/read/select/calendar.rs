//! Days of the calendar.

/// The number of days from the first of January 1970 to a date up to the year 9999. `None` if there is no such date.
pub(crate) fn days_of_date(year: u64, month: u64, day: u64) -> Option<u64> {
    let february = if is_leap(year) { 29 } else { 28 };
    let months = [31, february, 31, 30, 31, 30, 31, 31, 30, 31, 30, 31];
    let before = usize::try_from(month.checked_sub(1)?).ok()?;
    let is_date = (1970..=9999).contains(&year) && (1..=*months.get(before)?).contains(&day);
    let years = (1970..year).map(|year| if is_leap(year) { 366 } else { 365 });
    let days: u64 = years.chain(months.into_iter().take(before)).chain(day.checked_sub(1)).sum();
    is_date.then_some(days)
}

fn is_leap(year: u64) -> bool {
    year % 4 == 0 && (year % 100 != 0 || year % 400 == 0)
}
