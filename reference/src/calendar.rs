//! The date of a number of seconds since 2000-01-01T00:00:00 UTC, the start of a timestamp's seconds
//! (document 01, "Clock and recordings"), in days of 86,400 seconds and the Gregorian calendar.

/// Seconds of a day.
const DAY: u64 = 86_400;
/// The calendar repeats after as many years.
const ERA_YEARS: u64 = 400;
/// Days of as many years.
const ERA_DAYS: u64 = 146_097;

pub const FIRST_YEAR: u64 = 2000;

#[derive(Debug, PartialEq, Eq)]
pub struct Date {
    pub year: u64,
    pub month: u64,
    pub day: u64,
    pub hour: u64,
    pub minute: u64,
    pub second: u64,
}

pub fn date(seconds: u64) -> Date {
    let (days, of_day) = (seconds / DAY, seconds % DAY);
    let mut year = FIRST_YEAR + ERA_YEARS * (days / ERA_DAYS);
    let mut left = days % ERA_DAYS;
    while left >= days_of_year(year) {
        left -= days_of_year(year);
        year += 1;
    }
    let mut month = 1;
    while left >= days_of_month(year, month) {
        left -= days_of_month(year, month);
        month += 1;
    }
    Date {
        year,
        month,
        day: left + 1,
        hour: of_day / 3_600,
        minute: of_day / 60 % 60,
        second: of_day % 60,
    }
}

/// The first second of a day of a year from 2000 on.
pub fn start_of_day(year: u64, month: u64, day: u64) -> u64 {
    let years: u64 = (FIRST_YEAR..year).map(days_of_year).sum();
    let months: u64 = (1..month).map(|month| days_of_month(year, month)).sum();
    DAY * (years + months + day - 1)
}

fn is_leap_year(year: u64) -> bool {
    year.is_multiple_of(4) && (!year.is_multiple_of(100) || year.is_multiple_of(400))
}

fn days_of_year(year: u64) -> u64 {
    (1..=12).map(|month| days_of_month(year, month)).sum()
}

/// Months count from 1.
fn days_of_month(year: u64, month: u64) -> u64 {
    match month {
        2 if is_leap_year(year) => 29,
        2 => 28,
        4 | 6 | 9 | 11 => 30,
        _ => 31,
    }
}

#[cfg(test)]
mod tests {
    use super::*;

    fn at(seconds: u64) -> [u64; 6] {
        let date = date(seconds);
        let Date {
            year, month, day, ..
        } = date;
        [year, month, day, date.hour, date.minute, date.second]
    }

    #[test]
    fn known_dates() {
        assert_eq!(at(0), [2000, 1, 1, 0, 0, 0]);
        assert_eq!(at(86_399), [2000, 1, 1, 23, 59, 59]);
        assert_eq!(at(86_400), [2000, 1, 2, 0, 0, 0]);
        // 2001-09-09T01:46:40 and 2033-05-18T03:33:20 are 10^9 and 2 x 10^9 seconds after 1970-01-01.
        assert_eq!(at(1_000_000_000 - 946_684_800), [2001, 9, 9, 1, 46, 40]);
        assert_eq!(at(2_000_000_000 - 946_684_800), [2033, 5, 18, 3, 33, 20]);
    }

    #[test]
    fn ends_of_february() {
        for (year, days) in [(2000, 29), (2001, 28), (2004, 29), (2100, 28), (2400, 29)] {
            let last = start_of_day(year, 2, days) + DAY - 1;
            assert_eq!(at(last), [year, 2, days, 23, 59, 59]);
            assert_eq!(at(last + 1), [year, 3, 1, 0, 0, 0]);
        }
    }

    #[test]
    fn an_era_has_its_days() {
        let days: u64 = (FIRST_YEAR..FIRST_YEAR + ERA_YEARS).map(days_of_year).sum();
        assert_eq!(days, ERA_DAYS);
        assert_eq!(at(DAY * ERA_DAYS - 1), [2399, 12, 31, 23, 59, 59]);
        assert_eq!(at(DAY * ERA_DAYS), [2400, 1, 1, 0, 0, 0]);
    }

    /// Day by day through two eras and some years more.
    #[test]
    fn every_day_follows_the_one_before() {
        let (mut year, mut month, mut day) = (2000, 1, 1);
        for days in 0..300_000 {
            assert_eq!(at(DAY * days + 3_661), [year, month, day, 1, 1, 1]);
            day += 1;
            if day > days_of_month(year, month) {
                (month, day) = (month + 1, 1);
            }
            if month > 12 {
                (year, month) = (year + 1, 1);
            }
        }
    }

    #[test]
    fn the_last_second() {
        assert_eq!(at((1 << 40) - 1), [36_842, 2, 19, 0, 36, 15]);
    }
}
