//! The time that a page shows.
use crate::stop::{trouble, Stop};
use std::env;
use std::time::{SystemTime, UNIX_EPOCH};

/// The time now, or the one that SOURCE_DATE_EPOCH says: `2026-11-16 02:10 UTC`.
pub fn made() -> Result<String, Stop> {
    match env::var_os("SOURCE_DATE_EPOCH").filter(|said| !said.is_empty()) {
        Some(said) => match said.to_str().and_then(|said| said.parse().ok()) {
            Some(seconds) => Ok(utc(seconds)),
            None => trouble("SOURCE_DATE_EPOCH is set, and is no number of seconds"),
        },
        None => Ok(utc(SystemTime::now().duration_since(UNIX_EPOCH).map_or(0, |since| since.as_secs()))),
    }
}

/// So many seconds after the start of 1970, by the calendar.
fn utc(seconds: u64) -> String {
    /// The days of 400 years, after which the calendar repeats.
    const ROUND: u64 = 146_097;
    /// The days from the first of March of the year 0 to the start of 1970.
    const START: u64 = 719_468;
    let (days, minutes) = (seconds / 86400 + START, seconds % 86400 / 60);
    let day = days % ROUND;
    // years begin with March here, so that a leap day is the last of its year
    let year = (day - day / 1460 + day / 36524 - day / (ROUND - 1)) / 365;
    let day = day - (365 * year + year / 4 - year / 100);
    let month = (5 * day + 2) / 153;
    let date = day - (153 * month + 2) / 5 + 1;
    let (month, next) = if month < 10 { (month + 3, 0) } else { (month - 9, 1) };
    let year = year + days / ROUND * 400 + next;
    format!("{year:04}-{month:02}-{date:02} {:02}:{:02} UTC", minutes / 60, minutes % 60)
}

#[cfg(test)]
mod tests {
    use super::utc;

    #[test]
    fn days_that_are_known() {
        assert_eq!(utc(0), "1970-01-01 00:00 UTC");
        assert_eq!(utc(951_782_400), "2000-02-29 00:00 UTC");
        assert_eq!(utc(1_000_000_000), "2001-09-09 01:46 UTC");
        assert_eq!(utc(1_709_251_199), "2024-02-29 23:59 UTC");
        assert_eq!(utc(4_107_542_400), "2100-03-01 00:00 UTC");
    }

    /// Each day follows the one before by the calendar's own rule, for 800 years.
    #[test]
    fn day_after_day() {
        let (mut year, mut month, mut day) = (1970, 1, 1);
        for number in 0..292_194 {
            assert_eq!(utc(number * 86400 + 3720), format!("{year:04}-{month:02}-{day:02} 01:02 UTC"));
            let leap = year % 4 == 0 && (year % 100 != 0 || year % 400 == 0);
            let length = match month {
                2 => 28 + u32::from(leap),
                4 | 6 | 9 | 11 => 30,
                _ => 31,
            };
            day += 1;
            if day > length {
                (day, month) = (1, month + 1);
            }
            if month > 12 {
                (month, year) = (1, year + 1);
            }
        }
        assert_eq!(year, 2770);
    }
}
