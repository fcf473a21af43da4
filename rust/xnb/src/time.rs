//! Times as .NET has them, in ticks of 100 nanoseconds.

use crate::calls::Time;
use std::fmt::{self, Display, Formatter};

/// The ticks of a second.
const SECOND: u64 = 10_000_000;
const MINUTE: u64 = 60 * SECOND;
const HOUR: u64 = 60 * MINUTE;
const DAY: u64 = 24 * HOUR;

/// A length of time, as .NET's `System.TimeSpan`.
///
/// It is shown as .NET shows it: days before a point, hours, minutes and seconds, and ticks behind a point.
///
/// ```
/// use xnb::TimeSpan;
///
/// let time = TimeSpan { ticks: -863_990_000_001 };
/// assert_eq!((time.days(), time.hours(), time.minutes(), time.seconds()), (0, -23, -59, -59));
/// assert_eq!(time.to_string(), "-23:59:59.0000001");
/// assert_eq!(TimeSpan { ticks: 864_000_000_000 }.to_string(), "1.00:00:00");
/// ```
#[derive(Clone, Copy, Debug, PartialEq, Eq, PartialOrd, Ord, Hash)]
#[cfg_attr(feature = "serde", derive(serde::Serialize))]
pub struct TimeSpan {
    /// Its ticks, 10,000,000 to a second.
    pub ticks: i64,
}

impl TimeSpan {
    /// Its whole seconds, rounded down, and the ticks above them, as [`Grid::time`](crate::Grid::time) answers.
    pub fn time(self) -> Time {
        Time {
            seconds: self.ticks.div_euclid(SECOND as i64),
            ticks: self.ticks.rem_euclid(SECOND as i64) as u32,
        }
    }

    /// Its whole days, with its sign.
    pub fn days(self) -> i64 {
        self.ticks / DAY as i64
    }

    /// Its hours above the days, with its sign.
    pub fn hours(self) -> i64 {
        self.ticks / HOUR as i64 % 24
    }

    /// Its minutes above the hours, with its sign.
    pub fn minutes(self) -> i64 {
        self.ticks / MINUTE as i64 % 60
    }

    /// Its seconds above the minutes, with its sign.
    pub fn seconds(self) -> i64 {
        self.ticks / SECOND as i64 % 60
    }

    /// Its ticks above the seconds, with its sign.
    pub fn ticks_of_second(self) -> i64 {
        self.ticks % SECOND as i64
    }
}

/// As .NET's format `c`.
impl Display for TimeSpan {
    fn fmt(&self, out: &mut Formatter) -> fmt::Result {
        let ticks = self.ticks.unsigned_abs();
        if self.ticks < 0 {
            write!(out, "-")?;
        }
        if ticks >= DAY {
            write!(out, "{}.", ticks / DAY)?;
        }
        write!(out, "{}", Clock(ticks % DAY))?;
        match ticks % SECOND {
            0 => Ok(()),
            rest => write!(out, ".{rest:07}"),
        }
    }
}

/// A time of the day in ticks, shown in hours, minutes and seconds.
struct Clock(u64);

impl Display for Clock {
    fn fmt(&self, out: &mut Formatter) -> fmt::Result {
        let (hours, minutes) = (self.0 / HOUR, self.0 / MINUTE % 60);
        write!(out, "{hours:02}:{minutes:02}:{:02}", self.0 / SECOND % 60)
    }
}

/// A moment, as .NET's `System.DateTime`.
///
/// It is shown as .NET's format `o` does, but a local time without the distance of its zone, which a file does not say.
///
/// ```
/// use xnb::{DateTime, Zone};
///
/// let moment = DateTime { ticks: 634_201_920_000_000_000, zone: Zone::Utc };
/// assert_eq!((moment.year(), moment.month(), moment.day()), (2010, 9, 16));
/// assert_eq!(moment.to_string(), "2010-09-16T00:00:00.0000000Z");
/// ```
#[derive(Clone, Copy, Debug, PartialEq, Eq, Hash)]
#[cfg_attr(feature = "serde", derive(serde::Serialize))]
pub struct DateTime {
    /// Its ticks from the start of the year 1 on, 10,000,000 to a second; below 3,155,378,976,000,000,000.
    pub ticks: u64,
    /// What the file says of its zone.
    pub zone: Zone,
}

/// What is known of a moment's zone, as .NET's `System.DateTimeKind`.
#[derive(Clone, Copy, Debug, PartialEq, Eq, Hash)]
#[cfg_attr(feature = "serde", derive(serde::Serialize))]
pub enum Zone {
    /// Nothing is known (0).
    Unspecified = 0,
    /// Coordinated Universal Time (1).
    Utc = 1,
    /// The time of the place where it is used (2).
    Local = 2,
}

impl DateTime {
    /// The moment in a file's number: ticks in the low 62 bits, the zone in the high two.
    ///
    /// There is none where the zone is 3 or the ticks end past the year 9999.
    pub fn of_packed(packed: u64) -> Option<DateTime> {
        let zone = match packed >> 62 {
            0 => Zone::Unspecified,
            1 => Zone::Utc,
            2 => Zone::Local,
            _ => return None,
        };
        let ticks = packed & ((1 << 62) - 1);
        (ticks <= LAST_TICK).then_some(DateTime { ticks, zone })
    }

    /// The year, from 1 to 9999.
    pub fn year(self) -> u32 {
        self.date().0
    }

    /// The month, from 1 to 12.
    pub fn month(self) -> u32 {
        self.date().1
    }

    /// The day of the month, from 1 to 31.
    pub fn day(self) -> u32 {
        self.date().2
    }

    /// The time since midnight.
    pub fn time_of_day(self) -> TimeSpan {
        TimeSpan {
            ticks: (self.ticks % DAY) as i64,
        }
    }

    /// Year, month and day in the Gregorian calendar.
    fn date(self) -> (u32, u32, u32) {
        // Years begin with March here, so that a leap day is the last of its year.
        let days = self.ticks / DAY + MARCH;
        let (era, day) = (days / ERA, days % ERA);
        let year = (day - day / 1460 + day / 36_524 - day / 146_096) / 365;
        let day = day - (365 * year + year / 4 - year / 100);
        let month = (5 * day + 2) / 153;
        let day = day - (153 * month + 2) / 5 + 1;
        let (month, next) = if month < 10 {
            (month + 3, 0)
        } else {
            (month - 9, 1)
        };
        ((400 * era + year + next) as u32, month as u32, day as u32)
    }
}

/// The last tick of the year 9999.
pub(crate) const LAST_TICK: u64 = 3_155_378_975_999_999_999;
/// The days of 400 years.
const ERA: u64 = 146_097;
/// The days from the first of March of the year 0 to the start of the year 1.
const MARCH: u64 = 306;

/// As .NET's format `o`, without the distance of a local zone.
impl Display for DateTime {
    fn fmt(&self, out: &mut Formatter) -> fmt::Result {
        let (year, month, day) = self.date();
        let (clock, rest) = (Clock(self.ticks % DAY), self.ticks % SECOND);
        write!(out, "{year:04}-{month:02}-{day:02}T{clock}.{rest:07}")?;
        match self.zone {
            Zone::Utc => write!(out, "Z"),
            Zone::Unspecified | Zone::Local => Ok(()),
        }
    }
}

#[cfg(test)]
mod tests {
    use super::*;

    #[test]
    fn every_day_follows_the_one_before() {
        let (mut year, mut month, mut day) = (1, 1, 1);
        for number in 0..=LAST_TICK / DAY {
            let moment = DateTime {
                ticks: number * DAY,
                zone: Zone::Unspecified,
            };
            assert_eq!(moment.date(), (year, month, day));
            let leap = year % 4 == 0 && (year % 100 != 0 || year % 400 == 0);
            let days = match month {
                2 if leap => 29,
                2 => 28,
                4 | 6 | 9 | 11 => 30,
                _ => 31,
            };
            day += 1;
            if day > days {
                (day, month) = (1, month + 1);
            }
            if month > 12 {
                (month, year) = (1, year + 1);
            }
        }
        assert_eq!((year, month, day), (10_000, 1, 1));
    }

    #[test]
    fn a_packed_moment_has_a_zone_and_an_end() {
        assert_eq!(DateTime::of_packed(3 << 62), None);
        assert_eq!(DateTime::of_packed(LAST_TICK + 1), None);
        let last = DateTime::of_packed(2 << 62 | LAST_TICK).expect("a moment");
        assert_eq!((last.ticks, last.zone), (LAST_TICK, Zone::Local));
        assert_eq!(last.to_string(), "9999-12-31T23:59:59.9999999");
        assert_eq!(last.time_of_day().hours(), 23);
    }

    #[test]
    fn the_longest_times_are_reported() {
        let shown = |ticks| TimeSpan { ticks }.to_string();
        assert_eq!(shown(i64::MIN), "-10675199.02:48:05.4775808");
        assert_eq!(shown(i64::MAX), "10675199.02:48:05.4775807");
        assert_eq!(shown(0), "00:00:00");
        assert_eq!(TimeSpan { ticks: -1 }.ticks_of_second(), -1);
    }
}
