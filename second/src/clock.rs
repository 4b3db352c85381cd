//! Times for the maker of feeds: counted in nanoseconds, and written in either epoch form.
//! The judge never counts days, so a slip in one of the two calendars shows.

use crate::dice::Dice;

/// Nanoseconds since the start of the year 1, with room for a second 60 at the end of every day.
#[derive(Clone, Copy, Debug, PartialEq, Eq, PartialOrd, Ord)]
pub struct Time(u128);

pub const SECOND: u128 = 1_000_000_000;

/// A day up to its second 60.
pub const DAY: u128 = 86_400 * SECOND;

/// A day with its second 60, as a time counts them all.
const LONG_DAY: u128 = DAY + SECOND;

/// How time goes on after 23:59:59: to the next day at once, or through second 60.
#[derive(Clone, Copy, Debug, PartialEq, Eq)]
pub enum Days {
    Plain,
    Long,
}

impl Days {
    pub fn length(self) -> u128 {
        match self {
            Days::Plain => DAY,
            Days::Long => LONG_DAY,
        }
    }
}

/// Days before each month of a common year.
const BEFORE: [u32; 12] = [0, 31, 59, 90, 120, 151, 181, 212, 243, 273, 304, 334];

impl Time {
    /// The start of a day of a year.
    pub fn of_day(year: u32, day_of_year: u32) -> Time {
        let past = u128::from(year - 1);
        Time((past * 365 + past / 4 - past / 100 + past / 400 + u128::from(day_of_year - 1)) * LONG_DAY)
    }

    /// The last nanosecond of the year 9999.
    pub fn last(days: Days) -> Time {
        Time(Time::of_day(9999, 365).0 + days.length() - 1)
    }

    /// The nanoseconds that have gone by in such days; in plain ones second 60 is the start of the next day.
    fn count(self, days: Days) -> u128 {
        self.0 / LONG_DAY * days.length() + self.0 % LONG_DAY
    }

    fn of_count(count: u128, days: Days) -> Time {
        Time(count / days.length() * LONG_DAY + count % days.length())
    }

    pub fn plus(self, days: Days, step: u128) -> Time {
        Time::of_count((self.count(days) + step).min(Time::last(days).count(days)), days)
    }

    pub fn minus(self, days: Days, step: u128) -> Time {
        Time::of_count(self.count(days).saturating_sub(step), days)
    }

    /// How far it is from here to a later time.
    pub fn until(self, later: Time, days: Days) -> u128 {
        later.count(days) - self.count(days)
    }

    /// So far into the same day; from `DAY` on that is second 60.
    pub fn in_day(self, into: u128) -> Time {
        Time(self.0 - self.0 % LONG_DAY + into)
    }

    pub fn is_at_second_60(self) -> bool {
        self.0 % LONG_DAY >= DAY
    }

    /// The year and the day of the year, from 1.
    fn year_and_day(self) -> (u32, u32) {
        let mut year = (self.0 / (366 * LONG_DAY)) as u32 + 1;
        while year < 9999 && Time::of_day(year + 1, 1) <= self {
            year += 1;
        }
        let day = (self.0 - Time::of_day(year, 1).0) / LONG_DAY;
        (year, day as u32 + 1)
    }

    /// The clock without a fraction.
    fn clock(self) -> String {
        if self.is_at_second_60() {
            return "23:59:60".to_string();
        }
        let seconds = self.0 % LONG_DAY / SECOND;
        format!("{:02}:{:02}:{:02}", seconds / 3600, seconds / 60 % 60, seconds % 60)
    }

    /// The epoch in the form that is asked for, with at least so many digits of a second's fraction.
    pub fn text(self, by_day: bool, digits: usize) -> String {
        let (year, day) = self.year_and_day();
        let date = if by_day { format!("{year:04}-{day:03}") } else { by_month(year, day) };
        format!("{date}T{}{}", self.clock(), fraction((self.0 % SECOND) as u64, digits))
    }

    /// The epoch in either form, with or without zeros at its end.
    pub fn any_text(self, dice: &mut Dice) -> String {
        let by_day = dice.percent(50);
        let digits = if dice.percent(60) { 0 } else { dice.between(0, 9) };
        self.text(by_day, digits)
    }
}

fn by_month(year: u32, day_of_year: u32) -> String {
    let leap = u32::from(year % 4 == 0 && (year % 100 != 0 || year % 400 == 0));
    let before = |month: usize| BEFORE[month] + if month >= 2 { leap } else { 0 };
    let month = (0..12).rev().find(|month| before(*month) < day_of_year).unwrap_or(0);
    format!("{year:04}-{:02}-{:02}", month + 1, day_of_year - before(month))
}

/// The fraction without needless zeros, then with zeros up to the digits asked for.
fn fraction(nanoseconds: u64, digits: usize) -> String {
    let all = format!("{nanoseconds:09}");
    let mut shown = all.trim_end_matches('0').to_string();
    while shown.len() < digits {
        shown.push('0');
    }
    if shown.is_empty() {
        shown
    } else {
        format!(".{shown}")
    }
}

/// So many in a hundred times that may stand at second 60 do.
const SIXTIES: usize = 4;

/// A time that often lies near the end of a day, a month or a year, and at times at second 60 of a long day.
pub fn any_time(dice: &mut Dice, days: Days) -> Time {
    let year = dice.pick(&[1, 4, 1600, 1900, 1996, 1999, 2000, 2001, 2004, 2100, 9990]);
    let year = if dice.percent(50) { year } else { dice.between(1, 9990) as u32 };
    let day = dice.pick(&[1, 31, 32, 59, 60, 61, 90, 91, 334, 335, 365]);
    let day = if dice.percent(60) { day } else { dice.between(1, 365) as u32 };
    let late = if dice.percent(30) { DAY - SECOND } else { (dice.below(86_400) as u128) * SECOND };
    let late = if days == Days::Long && dice.percent(SIXTIES) { DAY } else { late };
    Time::of_day(year, day).in_day(late + any_part(dice))
}

/// A part of a second: none in half of all, and at times at an edge.
pub fn any_part(dice: &mut Dice) -> u128 {
    match dice.below(20) {
        0..=9 => 0,
        10..=12 => dice.pick(&[1, SECOND / 2, SECOND - 1]),
        _ => dice.below(SECOND as usize) as u128,
    }
}

/// Times about the end of a day, in order: its last second, second 60 if such days have one, and the first of the next day.
pub fn day_end(day: Time, days: Days) -> Vec<Time> {
    let last = [DAY - SECOND, DAY - SECOND / 2, DAY - 2, DAY - 1].map(|into| day.in_day(into));
    let sixty = [DAY, DAY + 1, DAY + SECOND / 2, LONG_DAY - 1].map(|into| day.in_day(into));
    let next = [0, 1, SECOND / 2].map(|past| day.in_day(LONG_DAY + past));
    match days {
        Days::Plain => [&last[..], &next].concat(),
        Days::Long => [&last[..], &sixty, &next].concat(),
    }
}

#[cfg(test)]
mod tests {
    use super::*;

    #[test]
    fn both_forms_say_the_day() {
        let text = |year, day, by_day| Time::of_day(year, day).text(by_day, 0);
        assert_eq!(text(1, 1, false), "0001-01-01T00:00:00");
        assert_eq!(text(2000, 60, false), "2000-02-29T00:00:00");
        assert_eq!(text(2000, 366, true), "2000-366T00:00:00");
        assert_eq!(text(2000, 366, false), "2000-12-31T00:00:00");
        assert_eq!(text(1900, 60, false), "1900-03-01T00:00:00");
        assert_eq!(text(2001, 365, false), "2001-12-31T00:00:00");
        assert_eq!(Time::last(Days::Plain).text(false, 0), "9999-12-31T23:59:59.999999999");
        assert_eq!(Time::last(Days::Long).text(true, 0), "9999-365T23:59:60.999999999");
    }

    #[test]
    fn fractions_take_zeros() {
        let noon = Time::of_day(2000, 1).in_day(DAY / 2 + SECOND / 2);
        assert_eq!(noon.text(true, 0), "2000-001T12:00:00.5");
        assert_eq!(noon.text(true, 3), "2000-001T12:00:00.500");
        assert_eq!(Time::of_day(2000, 1).text(true, 2), "2000-001T00:00:00.00");
    }

    #[test]
    fn every_day_of_some_years_is_reached() {
        for year in [1, 1999, 2000, 2100, 9999] {
            for day in 1..=365 {
                assert_eq!(Time::of_day(year, day).year_and_day(), (year, day));
                assert_eq!(Time::of_day(year, day).in_day(LONG_DAY - 1).year_and_day(), (year, day));
            }
        }
    }

    #[test]
    fn long_days_go_through_second_60_and_plain_ones_do_not() {
        let late = Time::of_day(2016, 366).in_day(DAY - SECOND / 2);
        let text = |days, step| late.plus(days, step).text(false, 0);
        assert_eq!(text(Days::Long, SECOND), "2016-12-31T23:59:60.5");
        assert_eq!(text(Days::Long, 2 * SECOND), "2017-01-01T00:00:00.5");
        assert_eq!(text(Days::Plain, SECOND), "2017-01-01T00:00:00.5");
        assert_eq!(text(Days::Plain, DAY), "2017-01-01T23:59:59.5");
        assert_eq!(text(Days::Long, LONG_DAY), "2017-01-01T23:59:59.5");
        let early = Time::of_day(2017, 1);
        assert_eq!(early.minus(Days::Long, 1).text(true, 0), "2016-366T23:59:60.999999999");
        assert_eq!(early.minus(Days::Plain, 1).text(true, 0), "2016-366T23:59:59.999999999");
        assert_eq!((late.until(early, Days::Long), late.until(early, Days::Plain)), (3 * SECOND / 2, SECOND / 2));
    }

    #[test]
    fn the_end_of_a_day_is_in_order() {
        let texts = |days| day_end(Time::of_day(2015, 76), days).into_iter().map(|time| time.text(false, 0)).collect::<Vec<_>>();
        for days in [Days::Plain, Days::Long] {
            day_end(Time::of_day(2015, 76), days).windows(2).for_each(|pair| assert!(pair[0] < pair[1]));
        }
        assert!(texts(Days::Plain).windows(2).any(|pair| pair == ["2015-03-17T23:59:59.999999999", "2015-03-18T00:00:00"]));
        assert!(texts(Days::Long).windows(2).any(|pair| pair == ["2015-03-17T23:59:59.999999999", "2015-03-17T23:59:60"]));
        assert!(texts(Days::Long).windows(2).any(|pair| pair == ["2015-03-17T23:59:60.999999999", "2015-03-18T00:00:00"]));
    }

    #[test]
    fn times_stand_at_second_60_in_long_days_alone() {
        let seed = 5;
        let sixties = |days| (0..1000).filter(|turn| any_time(&mut Dice::new(seed, *turn), days).is_at_second_60()).count();
        assert_eq!(sixties(Days::Plain), 0, "seed {seed}");
        assert!((20..200).contains(&sixties(Days::Long)), "seed {seed}");
    }
}
