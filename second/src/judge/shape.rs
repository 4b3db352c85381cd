//! The shapes of values: texts, integers, numbers, and epochs brought to one comparable text.

/// A text is one byte or more.
pub fn is_text(value: &[u8]) -> bool {
    !value.is_empty()
}

/// The heading's value.
pub fn is_version(value: &[u8]) -> bool {
    value == b"1.0"
}

fn all_digits(text: &[u8]) -> bool {
    !text.is_empty() && text.iter().all(u8::is_ascii_digit)
}

/// Whether there is a minus, and what stands after the sign.
fn without_sign(text: &[u8]) -> (bool, &[u8]) {
    match text {
        [b'-', rest @ ..] => (true, rest),
        [b'+', rest @ ..] => (false, rest),
        _ => (false, text),
    }
}

/// An integer in 32 bits; digits without leading zeros compare by length, then as text.
pub fn is_integer(value: &[u8]) -> bool {
    let (minus, digits) = without_sign(value);
    let top: &[u8] = if minus { b"2147483648" } else { b"2147483647" };
    let zeros = digits.iter().take_while(|&&b| b == b'0').count();
    let rest = &digits[zeros..];
    all_digits(digits) && (rest.len(), rest) <= (top.len(), top)
}

/// A number: fixed, or with an exponent.
pub fn is_number(value: &[u8]) -> bool {
    let (_, body) = without_sign(value);
    match body.iter().position(|b| matches!(b, b'E' | b'e')) {
        Some(at) => is_mantissa(&body[..at]) && is_exponent(&body[at + 1..]),
        None => is_fixed(body),
    }
}

/// Digits on both sides of a period, or digits alone; 16 at most.
fn is_fixed(body: &[u8]) -> bool {
    let (whole, part) = match body.iter().position(|&b| b == b'.') {
        Some(at) => (&body[..at], Some(&body[at + 1..])),
        None => (body, None),
    };
    // A second period is no digit.
    all_digits(whole) && part.is_none_or(all_digits) && whole.len() + part.map_or(0, <[u8]>::len) <= 16
}

/// One digit, a period, 1 to 15 digits.
fn is_mantissa(body: &[u8]) -> bool {
    match body {
        [first, b'.', rest @ ..] => first.is_ascii_digit() && all_digits(rest) && rest.len() <= 15,
        _ => false,
    }
}

/// An optional sign, 1 to 3 digits.
fn is_exponent(body: &[u8]) -> bool {
    let (_, digits) = without_sign(body);
    all_digits(digits) && digits.len() <= 3
}

/// An instant as `YYYY-MM-DDThh:mm:ss.fffffffff`; all have one length, so they compare as text.
/// Second 60 is written as it stands, so it lies after second 59 and before the next day without any sum.
#[derive(Clone, Copy, Debug, PartialEq, Eq, PartialOrd, Ord)]
pub struct Moment([u8; 29]);

impl Moment {
    pub fn is_at_second_60(&self) -> bool {
        &self.0[17..19] == b"60"
    }
}

/// Reads an epoch of either form; `None` if it isn't one. Whether second 60 may stand where it stands is asked elsewhere.
pub fn moment(value: &[u8]) -> Option<Moment> {
    let at = value.iter().position(|&b| b == b'T')?;
    let (date, time) = (&value[..at], &value[at + 1..]);
    let day = calendar_day(date)?;
    let (clock, fraction) = if time.len() > 8 { time.split_at(8) } else { (time, &b""[..]) };
    if !is_clock(clock) || !is_fraction(fraction) {
        return None;
    }
    // What the fraction leaves out stays as zeros, so trailing ones don't matter.
    let mut text = *b"YYYY-MM-DDThh:mm:ss.000000000";
    text[..10].copy_from_slice(&day);
    text[11..19].copy_from_slice(clock);
    text[19..19 + fraction.len()].copy_from_slice(fraction);
    Some(Moment(text))
}

pub fn is_epoch(value: &[u8]) -> bool {
    moment(value).is_some()
}

/// Whether each `d` of the pattern is met by a digit and each other byte by itself.
fn fits(pattern: &[u8], text: &[u8]) -> bool {
    pattern.len() == text.len() && pattern.iter().zip(text).all(|(p, t)| if *p == b'd' { t.is_ascii_digit() } else { p == t })
}

/// The number that digits say; the callers hand over at most four.
fn number_of(digits: &[u8]) -> u32 {
    digits.iter().fold(0, |number, digit| number * 10 + u32::from(digit - b'0'))
}

/// The day in calendar form, from either form.
fn calendar_day(date: &[u8]) -> Option<[u8; 10]> {
    let by_month = fits(b"dddd-dd-dd", date);
    let by_day = fits(b"dddd-ddd", date);
    if !by_month && !by_day {
        return None;
    }
    let year = number_of(&date[..4]);
    let months = month_lengths(year);
    let (month, day) =
        if by_month { (number_of(&date[5..7]), number_of(&date[8..])) } else { month_and_day(number_of(&date[5..]), &months)? };
    let length = *months.get((month as usize).checked_sub(1)?)?;
    if year == 0 || day == 0 || day > length {
        return None;
    }
    let [month, day] = [month, day].map(two_digits);
    let mut text = *b"YYYY-MM-DD";
    text[..4].copy_from_slice(&date[..4]);
    text[5..7].copy_from_slice(&month);
    text[8..].copy_from_slice(&day);
    Some(text)
}

/// A number below 100 as its two digits.
fn two_digits(number: u32) -> [u8; 2] {
    [number / 10, number % 10].map(|digit| b'0' + digit as u8)
}

/// The month and day of a day of the year, if the year has it.
fn month_and_day(day_of_year: u32, months: &[u32; 12]) -> Option<(u32, u32)> {
    let mut day = day_of_year;
    for (month, length) in (1..).zip(months) {
        if day <= *length {
            return Some((month, day));
        }
        day -= length;
    }
    None
}

fn month_lengths(year: u32) -> [u32; 12] {
    let february = if is_leap(year) { 29 } else { 28 };
    [31, february, 31, 30, 31, 30, 31, 31, 30, 31, 30, 31]
}

/// Whether a Gregorian year has 366 days.
pub fn is_leap(year: u32) -> bool {
    year % 400 == 0 || (year % 4 == 0 && year % 100 != 0)
}

/// `hh:mm:ss` with hours to 23, minutes and seconds to 59, or the one clock with a second 60; text compares as the numbers do.
fn is_clock(clock: &[u8]) -> bool {
    let common = fits(b"dd:dd:dd", clock) && &clock[..2] <= b"23" && &clock[3..5] <= b"59" && &clock[6..] <= b"59";
    common || clock == b"23:59:60"
}

/// Nothing, or a period and 1 to 9 digits.
fn is_fraction(fraction: &[u8]) -> bool {
    match fraction {
        [] => true,
        [b'.', digits @ ..] => all_digits(digits) && digits.len() <= 9,
        _ => false,
    }
}

#[cfg(test)]
mod tests {
    use super::*;

    #[test]
    fn integers() {
        for good in ["0", "7", "-7", "+7", "007", "-0", "2147483647", "+2147483647", "-2147483648", "00000000002147483647"] {
            assert!(is_integer(good.as_bytes()), "{good}");
        }
        for bad in ["", "-", "+", "--7", "7.", "7.0", "1e3", "a", "7 7", "2147483648", "-2147483649", "99999999999", "0x7"] {
            assert!(!is_integer(bad.as_bytes()), "{bad}");
        }
    }

    #[test]
    fn numbers() {
        for good in
            ["0", "0.5", "-0.5", "+12", "1234567890123456", "0000000000000.001", "1.5E3", "1.5e-300", "9.123456789012345E+000", "-1.0e1"]
        {
            assert!(is_number(good.as_bytes()), "{good}");
        }
        for bad in [
            "", ".", "-", ".5", "5.", "12345678901234567", "0.1234567890123456", "1E3", "12.5E3", "1.E3", ".5E3", "1.5E", "1.5E+",
            "1.5E1000", "1.5E3.0", "1.1234567890123456E1", "1.2.3", "1,5", "+-1", "1.5F3", "1.5EE3", "NaN",
        ] {
            assert!(!is_number(bad.as_bytes()), "{bad}");
        }
    }

    #[test]
    fn epochs() {
        for good in [
            "2000-02-29T00:00:00", "2000-366T23:59:59", "2001-365T00:00:00", "0001-001T00:00:00", "9999-12-31T23:59:59.999999999",
            "2000-01-01T00:00:00.1", "2400-02-29T00:00:00", "2016-12-31T23:59:60", "2016-366T23:59:60", "2015-03-17T23:59:60.5",
            "0001-001T23:59:60.999999999", "9999-12-31T23:59:60.0",
        ] {
            assert!(is_epoch(good.as_bytes()), "{good}");
        }
        for bad in [
            "", "T", "1900-02-29T00:00:00", "2001-366T00:00:00", "2001-000T00:00:00", "2000-367T00:00:00", "2000-01-01T24:00:00",
            "2000-01-01T00:60:00", "2000-01-01T00:00:60", "0000-01-01T00:00:00", "2000-00-01T00:00:00", "2000-13-01T00:00:00",
            "2000-04-31T00:00:00", "2000-01-00T00:00:00", "2000-01-01T00:00:00.", "2000-01-01T00:00:00.1234567890", "2000-01-01T00:00:00Z",
            "2000-01-01 00:00:00", "2000-1-1T00:00:00", "2000-01-01T00:00", "2000-01-01t00:00:00", "2000-01-01T00:00:0",
            "02000-01-01T00:00:00", "2000-01-01T00:00:00.1.2", "2016-12-31T22:59:60", "2016-12-31T23:58:60", "2016-12-31T24:59:60",
            "2016-12-31T23:60:60", "2016-12-31T23:59:61", "2016-12-31T23:59:99", "2016-366T22:59:60", "2016-366T23:59:61",
            "2016-12-31T23:59:60.", "2016-12-31T23:59:60.1234567890", "2016-12-31T23:59:600", "2015-366T23:59:60", "2015-02-29T23:59:60",
        ] {
            assert!(!is_epoch(bad.as_bytes()), "{bad}");
        }
    }

    #[test]
    fn moments_compare_by_the_instant() {
        let at = |text: &str| moment(text.as_bytes()).expect("an epoch");
        assert_eq!(at("2000-001T00:00:00"), at("2000-01-01T00:00:00.000"));
        assert_eq!(at("2000-060T00:00:00"), at("2000-02-29T00:00:00"));
        assert_eq!(at("2001-060T00:00:00"), at("2001-03-01T00:00:00"));
        assert_eq!(at("2000-366T00:00:00"), at("2000-12-31T00:00:00"));
        assert_eq!(at("2000-01-01T00:00:00.5"), at("2000-01-01T00:00:00.500000000"));
        assert!(at("2000-01-01T00:00:00") < at("2000-01-01T00:00:00.000000001"));
        assert!(at("2000-01-01T00:00:00.49") < at("2000-01-01T00:00:00.5"));
        assert!(at("1999-365T23:59:59.999999999") < at("2000-01-01T00:00:00"));
        assert!(at("2000-031T00:00:00") < at("2000-02-01T00:00:00"));
        assert!(at("0999-12-31T00:00:00") < at("1000-001T00:00:00"));
    }

    #[test]
    fn second_60_lies_between_its_neighbours() {
        let at = |text: &str| moment(text.as_bytes()).expect("an epoch");
        let line = [
            "2016-12-31T23:59:59.999999999", "2016-366T23:59:60", "2016-12-31T23:59:60.000000001", "2016-366T23:59:60.5",
            "2016-12-31T23:59:60.999999999", "2017-001T00:00:00", "2017-01-01T00:00:00.000000001",
        ];
        line.windows(2).for_each(|pair| assert!(at(pair[0]) < at(pair[1]), "{pair:?}"));
        assert_eq!(at("2016-12-31T23:59:60"), at("2016-366T23:59:60.000"));
        assert!(at("2016-12-31T23:59:60").is_at_second_60() && at("2016-366T23:59:60.5").is_at_second_60());
        assert!(!at("2016-12-31T23:59:59.60").is_at_second_60() && !at("2060-01-01T00:00:06").is_at_second_60());
    }
}
