//! Cases about saying a number: the answer in units at each count of decimals, and what is refused.

use crate::desk::{FINE, PLACES, TOO_BIG};
use crate::judge::Reason;
use crate::say::{Said, Saying};

/// One saying, and what must come of it.
#[derive(Clone, Debug)]
pub struct SayCase {
    pub name: String,
    pub saying: Saying,
    pub want: Said,
}

/// All fixed cases about saying.
pub fn sayings() -> Vec<SayCase> {
    let mut book = SayBook { cases: Vec::new() };
    at_every_count(&mut book);
    halves(&mut book);
    beside_halves(&mut book);
    halves_with_exponents(&mut book);
    binary_traps(&mut book);
    carries(&mut book);
    signs_and_zeros(&mut book);
    limits(&mut book);
    limits_with_exponents(&mut book);
    one_amount_written_in_many_ways(&mut book);
    exponents(&mut book);
    counts_of_digits(&mut book);
    damaged(&mut book);
    single_bytes(&mut book);
    long_texts(&mut book);
    places(&mut book);
    book.cases
}

/// The cases as they are gathered.
struct SayBook {
    cases: Vec<SayCase>,
}

/// Counts of decimals that are never answered; some are small in fewer bits.
const MANY: [u32; 14] = [7, 8, 9, 10, 16, 255, 256, 262, 65_536, 65_542, 2_147_483_647, 2_147_483_648, 2_147_483_654, 4_294_967_295];

impl SayBook {
    fn add(&mut self, group: &str, text: &[u8], decimals: u32, reason: u32, units: i64) {
        let name = format!("{group}: {} at {decimals}", short(text));
        self.cases.push(SayCase { name, saying: Saying { text: text.to_vec(), decimals }, want: Said { reason, units } });
    }

    fn says(&mut self, group: &str, text: &str, decimals: u32, units: i64) {
        self.add(group, text.as_bytes(), decimals, FINE, units);
    }

    fn too_big(&mut self, group: &str, text: &str, decimals: u32) {
        self.add(group, text.as_bytes(), decimals, TOO_BIG, 0);
    }

    /// A text without a sign, and with either.
    fn both(&mut self, group: &str, text: &str, decimals: u32, size: i64) {
        self.says(group, text, decimals, size);
        self.says(group, &format!("+{text}"), decimals, size);
        self.says(group, &format!("-{text}"), decimals, -size);
    }

    fn both_too_big(&mut self, group: &str, text: &str, decimals: u32) {
        ["", "+", "-"].iter().for_each(|sign| self.too_big(group, &format!("{sign}{text}"), decimals));
    }

    /// A text at 0 to 6 decimals, and at some that are too many.
    fn row(&mut self, group: &str, text: &str, units: [i64; 7]) {
        (0..).zip(units).for_each(|(decimals, units)| self.says(group, text, decimals, units));
        [7, 4_294_967_295].iter().for_each(|decimals| self.add(group, text.as_bytes(), *decimals, PLACES, 0));
    }

    /// A text that is no number at any count of decimals; too many of them come first.
    fn no_number(&mut self, group: &str, text: &[u8]) {
        [0, 1, 3, 6].iter().for_each(|decimals| self.add(group, text, *decimals, Reason::Value.number(), 0));
        [7, 4_294_967_295].iter().for_each(|decimals| self.add(group, text, *decimals, PLACES, 0));
    }
}

/// A text in a name; of a long one its front and its length.
fn short(text: &[u8]) -> String {
    match text.get(..40) {
        None => format!("\"{}\"", text.escape_ascii()),
        Some(front) => format!("\"{}\" and so on, {} bytes", front.escape_ascii(), text.len()),
    }
}

/// Numbers at each count of decimals.
fn at_every_count(book: &mut SayBook) {
    for (text, units) in [
        ("1", [1, 10, 100, 1_000, 10_000, 100_000, 1_000_000]),
        ("-1", [-1, -10, -100, -1_000, -10_000, -100_000, -1_000_000]),
        ("+7.25", [7, 73, 725, 7_250, 72_500, 725_000, 7_250_000]),
        ("-7.25", [-7, -73, -725, -7_250, -72_500, -725_000, -7_250_000]),
        ("0.123456789", [0, 1, 12, 123, 1_235, 12_346, 123_457]),
        ("-0.123456789", [0, -1, -12, -123, -1_235, -12_346, -123_457]),
        ("5.555555555555555", [6, 56, 556, 5_556, 55_556, 555_556, 5_555_556]),
        ("-4.444444444444444", [-4, -44, -444, -4_444, -44_444, -444_444, -4_444_444]),
        ("6503.514000", [6_504, 65_035, 650_351, 6_503_514, 65_035_140, 650_351_400, 6_503_514_000]),
        ("-0.873160", [-1, -9, -87, -873, -8_732, -87_316, -873_160]),
        ("9.999999999999999", [10, 100, 1_000, 10_000, 100_000, 1_000_000, 10_000_000]),
        ("1.5E3", [1_500, 15_000, 150_000, 1_500_000, 15_000_000, 150_000_000, 1_500_000_000]),
        ("-1.5e-3", [0, 0, 0, -2, -15, -150, -1_500]),
        ("3.986004415E+05", [398_600, 3_986_004, 39_860_044, 398_600_442, 3_986_004_415, 39_860_044_150, 398_600_441_500]),
    ] {
        book.row("every count", text, units);
    }
}

/// Halves go away from zero at each count of decimals, from odd and from even units.
fn halves(book: &mut SayBook) {
    for (decimals, text, size) in [
        (0, "0.5", 1),
        (0, "1.5", 2),
        (0, "2.5", 3),
        (0, "12.5", 13),
        (0, "99.50", 100),
        (0, "450359962737049.5", 450_359_962_737_050),
        (1, "0.05", 1),
        (1, "0.15", 2),
        (1, "0.25", 3),
        (1, "7.450", 75),
        (1, "45035996273704.45", 450_359_962_737_045),
        (2, "0.005", 1),
        (2, "0.015", 2),
        (2, "0.025", 3),
        (2, "1.005", 101),
        (2, "4503599627370.445", 450_359_962_737_045),
        (3, "0.0005", 1),
        (3, "0.0015", 2),
        (3, "0.0025", 3),
        (3, "10.0005", 10_001),
        (3, "450359962737.0445", 450_359_962_737_045),
        (4, "0.00005", 1),
        (4, "0.00015", 2),
        (4, "0.00025", 3),
        (4, "2.00005", 20_001),
        (4, "45035996273.70445", 450_359_962_737_045),
        (5, "0.000005", 1),
        (5, "0.000015", 2),
        (5, "0.000025", 3),
        (5, "3.000005", 300_001),
        (5, "4503599627.370445", 450_359_962_737_045),
        (6, "0.0000005", 1),
        (6, "0.0000015", 2),
        (6, "0.0000025", 3),
        (6, "1.0000005", 1_000_001),
        (6, "450359962.7370445", 450_359_962_737_045),
    ] {
        book.both("halves", text, decimals, size);
    }
}

/// What lies beside a half goes to the nearer side.
fn beside_halves(book: &mut SayBook) {
    for (decimals, text, size) in [
        (0, "0.4", 0),
        (0, "0.6", 1),
        (0, "0.49", 0),
        (0, "0.51", 1),
        (0, "0.499999999999999", 0),
        (0, "0.500000000000000", 1),
        (0, "0.500000000000001", 1),
        (0, "1.499999999999999", 1),
        (0, "1.500000000000001", 2),
        (0, "2.500000000000000", 3),
        (0, "2.499999999999999", 2),
        (0, "1.4", 1),
        (0, "1.45", 1),
        (0, "1.4999", 1),
        (0, "99999999999999.49", 99_999_999_999_999),
        (0, "99999999999999.51", 100_000_000_000_000),
        (1, "0.049999999999999", 0),
        (1, "0.050000000000001", 1),
        (1, "0.149", 1),
        (2, "0.004999999999999", 0),
        (2, "0.005000000000001", 1),
        (2, "0.0149", 1),
        (3, "0.000499999999999", 0),
        (3, "0.000500000000001", 1),
        (3, "0.00149", 1),
        (4, "0.000049999999999", 0),
        (4, "0.000050000000001", 1),
        (4, "0.000149", 1),
        (5, "0.000004999999999", 0),
        (5, "0.000005000000001", 1),
        (5, "0.0000149", 1),
        (6, "0.000000499999999", 0),
        (6, "0.000000500000001", 1),
        (6, "0.00000149", 1),
        (6, "0.000000000000001", 0),
        (6, "0.000000999999999", 1),
    ] {
        book.both("beside halves", text, decimals, size);
    }
}

/// The same with the period moved by an exponent.
fn halves_with_exponents(book: &mut SayBook) {
    for (decimals, text, size) in [
        (0, "5.0E-1", 1),
        (0, "5.000000000000000e-01", 1),
        (0, "0.5E0", 1),
        (0, "0.05E1", 1),
        (0, "0.005e+2", 1),
        (0, "0.000000000000005E14", 1),
        (0, "0.000000000000004E14", 0),
        (0, "2.5e0", 3),
        (0, "1.25E1", 13),
        (0, "1.25e+001", 13),
        (0, "4.999999999999999E-1", 0),
        (0, "5.000000000000001E-1", 1),
        (0, "9.999999999999999E-1", 1),
        (0, "4.9E-1", 0),
        (0, "5.0E-2", 0),
        (0, "9.9E-2", 0),
        (1, "5.0E-2", 1),
        (1, "4.999999999999999E-2", 0),
        (1, "1.25E0", 13),
        (2, "5.0E-3", 1),
        (2, "4.999999999999999E-3", 0),
        (2, "1.25E-1", 13),
        (3, "5.0E-4", 1),
        (3, "4.999999999999999E-4", 0),
        (3, "1.25E-2", 13),
        (4, "5.0E-5", 1),
        (4, "4.999999999999999E-5", 0),
        (4, "1.25E-3", 13),
        (5, "5.0E-6", 1),
        (5, "4.999999999999999E-6", 0),
        (5, "1.25E-4", 13),
        (6, "5.0E-7", 1),
        (6, "4.999999999999999E-7", 0),
        (6, "5.000000000000001E-007", 1),
        (6, "1.25E-5", 13),
        (6, "9.9E-8", 0),
        (6, "1.234567890123455E8", 123_456_789_012_346),
        (6, "1.234567890123454E8", 123_456_789_012_345),
    ] {
        book.both("halves with exponents", text, decimals, size);
    }
}

/// Decimals that binary fractions miss, so that a sum with them would round to the other side.
fn binary_traps(book: &mut SayBook) {
    for (decimals, text, size) in [
        (2, "0.285", 29),
        (2, "2.675", 268),
        (2, "8.325", 833),
        (2, "1.115", 112),
        (1, "0.35", 4),
        (1, "1.45", 15),
        (3, "1.0005", 1_001),
        (3, "4.0045", 4_005),
        (4, "5.00015", 50_002),
        (5, "0.000035", 4),
        (6, "0.1234565", 123_457),
        (6, "1.0000015", 1_000_002),
        (6, "900719925.4740995", 900_719_925_474_100),
        (6, "900719925.4740993", 900_719_925_474_099),
        (0, "900719925474099.5", 900_719_925_474_100),
        (0, "899999999999999.5", 900_000_000_000_000),
        (0, "899999999999999.4", 899_999_999_999_999),
        (1, "79999999999999.95", 800_000_000_000_000),
        (1, "79999999999999.94", 799_999_999_999_999),
    ] {
        book.both("binary traps", text, decimals, size);
    }
}

/// One more runs through every nine.
fn carries(book: &mut SayBook) {
    for (decimals, text, size) in [
        (0, "9.5", 10),
        (0, "9.4", 9),
        (0, "99.9", 100),
        (0, "1999.5", 2_000),
        (0, "0999.5", 1_000),
        (0, "99999999999999.5", 100_000_000_000_000),
        (1, "9.95", 100),
        (2, "0.995", 100),
        (3, "9.9995", 10_000),
        (3, "9.9994", 9_999),
        (4, "0.99995", 10_000),
        (5, "0.999995", 100_000),
        (6, "0.9999995", 1_000_000),
        (6, "0.9999994", 999_999),
        (6, "9.999999999999999E-1", 1_000_000),
    ] {
        book.both("carries", text, decimals, size);
    }
}

/// Zero has no sign in an answer, and neither has what rounds to it.
fn signs_and_zeros(book: &mut SayBook) {
    for text in [
        "0", "-0", "+0", "00", "-0000000000000000", "0.0", "-0.0", "+0.000", "-00000000.00000000", "0.0E0", "-0.0E0", "0.0e-0",
        "-0.0E+000", "0.0E999", "-0.0E999", "0.0E-999", "-0.0e-999", "+0.000000000000000E+999", "-0.000000000000000e-999", "0.0E15",
        "-0.0E16", "1.0E-999", "-1.0E-999", "9.999999999999999E-999", "-9.999999999999999e-999", "1.0E-20", "-4.999999999999999E-7",
        "-0.0000004", "-0.000000499999999", "-0.000000000000001",
    ] {
        book.row("zeros", text, [0; 7]);
    }
    book.row("zeros", "-0.4", [0, -4, -40, -400, -4_000, -40_000, -400_000]);
    book.row("zeros", "+0.4", [0, 4, 40, 400, 4_000, 40_000, 400_000]);
    book.row("zeros", "-0.04", [0, 0, -4, -40, -400, -4_000, -40_000]);
    book.row("zeros", "-0.0049", [0, 0, 0, -5, -49, -490, -4_900]);
    book.row("zeros", "-4.0E-6", [0, 0, 0, 0, 0, 0, -4]);
    book.row("zeros", "-0.0000005", [0, 0, 0, 0, 0, 0, -1]);
}

const LIMIT: i64 = 1_000_000_000_000_000;

/// Both sides of the limit: the limit, one unit over it, one under it, and what is rounded up to it or not.
fn limits(book: &mut SayBook) {
    for (decimals, [at, over, under, up, still_under]) in (0..).zip([
        ["1000000000000000", "1000000000000001", "999999999999999", "999999999999999.5", "999999999999999.4"],
        ["100000000000000.0", "100000000000000.1", "99999999999999.9", "99999999999999.95", "99999999999999.94"],
        ["10000000000000.00", "10000000000000.01", "9999999999999.99", "9999999999999.995", "9999999999999.994"],
        ["1000000000000.000", "1000000000000.001", "999999999999.999", "999999999999.9995", "999999999999.9994"],
        ["100000000000.0000", "100000000000.0001", "99999999999.9999", "99999999999.99995", "99999999999.99994"],
        ["10000000000.00000", "10000000000.00001", "9999999999.99999", "9999999999.999995", "9999999999.999994"],
        ["1000000000.000000", "1000000000.000001", "999999999.999999", "999999999.9999995", "999999999.9999994"],
    ]) {
        book.both("limit", at, decimals, LIMIT);
        book.both_too_big("limit", over, decimals);
        book.both("limit", under, decimals, LIMIT - 1);
        book.both("limit", up, decimals, LIMIT);
        book.both("limit", still_under, decimals, LIMIT - 1);
        // The last of 16 digits.
        book.both("limit", &up.replace('5', "9"), decimals, LIMIT);
        book.both("limit", &up.replace('5', "6"), decimals, LIMIT);
        book.both("limit", &up.replace('5', "0"), decimals, LIMIT - 1);
        book.both_too_big("limit", &over.replace("01", "02").replace(".1", ".2"), decimals);
        // Half a unit over the limit takes 17 digits, so that is no number.
        let half_over = if decimals == 0 { "1000000000000000.5".to_string() } else { format!("{at}5") };
        book.no_number(&format!("half over the limit of {decimals} decimals"), half_over.as_bytes());
    }
    for (decimals, [at, over]) in (0..).zip([
        ["1000000000000000", "2000000000000000"],
        ["100000000000000", "100000000000001"],
        ["10000000000000", "10000000000001"],
        ["1000000000000", "1000000000001"],
        ["100000000000", "100000000001"],
        ["10000000000", "10000000001"],
        ["1000000000", "1000000001"],
    ]) {
        book.both("limit without a period", at, decimals, LIMIT);
        book.both_too_big("limit without a period", over, decimals);
        book.both_too_big("limit without a period", "9999999999999999", decimals);
        book.both_too_big("limit without a period", "9223372036854775", decimals);
    }
    // A number within the limit may be over it in smaller units.
    (1..=6).for_each(|decimals| book.too_big("limit", "999999999999999", decimals));
}

/// The same with exponents.
fn limits_with_exponents(book: &mut SayBook) {
    for (decimals, at, below) in [
        (0, "E15", "E14"),
        (1, "e+14", "e13"),
        (2, "E013", "E12"),
        (3, "e12", "e+011"),
        (4, "E+11", "E10"),
        (5, "e010", "e9"),
        (6, "E9", "E8"),
    ] {
        let group = "limit with exponents";
        book.both(group, &format!("1.0{at}"), decimals, LIMIT);
        book.both(group, &format!("1.000000000000000{at}"), decimals, LIMIT);
        book.both_too_big(group, &format!("1.000000000000001{at}"), decimals);
        book.both_too_big(group, &format!("1.1{at}"), decimals);
        book.both_too_big(group, &format!("9.999999999999999{at}"), decimals);
        book.both(group, &format!("0.999999999999999{at}"), decimals, LIMIT - 1);
        book.both(group, &format!("0.9{at}"), decimals, 900_000_000_000_000);
        book.both(group, &format!("9.999999999999995{below}"), decimals, LIMIT);
        book.both(group, &format!("9.999999999999999{below}"), decimals, LIMIT);
        book.both(group, &format!("9.999999999999994{below}"), decimals, LIMIT - 1);
        book.both(group, &format!("9.99999999999999{below}"), decimals, LIMIT - 1);
    }
    for (decimals, at) in [(0, "E30"), (1, "e+29"), (2, "E028"), (3, "e27"), (4, "E26"), (5, "e025"), (6, "E+24")] {
        book.both("limit after zeros", &format!("0.000000000000001{at}"), decimals, LIMIT);
        book.both_too_big("limit after zeros", &format!("0.000000000000002{at}"), decimals);
    }
}

/// The period and the exponent may stand anywhere.
fn one_amount_written_in_many_ways(book: &mut SayBook) {
    for text in [
        "12.5", "12.50", "012.5", "0000000000012.50", "12.50000000000000", "1.25E1", "1.25e1", "1.25E+1", "1.25E01", "1.25E001",
        "1.25E+001", "1.25e+01", "1.250E1", "1.250000000000000E1", "0.125E2", "0.0125e3", "0.00125E+4", "0.000000000000125E14",
    ] {
        let minus = format!("-{text}");
        book.row("twelve and a half", text, [13, 125, 1_250, 12_500, 125_000, 1_250_000, 12_500_000]);
        book.row("twelve and a half", &minus, [-13, -125, -1_250, -12_500, -125_000, -1_250_000, -12_500_000]);
    }
    for text in ["0.0125", "1.25E-2", "1.25e-02", "1.25E-002", "0.125e-1", "0.0125E0", "0.0125e-00", "0.0125E+000", "0.000125E2"] {
        book.row("an eightieth", text, [0, 0, 1, 13, 125, 1_250, 12_500]);
    }
}

/// Exponents to both ends; zeros in front of an exponent say nothing.
fn exponents(book: &mut SayBook) {
    for text in [
        "1.0E999", "-1.0E999", "+9.999999999999999e+999", "0.000000000000001E999", "-0.000000000000001E+999", "1.0E100", "1.0E99",
        "1.0E16", "-1.0e16", "1.1E15", "0.1E17", "0.000000000000001E31", "5.0E63", "1.844674407370955E19", "9.223372036854775E18",
        "-9.223372036854775E18", "4.294967296E19", "1.0E128", "1.0E255", "1.0E256", "1.0E308", "1.8E308", "1.0E309", "1.0E512", "1.0E516",
    ] {
        (0..=6).for_each(|decimals| book.too_big("great exponents", text, decimals));
        book.add("great exponents", text.as_bytes(), 7, PLACES, 0);
    }
    for text in [
        "1.0E-8", "-1.0E-8", "4.9E-7", "9.9E-9", "9.999999999999999E-10", "1.0E-16", "1.0E-99", "9.9E-100", "-9.9e-255", "9.9E-256",
        "9.9E-300", "9.9E-308", "4.9E-324", "-1.0E-325", "9.9E-512", "9.9E-998", "0.000000000000001E-999", "0.1E-6",
    ] {
        book.row("small exponents", text, [0; 7]);
    }
    book.row("exponents", "1.0E0", [1, 10, 100, 1_000, 10_000, 100_000, 1_000_000]);
    book.row("exponents", "1.0E-0", [1, 10, 100, 1_000, 10_000, 100_000, 1_000_000]);
    book.row("exponents", "1.0e+000", [1, 10, 100, 1_000, 10_000, 100_000, 1_000_000]);
    book.row("exponents", "-1.0E001", [-10, -100, -1_000, -10_000, -100_000, -1_000_000, -10_000_000]);
    book.row("exponents", "1.0e-001", [0, 1, 10, 100, 1_000, 10_000, 100_000]);
    book.row("exponents", "1.0E-006", [0, 0, 0, 0, 0, 0, 1]);
    book.row("exponents", "9.0E-7", [0, 0, 0, 0, 0, 0, 1]);
    book.says("exponents", "0.000000000000001E015", 0, 1);
    book.says("exponents", "0.000000000000001E009", 6, 1);
    book.says("exponents", "0.000000000000005E008", 6, 1);
    book.says("exponents", "0.000000000000004E008", 6, 0);
    book.too_big("exponents", "1.234567890123456E15", 0);
    book.says("exponents", "1.234567890123456E14", 0, 123_456_789_012_346);
    book.says("exponents", "1.234567890123456E8", 6, 123_456_789_012_346);
}

/// 16 digits stand, wherever the period is; 17 don't, and leading zeros count.
fn counts_of_digits(book: &mut SayBook) {
    let group = "counts of digits";
    book.says(group, "0000000000000001", 0, 1);
    book.says(group, "-0000000000000001", 6, -1_000_000);
    book.says(group, "0999999999999999", 0, 999_999_999_999_999);
    book.says(group, "0100000000000000", 1, 1_000_000_000_000_000);
    book.says(group, "000000000000000.5", 0, 1);
    book.says(group, "-000000000.0000005", 6, -1);
    book.says(group, "000000001.0000005", 6, 1_000_001);
    book.says(group, "123456789.0123456", 6, 123_456_789_012_346);
    book.says(group, "1.234567890123456", 6, 1_234_568);
    book.says(group, "12345678901234.56", 1, 123_456_789_012_346);
    book.too_big(group, "1234567890123456", 0);
    book.too_big(group, "12345678901234.56", 2);
    for text in [
        "00000000000000001", "12345678901234567", "1000000000000000.0", "0.0000000000000001", "0.1234567890123456", "0.0000000000000000",
        "-00000000000000000", "+1234567890.1234567", "1.0000000000000000E0", "1.0000000000000005E15", "9.9999999999999999e-1", "01.0E5",
        "00.5E1", "0.49999999999999994", "1000000000000000.5", "9007199254740993.0", "9999999999999999.9", "1.2345678901234567E-999",
    ] {
        book.no_number(group, text.as_bytes());
    }
}

/// Texts that are no numbers.
fn damaged(book: &mut SayBook) {
    for text in [
        "", " ", "  ", ".", "-", "+", "--", "+-", "E", "e", "E5", "-E5", ".E5", "+.", "-.", ".5", "-.5", "+.5", "5.", "-5.", "5.E1",
        ".5E1", "5.e", "1E3", "1e3", "-1E3", "15E3", "12.5E3", "10.0e0", "1.5E", "1.5e", "1.5E+", "1.5E-", "1.5E+-3", "1.5E--3", "1.5E3-",
        "1.5E3+", "1.5E0003", "1.5E1000", "1.5e-0999", "1.5E3.0", "1.5E.3", "1.5E3E3", "1.5EE3", "1.5Ee3", "1.5E 3", "1.5 E3", "1.5E3 ",
        " 1.5E3", "1..5", "1.2.3", "..5", "5..", "1,5", "1,000", "1_000", "1'000", "1 000", "1. 5", "1 .5", "- 1", "+ 1", "-+1", "+-1",
        "--1", "++1", "1-", "1+", "1-1", "1.-5", "-1-", " 1", "1 ", "-1 ", " -1", "1\t", "\t1", "1\n", "1\r\n", "\n1", "1\0", "\u{0}1",
        "\0", "1 [KM]", "1[KM]", "1.5 [KM/S]", "1.5E3 [DEG]", "0.5 [S]", "[KM]", "1 KM", "1KM", "1km", "1%", "$1", "(1)", "1f", "1.5f",
        "1L", "0x10", "0b1", "1.5d3", "1.5D3", "1.5F3", "1.5\u{ff25}3", "NaN", "nan", "inf", "-inf", "Infinity", "one", "1/2", "1*2", "1=",
        "=1", "X=1", "\u{661}", "\u{ff11}", "\u{2212}1", "\u{bd}", "1\u{2e3}", "\u{feff}1", "1.5e\u{661}", "2000-01-01T00:00:00", "1:30",
        "COMMENT",
    ] {
        book.no_number("damaged", text.as_bytes());
    }
    for bytes in
        [&b"\xff"[..], b"\x80", b"1\xff", b"\xb2", b"1\xb2", b"1.\xb9", b"-\xb1", b"1.5E\xb3", b"\x00\x00\x00", b"0\x00", b"1.0\x00E1"]
    {
        book.no_number("damaged bytes", bytes);
    }
}

/// Every byte alone, before a digit, between two, after one, and where the letter of an exponent may stand.
fn single_bytes(book: &mut SayBook) {
    for byte in 0..=255u8 {
        let tens = i64::from(byte.wrapping_sub(b'0'));
        let around: [(&[u8], &[u8]); 5] = [(b"", b""), (b"", b"1"), (b"1", b"1"), (b"1", b""), (b"1.0", b"1")];
        let answers: [Option<i64>; 5] = match byte {
            b'0'..=b'9' => [Some(tens), Some(10 * tens + 1), Some(101 + 10 * tens), Some(10 + tens), Some(1)],
            b'+' => [None, Some(1), None, None, None],
            b'-' => [None, Some(-1), None, None, None],
            b'.' => [None, None, Some(1), None, None],
            b'E' | b'e' => [None, None, None, None, Some(10)],
            _ => [None; 5],
        };
        for (at, ((front, back), answer)) in around.into_iter().zip(answers).enumerate() {
            let group = format!("byte {byte} in place {at}");
            let text = [front, &[byte], back].concat();
            match answer {
                Some(units) => book.add(&group, &text, 0, FINE, units),
                None => book.add(&group, &text, 0, Reason::Value.number(), 0),
            }
            book.add(&group, &text, 7, PLACES, 0);
        }
    }
}

/// Texts whose length is small in 16 bits or in 8, and other long ones.
fn long_texts(book: &mut SayBook) {
    book.add("a million ones", &vec![b'1'; 1_000_000], 0, Reason::Value.number(), 0);
    for count in [17, 18, 32, 254, 255, 256, 257, 272, 1_000, 65_535, 65_536, 65_537, 65_539, 65_552] {
        for (group, text) in [
            ("zeros alone", vec![b'0'; count]),
            ("ones alone", vec![b'1'; count]),
            ("minus and zeros", [&b"-"[..], &vec![b'0'; count]].concat()),
            ("a period and zeros", [&b"1."[..], &vec![b'0'; count]].concat()),
            ("an exponent and zeros", [&b"1.0E"[..], &vec![b'0'; count]].concat()),
            ("one and blanks", [&b"1"[..], &vec![b' '; count]].concat()),
            ("blanks and one", [&vec![b' '; count][..], b"1"].concat()),
            ("one and NUL", [&b"1"[..], &vec![0; count]].concat()),
            ("signs alone", vec![b'-'; count]),
            ("periods alone", vec![b'.'; count]),
        ] {
            book.add(group, &text, 0, Reason::Value.number(), 0);
            book.add(group, &text, 7, PLACES, 0);
        }
    }
}

/// Too many decimals are told before anything about the text.
fn places(book: &mut SayBook) {
    for text in ["", "0", "1.5", "-0.5", "1.0E999", "1.0E-999", "1000000000000001", "12345678901234567", ".5", "1 [KM]", "x", "\0"] {
        MANY.iter().for_each(|decimals| book.add("places", text.as_bytes(), *decimals, PLACES, 0));
    }
}
