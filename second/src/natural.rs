//! Whole numbers of any size, for weighing: what they need and no more.

use std::cmp::Ordering;

/// A whole number from 0 up, as digits of base 2^32, the lowest first and the highest never 0.
#[derive(Clone, Debug, PartialEq, Eq)]
pub struct Natural(Vec<u32>);

impl Natural {
    /// Digits as they come from sums and products; high zeros go.
    fn trimmed(mut digits: Vec<u32>) -> Natural {
        while digits.last() == Some(&0) {
            digits.pop();
        }
        Natural(digits)
    }

    /// The number that decimal digits say, each of them a value from 0 to 9.
    pub fn of_decimals(digits: &[u8]) -> Natural {
        digits.iter().fold(Natural(Vec::new()), |number, digit| number.times_plus(10, u32::from(*digit)))
    }

    pub fn power_of_ten(exponent: usize) -> Natural {
        let nines = (0..exponent / 9).fold(Natural::from(1), |power, _| power.times_plus(1_000_000_000, 0));
        (0..exponent % 9).fold(nines, |power, _| power.times_plus(10, 0))
    }

    /// A small product and sum; a product of two digits with two more digits added has no more than 64 bits.
    fn times_plus(mut self, factor: u32, more: u32) -> Natural {
        let mut carry = u64::from(more);
        for digit in &mut self.0 {
            let sum = u64::from(*digit) * u64::from(factor) + carry;
            *digit = sum as u32;
            carry = sum >> 32;
        }
        self.0.push(carry as u32);
        Natural::trimmed(self.0)
    }

    pub fn twice(&self) -> Natural {
        self.clone().times_plus(2, 0)
    }

    pub fn times(&self, other: &Natural) -> Natural {
        let mut product = vec![0u32; self.0.len() + other.0.len()];
        for (at, digit) in self.0.iter().enumerate() {
            let mut carry = 0;
            for (place, factor) in product[at..].iter_mut().zip(other.0.iter().chain([&0])) {
                let sum = u64::from(*digit) * u64::from(*factor) + u64::from(*place) + carry;
                *place = sum as u32;
                carry = sum >> 32;
            }
        }
        Natural::trimmed(product)
    }

    /// How far two numbers lie apart.
    pub fn apart(&self, other: &Natural) -> Natural {
        let (great, small) = if self < other { (other, self) } else { (self, other) };
        let mut borrow = 0;
        let mut digits = great.0.clone();
        for (digit, less) in digits.iter_mut().zip(small.0.iter().chain(std::iter::repeat(&0))) {
            let lent = (1 << 32) + u64::from(*digit) - u64::from(*less) - borrow;
            *digit = lent as u32;
            borrow = 1 - (lent >> 32);
        }
        Natural::trimmed(digits)
    }
}

impl From<u64> for Natural {
    fn from(number: u64) -> Natural {
        Natural::trimmed(vec![number as u32, (number >> 32) as u32])
    }
}

/// The longer one is the greater one; else the highest digit that differs decides.
impl Ord for Natural {
    fn cmp(&self, other: &Natural) -> Ordering {
        let lengths = self.0.len().cmp(&other.0.len());
        lengths.then_with(|| self.0.iter().rev().cmp(other.0.iter().rev()))
    }
}

impl PartialOrd for Natural {
    fn partial_cmp(&self, other: &Natural) -> Option<Ordering> {
        Some(self.cmp(other))
    }
}

#[cfg(test)]
mod tests {
    use super::*;

    fn decimal(text: &str) -> Natural {
        Natural::of_decimals(&text.bytes().map(|byte| byte - b'0').collect::<Vec<_>>())
    }

    #[test]
    fn decimals_are_read() {
        assert_eq!(decimal(""), Natural::from(0));
        assert_eq!(decimal("000"), Natural::from(0));
        assert_eq!(decimal("0018446744073709551615"), Natural::from(u64::MAX));
        assert_eq!(decimal("18446744073709551616"), Natural(vec![0, 0, 1]));
        assert_eq!(decimal("4294967296"), Natural(vec![0, 1]));
    }

    #[test]
    fn powers_of_ten_have_so_many_zeros() {
        for exponent in [0, 1, 8, 9, 10, 17, 18, 19, 27, 100, 999, 1_020] {
            assert_eq!(Natural::power_of_ten(exponent), decimal(&format!("1{}", "0".repeat(exponent))), "{exponent}");
        }
    }

    #[test]
    fn products_and_distances_are_right() {
        let nines = |count: usize| "9".repeat(count);
        // 99 times 99 is 9801, and so on.
        for count in [1, 2, 9, 10, 20, 50] {
            let square = format!("{}8{}1", nines(count - 1), "0".repeat(count - 1));
            assert_eq!(decimal(&nines(count)).times(&decimal(&nines(count))), decimal(&square), "{count}");
            assert_eq!(Natural::power_of_ten(count).apart(&Natural::from(1)), decimal(&nines(count)), "{count}");
            assert_eq!(Natural::from(1).apart(&Natural::power_of_ten(count)), decimal(&nines(count)), "{count}");
        }
        let top = Natural(vec![u32::MAX; 3]);
        assert_eq!(top.times(&top), Natural(vec![1, 0, 0, u32::MAX - 1, u32::MAX, u32::MAX]));
        assert_eq!(top.twice(), Natural(vec![u32::MAX - 1, u32::MAX, u32::MAX, 1]));
        assert_eq!(top.times(&Natural::from(0)), Natural::from(0));
        assert_eq!(top.apart(&top), Natural::from(0));
    }

    #[test]
    fn numbers_compare_by_their_size() {
        let line = ["0", "1", "4294967295", "4294967296", "4294967297", "8589934592", "18446744073709551615", "18446744073709551616"];
        line.windows(2).for_each(|pair| assert!(decimal(pair[0]) < decimal(pair[1]), "{pair:?}"));
    }
}
