//! A reading of a real channel in four precisions (docs/DATA.md), and many of them in one
//! hash (docs/BENCH.md).

use std::cmp::Ordering;
use std::ops::RangeInclusive;

use crate::hash::{next_number, Hash};

/// The readings that there are.
const RANGE: RangeInclusive<i64> = -(1 << 47)..=(1 << 47) - 1;
/// A reading counts units of 2 to the power of minus this.
const UNIT_BITS: u32 = 32;
/// The last bits of a reading that fixed point 12.20 has no place for.
const BITS_BEHIND_12_20: u32 = 12;

/// A form of IEEE 754 numbers: sign, exponent and fraction, in this order.
struct Form {
    exponent_bits: u32,
    fraction_bits: u32,
}

const SINGLE: Form = Form {
    exponent_bits: 8,
    fraction_bits: 23,
};
const DOUBLE: Form = Form {
    exponent_bits: 11,
    fraction_bits: 52,
};

impl Form {
    /// The number nearest to v units, ties to the one whose last bit is 0.
    ///
    /// The readings are far from the ends of both forms: exponents have room, and no number
    /// is a subnormal one.
    fn nearest(&self, v: i64) -> u64 {
        let magnitude = v.unsigned_abs();
        let Some(highest) = magnitude.checked_ilog2() else {
            return 0;
        };
        let significand = moved(magnitude, highest, self.fraction_bits);
        // The significand's highest bit adds 1 to the exponent, and so does the carry of a
        // significand that was rounded up to the next power of 2.
        let exponent = self.bias() + u64::from(highest) - u64::from(UNIT_BITS) - 1;
        let sign = u64::from(v < 0) << (self.exponent_bits + self.fraction_bits);
        sign + (exponent << self.fraction_bits) + significand
    }

    /// What is added to an exponent when it is written.
    fn bias(&self) -> u64 {
        (1 << (self.exponent_bits - 1)) - 1
    }
}

/// The number with its bit `from` moved to the place `to`.
fn moved(number: u64, from: u32, to: u32) -> u64 {
    if from <= to {
        number << (to - from)
    } else {
        without_last_bits(number, from - to)
    }
}

/// The number divided by 2 to the power of `bits`, to the nearest, ties to even.
fn without_last_bits(number: u64, bits: u32) -> u64 {
    let down = number >> bits;
    let rest = number - (down << bits);
    let up = match (2 * rest).cmp(&(1 << bits)) {
        Ordering::Less => 0,
        Ordering::Equal => down % 2,
        Ordering::Greater => 1,
    };
    down + up
}

/// A precision in which a real number is sent.
#[derive(Debug, Clone, Copy, PartialEq, Eq)]
pub enum Precision {
    /// Precision 0, IEEE 754 single.
    Single,
    /// Precision 1, fixed point 12.20.
    Fixed12_20,
    /// Precision 2, fixed point 16.32.
    Fixed16_32,
    /// Precision 3, IEEE 754 double.
    Double,
}

impl Precision {
    pub fn of_format_digit(digit: u16) -> Option<Precision> {
        match digit {
            0 => Some(Precision::Single),
            1 => Some(Precision::Fixed12_20),
            2 => Some(Precision::Fixed16_32),
            3 => Some(Precision::Double),
            _ => None,
        }
    }

    /// The bytes of one real number.
    pub fn bytes(self) -> usize {
        match self {
            Precision::Single | Precision::Fixed12_20 => 4,
            Precision::Fixed16_32 => 6,
            Precision::Double => 8,
        }
    }
}

/// A reading: a number from −2^47 to 2^47 − 1, in units of 2^-32.
#[derive(Debug, Clone, Copy, PartialEq, Eq)]
pub struct Reading(i64);

impl Reading {
    /// The reading, or nothing if it is out of range.
    pub fn new(v: i64) -> Option<Reading> {
        RANGE.contains(&v).then_some(Reading(v))
    }

    /// The reading next to a number: the number itself, or the end of the range beyond
    /// which it lies.
    pub fn clamped(v: i64) -> Reading {
        Reading(v.clamp(*RANGE.start(), *RANGE.end()))
    }

    /// The reading that the high 48 bits of a number give, 0 being the lowest.
    fn of_high_bits(number: u64) -> Reading {
        Reading((number >> 16) as i64 + RANGE.start())
    }

    /// Precision 0, IEEE 754 single.
    pub fn single(self) -> [u8; 4] {
        let [_, _, _, _, bytes @ ..] = SINGLE.nearest(self.0).to_be_bytes();
        bytes
    }

    /// Precision 1, fixed point 12.20, rounded down and held to its range.
    pub fn fixed_12_20(self) -> [u8; 4] {
        let (least, most) = (i64::from(i32::MIN), i64::from(i32::MAX));
        let held = (self.0 >> BITS_BEHIND_12_20).clamp(least, most);
        let [_, _, _, _, bytes @ ..] = held.to_be_bytes();
        bytes
    }

    /// Precision 2, fixed point 16.32.
    pub fn fixed_16_32(self) -> [u8; 6] {
        let [_, _, bytes @ ..] = self.0.to_be_bytes();
        bytes
    }

    /// Precision 3, IEEE 754 double.
    pub fn double(self) -> [u8; 8] {
        DOUBLE.nearest(self.0).to_be_bytes()
    }
}

/// The hash of so many readings that follow from a seed, in all four precisions.
pub fn hash_of_many(seed: u64, count: u64) -> u64 {
    let mut number = seed;
    let mut hash = Hash::START;
    for _ in 0..count {
        number = next_number(number);
        let reading = Reading::of_high_bits(number);
        hash.add(&reading.single());
        hash.add(&reading.fixed_12_20());
        hash.add(&reading.fixed_16_32());
        hash.add(&reading.double());
    }
    hash.value()
}

#[cfg(test)]
mod tests {
    use super::*;

    /// The four precisions as numbers.
    fn encoded(v: i64) -> Option<(u32, u32, u64, u64)> {
        let reading = Reading::new(v)?;
        let mut wide = [0; 8];
        wide[2..].copy_from_slice(&reading.fixed_16_32());
        Some((
            u32::from_be_bytes(reading.single()),
            u32::from_be_bytes(reading.fixed_12_20()),
            u64::from_be_bytes(wide),
            u64::from_be_bytes(reading.double()),
        ))
    }

    /// Compares both floating forms with the arithmetic of the machine. All numbers below
    /// 2^53 are doubles, and so are their quotients by a power of 2: the single is rounded
    /// once.
    fn check(v: i64) {
        let double = v as f64 / 4294967296.0;
        let fixed = v.div_euclid(4096).clamp(-(1 << 31), (1 << 31) - 1) as u32;
        let wide = v as u64 % (1 << 48);
        let expected = ((double as f32).to_bits(), fixed, wide, double.to_bits());
        assert_eq!(encoded(v), Some(expected), "{v}");
    }

    #[test]
    fn examples() {
        let one = (0x3F800000, 0x00100000, 0x000100000000, 0x3FF0000000000000);
        assert_eq!(encoded(1 << 32), Some(one));
        let least_negative = (0xAF800000, 0xFFFFFFFF, 0xFFFFFFFFFFFF, 0xBDF0000000000000);
        assert_eq!(encoded(-1), Some(least_negative));
        let most = (0x47000000, 0x7FFFFFFF, 0x7FFFFFFFFFFF, 0x40DFFFFFFFFFFFC0);
        assert_eq!(encoded((1 << 47) - 1), Some(most));
        assert_eq!(encoded(0), Some((0, 0, 0, 0)));
    }

    #[test]
    fn range() {
        for v in [-(1 << 47), (1 << 47) - 1] {
            assert!(Reading::new(v).is_some());
        }
        for v in [-(1 << 47) - 1, 1 << 47, i64::MIN, i64::MAX] {
            assert_eq!(Reading::new(v), None);
        }
    }

    #[test]
    fn clamping() {
        for (v, expected) in [
            (i64::MIN, -(1 << 47)),
            (-(1 << 47) - 1, -(1 << 47)),
            (-(1 << 47), -(1 << 47)),
            (0, 0),
            ((1 << 47) - 1, (1 << 47) - 1),
            (1 << 47, (1 << 47) - 1),
            (i64::MAX, (1 << 47) - 1),
        ] {
            assert_eq!(Reading::clamped(v), Reading(expected));
        }
    }

    #[test]
    fn sizes_of_precisions() {
        let precisions: Vec<_> = (0..16).filter_map(Precision::of_format_digit).collect();
        let sizes: Vec<_> = precisions
            .iter()
            .map(|precision| precision.bytes())
            .collect();
        assert_eq!(sizes, [4, 4, 6, 8]);
        let reading = Reading(1);
        let written = [
            reading.single().len(),
            reading.fixed_12_20().len(),
            reading.fixed_16_32().len(),
            reading.double().len(),
        ];
        assert_eq!(sizes, written);
    }

    #[test]
    fn ends_of_fixed_12_20() {
        for (v, expected) in [
            (-(1 << 47), 0x80000000),
            (-(1 << 43) - 1, 0x80000000),
            (-(1 << 43), 0x80000000),
            (-(1 << 43) + 4096, 0x80000001),
            (-4097, 0xFFFFFFFE),
            (-4096, 0xFFFFFFFF),
            (4095, 0),
            (4096, 1),
            ((1 << 43) - 4097, 0x7FFFFFFE),
            ((1 << 43) - 1, 0x7FFFFFFF),
            (1 << 43, 0x7FFFFFFF),
        ] {
            assert_eq!(encoded(v).map(|encoded| encoded.1), Some(expected), "{v}");
        }
    }

    #[test]
    fn ties_go_to_the_last_bit_0() {
        let tie = |single: i64| 2 * single + 1;
        // 2^24 + 1 lies between 2^24 and 2^24 + 2, and 2^24 + 3 between that and 2^24 + 4.
        assert_eq!(SINGLE.nearest(tie(1 << 23)), SINGLE.nearest(1 << 24));
        let above = SINGLE.nearest((1 << 24) + 4);
        assert_eq!(SINGLE.nearest(tie((1 << 23) + 1)), above);
        // The highest significand is odd, so its tie carries to the next power of 2.
        let carried = SINGLE.nearest(tie((1 << 24) - 1));
        assert_eq!(carried, SINGLE.nearest(1 << 25));
    }

    #[test]
    fn small_readings_and_both_ends_agree_with_the_machine() {
        for v in -100_000..=100_000 {
            check(v);
        }
        for distance in 0..100_000 {
            check(RANGE.start() + distance);
            check(RANGE.end() - distance);
        }
    }

    #[test]
    fn readings_about_ties_agree_with_the_machine() {
        for bits in 1..=23 {
            for significand in [1 << 23, (1 << 23) + 1, 0xAAAAAA, 0xFFFFFE, 0xFFFFFF_i64] {
                let tie = (2 * significand + 1) << (bits - 1);
                for v in tie - 3..=tie + 3 {
                    check(v);
                    check(-v);
                }
            }
        }
    }

    #[test]
    fn many_readings_agree_with_the_machine() {
        let mut number = 11;
        for _ in 0..1_000_000 {
            number = next_number(number);
            let Reading(v) = Reading::of_high_bits(number);
            check(v);
            check(v >> (number % 47));
        }
    }

    #[test]
    fn high_bits_reach_both_ends() {
        assert_eq!(Reading::of_high_bits(0xFFFF), Reading(-(1 << 47)));
        assert_eq!(Reading::of_high_bits(1 << 63), Reading(0));
        assert_eq!(Reading::of_high_bits(u64::MAX), Reading((1 << 47) - 1));
    }
}
