//! Exact fractions of 128-bit whole numbers, always in lowest terms with a positive denominator.
//! A sum or product that does not fit is given up as `None`; a comparison never overflows.

use std::cmp::Ordering;

/// `num / den` in lowest terms, `den` positive.
#[derive(Clone, Copy, Debug, PartialEq, Eq)]
pub struct Fraction {
    pub num: i128,
    pub den: i128,
}

impl Fraction {
    /// The fraction num/den; `None` if den is not positive.
    pub fn new(num: i128, den: i128) -> Option<Fraction> {
        if den <= 0 {
            return None;
        }
        let divisor = common_divisor(num.unsigned_abs(), den.unsigned_abs()) as i128;
        Some(Fraction {
            num: num / divisor,
            den: den / divisor,
        })
    }

    /// A whole number as a fraction.
    pub fn whole(value: u64) -> Fraction {
        Fraction {
            num: i128::from(value),
            den: 1,
        }
    }

    /// The sum of both.
    pub fn plus(self, other: Fraction) -> Option<Fraction> {
        let divisor = common_divisor(self.den.unsigned_abs(), other.den.unsigned_abs()) as i128;
        let left = self.num.checked_mul(other.den / divisor)?;
        let right = other.num.checked_mul(self.den / divisor)?;
        let den = self.den.checked_mul(other.den / divisor)?;
        Fraction::new(left.checked_add(right)?, den)
    }

    /// The difference of both.
    pub fn minus(self, other: Fraction) -> Option<Fraction> {
        self.plus(Fraction {
            num: other.num.checked_neg()?,
            den: other.den,
        })
    }

    /// The fraction times a whole number.
    pub fn times(self, factor: u64) -> Option<Fraction> {
        let divisor = common_divisor(u128::from(factor), self.den.unsigned_abs()) as i128;
        let num = self.num.checked_mul(i128::from(factor) / divisor)?;
        Fraction::new(num, self.den / divisor)
    }

    /// The later (greater) of both.
    pub fn later(self, other: Fraction) -> Fraction {
        if self < other {
            other
        } else {
            self
        }
    }
}

impl PartialOrd for Fraction {
    fn partial_cmp(&self, other: &Fraction) -> Option<Ordering> {
        Some(self.cmp(other))
    }
}

impl Ord for Fraction {
    /// Compares whole parts; where these are equal, the turned-over remainders the other way round.
    fn cmp(&self, other: &Fraction) -> Ordering {
        let (mut a, mut b, mut c, mut d) = (self.num, self.den, other.num, other.den);
        loop {
            let order = a.div_euclid(b).cmp(&c.div_euclid(d));
            let (left, right) = (a.rem_euclid(b), c.rem_euclid(d));
            if order != Ordering::Equal || left == 0 || right == 0 {
                return order.then(left.cmp(&right));
            }
            (a, b, c, d) = (d, right, b, left);
        }
    }
}

/// The greatest common divisor; `b` is not 0. Found by halving and taking away.
fn common_divisor(mut a: u128, mut b: u128) -> u128 {
    if a == 0 {
        return b;
    }
    let twos = (a | b).trailing_zeros();
    a >>= a.trailing_zeros();
    while b != 0 {
        b >>= b.trailing_zeros();
        if a > b {
            std::mem::swap(&mut a, &mut b);
        }
        b -= a;
    }
    a << twos
}

#[cfg(test)]
mod tests {
    use super::*;

    fn fraction(num: i128, den: i128) -> Fraction {
        Fraction::new(num, den).unwrap()
    }

    #[test]
    fn arithmetic_is_exact() {
        assert_eq!(fraction(6, 4), fraction(3, 2));
        assert_eq!(fraction(0, 7), Fraction::whole(0));
        assert_eq!(fraction(1, 6).plus(fraction(1, 10)), Some(fraction(4, 15)));
        assert_eq!(fraction(1, 6).minus(fraction(1, 2)), Some(fraction(-1, 3)));
        assert_eq!(fraction(5, 12).times(8), Some(fraction(10, 3)));
        assert_eq!(fraction(i128::MAX, 1).plus(fraction(1, 1)), None);
        assert_eq!(Fraction::new(1, 0), None);
    }

    #[test]
    fn order_is_that_of_cross_products() {
        for a in -12..=12 {
            for b in 1..=9 {
                for c in -12..=12 {
                    for d in 1..=9 {
                        let order = (a * d).cmp(&(c * b));
                        assert_eq!(fraction(a, b).cmp(&fraction(c, d)), order);
                    }
                }
            }
        }
        let big = i128::MAX;
        assert!(fraction(big - 1, big) > fraction(big - 2, big - 1));
    }
}
