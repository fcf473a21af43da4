//! Decimal numbers as .NET has them.

use std::fmt::{self, Display, Formatter};

/// A decimal number, as .NET's `System.Decimal`: a whole number of 96 bits, divided by a power of ten.
///
/// It is shown as .NET shows it, with every place behind the point, and without a sign if it is zero.
///
/// ```
/// use xnb::Decimal;
///
/// let price = Decimal { negative: true, digits: 1990, places: 2 };
/// assert_eq!(price.to_string(), "-19.90");
/// ```
#[derive(Clone, Copy, Debug, PartialEq, Eq, Hash)]
pub struct Decimal {
    /// Whether its sign bit is set; that of a zero may be.
    pub negative: bool,
    /// All its digits as one whole number, below 2 to the 96.
    pub digits: u128,
    /// How many of them are behind the point, 0 to 28.
    pub places: u8,
}

impl Decimal {
    /// The number in its four words, as .NET's `Decimal.GetBits` gives them; bits 0 to 15 and 24 to 30 of the fourth say
    /// nothing.
    pub fn of_words([low, middle, high, flags]: [u32; 4]) -> Decimal {
        Decimal {
            negative: flags >> 31 == 1,
            digits: u128::from(high) << 64 | u128::from(middle) << 32 | u128::from(low),
            places: (flags >> 16) as u8,
        }
    }
}

impl Display for Decimal {
    fn fmt(&self, out: &mut Formatter) -> fmt::Result {
        let places = usize::from(self.places);
        let digits = format!("{:0width$}", self.digits, width = places + 1);
        let (whole, fraction) = digits.split_at(digits.len() - places);
        if self.negative && self.digits > 0 {
            write!(out, "-")?;
        }
        write!(out, "{whole}")?;
        match places {
            0 => Ok(()),
            _ => write!(out, ".{fraction}"),
        }
    }
}

/// As its text, since few readers of numbers keep so many digits.
#[cfg(feature = "serde")]
impl serde::Serialize for Decimal {
    fn serialize<S: serde::Serializer>(&self, out: S) -> Result<S::Ok, S::Error> {
        out.collect_str(self)
    }
}

#[cfg(test)]
mod tests {
    use super::*;

    #[test]
    fn words_make_a_number() {
        let shown = |words| Decimal::of_words(words).to_string();
        assert_eq!(
            shown([u32::MAX, u32::MAX, u32::MAX, 0]),
            "79228162514264337593543950335"
        );
        assert_eq!(shown([1, 0, 0, 28 << 16]), "0.0000000000000000000000000001");
        assert_eq!(shown([100, 0, 0, 1 << 31 | 2 << 16]), "-1.00");
        assert_eq!(shown([0, 0, 0, 1 << 31 | 2 << 16]), "0.00");
    }
}
