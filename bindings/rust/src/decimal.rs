//! Decimals: sign, digits and power, without rounding.

use crate::text::Text;
use std::fmt;

/// How large a decimal is.
#[derive(Clone, Debug, PartialEq, Eq)]
pub(crate) enum Size {
    Finite(Text, i64),
    Infinite,
    Nan,
}

/// A float of a header: its sign, its significant digits and a power of ten, without any rounding. A program makes one by
/// [`Decimal::finite`], or of an `f64`.
///
/// Two decimals are equal where their records are: `1.50` and `15E-1` are, zero and minus zero are not, and nan is equal to
/// itself.
#[derive(Clone, Debug, PartialEq, Eq)]
pub struct Decimal {
    negative: bool,
    size: Size,
}

impl Decimal {
    pub(crate) fn new(negative: bool, size: Size) -> Self {
        Decimal { negative, size }
    }

    /// The decimal of a sign, digits, and the power of ten of the last of them. Zeros at either end of the digits are left out, and
    /// those at the right end are counted in the power. None where a character is no digit, or the power leaves 64 bits.
    ///
    /// ```
    /// use widrekas::Decimal;
    /// let decimal = Decimal::finite(true, "0150", -2).unwrap();
    /// assert_eq!((decimal.digits(), decimal.power(), decimal.to_f64()), (&b"15"[..], -1, -1.5));
    /// assert_eq!(Decimal::finite(false, "000", 7), Decimal::finite(false, "", 0));
    /// assert_eq!(Decimal::finite(false, "1.5", 0), None);
    /// ```
    pub fn finite(negative: bool, digits: &str, power: i64) -> Option<Decimal> {
        if !digits.bytes().all(|byte| byte.is_ascii_digit()) {
            return None;
        }
        let front = digits.trim_end_matches('0');
        let significant = front.trim_start_matches('0');
        let power = match significant {
            "" => 0,
            _ => power.checked_add(i64::try_from(digits.len() - front.len()).ok()?)?,
        };
        Some(Decimal::new(negative, Size::Finite(Text::from(significant), power)))
    }

    /// Whether a minus stands before it; zero, infinity and nan keep it too.
    pub fn is_negative(&self) -> bool {
        self.negative
    }

    /// The significant digits, with no zero at either end; none for zero, infinity and nan.
    pub fn digits(&self) -> &[u8] {
        match &self.size {
            Size::Finite(digits, _) => digits.as_bytes(),
            Size::Infinite | Size::Nan => b"",
        }
    }

    /// The power of ten of the last digit; 0 for zero, infinity and nan.
    pub fn power(&self) -> i64 {
        match self.size {
            Size::Finite(_, power) => power,
            Size::Infinite | Size::Nan => 0,
        }
    }

    /// Whether it is an infinity.
    pub fn is_infinite(&self) -> bool {
        self.size == Size::Infinite
    }

    /// Whether it is not a number.
    pub fn is_nan(&self) -> bool {
        self.size == Size::Nan
    }

    /// The nearest 64-bit float, ties to even: what fitsrs holds.
    pub fn to_f64(&self) -> f64 {
        let size = match &self.size {
            // The standard library rounds a text of any length correctly.
            Size::Finite(..) => self.unsigned().parse().unwrap_or(f64::NAN),
            Size::Infinite => f64::INFINITY,
            Size::Nan => f64::NAN,
        };
        if self.negative {
            -size
        } else {
            size
        }
    }

    fn unsigned(&self) -> String {
        match &self.size {
            Size::Finite(digits, power) if !digits.as_bytes().is_empty() => format!("{digits}e{power}"),
            Size::Finite(..) => "0e0".to_string(),
            Size::Infinite => "inf".to_string(),
            Size::Nan => "nan".to_string(),
        }
    }
}

/// The shortest decimal that reads back as the same float, by the standard library; infinities and nans become those decimals.
impl From<f64> for Decimal {
    fn from(float: f64) -> Decimal {
        let minus = float.is_sign_negative();
        let shown = format!("{:e}", float.abs());
        let finite = shown.split_once('e').and_then(|(digits, power)| {
            let (whole, fraction) = digits.split_once('.').unwrap_or((digits, ""));
            let power = power.parse::<i64>().ok()? - fraction.len() as i64;
            Decimal::finite(minus, &[whole, fraction].concat(), power)
        });
        finite.unwrap_or_else(|| Decimal::new(minus, if float.is_nan() { Size::Nan } else { Size::Infinite }))
    }
}

/// As the program `cards` prints it: a minus, the digits, e and the power; or 0e0, inf, nan.
impl fmt::Display for Decimal {
    fn fmt(&self, f: &mut fmt::Formatter<'_>) -> fmt::Result {
        let minus = if self.negative { "-" } else { "" };
        write!(f, "{minus}{}", self.unsigned())
    }
}
