//! Exact decimals, and days.

use std::fmt;
use std::str::FromStr;

/// An exact decimal: a mantissa, and how many of its digits are behind the point. `3.60` has the
/// mantissa 360 and 2 decimals.
///
/// Two are equal if they have the same decimals: `3.6` and `3.60` are not. So what was read is
/// written again as it was.
///
/// ```
/// use tilugba::Decimal;
///
/// let amount: Decimal = "-3.60".parse().unwrap();
/// assert_eq!(amount, Decimal { mantissa: -360, decimals: 2 });
/// assert_eq!(amount.to_string(), "-3.60");
/// ```
#[derive(Clone, Copy, Debug, PartialEq, Eq, Hash)]
pub struct Decimal {
    /// All digits, with the sign.
    pub mantissa: i128,
    /// How many of them are behind the point.
    pub decimals: u8,
}

/// A text is no number, or its digits do not fit.
#[derive(Clone, Copy, Debug, PartialEq, Eq)]
pub struct NoNumber;

impl fmt::Display for NoNumber {
    fn fmt(&self, f: &mut fmt::Formatter<'_>) -> fmt::Result {
        f.write_str("the text is no decimal number of at most 38 digits")
    }
}

impl std::error::Error for NoNumber {}

fn is_digits(text: &str) -> bool {
    !text.is_empty() && text.bytes().all(|byte| byte.is_ascii_digit())
}

impl FromStr for Decimal {
    type Err = NoNumber;

    fn from_str(text: &str) -> Result<Self, NoNumber> {
        let digits = text.strip_prefix('-').unwrap_or(text);
        let (whole, part) = digits.split_once('.').map_or((digits, ""), |it| it);
        if !is_digits(whole) || (digits.contains('.') && !is_digits(part)) {
            return Err(NoNumber);
        }
        let sign = if digits.len() < text.len() { "-" } else { "" };
        let mantissa = format!("{sign}{whole}{part}")
            .parse()
            .map_err(|_| NoNumber)?;
        let decimals = u8::try_from(part.len()).map_err(|_| NoNumber)?;
        Ok(Decimal { mantissa, decimals })
    }
}

impl fmt::Display for Decimal {
    fn fmt(&self, f: &mut fmt::Formatter<'_>) -> fmt::Result {
        let decimals = usize::from(self.decimals);
        let digits = format!(
            "{:0>width$}",
            self.mantissa.unsigned_abs(),
            width = decimals + 1
        );
        let (whole, part) = digits.split_at(digits.len() - decimals);
        let sign = if self.mantissa < 0 { "-" } else { "" };
        let point = if part.is_empty() { "" } else { "." };
        write!(f, "{sign}{whole}{point}{part}")
    }
}

/// A day as the program writes it: a date if the portfolio has an origin, and a number otherwise.
#[derive(Clone, Copy, Debug, PartialEq, Eq, Hash, PartialOrd, Ord)]
pub enum Day {
    /// Days from day 0 on.
    Number(i64),
    /// A date.
    Date {
        /// Four digits.
        year: u16,
        /// From 1 to 12.
        month: u8,
        /// From 1 to 31.
        day: u8,
    },
}

/// A text is no day.
#[derive(Clone, Copy, Debug, PartialEq, Eq)]
pub struct NoDay;

impl fmt::Display for NoDay {
    fn fmt(&self, f: &mut fmt::Formatter<'_>) -> fmt::Result {
        f.write_str("the text is no day: neither a number nor YYYY-MM-DD")
    }
}

impl std::error::Error for NoDay {}

impl FromStr for Day {
    type Err = NoDay;

    fn from_str(text: &str) -> Result<Self, NoDay> {
        let number = text.strip_prefix('-').unwrap_or(text);
        if is_digits(number) {
            return text.parse().map(Day::Number).map_err(|_| NoDay);
        }
        let mut parts = text.split('-');
        let mut next = |width: usize| {
            parts
                .next()
                .filter(|it| it.len() == width && is_digits(it))
                .ok_or(NoDay)
        };
        let (year, month, day) = (next(4)?, next(2)?, next(2)?);
        if parts.next().is_some() {
            return Err(NoDay);
        }
        Ok(Day::Date {
            year: year.parse().map_err(|_| NoDay)?,
            month: month.parse().map_err(|_| NoDay)?,
            day: day.parse().map_err(|_| NoDay)?,
        })
    }
}

impl fmt::Display for Day {
    fn fmt(&self, f: &mut fmt::Formatter<'_>) -> fmt::Result {
        match self {
            Day::Number(number) => write!(f, "{number}"),
            Day::Date { year, month, day } => write!(f, "{year:04}-{month:02}-{day:02}"),
        }
    }
}
