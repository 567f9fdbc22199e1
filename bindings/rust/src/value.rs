//! The value of an integer.

use crate::{Width, BELOW_ZERO};
use core::fmt;

/// An integer; 0 has no minus.
///
/// ```
/// use sarridok::{integer, Width};
/// let (value, _) = integer(b"-128", 0, Width::I8)?;
/// assert_eq!(i8::try_from(value), Ok(-128));
/// assert_eq!(i64::try_from(value), Ok(-128));
/// assert_eq!(u8::try_from(value).unwrap_err().to_string(), "the value does not fit the type");
/// # Ok::<(), sarridok::Refused>(())
/// ```
#[derive(Clone, Copy, Debug, PartialEq, Eq, Hash)]
#[non_exhaustive]
pub struct Value {
    /// Whether it is below 0.
    pub minus: bool,
    /// The number without its minus.
    pub magnitude: u64,
}

impl Value {
    pub(crate) const fn new(minus: bool, magnitude: u64) -> Value {
        Value { minus, magnitude }
    }

    /// The value and its width, of a magnitude and a code as [`integers`](crate::integers) writes them. `None` where no width has that code, or 0 a minus.
    ///
    /// ```
    /// use sarridok::{Value, Width};
    /// assert_eq!(Value::coded(5, 16 + 1), Some((Value::from(-5), Width::I8)));
    /// assert_eq!(Value::coded(300, 6), Some((Value::from(300), Width::U16)));
    /// assert_eq!((Value::coded(5, 0), Value::coded(0, 16 + 1)), (None, None));
    /// ```
    pub fn coded(magnitude: u64, code: u8) -> Option<(Value, Width)> {
        let minus = BELOW_ZERO <= code;
        let width = Width::try_from(if minus { code - BELOW_ZERO } else { code }).ok()?;
        (!minus || magnitude != 0).then_some((Value::new(minus, magnitude), width))
    }
}

impl fmt::Display for Value {
    fn fmt(&self, f: &mut fmt::Formatter<'_>) -> fmt::Result {
        i128::from(*self).fmt(f)
    }
}

impl From<Value> for i128 {
    fn from(value: Value) -> i128 {
        let magnitude = i128::from(value.magnitude);
        if value.minus {
            -magnitude
        } else {
            magnitude
        }
    }
}

/// A value that does not fit the type that was asked for.
#[derive(Clone, Copy, Debug, PartialEq, Eq, Hash)]
pub struct ValueOutOfRange(());

impl fmt::Display for ValueOutOfRange {
    fn fmt(&self, f: &mut fmt::Formatter<'_>) -> fmt::Result {
        f.write_str("the value does not fit the type")
    }
}

#[cfg(feature = "std")]
impl std::error::Error for ValueOutOfRange {}

/// A value becomes an integer of the machine where it fits, and each integer of at most 64 bits a value.
macro_rules! integers {
    ($($integer:ident)*) => {$(
        impl TryFrom<Value> for $integer {
            type Error = ValueOutOfRange;

            fn try_from(value: Value) -> Result<$integer, ValueOutOfRange> {
                $integer::try_from(i128::from(value)).map_err(|_| ValueOutOfRange(()))
            }
        }

        impl From<$integer> for Value {
            fn from(integer: $integer) -> Value {
                #[allow(unused_comparisons)]
                let minus = integer < 0;
                let magnitude = (integer as i128).unsigned_abs() as u64;
                Value::new(minus, magnitude)
            }
        }
    )*};
}

integers! { i8 i16 i32 i64 isize u8 u16 u32 u64 usize }
