//! Enums whose cases have numbers, and a number that names none of them.

use core::fmt;

/// A number that names no case of an enum.
///
/// ```
/// let unknown = sarridok::Width::try_from(9u32).unwrap_err();
/// assert_eq!((unknown.number(), unknown.to_string()), (9, "9 is the number of no width".to_string()));
/// ```
#[derive(Clone, Copy, Debug, PartialEq, Eq, Hash)]
pub struct UnknownNumber {
    what: &'static str,
    number: u32,
}

impl UnknownNumber {
    pub(crate) const fn new(what: &'static str, number: u32) -> UnknownNumber {
        UnknownNumber { what, number }
    }

    /// The number.
    pub const fn number(&self) -> u32 {
        self.number
    }
}

impl fmt::Display for UnknownNumber {
    fn fmt(&self, f: &mut fmt::Formatter<'_>) -> fmt::Result {
        write!(f, "{} is the number of no {}", self.number, self.what)
    }
}

#[cfg(feature = "std")]
impl std::error::Error for UnknownNumber {}

/// An enum as it stands, with its cases in a list, the number of a case and the case of a number. `what` is its name in a sentence.
macro_rules! numbered {
    ($what:literal, $(#[$about:meta])* pub enum $name:ident { $($(#[$doc:meta])* $case:ident = $number:literal,)* }) => {
        $(#[$about])*
        #[derive(Clone, Copy, Debug, PartialEq, Eq, PartialOrd, Ord, Hash)]
        #[repr(u32)]
        pub enum $name { $($(#[$doc])* $case = $number,)* }

        impl $name {
            /// Every case, in the order of their numbers.
            pub const ALL: &'static [$name] = &[$($name::$case,)*];

            /// Its number.
            pub const fn number(self) -> u32 {
                self as u32
            }
        }

        impl TryFrom<u32> for $name {
            type Error = crate::UnknownNumber;

            fn try_from(number: u32) -> Result<$name, crate::UnknownNumber> {
                match number {
                    $($number => Ok($name::$case),)*
                    _ => Err(crate::UnknownNumber::new($what, number)),
                }
            }
        }

        impl TryFrom<u8> for $name {
            type Error = crate::UnknownNumber;

            fn try_from(number: u8) -> Result<$name, crate::UnknownNumber> {
                $name::try_from(u32::from(number))
            }
        }

        impl From<$name> for u32 {
            fn from(case: $name) -> u32 {
                case.number()
            }
        }
    };
}
pub(crate) use numbered;
