//! An answer taken apart: below 2^63 it is accepted, else 2^63 + (number + 256 * reason) * 2^32 + place.

use crate::{EscapeReason, Refusal, Refused};

/// The two numbers of an accepted answer, 31 and 32 bits wide.
#[derive(Debug)]
pub struct Pair {
    pub high: u32,
    pub low: u32,
}

impl Pair {
    /// The second number, where it is a place or a count.
    pub fn size(&self) -> usize {
        self.low as usize
    }
}

pub fn taken_apart(answer: u64) -> Result<Pair, Refused> {
    let high = (answer >> 32) as u32 & 0x7FFF_FFFF;
    let low = answer as u32;
    if answer >> 63 == 0 {
        return Ok(Pair { high, low });
    }
    let [number, reason, ..] = high.to_le_bytes();
    Err(refused_of(number, reason, low))
}

/// A refusal of its three numbers.
pub fn refused_of(number: u8, reason: u8, place: u32) -> Refused {
    Refused {
        refusal: Refusal::try_from(number).unwrap_or(Refusal::Unknown(number)),
        place: place as usize,
        reason: EscapeReason::try_from(reason).ok(),
    }
}

#[cfg(test)]
mod tests {
    use super::*;
    use std::string::ToString;

    #[test]
    fn every_refusal_is_got_back() {
        for number in 0..=u8::MAX {
            let answer = (1 << 63) + (u64::from(number) << 32) + 65_536;
            let refused = taken_apart(answer).expect_err("the top bit refuses");
            assert_eq!((refused.number(), refused.place, refused.reason), (number, 65_536, None));
            assert_eq!(Refusal::try_from(number).is_ok(), Refusal::ALL.contains(&refused.refusal));
        }
    }

    #[test]
    fn every_reason_is_got_back() {
        for number in 0..=u8::MAX {
            let answer = (1 << 63) + ((13 + 256 * u64::from(number)) << 32) + 65_536;
            let refused = taken_apart(answer).expect_err("the top bit refuses");
            assert_eq!((refused.refusal, refused.place), (Refusal::InvalidEscape, 65_536));
            assert_eq!(refused.reason, EscapeReason::try_from(number).ok());
        }
    }

    #[test]
    fn an_unknown_refusal_says_so() {
        let refused = taken_apart((1 << 63) + (200 << 32)).expect_err("the top bit refuses");
        assert_eq!(refused.to_string(), "refused 200 at 0: no refusal that this version knows");
        let refused = taken_apart((1 << 63) + ((13 + 256 * 200) << 32)).expect_err("the top bit refuses");
        assert_eq!(refused.to_string(), "refused 13 at 0: the escape is not valid");
    }

    #[test]
    fn both_numbers_are_got_back() {
        let pair = taken_apart((7 << 32) + 9).expect("the top bit is 0");
        assert_eq!((pair.high, pair.size()), (7, 9));
    }
}
