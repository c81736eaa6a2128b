//! Refusals: their numbers, what they mean and where they point.

use std::error::Error;
use std::fmt;

use crate::raw::REFUSED;

/// What a refusal's place counts.
#[derive(Clone, Copy, Debug, PartialEq, Eq)]
enum Place {
    /// Nothing: the place is always 0.
    Nothing,
    /// A post whose own ratio it is; 0 is that of post 0 or the house ratio.
    Ratio,
    Segment,
    Post,
    /// An offset in the record.
    Byte,
    /// A leg of a drawn run, 0 or 1, or both together, 2.
    Leg,
}

/// Makes the enum of reasons from one table, so that a number, its name, its
/// meaning in words and its place stand together.
macro_rules! reasons {
    ($($number:literal $name:ident $place:ident $words:literal)*) => {
        /// Why something was refused. Its number is `reason.number()`.
        #[derive(Clone, Copy, Debug, PartialEq, Eq, PartialOrd, Ord, Hash)]
        #[repr(u32)]
        pub enum Reason {
            $(#[doc = concat!("Number ", $number, ": ", $words, ".")] $name = $number,)*
        }

        impl Reason {
            /// Every reason, in the order of the numbers.
            pub const ALL: &'static [Reason] = &[$(Reason::$name),*];

            /// The reason with this number.
            pub fn from_number(number: u32) -> Option<Reason> {
                match number {
                    $($number => Some(Reason::$name),)*
                    _ => None,
                }
            }

            /// What it means, in words.
            pub fn words(self) -> &'static str {
                match self {
                    $(Reason::$name => $words,)*
                }
            }

            fn place(self) -> Place {
                match self {
                    $(Reason::$name => Place::$place,)*
                }
            }
        }
    };
}

reasons! {
    1 PostCount Nothing "the post count is 0 or above 256"
    2 Source Nothing "the source isn't below the post count"
    3 Ratio Ratio "q is 0, or p or q is above 10,000"
    4 SegmentCount Nothing "there are more than 2,048 segments"
    5 SegmentEnd Segment "a segment's end isn't below the post count"
    6 SameEnds Segment "both ends of a segment are the same"
    7 SegmentLength Segment "a segment's length is 0 or above 1,048,575"
    8 ShortList Nothing "a list lent with one entry for each post has fewer entries than posts, or a lent segment list fewer than the record's segments"
    9 NotJoined Post "a post isn't joined to the source"
    10 CutRecord Byte "the record ends before a number, or inside one after at most three of its bytes"
    11 NumberForm Byte "a number isn't in its shortest form, or its fourth group says that more follow"
    12 ExtraBytes Byte "bytes follow after the last segment"
    13 NotFinite Leg "a drawn length isn't finite"
    14 BelowZero Leg "a drawn length is below zero"
    15 Zero Leg "a drawn length is zero, of either sign"
    16 NotSixteenths Leg "no longer given: a drawn length is rounded up to a whole sixteenth"
    17 TooLong Leg "a drawn length rounded up, or both legs together, is above 65,535.9375 mm"
    18 ShortRoom Nothing "the room for the written record is too short"
    19 NoSuchPost Nothing "the post asked about isn't below the post count"
    20 OtherRatio Post "a post's own p or q isn't the house p or q"
    30 SameForm Nothing "the record is already of the form wanted"
}

impl Reason {
    /// The number by which the library gives it.
    pub fn number(self) -> u32 {
        self as u32
    }
}

impl fmt::Display for Reason {
    fn fmt(&self, f: &mut fmt::Formatter<'_>) -> fmt::Result {
        f.write_str(self.words())
    }
}

/// A refusal: nothing was done, and all that was lent is as it was.
#[derive(Clone, Copy, Debug, PartialEq, Eq, Hash)]
pub struct Refusal {
    /// Why.
    pub reason: Reason,
    /// Where: a segment, a post, an offset in the record or a leg, as the reason
    /// demands; or 0.
    pub place: u32,
}

impl Refusal {
    /// The refusal in the lower 63 bits of an answer.
    ///
    /// # Panics
    /// If its number has no reason, which can only be if the library linked is
    /// not the one that this crate was written for.
    fn in_answer(answer: u64) -> Refusal {
        let number = (answer & !REFUSED) >> 32;
        let reason = u32::try_from(number).ok().and_then(Reason::from_number);
        match reason {
            Some(reason) => Refusal {
                reason,
                place: answer as u32,
            },
            None => panic!("the library linked gives the unknown refusal number {number}"),
        }
    }

    /// The line that the program prints for it, without its newline.
    pub fn line(&self) -> String {
        format!("refused {} {}", self.reason.number(), self.place)
    }
}

impl fmt::Display for Refusal {
    fn fmt(&self, f: &mut fmt::Formatter<'_>) -> fmt::Result {
        write!(f, "refusal {}", self.reason.number())?;
        match (self.reason.place(), self.place) {
            (Place::Nothing, _) => Ok(()),
            (Place::Ratio, 0) => write!(f, " at the house ratio or post 0"),
            (Place::Segment, segment) => write!(f, " at segment {segment}"),
            (Place::Ratio | Place::Post, post) => write!(f, " at post {post}"),
            (Place::Byte, byte) => write!(f, " at byte {byte}"),
            (Place::Leg, 2) => write!(f, " at both legs"),
            (Place::Leg, leg) => write!(f, " at leg {leg}"),
        }?;
        write!(f, ": {}", self.reason)
    }
}

impl Error for Refusal {}

/// An answer that is 0 or a refusal.
pub(crate) fn nothing_or_refusal(answer: u64) -> Result<(), Refusal> {
    match answer {
        0 => Ok(()),
        _ => Err(Refusal::in_answer(answer)),
    }
}

/// An answer that is a number or, marked, a refusal.
pub(crate) fn number_or_refusal(answer: u64) -> Result<u64, Refusal> {
    if answer & REFUSED == 0 {
        Ok(answer)
    } else {
        Err(Refusal::in_answer(answer))
    }
}

#[cfg(test)]
mod tests {
    use super::*;

    #[test]
    fn every_reason_has_its_number_and_words() {
        let numbers = (1..=20).chain([30]);
        assert!(numbers.eq(Reason::ALL.iter().map(|reason| reason.number())));
        for &reason in Reason::ALL {
            assert_eq!(Reason::from_number(reason.number()), Some(reason));
        }
        for number in [0, 21, 29, 31] {
            assert_eq!(Reason::from_number(number), None);
        }
        let words: std::collections::HashSet<_> = Reason::ALL.iter().map(|r| r.words()).collect();
        assert_eq!(words.len(), Reason::ALL.len());
    }

    #[test]
    fn refusals_in_words() {
        let words = |reason, place| Refusal { reason, place }.to_string();
        assert_eq!(
            words(Reason::NotJoined, 1),
            "refusal 9 at post 1: a post isn't joined to the source"
        );
        assert_eq!(
            words(Reason::Ratio, 2),
            "refusal 3 at post 2: q is 0, or p or q is above 10,000"
        );
        assert!(words(Reason::Ratio, 0).starts_with("refusal 3 at the house ratio or post 0: "));
        assert_eq!(
            words(Reason::ShortRoom, 0),
            "refusal 18: the room for the written record is too short"
        );
        assert_eq!(
            words(Reason::SameEnds, 7),
            "refusal 6 at segment 7: both ends of a segment are the same"
        );
        assert_eq!(
            words(Reason::OtherRatio, 2),
            "refusal 20 at post 2: a post's own p or q isn't the house p or q"
        );
        assert_eq!(
            words(Reason::SameForm, 0),
            "refusal 30: the record is already of the form wanted"
        );
        assert!(words(Reason::CutRecord, 3).starts_with("refusal 10 at byte 3: "));
        assert!(words(Reason::Zero, 1).starts_with("refusal 15 at leg 1: "));
        assert!(words(Reason::TooLong, 2).starts_with("refusal 17 at both legs: "));
    }

    #[test]
    fn refusals_in_answers() {
        let refusal = Refusal {
            reason: Reason::NotJoined,
            place: 7,
        };
        let answer = 9 << 32 | 7;
        assert_eq!(nothing_or_refusal(0), Ok(()));
        assert_eq!(nothing_or_refusal(answer), Err(refusal));
        assert_eq!(number_or_refusal(0), Ok(0));
        assert_eq!(number_or_refusal(answer), Ok(answer));
        assert_eq!(number_or_refusal(REFUSED | answer), Err(refusal));
        assert_eq!(refusal.line(), "refused 9 7");
    }

    #[test]
    #[should_panic(expected = "the unknown refusal number 21")]
    fn no_other_number_is_taken() {
        let _ = nothing_or_refusal(21 << 32);
    }
}
