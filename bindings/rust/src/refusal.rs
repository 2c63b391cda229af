use std::error::Error;
use std::fmt;
use std::num::NonZeroU32;

/// Why a call was refused: one number, and its words.
///
/// A refused call has changed no lent byte.
#[derive(Clone, Copy, PartialEq, Eq, Hash, PartialOrd, Ord)]
pub struct Refusal(NonZeroU32);

macro_rules! refusals {
    ($($number:literal $name:ident $words:literal;)*) => {
        impl Refusal {
            $(#[doc = concat!($number, ": ", $words, ".")]
            pub const $name: Refusal = Refusal(match NonZeroU32::new($number) {
                Some(number) => number,
                None => panic!(),
            });)*

            /// Every refusal there is, in the order of their numbers.
            pub const ALL: &'static [Refusal] = &[$(Refusal::$name),*];

            /// What the number means.
            pub fn words(self) -> &'static str {
                match self.number() {
                    $($number => $words,)*
                    _ => "a number that this crate doesn't know",
                }
            }
        }
    };
}

refusals! {
    1 FRAME_CUT_OFF "fewer than 12 bytes left for a frame, or its body runs past the end";
    2 SESSION_KIND "session kind above 4";
    3 SESSION_BODY "session body above 1,048,576 bytes";
    4 MESSAGE_SHORT "message under 16 bytes";
    5 SIZE "size under 8 halfwords or not half of the message's bytes, or, at size 65,535 of type 31, a length in the segment fields that is odd, not 131,070 to 1,048,576 or not the message's";
    6 TYPE "message type that is not permitted";
    7 SEGMENT "segment count not 1 to 128, segment number not 1 to the count where that is above 1, a radial in more than one segment, or a size above 1,208 halfwords of another type, 65,535 included";
    8 DATE_OR_TIME "date 0, or time of day past 86,399,999 milliseconds";
    9 NOT_DATA "a frame of the set carries no data";
    10 DISAGREES "a frame disagrees with the set's first";
    11 ALREADY_SEEN "a segment number occurs twice";
    12 ABSENT "a segment is missing, or the set is empty";
    13 OUTPUT_SMALL "the output has too little room";
    14 RADIAL_SHORT "radial body under 68 bytes";
    15 COMPRESSION "the radial is compressed";
    16 RADIAL_LENGTH "radial length under 68 or above the body's";
    17 BLOCK_COUNT "block count not 4 to 9";
    18 POINTER "a pointer too early, or too near the end of the radial for the head of a block";
    19 NAME "a block's name wrong, unknown or repeated";
    20 BLOCK "a block shorter than its least, too many gates, a word size other than 8 or 16, or a block past the end of the radial";
    21 ASKED_FOR "no such moment, gate, elevation, azimuth or kilometre";
    22 SCALE_OR_OFFSET "scale not finite or not above 0, or offset not finite";
    23 LENGTH "body or list of message 8, 9 or 15 too short or too long";
    24 FIELD "a field of message 8, 9 or 15 out of range";
    25 ODD_BODY "body to write has an odd length";
    26 LONG_BODY "body to write above 307,200 bytes, or above 1,048,560 for a radial";
}

impl Refusal {
    /// The number.
    pub fn number(self) -> u32 {
        self.0.get()
    }

    /// The refusal that an answer's first member holds, unless it is 0.
    pub(crate) fn check(number: u32) -> Result<(), Refusal> {
        match NonZeroU32::new(number) {
            Some(number) => Err(Refusal(number)),
            None => Ok(()),
        }
    }
}

impl fmt::Display for Refusal {
    fn fmt(&self, f: &mut fmt::Formatter<'_>) -> fmt::Result {
        write!(f, "refusal {}: {}", self.number(), self.words())
    }
}

impl fmt::Debug for Refusal {
    fn fmt(&self, f: &mut fmt::Formatter<'_>) -> fmt::Result {
        write!(f, "Refusal({}: {})", self.number(), self.words())
    }
}

impl Error for Refusal {}
