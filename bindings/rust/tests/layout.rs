//! Sizes and offsets of the declarations, as `ulm.h` has them.

use std::mem::{offset_of, size_of};
use ulm::raw::*;

macro_rules! layout {
    ($type:ident, $size:literal, $($member:ident $at:literal),*) => {
        assert_eq!(size_of::<$type>(), $size, stringify!($type));
        $(assert_eq!(offset_of!($type, $member), $at, stringify!($type.$member));)*
    };
}

#[test]
fn declarations_have_the_headers_layout() {
    layout!(FrameAnswer, 40, refusal 0, found 4, kind 8, second 12, start 16, size 24, next 32);
    layout!(HeaderAnswer, 36, refusal 0, size 4, channel 8, message_type 12, sequence 16, date 20, ms 24, segments 28,
        number 32);
    layout!(SetAnswer, 48, header 0, length 40);
    layout!(SalvageAnswer, 32, refusal 0, kept 8, length 16, runs 24);
    layout!(WrittenAnswer, 16, refusal 0, length 8);
    layout!(RadialAnswer, 60, refusal 0, station 4, time 8, date 12, azimuth_number 16, azimuth 20, radial_length 24,
        spacing 28, status 32, elevation_number 36, sector 40, elevation 44, blanking 48, indexing 52, blocks 56);
    layout!(BlockAnswer, 72, refusal 0, found 4, name 8, reserved 12, gates 16, first 20, interval 24, overlay 28,
        noise 32, flags 36, word 40, scale 44, offset 48, start 56, size 64);
    layout!(GatesAnswer, 48, refusal 0, gates 4, word 8, scale 12, offset 16, first 20, interval 24, start 32, size 40);
    layout!(GateAnswer, 12, refusal 0, kind 4, value 8);
    layout!(RequestAnswer, 8, refusal 0, code 4);
    layout!(CensorAnswer, 308, refusal 0, count 4, regions 8);
    layout!(MapAnswer, 16, refusal 0, date 4, minutes 8, elevations 12);
    layout!(MapCodeAnswer, 8, refusal 0, code 4);
    layout!(ComparisonAnswer, 16, refusal 0, old_elevations 4, new_elevations 8, differences 12);
}
