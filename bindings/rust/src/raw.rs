//! The library's functions and structs as `ulm.h` declares them. Use the safe wrapper.

#![allow(missing_docs)]

#[repr(C)]
#[derive(Clone, Copy)]
pub struct FrameAnswer {
    pub refusal: u32,
    pub found: u32,
    pub kind: u32,
    pub second: u32,
    pub start: u64,
    pub size: u64,
    pub next: u64,
}

#[repr(C)]
#[derive(Clone, Copy)]
pub struct HeaderAnswer {
    pub refusal: u32,
    pub size: u32,
    pub channel: u32,
    pub message_type: u32,
    pub sequence: u32,
    pub date: u32,
    pub ms: u32,
    pub segments: u32,
    pub number: u32,
}

/// The members of a header's answer, then the length.
#[repr(C)]
#[derive(Clone, Copy)]
pub struct SetAnswer {
    pub header: HeaderAnswer,
    pub length: u64,
}

#[repr(C)]
#[derive(Clone, Copy)]
pub struct SalvageAnswer {
    pub refusal: u32,
    pub kept: u64,
    pub length: u64,
    pub runs: u64,
}

#[repr(C)]
#[derive(Clone, Copy)]
pub struct WrittenAnswer {
    pub refusal: u32,
    pub length: u64,
}

#[repr(C)]
#[derive(Clone, Copy)]
pub struct RadialAnswer {
    pub refusal: u32,
    pub station: u32,
    pub time: u32,
    pub date: u32,
    pub azimuth_number: u32,
    pub azimuth: u32,
    pub radial_length: u32,
    pub spacing: u32,
    pub status: u32,
    pub elevation_number: u32,
    pub sector: u32,
    pub elevation: u32,
    pub blanking: u32,
    pub indexing: u32,
    pub blocks: u32,
}

#[repr(C)]
#[derive(Clone, Copy)]
pub struct BlockAnswer {
    pub refusal: u32,
    pub found: u32,
    pub name: u32,
    pub reserved: u32,
    pub gates: u32,
    pub first: u32,
    pub interval: u32,
    pub overlay: u32,
    pub noise: u32,
    pub flags: u32,
    pub word: u32,
    pub scale: u32,
    pub offset: u32,
    pub start: u64,
    pub size: u64,
}

#[repr(C)]
#[derive(Clone, Copy)]
pub struct GatesAnswer {
    pub refusal: u32,
    pub gates: u32,
    pub word: u32,
    pub scale: u32,
    pub offset: u32,
    pub first: u32,
    pub interval: u32,
    pub start: u64,
    pub size: u64,
}

#[repr(C)]
#[derive(Clone, Copy)]
pub struct GateAnswer {
    pub refusal: u32,
    pub kind: u32,
    pub value: f32,
}

#[repr(C)]
#[derive(Clone, Copy)]
pub struct RequestAnswer {
    pub refusal: u32,
    pub code: u32,
}

#[repr(C)]
#[derive(Clone, Copy)]
pub struct CensorAnswer {
    pub refusal: u32,
    pub count: u32,
    pub regions: [u16; 150],
}

#[repr(C)]
#[derive(Clone, Copy)]
pub struct MapAnswer {
    pub refusal: u32,
    pub date: u32,
    pub minutes: u32,
    pub elevations: u32,
}

#[repr(C)]
#[derive(Clone, Copy)]
pub struct MapCodeAnswer {
    pub refusal: u32,
    pub code: u32,
}

#[repr(C)]
#[derive(Clone, Copy)]
pub struct ComparisonAnswer {
    pub refusal: u32,
    pub old_elevations: u32,
    pub new_elevations: u32,
    pub differences: u32,
}

extern "C" {
    pub fn ulm_frame(buf: *const u8, len: usize, place: usize) -> FrameAnswer;
    pub fn ulm_header(msg: *const u8, len: usize) -> HeaderAnswer;
    pub fn ulm_set(buf: *const u8, len: usize, out: *mut u8, out_len: usize) -> SetAnswer;
    pub fn ulm_salvage(
        buf: *const u8,
        len: usize,
        out: *mut u8,
        out_len: usize,
        runs: *mut u64,
        n: usize,
    ) -> SalvageAnswer;
    pub fn ulm_write(
        channel: u8,
        message_type: u8,
        sequence: u16,
        date: u16,
        ms: u32,
        body: *const u8,
        len: usize,
        out: *mut u8,
        out_len: usize,
    ) -> WrittenAnswer;
    pub fn ulm_radial(body: *const u8, len: usize) -> RadialAnswer;
    pub fn ulm_block(body: *const u8, len: usize, block: u32) -> BlockAnswer;
    pub fn ulm_gates(body: *const u8, len: usize, name: u32) -> GatesAnswer;
    pub fn ulm_gate(body: *const u8, len: usize, name: u32, gate: u64) -> GateAnswer;
    pub fn ulm_value(code: u16, scale: u32, offset: u32) -> GateAnswer;
    pub fn ulm_request(body: *const u8, len: usize) -> RequestAnswer;
    pub fn ulm_write_request(list: *const u16, n: usize, out: *mut u8, out_len: usize) -> WrittenAnswer;
    pub fn ulm_censor(body: *const u8, len: usize) -> CensorAnswer;
    pub fn ulm_write_censor(list: *const u16, n: usize, out: *mut u8, out_len: usize) -> WrittenAnswer;
    pub fn ulm_map(body: *const u8, len: usize) -> MapAnswer;
    pub fn ulm_map_code(body: *const u8, len: usize, elevation: u64, azimuth: u64, kilometre: u64) -> MapCodeAnswer;
    pub fn ulm_compare_maps(
        old_map: *const u8,
        old_len: usize,
        new_map: *const u8,
        new_len: usize,
        out: *mut u16,
        n: usize,
    ) -> ComparisonAnswer;
}
