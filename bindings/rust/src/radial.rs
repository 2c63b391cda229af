//! The radial of message 31, its blocks, its gates and their values.

use crate::{part, raw, Refusal};

/// The four bytes of a block's name.
pub type Name = [u8; 4];

/// The first constant block.
pub const RVOL: Name = *b"RVOL";
/// The second constant block.
pub const RELV: Name = *b"RELV";
/// The third constant block.
pub const RRAD: Name = *b"RRAD";
/// Reflectivity.
pub const DREF: Name = *b"DREF";
/// Velocity.
pub const DVEL: Name = *b"DVEL";
/// Spectrum width; the name ends in a space.
pub const DSW: Name = *b"DSW ";
/// Differential reflectivity.
pub const DZDR: Name = *b"DZDR";
/// Differential phase.
pub const DPHI: Name = *b"DPHI";
/// Correlation coefficient.
pub const DRHO: Name = *b"DRHO";

/// A radial's header, its values as stored.
#[derive(Clone, Copy, Debug, PartialEq, Eq)]
pub struct Radial {
    /// Station name.
    pub station: [u8; 4],
    /// Collection time.
    pub time: u32,
    /// Date.
    pub date: u16,
    /// Azimuth number.
    pub azimuth_number: u16,
    /// Azimuth angle, the bits of a float.
    pub azimuth: u32,
    /// Radial length in bytes.
    pub radial_length: u16,
    /// Azimuth spacing.
    pub spacing: u8,
    /// Radial status.
    pub status: u8,
    /// Elevation number.
    pub elevation_number: u8,
    /// Cut sector.
    pub sector: u8,
    /// Elevation angle, the bits of a float.
    pub elevation: u32,
    /// Spot blanking.
    pub blanking: u8,
    /// Indexing mode.
    pub indexing: u8,
    /// Block count, 4 to 9.
    pub blocks: u32,
}

/// Checks a radial and gives its header.
///
/// With [`block`] for 1 to `blocks` this is the whole description of the radial. Refused as 14 to 20.
pub fn radial(body: &[u8]) -> Result<Radial, Refusal> {
    // SAFETY: the pointer and the length are a slice's.
    let r = unsafe { raw::ulm_radial(body.as_ptr(), body.len()) };
    Refusal::check(r.refusal)?;
    Ok(Radial {
        station: r.station.to_be_bytes(),
        time: r.time,
        date: r.date as u16,
        azimuth_number: r.azimuth_number as u16,
        azimuth: r.azimuth,
        radial_length: r.radial_length as u16,
        spacing: r.spacing as u8,
        status: r.status as u8,
        elevation_number: r.elevation_number as u8,
        sector: r.sector as u8,
        elevation: r.elevation,
        blanking: r.blanking as u8,
        indexing: r.indexing as u8,
        blocks: r.blocks,
    })
}

/// A block of a radial.
#[derive(Clone, Copy, Debug, PartialEq, Eq)]
pub enum Block<'a> {
    /// One of the first three.
    Constant(Constant<'a>),
    /// Any later one.
    Moment(Moment<'a>),
}

/// A constant block.
#[derive(Clone, Copy, Debug, PartialEq, Eq)]
pub struct Constant<'a> {
    /// RVOL, RELV or RRAD.
    pub name: Name,
    /// Where the block begins in the body.
    pub start: usize,
    /// The whole block, where it lies in the body.
    pub bytes: &'a [u8],
}

/// A moment, its values as stored.
#[derive(Clone, Copy, Debug, PartialEq, Eq)]
pub struct Moment<'a> {
    /// Its name.
    pub name: Name,
    /// Reserved.
    pub reserved: u32,
    /// How many gates, 0 to 1,840.
    pub gates: u16,
    /// First range.
    pub first: u16,
    /// Interval.
    pub interval: u16,
    /// Overlay threshold.
    pub overlay: u16,
    /// Noise threshold.
    pub noise: u16,
    /// Flags.
    pub flags: u8,
    /// Word size in bits, 8 or 16.
    pub word: u8,
    /// Scale, the bits of a float.
    pub scale: u32,
    /// Offset, the bits of a float.
    pub offset: u32,
    /// Where the block begins in the body.
    pub start: usize,
    /// The whole block, where it lies in the body.
    pub bytes: &'a [u8],
}

/// Finds a block of a radial by its place among the pointers, counted from 1; `None` where there is no such block.
///
/// Refused as [`radial`].
pub fn block(body: &[u8], number: u32) -> Result<Option<Block<'_>>, Refusal> {
    // SAFETY: the pointer and the length are a slice's.
    let r = unsafe { raw::ulm_block(body.as_ptr(), body.len(), number) };
    Refusal::check(r.refusal)?;
    if r.found == 0 {
        return Ok(None);
    }
    let name = r.name.to_be_bytes();
    let start = r.start as usize;
    let bytes = part(body, r.start, r.size);
    if number <= 3 {
        return Ok(Some(Block::Constant(Constant { name, start, bytes })));
    }
    Ok(Some(Block::Moment(Moment {
        name,
        reserved: r.reserved,
        gates: r.gates as u16,
        first: r.first as u16,
        interval: r.interval as u16,
        overlay: r.overlay as u16,
        noise: r.noise as u16,
        flags: r.flags as u8,
        word: r.word as u8,
        scale: r.scale,
        offset: r.offset,
        start,
        bytes,
    })))
}

/// The gates of a moment, where they lie in the body.
#[derive(Clone, Copy, Debug, PartialEq, Eq)]
pub struct Gates<'a> {
    /// How many.
    pub count: u16,
    /// Word size in bits, 8 or 16.
    pub word: u8,
    /// Scale, the bits of a float.
    pub scale: u32,
    /// Offset, the bits of a float.
    pub offset: u32,
    /// First range.
    pub first: u16,
    /// Interval.
    pub interval: u16,
    /// Where the gates begin in the body.
    pub start: usize,
    /// One word for each gate, 16 bits big-endian: a part of the body that was lent.
    pub bytes: &'a [u8],
}

impl<'a> Gates<'a> {
    /// The code of each gate.
    pub fn codes(&self) -> impl Iterator<Item = u16> + 'a {
        let wide = usize::from(self.word / 8);
        self.bytes.chunks_exact(wide).map(|word| word.iter().fold(0, |code, byte| code << 8 | u16::from(*byte)))
    }

    /// The value of each gate. A wrong scale or offset is refused as 22 at every gate.
    pub fn values(&self) -> impl Iterator<Item = Result<Gate, Refusal>> + 'a {
        let (scale, offset) = (self.scale, self.offset);
        self.codes().map(move |code| value(code, scale, offset))
    }
}

/// Finds the gates of a moment by its name: a part of the lent body with its lifetime, not a copy.
///
/// Refused as [`radial`], then 21 for a moment that the radial doesn't have.
///
/// The part can't outlive the body:
///
/// ```compile_fail
/// let gates = {
///     let body = vec![0; 68];
///     ulm::gates(&body, ulm::DREF)
/// };
/// assert!(gates.is_err());
/// ```
pub fn gates(body: &[u8], name: Name) -> Result<Gates<'_>, Refusal> {
    // SAFETY: the pointer and the length are a slice's.
    let r = unsafe { raw::ulm_gates(body.as_ptr(), body.len(), u32::from_be_bytes(name)) };
    Refusal::check(r.refusal)?;
    Ok(Gates {
        count: r.gates as u16,
        word: r.word as u8,
        scale: r.scale,
        offset: r.offset,
        first: r.first as u16,
        interval: r.interval as u16,
        start: r.start as usize,
        bytes: part(body, r.start, r.size),
    })
}

/// What a gate holds.
#[derive(Clone, Copy, Debug, PartialEq)]
pub enum Gate {
    /// (code - offset) / scale, for any code from 2.
    Value(f32),
    /// Code 0.
    BelowThreshold,
    /// Code 1.
    RangeFolded,
}

fn gate_of(r: raw::GateAnswer) -> Result<Gate, Refusal> {
    Refusal::check(r.refusal)?;
    Ok(match r.kind {
        0 => Gate::Value(r.value),
        1 => Gate::BelowThreshold,
        _ => Gate::RangeFolded,
    })
}

/// Gives the value of one gate, counted from 0, of a moment.
///
/// Refused as [`radial`], then 21, 22.
pub fn gate(body: &[u8], name: Name, gate: u64) -> Result<Gate, Refusal> {
    // SAFETY: the pointer and the length are a slice's.
    gate_of(unsafe { raw::ulm_gate(body.as_ptr(), body.len(), u32::from_be_bytes(name), gate) })
}

/// Gives the value of a code at a scale and an offset, by their bits: for a caller that walks the gates itself.
///
/// Refused as 22.
///
/// ```
/// let (scale, offset) = (2f32.to_bits(), 66f32.to_bits());
/// assert_eq!(ulm::value(255, scale, offset), Ok(ulm::Gate::Value(94.5)));
/// assert_eq!(ulm::value(0, scale, offset), Ok(ulm::Gate::BelowThreshold));
/// assert_eq!(ulm::value(0, 0, offset), Err(ulm::Refusal::SCALE_OR_OFFSET));
/// ```
pub fn value(code: u16, scale: u32, offset: u32) -> Result<Gate, Refusal> {
    // SAFETY: no memory is lent.
    gate_of(unsafe { raw::ulm_value(code, scale, offset) })
}
