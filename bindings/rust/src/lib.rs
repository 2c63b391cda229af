//! RDA/RPG messages of the WSR-88D weather radar, read and written in memory that the caller lends, by libulm.
//!
//! Every function takes any slice and any number. It gives one answer or one [`Refusal`]; a refused call changes no lent
//! byte. What lies in the caller's buffer is handed over as a part of it, with its lifetime, and is not copied.
//!
//! ```
//! // Sums the codes of a moment over the radials of a recording, where they lie.
//! fn sum(recording: &[u8], name: ulm::Name) -> Result<u64, ulm::Refusal> {
//!     let mut total = 0;
//!     for frame in ulm::frames(recording) {
//!         let frame = frame?;
//!         if frame.kind != ulm::Kind::Data || ulm::header(frame.body)?.message_type != 31 {
//!             continue;
//!         }
//!         let gates = ulm::gates(&frame.body[ulm::HEADER_SIZE..], name)?;
//!         total += gates.codes().map(u64::from).sum::<u64>();
//!     }
//!     Ok(total)
//! }
//! assert_eq!(sum(&[], ulm::DREF), Ok(0));
//! assert_eq!(sum(&[0; 11], ulm::DREF), Err(ulm::Refusal::FRAME_CUT_OFF));
//! ```

#![warn(missing_docs)]

mod clutter;
mod frame;
mod radial;
pub mod raw;
mod refusal;

pub use clutter::{
    censor, compare_maps, map, map_code, request, write_censor, write_request, Censor, Comparison, Difference, Map,
    Region, COMPARISON_ROOM,
};
pub use frame::{
    frame, frames, header, runs_room, salvage, set, write, Frame, Frames, Header, Kind, Message, Run, Salvaged, Set,
    HEADER_SIZE,
};
pub use radial::{
    block, gate, gates, radial, value, Block, Constant, Gate, Gates, Moment, Name, Radial, DPHI, DREF, DRHO, DSW, DVEL,
    DZDR, RELV, RRAD, RVOL,
};
pub use refusal::Refusal;

/// The part of a slice that an answer names by its start and size.
fn part(slice: &[u8], start: u64, size: u64) -> &[u8] {
    &slice[start as usize..][..size as usize]
}
