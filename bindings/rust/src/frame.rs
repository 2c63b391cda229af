//! Session frames, message headers, sets of segments, damaged recordings, and messages written.

use crate::{part, raw, Refusal};

/// The kind of a session frame.
#[derive(Clone, Copy, Debug, PartialEq, Eq, Hash)]
#[repr(u32)]
pub enum Kind {
    /// 0
    Login = 0,
    /// 1
    LoginAcknowledgement = 1,
    /// 2
    Data = 2,
    /// 3
    DataAcknowledgement = 3,
    /// 4
    KeepAlive = 4,
}

impl Kind {
    fn of(number: u32) -> Kind {
        match number {
            0 => Kind::Login,
            1 => Kind::LoginAcknowledgement,
            2 => Kind::Data,
            3 => Kind::DataAcknowledgement,
            4 => Kind::KeepAlive,
            _ => unreachable!("a frame of kind {number} is refused"),
        }
    }
}

/// A session frame in a buffer.
#[derive(Clone, Copy, Debug, PartialEq, Eq)]
pub struct Frame<'a> {
    /// Its kind.
    pub kind: Kind,
    /// The second number, as stored.
    pub second: u32,
    /// Where the body begins in the buffer.
    pub start: usize,
    /// The body, where it lies.
    pub body: &'a [u8],
    /// The place after the frame.
    pub next: usize,
}

/// Reads the session frame at a place of a buffer; `None` at its end, which is a place equal to the length.
///
/// The body, of at most 1,048,576 bytes, isn't looked into. Refused as 1, 2, 3.
///
/// ```
/// assert_eq!(ulm::frame(&[], 0), Ok(None));
/// assert_eq!(ulm::frame(&[], 1), Err(ulm::Refusal::FRAME_CUT_OFF));
/// ```
pub fn frame(buffer: &[u8], place: usize) -> Result<Option<Frame<'_>>, Refusal> {
    // SAFETY: the pointer and the length are a slice's.
    let r = unsafe { raw::ulm_frame(buffer.as_ptr(), buffer.len(), place) };
    Refusal::check(r.refusal)?;
    if r.found == 0 {
        return Ok(None);
    }
    Ok(Some(Frame {
        kind: Kind::of(r.kind),
        second: r.second,
        start: r.start as usize,
        body: part(buffer, r.start, r.size),
        next: r.next as usize,
    }))
}

/// The frames of a buffer, in order from its start; a refusal, if there is one, comes last.
pub fn frames(buffer: &[u8]) -> Frames<'_> {
    Frames { buffer, place: Some(0) }
}

/// See [`frames`].
#[derive(Clone, Debug)]
pub struct Frames<'a> {
    buffer: &'a [u8],
    place: Option<usize>,
}

impl<'a> Iterator for Frames<'a> {
    type Item = Result<Frame<'a>, Refusal>;

    fn next(&mut self) -> Option<Self::Item> {
        let read = frame(self.buffer, self.place?).transpose();
        self.place = match &read {
            Some(Ok(frame)) => Some(frame.next),
            _ => None,
        };
        read
    }
}

/// The bytes of a message header; a message's data begins after them.
pub const HEADER_SIZE: usize = 16;

/// The header of a message segment.
#[derive(Clone, Copy, Debug, PartialEq, Eq)]
pub struct Header {
    /// Size in halfwords of 2 bytes, with the header's [`HEADER_SIZE`] bytes: half of the message's, in both forms.
    pub size: u32,
    /// Channel, as stored.
    pub channel: u8,
    /// Type: 1 to 13, 15, 18 or 31.
    pub message_type: u8,
    /// Sequence number, as stored.
    pub sequence: u16,
    /// Date, 1 up.
    pub date: u16,
    /// Milliseconds of the day, at most 86,399,999.
    pub ms: u32,
    /// Number of segments N, 1 to 128; 1 in the long form.
    pub segments: u16,
    /// Segment number, 1 to N; where N is 1 it is 1, whatever was stored.
    pub number: u16,
}

impl Header {
    fn of(r: raw::HeaderAnswer) -> Result<Header, Refusal> {
        Refusal::check(r.refusal)?;
        Ok(Header {
            size: r.size,
            channel: r.channel as u8,
            message_type: r.message_type as u8,
            sequence: r.sequence as u16,
            date: r.date as u16,
            ms: r.ms,
            segments: r.segments as u16,
            number: r.number as u16,
        })
    }
}

/// Reads the header of a message segment: the first [`HEADER_SIZE`] bytes of a data frame's whole body.
///
/// A stored size of 65,535 says that the header has the long form, which type 31 alone may have: the fields of N and of
/// the segment number together hold the message's length in bytes, 131,070 to 1,048,576. Refused as 4 to 8.
pub fn header(message: &[u8]) -> Result<Header, Refusal> {
    // SAFETY: the pointer and the length are a slice's.
    Header::of(unsafe { raw::ulm_header(message.as_ptr(), message.len()) })
}

/// A set of segments joined.
#[derive(Clone, Copy, Debug, PartialEq, Eq)]
pub struct Set<'o> {
    /// Segment 1's own header.
    pub header: Header,
    /// The data of segment 1, then 2, and so on, in the output that was lent.
    pub body: &'o [u8],
}

/// Joins a set of segments, a buffer of frames and nothing else, in any order, into an output.
///
/// In any other order of the same whole frames, with an output of the same length, an accepted set has the same header
/// and body, 12 stays 12 and 13 stays 13; a refusal by one of 2 to 11 stays one, but may be another of them.
///
/// Refused as 1 to 13; output past the body stays as it was.
pub fn set<'o>(buffer: &[u8], out: &'o mut [u8]) -> Result<Set<'o>, Refusal> {
    // SAFETY: the pointers and the lengths are slices', and a `&mut` overlaps nothing.
    let r = unsafe { raw::ulm_set(buffer.as_ptr(), buffer.len(), out.as_mut_ptr(), out.len()) };
    let header = Header::of(r.header)?;
    Ok(Set { header, body: &out[..r.length as usize] })
}

/// Room for the runs of any recording of so many bytes, in numbers: two for each run, and between two runs stands a
/// frame of 28 bytes or more.
pub const fn runs_room(length: usize) -> usize {
    2 * length.div_ceil(29)
}

/// A damaged recording salvaged.
#[derive(Clone, Copy, Debug, PartialEq, Eq)]
pub struct Salvaged<'o> {
    /// How many frames were kept.
    pub kept: usize,
    /// The kept frames, whole and in order, in the output that was lent.
    pub frames: &'o [u8],
    /// Two numbers for each run, in the list that was lent.
    pub numbers: &'o [u64],
}

/// An unbroken run of skipped bytes.
#[derive(Clone, Copy, Debug, PartialEq, Eq)]
pub struct Run {
    /// Where it begins in the recording.
    pub place: usize,
    /// How many bytes.
    pub length: usize,
}

impl<'o> Salvaged<'o> {
    /// The runs, in the order of the recording.
    pub fn runs(&self) -> impl ExactSizeIterator<Item = Run> + 'o {
        self.numbers.chunks_exact(2).map(|r| Run { place: r[0] as usize, length: r[1] as usize })
    }
}

/// Salvages a damaged recording: walks it from its start, copies each data frame whose header passes whole to an output
/// and goes on after it, and skips one byte where none stands. Runs of skipped bytes are listed.
///
/// An output as long as the recording and a list of [`runs_room`] numbers are always enough. Refused as 13 if either is
/// too small. Past what is written both stay as they were.
///
/// ```
/// let request = ulm::Message { channel: 0, message_type: 9, sequence: 5, date: 16_000, ms: 1_000, body: &[0, 129] };
/// let mut out = [0; 30];
/// let frame = ulm::write(&request, &mut out)?;
/// let damaged = [frame, &[7, 7], frame, &frame[..20]].concat();
/// let (mut out, mut runs) = (vec![0; damaged.len()], vec![0; ulm::runs_room(damaged.len())]);
/// let salvaged = ulm::salvage(&damaged, &mut out, &mut runs)?;
/// assert_eq!((salvaged.kept, salvaged.frames), (2, &frame.repeat(2)[..]));
/// assert!(salvaged.runs().map(|run| (run.place, run.length)).eq([(30, 2), (62, 20)]));
/// # Ok::<(), ulm::Refusal>(())
/// ```
pub fn salvage<'o>(buffer: &[u8], out: &'o mut [u8], runs: &'o mut [u64]) -> Result<Salvaged<'o>, Refusal> {
    // SAFETY: the pointers and the lengths are slices', and a `&mut` overlaps nothing.
    let r = unsafe {
        raw::ulm_salvage(buffer.as_ptr(), buffer.len(), out.as_mut_ptr(), out.len(), runs.as_mut_ptr(), runs.len())
    };
    Refusal::check(r.refusal)?;
    Ok(Salvaged { kept: r.kept as usize, frames: &out[..r.length as usize], numbers: &runs[..2 * r.runs as usize] })
}

/// A message to write.
#[derive(Clone, Copy, Debug, PartialEq, Eq)]
pub struct Message<'a> {
    /// Channel.
    pub channel: u8,
    /// Type: 1 to 13, 15, 18 or 31.
    pub message_type: u8,
    /// Sequence number.
    pub sequence: u16,
    /// Date, 1 up.
    pub date: u16,
    /// Milliseconds of the day, at most 86,399,999.
    pub ms: u32,
    /// The body: an even number of bytes, at most 307,200, or 1,048,560 for type 31.
    pub body: &'a [u8],
}

/// Writes a message as data frames; gives the part of the output that was written.
///
/// The body is cut into segments of 2,400 bytes; type 31 always makes one frame, with the long form of the header (see
/// [`header`]) where the short one cannot hold the length. Refused as 6, 8, 25, 26, 13.
///
/// ```
/// let request = ulm::Message { channel: 0, message_type: 9, sequence: 5, date: 16_000, ms: 1_000, body: &[0, 129] };
/// let mut out = [0; 30];
/// let written = ulm::write(&request, &mut out)?;
/// let mut body = [0; 2];
/// assert_eq!(ulm::set(written, &mut body)?.body, request.body);
/// # Ok::<(), ulm::Refusal>(())
/// ```
pub fn write<'o>(message: &Message<'_>, out: &'o mut [u8]) -> Result<&'o [u8], Refusal> {
    // SAFETY: the pointers and the lengths are slices', and a `&mut` overlaps nothing.
    let r = unsafe {
        raw::ulm_write(
            message.channel,
            message.message_type,
            message.sequence,
            message.date,
            message.ms,
            message.body.as_ptr(),
            message.body.len(),
            out.as_mut_ptr(),
            out.len(),
        )
    };
    Refusal::check(r.refusal)?;
    Ok(&out[..r.length as usize])
}
