//! Requests (message 9), censor zones (message 8) and the filter map (message 15), one and two compared.

use crate::{raw, Refusal};

/// Reads the body of a request: 129, 130, 132, 136, 144 or 160.
///
/// Refused as 23, 24.
pub fn request(body: &[u8]) -> Result<u16, Refusal> {
    // SAFETY: the pointer and the length are a slice's.
    let r = unsafe { raw::ulm_request(body.as_ptr(), body.len()) };
    Refusal::check(r.refusal)?;
    Ok(r.code as u16)
}

/// Writes the body of a request from a list of exactly one number; gives the part of the output that was written.
///
/// Refused as 23, 24, 13.
pub fn write_request<'o>(list: &[u16], out: &'o mut [u8]) -> Result<&'o [u8], Refusal> {
    // SAFETY: the pointers and the lengths are slices', and a `&mut` overlaps nothing.
    let r = unsafe { raw::ulm_write_request(list.as_ptr(), list.len(), out.as_mut_ptr(), out.len()) };
    Refusal::check(r.refusal)?;
    Ok(&out[..r.length as usize])
}

/// The censor zones of message 8.
#[derive(Clone, Copy, Debug, PartialEq, Eq)]
pub struct Censor {
    count: u32,
    numbers: [u16; 150],
}

/// A censor region, as stored.
#[derive(Clone, Copy, Debug, PartialEq, Eq)]
pub struct Region {
    /// Start range, 0 to 511.
    pub start_range: u16,
    /// Stop range, 0 to 511.
    pub stop_range: u16,
    /// Start azimuth, 0 to 360.
    pub start_azimuth: u16,
    /// Stop azimuth, 0 to 360.
    pub stop_azimuth: u16,
    /// Elevation segment, 1 to 5.
    pub elevation: u16,
    /// Code, 0 to 2.
    pub code: u16,
}

impl Censor {
    /// The regions, 0 to 25.
    pub fn regions(&self) -> impl ExactSizeIterator<Item = Region> + '_ {
        self.numbers.chunks_exact(6).take(self.count as usize).map(|r| Region {
            start_range: r[0],
            stop_range: r[1],
            start_azimuth: r[2],
            stop_azimuth: r[3],
            elevation: r[4],
            code: r[5],
        })
    }

    /// Six numbers for each region, and 0 past the last one.
    pub fn numbers(&self) -> &[u16; 150] {
        &self.numbers
    }
}

/// Reads the body of a censor zones message.
///
/// Refused as 23, 24.
pub fn censor(body: &[u8]) -> Result<Censor, Refusal> {
    // SAFETY: the pointer and the length are a slice's.
    let r = unsafe { raw::ulm_censor(body.as_ptr(), body.len()) };
    Refusal::check(r.refusal)?;
    Ok(Censor { count: r.count, numbers: r.regions })
}

/// Writes the body of a censor zones message from its numbers, the count first; gives the part that was written.
///
/// Refused as [`censor`], then 13.
pub fn write_censor<'o>(list: &[u16], out: &'o mut [u8]) -> Result<&'o [u8], Refusal> {
    // SAFETY: the pointers and the lengths are slices', and a `&mut` overlaps nothing.
    let r = unsafe { raw::ulm_write_censor(list.as_ptr(), list.len(), out.as_mut_ptr(), out.len()) };
    Refusal::check(r.refusal)?;
    Ok(&out[..r.length as usize])
}

/// The head of a filter map of message 15.
#[derive(Clone, Copy, Debug, PartialEq, Eq)]
pub struct Map {
    /// Date, 1 up.
    pub date: u16,
    /// Minutes, 0 to 1,440.
    pub minutes: u16,
    /// Elevation segments, 1 to 5.
    pub elevations: u16,
}

/// Checks the body of a filter map.
///
/// Refused as 23, 24.
pub fn map(body: &[u8]) -> Result<Map, Refusal> {
    // SAFETY: the pointer and the length are a slice's.
    let r = unsafe { raw::ulm_map(body.as_ptr(), body.len()) };
    Refusal::check(r.refusal)?;
    Ok(Map { date: r.date as u16, minutes: r.minutes as u16, elevations: r.elevations as u16 })
}

/// Gives the code of a filter map at an elevation segment (from 1), an azimuth (0 to 359) and a kilometre (0 to 511).
///
/// Refused as [`map`], then 21.
pub fn map_code(body: &[u8], elevation: u64, azimuth: u64, kilometre: u64) -> Result<u16, Refusal> {
    // SAFETY: the pointer and the length are a slice's.
    let r = unsafe { raw::ulm_map_code(body.as_ptr(), body.len(), elevation, azimuth, kilometre) };
    Refusal::check(r.refusal)?;
    Ok(r.code as u16)
}

/// Room for the differences of any two filter maps: 39 for each of 1,800 azimuths, six halfwords each.
pub const COMPARISON_ROOM: usize = 421_200;

/// Two filter maps compared.
#[derive(Clone, Copy, Debug, PartialEq, Eq)]
pub struct Comparison<'o> {
    /// Elevation segments of the old map, 1 to 5.
    pub old_elevations: u16,
    /// Elevation segments of the new map, 1 to 5.
    pub new_elevations: u16,
    /// Six numbers for each difference, in the output that was lent.
    pub numbers: &'o [u16],
}

/// A longest run of kilometres of one azimuth on which both codes stay the same and differ.
#[derive(Clone, Copy, Debug, PartialEq, Eq)]
pub struct Difference {
    /// Elevation segment, 1 to 5.
    pub elevation: u16,
    /// Azimuth, 0 to 359.
    pub azimuth: u16,
    /// First kilometre, 0 to 511.
    pub first: u16,
    /// Last kilometre, 0 to 511.
    pub last: u16,
    /// Code of the old map, 0 to 2.
    pub old: u16,
    /// Code of the new map, 0 to 2.
    pub new: u16,
}

impl<'o> Comparison<'o> {
    /// The differences, by elevation segment, azimuth and kilometre.
    pub fn differences(&self) -> impl ExactSizeIterator<Item = Difference> + 'o {
        self.numbers.chunks_exact(6).map(|d| Difference {
            elevation: d[0],
            azimuth: d[1],
            first: d[2],
            last: d[3],
            old: d[4],
            new: d[5],
        })
    }
}

/// Compares two filter maps and lists what differs in an output; [`COMPARISON_ROOM`] halfwords are always enough.
///
/// Elevation segments that only one of the maps has aren't compared, nor are date and minutes. Refused as [`map`] for
/// the old map, then for the new one, then 13; output past the list stays as it was.
///
/// ```
/// // One elevation segment, one zone to each azimuth.
/// fn map(code: u16) -> Vec<u8> {
///     let numbers = [vec![1, 0, 1], [1, code, 511].repeat(360)].concat();
///     numbers.into_iter().flat_map(u16::to_be_bytes).collect()
/// }
/// let mut out = vec![0; ulm::COMPARISON_ROOM];
/// let comparison = ulm::compare_maps(&map(0), &map(2), &mut out)?;
/// assert!(comparison.differences().map(|d| d.azimuth).eq(0..360));
/// assert!(comparison.differences().all(|d| (d.first, d.last, d.old, d.new) == (0, 511, 0, 2)));
/// # Ok::<(), ulm::Refusal>(())
/// ```
pub fn compare_maps<'o>(old: &[u8], new: &[u8], out: &'o mut [u16]) -> Result<Comparison<'o>, Refusal> {
    // SAFETY: the pointers and the lengths are slices', and a `&mut` overlaps nothing.
    let r =
        unsafe { raw::ulm_compare_maps(old.as_ptr(), old.len(), new.as_ptr(), new.len(), out.as_mut_ptr(), out.len()) };
    Refusal::check(r.refusal)?;
    Ok(Comparison {
        old_elevations: r.old_elevations as u16,
        new_elevations: r.new_elevations as u16,
        numbers: &out[..6 * r.differences as usize],
    })
}
