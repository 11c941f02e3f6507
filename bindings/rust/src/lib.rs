//! VVC stills: from compact records (ISO/IEC 23008-12 Amd 2, Annex L) and stored bytes to full records (ISO/IEC 14496-15) and Annex B streams
//! (H.266). The work is done by a static library, `vvcc_c`, whose functions are proved to return what their definitions say on any input.
//! This crate passes slices to it and returns its answers as `Result`s.
//!
//! ```
//! use vvcc::{check_unit, still_stream, stream_units, Refusal, StartCodes};
//!
//! // a still: a compact record of an SPS and a PPS, prefix size 4, and the stored bytes of its picture
//! let compact = b"\x60\x0B\x00\x79\x00\x0D\x02\x33\x80\x00\x02\x22\x4C\x03\x00\x81\x80";
//! let stream = still_stream(compact, &[0x9A], None, StartCodes::Four)?;
//! let units: Vec<&[u8]> = stream_units(&stream).collect::<Result<_, _>>()?;
//! assert_eq!(units.len(), 3);
//! assert_eq!(units[2], [0x00, 0x41, 0x9A]);
//!
//! // before the stream goes to a decoder: the bytes of each unit are checked
//! for unit in &units {
//!     assert!(check_unit(unit)?);
//! }
//!
//! // with short start codes the picture follows 00 00 01 instead of 00 00 00 01
//! let short = still_stream(compact, &[0x9A], None, StartCodes::Short)?;
//! assert_eq!(short.len(), stream.len() - 1);
//! assert_eq!(stream_units(&short).collect::<Result<Vec<_>, _>>()?, units);
//!
//! // one byte short: the refusal says why
//! let refused = still_stream(&compact[..16], &[0x9A], None, StartCodes::Four);
//! assert_eq!(refused, Err(Refusal::Truncated));
//! # Ok::<(), Refusal>(())
//! ```

mod calls;
mod refusal;
mod units;

pub use refusal::Refusal;
pub use units::{check_unit, item_units, stream_units, ItemUnits, StreamUnits};

use calls::{Read, Written};

/// The longest input of a call. A longer one is refused with [`Refusal::InputTooLong`].
pub const LONGEST_INPUT: usize = 1 << 30;

/// The longest compact record: 33 units of 255 bytes.
const LONGEST_COMPACT: usize = 1 + 33 * 256;

/// What a file states of a still in addition to its compact record.
#[derive(Clone, Copy, Debug, PartialEq, Eq)]
pub struct Picture {
    pub chroma_format_idc: u8,
    pub bit_depth: u8,
    pub width: u32,
    pub height: u32,
}

/// The start codes of a stream. Under both choices the stream has the same units in the same order, and the refusals are the same but for
/// [`Refusal::BufferTooShort`], which goes by the length of the stream to be written.
#[derive(Clone, Copy, Debug, Default, PartialEq, Eq)]
pub enum StartCodes {
    /// Every unit follows 00 00 00 01.
    #[default]
    Four = 0,
    /// H.266 B.2.2: the first unit of the stream, and each unit whose header has a type from 12 to 18, follow 00 00 00 01; all others follow
    /// 00 00 01, also a unit with fewer than two bytes, which has no type. The stream is one byte shorter for each unit that follows 00 00 01,
    /// and never longer.
    Short = 1,
}

/// A target as the library expects it: whether there is one, and which.
fn target_numbers(target: Option<u16>) -> (u8, u16) {
    target.map_or((0, 0), |t| (1, t))
}

fn written(w: Written) -> Result<usize, Refusal> {
    match w.refusal {
        0 => Ok(w.len),
        n => Err(Refusal::of_number(n)),
    }
}

fn consumed(r: Read) -> Result<usize, Refusal> {
    match r.refusal {
        0 => Ok(r.consumed),
        n => Err(Refusal::of_number(n)),
    }
}

/// The length of an input for the computation of buffer lengths: 0 if the call will refuse it as too long.
fn lent(input: &[u8]) -> usize {
    if input.len() > LONGEST_INPUT {
        return 0;
    }
    input.len()
}

/// What `call` writes to a buffer of `first` bytes or, if that is too short, of `most` bytes, which is always long enough.
fn into_vec(
    first: usize,
    most: usize,
    call: impl Fn(*mut u8, usize) -> Written,
) -> Result<Vec<u8>, Refusal> {
    let mut out = Vec::with_capacity(first);
    let mut n = written(call(out.as_mut_ptr(), first));
    if n == Err(Refusal::BufferTooShort) && first < most {
        out = Vec::with_capacity(most);
        n = written(call(out.as_mut_ptr(), most));
    }
    // SAFETY: an accepted call has written the first n bytes of the buffer, and they do not depend on what it held before.
    unsafe { out.set_len(n?) };
    Ok(out)
}

/// SAFETY: `out` may be written for `out_len` bytes and does not overlap `compact`.
unsafe fn raw_still_record(compact: &[u8], p: Picture, out: *mut u8, out_len: usize) -> Written {
    let (c, n) = (compact.as_ptr(), compact.len());
    calls::vvcc_still_record(
        c,
        n,
        p.chroma_format_idc,
        p.bit_depth,
        p.width,
        p.height,
        out,
        out_len,
    )
}

/// Writes the full record of a still to the front of `out` and returns its length, at most `1100 + 5 * compact.len()`. The bytes after it, and
/// on a refusal all bytes, are not changed.
pub fn still_record_into(
    compact: &[u8],
    picture: Picture,
    out: &mut [u8],
) -> Result<usize, Refusal> {
    // SAFETY: `out` is lent mutably.
    written(unsafe { raw_still_record(compact, picture, out.as_mut_ptr(), out.len()) })
}

/// The full record of a still.
pub fn still_record(compact: &[u8], picture: Picture) -> Result<Vec<u8>, Refusal> {
    let most = 1100 + 5 * compact.len().min(LONGEST_COMPACT);
    // SAFETY: the buffer is that of a new `Vec`.
    into_vec(most, most, |out, n| unsafe {
        raw_still_record(compact, picture, out, n)
    })
}

/// SAFETY: `out` may be written for `out_len` bytes and overlaps neither input.
unsafe fn raw_still_stream(
    compact: &[u8],
    stored: &[u8],
    target: Option<u16>,
    codes: StartCodes,
    out: *mut u8,
    out_len: usize,
) -> Written {
    let (has, t) = target_numbers(target);
    calls::vvcc_still_stream(
        compact.as_ptr(),
        compact.len(),
        stored.as_ptr(),
        stored.len(),
        has,
        t,
        codes as u8,
        out,
        out_len,
    )
}

/// Writes the Annex B stream of a still, as [`still_stream`] returns it, to the front of `out` and returns its length: at most
/// `4 * compact.len() + stored.len() + 6` if the multi-layer flag of the record is clear, and at most
/// `4 * compact.len() + 5 * stored.len() / 2` if it is set, under either choice of start codes. The bytes after it, and on a refusal all bytes,
/// are not changed.
pub fn still_stream_into(
    compact: &[u8],
    stored: &[u8],
    target: Option<u16>,
    codes: StartCodes,
    out: &mut [u8],
) -> Result<usize, Refusal> {
    let (o, n) = (out.as_mut_ptr(), out.len());
    // SAFETY: `out` is lent mutably.
    written(unsafe { raw_still_stream(compact, stored, target, codes, o, n) })
}

/// The Annex B stream of a still: the units of its compact record, grouped by type, then its picture, each after its start code. `target` is the
/// operating point that the caller asks for, if any, and `codes` the choice of start codes.
pub fn still_stream(
    compact: &[u8],
    stored: &[u8],
    target: Option<u16>,
    codes: StartCodes,
) -> Result<Vec<u8>, Refusal> {
    let (c, s) = (compact.len().min(LONGEST_COMPACT), lent(stored));
    // SAFETY: the buffer is that of a new `Vec`.
    into_vec(4 * c + s + 6, 4 * c + 5 * s / 2 + 6, |out, n| unsafe {
        raw_still_stream(compact, stored, target, codes, out, n)
    })
}

/// How many bytes of scratch [`access_unit_into`] and [`strict_record_into`] need at most for this record: `4 * record.len()`.
pub fn scratch_len(record: &[u8]) -> usize {
    record.len().saturating_mul(4)
}

/// SAFETY: `scratch` and `out` may be written for as many bytes as their lengths say, and overlap neither each other nor an input.
unsafe fn raw_access_unit(
    record: &[u8],
    item: &[u8],
    target: Option<u16>,
    codes: StartCodes,
    scratch: (*mut u8, usize),
    out: (*mut u8, usize),
) -> Written {
    let (has, t) = target_numbers(target);
    let (r, i) = ((record.as_ptr(), record.len()), (item.as_ptr(), item.len()));
    let short = codes as u8;
    calls::vvcc_access_unit(
        r.0, r.1, i.0, i.1, has, t, short, scratch.0, scratch.1, out.0, out.1,
    )
}

/// Writes the Annex B stream of a full record and an item, as [`access_unit`] returns it, to the front of `out` and returns its length: at most
/// `2 * record.len() + 5 * item.len() / 2`, and with prefix size 4 at most `2 * record.len() + item.len()`, under either choice of start codes. The
/// bytes after it, and on a refusal all bytes, are not changed. The unit list of the record is written to `scratch`.
pub fn access_unit_into(
    record: &[u8],
    item: &[u8],
    target: Option<u16>,
    codes: StartCodes,
    scratch: &mut [u8],
    out: &mut [u8],
) -> Result<usize, Refusal> {
    let (s, o) = (
        (scratch.as_mut_ptr(), scratch.len()),
        (out.as_mut_ptr(), out.len()),
    );
    // SAFETY: `scratch` and `out` are lent mutably.
    written(unsafe { raw_access_unit(record, item, target, codes, s, o) })
}

/// The Annex B stream of a full record and an item of length-prefixed units: leading AUD and OPI units of the item, then the units of the record,
/// then the rest of the item, each after its start code. An OPI unit of the item with another operating point than the target, `target` or that
/// of the record, is left out. `codes` is the choice of start codes.
pub fn access_unit(
    record: &[u8],
    item: &[u8],
    target: Option<u16>,
    codes: StartCodes,
) -> Result<Vec<u8>, Refusal> {
    let (r, i) = (lent(record), lent(item));
    into_vec(2 * r + i, 2 * r + 5 * i / 2, |out, n| {
        let mut scratch = Vec::<u8>::with_capacity(4 * r);
        // SAFETY: the buffers are those of two new `Vec`s.
        unsafe {
            raw_access_unit(
                record,
                item,
                target,
                codes,
                (scratch.as_mut_ptr(), 4 * r),
                (out, n),
            )
        }
    })
}

/// SAFETY: `scratch` may be written for `scratch_len` bytes and does not overlap `record`.
unsafe fn raw_strict_record(record: &[u8], scratch: *mut u8, scratch_len: usize) -> Read {
    calls::vvcc_strict_record(record.as_ptr(), record.len(), scratch, scratch_len)
}

/// Reads a full record as [`strict_record`] does. The unit list of the record is written to the front of `scratch`, which needs at most
/// [`scratch_len`] bytes. Its length is not returned: what is in `scratch` after the call is not for use by the caller. The bytes after the list,
/// and on a refusal all bytes, are not changed.
pub fn strict_record_into(record: &[u8], scratch: &mut [u8]) -> Result<usize, Refusal> {
    // SAFETY: `scratch` is lent mutably.
    consumed(unsafe { raw_strict_record(record, scratch.as_mut_ptr(), scratch.len()) })
}

/// Reads a full record strictly and returns how many bytes were consumed: for an archive that stores a record only if its reserved bits are the
/// standard's and its arrays have types that a record may have. The bytes that were consumed end with the last array; others may follow. What
/// was read, written again as a full record, is exactly those bytes, unless its unit list has more than 2^30 bytes. Refusals: 23; 3, then in byte
/// order 1 and 2; 25; 26.
///
/// ```
/// // a record without arrays and one byte after it, then the same with a reserved bit changed
/// assert_eq!(vvcc::strict_record(b"\xFE\x00\x55"), Ok(2));
/// assert_eq!(vvcc::strict_record(b"\x7E\x00\x55"), Err(vvcc::Refusal::ReservedBit));
/// ```
pub fn strict_record(record: &[u8]) -> Result<usize, Refusal> {
    let most = 4 * lent(record);
    let mut scratch = Vec::<u8>::with_capacity(most);
    // SAFETY: the buffer is that of a new `Vec`.
    consumed(unsafe { raw_strict_record(record, scratch.as_mut_ptr(), most) })
}
