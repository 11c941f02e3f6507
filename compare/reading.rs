//! What the original does not have, from the rules of docs/SCOPE.md: the unit list in both versions (2), the unit check (4.6), the kinds of units
//! (3.3), the limits of full write (3.9) and of HEVC write (4.11), where units lie, the units of an access unit one by one and their stream with
//! short start codes (3.12), the two rules of strict reading (4.10), a directory of units (4.12), and narrowing and widening (4.13).

use original::hvcc::{split_length_prefixed, HevcConfig, NalArray};
use original::vvcc::{self, VvcConfig, VvcNalArray};

/// A refusal's number.
pub type Refusal = u32;

/// The largest input that a call takes (refusal 23).
pub const LARGEST: usize = 1 << 30;

/// What a call returns if an input is too long, before anything else: 23, or the empty part if a part is all that it returns.
pub fn too_long(op: u8) -> Result<String, Refusal> {
    match op {
        15 | 17 | 24 | 26 | 38 | 46 | 58 => Ok(" =".into()),
        _ => Err(23),
    }
}

/// The versions of a unit list.
pub const WIDE: u8 = 1;
pub const NARROW: u8 = 2;

/// How many bytes a length has in a list of a version; none for a version that no list has.
pub fn width(version: u8) -> Option<usize> {
    match version {
        WIDE => Some(4),
        NARROW => Some(2),
        _ => None,
    }
}

/// The length of `width` bytes at the front; none if it is cut off.
pub fn length(s: &[u8], width: usize) -> Option<usize> {
    let bytes = s.get(..width)?;
    Some(bytes.iter().fold(0, |n, b| n << 8 | usize::from(*b)))
}

fn chunk(s: &[u8], width: usize) -> Option<(&[u8], &[u8])> {
    let n = length(s, width)?;
    let rest = &s[width..];
    (n <= rest.len()).then(|| rest.split_at(n))
}

fn array(s: &[u8], width: usize) -> Option<NalArray> {
    let (&complete, s) = s.split_first()?;
    let (&kind, mut s) = s.split_first()?;
    if complete > 3 || kind > 63 {
        return None;
    }
    let mut units = Vec::new();
    while !s.is_empty() {
        let (unit, rest) = chunk(s, width)?;
        units.push(unit.to_vec());
        s = rest;
    }
    Some(NalArray::new(
        complete & 1 == 1,
        complete & 2 == 2,
        kind,
        units,
    ))
}

/// A unit list of either version taken apart; 21 where it is malformed. Its arrays are those of an HEVC record: the type has six bits, and there is a
/// reserved bit.
pub fn list(s: &[u8]) -> Result<Vec<NalArray>, Refusal> {
    let (version, mut s) = s.split_first().ok_or(21u32)?;
    let width = width(*version).ok_or(21u32)?;
    let mut arrays = Vec::new();
    while !s.is_empty() {
        let (one, rest) = chunk(s, width).ok_or(21u32)?;
        arrays.push(array(one, width).ok_or(21u32)?);
        s = rest;
    }
    Ok(arrays)
}

/// Arrays as those of a full record, which have no reserved bit.
pub fn without_reserved(arrays: Vec<NalArray>) -> Vec<VvcNalArray> {
    let plain = |a: NalArray| VvcNalArray::new(a.complete, a.nal_unit_type, a.nal_units);
    arrays.into_iter().map(plain).collect()
}

/// Where a unit lies: in the first or the second lent input, its start and its length.
pub type Place = (u8, usize, usize);

/// Where the units of a sound list lie, each with its array's type.
pub fn list_places(s: &[u8]) -> Vec<(u8, Place)> {
    let w = width(s[0]).expect("a sound list");
    let len = |at: usize| length(&s[at..], w).expect("a sound list");
    let (mut out, mut at) = (Vec::new(), 1);
    while at < s.len() {
        let (end, kind) = (at + w + len(at), s[at + w + 1]);
        at += w + 2;
        while at < end {
            out.push((kind, (1, at + w, len(at))));
            at += w + len(at);
        }
    }
    out
}

/// Where parts of a lent input lie, which is the first or the second.
pub fn places(which: u8, s: &[u8], parts: &[&[u8]]) -> Vec<Place> {
    let start = |u: &[u8]| u.as_ptr() as usize - s.as_ptr() as usize;
    parts.iter().map(|u| (which, start(u), u.len())).collect()
}

/// Puts bytes after their length, which has `width` bytes.
fn put_chunk(out: &mut Vec<u8>, width: usize, bytes: &[u8]) {
    let n = bytes.len();
    assert!(n >> (8 * width) == 0, "a length of {n} in {width} bytes");
    out.extend_from_slice(&n.to_be_bytes()[8 - width..]);
    out.extend_from_slice(bytes);
}

/// Puts an array of a list, whose lengths have `width` bytes: its first byte, its type and its units.
fn put_array(out: &mut Vec<u8>, width: usize, complete: u8, kind: u8, units: &[Vec<u8>]) {
    let mut one = vec![complete, kind];
    for u in units {
        put_chunk(&mut one, width, u);
    }
    put_chunk(out, width, &one);
}

/// A unit list of the arrays of a full record, as the calls write it: of version 01.
pub fn list_bytes(arrays: &[VvcNalArray]) -> Vec<u8> {
    let mut out = vec![WIDE];
    for a in arrays {
        put_array(&mut out, 4, a.complete as u8, a.nal_unit_type, &a.nal_units);
    }
    out
}

/// A unit list of a version. Its arrays may have the reserved bit, and their lengths must have room in the version.
fn list_of_version(version: u8, arrays: &[NalArray]) -> Vec<u8> {
    let width = width(version).expect("a version of a list");
    let mut out = vec![version];
    for a in arrays {
        let complete = a.complete as u8 + 2 * a.reserved_bit as u8;
        put_array(&mut out, width, complete, a.nal_unit_type, &a.nal_units);
    }
    out
}

/// A unit list of version 01.
pub fn list_with_reserved(arrays: &[NalArray]) -> Vec<u8> {
    list_of_version(WIDE, arrays)
}

/// Whether a length of arrays is above 65,535 where lengths have two bytes: that of an array, which is what follows it, or that of a unit.
fn too_long_to_narrow(arrays: &[NalArray]) -> bool {
    let follows = |a: &NalArray| 2 + a.nal_units.iter().map(|u| 2 + u.len()).sum::<usize>();
    let unit = |a: &NalArray| a.nal_units.iter().any(|u| u.len() > 65535);
    arrays.iter().any(|a| follows(a) > 65535 || unit(a))
}

/// A unit list of version 02: 29.
pub fn narrow_list(arrays: &[NalArray]) -> Result<Vec<u8>, Refusal> {
    if too_long_to_narrow(arrays) {
        return Err(29);
    }
    Ok(list_of_version(NARROW, arrays))
}

/// The list of version 02 with the arrays of a list: 21, 29.
pub fn narrow(s: &[u8]) -> Result<Vec<u8>, Refusal> {
    narrow_list(&list(s)?)
}

/// The list of version 01 with the arrays of a list: 21.
pub fn widen(s: &[u8]) -> Result<Vec<u8>, Refusal> {
    Ok(list_with_reserved(&list(s)?))
}

/// Whether a unit is split off a stream as it is: not empty, no 00 00 01, no 00 at the end.
pub fn splittable(u: &[u8]) -> bool {
    !u.is_empty() && !u.windows(3).any(|w| w == [0, 0, 1]) && u[u.len() - 1] != 0
}

/// The unit check: splittable, no 00 00 00 and no 00 00 02, and no 00 00 03 before a byte above 03.
pub fn check_unit(u: &[u8]) -> bool {
    let forbidden = |w: &[u8]| w == [0, 0, 0] || w == [0, 0, 2];
    let before_more = |w: &[u8]| w[..3] == [0, 0, 3] && w[3] > 3;
    splittable(u) && !u.windows(3).any(forbidden) && !u.windows(4).any(before_more)
}

/// The kinds of units, numbered as `replay` does: picture data and record kinds with their type, AUD, others.
pub fn unit_kind(t: u8) -> String {
    match t {
        0..=11 => format!(" 0 {t}"),
        12..=17 | 23 => format!(" 1 {t}"),
        20 => " 2".into(),
        _ => " 3".into(),
    }
}

/// Whether arrays do not fit the counts and lengths that both full records and HEVC records have.
fn too_many(arrays: &[NalArray]) -> bool {
    let units =
        |a: &NalArray| a.nal_units.len() > 65535 || a.nal_units.iter().any(|u| u.len() > 65535);
    arrays.len() > 255 || arrays.iter().any(units)
}

/// The refusals 3 and 22 of full write for a head and arrays; `counts` are the head's counts of constraint bytes, levels and sub-profiles.
pub fn full_writer(h: &VvcConfig, counts: [usize; 3], arrays: &[NalArray]) -> Result<(), Refusal> {
    if h.length_size == 3 {
        return Err(3);
    }
    let profile = h.native_ptl.as_ref().map_or(0, |p| p.general_profile_idc);
    let head = h.ols_idx > 511
        || h.num_sublayers > 7
        || h.constant_frame_rate > 3
        || h.chroma_format_idc > 3
        || h.bit_depth_minus8 > 7
        || profile > 127
        || counts[0] > 63
        || counts[1] > 7
        || counts[2] > 255;
    let size = !(1..=4).contains(&h.length_size);
    let arrays = too_many(arrays)
        || arrays.iter().any(|a| {
            a.nal_unit_type > 31
                || a.reserved_bit
                || ((a.nal_unit_type == 12 || a.nal_unit_type == 13) && a.nal_units.len() != 1)
        });
    if size || (h.ptl_present_flag && head) || arrays {
        return Err(22);
    }
    Ok(())
}

/// The refusal 22 of HEVC write.
pub fn hevc_writer(h: &HevcConfig) -> Result<(), Refusal> {
    let head = h.general_profile_space > 3
        || h.general_profile_idc > 31
        || h.general_constraint_indicator_flags >= 1 << 48
        || h.min_spatial_segmentation_idc > 4095
        || h.parallelism_type > 3
        || h.chroma_format_idc > 3
        || h.bit_depth_luma_minus8 > 7
        || h.bit_depth_chroma_minus8 > 7
        || h.constant_frame_rate > 3
        || h.num_temporal_layers > 7
        || !(1..=4).contains(&h.length_size);
    if head || too_many(&h.arrays) {
        return Err(22);
    }
    Ok(())
}

/// Reserved bits of a byte: its place, which bits they are, and what the standard has there.
pub type Reserved = (usize, u8, u8);

/// The reserved bits in the head of a full record that reads, and the place of its count of arrays.
fn head_reserved(s: &[u8]) -> (Vec<Reserved>, usize) {
    let mut out = vec![(0, 0xf8, 0xf8)];
    if s[0] & 1 == 0 {
        return (out, 1);
    }
    out.extend([(3, 0x1f, 0x1f), (4, 0xc0, 0)]);
    let sublayers = s[2] >> 4 & 7;
    let mut at = 7 + usize::from(s[4] & 0x3f);
    if sublayers > 1 {
        let no_flags = 0xff >> (sublayers - 1);
        out.push((at, no_flags, 0));
        at += 1 + (s[at] & !no_flags).count_ones() as usize;
    }
    (out, at + 1 + 4 * usize::from(s[at]) + 6)
}

/// The place after the array at a place. An array of type 12 or 13 has one unit and no count.
fn array_end(s: &[u8], at: usize) -> usize {
    let two = |at: usize| usize::from(s[at]) << 8 | usize::from(s[at + 1]);
    let (units, start) = match s[at] & 31 {
        12 | 13 => (1, at + 1),
        _ => (two(at + 1), at + 3),
    };
    (0..units).fold(start, |at, _| at + 2 + two(at))
}

/// The reserved bits of a full record that reads, in the order of its bytes, and the places of its arrays.
pub fn reserved(s: &[u8]) -> (Vec<Reserved>, Vec<usize>) {
    let (mut bits, count_at) = head_reserved(s);
    let (mut arrays, mut at) = (Vec::new(), count_at + 1);
    for _ in 0..s[count_at] {
        bits.push((at, 0x60, 0));
        arrays.push(at);
        at = array_end(s, at);
    }
    (bits, arrays)
}

/// The refusals of strict reading for a full record that reads: 25 for any reserved bit, then 26 for the type of any array.
pub fn strict(s: &[u8]) -> Result<(), Refusal> {
    let (bits, arrays) = reserved(s);
    if bits.iter().any(|&(at, mask, value)| s[at] & mask != value) {
        return Err(25);
    }
    if arrays.iter().any(|&at| !matches!(s[at] & 31, 12..=17 | 23)) {
        return Err(26);
    }
    Ok(())
}

/// Where the units of an accepted access unit lie: leading AUD and OPI units of the item, units of the list, remaining units of the item. An OPI unit
/// of the item is dropped if there is a target and its operating point reads and differs.
pub fn access_unit(h: &VvcConfig, list: &[u8], item: &[u8], tols: Option<u16>) -> Vec<Place> {
    let target = match tols {
        Some(t) => Some(u32::from(t)),
        None if h.ptl_present_flag => Some(u32::from(h.ols_idx)),
        None => None,
    };
    let units = split_length_prefixed(item, h.length_size).expect("the item was split before");
    let kind = |u: &[u8]| u.get(1).map(|b| b / 8);
    let leading = units
        .iter()
        .take_while(|u| matches!(kind(u), Some(12) | Some(20)))
        .count();
    let kept = |u: &&[u8]| {
        kind(u) != Some(12)
            || match (target, vvcc::read_opi_ols_idx(u)) {
                (Some(t), Some(o)) => t == o,
                _ => true,
            }
    };
    let of_item = |units: &[&[u8]]| {
        let units: Vec<&[u8]> = units.iter().copied().filter(kept).collect();
        places(2, item, &units)
    };
    let mut out = of_item(&units[..leading]);
    out.extend(list_places(list).into_iter().map(|p| p.1));
    out.extend(of_item(&units[leading..]));
    out
}

/// The stream of units with short start codes (H.266 B.2.2): 00 00 01 before each unit, and one more 00 before that for the first unit and for those
/// of types 12 to 18. A unit of fewer than two bytes has no type.
pub fn short_stream(units: &[&[u8]]) -> Vec<u8> {
    let mut out = Vec::new();
    for (i, u) in units.iter().enumerate() {
        if i == 0 || u.len() > 1 && matches!(u[1] / 8, 12..=18) {
            out.push(0);
        }
        out.extend([0, 0, 1]);
        out.extend_from_slice(u);
    }
    out
}

/// A stream of units of the given lengths, put back to start codes of four bytes, and how many of its codes have three. It does not ask which of the
/// two a unit should have. None if there is no start code before a unit, or other bytes follow the last unit.
pub fn put_back(stream: &[u8], lengths: impl Iterator<Item = usize>) -> Option<(Vec<u8>, usize)> {
    let (mut rest, mut out, mut three) = (stream, Vec::new(), 0);
    for len in lengths {
        rest = match rest {
            [0, 0, 0, 1, after @ ..] => after,
            [0, 0, 1, after @ ..] => {
                three += 1;
                after
            }
            _ => return None,
        };
        out.extend([0, 0, 0, 1]);
        out.extend_from_slice(rest.get(..len)?);
        rest = &rest[len..];
    }
    rest.is_empty().then_some((out, three))
}

/// How many entries a directory has here, and how many totals there are.
pub const ENTRIES: usize = 8;
pub const TYPES: usize = 64;

/// An entry of a directory: the unit's type, where it begins in the list, its length.
pub type Entry = (u8, u64, u64);

/// A directory, and the number of units of each type.
#[derive(Clone, PartialEq)]
pub struct Directory {
    pub entries: [Entry; ENTRIES],
    pub totals: [u64; TYPES],
}

/// What a directory is asked for: the first unit of a type, or unit k.
#[derive(Clone, Copy)]
pub enum Question {
    First(u8),
    Number(u64),
}

impl Directory {
    /// Fills it from a list, and returns the number of units: 21, 28. Nothing changes on a refusal.
    pub fn fill(&mut self, s: &[u8]) -> Result<usize, Refusal> {
        list(s)?;
        let units = list_places(s);
        if units.len() > ENTRIES {
            return Err(28);
        }
        self.totals = [0; TYPES];
        for (entry, &(t, (_, start, len))) in self.entries.iter_mut().zip(&units) {
            *entry = (t, start as u64, len as u64);
            self.totals[usize::from(t)] += 1;
        }
        Ok(units.len())
    }

    /// The entries in use, as many as the totals add up to; 1 if there are not so many.
    fn in_use(&self) -> Result<&[Entry], Refusal> {
        let sum: u128 = self.totals.iter().map(|&n| u128::from(n)).sum();
        match usize::try_from(sum) {
            Ok(n) if n <= ENTRIES => Ok(&self.entries[..n]),
            _ => Err(1),
        }
    }

    /// How many units of a type there are, by the totals.
    pub fn count(&self, t: u8) -> Result<u64, Refusal> {
        self.in_use()?;
        Ok(self.totals.get(usize::from(t)).copied().unwrap_or(0))
    }

    /// Where the unit that is asked for lies in a list of some length, by the entries in use; 1 if it passes the end.
    pub fn unit(&self, list_len: usize, asked: Question) -> Result<Option<Place>, Refusal> {
        let used = self.in_use()?;
        let found = match asked {
            Question::First(t) => used.iter().find(|e| e.0 == t),
            Question::Number(k) => usize::try_from(k).ok().and_then(|k| used.get(k)),
        };
        let Some(&(_, offset, len)) = found else {
            return Ok(None);
        };
        if u128::from(offset) + u128::from(len) > list_len as u128 {
            return Err(1);
        }
        Ok(Some((1, offset as usize, len as usize)))
    }
}
