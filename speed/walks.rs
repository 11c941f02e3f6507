//! What the measuring programs of unit lists share: a record and its list, and the walk over a list.
use crate::records::compact_of;
use original::vvcc::{CompactVvcConfig, VvcConfig, VvcNalArray};

#[repr(C)]
#[derive(Clone, Copy)]
pub struct UnitNumbers {
    refusal: u32,
    is_there: u32,
    start: usize,
    len: usize,
}

extern "C" {
    fn speed_walk(list: *const u8, list_len: usize, t: u8) -> UnitNumbers;
}

/// The type that is asked for, that of an SPS.
pub const SPS: u8 = 15;

/// How many units the long record has.
pub const UNITS: usize = 33;

/// How many passes are made between two readings of the clock.
pub const PASSES: usize = 500;

/// The first SPS, by a walk over the list.
pub fn walk(list: &[u8]) -> UnitNumbers {
    unsafe { speed_walk(list.as_ptr(), list.len(), SPS) }
}

/// The part of a list that an answer says.
pub fn part(list: &[u8], unit: UnitNumbers) -> &[u8] {
    assert_eq!((unit.refusal, unit.is_there), (0, 1));
    &list[unit.start..unit.start + unit.len]
}

/// The long record as a compact one: an SPS, then PPS, APS and SEI units in turn.
pub fn long_record() -> CompactVvcConfig {
    CompactVvcConfig::parse(&compact_of(UNITS, &[16, 17, 23])).unwrap()
}

/// The full record of a compact one, written and read.
pub fn full_of(c: &CompactVvcConfig) -> VvcConfig {
    VvcConfig::parse(&c.to_full(1, 8, 16, 8).unwrap().serialize()).unwrap()
}

/// The first SPS of the original's record.
pub fn original(config: &VvcConfig) -> Option<&[u8]> {
    config.nal_units_of_type(SPS).first().copied()
}

/// A version of unit lists: its byte, and how many bytes a length has.
#[derive(Clone, Copy)]
pub struct Version {
    pub byte: u8,
    pub width: usize,
}

pub const WIDE: Version = Version { byte: 1, width: 4 };

/// Arrays as a unit list.
pub fn list_of(arrays: &[VvcNalArray], version: Version) -> Vec<u8> {
    let length = |n: usize| (n as u32).to_be_bytes()[4 - version.width..].to_vec();
    let mut list = vec![version.byte];
    for a in arrays {
        let mut rest = vec![a.complete as u8, a.nal_unit_type];
        for u in &a.nal_units {
            rest.extend(length(u.len()));
            rest.extend(u);
        }
        list.extend(length(rest.len()));
        list.extend(rest);
    }
    list
}
