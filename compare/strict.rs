//! Strict reading: its cases, and what it is held to. It refuses with 25 exactly those records that the original reads and writes again as other
//! bytes.

use crate::answers::{self, Again};
use crate::case::Case;
use crate::generator::{with_room, with_room_by, Emit};
use crate::reading;
use crate::rng::Rng;
use crate::shapes;
use std::collections::hash_map::DefaultHasher;
use std::collections::HashSet;
use std::hash::{Hash, Hasher};

/// The number of the call.
pub const CALL: u8 = 50;

/// A record that strict reading is asked for: what the original's writer gives for it, and a number by which to tell records apart.
pub type Asked = (Again, u64);

/// Reads and writes a record with the original.
pub fn asked(s: &[u8]) -> Asked {
    let mut hasher = DefaultHasher::new();
    s.hash(&mut hasher);
    (answers::again(s), hasher.finish())
}

/// Strict reading held to the original's reader and writer, in numbers of cases: what was not read; what was written again as the same bytes and was
/// not 25; as other bytes and was 25; neither. Then the records that were read, and how many cases were accepted.
#[derive(Default)]
pub struct Held {
    not_read: u64,
    same: u64,
    other: u64,
    pub disagree: u64,
    records: HashSet<u64>,
    accepted: u64,
}

impl Held {
    /// Whether `replay` returned 25 for a record exactly if the original's writer gave other bytes. The refusal is 0 for none.
    pub fn agrees(&mut self, refusal: u32, (again, record): Asked) -> bool {
        if again != Again::Refused {
            self.records.insert(record);
        }
        self.accepted += u64::from(refusal == 0);
        let (count, agrees) = match (again, refusal == 25) {
            (Again::Refused, false) => (&mut self.not_read, true),
            (Again::Same, false) => (&mut self.same, true),
            (Again::Other, true) => (&mut self.other, true),
            _ => (&mut self.disagree, false),
        };
        *count += 1;
        agrees
    }

    pub fn print(&self) {
        let (records, accepted) = (self.records.len(), self.accepted);
        let (same, other, disagree) = (self.same, self.other, self.disagree);
        println!(
            "\nstrict reading: {records} records held to the original's writer, in {} cases: {same} came back the same, {other} differed and were \
             25, {disagree} disagree; {accepted} cases accepted, {} not read by the original",
            same + other + disagree,
            self.not_read
        );
    }
}

/// The bytes of an array of a type with one unit. Types 12 and 13 have no count.
fn array(t: u8) -> Vec<u8> {
    match t & 31 {
        12 | 13 => vec![t, 0, 2, 0, 0x61],
        _ => vec![t, 0, 1, 0, 2, 0, 0x79],
    }
}

/// A record with two arrays; with the PTL flag if a number of sublayers is given.
fn record_of(sublayers: Option<u8>, types: [u8; 2]) -> Vec<u8> {
    let mut s = vec![0xfe];
    if let Some(sub) = sublayers {
        s = vec![0xff, 0, sub << 4 | 1, 0x5f, 1, 2, 0x33, 0x40];
        if sub > 1 {
            let flags = 0xa8 & !(0xff >> (sub - 1));
            s.push(flags);
            s.extend((0..flags.count_ones()).map(|i| 0x31 + i as u8));
        }
        s.extend([1, 1, 2, 3, 4, 0, 16, 0, 8, 0, 0]);
    }
    s.push(2);
    s.extend(types.map(array).concat());
    s
}

/// Sound records: without the PTL flag, and with it for every number of sublayers; without arrays, and with an array that has no units.
fn sound() -> Vec<Vec<u8>> {
    let mut out = vec![vec![0xfe, 0], vec![0xfa, 1, 0x8f, 0, 0]];
    out.push(record_of(None, [0x8f, 0x0c]));
    out.extend((0..8).map(|sub| record_of(Some(sub), [0x8f, 0x0d])));
    out
}

/// Every reserved bit of a record that reads: the place of its byte, and the bit.
fn single_bits(s: &[u8]) -> Vec<(usize, u8)> {
    let of_byte = |(at, mask, _): reading::Reserved| {
        (0..8)
            .map(move |i| (at, 1 << i))
            .filter(move |(_, bit)| bit & mask != 0)
    };
    reading::reserved(s)
        .0
        .into_iter()
        .flat_map(of_byte)
        .collect()
}

/// A copy with bits of one byte flipped.
fn flipped(s: &[u8], (at, bits): (usize, u8)) -> Vec<u8> {
    let mut out = s.to_vec();
    out[at] ^= bits;
    out
}

/// Each reserved bit of a record flipped, one at a time.
fn reserved_flipped(s: &[u8]) -> Vec<Vec<u8>> {
    let bits = single_bits(s);
    bits.into_iter().map(|b| flipped(s, b)).collect()
}

/// Records of two arrays, either with every type; of one array without units, with every type; with types and reserved bits wrong in several places.
fn types() -> Vec<Vec<u8>> {
    let both = |t: u8| [[t, 16], [15, t]];
    let of_types = |types| record_of(None, types);
    let mut out: Vec<Vec<u8>> = (0..32).flat_map(both).map(of_types).collect();
    out.extend((0..32).map(|t| [vec![0xfe, 1], vec![t, 0, 0]].concat()));
    for types in [[31, 15], [15, 31], [31, 31], [31, 0x4f], [0x5f, 15]] {
        out.push(record_of(Some(2), types));
        out.push(flipped(&record_of(None, types), (0, 0x80)));
    }
    out
}

/// A record with a wrong reserved bit, cut off at every later place.
fn cut_after(s: &[u8], bit: (usize, u8)) -> Vec<Vec<u8>> {
    let wrong = flipped(s, bit);
    (bit.0 + 1..s.len()).map(|n| wrong[..n].to_vec()).collect()
}

/// A record followed by bytes that are not looked at.
fn trailed(s: &[u8]) -> Vec<u8> {
    [s, &[0x7f, 0, 1, 0xff]].concat()
}

/// Sends records, each with an output as long as the list, longer, one byte short, or empty.
fn send(records: Vec<Vec<u8>>, emit: Emit) {
    for (i, s) in records.into_iter().enumerate() {
        let c = Case::new(CALL, vec![], s);
        emit(if i % 7 == 6 { c } else { with_room_by(i, c) });
    }
}

/// Short cases at each place: each reserved bit wrong, every type, both, cut off after a wrong bit, bytes after the last array, and refusals 1 to 3.
pub fn short(emit: Emit) {
    let mut out = vec![vec![], vec![0xfc], vec![0x04, 0], vec![0xfe], vec![0x06]];
    out.push(vec![0xff, 0, 0x10, 0x5f, 0xc0]);
    for s in [
        record_of(None, [0x8f, 0x0c]),
        record_of(Some(4), [0x8e, 0x17]),
    ] {
        out.push(s.clone());
        out.push(trailed(&s));
        out.extend(reserved_flipped(&s));
        out.extend(cut_after(&s, (0, 0x08)).into_iter().step_by(3));
    }
    out.extend([0, 1, 2, 7].map(|sub| record_of(Some(sub), [16, 17])));
    out.extend(types());
    send(out, emit);
}

/// Sound records: whole, with every single bit flipped, with each type in an array's byte, and with each reserved bit wrong and cut off at every
/// later place; a record of 255 arrays with each reserved bit wrong.
pub fn fixed(emit: Emit) {
    let mut out = reserved_flipped(&[vec![0xf8, 255], [0x97, 0, 0].repeat(255)].concat());
    for s in sound() {
        let bits = (0..8 * s.len()).map(|i| (i / 8, 0x80 >> (i % 8)));
        out.extend(bits.map(|b| flipped(&s, b)));
        for at in reading::reserved(&s).1 {
            out.extend((0..32).map(|t| flipped(&s, (at, (s[at] ^ t) & 31))));
        }
        let places = single_bits(&s);
        out.extend(places.into_iter().flat_map(|b| cut_after(&s, b)));
        out.push(trailed(&s));
        out.push(s);
    }
    send(out, emit);
}

/// Some records that strict reading accepts, each whole, with each reserved bit flipped, and three damaged copies.
pub fn reserved_bits(r: &mut Rng, count: usize, emit: Emit) {
    for _ in 0..count {
        let s = shapes::strict(r);
        let mut out = reserved_flipped(&s);
        out.extend((0..3).map(|_| shapes::damaged(r, s.clone())));
        out.push(s);
        out.into_iter()
            .for_each(|s| emit(with_room(r, Case::new(CALL, vec![], s))));
    }
}

/// A copy with one of the reserved bits flipped, and the place of its byte.
fn any_flipped(r: &mut Rng, s: &[u8]) -> (Vec<u8>, usize) {
    let bits = single_bits(s);
    let bit = bits[r.below(bits.len())];
    (flipped(s, bit), bit.0)
}

/// A copy with another type in one of the arrays' bytes, if there are arrays.
fn any_retyped(r: &mut Rng, s: &[u8]) -> Vec<u8> {
    let arrays = reading::reserved(s).1;
    if arrays.is_empty() {
        return s.to_vec();
    }
    let at = arrays[r.below(arrays.len())];
    flipped(s, (at, r.byte() & 31))
}

/// A record for strict reading: of any shape, sound, damaged, or with a reserved bit, a type or both wrong; cut off; with bytes after it.
pub fn record(r: &mut Rng) -> Vec<u8> {
    let s = shapes::strict(r);
    match r.below(10) {
        0 | 1 => shapes::full(r),
        2 => s,
        3 => shapes::damaged(r, s),
        4 => any_flipped(r, &s).0,
        5 | 6 => any_retyped(r, &s),
        7 => {
            let wrong = any_flipped(r, &s).0;
            any_retyped(r, &wrong)
        }
        8 => {
            let (wrong, at) = any_flipped(r, &s);
            wrong[..at + 1 + r.below(s.len() - at - 1)].to_vec()
        }
        _ => trailed(&s),
    }
}
