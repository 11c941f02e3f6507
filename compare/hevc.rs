//! HEVC records: their cases, and what their writer is held to. A record that reads is written again as the bytes that were consumed, with the
//! reserved bits of its head set.

use crate::answers;
use crate::case::{hex_onto, Case};
use crate::generator::{with_room, with_room_by, Emit};
use crate::reading::list_with_reserved;
use crate::rng::Rng;
use crate::shapes;
use crate::versions::list_of;
use original::hvcc::{HevcConfig, NalArray};
use std::collections::hash_map::DefaultHasher;
use std::collections::HashSet;
use std::hash::{Hash, Hasher};

/// The numbers of the calls.
pub const READ: u8 = 51;
pub const WRITE: u8 = 52;

/// The place of the count of arrays, which is the last byte of a head.
const COUNT: usize = 22;

/// The reserved bits of a head, which are all written as 1: the place of a byte, and which bits of it they are.
const RESERVED: [(usize, u8); 5] = [(13, 0xf0), (15, 0xfc), (16, 0xfc), (17, 0xf8), (18, 0xf8)];

/// The fields of a head among the numbers of a case: their widths in bytes, and the lowest value that is too wide. A flag is any byte.
const FIELDS: [(usize, u64); 16] = [
    (1, 4),
    (1, 256),
    (1, 32),
    (4, 1 << 32),
    (8, 1 << 48),
    (1, 256),
    (2, 4096),
    (1, 4),
    (1, 4),
    (1, 8),
    (1, 8),
    (2, 65536),
    (1, 4),
    (1, 8),
    (1, 256),
    (1, 5),
];

/// The field of the prefix size, which is also refused at 0.
const SIZE: usize = 15;

/// The records of `hevc_records`, which encoders made. The original reads each and writes it again as the same bytes.
pub fn encoded() -> Vec<Vec<u8>> {
    let mut out: Vec<String> = Vec::new();
    let mut begins = true;
    for line in include_str!("hevc_records").lines() {
        if begins && !line.starts_with('#') {
            out.push(String::new());
        }
        begins = line.starts_with('#');
        if let (false, Some(digits)) = (begins, out.last_mut()) {
            digits.push_str(line);
        }
    }
    let byte = |s: &str, i| u8::from_str_radix(&s[i..i + 2], 16).expect("two digits");
    let bytes = |s: String| -> Vec<u8> { (0..s.len()).step_by(2).map(|i| byte(&s, i)).collect() };
    out.into_iter().map(bytes).collect()
}

/// A record's bytes with the reserved bits of the head set.
fn reserved_set(s: &[u8]) -> Vec<u8> {
    let mut out = s.to_vec();
    for (at, mask) in RESERVED {
        out[at] |= mask;
    }
    out
}

/// The head of a record as the numbers of a case.
fn numbers_of(h: &HevcConfig) -> Vec<u8> {
    numbers([
        h.general_profile_space.into(),
        h.general_tier_flag.into(),
        h.general_profile_idc.into(),
        h.general_profile_compatibility_flags.into(),
        h.general_constraint_indicator_flags,
        h.general_level_idc.into(),
        h.min_spatial_segmentation_idc.into(),
        h.parallelism_type.into(),
        h.chroma_format_idc.into(),
        h.bit_depth_luma_minus8.into(),
        h.bit_depth_chroma_minus8.into(),
        h.avg_frame_rate.into(),
        h.constant_frame_rate.into(),
        h.num_temporal_layers.into(),
        h.temporal_id_nested.into(),
        h.length_size.into(),
    ])
}

/// The values of a head as the numbers of a case.
fn numbers(values: [u64; 16]) -> Vec<u8> {
    let bytes = |(v, (width, _)): (u64, (usize, u64))| v.to_be_bytes()[8 - width..].to_vec();
    values.into_iter().zip(FIELDS).flat_map(bytes).collect()
}

/// For a case that reads a record: the case that writes what was read, from a list of either version by the fill byte, and the bytes that it must
/// write, which are made from the record alone. None if the original refuses the record.
pub fn written_again(c: &Case) -> Option<Case> {
    if c.op != READ || c.first.len() > 1 << 20 {
        return None;
    }
    let (front, h) = answers::hevc_read(&c.first)?;
    let again = reserved_set(front);
    Some(Case {
        fill: c.fill,
        room: again.len() + usize::from(c.fill % 4),
        again: Some(again),
        ..Case::new(WRITE, numbers_of(&h), list_of(c.fill & 4 != 0, &h.arrays))
    })
}

/// The writer held to the records: how many cases there were, in how many other bytes came than those consumed with the reserved bits of the head
/// set, and the records.
#[derive(Default)]
pub struct Held {
    cases: u64,
    pub disagree: u64,
    records: HashSet<u64>,
}

impl Held {
    /// Whether an answer line of `replay` has the bytes that must come.
    pub fn agrees(&mut self, line: &str, again: &[u8]) -> bool {
        let mut want = format!("{WRITE} 0 {} =", again.len());
        hex_onto(&mut want, again);
        let mut hasher = DefaultHasher::new();
        again.hash(&mut hasher);
        self.records.insert(hasher.finish());
        self.cases += 1;
        let agrees = line.starts_with(&want);
        self.disagree += u64::from(!agrees);
        agrees
    }

    pub fn print(&self) {
        println!(
            "\nHEVC: {} records written again after reading, in {} cases: {} came back as the bytes consumed with the reserved bits of the head set, \
             {} disagree",
            self.records.len(),
            self.cases,
            self.cases - self.disagree,
            self.disagree
        );
    }
}

/// The bytes of an array.
fn array(a: &NalArray) -> Vec<u8> {
    let first = (a.complete as u8) << 7 | (a.reserved_bit as u8) << 6 | a.nal_unit_type;
    let mut out = vec![first];
    out.extend((a.nal_units.len() as u16).to_be_bytes());
    for u in &a.nal_units {
        out.extend((u.len() as u16).to_be_bytes());
        out.extend(u);
    }
    out
}

/// A record of a head without its count, and arrays.
fn record_of(head: &[u8], arrays: &[NalArray]) -> Vec<u8> {
    let mut out = head.to_vec();
    out.push(arrays.len() as u8);
    out.extend(arrays.iter().flat_map(array));
    out
}

/// A head without its count of arrays: what an encoder writes, and one of all ones.
fn heads() -> [Vec<u8>; 2] {
    let plain = vec![
        1, 3, 0x70, 0, 0, 0, 0xb0, 0, 0, 0, 0, 0, 30, 0xf0, 0, 0xfc, 0xfd, 0xf8, 0xf8, 0, 0, 0x0f,
    ];
    let mut ones = vec![0xff; COUNT];
    ones[0] = 1;
    [plain, ones]
}

/// Arrays of a VPS and two SPSs, the second with the reserved bit and not complete.
fn two_arrays() -> [NalArray; 2] {
    let sps = vec![vec![0x42, 1, 9], vec![]];
    [
        NalArray::new(true, false, 32, vec![vec![0x40, 1]]),
        NalArray::new(false, true, 33, sps),
    ]
}

/// Sound records: without arrays, with an array that has no units, with two arrays; prefix size 3.
fn sound() -> Vec<Vec<u8>> {
    let mut out = Vec::new();
    for head in heads() {
        out.push(record_of(&head, &[]));
        out.push(record_of(&head, &[NalArray::new(true, true, 63, vec![])]));
        out.push(record_of(&head, &two_arrays()));
    }
    let mut three = out[2].clone();
    three[21] = 0xfe;
    out.push(three);
    out
}

/// A copy with bits of one byte flipped.
fn flipped(s: &[u8], at: usize, bits: u8) -> Vec<u8> {
    let mut out = s.to_vec();
    out[at] ^= bits;
    out
}

/// Each reserved bit of a record's head flipped, one at a time, and all of them.
fn reserved_flipped(s: &[u8]) -> Vec<Vec<u8>> {
    let single = |(at, mask): (usize, u8)| {
        (0..8)
            .map(move |i| (at, 1 << i))
            .filter(move |(_, bit)| bit & mask != 0)
    };
    let bits = RESERVED.into_iter().flat_map(single);
    let mut out: Vec<Vec<u8>> = bits.map(|(at, bit)| flipped(s, at, bit)).collect();
    let all = |s: Vec<u8>, (at, mask): (usize, u8)| flipped(&s, at, mask);
    out.push(RESERVED.into_iter().fold(s.to_vec(), all));
    out
}

/// A record with other bytes in the first place.
fn versions(s: &[u8], bytes: impl Iterator<Item = u8>) -> Vec<Vec<u8>> {
    bytes.map(|b| [&[b], &s[1..]].concat()).collect()
}

/// Every beginning of a record, up to some length.
fn beginnings(s: &[u8]) -> Vec<Vec<u8>> {
    (0..s.len().min(400)).map(|n| s[..n].to_vec()).collect()
}

/// A record followed by bytes that are not looked at.
fn trailed(s: &[u8]) -> Vec<u8> {
    [s, &[0xa0, 0, 1, 0xff]].concat()
}

/// Sends records, each with an output as long as the list, longer, one byte short, or empty.
fn send(records: Vec<Vec<u8>>, emit: Emit) {
    for (i, s) in records.into_iter().enumerate() {
        let c = Case::new(READ, vec![], s);
        emit(if i % 7 == 6 { c } else { with_room_by(i, c) });
    }
}

/// A head that the writer takes, with one of its fields changed.
fn head_with(field: usize, value: u64) -> Vec<u8> {
    let mut values = [
        3,
        1,
        4,
        1 << 31,
        0x9000_0000_0000,
        30,
        5,
        2,
        1,
        2,
        3,
        25,
        1,
        6,
        1,
        4,
    ];
    values[field] = value;
    numbers(values)
}

/// The writer's heads: each field at 0, at its limit, one above it, and at the largest value of its width.
fn field_limits() -> Vec<Vec<u8>> {
    let mut out: Vec<Vec<u8>> = (0..=5).map(|size| head_with(SIZE, size)).collect();
    for (i, (width, limit)) in FIELDS.into_iter().enumerate() {
        let largest = u64::MAX >> (64 - 8 * width);
        let mut values = vec![0, limit - 1, largest];
        values.extend((limit < largest).then_some(limit));
        out.extend(values.into_iter().map(|v| head_with(i, v)));
    }
    out
}

/// The writer's lists: every number of arrays near the limit, types and first bytes at their limits and above, and lists that end too soon.
fn list_limits() -> Vec<Vec<u8>> {
    let empty = |n| vec![NalArray::new(true, true, 48, vec![]); n];
    let mut out: Vec<Vec<u8>> = [0, 1, 254, 255, 256]
        .map(|n| list_with_reserved(&empty(n)))
        .into();
    for complete in 0..=4 {
        for kind in [0, 12, 31, 32, 63, 64, 128] {
            out.push(vec![1, 0, 0, 0, 7, complete, kind, 0, 0, 0, 1, 9]);
        }
    }
    let whole = list_with_reserved(&two_arrays());
    out.extend((0..=whole.len()).map(|n| whole[..n].to_vec()));
    out.push([&[3], &whole[1..]].concat());
    out
}

/// Sends heads and lists to the writer.
fn send_written(heads: Vec<Vec<u8>>, lists: Vec<Vec<u8>>, emit: Emit) {
    let list = list_with_reserved(&two_arrays());
    let plain = head_with(SIZE, 4);
    let with_list = heads.into_iter().map(|h| (h, list.clone()));
    let with_head = lists.into_iter().map(|l| (plain.clone(), l));
    for (i, (head, list)) in with_list.chain(with_head).enumerate() {
        emit(with_room_by(
            5 * i + i % 2 * 4,
            Case::new(WRITE, head.clone(), list.clone()),
        ));
        if i % 8 == 0 {
            emit(with_room_by(2, Case::new(WRITE, head, list)));
        }
    }
}

/// Short cases: the encoders' records, each reserved bit flipped, every beginning of a record, bytes in its first place and after it; the writer's
/// limits.
pub fn short(emit: Emit) {
    let mut out = encoded();
    for s in sound() {
        out.push(trailed(&s));
        out.extend(versions(&s, [0, 2, 3, 0x7f, 0x80, 0x81, 0xff].into_iter()));
        out.push(s);
    }
    let s = &sound()[2];
    out.extend(reserved_flipped(s));
    out.extend([23, 29].map(|at| flipped(s, at, 0x40)));
    out.extend(beginnings(s));
    let mut written = Vec::new();
    send(out, &mut |c| {
        written.extend(written_again(&c));
        emit(c);
    });
    written.into_iter().for_each(&mut *emit);
    send_written(field_limits(), list_limits(), emit);
}

/// Sound and encoded records: whole, every beginning, every byte value in the first place, every single bit of the head and of some bytes after it
/// flipped, each reserved bit flipped, bytes after the last array; an array of every type with and without reserved bit; 254 and 255 arrays.
pub fn fixed(emit: Emit) {
    let mut all = encoded();
    for s in &all {
        let read = HevcConfig::parse(s).expect("the original reads an encoder's record");
        assert_eq!(read.serialize(), *s, "the original writes other bytes");
    }
    all.extend(sound());
    let mut out = Vec::new();
    for s in all {
        out.extend(beginnings(&s));
        out.extend(versions(&s, 0..=255));
        let bits = (0..8 * s.len().min(160)).map(|i| (i / 8, 0x80 >> (i % 8)));
        out.extend(bits.map(|(at, bit)| flipped(&s, at, bit)));
        out.extend(reserved_flipped(&s));
        out.push(trailed(&s));
        out.push(s);
    }
    for t in 0..=255 {
        out.push(record_of(&heads()[0], &two_arrays()));
        let last = out.len() - 1;
        out[last][23] = t;
    }
    for n in [254, 255] {
        let arrays = vec![NalArray::new(false, true, 39, vec![vec![]]); n];
        out.push(record_of(&heads()[1], &arrays));
    }
    send(out, emit);
    send_written(field_limits(), list_limits(), emit);
}

/// Cases too long for a recorded list: counts and lengths at and above 16 bits.
pub fn large(emit: Emit) {
    let of = |n: usize| {
        let units = vec![Vec::new(); n];
        let unit = vec![vec![7; n]];
        [units, unit].map(|units| NalArray::new(true, false, 39, units))
    };
    let mut i = 0;
    for a in [65534, 65535, 65536, 70000].into_iter().flat_map(of) {
        let c = Case::new(WRITE, head_with(SIZE, 4), list_with_reserved(&[a.clone()]));
        emit(with_room_by(i, c.clone()));
        emit(with_room_by(i + 2, c));
        i += 1;
        if a.nal_units.len() < 65536 && a.nal_units.iter().all(|u| u.len() < 65536) {
            let s = record_of(&heads()[0], &[a]);
            send(vec![s[..s.len() - 1].to_vec(), trailed(&s), s], emit);
        }
    }
}

/// A head without its count of arrays; its reserved bits set or random.
fn any_head(r: &mut Rng) -> Vec<u8> {
    let mut out = r.bytes(COUNT);
    out[0] = 1;
    if r.one_in(2) {
        out = reserved_set(&out);
    }
    out
}

/// Arrays of an HEVC record: the parameter sets and SEI units of a still, or of any types.
fn any_arrays(r: &mut Rng) -> Vec<NalArray> {
    if r.one_in(2) {
        let plain = shapes::arrays(r);
        return shapes::widened(r, plain);
    }
    let mut out = Vec::new();
    for t in [32, 33, 34, 39] {
        let n = if t == 39 { r.below(3) } else { 1 };
        let units = (0..n).map(|_| shapes::hevc_unit(r, t)).collect();
        out.push(NalArray::new(r.one_in(2), r.one_in(4), t, units));
    }
    out
}

/// A sound record.
fn any_sound(r: &mut Rng) -> Vec<u8> {
    let head = any_head(r);
    let mut arrays = any_arrays(r);
    arrays.truncate(255);
    record_of(&head, &arrays)
}

/// A record: sound, with bytes after it, an encoder's, damaged, of another version, or with a reserved bit flipped.
pub fn any_record(r: &mut Rng) -> Vec<u8> {
    let s = any_sound(r);
    match r.below(10) {
        0..=2 => s,
        3 => trailed(&s),
        4 => {
            let all = encoded();
            let one = all[r.below(all.len())].clone();
            shapes::maybe_damaged(r, one, 2)
        }
        5..=7 => shapes::damaged(r, s),
        8 => [&[r.byte()], &s[1..]].concat(),
        _ => {
            let (at, mask) = r.pick(&RESERVED);
            flipped(&s, at, mask & r.byte())
        }
    }
}

/// A head for the writer; most of the time each value fits its field.
pub fn any_numbers(r: &mut Rng) -> Vec<u8> {
    let wrong = if r.one_in(4) { r.below(16) } else { 99 };
    let mut values = [0; 16];
    for (i, (width, limit)) in FIELDS.into_iter().enumerate() {
        let largest = u64::MAX >> (64 - 8 * width);
        values[i] = match r.below(4) {
            _ if i == wrong => r.pick(&[limit.min(largest), largest, (limit + 1).min(largest)]),
            0 => limit - 1,
            1 => 0,
            _ => r.next() % limit,
        };
    }
    if wrong != SIZE {
        values[SIZE] = 1 + r.below(4) as u64;
    } else if r.one_in(2) {
        values[SIZE] = 0;
    }
    numbers(values)
}

/// A list for the writer.
pub fn any_list(r: &mut Rng) -> Vec<u8> {
    if r.one_in(4) {
        return shapes::list(r);
    }
    let arrays = any_arrays(r);
    let s = list_of(r.one_in(2), &arrays);
    shapes::maybe_damaged(r, s, 8)
}

/// Some sound records, each whole, with each reserved bit of the head flipped, and six damaged copies.
pub fn records(r: &mut Rng, count: usize, emit: Emit) {
    for _ in 0..count {
        let s = any_sound(r);
        let mut out = reserved_flipped(&s);
        out.extend((0..6).map(|_| shapes::damaged(r, s.clone())));
        out.push(s);
        out.into_iter()
            .for_each(|s| emit(with_room(r, Case::new(READ, vec![], s))));
    }
}
