//! Exp-Golomb codes: every length at every bit of a byte, whole, cut off, and as the last of what is read. The code under test is the height of an
//! SPS, with the rest of the head after it; its depth, with nothing after it; and the operating point of an OPI.

use crate::answers;
use crate::case::Case;
use crate::generator::{with_room_by, Emit};
use crate::shapes::{prevented, Bits};
use original::vvcc::{read_opi_ols_idx, SpsHead};
use std::collections::HashSet;

/// The numbers of the calls.
const UNIT: u8 = 19;
const OPI: u8 = 21;
const RBSP: u8 = 45;

/// The most zeros that a code has before its 1. With z zeros it has 2 z + 1 bits.
const ZEROS: usize = 31;

/// The zeros of the longest code of which every value and every cut is recorded, and of the longest that is also read from a unit.
const RECORDED: usize = 8;
const IN_UNITS: usize = 4;

/// A call and its input.
type Input = (u8, Vec<u8>);

/// A field of an SPS.
type Field = fn(&SpsHead) -> u32;

/// The bits after a code's 1: all 0 for the smallest value of its length, all 1 for the largest, or mixed for one in between.
#[derive(Clone, Copy, PartialEq)]
enum Low {
    Zeros,
    Ones,
    Mixed,
}

/// All of them.
const LOWS: [Low; 3] = [Low::Zeros, Low::Ones, Low::Mixed];

/// The value of a code, by its zeros and its low bits.
fn value(zeros: usize, low: Low) -> u64 {
    let mask = (1 << zeros) - 1;
    let bits = match low {
        Low::Zeros => 0,
        Low::Ones => mask,
        Low::Mixed => 0x5b39_6c95 & mask,
    };
    mask + bits
}

/// Writes a code, and holds its length to the zeros that it must have.
fn put(b: &mut Bits, zeros: usize, low: Low) {
    let start = b.bits.len();
    b.ue(value(zeros, low));
    assert_eq!(b.bits.len() - start, 2 * zeros + 1, "the code's length");
}

/// Puts the same bit up to the end of the last byte.
fn fill(b: &mut Bits, bit: bool) {
    let end = b.bits.len().next_multiple_of(8);
    b.bits.resize(end, bit);
}

/// An SPS up to its width, which begins at bit 19 with the resampling flag and at 18 without it. The bits that are free are all 0 or all 1, so that
/// one which is taken for a bit of a code is noticed.
fn before_width(resampling: bool, ones: bool) -> Bits {
    let free = if ones { u64::MAX } else { 0 };
    let mut b = Bits::default();
    b.u(15, free);
    b.u(1, 0);
    b.u(1, free);
    b.u(1, resampling as u64);
    b.u(resampling as usize, free);
    b
}

/// An SPS up to its height, whose code begins at a bit of a byte: the width's code has 1, 3, 5 or 7 bits.
fn before_height(at: usize, ones: bool) -> Bits {
    let mut b = before_width(at % 2 == 0, ones);
    let bits = (at + 24 - b.bits.len()) % 8;
    put(&mut b, bits / 2, if ones { Low::Ones } else { Low::Zeros });
    assert_eq!(b.bits.len() % 8, at, "where the height begins");
    b
}

/// The rest of a head after the height, which makes it accepted: bits of 1 from a window of zeros, or bits of 0 from no window and a depth of 15.
fn after_height(b: &mut Bits, ones: bool) {
    if ones {
        b.u(7, 0b1111101);
    } else {
        b.u(2, 0);
        b.ue(7);
    }
}

/// The number with which the original refuses an SPS; 0 if it does not.
fn refusal(rbsp: &[u8]) -> u32 {
    answers::answer(&Case::new(RBSP, vec![], rbsp.to_vec())).refusal
}

/// An SPS whose height is a whole code. The original reads the value that was written.
fn whole(zeros: usize, at: usize, low: Low, ones: bool) -> Vec<u8> {
    let mut b = before_height(at, ones);
    put(&mut b, zeros, low);
    after_height(&mut b, ones);
    let s = b.bytes();
    let head = SpsHead::parse_rbsp(&s).expect("the original reads a whole code");
    assert_eq!(u64::from(head.pic_height), value(zeros, low), "the height");
    s
}

/// An SPS that ends after so many bits of the height's code, fewer than it has. The code begins at the bit that makes this the end of a byte. The
/// original refuses it with 11.
fn cut(zeros: usize, left: usize, low: Low, ones: bool) -> Vec<u8> {
    let mut b = before_height((8 - left % 8) % 8, ones);
    let start = b.bits.len();
    put(&mut b, zeros, low);
    assert!(start + left < b.bits.len(), "a cut takes bits away");
    b.bits.truncate(start + left);
    assert_eq!(b.bits.len() % 8, 0, "a cut is at the end of a byte");
    let s = b.bytes();
    assert_eq!(refusal(&s), 11, "the original refuses a cut code");
    s
}

/// An SPS whose height has 32 zeros and then bits of 1, enough for a code of that length. The original refuses it with 12.
fn too_long(at: usize) -> Vec<u8> {
    let mut b = before_height(at, true);
    b.u(ZEROS + 1, 0);
    b.u(ZEROS + 2, u64::MAX);
    fill(&mut b, true);
    let s = b.bytes();
    assert_eq!(refusal(&s), 12, "the original refuses 32 zeros");
    s
}

/// An SPS that ends in the byte where the depth's code ends, with the bits after it all 0 or all 1. Before the code are a height of one bit and two
/// flags. The original reads the depth that was written.
fn ending(depth: u64, at: usize, bit: bool) -> Vec<u8> {
    let mut b = before_height((at + 5) % 8, !bit);
    b.u(3, 0b100);
    assert_eq!(b.bits.len() % 8, at, "where the depth begins");
    b.ue(depth);
    fill(&mut b, bit);
    let s = b.bytes();
    let head = SpsHead::parse_rbsp(&s).expect("the original reads a code at the end");
    assert_eq!(u64::from(head.bit_depth), depth + 8, "the depth");
    s
}

/// Every depth that is accepted, with codes of 1 to 7 bits, at every bit of a byte. A code that lies in the last byte and does not begin with it has
/// fewer than eight bits left.
fn endings() -> Vec<Vec<u8>> {
    let mut out = Vec::new();
    for depth in 0..=8 {
        for at in 0..8 {
            out.extend([false, true].map(|bit| ending(depth, at, bit)));
        }
    }
    out
}

/// The heights with so many zeros: whole at every bit of a byte and every cut, with each kind of low bits, between bits of 0 and of 1.
fn heights(zeros: usize) -> Vec<Vec<u8>> {
    let mut out = Vec::new();
    for low in LOWS {
        for ones in [false, true] {
            out.extend((0..8).map(|at| whole(zeros, at, low, ones)));
            out.extend((0..=2 * zeros).map(|left| cut(zeros, left, low, ones)));
        }
    }
    out
}

/// Those that are recorded. Low bits of 0 stand between bits of 1, and those of 1 between bits of 0. Of a longer code there are one value and one cut
/// at every bit of a byte: one cut before its 1, the others near its end.
fn some_heights(zeros: usize) -> Vec<Vec<u8>> {
    let long = zeros > RECORDED;
    let mut out = Vec::new();
    for at in 0..8 {
        for (i, low) in LOWS.into_iter().enumerate() {
            if !long || (at + zeros) % 3 == i {
                let ones = low == Low::Zeros || low == Low::Mixed && at % 2 == 0;
                out.push(whole(zeros, at, low, ones));
            }
        }
    }
    let first = if long { 2 * zeros - 7 } else { 0 };
    for left in first..=2 * zeros {
        let before_one = long && left % 8 == zeros % 8;
        let left = if before_one { zeros } else { left };
        out.push(cut(zeros, left, LOWS[left % 3], left % 2 == 0));
    }
    out
}

/// An SPS unit of an RBSP, in which emulation prevention may lie inside a code. The original finds the RBSP in it.
fn sps_unit(rbsp: &[u8]) -> Vec<u8> {
    let payload = prevented(rbsp);
    assert_eq!(original::vvcc::extract_rbsp(&payload), rbsp, "the RBSP");
    [vec![0, 0x79], payload].concat()
}

/// An OPI unit of an RBSP. The original reads the operating point that was written, or none where the code is cut off or too long.
fn opi_unit(rbsp: &[u8], point: Option<u64>) -> Vec<u8> {
    let unit = [vec![0, 0x61], prevented(rbsp)].concat();
    assert_eq!(read_opi_ols_idx(&unit).map(u64::from), point, "the point");
    unit
}

/// The RBSP of an OPI with a code of so many zeros, which begins at bit 2. Low bits of 0 stand between bits of 1, others between bits of 0.
fn opi_rbsp(zeros: usize, low: Low) -> Vec<u8> {
    let ones = low == Low::Zeros;
    let mut b = Bits::default();
    b.u(2, 2 | ones as u64);
    put(&mut b, zeros, low);
    fill(&mut b, ones);
    b.bytes()
}

/// OPI units with a code of so many zeros: the smallest and the largest value with nothing after it, each of the bytes 00, 80 and FF after one of
/// them, and a code cut off after every byte before its last.
fn points(zeros: usize) -> Vec<Vec<u8>> {
    let mut out = Vec::new();
    let afters: [(Low, &[u8]); 5] = [
        (Low::Zeros, &[]),
        (Low::Ones, &[]),
        (Low::Ones, &[0]),
        (Low::Zeros, &[0x80]),
        (Low::Zeros, &[0xff]),
    ];
    for (low, after) in afters {
        let rbsp = [&opi_rbsp(zeros, low), after].concat();
        out.push(opi_unit(&rbsp, Some(value(zeros, low))));
    }
    let mixed = opi_rbsp(zeros, Low::Mixed);
    out.extend((0..mixed.len()).map(|n| opi_unit(&mixed[..n], None)));
    out
}

/// An OPI unit whose code has 32 zeros and then bits of 1, enough for a code of that length.
fn too_long_point() -> Vec<u8> {
    let mut b = Bits::default();
    b.u(2, 3);
    b.u(ZEROS + 1, 0);
    b.u(ZEROS + 2, u64::MAX);
    fill(&mut b, true);
    opi_unit(&b.bytes(), None)
}

/// The value of the code that eight bits begin with. It is whole in them if one of the first four is 1.
fn value_in(bits: u8) -> u64 {
    u64::from(bits >> (7 - 2 * bits.leading_zeros())) - 1
}

/// An SPS that begins with some bits and then eight more, with sixteen after them such that the original accepts it. None if there are none. The
/// original reads the code in the eight bits, if it is whole in them, as the field that a function returns.
fn completed(b: &Bits, bits: u8, field: Field) -> Option<Vec<u8>> {
    let with_end = |end: u64| {
        let mut b = b.clone();
        b.u(8, bits.into());
        b.u(16, end);
        let s = b.bytes();
        let head = SpsHead::parse_rbsp(&s).ok()?;
        if bits >= 0x10 {
            assert_eq!(u64::from(field(&head)), value_in(bits), "the value");
        }
        Some(s)
    };
    (0..=0xffff).find_map(with_end)
}

/// An SPS where the eight bits from a code's first on are given: from that of the height, the window or the width, whichever can be accepted. With
/// bits of 1 alone none can. The height or the window begins at a bit of a byte. What comes after the code is read too, so that a wrong length of it
/// is noticed as well as a wrong value.
fn with_eight(bits: u8, at: usize) -> Option<Vec<u8>> {
    let ones = bits % 2 == 0;
    let mut window = before_height((at + 6) % 8, ones);
    window.u(2, 3);
    let places: [(Bits, Field); 3] = [
        (before_height(at, ones), |h| h.pic_height),
        (window, |h| h.conformance_window.map_or(0, |w| w.0)),
        (before_width(false, ones), |h| h.pic_width),
    ];
    let found = places.iter().find_map(|(b, f)| completed(b, bits, *f));
    assert_eq!(found.is_some(), bits != 0xff, "which bits are accepted");
    found
}

/// An SPS with eight bits of 1 from the width's first on, then a 0. The last of them says that there are subpictures, so the original refuses it with
/// 13. If the width were taken for a bit longer, the 0 would say that there are none.
fn with_ones() -> Vec<u8> {
    let mut b = before_width(false, false);
    b.u(10, 0x3fd);
    let s = b.bytes();
    assert_eq!(refusal(&s), 13, "the original refuses subpictures");
    s
}

/// Inputs of one call.
fn of_call(call: u8, inputs: impl IntoIterator<Item = Vec<u8>>) -> Vec<Input> {
    inputs.into_iter().map(|s| (call, s)).collect()
}

/// What both lists have: 32 zeros at every bit of a byte, bits of 1 alone, the endings, and the OPI units.
fn in_both() -> Vec<Input> {
    let mut out = of_call(RBSP, (0..8).map(too_long));
    out.push((RBSP, with_ones()));
    out.extend(of_call(RBSP, endings()));
    out.extend(of_call(OPI, (0..=ZEROS).flat_map(points)));
    out.push((OPI, too_long_point()));
    out
}

/// Sends each input once. None has a result that is written, so the outputs are of 0 to 2 bytes.
fn send(inputs: Vec<Input>, emit: Emit) {
    let mut sent = HashSet::new();
    for (call, s) in inputs {
        if sent.insert((call, s.clone())) {
            emit(with_room_by(sent.len(), Case::new(call, vec![], s)));
        }
    }
}

/// Every code, and every eight bits at every bit of a byte; codes of up to nine bits and the endings also in SPS units.
pub fn codes(emit: Emit) {
    let mut out = of_call(RBSP, (0..=ZEROS).flat_map(heights));
    let eights = (0..8).flat_map(|at| (0..=0xff).filter_map(move |bits| with_eight(bits, at)));
    out.extend(of_call(RBSP, eights));
    let in_units = (0..=IN_UNITS).flat_map(heights).chain(endings());
    out.extend(of_call(UNIT, in_units.map(|s| sps_unit(&s))));
    out.extend(in_both());
    send(out, emit);
}

/// Short cases: all codes of up to 17 bits, some of each greater length, and every eight bits once.
pub fn short(emit: Emit) {
    let mut out = of_call(RBSP, (0..=ZEROS).flat_map(some_heights));
    let eights = (0..=0xff).filter_map(|bits: u8| with_eight(bits, usize::from(bits) % 8));
    out.extend(of_call(RBSP, eights));
    out.extend(in_both());
    send(out, emit);
}
