//! Parameter sets, units, lists, records, items and streams of every shape, valid ones and damaged copies.

use crate::rng::Rng;
use crate::versions;
use original::hvcc::NalArray;
use original::vvcc::VvcNalArray;

/// Bits, the highest of a byte first.
#[derive(Clone, Default)]
pub(crate) struct Bits {
    pub(crate) bits: Vec<bool>,
}

impl Bits {
    pub(crate) fn u(&mut self, n: usize, v: u64) {
        self.bits.extend((0..n).rev().map(|i| v >> i & 1 == 1));
    }

    fn random(&mut self, r: &mut Rng, n: usize) {
        for _ in 0..n {
            self.bits.push(r.one_in(2));
        }
    }

    pub(crate) fn ue(&mut self, v: u64) {
        let n = 64 - (v + 1).leading_zeros() as usize;
        self.u(n - 1, 0);
        self.u(n, v + 1);
    }

    fn align(&mut self, r: &mut Rng) {
        let random = r.one_in(4);
        while self.bits.len() % 8 != 0 {
            self.bits.push(random && r.one_in(2));
        }
    }

    pub(crate) fn bytes(&self) -> Vec<u8> {
        self.bits
            .chunks(8)
            .map(|c| {
                c.iter()
                    .enumerate()
                    .fold(0, |b, (i, &x)| b | (x as u8) << (7 - i))
            })
            .collect()
    }
}

/// An Exp-Golomb value: small, at a power of two, or the largest.
fn value(r: &mut Rng) -> u64 {
    match r.below(8) {
        0..=3 => r.below(40) as u64,
        4 => (1u64 << r.below(32)) - 1,
        5 => (1u64 << r.below(32)).min(0xffff_fffe),
        6 => r.next() & 0xffff_ffff & !1,
        _ => 0xffff_fffe,
    }
}

fn ptl(r: &mut Rng, b: &mut Bits, s: u64) {
    b.u(7, r.pick(&[0, 1, 17, 65, 127]));
    b.random(r, 1);
    b.u(8, r.pick(&[0, 51, 64, 255]));
    b.random(r, 2);
    if r.one_in(2) {
        b.u(1, 1);
        b.random(r, 71);
        let more = r.pick(&[0, 0, 1, 5, 6, 7, 8, 200, 254, 255]);
        b.u(8, more);
        b.random(r, more as usize);
    } else {
        b.u(1, 0);
    }
    b.align(r);
    if s > 0 {
        let flags: Vec<bool> = (0..s).map(|_| r.one_in(2)).collect();
        b.bits.extend(&flags);
        b.random(r, 8 - s as usize);
        for _ in flags.iter().filter(|f| **f) {
            b.random(r, 8);
        }
    }
    let subs = r.pick(&[0, 0, 0, 1, 2, 3, 7]);
    let subs = if r.one_in(100) { 255 } else { subs };
    b.u(8, subs);
    b.random(r, 32 * subs as usize);
}

fn sublayers(r: &mut Rng) -> u64 {
    if r.one_in(2) {
        0
    } else {
        r.below(8) as u64
    }
}

/// Emulation prevention put into a payload.
pub(crate) fn prevented(payload: &[u8]) -> Vec<u8> {
    let mut out = Vec::new();
    let mut zeros = 0;
    for &b in payload {
        if zeros >= 2 && b <= 3 {
            out.push(3);
            zeros = 0;
        }
        out.push(b);
        zeros = if b == 0 { zeros + 1 } else { 0 };
    }
    out
}

/// A unit of a type with a payload; its other header bits are random or plain.
fn unit_of(r: &mut Rng, t: u8, payload: &[u8]) -> Vec<u8> {
    let plain = !r.one_in(5);
    let first = if plain { 0 } else { r.byte() };
    let second = t << 3 | if plain { 1 } else { r.byte() & 7 };
    let mut out = vec![first, second];
    out.extend(if r.one_in(8) {
        payload.to_vec()
    } else {
        prevented(payload)
    });
    out
}

fn tail(r: &mut Rng, b: &mut Bits) {
    match r.below(4) {
        0 => {}
        1 => b.u(1, 1),
        _ => {
            b.u(1, 1);
            b.align(r);
            let n = r.below(6);
            b.random(r, 8 * n);
        }
    }
}

/// An SPS unit; now and then one that is refused with 12, 13 or 14.
pub fn sps(r: &mut Rng) -> Vec<u8> {
    let mut b = Bits::default();
    let s = sublayers(r);
    b.random(r, 8);
    b.u(3, s);
    b.random(r, 4);
    let present = !r.one_in(4);
    b.u(1, present as u64);
    if present {
        ptl(r, &mut b, s);
    }
    b.random(r, 1);
    let resampling = r.one_in(3);
    b.u(1, resampling as u64);
    if resampling {
        b.random(r, 1);
    }
    // one of the values may have 32 zeros before it (refusal 12)
    let bad = if r.one_in(12) { r.below(7) } else { 7 };
    let put = |b: &mut Bits, i: usize, v: u64| {
        if i == bad {
            b.u(32, 0);
        }
        b.ue(v);
    };
    for i in 0..2 {
        let v = value(r);
        put(&mut b, i, v);
    }
    let window = r.one_in(2);
    b.u(1, window as u64);
    if window {
        for i in 2..6 {
            let v = value(r);
            put(&mut b, i, v);
        }
    }
    b.u(1, r.one_in(12) as u64);
    let depth = if r.one_in(10) {
        value(r)
    } else {
        r.below(10) as u64
    };
    put(&mut b, 6, depth);
    tail(r, &mut b);
    unit_of(r, 15, &b.bytes())
}

/// A VPS unit; now and then one with several layers.
pub fn vps(r: &mut Rng) -> Vec<u8> {
    let mut b = Bits::default();
    let s = sublayers(r);
    b.random(r, 4);
    let layers = if r.one_in(6) {
        r.pick(&[1, 1, 2, 32, 63])
    } else {
        0
    };
    b.u(6, layers);
    b.u(3, s);
    b.random(r, 6);
    b.align(r);
    ptl(r, &mut b, s);
    tail(r, &mut b);
    unit_of(r, 14, &b.bytes())
}

/// An OPI unit; now and then one whose operating point is absent or does not read.
pub fn opi(r: &mut Rng) -> Vec<u8> {
    let mut b = Bits::default();
    b.u(1, !r.one_in(5) as u64);
    b.random(r, 1);
    if r.one_in(20) {
        b.u(32, 0);
    }
    let v = if r.one_in(3) {
        value(r)
    } else {
        r.below(4) as u64
    };
    b.ue(v);
    tail(r, &mut b);
    unit_of(r, 12, &b.bytes())
}

/// The longest SPS: seven levels, all constraint bits, 255 sub-profiles, every value the largest.
pub fn longest_sps() -> Vec<u8> {
    let mut b = Bits::default();
    b.u(8, 0xff);
    b.u(3, 7);
    b.u(4, 0xf);
    b.u(1, 1);
    longest_ptl(&mut b);
    b.u(3, 7);
    for _ in 0..2 {
        b.ue(0xffff_fffe);
    }
    b.u(1, 1);
    for _ in 0..4 {
        b.ue(0xffff_fffe);
    }
    b.u(1, 0);
    b.ue(8);
    [vec![0, 0x79], prevented(&b.bytes())].concat()
}

/// The longest VPS that reads.
pub fn longest_vps() -> Vec<u8> {
    let mut b = Bits::default();
    b.u(4, 15);
    b.u(6, 0);
    b.u(3, 7);
    b.u(11, 0x7ff);
    longest_ptl(&mut b);
    [vec![0, 0x71], prevented(&b.bytes())].concat()
}

fn longest_ptl(b: &mut Bits) {
    b.u(16, 0xffff);
    b.u(3, 7);
    for _ in 0..71 {
        b.u(1, 1);
    }
    b.u(8, 255);
    for _ in 0..255 {
        b.u(1, 1);
    }
    while b.bits.len() % 8 != 0 {
        b.u(1, 1);
    }
    b.u(8, 0xff);
    b.u(56, (1 << 56) - 1);
    b.u(8, 255);
    for i in 0..255 {
        b.u(32, 0xffff_ff00 | i);
    }
}

/// A unit of any kind.
pub fn unit(r: &mut Rng) -> Vec<u8> {
    match r.below(12) {
        0 => sps(r),
        1 => vps(r),
        2 | 3 => opi(r),
        4 => unit_of(r, 20, &[0x50]),
        5 => {
            let n = r.below(40);
            let p = r.bytes(n);
            unit_of(r, 8, &p)
        }
        6 => {
            let n = r.below(4);
            r.bytes(n)
        }
        7 => {
            let n = r.below(300);
            r.bytes(n)
        }
        _ => {
            let n = r.below(12);
            let p = r.bytes(n);
            let t = r.below(32) as u8;
            unit_of(r, t, &p)
        }
    }
}

/// A few units.
pub fn units(r: &mut Rng) -> Vec<Vec<u8>> {
    let n = match r.below(12) {
        0 => 0,
        1 => r.pick(&[31, 32, 33, 34]),
        _ => r.below(6),
    };
    (0..n)
        .map(|_| {
            if n > 20 {
                let m = r.below(5);
                r.bytes(m)
            } else {
                unit(r)
            }
        })
        .collect()
}

/// Units as a camera stores them: an SPS, a PPS, often a VPS, in any order; now and then without one of them.
pub fn still_units(r: &mut Rng) -> Vec<Vec<u8>> {
    let mut out = Vec::new();
    if !r.one_in(8) {
        out.push(sps(r));
    }
    if r.one_in(2) {
        out.push(vps(r));
    }
    for t in [16, 17, 23, 16] {
        if r.one_in(2) {
            let n = r.below(9);
            let p = r.bytes(n);
            out.push(unit_of(r, t, &p));
        }
    }
    if r.one_in(6) {
        out.push(unit(r));
    }
    for i in (1..out.len()).rev() {
        out.swap(i, r.below(i + 1));
    }
    out
}

/// A changed copy: cut, a byte changed, inserted or removed, or bytes added at the end.
pub fn damaged(r: &mut Rng, mut s: Vec<u8>) -> Vec<u8> {
    if s.is_empty() {
        let n = r.below(4);
        return r.bytes(n);
    }
    let at = r.below(s.len());
    match r.below(7) {
        0 => s.truncate(at),
        1 => s.truncate(s.len() - 1),
        2 => s[at] = r.byte(),
        3 => s[at] ^= 1 << r.below(8),
        4 => s.insert(at, r.pick(&[0, 1, 2, 3, 255])),
        5 => {
            s.remove(at);
        }
        _ => {
            let n = 1 + r.below(4);
            s.extend(r.bytes(n));
        }
    }
    s
}

/// Sound most of the time, else a damaged copy.
pub fn maybe_damaged(r: &mut Rng, s: Vec<u8>, one_in: usize) -> Vec<u8> {
    if r.one_in(one_in) {
        damaged(r, s)
    } else {
        s
    }
}

/// Arrays for a list.
pub fn arrays(r: &mut Rng) -> Vec<VvcNalArray> {
    match r.below(5) {
        0 => {
            let u = if r.one_in(2) {
                still_units(r)
            } else {
                units(r)
            };
            vec![VvcNalArray::new(false, 0, u)]
        }
        1 | 2 => {
            let mut out: Vec<VvcNalArray> = Vec::new();
            for u in still_units(r) {
                let t = u.get(1).map_or(31, |b| b >> 3);
                match out.iter_mut().find(|a| a.nal_unit_type == t) {
                    Some(a) => a.nal_units.push(u),
                    None => out.push(VvcNalArray::new(true, t, vec![u])),
                }
            }
            out
        }
        _ => {
            let n = if r.one_in(400) {
                r.pick(&[254, 255, 256])
            } else {
                r.below(5)
            };
            (0..n)
                .map(|_| {
                    let t = if r.one_in(3) {
                        r.pick(&[12, 13, 15])
                    } else {
                        r.below(32) as u8
                    };
                    let few = (t == 12 || t == 13) && !r.one_in(4);
                    let m = if few {
                        1
                    } else if n > 100 {
                        r.below(2)
                    } else {
                        r.below(4)
                    };
                    let u = (0..m)
                        .map(|_| if n > 100 { r.bytes(2) } else { unit(r) })
                        .collect();
                    VvcNalArray::new(r.one_in(2), t, u)
                })
                .collect()
        }
    }
}

/// Arrays as a list may have them: half of the types from 32 on, half of the arrays with the reserved bit.
pub fn widened(r: &mut Rng, arrays: Vec<VvcNalArray>) -> Vec<NalArray> {
    arrays
        .into_iter()
        .map(|a| {
            let t = match r.below(4) {
                0 => a.nal_unit_type + 32,
                1 => r.pick(&[32, 33, 34, 39, 40, 47, 63]),
                _ => a.nal_unit_type,
            };
            NalArray::new(a.complete, r.one_in(2), t, a.nal_units)
        })
        .collect()
}

/// The list of arrays, in either version; for one in four also with types and reserved bits that a full record's arrays do not have.
fn list_of(r: &mut Rng, arrays: Vec<VvcNalArray>) -> Vec<u8> {
    let plain = |a: VvcNalArray| NalArray::new(a.complete, false, a.nal_unit_type, a.nal_units);
    let arrays = if r.one_in(4) {
        widened(r, arrays)
    } else {
        arrays.into_iter().map(plain).collect()
    };
    versions::list_of(r.one_in(2), &arrays)
}

/// A unit list.
pub fn list(r: &mut Rng) -> Vec<u8> {
    let a = arrays(r);
    let s = list_of(r, a);
    maybe_damaged(r, s, 8)
}

/// A unit list as compact read returns it.
pub fn still_list(r: &mut Rng) -> Vec<u8> {
    let u = still_units(r);
    let s = list_of(r, vec![VvcNalArray::new(false, 0, u)]);
    maybe_damaged(r, s, 40)
}

/// An HEVC unit of a type: its header of two bytes, and a payload.
pub fn hevc_unit(r: &mut Rng, t: u8) -> Vec<u8> {
    let n = r.below(30);
    [vec![t << 1, 1], prevented(&r.bytes(n))].concat()
}

/// A compact record.
pub fn compact(r: &mut Rng) -> Vec<u8> {
    let mut u = if r.one_in(3) {
        units(r)
    } else {
        still_units(r)
    };
    u.retain(|x| x.len() < 256);
    let n = r.pick(&[2, 2, 2, 3, 3, 4, 5, 6, 32, 33]);
    while u.len() < n {
        let m = r.pick(&[0, 1, 2, 3, 255]);
        u.push(if n > 10 && m == 255 {
            Vec::new()
        } else {
            r.bytes(m)
        });
    }
    u.truncate(33);
    let mut out = vec![r.byte() & 0xe0 | (u.len() - 2) as u8];
    for x in u {
        out.push(x.len() as u8);
        out.extend(x);
    }
    maybe_damaged(r, out, 5)
}

/// Bits under a mask: plain or random.
fn noisy(r: &mut Rng, noise: bool, mask: u8, plain: u8) -> u8 {
    if noise {
        r.byte() & mask
    } else {
        plain & mask
    }
}

/// The PTL of a full record with so many sublayers, which reads; its reserved bits plain or random.
fn full_ptl(r: &mut Rng, noise: bool, sublayers: u8) -> Vec<u8> {
    let info = r.pick(&[1, 1, 2, 10, 43, 62, 63]);
    let mut out = vec![noisy(r, noise, 0xc0, 0) | info];
    out.extend(r.bytes(2 + info as usize));
    if sublayers > 1 {
        let no_flags = 0xff >> (sublayers - 1);
        let flags = r.byte() & !no_flags;
        out.push(flags | noisy(r, noise, no_flags, 0));
        out.extend((0..flags.count_ones()).map(|_| r.byte()));
    }
    let subs = if r.one_in(60) { 255 } else { r.below(4) };
    out.push(subs as u8);
    out.extend(r.bytes(4 * subs));
    out
}

/// The head of a full record that reads, its reserved bits plain or random.
fn full_head(r: &mut Rng, noise: bool) -> Vec<u8> {
    let present = r.one_in(2);
    let size = r.pick(&[0, 1, 3]);
    let mut out = vec![noisy(r, noise, 0xf8, 0xf8) | size << 1 | present as u8];
    if present {
        let sub = r.below(8) as u8;
        let ols = if r.one_in(2) { 0 } else { r.below(512) as u16 };
        let w = ols << 7 | u16::from(sub) << 4 | (r.byte() & 15) as u16;
        out.extend(w.to_be_bytes());
        out.push(noisy(r, noise, 0x1f, 0x1f) | r.byte() & 0xe0);
        out.extend(full_ptl(r, noise, sub));
        out.extend(r.bytes(6));
    }
    out
}

/// An array of a full record, its reserved bits plain or random.
fn full_array(r: &mut Rng, noise: bool, a: VvcNalArray) -> Vec<u8> {
    let mut out = vec![noisy(r, noise, 0x60, 0) | (a.complete as u8) << 7 | a.nal_unit_type];
    let mut u = a.nal_units;
    if a.nal_unit_type == 12 || a.nal_unit_type == 13 {
        u.resize(1, Vec::new());
    } else {
        out.extend((u.len() as u16).to_be_bytes());
    }
    for y in u {
        out.extend((y.len() as u16).to_be_bytes());
        out.extend(y);
    }
    out
}

/// The count of a full record's arrays, and the arrays.
fn full_arrays(r: &mut Rng, noise: bool, mut a: Vec<VvcNalArray>) -> Vec<u8> {
    a.truncate(255);
    let mut out = vec![a.len() as u8];
    for x in a {
        out.extend(full_array(r, noise, x));
    }
    out
}

/// A full record, its reserved bits plain or random; now and then with prefix size 3, or with constraint length 0.
pub fn full(r: &mut Rng) -> Vec<u8> {
    let noise = r.one_in(2);
    let mut out = full_head(r, noise);
    if r.one_in(12) {
        out[0] = out[0] & !6 | 4;
    }
    if out.len() > 1 && r.one_in(12) {
        out[4] &= 0xc0;
    }
    let a = arrays(r);
    out.extend(full_arrays(r, noise, a));
    if r.one_in(4) {
        let m = r.below(5);
        out.extend(r.bytes(m));
    }
    maybe_damaged(r, out, 4)
}

/// A full record that strict reading accepts.
pub fn strict(r: &mut Rng) -> Vec<u8> {
    let mut out = full_head(r, false);
    let mut a = arrays(r);
    for x in &mut a {
        if !matches!(x.nal_unit_type, 12..=17 | 23) {
            x.nal_unit_type = r.pick(&[12, 13, 14, 15, 16, 17, 23]);
        }
    }
    out.extend(full_arrays(r, false, a));
    out
}

/// An item of length-prefixed units.
pub fn item(r: &mut Rng, size: u8) -> Vec<u8> {
    let n = match r.below(6) {
        0 => 0,
        1 | 2 => 1,
        _ => r.below(6),
    };
    let width = size.clamp(1, 4) as usize;
    let mut out = Vec::new();
    for i in 0..n {
        let mut u = if i < 3 && r.one_in(3) {
            let t = r.pick(&[20, 12]);
            if t == 12 {
                opi(r)
            } else {
                unit_of(r, 20, &[0x50])
            }
        } else {
            unit(r)
        };
        if u.is_empty() && !r.one_in(10) {
            u.push(r.byte());
        }
        if width == 1 {
            u.truncate(255);
        }
        out.extend(&(u.len() as u32).to_be_bytes()[4 - width..]);
        out.extend(u);
    }
    maybe_damaged(r, out, 6)
}

/// An item that is one plain still, or nearly.
pub fn still_item(r: &mut Rng, size: u8) -> Vec<u8> {
    let width = size.clamp(1, 4) as usize;
    let n = r.pick(&[0, 1, 2, 9, 253]);
    let mut u = vec![if r.one_in(3) { r.byte() & 0xc0 } else { 0 }, 0x41];
    if r.one_in(6) {
        let at = r.below(2);
        u[at] ^= 1 << r.below(8);
    }
    u.extend(r.bytes(n));
    if r.one_in(12) {
        u.truncate(r.below(3));
    }
    let mut out = (u.len() as u32).to_be_bytes()[4 - width..].to_vec();
    out.extend(u);
    if r.one_in(10) {
        let copy = out.clone();
        out.extend(copy);
    }
    maybe_damaged(r, out, 6)
}

/// A byte stream with start codes of three and four bytes.
pub fn stream(r: &mut Rng) -> Vec<u8> {
    let n = r.below(4);
    let mut out = r.bytes(n);
    for _ in 0..r.below(6) {
        let zeros = r.pick(&[2, 2, 3, 3, 4, 6]);
        out.extend(vec![0; zeros]);
        out.push(1);
        out.extend(unit(r));
    }
    out.extend(vec![0; r.below(3)]);
    maybe_damaged(r, out, 5)
}
