//! The cases: every short string, limits, and calls on inputs of every shape.

use crate::answers;
use crate::case::Case;
use crate::directory_cases;
use crate::hevc;
use crate::reading::list_bytes;
use crate::rng::Rng;
use crate::shapes;
use crate::strict;
use original::vvcc::VvcNalArray;

/// Where cases are sent.
pub type Emit<'a> = &'a mut dyn FnMut(Case);

/// The length of the result of a case, if it has one. For strict reading it is that of the plain reader, so that what only the rules refuse is also
/// tried with an output that would do.
fn result_of(c: &Case) -> Option<usize> {
    match c.op {
        50 => answers::answer(&Case::new(32, vec![], c.first.clone())).result,
        _ => answers::answer(c).result,
    }
}

/// A fill byte and an output length for a case: the result's, one short, longer, far too short or none.
pub fn with_room(r: &mut Rng, mut c: Case) -> Case {
    c.fill = r.byte();
    c.room = match result_of(&c) {
        None => r.below(5),
        Some(n) => match r.below(12) {
            0..=4 => n,
            5 => n.saturating_sub(1),
            6 => 0,
            7 => r.below(n + 1),
            _ => n + 1 + r.below(9),
        },
    };
    c
}

/// The same without random numbers, by a running number.
pub fn with_room_by(i: usize, mut c: Case) -> Case {
    c.fill = (i * 7 + 1) as u8;
    let n = result_of(&c).unwrap_or(0);
    c.room = match i % 5 {
        0 | 1 => n,
        2 => n.saturating_sub(1),
        _ => n + i % 3,
    };
    c
}

fn eight(n: u64) -> Vec<u8> {
    n.to_be_bytes().to_vec()
}

pub fn size_and_k(size: u8, k: u64) -> Vec<u8> {
    [vec![size], eight(k)].concat()
}

/// Runs over every string over an alphabet up to a length.
pub fn strings(alphabet: &[u8], longest: usize, f: &mut dyn FnMut(&[u8])) {
    let mut digits: Vec<usize> = Vec::new();
    loop {
        let s: Vec<u8> = digits.iter().map(|&d| alphabet[d]).collect();
        f(&s);
        let mut i = 0;
        loop {
            if i == digits.len() {
                digits.push(0);
                break;
            }
            digits[i] += 1;
            if digits[i] < alphabet.len() {
                break;
            }
            digits[i] = 0;
            i += 1;
        }
        if digits.len() > longest {
            return;
        }
    }
}

/// Every call that reads bytes, on every string up to `longest` bytes; parameter sets also after their headers, HEVC records after a head.
pub fn short_strings(longest: usize, emit: Emit) {
    let all: Vec<u8> = (0..=255).collect();
    // a directory whose first entry is in use, by the total of type 0
    let in_use = [vec![1], vec![0; 17], vec![1]].concat();
    let plain: Vec<(u8, Vec<u8>)> = vec![
        (3, eight(0)),
        (3, eight(1)),
        (4, eight(0)),
        (5, eight(0)),
        (6, vec![]),
        (7, vec![]),
        (8, vec![]),
        (9, vec![]),
        (14, vec![]),
        (15, vec![]),
        (16, vec![]),
        (17, vec![]),
        (18, vec![]),
        (19, vec![]),
        (20, vec![]),
        (21, vec![]),
        (23, vec![1]),
        (23, vec![2]),
        (23, vec![3]),
        (23, vec![4]),
        (24, size_and_k(1, 0)),
        (25, vec![]),
        (26, vec![]),
        (27, vec![]),
        (28, vec![]),
        (30, vec![0, 1]),
        (31, vec![0, 1]),
        (32, vec![]),
        (39, size_and_k(1, 0)),
        (39, size_and_k(1, 1)),
        (39, size_and_k(2, 0)),
        (40, vec![]),
        (41, vec![]),
        (42, size_and_k(1, 0)),
        (43, vec![]),
        (45, vec![]),
        (46, vec![]),
        (47, vec![]),
        (50, vec![]),
        (51, vec![]),
        (55, vec![]),
        (59, vec![]),
        (60, vec![]),
        (56, in_use.clone()),
        (57, in_use.clone()),
        (58, in_use),
    ];
    let mut i = 0;
    for (op, numbers) in plain {
        strings(&all, longest, &mut |s| {
            i += 1;
            emit(with_room_by(i, Case::new(op, numbers.clone(), s.to_vec())));
        });
    }
    let hevc_head = [vec![1], vec![0x5a; 21]].concat();
    for (op, header) in [
        (19, vec![0, 0x79]),
        (20, vec![0, 0x71]),
        (21, vec![0, 0x61]),
        (51, hevc_head),
    ] {
        strings(&all, longest, &mut |s| {
            i += 1;
            emit(with_room_by(
                i,
                Case::new(op, vec![], [&header, s].concat()),
            ));
        });
    }
}

/// The calls for every unit of a stream: each by its number, and one more; the next unit from every place.
pub fn unit_calls(stream: &[u8]) -> Vec<(u8, Vec<u8>)> {
    let n = original::hvcc::split_annex_b(stream).len() as u64;
    let units = (0..=n).flat_map(|k| [26, 43].map(|op| (op, size_and_k(0, k))));
    let places = if n > 0 { stream.len() as u64 } else { 1 };
    let next = (0..places).map(|p| (27, size_and_k(0, p)));
    units.chain(next).collect()
}

/// Every string over 00, 01, 02 and 03 up to `longest` bytes, for RBSP, streams and the unit check.
pub fn zero_strings(longest: usize, emit: Emit) {
    let mut i = 0;
    strings(&[0, 1, 2, 3], longest, &mut |s| {
        let mut calls = vec![(18, vec![]), (25, vec![]), (9, vec![])];
        calls.extend(unit_calls(s));
        for (op, numbers) in calls {
            i += 1;
            emit(with_room_by(i, Case::new(op, numbers, s.to_vec())));
        }
    });
}

/// A head of zeros with bytes at a place.
fn head_with(at: usize, bytes: &[u8]) -> Vec<u8> {
    [&vec![0; at], bytes].concat()
}

/// Calls on numbers alone: every refusal, every type, every depth, headers and counts at their limits.
pub fn numbers(emit: Emit) {
    for n in 1..=29 {
        emit(Case::new(1, vec![n], vec![]));
    }
    for t in 0..=255 {
        for op in 11..=13 {
            emit(Case::new(op, vec![t], vec![]));
        }
        emit(Case::new(2, head_with(7, &[t]), vec![]));
        for layer in [0, 1, 63, 64, 255] {
            for temporal in [0, 1, 7, 8, 255] {
                emit(Case::new(10, vec![t, layer, temporal], vec![]));
            }
        }
    }
    for n in [0, 1, 2, 5, 6, 7, 8, 62, 63, 64, 254, 255, 256, 65535u16] {
        emit(Case::new(48, head_with(21, &n.to_be_bytes()), vec![]));
        emit(Case::new(49, head_with(19, &n.to_be_bytes()), vec![]));
    }
    let s: Vec<u8> = (0..12).map(|i| 0x11 * (i + 1)).collect();
    let places = [
        0,
        1,
        7,
        8,
        9,
        10,
        11,
        12,
        13,
        1 << 32,
        (1 << 63) - 1,
        u64::MAX - 1,
        u64::MAX,
    ];
    for at in places {
        for op in 3..=5 {
            emit(Case::new(op, eight(at), s.clone()));
        }
        emit(Case::new(
            27,
            size_and_k(0, at),
            vec![0, 0, 1, 9, 0, 0, 1, 8],
        ));
        for op in [15, 17, 40, 41] {
            emit(Case::new(
                op,
                size_and_k(3, at),
                list_bytes(&[VvcNalArray::new(true, 3, vec![vec![5]; 9])]),
            ));
        }
        for op in [24, 39, 42] {
            emit(Case::new(op, size_and_k(1, at), [1, 9].repeat(9)));
        }
        for op in [26, 43] {
            emit(Case::new(op, size_and_k(0, at), [0, 0, 1, 9].repeat(9)));
        }
    }
}

/// The worked bytes of docs/SCOPE.md 7.
pub fn worked(emit: Emit) {
    let p = [0, 0x79, 0, 0x0d, 2, 0x33, 0x80, 0, 2, 0x22, 0x4c];
    let q = [0, 0x81, 0x80];
    let record = [&[0x60, 11][..], &p, &[3], &q].concat();
    let list = list_bytes(&[VvcNalArray::new(false, 0, vec![p.to_vec(), q.to_vec()])]);
    let grouped = list_bytes(&[
        VvcNalArray::new(true, 15, vec![p.to_vec()]),
        VvcNalArray::new(true, 16, vec![q.to_vec()]),
    ]);
    let expanded = [0, 4, 1, 8, 0, 0, 0, 16, 0, 0, 0, 8].to_vec();
    let head = |size: u8, ptl: bool| -> Vec<u8> {
        let mut h = vec![size, ptl as u8, 0, 0, 1, 1, 1, 0, 0, 16, 0, 8, 0, 0];
        h.extend([1, 0, 51, 1, 0, 0, 1, 0, 0, 0, 0, 0]);
        h
    };
    let calls: Vec<(u8, Vec<u8>, Vec<u8>)> = vec![
        (28, vec![], record),
        (19, vec![], p.to_vec()),
        (35, vec![&[0][..], &expanded[1..]].concat(), list.clone()),
        (33, head(4, true), grouped.clone()),
        (33, head(1, false), vec![1]),
        (30, vec![0, 4], vec![0x9a]),
        (30, vec![0, 1], vec![0x9a; 253]),
        (30, vec![0, 1], vec![0x9a; 254]),
        (30, vec![1, 9], vec![0x9a; 3]),
        (28, vec![], vec![0x40, 0, 0]),
        (28, vec![], vec![0x40, 0]),
        (28, vec![], vec![0x40, 0, 0, 0]),
        (32, vec![], vec![0, 0, 0x55]),
        (32, vec![], vec![0xfc, 0]),
        (18, vec![], vec![0, 0, 3, 0, 0, 3]),
        (31, vec![0, 4], vec![0, 0, 0, 3, 0x40, 0x41, 0x9a]),
        (31, vec![0, 4], vec![0, 0, 0, 3, 0, 0x41, 0x9a]),
        (31, vec![1, 9], vec![1, 2, 3]),
    ];
    for (op, numbers, first) in calls {
        for more in [0, 2] {
            let mut c = Case::new(op, numbers.clone(), first.clone());
            c.fill = 0xee;
            c.room = result_of(&c).unwrap_or(0) + more;
            emit(c);
        }
    }
}

/// Cases too long for a recorded list: fields and counts at and above 16 bits.
pub fn large(emit: Emit) {
    let mut i = 0;
    let mut put = |op: u8, numbers: Vec<u8>, first: Vec<u8>, second: Vec<u8>| {
        i += 1;
        let mut c = Case::new(op, numbers, first);
        c.second = second;
        emit(with_room_by(i, c.clone()));
        emit(with_room_by(i + 2, c));
    };
    let head = |ptl: u8| [vec![4, ptl], vec![0; 23]].concat();
    for n in [65534, 65535, 65536, 70000] {
        let one = list_bytes(&[VvcNalArray::new(true, 23, vec![vec![7; n]])]);
        let many = list_bytes(&[VvcNalArray::new(false, 16, vec![Vec::new(); n])]);
        for list in [one, many] {
            for ptl in [0, 1] {
                put(33, head(ptl), list.clone(), vec![]);
                put(53, head(ptl), list.clone(), vec![]);
            }
            put(14, vec![], list.clone(), vec![]);
            put(15, size_and_k(0, n as u64 - 1), list.clone(), vec![]);
            put(40, size_and_k(0, n as u64 - 1), list.clone(), vec![]);
            put(55, vec![], list.clone(), vec![]);
            put(29, vec![0, 4], list.clone(), vec![]);
            put(
                35,
                [vec![0, 4, 1, 8], vec![0; 8]].concat(),
                list.clone(),
                vec![],
            );
            put(
                36,
                [vec![0; 11], head(0)].concat(),
                list.clone(),
                vec![0, 0, 0, 1, 9],
            );
            put(
                37,
                [vec![0; 11], head(0)].concat(),
                list,
                vec![0, 0, 0, 1, 9],
            );
        }
    }
    for n in [253, 254, 65533, 65534, 70000] {
        for size in 1..=4 {
            put(30, vec![0, size], vec![0x55; n], vec![]);
        }
        put(30, vec![1, 0], vec![0x55; n], vec![]);
        put(18, vec![], [0, 0, 3].repeat(n / 3), vec![]);
        for op in [26, 43] {
            put(
                op,
                size_and_k(0, 1),
                [vec![0, 0, 1, 7, 0, 0, 0, 1], vec![0x55; n]].concat(),
                vec![],
            );
        }
    }
    let record = |units: usize, len: usize| -> Vec<u8> {
        let mut s = vec![0xfe, 1, 0x90];
        s.extend((units as u16).to_be_bytes());
        for _ in 0..units {
            s.extend((len as u16).to_be_bytes());
            s.extend(vec![9; len]);
        }
        s
    };
    for (units, len) in [(65535, 0), (1, 65535), (2, 65535), (300, 300)] {
        let mut short = record(units, len);
        short.pop();
        for op in [32, 50] {
            put(op, vec![], record(units, len), vec![]);
            put(op, vec![], short.clone(), vec![]);
        }
    }
}

/// Every front of sound inputs: cut off at each place, and whole.
pub fn fronts(r: &mut Rng, count: usize, emit: Emit) {
    let mut whole: Vec<(u8, Vec<u8>, Vec<u8>)> = Vec::new();
    for _ in 0..count {
        let size = 1 + r.below(4) as u8;
        whole.push((14, vec![], shapes::list(r)));
        whole.push((19, vec![], shapes::sps(r)));
        whole.push((20, vec![], shapes::vps(r)));
        whole.push((21, vec![], shapes::opi(r)));
        whole.push((23, vec![size], shapes::item(r, size)));
        whole.push((40, size_and_k(0, index(r)), shapes::list(r)));
        whole.push((42, size_and_k(size, index(r)), shapes::item(r, size)));
        whole.push((43, size_and_k(0, index(r)), shapes::stream(r)));
        whole.push((45, vec![], payload(&shapes::sps(r))));
        whole.push((25, vec![], shapes::stream(r)));
        whole.push((28, vec![], shapes::compact(r)));
        whole.push((31, vec![0, size], shapes::still_item(r, size)));
        whole.push((32, vec![], shapes::full(r)));
        whole.push((50, vec![], shapes::strict(r)));
        whole.push((51, vec![], hevc::any_record(r)));
        whole.push((52, hevc::any_numbers(r), hevc::any_list(r)));
        whole.push((55, vec![], shapes::list(r)));
        whole.push((59, vec![], shapes::list(r)));
        whole.push((60, vec![], shapes::list(r)));
    }
    whole.push((19, vec![], shapes::longest_sps()));
    whole.push((20, vec![], shapes::longest_vps()));
    whole.push((45, vec![], payload(&shapes::longest_sps())));
    for (op, numbers, s) in whole {
        for n in 0..=s.len().min(1500) {
            emit(with_room(
                r,
                Case::new(op, numbers.clone(), s[..n].to_vec()),
            ));
        }
    }
}

/// A prefix size, 1 to 4 most of the time.
fn size(r: &mut Rng) -> u8 {
    if r.one_in(8) {
        r.pick(&[0, 5, 255, 3])
    } else {
        1 + r.below(4) as u8
    }
}

/// A full record's head as the bytes of a case; most of the time each value fits its field.
fn head(r: &mut Rng) -> Vec<u8> {
    let wrong = if r.one_in(5) { r.below(12) } else { 99 };
    let low = |r: &mut Rng, n: usize, i: usize| -> usize {
        if i == wrong {
            n + r.below(4)
        } else {
            match r.below(4) {
                0 => n - 1,
                1 => 0,
                _ => r.below(n),
            }
        }
    };
    let length_size = if wrong == 0 {
        r.pick(&[0, 3, 5, 255])
    } else {
        r.pick(&[1, 2, 4])
    };
    let ptl = !r.one_in(4) as u8;
    let ols = if r.one_in(2) && wrong != 1 {
        r.below(3)
    } else {
        low(r, 512, 1)
    } as u16;
    let mut h = vec![length_size, ptl];
    h.extend(ols.to_be_bytes());
    h.push(low(r, 8, 2) as u8);
    h.push(low(r, 4, 3) as u8);
    h.push(low(r, 4, 4) as u8);
    h.push(if wrong == 5 {
        r.pick(&[8, 247, 248, 255])
    } else {
        r.below(8) as u8
    });
    h.extend(r.bytes(6));
    h.push(low(r, 128, 6) as u8);
    h.extend([
        r.below(2) as u8,
        r.byte(),
        r.below(2) as u8,
        r.below(2) as u8,
    ]);
    let n = if wrong == 7 {
        r.pick(&[64, 65, 255, 256, 65535])
    } else {
        r.pick(&[0, 1, 1, 2, 10, 43, 62, 63])
    };
    let m = if wrong == 8 {
        r.pick(&[8, 9, 255, 256, 65535])
    } else {
        r.below(8)
    };
    let k = if wrong == 9 {
        r.pick(&[256, 257, 65535])
    } else if r.one_in(60) {
        255
    } else {
        r.below(4)
    };
    for c in [n, m, k] {
        h.extend((c as u16).to_be_bytes());
    }
    h.extend(r.bytes(n.min(63)));
    for _ in 0..m.min(7) {
        h.extend([r.below(2) as u8, r.byte()]);
    }
    h.extend(r.bytes(4 * k.min(255)));
    h
}

/// The last unit's number, one more, or any.
fn index(r: &mut Rng) -> u64 {
    match r.below(8) {
        0 => r.pick(&[1 << 32, u64::MAX, 1 << 63, 255, 256]),
        _ => r.below(7) as u64,
    }
}

fn window(r: &mut Rng) -> Vec<u8> {
    let mut out = vec![r.below(5) as u8];
    let side = |r: &mut Rng| -> u32 {
        match r.below(5) {
            0 => 0,
            1 => r.pick(&[1, 2, 3, 0x7fff_ffff, 0x8000_0000, 0xffff_fffe, 0xffff_ffff]),
            2 => r.next() as u32,
            _ => r.below(5000) as u32,
        }
    };
    out.extend(side(r).to_be_bytes());
    out.extend(side(r).to_be_bytes());
    out.push(!r.one_in(4) as u8);
    for _ in 0..4 {
        let v = if r.one_in(2) {
            r.below(9) as u32
        } else {
            side(r)
        };
        out.extend(v.to_be_bytes());
    }
    out
}

/// The RBSP of a parameter set.
pub fn payload(unit: &[u8]) -> Vec<u8> {
    original::vvcc::extract_rbsp(&unit[2..])
}

fn parameter_set(r: &mut Rng, op: u8) -> Vec<u8> {
    let kind = if r.one_in(12) {
        r.pick(&[19, 20, 21])
    } else {
        op
    };
    let s = match kind {
        19 => shapes::sps(r),
        20 => shapes::vps(r),
        _ => shapes::opi(r),
    };
    shapes::maybe_damaged(r, s, 4)
}

/// Any call on an input of its shape.
pub fn any(r: &mut Rng) -> Case {
    const CALLS: [u8; 85] = [
        2, 6, 7, 8, 9, 14, 15, 16, 17, 18, 19, 19, 19, 20, 20, 21, 22, 23, 24, 25, 26, 27, 28, 28,
        28, 29, 29, 30, 31, 31, 32, 32, 32, 32, 33, 33, 33, 34, 34, 35, 35, 35, 36, 36, 36, 36, 37,
        38, 39, 39, 40, 41, 42, 43, 44, 44, 45, 46, 47, 48, 49, 50, 50, 50, 50, 51, 51, 51, 51, 52,
        52, 52, 52, 53, 55, 55, 56, 57, 57, 58, 58, 59, 59, 60, 60,
    ];
    let op = r.pick(&CALLS);
    let mut second = Vec::new();
    let (numbers, first) = match op {
        2 | 48 | 49 => (head(r), vec![]),
        6..=9 => {
            let u = shapes::unit(r);
            (vec![], shapes::maybe_damaged(r, u, 3))
        }
        59 | 60 => (vec![], shapes::list(r)),
        14..=17 | 40 | 41 | 46 | 47 => {
            let t = if r.one_in(2) {
                r.pick(&[15, 16, 0, 12, 33, 39, 47])
            } else {
                r.below(66) as u8
            };
            (size_and_k(t, index(r)), shapes::list(r))
        }
        18 => {
            let n = r.below(60);
            (vec![], r.bytes(n))
        }
        19..=21 => (vec![], parameter_set(r, op)),
        45 => {
            let s = payload(&shapes::sps(r));
            (vec![], shapes::maybe_damaged(r, s, 4))
        }
        22 => (window(r), vec![]),
        23 | 24 | 42 => {
            let size = size(r);
            (size_and_k(size, index(r)), shapes::item(r, size))
        }
        39 => {
            let size = size(r);
            let s = shapes::item(r, size);
            let unit = r.below(s.len() + 2) as u64;
            let k = if r.one_in(3) { 0 } else { unit };
            (size_and_k(size, k), s)
        }
        25..=27 | 43 => {
            let s = shapes::stream(r);
            let k = if op == 27 && !s.is_empty() {
                r.below(s.len() + 2) as u64
            } else {
                index(r)
            };
            (size_and_k(0, k), s)
        }
        28 => (vec![], shapes::compact(r)),
        29 => {
            let list = if r.one_in(2) {
                shapes::still_list(r)
            } else {
                shapes::list(r)
            };
            (vec![r.below(2) as u8, size(r)], list)
        }
        30 => {
            let n = r.pick(&[0, 1, 2, 9, 30, 252, 253, 254, 255, 300]);
            (vec![r.one_in(3) as u8, size(r)], r.bytes(n))
        }
        31 => {
            let size = size(r);
            let s = if r.one_in(4) {
                shapes::item(r, size)
            } else {
                shapes::still_item(r, size)
            };
            (vec![r.one_in(5) as u8, size], s)
        }
        32 => (vec![], shapes::full(r)),
        50 => (vec![], strict::record(r)),
        51 => (vec![], hevc::any_record(r)),
        52 => (hevc::any_numbers(r), hevc::any_list(r)),
        33 | 34 | 53 => (head(r), shapes::list(r)),
        55..=58 => {
            let c = directory_cases::any(r, op);
            second = c.second;
            (c.numbers, c.first)
        }
        35 => {
            let list = if r.one_in(6) {
                shapes::list(r)
            } else {
                shapes::still_list(r)
            };
            let mut n = vec![
                r.one_in(3) as u8,
                size(r),
                r.byte() & 7,
                r.pick(&[0, 7, 8, 9, 10, 16, 255]),
            ];
            for _ in 0..2 {
                n.extend((r.pick(&[0u32, 1, 4032, 65534, 65535, 65536, u32::MAX])).to_be_bytes());
            }
            (n, list)
        }
        _ => {
            let h = head(r);
            let size = h[0];
            second = shapes::item(r, size);
            let mut n = vec![r.below(2) as u8];
            n.extend(
                (if r.one_in(4) {
                    r.next() as u16
                } else {
                    r.below(4) as u16
                })
                .to_be_bytes(),
            );
            n.extend(eight(index(r)));
            n.extend(h);
            let list = if r.one_in(6) {
                vec![r.pick(&[1, 2])]
            } else {
                shapes::list(r)
            };
            (n, list)
        }
    };
    let mut c = Case::new(op, numbers, first);
    c.second = second;
    with_room(r, c)
}
