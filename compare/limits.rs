//! Short cases at each limit: the largest value that is accepted and the next one.

use crate::case::Case;
use crate::generator::{size_and_k, with_room_by, Emit};
use crate::reading::{list_bytes, list_with_reserved};
use original::hvcc::NalArray;
use original::vvcc::VvcNalArray;

/// The calls of a list: number, numbers, first and second input.
type Calls = Vec<(u8, Vec<u8>, Vec<u8>, Vec<u8>)>;

/// P of docs/SCOPE.md 7.
pub fn sps() -> Vec<u8> {
    vec![0, 0x79, 0, 0x0d, 2, 0x33, 0x80, 0, 2, 0x22, 0x4c]
}

/// Q of docs/SCOPE.md 7.
pub fn pps() -> Vec<u8> {
    vec![0, 0x81, 0x80]
}

/// The numbers of a call that would be accepted on a sound input.
pub fn numbers(op: u8) -> Vec<u8> {
    match op {
        23 | 24 | 39 | 42 => vec![4],
        29..=31 => vec![0, 4],
        33 | 34 | 53 => vec![4],
        52 => [vec![0; 27], vec![4]].concat(),
        35 => vec![0, 4, 1, 8],
        36..=38 | 44 | 54 => [vec![0; 11], vec![4]].concat(),
        _ => vec![],
    }
}

/// A list of one array.
fn one(complete: bool, t: u8, units: &[Vec<u8>]) -> Vec<u8> {
    list_bytes(&[VvcNalArray::new(complete, t, units.to_vec())])
}

/// The compact writer's counts and lengths, and the compact reader's largest count.
fn compact(calls: &mut Calls) {
    for n in [0, 1, 2, 3, 32, 33, 34, 35] {
        calls.push((29, vec![1, 4], one(false, 0, &vec![vec![]; n]), vec![]));
    }
    for n in [254, 255, 256, 257] {
        calls.push((29, vec![0, 1], one(true, 15, &[vec![3; n], vec![]]), vec![]));
    }
    for n in [32, 33, 34] {
        calls.push((28, vec![], [vec![0xff], vec![0; n]].concat(), vec![]));
    }
}

/// Every call that takes a prefix size, at 0 to 5.
fn sizes(calls: &mut Calls) {
    let p = sps();
    let q = pps();
    for size in 0..=5 {
        calls.push((
            29,
            vec![0, size],
            one(false, 0, &[p.clone(), q.clone()]),
            vec![],
        ));
        calls.push((23, vec![size], vec![0, 0, 0, 1, 9], vec![]));
        for k in [0, 1, 3, 4, 5] {
            calls.push((39, size_and_k(size, k), vec![0, 0, 0, 1, 9], vec![]));
        }
        calls.push((42, size_and_k(size, 0), vec![0, 0, 0, 1, 9], vec![]));
        calls.push((30, vec![0, size], vec![9], vec![]));
        calls.push((31, vec![0, size], vec![0, 0, 0, 3, 0, 0x41, 9], vec![]));
        calls.push((31, vec![1, size], vec![0, 0, 0, 3, 0, 0x41, 9], vec![]));
        calls.push((33, [vec![size], vec![0; 25]].concat(), vec![1], vec![]));
        let numbers = [vec![0; 11], vec![size], vec![0; 25]].concat();
        calls.push((
            36,
            numbers,
            one(true, 15, &[p.clone()]),
            vec![0, 0, 0, 1, 9],
        ));
    }
}

/// SPS units that are refused with 11, 13, 12 and 14, wherever an SPS is read.
fn refused_sps(calls: &mut Calls) {
    let q = pps();
    let refused: [&[u8]; 4] = [
        &[0, 0x79],
        &[0, 0x79, 0, 0, 0x34],
        &[0, 0x79, 0, 0, 0, 0, 1, 0, 1, 0, 1],
        &[0, 0x79, 0, 0, 0x30, 0x50],
    ];
    for unit in refused {
        calls.push((19, vec![], unit.to_vec(), vec![]));
        calls.push((45, vec![], unit[2..].to_vec(), vec![]));
        calls.push((34, vec![1], one(true, 15, &[unit.to_vec()]), vec![]));
        let numbers = vec![0, 4, 1, 8, 0, 0, 0, 16, 0, 0, 0, 8];
        calls.push((
            35,
            numbers,
            one(false, 0, &[q.clone(), unit.to_vec()]),
            vec![],
        ));
    }
}

/// Sample format and expansion: which SPS and VPS are used, types that are absent, equal or 31, dimensions and depths.
fn expansion(calls: &mut Calls) {
    let p = sps();
    let q = pps();
    let vps = vec![0, 0x71, 0, 0, 0x1f, 2, 0x33, 0x1f, 0];
    let layered = vec![0, 0x71, 0, 0x40, 0x1f, 2, 0x33, 0x1f, 0];
    let bare = vec![0, 0x79, 0, 0, 0x32];
    // a second SPS and a second VPS with other values
    let other = vec![0, 0x79, 0, 0x17, 4, 0x40, 0x40, 0, 2, 0x22, 0x4c];
    let other_vps = vec![0, 0x71, 0x10, 0, 0, 0x82, 0x53, 0, 0];
    for units in [[&p, &bare], [&bare, &p], [&other, &p], [&q, &p]] {
        let units = units.map(Clone::clone);
        for t in [15, 16] {
            calls.push((34, vec![1], one(true, t, &units), vec![]));
            calls.push((46, vec![], one(true, t, &units), vec![]));
            calls.push((47, vec![], one(true, t, &units), vec![]));
        }
    }
    let groups: Vec<Vec<Vec<u8>>> = vec![
        vec![p.clone(), vec![], q.clone(), vec![5]],
        vec![
            p.clone(),
            vec![],
            q.clone(),
            vec![0, 0xf9],
            p.clone(),
            vec![0, 0xf1],
        ],
        vec![q.clone(), p.clone(), q.clone(), p.clone()],
        vec![vps.clone(), bare.clone()],
        vec![layered.clone(), bare.clone()],
        vec![layered, p.clone()],
        vec![bare.clone(), q.clone()],
        vec![vps.clone(), q.clone()],
        vec![p.clone(), other.clone()],
        vec![other.clone(), p.clone()],
        vec![bare.clone(), vps.clone(), other_vps.clone()],
        vec![other_vps, vps, bare.clone()],
        vec![q.clone(), q],
    ];
    for units in &groups {
        for flag in [0, 1] {
            let numbers = vec![flag, 2, 1, 10, 0, 0, 0xff, 0xff, 0, 1, 0, 0];
            calls.push((35, numbers, one(false, 0, units), vec![]));
        }
    }
    for depth in [0, 7, 8, 9, 255] {
        let numbers = vec![0, 4, 3, depth, 0, 0, 0xff, 0xfe, 0, 0, 0xff, 0xff];
        calls.push((35, numbers, one(false, 0, &groups[2]), vec![]));
    }
}

/// The full writer and the sample format: each field of the head at its limit and above.
fn heads(calls: &mut Calls) {
    let p = sps();
    let fields: [(usize, &[u8]); 11] = [
        (2, &[1, 2]),
        (4, &[0, 1, 2, 7, 8]),
        (5, &[3, 4]),
        (6, &[3, 4]),
        (7, &[7, 8, 247, 248, 255]),
        (14, &[127, 128]),
        (15, &[1]),
        (17, &[1]),
        (18, &[1]),
        (20, &[0, 1, 2, 63, 64]),
        (22, &[0, 1, 6, 7, 8]),
    ];
    for (at, values) in fields {
        for &v in values {
            for ptl in [0, 1] {
                let mut h = vec![0; 26];
                h[0] = 4;
                h[1] = ptl;
                h[4] = 7;
                h[20] = 1;
                h[22] = 6;
                h[at] = v;
                h.extend((0..90u8).map(|i| i.wrapping_mul(5)));
                for op in [2, 48, 49] {
                    calls.push((op, h.clone(), vec![], vec![]));
                }
                for op in [33, 53] {
                    calls.push((op, h.clone(), one(true, 16, &[vec![7]]), vec![]));
                }
                calls.push((34, h, one(true, 15, &[p.clone()]), vec![]));
            }
        }
    }
}

/// The full writer's counts: sub-profiles, arrays, and the units of types 12 and 13.
fn counts(calls: &mut Calls) {
    for n in [254, 255, 256] {
        let h = [
            vec![4, 1],
            vec![0; 18],
            vec![1, 0, 0, (n / 256) as u8, n as u8],
        ]
        .concat();
        calls.push((33, h, vec![1], vec![]));
        let arrays = vec![VvcNalArray::new(false, 9, vec![]); n];
        calls.push((
            33,
            [vec![4], vec![0; 24]].concat(),
            list_bytes(&arrays),
            vec![],
        ));
    }
    for t in [11, 12, 13, 14, 31] {
        for n in 0..3 {
            calls.push((33, vec![1], one(n == 1, t, &vec![vec![7]; n]), vec![]));
        }
    }
}

/// The cropped size, for each chroma format.
fn windows(calls: &mut Calls) {
    for chroma in 0..=4 {
        for (w, h, window) in [
            (16u32, 9u32, [1u32, 2, 1, 1]),
            (5, 5, [1, 1, 3, 9]),
            (6, 8, [3, 0, 0, 4]),
            (7, 7, [u32::MAX; 4]),
        ] {
            for flag in [0, 1] {
                let mut numbers = vec![chroma];
                numbers.extend(w.to_be_bytes());
                numbers.extend(h.to_be_bytes());
                numbers.push(flag);
                numbers.extend(window.iter().flat_map(|v| v.to_be_bytes()));
                calls.push((22, numbers, vec![], vec![]));
            }
        }
    }
}

/// Assembly: OPI units with the target's operating point and with another, before the list's units and after them, with and without PTL flag and
/// target.
fn access_units(calls: &mut Calls) {
    let p = sps();
    let opi = |v: u8| vec![4, 0, 0x61, 0x80 | [0x20, 0x10, 0x18][v as usize], 0x80];
    let aud = vec![2, 0, 0xa1];
    let idr = vec![3, 0, 0x41, 9];
    for item in [
        vec![],
        [opi(0), aud.clone(), opi(1), idr.clone()].concat(),
        [aud.clone(), idr.clone(), opi(0), opi(1), opi(2)].concat(),
        [idr, aud, opi(1), vec![2, 0, 0x61]].concat(),
        opi(1),
    ] {
        for (given, target, ptl, ols) in [
            (0, 0, 0, 1),
            (0, 0, 1, 1),
            (1, 0, 1, 1),
            (1, 1, 0, 0),
            (1, 9, 1, 0),
        ] {
            for list in [
                vec![1],
                one(true, 12, &[vec![0, 0x61, 0xa0]]),
                one(true, 15, &[p.clone(), vec![]]),
            ] {
                for (op, k) in [
                    (36, 0),
                    (37, 0),
                    (38, 0),
                    (38, 1),
                    (38, 3),
                    (44, 0),
                    (44, 1),
                    (44, 3),
                ] {
                    let mut numbers = vec![given, 0, target, 0, 0, 0, 0, 0, 0, 0, k];
                    numbers.extend([1, ptl, 0, ols]);
                    calls.push((op, numbers, list.clone(), item.clone()));
                }
            }
        }
    }
}

/// Streams: start codes at the front and at the end, units of zeros alone, zeros before and after a start code.
fn streams(calls: &mut Calls) {
    let streams: [&[u8]; 10] = [
        &[0, 0, 1],
        &[0, 0, 1, 9, 0, 0, 1],
        &[0, 0, 1, 0, 0, 1, 9],
        &[0, 0, 1, 0, 0, 0, 1, 5],
        &[0, 0, 1, 9, 0, 0, 0, 1, 8, 0],
        &[0, 0, 0, 1, 0, 0, 1, 0, 0, 1, 7],
        &[9, 0, 0, 1, 8, 0, 0],
        &[0, 0, 1, 1, 0, 0, 1, 1],
        &[0, 0, 2, 0, 0, 1, 3, 0, 0, 3, 1],
        &[0, 0, 1, 9, 0, 1, 0, 0],
    ];
    for s in streams {
        calls.push((25, vec![], s.to_vec(), vec![]));
        calls.push((9, vec![], s[3..].to_vec(), vec![]));
        for k in 0..3 {
            calls.push((26, size_and_k(0, k), s.to_vec(), vec![]));
            calls.push((43, size_and_k(0, k), s.to_vec(), vec![]));
            calls.push((27, size_and_k(0, 2 * k), s.to_vec(), vec![]));
        }
    }
}

/// Header fields and the unit check for units of up to three bytes; types of arrays; full records that end where an array would begin.
fn ends(calls: &mut Calls) {
    for n in 0..=3 {
        for op in 6..=9 {
            calls.push((op, vec![], vec![0x25, 0xfb, 0x9d][..n].to_vec(), vec![]));
        }
    }
    // arrays too short, of type 63 and of 64, with a first byte of 3 and of 4; an array that the full writer refuses, and another after it
    let arrays: [&[u8]; 6] = [
        &[0],
        &[1, 0],
        &[2, 1, 63],
        &[2, 1, 64],
        &[2, 3, 15],
        &[2, 4, 15],
    ];
    for array in arrays {
        let list = [&[1, 0, 0, 0], array].concat();
        for op in [14, 40, 41, 47, 55] {
            calls.push((op, vec![], list.clone(), vec![]));
        }
    }
    let two = [12, 16].map(|t| VvcNalArray::new(true, t, vec![]));
    calls.push((
        33,
        [vec![4], vec![0; 24]].concat(),
        list_bytes(&two),
        vec![],
    ));
    // items of one unit that is a still, and that is too short or has another layer, temporal id or type
    let units: [&[u8]; 8] = [
        &[0],
        &[0, 0x41],
        &[1, 0x41],
        &[0, 0x42],
        &[0, 0x49],
        &[0, 0x79],
        &[0, 0xa1],
        &[0, 0xf9],
    ];
    for unit in units {
        let item = [&[unit.len() as u8], unit].concat();
        calls.push((31, vec![0, 1], item, vec![]));
    }
    calls.push((32, vec![], vec![0xfe, 1], vec![]));
    calls.push((32, vec![], vec![0xfe, 2, 0x8c, 0, 1, 5], vec![]));
}

/// An item of two units where one is taken; a list that ends inside a unit's length, for the full writer.
fn one_more(calls: &mut Calls) {
    calls.push((31, vec![0, 1], vec![2, 0, 0x41, 2, 0, 0x41], vec![]));
    let head = [vec![4], vec![0; 24]].concat();
    calls.push((33, head, vec![1, 0, 0, 0, 3, 1, 16, 0], vec![]));
}

/// Lists with types from 32 on and with the reserved bit.
fn wide_lists() -> [Vec<u8>; 5] {
    let (p, q) = (sps(), pps());
    let array = |reserved, t, units: &[&Vec<u8>]| {
        let units = units.iter().map(|u| u.to_vec()).collect();
        NalArray::new(true, reserved, t, units)
    };
    let vps = vec![0, 0x71, 0, 0, 0x1f, 2, 0x33, 0x1f, 0];
    let lists = [
        vec![array(false, 32, &[&p, &q])],
        vec![array(true, 15, &[&p, &q])],
        vec![array(true, 63, &[&vps]), array(false, 15, &[&p])],
        vec![array(false, 47, &[&q]), array(true, 15, &[&p, &p])],
        vec![array(true, 12, &[&q, &p]), array(true, 33, &[])],
    ];
    lists.map(|a| list_with_reserved(&a))
}

/// Every call that takes a list, with such lists.
fn wide_arrays(calls: &mut Calls) {
    for list in wide_lists() {
        for k in 0..3 {
            for op in [15, 40] {
                calls.push((op, size_and_k(0, k), list.clone(), vec![]));
            }
            for t in [0, 15, 31, 32, 33, 47, 63, 64, 79, 255] {
                for op in [16, 17, 41] {
                    calls.push((op, size_and_k(t, k), list.clone(), vec![]));
                }
            }
            for op in [36, 37, 38, 44] {
                let numbers = [vec![0; 10], vec![k as u8, 1, 0]].concat();
                calls.push((op, numbers, list.clone(), vec![2, 0, 0xa1, 2, 0, 0x41]));
            }
        }
        for op in [14, 46, 47, 55] {
            calls.push((op, vec![], list.clone(), vec![]));
        }
        for flag in [0, 1] {
            calls.push((29, vec![flag, 4], list.clone(), vec![]));
            let picture = vec![flag, 4, 1, 8, 0, 0, 0, 16, 0, 0, 0, 8];
            calls.push((35, picture, list.clone(), vec![]));
            // 3 comes before the 22 of the arrays
            for (op, size) in [(33, 4), (33, 3), (34, 4), (53, 4), (53, 3)] {
                calls.push((op, vec![size, flag], list.clone(), vec![]));
            }
        }
    }
}

/// All of them, with an output as long as the result or longer.
pub fn limits(emit: Emit) {
    let mut calls = Calls::new();
    let parts: [fn(&mut Calls); 12] = [
        compact,
        sizes,
        refused_sps,
        expansion,
        heads,
        counts,
        windows,
        access_units,
        streams,
        ends,
        one_more,
        wide_arrays,
    ];
    for part in parts {
        part(&mut calls);
    }
    for (i, (op, numbers, first, second)) in calls.into_iter().enumerate() {
        let mut c = Case::new(op, numbers, first);
        c.second = second;
        emit(with_room_by(5 * i + i % 2 * 4, c));
    }
}
