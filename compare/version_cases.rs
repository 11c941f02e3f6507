//! The cases of the two versions of a unit list: narrowing and widening, and malformed lists for every call that takes one. Lists are of version 01
//! here; their twins are made by `versions::twin`.

use crate::answers;
use crate::case::Case;
use crate::generator::Emit;
use crate::limits::numbers;
use crate::reading::{self, list_with_reserved};
use crate::versions::{other, NARROW, WIDEN, WITH_A_LIST};
use original::hvcc::NalArray;

fn array(first: u8, t: u8, units: &[&[u8]]) -> NalArray {
    let units = units.iter().map(|u| u.to_vec()).collect();
    NalArray::new(first & 1 == 1, first & 2 == 2, t, units)
}

/// Two arrays with units and one without, of types 0, 63 and 15.
fn several() -> Vec<u8> {
    list_with_reserved(&[
        array(3, 63, &[b"abc", b""]),
        array(2, 15, &[]),
        array(1, 0, &[b"d"]),
    ])
}

/// Sound lists: no arrays, arrays without units, units of no bytes, types and first bytes at their limits, a type twice, lengths at the limit of one
/// byte.
fn sound() -> Vec<Vec<u8>> {
    let mut out = vec![
        vec![],
        vec![array(0, 0, &[])],
        vec![array(3, 63, &[])],
        vec![array(1, 15, &[b""])],
        vec![array(2, 0, &[b"", b"", b"a"])],
        vec![
            array(1, 15, &[b"ab"]),
            array(0, 16, &[]),
            array(1, 15, &[b"c"]),
        ],
    ];
    out.extend([251, 252, 255, 256].map(|n| vec![array(1, 33, &[&vec![n as u8; n]])]));
    let mut out: Vec<Vec<u8>> = out.iter().map(|a| list_with_reserved(a)).collect();
    out.push(several());
    out
}

/// A copy of a list with a byte added at a place.
fn changed(s: &[u8], at: usize, by: u8) -> Vec<u8> {
    let mut out = s.to_vec();
    out[at] = out[at].wrapping_add(by);
    out
}

/// Bytes that are no list: first bytes and types that no array has, lengths that pass the end or leave bytes over, and bytes of 16 bits and more in
/// them; other versions, and a version that is not that of the lengths.
fn malformed() -> Vec<Vec<u8>> {
    let s = several();
    let narrow = other(&s).expect("it can be narrowed");
    let last = s.len() - 1;
    let mut out = vec![vec![], [&s[..], &[0]].concat(), [&s[..], &[0; 4]].concat()];
    // the first array's first byte, type and length; its units' lengths; the same of the last array
    for (at, by) in [
        (5, 1),
        (5, 252),
        (6, 1),
        (6, 192),
        (4, 1),
        (4, 255),
        (3, 1),
        (2, 1),
        (1, 1),
        (10, 1),
        (10, 255),
        (9, 1),
        (8, 1),
        (17, 1),
        (last - 5, 64),
        (last - 6, 3),
        (last - 7, 1),
        (last - 1, 1),
        (last - 1, 255),
    ] {
        out.push(changed(&s, at, by));
    }
    for version in [0, 3, 4, 255] {
        out.push(vec![version]);
        out.extend([&s, &narrow].map(|s| [&[version], &s[1..]].concat()));
    }
    out.push([&[reading::NARROW], &s[1..]].concat());
    out.push([&[reading::WIDE], &narrow[1..]].concat());
    out
}

/// A case of a call on a list, with an output as long as its result and some more or less.
fn with_list(op: u8, list: &[u8], more: isize) -> Case {
    let mut c = Case::new(op, numbers(op), list.to_vec());
    if matches!(op, 36..=38 | 44 | 54) {
        c.second = vec![0, 0, 0, 2, 0, 0x41];
    }
    let n = answers::answer(&c).result.unwrap_or(0);
    c.fill = 0x80 + op;
    c.room = n.saturating_add_signed(more);
    c
}

/// Narrowing and widening of every kind of list, with outputs as long as the result, one byte shorter, longer and empty; every beginning of a list;
/// malformed lists, and some sound ones, for every call that takes one.
pub fn fixed(emit: Emit) {
    for op in [NARROW, WIDEN] {
        for s in sound() {
            for more in [0, -1, 3, -400] {
                emit(with_list(op, &s, more));
            }
        }
        let s = several();
        for n in 1..s.len() {
            emit(with_list(op, &s[..n], 9));
        }
    }
    for op in WITH_A_LIST {
        for s in malformed() {
            emit(with_list(op, &s, 2));
        }
        for s in [vec![reading::WIDE], several()] {
            emit(with_list(op, &s, 0));
        }
    }
}

/// An array of units of the given lengths.
fn of_lengths(lengths: &[usize]) -> NalArray {
    let units = lengths.iter().map(|&n| vec![n as u8; n]).collect();
    NalArray::new(true, true, 34, units)
}

/// A list with such an array after one that is short, and before one.
fn second_of(lengths: &[usize]) -> Vec<u8> {
    list_with_reserved(&[array(0, 32, &[b"x"]), of_lengths(lengths)])
}

fn first_of(lengths: &[usize]) -> Vec<u8> {
    list_with_reserved(&[of_lengths(lengths), array(0, 32, &[b"x"])])
}

/// A list with one array of one unit.
fn one(len: usize) -> Vec<u8> {
    list_with_reserved(&[NalArray::new(true, false, 39, vec![vec![0x5a; len]])])
}

/// What only a long case reaches: the longest unit that can be narrowed and the next ones, alone in an array; the longest array and the next one; 29
/// before 20, in the first array and in the last, and 21 before 29. Widening is never 29.
pub fn longest(emit: Emit) {
    emit(with_list(NARROW, &one(65531), 0));
    emit(with_list(WIDEN, &one(65531), 0));
    let roomy = Case {
        room: 65539,
        ..with_list(NARROW, &one(65532), 0)
    };
    emit(roomy);
    emit(with_list(NARROW, &second_of(&[65535]), 0));
    emit(with_list(NARROW, &first_of(&[65536]), 0));
    emit(with_list(WIDEN, &first_of(&[65536]), -70000));
    // an array of 2 + 3 * 2 + 65,527 bytes
    emit(with_list(NARROW, &second_of(&[30000, 0, 35527]), -1));
    emit(with_list(NARROW, &second_of(&[30000, 1, 35527]), 0));
    let later = [&one(65532)[..], &[0, 0, 0, 2, 4, 15]].concat();
    emit(with_list(NARROW, &later, 0));
}

/// Cases too long for a recorded list: units and arrays around the limit for both calls; narrow lists of more than 65,535 bytes, and of as many units
/// as an array may have, for every call that takes a list.
pub fn large(emit: Emit) {
    let mut lists: Vec<Vec<u8>> = (65530..=65537).map(one).collect();
    for n in [65530, 65531, 65532, 65535, 65536] {
        lists.extend([first_of(&[n]), second_of(&[n])]);
    }
    for n in 35525..=35530 {
        lists.push(second_of(&[30000, 0, n]));
        lists.push(second_of(&[n, 30000, 0]));
    }
    for n in [32765, 32766, 32767, 65535, 65536] {
        lists.push(list_with_reserved(&[NalArray::new(
            false,
            true,
            16,
            vec![vec![]; n],
        )]));
    }
    for s in &lists {
        for op in [NARROW, WIDEN] {
            for more in [0, -1, 5] {
                emit(with_list(op, s, more));
            }
        }
    }
    let unit = |n: usize| array(1, 15, &[&vec![0x5a; n]]);
    let far = list_with_reserved(&[unit(65531), unit(40000), unit(7), unit(65531)]);
    let many = list_with_reserved(&[
        NalArray::new(true, false, 16, vec![vec![]; 32766]),
        unit(3),
        NalArray::new(true, false, 17, vec![vec![1]; 21844]),
    ]);
    for op in WITH_A_LIST {
        for s in [&far, &many] {
            emit(with_list(op, s, 0));
        }
    }
    for k in [0, 1, 2, 3, 4, 32765, 32766, 32767, 54610, 54611u64] {
        for (op, s) in [15, 40]
            .into_iter()
            .flat_map(|op| [(op, &far), (op, &many)])
        {
            let numbers = [&[0], &k.to_be_bytes()[..]].concat();
            emit(Case::new(op, numbers, s.clone()));
        }
    }
}
