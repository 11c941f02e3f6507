//! Cases with an input of 2^30 bytes and of one more (refusal 23). The buffers of `replay` are too short to hold them; the static library
//! `replay_calls_c`, whose function answers for `replay`, is called with memory of this program instead.

use crate::answers;
use crate::case::Case;
use crate::directory::{FILL, PART};
use crate::directory_cases::{case, directory};
use crate::generator::payload;
use crate::limits::{numbers, pps, sps};
use crate::reading::{Question, LARGEST};
use crate::versions::{NARROW, WIDEN};

extern "C" {
    fn replay_line(
        input: *const u8,
        input_len: usize,
        lent: *mut u8,
        lent_len: usize,
        out: *mut u8,
        out_len: usize,
    ) -> usize;
}

/// The answer of the library to a case. The long ends of its inputs are zeros, which are not copied: memory that was never written reads as zeros.
pub fn answer_of(c: &Case) -> String {
    let mut input = vec![0; c.size()];
    let front = c.front();
    input[..front.len()].copy_from_slice(&front);
    let places = [
        (front.len(), &c.first),
        (front.len() + c.first.len(), &c.second),
    ];
    for (at, bytes) in places {
        let n = bytes.len().min(SET);
        input[at..at + n].copy_from_slice(&bytes[..n]);
    }
    let mut lent = vec![0; c.room];
    let mut out = vec![0; 2 * (c.size() + c.room) + 4096];
    let n = unsafe {
        replay_line(
            input.as_ptr(),
            input.len(),
            lent.as_mut_ptr(),
            lent.len(),
            out.as_mut_ptr(),
            out.len(),
        )
    };
    String::from_utf8_lossy(&out[..n]).into_owned()
}

/// How many bytes at the front of an input may be other than zero.
const SET: usize = 64;

/// An input of some length with given bytes at its front.
fn long(front: &[u8], len: usize) -> Vec<u8> {
    assert!(front.len() <= SET);
    let mut s = vec![0; len];
    s[..front.len()].copy_from_slice(front);
    s
}

/// The fronts of long inputs: nothing, and the beginning of a sound one; of a list in both versions.
fn fronts(op: u8) -> Vec<Vec<u8>> {
    let sound = match op {
        6..=9 | 19 => sps(),
        20 => vec![0, 0x71, 0, 0],
        21 => vec![0, 0x61, 0xc0],
        14..=17 | 29 | 33..=38 | 40 | 41 | 44 | 46 | 47 | 52..=54 | NARROW | WIDEN => {
            let wide = [&[1, 0, 0, 0, 9, 1, 16, 0, 0, 0, 3][..], &pps()].concat();
            let narrow = [&[2, 0, 7, 1, 16, 0, 3][..], &pps()].concat();
            return vec![vec![], wide, narrow];
        }
        23 | 24 | 31 | 39 | 42 => vec![0, 0, 0, 2, 0, 0x41],
        25..=27 | 43 => vec![0, 0, 1, 0x41],
        28 => [&[0x60, 11][..], &sps(), &[3], &pps()].concat(),
        32 => vec![0xff, 1],
        50 => vec![0xfe],
        51 => [vec![1], vec![0; 22]].concat(),
        45 => payload(&sps()),
        _ => vec![1],
    };
    vec![vec![], sound]
}

/// The calls that take an input.
fn calls() -> impl Iterator<Item = u8> {
    let reading = (3..=9).chain(14..=21).chain(23..=47).chain(50..=54);
    reading.chain([NARROW, WIDEN])
}

/// Every call that takes an input, with one that is too long; where it takes two, with either and both.
fn too_long(emit: &mut dyn FnMut(Case)) {
    for op in calls() {
        for front in fronts(op) {
            let c = Case {
                fill: 0xa5,
                room: 3,
                ..Case::new(op, numbers(op), long(&front, LARGEST + 1))
            };
            if matches!(op, 36..=38 | 44 | 54) {
                emit(Case {
                    second: vec![0, 0, 0, 1, 9],
                    ..c.clone()
                });
                emit(Case {
                    first: front.clone(),
                    second: long(&[0, 0, 0, 1, 9], LARGEST + 1),
                    ..c.clone()
                });
                emit(Case {
                    second: vec![0; LARGEST + 1],
                    ..c.clone()
                });
            }
            emit(c);
        }
    }
}

/// The same calls with an input of exactly 2^30 bytes, which is not too long. Other refusals are those of the original.
fn largest(emit: &mut dyn FnMut(Case)) {
    for op in calls() {
        for front in fronts(op) {
            emit(Case {
                fill: 0xa5,
                room: 3,
                second: vec![0, 0, 0, 1, 9],
                ..Case::new(op, numbers(op), long(&front, LARGEST))
            });
        }
    }
}

/// The front of a list of 2^30 bytes with one unit.
fn one_unit() -> Vec<u8> {
    let chunk = |before: usize| ((LARGEST - before) as u32).to_be_bytes();
    [&[1][..], &chunk(5), &[1, 16], &chunk(11)].concat()
}

/// Narrowing of such a list, which is 29.
fn narrowed(emit: &mut dyn FnMut(Case)) {
    emit(Case {
        fill: 0xa5,
        room: 3,
        ..Case::new(NARROW, vec![], long(&one_unit(), LARGEST))
    });
}

/// The calls on a directory, with a list of some length: parts that end with a list of 2^30 bytes and that pass its end, more entries in use than
/// there are. The list is zeros, or one unit if it has 2^30 bytes.
fn directories(len: usize, emit: &mut dyn FnMut(Case)) {
    let end = LARGEST as u64;
    let unit = one_unit();
    for d in [
        directory(&[(0, end - 3, 3)], &[(0, 1)]),
        directory(&[(0, end - 3, 4)], &[(0, 1)]),
        directory(&[], &[(0, 9)]),
    ] {
        for (op, front) in (FILL..=PART).flat_map(|op| [(op, &[][..]), (op, &unit)]) {
            emit(Case {
                fill: 0xa5,
                room: 3,
                first: long(front, len),
                ..case(op, &[], &d, Question::Number(0))
            });
        }
    }
}

/// Every case of this file with the expected answer and the library's.
pub fn each(f: &mut dyn FnMut(&Case, u32, &str, &str)) {
    let mut one = |c: Case| {
        let a = answers::answer(&c);
        f(&c, a.refusal, &answers::line(&c, &a), &answer_of(&c));
    };
    too_long(&mut one);
    largest(&mut one);
    narrowed(&mut one);
    directories(LARGEST + 1, &mut one);
    directories(LARGEST, &mut one);
}
