//! The unit check: its cases, and what its answers are held to. A unit that passes is what emulation prevention makes of its RBSP, which the
//! original finds, and the original splits it off a stream as it is. The cases of streams are here too where they are about the search for a start
//! code, which goes over bytes as the check does.

use crate::case::Case;
use crate::generator::{size_and_k, strings, unit_calls, with_room, with_room_by, Emit};
use crate::reading;
use crate::rng::Rng;
use crate::shapes::prevented;
use original::hvcc::split_annex_b;
use original::vvcc::extract_rbsp;

/// The numbers of the calls: the check, the count of a stream's units, a unit by its number, the next unit.
pub const CALL: u8 = 9;
const COUNT: u8 = 25;
const UNIT: u8 = 26;
const NEXT: u8 = 27;

/// Whether a unit is not empty and is what emulation prevention makes of its RBSP (H.266 7.4.2): 03 is put before a byte of at most 03 after two
/// zeros, and at the end if the last byte is 00.
fn is_prevented(u: &[u8]) -> bool {
    let mut made = prevented(&extract_rbsp(u));
    if made.last() == Some(&0) {
        made.push(3);
    }
    !u.is_empty() && made == u
}

/// Whether the original splits a stream of this unit into exactly it; the driver ends with an error where `reading.rs` says otherwise.
fn is_split(u: &[u8]) -> bool {
    let stream = [&[0, 0, 1], u].concat();
    let split = split_annex_b(&stream) == [u];
    assert_eq!(split, reading::splittable(u), "splittable: {u:x?}");
    split
}

/// Unit checks held to the original, in numbers of answers: yes, no, those with no whose unit the original splits off as it is, and those that are not
/// as they must be.
#[derive(Default)]
pub struct Held {
    yes: u64,
    no: u64,
    split_only: u64,
    pub disagree: u64,
}

impl Held {
    /// Whether the answer in a line of `replay` is yes exactly if the unit is what emulation prevention makes, and the original splits a unit with
    /// yes off a stream.
    pub fn agrees(&mut self, line: &str, unit: &[u8]) -> bool {
        let (made, split) = (is_prevented(unit), is_split(unit));
        let agrees = match line.split(' ').nth(2) {
            Some("1") => {
                self.yes += 1;
                made && split
            }
            Some("0") => {
                self.no += 1;
                self.split_only += u64::from(split);
                !made
            }
            _ => false,
        };
        self.disagree += u64::from(!agrees);
        agrees
    }

    pub fn print(&self) {
        println!(
            "\nunit check: {} answers held to the original: {} yes, each a unit that emulation prevention makes of its RBSP and that the original \
             splits off a stream; {} no, of which it splits off {}; {} disagree",
            self.yes + self.no,
            self.yes,
            self.no,
            self.split_only,
            self.disagree
        );
    }
}

/// What may not occur in a unit, and what may: 00 00 03 before a byte of at most 03, and at the end.
const SEQUENCES: [&[u8]; 10] = [
    &[0, 0, 0],
    &[0, 0, 1],
    &[0, 0, 2],
    &[0, 0, 3, 4],
    &[0, 0, 3, 0xff],
    &[0, 0, 3, 0],
    &[0, 0, 3, 1],
    &[0, 0, 3, 2],
    &[0, 0, 3, 3],
    &[0, 0, 3],
];

/// Each sequence at the front, after bytes above 03 and after smaller ones, so that it begins at each place of a step of three, after a single 00;
/// before another byte and at the end of the unit.
fn placed(units: &mut Vec<Vec<u8>>) {
    let befores: [&[u8]; 8] = [
        &[],
        &[0x41, 4, 0x9a],
        &[0x41, 4, 0x9a, 5],
        &[0x41, 4, 0x9a, 5, 0xff],
        &[3, 2, 1],
        &[3, 2, 1, 3],
        &[3, 2, 1, 3, 2],
        &[0, 0x41, 0],
    ];
    for s in SEQUENCES {
        for (i, before) in befores.into_iter().enumerate() {
            units.push([before, s, &[3]].concat());
            if i % 3 == 0 {
                units.push([before, s].concat());
            }
        }
    }
}

/// Sequences that overlap, zeros that are not two, bytes at the limits beside zeros, units of up to four bytes, zeros at the end; a unit that a
/// camera delivered.
fn others(units: &mut Vec<Vec<u8>>) {
    let others: [&[u8]; 31] = [
        &[0, 0, 3, 0, 0, 2],
        &[0, 0, 3, 0, 0, 3, 1],
        &[0, 0, 3, 0, 0, 3, 4],
        &[0, 0, 3, 0, 0, 3],
        &[0, 0, 3, 0, 0, 1, 5],
        &[0, 0, 3, 0, 0, 4],
        &[0, 3, 0, 0, 3, 2, 0, 0, 3, 3],
        &[0x41, 0, 0, 0, 0, 3],
        &[0, 1, 0, 2, 0, 3, 0, 4],
        &[1, 0, 2, 0, 1, 1, 3],
        &[0, 1, 3, 4],
        &[1, 0, 3, 4],
        &[0, 0, 4, 0, 0, 5],
        &[0, 0, 4, 0, 0, 2],
        &[0, 0, 4, 0, 3, 4],
        &[],
        &[0],
        &[1],
        &[3],
        &[0, 5],
        &[5, 0],
        &[0, 0],
        &[0, 0, 4],
        &[0, 0xff, 0],
        &[5, 0, 0],
        &[0, 0, 5, 0],
        &[0, 5, 0, 0],
        &[0, 0, 3, 0, 0],
        &[0x41, 0x9a, 5, 0, 0],
        &[0x41, 0x9a, 5, 6, 0, 3],
        &[0, 0x41, 0x9a, 0, 0, 2, 0x33],
    ];
    units.extend(others.map(<[u8]>::to_vec));
}

/// Streams with start codes at each place of a step of three after bytes that are not 00, in runs of zeros, beside 02 and 03, after a single 00, at
/// the end, one byte short.
fn streams() -> Vec<Vec<u8>> {
    let after = |n: usize| [&[0x41, 2, 0xff, 3, 2][..n], &[0, 0, 1, 9]].concat();
    let mut out: Vec<Vec<u8>> = (0..6)
        .map(|n| [after(n), after((n + 1) % 6)].concat())
        .collect();
    let others: [&[u8]; 16] = [
        &[0, 0, 0, 0, 0, 1, 9, 0, 0, 0, 0, 1, 8],
        &[9, 8, 0, 0, 0, 1, 2],
        &[0, 0, 2, 0, 0, 1, 7],
        &[0, 0, 2, 1, 0, 1, 7],
        &[0, 0, 3, 0, 0, 0, 1, 7],
        &[0, 2, 0, 0, 1, 7],
        &[5, 0, 1, 0, 0, 1, 7],
        &[0, 5, 1, 0, 0, 1, 7],
        &[1, 1, 1, 0, 0, 1, 1],
        &[0, 0, 1, 9, 0, 0, 1],
        &[0, 0, 1, 9, 8, 0, 0, 1],
        &[9, 9, 0, 0, 1],
        &[0, 0, 1, 9, 0, 0],
        &[0, 0, 1, 9, 0, 1],
        &[9, 9, 9, 0, 0],
        &[0, 0],
    ];
    out.extend(others.map(<[u8]>::to_vec));
    out
}

/// Short cases of each kind.
pub fn fixed(emit: Emit) {
    let mut units = Vec::new();
    placed(&mut units);
    others(&mut units);
    let mut cases: Vec<Case> = units
        .into_iter()
        .map(|u| Case::new(CALL, vec![], u))
        .collect();
    for s in streams() {
        for (op, k) in [(COUNT, 0), (UNIT, 0), (UNIT, 1), (NEXT, 1)] {
            cases.push(Case::new(op, size_and_k(0, k), s.clone()));
        }
    }
    for (i, c) in cases.into_iter().enumerate() {
        emit(with_room_by(5 * i + i % 2 * 4, c));
    }
}

/// Every string over the bytes that the check tells apart: up to seven bytes the check and the count of units, up to eight, if a start code is in it,
/// every unit and every place.
pub fn short(emit: Emit) {
    let mut i = 0;
    strings(&[0, 1, 2, 3, 4, 0xff], 8, &mut |s| {
        let mut calls = Vec::new();
        if s.len() < 8 {
            calls.extend([CALL, COUNT].map(|op| (op, vec![])));
        }
        if s.windows(3).any(|w| w == [0, 0, 1]) {
            calls.extend(unit_calls(s));
        }
        for (op, numbers) in calls {
            i += 1;
            emit(with_room_by(i, Case::new(op, numbers, s.to_vec())));
        }
    });
}

/// A unit of up to 64 bytes, or of up to 4,096, in which zeros and bytes below 5 are frequent or rare; half of the units with emulation prevention, a
/// quarter with one of the sequences put in.
fn unit(r: &mut Rng) -> Vec<u8> {
    let longest = if r.one_in(16) { 4096 } else { 64 };
    let low = r.pick(&[1, 2, 8, 64]);
    let byte = |r: &mut Rng| match r.one_in(low) {
        true => r.pick(&[0, 0, 0, 1, 2, 3, 4, 0xff]),
        false => r.byte(),
    };
    let mut u: Vec<u8> = (0..1 + r.below(longest)).map(|_| byte(r)).collect();
    if r.one_in(2) {
        u = prevented(&u);
    }
    if r.one_in(4) {
        let at = r.below(u.len() + 1);
        u.splice(at..at, r.pick(&SEQUENCES).iter().copied());
    }
    u
}

/// Further units; one in four is also split as a stream.
pub fn units(r: &mut Rng, count: usize, emit: Emit) {
    for _ in 0..count {
        let u = unit(r);
        if r.one_in(4) {
            let op = r.pick(&[COUNT, UNIT, NEXT]);
            let k = r.below(if op == NEXT { u.len() } else { 3 });
            let c = Case::new(op, size_and_k(0, k as u64), u.clone());
            emit(with_room(r, c));
        }
        emit(with_room(r, Case::new(CALL, vec![], u)));
    }
}
