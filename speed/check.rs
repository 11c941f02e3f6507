//! The unit check and stream splitting measured together with the original's splitting: in every row both split the same stream, and the check is
//! asked of each of its units. In every round the sides take turns, and the medians of their times are printed as speeds. With `--cfg before` the
//! splitting of an earlier build of the library, under the name `vvcc_next_unit_before`, is one more side.
#![allow(unexpected_cfgs)]
mod records;
mod streams;
mod table;
mod timing;

use original::hvcc::split_annex_b;
use records::{compact_of, Bytes};
use std::hint::black_box;
use streams::{original_stream, stream_units};
use table::Table;

#[repr(C)]
#[derive(Clone, Copy)]
struct Check {
    refusal: u32,
    passes: u32,
}

extern "C" {
    fn vvcc_check_unit(unit: *const u8, len: usize) -> Check;
    #[cfg(before)]
    fn vvcc_next_unit_before(stream: *const u8, len: usize, from: usize) -> streams::Unit;
}

fn passes(unit: &[u8]) -> bool {
    let c = unsafe { vvcc_check_unit(unit.as_ptr(), unit.len()) };
    assert_eq!(c.refusal, 0);
    c.passes == 1
}

/// The units of a stream, by the earlier build.
#[cfg(before)]
fn units_before(stream: &[u8]) -> Vec<&[u8]> {
    streams::units_of(stream, |at| unsafe {
        vvcc_next_unit_before(stream.as_ptr(), stream.len(), at)
    })
}

/// The bytes of a unit, made of random ones.
type Content = fn(u8) -> u8;

const RANDOM: Content = |b| b;

/// A unit of `len` bytes, or of one more, as an encoder writes it: 03 is put between 00 00 and a byte up to 03, and the last byte is not 00.
fn unit_of(bytes: &mut Bytes, len: usize, content: Content) -> Vec<u8> {
    let mut u = vec![0x00, 0x01];
    while u.len() + 1 < len {
        let b = content(bytes.byte());
        if b <= 3 && u.ends_with(&[0, 0]) {
            u.push(3);
        }
        u.push(b);
    }
    u.push(0x80);
    u
}

/// A stream of such units.
fn stream_of(units: usize, unit_len: usize, content: Content) -> Vec<u8> {
    let mut bytes = Bytes(units as u64);
    let mut stream = vec![];
    for _ in 0..units {
        stream.extend([0, 0, 0, 1]);
        stream.extend(unit_of(&mut bytes, unit_len, content));
    }
    stream
}

/// The stream of a still: an SPS, a PPS, and a picture of `len` stored bytes.
fn still_of(len: usize) -> Vec<u8> {
    original_stream(&compact_of(2, &[16]), &Bytes(1).unit([0x80, 0x40], len))
}

/// The units of a stream. Every side finds the same ones, and all pass; with 00 00 02 before its last byte none does.
fn units_held(stream: &[u8]) -> Vec<&[u8]> {
    let units = split_annex_b(stream);
    assert!(stream_units(stream) == units);
    #[cfg(before)]
    assert!(units_before(stream) == units);
    for u in &units {
        let (last, rest) = u.split_last().unwrap();
        assert!(passes(u) && !passes(&[rest, &[0, 0, 2, *last]].concat()));
    }
    units
}

/// The names of the columns after those of the sides that are always there.
const BEFORE: &str = if cfg!(before) {
    " before, MB/s | split / before |"
} else {
    ""
};

fn header() {
    println!("| Work | bytes | check, MB/s | split, MB/s | original, MB/s | plain copy, MB/s | check / original | split / original |{BEFORE}");
    println!("{}|", "|---".repeat(8 + BEFORE.matches('|').count()));
}

/// One row: the speeds of the check, of splitting by the library and by the original, and of a plain copy of the stream; then the times of the
/// first two in parts of the original's. The speed of the check is that of the units' bytes, without start codes.
fn row(t: &Table, name: &str, units: usize, stream: impl Fn() -> Vec<u8>) {
    let name = format!("check, {name}");
    if !t.wants(&name) {
        return;
    }
    let stream = &stream()[..];
    let held = units_held(stream);
    assert_eq!(held.len(), units);
    let mut copied = stream.to_vec();
    let mut check = || assert!(black_box(&held).iter().all(|u| passes(u)));
    let mut split = || drop(black_box(stream_units(black_box(stream))));
    let mut original = || drop(black_box(split_annex_b(black_box(stream))));
    let mut copy = || black_box(&mut copied[..]).copy_from_slice(black_box(stream));
    let sides: &mut [&mut dyn FnMut()] = &mut [
        &mut check,
        &mut split,
        &mut original,
        &mut copy,
        #[cfg(before)]
        &mut || drop(black_box(units_before(black_box(stream)))),
    ];
    let ns = t.medians(1 + (4 << 20) / stream.len(), sides);
    let checked = held.iter().map(|u| u.len()).sum();
    println!("| {name} | {} |", columns(stream.len(), checked, &ns));
}

/// The columns of a row, of a stream of `bytes` bytes, of which `checked` are those of its units.
fn columns(bytes: usize, checked: usize, ns: &[f64]) -> String {
    let speed = |bytes: usize, ns: f64| format!("{:.0}", 1e3 * bytes as f64 / ns);
    let mut c = vec![bytes.to_string(), speed(checked, ns[0])];
    c.extend(ns[1..4].iter().map(|t| speed(bytes, *t)));
    c.extend(ns[..2].iter().map(|t| format!("{:.2}", t / ns[2])));
    for before in &ns[4..] {
        c.extend([speed(bytes, *before), format!("{:.2}", ns[1] / before)]);
    }
    c.join(" | ")
}

fn main() {
    let t = Table::asked();
    header();
    row(&t, "8 MiB in 2,000 units", 2000, || {
        stream_of(2000, 4190, RANDOM)
    });
    row(&t, "8 MiB in units of 255 bytes", 32768, || {
        stream_of(32768, 255, RANDOM)
    });
    let contents: [(&str, Content); 5] = [
        ("", RANDOM),
        (", one byte in four 00", |b| if b < 64 { 0 } else { b }),
        (", three in four 00", |b| if b < 192 { 0 } else { b }),
        (", bytes 01 to 03", |b| 1 + b % 3),
        (", bytes 00 and 01", |b| b % 2),
    ];
    for (name, content) in contents {
        let name = format!("one unit of 8 MiB{name}");
        row(&t, &name, 1, || stream_of(1, 8 << 20, content));
    }
    row(&t, "a still's stream, 4 KB", 3, || still_of(4 << 10));
    row(&t, "a still's stream, 40 KB", 3, || still_of(40 << 10));
}
