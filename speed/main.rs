//! The library measured together with the original: every row runs both on the same bytes, in turn, and prints the medians of their times. Two
//! more tables have short start codes beside those of four bytes: their times, and the bytes that they save.
mod records;
mod streams;
mod timing;

use original::hvcc::{split_annex_b, split_length_prefixed};
use original::vvcc::{access_unit_annex_b, nal_unit_type, CompactVvcConfig, VvcConfig};
use records::{compact_of, Bytes, COMPACT};
use std::cell::RefCell;
use std::hint::black_box;
use streams::{original_stream, stream_units, units_of, Unit};
use timing::{clock, median};

#[repr(C)]
#[derive(Clone, Copy)]
struct Written {
    refusal: u32,
    len: usize,
}

#[repr(C)]
#[derive(Clone, Copy)]
struct Read {
    refusal: u32,
    consumed: usize,
}

extern "C" {
    fn vvcc_access_unit(
        record: *const u8,
        record_len: usize,
        item: *const u8,
        item_len: usize,
        has_target: u8,
        target: u16,
        short_codes: u8,
        scratch: *mut u8,
        scratch_len: usize,
        out: *mut u8,
        out_len: usize,
    ) -> Written;
    fn vvcc_still_stream(
        record: *const u8,
        record_len: usize,
        stored: *const u8,
        stored_len: usize,
        has_target: u8,
        target: u16,
        short_codes: u8,
        out: *mut u8,
        out_len: usize,
    ) -> Written;
    fn vvcc_strict_record(
        record: *const u8,
        record_len: usize,
        scratch: *mut u8,
        scratch_len: usize,
    ) -> Read;
    fn vvcc_next_item_unit(item: *const u8, len: usize, length_size: u8, from: usize) -> Unit;
}

/// The start codes, by their numbers in include/vvcc.h.
const FOUR: u8 = 0;
const SHORT: u8 = 1;

/// The stream of a record and an item, in the given memory.
fn access_unit(
    record: &[u8],
    item: &[u8],
    codes: u8,
    scratch: &mut [u8],
    out: (*mut u8, usize),
) -> usize {
    let w = unsafe {
        vvcc_access_unit(
            record.as_ptr(),
            record.len(),
            item.as_ptr(),
            item.len(),
            0,
            0,
            codes,
            scratch.as_mut_ptr(),
            scratch.len(),
            out.0,
            out.1,
        )
    };
    assert_eq!(w.refusal, 0);
    w.len
}

/// The stream of a still, in lent memory.
fn still_stream(compact: &[u8], stored: &[u8], codes: u8, out: &mut [u8]) -> usize {
    let w = unsafe {
        vvcc_still_stream(
            compact.as_ptr(),
            compact.len(),
            stored.as_ptr(),
            stored.len(),
            0,
            0,
            codes,
            out.as_mut_ptr(),
            out.len(),
        )
    };
    assert_eq!(w.refusal, 0);
    w.len
}

/// How many bytes of a record are consumed when it is read strictly.
fn strict_record(record: &[u8], scratch: &mut [u8]) -> usize {
    let r = unsafe {
        vvcc_strict_record(
            record.as_ptr(),
            record.len(),
            scratch.as_mut_ptr(),
            scratch.len(),
        )
    };
    assert_eq!(r.refusal, 0);
    r.consumed
}

fn item_units(item: &[u8], size: u8) -> Vec<&[u8]> {
    units_of(item, |at| unsafe {
        vvcc_next_item_unit(item.as_ptr(), item.len(), size, at)
    })
}

/// The original's way from a record and an item to the stream.
fn original_assembly(record: &[u8], item: &[u8]) -> Vec<u8> {
    access_unit_annex_b(&VvcConfig::parse(record).unwrap(), item, None).unwrap()
}

/// An item of units after prefixes of `size` bytes.
fn item_of(units: usize, unit_len: usize, size: usize) -> Vec<u8> {
    let mut bytes = Bytes(units as u64);
    let mut item = Vec::new();
    for k in 0..units {
        let u = bytes.unit([0x00, if k == 0 { 0x41 } else { 0x01 }], unit_len);
        item.extend_from_slice(&(u.len() as u32).to_be_bytes()[4 - size..]);
        item.extend_from_slice(&u);
    }
    item
}

/// A full record without PTL, with three parameter sets: VPS, SPS, PPS.
fn record_of(size: u8) -> Vec<u8> {
    let mut bytes = Bytes(7);
    let mut r = vec![0xF8 | (size - 1) << 1, 3];
    for (kind, header, len) in [
        (14u8, [0x00, 0x71], 20usize),
        (15, [0x00, 0x79], 64),
        (16, [0x00, 0x81], 12),
    ] {
        let u = bytes.unit(header, len);
        r.extend_from_slice(&[0x80 | kind, 0, 1]);
        r.extend_from_slice(&(u.len() as u16).to_be_bytes());
        r.extend_from_slice(&u);
    }
    r
}

/// Nanoseconds printed as microseconds, with three digits where there are fewer than three before the point.
fn micro(ns: f64) -> String {
    let digits = if ns < 1e4 {
        2
    } else if ns < 1e5 {
        1
    } else {
        0
    };
    format!("{:.*}", digits, ns / 1e3)
}

/// The table's rows, as they are measured.
struct Table {
    rounds: usize,
    word: String,
}

impl Table {
    fn wants(&self, name: &str) -> bool {
        name.contains(&self.word)
    }

    /// The medians of two sides, one after another in every round; they take turns in being first. Each round ends with `rest`.
    fn turns(
        &self,
        times: usize,
        mut one: impl FnMut(),
        mut other: impl FnMut(),
        mut rest: impl FnMut(),
    ) -> (f64, f64) {
        let (mut a, mut b) = (vec![], vec![]);
        for round in 0..self.rounds {
            if round % 2 == 0 {
                a.push(clock(times, &mut one));
                b.push(clock(times, &mut other));
            } else {
                b.push(clock(times, &mut other));
                a.push(clock(times, &mut one));
            }
            rest();
        }
        (median(a), median(b))
    }

    /// One row: the library and the original in turns, and after both a plain copy of `bytes` bytes.
    fn row(
        &self,
        name: &str,
        bytes: usize,
        times: usize,
        ours: impl FnMut(),
        original: impl FnMut(),
    ) {
        let src = vec![1u8; bytes];
        let mut dst = vec![2u8; bytes];
        let mut c = vec![];
        let (a, b) = self.turns(times, ours, original, || {
            c.push(clock(times, || {
                black_box(&mut dst[..]).copy_from_slice(black_box(&src[..]));
            }))
        });
        let c = median(c);
        println!(
            "| {name} | {} | {} | {} | {:.2} | {:.2} |",
            micro(a),
            micro(b),
            micro(c),
            a / b,
            a / c
        );
    }

    /// One row: short start codes and those of four bytes in turns, by the same call.
    fn codes_row(&self, name: &str, times: usize, call: impl FnMut(u8)) {
        let call = RefCell::new(call);
        let with = |codes| (call.borrow_mut())(codes);
        let (a, b) = self.turns(times, || with(SHORT), || with(FOUR), || {});
        println!("| {name} | {} | {} | {:.2} |", micro(a), micro(b), a / b);
    }
}

/// Assembly into lent memory, or into a new `Vec` at each call as the original does it.
fn assembly(t: &Table, name: &str, size: u8, units: usize, unit_len: usize, new_vec: bool) {
    let name = format!(
        "assembly, prefix size {size}, {name}{}",
        if new_vec { ", new Vec" } else { "" }
    );
    if !t.wants(&name) {
        return;
    }
    let (record, item) = (record_of(size), item_of(units, unit_len, size as usize));
    let right = original_assembly(&record, &item);
    let mut lent = vec![0u8; right.len()];
    let mut scratch = vec![0u8; 4 * record.len()];
    let mut ours = |out| {
        let (record, item) = (black_box(&record), black_box(&item));
        access_unit(record, item, FOUR, &mut scratch, (out, right.len()))
    };
    assert_eq!(ours(lent.as_mut_ptr()), right.len());
    assert!(lent == right);
    t.row(
        &name,
        right.len(),
        1 + (4 << 20) / right.len(),
        || {
            let mut new = Vec::with_capacity(if new_vec { right.len() } else { 0 });
            let out = if new_vec {
                new.as_mut_ptr()
            } else {
                lent.as_mut_ptr()
            };
            black_box(ours(out));
            black_box::<Vec<u8>>(new);
        },
        || {
            black_box(original_assembly(black_box(&record), black_box(&item)));
        },
    );
}

fn item_split(t: &Table, name: &str, size: u8, units: usize, unit_len: usize) {
    let name = format!("item split, prefix size {size}, {name}");
    if !t.wants(&name) {
        return;
    }
    let item = item_of(units, unit_len, size as usize);
    assert!(item_units(&item, size) == split_length_prefixed(&item, size).unwrap());
    t.row(
        &name,
        item.len(),
        1 + (4 << 20) / item.len(),
        || {
            black_box(item_units(black_box(&item), size));
        },
        || {
            black_box(split_length_prefixed(black_box(&item), size).unwrap());
        },
    );
}

fn stream_split(t: &Table, name: &str, size: u8, units: usize, unit_len: usize) {
    let name = format!("stream split, {name}");
    if !t.wants(&name) {
        return;
    }
    let stream = original_assembly(&record_of(size), &item_of(units, unit_len, size as usize));
    let found = stream_units(&stream);
    assert!(found == split_annex_b(&stream) && found.len() == units + 3);
    t.row(
        &name,
        stream.len(),
        1 + (4 << 20) / stream.len(),
        || {
            black_box(stream_units(black_box(&stream)));
        },
        || {
            black_box(split_annex_b(black_box(&stream)));
        },
    );
}

/// A still as the cameras write it: the compact record of an SPS and a PPS, and `len` stored bytes.
fn still_of(seed: u64, len: usize) -> (Vec<u8>, Vec<u8>) {
    (COMPACT.to_vec(), Bytes(seed).unit([0x80, 0x40], len))
}

/// The full record of a still whose compact record has an SPS and `units` - 1 PPSs.
fn still_record_of(units: usize) -> Vec<u8> {
    let c = CompactVvcConfig::parse(&compact_of(units, &[16])).unwrap();
    c.to_full(1, 8, 16, 8).unwrap().serialize()
}

/// A record read strictly. The original has no such call: it reads the record and writes it again, and the bytes are compared.
fn strict_read(t: &Table, name: &str, record: &[u8]) {
    if !t.wants(name) {
        return;
    }
    let mut scratch = vec![0u8; 4 * record.len()];
    assert_eq!(strict_record(record, &mut scratch), record.len());
    t.row(
        name,
        record.len(),
        1 + (4 << 20) / record.len(),
        || {
            black_box(strict_record(black_box(record), &mut scratch));
        },
        || {
            let record = black_box(record);
            assert!(VvcConfig::parse(record).unwrap().serialize() == record);
        },
    );
}

/// Stills converted one after another into one lent output.
fn stills(t: &Table, name: &str, stills: &[(Vec<u8>, Vec<u8>)]) {
    if !t.wants(name) {
        return;
    }
    let longest = stills
        .iter()
        .map(|(c, s)| 4 * c.len() + s.len() + 6)
        .max()
        .unwrap();
    let mut out = vec![0u8; longest];
    let mut bytes = 0;
    for (c, s) in stills {
        let right = original_stream(c, s);
        let n = still_stream(c, s, FOUR, &mut out);
        assert!(out[..n] == right[..]);
        bytes += n;
    }
    t.row(
        name,
        bytes,
        1 + (4 << 20) / bytes,
        || {
            for (c, s) in stills {
                black_box(still_stream(black_box(c), black_box(s), FOUR, &mut out));
            }
        },
        || {
            for (c, s) in stills {
                black_box(original_stream(black_box(c), black_box(s)));
            }
        },
    );
}

/// The units, each after its start code.
fn annex_b(units: &[&[u8]], codes: u8) -> Vec<u8> {
    let mut stream = vec![];
    for (k, u) in units.iter().enumerate() {
        let three = codes == SHORT && k > 0 && !matches!(nal_unit_type(u), Some(12..=18));
        stream.extend_from_slice(if three { &[0, 0, 1] } else { &[0, 0, 0, 1] });
        stream.extend_from_slice(u);
    }
    stream
}

/// What is written with short start codes and with those of four bytes.
struct Choices<'a> {
    table: &'a Table,
    /// The rows of the bytes saved.
    saved: Vec<String>,
}

impl Choices<'_> {
    /// A call that writes `right` with codes of four bytes: both of its streams are held to the units of `right`, then it is timed.
    fn row(&mut self, name: &str, right: &[u8], mut write: impl FnMut(u8, &mut [u8]) -> usize) {
        let units = split_annex_b(right);
        let mut out = vec![0u8; right.len()];
        let lens = [SHORT, FOUR].map(|codes| {
            let n = write(codes, &mut out);
            assert!(out[..n] == annex_b(&units, codes)[..]);
            n
        });
        assert!(out == right);
        let times = 1 + (4 << 20) / right.len();
        self.table.codes_row(name, times, |codes| {
            black_box(write(codes, &mut out));
        });
        let [short, four] = lens;
        let (work, less) = (name.replace(", short codes", ""), four - short);
        let per_cent = 100.0 * less as f64 / four as f64;
        self.saved.push(format!(
            "| {work} | {short} | {four} | {less} | {per_cent:.3} |"
        ));
    }

    fn assembly(&mut self, name: &str, size: u8, units: usize, unit_len: usize) {
        let name = format!("assembly, short codes, prefix size {size}, {name}");
        if !self.table.wants(&name) {
            return;
        }
        let (record, item) = (record_of(size), item_of(units, unit_len, size as usize));
        let right = original_assembly(&record, &item);
        let mut scratch = vec![0u8; 4 * record.len()];
        self.row(&name, &right, |codes, out| {
            let (record, item) = (black_box(&record), black_box(&item));
            let out = (out.as_mut_ptr(), out.len());
            access_unit(record, item, codes, &mut scratch, out)
        });
    }

    fn still(&mut self, name: &str, compact: &[u8], stored: &[u8]) {
        let name = format!("still to stream, short codes, {name}");
        if !self.table.wants(&name) {
            return;
        }
        self.row(&name, &original_stream(compact, stored), |codes, out| {
            still_stream(black_box(compact), black_box(stored), codes, out)
        });
    }
}

/// The tables of short start codes: the same items as in the rows of assembly, and stills with records of 2 units and of 33.
fn start_codes(t: &Table) {
    println!("| Work | short codes, µs | four bytes, µs | short / four |");
    println!("|---|---|---|---|");
    let mut c = Choices {
        table: t,
        saved: vec![],
    };
    c.assembly(WHOLE, 4, 2000, 4190);
    c.assembly(WHOLE, 2, 2000, 4192);
    c.assembly(SMALL, 1, 2000, 255);
    c.assembly(MANY, 1, 32768, 255);
    // types 15, 16, 17 and 23: an SPS, then PPS, APS and SEI in turn
    let mixed = compact_of(33, &[16, 17, 23]);
    for (name, len) in [("4 KB", 4 << 10), ("40 KB", 40 << 10)] {
        let (compact, stored) = still_of(3, len);
        c.still(&format!("record of 2 units, {name}"), &compact, &stored);
        c.still(&format!("record of 33 units, {name}"), &mixed, &stored);
    }
    println!("\n| Stream | with short codes | with four bytes | bytes saved | saved, % |");
    println!("|---|---|---|---|---|");
    for row in &c.saved {
        println!("{row}");
    }
}

/// The items of assembly and the splits, in words.
const WHOLE: &str = "8 MiB in 2,000 units";
const SMALL: &str = "2,000 units of 255 bytes";
const MANY: &str = "8 MiB in units of 255 bytes";

fn main() {
    let args: Vec<String> = std::env::args().collect();
    let rounds = args
        .get(1)
        .map_or(201, |n| n.parse().expect("ROUNDS is a number"));
    let t = Table {
        rounds,
        word: args.get(2).cloned().unwrap_or_default(),
    };
    println!("| Work | library, µs | original, µs | plain copy, µs | library / original | library / copy |");
    println!("|---|---|---|---|---|---|");
    assembly(&t, WHOLE, 4, 2000, 4190, false);
    assembly(&t, WHOLE, 2, 2000, 4192, false);
    assembly(&t, SMALL, 1, 2000, 255, false);
    assembly(&t, MANY, 1, 32768, 255, false);
    assembly(&t, WHOLE, 4, 2000, 4190, true);
    item_split(&t, WHOLE, 4, 2000, 4190);
    item_split(&t, WHOLE, 2, 2000, 4192);
    item_split(&t, SMALL, 1, 2000, 255);
    item_split(&t, MANY, 1, 32768, 255);
    stream_split(&t, WHOLE, 4, 2000, 4190);
    stream_split(&t, MANY, 1, 32768, 255);
    stills(&t, "still to stream, 4 KB", &[still_of(1, 4 << 10)]);
    stills(&t, "still to stream, 40 KB", &[still_of(2, 40 << 10)]);
    let month: Vec<_> = (0..1200)
        .map(|k| still_of(k as u64, 4096 + k * 37 * 1024 / 1200))
        .collect();
    stills(&t, "a month's 1,200 stills, 4 to 41 KB", &month);
    strict_read(&t, "strict read, record of 2 units", &still_record_of(2));
    strict_read(&t, "strict read, record of 33 units", &still_record_of(33));
    println!();
    start_codes(&t);
}
