//! A directory measured together with walks over the list and with the original: the first SPS of a record of 33 units, asked for 36 times. In every
//! round the sides take turns, and the medians of their times are printed.
mod records;
mod table;
mod timing;
mod walks;

use original::vvcc::VvcConfig;
use std::hint::black_box;
use table::Table;
use walks::{full_of, list_of, long_record, original, part, walk};
use walks::{UnitNumbers, PASSES, SPS, UNITS, WIDE};

#[repr(C)]
#[derive(Clone, Copy)]
struct Entry {
    unit_type: u8,
    offset: usize,
    len: usize,
}

/// The number of units of each type.
type Totals = [usize; 64];

extern "C" {
    fn speed_fill(
        list: *const u8,
        list_len: usize,
        dir: *mut Entry,
        dir_len: usize,
        totals: *mut Totals,
    ) -> u32;
    fn speed_first(
        list: *const u8,
        list_len: usize,
        dir: *const Entry,
        dir_len: usize,
        totals: *const Totals,
        t: u8,
    ) -> UnitNumbers;
}

/// How many times the first SPS is asked for.
const TIMES: usize = 36;

/// A directory and its totals.
struct Directory {
    entries: Vec<Entry>,
    totals: Totals,
}

impl Directory {
    /// One with room for the units of the record, not filled.
    fn new() -> Directory {
        let nothing = Entry {
            unit_type: 0,
            offset: 0,
            len: 0,
        };
        Directory {
            entries: vec![nothing; UNITS],
            totals: [0; 64],
        }
    }

    fn fill(&mut self, list: &[u8]) -> u32 {
        let (dir, n) = (self.entries.as_mut_ptr(), self.entries.len());
        unsafe { speed_fill(list.as_ptr(), list.len(), dir, n, &mut self.totals) }
    }

    /// The first SPS, by the directory.
    fn first(&self, list: &[u8]) -> UnitNumbers {
        let (dir, n) = (self.entries.as_ptr(), self.entries.len());
        unsafe { speed_first(list.as_ptr(), list.len(), dir, n, &self.totals, SPS) }
    }
}

/// Asks as many times as are measured. An answer is looked at where it lies, and not copied.
fn many<T>(ask: impl Fn() -> T) {
    for _ in 0..TIMES {
        black_box(&ask());
    }
}

/// The record: an SPS, then PPS, APS and SEI units in turn; or the same with the SPS behind all others.
fn config_of(sps_last: bool) -> VvcConfig {
    let mut c = long_record();
    if sps_last {
        c.nal_units.rotate_left(1);
    }
    full_of(&c)
}

/// One row: the directory's time, the other sides' times, and the directory's in parts of each. A side's pass does what is measured `count` times.
fn row(t: &Table, name: &str, count: usize, sides: &mut [&mut dyn FnMut()]) {
    if !t.wants(name) {
        return;
    }
    let mut ns = t.medians(PASSES, sides);
    ns.iter_mut().for_each(|t| *t /= count as f64);
    let others = &ns[1..];
    let mut columns: Vec<String> = ns.iter().map(|t| format!("{t:.1}")).collect();
    columns.resize(3, "-".into());
    columns.extend(others.iter().map(|t| format!("{:.2}", ns[0] / t)));
    columns.resize(5, "-".into());
    println!("| {name} | {} |", columns.join(" | "));
}

/// The rows of one record. Every side is first held to the same unit.
fn rows(t: &Table, place: &str, config: &VvcConfig) {
    let list = &list_of(&config.arrays, WIDE)[..];
    let mut d = Directory::new();
    assert_eq!(d.fill(list), 0);
    let right = original(config).unwrap();
    assert!(part(list, d.first(list)) == right && part(list, walk(list)) == right);
    let mut walks = || many(|| walk(black_box(list)));
    let mut originals = || many(|| original(black_box(config)));
    let mut all = || {
        assert_eq!(black_box(&mut d).fill(black_box(list)), 0);
        many(|| black_box(&d).first(black_box(list)));
    };
    let name = format!("directory, first SPS, {TIMES} times, {UNITS} units, {place}");
    row(t, &name, 1, &mut [&mut all, &mut walks, &mut originals]);
    let mut fill = || assert_eq!(black_box(&mut d).fill(black_box(list)), 0);
    let name = format!("directory, filling, {UNITS} units, {place}");
    row(t, &name, 1, &mut [&mut fill]);
    let mut questions = || many(|| black_box(&d).first(black_box(list)));
    let name = format!("directory, one question, {UNITS} units, {place}");
    let sides: &mut [&mut dyn FnMut()] = &mut [&mut questions, &mut walks, &mut originals];
    row(t, &name, TIMES, sides);
}

fn main() {
    let t = Table::asked();
    println!("| Work | directory, ns | walks, ns | original, ns | directory / walks | directory / original |");
    println!("|---|---|---|---|---|---|");
    rows(&t, "SPS first", &config_of(false));
    rows(&t, "SPS last", &config_of(true));
}
