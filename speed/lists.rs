//! Narrow unit lists beside wide ones: how many bytes the lists of a still's records have in both versions, and how long a walk over each takes. In
//! every round the sides take turns, and the medians of their times are printed.
mod records;
mod table;
mod timing;
mod walks;

use original::vvcc::{CompactVvcConfig, VvcNalArray};
use records::COMPACT;
use std::hint::black_box;
use table::Table;
use walks::{full_of, list_of, long_record, original, part, walk};
use walks::{Version, PASSES, UNITS, WIDE};

const NARROW: Version = Version { byte: 2, width: 2 };

/// How many stills a card has in a month, at most.
const STILLS: usize = 1200;

/// The compact record that is shipped with the program of the stills.
const SHIPPED: &[u8] = include_bytes!("../crates/still_main/data/record");

/// The arrays of a compact record's list as compact read makes it: one, of type 0.
fn one_array(c: &CompactVvcConfig) -> Vec<VvcNalArray> {
    vec![VvcNalArray {
        complete: false,
        nal_unit_type: 0,
        nal_units: c.nal_units.clone(),
    }]
}

/// Arrays, units, and the bytes of the units.
fn sizes(arrays: &[VvcNalArray]) -> (usize, usize, usize) {
    let units = || arrays.iter().flat_map(|a| &a.nal_units);
    let bytes = units().map(|u| u.len()).sum();
    (arrays.len(), units().count(), bytes)
}

/// How many bytes the list of such arrays has; the list is made, and held to the formula of docs/SCOPE.md.
fn bytes_of(arrays: &[VvcNalArray], version: Version) -> usize {
    let w = version.width;
    let (m, k, b) = sizes(arrays);
    let list = list_of(arrays, version);
    assert_eq!(list.len(), 1 + (w + 2) * m + w * k + b);
    list.len()
}

/// One row of bytes: as many lists of these arrays in both versions. The last columns are the mean length of the units, and up to which mean length
/// a fifth of the wide list is saved: 10(m + k) is at least 1 + 6m + 4k + b.
fn bytes_row(t: &Table, name: &str, lists: usize, arrays: &[VvcNalArray]) {
    let name = format!("lists, {name}");
    if !t.wants(&name) {
        return;
    }
    let [narrow, wide] = [NARROW, WIDE].map(|v| lists * bytes_of(arrays, v));
    let (m, k, b) = sizes(arrays);
    let (less, fifth) = (wide - narrow, 4 * m + 6 * k - 1);
    assert_eq!(less, lists * 2 * (m + k));
    assert_eq!(5 * less >= wide, b <= fifth);
    let per_cent = 100.0 * less as f64 / wide as f64;
    let [mean, up_to] = [b, fifth].map(|n| n as f64 / k as f64);
    println!("| {name} | {narrow} | {wide} | {less} | {per_cent:.1} | {mean:.1} | {up_to:.1} |");
}

/// The rows of bytes of one record: its list from compact read and from full read, and a month of each.
fn bytes_rows(t: &Table, c: &CompactVvcConfig) {
    let (one, full) = (one_array(c), full_of(c).arrays);
    let (n, m) = (c.nal_units.len(), full.len());
    bytes_row(t, &format!("{n} units, compact read, 1 array"), 1, &one);
    bytes_row(t, &format!("{n} units, full read, {m} arrays"), 1, &full);
    let month = format!("a month of {STILLS}, {n} units");
    bytes_row(t, &format!("{month}, compact read"), STILLS, &one);
    bytes_row(t, &format!("{month}, full read"), STILLS, &full);
}

/// One row of times: the first SPS of a full record, by a walk over its narrow list and over its wide one. Both are first held to the same unit.
fn walk_row(t: &Table, c: &CompactVvcConfig) {
    let name = format!("lists, first SPS by a walk, {} units", c.nal_units.len());
    if !t.wants(&name) {
        return;
    }
    let config = full_of(c);
    let [narrow, wide] = [NARROW, WIDE].map(|v| list_of(&config.arrays, v));
    let right = original(&config).unwrap();
    assert!(part(&narrow, walk(&narrow)) == right && part(&wide, walk(&wide)) == right);
    let mut walks = [&narrow, &wide].map(|list| {
        move || {
            black_box(&walk(black_box(list)));
        }
    });
    let [a, b] = &mut walks;
    let ns = t.medians(PASSES, &mut [a, b]);
    println!(
        "| {name} | {:.1} | {:.1} | {:.2} |",
        ns[0],
        ns[1],
        ns[0] / ns[1]
    );
}

fn main() {
    let t = Table::asked();
    let [short, shipped] = [COMPACT, SHIPPED].map(|r| CompactVvcConfig::parse(r).unwrap());
    let long = long_record();
    assert_eq!(long.nal_units.len(), UNITS);
    println!("| List | narrow, bytes | wide, bytes | bytes saved | saved, % | bytes a unit | a fifth up to |");
    println!("|---|---|---|---|---|---|---|");
    for c in [&short, &shipped, &long] {
        bytes_rows(&t, c);
    }
    println!("\n| Work | narrow, ns | wide, ns | narrow / wide |");
    println!("|---|---|---|---|");
    for c in [&short, &shipped, &long] {
        walk_row(&t, c);
    }
}
