//! Start codes of an assembled stream: the cases of both choices, and what the short one is held to. What `replay` writes with short start codes is
//! the original's stream once each of them is put back to four bytes, and the original splits it into the units if they are splittable.

use crate::answers;
use crate::case::Case;
use crate::generator::{with_room_by, Emit};
use crate::reading::{self, list_bytes};
use original::hvcc::split_annex_b;
use original::vvcc::VvcNalArray;

/// The numbers of the calls: start codes of four bytes throughout, and short ones.
const FOUR: u8 = 36;
pub const SHORT: u8 = 54;

/// The length of a case's result, 0 if it is refused.
fn result_len(c: &Case) -> usize {
    answers::answer(c).result.unwrap_or(0)
}

/// For a case with four bytes throughout: the same with short start codes. Its output is as much longer or shorter than its result as the output of
/// the first is; if the fill byte is a multiple of four, it is as long as the output of the first.
pub fn shortened(c: &Case) -> Option<Case> {
    if c.op != FOUR {
        return None;
    }
    let mut short = Case {
        op: SHORT,
        ..c.clone()
    };
    if c.fill % 4 != 0 {
        short.room = c.room.saturating_sub(result_len(c) - result_len(&short));
    }
    Some(short)
}

/// A case, and if it has four bytes throughout also the same with short start codes.
pub fn both(c: Case) -> impl Iterator<Item = Case> {
    let short = shortened(&c);
    [c].into_iter().chain(short)
}

/// What the answer to a case with short start codes is held to: the original's stream, and the units.
pub struct Asked {
    stream: Vec<u8>,
    units: Vec<Vec<u8>>,
}

/// Assembles with the original; none if it refuses.
pub fn asked(c: &Case) -> Option<Asked> {
    let a = answers::assembled(c).ok()?;
    Some(Asked {
        stream: a.stream,
        units: a.units.iter().map(|u| u.to_vec()).collect(),
    })
}

/// The refusal in an answer line, and the bytes that were written.
pub fn written(line: &str) -> Option<(u32, Vec<u8>)> {
    let mut words = line.trim_end().split(' ').skip(1);
    let refusal = words.next()?.parse().ok()?;
    if refusal != 0 {
        return Some((refusal, Vec::new()));
    }
    let len: usize = words.next()?.parse().ok()?;
    let digits = words.next()?.strip_prefix('=')?.get(..2 * len)?;
    let byte = |i: usize| u8::from_str_radix(&digits[2 * i..2 * i + 2], 16).ok();
    Some((0, (0..len).map(byte).collect::<Option<_>>()?))
}

/// Short start codes held to the original, in numbers of streams: all of them, those that the original was asked to split, and those that are not as
/// they must be. Then their start codes, how many of these have three bytes, and how many outputs were too short.
#[derive(Default)]
pub struct Held {
    streams: u64,
    split: u64,
    pub disagree: u64,
    codes: usize,
    three: usize,
    too_short: u64,
}

impl Held {
    /// Whether the stream in an answer line of `replay`, put back to four bytes, is the original's, and the original splits it into the units. A
    /// refusal other than 20 does not agree, since the original accepts the case.
    pub fn agrees(&mut self, line: &str, asked: &Asked) -> bool {
        let stream = match written(line) {
            Some((20, _)) => {
                self.too_short += 1;
                return true;
            }
            Some((0, stream)) => stream,
            _ => Vec::new(),
        };
        self.streams += 1;
        let agrees = self.is_put_back(&stream, asked) && self.is_split(&stream, asked);
        self.disagree += u64::from(!agrees);
        agrees
    }

    fn is_put_back(&mut self, stream: &[u8], asked: &Asked) -> bool {
        let lengths = asked.units.iter().map(Vec::len);
        let Some((back, three)) = reading::put_back(stream, lengths) else {
            return false;
        };
        self.codes += asked.units.len();
        self.three += three;
        back == asked.stream
    }

    /// Only splittable units are recovered from a stream.
    fn is_split(&mut self, stream: &[u8], asked: &Asked) -> bool {
        if !asked.units.iter().all(|u| reading::splittable(u)) {
            return true;
        }
        self.split += 1;
        split_annex_b(stream) == asked.units
    }

    pub fn print(&self) {
        println!(
            "\nshort start codes: {} streams held to the original's: {} are the same with four bytes throughout, {} were also split into their units \
             by the original, {} disagree; {} of {} start codes have three bytes; {} outputs were too short",
            self.streams,
            self.streams - self.disagree,
            self.split,
            self.disagree,
            self.three,
            self.codes,
            self.too_short
        );
    }
}

/// The inputs of a case: a list and an item.
type Inputs = (Vec<u8>, Vec<u8>);

/// A list of arrays, each with its type and its units.
fn list(arrays: &[(u8, &[Vec<u8>])]) -> Vec<u8> {
    let array = |(t, units): &(u8, &[Vec<u8>])| VvcNalArray::new(true, *t, units.to_vec());
    list_bytes(&arrays.iter().map(array).collect::<Vec<_>>())
}

/// An item of units, with prefix size 1.
fn item(units: &[Vec<u8>]) -> Vec<u8> {
    let prefixed = |u: &Vec<u8>| [&[u.len() as u8], &u[..]].concat();
    units.iter().flat_map(prefixed).collect()
}

/// A unit of a type. That of type 12 is an OPI unit that does not read and is kept.
fn unit(t: u8) -> Vec<u8> {
    vec![0, t << 3 | 1, 0x80]
}

/// Every type: first and later in the list, first and later in an item without a list, and after another unit of the item.
fn types() -> Vec<Inputs> {
    let of_type = |t| {
        let two = [unit(t), unit(t)];
        [
            (list(&[(t, &two)]), item(&[unit(8)])),
            (list(&[]), item(&two)),
            (list(&[(15, &[unit(15)])]), item(&[unit(8), unit(t)])),
        ]
    };
    (0..32).flat_map(of_type).collect()
}

/// Every byte in the second place of a unit; in the first place, which has no part of the type; arrays whose type is not that of their units.
fn headers() -> Vec<Inputs> {
    let second: Vec<Vec<u8>> = (0..=255).map(|b| vec![0, b]).collect();
    let first = |low| (0..32).map(move |t| vec![t << 3, low]);
    let first: Vec<Vec<u8>> = first(0x41).chain(first(0x79)).collect();
    let picture = item(&[unit(8)]);
    let other = |t, of| (t, [unit(of), unit(of)]);
    let mut out = vec![
        (list(&[(0, &second)]), picture.clone()),
        (list(&[(0, &first)]), picture.clone()),
    ];
    for (a, b) in [
        (other(15, 19), other(20, 15)),
        (other(20, 15), other(15, 19)),
        (other(12, 11), other(11, 12)),
        (other(18, 8), other(8, 18)),
    ] {
        out.push((list(&[(a.0, &a.1), (b.0, &b.1)]), picture.clone()));
    }
    out
}

/// Units of one byte and of none, first and later, in the list and in the item; a unit of one byte before a prefix that would be an SPS's header; no
/// units at all.
fn short_units() -> Vec<Inputs> {
    let (byte, none) = (vec![0x79], vec![]);
    let (vcl, long) = (unit(8), vec![0x41; 0x79]);
    let bytes = [byte.clone(), byte.clone()];
    let in_list = |units: &[Vec<u8>]| (list(&[(15, units)]), item(&[vcl.clone()]));
    let in_item = |units: &[Vec<u8>]| (list(&[]), item(units));
    let after = |units: &[Vec<u8>]| (list(&[(15, &[unit(15)])]), item(units));
    vec![
        in_list(&bytes),
        in_item(&bytes),
        after(&bytes),
        in_item(&[byte.clone()]),
        in_item(&[byte.clone(), long.clone(), unit(15)]),
        after(&[byte.clone(), long, byte.clone()]),
        in_list(&[none.clone(), vcl.clone(), unit(15)]),
        in_list(&[unit(15), none.clone(), vcl.clone()]),
        in_list(&[none.clone(), none.clone()]),
        in_list(&[none.clone(), byte]),
        (list(&[(15, &[none.clone()])]), vec![]),
        in_item(&[none.clone(), vcl.clone()]),
        after(&[vcl.clone(), none]),
        in_item(&[]),
    ]
}

/// Leading units of the item, and OPI units that are dropped, so that a later unit is the first. The target is operating point 1.
fn leading() -> Vec<Inputs> {
    let (dropped, kept) = (vec![0, 0x61, 0xa0, 0x80], vec![0, 0x61, 0x90, 0x80]);
    let (aud, vcl, byte) = (unit(20), unit(8), vec![0x79]);
    let items: [&[&Vec<u8>]; 13] = [
        &[&aud, &vcl],
        &[&aud, &aud],
        &[&kept, &aud, &vcl],
        &[&aud, &kept, &vcl],
        &[&dropped],
        &[&dropped, &dropped],
        &[&dropped, &vcl, &vcl],
        &[&dropped, &aud, &vcl],
        &[&dropped, &kept, &vcl],
        &[&dropped, &byte, &vcl],
        &[&aud, &dropped, &aud, &kept, &vcl],
        &[&vcl, &dropped, &vcl, &kept],
        &[&vcl, &aud, &dropped],
    ];
    let lists = [list(&[]), list(&[(0, &[unit(23), unit(15)])])];
    let with_lists = |units: &[&Vec<u8>]| {
        let units: Vec<Vec<u8>> = units.iter().map(|u| u.to_vec()).collect();
        lists.clone().map(|l| (l, item(&units)))
    };
    items.into_iter().flat_map(with_lists).collect()
}

/// The case of inputs, with four bytes throughout: prefix size 1, and operating point 1 as the target.
fn case((list, item): Inputs) -> Case {
    let numbers = [vec![1, 0, 1], vec![0; 8], vec![1]].concat();
    Case {
        second: item,
        ..Case::new(FOUR, numbers, list)
    }
}

/// Outputs as long as the result with short start codes and as that with four bytes, and one byte shorter than each.
fn rooms(emit: Emit) {
    let parameters = [unit(15), unit(16)];
    for (i, inputs) in [
        (list(&[(0, &parameters)]), item(&[unit(8)])),
        (list(&[]), item(&[unit(20), unit(8), unit(8), unit(24)])),
        (list(&[(0, &parameters)]), vec![]),
    ]
    .into_iter()
    .enumerate()
    {
        let c = case(inputs);
        let short = shortened(&c).expect("the call has both choices");
        for n in [result_len(&short), result_len(&c)] {
            for room in [n - 1, n] {
                // both choices get this output, since the fill byte is a multiple of four
                emit(Case {
                    fill: 4 * (i as u8 + 20),
                    room,
                    ..c.clone()
                });
            }
        }
    }
}

/// Short cases of every kind of unit, with four bytes throughout; `shortened` makes those of the other choice.
pub fn fixed(emit: Emit) {
    let parts = [types(), headers(), short_units(), leading()];
    for (i, inputs) in parts.into_iter().flatten().enumerate() {
        emit(with_room_by(5 * i + i % 2 * 4, case(inputs)));
    }
    rooms(emit);
}
