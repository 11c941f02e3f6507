//! The two versions of a unit list: a case with its list in the other version, and what narrowing and widening are held to. Both versions of a case
//! are answered alike, but for where the units lie in the list.

use crate::answers::{self, directory_of, question_of, Answer};
use crate::case::{hex_onto, Case};
use crate::directory::{COUNT, FILL, PART, PLACE};
use crate::reading::{self, length, list_places, list_with_reserved, width};
use crate::start_codes::written;
use original::hvcc::{split_length_prefixed, HevcConfig, NalArray};

/// The numbers of the calls.
pub const NARROW: u8 = 59;
pub const WIDEN: u8 = 60;

/// The calls that take a unit list, which is their first input.
pub const WITH_A_LIST: [u8; 25] = [
    14, 15, 16, 17, 29, 33, 34, 35, 36, 37, 38, 40, 41, 44, 46, 47, 52, 53, 54, FILL, COUNT, PLACE,
    PART, NARROW, WIDEN,
];

/// A list of arrays: if it is to be narrow and can be, of version 02, else of version 01.
pub fn list_of(narrow: bool, arrays: &[NalArray]) -> Vec<u8> {
    let list = if narrow {
        reading::narrow_list(arrays).ok()
    } else {
        None
    };
    list.unwrap_or_else(|| list_with_reserved(arrays))
}

/// Parts, each after its length, with lengths of another width. What is wrong stays wrong: of a length that is cut off one byte is left, and a length
/// passes the end by as much as before, if it has room. None if the length of a part that is there has no room.
fn relaid(
    s: &[u8],
    (from, to): (usize, usize),
    relaid_part: &dyn Fn(&[u8]) -> Option<Vec<u8>>,
) -> Option<Vec<u8>> {
    let largest = (1 << (8 * to)) - 1;
    let (mut rest, mut out) = (s, Vec::new());
    while !rest.is_empty() {
        let Some(said) = length(rest, from) else {
            out.push(rest[0]);
            break;
        };
        let (part, after) = rest[from..].split_at(said.min(rest.len() - from));
        let missing = said - part.len();
        let part = relaid_part(part)?;
        let n = match part.len() + missing {
            n if n <= largest => n,
            _ if missing > 0 && part.len() < largest => largest,
            _ => return None,
        };
        out.extend(&n.to_be_bytes()[8 - to..]);
        out.extend(part);
        rest = after;
    }
    Some(out)
}

/// A list in the other version; bytes that begin as a list are converted too, and stay malformed. None for other versions, and if a length has no
/// room.
pub fn other(s: &[u8]) -> Option<Vec<u8>> {
    let (&version, rest) = s.split_first()?;
    let to = match version {
        reading::WIDE => reading::NARROW,
        _ => reading::WIDE,
    };
    let widths = (width(version)?, width(to)?);
    let unit = |u: &[u8]| Some(u.to_vec());
    let array = |a: &[u8]| {
        let (front, units) = a.split_at(a.len().min(2));
        Some([front, &relaid(units, widths, &unit)?].concat())
    };
    let out = relaid(rest, widths, &array).map(|arrays| [vec![to], arrays].concat());
    if reading::list(s).is_ok() {
        let by_rule = match to {
            reading::NARROW => reading::narrow(s),
            _ => reading::widen(s),
        };
        assert_eq!(by_rule.ok(), out, "the list in the other version");
    }
    out
}

/// A case that takes a list, with the list in the other version. Entries of a directory that have the places of the list's units have the places of
/// the same units again. None if there is no such list.
pub fn twin(c: &Case) -> Option<Case> {
    if !WITH_A_LIST.contains(&c.op) {
        return None;
    }
    let mut out = Case {
        first: other(&c.first)?,
        ..c.clone()
    };
    if matches!(c.op, COUNT..=PART) && reading::list(&c.first).is_ok() {
        move_entries(&mut out.second, &c.first, &out.first);
    }
    Some(out)
}

/// Moves the entries of a directory from the units of a list to those of its twin.
fn move_entries(entries: &mut [u8], list: &[u8], twin: &[u8]) {
    let (before, after) = (list_places(list), list_places(twin));
    let is_at = |entry: &[u8], (start, len): (usize, usize)| {
        entry[1..] == [start.to_be_bytes(), len.to_be_bytes()].concat()
    };
    for entry in entries.chunks_exact_mut(17) {
        let unit = before.iter().position(|p| is_at(entry, (p.1 .1, p.1 .2)));
        if let Some(i) = unit {
            entry[1..9].copy_from_slice(&after[i].1 .1.to_be_bytes());
        }
    }
}

/// Whether a case and its twin must be answered alike: not where a directory is asked for an entry that is no unit of the list.
fn must_be_alike(c: &Case) -> bool {
    if !matches!(c.op, PLACE | PART) {
        return true;
    }
    match directory_of(c).unit(usize::MAX, question_of(c)) {
        Ok(Some(place)) => {
            reading::list(&c.first).is_ok() && list_places(&c.first).iter().any(|p| p.1 == place)
        }
        _ => true,
    }
}

/// The fields of an answer, with the bytes of units instead of their places in the list.
fn without_places(c: &Case, a: &Answer) -> String {
    let words: Vec<&str> = a.fields.split(' ').skip(1).collect();
    let unit = |place: &[&str]| {
        let n: Vec<usize> = place.iter().filter_map(|w| w.parse().ok()).collect();
        let mut s = " =".to_string();
        hex_onto(&mut s, &c.first[n[0]..n[0] + n[1]]);
        s
    };
    match (c.op, &words[..]) {
        (40 | 41 | 44 | 47 | PLACE, ["1", place @ ..]) => unit(place),
        (FILL, [count, ..]) if a.refusal == 0 => {
            let used = 3 * count.parse::<usize>().expect("a count");
            let (used, rest) = words[1..].split_at(used);
            let entry = |e: &[&str]| e[0].to_string() + &unit(&e[1..]);
            let used: Vec<String> = used.chunks(3).map(entry).collect();
            format!("{count} {used:?} {rest:?}")
        }
        _ => a.fields.clone(),
    }
}

/// The twin of a case with its answer, and whether both must be answered alike. Ends with an error if they must and are not.
pub fn answered_twin(c: &Case, a: &Answer) -> Option<(Case, Answer, bool)> {
    let twin = twin(c)?;
    let b = answers::answer(&twin);
    let alike = (a.refusal, &a.out, a.result) == (b.refusal, &b.out, b.result)
        && without_places(c, a) == without_places(&twin, &b);
    let must = must_be_alike(c);
    assert!(
        alike || !must,
        "the versions of a list are not answered alike:\n{}{}{}{}",
        c.line(),
        answers::line(c, a),
        twin.line(),
        answers::line(&twin, &b)
    );
    Some((twin, b, must))
}

/// What the answer to a case of narrowing or widening is held to: the arrays of its list.
pub struct Asked {
    op: u8,
    arrays: Vec<NalArray>,
}

/// The arrays of a case's list; none if it is refused for more than its output.
pub fn asked(c: &Case) -> Option<Asked> {
    let arrays = reading::list(&c.first).ok()?;
    if c.op == NARROW && reading::narrow_list(&arrays).is_err() {
        return None;
    }
    Some(Asked { op: c.op, arrays })
}

/// The arrays of the original held to the lists that `replay` wrote: narrowed lists, widened lists, those that are not as they must be, arrays of
/// widened lists that were left out, and how many outputs were too short.
#[derive(Default)]
pub struct Held {
    narrowed: u64,
    widened: u64,
    pub disagree: u64,
    left_out: u64,
    too_short: u64,
}

impl Held {
    /// Whether the original reads the arrays of the list in an answer line of `replay` as those that the list was made from.
    pub fn agrees(&mut self, line: &str, asked: &Asked) -> bool {
        let list = match written(line) {
            Some((20, _)) => {
                self.too_short += 1;
                return true;
            }
            Some((0, list)) => list,
            _ => Vec::new(),
        };
        let agrees = match asked.op {
            NARROW => {
                self.narrowed += 1;
                self.are_arrays(&list, reading::NARROW, 2, &asked.arrays)
            }
            _ => {
                self.widened += 1;
                self.are_arrays(&list, reading::WIDE, 4, &asked.arrays)
            }
        };
        self.disagree += u64::from(!agrees);
        agrees
    }

    /// Whether a list has the version and the arrays, each after a length of `width` bytes.
    fn are_arrays(&mut self, list: &[u8], version: u8, width: usize, arrays: &[NalArray]) -> bool {
        let Some((first, mut rest)) = list.split_first() else {
            return false;
        };
        for a in arrays {
            let end = length(rest, width).map(|n| width + n);
            let Some(s) = end.and_then(|end| rest.get(width..end)) else {
                return false;
            };
            if s.len() < 2 || !self.is_array(s, width, a) {
                return false;
            }
            rest = &rest[width + s.len()..];
        }
        *first == version && rest.is_empty()
    }

    /// Whether the original reads what follows the length of an array as that array. Where lengths have two bytes, the units are as in an HEVC
    /// record; where they have four, as in an item with that prefix size, which has no units of no bytes.
    fn is_array(&mut self, s: &[u8], width: usize, a: &NalArray) -> bool {
        let byte = (s[0] & 1) << 7 | (s[0] & 2) << 5 | s[1];
        if width == 2 {
            let count = a.nal_units.len() as u16;
            let head = [vec![1], vec![0; 21], vec![1, byte]].concat();
            let record = [&head, &count.to_be_bytes()[..], &s[2..]].concat();
            let read = HevcConfig::parse(&record);
            return s[0] < 4
                && s[1] < 64
                && read
                    .is_ok_and(|h| h.arrays == [a.clone()] && h.serialize().len() == record.len());
        }
        let first = (a.complete as u8) << 7 | (a.reserved_bit as u8) << 6 | a.nal_unit_type;
        if a.nal_units.iter().any(Vec::is_empty) {
            self.left_out += 1;
            return true;
        }
        let units = split_length_prefixed(&s[2..], 4);
        s[0] < 4 && s[1] < 64 && byte == first && units.is_ok_and(|u| u == a.nal_units)
    }

    pub fn print(&self) {
        println!(
            "\nversions: {} narrowed and {} widened lists held to the original's arrays, {} disagree; {} arrays of widened lists have a unit of no \
             bytes and were left out; {} outputs were too short",
            self.narrowed, self.widened, self.disagree, self.left_out, self.too_short
        );
    }
}
