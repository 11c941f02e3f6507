//! The cases of a directory of units: lists that are filled into directories with old contents, and questions to directories and totals that were
//! filled from the same list, from another one, or from none.

use crate::case::Case;
use crate::directory::{COUNT, FILL, PART, PLACE};
use crate::generator::{with_room_by, Emit};
use crate::reading::{list_places, list_with_reserved};
use crate::reading::{Directory, Entry, Question, ENTRIES, TYPES};
use crate::rng::Rng;
use crate::shapes;
use crate::versions;
use original::hvcc::NalArray;

/// A case: a list, a directory and a question. Entries of zeros at the end and totals of 0 are left out.
pub fn case(op: u8, list: &[u8], d: &Directory, asked: Question) -> Case {
    let mut numbers = match asked {
        Question::First(t) => [&[0, t], &[0; 8][..]].concat(),
        Question::Number(k) => [&[1, 0], &k.to_be_bytes()[..]].concat(),
    };
    for (t, n) in d.totals.iter().enumerate().filter(|p| *p.1 != 0) {
        numbers.push(t as u8);
        numbers.extend(n.to_be_bytes());
    }
    let end = d.entries.iter().rposition(|e| *e != (0, 0, 0));
    let mut second = Vec::new();
    for (t, offset, len) in &d.entries[..end.map_or(0, |i| i + 1)] {
        second.push(*t);
        second.extend(offset.to_be_bytes());
        second.extend(len.to_be_bytes());
    }
    Case {
        second,
        ..Case::new(op, numbers, list.to_vec())
    }
}

/// A directory of entries, with totals by their types.
pub fn directory(entries: &[Entry], totals: &[(u8, u64)]) -> Directory {
    let mut d = Directory {
        entries: [(0, 0, 0); ENTRIES],
        totals: [0; TYPES],
    };
    d.entries[..entries.len()].copy_from_slice(entries);
    for &(t, n) in totals {
        d.totals[usize::from(t)] = n;
    }
    d
}

/// A directory whose contents are not those of a list, and are seen if an entry of them is used.
fn old(totals: &[(u8, u64)]) -> Directory {
    let entries: Vec<Entry> = (0..8)
        .map(|i| (200 + i as u8, u64::MAX - i, i << 40))
        .collect();
    directory(&entries, totals)
}

/// Such a directory filled from a list; as it was if the list is refused.
fn filled(list: &[u8]) -> Directory {
    let mut d = old(&[(3, 2), (63, u64::MAX)]);
    d.fill(list).ok();
    d
}

/// A list of arrays, each with its type and its units; every second has the reserved bit.
fn list_of(arrays: &[(u8, &[&[u8]])]) -> Vec<u8> {
    let array = |(i, (t, units)): (usize, &(u8, &[&[u8]]))| {
        let units = units.iter().map(|u| u.to_vec()).collect();
        NalArray::new(true, i % 2 == 1, *t, units)
    };
    list_with_reserved(&arrays.iter().enumerate().map(array).collect::<Vec<_>>())
}

/// Five units: a type in two arrays, types from 32 on, units of no bytes, an array without units.
fn several() -> Vec<u8> {
    list_of(&[
        (15, &[b"abc", b""]),
        (16, &[]),
        (33, &[b"de"]),
        (15, &[b"f"]),
        (63, &[b""]),
    ])
}

/// The same five units in a list of version 02.
fn narrow() -> Vec<u8> {
    versions::other(&several()).expect("it can be narrowed")
}

/// Three units, and a shorter list.
fn other() -> Vec<u8> {
    list_of(&[(16, &[b"ghijkl"]), (15, &[b"mnop", b"q"])])
}

/// A list of n units, the last alone in its array.
fn of_units(n: usize) -> Vec<u8> {
    list_of(&[(0, &vec![&b"u"[..]; n - 1]), (63, &[b"v"])])
}

/// Bytes that are no list: of another version, cut off, with a byte too much, with more units than a directory has entries, with a type or a first
/// byte that no array has.
fn malformed() -> Vec<Vec<u8>> {
    let cut = |s: Vec<u8>| s[..s.len() - 1].to_vec();
    let longer = [several(), vec![0]].concat();
    let mut out = vec![vec![], vec![3], vec![1, 0], cut(several()), longer];
    out.extend([
        cut(of_units(8)),
        cut(of_units(10)),
        [of_units(9), vec![0]].concat(),
    ]);
    out.extend([vec![1, 0, 0, 0, 2, 1, 64], vec![1, 0, 0, 0, 2, 4, 15]]);
    out
}

/// A list, a directory, and questions about both.
type Asking = (Vec<u8>, Directory, Vec<Question>);

/// Questions for the first of some types, and for some numbers.
fn questions(types: &[u8], numbers: &[u64]) -> Vec<Question> {
    let of_types = types.iter().map(|&t| Question::First(t));
    of_types
        .chain(numbers.iter().map(|&k| Question::Number(k)))
        .collect()
}

/// Directories that were filled from the same list: types that units have and others, the last number in use, those after it, the largest.
fn same_list() -> Vec<Asking> {
    let lists = [several(), other(), of_units(7), of_units(8), vec![1]];
    let asking = |s: Vec<u8>| {
        let n = list_places(&s).len() as u64;
        let numbers = [0, n.wrapping_sub(1), n, 8, 1 << 32, u64::MAX];
        let types = [0, 15, 16, 33, 63, 64, 205, 255];
        (s.clone(), filled(&s), questions(&types, &numbers))
    };
    lists.map(asking).to_vec()
}

/// Directories that were filled from another list, of which some parts pass the end, from the list in the other version, or refused; bytes that are
/// no list.
fn other_list() -> Vec<Asking> {
    let mut pairs = vec![
        (several(), other()),
        (other(), several()),
        (of_units(8), several()),
        (of_units(9), several()),
        (several(), of_units(8)),
        (several(), of_units(9)),
        (several(), narrow()),
        (narrow(), several()),
        (several(), vec![1]),
        (vec![1], several()),
        (vec![], several()),
    ];
    pairs.extend(malformed().into_iter().map(|s| (s, of_units(7))));
    let asking = |(s, of): (Vec<u8>, Vec<u8>)| (s, filled(&of), questions(&[15, 63], &[0, 2]));
    pairs.into_iter().map(asking).collect()
}

/// Totals that add up to 8 and to 9; totals as large as they can be; sums above 2^64, and what would be left of them below it; totals of 0.
fn totals() -> Vec<Asking> {
    const MAX: u64 = u64::MAX;
    const HALF: u64 = 1 << 63;
    let few: [&[(u8, u64)]; 20] = [
        &[],
        &[(0, 1)],
        &[(15, 8)],
        &[(0, 3), (63, 5)],
        &[(15, 9)],
        &[(0, 8), (63, 1)],
        &[(0, 1), (1, 8)],
        &[(15, 256 + 5)],
        &[(15, 1 << 32)],
        &[(15, (1 << 32) + 5)],
        &[(0, MAX)],
        &[(15, MAX)],
        &[(63, MAX)],
        &[(0, MAX), (63, MAX)],
        &[(0, MAX), (1, 1)],
        &[(0, MAX), (15, 6)],
        &[(15, 6), (63, MAX)],
        &[(0, HALF), (63, HALF)],
        &[(15, HALF), (16, HALF), (33, 5)],
        &[(15, 5), (16, HALF), (33, HALF)],
    ];
    let all = |n| (0..64).map(|t| (t, n)).collect::<Vec<_>>();
    let mut out: Vec<Vec<(u8, u64)>> = few.iter().map(|t| t.to_vec()).collect();
    out.extend([all(MAX), all(1 << 58), all((1 << 58) + 1), all(1)]);
    let asking = |totals: Vec<(u8, u64)>| {
        let entries = filled(&several()).entries;
        let d = directory(&entries, &totals);
        (several(), d, questions(&[15, 205], &[0, 5]))
    };
    out.into_iter().map(asking).collect()
}

/// An entry that begins in a list, at its end or after it, with a part that ends there, passes it, or has its end at 2^64 and above.
fn ends_of(list: &[u8]) -> Vec<Asking> {
    const MAX: u64 = u64::MAX;
    let n = list.len() as u64;
    let lens = [0, 1, 2, n, n + 1, 1 << 32, MAX];
    let asking = |offset| {
        lens.map(|len| {
            let d = directory(&[(15, 1, 4), (16, offset, len)], &[(15, 1), (16, 1)]);
            (list.to_vec(), d, questions(&[16], &[]))
        })
    };
    let offsets = [0, 1, n - 1, n, n + 1, 1 << 32, MAX];
    offsets.into_iter().flat_map(asking).collect()
}

/// Such entries for a list in both versions.
fn ends() -> Vec<Asking> {
    [ends_of(&several()), ends_of(&narrow())].concat()
}

/// Entries of the wanted type after those in use, and ones that pass the end there; types above 63; totals of other types than the entries; a type
/// twice; parts that overlap.
fn entries() -> Vec<Asking> {
    let n = several().len() as u64;
    let types = [0, 3, 15, 16, 64, 255];
    let cases: [(&[Entry], &[(u8, u64)]); 9] = [
        (&[(15, 1, 4), (33, 2, 3), (16, 3, 2)], &[(15, 1), (33, 1)]),
        (&[(15, 1, 4), (16, n, 1)], &[(15, 1)]),
        (&[(64, 1, 4), (255, 2, 3)], &[(0, 1), (63, 1)]),
        (&[(15, 1, 4), (16, 2, 3)], &[(3, 2)]),
        (&[(16, 5, 1), (15, 9, 2), (15, 3, 4)], &[(15, 2), (16, 1)]),
        (&[(15, n, 1), (15, 3, 4)], &[(15, 2)]),
        (&[(15, 3, 4), (15, n, 1)], &[(15, 2)]),
        (&[(15, 0, n), (16, 1, 9), (15, 1, 9)], &[(15, 2), (16, 1)]),
        (&[], &[(0, 8)]),
    ];
    let asking = |(entries, totals): (&[Entry], &[(u8, u64)])| {
        let d = directory(entries, totals);
        (several(), d, questions(&types, &[0, 1, 2]))
    };
    cases.map(asking).to_vec()
}

/// Lists of 0 to 9 units, and bytes that are no list, filled into directories with other contents and totals.
fn fillings() -> Vec<Case> {
    let no_units = list_of(&[(15, &[]), (16, &[])]);
    let mut lists = vec![vec![1], no_units, several(), other()];
    lists.extend([1, 7, 8, 9, 10].map(of_units));
    lists.extend(malformed());
    let all: Vec<(u8, u64)> = (0..64).map(|t| (t, u64::MAX - u64::from(t))).collect();
    let before = [
        directory(&[], &[]),
        old(&[(0, 1), (15, u64::MAX), (62, 7)]),
        old(&all),
        filled(&several()),
    ];
    let into = |d| {
        lists
            .iter()
            .map(move |s| case(FILL, s, d, Question::First(0)))
    };
    before.iter().flat_map(into).collect()
}

/// Totals as only the numbers of a case have them: of types above 63, twice of a type, cut off. A refused filling shows them.
fn odd_totals() -> Vec<Case> {
    let total = |t| [t, 0, 0, 0, 0, 0, 0, 0, t];
    let above = [total(64), total(15), total(255)].concat();
    let twice = [total(15), [15, 0, 0, 0, 0, 0, 0, 1, 0], total(63)].concat();
    let cut = [15, 1, 2, 3, 4].to_vec();
    let with = |more: Vec<u8>| {
        let mut c = case(FILL, &[3], &directory(&[], &[]), Question::First(0));
        c.numbers.extend(more);
        c
    };
    [above, twice, cut].map(with).to_vec()
}

/// The cases of questions: the count of a type, and each unit both as a place and as a part.
fn asked((list, d, questions): Asking) -> Vec<Case> {
    let calls = |q: Question| {
        let count = matches!(q, Question::First(_)).then_some(COUNT);
        let ops = count.into_iter().chain([PLACE, PART]);
        ops.map(|op| case(op, &list, &d, q)).collect::<Vec<_>>()
    };
    questions.into_iter().flat_map(calls).collect()
}

/// Short cases of every kind.
pub fn fixed(emit: Emit) {
    let parts = [same_list(), other_list(), totals(), ends(), entries()];
    let questions = parts.into_iter().flatten().flat_map(asked);
    let fillings = [fillings(), odd_totals()].concat().into_iter();
    for (i, c) in fillings.chain(questions).enumerate() {
        emit(with_room_by(i, c));
    }
}

/// A number up to one above a limit, or at the limits of 64 bits.
fn number(r: &mut Rng, limit: u64) -> u64 {
    match r.below(16) {
        0 => r.pick(&[1 << 32, 1 << 63, u64::MAX - 1, u64::MAX]),
        1 | 2 => limit + r.below(2) as u64,
        _ => r.next() % (limit + 1),
    }
}

/// A type that is often among those of a directory.
fn any_type(r: &mut Rng, d: &Directory) -> u8 {
    match r.below(4) {
        0 => r.pick(&[0, 15, 16, 33, 63, 64, 255]),
        1 => r.below(66) as u8,
        _ => d.entries[r.below(4)].0,
    }
}

/// A directory of any entries for a list of some length, and any totals, which are mostly few.
fn any_directory(r: &mut Rng, len: u64) -> Directory {
    let mut d = directory(&[], &[]);
    for e in &mut d.entries {
        let t = r.pick(&[0, 15, 15, 16, 33, 63, 64, 255]);
        *e = (t, number(r, len), number(r, len));
    }
    for _ in 0..r.below(5) {
        d.totals[r.below(TYPES)] = number(r, 3);
    }
    d
}

/// A call on a list and a directory: filled from it, before it was damaged, from another list, with an entry or a total changed; or any.
pub fn any(r: &mut Rng, op: u8) -> Case {
    let mut s = shapes::list(r);
    let mut d = any_directory(r, s.len() as u64);
    let changed = any_directory(r, s.len() as u64);
    let kind = r.below(if op == FILL { 2 } else { 9 });
    if kind == 1 {
        d.fill(&shapes::list(r)).ok();
    } else if kind > 1 {
        d.fill(&s).ok();
    }
    match kind {
        2 => s = shapes::damaged(r, s),
        3 => d.entries[r.below(4)] = changed.entries[0],
        4 => d.totals[usize::from(any_type(r, &d)) % TYPES] = number(r, 3),
        _ => {}
    }
    let asked = match r.below(2) {
        0 => Question::First(any_type(r, &d)),
        _ => Question::Number(number(r, 4)),
    };
    case(op, &s, &d, asked)
}
