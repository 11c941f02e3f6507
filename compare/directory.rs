//! What the answers of a directory of units are held to: filling finds the original's units, and a question to a directory and totals that were
//! filled from the same list has the original's answer.

use crate::answers::{directory_of, of_arrays, question_of};
use crate::case::{hex_onto, Case};
use crate::reading::{list, Question, ENTRIES, TYPES};

/// The numbers of the calls: filling, the count of a type, where a unit lies, the unit.
pub const FILL: u8 = 55;
pub const COUNT: u8 = 56;
pub const PLACE: u8 = 57;
pub const PART: u8 = 58;

/// What the original says about a list: all units, and those of each type; how many are of a type; the unit that is asked for.
enum Said {
    Units(Vec<Vec<u8>>, Vec<Vec<Vec<u8>>>),
    Count(usize),
    Unit(Option<Vec<u8>>),
}

/// What the answer to a case is held to: a list, and what the original says about it.
pub struct Asked {
    list: Vec<u8>,
    said: Said,
}

/// Asks the original; none if filling is refused, and for a question to a directory or totals that were not filled from the list.
pub fn asked(c: &Case) -> Option<Asked> {
    let before = directory_of(c);
    let mut filled = before.clone();
    filled.fill(&c.first).ok()?;
    if c.op != FILL && filled != before {
        return None;
    }
    let h = of_arrays(list(&c.first).ok()?);
    let owned = |units: Vec<&[u8]>| units.into_iter().map(Vec::from).collect();
    let of_type = |t| owned(h.nal_units_of_type(t));
    let said = match (c.op, question_of(c)) {
        (FILL, _) => Said::Units(
            owned(h.nal_units().collect()),
            (0..TYPES as u8).map(of_type).collect(),
        ),
        (COUNT, _) => Said::Count(h.nal_units_of_type(c.byte(1)).len()),
        (_, Question::First(t)) => Said::Unit(of_type(t).into_iter().next()),
        (_, Question::Number(k)) => Said::Unit(h.nal_units().nth(k as usize).map(Vec::from)),
    };
    let list = c.first.clone();
    Some(Asked { list, said })
}

/// A part of a list; none if it passes the end.
fn part(list: &[u8], at: u64, len: u64) -> Option<&[u8]> {
    list.get(at as usize..at.checked_add(len)? as usize)
}

/// Whether the numbers of an answer to filling are those of the original's units: their count, the entries, the totals after their types.
fn are_units(list: &[u8], numbers: &[u64], all: &[Vec<u8>], of_type: &[Vec<Vec<u8>>]) -> bool {
    if numbers.len() < 1 + 3 * ENTRIES || numbers[0] != all.len() as u64 {
        return false;
    }
    let (entries, totals) = numbers[1..].split_at(3 * ENTRIES);
    let used: Vec<&[u64]> = entries.chunks(3).take(all.len()).collect();
    let is_at = |(e, u): (&&[u64], &Vec<u8>)| part(list, e[1], e[2]) == Some(u);
    let is_type = |(t, units): (u64, &Vec<Vec<u8>>)| {
        let total = totals.chunks_exact(2).find(|p| p[0] == t);
        let of_type: Vec<_> = used.iter().filter(|e| e[0] == t).collect();
        let n = units.len();
        total.map_or(0, |p| p[1]) == n as u64
            && of_type.len() == n
            && of_type.into_iter().zip(units).all(is_at)
    };
    used.iter().zip(all).all(is_at) && (0..).zip(of_type).all(is_type)
}

/// Answers held to the original: fillings; counts, units and questions without a unit, asked of a directory that was filled from the same list; those
/// that disagree.
#[derive(Default)]
pub struct Held {
    fillings: u64,
    counts: u64,
    units: u64,
    without: u64,
    pub disagree: u64,
}

impl Held {
    /// Whether an answer line of `replay` is what the original says. A refusal is not.
    pub fn agrees(&mut self, line: &str, Asked { list, said }: &Asked) -> bool {
        let words: Vec<&str> = line.trim_end().split(' ').skip(1).collect();
        let numbers = words.iter().map_while(|w| w.parse().ok());
        let numbers: Vec<u64> = numbers.skip(1).collect();
        let (count, agrees) = match said {
            Said::Units(all, of_type) => {
                let agrees = are_units(list, &numbers, all, of_type);
                (&mut self.fillings, agrees)
            }
            Said::Count(n) => (&mut self.counts, numbers == [*n as u64]),
            Said::Unit(None) => (&mut self.without, is_unit(list, &words, &numbers, None)),
            Said::Unit(Some(u)) => (&mut self.units, is_unit(list, &words, &numbers, Some(u))),
        };
        *count += 1;
        let agrees = agrees && words.first() == Some(&"0");
        self.disagree += u64::from(!agrees);
        agrees
    }

    pub fn print(&self) {
        let (counts, units, without) = (self.counts, self.units, self.without);
        println!(
            "\ndirectory: {} fillings held to the original's units; {} questions to a directory filled from the same list held to the original: \
             {counts} counts, {units} units, {without} without a unit; {} disagree",
            self.fillings,
            counts + units + without,
            self.disagree
        );
    }
}

/// Whether an answer is a unit, as its place or as its bytes; a unit that is not there has no place, and no bytes.
fn is_unit(list: &[u8], words: &[&str], numbers: &[u64], unit: Option<&[u8]>) -> bool {
    match *numbers {
        [] => {
            let mut digits = "=".to_string();
            hex_onto(&mut digits, unit.unwrap_or_default());
            words.get(1) == Some(&&digits[..])
        }
        [1, at, len] => unit.is_some() && part(list, at, len) == unit,
        _ => *numbers == [0] && unit.is_none(),
    }
}
