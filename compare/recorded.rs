//! The recorded list of `replay`: some thousands of short cases with the expected answers. A case is taken if it reaches a region of the original
//! that no earlier case reached, or is one of the first of its kind: its call, refusal and room. With a case that takes a unit list the same one with
//! the list in the other version is taken, and both are answered alike.

use crate::answers;
use crate::case::Case;
use crate::codes;
use crate::directory_cases;
use crate::generator;
use crate::hevc;
use crate::limits;
use crate::reading;
use crate::rng::Rng;
use crate::shapes;
use crate::start_codes;
use crate::strict;
use crate::unit_check;
use crate::version_cases;
use crate::versions;
use original::vvcc::VvcNalArray;
use std::collections::{BTreeMap, HashSet};
use std::fs;
use std::path::Path;

/// The counters that the compiler puts into the original with `-C instrument-coverage`, one for each region of its code.
#[cfg(counted)]
mod counters {
    extern "C" {
        #[link_name = "__start___llvm_prf_cnts"]
        static START: u64;
        #[link_name = "__stop___llvm_prf_cnts"]
        static STOP: u64;
    }

    pub fn all() -> Vec<u64> {
        let (start, stop) = (&raw const START, &raw const STOP);
        let n = (stop as usize - start as usize) / 8;
        (0..n)
            .map(|i| unsafe { start.add(i).read_volatile() })
            .collect()
    }
}

#[cfg(not(counted))]
mod counters {
    pub fn all() -> Vec<u64> {
        Vec::new()
    }
}

/// How many cases of one kind are taken, and how long such a case may be.
const OF_A_KIND: usize = 14;
const SHORT: usize = 96;

struct List {
    input: String,
    output: String,
    cases: usize,
    kinds: BTreeMap<(u8, u32, usize), usize>,
    reached: Vec<bool>,
    lines: HashSet<String>,
    pairs: usize,
    alike: usize,
}

/// The room of a case compared with its result: none, too short, exact, longer; and no result nor unit.
fn room(c: &Case, a: &answers::Answer) -> usize {
    match a.result {
        None if a.fields == " 0" => 4,
        None => 0,
        Some(n) if c.room < n => 1,
        Some(n) if c.room == n => 2,
        Some(_) => 3,
    }
}

impl List {
    /// Puts a case, if it is not in the list yet, and returns whether it was not.
    fn put(&mut self, c: &Case, a: &answers::Answer) -> bool {
        let line = c.line();
        if self.lines.contains(&line) {
            return false;
        }
        self.input.push_str(&line);
        self.output.push_str(&answers::line(c, a));
        self.lines.insert(line);
        self.cases += 1;
        true
    }

    /// Takes a case; if it takes a unit list, in both versions of the list.
    fn take(&mut self, c: &Case, a: &answers::Answer) {
        let new = self.put(c, a);
        if let Some((twin, b, alike)) = versions::answered_twin(c, a) {
            let pair = usize::from(self.put(&twin, &b) || new);
            self.pairs += pair;
            self.alike += pair * usize::from(alike);
        }
    }

    /// Takes a case; if it assembles a stream, with both choices of start codes.
    fn take_both(&mut self, c: Case) {
        start_codes::both(c).for_each(|c| self.take(&c, &answers::answer(&c)));
    }

    /// Takes a case if it is new in its kind or reaches a new region.
    fn offer(&mut self, c: Case, of_a_kind: usize) {
        let a = answers::answer(&c);
        let now = counters::all();
        self.reached.resize(now.len(), false);
        let new = now.iter().zip(&self.reached).any(|(n, r)| *n > 0 && !r);
        let kind = self
            .kinds
            .entry((c.op, a.refusal, room(&c, &a)))
            .or_default();
        if (new && c.size() < 4000) || (*kind < of_a_kind && c.size() < SHORT) {
            *kind += 1;
            for (n, r) in now.iter().zip(&mut self.reached) {
                *r |= *n > 0;
            }
            self.take(&c, &a);
        }
    }
}

/// Writes `stdin` and `stdout` of the recorded list into a folder.
pub fn write(folder: &str, seed: u64) -> bool {
    let mut list = List {
        input: String::new(),
        output: String::new(),
        cases: 0,
        kinds: BTreeMap::new(),
        reached: Vec::new(),
        lines: HashSet::new(),
        pairs: 0,
        alike: 0,
    };
    list.program_lines();
    generator::worked(&mut |c| list.take(&c, &answers::answer(&c)));
    limits::limits(&mut |c| list.take_both(c));
    start_codes::fixed(&mut |c| list.take_both(c));
    unit_check::fixed(&mut |c| list.take(&c, &answers::answer(&c)));
    strict::short(&mut |c| list.take(&c, &answers::answer(&c)));
    hevc::short(&mut |c| list.take(&c, &answers::answer(&c)));
    directory_cases::fixed(&mut |c| list.take(&c, &answers::answer(&c)));
    version_cases::fixed(&mut |c| list.take(&c, &answers::answer(&c)));
    codes::short(&mut |c| list.take(&c, &answers::answer(&c)));
    for (op, unit) in [
        (19, shapes::longest_sps()),
        (20, shapes::longest_vps()),
        (45, generator::payload(&shapes::longest_sps())),
    ] {
        let c = Case::new(op, vec![], [unit, vec![0xff; 60]].concat());
        list.take(&c, &answers::answer(&c));
    }
    let mut i = 0;
    generator::numbers(&mut |c| {
        i += 1;
        if c.op == 1 || (c.op > 10 && c.byte(0) < 33) || i % 31 == 0 {
            list.take(&c, &answers::answer(&c));
        }
    });
    generator::zero_strings(4, &mut |c| list.take_some(c, 5));
    generator::short_strings(1, &mut |c| list.offer(c, 4));
    let mut r = Rng(seed);
    for _ in 0..400_000 {
        start_codes::both(generator::any(&mut r)).for_each(|c| list.offer(c, OF_A_KIND));
    }
    for line in include_str!("further_cases").lines() {
        list.take_both(Case::of_line(line).expect("a case"));
    }
    list.long_cases();
    version_cases::longest(&mut |c| list.take(&c, &answers::answer(&c)));
    fs::write(Path::new(folder).join("stdin"), &list.input).expect("stdin is written");
    fs::write(Path::new(folder).join("stdout"), &list.output).expect("stdout is written");
    let reached = list.reached.iter().filter(|r| **r).count();
    println!(
        "{} cases, {} and {} bytes",
        list.cases,
        list.input.len(),
        list.output.len()
    );
    println!(
        "{} pairs of both versions of a list, {} held to be answered alike",
        list.pairs, list.alike
    );
    println!(
        "{reached} of {} regions of the original reached by them",
        list.reached.len()
    );
    true
}

impl List {
    /// The program's own answers: lengths that do not add up, an output or a case too long for its memory, an unknown call, characters that are not
    /// digits.
    fn program_lines(&mut self) {
        let long = Case {
            op: 18,
            room: 524_289,
            ..Case::default()
        };
        let together = Case {
            room: 524_288,
            ..Case::new(18, vec![], vec![0; 75_695])
        };
        let none = |op| Case {
            op,
            fill: 0xab,
            room: 2,
            ..Case::default()
        };
        // three bytes whose characters are not digits, which count as 0
        let unit = Case::new(6, vec![], vec![0; 3]).line();
        let odd = unit.replace("000000\n", "/:`gA~\n");
        let beyond = format!("{:08x} {}\n", 602_048, "00".repeat(602_048));
        for (case, answer) in [
            ("00000003 120000\n", "malformed case\n"),
            (&long.line(), "case too long\n"),
            (&together.line(), "case too long\n"),
            (&beyond, "case too long\n"),
            (&none(61).line(), "61 no such call =abab\n"),
            (&none(0).line(), "0 no such call =abab\n"),
            (&odd, "6 0 1 0 =\n"),
        ] {
            self.input.push_str(case);
            self.output.push_str(answer);
            self.cases += 1;
        }
    }

    /// What only a long case reaches: a unit and a count above 16 bits, and a copy of more than one block.
    fn long_cases(&mut self) {
        let head = [vec![4], vec![0; 24]].concat();
        let many = VvcNalArray::new(false, 16, vec![Vec::new(); 65536]);
        let one = VvcNalArray::new(true, 23, vec![vec![7; 65536]]);
        for array in [many, one] {
            let c = Case::new(33, head.clone(), reading::list_bytes(&[array]));
            self.take(&c, &answers::answer(&c));
        }
        let copied = Case {
            room: 16_389,
            ..Case::new(30, vec![0, 2], vec![0x55; 16_385])
        };
        self.take(&copied, &answers::answer(&copied));
    }

    /// Takes one case in n.
    fn take_some(&mut self, c: Case, n: usize) {
        let sum: usize = c
            .first
            .iter()
            .enumerate()
            .map(|(i, b)| (i + 1) * *b as usize)
            .sum();
        if (sum + c.op as usize) % n == 0 {
            let a = answers::answer(&c);
            self.take(&c, &a);
        }
    }
}
