//! Compares `replay` with the original: `compare REPLAY SEED CASES [WRONG]`, where the expected answer of case number WRONG is made wrong.
//! Answers cases from standard input as is expected of `replay`: `compare answers`. Prints the intended differences: `compare differences REPLAY`.
//! Only the longest inputs: `compare longest`. Writes the recorded list: `compare record FOLDER SEED`.

mod answers;
mod case;
mod codes;
#[cfg(not(counted))]
mod differences;
mod directory;
mod directory_cases;
mod generator;
mod hevc;
mod limits;
#[cfg(not(counted))]
mod longest;
mod reading;
mod recorded;
mod rng;
mod shapes;
mod start_codes;
mod strict;
mod unit_check;
mod version_cases;
mod versions;

use case::{Case, NAMES};
use std::collections::BTreeMap;
use std::io::{BufRead, BufReader, BufWriter, Write};
use std::process::{Command, Stdio};
use std::sync::mpsc::{sync_channel, Receiver};

/// The bytes that `replay` has for a case, and for an output.
const LONGEST: usize = 524_288;

/// The bytes of a case and its output together for whose digits `replay` has room.
const TOGETHER: usize = 600_000;

/// A case's line, its expected answer, its call and its refusal, and what the answer is held to besides.
type Expected = (String, String, u8, u32, HeldTo);

/// What an answer is held to besides the expected one: for strict reading what the original's writer gives for the record, for an HEVC record that is
/// written again the bytes that must come, for short start codes the original's stream, for a directory the original's units, for a list that is
/// written in a version the original's arrays, for the unit check the unit.
enum HeldTo {
    Nothing,
    Writer(strict::Asked),
    Record(Vec<u8>),
    Stream(start_codes::Asked),
    Units(directory::Asked),
    Arrays(versions::Asked),
    Unit(Vec<u8>),
}

/// The answers that are held to more than the expected ones.
#[derive(Default)]
struct AllHeld {
    strict: strict::Held,
    hevc: hevc::Held,
    streams: start_codes::Held,
    directories: directory::Held,
    lists: versions::Held,
    checks: unit_check::Held,
}

impl AllHeld {
    /// Holds an answer line of `replay`. Returns what it disagrees with, for the first ten of each kind.
    fn disagreement(&mut self, got: &str, to: HeldTo) -> Option<&'static str> {
        let (agrees, so_far, with) = match to {
            HeldTo::Nothing => return None,
            HeldTo::Writer(asked) => {
                let agrees = self.strict.agrees(refusal_in(got), asked);
                (agrees, self.strict.disagree, "the original's writer")
            }
            HeldTo::Record(bytes) => {
                let agrees = self.hevc.agrees(got, &bytes);
                (agrees, self.hevc.disagree, "the record that was read")
            }
            HeldTo::Stream(asked) => {
                let agrees = self.streams.agrees(got, &asked);
                (agrees, self.streams.disagree, "the original's stream")
            }
            HeldTo::Units(asked) => {
                let agrees = self.directories.agrees(got, &asked);
                (agrees, self.directories.disagree, "the original's units")
            }
            HeldTo::Arrays(asked) => {
                let agrees = self.lists.agrees(got, &asked);
                (agrees, self.lists.disagree, "the original's arrays")
            }
            HeldTo::Unit(unit) => {
                let agrees = self.checks.agrees(got, &unit);
                (agrees, self.checks.disagree, "the original's RBSP or split")
            }
        };
        (!agrees && so_far <= 10).then_some(with)
    }

    /// Prints the counts, and returns how many answers disagree.
    fn print(&self) -> u64 {
        self.strict.print();
        self.hevc.print();
        self.streams.print();
        self.directories.print();
        self.lists.print();
        self.checks.print();
        let records = self.strict.disagree + self.hevc.disagree;
        let lists = self.directories.disagree + self.lists.disagree;
        records + lists + self.streams.disagree + self.checks.disagree
    }
}

/// How often both returned a refusal's number, for each call.
type Table = BTreeMap<(u8, u32), u64>;

/// The fixed lists. A case that takes a unit list is sent in both versions of the list.
fn fixed_cases(emit: generator::Emit) {
    let emit: generator::Emit = &mut |c| {
        let twin = versions::twin(&c);
        emit(c);
        twin.into_iter().for_each(&mut *emit);
    };
    generator::worked(emit);
    generator::numbers(emit);
    limits::limits(emit);
    start_codes::fixed(emit);
    unit_check::fixed(emit);
    codes::codes(emit);
    strict::short(emit);
    strict::fixed(emit);
    hevc::fixed(emit);
    hevc::large(emit);
    directory_cases::fixed(emit);
    version_cases::fixed(emit);
    version_cases::longest(emit);
    version_cases::large(emit);
    generator::large(emit);
}

/// Every case of a run: the fixed lists first, then as many of any shape as are asked for, and as many units. An HEVC record that reads is written
/// again; a stream is assembled with both choices of start codes.
fn all_cases(seed: u64, count: usize, emit: generator::Emit) {
    let emit: generator::Emit = &mut |c| {
        let further = hevc::written_again(&c).or_else(|| start_codes::shortened(&c));
        emit(c);
        further.into_iter().for_each(&mut *emit);
    };
    fixed_cases(emit);
    generator::short_strings(2, emit);
    generator::zero_strings(8, emit);
    unit_check::short(emit);
    let mut r = rng::Rng(seed);
    generator::fronts(&mut r, count / 5000, emit);
    strict::reserved_bits(&mut r, count / 50, emit);
    hevc::records(&mut r, count / 100, emit);
    for _ in 0..count {
        emit(generator::any(&mut r));
    }
    unit_check::units(&mut r, count, emit);
}

/// What the answer to a case is held to besides.
fn held_to(c: &Case) -> HeldTo {
    match (c.op, &c.again) {
        (strict::CALL, _) => HeldTo::Writer(strict::asked(&c.first)),
        (start_codes::SHORT, _) => start_codes::asked(c).map_or(HeldTo::Nothing, HeldTo::Stream),
        (directory::FILL..=directory::PART, _) => {
            directory::asked(c).map_or(HeldTo::Nothing, HeldTo::Units)
        }
        (versions::NARROW | versions::WIDEN, _) => {
            versions::asked(c).map_or(HeldTo::Nothing, HeldTo::Arrays)
        }
        (unit_check::CALL, _) => HeldTo::Unit(c.first.clone()),
        (_, Some(bytes)) => HeldTo::Record(bytes.clone()),
        _ => HeldTo::Nothing,
    }
}

fn expected(c: &Case) -> Expected {
    let a = answers::answer(c);
    (
        c.line(),
        answers::line(c, &a),
        c.op,
        if c.op == 1 { 0 } else { a.refusal },
        held_to(c),
    )
}

/// The refusal in an answer line.
fn refusal_in(line: &str) -> u32 {
    let word = line.split(' ').nth(1);
    word.and_then(|w| w.parse().ok()).unwrap_or(u32::MAX)
}

/// Reads the next answer line; it is empty at the end.
fn next_line(lines: &mut impl BufRead, line: &mut String) {
    line.clear();
    lines.read_line(line).expect("replay's answers are read");
}

/// Reads the answers of `replay` and compares each with the expected one; returns how many there were and how many differ.
fn compare(
    mut lines: impl BufRead,
    cases: Receiver<Vec<Expected>>,
    table: &mut Table,
    held: &mut AllHeld,
) -> (u64, u64) {
    let (mut n, mut differ) = (0, 0);
    let mut got = String::new();
    for (line, want, op, refusal, to) in cases.into_iter().flatten() {
        next_line(&mut lines, &mut got);
        n += 1;
        if let Some(with) = held.disagreement(&got, to) {
            print!("disagrees with {with}: {line}");
        }
        if got == want {
            *table.entry((op, refusal)).or_default() += 1;
            continue;
        }
        differ += 1;
        if differ <= 10 {
            println!(
                "differs: {}\n  case     {line}  expected {want}  replay   {}",
                NAMES[op as usize - 1],
                got
            );
        }
    }
    next_line(&mut lines, &mut got);
    if !got.is_empty() {
        differ += 1;
        println!("replay writes more lines than there are cases");
    }
    (n, differ)
}

fn print(table: &Table) {
    println!("\n| call | accepted | refused, by number |\n|---|---:|---|");
    for (i, name) in NAMES.iter().enumerate() {
        let of = |e| table.get(&(i as u8 + 1, e)).copied().unwrap_or(0);
        let refused: Vec<String> = (1..=29)
            .filter(|&e| of(e) > 0)
            .map(|e| format!("{e}: {}", of(e)))
            .collect();
        println!("| `{name}` | {} | {} |", of(0), refused.join(", "));
    }
}

/// The cases that no program can hold, sent to the library; they are added to the counts and the table.
#[cfg(not(counted))]
fn longest_inputs(n: &mut u64, differ: &mut u64, table: &mut Table) {
    longest::each(&mut |c, refusal, want, got| {
        *n += 1;
        if got == want {
            *table.entry((c.op, refusal)).or_default() += 1;
            return;
        }
        *differ += 1;
        println!(
            "differs: {}, inputs of {} and {} bytes\n  expected {want}  replay   {got}",
            NAMES[c.op as usize - 1],
            c.first.len(),
            c.second.len()
        );
    });
}

#[cfg(counted)]
fn longest_inputs(_: &mut u64, _: &mut u64, _: &mut Table) {}

fn run(replay: &str, seed: u64, count: usize, wrong: Option<usize>) -> bool {
    let mut child = Command::new(replay)
        .stdin(Stdio::piped())
        .stdout(Stdio::piped())
        .spawn()
        .expect("replay starts");
    let mut input = BufWriter::with_capacity(1 << 16, child.stdin.take().unwrap());
    let output = BufReader::with_capacity(1 << 16, child.stdout.take().unwrap());
    let (to_replay, lines) = sync_channel::<Vec<u8>>(8);
    let (to_compare, cases) = sync_channel::<Vec<Expected>>(64);
    let writer = std::thread::spawn(move || {
        for text in lines {
            input.write_all(&text).expect("replay takes its cases");
        }
    });
    let reader = std::thread::spawn(move || {
        let (mut table, mut held) = (Table::new(), AllHeld::default());
        let counts = compare(output, cases, &mut table, &mut held);
        (counts, table, held)
    });
    let mut batch = Vec::new();
    let mut n = 0;
    let send = |batch: &mut Vec<Expected>| {
        let text: Vec<u8> = batch.iter().flat_map(|e| e.0.bytes()).collect();
        to_compare.send(std::mem::take(batch)).unwrap();
        to_replay.send(text).unwrap();
    };
    all_cases(seed, count, &mut |c| {
        let mut e = expected(&c);
        if Some(n) == wrong {
            e.1.insert(0, '9');
        }
        n += 1;
        batch.push(e);
        if batch.len() == 256 {
            send(&mut batch);
        }
    });
    send(&mut batch);
    drop(to_replay);
    drop(to_compare);
    writer.join().unwrap();
    let (counts, table, held) = reader.join().unwrap();
    child.wait().unwrap();
    end(seed, counts, table, &held)
}

/// Compares the longest inputs too, prints the table and the counts, and returns whether nothing differs.
fn end(seed: u64, (mut n, mut differ): (u64, u64), mut table: Table, held: &AllHeld) -> bool {
    longest_inputs(&mut n, &mut differ, &mut table);
    print(&table);
    differ += held.print();
    println!("\nseed {seed}\n{n} cases, {differ} differ");
    differ == 0
}

/// The expected answer to the case of a line, the program's own answers included.
fn answer_to(line: &str) -> String {
    match Case::of_line(line) {
        None => "malformed case\n".into(),
        Some(c) if c.size() > LONGEST || c.room > LONGEST || c.size() + c.room > TOGETHER => {
            "case too long\n".into()
        }
        Some(c) if c.op == 0 || c.op as usize > NAMES.len() => {
            let mut s = format!("{} no such call =", c.op);
            case::hex_onto(&mut s, &vec![c.fill; c.room]);
            s + "\n"
        }
        Some(c) => answers::line(&c, &answers::answer(&c)),
    }
}

/// Answers every case of standard input.
fn answer_all() -> bool {
    let mut out = BufWriter::new(std::io::stdout().lock());
    for line in std::io::stdin().lock().lines() {
        out.write_all(answer_to(&line.expect("a line")).as_bytes())
            .expect("a line is written");
    }
    true
}

fn main() {
    let words: Vec<String> = std::env::args().skip(1).collect();
    let number = |i: usize| words.get(i).map(|w| w.parse::<u64>().expect("a number"));
    let good = match words.first().map(String::as_str) {
        Some("answers") => answer_all(),
        #[cfg(not(counted))]
        Some("differences") => differences::print(&words[1]),
        Some("longest") => {
            let (mut n, mut differ, mut table) = (0, 0, Table::new());
            longest_inputs(&mut n, &mut differ, &mut table);
            println!("{n} cases, {differ} differ");
            differ == 0
        }
        Some("record") => recorded::write(&words[1], number(2).unwrap_or(1)),
        Some(replay) => run(
            replay,
            number(1).unwrap_or(1),
            number(2).unwrap_or(1) as usize,
            number(3).map(|n| n as usize),
        ),
        None => panic!("words are missing"),
    };
    std::process::exit(!good as i32);
}
