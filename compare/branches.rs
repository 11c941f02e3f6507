//! Which way the branches of a compiled program go. `branches mark IN.ll OUT.ll NAMES CRATES` makes the text of an LLVM module note each branch that it
//! takes in the functions of the crates that the file CRATES lists, and so none of the standard library; `branches name NAMES TAKEN` prints which ones a
//! run has taken, and `branches report UNREACHED LIST FURTHER ..` compares what the first of several runs has not taken with a list of reasons. A branch is `FUNCTION NUMBER DIRECTION`: the branches of a function are numbered in the order
//! of its code, and a direction is true, false or the case of a match.

use std::collections::{BTreeMap, BTreeSet};
use std::fs;

/// A branch in the code: its function and number there, and its directions.
struct Branch {
    name: String,
    directions: Vec<Direction>,
}

/// The function that a line begins to define.
fn defined(line: &str) -> Option<String> {
    let rest = line.strip_prefix("define ")?;
    let name = &rest[rest.find('@')? + 1..];
    let name = match name.strip_prefix('"') {
        Some(quoted) => &quoted[..quoted.find('"')?],
        None => &name[..name.find('(')?],
    };
    // A generic function's instance has a number behind its name, which depends on the types alone.
    Some(name.split("::<#").next()?.into())
}

/// Whether a block does nothing but stop: a proved program never reaches it.
fn stops(lines: &[&str], at: usize, label: &str) -> bool {
    let start = format!("{label}:");
    let block = lines[at..].iter().position(|l| l.starts_with(&start));
    let first = block.map(|b| lines[at + b + 1].trim());
    first.is_some_and(|l| l.starts_with("unreachable") || l.contains("llvm.trap"))
}

/// A conditional jump: the value, and the labels for true and false.
fn jump(line: &str) -> Option<(&str, &str, &str)> {
    let rest = line.trim_start().strip_prefix("br i1 ")?;
    let mut words = rest.split(", ");
    let value = words.next()?;
    let yes = words.next()?.strip_prefix("label %")?;
    let no = words.next()?.strip_prefix("label %")?;
    Some((value, yes, no))
}

/// A switch: the type, the value and the label if no case matches.
fn switch(line: &str) -> Option<(&str, &str, &str)> {
    let rest = line.trim_start().strip_prefix("switch ")?;
    let (kind, rest) = rest.split_once(' ')?;
    let (value, rest) = rest.split_once(", label %")?;
    Some((kind, value, rest.split(' ').next()?))
}

/// The cases of a switch that begins at a line.
fn cases(lines: &[&str]) -> Vec<u64> {
    let end = lines.iter().position(|l| l.contains(']')).unwrap();
    let text = lines[..=end].join(" ");
    let words: Vec<&str> = text.split_whitespace().collect();
    let found = words.windows(2).filter(|w| w[1] == "label");
    found
        .filter_map(|w| w[0].strip_suffix(',')?.parse().ok())
        .collect()
}

/// The number that represents a switch's value if none of its cases matches.
const OTHER: u64 = 255;

/// A direction of a branch: the value that takes it, and its name; none if it cannot be taken.
type Direction = (u64, Option<String>);

/// The directions of the branch at a line, and the text of its value as a number of 64 bits.
fn branch_at(lines: &[&str], i: usize) -> Option<(Vec<Direction>, String)> {
    if let Some((value, yes, no)) = jump(lines[i]) {
        let directions = [(1, yes, "true"), (0, no, "false")]
            .map(|(v, label, word)| (v, (!stops(lines, i, label)).then(|| word.into())));
        return Some((directions.to_vec(), format!("zext i1 {value} to i64")));
    }
    let (kind, value, other) = switch(lines[i])?;
    let mut directions: Vec<Direction> = cases(&lines[i..])
        .into_iter()
        .map(|v| (v, Some(format!("case {v}"))))
        .collect();
    directions.push((OTHER, (!stops(lines, i, other)).then(|| "other".into())));
    Some(match kind {
        "i64" => (directions, format!("add i64 0, {value}")),
        _ => (directions, format!("zext {kind} {value} to i64")),
    })
}

/// The crates of a file such as crates.txt: the first word of each line that is no comment.
fn crates(text: &str) -> BTreeSet<&str> {
    text.lines()
        .filter(|l| !l.starts_with('#'))
        .filter_map(|l| l.split([' ', ':']).next())
        .filter(|name| !name.is_empty())
        .collect()
}

/// Marks every branch of a module's text in the functions of some crates.
fn mark(text: &str, crates: &BTreeSet<&str>) -> (String, Vec<Branch>) {
    let lines: Vec<&str> = text.lines().collect();
    let (mut out, mut branches): (String, Vec<Branch>) = (String::new(), Vec::new());
    let (mut function, mut number, mut is_marked) = (String::new(), 0, false);
    for (i, line) in lines.iter().enumerate() {
        if let Some(name) = defined(line) {
            is_marked = crates.contains(name.split("::").next().unwrap());
            (function, number) = (name, 0);
        }
        if let Some((directions, value)) = branch_at(&lines, i).filter(|_| is_marked) {
            let n = branches.len();
            out += &format!("  %mark{n} = {value}\n");
            out += &format!("  call void @branch_taken(i32 {n}, i64 %mark{n})\n");
            branches.push(Branch {
                name: format!("{function} {number}"),
                directions,
            });
            number += 1;
        }
        out += line;
        out.push('\n');
    }
    (out + "declare void @branch_taken(i32, i64)\n", branches)
}

/// The names of a module's directions, one line for each: the branch's number, the value and the name, without a name if it cannot be taken.
fn names(branches: &[Branch]) -> String {
    let mut out = String::new();
    for (n, b) in branches.iter().enumerate() {
        for (v, word) in &b.directions {
            let name = word
                .as_ref()
                .map_or(String::new(), |w| format!(" {} {w}", b.name));
            out += &format!("{n} {v}{name}\n");
        }
    }
    out
}

fn read(path: &str) -> String {
    fs::read_to_string(path).unwrap_or_else(|e| panic!("{path}: {e}"))
}

/// A line of names taken apart: the branch's number, the value, the name.
fn named(line: &str) -> (u64, u64, &str) {
    let mut words = line.splitn(3, ' ');
    let mut number = || words.next().unwrap().parse().unwrap();
    let (n, v) = (number(), number());
    (n, v, words.next().unwrap_or(""))
}

/// Prints for each direction of a module whether a run has taken it.
fn name(names: &str, taken: &str) -> String {
    let mut values: BTreeMap<u64, BTreeSet<u64>> = BTreeMap::new();
    for line in taken.lines() {
        let (n, v, _) = named(line);
        values.entry(n).or_default().insert(v);
    }
    let all: Vec<(u64, u64, &str)> = names.lines().map(named).collect();
    let listed: BTreeSet<(u64, u64)> = all.iter().map(|a| (a.0, a.1)).collect();
    let mut out = String::new();
    for (n, v, name) in all.iter().filter(|a| !a.2.is_empty()) {
        let seen = values.get(n).is_some_and(|s| {
            s.contains(v) || (*v == OTHER && s.iter().any(|x| !listed.contains(&(*n, *x))))
        });
        out += &format!("{} {name}\n", if seen { "taken" } else { "not" });
    }
    out
}

/// The directions in a file that `name` has made: all, and those taken.
fn directions(path: &str) -> (BTreeSet<String>, BTreeSet<String>) {
    let text = read(path);
    let words = text.lines().map(|l| l.split_once(' ').unwrap());
    let all: Vec<(bool, String)> = words.map(|(w, n)| (w == "taken", n.into())).collect();
    let taken = all.iter().filter(|a| a.0).map(|a| a.1.clone()).collect();
    (all.into_iter().map(|a| a.1).collect(), taken)
}

/// The reasons in a file such as `unreached`, by direction.
fn reasons(text: &str) -> BTreeMap<&str, &str> {
    text.lines()
        .filter(|l| !l.starts_with('#') && !l.is_empty())
        .map(|l| l.rsplit_once(' ').unwrap())
        .collect()
}

/// Compares what was not taken with the list of reasons; false if the two differ.
fn report(unreached: &str, list: &str, further: &[String]) -> bool {
    let text = read(unreached);
    let reasons = reasons(&text);
    let (all, by_list) = directions(list);
    let by_further: BTreeSet<String> = further.iter().flat_map(|f| directions(f).1).collect();
    let mut faults = Vec::new();
    let mut counts: BTreeMap<&str, usize> = BTreeMap::new();
    for d in all.difference(&by_list) {
        let reason = reasons.get(d.as_str()).copied().unwrap_or("none given");
        *counts.entry(reason).or_default() += 1;
        let outside = matches!(reason, "L" | "E");
        if reason == "none given" || outside != by_further.contains(d) {
            let further = by_further.contains(d);
            faults.push(format!(
                "not taken: {d}, reason {reason}, by a further run {further}"
            ));
        }
    }
    for d in reasons.keys() {
        if !all.contains(*d) || by_list.contains(*d) {
            faults.push(format!(
                "not taken by {unreached}, but it is, or is not there: {d}"
            ));
        }
    }
    let (n, m) = (branches(&all), by_list.len());
    println!(
        "{} directions of {n} branches; the list takes {m}",
        all.len()
    );
    for (reason, n) in counts {
        println!("not taken, {reason}: {n}");
    }
    faults.iter().for_each(|f| println!("{f}"));
    faults.is_empty()
}

/// How many branches these directions belong to.
fn branches(all: &BTreeSet<String>) -> usize {
    let names: BTreeSet<(&str, &str)> = all
        .iter()
        .map(|d| {
            let mut words = d.split(' ');
            (words.next().unwrap(), words.next().unwrap())
        })
        .collect();
    names.len()
}

fn main() {
    let words: Vec<String> = std::env::args().skip(1).collect();
    match words[0].as_str() {
        "mark" => {
            let (text, branches) = mark(&read(&words[1]), &crates(&read(&words[4])));
            fs::write(&words[2], text).expect("the module is written");
            fs::write(&words[3], names(&branches)).expect("the names are written");
        }
        "name" => print!("{}", name(&read(&words[1]), &read(&words[2]))),
        _ => std::process::exit(!report(&words[1], &words[2], &words[3..]) as i32),
    }
}
