//! The intended differences, each on its smallest input: the result of the original, run here, and the answer line of `replay`.

use crate::answers::{answer, head_of, hevc_head_of, line};
use crate::case::{hex_onto, Case};
use crate::longest;
use crate::reading::{list, list_bytes, list_with_reserved, without_reserved, LARGEST};
use original::hvcc::{self, HevcConfig, NalArray};
use original::vvcc::{self, CompactVvcConfig, VvcConfig, VvcNalArray};
use std::io::{BufRead, BufReader, Write};
use std::process::{Command, Stdio};

fn hex(bytes: &[u8]) -> String {
    let mut s = String::new();
    hex_onto(&mut s, &bytes[..bytes.len().min(24)]);
    if bytes.len() > 24 {
        s.push_str(&format!(".. ({} bytes)", bytes.len()));
    }
    s
}

/// A head of zeros with prefix size 1, or with the PTL flag, one constraint byte and one changed byte.
fn head(ptl: bool, changed: &[(usize, u8)]) -> Vec<u8> {
    let mut h = vec![0; 26];
    h[0] = 1;
    h[1] = ptl as u8;
    h[20] = 1;
    for &(at, b) in changed {
        h[at] = b;
    }
    h
}

/// The full writer's case and what the original writes, with what its own reader makes of it.
fn written(numbers: Vec<u8>, arrays: &[VvcNalArray]) -> (Case, String) {
    written_list(numbers, list_bytes(arrays))
}

/// The same for the bytes of a list. The original's arrays have no reserved bit.
fn written_list(numbers: Vec<u8>, bytes: Vec<u8>) -> (Case, String) {
    let mut c = Case::new(33, numbers, bytes);
    c.room = 8;
    let (mut h, counts) = head_of(&c, 0);
    if let Some(p) = h.native_ptl.as_mut() {
        p.general_constraint_info.resize(counts[0], 0);
        p.sublayer_level_idc.resize(counts[1], None);
        p.general_sub_profile_idc.resize(counts[2], 0);
    }
    h.arrays = without_reserved(list(&c.first).unwrap());
    let bytes = h.serialize();
    let back = match VvcConfig::parse(&bytes) {
        Err(e) => format!("refused by its own reader ({e})"),
        Ok(mut r) => {
            r.raw.clear();
            h.native_ptl = if h.ptl_present_flag {
                h.native_ptl
            } else {
                None
            };
            if r == h {
                "read back the same".into()
            } else {
                "read back as another record".into()
            }
        }
    };
    (c, format!("writes {}, {back}", hex(&bytes)))
}

/// The HEVC writer's case and what the original writes, with what its own reader makes of it. The head is all zeros but for prefix size 1 and one
/// changed byte.
fn hevc_written(changed: (usize, u8), arrays: Vec<NalArray>) -> (Case, String) {
    let mut numbers = vec![0; 28];
    numbers[27] = 1;
    numbers[changed.0] = changed.1;
    let mut c = Case::new(52, numbers, list_with_reserved(&arrays));
    c.room = 30;
    let mut h = hevc_head_of(&c);
    h.arrays = arrays;
    let bytes = h.serialize();
    let back = match HevcConfig::parse(&bytes) {
        Err(e) => format!("refused by its own reader ({e})"),
        Ok(mut r) => {
            r.raw.clear();
            let same = if r == h { "the same" } else { "another record" };
            format!("read back as {same}")
        }
    };
    (c, format!("writes {}, {back}", hex(&bytes)))
}

/// The HEVC writer's fields that do not fit, and the numbers of arrays and units.
fn hevc_entries() -> Vec<(&'static str, Case, String)> {
    let fields = [
        ("HEVC writer, profile space 4", (0, 4)),
        ("HEVC writer, profile 32", (2, 32)),
        ("HEVC writer, constraint flags 2^48", (8, 1)),
        ("HEVC writer, segmentation 4096", (16, 16)),
        ("HEVC writer, parallelism 4", (18, 4)),
        ("HEVC writer, chroma 4", (19, 4)),
        ("HEVC writer, luma depth minus 8 of 8", (20, 8)),
        ("HEVC writer, chroma depth minus 8 of 8", (21, 8)),
        ("HEVC writer, constant rate 4", (24, 4)),
        ("HEVC writer, 8 temporal layers", (25, 8)),
        ("HEVC writer, size 0", (27, 0)),
        ("HEVC writer, size 5", (27, 5)),
    ];
    let array = |units| NalArray::new(true, false, 39, units);
    let counts = [
        ("HEVC writer, 256 arrays", vec![array(vec![]); 256]),
        (
            "HEVC writer, 65,536 units",
            vec![array(vec![vec![]; 65536])],
        ),
        (
            "HEVC writer, a unit of 65,536 bytes",
            vec![array(vec![vec![7; 65536]])],
        ),
    ];
    let of_field = |(what, changed)| (what, hevc_written(changed, vec![]));
    let of_count = |(what, arrays)| (what, hevc_written((27, 1), arrays));
    let all = fields.into_iter().map(of_field);
    all.chain(counts.into_iter().map(of_count))
        .map(|(what, (c, said))| (what, c, said))
        .collect()
}

fn entries() -> Vec<(&'static str, Case, String)> {
    let array = |t, units: Vec<Vec<u8>>| VvcNalArray::new(true, t, units);
    let none: [VvcNalArray; 0] = [];
    let mut out: Vec<(&'static str, Case, String)> = Vec::new();
    let mut add = |what, (c, said): (Case, String)| out.push((what, c, said));
    add(
        "output shorter than the result",
        (
            Case::new(18, vec![], vec![9]),
            hex(&vvcc::extract_rbsp(&[9])),
        ),
    );
    add(
        "a list with no version byte",
        (
            Case::new(14, vec![], vec![]),
            "no such input: `arrays` is a vector".into(),
        ),
    );
    for (what, changed) in [
        ("full writer, operating point 512", vec![(2, 2)]),
        ("full writer, 8 sublayers", vec![(4, 8)]),
        ("full writer, constant rate 4", vec![(5, 4)]),
        ("full writer, chroma 4", vec![(6, 4)]),
        ("full writer, depth minus 8 of 8", vec![(7, 8)]),
        ("full writer, profile 128", vec![(14, 128)]),
        ("full writer, 64 constraint bytes", vec![(20, 64)]),
        ("full writer, 8 levels", vec![(22, 8)]),
        ("full writer, 256 sub-profiles", vec![(23, 1)]),
    ] {
        add(what, written(head(true, &changed), &none));
    }
    add(
        "full writer, size 0",
        written(head(false, &[(0, 0)]), &none),
    );
    add(
        "full writer, size 3",
        written(head(false, &[(0, 3)]), &none),
    );
    add(
        "full writer, size 5",
        written(head(false, &[(0, 5)]), &none),
    );
    add(
        "full writer, 256 arrays",
        written(head(false, &[]), &vec![array(0, vec![]); 256]),
    );
    add(
        "full writer, 65,536 units",
        written(head(false, &[]), &[array(0, vec![vec![]; 65536])]),
    );
    add(
        "full writer, a unit of 65,536 bytes",
        written(head(false, &[]), &[array(0, vec![vec![7; 65536]])]),
    );
    add(
        "full writer, type 12 without a unit",
        written(head(false, &[]), &[array(12, vec![])]),
    );
    add(
        "full writer, type 13 with two units",
        written(head(false, &[]), &[array(13, vec![vec![], vec![]])]),
    );
    for (what, reserved, t) in [
        ("full writer, an array of type 32", false, 32),
        ("full writer, an array with the reserved bit", true, 15),
    ] {
        let list = list_with_reserved(&[NalArray::new(true, reserved, t, vec![])]);
        add(what, written_list(head(false, &[]), list));
    }
    for (what, size) in [("compact writer, size 0", 0), ("compact writer, size 5", 5)] {
        let units = vec![Vec::new(), Vec::new()];
        let mut c = Case::new(29, vec![0, size], list_bytes(&[array(0, units.clone())]));
        c.room = 8;
        let made = CompactVvcConfig::new(false, size, units).serialize();
        add(what, (c, format!("writes {}", hex(&made.unwrap()))));
    }
    let c = Case::new(34, head(true, &[(7, 248)]), vec![1]);
    let (h, _) = head_of(&c, 0);
    let panics = || "panics: the sum overflows".into();
    let format = std::panic::catch_unwind(|| h.sample_format().map_err(|e| e.to_string()));
    let said = format.map_or_else(|_| panics(), |f| format!("{f:?}"));
    add("`sample_format`, depth minus 8 of 248", (c, said));
    let depth = std::panic::catch_unwind(|| h.bit_depth());
    let said = depth.map_or_else(|_| panics(), |d| d.to_string());
    add(
        "`bit_depth`, depth minus 8 of 248",
        (Case::new(2, head(true, &[(7, 248)]), vec![]), said),
    );
    let said = format!(
        "{:?}",
        CompactVvcConfig::new(false, 1, vec![]).strip_item_data(&[])
    );
    add(
        "`strip_item_data`, the empty item",
        (Case::new(31, vec![0, 1], vec![]), said),
    );
    out
}

/// Inputs on which the original differs from the standards, and this build with it.
fn of_the_standards() -> Vec<(&'static str, Case, String)> {
    let bytes = |op, numbers: &[u8], first: &[u8]| {
        let mut c = Case::new(op, numbers.to_vec(), first.to_vec());
        c.room = answer(&c).result.unwrap_or(0);
        c
    };
    let zero_head = |after: &[u8]| [&[1][..], &[0; 22], after].concat();
    let opi = vec![0, 0x61, 0x90];
    let record = list_bytes(&[VvcNalArray::new(true, 12, vec![opi.clone()])]);
    let mut au = Case::new(
        36,
        [vec![1], vec![0; 10], head(false, &[])].concat(),
        record,
    );
    au.second = [&[3][..], &opi, &[2, 0, 0x61, 2, 0, 0x41]].concat();
    au.room = 30;
    let list = vec![
        ("reserved bits of a full record", bytes(32, &[], &[0, 0])),
        ("bytes after a full record", bytes(32, &[], &[0xf8, 0, 0x55])),
        ("an array type outside 12 to 17 and 23", bytes(32, &[], &[0xf8, 1, 0x80, 0, 0])),
        ("a unit of length 0 in a full record", bytes(32, &[], &[0xf8, 1, 0x8f, 0, 1, 0, 0])),
        ("a unit of length 0 and prefix size 3 in a compact record", bytes(28, &[], &[0x40, 0, 0])),
        ("forbidden_zero_bit and nuh_reserved_zero_bit, stripped", bytes(31, &[0, 1], &[3, 0xc0, 0x41, 0x9a])),
        ("the same, restored", bytes(30, &[0, 1], &[0x9a])),
        ("sps_max_sublayers_minus1 of 7", bytes(19, &[], &[0, 0x79, 0, 0xe0, 0x32])),
        ("sps_log2_ctu_size_minus5 of 3", bytes(19, &[], &[0, 0x79, 0, 0x06, 0x32])),
        ("alignment bits of a VPS and its PTL", bytes(20, &[], &[0, 0x71, 0, 0, 0x1f, 2, 0x33, 0x1f, 0])),
        ("an SPS with subpictures", bytes(19, &[], &[0, 0x79, 0, 0, 0x34])),
        ("a VPS with two layers", bytes(20, &[], &[0, 0x71, 0, 0x40])),
        ("reserved bits of an HEVC record's head", bytes(51, &[], &zero_head(&[]))),
        ("bytes after an HEVC record", bytes(51, &[], &zero_head(&[0x55]))),
        ("prefix size 3 in an HEVC record", bytes(51, &[], &[&[1][..], &[0; 20], &[2, 0]].concat())),
        ("the reserved bit of an array, any type, a unit of length 0", bytes(51, &[], &[&[1][..], &[0; 21], &[1, 0x7f, 0, 1, 0, 0]].concat())),
        ("00 00 00 inside a stream's unit", bytes(26, &[], &[0, 0, 1, 9, 0, 0, 0, 5])),
        ("OPI units of operating point 1, target 0, in the record and in the item, and one that does not read", au),
    ];
    list.into_iter()
        .map(|(what, c)| (what, c.clone(), line(&c, &answer(&c))))
        .collect()
}

/// Units that calls of the original make and the unit check refuses: the call, the unit as the case of `check_unit`, and the unit in words.
fn refused_units() -> Vec<(&'static str, Case, String)> {
    let in_stream = |bytes: &'static [u8]| hvcc::split_annex_b(bytes)[0].to_vec();
    let config = CompactVvcConfig::parse(&[0x40, 0, 0]).expect("the record reads");
    let plain = CompactVvcConfig::new(false, 1, vec![]);
    let item = plain.item_data(&[0]).expect("the bytes fit their prefix");
    let item_unit = hvcc::split_length_prefixed(&item, 1).expect("the item reads")[0].to_vec();
    let one_zero = hvcc::split_length_prefixed(&[1, 0], 1).expect("the item reads")[0].to_vec();
    let list = vec![
        (
            "`split_annex_b` of 00 00 01 00 00 02",
            in_stream(&[0, 0, 1, 0, 0, 2]),
        ),
        (
            "`split_annex_b` of 00 00 01 09 00 00 00 05",
            in_stream(&[0, 0, 1, 9, 0, 0, 0, 5]),
        ),
        (
            "`split_annex_b` of 00 00 01 00 00 03 04",
            in_stream(&[0, 0, 1, 0, 0, 3, 4]),
        ),
        ("`split_length_prefixed` of 01 00", one_zero),
        (
            "`CompactVvcConfig::parse` of 40 00 00",
            config.nal_units[0].clone(),
        ),
        ("`item_data` of 00", item_unit),
    ];
    list.into_iter()
        .map(|(what, unit)| {
            let said = format!("makes the unit {}", hex(&unit));
            (what, Case::new(9, vec![], unit), said)
        })
        .chain([lost_unit()])
        .collect()
}

/// A stream of the original in which such a unit is lost; the case counts its units.
fn lost_unit() -> (&'static str, Case, String) {
    let head = VvcConfig::parse(&[0xf8, 0]).expect("the record reads");
    let stream = vvcc::access_unit_annex_b(&head, &[1, 0], None).expect("the item reads");
    let said = format!("writes {}", hex(&stream));
    let what = "`access_unit_annex_b` of the record F8 00 and the item 01 00; its units counted";
    (what, Case::new(25, vec![], stream), said)
}

/// Prints the tables.
pub fn print(replay: &str) -> bool {
    std::panic::set_hook(Box::new(|_| {}));
    let long = Case::new(6, vec![], vec![0; LARGEST + 1]);
    let said = vvcc::nal_unit_type(&long.first);
    let line = longest::answer_of(&long);
    println!(
        "`nal_unit_type` of 2^30 + 1 bytes: the original {said:?}, `replay` `{}`\n",
        line.trim_end()
    );
    let first = table(replay, entries());
    println!();
    let second = table(replay, hevc_entries());
    println!();
    let third = table(replay, of_the_standards());
    println!();
    let fourth = table(replay, refused_units());
    first && second && third && fourth
}

fn table(replay: &str, entries: Vec<(&'static str, Case, String)>) -> bool {
    let mut child = Command::new(replay)
        .stdin(Stdio::piped())
        .stdout(Stdio::piped())
        .spawn()
        .expect("replay starts");
    let mut input = child.stdin.take().unwrap();
    let text: String = entries.iter().map(|e| e.1.line()).collect();
    let writer = std::thread::spawn(move || {
        input
            .write_all(text.as_bytes())
            .expect("replay takes its cases")
    });
    println!("| what | the original | `replay` |\n|---|---|---|");
    for ((what, _, said), line) in entries
        .iter()
        .zip(BufReader::new(child.stdout.take().unwrap()).lines())
    {
        println!(
            "| {what} | {} | `{}` |",
            said.trim_end(),
            line.expect("replay's answers are read")
        );
    }
    writer.join().unwrap();
    child.wait().unwrap();
    true
}
