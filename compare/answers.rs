//! The expected answer line of a case: that of the original, or of the rules of docs/SCOPE.md (`reading`) where the original has none.

use crate::case::{hex_onto, Case};
use crate::reading::{self, Directory, Place, Question, Refusal, TYPES};
use original::boxes::Reader;
use original::error::HeifError;
use original::hvcc::{split_annex_b, split_length_prefixed, HevcConfig, NalArray};
use original::vvcc::{self, CompactVvcConfig, SpsHead, VvcConfig, VvcNalArray, VvcPtlRecord};
use std::fmt::Write;

/// What is expected of a case: the refusal's number (0 for none), the text after it, the output's final bytes, and the length of the result if there
/// is one.
pub struct Answer {
    pub refusal: Refusal,
    pub fields: String,
    pub out: Vec<u8>,
    pub result: Option<usize>,
}

/// The number of an error of the original (docs/SCOPE.md 6.2).
fn number(e: &HeifError) -> Refusal {
    let HeifError::InvalidData(m) = e else {
        let HeifError::Unsupported(m) = e else {
            panic!("{e}")
        };
        return if m.contains("subpicture") {
            13
        } else if m.contains("multi-layer V") {
            15
        } else {
            panic!("{m}")
        };
    };
    let table: [(&str, Refusal); 21] = [
        ("truncated ", 1),
        ("num_bytes_constraint_info 0", 2),
        ("LengthSizeMinusOne 2", 3),
        ("NAL length prefix size", 4),
        ("zero-length NAL unit", 5),
        ("does not fit a", 6),
        ("trailing bytes", 7),
        ("holds 2..=33", 8),
        ("longer than 255", 9),
        ("not a VVC SPS", 10),
        ("not a VVC VPS", 10),
        ("VVC parameter set truncated", 11),
        ("Exp-Golomb code too long", 12),
        ("sps_bitdepth_minus8", 14),
        ("but no VPS", 16),
        ("record without an SPS", 17),
        ("carries no SPS", 17),
        ("carries no PTL and there is no VPS", 18),
        ("carries no NAL units", 19),
        ("item carries no", 19),
        ("hvcC configurationVersion", 27),
    ];
    // 'VVC parameter set truncated' and 'truncated FIELD: need ..' are told apart by the words before.
    let found = if m.starts_with("VVC parameter set truncated") {
        Some(&("", 11))
    } else {
        table.iter().find(|(words, _)| m.contains(words))
    };
    found.unwrap_or_else(|| panic!("no number for: {m}")).1
}

fn put(s: &mut String, n: u64) {
    write!(s, " {n}").unwrap();
}

fn put_bytes(s: &mut String, b: &[u8]) {
    s.push_str(" =");
    hex_onto(s, b);
}

/// A PTL as text; none is shown as zeros.
fn put_ptl(s: &mut String, p: Option<&VvcPtlRecord>) {
    let none = VvcPtlRecord::default();
    let p = p.unwrap_or(&none);
    put(s, p.general_profile_idc.into());
    put(s, p.general_tier_flag.into());
    put(s, p.general_level_idc.into());
    put(s, p.ptl_frame_only_constraint_flag.into());
    put(s, p.ptl_multilayer_enabled_flag.into());
    put(s, p.general_constraint_info.len() as u64);
    put_bytes(s, &p.general_constraint_info);
    put(s, p.sublayer_level_idc.len() as u64);
    let levels: Vec<u8> = p
        .sublayer_level_idc
        .iter()
        .flat_map(|l| [l.is_some() as u8, l.unwrap_or(0)])
        .collect();
    put_bytes(s, &levels);
    put(s, p.general_sub_profile_idc.len() as u64);
    let subs: Vec<u8> = p
        .general_sub_profile_idc
        .iter()
        .flat_map(|v| v.to_be_bytes())
        .collect();
    put_bytes(s, &subs);
}

/// The head of a full record as text; none is shown as zeros.
fn put_head(s: &mut String, h: Option<&VvcConfig>) {
    let Some(h) = h else {
        for _ in 0..7 {
            put(s, 0);
        }
        put_ptl(s, None);
        for _ in 0..3 {
            put(s, 0);
        }
        return;
    };
    put(s, h.length_size.into());
    put(s, h.ptl_present_flag.into());
    put(s, h.ols_idx.into());
    put(s, h.num_sublayers.into());
    put(s, h.constant_frame_rate.into());
    put(s, h.chroma_format_idc.into());
    put(s, h.bit_depth_minus8.into());
    put_ptl(s, h.native_ptl.as_ref());
    put(s, h.max_picture_width.into());
    put(s, h.max_picture_height.into());
    put(s, h.avg_frame_rate.into());
}

/// An SPS head as text; none is shown as zeros.
fn put_sps(s: &mut String, h: Option<&SpsHead>) {
    let (numbers, ptl, size, window, depth) = match h {
        None => ([0; 5], None, (0, 0), None, 0),
        Some(h) => (
            [
                h.sps_id,
                h.vps_id,
                h.max_sublayers_minus1,
                h.chroma_format_idc,
                h.log2_ctu_size,
            ],
            h.ptl.as_ref(),
            (h.pic_width, h.pic_height),
            h.conformance_window,
            h.bit_depth,
        ),
    };
    for n in numbers {
        put(s, n.into());
    }
    put(s, ptl.is_some().into());
    put_ptl(s, ptl);
    put(s, size.0.into());
    put(s, size.1.into());
    put(s, window.is_some().into());
    let w = window.unwrap_or((0, 0, 0, 0));
    for n in [w.0, w.1, w.2, w.3] {
        put(s, n.into());
    }
    put(s, depth.into());
}

/// The head of an HEVC record as text; none is shown as zeros.
fn put_hevc_head(s: &mut String, h: Option<&HevcConfig>) {
    let numbers = h.map_or([0; 16], |h| {
        [
            h.general_profile_space.into(),
            h.general_tier_flag.into(),
            h.general_profile_idc.into(),
            h.general_profile_compatibility_flags.into(),
            h.general_constraint_indicator_flags,
            h.general_level_idc.into(),
            h.min_spatial_segmentation_idc.into(),
            h.parallelism_type.into(),
            h.chroma_format_idc.into(),
            h.bit_depth_luma_minus8.into(),
            h.bit_depth_chroma_minus8.into(),
            h.avg_frame_rate.into(),
            h.constant_frame_rate.into(),
            h.num_temporal_layers.into(),
            h.temporal_id_nested.into(),
            h.length_size.into(),
        ]
    });
    for n in numbers {
        put(s, n);
    }
}

/// A directory as text: every entry, then every total that is not 0, each after its type.
fn put_directory(s: &mut String, d: &Directory) {
    for (t, offset, len) in d.entries {
        put(s, t.into());
        put(s, offset);
        put(s, len);
    }
    for (t, n) in d.totals.into_iter().enumerate().filter(|p| p.1 != 0) {
        put(s, t as u64);
        put(s, n);
    }
}

/// The head of an HEVC record among the numbers of a case, in the original's form.
pub fn hevc_head_of(c: &Case) -> HevcConfig {
    HevcConfig::new(
        1,
        c.byte(0),
        c.byte(1) != 0,
        c.byte(2),
        c.number(3, 4) as u32,
        c.number(7, 8),
        c.byte(15),
        c.number(16, 2) as u16,
        c.byte(18),
        c.byte(19),
        c.byte(20),
        c.byte(21),
        c.number(22, 2) as u16,
        c.byte(24),
        c.byte(25),
        c.byte(26) != 0,
        c.byte(27),
        Vec::new(),
        Vec::new(),
    )
}

/// The head of a case, in the original's form, and its three counts.
pub fn head_of(c: &Case, at: usize) -> (VvcConfig, [usize; 3]) {
    let b = |i: usize| c.byte(at + i);
    let two = |i: usize| c.number(at + i, 2) as u16;
    let counts = [two(19) as usize, two(21) as usize, two(23) as usize];
    let (n, m, k) = (counts[0].min(63), counts[1].min(7), counts[2].min(255));
    let info = (0..n).map(|i| b(25 + i)).collect();
    let levels = (0..m)
        .map(|i| (b(25 + n + 2 * i) != 0).then(|| b(25 + n + 2 * i + 1)))
        .collect();
    let subs = (0..k)
        .map(|i| c.number(at + 25 + n + 2 * m + 4 * i, 4) as u32)
        .collect();
    let ptl = VvcPtlRecord::new(
        b(14),
        b(15) != 0,
        b(16),
        b(17) != 0,
        b(18) != 0,
        info,
        levels,
        subs,
    );
    let head = VvcConfig::new(
        0,
        b(0),
        b(1) != 0,
        two(2),
        b(4),
        b(5),
        b(6),
        b(7),
        Some(ptl),
        two(8),
        two(10),
        two(12),
        Vec::new(),
        Vec::new(),
    );
    (head, counts)
}

/// The directory of a case: its second input has the entries, its numbers after the question have some totals.
pub fn directory_of(c: &Case) -> Directory {
    let second = Case::new(c.op, c.second.clone(), Vec::new());
    let entry = |i: usize| {
        let at = 17 * i;
        (
            second.byte(at),
            second.number(at + 1, 8),
            second.number(at + 9, 8),
        )
    };
    let mut totals = [0; TYPES];
    for at in (10..c.numbers.len()).step_by(9) {
        if let Some(n) = totals.get_mut(usize::from(c.byte(at))) {
            *n = c.number(at + 1, 8);
        }
    }
    Directory {
        entries: std::array::from_fn(entry),
        totals,
    }
}

/// What a directory is asked for in a case.
pub fn question_of(c: &Case) -> Question {
    match c.byte(0) {
        0 => Question::First(c.byte(1)),
        _ => Question::Number(c.number(2, 8)),
    }
}

/// Where the unit lies that a directory is asked for.
fn directory_unit(c: &Case) -> Result<Option<Place>, Refusal> {
    directory_of(c).unit(c.first.len(), question_of(c))
}

/// A record of the arrays of a list, in the original's form.
pub fn of_arrays(arrays: Vec<NalArray>) -> VvcConfig {
    let (mut h, _) = head_of(&Case::default(), 0);
    h.arrays = reading::without_reserved(arrays);
    h
}

fn with_list(c: &Case, at: usize) -> Result<(VvcConfig, [usize; 3]), Refusal> {
    let arrays = reading::list(&c.first)?;
    let (mut head, counts) = head_of(c, at);
    head.arrays = reading::without_reserved(arrays);
    Ok((head, counts))
}

/// A field of `boxes`: its number and the place after it.
fn field(c: &Case) -> Result<String, Refusal> {
    let at = c.number(0, 8) as usize;
    let mut r = Reader::new(&c.first);
    r.skip(at, "place").map_err(|e| number(&e))?;
    let v = match c.op {
        3 => r.u8("field").map(u64::from),
        4 => r.u16("field").map(u64::from),
        _ => r.u32("field").map(u64::from),
    };
    Ok(format!(" {} {}", v.map_err(|e| number(&e))?, r.position()))
}

/// How many bytes of a record that reads are consumed: the length of its shortest front that reads.
fn consumed(s: &[u8], reads: fn(&[u8]) -> bool) -> usize {
    let (mut low, mut high) = (0, s.len());
    while low < high {
        let mid = (low + high) / 2;
        if reads(&s[..mid]) {
            high = mid;
        } else {
            low = mid + 1;
        }
    }
    low
}

fn consumed_full(s: &[u8]) -> usize {
    consumed(s, |front| VvcConfig::parse(front).is_ok())
}

/// A full record that the original reads: the text of the answer, and the list.
fn full_record(s: &[u8]) -> Result<(String, Vec<u8>), Refusal> {
    let h = VvcConfig::parse(s).map_err(|e| number(&e))?;
    let list = reading::list_bytes(&h.arrays);
    let mut text = format!(" {} {}", consumed_full(s), list.len());
    put_head(&mut text, Some(&h));
    Ok((text, list))
}

/// The front of an HEVC record that the original consumes, and what it reads; none if it refuses the record.
pub fn hevc_read(s: &[u8]) -> Option<(&[u8], HevcConfig)> {
    let h = HevcConfig::parse(s).ok()?;
    let n = consumed(s, |front| HevcConfig::parse(front).is_ok());
    Some((&s[..n], h))
}

/// An HEVC record that the original reads: the text of the answer, and the list.
fn hevc_record(s: &[u8]) -> Result<(String, Vec<u8>), Refusal> {
    let h = HevcConfig::parse(s).map_err(|e| number(&e))?;
    let list = reading::list_with_reserved(&h.arrays);
    let n = hevc_read(s).map_or(0, |(front, _)| front.len());
    let mut text = format!(" {n} {}", list.len());
    put_hevc_head(&mut text, Some(&h));
    Ok((text, list))
}

/// What the original's writer gives for a record that its reader has read.
#[derive(Clone, Copy, PartialEq)]
pub enum Again {
    /// The reader refuses the record.
    Refused,
    /// The bytes that the reader consumed.
    Same,
    /// Other bytes.
    Other,
}

/// Reads a record with the original and writes it again. Its writer refuses nothing.
pub fn again(s: &[u8]) -> Again {
    match VvcConfig::parse(s) {
        Err(_) => Again::Refused,
        Ok(h) if h.serialize() == s[..consumed_full(s)] => Again::Same,
        Ok(_) => Again::Other,
    }
}

/// The next unit of a stream from a place on, by the original's splitting of the bytes from there on.
fn next_unit(s: &[u8], from: usize) -> String {
    let units = if from < s.len() {
        split_annex_b(&s[from..])
    } else {
        Vec::new()
    };
    match units.first() {
        None => " 0".into(),
        Some(u) => {
            let start = u.as_ptr() as usize - s.as_ptr() as usize;
            format!(" 1 {start} {} {}", u.len(), start + u.len())
        }
    }
}

/// The unit of an item at a place, by the original's splitting of as many bytes from there on as the unit's length says.
fn next_item_unit(s: &[u8], size: u8, from: usize) -> Result<String, Refusal> {
    let rest = s.get(from..).unwrap_or(&[]);
    let len = Reader::new(rest).uint(size.clamp(1, 4).into(), "length");
    let end = len.map_or(rest.len(), |n| {
        rest.len().min(usize::from(size) + n as usize)
    });
    let units = split_length_prefixed(&rest[..end], size).map_err(|e| number(&e))?;
    Ok(units.first().map_or(" 0".into(), |u| {
        let start = u.as_ptr() as usize - s.as_ptr() as usize;
        format!(" 1 {start} {} {}", u.len(), start + u.len())
    }))
}

fn cropped(c: &Case) -> String {
    let four = |at| c.number(at, 4) as u32;
    let window = (c.byte(9) != 0).then(|| (four(10), four(14), four(18), four(22)));
    let head = SpsHead::new(0, 0, 0, c.byte(0), 5, None, four(1), four(5), window, 8);
    let (w, h) = head.cropped_size();
    format!(" {w} {h}")
}

/// Where unit k lies: 1 or 2 for the first or the second input, start and length; 0 past the last unit.
fn place(units: &[Place], k: u64) -> String {
    let given = units.get(k as usize);
    given.map_or(" 0".into(), |(which, start, len)| {
        format!(" {which} {start} {len}")
    })
}

/// Where unit k of a list lies, of all units or of those of a type. The bytes there are those that the original returns.
fn list_place(h: &VvcConfig, s: &[u8], t: Option<u8>, k: u64) -> String {
    let wanted = |p: &(u8, Place)| t.map_or(true, |t| p.0 == t);
    let all: Vec<Place> = reading::list_places(s)
        .into_iter()
        .filter(wanted)
        .map(|p| p.1)
        .collect();
    let bytes: Vec<&[u8]> = all.iter().map(|p| &s[p.1..p.1 + p.2]).collect();
    let theirs = t.map_or_else(|| h.nal_units().collect(), |t| h.nal_units_of_type(t));
    assert_eq!(
        bytes, theirs,
        "the units of the list are not the original's"
    );
    place(&all, k)
}

/// An access unit: the original's stream, its units, and where they lie.
pub struct Assembled<'a> {
    pub stream: Vec<u8>,
    pub units: Vec<&'a [u8]>,
    places: Vec<Place>,
}

/// The access unit of a case. The units are those of the original's stream.
pub fn assembled(c: &Case) -> Result<Assembled<'_>, Refusal> {
    let (h, _) = with_list(c, 11)?;
    let tols = (c.byte(0) != 0).then(|| c.number(1, 2) as u16);
    let stream = vvcc::access_unit_annex_b(&h, &c.second, tols).map_err(|e| number(&e))?;
    let places = reading::access_unit(&h, &c.first, &c.second, tols);
    let inputs = [&c.first, &c.second];
    let units: Vec<&[u8]> = places
        .iter()
        .map(|p| &inputs[p.0 as usize - 1][p.1..p.1 + p.2])
        .collect();
    let joined: Vec<u8> = units
        .iter()
        .flat_map(|u| [&[0, 0, 0, 1], &u[..]].concat())
        .collect();
    assert_eq!(
        stream, joined,
        "the units of the access unit are not those of the original's stream"
    );
    Ok(Assembled {
        stream,
        units,
        places,
    })
}

/// The count and the units of an access unit: a number, the bytes of unit k, or where they lie.
fn access_unit(c: &Case) -> Result<String, Refusal> {
    let a = assembled(c)?;
    let k = c.number(3, 8);
    Ok(match c.op {
        37 => format!(" {}", a.units.len()),
        38 => part(&a.units, k),
        _ => place(&a.places, k),
    })
}

/// The stream of an access unit with short start codes. Put back to four bytes it is the original's stream.
fn short_stream(c: &Case) -> Result<Vec<u8>, Refusal> {
    let a = assembled(c)?;
    let short = reading::short_stream(&a.units);
    let lengths = a.units.iter().map(|u| u.len());
    let (back, three) = reading::put_back(&short, lengths).expect("a start code before each unit");
    assert_eq!(
        back, a.stream,
        "put back to four bytes it is not the original's stream"
    );
    assert_eq!(
        short.len() + three,
        a.stream.len(),
        "the length is not the original's less one for each code of three bytes"
    );
    Ok(short)
}

/// The PTL of a case's head, with as many entries as its counts say.
fn counted_ptl(c: &Case) -> VvcPtlRecord {
    let (h, counts) = head_of(c, 0);
    let mut p = h.native_ptl.expect("a head of a case has a PTL");
    p.general_constraint_info.resize(counts[0], 0);
    p.sublayer_level_idc.resize(counts[1], None);
    p
}

fn part(units: &[&[u8]], k: u64) -> String {
    let mut s = String::new();
    put_bytes(&mut s, units.get(k as usize).copied().unwrap_or(&[]));
    s
}

fn flag(yes: bool) -> String {
    format!(" {}", yes as u8)
}

fn header_part(v: Option<u8>) -> String {
    v.map_or(" 0".into(), |v| format!(" 1 {v}"))
}

/// The calls that write nothing to lent memory.
fn plain(c: &Case) -> Result<String, Refusal> {
    let s = &c.first[..];
    let t = c.byte(0);
    let k = c.number(1, 8);
    Ok(match c.op {
        1 => return Err(u32::from(t)),
        2 => {
            let (h, _) = head_of(c, 0);
            if h.bit_depth_minus8 > 247 {
                return Err(22);
            }
            format!(" {}", h.bit_depth())
        }
        3..=5 => field(c)?,
        6 => header_part(vvcc::nal_unit_type(s)),
        7 => header_part(vvcc::nal_layer_id(s)),
        8 => header_part(vvcc::nal_temporal_id_plus1(s)),
        9 => flag(reading::check_unit(s)),
        10 => part(&[&vvcc::nal_header(t, c.byte(1), c.byte(2))], 0),
        11 => reading::unit_kind(t),
        12 => flag(vvcc::is_vcl(t)),
        13 => flag(vvcc::is_record_nal_type(t)),
        14 => format!(" {}", of_arrays(reading::list(s)?).nal_count()),
        15 => {
            let h = of_arrays(reading::list(s).unwrap_or_default());
            let all: Vec<&[u8]> = h.nal_units().collect();
            part(&all, k)
        }
        16 => format!(
            " {}",
            of_arrays(reading::list(s)?).nal_units_of_type(t).len()
        ),
        17 => {
            let h = of_arrays(reading::list(s).unwrap_or_default());
            let all = h.nal_units_of_type(t);
            part(&all, k)
        }
        40 => list_place(&of_arrays(reading::list(s)?), s, None, k),
        41 => list_place(&of_arrays(reading::list(s)?), s, Some(t), k),
        46 => {
            let h = of_arrays(reading::list(s).unwrap_or_default());
            part(&[h.sps().unwrap_or_default()], 0)
        }
        47 => list_place(&of_arrays(reading::list(s)?), s, Some(15), 0),
        21 => vvcc::read_opi_ols_idx(s).map_or(" 0".into(), |v| format!(" 1 {v}")),
        22 => cropped(c),
        23 => format!(
            " {}",
            split_length_prefixed(s, t).map_err(|e| number(&e))?.len()
        ),
        24 => part(&split_length_prefixed(s, t).unwrap_or_default(), k),
        25 => format!(" {}", split_annex_b(s).len()),
        26 => part(&split_annex_b(s), k),
        27 => next_unit(s, k as usize),
        39 => next_item_unit(s, t, k as usize)?,
        42 => {
            let units = split_length_prefixed(s, t).map_err(|e| number(&e))?;
            place(&reading::places(1, s, &units), k)
        }
        43 => place(&reading::places(1, s, &split_annex_b(s)), k),
        48 => format!(" {}", counted_ptl(c).num_sublayers()),
        49 => format!(" {}", counted_ptl(c).num_bytes_constraint_info()),
        34 => {
            let (h, _) = with_list(c, 0)?;
            if h.ptl_present_flag && h.bit_depth_minus8 > 247 {
                return Err(22);
            }
            let (chroma, depth) = h.sample_format().map_err(|e| number(&e))?;
            format!(" {chroma} {depth}")
        }
        37 | 44 => access_unit(c)?,
        53 => {
            let (h, counts) = with_list(c, 0)?;
            reading::full_writer(&h, counts, &reading::list(s)?)?;
            format!(" {}", h.serialize().len())
        }
        38 => access_unit(c).unwrap_or(" =".into()),
        55 => {
            let mut d = directory_of(c);
            let mut text = format!(" {}", d.fill(s)?);
            put_directory(&mut text, &d);
            text
        }
        56 => format!(" {}", directory_of(c).count(c.byte(1))?),
        57 => place(directory_unit(c)?.as_slice(), 0),
        58 => {
            let found = directory_unit(c).unwrap_or(None);
            let units: Vec<&[u8]> = found.iter().map(|p| &s[p.1..p.1 + p.2]).collect();
            part(&units, 0)
        }
        _ => unreachable!("{}", c.op),
    })
}

/// A list that was made of another one, which has the same arrays.
fn same_arrays(s: &[u8], made: Vec<u8>) -> Vec<u8> {
    assert_eq!(
        reading::list(s),
        reading::list(&made),
        "the list that was made has other arrays"
    );
    made
}

/// The calls that write to lent memory: the text after the refusal's number, and the bytes.
fn writing(c: &Case) -> Result<(String, Vec<u8>), Refusal> {
    let s = &c.first[..];
    let said = |e: HeifError| number(&e);
    let compact = |units| CompactVvcConfig::new(c.byte(0) != 0, c.byte(1), units);
    let plain = |b: Vec<u8>| (format!(" {}", b.len()), b);
    let units_of = |arrays: Vec<NalArray>| arrays.into_iter().flat_map(|a| a.nal_units).collect();
    Ok(match c.op {
        18 => plain(vvcc::extract_rbsp(s)),
        28 => {
            let r = CompactVvcConfig::parse(s).map_err(said)?;
            let (flag, size, n) = (r.multi_layer_flag, r.length_size, r.nal_units.len());
            let list = reading::list_bytes(&[VvcNalArray::new(false, 0, r.nal_units)]);
            (format!(" {} {size} {n} {}", flag as u8, list.len()), list)
        }
        29 => {
            let units = units_of(reading::list(s)?);
            if !(1..=4).contains(&c.byte(1)) {
                return Err(4);
            }
            plain(compact(units).serialize().map_err(said)?)
        }
        30 => plain(compact(Vec::new()).item_data(s).map_err(said)?),
        31 => plain(compact(Vec::new()).strip_item_data(s).ok_or(24u32)?),
        32 => full_record(s)?,
        33 => {
            let (h, counts) = with_list(c, 0)?;
            reading::full_writer(&h, counts, &reading::list(s)?)?;
            plain(h.serialize())
        }
        35 => {
            let units = units_of(reading::list(s)?);
            let (width, height) = (c.number(4, 4) as u32, c.number(8, 4) as u32);
            let h = compact(units)
                .to_full(c.byte(2), c.byte(3), width, height)
                .map_err(said)?;
            let list = reading::list_bytes(&h.arrays);
            let mut text = format!(" {}", list.len());
            put_head(&mut text, Some(&h));
            (text, list)
        }
        36 => plain(assembled(c)?.stream),
        54 => plain(short_stream(c)?),
        50 => {
            let read = full_record(s)?;
            reading::strict(s)?;
            read
        }
        51 => hevc_record(s)?,
        52 => {
            let mut h = hevc_head_of(c);
            h.arrays = reading::list(s)?;
            reading::hevc_writer(&h)?;
            plain(h.serialize())
        }
        59 => plain(same_arrays(s, reading::narrow(s)?)),
        60 => plain(same_arrays(s, reading::widen(s)?)),
        _ => unreachable!("{}", c.op),
    })
}

/// The text after a refusal's number: nothing, a head of zeros, or for filling the directory as it was.
fn after_refusal(c: &Case) -> String {
    let mut s = String::new();
    match c.op {
        19 | 45 => put_sps(&mut s, None),
        20 => put_ptl(&mut s, None),
        32 | 35 | 50 => put_head(&mut s, None),
        51 => put_hevc_head(&mut s, None),
        55 => put_directory(&mut s, &directory_of(c)),
        _ => {}
    }
    s
}

/// The expected answer.
pub fn answer(c: &Case) -> Answer {
    let too_long = c.first.len().max(c.second.len()) > reading::LARGEST;
    let out = vec![c.fill; c.room];
    let refused = |refusal, out| Answer {
        refusal,
        fields: after_refusal(c),
        out,
        result: None,
    };
    let told = |fields, out| Answer {
        refusal: 0,
        fields,
        out,
        result: None,
    };
    match c.op {
        _ if too_long => match reading::too_long(c.op) {
            Err(e) => refused(e, out),
            Ok(fields) => told(fields, out),
        },
        19 | 20 | 45 => {
            let mut fields = String::new();
            let r = match c.op {
                19 => SpsHead::parse_nal(&c.first).map(|h| put_sps(&mut fields, Some(&h))),
                45 => SpsHead::parse_rbsp(&c.first).map(|h| put_sps(&mut fields, Some(&h))),
                _ => vvcc::vps_first_ptl(&c.first).map(|p| put_ptl(&mut fields, Some(&p))),
            };
            match r {
                Ok(()) => told(fields, out),
                Err(e) => refused(number(&e), out),
            }
        }
        18 | 28..=33 | 35 | 36 | 50..=52 | 54 | 59 | 60 => match writing(c) {
            Err(e) => refused(e, out),
            Ok((_, result)) if result.len() > c.room => Answer {
                result: Some(result.len()),
                ..refused(20, out)
            },
            Ok((fields, result)) => {
                let mut out = out;
                out[..result.len()].copy_from_slice(&result);
                Answer {
                    refusal: 0,
                    fields,
                    out,
                    result: Some(result.len()),
                }
            }
        },
        _ => match plain(c) {
            Err(e) => refused(e, out),
            Ok(fields) => told(fields, out),
        },
    }
}

/// The whole answer line.
pub fn line(c: &Case, a: &Answer) -> String {
    let mut s = format!("{} {}{}", c.op, a.refusal, a.fields);
    put_bytes(&mut s, &a.out);
    s.push('\n');
    s
}
