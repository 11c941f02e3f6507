//! Compares the library with the original on the same bytes: made and damaged stills, records, items and streams, and streams with units that pass
//! the unit check.
//! The original's sources are found by the environment variable VVCC_ORIGINAL, the folder with vvcc.rs, hvcc.rs, boxes.rs and error.rs.
#![cfg_attr(not(original), allow(unused))]
use ::vvcc::StartCodes::{Four, Short};
use ::vvcc::{
    access_unit, check_unit, item_units, still_record, still_stream, stream_units, strict_record,
    Picture, Refusal, StartCodes,
};

#[cfg(original)]
include!(concat!(env!("OUT_DIR"), "/original.rs"));

/// Numbers that are the same in every run.
struct Numbers(u64);

impl Numbers {
    fn below(&mut self, n: usize) -> usize {
        self.0 = self
            .0
            .wrapping_mul(6364136223846793005)
            .wrapping_add(1442695040888963407);
        ((self.0 >> 33) % n as u64) as usize
    }

    fn bytes(&mut self, n: usize) -> Vec<u8> {
        (0..n)
            .map(|_| {
                if self.below(3) == 0 {
                    self.below(4) as u8
                } else {
                    self.below(256) as u8
                }
            })
            .collect()
    }

    /// A unit of a type, often one of those that a record holds.
    fn unit(&mut self, longest: usize) -> Vec<u8> {
        let kinds = [12, 13, 14, 15, 15, 16, 17, 20, 23, 8, 0];
        let n = self.below(longest + 1);
        let mut u = self.bytes(n);
        if n >= 2 && self.below(4) != 0 {
            u[0] = 0;
            u[1] = (kinds[self.below(kinds.len())] << 3) as u8 | 1;
        }
        if n > 6 && self.below(2) == 0 {
            // an SPS as a camera writes it
            u = b"\x00\x79\x00\x0D\x02\x33\x80\x00\x02\x22\x4C".to_vec();
        }
        u
    }

    /// Some bytes of a good input changed, cut off or added.
    fn damaged(&mut self, good: &[u8]) -> Vec<u8> {
        let mut b = good.to_vec();
        match self.below(4) {
            0 => {}
            1 => b.truncate(self.below(b.len() + 1)),
            2 => b.push(self.below(256) as u8),
            _ => {
                for _ in 0..1 + self.below(3) {
                    if !b.is_empty() {
                        let i = self.below(b.len());
                        b[i] = self.below(256) as u8;
                    }
                }
            }
        }
        b
    }

    fn compact(&mut self) -> Vec<u8> {
        let n = 2 + self.below(4);
        let mut r =
            vec![(self.below(8) as u8 / 7) << 7 | (self.below(4) as u8) << 5 | (n - 2) as u8];
        for _ in 0..n {
            let u = self.unit(20);
            r.push(u.len() as u8);
            r.extend_from_slice(&u);
        }
        r
    }

    fn record(&mut self) -> Vec<u8> {
        let mut r = vec![0xF8 | (self.below(4) as u8) << 1];
        if self.below(2) == 0 {
            r[0] |= 1;
            r.extend_from_slice(b"\x00\x15\x1F\x01\x02\x33\x80\x00\x00\x10\x00\x08\x00\x00");
        }
        let arrays = self.below(4);
        r.push(arrays as u8);
        for _ in 0..arrays {
            let kind = self.below(32) as u8;
            let a = self.array(0x80 | kind);
            r.extend(a);
        }
        r
    }

    /// An array of a full record with its first byte.
    fn array(&mut self, first: u8) -> Vec<u8> {
        let mut a = vec![first];
        let one = matches!(first & 0x1F, 12 | 13);
        let n = if one { 1 } else { self.below(3) };
        if !one {
            a.extend_from_slice(&(n as u16).to_be_bytes());
        }
        for _ in 0..n {
            let u = self.unit(12);
            a.extend_from_slice(&(u.len() as u16).to_be_bytes());
            a.extend_from_slice(&u);
        }
        a
    }

    /// The part of a full record under its PTL flag, with any fields and any reserved bits.
    fn head(&mut self) -> Vec<u8> {
        let mut h = self.bytes(3);
        let constraints = 1 + self.below(4);
        h.push((self.below(4) << 6 | constraints) as u8);
        h.extend(self.bytes(2 + constraints));
        let sublayers = h[1] >> 4 & 7;
        if sublayers > 1 {
            let flags = self.below(256) as u8;
            h.push(flags);
            h.extend(self.bytes((flags >> (9 - sublayers)).count_ones() as usize));
        }
        let profiles = self.below(3);
        h.push(profiles as u8);
        h.extend(self.bytes(4 * profiles + 6));
        h
    }

    /// A full record that the original parses, with any fields and any reserved bits. Most have types that a record may have.
    fn readable(&mut self) -> Vec<u8> {
        let ptl = self.below(4) != 0;
        let size = [0, 1, 3][self.below(3)];
        let mut r = vec![(self.below(32) << 3 | size << 1) as u8 | ptl as u8];
        if ptl {
            r.extend(self.head());
        }
        let arrays = self.below(4);
        r.push(arrays as u8);
        for _ in 0..arrays {
            let kinds = [12, 13, 14, 15, 16, 17, 23, 12 + self.below(20)];
            let first = self.below(8) << 5 | kinds[self.below(8)];
            r.extend(self.array(first as u8));
        }
        r
    }

    fn item(&mut self, size: usize) -> Vec<u8> {
        let mut item = Vec::new();
        for _ in 0..self.below(5) {
            let u = self.unit(12);
            item.extend_from_slice(&(u.len() as u32).to_be_bytes()[4 - size..]);
            item.extend_from_slice(&u);
        }
        item
    }
}

/// How a comparison went: whether both accepted. A refusal that this library adds is not compared: 20, 22, 23, and 3 of the writer.
#[cfg(original)]
fn same(
    ours: Result<Vec<u8>, Refusal>,
    theirs: error::Result<Vec<u8>>,
    added: &[u32],
    input: &dyn std::fmt::Debug,
) -> bool {
    match (&ours, &theirs) {
        (Ok(a), Ok(b)) => assert_eq!(a, b, "{input:02X?}"),
        (Err(e), _) if added.contains(&e.number()) => {}
        (Err(e), Err(f)) => {
            let unsupported = matches!(f, error::HeifError::Unsupported(_));
            assert_eq!(
                matches!(e.number(), 13 | 15),
                unsupported,
                "{e} but {f} for {input:02X?}"
            );
        }
        _ => panic!("{ours:02X?} but {theirs:02X?} for {input:02X?}"),
    }
    ours.is_ok()
}

#[cfg(original)]
fn original_record(c: &[u8], p: Picture) -> error::Result<Vec<u8>> {
    let full = crate::vvcc::CompactVvcConfig::parse(c)?.to_full(
        p.chroma_format_idc,
        p.bit_depth,
        p.width,
        p.height,
    )?;
    Ok(full.serialize())
}

/// What assembly takes: a full record and an item.
#[cfg(original)]
type Parts = (crate::vvcc::VvcConfig, Vec<u8>);

/// The full record and the item of a still.
#[cfg(original)]
fn original_parts(c: &[u8], stored: &[u8]) -> error::Result<Parts> {
    let compact = crate::vvcc::CompactVvcConfig::parse(c)?;
    let full = crate::vvcc::VvcConfig::parse(&compact.to_full(1, 8, 0, 0)?.serialize())?;
    Ok((full, compact.item_data(stored)?))
}

/// The units that assembly writes, in their order. Whether a unit of the item is kept is asked of the original: it assembles that unit alone.
#[cfg(original)]
fn original_units((full, item): &Parts, target: Option<u16>) -> Vec<Vec<u8>> {
    let mut bare = full.clone();
    bare.arrays.clear();
    let prefix = 4 - full.length_size as usize;
    let kept = |u: &&[u8]| {
        let alone = [&(u.len() as u32).to_be_bytes()[prefix..], *u].concat();
        crate::vvcc::access_unit_annex_b(&bare, &alone, target).is_ok()
    };
    let units = crate::hvcc::split_length_prefixed(item, full.length_size).unwrap();
    let leads = |u: &&&[u8]| {
        let kind = crate::vvcc::nal_unit_type(u);
        matches!(kind, Some(crate::vvcc::NAL_AUD | crate::vvcc::NAL_OPI))
    };
    let (front, rest) = units.split_at(units.iter().take_while(leads).count());
    let front = front.iter().copied().filter(kept);
    let rest = rest.iter().copied().filter(kept);
    front
        .chain(full.nal_units())
        .chain(rest)
        .map(<[u8]>::to_vec)
        .collect()
}

/// The units, each after its start code.
fn annex_b(units: &[Vec<u8>], codes: StartCodes) -> Vec<u8> {
    let mut stream = vec![];
    for (k, u) in units.iter().enumerate() {
        let set = u.len() >= 2 && (12..=18).contains(&(u[1] >> 3));
        if codes == Four || k == 0 || set {
            stream.push(0);
        }
        stream.extend_from_slice(b"\x00\x00\x01");
        stream.extend_from_slice(u);
    }
    stream
}

/// A stream with short codes beside the original's, of the same units: its bytes, how many it has less, and the units that splitting finds.
#[cfg(original)]
fn held_to_units(short: &[u8], four: &[u8], units: &[Vec<u8>], input: &dyn std::fmt::Debug) {
    assert_eq!(annex_b(units, Four), four, "{input:02X?}");
    assert_eq!(annex_b(units, Short), short, "{input:02X?}");
    let three = |u: &&Vec<u8>| !matches!(crate::vvcc::nal_unit_type(u), Some(12..=18));
    let less = units[1..].iter().filter(three).count();
    assert_eq!(short.len() + less, four.len(), "{input:02X?}");
    let found: Vec<_> = stream_units(short).map(Result::unwrap).collect();
    assert_eq!(found, crate::hvcc::split_annex_b(four), "{input:02X?}");
}

/// Both choices of start codes beside the original, which knows four bytes alone: whether the call is accepted. A refusal is the same under both.
#[cfg(original)]
fn same_streams(
    ours: impl Fn(StartCodes) -> Result<Vec<u8>, Refusal>,
    parts: error::Result<Parts>,
    target: Option<u16>,
    added: &[u32],
    input: &dyn std::fmt::Debug,
) -> bool {
    let (four, short) = (ours(Four), ours(Short));
    assert_eq!(four.as_ref().err(), short.as_ref().err(), "{input:02X?}");
    let theirs = parts.and_then(|p| {
        let stream = crate::vvcc::access_unit_annex_b(&p.0, &p.1, target)?;
        if let Ok(short) = short {
            held_to_units(&short, &stream, &original_units(&p, target), input);
        }
        Ok(stream)
    });
    same(four, theirs, added, input)
}

#[cfg(original)]
fn original_parse(r: &[u8]) -> Option<crate::vvcc::VvcConfig> {
    crate::vvcc::VvcConfig::parse(r).ok()
}

/// What strict reading must return, by the original alone: nothing where it does not parse; 25 where `serialize` gives other bytes than those
/// that were parsed, which are the shortest front that parses; then 26 for an array of another type.
#[cfg(original)]
fn original_strict(r: &[u8]) -> Option<Result<usize, Refusal>> {
    let full = original_parse(r)?;
    let fronts: Vec<usize> = (0..=r.len()).collect();
    let parsed = fronts.partition_point(|k| original_parse(&r[..*k]).is_none());
    let kinds = |a: &crate::vvcc::VvcNalArray| matches!(a.nal_unit_type, 12..=17 | 23);
    Some(if full.serialize() != r[..parsed] {
        Err(Refusal::ReservedBit)
    } else if !full.arrays.iter().all(kinds) {
        Err(Refusal::ArrayType)
    } else {
        Ok(parsed)
    })
}

/// Strict reading beside the original: whether the record is accepted. Where the original does not parse, it is 1, 2 or 3.
#[cfg(original)]
fn strict(r: &[u8]) -> Result<usize, Refusal> {
    let ours = strict_record(r);
    match original_strict(r) {
        Some(theirs) => assert_eq!(ours, theirs, "{r:02X?}"),
        None => assert!(
            matches!(ours.map_err(Refusal::number), Err(1..=3)),
            "{ours:?} for {r:02X?}"
        ),
    }
    ours
}

/// The reserved bits of a full record, which ends with its last array: the byte and the bit of each.
#[cfg(original)]
fn reserved(r: &[u8]) -> Vec<(usize, u8)> {
    let full = original_parse(r).unwrap();
    let mut bits: Vec<(usize, u8)> = (3..8).map(|k| (0, k)).collect();
    if let Some(ptl) = &full.native_ptl {
        bits.extend((0..5).map(|k| (3, k)));
        bits.extend([(4, 6), (4, 7)]);
        if full.num_sublayers > 1 {
            let flags = 7 + ptl.general_constraint_info.len();
            bits.extend((0..9 - full.num_sublayers).map(|k| (flags, k)));
        }
    }
    let mut at = r.len();
    for a in full.arrays.iter().rev() {
        at -= a.nal_units.iter().map(|u| 2 + u.len()).sum::<usize>();
        at -= if matches!(a.nal_unit_type, 12 | 13) {
            1
        } else {
            3
        };
        bits.extend([(at, 5), (at, 6)]);
    }
    bits
}

/// Runs `rounds` comparisons and asks that both outcomes came up often.
fn compare(rounds: usize, mut one: impl FnMut(&mut Numbers) -> bool) {
    let mut n = Numbers(rounds as u64);
    let accepted = (0..rounds).filter(|_| one(&mut n)).count();
    assert!(
        accepted > rounds / 50 && accepted < rounds - rounds / 50,
        "{accepted} of {rounds} accepted"
    );
}

macro_rules! beside_original {
    ($(fn $name:ident($n:ident, $rounds:literal) $body:block)*) => {
        $(#[test]
        #[cfg_attr(not(original), ignore = "VVCC_ORIGINAL does not name the folder with the original's sources")]
        fn $name() {
            #[cfg(original)]
            compare($rounds, |$n| $body);
        })*
    };
}

beside_original! {
    fn records(n, 20000) {
        let good = n.compact();
        let c = n.damaged(&good);
        let p = Picture {
            chroma_format_idc: n.below(4) as u8,
            bit_depth: n.below(16) as u8,
            width: n.below(70000) as u32,
            height: n.below(70000) as u32,
        };
        same(still_record(&c, p), original_record(&c, p), &[3, 22], &c)
    }

    fn streams(n, 20000) {
        let good = n.compact();
        let c = n.damaged(&good);
        let k = n.below(40);
        let stored = if n.below(2) == 0 { n.item(1 + (c.first().unwrap_or(&0) >> 5 & 3) as usize) } else { n.bytes(k) };
        let target = [None, Some(0), Some(3)][n.below(3)];
        same_streams(|codes| still_stream(&c, &stored, target, codes), original_parts(&c, &stored), target, &[22], &(&c, &stored))
    }

    fn access_units(n, 20000) {
        let good = n.record();
        let r = n.damaged(&good);
        let good = n.item(1 + (r.first().unwrap_or(&0) >> 1 & 3) as usize);
        let item = n.damaged(&good);
        let target = [None, Some(0), Some(3)][n.below(3)];
        let parts = crate::vvcc::VvcConfig::parse(&r).map(|full| (full, item.clone()));
        same_streams(|codes| access_unit(&r, &item, target, codes), parts, target, &[], &(&r, &item))
    }

    fn strict_records(n, 20000) {
        let any = n.readable();
        let written = original_parse(&any).unwrap().serialize();
        let good = if n.below(8) == 0 { any } else { written };
        strict(&n.damaged(&good)).is_ok()
    }

    // every bit of a record that the original wrote, changed on its own
    fn strict_bits(n, 1000) {
        let good = original_parse(&n.readable()).unwrap().serialize();
        let reserved = reserved(&good);
        for (at, bit) in (0..good.len()).flat_map(|at| (0..8).map(move |bit| (at, bit))) {
            let mut r = good.clone();
            r[at] ^= 1 << bit;
            let ours = strict(&r);
            if reserved.contains(&(at, bit)) {
                assert_eq!(ours, Err(Refusal::ReservedBit), "byte {at} bit {bit} of {good:02X?}");
                assert_eq!(original_parse(&r).unwrap().serialize(), good, "byte {at} bit {bit}");
            }
        }
        strict(&good).is_ok()
    }

    fn items(n, 20000) {
        let size = 1 + n.below(4);
        let good = n.item(size);
        let (item, size) = (n.damaged(&good), if n.below(20) == 0 { 5 } else { size as u8 });
        let ours: Result<Vec<_>, _> = item_units(&item, size).collect();
        match (&ours, crate::hvcc::split_length_prefixed(&item, size)) {
            (Ok(a), Ok(b)) => assert_eq!(*a, b, "{item:02X?}"),
            (Err(_), Err(_)) => {}
            (_, b) => panic!("{ours:02X?} but {b:02X?} for {item:02X?}"),
        }
        ours.is_ok()
    }

    fn stream_splits(n, 20000) {
        let k = n.below(60);
        let stream: Vec<u8> = (0..k).map(|_| [0, 0, 0, 1, 1, 2, 0x80][n.below(7)]).collect();
        let ours: Vec<_> = stream_units(&stream).map(Result::unwrap).collect();
        assert_eq!(ours, crate::hvcc::split_annex_b(&stream), "{stream:02X?}");
        !ours.is_empty()
    }

    // a unit that passes the unit check is found again between two others, by the library and by the original
    fn checked_units(n, 20000) {
        let k = n.below(30);
        let unit: Vec<u8> = (0..k).map(|_| [0, 0, 1, 2, 3, 4, 0x80][n.below(7)]).collect();
        let passes = check_unit(&unit).unwrap();
        let units = [b"\x00\x81\x80".to_vec(), unit, b"\x00\x41\x9A".to_vec()];
        let stream = annex_b(&units, Four);
        let ours: Vec<_> = stream_units(&stream).map(Result::unwrap).collect();
        assert_eq!(ours, crate::hvcc::split_annex_b(&stream), "{stream:02X?}");
        assert!(!passes || ours == units, "{stream:02X?}");
        passes
    }
}
