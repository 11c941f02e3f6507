//! Real bytes through the library: the worked still, every function's refusals, and inputs above 2^30 bytes.
use std::ffi::c_void;
use vvcc::StartCodes::{Four, Short};
use vvcc::*;

const P: &[u8] = b"\x00\x79\x00\x0D\x02\x33\x80\x00\x02\x22\x4C";
const Q: &[u8] = b"\x00\x81\x80";
const PICTURE: Picture = Picture {
    chroma_format_idc: 1,
    bit_depth: 8,
    width: 16,
    height: 8,
};

/// The compact record of P and Q with a prefix size.
fn compact(size: u8) -> Vec<u8> {
    let mut r = vec![(size - 1) << 5, P.len() as u8];
    r.extend_from_slice(P);
    r.push(Q.len() as u8);
    r.extend_from_slice(Q);
    r
}

/// The full record of P and Q.
fn full() -> Vec<u8> {
    let head = b"\xFF\x00\x15\x1F\x01\x02\x33\x80\x00\x00\x10\x00\x08\x00\x00\x02";
    [
        head,
        b"\x8F\x00\x01\x00\x0B".as_slice(),
        P,
        b"\x90\x00\x01\x00\x03",
        Q,
    ]
    .concat()
}

/// The item of the worked still, prefix size 4.
const ITEM: &[u8] = b"\x00\x00\x00\x03\x00\x41\x9A";

/// The stream of the worked still. P and Q have types 15 and 16, the picture has type 8.
fn worked_stream(codes: StartCodes) -> Vec<u8> {
    let before_picture: &[u8] = match codes {
        Four => b"\x00\x00\x00\x01",
        Short => b"\x00\x00\x01",
    };
    let code = b"\x00\x00\x00\x01".as_slice();
    [code, P, code, Q, before_picture, b"\x00\x41\x9A"].concat()
}

#[test]
fn the_worked_still() {
    assert_eq!(still_record(&compact(4), PICTURE), Ok(full()));
    assert_eq!(strict_record(&full()), Ok(full().len()));
    for codes in [Four, Short] {
        let stream = worked_stream(codes);
        for target in [None, Some(7)] {
            let ours = still_stream(&compact(4), b"\x9A", target, codes);
            assert_eq!(ours, Ok(stream.clone()));
        }
        let ours = access_unit(&full(), ITEM, None, codes);
        assert_eq!(ours, Ok(stream.clone()));
        let units: Result<Vec<_>, _> = stream_units(&stream).collect();
        assert_eq!(units, Ok(vec![P, Q, b"\x00\x41\x9A"]));
    }
    assert_eq!(StartCodes::default(), Four);
    let units: Result<Vec<_>, _> = item_units(ITEM, 4).collect();
    assert_eq!(units, Ok(vec![b"\x00\x41\x9A".as_slice()]));
}

/// A call that writes `right`, with outputs that are exactly as long, three bytes longer and one byte shorter.
fn writes(right: &[u8], call: impl Fn(&mut [u8]) -> Result<usize, Refusal>) {
    for more in [0, 3] {
        let mut out = vec![0x55; right.len() + more];
        assert_eq!(call(&mut out), Ok(right.len()));
        assert_eq!(out, [right, &[0x55; 3][..more]].concat());
    }
    let mut out = vec![0x55; right.len() - 1];
    assert_eq!(call(&mut out), Err(Refusal::BufferTooShort));
    assert!(out.iter().all(|b| *b == 0x55));
}

#[test]
fn lent_output_is_left_alone() {
    writes(&full(), |out| still_record_into(&compact(4), PICTURE, out));
    for codes in [Four, Short] {
        let stream = worked_stream(codes);
        writes(&stream, |out| {
            still_stream_into(&compact(4), b"\x9A", None, codes, out)
        });
        writes(&stream, |out| {
            let mut scratch = vec![0x66; 4 * full().len()];
            access_unit_into(&full(), ITEM, None, codes, &mut scratch, out)
        });
        assert_eq!(
            access_unit_into(&full(), ITEM, None, codes, &mut [], &mut [0; 99]),
            Err(Refusal::BufferTooShort)
        );
    }
}

/// The header's type decides, and not the array's: units of types 16, 8 and 15 in arrays of types 16, 15 and 23.
#[test]
fn short_codes_go_by_the_header() {
    let record =
        b"\xF8\x03\x90\x00\x01\x00\x02\x00\x81\x8F\x00\x01\x00\x02\x00\x41\x97\x00\x01\x00\x02\x00\x79";
    let stream = b"\x00\x00\x00\x01\x00\x81\x00\x00\x01\x00\x41\x00\x00\x00\x01\x00\x79";
    assert_eq!(access_unit(record, b"", None, Short), Ok(stream.to_vec()));
    // after a first unit of type 0, a unit of each type
    let (mut item, mut stream) = (
        b"\x02\x00\x01".to_vec(),
        b"\x00\x00\x00\x01\x00\x01".to_vec(),
    );
    for kind in 0..32 {
        let unit = [0x00, kind << 3 | 1];
        item.extend([&[2], unit.as_slice()].concat());
        let zeros = if (12..=18).contains(&kind) { 3 } else { 2 };
        stream.extend([&[0, 0, 0][..zeros], &[1], &unit].concat());
    }
    assert_eq!(access_unit(b"\xF8\x00", &item, None, Short), Ok(stream));
}

/// The first unit is the first that is kept: an OPI unit with operating point 1, then a picture.
#[test]
fn short_codes_after_a_unit_left_out() {
    let item = b"\x03\x00\x61\x94\x03\x00\x41\x9A";
    let picture = b"\x00\x00\x00\x01\x00\x41\x9A";
    let both = b"\x00\x00\x00\x01\x00\x61\x94\x00\x00\x01\x00\x41\x9A";
    let ours = |target| access_unit(b"\xF8\x00", item, target, Short);
    assert_eq!(ours(Some(0)), Ok(picture.to_vec()));
    assert_eq!(ours(Some(1)), Ok(both.to_vec()));
    assert_eq!(ours(None), Ok(both.to_vec()));
}

/// The unit list of P and Q: its version, then for each array its length, complete, its type and the unit after its length.
#[test]
fn strict_reading_of_the_worked_record() {
    let list = [
        b"\x01\x00\x00\x00\x11\x01\x0F\x00\x00\x00\x0B".as_slice(),
        P,
        b"\x00\x00\x00\x09\x01\x10\x00\x00\x00\x03",
        Q,
    ]
    .concat();
    let mut scratch = vec![0x66; list.len() + 3];
    assert_eq!(strict_record_into(&full(), &mut scratch), Ok(40));
    assert_eq!(scratch, [list.as_slice(), &[0x66; 3]].concat());
    let mut scratch = vec![0x66; list.len()];
    assert_eq!(strict_record_into(&full(), &mut scratch), Ok(40));
    assert_eq!(scratch, list);
    let mut scratch = vec![0x66; list.len() - 1];
    assert_eq!(
        strict_record_into(&full(), &mut scratch),
        Err(Refusal::BufferTooShort)
    );
    assert!(scratch.iter().all(|b| *b == 0x66));
    // bytes after the last array are not consumed
    assert_eq!(strict_record(&[full(), vec![0xFF; 9]].concat()), Ok(40));
}

/// Each change of one byte of the worked record, with its refusal. On a refusal the scratch is left alone.
#[test]
fn strict_refusals() {
    let changed: [(usize, u8, u32); 19] = [
        (0, 0xFD, 3),
        (4, 0x00, 2),
        (0, 0x7F, 25),
        (0, 0xBF, 25),
        (0, 0xDF, 25),
        (0, 0xEF, 25),
        (0, 0xF7, 25),
        (3, 0x0F, 25),
        (3, 0x17, 25),
        (3, 0x1B, 25),
        (3, 0x1D, 25),
        (3, 0x1E, 25),
        (4, 0x41, 25),
        (4, 0x81, 25),
        (16, 0xAF, 25),
        (16, 0xCF, 25),
        (32, 0xD0, 25),
        (16, 0x8B, 26),
        (32, 0x98, 26),
    ];
    let mut scratch = vec![0x66; 160];
    for (at, byte, n) in changed {
        let mut record = full();
        record[at] = byte;
        assert_eq!(
            strict_record_into(&record, &mut scratch).map_err(Refusal::number),
            Err(n),
            "byte {at} is {byte:02X}"
        );
    }
    for n in 0..40 {
        let e = strict_record_into(&full()[..n], &mut scratch);
        assert_eq!(e, Err(Refusal::Truncated));
    }
    assert!(scratch.iter().all(|b| *b == 0x66));
    // two sublayers: a byte with one level flag and seven reserved bits, then a level if the flag is set
    let mut record = full();
    record[2] = 0x25;
    record.splice(8..8, [0x80, 0x33]);
    assert_eq!(strict_record(&record), Ok(42));
    for bit in 0..7 {
        record[8] = 0x80 | 1 << bit;
        assert_eq!(strict_record(&record), Err(Refusal::ReservedBit));
    }
    // 1 comes before 25, and 25 before 26
    record[8] = 0x81;
    assert_eq!(strict_record(&record[..41]), Err(Refusal::Truncated));
    assert_eq!(
        strict_record(b"\xF0\x01\x8B\x00\x00"),
        Err(Refusal::ReservedBit)
    );
    assert_eq!(
        strict_record(b"\xF8\x01\x8B\x00\x00"),
        Err(Refusal::ArrayType)
    );
}

/// A record of OPI arrays takes the most scratch for its length: ten bytes of a list for three.
#[test]
fn scratch_of_four_times_the_record_suffices() {
    let mut record = vec![0xF8, 255];
    record.extend(b"\x8C\x00\x00".repeat(255));
    let mut scratch = vec![0; scratch_len(&record)];
    let mut out = vec![0; 4 * record.len()];
    for (codes, len) in [(Four, 4 * 255), (Short, 4 + 3 * 254)] {
        let mut ours = |s: &mut [u8]| access_unit_into(&record, b"", None, codes, s, &mut out);
        assert_eq!(ours(&mut scratch), Ok(len));
        assert_eq!(ours(&mut scratch[..1 + 10 * 255]), Ok(len));
        assert_eq!(ours(&mut scratch[..10 * 255]), Err(Refusal::BufferTooShort));
    }
    assert_eq!(
        strict_record_into(&record, &mut scratch[..1 + 10 * 255]),
        Ok(record.len())
    );
    assert_eq!(
        strict_record_into(&record, &mut scratch[..10 * 255]),
        Err(Refusal::BufferTooShort)
    );
}

/// An item of units of one byte with prefixes of one byte has the longest stream for its length. Such units have no type.
#[test]
fn the_longest_streams() {
    let item = b"\x01\x09".repeat(1000);
    let four = b"\x00\x00\x00\x01\x09".repeat(1000);
    let short = [&[0], b"\x00\x00\x01\x09".repeat(1000).as_slice()].concat();
    assert_eq!(access_unit(b"\xF8\x00", &item, None, Four), Ok(four));
    assert_eq!(access_unit(b"\xF8\x00", &item, None, Short), Ok(short));
    let mut compact = compact(1);
    compact[0] |= 0x80;
    // a VPS in front
    compact.splice(1..1, *b"\x09\x00\x71\x00\x00\x00\x02\x33\x80\x00");
    compact[0] += 1;
    for codes in [Four, Short] {
        let stream = still_stream(&compact, &item, None, codes).unwrap();
        assert_eq!(stream_units(&stream).count(), 1003);
    }
}

/// Refused calls that write a record, each with the number of its refusal.
fn refused_records() -> Vec<(u32, Result<Vec<u8>, Refusal>)> {
    let c = compact(4);
    let record = |c: &[u8]| still_record(c, PICTURE);
    let sps = |p: &[u8]| [&[0x60, p.len() as u8], p, &[3], Q].concat();
    let changed = |end: &[u8]| sps(&[&P[..10], end].concat());
    let wide = Picture {
        chroma_format_idc: 4,
        ..PICTURE
    };
    vec![
        (11, record(&sps(&P[..6]))),
        (12, record(&changed(b"\x40\x00\x00\x00\x00"))),
        (13, record(&changed(b"\x5C"))),
        (14, record(&changed(b"\x41\x50"))),
        (15, record(b"\xE0\x05\x00\x71\x00\x40\x00\x03\x00\x81\x80")),
        (16, record(&[&[c[0] | 0x80], &c[1..]].concat())),
        (17, record(b"\x60\x03\x00\x81\x80\x03\x00\x81\x80")),
        (18, record(&sps(b"\x00\x79\x00\x0C\x02\x22\x4C"))),
        (22, still_record(&c, wide)),
    ]
}

/// Refused calls that write a stream.
fn refused_streams(codes: StartCodes) -> Vec<(u32, Result<Vec<u8>, Refusal>)> {
    let c = compact(4);
    let still = |c: &[u8], stored: &[u8]| still_stream(c, stored, None, codes);
    let unit = |record: &[u8], item: &[u8]| access_unit(record, item, None, codes);
    vec![
        (1, still(&c[..c.len() - 1], b"\x9A")),
        (7, still(&[&c, b"\x00".as_slice()].concat(), b"\x9A")),
        (3, still(&compact(3), b"\x9A")),
        (6, still(&compact(1), &[0x9A; 254])),
        (1, unit(&full()[..20], b"")),
        (3, unit(b"\xFC\x00", b"")),
        (2, unit(b"\xFF\x00\x15\x1F\x00", b"")),
        (5, unit(&full(), b"\x00\x00\x00\x00")),
        (19, unit(b"\xFE\x00", b"")),
    ]
}

#[test]
fn refusals_have_their_numbers() {
    let refused = [
        refused_records(),
        refused_streams(Four),
        refused_streams(Short),
    ];
    for (n, r) in refused.concat() {
        assert_eq!(r.map_err(Refusal::number), Err(n));
    }
    assert_eq!(
        item_units(b"\x00", 5).collect::<Vec<_>>(),
        [Err(Refusal::PrefixSize)]
    );
    assert_eq!(
        item_units(b"\x01\x09\x00", 1).collect::<Vec<_>>(),
        [Ok(b"\x09".as_slice()), Err(Refusal::ZeroLengthUnit)]
    );
    assert_eq!(
        item_units(b"\x01\x09\x02\x00", 1).collect::<Vec<_>>(),
        [Ok(b"\x09".as_slice()), Err(Refusal::Truncated)]
    );
    assert_eq!(
        Refusal::InputTooLong.to_string(),
        "an input has more than 2^30 bytes (refusal 23)"
    );
}

extern "C" {
    fn mmap(
        addr: *mut c_void,
        len: usize,
        prot: i32,
        flags: i32,
        fd: i32,
        offset: i64,
    ) -> *mut c_void;
}

/// 2^30 + 1 zeros, mapped and not held in memory.
fn too_long() -> &'static [u8] {
    let len = LONGEST_INPUT + 1;
    // PROT_READ; MAP_PRIVATE, MAP_ANONYMOUS, MAP_NORESERVE
    let p = unsafe { mmap(std::ptr::null_mut(), len, 1, 0x2 | 0x20 | 0x4000, -1, 0) };
    assert_ne!(p as isize, -1, "mmap");
    unsafe { std::slice::from_raw_parts(p as *const u8, len) }
}

#[test]
fn inputs_above_2_to_the_30() {
    let long = too_long();
    let e = Err(Refusal::InputTooLong);
    assert_eq!(still_record(long, PICTURE), e);
    for codes in [Four, Short] {
        assert_eq!(still_stream(long, b"", None, codes), e);
        assert_eq!(still_stream(b"", long, None, codes), e);
        assert_eq!(access_unit(long, b"", None, codes), e);
        assert_eq!(access_unit(b"", long, None, codes), e);
    }
    assert_eq!(strict_record(long), Err(Refusal::InputTooLong));
    assert_eq!(
        stream_units(long).collect::<Vec<_>>(),
        [Err(Refusal::InputTooLong)]
    );
    assert_eq!(
        item_units(long, 0).collect::<Vec<_>>(),
        [Err(Refusal::InputTooLong)]
    );
    assert_eq!(check_unit(long), Err(Refusal::InputTooLong));
    // one byte less is taken
    assert_eq!(
        strict_record_into(&long[1..], &mut [0; 8]),
        Err(Refusal::ReservedBit)
    );
    assert_eq!(stream_units(&long[1..]).next(), None);
    assert_eq!(
        item_units(&long[1..], 4).next(),
        Some(Err(Refusal::ZeroLengthUnit))
    );
    assert_eq!(check_unit(&long[1..]), Ok(false));
}
