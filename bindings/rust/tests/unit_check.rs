//! The unit check: real bytes, every short string over six bytes beside the rule as H.266 states it, and streams with the units that pass.
use vvcc::{access_unit, check_unit, still_stream, stream_units, StartCodes};

/// The bytes of the strings that are gone through: those that the rule speaks of, one above 03, and one that is far above it.
const BYTES: [u8; 6] = [0x00, 0x01, 0x02, 0x03, 0x04, 0xFF];

/// Every string over `BYTES` of up to `longest` bytes.
fn strings(longest: u32) -> impl Iterator<Item = Vec<u8>> {
    (0..=longest).flat_map(|len| {
        let nth = move |mut n: usize| {
            let mut string = vec![];
            for _ in 0..len {
                string.push(BYTES[n % 6]);
                n /= 6;
            }
            string
        };
        (0..6usize.pow(len)).map(nth)
    })
}

/// Whether the unit may be put into a stream and found there again as it is: it is not empty, has no 00 00 01 in it and does not end in 00.
fn splittable(u: &[u8]) -> bool {
    u.last().is_some_and(|b| *b != 0) && !u.windows(3).any(|w| w == [0, 0, 1])
}

/// The rule of H.266 7.4.2 for the bytes of a unit.
fn passes(u: &[u8]) -> bool {
    splittable(u)
        && !u.windows(3).any(|w| w == [0, 0, 0] || w == [0, 0, 2])
        && !u.windows(4).any(|w| w[..3] == [0, 0, 3] && w[3] > 3)
}

/// A unit between two others, each after 00 00 00 01.
fn between_others(u: &[u8]) -> Vec<u8> {
    let code = b"\x00\x00\x00\x01".as_slice();
    [code, b"\x00\x81\x80", code, u, code, b"\x00\x41\x9A"].concat()
}

#[test]
fn units_of_stills_pass() {
    let record = include_bytes!("../../../crates/still_main/data/record");
    let stored = include_bytes!("../../../crates/still_main/data/stored");
    for codes in [StartCodes::Four, StartCodes::Short] {
        let stream = still_stream(record, stored, None, codes).unwrap();
        let units: Vec<_> = stream_units(&stream).map(Result::unwrap).collect();
        assert_eq!(units.len(), 7);
        assert!(units.iter().all(|u| check_unit(u) == Ok(true)));
    }
}

/// A unit as a camera wrote it, with 00 00 02 in it.
const CAMERA: &[u8] = b"\x00\x41\x9A\x00\x00\x02\x33";

/// The check is a call of its own: a unit that does not pass is assembled, and split off again.
#[test]
fn no_other_call_checks() {
    let item = [&[CAMERA.len() as u8], CAMERA].concat();
    let stream = access_unit(b"\xF8\x00", &item, None, StartCodes::Four).unwrap();
    assert_eq!(stream_units(&stream).collect::<Vec<_>>(), [Ok(CAMERA)]);
    assert_eq!(check_unit(CAMERA), Ok(false));
}

#[test]
fn real_units() {
    let units: [(&[u8], bool); 19] = [
        // the SPS, the PPS and the picture of the examples
        (b"\x00\x79\x00\x0D\x02\x33\x80\x00\x02\x22\x4C", true),
        (b"\x00\x81\x80", true),
        (b"\x00\x41\x9A\x80", true),
        // short ones, and one that ends in 00
        (b"", false),
        (b"\x00", false),
        (b"\x00\x41", true),
        (b"\x00\x41\x9A\x00", false),
        // 00 00 02 and the other two
        (CAMERA, false),
        (b"\x00\x41\x9A\x00\x00\x00\x33", false),
        (b"\x00\x41\x9A\x00\x00\x01\x33", false),
        (b"\x00\x41\x9A\x00\x00\x02", false),
        (b"\x00\x00\x02", false),
        // 00 00 03 before 02, 03, 04 and FF, and at the end
        (b"\x00\x41\x9A\x00\x00\x03\x02\x33", true),
        (b"\x00\x41\x9A\x00\x00\x03\x03", true),
        (b"\x00\x41\x9A\x00\x00\x03\x04", false),
        (b"\x00\x41\x9A\x00\x00\x03\xFF\x33", false),
        (b"\x00\x41\x9A\x00\x00\x03", true),
        // 00 00 03 twice, and 00 00 before a byte above 03
        (b"\x00\x41\x9A\x00\x00\x03\x00\x00\x03", true),
        (b"\x00\x41\x9A\x00\x00\x04\x33", true),
    ];
    for (unit, right) in units {
        assert_eq!(check_unit(unit), Ok(right), "{unit:02X?}");
    }
}

#[test]
fn every_short_string() {
    let mut pass = 0;
    for u in strings(6) {
        let right = passes(&u);
        assert_eq!(check_unit(&u), Ok(right), "{u:02X?}");
        pass += right as usize;
        // the same after one to three other bytes: a search that goes on three places at once comes to each place
        for ahead in 1..4 {
            let longer = [&b"\x41\x9A\x80"[..ahead], &u].concat();
            assert_eq!(check_unit(&longer), Ok(passes(&longer)), "{longer:02X?}");
        }
    }
    assert!(pass > 10_000, "{pass} pass");
}

/// A unit is found again in a stream exactly if it is splittable, and every unit that passes is.
#[test]
fn units_in_streams() {
    for u in strings(6) {
        let stream = between_others(&u);
        let found: Vec<_> = stream_units(&stream).map(Result::unwrap).collect();
        let whole = found == [b"\x00\x81\x80", u.as_slice(), b"\x00\x41\x9A"];
        assert_eq!(whole, splittable(&u), "{u:02X?}");
        assert!(whole || check_unit(&u) == Ok(false), "{u:02X?}");
    }
}
