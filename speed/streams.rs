//! What the measuring programs of streams share: the library's walk over the units of a stream, and a still's stream by the original.
use original::vvcc::{access_unit_annex_b, CompactVvcConfig};

#[repr(C)]
#[derive(Clone, Copy)]
pub struct Unit {
    refusal: u32,
    found: u32,
    start: usize,
    len: usize,
    next: usize,
}

extern "C" {
    fn vvcc_next_unit(stream: *const u8, len: usize, from: usize) -> Unit;
}

/// The units of a stream or an item in a `Vec`, as the original returns them; `next` is one step.
pub fn units_of<'a>(s: &'a [u8], next: impl Fn(usize) -> Unit) -> Vec<&'a [u8]> {
    let mut units = Vec::new();
    let mut at = 0;
    loop {
        let u = next(at);
        assert_eq!(u.refusal, 0);
        if u.found == 0 {
            return units;
        }
        units.push(&s[u.start..u.start + u.len]);
        at = u.next;
    }
}

pub fn stream_units(stream: &[u8]) -> Vec<&[u8]> {
    units_of(stream, |at| unsafe {
        vvcc_next_unit(stream.as_ptr(), stream.len(), at)
    })
}

/// The original's shortest way from a still to its stream.
pub fn original_stream(compact: &[u8], stored: &[u8]) -> Vec<u8> {
    let c = CompactVvcConfig::parse(compact).unwrap();
    let full = c.to_full(1, 8, 0, 0).unwrap();
    access_unit_annex_b(&full, &c.item_data(stored).unwrap(), None).unwrap()
}
