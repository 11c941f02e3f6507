//! The units of a stream and of an item, one after another, and the check of one unit.
use crate::calls::{vvcc_check_unit, vvcc_next_item_unit, vvcc_next_unit, Unit};
use crate::Refusal;
use std::iter::FusedIterator;

/// The units of an Annex B stream: those between start codes, trailing zeros cut, empty ones left out.
#[derive(Clone, Debug)]
pub struct StreamUnits<'a> {
    stream: &'a [u8],
    from: Option<usize>,
}

/// The units of an item of length-prefixed units. The iterator ends after the first refusal.
#[derive(Clone, Debug)]
pub struct ItemUnits<'a> {
    item: &'a [u8],
    length_size: u8,
    from: Option<usize>,
}

/// The units of a stream. The only refusal is [`Refusal::InputTooLong`].
pub fn stream_units(stream: &[u8]) -> StreamUnits<'_> {
    StreamUnits {
        stream,
        from: Some(0),
    }
}

/// The units of an item with prefixes of `length_size` bytes. Refusals: 23, 4, then in byte order 1 and 5.
pub fn item_units(item: &[u8], length_size: u8) -> ItemUnits<'_> {
    ItemUnits {
        item,
        length_size,
        from: Some(0),
    }
}

/// Turns the answer of one step into the next item: the unit, nothing at the end, or the refusal, after which the iterator ends.
fn step<'a>(s: &'a [u8], from: &mut Option<usize>, u: Unit) -> Option<Result<&'a [u8], Refusal>> {
    *from = None;
    if u.refusal != 0 {
        return Some(Err(Refusal::of_number(u.refusal)));
    }
    if u.found == 0 {
        return None;
    }
    *from = Some(u.next);
    Some(Ok(&s[u.start..][..u.len]))
}

impl<'a> Iterator for StreamUnits<'a> {
    type Item = Result<&'a [u8], Refusal>;

    fn next(&mut self) -> Option<Self::Item> {
        // SAFETY: the pointer and the length are those of a slice.
        let u = unsafe { vvcc_next_unit(self.stream.as_ptr(), self.stream.len(), self.from?) };
        step(self.stream, &mut self.from, u)
    }
}

impl<'a> Iterator for ItemUnits<'a> {
    type Item = Result<&'a [u8], Refusal>;

    fn next(&mut self) -> Option<Self::Item> {
        // SAFETY: the pointer and the length are those of a slice.
        let u = unsafe {
            vvcc_next_item_unit(
                self.item.as_ptr(),
                self.item.len(),
                self.length_size,
                self.from?,
            )
        };
        step(self.item, &mut self.from, u)
    }
}

impl FusedIterator for StreamUnits<'_> {}
impl FusedIterator for ItemUnits<'_> {}

/// The unit check: whether the bytes of a unit are as H.266 7.4.2 (NAL unit semantics) asks of every unit. It is not empty, does not end in 00, has
/// none of 00 00 00, 00 00 01 and 00 00 02 in it, and no 00 00 03 before a byte above 03. 00 00 03 at the very end is allowed. What the header of
/// the unit says is not looked at, and nothing is decoded. The only refusal is [`Refusal::InputTooLong`].
///
/// A unit that passes is split off a stream as it is. No other function checks its units: a service calls this for each unit, those of
/// [`stream_units`] or of [`item_units`], before it hands a stream to a decoder. In a stream 00 00 01 begins another unit, and zeros at the end of
/// a unit are cut off: a unit with either is noticed only if it is checked before it is in a stream.
///
/// ```
/// // a picture, and one with 00 00 02 in it
/// assert_eq!(vvcc::check_unit(b"\x00\x41\x9A\x80"), Ok(true));
/// assert_eq!(vvcc::check_unit(b"\x00\x41\x9A\x00\x00\x02\x33"), Ok(false));
/// ```
pub fn check_unit(unit: &[u8]) -> Result<bool, Refusal> {
    // SAFETY: the pointer and the length are those of a slice.
    let c = unsafe { vvcc_check_unit(unit.as_ptr(), unit.len()) };
    match c.refusal {
        0 => Ok(c.passes != 0),
        n => Err(Refusal::of_number(n)),
    }
}
