//! What the measuring programs share: units, and the compact record of a still.

/// Numbers, the same in every run. A unit of them looks like picture data: no start code, and no zero at its end.
pub struct Bytes(pub u64);

impl Bytes {
    /// The next number, any byte.
    pub fn byte(&mut self) -> u8 {
        self.0 = self
            .0
            .wrapping_mul(6364136223846793005)
            .wrapping_add(1442695040888963407);
        (self.0 >> 56) as u8
    }

    pub fn unit(&mut self, header: [u8; 2], len: usize) -> Vec<u8> {
        let mut u = Vec::with_capacity(len);
        u.extend_from_slice(&header);
        while u.len() < len {
            let b = self.byte();
            let n = u.len();
            let zeros = u[n - 1] == 0 && u[n - 2] == 0;
            u.push(if (zeros && b < 4) || (n + 1 == len && b == 0) {
                0x80
            } else {
                b
            });
        }
        u
    }
}

/// The compact record of a still as the cameras write it: an SPS of 11 bytes and a PPS of 3.
pub const COMPACT: &[u8] = b"\x60\x0B\x00\x79\x00\x0D\x02\x33\x80\x00\x02\x22\x4C\x03\x00\x81\x80";

/// A compact record of an SPS and `units` - 1 units of 64 bytes, whose types come from `kinds` in turn.
pub fn compact_of(units: usize, kinds: &[u8]) -> Vec<u8> {
    let mut compact = COMPACT[..13].to_vec();
    compact[0] |= units as u8 - 2;
    let mut bytes = Bytes(units as u64);
    for kind in kinds.iter().cycle().take(units - 1) {
        compact.push(64);
        compact.extend(bytes.unit([0x00, kind << 3 | 1], 64));
    }
    compact
}
