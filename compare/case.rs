//! A case: one public call on given input. `crates/replay/README.md` describes its form.

/// One call. `numbers` holds the numeric parameters, `first` and `second` the lent inputs. `again` is no part of the call: the bytes that it must
/// write, where they are known without the original.
#[derive(Clone, Debug, Default)]
pub struct Case {
    pub op: u8,
    pub fill: u8,
    pub room: usize,
    pub numbers: Vec<u8>,
    pub first: Vec<u8>,
    pub second: Vec<u8>,
    pub again: Option<Vec<u8>>,
}

/// How many bytes come before a case's numbers.
const FRONT: usize = 18;

/// The names of the calls by their numbers, from 1 on.
pub const NAMES: [&str; 60] = [
    "number",
    "VvcConfig::bit_depth",
    "u8_at",
    "u16_at",
    "u32_at",
    "nal_unit_type",
    "nal_layer_id",
    "nal_temporal_id_plus1",
    "check_unit",
    "nal_header",
    "unit_kind",
    "is_vcl",
    "is_record_nal_type",
    "nal_count",
    "nal_unit",
    "nal_count_of_type",
    "nal_unit_of_type",
    "extract_rbsp",
    "SpsHead::parse_nal",
    "vps_first_ptl",
    "opi_ols_idx",
    "cropped_size",
    "split_length_prefixed_count",
    "split_length_prefixed",
    "split_annex_b_count",
    "split_annex_b",
    "next_unit",
    "parse (compact)",
    "serialize (compact)",
    "item_data",
    "strip_item_data",
    "parse (full)",
    "serialize (full)",
    "sample_format",
    "to_full",
    "access_unit_annex_b",
    "access_unit_count",
    "access_unit_nal",
    "next_item_unit",
    "nal_unit_at",
    "nal_unit_of_type_at",
    "split_length_prefixed_at",
    "split_annex_b_at",
    "access_unit_nal_at",
    "SpsHead::parse_rbsp",
    "VvcConfig::sps",
    "VvcConfig::sps_at",
    "VvcPtlRecord::num_sublayers",
    "VvcPtlRecord::num_bytes_constraint_info",
    "parse_strict",
    "parse (HEVC)",
    "serialize (HEVC)",
    "record_len",
    "access_unit_annex_b (short)",
    "fill (directory)",
    "nal_count_of_type (directory)",
    "nal_unit_at (directory)",
    "nal_unit (directory)",
    "narrow",
    "widen",
];

/// The digits of bytes, in lower case.
pub fn hex_onto(out: &mut String, bytes: &[u8]) {
    const DIGITS: &[u8; 16] = b"0123456789abcdef";
    for b in bytes {
        out.push(DIGITS[(b >> 4) as usize] as char);
        out.push(DIGITS[(b & 15) as usize] as char);
    }
}

impl Case {
    pub fn new(op: u8, numbers: Vec<u8>, first: Vec<u8>) -> Case {
        Case {
            op,
            numbers,
            first,
            ..Case::default()
        }
    }

    /// How many bytes the case has.
    pub fn size(&self) -> usize {
        FRONT + self.numbers.len() + self.first.len() + self.second.len()
    }

    /// What comes before the inputs: the call, the fill byte, the four lengths and the numbers.
    pub fn front(&self) -> Vec<u8> {
        let mut bytes = vec![self.op, self.fill];
        for n in [
            self.room,
            self.numbers.len(),
            self.first.len(),
            self.second.len(),
        ] {
            bytes.extend_from_slice(&(n as u32).to_be_bytes());
        }
        bytes.extend_from_slice(&self.numbers);
        bytes
    }

    /// The case as a line.
    pub fn line(&self) -> String {
        let mut bytes = self.front();
        bytes.extend_from_slice(&self.first);
        bytes.extend_from_slice(&self.second);
        let mut out = format!("{:08x} ", bytes.len());
        hex_onto(&mut out, &bytes);
        out.push('\n');
        out
    }

    /// The case of a line; none if its lengths do not add up.
    pub fn of_line(line: &str) -> Option<Case> {
        let digits = line.get(9..)?.trim_end();
        let bytes: Vec<u8> = (0..digits.len() / 2)
            .map(|i| u8::from_str_radix(&digits[2 * i..2 * i + 2], 16).unwrap_or(0))
            .collect();
        let four = |at: usize| {
            Some(
                bytes
                    .get(at..at + 4)?
                    .iter()
                    .fold(0, |n, b| n * 256 + *b as usize),
            )
        };
        let (room, n, m, k) = (four(2)?, four(6)?, four(10)?, four(14)?);
        let strings = &bytes[FRONT..];
        (strings.len() == n + m + k).then(|| Case {
            op: bytes[0],
            fill: bytes[1],
            room,
            numbers: strings[..n].to_vec(),
            first: strings[n..n + m].to_vec(),
            second: strings[n + m..].to_vec(),
            again: None,
        })
    }

    /// A byte of the numbers, 0 past the end.
    pub fn byte(&self, at: usize) -> u8 {
        self.numbers.get(at).copied().unwrap_or(0)
    }

    /// A number of `width` bytes among the numbers.
    pub fn number(&self, at: usize, width: usize) -> u64 {
        (0..width).fold(0, |n, i| n * 256 + u64::from(self.byte(at + i)))
    }
}
