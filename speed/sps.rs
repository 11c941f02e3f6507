//! SPS reading measured together with the original: in every row each side reads the same heads, in turn, and the medians of the times for one
//! head are printed. With `--cfg before` an earlier build of the library, under the name `speed_sps_before`, is a third side.
#![allow(unexpected_cfgs)]
mod timing;

use original::vvcc::SpsHead;
use std::hint::black_box;
use timing::{clock, median};

#[repr(C)]
#[derive(Clone, Copy, Debug, PartialEq)]
struct SpsNumbers {
    refusal: u32,
    pic_width: u32,
    pic_height: u32,
    conf_win_left_offset: u32,
    conf_win_right_offset: u32,
    conf_win_top_offset: u32,
    conf_win_bottom_offset: u32,
    bit_depth: u8,
}

extern "C" {
    fn speed_sps(rbsp: *const u8, len: usize) -> SpsNumbers;
    #[cfg(before)]
    fn speed_sps_before(rbsp: *const u8, len: usize) -> SpsNumbers;
}

fn library(rbsp: &[u8]) -> SpsNumbers {
    unsafe { speed_sps(rbsp.as_ptr(), rbsp.len()) }
}

#[cfg(before)]
fn before(rbsp: &[u8]) -> SpsNumbers {
    unsafe { speed_sps_before(rbsp.as_ptr(), rbsp.len()) }
}

fn original(rbsp: &[u8]) -> SpsNumbers {
    let h = SpsHead::parse_rbsp(rbsp).unwrap();
    let (left, right, top, bottom) = h.conformance_window.unwrap();
    SpsNumbers {
        refusal: 0,
        pic_width: h.pic_width,
        pic_height: h.pic_height,
        conf_win_left_offset: left,
        conf_win_right_offset: right,
        conf_win_top_offset: top,
        conf_win_bottom_offset: bottom,
        bit_depth: h.bit_depth,
    }
}

/// What is measured: its name, the numbers that it reads in a head, and its timed work, a pass over all heads.
struct Side {
    name: &'static str,
    numbers: fn(&[u8]) -> SpsNumbers,
    pass: fn(&[Vec<u8>]),
}

/// The sides in the order of their columns.
const SIDES: &[Side] = &[
    #[cfg(before)]
    Side {
        name: "before",
        numbers: before,
        pass: |heads| pass(heads, before),
    },
    Side {
        name: "library",
        numbers: library,
        pass: |heads| pass(heads, library),
    },
    Side {
        name: "original",
        numbers: original,
        pass: |heads| pass(heads, |rbsp| SpsHead::parse_rbsp(rbsp).unwrap()),
    },
];

/// The library's place among the sides.
const LIBRARY: usize = SIDES.len() - 2;

/// The places of the sides that the library is compared with.
fn others() -> impl Iterator<Item = usize> {
    (0..SIDES.len()).filter(|i| *i != LIBRARY)
}

fn pass<T>(heads: &[Vec<u8>], read: impl Fn(&[u8]) -> T) {
    for rbsp in heads {
        black_box(read(black_box(rbsp)));
    }
}

/// How many heads a row has: few enough for a processor to learn their branches by heart, and too many for that.
const HEADS: [usize; 2] = [256, 16_384];

/// How many heads are read at least between two readings of the clock, in whole passes.
const READS: usize = 2048;

/// Nanoseconds for one head.
fn for_one(side: &Side, heads: &[Vec<u8>]) -> f64 {
    clock(READS.div_ceil(heads.len()), || (side.pass)(heads)) / heads.len() as f64
}

/// Random numbers, the same in every run.
struct Random(u64);

impl Random {
    /// A number from `low` to `high`.
    fn number(&mut self, low: u32, high: u32) -> u32 {
        self.0 = self
            .0
            .wrapping_mul(6364136223846793005)
            .wrapping_add(1442695040888963407);
        low + ((self.0 >> 32) % (high as u64 - low as u64 + 1)) as u32
    }

    fn one_of<T: Copy>(&mut self, values: &[T]) -> T {
        values[self.number(0, values.len() as u32 - 1) as usize]
    }
}

/// An RBSP, and how many bits it has so far.
struct Bits {
    rbsp: Vec<u8>,
    len: usize,
}

impl Bits {
    /// A number in `n` bits.
    fn u(&mut self, n: u32, value: u64) {
        for k in (0..n).rev() {
            if self.len % 8 == 0 {
                self.rbsp.push(0);
            }
            let bit = (value >> k & 1) as u8;
            self.rbsp[self.len / 8] |= bit << (7 - self.len % 8);
            self.len += 1;
        }
    }

    /// The Exp-Golomb code of a number: the number plus 1, behind as many zeros as it has bits after its first.
    fn ue(&mut self, value: u32) {
        let code = value as u64 + 1;
        self.u(2 * code.ilog2() + 1, code);
    }
}

/// A PTL without general constraints and sublayers, with no subprofile or one.
fn put_ptl(b: &mut Bits, random: &mut Random) {
    b.u(7, 65); // general_profile_idc
    b.u(1, 0); // general_tier_flag
    b.u(8, 83); // general_level_idc
    b.u(1, 1); // ptl_frame_only_constraint_flag
    b.u(1, 0); // ptl_multilayer_enabled_flag
    b.u(1, 0); // gci_present_flag
    b.u(5, 0); // gci_alignment_zero_bit
    let subprofiles = random.number(0, 1);
    b.u(8, subprofiles as u64); // ptl_num_sub_profiles
    for _ in 0..subprofiles {
        b.u(32, random.number(0, u32::MAX) as u64); // general_sub_profile_idc
    }
}

/// An RBSP whose head has these numbers, with chroma format 1 and a conformance window, without resampling and subpictures. 16 bytes stand for the
/// rest of the SPS.
fn rbsp_of(n: &SpsNumbers, has_ptl: bool, random: &mut Random) -> Vec<u8> {
    let mut b = Bits {
        rbsp: vec![],
        len: 0,
    };
    b.u(4, 0); // sps_seq_parameter_set_id
    b.u(4, 0); // sps_video_parameter_set_id
    b.u(3, 0); // sps_max_sublayers_minus1
    b.u(2, 1); // sps_chroma_format_idc
    b.u(2, 2); // sps_log2_ctu_size_minus5
    b.u(1, has_ptl as u64); // sps_ptl_dpb_hrd_params_present_flag
    if has_ptl {
        put_ptl(&mut b, random);
    }
    b.u(1, 0); // sps_gdr_enabled_flag
    b.u(1, 0); // sps_ref_pic_resampling_enabled_flag
    b.ue(n.pic_width);
    b.ue(n.pic_height);
    b.u(1, 1); // sps_conformance_window_flag
    b.ue(n.conf_win_left_offset);
    b.ue(n.conf_win_right_offset);
    b.ue(n.conf_win_top_offset);
    b.ue(n.conf_win_bottom_offset);
    b.u(1, 0); // sps_subpic_info_present_flag
    b.ue(n.bit_depth as u32 - 8);
    for _ in 0..4 {
        b.u(32, random.number(0, u32::MAX) as u64);
    }
    b.rbsp
}

/// The numbers of a head from its codes: width, height, the offsets left, right, top and bottom, and the bit depth minus 8.
fn numbers_of(codes: [u32; 7]) -> SpsNumbers {
    SpsNumbers {
        refusal: 0,
        pic_width: codes[0],
        pic_height: codes[1],
        conf_win_left_offset: codes[2],
        conf_win_right_offset: codes[3],
        conf_win_top_offset: codes[4],
        conf_win_bottom_offset: codes[5],
        bit_depth: codes[6] as u8 + 8,
    }
}

/// Sizes and offsets as cameras have them: long codes for the sizes, codes of one to five bits for the rest.
fn camera(random: &mut Random) -> [u32; 7] {
    let sizes = [
        (1920, 1080),
        (1280, 720),
        (640, 480),
        (3840, 2160),
        (2592, 1944),
    ];
    let (width, height) = random.one_of(&sizes);
    let bottom = random.one_of(&[0, 2, 4]);
    [width, height, 0, 0, 0, bottom, random.one_of(&[0, 2])]
}

/// Codes from `low` to `high`, the bit depth's excepted.
fn codes(random: &mut Random, low: u32, high: u32, depth: &[u32]) -> [u32; 7] {
    let mut codes = [0; 7].map(|_| random.number(low, high));
    codes[6] = random.one_of(depth);
    codes
}

/// A table's rows, as they are measured.
struct Table {
    rounds: usize,
    word: String,
    heads: usize,
}

impl Table {
    fn header(&self) {
        let mut line = format!("| {} heads in turn |", self.heads);
        for side in SIDES {
            line += &format!(" {}, ns |", side.name);
        }
        for i in others() {
            line += &format!(" library / {} |", SIDES[i].name);
        }
        println!("{line}");
        println!("|{}", "---|".repeat(2 * SIDES.len()));
    }

    /// One row: the sides read the heads one after another in every round, and take turns in being first.
    fn row(&self, name: &str, has_ptl: bool, draw: impl Fn(&mut Random) -> [u32; 7]) {
        if !name.contains(&self.word) {
            return;
        }
        let mut random = Random(256);
        let mut heads = vec![];
        for _ in 0..self.heads {
            let right = numbers_of(draw(&mut random));
            let rbsp = rbsp_of(&right, has_ptl, &mut random);
            for side in SIDES {
                assert_eq!((side.numbers)(&rbsp), right, "{name}, {}", side.name);
            }
            heads.push(rbsp);
        }
        let mut times = vec![vec![]; SIDES.len()];
        for round in 0..self.rounds {
            for k in 0..SIDES.len() {
                let i = (round + k) % SIDES.len();
                times[i].push(for_one(&SIDES[i], &heads));
            }
        }
        let ns: Vec<f64> = times.into_iter().map(median).collect();
        let mut line = format!("| {name} |");
        for t in &ns {
            line += &format!(" {t:.1} |");
        }
        for i in others() {
            line += &format!(" {:.2} |", ns[LIBRARY] / ns[i]);
        }
        println!("{line}");
    }

    /// All rows: heads as cameras write them, then codes of some lengths.
    fn rows(&self) {
        self.header();
        self.row("a camera's heads", false, camera);
        self.row("a camera's heads with PTL", true, camera);
        let any_depth = [0, 1, 2, 3, 4, 5, 6, 7, 8];
        self.row("values below 15", false, |r| codes(r, 0, 14, &any_depth));
        self.row("values below 15 with PTL", true, |r| {
            codes(r, 0, 14, &any_depth)
        });
        self.row("values from 15 to 30", false, |r| codes(r, 15, 30, &[0, 2]));
        self.row("values up to 4,096", false, |r| codes(r, 15, 4096, &[0, 2]));
        let (least, most) = (0x7FFF_FFFF, 0xFFFF_FFFE);
        self.row("codes of 63 bits", false, |r| {
            codes(r, least, most, &[0, 2])
        });
    }
}

fn main() {
    let args: Vec<String> = std::env::args().collect();
    let rounds = args
        .get(1)
        .map_or(201, |n| n.parse().expect("ROUNDS is a number"));
    let word = args.get(2).cloned().unwrap_or_default();
    for heads in HEADS {
        Table {
            rounds,
            word: word.clone(),
            heads,
        }
        .rows();
        println!();
    }
}
