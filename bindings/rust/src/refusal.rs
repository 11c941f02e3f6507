//! Why a call is refused.
use std::error::Error;
use std::fmt;

macro_rules! refusals {
    ($($name:ident = $number:literal, $ground:literal;)*) => {
        /// Why a call is refused. The numbers are those of docs/SCOPE.md and include/vvcc.h.
        #[derive(Clone, Copy, Debug, PartialEq, Eq, Hash, PartialOrd, Ord)]
        #[repr(u32)]
        pub enum Refusal {
            $(#[doc = $ground] $name = $number,)*
        }

        impl Refusal {
            /// All refusals, by number.
            pub const ALL: &'static [Refusal] = &[$(Refusal::$name),*];

            /// The ground, in words.
            pub fn ground(self) -> &'static str {
                match self {
                    $(Refusal::$name => $ground,)*
                }
            }
        }
    };
}

refusals! {
    Truncated = 1, "a field runs past the end";
    ConstraintLengthZero = 2, "the constraint length of a full record is 0";
    PrefixSizeThree = 3, "the prefix size of a full record is 3";
    PrefixSize = 4, "the prefix size is not 1 to 4";
    ZeroLengthUnit = 5, "a unit of the item has length 0";
    UnitTooLongForPrefix = 6, "a unit is too long for its length prefix";
    BytesLeftOver = 7, "bytes are left over after the compact record";
    CompactUnitCount = 8, "a compact record must have 2 to 33 units";
    CompactUnitTooLong = 9, "a unit of a compact record has more than 255 bytes";
    WrongUnitType = 10, "a unit has another type than the one to be read";
    BitsRunOut = 11, "the bits of a parameter set run out";
    CodeTooLong = 12, "an Exp-Golomb code has 32 zeros";
    Subpictures = 13, "the SPS has subpictures";
    BitDepth = 14, "the bit depth of the SPS minus 8 is above 8";
    SeveralLayers = 15, "the VPS has several layers";
    NoVps = 16, "the multi-layer flag is set and there is no VPS";
    NoSps = 17, "there is no SPS";
    NoPtl = 18, "the SPS has no PTL and there is no VPS";
    NothingToWrite = 19, "there is nothing to write";
    BufferTooShort = 20, "the result is longer than the buffer";
    UnitList = 21, "the unit list is malformed";
    FieldTooWide = 22, "a field is wider than its place";
    InputTooLong = 23, "an input has more than 2^30 bytes";
    NotOneStill = 24, "the item is not one plain still";
    ReservedBit = 25, "a reserved bit of a full record is not the standard's";
    ArrayType = 26, "an array of a full record has a type outside 12 to 17 and 23";
    ConfigurationVersion = 27, "the first byte of an HEVC record is not 1";
    DirectoryTooShort = 28, "a directory is shorter than the number of units";
    TooLongToNarrow = 29, "a length of the unit list is above 65,535 as narrowed";
}

impl Refusal {
    /// The number of the refusal.
    pub fn number(self) -> u32 {
        self as u32
    }

    /// The refusal with a number that the library returned: 1 to 29.
    pub(crate) fn of_number(n: u32) -> Refusal {
        Refusal::ALL[n as usize - 1]
    }
}

impl fmt::Display for Refusal {
    fn fmt(&self, f: &mut fmt::Formatter<'_>) -> fmt::Result {
        write!(f, "{} (refusal {})", self.ground(), self.number())
    }
}

impl Error for Refusal {}
