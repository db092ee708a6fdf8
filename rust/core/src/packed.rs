// Made by tools/erase of crates/duration_str_base/src/packed.rt.
//! A word's letters packed into one number, and the unit that such a number names. The letters are
//! its digits, to the base 40:
//!
//! ```text
//! letter   a .. z   µ   年  月  周  日  天  时  分  秒  毫  微  纳   M
//! digit    1 .. 26  27  28  29  30  31  32  33  34  35  36  37  38   39
//!
//!  h    r                m    i    n
//! +----+----+           +----+----+----+
//! |  8 | 18 |  = 338    | 13 |  9 | 14 |  = 21,174
//! +----+----+           +----+----+----+
//!   40    1              1600   40    1
//! ```
//!
//! Without the option `lowercase`, a capital has the same digit as its small letter. With it, `M`
//! is the only capital with a digit that is in a name.
//!
//! To find the unit, the number is multiplied by a constant, so that each name has a slot of its
//! own. A `match` of the number would take more time, from mispredicted branches.
//!
//! ```text
//!  packed * SPREAD
//! +--------+---------------------------------+
//! |  slot  |                                 |
//! +--------+---------------------------------+
//!  63    57 56                              0
//!
//! SLOTS[slot] is the index in NAMES of the only name that the word can be.
//! ```

use crate::options::Options;
use crate::unit::TimeUnit;
use crate::unit::TimeUnit::{
    Day, Hour, MicroSecond as Micro, MilliSecond as Milli, Minute, Month, NanoSecond as Nano,
    Quarter, Second, Week, Year,
};

impl TimeUnit {
    /// Returns the unit that a word names under these options, if any. No word names two units.
    ///
    /// ```
    /// use duration_str::{Options, TimeUnit};
    ///
    /// assert_eq!(TimeUnit::from_word("Minutes", Options::off()), Some(TimeUnit::Minute));
    /// ```
    #[must_use]
    pub fn from_word(word: &str, o: Options) -> Option<TimeUnit> {
        unit_of_packed(packed_word(word, o, false)?.0)
    }
}

/// Returns the packed number of a word that can be a name, and whether it has a Greek letter mu.
/// All characters are unit letters, and it has no more bytes than the longest name. If `folds` is
/// true, the micro sign stands in place of each Greek letter mu.
#[inline(always)]
pub(crate) fn packed_word(word: &str, o: Options, folds: bool) -> Option<(u64, bool)> {
    if word.len() > MOST_BYTES {
        return None;
    }
    let mut packed = 0;
    let mut greek = false;
    let mut chars = word.chars();
    while let Some(c) = chars.next() {
        greek |= c == 'μ';
        packed = with_letter(packed, letter_number(micro_if(folds, c), o)?);
    }
    Some((packed, greek))
}

#[inline(always)]
fn micro_if(folds: bool, c: char) -> char {
    if folds && c == 'μ' { 'µ' } else { c }
}

/// The most bytes that a name has. The packed number of 12 letters fits into a `u64`.
pub(crate) const MOST_BYTES: usize = 12;

/// The numbers that digits write, and the packed numbers of letters, are computed modulo this.
pub(crate) const MODULUS: u128 = 1 << 64;

#[inline(always)]
pub(crate) fn with_letter(packed: u64, number: u64) -> u64 {
    ((packed as u128 * 40 + number as u128) % MODULUS) as u64
}

#[inline]
pub(crate) fn is_unit_letter(c: char, o: Options) -> bool {
    letter_number(c, o).is_some()
}

#[inline(always)]
pub(crate) fn letter_number(c: char, o: Options) -> Option<u64> {
    if c.is_ascii_alphabetic() {
        return Some(ascii_number(c, o));
    }
    if c.is_ascii() {
        return None;
    }
    match wide_number(c, o.cn_unit) {
        0 => None,
        number => Some(number),
    }
}

#[inline(always)]
pub(crate) fn first_number(c: char, o: Options) -> u64 {
    if c.is_ascii() {
        return ascii_number(c, o);
    }
    wide_number(c, o.cn_unit)
}

/// Returns the digit for an ASCII letter. Under `lowercase`, `M` has a digit of its own, since it
/// is a name of humantime, and the other capitals have a digit that no letter of a name has.
#[inline(always)]
fn ascii_number(c: char, o: Options) -> u64 {
    if o.lowercase && c < 'a' {
        return if c == 'M' { CAPITAL_M } else { CAPITAL };
    }
    u64::from(c as u32 % 32)
}

#[inline]
fn wide_number(c: char, cn_unit: bool) -> u64 {
    if c == 'µ' {
        return 27;
    }
    if !cn_unit {
        return 0;
    }
    match c {
        '年' => 28,
        '月' => 29,
        '周' => 30,
        '日' => 31,
        '天' => 32,
        '时' => 33,
        '分' => 34,
        '秒' => 35,
        '毫' => 36,
        '微' => 37,
        '纳' => 38,
        _ => 0,
    }
}

/// The digit for a capital under `lowercase`, except `M`. It is the digit of `z`, which is in no
/// name.
const CAPITAL: u64 = 26;

pub(crate) const CAPITAL_M: u64 = 39;

#[inline]
pub(crate) fn unit_of_packed(packed: u64) -> Option<TimeUnit> {
    // The product is computed in 128 bits, which the compiler turns into a multiplication of 64
    // bits, since only its lower half is used.
    let slot = ((packed as u128 * SPREAD as u128) % MODULUS) as u64 >> 57;
    let name = SLOTS[slot as usize] as usize;
    if NAMES[name] == packed {
        Some(NAMED_UNITS[name])
    } else {
        None
    }
}

/// A multiplier that gives each packed name a slot of its own: bits 57 to 63 of the product.
/// `tools/slots` finds it, and writes the tables below.
const SPREAD: u64 = 439_394_506_952_439_165;

/// The index of the name in each slot, and 0 in an empty one.
static SLOTS: [u8; 128] = [
    0, 0, 32, 37, 0, 53, 21, 0, 12, 7, 46, 48, 15, 0, 0, 0, 0, 39, 0, 5, 0, 0, 40, 33, 20, 0, 17,
    0, 0, 13, 0, 0, 0, 41, 0, 0, 0, 0, 0, 25, 0, 0, 50, 1, 0, 26, 0, 0, 0, 0, 0, 4, 0, 0, 0, 27, 0,
    30, 0, 43, 0, 6, 0, 0, 0, 0, 0, 44, 0, 0, 11, 0, 0, 0, 0, 0, 0, 0, 0, 0, 38, 0, 0, 9, 0, 3, 23,
    0, 10, 47, 0, 14, 0, 8, 18, 0, 22, 19, 45, 0, 24, 49, 0, 29, 0, 0, 34, 35, 0, 0, 0, 52, 36, 0,
    0, 0, 28, 0, 2, 51, 0, 31, 0, 0, 0, 0, 42, 16,
];

static NAMES: [u64; 54] = [
    25, // y
    1_608_058, // year
    64_322_339, // years
    28, // 年
    17, // q
    71_786_144_218, // quarter
    2_871_445_768_739, // quarters
    21_414, // mon
    34_263_208, // month
    1_370_528_339, // months
    29, // 月
    23, // w
    1_480_211, // week
    59_208_459, // weeks
    30, // 周
    4, // d
    6_465, // day
    258_619, // days
    31, // 日
    32, // 天
    8, // h
    338, // hr
    536_858, // hour
    21_474_339, // hours
    33, // 时
    13, // m
    21_174, // min
    1_355_170_405, // minute
    54_206_816_219, // minutes
    34, // 分
    19, // s
    30_603, // sec
    1_958_616_564, // second
    78_344_662_579, // seconds
    35, // 秒
    539, // ms
    862_603, // msec
    138_754_824_102_616_564, // millisecond
    5_550_192_964_104_662_579, // milliseconds
    1_475, // 毫秒
    1_099, // µs
    1_758_603, // µsec
    112_550_616_564, // µsecond
    859, // us
    1_374_603, // usec
    87_974_616_564, // usecond
    138_696_849_318_616_564, // microsecond
    5_547_873_972_744_662_579, // microseconds
    1_515, // 微秒
    579, // ns
    926_603, // nsec
    3_678_926_758_616_564, // nanosecond
    147_157_070_344_662_579, // nanoseconds
    1_555, // 纳秒
];

/// The unit of each name, in the order of `NAMES`.
static NAMED_UNITS: [TimeUnit; 54] = [
    Year, Year, Year, Year, Quarter, Quarter, Quarter, Month, Month, Month, Month, Week, Week,
    Week, Week, Day, Day, Day, Day, Day, Hour, Hour, Hour, Hour, Hour, Minute, Minute, Minute,
    Minute, Minute, Second, Second, Second, Second, Second, Milli, Milli, Milli, Milli, Milli,
    Micro, Micro, Micro, Micro, Micro, Micro, Micro, Micro, Micro, Nano, Nano, Nano, Nano, Nano,
];
