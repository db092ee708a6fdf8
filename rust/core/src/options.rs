// Made by tools/erase of crates/duration_str_base/src/options.rt.
//! The options for reading.

/// Options for reading: which grammar is read, and which words name units.
///
/// End a literal with `..Options::off()`, as here, so that it still compiles when a later version
/// has another option.
///
/// ```
/// use duration_str::{Options, parse_with};
///
/// let chinese = Options { cn_unit: true, ..Options::off() };
/// assert_eq!(parse_with("1分 31秒", chinese).unwrap().as_secs(), 91);
/// ```
#[derive(Clone, Copy, Debug, PartialEq, Eq, Hash)]
pub struct Options {
    /// `+` and `*` are not read, and the terms are added one by one.
    pub no_calc: bool,
    /// ASCII capitals are not read as small letters, so `1M` is not a minute.
    pub lowercase: bool,
    /// The Chinese names of the units are read too.
    pub cn_unit: bool,
}

impl Options {
    /// Returns options that are all off.
    ///
    /// ```
    /// assert!(!duration_str::Options::off().no_calc);
    /// ```
    #[must_use]
    pub const fn off() -> Options {
        Options {
            no_calc: false,
            lowercase: false,
            cn_unit: false,
        }
    }

    /// Returns whether all options are off.
    ///
    /// ```
    /// assert!(duration_str::Options::off().are_off());
    /// ```
    #[must_use]
    #[inline]
    pub const fn are_off(self) -> bool {
        !(self.no_calc || self.lowercase || self.cn_unit)
    }
}
