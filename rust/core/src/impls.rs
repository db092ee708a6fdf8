//! Traits and methods that the types have in addition to the proved source. They are in this crate,
//! since duration-str can't implement them for types of another crate.
use super::breakdown::Breakdown;
use super::cause::Cause;
use super::fault::Fault;
use super::format::{Format, Style};
use super::mend::Mend;
use super::options::Options;
use super::rules::{Rules, unit_table};
use super::suggestion::{SUGGESTION_BUFFER_SIZE, Suggestion};
use super::token::Tokens;
use super::unit::{TimeUnit, UNITS};
use core::cmp::Ordering;
use core::error::Error;
use core::fmt;
use core::hash::{Hash, Hasher};
use core::iter::FusedIterator;
use core::mem::discriminant;
use core::str::FromStr;

impl Options {
    /// Returns these options with `no_calc` on, so that operators are not read.
    ///
    /// ```
    /// use duration_str::{Options, parse_with};
    ///
    /// const OPTIONS: Options = Options::off().with_no_calc().with_lowercase();
    /// assert!(parse_with("1+2", OPTIONS).is_err());
    /// ```
    #[must_use]
    pub const fn with_no_calc(self) -> Options {
        Options {
            no_calc: true,
            ..self
        }
    }

    /// Returns these options with `lowercase` on, so that capitals are not read as small letters.
    ///
    /// ```
    /// assert!(duration_str::Options::off().with_lowercase().lowercase);
    /// ```
    #[must_use]
    pub const fn with_lowercase(self) -> Options {
        Options {
            lowercase: true,
            ..self
        }
    }

    /// Returns these options with `cn_unit` on, so that the Chinese names of the units are read
    /// too.
    ///
    /// ```
    /// assert!(duration_str::Options::off().with_cn_unit().cn_unit);
    /// ```
    #[must_use]
    pub const fn with_cn_unit(self) -> Options {
        Options {
            cn_unit: true,
            ..self
        }
    }
}

/// All options off.
impl Default for Options {
    fn default() -> Options {
        Options::off()
    }
}

/// The `Fault` of the crate `duration-str` keeps the rules, and can be kept in a set.
impl Hash for Rules {
    fn hash<H: Hasher>(&self, state: &mut H) {
        (
            discriminant(&unit_table(*self)),
            self.default_unit,
            self.options,
        )
            .hash(state);
    }
}

/// After a `None` no part is left.
impl FusedIterator for Breakdown {}

/// [`Format::whole`].
impl Default for Format {
    fn default() -> Format {
        Format::whole()
    }
}

/// [`Style::Short`].
impl Default for Style {
    fn default() -> Style {
        Style::Short
    }
}

/// Prints `short`, `compact` or `long`.
impl fmt::Display for Style {
    fn fmt(&self, f: &mut fmt::Formatter<'_>) -> fmt::Result {
        f.pad(match self {
            Style::Short => "short",
            Style::Compact => "compact",
            Style::Long => "long",
        })
    }
}

impl FromStr for Style {
    type Err = UnknownStyle;

    fn from_str(word: &str) -> Result<Style, UnknownStyle> {
        match word {
            "short" => Ok(Style::Short),
            "compact" => Ok(Style::Compact),
            "long" => Ok(Style::Long),
            _ => Err(UnknownStyle),
        }
    }
}

/// The error for a word that names no style.
///
/// ```
/// use duration_str::{Style, UnknownStyle};
///
/// let styles = [Style::Short, Style::Compact, Style::Long];
/// for (name, style) in ["short", "compact", "long"].into_iter().zip(styles) {
///     assert_eq!((name.parse(), format!("{style:>8}")), (Ok(style), format!("{name:>8}")));
/// }
/// assert_eq!("Long".parse::<Style>(), Err(UnknownStyle));
/// assert_eq!(UnknownStyle.to_string(), "no style: write short, compact or long");
/// ```
#[derive(Clone, Copy, Debug, PartialEq, Eq, Hash)]
pub struct UnknownStyle;

impl fmt::Display for UnknownStyle {
    fn fmt(&self, f: &mut fmt::Formatter<'_>) -> fmt::Result {
        f.pad("no style: write short, compact or long")
    }
}

impl Error for UnknownStyle {}

/// Prints what to write, such as `90min`. It is empty if a part of the text is to be removed.
///
/// ```
/// use duration_str::{Suggestion, TimeUnit};
///
/// let two_days = Suggestion { count: Some(2), unit: Some(TimeUnit::Day) };
/// assert_eq!(format!("{two_days:>4}"), "  2d");
/// ```
impl fmt::Display for Suggestion {
    fn fmt(&self, f: &mut fmt::Formatter<'_>) -> fmt::Result {
        f.pad(self.write(&mut [0; SUGGESTION_BUFFER_SIZE]))
    }
}

/// Prints the mended text.
impl fmt::Display for Mend<'_> {
    fn fmt(&self, f: &mut fmt::Formatter<'_>) -> fmt::Result {
        let mut buffer = [0; SUGGESTION_BUFFER_SIZE];
        [self.front, self.suggestion.write(&mut buffer), self.rest]
            .into_iter()
            .try_for_each(|piece| f.write_str(piece))
    }
}

impl TimeUnit {
    /// The units, the longest first.
    ///
    /// ```
    /// use duration_str::TimeUnit;
    ///
    /// let names: Vec<String> = TimeUnit::ALL.iter().map(TimeUnit::to_string).collect();
    /// assert_eq!(names.join(" "), "y q mon w d h min s ms µs ns");
    /// assert!(TimeUnit::ALL.is_sorted_by(|longer, shorter| longer > shorter));
    /// ```
    pub const ALL: &'static [TimeUnit] = &UNITS;
}

/// Units are ordered by their length: a minute is less than an hour.
impl Ord for TimeUnit {
    fn cmp(&self, other: &TimeUnit) -> Ordering {
        self.nanos().cmp(&other.nanos())
    }
}

impl PartialOrd for TimeUnit {
    fn partial_cmp(&self, other: &TimeUnit) -> Option<Ordering> {
        Some(self.cmp(other))
    }
}

/// Reads the names that units have in a text if all options are off.
impl FromStr for TimeUnit {
    type Err = UnknownUnit;

    fn from_str(word: &str) -> Result<TimeUnit, UnknownUnit> {
        TimeUnit::from_word(word, Options::off()).ok_or(UnknownUnit)
    }
}

/// The error for a word that names no unit.
///
/// ```
/// use duration_str::{TimeUnit, UnknownUnit};
///
/// assert_eq!("Hours".parse(), Ok(TimeUnit::Hour));
/// assert_eq!("分".parse::<TimeUnit>(), Err(UnknownUnit));
/// let refusal: Box<dyn std::error::Error + Send + Sync> = UnknownUnit.into();
/// assert_eq!(refusal.to_string(), "no unit: write y, q, mon, w, d, h, min, s, ms, us or ns");
/// ```
#[derive(Clone, Copy, Debug, PartialEq, Eq, Hash)]
pub struct UnknownUnit;

impl fmt::Display for UnknownUnit {
    fn fmt(&self, f: &mut fmt::Formatter<'_>) -> fmt::Result {
        f.pad("no unit: write y, q, mon, w, d, h, min, s, ms, us or ns")
    }
}

impl Error for UnknownUnit {}

impl<'a> Fault<'a> {
    /// Makes the fault of a text that is refused for a cause. Returns `None` if the cause has a
    /// place that is neither the start of a character of the text nor the text's end.
    ///
    /// ```
    /// use duration_str_core::{Cause, Fault};
    ///
    /// let at = |place| Fault::new("µs", Cause::Overflow { place: Some(place) });
    /// assert!(at(0).is_some() && at(2).is_some() && at(3).is_some());
    /// assert!(at(1).is_none() && at(4).is_none());
    /// ```
    #[must_use]
    pub fn new(text: &'a str, cause: Cause) -> Option<Fault<'a>> {
        let is_placed = cause
            .place()
            .is_none_or(|place| text.is_char_boundary(place));
        is_placed.then_some(Fault { text, cause })
    }
}

impl Error for Fault<'_> {}

/// `Tokens` are not `Clone`: a copy would look again at characters that [`Tokens::looked`] has
/// counted.
impl fmt::Debug for Tokens<'_> {
    fn fmt(&self, f: &mut fmt::Formatter<'_>) -> fmt::Result {
        f.debug_struct("Tokens")
            .field("place", &self.place())
            .field("looked", &self.looked())
            .finish_non_exhaustive()
    }
}

/// Prints the last line of a message, which [`Cause::line`] returns.
///
/// ```
/// let cause = duration_str::Cause::Overflow { place: None };
/// assert_eq!(format!("{cause:>16}"), "  overflow error");
/// ```
impl fmt::Display for Cause {
    fn fmt(&self, f: &mut fmt::Formatter<'_>) -> fmt::Result {
        f.pad(self.line())
    }
}

/// With serde, a unit and a style are written as they print, and read as `FromStr` reads them.
#[cfg(feature = "serde")]
mod named {
    use super::{Style, TimeUnit};
    use core::fmt::{self, Display};
    use core::marker::PhantomData;
    use core::str::FromStr;
    use serde::de::{Deserialize, Deserializer, Error, Visitor};
    use serde::ser::{Serialize, Serializer};

    struct Name<T>(PhantomData<T>);

    impl<T: FromStr<Err: Display>> Visitor<'_> for Name<T> {
        type Value = T;

        fn expecting(&self, f: &mut fmt::Formatter<'_>) -> fmt::Result {
            f.write_str("a name")
        }

        fn visit_str<E: Error>(self, word: &str) -> Result<T, E> {
            word.parse().map_err(E::custom)
        }
    }

    macro_rules! named {
        ($($Named:ident)+) => {$(
            impl Serialize for $Named {
                fn serialize<S: Serializer>(&self, serializer: S) -> Result<S::Ok, S::Error> {
                    serializer.collect_str(self)
                }
            }

            impl<'de> Deserialize<'de> for $Named {
                fn deserialize<D: Deserializer<'de>>(deserializer: D) -> Result<$Named, D::Error> {
                    deserializer.deserialize_str(Name(PhantomData))
                }
            }
        )+};
    }

    named!(Style TimeUnit);
}
