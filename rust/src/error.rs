use crate::fault::Fault;
use crate::mend::Mend;
use alloc::string::{String, ToString};
use core::fmt;
use duration_str_core::{Cause, Expected, Help, Rules};

/// A [`Fault`] that owns its text. Calls such as [`parse_duration`](crate::parse_duration) return
/// this error.
///
/// It displays as one line, as a [`Fault`] does.
///
/// ```
/// use duration_str::parse_duration;
///
/// let error = parse_duration("1m 3-5").unwrap_err();
/// assert_eq!(error.to_string(), r#"expected a unit, '+', '*' or the end at column 5, found "-""#);
/// assert_eq!(error.report(), format!("1m 3-5\n    ^\n{error}"));
/// assert_eq!(format!("{error:?}"), format!("DurationError({error})"));
/// ```
#[derive(Clone, PartialEq, Eq, Hash)]
pub struct DurationError {
    text: String,
    cause: Cause,
    rules: Rules,
}

impl DurationError {
    pub(crate) fn new(text: &str, cause: Cause, rules: Rules) -> DurationError {
        DurationError {
            text: text.to_string(),
            cause,
            rules,
        }
    }

    /// Returns the fault, which borrows the text from this error.
    ///
    /// ```
    /// use duration_str::{Options, parse_with};
    ///
    /// let fault = parse_with("1x", Options::off()).unwrap_err();
    /// assert_eq!(fault.into_owned().as_fault(), fault);
    /// ```
    #[must_use]
    pub fn as_fault(&self) -> Fault<'_> {
        Fault::of(&self.text, self.cause, self.rules)
    }

    /// Returns the whole refused text.
    ///
    /// ```
    /// assert_eq!("1x".parse::<duration_str::HumanDuration>().unwrap_err().text(), "1x");
    /// ```
    #[must_use]
    pub fn text(&self) -> &str {
        &self.text
    }

    /// Returns why the text is refused.
    ///
    /// ```
    /// use duration_str::{Cause, HumanDuration};
    ///
    /// assert_eq!("".parse::<HumanDuration>().unwrap_err().cause(), Cause::Empty);
    /// ```
    #[must_use]
    pub const fn cause(&self) -> Cause {
        self.cause
    }

    /// Returns the place of the fault, as [`Fault::place`] does.
    ///
    /// ```
    /// assert_eq!("1x".parse::<duration_str::HumanDuration>().unwrap_err().place(), Some(1));
    /// ```
    #[must_use]
    pub const fn place(&self) -> Option<usize> {
        self.cause.place()
    }

    /// Returns what could stand at the place of a syntax fault, as [`Fault::expected`] does.
    ///
    /// ```
    /// let expected = duration_str::parse_duration("1m+").unwrap_err().expected();
    /// assert!(expected.is_some_and(|expected| expected.number && !expected.text_end));
    /// ```
    #[must_use]
    pub fn expected(&self) -> Option<Expected> {
        self.as_fault().expected()
    }

    /// Returns the token at the place of a syntax fault, as [`Fault::found`] does.
    ///
    /// ```
    /// let error = duration_str::parse_duration("5 mins").unwrap_err();
    /// assert_eq!(error.found(), Some("mins"));
    /// assert_eq!(duration_str::parse_duration("600y").unwrap_err().found(), None);
    /// ```
    #[inline]
    #[must_use]
    pub fn found(&self) -> Option<&str> {
        self.as_fault().found()
    }

    /// Returns the help for the fault, as [`Fault::help`] does.
    ///
    /// ```
    /// use duration_str::{Help, parse_duration};
    ///
    /// assert_eq!(parse_duration("-5m").unwrap_err().help(), Some(Help::Negative));
    /// ```
    #[must_use]
    pub fn help(&self) -> Option<Help> {
        self.as_fault().help()
    }

    /// Returns the first suggestion and its place, as [`Fault::mend`] does.
    ///
    /// ```
    /// let error = duration_str::parse_duration("5 mins").unwrap_err();
    /// assert_eq!(error.mend().unwrap().replaced, "mins");
    /// assert_eq!(error.mend().unwrap().suggestion.to_string(), "min");
    /// ```
    #[must_use]
    pub fn mend(&self) -> Option<Mend<'_>> {
        self.as_fault().mend()
    }

    /// Returns the mended text, which is read by the same rules, as [`Fault::mended`] does.
    ///
    /// ```
    /// let error = duration_str::parse_duration("2hrs 1.5min").unwrap_err();
    /// assert_eq!(error.mended().as_deref(), Some("2h 90s"));
    /// ```
    #[must_use]
    pub fn mended(&self) -> Option<String> {
        self.as_fault().mended()
    }

    /// Returns the reason, which is the line without its column, as [`Fault::reason`] does.
    ///
    /// ```
    /// let error = duration_str::parse_duration("5 mins").unwrap_err();
    /// let line = format!("app.conf:7:{}: {}", 12 + error.place().unwrap(), error.reason());
    /// assert_eq!(line, r#"app.conf:7:14: unknown unit "mins" (did you mean "min"?)"#);
    /// ```
    #[must_use]
    pub fn reason(&self) -> String {
        self.as_fault().reason()
    }

    /// Returns the report for a terminal, as [`Fault::report`] does.
    ///
    /// ```
    /// let error = "600y".parse::<duration_str::HumanDuration>().unwrap_err();
    /// assert_eq!(error.report(), error.to_string());
    /// ```
    #[must_use]
    pub fn report(&self) -> String {
        self.as_fault().report()
    }
}

/// Prints one line, as a [`Fault`] does.
impl fmt::Display for DurationError {
    fn fmt(&self, f: &mut fmt::Formatter<'_>) -> fmt::Result {
        self.as_fault().fmt(f)
    }
}

/// Prints `DurationError` and the same line in parentheses, since `main` and `unwrap` print this.
impl fmt::Debug for DurationError {
    fn fmt(&self, f: &mut fmt::Formatter<'_>) -> fmt::Result {
        write!(f, "DurationError({self})")
    }
}

impl core::error::Error for DurationError {}

impl From<Fault<'_>> for DurationError {
    fn from(fault: Fault<'_>) -> DurationError {
        fault.into_owned()
    }
}
