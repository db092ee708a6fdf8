use crate::derror::DError;
use crate::error::DurationError;
use alloc::string::{String, ToString};
use core::fmt;
use duration_str_core::{self as proved, Cause, Expected, Help, ONE_LINE_BUFFER_SIZE, Rules};

/// Why a text is refused, and often where.
///
/// It displays as one line, for terminals and logs. The line says what is wrong. For a syntax fault
/// it also says at which column, counted in characters from 1. It quotes at most 40 characters of
/// the text, and escapes those that are not safe within one line. For most syntax faults
/// [`Fault::report`] also shows the text and a caret.
///
/// ```
/// use duration_str::{Cause, Options, parse_with};
///
/// let fault = parse_with("1m 3-5", Options::off()).unwrap_err();
/// assert_eq!(fault.place(), Some(4));
/// assert_eq!(fault.found(), Some("-"));
/// assert!(matches!(fault.cause(), Cause::Syntax { expected, .. } if expected.unit_word));
/// assert_eq!(fault.to_string(), r#"expected a unit, '+', '*' or the end at column 5, found "-""#);
/// assert_eq!(format!("{fault:?}"), format!("Fault({fault})"));
/// ```
///
/// A fault borrows the text. [`Fault::into_owned`] returns an error that outlives the text.
#[derive(Clone, Copy, PartialEq, Eq, Hash)]
pub struct Fault<'a> {
    fault: proved::Fault<'a>,
    /// The rules with which the text was read.
    rules: Rules,
}

impl<'a> Fault<'a> {
    #[inline]
    pub(crate) fn new(fault: proved::Fault<'a>, rules: Rules) -> Fault<'a> {
        Fault { fault, rules }
    }

    /// If the cause has a place, it must be a character boundary in the text.
    pub(crate) fn of(text: &'a str, cause: Cause, rules: Rules) -> Fault<'a> {
        let fault = proved::Fault::new(text, cause).expect("the place is one of this text");
        Fault::new(fault, rules)
    }

    pub(crate) const fn proved(&self) -> proved::Fault<'a> {
        self.fault
    }

    pub(crate) const fn rules(&self) -> Rules {
        self.rules
    }

    /// Returns the whole refused text.
    ///
    /// ```
    /// use duration_str::{Options, parse_with};
    ///
    /// assert_eq!(parse_with("1x", Options::off()).unwrap_err().text(), "1x");
    /// ```
    #[must_use]
    pub const fn text(&self) -> &'a str {
        self.fault.text()
    }

    /// Returns why the text is refused.
    ///
    /// ```
    /// use duration_str::{Cause, Options, parse_with};
    ///
    /// assert_eq!(parse_with("", Options::off()).unwrap_err().cause(), Cause::Empty);
    /// ```
    #[must_use]
    pub const fn cause(&self) -> Cause {
        self.fault.cause()
    }

    /// Returns the place of the fault as a byte offset in the text, or `None` if it has no place.
    ///
    /// ```
    /// use duration_str::{Options, parse_with};
    ///
    /// assert_eq!(parse_with("1m 3-5", Options::off()).unwrap_err().place(), Some(4));
    /// ```
    #[must_use]
    pub const fn place(&self) -> Option<usize> {
        self.cause().place()
    }

    /// Returns what could stand at the place of a syntax fault, or `None` for any other fault.
    ///
    /// ```
    /// use duration_str::{Options, parse_with};
    ///
    /// let expected = parse_with("1m+", Options::off()).unwrap_err().expected();
    /// assert!(expected.is_some_and(|expected| expected.number && !expected.text_end));
    /// ```
    #[must_use]
    pub const fn expected(&self) -> Option<Expected> {
        match self.cause() {
            Cause::Syntax { expected, .. } => Some(expected),
            _ => None,
        }
    }

    /// Returns the token at the place of a syntax fault. It is `None` at the end of the text, and
    /// for any other fault.
    ///
    /// ```
    /// use duration_str::{Options, parse_with};
    ///
    /// assert_eq!(parse_with("1m 3-5", Options::off()).unwrap_err().found(), Some("-"));
    /// ```
    #[inline]
    #[must_use]
    pub fn found(&self) -> Option<&'a str> {
        self.fault.found(self.rules.options)
    }

    /// Returns the help for the fault: what a user may have meant, or should write instead. It is
    /// `None` if no help applies. The line ends with the help in words.
    ///
    /// If it is certain what to write instead, [`mend`](Self::mend) says it.
    ///
    /// ```
    /// use duration_str::{Help, Options, TimeUnit, parse_with};
    ///
    /// let help = |text| parse_with(text, Options::off()).unwrap_err().help();
    /// assert_eq!(help("5 mins"), Some(Help::DidYouMean(TimeUnit::Minute)));
    /// assert_eq!(help("1.5h"), Some(Help::Fraction));
    /// ```
    #[must_use]
    pub fn help(&self) -> Option<Help> {
        self.fault.help()
    }

    /// Writes the line to the start of a buffer, and returns it. The call allocates nothing.
    ///
    /// ```
    /// use duration_str::{ONE_LINE_BUFFER_SIZE, Options, parse_with};
    ///
    /// let mut buffer = [0; ONE_LINE_BUFFER_SIZE];
    /// let fault = parse_with("", Options::off()).unwrap_err();
    /// assert_eq!(fault.write_one_line(&mut buffer), "empty text");
    /// ```
    #[must_use]
    pub fn write_one_line<'b>(&self, buffer: &'b mut [u8; ONE_LINE_BUFFER_SIZE]) -> &'b str {
        self.fault.write_one_line(self.rules, buffer)
    }

    /// Returns the reason: the line without ` at column 3` or the like. It is for programs that say
    /// the place themselves. If the fault is no syntax fault, the line has no column, and the
    /// reason is the same.
    ///
    /// ```
    /// use duration_str::{Options, parse_with};
    ///
    /// let fault = parse_with("5 mins", Options::off()).unwrap_err();
    /// assert_eq!(fault.reason(), r#"unknown unit "mins" (did you mean "min"?)"#);
    /// assert_eq!(parse_with("", Options::off()).unwrap_err().reason(), "empty text");
    /// ```
    #[must_use]
    pub fn reason(&self) -> String {
        self.write_reason(&mut [0; ONE_LINE_BUFFER_SIZE])
            .to_string()
    }

    /// Writes the [reason](Self::reason) to the start of a buffer, and returns it. The call
    /// allocates nothing.
    ///
    /// ```
    /// use duration_str::{ONE_LINE_BUFFER_SIZE, Options, parse_with};
    ///
    /// let mut buffer = [0; ONE_LINE_BUFFER_SIZE];
    /// let fault = parse_with("1m+", Options::off()).unwrap_err();
    /// assert_eq!(fault.write_reason(&mut buffer), "expected a number, found the end");
    /// ```
    #[must_use]
    pub fn write_reason<'b>(&self, buffer: &'b mut [u8; ONE_LINE_BUFFER_SIZE]) -> &'b str {
        self.fault.write_reason(self.rules, buffer)
    }

    /// Returns the report for a terminal: the text, below it a caret at the place of a syntax
    /// fault, and below that the line.
    ///
    /// If the fault is no syntax fault, the report is the line alone. `docs/GRAMMAR.md` in the
    /// repository says for which texts it is so for a syntax fault too.
    ///
    /// ```
    /// use duration_str::{Options, parse_with};
    ///
    /// let fault = parse_with("1m 3-5", Options::off()).unwrap_err();
    /// assert_eq!(fault.report(), format!("1m 3-5\n    ^\n{fault}"));
    /// ```
    #[must_use]
    pub fn report(&self) -> String {
        self.fault
            .write_report(self.rules, &mut [0; duration_str_core::REPORT_BUFFER_SIZE])
            .to_string()
    }

    /// The message that the calls of `duration-str` 0.19.0 return.
    #[cold]
    #[inline(never)]
    pub(crate) fn message(&self) -> String {
        self.fault.to_string()
    }

    /// Returns the error of `duration-str` 0.19.0 for this fault.
    ///
    /// ```
    /// use duration_str::{DError, Options, parse_with};
    ///
    /// let fault = parse_with("600y", Options::off()).unwrap_err();
    /// assert_eq!(fault.to_derror(), DError::OverflowError);
    /// ```
    #[must_use]
    pub fn to_derror(&self) -> DError {
        match self.cause() {
            Cause::Overflow { .. } => DError::OverflowError,
            _ => DError::ParseError(self.cause().line().to_string()),
        }
    }

    /// Returns the same fault as an error that owns its text.
    ///
    /// ```
    /// use duration_str::{DurationError, Fault, Options, parse_with};
    /// use std::time::Duration;
    ///
    /// fn read(text: String) -> Result<Duration, DurationError> {
    ///     parse_with(&text, Options::off()).map_err(Fault::into_owned)
    /// }
    ///
    /// assert_eq!(read("1m 3-5".to_string()).unwrap_err().text(), "1m 3-5");
    /// ```
    #[cold]
    #[inline(never)]
    #[must_use]
    pub fn into_owned(self) -> DurationError {
        DurationError::new(self.text(), self.cause(), self.rules)
    }
}

/// Prints the line. Width, fill and precision apply as they do for a `str`.
impl fmt::Display for Fault<'_> {
    fn fmt(&self, f: &mut fmt::Formatter<'_>) -> fmt::Result {
        f.pad(self.write_one_line(&mut [0; ONE_LINE_BUFFER_SIZE]))
    }
}

/// Prints `Fault` and the same line in parentheses, since `unwrap` prints this.
impl fmt::Debug for Fault<'_> {
    fn fmt(&self, f: &mut fmt::Formatter<'_>) -> fmt::Result {
        write!(f, "Fault({self})")
    }
}

impl core::error::Error for Fault<'_> {}
