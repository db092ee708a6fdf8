use crate::fault::Fault;
use alloc::string::{String, ToString};
use duration_str_core::{self as proved, Rules, Suggestion};

/// The first suggestion for a refused text, and its place. The refused text is `front`, `replaced`
/// and `rest`, one after the other.
///
/// With the suggestion in place of `replaced`, the text can have a further fault, but no syntax
/// fault before the end of the suggestion. [`Fault::mended`] returns a text that is read.
///
/// ```
/// use duration_str::{Options, parse_with};
///
/// let mend = parse_with("2h 1.5min 5s", Options::off()).unwrap_err().mend().unwrap();
/// assert_eq!((mend.front, mend.replaced, mend.rest), ("2h ", "1.5min", " 5s"));
/// assert_eq!(mend.suggestion.to_string(), "90s");
/// ```
#[derive(Clone, Copy, Debug, PartialEq, Eq, Hash)]
#[non_exhaustive]
pub struct Mend<'a> {
    /// The text before the part that is replaced.
    pub front: &'a str,
    /// The part that is replaced. It is empty if the suggestion is to be inserted.
    pub replaced: &'a str,
    /// What to write instead. It is empty if the part is to be removed.
    pub suggestion: Suggestion,
    /// The text after the part that is replaced.
    pub rest: &'a str,
}

/// A text that needs more suggestions than this has no mended text. For each of them, the whole
/// text is read. So without this limit, a long text could take very long.
const MOST_SUGGESTIONS: usize = 32;

impl<'a> Fault<'a> {
    /// Returns the first suggestion and its place. It returns `None` if it isn't certain what to
    /// write there. `docs/GRAMMAR.md` in the repository says which texts have a suggestion.
    ///
    /// ```
    /// use duration_str::{Options, parse_with};
    ///
    /// let mend = parse_with("+5m", Options::off()).unwrap_err().mend().unwrap();
    /// assert_eq!((mend.replaced, mend.rest), ("+", "5m"));
    /// assert_eq!(mend.suggestion.to_string(), "");
    /// ```
    #[must_use]
    pub fn mend(&self) -> Option<Mend<'a>> {
        let proved::Mend {
            front,
            replaced,
            suggestion,
            rest,
            ..
        } = self.proved().mend(self.rules())?;
        Some(Mend {
            front,
            replaced,
            suggestion,
            rest,
        })
    }

    /// Returns the mended text, which is read by the same rules: the text with the
    /// [suggestion](Fault::mend) for each of its faults.
    ///
    /// It returns `None` if it isn't certain for each fault what to write, or if the text needs
    /// more than 32 suggestions.
    ///
    /// ```
    /// use duration_str::{Options, parse_with};
    ///
    /// let mended = |text| parse_with(text, Options::off()).unwrap_err().mended();
    /// assert_eq!(mended("2hrs 1.5min").as_deref(), Some("2h 90s"));
    /// assert_eq!(mended("+5m").as_deref(), Some("5m"));
    /// assert_eq!(mended("1:30"), None);
    /// assert_eq!(mended("1.5h, 5s"), None);
    /// ```
    #[must_use]
    pub fn mended(&self) -> Option<String> {
        let mut text = with_suggestion(self.proved(), self.rules())?;
        for _ in 0..MOST_SUGGESTIONS {
            // One copy of the reader is compiled into this call. `parse_nanos` has several, which
            // are faster, and would make a program larger.
            let Err(fault) = proved::parse_nanos_specialized(&text, self.rules()) else {
                return Some(text);
            };
            text = with_suggestion(fault, self.rules())?;
        }
        None
    }
}

fn with_suggestion(fault: proved::Fault<'_>, rules: Rules) -> Option<String> {
    fault.mend(rules).map(|mend| mend.to_string())
}
