//! The regular expressions of the texts that the grammar allows.
use crate::lists::{SENTENCES, UNIT_PATTERNS};
use duration_str::Options;

pub fn pattern(options: Options, require_unit: bool, more_names: bool) -> String {
    let words = usize::from(options.lowercase) + 2 * usize::from(options.cn_unit);
    let unit = UNIT_PATTERNS[words + 4 * usize::from(more_names)];
    let sentence = SENTENCES[usize::from(options.no_calc) + 2 * usize::from(require_unit)];
    sentence.replace('U', unit)
}
