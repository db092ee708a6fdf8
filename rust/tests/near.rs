//! Texts that are almost right, for tests of what is read only as a whole.

const OTHERS: &str = "05emsxE+-*.,_; \t\n\0\u{a0}٣０−µμſ\u{212a}分";

/// The text with a character more, less or exchanged, at each place, and the text itself.
pub fn near(text: &str) -> Vec<String> {
    let places = text.char_indices().map(|(at, c)| (at, at + c.len_utf8()));
    let mut found = Vec::new();
    for (from, to) in places.chain([(text.len(), text.len())]) {
        let (before, here) = (&text[..from], &text[from..to]);
        let cases = [String::new(), here.to_uppercase(), here.to_lowercase()];
        for other in cases.into_iter().chain(OTHERS.chars().map(String::from)) {
            found.push([before, &other, &text[from..]].concat());
            found.push([before, &other, &text[to..]].concat());
        }
    }
    found
}
