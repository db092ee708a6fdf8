//! The macro `duration!`, which `duration-str` exports under the feature `macros`.
#![forbid(unsafe_code)]

use duration_str_core::{ONE_LINE_BUFFER_SIZE, Options, Rules, TimeUnit, parse_by};
use proc_macro::{Delimiter, Span, TokenStream, TokenTree};

/// Reads a duration when the program is compiled, and gives a constant of type
/// [`Duration`](core::time::Duration). If the text is refused, the compiler reports the fault in
/// one line.
///
/// The text is a literal without escapes. All options are off, whatever features are on, unless you
/// name them after the text. They are `no_calc`, `lowercase`, `cn_unit`, and `require_unit`, with
/// which each number must have its unit. More names of units, such as in `5 mins`, are not read,
/// since the error says which name to write.
///
/// ```
/// use duration_str::duration;
/// use std::time::Duration;
///
/// const TIMEOUT: Duration = duration!("1h 30m");
/// assert_eq!(TIMEOUT, Duration::from_secs(5_400));
/// assert_eq!(duration!("1分", cn_unit), Duration::from_secs(60));
/// ```
///
/// ```compile_fail
/// const TIMEOUT: std::time::Duration = duration_str::duration!("1m 3-5");
/// ```
///
/// ```compile_fail
/// const TIMEOUT: std::time::Duration = duration_str::duration!("1H", lowercase);
/// ```
///
/// ```compile_fail
/// const TIMEOUT: std::time::Duration = duration_str::duration!("90", require_unit);
/// ```
#[proc_macro]
pub fn duration(input: TokenStream) -> TokenStream {
    value(input).unwrap_or_else(|(message, span)| compile_error(&message, span))
}

type Refusal = (String, Span);

fn value(input: TokenStream) -> Result<TokenStream, Refusal> {
    let mut tokens = input.into_iter();
    let (written, span) = literal(tokens.next())?;
    let text = text(&written).ok_or_else(|| {
        (
            "expected a string literal without escapes".to_string(),
            span,
        )
    })?;
    let (options, require_unit) = options(tokens)?;
    let default_unit = (!require_unit).then_some(TimeUnit::Second);
    let rules = Rules::of(options).default_unit(default_unit);
    let mut buffer = [0; ONE_LINE_BUFFER_SIZE];
    let value = parse_by(text, rules)
        .map_err(|fault| (fault.write_one_line(rules, &mut buffer).to_string(), span))?;
    let (secs, nanos) = (value.as_secs(), value.subsec_nanos());
    Ok(code(&format!(
        "::core::time::Duration::new({secs}, {nanos})"
    )))
}

/// A literal that another macro passes on can stand in a group of its own.
fn literal(token: Option<TokenTree>) -> Result<(String, Span), Refusal> {
    match token {
        Some(TokenTree::Literal(literal)) => Ok((literal.to_string(), literal.span())),
        Some(TokenTree::Group(group)) if group.delimiter() == Delimiter::None => {
            let mut inside = group.stream().into_iter();
            let first = literal(inside.next())?;
            match inside.next() {
                None => Ok(first),
                Some(more) => Err(("expected a string literal".to_string(), more.span())),
            }
        }
        other => {
            let span = other.map_or_else(Span::call_site, |token| token.span());
            Err(("expected a string literal".to_string(), span))
        }
    }
}

fn text(written: &str) -> Option<&str> {
    let (quoted, is_raw) = match written.strip_prefix('r') {
        Some(raw) => (raw.trim_matches('#'), true),
        None => (written, false),
    };
    let text = quoted.strip_prefix('"')?.strip_suffix('"')?;
    (is_raw || !text.contains('\\')).then_some(text)
}

fn options(mut tokens: impl Iterator<Item = TokenTree>) -> Result<(Options, bool), Refusal> {
    let (mut options, mut require_unit) = (Options::off(), false);
    while let Some(comma) = tokens.next() {
        if comma.to_string() != "," {
            return Err(("expected a comma".to_string(), comma.span()));
        }
        let Some(name) = tokens.next() else {
            break;
        };
        match name.to_string().as_str() {
            "no_calc" => options = options.with_no_calc(),
            "lowercase" => options = options.with_lowercase(),
            "cn_unit" => options = options.with_cn_unit(),
            "require_unit" => require_unit = true,
            _ => {
                let message = "expected `no_calc`, `lowercase`, `cn_unit` or `require_unit`";
                return Err((message.to_string(), name.span()));
            }
        }
    }
    Ok((options, require_unit))
}

fn compile_error(message: &str, span: Span) -> TokenStream {
    let at_span = |mut token: TokenTree| {
        token.set_span(span);
        token
    };
    let error = code(&format!("::core::compile_error! {{ {message:?} }}"));
    error.into_iter().map(at_span).collect()
}

fn code(code: &str) -> TokenStream {
    code.parse().expect("what is made here is code")
}
