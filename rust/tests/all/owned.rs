use crate::{choices, options_of};
use duration_str::{Cause, DError, DurationError, Options, Rules, TimeUnit, parse_with};
use duration_str_core::{self as proved, Tokens};
use std::collections::HashSet;

#[test]
fn owns_what_the_fault_tells() {
    let texts = [
        "",
        "1m 3-5",
        "1m+",
        "1分s",
        "600y",
        "1s 600y",
        "99999999999999999999y",
        "1s+2*3",
        "1m\n2x",
    ];
    for names in choices() {
        for text in texts {
            let fault = parse_with(text, options_of(&names)).expect_err(text);
            let owned = DurationError::from(fault);
            assert_eq!(owned.as_fault(), fault);
            assert_eq!((owned.text(), owned.cause()), (text, fault.cause()));
            assert_eq!(owned.place(), fault.place());
            assert_eq!(format!("{owned:#}"), fault.to_string());
            let bare = proved::Fault::new(text, fault.cause()).unwrap();
            let rules = Rules::of(options_of(&names));
            assert_eq!(owned.to_string(), bare.write_one_line(rules, &mut [0; 384]));
            assert_eq!(DError::from(owned), fault.to_derror());
            assert_eq!(fault.cause().to_string(), fault.cause().line());
        }
    }
}

#[test]
fn shows_tokens_to_programmers() {
    let mut tokens = Tokens::new("3m", Options::off());
    assert_eq!(tokens.next().unwrap().text, "3");
    assert_eq!(format!("{tokens:?}"), "Tokens { place: 1, looked: 2, .. }");
}

#[test]
fn finds_no_token_inside_a_token() {
    let at_1 = parse_with("1x", Options::off()).unwrap_err().cause();
    let inside = proved::Fault::new("12", at_1).unwrap();
    assert_eq!(inside.found(Options::off()), None);
}

#[test]
fn keeps_faults_in_sets() {
    let causes = [
        "",
        "1x",
        "1",
        "+",
        "600y",
        "1s 600y",
        "1s+2*3",
        "1s*2+3",
        "99999999999999999999",
    ]
    .map(|text| parse_with(text, Options::off()).map_err(|fault| fault.cause()));
    let different: HashSet<Cause> = causes.into_iter().filter_map(Result::err).collect();
    assert_eq!(different.len(), 8);
    let faults = ["1x", "1x", "2x"].map(|text| parse_with(text, Options::off()).unwrap_err());
    assert_eq!(HashSet::from(faults).len(), 2);
    let owned: HashSet<DurationError> = faults.map(DurationError::from).into();
    assert_eq!(owned.len(), 2);
    let errors: HashSet<DError> = faults.map(DError::from).into();
    assert_eq!(errors.len(), 1);
    let bare = faults.map(|fault| proved::parse(fault.text()).unwrap_err());
    assert_eq!(HashSet::from(bare).len(), 2);
}

const _: () = assert!(TimeUnit::Minute.nanos() == 60_000_000_000 && Cause::Empty.place().is_none());
