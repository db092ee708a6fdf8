//! A program that was written for humantime 2 and humantime-serde 1. To move it to this crate,
//! these dependencies in Cargo.toml became `duration-str`, and the import in `before.rs` became the
//! first one below.
use duration_str::{humantime, humantime_serde};
use std::error::Error;

mod service;

fn main() -> Result<(), Box<dyn Error + Send + Sync>> {
    service::main()
}

#[cfg(all(test, feature = "humantime"))]
mod beside;

#[cfg(test)]
mod tests {
    use crate::humantime::parse_duration;
    use crate::service::{Arguments, settings};
    use clap::Parser;

    fn output(arguments: &[&str], config: &str) -> Result<String, String> {
        let name = (std::process::id(), std::thread::current().id());
        let file = std::env::temp_dir().join(format!("service-{name:?}"));
        std::fs::write(&file, config).unwrap();
        let words = ["service", file.to_str().unwrap()];
        let parsed = Arguments::try_parse_from(words.iter().chain(arguments));
        let outcome = parsed
            .map_err(|error| error.to_string())
            .and_then(|arguments| settings(&arguments).map_err(|error| error.to_string()));
        std::fs::remove_file(&file).unwrap();
        outcome
    }

    #[test]
    fn reads_arguments_and_configurations() {
        assert_eq!(
            output(
                &[],
                r#"{ "timeout": "60s", "keep_alive": "90s", "idle": "1h" }"#
            )
            .unwrap(),
            r#"{"timeout":"1m","keep_alive":"1m 30s","idle":"1h"} pause 1s 500ms total 3m 3s"#
        );
        assert_eq!(
            output(
                &["--timeout", "2m", "--pause", "1m"],
                r#"{ "timeout": "60s" }"#
            )
            .unwrap(),
            r#"{"timeout":"2m","keep_alive":null} pause 1m total 8m"#
        );
    }

    #[test]
    fn tells_what_is_wrong_in_one_line() {
        let line = |text| parse_duration(text).unwrap_err();
        for (option, text) in [
            ("timeout", "3h 2 hurs"),
            ("pause", "5 mos"),
            ("timeout", "-5m"),
        ] {
            // Clap 4.0 begins this with a capital letter, and later versions don't.
            let refusal = output(&[&format!("--{option}"), text], "")
                .unwrap_err()
                .replacen("error: Invalid", "error: invalid", 1);
            let name = option.to_uppercase();
            let wanted = format!(
                "error: invalid value '{text}' for '--{option} <{name}>': {}",
                line(text)
            );
            assert_eq!(refusal.lines().next(), Some(&wanted[..]));
        }
        let refusal = output(&[], r#"{ "timeout": "1H" }"#).unwrap_err();
        let wanted = format!("invalid duration: {} at line 1 column 17", line("1H"));
        assert_eq!(refusal, wanted);
    }
}
