//! The settings of a service, from its command line and a configuration file.
use crate::humantime::{self, format_duration, parse_duration};
use crate::humantime_serde;
use clap::Parser;
use serde::{Deserialize, Serialize};
use std::error::Error;
use std::path::PathBuf;
use std::time::Duration;

/// Prints its settings
#[derive(Parser)]
pub struct Arguments {
    /// How long a request may take, instead of what the configuration says
    #[arg(long, allow_hyphen_values = true, value_parser = parse_duration)]
    pub timeout: Option<Duration>,
    /// The time between two attempts
    #[arg(long, default_value = "1s 500ms")]
    pause: humantime::Duration,
    /// The configuration, a file of JSON
    config: PathBuf,
}

#[derive(Deserialize, Serialize)]
struct Config {
    #[serde(with = "humantime_serde")]
    timeout: Duration,
    #[serde(default, with = "humantime_serde::option")]
    keep_alive: Option<Duration>,
    #[serde(
        default,
        with = "humantime_serde::option",
        skip_serializing_if = "Option::is_none"
    )]
    idle: Option<Duration>,
}

pub fn settings(arguments: &Arguments) -> Result<String, Box<dyn Error + Send + Sync>> {
    let mut config: Config = serde_json::from_str(&std::fs::read_to_string(&arguments.config)?)?;
    config.timeout = arguments.timeout.unwrap_or(config.timeout);
    let attempts = config.timeout * 3 + *arguments.pause * 2;
    let limit = match std::env::var("SERVICE_LIMIT") {
        Ok(text) => parse_duration(&text)?,
        Err(_) => attempts,
    };
    Ok(format!(
        "{} pause {} total {}",
        serde_json::to_string(&config)?,
        arguments.pause,
        format_duration(attempts.min(limit))
    ))
}

pub fn main() -> Result<(), Box<dyn Error + Send + Sync>> {
    println!("{}", settings(&Arguments::parse())?);
    Ok(())
}

#[cfg(test)]
#[path = "../../../tests/all/humantime_items.rs"]
mod humantime_items;

#[cfg(test)]
mod tests {
    use super::{Arguments, Parser};

    /// Timeouts and their seconds. 0 stands for a text that is refused.
    const TIMEOUTS: [(&str, u64); 10] = [
        ("1h 30m", 5_400),
        ("2weeks 3days", 1_468_800),
        ("1M", 2_630_016),
        ("1month", 2_630_016),
        ("1y", 31_557_600),
        ("5mins", 300),
        ("90secs", 90),
        ("2hrs", 7_200),
        ("90", 0),
        ("2h 90", 0),
    ];

    #[test]
    fn reads_timeouts() {
        for (text, seconds) in TIMEOUTS {
            let read = Arguments::try_parse_from(["service", "--timeout", text, "config"]);
            let timeout = read.map_or(0, |arguments| arguments.timeout.unwrap().as_secs());
            assert_eq!(timeout, seconds, "{text}");
        }
    }
}
