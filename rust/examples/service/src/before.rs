//! The program before it moved to this crate. Its tests must pass with humantime too.
use ::humantime;
use std::error::Error;

mod service;

fn main() -> Result<(), Box<dyn Error + Send + Sync>> {
    service::main()
}

/// Stands in for the crate humantime-serde.
mod humantime_serde {
    use crate::humantime::{format_duration, parse_duration};
    use serde::{Deserialize, Deserializer, Serializer, de::Error};
    use std::time::Duration;

    pub fn serialize<S: Serializer>(length: &Duration, serializer: S) -> Result<S::Ok, S::Error> {
        serializer.collect_str(&format_duration(*length))
    }

    pub fn deserialize<'de, D: Deserializer<'de>>(deserializer: D) -> Result<Duration, D::Error> {
        parse_duration(&String::deserialize(deserializer)?).map_err(D::Error::custom)
    }

    pub mod option {
        use serde::{Deserialize, Deserializer, Serialize, Serializer};
        use std::time::Duration;

        #[derive(Deserialize, Serialize)]
        struct Part(#[serde(with = "super")] Duration);

        pub fn serialize<S: Serializer>(
            length: &Option<Duration>,
            serializer: S,
        ) -> Result<S::Ok, S::Error> {
            length.map(Part).serialize(serializer)
        }

        pub fn deserialize<'de, D: Deserializer<'de>>(
            deserializer: D,
        ) -> Result<Option<Duration>, D::Error> {
            let part = Option::deserialize(deserializer)?;
            Ok(part.map(|Part(length)| length))
        }
    }
}
