pub mod human;
pub mod human_more_names;
pub mod human_or_millis;
pub mod human_or_seconds;
pub mod human_require_unit;
pub mod humantime_serde;
pub mod original;
