//! The program `tcmake`: lines of JSON, as `tcshow --json` writes them or messages as it shows them, become lines of hex or a
//! capture.
//!
//! ```text
//! $ tcshow --json -r capture.pcap | sed 's/"Limit":10240/"Limit":500/' | tcmake --pcap > changed.pcap
//! ```
//!
//! A line that makes no message gets a complaint with its number and the place of the mistake. The others go on.

pub mod arguments;
pub mod order;
mod plan_complaint;
pub mod plans;
pub mod program;
pub mod run;
