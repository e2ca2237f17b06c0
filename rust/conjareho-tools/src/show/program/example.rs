//! The captures of `--example`.

use clap::ValueEnum;

/// A capture that `tcshow` has: `Whole` is a qdisc that a kernel dumped, a filter and an action that are made; `Broken` the same, then a
/// malformed message that Linux 6.1 refused, and a packet that is cut.
#[derive(Clone, Copy, PartialEq, Eq, Debug, ValueEnum)]
pub enum Example {
    // What `///` says of a value, `--help` would print.
    Whole,
    Broken,
}

impl Example {
    /// The capture, a pcap.
    pub(crate) fn bytes(self) -> &'static [u8] {
        match self {
            Example::Whole => include_bytes!("../../../testdata/example.pcap"),
            Example::Broken => include_bytes!("../../../testdata/tcshow/data/capture.pcap"),
        }
    }
}
