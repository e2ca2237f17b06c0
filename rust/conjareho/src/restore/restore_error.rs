//! Errors of restoring.

use crate::fallible::prelude::*;

/// The reason why a dump has no request. The first from left to right.
#[derive(PartialEq, Eq, Debug, Hash, Clone)]
pub enum RestoreError {
    /// An eBPF program is dumped as its ID (`ProgId`), and loaded by a file descriptor.
    ProgramByNumber,

    /// Raw options of a filter, or the actions in them, can't be parsed.
    RawActions,

    /// A size table (`Stab`) is dumped without its data.
    SizeTable,

    /// The table of marking probabilities of red, choke or gred (`TCA_RED_STAB`) isn't dumped.
    MarkingTable,

    /// Statistics show an estimator (`TCA_STATS_RATE_EST`), which isn't dumped as `Rate`.
    Estimator,

    /// A filter has police outside a list of actions (`TCA_U32_POLICE`, ...), and that is no list of options.
    PoliceOfFilter,

    /// A list has more than 32 actions. The kernel ignores those after the 32nd.
    TooManyActions,

    /// An action that no filter holds has the verdict `goto chain`. The chain belongs to the block of a filter.
    GotoChain,

    /// A flower filter without `InHwCount`, or an action without `Options`: a terse dump (`tc -brief`).
    Terse,

    /// Two hash tables of u32 in one priority of a chain have a number of 0x800 or above and one bucket, so that the root table,
    /// which the kernel makes, can't be distinguished from the other.
    RootTables,

    /// A u32 filter links to a root table, which the kernel numbers.
    LinkToRoot,

    /// A message of nothing but statistics.
    NothingLeft,

    /// The kernel makes the object itself or with another one. Such are a qdisc without a handle (a default), root classes and
    /// the classes of a kind that makes its own (prio, tbf, mq, ...), a classifier, dumped without a handle before its filters,
    /// u32's root table, and actions that are one filter's own.
    MadeByKernel,

    /// The dump doesn't read back as itself, and neither would the request.
    NotSettled,

    /// Restoring the request as if it were a dump would make another request.
    NotSteady,

    /// The allocator failed.
    OutOfMemory,
}

impl core::fmt::Display for RestoreError {
    fn fmt(&self, f: &mut core::fmt::Formatter<'_>) -> core::fmt::Result {
        match self {
            /// An eBPF program is dumped as its ID (`ProgId`), and loaded by a file descriptor.
            Self::ProgramByNumber => write!(f, "eBPF program by its number"),

            /// Raw options of a filter, or the actions in them, can't be parsed.
            Self::RawActions => write!(f, "actions that don't read"),

            /// A size table (`Stab`) is dumped without its data.
            Self::SizeTable => write!(f, "size table without its data"),

            /// The table of marking probabilities of red, choke or gred (`TCA_RED_STAB`) isn't dumped.
            Self::MarkingTable => write!(f, "table of red, choke or gred, which isn't dumped"),

            /// Statistics show an estimator (`TCA_STATS_RATE_EST`), which isn't dumped as `Rate`.
            Self::Estimator => write!(f, "estimator, of which only statistics are dumped"),

            /// A filter has police outside a list of actions (`TCA_U32_POLICE`, ...), that isn't a list of options.
            Self::PoliceOfFilter => write!(f, "police of a filter that isn't a list of options"),

            /// A list has more than 32 actions. The kernel ignores those after the 32nd.
            Self::TooManyActions => write!(f, "more than 32 actions"),

            /// An action that no filter holds has the verdict `goto chain`. The chain belongs to the block of a filter.
            Self::GotoChain => write!(f, "goto chain of an action that no filter has"),

            /// A flower filter without `InHwCount`, or an action without `Options`: a terse dump (`tc -brief`).
            Self::Terse => write!(f, "a terse dump: keys are missing"),

            /// Two hash tables of u32 in one priority of a chain have a number of 0x800 or above and one bucket, so that the root table,
            /// which the kernel makes, can't be distinguished from the other.
            Self::RootTables => write!(f, "two root tables of u32 in one priority"),

            /// A u32 filter links to a root table, which the kernel numbers.
            Self::LinkToRoot => write!(f, "link to a root table of u32"),

            /// A message of nothing but statistics.
            Self::NothingLeft => write!(f, "nothing but statistics"),

            /// The kernel makes the object itself or with another one. Such are a qdisc without a handle (a default), root classes and
            /// the classes of a kind that makes its own (prio, tbf, mq, ...), a classifier, dumped without a handle before its filters,
            /// u32's root table, and actions that are one filter's own.
            Self::MadeByKernel => write!(f, "made by the kernel itself"),

            /// The dump doesn't read back as itself, and neither would the request.
            Self::NotSettled => write!(f, "does not read back as itself"),

            /// Restoring the request as if it were a dump would make another request.
            Self::NotSteady => write!(f, "its request would be restored as another one"),

            /// The allocator failed.
            Self::OutOfMemory => write!(f, "out of memory"),
        }
    }
}

impl core::error::Error for RestoreError {}

impl From<AllocError> for RestoreError {
    fn from(_e: AllocError) -> RestoreError {
        RestoreError::OutOfMemory
    }
}
