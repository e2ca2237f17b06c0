//! Types of the options of each kind, with the kind's name.

use crate::fallible::prelude::*;

use crate::nla_frames::DefaultNla;
use crate::tc_actions::{
    TcActionMirror, TcActionMirrorOption, TcActionNat, TcActionNatOption, TcActionOption, TcActionTunnelKey,
    TcActionTunnelKeyOption,
};
use crate::tc_options::{
    TcFilterBpf, TcFilterBpfOption, TcFilterFlower, TcFilterFlowerOption, TcFilterMatchAll, TcFilterMatchAllOption,
    TcFilterU32, TcFilterU32Option, TcOption, TcQdiscFqCodel, TcQdiscFqCodelOption, TcQdiscIngressOption,
};

/// An option of one kind, which can be wrapped in `T`, the options of all kinds.
pub trait OptionOf<T>: Sized {
    /// Wraps the option in the variant of its kind.
    #[must_use]
    fn into_option(self) -> T;
}

/// An option of one kind, whose name is known.
pub trait OfKind<T>: OptionOf<T> {
    /// The kind's name, such as `fq_codel`.
    #[must_use]
    fn kind() -> &'static str;
}

/// An option of a qdisc or a filter, of a kind that is in the tables of the codec.
pub trait TcKindOption: OfKind<TcOption> {}

/// An option of a qdisc.
pub trait QdiscOption: TcKindOption {}

/// An option of a filter.
pub trait FilterOption: TcKindOption {}

/// An option of an action.
pub trait ActionKindOption: OfKind<TcActionOption> {}

impl OptionOf<TcOption> for TcQdiscFqCodelOption {
    fn into_option(self) -> TcOption {
        TcOption::FqCodel(self)
    }
}

impl OfKind<TcOption> for TcQdiscFqCodelOption {
    fn kind() -> &'static str {
        TcQdiscFqCodel::KIND
    }
}

impl TcKindOption for TcQdiscFqCodelOption {}

impl QdiscOption for TcQdiscFqCodelOption {}

impl OptionOf<TcOption> for TcQdiscIngressOption {
    fn into_option(self) -> TcOption {
        TcOption::Ingress(self)
    }
}

impl OfKind<TcOption> for TcQdiscIngressOption {
    fn kind() -> &'static str {
        crate::tc_options::TcQdiscIngress::KIND
    }
}

impl TcKindOption for TcQdiscIngressOption {}

impl QdiscOption for TcQdiscIngressOption {}

impl OptionOf<TcOption> for TcFilterFlowerOption {
    fn into_option(self) -> TcOption {
        TcOption::Flower(self)
    }
}

impl OfKind<TcOption> for TcFilterFlowerOption {
    fn kind() -> &'static str {
        TcFilterFlower::KIND
    }
}

impl TcKindOption for TcFilterFlowerOption {}

impl FilterOption for TcFilterFlowerOption {}

impl OptionOf<TcOption> for TcFilterU32Option {
    fn into_option(self) -> TcOption {
        TcOption::U32(self)
    }
}

impl OfKind<TcOption> for TcFilterU32Option {
    fn kind() -> &'static str {
        TcFilterU32::KIND
    }
}

impl TcKindOption for TcFilterU32Option {}

impl FilterOption for TcFilterU32Option {}

impl OptionOf<TcOption> for TcFilterMatchAllOption {
    fn into_option(self) -> TcOption {
        TcOption::MatchAll(self)
    }
}

impl OfKind<TcOption> for TcFilterMatchAllOption {
    fn kind() -> &'static str {
        TcFilterMatchAll::KIND
    }
}

impl TcKindOption for TcFilterMatchAllOption {}

impl FilterOption for TcFilterMatchAllOption {}

impl OptionOf<TcOption> for TcFilterBpfOption {
    fn into_option(self) -> TcOption {
        TcOption::Bpf(self)
    }
}

impl OfKind<TcOption> for TcFilterBpfOption {
    fn kind() -> &'static str {
        TcFilterBpf::KIND
    }
}

impl TcKindOption for TcFilterBpfOption {}

impl FilterOption for TcFilterBpfOption {}

impl OptionOf<TcActionOption> for TcActionMirrorOption {
    fn into_option(self) -> TcActionOption {
        TcActionOption::Mirror(self)
    }
}

impl OfKind<TcActionOption> for TcActionMirrorOption {
    fn kind() -> &'static str {
        TcActionMirror::KIND
    }
}

impl OptionOf<TcActionOption> for TcActionNatOption {
    fn into_option(self) -> TcActionOption {
        TcActionOption::Nat(self)
    }
}

impl OfKind<TcActionOption> for TcActionNatOption {
    fn kind() -> &'static str {
        TcActionNat::KIND
    }
}

impl OptionOf<TcActionOption> for TcActionTunnelKeyOption {
    fn into_option(self) -> TcActionOption {
        TcActionOption::TunnelKey(self)
    }
}

impl OfKind<TcActionOption> for TcActionTunnelKeyOption {
    fn kind() -> &'static str {
        TcActionTunnelKey::KIND
    }
}

impl ActionKindOption for TcActionMirrorOption {}

impl ActionKindOption for TcActionNatOption {}

impl ActionKindOption for TcActionTunnelKeyOption {}

// A raw option of an action of any other kind.
impl OptionOf<TcActionOption> for DefaultNla {
    fn into_option(self) -> TcActionOption {
        TcActionOption::Other(self)
    }
}
