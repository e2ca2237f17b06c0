//! What a change of each kind takes: written by `kinds/changes` from the tables of `kinds/`.

use crate::plan::configs::sort::Sort;

/// The fate of options that a change lacks.
#[derive(Clone, Copy, PartialEq, Eq, Debug)]
pub(crate) enum Change {
    /// Nothing is changed: it is deleted and made.
    Never,
    /// They get their defaults.
    Whole,
    /// They keep their values.
    Keeps,
}

/// What a change of a kind takes. Options are named by their types.
#[derive(Clone, Copy)]
pub(crate) struct Rule {
    pub(crate) change: Change,
    /// Options that only making it takes: a change leaves them out, and they have to be the same.
    pub(crate) fixed: &'static [u16],
    /// Options that a change has, and that have to be the same.
    pub(crate) equal: &'static [u16],
    /// True if an option has to be in both or in neither, unless it is one of `free`.
    pub(crate) by_name: bool,
    pub(crate) free: &'static [u16],
    /// How many bytes are before the list of options.
    pub(crate) skipped: usize,
}

const NEVER: Rule = Rule { change: Change::Never, fixed: &[], equal: &[], by_name: false, free: &[], skipped: 0 };

const WHOLE: Rule = Rule { change: Change::Whole, ..NEVER };

const KEEPS: Rule = Rule { change: Change::Keeps, ..NEVER };

/// The rule of a kind.
pub(crate) fn rule_of(sort: Sort, kind: &str) -> Rule {
    match sort {
        Sort::Qdisc => of_qdisc(kind),
        Sort::Class => of_class(kind),
        Sort::Filter => of_filter(kind),
        Sort::Action(_) => of_action(kind),
        Sort::Table | Sort::Chain | Sort::Priority | Sort::Block | Sort::Common => NEVER,
    }
}

#[rustfmt::skip]
fn of_qdisc(kind: &str) -> Rule {
    match kind {
        "bfifo" | "cake" | "cake_mq" | "cbs" | "fq" | "hfsc" | "hhf" | "pfifo" | "pfifo_head_drop" | "pie" | "prio" |
            "rr" | "skbprio" | "tbf" => WHOLE,
        "codel" | "dualpi2" => KEEPS,
        "fq_codel" => Rule { fixed: &[5], ..KEEPS },
        "netem" => Rule { skipped: 24, ..KEEPS },
        _ => NEVER,
    }
}

#[rustfmt::skip]
fn of_class(kind: &str) -> Rule {
    match kind {
        "drr" | "htb" | "qfq" => WHOLE,
        "hfsc" => KEEPS,
        _ => NEVER,
    }
}

#[rustfmt::skip]
fn of_filter(kind: &str) -> Rule {
    match kind {
        "basic" | "bpf" => WHOLE,
        "flow" | "fw" => KEEPS,
        "flower" => Rule { equal: &[5, 7, 11, 13, 15, 17, 28, 30, 32, 34, 35, 36, 37, 38, 39, 40, 44, 46, 48, 50, 52,
            54, 56, 58, 60, 62, 64, 66, 72, 74, 76, 81, 83, 84, 85, 92, 94, 96, 98, 99, 101, 107, 109, 111], by_name:
            true, free: &[1, 3, 22], ..WHOLE },
        "u32" => Rule { equal: &[2, 4, 5, 8, 10, 11], ..WHOLE },
        _ => NEVER,
    }
}

#[rustfmt::skip]
fn of_action(kind: &str) -> Rule {
    match kind {
        "bpf" | "connmark" | "csum" | "ct" | "ctinfo" | "ife" | "mirred" | "mpls" | "nat" | "pedit" | "police" |
            "simple" | "skbedit" | "skbmod" | "tunnel_key" | "vlan" => WHOLE,
        "gact" | "sample" => KEEPS,
        _ => NEVER,
    }
}

/// The options with `normal -`: the sort of their kind, the kind, and their type.
#[cfg(test)]
#[rustfmt::skip]
pub(crate) const LEFT_OUT: &[(&str, &str, u16)] = &[
    ("action", "bpf", 1), ("action", "bpf", 7), ("action", "connmark", 2), ("action", "connmark", 3),
    ("action", "csum", 2), ("action", "csum", 3), ("action", "ct", 2), ("action", "ct", 15), ("action", "ctinfo", 1),
    ("action", "ctinfo", 2), ("action", "ctinfo", 8), ("action", "ctinfo", 9), ("action", "ctinfo", 10),
    ("action", "gact", 1), ("action", "gact", 4), ("action", "gate", 1), ("action", "gate", 3), ("action", "ife", 2),
    ("action", "ife", 7), ("action", "mirred", 1), ("action", "mirred", 3), ("action", "mpls", 1),
    ("action", "mpls", 3), ("action", "nat", 2), ("action", "nat", 3), ("action", "pedit", 1), ("action", "pedit", 3),
    ("action", "police", 6), ("action", "police", 7), ("action", "sample", 1), ("action", "sample", 6),
    ("action", "simple", 1), ("action", "simple", 4), ("action", "skbedit", 1), ("action", "skbedit", 6),
    ("action", "skbmod", 1), ("action", "skbmod", 6), ("action", "tunnel_key", 1), ("action", "tunnel_key", 8),
    ("action", "vlan", 1), ("action", "vlan", 5), ("filter", "basic", 5), ("filter", "basic", 6),
    ("filter", "flower", 86), ("filter", "matchall", 4), ("filter", "matchall", 5), ("filter", "u32", 9),
    ("filter", "u32", 12), ("qdisc", "cake", 1), ("qdisc", "cake_mq", 1), ("qdisc", "dualpi2", 16), ("qdisc", "htb", 8),
    ("qdisc", "netem", 9), ("qdisc", "taprio", 6), ("qdisc", "tbf", 8),
];
