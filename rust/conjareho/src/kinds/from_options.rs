//! Options that were read, as what builds them: to change a value and to send them again.

use super::actions::police::PoliceAttr;
use super::list::{Attrs, type_of};
use super::qdiscs::htb::HtbAttr;
use super::qdiscs::tbf::TbfAttr;
use super::shared::Ratespec;
use super::frames::Attr;
use super::{ActionOptions, Bytes, Htb, HtbClass, Options, PoliceAction, Rate, Sizes, Tbf, Ticks};
use alloc::vec::Vec;
use core::fmt;

/// Why options aren't an [`Htb`], [`HtbClass`], [`Tbf`] or [`PoliceAction`].
///
/// Attributes and fields have their Rust names, such as `HtbAttr::Offload` and `HtbGlob::debug`.
#[derive(Clone, Copy, PartialEq, Eq, Hash, Debug)]
#[non_exhaustive]
pub enum OptionsError {
    /// They are of another kind. Without a table, their kind isn't known.
    Kind {
        /// The kind that has these options, or the first of several.
        found: Option<&'static str>,
        /// The kind that was asked for.
        needed: &'static str,
    },
    /// This attribute is missing.
    Missing(&'static str),
    /// This attribute is there more than once.
    Repeated(&'static str),
    /// An attribute of this type, which the table doesn't have, or whose payload isn't of its form.
    Unknown(u16),
    /// An attribute, or a value in a record, for which the builder has no field.
    NoField(&'static str),
    /// Rates that count the size of a packet differently. The builder has one [`Sizes`] for both.
    Sizes(&'static str, &'static str),
    /// A time in which more than 4294967295 bytes or packets are sent.
    TooLong(&'static str),
    /// The list has parts that the table doesn't describe. [`Attrs::settle`] drops them.
    NotSettled,
}

impl fmt::Display for OptionsError {
    fn fmt(&self, f: &mut fmt::Formatter<'_>) -> fmt::Result {
        match self {
            OptionsError::Kind { found: Some(found), needed } => write!(f, "options of {found}, not of {needed}"),
            OptionsError::Kind { found: None, needed } => write!(f, "options without a table, not of {needed}"),
            OptionsError::Missing(name) => write!(f, "{name} is missing"),
            OptionsError::Repeated(name) => write!(f, "{name} is there more than once"),
            OptionsError::Unknown(number) => write!(f, "no field for an attribute of type {number}"),
            OptionsError::NoField(name) => write!(f, "no field for {name}"),
            OptionsError::Sizes(one, other) => write!(f, "{one} and {other} count the size of a packet differently"),
            OptionsError::TooLong(name) => write!(f, "{name} is too long"),
            OptionsError::NotSettled => f.write_str("flags, padding or bytes that the table doesn't describe"),
        }
    }
}

impl core::error::Error for OptionsError {}

/// Checks that each attribute of a list has a field and is there once, but for those that are computed anew, or only reported.
fn check<A: Attr>(
    list: &Attrs<A>,
    is_dropped: impl Fn(&A) -> bool,
    has_field: impl Fn(&A) -> bool,
) -> Result<(), OptionsError> {
    if list.aside.is_some() {
        return Err(OptionsError::NotSettled);
    }
    let mut seen = Vec::new();
    for item in list.iter().filter(|item| !is_dropped(item)) {
        let name = item.name().ok_or(OptionsError::Unknown(type_of(item)))?;
        if !has_field(item) {
            return Err(OptionsError::NoField(name));
        }
        if seen.contains(&name) {
            return Err(OptionsError::Repeated(name));
        }
        seen.push(name);
    }
    Ok(())
}

/// Refuses a value that has no field.
fn refuse(is_there: bool, name: &'static str) -> Result<(), OptionsError> {
    if is_there { Err(OptionsError::NoField(name)) } else { Ok(()) }
}

/// The rate of a record and of the attribute that has its 64 bits. The kernel takes the larger one.
fn rate_of(spec: &Ratespec, wide: Option<&u64>) -> Rate {
    Rate(wide.copied().unwrap_or(0).max(spec.rate.into()))
}

/// The rate of a record that may be of no rate, all zeros.
fn rate_if_any(spec: &Ratespec, wide: Option<&u64>, name: &'static str) -> Result<Option<Rate>, OptionsError> {
    let is_none = spec.rate == 0;
    refuse(is_none && (*spec != Ratespec::default() || wide.is_some()), name)?;
    Ok((!is_none).then(|| rate_of(spec, wide)))
}

/// What the size of a packet is counted as at a rate.
fn sizes_of(spec: &Ratespec, mtu: u32) -> Sizes {
    Sizes { mtu, overhead: spec.overhead, mpu: spec.mpu, linklayer: spec.linklayer }
}

/// The largest packet of a rate table with these cells, or 0 for those of the default, and for no table.
fn mtu_of(spec: &Ratespec, table: Option<&Bytes>) -> u32 {
    if table.is_none() || spec.cell_log == 3 { 0 } else { ((256u64 << spec.cell_log.min(24)) - 1) as u32 }
}

/// The least number, beginning with `first`, that takes this time or longer.
fn least_in(time: u64, first: u32, ticks: impl Fn(u32) -> u64) -> Option<u32> {
    let (mut low, mut high) = (first, u32::MAX);
    while low < high {
        let middle = low + (high - low) / 2;
        (low, high) = if ticks(middle) < time { (middle + 1, high) } else { (low, middle) };
    }
    (ticks(low) >= time).then_some(low)
}

/// The ticks that the kernel computes for so many bytes: their nanoseconds as a product, shifted.
fn kernel_ticks(rate: Rate, sizes: Sizes, bytes: u32) -> u64 {
    let (mut second, mut shift) = (1_000_000_000u64, 0);
    while second >> 63 == 0 && second.checked_div(rate.0).is_some_and(|it| it >> 31 & 1 == 0) {
        (second, shift) = (second << 1, shift + 1);
    }
    let size = sizes.counted(u64::from(bytes) + u64::from(sizes.overhead));
    let ns = (u128::from(size) * u128::from(second.checked_div(rate.0).unwrap_or(1))) >> shift;
    ns as u64 / 64
}

impl TryFrom<&Options> for Htb {
    type Error = OptionsError;

    /// The qdisc of options that were read. What the kernel only reports is dropped: the number of packets that weren't shaped.
    fn try_from(options: &Options) -> Result<Self, OptionsError> {
        let Options::Htb(list) = options else {
            return Err(OptionsError::Kind { found: options.kind(), needed: "htb" });
        };
        let init = list.init().ok_or(OptionsError::Missing("HtbAttr::Init"))?;
        check(list, |it| matches!(it, HtbAttr::Pad(())), |it| matches!(it, HtbAttr::Init(_) | HtbAttr::DirectQlen(_)))?;
        refuse(init.debug != 0, "HtbGlob::debug")?;
        Ok(Htb { default: init.defcls, r2q: init.rate2quantum, direct_qlen: list.direct_qlen().copied() })
    }
}

impl TryFrom<&Options> for HtbClass {
    type Error = OptionsError;

    /// The class of options that were read. Rate tables are dropped, and what the kernel only reports: the level, and whether it is offloaded.
    ///
    /// A burst is 0 if it is the computed one. If no number of bytes takes exactly its time, it is the least number that takes longer.
    /// The MTU is 0 in an answer of the kernel, which has no rate table, and otherwise the largest one that has such a table.
    fn try_from(options: &Options) -> Result<Self, OptionsError> {
        let Options::Htb(list) = options else {
            return Err(OptionsError::Kind { found: options.kind(), needed: "htb" });
        };
        let parms = list.parms().ok_or(OptionsError::Missing("HtbAttr::Parms"))?;
        check(
            list,
            |it| matches!(it, HtbAttr::Pad(()) | HtbAttr::Rtab(_) | HtbAttr::Ctab(_) | HtbAttr::Offload(())),
            |it| matches!(it, HtbAttr::Parms(_) | HtbAttr::Rate64(_) | HtbAttr::Ceil64(_)),
        )?;
        let sizes = sizes_of(&parms.rate, mtu_of(&parms.rate, list.rtab()));
        if sizes_of(&parms.ceil, sizes.mtu) != sizes {
            return Err(OptionsError::Sizes("HtbOpt::rate", "HtbOpt::ceil"));
        }
        let (rate, ceil) = (rate_of(&parms.rate, list.rate64()), rate_of(&parms.ceil, list.ceil64()));
        let class = HtbClass { ceil, quantum: parms.quantum, prio: parms.prio, sizes, ..HtbClass::new(rate) };
        let burst = |time: Ticks, rate: Rate| {
            let is_computed = class.ticks(0, rate) == time;
            if is_computed { Some(0) } else { least_in(time.0.into(), 1, |bytes| rate.ticks(bytes).0.into()) }
        };
        Ok(HtbClass {
            burst: burst(parms.buffer, rate).ok_or(OptionsError::TooLong("HtbOpt::buffer"))?,
            cburst: burst(parms.cbuffer, ceil).ok_or(OptionsError::TooLong("HtbOpt::cbuffer"))?,
            ..class
        })
    }
}

impl TryFrom<&Options> for Tbf {
    type Error = OptionsError;

    /// The qdisc of options that were read. Rate tables are dropped.
    ///
    /// An answer of the kernel has burst and MTU as times: they are the least numbers of bytes that take so long, or longer.
    fn try_from(options: &Options) -> Result<Self, OptionsError> {
        let Options::Tbf(list) = options else {
            return Err(OptionsError::Kind { found: options.kind(), needed: "tbf" });
        };
        let parms = list.parms().ok_or(OptionsError::Missing("TbfAttr::Parms"))?;
        let rates = |it: &TbfAttr| matches!(it, TbfAttr::Rate64(_) | TbfAttr::Prate64(_));
        check(
            list,
            |it| matches!(it, TbfAttr::Pad(()) | TbfAttr::Rtab(_) | TbfAttr::Ptab(_)),
            |it| matches!(it, TbfAttr::Parms(_) | TbfAttr::Burst(_) | TbfAttr::Pburst(_)) || rates(it),
        )?;
        let sizes = sizes_of(&parms.rate, mtu_of(&parms.rate, list.rtab()));
        let in_time = |time: Ticks, rate: Rate| least_in(time.0.into(), 0, |bytes| kernel_ticks(rate, sizes, bytes));
        let rate = rate_of(&parms.rate, list.rate64());
        let burst = list.burst().copied().or_else(|| in_time(parms.buffer, rate));
        let burst = burst.ok_or(OptionsError::TooLong("TbfQopt::buffer"))?;
        let peakrate = rate_if_any(&parms.peakrate, list.prate64(), "TbfQopt::peakrate")?;
        let Some(peak) = peakrate else {
            refuse(parms.mtu != Ticks(0), "TbfQopt::mtu")?;
            refuse(list.pburst().is_some(), "TbfAttr::Pburst")?;
            return Ok(Tbf { rate, burst, limit: parms.limit, peakrate, sizes });
        };
        if sizes_of(&parms.peakrate, sizes.mtu) != sizes {
            return Err(OptionsError::Sizes("TbfQopt::rate", "TbfQopt::peakrate"));
        }
        let mtu = list.pburst().copied().or_else(|| in_time(parms.mtu, peak));
        let mtu = mtu.ok_or(OptionsError::TooLong("TbfQopt::mtu"))?;
        Ok(Tbf { rate, burst, limit: parms.limit, peakrate, sizes: Sizes { mtu, ..sizes } })
    }
}

impl TryFrom<&ActionOptions> for PoliceAction {
    type Error = OptionsError;

    /// The action of options that were read. Rate tables are dropped, and what the kernel only reports: counts of references, and times.
    ///
    /// If no number of bytes or packets takes exactly the time of a burst, it is the least number that takes longer.
    fn try_from(options: &ActionOptions) -> Result<Self, OptionsError> {
        let ActionOptions::Police(list) = options else {
            return Err(OptionsError::Kind { found: options.kind(), needed: "police" });
        };
        let tbf = list.tbf().ok_or(OptionsError::Missing("PoliceAttr::Tbf"))?;
        let rates =
            |it: &PoliceAttr| matches!(it, PoliceAttr::Rate64(_) | PoliceAttr::Peakrate64(_) | PoliceAttr::Avrate(_));
        let packets = |it: &PoliceAttr| matches!(it, PoliceAttr::Pktrate64(_) | PoliceAttr::Pktburst64(_));
        check(
            list,
            |it| matches!(it, PoliceAttr::Pad(()) | PoliceAttr::Rate(_) | PoliceAttr::Peakrate(_) | PoliceAttr::Tm(_)),
            |it| matches!(it, PoliceAttr::Tbf(_) | PoliceAttr::Result(_)) || rates(it) || packets(it),
        )?;
        refuse(tbf.limit != 0, "Police::limit")?;
        refuse(tbf.capab != 0, "Police::capab")?;
        let rate = rate_if_any(&tbf.rate, list.rate64(), "Police::rate")?;
        let peakrate = rate_if_any(&tbf.peakrate, list.peakrate64(), "Police::peakrate")?;
        let sizes = match (rate, peakrate) {
            (None, None) => Sizes { mtu: tbf.mtu, ..Sizes::default() },
            (None, Some(_)) => sizes_of(&tbf.peakrate, tbf.mtu),
            _ => sizes_of(&tbf.rate, tbf.mtu),
        };
        if peakrate.is_some() && sizes_of(&tbf.peakrate, tbf.mtu) != sizes {
            return Err(OptionsError::Sizes("Police::rate", "Police::peakrate"));
        }
        refuse(rate.is_none() && tbf.burst != Ticks(0), "Police::burst")?;
        let in_time = |time: u64, rate: Rate| least_in(time, 0, |count| rate.ticks(count).0.into());
        let burst = |rate| Some((rate, in_time(tbf.burst.0.into(), rate)?));
        let packets = match (list.pktrate64(), list.pktburst64()) {
            (Some(rate), Some(time)) => {
                let burst = in_time(*time, Rate(*rate)).ok_or(OptionsError::TooLong("PoliceAttr::Pktburst64"))?;
                Some((*rate, burst))
            }
            (None, None) => None,
            (None, _) => return Err(OptionsError::Missing("PoliceAttr::Pktrate64")),
            (_, None) => return Err(OptionsError::Missing("PoliceAttr::Pktburst64")),
        };
        Ok(PoliceAction {
            rate: rate.map(|rate| burst(rate).ok_or(OptionsError::TooLong("Police::burst"))).transpose()?,
            peakrate,
            packets,
            avrate: list.avrate().copied(),
            exceed: tbf.action,
            conform: list.result().copied(),
            index: tbf.index,
            sizes,
        })
    }
}
