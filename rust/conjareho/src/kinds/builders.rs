//! Options whose bytes `tc` computes: rate tables, and what htb, tbf and police need beside them.

use super::action::{Gen, TcAct};
use super::actions::gact::{Gact, GactAttr};
use super::actions::police::{Police, PoliceAttr};
use super::filters::u32::{U32Key, U32Sel};
use super::qdiscs::htb::{HtbAttr, HtbGlob, HtbOpt};
use super::qdiscs::tbf::{TbfAttr, TbfQopt};
use super::shared::{Ratespec, TcLinklayer};
use super::{ActionOptions, Bytes, Options, Rate, Ticks};
use alloc::vec::Vec;
use core::time::Duration;

/// What the size of a packet is counted as, and the largest packet of a rate table.
#[derive(Clone, Copy, PartialEq, Eq, Hash, Debug)]
pub struct Sizes {
    /// The largest packet, in bytes. 0 stands for 2047. The cells of the table are as small as it allows.
    pub mtu: u32,
    /// Bytes that count beside those of a packet.
    pub overhead: u16,
    /// The bytes as which a smaller packet counts.
    pub mpu: u16,
    /// The link layer. On ATM a packet counts as whole cells of 53 bytes.
    pub linklayer: TcLinklayer,
}

impl Default for Sizes {
    fn default() -> Self {
        Sizes { mtu: 0, overhead: 0, mpu: 0, linklayer: TcLinklayer::Ethernet }
    }
}

impl Sizes {
    /// What a packet of this size with its overhead counts as.
    pub(super) fn counted(self, size: u64) -> u64 {
        match (size.max(self.mpu.into()), self.linklayer) {
            (size, TcLinklayer::Atm) => size.div_ceil(48) * 53,
            (size, _) => size,
        }
    }
}

impl Ratespec {
    /// The record of a rate, and its rate table: the ticks of 256 sizes.
    #[must_use]
    pub fn with_table(rate: Rate, sizes: Sizes) -> (Self, Bytes) {
        let mtu = if sizes.mtu == 0 { 2047 } else { sizes.mtu };
        let cell_log = (0..31).find(|log| mtu >> log <= 255).unwrap_or(31);
        let cells = (1..=256u64).map(|cell| u32::try_from(sizes.counted(cell << cell_log)).unwrap_or(u32::MAX));
        let table: Vec<u8> = cells.flat_map(|size| rate.ticks(size).0.to_le_bytes()).collect();
        let spec = Ratespec {
            cell_log,
            linklayer: sizes.linklayer,
            overhead: sizes.overhead,
            cell_align: -1,
            mpu: sizes.mpu,
            rate: rate.low(),
        };
        (spec, Bytes(table))
    }
}

impl U32Sel {
    /// A selector of these keys, all of them for a packet to match, with their number in `nkeys`: the kernel drops keys after so many, and a
    /// filter of 0 keys matches every packet. If `keys` is changed later, `nkeys` has to be, too.
    ///
    /// ```
    /// use conjareho::kinds::filters::u32::{TcU32Bits, U32Attr, U32Key, U32Sel};
    /// use conjareho::kinds::{Handle, Message, shared::eth_p};
    ///
    /// // `tc filter add dev .. parent 1: protocol ip prio 5 u32 match ip dst 10.0.0.0/8 flowid 1:10`. An IPv4 header has the
    /// // destination at byte 16. `TERMINAL` ends the search, and a filter without it needs a `link`.
    /// let key = U32Key { val: 0x0a00_0000, mask: 0xff00_0000, off: 16, ..U32Key::default() };
    /// let selector = U32Sel { flags: TcU32Bits::TERMINAL, ..U32Sel::of([key]) };
    /// let options = U32Attr::list().with_class_id(Handle::new(1, 0x10)).with_selector(selector);
    /// let message = Message::on(2).parent(Handle::new(1, 0)).filter(5, eth_p::IP).of(options);
    /// # assert!(message.is_whole());
    /// ```
    ///
    /// # Panics
    ///
    /// If there are more than 255 keys. `tc` sends at most 128.
    #[must_use]
    pub fn of(keys: impl Into<Vec<U32Key>>) -> Self {
        let keys = keys.into();
        let nkeys = u8::try_from(keys.len()).expect("a selector has at most 255 keys");
        U32Sel { nkeys, keys, ..U32Sel::default() }
    }
}

/// The qdisc htb as `tc qdisc add .. htb` makes it.
#[derive(Clone, Copy, PartialEq, Eq, Hash, Debug)]
pub struct Htb {
    /// The minor number of the class for packets that no filter classifies. If there is no such class, they aren't shaped.
    pub default: u32,
    /// The kernel computes the quantum of a class as its rate divided by this.
    pub r2q: u32,
    /// The most packets that wait unshaped, if it isn't the length of the interface's queue.
    pub direct_qlen: Option<u32>,
}

impl Htb {
    /// A qdisc with this default class: 0x30 is `default 30` of `tc`.
    #[must_use]
    pub fn new(default: u32) -> Self {
        Htb { default, r2q: 10, direct_qlen: None }
    }
}

impl From<Htb> for Options {
    fn from(htb: Htb) -> Self {
        // The version of the interface to htb, which the kernel requires.
        let init = HtbGlob { version: 3, rate2quantum: htb.r2q, defcls: htb.default, ..HtbGlob::default() };
        let mut list = HtbAttr::list().with_init(init);
        list.extend(htb.direct_qlen.map(HtbAttr::DirectQlen));
        Options::Htb(list)
    }
}

/// A class of htb as `tc class add .. htb` makes it.
///
/// It can be had from options that were read, to be changed and sent again. So can [`Htb`], [`Tbf`] and [`PoliceAction`]. `try_from` takes
/// a rate from [`HtbAttr::Rate64`] or [`HtbAttr::Ceil64`] if it is there: [`Ratespec::rate`] has at most 4294967295 bytes per second.
///
/// ```
/// use conjareho::kinds::{HtbClass, Message};
/// use conjareho::requests::{Object, Verb};
///
/// # let class = HtbClass::new("60mbit".parse()?);
/// # let bytes = Message::on(2).handle("1:10".parse()?).parent("1:".parse()?).of(class).to_bytes()?;
/// // `bytes` is a class, as a socket received it, without its netlink header.
/// let read = Message::parse(&bytes)?;
/// let mut class = HtbClass::try_from(read.options().ok_or("no options")?)?;
/// class.ceil = "80mbit".parse()?;
/// let class = Message::on(read.header.index).handle(read.header.handle).parent(read.header.parent).of(class);
/// let request = class.request(Object::Class, Verb::Change, 1)?;
/// # Ok::<(), Box<dyn std::error::Error>>(())
/// ```
#[derive(Clone, Copy, PartialEq, Eq, Hash, Debug)]
pub struct HtbClass {
    /// Its guaranteed rate.
    pub rate: Rate,
    /// Its rate with what it borrows.
    pub ceil: Rate,
    /// Burst at `rate`, in bytes, or 0 to compute it.
    pub burst: u32,
    /// Burst at `ceil`, in bytes, or 0 to compute it.
    pub cburst: u32,
    /// Bytes that it sends before the next class of its priority is served. If 0, the kernel computes it.
    pub quantum: u32,
    /// Its priority. The class with the lowest is served first.
    pub prio: u32,
    /// What the size of a packet is counted as. An MTU of 0 stands for 1600.
    pub sizes: Sizes,
}

impl HtbClass {
    /// A class that can't borrow.
    #[must_use]
    pub fn new(rate: Rate) -> Self {
        HtbClass { rate, ceil: rate, burst: 0, cburst: 0, quantum: 0, prio: 0, sizes: Sizes::default() }
    }

    /// What its packets count as, with the MTU that stands for 0.
    fn sizes(&self) -> Sizes {
        Sizes { mtu: if self.sizes.mtu == 0 { 1600 } else { self.sizes.mtu }, ..self.sizes }
    }

    /// The time of a burst at a rate. 0 stands for the least one: a packet, and what a nanosecond sends.
    pub(super) fn ticks(&self, burst: u32, rate: Rate) -> Ticks {
        let least = || u32::try_from(rate.0 / 1_000_000_000).unwrap_or(u32::MAX).saturating_add(self.sizes().mtu);
        rate.ticks(if burst == 0 { least() } else { burst })
    }
}

impl From<HtbClass> for Options {
    fn from(class: HtbClass) -> Self {
        let (rate, rate_table) = Ratespec::with_table(class.rate, class.sizes());
        let (ceil, ceil_table) = Ratespec::with_table(class.ceil, class.sizes());
        let (buffer, cbuffer) = (class.ticks(class.burst, class.rate), class.ticks(class.cburst, class.ceil));
        let parms =
            HtbOpt { rate, ceil, buffer, cbuffer, quantum: class.quantum, prio: class.prio, ..HtbOpt::default() };
        let mut list = HtbAttr::list();
        list.extend(class.rate.high().map(HtbAttr::Rate64));
        list.extend(class.ceil.high().map(HtbAttr::Ceil64));
        Options::Htb(list.with_parms(parms).with_rtab(rate_table).with_ctab(ceil_table))
    }
}

/// The qdisc tbf as `tc qdisc add .. tbf` makes it.
#[derive(Clone, Copy, PartialEq, Eq, Hash, Debug)]
pub struct Tbf {
    /// The rate.
    pub rate: Rate,
    /// Burst at `rate`, in bytes.
    pub burst: u32,
    /// The most bytes that wait, those of the burst among them.
    pub limit: u32,
    /// The rate within a burst, if it has one. It needs an MTU.
    pub peakrate: Option<Rate>,
    /// What the size of a packet is counted as.
    pub sizes: Sizes,
}

impl Tbf {
    /// A limit of bytes.
    #[must_use]
    pub fn new(rate: Rate, burst: u32, limit: u32) -> Self {
        Tbf { rate, burst, limit, peakrate: None, sizes: Sizes::default() }
    }

    /// Sets the limit to the bytes that wait no longer than a time, by the rates, the burst and the MTU as they are.
    #[must_use]
    pub fn latency(self, time: Duration) -> Self {
        let in_time = |rate: Rate, burst: u32| rate.0 as f64 * time.as_micros() as f64 / 1e6 + f64::from(burst);
        let peak = self.peakrate.map_or(f64::INFINITY, |peak| in_time(peak, self.sizes.mtu));
        Tbf { limit: in_time(self.rate, self.burst).min(peak) as u32, ..self }
    }
}

impl From<Tbf> for Options {
    fn from(tbf: Tbf) -> Self {
        // tc computes times and tables from the rates in 32 bits.
        let low = |rate: Rate| Rate(rate.low().into());
        let (rate, rate_table) = Ratespec::with_table(low(tbf.rate), tbf.sizes);
        let peak = tbf.peakrate.map(|peak| (Ratespec::with_table(low(peak), tbf.sizes), peak));
        let parms = TbfQopt {
            rate,
            peakrate: peak.as_ref().map(|((spec, _), _)| spec.clone()).unwrap_or_default(),
            limit: tbf.limit,
            buffer: low(tbf.rate).ticks(tbf.burst),
            mtu: tbf.peakrate.map_or(Ticks(0), |peak| low(peak).ticks(tbf.sizes.mtu)),
        };
        let mut list = TbfAttr::list().with_parms(parms).with_burst(tbf.burst);
        list.extend(tbf.rate.high().map(TbfAttr::Rate64));
        list.push(TbfAttr::Rtab(rate_table));
        if let Some(((_, table), peak)) = peak {
            list.extend(peak.high().map(TbfAttr::Prate64));
            list.extend([TbfAttr::Pburst(tbf.sizes.mtu), TbfAttr::Ptab(table)]);
        }
        Options::Tbf(list)
    }
}

/// The action police as `tc` makes it.
#[derive(Clone, Copy, PartialEq, Eq, Hash, Debug)]
pub struct PoliceAction {
    /// The rate and the burst in bytes, or nothing if packets are counted.
    pub rate: Option<(Rate, u32)>,
    /// The rate within a burst, if it has one.
    pub peakrate: Option<Rate>,
    /// Packets per second, and the burst in packets.
    pub packets: Option<(u64, u32)>,
    /// The rate of an estimator, in bytes per second.
    pub avrate: Option<u32>,
    /// The result for packets above the rate.
    pub exceed: TcAct,
    /// The result for the others, if it isn't the default.
    pub conform: Option<TcAct>,
    /// The index, or 0 for a new one.
    pub index: u32,
    /// What the size of a packet is counted as.
    pub sizes: Sizes,
}

impl Default for PoliceAction {
    fn default() -> Self {
        PoliceAction {
            rate: None,
            peakrate: None,
            packets: None,
            avrate: None,
            exceed: TcAct::Reclassify,
            conform: None,
            index: 0,
            sizes: Sizes::default(),
        }
    }
}

impl From<PoliceAction> for ActionOptions {
    fn from(police: PoliceAction) -> Self {
        let table = |rate: Rate| Ratespec::with_table(rate, police.sizes);
        let (rate, peak) = (police.rate.map(|(rate, _)| table(rate)), police.peakrate.map(table));
        let spec = |table: &Option<(Ratespec, Bytes)>| table.as_ref().map(|(spec, _)| spec.clone()).unwrap_or_default();
        let tbf = Police {
            index: police.index,
            action: police.exceed,
            burst: police.rate.map_or(Ticks(0), |(rate, burst)| rate.ticks(burst)),
            mtu: police.sizes.mtu,
            rate: spec(&rate),
            peakrate: spec(&peak),
            ..Police::default()
        };
        let mut list = PoliceAttr::list().with_tbf(tbf);
        list.extend(rate.map(|(_, table)| PoliceAttr::Rate(table)));
        list.extend(police.rate.and_then(|(rate, _)| rate.high()).map(PoliceAttr::Rate64));
        list.extend(peak.map(|(_, table)| PoliceAttr::Peakrate(table)));
        list.extend(police.peakrate.and_then(Rate::high).map(PoliceAttr::Peakrate64));
        list.extend(police.avrate.map(PoliceAttr::Avrate));
        list.extend(police.conform.map(PoliceAttr::Result));
        if let Some((rate, burst)) = police.packets {
            list.extend([PoliceAttr::Pktrate64(rate), PoliceAttr::Pktburst64(Rate(rate).ticks(burst).0.into())]);
        }
        ActionOptions::Police(list)
    }
}

/// Options of the action police: the results for packets above the rate (`exceed`) and for the others (`conform`).
#[must_use]
pub fn police(rate: Rate, burst: u32, exceed: TcAct, conform: TcAct) -> ActionOptions {
    PoliceAction { rate: Some((rate, burst)), exceed, conform: Some(conform), ..PoliceAction::default() }.into()
}

impl From<TcAct> for ActionOptions {
    /// The action gact with this result.
    fn from(action: TcAct) -> Self {
        ActionOptions::Gact(GactAttr::list().with_parms(Gact { generic: Gen { action, ..Gen::default() } }))
    }
}
