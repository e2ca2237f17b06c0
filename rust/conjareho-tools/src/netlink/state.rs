//! What interfaces have of traffic control.

use super::attributes::{attribute, put, text};
use super::devices::Devices;
use super::fault::Fault;
use super::kernel::{Kernel, MOST_AT_ONCE};
use super::listener::{Changes, Listener};
use super::message::*;
use super::transport::Transport;
use super::u32_tables::own_tables;
use nix::errno::Errno;
use std::collections::BTreeSet;

/// How often a dump is begun before it is given up, if what it shows keeps changing.
pub const MOST_TRIES: u32 = 8;

/// The most notifications that are taken between requests for several dumps.
const MOST_BETWEEN: usize = 1 << 12;

const TCA_KIND: u16 = 1;
const TCA_INGRESS_BLOCK: u16 = 13;
const TCA_EGRESS_BLOCK: u16 = 14;
const TC_H_ROOT: u32 = 0xffff_ffff;
/// `TC_H_CLSACT` with `TC_H_MIN_INGRESS` and with `TC_H_MIN_EGRESS`: the two sides of clsact. Ingress has the first.
const SIDES: [u32; 2] = [0xffff_fff2, 0xffff_fff3];

/// Which objects are dumped.
#[derive(Clone, Copy, PartialEq, Eq, Debug)]
pub struct Objects {
    pub qdiscs: bool,
    pub classes: bool,
    pub filters: bool,
    pub chains: bool,
    pub actions: bool,
}

impl Objects {
    pub const ALL: Objects = Objects { qdiscs: true, classes: true, filters: true, chains: true, actions: true };
    pub const NONE: Objects = Objects { qdiscs: false, classes: false, filters: false, chains: false, actions: false };

    fn are_below(self) -> bool {
        self.filters || self.chains
    }

    fn are_of_interfaces(self) -> bool {
        self.qdiscs || self.classes || self.are_below()
    }
}

/// What interfaces have.
#[derive(Clone, PartialEq, Eq, Debug, Default)]
pub struct Dump {
    /// The kernel's answers: actions, qdiscs, classes, and of each of these qdiscs and classes its chains and its filters.
    pub messages: Vec<Vec<u8>>,
    /// The numbers of the blocks that these qdiscs have (`TCA_INGRESS_BLOCK`, `TCA_EGRESS_BLOCK`).
    pub blocks: Vec<u32>,
    /// The interfaces of the namespace, as they were after the dump.
    pub devices: Devices,
}

/// Dumps these interfaces whole, and again if one of them, a block of theirs or an action changed meanwhile.
pub fn state_of<T: Transport, L: Transport>(
    kernel: &mut Kernel<T>,
    listener: &mut Listener<L>,
    interfaces: &[u32],
) -> Result<Dump, Fault> {
    dump_of(kernel, listener, Objects::ALL, Some(interfaces))
}

/// Dumps some objects of these interfaces, or of all, and again if they changed meanwhile. The kernel doesn't say so of a dump of traffic control,
/// but notifies who listens.
pub fn dump_of<T: Transport, L: Transport>(
    kernel: &mut Kernel<T>,
    listener: &mut Listener<L>,
    objects: Objects,
    interfaces: Option<&[u32]>,
) -> Result<Dump, Fault> {
    for _ in 0..MOST_TRIES {
        listener.heard()?;
        let before = Devices::of(kernel)?;
        let all = before.indices();
        let asked = interfaces.unwrap_or(&all);
        let mut dumper = Dumper { kernel, listener, objects, changes: Changes::default(), blocks: BTreeSet::new() };
        let dump = match dumper.dump(asked) {
            Err(Fault::Interrupted | Fault::Lost) => continue,
            dump => dump?,
        };
        let devices = Devices::of(dumper.kernel)?;
        if let Some(gone) = interfaces.and_then(|asked| asked.iter().find(|index| devices.at(**index).is_none())) {
            return Err(Fault::NoInterface(*gone));
        }
        dumper.changes.listen(dumper.listener)?;
        let are_same = asked.iter().all(|index| before.at(*index) == devices.at(*index));
        if are_same && !dumper.changes.concern(asked, &dump.blocks) {
            return Ok(Dump { devices, ..dump });
        }
    }
    Err(Fault::Changing(MOST_TRIES))
}

// A dump that listens for changes meanwhile, so that many of them don't fill the listener's buffer.
struct Dumper<'a, T, L> {
    kernel: &'a mut Kernel<T>,
    listener: &'a mut Listener<L>,
    objects: Objects,
    changes: Changes,
    // The shared blocks whose chains and filters were dumped: each interface that has a block shows them.
    blocks: BTreeSet<u32>,
}

impl<T: Transport, L: Transport> Dumper<'_, T, L> {
    fn dump(&mut self, interfaces: &[u32]) -> Result<Dump, Fault> {
        let mut dump = Dump::default();
        if self.objects.actions {
            dump.messages = actions(self.kernel)?;
        }
        let interfaces = if self.objects.are_of_interfaces() { interfaces } else { &[] };
        let mut qdiscs =
            if interfaces.is_empty() { Vec::new() } else { self.dump_each(RTM_GETQDISC, 0, &[0])?.concat() };
        let mut below = Vec::new();
        for index in interfaces {
            let is_own = |qdisc: &Vec<u8>| tcmsg_of(qdisc).is_some_and(|tcmsg| tcmsg.index == *index as i32);
            let own;
            (own, qdiscs) = qdiscs.into_iter().partition(is_own);
            self.dump_interface(*index, own, &mut dump, &mut below)?;
        }
        dump.messages.extend(below);
        Ok(dump)
    }

    // What an interface with these qdiscs has: qdiscs and classes, and what is below these.
    fn dump_interface(
        &mut self,
        index: u32,
        qdiscs: Vec<Vec<u8>>,
        dump: &mut Dump,
        below: &mut Vec<Vec<u8>>,
    ) -> Result<(), Fault> {
        for qdisc in &qdiscs {
            dump.blocks.extend(blocks_in(qdisc)?);
        }
        let mut tree = qdiscs;
        if self.objects.classes || self.objects.are_below() {
            tree.extend(self.classes(index, &tree)?);
        }
        let mut own = Vec::new();
        let parents = if self.objects.are_below() { parents(&tree)? } else { Vec::new() };
        for mut found in self.below(index, &parents)? {
            found.retain(|message| block_of(message).is_none_or(|block| !self.blocks.contains(&block)));
            self.blocks.extend(found.iter().filter_map(|message| block_of(message)));
            own.extend(found);
        }
        below.extend(own_tables(self.kernel, own)?);
        let is_asked = |kind| if kind == RTM_NEWQDISC { self.objects.qdiscs } else { self.objects.classes };
        dump.messages.extend(tree.into_iter().filter(|it| header_of(it).is_some_and(|header| is_asked(header.kind))));
        Ok(())
    }

    // What there is of an interface (and in blocks) below each of these parents, or of all interfaces.
    fn dump_each(&mut self, kind: u16, index: u32, parents: &[u32]) -> Result<Vec<Vec<Vec<u8>>>, Fault> {
        let asked = |parent: &u32| {
            tc_request(kind, NLM_F_DUMP, Tcmsg { index: index as i32, parent: *parent, ..Tcmsg::default() })
        };
        let mut all = Vec::with_capacity(parents.len());
        for some in parents.chunks(MOST_AT_ONCE) {
            self.changes.listen_shortly(self.listener, MOST_BETWEEN)?;
            all.extend(self.kernel.dumps(&some.iter().map(asked).collect::<Vec<_>>())?);
        }
        let is_answer = |message: &Vec<u8>| {
            // A NEW is two before its GET.
            tcmsg_of(message).is_some() && header_of(message).is_some_and(|header| header.kind + 2 == kind)
        };
        if !all.iter().flatten().all(is_answer) {
            return Err(Fault::Broken("another message than was asked for"));
        }
        let is_ours = |tcmsg: Tcmsg| index == 0 || tcmsg.index == index as i32 || tcmsg.index == MAGIC_BLOCK;
        for dumped in &mut all {
            dumped.retain(|message| tcmsg_of(message).is_some_and(is_ours));
        }
        Ok(all)
    }

    // The classes of each qdisc, asked for by its handle: a dump of all ends early at some kinds of qdiscs. A root without a handle (such as the mq
    // that the kernel makes) can't be asked for so; its classes have no major number.
    fn classes(&mut self, index: u32, qdiscs: &[Vec<u8>]) -> Result<Vec<Vec<u8>>, Fault> {
        let mut handles = Vec::new();
        let mut asked = BTreeSet::new();
        for qdisc in qdiscs.iter().filter_map(|qdisc| tcmsg_of(qdisc)) {
            let is_root = qdisc.parent == TC_H_ROOT;
            if (qdisc.handle == 0 && !is_root) || !asked.insert(qdisc.handle) {
                continue;
            }
            handles.push(qdisc.handle);
        }
        let dumped = self.dump_each(RTM_GETTCLASS, index, &handles)?;
        let is_of = |handle: u32, class: &Vec<u8>| tcmsg_of(class).is_some_and(|it| it.handle & 0xffff_0000 == handle);
        let own = |(handle, classes): (u32, Vec<Vec<u8>>)| classes.into_iter().filter(move |it| is_of(handle, it));
        Ok(handles.into_iter().zip(dumped).flat_map(own).collect())
    }

    // Of each of these parents its chains, then its filters. All filters are in a chain, so a parent without chains isn't asked for them.
    fn below(&mut self, index: u32, parents: &[u32]) -> Result<Vec<Vec<Vec<u8>>>, Fault> {
        let (parents, mut below): (Vec<u32>, Vec<_>) = self.chains(index, parents)?.into_iter().unzip();
        if self.objects.filters {
            for (below, filters) in below.iter_mut().zip(self.dump_each(RTM_GETTFILTER, index, &parents)?) {
                below.extend(filters);
            }
        }
        Ok(below)
    }

    // Those of these parents that have chains, with these; all of them, without any, if chains aren't asked for or the kernel has none.
    #[allow(clippy::type_complexity)] // the messages of each parent
    fn chains(&mut self, index: u32, parents: &[u32]) -> Result<Vec<(u32, Vec<Vec<u8>>)>, Fault> {
        let chains = match self.objects.chains.then(|| self.dump_each(RTM_GETCHAIN, index, parents)).transpose() {
            // Linux before 4.19 has none.
            Err(Fault::Refused(refusal)) if refusal.is(Errno::EOPNOTSUPP) => None,
            chains => chains?,
        };
        let Some(chains) = chains else { return Ok(parents.iter().map(|parent| (*parent, Vec::new())).collect()) };
        let mut all: Vec<(u32, Vec<Vec<u8>>)> =
            parents.iter().copied().zip(chains).filter(|(_, chains)| !chains.is_empty()).collect();
        for (parent, chains) in &mut all {
            // After a chain that only actions hold (`goto chain`), the kernel dumps the last ones twice.
            let mut seen = BTreeSet::new();
            chains.retain(|chain| seen.insert(chain.clone()));
            // The kernel dumps a chain with its qdisc as the parent, which doesn't say on which side of clsact it is.
            for chain in chains.iter_mut().filter(|it| tcmsg_of(it).is_some_and(|tcmsg| tcmsg.index != MAGIC_BLOCK)) {
                chain[HEADER + 12..HEADER + 16].copy_from_slice(&parent.to_ne_bytes());
            }
        }
        Ok(all)
    }
}

// What filters and chains may hang below: of clsact its two sides, of ingress one, of a root without a handle 0.
fn parents(tree: &[Vec<u8>]) -> Result<Vec<u32>, Fault> {
    let mut parents = Vec::new();
    for message in tree {
        let Some(tcmsg) = tcmsg_of(message) else { continue };
        let is_qdisc = header_of(message).is_some_and(|header| header.kind == RTM_NEWQDISC);
        let kind = if is_qdisc { kind_in(message)? } else { None };
        match kind.as_deref() {
            Some("clsact") => parents.extend(SIDES),
            Some("ingress") => parents.push(SIDES[0]),
            _ if is_qdisc && (tcmsg.handle != 0 || tcmsg.parent == TC_H_ROOT) => parents.push(tcmsg.handle),
            // A root class, such as hfsc's, has the handle of its qdisc.
            _ if !is_qdisc && tcmsg.handle & 0xffff != 0 => parents.push(tcmsg.handle),
            _ => {}
        }
    }
    Ok(parents)
}

// The shared block that a chain or a filter is in, if any.
fn block_of(message: &[u8]) -> Option<u32> {
    tcmsg_of(message).filter(|tcmsg| tcmsg.index == MAGIC_BLOCK).map(|tcmsg| tcmsg.parent)
}

fn attributes_of(message: &[u8]) -> &[u8] {
    message.get(HEADER + TCMSG..).unwrap_or(&[])
}

fn kind_in(message: &[u8]) -> Result<Option<String>, Fault> {
    Ok(attribute(attributes_of(message), TCA_KIND)?.map(text))
}

fn blocks_in(qdisc: &[u8]) -> Result<Vec<u32>, Fault> {
    let mut blocks = Vec::new();
    for kind in [TCA_INGRESS_BLOCK, TCA_EGRESS_BLOCK] {
        blocks.extend(attribute(attributes_of(qdisc), kind)?.and_then(|value| u32_at(value, 0)));
    }
    Ok(blocks)
}

// ---- Actions

const ACTIONS: [&str; 20] = [
    "gact",
    "mirred",
    "nat",
    "pedit",
    "police",
    "simple",
    "skbedit",
    "skbmod",
    "vlan",
    "tunnel_key",
    "csum",
    "connmark",
    "ct",
    "ctinfo",
    "bpf",
    "ife",
    "sample",
    "mpls",
    "gate",
    "xt",
];

const TCA_ACT_TAB: u16 = 1;
const TCA_ROOT_FLAGS: u16 = 2;
const TCA_ACT_KIND: u16 = 1;
const NLA_F_NESTED: u16 = 0x8000;
const TCA_FLAG_LARGE_DUMP_ON: u32 = 1;

// All actions, of each kind that the kernel has.
fn actions<T: Transport>(kernel: &mut Kernel<T>) -> Result<Vec<Vec<u8>>, Fault> {
    let mut actions = Vec::new();
    for kind in ACTIONS {
        match kernel.dump(&actions_request(kind)) {
            // The kernel lacks the kind.
            Err(Fault::Refused(refusal)) if refusal.is(Errno::EINVAL) || refusal.is(Errno::ENOENT) => {}
            dumped => actions.extend(dumped?),
        }
    }
    if actions.iter().all(|it| header_of(it).is_some_and(|header| is_action(header.kind) && header.len >= HEADER + 4)) {
        Ok(actions)
    } else {
        Err(Fault::Broken("another message than an action"))
    }
}

fn actions_request(kind: &str) -> Vec<u8> {
    let mut name = Vec::new();
    put(&mut name, TCA_ACT_KIND, &[kind.as_bytes(), &[0]].concat());
    let mut first = Vec::new();
    put(&mut first, 1 | NLA_F_NESTED, &name);
    let mut body = vec![0; 4];
    put(&mut body, TCA_ACT_TAB | NLA_F_NESTED, &first);
    put(
        &mut body,
        TCA_ROOT_FLAGS,
        &[TCA_FLAG_LARGE_DUMP_ON.to_ne_bytes(), TCA_FLAG_LARGE_DUMP_ON.to_ne_bytes()].concat(),
    );
    request(RTM_GETACTION, NLM_F_DUMP, &body)
}
