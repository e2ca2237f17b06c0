//! What requests depend on in all dumps.

use crate::make::requests::complaint::Complaint;
use crate::make::requests::lines::{Dumped, Remark, Source, complain};
use crate::make::requests::restore::{Dump, dump_of};
use crate::nla_frames::{NLA_TYPE_MASK, Nla, ParseableBytes};
use crate::plan::restored::{Key, Named, ingress_of, name_of_action, offloaded_by, shared_action};
use crate::restore::{Object, RootTable, actions_of_filter, root_table};
use crate::tc_action_messages::{TcActionMessage, TcActionMessageAttribute};
use crate::tc_actions::{TcAction, TcActionAttribute};
use crate::tc_messages::TcMessage;

/// What requests depend on in all dumps.
#[derive(Default)]
pub(crate) struct DumpFacts {
    /// The root tables of u32.
    pub(crate) roots: Vec<RootTable>,
    /// The interfaces that have ingress.
    pub(crate) ingress: Vec<i32>,
    /// The actions that dumps have by themselves.
    pub(crate) listed: Vec<Named>,
    /// Those of them that filters share and nothing else holds.
    pub(crate) shared: Vec<Key>,
    /// The actions of filters with an offload flag, and those that filters have and that have one themselves.
    pub(crate) offloaded: Vec<Key>,
}

/// The facts of all dumps. What is wrong with one is said.
pub(crate) fn facts_of(dumps: &[Dumped], remarks: &mut Vec<Remark>) -> DumpFacts {
    let mut facts = DumpFacts::default();
    for dump in dumps {
        if let Err(complaint) = facts.keep(dump) {
            complain(Source::Wanted, dump.number, &complaint, remarks);
        }
    }
    facts
}

impl DumpFacts {
    // Keeps the facts of a dump. A line that isn't a dump has its complaint where its request is made.
    fn keep(&mut self, dump: &Dumped) -> Result<(), Complaint> {
        let bytes = &dump.made.bytes;
        match dump_of(dump.made.given.kind) {
            Ok(Dump::Of(object)) => {
                let message = TcMessage::parse(bytes)?;
                self.roots.extend(root_table(object, &message));
                self.ingress.extend(ingress_of(object, &message));
                if object == Object::Filter {
                    self.offloaded.extend(offloaded_by(message)?);
                    // An action takes the offload flag of a filter that has it, even of another interface's.
                    let actions = actions_of_filter(TcMessage::parse(bytes)?)?;
                    self.offloaded
                        .extend(actions.iter().filter(|action| has_offload_flag(action)).filter_map(shared_action));
                }
            }
            Ok(Dump::Actions) => {
                for attribute in &TcActionMessage::parse(bytes)?.attributes {
                    if let TcActionMessageAttribute::Actions(actions) = attribute {
                        self.listed.extend(actions.iter().filter_map(name_of_action));
                        self.shared.extend(actions.iter().filter_map(shared_action));
                    }
                }
            }
            Err(_) => {}
        }
        Ok(())
    }
}

// `TCA_ACT_FLAGS`, a bitfield, and `TCA_ACT_FLAGS_SKIP_HW` with `TCA_ACT_FLAGS_SKIP_SW` in its value (`linux/pkt_cls.h`).
const ACTION_FLAGS: u16 = 7;
const OFFLOAD_FLAGS: u8 = 6;

fn has_offload_flag(action: &TcAction) -> bool {
    action.attributes.iter().any(|attribute| match attribute {
        TcActionAttribute::Other(nla) if nla.kind() & NLA_TYPE_MASK == ACTION_FLAGS => {
            nla.value().first().is_some_and(|first| first & OFFLOAD_FLAGS != 0)
        }
        _ => false,
    })
}
