//! The classes that a filter names.

use crate::user::prelude::*;

use crate::nla_frames::DefaultNla;
use crate::plan::configs::frames::{frames_of, type_of};
use crate::restore::kind_of_message;
use crate::tc_flower::TcFilterFlowerOption;
use crate::tc_messages::{TcAttribute, TcMessage};
use crate::tc_options::{TcFilterBpfOption, TcFilterMatchAllOption, TcFilterU32Option, TcOption};

/// The handles of the classes that a filter of any kind names.
pub(crate) fn classes_of(filter: &TcMessage) -> Result<Vec<u32>, AllocError> {
    let wanted = class_type(kind_of_message(filter));
    let mut classes = Vec::new();
    for attribute in &filter.attributes {
        match attribute {
            TcAttribute::Options(options) => classes = with_classes(classes, options)?,
            TcAttribute::OptionsRaw(nla) => {
                classes = with_raw_classes(classes, wanted, nla.value())?;
            }
            _ => {}
        }
    }
    Ok(classes)
}

fn with_classes(classes: Vec<u32>, options: &[TcOption]) -> Result<Vec<u32>, AllocError> {
    let mut classes = classes;
    for option in options {
        if let Some(class) = class_of(option) {
            classes.try_push(class)?;
        }
    }
    Ok(classes)
}

// The class that an option names.
fn class_of(option: &TcOption) -> Option<u32> {
    match option {
        TcOption::U32(TcFilterU32Option::ClassId(handle)) => Some(u32::from(*handle)),
        TcOption::Flower(TcFilterFlowerOption::ClassId(handle)) => Some(*handle),
        TcOption::Flower(TcFilterFlowerOption::Other(nla)) => number_if(nla, 1),
        TcOption::MatchAll(TcFilterMatchAllOption::ClassId(handle)) => Some(u32::from(*handle)),
        TcOption::Bpf(TcFilterBpfOption::ClassId(handle)) => Some(u32::from(*handle)),
        _ => None,
    }
}

// The type of a kind's class: `TCA_BASIC_CLASSID`, `TCA_FW_CLASSID`, `TCA_ROUTE4_CLASSID`, `TCA_RSVP_CLASSID`, `TCA_FLOW_BASECLASS` and
// `TCA_TCINDEX_CLASSID` of `linux/pkt_cls.h`; 0 of another kind.
fn class_type(kind: &str) -> u16 {
    match kind {
        "basic" | "fw" | "route" | "rsvp" | "rsvp6" => 1,
        "flow" => 3,
        "tcindex" => 5,
        _ => 0,
    }
}

fn with_raw_classes(classes: Vec<u32>, class_type: u16, bytes: &[u8]) -> Result<Vec<u32>, AllocError> {
    let mut classes = classes;
    for option in frames_of(bytes)? {
        if let Some(class) = number_if(&option, class_type) {
            classes.try_push(class)?;
        }
    }
    Ok(classes)
}

// The number in a frame of this type; 0 is no type.
fn number_if(frame: &DefaultNla, wanted: u16) -> Option<u32> {
    match frame.value() {
        [a, b, c, d] if wanted != 0 && type_of(frame) == wanted => Some(u32::from_le_bytes([*a, *b, *c, *d])),
        _ => None,
    }
}
