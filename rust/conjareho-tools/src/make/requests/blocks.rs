//! The blocks of qdiscs.

use crate::user::prelude::*;

use crate::make::messages::BuiltMessage;
use crate::make::requests::restore::{Dump, dump_of};
use crate::nla_frames::ParseableBytes;
use crate::plan::restored::{Key, block_of};
use crate::restore::Object;
use crate::tc_messages::TcMessage;

/// The blocks of a qdisc's dump: `TCA_INGRESS_BLOCK` and `TCA_EGRESS_BLOCK`. One that can't be read has none.
///
/// # Errors
///
/// A [`AllocError`].
pub fn blocks_of(made: &BuiltMessage) -> Result<Vec<u32>, AllocError> {
    let mut blocks = Vec::new();
    if !matches!(dump_of(made.given.kind), Ok(Dump::Of(Object::Qdisc))) {
        return Ok(blocks);
    }
    if let Ok(message) = TcMessage::parse(&made.bytes) {
        for attribute in &message.attributes {
            if let Some(Key::Block { number }) = block_of(attribute) {
                blocks.try_push(number)?;
            }
        }
    }
    Ok(blocks)
}
