//! A program that builds a qdisc and a filter, emits them, reads them again and looks into them. Over netlink-packet-route
//! 0.34.0 its imports are
//!
//! ```text
//! use netlink_packet_core::{Emitable, Parseable};
//! use netlink_packet_route::tc::{ .. the same .. };
//! ```
#![allow(clippy::field_reassign_with_default)] // that crate's types are `#[non_exhaustive]`, so its users set fields

use conjareho::tc::{
    TcAction, TcActionAttribute, TcActionGeneric, TcActionMirrorOption, TcActionOption, TcActionType, TcAttribute,
    TcFilterFlowerOption, TcHandle, TcMessage, TcMirror, TcMirrorActionType, TcOption, TcQdiscFqCodelOption,
};
use conjareho::{Emitable, ParseableBytes};

fn qdisc() -> TcMessage {
    let mut message = TcMessage::with_index(2);
    message.header.handle = TcHandle { major: 1, minor: 0 };
    message.header.parent = TcHandle::ROOT;
    message.attributes = vec![
        TcAttribute::Kind("fq_codel".to_string()),
        TcAttribute::Options(vec![
            TcOption::FqCodel(TcQdiscFqCodelOption::Limit(10240)),
            TcOption::FqCodel(TcQdiscFqCodelOption::Ecn(1)),
        ]),
    ];
    message
}

fn filter() -> TcMessage {
    let mut mirror = TcMirror::default();
    mirror.generic = TcActionGeneric::default();
    mirror.generic.action = TcActionType::Stolen;
    mirror.eaction = TcMirrorActionType::EgressRedir;
    mirror.ifindex = 7;
    let mut action = TcAction::default();
    action.tab = 1;
    action.attributes = vec![
        TcActionAttribute::Kind("mirred".to_string()),
        TcActionAttribute::Options(vec![TcActionOption::Mirror(TcActionMirrorOption::Parms(mirror))]),
    ];
    let mut message = TcMessage::default();
    message.header.index = 2;
    message.header.parent = TcHandle::from(0xffff_fff2);
    message.attributes.push(TcAttribute::Kind("flower".to_string()));
    message.attributes.push(TcAttribute::Options(vec![
        TcOption::Flower(TcFilterFlowerOption::EthType(0x0800)),
        TcOption::Flower(TcFilterFlowerOption::Ipv4Dst([192, 0, 2, 1].into())),
        TcOption::Flower(TcFilterFlowerOption::Actions(vec![action])),
    ]));
    message
}

fn main() {
    for message in [qdisc(), filter()] {
        let mut bytes = vec![0; message.buffer_len()];
        message.emit(&mut bytes);
        let again = TcMessage::parse(&bytes[..]).expect("it was just written");
        assert_eq!(again, message.clone());
        for attribute in &again.attributes {
            match attribute {
                TcAttribute::Kind(kind) => println!("kind {kind} on interface {}", again.header.index),
                TcAttribute::Options(options) => println!("{} options: {options:?}", options.len()),
                _ => {}
            }
        }
    }
}
