//! Names of interfaces.

use crate::user::prelude::*;

use std::collections::BTreeMap;

/// Names of interfaces, by index.
pub type LinkNames = BTreeMap<u64, String>;

// The first name of an interface index.
pub(crate) fn given_name<'a>(interfaces: &[(u32, &'a str)], number: u64) -> Option<&'a str> {
    match interfaces.split_first() {
        Some((interface, _)) if interface.0 as u64 == number => Some(interface.1),
        Some((_, others)) => given_name(others, number),
        None => None,
    }
}

// The name of an interface index among others.
pub(crate) fn link_name<'a>(links: Option<&'a LinkNames>, number: u64) -> Option<&'a str> {
    match links {
        Some(links) => name_in(links, number),
        None => None,
    }
}

fn name_in(links: &LinkNames, number: u64) -> Option<&str> {
    match links.get(&number) {
        Some(name) => Some(name.as_str()),
        None => None,
    }
}
