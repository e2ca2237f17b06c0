//! Texts about objects, with names of interfaces for their indices.

use crate::netlink::Device;
use std::fmt::Display;

/// A text in which these interfaces have their names: for the index after `dev`, as in lines, and after `of interface`.
pub(crate) fn named(devices: &[Device], text: impl Display) -> String {
    let mut words: Vec<String> = Vec::new();
    for word in text.to_string().split(' ') {
        let number = word.trim_end_matches([':', ',', ';']);
        let is_index = |device: &&Device| number.parse::<u32>().ok() == Some(device.index);
        let name = devices.iter().find(is_index).map(|device| format!("{}{}", device.name, &word[number.len()..]));
        let before: Vec<&str> = words.iter().rev().take(2).map(String::as_str).collect();
        match (name, before.as_slice()) {
            (Some(name), ["dev", ..]) => words.push(name),
            (Some(name), ["interface", "of"]) => {
                words.pop();
                words.push(name);
            }
            _ => words.push(word.to_string()),
        }
    }
    words.join(" ")
}

#[cfg(test)]
mod tests {
    use super::*;

    #[test]
    fn indices_become_names() {
        let device = |index, name: &str| Device { index, name: name.to_string(), ..Device::default() };
        let devices = [device(7, "wan"), device(8, "7")];
        let of = |text: &str| named(&devices, text);
        assert_eq!(of("class 1:10 dev 7 parent 1:1: isn't there"), "class 1:10 dev wan parent 1:1: isn't there");
        assert_eq!(of("class 1:10 of interface 8: gone"), "class 1:10 of 7: gone");
        assert_eq!(of("dev 9 and interface 7 and 7"), "dev 9 and interface 7 and 7");
    }
}
