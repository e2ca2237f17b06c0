//! What to do where a run ends with something else than there was.

use super::file::{Head, read_save};
use super::shell::word;
use crate::netlink::Devices;
use crate::netlink::devices::is_name;
use std::fs;

/// The command that makes what a kept state has, on the interfaces that have it today, whatever their names are. The error is that one of them is gone.
pub(crate) fn command_for(kept: &str, today: Option<&Devices>) -> Result<String, String> {
    let head = || read_save(fs::read(kept).ok()?).ok()?.head;
    let words = match today.zip(head()) {
        Some((today, head)) => words_for(&head, today)?,
        None => Vec::new(),
    };
    let words: String = words.iter().map(|it| format!("{it} ")).collect();
    Ok(format!("tcapply {words}{}", word(kept)))
}

// The options that say how interfaces are called today.
fn words_for(head: &Head, today: &Devices) -> Result<Vec<String>, String> {
    let named = |index: i32| u32::try_from(index).ok().and_then(|index| today.at(index));
    if let Some(gone) = head.devs.iter().find(|dev| named(dev.index).is_none()) {
        return Err(format!("{} ({}) is gone", gone.name, gone.index));
    }
    let mut words = Vec::new();
    for (index, old) in &head.names {
        let Some(device) = named(*index).filter(|device| device.name != *old) else { continue };
        let new = if is_name(&device.name) { device.name.clone() } else { device.index.to_string() };
        match head.devs.as_slice() {
            [one] if one.index == *index => words.push(format!("--dev {}", word(&new))),
            _ => words.push(format!("--map {}", word(&format!("{old}={new}")))),
        }
    }
    Ok(words)
}

#[cfg(test)]
mod tests {
    use super::super::folder::of_test;
    use super::*;
    use crate::netlink::attributes::put;
    use crate::netlink::message::{RTM_NEWLINK, request};

    fn devices(all: &[(u32, &str)]) -> Devices {
        let link = |(index, name): &(u32, &str)| {
            let mut body = [[0; 4], index.to_ne_bytes(), [0; 4], [0; 4]].concat();
            put(&mut body, 3, &[name.as_bytes(), &[0]].concat());
            request(RTM_NEWLINK, 0, &body)
        };
        Devices::in_links(&all.iter().map(link).collect::<Vec<_>>()).expect("interfaces")
    }

    fn said(name: &str, devs: &str, today: &[(u32, &str)]) -> String {
        let path = of_test(name);
        let head = format!(r#"{{"save":1,"devs":{devs},"names":{{"7":"wan","8":"lan","9":"ids"}}}}"#);
        fs::write(&path, format!("{head}\n{{\"end\":0}}\n")).expect("written");
        let path_text = path.display().to_string();
        let said = command_for(&path_text, Some(&devices(today))).unwrap_or_else(|gone| gone);
        fs::remove_file(path).expect("removed");
        said.replace(&path_text, "X")
    }

    #[test]
    fn names_of_today() {
        const ONE: &str = r#"{"wan":{"index":7}}"#;
        const TWO: &str = r#"{"wan":{"index":7},"lan":{"index":8}}"#;
        assert_eq!(said("advice-1", ONE, &[(7, "wan"), (8, "lan"), (9, "ids")]), "tcapply X");
        assert_eq!(said("advice-2", ONE, &[(7, "lan"), (8, "wan"), (9, "ids")]), "tcapply --dev lan --map lan=wan X");
        assert_eq!(
            said("advice-3", TWO, &[(7, "lan"), (8, "wan"), (9, "ids")]),
            "tcapply --map wan=lan --map lan=wan X"
        );
        assert_eq!(said("advice-4", ONE, &[(7, "$(id)"), (8, "lan")]), "tcapply --dev '$(id)' X");
        assert_eq!(said("advice-5", ONE, &[(7, "a\u{fffd}")]), "tcapply --dev 7 X");
        assert_eq!(said("advice-6", TWO, &[(7, "wan"), (9, "ids")]), "lan (8) is gone");
        assert_eq!(command_for("/no/such", Some(&devices(&[]))), Ok("tcapply /no/such".to_string()));
        assert_eq!(command_for("/no/$x", None), Ok("tcapply '/no/$x'".to_string()));
    }
}
