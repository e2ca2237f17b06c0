//! Runs of tcrestore.

use super::fake::{EBUSY, EEXIST, ENOENT, Fake, Hook, OTHER, State, object};
use super::{Ran, WAN, of, plain, run_by, saved, taking, tree, types};
use crate::apply::messages::type_of;
use crate::apply::plan::plan;
use crate::apply::restore::arguments_of;
use crate::apply::status::Status;
use crate::netlink::attributes::put;
use crate::netlink::message::*;
use std::io::Write as _;
use std::process::{Command, Stdio};

fn run(words: &[&str], file: &str, objects: Vec<Vec<u8>>, fake: &Fake) -> Ran {
    run_by(arguments_of, words, file, objects, fake, None)
}

#[test]
fn makes_what_the_file_says() {
    let ran = run(&[], &saved(tree(1000)), Vec::new(), &Fake::new(taking()));
    assert_eq!((ran.status, ran.said.as_str()), (Status::Restored, ""));
    assert_eq!(plain(&ran.objects), plain(&tree(1000)));
    let ran = run(&["--clear"], &saved(tree(1000)), tree(2000), &Fake::new(taking()));
    assert_eq!((ran.status, ran.said.as_str()), (Status::Restored, ""));
    assert_eq!(plain(&ran.objects), plain(&tree(1000)));
    assert_eq!(types(&ran.sent), [37, 37, 36, 36, 40, 40, 44, 44]);
}

#[test]
fn an_interface_without_anything_is_a_save_too() {
    let ran = run(&["--clear"], &saved(Vec::new()), tree(1), &Fake::new(taking()));
    assert_eq!((ran.status, ran.objects.len()), (Status::Restored, 0));
    let ran = run(&[], &saved(Vec::new()), tree(1), &Fake::new(taking()));
    assert_eq!((ran.status, ran.sent.len()), (Status::Restored, 0));
}

#[test]
fn nothing_is_sent_of_a_save_that_was_cut() {
    let whole = saved(tree(1));
    let lines: Vec<&str> = whole.lines().collect();
    for count in 0..lines.len() {
        let ran = run(&["--clear"], &lines[..count].join("\n"), tree(2), &Fake::new(taking()));
        assert_eq!((ran.status, ran.sent.len()), (Status::NothingSent, 0), "{count} lines: {}", ran.said);
    }
}

#[test]
fn a_qdisc_in_a_class_of_taprio_takes_the_place_of_taprio_itself() {
    let all = vec![
        of(RTM_NEWQDISC, 0x1_0000, 0xFFFF_FFFF, "taprio", &[]),
        of(RTM_NEWQDISC, 0x2_0000, 0x1_0001, "pfifo", &[]),
    ];
    let is_refused = |message: &[u8]| {
        tcmsg_of(message).is_some_and(|it| it.parent == 0x1_0001)
            && u16_at(message, 6).is_some_and(|it| it & 0x100 == 0)
    };
    let refusing: Hook = Box::new(move |_, _, message| is_refused(message).then_some(EEXIST));
    let ran = run(&[], &saved(all.clone()), Vec::new(), &Fake::new(refusing));
    assert_eq!((ran.status, plain(&ran.objects)), (Status::Restored, plain(&all)), "{}", ran.said);
    assert_eq!(ran.sent.len(), 3);
}

// A filter with an action of iptables, whose number isn't among its parameters.
fn of_iptables() -> Vec<u8> {
    let nest = |attributes: &[(u16, &[u8])]| {
        let mut list = Vec::new();
        attributes.iter().for_each(|(kind, value)| put(&mut list, *kind, value));
        list
    };
    let options = nest(&[(3, &11u32.to_ne_bytes()), (6, &[0; 40])]);
    let actions = nest(&[(1, &nest(&[(1, b"xt\0"), (2, &options)]))]);
    let header = Tcmsg { index: WAN, handle: 2, parent: 0xFFFF_FFF2, info: 0x0003_0008 };
    let mut body = tc_request(0, 0, header)[HEADER..].to_vec();
    body.extend(nest(&[(1, b"matchall\0"), (2, &nest(&[(2, &actions)]))]));
    let mut message = request(RTM_NEWTFILTER, 0, &body);
    message[6..8].copy_from_slice(&2u16.to_ne_bytes());
    message
}

#[test]
fn nothing_is_sent_if_an_action_has_no_number() {
    let (with, without) = ([tree(1), vec![of_iptables()]].concat(), tree(2));
    for (wanted, now) in [(&with, &without), (&without, &with)] {
        let ran = run(&["--clear"], &saved(wanted.clone()), now.clone(), &Fake::new(taking()));
        assert_eq!((ran.status, ran.sent.len()), (Status::NothingSent, 0), "{}", ran.said);
        assert!(ran.said.contains("an action without a number"), "{}", ran.said);
    }
    let ran = run(&["--clear", "--no-rollback"], &saved(without.clone()), with, &Fake::new(taking()));
    assert_eq!((ran.status, plain(&ran.objects)), (Status::Restored, plain(&without)), "{}", ran.said);
}

// Each request refused in turn.
#[test]
fn a_refusal_brings_back_what_was_there() {
    let file = saved(tree(1000));
    for at in 1..=8 {
        let refusing: Hook = Box::new(move |_, number, _| (number == at).then_some(ENOENT));
        let ran = run(&["--clear"], &file, tree(2000), &Fake::new(refusing));
        assert_eq!((ran.status, plain(&ran.objects)), (Status::Back, plain(&tree(2000))), "request {at}: {}", ran.said);
        assert!(ran.said.contains("before-"), "{}", ran.said);
    }
}

#[test]
fn without_clear_only_what_was_made_is_deleted() {
    let (root, clsact): (Vec<_>, Vec<_>) = tree(1000)
        .into_iter()
        .partition(|it| tcmsg_of(it).is_some_and(|it| it.handle >> 16 == 1 || it.parent >> 16 == 1));
    for at in 1..=4 {
        let refusing: Hook = Box::new(move |_, number, _| (number == at).then_some(EEXIST));
        let ran = run(&[], &saved(root.clone()), clsact.clone(), &Fake::new(refusing));
        assert_eq!((ran.status, plain(&ran.objects)), (Status::Back, plain(&clsact)), "request {at}: {}", ran.said);
        // What goes with the root qdisc takes no request.
        assert!(types(&ran.sent).iter().filter(|kind| **kind % 4 == 1).count() < at);
    }
    let ran = run(&[], &saved(root.clone()), clsact.clone(), &Fake::new(taking()));
    assert_eq!((ran.status, plain(&ran.objects)), (Status::Restored, plain(&tree(1000))));
}

#[test]
fn a_signal_brings_back_what_was_there() {
    for at in 2..=8 {
        let signalling: Hook = Box::new(move |state, number, _| {
            if number >= at {
                state.signal = Some("SIGINT");
            }
            None
        });
        let ran = run(&["--clear"], &saved(tree(1000)), tree(2000), &Fake::new(signalling));
        assert_eq!((ran.status, plain(&ran.objects)), (Status::Back, plain(&tree(2000))), "request {at}: {}", ran.said);
        assert!(ran.said.starts_with("SIGINT came"), "{}", ran.said);
    }
    let fake = Fake::new(taking());
    fake.state.borrow_mut().signal = Some("SIGTERM");
    let ran = run(&["--clear"], &saved(tree(1000)), tree(2000), &fake);
    assert_eq!((ran.status, ran.sent.len()), (Status::NothingSent, 0));
}

#[test]
fn what_others_make_is_left() {
    let theirs = || of(RTM_NEWTFILTER, 9, 0xFFFF_FFF3, "matchall", &[(1, 0x1_0010)]);
    let other: Hook = Box::new(move |state, number, _| {
        if number == 4 {
            state.objects.push(theirs());
            state.tell(&theirs(), OTHER);
        }
        None
    });
    let ran = run(&["--clear"], &saved(tree(1000)), tree(2000), &Fake::new(other));
    assert_eq!((ran.status, types(&ran.sent)), (Status::Lost, vec![37, 37, 36, 36]), "{}", ran.said);
    assert!(ran.said.contains("netlink port 4242") && ran.said.contains("before-"), "{}", ran.said);
    assert!(plain(&ran.objects).contains(&plain(&[theirs()])[0]));
}

// What the kernel does without a request has port 0; another interface may change.
#[test]
fn what_the_kernel_does_by_itself_is_no_reason_to_stop() {
    let telling: Hook = Box::new(|state, _, _| {
        state.tell(&of(RTM_NEWCHAIN, 0, 0xFFFF_FFF2, "", &[]), 0);
        state.tell(&object(RTM_NEWQDISC, Tcmsg { index: 8, handle: 5, parent: 5, info: 0 }, "drr", &[]), OTHER);
        None
    });
    let ran = run(&["--clear"], &saved(tree(1000)), tree(2000), &Fake::new(telling));
    assert_eq!(ran.status, Status::Restored, "{}", ran.said);
}

#[test]
fn others_before_the_first_request() {
    let fake = Fake::new(taking());
    // The last looks at the interfaces before the first request: it is planned anew three times.
    let hook = |state: &mut State, number: usize| {
        if number >= 4 && number % 3 == 1 {
            state.tell(&of(RTM_NEWQDISC, 0x5_0000, 0xFFFF_FFFF, "drr", &[]), OTHER);
        }
    };
    fake.state.borrow_mut().on_links = Some(Box::new(hook));
    let ran = run(&["--clear"], &saved(tree(1000)), tree(2000), &fake);
    assert_eq!((ran.status, ran.sent.len()), (Status::NothingSent, 0), "{}", ran.said);
    assert!(ran.said.contains("netlink port 4242"), "{}", ran.said);
}

#[test]
fn what_lives_on_is_tried_again() {
    let mut left = 3;
    let busy: Hook = Box::new(move |_, number, _| {
        if number < 5 || left == 0 {
            return None;
        }
        left -= 1;
        Some(EBUSY)
    });
    let ran = run(&["--clear"], &saved(tree(1000)), tree(2000), &Fake::new(busy));
    assert_eq!((ran.status, ran.sent.len()), (Status::Restored, 11), "{}", ran.said);
    // Without --clear nothing was deleted, and nothing passes.
    let refusing: Hook = Box::new(|_, number, _| (number == 1).then_some(EEXIST));
    let ran = run(&[], &saved(tree(1000)), Vec::new(), &Fake::new(refusing));
    assert_eq!((ran.status, ran.sent.len()), (Status::Back, 1), "{}", ran.said);
}

#[test]
fn a_silent_kernel_is_a_refusal() {
    let silent: Hook = Box::new(|_, number, _| (number == 5).then_some(0));
    let ran = run(&["--clear"], &saved(tree(1000)), tree(2000), &Fake::new(silent));
    assert_eq!((ran.status, plain(&ran.objects)), (Status::Back, plain(&tree(2000))), "{}", ran.said);
}

#[test]
fn what_is_taken_otherwise_is_found() {
    let changing: Hook = Box::new(|state, number, _| {
        if number == 8 {
            state.objects.pop();
        }
        None
    });
    let ran = run(&["--clear"], &saved(tree(1000)), tree(2000), &Fake::new(changing));
    assert_eq!((ran.status, plain(&ran.objects)), (Status::Back, plain(&tree(2000))), "{}", ran.said);
    assert!(ran.said.contains("isn't there"), "{}", ran.said);
}

#[test]
fn an_interface_that_is_another_one_is_left() {
    let moving: Hook = Box::new(|state, number, _| {
        if number == 2 {
            state.devices[0].1 = "lan".to_string();
        }
        None
    });
    let ran = run(&["--clear"], &saved(tree(1000)), tree(2000), &Fake::new(moving));
    assert_eq!((ran.status, ran.sent.len()), (Status::Lost, 2), "{}", ran.said);
    assert!(ran.said.contains("interface 7 was wan, and is lan now"), "{}", ran.said);
}

#[test]
fn what_cannot_be_made_again_is_not_deleted() {
    let red = || vec![of(RTM_NEWQDISC, 0x2_0000, 0xFFFF_FFFF, "red", &[])];
    let ran = run(&["--clear"], &saved(tree(1000)), red(), &Fake::new(taking()));
    assert_eq!((ran.status, ran.sent.len()), (Status::NothingSent, 0), "{}", ran.said);
    assert!(ran.said.contains("--no-rollback"), "{}", ran.said);
    let ran = run(&["--clear", "--no-rollback"], &saved(tree(1000)), red(), &Fake::new(taking()));
    assert_eq!((ran.status, plain(&ran.objects)), (Status::Restored, plain(&tree(1000))), "{}", ran.said);
    let refusing: Hook = Box::new(|_, number, _| (number == 5).then_some(ENOENT));
    let ran = run(&["--clear", "--no-rollback"], &saved(tree(1000)), red(), &Fake::new(refusing));
    assert_eq!((ran.status, ran.sent.len()), (Status::Lost, 5), "{}", ran.said);
}

#[test]
fn the_rest_is_made_if_that_is_asked_for() {
    let file = saved([tree(1000), vec![of(RTM_NEWQDISC, 0x2_0000, 0x1_0010, "red", &[])]].concat());
    let ran = run(&[], &file, Vec::new(), &Fake::new(taking()));
    assert_eq!((ran.status, ran.sent.len()), (Status::NothingSent, 0), "{}", ran.said);
    let ran = run(&["--partial"], &file, Vec::new(), &Fake::new(taking()));
    assert_eq!((ran.status, plain(&ran.objects)), (Status::Otherwise, plain(&tree(1000))), "{}", ran.said);
}

#[test]
fn interfaces_by_their_names() {
    let file = saved(tree(1000));
    let fake = Fake::new(taking());
    fake.state.borrow_mut().devices[0].1 = "lan".to_string();
    let ran = run(&[], &file, Vec::new(), &fake);
    assert_eq!((ran.status, ran.sent.len()), (Status::NothingSent, 0));
    assert!(ran.said.contains("there is no interface wan"), "{}", ran.said);
    let ran = run(&["--map", "wam=lan"], &file, Vec::new(), &fake);
    assert!(ran.said.contains("the save names no interface wam"), "{}", ran.said);
    for words in [["--map", "wan=lan"], ["--dev", "lan"]] {
        let fake = Fake::new(taking());
        fake.state.borrow_mut().devices[0].1 = "lan".to_string();
        let ran = run(&words, &file, Vec::new(), &fake);
        assert_eq!((ran.status, plain(&ran.objects)), (Status::Restored, plain(&tree(1000))), "{}", ran.said);
    }
}

#[test]
fn another_mac_is_a_warning() {
    let fake = Fake::new(taking());
    fake.state.borrow_mut().devices[0].2[5] = 9;
    let ran = run(&[], &saved(tree(1000)), Vec::new(), &fake);
    assert_eq!(ran.status, Status::Restored);
    assert_eq!(ran.said, "wan has another MAC than wan when it was saved: 02:00:00:00:00:09 for 02:00:00:00:00:07");
}

// A save of an older version is taken by its indices, and never clears.
#[test]
fn a_save_without_a_head() {
    let whole = saved(tree(1000));
    let lines: Vec<&str> = whole.lines().collect();
    let old = lines[1..lines.len() - 1].join("\n");
    let ran = run(&[], &old, Vec::new(), &Fake::new(taking()));
    assert_eq!((ran.status, plain(&ran.objects)), (Status::Restored, plain(&tree(1000))), "{}", ran.said);
    assert!(ran.said.contains("by index: 7 (wan)"), "{}", ran.said);
    let ran = run(&["--clear"], &old, tree(2000), &Fake::new(taking()));
    assert_eq!((ran.status, ran.sent.len()), (Status::NothingSent, 0));
}

// Without --clear a file may lack what is there, such as the qdisc of a filter; it stays. What is nowhere is named.
#[test]
fn a_file_of_some_objects() {
    let whole = saved(tree(1000));
    let lines: Vec<&str> = whole.lines().collect();
    let filter = lines.iter().find(|it| it.contains("RTM_NEWTFILTER")).expect("a filter");
    let file = format!("{}\n{filter}\n{{\"end\":true}}\n", lines[0]);
    let before: Vec<_> = tree(1000).into_iter().filter(|it| type_of(it) != RTM_NEWTFILTER).collect();
    let ran = run(&[], &file, before.clone(), &Fake::new(taking()));
    assert_eq!((ran.status, ran.said.as_str(), types(&ran.sent)), (Status::Restored, "", vec![44]));
    assert_eq!(ran.objects.len(), before.len() + 1);
    for (words, objects) in [(&[][..], Vec::new()), (&["--clear"], before)] {
        let ran = run(words, &file, objects, &Fake::new(taking()));
        assert_eq!((ran.status, ran.sent.len()), (Status::NothingSent, 0), "{}", ran.said);
        assert!(ran.said.contains("line 2: ") && ran.said.contains("is missing"), "{}", ran.said);
    }
}

// What is sent is what tcmake plans where nothing is; of the program at `TCMAKE`, if there is one.
#[test]
fn sends_what_tcmake_makes() {
    let file = saved(tree(1000));
    let ran = run(&["--clear"], &file, tree(2000), &Fake::new(taking()));
    let sent = ran.sent.iter().filter(|it| type_of(it) % 4 == 0);
    let without_numbers = |message: &[u8]| [&message[..8], &message[HEADER..]].concat();
    let sent: Vec<Vec<u8>> = sent.map(|it| without_numbers(it)).collect();
    let made = made_by_tcmake(&file);
    let made: Vec<Vec<u8>> = Messages::of(&made).map(|it| without_numbers(it.expect("a message").1)).collect();
    assert_eq!((made.len(), sent), (6, made));
}

fn made_by_tcmake(file: &str) -> Vec<u8> {
    let Some(program) = std::env::var_os("TCMAKE") else {
        let mut dumps = tree(1000);
        dumps.sort_by_key(|it| type_of(it));
        return plan(&[], &dumps, |_| false).expect("a plan").concat();
    };
    let mut child = Command::new(program)
        .args(["--plan", "/dev/null", "--stream"])
        .stdin(Stdio::piped())
        .stdout(Stdio::piped())
        .spawn()
        .expect("tcmake");
    child.stdin.take().expect("a pipe").write_all(file.as_bytes()).expect("written");
    child.wait_with_output().expect("its output").stdout
}
