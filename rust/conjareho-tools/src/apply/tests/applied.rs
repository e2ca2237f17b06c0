//! Runs of tcapply.

use super::fake::{EBUSY, Fake, Hook, OTHER, State};
use super::{Ran, of, plain, run_by, saved, taking, tree, types};
use crate::apply::arguments::arguments_of;
use crate::apply::messages::{replaces, type_of};
use crate::apply::status::Status;
use crate::netlink::message::*;

fn run_held(file: &str, objects: Vec<Vec<u8>>, fake: &Fake, held: impl Fn() -> Result<(), &'static str>) -> Ran {
    run_by(arguments_of, &[], file, objects, fake, Some(&held))
}

fn run_with(words: &[&str], file: &str, objects: Vec<Vec<u8>>, fake: &Fake) -> Ran {
    run_by(arguments_of, words, file, objects, fake, None)
}

fn run(file: &str, objects: Vec<Vec<u8>>, fake: &Fake) -> Ran {
    run_with(&[], file, objects, fake)
}

// The tree with another filter.
fn otherwise() -> Vec<Vec<u8>> {
    let mut all = tree(1000);
    all.pop();
    all.push(of(RTM_NEWTFILTER, 1, 0xFFFF_FFF3, "matchall", &[(1, 0x1_0020)]));
    all
}

#[test]
fn what_is_there_already_takes_no_request() {
    let ran = run(&saved(tree(1000)), tree(1000), &Fake::new(taking()));
    let said = "nothing to do: what is there is what standard input says";
    assert_eq!((ran.status, ran.said.as_str(), ran.sent.len(), ran.kept), (Status::Restored, said, 0, 0));
    let ran = run_with(&["-q"], &saved(tree(1000)), tree(1000), &Fake::new(taking()));
    assert_eq!((ran.status, ran.said.as_str()), (Status::Restored, ""));
}

// Indices of yesterday may be other interfaces' today.
#[test]
fn a_save_without_a_head_is_taken_for_the_interface_that_is_named() {
    let whole = saved(tree(1000));
    let lines: Vec<&str> = whole.lines().collect();
    let old = lines[1..lines.len() - 1].join("\n");
    let ran = run(&old, tree(2000), &Fake::new(taking()));
    assert_eq!((ran.status, ran.sent.len()), (Status::NothingSent, 0));
    assert!(ran.said.contains("--dev DEV"), "{}", ran.said);
    let ran = run_with(&["--dev", "wan"], &old, tree(2000), &Fake::new(taking()));
    assert_eq!((ran.status, plain(&ran.objects)), (Status::Restored, plain(&tree(1000))), "{}", ran.said);
}

#[test]
fn a_changed_class_takes_one_request() {
    let mut wanted = tree(1000);
    wanted[1] = of(RTM_NEWTCLASS, 0x1_0010, 0x1_0000, "drr", &[(1, 77)]);
    let ran = run(&saved(wanted.clone()), tree(1000), &Fake::new(taking()));
    let said = "1 request: 0 deleted, 1 changed, 0 made; 5 objects stay";
    assert_eq!((ran.status, ran.said.as_str(), types(&ran.sent)), (Status::Restored, said, vec![40]));
    assert!(replaces(&ran.sent[0]));
    assert_eq!(plain(&ran.objects), plain(&wanted));
    assert_eq!(ran.kept, 1);
}

#[test]
fn a_change_that_isnt_made_is_made_anew() {
    let mut wanted = tree(1000);
    wanted[1] = of(RTM_NEWTCLASS, 0x1_0010, 0x1_0000, "drr", &[(1, 77)]);
    let fake = Fake::new(taking());
    fake.state.borrow_mut().ignores_changes = true;
    let ran = run(&saved(wanted.clone()), tree(1000), &fake);
    assert_eq!(ran.status, Status::Restored, "{}", ran.said);
    assert_eq!(plain(&ran.objects).len(), plain(&wanted).len());
    assert!(plain(&wanted).iter().all(|it| plain(&ran.objects).contains(it)), "{}", ran.said);
    let named = ["Linux ", ": class drr 1:10 dev wan ", "; quantum 1000B -> 77B"];
    assert!(named.iter().all(|it| ran.said.contains(it)), "{}", ran.said);
}

#[test]
fn what_isnt_wanted_is_deleted() {
    let ran = run(&saved(Vec::new()), tree(1), &Fake::new(taking()));
    assert_eq!((ran.status, ran.objects.len()), (Status::Restored, 0), "{}", ran.said);
    let ran = run(&saved(tree(1)), Vec::new(), &Fake::new(taking()));
    assert_eq!((ran.status, plain(&ran.objects)), (Status::Restored, plain(&tree(1))), "{}", ran.said);
}

// Each request refused in turn.
#[test]
fn a_refusal_brings_back_what_was_there() {
    let (file, before) = (saved(otherwise()), tree(2000));
    let count = run(&file, before.clone(), &Fake::new(taking())).sent.len();
    assert!(count > 1);
    for at in 1..=count {
        let refusing: Hook = Box::new(move |_, number, _| (number == at).then_some(22));
        let ran = run(&file, before.clone(), &Fake::new(refusing));
        if ran.status != Status::NothingSent {
            assert_eq!(ran.status, Status::Back, "request {at}: {}", ran.said);
            assert!(ran.said.contains("before-"), "{}", ran.said);
        }
        assert_eq!(plain(&ran.objects), plain(&before), "request {at}: {}", ran.said);
    }
    let refusing: Hook = Box::new(move |_, number, _| (number == count).then_some(22));
    let ran = run_with(&["--no-rollback"], &file, before.clone(), &Fake::new(refusing));
    assert_eq!(ran.status, Status::Lost, "{}", ran.said);
    assert!(ran.said.contains("before-") && ran.sent.len() == count, "{}", ran.said);
}

#[test]
fn a_signal_brings_back_what_was_there() {
    for at in 1..=2 {
        let signalling: Hook = Box::new(move |state, number, _| {
            if number >= at {
                state.signal = Some("SIGINT");
            }
            None
        });
        let ran = run(&saved(otherwise()), tree(2000), &Fake::new(signalling));
        assert_eq!((ran.status, plain(&ran.objects)), (Status::Back, plain(&tree(2000))), "request {at}: {}", ran.said);
        assert!(ran.said.starts_with("SIGINT came"), "{}", ran.said);
    }
    let fake = Fake::new(taking());
    fake.state.borrow_mut().signal = Some("SIGTERM");
    let ran = run(&saved(otherwise()), tree(2000), &fake);
    assert_eq!((ran.status, ran.sent.len()), (Status::NothingSent, 0));
}

#[test]
fn without_enter_it_goes_back() {
    let ran = run_held(&saved(otherwise()), tree(2000), &Fake::new(taking()), || Err("SIGHUP"));
    assert_eq!((ran.status, plain(&ran.objects)), (Status::Back, plain(&tree(2000))), "{}", ran.said);
    assert!(ran.said.starts_with("SIGHUP came"), "{}", ran.said);
    let ran = run_held(&saved(otherwise()), tree(2000), &Fake::new(taking()), || Ok(()));
    assert!(ran.asked.contains(" requests: ") && !ran.asked.contains('\n'), "{}", ran.asked);
    assert_eq!((ran.status, ran.said.as_str()), (Status::Restored, "Enter was pressed, so it stays"));
    let ran = run_held(&saved(tree(1000)), tree(1000), &Fake::new(taking()), || Err("SIGHUP"));
    assert_eq!((ran.status, ran.sent.len()), (Status::Restored, 0), "nothing to try");
}

// Of what another changes while Enter is waited for nothing goes back.
#[test]
fn what_others_make_while_enter_is_waited_for_stays() {
    let theirs = of(RTM_NEWTFILTER, 9, 0xFFFF_FFF3, "matchall", &[(1, 0x1_0010)]);
    let class = of(RTM_NEWTCLASS, 0x1_0020, 0x1_0000, "drr", &[(1, 77)]);
    for answer in [Err("SIGHUP"), Ok(())] {
        let fake = Fake::new(taking());
        let held = || {
            let mut state = fake.state.borrow_mut();
            state.objects.push(theirs.clone());
            state.objects.retain(|it| tcmsg_of(it).is_none_or(|own| own.handle != 0x1_0020));
            state.objects.push(class.clone());
            state.tell(&theirs, OTHER);
            state.tell(&class, OTHER);
            answer
        };
        let ran = run_held(&saved(otherwise()), tree(2000), &fake, held);
        if answer.is_ok() {
            assert_eq!(ran.status, Status::Restored, "{}", ran.said);
            assert!(
                ran.said.contains("netlink port 4242") && ran.said.ends_with("Enter was pressed, so it stays"),
                "{}",
                ran.said
            );
            continue;
        }
        let mut wanted = tree(2000);
        wanted[2] = class.clone();
        wanted.push(theirs.clone());
        assert_eq!((ran.status, plain(&ran.objects)), (Status::Back, plain(&wanted)), "{}", ran.said);
        let said = ", but for what another program changed meanwhile, which stays: class 1:20 dev wan parent 1:, filter 0x9 dev wan egress pref 3; ";
        assert!(ran.said.contains(said), "{}", ran.said);
    }
}

// What another deleted stays deleted, with what needs it.
#[test]
fn what_others_delete_while_enter_is_waited_for_stays_deleted() {
    let fake = Fake::new(taking());
    let held = || {
        let mut state = fake.state.borrow_mut();
        let is_class =
            |it: &Vec<u8>| tcmsg_of(it).is_some_and(|own| own.handle == 0x1_0010) && type_of(it) == RTM_NEWTCLASS;
        let class = state.objects.iter().find(|it| is_class(it)).cloned().expect("a class");
        let is_bound =
            |it: &Vec<u8>| type_of(it) == RTM_NEWTFILTER && tcmsg_of(it).is_some_and(|own| own.parent == 0x1_0000);
        state.objects.retain(|it| !is_class(it) && !is_bound(it));
        let mut notice = class;
        notice[4..6].copy_from_slice(&(RTM_NEWTCLASS + 1).to_ne_bytes());
        state.tell(&notice, OTHER);
        Err("SIGHUP")
    };
    let ran = run_held(&saved(otherwise()), tree(2000), &fake, held);
    let mut wanted = tree(2000);
    wanted.remove(4);
    wanted.remove(1);
    assert_eq!((ran.status, plain(&ran.objects)), (Status::Back, plain(&wanted)), "{}", ran.said);
    assert!(ran.said.contains(", which stays: 2 that it deleted; "), "{}", ran.said);
}

#[test]
fn what_others_make_is_left() {
    let theirs = || of(RTM_NEWTFILTER, 9, 0xFFFF_FFF3, "matchall", &[(1, 0x1_0010)]);
    let other: Hook = Box::new(move |state, number, _| {
        if number == 2 {
            state.objects.push(theirs());
            state.tell(&theirs(), OTHER);
        }
        None
    });
    let ran = run(&saved(otherwise()), tree(2000), &Fake::new(other));
    assert_eq!((ran.status, ran.sent.len()), (Status::Lost, 2), "{}", ran.said);
    assert!(ran.said.contains("netlink port 4242") && ran.said.contains("before-"), "{}", ran.said);
    assert!(ran.said.contains("it is left as far as it was applied, with the other's change; "), "{}", ran.said);
    assert!(plain(&ran.objects).contains(&plain(&[theirs()])[0]));
}

// Of another program's change before the first request, or of the kernel's own, there is a new plan, three times at most.
#[test]
fn others_before_the_first_request() {
    let ways = [
        (1, OTHER, Status::Restored),
        (3, OTHER, Status::Restored),
        (4, OTHER, Status::NothingSent),
        (3, 0, Status::Restored),
        (4, 0, Status::NothingSent),
    ];
    for (times, port, status) in ways {
        let fake = Fake::new(taking());
        let mut left = times;
        // The last look at the interfaces before the first request is the fourth, the seventh, the tenth and the thirteenth.
        let hook = move |state: &mut State, number: usize| {
            if number >= 4 && number % 3 == 1 && left > 0 {
                left -= 1;
                let quantum = 3000 + number as u32;
                state.objects[1] = of(RTM_NEWTCLASS, 0x1_0010, 0x1_0000, "drr", &[(1, quantum)]);
                state.tell(&state.objects[1].clone(), port);
            }
        };
        fake.state.borrow_mut().on_links = Some(Box::new(hook));
        let ran = run(&saved(tree(1000)), tree(2000), &fake);
        assert_eq!(ran.status, status, "{times}: {}", ran.said);
        if status == Status::NothingSent {
            let who = if port == 0 { "the kernel changed it" } else { "netlink port 4242" };
            assert!(ran.said.contains(who) && ran.sent.is_empty(), "{}", ran.said);
        } else {
            assert_eq!(plain(&ran.objects), plain(&tree(1000)));
        }
    }
}

#[test]
fn what_lives_on_is_tried_again() {
    let mut left = 3;
    let busy: Hook = Box::new(move |_, number, _| {
        if number < 2 || left == 0 {
            return None;
        }
        left -= 1;
        Some(EBUSY)
    });
    let ran = run(&saved(otherwise()), tree(2000), &Fake::new(busy));
    assert_eq!((ran.status, plain(&ran.objects)), (Status::Restored, plain(&otherwise())), "{}", ran.said);
}

#[test]
fn a_silent_kernel_is_a_refusal() {
    let silent: Hook = Box::new(|_, number, _| (number == 2).then_some(0));
    let ran = run(&saved(otherwise()), tree(2000), &Fake::new(silent));
    assert_eq!((ran.status, plain(&ran.objects)), (Status::Back, plain(&tree(2000))), "{}", ran.said);
}

// Of a file that is wrong nothing is sent, and the line is named.
#[test]
fn wrong_files() {
    let whole = saved(tree(1000));
    let lines: Vec<&str> = whole.lines().collect();
    let edited = |text: String| {
        text.lines()
            .map(|it| if it.starts_with("{\"end\"") { "{\"end\":true}\n".to_string() } else { format!("{it}\n") })
            .collect::<String>()
    };
    let class = lines.iter().position(|it| it.contains("RTM_NEWTCLASS")).expect("a class");
    let of_ids = lines[class].replace("\"index\":7", "\"index\":8");
    assert_ne!(of_ids, lines[class]);
    let cases = [
        (lines[..4].join("\n"), "cut".to_string()),
        (
            whole.replace("{\"index\":7,", "{\"index\":9,").replace("{\"7\":", "{\"9\":").replace("wan", "gone"),
            "there is no interface gone".to_string(),
        ),
        (whole.replace("{\"index\":7,", "{\"index\":9,"), "several interfaces have the name wan".to_string()),
        (whole.replace("{\"7\":\"wan\"", "{\"7\":\"ids\""), "and names has ids as that one".to_string()),
        (edited(whole.replace(lines[class], &format!("{0}\n{0}", lines[class]))), format!("line {}", class + 2)),
        (
            edited(whole.replace("\"7\":\"wan\"", "\"7\":\"wan\",\"8\":\"ids\"").replace(lines[class], &of_ids)),
            format!("line {}", class + 1),
        ),
        (edited(lines[class..].join("\n").replacen("", &format!("{}\n", lines[0]), 1)), "line 2".to_string()),
    ];
    for (file, said) in cases {
        let ran = run(&file, tree(2000), &Fake::new(taking()));
        assert_eq!((ran.status, ran.sent.len(), ran.kept), (Status::NothingSent, 0, 0), "{said}: {}", ran.said);
        assert!(ran.said.contains(&said), "{said}: {}", ran.said);
    }
}
