//! Plans between states that Linux 6.18 dumped: each as `-n` prints it.

use crate::apply::outline::lines;
use crate::apply::plan::{model, plan};
use crate::apply::requests::{Asked, dumps_of};
use crate::apply::wanted::messages_in;
use crate::make::program::plans::state_of_dumps;
use crate::netlink::Devices;
use crate::plan::objects::KindRules;

/// Each with what there is, what is wanted, and the plan.
macro_rules! cases {
    ($($name:ident),+ $(,)?) => {
        $(#[test]
        fn $name() {
            let folder = concat!("../../../testdata/plans/", stringify!($name));
            check(
                folder,
                include_str!(concat!("../../../testdata/plans/", stringify!($name), ".now.json")),
                include_str!(concat!("../../../testdata/plans/", stringify!($name), ".wanted.json")),
                include_str!(concat!("../../../testdata/plans/", stringify!($name), ".plan")),
            );
        })+
    };
}

cases!(
    order_lost,
    order_only,
    order_added,
    order_kept,
    u32_table_stays,
    u32_class_back,
    u32_class_made,
    block_order,
    block_port,
    chain_explicit,
    tbf_fifo,
    inner_prio,
    inner_child,
    shared_action,
    held_action,
);

fn dumps(save: &str) -> Vec<Vec<u8>> {
    let lines: Vec<&str> =
        save.lines().filter(|line| !line.starts_with("{\"save\"") && !line.starts_with("{\"end\"")).collect();
    let asked = Asked { text: &lines.join("\n"), ..Asked::default() };
    messages_in(&asked, false).expect("dumps").into_iter().map(|(_, message)| message).collect()
}

fn check(name: &str, now: &str, wanted: &str, expected: &str) {
    let (now, wanted) = (dumps(now), dumps(wanted));
    let steps = plan(&now, &wanted, |_| false).expect("a plan");
    let said = lines(&steps, &now, &wanted, &Devices::default()).join("\n") + "\n";
    assert_eq!(said, expected, "{name}");
    // The model that plans are made by ends with what is wanted.
    let mut model = model(&now, &wanted).expect("a model");
    let passed = std::iter::repeat_with(|| model.pass()).take_while(|has_passed| *has_passed).count();
    assert_eq!(passed, steps.len(), "{name}");
    let end = state_of_dumps(None, dumps_of(&wanted)).ok().flatten().expect("a state");
    assert_eq!(model.differences(&KindRules, &end), Ok(Vec::new()), "{name}");
}
