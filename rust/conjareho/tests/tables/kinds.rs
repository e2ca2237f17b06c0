//! Where the codec's lists and records are in a table, and what depends on the kind.

use crate::codec::Codec;
use crate::look::{choices_at, fields_at, form_at, form_of_field, held_at, place_in, rows_under, shown_row, told};
use conjareho::forms::{ACTION_MESSAGE, Choice, Form, Part, Row, TC_MESSAGE, Tables};

type Rows = Vec<Row<'static>>;

/// The lists of a table under their kinds.
#[derive(Clone, Copy)]
pub struct Lists<T>(T);

impl<T: Tables> Lists<T> {
    pub fn of(table: T) -> Self {
        Self(table)
    }

    fn rows_at(self, kind: &str, form: Form) -> Rows {
        rows_under(self.0, place_in(form), kind)
    }

    fn header(self, message: Form) -> Form {
        form_of_field(self.0, message, "header")
    }

    /// The attributes of a message of a kind.
    fn tc(self, kind: &str) -> Rows {
        self.rows_at(kind, form_of_field(self.0, TC_MESSAGE, "attributes"))
    }

    /// The form of an attribute of a message of a kind.
    fn tc_form(self, kind: &str, word: u16) -> Form {
        form_at(&self.tc(kind), word)
    }

    fn options(self, kind: &str) -> Rows {
        self.rows_at(kind, self.tc_form(kind, 2))
    }

    /// Statistics of a message of a kind.
    fn statistics(self, kind: &str) -> Rows {
        self.rows_at(kind, self.tc_form(kind, 7))
    }

    fn mpls(self) -> Rows {
        self.rows_at("", form_at(&self.options("flower"), 99))
    }

    fn action_message(self) -> Rows {
        self.rows_at("", form_of_field(self.0, ACTION_MESSAGE, "attributes"))
    }

    /// An action, in the list of an action message.
    fn one_action(self) -> Form {
        held_at(self.0, form_at(&self.action_message(), 1))
    }

    fn action(self, kind: &str) -> Rows {
        self.rows_at(kind, self.one_action())
    }

    fn action_form(self, kind: &str, word: u16) -> Form {
        form_at(&self.action(kind), word)
    }

    fn action_options(self, kind: &str) -> Rows {
        self.rows_at(kind, self.action_form(kind, 2))
    }

    fn action_statistics(self, kind: &str) -> Rows {
        self.rows_at(kind, self.action_form(kind, 4))
    }

    /// The form of a record's first field.
    fn first_field(self, form: Form) -> Form {
        fields_at(self.0, form).first().map_or(Form::Hex, |it| it.form)
    }

    /// A record of a kind's own statistics, by its number among the choices.
    fn own_statistics(self, choice: usize) -> Form {
        let choices = choices_at(self.0, self.first_field(self.tc_form("fq_codel", 4)));
        choices.and_then(|it| it.get(choice)).map_or(Form::Hex, |it| it.form)
    }

    /// The name around the attributes of a list.
    fn layer(self, form: Form) -> &'static str {
        match self.0.part(place_in(form)) {
            Part::Rows(layer, _) => layer,
            _ => "",
        }
    }

    /// Each list of the codec, by the name of its definition.
    pub fn all(self) -> Vec<(&'static str, Rows)> {
        vec![
            ("attributes", self.tc("")),
            ("action_message_attributes", self.action_message()),
            ("stats2", self.statistics("")),
            ("stats2", self.statistics("fq_codel")),
            ("fq_codel_options", self.options("fq_codel")),
            ("flower_options", self.options("flower")),
            ("mpls_options", self.mpls()),
            ("lse_options", self.rows_at("", form_at(&self.mpls(), 1))),
            ("u32_options", self.options("u32")),
            ("matchall_options", self.options("matchall")),
            ("bpf_options", self.options("bpf")),
            ("action_attributes", self.action("")),
            ("mirror_options", self.action_options("mirred")),
            ("nat_options", self.action_options("nat")),
            ("tunnel_key_options", self.action_options("tunnel_key")),
        ]
    }

    /// Each record of the codec, by the name of its definition.
    pub fn records(self) -> Vec<(&'static str, Form)> {
        let statistics = self.statistics("");
        let selector = form_at(&self.options("u32"), 5);
        let (mirred, nat, tunnel) =
            (self.action_options("mirred"), self.action_options("nat"), self.action_options("tunnel_key"));
        vec![
            ("tc_header", self.header(TC_MESSAGE)),
            ("action_message_header", self.header(ACTION_MESSAGE)),
            ("flags_pair", form_at(&self.action_message(), 2)),
            ("stats", self.tc_form("", 3)),
            ("stats_basic", form_at(&statistics, 1)),
            ("stats_basic", form_at(&statistics, 7)),
            ("stats_queue", form_at(&statistics, 3)),
            ("fq_codel_qd_stats", self.own_statistics(0)),
            ("fq_codel_cl_stats", self.own_statistics(1)),
            ("selector_head", selector),
            ("selector_key", form_of_field(self.0, selector, "keys")),
            ("mirror", form_at(&mirred, 2)),
            ("tcf", form_at(&mirred, 1)),
            ("nat", form_at(&nat, 1)),
            ("tcf", form_at(&nat, 2)),
            ("tunnel_key", form_at(&tunnel, 2)),
            ("tcf", form_at(&tunnel, 1)),
        ]
    }
}

fn told_rows(rows: &[Row<'static>]) -> Vec<(u16, &'static str, String)> {
    rows.iter().map(|row| (row.word, row.name, told(row.form))).collect()
}

/// What chooses a record: its name, the bytes before it, and a length if there is one.
fn key(choice: &Choice<'static>) -> (&'static str, &'static [u8], Option<usize>) {
    (choice.name, choice.prefix, choice.len)
}

/// What of a table depends on the kind otherwise than in the codec.
pub fn faults<T: Tables>(codec: &Codec, table: T) -> Vec<String> {
    let at = Lists::of(table);
    let (kinds, action_kinds) = (codec.kinds("option_kinds"), codec.kinds("action_kinds"));
    let mut faults = Vec::new();
    let mut check = |what: String, is_right: bool| {
        if !is_right {
            faults.push(what);
        }
    };
    for (list, kinds) in [("option_kinds", &kinds), ("action_option_kinds", &action_kinds)] {
        let names: Vec<_> = kinds.iter().map(|(kind, _)| *kind).collect();
        check(format!("{list}: {names:?}"), codec.definitions.kinds(list) == names);
    }
    for (kind, name) in &kinds {
        check(format!("{kind}: around options"), at.layer(at.tc_form(kind, 2)) == *name);
        check(format!("{kind}: the word of options"), shown_row(&at.tc(kind), 2).is_some_and(|row| row.word == 2));
        check(format!("{kind}: own statistics"), told(form_at(&at.statistics(kind), 4)) == told(at.tc_form(kind, 4)));
    }
    check("own statistics".to_string(), told(form_at(&at.statistics(""), 4)) == told(at.tc_form("", 4)));
    // fq_codel, the first, has statistics of its own.
    for (kind, _) in kinds.iter().skip(1) {
        check(format!("{kind}: statistics"), told_rows(&at.statistics(kind)) == told_rows(&at.statistics("")));
        check(format!("{kind}: other statistics"), told(at.tc_form(kind, 4)) == told(at.tc_form("", 4)));
    }
    check("statistics of other kinds".to_string(), choices_at(table, at.tc_form("", 4)).is_some_and(<[_]>::is_empty));
    let own = at.tc_form("fq_codel", 4);
    check("statistics of fq_codel".to_string(), fields_at(table, own).iter().map(|it| it.name).eq(["FqCodel"]));
    // TCA_FQ_CODEL_XSTATS_QDISC and TCA_FQ_CODEL_XSTATS_CLASS
    let keys = [("Qdisc", &[0, 0, 0, 0][..], None), ("Class", &[1, 0, 0, 0][..], None)];
    let chosen = choices_at(table, at.first_field(own));
    check("choices of fq_codel".to_string(), chosen.is_some_and(|it| it.iter().map(key).eq(keys)));
    for (kind, name) in &action_kinds {
        check(format!("{kind}: around options of actions"), at.layer(at.action_form(kind, 2)) == *name);
        check(
            format!("{kind}: the word of options"),
            shown_row(&at.action(kind), 2).is_some_and(|row| row.word == 0x8002),
        );
        check(format!("{kind}: statistics of actions"), told(at.action_form(kind, 4)) == told(at.tc_form("", 7)));
        check(
            format!("{kind}: rows of statistics"),
            told_rows(&at.action_statistics(kind)) == told_rows(&at.statistics("")),
        );
    }
    check("statistics of other actions".to_string(), told(at.action_form("", 4)) == told(at.tc_form("", 7)));
    // Actions in filters are those of action messages.
    for (kind, word) in [("flower", 3), ("u32", 7), ("matchall", 2)] {
        let held = held_at(table, form_at(&at.options(kind), word));
        check(format!("{kind}: its actions"), told(held) == told(at.one_action()));
    }
    faults
}
