//! The members of a message in JSON that are indices of interfaces: written by `kinds/interfaces` from the tables of `kinds/`.

/// The members of a message's header whose numbers are indices.
pub(crate) const OF_HEADERS: [&str; 1] = ["index"];

/// The members of attributes and records whose numbers are indices.
pub(crate) const OF_ATTRIBUTES: [&str; 2] = ["Iif", "ifindex"];

/// A side of an extended match `meta`.
#[derive(Clone, Copy, PartialEq, Eq, Debug)]
pub enum Side {
    /// The left one.
    Left,
    /// The right one.
    Right,
}

/// The kind of a side of an extended match `meta` that has a number (`tcf_meta_val.kind`): `TCF_META_TYPE_INT`, `TCF_META_ID_VALUE`.
pub const META_NUMBER: u32 = 0x1000;

/// A number of an extended match `meta`, in hex. It is an index if the kind of the other side is one of these.
#[derive(Clone, Copy)]
pub struct MetaValue {
    /// Its name.
    pub name: &'static str,
    /// The other side.
    pub other: Side,
    /// The kinds of that side, each with its type.
    pub kinds: &'static [u32],
}

/// The values of an extended match `meta`.
pub const OF_META: [MetaValue; 2] = [
    MetaValue { name: "Lvalue", other: Side::Right, kinds: &[0x1005, 0x100f, 0x1013] },
    MetaValue { name: "Rvalue", other: Side::Left, kinds: &[0x1005, 0x100f, 0x1013] },
];
