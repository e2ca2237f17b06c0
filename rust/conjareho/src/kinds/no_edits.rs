//! Edits of typed values at random, which tests make, aren't built.

macro_rules! record_edits {
    ($($any:tt)*) => {};
}
macro_rules! attrs_edits {
    ($($any:tt)*) => {};
}
macro_rules! choice_edits {
    ($($any:tt)*) => {};
}
macro_rules! by_kind_edits {
    ($($any:tt)*) => {};
}
