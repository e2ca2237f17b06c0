//! The JSON of typed values, which tests compare with that of the forms, isn't built.

macro_rules! record_json {
    ($($any:tt)*) => {};
}
macro_rules! attrs_json {
    ($($any:tt)*) => {};
}
macro_rules! names_json {
    ($($any:tt)*) => {};
}
macro_rules! bits_json {
    ($($any:tt)*) => {};
}
macro_rules! choice_json {
    ($($any:tt)*) => {};
}
macro_rules! by_kind_json {
    ($($any:tt)*) => {};
}
