//! The types that the tables are turned into. The build script writes a call of one of these macros for each table.

/// A record: fields, one after the other. Of each: its name, its name in JSON, the object in JSON that holds each of its attributes,
/// the type of its value, and its form.
macro_rules! record {
    ($(#[$about:meta])* $name:ident { $($(#[$doc:meta])* $field:ident $json:literal $layer:literal ($value:ty) ($form:ty) [$($row:tt)*],)* }) => {
        $(#[$about])*
        #[derive(Clone, PartialEq, Eq, Hash, Debug)]
        #[allow(missing_docs)] // a field has a unit, a comment, or its kernel's name
        pub struct $name {
            $($(#[$doc])* pub $field: $value,)*
        }

        impl Default for $name {
            #[inline]
            fn default() -> Self {
                <Self as Form>::blank()
            }
        }

        impl Form for $name {
            type Value = Self;
            const WIDTH: Option<usize> = total(&[$(<$form as Form>::WIDTH),*]);

            #[inline]
            fn read<'b>(bytes: &'b [u8], at: Place<'b>) -> Option<(Self, &'b [u8])> {
                // The bytes of a record of one width are taken at once.
                let (mut own, rest) = bytes.split_at_checked(Self::WIDTH.unwrap_or(bytes.len()))?;
                let value = $name { $($field: field::<$form>(&mut own, at)?,)* };
                Some((value, if Self::WIDTH.is_some() { rest } else { own }))
            }

            #[inline]
            fn store(value: &Self, mut bytes: &mut [u8]) -> bool {
                true $(& store_field::<$form>(&value.$field, &mut bytes))*
            }

            #[inline]
            fn write(value: &Self, out: &mut Out) {
                if Self::WIDTH.is_some() {
                    return out.put_stored::<Self>(value);
                }
                $(<$form as Form>::write(&value.$field, out);)*
            }

            fn shape(value: &Self) -> Shape {
                // A field that may have several forms is the last.
                let shapes = [$(<$form as Form>::shape(&value.$field)),*];
                shapes.last().copied().unwrap_or_default()
            }

            #[inline]
            fn blank() -> Self {
                $name { $($field: <$form as Form>::blank(),)* }
            }
        }

        record_shown! { $name { $(($form) [$($row)*],)* } }
        record_json! { $name { $($field $json $layer ($form),)* } }
        record_edits! { $name { $($field ($form),)* } }
    };
}

/// A list of attributes, and how it treats kinds. Of each attribute: its variant, its getter and setter, its name in JSON, the object
/// in JSON that holds each of its own attributes, its type and flags, the type of its value, its form, what its setter takes, and its
/// unit, after a comma.
macro_rules! attrs {
    ($(#[$about:meta])* $name:ident $kinds:ident { $(
        $(#[$doc:meta])*
        $variant:ident $get:ident $with:ident $json:literal $layer:literal $number:literal $flags:literal ($value:ty) ($form:ty) ($taken:ty) $unit:literal [$($row:tt)*],
    )* }) => {
        $(#[$about])*
        #[derive(Clone, PartialEq, Eq, Hash, Debug)]
        #[non_exhaustive]
        pub enum $name {
            $($(#[$doc])* $variant($value),)*
            /// An attribute that the table doesn't have, or whose payload isn't of its form.
            Other(Nla),
        }

        impl $name {
            /// An empty list.
            #[inline]
            #[must_use]
            pub fn list() -> Attrs<$name> {
                Attrs::default()
            }
        }

        impl Attrs<$name> {
            $(
                #[doc = concat!("The last [`", stringify!($name), "::", stringify!($variant), "`]", $unit, ". The kernel uses the last one as well.")]
                #[inline]
                #[must_use]
                pub fn $get(&self) -> Option<&$value> {
                    self.iter().rev().find_map(|it| if let $name::$variant(value) = it { Some(value) } else { None })
                }

                #[doc = concat!("Appends a [`", stringify!($name), "::", stringify!($variant), "`]", $unit, ".")]
                #[inline]
                #[must_use]
                #[allow(clippy::useless_conversion)] // numbers
                pub fn $with(mut self, value: $taken) -> Self {
                    self.push($name::$variant(value.into()));
                    self
                }
            )*
        }

        impl Attr for $name {
            const KINDS: Kinds = Kinds::$kinds;

            #[allow(unused_variables, clippy::match_single_binding)] // an empty list
            #[inline(always)]
            fn read<'b>(word: u16, payload: &'b [u8], at: Place<'b>, items: &mut Vec<Self>) -> Found<'b> {
                match word & NLA_TYPE_MASK {
                    $($number => {
                        if let Some((value, rest)) = within::<$form>(payload, at) {
                            let word = $number | $flags | <$form as Form>::flags(&value);
                            let is_kind = <$form as Form>::kind(&value).is_some();
                            items.push($name::$variant(value));
                            return Found { word, rest, is_kind };
                        }
                        at.is_broken.set(true);
                    })*
                    _ => {}
                }
                items.push($name::Other(Nla { word, value: payload.into() }));
                Found { word, rest: &[], is_kind: false }
            }

            #[inline(always)]
            fn write(&self, out: &mut Out) {
                match self {
                    $($name::$variant(value) => out.put_frame::<$form>($number | $flags | <$form as Form>::flags(value), value),)*
                    $name::Other(nla) => out.put_frame::<Bytes>(nla.word, &nla.value),
                }
            }

            fn word(&self) -> u16 {
                match self {
                    $($name::$variant(value) => $number | $flags | <$form as Form>::flags(value),)*
                    $name::Other(nla) => nla.word,
                }
            }

            fn shape(&self) -> Option<Shape> {
                match self {
                    $($name::$variant(value) => Some(<$form as Form>::shape(value)),)*
                    $name::Other(_) => None,
                }
            }

            #[inline]
            fn kind(&self) -> Option<&str> {
                match self {
                    $($name::$variant(value) => <$form as Form>::kind(value),)*
                    $name::Other(_) => None,
                }
            }

            #[inline]
            fn name(&self) -> Option<&'static str> {
                match self {
                    $($name::$variant(_) => Some(concat!(stringify!($name), "::", stringify!($variant))),)*
                    $name::Other(_) => None,
                }
            }
        }

        attrs_shown! { $name { $($number $flags ($form) [$($row)*],)* } }
        attrs_json! { $name { $($variant $json $layer $number $flags ($form),)* } }
        attrs_edits! { $name { $($variant $number $flags ($form),)* } }
    };
}

/// A number with names, and the type that holds it.
macro_rules! names {
    ($(#[$about:meta])* $name:ident: $number:ident { $($(#[$doc:meta])* $variant:ident $json:literal = $value:literal,)* }) => {
        $(#[$about])*
        #[derive(Clone, Copy, PartialEq, Eq, Hash, Debug)]
        #[non_exhaustive]
        pub enum $name {
            $($(#[$doc])* $variant,)*
            /// A number without a name.
            Other($number),
        }

        impl From<$number> for $name {
            fn from(number: $number) -> Self {
                match number {
                    $($value => $name::$variant,)*
                    _ => $name::Other(number),
                }
            }
        }

        impl From<$name> for $number {
            fn from(value: $name) -> Self {
                match value {
                    $($name::$variant => $value,)*
                    $name::Other(number) => number,
                }
            }
        }

        impl Default for $name {
            #[inline]
            fn default() -> Self {
                Self::from(0)
            }
        }

        impl Code for $name {
            type Number = $number;

            #[inline]
            fn of(number: $number) -> Self {
                Self::from(number)
            }

            #[inline]
            fn number(&self) -> $number {
                (*self).into()
            }
        }

        names_json! { $name { $($variant $json,)* } }
    };
}

/// A set of flags, and the type of its number.
macro_rules! bits {
    ($(#[$about:meta])* $name:ident: $number:ident { $($(#[$doc:meta])* $flag:ident = $value:literal,)* }) => {
        $(#[$about])*
        #[derive(Clone, Copy, PartialEq, Eq, Hash, PartialOrd, Ord, Default)]
        pub struct $name(pub $number);

        impl $name {
            $($(#[$doc])* pub const $flag: $name = $name($value);)*
        }

        impl Flags for $name {
            type Bits = $number;

            #[inline]
            fn flags<'a>() -> &'a [Flag<Self>] {
                &[$(Flag { name: stringify!($flag), value: $name::$flag }),*]
            }

            #[inline]
            fn bits(&self) -> $number {
                self.0
            }

            #[inline]
            fn from_bits_retain(bits: $number) -> Self {
                $name(bits)
            }
        }

        impl core::ops::BitOr for $name {
            type Output = Self;

            #[inline]
            fn bitor(self, other: Self) -> Self {
                $name(self.0 | other.0)
            }
        }

        impl core::fmt::Debug for $name {
            #[inline]
            fn fmt(&self, f: &mut core::fmt::Formatter<'_>) -> core::fmt::Result {
                let mut names = Self::flags().iter().map(|flag| (flag.name, u64::from(flag.value.0)));
                show_flags(f, u64::from(self.0), &mut names)
            }
        }

        impl From<$number> for $name {
            #[inline]
            fn from(bits: $number) -> Self {
                $name(bits)
            }
        }

        impl From<$name> for $number {
            #[inline]
            fn from(flags: $name) -> Self {
                flags.0
            }
        }

        impl Code for $name {
            type Number = $number;

            #[inline]
            fn of(number: $number) -> Self {
                $name(number)
            }

            #[inline]
            fn number(&self) -> $number {
                self.0
            }
        }

        bits_json! { $name }
    };
}

/// Bytes of the first form that fits. Of each: its variant, its names in JSON as in `record`, the bytes that these start with and how
/// many they are, the type of its value, and the form of the bytes after the start.
macro_rules! choice {
    ($(#[$about:meta])* $name:ident { $(
        $(#[$doc:meta])* $variant:ident $json:literal $layer:literal [$($start:literal),*] $len:expr, ($value:ty) ($form:ty) [$($row:tt)*],
    )* }) => {
        $(#[$about])*
        #[derive(Clone, PartialEq, Eq, Hash, Debug)]
        #[non_exhaustive]
        #[allow(missing_docs)] // a choice may have no comment
        pub enum $name {
            $($(#[$doc])* $variant($value),)*
            /// Bytes that are of none of these forms.
            Other(Bytes),
        }

        impl Default for $name {
            #[inline]
            fn default() -> Self {
                <Self as Form>::blank()
            }
        }

        impl Form for $name {
            type Value = Self;
            const WIDTH: Option<usize> = None;

            #[allow(unused_variables, clippy::const_is_empty)] // no choice, and no start
            fn read<'b>(bytes: &'b [u8], at: Place<'b>) -> Option<(Self, &'b [u8])> {
                $(
                    if let Some(held) = chosen(bytes, &[$($start),*], $len) {
                        let found = within::<$form>(held, at).map(|(value, rest)| ($name::$variant(value), rest));
                        return Some(found.unwrap_or_else(|| {
                            at.is_broken.set(true);
                            ($name::Other(bytes.into()), &[])
                        }));
                    }
                )*
                // Forms that only lengths tell apart have no other one.
                at.is_broken.set(at.is_broken.get() $(|| <[u8]>::is_empty(&[$($start),*]))*);
                Some(($name::Other(bytes.into()), &[]))
            }

            fn write(value: &Self, out: &mut Out) {
                match value {
                    $($name::$variant(value) => {
                        out.put(&[$($start),*]);
                        <$form as Form>::write(value, out);
                    })*
                    $name::Other(bytes) => out.put(bytes),
                }
            }

            fn shape(value: &Self) -> Shape {
                let choice = match value {
                    $($name::$variant(_) => stringify!($variant),)*
                    $name::Other(_) => "Other",
                };
                Shape { choice, ..Shape::default() }
            }

            fn blank() -> Self {
                $name::Other(Bytes::default())
            }
        }

        choice_shown! { $name { $([$($start),*] $len, ($form) [$($row)*],)* } }
        choice_json! { $name { $($variant $json $layer [$($start),*] $len, ($form),)* } }
        choice_edits! { $name { $($variant ($form),)* } }
    };
}

/// Options or statistics by kind, and what those of kinds without a table are called in JSON, their flags and form. Of each: its variant,
/// its names in JSON, the flags of the attribute that holds it, the type of its value, its form, and the kinds that have it.
macro_rules! by_kind {
    ($(#[$about:meta])* $name:ident $other:literal $other_flags:literal $shown:ident ($other_form:ty) [$($other_row:tt)*] { $(
        $(#[$doc:meta])* $variant:ident $json:literal $layer:literal $flags:literal ($value:ty) ($form:ty) [$($row:tt)*] = $first:literal $(| $kind:literal)*,
    )* }) => {
        $(#[$about])*
        #[derive(Clone, PartialEq, Eq, Hash, Debug)]
        #[non_exhaustive]
        pub enum $name {
            $($(#[$doc])* $variant($value),)*
            /// Of a kind without a table, or bytes that aren't of the kind's form.
            Other(Bytes),
        }

        impl $name {
            /// The kind that has these, or the first of several. `None` for those of unknown kinds.
            #[must_use]
            pub fn kind(&self) -> Option<&'static str> {
                match self {
                    $($name::$variant(_) => Some($first),)*
                    $name::Other(_) => None,
                }
            }
        }

        impl Default for $name {
            #[inline]
            fn default() -> Self {
                <Self as Form>::blank()
            }
        }

        impl Form for $name {
            type Value = Self;
            const WIDTH: Option<usize> = None;

            fn read<'b>(bytes: &'b [u8], at: Place<'b>) -> Option<(Self, &'b [u8])> {
                let found = match at.kind {
                    $(kind if kind == const { Key::of_table($first) } $(|| kind == const { Key::of_table($kind) })* => {
                        // Statistics are in an object of their own, a level of its own.
                        let found = if $json.is_empty() { <$form as Form>::read(bytes, at) } else { within::<$form>(bytes, at) };
                        at.is_broken.set(at.is_broken.get() || found.is_none());
                        found.map(|(value, rest)| ($name::$variant(value), rest))
                    })*
                    _ => None,
                };
                Some(found.unwrap_or_else(|| ($name::Other(bytes.into()), &[])))
            }

            fn write(value: &Self, out: &mut Out) {
                match value {
                    $($name::$variant(value) => <$form as Form>::write(value, out),)*
                    $name::Other(bytes) => out.put(bytes),
                }
            }

            fn blank() -> Self {
                $name::Other(Bytes::default())
            }

            fn shape(value: &Self) -> Shape {
                match value {
                    $($name::$variant(value) => Shape { kind: stringify!($variant), ..<$form as Form>::shape(value) },)*
                    $name::Other(_) => Shape { kind: "Other", ..Shape::default() },
                }
            }

            #[inline(always)]
            fn flags(value: &Self) -> u16 {
                match value {
                    $($name::$variant(_) => $flags,)*
                    $name::Other(_) => $other_flags,
                }
            }
        }

        by_kind_shown! {
            $name $other_flags $shown ($other_form) [$($other_row)*] { $($json $flags ($form) [$($row)*] = $first $(| $kind)*,)* }
        }
        by_kind_json! { $name $other $shown ($other_form) { $($variant $json $layer ($form) = $first $(| $kind)*,)* } }
        by_kind_edits! { $name { $($variant $json ($form),)* } }
    };
}

/// The options that a value is of: of the one kind that has them, or of the kind of their name.
macro_rules! from {
    ($name:ident $variant:ident ($value:ty)) => {
        impl From<$value> for $name {
            #[inline]
            fn from(value: $value) -> Self {
                $name::$variant(value)
            }
        }
    };
}

/// The actions of options.
macro_rules! actions {
    ($name:ident { $($variant:ident $get:ident,)* }) => {
        impl $name {
            /// The actions of a filter, if it has any.
            #[must_use]
            pub fn actions(&self) -> Option<&Indexed<Attrs<ActionAttr>>> {
                match self {
                    $($name::$variant(list) => list.$get(),)*
                    _ => None,
                }
            }
        }
    };
}
