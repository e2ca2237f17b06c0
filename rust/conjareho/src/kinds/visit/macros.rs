//! How the types of the tables are shown. `kinds/macros.rs` calls one of these macros for each.

/// A record: the form and the row of each field.
macro_rules! record_shown {
    ($name:ident { $(($form:ty) [$($row:tt)*],)* }) => {
        impl visit::Shown for $name {
            #[inline(always)]
            fn fits(bytes: &[u8], at: Place<'_>) -> bool {
                let own = bytes.split_at_checked(Self::WIDTH.unwrap_or(bytes.len()));
                own.is_some_and(|(mut own, _)| true $(&& visit::fits_field::<$form>(&mut own, at))*)
            }

            fn show<'b, V: visit::Visit<'b>>(row: &'static visit::Row, bytes: &'b [u8], at: Place<'_>, to: &mut V) -> Option<u16> {
                if !Self::fits(bytes, at) {
                    return None;
                }
                let (mut own, rest) = bytes.split_at_checked(Self::WIDTH.unwrap_or(bytes.len()))?;
                if to.open(row, visit::Group::Record) {
                    $(visit::show_field::<$form, V>(&$($row)*, &mut own, at, to);)*
                    if !rest.is_empty() {
                        to.mark(visit::Mark::Rest(rest));
                    }
                    to.close(visit::Group::Record);
                }
                Some(0)
            }
        }
    };
}

/// A list: the type and flags, the form and the row of each attribute.
macro_rules! attrs_shown {
    ($name:ident { $($number:literal $flags:literal ($form:ty) [$($row:tt)*],)* }) => {
        impl visit::ShownAttr for $name {
            #[inline(always)]
            #[allow(unused_variables, clippy::match_single_binding)] // an empty list
            fn show<'b, V: visit::Visit<'b>>(frame: frames::Frame<'b>, at: Place<'_>, to: &mut V) -> (u16, bool) {
                match frame.number() {
                    $($number => {
                        if let Some(flags) = at.below().and_then(|at| <$form as visit::Shown>::show(&$($row)*, frame.payload, at, to)) {
                            return ($number | $flags | flags, <$form as visit::Shown>::IS_KIND);
                        }
                        at.is_broken.set(true);
                        if !<$form as visit::Shown>::IS_KIND {
                            to.value(&$($row)*, visit::Value::Raw(frame.payload));
                            return ($number | $flags, false);
                        }
                    })*
                    _ => {}
                }
                to.value(&visit::OTHER, visit::Value::Unknown(frame.word, frame.payload));
                (frame.word, false)
            }
        }
    };
}

/// A choice: of each form the bytes that it starts with, their number, the form of those after the start, and its row.
macro_rules! choice_shown {
    ($name:ident { $([$($start:literal),*] $len:expr, ($form:ty) [$($row:tt)*],)* }) => {
        impl visit::Shown for $name {
            #[inline(always)]
            fn fits(_bytes: &[u8], _at: Place<'_>) -> bool {
                true
            }

            #[allow(unused_variables)] // no choice
            fn show<'b, V: visit::Visit<'b>>(row: &'static visit::Row, bytes: &'b [u8], at: Place<'_>, to: &mut V) -> Option<u16> {
                if !to.open(row, visit::Group::Choice) {
                    return Some(0);
                }
                $(
                    if let Some(held) = chosen(bytes, &[$($start),*], $len) {
                        if at.below().and_then(|at| <$form as visit::Shown>::show(&$($row)*, held, at, to)).is_none() {
                            to.value(&$($row)*, visit::Value::Raw(held));
                        }
                        to.close(visit::Group::Choice);
                        return Some(0);
                    }
                )*
                to.value(&visit::OTHER, visit::Value::Bytes(bytes));
                to.close(visit::Group::Choice);
                Some(0)
            }
        }
    };
}

/// Options or statistics by kind: the flags, the form and the row of those of other kinds, and the name of statistics, the flags, the
/// form, the row and the kinds of each.
macro_rules! by_kind_shown {
    ($name:ident $other_flags:literal $shown:ident ($other_form:ty) [$($other_row:tt)*] { $(
        $layer:literal $flags:literal ($form:ty) [$($row:tt)*] = $($kind:literal)|+,
    )* }) => {
        impl visit::Shown for $name {
            #[inline(always)]
            fn fits(_bytes: &[u8], _at: Place<'_>) -> bool {
                true
            }

            fn show<'b, V: visit::Visit<'b>>(row: &'static visit::Row, bytes: &'b [u8], at: Place<'_>, to: &mut V) -> Option<u16> {
                match at.kind {
                    $(kind if $(kind == const { Key::of_table($kind) })||+ => {
                        let shown = if $layer.is_empty() {
                            <$form as visit::Shown>::show(&$($row)*, bytes, at, to)
                        } else {
                            visit::show_of_kind::<$form, V>(row, &$($row)*, bytes, at, to)
                        };
                        if shown.is_some() {
                            return Some($flags);
                        }
                        // Statistics of a length of their own have no name then.
                        if $layer.is_empty() || <$form as Form>::WIDTH.is_some() {
                            to.value(row, visit::Value::Raw(bytes));
                        } else if to.open(row, visit::Group::Choice) {
                            to.value(&$($row)*, visit::Value::Raw(bytes));
                            to.close(visit::Group::Choice);
                        }
                    })*
                    _ => {
                        let other = by_kind_row!($shown row [$($other_row)*]);
                        if <$other_form as visit::Shown>::show(other, bytes, at, to).is_none() {
                            to.value(other, visit::Value::Raw(bytes));
                        }
                    }
                }
                Some($other_flags)
            }
        }
    };
}

/// The row of what kinds without a table have: bytes have a name of their own.
macro_rules! by_kind_row {
    (hex $row:ident [$($other:tt)*]) => {
        &$($other)*
    };
    (form $row:ident [$($other:tt)*]) => {
        $row
    };
}
