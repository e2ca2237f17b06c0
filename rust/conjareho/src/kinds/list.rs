//! Lists of attributes.

use super::aside::{Aside, Odd};
use super::frames::Attr;
use super::wire::NLA_TYPE_MASK;
use alloc::boxed::Box;
use alloc::vec::Vec;
use core::fmt;
use core::ops::Deref;

/// The attributes of a list, in their order.
///
/// Parts of a message that the table doesn't describe are kept and written again: other flags of `nla_type`, nonzero padding, bytes
/// after a record, a cut or broken attribute at the end ([`remainder`](Attrs::remainder)). They count for `==`, and
/// [`settle`](Attrs::settle) drops them.
#[derive(Clone, PartialEq, Eq, Hash)]
pub struct Attrs<A> {
    pub(super) items: Vec<A>,
    pub(super) aside: Option<Box<Aside>>,
}

/// Attributes of any type that hold values of the same type: actions by their order, tins of cake, extended matches.
///
/// Nonzero padding, bytes after a record and a cut or broken attribute at the end are kept, as in [`Attrs`].
#[derive(Clone, PartialEq, Eq, Hash)]
pub struct Indexed<T> {
    pub(super) items: Vec<(u16, T)>,
    pub(super) aside: Option<Box<Aside>>,
}

macro_rules! list {
    ($list:ident, $t:ident, $item:ty) => {
        impl<$t> $list<$t> {
            /// Appends an attribute. A cut or broken attribute at the end is dropped.
            pub fn push(&mut self, item: $item) {
                if let Some(aside) = &mut self.aside {
                    aside.tail.clear();
                    aside.odd.iter_mut().for_each(Odd::make_whole);
                    Aside::tidy(&mut self.aside);
                }
                self.items.push(item);
            }

            /// The bytes after the last whole attribute, where the next is cut or broken. They are written again, until a
            /// [`push`](Self::push) drops them. Empty if all bytes are attributes.
            ///
            /// ```
            /// use conjareho::kinds::Message;
            /// use conjareho::{DecodeError, NlasIterator};
            ///
            /// let mut bytes = Message::on(2).with_kind("fq_codel").to_bytes()?;
            /// bytes.extend([8, 0, 11, 0]); // TCA_CHAIN without its number
            /// let message = Message::parse(&bytes)?;
            /// assert_eq!(message.attributes.remainder(), [8, 0, 11, 0]);
            /// let why = NlasIterator::new(message.attributes.remainder()).find_map(Result::err);
            /// assert_eq!(why, Some(DecodeError::FrameTooLong { length: 8, left: 4 }));
            /// assert!(format!("{:?}", message.attributes).ends_with("remainder: [8, 0, 11, 0] }"));
            /// # Ok::<(), conjareho::RewriteError>(())
            /// ```
            #[doc(alias = "leftover")]
            #[doc(alias = "trailing")]
            #[must_use]
            pub fn remainder(&self) -> &[u8] {
                self.aside.as_ref().map_or(&[], |aside| &aside.tail)
            }

            /// Keeps the attributes for which `is_kept` returns true.
            pub fn retain(&mut self, mut is_kept: impl FnMut(&$item) -> bool) {
                let (mut at, mut places) = (0, Vec::new());
                self.items.retain(|item| {
                    let keeps = is_kept(item);
                    places.push(keeps.then_some(at));
                    at += usize::from(keeps);
                    keeps
                });
                if let Some(aside) = &mut self.aside {
                    aside.odd.retain_mut(|odd| {
                        let place = places.get(odd.at).copied().flatten();
                        odd.at = place.unwrap_or(odd.at);
                        place.is_some()
                    });
                    Aside::tidy(&mut self.aside);
                }
            }

            /// The attributes, mutable. Flags, padding and bytes that were kept with one are written with the attribute at its place, if that
            /// has the same type and form, and padding of the same size.
            pub fn iter_mut(&mut self) -> core::slice::IterMut<'_, $item> {
                self.items.iter_mut()
            }

            /// Drops the parts that the table doesn't describe. Nested lists keep theirs.
            pub fn settle(&mut self) {
                self.aside = None;
            }
        }

        impl<$t> Deref for $list<$t> {
            type Target = [$item];

            fn deref(&self) -> &[$item] {
                &self.items
            }
        }

        impl<$t> Default for $list<$t> {
            fn default() -> Self {
                Vec::new().into()
            }
        }

        impl<$t: fmt::Debug> fmt::Debug for $list<$t> {
            fn fmt(&self, f: &mut fmt::Formatter<'_>) -> fmt::Result {
                let Some(aside) = &self.aside else {
                    return f.debug_list().entries(&self.items).finish();
                };
                let mut all = f.debug_struct(stringify!($list));
                all.field("items", &self.items);
                if !aside.odd.is_empty() {
                    all.field("odd", &aside.odd);
                }
                if !aside.tail.is_empty() {
                    all.field("remainder", &aside.tail);
                }
                all.finish()
            }
        }

        impl<$t> From<Vec<$item>> for $list<$t> {
            fn from(items: Vec<$item>) -> Self {
                $list { items, aside: None }
            }
        }

        impl<$t, const N: usize> From<[$item; N]> for $list<$t> {
            fn from(items: [$item; N]) -> Self {
                Vec::from(items).into()
            }
        }

        impl<$t> FromIterator<$item> for $list<$t> {
            fn from_iter<I: IntoIterator<Item = $item>>(items: I) -> Self {
                items.into_iter().collect::<Vec<_>>().into()
            }
        }

        impl<$t> Extend<$item> for $list<$t> {
            fn extend<I: IntoIterator<Item = $item>>(&mut self, items: I) {
                items.into_iter().for_each(|item| self.push(item));
            }
        }

        impl<$t> IntoIterator for $list<$t> {
            type Item = $item;
            type IntoIter = alloc::vec::IntoIter<$item>;

            fn into_iter(self) -> Self::IntoIter {
                self.items.into_iter()
            }
        }

        impl<'a, $t> IntoIterator for &'a $list<$t> {
            type Item = &'a $item;
            type IntoIter = core::slice::Iter<'a, $item>;

            fn into_iter(self) -> Self::IntoIter {
                self.items.iter()
            }
        }
    };
}

impl<A: Attr> Attrs<A> {
    /// Replaces the last attribute of the same type, or appends this one as [`push`](Self::push) does if there is none.
    ///
    /// An attribute whose payload isn't of its form, which is `Other`, is replaced as well. What was kept beside the attribute, such as
    /// flags, is written with this one if it has the same form.
    pub fn set(&mut self, item: A) {
        let number = type_of(&item);
        match self.items.iter_mut().rev().find(|it| type_of(*it) == number) {
            Some(last) => *last = item,
            None => self.push(item),
        }
    }
}

/// `nla_type`, without its flags.
pub(super) fn type_of<A: Attr>(item: &A) -> u16 {
    item.word() & NLA_TYPE_MASK
}

list! { Attrs, A, A }
list! { Indexed, T, (u16, T) }
