//! As much of the crate `bitflags` as the codec names.

use core::ops::{BitAnd, BitOr};

/// A flag of a type, and its name. One without a name may have several bits.
#[derive(Clone, Copy, Debug)]
pub struct Flag<B> {
    /// Its name, or nothing.
    pub name: &'static str,
    /// Its bits.
    pub value: B,
}

/// A set of flags in a word.
pub trait Flags: Sized + 'static {
    /// The word.
    type Bits: Copy + PartialEq + Default + BitAnd<Output = Self::Bits> + BitOr<Output = Self::Bits>;

    /// All flags of the type.
    fn flags<'a>() -> &'a [Flag<Self>];

    /// The word of a set.
    fn bits(&self) -> Self::Bits;

    /// The set of a word, with bits that belong to no flag.
    fn from_bits_retain(bits: Self::Bits) -> Self;

    /// The set of a word, if each of its bits belongs to a flag.
    fn from_bits(bits: Self::Bits) -> Option<Self> {
        (Self::all().bits() & bits == bits).then(|| Self::from_bits_retain(bits))
    }

    /// All flags.
    #[must_use]
    fn all() -> Self {
        Self::from_bits_retain(Self::flags().iter().fold(Self::Bits::default(), |all, flag| all | flag.value.bits()))
    }

    /// The flag of a name.
    #[must_use]
    fn from_name(name: &str) -> Option<Self> {
        Self::flags().iter().find(|flag| flag.name == name && !name.is_empty()).map(|flag| Self::from_bits_retain(flag.value.bits()))
    }

    /// True if all flags of the other are set.
    fn contains(&self, other: Self) -> bool {
        self.bits() & other.bits() == other.bits()
    }

    /// The flags of both.
    #[must_use]
    fn union(self, other: Self) -> Self {
        Self::from_bits_retain(self.bits() | other.bits())
    }
}
