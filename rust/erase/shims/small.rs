//! What stands for the crates arrayvec and itoa, as far as the codec uses them.
#![allow(dead_code)] // each erased crate uses some of it

/// Texts and lists of a fixed room.
pub mod arrayvec {
    /// A text of at most `N` bytes.
    #[derive(Clone, Copy)]
    pub struct ArrayString<const N: usize>([u8; N], usize);

    impl<const N: usize> ArrayString<N> {
        pub(crate) fn new() -> Self {
            ArrayString([0; N], 0)
        }

        pub(crate) fn push(&mut self, c: char) {
            self.push_str(c.encode_utf8(&mut [0; 4]));
        }

        pub(crate) fn push_str(&mut self, text: &str) {
            self.0[self.1..][..text.len()].copy_from_slice(text.as_bytes());
            self.1 += text.len();
        }

        /// The text.
        pub fn as_str(&self) -> &str {
            core::str::from_utf8(&self.0[..self.1]).expect("only texts are pushed")
        }
    }

    impl<const N: usize> core::fmt::Write for ArrayString<N> {
        fn write_str(&mut self, text: &str) -> core::fmt::Result {
            self.push_str(text);
            Ok(())
        }
    }

    impl<const N: usize> core::fmt::Display for ArrayString<N> {
        fn fmt(&self, f: &mut core::fmt::Formatter<'_>) -> core::fmt::Result {
            f.pad(self.as_str())
        }
    }

    /// A list of at most `N` items.
    pub struct ArrayVec<T, const N: usize>([T; N], usize);

    impl<T: Copy + Default, const N: usize> ArrayVec<T, N> {
        pub(crate) fn new() -> Self {
            ArrayVec([T::default(); N], 0)
        }

        pub(crate) fn push(&mut self, item: T) {
            self.0[self.1] = item;
            self.1 += 1;
        }

        pub(crate) fn is_full(&self) -> bool {
            self.1 == N
        }

        pub(crate) fn clear(&mut self) {
            self.1 = 0;
        }

        pub(crate) fn as_slice(&self) -> &[T] {
            &self.0[..self.1]
        }
    }
}

/// Numbers as decimal digits.
pub(crate) mod itoa {
    pub(crate) type Buffer = super::arrayvec::ArrayString<20>;

    impl Buffer {
        pub(crate) fn format(&mut self, n: impl core::fmt::Display) -> &str {
            *self = Buffer::new();
            core::fmt::write(self, format_args!("{n}")).expect("at most twenty characters");
            self.as_str()
        }
    }
}
