//! Fields of a register word, and the macros that give words and codes their names.
use arbitrary_int::{prelude::*, u4, u6, u7, u10};

/// What fits into a run of bits.
pub trait Field {
    const WIDTH: u32;
    fn from_bits(bits: u32) -> Self;
    fn bits(self) -> u32;
}

#[inline]
pub fn get<T: Field>(word: u32, lowest: u32) -> T {
    T::from_bits(word >> lowest & ((1 << T::WIDTH) - 1))
}

#[inline]
pub fn set<T: Field>(word: u32, lowest: u32, value: T) -> u32 {
    let mask = ((1 << T::WIDTH) - 1) << lowest;
    word & !mask | value.bits() << lowest
}

impl Field for bool {
    const WIDTH: u32 = 1;
    #[inline]
    fn from_bits(bits: u32) -> Self {
        bits == 1
    }
    #[inline]
    fn bits(self) -> u32 {
        self.into()
    }
}

macro_rules! narrow_fields {
    ($($name:ident in $base:ty),*) => {$(
        impl Field for $name {
            const WIDTH: u32 = $name::BITS;
            #[inline]
            fn from_bits(bits: u32) -> Self {
                Self::new(bits as $base)
            }
            #[inline]
            fn bits(self) -> u32 {
                self.as_u32()
            }
        }
    )*};
}

narrow_fields!(u4 in u8, u6 in u8, u7 in u8, u10 in u16);

/// An enum whose variants are the codes 0, 1, 2 .. of a field of the given width.
macro_rules! codes {
    ($($(#[$doc:meta])* $name:ident: $width:literal bits { $($code:ident),* })*) => {$(
        $(#[$doc])*
        #[derive(Debug, Clone, Copy, PartialEq, Eq)]
        pub enum $name { $($code),* }

        impl $crate::field::Field for $name {
            const WIDTH: u32 = $width;
            #[inline]
            fn from_bits(bits: u32) -> Self {
                const CODES: [$name; 1 << $width] = [$($name::$code),*];
                CODES[bits as usize]
            }
            #[inline]
            fn bits(self) -> u32 {
                self as u32
            }
        }
    )*};
}

/// A register word; each field is named by its getter, its setter and its builder step, with its lowest bit.
macro_rules! words {
    ($($(#[$doc:meta])* $name:ident {
        $($get:ident $set:ident $with:ident: $field:ty = $lowest:literal),* $(,)?
    })*) => {$(
        $(#[$doc])*
        #[derive(Debug, Clone, Copy, PartialEq, Eq)]
        #[repr(transparent)]
        pub struct $name(u32);

        impl $name {
            #[inline]
            pub const fn raw_value(&self) -> u32 {
                self.0
            }
            /// A word being built is the word itself; fields that nobody sets are 0.
            #[inline]
            pub const fn builder() -> Self {
                Self(0)
            }
            #[inline]
            pub const fn build(self) -> Self {
                self
            }
            $(
                #[inline]
                pub fn $get(&self) -> $field {
                    $crate::field::get(self.0, $lowest)
                }
                #[inline]
                pub fn $set(&mut self, value: $field) {
                    self.0 = $crate::field::set(self.0, $lowest, value);
                }
                #[inline]
                pub fn $with(mut self, value: $field) -> Self {
                    self.$set(value);
                    self
                }
            )*
        }

        impl device::Word for $name {
            #[inline]
            fn from_word(word: u32) -> Self {
                Self(word)
            }
            #[inline]
            fn word(self) -> u32 {
                self.0
            }
        }
    )*};
}

pub(crate) use {codes, words};
