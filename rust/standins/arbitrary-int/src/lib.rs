//! Stand-in for `arbitrary-int`: the narrow whole numbers that the original uses.
#![allow(non_camel_case_types)]

/// What the original takes from the real prelude.
pub mod prelude {
    /// A narrow number as a `u32`.
    pub trait Integer: Copy {
        fn as_u32(self) -> u32;
    }
}

macro_rules! narrow {
    ($($name:ident: $bits:literal bits in $base:ty),*) => {$(
        #[derive(Debug, Clone, Copy, PartialEq, Eq, PartialOrd, Ord)]
        pub struct $name($base);

        impl $name {
            pub const BITS: u32 = $bits;
            pub const MAX: Self = Self((1 << $bits) - 1);

            /// Panics where the value is too wide, as the real one does.
            #[inline]
            pub const fn new(value: $base) -> Self {
                assert!(value <= Self::MAX.0);
                Self(value)
            }

            #[inline]
            pub const fn value(self) -> $base {
                self.0
            }
        }

        impl prelude::Integer for $name {
            #[inline]
            fn as_u32(self) -> u32 {
                self.0.into()
            }
        }

        impl From<$name> for u32 {
            #[inline]
            fn from(number: $name) -> u32 {
                number.0.into()
            }
        }
    )*};
}

narrow! {
    u4: 4 bits in u8,
    u6: 6 bits in u8,
    u7: 7 bits in u8,
    u10: 10 bits in u16
}
