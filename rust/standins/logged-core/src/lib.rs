//! Stand-in for `core` where the original's sequence is concerned: volatile accesses go to the device's log,
//! and its once-only marks belong to the device instead of the process, so that a run can begin afresh.
pub use ::core::*;

pub mod ptr {
    pub use ::core::ptr::*;

    use device::Word;

    /// # Safety
    ///
    /// None is needed: the address names a register and is never followed.
    pub unsafe fn read_volatile<T: Word>(register: *const T) -> T {
        T::from_word(device::read(device::word_at(register.addr())))
    }

    /// # Safety
    ///
    /// None is needed: the address names a register and is never followed.
    pub unsafe fn write_volatile<T: Word>(register: *mut T, value: T) {
        device::write(device::word_at(register.addr()), value.word());
    }
}

pub mod sync {
    pub use ::core::sync::*;

    pub mod atomic {
        pub use ::core::sync::atomic::*;

        /// A mark that starts unset; its address is its name. The byte gives each one an address of its own.
        pub struct AtomicBool(#[allow(dead_code)] u8);

        impl AtomicBool {
            pub const fn new(value: bool) -> Self {
                assert!(!value);
                Self(0)
            }

            pub fn swap(&self, value: bool, _: Ordering) -> bool {
                device::swap_mark(self as *const Self as usize, value)
            }
        }
    }
}
