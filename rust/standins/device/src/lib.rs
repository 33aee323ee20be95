//! The device behind the register stand-ins, one for each thread.
//!
//! It is in one of three states: nothing lies behind the registers (reads give 0, writes are dropped); an
//! image is lent for reading; or a script answers each read and every access is logged.
use std::cell::{Cell, RefCell};
use std::panic::{AssertUnwindSafe, catch_unwind, resume_unwind};
use std::ptr::null;

/// Words of the image; word `i` is the SLCR register at offset 0x100 + 4i.
pub const WORDS: usize = 50;

/// Address of word 0 in the manual's memory map: the SLCR at 0xF8000000, its clock registers at 0x100.
pub const BASE: usize = 0xF800_0100;

/// A register's type: 32 bits under a name.
pub trait Word: Copy {
    fn from_word(word: u32) -> Self;
    fn word(self) -> u32;
}

/// One register access, as the sequence made it.
#[derive(Debug, Clone, Copy, PartialEq, Eq)]
pub enum Access {
    Read { word: u32, value: u32 },
    Write { word: u32, value: u32 },
}

struct Script {
    reads: Vec<u32>,
    next: usize,
    log: Vec<Access>,
}

/// What unwinds the original when it asks for a word that the script does not have.
struct Starved;

thread_local! {
    static IMAGE: Cell<*const u32> = const { Cell::new(null()) };
    /// Looked at first, so that a write that goes nowhere costs next to nothing when calls are timed.
    static SCRIPTED: Cell<bool> = const { Cell::new(false) };
    static SCRIPT: RefCell<Option<Script>> = const { RefCell::new(None) };
    static MARKS: RefCell<Vec<usize>> = const { RefCell::new(Vec::new()) };
}

/// The registers as seen at one moment; it takes the image's place once, as a fixed address would.
#[derive(Clone, Copy)]
pub struct Registers {
    image: *const u32,
}

impl Registers {
    /// # Safety
    ///
    /// The value must not outlive the call of [`reading`] that it was made in.
    #[inline]
    pub unsafe fn at_hand() -> Self {
        let image = IMAGE.get();
        Self { image }
    }

    #[inline]
    pub fn read<T: Word>(&self, word: usize) -> T {
        assert!(word < WORDS);
        if self.image.is_null() {
            return T::from_word(read(word as u32));
        }
        // SAFETY: the pointer is to a lent image of WORDS words, and lives as long as `at_hand` asks for.
        T::from_word(unsafe { self.image.add(word).read_volatile() })
    }

    #[inline]
    pub fn write<T: Word>(&self, word: usize, value: T) {
        assert!(self.image.is_null(), "an image lent for reading is written");
        write(word as u32, value.word());
    }
}

/// Puts back what stood there before, also while unwinding.
struct Back(*const u32);

impl Drop for Back {
    fn drop(&mut self) {
        IMAGE.set(self.0);
    }
}

/// Runs `f` with the image behind the registers.
#[inline]
pub fn reading<R>(image: &[u32; WORDS], f: impl FnOnce() -> R) -> R {
    let _back = Back(IMAGE.replace(image.as_ptr()));
    f()
}

/// Runs `f` with each read answered from `reads` in order. Gives the log, and what `f` gave unless it asked
/// for more words than there are.
pub fn scripted<R>(reads: &[u32], f: impl FnOnce() -> R) -> (Vec<Access>, Option<R>) {
    let script = Script {
        reads: reads.to_vec(),
        next: 0,
        log: Vec::new(),
    };
    SCRIPT.set(Some(script));
    SCRIPTED.set(true);
    let end = catch_unwind(AssertUnwindSafe(f));
    SCRIPTED.set(false);
    let log = SCRIPT.take().map_or_else(Vec::new, |script| script.log);
    match end {
        Ok(value) => (log, Some(value)),
        Err(why) if why.is::<Starved>() => (log, None),
        Err(why) => resume_unwind(why),
    }
}

/// One read of a word by the script, or from a lent image, or 0 where nothing lies behind the registers.
#[inline]
pub fn read(word: u32) -> u32 {
    if !SCRIPTED.get() {
        let image = IMAGE.get();
        let at = word as usize;
        // SAFETY: a pointer that is not null is to an image of WORDS words that is lent for as long as it stands here.
        return if image.is_null() || at >= WORDS {
            0
        } else {
            unsafe { image.add(at).read_volatile() }
        };
    }
    let answer = SCRIPT.with_borrow_mut(|script| {
        let script = script.as_mut()?;
        let value = *script.reads.get(script.next)?;
        script.next += 1;
        script.log.push(Access::Read { word, value });
        Some(value)
    });
    // Unwinding by hand: the panic hook stays silent, since this is an end like any other.
    answer.unwrap_or_else(|| resume_unwind(Box::new(Starved)))
}

/// One write of a word, logged where a script is in place and dropped elsewhere.
#[inline]
pub fn write(word: u32, value: u32) {
    if SCRIPTED.get() {
        SCRIPT.with_borrow_mut(|script| {
            let script = script.as_mut().expect("the flag says so");
            script.log.push(Access::Write { word, value });
        });
    }
}

/// Sets the mark at an address and tells whether it was set before.
pub fn swap_mark(address: usize, value: bool) -> bool {
    MARKS.with_borrow_mut(|marks| {
        let before = marks.contains(&address);
        marks.retain(|&other| other != address);
        if value {
            marks.push(address);
        }
        before
    })
}

/// The addresses of the marks that are set.
pub fn marks() -> Vec<usize> {
    MARKS.with_borrow(Vec::clone)
}

/// A device just switched on: no mark is set.
pub fn clear_marks() {
    MARKS.with_borrow_mut(Vec::clear);
}

/// The word behind an address, as [`BASE`] places it.
pub fn word_at(address: usize) -> u32 {
    ((address - BASE) / 4) as u32
}
