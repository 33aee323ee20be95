//! Our calls with an eye on every lent word.
use crate::answer::{Answer, CRAMPED, STRAY};
use ogruspinu::raw::halves;

/// What a lent word holds before the call.
pub const BLANK: u32 = 0xA5A5_5A5A;
/// More words than any answer of fixed length has.
const MOST: usize = 33;

/// A word of a lent row: what it holds before the call, and a row of them as numbers of 32 bits.
pub trait Word: Copy + PartialEq {
    const BLANK: Self;
    fn numbers(row: &[Self]) -> Vec<u32>;
}

impl Word for u32 {
    const BLANK: Self = BLANK;

    fn numbers(row: &[Self]) -> Vec<u32> {
        row.to_vec()
    }
}

/// The lower half of each, then the upper.
impl Word for u64 {
    const BLANK: Self = 0x1_0000_0001 * BLANK as u64;

    fn numbers(row: &[Self]) -> Vec<u32> {
        let halves = row.iter().map(|&word| halves(word));
        halves.flat_map(|(low, high)| [low, high]).collect()
    }
}

pub fn blank<T: Word>(lent: &[T]) -> bool {
    lent.iter().all(|&word| word == T::BLANK)
}

/// An answer of one number, or a refusal.
pub fn number(told: u64) -> Answer {
    match halves(told) {
        (0, number) => Answer::given([number]),
        (number, carried) => Answer::carrying(number, carried),
    }
}

/// An answer of N words: one word less must be refused before all else; one word more is lent and must stay, and all
/// must stay after a refusal.
pub fn words<const N: usize>(call: impl Fn(&mut [u32]) -> u64) -> Answer {
    row::<u32, N>(call)
}

/// The same for words of any width.
pub fn row<T: Word, const N: usize>(call: impl Fn(&mut [T]) -> u64) -> Answer {
    let mut lent = [T::BLANK; MOST];
    let short = call(&mut lent[..N - 1]);
    if halves(short) != (9, N as u32) || !blank(&lent) {
        return Answer::amiss(CRAMPED, &T::numbers(&lent[..N]));
    }
    let told = call(&mut lent[..N + 1]);
    let written = if told == 0 { N } else { 0 };
    if !blank(&lent[written..]) {
        return Answer::amiss(STRAY, &T::numbers(&lent[..N + 1]));
    }
    match told {
        0 => Answer::given(T::numbers(&lent[..N])),
        told => number(told),
    }
}
