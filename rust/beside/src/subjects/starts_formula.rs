//! Document 01's rules on starts, with marks of our own, and the places where a slip can be planted.
use super::pll_seq::PllSeq;
use super::starts::{Start, Told};
use crate::answer::Answer;
use crate::subject::Subject;

#[derive(Default)]
pub struct Slips {
    pub never_marks: bool,
    pub unchecked_marks: bool,
    /// Refusal 12 or 20 leaves a mark.
    pub refused_marks: bool,
    /// A run that times out takes its mark back.
    pub timeout_unmarks: bool,
    /// The marks in evaluation's order: ARM, IO, DDR.
    pub marks_swapped: bool,
    /// Any mark stands in the way of every PLL.
    pub one_for_all: bool,
    /// Refusal 13 comes before 12 and 20.
    pub already_first: bool,
    /// Refusal 13 comes, and the accesses are made all the same.
    pub already_accesses: bool,
    /// Every run has the first one's setting.
    pub first_setting: bool,
}

impl Slips {
    pub fn told(&self, n: &[u32]) -> Answer {
        let mut told = Told::default();
        let mut marks = 0;
        for start in Start::all(n) {
            let became = self.became(&start, &n[3..7], &mut marks);
            told.add(&became, marks);
        }
        told.answer()
    }

    fn became(&self, start: &Start, first: &[u32], marks: &mut u32) -> Answer {
        let bit = match start.pll() {
            0 => 1,
            pll => 1 << if self.marks_swapped { 3 - pll } else { pll },
        };
        // Without a mark in its way it goes as an unchecked one.
        let mut free = start.sequence.to_vec();
        if self.first_setting {
            free[2..6].copy_from_slice(first);
        }
        let mut became = PllSeq.judged(&free).0;
        let refused = matches!(became.refused, 12 | 20);
        let seen = if self.one_for_all {
            *marks
        } else {
            *marks & bit
        };
        if !start.unchecked && seen != 0 && (!refused || self.already_first) {
            let made = self.already_accesses.then_some(became.numbers);
            became = Answer::refused(13);
            became.numbers = made.unwrap_or_default();
        } else if self.marks(start, &became) {
            *marks |= bit;
        }
        became
    }

    fn marks(&self, start: &Start, became: &Answer) -> bool {
        let once = !start.unchecked || self.unchecked_marks;
        let left = match became.refused {
            12 | 20 => self.refused_marks,
            11 => !self.timeout_unmarks,
            _ => true,
        };
        once && left && !self.never_marks
    }
}
