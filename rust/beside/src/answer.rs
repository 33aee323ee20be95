//! An answer in plain numbers.

/// Not a refusal but the end of a sequence whose host had no word left to return.
pub const STARVED: u32 = u32::MAX;
/// Not a refusal either: lent memory was written that had to stay.
pub const STRAY: u32 = u32::MAX - 1;
/// Nor this: a row too short was not refused.
pub const CRAMPED: u32 = u32::MAX - 2;
/// Nor this: a run by steps was another than the same run recorded, or went on behind its end.
pub const APART: u32 = u32::MAX - 3;
/// Refusals that carry a number: a module, the Pll module, the multiplier, a count.
const CARRYING: [u32; 4] = [2, 3, 5, 9];

/// Zero or a refusal's number, what the refusal carries, and the numbers given or left in lent memory. What the numbers
/// are each subject says.
#[derive(Clone, Debug, PartialEq, Eq)]
pub struct Answer {
    pub refused: u32,
    pub carried: u32,
    pub numbers: Vec<u32>,
}

impl Answer {
    pub fn given(numbers: impl Into<Vec<u32>>) -> Self {
        Self {
            refused: 0,
            carried: 0,
            numbers: numbers.into(),
        }
    }

    pub fn refused(number: u32) -> Self {
        Self::carrying(number, 0)
    }

    pub fn carrying(number: u32, carried: u32) -> Self {
        Self {
            refused: number,
            carried,
            numbers: Vec::new(),
        }
    }

    /// Something that went wrong, with the lent memory as it was left.
    pub fn amiss(what: u32, lent: &[u32]) -> Self {
        let mut answer = Self::refused(what);
        answer.numbers = lent.to_vec();
        answer
    }

    pub fn is_amiss(&self) -> bool {
        matches!(self.refused, STRAY | CRAMPED | APART)
    }

    /// The desk's line of a refusal.
    pub fn refusal(&self) -> String {
        match self.refused {
            STARVED => "starved".to_owned(),
            STRAY => format!("wrote where it may not, and left {:x?}", self.numbers),
            CRAMPED => format!(
                "did not refuse a row too short, and left {:x?}",
                self.numbers
            ),
            APART => format!("went another way by steps, and left {:x?}", self.numbers),
            number if CARRYING.contains(&number) => format!("refused {number} {}", self.carried),
            number => format!("refused {number}"),
        }
    }
}
