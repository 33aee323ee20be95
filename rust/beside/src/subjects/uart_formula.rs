//! For both UART subjects: the searches in a small formula of our own, with the places where a slip can be planted.
use super::uart_list::UNTOUCHED;
use crate::answer::Answer;

/// The UART's searches, with their slips.
pub struct Uart {
    pub halves_to_even: bool,
    pub later_on_a_tie: bool,
    /// The product of divider and target is not rounded before the division.
    pub wide_product: bool,
    /// The error is rounded once, at its end.
    pub wide_error: bool,
    /// Whole numbers that no float holds go to the next float below.
    pub truncated_inputs: bool,
    /// An error of exactly half a percent counts as viable.
    pub limit_is_viable: bool,
    pub widest_cd: u32,
    pub last_divider: u32,
}

/// Without a slip.
pub const RIGHT: Uart = Uart {
    halves_to_even: false,
    later_on_a_tie: false,
    wide_product: false,
    wide_error: false,
    truncated_inputs: false,
    limit_is_viable: false,
    widest_cd: 65_535,
    last_divider: 254,
};

/// Faults that are one number of [`RIGHT`] changed, by the search in which they show: those of both searches, and others.
macro_rules! slips {
    ($search:ident: $($others:tt)*) => {
        slips! { @all $search:
            "HalvesToEven": halves_to_even = true;
            "CdOf65536": widest_cd = 65_536;
            "DividerOf255": last_divider = 255;
            "InputsTruncated": truncated_inputs = true;
            "ProductNotRounded": wide_product = true;
            "ErrorRoundedOnce": wide_error = true;
            $($others)*
        }
    };
    (@all $search:ident: $($name:literal: $field:ident = $value:literal;)*) => {
        vec![$($crate::subject::Fault($name, |n| {
            let searches = $crate::subjects::uart_formula::Uart {
                $field: $value,
                ..$crate::subjects::uart_formula::RIGHT
            };
            searches.$search(n)
        })),*]
    };
}
pub(super) use slips;

impl Uart {
    pub fn best(&self, n: &[u32]) -> Answer {
        let mut best: Option<(u32, u32, f32)> = None;
        for candidate in self.candidates(n) {
            let better = |kept: (u32, u32, f32)| {
                candidate.2 < kept.2 || self.later_on_a_tie && candidate.2 == kept.2
            };
            if best.is_none_or(better) {
                best = Some(candidate);
            }
        }
        best.map_or_else(|| Answer::refused(8), |pair| Answer::given(numbers(pair)))
    }

    /// The list in so many lent records, or refusal 9 with all of them as they were.
    pub fn list(&self, n: &[u32]) -> Answer {
        let room = n[2];
        let viable =
            |pair: &(u32, u32, f32)| pair.2 < 0.005 || self.limit_is_viable && pair.2 == 0.005;
        let viable = self.candidates(n).filter(viable);
        let viable: Vec<[u32; 3]> = viable.map(numbers).collect();
        let mut lent = vec![UNTOUCHED; room as usize];
        let count = viable.len() as u32;
        let mut answer = Answer::carrying(9, count);
        if count <= room {
            lent[..viable.len()].copy_from_slice(&viable);
            answer = Answer::given([count]);
        }
        answer.numbers.extend(lent.into_iter().flatten());
        answer
    }

    fn candidates(&self, n: &[u32]) -> impl Iterator<Item = (u32, u32, f32)> {
        let (reference, target) = (self.float(n[0]), self.float(n[1]));
        (4..=self.last_divider).filter_map(move |bdiv| {
            let cd = self.whole(self.quotient(reference, (bdiv + 1) as f32, target));
            let fits = (1..=self.widest_cd).contains(&cd);
            let product = cd as f32 * (bdiv + 1) as f32;
            fits.then(|| (cd, bdiv, self.error(reference, product, target)))
        })
    }

    fn float(&self, number: u32) -> f32 {
        let bits_too_many = 8u32.saturating_sub(number.leading_zeros());
        let cut = if self.truncated_inputs {
            bits_too_many
        } else {
            0
        };
        (number >> cut << cut) as f32
    }

    fn quotient(&self, reference: f32, factor: f32, target: f32) -> f32 {
        if self.wide_product {
            let product = f64::from(factor) * f64::from(target);
            return (f64::from(reference) / product) as f32;
        }
        reference / (factor * target)
    }

    fn whole(&self, quotient: f32) -> u32 {
        if self.halves_to_even {
            quotient.round_ties_even() as u32
        } else {
            quotient.round() as u32
        }
    }

    fn error(&self, reference: f32, product: f32, target: f32) -> f32 {
        if self.wide_error {
            let target = f64::from(target);
            let actual = f64::from(reference) / f64::from(product);
            return ((actual - target).abs() / target) as f32;
        }
        (reference / product - target).abs() / target
    }
}

fn numbers((cd, bdiv, error): (u32, u32, f32)) -> [u32; 3] {
    [cd, bdiv, error.to_bits()]
}
