//! From an input on which the sides differ to the smallest one that can be found from it.
use crate::compare::Side;
use crate::generate::Numbers;
use crate::subject::Subject;

pub fn differs(subject: &dyn Subject, n: &[u32], ours: Side) -> bool {
    subject.judged(n).0 != ours(n)
}

/// Takes the first smaller request that still differs, until there is none.
pub fn smallest(subject: &dyn Subject, mut numbers: Numbers, ours: Side) -> Numbers {
    let still = |n: &Numbers| subject.affordable(n) && differs(subject, n, ours);
    loop {
        let Some(smaller) = smaller(subject, &numbers).find(still) else {
            return numbers;
        };
        numbers = smaller;
    }
}

/// The same request with something left out, or with one of its numbers made smaller.
fn smaller(subject: &dyn Subject, n: &[u32]) -> impl Iterator<Item = Numbers> {
    let lower = n.iter().enumerate().flat_map(move |(i, &number)| {
        lower(number).map(move |number| {
            let mut smaller = n.to_vec();
            smaller[i] = number;
            smaller
        })
    });
    subject.shorter(n).into_iter().chain(lower)
}

/// Smaller numbers, the boldest first: nothing, a half, a single bit left out, one less.
fn lower(number: u32) -> impl Iterator<Item = u32> {
    let bits = (0..32).rev().map(move |bit| number & !(1 << bit));
    let bold = [0, 1, number / 2].into_iter().chain(bits);
    bold.chain([number.saturating_sub(1)])
        .filter(move |&lower| lower < number)
}
