//! The update of an IO clock in an evaluated record: which, its new Hertz, crystal, the image's words. It gives the whole
//! record.
use super::clocks::Clocks;
use super::{bypass, image};
use crate::answer::Answer;
use crate::bench::Timed;
use crate::generate::{Numbers, after, grid};
use crate::rng::Rng;
use crate::subject::{About, Subject};
use original::WORDS;
use std::cell::RefCell;

pub struct Update;

impl Subject for Update {
    fn about(&self) -> About {
        About {
            name: "update",
            stream: 11,
            list: None,
        }
    }

    fn edges(&self) -> Vec<Numbers> {
        let images = [image::typical(), image::typical_emio()];
        after(&grid([0..=6, 123..=123]), &images)
    }

    fn small(&self) -> Vec<Numbers> {
        after(&grid([0..=6, 0..=3]), &[image::typical()])
    }

    fn random(&self, rng: &Rng) -> Numbers {
        [vec![rng.below(7), rng.magnitude(32)], image::random(rng)].concat()
    }

    fn ruled(&self, n: &[u32]) -> Option<Answer> {
        image::ruled(&n[2..])
    }

    fn instead(&self, n: &[u32]) -> Option<Numbers> {
        bypass::instead(n, 2)
    }

    fn original(&self, n: &[u32]) -> Answer {
        let image = image::words(&n[3..]);
        image::evaluated(original::updated(n[0], n[1], n[2], image))
    }

    #[cfg(archive)]
    fn ours(&self, n: &[u32]) -> Answer {
        ours(n[0], n[1], &n[2..])
    }

    fn request(&self, n: &[u32]) -> String {
        self.with_words(n, 3)
    }

    fn given(&self, numbers: &[u32]) -> String {
        Clocks.given(numbers)
    }

    /// In a record that was evaluated before.
    fn rust_timed(&self) -> Option<Timed> {
        Some(|inputs| {
            let record = original::evaluate(1_000, &[0x0410_1107; WORDS]);
            let record = RefCell::new(record.expect("no divisor is 0"));
            inputs.each(|n| {
                original::update(n[0], n[1], &mut record.borrow_mut());
                0
            })
        })
    }

    /// In a row that an evaluation filled before.
    #[cfg(archive)]
    fn ours_timed(&self) -> Option<Timed> {
        Some(|inputs| {
            let row = RefCell::new([0; original::CLOCK_NUMBERS]);
            inputs.each(|n| {
                let row = &mut row.borrow_mut()[..];
                ogruspinu::raw::io_update(n[0], n[1], row) as u32
            })
        })
    }
}

/// A row one word too short is refused.
#[cfg(archive)]
fn ours(which: u32, hertz: u32, image: &[u32]) -> Answer {
    use crate::answer::CRAMPED;
    use ogruspinu::raw::{halves, io_update};
    let mut evaluated = Clocks.ours(image);
    if evaluated.refused != 0 {
        return evaluated;
    }
    let before = evaluated.numbers.clone();
    let (all, row) = (before.len(), &mut evaluated.numbers);
    let short = io_update(which, hertz, &mut row[..all - 1]);
    if halves(short) != (9, all as u32) || *row != before {
        return Answer::amiss(CRAMPED, row);
    }
    match io_update(which, hertz, row) {
        0 => evaluated,
        told => crate::lent::number(told),
    }
}
