//! What a subject is: everything that the driver knows of one call, in one file under `subjects`.
use crate::answer::Answer;
use crate::bench::Timed;
use crate::generate::Numbers;
use crate::rng::Rng;
use std::fmt::Write;

/// A subject's name and numbers.
pub struct About {
    /// That of the desk's request, where there is one.
    pub name: &'static str,
    /// Its stream of random numbers. No other subject has it, and it stays for good: by it the lists come out the same.
    pub stream: u64,
    /// What the desk's list has of it: about so many edges and small inputs, and exactly so many random requests.
    pub list: Option<[usize; 3]>,
}

/// Who says what is right.
#[derive(Clone, Copy, Debug, PartialEq, Eq)]
pub enum By {
    Rust,
    /// The original, asked another request in this one's place.
    Instead,
    Rule,
}

/// A way to answer that is not ours: the subject's own formula, or one with a slip.
pub type Formula = fn(&[u32]) -> Answer;

/// A slip by its name, and answers that are right but for it.
pub struct Fault(pub &'static str, pub Formula);

pub trait Subject: Sync {
    fn about(&self) -> About;

    fn name(&self) -> &'static str {
        self.about().name
    }

    /// Each rule's limits and their neighbours, and the cases that document 01 names.
    fn edges(&self) -> Vec<Numbers> {
        Vec::new()
    }

    /// Every combination of small numbers.
    fn small(&self) -> Vec<Numbers> {
        Vec::new()
    }

    /// One of every magnitude.
    fn random(&self, rng: &Rng) -> Numbers;

    /// Of so many random requests asked for, one is made: a long search takes some milliseconds.
    fn rarity(&self) -> usize {
        1
    }

    /// The same request with something left out, to find the smallest that differs.
    fn shorter(&self, _n: &[u32]) -> Vec<Numbers> {
        Vec::new()
    }

    /// Whether the original answers it in a moment.
    fn affordable(&self, _n: &[u32]) -> bool {
        true
    }

    /// Where document 02 changes an answer: the request whose answer by document 01 is the right one here.
    fn instead(&self, _n: &[u32]) -> Option<Numbers> {
        None
    }

    /// Whether the original has the call. Of one that it has not the documents' words, in another way than ours, are the
    /// judge: of the desk's list too, and their time is set beside ours.
    fn has_original(&self) -> bool {
        true
    }

    /// The documents' answer where the original has none.
    fn ruled(&self, n: &[u32]) -> Option<Answer>;

    /// The original's answer to what is not ruled.
    fn original(&self, n: &[u32]) -> Answer;

    /// The right answer: the original's wherever it has one, and the documents' alone outside the differential domain.
    fn judged(&self, n: &[u32]) -> (Answer, By) {
        let other = self.instead(n);
        let asked = other.as_deref().unwrap_or(n);
        match self.ruled(asked) {
            Some(answer) => (answer, By::Rule),
            None if other.is_some() => (self.original(asked), By::Instead),
            None => (self.original(asked), By::Rust),
        }
    }

    #[cfg(archive)]
    fn ours(&self, n: &[u32]) -> Answer;

    /// A small formula of our own, into which slips are planted; without one it has to be right.
    fn formula(&self) -> Option<Formula> {
        None
    }

    /// The planted faults.
    fn faults(&self) -> Vec<Fault> {
        Vec::new()
    }

    /// The desk's line of a request.
    fn request(&self, n: &[u32]) -> String {
        self.with_words(n, usize::MAX)
    }

    /// The same where the numbers from a place on are written as register words.
    fn with_words(&self, n: &[u32], plain: usize) -> String {
        let mut line = self.name().to_owned();
        for (i, number) in n.iter().enumerate() {
            let _ = match i < plain {
                true => write!(line, " {number}"),
                false => write!(line, " {number:08x}"),
            };
        }
        line
    }

    /// The desk's line of numbers that were given.
    fn given(&self, numbers: &[u32]) -> String {
        let numbers: Vec<String> = numbers.iter().map(u32::to_string).collect();
        numbers.join(" ")
    }

    /// The desk's line of an answer.
    fn line(&self, answer: &Answer) -> String {
        match answer.refused {
            0 => self.given(&answer.numbers),
            _ => answer.refusal(),
        }
    }

    /// Whether a request that the judge answers can be on the desk's list.
    fn on_list(&self, _n: &[u32]) -> bool {
        true
    }

    /// Whether a request that the judge answers is timed; those that are have one width.
    fn is_timed(&self, _n: &[u32]) -> bool {
        true
    }

    /// The original's call, to be timed; the judge's where the original has none.
    fn rust_timed(&self) -> Option<Timed> {
        None
    }

    /// Ours: the safe crate's, as a program makes it, and the exported function itself where the crate's does more.
    #[cfg(archive)]
    fn ours_timed(&self) -> Option<Timed> {
        None
    }
}
