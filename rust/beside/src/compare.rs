//! Feeds both sides the same requests, compares every answer, and counts.
use crate::answer::Answer;
use crate::generate::Numbers;
use crate::progress::Progress;
use crate::rng::Rng;
use crate::shrink::{differs, smallest};
use crate::subject::{By, Subject};
use std::fmt::{self, Display, Formatter};
use std::ops::AddAssign;
use std::sync::Mutex;
use std::sync::atomic::{AtomicUsize, Ordering};

/// Requests that a thread takes at a time. Each block has its own stream of random numbers, so what is asked
/// does not depend on how many threads there are.
const BLOCK: usize = 1024;

/// What is set beside the judge.
pub type Side<'a> = &'a (dyn Fn(&[u32]) -> Answer + Sync);

/// How much is asked.
#[derive(Clone, Copy)]
pub struct Plan {
    pub seed: u64,
    /// Random requests for each subject, besides its edges and small inputs.
    pub count: usize,
    pub threads: usize,
}

/// Answers that agreed, by who was the judge of them.
#[derive(Clone, Copy, Default)]
pub struct Tally {
    pub rust: usize,
    pub instead: usize,
    pub rule: usize,
}

impl AddAssign for Tally {
    fn add_assign(&mut self, other: Self) {
        self.rust += other.rust;
        self.instead += other.instead;
        self.rule += other.rule;
    }
}

impl Display for Tally {
    fn fmt(&self, f: &mut Formatter<'_>) -> fmt::Result {
        if self.rust == 0 {
            let rule = self.rule;
            return write!(
                f,
                "{rule:>9} equal to the documents; the Rust has no such call"
            );
        }
        write!(f, "{:>9} equal to the Rust", self.rust)?;
        if self.instead > 0 {
            write!(f, ", {} to what it answers in their place", self.instead)?;
        }
        if self.rule > 0 {
            write!(f, ", {} to the documents where it has no answer", self.rule)?;
        }
        Ok(())
    }
}

/// An input on which the sides differ, as small as could be found.
pub struct Difference {
    pub subject: &'static dyn Subject,
    pub numbers: Numbers,
    pub by: By,
    pub right: Answer,
    pub ours: Answer,
}

struct Work<'a> {
    subject: &'static dyn Subject,
    fixed: Vec<Numbers>,
    plan: Plan,
    stream: u64,
    ours: Side<'a>,
    next: AtomicUsize,
    progress: Progress,
    /// The block with a difference that was found first in order.
    found: Mutex<Option<(usize, Numbers)>>,
}

pub fn subject(
    subject: &'static dyn Subject,
    mut plan: Plan,
    ours: Side,
) -> Result<Tally, Box<Difference>> {
    plan.count /= subject.rarity();
    let fixed = [subject.edges(), subject.small()].concat();
    let total = fixed.len() + plan.count;
    let work = Work {
        subject,
        fixed,
        plan,
        stream: subject.about().stream << 40,
        ours,
        next: AtomicUsize::new(0),
        progress: Progress::new(subject.name(), total),
        found: Mutex::new(None),
    };
    let mut tally = Tally::default();
    std::thread::scope(|scope| {
        let threads: Vec<_> = (0..plan.threads)
            .map(|_| scope.spawn(|| work.run()))
            .collect();
        for thread in threads {
            tally += thread.join().expect("a side panicked");
        }
    });
    work.progress.clear();
    match work.found.into_inner().expect("no thread panicked") {
        Some((_, numbers)) => Err(Box::new(difference(subject, numbers, ours))),
        None => Ok(tally),
    }
}

fn difference(subject: &'static dyn Subject, numbers: Numbers, ours: Side) -> Difference {
    let numbers = smallest(subject, numbers, ours);
    let (right, by) = subject.judged(&numbers);
    let ours = ours(&numbers);
    Difference {
        subject,
        numbers,
        by,
        right,
        ours,
    }
}

impl Work<'_> {
    fn run(&self) -> Tally {
        let mut tally = Tally::default();
        while self.found.lock().expect("no thread panicked").is_none() {
            let block = self.next.fetch_add(1, Ordering::Relaxed);
            let Some(requests) = self.block(block) else {
                break;
            };
            for request in &requests {
                if !self.agree(request, &mut tally) {
                    self.note(block, request);
                    return tally;
                }
            }
            self.progress.add(requests.len());
        }
        tally
    }

    fn agree(&self, request: &[u32], tally: &mut Tally) -> bool {
        let (right, by) = self.subject.judged(request);
        match by {
            By::Rust => tally.rust += 1,
            By::Instead => tally.instead += 1,
            By::Rule => tally.rule += 1,
        }
        right == (self.ours)(request)
    }

    fn note(&self, block: usize, request: &[u32]) {
        debug_assert!(differs(self.subject, request, self.ours));
        let mut found = self.found.lock().expect("no thread panicked");
        if found.as_ref().is_none_or(|&(first, _)| block < first) {
            *found = Some((block, request.to_vec()));
        }
    }

    /// First the fixed requests, then blocks of random ones; nothing after the last.
    fn block(&self, block: usize) -> Option<Vec<Numbers>> {
        let start = block * BLOCK;
        let random_blocks = self.fixed.len().div_ceil(BLOCK);
        if block < random_blocks {
            let end = self.fixed.len().min(start + BLOCK);
            return Some(self.fixed[start..end].to_vec());
        }
        let block = block - random_blocks;
        let done = block * BLOCK;
        if done >= self.plan.count {
            return None;
        }
        let rng = Rng::new(self.plan.seed, self.stream | block as u64);
        let length = BLOCK.min(self.plan.count - done);
        Some((0..length).map(|_| self.subject.random(&rng)).collect())
    }
}
