//! Times both sides on the same inputs, alternating, in several rounds.
use crate::generate::Numbers;
use crate::rng::Rng;
use crate::subject::Subject;
use std::hint::black_box;
use std::time::{Duration, Instant};

/// About how long a side is at work in a round: short, so that whatever else the machine does falls into few of
/// them and the median does not see it.
const ROUND: Duration = Duration::from_millis(1);

/// A call on fewer inputs would be timed on these inputs' luck.
const FEW: usize = 10;

/// Inputs of one call, all of one width, one after the other.
pub struct Inputs {
    numbers: Vec<u32>,
    width: usize,
    /// A round takes so many of them, and goes over them so often.
    taken: usize,
    repeats: usize,
    /// Where the round's inputs begin.
    begin: usize,
}

/// One side's way over all inputs: how long it took, and the sum of a number out of each answer.
pub struct Pass {
    time: Duration,
    sum: u32,
}

/// A call of one side on all inputs.
pub type Timed = fn(&Inputs) -> Pass;

impl Inputs {
    pub fn new(subject: &dyn Subject, seed: u64, count: usize) -> Self {
        let rng = Rng::new(seed, subject.about().stream);
        let drawn = std::iter::repeat_with(|| subject.random(&rng));
        let requests: Vec<Numbers> = drawn
            .filter(|n| {
                let asked_itself = subject.instead(n).is_none() && subject.ruled(n).is_none();
                asked_itself || !subject.has_original()
            })
            .filter(|n| subject.is_timed(n))
            .take((count / subject.rarity()).max(FEW))
            .collect();
        Self {
            width: requests[0].len(),
            taken: requests.len(),
            numbers: requests.concat(),
            repeats: 1,
            begin: 0,
        }
    }

    /// Slow calls get few inputs in a round, and others in the next; quick ones get all, several times.
    fn fitted(mut self, once: Duration) -> Self {
        let nanos = once.as_nanos().max(1) as usize;
        let round = ROUND.as_nanos() as usize;
        self.taken = (self.taken * round / nanos).clamp(1, self.taken);
        self.repeats = (round / nanos).max(1);
        self
    }

    fn begin_round(&mut self, round: usize) {
        let windows = self.numbers.len() / self.width / self.taken;
        self.begin = round % windows * self.taken;
    }

    /// The time of one call on each input. Each answer gives one number to a sum, which keeps the calls from
    /// being optimized away and shows that both sides gave the same. `count` at the folder's top knows it by name.
    #[inline(never)]
    pub fn each(&self, call: impl Fn(&[u32]) -> u32) -> Pass {
        let inputs = &self.numbers[self.begin * self.width..][..self.taken * self.width];
        let start = Instant::now();
        let mut sum = 0u32;
        for _ in 0..self.repeats {
            for numbers in inputs.chunks_exact(self.width) {
                sum = sum.wrapping_add(call(numbers));
            }
        }
        let sum = black_box(sum);
        Pass {
            time: start.elapsed(),
            sum,
        }
    }

    pub fn calls(&self) -> usize {
        self.taken * self.repeats
    }
}

/// The two sides of a call.
pub type Sides = (Timed, Timed);

/// One line for each call: the median ratio, its spread (the middle half and the ends), both times.
pub fn run(timed: &[(&dyn Subject, Sides)], seed: u64, count: usize, rounds: usize) {
    println!(
        "{:15} {:>7}  {:15}  {:15}  {:>10} {:>10}",
        "call", "ratio", "middle half", "all", "judge ns", "ours ns"
    );
    for &(subject, sides) in timed {
        let inputs = Inputs::new(subject, seed, count);
        let once = sides.0(&inputs);
        let mut inputs = inputs.fitted(once.time);
        let round = |round| {
            inputs.begin_round(round);
            one_round(round, subject.name(), &inputs, sides)
        };
        let times: Vec<(f64, f64)> = (0..rounds).map(round).collect();
        println!("{:15} {}", subject.name(), line(&times, inputs.calls()));
    }
}

/// Which side goes first alternates, so that neither always finds the other's traces.
fn one_round(round: usize, name: &str, inputs: &Inputs, (rust, ours): Sides) -> (f64, f64) {
    let rust_first = round.is_multiple_of(2);
    let (first, second) = if rust_first {
        (rust, ours)
    } else {
        (ours, rust)
    };
    let (first, second) = (first(inputs), second(inputs));
    assert_eq!(first.sum, second.sum, "the answers differ: {name}");
    let (first, second) = (first.time.as_secs_f64(), second.time.as_secs_f64());
    if rust_first {
        (first, second)
    } else {
        (second, first)
    }
}

fn line(times: &[(f64, f64)], calls: usize) -> String {
    let ratios = sorted(times.iter().map(|(rust, ours)| ours / rust));
    let part = |quarter: usize| ratios[(ratios.len() - 1) * quarter / 4];
    let nanos = |side: Vec<f64>| side[(side.len() - 1) / 2] * 1e9 / calls as f64;
    let rust = nanos(sorted(times.iter().map(|(rust, _)| *rust)));
    let ours = nanos(sorted(times.iter().map(|(_, ours)| *ours)));
    format!(
        "{:7.3}  {:6.3} to {:.3}  {:6.3} to {:.3}  {rust:10.1} {ours:10.1}",
        part(2),
        part(1),
        part(3),
        part(0),
        part(4),
    )
}

fn sorted(values: impl Iterator<Item = f64>) -> Vec<f64> {
    let mut values: Vec<f64> = values.collect();
    values.sort_by(f64::total_cmp);
    values
}
