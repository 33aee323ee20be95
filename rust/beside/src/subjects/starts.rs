//! A run of starts on one device, each once-only or unchecked: the numbers of each start, as [`Start`] has them. It gives for
//! each start how it ended, the marks after it and its accesses, as [`Told`] orders them.
use super::pll_seq::{PllSeq, WIDEST, by_original, random_setting, sequence, unfit, waiting};
use super::starts_formula::Slips;
use crate::answer::{Answer, STARVED};
use crate::generate::{Numbers, grid};
use crate::rng::Rng;
use crate::subject::{About, By, Fault, Formula, Subject};

/// Words that each start's host has to return, which at times are too few.
const READS: usize = 9;
/// Numbers of a start in a request: 1 for an unchecked one, else 0, and then those of a sequence.
const NUMBERS: usize = 8 + READS;

pub struct Starts;

impl Subject for Starts {
    fn about(&self) -> About {
        About {
            name: "starts",
            stream: 15,
            list: None,
        }
    }

    /// Each kind before, between and behind starts of each PLL.
    fn edges(&self) -> Vec<Numbers> {
        let starts = |n: Numbers| {
            let between = kind(n[2], n[1]);
            let plain = kind(0, n[0]);
            [&between, &plain, &between, &plain, &between].map(Vec::clone)
        };
        let all = grid([0..=2, 0..=2, 0..=KINDS - 1]).into_iter();
        all.map(|n| starts(n).concat()).collect()
    }

    /// Every run of four starts, once-only or unchecked.
    fn small(&self) -> Vec<Numbers> {
        let named = |numbers: &Numbers| {
            let start = |&number: &u32| kind(number / 3, number % 3);
            numbers.iter().flat_map(start).collect()
        };
        grid([0..=5, 0..=5, 0..=5, 0..=5])
            .iter()
            .map(named)
            .collect()
    }

    fn random(&self, rng: &Rng) -> Numbers {
        let length = rng.within(1, 8);
        (0..length).flat_map(|_| random_start(rng)).collect()
    }

    /// Without any one start.
    fn shorter(&self, n: &[u32]) -> Vec<Numbers> {
        let starts = (0..n.len()).step_by(NUMBERS);
        let without = |start| [&n[..start], &n[start + NUMBERS..]].concat();
        starts.map(without).collect()
    }

    fn ruled(&self, n: &[u32]) -> Option<Answer> {
        let (answer, by) = self.judged(n);
        (by == By::Rule).then_some(answer)
    }

    fn original(&self, n: &[u32]) -> Answer {
        self.judged(n).0
    }

    /// Start by start. One that is refused changes no mark, so the original is not asked it.
    fn judged(&self, n: &[u32]) -> (Answer, By) {
        let mut told = Told::default();
        let mut judge = By::Rust;
        original::new_device();
        for start in Start::all(n) {
            let (became, by) = started(&start);
            if by == By::Rule {
                judge = By::Rule;
            }
            told.add(&became, original::marks());
        }
        (told.answer(), judge)
    }

    #[cfg(archive)]
    fn ours(&self, n: &[u32]) -> Answer {
        ours(n)
    }

    fn formula(&self) -> Option<Formula> {
        Some(|n| Slips::default().told(n))
    }

    fn faults(&self) -> Vec<Fault> {
        planted! {
            "StartNeverMarks": never_marks;
            "UncheckedStartMarks": unchecked_marks;
            "RefusedStartMarks": refused_marks;
            "TimeoutUnmarks": timeout_unmarks;
            "MarksInEvaluationOrder": marks_swapped;
            "OneMarkForAll": one_for_all;
            "AlreadyBeforeOthers": already_first;
            "AlreadyAccesses": already_accesses;
            "FirstSettingKept": first_setting;
        }
    }

    fn request(&self, n: &[u32]) -> String {
        let mut line = self.name().to_owned();
        for start in Start::all(n) {
            let kind = if start.unchecked { "unchecked" } else { "once" };
            line += &format!("\n    {kind} {}", PllSeq.request(start.sequence));
        }
        line
    }

    fn given(&self, mut numbers: &[u32]) -> String {
        let mut parts = Vec::new();
        while let [refused, carried, marks, accesses, rest @ ..] = numbers {
            let (log, rest) = rest.split_at(3 * *accesses as usize);
            let mut became = Answer::carrying(*refused, *carried);
            became.numbers = log.to_vec();
            let line = PllSeq.line(&became);
            parts.push(format!("{line} (marks {marks:03b})"));
            numbers = rest;
        }
        parts.join(" | ")
    }
}

/// One start of a request.
pub struct Start<'a> {
    pub unchecked: bool,
    /// As a request of the PLL sequence.
    pub sequence: &'a [u32],
}

impl<'a> Start<'a> {
    pub fn all(numbers: &'a [u32]) -> impl Iterator<Item = Self> {
        numbers.chunks_exact(NUMBERS).map(|numbers| Self {
            unchecked: numbers[0] == 1,
            sequence: &numbers[1..],
        })
    }

    pub fn pll(&self) -> u32 {
        self.sequence[0]
    }
}

/// An answer for a run of starts, as it grows.
#[derive(Default)]
pub struct Told(Vec<u32>);

impl Told {
    /// What became of the next start, as of a sequence, and the marks after it.
    pub fn add(&mut self, became: &Answer, marks: u32) {
        let accesses = became.numbers.len() as u32 / 3;
        self.0
            .extend([became.refused, became.carried, marks, accesses]);
        self.0.extend(&became.numbers);
    }

    pub fn answer(self) -> Answer {
        Answer::given(self.0)
    }
}

const SETTING: [u32; 4] = [40, 2, 2, 250];
/// How many kinds [`kind`] has.
const KINDS: u32 = 10;

fn start(unchecked: bool, sequence: Numbers) -> Numbers {
    [vec![unchecked.into()], sequence].concat()
}

/// Words of a board that has been started; its lock shows after so many clear polls.
fn reads(pll: u32, clear: usize) -> [u32; READS] {
    let mut reads = [0x0001_A008; READS];
    reads[4..].fill(7);
    for word in reads[4..].iter_mut().take(clear) {
        *word &= !(1 << pll);
    }
    reads
}

/// A start: one that locks, one that times out, one whose words run out, one with no polls, and one with each field too wide;
/// the first two unchecked as well.
fn kind(kind: u32, pll: u32) -> Numbers {
    let mut setting = SETTING;
    let (polls, clear) = match kind {
        0 | 1 => (3, 1),
        2 | 3 => (2, 2),
        4 => (100, READS),
        5 => (0, 0),
        wide => {
            let field = wide as usize - 6;
            setting[field] = WIDEST[field] + 1;
            (1, 0)
        }
    };
    let unchecked = matches!(kind, 1 | 3);
    start(
        unchecked,
        sequence(pll, kind % 2, setting, polls, &reads(pll, clear)),
    )
}

fn random_start(rng: &Rng) -> Numbers {
    let pll = rng.below(3);
    let setting = random_setting(rng);
    // Four clear polls leave no word for what comes behind the lock, and five leave none with the bit set.
    let clear = rng.pick(&[0, 0, 0, 1, 1, 2, 3, rng.within(4, 5)]) as usize;
    let mut reads = [0; READS].map(|_| rng.word());
    for (poll, word) in reads[4..].iter_mut().enumerate() {
        match poll {
            poll if poll < clear => *word &= !(1 << pll),
            poll if poll == clear => *word |= 1 << pll,
            _ => {}
        }
    }
    let polls = match rng.below(32) {
        0 => 0,
        1 | 2 => rng.within(1, 5),
        _ => rng.within(6, 65_535),
    };
    start(
        rng.one_in(4),
        sequence(pll, rng.below(2), setting, polls, &reads),
    )
}

/// A start on the device as the starts before have left it: 13 where the original made no access at all.
fn started(start: &Start) -> (Answer, By) {
    let sequence = start.sequence;
    if let Some(number) = unfit(sequence) {
        return (Answer::refused(number), By::Rule);
    }
    let waiting = waiting(sequence);
    let begin = if start.unchecked {
        original::run
    } else {
        original::start
    };
    let mut became = by_original(begin, waiting.unwrap_or(sequence));
    if became.refused == 0 && became.numbers.is_empty() {
        became = Answer::refused(13);
    }
    if waiting.is_some() && became.refused == STARVED {
        became.refused = 11;
        return (became, By::Rule);
    }
    (became, By::Rust)
}

/// The marks are handed on; the bits above them must not matter, and stay.
#[cfg(archive)]
fn ours(n: &[u32]) -> Answer {
    use super::{pll_seq::HEAD, stepping};
    use crate::answer::STRAY;
    use ogruspinu::raw;
    let mut told = Told::default();
    let mut marks = 0;
    for start in Start::all(n) {
        let plan = stepping::plan(start.sequence);
        let step = if start.unchecked {
            raw::pll_start(plan)
        } else {
            let once = raw::pll_start_once(plan, marks | !7);
            if once.marks < !7 {
                return Answer::amiss(STRAY, &[once.marks]);
            }
            marks = once.marks & 7;
            once.step
        };
        let became = match stepping::started(plan, step) {
            Ok(step) => stepping::run(step, &start.sequence[HEAD..]),
            Err(refused) => refused,
        };
        if became.is_amiss() {
            return became;
        }
        told.add(&became, marks);
    }
    told.answer()
}
