//! Document 02's words on traces, by what really passed: true counts of 128 bits that only rise, of which a counter shows the
//! lowest 16. After each part the whole trace is gone through anew, and every number told by the true counts, where ours adds up
//! steps. And how a request has its state and its parts.
use crate::answer::Answer;
use crate::generate::Numbers;

/// The most samples of a trace.
pub const MOST: u32 = 16_777_216;
/// How many counts a counter has.
pub const RANGE: u128 = 65_536;
/// Numbers of a state in a request and in an answer.
pub const STATE: usize = 13;
/// Numbers of an answer for each part: the refusal, the state after it, and the difference.
pub const TOLD: usize = 1 + STATE + 2;

/// A state: of each channel its total and its last count, and of each its greatest lead and the sample.
#[derive(Clone, Copy, Debug, Default, PartialEq, Eq)]
pub struct State {
    pub samples: u32,
    pub channels: [(u64, u32); 2],
    pub leads: [(u64, u32); 2],
}

impl State {
    pub fn of(n: &[u32]) -> Self {
        let pair = |at: usize| (u64::from(n[at]) | u64::from(n[at + 1]) << 32, n[at + 2]);
        Self {
            samples: n[0],
            channels: [pair(1), pair(4)],
            leads: [pair(7), pair(10)],
        }
    }

    pub fn numbers(&self) -> Numbers {
        let pairs = [self.channels, self.leads].concat();
        let words = pairs.iter().flat_map(|&(wide, narrow)| {
            let [low, high] = halves(wide);
            [low, high, narrow]
        });
        std::iter::once(self.samples).chain(words).collect()
    }
}

fn halves(wide: u64) -> [u32; 2] {
    [wide as u32, (wide >> 32) as u32]
}

/// A part of a trace by how far the clocks go on: before each count the first by the lower half of a gain, the second by the
/// upper.
#[derive(Clone, Copy)]
pub struct Part<'a> {
    /// How many of the gains each channel's row has. They differ where it has to be refused.
    pub lengths: [usize; 2],
    /// How often the row has them, one round after the other.
    pub times: usize,
    pub gains: &'a [u32],
}

/// How far each clock goes on.
fn ticks(gain: u32) -> [u128; 2] {
    [gain & 0xFFFF, gain >> 16].map(u128::from)
}

impl Part<'_> {
    /// How long a channel's row is.
    pub fn counts(&self, channel: usize) -> usize {
        self.lengths[channel] * self.times
    }

    /// Goes over every gain of both channels, as far as both rows have it.
    fn each(&self, mut seen: impl FnMut([u128; 2])) {
        let both = self.lengths[0].min(self.lengths[1]);
        for _ in 0..self.times {
            for &gain in &self.gains[..both] {
                seen(ticks(gain));
            }
        }
    }

    /// A channel's row: what its counter shows after each gain.
    pub fn row(&self, channel: usize, last: u32) -> Vec<u16> {
        let mut count = u128::from(last);
        let mut row = Vec::with_capacity(self.counts(channel));
        for _ in 0..self.times {
            for &gain in &self.gains[..self.lengths[channel]] {
                count += ticks(gain)[channel];
                row.push((count % RANGE) as u16);
            }
        }
        row
    }

    pub fn numbers(&self) -> Numbers {
        let head = [self.lengths[0], self.lengths[1], self.times];
        let head = head.map(|number| number as u32);
        [&head, self.gains].concat()
    }
}

/// The state and the parts of a request. Any numbers make one: a part that is cut short has as many gains as there are.
pub fn request(n: &[u32]) -> (State, Vec<Part<'_>>) {
    let mut parts = Vec::new();
    let mut rest = &n[STATE..];
    while let [first, second, times, behind @ ..] = rest {
        let lengths = [first, second].map(|&length| behind.len().min(length as usize));
        let (gains, others) = behind.split_at(lengths[0].max(lengths[1]));
        parts.push(Part {
            lengths,
            times: *times as usize,
            gains,
        });
        rest = others;
    }
    (State::of(n), parts)
}

/// What is told of a request: the first difference, and after each part its refusal, the state and the difference.
pub struct Told(Numbers);

impl Told {
    pub fn new(difference: i64) -> Self {
        Self(halves(difference as u64).to_vec())
    }

    pub fn add(&mut self, refusal: u32, state: &State, difference: i64) {
        self.0.push(refusal);
        self.0.extend(state.numbers());
        self.0.extend(halves(difference as u64));
    }

    pub fn answer(self) -> Answer {
        Answer::given(self.0)
    }
}

/// A refused part leaves no trace: the next one goes on from the last count that was taken.
pub fn judged(n: &[u32]) -> Answer {
    let (given, parts) = request(n);
    let mut told = Told::new(difference(&given));
    let (mut taken, mut state) = (Vec::new(), given);
    for part in parts {
        let [first, second] = [0, 1].map(|channel| part.counts(channel));
        let refusal = match u128::from(state.samples) + first as u128 {
            _ if first != second => 18,
            samples if samples > u128::from(MOST) => 19,
            _ => 0,
        };
        if refusal == 0 {
            taken.push(part);
            state = replayed(&given, &taken);
        }
        told.add(refusal, &state, difference(&state));
    }
    told.answer()
}

/// The first total less the second, as far as 64 bits with a sign hold it on both sides of 0.
pub fn difference(state: &State) -> i64 {
    let [first, second] = state.channels.map(|(total, _)| i128::from(total));
    let most = i128::from(i64::MAX);
    (first - second).clamp(-most, most) as i64
}

/// The totals at each moment, by the true counts.
struct Totals {
    given: [u128; 2],
    /// The true counts at the trace's first sample, or at the last one before what is gone through here.
    since: [u128; 2],
}

impl Totals {
    fn at(&self, counts: [u128; 2]) -> [i128; 2] {
        [0, 1].map(|channel| {
            let ticks = counts[channel] - self.since[channel];
            ((self.given[channel] + ticks) % (1 << 64)) as i128
        })
    }

    /// By how much the first is ahead of the second, and the second of the first.
    fn ahead(&self, counts: [u128; 2]) -> [i128; 2] {
        let [first, second] = self.at(counts);
        [first - second, second - first]
    }
}

/// The true counts before the parts.
fn before(given: &State) -> [u128; 2] {
    given.channels.map(|(_, last)| u128::from(last))
}

/// All samples of the parts one after the other, by their true counts.
fn each_sample(given: &State, parts: &[Part], mut seen: impl FnMut([u128; 2])) {
    let mut counts = before(given);
    for part in parts {
        part.each(|gain| {
            counts = [counts[0] + gain[0], counts[1] + gain[1]];
            seen(counts);
        });
    }
}

/// The first sample of all has no ticks before it, whatever count it shows.
fn since(given: &State, parts: &[Part]) -> [u128; 2] {
    let mut first = before(given);
    if let (0, Some(part)) = (given.samples, parts.iter().find(|part| part.counts(0) > 0)) {
        let gain = ticks(part.gains[0]);
        first = [first[0] + gain[0], first[1] + gain[1]];
    }
    first
}

fn replayed(given: &State, parts: &[Part]) -> State {
    let totals = Totals {
        given: given.channels.map(|(total, _)| u128::from(total)),
        since: since(given, parts),
    };
    let mut last = before(given);
    let mut most = given.leads.map(|(ticks, _)| i128::from(ticks));
    each_sample(given, parts, |counts| {
        let ahead = totals.ahead(counts);
        most = [most[0].max(ahead[0]), most[1].max(ahead[1])];
        last = counts;
    });
    let after = totals.at(last);
    let samples: usize = parts.iter().map(|part| part.counts(0)).sum();
    State {
        samples: given.samples + samples as u32,
        channels: [0, 1].map(|channel| (after[channel] as u64, (last[channel] % RANGE) as u32)),
        leads: reached(given, parts, &totals, most),
    }
}

/// The greatest leads with the first sample that has each; what the state was given with where none is greater.
fn reached(given: &State, parts: &[Part], totals: &Totals, most: [i128; 2]) -> [(u64, u32); 2] {
    let greater = [0, 1].map(|channel| most[channel] > i128::from(given.leads[channel].0));
    let (mut number, mut found) = (given.samples, [None; 2]);
    if greater != [false; 2] {
        each_sample(given, parts, |counts| {
            let ahead = totals.ahead(counts);
            for channel in 0..2 {
                if ahead[channel] == most[channel] {
                    found[channel] = found[channel].or(Some(number));
                }
            }
            number += 1;
        });
    }
    [0, 1].map(|channel| match found[channel] {
        Some(at) if greater[channel] => (most[channel] as u64, at),
        _ => given.leads[channel],
    })
}
