//! Traces that are worth asking about.
use super::trace_by_hand::{MOST, Part, State};
use crate::generate::{Numbers, grid};
use crate::rng::Rng;

/// A gain of both clocks.
fn gain(first: u32, second: u32) -> u32 {
    first | second << 16
}

/// Rows of one length over these gains.
fn part(gains: &[u32]) -> Part<'_> {
    rows([gains.len(); 2], gains)
}

fn rows(lengths: [usize; 2], gains: &[u32]) -> Part<'_> {
    Part {
        lengths,
        times: 1,
        gains,
    }
}

pub fn of(state: &State, parts: &[Part]) -> Numbers {
    let parts: Vec<Numbers> = parts.iter().map(Part::numbers).collect();
    [state.numbers(), parts.concat()].concat()
}

/// All ways to cut a trace into parts, in their order, none of them empty.
fn cuts(gains: &[u32]) -> Vec<Vec<Part<'_>>> {
    let ways = 1 << gains.len().saturating_sub(1);
    let cut = |way: usize| {
        let mut parts = Vec::new();
        let mut begin = 0;
        for end in 1..=gains.len() {
            if end == gains.len() || way >> (end - 1) & 1 == 1 {
                parts.push(part(&gains[begin..end]));
                begin = end;
            }
        }
        parts
    };
    (0..ways).map(cut).collect()
}

/// Each clock stands still, passes zero or leads again at each place of five samples, in one part and in five with an empty one
/// between.
pub fn wraps_and_ties() -> Vec<Numbers> {
    let steps = [
        gain(0, 0),
        gain(65_535, 0),
        gain(0, 65_535),
        gain(7, 7),
        gain(65_535, 65_535),
    ];
    let mut all = Vec::new();
    for n in grid([0..=4, 0..=4, 0..=4]) {
        let [first, second, third] = [n[0], n[1], n[2]].map(|step| steps[step as usize]);
        let gains = [gain(9, 65_530), first, second, third, first];
        let each = gains.iter().map(std::slice::from_ref);
        let parts: Vec<Part> = each.flat_map(|gain| [part(&[]), part(gain)]).collect();
        all.push(of(&State::default(), &[part(&gains)]));
        all.push(of(&State::default(), &parts));
    }
    all
}

/// Rows of every small length, equal or not, just before the last sample, behind it, and far beyond.
pub fn at_the_limit() -> Vec<Numbers> {
    let gains = [gain(1, 0), gain(65_535, 2), gain(0, 3), gain(4, 65_000)];
    let mut all = Vec::new();
    for samples in (MOST - 3..=MOST + 1).chain([1 << 31, u32::MAX - 1, u32::MAX]) {
        for n in grid([0..=4, 0..=4]) {
            let state = State {
                samples,
                channels: [(40, 65_535), (50, 1)],
                leads: [(3, 7), (12, samples)],
            };
            let rows = rows(
                [n[0] as usize, n[1] as usize],
                &gains[..n[0].max(n[1]) as usize],
            );
            all.push(of(&state, &[rows, part(&gains[..1]), part(&[])]));
        }
    }
    all
}

/// Totals at the ends of 64 bits and in their middle, with and without samples before them.
pub fn forged() -> Vec<Numbers> {
    const MIDDLE: u64 = 1 << 63;
    let totals = [
        0,
        1,
        MIDDLE - 1,
        MIDDLE,
        MIDDLE + 1,
        u64::MAX - 65_535,
        u64::MAX - 1,
        u64::MAX,
    ];
    let gains = [gain(1, 65_535), gain(65_535, 0), gain(65_535, 1)];
    let mut all = Vec::new();
    for n in grid([0..=7, 0..=7, 0..=1, 0..=1]) {
        let [first, second] = [n[0], n[1]].map(|total| totals[total as usize]);
        let lead = [0, u64::MAX - 70_000][n[3] as usize];
        let state = State {
            samples: [0, 5][n[2] as usize],
            channels: [(first, 77), (second, 65_535)],
            leads: [(lead, 9), (lead, u32::MAX)],
        };
        all.push(of(
            &state,
            &[part(&[]), part(&gains[..1]), part(&gains[1..])],
        ));
    }
    all
}

/// As many samples as a trace may have, and one more: in one part and in two, with leads that grow to the end, tie, and fall.
pub fn whole() -> Vec<Numbers> {
    let most = MOST as usize;
    let (growing, one, rest) = ([gain(65_535, 0)], [gain(5, 6)], [gain(65_535, 65_535)]);
    let mixed: Vec<u32> = (0..64)
        .map(|i| gain(i * 1_033 % 65_536, i * 2_063 % 65_536))
        .collect();
    let long = |gains, times| Part {
        times,
        ..part(gains)
    };
    let again = [part(&one), part(&[]), rows([1, 0], &one)];
    [
        vec![long(&growing, most + 1), long(&growing, most)],
        [&[long(&mixed, most / 64)], &again[..]].concat(),
        vec![
            long(&mixed, most / 64 - 1),
            long(&rest, 65),
            long(&rest, 64),
            part(&one),
        ],
    ]
    .map(|parts| of(&State::default(), &parts))
    .to_vec()
}

/// Every trace of up to three samples over counts at both ends and in the middle, cut in every way.
pub fn small() -> Vec<Numbers> {
    const COUNTS: [u32; 5] = [0, 1, 32_768, 65_534, 65_535];
    let mut all = vec![
        of(&State::default(), &[]),
        of(&State::default(), &[part(&[])]),
    ];
    let traces = [
        grid([0..=24]),
        grid([0..=24, 0..=24]),
        grid([0..=24, 0..=24, 0..=24]),
    ];
    for trace in traces.concat() {
        let mut last = [0, 0];
        let gains: Vec<u32> = trace
            .iter()
            .map(|&sample| {
                let counts = [COUNTS[sample as usize % 5], COUNTS[sample as usize / 5]];
                let step = |channel: usize| counts[channel].wrapping_sub(last[channel]) & 0xFFFF;
                let gain = gain(step(0), step(1));
                last = counts;
                gain
            })
            .collect();
        all.extend(
            cuts(&gains)
                .iter()
                .map(|parts| of(&State::default(), parts)),
        );
    }
    all
}

pub fn random(rng: &Rng) -> Numbers {
    let gains: Vec<Vec<u32>> = (0..rng.within(1, 6)).map(|_| random_gains(rng)).collect();
    let parts: Vec<Part> = gains.iter().map(|gains| random_rows(rng, gains)).collect();
    let samples: usize = parts.iter().map(|part| part.counts(0)).sum();
    of(&random_state(rng, samples as u32), &parts)
}

/// None, few or some. Clocks that go alike keep a lead as it is, and clocks that only rest or go all but round give it back and take
/// it again.
fn random_gains(rng: &Rng) -> Vec<u32> {
    let length = rng.pick(&[0, 1, 1, 2, 3, 4, 5, rng.below(24)]);
    let kind = rng.below(4);
    let one = || match rng.below(6) {
        0 => 0,
        1 => 65_535,
        2 => rng.pick(&[1, 2, 32_767, 32_768, 65_534]),
        _ => rng.magnitude(16),
    };
    let gains = (0..length).map(|_| match kind {
        0 => {
            let alike = one();
            gain(alike, alike)
        }
        1 => gain(65_535 * rng.below(2), 65_535 * rng.below(2)),
        _ => gain(one(), one()),
    });
    gains.collect()
}

/// Mostly rows of one length.
fn random_rows<'a>(rng: &Rng, gains: &'a [u32]) -> Part<'a> {
    let mut lengths = [gains.len(); 2];
    if rng.one_in(8) {
        lengths[rng.below(2) as usize] = rng.within(0, gains.len() as u32) as usize;
    }
    let times = match rng.below(8) {
        0 => rng.below(5) as usize,
        _ => 1,
    };
    Part {
        lengths,
        times,
        gains,
    }
}

/// No samples yet, of every second trace; others go on from a state, some of them just before the limit, some that no trace has.
fn random_state(rng: &Rng, samples: u32) -> State {
    let wide = || match rng.below(4) {
        0 => rng.magnitude(20).into(),
        1 => u64::MAX - u64::from(rng.magnitude(20)),
        2 => (1 << 63) + u64::from(rng.magnitude(20)) - (1 << 19),
        _ => rng.next() >> rng.below(64),
    };
    let near = wide();
    let total = || match rng.below(2) {
        0 => near.wrapping_add(rng.magnitude(18).into()),
        _ => wide(),
    };
    let forged = |samples| State {
        samples,
        channels: [(total(), rng.below(65_536)), (total(), rng.below(65_536))],
        leads: [(wide(), rng.magnitude(32)), (wide(), rng.magnitude(25))],
    };
    match rng.below(10) {
        0 => forged(0),
        1 => forged(rng.near(MOST)),
        2 | 3 => forged(rng.near(MOST - samples)),
        4 => State {
            leads: [(0, 0), (0, 0)],
            ..forged(rng.magnitude(32))
        },
        _ => State::default(),
    }
}

#[cfg(test)]
mod tests {
    use super::*;

    #[test]
    fn a_trace_is_cut_in_every_way() {
        let gains = [1, 2, 3, 4];
        let lengths = |parts: &Vec<Part>| parts.iter().map(|part| part.gains.len()).collect();
        let all: Vec<Vec<usize>> = cuts(&gains).iter().map(lengths).collect();
        assert_eq!(all.len(), 8);
        assert!(
            all.contains(&vec![4]) && all.contains(&vec![1, 2, 1]) && all.contains(&vec![1; 4])
        );
        assert!(cuts(&gains).iter().all(|parts| {
            let gains: Vec<u32> = parts.iter().flat_map(|part| part.gains).copied().collect();
            gains == [1, 2, 3, 4]
        }));
    }
}
