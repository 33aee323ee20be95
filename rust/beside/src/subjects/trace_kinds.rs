//! What random traces are: a test counts how often each kind that the request names is among them, and how often each slip shows.
use super::trace::Trace;
use super::trace_by_hand::{MOST, Part, State, TOLD, request};
use crate::rng::Rng;
use crate::subject::Subject;

/// A part with the state before it, its refusal, and the state after it.
struct Fed<'a> {
    before: State,
    part: Part<'a>,
    refusal: u32,
    after: State,
}

fn fed<'a>(n: &'a [u32], told: &[u32]) -> Vec<Fed<'a>> {
    let (mut before, parts) = request(n);
    let told = told[2..].chunks(TOLD);
    let each = parts.into_iter().zip(told).map(|(part, told)| {
        let (refusal, after) = (told[0], State::of(&told[1..]));
        let fed = Fed {
            before,
            part,
            refusal,
            after,
        };
        before = after;
        fed
    });
    each.collect()
}

impl Fed<'_> {
    fn is_empty(&self) -> bool {
        [0, 1].iter().all(|&channel| self.part.counts(channel) == 0)
    }

    /// Where a counter passes zero, as places from the front of its row and from its back. The first sample of all is no step.
    fn wraps(&self) -> Vec<(usize, usize)> {
        let mut places = Vec::new();
        for channel in 0..2 {
            let mut last = self.before.channels[channel].1;
            let row = self.part.row(channel, last);
            for (place, &count) in row.iter().enumerate() {
                let step = place > 0 || self.before.samples > 0;
                if step && u32::from(count) < last {
                    places.push((place, row.len() - 1 - place));
                }
                last = count.into();
            }
        }
        if self.refusal == 0 {
            places
        } else {
            Vec::new()
        }
    }

    fn steps(&self, by: u32) -> bool {
        let steps = self.before.samples > 0 && self.refusal == 0 && !self.is_empty();
        steps
            && self
                .part
                .gains
                .iter()
                .any(|gain| gain & 0xFFFF == by || gain >> 16 == by)
    }

    fn kinds(&self) -> [bool; 12] {
        let taken = self.refusal == 0;
        let full = self.after.samples == MOST && taken;
        let fell =
            |channel: usize| self.after.channels[channel].0 < self.before.channels[channel].0;
        [
            self.wraps().iter().any(|place| place.0 == 0),
            self.wraps().iter().any(|place| place.0 > 0 && place.1 > 0),
            self.wraps().iter().any(|place| place.1 == 0),
            self.steps(0),
            self.steps(65_535),
            taken && self.is_empty(),
            full && !self.is_empty(),
            full && self.is_empty(),
            self.refusal == 18,
            self.refusal == 19 && self.before.samples <= MOST,
            self.refusal == 19 && self.is_empty(),
            fell(0) || fell(1),
        ]
    }

    /// Kinds of a state that no trace has, or that is worth asking about by itself.
    fn starts(&self) -> [bool; 3] {
        let State {
            samples, channels, ..
        } = self.before;
        [
            self.before == State::default(),
            samples == 0 && channels[0].0 > 0 && !self.is_empty() && self.refusal == 0,
            channels[0].0.abs_diff(channels[1].0) > 1 << 63,
        ]
    }
}

/// How often each kind that the request names is among random traces, and how often each slip shows.
#[test]
fn random_traces_are_of_every_kind() {
    let rng = Rng::new(1, 18);
    let mut met = vec![0; 17];
    let mut slipped = vec![0; Trace.faults().len()];
    for _ in 0..50_000 {
        let n = Trace.random(&rng);
        let right = Trace.judged(&n).0;
        let parts = fed(&n, &right.numbers);
        let taken = |fed: &&Fed| fed.refusal == 0 && !fed.is_empty();
        let any = |kind: usize| parts.iter().any(|fed| fed.kinds()[kind]);
        let mut kinds: Vec<bool> = (0..12).map(any).collect();
        kinds.extend(parts[0].starts());
        kinds.push(parts.iter().filter(taken).count() > 1);
        let refused = parts.iter().position(|fed| fed.refusal > 0);
        kinds.push(refused.is_some_and(|at| parts[at..].iter().any(|fed| taken(&fed))));
        for (count, kind) in met.iter_mut().zip(kinds) {
            *count += usize::from(kind);
        }
        for (count, fault) in slipped.iter_mut().zip(Trace.faults()) {
            *count += usize::from((fault.1)(&n) != right);
        }
    }
    assert!(met.iter().all(|&often| often > 1_000), "{met:?}");
    assert!(slipped.iter().all(|&often| often > 1_000), "{slipped:?}");
}
