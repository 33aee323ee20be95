//! A trace of two counters, fed in parts: the state that it begins with and its parts, as trace_by_hand.rs has them. It gives
//! the state and the difference after each part. The original has no such call, so that document 02's words are the judge.
use super::trace_by_hand::{self as by_hand, Part, STATE, State, TOLD, request};
use super::trace_formula::Slips;
use super::trace_requests as requests;
use crate::answer::Answer;
use crate::generate::Numbers;
use crate::rng::Rng;
use crate::subject::{About, Fault, Formula, Subject};
use std::fmt::Write;

pub struct Trace;

impl Subject for Trace {
    fn about(&self) -> About {
        About {
            name: "trace",
            stream: 18,
            list: None,
        }
    }

    fn edges(&self) -> Vec<Numbers> {
        let mut all = requests::wraps_and_ties();
        all.extend(requests::at_the_limit());
        all.extend(requests::forged());
        all.extend(requests::whole());
        all
    }

    fn small(&self) -> Vec<Numbers> {
        requests::small()
    }

    fn random(&self, rng: &Rng) -> Numbers {
        requests::random(rng)
    }

    /// Without any one part, or any one sample of a part.
    fn shorter(&self, n: &[u32]) -> Vec<Numbers> {
        let (state, parts) = request(n);
        let mut all = Vec::new();
        for at in 0..parts.len() {
            let mut fewer = parts.clone();
            fewer.remove(at);
            all.push(requests::of(&state, &fewer));
            let part = parts[at];
            for sample in 0..part.gains.len() {
                let gains = [&part.gains[..sample], &part.gains[sample + 1..]].concat();
                let lengths = part
                    .lengths
                    .map(|length| length - usize::from(sample < length));
                let mut shorter = parts.clone();
                shorter[at] = Part {
                    lengths,
                    times: part.times,
                    gains: &gains,
                };
                all.push(requests::of(&state, &shorter));
            }
        }
        all
    }

    fn has_original(&self) -> bool {
        false
    }

    fn ruled(&self, n: &[u32]) -> Option<Answer> {
        Some(by_hand::judged(n))
    }

    fn original(&self, _n: &[u32]) -> Answer {
        unreachable!("everything is ruled")
    }

    #[cfg(archive)]
    fn ours(&self, n: &[u32]) -> Answer {
        ours::fed(n)
    }

    fn formula(&self) -> Option<Formula> {
        Some(|n| Slips::default().told(n))
    }

    fn faults(&self) -> Vec<Fault> {
        planted! {
            "StepWithoutWrapping": step_does_not_wrap;
            "LastSampleOfALead": last_sample_of_a_lead;
            "LongBeforeRows": long_before_rows;
            "LeadsCountFromThePart": leads_count_from_the_part;
            "FirstSampleIsTicks": first_sample_is_ticks;
            "RefusalKeepsTheCount": refusal_keeps_the_count;
            "TotalOf32Bits": total_of_32_bits;
            "FullTakesNoEmptyPart": full_takes_no_empty_part;
        }
    }

    /// The state, and of each part how long its rows are and the gains of both clocks before each count.
    fn request(&self, n: &[u32]) -> String {
        let (state, parts) = request(n);
        let mut line = format!("trace from {}", told(&state));
        for part in parts {
            let _ = write!(line, "; rows of {} and {}:", part.counts(0), part.counts(1));
            for gain in part.gains {
                let _ = write!(line, " +{} +{}", gain & 0xFFFF, gain >> 16);
            }
        }
        line
    }

    fn given(&self, numbers: &[u32]) -> String {
        let parts = numbers[2..].chunks(TOLD).map(|part| {
            let (state, less) = (State::of(&part[1..]), &part[1 + STATE..]);
            let less = u64::from(less[0]) | u64::from(less[1]) << 32;
            let told = told(&state);
            match part[0] {
                0 => format!("{told}, difference {}", less as i64),
                number => format!("refused {number}, {told}, difference {}", less as i64),
            }
        });
        parts.collect::<Vec<String>>().join("; ")
    }
}

/// Samples, both totals with the last counts, both leads with their samples.
fn told(state: &State) -> String {
    let [first, second] = state.channels;
    let [ahead, behind] = state.leads;
    format!(
        "{} samples, {}/{} {}/{}, leads {}@{} {}@{}",
        state.samples, first.0, first.1, second.0, second.1, ahead.0, ahead.1, behind.0, behind.1
    )
}

#[cfg(archive)]
mod ours {
    use super::by_hand::{State, Told, request};
    use crate::answer::Answer;
    use ogruspinu::raw::{self, TraceChannel, TraceLead};

    /// The rows of each part go on from the count that the state before it has.
    pub fn fed(n: &[u32]) -> Answer {
        let (given, parts) = request(n);
        let mut trace = record(&given);
        let mut told = Told::new(raw::trace_difference(trace));
        for part in parts {
            let first = part.row(0, trace.first.last.into());
            let second = part.row(1, trace.second.last.into());
            let fed = raw::trace_feed(trace, &first, &second);
            trace = fed.trace;
            told.add(fed.refusal, &state(&trace), raw::trace_difference(trace));
        }
        told.answer()
    }

    fn record(state: &State) -> raw::Trace {
        let [first, second] = state.channels.map(|(total, last)| TraceChannel {
            total,
            last: u16::try_from(last).expect("the generator keeps to the types"),
        });
        let [first_leads, second_leads] = state.leads.map(|(ticks, at)| TraceLead { ticks, at });
        raw::Trace {
            samples: state.samples,
            first,
            second,
            first_leads,
            second_leads,
        }
    }

    fn state(trace: &raw::Trace) -> State {
        let channels = [trace.first, trace.second];
        let leads = [trace.first_leads, trace.second_leads];
        State {
            samples: trace.samples,
            channels: channels.map(|channel| (channel.total, channel.last.into())),
            leads: leads.map(|lead| (lead.ticks, lead.at)),
        }
    }
}
