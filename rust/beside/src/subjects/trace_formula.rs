//! A trace sample by sample, with slips that look right.
use super::trace_by_hand::{MOST, State, Told, difference, request};
use crate::answer::Answer;

/// Which slips are made; with none the answer has to be right.
#[derive(Clone, Copy, Default)]
pub struct Slips {
    pub step_does_not_wrap: bool,
    pub last_sample_of_a_lead: bool,
    pub long_before_rows: bool,
    pub leads_count_from_the_part: bool,
    pub first_sample_is_ticks: bool,
    pub refusal_keeps_the_count: bool,
    pub total_of_32_bits: bool,
    pub full_takes_no_empty_part: bool,
}

impl Slips {
    pub fn told(self, n: &[u32]) -> Answer {
        let (mut state, parts) = request(n);
        let mut told = Told::new(difference(&state));
        for part in parts {
            let rows = [0, 1].map(|channel| part.row(channel, state.channels[channel].1));
            let refusal = self.refusal(&state, rows[0].len(), rows[1].len());
            match refusal {
                0 => self.feed(&mut state, &rows),
                _ if self.refusal_keeps_the_count => {
                    for (channel, row) in state.channels.iter_mut().zip(&rows) {
                        channel.1 = row.last().map_or(channel.1, |&count| count.into());
                    }
                }
                _ => {}
            }
            told.add(refusal, &state, difference(&state));
        }
        told.answer()
    }

    fn refusal(self, state: &State, first: usize, second: usize) -> u32 {
        let unequal = first != second;
        let long = state.samples > MOST || first > (MOST - state.samples) as usize;
        let full = self.full_takes_no_empty_part && state.samples == MOST;
        match (unequal, long || full) {
            (true, true) if self.long_before_rows => 19,
            (true, _) => 18,
            (false, true) => 19,
            (false, false) => 0,
        }
    }

    fn feed(self, state: &mut State, rows: &[Vec<u16>; 2]) {
        let begin = state.samples;
        if begin == 0 && !self.first_sample_is_ticks && !rows[0].is_empty() {
            for (channel, row) in state.channels.iter_mut().zip(rows) {
                channel.1 = row[0].into();
            }
        }
        for (&first, &second) in rows[0].iter().zip(&rows[1]) {
            for (channel, count) in state.channels.iter_mut().zip([first, second]) {
                self.count(channel, count);
            }
            let [first, second] = state.channels.map(|(total, _)| total);
            let at = match self.leads_count_from_the_part {
                true => state.samples - begin,
                false => state.samples,
            };
            self.raise(&mut state.leads[0], first.saturating_sub(second), at);
            self.raise(&mut state.leads[1], second.saturating_sub(first), at);
            state.samples += 1;
        }
    }

    fn count(self, (total, last): &mut (u64, u32), count: u16) {
        let step = u32::from(count).wrapping_sub(*last);
        let step = match self.step_does_not_wrap {
            true => i64::from(step as i32) as u64,
            false => u64::from(step as u16),
        };
        *total = match self.total_of_32_bits {
            true => u64::from(total.wrapping_add(step) as u32),
            false => total.wrapping_add(step),
        };
        *last = count.into();
    }

    fn raise(self, lead: &mut (u64, u32), ticks: u64, at: u32) {
        let again = self.last_sample_of_a_lead && ticks > 0 && ticks == lead.0;
        if ticks > lead.0 || again {
            *lead = (ticks, at);
        }
    }
}
