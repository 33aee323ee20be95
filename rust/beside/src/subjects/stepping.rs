//! For both subjects of the PLL sequence: ours, recorded and a step at a time.
use super::pll_seq::HEAD;
use crate::answer::{APART, Answer, CRAMPED, STARVED, STRAY};
use crate::lent::{BLANK, blank};
use ogruspinu::raw::{self, PllPlan, PllRan, PllRun, PllStep};

/// Accesses of a sequence that are not reads.
const WRITES: usize = 6;
/// What the host is to do.
const READ: u32 = 0;
const WRITE: u32 = 1;
const LOCKED: u32 = 2;
const NOTHING: u32 = 3;

/// The numbers of a request before its words.
pub fn plan(n: &[u32]) -> PllPlan {
    let byte = |number: u32| u8::try_from(number).expect("the generator keeps to the types");
    let short = |number: u32| u16::try_from(number).expect("the generator keeps to the types");
    PllPlan {
        pll: byte(n[0]),
        bypassed: n[1] == 1,
        fdiv: byte(n[2]),
        charge_pump: byte(n[3]),
        loop_resistor: byte(n[4]),
        lock_count: short(n[5]),
        polls: short(n[6]),
    }
}

/// A recorded run, which the same run by steps must equal.
pub fn recorded_and_stepped(n: &[u32]) -> Answer {
    let (plan, reads) = (plan(n), &n[HEAD..]);
    let stepped = match started(plan, raw::pll_start(plan)) {
        Ok(step) => run(step, reads),
        Err(refused) => refused,
    };
    match (recorded(plan, reads), stepped) {
        (whole, stepped) if whole.is_amiss() || whole == stepped => whole,
        (_, stepped) if stepped.is_amiss() => stepped,
        (_, stepped) => Answer::amiss(APART, &stepped.numbers),
    }
}

/// A row of each kind, one word longer than it has to be.
type Rows = [Vec<u32>; 3];

fn recorded_into(plan: PllPlan, reads: &[u32], room: [usize; 3]) -> (PllRan, Rows) {
    let mut rows = [0; 3].map(|_| vec![BLANK; reads.len() + WRITES + 1]);
    let [kinds, numbers, values] = &mut rows;
    let (kinds, numbers, values) = (
        &mut kinds[..room[0]],
        &mut numbers[..room[1]],
        &mut values[..room[2]],
    );
    (raw::pll_seq(plan, reads, kinds, numbers, values), rows)
}

fn recorded(plan: PllPlan, reads: &[u32]) -> Answer {
    let most = reads.len() + WRITES;
    let (ran, rows) = recorded_into(plan, reads, [most + 1; 3]);
    let count = if ran.refusal == 0 { ran.accesses } else { 0 };
    let left = |row: &Vec<u32>| row.get(count..).is_some_and(blank);
    if !rows.iter().all(left) {
        return Answer::amiss(STRAY, &rows.concat());
    }
    let short = short_rows(plan, reads, ran);
    if !short {
        return Answer::amiss(CRAMPED, &rows.concat());
    }
    let entry = |i: usize| [rows[0][i], rows[1][i], rows[2][i]];
    let mut answer = Answer::given((0..count).flat_map(entry).collect::<Vec<u32>>());
    answer.refused = match (ran.refusal, ran.end, ran.accesses) {
        (0, 0, _) => 0,
        (0, 1, _) => 11,
        (0, 2, _) => STARVED,
        (number, 0, 0) => number,
        _ => APART,
    };
    answer
}

/// Whether any one row that is too short is refused with the length needed, unless the plan is refused before.
fn short_rows(plan: PllPlan, reads: &[u32], enough: PllRan) -> bool {
    let most = reads.len() + WRITES;
    let right = match enough.refusal {
        0 => (9, 0, most),
        number => (number, 0, 0),
    };
    (0..3).all(|row| {
        let mut room = [most; 3];
        room[row] -= 1;
        let (ran, rows) = recorded_into(plan, reads, room);
        (ran.refusal, ran.end, ran.accesses) == right && rows.iter().all(|row| blank(row))
    })
}

/// What a start gives: its first step, or the refusal. That asks for nothing, and its run is one that no step takes.
pub fn started(plan: PllPlan, step: PllStep) -> Result<PllStep, Answer> {
    let none = PllRun {
        plan,
        done: 255,
        word: 0,
    };
    let refused = |refusal| PllStep {
        refusal,
        request: NOTHING,
        number: 0,
        value: 0,
        run: none,
    };
    match step.refusal {
        0 => Ok(step),
        number if step == refused(number) && raw::pll_step(none, 0) == refused(20) => {
            Err(Answer::refused(number))
        }
        number => Err(Answer::amiss(STRAY, &[number])),
    }
}

/// Does what is asked for until the end, or until there is no word left. After a write another word is handed in than the
/// one written, since it must not matter.
pub fn run(mut step: PllStep, reads: &[u32]) -> Answer {
    let mut reads = reads.iter();
    let mut became = Answer::given([]);
    loop {
        let (value, handed) = match (step.refusal, step.request, step.value) {
            (0, READ, 0) => match reads.next() {
                Some(&value) => (value, value),
                None => {
                    became.refused = STARVED;
                    return became;
                }
            },
            (0, WRITE, value) => (value, !value),
            _ => return ended(step, became),
        };
        became.numbers.extend([step.request, step.number, value]);
        let next = raw::pll_step(step.run, handed);
        let (before, after) = (step.run.plan, next.run.plan);
        let kept = PllPlan {
            polls: before.polls,
            ..after
        };
        if kept != before {
            return Answer::amiss(STRAY, &became.numbers);
        }
        step = next;
    }
}

/// The end, which a step more gives again, whatever word it is handed.
fn ended(step: PllStep, mut became: Answer) -> Answer {
    became.refused = match (step.refusal, step.request, step.number, step.value) {
        (0, LOCKED, 0, 0) => 0,
        (11, NOTHING, 0, 0) => 11,
        _ => APART,
    };
    let again = |word| raw::pll_step(step.run, word) == step;
    match [0, u32::MAX].into_iter().all(again) {
        true => became,
        false => Answer::amiss(APART, &became.numbers),
    }
}
