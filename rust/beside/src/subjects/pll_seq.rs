//! The PLL sequence: PLL (0 ARM, 1 DDR, 2 IO), booted bypassed, the setting's four numbers, how many polls may be made, the
//! words that the host reads. It gives three numbers for each access: 0 for a read or 1 for a write, the word, the value.
//! Ours is recorded, and taken step by step as well.
use crate::answer::{Answer, STARVED};
use crate::bench::Timed;
use crate::generate::{Numbers, grid};
use crate::rng::Rng;
use crate::subject::{About, Fault, Subject};
use original::{Access, Pll, WORDS};
use std::fmt::Write;

/// Numbers of a request before the words.
pub const HEAD: usize = 7;
/// Names of the PLLs by their numbers, which are also the words of their control registers and lock bits.
const PLLS: [&str; 3] = ["arm", "ddr", "io"];
/// Reads and accesses of a sequence before its first poll.
const READS_BEFORE_POLLS: usize = 4;
const ACCESSES_BEFORE_POLLS: usize = 9;
/// The most that fits each of the setting's fields.
pub const WIDEST: [u32; 4] = [127, 15, 15, 1_023];
/// How many values the types have in which the fields are passed: three bytes and 16 bits.
const HELD: [u32; 4] = [256, 256, 256, 65_536];

pub struct PllSeq;

impl Subject for PllSeq {
    fn about(&self) -> About {
        About {
            name: "pll-seq",
            stream: 14,
            list: Some([usize::MAX, 150, 250]),
        }
    }

    fn edges(&self) -> Vec<Numbers> {
        let mut all = Vec::new();
        for pll in 0..3 {
            let (lock, others) = (1 << pll, 7 & !(1 << pll));
            for bypassed in 0..2 {
                for word in [0, u32::MAX, 0x0001_A008, 0x0002_8018] {
                    for setting in [[0; 4], WIDEST, [40, 2, 2, 250]] {
                        let mut run = |polls, seen: &[u32]| {
                            let reads = [&[word; 4], seen, &[word]].concat();
                            all.push(sequence(pll, bypassed, setting, polls, &reads));
                        };
                        run(1, &[lock]);
                        run(3, &[others, !lock, u32::MAX]);
                        run(2, &[others, others, lock]);
                        run(65_535, &[others; 40]);
                        run(0, &[lock]);
                    }
                    for wide in 0..4 {
                        let mut setting = WIDEST;
                        setting[wide] += 1;
                        all.push(sequence(pll, bypassed, setting, 5, &[word; 7]));
                    }
                }
            }
        }
        all
    }

    /// Each PLL, both boot modes, and every way to show three status words and then no more or a last control word.
    fn small(&self) -> Vec<Numbers> {
        let mut all = Vec::new();
        for n in grid([0..=2, 0..=1, 0..=7, 0..=7, 1..=3, 0..=8]) {
            let reads = [
                0x0001_A008,
                0x0017_7EA0,
                0x0001_A008,
                0x0001_A01A,
                n[2],
                n[3],
                n[2] ^ 7,
                0x10,
            ];
            let reads = &reads[..n[5] as usize];
            all.push(sequence(n[0], n[1], [66, 2, 4, 250], n[4], reads));
        }
        all
    }

    fn random(&self, rng: &Rng) -> Numbers {
        let pll = rng.below(3);
        let setting = random_setting(rng);
        let mut reads: Vec<u32> = (0..4).map(|_| rng.word()).collect();
        let clear = match rng.below(4) {
            0 => rng.magnitude(9),
            _ => rng.below(6),
        };
        reads.extend((0..clear).map(|_| rng.word() & !(1 << pll)));
        reads.extend([rng.word() | 1 << pll, rng.word()]);
        if rng.one_in(10) {
            reads.truncate(rng.below(reads.len() as u32) as usize);
        }
        let polls = match rng.below(4) {
            0 => rng.magnitude(16),
            _ => (clear + rng.below(3)).max(1),
        };
        sequence(pll, rng.below(2), setting, polls, &reads)
    }

    /// Without the last word.
    fn shorter(&self, n: &[u32]) -> Vec<Numbers> {
        match n.len() {
            HEAD => Vec::new(),
            length => vec![n[..length - 1].to_vec()],
        }
    }

    fn ruled(&self, n: &[u32]) -> Option<Answer> {
        if let Some(number) = unfit(n) {
            return Some(Answer::refused(number));
        }
        let mut answer = self.original(waiting(n)?);
        answer.refused = 11;
        Some(answer)
    }

    fn original(&self, n: &[u32]) -> Answer {
        by_original(original::run, n)
    }

    #[cfg(archive)]
    fn ours(&self, n: &[u32]) -> Answer {
        super::stepping::recorded_and_stepped(n)
    }

    fn faults(&self) -> Vec<Fault> {
        vec![
            Fault("LockBitsInEvaluationOrder", lock_bits_swapped),
            Fault("QualifierAlwaysCleared", |n| asked_with(n, 1, 1)),
            Fault("TimeoutOnePollLate", |n| match n[6] {
                0 => PllSeq.judged(n).0,
                polls => asked_with(n, 6, polls + 1),
            }),
        ]
    }

    fn request(&self, n: &[u32]) -> String {
        let mut line = format!("pll-seq {}", PLLS[n[0] as usize]);
        for number in &n[1..HEAD] {
            let _ = write!(line, " {number}");
        }
        for word in &n[HEAD..] {
            let _ = write!(line, " {word:08x}");
        }
        line
    }

    fn line(&self, answer: &Answer) -> String {
        if answer.is_amiss() {
            return answer.refusal();
        }
        let mut line = String::new();
        for access in answer.numbers.chunks(3) {
            let kind = ["r", "w"][access[0] as usize];
            let _ = write!(line, "{kind} {} {:08x}; ", access[1], access[2]);
        }
        match answer.refused {
            0 => line + "locked",
            _ => line + &answer.refusal(),
        }
    }

    /// A line has an access.
    fn on_list(&self, n: &[u32]) -> bool {
        n.len() > HEAD
    }

    /// Those that lock at the first poll, since inputs have to be of one width.
    fn is_timed(&self, n: &[u32]) -> bool {
        n.len() == HEAD + 6 && n[HEAD + READS_BEFORE_POLLS] >> n[0] & 1 == 1
    }

    /// With its registers in memory, where the lock bits are set.
    fn rust_timed(&self) -> Option<Timed> {
        Some(|inputs| {
            inputs.each(|n| {
                original::run_in_place(pll(n), n[1] == 1, setting(n), &[0x0410_1107; WORDS]);
                0
            })
        })
    }

    #[cfg(archive)]
    fn ours_timed(&self) -> Option<Timed> {
        Some(|inputs| {
            let rows = std::cell::RefCell::new([[0; 12]; 3]);
            inputs.each(|n| {
                let [kinds, numbers, values] = &mut *rows.borrow_mut();
                let plan = super::stepping::plan(n);
                ogruspinu::raw::pll_seq(plan, &n[HEAD..], kinds, numbers, values).refusal
            })
        })
    }
}

pub fn sequence(pll: u32, bypassed: u32, setting: [u32; 4], polls: u32, reads: &[u32]) -> Numbers {
    let head = [pll, bypassed].into_iter().chain(setting).chain([polls]);
    head.chain(reads.iter().copied()).collect()
}

/// One that fits, and now and then one that does not.
pub fn random_setting(rng: &Rng) -> [u32; 4] {
    let mut setting = WIDEST.map(|most| rng.within(0, most));
    if rng.one_in(40) {
        let field = rng.below(4) as usize;
        setting[field] = rng.below(HELD[field]);
    }
    setting
}

/// The refusal of no polls or of a setting too wide.
pub fn unfit(n: &[u32]) -> Option<u32> {
    let mut fields = setting(n).into_iter().zip(WIDEST);
    match n[6] {
        0 => Some(12),
        _ => fields.any(|(field, most)| field > most).then_some(20),
    }
}

/// Where every allowed poll shows the bit clear: the sequence up to the last of them. The accesses are those that the
/// original makes when it is left waiting there.
pub fn waiting(n: &[u32]) -> Option<&[u32]> {
    let polls = n[6] as usize;
    let seen = n.get(HEAD + READS_BEFORE_POLLS..)?.get(..polls)?;
    let clear = seen.iter().all(|status| status >> n[0] & 1 == 0);
    clear.then(|| &n[..HEAD + READS_BEFORE_POLLS + polls])
}

/// One of the original's ways to run a sequence.
type Original = fn(Pll, bool, original::Setting, &[u32]) -> (Vec<Access>, bool);

pub fn by_original(begin: Original, n: &[u32]) -> Answer {
    let (log, ended) = begin(pll(n), n[1] == 1, setting(n), &n[HEAD..]);
    let entry = |access: &Access| match *access {
        Access::Read { word, value } => [0, word, value],
        Access::Write { word, value } => [1, word, value],
    };
    let mut answer = Answer::given(log.iter().flat_map(entry).collect::<Vec<u32>>());
    answer.refused = if ended { 0 } else { STARVED };
    answer
}

fn pll(n: &[u32]) -> Pll {
    [Pll::Arm, Pll::Ddr, Pll::Io][n[0] as usize]
}

fn setting(n: &[u32]) -> [u32; 4] {
    [n[2], n[3], n[4], n[5]]
}

/// The right answer to another request.
fn asked_with(n: &[u32], place: usize, number: u32) -> Answer {
    let mut asked = n.to_vec();
    asked[place] = number;
    PllSeq.judged(&asked).0
}

/// The original, shown the DDR and IO bits in each other's place from the first poll on, and told in its log.
fn lock_bits_swapped(n: &[u32]) -> Answer {
    let swapped = |word: u32| word & !6 | (word & 2) << 1 | (word & 4) >> 1;
    let mut asked = n.to_vec();
    let polls = asked.iter_mut().skip(HEAD + READS_BEFORE_POLLS);
    polls.for_each(|word| *word = swapped(*word));
    let mut answer = PllSeq.judged(&asked).0;
    for entry in answer.numbers.chunks_mut(3).skip(ACCESSES_BEFORE_POLLS) {
        entry[2] = swapped(entry[2]);
    }
    answer
}
