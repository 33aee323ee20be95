//! The UART's viable pairs: reference, baud, how many records are lent. It gives how many pairs there are and three numbers
//! for each lent record.
use super::uart::{Uart, record};
use super::uart_formula::{RIGHT, slips};
use crate::answer::Answer;
use crate::bench::Timed;
use crate::generate::Numbers;
use crate::rng::Rng;
use crate::subject::{About, Fault, Formula, Subject};
use std::fmt::Write;

/// The most viable pairs there can be.
const ROOM: u32 = 251;
/// A lent record before anybody writes to it: clock divisor, baud divider, error's bits.
pub const UNTOUCHED: [u32; 3] = [0x5A5A, 0xA5, 0x3C3C_3C3C];

pub struct UartList;

impl Subject for UartList {
    fn about(&self) -> About {
        About {
            name: "uart-list",
            stream: 8,
            list: Some([100, 40, 160]),
        }
    }

    fn edges(&self) -> Vec<Numbers> {
        let rooms = |n: Numbers| [0, 1, 2, ROOM - 1, ROOM].map(|room| lent(n.clone(), room));
        Uart.edges().into_iter().flat_map(rooms).collect()
    }

    fn small(&self) -> Vec<Numbers> {
        let small = Uart.small().into_iter();
        small.map(|n| lent(n, ROOM)).collect()
    }

    fn random(&self, rng: &Rng) -> Numbers {
        let numbers = Uart.random(rng);
        let room = rng.pick(&[ROOM, ROOM, ROOM, rng.within(0, ROOM), rng.magnitude(5)]);
        lent(numbers, room)
    }

    fn ruled(&self, _n: &[u32]) -> Option<Answer> {
        None
    }

    fn original(&self, n: &[u32]) -> Answer {
        written(&original::uart_list(n[0], n[1]), n[2] as usize)
    }

    #[cfg(archive)]
    fn ours(&self, n: &[u32]) -> Answer {
        ours(n[0], n[1], n[2] as usize)
    }

    fn formula(&self) -> Option<Formula> {
        Some(|n| RIGHT.list(n))
    }

    fn faults(&self) -> Vec<Fault> {
        let mut faults = slips! { list:
            "ErrorAtLimitViable": limit_is_viable = true;
        };
        faults.push(Fault("RecordWrittenWithoutRoom", |n| {
            let mut answer = UartList.judged(n).0;
            if answer.refused == 9 && !answer.numbers.is_empty() {
                answer.numbers[0] = 1;
            }
            answer
        }));
        faults
    }

    /// The desk always lends enough records.
    fn request(&self, n: &[u32]) -> String {
        match n[2] {
            ROOM => self.with_words(&n[..2], 2),
            room => format!("{} (room for {room})", self.with_words(&n[..2], 2)),
        }
    }

    fn given(&self, numbers: &[u32]) -> String {
        let count = numbers[0];
        let mut line = count.to_string();
        for record in numbers[1..].chunks(3).take(count as usize) {
            let _ = write!(line, " {}:{}:{:08x}", record[0], record[1], record[2]);
        }
        line
    }

    fn on_list(&self, n: &[u32]) -> bool {
        n[2] == ROOM
    }

    fn rust_timed(&self) -> Option<Timed> {
        Some(|inputs| inputs.each(|n| original::uart_viable(n[0], n[1]).len() as u32))
    }

    /// The records are lent again and again, as a program would; the original allocates its vector each time.
    #[cfg(archive)]
    fn ours_timed(&self) -> Option<Timed> {
        use ogruspinu::time::Hertz;
        use ogruspinu::uart::{BaudDivisors, MOST_PAIRS, viable_baud_divisors_into};
        Some(|inputs| {
            let records = std::cell::RefCell::new([BaudDivisors::default(); MOST_PAIRS]);
            inputs.each(|n| {
                let records = &mut records.borrow_mut()[..];
                let count = viable_baud_divisors_into(Hertz::from_raw(n[0]), n[1], records);
                count.map_or(0, |count| count as u32)
            })
        })
    }
}

fn lent(mut numbers: Numbers, room: u32) -> Numbers {
    numbers.push(room);
    numbers
}

/// What lent records would hold: refusal 9 leaves all of them, and a list leaves those after its end.
fn written(viable: &[original::Baud], room: usize) -> Answer {
    let count = viable.len() as u32;
    let mut lent = vec![UNTOUCHED; room];
    let mut answer = Answer::carrying(9, count);
    if viable.len() <= room {
        answer = Answer::given([count]);
        let written = viable.iter().map(record);
        lent.splice(..viable.len(), written);
    }
    answer.numbers.extend(lent.into_iter().flatten());
    answer
}

#[cfg(archive)]
fn ours(reference: u32, baud: u32, room: usize) -> Answer {
    use ogruspinu::uart::BaudDivisors;
    let [cd, bdiv, error] = UNTOUCHED;
    let untouched = BaudDivisors {
        cd: cd as u16,
        bdiv: bdiv as u8,
        error: f32::from_bits(error),
    };
    let mut records = vec![untouched; room + 1];
    let told = ogruspinu::raw::uart_list(reference, baud, &mut records[..room]);
    let numbers =
        |record: &BaudDivisors| [record.cd.into(), record.bdiv.into(), record.error.to_bits()];
    let lent: Vec<u32> = records.iter().flat_map(numbers).collect();
    if lent[3 * room..] != UNTOUCHED {
        return Answer::amiss(crate::answer::STRAY, &lent);
    }
    let mut answer = crate::lent::number(told);
    answer.numbers.extend(&lent[..3 * room]);
    answer
}
