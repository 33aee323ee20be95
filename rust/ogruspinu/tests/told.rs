//! What the examples in the documentation leave out: every refusal by its number, and the ends of a sequence and of a
//! trace.
#![cfg(archive)]
use ogruspinu::Refusal;
use ogruspinu::clocks::{Clocks, CpuClockRatio};
use ogruspinu::pll_seq::{Access, End, record};
use ogruspinu::pll_settings::PllConfig;
use ogruspinu::pll_start::{
    BootPllConfig, PllMarks, PllSequence, PllType, Request, configure_pll, configure_pll_unchecked,
};
use ogruspinu::time::Hertz;
use ogruspinu::trace::{Lead, MOST_SAMPLES, Trace};

/// The refusals' numbers and names as the specification has them.
fn specified() -> Vec<(u32, String)> {
    let text = include_str!("../../../crates/refusals/specs/Number.antt");
    let all = text.lines().filter_map(|line| {
        let (name, number) = line.split_once(" = ")?;
        Some((number.parse().ok()?, name.replace('-', "_")))
    });
    let mut all: Vec<(u32, String)> = all.collect();
    all.sort();
    all
}

/// BadImage as BAD_IMAGE.
fn shouted(name: &str) -> String {
    let mut shouted = String::new();
    for letter in name.chars() {
        if letter.is_uppercase() && !shouted.is_empty() {
            shouted.push('_');
        }
        shouted.extend(letter.to_uppercase());
    }
    shouted
}

#[test]
fn refusals_have_the_specifications_numbers_and_names() {
    let known = (0..=u8::MAX.into()).filter_map(|number| Some((number, Refusal::of(number, 13)?)));
    let named = known.map(|(number, refusal)| {
        let name = format!("{refusal:?}");
        let name = name.split('(').next().expect("there is a first part");
        (number, shouted(name))
    });
    assert_eq!(named.collect::<Vec<_>>(), specified());
}

#[test]
fn the_table_of_refusals_has_the_specifications_numbers_and_names() {
    let table = include_str!("../../../docs/REFUSALS.md");
    let rows = table.lines().filter_map(|line| {
        let mut cells = line.strip_prefix('|')?.split('|').map(str::trim);
        let number: u32 = cells.next()?.parse().ok()?;
        Some((number, cells.next()?.to_owned()))
    });
    assert_eq!(rows.collect::<Vec<_>>(), specified());
}

#[test]
fn refusals_carry_what_document_01_says() {
    for (number, _) in specified() {
        let refusal = Refusal::of(number, 13).expect("it is known");
        assert_eq!(refusal.number(), number);
        let carries = matches!(number, 2 | 3 | 5 | 9 | 15);
        assert_eq!(refusal.carried(), carries.then_some(13));
        let end = format!("(refusal {number})");
        assert!(refusal.to_string().ends_with(&end));
    }
    assert_eq!(Refusal::of(2, 14), None);
}

/// FDIV 1, 2 and 3, sources of every kind, and divisors that tell the clocks apart.
fn evaluated(trace_source: u32) -> Clocks {
    let mut image = [0; 50];
    image[..3].copy_from_slice(&[0x1000, 0x2000, 0x3000]);
    image[8] = 0x0000_0220;
    image[9] = 0x0C20_0000;
    for (word, divisor) in (18..=26).zip(1..) {
        image[word] = 0x0010_0000 | divisor << 8;
    }
    image[25] |= trace_source << 4;
    image[28] = 0x0020_0120;
    image[32] = 0x0020_0230;
    image[36] = 0x0010_0500;
    image[40] = 0x0010_0600;
    image[49] = 1;
    Clocks::new_from_regs(Hertz::from_raw(36_000), &image).expect("no divisor is 0")
}

#[test]
fn a_record_has_its_plls_and_its_cpu() {
    let clocks = evaluated(0);
    assert_eq!(clocks.ps_clk().to_raw(), 36_000);
    assert_eq!(clocks.arm_pll_out().to_raw(), 36_000);
    assert_eq!(clocks.ddr_pll_out().to_raw(), 72_000);
    assert_eq!(clocks.io_pll_out().to_raw(), 108_000);
    let arm = clocks.arm_clocks();
    assert_eq!(arm.ref_clk().to_raw(), 36_000);
    assert_eq!(arm.ratio(), CpuClockRatio::SixToTwoToOne);
    assert_eq!(arm.cpu_1x_clk().to_raw(), 6_000);
    assert_eq!(arm.cpu_2x_clk().to_raw(), 12_000);
    assert_eq!(arm.cpu_3x2x_clk().to_raw(), 18_000);
    assert_eq!(arm.cpu_6x4x_clk().to_raw(), 36_000);
}

#[test]
fn a_record_has_its_other_clocks() {
    let clocks = evaluated(0);
    let (ddr, io) = (clocks.ddr_clocks(), clocks.io_clocks());
    assert_eq!(ddr.ref_clk().to_raw(), 72_000);
    assert_eq!(ddr.ddr_3x_clk().to_raw(), 36_000);
    assert_eq!(ddr.ddr_2x_clk().to_raw(), 24_000);
    assert_eq!(io.ref_clk().to_raw(), 108_000);
    assert_eq!(io.smc_clk().to_raw(), 108_000);
    assert_eq!(io.qspi_clk().to_raw(), 54_000);
    assert_eq!(io.sdio_clk().to_raw(), 36_000);
    assert_eq!(io.uart_clk().to_raw(), 27_000);
    assert_eq!(io.spi_clk().to_raw(), 21_600);
    assert_eq!(io.can_clk().to_raw(), 18_000);
    assert_eq!(io.pcap_2x_clk().to_raw(), 12_000);
    assert_eq!(io.trace_clk().map(Hertz::to_raw), Some(13_500));
    assert_eq!(evaluated(4).io_clocks().trace_clk(), None);
    let fpga = clocks.pl_clocks().map(Hertz::to_raw);
    assert_eq!(fpga, [18_000, 18_000, 21_600, 18_000]);
}

#[test]
fn a_recorded_run_ends_in_every_way() {
    let run = |config, polls, reads: &[u32]| {
        let run = record(PllType::Io, BootPllConfig::Bypassed, config, polls, reads);
        run.map(|run| (run.end, run.accesses))
    };
    let config = PllConfig::new(13).expect("it is in the table");
    let (end, log) = run(config, 1, &[0, 0, 0b1000, 0, 0b100, 0x10]).expect("it is a run");
    assert_eq!((end, log.len()), (End::Locked, 12));
    let opened = Access::Write {
        word: 2,
        value: 0x10,
    };
    assert_eq!(log[5], opened);
    let (end, log) = run(config, 1, &[0, 0, 0]).expect("it is a run");
    assert_eq!((end, log.len()), (End::Starved, 6));
    let clear = [0, 0, 0, 0, 0b011, 0b011, 0b100, 0];
    let (end, log) = run(config, 2, &clear).expect("it is a run");
    assert_eq!((end, log.len()), (End::TimedOut, 11));
    let wide = PllConfig::new_raw(128, 2, 6, 750);
    assert_eq!(run(wide, 0, &[0]), Err(Refusal::BadLimit));
    assert_eq!(run(wide, 1, &[0]), Err(Refusal::BadField));
}

/// Does what a run asks for, with these words to be read in order; gives the accesses and the run at its end.
fn stepped(mut run: PllSequence, reads: &[u32]) -> (Vec<Access>, PllSequence) {
    let mut reads = reads.iter();
    let mut log = Vec::new();
    while let Ok(request) = run.request() {
        let handed = match request {
            Request::Read { word } => {
                let value = *reads.next().expect("there are words enough");
                log.push(Access::Read { word, value });
                value
            }
            Request::Write { word, value } => {
                log.push(Access::Write { word, value });
                !value
            }
            Request::Locked => break,
        };
        run = run.step(handed);
    }
    (log, run)
}

#[test]
fn a_run_by_steps_is_the_recorded_run() {
    let config = PllConfig::new(66).expect("it is in the table");
    let reads = [u32::MAX, 0, 7, 0x1A008, 0b110, 0b011, 0b100, 0x10];
    for pll in [PllType::Arm, PllType::Ddr, PllType::Io] {
        for boot in [BootPllConfig::Enabled, BootPllConfig::Bypassed] {
            for polls in 1..4 {
                let whole = record(pll, boot, config, polls, &reads);
                let whole = whole.expect("polls and setting are fine");
                let run = configure_pll_unchecked(pll, boot, config, polls);
                let (log, run) = stepped(run.expect("polls and setting are fine"), &reads);
                assert_eq!(log, whole.accesses);
                let end = match whole.end {
                    End::Locked => Ok(Request::Locked),
                    _ => Err(Refusal::LockTimeout),
                };
                assert_eq!(run.request(), end);
                assert_eq!((run.step(u32::MAX), run.step(0)), (run, run));
            }
        }
    }
}

#[test]
fn a_mark_is_set_by_an_answer_alone() {
    let mut marks = PllMarks::default();
    let mut start = |pll, config, polls| {
        let run = configure_pll(pll, BootPllConfig::Enabled, config, polls, &mut marks);
        (run.map(|_| ()), marks)
    };
    let (config, wide) = (
        PllConfig::new_raw(13, 2, 6, 750),
        PllConfig::new_raw(13, 16, 6, 750),
    );
    let none = PllMarks::default();
    assert_eq!(start(PllType::Arm, wide, 0), (Err(Refusal::BadLimit), none));
    assert_eq!(start(PllType::Arm, wide, 1), (Err(Refusal::BadField), none));
    let arm = PllMarks { arm: true, ..none };
    assert_eq!(start(PllType::Arm, config, 1), (Ok(()), arm));
    assert_eq!(start(PllType::Arm, config, 1), (Err(Refusal::Already), arm));
    assert_eq!(start(PllType::Arm, wide, 1), (Err(Refusal::BadField), arm));
    let both = PllMarks { io: true, ..arm };
    assert_eq!(start(PllType::Io, config, 1), (Ok(()), both));
    let all = PllMarks { ddr: true, ..both };
    assert_eq!(start(PllType::Ddr, config, 1), (Ok(()), all));
}

/// The clocks go 65,535 ticks a sample and one, so that each row goes on where it begins.
#[test]
fn a_trace_is_full_at_its_last_sample() {
    let second: Vec<u16> = (0..=u16::MAX).collect();
    let first: Vec<u16> = second.iter().map(|count| count.wrapping_neg()).collect();
    let mut trace = Trace::new();
    for _ in 0..256 {
        trace.feed(&first, &second).expect("there is room");
    }
    let at = MOST_SAMPLES - 1;
    assert_eq!(trace.samples(), MOST_SAMPLES);
    assert_eq!(trace.first(), 65_535 * u64::from(at));
    assert_eq!(trace.second(), u64::from(at));
    assert_eq!(trace.difference(), 65_534 * i64::from(at));
    let ticks = 65_534 * u64::from(at);
    assert_eq!(trace.first_leads(), Lead { ticks, at });
    assert_eq!(trace.second_leads(), Lead::default());
    let full = trace.clone();
    assert_eq!(trace.feed(&[], &[]), Ok(()));
    assert_eq!(trace.feed(&[0], &[0]), Err(Refusal::TraceLong));
    assert_eq!(trace.feed(&[0], &[]), Err(Refusal::BadRows));
    assert_eq!(trace, full);
}
