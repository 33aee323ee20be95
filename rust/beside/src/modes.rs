//! The driver's modes; each tells whether all went well, or how it was called wrongly.
use crate::args::Args;
use beside::answer::Answer;
use beside::bench::{Inputs, Sides, Timed};
use beside::compare::{Plan, Tally};
use beside::subject::Subject;
use beside::subjects::SUBJECTS;
use beside::{bench, compare, lists, report, selftest};

const NO_ARCHIVE: &str = "\
Our static library was not at hand when this was built: there is nothing to set beside the original.
rust/archive makes it, with the Rattle toolchain on PATH; then build again.";

pub fn run(mode: &str, mut args: Args) -> Result<bool, String> {
    match mode {
        "compare" => {
            let plan = plan(&args, 100_000)?;
            let subjects = subjects(&args)?;
            Ok(ours().is_none_or(|ours| compared(&subjects, plan, ours)))
        }
        "selftest" => Ok(selftest::run(plan(&args, 20_000)?)),
        "lists" => written(args.folder()?),
        "bench" => timed(&args),
        "subjects" => {
            println!("{}", names().join("\n"));
            Ok(true)
        }
        "calls" => {
            let side = args.side()?;
            called(&side, &args)
        }
        _ => Err(format!("no mode `{mode}`")),
    }
}

fn plan(args: &Args, usual_count: usize) -> Result<Plan, String> {
    let (seed, count) = args.seed_and_count(usual_count)?;
    let threads = args.threads;
    Ok(Plan {
        seed,
        count,
        threads,
    })
}

fn names() -> Vec<&'static str> {
    SUBJECTS.iter().map(|subject| subject.name()).collect()
}

fn subjects(args: &Args) -> Result<Vec<&'static dyn Subject>, String> {
    let wanted =
        |subject: &&dyn Subject| args.only.as_ref().is_none_or(|name| name == subject.name());
    let chosen: Vec<&dyn Subject> = SUBJECTS.iter().copied().filter(wanted).collect();
    if chosen.is_empty() {
        return Err(format!("the subjects are {}", names().join(", ")));
    }
    Ok(chosen)
}

fn compared(subjects: &[&'static dyn Subject], plan: Plan, ours: Ours) -> bool {
    let mut all = Tally::default();
    for &subject in subjects {
        let name = subject.name();
        match compare::subject(subject, plan, &|n| (ours.answer)(subject, n)) {
            Ok(tally) => {
                println!("{name:19} {tally}");
                all += tally;
            }
            Err(found) => {
                println!("{name:19} DIFFERENT\n{}", report::difference(&found));
                return false;
            }
        }
    }
    println!("{:19} {all}; differences 0", "all");
    true
}

fn written(folder: &str) -> Result<bool, String> {
    let done = lists::write(folder.as_ref()).map_err(|why| format!("{folder}: {why}"))?;
    for list in done {
        print!("{}: {} requests", list.name, list.lines);
        match list.instead {
            0 => println!(),
            some => println!(", {some} of which the Rust was asked as another"),
        }
    }
    Ok(true)
}

fn timed(args: &Args) -> Result<bool, String> {
    let (seed, count) = args.seed_and_count(2_000)?;
    let subjects = subjects(args)?;
    let ours: fn(&dyn Subject) -> Option<Timed> = if args.control {
        |subject| subject.rust_timed()
    } else {
        match ours() {
            Some(ours) => ours.timed,
            None => return Ok(true),
        }
    };
    let sides = |&subject: &&'static dyn Subject| {
        let sides = (subject.rust_timed()?, ours(subject)?);
        Some((subject, sides))
    };
    let timed: Vec<(&dyn Subject, Sides)> = subjects.iter().filter_map(sides).collect();
    bench::run(&timed, seed, count, args.rounds);
    Ok(true)
}

/// The calls of one side on each input, once.
fn called(side: &str, args: &Args) -> Result<bool, String> {
    let (seed, count) = args.seed_and_count(1_000)?;
    let [subject] = subjects(args)?[..] else {
        return Err("one subject is wanted, by --only".to_owned());
    };
    let timed = match side {
        "rust" => subject.rust_timed(),
        _ => ours().and_then(|ours| (ours.timed)(subject)),
    };
    let calls = timed.map_or(0, |timed| {
        let inputs = Inputs::new(subject, seed, count);
        timed(&inputs);
        inputs.calls()
    });
    println!("{calls}");
    Ok(true)
}

/// Our side, if the static library is linked.
#[derive(Clone, Copy)]
struct Ours {
    answer: fn(&dyn Subject, &[u32]) -> Answer,
    timed: fn(&dyn Subject) -> Option<Timed>,
}

#[cfg(archive)]
const OURS: Option<Ours> = Some(Ours {
    answer: |subject, n| subject.ours(n),
    timed: |subject| subject.ours_timed(),
});
#[cfg(not(archive))]
const OURS: Option<Ours> = None;

fn ours() -> Option<Ours> {
    if OURS.is_none() {
        println!("{NO_ARCHIVE}");
    }
    OURS
}
