//! Writes fixed lists of the judges' answers, as requests and answers in the desk program's format.
use crate::generate::Numbers;
use crate::rng::Rng;
use crate::subject::{By, Subject};
use crate::subjects::SUBJECTS;
use std::collections::HashSet;
use std::fs;
use std::io;
use std::path::Path;

/// The seed is fixed, so that the lists come out the same byte for byte.
const SEED: u64 = 7000;

/// Edges begin with the cases that document 01 and the people who use it name; so many always stand.
const NAMED: usize = 48;

/// What was written of a subject.
pub struct Written {
    pub name: &'static str,
    pub lines: usize,
    /// How many of these are the original's answer to another request, asked in the line's place.
    pub instead: usize,
}

/// Writes `NAME.requests` and `NAME.answers` for each subject that the desk's list has.
pub fn write(folder: &Path) -> io::Result<Vec<Written>> {
    fs::create_dir_all(folder)?;
    let mut written = Vec::new();
    for &subject in SUBJECTS {
        let Some(list) = subject.about().list else {
            continue;
        };
        let name = subject.name();
        let requests = chosen(subject, list);
        let asked = requests.iter().map(|n| subject.request(n) + "\n");
        let answer = |n: &Numbers| subject.line(&subject.judged(n).0) + "\n";
        let answered = requests.iter().map(answer);
        fs::write(
            folder.join(format!("{name}.requests")),
            asked.collect::<String>(),
        )?;
        fs::write(
            folder.join(format!("{name}.answers")),
            answered.collect::<String>(),
        )?;
        let lines = requests.len();
        let instead = |n: &&Numbers| subject.judged(n).1 == By::Instead;
        let instead = requests.iter().filter(instead).count();
        written.push(Written {
            name,
            lines,
            instead,
        });
    }
    Ok(written)
}

/// Edges and small inputs at even distances, and random ones; each once, and only what the judge may answer here.
fn chosen(subject: &dyn Subject, [edges, small, random]: [usize; 3]) -> Vec<Numbers> {
    let rng = Rng::new(SEED, subject.about().stream);
    let mut seen = HashSet::new();
    let mut unseen = |n: &Numbers| seen.insert(n.clone());
    let edges = thinned(subject, subject.edges(), NAMED, edges);
    let fixed = edges.chain(thinned(subject, subject.small(), 0, small));
    let mut requests: Vec<Numbers> = fixed.filter(&mut unseen).collect();
    let drawn = std::iter::repeat_with(|| subject.random(&rng));
    let drawn = drawn.filter(|n| on_list(subject, n));
    requests.extend(drawn.filter(&mut unseen).take(random));
    requests
}

/// The first ones whole, and of the others about so many at even distances.
fn thinned(
    subject: &dyn Subject,
    mut all: Vec<Numbers>,
    first: usize,
    about: usize,
) -> impl Iterator<Item = Numbers> {
    all.retain(|n| on_list(subject, n));
    let others = all.split_off(first.min(all.len()));
    let apart = others.len().div_ceil(about).max(1);
    all.into_iter().chain(others.into_iter().step_by(apart))
}

/// Only the original speaks, if it has the call.
fn on_list(subject: &dyn Subject, n: &[u32]) -> bool {
    subject.on_list(n) && (!subject.has_original() || subject.judged(n).1 != By::Rule)
}
