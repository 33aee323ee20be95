//! Sees that the comparison finds each planted fault, and finds nothing where there is none.
use crate::compare::{self, Difference, Plan};
use crate::report;
use crate::subject::Subject;
use crate::subjects::SUBJECTS;

/// Whether every fault was found and no other difference.
pub fn run(plan: Plan) -> bool {
    let mut passed = true;
    for &subject in SUBJECTS {
        // The judge itself as the other side: what the comparison says of right answers.
        let right = |n: &[u32]| subject.judged(n).0;
        passed &= quiet(
            compare::subject(subject, plan, &right),
            subject,
            "the judge",
        );
        if let Some(formula) = subject.formula() {
            let agrees = compare::subject(subject, plan, &formula);
            passed &= quiet(agrees, subject, "our own small formula");
        }
        for fault in subject.faults() {
            passed &= caught(fault.0, compare::subject(subject, plan, &fault.1));
        }
    }
    passed
}

type Compared = Result<compare::Tally, Box<Difference>>;

fn quiet(compared: Compared, subject: &dyn Subject, what: &str) -> bool {
    if compared.is_err() {
        let name = subject.name();
        println!("MISTAKEN  a difference where there is none: {what} of {name}");
    }
    compared.is_ok()
}

fn caught(fault: &str, compared: Compared) -> bool {
    match &compared {
        Err(difference) => println!("caught    {fault}\n{}", report::difference(difference)),
        Ok(_) => println!("MISSED    {fault}"),
    }
    compared.is_err()
}
