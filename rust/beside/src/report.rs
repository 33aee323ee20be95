//! A difference in words.
use crate::compare::Difference;
use crate::subject::By;

pub fn difference(found: &Difference) -> String {
    let judge = match found.by {
        By::Rust => "the Rust",
        By::Instead => "the Rust, asked what stands for it",
        By::Rule => "the documents",
    };
    let line = |answer| found.subject.line(answer);
    let (mut right, mut ours) = (line(&found.right), line(&found.ours));
    if right == ours {
        // The lines are alike: what differs lies in lent memory.
        right += &format!(" {:?}", found.right.numbers);
        ours += &format!(" {:?}", found.ours.numbers);
    }
    let request = found.subject.request(&found.numbers);
    format!("  {request}\n  {judge}: {right}\n  ours: {ours}")
}
