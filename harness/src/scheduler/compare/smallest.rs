//! A short history that ends in a difference, out of a long one.
use super::both::{Both, Step};
use crate::scheduler::Limits;

/// The steps that are left when as many as possible are taken out, first many at a time. The first
/// step, which opens the scheduler, stays.
pub fn smallest(limits: Limits, steps: &[Step]) -> Vec<Step> {
    let Some(mut steps) = differing(limits, steps) else {
        return steps.to_vec();
    };
    let mut size = steps.len() / 2;
    while size > 0 {
        let mut start = 1;
        while start < steps.len() {
            let end = (start + size).min(steps.len());
            let fewer = [&steps[..start], &steps[end..]].concat();
            match differing(limits, &fewer) {
                Some(fewer) => steps = fewer,
                None => start = end,
            }
        }
        size /= 2;
    }
    steps
}

/// The steps as far as the first difference, if there is one.
fn differing(limits: Limits, steps: &[Step]) -> Option<Vec<Step>> {
    let mut both = Both::new(limits);
    let first = steps.iter().position(|step| both.step(step).is_err())?;
    Some(steps[..=first].to_vec())
}

/// The steps with what they answered, the difference at their end, and both states.
pub fn told(limits: Limits, steps: &[Step]) -> String {
    let mut both = Both::new(limits);
    let mut told = String::new();
    for step in steps {
        told += &format!("{step}\n");
        match both.step(step) {
            Ok(None) => {}
            Ok(Some(answer)) => told += &format!("    answered {answer:?}\n"),
            Err(difference) => {
                told += &format!("{difference}\n");
                break;
            }
        }
    }
    told + &both.told()
}
