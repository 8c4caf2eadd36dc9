//! A line of a list: a call with what it is lent, made once or many times.
use crate::scheduler::Call;
use crate::scheduler::answer::Answer;
use crate::scheduler::reference::{Lengths, Reference};

#[derive(Clone)]
pub struct Made {
    pub call: Call,
    pub lent: Lengths,
    pub times: u64,
    /// The number that is given for yes.
    pub yes: u64,
    /// An insertion whose work is taken out again at once.
    pub removed: bool,
}

impl Made {
    pub fn once(call: Call, lent: Lengths) -> Self {
        Self {
            call,
            lent,
            times: 1,
            yes: 1,
            removed: false,
        }
    }

    /// What the last of them answers.
    pub fn answer(&self, reference: &mut Reference) -> Result<Answer, String> {
        let mut answer = Answer::None;
        for _ in 0..self.times {
            answer = reference.call(&self.call, self.lent)?;
            if let (Call::InsertQueueDpc { address, .. }, true, 0) =
                (&self.call, self.removed, answer.number())
            {
                let removal = Call::RemoveQueueDpc { address: *address };
                answer = reference.call(&removal, self.lent)?;
            }
        }
        Ok(answer)
    }
}
