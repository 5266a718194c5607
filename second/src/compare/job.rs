//! What a run is asked for but its budget: it may come in slices.

use crate::model::Question;

pub struct Job {
    pub target: Vec<u8>,
    /// Any number, also one that no plan has.
    pub plan: u32,
}

impl Job {
    pub fn slice(&self, budget: u32) -> Question {
        Question::Run {
            target: self.target.clone(),
            plan: self.plan,
            budget,
        }
    }
}
