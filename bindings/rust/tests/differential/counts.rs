//! How often each refusal and each outcome occurred.
use crate::reference::{needs::Numbers, Ran, Refused};

#[derive(Default)]
pub struct Counts {
    pub images: usize,
    pub accepted: usize,
    pub calls: usize,
    refusals: [usize; 25],
    outcomes: [usize; 13],
    /// Images whose needs are told without a run.
    told: usize,
}

impl Counts {
    /// Counts one call.
    pub fn call(&mut self, answer: &Result<Ran, Refused>) {
        self.calls += 1;
        match answer {
            Ok(ran) => self.outcomes[usize::from(ran.outcome)] += 1,
            Err(refused) => self.refusals[usize::from(refused.0)] += 1,
        }
    }

    /// Counts one image by its first call, which has ample memory.
    pub fn image(&mut self, answer: &Result<Ran, Refused>) {
        self.images += 1;
        self.accepted += usize::from(answer.is_ok());
    }

    /// Counts what is said of an image's needs; the check's refusals are counted by its calls.
    pub fn needs(&mut self, answer: &Result<Numbers, Refused>) {
        self.told += usize::from(answer.is_ok());
        self.refusals[19] += usize::from(matches!(answer, Err(Refused(19, _))));
    }

    /// Counts the refusals that are of a writing alone.
    pub fn writing(&mut self, answer: &Result<Vec<u8>, Refused>) {
        if let Err(Refused(number @ 20.., _)) = answer {
            self.refusals[usize::from(*number)] += 1;
        }
    }

    pub fn print(&self) {
        println!("images {}, accepted {}, calls {}", self.images, self.accepted, self.calls);
        println!("refusals 1 to {}: {:?}", self.refusals.len() - 1, &self.refusals[1..]);
        println!("outcomes 0 to 12: {:?}", self.outcomes);
        println!("needs told: {}", self.told);
    }

    /// Did each refusal and each outcome occur? 21 and 22 are of generated images (document 02, card 12).
    pub fn complete(&self) -> bool {
        let refusals = self.refusals[1..21].iter().chain(&self.refusals[23..]);
        refusals.chain(&self.outcomes).chain([&self.told]).all(|count| *count > 0)
    }
}
