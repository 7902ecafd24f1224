//! The chain of a world made of steps, held to what the run of the same world left, in every byte. The
//! model has no part in it: the library's run is compared with it, and here the library with itself.

use crate::case::Case;
use crate::compare::bytes;
use crate::sides::{Left, Opponent};

const SIDES: [&str; 2] = ["steps", "run"];

/// How many chains were made of steps, and of how many.
#[derive(Default)]
pub struct Tally {
    chains: u64,
    steps: u64,
}

impl Tally {
    pub fn join(&mut self, other: &Tally) {
        self.chains += other.chains;
        self.steps += other.steps;
    }

    /// None where no chain was made of steps, as without the library.
    pub fn line(&self) -> Option<String> {
        (self.chains > 0).then(|| {
            format!(
                "{} chains made of {} steps leave what the runs left",
                self.chains, self.steps
            )
        })
    }
}

/// What differs where the chain is made of steps from the same start as a run that left this. A run
/// that was refused, by 1, 2 or 3, has no chain: a step asks neither for 512 bytes of events nor for an
/// allowance.
pub fn differences(opponent: Opponent, case: &Case, run: &Left, tally: &mut Tally) -> Vec<String> {
    if opponent != Opponent::Library || (1..=3).contains(&run.outcome.answer) {
        return Vec::new();
    }
    let steps = match opponent.steps(case) {
        Ok(steps) => steps,
        Err(refused) => return vec![refused],
    };
    tally.chains += 1;
    tally.steps += steps.outcome.blocks as u64;
    let mut lines = Vec::new();
    if steps.outcome != run.outcome {
        lines.push(format!(
            "outcome: steps {:?}, run {:?}",
            steps.outcome, run.outcome
        ));
    }
    let buffers: [(&str, &[u8], &[u8]); 6] = [
        ("record 0", &steps.records[0], &run.records[0]),
        ("record 1", &steps.records[1], &run.records[1]),
        ("host memory", &steps.host, &run.host),
        ("image 0", &steps.images[0], &run.images[0]),
        ("image 1", &steps.images[1], &run.images[1]),
        ("events", &steps.events, &run.events),
    ];
    for (what, steps, run) in buffers {
        bytes(what, SIDES, steps, run, &mut lines);
    }
    if let Some(buffer) = steps.outside {
        lines.push(format!("a step changed bytes next to {}", buffer));
    }
    lines
}
