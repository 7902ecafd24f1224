//! Many worlds over all cores, and the faults seeded one at a time.

use crate::compare::{differences, told_differently};
use crate::coverage::Coverage;
use crate::sides::{model_side, Opponent};
use crate::steps;
use crate::worlds::{world, Theme};
use model::{with_fault, Fault};
use std::panic::{catch_unwind, AssertUnwindSafe};
use std::sync::atomic::{AtomicU64, AtomicUsize, Ordering};
use std::sync::Mutex;

/// How many worlds a thread takes at a time.
const CHUNK: u64 = 64;

#[derive(Clone, Copy)]
pub struct Crowd {
    pub theme: Theme,
    pub opponent: Opponent,
    pub seed: u64,
    pub worlds: u64,
    pub threads: usize,
    /// A fault of the model in every world: what it is like to be without a rule.
    pub seeded: Option<Fault>,
}

/// Whether a fault is caught in what has an index.
pub type Catches = fn(&Crowd, Fault, u64) -> bool;

/// What differs in a world or a pair, and who they are that differ.
pub struct Differs {
    pub between: &'static str,
    pub lines: Vec<String>,
}

impl Differs {
    fn of(between: &'static str, lines: Vec<String>) -> Option<Differs> {
        (!lines.is_empty()).then_some(Differs { between, lines })
    }
}

/// The first world or pair in which something differs.
pub struct Disagreement {
    pub index: u64,
    pub differs: Differs,
}

/// One world on both sides, and its chain by steps: what differs. The model in the library's place is
/// without the same rule.
pub fn one_world(crowd: &Crowd, index: u64, coverage: &mut Coverage) -> Option<Differs> {
    let sides = "the library and the model";
    let case = world(crowd.theme, crowd.seed, index);
    let judged = catch_unwind(AssertUnwindSafe(|| {
        let model = || model_side(&case);
        match crowd.seeded {
            Some(fault) => with_fault(fault, model),
            None => model(),
        }
    }));
    let Ok((model, trace)) = judged else {
        return Differs::of(sides, vec!["the model panics".to_string()]);
    };
    // records are read there once more, by the same rules
    let mut count = || coverage.add(&case, &model.outcome, &trace, &model);
    match crowd.seeded {
        Some(fault) => with_fault(fault, count),
        None => count(),
    }
    let library = match (crowd.opponent, crowd.seeded) {
        (Opponent::Itself, Some(fault)) => with_fault(fault, || crowd.opponent.run(&case)),
        (opponent, _) => opponent.run(&case),
    };
    let mut lines = differences(&case, &library, &model);
    lines.extend(told_differently(&library, &model));
    Differs::of(sides, lines).or_else(|| {
        let lines = steps::differences(crowd.opponent, &case, &library, &mut coverage.steps);
        Differs::of("the library's steps and its run", lines)
    })
}

impl Crowd {
    /// All worlds. The disagreement handed back is the one with the least index, however the
    /// threads were scheduled.
    pub fn run(&self) -> (Coverage, Option<Disagreement>) {
        let next = AtomicU64::new(0);
        let end = AtomicU64::new(self.worlds);
        let total = Mutex::new((Coverage::new(self.theme), None::<Disagreement>));
        std::thread::scope(|scope| {
            for _ in 0..self.threads {
                scope.spawn(|| {
                    let (coverage, found) = self.share(&next, &end);
                    let mut total = total.lock().expect("no thread panics with it");
                    total.0.join(&coverage);
                    let least = |d: &Disagreement| d.index;
                    let earlier = match (&found, &total.1) {
                        (Some(new), Some(old)) => least(new) < least(old),
                        (found, _) => found.is_some(),
                    };
                    if earlier {
                        total.1 = found;
                    }
                });
            }
        });
        total.into_inner().expect("no thread panics with it")
    }

    /// A thread's share of the worlds, up to the first disagreement that anyone has found.
    fn share(&self, next: &AtomicU64, end: &AtomicU64) -> (Coverage, Option<Disagreement>) {
        let mut coverage = Coverage::new(self.theme);
        loop {
            let from = next.fetch_add(CHUNK, Ordering::Relaxed);
            for index in from..from + CHUNK {
                if index >= end.load(Ordering::Relaxed) {
                    return (coverage, None);
                }
                if let Some(differs) = one_world(self, index, &mut coverage) {
                    end.fetch_min(index, Ordering::Relaxed);
                    return (coverage, Some(Disagreement { index, differs }));
                }
            }
        }
    }

    /// For each of some faults the number of worlds, or of pairs, until one of them catches it.
    pub fn faults(&self, faults: &[Fault], catches: Catches) -> Vec<(Fault, Option<u64>)> {
        let next = AtomicUsize::new(0);
        let caught = Mutex::new(Vec::new());
        std::thread::scope(|scope| {
            for _ in 0..self.threads {
                scope.spawn(|| loop {
                    let k = next.fetch_add(1, Ordering::Relaxed);
                    let Some(fault) = faults.get(k) else {
                        return;
                    };
                    let worlds = (0..self.worlds).find(|index| catches(self, *fault, *index));
                    caught
                        .lock()
                        .expect("no thread panics with it")
                        .push((k, worlds.map(|index| index + 1)));
                });
            }
        });
        let mut caught = caught.into_inner().expect("no thread panics with it");
        caught.sort_unstable();
        caught
            .into_iter()
            .map(|(k, worlds)| (faults[k], worlds))
            .collect()
    }

    /// Whether the model with a fault differs in one of the two worlds with an index, the one without
    /// tables and the one with them, or cannot go on in it.
    pub fn catches(&self, fault: Fault, index: u64) -> bool {
        let mut themes = [Theme::Plain, Theme::Tables].into_iter();
        themes.any(|theme| self.catches_in(theme, fault, index))
    }

    /// The same in the world with an index whose drives are of either order.
    pub fn catches_by_order(&self, fault: Fault, index: u64) -> bool {
        self.catches_in(Theme::Orders, fault, index)
    }

    /// The world is made and the other side is run without the fault.
    fn catches_in(&self, theme: Theme, fault: Fault, index: u64) -> bool {
        let case = world(theme, self.seed, index);
        let library = self.opponent.run(&case);
        let faulty = catch_unwind(AssertUnwindSafe(|| with_fault(fault, || model_side(&case))));
        match faulty {
            Ok((model, _)) => !differences(&case, &library, &model).is_empty(),
            Err(_) => true,
        }
    }
}
