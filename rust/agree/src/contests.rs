//! Contests (paper 02, K10): two machines run chains in turn on the same drives, each from its own memory
//! and with its own events, and the library is compared with the model after every run.

use crate::case::{record_in, Case};
use crate::compare::{bytes, differences};
use crate::crowd::Crowd;
use crate::dump::dump;
use crate::holding::{Holding, Story};
use crate::sides::{model_side, released, Left, Opponent};
use crate::worlds::{contest, Contest, Turn};
use model::{with_fault, Fault, Holder, Trace};
use std::panic::{catch_unwind, AssertUnwindSafe};

/// Where the two sides differ first: the contest, the turn, and what differs.
pub struct Found {
    pub index: u64,
    pub turn: usize,
    pub lines: Vec<String>,
}

/// The run of a turn.
fn case(contest: &Contest, turn: &Turn) -> Case {
    let machine = &contest.machines[turn.controller as usize];
    Case {
        controller: turn.controller,
        host: machine.host.clone(),
        images: contest.images.clone(),
        events: machine.events.clone(),
        records: contest.records,
        first: turn.first,
        allowance: turn.allowance,
        inspections: turn.inspections.clone(),
    }
}

/// What a run leaves is there for the next: the drives for both, the rest for the one that ran.
fn leave(contest: &mut Contest, turn: &Turn, left: Left) {
    let machine = &mut contest.machines[turn.controller as usize];
    machine.host = left.host;
    machine.events = left.events;
    contest.images = left.images;
    contest.records = left.records;
}

/// Releases the drive that the turn says. What the opponent does otherwise than it should.
fn release(contest: &mut Contest, turn: &Turn, opponent: Opponent) -> Vec<String> {
    let mut lines = Vec::new();
    if let Some(unit) = turn.released {
        let record = &mut contest.records[unit];
        let ((left, held), (should, should_hold)) = (opponent.release(record), released(record));
        bytes("record released", SIDES, &left, &should, &mut lines);
        if held != should_hold {
            lines.push(format!("release of drive {}: says {}", unit, held));
        }
        *record = should;
    }
    lines
}

fn held(contest: &Contest, unit: usize) -> bool {
    record_in(&contest.records[unit]).holder != Holder::Nobody
}

const SIDES: [&str; 2] = ["library", "model"];

/// The model's run of a turn, without a rule where one is to be missing; None where it panics.
fn judged(case: &Case, seeded: Option<Fault>) -> Option<(Left, Trace)> {
    let model = || match seeded {
        Some(fault) => with_fault(fault, || model_side(case)),
        None => model_side(case),
    };
    catch_unwind(AssertUnwindSafe(model)).ok()
}

/// One contest on both sides: the first turn after which they differ.
pub fn one_contest(crowd: &Crowd, index: u64, holding: &mut Holding) -> Option<Found> {
    let mut contest = contest(crowd.seed, index);
    let mut story = Story::new();
    for (k, turn) in std::mem::take(&mut contest.turns).iter().enumerate() {
        let found = |lines| Found {
            index,
            turn: k,
            lines,
        };
        if let Some(unit) = turn.released.filter(|unit| held(&contest, *unit)) {
            story.released(unit);
        }
        let lines = release(&mut contest, turn, crowd.opponent);
        if !lines.is_empty() {
            return Some(found(lines));
        }
        let case = case(&contest, turn);
        let Some((model, trace)) = judged(&case, crowd.seeded) else {
            return Some(found(vec!["the model panics".to_string()]));
        };
        let library = match (crowd.opponent, crowd.seeded) {
            (Opponent::Itself, Some(fault)) => with_fault(fault, || crowd.opponent.run(&case)),
            (opponent, _) => opponent.run(&case),
        };
        let lines = differences(&case, &library, &model);
        if !lines.is_empty() {
            return Some(found(lines));
        }
        holding.add(&mut story, &case, &trace, &model);
        leave(&mut contest, turn, model);
    }
    None
}

/// All contests: what they walked into, or the first in which the two sides differ.
pub fn run(crowd: &Crowd, count: u64) -> Result<Holding, Found> {
    let share = |thread: usize| -> Result<Holding, Found> {
        let mut holding = Holding::default();
        for index in (thread as u64..count).step_by(crowd.threads) {
            if let Some(found) = one_contest(crowd, index, &mut holding) {
                return Err(found);
            }
        }
        Ok(holding)
    };
    let mut total = Holding::default();
    let mut first: Option<Found> = None;
    std::thread::scope(|scope| {
        let threads: Vec<_> = (0..crowd.threads)
            .map(|k| scope.spawn(move || share(k)))
            .collect();
        for thread in threads {
            match thread.join().expect("a contest does not panic") {
                Ok(holding) => total.join(&holding),
                Err(found) if first.as_ref().is_none_or(|f| found.index < f.index) => {
                    first = Some(found)
                }
                Err(_) => {}
            }
        }
    });
    first.map_or(Ok(total), Err)
}

/// Whether the model with a fault differs after a turn of the contest with an index, or cannot go on. The
/// other side goes on from turn to turn.
pub fn catches(crowd: &Crowd, fault: Fault, index: u64) -> bool {
    let mut contest = contest(crowd.seed, index);
    for turn in &std::mem::take(&mut contest.turns) {
        release(&mut contest, turn, crowd.opponent);
        let case = case(&contest, turn);
        let library = crowd.opponent.run(&case);
        let same = judged(&case, Some(fault))
            .is_some_and(|(model, _)| differences(&case, &library, &model).is_empty());
        if !same {
            return true;
        }
        leave(&mut contest, turn, library);
    }
    false
}

/// A contest that can be read, as the model plays it: each turn up to the last that is asked for.
pub fn words(crowd: &Crowd, index: u64, last: usize) -> String {
    let mut contest = contest(crowd.seed, index);
    let mut text = String::new();
    for (k, turn) in std::mem::take(&mut contest.turns).iter().enumerate() {
        if k > last {
            break;
        }
        release(&mut contest, turn, Opponent::Itself);
        if let Some(unit) = turn.released {
            text += &format!("drive {} released\n", unit);
        }
        let case = case(&contest, turn);
        text += &format!("turn {}: {}", k + 1, dump(&case));
        leave(&mut contest, turn, model_side(&case).0);
    }
    text
}
