//! Demand 3 on pairs of chains, of one controller or of two. Where the model's footprints meet its
//! condition, the library has to leave the same in either order. Where they break it nothing is asked,
//! but it is counted how often the orders differ: a condition that could be broken without harm would
//! say little.

use crate::case::{Case, RecordBytes};
use crate::compare::bytes;
use crate::crowd::{Crowd, Differs, Disagreement};
use crate::dump;
use crate::sides::{model_side, Opponent};
use crate::worlds::{pair, Theme};
use model::{with_fault, Common, Fault, Holder, Order, Outcome, Trace, Visit};

/// Two chains over one starting state, each followed alone by the model.
struct Followed {
    cases: [Case; 2],
    traces: [Trace; 2],
    outcomes: [Outcome; 2],
}

/// What two runs leave, one after the other: outcomes and events by chain, whichever came first.
struct Ends {
    /// The memory of each chain's controller; where both have one, it is the same twice.
    hosts: [Vec<u8>; 2],
    images: [Vec<u8>; 2],
    records: [RecordBytes; 2],
    outcomes: [Outcome; 2],
    events: [Vec<u8>; 2],
    outside: Option<&'static str>,
}

const ORDERS: [&str; 2] = ["0 before 1", "1 before 0"];

impl Followed {
    fn new(theme: Theme, seed: u64, index: u64) -> Followed {
        let cases = pair(theme, seed, index);
        let [(one, trace), (other, other_trace)] = [0, 1].map(|chain| model_side(&cases[chain]));
        Followed {
            cases,
            traces: [trace, other_trace],
            outcomes: [one.outcome, other.outcome],
        }
    }

    /// What the chains have in common, by footprints with the fault that is seeded, if one is.
    fn common(&self) -> Common {
        let host = &self.cases[0].host;
        self.traces[0]
            .footprint(host)
            .common(&self.traces[1].footprint(host))
    }

    fn meets(&self) -> bool {
        self.common().nothing()
    }

    fn on_two_controllers(&self) -> bool {
        self.cases[0].controller != self.cases[1].controller
    }

    fn meets_with(&self, fault: Fault) -> bool {
        with_fault(fault, || self.meets())
    }

    /// One chain from the starting state, and then the other from what it left. A controller that has
    /// not run yet has its memory as it was.
    fn run(&self, opponent: Opponent, first: usize) -> Ends {
        let one = opponent.run(&self.cases[first]);
        let second = &self.cases[1 - first];
        let two = self.on_two_controllers();
        let found = if two { &second.host } else { &one.host };
        let other = opponent.run(&Case {
            controller: second.controller,
            host: found.clone(),
            images: one.images,
            records: one.records,
            events: second.events.clone(),
            first: second.first,
            allowance: second.allowance,
            inspections: Vec::new(),
        });
        let left = if two { one.host } else { other.host.clone() };
        let mut hosts = [left, other.host];
        let mut outcomes = [one.outcome, other.outcome];
        let mut events = [one.events, other.events];
        if first == 1 {
            hosts.reverse();
            outcomes.reverse();
            events.reverse();
        }
        Ends {
            hosts,
            images: other.images,
            records: other.records,
            outcomes,
            events,
            outside: one.outside.or(other.outside),
        }
    }

    /// What differs between the two orders. Each order begins with a chain run alone. So where they
    /// do not differ, a chain that comes second answers and counts as it does alone, and leaves the
    /// same events.
    fn differences(&self, opponent: Opponent) -> Vec<String> {
        let [one, other] = [0, 1].map(|first| self.run(opponent, first));
        let mut lines = Vec::new();
        for ((what, left), (_, right)) in one.buffers().into_iter().zip(other.buffers()) {
            bytes(what, ORDERS, left, right, &mut lines);
        }
        if one.outcomes != other.outcomes {
            lines.push(format!(
                "outcomes: {} {:?}, {} {:?}",
                ORDERS[0], one.outcomes, ORDERS[1], other.outcomes
            ));
        }
        for buffer in [one.outside, other.outside].into_iter().flatten() {
            lines.push(format!("bytes next to {} were changed", buffer));
        }
        lines
    }
}

impl Ends {
    fn buffers(&self) -> [(&'static str, &[u8]); 8] {
        [
            ("host memory of chain 0", &self.hosts[0]),
            ("host memory of chain 1", &self.hosts[1]),
            ("image 0", &self.images[0]),
            ("image 1", &self.images[1]),
            ("record 0", &self.records[0]),
            ("record 1", &self.records[1]),
            ("events of chain 0", &self.events[0]),
            ("events of chain 1", &self.events[1]),
        ]
    }
}

/// What a pair that meets the condition can be, whether it is, and how many of a thousand have to
/// be. The last three are where footprints have to be exact: with a little more in them the pair
/// would break the condition.
type Feature = (&'static str, fn(&Followed) -> bool, u64);

/// Whether a block of either chain is so.
fn any_block(pair: &Followed, is: fn(&Visit) -> bool) -> bool {
    let mut blocks = pair.traces.iter().flat_map(|trace| &trace.blocks);
    blocks.any(is)
}

// The least numbers, here and below, are about a quarter of what was counted with the seeds 1 to 3.
// No seed comes to so few by chance; pairs made in another way might, and would try less.
const FEATURES: [Feature; 4] = [
    (
        "data on both drives",
        |pair| pair.outcomes.iter().all(|outcome| outcome.sectors > 0),
        100,
    ),
    (
        "data that touch the other's bytes",
        |pair| !pair.meets_with(Fault::ByteAfterData),
        80,
    ),
    (
        "a refused block's data over them",
        |pair| !pair.meets_with(Fault::RefusedDataRead),
        13,
    ),
    (
        "the unmoved rest of a read over them",
        |pair| !pair.meets_with(Fault::UnmovedRestWritten),
        60,
    ),
];

/// What it can be besides where there are tables.
const TABLE_FEATURES: [Feature; 4] = [
    (
        "a landing on a spare",
        |pair| any_block(pair, |visit| visit.landing.on_spare),
        145,
    ),
    (
        "a pair added",
        |pair| any_block(pair, |visit| visit.command == 0x85 && visit.answer == 0),
        65,
    ),
    (
        "an 85 refused",
        |pair| any_block(pair, |visit| visit.command == 0x85 && visit.answer != 0),
        45,
    ),
    (
        "the other's data over words 2 to 5 of an 85",
        |pair| !pair.meets_with(Fault::RemapWordsWritten),
        5,
    ),
];

/// What it can be besides where drives are held and controllers are two.
const HELD_FEATURES: [Feature; 8] = [
    ("two controllers", |pair| pair.on_two_controllers(), 130),
    (
        "data on both drives by two controllers",
        |pair| {
            let data = pair.outcomes.iter().all(|outcome| outcome.sectors > 0);
            data && pair.on_two_controllers()
        },
        24,
    ),
    (
        "a block refused by 24",
        |pair| any_block(pair, |visit| visit.answer == 24),
        95,
    ),
    (
        "a drive taken",
        |pair| {
            any_block(pair, |visit| {
                changes_to(visit, visit.controller.as_holder())
            })
        },
        135,
    ),
    (
        "a drive given up",
        |pair| any_block(pair, |visit| changes_to(visit, Holder::Nobody)),
        85,
    ),
    (
        "a byte in common but for two memories",
        |pair| !pair.meets_with(Fault::OneMemoryForBoth),
        18,
    ),
    (
        "the other's data over a UIB that 24 leaves unread",
        |pair| !pair.meets_with(Fault::HeldUibRead),
        3,
    ),
    (
        "the other's data over a list that 24 leaves unread",
        |pair| !pair.meets_with(Fault::HeldListRead),
        3,
    ),
];

/// What it can be besides where drives are by cylinder.
const ORDER_FEATURES: [Feature; 4] = [
    (
        "a transfer by cylinder",
        |pair| any_block(pair, |visit| by_cylinder(visit) && visit.sectors > 0),
        110,
    ),
    (
        "a transfer by cylinder from track to track",
        |pair| any_block(pair, goes_on_by_cylinder),
        36,
    ),
    (
        "data on both drives, one of either order",
        |pair| {
            let data = |is: fn(&Visit) -> bool| {
                let mut blocks = pair.traces.iter().flat_map(|trace| &trace.blocks);
                blocks.any(|visit| visit.sectors > 0 && is(visit))
            };
            data(by_cylinder) && data(|visit| !by_cylinder(visit))
        },
        33,
    ),
    (
        "an order changed",
        |pair| any_block(pair, |visit| visit.course.changed && visit.answer == 0),
        25,
    ),
];

fn by_cylinder(visit: &Visit) -> bool {
    visit.course.order == Order::ByCylinder
}

fn goes_on_by_cylinder(visit: &Visit) -> bool {
    by_cylinder(visit) && (visit.course.next_cylinder || visit.course.next_head)
}

/// Whether a block left its drive with another holder, and this one.
fn changes_to(visit: &Visit, holder: Holder) -> bool {
    visit.holder != holder && visit.held_after == holder
}

/// What a pair can break the condition by, and how many that differ there have to be for a
/// thousand that meet it.
type Break = (&'static str, u64);

const BREAKS: [Break; 4] = [
    ("a unit alone", 30),
    ("a byte written and read alone", 30),
    ("a byte written by both alone", 12),
    ("several", 0),
];

/// The same where controllers may be two: then it can be nothing but a unit.
const HELD_BREAKS: [Break; 5] = [
    ("a unit alone, on one controller", 12),
    ("a byte written and read alone", 9),
    ("a byte written by both alone", 1),
    ("several", 0),
    ("a unit, on two controllers", 16),
];

/// Which of them it is; None where the condition is met.
fn breaks(pair: &Followed) -> Option<usize> {
    let common: Common = pair.common();
    let parts = [common.unit, common.written_and_read, common.written_by_both];
    match parts.iter().filter(|part| **part).count() {
        0 => None,
        1 if pair.on_two_controllers() => Some(4),
        1 => parts.iter().position(|part| *part),
        _ => Some(3),
    }
}

/// The least numbers are asked from so many pairs on.
const ASKED_FROM: u64 = 1_000;

pub struct Tally {
    features: Vec<Feature>,
    met: u64,
    /// How many have each of the features.
    having: Vec<u64>,
    breaks: Vec<Break>,
    broken: Vec<u64>,
    /// How many of these differ.
    differ: Vec<u64>,
}

impl Tally {
    fn new(theme: Theme) -> Tally {
        let mut features = FEATURES.to_vec();
        if theme.tables() {
            features.extend(TABLE_FEATURES);
        }
        if theme == Theme::Orders {
            features.extend(ORDER_FEATURES);
        }
        let breaks = if theme == Theme::Held {
            // where a block is refused by 24 the rest of its chain is not run
            for (_, _, least) in &mut features {
                *least /= 3;
            }
            features.extend(HELD_FEATURES);
            HELD_BREAKS.to_vec()
        } else {
            BREAKS.to_vec()
        };
        Tally {
            having: vec![0; features.len()],
            features,
            met: 0,
            broken: vec![0; breaks.len()],
            differ: vec![0; breaks.len()],
            breaks,
        }
    }

    /// Counts a pair. What differs though the condition is met.
    fn add(&mut self, pair: &Followed, opponent: Opponent) -> Vec<String> {
        let lines = pair.differences(opponent);
        if let Some(part) = breaks(pair) {
            self.broken[part] += 1;
            self.differ[part] += !lines.is_empty() as u64;
            return Vec::new();
        }
        self.met += 1;
        for (count, (_, has, _)) in self.having.iter_mut().zip(&self.features) {
            *count += has(pair) as u64;
        }
        lines
    }

    /// The counts, in two lines; the pairs are named with what they are about.
    pub fn lines(&self, about: &str) -> [String; 2] {
        let features = self.features.iter().zip(&self.having);
        let features: Vec<String> = features
            .map(|((name, _, _), count)| format!("{} with {}", count, name))
            .collect();
        let counts = self.differ.iter().zip(&self.broken);
        let breaks: Vec<String> = self
            .breaks
            .iter()
            .zip(counts)
            .map(|((name, _), (differ, pairs))| format!("{} of {} by {}", differ, pairs, name))
            .collect();
        [
            format!(
                "{} pairs{} meet the condition, no difference: {}",
                self.met,
                about,
                features.join(", ")
            ),
            format!(
                "{} pairs break it, and differ: {}",
                self.broken.iter().sum::<u64>(),
                breaks.join(", ")
            ),
        ]
    }

    /// What occurred too seldom.
    pub fn missing(&self) -> Vec<String> {
        let features = self.features.iter().zip(&self.having);
        let features = features.map(|((name, _, least), count)| ("with", name, *count, least));
        let breaks = self.breaks.iter().zip(&self.differ);
        let breaks = breaks.map(|((name, least), count)| ("different by", name, *count, least));
        let mut missing = Vec::new();
        for (how, name, count, least) in features.chain(breaks) {
            let least = least * self.met / 1_000;
            if count < least && self.met >= ASKED_FROM {
                missing.push(format!(
                    "pairs {} {}: {}, and {} are asked",
                    how, name, count, least
                ));
            }
        }
        missing
    }
}

/// Pairs, until so many of them meet the condition; or the first of those that differs. A fault that is
/// to be in the model is in all of it.
pub fn run(crowd: &Crowd, pairs: u64) -> Result<Tally, Disagreement> {
    match crowd.seeded {
        Some(fault) => with_fault(fault, || count(crowd, pairs)),
        None => count(crowd, pairs),
    }
}

fn count(crowd: &Crowd, pairs: u64) -> Result<Tally, Disagreement> {
    let mut tally = Tally::new(crowd.theme);
    let mut index = 0;
    while tally.met < pairs {
        let pair = Followed::new(crowd.theme, crowd.seed, index);
        let lines = tally.add(&pair, crowd.opponent);
        if !lines.is_empty() {
            let between = "the orders";
            let differs = Differs { between, lines };
            return Err(Disagreement { index, differs });
        }
        index += 1;
    }
    Ok(tally)
}

/// Whether a pair meets the condition, and what differs between the orders.
pub fn one_pair(crowd: &Crowd, index: u64) -> (bool, Vec<String>) {
    let pair = Followed::new(crowd.theme, crowd.seed, index);
    (pair.meets(), pair.differences(crowd.opponent))
}

/// Whether one of the two pairs with an index, the one without tables and the one with them, shows
/// that footprints with a fault are wrong.
pub fn sees(crowd: &Crowd, fault: Fault, index: u64) -> bool {
    let mut themes = [Theme::Plain, Theme::Tables].into_iter();
    themes.any(|theme| sees_in(theme, crowd, fault, index))
}

/// The same on the pair with an index whose drives are held, by one controller or by two.
pub fn sees_held(crowd: &Crowd, fault: Fault, index: u64) -> bool {
    sees_in(Theme::Held, crowd, fault, index)
}

/// Footprints that lack something let
/// a pair through whose orders differ; footprints that have too much keep one out that the right
/// ones let through.
fn sees_in(theme: Theme, crowd: &Crowd, fault: Fault, index: u64) -> bool {
    let pair = Followed::new(theme, crowd.seed, index);
    let through = pair.meets_with(fault);
    if pair.meets() {
        !through
    } else {
        through && !pair.differences(crowd.opponent).is_empty()
    }
}

/// A pair that can be read: both chains as they go alone, and what they have in common.
pub fn dump(theme: Theme, seed: u64, index: u64) -> String {
    let pair = Followed::new(theme, seed, index);
    let [one, other] = [0, 1].map(|chain| dump::dump(&pair.cases[chain]));
    format!("chain 0: {}chain 1: {}{:?}\n", one, other, pair.common())
}
