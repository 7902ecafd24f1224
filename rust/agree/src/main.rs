//! Compares the proved library with the model.
//!
//! The library is proved to do what its definitions say; the model was written from the paper
//! alone. Where they leave different bytes of the same world, one of them has misread the paper.
//! Pairs of chains are for demand 3: the model says which may be run in either order, and the library
//! runs them in both. Contests are for two machines that run in turn on the same drives. Places are for
//! the rule that no two sectors stand in one: the library alone writes every sector and reads it back.
//! The chain of each world is made of steps as well, which have to leave what the run left.

mod case;
mod compare;
mod contests;
mod coverage;
mod crowd;
mod draw;
mod dump;
mod exact;
#[cfg(feature = "library")]
mod giants;
mod holding;
mod pairs;
mod places;
mod sessions;
mod sides;
mod standing;
mod steps;
mod worlds;

use coverage::Coverage;
use crowd::{one_world, Catches, Crowd};
use holding::Holding;
use model::Fault;
use sides::Opponent;
use std::process::ExitCode;
use std::time::Instant;
use worlds::Theme;

const USAGE: &str = "\
agree [--worlds N] [--seed S] [--threads N] [--itself]   compare on generated worlds
agree --world I [--seed S] [--itself]                    one of these worlds, and show it
agree --worlds N --seeded WORDS                          the same with one of these faults in the model; and so of pairs and contests
agree --faults [--worlds N] [--seed S] [--itself]        faults seeded in the model: is each caught?
agree --exact [--itself]                                 the paper's worked examples and the limits
agree --tables N [--seed S] [--threads N] [--itself]     compare on worlds with bad tracks and spares
agree --table I [--seed S] [--itself]                    one of these worlds, and show it
agree --orders N [--seed S] [--threads N] [--itself]     compare on worlds with drives by head and by cylinder
agree --order I [--seed S] [--itself]                    one of these worlds, and show it
agree --sessions N PROGRAM WORD..                        the session program on generated sessions
agree --table-sessions N PROGRAM WORD..                  the same on sessions with bad tracks and spares
agree --pairs N [--seed S] [--itself]                    N pairs of chains that demand 3 lets run in either order
agree --pair I [--seed S] [--itself]                     one of these pairs, and show it
agree --table-pairs N, agree --table-pair I              the same of pairs with bad tracks and spares
agree --order-pairs N, agree --order-pair I              the same of pairs with drives by head and by cylinder
agree --machine-pairs N, agree --machine-pair I          the same on one controller and on two, with drives that are held
agree --machines N [--seed S] [--threads N] [--itself]   N contests of two machines that run in turn on the same drives
agree --machine I [--seed S] [--itself]                  one of these contests, and show it
agree --places N [--seed S] [--itself]                   N drives: does every sector that is on no spare come back as itself?
agree --place I [--seed S] [--itself]                    one of these drives, and show it
--itself puts the model in the library's place.";

/// Coverage is asked from so many worlds on, and from so many contests.
const COVERAGE_FROM: u64 = 50_000;
const HOLDING_FROM: u64 = 10_000;

struct Asked {
    crowd: Crowd,
    world: Option<u64>,
    faults: bool,
    exact: bool,
    sessions: Option<(u64, Vec<String>)>,
    pairs: Option<u64>,
    pair: Option<u64>,
    places: Option<u64>,
    place: Option<u64>,
    contests: Option<u64>,
    contest: Option<u64>,
}

fn asked() -> Option<Asked> {
    let threads = std::thread::available_parallelism().map_or(2, |n| n.get());
    let mut asked = Asked {
        crowd: Crowd {
            theme: Theme::Plain,
            opponent: Opponent::Library,
            seed: 3200,
            worlds: 200_000,
            threads,
            seeded: None,
        },
        world: None,
        faults: false,
        exact: false,
        sessions: None,
        pairs: None,
        pair: None,
        places: None,
        place: None,
        contests: None,
        contest: None,
    };
    let mut words = std::env::args().skip(1);
    while let Some(word) = words.next() {
        let mut number = || words.next()?.replace(['_', ','], "").parse::<u64>().ok();
        match word.as_str() {
            "--worlds" => asked.crowd.worlds = number()?,
            "--seed" => asked.crowd.seed = number()?,
            "--threads" => asked.crowd.threads = number()?.max(1) as usize,
            "--world" => asked.world = Some(number()?),
            "--itself" => asked.crowd.opponent = Opponent::Itself,
            "--faults" => asked.faults = true,
            "--seeded" => asked.crowd.seeded = Some(fault(&words.next()?)?),
            "--exact" => asked.exact = true,
            "--pairs" => asked.pairs = Some(number()?),
            "--pair" => asked.pair = Some(number()?),
            "--places" => asked.places = Some(number()?),
            "--place" => asked.place = Some(number()?),
            "--machines" => asked.contests = Some(number()?),
            "--machine" => asked.contest = Some(number()?),
            "--machine-pairs" | "--machine-pair" => {
                asked.crowd.theme = Theme::Held;
                let number = Some(number()?);
                if word == "--machine-pairs" {
                    asked.pairs = number;
                } else {
                    asked.pair = number;
                }
            }
            "--tables" | "--table" | "--table-pairs" | "--table-pair" => {
                asked.crowd.theme = Theme::Tables;
                let number = Some(number()?);
                match word.as_str() {
                    "--tables" => asked.crowd.worlds = number?,
                    "--table" => asked.world = number,
                    "--table-pairs" => asked.pairs = number,
                    _ => asked.pair = number,
                }
            }
            "--orders" | "--order" | "--order-pairs" | "--order-pair" => {
                asked.crowd.theme = Theme::Orders;
                let number = Some(number()?);
                match word.as_str() {
                    "--orders" => asked.crowd.worlds = number?,
                    "--order" => asked.world = number,
                    "--order-pairs" => asked.pairs = number,
                    _ => asked.pair = number,
                }
            }
            "--sessions" | "--table-sessions" => {
                if word == "--table-sessions" {
                    asked.crowd.theme = Theme::FreshTables;
                }
                let count = number()?;
                asked.sessions = Some((count, words.by_ref().collect()));
            }
            _ => return None,
        }
    }
    Some(asked)
}

/// The fault in the rules that says so.
fn fault(says: &str) -> Option<Fault> {
    let rules = Fault::IN_RULES.into_iter().chain(Fault::IN_HOLDERS);
    let mut faults = rules.chain(Fault::IN_ORDERS);
    faults.find(|fault| fault.says() == says)
}

fn main() -> ExitCode {
    let Some(asked) = asked() else {
        eprintln!("{}", USAGE);
        return ExitCode::from(2);
    };
    if let Some((count, command)) = &asked.sessions {
        return verdict(sessions(&asked.crowd, *count, command));
    }
    if asked.crowd.opponent == Opponent::Library && !cfg!(feature = "library") {
        eprintln!("agree was built without the library: only --itself can be asked");
        return ExitCode::from(2);
    }
    let fine = if let Some(index) = asked.world {
        show(&asked.crowd, index)
    } else if asked.exact || asked.faults {
        let exact = !asked.exact || exact(asked.crowd.opponent);
        let faults = !asked.faults || faults(&asked.crowd);
        exact && faults
    } else if let Some(index) = asked.pair {
        show_pair(&asked.crowd, index)
    } else if let Some(count) = asked.pairs {
        pairs(&asked.crowd, count)
    } else if let Some(index) = asked.place {
        show_drive(&asked.crowd, index)
    } else if let Some(count) = asked.places {
        places(&asked.crowd, count)
    } else if let Some(index) = asked.contest {
        show_contest(&asked.crowd, index)
    } else if let Some(count) = asked.contests {
        contests(&asked.crowd, count)
    } else {
        worlds(&asked.crowd)
    };
    verdict(fine)
}

fn verdict(fine: bool) -> ExitCode {
    if fine {
        ExitCode::SUCCESS
    } else {
        ExitCode::FAILURE
    }
}

fn sessions(crowd: &Crowd, count: u64, command: &[String]) -> bool {
    let start = Instant::now();
    let heard = sessions::play(command, crowd.theme, crowd.seed, count, crowd.threads);
    if let Some((index, difference)) = &heard.differs {
        println!(
            "session {} of seed {} differs\n{}",
            index, crowd.seed, difference
        );
        return false;
    }
    println!(
        "agree: {} sessions{}, {} lines, {} sessions refused, no difference, {:.1} s",
        count,
        about(crowd),
        heard.lines,
        heard.refused,
        start.elapsed().as_secs_f64()
    );
    true
}

/// One world, shown whether or not the two agree.
fn show(crowd: &Crowd, index: u64) -> bool {
    let differs = one_world(crowd, index, &mut Coverage::new(crowd.theme));
    let case = worlds::world(crowd.theme, crowd.seed, index);
    print!("{}", dump::dump(&case));
    for line in differs.iter().flat_map(|differs| &differs.lines) {
        println!("differs: {}", line);
    }
    println!(
        "agree: seed {} world {}: {}",
        crowd.seed,
        index,
        match &differs {
            None => "no difference",
            Some(_) => "different",
        }
    );
    differs.is_none()
}

fn worlds(crowd: &Crowd) -> bool {
    let start = Instant::now();
    let (coverage, disagreement) = crowd.run();
    if let Some(found) = disagreement {
        println!("differs in seed {} world {}", crowd.seed, found.index);
        for line in &found.differs.lines {
            println!("  {}", line);
        }
        let case = worlds::world(crowd.theme, crowd.seed, found.index);
        print!("{}", dump::dump(&case));
        println!(
            "agree: {} differ; again with --seed {} --{} {}",
            found.differs.between,
            crowd.seed,
            match crowd.theme {
                Theme::Plain => "world",
                Theme::Orders => "order",
                _ => "table",
            },
            found.index
        );
        return false;
    }
    print!("{}", coverage.table());
    let missing = coverage.missing();
    let asked = crowd.worlds >= COVERAGE_FROM;
    if asked {
        for line in &missing {
            println!("not covered: {}", line);
        }
    }
    if let Some(line) = coverage.steps.line() {
        println!("agree: {}", line);
    }
    println!(
        "agree: {} worlds{}, {} blocks, no difference, {:.1} s{}",
        crowd.worlds,
        about(crowd),
        coverage.blocks(),
        start.elapsed().as_secs_f64(),
        coverage_words("worlds", asked, missing.is_empty())
    );
    !asked || missing.is_empty()
}

/// What worlds, sessions or pairs are about.
fn about(crowd: &Crowd) -> &'static str {
    match crowd.theme {
        Theme::Plain => "",
        Theme::Tables | Theme::FreshTables => " with tables",
        Theme::Held => " on one controller or two",
        Theme::Orders => " by head and by cylinder",
    }
}

fn pairs(crowd: &Crowd, count: u64) -> bool {
    let start = Instant::now();
    let tally = match pairs::run(crowd, count) {
        Ok(tally) => tally,
        Err(found) => {
            print!("{}", pairs::dump(crowd.theme, crowd.seed, found.index));
            for line in &found.differs.lines {
                println!("differs: {}", line);
            }
            println!(
                "agree: {} differ though the condition is met; again with --seed {} --{} {}",
                found.differs.between,
                crowd.seed,
                match crowd.theme {
                    Theme::Plain => "pair",
                    Theme::Tables | Theme::FreshTables => "table-pair",
                    Theme::Held => "machine-pair",
                    Theme::Orders => "order-pair",
                },
                found.index
            );
            return false;
        }
    };
    let missing = tally.missing();
    for line in &missing {
        println!("not covered: {}", line);
    }
    let [met, broken] = tally.lines(about(crowd));
    println!("agree: {}", met);
    println!("agree: {}, {:.1} s", broken, start.elapsed().as_secs_f64());
    missing.is_empty()
}

/// One pair, shown whether or not its orders differ.
fn show_pair(crowd: &Crowd, index: u64) -> bool {
    let (meets, lines) = pairs::one_pair(crowd, index);
    print!("{}", pairs::dump(crowd.theme, crowd.seed, index));
    for line in &lines {
        println!("differs: {}", line);
    }
    println!(
        "agree: seed {} pair {}: {} the condition, {}",
        crowd.seed,
        index,
        if meets { "meets" } else { "does not meet" },
        if lines.is_empty() {
            "no difference"
        } else {
            "different"
        }
    );
    lines.is_empty() || !meets
}

fn contests(crowd: &Crowd, count: u64) -> bool {
    let start = Instant::now();
    let holding = match contests::run(crowd, count) {
        Ok(holding) => holding,
        Err(found) => {
            print!("{}", contests::words(crowd, found.index, found.turn));
            for line in &found.lines {
                println!("differs: {}", line);
            }
            println!(
                "agree: the library and the model differ after turn {}; again with --seed {} --machine {}",
                found.turn + 1,
                crowd.seed,
                found.index
            );
            return false;
        }
    };
    print!("{}", holding.table());
    let missing = holding.missing();
    let asked = count >= HOLDING_FROM;
    if asked {
        for line in &missing {
            println!("not covered: {}", line);
        }
    }
    println!(
        "agree: {} contests of two machines, {} runs, {} blocks, no difference, {:.1} s{}",
        count,
        holding.runs(),
        holding.blocks(),
        start.elapsed().as_secs_f64(),
        coverage_words("contests", asked, missing.is_empty())
    );
    !asked || missing.is_empty()
}

/// One contest, shown whether or not the two agree.
fn show_contest(crowd: &Crowd, index: u64) -> bool {
    let found = contests::one_contest(crowd, index, &mut Holding::default());
    let last = found.as_ref().map_or(usize::MAX, |found| found.turn);
    print!("{}", contests::words(crowd, index, last));
    for line in found.iter().flat_map(|found| &found.lines) {
        println!("differs: {}", line);
    }
    println!(
        "agree: seed {} contest {}: {}",
        crowd.seed,
        index,
        match &found {
            None => "no difference".to_string(),
            Some(found) => format!("different after turn {}", found.turn + 1),
        }
    );
    found.is_none()
}

/// What is to be said of what was covered, where something is.
fn coverage_words(what: &str, asked: bool, all: bool) -> String {
    match (asked, all) {
        (true, true) => String::new(),
        (true, false) => "; but not everything was covered".to_string(),
        (false, _) => format!("; too few {} to ask what they cover", what),
    }
}

fn places(crowd: &Crowd, count: u64) -> bool {
    let start = Instant::now();
    match places::run(crowd, count) {
        Ok(tally) => {
            println!(
                "agree: {} drives with {} pairs, {} sectors written and read back, {} tracks of no volume formatted between, no two in one place; {} sectors read by their spares' own names, {} of {} marks stopped one read, {:.1} s",
                count,
                tally.pairs,
                tally.sectors,
                tally.formats,
                tally.met,
                tally.marks,
                count,
                start.elapsed().as_secs_f64()
            );
            true
        }
        Err((index, wrong)) => {
            println!(
                "agree: {}; again with --seed {} --place {}",
                wrong, crowd.seed, index
            );
            false
        }
    }
}

/// One drive, shown whether or not something is wrong on it.
fn show_drive(crowd: &Crowd, index: u64) -> bool {
    print!("{}", places::dump(crowd.seed, index));
    let swept = places::one_drive(crowd, index);
    let says = match &swept {
        Ok(_) => "no two sectors in one place",
        Err(wrong) => wrong,
    };
    println!("agree: seed {} drive {}: {}", crowd.seed, index, says);
    swept.is_ok()
}

fn exact(opponent: Opponent) -> bool {
    let start = Instant::now();
    let sheet = exact::run(opponent);
    let (giants, wrong_giants) = giants(opponent);
    let wrong = [sheet.wrong, wrong_giants].concat();
    for line in &wrong {
        println!("wrong: {}", line);
    }
    println!(
        "agree: {} exact cases and {} expectations of memories past the model, {} not met, {:.1} s",
        sheet.cases,
        giants,
        wrong.len(),
        start.elapsed().as_secs_f64()
    );
    wrong.is_empty()
}

/// How many expectations there were, and what was wrong.
#[cfg(feature = "library")]
fn giants(opponent: Opponent) -> (u32, Vec<String>) {
    if opponent == Opponent::Itself {
        return (0, Vec::new());
    }
    let report = giants::report();
    for line in &report.refused {
        println!("{}", line);
    }
    (report.cases, report.wrong)
}

#[cfg(not(feature = "library"))]
fn giants(_: Opponent) -> (u32, Vec<String>) {
    (0, Vec::new())
}

fn faults(crowd: &Crowd) -> bool {
    // A model that is wrong may panic; that is a catch, and no news.
    std::panic::set_hook(Box::new(|_| {}));
    let rules = faults_in(crowd, "worlds", &Fault::IN_RULES, Crowd::catches);
    let footprints = faults_in(crowd, "pairs", &Fault::IN_FOOTPRINTS, pairs::sees);
    let places = faults_in(crowd, "drives", &Fault::IN_PLACES, places::catches);
    let holders = faults_in(crowd, "contests", &Fault::IN_HOLDERS, contests::catches);
    let held = faults_in(crowd, "pairs", &Fault::IN_HELD_FOOTPRINTS, pairs::sees_held);
    let orders = faults_in(crowd, "worlds", &Fault::IN_ORDERS, Crowd::catches_by_order);
    rules && footprints && places && holders && held && orders
}

/// Each of some faults, with the number of worlds or pairs that it took.
fn faults_in(crowd: &Crowd, what: &str, faults: &[Fault], catches: Catches) -> bool {
    let start = Instant::now();
    let faults = crowd.faults(faults, catches);
    let mut missed = 0;
    for (fault, caught) in &faults {
        match caught {
            Some(number) => println!("{:<56}{:>8}", fault.says(), number),
            None => {
                missed += 1;
                println!("{:<56}  missed", fault.says());
            }
        }
    }
    println!(
        "agree: {} of {} seeded faults caught, the number of {} it took beside each, {:.1} s",
        faults.len() - missed,
        faults.len(),
        what,
        start.elapsed().as_secs_f64()
    );
    missed == 0
}
