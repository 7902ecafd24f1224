//! The header for C and this crate say the same, and so do docs/LAYOUTS.md and CHANGELOG.md. The
//! header is not read here but for its names: it is compiled into a C program, which prints what it
//! has.

use std::collections::BTreeMap;
use std::fmt::Debug;
use std::path::{Path, PathBuf};
use std::process::Command;
use std::sync::LazyLock;
use std::{env, fs};
use vsmd3200::{
    answer_text, bytes, BlockAnswer, Controller, Event, RefusedCall, RunAnswer, StepRefused,
    Stepped, VERSION,
};

/// A file of the project.
fn project(path: &str) -> PathBuf {
    Path::new(env!("CARGO_MANIFEST_DIR"))
        .join("../..")
        .join(path)
}

fn text_of(path: &str) -> String {
    let path = project(path);
    fs::read_to_string(&path).unwrap_or_else(|error| panic!("{}: {error}", path.display()))
}

/// Compiles a C program, as `flag` says besides.
fn compiled(name: &str, program: &str, flag: &str) -> PathBuf {
    let directory = Path::new(env!("CARGO_TARGET_TMPDIR"));
    let (source, binary) = (directory.join(format!("{name}.c")), directory.join(name));
    fs::write(&source, program).unwrap();
    let compiled = Command::new(env::var_os("CC").unwrap_or("cc".into()))
        .args([
            "-std=c99",
            "-Wall",
            "-Wextra",
            "-Wpedantic",
            "-Werror",
            flag,
        ])
        .arg("-I")
        .arg(project("include"))
        .arg("-o")
        .args([&binary, &source])
        .status()
        .expect("a C compiler, which Rust links with too");
    assert!(compiled.success(), "{} does not compile", source.display());
    binary
}

/// What a C program prints that includes the header and has this body, a line each.
fn printed(name: &str, program: &str) -> Vec<String> {
    printed_with(name, "#include \"vsmd3200.h\"\n", program)
}

/// The same with this in the place of the header.
fn printed_with(name: &str, header: &str, program: &str) -> Vec<String> {
    let program = format!("{header}#include <stdio.h>\n{program}");
    // What is not called is left out, so that no library has to be linked.
    let binary = compiled(name, &program, "-O1");
    let output = Command::new(&binary).output().unwrap();
    assert!(output.status.success(), "{} failed", binary.display());
    let lines = String::from_utf8(output.stdout).unwrap();
    lines.lines().map(str::to_string).collect()
}

/// The header's constants that are numbers, with what C takes them for. Several tests ask.
static OF_HEADER: LazyLock<BTreeMap<String, u64>> = LazyLock::new(|| {
    let header = text_of("include/vsmd3200.h");
    let names = header.lines().filter_map(|line| {
        let (name, value) = line.strip_prefix("#define ")?.split_once(' ')?;
        value
            .starts_with(|first: char| first.is_ascii_digit())
            .then_some(name)
    });
    let print = |name| format!("    printf(\"{name} %lu\\n\", (unsigned long){name});\n");
    let prints: String = names.map(print).collect();
    let program = format!("int main(void)\n{{\n{prints}    return 0;\n}}\n");
    let lines = printed("constants", &program);
    let pairs = lines.iter().map(|line| {
        let (name, value) = line.split_once(' ').unwrap();
        (name.to_string(), value.parse().unwrap())
    });
    pairs.collect()
});

/// The name in C of a case of an enum: `EventsShort` is `VSMD_EVENTS_SHORT`.
fn name_of(case: impl Debug) -> String {
    let mut name = "VSMD".to_string();
    for letter in format!("{case:?}").chars() {
        if letter.is_ascii_uppercase() {
            name.push('_');
        }
        name.push(letter.to_ascii_uppercase());
    }
    name
}

macro_rules! constants {
    ($($prefix:literal: $module:ident { $($name:ident)* })*) => {
        [$($((
            concat!("VSMD_", $prefix, "_", stringify!($name)),
            bytes::$module::$name as u64
        )),*),*]
    };
}

/// The same of this crate.
fn of_wrapper() -> BTreeMap<String, u64> {
    let of_bytes = constants! {
        "BLOCK": block {
            LEN AT_COMMAND AT_OPTIONS AT_STATUS AT_ERROR AT_CYLINDER AT_HEAD AT_SECTOR AT_LOGICAL
            AT_COUNT AT_ADDRESS AT_MEMORY_TYPE AT_MODIFIER AT_LEVEL AT_NORMAL_VECTOR
            AT_ERROR_VECTOR AT_LINK AT_LINK_MEMORY_TYPE AT_LINK_MODIFIER AT_SKEW AT_ELEMENTS
            AT_SPARE_CYLINDER AT_SPARE_HEAD AT_LAST_FORMATTED AT_FORMATTED AT_IDENTITY
        }
        "COMMAND": command {
            READ WRITE MAP_TRACK HANDSHAKE INITIALIZE RESTORE SEEK FORMAT SCATTER GATHER
        }
        "OPTION": option { UN VO LK XL RV DE IE EC }
        "STATUS": status { OK IN_PROGRESS FAILED }
        "ELEMENT": element { LEN AT_COUNT AT_ADDRESS AT_MEMORY_TYPE AT_MODIFIER }
        "UIB": uib {
            LEN AT_VOLUME0_START_HEAD AT_VOLUME0_HEADS AT_VOLUME1_START_HEAD AT_VOLUME1_HEADS
            AT_SECTORS_A_TRACK AT_SKEW AT_BYTES_A_SECTOR AT_GAP1 AT_GAP2 AT_INTERLEAVE AT_RETRIES
            AT_CYLINDERS AT_ATTRIBUTES AT_EXTENDED AT_CHANGE_LEVEL AT_CHANGE_VECTOR
            INCREMENT_BY_HEAD
        }
        "RECORD": record {
            LEN LEN_V1 AT_VERSION AT_INITIALIZED AT_LENGTH AT_CYLINDERS AT_SECTORS_A_TRACK
            AT_BYTES_A_SECTOR AT_VOLUME0_START_HEAD AT_VOLUME0_HEADS AT_VOLUME1_START_HEAD
            AT_VOLUME1_HEADS AT_CYLINDER AT_ORDER AT_HOLDER AT_PAIRS AT_TABLE
        }
        "ORDER": order { BY_HEAD BY_CYLINDER }
        "HOLDER": holder { NONE FIRST SECOND }
        "PAIR": pair { LEN AT_BAD AT_SPARE }
        "TRACK": track { AT_CYLINDER AT_HEAD AT_LAST }
        "OUTCOME": outcome { LEN AT_VERSION AT_LENGTH AT_ANSWER AT_FAILED AT_BLOCKS AT_SECTORS }
        "STEPPED": stepped { LEN AT_VERSION AT_LENGTH AT_ANSWER AT_FOLLOW AT_SECTORS AT_LINK }
        "EVENT": event { LEN AT_STATUS AT_ERROR AT_LEVEL AT_VECTOR AT_TRAVEL }
    };
    let others = [
        ("VSMD_IDENTITY_LEN", bytes::IDENTITY_LEN as u64),
        ("VSMD_ELEMENTS_MOST", bytes::ELEMENTS_MOST as u64),
        ("VSMD_LAYOUT_VERSION", vsmd3200::LAYOUT_VERSION.into()),
        ("VSMD_PAIRS_MOST", vsmd3200::PAIRS_MOST as u64),
        ("VSMD_EVENTS_LEN_LEAST", vsmd3200::EVENTS_LEN_LEAST as u64),
        ("VSMD_ALLOWANCE_MOST", vsmd3200::ALLOWANCE_MOST.into()),
        ("VSMD_STACK_MOST", vsmd3200::STACK_MOST as u64),
        ("VSMD_STEP_STACK_MOST", vsmd3200::STEP_STACK_MOST as u64),
        ("VSMD_CONTROLLER_FIRST", Controller::First.number().into()),
        ("VSMD_CONTROLLER_SECOND", Controller::Second.number().into()),
    ];
    let named = of_bytes.into_iter().chain(others);
    let named = named.map(|(name, value)| (name.to_string(), value));
    let runs = RunAnswer::ALL.map(|answer| (name_of(answer), answer.number().into()));
    let blocks = BlockAnswer::ALL.map(|answer| (name_of(answer), answer.number().into()));
    let refused = RefusedCall::ALL.map(|refused| (name_of(refused), refused.number().into()));
    let parts = ["MAJOR", "MINOR", "PATCH"]
        .into_iter()
        .zip(VERSION.split('.'));
    let version = parts.map(|(part, n)| (format!("VSMD_VERSION_{part}"), n.parse().unwrap()));
    let answers = runs.into_iter().chain(blocks).chain(refused);
    named.chain(answers).chain(version).collect()
}

/// A row of a table of docs/LAYOUTS.md that names a constant: its number, what it is, its name.
fn of_page() -> Vec<(u64, String, String)> {
    let page = text_of("docs/LAYOUTS.md");
    let (mut rows, mut radix) = (Vec::new(), 10);
    for line in page.lines() {
        let cells: Vec<&str> = line.split('|').map(str::trim).collect();
        let ["", number, what, name, ""] = cells[..] else {
            continue;
        };
        if name == "Name" {
            radix = if number == "Hex" { 16 } else { 10 };
        } else if let Some(name) = name.strip_prefix("`VSMD_") {
            let end = number.find(|c: char| !c.is_digit(radix));
            let number = &number[..end.unwrap_or(number.len())];
            let number = u64::from_str_radix(number, radix).unwrap_or_else(|_| panic!("{line}"));
            let name = format!("VSMD_{}", name.trim_end_matches('`'));
            rows.push((number, what.to_string(), name));
        }
    }
    rows
}

#[test]
fn constants_are_the_headers() {
    assert_eq!(of_wrapper(), *OF_HEADER);
}

#[test]
fn the_page_of_layouts_has_each_constant_once() {
    let rows = of_page();
    let page: BTreeMap<String, u64> = rows
        .iter()
        .map(|(number, _, name)| (name.clone(), *number))
        .collect();
    let mut header = OF_HEADER.clone();
    header.retain(|name, _| !name.starts_with("VSMD_VERSION_"));
    assert_eq!(page, header);
    assert_eq!(rows.len(), page.len(), "a name stands in two rows");
}

/// Every number that a byte can be, those of refused calls, and some that share a low byte with an
/// answer.
#[test]
fn texts_are_the_headers() {
    let codes: Vec<u32> = (0..=0x200).chain([0x10A, 0x1_000A, u32::MAX]).collect();
    let prints: String = codes
        .iter()
        .map(|code| format!("    puts(vsmd_answer_text({code}u));\n"))
        .collect();
    let program = format!("int main(void)\n{{\n{prints}    return 0;\n}}\n");
    let texts: Vec<&str> = codes.iter().map(|&code| answer_text(code)).collect();
    assert_eq!(printed("texts", &program), texts);
}

#[test]
fn an_answer_is_displayed_by_its_text() {
    let runs = RunAnswer::ALL.map(|answer| (u32::from(answer.number()), answer.to_string()));
    let blocks = BlockAnswer::ALL.map(|answer| (u32::from(answer.number()), answer.to_string()));
    let refused = RefusedCall::ALL.map(|refused| (refused.number(), refused.to_string()));
    let texts: BTreeMap<u32, String> = runs.into_iter().chain(blocks).chain(refused).collect();
    let none = answer_text(u32::MAX);
    for code in 0..=0x200 {
        let text = texts.get(&code).map_or(none, String::as_str);
        assert_eq!(answer_text(code), text);
    }
    // a step is refused by a number that is there already
    for refused in StepRefused::ALL {
        assert!(texts.contains_key(&refused.number()));
        assert_eq!(StepRefused::from_number(refused.number()), Some(refused));
        assert_eq!(refused.to_string(), refused.text());
    }
    let entry = StepRefused::EntryShort;
    assert_eq!(answer_text(entry.number()), entry.text());
    // no two answers in the same words
    let mut words: Vec<&String> = texts.values().collect();
    words.sort();
    words.dedup();
    assert_eq!(words.len(), texts.len());
    assert_eq!(format!("{:>8.4}|", RunAnswer::Done), "    the |");
}

#[test]
fn the_page_of_layouts_has_each_text() {
    let answers = RunAnswer::ALL.map(name_of).into_iter();
    let answers = answers.chain(BlockAnswer::ALL.map(name_of));
    let answers: Vec<String> = answers.chain(RefusedCall::ALL.map(name_of)).collect();
    let rows = of_page().into_iter();
    let rows = rows.filter(|(_, _, name)| answers.contains(name));
    for (number, text, name) in rows {
        assert_eq!(answer_text(number as u32), text, "{name}");
    }
}

#[test]
fn event_entries_are_read_as_the_header_reads_them() {
    let travels = [0i32, 1, -1, 258, -4_095, 4_095, i32::MAX, i32::MIN];
    let entries: Vec<[u8; 8]> = travels
        .iter()
        .zip(0u8..)
        .map(|(travel, k)| {
            let [t0, t1, t2, t3] = travel.to_be_bytes();
            [0x80 + k, k, 0xF0 + k, 0xE0 - k, t0, t1, t2, t3]
        })
        .collect();
    let array: String = entries.concat().iter().map(|b| format!("{b}, ")).collect();
    let program = format!(
        r#"
static const uint8_t events[] = {{{array}}};
int main(void)
{{
    size_t k;
    for (k = 0; k < sizeof events / VSMD_EVENT_LEN; k++) {{
        const uint8_t *entry = vsmd_event_entry(events, k);
        printf("%u %u ", vsmd_event_status(entry), vsmd_event_error(entry));
        printf("%u %u ", vsmd_event_level(entry), vsmd_event_vector(entry));
        printf("%ld\n", (long)vsmd_event_travel(entry));
    }}
    return 0;
}}
"#
    );
    let lines = entries.iter().map(|entry| {
        let event = Event::from_bytes(entry);
        let Event {
            status,
            error,
            level,
            vector,
            travel,
        } = event;
        assert_eq!(event.succeeded(), status == 0x80);
        format!("{status} {error} {level} {vector} {travel}")
    });
    assert_eq!(printed("events", &program), lines.collect::<Vec<_>>());
    let read: Vec<i32> = entries
        .iter()
        .map(|e| Event::from_bytes(e).travel)
        .collect();
    assert_eq!(read, travels);
}

#[test]
fn what_a_step_leaves_is_read_as_the_header_reads_it() {
    let left: [[u8; 16]; 4] = [
        [2, 0, 0, 16, 0, 1, 0, 0, 0, 0, 0, 2, 0, 0, 0, 40],
        [2, 0, 0, 16, 20, 0, 0, 0, 0, 1, 0, 3, 0x80, 0, 0, 1],
        [2, 0, 0, 16, 24, 0, 0, 0, 0, 0, 0, 0, 0xFF, 0xFF, 0xFF, 0xFE],
        [2, 0, 0, 16, 0, 0, 0, 0, 0xFF, 0xFE, 0xFD, 0xFC, 1, 2, 3, 4],
    ];
    let array: String = left.concat().iter().map(|b| format!("{b}, ")).collect();
    let program = format!(
        r#"
static const uint8_t left[] = {{{array}}};
int main(void)
{{
    size_t k;
    for (k = 0; k < sizeof left; k += VSMD_STEPPED_LEN) {{
        const uint8_t *stepped = left + k;
        printf("%u %d ", vsmd_stepped_answer(stepped), vsmd_stepped_follow(stepped));
        printf("%lu ", (unsigned long)vsmd_stepped_sectors(stepped));
        printf("%lu\n", (unsigned long)vsmd_stepped_link(stepped));
    }}
    return 0;
}}
"#
    );
    let lines = left.iter().map(|bytes| {
        let stepped = Stepped::from_bytes(bytes).unwrap();
        let answer = stepped.answer.map_or(0, BlockAnswer::number);
        let follow = u8::from(stepped.follow);
        format!("{answer} {follow} {} {}", stepped.sectors, stepped.link)
    });
    assert_eq!(printed("stepped", &program), lines.collect::<Vec<_>>());
    // bytes that no step of this version leaves
    for (at, byte) in [
        (0, 1),
        (1, 1),
        (2, 1),
        (3, 12),
        (4, 9),
        (4, 21),
        (4, 25),
        (5, 2),
        (6, 1),
    ] {
        let mut other = left[0];
        other[at] = byte;
        assert_eq!(Stepped::from_bytes(&other), None);
    }
}

/// The program has functions of its own in the place of the library's, so that a library of other
/// layouts can be had.
#[test]
fn the_header_stores_words_and_tells_layouts_apart() {
    let program = r#"
static uint32_t version = VSMD_LAYOUT_VERSION;
static uint64_t record = VSMD_RECORD_LEN, outcome = VSMD_OUTCOME_LEN;

uint32_t vsmd_layout_version(void)
{
    return version;
}

uint64_t vsmd_record_len(void)
{
    return record;
}

uint64_t vsmd_outcome_len(void)
{
    return outcome;
}

int main(void)
{
    const uint8_t said[VSMD_OUTCOME_LEN] = {2, 0, 0, 16, 4, 20, 0, 0, 0, 0, 0, 3, 0, 1, 0, 0};
    uint8_t word[4];
    vsmd_put32(word, 0x0180FF02u);
    printf("%02X %02X %02X %02X\n", word[0], word[1], word[2], word[3]);
    printf("%lX\n", (unsigned long)vsmd_get32(word));
    printf("%u %u\n", vsmd_outcome_answer(said), vsmd_outcome_failed(said));
    printf("%lu\n", (unsigned long)vsmd_outcome_blocks(said));
    printf("%d\n", vsmd_layouts_match());
    version = 1;
    printf("%d\n", vsmd_layouts_match());
    version = VSMD_LAYOUT_VERSION;
    record = VSMD_RECORD_LEN_V1;
    printf("%d\n", vsmd_layouts_match());
    record = VSMD_RECORD_LEN;
    outcome++;
    printf("%d\n", vsmd_layouts_match());
    printf("%d\n", vsmd_no_image() != NULL && vsmd_no_image() == vsmd_no_image());
    return 0;
}
"#;
    let words = ["01 80 FF 02", "180FF02", "4 20", "3"];
    let lines = words.into_iter().chain(["1", "0", "0", "0", "1"]);
    assert_eq!(printed("words", program), lines.collect::<Vec<_>>());
    // The library tells no length of a step: it is that of an outcome, and a header with another
    // matches no library.
    let header = text_of("include/vsmd3200.h");
    let longer = header.replace("VSMD_STEPPED_LEN 16u", "VSMD_STEPPED_LEN 20u");
    assert_ne!(longer, header);
    let lines = words.into_iter().chain(["0", "0", "0", "0", "1"]);
    let printed = printed_with("longer_step", &longer, program);
    assert_eq!(printed, lines.collect::<Vec<_>>());
    assert!(vsmd3200::layouts_match());
}

/// The newest heading of the changelog that has a number; what is not released stands above it.
#[test]
fn the_version_is_that_of_the_changelog() {
    let changelog = text_of("CHANGELOG.md");
    let mut headings = changelog
        .lines()
        .filter_map(|line| line.strip_prefix("## "));
    let newest = headings.find(|heading| heading.starts_with(|c: char| c.is_ascii_digit()));
    let newest = newest.and_then(|heading| heading.split(':').next());
    assert_eq!(newest, Some(VERSION));
    let program = "int main(void)\n{\n    puts(VSMD_VERSION);\n    return 0;\n}\n";
    assert_eq!(printed("version", program), [VERSION]);
}

/// It is not linked: the archive may be for another machine than this.
#[test]
fn the_readmes_program_compiles() {
    let readme = text_of("README.md");
    let (_, program) = readme.split_once("```c\n").expect("a program in C");
    let (program, _) = program.split_once("```").unwrap();
    compiled("readme", program, "-c");
}
