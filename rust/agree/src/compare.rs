//! What two sides leave of a case, compared byte for byte.

use crate::case::Case;
use crate::sides::Left;

/// What differs, a line each; nothing where they agree.
pub fn differences(case: &Case, library: &Left, model: &Left) -> Vec<String> {
    let mut lines = Vec::new();
    if library.outcome != model.outcome {
        lines.push(format!(
            "outcome: library {:?}, model {:?}",
            library.outcome, model.outcome
        ));
    }
    let buffers: [(&str, &[u8], &[u8]); 6] = [
        ("record 0", &library.records[0], &model.records[0]),
        ("record 1", &library.records[1], &model.records[1]),
        ("host memory", &library.host, &model.host),
        ("image 0", &library.images[0], &model.images[0]),
        ("image 1", &library.images[1], &model.images[1]),
        ("events", &library.events, &model.events),
    ];
    for (what, library, model) in buffers {
        bytes(what, ["library", "model"], library, model, &mut lines);
    }
    for (k, asked) in case.inspections.iter().enumerate() {
        if library.parts[k] != model.parts[k] {
            lines.push(format!(
                "inspection of unit {} place {} with lengths {:?}: library {:?}, model {:?}",
                asked.unit, asked.place, asked.image_lens, library.parts[k], model.parts[k]
            ));
        }
    }
    if let Some(buffer) = library.outside {
        lines.push(format!("the library changed bytes next to {}", buffer));
    }
    lines
}

/// The same of what the records that are left tell of sectors. It is asked apart, so that a fault of the
/// model's rules has to be seen in what a run leaves.
pub fn told_differently(library: &Left, model: &Left) -> Vec<String> {
    let both = library.told.iter().zip(&model.told);
    let differ = both.filter(|(library, model)| library != model);
    differ
        .map(|(library, model)| format!("standing: library {:?}, model {:?}", library, model))
        .collect()
}

/// Adds a line where two buffers differ; the sides are named in it.
pub fn bytes(what: &str, sides: [&str; 2], one: &[u8], other: &[u8], lines: &mut Vec<String>) {
    if one == other {
        return;
    }
    let differ = |k: &usize| one.get(*k) != other.get(*k);
    let longer = one.len().max(other.len());
    let count = (0..longer).filter(differ).count();
    let first = (0..longer).find(differ).unwrap_or(0);
    let some = |bytes: &[u8]| {
        let from = first.min(bytes.len());
        let to = (first + 8).min(bytes.len());
        format!("{:02x?}", &bytes[from..to])
    };
    lines.push(format!(
        "{}: {} bytes differ, from {:#x} on: {} {}, {} {}",
        what,
        count,
        first,
        sides[0],
        some(one),
        sides[1],
        some(other)
    ));
}
