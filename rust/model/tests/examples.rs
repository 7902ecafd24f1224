//! Every example prints, by this reading of the paper, the lines that stand beside it. The session
//! program plays the same examples; here it takes no part.

use std::fs;
use std::path::Path;

#[test]
fn examples_print_their_lines() {
    let folder = Path::new(env!("CARGO_MANIFEST_DIR")).join("../../examples");
    let mut played = 0;
    for entry in fs::read_dir(folder).expect("the examples") {
        let example = entry.expect("an example").path();
        if !example.join("session.txt").is_file() {
            continue; // firmware, which is no session
        }
        let text = fs::read_to_string(example.join("session.txt")).expect("its text");
        let expected = fs::read(example.join("expected")).expect("its lines");
        let input = spell::to_session(&text).expect("a sound text");
        assert_eq!(model::session(&input), expected, "{}", example.display());
        played += 1;
    }
    assert!(played > 0);
}
