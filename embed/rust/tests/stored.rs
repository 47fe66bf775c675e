//! The plans that `tests/programs` holds for the program `plan`, made by this crate.

use std::fs;
use std::path::Path;
use tuzhelar::{CAPPED_WORDS, Refusal, plan};

#[test]
fn the_stored_plans() {
    let programs = Path::new(env!("CARGO_MANIFEST_DIR")).join("../../tests/programs");
    let mut space = vec![0; 2000 * CAPPED_WORDS];
    let mut compared = 0;
    for entry in fs::read_dir(programs.join("plan")).unwrap() {
        let wanted = entry.unwrap().path();
        let name = wanted.file_name().unwrap();
        let sheet = fs::read(programs.join("sheets").join(name)).unwrap();
        let text = match plan(&sheet, &mut space) {
            Ok(planned) => planned.to_string(),
            Err(Refusal::Space { count, .. }) => format!("refused=9\ncount={count}\n"),
            Err(refusal) => format!("refused={}\n", refusal.number()),
        };
        assert_eq!(text, fs::read_to_string(&wanted).unwrap(), "{name:?}");
        compared += 1;
    }
    assert!(compared > 0);
}
