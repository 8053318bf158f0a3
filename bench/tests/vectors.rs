//! Runs every script of the vectors and compares its printout.

use std::fs;
use std::path::Path;

use gussetreed_bench::plain::Plain;
use gussetreed_bench::script;

#[test]
fn printouts() {
    let dir = Path::new(env!("CARGO_MANIFEST_DIR")).join("../crates/vectors/data");
    let mut scripts: Vec<_> = fs::read_dir(&dir)
        .expect("the vectors' directory")
        .map(|entry| entry.unwrap().path())
        .filter(|path| path.extension().is_some_and(|x| x == "bin"))
        .collect();
    scripts.sort();
    assert!(!scripts.is_empty(), "no scripts in {}", dir.display());
    let mut wrong = 0;
    for path in &scripts {
        let expected = fs::read_to_string(path.with_extension("txt")).expect("the printout beside a script");
        let printed = script::run::<Plain>(&fs::read(path).unwrap());
        if printed == expected {
            continue;
        }
        wrong += 1;
        let (mut ours, mut theirs) = (printed.lines(), expected.lines());
        loop {
            let (a, b) = (ours.next(), theirs.next());
            if a != b || a.is_none() {
                eprintln!("{}: printed {a:?}, expected {b:?}", path.display());
                break;
            }
        }
    }
    assert_eq!(wrong, 0, "{wrong} of {} printouts differ", scripts.len());
}
