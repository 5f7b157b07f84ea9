//! The edits of the self test: each fits the reference exactly once, and one
//! that does not is refused loudly.

use std::fs;
use std::path::{Path, PathBuf};

use trials::wrong::{edits, Copy, Edit};

fn here(path: &str) -> PathBuf {
    Path::new(env!("CARGO_MANIFEST_DIR")).join(path)
}

#[test]
fn every_edit_fits_the_reference_exactly_once() {
    let all = ["wrong", "wrong-node", "alike"].map(|folder| edits(&here(folder)).unwrap());
    assert!(all[0].len() >= 30 && all[1].len() >= 30 && !all[2].is_empty());
    let breaking = |edits: &[Edit]| edits.iter().filter(|edit| edit.breaks_demand_3).count();
    assert!(breaking(&all[0]) >= 10 && breaking(&all[1]) >= 10 && breaking(&all[2]) == 0);
    let copy = Copy::new(&here("../reference"), &Path::new(env!("CARGO_TARGET_TMPDIR")).join("fitted"));
    for edit in all.iter().flatten() {
        copy.write(Some(edit)).unwrap();
    }
}

const TEXT: &str = "# It is wrong.\nfile src/judge.rs\nold\n| one\n|     two\nnew\n| three\n";

#[test]
fn an_edit_is_read_and_applied() {
    let edit = Edit::parse("name", TEXT).unwrap();
    assert_eq!((edit.name.as_str(), edit.says.as_str()), ("name", "It is wrong."));
    assert_eq!(edit.apply("zero one\n    two four").unwrap(), "zero three four");
    assert!(!edit.breaks_demand_3);
    let breaking = Edit::parse("name", &TEXT.replace("file", "demand 3\nfile")).unwrap();
    assert!(breaking.breaks_demand_3);
    assert_eq!(breaking.apply("zero one\n    two four").unwrap(), "zero three four");
}

#[test]
fn an_edit_that_fits_nowhere_or_twice_is_refused() {
    let edit = Edit::parse("name", TEXT).unwrap();
    assert!(edit.apply("one two").unwrap_err().contains("0 times"));
    assert!(edit.apply("one\n    two one\n    two").unwrap_err().contains("2 times"));
}

#[test]
fn an_edit_without_its_parts_is_refused() {
    for missing in ["# It is wrong.\n", "file src/judge.rs\n", "old\n| one\n|     two\n", "new\n| three\n"] {
        let text = TEXT.replace(missing, "");
        assert_ne!(text, TEXT);
        assert!(Edit::parse("name", &text).is_err(), "{missing:?}");
    }
    assert!(Edit::parse("name", &format!("{TEXT}nonsense\n")).is_err());
}

#[test]
fn a_file_that_is_no_file_of_the_reference_is_refused() {
    let edit = Edit::parse("name", &TEXT.replace("judge.rs", "nothing.rs")).unwrap();
    let folder = Path::new(env!("CARGO_TARGET_TMPDIR")).join("nowhere");
    let copy = Copy::new(&here("../reference"), &folder);
    assert!(copy.write(Some(&edit)).is_err());
    fs::remove_dir_all(folder).unwrap();
}
