//! The comparison must be able to fail: wrong answers are put to it, and it has to catch each.

use std::process::Command;

fn differential(words: &[&str]) -> (Option<i32>, String) {
    let output = Command::new(env!("CARGO_BIN_EXE_differential")).args(words).output().expect("differential runs");
    (output.status.code(), String::from_utf8_lossy(&output.stdout).into_owned())
}

#[test]
fn every_lie_is_caught() {
    let (status, told) = differential(&["--self-test"]);
    assert_eq!(status, Some(0), "{told}");
    assert!(told.contains("all caught"), "{told}");
}

#[test]
fn a_self_test_without_cases_fails() {
    let (status, told) = differential(&["--self-test", "--cases", "0"]);
    assert_eq!(status, Some(1), "{told}");
    assert!(told.contains("was never told"), "{told}");
}

#[test]
fn the_library_passes_a_short_run() {
    let (status, told) = differential(&["--cases", "2000", "--seed", "1"]);
    assert_eq!(status, Some(0), "{told}");
    assert!(told.contains("no difference"), "{told}");
}

#[test]
fn a_wrong_call_is_told() {
    for words in [&["--cases"][..], &["--cases", "x"], &["more"]] {
        assert_eq!(differential(words).0, Some(2));
    }
}
