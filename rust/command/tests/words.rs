//! The words of each refusal stand once, in the command: its help has them all, and other pages are held to that.

mod common;

use common::Folder;

/// Number and words of every refusal, from the help.
fn refusals() -> Vec<(u32, String)> {
    let help = Folder::new().run(&["--help"]).out;
    let list = help.split_once("N is one of:\n").expect("the list").1.split_once("\n\n").expect("its end").0.to_string();
    let entry = |line: &str| {
        let (number, words) = line.trim_start().split_once("  ").expect("a number and words");
        (number.parse().expect("a number"), words.to_string())
    };
    list.lines().map(entry).collect()
}

#[test]
fn the_help_has_them() {
    assert_eq!(refusals().iter().map(|refusal| refusal.0).collect::<Vec<_>>(), (1..=18).collect::<Vec<_>>());
}

#[test]
fn the_manual_has_them() {
    let page = Folder::new().run(&["manual"]).out;
    for (number, words) in refusals() {
        assert!(page.contains(&format!("\n.B {number}\n{}.\n", words.replace('-', "\\-"))), "{number}");
    }
}

#[test]
fn the_readme_and_the_header_have_them() {
    let readme = include_str!("../../../README.md");
    // A comment's lines are joined, so that words may stand across two.
    let header = include_str!("../../../include/tallowwing.h").replace("\n *", "").split_whitespace().collect::<Vec<_>>().join(" ");
    for (number, words) in refusals() {
        assert!(readme.contains(&format!("\n| {number} | {words} |\n")), "README: {number}");
        assert!(header.contains(&format!(" {number} {words}")), "header: {number}");
    }
}

#[test]
fn every_subcommand_is_in_the_manual() {
    let page = Folder::new().run(&["manual"]).out;
    let help = Folder::new().run(&["-h"]).out;
    let list = help.split_once("Commands:\n").expect("the list").1.split_once("\n\n").expect("its end").0;
    let names: Vec<&str> = list.lines().map(|line| line.split_whitespace().next().expect("a name")).collect();
    assert_eq!(names.len(), 11, "{names:?}");
    for name in names {
        assert!(page.contains(&format!(".B tallowwing {name}\n")), "{name}");
    }
}
