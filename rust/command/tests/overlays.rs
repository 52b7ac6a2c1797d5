//! A SOC text with an overlay on it: the combined description, the lines of a module as they stand, and every refusal.

mod common;

use common::{Folder, T1};

/// Module 1 with a chain of 20, in a spacing of its own.
const OVERLAY: &str = "Overlay t1\r\nOptions Power 0 XY 0\r\n  Module 1 Level 1 Inputs 0 Outputs 0 Bidirs 0 ScanChains 1 : 20\r\n\n\
    Module\t1 TotalTests 1 \nModule 1 Test 1 ScanUse 1 TamUse 1 Patterns 5 ";

fn pair() -> Folder {
    let folder = Folder::holding("t1.soc", T1);
    folder.put("late.overlay", OVERLAY);
    folder.put("both.soc", T1.replace("ScanChains 1 : 10", "ScanChains 1 : 20"));
    folder
}

#[test]
fn an_overlay_takes_the_place_of_its_modules() {
    let folder = pair();
    let both = folder.run(&["soc", "both.soc"]).out;
    folder.run(&["overlay", "t1.soc", "late.overlay"]).done(&both);
    for words in [&["plan", "4", "2"][..], &["time", "1", "3"], &["layout", "1", "1", "2"]] {
        let alone = folder.run(&[&words[..1], &["both.soc"], &words[1..]].concat()).out;
        folder.run(&[&words[..1], &["t1.soc"], &words[1..], &["--overlay", "late.overlay"]].concat()).done(&alone);
    }
}

#[test]
fn lines_are_shown_as_they_stand() {
    let folder = pair();
    let part = OVERLAY[OVERLAY.find("Module").expect("a block")..].trim_end();
    folder.run(&["lines", "t1.soc", "late.overlay", "1"]).done(part);
    folder
        .run(&["lines", "t1.soc", "late.overlay", "0"])
        .done("Module 0 Level 0 Inputs 0 Outputs 0 Bidirs 0 ScanChains 0 :\nModule 0 TotalTests 0");
}

#[test]
fn a_refusal_of_a_pair_names_the_text_that_is_meant() {
    let folder = pair();
    let refused = |words: &[&str]| folder.run(words).out;
    assert_eq!(refused(&["overlay", "late.overlay", "late.overlay"]), "refused 3 line 1 base\n");
    assert_eq!(refused(&["overlay", "t1.soc", "t1.soc"]), "refused 3 line 1 overlay\n");
    assert_eq!(refused(&["lines", "t1.soc", "late.overlay", "3"]), "refused 13 line 0\n");
    folder.put("late.overlay", OVERLAY.replace("XY 0", "XY 1"));
    assert_eq!(refused(&["overlay", "t1.soc", "late.overlay"]), "refused 15 line 0 overlay\n");
    assert_eq!(
        refused(&["plan", "t1.soc", "4", "2", "--json", "--overlay", "late.overlay"]),
        "{\"refused\":15,\"line\":0,\"text\":\"overlay\"}\n"
    );
}

#[test]
fn what_is_refused_of_an_accepted_pair_names_no_text() {
    let folder = pair();
    let with = |words: &[&str]| folder.run(&[words, &["--overlay", "late.overlay"]].concat());
    assert_eq!(with(&["plan", "t1.soc", "0", "2"]).out, "refused 7 line 0\n");
    assert_eq!(with(&["write", "t1.soc", "4", "4", "x.plan"]).out, "refused 8 line 0\n");
    assert_eq!(with(&["time", "t1.soc", "1", "65"]).out, "refused 7 line 0\n");
    let layout = with(&["layout", "t1.soc", "1", "2", "3"]);
    assert_eq!(layout.out, "refused 13 line 0\n");
    assert!(layout.err.contains("the tests of module 1 are 1 to 1"), "{}", layout.err);
    let lines = folder.run(&["lines", "t1.soc", "late.overlay", "3"]);
    assert!(lines.err.contains("the modules are 0 to 2"), "{}", lines.err);
}

#[test]
fn the_plan_file_of_a_pair_is_that_of_the_combined_text() {
    let folder = pair();
    folder.run(&["write", "t1.soc", "4", "2", "pair.plan", "--overlay", "late.overlay"]).done("");
    folder.run(&["write", "both.soc", "4", "2", "both.plan"]).done("");
    assert_eq!(folder.run(&["show", "pair.plan"]).out, folder.run(&["show", "both.plan"]).out);
}

/// Lines of one module without chains and tests.
fn block(module: usize, level: usize) -> String {
    format!("Module {module} Level {level} Inputs 0 Outputs 0 Bidirs 0 ScanChains 0 :\nModule {module} TotalTests 0\n")
}

/// The same with a test that has TamUse 1.
fn on_tam(block: &str) -> String {
    let module = block.split(' ').nth(1).expect("its number");
    format!("{}Module {module} Test 1 ScanUse 0 TamUse 1 Patterns 1\n", block.replace("TotalTests 0", "TotalTests 1"))
}

/// A SOC text of n modules.
fn text(modules: usize) -> String {
    let blocks: String = (0..modules).map(|module| block(module, usize::from(module > 0))).collect();
    format!("SocName wide\nTotalModules {modules}\nOptions Power 0 XY 0\n{blocks}")
}

const HEAD: &str = "Overlay wide\nOptions Power 0 XY 0\n";

/// What an overlay on a SOC text of n modules prints.
fn printed(modules: usize, overlay: &str) -> String {
    let folder = Folder::holding("wide.soc", text(modules));
    folder.put("late.overlay", overlay);
    folder.run(&["overlay", "wide.soc", "late.overlay"]).out
}

#[test]
fn one_block_with_number_39_and_40_blocks() {
    assert_eq!(printed(40, &format!("{HEAD}{}", block(39, 1))), text(40));
    let all = text(40);
    assert_eq!(printed(40, &format!("{HEAD}{}", &all[all.find("Module 0").expect("its modules")..])), all);
}

#[test]
fn every_refusal_of_an_overlay() {
    let (one, two) = (block(1, 1), block(2, 1));
    let long = format!("{HEAD}{one}{}", "\n".repeat(61_440));
    let cases = [
        (long, "1 line 0"),
        (format!("{HEAD}{one}\u{7}"), "2 line 5"),
        (format!("SocName wide\n{one}"), "3 line 1"),
        ("Overlay\n".to_string(), "3 line 1"),
        (format!("Overlay wide\nTotalModules 3\n{one}"), "3 line 2"),
        (format!("{HEAD}{one}Options Power 0 XY 0\n"), "3 line 5"),
        (format!("{HEAD}{}", block(40, 1)), "4 line 3"),
        (format!("{HEAD}{}", block(1, 41)), "4 line 3"),
        (format!("{HEAD}{}", one.replace("Module 1 TotalTests", "Module 40 TotalTests")), "5 line 4"),
        (format!("{HEAD}{two}{one}"), "5 line 5"),
        (format!("{HEAD}{one}\n\n{one}"), "5 line 7"),
        (HEAD.to_string(), "6 line 0"),
        ("Overlay wide\n".to_string(), "6 line 0"),
        (format!("{HEAD}{}", &one[..one.find('\n').expect("a line")]), "6 line 0"),
        (format!("{HEAD}{}", on_tam(&block(0, 0))), "17 line 5"),
        (format!("{}{}", HEAD.replace("wide", "wides"), on_tam(&block(0, 40))), "17 line 5"),
        (format!("{}{one}", HEAD.replace("wide", "wides")), "15 line 0"),
        (format!("{}{one}", HEAD.replace("XY 0", "XY 1")), "15 line 0"),
        (format!("{}{one}", HEAD.replace("Power 0", "Power 1")), "15 line 0"),
        (format!("{HEAD}{}", block(3, 1)), "15 line 0"),
        (format!("{HEAD}{}", block(1, 2)), "15 line 0"),
        (format!("{HEAD}{}", block(0, 40)), "15 line 0"),
    ];
    for (overlay, refusal) in cases {
        assert_eq!(printed(3, &overlay), format!("refused {refusal} overlay\n"), "{}", &overlay[..overlay.len().min(200)]);
    }
}

#[test]
fn the_base_is_judged_first() {
    let folder = Folder::holding("wide.soc", text(3).replace("Level 0", "Level 41"));
    folder.put("late.overlay", "Overlay\n");
    assert_eq!(folder.run(&["overlay", "wide.soc", "late.overlay"]).out, "refused 4 line 4 base\n");
}

#[test]
fn the_example_changes_two_cores_of_d695() {
    let (base, overlay) = (include_str!("../../../examples/d695.soc"), include_str!("../../../examples/d695.overlay"));
    let folder = Folder::holding("d695.soc", base);
    folder.put("d695.overlay", overlay);
    let (before, after) = (folder.run(&["soc", "d695.soc"]).out, folder.run(&["overlay", "d695.soc", "d695.overlay"]).out);
    let changed: Vec<(&str, &str)> = before.lines().zip(after.lines()).filter(|(before, after)| before != after).collect();
    assert_eq!(changed.iter().map(|(before, _)| &before[..9]).collect::<Vec<_>>(), ["Module 5 ", "Module 9 "]);
    folder.put("both.soc", &after);
    let alone = folder.run(&["plan", "both.soc", "32", "3"]).out;
    folder.run(&["plan", "d695.soc", "32", "3", "--overlay", "d695.overlay"]).done(&alone);
    folder
        .run(&["lines", "d695.soc", "d695.overlay", "5"])
        .done(overlay[overlay.find("Module 5").expect("it")..overlay.find("\n\tModule  9").expect("it")].trim_end());
}
