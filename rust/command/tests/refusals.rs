//! Each refusal: the line on standard output, the words on standard error, status 1.

mod common;

use common::{Folder, Ran, T1};

/// The words of refusal 8.
const LIMIT: &str = "the limit of buses is not from 1 to 3, or to 8 for the planner with a spending limit";

/// The subcommands that read a SOC text, with numbers that are all right.
const READERS: [&[&str]; 6] = [
    &["plan", "x.soc", "4", "2"],
    &["budget", "x.soc", "4", "2", "9"],
    &["soc", "x.soc"],
    &["layout", "x.soc", "1", "1", "4"],
    &["time", "x.soc", "1", "4"],
    &["write", "x.soc", "4", "2", "x.plan"],
];

#[track_caller]
fn text_is_refused(text: &str, number: u32, line: u32, words: &str, beneath: &str) {
    let folder = Folder::holding("x.soc", text);
    let place = if line == 0 { "x.soc".to_string() } else { format!("x.soc:{line}") };
    for call in READERS {
        folder.run(call).refused(number, line, &format!("{place}: {words}"), beneath);
        assert_eq!(folder.names(), ["x.soc"]);
    }
}

#[test]
fn refusal_1() {
    text_is_refused(&format!("{T1}{}", "\n".repeat(61_441 - T1.len())), 1, 0, "the text is longer than 61,440 bytes", "");
    text_is_refused(&"\n".repeat(1_000_000), 1, 0, "the text is longer than 61,440 bytes", "");
}

#[test]
fn refusal_1_without_reading_to_the_end() {
    // A standard input that never ends.
    let folder = Folder::new();
    let endless = std::fs::File::open("/dev/zero").unwrap();
    let output = common::command(&["plan", "-", "4", "2"]).current_dir(&folder.0).stdin(endless).output().unwrap();
    Ran::of(output).refused(1, 0, "-: the text is longer than 61,440 bytes", "");
    folder.run(&["soc", "/dev/zero"]).refused(1, 0, "/dev/zero: the text is longer than 61,440 bytes", "");
    folder.run(&["show", "/dev/zero"]).refused(12, 0, "/dev/zero: this is not a good plan file or plan record", "");
}

#[test]
fn refusal_2() {
    let words = "a byte is none of tab, LF, CR before LF, or 32 to 126";
    text_is_refused(&T1.replace("t1", "t\u{7f}"), 2, 1, words, " 1 | SocName t\\x7f\n   |          ^\n");
    text_is_refused(&format!("{T1}\r"), 2, 12, words, " 12 | \\r\n    | ^\n");
}

#[test]
fn refusal_3() {
    let words = "a wrong keyword, 0/1 flag, name or form, too few or too many fields, or a line after the last one due";
    text_is_refused(&T1.replace("Power 0", "Power\t2"), 3, 3, words, " 3 | Options Power\\t2 XY 0\n");
    text_is_refused(&format!("{T1}{T1}"), 3, 12, words, " 12 | SocName t1\n");
}

#[test]
fn refusal_4() {
    let words = |known: &str| format!("a number is not decimal or is outside its limit: {known}");
    let line = " 6 | Module 1 Level 1 Inputs 0 Outputs 0 Bidirs 0 ScanChains 1 : 4097\n";
    let mark = format!("   | {}^\n", " ".repeat(line.find("4097").unwrap() - 5));
    text_is_refused(&T1.replace(": 10", ": 4097"), 4, 6, &words("4097 is not from 1 to 4,096"), &format!("{line}{mark}"));
    let beneath = " 2 | TotalModules 03\n   |              ^\n";
    text_is_refused(&T1.replace("TotalModules 3", "TotalModules 03"), 4, 2, &words("03 is not from 1 to 40"), beneath);
}

#[test]
fn a_long_line_is_cut_where_no_terminal_is() {
    let words = "a wrong keyword, 0/1 flag, name or form, too few or too many fields, or a line after the last one due";
    let long = format!("TotalModules 3 {}", "9".repeat(500));
    let shown = format!(" 2 | TotalModules 3 {}..\n", "9".repeat(120 - 5 - 2 - "TotalModules 3 ".len()));
    text_is_refused(&T1.replace("TotalModules 3", &long), 3, 2, words, &shown);
}

#[test]
fn refusal_5() {
    let words = "a module or test number, a level or an X/Y pair breaks its rule";
    let line = " 9 | Module 3 Level 1 Inputs 3 Outputs 2 Bidirs 0 ScanChains 0 :\n";
    text_is_refused(&T1.replace("Module 2 Level", "Module 3 Level"), 5, 9, words, line);
}

#[test]
fn refusal_6() {
    text_is_refused("", 6, 0, "the text ends while lines are still due", "");
    text_is_refused(T1.trim_end().rsplit_once('\n').unwrap().0, 6, 0, "the text ends while lines are still due", "");
}

#[test]
fn refusals_of_w_and_b_as_words() {
    let folder = Folder::holding("x.soc", T1);
    let words = "a number is not decimal or is outside its limit: 0 to 4,294,967,295";
    let calls = |w: &str, b: &str| [folder.run(&["plan", "x.soc", w, b]), folder.run(&["write", "x.soc", w, b, "x.plan"])];
    for (w, b, named) in [
        ("x", "2", "W x"),
        ("-1", "2", "W -1"),
        ("4", "--x", "B --x"),
        ("04", "x", "W 04"),
        ("4", "4294967296", "B 4294967296"),
        ("4.0", "2", "W 4.0"),
        ("é", "2", "W \\xc3\\xa9"),
        ("1000000000000000000000000", "2", "W 1000000000000000000000000"),
    ] {
        for ran in calls(w, b) {
            ran.refused(4, 0, &format!("{named}: {words}"), "");
        }
    }
    assert_eq!(folder.names(), ["x.soc"]);
}

#[test]
fn words_are_refused_before_the_text() {
    let folder = Folder::holding("x.soc", "no SOC text");
    for call in [&["plan", "x.soc", "x", "2"][..], &["write", "x.soc", "x", "2", "x.plan"]] {
        folder.run(call).refused(4, 0, "W x: a number is not decimal or is outside its limit: 0 to 4,294,967,295", "");
    }
}

#[test]
fn refusals_7_and_8() {
    let folder = Folder::holding("x.soc", T1);
    let (wires, limit) = ("the number of wires is not from 1 to 64", LIMIT);
    for w in ["0", "65", "4294967295"] {
        for call in [&["plan", "x.soc", w, "9"][..], &["write", "x.soc", w, "9", "x.plan"]] {
            folder.run(call).refused(7, 0, &format!("W {w}: {wires}"), "");
        }
        for call in [&["layout", "x.soc", "9", "9", w][..], &["time", "x.soc", "9", w]] {
            folder.run(call).refused(7, 0, &format!("WIDTH {w}: {wires}"), "");
        }
    }
    for b in ["0", "4", "4294967295"] {
        for call in [&["plan", "x.soc", "64", b][..], &["write", "x.soc", "64", b, "x.plan"]] {
            folder.run(call).refused(8, 0, &format!("B {b}: {limit}"), "");
        }
    }
    assert_eq!(folder.names(), ["x.soc"]);
}

#[test]
fn refusal_9() {
    let folder = Folder::holding("x.soc", T1.replace("TamUse 1", "TamUse 0"));
    for call in [&["plan", "x.soc", "4", "2"][..], &["write", "x.soc", "4", "2", "x.plan"]] {
        folder.run(call).refused(9, 0, "x.soc: no module is planned: none has a test with TamUse 1", "");
    }
}

#[test]
fn refusal_10() {
    let module = |m: usize| {
        let (level, tam_use) = (m.min(1), m.min(1));
        format!(
            "Module {m} Level {level} Inputs 1 Outputs 0 Bidirs 0 ScanChains 0 :\nModule {m} TotalTests 2\n\
             Module {m} Test 1 ScanUse 0 TamUse 0 Patterns 1\nModule {m} Test 2 ScanUse 0 TamUse {tam_use} Patterns 1\n"
        )
    };
    let text = |planned: usize| {
        let modules: String = (0..=planned).map(module).collect();
        format!("SocName n\nTotalModules {}\nOptions Power 0 XY 0\n{modules}", planned + 1)
    };
    let folder = Folder::holding("x.soc", text(13));
    folder.put("twelve.soc", text(12));
    for call in [&["plan", "x.soc", "4", "2"][..], &["write", "x.soc", "4", "2", "x.plan"]] {
        folder.run(call).refused(10, 0, "x.soc: more than 12 modules are planned: 13", "");
    }
    assert_eq!(folder.run(&["plan", "twelve.soc", "4", "2"]).status, Some(0));
    // The planner with a spending limit takes them all.
    let met = folder.run(&["budget", "x.soc", "4", "2", "13"]);
    assert_eq!((met.status, met.out.lines().take(2).collect::<Vec<_>>()), (Some(0), vec!["unfinished", "tries 13"]));
}

#[test]
fn refusal_12() {
    let folder = Folder::holding("t1.soc", T1);
    folder.run(&["write", "t1.soc", "4", "2", "good.plan"]).done("");
    let good = std::fs::read(folder.0.join("good.plan")).unwrap();
    let mut wrong = good.clone();
    wrong[3] = 1;
    let mut late = good.clone();
    late[12] = 1;
    // Module 0, which has pins of its own.
    let mut top = good.clone();
    top[0] = 0;
    // Without the starts, as plan files were once.
    let mut old = [&good[..12], &good[20..32], &good[40..]].concat();
    old[50] = 24;
    for content in [&[][..], &good[1..], &good[..79], &[&good[..], &[0]].concat(), &wrong, &late, &top, &old, T1.as_bytes()] {
        folder.put("x.plan", content);
        folder.run(&["show", "x.plan"]).refused(12, 0, "x.plan: this is not a good plan file or plan record", "");
    }
}

#[test]
fn refusal_13() {
    let folder = Folder::holding("x.soc", T1);
    let words = "there is no such module, or no such test in it";
    for (module, test, named, known) in [
        ("3", "1", "MODULE 3", "the modules are 0 to 2"),
        ("4294967295", "9", "MODULE 4294967295", "the modules are 0 to 2"),
        ("1", "0", "TEST 0", "the tests of module 1 are 1 to 1"),
        ("1", "2", "TEST 2", "the tests of module 1 are 1 to 1"),
        ("0", "1", "TEST 1", "module 0 has no test"),
    ] {
        folder.run(&["layout", "x.soc", module, test, "4"]).refused(13, 0, &format!("{named}: {words}: {known}"), "");
    }
    folder.run(&["time", "x.soc", "3", "4"]).refused(13, 0, &format!("MODULE 3: {words}: the modules are 0 to 2"), "");
}

#[test]
fn refusal_16() {
    let folder = Folder::holding("x.soc", T1);
    let words = "the number of capture cycles is not from 1 to 4";
    for c in ["0", "5", "4294967295"] {
        for call in [&["plan", "x.soc", "4", "2"][..], &["write", "x.soc", "4", "2", "x.plan"], &["layout", "x.soc", "9", "9", "4"]] {
            folder.run(&[call, &["--capture", c]].concat()).refused(16, 0, &format!("C {c}: {words}"), "");
        }
        folder.run(&["time", "x.soc", "9", "4", "--capture", c]).refused(16, 0, &format!("C {c}: {words}"), "");
        folder.run(&["plan", "x.soc", "4", "4", "--capture", c]).refused(8, 0, &format!("B 4: {LIMIT}"), "");
        folder.run(&["time", "x.soc", "9", "0", "--capture", c]).refused(7, 0, "WIDTH 0: the number of wires is not from 1 to 64", "");
    }
    folder.put("x.soc", T1.replace("TamUse 1", "TamUse 0"));
    folder.run(&["plan", "x.soc", "4", "2", "--capture", "5"]).refused(16, 0, &format!("C 5: {words}"), "");
    assert_eq!(folder.names(), ["x.soc"]);
}

#[test]
fn refusal_17() {
    let words = "a test of module 0 has TamUse 1: its terminals are the SOC's pins and need no access mechanism";
    let top = |test: &str| T1.replace("Module 0 TotalTests 0", &format!("Module 0 TotalTests 1\nModule 0 Test 1 {test}"));
    let line = " 6 | Module 0 Test 1 ScanUse 0 TamUse 1 Patterns 5\n   |                                  ^\n";
    text_is_refused(&top("ScanUse 0 TamUse 1 Patterns 5"), 17, 6, words, line);
    // It is said before what stands further right or below, and after what stands further left or above.
    for test in ["ScanUse 0 TamUse 1", "ScanUse 0 TamUse 1 Patterns 0", "ScanUse 0 TamUse 1 Pattern 5", "ScanUse 0 TamUse 1 Patterns 5 x"] {
        let folder = Folder::holding("x.soc", top(test).replace("Module 1 Level 1", "Module 1 Level 2"));
        assert_eq!(folder.run(&["soc", "x.soc"]).out, "refused 17 line 6\n", "{test}");
    }
    for (text, refusal) in [
        (top("ScanUse 0 TamUse 2 Patterns 5"), "3 line 6"),
        (top("ScanUse 0 TamUse"), "3 line 6"),
        (top("ScanUse 2 TamUse 1 Patterns 5"), "3 line 6"),
        (top("ScanUse 0 TamUse 1 Patterns 5").replace("Test 1 ScanUse 0", "Test 2 ScanUse 0"), "5 line 6"),
        (top("ScanUse 0 TamUse 1 Patterns 5").replace("Inputs 0", "Inputs 8192"), "4 line 4"),
        (format!("{}\u{7}", top("ScanUse 0 TamUse 1 Patterns 5")), "2 line 13"),
    ] {
        assert_eq!(Folder::holding("x.soc", text).run(&["soc", "x.soc"]).out, format!("refused {refusal}\n"));
    }
    let accepted = top("ScanUse 1 TamUse 0 Patterns 5");
    Folder::holding("x.soc", &accepted).run(&["soc", "x.soc"]).done(&accepted);
}

#[test]
fn refusals_of_the_planner_with_a_spending_limit() {
    let folder = Folder::holding("x.soc", T1);
    let tries = "the number of tries is not from 1 to 1,099,511,627,776";
    for n in ["0", "1099511627777", "18446744073709551615"] {
        folder.run(&["budget", "x.soc", "4", "2", n]).refused(18, 0, &format!("TRIES {n}: {tries}"), "");
        folder.run(&["budget", "x.soc", "4", "2", n, "--capture", "0"]).refused(
            16,
            0,
            "C 0: the number of capture cycles is not from 1 to 4",
            "",
        );
        for b in ["0", "9", "4294967295"] {
            folder.run(&["budget", "x.soc", "4", b, n, "--capture", "0"]).refused(8, 0, &format!("B {b}: {LIMIT}"), "");
        }
        folder.run(&["budget", "x.soc", "65", "9", n]).refused(7, 0, "W 65: the number of wires is not from 1 to 64", "");
    }
    let words = "a number is not decimal or is outside its limit: 0 to 4,294,967,295";
    folder.run(&["budget", "x.soc", "x", "2", "9"]).refused(4, 0, &format!("W x: {words}"), "");
    for n in ["", "x", "-1", "09", "1e6", "18446744073709551616"] {
        folder.run(&["budget", "x.soc", "4", "2", n]).wrong_call();
    }
    folder.put("x.soc", T1.replace("TamUse 1", "TamUse 0"));
    folder.run(&["budget", "x.soc", "4", "2", "0"]).refused(9, 0, "x.soc: no module is planned: none has a test with TamUse 1", "");
}

#[test]
fn standard_input_is_named_as_it_was_typed() {
    let words = "-:1: a wrong keyword, 0/1 flag, name or form, too few or too many fields, or a line after the last one due";
    Folder::new().run_with(&["soc", "-"], b"SocName").refused(3, 1, words, " 1 | SocName\n");
}
