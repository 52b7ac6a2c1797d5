//! What is printed when the output is a terminal: `script` (Debian: bsdutils) gives the command one.

mod common;

use common::{Folder, T1};
use std::process::{Command, Stdio};

/// What a terminal of 60 columns shows of a call.
fn on_a_terminal(folder: &Folder, call: &str) -> String {
    let line = format!("stty rows 24 cols 60; {} {call}", env!("CARGO_BIN_EXE_tallowwing"));
    let output = Command::new("script")
        .args(["-qec", &line, "/dev/null"])
        .current_dir(&folder.0)
        .stdin(Stdio::null())
        .output()
        .expect("script runs");
    String::from_utf8_lossy(&output.stdout).replace('\r', "")
}

#[test]
fn a_plan_stands_in_columns() {
    let folder = Folder::holding("t1.soc", T1);
    let expected = "soc t1 wires 4 limit 2 time 65

bus  width  busy
  1      1    65
  2      3     9

module  bus  wires  cycles  start
     1    1      1      65      0
     2    2      3       9      0
";
    assert_eq!(on_a_terminal(&folder, "plan t1.soc 4 2"), expected);
    folder.run(&["write", "t1.soc", "4", "2", "t1.plan"]).done("");
    assert_eq!(on_a_terminal(&folder, "show t1.plan"), expected.replace("soc t1 ", ""));
}

#[test]
fn a_long_search_tells_how_far_it_is() {
    let folder = Folder::holding("d695.soc", include_str!("../../../examples/d695.soc"));
    let shown = on_a_terminal(&folder, "budget d695.soc 64 8 24000000 2>&1");
    let (told, found) = shown.rsplit_once("\x1b[K").expect("a line that is cleared");
    assert!(told.contains("tries 4000000, best time ") && told.ends_with(" tries a second"), "{told}");
    assert!(found.starts_with("unfinished\ntries 24000000\nsoc d695 wires 64 limit 8 time "), "{found}");
    let short = on_a_terminal(&folder, "budget d695.soc 64 3 328463");
    assert!(short.starts_with("finished\ntries 328463\nsoc d695 wires 64 limit 3 time "), "{short}");
}

#[test]
fn a_time_is_one_line_and_json_one_object() {
    let folder = Folder::holding("t1.soc", T1);
    assert_eq!(on_a_terminal(&folder, "time t1.soc 2 4"), "cycles 9 wires 3\n");
    assert_eq!(on_a_terminal(&folder, "time --json t1.soc 2 4"), "{\"module\":2,\"width\":4,\"capture\":1,\"cycles\":9,\"wires\":3}\n");
}

#[test]
fn a_line_is_cut_to_the_terminal() {
    let folder = Folder::holding("x.soc", T1.replace(": 10", ": 4097"));
    folder.put("y.soc", T1.replace(": 10", ": 10 x"));
    let shown = on_a_terminal(&folder, "soc x.soc");
    let line = "\n 6 | ..l 1 Inputs 0 Outputs 0 Bidirs 0 ScanChains 1 : 4097\n";
    assert!(shown.contains(line), "{shown}");
    let shown = on_a_terminal(&folder, "soc y.soc");
    let line = "\n 6 | Module 1 Level 1 Inputs 0 Outputs 0 Bidirs 0 ScanChai..\n";
    assert!(shown.contains(line), "{shown}");
}
