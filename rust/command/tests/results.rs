//! Every subcommand on good files.

mod common;

use common::{command, Folder, T1, T1_LISTING, T1_SHOWN};
use std::fs;
use std::io::Write;
use std::process::Stdio;

#[test]
fn plan_lists_the_best_plan() {
    let folder = Folder::holding("t1.soc", T1);
    folder.run(&["plan", "t1.soc", "4", "2"]).done(T1_LISTING);
    folder.run(&["plan", "--", "t1.soc", "4", "2"]).done(T1_LISTING);
    folder.run_with(&["plan", "-", "4", "2"], T1.as_bytes()).done(T1_LISTING);
    let on_one_bus = "soc t1 wires 4 limit 1 time 74\nbus 1 width 4 busy 74\n\
                      module 1 bus 1 wires 1 cycles 65 start 0\nmodule 2 bus 1 wires 3 cycles 9 start 65\n";
    folder.run(&["plan", "t1.soc", "4", "1"]).done(on_one_bus);
}

/// d695 needs 328,463 tries at 64 wires and three buses.
#[test]
fn budget_finishes_the_search_or_stops_it() {
    let folder = Folder::holding("t1.soc", T1);
    folder.put("d695.soc", include_str!("../../../examples/d695.soc"));
    let planned = folder.run(&["plan", "d695.soc", "64", "3"]).out;
    let finished = format!("finished\ntries 328463\n{planned}");
    folder.run(&["budget", "d695.soc", "64", "3", "328463"]).done(&finished);
    folder.run(&["budget", "d695.soc", "64", "3", "1099511627776"]).done(&finished);
    let stopped = folder.run(&["budget", "d695.soc", "64", "3", "328462"]);
    assert_eq!((stopped.status, stopped.out.starts_with("unfinished\ntries 328462\nsoc d695 ")), (Some(0), true));
    folder.run(&["budget", "t1.soc", "4", "2", "1"]).done("unfinished\ntries 1\n");
    folder.run_with(&["budget", "-", "4", "2", "1"], T1.as_bytes()).done("unfinished\ntries 1\n");
}

#[test]
fn plan_goes_on_with_the_longest_text() {
    let longest = format!("{T1}{}", "\n".repeat(61_440 - T1.len()));
    Folder::holding("t1.soc", longest).run(&["plan", "t1.soc", "4", "2"]).done(T1_LISTING);
}

#[test]
fn a_file_that_begins_with_a_hyphen() {
    let folder = Folder::holding("-t1.soc", T1);
    folder.run(&["plan", "--", "-t1.soc", "4", "2"]).done(T1_LISTING);
    folder.run(&["plan", "./-t1.soc", "4", "2"]).done(T1_LISTING);
    folder.run(&["plan", "-t1.soc", "4", "2"]).wrong_call();
}

#[test]
fn a_pipe_that_gives_a_byte_at_a_time() {
    let mut child =
        command(&["plan", "-", "4", "2"]).stdin(Stdio::piped()).stdout(Stdio::piped()).stderr(Stdio::piped()).spawn().expect("it starts");
    let mut pipe = child.stdin.take().expect("a pipe");
    for byte in T1.bytes() {
        pipe.write_all(&[byte]).expect("it reads on");
        pipe.flush().expect("it reads on");
        std::thread::yield_now();
    }
    drop(pipe);
    common::Ran::of(child.wait_with_output().expect("it ends")).done(T1_LISTING);
}

#[test]
fn soc_writes_the_written_form() {
    let loose = format!("\n{}", T1.replace(' ', " \t").replace('\n', " \r\n\r\n"));
    let folder = Folder::holding("t1.soc", loose.trim_end());
    folder.run(&["soc", "t1.soc"]).done(T1);
    folder.run_with(&["soc", "-"], T1.as_bytes()).done(T1);
}

#[test]
fn soc_writes_figures_that_are_not_given() {
    let text = "SocName x\nTotalModules 1\nOptions Power 1 XY 1\nModule 0 Level 0 Inputs 0 Outputs 0 Bidirs 0 ScanChains 0 :\n\
                Module 0 TotalTests 1\nModule 0 Test 1 ScanUse 0 TamUse 0 Patterns 3\n";
    let written =
        text.replace("Module 0 TotalTests", "Module 0 X -1 Y -1\nModule 0 TotalTests").replace("Patterns 3", "Patterns 3 Power -1");
    Folder::holding("x.soc", text).run(&["soc", "x.soc"]).done(&written);
}

/// Core A of document 000.
const CORE_A: &str = "SocName a
TotalModules 2
Options Power 0 XY 0
Module 0 Level 0 Inputs 8 Outputs 11 Bidirs 0 ScanChains 9 : 12 12 8 8 8 6 6 6 6
Module 0 TotalTests 1
Module 0 Test 1 ScanUse 1 TamUse 0 Patterns 10
Module 1 Level 1 Inputs 8 Outputs 11 Bidirs 0 ScanChains 9 : 12 12 8 8 8 6 6 6 6
Module 1 TotalTests 2
Module 1 Test 1 ScanUse 1 TamUse 1 Patterns 10
Module 1 Test 2 ScanUse 0 TamUse 0 Patterns 1
";

#[test]
fn layout_of_core_a() {
    let folder = Folder::holding("a.soc", CORE_A);
    let ran = folder.run(&["layout", "a.soc", "1", "1", "4"]);
    assert_eq!((ran.status, &ran.err[..]), (Some(0), ""));
    let lines: Vec<&str> = ran.out.lines().collect();
    assert_eq!(lines[0], "si 20 so 21 cycles 240");
    let mut chains: Vec<&str> = lines[1..5].iter().map(|line| line.split_once(" ff ").expect("a chain").1).collect();
    chains.sort_unstable();
    assert_eq!(chains, ["16 in 4 out 5 bidir 0", "18 in 2 out 3 bidir 0", "18 in 2 out 3 bidir 0", "20 in 0 out 0 bidir 0"]);
    assert_eq!(lines[5], "internal 1 chain 1");
    assert_eq!(lines.len(), 1 + 4 + 9);
}

#[test]
fn module_0_has_layouts_and_times() {
    let folder = Folder::holding("a.soc", CORE_A);
    let of_core = folder.run(&["layout", "a.soc", "1", "1", "4"]).out;
    folder.run(&["layout", "a.soc", "0", "1", "4"]).done(&of_core);
    folder.run(&["time", "a.soc", "0", "4"]).done("cycles 0 wires 1\n");
}

#[test]
fn layout_of_a_test_without_scan() {
    let folder = Folder::holding("a.soc", CORE_A);
    let internal: String = (1..=9).map(|j| format!("internal {j} chain 0\n")).collect();
    let expected = format!("si 4 so 6 cycles 11\nchain 1 ff 0 in 4 out 6 bidir 0\nchain 2 ff 0 in 4 out 5 bidir 0\n{internal}");
    folder.run(&["layout", "a.soc", "1", "2", "2"]).done(&expected);
}

#[test]
fn layout_with_bidirectional_cells() {
    let folder = Folder::holding("a.soc", CORE_A.replace("Bidirs 0", "Bidirs 3"));
    let ran = folder.run(&["layout", "a.soc", "1", "1", "4"]);
    assert_eq!((ran.status, &ran.err[..]), (Some(0), ""));
    let chains = "si 21 so 22 cycles 251\nchain 1 ff 18 in 1 out 2 bidir 2\nchain 2 ff 18 in 2 out 3 bidir 1\n\
                  chain 3 ff 16 in 5 out 5 bidir 0\nchain 4 ff 20 in 0 out 1 bidir 0\ninternal 1 chain 1\n";
    assert_eq!(&ran.out[..chains.len()], chains);
}

#[test]
fn time_and_wires() {
    let folder = Folder::holding("t1.soc", T1);
    folder.run(&["time", "t1.soc", "2", "4"]).done("cycles 9 wires 3\n");
    folder.run(&["time", "t1.soc", "0", "64"]).done("cycles 0 wires 1\n");
    folder.run_with(&["time", "-", "1", "2"], T1.as_bytes()).done("cycles 65 wires 1\n");
}

#[test]
fn more_capture_cycles() {
    let folder = Folder::holding("t1.soc", T1);
    let longer = "soc t1 wires 4 limit 2 time 80\nbus 1 width 1 busy 80\nbus 2 width 3 busy 21\n\
                  module 1 bus 1 wires 1 cycles 80 start 0\nmodule 2 bus 2 wires 3 cycles 21 start 0\n";
    folder.run(&["plan", "t1.soc", "4", "2", "--capture", "4"]).done(longer);
    folder.run(&["plan", "--capture=1", "t1.soc", "4", "2"]).done(T1_LISTING);
    folder.run(&["time", "t1.soc", "2", "4", "--capture", "2"]).done("cycles 13 wires 3\n");
    let laid = "si 1 so 1 cycles 13\nchain 1 ff 0 in 1 out 1 bidir 0\nchain 2 ff 0 in 1 out 1 bidir 0\nchain 3 ff 0 in 1 out 0 bidir 0\n";
    folder.run(&["layout", "t1.soc", "2", "1", "3", "--capture", "2"]).done(laid);
    folder.run(&["write", "t1.soc", "4", "2", "t1.plan", "--capture", "4"]).done("");
    folder.run(&["show", "t1.plan"]).done(longer.strip_prefix("soc t1 ").expect("a name"));
}

#[test]
fn write_and_show() {
    let folder = Folder::holding("t1.soc", T1);
    folder.run(&["write", "t1.soc", "4", "2", "t1.plan"]).done("");
    assert_eq!(folder.names(), ["t1.plan", "t1.soc"]);
    folder.run(&["show", "t1.plan"]).done(T1_SHOWN);
    let file = fs::read(folder.0.join("t1.plan")).unwrap();
    assert_eq!((file.len(), &file[..4], &file[64..72]), (80, &[1, 1, 1, 0][..], &[0, 0, 40, 0, 4, 2, 2, 2][..]));
    folder.run_with(&["show", "-"], &file).done(T1_SHOWN);
    let printed = command(&["write", "t1.soc", "4", "2", "-"]).current_dir(&folder.0).output().unwrap();
    assert_eq!((printed.status.code(), printed.stdout), (Some(0), file));
}

#[test]
fn write_replaces_a_file_and_leaves_nothing_else() {
    let folder = Folder::holding("t1.soc", T1);
    folder.put("t1.plan", "an older plan, longer than the new one, ".repeat(20));
    folder.run(&["write", "t1.soc", "4", "2", "./t1.plan"]).done("");
    folder.run(&["show", "t1.plan"]).done(T1_SHOWN);
    assert_eq!(folder.names(), ["t1.plan", "t1.soc"]);
}

#[test]
fn write_follows_a_link_and_keeps_devices() {
    let folder = Folder::holding("t1.soc", T1);
    folder.put("real.plan", "");
    std::os::unix::fs::symlink("real.plan", folder.0.join("link.plan")).unwrap();
    folder.run(&["write", "t1.soc", "4", "2", "link.plan"]).done("");
    folder.run(&["show", "real.plan"]).done(T1_SHOWN);
    assert!(folder.0.join("link.plan").is_symlink());
    folder.run(&["write", "t1.soc", "4", "2", "/dev/null"]).done("");
    assert!(!fs::metadata("/dev/null").unwrap().is_file());
}

/// What bash offers behind a line, with the script that the command prints.
fn offered(line: &str) -> Vec<String> {
    let script = "source <(\"$1\" completions bash)
        read -ra COMP_WORDS <<<\"$2.\"; COMP_CWORD=$((${#COMP_WORDS[@]} - 1)); COMP_WORDS[COMP_CWORD]=${COMP_WORDS[COMP_CWORD]%.}
        _tallowwing tallowwing \"${COMP_WORDS[COMP_CWORD]}\" \"${COMP_WORDS[COMP_CWORD - 1]}\"
        printf '%s\\n' \"${COMPREPLY[@]}\"";
    let command = env!("CARGO_BIN_EXE_tallowwing");
    let output = std::process::Command::new("bash").args(["-c", script, "bash", command, line]).output().expect("bash runs");
    String::from_utf8_lossy(&output.stdout).lines().map(str::to_string).collect()
}

#[test]
fn bash_completes_the_words() {
    assert_eq!(offered("tallowwing pl"), ["plan"]);
    assert_eq!(offered("tallowwing s"), ["soc", "show"]);
    assert_eq!(offered("tallowwing plan --j"), ["--json"]);
}

#[test]
fn every_shell_has_its_script() {
    let folder = Folder::new();
    for (shell, sign) in [("bash", "complete -F _tallowwing"), ("zsh", "#compdef tallowwing"), ("fish", "complete -c tallowwing")] {
        let ran = folder.run(&["completions", shell]);
        assert_eq!((ran.status, &ran.err[..]), (Some(0), ""));
        for word in [sign, "layout", "json"] {
            assert!(ran.out.contains(word), "{shell}: {word}");
        }
    }
}

#[test]
fn help_and_version() {
    let folder = Folder::new();
    let (short, full) = (folder.run(&["-h"]), folder.run(&["--help"]));
    assert_eq!((short.status, full.status), (Some(0), Some(0)));
    assert!(short.out.len() < full.out.len());
    assert!(full.out.contains("Exit status:") && full.out.contains("refused N line L"));
    for subcommand in ["plan", "budget", "soc", "layout", "time", "write", "show", "completions", "manual"] {
        assert!(short.out.contains(subcommand) && full.out.contains(subcommand));
        assert!(folder.run(&[subcommand, "--help"]).out.contains("Usage: tallowwing"));
    }
    folder.run(&["--version"]).done(concat!("tallowwing ", env!("CARGO_PKG_VERSION"), "\n"));
}
