//! Wrong calls (status 2), and files that cannot be read or written (status 3).

mod common;

use common::{command, Folder, Ran, T1};
use std::ffi::OsStr;
use std::fs::{self, File, OpenOptions};
use std::os::unix::ffi::OsStrExt;
use std::process::Stdio;

#[test]
fn wrong_calls() {
    let folder = Folder::holding("x.soc", T1);
    let calls: &[&[&str]] = &[
        &[],
        &["plans"],
        &["--what"],
        &["plan"],
        &["plan", "x.soc"],
        &["plan", "x.soc", "4"],
        &["plan", "x.soc", "4", "2", "1"],
        &["plan", "--what", "x.soc", "4", "2"],
        &["soc"],
        &["soc", "x.soc", "x.soc"],
        &["layout", "x.soc", "1", "1"],
        &["time", "x.soc", "1"],
        &["write", "x.soc", "4", "2"],
        &["show"],
        &["soc", "--json", "x.soc"],
        &["write", "--json", "x.soc", "4", "2", "x.plan"],
        &["completions"],
        &["manual", "x.soc"],
    ];
    for call in calls {
        folder.run(call).wrong_call();
    }
}

#[test]
fn a_shell_without_completions() {
    let ran = Folder::new().run(&["completions", "tcsh"]);
    assert_eq!((ran.status, &ran.out[..]), (Some(2), ""));
    assert!(ran.err.contains("bash, zsh, fish"), "{}", ran.err);
}

#[test]
fn numbers_that_are_no_decimals() {
    let folder = Folder::holding("x.soc", T1);
    for word in ["x", "", "-1", "+1", "01", "1.0", " 1", "4294967296", "99999999999999999999", "é"] {
        folder.run(&["layout", "x.soc", word, "1", "4"]).wrong_call();
        folder.run(&["layout", "x.soc", "1", word, "4"]).wrong_call();
        folder.run(&["layout", "x.soc", "1", "1", word]).wrong_call();
        folder.run(&["time", "x.soc", word, "4"]).wrong_call();
        folder.run(&["time", "x.soc", "1", word]).wrong_call();
        let capture = format!("--capture={word}");
        for call in [&["plan", "x.soc", "4", "2"][..], &["time", "x.soc", "1", "4"], &["layout", "x.soc", "1", "1", "4"]] {
            folder.run(&[call, &[&capture]].concat()).wrong_call();
        }
    }
}

#[test]
fn a_word_cannot_bring_further_fields_or_lines() {
    let folder = Folder::holding("x.soc", T1);
    for word in ["", " ", "4 2", "4\t2", "4\n", "4\r", "\n4", "4 2\nSocName evil", "2 "] {
        folder.run(&["plan", "x.soc", word, "2"]).wrong_call();
        folder.run(&["plan", "x.soc", "4", word]).wrong_call();
        folder.run(&["write", "x.soc", word, "2", "x.plan"]).wrong_call();
        folder.run(&["write", "x.soc", "4", word, "x.plan"]).wrong_call();
    }
    assert_eq!(folder.names(), ["x.soc"]);
}

#[test]
fn a_word_that_is_no_text_is_no_decimal() {
    let folder = Folder::holding("x.soc", T1);
    let output = command(&["plan", "x.soc"]).arg(OsStr::from_bytes(b"\xff")).arg("2").current_dir(&folder.0).output().unwrap();
    Ran::of(output).refused(4, 0, "W \\xff: a number is not decimal or is outside its limit: 0 to 4,294,967,295", "");
}

#[test]
fn files_that_cannot_be_read() {
    let folder = Folder::new();
    fs::create_dir(folder.0.join("folder")).unwrap();
    let calls: [&dyn Fn(&str) -> Ran; 6] = [
        &|file| folder.run(&["plan", file, "4", "2"]),
        &|file| folder.run(&["soc", file]),
        &|file| folder.run(&["layout", file, "1", "1", "4"]),
        &|file| folder.run(&["time", file, "1", "4"]),
        &|file| folder.run(&["write", file, "4", "2", "x.plan"]),
        &|file| folder.run(&["show", file]),
    ];
    for call in calls {
        for (file, reason) in [("none.soc", "No such file or directory"), ("folder", "Is a directory")] {
            let ran = call(file);
            assert_eq!(ran.out, "");
            ran.system(file, reason);
        }
    }
    assert_eq!(folder.names(), ["folder"]);
}

#[test]
fn an_out_that_cannot_be_written_leaves_nothing_behind() {
    let folder = Folder::holding("x.soc", T1);
    fs::create_dir(folder.0.join("folder")).unwrap();
    let write = |out: &str| folder.run(&["write", "x.soc", "4", "2", out]);
    write("none/x.plan").system("none/x.plan", "No such file or directory");
    write("x.soc/x.plan").system("x.soc/x.plan", "Not a directory");
    assert_eq!(write("folder").status, Some(3));
    assert_eq!(write("/proc/x.plan").status, Some(3));
    assert_eq!(folder.names(), ["folder", "x.soc"]);
    assert_eq!(fs::read_dir(folder.0.join("folder")).unwrap().count(), 0);
    assert_eq!(fs::read_to_string(folder.0.join("x.soc")).unwrap(), T1);
}

#[test]
fn an_unwritable_folder_keeps_what_it_holds() {
    use std::os::unix::fs::PermissionsExt;
    let folder = Folder::holding("x.soc", T1);
    let locked = folder.0.join("locked");
    fs::create_dir(&locked).unwrap();
    fs::write(locked.join("x.plan"), "older").unwrap();
    fs::set_permissions(&locked, fs::Permissions::from_mode(0o555)).unwrap();
    // Permissions do not bind the superuser.
    let bound = File::create(locked.join("probe")).is_err();
    if bound {
        folder.run(&["write", "x.soc", "4", "2", "locked/x.plan"]).system("locked/x.plan", "Permission denied");
        assert_eq!(fs::read_to_string(locked.join("x.plan")).unwrap(), "older");
        assert_eq!(fs::read_dir(&locked).unwrap().count(), 1);
    }
    fs::set_permissions(&locked, fs::Permissions::from_mode(0o755)).unwrap();
}

#[test]
fn a_full_disk_is_told() {
    let folder = Folder::holding("x.soc", T1);
    for call in [&["plan", "x.soc", "4", "2"][..], &["soc", "x.soc"], &["write", "x.soc", "4", "2", "-"], &["--help"], &["--version"]] {
        let full = OpenOptions::new().write(true).open("/dev/full").unwrap();
        let output = command(call).current_dir(&folder.0).stdout(full).output().unwrap();
        Ran::of(output).system("standard output", "No space left on device");
    }
    folder.run(&["write", "x.soc", "4", "2", "/dev/full"]).system("/dev/full", "No space left on device");
}

#[test]
fn a_reader_that_has_gone_is_no_panic() {
    let folder = Folder::holding("x.soc", T1);
    for call in [&["plan", "x.soc", "4", "2"][..], &["soc", "x.soc"], &["plan", "x.soc", "0", "2"], &["--help"]] {
        // The command waits for its standard input until nobody reads its output any more.
        let with_input: Vec<&str> = call.iter().map(|&word| if word == "x.soc" { "-" } else { word }).collect();
        let mut child = command(&with_input)
            .current_dir(&folder.0)
            .stdin(Stdio::piped())
            .stdout(Stdio::piped())
            .stderr(Stdio::piped())
            .spawn()
            .unwrap();
        drop(child.stdout.take());
        let mut input = child.stdin.take().unwrap();
        let _ = std::io::Write::write_all(&mut input, T1.as_bytes());
        drop(input);
        let ran = Ran::of(child.wait_with_output().unwrap());
        assert!(!ran.err.contains("panicked"), "{}", ran.err);
        if call[0] != "--help" {
            assert_eq!(ran.status, Some(3), "{}", ran.err);
        }
    }
}
