//! Runs the built command on real files in a folder of the test's own.
#![allow(dead_code)]

use std::fs;
use std::io::Write;
use std::path::{Path, PathBuf};
use std::process::{Command, Output, Stdio};
use std::sync::atomic::{AtomicUsize, Ordering};

/// Document 01's text t1.
pub const T1: &str = include_str!("../../../../examples/t1.soc");

pub const T1_LISTING: &str = "soc t1 wires 4 limit 2 time 65
bus 1 width 1 busy 65
bus 2 width 3 busy 9
module 1 bus 1 wires 1 cycles 65 start 0
module 2 bus 2 wires 3 cycles 9 start 0
";

pub const T1_SHOWN: &str = "wires 4 limit 2 time 65
bus 1 width 1 busy 65
bus 2 width 3 busy 9
module 1 bus 1 wires 1 cycles 65 start 0
module 2 bus 2 wires 3 cycles 9 start 0
";

static FOLDERS: AtomicUsize = AtomicUsize::new(0);

/// A folder that goes when the test ends.
pub struct Folder(pub PathBuf);

impl Folder {
    pub fn new() -> Self {
        let number = FOLDERS.fetch_add(1, Ordering::Relaxed);
        let path = std::env::temp_dir().join(format!("tallowwing-test-{}-{number}", std::process::id()));
        fs::create_dir(&path).expect("a folder for the test");
        Folder(path)
    }

    pub fn holding(name: &str, content: impl AsRef<[u8]>) -> Self {
        let folder = Folder::new();
        folder.put(name, content);
        folder
    }

    pub fn put(&self, name: &str, content: impl AsRef<[u8]>) {
        fs::write(self.0.join(name), content).expect("a file for the test");
    }

    pub fn names(&self) -> Vec<String> {
        let entries = fs::read_dir(&self.0).expect("the folder is there");
        let mut names: Vec<String> = entries.map(|entry| entry.unwrap().file_name().to_string_lossy().into_owned()).collect();
        names.sort();
        names
    }

    /// Runs the command in this folder.
    pub fn run(&self, words: &[&str]) -> Ran {
        Ran::of(command(words).current_dir(&self.0).stdin(Stdio::null()).output().expect("the command runs"))
    }

    /// Runs the command in this folder with bytes on its standard input.
    pub fn run_with(&self, words: &[&str], input: &[u8]) -> Ran {
        let mut child = command(words)
            .current_dir(&self.0)
            .stdin(Stdio::piped())
            .stdout(Stdio::piped())
            .stderr(Stdio::piped())
            .spawn()
            .expect("the command starts");
        // A command that has read enough closes its end, which is no fault.
        let _ = child.stdin.take().expect("a pipe").write_all(input);
        Ran::of(child.wait_with_output().expect("the command ends"))
    }
}

impl Drop for Folder {
    fn drop(&mut self) {
        let _ = fs::remove_dir_all(&self.0);
    }
}

pub fn command(words: &[&str]) -> Command {
    let mut command = Command::new(env!("CARGO_BIN_EXE_tallowwing"));
    command.args(words);
    command
}

/// What a run left behind.
#[derive(Debug, PartialEq, Eq)]
pub struct Ran {
    pub status: Option<i32>,
    pub out: String,
    pub err: String,
}

impl Ran {
    pub fn of(output: Output) -> Self {
        let text = |bytes: Vec<u8>| String::from_utf8_lossy(&bytes).into_owned();
        Ran { status: output.status.code(), out: text(output.stdout), err: text(output.stderr) }
    }

    #[track_caller]
    pub fn done(&self, out: &str) {
        assert_eq!((self.status, &self.out[..], &self.err[..]), (Some(0), out, ""));
    }

    /// `told` is the message without the command's name and the refusal's number, `beneath` what stands below it.
    #[track_caller]
    pub fn refused(&self, number: u32, line: u32, told: &str, beneath: &str) {
        let err = format!("tallowwing: {told} (refusal {number})\n{beneath}");
        assert_eq!((self.status, self.out.clone(), self.err.clone()), (Some(1), format!("refused {number} line {line}\n"), err));
    }

    #[track_caller]
    pub fn wrong_call(&self) {
        assert_eq!((self.status, &self.out[..]), (Some(2), ""));
        assert!(self.err.contains("Usage: tallowwing"), "{}", self.err);
    }

    #[track_caller]
    pub fn system(&self, file: impl AsRef<Path>, reason: &str) {
        let err = format!("tallowwing: {}: {reason}\n", file.as_ref().display());
        assert_eq!((self.status, &self.err[..]), (Some(3), &err[..]));
    }
}
