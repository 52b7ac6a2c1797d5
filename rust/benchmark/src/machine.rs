//! The kind of machine that the page was made on.

use std::fs;
use std::thread;

/// The processor's model name, or "unknown".
pub fn processor() -> String {
    let told = fs::read_to_string("/proc/cpuinfo").unwrap_or_default();
    let model = told.lines().find(|line| line.starts_with("model name"));
    model.and_then(|line| line.split_once(':')).map_or("unknown".to_string(), |(_, name)| name.trim().to_string())
}

pub fn cores() -> usize {
    thread::available_parallelism().map_or(1, |cores| cores.get())
}
