//! Instructions, counted by valgrind's callgrind: this program is started again
//! under it, to do one task with one list a few times.

use crate::lists::List;
use crate::runners::{Outputs, Runner, Task};
use std::process::Command;

/// Counted twice, with so many repeats and with twice as many: what the start
/// takes is in both, and the difference is that of the repeats alone.
const REPEATS: usize = 2;

/// Whether valgrind is there.
pub fn possible() -> bool {
    let version = Command::new("valgrind").arg("--version").output();
    version.map_or(false, |output| output.status.success())
}

/// The instructions of a part of a runner's task with the list of this name.
pub fn instructions(runner: &Runner, task: Task, list: &str) -> f64 {
    let few = count(runner, task, list, REPEATS);
    let many = count(runner, task, list, 2 * REPEATS);
    let (parts, _) = task.parts();
    (many - few) as f64 / (REPEATS * parts) as f64
}

/// The instructions of a whole process with so many repeats.
fn count(runner: &Runner, task: Task, list: &str, repeats: usize) -> u64 {
    let file = std::env::temp_dir().join(format!("bench-callgrind-{}", std::process::id()));
    let program = std::env::current_exe().expect("the path of this program");
    let output = Command::new("valgrind")
        .arg("--tool=callgrind")
        .arg(format!("--callgrind-out-file={}", file.display()))
        .arg(program)
        .args(["--count", runner.name, task.name(), list])
        .arg(repeats.to_string())
        .output()
        .expect("valgrind");
    let said = String::from_utf8_lossy(&output.stderr);
    assert!(output.status.success(), "{}", said);
    let profile = std::fs::read_to_string(&file).expect("what callgrind counted");
    std::fs::remove_file(&file).expect("a file to remove");
    let mut lines = profile.lines();
    let total = lines.find_map(|line| line.strip_prefix("totals: "));
    total.and_then(|total| total.parse().ok()).expect("a total")
}

/// The process that is counted.
pub fn repeat(runner: &Runner, task: Task, list: &List, repeats: usize) {
    let mut work = runner.work(task, list);
    let mut outputs = Outputs::empty();
    (0..repeats).for_each(|_| work(&mut outputs));
}
