//! Instructions, counted by callgrind.

use super::clock::MEASURED;
use std::env::current_exe;
use std::fs::File;
use std::path::Path;
use std::process::{Command, Stdio};

pub fn is_there() -> bool {
    Command::new("valgrind").arg("--version").output().is_ok_and(|output| output.status.success())
}

fn callgrind() -> Command {
    let mut command = Command::new("valgrind");
    command.args(["--tool=callgrind", "--callgrind-out-file=/dev/null"]);
    command
}

/// Runs callgrind and reads the count that it prints.
fn counted(command: &mut Command) -> u64 {
    let output = command.output().expect("valgrind runs");
    let text = String::from_utf8_lossy(&output.stderr);
    let of_line = |line: &str| line.split_once("Collected : ")?.1.trim().parse().ok();
    let count = text.lines().find_map(of_line).filter(|_| output.status.success());
    count.unwrap_or_else(|| panic!("callgrind counted nothing:\n{text}"))
}

/// Of one pass of one side of a row, in a run of this program of its own.
pub fn of_pass(row: usize, side: &str, folders: &[String]) -> u64 {
    let mut command = callgrind();
    command.arg(format!("--toggle-collect={MEASURED}"));
    command.arg(current_exe().expect("this program has a path"));
    command.args(["pass", &row.to_string(), side]).args(folders);
    counted(&mut command)
}

/// Of a whole program with a file as its input.
pub fn of_program(program: &Path, input: &Path) -> u64 {
    let file = File::open(input).unwrap_or_else(|error| panic!("{}: {error}", input.display()));
    counted(callgrind().arg(program).stdin(Stdio::from(file)))
}
