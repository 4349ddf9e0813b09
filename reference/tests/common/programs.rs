//! Programs that are run, and the folders they are given.

use std::io::Write;
use std::path::{Path, PathBuf};
use std::process::{Command, Output, Stdio};

/// A folder of a test's own, not yet there.
pub fn folder(name: &str) -> PathBuf {
    let folder = PathBuf::from(env!("CARGO_TARGET_TMPDIR")).join(name);
    let _ = std::fs::remove_dir_all(&folder);
    folder
}

/// What a program, with these arguments, does with that on standard input.
pub fn given(program: &str, arguments: &[&str], input: &[u8]) -> Output {
    let mut child = Command::new(program)
        .args(arguments)
        .stdin(Stdio::piped())
        .stdout(Stdio::piped())
        .stderr(Stdio::piped())
        .spawn()
        .unwrap();
    child.stdin.take().unwrap().write_all(input).unwrap();
    child.wait_with_output().unwrap()
}

/// What a comparison with a program does.
pub fn compared(comparison: &str, program: &str, count: &str, seed: &str, folder: &Path) -> Output {
    let mut command = Command::new(comparison);
    command.args([program, count, seed]).arg(folder);
    command.output().unwrap()
}

/// A script of the shell as a program of that folder.
#[cfg(unix)]
pub fn scripted(folder: &Path, script: &str) -> String {
    std::fs::create_dir_all(folder).unwrap();
    let program = folder.join("program").display().to_string();
    let script = format!("#!/bin/sh\n{script}\n");
    let write = "printf %s \"$2\" > \"$1\" && chmod +x \"$1\"";
    let written = Command::new("/bin/sh")
        .args(["-c", write, "sh", &program, &script])
        .status();
    assert!(written.unwrap().success());
    program
}

/// What a comparison with a script of the shell prints. It must fail.
#[cfg(unix)]
pub fn difference(comparison: &str, name: &str, script: &str) -> String {
    let folder = folder(name);
    let program = scripted(&folder, script);
    let output = compared(comparison, &program, "40", "1", &folder);
    assert_eq!(output.status.code(), Some(1), "{name}");
    String::from_utf8(output.stdout).unwrap()
}
