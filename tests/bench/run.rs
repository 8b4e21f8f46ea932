//! Other programs, run with given bytes as standard input, and what is kept of a run that went wrong.

use std::fs;
use std::io::Write;
use std::path::Path;
use std::process::{Command, Stdio};

const KEPT: &str = "target/bench-differs";

pub fn output(program: &str, arguments: &[&str], input: &[u8]) -> Result<Vec<u8>, String> {
    let told = |error: std::io::Error| format!("{program}: {error}");
    let mut command = Command::new(program);
    command
        .args(arguments)
        .stdin(Stdio::piped())
        .stdout(Stdio::piped())
        .stderr(Stdio::null());
    let mut child = command.spawn().map_err(told)?;
    let pipe = child.stdin.take();
    let finished = std::thread::scope(|scope| {
        // a program may refuse a long file before it has read all of it
        scope.spawn(move || pipe.map(|mut pipe| pipe.write_all(input).is_ok()));
        child.wait_with_output()
    });
    let output = finished.map_err(told)?;
    if output.status.success() {
        Ok(output.stdout)
    } else {
        Err(keep(
            &format!("{program}: {}", output.status),
            &[("bench", input), ("written", &output.stdout)],
        ))
    }
}

/// Saves what belongs to a failure, and says where.
pub fn keep(what: &str, parts: &[(&str, &[u8])]) -> String {
    let mut said = what.to_string();
    for (name, bytes) in parts {
        let path = Path::new(KEPT).join(name);
        match fs::create_dir_all(KEPT).and_then(|_| fs::write(&path, bytes)) {
            Ok(()) => said += &format!("\n  {}", path.display()),
            Err(error) => said += &format!("\n  {} not saved: {error}", path.display()),
        }
    }
    said
}
