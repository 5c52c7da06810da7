//! The program `light`, as tests call it.

#![allow(dead_code)] // each file of tests calls some of it

use std::io::Write;
use std::process::{Command, Output, Stdio};

pub const EXAMPLES: &str = concat!(env!("CARGO_MANIFEST_DIR"), "/../../examples");

/// `light` with some arguments, in the folder of the examples, with some input.
pub fn light(arguments: &[&str], input: &str) -> Output {
    let mut command = Command::new(env!("CARGO_BIN_EXE_light"));
    command.args(arguments).current_dir(EXAMPLES);
    let mut light = command.stdin(Stdio::piped()).stdout(Stdio::piped()).stderr(Stdio::piped()).spawn().unwrap();
    // a program that ends before it reads is told by its status
    let _ = light.stdin.take().unwrap().write_all(input.as_bytes());
    light.wait_with_output().unwrap()
}

pub fn text(bytes: &[u8]) -> String {
    String::from_utf8(bytes.to_vec()).unwrap()
}

/// What it prints, where nothing goes wrong.
#[track_caller]
pub fn good(arguments: &[&str], input: &str) -> String {
    let output = light(arguments, input);
    assert_eq!((output.status.code(), text(&output.stderr).as_str()), (Some(0), ""));
    text(&output.stdout)
}

/// The one line that it says where it ends with a status.
#[track_caller]
pub fn bad(status: i32, arguments: &[&str], input: &str) -> String {
    let output = light(arguments, input);
    let said = text(&output.stderr);
    assert_eq!((output.status.code(), said.lines().count()), (Some(status), 1), "{said}");
    said.trim_end().into()
}

pub fn temporary(name: &str) -> std::path::PathBuf {
    std::env::temp_dir().join(format!("light-{}-{name}", std::process::id()))
}
