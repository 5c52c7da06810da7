//! The proved programs in target/bin: what each writes for an input, and what it does where nothing can be
//! read or written.

use std::fs::File;
use std::io::Write;
use std::process::{Child, Command, Stdio};

fn program(name: &str) -> Command {
    Command::new(format!("{}/../../target/bin/{name}", env!("CARGO_MANIFEST_DIR")))
}

/// Standard output and standard error at the end. A program that has its answer reads no further, so the
/// input need not be taken whole; it arrives in pieces of these sizes, over and over.
fn ended(mut running: Child, input: &[u8], pieces: &[usize]) -> (Vec<u8>, String) {
    let (mut stdin, input, pieces) = (running.stdin.take().unwrap(), input.to_vec(), pieces.to_vec());
    let writer = std::thread::spawn(move || {
        let mut left = &input[..];
        for piece in pieces.iter().cycle() {
            let (now, later) = left.split_at(left.len().min(*piece));
            if now.is_empty() || stdin.write_all(now).is_err() {
                return;
            }
            left = later;
        }
    });
    let output = running.wait_with_output().unwrap();
    writer.join().unwrap();
    assert_eq!(output.status.code(), Some(0));
    (output.stdout, String::from_utf8(output.stderr).unwrap())
}

/// What a program writes for an input that arrives in pieces.
pub fn answer_in_pieces(name: &str, input: &[u8], pieces: &[usize]) -> Vec<u8> {
    let mut command = program(name);
    command.stdin(Stdio::piped()).stdout(Stdio::piped()).stderr(Stdio::piped());
    let (answer, said) = ended(command.spawn().expect(name), input, pieces);
    assert_eq!(said, "");
    answer
}

/// What a program writes for an input.
pub fn answer(name: &str, input: &[u8]) -> Vec<u8> {
    answer_in_pieces(name, input, &[usize::MAX])
}

/// What a program says on standard error where nothing can be written.
pub fn complaint(name: &str, input: &[u8]) -> String {
    let full = File::options().write(true).open("/dev/full").expect("/dev/full");
    let mut command = program(name);
    command.stdin(Stdio::piped()).stdout(full).stderr(Stdio::piped());
    ended(command.spawn().expect(name), input, &[usize::MAX]).1
}

/// What a program writes where nothing can be read: its standard input is a directory.
pub fn answer_unread(name: &str) -> Vec<u8> {
    let output = program(name).stdin(File::open("/").unwrap()).output().expect(name);
    assert_eq!((output.status.code(), output.stderr), (Some(0), vec![]));
    output.stdout
}
