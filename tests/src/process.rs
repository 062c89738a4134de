//! The printing program as a process.

use crate::model::printing::MOST_BYTES;
use std::env;
use std::io::Write;
use std::process::{Command, Stdio};

/// Returns the program, run by the emulator where there is one.
fn program() -> Command {
    let path = env::var("BELFRYCHEST_PROGRAM").expect("BELFRYCHEST_PROGRAM names the program");
    let emulator = env::var("BELFRYCHEST_EMULATOR").unwrap_or_default();
    if emulator.is_empty() {
        return Command::new(path);
    }
    let mut command = Command::new(emulator);
    command.arg(path);
    command
}

/// Returns all that the program prints of these bytes, which are handed over in pieces of this
/// length. Fails unless it ends well.
pub fn print_in_pieces(book: &[u8], piece: usize) -> String {
    let mut child = program()
        .stdin(Stdio::piped())
        .stdout(Stdio::piped())
        .stderr(Stdio::piped())
        .spawn()
        .expect("the program starts");
    let mut input = child.stdin.take().expect("the input is a pipe");
    let sent = book.chunks(piece).try_for_each(|bytes| input.write_all(bytes));
    assert!(sent.is_ok() || book.len() > MOST_BYTES, "the program doesn't read on");
    drop(input);
    let output = child.wait_with_output().expect("the program ends");
    assert_eq!((output.status.code(), &output.stderr[..]), (Some(0), &b""[..]));
    String::from_utf8(output.stdout).expect("the program prints ASCII")
}

/// Returns the same where all bytes are handed over at once.
pub fn print(book: &[u8]) -> String {
    print_in_pieces(book, book.len().max(1))
}
