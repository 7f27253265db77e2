//! Runs the listing program.

use std::fs::{self, File};
use std::io::{ErrorKind, Write};
use std::os::fd::AsRawFd;
use std::process::{Child, ChildStdin, Command, Output, Stdio};
use std::thread;
use std::time::Duration;

const PROGRAM: &str = "target/bin/listing";

/// How the input reaches the program.
#[derive(Clone, Debug)]
pub enum Feed {
    /// By a pipe, at once.
    Pipe,
    /// By a pipe, in pieces of these sizes in turn. The program has read a piece before the next is written.
    Pieces(Vec<usize>),
    /// From a file.
    File,
}

/// What the program writes, and its status.
pub fn run(input: &[u8], feed: &Feed) -> Output {
    let mut command = Command::new(PROGRAM);
    command.stdout(Stdio::piped()).stderr(Stdio::piped());
    if let Feed::File = feed {
        let name = "target/tests/listing.input";
        fs::write(name, input).expect("a file to read from");
        command.stdin(File::open(name).expect("a file to read from"));
        return command.output().expect("the program runs");
    }
    let mut child = command
        .stdin(Stdio::piped())
        .spawn()
        .expect("the program starts");
    let mut pipe = child.stdin.take().expect("its standard input");
    match feed {
        Feed::Pieces(sizes) => write_pieces(&mut child, &mut pipe, input, sizes),
        _ => write(&mut pipe, input),
    }
    drop(pipe);
    child.wait_with_output().expect("the program ends")
}

/// Writes the bytes. The program need not take more of them than it wants.
fn write(pipe: &mut ChildStdin, bytes: &[u8]) {
    if let Err(error) = pipe.write_all(bytes) {
        assert_eq!(error.kind(), ErrorKind::BrokenPipe);
    }
}

fn write_pieces(child: &mut Child, pipe: &mut ChildStdin, input: &[u8], sizes: &[usize]) {
    let mut rest = input;
    for &size in sizes.iter().cycle() {
        let (piece, after) = rest.split_at(size.min(rest.len()));
        write(pipe, piece);
        while unread(pipe) > 0 && child.try_wait().expect("its status").is_none() {
            thread::sleep(Duration::from_micros(10));
        }
        rest = after;
        if rest.is_empty() {
            break;
        }
    }
}

/// How many bytes in the pipe the program has not read.
fn unread(pipe: &ChildStdin) -> i32 {
    extern "C" {
        fn ioctl(file: i32, request: u64, ...) -> i32;
    }
    const FIONREAD: u64 = 0x541b;
    let mut count = 0;
    let status = unsafe { ioctl(pipe.as_raw_fd(), FIONREAD, &mut count) };
    assert_eq!(status, 0, "a pipe says how many bytes it holds");
    count
}
