//! What the host tests share: running programs, and a seeded source of numbers.

use std::fs::read_to_string;
use std::io::{ErrorKind, Write};
use std::path::{Path, PathBuf};
use std::process::{Child, ChildStdin, Command, Output, Stdio};

pub mod driver;
pub mod model;
pub mod row;
pub mod table;
pub mod text;
pub mod told;
pub mod walk;

/// The examples by name: NAME.txt is an input of the program, NAME.report its report.
pub const EXAMPLES: [&str; 6] = ["k", "m", "late", "noon-first", "noon-second", "sprayer"];

/// The repository's folder.
pub fn repository() -> PathBuf {
    PathBuf::from(env!("CARGO_MANIFEST_DIR")).join("..")
}

/// Runs a shell script of the repository and asserts that it succeeds.
pub fn run_script(command: &mut Command) {
    let status = command.current_dir(repository()).status().expect("sh starts");
    assert!(status.success(), "{:?} ended with {}", command, status);
}

/// The program NAME of target/bin.
pub fn product(name: &str) -> PathBuf {
    let program = repository().join("target/bin").join(name);
    assert!(program.is_file(), "target/bin/{} is missing: build it by `sh host/product {}`", name, name);
    program
}

/// Starts an x86-64 program, by the emulator where one is needed, with pipes to it and from it.
pub fn start(program: &Path) -> Child {
    Command::new("sh")
        .current_dir(repository())
        .arg("host/run")
        .arg(program)
        .stdin(Stdio::piped())
        .stdout(Stdio::piped())
        .stderr(Stdio::piped())
        .spawn()
        .expect("sh starts")
}

/// Writes to a program; one that ends before it has read everything is no failure of the writer.
pub fn write_to(pipe: &mut impl Write, bytes: &[u8]) {
    match pipe.write_all(bytes) {
        Err(error) if error.kind() == ErrorKind::BrokenPipe => {}
        written => written.expect("the program takes its input"),
    }
}

/// All that a started program leaves, given the writer of its standard input.
pub fn outputs_of(mut child: Child, write: impl FnOnce(ChildStdin) + Send + 'static) -> Output {
    let pipe = child.stdin.take().expect("a pipe to its standard input");
    let writer = std::thread::spawn(move || write(pipe));
    let output = child.wait_with_output().expect("the program ends");
    writer.join().expect("all was written");
    output
}

/// What a started program writes to standard output; it must succeed, and write nothing to standard error.
pub fn output_of(child: Child, write: impl FnOnce(ChildStdin) + Send + 'static) -> Vec<u8> {
    let output = outputs_of(child, write);
    let errors = String::from_utf8_lossy(&output.stderr).into_owned();
    assert!(output.status.success() && errors.is_empty(), "the program ended with {} and wrote {}", output.status, errors);
    output.stdout
}

/// Runs an x86-64 program on the bytes of its standard input, and returns what it writes.
pub fn run(program: &Path, stdin: &[u8]) -> Vec<u8> {
    let bytes = stdin.to_vec();
    output_of(start(program), move |mut pipe| write_to(&mut pipe, &bytes))
}

/// Whether a program waits for its input: the shell that starts it has made way, and it sleeps. One that has ended waits no more.
fn waits(process: u32) -> bool {
    let about = read_to_string(format!("/proc/{}/stat", process)).unwrap_or_default();
    let state = about.rsplit(") ").next().and_then(|rest| rest.chars().next());
    !about.contains("(sh)") && state.map_or(true, |state| state == 'S' || state == 'Z')
}

/// Writes so many bytes at a time, each when the program has taken those before.
pub fn write_in_chunks(process: u32, mut pipe: ChildStdin, bytes: &[u8], chunk: usize) {
    for part in bytes.chunks(chunk) {
        while !waits(process) {
            std::thread::yield_now();
        }
        write_to(&mut pipe, part);
    }
}

/// Runs the program NAME of target/bin on the bytes of its standard input, and returns what it writes.
pub fn run_program(name: &str, stdin: &[u8]) -> Vec<u8> {
    run(&product(name), stdin)
}

/// A seeded source of numbers (splitmix64): the same numbers on every machine.
pub struct Source(pub u64);

impl Source {
    pub fn next(&mut self) -> u64 {
        self.0 = self.0.wrapping_add(0x9e37_79b9_7f4a_7c15);
        let mut z = self.0;
        z = (z ^ (z >> 30)).wrapping_mul(0xbf58_476d_1ce4_e5b9);
        z = (z ^ (z >> 27)).wrapping_mul(0x94d0_49bb_1331_11eb);
        z ^ (z >> 31)
    }

    /// A number below n.
    pub fn below(&mut self, n: u64) -> u64 {
        self.next() % n
    }

    /// One of the things in the list.
    pub fn one_of<'a, T>(&mut self, list: &'a [T]) -> &'a T {
        &list[self.below(list.len() as u64) as usize]
    }
}
