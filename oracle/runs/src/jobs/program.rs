//! Programs that read a job from standard input and print its text, run as processes.
use std::env;
use std::fs::{self, File};
use std::io::{self, ErrorKind, Read, Write};
use std::os::fd::OwnedFd;
use std::os::unix::net::UnixStream;
use std::path::{Path, PathBuf};
use std::process::{self, Child, ChildStdin, Command, ExitStatus, Stdio};
use std::sync::atomic::{AtomicU64, Ordering::Relaxed};
use std::thread::sleep;
use std::time::Duration;

/// How long a piece of an input waits for the one before it to be read.
const PAUSE: Duration = Duration::from_millis(1);

/// How many jobs were files, for their names.
static FILES: AtomicU64 = AtomicU64::new(0);

/// A program, with what runs it on this processor.
pub struct Program {
    words: Vec<PathBuf>,
}

/// How a job gets to the program.
#[derive(Clone, Copy, Debug)]
pub enum Way {
    /// Through a pipe, at once.
    Pipe,
    /// Through a pipe, so many bytes at a time, with a pause after each piece, so that reads end early.
    Pieces(usize),
    /// As a file.
    File,
    /// Through a socket, where the read after the last of these bytes fails.
    Failing,
    /// Not at all: standard input is a folder, so that the first read fails.
    Folder,
    /// Not at all: standard input is closed.
    Closed,
}

/// What a program printed, and how it ended.
pub struct Printed {
    pub text: Vec<u8>,
    pub status: ExitStatus,
}

impl Program {
    /// The job program, which is for x86-64. On another processor the emulator runs it that `examples/emulator` names.
    pub fn job() -> Self {
        let emulator = Command::new(root().join("examples/emulator")).output().expect("examples/emulator starts");
        assert!(emulator.status.success(), "examples/emulator fails");
        let emulator = String::from_utf8(emulator.stdout).expect("a command in plain letters");
        let mut words: Vec<_> = emulator.lines().map(PathBuf::from).collect();
        let program = root().join("crates/job/out/job");
        assert!(program.is_file(), "{} is missing: run oracle/build", program.display());
        words.push(program);
        Self { words }
    }

    /// The repaired Rust behind the same format; where the processor is no x86-64, the script that runs it.
    pub fn rust_job() -> Self {
        Self { words: vec![root().join("target/oracle/cargo/release/rust_job")] }
    }

    /// Whether an emulator runs it.
    pub fn is_emulated(&self) -> bool {
        self.words.len() > 1
    }

    pub fn run(&self, bytes: &[u8], way: Way) -> Printed {
        match way {
            Way::Pipe => self.fed(|pipe| pipe.write_all(bytes)),
            Way::Pieces(size) => self.fed(|pipe| {
                bytes.chunks(size).try_for_each(|piece| {
                    sleep(PAUSE);
                    pipe.write_all(piece)
                })
            }),
            Way::File => {
                let number = FILES.fetch_add(1, Relaxed);
                let path = env::temp_dir().join(format!("job.{}.{number}", process::id()));
                fs::write(&path, bytes).expect("a file can be written");
                let file = File::open(&path).expect("the file is there");
                fs::remove_file(&path).expect("the file can go while it is open");
                self.started(file.into()).finished()
            }
            Way::Failing => {
                let mut read = Vec::new();
                let failed = failing(bytes).read_to_end(&mut read);
                assert!(failed.is_err() && read == bytes, "the socket gives the bytes, and then fails");
                self.started(OwnedFd::from(failing(bytes)).into()).finished()
            }
            Way::Folder => {
                let mut folder = File::open(root()).expect("a folder can be opened");
                assert!(folder.read(&mut [0]).is_err(), "a folder cannot be read");
                self.started(folder.into()).finished()
            }
            Way::Closed => {
                let mut command = Command::new("sh");
                command.args(["-c", "exec \"$@\" <&-", "sh"]).args(&self.words);
                Started::of(command, Stdio::null()).finished()
            }
        }
    }

    fn fed(&self, feed: impl Fn(&mut ChildStdin) -> io::Result<()>) -> Printed {
        let mut child = self.started(Stdio::piped());
        let mut pipe = child.0.stdin.take().expect("a pipe");
        match feed(&mut pipe) {
            // A program that has read enough may end before the rest is written.
            Err(error) if error.kind() != ErrorKind::BrokenPipe => panic!("a job cannot be written: {error}"),
            _ => drop(pipe),
        }
        child.finished()
    }

    fn started(&self, input: Stdio) -> Started {
        let mut command = Command::new(&self.words[0]);
        command.args(&self.words[1..]);
        Started::of(command, input)
    }
}

/// A socket that gives these bytes and then fails to be read: its other end is closed with a byte that it hasn't read, which Linux
/// tells the reader as a connection that was reset.
fn failing(bytes: &[u8]) -> UnixStream {
    let (mut ours, mut theirs) = UnixStream::pair().expect("two sockets");
    ours.write_all(&[0]).expect("a byte can be sent");
    theirs.write_all(bytes).expect("the bytes have room");
    ours
}

/// A program that has been started.
struct Started(Child);

impl Started {
    fn of(mut command: Command, input: Stdio) -> Self {
        command.stdin(input).stdout(Stdio::piped());
        Self(command.spawn().expect("the program starts"))
    }

    fn finished(mut self) -> Printed {
        let mut text = Vec::new();
        self.0.stdout.take().expect("a pipe").read_to_end(&mut text).expect("the text can be read");
        Printed { text, status: self.0.wait().expect("the program ends") }
    }
}

/// The folder of the whole project.
pub fn root() -> &'static Path {
    Path::new(concat!(env!("CARGO_MANIFEST_DIR"), "/../.."))
}
