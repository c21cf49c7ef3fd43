//! The command run in a folder of a test's own, and what a run gave.

use glouds::refusals;
use std::fs;
use std::io::Write;
use std::path::PathBuf;
use std::process::{Command, Stdio};

pub const COMMAND: &str = env!("CARGO_BIN_EXE_glouds");

/// A folder of a test's own, removed at its end.
pub struct Folder(pub PathBuf);

impl Folder {
    pub fn new(name: &str) -> Self {
        let path = PathBuf::from(env!("CARGO_TARGET_TMPDIR")).join(format!("command-{name}"));
        let _ = fs::remove_dir_all(&path); // left by a run that failed
        fs::create_dir(&path).unwrap();
        Folder(path)
    }

    pub fn with(self, name: &str, bytes: &[u8]) -> Self {
        fs::write(self.0.join(name), bytes).unwrap();
        self
    }

    pub fn read(&self, name: &str) -> Vec<u8> {
        fs::read(self.0.join(name)).unwrap()
    }

    /// The names of all files, hidden ones too.
    pub fn names(&self) -> Vec<String> {
        let entries = fs::read_dir(&self.0).unwrap();
        let mut names: Vec<_> = entries
            .map(|entry| entry.unwrap().file_name().into_string().unwrap())
            .collect();
        names.sort();
        names
    }

    pub fn command(&self, arguments: &[&str]) -> Command {
        let mut command = Command::new(COMMAND);
        command.args(arguments).current_dir(&self.0);
        command
    }

    /// Runs the command with these bytes as its standard input.
    pub fn run_with(&self, arguments: &[&str], input: &[u8]) -> Ran {
        run(self.command(arguments), input)
    }

    pub fn run(&self, arguments: &[&str]) -> Ran {
        self.run_with(arguments, &[])
    }
}

impl Drop for Folder {
    fn drop(&mut self) {
        let _ = fs::remove_dir_all(&self.0);
    }
}

/// What a run gave.
#[derive(Debug)]
pub struct Ran {
    pub status: i32,
    pub output: Vec<u8>,
    pub errors: String,
}

impl Ran {
    /// Done, with this on standard output and nothing on standard error.
    pub fn done(&self, output: &[u8]) {
        assert_eq!((self.status, &self.errors[..]), (0, ""));
        assert_eq!(self.output, output);
    }

    /// Refused with this number and its words, about this file.
    pub fn refused(&self, file: &str, number: u32) {
        let words = refusals::words(number).unwrap();
        let due = format!("glouds: {file}: refused {number}: {words}\n");
        assert_eq!((self.status, &self.errors), (1, &due));
    }

    /// Trouble, in one line with this in it, and nothing on standard output.
    pub fn trouble(&self, words: &str) {
        assert_eq!((self.status, &self.output[..]), (2, &b""[..]), "{self:?}");
        assert!(self.errors.starts_with("glouds: "), "{self:?}");
        assert!(self.errors.contains(words), "{self:?}");
        assert_eq!(self.errors.lines().count(), 1, "{self:?}");
    }
}

pub fn run(mut command: Command, input: &[u8]) -> Ran {
    let streams = command.stdin(Stdio::piped()).stdout(Stdio::piped());
    let mut child = streams.stderr(Stdio::piped()).spawn().unwrap();
    let mut pipe = child.stdin.take().unwrap();
    let input = input.to_vec();
    // The command may end before it has read all.
    let feeding = std::thread::spawn(move || pipe.write_all(&input));
    let output = child.wait_with_output().unwrap();
    let _ = feeding.join().unwrap();
    Ran {
        status: output.status.code().expect("an exit status"),
        output: output.stdout,
        errors: String::from_utf8(output.stderr).unwrap(),
    }
}
